//! Runs programs that do what `outline` does, and compares what they print with
//! the model.

use crate::hex;
use crate::input::{Input, Stock};
use outline_model::cases::{damage, examples};
use outline_model::rng::Rng;
use outline_model::{outline, HEADER_LEN};
use std::io::{self, Write};
use std::process::{Command, Output, Stdio};
use std::thread;
use std::time::Instant;

/// Gives so many inputs to each program and tells how many answers differ.
pub fn compare(programs: &[String], inputs: u64, seed: u64) -> Result<u64, String> {
    let began = Instant::now();
    let mut rng = Rng::new(seed);
    let stock = Stock::new(&mut rng);
    let mut tally = Tally::default();
    let mut differences = 0;
    for place in 1..=inputs {
        let input = random(&mut rng, &stock);
        let expected = outline(&input);
        tally.add(&input, &expected);
        for program in programs {
            let output = run(program, &input).map_err(|why| format!("{program}: {why}"))?;
            if !is_right(&output, &expected) {
                differences += 1;
                println!("DIFFERENCE at input {place} of seed {seed}");
                println!("  program  {program}, {}", output.status);
                println!("  input    {} bytes {}", input.len(), hex(&input));
                println!("  printed  {:?}", text(&output.stdout));
                println!("  errors   {:?}", text(&output.stderr));
                println!("  model    {:?}", text(&expected));
            }
        }
    }
    println!(
        "{inputs} inputs with seed {seed} for each program, in {:.1} s",
        began.elapsed().as_secs_f64(),
    );
    println!(
        "{} of no bytes, {} short (1 to 31), {} refused, {} printed: {differences} differences",
        tally.no_bytes, tally.short, tally.refused, tally.printed,
    );
    Ok(differences)
}

/// How many inputs there were: by length, and by what the model prints.
#[derive(Default)]
struct Tally {
    no_bytes: u64,
    short: u64,
    refused: u64,
    printed: u64,
}

impl Tally {
    fn add(&mut self, input: &[u8], expected: &[u8]) {
        match input.len() {
            0 => self.no_bytes += 1,
            1..HEADER_LEN => self.short += 1,
            _ => {}
        }
        if expected.starts_with(b"refused") {
            self.refused += 1;
        } else {
            self.printed += 1;
        }
    }
}

/// The program refuses bytes past the end, which most buffers of the library's
/// calls have, so about half of the inputs are files as they are.
fn random(rng: &mut Rng, stock: &Stock) -> Vec<u8> {
    let input = Input::random(rng, stock);
    match rng.below(9) {
        0 | 1 => short(rng),
        2 => long(rng, stock),
        3 => input.buffer,
        4 => damage::record(rng, &input.file()),
        _ => input.file(),
    }
}

/// The largest file, or that and more than a program needs to read.
fn long(rng: &mut Rng, stock: &Stock) -> Vec<u8> {
    let mut input = stock.largest(rng);
    input.resize(input.len() + rng.pick(&[0, 1, 2, 100, 40_000]), 0);
    input
}

/// No bytes, or up to a few more than a header has.
fn short(rng: &mut Rng) -> Vec<u8> {
    let length = match rng.below(2) {
        0 => rng.pick(&[0, 1, HEADER_LEN - 1, HEADER_LEN]),
        _ => rng.below(41),
    };
    let mut input = match rng.below(4) {
        0 => vec![],
        1 => examples::file_of(&[]),
        2 => examples::file_of(&examples::p1()),
        _ => (0..length).map(|_| rng.byte()).collect(),
    };
    input.resize(length, 0);
    input
}

/// Runs a program with this standard input. A thread writes it, since the
/// program may print before it has read all.
fn run(program: &str, input: &[u8]) -> io::Result<Output> {
    let mut child = Command::new(program)
        .stdin(Stdio::piped())
        .stdout(Stdio::piped())
        .stderr(Stdio::piped())
        .spawn()?;
    let stdin = child.stdin.take();
    thread::scope(|scope| {
        // A program that ends before it has read all breaks the pipe; only what
        // it prints counts.
        scope.spawn(move || stdin.map(|mut pipe| pipe.write_all(input)));
        child.wait_with_output()
    })
}

/// The documents say nothing of an exit status, so any will do but a signal.
fn is_right(output: &Output, expected: &[u8]) -> bool {
    output.stdout == expected && output.stderr.is_empty() && output.status.code().is_some()
}

fn text(bytes: &[u8]) -> String {
    String::from_utf8_lossy(bytes).into_owned()
}
