//! The programs from their start to their end: a process that reads a file and
//! prints. Writes the part of docs/PERFORMANCE.md that tells of them.

use crate::report::duration;
use crate::work::Shape;
use outline::{Log, Node, Replica};
use outline_model::cases::examples::{file_of, p1};
use std::fmt::Write;
use std::fs::{self, File};
use std::io;
use std::ops::RangeInclusive;
use std::path::Path;
use std::process::{Command, Stdio};
use std::time::Instant;

/// Where the part begins, and what it says above the table.
pub const TITLE: &str = "\n## The programs\n";
const HEAD: &str = "
Made by `model/bench/run programs`: the least time of a process that reads a file and prints, and beside it that of `true`, which does
neither. The log of 2,040 ops is the random one.

| Input | outline | outline-print | true |
|---|---|---|---|
";

const RUNS: usize = 400;

/// Measures the programs, and puts what was found in the place of what the page
/// had.
pub fn measure(root: &Path, page: &Path) -> io::Result<()> {
    let programs = [
        root.join("target/bin/outline"),
        root.join("target/outline-print"),
        "true".into(),
    ];
    let inputs = [
        ("no bytes", vec![]),
        ("32 bytes, no ops", file_of(&[])),
        ("P1, 4 ops", file_of(&p1())),
        ("2,040 ops", file_of(&Shape::Random.ops(2040))),
    ];
    let file = root.join("target/bench-input");
    let mut part = format!("{TITLE}{HEAD}");
    for (name, input) in inputs {
        fs::write(&file, input)?;
        let mut least = [f64::MAX; 3];
        for _ in 0..RUNS {
            for (program, least) in programs.iter().zip(&mut least) {
                *least = least.min(run(program, &file)?);
            }
        }
        let cells: Vec<String> = least.iter().map(|&time| duration(time)).collect();
        let _ = writeln!(part, "| {name} | {} |", cells.join(" | "));
    }
    fs::remove_file(&file)?;
    part.push_str(&meetings(root)?);
    print!("{part}");
    let before = fs::read_to_string(page)?;
    let begin = before.find(TITLE).or_else(|| before.find("\n## Against"));
    let begin = begin.unwrap_or(before.len());
    let end = before.find("\n## Against").unwrap_or(before.len());
    fs::write(page, [&before[..begin], &part, &before[end..]].concat())
}

const MEETINGS: &str = "
Two files meet by `seat meet`: both are read and tested, exchange bundles, and are written to new files, which go to the disk before they take
the old ones' place. Nothing is shared before, and both have all ops afterwards. The disk's part differs from machine to machine.

| Files | least | median |
|---|---|---|
";

/// Measures `seat meet` on two files.
fn meetings(root: &Path) -> io::Result<String> {
    let program = root.join("tools/seat/target/release/seat");
    let files = ["target/bench-one", "target/bench-other"].map(|name| root.join(name));
    let mut part = String::from(MEETINGS);
    for (name, ops) in [("100 ops each", 100), ("1,000 ops each", 1000)] {
        let mut times = Vec::new();
        for _ in 0..RUNS / 4 {
            fs::write(&files[0], flat(1..=4, ops).as_bytes())?;
            fs::write(&files[1], flat(5..=8, ops).as_bytes())?;
            times.push(timed(Command::new(&program).arg("meet").args(&files))?);
        }
        times.sort_by(f64::total_cmp);
        let (least, median) = (duration(times[0]), duration(times[times.len() / 2]));
        let _ = writeln!(part, "| {name} | {least} | {median} |");
    }
    files.iter().try_for_each(fs::remove_file)?;
    Ok(part)
}

/// A log of adds under the root by some replicas in turn.
fn flat(replicas: RangeInclusive<u8>, ops: usize) -> Log {
    let mut log = Log::new();
    for (replica, _) in replicas.filter_map(Replica::new).cycle().zip(0..ops) {
        log.add(replica, Node::ROOT).expect("room for it");
    }
    log
}

/// How many nanoseconds a program takes that has this file for its input.
fn run(program: &Path, file: &Path) -> io::Result<f64> {
    timed(Command::new(program).stdin(File::open(file)?))
}

/// How many nanoseconds a command takes.
fn timed(command: &mut Command) -> io::Result<f64> {
    let began = Instant::now();
    let status = command.stdout(Stdio::null()).status()?;
    let time = began.elapsed().as_nanos() as f64;
    assert!(status.success(), "{command:?} ends with {status}");
    Ok(time)
}
