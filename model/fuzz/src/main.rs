//! Calls the linked library and the model with the same input, and compares the
//! answer and every byte of lent memory, with the guards around it. Or runs
//! programs on inputs, and compares what they print with the model.

mod call;
mod input;
mod lent;
mod page;
mod program;
mod raw;

use call::{run, After, Call, Library, Model, Outcome, NAMES};
use input::{Input, Stock};
use lent::{Guards, Lent};
use outline::plain::{HOLDBACK, MOST_MOVES};
use outline_model::rng::Rng;
use outline_model::{refusal, HEADER_LEN, OP_LEN};
use page::Page;
use std::time::Instant;

const USAGE: &str = "fuzz [--calls N] [--seed N] [--exact] [--without NAME]
fuzz --program PATH [--program PATH ...] [--inputs N] [--seed N]

  --calls N       how many calls to make at least (3000000)
  --seed N        where the input starts (1)
  --exact         no guards: for a memory checker, which sees every access beside lent memory
  --without NAME  leave a call out
  --program PATH  run this program, which does what outline does; no calls are then made
  --inputs N      how many inputs each program gets (1000)";

struct Options {
    calls: u64,
    seed: u64,
    exact: bool,
    without: Option<String>,
    programs: Vec<String>,
    inputs: u64,
}

fn options() -> Result<Options, String> {
    let mut options = Options {
        calls: 3_000_000,
        seed: 1,
        exact: false,
        without: None,
        programs: vec![],
        inputs: 1000,
    };
    let mut words = std::env::args().skip(1);
    while let Some(word) = words.next() {
        let mut next = || words.next().ok_or(format!("{word}: a value is missing"));
        match word.as_str() {
            "--calls" => options.calls = number(&next()?)?,
            "--seed" => options.seed = number(&next()?)?,
            "--without" => options.without = Some(next()?),
            "--exact" => options.exact = true,
            "--program" => options.programs.push(next()?),
            "--inputs" => options.inputs = number(&next()?)?,
            _ => return Err(USAGE.to_string()),
        }
    }
    Ok(options)
}

fn number(word: &str) -> Result<u64, String> {
    word.parse().map_err(|_| format!("{word} is no number"))
}

/// How often each call gave each answer: refusals by number, had it, waiting, done,
/// a value.
#[derive(Default)]
struct Tally {
    counts: [[u64; 19]; NAMES.len()],
    full: u64,
    /// Issues, deliveries and judgings in deep chains.
    deep: u64,
    /// Accepted batches of no move, of some, and of as many as there can be.
    no_moves: u64,
    some_moves: u64,
    all_moves: u64,
    /// Acceptances with a page that took back no op, some, and all that were held.
    none_back: u64,
    some_back: u64,
    all_back: u64,
}

impl Tally {
    fn add(&mut self, call: &Call, after: &After) {
        let column = match after.outcome {
            Outcome::Refused(number) => usize::from(number),
            Outcome::HadIt => 15,
            Outcome::Waiting => 16,
            Outcome::Done => 17,
            Outcome::Value(_) => 18,
        };
        self.counts[call.index()][column] += 1;
        if let (Call::Moves { nodes, .. }, Outcome::Value(_)) = (call, after.outcome) {
            match nodes.len() {
                0 => self.no_moves += 1,
                MOST_MOVES => self.all_moves += 1,
                _ => self.some_moves += 1,
            }
        }
        if let (true, Outcome::Value(end)) = (call.has_page(), after.outcome) {
            let held = (end - HEADER_LEN) / OP_LEN - 1;
            match after.taken_back {
                0 => self.none_back += 1,
                taken if taken < held => self.some_back += 1,
                _ => self.all_back += 1,
            }
        }
    }

    fn calls(&self) -> u64 {
        self.counts.iter().flatten().sum()
    }

    fn print(&self) {
        print!("{:<18}", "call");
        for column in 1..=14 {
            print!("{:>8}", format!("ref {column}"));
        }
        for column in ["had it", "waiting", "done", "value"] {
            print!("{column:>8}");
        }
        println!();
        for (name, counts) in NAMES.iter().zip(&self.counts) {
            print!("{name:<18}");
            for count in &counts[1..] {
                print!("{count:>8}");
            }
            println!();
        }
    }
}

fn hex(bytes: &[u8]) -> String {
    bytes.iter().map(|byte| format!("{byte:02x}")).collect()
}

fn main() {
    let run = options().and_then(|options| match options.programs[..] {
        [] => Ok(compare_calls(&options)),
        _ => program::compare(&options.programs, options.inputs, options.seed),
    });
    let differences = run.unwrap_or_else(|why| {
        eprintln!("{why}");
        std::process::exit(2);
    });
    std::process::exit(i32::from(differences > 0));
}

/// Makes the library's calls and tells how many answers differ.
fn compare_calls(options: &Options) -> u64 {
    let began = Instant::now();
    let mut rng = Rng::new(options.seed);
    let stock = Stock::new(&mut rng);
    let mut tally = Tally::default();
    let mut differences = 0;
    while tally.calls() < options.calls && differences < 10 {
        let input = Input::random(&mut rng, &stock);
        let guards = if options.exact {
            Guards { front: 0, back: 0 }
        } else {
            // Any alignment.
            Guards {
                front: 16 + rng.below(16),
                back: 32,
            }
        };
        let salt = rng.below(1 << 16);
        let mut ours = Lent::new(&input.buffer, guards, |i| (i ^ salt) as u8);
        let mut theirs = ours.clone();
        let mut holdback = vec![0; HOLDBACK];
        let mut page = Page::zeros();
        for _ in 0..input.calls(&mut rng) {
            let call = input.call(&mut rng, ours.get(), &holdback, &page);
            if options.without.as_deref() == Some(NAMES[call.index()]) {
                continue;
            }
            let before = ours.get().to_vec();
            let library = run::<Library>(&call, &mut ours, guards, salt);
            let model = run::<Model>(&call, &mut theirs, guards, salt);
            tally.add(&call, &model);
            if let Some(left) = model.page(&call) {
                page = left;
            }
            if let (Call::HoldbackDeliver { .. }, [_, left]) = (&call, &model.bytes[..]) {
                if model.outcome != Outcome::Refused(refusal::BAD_HOLDBACK) {
                    holdback = left.get().to_vec();
                }
            }
            if input.held >= 2000 {
                tally.full += 1;
            }
            if input.is_deep() && call.is_single() {
                tally.deep += 1;
            }
            if library != model || ours != theirs {
                differences += 1;
                println!(
                    "DIFFERENCE at call {} of seed {}",
                    tally.calls(),
                    options.seed
                );
                println!("  call     {call:?}");
                println!("  buffer   {}", hex(&before));
                for (side, after) in [("library", &library), ("model  ", &model)] {
                    let (outcome, taken_back) = (after.outcome, after.taken_back);
                    println!("  {side}  {outcome:?}, {taken_back} taken back");
                }
                println!(
                    "  buffers  {}",
                    if ours == theirs { "same" } else { "differ" }
                );
                let same = library.bytes == model.bytes && library.words == model.words;
                println!("  others   {}", if same { "same" } else { "differ" });
                break;
            }
        }
    }
    tally.print();
    println!(
        "accepted batches: {} of no move, {} of 1 to 15, {} of 16",
        tally.no_moves, tally.some_moves, tally.all_moves
    );
    println!(
        "accepted with a page: {} took back no op, {} some, {} all that were held",
        tally.none_back, tally.some_back, tally.all_back
    );
    println!(
        "{} calls with seed {}, {} of them on logs of at least 2,000 ops, {} issues, deliveries and \
         judgings in deep chains, in {:.1} s: {} differences",
        tally.calls(),
        options.seed,
        tally.full,
        tally.deep,
        began.elapsed().as_secs_f64(),
        differences
    );
    differences
}
