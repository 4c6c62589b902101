//! The page with what was found.

use crate::work::{Call, CALLS, SHAPES, SIZES};
use crate::Found;
use std::fmt::Write;

const HEAD: &str = "# Performance

Made by `model/bench/run`; do not edit.

Every call of the library is measured beside the same call in safe Rust, written with equal care for speed over the same algorithms
(model/bench/src/careful; its tests compare it with the model): no allocation, one pass for soundness, which looks up only those counts of a
version vector that have changed since its replica's op before, vectors compared four or eight counts at a time, replay level by level, a
linear listing, a bundle opened in one copy of the log, a holdback searched in place, a page compared with a replay of the log, a batch issued on
one replay. Both are compiled by LLVM at the highest level for the same processor, the Rust with its bounds checks and without checks of overflow. One program calls
both in turn, many times; the least time of each counts. It calls the library through the Rust crate, which makes a `Result` of the number that
the library answers: at `make`, of eight instructions, that is most of the time.

Logs: **flat** has adds under the root, of all eight replicas, each by itself; **deep** is one chain, each node under the one before and each
op counting all before; **random** has replicas that add, remove and move, and hear of each other now and then. The size is the number of
ops. A delivery brings the last op of a log of that size, of the lowest replica that has one which no other op counts. Issuing at 2,040
means at 2,039: a full log takes no more. Issuing a remove or a move at 0 is refused, for want of a node. Moves, paths: of
the deepest unmarked node; adds: under another.

A climb from the new parent of a move finds whether it lies below the node. In the rows **near**, **far** and **beside** the log is a chain
with one leaf under the root beside it, and the new parent is the deepest node. Near moves the node right above that one, which the climb
meets after one step; far moves the first node of the chain, which it meets at the top: both are refused, and passed over where they are
judged. Beside moves the leaf, which it does not meet on its whole way to the root: this is accepted, and applied. Where they are judged, half
of the ops are the chain and the leaf, and the others such a move again and again, each counting all before.

A batch is 16 moves to one parent, by one call, and below it the same 16 by `issue_move` one after another. They move the deepest unmarked nodes,
the very deepest first, to the parent of the other moves. At 2,040 means at 2,024: the 16 fill the log. So that one replica has 16 ops left there,
the random log is one of the seven others, and at 2,040 it begins with 239 adds of replica 1 under the root, which all others count.

A whole exchange delivers all ops of a log to an empty one, one by one, in causal order: none is early, and one pass is enough. Its log is
**interleaved**: one chain in which the eight replicas take turns, the highest first. Offered in the order of the file until none is early, its
2,040 ops would take 1,786 rounds.

A bundle is made of all ops of the log, and opened at an empty one. Two logs that meet are random logs of 1,000 ops each, one of replicas
1 to 4 and the other of 5 to 8, which have nothing in common. By bundles, each makes one for the counts of the other, and opens the one that
it gets; op by op, each delivers the ops of the other in causal order.

A delivery with a holdback: with an empty one, of the same op as by `deliver`. In the rows below that, the interleaved log lacks its last 33
ops. One **waits**: the very last comes, and 31 of the others wait; a plain delivery refuses it as early. One **frees 32**: the first comes,
and the others wait, the last of them first, so that the search starts again from the front 32 times; or the 33 come one by one, in causal
order.

A page is what judging a log says, kept beside it in three tables. The cheapest test of whether one is true is a replay of the log, with which
the whole page is compared. So a call with a page has the cost of the plain call, about that of a judgement, that of the comparison, and that of
the ops which it takes back: those that sort after the new one, and are judged again. In the rows of `page_deliver` an add of replica 1 comes to a
deep or random log of the seven others. As these hold no more than 1,785 ops, at 2,040 the log begins with 254 adds of replica 1 under the root,
which all others count. The add counts all ops of the log, and sorts **last**, or it counts those before some timestamp, so that 10 or 100 ops of
the same log sort after it: it comes **10 back** or **100 back**. The random log is the first drawn one that has such timestamps. **Untrue** is
the op of the row last at a page of which the last outcome is wrong: the page is built anew, and all ops count as taken back. Below stand the
same op by `deliver`, which does not judge, so that one row is enough, and by `deliver` and then `judge`. Issuing with a page is issuing as
without, at a true page, and takes back none.
";

pub fn text(found: &[Found]) -> String {
    let mut text = String::from(HEAD);
    if let Some(name) = processor() {
        let _ = writeln!(text, "\nProcessor: {name}.");
    }
    text.push_str("\n## Time\n\nOf a call of the library, and in brackets its ratio to the Rust: below 1 the library is faster.\n\n");
    table(&mut text, found, |found| {
        let ratio = found.times[0] / found.times[1];
        Some(format!("{} ({ratio:.2})", duration(found.times[0])))
    });
    if found.iter().any(|found| found.counts.is_some()) {
        text.push_str("\n## Instructions\n\nCounted by callgrind: of a call of the library, and in brackets the ratio to the Rust.\n\n");
        table(&mut text, found, |found| {
            let [library, rust] = found.counts?;
            let ratio = library as f64 / rust as f64;
            Some(format!("{} ({ratio:.2})", grouped(library)))
        });
    }
    text
}

fn table(text: &mut String, found: &[Found], cell: impl Fn(&Found) -> Option<String>) {
    text.push_str("| Call | Log | 0 | 100 | 1,000 | 2,040 |\n|---|---|---|---|---|---|\n");
    for call in CALLS {
        for shape in SHAPES {
            let mut row = format!("| {} | {} |", call.name(), shape.name());
            let mut some = false;
            for size in SIZES {
                let here = found
                    .iter()
                    .find(|f| f.call == call && f.shape == shape && f.size == size);
                let here = here.and_then(&cell);
                some |= here.is_some();
                let _ = write!(row, " {} |", here.unwrap_or_default());
            }
            if call == Call::Make {
                row = row.replacen("flat", "any", 1);
            }
            if some {
                text.push_str(&row);
                text.push('\n');
            }
        }
    }
}

pub fn duration(nanoseconds: f64) -> String {
    match nanoseconds {
        n if n < 100.0 => format!("{n:.1} ns"),
        n if n < 1000.0 => format!("{n:.0} ns"),
        n if n < 100_000.0 => format!("{:.1} µs", n / 1000.0),
        n if n < 1_000_000.0 => format!("{:.0} µs", n / 1000.0),
        n => format!("{:.1} ms", n / 1_000_000.0),
    }
}

/// With a comma after every three digits.
fn grouped(number: u64) -> String {
    let digits = number.to_string();
    let mut text = String::new();
    for (i, digit) in digits.chars().enumerate() {
        if i > 0 && (digits.len() - i).is_multiple_of(3) {
            text.push(',');
        }
        text.push(digit);
    }
    text
}

fn processor() -> Option<String> {
    let info = std::fs::read_to_string("/proc/cpuinfo").ok()?;
    let line = info.lines().find(|line| line.starts_with("model name"))?;
    Some(line.split(':').nth(1)?.trim().to_string())
}
