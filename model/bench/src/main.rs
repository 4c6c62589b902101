//! Measures every call of the library against the same in safe Rust, or the
//! programs, and writes docs/PERFORMANCE.md.

mod batch;
mod callgrind;
mod distance;
mod late;
mod meeting;
mod page;
mod pick;
mod program;
mod report;
mod work;

use callgrind::COUNTING;
use std::hint::black_box;
use std::path::{Path, PathBuf};
use std::sync::atomic::Ordering::Relaxed;
use std::time::Instant;
use work::{all, Side, Work};

/// What was found of one call on one log.
pub struct Found {
    pub call: work::Call,
    pub shape: work::Shape,
    pub size: usize,
    /// Nanoseconds of the library and of the Rust.
    pub times: [f64; 2],
    /// Instructions of both, where valgrind is there.
    pub counts: Option<[u64; 2]>,
}

fn main() {
    let words: Vec<String> = std::env::args().skip(1).collect();
    match words.iter().map(String::as_str).collect::<Vec<_>>()[..] {
        ["count"] => count(),
        [] => measure(40),
        ["quick"] => measure(4),
        ["programs"] => program::measure(&root(), &page()).expect("programs are run"),
        _ => {
            eprintln!("bench [quick | programs]");
            std::process::exit(2);
        }
    }
}

fn root() -> PathBuf {
    Path::new(env!("CARGO_MANIFEST_DIR")).join("../..")
}

fn page() -> PathBuf {
    root().join("docs/PERFORMANCE.md")
}

/// What runs under callgrind: every call once at each side.
fn count() {
    for (call, shape, size) in all() {
        let mut work = Work::new(call, shape, size);
        COUNTING.store(true, Relaxed);
        for side in [Side::Library, Side::Rust] {
            black_box(work.once(side));
        }
        COUNTING.store(false, Relaxed);
    }
}

fn measure(passes: usize) {
    let mut works: Vec<Work> = all()
        .map(|(call, shape, size)| Work::new(call, shape, size))
        .collect();
    let mut times = vec![[f64::MAX; 2]; works.len()];
    // Pass after pass over all, so that no call has a busy moment of the
    // machine to itself.
    for pass in 1..=passes {
        eprintln!("pass {pass} of {passes}");
        for (work, times) in works.iter_mut().zip(&mut times) {
            work.check();
            time(work, times);
        }
    }
    let mut found: Vec<Found> = all()
        .zip(times)
        .map(|((call, shape, size), times)| Found {
            call,
            shape,
            size,
            times,
            counts: None,
        })
        .collect();
    let folder = root().join("target/callgrind");
    if let Some(counts) = callgrind::counts("count", &folder) {
        assert_eq!(
            counts.len(),
            2 * found.len(),
            "a count for each call and side"
        );
        for (found, pair) in found.iter_mut().zip(counts.chunks_exact(2)) {
            found.counts = Some([pair[0], pair[1]]);
        }
    }
    let text = report::text(&found);
    print!("{text}");
    // What follows on the page is measured by itself, and stays.
    let before = std::fs::read_to_string(page()).unwrap_or_default();
    let others = [program::TITLE, "\n## Against"];
    let rest = others.iter().find_map(|title| before.find(title));
    let rest = rest.map_or("", |part| &before[part..]);
    std::fs::write(page(), text + rest).expect("docs/PERFORMANCE.md is written");
}

/// Keeps the least time of a call at each side, of some rounds in turn.
fn time(work: &mut Work, least: &mut [f64; 2]) {
    let sides = [Side::Library, Side::Rust];
    // So many calls take about half a millisecond.
    let began = Instant::now();
    let mut many = 0;
    while began.elapsed().as_micros() < 500 {
        black_box(work.once(Side::Rust));
        many += 1;
    }
    let rounds = if many == 1 { 2 } else { 6 };
    for round in 0..rounds {
        for turn in 0..2 {
            let at = (round + turn) % 2;
            let began = Instant::now();
            for _ in 0..many {
                black_box(work.once(sides[at]));
            }
            least[at] = least[at].min(began.elapsed().as_nanos() as f64 / f64::from(many));
        }
    }
}
