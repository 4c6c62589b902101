//! Seats that work apart and meet.

use crate::common::Folder;
use outline_model::rng::Rng;
use std::time::{Duration, Instant};

/// The nodes that a file shows.
fn nodes(folder: &Folder, file: &str) -> Vec<String> {
    let listing = folder.done(&format!("list --plain {file}"));
    let node = |line: &str| line.split(' ').nth(1).map(str::to_owned);
    listing.lines().filter_map(node).collect()
}

/// A seat does something at random, or is refused.
fn work(folder: &Folder, rng: &mut Rng, seat: usize) {
    let file = format!("{seat}.outline");
    let nodes = nodes(folder, &file);
    let nodes: Vec<&str> = nodes.iter().map(String::as_str).collect();
    let (node, parent) = (rng.pick(&nodes), rng.pick(&nodes));
    let line = match rng.below(8) {
        0..=3 => format!("add {file} {parent} --as {seat}"),
        4 => format!("remove {file} {node} --as {seat}"),
        5 => format!(
            "column {file} {node} {parent} {} --as {seat}",
            rng.pick(&nodes)
        ),
        _ => format!("move {file} {node} {parent} --as {seat}"),
    };
    let ran = folder.run(line.split(' '));
    assert!(matches!(ran.status, Some(0 | 1)), "{line}: {ran:?}");
}

#[test]
fn eight_seats_meet_in_random_pairs_until_all_are_alike() {
    let (folder, mut rng) = (Folder::new(), Rng::new(8));
    let names: Vec<String> = (1..=8).map(|seat| format!("{seat}.outline")).collect();
    for name in &names {
        folder.done(&format!("new {name}"));
    }
    for _ in 0..6 {
        for seat in 1..=8 {
            for _ in 0..3 {
                work(&folder, &mut rng, seat);
            }
        }
        let (one, other) = (rng.below(8), rng.below(7));
        let other = if other < one { other } else { other + 1 };
        folder.done(&format!("meet {} {}", names[one], names[other]));
    }
    let compare = format!("compare --plain {}", names.join(" "));
    assert!(folder.done(&compare).starts_with("differ\nlacks "));
    let mut meetings = 0;
    while folder.done(&compare) != "alike\n" {
        let (one, other) = (rng.below(8), rng.below(8));
        if one != other {
            folder.done(&format!("meet {} {}", names[one], names[other]));
        }
        meetings += 1;
        assert!(meetings < 1000, "they never come together");
    }
    let all = folder.read(&names[0]);
    assert!(names.iter().all(|name| folder.read(name) == all));
    assert!(
        all.len() > 32 + 14 * 60,
        "much was done: {} bytes",
        all.len()
    );
}

#[test]
fn nobody_loses_what_was_done_apart() {
    let folder = Folder::new();
    for seat in 1..=8 {
        folder.done(&format!("new {seat}.outline"));
        folder.done(&format!("add {seat}.outline 0 --as {seat}"));
    }
    let names: Vec<String> = (1..=8).map(|seat| format!("{seat}.outline")).collect();
    let told = folder.done(&format!("meet --plain {}", names.join(" ")));
    assert_eq!(told, "7 8\n".repeat(8));
    let told = folder.done("meet 1.outline 2.outline");
    assert_eq!(
        told,
        "1.outline: 0 ops came, 8 now\n2.outline: 0 ops came, 8 now\n"
    );
    assert_eq!(
        folder.done("check --plain 5.outline"),
        "sound 144 1,1,1,1,1,1,1,1\n"
    );
}

#[test]
fn two_machines_that_worked_as_one_seat_are_told() {
    let folder = Folder::new();
    for name in ["a", "b", "c"] {
        folder.done(&format!("new {name}"));
    }
    folder.done("add a 0");
    folder.done("meet a b c");
    folder.done("add a 0");
    folder.done("add b 257");
    let told = folder.refused(4, "meet c a b");
    assert!(
        told.starts_with("seat: a and b, op 1:2: refused 4: "),
        "{told}"
    );
    let told = folder.done("compare --plain a b c");
    assert_eq!(
        told,
        "differ\nlacks 3 1:2\nconflict 1:2\nnode 258 0k 257k -\n"
    );
    let told = folder.done("compare a b c");
    assert_eq!(told, "differ\nc lacks 1:2\nnot the same op in all: 1:2\n258: under 0 in a; under 257 in b; not in c\n");
}

#[test]
fn bundles_go_from_hand_to_hand() {
    let folder = Folder::new();
    folder.done("new a");
    folder.done("new b");
    for parent in [0, 257, 258] {
        folder.done(&format!("add a {parent}"));
    }
    folder.done("bundle a --out all");
    folder.done("open b all");
    assert_eq!(folder.read("a"), folder.read("b"));
    folder.done("remove a 259");
    assert_eq!(folder.done("check --plain b"), "sound 74 3,0,0,0,0,0,0,0\n");
    let told = folder.done("bundle a --for 3,0,0,0,0,0,0,0 --out rest");
    assert_eq!(told, "rest: 1 op, 16 bytes\n");
    let stream = folder.run("bundle a --for-file b".split(' '));
    assert_eq!(stream.out, folder.read("rest"));
    assert_eq!(folder.done("open --plain b rest"), "1\n");
    assert_eq!(folder.done("open b rest"), "b: 0 ops came, 4 now\n");
    assert_eq!(folder.read("a"), folder.read("b"));
    // By a pipe at both ends.
    folder.done("new c");
    let bundle = folder.run(["bundle", "a"]).out;
    let opened = folder.run_with(["open", "c", "-"], &bundle);
    assert_eq!(opened.text(), "c: 4 ops came, 4 now\n");
    // Cut short, or early.
    folder.write("cut", &folder.read("rest")[..15]);
    folder.done("new d");
    folder.refused(12, "open d cut");
    folder.refused(5, "open d rest");
}

/// Two logs of 1,000 ops, each in four seats.
#[test]
fn a_meeting_of_two_large_logs_is_quick() {
    let folder = Folder::new();
    for (name, seats) in [("a", 1..=4), ("b", 5..=8)] {
        let mut log = outline::Log::new();
        for op in 0..1000 {
            let seat = seats.clone().nth(op % 4).and_then(outline::Replica::new);
            log.add(seat.expect("a seat"), outline::Node::ROOT)
                .expect("room");
        }
        folder.write(name, log.as_bytes());
    }
    let start = Instant::now();
    let told = folder.done("meet a b");
    let took = start.elapsed();
    assert_eq!(
        told,
        "a: 1000 ops came, 2000 now\nb: 1000 ops came, 2000 now\n"
    );
    assert_eq!(folder.read("a"), folder.read("b"));
    println!("met in {took:?}");
    assert!(took < Duration::from_millis(500), "{took:?}");
}
