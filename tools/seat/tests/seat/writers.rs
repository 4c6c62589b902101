//! Several who change a file at once.

use crate::common::Folder;
use std::sync::atomic::{AtomicBool, Ordering};
use std::thread;

/// So many commands by each of several at once, all done; on a slow disk one may say
/// that it waits.
fn at_once(
    folder: &Folder,
    writers: usize,
    times: usize,
    line: impl Fn(usize, usize) -> String + Sync,
) {
    let work = |writer: usize| {
        for time in 0..times {
            let line = line(writer, time);
            let ran = folder.run(line.split(' '));
            assert_eq!(ran.status, Some(0), "{line}: {ran:?}");
            let mut told = ran.err.lines();
            assert!(
                told.all(|told| told.contains(": waiting for ")),
                "{line}: {ran:?}"
            );
        }
    };
    thread::scope(|scope| {
        for writer in 1..=writers {
            let work = &work;
            scope.spawn(move || work(writer));
        }
    });
}

#[test]
fn two_writers_at_once_lose_nothing() {
    let folder = Folder::new();
    folder.done("new news");
    // Two of one seat on one machine: each op gets a sequence of its own.
    at_once(&folder, 2, 60, |_, _| "add news 0".into());
    assert_eq!(
        folder.done("check --plain news"),
        "sound 1712 120,0,0,0,0,0,0,0\n"
    );
    assert_eq!(folder.files().len(), 1, "nothing is left beside the file");
}

#[test]
fn eight_writers_and_readers_who_see_whole_files() {
    let folder = Folder::new();
    folder.done("new news");
    let ended = AtomicBool::new(false);
    thread::scope(|scope| {
        scope.spawn(|| {
            while !ended.load(Ordering::Relaxed) {
                folder.done("check news");
            }
        });
        at_once(&folder, 8, 15, |writer, _| {
            format!("add news 0 --as {writer}")
        });
        ended.store(true, Ordering::Relaxed);
    });
    let counts = "15,15,15,15,15,15,15,15";
    assert_eq!(
        folder.done("check --plain news"),
        format!("sound 1712 {counts}\n")
    );
}

#[test]
fn meetings_at_once_wait_for_each_other_in_one_order() {
    let folder = Folder::new();
    for name in ["a", "b", "c"] {
        folder.done(&format!("new {name}"));
    }
    let pairs = ["a b", "b c", "c a", "c b a"];
    at_once(&folder, 4, 15, |writer, time| match time % 3 {
        0 => format!("add {} 0 --as {writer}", ["a", "b", "c"][writer % 3]),
        _ => format!("meet {}", pairs[writer - 1]),
    });
    folder.done("meet a b c");
    assert_eq!(
        folder.done("check --plain b"),
        "sound 312 5,5,5,5,0,0,0,0\n"
    );
    assert_eq!(folder.files().len(), 3);
}
