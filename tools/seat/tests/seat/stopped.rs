//! The program is killed between any two steps of a write.

use crate::common::{Folder, Ran};
use std::fs;

/// Three files, of which each lacks something, and what can be posted and opened.
fn start() -> Folder {
    let folder = Folder::new();
    for name in ["a", "b", "c"] {
        folder.done(&format!("new {name}"));
    }
    folder.done("add a 0 --out 1");
    folder.done("add a 257 --out 2");
    folder.done("add b 0 --as 2");
    folder.done("bundle a --out bundle");
    folder.done("post c tray 2");
    folder
}

fn stopped(folder: &Folder, line: &str, at: usize) -> Ran {
    let mut command = folder.command(line.split(' '));
    let output = command.env("SEAT_STOPS_AT", at.to_string()).output();
    let output = output.expect("the program starts");
    Ran {
        status: output.status.code(),
        out: output.stdout,
        err: String::from_utf8_lossy(&output.stderr).into_owned(),
    }
}

/// A file of the folder, or none.
fn file(folder: &Folder, name: &str) -> Option<Vec<u8>> {
    fs::read(folder.path().join(name)).ok()
}

/// The steps for each file that changes: a new one is made and locked, the old one is
/// read; the new one gets its rights, half of its bytes and the rest, is on the disk and
/// in its place, and then its folder is on the disk.
const STEPS: usize = 9;

/// Kills a command at every step; `names` are the files that it changes, in the order
/// in which it puts them in their places. Each is the old one or the new one, and none
/// is new before those in front of it. Afterwards the next change is done, and takes away
/// what was left.
fn at_every_step(line: &str, names: &[&str]) {
    let done = start();
    let old: Vec<_> = names.iter().map(|name| file(&done, name)).collect();
    done.done(line);
    let new: Vec<_> = names.iter().map(|name| file(&done, name)).collect();
    let mut steps = 0;
    loop {
        let folder = start();
        let ran = stopped(&folder, line, steps + 1);
        if ran.status.is_some() {
            assert_eq!(ran.status, Some(0), "{line}: {ran:?}");
            break;
        }
        steps += 1;
        let now: Vec<_> = names.iter().map(|name| file(&folder, name)).collect();
        let put =
            (0..=names.len()).find(|&put| now[..put] == new[..put] && now[put..] == old[put..]);
        assert!(put.is_some(), "{line}, step {steps}");
        for name in ["a", "b", "c"] {
            folder.done(&format!("check {name}"));
        }
        for name in names.iter().filter(|name| ["a", "b", "c"].contains(name)) {
            folder.done(&format!("add {name} 0 --as 8"));
            folder.done(&format!("check {name}"));
            assert_eq!(file(&folder, &format!(".{name}.seat-new")), None);
        }
    }
    // And more for a file that is claimed and stays as it is.
    assert!(steps >= STEPS * names.len(), "{line}: {steps} steps");
}

#[test]
fn killed_while_making_and_issuing() {
    at_every_step("new d", &["d"]);
    at_every_step("new --force a", &["a"]);
    at_every_step("add a 0", &["a"]);
    at_every_step("column a 257 258 0", &["a"]);
    at_every_step("remove a 257 --out op", &["a", "op"]);
}

#[test]
fn killed_while_meeting() {
    at_every_step("meet a b c", &["a", "b", "c"]);
    at_every_step("meet c b a", &["c", "b", "a"]);
    at_every_step("open b bundle", &["b"]);
}

#[test]
fn killed_while_posting() {
    // The log comes first: what leaves the tray is there.
    at_every_step("post c tray 1", &["c", "tray"]);
    at_every_step("post b new-tray 2", &["new-tray"]);
}

#[test]
fn killed_while_drawing() {
    at_every_step("draw a --out svg", &["svg"]);
}
