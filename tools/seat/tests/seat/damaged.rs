//! Files that are not sound.

use crate::common::{repository, Folder};
use outline::{Log, Node, Replica};
use outline_model::{self as model, rng::Rng};
use std::fs;

/// What is told of a damaged log, and that nothing changes it; of one that is sound
/// that it is.
fn judge(folder: &Folder, bytes: &[u8]) {
    folder.write("news", bytes);
    if Log::from_bytes(bytes).is_ok() || bytes.is_empty() {
        assert!(folder.done("check --plain news").starts_with("sound "));
        return;
    }
    let ran = folder.run(["check", "news"]);
    assert_eq!(ran.status, Some(1), "{bytes:?}");
    let told = ran
        .err
        .strip_prefix("seat: news: refused 1: ")
        .expect(&ran.err);
    assert!(!told.contains("finds more"), "a reason is found: {told}");
    if let Some((op, number)) = first_wrong(bytes) {
        let named =
            told.starts_with(&format!("op {op} ")) && told.contains(&format!("(number {number})"));
        assert!(named, "{op} fails with {number}, and not: {told}");
    }
    assert_eq!(folder.read("news"), bytes);
}

/// The first op that fails a test by the model, and its number, of a log that has a
/// right header and in which all ops read and stand in their places.
fn first_wrong(bytes: &[u8]) -> Option<(String, u8)> {
    let mut log = model::Log::default();
    for body in bytes.get(32..)?.chunks(14) {
        log.push(model::Op::read(body).ok()?);
    }
    let mut ops = log.ops();
    let placed = ops.all(|op| log.get(op.index(), op.sequence()) == Some(op));
    if !placed || log.bytes() != bytes {
        return None;
    }
    let wrong = log
        .ops()
        .find_map(|op| Some((op, log.test_against(op).err()?)));
    wrong.map(|(op, number)| (format!("{}:{}", op.replica, op.sequence()), number))
}

#[test]
fn a_byte_of_a_larger_log_changed() {
    let (folder, mut rng) = (Folder::new(), Rng::new(9));
    let mut log = Log::new();
    for turn in 0..60 {
        let nodes: Vec<Node> = log.tree().nodes().collect();
        let (node, parent) = (rng.pick(&nodes), rng.pick(&nodes));
        let seat = Replica::new(1 + rng.below(8) as u8).expect("a seat");
        let _ = match turn % 3 {
            0 => log.move_to(seat, node, parent),
            _ => log.add(seat, parent),
        };
    }
    let mut reasons = 0;
    for _ in 0..400 {
        let mut bytes = log.as_bytes().to_vec();
        let at = 32 + rng.below(bytes.len() - 32);
        bytes[at] = rng.below(10) as u8;
        judge(&folder, &bytes);
        reasons += usize::from(first_wrong(&bytes).is_some());
    }
    assert!(reasons > 100, "{reasons} named ops");
}

#[test]
fn every_bit_of_a_small_log_turned() {
    let folder = Folder::new();
    let file = fs::read(repository("data/p1.outline")).unwrap();
    for at in 0..file.len() {
        for bit in 0..8 {
            let mut bytes = file.clone();
            bytes[at] ^= 1 << bit;
            judge(&folder, &bytes);
        }
    }
}

#[test]
fn every_length() {
    let folder = Folder::new();
    let mut file = fs::read(repository("data/p1.outline")).unwrap();
    for length in 0..=file.len() {
        judge(&folder, &file[..length]);
    }
    file.push(0);
    judge(&folder, &file);
    judge(&folder, &[0; 28_592]);
    judge(&folder, &vec![1; 100_000]);
}

#[test]
fn a_file_that_is_not_sound_is_left() {
    let folder = Folder::new();
    folder.done("new sound");
    folder.done("add sound 0 --out op");
    folder.done("bundle sound --out bundle");
    folder.write("bad", b"a letter to the editor");
    let lines = [
        "add bad 0",
        "add --as 9 bad 0",
        "remove bad 257",
        "move bad 257 0",
        "column bad 257 0",
        "list bad",
        "path bad 0",
        "ops bad",
        "check bad",
        "meet bad sound",
        "meet sound bad",
        "bundle bad",
        "bundle sound --for-file bad",
        "open bad bundle",
        "open bad bad",
        "post bad tray op",
        "compare sound bad",
        "draw bad",
    ];
    for line in lines {
        folder.refused(1, line);
    }
    assert_eq!(folder.run(["new", "bad"]).status, Some(3));
    assert_eq!(folder.read("bad"), b"a letter to the editor");
    folder.done("new --force bad");
    assert_eq!(folder.done("meet --plain bad sound"), "1 1\n0 1\n");
}

#[test]
fn what_others_hand_over_is_not_trusted() {
    let folder = Folder::new();
    folder.done("new news");
    for parent in [0, 257, 257] {
        folder.done(&format!("add news {parent}"));
    }
    folder.done("bundle news --out bundle");
    let (bundle, mut rng) = (folder.read("bundle"), Rng::new(3));
    for _ in 0..300 {
        let mut bytes = bundle.clone();
        let at = rng.below(bytes.len());
        bytes[at] ^= 1 << rng.below(8);
        bytes.truncate(bytes.len() - rng.below(8) / 6);
        folder.write("bytes", &bytes);
        folder.write("empty", b"");
        let ran = folder.run(["open", "empty", "bytes", "--plain"]);
        assert!(matches!(ran.status, Some(0 | 1)), "{ran:?}");
        assert!(folder
            .done("check empty")
            .contains(if ran.status == Some(0) {
                "sound"
            } else {
                "no bytes"
            }));
        let ran = folder.run(["post", "empty", "bytes", "bytes"]);
        assert_eq!(ran.status, Some(1), "{ran:?}");
    }
}
