//! Exit statuses, messages, and arguments of every kind.

use crate::common::Folder;
use outline_model::rng::Rng;
use std::ffi::OsString;
use std::fs;
use std::os::unix::ffi::OsStringExt;

/// Lines of words, the first of none.
const ASKED_WRONGLY: &str = "
nothing
-x
--plain
list
list a b
list --wrong a
list --skipping=1 a
list -s a
add a
add a zero
add a -1
add a 1x
add a 0 --as
add a 0 --as two
add a 0 --as=
move a 1
column a
meet a
meet a a
meet a ./a
compare a
open a
post a
post a -
bundle a --for 1,2,3
bundle a --for 1,2,3,4,5,6,7,256
bundle a --for 1,2,3,4,5,6,7,8,9
bundle a --for a --for-file a
bundle a --for +1,0,0,0,0,0,0,0
bundle a --out ./a
draw a --out a
add a 0 --out a
draw";

#[test]
fn what_is_asked_wrongly_ends_with_2_and_says_how_to_ask() {
    let folder = Folder::new();
    folder.done("new a");
    folder.done("new b");
    for line in ASKED_WRONGLY.lines() {
        let ran = folder.run(line.split(' ').filter(|word| !word.is_empty()));
        assert_eq!((ran.status, ran.out.len()), (Some(2), 0), "{line}: {ran:?}");
        assert!(
            ran.err.starts_with("seat: ") && ran.err.contains("seat "),
            "{line}: {}",
            ran.err
        );
    }
    // Which seat is not guessed.
    let mut command = folder.command(["add", "a", "0"]);
    let output = command
        .env_remove("SEAT")
        .output()
        .expect("the program starts");
    assert_eq!(output.status.code(), Some(2));
    assert_eq!(folder.done("check --plain a"), "sound 32 0,0,0,0,0,0,0,0\n");
}

#[test]
fn refusals_come_in_the_documents_order() {
    let folder = Folder::new();
    folder.done("new a");
    // 3 before 7, and numbers that are too large are like any other that is none.
    for seat in ["0", "9", "255", "256", "99999999999999999999"] {
        folder.refused(3, &format!("add a 999 --as {seat}"));
    }
    for node in ["1", "256", "257", "65535", "65536", "99999999999999999999"] {
        folder.refused(7, &format!("add a {node}"));
        folder.refused(7, &format!("path a {node}"));
    }
    folder.refused(7, "remove a 0");
    folder.done("add a 0");
    folder.refused(7, "move a 0 257");
    folder.refused(7, "move a 257 257");
    folder.done("add a 257");
    folder.refused(10, "move a 257 258");
    let told = folder.refused(10, "move a 257 258");
    assert!(told.contains("Move the parent elsewhere first"), "{told}");
}

#[test]
fn a_seat_that_has_issued_255_ops_is_told() {
    let folder = Folder::new();
    let mut log = outline::Log::new();
    let seat = outline::Replica::new(1).expect("a seat");
    for _ in 0..254 {
        log.add(seat, outline::Node::ROOT).expect("room");
    }
    folder.write("a", log.as_bytes());
    folder.refused(9, "column a 257 258 259");
    folder.done("add a 0");
    // 9 before 7.
    folder.refused(9, "add a 999");
    folder.done("add a 0 --as 2");
}

#[test]
fn what_is_made_is_not_written_over_by_mistake() {
    let folder = Folder::new();
    folder.done("new a");
    folder.done("new b");
    folder.done("add a 0");
    let before = folder.files();
    for line in [
        "new a",
        "bundle a --out b",
        "draw a --out b",
        "add a 0 --out b",
    ] {
        let ran = folder.run(line.split(' '));
        assert_eq!(ran.status, Some(3), "{line}: {ran:?}");
        assert!(
            ran.err.contains("is there already; "),
            "{line}: {}",
            ran.err
        );
        assert_eq!(folder.files(), before, "{line}");
    }
    // Only a new outline may take the place of whatever is there.
    for line in [
        "bundle a --out b --force",
        "draw a --out b --force",
        "add a 0 --out b --force",
    ] {
        assert_eq!(folder.run(line.split(' ')).status, Some(2), "{line}");
    }
    folder.done("new a --force");
    assert_eq!(folder.read("a").len(), 32);
}

#[test]
fn a_file_of_no_bytes_is_an_outline_without_ops() {
    let folder = Folder::new();
    folder.write("a", b"");
    assert_eq!(folder.done("list a"), "0\n");
    assert_eq!(folder.done("ops --plain a"), "");
    assert_eq!(
        folder.done("check a"),
        "a: no bytes yet, which is an outline without ops\n"
    );
    folder.write("b", b"");
    assert_eq!(folder.done("compare a b"), "alike\n");
    folder.done("add a 0");
    assert_eq!(folder.read("a").len(), 46);
    folder.done("new b");
    assert_eq!(folder.read("b").len(), 32);
}

#[test]
fn what_plain_prints_does_not_change_between_versions() {
    let folder = Folder::new();
    let lines = [
        ("new --plain a", ""),
        ("add --plain a 0", "257\n"),
        ("add --plain a 257", "258\n"),
        ("move --plain a 258 0", "1:3\n"),
        ("remove --plain a 257", "1:4\n"),
        ("column --plain a 258 0", "1:5\n"),
        ("column --plain a 0", ""),
        ("list --plain a", "0 0 k\n1 258 k\n"),
        ("path --plain a 258", "258 0\n"),
        ("check --plain a", "sound 102 5,0,0,0,0,0,0,0\n"),
        ("new --plain b", ""),
        ("compare --plain a b", "differ\nlacks 2 1:1\nlacks 2 1:2\nlacks 2 1:3\nlacks 2 1:4\nlacks 2 1:5\nnode 257 0r -\nnode 258 0k -\n"),
        ("bundle --plain a --out all", "5 72\n"),
        ("open --plain b all", "5\n"),
        ("compare --plain a b", "alike\n"),
        ("meet --plain a b", "0 5\n0 5\n"),
        ("draw --plain a --out svg", ""),
    ];
    for (line, printed) in lines {
        assert_eq!(folder.done(line), printed, "{line}");
    }
    let ops = "1:1 1 257 0 0,0,0,0,0,0,0,0 1 1\n1:2 1 258 257 1,0,0,0,0,0,0,0 2 1\n\
        1:3 3 258 0 2,0,0,0,0,0,0,0 3 1\n1:4 2 257 0 3,0,0,0,0,0,0,0 4 1\n1:5 3 258 0 4,0,0,0,0,0,0,0 5 1\n";
    assert_eq!(folder.done("ops --plain a"), ops);
}

#[test]
fn the_largest_logs_are_listed_and_drawn() {
    let folder = Folder::new();
    for (name, deep) in [("deep", true), ("flat", false)] {
        let (mut log, mut parent) = (outline::Log::new(), outline::Node::ROOT);
        for (seat, _) in outline::Replica::all().cycle().zip(0..2040) {
            let node = log.add(seat, parent).expect("room").node();
            parent = if deep { node } else { parent };
        }
        folder.write(name, log.as_bytes());
        assert_eq!(folder.done(&format!("list {name}")).lines().count(), 2041);
        assert_eq!(folder.done(&format!("ops {name}")).lines().count(), 2041);
        folder.done(&format!("draw --moves {name} --out {name}.svg"));
        for line in ["add {} 0", "remove {} 0", "check {}"] {
            let line = line.replace("{}", name);
            assert!(
                folder
                    .run(line.split(' '))
                    .status
                    .is_some_and(|status| status < 2),
                "{line}"
            );
        }
    }
}

const COMMANDS: [&str; 15] = [
    "new", "add", "remove", "move", "column", "list", "path", "ops", "check", "meet", "bundle",
    "open", "post", "compare", "draw",
];

/// Words that mean something somewhere.
const WORDS: &str = "
a b tray op missing/x - -- --plain --help --force --moves --skipping --as --as=2
--out --out=c --for --for=0,0,0,0,0,0,0,0 --for-file=b 0 257 258 513 65536 1 --=
--version /dev/null /dev/full
";

/// A word, or something that is none.
fn word(rng: &mut Rng) -> OsString {
    match rng.below(12) {
        0 => OsString::from_vec(
            (0..rng.below(5))
                .map(|_| (rng.below(255) + 1) as u8)
                .collect(),
        ),
        1 => rng.pick(&COMMANDS).into(),
        2..=6 => rng
            .pick(&["0", "257", "258", "513", "999", "a", "b"])
            .into(),
        7 => rng.pick(&["", " "]).into(),
        _ => rng
            .pick(&WORDS.split_whitespace().collect::<Vec<_>>())
            .into(),
    }
}

#[test]
fn no_arguments_make_it_panic() {
    let (folder, mut rng) = (Folder::new(), Rng::new(5));
    let mut ended = [0; 4];
    for round in 0..1500 {
        if round % 50 == 0 {
            let _ = fs::remove_file(folder.path().join("op"));
            for (name, line) in [("a", "add a 0 --out=op"), ("b", "add b 0 --as=2")] {
                folder.done(&format!("new --force {name}"));
                folder.done(line);
            }
            folder.write("tray", &[0; 449]);
        }
        let mut args: Vec<OsString> = Vec::new();
        // Half of them begin as they should.
        if rng.below(2) == 0 {
            args.extend([rng.pick(&COMMANDS).into(), "a".into()]);
        }
        args.extend((0..rng.below(6)).map(|_| word(&mut rng)));
        let ran = folder.run_with(&args, &folder.read("op"));
        assert!(matches!(ran.status, Some(0..=3)), "{args:?}: {ran:?}");
        assert_eq!(
            ran.status == Some(0),
            !ran.err.starts_with("seat: ") && !ran.err.starts_with("refused "),
            "{args:?}: {ran:?}"
        );
        ended[ran.status.unwrap_or(0) as usize] += 1;
    }
    assert!(ended.iter().all(|&times| times > 20), "{ended:?}");
}
