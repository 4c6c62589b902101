//! Ops that come by post.

use crate::common::Folder;

/// A log of four ops in `a`, and each op in a file of its own: 1 to 4.
fn posted() -> Folder {
    let folder = Folder::new();
    folder.done("new a");
    folder.done("new b");
    folder.done("add a 0 --out 1");
    folder.done("add a 257 --out 2");
    folder.done("add a 0 --out 3");
    folder.done("move a 258 259 --out 4");
    folder
}

#[test]
fn early_ops_wait_in_the_tray() {
    let folder = posted();
    assert_eq!(folder.done("post b tray 4 2"), "b: 0 ops came, 2 waiting\n");
    assert_eq!(folder.read("tray").len(), 449);
    assert_eq!(folder.read("b").len(), 32);
    assert_eq!(folder.done("post --plain b tray 4"), "waiting\n2 0\n");
    assert_eq!(folder.done("post --plain b tray 1"), "accepted 60\n1 0\n");
    assert_eq!(
        folder.done("post --plain b tray 1 3"),
        "had\naccepted 88\n0 0\n"
    );
    assert_eq!(folder.read("a"), folder.read("b"));
    assert_eq!(folder.read("tray"), [0; 449]);
}

#[test]
fn several_ops_in_one_file_and_on_standard_input() {
    let folder = posted();
    let all: Vec<u8> = ["3", "4", "2", "1"]
        .iter()
        .flat_map(|op| folder.read(op))
        .collect();
    folder.write("all", &all);
    assert_eq!(folder.done("post b tray all"), "b: 4 ops came, 0 waiting\n");
    folder.done("new c");
    let ran = folder.run_with(["post", "c", "c.tray", "-"], &all);
    assert_eq!(ran.text(), "c: 4 ops came, 0 waiting\n");
    assert_eq!(folder.read("b"), folder.read("c"));
    // The log by standard input and output, and what is told aside.
    let ran = folder.run_with(["post", "-", "d.tray", "all"], b"");
    assert_eq!(
        (ran.out, &ran.err[..]),
        (folder.read("a"), "-: 4 ops came, 0 waiting\n")
    );
}

#[test]
fn what_waits_is_offered_again_after_a_bundle() {
    let folder = posted();
    folder.done("post b tray 4");
    folder.done("bundle a --out all");
    folder.done("new c");
    folder.done("post c tray.c 2 3");
    folder.write("b", &folder.read("c"));
    assert_eq!(folder.done("post b tray"), "b: 0 ops came, 1 waiting\n");
    folder.done("open c all");
    // Both are there by now.
    assert_eq!(folder.done("post --plain c tray.c"), "0 2\n");
    assert_eq!(folder.read("tray.c"), [0; 449]);
    assert_eq!(folder.read("a"), folder.read("c"));
}

#[test]
fn post_that_is_refused_changes_nothing() {
    let folder = posted();
    folder.write("short", &folder.read("1")[..13]);
    folder.write("none", b"");
    folder.refused(2, "post b tray short");
    folder.refused(2, "post b tray none");
    folder.refused(2, "post b tray 1 2 short");
    let mut wrong = folder.read("1");
    wrong[1] = 9;
    folder.write("wrong", &wrong);
    let told = folder.refused(3, "post b tray 1 wrong");
    assert!(told.starts_with("seat: wrong, op 1: "), "{told}");
    folder.write("bad", &[7; 449]);
    folder.refused(14, "post b bad 1");
    folder.refused(14, "post b none 1");
    folder.refused(14, "post b 1 1");
    // 32 wait, and one more has no place.
    folder.done("new c");
    for op in 5..39 {
        folder.done(&format!("add a 0 --out {op}"));
    }
    for op in 5..37 {
        folder.done(&format!("post c full {op}"));
    }
    folder.refused(13, "post c full 37");
    assert_eq!(folder.done("post c full 36"), "c: 0 ops came, 32 waiting\n");
    assert_eq!(
        folder.done("post c full 1 2 3 4"),
        "c: 36 ops came, 0 waiting\n"
    );
}

#[test]
fn an_op_that_is_dropped_is_told() {
    let folder = posted();
    // Another 1:2 came before the one that waits.
    folder.write("other", &folder.read("b"));
    for line in [
        "post other t 1",
        "add other 0",
        "post b tray 2",
        "bundle other --out bundle",
        "open b bundle",
    ] {
        folder.done(line);
    }
    assert_eq!(
        folder.done("post b tray"),
        "b: 0 ops came, 0 waiting, 1 dropped\n"
    );
    // So does one that waits for another outline in the same tray.
    folder.done("new c");
    folder.done("post c tray 2");
    folder.write("d", &folder.read("b"));
    folder.done("add --as 3 d 0 --out 5");
    assert_eq!(folder.done("post --plain b tray 5"), "accepted 74\n0 1\n");
}
