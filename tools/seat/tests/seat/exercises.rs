//! The exercises of the document, played by commands as a class would.

use crate::common::{repository, Folder};
use std::fs;

/// Each seat begins with a file of its own.
fn class(seats: usize) -> Folder {
    let folder = Folder::new();
    for seat in 1..=seats {
        folder.done(&format!("new {seat}.outline"));
    }
    folder
}

/// All seats meet.
fn meet(folder: &Folder, seats: usize) {
    let names: Vec<String> = (1..=seats).map(|seat| format!("{seat}.outline")).collect();
    folder.done(&format!("meet {}", names.join(" ")));
    assert_eq!(
        folder.done(&format!("compare {}", names.join(" "))),
        "alike\n"
    );
    for name in &names {
        assert_eq!(folder.read(name), folder.read("1.outline"));
    }
}

#[test]
fn p1_two_moves_that_close_a_circle() {
    let class = class(2);
    assert_eq!(class.done("add 1.outline 0 --plain"), "257\n");
    assert_eq!(class.done("add 1.outline 0 --plain"), "258\n");
    meet(&class, 2);
    class.done("move 1.outline 258 257");
    class.done("move --as 2 2.outline 257 258");
    let told = class.done("compare 1.outline 2.outline");
    let expected = "differ\n1.outline lacks 2:1\n2.outline lacks 1:3\n\
        257: under 0 in 1.outline; under 258 in 2.outline\n\
        258: under 257 in 1.outline; under 0 in 2.outline\n";
    assert_eq!(told, expected);
    meet(&class, 2);
    // As the document has the file and the listing.
    let file = fs::read(repository("data/p1.outline")).unwrap();
    assert_eq!(class.read("1.outline"), file);
    assert_eq!(
        class.done("list --plain 2.outline"),
        "0 0 k\n1 258 k\n2 257 k\n"
    );
    let ops = class.done("ops --plain 1.outline");
    assert!(
        ops.ends_with("\n1:3 4 258 257 2,0,0,0,0,0,0,0 3 3\n"),
        "{ops}"
    );
    let ops = class.done("ops 1.outline");
    assert!(
        ops.ends_with("  3 left out, 257 was 1 below 258\n"),
        "{ops}"
    );
}

#[test]
fn p10_three_moves_of_which_no_two_clash() {
    let class = class(3);
    for _ in 0..3 {
        class.done("add 1.outline 0");
    }
    meet(&class, 3);
    class.done("move 1.outline 257 258");
    class.done("move --as 2 2.outline 258 259");
    class.done("move --as 3 3.outline 259 257");
    meet(&class, 3);
    let ops = class.done("ops --plain 1.outline");
    let moves: Vec<&str> = ops.lines().skip(3).collect();
    let expected = [
        "3:1 4 259 257 3,0,0,0,0,0,0,0 4 1",
        "2:1 4 258 259 3,0,0,0,0,0,0,0 4 1",
        "1:4 4 257 258 3,0,0,0,0,0,0,0 4 3",
    ];
    assert_eq!(moves, expected);
    assert_eq!(
        class.done("list 3.outline"),
        "0\n  257\n    259\n      258\n"
    );
    let ops = class.done("ops 2.outline");
    assert!(ops.ends_with("3 left out, 258 was 2 below 257\n"), "{ops}");
}

#[test]
fn p11_an_upward_move_that_loses() {
    let class = class(3);
    for _ in 0..3 {
        class.done("add --as 3 3.outline 0");
    }
    meet(&class, 3);
    let told = class.done("move 1.outline 769 771") + &class.done("move 1.outline 769 770");
    assert_eq!(
        told,
        "1:1 put 769 under 771, downward\n1:2 put 769 under 770, upward\n"
    );
    class.done("move --as 2 2.outline 770 771");
    class.done("move --as 2 2.outline 770 769");
    meet(&class, 3);
    let ops = class.done("ops --plain 3.outline");
    let moves: Vec<&str> = ops.lines().skip(3).collect();
    let expected = [
        "2:1 4 770 771 0,0,3,0,0,0,0,0 4 1",
        "1:1 4 769 771 0,0,3,0,0,0,0,0 4 1",
        "2:2 3 770 769 0,1,3,0,0,0,0,0 5 1",
        "1:2 3 769 770 1,0,3,0,0,0,0,0 5 3",
    ];
    assert_eq!(moves, expected);
    assert_eq!(
        class.done("path 1.outline 770"),
        "770 under 769 under 771 under 0\n"
    );
    assert_eq!(class.done("path 1.outline 770 --plain"), "770 769 771 0\n");
}

#[test]
fn p12_a_downward_move_gives_way_to_an_upward_one() {
    let class = class(2);
    for parent in [0, 257, 0, 259] {
        class.done(&format!("add 1.outline {parent}"));
    }
    meet(&class, 2);
    assert_eq!(
        class.done("move 1.outline 258 0"),
        "1:5 put 258 under 0, upward\n"
    );
    class.done("move --as 2 2.outline 258 260");
    meet(&class, 2);
    let ops = class.done("ops 1.outline");
    assert!(ops.ends_with("  2 gave way to 1:5\n"), "{ops}");
    assert_eq!(class.done("path --plain 2.outline 258"), "258 0\n");
}

#[test]
fn a_tidy_up_of_three_seats() {
    let class = class(3);
    class.write(
        "1.outline",
        &fs::read(repository("data/tidy-up.outline")).unwrap(),
    );
    meet(&class, 3);
    assert_eq!(
        class.done("list 3.outline"),
        "0\n  257\n    259\n  258\n    260\n"
    );
    // Whoever moved the same node gave way to the highest seat; none closed a circle.
    let ops = class.done("ops --plain 2.outline");
    let outcomes: Vec<&str> = ops.lines().skip(4).map(|op| &op[op.len() - 1..]).collect();
    assert_eq!(outcomes, ["1", "1", "2"]);
}

#[test]
fn removed_nodes_take_no_new_work() {
    let class = class(1);
    class.done("add 1.outline 0");
    class.done("add 1.outline 257");
    class.done("add 1.outline 0");
    assert_eq!(class.done("remove 1.outline 257"), "1:4 removed 257\n");
    class.refused(11, "add 1.outline 257");
    class.refused(11, "move 1.outline 257 259");
    class.refused(11, "move 1.outline 259 257");
    assert_eq!(
        class.done("list 1.outline"),
        "0\n  257 (removed)\n    258\n  259\n"
    );
    assert_eq!(class.done("list --skipping 1.outline"), "0\n  259\n");
    assert_eq!(
        class.done("path 1.outline 258"),
        "258 under 257 (removed) under 0\n"
    );
    assert_eq!(
        class.done("list --skipping --plain 1.outline"),
        "0 0 k\n1 259 k\n"
    );
}

#[test]
fn a_column_is_whole_at_issue() {
    let class = class(2);
    for _ in 0..4 {
        class.done("add 1.outline 0");
    }
    meet(&class, 2);
    class.done("add 1.outline 257");
    class.refused(10, "column 1.outline 258 257 261");
    class.refused(7, "column 1.outline 257 999 259");
    let many = "257 ".repeat(17);
    class.refused(2, &format!("column 1.outline {many}259"));
    assert_eq!(class.done("column 1.outline 0"), "nothing to move\n");
    assert_eq!(
        class.done("column --plain 1.outline 257 258 259"),
        "1:6\n1:7\n"
    );
    // Another seat takes the heading below one of the two: the other one stays there.
    class.done("move --as 2 2.outline 259 257");
    meet(&class, 2);
    assert_eq!(
        class.done("list 2.outline"),
        "0\n  257\n    259\n      258\n    261\n  260\n"
    );
}
