//! Each number at its edge, for each call that can answer it, and the order
//! of the tests where several causes meet.

mod common;

use common::*;
use outline_model::cases::examples::*;
use outline_model::*;

const ISSUES: [Issue; 3] = [Issue::Add(0), Issue::Remove(257), Issue::Move(257, 0)];
const VIEWS: [View; 2] = [View::Keeping, View::Skipping];

fn p1_in(length: usize) -> Vec<u8> {
    in_buffer(&file_of(&p1()), length)
}

/// Every call answers 1, and so does the program.
fn assert_unsound(buffer: &[u8]) {
    assert_unsound_in_library(buffer);
    assert_eq!(outline(buffer), b"refused 1\n");
}

/// Every call answers 1 and changes nothing, where nothing else would be
/// refused and even where other causes hold as well.
fn assert_unsound_in_library(buffer: &[u8]) {
    let mut buffer = buffer.to_vec();
    for op in [&[][..], &[9; 14], &p1()[0].bytes()] {
        assert_eq!(deliver_checked(&mut buffer, op), Refused(1));
    }
    for issue in ISSUES {
        for (replica, room) in [(1, 14), (0, 14), (1, 0)] {
            assert_eq!(issue_in(&mut buffer, replica, issue, room).0, Refused(1));
        }
    }
    for bundle in [&[][..], &[0], &[1, 1], &bundle_of(&p1())] {
        assert_eq!(open_checked(&mut buffer, bundle), Refused(1));
    }
    for mut holdback in [vec![], vec![255; 449], vec![0; 449], holdback_of(&p1())] {
        for op in [&[][..], &[9; 14], &p1()[0].bytes()] {
            assert_eq!(holdback_checked(&mut buffer, op, &mut holdback), Refused(1));
        }
    }
    for room in [0, 1] {
        assert_eq!(bundle_in(&buffer, [255; 8], room).0, Refused(1));
    }
    for (parents, outcomes) in [(2041, 2041), (0, 2041), (2041, 0)] {
        assert_eq!(judge_in(&buffer, parents, outcomes).0, Refused(1));
    }
    for node in [0, 257, 9999] {
        for room in [0, 9] {
            assert_eq!(path_in(&buffer, node, room).0, Refused(1));
        }
    }
    for view in VIEWS {
        for room in [0, 300] {
            assert_eq!(listing_in(&buffer, view, room).0, Refused(1));
        }
        assert_eq!(listing_size(&buffer, view), Refused(1));
    }
    assert!(!is_sound(&buffer));
    assert_eq!(file_end(&buffer), Refused(1));
    for room in [7, 8] {
        let mut counts = vec![9; room];
        assert_eq!(held_counts(&buffer, &mut counts), Refused(1));
        assert_eq!(counts, vec![9; room]);
    }
}

#[test]
fn what_a_log_comes_to() {
    for length in [88, 89, 500] {
        let buffer = p1_in(length);
        assert!(is_sound(&buffer));
        assert_eq!(file_end(&buffer), Count(88));
        let mut counts = [9; 9];
        assert_eq!(held_counts(&buffer, &mut counts[..7]), Refused(8));
        assert_eq!(counts, [9; 9]);
        assert_eq!(held_counts(&buffer, &mut counts), Count(8));
        assert_eq!(counts, [3, 1, 0, 0, 0, 0, 0, 0, 9]);
        for view in VIEWS {
            assert_eq!(
                listing_size(&buffer, view),
                listing_in(&buffer, view, 300).0
            );
        }
    }
}

#[test]
fn number_1_short_or_cut() {
    let file = file_of(&p1());
    for length in 1..file.len() {
        assert_unsound(&file[..length]);
    }
    assert_unsound(&[0; 32]);
}

/// The program alone reads no bytes as a log. Making looks at the length only.
#[test]
fn a_buffer_of_length_zero_is_unsound_in_the_library() {
    assert_unsound_in_library(&[]);
    assert_eq!(make_checked(&mut []), Refused(8));
}

#[test]
fn number_1_header() {
    let file = file_of(&p1());
    for at in 0..32 {
        for value in 0..=255 {
            let mut damaged = in_buffer(&file, 30_000);
            damaged[at] = value;
            if value != file[at] {
                assert_unsound(&damaged);
            }
        }
    }
    // Counts from 256 on, with starts that would fit them.
    for count in [256u16, 257, 511, 4000, 65535] {
        let mut buffer = vec![0; 40_000];
        make(&mut buffer);
        buffer[..2].copy_from_slice(&count.to_be_bytes());
        let start = 32u16.wrapping_add(count.wrapping_mul(14)).to_be_bytes();
        for entry in buffer[4..32].chunks_mut(4) {
            entry[2..].copy_from_slice(&start);
        }
        assert_unsound(&buffer);
    }
}

#[test]
fn number_1_bodies() {
    let wrong: [&[Op]; 9] = [
        &mutual(),
        // A context above what is held.
        &[add(1, 0, &[0, 1])],
        // Not closed: 2:1 had 1:2, and 3:1 has 2:1 without it.
        &[
            add(1, 0, &[]),
            add(1, 0, &[1]),
            add(2, 0, &[2]),
            add(3, 0, &[1, 1]),
        ],
        // A parent that is not known, or only later.
        &[add(1, 513, &[])],
        &[add(1, 513, &[]), add(2, 0, &[])],
        &[add(1, 257, &[])],
        &[add(1, 0, &[]), remove(1, 0, &[1])],
        &[add(1, 0, &[]), up(1, 257, 257, &[1])],
        // The node of a remove is that of no add.
        &[add(1, 0, &[]), remove(1, 257, &[1]), remove(1, 258, &[2])],
    ];
    for ops in wrong {
        assert_unsound(&in_buffer(&file_of(ops), 200));
    }
    let mut node = add(1, 0, &[]);
    node.node = 258;
    assert_unsound(&file_of(&[node]));
    let mut parent = remove(1, 257, &[1]);
    parent.parent = 257;
    assert_unsound(&file_of(&[add(1, 0, &[]), parent]));
    // Sequence and replica of a body are those of its place.
    assert_unsound(&file_of(&[add(1, 0, &[1])]));
    let mut file = file_of(&p1());
    file[33] = 2;
    assert_unsound(&file);
    for kind in [0, 5, 255] {
        let mut file = file_of(&p1());
        file[32] = kind;
        assert_unsound(&file);
    }
}

#[test]
fn number_2() {
    let mut buffer = p1_in(200);
    let op = add(3, 0, &[3, 1]).bytes();
    let long = [op, op].concat();
    for length in (0..=28).filter(|&length| length != 14) {
        assert_eq!(deliver_checked(&mut buffer, &long[..length]), Refused(2));
        assert_eq!(
            deliver_checked(&mut buffer, &vec![0xff; length]),
            Refused(2)
        );
    }
    for issue in ISSUES {
        for room in 0..14 {
            for replica in [0, 1, 9] {
                assert_eq!(issue_in(&mut buffer, replica, issue, room).0, Refused(2));
            }
        }
        for room in [14, 15, 40] {
            let answer = issue_in(&mut buffer.clone(), 1, issue, room).0;
            assert_eq!(answer, Accepted(102));
        }
    }
    for (parents, outcomes) in [(2040, 2041), (2041, 2040), (0, 2041), (2041, 0), (0, 0)] {
        assert_eq!(judge_in(&buffer, parents, outcomes).0, Refused(2));
    }
    assert_eq!(judge_in(&buffer, 2041, 2041).0, Done);
    assert_eq!(judge_in(&buffer, 3000, 2042).0, Done);
}

#[test]
fn number_3() {
    let mut buffer = p1_in(200);
    let good = add(3, 0, &[3, 1]).bytes();
    let changed = |at: usize, value: u8| {
        let mut op = good;
        op[at] = value;
        op
    };
    for replica in [0, 9, 10, 128, 255] {
        assert_eq!(
            deliver_checked(&mut buffer, &changed(1, replica)),
            Refused(3)
        );
        for issue in ISSUES {
            assert_eq!(issue_checked(&mut buffer, replica, issue).0, Refused(3));
        }
    }
    for kind in [0, 5, 128, 255] {
        assert_eq!(deliver_checked(&mut buffer, &changed(0, kind)), Refused(3));
    }
    assert_eq!(deliver_checked(&mut buffer, &changed(8, 255)), Refused(3));
    assert_eq!(deliver_checked(&mut buffer, &changed(8, 254)), Refused(5));
    let remove = remove(3, 257, &[3, 1]).bytes();
    for at in [4, 5] {
        for value in [1, 255] {
            let mut op = remove;
            op[at] = value;
            assert_eq!(deliver_checked(&mut buffer, &op), Refused(3));
        }
    }
    assert_eq!(deliver_checked(&mut buffer, &remove), Accepted(102));
}

#[test]
fn number_4_before_5_6_7_8() {
    let mut buffer = p1_in(88);
    for vector in [[0u8, 0], [200, 0], [1, 0], [3, 0]] {
        let op = add(2, 9999, &vector).bytes();
        assert_eq!(deliver_checked(&mut buffer, &op), Refused(4));
    }
    // 3 comes before 4: an add with a parent turned into a remove.
    let mut op = p1()[3].bytes();
    op[0] = 2;
    assert_eq!(deliver_checked(&mut buffer, &op), Refused(3));
    op[4..6].fill(0);
    assert_eq!(deliver_checked(&mut buffer, &op), Refused(4));
    op[0] = 9;
    assert_eq!(deliver_checked(&mut buffer, &op), Refused(3));
}

#[test]
fn number_5_for_each_replica() {
    let mut buffer = p1_in(88);
    let held = [3, 1, 0, 0, 0, 0, 0, 0];
    for replica in 0..8 {
        for above in [1, 2, 200] {
            let mut counts = held;
            counts[replica] += above;
            let origin = if replica == 7 { 7 } else { 8 };
            // Early comes before an unknown parent and before the room.
            let op = add(origin, 9999, &counts).bytes();
            assert_eq!(deliver_checked(&mut buffer, &op), Refused(5));
        }
    }
    let op = add(8, 0, &held).bytes();
    assert_eq!(deliver_checked(&mut buffer, &op), Refused(8));
}

#[test]
fn number_6() {
    let mut buffer = p1_in(88);
    // 2:1 had two ops of replica 1.
    for counts in [[0, 1], [1, 1]] {
        let op = add(3, 9999, &counts).bytes();
        assert_eq!(deliver_checked(&mut buffer, &op), Refused(6));
        let op = add(2, 9999, &counts).bytes();
        assert_eq!(deliver_checked(&mut buffer, &op), Refused(6));
    }
    for counts in [[2, 1], [3, 1], [0, 0], [1, 0]] {
        let op = add(3, 0, &counts).bytes();
        assert_eq!(deliver_checked(&mut buffer, &op), Refused(8));
        assert_eq!(deliver_checked(&mut p1_in(102), &op), Accepted(102));
    }
    // Early comes before not closed.
    let op = add(3, 0, &[1, 1, 0, 1]).bytes();
    assert_eq!(deliver_checked(&mut buffer, &op), Refused(5));
}

#[test]
fn number_7_by_number() {
    let held = [3, 1];
    for node in 0..=65535u16 {
        if node > 2600 && node % 97 != 0 {
            continue;
        }
        let known = node == 257 || node == 258;
        let as_parent = known || node == 0;
        let mut buffer = p1_in(88);
        // Known ones get as far as the room.
        let expected = |known: bool| Refused(if known { 8 } else { 7 });
        let mut check = |op: Op, known| {
            assert_eq!(deliver_checked(&mut buffer, &op.bytes()), expected(known));
        };
        check(add(3, node, &held), as_parent);
        check(remove(3, node, &held), known);
        check(up(3, node, 0, &held), known);
        check(down(3, 257, node, &held), as_parent && node != 257);
        let mut check = |issue, known| {
            assert_eq!(issue_checked(&mut buffer, 3, issue).0, expected(known));
        };
        check(Issue::Add(node), as_parent);
        check(Issue::Remove(node), known);
        check(Issue::Move(node, 0), known);
        check(Issue::Move(257, node), as_parent && node != 257);
        let room = if as_parent { 8 } else { 7 };
        assert_eq!(path_in(&buffer, node, 0).0, Refused(room));
    }
}

#[test]
fn number_7_add_node_and_context() {
    let mut buffer = p1_in(200);
    for node in [0, 256, 257, 513, 768, 770, 1025, 65535] {
        let mut op = add(3, 0, &[3, 1]);
        op.node = node;
        assert_eq!(deliver_checked(&mut buffer, &op.bytes()), Refused(7));
    }
    // Added, but not within the context.
    for op in [add(3, 258, &[1]), remove(3, 258, &[1]), up(3, 258, 0, &[1])] {
        assert_eq!(deliver_checked(&mut buffer, &op.bytes()), Refused(7));
    }
    let op = up(3, 258, 0, &[2]);
    assert_eq!(deliver_checked(&mut buffer, &op.bytes()), Accepted(102));
}

#[test]
fn number_8() {
    let file = file_of(&p1());
    let op = add(3, 0, &[3, 1]).bytes();
    for room in 0..14 {
        let mut buffer = p1_in(file.len() + room);
        assert_eq!(deliver_checked(&mut buffer, &op), Refused(8));
        for issue in ISSUES {
            assert_eq!(issue_checked(&mut buffer, 3, issue).0, Refused(8));
        }
    }
    assert_eq!(deliver_checked(&mut p1_in(102), &op), Accepted(102));
    for issue in ISSUES {
        assert_eq!(issue_checked(&mut p1_in(102), 3, issue).0, Accepted(102));
    }
    for length in 0..32 {
        assert_eq!(make_checked(&mut vec![7; length]), Refused(8));
    }
    for length in [32, 33, 30_000] {
        assert_eq!(make_checked(&mut vec![7; length]), Accepted(32));
    }
    assert_eq!(path_in(&file, 257, 2).0, Refused(8));
    assert_eq!(path_in(&file, 257, 3).0, Count(3));
    assert_eq!(path_in(&file, 0, 0).0, Refused(8));
    assert_eq!(path_in(&file, 0, 1), (Count(1), vec![0]));
    for view in VIEWS {
        assert_eq!(listing_in(&file, view, 21).0, Refused(8));
        assert_eq!(listing_in(&file, view, 22).0, Count(22));
        assert_eq!(listing_in(&file, view, 23).0, Count(22));
    }
}

#[test]
fn number_9_before_7_10_8() {
    let file = file_of(&adds(1, 255));
    let mut buffer = file.clone();
    for issue in [Issue::Add(9999), Issue::Remove(0), Issue::Move(257, 257)] {
        assert_eq!(issue_checked(&mut buffer, 1, issue).0, Refused(9));
        assert_eq!(issue_in(&mut buffer, 1, issue, 13).0, Refused(2));
        assert_eq!(issue_checked(&mut buffer, 2, issue).0, Refused(7));
    }
    // At 254 the replica is not yet full: the room decides.
    let mut buffer = file_of(&adds(1, 254));
    assert_eq!(issue_checked(&mut buffer, 1, Issue::Add(0)).0, Refused(8));
}

#[test]
fn number_10_before_8() {
    let file = file_of(&unremoved());
    for room in [0, 14] {
        let mut buffer = in_buffer(&file, file.len() + room);
        for (node, parent) in [(260, 258), (260, 769), (258, 259), (259, 769)] {
            let issue = Issue::Move(node, parent);
            assert_eq!(issue_checked(&mut buffer, 4, issue).0, Refused(10));
        }
        let answer = issue_checked(&mut buffer, 4, Issue::Move(769, 260)).0;
        assert_eq!(answer, if room == 0 { Refused(8) } else { Accepted(130) });
    }
}

/// 257 > 258 > 259, 260 > 261 and 262, of which 257 and 261 are marked; any
/// number, by any replica.
#[test]
fn number_11_in_its_case_and_no_other() {
    let file = file_of(&marked());
    let marks = [257, 261];
    let known = 257..=262;
    let below = [(257, 258), (257, 259), (258, 259), (260, 261)];
    let numbers: Vec<u16> = (0..600)
        .chain([768, 769, 1025, 2303, 2304, 65535])
        .collect();
    for replica in [1, 2, 4] {
        // Without room: what is not refused before is 8.
        let mut buffer = file.clone();
        let mut check = |issue: Issue, expected: u8| {
            let answer = issue_checked(&mut buffer, replica, issue).0;
            assert_eq!(answer, Refused(expected), "{issue:?}");
        };
        for &parent in &numbers {
            let expected = match parent {
                0 => 8,
                _ if marks.contains(&parent) => 11,
                _ if known.contains(&parent) => 8,
                _ => 7,
            };
            check(Issue::Add(parent), expected);
            for node in [0, 256, 257, 258, 259, 260, 261, 262, 263, 513] {
                let expected = match (node, parent) {
                    _ if !known.contains(&node) || node == parent => 7,
                    _ if parent != 0 && !known.contains(&parent) => 7,
                    _ if marks.contains(&node) || marks.contains(&parent) => 11,
                    _ if below.contains(&(node, parent)) => 10,
                    _ => 8,
                };
                check(Issue::Move(node, parent), expected);
            }
        }
        for &node in &numbers {
            let expected = if known.contains(&node) { 8 } else { 7 };
            check(Issue::Remove(node), expected);
        }
    }
}

#[test]
fn number_11_before_10_and_8() {
    let file = file_of(&marked());
    for room in [0, 13, 14, 100] {
        let mut buffer = in_buffer(&file, file.len() + room);
        // Below itself with the node, the parent or both marked.
        for (node, parent) in [(257, 258), (257, 259), (260, 261)] {
            let issue = Issue::Move(node, parent);
            assert_eq!(issue_checked(&mut buffer, 1, issue).0, Refused(11));
        }
        let issue = Issue::Move(258, 259);
        assert_eq!(issue_checked(&mut buffer, 1, issue).0, Refused(10));
        for issue in [Issue::Add(257), Issue::Move(262, 261)] {
            assert_eq!(issue_checked(&mut buffer, 1, issue).0, Refused(11));
            assert_eq!(issue_in(&mut buffer, 1, issue, 13).0, Refused(2));
            assert_eq!(issue_checked(&mut buffer, 9, issue).0, Refused(3));
        }
    }
    // Both are marked, and one lies below the other.
    let mut ops = marked();
    ops.push(remove(4, 259, &[6, 1, 2]));
    let mut buffer = file_of(&ops);
    for (node, parent) in [(257, 259), (258, 259), (259, 258), (259, 0)] {
        let issue = Issue::Move(node, parent);
        assert_eq!(issue_checked(&mut buffer, 4, issue).0, Refused(11));
    }
}

#[test]
fn number_7_before_11() {
    let mut buffer = in_buffer(&file_of(&marked()), 300);
    for other in [1, 256, 263, 513, 769, 2304, 65535] {
        for issue in [Issue::Move(257, other), Issue::Move(other, 257)] {
            assert_eq!(issue_checked(&mut buffer, 4, issue).0, Refused(7));
        }
    }
    for (node, parent) in [(257, 257), (261, 261), (0, 257), (0, 0)] {
        let issue = Issue::Move(node, parent);
        assert_eq!(issue_checked(&mut buffer, 4, issue).0, Refused(7));
    }
}

#[test]
fn number_9_before_11() {
    let mut ops = adds(1, 255);
    ops.push(remove(2, 257, &[255]));
    let file = file_of(&ops);
    for room in [0, 14] {
        let mut buffer = in_buffer(&file, file.len() + room);
        for issue in [Issue::Add(257), Issue::Move(257, 0), Issue::Move(258, 257)] {
            assert_eq!(issue_checked(&mut buffer, 1, issue).0, Refused(9));
            assert_eq!(issue_checked(&mut buffer, 2, issue).0, Refused(11));
            assert_eq!(issue_checked(&mut buffer, 8, issue).0, Refused(11));
        }
    }
}

/// Delivering, judging and the rest never answer 11, on any of these nodes.
#[test]
fn number_11_at_issue_alone() {
    let file = file_of(&marked());
    for node in 257..=262 {
        for vector in [&[6][..], &[6, 1], &[6, 0, 1], &[6, 0, 2], &[6, 1, 2]] {
            let parent = if node == 262 { 257 } else { 262 };
            for op in [
                add(4, node, vector),
                remove(4, node, vector),
                up(4, node, parent, vector),
                down(4, node, parent, vector),
                down(4, parent, node, vector),
            ] {
                let mut buffer = in_buffer(&file, file.len() + 14);
                let answer = deliver_checked(&mut buffer, &op.bytes());
                assert_eq!(answer, Accepted(file.len() + 14));
                assert_eq!(judge_in(&buffer, 2041, 2041).0, Done);
                assert!(matches!(path_in(&buffer, node, 9).0, Count(_)));
                for view in VIEWS {
                    assert!(matches!(listing_in(&buffer, view, 200).0, Count(_)));
                }
                assert_eq!(deliver_checked(&mut buffer, &op.bytes()), HadIt);
            }
        }
    }
}
