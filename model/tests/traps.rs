//! Places where an implementation easily goes wrong.

mod common;

use common::*;
use outline_model::cases::examples::*;
use outline_model::cases::world::{full, Style};
use outline_model::rng::Rng;
use outline_model::*;

fn outcomes_of(ops: &[Op], at: &[(usize, usize)]) -> Vec<u8> {
    let file = file_of(ops);
    at.iter().map(|&(r, s)| outcome(&file, r, s)).collect()
}

#[test]
fn a_rival_comes_before_a_circle() {
    let ops = rival_before_circle();
    assert_eq!(outcomes_of(&ops, &[(1, 1), (2, 1), (3, 1)]), [2, 1, 1]);
}

#[test]
fn only_an_applied_rival_counts() {
    let ops = rival_passed_over();
    assert_eq!(outcomes_of(&ops, &[(1, 1), (2, 1), (3, 1)]), [1, 3, 1]);
}

#[test]
fn rivals_are_found_by_timestamp() {
    let ops = rivals_with_different_vectors();
    assert_eq!(outcomes_of(&ops, &[(1, 1), (2, 1)]), [2, 1]);
}

#[test]
fn a_timestamp_is_a_chain_and_no_count() {
    let ops = chain_not_count();
    let log = log_of(&ops);
    let timestamps = tree::timestamps(&log);
    assert_eq!((timestamps[1], timestamps[256]), (2, 2));
    assert_eq!(outcomes_of(&ops, &[(1, 1), (2, 1)]), [2, 1]);
    assert_eq!(path_in(&log.bytes(), 769, 9).1, [769, 1025, 0]);
}

#[test]
fn the_higher_replica_comes_first() {
    let mut ops = adds(5, 9);
    let held = [0, 0, 0, 0, 9];
    for replica in [1, 2, 3, 4, 6, 7, 8] {
        ops.push(down(replica, 1281, 1280 + u16::from(replica) + 1, &held));
    }
    let at = [(8, 1), (7, 1), (6, 1), (4, 1), (3, 1), (2, 1), (1, 1)];
    assert_eq!(outcomes_of(&ops, &at), [1, 2, 2, 2, 2, 2, 2]);
}

#[test]
fn other_counts_may_be_255() {
    let mut buffer = in_buffer(&file_of(&adds(1, 255)), FULL);
    let op = add(2, 511, &[255]).bytes();
    assert_eq!(deliver_checked(&mut buffer, &op), Accepted(32 + 14 * 256));
    let mut early = empty(100);
    assert_eq!(deliver_checked(&mut early, &op), Refused(5));
}

#[test]
fn numbers_of_no_node() {
    let file = file_of(&longest_chain());
    let known = |node: u16| (1..=8).contains(&(node >> 8)) && node & 255 != 0;
    for node in (0..2600).chain([65535, 65280, 32769]) {
        let expected = if node == 0 || known(node) { 8 } else { 7 };
        assert_eq!(path_in(&file, node, 0).0, Refused(expected), "{node}");
    }
}

#[test]
fn the_check_ends_on_ops_that_count_each_other() {
    let mut buffer = in_buffer(&file_of(&mutual()), 100);
    assert_eq!(deliver_checked(&mut buffer, &[1; 14]), Refused(1));
    // A circle of eight.
    let ops: Vec<Op> = (1..=8u8)
        .map(|replica| {
            let mut counts = [0; 8];
            counts[usize::from(replica % 8)] = 1;
            add(replica, 0, &counts)
        })
        .collect();
    assert_eq!(judge_in(&file_of(&ops), 2041, 2041).0, Refused(1));
}

#[test]
fn later_bodies_of_other_replicas_may_be_named() {
    let file = file_of(&[add(8, 0, &[]), add(1, 2049, &[0, 0, 0, 0, 0, 0, 0, 1])]);
    assert_eq!(outline(&file), b"0 0 k\n1 2049 k\n2 257 k\n");
}

#[test]
fn kinds_at_issue() {
    let base = in_buffer(&file_of(&unremoved()), 400);
    let kind = |node, parent| {
        let (answer, op) = issue_checked(&mut base.clone(), 2, Issue::Move(node, parent));
        assert_eq!(answer, Accepted(130));
        op[0]
    };
    // 260 > 258 > 259 > 769, and 257 alone.
    assert_eq!(kind(257, 260), 4, "equal depth");
    assert_eq!(kind(258, 260), 3, "present parent");
    assert_eq!(kind(257, 0), 3, "root");
    assert_eq!(kind(257, 769), 4);
    assert_eq!(kind(769, 257), 3);
}

#[test]
fn an_issued_op_is_applied_and_a_delivered_kind_stays() {
    let mut buffer = in_buffer(&file_of(&p1()), 200);
    let (_, op) = issue_checked(&mut buffer, 3, Issue::Move(257, 0));
    assert_eq!(outcome(&buffer, 3, 1), 1);
    assert_eq!(op[0], 3);
    let wrong_kind = down(4, 258, 0, &[3, 1, 1]).bytes();
    assert_eq!(deliver_checked(&mut buffer, &wrong_kind), Accepted(116));
    assert_eq!(buffer[102..116], wrong_kind);
}

#[test]
fn slots_without_a_node() {
    let (parents, outcomes) = judged(&file_of(&removals()));
    assert_eq!((parents[0], outcomes[0]), (0, 0));
    assert_eq!(parents[..7], [0, 0, 260, 258, 0, 65535, 65535]);
    assert_eq!(outcomes[..8], [0, 1, 1, 1, 1, 1, 1, 0]);
    assert_eq!((parents[256], outcomes[256]), (65535, 1));
    assert_eq!((parents[255 * 7 + 1], outcomes[255 * 7 + 1]), (65535, 1));
    assert_eq!((parents[2040], outcomes[2040]), (65535, 0));
}

#[test]
fn both_views() {
    let file = file_of(&removals());
    let kept = "0 0 k\n1 260 r\n2 258 k\n3 259 r\n4 770 k\n";
    assert_eq!(listed(&file, View::Keeping), kept);
    assert_eq!(listed(&file, View::Skipping), "0 0 k\n");
}

/// 257 > 258 > 259, 260 > 261 and 262, of which 257 and 261 are marked.
fn marked_in_buffer() -> Vec<u8> {
    in_buffer(&file_of(&marked()), 400)
}

fn answer_of(buffer: &[u8], replica: u8, issue: Issue) -> Answer {
    issue_checked(&mut buffer.to_vec(), replica, issue).0
}

/// All of these are accepted on the buffer as it is.
fn assert_accepted(buffer: &[u8], issues: &[Issue]) {
    for &issue in issues {
        let answer = answer_of(buffer, 4, issue);
        assert!(matches!(answer, Accepted(_)), "{issue:?} {answer:?}");
    }
}

#[test]
fn only_the_node_and_its_immediate_parent_count() {
    let buffer = marked_in_buffer();
    // What hangs below a marked node takes work and may be moved away.
    let below = [Issue::Add(258), Issue::Add(259), Issue::Move(262, 258)];
    assert_accepted(&buffer, &below);
    assert_accepted(&buffer, &[Issue::Move(258, 0), Issue::Move(259, 262)]);
    assert_accepted(&buffer, &[Issue::Move(259, 258), Issue::Move(258, 260)]);
    // What hangs above one takes work too.
    assert_accepted(&buffer, &[Issue::Add(260), Issue::Move(260, 262)]);
    // Back under the parent that it has, which is marked.
    assert_eq!(answer_of(&buffer, 4, Issue::Move(258, 257)), Refused(11));
}

#[test]
fn a_marked_node_takes_no_new_work() {
    let buffer = marked_in_buffer();
    for replica in 1..=8 {
        for issue in [
            Issue::Add(257),
            Issue::Add(261),
            Issue::Move(257, 0),
            Issue::Move(257, 262),
            Issue::Move(262, 257),
            Issue::Move(257, 261),
            Issue::Move(261, 257),
        ] {
            assert_eq!(answer_of(&buffer, replica, issue), Refused(11));
        }
    }
}

#[test]
fn a_marked_node_may_be_removed_again() {
    let mut buffer = marked_in_buffer();
    // By who removed it, by another, and once more.
    for (replica, node) in [(2, 257), (3, 257), (4, 257), (2, 261), (2, 261)] {
        let answer = issue_checked(&mut buffer, replica, Issue::Remove(node)).0;
        assert!(matches!(answer, Accepted(_)));
    }
    assert_eq!(answer_of(&buffer, 4, Issue::Add(257)), Refused(11));
    let mut full = file_of(&marked());
    let issue = Issue::Remove(257);
    assert_eq!(issue_checked(&mut full, 4, issue).0, Refused(8));
}

#[test]
fn a_mark_comes_before_a_circle() {
    let buffer = marked_in_buffer();
    for (node, parent, number) in [
        (257, 258, 11),
        (257, 259, 11),
        (260, 261, 11),
        (258, 259, 10),
    ] {
        let answer = answer_of(&buffer, 4, Issue::Move(node, parent));
        assert_eq!(answer, Refused(number));
    }
}

#[test]
fn an_unknown_node_comes_before_a_mark() {
    let buffer = marked_in_buffer();
    for (node, parent) in [(257, 263), (263, 257), (257, 513), (257, 257), (0, 257)] {
        let answer = answer_of(&buffer, 4, Issue::Move(node, parent));
        assert_eq!(answer, Refused(7));
    }
}

#[test]
fn the_root_is_never_marked() {
    let mut buffer = marked_in_buffer();
    for node in 257..=262 {
        issue_checked(&mut buffer, 1, Issue::Remove(node));
    }
    assert_eq!(answer_of(&buffer, 1, Issue::Remove(0)), Refused(7));
    assert_accepted(&buffer, &[Issue::Add(0)]);
    assert_eq!(answer_of(&buffer, 1, Issue::Move(262, 0)), Refused(11));
    let (_, op) = issue_checked(&mut buffer, 1, Issue::Add(0));
    let added = u16::from_be_bytes([op[2], op[3]]);
    assert_accepted(&buffer, &[Issue::Add(added)]);
}

/// Of two replicas one removes a node and the other, not having met that, works
/// on it. Both take the other's op, and then neither issues there.
#[test]
fn work_of_a_replica_that_has_not_met_the_removal_is_taken() {
    let base = in_buffer(&file_of(&unmet()), 400);
    for issue in [
        Issue::Add(257),
        Issue::Move(257, 262),
        Issue::Move(262, 257),
        Issue::Move(258, 0),
        Issue::Remove(257),
    ] {
        let (mut one, mut two) = (base.clone(), base.clone());
        let removal = issue_checked(&mut one, 2, Issue::Remove(257)).1;
        let (answer, work) = issue_checked(&mut two, 3, issue);
        assert_eq!(answer, Accepted(130));
        assert_eq!(deliver_checked(&mut one, &work), Accepted(144));
        assert_eq!(deliver_checked(&mut two, &removal), Accepted(144));
        assert_eq!(one, two);
        assert_eq!(outcome(&one, 3, 1), 1);
        for replica in 1..=8 {
            assert_eq!(answer_of(&one, replica, Issue::Add(257)), Refused(11));
            assert_eq!(answer_of(&two, replica, Issue::Move(257, 0)), Refused(11));
        }
    }
}

/// What the marked node got from there is no marked node itself.
#[test]
fn a_child_added_past_a_removal_takes_work() {
    let mut buffer = marked_in_buffer();
    let child = add(4, 257, &[6]).bytes();
    assert!(matches!(deliver_checked(&mut buffer, &child), Accepted(_)));
    assert_accepted(&buffer, &[Issue::Add(1025), Issue::Move(1025, 262)]);
    assert_eq!(answer_of(&buffer, 4, Issue::Move(1025, 257)), Refused(11));
    let kept = "0 0 k\n1 257 r\n2 258 k\n3 259 k\n2 1025 k\n1 260 k\n1 262 k\n";
    assert_eq!(listed(&buffer, View::Keeping), kept);
    assert_eq!(listed(&buffer, View::Skipping), "0 0 k\n1 260 k\n1 262 k\n");
}

/// A move that the remover had not met takes the node elsewhere, with its mark.
#[test]
fn a_mark_stays_with_a_moved_node() {
    let mut buffer = marked_in_buffer();
    let away = down(4, 257, 262, &[6]).bytes();
    assert!(matches!(deliver_checked(&mut buffer, &away), Accepted(_)));
    assert_eq!(path_in(&buffer, 257, 9).1, [257, 262, 0]);
    assert_eq!(answer_of(&buffer, 4, Issue::Move(257, 0)), Refused(11));
    assert_eq!(answer_of(&buffer, 4, Issue::Add(257)), Refused(11));
}

/// Issuing alone asks for marks: an op that has met the removal is sound, and
/// is taken.
#[test]
fn soundness_and_delivery_ask_no_mark() {
    let mut buffer = marked_in_buffer();
    for op in [
        add(4, 257, &[6, 1, 2]),
        up(4, 257, 0, &[6, 1, 2, 1]),
        down(4, 262, 261, &[6, 1, 2, 2]),
        down(5, 261, 257, &[6, 1, 2, 3]),
    ] {
        let answer = deliver_checked(&mut buffer, &op.bytes());
        assert!(matches!(answer, Accepted(_)));
    }
    assert!(is_sound(&buffer));
    assert!(is_sound(&file_of(&removals())));
}

#[test]
fn three_outcomes_by_vector() {
    use Knowledge::*;
    let log = log_of(&marked());
    let knowledge = |counts: &[u8], node| log.knowledge(&v(counts), node);
    // 257 is added by 1:1 and removed by 2:1 and 3:2.
    for (counts, expected) in [
        (&[][..], Unknown),
        (&[0, 1, 2], Unknown),
        (&[1], Unmarked),
        (&[6], Unmarked),
        (&[6, 0, 1], Unmarked),
        (&[6, 1], Marked),
        (&[6, 0, 2], Marked),
        (&[6, 1, 2], Marked),
    ] {
        assert_eq!(knowledge(counts, 257), expected, "{counts:?}");
        assert_eq!(knowledge(counts, 257).is_known(), expected != Unknown);
    }
    // 261 is added by 1:5 and removed by 3:1.
    assert_eq!(knowledge(&[4, 0, 1], 261), Unknown);
    assert_eq!(knowledge(&[5, 1], 261), Unmarked);
    assert_eq!(knowledge(&[6, 0, 1], 261), Marked);
    // A node below a marked one, and numbers of no node.
    assert_eq!(knowledge(&[6, 1, 2], 258), Unmarked);
    for node in [0, 1, 256, 263, 513, 769, 770, 2304, 65535] {
        assert_eq!(knowledge(&[6, 1, 2], node), Unknown);
    }
}

#[test]
fn only_outline_minds_bytes_past_the_end() {
    let mut file = file_of(&p1());
    file.push(0);
    assert_eq!(outline(&file), b"refused 1\n");
    assert_eq!(listing_in(&file, View::Keeping, 22).0, Count(22));
}

#[test]
fn the_program_reads_no_bytes_as_the_log_without_ops() {
    assert_eq!(outline(&[]), b"0 0 k\n");
    assert_eq!(outline(&[]), outline(&empty(32)));
}

#[test]
fn the_program_refuses_every_input_of_1_to_31_bytes() {
    for file in [empty(32), vec![0; 32], vec![255; 32], file_of(&p1())] {
        for length in 1..=31 {
            assert_eq!(outline(&file[..length]), b"refused 1\n", "{length}");
        }
    }
    for byte in 0..=255 {
        assert_eq!(outline(&[byte]), b"refused 1\n", "{byte}");
    }
}

#[test]
fn the_program_reads_32_bytes_as_a_file_and_not_as_no_bytes() {
    assert_eq!(outline(&empty(32)), b"0 0 k\n");
    for other in [&[0; 32][..], &[255; 32], &file_of(&p1())[..32]] {
        assert_eq!(outline(other), b"refused 1\n");
    }
}

#[test]
fn the_deepest_tree() {
    let file = file_of(&longest_chain());
    assert_eq!(file.len(), FULL);
    assert_eq!(listing_in(&file, View::Keeping, 22_637).0, Refused(8));
    assert_eq!(listing_in(&file, View::Skipping, 22_638).0, Count(22_638));
    assert_eq!(path_in(&file, 2303, 2040).0, Refused(8));
    assert_eq!(path_in(&file, 2303, 2041).0, Count(2041));
}

#[test]
fn a_full_log_takes_no_more() {
    let mut buffer = in_buffer(&file_of(&full(&mut Rng::new(1), Style::moves)), FULL + 14);
    for replica in 1..=8 {
        assert_eq!(
            issue_checked(&mut buffer, replica, Issue::Add(0)).0,
            Refused(9)
        );
    }
    let bodies = bodies(&buffer);
    assert_eq!(bodies.len(), 2040);
    assert_eq!(deliver_checked(&mut buffer, &bodies[2039]), HadIt);
}

#[test]
fn make_forgets_and_numbers_start_again() {
    let mut buffer = in_buffer(&file_of(&p1()), 200);
    make_checked(&mut buffer);
    let (answer, op) = issue_checked(&mut buffer, 1, Issue::Add(0));
    assert_eq!(
        (answer, op),
        (Accepted(46), add(1, 0, &[]).bytes().to_vec())
    );
}
