//! Batches: each sentence of the request, each number in its place and order, and
//! the laws that moves to one parent keep.

mod common;

use common::*;
use outline_model::cases::damage;
use outline_model::cases::examples::*;
use outline_model::cases::world::{full, part, Deep, Style, World};
use outline_model::rng::Rng;
use outline_model::*;

/// 257 > 258 > 259, which is the heading; 260, which is removed; 261 to 268 under
/// the root, 269 under 268, and 270 under 269.
fn shelf() -> Vec<Op> {
    let parents = [0, 257, 258, 0, 0, 0, 0, 0, 0, 0, 0, 0, 268, 269];
    let mut ops = adds(1, parents.len());
    for (op, parent) in ops.iter_mut().zip(parents) {
        op.parent = parent;
    }
    ops.push(remove(2, 260, &[14]));
    ops
}

const HEADING: u16 = 259;
const GOOD: [u16; 10] = [261, 262, 263, 264, 265, 266, 267, 268, 269, 270];
/// Node and number of what cannot go under the heading.
const BAD: [(u16, u8); 8] = [
    (4000, 7),
    // Not held yet; an op that is no add; the root; the heading.
    (271, 7),
    (513, 7),
    (0, 7),
    (HEADING, 7),
    (260, 11),
    (257, 10),
    (258, 10),
];

/// A buffer with the log of these ops and room for so many more.
fn desk(ops: &[Op], more: usize) -> Vec<u8> {
    let file = file_of(ops);
    in_buffer(&file, file.len() + 14 * more)
}

/// A batch of replica 4 with 14 bytes lent for each move.
fn batch(buffer: &mut [u8], parent: u16, nodes: &[u16]) -> Answer {
    batch_of(buffer, 4, parent, nodes).0
}

fn batch_of(buffer: &mut [u8], replica: u8, parent: u16, nodes: &[u16]) -> (Answer, Vec<u8>) {
    batch_in(buffer, replica, parent, nodes, 14 * nodes.len())
}

/// So many nodes that can go under the heading.
fn good(count: usize) -> Vec<u16> {
    GOOD.into_iter().cycle().take(count).collect()
}

/// The kinds of the ops in these bytes.
fn kinds(ops: &[u8]) -> Vec<u8> {
    ops.chunks(14).map(|op| op[0]).collect()
}

fn end_of(ops: &[Op], more: usize) -> usize {
    32 + 14 * (ops.len() + more)
}

// ---- one after another

/// 257 to 260 under the root, and 261 under 260. Replica 2 moves three of them
/// under 257: the first two are as deep as it, the last is deeper.
#[test]
fn a_batch_by_hand() {
    let mut ops = adds(1, 5);
    ops[4].parent = 260;
    let moves: [[u8; 14]; 3] = [
        [4, 2, 1, 2, 1, 1, 5, 0, 0, 0, 0, 0, 0, 0],
        [4, 2, 1, 3, 1, 1, 5, 1, 0, 0, 0, 0, 0, 0],
        [3, 2, 1, 5, 1, 1, 5, 2, 0, 0, 0, 0, 0, 0],
    ];
    let mut buffer = desk(&ops, 4);
    let old = buffer.clone();
    let (answer, out) = batch_in(&mut buffer, 2, 257, &[258, 259, 261], 50);
    assert_eq!(answer, Accepted(144));
    assert_eq!(out, [&moves.concat()[..], &[0xee; 8]].concat());
    let mut header = vec![0, 5, 0, 32, 0, 3, 0, 102];
    header.extend([0, 0, 0, 144].repeat(6));
    assert_eq!(buffer[..32], header);
    assert_eq!(buffer[32..102], old[32..102]);
    assert_eq!(buffer[102..144], moves.concat());
    assert_eq!(buffer[144..], [0x5a; 14]);
    let (parents, outcomes) = judged(&buffer);
    assert_eq!(parents[..6], [0, 0, 257, 257, 0, 257]);
    assert_eq!(outcomes[256..260], [1, 1, 1, 0]);
}

/// The ops stand in the list's order, in the file and in the output.
#[test]
fn in_the_lists_order() {
    for nodes in [[261, 262, 263], [263, 261, 262], [262, 263, 261]] {
        let mut buffer = desk(&shelf(), 3);
        let (_, out) = batch_of(&mut buffer, 1, HEADING, &nodes);
        for (place, node) in nodes.into_iter().enumerate() {
            let op = down(1, node, HEADING, &[14 + place as u8, 1]).bytes();
            assert_eq!(out[14 * place..14 * place + 14], op);
            let at = 32 + 14 * (14 + place);
            assert_eq!(buffer[at..at + 14], op);
        }
        // The remove of replica 2 has moved up behind them.
        assert_eq!(buffer[32 + 14 * 17..], remove(2, 260, &[14]).bytes());
    }
}

/// 268 > 269 > 270, and a heading at depth 3. In the first tree none of them is
/// deeper than it; once 268 is there, those below it are.
#[test]
fn kinds_are_those_of_the_tree_that_is_left() {
    for (nodes, expected) in [
        (&[268, 269, 270][..], &[4, 3, 3][..]),
        (&[268, 270, 269], &[4, 3, 3]),
        (&[269, 270, 268], &[4, 3, 4]),
        // From below each is as deep as it was.
        (&[270, 269, 268], &[4, 4, 4]),
        (&[270, 268, 269], &[4, 4, 3]),
        (&[269, 268, 270], &[4, 4, 3]),
        // One that is not moved takes along what is below it no less.
        (&[268, 270], &[4, 3]),
        (&[261, 269, 262], &[4, 4, 4]),
    ] {
        let (answer, out) = batch_of(&mut desk(&shelf(), 3), 4, HEADING, nodes);
        assert_eq!(answer, Accepted(end_of(&shelf(), nodes.len())));
        assert_eq!(kinds(&out), expected, "{nodes:?}");
        // One by one in the first tree all are downward.
        for &node in nodes {
            let (_, out) = batch_of(&mut desk(&shelf(), 1), 4, HEADING, &[node]);
            assert_eq!(kinds(&out), [4]);
        }
    }
    // To a parent that is less deep all are upward, to the root too.
    for parent in [0, 257] {
        let (_, out) = batch_of(&mut desk(&shelf(), 3), 4, parent, &[270, 269, 259]);
        assert_eq!(kinds(&out), [3, 3, 3]);
    }
}

/// It hangs under the parent after the first: the next is upward.
#[test]
fn a_node_twice() {
    for (nodes, expected) in [
        (&[261, 261][..], &[4, 3][..]),
        (&[261, 262, 261], &[4, 4, 3]),
        (&[268, 270, 268, 270], &[4, 3, 3, 3]),
        (
            &[261; 16],
            &[4, 3, 3, 3, 3, 3, 3, 3, 3, 3, 3, 3, 3, 3, 3, 3],
        ),
    ] {
        let (answer, out) = batch_of(&mut desk(&shelf(), 16), 4, HEADING, nodes);
        assert_eq!(answer, Accepted(end_of(&shelf(), nodes.len())));
        assert_eq!(kinds(&out), expected);
    }
    let mut buffer = desk(&shelf(), 16);
    assert_eq!(batch(&mut buffer, HEADING, &[261, 261, 260]), Refused(11));
    assert_eq!(batch(&mut buffer, HEADING, &[258, 258]), Refused(10));
}

/// What one replica's bodies are followed by moves up by the whole batch.
#[test]
fn every_replica() {
    let mut ops = shelf();
    ops.extend([add(5, 0, &[14]), add(8, 0, &[14])]);
    for replica in 1..=8 {
        for count in [1, 2, 10, 16] {
            let mut buffer = desk(&ops, 17);
            let (answer, _) = batch_of(&mut buffer, replica, HEADING, &good(count));
            assert_eq!(answer, Accepted(end_of(&ops, count)));
        }
    }
    for replica in [0, 9, 10, 128, 255] {
        let (answer, _) = batch_of(&mut desk(&ops, 17), replica, HEADING, &good(2));
        assert_eq!(answer, Refused(3));
    }
}

// ---- how many, and how much output

#[test]
fn more_than_16_or_fewer_than_14_bytes_a_move() {
    for count in (0..=20).chain([32, 33, 255, 256, 257, 65_536]) {
        let exact: usize = 14 * count;
        let mut rooms = vec![exact, exact + 1, exact + 100, 0, 13, 14, 223, 224, 225];
        rooms.extend(
            [1, 13, 14]
                .iter()
                .filter_map(|less| exact.checked_sub(*less)),
        );
        for room in rooms {
            let mut buffer = desk(&shelf(), 20);
            let (answer, _) = batch_in(&mut buffer, 4, HEADING, &good(count), room);
            let expected = if count > 16 || room < exact {
                Refused(2)
            } else {
                Accepted(end_of(&shelf(), count))
            };
            assert_eq!(answer, expected, "{count} moves, {room} bytes");
        }
    }
}

/// 2 comes before 3, and before each move's own causes.
#[test]
fn order_of_the_first_tests() {
    for (nodes, room) in [
        (good(17), 600),
        (good(2), 27),
        (vec![4000], 13),
        (vec![0; 17], 0),
    ] {
        for replica in [0, 4, 9] {
            for parent in [HEADING, 4000, 260] {
                for more in [0, 20] {
                    let mut buffer = desk(&shelf(), more);
                    let (answer, _) = batch_in(&mut buffer, replica, parent, &nodes, room);
                    assert_eq!(answer, Refused(2));
                    // And 1 before it.
                    buffer[1] += 1;
                    let (answer, _) = batch_in(&mut buffer, replica, parent, &nodes, room);
                    assert_eq!(answer, Refused(1));
                }
            }
        }
    }
    // 3 before 9, 7, 11, 10 and 8.
    for node in [261, 4000, 0, 260, 257] {
        for replica in [0, 9] {
            let (answer, _) = batch_of(&mut desk(&shelf(), 0), replica, HEADING, &[node]);
            assert_eq!(answer, Refused(3));
        }
    }
}

#[test]
fn an_empty_list() {
    for ops in [
        vec![],
        p1(),
        marked(),
        shelf(),
        adds(5, 255),
        longest_chain(),
    ] {
        let end = end_of(&ops, 0);
        for more in [0, 1] {
            for room in [0, 13, 300] {
                for parent in [0, 257, 260, 4000, 65_535] {
                    let mut buffer = desk(&ops, more);
                    let (answer, out) = batch_in(&mut buffer, 5, parent, &[], room);
                    assert_eq!(answer, Accepted(end));
                    assert_eq!(out, vec![0xee; room]);
                    assert_eq!(buffer, desk(&ops, more));
                }
            }
        }
        for replica in [0, 9, 255] {
            let (answer, _) = batch_of(&mut desk(&ops, 1), replica, 0, &[]);
            assert_eq!(answer, Refused(3));
            let mut buffer = desk(&ops, 1);
            buffer[3] += 1;
            assert_eq!(batch_of(&mut buffer, replica, 0, &[]).0, Refused(1));
        }
    }
    for file in [vec![], vec![0; 31], file_of(&mutual())] {
        assert_eq!(batch(&mut file.clone(), 0, &[]), Refused(1));
    }
}

// ---- refusals

/// Each cause in each place of lists of each size.
#[test]
fn each_number_in_each_place() {
    for count in 1..=16 {
        for place in 0..count {
            for (node, number) in BAD {
                let mut nodes = good(count);
                nodes[place] = node;
                let mut buffer = desk(&shelf(), 16);
                assert_eq!(batch(&mut buffer, HEADING, &nodes), Refused(number));
            }
        }
    }
}

#[test]
fn the_first_in_the_lists_order() {
    for (one, number) in BAD {
        for (two, _) in BAD {
            for places in [[0, 1], [0, 4], [2, 3], [3, 4]] {
                let mut nodes = good(5);
                nodes[places[0]] = one;
                nodes[places[1]] = two;
                let mut buffer = desk(&shelf(), 5);
                assert_eq!(batch(&mut buffer, HEADING, &nodes), Refused(number));
            }
        }
    }
}

/// Within one move the tests are 9, 7, 11, 10, 8.
#[test]
fn the_order_of_each_moves_tests() {
    // A marked node above the parent, and a marked parent below the node.
    let mut ops = shelf();
    ops.push(remove(3, 258, &[14]));
    assert_eq!(batch(&mut desk(&ops, 5), HEADING, &[258]), Refused(11));
    assert_eq!(batch(&mut desk(&ops, 5), HEADING, &[261, 258]), Refused(11));
    assert_eq!(batch(&mut desk(&ops, 5), 258, &[257]), Refused(11));
    // Unknown and marked: 7. Marked and below: 11. All without room.
    for (parent, nodes, number) in [
        (260, &[4000][..], 7),
        (4000, &[260], 7),
        (260, &[260], 7),
        (260, &[261], 11),
        (258, &[257], 11),
        (HEADING, &[257], 10),
        (HEADING, &[261], 8),
    ] {
        assert_eq!(batch(&mut desk(&ops, 0), parent, nodes), Refused(number));
    }
    // A replica with all its ops: 9 before all of these.
    let mut ops = adds(4, 255);
    ops.push(remove(2, 1027, &[0, 0, 0, 255]));
    for nodes in [[4000, 0], [1027, 1025], [1025, 1026], [1026, 1026]] {
        assert_eq!(batch(&mut desk(&ops, 0), 1026, &nodes), Refused(9));
        assert_eq!(batch(&mut desk(&ops, 5), 4000, &nodes), Refused(9));
    }
}

/// A parent that is not known or marked: the first move is refused.
#[test]
fn parents() {
    for (parent, number) in [
        (4000, 7),
        (271, 7),
        (513, 7),
        (1025, 7),
        (1, 7),
        (256, 7),
        (65_535, 7),
        (260, 11),
    ] {
        for nodes in [&[261][..], &[261, 262], &[260, 0]] {
            let expected = if nodes[0] == parent { 7 } else { number };
            let mut buffer = desk(&shelf(), 5);
            assert_eq!(batch(&mut buffer, parent, nodes), Refused(expected));
        }
    }
    // The root is a parent, and no node.
    let mut buffer = desk(&shelf(), 5);
    let answer = batch(&mut buffer, 0, &[259, 261, 270]);
    assert_eq!(answer, Accepted(end_of(&shelf(), 3)));
    assert_eq!(batch(&mut buffer, 0, &[261, 0]), Refused(7));
}

/// The first op of a batch is of sequence 1, so its number as a node would be 1025.
/// It is a move: no such node is known, neither then nor later.
#[test]
fn the_own_next_sequence_is_no_node() {
    for node in 1025..=1029 {
        for place in 0..5 {
            let mut nodes = good(5);
            nodes[place] = node;
            assert_eq!(batch(&mut desk(&shelf(), 5), HEADING, &nodes), Refused(7));
        }
        assert_eq!(batch(&mut desk(&shelf(), 5), node, &good(3)), Refused(7));
    }
    let mut buffer = desk(&shelf(), 5);
    batch(&mut buffer, HEADING, &good(3));
    assert_eq!(batch(&mut buffer, HEADING, &[1025]), Refused(7));
}

/// No move of the list brings the parent below another node of the list: it hangs
/// where it hung. A batch before can.
#[test]
fn a_parent_below_a_node() {
    let mut buffer = desk(&shelf(), 20);
    assert_eq!(batch(&mut buffer, HEADING, &[261, 262]), Accepted(270));
    // 259 > 261: 259 cannot go under 261, nor 257 and 258.
    for above in [257, 258, 259] {
        assert_eq!(batch(&mut buffer, 261, &[263, above]), Refused(10));
        assert_eq!(batch(&mut buffer, 261, &[above, 263]), Refused(10));
    }
    // 262 can, and 257 then still cannot go under it.
    assert_eq!(batch(&mut buffer, 261, &[262, 257]), Refused(10));
    assert_eq!(batch(&mut buffer, 261, &[262, 263]), Accepted(298));
    assert_eq!(batch(&mut buffer, 262, &[264, 261]), Refused(10));
    assert_eq!(batch(&mut buffer, 262, &[264, 263]), Accepted(326));
}

// ---- room

/// 8 is the last test of each move: the first without room has its own causes before,
/// and those behind it are not looked at.
#[test]
fn room_for_some() {
    for count in 1..=16 {
        for fits in 0..=count + 1 {
            for more in [0, 1, 13] {
                let file = file_of(&shelf());
                let length = file.len() + 14 * fits + more;
                let mut buffer = in_buffer(&file, length);
                let expected = if fits < count {
                    Refused(8)
                } else {
                    Accepted(end_of(&shelf(), count))
                };
                assert_eq!(batch(&mut buffer, HEADING, &good(count)), expected);
                for place in 0..count {
                    let (node, number) = BAD[(count + fits + place) % 8];
                    let mut nodes = good(count);
                    nodes[place] = node;
                    let mut buffer = in_buffer(&file, length);
                    let expected = if place <= fits { number } else { 8 };
                    assert_eq!(batch(&mut buffer, HEADING, &nodes), Refused(expected));
                }
            }
        }
    }
}

#[test]
fn room_by_hand() {
    assert_eq!(
        batch(&mut desk(&shelf(), 1), HEADING, &[261, 4000]),
        Refused(7)
    );
    assert_eq!(
        batch(&mut desk(&shelf(), 0), HEADING, &[261, 4000]),
        Refused(8)
    );
    assert_eq!(
        batch(&mut desk(&shelf(), 0), HEADING, &[4000, 261]),
        Refused(7)
    );
    assert_eq!(
        batch(&mut desk(&shelf(), 1), HEADING, &[261, 262]),
        Refused(8)
    );
    let mut buffer = desk(&shelf(), 2);
    assert_eq!(batch(&mut buffer, HEADING, &[261, 262]), Accepted(270));
    assert_eq!(batch(&mut buffer, HEADING, &[261]), Refused(8));
    assert_eq!(batch(&mut buffer, HEADING, &[]), Accepted(270));
}

// ---- replicas that come to 255

#[test]
fn the_last_ops_of_a_replica() {
    for held in 239..=255 {
        let ops = adds(4, held);
        let left = 255 - held;
        for count in 1..=16 {
            let nodes: Vec<u16> = (1030..1030 + count as u16).collect();
            let mut buffer = desk(&ops, 20);
            let expected = if count <= left {
                Accepted(end_of(&ops, count))
            } else {
                Refused(9)
            };
            assert_eq!(batch(&mut buffer, 1025, &nodes), expected);
            // A replica that issued nothing has them all.
            let (answer, _) = batch_of(&mut desk(&ops, 20), 5, 1025, &nodes);
            assert_eq!(answer, Accepted(end_of(&ops, count)));
        }
    }
}

/// At 253: the third move is 9, whatever it names and whatever room there is, but
/// what the first two are refused with comes before.
#[test]
fn nine_in_the_middle() {
    let ops = adds(4, 253);
    for (nodes, more, number) in [
        ([1030, 1031, 1032, 1033], 9, 9),
        ([1030, 1031, 1032, 1033], 2, 9),
        ([1030, 1031, 1032, 1033], 1, 8),
        ([1030, 1031, 4000, 1033], 9, 9),
        ([1030, 1031, 1032, 4000], 9, 9),
        ([1030, 4000, 1032, 1033], 9, 7),
        ([4000, 1031, 1032, 1033], 9, 7),
        ([1030, 1031, 1025, 1033], 2, 9),
        ([1030, 1025, 1032, 1033], 1, 7),
        ([1030, 1025, 1032, 1033], 0, 8),
    ] {
        assert_eq!(batch(&mut desk(&ops, more), 1025, &nodes), Refused(number));
    }
    let mut buffer = desk(&ops, 9);
    assert_eq!(
        batch(&mut buffer, 1025, &[1030, 1031]),
        Accepted(32 + 14 * 255)
    );
    assert_eq!(batch(&mut buffer, 1025, &[1032]), Refused(9));
    assert_eq!(batch(&mut buffer, 1025, &[]), Accepted(32 + 14 * 255));
}

// ---- what changes

/// No lent byte: the moves before the refused one leave nothing, neither past the
/// file end nor in the output. Bytes of any value stand there.
#[test]
fn a_refused_batch_changes_nothing() {
    let rng = &mut Rng::new(1);
    for round in 0..200 {
        let mut nodes = good(16);
        let (bad, number) = BAD[round % 8];
        nodes[15 - round % 7] = bad;
        let mut buffer = file_of(&shelf());
        buffer.extend((0..14 * 20).map(|_| rng.byte()));
        let mut out: Vec<u8> = (0..300).map(|_| rng.byte()).collect();
        let (old, lent) = (buffer.clone(), out.clone());
        let answer = issue_moves(&mut buffer, 4, &nodes, HEADING, &mut out);
        assert_eq!(answer, Refused(number));
        assert_eq!((buffer, out), (old, lent));
    }
}

/// Neither does a batch mark a node, nor does a mark go.
#[test]
fn marks_stay() {
    let mut buffer = desk(&shelf(), 20);
    batch(&mut buffer, HEADING, &good(10));
    let log = Log::open(&buffer).unwrap();
    for node in 257..=270 {
        let expected = if node == 260 {
            Knowledge::Marked
        } else {
            Knowledge::Unmarked
        };
        assert_eq!(log.knowledge(&log.held(), node), expected);
    }
}

// ---- later on

/// 1025 to 1030 are siblings; replica 5 puts 1025, 1026 and 1027 under 1030. What
/// another replica did meanwhile settles the outcome of each move by itself.
#[test]
fn outcomes_later_are_each_moves_own() {
    let all = &[0, 0, 0, 6];
    let then = |replica: u8, own: u8| {
        let mut vector = v(all);
        vector[usize::from(replica) - 1] = own;
        vector
    };
    for (others, expected) in [
        // A rival of the same timestamp: the higher replica comes first.
        (vec![down(8, 1025, 1028, all)], [2, 1, 1]),
        (vec![down(2, 1025, 1028, all)], [1, 1, 1]),
        (vec![up(2, 1025, 1028, all)], [2, 1, 1]),
        // The second move is one timestamp later, so its rival is a second op.
        (vec![down(8, 1026, 1028, all)], [1, 1, 1]),
        (
            vec![add(8, 0, all), down(8, 1026, 1028, &then(8, 1))],
            [1, 2, 1],
        ),
        // The parent goes under a node: at the first move's timestamp, before the
        // second and third.
        (vec![down(8, 1030, 1025, all)], [3, 1, 1]),
        (vec![down(2, 1030, 1025, all)], [1, 1, 1]),
        (vec![down(2, 1030, 1026, all)], [1, 3, 1]),
        (vec![down(2, 1030, 1027, all)], [1, 1, 3]),
        (
            vec![down(2, 1030, 1028, all), down(2, 1028, 1027, &then(2, 1))],
            [1, 1, 3],
        ),
        // A removal takes none back.
        (vec![remove(8, 1026, all)], [1, 1, 1]),
        (vec![remove(8, 1030, all)], [1, 1, 1]),
    ] {
        let mut buffer = desk(&adds(4, 6), 6);
        let (answer, out) = batch_of(&mut buffer, 5, 1030, &[1025, 1026, 1027]);
        assert_eq!(answer, Accepted(32 + 14 * 9));
        for op in &others {
            deliver_checked(&mut buffer, &op.bytes());
        }
        let found: Vec<u8> = out.chunks(14).map(|op| outcome_of(&buffer, op)).collect();
        assert_eq!(found, expected, "{others:?}");
    }
}

/// A batch after such a meeting is tested in the tree that it left.
#[test]
fn a_batch_after_a_meeting() {
    let mut buffer = desk(&adds(4, 6), 20);
    batch_of(&mut buffer, 5, 1030, &[1025, 1026, 1027]);
    let other = down(2, 1030, 1026, &[0, 0, 0, 6]);
    deliver_checked(&mut buffer, &other.bytes());
    // 1026 > 1030 > 1025, 1027.
    let (answer, _) = batch_of(&mut buffer, 5, 1030, &[1028, 1026]);
    assert_eq!(answer, Refused(10));
    let mut counts = [0, 1, 0, 6, 3];
    deliver_checked(&mut buffer, &remove(2, 1025, &counts).bytes());
    let (answer, _) = batch_of(&mut buffer, 5, 1030, &[1028, 1025]);
    assert_eq!(answer, Refused(11));
    let (answer, out) = batch_of(&mut buffer, 5, 1030, &[1028, 1027]);
    assert_eq!(answer, Accepted(32 + 14 * 13));
    counts[1] = 2;
    let first = down(5, 1028, 1030, &counts);
    counts[4] = 4;
    let second = up(5, 1027, 1030, &counts);
    assert_eq!(out, [first.bytes(), second.bytes()].concat());
}

/// One that holds what the issuer held takes the ops in their order; each counts
/// those before it.
#[test]
fn another_replica_takes_them_in_order() {
    let mut here = desk(&shelf(), 16);
    let mut there = here.clone();
    let (_, out) = batch_of(&mut here, 4, HEADING, &good(10));
    let ops: Vec<&[u8]> = out.chunks(14).collect();
    for op in &ops[1..] {
        assert_eq!(deliver_checked(&mut there, op), Refused(5));
    }
    for op in &ops {
        assert!(matches!(deliver_checked(&mut there, op), Accepted(_)));
        assert_eq!(deliver_checked(&mut there, op), HadIt);
    }
    assert_eq!(here, there);
    // In a bundle, and from a holdback, as well.
    let mut there = desk(&shelf(), 16);
    let bundle = bundle_checked(&here, log_of(&shelf()).held());
    assert_eq!(
        open_checked(&mut there, &bundle),
        Accepted(end_of(&shelf(), 10))
    );
    assert_eq!(here, there);
    let mut there = desk(&shelf(), 16);
    let mut holdback = vec![0; 449];
    for op in ops.iter().rev() {
        holdback_checked(&mut there, op, &mut holdback);
    }
    assert_eq!(here, there);
}

// ---- laws

fn random_world(rng: &mut Rng, most: usize) -> Vec<Op> {
    match rng.below(3) {
        0 => {
            let deep = Deep {
                chains: 1 + rng.below(3),
                length: 3 + rng.below(15),
                moves: rng.below(20),
            };
            World::deep(rng, deep).ops
        }
        sort => {
            let style = [Style::moves, Style::mixed][sort - 1];
            let style = style(1 + rng.below(8), rng.below(most));
            World::random(rng, style).ops
        }
    }
}

/// A parent and a list of any nodes; some lists are refused and many are not.
fn some_list(rng: &mut Rng, ops: &[Op]) -> (u16, Vec<u16>) {
    let log = log_of(ops);
    let tree = Tree::judge(&log);
    let nodes: Vec<u16> = tree.nodes().collect();
    let mut unmarked = nodes.clone();
    unmarked.retain(|&node| log.knowledge(&log.held(), node) == Knowledge::Unmarked);
    if unmarked.is_empty() {
        return (0, vec![0; rng.below(3)]);
    }
    let parent = if rng.one_in(4) {
        0
    } else {
        rng.pick(&unmarked)
    };
    let path: Vec<u16> = tree.path(parent).collect();
    unmarked.retain(|node| !path.contains(node));
    let count = rng.pick(&[0, 1, 2, 3, 5, 9, 16, 17]);
    let mut list = vec![];
    for _ in 0..count {
        list.push(match rng.below(60) {
            0..=2 => rng.pick(&nodes),
            3 => rng.pick(&[0, 256, 2304, 4000]),
            _ if unmarked.is_empty() => 0,
            _ => rng.pick(&unmarked),
        });
    }
    (parent, list)
}

/// The moves one by one, each by a single issue, until one is refused.
fn singly(buffer: &mut [u8], replica: u8, parent: u16, nodes: &[u16]) -> (Answer, Vec<u8>) {
    let mut answer = Accepted(32 + 14 * bodies(buffer).len());
    let mut ops = vec![];
    for &node in nodes {
        let (next, op) = issue_checked(buffer, replica, Issue::Move(node, parent));
        answer = next;
        if let Refused(_) = answer {
            break;
        }
        ops.extend(op);
    }
    (answer, ops)
}

#[test]
fn a_batch_is_its_moves_one_by_one() {
    let rng = &mut Rng::new(2);
    let mut seen = [0; 12];
    let mut long = 0;
    for _ in 0..2500 {
        let ops = random_world(rng, 60);
        let more = rng.pick(&[0, 1, 3, 16, 16, 16]);
        let replica = rng.below(10) as u8;
        let (parent, nodes) = some_list(rng, &ops);
        let mut buffer = desk(&ops, more);
        let mut other = buffer.clone();
        let (answer, out) = batch_of(&mut buffer, replica, parent, &nodes);
        if nodes.len() > 16 {
            assert_eq!(answer, Refused(2));
        } else if !(1..=8).contains(&replica) {
            assert_eq!(answer, Refused(3));
        } else {
            let (last, written) = singly(&mut other, replica, parent, &nodes);
            assert_eq!(answer, last);
            if let Accepted(_) = answer {
                assert_eq!((&buffer, out), (&other, written));
                long += usize::from(nodes.len() > 4);
            }
        }
        match answer {
            Accepted(_) => seen[0] += 1,
            Refused(number) => seen[usize::from(number)] += 1,
            other => panic!("{other:?}"),
        }
    }
    for number in [0, 2, 3, 7, 8, 10, 11] {
        assert!(seen[number] > 15, "{seen:?}");
    }
    assert!(long > 150, "{long}");
}

/// What each move comes to is settled by the first tree and the list: the parent's
/// place never changes. A move is upward if its node is deeper than the parent in
/// the first tree, or if it or one above it there was moved before.
#[test]
fn the_first_tree_settles_all() {
    let rng = &mut Rng::new(3);
    let [mut accepted, mut changed] = [0; 2];
    for _ in 0..1500 {
        let ops = random_world(rng, 50);
        let log = log_of(&ops);
        let tree = Tree::judge(&log);
        let (parent, nodes) = some_list(rng, &ops);
        if nodes.len() > 16 {
            continue;
        }
        let cause = |&node: &u16| match log.knowledge(&log.held(), node) {
            _ if node == parent => Some(7),
            Knowledge::Unknown => Some(7),
            Knowledge::Marked => Some(11),
            Knowledge::Unmarked => tree.path(parent).any(|above| above == node).then_some(10),
        };
        let (answer, out) = batch_of(&mut desk(&ops, 16), 3, parent, &nodes);
        if let Some(number) = nodes.iter().find_map(cause) {
            assert_eq!(answer, Refused(number));
            continue;
        }
        assert_eq!(answer, Accepted(end_of(&ops, nodes.len())));
        accepted += 1;
        for (place, kind) in kinds(&out).into_iter().enumerate() {
            let node = nodes[place];
            let deeper = tree.depth(node) > tree.depth(parent);
            let before = &nodes[..place];
            let taken_along = tree.path(node).any(|above| before.contains(&above));
            assert_eq!(kind == 3, deeper || taken_along);
            changed += usize::from(kind == 3 && !deeper);
        }
    }
    assert!(accepted > 400 && changed > 300, "{accepted} {changed}");
}

/// A batch of one is the single issue, whatever is wrong with it.
#[test]
fn a_batch_of_one_is_an_issue() {
    let rng = &mut Rng::new(4);
    let mut seen = [0; 12];
    for round in 0..1500 {
        let ops = match round % 20 {
            0 => adds(3, 255),
            _ => random_world(rng, 30),
        };
        let mut buffer = desk(&ops, rng.below(2));
        if rng.one_in(20) {
            buffer = damage::random(rng, &buffer);
        }
        let some = |rng: &mut Rng| match ops.is_empty() || rng.one_in(8) {
            true => rng.pick(&[0, 257, 2304]),
            false => rng.pick(&ops).node,
        };
        let (node, parent) = (some(rng), some(rng));
        let replica = rng.pick(&[0, 1, 3, 3, 5, 8, 9]);
        let room = rng.pick(&[13, 14, 14, 14, 20]);
        let mut other = buffer.clone();
        let one = batch_in(&mut buffer, replica, parent, &[node], room);
        let two = issue_in(&mut other, replica, Issue::Move(node, parent), room);
        assert_eq!(one, two);
        assert_eq!(buffer, other);
        if let Refused(number) = one.0 {
            seen[usize::from(number)] += 1;
        }
    }
    for number in [1, 2, 3, 7, 8, 9, 10, 11] {
        assert!(seen[number] > 10, "{seen:?}");
    }
}

/// A list may be cut anywhere: two batches are one, if both are accepted.
#[test]
fn two_batches_are_one() {
    let rng = &mut Rng::new(5);
    let mut cut = 0;
    for _ in 0..600 {
        let ops = random_world(rng, 40);
        let (parent, nodes) = some_list(rng, &ops);
        let mut buffer = desk(&ops, 20);
        let mut other = buffer.clone();
        let (answer, out) = batch_of(&mut buffer, 6, parent, &nodes);
        if !matches!(answer, Accepted(_)) {
            continue;
        }
        let (front, back) = nodes.split_at(rng.below(nodes.len() + 1));
        let (_, one) = batch_of(&mut other, 6, parent, front);
        let (last, two) = batch_of(&mut other, 6, parent, back);
        assert_eq!((answer, out), (last, [one, two].concat()));
        assert_eq!(buffer, other);
        cut += usize::from(!front.is_empty() && !back.is_empty());
    }
    assert!(cut > 100, "{cut}");
}

/// Two logs that met go on apart, one of them by batches: each takes the other's
/// ops, and then both are alike.
#[test]
fn batches_meet() {
    let rng = &mut Rng::new(6);
    let mut outcomes = [0; 4];
    for _ in 0..150 {
        let ops = random_world(rng, 30);
        let mut files = [desk(&ops, 60), desk(&ops, 60)];
        let mut issued = vec![];
        for (file, replica) in files.iter_mut().zip([3, 6]) {
            for _ in 0..2 {
                let held: Vec<Op> = Log::open(file).unwrap().ops().copied().collect();
                let (parent, mut nodes) = some_list(rng, &held);
                nodes.truncate(12);
                let (answer, out) = batch_of(file, replica, parent, &nodes);
                if let Accepted(_) = answer {
                    issued.extend(out.chunks(14).map(<[u8]>::to_vec));
                }
            }
        }
        let [one, two] = &mut files;
        for op in bodies(two) {
            deliver_checked(one, &op);
        }
        for op in &issued {
            if !bodies(two).contains(op) {
                deliver_checked(two, op);
            }
        }
        assert_eq!(one, two);
        for op in &issued {
            outcomes[usize::from(outcome_of(one, op))] += 1;
        }
    }
    assert!(outcomes[1] > 400 && outcomes[2] > 20, "{outcomes:?}");
    assert!(outcomes[3] > 10, "{outcomes:?}");
}

// ---- what is not sound, and what is long

#[test]
fn unsound_is_1() {
    let rng = &mut Rng::new(7);
    let mut unsound = 0;
    for _ in 0..600 {
        let ops = random_world(rng, 20);
        let buffer = damage::random(rng, &desk(&ops, 3));
        let (parent, nodes) = some_list(rng, &ops);
        let replica = rng.below(10) as u8;
        let (answer, _) = batch_in(&mut buffer.clone(), replica, parent, &nodes, 30);
        assert_eq!(answer == Refused(1), !is_sound(&buffer));
        unsound += usize::from(answer == Refused(1));
    }
    assert!(unsound > 150, "{unsound}");
}

/// The last 16 ops of all that there can be.
#[test]
fn the_longest_logs() {
    let chain = &longest_chain()[..2024];
    let deepest: Vec<u16> = chain[2008..].iter().map(|op| op.node).collect();
    let mut buffer = desk(chain, 16);
    // Each of them, from above, is deeper than its new parent.
    let (answer, out) = batch_of(&mut buffer, 8, 257, &deepest);
    assert_eq!(answer, Accepted(FULL));
    assert_eq!(kinds(&out), [3; 16]);
    assert_eq!(batch_of(&mut buffer, 8, 257, &deepest).0, Refused(9));
    let mut buffer = desk(chain, 16);
    buffer.pop();
    assert_eq!(batch_of(&mut buffer, 8, 257, &deepest).0, Refused(8));
    assert_eq!(batch_of(&mut buffer, 7, 257, &deepest).0, Refused(9));
    // The deepest lies below all others.
    let (last, others) = deepest.split_last().unwrap();
    assert_eq!(batch_of(&mut buffer, 8, *last, others).0, Refused(10));
    let rng = &mut Rng::new(8);
    for style in [Style::moves, Style::mixed] {
        let all = full(rng, style);
        for _ in 0..4 {
            let held = part(rng, &all[..1900], 500);
            let (parent, mut nodes) = some_list(rng, &held);
            nodes.truncate(16);
            let mut buffer = desk(&held, 16);
            let mut other = buffer.clone();
            let (answer, _) = batch_of(&mut buffer, 2, parent, &nodes);
            let (last, _) = singly(&mut other, 2, parent, &nodes);
            assert_eq!(answer, last);
        }
    }
}
