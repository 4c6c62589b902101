//! Small logs that the document or its traps name.

use crate::op::{node_number, MAX_SEQUENCE, OP_LEN, REPLICAS};
use crate::{make_bundle, Answer, Kind, Log, Op, Vector, HOLDBACK_LEN};

/// Counts of the first replicas; the rest are 0.
pub fn v(counts: &[u8]) -> Vector {
    std::array::from_fn(|i| counts.get(i).copied().unwrap_or(0))
}

/// An add whose node is the right one.
pub fn add(replica: u8, parent: u16, counts: &[u8]) -> Op {
    let mut op = named(Kind::Add, replica, 0, parent, counts);
    op.node = node_number(replica, op.sequence()) as u16;
    op
}

pub fn remove(replica: u8, node: u16, counts: &[u8]) -> Op {
    named(Kind::Remove, replica, node, 0, counts)
}

pub fn up(replica: u8, node: u16, parent: u16, counts: &[u8]) -> Op {
    named(Kind::Up, replica, node, parent, counts)
}

pub fn down(replica: u8, node: u16, parent: u16, counts: &[u8]) -> Op {
    named(Kind::Down, replica, node, parent, counts)
}

fn named(kind: Kind, replica: u8, node: u16, parent: u16, counts: &[u8]) -> Op {
    Op {
        kind,
        replica,
        node,
        parent,
        vector: v(counts),
    }
}

/// The log of these ops, whether sound or not.
pub fn log_of(ops: &[Op]) -> Log {
    let mut log = Log::default();
    ops.iter().for_each(|op| log.push(*op));
    log
}

pub fn file_of(ops: &[Op]) -> Vec<u8> {
    log_of(ops).bytes()
}

/// The bundle of these ops, in this order.
pub fn bundle_of(ops: &[Op]) -> Vec<u8> {
    let bodies: Vec<[u8; OP_LEN]> = ops.iter().map(Op::bytes).collect();
    bundle_with(&bodies)
}

/// The bundle of these bodies, in this order; they may be out of form but for
/// the replica.
pub fn bundle_with(bodies: &[[u8; OP_LEN]]) -> Vec<u8> {
    let mut bundle = vec![0];
    for index in 0..REPLICAS {
        let of_replica = |body: &&[u8; OP_LEN]| usize::from(body[1]) == index + 1;
        let count = bodies.iter().filter(of_replica).count();
        if count > 0 {
            bundle[0] |= 1 << index;
            bundle.push(count as u8);
        }
    }
    [bundle, bodies.concat()].concat()
}

/// What the bundle of a log for these counts is; nothing if it is not sound.
pub fn bundle_for(file: &[u8], counts: Vector) -> Vec<u8> {
    let mut bundle = vec![0; 1 + REPLICAS + OP_LEN * REPLICAS * MAX_SEQUENCE];
    match make_bundle(file, counts, &mut bundle) {
        Answer::Count(length) => bundle[..length].to_vec(),
        _ => vec![],
    }
}

/// The holdback in which these ops wait, in this order.
pub fn holdback_of(ops: &[Op]) -> Vec<u8> {
    let bodies: Vec<[u8; OP_LEN]> = ops.iter().map(Op::bytes).collect();
    holdback_with(&bodies)
}

/// The holdback with these bodies, of any form.
pub fn holdback_with(bodies: &[[u8; OP_LEN]]) -> Vec<u8> {
    let mut holdback = vec![bodies.len() as u8];
    holdback.extend(bodies.concat());
    holdback.resize(HOLDBACK_LEN, 0);
    holdback
}

pub fn p1() -> Vec<Op> {
    vec![
        add(1, 0, &[]),
        add(1, 0, &[1]),
        down(1, 258, 257, &[2]),
        down(2, 257, 258, &[2]),
    ]
}

/// Replica 4 adds the siblings 1025, 1026, 1027; then one circle of three.
pub fn p10() -> Vec<Op> {
    circle(4)
}

/// Three siblings of any replica, moved in a circle by replicas 1, 2 and 3.
pub fn circle(maker: u8) -> Vec<Op> {
    let mut ops = siblings(maker);
    let mut counts = [0; REPLICAS];
    counts[usize::from(maker) - 1] = 3;
    let [a, b, c] = [0, 1, 2].map(|i| ops[i].node);
    ops.extend([
        down(1, a, b, &counts),
        down(2, b, c, &counts),
        down(3, c, a, &counts),
    ]);
    ops
}

pub fn p11() -> Vec<Op> {
    let mut ops = siblings(3);
    ops.extend([
        down(1, 769, 771, &[0, 0, 3]),
        up(1, 769, 770, &[1, 0, 3]),
        down(2, 770, 771, &[0, 0, 3]),
        up(2, 770, 769, &[0, 1, 3]),
    ]);
    ops
}

pub fn p12() -> Vec<Op> {
    vec![
        add(3, 0, &[]),
        add(3, 769, &[0, 0, 1]),
        add(3, 769, &[0, 0, 2]),
        up(1, 770, 0, &[0, 0, 3]),
        down(2, 770, 771, &[0, 0, 3]),
    ]
}

/// Replica 1's move meets a rival and a circle at once: outcome 2.
pub fn rival_before_circle() -> Vec<Op> {
    let mut ops = siblings(4);
    ops.extend([
        down(3, 1026, 1025, &[0, 0, 0, 3]),
        down(2, 1025, 1027, &[0, 0, 0, 3]),
        down(1, 1025, 1026, &[0, 0, 0, 3]),
    ]);
    ops
}

/// Replica 2's move is passed over, so it is no rival of replica 1's.
pub fn rival_passed_over() -> Vec<Op> {
    let mut ops = siblings(4);
    ops.extend([
        down(3, 1026, 1025, &[0, 0, 0, 3]),
        down(2, 1025, 1026, &[0, 0, 0, 3]),
        down(1, 1025, 1027, &[0, 0, 0, 3]),
    ]);
    ops
}

/// Rivals at one timestamp with different vectors.
pub fn rivals_with_different_vectors() -> Vec<Op> {
    vec![
        add(3, 0, &[]),
        add(3, 0, &[0, 0, 1]),
        add(4, 0, &[]),
        down(1, 769, 770, &[0, 0, 2]),
        up(2, 769, 0, &[0, 0, 2, 1]),
    ]
}

/// Replica 2's move has seen more ops, yet both have timestamp 2.
pub fn chain_not_count() -> Vec<Op> {
    let mut ops: Vec<Op> = (3..=8).map(|replica| add(replica, 0, &[])).collect();
    ops.extend([
        down(1, 769, 0, &[0, 0, 1]),
        down(2, 769, 1025, &[0, 0, 1, 1, 1, 1, 1, 1]),
    ]);
    ops
}

/// A removed node with a kept one below, and one removed below a kept one. The
/// add under 259 has met its removal: it is taken, though none can issue it.
pub fn removals() -> Vec<Op> {
    vec![
        add(1, 0, &[]),
        add(1, 257, &[1]),
        add(1, 258, &[2]),
        add(1, 0, &[3]),
        remove(1, 257, &[4]),
        remove(2, 259, &[4]),
        remove(3, 259, &[4, 1]),
        add(3, 259, &[4, 1, 1]),
        remove(1, 260, &[5]),
        up(8, 258, 260, &[4]),
    ]
}

/// The tree of `removals`, with nothing removed: 260 > 258 > 259 > 769, and 257.
pub fn unremoved() -> Vec<Op> {
    vec![
        add(1, 0, &[]),
        add(1, 257, &[1]),
        add(1, 258, &[2]),
        add(1, 0, &[3]),
        add(3, 259, &[4]),
        up(8, 258, 260, &[4]),
    ]
}

/// What replicas have that met no removal: 257 > 258 > 259, 260 > 261, and 262.
pub fn unmet() -> Vec<Op> {
    vec![
        add(1, 0, &[]),
        add(1, 257, &[1]),
        add(1, 258, &[2]),
        add(1, 0, &[3]),
        add(1, 260, &[4]),
        add(1, 0, &[5]),
    ]
}

/// The same with 257 and 261 marked: one above unmarked nodes, removed by two
/// replicas, and one below an unmarked node.
pub fn marked() -> Vec<Op> {
    let mut ops = unmet();
    ops.extend([
        remove(2, 257, &[6]),
        remove(3, 261, &[6]),
        remove(3, 257, &[6, 0, 1]),
    ]);
    ops
}

/// Four replicas move one node at one timestamp, two of them upward.
pub fn rivals() -> Vec<Op> {
    let mut ops = siblings(4);
    ops.extend([
        down(1, 1025, 1026, &[0, 0, 0, 3]),
        up(2, 1025, 1027, &[0, 0, 0, 3]),
        up(5, 1025, 1026, &[0, 0, 0, 3]),
        down(8, 1025, 1027, &[0, 0, 0, 3]),
    ]);
    ops
}

/// Ops of every kind at one timestamp: at equal timestamps the kind settles the
/// order, and then the replica.
pub fn all_kinds() -> Vec<Op> {
    let mut ops = siblings(4);
    ops.extend([
        add(1, 1025, &[0, 0, 0, 3]),
        remove(2, 1025, &[0, 0, 0, 3]),
        up(3, 1026, 1025, &[0, 0, 0, 3]),
        down(5, 1027, 1026, &[0, 0, 0, 3]),
        add(8, 1025, &[0, 0, 0, 3]),
    ]);
    ops
}

/// An op that comes late to a log, and makes the outcome of the only op of
/// replica 1 there another one.
pub struct Late {
    pub held: Vec<Op>,
    pub late: Op,
    /// Before and after.
    pub outcomes: [u8; 2],
}

/// Every outcome of a move becomes every other.
pub fn late_moves() -> Vec<Late> {
    let [a, b, c] = [1025, 1026, 1027];
    let all = &[0, 0, 0, 3];
    // In the second tree c lies below b.
    let flat = siblings(4);
    let mut nested = siblings(4);
    nested[2].parent = b;
    let late = |tree: &[Op], moves: &[Op], late, outcomes| Late {
        held: [tree, moves].concat(),
        late,
        outcomes,
    };
    let one = down(1, a, b, all);
    vec![
        late(&flat, &[one], down(2, a, c, all), [1, 2]),
        late(&flat, &[one], down(2, b, a, all), [1, 3]),
        // The rival that came first is passed over now.
        late(
            &flat,
            &[one, down(2, a, c, all)],
            down(3, c, a, all),
            [2, 1],
        ),
        late(
            &nested,
            &[down(1, a, c, all), down(2, a, b, all)],
            down(3, b, a, all),
            [2, 3],
        ),
        // What had closed the circle is a rival's now.
        late(
            &flat,
            &[one, down(2, b, a, all)],
            down(3, b, c, all),
            [3, 1],
        ),
        late(
            &flat,
            &[one, down(2, b, a, all)],
            down(3, a, c, all),
            [3, 2],
        ),
    ]
}

/// Two ops that count each other: never sound, and a check must still end.
pub fn mutual() -> Vec<Op> {
    vec![add(1, 0, &[0, 1]), add(2, 0, &[1, 0])]
}

/// One chain of every node there can be.
pub fn longest_chain() -> Vec<Op> {
    let mut ops = vec![];
    let mut counts = [0; REPLICAS];
    let mut parent = 0;
    for replica in 1..=REPLICAS {
        for _ in 0..MAX_SEQUENCE {
            let op = add(replica as u8, parent, &counts);
            counts[replica - 1] += 1;
            parent = op.node;
            ops.push(op);
        }
    }
    ops
}

/// A chain in which the replicas take turns, the highest first.
pub fn turns(count: usize) -> Vec<Op> {
    chains(1, count)
}

/// Chains of this length, one after the other, in which the replicas take turns.
pub fn chains(count: usize, length: usize) -> Vec<Op> {
    let mut ops: Vec<Op> = vec![];
    let mut counts = [0; REPLICAS];
    for (index, place) in (0..REPLICAS).rev().cycle().zip(0..count * length) {
        let is_first = place % length == 0;
        let parent = if is_first { 0 } else { ops[place - 1].node };
        ops.push(add(index as u8 + 1, parent, &counts));
        counts[index] += 1;
    }
    ops
}

/// `count` adds of one replica under the root.
pub fn adds(replica: u8, count: usize) -> Vec<Op> {
    let mut counts = [0; REPLICAS];
    let mut ops = vec![];
    for _ in 0..count {
        ops.push(add(replica, 0, &counts));
        counts[usize::from(replica) - 1] += 1;
    }
    ops
}

/// Three nodes under the root.
fn siblings(replica: u8) -> Vec<Op> {
    adds(replica, 3)
}

/// The small sound logs above.
pub fn small_logs() -> Vec<Vec<Op>> {
    vec![
        vec![],
        p1(),
        p10(),
        p11(),
        p12(),
        rival_before_circle(),
        rival_passed_over(),
        rivals_with_different_vectors(),
        chain_not_count(),
        removals(),
        marked(),
    ]
}
