//! Replay, level by level: the ops whose timestamp is one more than before are
//! those that count only what is done.

use super::log::{at_most, Log, Op, ADD, DOWN, MOST, REMOVE, REPLICAS, UP};

pub const SLOTS: usize = 2041;
pub const NO_PARENT: u16 = 65_535;

const APPLIED: u8 = 1;
const RIVAL_FIRST: u8 = 2;
const BELOW_NODE: u8 = 3;

/// A node is 256 times its replica and its sequence, its slot 255 times the replicas
/// before and its sequence. In a climb the test for the root is made already.
pub fn slot_of(node: u16) -> usize {
    match usize::from(node) {
        0 => 0,
        node => node - (node >> 8) - 255,
    }
}

/// Fills both tables.
pub fn replay(log: &Log, parents: &mut [u16; SLOTS], outcomes: &mut [u8; SLOTS]) {
    let mut placed = [0; SLOTS];
    parents.fill(NO_PARENT);
    parents[0] = 0;
    outcomes.fill(0);
    in_judging_order(log, |time, slot, op| {
        outcomes[slot] = judge_op(op, time, parents, &mut placed);
    });
}

/// The slots of all ops in judging order, at the front of the table.
pub fn judging_order<'a>(log: &Log, slots: &'a mut [u16; SLOTS]) -> &'a [u16] {
    let mut count = 0;
    in_judging_order(log, |_, slot, _| {
        slots[count] = slot as u16;
        count += 1;
    });
    &slots[..count]
}

/// Visits all ops in judging order, each with its timestamp and its slot.
#[inline(always)]
pub fn in_judging_order<'a>(log: &Log<'a>, mut visit: impl FnMut(u16, usize, Op<'a>)) {
    let counts = &log.layout.counts;
    let mut done = [0u8; REPLICAS];
    for time in 1.. {
        // The ready ops, the higher replica first, with their kinds.
        let mut ready = [(0u8, 0usize); REPLICAS];
        let mut many = 0;
        for index in (0..REPLICAS).rev() {
            if done[index] < counts[index] {
                let op = log.op(index, usize::from(done[index]) + 1);
                if at_most(op.vector(), &done) {
                    ready[many] = (op.kind(), index);
                    many += 1;
                }
            }
        }
        if many == 0 {
            return;
        }
        for kind in [ADD, REMOVE, UP, DOWN] {
            for &(_, index) in ready[..many].iter().filter(|next| next.0 == kind) {
                done[index] += 1;
                let sequence = usize::from(done[index]);
                visit(time, MOST * index + sequence, log.op(index, sequence));
            }
        }
    }
}

/// Judges one op, and hands back its outcome. `placed` has for each node the
/// timestamp of the last applied move of it.
#[inline(always)]
pub fn judge_op(op: Op, time: u16, parents: &mut [u16; SLOTS], placed: &mut [u16; SLOTS]) -> u8 {
    let slot = slot_of(op.node());
    match op.kind() {
        ADD => parents[slot] = op.parent(),
        REMOVE => {}
        _ if placed[slot] == time => return RIVAL_FIRST,
        _ if climb_to(parents, op.parent(), op.node()).met => return BELOW_NODE,
        _ => {
            parents[slot] = op.parent();
            placed[slot] = time;
        }
    }
    APPLIED
}

/// Which slots have a marked node, with 1: every remove marks, whenever it comes.
pub fn marks(log: &Log) -> [u8; SLOTS] {
    let mut marks = [0; SLOTS];
    for op in log.ops() {
        if op.kind() == REMOVE {
            marks[slot_of(op.node())] = 1;
        }
    }
    marks
}

/// A way up the tree.
pub struct Climb {
    pub met: bool,
    /// Those to the node that was met, else to the root.
    pub steps: usize,
}

/// Climbs until it meets the node, which it may start from, or to the root.
pub fn climb_to(parents: &[u16; SLOTS], from: u16, node: u16) -> Climb {
    let mut at = from;
    let mut steps = 0;
    while at != node && at != 0 {
        at = parents[slot_of(at)];
        steps += 1;
    }
    let met = at == node;
    Climb { met, steps }
}

/// Steps to the root.
pub fn depth(parents: &[u16; SLOTS], node: u16) -> usize {
    climb_to(parents, node, 0).steps
}
