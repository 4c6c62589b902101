//! Judging: timestamps, the judging order, and the tree they lead to.

use crate::log::Log;
use crate::op::{Kind, Op, MAX_SEQUENCE, REPLICAS};

/// Entries of a judging table: the root and every possible op.
pub const SLOTS: usize = 1 + REPLICAS * MAX_SEQUENCE;
/// The parent entry of a slot without an added node.
pub const NO_PARENT: u16 = 65535;

/// Outcomes of an op (the document's fates).
pub const NO_OP: u8 = 0;
pub const APPLIED: u8 = 1;
pub const RIVAL_FIRST: u8 = 2;
pub const BELOW_NODE: u8 = 3;

/// What judging a log leads to. All tables are by slot.
pub struct Tree {
    pub parents: Vec<u16>,
    pub outcomes: Vec<u8>,
    /// The timestamp of the last applied move of a node, 0 if none.
    moved_at: Vec<usize>,
}

/// What a climb from a parent towards a node comes to.
#[derive(Clone, Copy, PartialEq, Eq, Debug)]
pub struct Climb {
    /// Whether the parent is the node or lies below it.
    pub met: bool,
    /// Steps from the parent up to the node; the parent's depth if it is not met.
    pub steps: usize,
}

impl Tree {
    pub fn judge(log: &Log) -> Tree {
        let mut tree = Tree {
            parents: vec![NO_PARENT; SLOTS],
            outcomes: vec![NO_OP; SLOTS],
            moved_at: vec![0; SLOTS],
        };
        tree.parents[0] = 0;
        for (timestamp, op) in judging_order(log) {
            tree.outcomes[op_slot(op)] = tree.apply(timestamp, op);
        }
        tree
    }

    fn apply(&mut self, timestamp: usize, op: &Op) -> u8 {
        let slot = slot_of(op.node);
        match op.kind {
            Kind::Add => self.parents[slot] = op.parent,
            // The mark stays from here on: the log knows it by the op alone.
            Kind::Remove => {}
            Kind::Up | Kind::Down => {
                if self.moved_at[slot] == timestamp {
                    return RIVAL_FIRST;
                }
                if self.climb_to(op.parent, op.node).met {
                    return BELOW_NODE;
                }
                self.parents[slot] = op.parent;
                self.moved_at[slot] = timestamp;
            }
        }
        APPLIED
    }

    /// Climbs from the parent until the node is met, or else to the root. Only
    /// the entries of those below the node are looked at: neither the node's own
    /// nor any above it.
    pub fn climb_to(&self, parent: u16, node: u16) -> Climb {
        let mut at = parent;
        let mut steps = 0;
        while at != node && at != 0 {
            at = self.parents[slot_of(at)];
            steps += 1;
        }
        Climb {
            met: at == node,
            steps,
        }
    }

    /// The node, its parent, and so on; the root comes last.
    pub fn path(&self, node: u16) -> impl Iterator<Item = u16> + '_ {
        std::iter::successors(Some(node), |&node| {
            (node != 0).then(|| self.parents[slot_of(node)])
        })
    }

    /// Steps to the root.
    pub fn depth(&self, node: u16) -> usize {
        self.path(node).count() - 1
    }

    /// Added nodes in rising number.
    pub fn nodes(&self) -> impl DoubleEndedIterator<Item = u16> + '_ {
        (1..SLOTS)
            .filter(|&slot| self.parents[slot] != NO_PARENT)
            .map(node_at)
    }
}

/// The slot of the root or of a node number of the form replica, sequence.
pub fn slot_of(node: u16) -> usize {
    let [replica, sequence] = node.to_be_bytes().map(usize::from);
    match replica.checked_sub(1) {
        Some(index) => MAX_SEQUENCE * index + sequence,
        None => 0,
    }
}

fn node_at(slot: usize) -> u16 {
    let index = (slot - 1) / MAX_SEQUENCE;
    let sequence = (slot - 1) % MAX_SEQUENCE + 1;
    (256 * (index + 1) + sequence) as u16
}

/// Where the op itself stands in the tables.
pub(crate) fn op_slot(op: &Op) -> usize {
    MAX_SEQUENCE * op.index() + op.sequence()
}

/// Ops with their timestamps, in the order of judging.
pub(crate) fn judging_order(log: &Log) -> Vec<(usize, &Op)> {
    let timestamps = timestamps(log);
    let mut order: Vec<(usize, &Op)> = log.ops().map(|op| (timestamps[op_slot(op)], op)).collect();
    // The higher replica comes first.
    order.sort_by_key(|&(timestamp, op)| (timestamp, op.kind, REPLICAS - op.index()));
    order
}

/// The timestamp of each op by slot (the document's stamps).
///
/// In a sound log an op within a vector has itself a smaller vector, so rising
/// sums of the counts meet every op after those it builds on. The last op
/// counted of each replica has that replica's greatest timestamp.
pub fn timestamps(log: &Log) -> Vec<usize> {
    let mut timestamps = vec![0; SLOTS];
    let mut ops: Vec<&Op> = log.ops().collect();
    ops.sort_by_key(|op| op.vector.iter().map(|&count| u32::from(count)).sum::<u32>());
    for op in ops {
        let greatest = log
            .last_counted(&op.vector)
            .map(|seen| timestamps[op_slot(seen)])
            .max();
        timestamps[op_slot(op)] = 1 + greatest.unwrap_or(0);
    }
    timestamps
}
