//! Two logs that meet: by one bundle each way, and op by op.

use crate::work::Side;
use outline::plain;
use outline_bench::careful;
use outline_model::cases::examples;
use outline_model::cases::world::{Style, World};
use outline_model::rng::Rng;
use outline_model::{Answer, Op, Vector, OP_LEN, REPLICAS};

/// Two logs, each with room for what the other has; empty for the calls that
/// have no use for it.
#[derive(Default)]
pub struct Meeting {
    files: [Vec<u8>; 2],
    pub buffers: [Vec<u8>; 2],
    /// What each has told the other that it holds.
    counts: [Vector; 2],
    /// What each gets.
    bundles: [Vec<u8>; 2],
}

impl Meeting {
    /// Random logs of so many ops each, one of replicas 1 to 4 and the other of
    /// 5 to 8. Neither has an op of the other.
    pub fn new(size: usize) -> Meeting {
        let logs = [1, 5].map(|first| {
            let rng = &mut Rng::new(u64::from(first));
            let ops = World::random(rng, Style::mixed(4, size)).ops;
            examples::log_of(&by_replicas_from(first, ops))
        });
        let counts = [logs[0].held(), logs[1].held()];
        let files = logs.map(|log| log.bytes());
        let room = files[0].len() + OP_LEN * size;
        Meeting {
            buffers: [vec![0; room], vec![0; room]],
            bundles: [vec![0; room], vec![0; room]],
            counts,
            files,
        }
    }

    /// Both logs are as they were before they met.
    pub fn part(&mut self) {
        for (buffer, file) in self.buffers.iter_mut().zip(&self.files) {
            buffer[..file.len()].copy_from_slice(file);
        }
    }

    /// Each makes a bundle for the counts of the other, and opens what it gets.
    pub fn by_bundles(&mut self, side: Side) -> bool {
        let [one, two] = &mut self.buffers;
        let [for_one, for_two] = &mut self.bundles;
        let lengths = (
            make(two, &self.counts[0], for_one, side),
            make(one, &self.counts[1], for_two, side),
        );
        let (Some(to_one), Some(to_two)) = lengths else {
            return false;
        };
        open(one, &for_one[..to_one], side) && open(two, &for_two[..to_two], side)
    }

    /// Each delivers the ops of the other in causal order.
    pub fn op_by_op(&mut self, side: Side) -> bool {
        let [one, two] = &mut self.buffers;
        hand_over(&self.files[1], one, side) && hand_over(&self.files[0], two, side)
    }
}

fn make(file: &[u8], counts: &Vector, out: &mut [u8], side: Side) -> Option<usize> {
    match side {
        Side::Library => plain::bundle_make(file, counts, out).ok(),
        Side::Rust => match careful::make_bundle(file, *counts, out) {
            Answer::Count(length) => Some(length),
            _ => None,
        },
    }
}

fn open(buffer: &mut [u8], bundle: &[u8], side: Side) -> bool {
    match side {
        Side::Library => plain::bundle_open(buffer, bundle).is_ok(),
        Side::Rust => matches!(careful::open_bundle(buffer, bundle), Answer::Accepted(_)),
    }
}

/// Delivers all ops of a file in causal order.
pub fn hand_over(from: &[u8], to: &mut [u8], side: Side) -> bool {
    match side {
        Side::Library => outline::Log::from_bytes(from).is_ok_and(|from| {
            let mut ops = from.ops();
            ops.all(|op| plain::deliver(to, op.as_bytes()).is_ok())
        }),
        Side::Rust => careful::exchange(from, to) == Answer::Done,
    }
}

/// The ops with other replicas, which follow each other from this one.
pub fn by_replicas_from(first: u8, ops: Vec<Op>) -> Vec<Op> {
    let mut old: Vec<u8> = ops.iter().map(|op| op.replica).collect();
    old.sort();
    old.dedup();
    let new = |replica: u8| {
        let place = old.iter().position(|&other| other == replica);
        place.map_or(0, |place| first + place as u8)
    };
    let node = |number: u16| {
        let [replica, sequence] = number.to_be_bytes();
        u16::from_be_bytes([new(replica), sequence])
    };
    let renamed = |op: Op| {
        let mut vector = [0; REPLICAS];
        for &replica in &old {
            vector[usize::from(new(replica)) - 1] = op.vector[usize::from(replica) - 1];
        }
        Op {
            kind: op.kind,
            replica: new(op.replica),
            node: node(op.node),
            parent: node(op.parent),
            vector,
        }
    };
    ops.into_iter().map(renamed).collect()
}
