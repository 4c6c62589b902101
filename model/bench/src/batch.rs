//! A batch of moves by one call, and the same moves one by one.

use crate::late;
use crate::work::{Shape, Side};
use outline::plain::{self, MOST_MOVES};
use outline_bench::careful;
use outline_model::cases::world::{Style, World};
use outline_model::rng::Rng;
use outline_model::{Answer, Knowledge, Log, Op, Tree, OP_LEN, REPLICAS, SLOTS};
use std::cmp::Reverse;

/// Ops of the largest log that takes a whole batch.
const MOST_OPS: usize = SLOTS - 1 - MOST_MOVES;

/// A log of which one replica has the ops of a batch left: of a chain that is the
/// last one, of a random log the first.
pub fn ops(shape: Shape, size: usize) -> Vec<Op> {
    let size = size.min(MOST_OPS);
    match shape {
        Shape::Random => late::log(size, |many| {
            World::random(&mut Rng::new(7), Style::mixed(REPLICAS - 1, many)).ops
        }),
        _ => shape.ops(size),
    }
}

/// What is moved, and by whom; empty for the calls that have no use for it.
#[derive(Default)]
pub struct Batch {
    replica: u8,
    nodes: Vec<u16>,
    parent: u16,
}

impl Batch {
    /// The deepest nodes that can be moved to the parent, the very deepest first.
    pub fn new(log: &Log, replica: u8, parent: u16) -> Batch {
        let tree = Tree::judge(log);
        let can_move = |&node: &u16| {
            let is_unmarked = log.knowledge(&log.held(), node) == Knowledge::Unmarked;
            is_unmarked && tree.path(parent).all(|above| above != node)
        };
        let mut nodes: Vec<u16> = tree.nodes().filter(can_move).collect();
        nodes.sort_by_key(|&node| Reverse(tree.depth(node)));
        nodes.truncate(MOST_MOVES);
        assert_eq!(nodes.len(), MOST_MOVES, "as many as a batch can have");
        Batch {
            replica,
            nodes,
            parent,
        }
    }

    pub fn at_once(&self, buffer: &mut [u8], out: &mut [u8], side: Side) -> bool {
        let (replica, nodes, parent) = (self.replica, &self.nodes, self.parent);
        match side {
            Side::Library => plain::issue_moves(buffer, replica, nodes, parent, out).is_ok(),
            Side::Rust => is_accepted(careful::issue_moves(buffer, replica, nodes, parent, out)),
        }
    }

    pub fn one_by_one(&self, buffer: &mut [u8], out: &mut [u8], side: Side) -> bool {
        let (replica, parent) = (self.replica, self.parent);
        let mut moves = self.nodes.iter().zip(out.chunks_exact_mut(OP_LEN));
        moves.all(|(&node, out)| match side {
            Side::Library => plain::issue_move(buffer, replica, node, parent, out).is_ok(),
            Side::Rust => is_accepted(careful::issue_move(buffer, replica, node, parent, out)),
        })
    }
}

fn is_accepted(answer: Answer) -> bool {
    matches!(answer, Answer::Accepted(_))
}
