//! Moves under the deepest node of a chain, by how far above it their node is.

use outline_model::cases::examples;
use outline_model::{Kind, Op};

#[derive(Clone, Copy, PartialEq, Eq, Debug)]
pub enum Distance {
    /// Of the node right above the deepest: a climb meets it after one step.
    Near,
    /// Of the first node: a climb meets it at the top.
    Far,
    /// Of a leaf under the root: a climb goes all the way and does not meet it.
    Beside,
}

impl Distance {
    /// Whether the new parent lies below the node.
    pub fn is_met(self) -> bool {
        self != Distance::Beside
    }

    /// The node to move, and the new parent.
    pub fn names(self, chain: &[Op]) -> (u16, u16) {
        let [leaf, first, .., above, deepest] = chain else {
            panic!("a chain of three nodes at least");
        };
        let node = match self {
            Distance::Near => above.node,
            Distance::Far => first.node,
            Distance::Beside => leaf.node,
        };
        (node, deepest.node)
    }

    /// A chain of half of the ops, and moves.
    pub fn moves(self, size: usize) -> Vec<Op> {
        let mut ops = chain(size);
        let (chain, moves) = ops.split_at_mut(size / 2);
        let (node, parent) = self.names(chain);
        for (i, op) in moves.iter_mut().enumerate() {
            // The leaf lies below its new parent from the first move on.
            let upward = !self.is_met() && i > 0;
            op.kind = if upward { Kind::Up } else { Kind::Down };
            (op.node, op.parent) = (node, parent);
        }
        ops
    }
}

/// A leaf under the root, and a chain of all other nodes; each op counts all before.
pub fn chain(size: usize) -> Vec<Op> {
    let mut ops = examples::longest_chain()[..size].to_vec();
    ops[1].parent = 0;
    ops
}
