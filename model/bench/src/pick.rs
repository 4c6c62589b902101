//! What a call is measured with: the op to deliver, and the nodes to name.

use outline_model::{Knowledge, Log, Op, Tree};

/// The place of an op that no other counts, of the lowest replica that has one:
/// most is moved up for it.
pub fn last(ops: &[Op]) -> usize {
    let free = |op: &Op| {
        ops.iter()
            .all(|other| usize::from(other.vector[op.index()]) < op.sequence())
    };
    (0..ops.len())
        .filter(|&i| free(&ops[i]))
        .min_by_key(|&i| ops[i].replica)
        .expect("some op is the last")
}

/// The deepest node that takes new work, and one to move it under; the root
/// where there is none.
pub fn names(log: &Log) -> (u16, u16) {
    let tree = Tree::judge(log);
    let unmarked = |&node: &u16| log.knowledge(&log.held(), node) == Knowledge::Unmarked;
    let nodes: Vec<u16> = tree.nodes().filter(unmarked).collect();
    let Some(&node) = nodes.iter().max_by_key(|&&node| tree.depth(node)) else {
        return (0, 0);
    };
    let free = |&&other: &&u16| tree.path(other).all(|above| above != node);
    let parent = nodes.iter().find(free).copied().unwrap_or(0);
    (node, parent)
}
