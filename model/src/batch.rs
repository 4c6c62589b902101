//! A batch (the document's column of articles): up to 16 moves to one parent,
//! issued by one call, all or none.

use crate::calls::{answer, open, try_issue_move};
use crate::op::{replica_index, OP_LEN};
use crate::{refusal, Answer};

/// Moves that a batch can have.
pub const MAX_BATCH: usize = 16;

/// Issues a move of each node to the parent. Tests 1, 2, 3, and then for each move
/// in turn 9, 7, 11, 10, 8.
pub fn issue_moves(
    buffer: &mut [u8],
    replica: u8,
    nodes: &[u16],
    parent: u16,
    out: &mut [u8],
) -> Answer {
    answer(try_issue_moves(buffer, replica, nodes, parent, out))
}

fn try_issue_moves(
    buffer: &mut [u8],
    replica: u8,
    nodes: &[u16],
    parent: u16,
    out: &mut [u8],
) -> Result<Answer, u8> {
    let mut end = open(buffer)?.end();
    // More than 16, or fewer than 14 bytes of output per move, is 2.
    if nodes.len() > MAX_BATCH {
        return Err(refusal::LENGTH);
    }
    let out = out.get_mut(..OP_LEN * nodes.len()).ok_or(refusal::LENGTH)?;
    replica_index(replica).ok_or(refusal::FORM)?;
    // If any is refused, no lent byte changes: the moves are made in copies.
    let mut tried = buffer.to_vec();
    let mut ops = out.to_vec();
    // One after another in the list's order, each in the log and so in the tree
    // that those before left. An empty list does nothing here: it writes nothing
    // and answers the file end.
    for (&node, op) in nodes.iter().zip(ops.chunks_mut(OP_LEN)) {
        // If it is refused, its number is returned. That is never 1, 2 or 3, which
        // are tested.
        if let Answer::Accepted(next) = try_issue_move(&mut tried, replica, node, parent, op)? {
            end = next;
        }
    }
    buffer.copy_from_slice(&tried);
    out.copy_from_slice(&ops);
    Ok(Answer::Accepted(end))
}
