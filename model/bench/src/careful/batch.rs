//! Issuing a batch of moves. The log is replayed once and its marks are looked up
//! once; the tree goes along from move to move. The ops are put in together.

use super::calls::{answer, draft_move, write_op};
use super::log::{Log, MOST, OP};
use super::replay::{marks, replay, slot_of, NO_PARENT, SLOTS};
use outline_model::{refusal, Answer};

const MOST_MOVES: usize = 16;

#[inline(never)]
pub fn issue_moves(
    buffer: &mut [u8],
    replica: u8,
    nodes: &[u16],
    parent: u16,
    out: &mut [u8],
) -> Answer {
    answer(try_issue_moves(buffer, replica, nodes, parent, out))
}

fn try_issue_moves(
    buffer: &mut [u8],
    replica: u8,
    nodes: &[u16],
    parent: u16,
    out: &mut [u8],
) -> Result<Answer, u8> {
    let log = Log::open(buffer).ok_or(refusal::UNSOUND)?;
    if nodes.len() > MOST_MOVES {
        return Err(refusal::LENGTH);
    }
    let out = out.get_mut(..OP * nodes.len()).ok_or(refusal::LENGTH)?;
    let layout = log.layout;
    let index = usize::from(replica).wrapping_sub(1);
    if index >= layout.counts.len() {
        return Err(refusal::FORM);
    }
    // Aside, since a later move may be refused.
    let mut ops = [[0; OP]; MOST_MOVES];
    let room = (buffer.len() - layout.end) / OP;
    draft_all(&log, replica, nodes, parent, room, &mut ops)?;
    let ops = &ops.as_flattened()[..out.len()];
    out.copy_from_slice(ops);
    Ok(Answer::Accepted(layout.insert_all(buffer, index, ops)))
}

/// Tests 9, 7, 11, 10 and 8 of each move in turn, with room for so many of them.
fn draft_all(
    log: &Log,
    replica: u8,
    nodes: &[u16],
    parent: u16,
    room: usize,
    ops: &mut [[u8; OP]; MOST_MOVES],
) -> Result<(), u8> {
    let Some(&first) = nodes.first() else {
        return Ok(());
    };
    let mut counts = log.layout.counts;
    let index = usize::from(replica) - 1;
    let names = Names::of(log, parent);
    // What is wrong with the first move shows before the replay, but for 10 and 8.
    has_sequence(counts[index])?;
    names.test(first)?;
    let mut parents = [NO_PARENT; SLOTS];
    replay(log, &mut parents, &mut [0; SLOTS]);
    for (place, (&node, op)) in nodes.iter().zip(ops).enumerate() {
        has_sequence(counts[index])?;
        names.test(node)?;
        let draft = draft_move(&parents, node, parent)?;
        if place >= room {
            return Err(refusal::ROOM);
        }
        *op = write_op(replica, draft, counts);
        parents[slot_of(node)] = parent;
        counts[index] += 1;
    }
    Ok(())
}

/// Test 9.
fn has_sequence(count: u8) -> Result<(), u8> {
    if usize::from(count) == MOST {
        return Err(refusal::REPLICA_FULL);
    }
    Ok(())
}

/// What the names of a batch are tested against. A move adds no node and no mark, so
/// it is the same for all moves.
struct Names<'a> {
    log: &'a Log<'a>,
    marks: [u8; SLOTS],
    parent: u16,
    /// What the parent is refused with.
    parent_test: Result<(), u8>,
}

impl<'a> Names<'a> {
    fn of(log: &'a Log<'a>, parent: u16) -> Names<'a> {
        let marks = marks(log);
        let parent_test = if !log.knows_parent(&log.layout.counts, parent) {
            Err(refusal::UNKNOWN)
        } else if marks[slot_of(parent)] == 1 {
            Err(refusal::MARKED)
        } else {
            Ok(())
        };
        Names {
            log,
            marks,
            parent,
            parent_test,
        }
    }

    /// Tests 7 and 11 of a move of this node.
    fn test(&self, node: u16) -> Result<(), u8> {
        if !self.log.knows(&self.log.layout.counts, node) || node == self.parent {
            return Err(refusal::UNKNOWN);
        }
        self.parent_test?;
        if self.marks[slot_of(node)] == 1 {
            return Err(refusal::MARKED);
        }
        Ok(())
    }
}
