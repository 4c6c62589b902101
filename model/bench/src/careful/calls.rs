//! Making, delivering, issuing and judging.

use super::log::{Layout, Log, Op, Vector, ADD, DOWN, HEADER, OP, REMOVE, UP};
use super::replay::{climb_to, depth, marks, replay, slot_of, NO_PARENT, SLOTS};
use outline_model::{refusal, Answer};

pub fn answer(result: Result<Answer, u8>) -> Answer {
    result.unwrap_or_else(Answer::Refused)
}

#[inline(never)]
pub fn make(buffer: &mut [u8]) -> Answer {
    let Some(header) = buffer.get_mut(..HEADER) else {
        return Answer::Refused(refusal::ROOM);
    };
    for entry in header.chunks_exact_mut(4) {
        entry.copy_from_slice(&[0, 0, 0, HEADER as u8]);
    }
    Answer::Accepted(HEADER)
}

#[inline(never)]
pub fn deliver(buffer: &mut [u8], op: &[u8]) -> Answer {
    answer(try_deliver(buffer, op))
}

pub fn try_deliver(buffer: &mut [u8], bytes: &[u8]) -> Result<Answer, u8> {
    let log = Log::open(buffer).ok_or(refusal::UNSOUND)?;
    let Some(op) = new_op(&log, bytes)? else {
        return Ok(Answer::HadIt);
    };
    let layout = log.layout;
    append(buffer, layout, op.index(), op.0)
}

/// Tests 2 to 7 of a delivered op; nothing if it is held already.
#[inline(always)]
pub fn new_op<'a>(log: &Log, bytes: &'a [u8]) -> Result<Option<Op<'a>>, u8> {
    let op = Op::read(bytes)?;
    if op.sequence() <= usize::from(log.layout.counts[op.index()]) {
        let held = log.op(op.index(), op.sequence());
        return if held.0 == op.0 {
            Ok(None)
        } else {
            Err(refusal::CONFLICT)
        };
    }
    log.test(op)?;
    Ok(Some(op))
}

/// Test 8, then the op is put in its place.
fn append(buffer: &mut [u8], layout: Layout, index: usize, op: &[u8; OP]) -> Result<Answer, u8> {
    if buffer.len() < layout.end + OP {
        return Err(refusal::ROOM);
    }
    Ok(Answer::Accepted(layout.insert(buffer, index, op)))
}

#[inline(never)]
pub fn issue_add(buffer: &mut [u8], replica: u8, parent: u16, out: &mut [u8]) -> Answer {
    answer(issue(buffer, replica, out, |log, sequence| {
        draft_add(log, replica, sequence, parent)
    }))
}

#[inline(never)]
pub fn issue_remove(buffer: &mut [u8], replica: u8, node: u16, out: &mut [u8]) -> Answer {
    answer(issue(buffer, replica, out, |log, _| {
        draft_remove(log, node)
    }))
}

#[inline(never)]
pub fn issue_move(
    buffer: &mut [u8],
    replica: u8,
    node: u16,
    parent: u16,
    out: &mut [u8],
) -> Answer {
    answer(issue(buffer, replica, out, |log, _| {
        names_for_move(log, node, parent)?;
        let mut parents = [NO_PARENT; SLOTS];
        let mut outcomes = [0; SLOTS];
        replay(log, &mut parents, &mut outcomes);
        draft_move(&parents, node, parent)
    }))
}

/// Kind, node and parent of an op to be issued.
pub type Draft = (u8, u16, u16);

/// Tests 7 and 11.
#[inline(always)]
pub fn draft_add(log: &Log, replica: u8, sequence: u8, parent: u16) -> Result<Draft, u8> {
    if !log.knows_parent(&log.layout.counts, parent) {
        return Err(refusal::UNKNOWN);
    }
    // The root's slot is never marked.
    if marks(log)[slot_of(parent)] == 1 {
        return Err(refusal::MARKED);
    }
    Ok((ADD, u16::from_be_bytes([replica, sequence]), parent))
}

/// Test 7.
#[inline(always)]
pub fn draft_remove(log: &Log, node: u16) -> Result<Draft, u8> {
    if !log.knows(&log.layout.counts, node) {
        return Err(refusal::UNKNOWN);
    }
    Ok((REMOVE, node, 0))
}

/// Tests 7 and 11 of a move.
#[inline(always)]
pub fn names_for_move(log: &Log, node: u16, parent: u16) -> Result<(), u8> {
    let counts = &log.layout.counts;
    if !log.knows(counts, node) || !log.knows_parent(counts, parent) || parent == node {
        return Err(refusal::UNKNOWN);
    }
    let marks = marks(log);
    if marks[slot_of(node)] == 1 || marks[slot_of(parent)] == 1 {
        return Err(refusal::MARKED);
    }
    Ok(())
}

/// Test 10; its names are tested.
#[inline(always)]
pub fn draft_move(parents: &[u16; SLOTS], node: u16, parent: u16) -> Result<Draft, u8> {
    let climb = climb_to(parents, parent, node);
    if climb.met {
        return Err(refusal::BELOW_ITSELF);
    }
    // Not met, so that its steps are the parent's depth.
    let upward = climb.steps < depth(parents, node);
    Ok((if upward { UP } else { DOWN }, node, parent))
}

/// Tests 1, 2, 3 and 9; `draft` makes 7, 11 and 10.
fn issue(
    buffer: &mut [u8],
    replica: u8,
    out: &mut [u8],
    draft: impl FnOnce(&Log, u8) -> Result<Draft, u8>,
) -> Result<Answer, u8> {
    let log = Log::open(buffer).ok_or(refusal::UNSOUND)?;
    let out = record_space(out)?;
    let (index, sequence) = next_of(&log, replica)?;
    let op = write_op(replica, draft(&log, sequence)?, log.layout.counts);
    let layout = log.layout;
    let accepted = append(buffer, layout, index, &op)?;
    *out = op;
    Ok(accepted)
}

/// Test 2 of the bytes lent for an op.
pub fn record_space(out: &mut [u8]) -> Result<&mut [u8; OP], u8> {
    let out = out.get_mut(..OP).and_then(|out| out.try_into().ok());
    out.ok_or(refusal::LENGTH)
}

/// Tests 3 and 9 at issue: where the replica stands, and its next sequence.
pub fn next_of(log: &Log, replica: u8) -> Result<(usize, u8), u8> {
    let index = usize::from(replica).wrapping_sub(1);
    let count = log.layout.counts.get(index).ok_or(refusal::FORM)?;
    let sequence = count.checked_add(1).ok_or(refusal::REPLICA_FULL)?;
    Ok((index, sequence))
}

/// The bytes of an issued op.
pub fn write_op(replica: u8, (kind, node, parent): Draft, counts: Vector) -> [u8; OP] {
    let mut op = [0; OP];
    op[0] = kind;
    op[1] = replica;
    op[2..4].copy_from_slice(&node.to_be_bytes());
    op[4..6].copy_from_slice(&parent.to_be_bytes());
    op[6..].copy_from_slice(&counts);
    op
}

#[inline(never)]
pub fn judge(file: &[u8], parents: &mut [u16], outcomes: &mut [u8]) -> Answer {
    answer(try_judge(file, parents, outcomes))
}

fn try_judge(file: &[u8], parents: &mut [u16], outcomes: &mut [u8]) -> Result<Answer, u8> {
    let log = Log::open(file).ok_or(refusal::UNSOUND)?;
    let parents = parents.get_mut(..SLOTS).ok_or(refusal::LENGTH)?;
    let outcomes = outcomes.get_mut(..SLOTS).ok_or(refusal::LENGTH)?;
    replay(
        &log,
        parents.try_into().expect("2,041 entries"),
        outcomes.try_into().expect("2,041 entries"),
    );
    Ok(Answer::Done)
}
