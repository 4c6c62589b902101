//! Making, delivering, issuing and judging on lent bytes, and what a log comes to.

use crate::log::{Knowledge, Log, HEADER_LEN};
use crate::op::{node_number, replica_index, Kind, Op, MAX_SEQUENCE, OP_LEN};
use crate::tree::{Tree, SLOTS};
use crate::view::put;
use crate::{refusal, Answer};

/// Writes an empty log.
pub fn make(buffer: &mut [u8]) -> Answer {
    answer(try_make(buffer))
}

fn try_make(buffer: &mut [u8]) -> Result<Answer, u8> {
    let lent = buffer.get_mut(..HEADER_LEN).ok_or(refusal::ROOM)?;
    lent.copy_from_slice(&Log::default().bytes());
    Ok(Answer::Accepted(HEADER_LEN))
}

/// Takes an op from another replica.
pub fn deliver(buffer: &mut [u8], op: &[u8]) -> Answer {
    answer(try_deliver(buffer, op))
}

pub(crate) fn try_deliver(buffer: &mut [u8], bytes: &[u8]) -> Result<Answer, u8> {
    let log = open(buffer)?;
    let op = Op::read(bytes)?;
    if let Some(held) = log.get(op.index(), op.sequence()) {
        return if *held == op {
            Ok(Answer::HadIt)
        } else {
            Err(refusal::CONFLICT)
        };
    }
    log.test_against(&op)?;
    append(buffer, log, op)
}

/// Issues an add; its node is worked out here.
pub fn issue_add(buffer: &mut [u8], replica: u8, parent: u16, out: &mut [u8]) -> Answer {
    answer(issue(buffer, replica, out, |sequence| {
        (Kind::Add, node_number(replica, sequence) as u16, parent)
    }))
}

pub fn issue_remove(buffer: &mut [u8], replica: u8, node: u16, out: &mut [u8]) -> Answer {
    answer(issue(buffer, replica, out, |_| (Kind::Remove, node, 0)))
}

/// Issues a move; whether it is upward is worked out here.
pub fn issue_move(
    buffer: &mut [u8],
    replica: u8,
    node: u16,
    parent: u16,
    out: &mut [u8],
) -> Answer {
    answer(try_issue_move(buffer, replica, node, parent, out))
}

pub(crate) fn try_issue_move(
    buffer: &mut [u8],
    replica: u8,
    node: u16,
    parent: u16,
    out: &mut [u8],
) -> Result<Answer, u8> {
    issue(buffer, replica, out, |_| (Kind::Down, node, parent))
}

/// Tests 1, 2, 3, 9, 7, 11, 10, 8; `draft` gives kind, node and parent.
fn issue(
    buffer: &mut [u8],
    replica: u8,
    out: &mut [u8],
    draft: impl FnOnce(usize) -> (Kind, u16, u16),
) -> Result<Answer, u8> {
    let log = open(buffer)?;
    let out = out.get_mut(..OP_LEN).ok_or(refusal::LENGTH)?;
    let index = replica_index(replica).ok_or(refusal::FORM)?;
    let vector = log.held();
    let sequence = usize::from(vector[index]) + 1;
    if sequence > MAX_SEQUENCE {
        return Err(refusal::REPLICA_FULL);
    }
    let (kind, node, parent) = draft(sequence);
    let mut op = Op {
        kind,
        replica,
        node,
        parent,
        vector,
    };
    // The held counts are never early and always closed: only 7 can come.
    log.test_against(&op)?;
    if names_marked_node(&log, &op) {
        return Err(refusal::MARKED);
    }
    if kind.is_move() {
        op.kind = move_kind(&log, node, parent)?;
    }
    let accepted = append(buffer, log, op)?;
    out.copy_from_slice(&op.bytes());
    Ok(accepted)
}

/// Test 11, in what the op's replica has met. What an add makes is new, and a
/// node may be removed again.
fn names_marked_node(log: &Log, op: &Op) -> bool {
    let marked = |node| log.knowledge(&op.vector, node) == Knowledge::Marked;
    match op.kind {
        Kind::Add => marked(op.parent),
        Kind::Remove => false,
        Kind::Up | Kind::Down => marked(op.node) || marked(op.parent),
    }
}

/// Test 10, then the kind by the depths in the present tree. One climb tells both
/// of the parent: where it does not meet the node, its steps are the depth.
fn move_kind(log: &Log, node: u16, parent: u16) -> Result<Kind, u8> {
    let tree = Tree::judge(log);
    let climb = tree.climb_to(parent, node);
    if climb.met {
        return Err(refusal::BELOW_ITSELF);
    }
    let upward = tree.depth(node) > climb.steps;
    Ok(if upward { Kind::Up } else { Kind::Down })
}

/// Test 8, then the file with the op in its place.
fn append(buffer: &mut [u8], mut log: Log, op: Op) -> Result<Answer, u8> {
    log.push(op);
    let file = log.bytes();
    let lent = buffer.get_mut(..file.len()).ok_or(refusal::ROOM)?;
    lent.copy_from_slice(&file);
    Ok(Answer::Accepted(file.len()))
}

/// Fills the parent and outcome tables.
pub fn judge(file: &[u8], parents: &mut [u16], outcomes: &mut [u8]) -> Answer {
    answer(try_judge(file, parents, outcomes))
}

fn try_judge(file: &[u8], parents: &mut [u16], outcomes: &mut [u8]) -> Result<Answer, u8> {
    let log = open(file)?;
    let parents = parents.get_mut(..SLOTS).ok_or(refusal::LENGTH)?;
    let outcomes = outcomes.get_mut(..SLOTS).ok_or(refusal::LENGTH)?;
    let tree = Tree::judge(&log);
    parents.copy_from_slice(&tree.parents);
    outcomes.copy_from_slice(&tree.outcomes);
    Ok(Answer::Done)
}

/// Whether the bytes hold a sound log.
pub fn is_sound(file: &[u8]) -> bool {
    open(file).is_ok()
}

/// Where the file ends.
pub fn file_end(file: &[u8]) -> Answer {
    answer(open(file).map(|log| Answer::Count(log.end())))
}

/// How many ops of each replica are held.
pub fn held_counts(file: &[u8], out: &mut [u8]) -> Answer {
    answer(open(file).and_then(|log| put(&log.held(), out)))
}

/// Test 1.
pub(crate) fn open(buffer: &[u8]) -> Result<Log, u8> {
    Log::open(buffer).ok_or(refusal::UNSOUND)
}

pub(crate) fn answer(result: Result<Answer, u8>) -> Answer {
    result.unwrap_or_else(Answer::Refused)
}
