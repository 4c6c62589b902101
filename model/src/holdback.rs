//! Delivering with a holdback (the document's tray): an op that comes before
//! those it counts waits in lent bytes until they are held.

use crate::calls::{answer, open, try_deliver};
use crate::op::OP_LEN;
use crate::{refusal, Answer};

/// Ops that a holdback has places for.
pub const HOLDBACK_PLACES: usize = 32;
/// Bytes of a holdback: how many ops wait, then the places in order of arrival.
pub const HOLDBACK_LEN: usize = 1 + OP_LEN * HOLDBACK_PLACES;

/// Takes an op from another replica; an early one waits in the holdback. Tests 1,
/// then 14, then as a plain delivery does, with 13 in the place of 5.
pub fn deliver_holdback(buffer: &mut [u8], op: &[u8], holdback: &mut [u8]) -> Answer {
    answer(try_deliver_holdback(buffer, op, holdback))
}

fn try_deliver_holdback(buffer: &mut [u8], op: &[u8], holdback: &mut [u8]) -> Result<Answer, u8> {
    open(buffer)?;
    let mut waiting = read(holdback).ok_or(refusal::BAD_HOLDBACK)?;
    let answer = match try_deliver(buffer, op) {
        Err(refusal::EARLY) => wait(&mut waiting, op)?,
        Ok(Answer::Accepted(end)) => Answer::Accepted(search(buffer, &mut waiting, end)),
        // Had it, or refused: the holdback is not searched.
        other => return other,
    };
    write(&waiting, holdback);
    Ok(answer)
}

/// The same bytes wait once; others go to the back, if a place is left.
fn wait(waiting: &mut Vec<Vec<u8>>, op: &[u8]) -> Result<Answer, u8> {
    if !waiting.iter().any(|other| other == op) {
        if waiting.len() == HOLDBACK_PLACES {
            return Err(refusal::HOLDBACK_FULL);
        }
        waiting.push(op.to_vec());
    }
    Ok(Answer::Waiting)
}

/// Searches from the front, and again as soon as one is accepted. Hands back the
/// last file end.
fn search(buffer: &mut [u8], waiting: &mut Vec<Vec<u8>>, mut end: usize) -> usize {
    while let Some(next) = take_one(buffer, waiting) {
        end = next;
    }
    end
}

/// Accepts the first waiting op that can go, and hands back the file end. Those
/// met before it that can never go are dropped: one that is held, and one
/// refused with anything but 5, which time may heal, or 8, which a longer buffer
/// may.
fn take_one(buffer: &mut [u8], waiting: &mut Vec<Vec<u8>>) -> Option<usize> {
    let mut place = 0;
    while place < waiting.len() {
        match try_deliver(buffer, &waiting[place]) {
            Err(refusal::EARLY | refusal::ROOM) => place += 1,
            Ok(Answer::Accepted(end)) => {
                waiting.remove(place);
                return Some(end);
            }
            _ => drop(waiting.remove(place)),
        }
    }
    None
}

/// The waiting ops of a holdback in good order. They are any bytes: the holdback is lent,
/// and nothing says that they read, or that no two are alike.
fn read(holdback: &[u8]) -> Option<Vec<Vec<u8>>> {
    if holdback.len() != HOLDBACK_LEN {
        return None;
    }
    let count = usize::from(holdback[0]);
    if count > HOLDBACK_PLACES {
        return None;
    }
    let (waiting, past) = holdback[1..].split_at(OP_LEN * count);
    let in_order = past.iter().all(|&byte| byte == 0);
    in_order.then(|| waiting.chunks(OP_LEN).map(<[u8]>::to_vec).collect())
}

/// Freed places close up, and those at the end are zero bytes.
fn write(waiting: &[Vec<u8>], holdback: &mut [u8]) {
    holdback.fill(0);
    holdback[0] = waiting.len() as u8;
    for (place, op) in holdback[1..].chunks_mut(OP_LEN).zip(waiting) {
        place.copy_from_slice(op);
    }
}
