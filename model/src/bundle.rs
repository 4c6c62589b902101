//! A bundle (the document's parcel): all that another replica lacks, in one
//! piece. A head says how many ops each replica contributes; the ops follow.

use crate::calls::{answer, open, try_deliver};
use crate::op::{Op, Vector, OP_LEN, REPLICAS};
use crate::tree::judging_order;
use crate::view::put;
use crate::{refusal, Answer, Log};

/// Writes a bundle of all ops beyond these counts. Tests 1, then 8.
pub fn make_bundle(file: &[u8], counts: Vector, out: &mut [u8]) -> Answer {
    answer(open(file).and_then(|log| put(&bundle_of(&log, &counts), out)))
}

/// Delivers the ops of a bundle in turn. Tests 1, then 12, then each op.
pub fn open_bundle(buffer: &mut [u8], bundle: &[u8]) -> Answer {
    answer(try_open(buffer, bundle))
}

fn try_open(buffer: &mut [u8], bundle: &[u8]) -> Result<Answer, u8> {
    let mut end = open(buffer)?.end();
    let bodies = read(bundle).ok_or(refusal::BUNDLE)?;
    // On a copy, so that a refused op takes back those before it.
    let mut tried = buffer.to_vec();
    for body in bodies.chunks(OP_LEN) {
        // One that is held already is passed by.
        if let Answer::Accepted(next) = try_deliver(&mut tried, body)? {
            end = next;
        }
    }
    buffer.copy_from_slice(&tried);
    Ok(Answer::Accepted(end))
}

/// Head and ops; the ops in judging order, so that none comes before one that
/// it counts.
fn bundle_of(log: &Log, counts: &Vector) -> Vec<u8> {
    let beyond: Vec<&Op> = judging_order(log)
        .into_iter()
        .map(|(_, op)| op)
        .filter(|op| op.sequence() > usize::from(counts[op.index()]))
        .collect();
    let mut bundle = head(&beyond);
    bundle.extend(beyond.iter().flat_map(|op| op.bytes()));
    bundle
}

/// A byte with a bit for each replica that contributes, and how many ops each
/// of these does.
fn head(ops: &[&Op]) -> Vec<u8> {
    let mut head = vec![0];
    for index in 0..REPLICAS {
        let count = ops.iter().filter(|op| op.index() == index).count();
        if count > 0 {
            head[0] |= 1 << index;
            head.push(count as u8);
        }
    }
    head
}

/// The bodies, if head and length are right and the bodies are of the replicas
/// that the head names, in whatever order. Nothing else of a body is looked at.
fn read(bundle: &[u8]) -> Option<&[u8]> {
    let (counts, bodies) = read_head(bundle)?;
    if bodies.len() != OP_LEN * counts.iter().sum::<usize>() {
        return None;
    }
    let of = |replica: u8| bodies.chunks(OP_LEN).filter(move |body| body[1] == replica);
    let right = (1..)
        .zip(counts)
        .all(|(replica, count)| of(replica).count() == count);
    right.then_some(bodies)
}

/// The counts of a whole head, and what follows it. A replica without a bit has
/// the count 0; one with a bit has not.
fn read_head(bundle: &[u8]) -> Option<([usize; REPLICAS], &[u8])> {
    let (&bits, mut rest) = bundle.split_first()?;
    let mut counts = [0; REPLICAS];
    for (index, entry) in counts.iter_mut().enumerate() {
        if bits & 1 << index != 0 {
            let (&count, after) = rest.split_first()?;
            if count == 0 {
                return None;
            }
            *entry = usize::from(count);
            rest = after;
        }
    }
    Some((counts, rest))
}
