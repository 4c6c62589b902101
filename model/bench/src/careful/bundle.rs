//! Making and opening bundles.

use super::calls::{answer, new_op};
use super::log::{Log, Vector, LARGEST, MOST, OP, REPLICAS};
use super::replay::{judging_order, SLOTS};
use outline_model::{refusal, Answer};

#[inline(never)]
pub fn make_bundle(file: &[u8], counts: Vector, out: &mut [u8]) -> Answer {
    answer(try_make(file, &counts, out))
}

fn try_make(file: &[u8], counts: &Vector, out: &mut [u8]) -> Result<Answer, u8> {
    let log = Log::open(file).ok_or(refusal::UNSOUND)?;
    // The counts alone settle the length.
    let held = &log.layout.counts;
    let beyond: Vector = std::array::from_fn(|i| held[i].saturating_sub(counts[i]));
    let head = 1 + beyond.iter().filter(|&&count| count > 0).count();
    let ops: usize = beyond.iter().copied().map(usize::from).sum();
    let length = head + OP * ops;
    let out = out.get_mut(..length).ok_or(refusal::ROOM)?;
    let (head, bodies) = out.split_at_mut(head);
    write_head(&beyond, head);
    let mut slots = [0; SLOTS];
    let mut bodies = bodies.chunks_exact_mut(OP);
    for &slot in judging_order(&log, &mut slots) {
        let before = usize::from(slot) - 1;
        let (index, sequence) = (before / MOST, before % MOST + 1);
        if sequence > usize::from(counts[index]) {
            let body = bodies.next().expect("as many as the counts say");
            body.copy_from_slice(log.op(index, sequence).0);
        }
    }
    Ok(Answer::Count(length))
}

/// A bit for each replica with ops in the bundle, and their counts.
fn write_head(beyond: &Vector, head: &mut [u8]) {
    let (bits, counts) = head.split_first_mut().expect("a byte at least");
    let mut counts = counts.iter_mut();
    *bits = 0;
    for (index, &count) in beyond.iter().enumerate() {
        if count > 0 {
            *bits |= 1 << index;
            *counts.next().expect("a byte for each bit") = count;
        }
    }
}

#[inline(never)]
pub fn open_bundle(buffer: &mut [u8], bundle: &[u8]) -> Answer {
    answer(try_open(buffer, bundle))
}

fn try_open(buffer: &mut [u8], bundle: &[u8]) -> Result<Answer, u8> {
    let mut layout = Log::open(buffer).ok_or(refusal::UNSOUND)?.layout;
    let bodies = read(bundle).ok_or(refusal::BUNDLE)?;
    // The log grows in a copy, and stays sound with every op.
    let mut scratch = [0; LARGEST];
    scratch[..layout.end].copy_from_slice(&buffer[..layout.end]);
    for body in bodies.chunks_exact(OP) {
        let Some(op) = new_op(&Log::known(&scratch, layout), body)? else {
            continue;
        };
        if buffer.len() < layout.end + OP {
            return Err(refusal::ROOM);
        }
        layout.insert(&mut scratch, op.index(), op.0);
        layout = layout.with_one_more(op.index());
    }
    buffer[..layout.end].copy_from_slice(&scratch[..layout.end]);
    Ok(Answer::Accepted(layout.end))
}

/// The bodies, if the head is whole and right about them.
fn read(bundle: &[u8]) -> Option<&[u8]> {
    let (&bits, rest) = bundle.split_first()?;
    let (counts, bodies) = rest.split_at_checked(bits.count_ones() as usize)?;
    // By replica, how many bodies are still to come.
    let mut left = [0; REPLICAS];
    let mut all = 0;
    let mut bits = bits;
    for &count in counts {
        if count == 0 {
            return None;
        }
        left[bits.trailing_zeros() as usize] = count;
        all += usize::from(count);
        bits &= bits - 1;
    }
    if bodies.len() != OP * all {
        return None;
    }
    // There are as many bodies as counted: none is missing if none is too many.
    let counted = bodies.chunks_exact(OP).all(|body| {
        match left.get_mut(usize::from(body[1]).wrapping_sub(1)) {
            Some(left) if *left > 0 => {
                *left -= 1;
                true
            }
            _ => false,
        }
    });
    counted.then_some(bodies)
}
