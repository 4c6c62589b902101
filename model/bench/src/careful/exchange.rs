//! A whole exchange.

use super::calls::{answer, try_deliver};
use super::log::{Log, REPLICAS};
use outline_model::{refusal, Answer};

/// Delivers all ops of a file in causal order: the least sum of counts first.
#[inline(never)]
pub fn exchange(from: &[u8], to: &mut [u8]) -> Answer {
    answer(try_exchange(from, to))
}

fn try_exchange(from: &[u8], to: &mut [u8]) -> Result<Answer, u8> {
    let log = Log::open(from).ok_or(refusal::UNSOUND)?;
    // Along one replica the sums rise: one of the eight next ops is the least.
    let mut done = [0; REPLICAS];
    let next = |done: &[usize; REPLICAS]| {
        (0..REPLICAS)
            .filter(|&index| done[index] < usize::from(log.layout.counts[index]))
            .map(|index| log.op(index, done[index] + 1))
            .min_by_key(|op| op.weight())
    };
    while let Some(op) = next(&done) {
        done[op.index()] += 1;
        try_deliver(to, op.0)?;
    }
    Ok(Answer::Done)
}
