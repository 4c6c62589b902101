//! Damaged bytes: one changed, or the end cut off.

use crate::rng::Rng;
use crate::tree::SLOTS;
use crate::{Tables, HOLDBACK_LEN, HOLDBACK_PLACES, OP_LEN, ORDER_LEN};

/// Values for a damaged byte, given the old one.
pub fn values(old: u8) -> impl Iterator<Item = u8> {
    let mut values = vec![
        0,
        1,
        2,
        3,
        4,
        old.wrapping_add(1),
        old.wrapping_sub(1),
        0x0e,
        0x7f,
        0xff,
    ];
    values.sort_unstable();
    values.dedup();
    values.into_iter().filter(move |&value| value != old)
}

/// Every single changed byte, with each of its values.
pub fn changed(file: &[u8]) -> impl Iterator<Item = Vec<u8>> + '_ {
    (0..file.len()).flat_map(move |at| values(file[at]).map(move |value| with(file, at, value)))
}

/// The bytes cut at every length.
pub fn cut(file: &[u8]) -> impl Iterator<Item = Vec<u8>> + '_ {
    (0..file.len()).map(|length| file[..length].to_vec())
}

/// A copy with one byte set.
pub fn with(bytes: &[u8], at: usize, value: u8) -> Vec<u8> {
    let mut bytes = bytes.to_vec();
    bytes[at] = value;
    bytes
}

/// A copy with one byte changed at random; small values meet more rules.
pub fn random(rng: &mut Rng, bytes: &[u8]) -> Vec<u8> {
    let at = rng.below(bytes.len());
    let value = match rng.below(4) {
        0 => rng.byte(),
        1 => bytes[at].wrapping_add(1),
        2 => bytes[at].wrapping_sub(1),
        _ => rng.below(5) as u8,
    };
    with(bytes, at, value)
}

/// A record of another length, or with a changed byte.
pub fn record(rng: &mut Rng, bytes: &[u8]) -> Vec<u8> {
    match rng.below(12) {
        0 => bytes[..rng.below(bytes.len())].to_vec(),
        1 => [bytes, &[rng.byte()]].concat(),
        _ => random(rng, bytes),
    }
}

/// A holdback of this content that is not in good order: of another length, with too
/// great a count, or with a byte past its ops, if there is one.
pub fn holdback(rng: &mut Rng, good: &[u8]) -> Vec<u8> {
    let mut holdback = good.to_vec();
    let past = 1 + OP_LEN * usize::from(holdback[0]);
    match rng.below(6) {
        0 => holdback.truncate(rng.below(HOLDBACK_LEN)),
        1 => holdback.truncate(HOLDBACK_LEN - 1 - rng.below(OP_LEN)),
        2 => holdback.resize(HOLDBACK_LEN + 1 + rng.below(OP_LEN), 0),
        3 | 4 if past < HOLDBACK_LEN => {
            let any = past + rng.below(HOLDBACK_LEN - past);
            let at = rng.pick(&[past, HOLDBACK_LEN - 1, any]);
            holdback[at] = rng.pick(&[1, 2, 128, 255]);
        }
        _ => holdback[0] = rng.pick(&[HOLDBACK_PLACES as u8 + 1, 34, 64, 128, 255]),
    }
    holdback
}

/// An entry of a table of a page.
#[derive(Clone, Copy, Debug)]
pub enum Entry {
    Order(usize),
    Parent(usize),
    Outcome(usize),
}

/// A copy of a page with another value in one entry, which these bits make.
pub fn stained(page: &Tables, entry: Entry, bits: u16) -> Tables {
    let mut page = page.clone();
    match entry {
        Entry::Order(at) => page.order[at] ^= bits,
        Entry::Parent(at) => page.parents[at] ^= bits,
        Entry::Outcome(at) => page.outcomes[at] ^= bits as u8,
    }
    page
}

/// An untrue page: one entry that counts is another, or two neighbours of the
/// order are swapped, where these differ.
pub fn page(rng: &mut Rng, page: &Tables) -> Tables {
    let held = page.order.iter().filter(|&&slot| slot != 0).count();
    let bits = 1 << rng.below(8);
    let place = |rng: &mut Rng, length: usize| {
        let any = rng.below(length);
        rng.pick(&[0, held.min(length - 1), length - 1, any])
    };
    match rng.below(4) {
        0 => stained(page, Entry::Order(place(rng, ORDER_LEN)), bits),
        1 => stained(page, Entry::Parent(place(rng, SLOTS)), bits),
        2 => stained(page, Entry::Outcome(place(rng, SLOTS)), bits),
        _ => {
            let mut page = page.clone();
            let at = rng.below(held.max(1));
            page.order.swap(at, at + 1);
            page
        }
    }
}
