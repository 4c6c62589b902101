//! Bytes that something has happened to.

use outline_model::rng::Rng;

/// Cuts bytes, makes them longer, or changes one of them.
pub fn damage(rng: &mut Rng, bytes: &mut Vec<u8>) {
    match rng.below(8) {
        0 => cut_or_extend(rng, bytes),
        _ if bytes.is_empty() => bytes.push(rng.byte()),
        _ => flip(rng, bytes),
    }
}

/// Changes a byte to any other, or by 1: such a number is often one that could be
/// meant.
pub fn flip(rng: &mut Rng, bytes: &mut [u8]) {
    let at = rng.below(bytes.len());
    let by = 1 + rng.below(255) as u8;
    bytes[at] = bytes[at].wrapping_add(rng.pick(&[by, 1, u8::MAX]));
}

/// Gives bytes another length.
pub fn cut_or_extend(rng: &mut Rng, bytes: &mut Vec<u8>) {
    if rng.one_in(2) && !bytes.is_empty() {
        bytes.truncate(rng.below(bytes.len()));
    } else {
        let more = 1 + rng.below(30);
        bytes.extend((0..more).map(|_| rng.byte()));
    }
}
