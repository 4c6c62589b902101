//! What one log hands another in one piece.

use crate::plain::LARGEST_BUNDLE;
use crate::Op;
use core::fmt;

/// All ops of a log that another lacks, in one piece (the document's parcel).
///
/// [`Log::bundle_for`](crate::Log::bundle_for) makes it, and
/// [`Log::open_bundle`](crate::Log::open_bundle) takes its bytes. It has room for
/// the largest, 28,569 bytes.
#[derive(Clone)]
pub struct Bundle {
    bytes: [u8; LARGEST_BUNDLE],
    length: usize,
}

impl Bundle {
    /// Has `write` put the bytes down and say their number.
    pub(crate) fn new(write: impl FnOnce(&mut [u8]) -> usize) -> Bundle {
        let mut bytes = [0; LARGEST_BUNDLE];
        let length = write(&mut bytes);
        Bundle { bytes, length }
    }

    /// Its bytes: what is sent to the other machine.
    pub fn as_bytes(&self) -> &[u8] {
        &self.bytes[..self.length]
    }

    /// The bytes of its ops, in the order in which they stand: the head before them
    /// has a byte, and one for each bit that is set there.
    pub(crate) fn ops(&self) -> impl Iterator<Item = &[u8]> {
        let head = 1 + self.bytes[0].count_ones() as usize;
        self.as_bytes()[head..].chunks_exact(Op::LENGTH)
    }
}

impl AsRef<[u8]> for Bundle {
    fn as_ref(&self) -> &[u8] {
        self.as_bytes()
    }
}

impl PartialEq for Bundle {
    fn eq(&self, other: &Bundle) -> bool {
        self.as_bytes() == other.as_bytes()
    }
}

impl Eq for Bundle {}

impl fmt::Debug for Bundle {
    fn fmt(&self, f: &mut fmt::Formatter<'_>) -> fmt::Result {
        f.debug_tuple("Bundle").field(&self.as_bytes()).finish()
    }
}
