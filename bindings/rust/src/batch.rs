//! Moves that are issued by one call.

use crate::{Op, Refusal};
use core::fmt;
use core::iter::FusedIterator;

/// The ops of a batch: up to 16 moves under one parent that were issued by one call
/// (the document's column of articles).
///
/// [`Log::move_all_to`](crate::Log::move_all_to) issues it, wholly or not at all. From
/// then on each move is an op by itself: it is handed to others alone or with the
/// rest, and has an outcome of its own.
///
/// ```
/// use outline::{Kind, Log, Node, Refusal, Replica};
/// let (me, mut log) = (Replica::try_from(1)?, Log::new());
/// let a = log.add(me, Node::ROOT)?.node();
/// let b = log.add(me, a)?.node();
/// let c = log.add(me, b)?.node();
/// let mut other = log.clone();
/// let moves = log.move_all_to(me, &[c, b], Node::ROOT)?;
/// assert!(moves.ops().all(|op| op.kind() == Kind::MoveUp));
///
/// for op in moves.ops() {
///     other.deliver(op)?;
/// }
/// assert_eq!(log, other);
/// # Ok::<(), Refusal>(())
/// ```
#[derive(Clone, Copy, PartialEq, Eq, Hash)]
pub struct Batch {
    /// The ops, and zeros behind them.
    bytes: [u8; Batch::MOST * Op::LENGTH],
    length: usize,
}

impl Batch {
    /// How many moves it has at most.
    pub const MOST: usize = 16;

    /// Has `issue` put so many ops down.
    pub(crate) fn new(
        length: usize,
        issue: impl FnOnce(&mut [u8]) -> Result<usize, Refusal>,
    ) -> Result<Batch, Refusal> {
        let mut bytes = [0; Batch::MOST * Op::LENGTH];
        issue(&mut bytes)?;
        Ok(Batch { bytes, length })
    }

    /// How many ops it has.
    pub const fn len(&self) -> usize {
        self.length
    }

    /// Whether it has no op.
    pub const fn is_empty(&self) -> bool {
        self.length == 0
    }

    /// Its ops in the order of the list, in which they were issued too.
    pub fn ops(
        &self,
    ) -> impl ExactSizeIterator<Item = Op> + DoubleEndedIterator + FusedIterator + '_ {
        let bodies = self.as_bytes().chunks_exact(Op::LENGTH);
        bodies.map(|bytes| Op::from_bytes(bytes).expect("an issued op reads back"))
    }

    /// Their bytes, one behind another.
    pub fn as_bytes(&self) -> &[u8] {
        &self.bytes[..Op::LENGTH * self.length]
    }
}

impl fmt::Debug for Batch {
    fn fmt(&self, f: &mut fmt::Formatter<'_>) -> fmt::Result {
        f.debug_list().entries(self.ops()).finish()
    }
}
