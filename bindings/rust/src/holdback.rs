//! Where ops wait that came too early.

use crate::plain::HOLDBACK;
use crate::{Op, Refusal};
use core::fmt;
use core::iter::FusedIterator;

/// Ops that came before what they count, and wait for it (the document's tray).
///
/// [`Log::deliver_with_holdback`](crate::Log::deliver_with_holdback) puts them
/// here, in the order in which they come, and takes them out once they can be
/// accepted. There are places for 32. It is kept beside its log, also on a disk:
/// 449 bytes, of which the first says how many ops wait.
///
/// No other call looks into it. A [bundle](crate::Log::open_bundle) or a
/// [merge](crate::Log::merge) may bring what is waited for; then offer all that
/// waits once more, with a new one:
///
/// ```
/// use outline::{Holdback, Log, Node, Refusal, Replica};
/// let (me, mut here) = (Replica::try_from(1)?, Log::new());
/// let a = here.add(me, Node::ROOT)?;
/// let older = here.clone();
/// let b = here.add(me, a.node())?;
///
/// let (mut there, mut holdback) = (Log::new(), Holdback::new());
/// there.deliver_with_holdback(b, &mut holdback)?;
/// there.merge(&older)?;
/// assert_eq!(holdback.len(), 1);
///
/// for op in std::mem::take(&mut holdback).ops() {
///     // A refused op would have been dropped from a holdback too.
///     let _ = there.deliver_with_holdback(op, &mut holdback);
/// }
/// assert!(holdback.is_empty());
/// assert_eq!(here, there);
/// # Ok::<(), Refusal>(())
/// ```
#[derive(Clone, PartialEq, Eq)]
pub struct Holdback {
    /// The count, at most 32, that many ops, and zeros behind them.
    bytes: [u8; HOLDBACK],
}

impl Holdback {
    /// How many ops there are places for.
    pub const CAPACITY: usize = 32;

    /// An empty one.
    pub const fn new() -> Holdback {
        Holdback {
            bytes: [0; HOLDBACK],
        }
    }

    /// The holdback of bytes that were kept, such as
    /// [`as_bytes`](Holdback::as_bytes) gives. What waits in it need not be ops:
    /// that is found out when their turn comes, as with bytes that are delivered.
    ///
    /// # Errors
    ///
    /// [`Refusal::BadHoldback`] if they are not 449, count more than 32 ops, or
    /// go on behind the last with something else than zeros.
    ///
    /// ```
    /// use outline::{Holdback, Refusal};
    /// let mut bytes = [0; 449];
    /// assert_eq!(Holdback::from_bytes(&bytes), Ok(Holdback::new()));
    /// assert_eq!(Holdback::from_bytes(&bytes[1..]), Err(Refusal::BadHoldback));
    /// bytes[1] = 7;
    /// assert_eq!(Holdback::from_bytes(&bytes), Err(Refusal::BadHoldback));
    /// bytes[0] = 1;
    /// assert_eq!(Holdback::from_bytes(&bytes)?.len(), 1);
    /// # Ok::<(), Refusal>(())
    /// ```
    pub fn from_bytes(bytes: &[u8]) -> Result<Holdback, Refusal> {
        let bytes = bytes.try_into().map_err(|_| Refusal::BadHoldback)?;
        let holdback = Holdback { bytes };
        // With a count above 32 its ops would end past the last byte.
        match holdback.bytes.get(holdback.end()..) {
            Some(rest) if rest.iter().all(|&byte| byte == 0) => Ok(holdback),
            _ => Err(Refusal::BadHoldback),
        }
    }

    /// Its bytes: what is kept beside the log.
    pub const fn as_bytes(&self) -> &[u8; HOLDBACK] {
        &self.bytes
    }

    /// The same, for a call of the library, which leaves a sound one.
    pub(crate) fn as_mut_bytes(&mut self) -> &mut [u8] {
        &mut self.bytes
    }

    /// How many ops wait.
    pub fn len(&self) -> usize {
        usize::from(self.bytes[0])
    }

    /// Whether none waits.
    pub fn is_empty(&self) -> bool {
        self.len() == 0
    }

    /// Whether there is no place for one more.
    pub fn is_full(&self) -> bool {
        self.len() == Holdback::CAPACITY
    }

    /// The bytes of the ops that wait, 14 each, in the order in which they came.
    ///
    /// An early op names nodes that cannot be looked up yet, and what was read
    /// [from bytes](Holdback::from_bytes) may be anything, so not all need be an
    /// [`Op`]; [`Op::from_bytes`] tells.
    ///
    /// ```
    /// use outline::{Holdback, Log, Node, Op, Refusal, Replica};
    /// let (me, mut here) = (Replica::try_from(1)?, Log::new());
    /// here.add(me, Node::ROOT)?;
    /// let late = here.add(me, Node::ROOT)?;
    ///
    /// let mut holdback = Holdback::new();
    /// Log::new().deliver_with_holdback(late, &mut holdback)?;
    /// assert!(holdback.ops().eq([late.as_bytes()]));
    /// assert!(holdback.ops().map(Op::from_bytes).eq([Ok(late)]));
    /// # Ok::<(), Refusal>(())
    /// ```
    pub fn ops(
        &self,
    ) -> impl ExactSizeIterator<Item = &[u8]> + DoubleEndedIterator + FusedIterator + Clone {
        self.bytes[1..self.end()].chunks_exact(Op::LENGTH)
    }

    /// Where its last op ends, by its count.
    fn end(&self) -> usize {
        1 + Op::LENGTH * self.len()
    }
}

impl Default for Holdback {
    fn default() -> Holdback {
        Holdback::new()
    }
}

impl AsRef<[u8]> for Holdback {
    fn as_ref(&self) -> &[u8] {
        &self.bytes
    }
}

impl TryFrom<&[u8]> for Holdback {
    type Error = Refusal;

    /// The same as [`Holdback::from_bytes`].
    ///
    /// # Errors
    ///
    /// Those of [`Holdback::from_bytes`].
    fn try_from(bytes: &[u8]) -> Result<Holdback, Refusal> {
        Holdback::from_bytes(bytes)
    }
}

impl fmt::Debug for Holdback {
    fn fmt(&self, f: &mut fmt::Formatter<'_>) -> fmt::Result {
        f.debug_list().entries(self.ops()).finish()
    }
}
