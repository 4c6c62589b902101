//! What the calls answer.

use core::error::Error;
use core::fmt;

/// Why a call was refused. A refused call has changed nothing.
///
/// The numbers are those of the format's rules, and of the calls in C. The
/// format will come to refuse for more reasons, so a `match` needs a last arm.
#[derive(Clone, Copy, PartialEq, Eq, PartialOrd, Ord, Hash, Debug)]
#[non_exhaustive]
#[repr(u8)]
pub enum Refusal {
    /// The bytes do not hold a sound log.
    Unsound = 1,
    /// The delivered op has not 14 bytes, or a batch more than 16 moves, or lent
    /// memory for ops or a table is too short.
    Length = 2,
    /// No replica from 1 to 8, or an op out of form.
    Malformed = 3,
    /// Another op of this replica and sequence is held.
    Conflict = 4,
    /// The op counts ops that are not held yet; deliver those first, or let it
    /// wait in a [`Holdback`](crate::Holdback).
    Early = 5,
    /// The op counts an op, but not all that this one counts.
    NotClosed = 6,
    /// A node that is not known, or a move of a node to itself.
    Unknown = 7,
    /// The buffer, or what is lent for a path, a listing or a bundle, is too
    /// short.
    NoRoom = 8,
    /// The replica has issued its 255 ops.
    Exhausted = 9,
    /// The new parent lies below the node.
    Cycle = 10,
    /// The parent of new work, or the node of a move, is removed.
    Marked = 11,
    /// The bundle has no whole head, or does not agree with its head.
    BadBundle = 12,
    /// The op is early and not in the holdback, and the holdback is full.
    HoldbackFull = 13,
    /// The holdback has not 449 bytes, or counts more than 32 ops, or has bytes
    /// past its ops that are not zero.
    BadHoldback = 14,
}

impl Refusal {
    /// All refusals, by rising number.
    pub const ALL: &'static [Refusal] = &[
        Refusal::Unsound,
        Refusal::Length,
        Refusal::Malformed,
        Refusal::Conflict,
        Refusal::Early,
        Refusal::NotClosed,
        Refusal::Unknown,
        Refusal::NoRoom,
        Refusal::Exhausted,
        Refusal::Cycle,
        Refusal::Marked,
        Refusal::BadBundle,
        Refusal::HoldbackFull,
        Refusal::BadHoldback,
    ];

    /// The number by which the format's rules name it.
    ///
    /// ```
    /// assert_eq!(outline::Refusal::Cycle.number(), 10);
    /// ```
    pub const fn number(self) -> u8 {
        self as u8
    }

    /// The refusal of a number.
    ///
    /// ```
    /// use outline::Refusal;
    /// assert_eq!(Refusal::from_number(5), Some(Refusal::Early));
    /// assert_eq!(Refusal::from_number(0), None);
    /// ```
    pub fn from_number(number: u8) -> Option<Refusal> {
        let all = Refusal::ALL.iter().copied();
        all.into_iter().find(|refusal| refusal.number() == number)
    }
}

impl fmt::Display for Refusal {
    fn fmt(&self, f: &mut fmt::Formatter<'_>) -> fmt::Result {
        f.write_str(match self {
            Refusal::Unsound => "the bytes do not hold a sound log",
            Refusal::Length => "an op, a batch or lent memory has the wrong length",
            Refusal::Malformed => "no such replica, or an op out of form",
            Refusal::Conflict => "another op of this replica and sequence is held",
            Refusal::Early => "the op counts ops that are not held yet",
            Refusal::NotClosed => "the op counts an op, but not all that this one counts",
            Refusal::Unknown => "a node is not known, or is to be moved to itself",
            Refusal::NoRoom => "the lent memory is too short",
            Refusal::Exhausted => "the replica has issued its 255 ops",
            Refusal::Cycle => "the new parent lies below the node",
            Refusal::Marked => "the node or the parent is removed",
            Refusal::BadBundle => "the bundle is not whole, or does not agree with its head",
            Refusal::HoldbackFull => "the op is early, and the holdback is full",
            Refusal::BadHoldback => "the holdback has a wrong length, or is not as its count says",
        })
    }
}

impl Error for Refusal {}

/// What a delivery that is not refused answers.
///
/// A delivery to come may answer more, so a `match` needs a last arm.
#[derive(Clone, Copy, PartialEq, Eq, Hash, Debug)]
#[non_exhaustive]
pub enum Delivery {
    /// The log has the op, and ends here. With a
    /// [`Holdback`](crate::Holdback) it has also those that had waited for it.
    Accepted(usize),
    /// The same op was there already; nothing changed.
    HadIt,
    /// The op is early, and waits in the holdback now, or did so already. The
    /// log has not changed. A delivery without a holdback does not answer this.
    Waiting,
}

/// What a call answered: one number. Refusals have their own, a value has
/// [`VALUE`] added, and [`Said`] has the others. A call with a page adds
/// [`TAKEN_BACK`] to a value for each op that was taken back.
#[derive(Clone, Copy)]
pub(crate) struct Answer(pub usize);

#[repr(usize)]
enum Said {
    /// A delivered op was there already.
    HadIt = 128,
    /// Judging is done.
    Done = 129,
    /// A delivered op waits in the holdback.
    Waiting = 130,
}

const VALUE: usize = 256;

/// Added by a call with a page for each op that was taken back.
const TAKEN_BACK: usize = 65_536;

impl Answer {
    /// Of a call with a page: what the call without it answers, and how many ops
    /// were taken back.
    #[inline]
    pub fn with_page(self) -> (Answer, usize) {
        let (plain, taken_back) = (self.0 % TAKEN_BACK, self.0 / TAKEN_BACK);
        // By the contracts nothing is taken back without a value.
        assert!(
            taken_back == 0 || plain >= VALUE,
            "the library answered {}",
            self.0
        );
        (Answer(plain), taken_back)
    }

    /// Of a call that answers a value.
    #[inline]
    pub fn value(self) -> Result<usize, Refusal> {
        self.0.checked_sub(VALUE).ok_or_else(|| self.refusal())
    }

    /// Of a delivery, with a holdback or without.
    #[inline]
    pub fn delivery(self) -> Result<Delivery, Refusal> {
        if self.0 == Said::HadIt as usize {
            return Ok(Delivery::HadIt);
        }
        if self.0 == Said::Waiting as usize {
            return Ok(Delivery::Waiting);
        }
        self.value().map(Delivery::Accepted)
    }

    /// Of judging.
    #[inline]
    pub fn done(self) -> Result<(), Refusal> {
        if self.0 == Said::Done as usize {
            return Ok(());
        }
        Err(self.refusal())
    }

    /// By the contracts a call answers no number without a meaning.
    #[cold]
    fn refusal(self) -> Refusal {
        let number = u8::try_from(self.0).ok();
        let refusal = number.and_then(Refusal::from_number);
        refusal.unwrap_or_else(|| panic!("the library answered {}", self.0))
    }
}
