//! Replicas, and how many ops of each.

use crate::Refusal;
use core::fmt;
use core::num::NonZeroU8;

/// A machine that issues ops: a number from 1 to 8 (the document's seat).
///
/// No two machines may issue as the same replica, also not one after the other
/// unless the second starts from the first one's log.
#[derive(Clone, Copy, PartialEq, Eq, PartialOrd, Ord, Hash)]
pub struct Replica(NonZeroU8);

impl Replica {
    /// How many there are.
    pub const COUNT: usize = 8;

    /// The replica of a number from 1 to 8.
    ///
    /// ```
    /// use outline::Replica;
    /// assert_eq!(Replica::new(8).map(Replica::number), Some(8));
    /// assert_eq!(Replica::new(0), None);
    /// assert_eq!(Replica::new(9), None);
    /// ```
    pub const fn new(number: u8) -> Option<Replica> {
        match NonZeroU8::new(number) {
            Some(number) if number.get() as usize <= Replica::COUNT => Some(Replica(number)),
            _ => None,
        }
    }

    /// Its number, 1 to 8.
    pub const fn number(self) -> u8 {
        self.0.get()
    }

    /// All eight, by rising number.
    ///
    /// ```
    /// assert!(outline::Replica::all().map(|r| r.number()).eq(1..=8));
    /// ```
    pub fn all() -> impl DoubleEndedIterator<Item = Replica> + Clone {
        (1..=Replica::COUNT as u8).filter_map(Replica::new)
    }

    /// Its place in a vector.
    pub(crate) const fn index(self) -> usize {
        self.number() as usize - 1
    }
}

impl TryFrom<u8> for Replica {
    type Error = Refusal;

    /// The replica of a number.
    ///
    /// # Errors
    ///
    /// [`Refusal::Malformed`] for a number that is not 1 to 8.
    fn try_from(number: u8) -> Result<Replica, Refusal> {
        Replica::new(number).ok_or(Refusal::Malformed)
    }
}

impl From<Replica> for u8 {
    fn from(replica: Replica) -> u8 {
        replica.number()
    }
}

impl fmt::Display for Replica {
    fn fmt(&self, f: &mut fmt::Formatter<'_>) -> fmt::Result {
        self.number().fmt(f)
    }
}

impl fmt::Debug for Replica {
    fn fmt(&self, f: &mut fmt::Formatter<'_>) -> fmt::Result {
        write!(f, "Replica({self})")
    }
}

/// A version vector: for each replica a count, which stands for its first so
/// many ops (the document's context).
///
/// What a log holds is a vector, and so is what the replica of an op held when
/// it issued it. Eight bytes, in the order of the replicas.
///
/// ```
/// use outline::{Replica, Vector};
/// let vector = Vector::from([3, 1, 0, 0, 0, 0, 0, 0]);
/// assert_eq!(vector.count(Replica::new(2).unwrap()), 1);
/// assert_eq!(vector.sum(), 4);
/// assert!(Vector::default().is_within(&vector));
/// assert_eq!(<[u8; 8]>::from(vector)[0], 3);
/// ```
#[derive(Clone, Copy, PartialEq, Eq, Hash, Debug, Default)]
pub struct Vector([u8; Replica::COUNT]);

impl Vector {
    /// How many ops of a replica it counts.
    pub const fn count(&self, replica: Replica) -> u8 {
        self.0[replica.index()]
    }

    /// How many ops it counts in all.
    pub fn sum(&self) -> usize {
        self.0.iter().copied().map(usize::from).sum()
    }

    /// Whether no count is greater than that of the other.
    ///
    /// ```
    /// use outline::Vector;
    /// let one = Vector::from([1, 0, 0, 0, 0, 0, 0, 0]);
    /// let two = Vector::from([0, 2, 0, 0, 0, 0, 0, 0]);
    /// assert!(one.is_within(&one));
    /// assert!(!one.is_within(&two) && !two.is_within(&one));
    /// ```
    pub fn is_within(&self, other: &Vector) -> bool {
        self.0.iter().zip(&other.0).all(|(mine, its)| mine <= its)
    }
}

impl From<[u8; Replica::COUNT]> for Vector {
    fn from(counts: [u8; Replica::COUNT]) -> Vector {
        Vector(counts)
    }
}

impl From<Vector> for [u8; Replica::COUNT] {
    fn from(vector: Vector) -> [u8; Replica::COUNT] {
        vector.0
    }
}
