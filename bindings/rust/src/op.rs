//! An op and its fields.

use crate::{Node, Refusal, Replica, Vector};
use core::fmt;

/// What an op does.
#[derive(Clone, Copy, PartialEq, Eq, PartialOrd, Ord, Hash, Debug)]
#[repr(u8)]
pub enum Kind {
    /// Adds its node under its parent.
    Add = 1,
    /// Marks its node as removed.
    Remove = 2,
    /// Moves its node, which was deeper than the new parent.
    MoveUp = 3,
    /// Moves its node, which was not deeper than the new parent.
    MoveDown = 4,
}

impl Kind {
    /// The first byte of an op of this kind.
    pub const fn number(self) -> u8 {
        self as u8
    }

    /// The kind of a number.
    ///
    /// ```
    /// use outline::Kind;
    /// assert_eq!(Kind::from_number(3), Some(Kind::MoveUp));
    /// assert_eq!(Kind::from_number(5), None);
    /// ```
    pub const fn from_number(number: u8) -> Option<Kind> {
        Some(match number {
            1 => Kind::Add,
            2 => Kind::Remove,
            3 => Kind::MoveUp,
            4 => Kind::MoveDown,
            _ => return None,
        })
    }
}

/// An operation: it adds, removes or moves a node (the document's record).
///
/// A [`Log`](crate::Log) hands ops out, as it issues them and as it holds them.
/// An op is 14 bytes, which is what machines hand each other.
///
/// ```
/// use outline::{Kind, Log, Node, Refusal, Replica};
/// let me = Replica::try_from(1)?;
/// let op = Log::new().add(me, Node::ROOT)?;
/// assert_eq!(op.as_bytes(), &[1, 1, 1, 1, 0, 0, 0, 0, 0, 0, 0, 0, 0, 0]);
/// assert_eq!((op.kind(), op.replica(), op.sequence()), (Kind::Add, me, 1));
/// assert_eq!((op.node().number(), op.parent()), (257, Some(Node::ROOT)));
/// # Ok::<(), Refusal>(())
/// ```
#[derive(Clone, Copy, PartialEq, Eq, Hash)]
pub struct Op {
    bytes: [u8; Op::LENGTH],
}

impl Op {
    /// Bytes of an op.
    pub const LENGTH: usize = 14;

    /// Reads an op that came from elsewhere. Whether a log takes it is another
    /// question, which [`Log::deliver`](crate::Log::deliver) answers; it takes
    /// the bytes as they are.
    ///
    /// # Errors
    ///
    /// - [`Refusal::Length`]: not 14 bytes
    /// - [`Refusal::Malformed`]: kind, replica, own count or a remove's parent
    ///   is out of form
    /// - [`Refusal::Unknown`]: node or parent is no number of a node, or the
    ///   node that is added, removed or moved is the root
    ///
    /// ```
    /// use outline::{Op, Refusal};
    /// let mut bytes = [1, 1, 1, 1, 0, 0, 0, 0, 0, 0, 0, 0, 0, 0];
    /// assert_eq!(Op::from_bytes(&bytes)?.node().number(), 257);
    /// assert_eq!(Op::from_bytes(&bytes[1..]), Err(Refusal::Length));
    /// bytes[1] = 9;
    /// assert_eq!(Op::from_bytes(&bytes), Err(Refusal::Malformed));
    /// # Ok::<(), Refusal>(())
    /// ```
    pub fn from_bytes(bytes: &[u8]) -> Result<Op, Refusal> {
        let bytes: [u8; Op::LENGTH] = bytes.try_into().map_err(|_| Refusal::Length)?;
        let op = Op { bytes };
        let kind = Kind::from_number(bytes[0]).ok_or(Refusal::Malformed)?;
        let replica = Replica::try_from(bytes[1])?;
        let remove_with_parent = kind == Kind::Remove && op.word(4) != 0;
        if op.vector().count(replica) == u8::MAX || remove_with_parent {
            return Err(Refusal::Malformed);
        }
        Node::try_from(op.word(4))?;
        if Node::try_from(op.word(2))?.is_root() {
            return Err(Refusal::Unknown);
        }
        Ok(op)
    }

    /// Its bytes.
    pub const fn as_bytes(&self) -> &[u8; Op::LENGTH] {
        &self.bytes
    }

    /// What it does.
    pub fn kind(&self) -> Kind {
        Kind::from_number(self.bytes[0]).expect(READS)
    }

    /// The replica that issued it.
    pub fn replica(&self) -> Replica {
        Replica::new(self.bytes[1]).expect(READS)
    }

    /// Its number among its replica's ops, 1 to 255.
    pub fn sequence(&self) -> u8 {
        self.vector().count(self.replica()) + 1
    }

    /// The node that it adds, removes or moves.
    pub fn node(&self) -> Node {
        Node::from_number(self.word(2)).expect(READS)
    }

    /// The parent under which it puts the node; none for a remove.
    pub fn parent(&self) -> Option<Node> {
        let parent = Node::from_number(self.word(4)).expect(READS);
        (self.kind() != Kind::Remove).then_some(parent)
    }

    /// The ops that its replica held when it issued this one.
    pub fn vector(&self) -> Vector {
        Vector::from(core::array::from_fn(|i| self.bytes[6 + i]))
    }

    /// The sum of its counts: how many ops its replica held. It is greater than
    /// that of every op which it counts, so ops that are offered by rising sum
    /// are never early.
    pub fn weight(&self) -> usize {
        self.vector().sum()
    }

    /// Where its outcome stands in the table of judging.
    pub(crate) fn slot(&self) -> usize {
        let added = Node::new(self.replica(), self.sequence());
        added.expect(READS).slot()
    }

    fn word(&self, at: usize) -> u16 {
        u16::from_be_bytes([self.bytes[at], self.bytes[at + 1]])
    }
}

/// An op is made by `from_bytes` alone.
const READS: &str = "an op reads";

impl AsRef<[u8]> for Op {
    fn as_ref(&self) -> &[u8] {
        &self.bytes
    }
}

impl TryFrom<&[u8]> for Op {
    type Error = Refusal;

    /// The same as [`Op::from_bytes`].
    ///
    /// # Errors
    ///
    /// Those of [`Op::from_bytes`].
    fn try_from(bytes: &[u8]) -> Result<Op, Refusal> {
        Op::from_bytes(bytes)
    }
}

impl fmt::Debug for Op {
    fn fmt(&self, f: &mut fmt::Formatter<'_>) -> fmt::Result {
        f.debug_struct("Op")
            .field("kind", &self.kind())
            .field("replica", &self.replica())
            .field("sequence", &self.sequence())
            .field("node", &self.node())
            .field("parent", &self.parent())
            .field("vector", &self.vector())
            .finish()
    }
}
