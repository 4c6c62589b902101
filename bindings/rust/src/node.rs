//! Nodes.

use crate::{Refusal, Replica};
use core::fmt;

/// The root, or the number of a node that some op can add.
///
/// The root is number 0, and op q of replica s adds node 256 s + q. So there
/// are 2,041 of them. Whether a log has the node is another question, which
/// [`Tree::contains`](crate::Tree::contains) answers.
///
/// ```
/// use outline::{Node, Replica};
/// let node = Node::new(Replica::new(1).unwrap(), 2).unwrap();
/// assert_eq!(node.number(), 258);
/// assert_eq!(Node::from_number(258), Some(node));
/// assert_eq!(Node::from_number(256), None); // there is no op 0
/// ```
#[derive(Clone, Copy, PartialEq, Eq, PartialOrd, Ord, Hash)]
pub struct Node(u16);

/// Ops of a replica.
const OPS: usize = 255;

impl Node {
    /// The root of the tree.
    pub const ROOT: Node = Node(0);

    /// The node that a replica's op of this sequence adds; none for sequence 0.
    pub const fn new(replica: Replica, sequence: u8) -> Option<Node> {
        Node::from_number(u16::from_be_bytes([replica.number(), sequence]))
    }

    /// The node of a number; none if it is neither 0 nor 256 s + q for a
    /// replica s and a sequence q from 1 to 255.
    pub const fn from_number(number: u16) -> Option<Node> {
        let [replica, sequence] = number.to_be_bytes();
        let added = Replica::new(replica).is_some() && sequence != 0;
        if number == 0 || added {
            Some(Node(number))
        } else {
            None
        }
    }

    /// Its number.
    pub const fn number(self) -> u16 {
        self.0
    }

    /// Whether it is the root.
    pub const fn is_root(self) -> bool {
        self.0 == 0
    }

    /// The replica whose op adds it; none for the root.
    pub const fn replica(self) -> Option<Replica> {
        Replica::new(self.0.to_be_bytes()[0])
    }

    /// The sequence of the op that adds it, 1 to 255; none for the root.
    pub const fn sequence(self) -> Option<u8> {
        match self.0.to_be_bytes() {
            [_, 0] => None,
            [_, sequence] => Some(sequence),
        }
    }

    /// Where it stands in the tables of [`plain::judge`](crate::plain::judge):
    /// 0 for the root, and at most 2,040. The op that adds it stands in the
    /// same place.
    ///
    /// ```
    /// use outline::Node;
    /// assert_eq!(Node::ROOT.slot(), 0);
    /// assert_eq!(Node::from_number(258).unwrap().slot(), 2);
    /// assert_eq!(Node::from_number(513).unwrap().slot(), 256);
    /// ```
    pub const fn slot(self) -> usize {
        let [replica, sequence] = self.0.to_be_bytes();
        (OPS * (replica as usize)).saturating_sub(OPS) + sequence as usize
    }

    /// The node of a slot; none above 2,040.
    pub(crate) fn from_slot(slot: usize) -> Option<Node> {
        let Some(before) = slot.checked_sub(1) else {
            return Some(Node::ROOT);
        };
        let replica = u8::try_from(before / OPS + 1).ok()?;
        Node::new(Replica::new(replica)?, (before % OPS + 1) as u8)
    }
}

impl TryFrom<u16> for Node {
    type Error = Refusal;

    /// The node of a number.
    ///
    /// # Errors
    ///
    /// [`Refusal::Unknown`] where [`Node::from_number`] has none.
    fn try_from(number: u16) -> Result<Node, Refusal> {
        Node::from_number(number).ok_or(Refusal::Unknown)
    }
}

impl From<Node> for u16 {
    fn from(node: Node) -> u16 {
        node.number()
    }
}

impl fmt::Display for Node {
    fn fmt(&self, f: &mut fmt::Formatter<'_>) -> fmt::Result {
        self.number().fmt(f)
    }
}

impl fmt::Debug for Node {
    fn fmt(&self, f: &mut fmt::Formatter<'_>) -> fmt::Result {
        write!(f, "Node({self})")
    }
}
