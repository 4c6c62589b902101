//! The tree of a log, and what became of its ops.

use crate::plain::TABLE;
use crate::{Line, Node, Op};
use core::borrow::Borrow;
use core::fmt;
use core::iter::FusedIterator;

/// What became of an op when the log was judged (the document's fate).
#[derive(Clone, Copy, PartialEq, Eq, PartialOrd, Ord, Hash, Debug)]
#[repr(u8)]
pub enum Outcome {
    /// The op was applied.
    Applied = 1,
    /// A move that lost: another one of the same node and time was applied.
    PlacedAlready = 2,
    /// A move that would have closed a circle.
    WouldCloseCircle = 3,
}

impl Outcome {
    /// Its number in the table of [`plain::judge`](crate::plain::judge).
    pub const fn number(self) -> u8 {
        self as u8
    }

    /// The outcome of a number; none for 0, where there is no op.
    ///
    /// ```
    /// use outline::Outcome;
    /// assert_eq!(Outcome::from_number(2), Some(Outcome::PlacedAlready));
    /// assert_eq!(Outcome::from_number(0), None);
    /// ```
    pub const fn from_number(number: u8) -> Option<Outcome> {
        Some(match number {
            1 => Outcome::Applied,
            2 => Outcome::PlacedAlready,
            3 => Outcome::WouldCloseCircle,
            _ => return None,
        })
    }
}

/// The tree that the ops of a log come to, worked out once for many questions.
///
/// [`Log::tree`](crate::Log::tree) makes it. It stays as it is when the log goes
/// on. The root is always there, and every other node has a parent; a removed
/// node stays where it is, with a mark.
///
/// ```
/// use outline::{Log, Node, Outcome, Refusal, Replica};
/// let me = Replica::try_from(1)?;
/// let mut log = Log::new();
/// let a = log.add(me, Node::ROOT)?.node();
/// let b = log.add(me, a)?.node();
/// let op = log.remove(me, b)?;
///
/// let tree = log.tree();
/// assert_eq!(tree.parent(b), Some(a));
/// assert!(tree.children(Node::ROOT).eq([a]));
/// assert!(tree.path(b).eq([b, a, Node::ROOT]));
/// assert!(tree.is_removed(b) && !tree.is_removed(a));
/// assert_eq!(tree.outcome(&op), Some(Outcome::Applied));
/// # Ok::<(), Refusal>(())
/// ```
#[derive(Clone, PartialEq, Eq)]
pub struct Tree {
    // All by slot.
    parents: [u16; TABLE],
    outcomes: [u8; TABLE],
    removed: [bool; TABLE],
    /// The first child, and the next child of the same parent; the root where
    /// there is none.
    first: [Node; TABLE],
    next: [Node; TABLE],
}

impl Tree {
    /// From the tables of judging and the lines of the keeping view, which
    /// leaves out removed nodes alone.
    pub(crate) fn new(
        parents: [u16; TABLE],
        outcomes: [u8; TABLE],
        kept: impl Iterator<Item = Line>,
    ) -> Tree {
        let mut tree = Tree {
            parents,
            outcomes,
            removed: [true; TABLE],
            first: [Node::ROOT; TABLE],
            next: [Node::ROOT; TABLE],
        };
        for line in kept {
            tree.removed[line.node.slot()] = line.removed;
        }
        // From the last on, so that children rise.
        for slot in (1..TABLE).rev() {
            let node = Node::from_slot(slot).expect("a slot");
            match tree.parent(node) {
                Some(parent) => {
                    tree.next[slot] = tree.first[parent.slot()];
                    tree.first[parent.slot()] = node;
                }
                None => tree.removed[slot] = false,
            }
        }
        tree
    }

    /// Whether it has the node. The root is always there.
    pub fn contains(&self, node: Node) -> bool {
        Node::from_number(self.parents[node.slot()]).is_some()
    }

    /// The parent of a node; none for the root, and for a node that is not
    /// there.
    pub fn parent(&self, node: Node) -> Option<Node> {
        if node.is_root() {
            return None;
        }
        Node::from_number(self.parents[node.slot()])
    }

    /// Whether the node is there and is removed.
    pub fn is_removed(&self, node: Node) -> bool {
        self.removed[node.slot()]
    }

    /// The root and all other nodes, by rising number.
    pub fn nodes(&self) -> impl DoubleEndedIterator<Item = Node> + '_ {
        let all = (0..TABLE).filter_map(Node::from_slot);
        all.filter(|&node| self.contains(node))
    }

    /// The children of a node by rising number, also removed ones; none for a
    /// node that is not there.
    pub fn children(&self, node: Node) -> Children<&Tree> {
        Children::new(self, node)
    }

    /// All below a node, each before what is below it, children by rising
    /// number; none for a node that is not there.
    pub fn descendants(&self, node: Node) -> Descendants<&Tree> {
        Descendants::new(self, node)
    }

    /// The node, its parent, and so on to the root; none for a node that is not
    /// there.
    pub fn path(&self, node: Node) -> Path<&Tree> {
        Path::new(self, node)
    }

    /// The steps from a node to the root; none for a node that is not there.
    pub fn depth(&self, node: Node) -> Option<usize> {
        self.path(node).count().checked_sub(1)
    }

    /// What became of the op of the log that has this one's replica and
    /// sequence; none if the log had no such op.
    pub fn outcome(&self, op: &Op) -> Option<Outcome> {
        Outcome::from_number(self.outcomes[op.slot()])
    }

    /// The first child.
    fn first_below(&self, node: Node) -> Option<Node> {
        some(self.first[node.slot()])
    }

    /// The next child of the same parent.
    fn next_beside(&self, node: Node) -> Option<Node> {
        some(self.next[node.slot()])
    }
}

fn some(node: Node) -> Option<Node> {
    (!node.is_root()).then_some(node)
}

impl fmt::Debug for Tree {
    /// Each node with its parent.
    fn fmt(&self, f: &mut fmt::Formatter<'_>) -> fmt::Result {
        let parents = self.nodes().map(|node| (node, self.parent(node)));
        f.debug_map().entries(parents).finish()
    }
}

/// The children of a node in a tree, which it borrows or has: see
/// [`Tree::children`] and [`Log::children`](crate::Log::children).
#[derive(Clone, Debug)]
pub struct Children<T> {
    tree: T,
    next: Option<Node>,
}

impl<T: Borrow<Tree>> Children<T> {
    pub(crate) fn new(tree: T, node: Node) -> Children<T> {
        let next = tree.borrow().first_below(node);
        Children { tree, next }
    }
}

impl<T: Borrow<Tree>> Iterator for Children<T> {
    type Item = Node;

    fn next(&mut self) -> Option<Node> {
        let node = self.next?;
        self.next = self.tree.borrow().next_beside(node);
        Some(node)
    }
}

impl<T: Borrow<Tree>> FusedIterator for Children<T> {}

/// All below a node in a tree, which it borrows or has: see
/// [`Tree::descendants`] and [`Log::descendants`](crate::Log::descendants).
#[derive(Clone, Debug)]
pub struct Descendants<T> {
    tree: T,
    top: Node,
    next: Option<Node>,
}

impl<T: Borrow<Tree>> Descendants<T> {
    pub(crate) fn new(tree: T, top: Node) -> Descendants<T> {
        let next = tree.borrow().first_below(top);
        Descendants { tree, top, next }
    }
}

impl<T: Borrow<Tree>> Iterator for Descendants<T> {
    type Item = Node;

    fn next(&mut self) -> Option<Node> {
        let node = self.next?;
        let tree = self.tree.borrow();
        // Below it, or beside it, or beside the nearest above it.
        let mut above = tree.path(node).take_while(|&above| above != self.top);
        self.next = tree
            .first_below(node)
            .or_else(|| above.find_map(|above| tree.next_beside(above)));
        Some(node)
    }
}

impl<T: Borrow<Tree>> FusedIterator for Descendants<T> {}

/// The way from a node to the root of a tree, which it borrows or has: see
/// [`Tree::path`] and [`Log::path`](crate::Log::path).
#[derive(Clone, Debug)]
pub struct Path<T> {
    tree: T,
    next: Option<Node>,
}

impl<T: Borrow<Tree>> Path<T> {
    pub(crate) fn new(tree: T, node: Node) -> Path<T> {
        let next = tree.borrow().contains(node).then_some(node);
        Path { tree, next }
    }
}

impl<T: Borrow<Tree>> Iterator for Path<T> {
    type Item = Node;

    fn next(&mut self) -> Option<Node> {
        let node = self.next?;
        self.next = self.tree.borrow().parent(node);
        Some(node)
    }
}

impl<T: Borrow<Tree>> FusedIterator for Path<T> {}
