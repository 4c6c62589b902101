//! What judging a log says, kept beside it.

use crate::plain::{Tables, NO_PARENT, ORDER, TABLE};
use crate::{Node, Op, Outcome, Replica};
use core::fmt;
use core::iter::{self, FusedIterator};

/// What judging a log says, kept beside the log and brought up to date op by op:
/// the order in which the ops were judged, the parents of the nodes, and the
/// outcomes of the ops.
///
/// [`Log::deliver_with_page`](crate::Log::deliver_with_page),
/// [`add_with_page`](crate::Log::add_with_page),
/// [`remove_with_page`](crate::Log::remove_with_page) and
/// [`move_to_with_page`](crate::Log::move_to_with_page) do so, each for one op. It
/// has 10,203 bytes in itself, and allocates nothing.
///
/// No other call knows of it: after one that changes the log the page still says
/// what was, and is built anew by the next call with it that accepts an op. So it
/// does no harm if a page was forgotten, or belongs to another log. To have it true
/// at once, take [`Log::page`](crate::Log::page).
///
/// ```
/// use outline::{Log, Node, Outcome, Page, Refusal, Replica};
/// let (me, mut log, mut page) = (Replica::try_from(1)?, Log::new(), Page::new());
/// let (a, _) = log.add_with_page(me, Node::ROOT, &mut page)?;
/// let (b, _) = log.add_with_page(me, a.node(), &mut page)?;
/// assert!(page.order().eq([(me, 1), (me, 2)]));
/// assert_eq!(page.parent(b.node()), Some(a.node()));
/// assert_eq!(page.outcome(&b), Some(Outcome::Applied));
///
/// // A log that was opened or changed elsewhere.
/// log.merge(&Log::new())?;
/// page = log.page();
/// assert_eq!(page.len(), 2);
/// # Ok::<(), Refusal>(())
/// ```
#[derive(Clone, PartialEq, Eq)]
pub struct Page {
    /// Slots of ops, then zeros.
    order: [u16; ORDER],
    // By slot.
    parents: [u16; TABLE],
    outcomes: [u8; TABLE],
}

impl Page {
    /// The page of a log without ops.
    pub const fn new() -> Page {
        let mut parents = [NO_PARENT; TABLE];
        parents[0] = Node::ROOT.number();
        Page {
            order: [0; ORDER],
            parents,
            outcomes: [0; TABLE],
        }
    }

    /// From the ops in judging order and what fills the other two tables.
    pub(crate) fn new_with(
        ops: impl Iterator<Item = Op>,
        judge: impl FnOnce(&mut [u16], &mut [u8]),
    ) -> Page {
        let mut page = Page::new();
        for (entry, op) in page.order.iter_mut().zip(ops) {
            *entry = op.slot() as u16;
        }
        judge(&mut page.parents, &mut page.outcomes);
        page
    }

    /// The tables, for a call of the library, which leaves what judging some log
    /// says.
    pub(crate) fn tables(&mut self) -> Tables<'_> {
        Tables {
            order: &mut self.order,
            parents: &mut self.parents,
            outcomes: &mut self.outcomes,
        }
    }

    /// How many ops were judged.
    pub fn len(&self) -> usize {
        self.slots().len()
    }

    /// Whether there was no op to judge.
    pub fn is_empty(&self) -> bool {
        self.len() == 0
    }

    /// The ops in the order in which they were judged, each by its replica and
    /// sequence; [`Log::op`](crate::Log::op) has the op.
    pub fn order(
        &self,
    ) -> impl ExactSizeIterator<Item = (Replica, u8)> + DoubleEndedIterator + FusedIterator + Clone + '_
    {
        self.slots().iter().map(|&slot| {
            // The op stands where the node stands that it could add.
            let node = Node::from_slot(slot.into());
            let op = node.and_then(|node| Some((node.replica()?, node.sequence()?)));
            op.expect("a slot of an op")
        })
    }

    /// What became of the op of the log that has this one's replica and
    /// sequence; none if the log had no such op.
    pub fn outcome(&self, op: &Op) -> Option<Outcome> {
        self.outcome_of(op.replica(), op.sequence())
    }

    /// The same by replica and sequence.
    pub fn outcome_of(&self, replica: Replica, sequence: u8) -> Option<Outcome> {
        let slot = Node::new(replica, sequence)?.slot();
        Outcome::from_number(self.outcomes[slot])
    }

    /// Whether it has the node. The root is always there.
    pub fn contains(&self, node: Node) -> bool {
        Node::from_number(self.parents[node.slot()]).is_some()
    }

    /// The parent of a node; none for the root, and for a node that is not
    /// there.
    pub fn parent(&self, node: Node) -> Option<Node> {
        if node.is_root() {
            return None;
        }
        Node::from_number(self.parents[node.slot()])
    }

    /// The root and all other nodes, by rising number.
    pub fn nodes(&self) -> impl DoubleEndedIterator<Item = Node> + Clone + '_ {
        let all = (0..TABLE).filter_map(Node::from_slot);
        all.filter(|&node| self.contains(node))
    }

    /// The children of a node by rising number, also removed ones; none for a
    /// node that is not there. It looks at all nodes: a [`Tree`](crate::Tree)
    /// knows them.
    pub fn children(&self, node: Node) -> impl DoubleEndedIterator<Item = Node> + Clone + '_ {
        self.nodes()
            .filter(move |&child| self.parent(child) == Some(node))
    }

    /// The node, its parent, and so on to the root; none for a node that is not
    /// there.
    pub fn path(&self, node: Node) -> impl FusedIterator<Item = Node> + Clone + '_ {
        let from = self.contains(node).then_some(node);
        iter::successors(from, |&node| self.parent(node))
    }

    /// The steps from a node to the root; none for a node that is not there.
    pub fn depth(&self, node: Node) -> Option<usize> {
        self.path(node).count().checked_sub(1)
    }

    /// The order without the zeros behind it.
    fn slots(&self) -> &[u16] {
        let end = self.order.iter().position(|&slot| slot == 0);
        &self.order[..end.unwrap_or(ORDER)]
    }
}

impl Default for Page {
    fn default() -> Page {
        Page::new()
    }
}

impl fmt::Debug for Page {
    /// The ops in the order in which they were judged, each with its outcome.
    fn fmt(&self, f: &mut fmt::Formatter<'_>) -> fmt::Result {
        let judged = self.order().map(|(replica, sequence)| {
            let outcome = self.outcome_of(replica, sequence);
            ((replica, sequence), outcome)
        });
        f.debug_map().entries(judged).finish()
    }
}
