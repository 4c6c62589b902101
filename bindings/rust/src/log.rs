//! A log that is always sound.

use crate::plain::{self, HEADER, LARGEST, MOST_MOVES, TABLE};
use crate::{Batch, Bundle, Children, Delivery, Descendants, Holdback, Lines, Listing, Node};
use crate::{Op, Page, Path, Refusal, Replica, Tree, Vector, View};
use core::fmt;
use core::iter::FusedIterator;

/// The ops that a machine holds (the document's collection), and so an outline.
///
/// A log is made empty or from the bytes of a sound one, and every change is a
/// call of the verified library: so it is sound at all times, and it never
/// lacks room. It has 28,592 bytes in itself, the size of the largest, and
/// allocates nothing; `Box::new(Log::new())` puts it on the heap.
///
/// A question about the tree judges all ops anew. For many questions make a
/// [`tree`](Log::tree) once, and ask that. For a screen that follows every op keep
/// a [`Page`], which is brought up to date with each.
///
/// ```
/// use outline::{Log, Node, Refusal, Replica, View};
/// let me = Replica::try_from(1)?;
/// let mut log = Log::new();
/// let news = log.add(me, Node::ROOT)?.node();
/// let story = log.add(me, Node::ROOT)?.node();
/// log.move_to(me, story, news)?;
/// assert_eq!(log.parent(story), Some(news));
/// assert_eq!(log.listing(View::Keeping).as_str(), "0 0 k\n1 257 k\n2 258 k\n");
/// # Ok::<(), Refusal>(())
/// ```
#[derive(Clone)]
pub struct Log {
    /// A sound log, and zeros behind it.
    bytes: [u8; LARGEST],
}

impl Log {
    /// An empty log.
    pub fn new() -> Log {
        let mut bytes = [0; LARGEST];
        plain::make(&mut bytes).expect(ROOM);
        Log { bytes }
    }

    /// The log of a file, such as [`as_bytes`](Log::as_bytes) gives.
    ///
    /// # Errors
    ///
    /// [`Refusal::Unsound`] if the bytes are not a sound log from the first to
    /// the last. No bytes are no log: for a file that is still empty, take
    /// [`Log::new`].
    ///
    /// ```
    /// use outline::{Log, Refusal};
    /// let log = Log::new();
    /// assert_eq!(Log::from_bytes(log.as_bytes()), Ok(log));
    /// assert_eq!(Log::from_bytes(b"something else"), Err(Refusal::Unsound));
    /// assert_eq!(Log::from_bytes(b""), Err(Refusal::Unsound));
    /// ```
    pub fn from_bytes(bytes: &[u8]) -> Result<Log, Refusal> {
        if plain::end(bytes)? != bytes.len() {
            return Err(Refusal::Unsound);
        }
        let mut log = Log::new();
        log.bytes[..bytes.len()].copy_from_slice(bytes);
        Ok(log)
    }

    /// The file: what is kept on a disk, and the same on all machines that hold
    /// the same ops.
    pub fn as_bytes(&self) -> &[u8] {
        &self.bytes[..HEADER + Op::LENGTH * self.len()]
    }

    /// How many ops it holds.
    pub fn len(&self) -> usize {
        self.vector().sum()
    }

    /// Whether it holds no op.
    pub fn is_empty(&self) -> bool {
        self.len() == 0
    }

    /// How many ops of each replica it holds: what it tells others, so that
    /// they hand it [what it lacks](Log::bundle_for).
    pub fn vector(&self) -> Vector {
        // The low bytes of the counts in the header; the high ones are 0.
        Vector::from(core::array::from_fn(|i| self.bytes[4 * i + 1]))
    }

    /// Adds a new node under a parent, the root or a node of the log. The op
    /// names it: `log.add(me, parent)?.node()`.
    ///
    /// # Errors
    ///
    /// - [`Refusal::Exhausted`]: the replica has issued its 255 ops
    /// - [`Refusal::Unknown`]: the log has no such parent
    /// - [`Refusal::Marked`]: the parent is removed
    pub fn add(&mut self, replica: Replica, parent: Node) -> Result<Op, Refusal> {
        let (replica, parent) = (replica.number(), parent.number());
        self.issue(|buf, out| plain::issue_add(buf, replica, parent, out))
    }

    /// Marks a node of the log as removed. It keeps its place, and what is
    /// below it is not marked. A removed node may be removed again.
    ///
    /// # Errors
    ///
    /// - [`Refusal::Exhausted`]: the replica has issued its 255 ops
    /// - [`Refusal::Unknown`]: the log has no such node, or it is the root
    pub fn remove(&mut self, replica: Replica, node: Node) -> Result<Op, Refusal> {
        let (replica, node) = (replica.number(), node.number());
        self.issue(|buf, out| plain::issue_remove(buf, replica, node, out))
    }

    /// Moves a node of the log, with all below it, under a new parent, the root
    /// or a node of the log.
    ///
    /// # Errors
    ///
    /// - [`Refusal::Exhausted`]: the replica has issued its 255 ops
    /// - [`Refusal::Unknown`]: the log has no such node or parent, or the node
    ///   is the root, or the parent is the node
    /// - [`Refusal::Marked`]: the node or the parent is removed
    /// - [`Refusal::Cycle`]: the parent lies below the node
    pub fn move_to(&mut self, replica: Replica, node: Node, parent: Node) -> Result<Op, Refusal> {
        let (replica, node, parent) = (replica.number(), node.number(), parent.number());
        self.issue(|buf, out| plain::issue_move(buf, replica, node, parent, out))
    }

    /// Moves up to 16 nodes of the log under one parent, one after another in the
    /// order of the list: all of them, or none. Each is tested in the tree that
    /// those before it left. A node may stand in the list twice.
    ///
    /// The batch is whole at issue only. From then on each move is an op by itself,
    /// with an outcome of its own: once moves of other replicas have come, some
    /// moves of a batch may be applied and others not.
    ///
    /// # Errors
    ///
    /// [`Refusal::Length`] for more than 16 nodes; else what
    /// [`move_to`](Log::move_to) answers for the first move that is refused. No
    /// move has been issued then.
    ///
    /// ```
    /// use outline::{Log, Node, Outcome, Refusal, Replica};
    /// let (me, mut log) = (Replica::try_from(1)?, Log::new());
    /// let heading = log.add(me, Node::ROOT)?.node();
    /// let a = log.add(me, Node::ROOT)?.node();
    /// let b = log.add(me, Node::ROOT)?.node();
    /// let mut other = log.clone();
    ///
    /// let moves = log.move_all_to(me, &[a, b], heading)?;
    /// assert!(log.children(heading).eq([a, b]));
    /// assert_eq!(log.move_all_to(me, &[b, heading], a), Err(Refusal::Cycle));
    /// assert_eq!(log.parent(b), Some(heading));
    ///
    /// // Another machine has moved the heading below one of the two: now the other
    /// // one alone has come there.
    /// log.deliver(other.move_to(Replica::try_from(2)?, heading, a)?)?;
    /// let tree = log.tree();
    /// let outcomes = moves.ops().map(|op| tree.outcome(&op));
    /// assert!(outcomes.eq([Some(Outcome::WouldCloseCircle), Some(Outcome::Applied)]));
    /// # Ok::<(), Refusal>(())
    /// ```
    pub fn move_all_to(
        &mut self,
        replica: Replica,
        nodes: &[Node],
        parent: Node,
    ) -> Result<Batch, Refusal> {
        let mut numbers = [0; MOST_MOVES];
        let numbers = numbers.get_mut(..nodes.len()).ok_or(Refusal::Length)?;
        for (number, node) in numbers.iter_mut().zip(nodes) {
            *number = node.number();
        }
        let (replica, parent) = (replica.number(), parent.number());
        Batch::new(nodes.len(), |out| {
            plain::issue_moves(&mut self.bytes, replica, numbers, parent, out)
        })
    }

    /// The same as [`add`](Log::add), with a page of this log, which has the new op
    /// then. Says besides how many ops were taken back: none, unless the page was
    /// not true.
    ///
    /// # Errors
    ///
    /// Those of [`add`](Log::add). The page has not changed then.
    ///
    /// ```
    /// use outline::{Log, Node, Page, Refusal, Replica};
    /// let (me, mut log, mut page) = (Replica::try_from(1)?, Log::new(), Page::new());
    /// let (a, taken_back) = log.add_with_page(me, Node::ROOT, &mut page)?;
    /// let (b, _) = log.add_with_page(me, a.node(), &mut page)?;
    /// assert_eq!(page.parent(b.node()), Some(a.node()));
    /// assert_eq!(taken_back, 0);
    ///
    /// // The page has missed an op, so it is built anew.
    /// log.add(me, Node::ROOT)?;
    /// let (_, taken_back) = log.remove_with_page(me, a.node(), &mut page)?;
    /// assert_eq!(taken_back, 3);
    /// assert_eq!(page, log.page());
    /// # Ok::<(), Refusal>(())
    /// ```
    pub fn add_with_page(
        &mut self,
        replica: Replica,
        parent: Node,
        page: &mut Page,
    ) -> Result<(Op, usize), Refusal> {
        let (replica, parent) = (replica.number(), parent.number());
        let mut page = page.tables();
        self.issue_with_page(|buf, out| plain::page_issue_add(buf, replica, parent, out, &mut page))
    }

    /// The same as [`remove`](Log::remove), with a page of this log, as
    /// [`add_with_page`](Log::add_with_page).
    ///
    /// # Errors
    ///
    /// Those of [`remove`](Log::remove). The page has not changed then.
    pub fn remove_with_page(
        &mut self,
        replica: Replica,
        node: Node,
        page: &mut Page,
    ) -> Result<(Op, usize), Refusal> {
        let (replica, node) = (replica.number(), node.number());
        let mut page = page.tables();
        self.issue_with_page(|buf, out| {
            plain::page_issue_remove(buf, replica, node, out, &mut page)
        })
    }

    /// The same as [`move_to`](Log::move_to), with a page of this log, as
    /// [`add_with_page`](Log::add_with_page).
    ///
    /// # Errors
    ///
    /// Those of [`move_to`](Log::move_to). The page has not changed then.
    pub fn move_to_with_page(
        &mut self,
        replica: Replica,
        node: Node,
        parent: Node,
        page: &mut Page,
    ) -> Result<(Op, usize), Refusal> {
        let (replica, node, parent) = (replica.number(), node.number(), parent.number());
        let mut page = page.tables();
        self.issue_with_page(|buf, out| {
            plain::page_issue_move(buf, replica, node, parent, out, &mut page)
        })
    }

    /// Has a call issue an op.
    fn issue(
        &mut self,
        call: impl FnOnce(&mut [u8], &mut [u8]) -> Result<usize, Refusal>,
    ) -> Result<Op, Refusal> {
        let mut op = [0; Op::LENGTH];
        call(&mut self.bytes, &mut op)?;
        Ok(Op::from_bytes(&op).expect("an issued op reads back"))
    }

    /// The same for a call that says besides how many ops were taken back.
    fn issue_with_page(
        &mut self,
        call: impl FnOnce(&mut [u8], &mut [u8]) -> Result<(usize, usize), Refusal>,
    ) -> Result<(Op, usize), Refusal> {
        let mut taken_back = 0;
        let op = self.issue(|buf, out| {
            let end;
            (end, taken_back) = call(buf, out)?;
            Ok(end)
        })?;
        Ok((op, taken_back))
    }

    /// Takes an op of another machine: an [`Op`], or bytes as they came. An early
    /// op is not kept: where ops come in any order, see
    /// [`deliver_with_holdback`](Log::deliver_with_holdback).
    ///
    /// # Errors
    ///
    /// - [`Refusal::Length`]: not 14 bytes
    /// - [`Refusal::Malformed`]: out of form
    /// - [`Refusal::Conflict`]: another op of this replica and sequence is held
    /// - [`Refusal::Early`]: it counts ops that are not held yet; see
    ///   [`ops`](Log::ops) for an order in which this does not happen
    /// - [`Refusal::NotClosed`]: it counts an op, but not all that this one
    ///   counts
    /// - [`Refusal::Unknown`]: it names a node that its replica could not know
    ///
    /// ```
    /// use outline::{Delivery, Log, Node, Refusal, Replica};
    /// let mut one = Log::new();
    /// let op = one.add(Replica::try_from(1)?, Node::ROOT)?;
    ///
    /// let mut two = Log::new();
    /// assert_eq!(two.deliver(&op), Ok(Delivery::Accepted(46)));
    /// assert_eq!(two.deliver(op.as_bytes()), Ok(Delivery::HadIt));
    /// assert_eq!(two.deliver(b"?"), Err(Refusal::Length));
    /// assert_eq!(one, two);
    /// # Ok::<(), Refusal>(())
    /// ```
    pub fn deliver(&mut self, op: impl AsRef<[u8]>) -> Result<Delivery, Refusal> {
        plain::deliver(&mut self.bytes, op.as_ref())
    }

    /// Takes an op of another machine as it comes: an early one waits in the
    /// holdback, and goes from there into the log with the op that it waited
    /// for. What then still waits counts ops that are not held yet.
    ///
    /// Ops that are offered once each, in whatever order, come to the log that
    /// offering them to [`deliver`](Log::deliver) again and again would come to:
    /// if the holdback began empty and never got [full](Holdback::is_full), no two
    /// ops of one replica and sequence differ, and nothing else is done to log
    /// and holdback in between.
    ///
    /// # Errors
    ///
    /// Log and holdback have not changed then.
    ///
    /// - [`Refusal::Length`]: not 14 bytes
    /// - [`Refusal::Malformed`]: out of form
    /// - [`Refusal::Conflict`]: another op of this replica and sequence is held
    /// - [`Refusal::HoldbackFull`]: it counts ops that are not held yet, is not
    ///   in the holdback, and 32 others are; it has to be offered again
    /// - [`Refusal::NotClosed`]: it counts an op, but not all that this one
    ///   counts
    /// - [`Refusal::Unknown`]: it names a node that its replica could not know
    ///
    /// An op that waits is refused no more: if one of the last two reasons, or a
    /// conflict, shows when its turn comes, it is dropped.
    ///
    /// ```
    /// use outline::{Delivery, Holdback, Log, Node, Refusal, Replica};
    /// let (me, mut here) = (Replica::try_from(1)?, Log::new());
    /// let a = here.add(me, Node::ROOT)?;
    /// let b = here.add(me, a.node())?;
    /// let c = here.add(me, b.node())?;
    ///
    /// // By post, the last first.
    /// let (mut there, mut holdback) = (Log::new(), Holdback::new());
    /// let answer = there.deliver_with_holdback(c, &mut holdback);
    /// assert_eq!(answer, Ok(Delivery::Waiting));
    /// let answer = there.deliver_with_holdback(b, &mut holdback);
    /// assert_eq!(answer, Ok(Delivery::Waiting));
    /// assert_eq!((there.len(), holdback.len()), (0, 2));
    ///
    /// // Its end shows that the log has all three now.
    /// let answer = there.deliver_with_holdback(a, &mut holdback);
    /// assert_eq!(answer, Ok(Delivery::Accepted(32 + 3 * 14)));
    /// assert!(holdback.is_empty());
    /// assert_eq!(here, there);
    /// # Ok::<(), Refusal>(())
    /// ```
    pub fn deliver_with_holdback(
        &mut self,
        op: impl AsRef<[u8]>,
        holdback: &mut Holdback,
    ) -> Result<Delivery, Refusal> {
        plain::holdback_deliver(&mut self.bytes, op.as_ref(), holdback.as_mut_bytes())
    }

    /// Takes an op of another machine as [`deliver`](Log::deliver) does, with a page
    /// of this log. If it is accepted, the page has it then. Says besides how many
    /// ops were taken back.
    ///
    /// These are the ops that are judged after the new one, and are judged again;
    /// for one that is judged last there are none. If the page was not true
    /// before, they are all ops that were held.
    ///
    /// # Errors
    ///
    /// Those of [`deliver`](Log::deliver). The page has not changed then, nor where
    /// the log had the op already.
    ///
    /// ```
    /// use outline::{Delivery, Log, Node, Outcome, Page, Refusal, Replica};
    /// let (one, two) = (Replica::try_from(1)?, Replica::try_from(2)?);
    /// let (mut log, mut page) = (Log::new(), Page::new());
    /// let (a, _) = log.add_with_page(one, Node::ROOT, &mut page)?;
    /// let (b, _) = log.add_with_page(one, Node::ROOT, &mut page)?;
    /// let mut other = log.clone();
    /// let (mine, _) = log.move_to_with_page(one, b.node(), a.node(), &mut page)?;
    /// assert_eq!(page.parent(b.node()), Some(a.node()));
    ///
    /// // Another move is judged before it, and comes late: together they would be
    /// // a circle.
    /// let late = other.move_to(two, a.node(), b.node())?;
    /// let answer = log.deliver_with_page(late, &mut page);
    /// assert_eq!(answer, Ok((Delivery::Accepted(88), 1)));
    /// assert_eq!(page.parent(b.node()), Some(Node::ROOT));
    /// assert_eq!(page.outcome(&mine), Some(Outcome::WouldCloseCircle));
    ///
    /// let answer = log.deliver_with_page(late, &mut page);
    /// assert_eq!(answer, Ok((Delivery::HadIt, 0)));
    /// # Ok::<(), Refusal>(())
    /// ```
    pub fn deliver_with_page(
        &mut self,
        op: impl AsRef<[u8]>,
        page: &mut Page,
    ) -> Result<(Delivery, usize), Refusal> {
        plain::page_deliver(&mut self.bytes, op.as_ref(), &mut page.tables())
    }

    /// Makes a bundle of all ops that a log of this vector lacks, to be sent in
    /// one piece and [opened](Log::open_bundle) there. Of a replica of which the
    /// other holds as many ops, or more, there is nothing in it.
    ///
    /// ```
    /// use outline::{Log, Node, Refusal, Replica};
    /// let me = Replica::try_from(1)?;
    /// let mut here = Log::new();
    /// here.add(me, Node::ROOT)?;
    /// let mut there = here.clone();
    /// here.add(me, Node::ROOT)?;
    /// here.add(me, Node::ROOT)?;
    ///
    /// // The other machine sends its eight counts, and gets a bundle of two ops.
    /// let counts: [u8; 8] = there.vector().into();
    /// let bundle = here.bundle_for(&counts.into());
    /// assert_eq!(bundle.as_bytes().len(), 2 + 2 * 14);
    /// assert_eq!(there.open_bundle(&bundle), Ok(2));
    /// assert_eq!(here, there);
    /// # Ok::<(), Refusal>(())
    /// ```
    pub fn bundle_for(&self, vector: &Vector) -> Bundle {
        let counts = (*vector).into();
        Bundle::new(|out| plain::bundle_make(self.as_bytes(), &counts, out).expect(ROOM))
    }

    /// Takes all ops of a bundle, and says how many were new; those that are
    /// held already are passed by. A bundle that was made for a vector which
    /// this log has reached or passed is never refused, if the two logs agree on
    /// what both hold.
    ///
    /// # Errors
    ///
    /// [`Refusal::BadBundle`] if the bytes are no bundle; else what
    /// [`deliver`](Log::deliver) answers for the first op that is refused. Not
    /// one op has been taken then.
    ///
    /// ```
    /// use outline::{Log, Node, Refusal, Replica, Vector};
    /// let (me, mut here) = (Replica::try_from(1)?, Log::new());
    /// here.add(me, Node::ROOT)?;
    /// here.add(me, Node::ROOT)?;
    /// let bundle = here.bundle_for(&Vector::default());
    ///
    /// let mut there = Log::new();
    /// assert_eq!(there.open_bundle(&bundle), Ok(2));
    /// assert_eq!(there.open_bundle(bundle.as_bytes()), Ok(0));
    /// assert_eq!(there.open_bundle(b"?"), Err(Refusal::BadBundle));
    /// assert_eq!(here, there);
    /// # Ok::<(), Refusal>(())
    /// ```
    pub fn open_bundle(&mut self, bundle: impl AsRef<[u8]>) -> Result<usize, Refusal> {
        let before = self.len();
        plain::bundle_open(&mut self.bytes, bundle.as_ref())?;
        Ok(self.len() - before)
    }

    /// Takes all ops that another log holds and this one lacks, and says how
    /// many these were. After both have merged the other they are equal.
    ///
    /// # Errors
    ///
    /// [`Refusal::Conflict`] if the logs have different ops of one replica and
    /// sequence: two machines have issued as the same replica. Nothing has
    /// changed then.
    ///
    /// ```
    /// use outline::{Log, Node, Refusal, Replica};
    /// let (mut one, mut two) = (Log::new(), Log::new());
    /// one.add(Replica::try_from(1)?, Node::ROOT)?;
    /// two.add(Replica::try_from(2)?, Node::ROOT)?;
    /// assert_eq!(one.merge(&two), Ok(1));
    /// assert_eq!(two.merge(&one), Ok(1));
    /// assert_eq!(one, two);
    /// # Ok::<(), Refusal>(())
    /// ```
    pub fn merge(&mut self, other: &Log) -> Result<usize, Refusal> {
        if !self.agrees_with(other) {
            return Err(Refusal::Conflict);
        }
        // The bundle for a log that agrees opens wholly.
        self.open_bundle(other.bundle_for(&self.vector()))
    }

    /// Whether no replica and sequence stands for two different ops.
    fn agrees_with(&self, other: &Log) -> bool {
        Replica::all().all(|replica| {
            let (mine, its) = (self.ops_of(replica), other.ops_of(replica));
            let shared = mine.len().min(its.len());
            mine[..shared] == its[..shared]
        })
    }

    /// All ops in causal order: each comes after all that it counts. Delivered
    /// in this order to a log that is empty, or holds some of them, no op is
    /// early.
    pub fn ops(&self) -> Ops<'_> {
        self.ops_beyond(&Vector::default())
    }

    /// The ops that a log of this vector lacks, in causal order. Delivered to
    /// it in this order no op is early.
    ///
    /// Counts do not say whether the two logs agree on what both hold;
    /// [`merge`](Log::merge) looks.
    ///
    /// ```
    /// use outline::{Log, Node, Refusal, Replica};
    /// let me = Replica::try_from(1)?;
    /// let mut here = Log::new();
    /// here.add(me, Node::ROOT)?;
    /// let mut there = here.clone();
    /// here.add(me, Node::ROOT)?;
    /// here.add(me, Node::ROOT)?;
    ///
    /// // The other machine sends its eight counts, and gets two ops.
    /// let counts: [u8; 8] = there.vector().into();
    /// let ops = here.ops_beyond(&counts.into());
    /// assert_eq!(ops.len(), 2);
    /// for op in ops {
    ///     there.deliver(op)?;
    /// }
    /// assert_eq!(here, there);
    /// # Ok::<(), Refusal>(())
    /// ```
    pub fn ops_beyond(&self, vector: &Vector) -> Ops<'_> {
        let held = self.vector();
        let beyond = |replica| held.count(replica).saturating_sub(vector.count(replica));
        let mut ops = Ops {
            log: self,
            next: [None; Replica::COUNT],
            left: Replica::all().map(beyond).map(usize::from).sum(),
        };
        for replica in Replica::all() {
            ops.next[replica.index()] = self.op_after(replica, vector.count(replica));
        }
        ops
    }

    /// The op of a replica and sequence, if it is held.
    ///
    /// ```
    /// use outline::{Log, Node, Refusal, Replica};
    /// let me = Replica::try_from(1)?;
    /// let mut log = Log::new();
    /// let op = log.add(me, Node::ROOT)?;
    /// assert_eq!(log.op(me, 1), Some(op));
    /// assert_eq!(log.op(me, 2), None);
    /// # Ok::<(), Refusal>(())
    /// ```
    pub fn op(&self, replica: Replica, sequence: u8) -> Option<Op> {
        let place = usize::from(sequence.checked_sub(1)?);
        let bytes = self.ops_of(replica).chunks_exact(Op::LENGTH).nth(place)?;
        Op::from_bytes(bytes).ok()
    }

    /// The op behind that of a sequence, if it is held.
    fn op_after(&self, replica: Replica, sequence: u8) -> Option<Op> {
        self.op(replica, sequence.checked_add(1)?)
    }

    /// The bytes of a replica's ops, which the header says the start of.
    fn ops_of(&self, replica: Replica) -> &[u8] {
        let at = 4 * replica.index() + 2;
        let start = usize::from(u16::from_be_bytes([self.bytes[at], self.bytes[at + 1]]));
        let count = usize::from(self.vector().count(replica));
        &self.bytes[start..start + Op::LENGTH * count]
    }

    /// Judges the ops: the tree that they come to, and what became of each.
    pub fn tree(&self) -> Tree {
        let mut parents = [0; TABLE];
        let mut outcomes = [0; TABLE];
        plain::judge(self.as_bytes(), &mut parents, &mut outcomes).expect(SOUND);
        Tree::new(parents, outcomes, self.lines(View::Keeping))
    }

    /// Judges the ops, for a page that is kept from here on. A page equals this if
    /// it is true.
    ///
    /// ```
    /// use outline::{Log, Node, Page, Refusal, Replica};
    /// let (me, mut log) = (Replica::try_from(1)?, Log::new());
    /// log.add(me, Node::ROOT)?;
    ///
    /// let mut page = log.page();
    /// let (_, taken_back) = log.add_with_page(me, Node::ROOT, &mut page)?;
    /// assert_eq!(taken_back, 0);
    /// assert_eq!(page, log.page());
    /// # Ok::<(), Refusal>(())
    /// ```
    pub fn page(&self) -> Page {
        // The ops of a bundle stand in judging order.
        let all = self.bundle_for(&Vector::default());
        let ops = all.ops().filter_map(|bytes| Op::from_bytes(bytes).ok());
        Page::new_with(ops, |parents, outcomes| {
            plain::judge(self.as_bytes(), parents, outcomes).expect(SOUND);
        })
    }

    /// The parent of a node; none for the root, and for a node that is not
    /// there.
    pub fn parent(&self, node: Node) -> Option<Node> {
        self.tree().parent(node)
    }

    /// The children of a node by rising number; none for a node that is not
    /// there.
    pub fn children(&self, node: Node) -> Children<Tree> {
        Children::new(self.tree(), node)
    }

    /// All below a node, each before what is below it; none for a node that is
    /// not there.
    pub fn descendants(&self, node: Node) -> Descendants<Tree> {
        Descendants::new(self.tree(), node)
    }

    /// The node, its parent, and so on to the root; none for a node that is not
    /// there.
    pub fn path(&self, node: Node) -> Path<Tree> {
        Path::new(self.tree(), node)
    }

    /// The text of a view.
    pub fn listing(&self, view: View) -> Listing {
        Listing::new(|text| plain::listing(self.as_bytes(), view, text).expect(ROOM))
    }

    /// The lines of a view: what an editor shows.
    ///
    /// ```
    /// use outline::{Line, Log, Node, Refusal, Replica, View};
    /// let me = Replica::try_from(1)?;
    /// let mut log = Log::new();
    /// let news = log.add(me, Node::ROOT)?.node();
    /// log.add(me, news)?;
    /// for Line { depth, node, removed } in log.lines(View::Keeping) {
    ///     let mark = if removed { "(removed)" } else { "" };
    ///     println!("{}{node} {mark}", "  ".repeat(depth));
    /// }
    /// # Ok::<(), Refusal>(())
    /// ```
    pub fn lines(&self, view: View) -> Lines<Listing> {
        self.listing(view).into_iter()
    }
}

const ROOM: &str = "there is room for the largest";
const SOUND: &str = "a log is sound";

impl Default for Log {
    fn default() -> Log {
        Log::new()
    }
}

impl PartialEq for Log {
    fn eq(&self, other: &Log) -> bool {
        self.as_bytes() == other.as_bytes()
    }
}

impl Eq for Log {}

impl AsRef<[u8]> for Log {
    fn as_ref(&self) -> &[u8] {
        self.as_bytes()
    }
}

impl TryFrom<&[u8]> for Log {
    type Error = Refusal;

    /// The same as [`Log::from_bytes`].
    ///
    /// # Errors
    ///
    /// Those of [`Log::from_bytes`].
    fn try_from(bytes: &[u8]) -> Result<Log, Refusal> {
        Log::from_bytes(bytes)
    }
}

impl fmt::Debug for Log {
    fn fmt(&self, f: &mut fmt::Formatter<'_>) -> fmt::Result {
        f.debug_list().entries(self.ops()).finish()
    }
}

impl<'a> IntoIterator for &'a Log {
    type Item = Op;
    type IntoIter = Ops<'a>;

    fn into_iter(self) -> Ops<'a> {
        self.ops()
    }
}

/// Ops of a log in causal order: see [`Log::ops`] and [`Log::ops_beyond`].
///
/// The sums of their counts do not fall. Along one replica they rise, so the
/// next op is the least of the eight replicas' next.
#[derive(Clone)]
pub struct Ops<'a> {
    log: &'a Log,
    next: [Option<Op>; Replica::COUNT],
    left: usize,
}

impl Iterator for Ops<'_> {
    type Item = Op;

    fn next(&mut self) -> Option<Op> {
        let least = self.next.iter().flatten().min_by_key(|op| op.weight());
        let op = *least?;
        let replica = op.replica();
        self.next[replica.index()] = self.log.op_after(replica, op.sequence());
        self.left -= 1;
        Some(op)
    }

    fn size_hint(&self) -> (usize, Option<usize>) {
        (self.left, Some(self.left))
    }
}

impl ExactSizeIterator for Ops<'_> {}
impl FusedIterator for Ops<'_> {}

impl fmt::Debug for Ops<'_> {
    fn fmt(&self, f: &mut fmt::Formatter<'_>) -> fmt::Result {
        f.debug_list().entries(self.clone()).finish()
    }
}
