//! The calls as C has them: on a buffer that the caller lends, with plain
//! numbers. [`Log`](crate::Log) stands above them.
//!
//! A log lies at the front of a buffer, which may be longer. Every call takes
//! any bytes and any numbers, and checks the log anew. A refused call changes
//! nothing, and what is lent beyond the written part keeps its content.
//!
//! ```
//! use outline::{plain, Delivery, Refusal, View};
//!
//! // Replica 1 makes two nodes under the root.
//! let mut one = [0; plain::LARGEST];
//! plain::make(&mut one)?;
//! let mut ops = [[0; plain::OP]; 2];
//! for op in &mut ops {
//!     plain::issue_add(&mut one, 1, plain::ROOT, op)?;
//! }
//!
//! // Replica 2 gets them; the second counts the first, so it is early alone.
//! let mut two = [0; plain::LARGEST];
//! plain::make(&mut two)?;
//! assert_eq!(plain::deliver(&mut two, &ops[1]), Err(Refusal::Early));
//! assert_eq!(plain::deliver(&mut two, &ops[0]), Ok(Delivery::Accepted(46)));
//! assert_eq!(plain::deliver(&mut two, &ops[1]), Ok(Delivery::Accepted(60)));
//! assert_eq!(plain::deliver(&mut two, &ops[1]), Ok(Delivery::HadIt));
//! assert_eq!(one, two);
//!
//! // It moves node 258 below node 257 and lists the tree.
//! let mut op = [0; plain::OP];
//! plain::issue_move(&mut two, 2, 258, 257, &mut op)?;
//! let mut text = [0; plain::LONGEST_LISTING];
//! let length = plain::listing(&two, View::Keeping, &mut text)?;
//! assert_eq!(&text[..length], b"0 0 k\n1 257 k\n2 258 k\n");
//! # Ok::<(), Refusal>(())
//! ```

use crate::answer::Answer;
use crate::{ffi, Batch, Delivery, Node, Op, Refusal, Replica, View};

/// Bytes of an empty log.
pub const HEADER: usize = 32;
/// Bytes of an op.
pub const OP: usize = Op::LENGTH;
/// Moves of the longest batch.
pub const MOST_MOVES: usize = Batch::MOST;
/// Entries of a table of parents or outcomes.
pub const TABLE: usize = 2041;
/// Entries of the order of a page.
pub const ORDER: usize = 2040;
/// Bytes of the largest log: a buffer of this size never lacks room.
pub const LARGEST: usize = 28_592;
/// Entries of the longest path.
pub const LONGEST_PATH: usize = 2041;
/// Bytes that are enough for every listing.
pub const LONGEST_LISTING: usize = 24_492;
/// Bytes of the largest bundle.
pub const LARGEST_BUNDLE: usize = 28_569;
/// Bytes of a holdback; an empty one is as many zeros.
pub const HOLDBACK: usize = 449;
/// The root of the tree.
pub const ROOT: u16 = 0;
/// The parent entry of a slot without a node, in a table of [`judge`] or a page.
pub const NO_PARENT: u16 = 65_535;

/// The node that a replica's op of this sequence adds; none for a replica that
/// is not 1 to 8, and for sequence 0.
///
/// ```
/// use outline::plain;
/// assert_eq!(plain::node(1, 2), Some(258));
/// assert_eq!(plain::node(1, 0), None);
/// assert_eq!(plain::node(9, 2), None);
/// ```
pub fn node(replica: u8, sequence: u8) -> Option<u16> {
    Node::new(Replica::new(replica)?, sequence).map(Node::number)
}

/// Where a node stands in the tables of [`judge`] and of a page; the op that adds
/// it stands in the same place. None for a number that is neither 0 nor a node's.
///
/// ```
/// use outline::plain;
/// assert_eq!(plain::slot(plain::ROOT), Some(0));
/// assert_eq!(plain::slot(258), Some(2));
/// assert_eq!(plain::slot(513), Some(256));
/// assert_eq!(plain::slot(512), None);
/// assert_eq!(plain::slot(plain::NO_PARENT), None);
/// ```
pub fn slot(node: u16) -> Option<usize> {
    Node::from_number(node).map(Node::slot)
}

/// Makes an empty log at the front of a buffer, whatever it holds, and answers
/// where the log ends: 32.
///
/// # Errors
///
/// [`NoRoom`](Refusal::NoRoom) if the buffer is shorter than 32 bytes.
///
/// ```
/// use outline::{plain, Refusal};
/// assert_eq!(plain::make(&mut [9; 40]), Ok(32));
/// assert_eq!(plain::make(&mut [9; 31]), Err(Refusal::NoRoom));
/// ```
#[inline]
pub fn make(buf: &mut [u8]) -> Result<usize, Refusal> {
    ffi::make(buf).value()
}

/// Whether bytes have a sound log at their front.
///
/// ```
/// use outline::plain;
/// let mut buf = [9; 40];
/// assert!(!plain::is_sound(&buf));
/// plain::make(&mut buf)?;
/// assert!(plain::is_sound(&buf));
/// # Ok::<(), outline::Refusal>(())
/// ```
#[inline]
pub fn is_sound(file: &[u8]) -> bool {
    ffi::is_sound(file)
}

/// Where the log at the front of a buffer ends: the bytes of its file.
///
/// # Errors
///
/// [`Unsound`](Refusal::Unsound).
///
/// ```
/// use outline::{plain, Refusal};
/// let mut buf = [9; 100];
/// assert_eq!(plain::end(&buf), Err(Refusal::Unsound));
/// plain::make(&mut buf)?;
/// plain::issue_add(&mut buf, 1, plain::ROOT, &mut [0; plain::OP])?;
/// assert_eq!(plain::end(&buf), Ok(46));
/// # Ok::<(), Refusal>(())
/// ```
#[inline]
pub fn end(file: &[u8]) -> Result<usize, Refusal> {
    ffi::end(file).value()
}

/// How many ops of each replica a log holds.
///
/// # Errors
///
/// [`Unsound`](Refusal::Unsound).
///
/// ```
/// use outline::{plain, Refusal};
/// let mut buf = [9; 100];
/// assert_eq!(plain::counts(&buf), Err(Refusal::Unsound));
/// plain::make(&mut buf)?;
/// plain::issue_add(&mut buf, 2, plain::ROOT, &mut [0; plain::OP])?;
/// assert_eq!(plain::counts(&buf), Ok([0, 1, 0, 0, 0, 0, 0, 0]));
/// # Ok::<(), Refusal>(())
/// ```
#[inline]
pub fn counts(file: &[u8]) -> Result<[u8; Replica::COUNT], Refusal> {
    let mut counts = [0; Replica::COUNT];
    ffi::counts(file, &mut counts).value()?;
    Ok(counts)
}

/// Delivers an op, which another replica issued, to the log in a buffer. It never
/// answers [`Delivery::Waiting`]; [`holdback_deliver`] does.
///
/// # Errors
///
/// The first that applies, in this order: [`Unsound`](Refusal::Unsound),
/// [`Length`](Refusal::Length), [`Malformed`](Refusal::Malformed),
/// [`Conflict`](Refusal::Conflict) (where the same op is held,
/// [`Delivery::HadIt`] is answered here), [`Early`](Refusal::Early),
/// [`NotClosed`](Refusal::NotClosed), [`Unknown`](Refusal::Unknown),
/// [`NoRoom`](Refusal::NoRoom).
///
/// ```
/// use outline::{plain, Delivery, Refusal};
/// let mut buf = [0; 60];
/// plain::make(&mut buf)?;
/// let add = [1, 1, 1, 1, 0, 0, 0, 0, 0, 0, 0, 0, 0, 0];
/// assert_eq!(plain::deliver(&mut buf, &add), Ok(Delivery::Accepted(46)));
/// assert_eq!(plain::deliver(&mut buf, &add), Ok(Delivery::HadIt));
/// assert_eq!(plain::deliver(&mut buf, &add[1..]), Err(Refusal::Length));
/// # Ok::<(), Refusal>(())
/// ```
#[inline]
pub fn deliver(buf: &mut [u8], op: &[u8]) -> Result<Delivery, Refusal> {
    ffi::deliver(buf, op).delivery()
}

/// Delivers an op with a holdback, in which early ops wait until what they count
/// has come. An op that is accepted brings with it those that can then be taken
/// from there, and the answer is where the log ends with them.
///
/// A holdback is 449 bytes: how many ops wait, then 32 places of 14 bytes in
/// order of arrival, with zeros where none waits. It is as little trusted as the
/// buffer. After an acceptance it is searched from the front, and again from the
/// front as soon as one of its ops is accepted. An op met there that is held
/// already, or refused for another reason than [`Early`](Refusal::Early) or
/// [`NoRoom`](Refusal::NoRoom), is dropped, and those behind it move up. Each op
/// that is left would be refused for one of these two.
///
/// # Errors
///
/// The first that applies, in this order: [`Unsound`](Refusal::Unsound),
/// [`BadHoldback`](Refusal::BadHoldback), [`Length`](Refusal::Length),
/// [`Malformed`](Refusal::Malformed), [`Conflict`](Refusal::Conflict) (where the
/// same op is held, [`Delivery::HadIt`] is answered here),
/// [`HoldbackFull`](Refusal::HoldbackFull) (where an early op waits already, or
/// finds a place, [`Delivery::Waiting`] is answered here),
/// [`NotClosed`](Refusal::NotClosed), [`Unknown`](Refusal::Unknown),
/// [`NoRoom`](Refusal::NoRoom). Neither buffer nor holdback has changed then.
///
/// ```
/// use outline::{plain, Delivery, Refusal};
/// let (mut one, mut two) = ([0; 60], [0; 60]);
/// plain::make(&mut one)?;
/// plain::make(&mut two)?;
/// let mut ops = [[0; plain::OP]; 2];
/// for op in &mut ops {
///     plain::issue_add(&mut one, 1, plain::ROOT, op)?;
/// }
///
/// // The second comes first, and waits.
/// let mut holdback = [0; plain::HOLDBACK];
/// let answer = plain::holdback_deliver(&mut two, &ops[1], &mut holdback);
/// assert_eq!(answer, Ok(Delivery::Waiting));
/// assert_eq!(holdback[0], 1);
/// assert_eq!(holdback[1..15], ops[1]);
///
/// // The first brings both.
/// let answer = plain::holdback_deliver(&mut two, &ops[0], &mut holdback);
/// assert_eq!(answer, Ok(Delivery::Accepted(60)));
/// assert_eq!(holdback, [0; plain::HOLDBACK]);
/// assert_eq!(one, two);
///
/// let answer = plain::holdback_deliver(&mut two, &ops[0], &mut []);
/// assert_eq!(answer, Err(Refusal::BadHoldback));
/// # Ok::<(), Refusal>(())
/// ```
#[inline]
pub fn holdback_deliver(
    buf: &mut [u8],
    op: &[u8],
    holdback: &mut [u8],
) -> Result<Delivery, Refusal> {
    ffi::holdback_deliver(buf, op, holdback).delivery()
}

/// Makes a bundle of all ops of a log beyond another's counts, for the log that
/// told them, and answers how many bytes that are.
///
/// A replica of which the other holds as many ops, or more, contributes nothing.
///
/// # Errors
///
/// [`Unsound`](Refusal::Unsound), then [`NoRoom`](Refusal::NoRoom).
///
/// ```
/// use outline::{plain, Refusal};
/// let mut buf = [0; 60];
/// let mut op = [0; plain::OP];
/// plain::make(&mut buf)?;
/// plain::issue_add(&mut buf, 1, plain::ROOT, &mut op)?;
/// plain::issue_add(&mut buf, 1, plain::ROOT, &mut op)?;
/// let mut bundle = [9; 20];
/// let other = [1, 0, 0, 0, 0, 0, 0, 0];
/// assert_eq!(plain::bundle_make(&buf, &other, &mut bundle), Ok(16));
/// assert_eq!(bundle[..2], [0b1, 1]);
/// assert_eq!(bundle[2..16], op);
/// assert_eq!(plain::bundle_make(&buf, &[0; 8], &mut bundle), Err(Refusal::NoRoom));
/// # Ok::<(), Refusal>(())
/// ```
#[inline]
pub fn bundle_make(
    file: &[u8],
    counts: &[u8; Replica::COUNT],
    out: &mut [u8],
) -> Result<usize, Refusal> {
    ffi::bundle_make(file, counts, out).value()
}

/// Opens a bundle at the log in a buffer: delivers its ops in turn, and answers
/// where the log ends with them. Ops that are held already are passed by.
///
/// # Errors
///
/// [`Unsound`](Refusal::Unsound), then [`BadBundle`](Refusal::BadBundle), then
/// what [`deliver`] answers for the first op that is refused. No byte of the
/// buffer has changed then.
///
/// ```
/// use outline::{plain, Refusal};
/// let (mut one, mut two) = ([0; 60], [0; 60]);
/// plain::make(&mut one)?;
/// plain::make(&mut two)?;
/// plain::issue_add(&mut one, 1, plain::ROOT, &mut [0; plain::OP])?;
/// plain::issue_add(&mut one, 1, plain::ROOT, &mut [0; plain::OP])?;
/// let mut bundle = [0; plain::LARGEST_BUNDLE];
/// let length = plain::bundle_make(&one, &plain::counts(&two)?, &mut bundle)?;
/// assert_eq!(plain::bundle_open(&mut two, &bundle[..length]), Ok(60));
/// assert_eq!(one, two);
/// assert_eq!(plain::bundle_open(&mut two, &[]), Err(Refusal::BadBundle));
/// # Ok::<(), Refusal>(())
/// ```
#[inline]
pub fn bundle_open(buf: &mut [u8], bundle: &[u8]) -> Result<usize, Refusal> {
    ffi::bundle_open(buf, bundle).value()
}

/// Issues an add of a new node under a parent, the root or a node of the log.
///
/// Answers where the log ends with the new op; the first 14 bytes of `out` are
/// that op, to be handed to others.
///
/// # Errors
///
/// The first that applies, in this order: [`Unsound`](Refusal::Unsound),
/// [`Length`](Refusal::Length), [`Malformed`](Refusal::Malformed),
/// [`Exhausted`](Refusal::Exhausted), [`Unknown`](Refusal::Unknown),
/// [`Marked`](Refusal::Marked) if the parent is removed,
/// [`NoRoom`](Refusal::NoRoom).
///
/// ```
/// use outline::{plain, Refusal};
/// let mut buf = [0; 60];
/// let mut op = [0; plain::OP];
/// plain::make(&mut buf)?;
/// assert_eq!(plain::issue_add(&mut buf, 1, plain::ROOT, &mut op), Ok(46));
/// assert_eq!(op, [1, 1, 1, 1, 0, 0, 0, 0, 0, 0, 0, 0, 0, 0]);
/// assert_eq!(plain::issue_add(&mut buf, 9, plain::ROOT, &mut op), Err(Refusal::Malformed));
/// assert_eq!(plain::issue_add(&mut buf, 1, 999, &mut op), Err(Refusal::Unknown));
/// # Ok::<(), Refusal>(())
/// ```
#[inline]
pub fn issue_add(
    buf: &mut [u8],
    replica: u8,
    parent: u16,
    out: &mut [u8],
) -> Result<usize, Refusal> {
    ffi::issue_add(buf, replica, parent, out).value()
}

/// Issues a remove of a node of the log, which is then marked as removed.
/// Answers and leaves behind the same as [`issue_add`].
///
/// # Errors
///
/// The same as [`issue_add`] but for [`Marked`](Refusal::Marked): a removed node
/// may be removed again.
///
/// ```
/// use outline::{plain, Refusal, View};
/// let mut buf = [0; 60];
/// let mut op = [0; plain::OP];
/// plain::make(&mut buf)?;
/// plain::issue_add(&mut buf, 1, plain::ROOT, &mut op)?;
/// assert_eq!(plain::issue_remove(&mut buf, 2, 257, &mut op), Ok(60));
/// let mut text = [0; 100];
/// let length = plain::listing(&buf, View::Keeping, &mut text)?;
/// assert_eq!(&text[..length], b"0 0 k\n");
/// assert_eq!(plain::issue_add(&mut buf, 2, 257, &mut op), Err(Refusal::Marked));
/// # Ok::<(), Refusal>(())
/// ```
#[inline]
pub fn issue_remove(
    buf: &mut [u8],
    replica: u8,
    node: u16,
    out: &mut [u8],
) -> Result<usize, Refusal> {
    ffi::issue_remove(buf, replica, node, out).value()
}

/// Issues a move of a node, with all below it, under a new parent. Answers and
/// leaves behind the same as [`issue_add`].
///
/// # Errors
///
/// The same as [`issue_add`]; [`Unknown`](Refusal::Unknown) also if the parent
/// is the node, and after it [`Marked`](Refusal::Marked) if the node or the
/// parent is removed, and [`Cycle`](Refusal::Cycle) if the parent lies below the
/// node.
///
/// ```
/// use outline::{plain, Refusal};
/// let mut buf = [0; 100];
/// let mut op = [0; plain::OP];
/// plain::make(&mut buf)?;
/// plain::issue_add(&mut buf, 1, plain::ROOT, &mut op)?;
/// plain::issue_add(&mut buf, 1, 257, &mut op)?;
/// assert_eq!(plain::issue_move(&mut buf, 1, 257, 258, &mut op), Err(Refusal::Cycle));
/// assert_eq!(plain::issue_move(&mut buf, 1, 258, plain::ROOT, &mut op), Ok(74));
/// # Ok::<(), Refusal>(())
/// ```
#[inline]
pub fn issue_move(
    buf: &mut [u8],
    replica: u8,
    node: u16,
    parent: u16,
    out: &mut [u8],
) -> Result<usize, Refusal> {
    ffi::issue_move(buf, replica, node, parent, out).value()
}

/// Issues a batch: moves of up to 16 nodes under one parent, one after another in
/// the order of the list. Each is tested in the log and the tree that those before
/// it left. If one is refused, none is issued.
///
/// Answers where the log ends with the new ops; the first 14 bytes of `out` for
/// each node are these ops, in the order of the list. A node may stand in the list
/// twice. Without nodes nothing is written.
///
/// The batch is whole at issue only. From then on each move is an op by itself,
/// with an outcome of its own: once moves of other replicas have come, some moves
/// of a batch may be applied and others not.
///
/// # Errors
///
/// The first that applies, in this order: [`Unsound`](Refusal::Unsound),
/// [`Length`](Refusal::Length) if there are more than 16 nodes, or `out` is shorter
/// than 14 bytes for each, [`Malformed`](Refusal::Malformed), and then what
/// [`issue_move`] answers for the first move that is refused. Neither buffer nor
/// `out` has changed then. Without nodes only the first three are tested.
///
/// ```
/// use outline::{plain, Refusal};
/// let mut buf = [0; 200];
/// plain::make(&mut buf)?;
/// for parent in [plain::ROOT, 257, 258, plain::ROOT] {
///     plain::issue_add(&mut buf, 1, parent, &mut [0; plain::OP])?;
/// }
/// let mut ops = [0; 2 * plain::OP];
///
/// // Node 257 lies above 258, so that node 260 is not moved either.
/// let answer = plain::issue_moves(&mut buf, 1, &[260, 257], 258, &mut ops);
/// assert_eq!((answer, ops), (Err(Refusal::Cycle), [0; 28]));
///
/// let answer = plain::issue_moves(&mut buf, 1, &[260, 258], 257, &mut ops);
/// assert_eq!(answer, Ok(32 + 6 * plain::OP));
/// assert_eq!(buf[88..116], ops);
/// # Ok::<(), Refusal>(())
/// ```
#[inline]
pub fn issue_moves(
    buf: &mut [u8],
    replica: u8,
    nodes: &[u16],
    parent: u16,
    out: &mut [u8],
) -> Result<usize, Refusal> {
    ffi::issue_moves(buf, replica, nodes, parent, out).value()
}

/// Judges a log: replays its ops into two tables, by [`slot`].
///
/// Both tables need 2,041 entries. A parent is [`NO_PARENT`] where the slot has
/// no node. An outcome is 0 where the slot has no op, and else the number of an
/// [`Outcome`](crate::Outcome).
///
/// # Errors
///
/// [`Unsound`](Refusal::Unsound), then [`Length`](Refusal::Length).
///
/// ```
/// use outline::{plain, Outcome, Refusal};
/// let mut buf = [0; 60];
/// let mut op = [0; plain::OP];
/// plain::make(&mut buf)?;
/// plain::issue_add(&mut buf, 1, plain::ROOT, &mut op)?;
/// let mut parents = [0; plain::TABLE];
/// let mut outcomes = [0; plain::TABLE];
/// plain::judge(&buf, &mut parents, &mut outcomes)?;
/// let [held, free] = [257, 258].map(|node| plain::slot(node).unwrap());
/// assert_eq!(parents[held], plain::ROOT);
/// assert_eq!(parents[free], plain::NO_PARENT);
/// assert_eq!(Outcome::from_number(outcomes[held]), Some(Outcome::Applied));
/// assert_eq!(Outcome::from_number(outcomes[free]), None);
/// # Ok::<(), Refusal>(())
/// ```
#[inline]
pub fn judge(file: &[u8], parents: &mut [u16], outcomes: &mut [u8]) -> Result<(), Refusal> {
    ffi::judge(file, parents, outcomes).done()
}

/// The tables of a page: what judging a log says, kept beside it. They are lent to
/// [`page_deliver`] and the issues with a page, which bring them up to date.
///
/// At first they may hold anything, such as zeros. Then lend to each call with a
/// page at this log what the last one left. A page that is not true, since
/// another call has changed the log, is built anew by the next one that accepts.
/// Entries past those of a page are not looked at and keep their content.
pub struct Tables<'a> {
    /// The slots of the held ops in the order in which they are judged, then
    /// zeros: [`ORDER`] entries.
    pub order: &'a mut [u16],
    /// As [`judge`] fills them: [`TABLE`] entries.
    pub parents: &'a mut [u16],
    /// As [`judge`] fills them: [`TABLE`] entries.
    pub outcomes: &'a mut [u8],
}

/// Delivers an op as [`deliver`] does, and keeps a page of the log. Answers how
/// many ops were taken back besides.
///
/// An op that is judged last is judged alone, and none is taken back. For any
/// other, those that are judged after it are taken back, it is judged, and they
/// are judged again. If the page was not what judging the log says before the
/// call, it is built anew first, and all ops that were held count as taken back.
/// With [`Delivery::HadIt`] the page is unchanged, and none is taken back.
///
/// # Errors
///
/// The same as [`deliver`]; [`Length`](Refusal::Length) also if a table of the page
/// is too short. Neither buffer nor page has changed then, also not a page that is
/// not true.
///
/// ```
/// use outline::{plain, Delivery, Refusal};
/// let (mut order, mut parents) = ([0; plain::ORDER], [0; plain::TABLE]);
/// let mut outcomes = [0; plain::TABLE];
/// let mut page = plain::Tables {
///     order: &mut order,
///     parents: &mut parents,
///     outcomes: &mut outcomes,
/// };
/// let mut buf = [0; 100];
/// plain::make(&mut buf)?;
///
/// // Replicas 1 and 2 add a node each, without having met. That of replica 2 is
/// // judged first, but comes late.
/// let one = [1, 1, 1, 1, 0, 0, 0, 0, 0, 0, 0, 0, 0, 0];
/// let two = [1, 2, 2, 1, 0, 0, 0, 0, 0, 0, 0, 0, 0, 0];
/// let answer = plain::page_deliver(&mut buf, &one, &mut page);
/// assert_eq!(answer, Ok((Delivery::Accepted(46), 0)));
/// let answer = plain::page_deliver(&mut buf, &two, &mut page);
/// assert_eq!(answer, Ok((Delivery::Accepted(60), 1)));
/// let answer = plain::page_deliver(&mut buf, &two, &mut page);
/// assert_eq!(answer, Ok((Delivery::HadIt, 0)));
///
/// let slots = [513, 257].map(|node| plain::slot(node).unwrap() as u16);
/// assert_eq!(page.order[..3], [slots[0], slots[1], 0]);
///
/// page.order = &mut [];
/// let answer = plain::page_deliver(&mut buf, &two, &mut page);
/// assert_eq!(answer, Err(Refusal::Length));
/// # Ok::<(), Refusal>(())
/// ```
#[inline]
pub fn page_deliver(
    buf: &mut [u8],
    op: &[u8],
    page: &mut Tables<'_>,
) -> Result<(Delivery, usize), Refusal> {
    let (answer, taken_back) = ffi::page_deliver(buf, op, page).with_page();
    Ok((answer.delivery()?, taken_back))
}

/// Issues an add as [`issue_add`] does, and keeps a page of the log. Answers where
/// the log ends, and how many ops were taken back.
///
/// A new op is judged last, so these are none, unless the page was not what
/// judging the log says: then they are all ops that were held.
///
/// # Errors
///
/// The same as [`issue_add`]; [`Length`](Refusal::Length) also if a table of the
/// page is too short. Buffer, `out` and page have not changed then.
///
/// ```
/// use outline::{plain, Refusal};
/// let (mut order, mut parents) = ([0; plain::ORDER], [0; plain::TABLE]);
/// let mut outcomes = [0; plain::TABLE];
/// let mut page = plain::Tables {
///     order: &mut order,
///     parents: &mut parents,
///     outcomes: &mut outcomes,
/// };
/// let mut buf = [0; 100];
/// let mut op = [0; plain::OP];
/// plain::make(&mut buf)?;
/// plain::issue_add(&mut buf, 1, plain::ROOT, &mut op)?;
///
/// // The page does not have the first node, so it is built anew.
/// let answer = plain::page_issue_add(&mut buf, 1, 257, &mut op, &mut page);
/// assert_eq!(answer, Ok((60, 1)));
/// let answer = plain::page_issue_add(&mut buf, 1, 258, &mut op, &mut page);
/// assert_eq!(answer, Ok((74, 0)));
/// assert_eq!(page.order[..4], [1, 2, 3, 0]);
/// assert_eq!(page.parents[1..4], [plain::ROOT, 257, 258]);
/// # Ok::<(), Refusal>(())
/// ```
#[inline]
pub fn page_issue_add(
    buf: &mut [u8],
    replica: u8,
    parent: u16,
    out: &mut [u8],
    page: &mut Tables<'_>,
) -> Result<(usize, usize), Refusal> {
    end_and_taken(ffi::page_issue_add(buf, replica, parent, out, page))
}

/// Issues a remove as [`issue_remove`] does, and keeps a page of the log. Answers
/// and leaves behind the same as [`page_issue_add`].
///
/// # Errors
///
/// The same as [`page_issue_add`] but for [`Marked`](Refusal::Marked).
///
/// ```
/// use outline::{plain, Outcome, Refusal};
/// let mut buf = [0; 60];
/// let mut op = [0; plain::OP];
/// plain::make(&mut buf)?;
/// plain::issue_add(&mut buf, 1, plain::ROOT, &mut op)?;
/// let mut page = plain::Tables {
///     order: &mut [0; plain::ORDER],
///     parents: &mut [0; plain::TABLE],
///     outcomes: &mut [0; plain::TABLE],
/// };
/// let answer = plain::page_issue_remove(&mut buf, 1, 257, &mut op, &mut page);
/// assert_eq!(answer, Ok((60, 1)));
/// assert_eq!(Outcome::from_number(page.outcomes[2]), Some(Outcome::Applied));
/// # Ok::<(), Refusal>(())
/// ```
#[inline]
pub fn page_issue_remove(
    buf: &mut [u8],
    replica: u8,
    node: u16,
    out: &mut [u8],
    page: &mut Tables<'_>,
) -> Result<(usize, usize), Refusal> {
    end_and_taken(ffi::page_issue_remove(buf, replica, node, out, page))
}

/// Issues a move as [`issue_move`] does, and keeps a page of the log. Answers and
/// leaves behind the same as [`page_issue_add`].
///
/// # Errors
///
/// The same as [`issue_move`]; [`Length`](Refusal::Length) also if a table of the
/// page is too short. Buffer, `out` and page have not changed then.
///
/// ```
/// use outline::{plain, Refusal};
/// let mut buf = [0; 100];
/// let mut op = [0; plain::OP];
/// plain::make(&mut buf)?;
/// plain::issue_add(&mut buf, 1, plain::ROOT, &mut op)?;
/// plain::issue_add(&mut buf, 1, 257, &mut op)?;
/// let mut page = plain::Tables {
///     order: &mut [0; plain::ORDER],
///     parents: &mut [0; plain::TABLE],
///     outcomes: &mut [0; plain::TABLE],
/// };
/// let answer = plain::page_issue_move(&mut buf, 1, 257, 258, &mut op, &mut page);
/// assert_eq!(answer, Err(Refusal::Cycle));
/// let answer = plain::page_issue_move(&mut buf, 1, 258, plain::ROOT, &mut op, &mut page);
/// assert_eq!(answer, Ok((74, 2)));
/// assert_eq!(page.parents[2], plain::ROOT);
/// # Ok::<(), Refusal>(())
/// ```
#[inline]
pub fn page_issue_move(
    buf: &mut [u8],
    replica: u8,
    node: u16,
    parent: u16,
    out: &mut [u8],
    page: &mut Tables<'_>,
) -> Result<(usize, usize), Refusal> {
    end_and_taken(ffi::page_issue_move(buf, replica, node, parent, out, page))
}

/// Of an issue with a page.
fn end_and_taken(answer: Answer) -> Result<(usize, usize), Refusal> {
    let (answer, taken_back) = answer.with_page();
    Ok((answer.value()?, taken_back))
}

/// Puts the path of a node into `out`: its number, its parent's, and so on to
/// the root. Answers how many entries that are.
///
/// # Errors
///
/// [`Unsound`](Refusal::Unsound), then [`Unknown`](Refusal::Unknown) for a
/// number that is neither 0 nor a node of the log, then
/// [`NoRoom`](Refusal::NoRoom).
///
/// ```
/// use outline::{plain, Refusal};
/// let mut buf = [0; 60];
/// let mut op = [0; plain::OP];
/// plain::make(&mut buf)?;
/// plain::issue_add(&mut buf, 1, plain::ROOT, &mut op)?;
/// plain::issue_add(&mut buf, 1, 257, &mut op)?;
/// let mut path = [9; 4];
/// assert_eq!(plain::path(&buf, 258, &mut path), Ok(3));
/// assert_eq!(path, [258, 257, 0, 9]);
/// assert_eq!(plain::path(&buf, 258, &mut path[..2]), Err(Refusal::NoRoom));
/// assert_eq!(plain::path(&buf, 259, &mut path), Err(Refusal::Unknown));
/// # Ok::<(), Refusal>(())
/// ```
#[inline]
pub fn path(file: &[u8], node: u16, out: &mut [u16]) -> Result<usize, Refusal> {
    ffi::path(file, node, out).value()
}

/// How many bytes the listing of a view has, for who lends just as many.
///
/// ```
/// use outline::{plain, View};
/// let mut buf = [0; 40];
/// plain::make(&mut buf)?;
/// assert_eq!(plain::listing_size(&buf, View::Keeping), Ok(6));
/// # Ok::<(), outline::Refusal>(())
/// ```
///
/// # Errors
///
/// [`Refusal::Unsound`].
pub fn listing_size(file: &[u8], view: View) -> Result<usize, Refusal> {
    ffi::listing_size(file, view == View::Skipping).value()
}

/// Puts the listing of a view into `out`, and answers how many bytes that are.
///
/// A line is a node's depth, a space, its number, a space, `k` or `r`
/// (removed), and a line feed. Children follow their parent in rising number.
///
/// # Errors
///
/// [`Unsound`](Refusal::Unsound), then [`NoRoom`](Refusal::NoRoom).
///
/// ```
/// use outline::{plain, Refusal, View};
/// let mut buf = [0; 100];
/// let mut op = [0; plain::OP];
/// plain::make(&mut buf)?;
/// plain::issue_add(&mut buf, 1, plain::ROOT, &mut op)?;
/// plain::issue_add(&mut buf, 1, 257, &mut op)?;
/// plain::issue_remove(&mut buf, 1, 257, &mut op)?;
/// let mut text = [0; 100];
/// let length = plain::listing(&buf, View::Keeping, &mut text)?;
/// assert_eq!(&text[..length], b"0 0 k\n1 257 r\n2 258 k\n");
/// let length = plain::listing(&buf, View::Skipping, &mut text)?;
/// assert_eq!(&text[..length], b"0 0 k\n");
/// # Ok::<(), Refusal>(())
/// ```
#[inline]
pub fn listing(file: &[u8], view: View, out: &mut [u8]) -> Result<usize, Refusal> {
    ffi::listing(file, view == View::Skipping, out).value()
}
