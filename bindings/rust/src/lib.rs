//! A replicated outline: a tree of headings and articles that up to eight
//! machines change without a line between them. They hand each other their
//! operations when they meet, in any order, and end with the same bytes and the
//! same tree.
//!
//! The work is done by a verified library, which is proved to do what the format
//! says on every input; this crate is the way to it from Rust. It allocates
//! nothing and needs no `std`.
//!
//! # A first outline
//!
//! A [`Log`] holds the operations of one machine, its ops. A machine issues as
//! one [`Replica`], a number from 1 to 8 that it shares with no other. An op
//! adds, removes or moves a [`Node`]; the node that is there from the start is
//! the root.
//!
//! ```
//! use outline::{Log, Node, Refusal, Replica, View};
//!
//! let me = Replica::try_from(1)?;
//! let mut log = Log::new();
//! let politics = log.add(me, Node::ROOT)?.node();
//! let sports = log.add(me, Node::ROOT)?.node();
//! let rowing = log.add(me, politics)?.node();
//! log.move_to(me, rowing, sports)?;
//! log.remove(me, politics)?;
//!
//! let tree = log.tree();
//! assert_eq!(tree.parent(rowing), Some(sports));
//! assert!(tree.children(Node::ROOT).eq([politics, sports]));
//! assert!(tree.path(rowing).eq([rowing, sports, Node::ROOT]));
//! assert!(tree.is_removed(politics));
//!
//! // What an editor shows, and what a disk keeps.
//! let shown = log.lines(View::Skipping).map(|line| (line.depth, line.node));
//! assert!(shown.eq([(0, Node::ROOT), (1, sports), (2, rowing)]));
//! assert_eq!(Log::from_bytes(log.as_bytes())?, log);
//! # Ok::<(), Refusal>(())
//! ```
//!
//! # A column of articles
//!
//! An editor marks up to 16 articles and drags them under one heading: that is a
//! [batch](Log::move_all_to), of which all moves are issued, or none. It is whole at
//! issue only. Its moves are ops like any others, and once those of other machines
//! come, each has an outcome of its own.
//!
//! ```
//! use outline::{Log, Node, Refusal, Replica};
//!
//! let (me, mut log) = (Replica::try_from(1)?, Log::new());
//! let sports = log.add(me, Node::ROOT)?.node();
//! let rowing = log.add(me, Node::ROOT)?.node();
//! let chess = log.add(me, rowing)?.node();
//! let moves = log.move_all_to(me, &[rowing, chess], sports)?;
//! assert_eq!(moves.len(), 2);
//! assert!(log.children(sports).eq([rowing, chess]));
//! # Ok::<(), Refusal>(())
//! ```
//!
//! # Machines that meet
//!
//! Two logs in one place [`merge`](Log::merge). Over a wire, a machine sends the
//! counts of what it [holds](Log::vector), gets a [bundle](Log::bundle_for) of
//! all that it lacks, and [opens](Log::open_bundle) it: wholly, or not at all.
//! One by one, the same are the [ops beyond](Log::ops_beyond) the counts, which
//! are [delivered](Log::deliver) as they come: their order is causal, and no op
//! is refused as early. Where post brings ops in any order, the early ones
//! [wait](Log::deliver_with_holdback) in a [`Holdback`].
//!
//! ```
//! use outline::{Log, Node, Outcome, Refusal, Replica};
//!
//! let (me, you) = (Replica::try_from(1)?, Replica::try_from(2)?);
//! let (mut mine, mut yours) = (Log::new(), Log::new());
//! let a = mine.add(me, Node::ROOT)?.node();
//! let b = mine.add(me, Node::ROOT)?.node();
//! yours.merge(&mine)?;
//!
//! // Apart, each moves one node below the other: together that is a circle.
//! let lost = mine.move_to(me, b, a)?;
//! yours.move_to(you, a, b)?;
//!
//! let bundle = mine.bundle_for(&yours.vector());
//! yours.open_bundle(&bundle)?;
//! for op in yours.ops_beyond(&mine.vector()) {
//!     mine.deliver(op)?;
//! }
//! assert_eq!(mine, yours);
//! assert_eq!(mine.tree().outcome(&lost), Some(Outcome::WouldCloseCircle));
//! assert_eq!(mine.parent(a), Some(b));
//! # Ok::<(), Refusal>(())
//! ```
//!
//! # A screen that follows
//!
//! A screen that is drawn after every op keeps a [`Page`] beside the log, and has it
//! brought up to date with each op that is [delivered](Log::deliver_with_page) or
//! [issued](Log::add_with_page). The ops that sort after the new one are taken back
//! and judged again, and the call says how many these were.
//!
//! ```
//! use outline::{Log, Node, Page, Refusal, Replica};
//!
//! let (me, you) = (Replica::try_from(1)?, Replica::try_from(2)?);
//! let (mut log, mut page) = (Log::new(), Page::new());
//! let (mine, _) = log.add_with_page(me, Node::ROOT, &mut page)?;
//! let yours = Log::new().add(you, Node::ROOT)?;
//! let (_, taken_back) = log.deliver_with_page(yours, &mut page)?;
//! assert_eq!(taken_back, 1);
//! assert!(page.children(Node::ROOT).eq([mine.node(), yours.node()]));
//! assert_eq!(page, log.page());
//! # Ok::<(), Refusal>(())
//! ```
//!
//! # For those who know other replicated documents
//!
//! | Here | In Automerge or Loro |
//! |---|---|
//! | [`Log`] | the document |
//! | [`Replica`] | the actor, the peer: here a number from 1 to 8 |
//! | [`Op`] | the change |
//! | [`Node`] | the id of a node of a movable tree |
//! | [`Log::vector`] | the heads, the version vector |
//! | [`Log::as_bytes`], [`Log::from_bytes`] | save and load, export and import of a snapshot |
//! | [`Log::bundle_for`], [`Log::open_bundle`] | export and import of the updates since a version vector |
//! | [`Log::ops_beyond`] | the changes since some heads |
//! | [`Log::deliver`] | applying a change; an early op is refused and not kept |
//! | [`Log::deliver_with_holdback`] | applying a change; an early op is kept in a [`Holdback`] until what it counts has come |
//! | [`Log::deliver_with_page`], [`Log::add_with_page`] | applying or making a change, and the patch that brings a view up to date: here the view is a [`Page`] |
//! | [`Log::move_all_to`] | a transaction of moves; here it is whole at issue only |
//! | [`Log::merge`] | merging |
//!
//! # What is refused
//!
//! Calls that cannot be done answer a [`Refusal`] and have changed nothing. Its
//! numbers are those of the format's document.
//!
//! # Buffers of your own
//!
//! The module [`plain`] has the calls as C has them, on bytes that the caller
//! lends. [`Log`] and [`Tree`] are made of them.
//!
//! # Building
//!
//! The library is made by `make library`, for x86-64 Linux alone; the
//! build script says so on another machine. It looks for `liboutline_c.a` in
//! `target/staticlib` of the repository, or in the folder that the variable
//! `OUTLINE_LIB_DIR` names. The library needs `memcpy`, `memmove` and `memset`,
//! which a program without the C library has to bring.

#![no_std]
#![deny(unsafe_code)]
#![warn(missing_docs)]

mod answer;
mod batch;
mod bundle;
mod ffi;
mod holdback;
mod log;
mod node;
mod op;
mod page;
pub mod plain;
mod replica;
mod tree;
mod view;

pub use answer::{Delivery, Refusal};
pub use batch::Batch;
pub use bundle::Bundle;
pub use holdback::Holdback;
pub use log::{Log, Ops};
pub use node::Node;
pub use op::{Kind, Op};
pub use page::Page;
pub use replica::{Replica, Vector};
pub use tree::{Children, Descendants, Outcome, Path, Tree};
pub use view::{Line, Lines, Listing, View};
