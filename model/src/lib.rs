//! A plain reference model of the replicated outline. Simple before fast:
//! every call reads the whole buffer into a [`Log`] and works on that.
//!
//! Each definition names the scope document's own term in its comment.

#![forbid(unsafe_code)]

pub mod batch;
pub mod bundle;
pub mod calls;
pub mod cases;
pub mod holdback;
pub mod log;
pub mod op;
pub mod page;
pub mod rng;
pub mod script;
pub mod tree;
pub mod view;

pub use batch::{issue_moves, MAX_BATCH};
pub use bundle::{make_bundle, open_bundle};
pub use calls::{
    deliver, file_end, held_counts, is_sound, issue_add, issue_move, issue_remove, judge, make,
};
pub use holdback::{deliver_holdback, HOLDBACK_LEN, HOLDBACK_PLACES};
pub use log::{Knowledge, Log, HEADER_LEN, MAX_FILE};
pub use op::{Kind, Op, Vector, MAX_SEQUENCE, OP_LEN, REPLICAS};
pub use page::{
    deliver_page, issue_add_page, issue_move_page, issue_remove_page, Page, Tables, ORDER_LEN,
};
pub use tree::{slot_of, Climb, Tree, NO_PARENT, SLOTS};
pub use view::{listing, listing_size, outline, path, View};

/// What a call hands back ("Numbers handed back").
#[derive(Clone, Copy, PartialEq, Eq, Debug)]
pub enum Answer {
    /// Accepted, with the new file end.
    Accepted(usize),
    /// The same op was there already; nothing changed.
    HadIt,
    /// The op is early, and waits in the holdback.
    Waiting,
    /// Judging is done.
    Done,
    /// Entries of a path, bytes of a listing, of a file or of a bundle, or how
    /// many counts.
    Count(usize),
    /// Refused with this number; nothing changed.
    Refused(u8),
}

/// The numbers of the refusals, by their cause.
pub mod refusal {
    pub const UNSOUND: u8 = 1;
    pub const LENGTH: u8 = 2;
    pub const FORM: u8 = 3;
    pub const CONFLICT: u8 = 4;
    pub const EARLY: u8 = 5;
    pub const NOT_CLOSED: u8 = 6;
    pub const UNKNOWN: u8 = 7;
    pub const ROOM: u8 = 8;
    pub const REPLICA_FULL: u8 = 9;
    pub const BELOW_ITSELF: u8 = 10;
    pub const MARKED: u8 = 11;
    pub const BUNDLE: u8 = 12;
    pub const HOLDBACK_FULL: u8 = 13;
    pub const BAD_HOLDBACK: u8 = 14;
}
