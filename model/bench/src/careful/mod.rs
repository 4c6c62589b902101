//! The calls in safe Rust, written for speed with equal care: no allocation,
//! one pass for soundness that looks up changed counts alone, replay level by
//! level, a linear listing, bundles opened in one scratch copy, holdbacks searched in
//! place, pages checked by a replay that ops can be taken back from, batches issued
//! on one replay. These are the algorithms of the verified library, so that the two
//! can be compared.

mod batch;
mod bundle;
mod calls;
mod exchange;
mod holdback;
mod list;
mod log;
mod page;
mod replay;

pub use batch::issue_moves;
pub use bundle::{make_bundle, open_bundle};
pub use calls::{deliver, issue_add, issue_move, issue_remove, judge, make};
pub use exchange::exchange;
pub use holdback::deliver_holdback;
pub use list::{listing, path};
pub use page::{deliver_page, issue_add_page, issue_move_page, issue_remove_page};
pub use replay::climb_to;
