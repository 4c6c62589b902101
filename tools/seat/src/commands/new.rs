//! Making an outline.

use super::Command;
use crate::ask::{Ask, Opt};
use crate::claim::{claim, put_all};
use crate::name::Shown;
use crate::report::Report;
use crate::trouble::Tried;
use outline::Log;

const FORCE: Opt = Opt::flag("--force", "write over a file that is there, whatever it is");

pub const NEW: Command = Command {
    name: "new",
    operands: "FILE",
    takes: 1..=1,
    options: &[FORCE],
    does: "make an outline without nodes",
    more: "
A file that has bytes is written over only with --force. Seats that work on one
outline may begin each with a new file; meeting brings them together. With --plain
nothing is printed.
",
    example: "seat new news.outline",
    run: new,
};

fn new(ask: &Ask) -> Tried<Report> {
    let name = ask.operand(0);
    let claim = claim(&[name])?.pop().flatten();
    if let (Some(claim), false) = (&claim, ask.has(FORCE)) {
        claim.is_free("--force writes over it")?;
    }
    let streamed = put_all(vec![(claim, Log::new().as_bytes().to_vec())])?;
    let text = match ask.is_plain() {
        true => String::new(),
        false => format!("{}: a new outline\n", Shown(name)),
    };
    Ok(Report::changed(streamed, text))
}
