//! Whether a file is sound, and why not.

use super::{counts, many, Command};
use crate::ask::Ask;
use crate::input;
use crate::name::Shown;
use crate::report::Report;
use crate::trouble::{Tried, Trouble};
use crate::unsound::why_not;
use outline::plain::LARGEST;
use outline::Replica;
use std::fmt::Write;

pub const CHECK: Command = Command {
    name: "check",
    operands: "FILE",
    takes: 1..=1,
    options: &[],
    does: "say whether a file holds a sound outline, or why not, its counts and its end",
    more: "
A file of no bytes is an outline without ops. With --plain it is one line: `sound`,
where the file ends, and the eight counts, which `seat bundle --for` takes.
",
    example: "seat new news.outline
seat add --as 1 news.outline 0
seat check news.outline",
    run: check,
};

fn check(ask: &Ask) -> Tried<Report> {
    let name = ask.operand(0);
    let bytes = input::read(name, LARGEST)?;
    let Ok(log) = input::log_of(name, &bytes) else {
        let (of, why) = (Shown(name).to_string(), why_not(&bytes));
        return Err(Trouble::Unsound { of, why });
    };
    let (vector, end) = (log.vector(), log.as_bytes().len());
    if ask.is_plain() {
        let counts = counts(&vector, ",");
        return Ok(Report::text(format!("sound {end} {counts}\n")));
    }
    let (name, ops) = (Shown(name), many(log.len(), "op"));
    let mut text = match bytes.is_empty() {
        true => format!("{name}: no bytes yet, which is an outline without ops\n"),
        false => format!("{name}: sound, {ops}, ends at {end}\n"),
    };
    for replica in Replica::all().filter(|&replica| vector.count(replica) > 0) {
        let ops = many(vector.count(replica).into(), "op");
        let _ = writeln!(text, "  seat {replica}: {ops}");
    }
    Ok(Report::text(text))
}
