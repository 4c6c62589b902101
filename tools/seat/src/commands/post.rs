//! Ops that come by post, in any order.

use super::{many, Command};
use crate::ask::Ask;
use crate::claim::{claim, put_all};
use crate::input;
use crate::name::{self, Shown};
use crate::report::Report;
use crate::trouble::{self, Tried, Trouble};
use outline::plain::OP;
use outline::{Delivery, Holdback, Log};
use std::ffi::OsStr;
use std::fmt::Write;
use std::io::ErrorKind;

pub const POST: Command = Command {
    name: "post",
    operands: "FILE TRAY [OPS]...",
    takes: 2..=super::ANY,
    options: &[],
    does: "take ops as post brings them, with a tray in which the early ones wait",
    more: "
OPS are files as --out of the issuing commands writes them, of up to 2,040 ops. An op
that is early goes into the tray, and from there into the outline with the op that it
waited for. One that is in the outline when its turn comes, or can never be taken, is
dropped. A TRAY that is not there is made; each outline has its own. If one of the OPS
is refused, nothing changes.
Without OPS all that waits is offered once more: do so after a bundle or a meeting,
which may have brought what is waited for.
With --plain a line for each op says `accepted` with where the file ends, `had`, or
`waiting`; and the last one says how many wait, and how many were dropped.
",
    example: "seat new ann.outline
seat new bob.outline
seat add --as 1 --out 1.op ann.outline 0
seat add --as 1 --out 2.op ann.outline 257
seat post bob.outline bob.tray 2.op
seat post bob.outline bob.tray 1.op",
    run: post,
};

/// What is read of a file of ops: there are not more to be had.
const MOST: usize = OP * 2040;

fn post(ask: &Ask) -> Tried<Report> {
    let (name, tray_name) = (ask.operand(0), ask.operand(1));
    if name::is_stream(tray_name) {
        return Err(trouble::usage("a tray is a file, and not -".into()));
    }
    let offered = ask.operands().into_iter().skip(2);
    let ops = offered.map(read_ops).collect::<Tried<Vec<_>>>()?;
    let stream = input::stream(&[name])?;
    let mut claims = claim(&[name, tray_name])?.into_iter();
    let (file, tray_file) = (claims.next().flatten(), claims.next().flatten());
    let mut log = input::claimed(name, file.as_ref(), &stream)?;
    let old = tray_file.as_ref().and_then(|tray| tray.old());
    let tray = old.map_or(Ok(Holdback::new()), Holdback::from_bytes);
    let mut tray = tray.map_err(trouble::refused(tray_name))?;

    let before = log.len();
    let (answers, dropped) = match ops.is_empty() {
        true => (String::new(), offer_again(&mut log, &mut tray)),
        false => offer(&mut log, &mut tray, &ops)?,
    };
    let (name, came, waiting) = (Shown(name), log.len() - before, tray.len());
    let text = match (ask.is_plain(), dropped, many(came, "op")) {
        (true, ..) => format!("{answers}{waiting} {dropped}\n"),
        (false, 0, came) => format!("{name}: {came} came, {waiting} waiting\n"),
        (false, _, came) => {
            format!("{name}: {came} came, {waiting} waiting, {dropped} dropped\n")
        }
    };
    // The log first: what has left the tray is in the log then.
    let files = vec![
        (file, log.as_bytes().to_vec()),
        (tray_file, tray.as_bytes().to_vec()),
    ];
    Ok(Report::changed(put_all(files)?, text))
}

/// A file of ops, and its bytes.
fn read_ops(from: &OsStr) -> Tried<(&OsStr, Vec<u8>)> {
    let bytes = input::read(from, MOST)?;
    if bytes.len() > MOST {
        let text = "has more than 2,040 ops";
        return Err(trouble::found(from, ErrorKind::InvalidData, text));
    }
    Ok((from, bytes))
}

/// Offers ops as they come: what is answered to each, and how many that waited were
/// dropped.
fn offer(log: &mut Log, tray: &mut Holdback, ops: &[(&OsStr, Vec<u8>)]) -> Tried<(String, usize)> {
    let (mut answers, mut dropped) = (String::new(), 0);
    for (from, bytes) in ops {
        // No bytes are no op either, and the library says so.
        let nothing = bytes.is_empty().then_some(&bytes[..]);
        for (at, op) in nothing.into_iter().chain(bytes.chunks(OP)).enumerate() {
            let (held, waiting) = (log.len(), tray.len());
            let answer = log.deliver_with_holdback(op, tray).map_err(|why| {
                let of = format!("{}, op {}", Shown(from), at + 1);
                Trouble::Refused { of, why }
            })?;
            if let Delivery::Accepted(_) = answer {
                // Those that left the tray, but for those that came with this one.
                dropped += (waiting - tray.len()) - (log.len() - held - 1);
            }
            let _ = match answer {
                Delivery::Accepted(end) => writeln!(answers, "accepted {end}"),
                Delivery::HadIt => writeln!(answers, "had"),
                _ => writeln!(answers, "waiting"),
            };
        }
    }
    Ok((answers, dropped))
}

/// Offers all that waits once more, with a new tray, and says how many were dropped. One
/// that is refused now would have been dropped in its turn.
fn offer_again(log: &mut Log, tray: &mut Holdback) -> usize {
    let (held, waiting) = (log.len(), tray.len());
    for op in std::mem::take(tray).ops() {
        let _ = log.deliver_with_holdback(op, tray);
    }
    waiting - tray.len() - (log.len() - held)
}
