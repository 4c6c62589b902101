//! Files that meet.

use super::{many, Command};
use crate::ask::Ask;
use crate::claim::{claim, put_all};
use crate::input;
use crate::judged::differing;
use crate::name::Shown;
use crate::report::Report;
use crate::trouble::{self, Tried, Trouble};
use outline::{Log, Refusal};
use std::ffi::OsStr;
use std::fmt::Write;

pub const MEET: Command = Command {
    name: "meet",
    operands: "FILE FILE...",
    takes: 2..=super::ANY,
    options: &[],
    does: "have all files exchange their ops, until they are alike byte for byte",
    more: "
The files exchange by bundles. If two of them hold different ops of one seat and
sequence, the command is refused with 4 and no file changes. With --plain a line for
each file says how many ops came and how many it has now.
",
    example: "seat new ann.outline
seat new bob.outline
seat add --as 1 ann.outline 0
seat add --as 2 bob.outline 0
seat meet ann.outline bob.outline",
    run: meet,
};

fn meet(ask: &Ask) -> Tried<Report> {
    let names = ask.operands();
    let stream = input::stream(&names)?;
    let claims = claim(&names)?;
    let mut logs = Vec::new();
    for (name, claim) in names.iter().zip(&claims) {
        logs.push(input::claimed(name, claim.as_ref(), &stream)?);
    }
    let before: Vec<usize> = logs.iter().map(Log::len).collect();

    // One gets from each what it lacks, and then has all.
    let mut all = Log::new();
    for (at, log) in logs.iter().enumerate() {
        all.merge(log)
            .map_err(|why| conflict(why, &names[..=at], &logs[..=at]))?;
    }
    for (log, name) in logs.iter_mut().zip(&names) {
        log.merge(&all).map_err(trouble::refused(name))?;
    }

    let mut text = String::new();
    for ((name, log), before) in names.iter().zip(&logs).zip(before) {
        let (name, came, now) = (Shown(name), log.len() - before, log.len());
        let _ = match ask.is_plain() {
            true => writeln!(text, "{came} {now}"),
            false => writeln!(text, "{name}: {} came, {now} now", many(came, "op")),
        };
    }
    let files = claims.into_iter().zip(&logs);
    let files = files.map(|(claim, log)| (claim, log.as_bytes().to_vec()));
    let streamed = put_all(files.collect())?;
    Ok(Report::changed(streamed, text))
}

/// Which files do not agree, the last one with one before it, and on which op.
fn conflict(why: Refusal, names: &[&OsStr], logs: &[Log]) -> Trouble {
    let mut of = String::from("these files");
    if let [others @ .., last] = logs {
        for (log, name) in others.iter().zip(names) {
            if let Some(id) = differing(log, last).next() {
                let (one, other) = (Shown(name), Shown(names[others.len()]));
                of = format!("{one} and {other}, op {id}");
                break;
            }
        }
    }
    Trouble::Refused { of, why }
}
