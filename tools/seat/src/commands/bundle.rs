//! Bundles: all ops that another lacks, in one piece.

use super::{many, put_out, Command, OUT};
use crate::ask::{Ask, Opt, FOR_FILE};
use crate::claim::{claim, put_all};
use crate::input;
use crate::name::Shown;
use crate::report::Report;
use crate::trouble::{self, Tried};
use outline::plain::LARGEST_BUNDLE;
use outline::Vector;

const FOR: Opt = Opt::valued(
    "--for",
    "COUNTS",
    "for one that has so many ops of each seat, as 3,1,0,0,0,0,0,0",
);

pub const BUNDLE: Command = Command {
    name: "bundle",
    operands: "FILE",
    takes: 1..=1,
    options: &[FOR, FOR_FILE, OUT],
    does: "put all ops that another seat lacks into one bundle",
    more: "
The other seat tells its counts, which `seat check --plain` prints there. Without
counts the bundle has all ops of the file. With --out and --plain the numbers of ops
and of bytes are printed.
",
    example: "seat new ann.outline
seat add --as 1 ann.outline 0
seat add --as 1 ann.outline 257
seat bundle --for 1,0,0,0,0,0,0,0 --out for-bob.bundle ann.outline",
    run: bundle,
};

fn bundle(ask: &Ask) -> Tried<Report> {
    let counts = match (ask.value(FOR), ask.value(FOR_FILE)) {
        (Some(_), Some(_)) => {
            let text = format!("{} and {} do not go together", FOR.name, FOR_FILE.name);
            return Err(trouble::usage(text));
        }
        (Some(counts), None) => Ask::counts(counts)?.into(),
        (None, Some(other)) => input::log(other)?.vector(),
        (None, None) => Vector::default(),
    };
    let log = input::log(ask.operand(0))?;
    let bundle = log.bundle_for(&counts);
    let bytes = bundle.as_bytes().to_vec();
    let Some(out) = ask.value(OUT) else {
        return Ok(Report::bytes(bytes));
    };
    let (ops, length) = (log.ops_beyond(&counts).len(), bytes.len());
    let streamed = put_out(ask, out, bytes)?;
    let text = match ask.is_plain() {
        true => format!("{ops} {length}\n"),
        false => {
            let (ops, bytes) = (many(ops, "op"), many(length, "byte"));
            format!("{}: {ops}, {bytes}\n", Shown(out))
        }
    };
    Ok(Report::changed(streamed, text))
}

pub const OPEN: Command = Command {
    name: "open",
    operands: "FILE BUNDLE",
    takes: 2..=2,
    options: &[],
    does: "take all ops of a bundle, or none if one is refused",
    more: "
Ops that the file holds already are passed by. With --plain the number of new ops is
printed.
",
    example: "seat new ann.outline
seat add --as 1 ann.outline 0
seat bundle --out all.bundle ann.outline
seat new bob.outline
seat open bob.outline all.bundle",
    run: open,
};

fn open(ask: &Ask) -> Tried<Report> {
    let (name, from) = (ask.operand(0), ask.operand(1));
    let bundle = input::read(from, LARGEST_BUNDLE)?;
    let stream = input::stream(&[name])?;
    let file = claim(&[name])?.pop().flatten();
    let mut log = input::claimed(name, file.as_ref(), &stream)?;
    let came = log.open_bundle(&bundle).map_err(trouble::refused(from))?;
    let streamed = put_all(vec![(file, log.as_bytes().to_vec())])?;
    let text = match ask.is_plain() {
        true => format!("{came}\n"),
        false => {
            let (came, now) = (many(came, "op"), log.len());
            format!("{}: {came} came, {now} now\n", Shown(name))
        }
    };
    Ok(Report::changed(streamed, text))
}
