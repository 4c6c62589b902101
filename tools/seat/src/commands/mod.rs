//! The commands.

mod bundle;
mod check;
mod compare;
mod draw;
mod issue;
mod look;
mod meet;
mod new;
mod post;

use crate::ask::{Ask, Opt, HELP, PLAIN};
use crate::claim::{are_one, claim, put_all, twice};
use crate::name::{is_stream, Shown};
use crate::report::Report;
use crate::trouble::{self, Tried, Trouble};
use outline::{Replica, Vector};
use std::ffi::{OsStr, OsString};
use std::fmt::Write;
use std::ops::RangeInclusive;

/// A command: how it is asked, what its help says, and what it does.
pub struct Command {
    name: &'static str,
    operands: &'static str,
    /// How many operands.
    takes: RangeInclusive<usize>,
    options: &'static [Opt],
    /// In one line.
    does: &'static str,
    /// What else there is to know.
    more: &'static str,
    /// Commands that work one after another, from an empty folder on.
    example: &'static str,
    run: fn(&Ask) -> Tried<Report>,
}

/// As many operands as one likes.
const ANY: usize = usize::MAX;

const COMMANDS: &[&Command] = &[
    &new::NEW,
    &issue::ADD,
    &issue::REMOVE,
    &issue::MOVE,
    &issue::COLUMN,
    &look::LIST,
    &look::PATH,
    &look::OPS,
    &check::CHECK,
    &meet::MEET,
    &bundle::BUNDLE,
    &bundle::OPEN,
    &post::POST,
    &compare::COMPARE,
    &draw::DRAW,
];

/// Where a command puts what it makes.
const OUT: Opt = Opt::valued(
    "--out",
    "OUT",
    "put it into this new file, and not on standard output",
);
/// What to do about a file that is there.
const ANOTHER: &str = "take another name, or remove it first";

/// Puts what was made of a file into a new one.
fn put_out(ask: &Ask, out: &OsStr, bytes: Vec<u8>) -> Tried<bool> {
    if !is_stream(out) && ask.operands().iter().any(|file| are_one(file, out)) {
        return Err(twice(out));
    }
    let claim = claim(&[out])?.pop().flatten();
    if let Some(claim) = &claim {
        claim.is_free(ANOTHER)?;
    }
    put_all(vec![(claim, bytes)])
}

/// Runs what is asked.
pub fn run(args: Vec<OsString>) -> Tried<Report> {
    let mut args = args.into_iter();
    let Some(first) = args.next() else {
        return Err(trouble::usage(format!("no command\n{}", overview())));
    };
    if first == HELP.name || first == "-h" {
        return Ok(Report::text(overview()));
    }
    if first == "--version" {
        let version = env!("CARGO_PKG_VERSION");
        return Ok(Report::text(format!("seat {version}\n")));
    }
    let Some(command) = COMMANDS.iter().find(|command| first == command.name) else {
        let text = format!("no such command: {}. Try `seat --help`.", Shown(&first));
        return Err(trouble::usage(text));
    };
    command.start(args.collect()).map_err(|why| match why {
        Trouble::Usage { text } => {
            let name = command.name;
            trouble::usage(format!("{name}: {text}. Try `seat {name} --help`."))
        }
        other => other,
    })
}

/// The help of the program.
fn overview() -> String {
    let mut text = String::from(
        "seat: outlines on real files\n\nusage: seat COMMAND [OPTION]... FILE...\n\nCommands:\n",
    );
    for command in COMMANDS {
        let _ = writeln!(text, "  {:<9} {}", command.name, command.does);
    }
    text.push_str(
        "
`seat COMMAND --help` tells more of each, with an example. A FILE that is - stands
for standard input, and its changed form for standard output. With --plain a
command prints for scripts, in a form that does not change between versions.

Exit status: 0 done; 1 refused, with the number of the format's rules; 2 asked
wrongly; 3 reading or writing failed. Messages are on standard error.
",
    );
    text
}

impl Command {
    fn start(&self, args: Vec<OsString>) -> Tried<Report> {
        let ask = Ask::read(args, self.options)?;
        if ask.has(HELP) {
            return Ok(Report::text(self.help()));
        }
        let given = ask.operands();
        if !self.takes.contains(&given.len()) {
            let (count, wanted) = (given.len(), self.operands);
            return Err(trouble::usage(format!("it takes {wanted}; given: {count}")));
        }
        if ask.streams() > 1 {
            return Err(trouble::usage(
                "standard input stands for one file alone".into(),
            ));
        }
        (self.run)(&ask)
    }

    fn help(&self) -> String {
        let mut text = format!(
            "usage: seat {} [OPTION]... {}\n\n{}.\n{}\nOptions:\n",
            self.name, self.operands, self.does, self.more
        );
        for opt in self.options.iter().chain([&PLAIN, &HELP]) {
            let name = match opt.value {
                Some(value) => format!("{} {value}", opt.name),
                None => opt.name.to_owned(),
            };
            let _ = writeln!(text, "  {name:<16} {}", opt.does);
        }
        text.push_str("\nExample:\n");
        for line in self.example.lines() {
            let _ = writeln!(text, "  {line}");
        }
        text
    }
}

/// `1 op`, `2 ops`.
fn many(count: usize, what: &str) -> String {
    match count {
        1 => format!("1 {what}"),
        _ => format!("{count} {what}s"),
    }
}

/// The eight counts of a vector with something between them.
fn counts(vector: &Vector, between: &str) -> String {
    let counts = Replica::all().map(|replica| vector.count(replica).to_string());
    counts.collect::<Vec<_>>().join(between)
}
