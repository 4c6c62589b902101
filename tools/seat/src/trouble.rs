//! Why a command was not done, and how it is told.

use crate::name::Shown;
use outline::Refusal;
use std::ffi::OsStr;
use std::io;

/// Why a command was not done.
pub enum Trouble {
    /// The library refused, or a test that stands for one of its refusals did.
    Refused { of: String, why: Refusal },
    /// A file that was to be checked is not sound.
    Unsound { of: String, why: String },
    /// The command was asked in a way that it does not know.
    Usage { text: String },
    /// Reading or writing failed.
    Io { of: String, why: io::Error },
}

pub type Tried<T> = Result<T, Trouble>;

/// `file.map_err(trouble::io(name))` and the like: what the trouble is about.
pub fn io<'a>(name: &'a OsStr) -> impl Fn(io::Error) -> Trouble + 'a {
    move |why| Trouble::Io {
        of: Shown(name).to_string(),
        why,
    }
}

/// The same of a refusal.
pub fn refused<'a>(name: &'a OsStr) -> impl Fn(Refusal) -> Trouble + 'a {
    move |why| Trouble::Refused {
        of: Shown(name).to_string(),
        why,
    }
}

/// A command that was asked in a way that it does not know.
pub fn usage(text: String) -> Trouble {
    Trouble::Usage { text }
}

/// An error of reading or writing that is found here and not by the system.
pub fn found(name: &OsStr, kind: io::ErrorKind, text: &str) -> Trouble {
    io(name)(io::Error::new(kind, text))
}

impl Trouble {
    /// The exit status.
    pub fn status(&self) -> u8 {
        match self {
            Trouble::Refused { .. } | Trouble::Unsound { .. } => 1,
            Trouble::Usage { .. } => 2,
            Trouble::Io { .. } => 3,
        }
    }

    /// Tells it on standard error. What cannot be told there is not told: the exit
    /// status is left.
    pub fn tell(&self, plain: bool) {
        use std::io::Write;
        let text = match self {
            Trouble::Refused { why, .. } if plain => format!("refused {}", why.number()),
            Trouble::Unsound { .. } if plain => format!("refused {}", Refusal::Unsound.number()),
            Trouble::Refused { of, why } => {
                let number = why.number();
                let (wrong, advice) = sentences(*why);
                format!("seat: {of}: refused {number}: {wrong}. {advice}")
            }
            Trouble::Unsound { of, why } => {
                let number = Refusal::Unsound.number();
                format!("seat: {of}: refused {number}: {why}. {AFRESH}")
            }
            Trouble::Usage { text } => format!("seat: {text}"),
            Trouble::Io { of, why } => format!("seat: {of}: {why}"),
        };
        let _ = writeln!(io::stderr(), "{text}");
    }
}

/// What to do about a file that is not sound.
const AFRESH: &str = "Take a copy from another seat, or start afresh by `seat new --force`; \
                      then meet all others before you go on.";

/// What is wrong, and what to do about it.
fn sentences(why: Refusal) -> (&'static str, &'static str) {
    match why {
        Refusal::Unsound => (
            "this is no sound outline",
            "`seat check` says what is wrong with it.",
        ),
        Refusal::Length => (
            "a column has more than 16 nodes, or an op has not 14 bytes",
            "Move fewer at once, or have the op sent again.",
        ),
        Refusal::Malformed => (
            "there is no such seat, or an op is out of form",
            "Seats are 1 to 8; an op from elsewhere has to be sent again.",
        ),
        Refusal::Conflict => (
            "there are two different ops of one seat and sequence",
            "Two machines have worked as one seat: keep one of the files, \
             and do the other's work again as a seat of its own.",
        ),
        Refusal::Early => (
            "an op counts others that are not here yet",
            "Open a bundle that has them first, or post it with a tray.",
        ),
        Refusal::NotClosed => (
            "an op counts another one, but not all that this one counts",
            "No seat issues such an op: ask where it came from.",
        ),
        Refusal::Unknown => (
            "there is no such node, or one is to go under itself, or the root is to be moved or removed",
            "`seat list` shows the nodes.",
        ),
        Refusal::NoRoom => ("there is no room for more", "The outline is full."),
        Refusal::Exhausted => (
            "a seat issues 255 ops, and no more",
            "Go on as a seat that no other machine works as.",
        ),
        Refusal::Cycle => (
            "the new parent lies below the node",
            "Move the parent elsewhere first, or take another one; `seat path` shows what lies above it.",
        ),
        Refusal::Marked => (
            "the node or the parent is removed",
            "Take another one; `seat ops` shows who removed it.",
        ),
        Refusal::BadBundle => (
            "this is no whole bundle",
            "Have it made and sent again.",
        ),
        Refusal::HoldbackFull => (
            "the op is early, and the tray is full",
            "Open a bundle that has what is missing, then post with this tray again.",
        ),
        Refusal::BadHoldback => (
            "this is no tray, or a damaged one",
            "Take a new one: others hold what waited there.",
        ),
        _ => ("the library refuses", "docs/FORMAT.md has the numbers."),
    }
}
