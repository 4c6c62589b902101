//! What is asked: options and operands.

use crate::name::{self, Shown};
use crate::trouble::{self, Tried};
use std::env;
use std::ffi::{OsStr, OsString};
use std::os::unix::ffi::OsStrExt;

/// An option of a command.
#[derive(Clone, Copy)]
pub struct Opt {
    pub name: &'static str,
    /// What its value is, if it has one.
    pub value: Option<&'static str>,
    pub does: &'static str,
}

impl Opt {
    pub const fn flag(name: &'static str, does: &'static str) -> Opt {
        Opt {
            name,
            value: None,
            does,
        }
    }

    pub const fn valued(name: &'static str, value: &'static str, does: &'static str) -> Opt {
        Opt {
            name,
            value: Some(value),
            does,
        }
    }
}

/// Options of all commands.
pub const PLAIN: Opt = Opt::flag("--plain", "print for scripts, in a form that stays");
pub const HELP: Opt = Opt::flag("--help", "print this text");

/// The one option whose value is a file that is read.
pub const FOR_FILE: Opt = Opt::valued(
    "--for-file",
    "OTHER",
    "for one that holds what this file holds",
);

/// A command with its options and operands, as it was asked.
#[derive(Default)]
pub struct Ask {
    operands: Vec<OsString>,
    given: Vec<(&'static str, OsString)>,
}

/// Whether `--plain` stands among the arguments: how trouble is told, also where
/// the rest cannot be read.
pub fn is_plain(args: &[OsString]) -> bool {
    let options = args.iter().take_while(|arg| *arg != "--");
    options.into_iter().any(|arg| arg == PLAIN.name)
}

impl Ask {
    /// Reads arguments. An option's value follows it, or stands behind `=`. What
    /// comes after `--` is an operand.
    pub fn read(args: Vec<OsString>, known: &[Opt]) -> Tried<Ask> {
        let mut ask = Ask::default();
        let mut args = args.into_iter();
        while let Some(arg) = args.next() {
            if arg == "--" {
                ask.operands.extend(args.by_ref());
            } else if arg.as_bytes().starts_with(b"--") {
                let (name, value) = split(&arg);
                let opt = known.iter().chain([&PLAIN, &HELP]);
                let Some(opt) = opt.into_iter().find(|opt| opt.name.as_bytes() == name) else {
                    return Err(trouble::usage(format!("no such option: {}", Shown(&arg))));
                };
                let value = match (opt.value, value) {
                    (None, None) => OsString::new(),
                    (None, Some(_)) => {
                        return Err(trouble::usage(format!("{} takes no value", opt.name)));
                    }
                    (Some(_), Some(value)) => value,
                    (Some(what), None) => args
                        .next()
                        .ok_or_else(|| trouble::usage(format!("{} needs {what}", opt.name)))?,
                };
                ask.given.push((opt.name, value));
            } else if arg.len() > 1 && arg.as_bytes().starts_with(b"-") {
                return Err(trouble::usage(format!("no such option: {}", Shown(&arg))));
            } else {
                ask.operands.push(arg);
            }
        }
        Ok(ask)
    }

    pub fn has(&self, opt: Opt) -> bool {
        self.value(opt).is_some()
    }

    /// The value of an option; the last one where it is given twice.
    pub fn value(&self, opt: Opt) -> Option<&OsStr> {
        let given = self.given.iter().rev();
        let mut given = given.filter(|(name, _)| *name == opt.name);
        given.next().map(|(_, value)| value.as_os_str())
    }

    pub fn is_plain(&self) -> bool {
        self.has(PLAIN)
    }

    pub fn operands(&self) -> Vec<&OsStr> {
        self.operands.iter().map(OsString::as_os_str).collect()
    }

    /// How often standard input is asked for.
    pub fn streams(&self) -> usize {
        let read = self.given.iter().filter(|(name, _)| *name == FOR_FILE.name);
        let read = read.map(|(_, value)| value).chain(&self.operands);
        read.filter(|name| name::is_stream(name)).count()
    }

    /// The operand at a place. A command is run with as many as it names.
    pub fn operand(&self, at: usize) -> &OsStr {
        self.operands.get(at).map_or(OsStr::new(""), |it| it)
    }

    /// The number of a node.
    pub fn node(&self, at: usize) -> Tried<u16> {
        let operand = self.operand(at);
        let what = || trouble::usage(format!("a node is a number, and not {}", Shown(operand)));
        number(operand).ok_or_else(what)
    }

    /// The seat that issues: the option's, or else the variable's.
    pub fn seat(&self, opt: Opt) -> Tried<u8> {
        let variable = env::var_os("SEAT").filter(|seat| !seat.is_empty());
        let Some(seat) = self.value(opt).or(variable.as_deref()) else {
            let text =
                "which seat? Say --as 1, or set the variable SEAT to the number of this machine";
            return Err(trouble::usage(text.into()));
        };
        let what = || trouble::usage(format!("a seat is a number, and not {}", Shown(seat)));
        let number = number(seat).ok_or_else(what)?;
        // What is no byte is no seat either.
        Ok(u8::try_from(number).unwrap_or(u8::MAX))
    }

    /// Eight counts with commas between them.
    pub fn counts(value: &OsStr) -> Tried<[u8; 8]> {
        let read = || {
            let counts = value.as_bytes().split(|&byte| byte == b',');
            let counts = counts.map(|count| u8::try_from(number(OsStr::from_bytes(count))?).ok());
            counts.collect::<Option<Vec<u8>>>()?.try_into().ok()
        };
        read().ok_or_else(|| {
            let text = "counts are eight numbers up to 255 with commas between them, and not";
            trouble::usage(format!("{text} {}", Shown(value)))
        })
    }
}

/// Name and value of an option.
fn split(arg: &OsStr) -> (&[u8], Option<OsString>) {
    let bytes = arg.as_bytes();
    match bytes.iter().position(|&byte| byte == b'=') {
        Some(at) => {
            let value = OsStr::from_bytes(&bytes[at + 1..]);
            (&bytes[..at], Some(value.to_owned()))
        }
        None => (bytes, None),
    }
}

/// A number in decimal. One that is too large becomes 65,535, which is neither a
/// node nor a seat, so that the library answers as to any other such number.
fn number(text: &OsStr) -> Option<u16> {
    let digits = text.as_bytes();
    let is_number = !digits.is_empty() && digits.iter().all(u8::is_ascii_digit);
    is_number.then(|| {
        let add = |sum: u16, digit: &u8| {
            let digit = u16::from(digit - b'0');
            sum.saturating_mul(10).saturating_add(digit)
        };
        digits.iter().fold(0, add)
    })
}
