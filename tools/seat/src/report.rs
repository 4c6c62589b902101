//! What a command that was done prints.

use crate::trouble::{self, Tried};
use std::ffi::OsStr;
use std::io::{self, Write};

/// What goes to standard output and to standard error.
pub struct Report {
    out: Vec<u8>,
    aside: String,
    /// What trouble with standard output is about.
    of: &'static str,
}

impl Report {
    /// Bytes for standard output.
    pub fn bytes(out: Vec<u8>) -> Report {
        Report {
            out,
            aside: String::new(),
            of: "standard output",
        }
    }

    /// Text for standard output.
    pub fn text(text: String) -> Report {
        Report::bytes(text.into_bytes())
    }

    /// The text of a command that has changed files. Where a changed file went to
    /// standard output, the text goes aside.
    pub fn changed(streamed: bool, text: String) -> Report {
        match streamed {
            true => Report {
                aside: text,
                ..Report::bytes(Vec::new())
            },
            false => Report {
                of: "standard output, after the change was made",
                ..Report::text(text)
            },
        }
    }

    /// Prints it.
    pub fn tell(self) -> Tried<()> {
        let _ = io::stderr().write_all(self.aside.as_bytes());
        print(&self.out).map_err(trouble::io(OsStr::new(self.of)))
    }
}

/// Writes to standard output, and sees to it that it arrives.
pub fn print(bytes: &[u8]) -> io::Result<()> {
    let mut out = io::stdout().lock();
    out.write_all(bytes)?;
    out.flush()
}
