//! Names of files, which are any bytes.

use std::ffi::OsStr;
use std::fmt;
use std::os::unix::ffi::OsStrExt;

/// Whether it is `-`, which stands for standard input or output.
pub fn is_stream(name: &OsStr) -> bool {
    name == "-"
}

/// A name as it is shown: what a terminal could take for a command, or is no
/// UTF-8, stands as `\x1b`.
pub struct Shown<'a>(pub &'a OsStr);

impl fmt::Display for Shown<'_> {
    fn fmt(&self, f: &mut fmt::Formatter<'_>) -> fmt::Result {
        for part in self.0.as_bytes().utf8_chunks() {
            for letter in part.valid().chars() {
                match letter {
                    _ if letter.is_control() => write!(f, "{}", letter.escape_default())?,
                    _ => write!(f, "{letter}")?,
                }
            }
            for byte in part.invalid() {
                write!(f, "\\x{byte:02x}")?;
            }
        }
        Ok(())
    }
}
