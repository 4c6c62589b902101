//! Reading, from files and standard input.

use crate::claim::Claim;
use crate::name;
use crate::trouble::{self, Tried};
use outline::plain::LARGEST;
use outline::Log;
use std::ffi::OsStr;
use std::fs::File;
use std::io::{self, ErrorKind, Read};
use std::os::fd::{AsFd, BorrowedFd};
use std::os::unix::fs::MetadataExt;

/// The bytes of a file or of standard input, at most one more than `most`, so
/// that longer input shows and endless input ends.
pub fn read(name: &OsStr, most: usize) -> Tried<Vec<u8>> {
    let taken = match name::is_stream(name) {
        true => take(io::stdin().lock(), most),
        false => File::open(name).and_then(|file| take(file, most)),
    };
    taken.map_err(trouble::io(name))
}

/// The same of what is open.
pub fn take(from: impl Read, most: usize) -> io::Result<Vec<u8>> {
    let mut bytes = Vec::new();
    from.take(most as u64 + 1).read_to_end(&mut bytes)?;
    Ok(bytes)
}

/// The log of a file or of standard input.
pub fn log(name: &OsStr) -> Tried<Log> {
    log_of(name, &read(name, LARGEST)?)
}

/// The log that some bytes are. No bytes yet are a log without ops, as to the
/// other programs.
pub fn log_of(name: &OsStr, bytes: &[u8]) -> Tried<Log> {
    if bytes.is_empty() {
        return Ok(Log::new());
    }
    Log::from_bytes(bytes).map_err(trouble::refused(name))
}

/// The log on standard input, if one of the names stands for it. It is read before
/// any lock is taken: it may take its time.
pub fn stream(names: &[&OsStr]) -> Tried<Option<Log>> {
    let Some(name) = names.iter().find(|name| name::is_stream(name)) else {
        return Ok(None);
    };
    if is_emptied().unwrap_or(false) {
        let text = "is also standard output, and the shell has emptied it";
        return Err(trouble::found(name, ErrorKind::InvalidInput, text));
    }
    log(name).map(Some)
}

/// Whether standard input is a file that standard output has emptied.
fn is_emptied() -> io::Result<bool> {
    let of = |stream: BorrowedFd<'_>| File::from(stream.try_clone_to_owned()?).metadata();
    let (input, output) = (of(io::stdin().as_fd())?, of(io::stdout().as_fd())?);
    let one = (input.dev(), input.ino()) == (output.dev(), output.ino());
    Ok(one && input.is_file() && input.len() == 0)
}

/// The log of a file that is claimed, or the one on standard input.
pub fn claimed(name: &OsStr, claim: Option<&Claim>, stream: &Option<Log>) -> Tried<Log> {
    match claim {
        Some(claim) => log_of(name, claim.is_there()?),
        None => Ok(stream.clone().unwrap_or_default()),
    }
}
