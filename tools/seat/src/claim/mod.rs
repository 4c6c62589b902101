//! Changing files safely.
//!
//! A new file is made beside the old one, written, flushed to disk, and renamed
//! over it. The new file is also the lock: whoever changes a file holds a lock on
//! the new one beside it from before the old one is read until it is in its place.
//! So at any moment the name stands for the whole old file or the whole new one,
//! and of two writers the second reads what the first has left. A reader needs no
//! lock.
//!
//! The new file beside `news` is `.news.seat-new`: names of this form are this
//! program's own. What is left of one that was killed is at most such a file, without a
//! lock, which the next one to change `news` takes away.

mod lock;
mod target;

use crate::input;
use crate::name::{self, Shown};
use crate::report;
use crate::stops::step;
use crate::trouble::{self, Tried, Trouble};
use lock::{beside, give_rights, is_own, lock};
use std::ffi::{OsStr, OsString};
use std::fs::{self, File, OpenOptions};
use std::io::{self, ErrorKind, Write};
use std::path::PathBuf;
pub use target::are_one;
use target::{folder_of, Target};

/// What is read of a file that is changed: the largest of these is a log.
const MOST: usize = outline::plain::LARGEST;

/// A file that this program alone changes now.
pub struct Claim {
    /// As it was named.
    name: OsString,
    /// The file itself, past all links.
    path: PathBuf,
    /// The new file beside it.
    beside: PathBuf,
    new: File,
    /// Its bytes, at most one more than the largest file of its sort has; none if it
    /// is not there.
    old: Option<Vec<u8>>,
    /// Whether the new file is in its place.
    put: bool,
}

impl Claim {
    fn on(name: &OsStr, path: PathBuf) -> io::Result<Claim> {
        let beside = beside(&path);
        let new = lock(&path, &beside, name).map_err(|why| {
            io::Error::new(why.kind(), format!("{}: {why}", Shown(beside.as_os_str())))
        })?;
        let mut claim = Claim {
            name: name.to_owned(),
            path,
            beside,
            new,
            old: None,
            put: false,
        };
        step();
        claim.old = claim.read()?;
        step();
        Ok(claim)
    }

    /// Reads the file, if it is there and may be written over.
    fn read(&self) -> io::Result<Option<Vec<u8>>> {
        let old = match fs::metadata(&self.path) {
            Err(why) if why.kind() == ErrorKind::NotFound => return Ok(None),
            old => old?,
        };
        if !old.is_file() {
            let text = "not a regular file";
            return Err(io::Error::new(ErrorKind::InvalidInput, text));
        }
        if old.permissions().readonly() {
            return Err(io::Error::new(ErrorKind::PermissionDenied, "read-only"));
        }
        // Whoever may not write to it may not put another in its place either.
        let open = OpenOptions::new().read(true).write(true).open(&self.path)?;
        input::take(open, MOST).map(Some)
    }

    /// What the file has, or none if it is not there.
    pub fn old(&self) -> Option<&[u8]> {
        self.old.as_deref()
    }

    /// The same of a file that has to be there.
    pub fn is_there(&self) -> Tried<&[u8]> {
        self.old().ok_or_else(|| {
            let text = "no such file; `seat new` makes one";
            trouble::found(&self.name, ErrorKind::NotFound, text)
        })
    }

    /// Whether no bytes are lost where this file is written over; what to do else.
    pub fn is_free(&self, else_do: &str) -> Tried<()> {
        match self.old() {
            None | Some([]) => Ok(()),
            _ => {
                let text = format!("is there already; {else_do}");
                Err(trouble::found(&self.name, ErrorKind::AlreadyExists, &text))
            }
        }
    }

    /// Writes the new file, as far as the disk.
    fn fill(&mut self, bytes: &[u8]) -> io::Result<()> {
        // Before a byte is in it, so that nobody reads it who may not read the old one.
        give_rights(&self.new, &self.path)?;
        step();
        let (front, back) = bytes.split_at(bytes.len() / 2);
        self.new.write_all(front)?;
        step();
        self.new.write_all(back)?;
        step();
        self.new.sync_all()?;
        step();
        Ok(())
    }

    /// Puts the new file, which has been written, in the place of the old one.
    fn put(mut self) -> io::Result<()> {
        fs::rename(&self.beside, &self.path)?;
        self.put = true;
        step();
        // The new name is to outlive a power cut too.
        let flushed = File::open(folder_of(&self.path)).and_then(|folder| folder.sync_all());
        flushed.map_err(|why| {
            let text = format!("changed, but perhaps not on the disk yet: {why}");
            io::Error::new(why.kind(), text)
        })?;
        step();
        Ok(())
    }
}

impl Drop for Claim {
    /// Where nothing was put, the new file goes before its lock does.
    fn drop(&mut self) {
        if !self.put {
            let _ = fs::remove_file(&self.beside);
        }
    }
}

/// The trouble with a file that is named twice.
pub fn twice(name: &OsStr) -> Trouble {
    trouble::usage(format!("{} is named twice", Shown(name)))
}

/// Claims the files of these names and reads them; none stands for `-`. They are
/// claimed in one order by all programs, so that no two wait for each other.
pub fn claim(names: &[&OsStr]) -> Tried<Vec<Option<Claim>>> {
    let mut targets = Vec::new();
    for (place, name) in names.iter().enumerate() {
        if is_own(name) {
            let text = format!(
                "{} is a name that this program keeps for itself",
                Shown(name)
            );
            return Err(trouble::usage(text));
        }
        if !name::is_stream(name) {
            targets.push((Target::of(name).map_err(trouble::io(name))?, place));
        }
    }
    targets.sort_by(|(one, _), (other, _)| one.key().cmp(&other.key()));
    if let Some([_, (_, place)]) = targets
        .windows(2)
        .find(|pair| pair[0].0.key() == pair[1].0.key())
    {
        return Err(twice(names[*place]));
    }
    let mut claims: Vec<Option<Claim>> = names.iter().map(|_| None).collect();
    for (target, place) in targets {
        let claim = Claim::on(names[place], target.path).map_err(trouble::io(names[place]))?;
        claims[place] = Some(claim);
    }
    Ok(claims)
}

/// Gives files their bytes; none stands for standard output. All new files are on the
/// disk before the first is in its place, and all go to their places in this order. A
/// file that stays as it is is not written. Says whether standard output had one.
pub fn put_all(files: Vec<(Option<Claim>, Vec<u8>)>) -> Tried<bool> {
    let streams = files.iter().filter(|(claim, _)| claim.is_none()).count();
    if streams > 1 {
        let text = "standard output stands for one file alone";
        return Err(trouble::usage(text.into()));
    }
    let mut files: Vec<_> = files
        .into_iter()
        .filter(|(claim, bytes)| {
            claim
                .as_ref()
                .is_none_or(|claim| claim.old() != Some(bytes))
        })
        .collect();
    for (claim, bytes) in &mut files {
        if let Some(claim) = claim {
            claim.fill(bytes).map_err(trouble::io(&claim.name))?;
        }
    }
    let names = files.iter().map(|(claim, _)| match claim {
        Some(claim) => claim.name.clone(),
        None => "standard output".into(),
    });
    let names: Vec<OsString> = names.collect();
    for (at, (claim, bytes)) in files.into_iter().enumerate() {
        let put = match claim {
            Some(claim) => claim.put(),
            None => report::print(&bytes),
        };
        put.map_err(|why| trouble::io(&names[at])(in_between(why, &names, at)))?;
    }
    Ok(streams > 0)
}

/// An error at one of several files: which are changed by then, and which are not.
fn in_between(why: io::Error, names: &[OsString], at: usize) -> io::Error {
    let shown = |names: &[OsString]| {
        let names: Vec<String> = names.iter().map(|name| Shown(name).to_string()).collect();
        names.join(", ")
    };
    let (before, after) = (shown(&names[..at]), shown(&names[at + 1..]));
    let mut text = why.to_string();
    for (what, names) in [("changed by then", before), ("not changed", after)] {
        if !names.is_empty() {
            text += &format!("; {what}: {names}");
        }
    }
    io::Error::new(why.kind(), text)
}
