//! The new file beside another, which is its lock.

use crate::name::Shown;
use crate::stops::step;
use std::ffi::{OsStr, OsString};
use std::fs::{self, File, OpenOptions, Permissions, TryLockError};
use std::io::{self, ErrorKind, Write};
use std::os::unix::ffi::OsStrExt;
use std::os::unix::fs::{fchown, MetadataExt, OpenOptionsExt, PermissionsExt};
use std::path::{Path, PathBuf};
use std::thread::sleep;
use std::time::{Duration, Instant};

/// The end of the name of a new file beside another.
const OWN: &str = ".seat-new";

/// Not to follow a link, and that there was one, on x86-64 Linux, where the library
/// runs.
const O_NOFOLLOW: i32 = 0o400_000;
const ELOOP: i32 = 40;

/// How long a lock is waited for before that is told.
const PATIENCE: Duration = Duration::from_secs(1);

/// Whether a name has the form of this program's own.
pub fn is_own(name: &OsStr) -> bool {
    let last = Path::new(name).file_name().unwrap_or_default().as_bytes();
    last.starts_with(b".") && last.ends_with(OWN.as_bytes())
}

/// The name of the new file beside one.
pub fn beside(path: &Path) -> PathBuf {
    let mut name = OsString::from(".");
    name.push(path.file_name().unwrap_or_default());
    name.push(OWN);
    path.with_file_name(name)
}

/// Makes the new file beside one and locks it. One that is there already is locked by
/// another program, or left of one that was killed: then it goes.
pub fn lock(path: &Path, beside: &Path, of: &OsStr) -> io::Result<File> {
    let mut wait = Wait::new(of);
    loop {
        match make(path, beside) {
            Ok(new) => {
                let locked = wait.lock(&new);
                // Another program may have taken it for one that was left.
                if locked.is_ok() && is_named(&new, beside)? {
                    return Ok(new);
                }
                locked.inspect_err(|_| drop(fs::remove_file(beside)))?;
            }
            Err(why) if why.kind() == ErrorKind::AlreadyExists => take_away(beside, &mut wait)?,
            Err(why) => return Err(why),
        }
    }
}

/// Makes the new file beside one, for those alone who may read the old one.
fn make(path: &Path, beside: &Path) -> io::Result<File> {
    let mode = if path.exists() { 0o600 } else { 0o666 };
    let mut options = OpenOptions::new();
    options.write(true).create_new(true).mode(mode);
    let new = options.open(beside)?;
    step();
    give_rights(&new, path).inspect_err(|_| drop(fs::remove_file(beside)))?;
    Ok(new)
}

/// Gives a new file the owner, the group and the permissions of an old one, if that is
/// there, as far as this user may. If it cannot have the group, the group that it has
/// gets what others have.
pub fn give_rights(new: &File, old: &Path) -> io::Result<()> {
    let Ok(old) = fs::metadata(old) else {
        return Ok(());
    };
    let _ = fchown(new, Some(old.uid()), None);
    let group = fchown(new, None, Some(old.gid()));
    let mode = old.mode() & 0o777;
    let mode = match group {
        Ok(()) => mode,
        Err(_) => mode & 0o707 | (mode & 0o007) << 3,
    };
    new.set_permissions(Permissions::from_mode(mode))
}

/// Waits until whoever holds the new file lets it go, and takes it away if it was left.
fn take_away(beside: &Path, wait: &mut Wait) -> io::Result<()> {
    let mut options = OpenOptions::new();
    options.read(true).write(true).custom_flags(O_NOFOLLOW);
    let left = match options.open(beside) {
        Err(why) if why.kind() == ErrorKind::NotFound => return Ok(()),
        // It has no rights yet, or is another user's.
        Err(why) if why.kind() == ErrorKind::PermissionDenied && wait.has_patience() => {
            return Ok(())
        }
        Err(why) if why.raw_os_error() == Some(ELOOP) => return Err(in_the_way()),
        left => left?,
    };
    // A file with another name too is somebody's.
    let found = left.metadata()?;
    if !found.is_file() || found.nlink() > 1 {
        return Err(in_the_way());
    }
    wait.lock(&left)?;
    match is_named(&left, beside)? {
        true => fs::remove_file(beside),
        false => Ok(()),
    }
}

fn in_the_way() -> io::Error {
    io::Error::new(ErrorKind::AlreadyExists, "is in the way")
}

/// Whether a name still stands for an open file.
fn is_named(open: &File, path: &Path) -> io::Result<bool> {
    let open = open.metadata()?;
    match fs::symlink_metadata(path) {
        Ok(named) => Ok((named.dev(), named.ino()) == (open.dev(), open.ino())),
        Err(why) if why.kind() == ErrorKind::NotFound => Ok(false),
        Err(why) => Err(why),
    }
}

/// Waiting for locks of a file, which is told once if it takes long.
struct Wait<'a> {
    of: &'a OsStr,
    began: Instant,
    told: bool,
}

impl Wait<'_> {
    fn new(of: &OsStr) -> Wait<'_> {
        Wait {
            of,
            began: Instant::now(),
            told: false,
        }
    }

    /// Waits a little, if it has not been long.
    fn has_patience(&self) -> bool {
        let patient = self.began.elapsed() < PATIENCE;
        if patient {
            sleep(PATIENCE / 500);
        }
        patient
    }

    fn lock(&mut self, open: &File) -> io::Result<()> {
        loop {
            match open.try_lock() {
                Err(TryLockError::WouldBlock) if self.has_patience() => {}
                Err(TryLockError::WouldBlock) => break,
                Err(TryLockError::Error(why)) => return Err(why),
                Ok(()) => return Ok(()),
            }
        }
        if !self.told {
            let text = "waiting for another program that changes it";
            let _ = writeln!(io::stderr(), "seat: {}: {text}", Shown(self.of));
            self.told = true;
        }
        open.lock()
    }
}
