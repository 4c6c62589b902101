//! Files by their names.

use std::ffi::OsStr;
use std::fs;
use std::io::{self, ErrorKind};
use std::os::unix::ffi::OsStrExt;
use std::os::unix::fs::MetadataExt;
use std::path::{Path, PathBuf};

/// A file by its folder, whatever way leads there, and its name in it.
pub struct Target {
    pub path: PathBuf,
    /// Device and number of the folder.
    folder: (u64, u64),
}

impl Target {
    pub fn of(name: &OsStr) -> io::Result<Target> {
        let path = path_of(name)?;
        let folder = fs::metadata(folder_of(&path))?;
        Ok(Target {
            folder: (folder.dev(), folder.ino()),
            path,
        })
    }

    pub fn key(&self) -> ((u64, u64), Option<&OsStr>) {
        (self.folder, self.path.file_name())
    }
}

/// Where the file of a name is, past all links, or would be.
fn path_of(name: &OsStr) -> io::Result<PathBuf> {
    let path = Path::new(name);
    if fs::symlink_metadata(path).is_ok() {
        return fs::canonicalize(path);
    }
    let missing = || io::Error::new(ErrorKind::NotFound, "no such file");
    if [&b"/"[..], b"/."]
        .iter()
        .any(|end| name.as_bytes().ends_with(end))
    {
        return Err(missing());
    }
    let last = path.file_name().ok_or_else(missing)?;
    let folder = match path.parent() {
        Some(folder) if folder != Path::new("") => folder,
        _ => Path::new("."),
    };
    Ok(fs::canonicalize(folder)?.join(last))
}

pub fn folder_of(path: &Path) -> &Path {
    path.parent().unwrap_or(Path::new("/"))
}

/// Whether two names stand for one file.
pub fn are_one(one: &OsStr, other: &OsStr) -> bool {
    match (Target::of(one), Target::of(other)) {
        (Ok(one), Ok(other)) => one.key() == other.key(),
        _ => false,
    }
}
