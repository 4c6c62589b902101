//! A folder of its own for each test, and commands in it.

use std::ffi::OsStr;
use std::fs;
use std::io::Write;
use std::path::{Path, PathBuf};
use std::process::{self, Command, Stdio};
use std::sync::atomic::{AtomicUsize, Ordering};

pub const SEAT: &str = env!("CARGO_BIN_EXE_seat");

/// A file of the repository.
pub fn repository(path: &str) -> PathBuf {
    Path::new(env!("CARGO_MANIFEST_DIR"))
        .join("../..")
        .join(path)
}

/// What a command came to.
#[derive(Debug)]
pub struct Ran {
    /// None where it was killed.
    pub status: Option<i32>,
    pub out: Vec<u8>,
    pub err: String,
}

impl Ran {
    pub fn text(&self) -> &str {
        std::str::from_utf8(&self.out).expect("text on standard output")
    }
}

/// A folder that goes with its test.
pub struct Folder(PathBuf);

impl Folder {
    pub fn new() -> Folder {
        static FOLDERS: AtomicUsize = AtomicUsize::new(0);
        let number = FOLDERS.fetch_add(1, Ordering::Relaxed);
        let path = std::env::temp_dir().join(format!("seat-{}-{number}", process::id()));
        fs::create_dir(&path).expect("a folder of its own");
        Folder(path)
    }

    pub fn path(&self) -> &Path {
        &self.0
    }

    /// A command in this folder, as seat 1 unless it says another.
    pub fn command<S: AsRef<OsStr>>(&self, args: impl IntoIterator<Item = S>) -> Command {
        let mut command = Command::new(SEAT);
        command.args(args).current_dir(&self.0).env("SEAT", "1");
        command.stdin(Stdio::null());
        command
    }

    /// Runs a command, whatever it comes to.
    pub fn run<S: AsRef<OsStr>>(&self, args: impl IntoIterator<Item = S>) -> Ran {
        self.run_with(args, b"")
    }

    /// The same with something on standard input.
    pub fn run_with<S: AsRef<OsStr>>(
        &self,
        args: impl IntoIterator<Item = S>,
        input: &[u8],
    ) -> Ran {
        let mut command = self.command(args);
        command.stdin(Stdio::piped());
        command.stdout(Stdio::piped()).stderr(Stdio::piped());
        let mut child = command.spawn().expect("the program starts");
        // One that does not read its input may have ended by now.
        let _ = child.stdin.take().map(|mut pipe| pipe.write_all(input));
        let output = child.wait_with_output().expect("the program ends");
        Ran {
            status: output.status.code(),
            out: output.stdout,
            err: String::from_utf8_lossy(&output.stderr).into_owned(),
        }
    }

    /// Runs a line of words that is to be done, and says what it printed.
    pub fn done(&self, line: &str) -> String {
        let ran = self.run(line.split(' '));
        assert_eq!((ran.status, &ran.err[..]), (Some(0), ""), "{line}: {ran:?}");
        ran.text().to_owned()
    }

    /// Runs a line of words that is to be refused with this number, in both ways of
    /// telling, and sees to it that no file has changed.
    pub fn refused(&self, number: u8, line: &str) -> String {
        let before = self.files();
        let plain = self.run(line.split(' ').chain(["--plain"]));
        let expected = format!("refused {number}\n");
        assert_eq!((plain.status, &plain.err), (Some(1), &expected), "{line}");
        let ran = self.run(line.split(' '));
        assert_eq!(ran.status, Some(1), "{line}");
        assert!(ran.out.is_empty() && plain.out.is_empty(), "{line}");
        assert!(
            ran.err.contains(&format!(": refused {number}: ")),
            "{}",
            ran.err
        );
        assert_eq!(before, self.files(), "{line}");
        ran.err
    }

    pub fn read(&self, name: impl AsRef<Path>) -> Vec<u8> {
        fs::read(self.0.join(name)).expect("a file of the test")
    }

    pub fn write(&self, name: impl AsRef<Path>, bytes: &[u8]) {
        fs::write(self.0.join(name), bytes).expect("a file of the test");
    }

    /// All files with their bytes, by name.
    pub fn files(&self) -> Vec<(PathBuf, Vec<u8>)> {
        let entries = fs::read_dir(&self.0).expect("the folder");
        let paths = entries.map(|entry| entry.expect("an entry").path());
        let files = paths.filter(|path| path.is_file());
        let mut files: Vec<_> = files.map(|path| (path.clone(), self.read(path))).collect();
        files.sort();
        files
    }
}

impl Drop for Folder {
    fn drop(&mut self) {
        let _ = fs::remove_dir_all(&self.0);
    }
}
