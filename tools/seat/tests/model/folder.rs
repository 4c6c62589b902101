//! A folder of the test's own, and the files that it must have.

use std::collections::BTreeMap;
use std::fs::{self, File};
use std::path::PathBuf;
use std::process::Stdio;
use std::{env, process};

/// A folder of the test's own, and the files that it must have.
pub struct Folder {
    pub path: PathBuf,
    pub files: BTreeMap<String, Vec<u8>>,
}

impl Folder {
    pub fn new() -> Folder {
        let path = env::temp_dir().join(format!("seat-model-{}", process::id()));
        // What a killed process of the same number has left would be taken for ours.
        let _ = fs::remove_dir_all(&path);
        fs::create_dir(&path).unwrap_or_else(|why| panic!("{}: {why}", path.display()));
        let files = BTreeMap::new();
        Folder { path, files }
    }

    pub fn put(&mut self, name: &str, bytes: &[u8]) {
        fs::write(self.path.join(name), bytes).unwrap_or_else(|why| panic!("{name}: {why}"));
        self.files.insert(name.into(), bytes.to_vec());
    }

    pub fn remove(&mut self, name: &str) {
        if self.files.remove(name).is_some() {
            let removed = fs::remove_file(self.path.join(name));
            removed.unwrap_or_else(|why| panic!("{name}: {why}"));
        }
    }

    pub fn clear(&mut self) {
        for name in self.files.clone().keys() {
            self.remove(name);
        }
    }

    pub fn get(&self, name: &str) -> Option<Vec<u8>> {
        self.files.get(name).cloned()
    }

    /// The bytes of a file that is there.
    pub fn bytes(&self, name: &str) -> Vec<u8> {
        self.get(name)
            .unwrap_or_else(|| panic!("{name}: not there"))
    }

    /// A file for standard input, or nothing.
    pub fn input(&self, name: Option<&str>) -> Stdio {
        name.map_or_else(Stdio::null, |name| {
            let file = File::open(self.path.join(name));
            file.unwrap_or_else(|why| panic!("{name}: {why}")).into()
        })
    }

    /// All that is on the disk, so that a file too many shows as well.
    pub fn on_disk(&self) -> BTreeMap<String, Vec<u8>> {
        let entries = fs::read_dir(&self.path).expect("the folder can be read");
        let paths = entries.map(|entry| entry.expect("an entry can be read").path());
        let read = |path: PathBuf| {
            let name = path.file_name().unwrap_or_default();
            let bytes = fs::read(&path).unwrap_or_else(|why| panic!("{}: {why}", path.display()));
            (name.to_string_lossy().into_owned(), bytes)
        };
        paths.map(read).collect()
    }
}

impl Drop for Folder {
    fn drop(&mut self) {
        let _ = fs::remove_dir_all(&self.path);
    }
}
