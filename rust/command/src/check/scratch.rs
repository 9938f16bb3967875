//! A folder for a test, which is removed in the end.

use std::env;
use std::fs;
use std::path::{Path, PathBuf};
use std::process;
use std::sync::atomic::{AtomicUsize, Ordering};

/// The sheet of SHEET.md, section 10. Its core is full, and byte 20 is the budget of task 1.
pub const TWO_TASKS: [u8; 36] = [
    84, 83, 72, 1, 0, 2, 1, 0, // header
    5, 0, 1, 0, 0, 0, 1, 0, 0, 0, // task 0
    9, 0, 7, 0, 0, 0, 2, 0, 0, 0, // task 1
    9, 0, 0, 0, 2, 0, 0, 0, // core 0
];

pub struct Scratch(PathBuf);

impl Scratch {
    pub fn new() -> Scratch {
        static COUNT: AtomicUsize = AtomicUsize::new(0);
        let number = COUNT.fetch_add(1, Ordering::Relaxed);
        let name = format!("homvaits-check-{}-{number}", process::id());
        let path = env::temp_dir().join(name);
        fs::create_dir(&path).unwrap();
        Scratch(path)
    }

    pub fn path(&self) -> &Path {
        &self.0
    }

    /// Writes a file, with the folders that it stands in.
    pub fn file(&self, name: &str, bytes: &[u8]) -> PathBuf {
        let path = self.0.join(name);
        fs::create_dir_all(path.parent().unwrap()).unwrap();
        fs::write(&path, bytes).unwrap();
        path
    }
}

impl Drop for Scratch {
    fn drop(&mut self) {
        let _ = fs::remove_dir_all(&self.0);
    }
}
