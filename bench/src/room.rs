//! Where the cases put files.
use std::path::PathBuf;
use std::{env, fs, process};

/// A folder of our own, which is removed at the end.
pub struct Room(PathBuf);

impl Room {
    pub fn new() -> Room {
        let folder = env::temp_dir().join(format!("narthexmace-bench-{}", process::id()));
        fs::create_dir(&folder).expect("a folder can be made");
        Room(folder)
    }

    /// A folder with no files.
    pub fn empty(&self, name: &str) -> PathBuf {
        let folder = self.0.join(name);
        if folder.exists() {
            fs::remove_dir_all(&folder).expect("a folder of our own can be removed");
        }
        fs::create_dir(&folder).expect("a folder can be made");
        folder
    }
}

impl Drop for Room {
    fn drop(&mut self) {
        let _ = fs::remove_dir_all(&self.0);
    }
}
