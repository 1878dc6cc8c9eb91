//! A plain write and a plain read of as many bytes as a table has, in as many files.
use std::fs::{self, File};
use std::io::{self, Write};
use std::path::Path;

/// The files of a folder: their names and their bytes.
pub type Files = Vec<(std::ffi::OsString, Vec<u8>)>;

/// Reads each file of a folder whole.
pub fn read(folder: &Path) -> io::Result<Files> {
    let mut files = Vec::new();
    for entry in fs::read_dir(folder)? {
        let entry = entry?;
        files.push((entry.file_name(), fs::read(entry.path())?));
    }
    Ok(files)
}

/// Writes files into a folder, each synced, and the folder after them, as a checkpoint does.
pub fn write(folder: &Path, files: &Files) -> io::Result<()> {
    for (name, bytes) in files {
        let mut file = File::create(folder.join(name))?;
        file.write_all(bytes)?;
        file.sync_all()?;
    }
    File::open(folder)?.sync_all()
}

/// How many bytes there are.
pub fn bytes(files: &Files) -> usize {
    files.iter().map(|(_, bytes)| bytes.len()).sum()
}
