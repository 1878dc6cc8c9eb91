//! The words of the command line.
use crate::cases::{CASES, Size};
use std::path::PathBuf;

pub const USAGE: &str = "usage: bench [--size small|full] [--only NAME,..] [--csv DIR]";

/// What is measured, and where it is written.
pub struct Options {
    pub size: &'static Size,
    /// The cases that are run: all where there is none.
    only: Vec<String>,
    /// The folder into which each table is written as CSV.
    pub csv: Option<PathBuf>,
}

impl Options {
    /// Reads the words, or says which one is none.
    pub fn read(mut words: impl Iterator<Item = String>) -> Result<Options, String> {
        let mut options = Options { size: &Size::FULL, only: Vec::new(), csv: None };
        while let Some(word) = words.next() {
            let value = words.next().ok_or(format!("{word} wants a value"))?;
            match (word.as_str(), value.as_str()) {
                ("--size", "full") => options.size = &Size::FULL,
                ("--size", "small") => options.size = &Size::SMALL,
                ("--only", names) => options.only.extend(names.split(',').map(str::to_string)),
                ("--csv", folder) => options.csv = Some(PathBuf::from(folder)),
                _ => return Err(format!("no such words: {word} {value}")),
            }
        }
        match options.only.iter().find(|name| CASES.iter().all(|case| case.name != *name)) {
            Some(name) => Err(format!("no case {name}: there are {}", CASES.map(|case| case.name).join(", "))),
            None => Ok(options),
        }
    }

    /// Whether a case is run.
    pub fn has(&self, name: &str) -> bool {
        self.only.is_empty() || self.only.iter().any(|only| only == name)
    }
}
