//! The options of a database, the report of its opening, and why an opening is refused.
use crate::cells::owned;
use crate::{Error, ErrorKind, ffi};
use std::fmt;

/// The failures that an acknowledged commit of a database survives.
#[derive(Clone, Copy, Debug, Default, PartialEq, Eq, Hash)]
pub enum SyncMode {
    /// A crash of the machine: a commit is acknowledged once it is on the device. Commits that wait at the same time
    /// share a write and a sync (group commit).
    #[default]
    Full,
    /// A kill of the process: a commit is acknowledged once the kernel has it. It is on the device a second later, or
    /// sooner.
    Normal,
    /// Neither: a commit is acknowledged from memory. It is on the device a second later, or sooner.
    Off,
}

/// How to open a database.
#[derive(Clone, Copy, Debug, PartialEq, Eq)]
pub struct DatabaseOptions {
    /// The failures that an acknowledged commit survives; by default also a crash of the machine.
    pub sync: SyncMode,
    /// Whether a begin takes the newest version, even if a crash could still lose it; false by default.
    pub early_reads: bool,
    /// Whether there is a background thread for folds and checkpoints; true by default. Else
    /// [`Database::maintain`](crate::Database::maintain) does what is due.
    pub maintenance: bool,
    /// Whether nothing in the folder is created or changed; false by default. Several processes may then have it open.
    /// Calls that would write return [`ErrorKind::ReadOnly`].
    pub read_only: bool,
    /// How many entries of a Write-PDT are folded; 1,024 by default.
    pub fold_entries: u64,
    /// How many entries, if they are a fiftieth of the rows too, a table has when it gets a checkpoint; 10,000 by
    /// default.
    pub checkpoint_entries: u64,
    /// Bytes of journal above which each table with an old checkpoint gets one; 67,108,864 by default.
    pub journal_bytes: u64,
    /// Bytes of memory for the changes of the last commits over all tables, which late commits and
    /// [`Table::changes`](crate::Table::changes) need; the oldest are freed first. 268,435,456 by default.
    pub kept_bytes: u64,
    /// The mode of new files, less the umask; 0o666 by default. Folders get the right to search beside that to read.
    pub mode: u32,
}

impl Default for DatabaseOptions {
    fn default() -> DatabaseOptions {
        DatabaseOptions {
            sync: SyncMode::Full,
            early_reads: false,
            maintenance: true,
            read_only: false,
            fold_entries: 1024,
            checkpoint_entries: 10_000,
            journal_bytes: 64 << 20,
            kept_bytes: 256 << 20,
            mode: 0o666,
        }
    }
}

impl DatabaseOptions {
    /// For the library, to which a zero stands for the default: here it is a limit outside its range.
    pub(crate) fn passed(&self) -> Result<ffi::DatabaseOptions, Error> {
        let DatabaseOptions { fold_entries, checkpoint_entries, journal_bytes, kept_bytes, mode, .. } = *self;
        let counts = [
            ("fold_entries", fold_entries),
            ("checkpoint_entries", checkpoint_entries),
            ("journal_bytes", journal_bytes),
            ("kept_bytes", kept_bytes),
        ];
        if let Some((name, _)) = counts.iter().find(|(_, count)| *count == 0) {
            return Err(Error::with(ErrorKind::BadLimit, format_args!("{name} is 0: 1 or more is wanted")));
        }
        if mode == 0 || mode > 0o777 {
            return Err(Error::with(ErrorKind::BadLimit, format_args!("mode is {mode:#o}: 0o1 to 0o777 is wanted")));
        }
        let sync = match self.sync {
            SyncMode::Full => ffi::SYNC_FULL,
            SyncMode::Normal => ffi::SYNC_NORMAL,
            SyncMode::Off => ffi::SYNC_OFF,
        };
        Ok(ffi::DatabaseOptions {
            size: size_of::<ffi::DatabaseOptions>(),
            sync,
            early_reads: self.early_reads,
            no_maintenance: !self.maintenance,
            read_only: self.read_only,
            fold_entries,
            checkpoint_entries,
            journal_bytes,
            kept_bytes,
            mode,
        })
    }
}

/// The report of an opening.
#[derive(Clone, Copy, Debug, PartialEq, Eq)]
#[non_exhaustive]
pub struct Report {
    /// The number of the newest commit.
    pub commits: u64,
    /// Commits that were replayed from the journal, since no checkpoint has them.
    pub replayed: u64,
    /// Bytes at the journal's end that were no complete commit. None of them was acknowledged; they are cut off.
    pub torn_bytes: u64,
}

/// Why a database isn't opened, and where. No file of it has changed.
#[derive(Clone, Debug, PartialEq, Eq)]
#[non_exhaustive]
pub struct DatabaseError {
    /// The error: see [`Database::open`](crate::Database::open).
    pub error: Error,
    /// The file in the folder, if there is one.
    pub file: Option<String>,
    /// The number of the commit, if there is one.
    pub commit: Option<u64>,
}

/// A report for the library to fill.
pub(crate) fn unfilled() -> ffi::Report {
    let size = size_of::<ffi::Report>();
    ffi::Report { size, commits: 0, replayed: 0, torn_bytes: 0, fault: 0, file: [0; ffi::FILE_NAME] }
}

impl Report {
    /// The report that the library has written, after `done` has looked at the code that it returned.
    pub(crate) fn told(done: Result<(), Error>, report: &ffi::Report) -> Result<Report, DatabaseError> {
        let ffi::Report { commits, replayed, torn_bytes, .. } = *report;
        done.map_err(|error| DatabaseError::told(error, report))?;
        Ok(Report { commits, replayed, torn_bytes })
    }
}

impl DatabaseError {
    fn told(error: Error, report: &ffi::Report) -> DatabaseError {
        let mut file = [0; ffi::FILE_NAME];
        file.iter_mut().zip(&report.file).for_each(|(to, from)| *to = *from as u8);
        let name = file.split(|byte| *byte == 0).next().and_then(|name| std::str::from_utf8(name).ok());
        let file = name.filter(|name| !name.is_empty()).and_then(|name| owned(name).ok());
        DatabaseError { error, file, commit: (report.fault != 0).then_some(report.fault) }
    }
}

impl From<Error> for DatabaseError {
    fn from(error: Error) -> DatabaseError {
        DatabaseError { error, file: None, commit: None }
    }
}

impl From<DatabaseError> for Error {
    fn from(refused: DatabaseError) -> Error {
        refused.error
    }
}

impl fmt::Display for DatabaseError {
    fn fmt(&self, f: &mut fmt::Formatter<'_>) -> fmt::Result {
        self.error.fmt(f)?;
        if let Some(file) = &self.file {
            write!(f, ": {file}")?;
        }
        if let Some(commit) = self.commit {
            write!(f, ": commit {commit}")?;
        }
        Ok(())
    }
}

impl std::error::Error for DatabaseError {}

/// A database's counters since its opening, and what it has now.
#[derive(Clone, Copy, Debug, PartialEq, Eq)]
#[non_exhaustive]
pub struct DatabaseCounts {
    /// The number of the newest commit.
    pub commits: u64,
    /// The number of the newest commit that is known to be on the device.
    pub durable: u64,
    /// Writes to the journal, each of one commit or several.
    pub batches: u64,
    /// Syncs of the journal.
    pub syncs: u64,
    /// Folds by maintenance.
    pub folds: u64,
    /// Checkpoints by maintenance.
    pub checkpoints: u64,
    /// How often maintenance failed.
    pub faults: u64,
    /// Bytes of the journal's files now.
    pub journal_bytes: u64,
    /// Files of the journal now.
    pub journal_files: usize,
    /// Tables now.
    pub tables: usize,
    /// Bytes of memory that the retained changes of commits take, an estimate.
    pub kept_bytes: u64,
}

impl DatabaseCounts {
    /// The counts that the library has returned.
    pub(crate) fn told(counts: &ffi::DatabaseCounts) -> DatabaseCounts {
        DatabaseCounts {
            commits: counts.commits,
            durable: counts.durable,
            batches: counts.batches,
            syncs: counts.syncs,
            folds: counts.folds,
            checkpoints: counts.checkpoints,
            faults: counts.faults,
            journal_bytes: counts.journal_bytes,
            journal_files: counts.journal_files,
            tables: counts.tables,
            kept_bytes: counts.kept_bytes,
        }
    }
}
