//! Why a call did not do what it was asked.
use crate::{DatabaseTransaction, Transaction, ffi, sentences};
use std::ffi::{CStr, c_int};
use std::fmt;
use std::io;

/// The kinds of [`Error`]s: one for each code of `pdt.h`. Nothing has changed then, unless a variant says otherwise.
/// docs/ERRORS.md in the repository has what to do.
#[derive(Clone, Copy, Debug, PartialEq, Eq, Hash)]
#[non_exhaustive]
pub enum ErrorKind {
    /// Out of memory.
    NoMemory,
    /// A concurrent commit modified the same data. The transaction is over.
    Conflict,
    /// The changes of a commit since the transaction began aren't retained any more. The transaction is over.
    TooOld,
    /// The table would have more rows than its limit. After a commit the transaction is over.
    Full,
    /// A row with this key exists.
    Duplicate,
    /// No row has this key, the savepoint is gone, or a commit isn't retained any more. Or no table has this name, or
    /// it was created after the database transaction began.
    Missing,
    /// Cells don't fit their columns: a wrong number or type, a text of more than 4,096 bytes, a key column to be set,
    /// or there is no such column. Or a name isn't valid for a table.
    TypeMismatch,
    /// The text isn't a table: [`OpenError`] has the fault.
    BadTable,
    /// A member of [`Options`](crate::Options) or [`DatabaseOptions`](crate::DatabaseOptions) is outside its range.
    BadLimit,
    /// The table has more rows than the limit.
    TooManyRows,
    /// A buffer is too small. The calls of this crate grow theirs, so that none returns this.
    TooSmall,
    /// A column's file can't be read as one.
    BadCheckpoint,
    /// The files contain no complete checkpoint.
    NoCheckpoint,
    /// The call isn't allowed now: this thread holds a prepared commit of the table, or the checkpoint isn't written
    /// yet, or is written or installed already. Or a path has a zero byte, or is too long. For a database: the table is
    /// in use, or is in another database, or a part over it is there already.
    Misuse,
    /// A file can't be created, written, synced or read.
    Io {
        /// The system's error number, as [`io::Error::from_raw_os_error`] takes it.
        errno: i32,
    },
    /// A file of a checkpoint, or a table of this name, exists already.
    Exists,
    /// A fold or another checkpoint came since the checkpoint began.
    Superseded,
    /// A row's key isn't above the key of the row before it.
    NotAscending,
    /// The function that takes a checkpoint's bytes, or an Arrow stream, failed.
    DeviceFailed,
    /// This process or another has the database open.
    Locked,
    /// Durable data is corrupt: [`DatabaseError`](crate::DatabaseError) has the file or the commit.
    Corrupt,
    /// A commit or a file of a database is missing: [`DatabaseError`](crate::DatabaseError) has which.
    Incomplete,
    /// The journal isn't the journal of the database's tables: [`DatabaseError`](crate::DatabaseError) has the commit.
    Mismatch,
    /// I/O error during a commit, which is over: whether it is durable is unknown until its database is reopened.
    OutcomeUnknown,
    /// An earlier write failed: the database takes no writes until it is reopened.
    WritesFailed,
    /// The transaction's changes take 4 GiB or more in the journal.
    TooLong,
    /// The database was opened read-only.
    ReadOnly,
    /// A later version of the library wrote a file of the database: [`DatabaseError`](crate::DatabaseError) has which.
    NewerFormat,
    /// A code of a later version of the library than this crate is for.
    Unknown(i32),
}

impl ErrorKind {
    fn code(self) -> c_int {
        match self {
            ErrorKind::NoMemory => ffi::NOMEM,
            ErrorKind::Conflict => ffi::CONFLICT,
            ErrorKind::TooOld => ffi::TOO_OLD,
            ErrorKind::Full => ffi::FULL,
            ErrorKind::Duplicate => ffi::DUPLICATE,
            ErrorKind::Missing => ffi::MISSING,
            ErrorKind::TypeMismatch => ffi::SHAPE,
            ErrorKind::BadTable => ffi::BAD_TABLE,
            ErrorKind::BadLimit => ffi::BAD_LIMIT,
            ErrorKind::TooManyRows => ffi::TOO_MANY_ROWS,
            ErrorKind::TooSmall => ffi::TOO_SMALL,
            ErrorKind::BadCheckpoint => ffi::BAD_STORE,
            ErrorKind::NoCheckpoint => ffi::NO_IMAGE,
            ErrorKind::Misuse => ffi::MISUSE,
            ErrorKind::Io { .. } => ffi::IO,
            ErrorKind::Exists => ffi::EXISTS,
            ErrorKind::Superseded => ffi::SUPERSEDED,
            ErrorKind::NotAscending => ffi::NOT_ASCENDING,
            ErrorKind::DeviceFailed => ffi::DEVICE_FAILED,
            ErrorKind::Locked => ffi::LOCKED,
            ErrorKind::Corrupt => ffi::ROT,
            ErrorKind::Incomplete => ffi::GAP,
            ErrorKind::Mismatch => ffi::MISFIT,
            ErrorKind::OutcomeUnknown => ffi::UNSURE,
            ErrorKind::WritesFailed => ffi::FAILED,
            ErrorKind::TooLong => ffi::TOO_LONG,
            ErrorKind::ReadOnly => ffi::READONLY,
            ErrorKind::NewerFormat => ffi::NEWER_FORMAT,
            ErrorKind::Unknown(code) => code,
        }
    }

    /// The kind of a code other than `OK`. Called right after the call that answered it, since an `IO` reads errno.
    fn of(code: c_int) -> ErrorKind {
        match code {
            ffi::NOMEM => ErrorKind::NoMemory,
            ffi::CONFLICT => ErrorKind::Conflict,
            ffi::TOO_OLD => ErrorKind::TooOld,
            ffi::FULL => ErrorKind::Full,
            ffi::DUPLICATE => ErrorKind::Duplicate,
            ffi::MISSING => ErrorKind::Missing,
            ffi::SHAPE => ErrorKind::TypeMismatch,
            ffi::BAD_TABLE => ErrorKind::BadTable,
            ffi::BAD_LIMIT => ErrorKind::BadLimit,
            ffi::TOO_MANY_ROWS => ErrorKind::TooManyRows,
            ffi::TOO_SMALL => ErrorKind::TooSmall,
            ffi::BAD_STORE => ErrorKind::BadCheckpoint,
            ffi::NO_IMAGE => ErrorKind::NoCheckpoint,
            ffi::MISUSE => ErrorKind::Misuse,
            ffi::IO => ErrorKind::Io { errno: io::Error::last_os_error().raw_os_error().unwrap_or(0) },
            ffi::EXISTS => ErrorKind::Exists,
            ffi::SUPERSEDED => ErrorKind::Superseded,
            ffi::NOT_ASCENDING => ErrorKind::NotAscending,
            ffi::DEVICE_FAILED => ErrorKind::DeviceFailed,
            ffi::LOCKED => ErrorKind::Locked,
            ffi::ROT => ErrorKind::Corrupt,
            ffi::GAP => ErrorKind::Incomplete,
            ffi::MISFIT => ErrorKind::Mismatch,
            ffi::UNSURE => ErrorKind::OutcomeUnknown,
            ffi::FAILED => ErrorKind::WritesFailed,
            ffi::TOO_LONG => ErrorKind::TooLong,
            ffi::READONLY => ErrorKind::ReadOnly,
            ffi::NEWER_FORMAT => ErrorKind::NewerFormat,
            code => ErrorKind::Unknown(code),
        }
    }
}

/// The sentence of the kind alone.
impl fmt::Display for ErrorKind {
    fn fmt(&self, f: &mut fmt::Formatter<'_>) -> fmt::Result {
        // SAFETY: the text of a code is never null, ends with a zero, and is there as long as the program.
        let text = unsafe { CStr::from_ptr(ffi::pdt_code_text(self.code())) };
        f.write_str(&text.to_string_lossy())?;
        match self {
            ErrorKind::Io { errno } => write!(f, ": {}", io::Error::from_raw_os_error(*errno)),
            _ => Ok(()),
        }
    }
}

/// Why a call failed: a kind to match on, and a sentence for people. The sentence names the column, the value, the type
/// that is wanted and the key, as far as the call knows them; it is what [`Display`](fmt::Display) writes.
///
/// Two errors are equal if their kinds are, whatever their sentences say, and an error may be compared with a kind.
///
/// ```
/// use narthexmace::{Error, ErrorKind, Options, Table};
/// let table = Table::open("id:int:key,name:text\n7,Ann\n", &Options::default())?;
/// let error = table.begin()?.delete([8]).unwrap_err();
/// assert_eq!(error, ErrorKind::Missing);
/// assert_eq!("no row has the key id=8", error.to_string());
/// # Ok::<(), Error>(())
/// ```
#[derive(Clone)]
pub struct Error {
    kind: ErrorKind,
    /// None where it is the kind's, or memory was refused.
    sentence: Option<Box<str>>,
}

impl Error {
    /// The kind.
    pub fn kind(&self) -> ErrorKind {
        self.kind
    }

    /// An error with a sentence.
    pub(crate) fn with(kind: ErrorKind, sentence: fmt::Arguments<'_>) -> Error {
        Error { kind, sentence: sentences::spelt(sentence) }
    }

    /// The error of a code other than `OK`, with the library's sentence. Called right after the call that answered it.
    fn of(code: c_int) -> Error {
        let kind = ErrorKind::of(code);
        // SAFETY: neither sentence is ever null; they end with a zero, and no other call is made meanwhile.
        let sentence = unsafe {
            let (plain, told) = (ffi::pdt_code_text(code), ffi::pdt_errmsg(code));
            (plain != told).then(|| CStr::from_ptr(told))
        };
        Error { kind, sentence: sentence.and_then(|told| told.to_str().ok()).and_then(sentences::boxed) }
    }
}

/// The result of a call, by the code that it returned.
pub(crate) fn done(code: c_int) -> Result<(), Error> {
    if code == ffi::OK { Ok(()) } else { Err(Error::of(code)) }
}

/// The error of a code that isn't `OK`: see [`done`].
pub(crate) fn refused(code: c_int) -> Error {
    Error::of(code)
}

impl fmt::Display for Error {
    fn fmt(&self, f: &mut fmt::Formatter<'_>) -> fmt::Result {
        match &self.sentence {
            Some(sentence) => f.write_str(sentence),
            None => self.kind.fmt(f),
        }
    }
}

impl fmt::Debug for Error {
    fn fmt(&self, f: &mut fmt::Formatter<'_>) -> fmt::Result {
        match &self.sentence {
            Some(sentence) => write!(f, "{:?}: {sentence}", self.kind),
            None => self.kind.fmt(f),
        }
    }
}

impl std::error::Error for Error {}

impl PartialEq for Error {
    fn eq(&self, other: &Error) -> bool {
        self.kind == other.kind
    }
}

impl Eq for Error {}

impl PartialEq<ErrorKind> for Error {
    fn eq(&self, kind: &ErrorKind) -> bool {
        self.kind == *kind
    }
}

impl PartialEq<Error> for ErrorKind {
    fn eq(&self, error: &Error) -> bool {
        *self == error.kind
    }
}

/// An error with the sentence of its kind.
impl From<ErrorKind> for Error {
    fn from(kind: ErrorKind) -> Error {
        Error { kind, sentence: None }
    }
}

impl From<std::collections::TryReserveError> for Error {
    fn from(_: std::collections::TryReserveError) -> Error {
        ErrorKind::NoMemory.into()
    }
}

/// The first fault of text that isn't a table. [`Display`](fmt::Display) writes a sentence with the place.
#[derive(Clone, Debug, PartialEq, Eq)]
#[non_exhaustive]
pub struct TableFault {
    /// The record, from 1 with the header.
    pub record: u64,
    /// The cell, from 0; 0 for the whole record.
    pub column: u64,
    /// The cause, in English.
    pub cause: &'static str,
    error: Error,
}

impl TableFault {
    /// The fault that the library has found in a text.
    ///
    /// # Safety
    /// `pdt_open_csv` has just returned `BAD_TABLE`, and written the fault.
    pub(crate) unsafe fn told(fault: &ffi::Fault) -> TableFault {
        let error = Error::of(ffi::BAD_TABLE);
        // SAFETY: the cause is never null then, ends with a zero, and is there as long as the program.
        let cause = unsafe { CStr::from_ptr::<'static>(fault.cause) };
        let ffi::Place { row, column } = fault.place;
        TableFault { record: row, column, cause: cause.to_str().unwrap_or("no table"), error }
    }
}

impl fmt::Display for TableFault {
    fn fmt(&self, f: &mut fmt::Formatter<'_>) -> fmt::Result {
        self.error.fmt(f)
    }
}

/// Why a table can't be opened over text.
#[derive(Clone, Debug, PartialEq, Eq)]
pub enum OpenError {
    /// The text isn't a table.
    BadTable(TableFault),
    /// Another error: see the call.
    Other(Error),
}

impl From<Error> for OpenError {
    fn from(error: Error) -> OpenError {
        OpenError::Other(error)
    }
}

impl From<OpenError> for Error {
    fn from(error: OpenError) -> Error {
        match error {
            OpenError::BadTable(fault) => fault.error,
            OpenError::Other(error) => error,
        }
    }
}

impl fmt::Display for OpenError {
    fn fmt(&self, f: &mut fmt::Formatter<'_>) -> fmt::Result {
        match self {
            OpenError::BadTable(fault) => fault.fmt(f),
            OpenError::Other(error) => error.fmt(f),
        }
    }
}

impl std::error::Error for OpenError {}

/// Why a commit of a `T`, a transaction or a database transaction, is refused. A variant that has it gives it back as
/// it was, and it may commit again. Else it is over, and a number is the number of the newest version.
#[derive(Debug)]
#[non_exhaustive]
pub enum Refusal<T> {
    /// A concurrent commit modified the same data.
    Conflict(u64),
    /// The changes of a commit since it began aren't retained any more.
    TooOld(u64),
    /// A table would have more rows than its limit.
    Full(u64),
    /// I/O error while the commit was written: whether it is durable is unknown until the database is reopened.
    OutcomeUnknown,
    /// Out of memory: it is still open.
    NoMemory(T),
    /// This thread holds another prepared commit of the table, or of the database: it is still open.
    Misuse(T),
    /// An earlier write failed, and the database takes no writes until it is reopened: it is still open, for reads.
    WritesFailed(T),
    /// The changes take 4 GiB or more in the journal: it is still open.
    TooLong(T),
    /// The database was opened read-only: it is still open, for reads.
    ReadOnly(T),
    /// A code of a later version of the library than this crate is for: it is over as far as this crate knows, and what
    /// it has isn't freed.
    Unknown(i32),
}

/// Why a transaction isn't committed.
pub type CommitError<'s> = Refusal<Transaction<'s>>;

/// Why a database transaction isn't committed.
pub type DatabaseCommitError<'d> = Refusal<DatabaseTransaction<'d>>;

impl<T> Refusal<T> {
    /// The refusal of a commit, by the code that the library has returned. `given_back` is open where the refusal has
    /// it, and is over where it is handed out beside it.
    pub(crate) fn of(code: c_int, number: u64, given_back: T) -> (Refusal<T>, Option<T>) {
        let ended = match code {
            ffi::NOMEM => return (Refusal::NoMemory(given_back), None),
            ffi::MISUSE => return (Refusal::Misuse(given_back), None),
            ffi::FAILED => return (Refusal::WritesFailed(given_back), None),
            ffi::TOO_LONG => return (Refusal::TooLong(given_back), None),
            ffi::READONLY => return (Refusal::ReadOnly(given_back), None),
            ffi::CONFLICT => Refusal::Conflict(number),
            ffi::TOO_OLD => Refusal::TooOld(number),
            ffi::FULL => Refusal::Full(number),
            ffi::UNSURE => Refusal::OutcomeUnknown,
            code => Refusal::Unknown(code),
        };
        (ended, Some(given_back))
    }

    /// The error without the number, and without what is given back.
    pub fn error(&self) -> Error {
        self.kind().into()
    }

    /// Its kind.
    pub fn kind(&self) -> ErrorKind {
        match self {
            Refusal::Conflict(_) => ErrorKind::Conflict,
            Refusal::TooOld(_) => ErrorKind::TooOld,
            Refusal::Full(_) => ErrorKind::Full,
            Refusal::OutcomeUnknown => ErrorKind::OutcomeUnknown,
            Refusal::NoMemory(_) => ErrorKind::NoMemory,
            Refusal::Misuse(_) => ErrorKind::Misuse,
            Refusal::WritesFailed(_) => ErrorKind::WritesFailed,
            Refusal::TooLong(_) => ErrorKind::TooLong,
            Refusal::ReadOnly(_) => ErrorKind::ReadOnly,
            Refusal::Unknown(code) => ErrorKind::Unknown(*code),
        }
    }
}

impl<T> fmt::Display for Refusal<T> {
    fn fmt(&self, f: &mut fmt::Formatter<'_>) -> fmt::Result {
        self.kind().fmt(f)
    }
}

impl<T: fmt::Debug> std::error::Error for Refusal<T> {}

/// Lets what was given back go, so that it is aborted.
impl<T> From<Refusal<T>> for Error {
    fn from(refused: Refusal<T>) -> Error {
        refused.error()
    }
}

#[cfg(test)]
mod tests {
    use super::*;

    #[test]
    fn each_code_has_a_kind_and_a_sentence() {
        for code in ffi::NOMEM..=ffi::READONLY {
            let kind = ErrorKind::of(code);
            assert_eq!(code, kind.code());
            assert_ne!("no such code", kind.to_string());
            assert_eq!(kind.to_string(), Error::from(kind).to_string());
        }
    }

    #[test]
    fn a_code_of_a_later_library_is_unknown() {
        let later = ffi::READONLY + 1;
        assert_eq!((ErrorKind::Unknown(later), later), (ErrorKind::of(later), ErrorKind::of(later).code()));
        assert_eq!("no such code", Error::of(later).to_string());
        assert!(matches!(Refusal::of(later, 7, ()), (Refusal::Unknown(code), Some(())) if code == later));
    }

    #[test]
    fn a_file_that_failed_says_why() {
        let text = Error::from(ErrorKind::Io { errno: 2 }).to_string();
        assert_eq!("a file failed: No such file or directory (os error 2)", text);
    }

    #[test]
    fn a_result_stays_small() {
        assert!(size_of::<Result<(), Error>>() <= 3 * size_of::<usize>());
    }

    #[test]
    fn errors_are_equal_by_their_kinds() {
        let told = Error::with(ErrorKind::Missing, format_args!("no row has the key id=8"));
        assert_eq!((true, true), (told == ErrorKind::Missing, ErrorKind::Missing == told));
        assert_eq!((Error::from(ErrorKind::Missing), ErrorKind::Missing), (told.clone(), told.kind()));
        assert_ne!(Error::from(ErrorKind::Duplicate), told);
        assert_eq!("Missing: no row has the key id=8", format!("{told:?}"));
        assert_eq!("Missing", format!("{:?}", Error::from(ErrorKind::Missing)));
    }
}
