//! Tables over columns that the caller has, and images as bytes.
use crate::error::{done, refused};
use crate::sentences::Quoted;
use crate::{ColumnType, Error, ErrorKind, Options, Table, ffi};
use std::any::Any;
use std::ffi::{CString, c_int, c_void};
use std::fmt;
use std::panic::{AssertUnwindSafe, catch_unwind, resume_unwind};
use std::ptr;

/// The values of a column in the caller's memory, one for each row.
#[derive(Clone, Copy, Debug)]
pub enum ColumnValues<'a> {
    /// Numbers.
    Ints(&'a [i64]),
    /// Texts: where each begins in the bytes, and where the last one ends.
    Texts {
        /// One for each row, and one more; none descends, and none passes the bytes.
        offsets: &'a [u64],
        /// UTF-8, at most 4,096 bytes for each text.
        bytes: &'a [u8],
    },
    /// Booleans.
    Bools(&'a [bool]),
    /// Values that stay with the caller, of a column that isn't a key column: its rows read as 0, an empty text or
    /// false until a transaction sets them. [`Transaction::row_runs`](crate::Transaction::row_runs) reports where the
    /// rows are.
    Outside {
        /// Their type.
        column_type: ColumnType,
        /// How many there are.
        rows: usize,
    },
}

impl ColumnValues<'_> {
    /// How many values there are.
    pub fn rows(&self) -> usize {
        match self {
            ColumnValues::Ints(ints) => ints.len(),
            ColumnValues::Texts { offsets, .. } => offsets.len().saturating_sub(1),
            ColumnValues::Bools(booleans) => booleans.len(),
            ColumnValues::Outside { rows, .. } => *rows,
        }
    }

    fn passed(&self, name: &CString) -> ffi::Column {
        let mut column = ffi::Column {
            name: name.as_ptr(),
            column_type: ffi::INT,
            rows: self.rows() as u64,
            numbers: ptr::null(),
            offsets: ptr::null(),
            bytes: ptr::null(),
            len: 0,
        };
        match self {
            ColumnValues::Ints(ints) => column.numbers = ints.as_ptr(),
            ColumnValues::Texts { offsets, bytes } => {
                column.column_type = ffi::TEXT;
                column.offsets = offsets.as_ptr();
                column.bytes = bytes.as_ptr();
                column.len = bytes.len();
            }
            ColumnValues::Bools(booleans) => {
                column.column_type = ffi::BOOL;
                column.bytes = booleans.as_ptr().cast();
            }
            ColumnValues::Outside { column_type, .. } => column.column_type = column_type.passed() | ffi::OUTSIDE,
        }
        column
    }
}

/// A name with a zero behind it. [`ErrorKind::BadTable`] where it has one, [`ErrorKind::NoMemory`].
pub(crate) fn passed_name(name: &str) -> Result<CString, Error> {
    let mut bytes = Vec::new();
    bytes.try_reserve_exact(name.len() + 1)?;
    bytes.extend_from_slice(name.as_bytes());
    CString::new(bytes).map_err(|_| {
        let quoted = Quoted(name);
        Error::with(ErrorKind::BadTable, format_args!("a column can't have the name {quoted}, which has a zero byte"))
    })
}

/// Columns as the library takes them: their values, borrowed, and their names, each with a zero at its end.
pub(crate) struct Passed<'a> {
    columns: &'a [(&'a str, ColumnValues<'a>)],
    names: Vec<CString>,
}

impl<'a> Passed<'a> {
    pub(crate) fn of(columns: &'a [(&'a str, ColumnValues<'a>)]) -> Result<Passed<'a>, Error> {
        let mut names = Vec::new();
        names.try_reserve_exact(columns.len())?;
        for (name, _) in columns {
            names.push(passed_name(name)?);
        }
        Ok(Passed { columns, names })
    }

    /// Makes a call of the library that opens a table over them.
    pub(crate) fn open(
        &self,
        call: impl FnOnce(&[ffi::Column], *mut ffi::Place, *mut *mut ffi::Table) -> c_int,
    ) -> Result<*mut ffi::Table, ColumnsError> {
        let mut passed = Vec::new();
        passed.try_reserve_exact(self.columns.len()).map_err(Error::from)?;
        passed.extend(self.columns.iter().zip(&self.names).map(|((_, values), name)| values.passed(name)));
        let (mut place, mut raw) = (ffi::Place::default(), ptr::null_mut());
        let code = call(&passed, &mut place, &mut raw);
        let ffi::Place { row, column } = place;
        match code {
            ffi::SHAPE => Err(ColumnsError::Value { row, column, error: refused(code) }),
            ffi::NOT_ASCENDING => Err(ColumnsError::NotAscending { row, error: refused(code) }),
            code => {
                done(code)?;
                Ok(raw)
            }
        }
    }
}

/// Why columns don't make a table. Rows and columns count from 0.
#[derive(Clone, Debug, PartialEq, Eq)]
pub enum ColumnsError {
    /// The value at this row isn't one of its column's type: a text has offsets that descend or pass the bytes, isn't
    /// UTF-8, or has more than 4,096 bytes. Or the column has no value for this row, or values beyond the rows of the
    /// first column.
    Value {
        /// The first such row of the column.
        row: u64,
        /// The first such column.
        column: u64,
        /// [`ErrorKind::TypeMismatch`], with the sentence.
        error: Error,
    },
    /// The key of this row isn't above the key of the row before it.
    NotAscending {
        /// The first such row.
        row: u64,
        /// [`ErrorKind::NotAscending`], with the sentence.
        error: Error,
    },
    /// [`ErrorKind::BadTable`]: the names, the types and the key don't make columns. [`ErrorKind::TooManyRows`],
    /// [`ErrorKind::BadLimit`], [`ErrorKind::NoMemory`]. [`ErrorKind::Misuse`]: values of a database's table stay with
    /// the caller.
    Other(Error),
}

impl From<Error> for ColumnsError {
    fn from(error: Error) -> ColumnsError {
        ColumnsError::Other(error)
    }
}

impl From<ColumnsError> for Error {
    fn from(error: ColumnsError) -> Error {
        match error {
            ColumnsError::Value { error, .. } | ColumnsError::NotAscending { error, .. } => error,
            ColumnsError::Other(error) => error,
        }
    }
}

impl fmt::Display for ColumnsError {
    fn fmt(&self, f: &mut fmt::Formatter<'_>) -> fmt::Result {
        match self {
            ColumnsError::Value { error, .. } | ColumnsError::NotAscending { error, .. } => error.fmt(f),
            ColumnsError::Other(error) => error.fmt(f),
        }
    }
}

impl std::error::Error for ColumnsError {}

/// A part of a checkpoint.
#[derive(Clone, Copy, Debug, PartialEq, Eq, Hash)]
pub enum CheckpointPart {
    /// The header, which comes first.
    Header,
    /// A column, from 0.
    Column(usize),
}

/// Why a checkpoint's bytes weren't all passed on.
#[derive(Debug)]
pub enum CheckpointError<E> {
    /// The function returned this error for this part. It wasn't called again.
    Write(CheckpointPart, E),
    /// [`ErrorKind::NoMemory`], [`ErrorKind::WritesFailed`], or [`ErrorKind::Misuse`] if this thread holds a prepared
    /// commit of the table.
    Other(Error),
}

impl<E: fmt::Display> fmt::Display for CheckpointError<E> {
    fn fmt(&self, f: &mut fmt::Formatter<'_>) -> fmt::Result {
        match self {
            CheckpointError::Write(CheckpointPart::Header, error) => {
                write!(f, "{}: header: {error}", ErrorKind::DeviceFailed)
            }
            CheckpointError::Write(CheckpointPart::Column(column), error) => {
                write!(f, "{}: column {column}: {error}", ErrorKind::DeviceFailed)
            }
            CheckpointError::Other(error) => error.fmt(f),
        }
    }
}

impl<E: std::error::Error> std::error::Error for CheckpointError<E> {}

/// A function that takes the bytes of a part of an image.
type TakeBytes<'w, E> = dyn FnMut(CheckpointPart, &[u8]) -> Result<(), E> + 'w;

/// A writer that is called from C, how it failed, and a panic that is not to pass through C.
struct Writer<'w, E> {
    write: &'w mut TakeBytes<'w, E>,
    failed: Option<(CheckpointPart, E)>,
    panic: Option<Box<dyn Any + Send>>,
}

/// # Safety
/// The context is a `Writer<E>` that nothing else uses, and the bytes are there during the call.
unsafe extern "C" fn take_bytes<E>(context: *mut c_void, column: usize, bytes: *const u8, len: usize) -> c_int {
    // SAFETY: the caller promises it.
    let (writer, bytes) = unsafe { (&mut *context.cast::<Writer<'_, E>>(), std::slice::from_raw_parts(bytes, len)) };
    let part = if column == ffi::HEADER { CheckpointPart::Header } else { CheckpointPart::Column(column) };
    match catch_unwind(AssertUnwindSafe(|| (writer.write)(part, bytes))) {
        Ok(Ok(())) => return 0,
        Ok(Err(error)) => writer.failed = Some((part, error)),
        Err(panic) => writer.panic = Some(panic),
    }
    1
}

impl Table {
    /// Opens a table over columns, with their rows in ascending key. The first `key` columns are the key. The values
    /// are copied and checked column by column, the keys last.
    ///
    /// # Errors
    ///
    /// - [`ColumnsError::Value`]: a value isn't one of its type, or the columns have different numbers of rows.
    /// - [`ColumnsError::NotAscending`]: a row's key isn't above the key of the row before it.
    /// - [`ColumnsError::Other`]: [`ErrorKind::BadTable`] for a name, a type or a key that isn't valid,
    ///   [`ErrorKind::TooManyRows`], [`ErrorKind::BadLimit`] or [`ErrorKind::NoMemory`].
    ///
    /// ```
    /// use narthexmace::{ColumnValues, ColumnsError, Options, Table};
    /// let id = ColumnValues::Ints(&[10, 20]);
    /// let name = ColumnValues::Texts { offsets: &[0, 3, 6], bytes: b"AnnBob" };
    /// let table = Table::from_columns(&[("id", id), ("name", name)], 1, &Options::default())?;
    /// assert_eq!(Some("Bob"), table.begin()?.row_at(1)?.unwrap()[1].as_text());
    /// let twice = Table::from_columns(&[("id", ColumnValues::Ints(&[10, 10]))], 1, &Options::default());
    /// let Err(ColumnsError::NotAscending { row: 1, error }) = twice else { panic!() };
    /// assert_eq!("row 1: the key id=10 is not above the key id=10 of the row before it", error.to_string());
    /// # Ok::<(), narthexmace::Error>(())
    /// ```
    pub fn from_columns(
        columns: &[(&str, ColumnValues<'_>)],
        key: usize,
        options: &Options,
    ) -> Result<Table, ColumnsError> {
        let options = options.passed()?;
        let raw = Passed::of(columns)?.open(|columns, place, raw| {
            // SAFETY: each column has as many values as it says, where it says; all is there during the call.
            unsafe { ffi::pdt_open_columns(columns.as_ptr(), columns.len(), key, &options, place, raw) }
        })?;
        // SAFETY: an opening that is done hands out a table.
        Ok(unsafe { Table::adopt(raw) }?)
    }

    /// Opens a table over the bytes of a checkpoint, which [`checkpoint_to`](Table::checkpoint_to) passed on: those of
    /// its header, and of its columns.
    ///
    /// # Errors
    ///
    /// - [`ErrorKind::BadTable`]: the header doesn't describe columns.
    /// - [`ErrorKind::BadCheckpoint`]: a column's bytes can't be read as one, or there are too few or too many columns.
    /// - [`ErrorKind::NoCheckpoint`]: the bytes contain no complete checkpoint.
    /// - [`ErrorKind::TooManyRows`]: more rows than [`Options::row_limit`].
    /// - [`ErrorKind::BadLimit`]: an option is outside its range.
    /// - [`ErrorKind::NoMemory`]: out of memory.
    pub fn recover_from(header: &[u8], columns: &[&[u8]], options: &Options) -> Result<Table, Error> {
        let options = options.passed()?;
        let mut passed = Vec::new();
        passed.try_reserve_exact(columns.len())?;
        passed.extend(columns.iter().map(|bytes| ffi::Bytes { at: bytes.as_ptr().cast(), len: bytes.len() }));
        let (mut generation, mut raw) = (0, ptr::null_mut());
        // SAFETY: each pointer and its length are one slice's; all is there during the call.
        done(unsafe {
            ffi::pdt_recover_from(
                header.as_ptr().cast(),
                header.len(),
                passed.as_ptr(),
                passed.len(),
                &options,
                &mut generation,
                &mut raw,
            )
        })?;
        // SAFETY: a recovery that is done hands out a table.
        unsafe { Table::adopt(raw) }
    }

    /// Passes the bytes of a checkpoint of the newest version to `write`: those of the header, then of each column. In
    /// memory it is the stable table then. The caller makes the bytes durable. Commits wait for two folds, and not for
    /// `write`, which may call on the table. A panic of `write` is resumed here.
    ///
    /// # Errors
    ///
    /// - [`CheckpointError::Write`]: `write` returned an error for this part; it isn't called again.
    /// - [`CheckpointError::Other`]: [`ErrorKind::NoMemory`], or [`ErrorKind::Misuse`] if this thread holds a prepared
    ///   commit of the table.
    ///
    /// ```
    /// use narthexmace::{CheckpointPart, Options, Table};
    /// let table = Table::open("id:int:key\n10\n", &Options::default())?;
    /// let (mut header, mut column) = (Vec::new(), Vec::new());
    /// table
    ///     .checkpoint_to(|part, bytes| {
    ///         if part == CheckpointPart::Header { &mut header } else { &mut column }.extend_from_slice(bytes);
    ///         Ok::<(), ()>(())
    ///     })
    ///     .unwrap();
    /// let again = Table::recover_from(&header, &[&column], &Options::default())?;
    /// assert_eq!(1, again.begin()?.rows());
    /// # Ok::<(), narthexmace::Error>(())
    /// ```
    pub fn checkpoint_to<E>(
        &self,
        mut write: impl FnMut(CheckpointPart, &[u8]) -> Result<(), E>,
    ) -> Result<(), CheckpointError<E>> {
        let mut writer = Writer { write: &mut write, failed: None, panic: None };
        // SAFETY: the table is open while `self` is there; the writer is there during the call, and used by it alone.
        let code = unsafe {
            ffi::pdt_checkpoint_to(self.as_raw(), take_bytes::<E>, (&raw mut writer).cast(), ptr::null_mut())
        };
        if let Some(panic) = writer.panic {
            resume_unwind(panic);
        }
        match writer.failed {
            Some((part, error)) => Err(CheckpointError::Write(part, error)),
            None => done(code).map_err(CheckpointError::Other),
        }
    }
}
