//! Arrow's C streams: rows that go out to whatever reads Arrow, and what comes in from whatever hands out such a stream.
//!
//! The structs are those of Arrow's C data interface and C stream interface, member by member. Their address is handed to
//! another library, which moves what it takes, and a stream of another library's is moved here by
//! [`ArrowArrayStream::take`]. `libpdt/include/pdt_arrow.h` says which formats go out and come in.
#[cfg(doc)]
use crate::ErrorKind;
use crate::cells::owned;
use crate::columns::passed_name;
use crate::error::done;
use crate::transaction::Ending;
use crate::{Error, Options, Pin, Table, Transaction, ffi};
use std::ffi::{CStr, c_char, c_int, c_void};
use std::fmt;
use std::mem::zeroed;
use std::ops::RangeBounds;
use std::ptr;

/// `struct ArrowSchema`: what a stream's batches are. It is released when it is dropped.
#[repr(C)]
#[derive(Debug)]
pub struct ArrowSchema {
    format: *const c_char,
    name: *const c_char,
    metadata: *const c_char,
    flags: i64,
    n_children: i64,
    children: *mut *mut ArrowSchema,
    dictionary: *mut ArrowSchema,
    release: Option<unsafe extern "C" fn(*mut ArrowSchema)>,
    private_data: *mut c_void,
}

/// `struct ArrowArray`: the cells of a batch. It is released when it is dropped, and stays valid whatever becomes of
/// its stream and of the table.
#[repr(C)]
#[derive(Debug)]
pub struct ArrowArray {
    length: i64,
    null_count: i64,
    offset: i64,
    n_buffers: i64,
    n_children: i64,
    buffers: *mut *const c_void,
    children: *mut *mut ArrowArray,
    dictionary: *mut ArrowArray,
    release: Option<unsafe extern "C" fn(*mut ArrowArray)>,
    private_data: *mut c_void,
}

/// `struct ArrowArrayStream`: batches of rows, one after the other. It is released when it is dropped.
///
/// One over a [`Pin`] has a transaction of its own while it is there; a table that is dropped before it stays in
/// memory.
///
/// ```
/// use narthexmace::{ArrowColumn, Options, Table};
/// let table = Table::open("id:int:key,name:text\n10,Ann\n20,Bob\n", &Options::default())?;
/// let mut stream = table.pin()?.arrow(&[ArrowColumn::of(0), ArrowColumn::shown(1, c"u")], .., 0)?;
/// assert_eq!(2, stream.schema()?.columns());
/// let batch = stream.next_batch()?.unwrap();
/// assert_eq!((2, 2), (batch.rows(), batch.columns()));
/// assert!(stream.next_batch()?.is_none());
/// let again = Table::open_arrow(table.pin()?.arrow(&[], .., 0)?, &["name"], &Options::default())?;
/// assert_eq!(2, again.begin()?.rows());
/// # Ok::<(), Box<dyn std::error::Error>>(())
/// ```
#[repr(C)]
#[derive(Debug)]
pub struct ArrowArrayStream {
    get_schema: Option<unsafe extern "C" fn(*mut ArrowArrayStream, *mut ArrowSchema) -> c_int>,
    get_next: Option<unsafe extern "C" fn(*mut ArrowArrayStream, *mut ArrowArray) -> c_int>,
    get_last_error: Option<unsafe extern "C" fn(*mut ArrowArrayStream) -> *const c_char>,
    release: Option<unsafe extern "C" fn(*mut ArrowArrayStream)>,
    private_data: *mut c_void,
}

// SAFETY: the rules of Arrow's C interfaces let any thread use a struct, one at a time.
unsafe impl Send for ArrowSchema {}
// SAFETY: as above.
unsafe impl Send for ArrowArray {}
// SAFETY: as above.
unsafe impl Send for ArrowArrayStream {}

impl Drop for ArrowSchema {
    fn drop(&mut self) {
        if let Some(release) = self.release {
            // SAFETY: it is released once, by whoever has it, as the rules want.
            unsafe { release(self) }
        }
    }
}

impl Drop for ArrowArray {
    fn drop(&mut self) {
        if let Some(release) = self.release {
            // SAFETY: it is released once, by whoever has it, as the rules want.
            unsafe { release(self) }
        }
    }
}

impl Drop for ArrowArrayStream {
    fn drop(&mut self) {
        if let Some(release) = self.release {
            // SAFETY: it is released once, by whoever has it, as the rules want.
            unsafe { release(self) }
        }
    }
}

impl ArrowSchema {
    /// How many columns there are.
    pub fn columns(&self) -> usize {
        usize::try_from(self.n_children).unwrap_or(0)
    }

    /// Its address, for a library that reads it or moves it.
    pub fn as_mut_ptr(&mut self) -> *mut ArrowSchema {
        self
    }
}

impl ArrowArray {
    /// How many rows there are.
    pub fn rows(&self) -> usize {
        usize::try_from(self.length).unwrap_or(0)
    }

    /// How many columns there are.
    pub fn columns(&self) -> usize {
        usize::try_from(self.n_children).unwrap_or(0)
    }

    /// Its address, for a library that reads it or moves it.
    pub fn as_mut_ptr(&mut self) -> *mut ArrowArray {
        self
    }
}

/// Why a stream didn't hand out what it was asked for.
#[derive(Clone, Debug, PartialEq, Eq)]
pub struct ArrowError {
    /// The system's error number: `ENOMEM` is out of memory, and the stream may be asked again.
    pub errno: i32,
    /// The stream's own message.
    pub said: String,
}

impl fmt::Display for ArrowError {
    fn fmt(&self, f: &mut fmt::Formatter<'_>) -> fmt::Result {
        write!(f, "{} ({})", self.said, self.errno)
    }
}

impl std::error::Error for ArrowError {}

impl ArrowArrayStream {
    /// A stream that is released: room for a library that fills one.
    pub const fn empty() -> ArrowArrayStream {
        ArrowArrayStream {
            get_schema: None,
            get_next: None,
            get_last_error: None,
            release: None,
            private_data: ptr::null_mut(),
        }
    }

    /// Its address, for a library that reads it, moves it, or fills it where it is empty.
    pub fn as_mut_ptr(&mut self) -> *mut ArrowArrayStream {
        self
    }

    /// Moves a stream of another library's here: what it was is released then.
    ///
    /// # Safety
    /// At this address is a stream that follows the rules of Arrow's C stream interface, or one that is released, and
    /// no other code uses it meanwhile.
    pub unsafe fn take(at: *mut ArrowArrayStream) -> ArrowArrayStream {
        // SAFETY: the caller promises it; the one that is left behind is released, so that none is dropped twice.
        unsafe { ptr::replace(at, ArrowArrayStream::empty()) }
    }

    /// The schema of the batches.
    ///
    /// # Errors
    ///
    /// [`ArrowError`]: the stream failed, or is released.
    pub fn schema(&mut self) -> Result<ArrowSchema, ArrowError> {
        // SAFETY: all zeros is a schema that is released.
        let mut schema: ArrowSchema = unsafe { zeroed() };
        let call = self.get_schema.filter(|_| self.release.is_some());
        // SAFETY: the stream isn't released, and there is room for a schema.
        let code = call.map_or(RELEASED, |call| unsafe { call(self, &mut schema) });
        self.answered(code).map(|()| schema)
    }

    /// The next batch, or `None` after the last.
    ///
    /// # Errors
    ///
    /// [`ArrowError`]: the stream failed, or is released. A stream of this crate fails with `ENOMEM` if out of memory,
    /// and may be asked again; with `EINVAL` for a number that the requested format can't hold.
    pub fn next_batch(&mut self) -> Result<Option<ArrowArray>, ArrowError> {
        // SAFETY: all zeros is an array that is released.
        let mut array: ArrowArray = unsafe { zeroed() };
        let call = self.get_next.filter(|_| self.release.is_some());
        // SAFETY: the stream isn't released, and there is room for an array.
        let code = call.map_or(RELEASED, |call| unsafe { call(self, &mut array) });
        self.answered(code).map(|()| array.release.is_some().then_some(array))
    }

    fn answered(&mut self, code: c_int) -> Result<(), ArrowError> {
        if code == 0 {
            return Ok(());
        }
        let call = self.get_last_error.filter(|_| self.release.is_some());
        // SAFETY: the stream isn't released, and its last call has failed.
        let said = call.map_or(ptr::null(), |call| unsafe { call(self) });
        // SAFETY: what a stream says ends with a zero, and stays until the next call on it.
        let said = (!said.is_null()).then(|| unsafe { CStr::from_ptr(said) }.to_string_lossy().into_owned());
        Err(ArrowError { errno: code, said: said.unwrap_or_else(|| "the stream says no more".into()) })
    }
}

/// The system's error number for an invalid argument (`EINVAL`): a stream that is released.
const RELEASED: c_int = 22;

/// A column that goes out, and the format in which it does.
#[repr(C)]
#[derive(Clone, Copy, Debug)]
pub struct ArrowColumn<'a> {
    column: usize,
    format: *const c_char,
    of: std::marker::PhantomData<&'a CStr>,
}

impl<'a> ArrowColumn<'a> {
    /// A column in the format of its type: int64, large_string or bool.
    pub const fn of(column: usize) -> ArrowColumn<'a> {
        ArrowColumn { column, format: ptr::null(), of: std::marker::PhantomData }
    }

    /// A column in another format, as Arrow's C data interface spells it: `c"tdD"` is a date.
    pub const fn shown(column: usize, format: &'a CStr) -> ArrowColumn<'a> {
        ArrowColumn { column, format: format.as_ptr(), of: std::marker::PhantomData }
    }
}

/// Columns for the library: none of them are all of the table's.
fn passed(columns: &[ArrowColumn<'_>]) -> *const ArrowColumn<'static> {
    if columns.is_empty() { ptr::null() } else { columns.as_ptr().cast() }
}

impl Pin<'_> {
    /// Its rows between two positions as a stream, in batches of `batch` rows, or of 65,536 for 0. All columns go out
    /// if none is named. The batches are read as they are asked for. Several threads may have streams of one pin at
    /// once.
    ///
    /// # Errors
    ///
    /// - [`ErrorKind::TypeMismatch`]: there is no such column, or the format isn't valid for it.
    /// - [`ErrorKind::NoMemory`]: out of memory; nothing changed.
    pub fn arrow(
        &self,
        columns: &[ArrowColumn<'_>],
        positions: impl RangeBounds<u64>,
        batch: usize,
    ) -> Result<ArrowArrayStream, Error> {
        let (from, to) = within(positions);
        let mut stream = ArrowArrayStream::empty();
        let (at, count) = (passed(columns), columns.len());
        // SAFETY: the pin is not let go; there are as many columns as is said; the stream is room for one.
        done(unsafe { ffi::pdt_arrow(self.raw.as_ptr(), at, count, from, to, batch, &mut stream) })?;
        Ok(stream)
    }
}

impl<E: Ending> Transaction<'_, E> {
    /// The rows that it sees between two positions, with its own writes, as a stream. All of them are copied by this
    /// call, so that the transaction may be written and ended before the stream is read. Else as [`Pin::arrow`].
    ///
    /// # Errors
    ///
    /// - [`ErrorKind::TypeMismatch`]: there is no such column, or the format isn't valid for it.
    /// - [`ErrorKind::NoMemory`]: out of memory; nothing changed.
    pub fn arrow(
        &self,
        columns: &[ArrowColumn<'_>],
        positions: impl RangeBounds<u64>,
        batch: usize,
    ) -> Result<ArrowArrayStream, Error> {
        let (from, to) = within(positions);
        let mut stream = ArrowArrayStream::empty();
        let (at, count) = (passed(columns), columns.len());
        // SAFETY: the transaction is open; there are as many columns as is said; the stream is room for one.
        done(unsafe { ffi::pdt_txn_arrow(self.raw(), at, count, from, to, batch, &mut stream) })?;
        Ok(stream)
    }

    /// Applies the rows of a stream, all of them or none, and returns how many there are. Its columns are matched by
    /// name, in any order; for a delete the key columns are enough. The stream is released.
    ///
    /// # Errors
    ///
    /// [`ArrowRefusal`] has the row and the column. Nothing was written.
    ///
    /// - [`ErrorKind::Duplicate`], [`ErrorKind::Missing`], [`ErrorKind::Full`]: as of the insert or the delete of that
    ///   row.
    /// - [`ErrorKind::TypeMismatch`]: the columns aren't those of the table, or a cell doesn't fit its column.
    /// - [`ErrorKind::DeviceFailed`]: the stream failed, and the cause has its message.
    /// - [`ErrorKind::TooManyRows`]: a batch has more than 2,147,483,647 rows.
    /// - [`ErrorKind::NoMemory`]: out of memory, here or in the stream.
    /// - [`ErrorKind::Misuse`]: the stream is released already.
    pub fn apply_arrow(&mut self, mut stream: ArrowArrayStream, what: Apply) -> Result<u64, ArrowRefusal> {
        let (mut fault, mut rows) = (ffi::ArrowFault::default(), 0);
        // SAFETY: the transaction is open, and nothing reads it meanwhile; the call releases the stream.
        let code = unsafe { ffi::pdt_apply_arrow(self.raw(), &mut stream, what as c_int, &mut fault, &mut rows) };
        answer(code, &fault).map(|()| rows)
    }
}

/// The operation applied to each row of a stream.
#[derive(Clone, Copy, Debug, PartialEq, Eq)]
pub enum Apply {
    /// It is inserted: [`ErrorKind::Duplicate`] where there is a row of its key.
    Insert = 1,
    /// It is inserted, or all cells of the row of its key are set.
    Upsert = 2,
    /// The row of its key is deleted: [`ErrorKind::Missing`] where there is none.
    Delete = 3,
}

/// Why a stream's rows weren't taken. Nothing has changed.
#[derive(Clone, Debug, PartialEq, Eq)]
pub struct ArrowRefusal {
    /// The error.
    pub error: Error,
    /// The row, from 0 over all batches; 0 if there is no place.
    pub row: u64,
    /// The column, from 0 in the stream; 0 if there is no place.
    pub column: u64,
    /// A sentence in English; empty if the error says everything, and if there is no memory for one.
    pub cause: String,
}

impl From<Error> for ArrowRefusal {
    fn from(error: Error) -> ArrowRefusal {
        ArrowRefusal { error, row: 0, column: 0, cause: String::new() }
    }
}

impl fmt::Display for ArrowRefusal {
    fn fmt(&self, f: &mut fmt::Formatter<'_>) -> fmt::Result {
        let ArrowRefusal { error, row, column, cause } = self;
        write!(f, "row {row}, column {column}: ")?;
        if cause.is_empty() { error.fmt(f) } else { f.write_str(cause) }
    }
}

impl std::error::Error for ArrowRefusal {}

fn answer(code: c_int, fault: &ffi::ArrowFault) -> Result<(), ArrowRefusal> {
    let Err(error) = done(code) else { return Ok(()) };
    // SAFETY: the library ends the cause with a zero, and the room ends with one from the beginning.
    let cause = unsafe { CStr::from_ptr(fault.cause.as_ptr()) };
    let cause = owned(cause.to_str().unwrap_or_default()).unwrap_or_default();
    Err(ArrowRefusal { error, row: fault.place.row, column: fault.place.column, cause })
}

/// Two positions, the end at most.
fn within(positions: impl RangeBounds<u64>) -> (u64, u64) {
    use std::ops::Bound::{Excluded, Included, Unbounded};
    let from = match positions.start_bound() {
        Included(&from) => from,
        Excluded(&before) => before.saturating_add(1),
        Unbounded => 0,
    };
    let to = match positions.end_bound() {
        Included(&last) => last.saturating_add(1),
        Excluded(&to) => to,
        Unbounded => u64::MAX,
    };
    (from, to)
}

/// How many bytes the format of a declared column has at most, with a zero at its end.
const FORMAT_BYTES: usize = 64;

impl Table {
    /// Opens a table over the rows of a stream, in any order. The columns of these names are the key; the others
    /// follow. Doubles, dates, times, durations and decimals are [declared](Table::declare) as what they are. The
    /// stream is released.
    ///
    /// # Errors
    ///
    /// [`ArrowRefusal`] has the row and the column.
    ///
    /// - [`ErrorKind::TypeMismatch`]: a value or a format that its column can't hold, or a null where there is none.
    /// - [`ErrorKind::Duplicate`]: two rows have one key.
    /// - [`ErrorKind::BadTable`]: a name or the key isn't valid.
    /// - [`ErrorKind::DeviceFailed`]: the stream failed, and the cause has its message.
    /// - [`ErrorKind::TooManyRows`], [`ErrorKind::BadLimit`]: as of [`Table::open`].
    /// - [`ErrorKind::NoMemory`]: out of memory, here or in the stream.
    /// - [`ErrorKind::Misuse`]: the stream is released already.
    pub fn open_arrow(mut stream: ArrowArrayStream, key: &[&str], options: &Options) -> Result<Table, ArrowRefusal> {
        let options = options.passed()?;
        let raw = open(key, |names, fault, raw| {
            // SAFETY: there are as many names as is said, and all is there during the call, which releases the stream.
            unsafe { ffi::pdt_open_arrow(&mut stream, names.as_ptr(), names.len(), &options, fault, raw) }
        })?;
        // SAFETY: the table has just been opened, and nothing else owns it.
        Ok(unsafe { Table::adopt(raw) }?)
    }

    /// Declares what the numbers of an int column mean, as Arrow's C data interface spells it: `c"tdD"` for dates,
    /// `c"g"` for doubles, and with `?` before it the least number is a null. Streams then use this format; all other
    /// calls return the same numbers. `None` removes the declaration. Other threads may use the table meanwhile: a
    /// stream that has begun keeps its format. In a database the declaration is durable when this returns.
    ///
    /// # Errors
    ///
    /// - [`ErrorKind::TypeMismatch`]: there is no such column, it isn't an int column, or the format isn't valid for
    ///   it.
    /// - [`ErrorKind::Io`]: a file of the database can't be written or synced.
    /// - [`ErrorKind::ReadOnly`]: the database was opened read-only.
    /// - [`ErrorKind::Misuse`]: this thread holds a prepared commit of the table's database.
    pub fn declare(&self, column: usize, format: Option<&CStr>) -> Result<(), Error> {
        // SAFETY: the table is open, and the library lets other threads use it; the format ends with a zero.
        done(unsafe { ffi::pdt_declare(self.as_raw(), column, format.map_or(ptr::null(), CStr::as_ptr)) })
    }

    /// The declared format of a column, or `None`. A column that came in by Arrow as doubles, dates, times or decimals
    /// is declared.
    ///
    /// # Errors
    ///
    /// - [`ErrorKind::TypeMismatch`]: there is no such column.
    /// - [`ErrorKind::NoMemory`]: out of memory.
    pub fn declared(&self, column: usize) -> Result<Option<String>, Error> {
        let mut format = [0; FORMAT_BYTES];
        // SAFETY: the table is open, and there is as much room as is said.
        match unsafe { ffi::pdt_declared_copy(self.as_raw(), column, format.as_mut_ptr(), format.len()) } {
            ffi::SHAPE => return Ok(None), // there is no such column
            code => done(code)?,
        }
        // SAFETY: the library has written a zero behind the format.
        let format = unsafe { CStr::from_ptr(format.as_ptr()) };
        if format.is_empty() { Ok(None) } else { owned(format.to_str().unwrap_or_default()).map(Some) }
    }
}

/// Makes a call of the library that opens a table over a stream, whose columns of these names are the key.
pub(crate) fn open(
    key: &[&str],
    call: impl FnOnce(&[*const c_char], &mut ffi::ArrowFault, &mut *mut ffi::Table) -> c_int,
) -> Result<*mut ffi::Table, ArrowRefusal> {
    let (mut names, mut names_at) = (Vec::new(), Vec::new());
    names.try_reserve_exact(key.len()).map_err(Error::from)?;
    names_at.try_reserve_exact(key.len()).map_err(Error::from)?;
    for name in key {
        names.push(passed_name(name)?);
    }
    names_at.extend(names.iter().map(|name| name.as_ptr()));
    let (mut fault, mut raw) = (ffi::ArrowFault::default(), ptr::null_mut());
    let code = call(&names_at, &mut fault, &mut raw);
    answer(code, &fault).map(|()| raw)
}
