//! A folder of tables that last.
use crate::arrow;
use crate::cells::owned;
use crate::columns::Passed;
use crate::error::{done, refused};
use crate::keeper::Keeper;
use crate::opening::unfilled;
use crate::sentences::Quoted;
use crate::table::path_of;
use crate::table_ref::{Handle, Handles};
use crate::{
    ArrowArrayStream, ArrowRefusal, ColumnValues, ColumnsError, DatabaseCounts, DatabaseError, DatabaseOptions,
    DatabaseTransaction, Error, ErrorKind, OpenError, Options, Report, Table, TableFault, TableRef, ffi,
};
use std::ffi::{CStr, c_char, c_int};
use std::fmt;
use std::path::Path;
use std::ptr::{self, NonNull};
use std::sync::{Arc, Mutex, MutexGuard, PoisonError};

/// A folder of durable tables. Acknowledged commits, on one table or on several by a [`DatabaseTransaction`], are there
/// when the folder is opened again, as far as the [`SyncMode`](crate::SyncMode) says. All tables have one numbering of
/// commits, which goes on then. A background thread folds, writes checkpoints of the tables and deletes files that are
/// no longer needed. Threads share it.
///
/// Don't change anything in the folder by hand; it may be copied while no process has it open.
///
/// A table, a transaction, a pin or a database transaction that is forgotten ([`std::mem::forget`]) stays, and the
/// database is then closed by the end of its process alone.
///
/// ```
/// # fn run(folder: &std::path::Path) -> Result<(), narthexmace::Error> {
/// use narthexmace::{Database, DatabaseOptions, Options, cells};
/// let (database, report) = Database::open(folder, &DatabaseOptions::default())?;
/// assert_eq!(0, report.commits);
/// database.create("people", "id:int:key,name:text\n", &Options::default())?;
/// let people = database.table("people")?;
/// let mut txn = people.begin()?;
/// txn.insert(cells![10, "Ann"])?;
/// txn.commit()?; // on the device once this returns
/// drop(people);
/// database.close()?;
///
/// let (database, report) = Database::open(folder, &DatabaseOptions::default())?;
/// assert_eq!((1, 1), (report.commits, report.replayed));
/// assert_eq!(vec!["people"], database.names()?);
/// assert_eq!(1, database.table("people")?.begin()?.rows());
/// # Ok(())
/// # }
/// # let folder = std::env::temp_dir().join(format!("narthexmace-database-{}", std::process::id()));
/// # run(&folder).unwrap();
/// # std::fs::remove_dir_all(&folder).unwrap();
/// ```
pub struct Database {
    raw: NonNull<ffi::Database>,
    handles: Mutex<Handles>,
    is_closed: bool,
}

// SAFETY: a database is no thread's own, and closed by whichever drops it.
unsafe impl Send for Database {}
// SAFETY: each call on a `pdt_database` but its close takes its locks. The close comes when nothing uses the database.
unsafe impl Sync for Database {}

/// The name of a table, as the library takes it.
type Name = [c_char; ffi::MAX_NAME + 1];

impl Database {
    /// Opens the database in a folder, which is created if it isn't there; the folders above it aren't. All tables, and
    /// the journal, are read into memory.
    ///
    /// # Errors
    ///
    /// [`DatabaseError`] has the cause, and for damage the file or the commit:
    ///
    /// - [`ErrorKind::Locked`]: this process or another has it open.
    /// - [`ErrorKind::Corrupt`]: durable data is corrupt.
    /// - [`ErrorKind::Incomplete`]: a file or a commit is missing.
    /// - [`ErrorKind::Mismatch`]: the journal isn't the journal of these tables.
    /// - [`ErrorKind::BadCheckpoint`], [`ErrorKind::NoCheckpoint`]: a checkpoint can't be read.
    /// - [`ErrorKind::NewerFormat`]: a later version of the library wrote a file.
    /// - [`ErrorKind::Missing`]: read-only, and there is no database in the folder.
    /// - [`ErrorKind::Io`]: a file can't be created, written, synced or read.
    /// - [`ErrorKind::BadLimit`]: an option is outside its range.
    /// - [`ErrorKind::NoMemory`]: out of memory.
    /// - [`ErrorKind::Misuse`]: the path is empty or has a zero byte.
    pub fn open(folder: impl AsRef<Path>, options: &DatabaseOptions) -> Result<(Database, Report), DatabaseError> {
        let folder = path_of(folder.as_ref())?;
        let options = options.passed()?;
        let (mut raw, mut report) = (ptr::null_mut(), unfilled());
        // SAFETY: the path ends with a zero; it, the options, `raw` and the report, which says its size, are there
        // during the call.
        let opened = done(unsafe { ffi::pdt_database_open(folder.as_ptr(), &options, &mut raw, &mut report) });
        let report = Report::told(opened, &report)?;
        let raw = NonNull::new(raw).expect("an opening that is done hands out a database");
        Ok((Database { raw, handles: Mutex::default(), is_closed: false }, report))
    }

    /// The address by which the library knows the database.
    pub(crate) fn as_raw(&self) -> *mut ffi::Database {
        self.raw.as_ptr()
    }

    /// The handles of its tables, which a lock guards.
    pub(crate) fn handles(&self) -> MutexGuard<'_, Handles> {
        self.handles.lock().unwrap_or_else(PoisonError::into_inner)
    }

    /// Creates a table over CSV text, as [`Table::open`] does: a header alone creates an empty one. It is durable when
    /// this returns, with its options, and exists until it is dropped.
    ///
    /// # Errors
    ///
    /// - [`ErrorKind::Exists`]: a table of this name exists.
    /// - [`ErrorKind::TypeMismatch`]: the name hasn't 1 to 64 bytes, or has one below 32 or 127.
    /// - [`OpenError::BadTable`]: the text isn't a table; it has the first fault.
    /// - [`ErrorKind::TooManyRows`], [`ErrorKind::BadLimit`]: as of [`Table::open`].
    /// - [`ErrorKind::Io`]: a file can't be written or synced.
    /// - [`ErrorKind::WritesFailed`]: an earlier write failed.
    /// - [`ErrorKind::Incomplete`]: as of [`maintain`](Database::maintain).
    /// - [`ErrorKind::ReadOnly`]: the database was opened read-only.
    /// - [`ErrorKind::NoMemory`]: out of memory. If this crate's allocator was refused, the table exists, and
    ///   [`table`](Database::table) returns it.
    /// - [`ErrorKind::Misuse`]: this thread holds a prepared commit of the database.
    pub fn create(&self, name: &str, csv: impl AsRef<[u8]>, options: &Options) -> Result<TableRef<'_>, OpenError> {
        let (passed, csv, options) = (name_of(name)?, csv.as_ref(), options.passed()?);
        let mut raw = ptr::null_mut();
        let mut fault = ffi::Fault { place: ffi::Place::default(), cause: ptr::null() };
        // SAFETY: the database is open while `self` is there; the name ends with a zero, the pointer and the length are
        // one slice's, and all is there during the call.
        let code = unsafe {
            let (text, bytes) = (csv.as_ptr().cast(), csv.len());
            ffi::pdt_table_create_csv(self.as_raw(), passed.as_ptr(), text, bytes, &options, &mut fault, &mut raw)
        };
        if code == ffi::BAD_TABLE {
            // SAFETY: at this code the library has written the fault.
            return Err(OpenError::BadTable(unsafe { TableFault::told(&fault) }));
        }
        done(code)?;
        Ok(self.table(name)?)
    }

    /// Creates a table over columns, as [`Table::from_columns`] does; else as [`create`](Database::create).
    ///
    /// # Errors
    ///
    /// Those of [`Table::from_columns`] and [`create`](Database::create).
    pub fn create_from_columns(
        &self,
        name: &str,
        columns: &[(&str, ColumnValues<'_>)],
        key: usize,
        options: &Options,
    ) -> Result<TableRef<'_>, ColumnsError> {
        let (passed, options) = (name_of(name)?, options.passed()?);
        Passed::of(columns)?.open(|columns, place, raw| {
            let (at, count) = (columns.as_ptr(), columns.len());
            // SAFETY: the database is open while `self` is there; the name ends with a zero, each column has as many
            // values as it says, where it says, and all is there during the call.
            unsafe { ffi::pdt_table_create(self.as_raw(), passed.as_ptr(), at, count, key, &options, place, raw) }
        })?;
        Ok(self.table(name)?)
    }

    /// Creates a table over an Arrow stream, as [`Table::open_arrow`] does; else as [`create`](Database::create).
    ///
    /// # Errors
    ///
    /// Those of [`Table::open_arrow`] and [`create`](Database::create).
    pub fn create_from_arrow(
        &self,
        name: &str,
        mut stream: ArrowArrayStream,
        key: &[&str],
        options: &Options,
    ) -> Result<TableRef<'_>, ArrowRefusal> {
        let (passed, options) = (name_of(name)?, options.passed()?);
        arrow::open(key, |names, fault, raw| {
            let (at, count) = (names.as_ptr(), names.len());
            // SAFETY: the database is open while `self` is there; the name ends with a zero, there are as many names as
            // is said, and all is there during the call, which releases the stream.
            unsafe {
                let (database, name) = (self.as_raw(), passed.as_ptr());
                ffi::pdt_table_create_arrow(database, name, &mut stream, at, count, &options, fault, raw)
            }
        })?;
        Ok(self.table(name)?)
    }

    /// The table of a name.
    ///
    /// # Errors
    ///
    /// - [`ErrorKind::Missing`]: no table has this name.
    /// - [`ErrorKind::NoMemory`]: out of memory.
    pub fn table(&self, name: &str) -> Result<TableRef<'_>, Error> {
        let (raw, handle) = taken(Keeper::Lent(self), name)?;
        // SAFETY: the handle is of this table.
        unsafe { TableRef::adopt(raw, handle) }
    }

    /// The table of a name in a shared database: a [`Table`] that keeps a share of it. The database is closed once it
    /// and all such tables are dropped.
    ///
    /// # Errors
    ///
    /// - [`ErrorKind::Missing`]: no table has this name.
    /// - [`ErrorKind::NoMemory`]: out of memory.
    ///
    /// ```
    /// # fn run(folder: &std::path::Path) -> Result<(), narthexmace::Error> {
    /// use narthexmace::{Database, DatabaseOptions, Error, Options, Table, DatabaseTransaction};
    /// use std::sync::Arc;
    ///
    /// struct Session {
    ///     database: Arc<Database>,
    ///     items: Table,
    ///     open: Option<DatabaseTransaction<'static>>,
    /// }
    ///
    /// impl Session {
    ///     fn insert(&mut self, id: i64) -> Result<(), Error> {
    ///         let dbtxn = self.open.get_or_insert(self.database.begin_shared()?);
    ///         dbtxn.on(&self.items)?.insert([id])
    ///     }
    /// }
    ///
    /// let database = Arc::new(Database::open(folder, &DatabaseOptions::default())?.0);
    /// database.create("items", "id:int:key\n", &Options::default())?;
    /// let items = database.table_shared("items")?;
    /// let mut session = Session { database, items, open: None };
    /// session.insert(1)?;
    /// session.insert(2)?;
    /// assert_eq!(1, session.open.take().unwrap().commit()?);
    /// assert_eq!(2, session.items.begin()?.rows());
    /// # Ok(())
    /// # }
    /// # let folder = std::env::temp_dir().join(format!("narthexmace-session-{}", std::process::id()));
    /// # run(&folder).unwrap();
    /// # std::fs::remove_dir_all(&folder).unwrap();
    /// ```
    pub fn table_shared(self: &Arc<Database>, name: &str) -> Result<Table, Error> {
        let (raw, handle) = taken(Keeper::Shared(Arc::clone(self)), name)?;
        // SAFETY: the table is one of a database, both of which stay as long as the handle, which the table has.
        unsafe { Table::of_database(raw, Some(handle)) }
    }

    /// The names of the tables, in the order of their creation. Tables that others create or drop meanwhile may be
    /// among them or not.
    ///
    /// # Errors
    ///
    /// - [`ErrorKind::NoMemory`]: out of memory.
    pub fn names(&self) -> Result<Vec<String>, Error> {
        let tables = self.counts().tables;
        let mut names = Vec::new();
        names.try_reserve_exact(tables)?;
        for index in (0..tables).rev() {
            // from the last one: a drop meanwhile moves later tables to the front, so that some come twice, and none is
            // left out
            if let Some(name) = self.name_at(index)?.filter(|name| !names.contains(name)) {
                names.push(name);
            }
        }
        names.reverse();
        Ok(names)
    }

    fn name_at(&self, index: usize) -> Result<Option<String>, Error> {
        let mut name: Name = [0; ffi::MAX_NAME + 1];
        // SAFETY: the database is open while `self` is there, and there is as much room as is said.
        match unsafe { ffi::pdt_table_name(self.as_raw(), index, name.as_mut_ptr(), name.len()) } {
            ffi::MISSING => Ok(None),
            code => {
                done(code)?;
                // SAFETY: the library has written the name into the room, with a zero at its end.
                let name = unsafe { CStr::from_ptr(name.as_ptr()) };
                owned(name.to_str().expect("the name of a table is UTF-8")).map(Some)
            }
        }
    }

    /// Drops a table.
    ///
    /// # Errors
    ///
    /// - [`ErrorKind::Missing`]: no table has this name.
    /// - [`ErrorKind::Misuse`]: a [`TableRef`] or a [`table_shared`](Database::table_shared) of it is there, a database
    ///   transaction is open that began when it existed, or this thread holds a prepared commit of the database.
    /// - [`ErrorKind::Io`]: a file can't be written or synced; the table stays.
    /// - [`ErrorKind::WritesFailed`]: an earlier write failed; the table stays.
    /// - [`ErrorKind::Incomplete`]: as of [`maintain`](Database::maintain); the table stays.
    /// - [`ErrorKind::ReadOnly`]: the database was opened read-only.
    /// - [`ErrorKind::NoMemory`]: out of memory; the table stays.
    pub fn drop_table(&self, name: &str) -> Result<(), Error> {
        let passed = name_of(name).map_err(|_| unknown(name))?;
        let table = {
            let mut handles = self.handles();
            let table = self.find(&passed)? as usize;
            handles.begin_drop(table)?;
            table
        };
        // SAFETY: the database is open while `self` is there, and the name ends with a zero; the table has no handle,
        // and gets none.
        let dropped = done(unsafe { ffi::pdt_table_drop(self.as_raw(), passed.as_ptr()) });
        self.handles().end_drop(table);
        dropped
    }

    /// The table of the table of a name, or `Missing`. It stays there while the handles are locked.
    fn find(&self, name: &Name) -> Result<*mut ffi::Table, Error> {
        let mut raw = ptr::null_mut();
        // SAFETY: the database is open while `self` is there; the name ends with a zero, and it and `raw` are there
        // during the call.
        done(unsafe { ffi::pdt_table_open(self.as_raw(), name.as_ptr(), &mut raw) })?;
        Ok(raw)
    }

    /// Begins a database transaction: one over all tables, as of one moment. It waits for no commit.
    ///
    /// # Errors
    ///
    /// - [`ErrorKind::NoMemory`]: out of memory.
    pub fn begin(&self) -> Result<DatabaseTransaction<'_>, Error> {
        DatabaseTransaction::begun(Keeper::Lent(self))
    }

    /// Begins a database transaction over a shared database, as [`begin`](Database::begin) does. It keeps a share of
    /// the database, so that a session can keep both.
    ///
    /// # Errors
    ///
    /// - [`ErrorKind::NoMemory`]: out of memory.
    pub fn begin_shared(self: &Arc<Database>) -> Result<DatabaseTransaction<'static>, Error> {
        DatabaseTransaction::begun(Keeper::Shared(Arc::clone(self)))
    }

    /// Does the maintenance that is due: folds, checkpoints, and the deletion of files that are no longer needed. It
    /// makes all commits durable first. With a background thread ([`DatabaseOptions::maintenance`]) it waits for that
    /// thread's round.
    ///
    /// # Errors
    ///
    /// - [`ErrorKind::Io`]: a file can't be written or synced; it is due again.
    /// - [`ErrorKind::WritesFailed`]: an earlier write failed, or the commits can't be made durable.
    /// - [`ErrorKind::Incomplete`]: the next opening would miss a commit in what was to be written. Nothing was
    ///   written.
    /// - [`ErrorKind::ReadOnly`]: the database was opened read-only.
    /// - [`ErrorKind::NoMemory`]: out of memory; it is due again.
    /// - [`ErrorKind::Misuse`]: this thread holds a prepared commit of the database.
    pub fn maintain(&self) -> Result<(), Error> {
        // SAFETY: the database is open while `self` is there.
        done(unsafe { ffi::pdt_maintain(self.as_raw()) })
    }

    /// Reads the database's counters.
    pub fn counts(&self) -> DatabaseCounts {
        let mut counts =
            ffi::DatabaseCounts { size: size_of::<ffi::DatabaseCounts>(), ..ffi::DatabaseCounts::default() };
        // SAFETY: the database is open while `self` is there, and the counts say how much room they have.
        let code = unsafe { ffi::pdt_database_count(self.as_raw(), &mut counts) };
        assert_eq!(ffi::OK, code, "a database counts whatever else it does");
        DatabaseCounts::told(&counts)
    }

    /// Closes the database, as a drop does, and reports how that went. All commits are durable then, whatever the
    /// [`SyncMode`](crate::SyncMode).
    ///
    /// # Errors
    ///
    /// - [`ErrorKind::OutcomeUnknown`]: the last commits couldn't be made durable; the database is closed.
    /// - [`ErrorKind::Misuse`]: a stream of [`Pin::arrow`](crate::Pin::arrow) isn't released, or a transaction, a pin
    ///   or a database transaction was forgotten. The error has the database then, which may be closed again.
    pub fn close(mut self) -> Result<(), CloseError> {
        match self.end() {
            ffi::OK => Ok(()),
            ffi::MISUSE => {
                self.is_closed = false;
                Err(CloseError { error: ErrorKind::Misuse.into(), database: Some(self) })
            }
            code => Err(CloseError { error: refused(code), database: None }),
        }
    }

    fn end(&mut self) -> c_int {
        self.is_closed = true;
        // SAFETY: nothing else uses the database, since each table and database transaction keeps it. Where a
        // transaction of one was forgotten the library answers MISUSE, and the database stays.
        unsafe { ffi::pdt_database_close(self.as_raw()) }
    }
}

/// Why a database isn't closed, or isn't durable.
#[derive(Debug)]
pub struct CloseError {
    /// [`ErrorKind::Misuse`], [`ErrorKind::OutcomeUnknown`].
    pub error: Error,
    /// The database, where it is still open.
    pub database: Option<Database>,
}

impl fmt::Display for CloseError {
    fn fmt(&self, f: &mut fmt::Formatter<'_>) -> fmt::Result {
        self.error.fmt(f)
    }
}

impl std::error::Error for CloseError {}

/// Drops the database, where the error has one.
impl From<CloseError> for Error {
    fn from(refused: CloseError) -> Error {
        refused.error
    }
}

impl Drop for Database {
    fn drop(&mut self) {
        if !self.is_closed {
            self.end();
        }
    }
}

impl fmt::Debug for Database {
    fn fmt(&self, f: &mut fmt::Formatter<'_>) -> fmt::Result {
        f.debug_struct("Database").field("tables", &self.counts().tables).finish_non_exhaustive()
    }
}

/// The table of the table of a name, and a handle of it.
fn taken<'d>(database: Keeper<'d, Database>, name: &str) -> Result<(*mut ffi::Table, Handle<'d>), Error> {
    let name = name_of(name).map_err(|_| unknown(name))?;
    let raw = {
        let mut handles = database.handles();
        let raw = database.find(&name)?;
        handles.take(raw as usize)?;
        raw
    };
    Ok((raw, Handle { database, table: raw as usize }))
}

/// A name that no table can have.
fn unusable(name: &str) -> Error {
    let (name, wanted) = (Quoted(name), "1 to 64 bytes of UTF-8 without control characters are wanted");
    Error::with(ErrorKind::TypeMismatch, format_args!("a table can't have the name {name}: {wanted}"))
}

/// The name of no table.
fn unknown(name: &str) -> Error {
    Error::with(ErrorKind::Missing, format_args!("no table has the name {}", Quoted(name)))
}

/// A name and a zero, or `TypeMismatch` where a table can't have it.
pub(crate) fn name_of(name: &str) -> Result<Name, Error> {
    if name.is_empty() || name.len() > ffi::MAX_NAME || name.bytes().any(|byte| byte < 32 || byte == 127) {
        return Err(unusable(name));
    }
    let mut passed: Name = [0; ffi::MAX_NAME + 1];
    passed.iter_mut().zip(name.bytes()).for_each(|(to, byte)| *to = byte as c_char);
    Ok(passed)
}
