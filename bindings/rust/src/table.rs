//! A table, and what is asked of it as a whole.
use crate::cells::owned;
use crate::error::done;
use crate::keeper::Keeper;
use crate::table_ref::Handle;
use crate::{Checkpoint, Counts, Error, ErrorKind, OpenError, Options, Pin, TableFault, Transaction, ffi};
use std::ffi::{CStr, c_char, c_int};
use std::fmt;
use std::os::unix::ffi::OsStrExt;
use std::path::Path;
use std::ptr::{self, NonNull};
use std::sync::Arc;

/// The type of a column.
#[derive(Clone, Copy, Debug, PartialEq, Eq, Hash)]
pub enum ColumnType {
    /// Numbers of 64 bits.
    Int,
    /// Texts of at most 4,096 bytes.
    Text,
    /// Booleans.
    Bool,
}

impl ColumnType {
    /// The type as the library takes it.
    pub(crate) fn passed(self) -> c_int {
        match self {
            ColumnType::Int => ffi::INT,
            ColumnType::Text => ffi::TEXT,
            ColumnType::Bool => ffi::BOOL,
        }
    }
}

/// A column of a table.
#[derive(Clone, Debug, PartialEq, Eq, Hash)]
pub struct Column {
    /// Its name.
    pub name: String,
    /// The type of its cells.
    pub column_type: ColumnType,
}

/// The sizes of those parts of a table that grow between folds and checkpoints. [`Table::fold`], [`Table::trim`] and
/// [`Table::checkpoint`] make them small again.
#[derive(Clone, Copy, Debug, PartialEq, Eq)]
pub struct Sizes {
    /// The number of the newest version: commits since the opening.
    pub commits: u64,
    /// Entries of the Write-PDT, which a fold moves into the Read-PDT.
    pub write_entries: usize,
    /// Entries of the Read-PDT, which a checkpoint moves into the stable table.
    pub read_entries: usize,
    /// Open transactions.
    pub open_transactions: usize,
}

/// An ordered table that transactions change. Threads share it: each call takes the table's lock, except for begins and
/// pins, which wait for no other call, and for those that read the columns, which never change. It is closed when it is
/// dropped.
///
/// A table retains the newest version, the versions of pins and open transactions, and the changes of the last
/// [`Options::recent`] commits. It doesn't grow with the number of commits.
///
/// A table outside a [`Database`](crate::Database) is in memory: it is as durable as its last checkpoint, and the
/// program calls [`fold`](Table::fold), [`trim`](Table::trim) and [`checkpoint`](Table::checkpoint). A database does
/// all of that for its tables. Dropping one of those doesn't close it.
///
/// A transaction that is forgotten ([`std::mem::forget`]) stays open, and so do a checkpoint and a pin: the table's
/// memory is never freed then.
pub struct Table {
    raw: NonNull<ffi::Table>,
    columns: Vec<Column>,
    key_columns: usize,
    /// Whether its drop closes it: else its database does.
    is_own: bool,
    /// Keeps its database open, where nothing beside it does.
    _handle: Option<Handle<'static>>,
}

// SAFETY: a table is no thread's own, and closed by whichever drops it.
unsafe impl Send for Table {}
// SAFETY: each call on a `pdt_table` takes its lock. The columns are read at the opening, and never change.
unsafe impl Sync for Table {}

impl Table {
    /// Opens a table over CSV text, whose first record names the columns, as `id:int:key,name:text`. The records may be
    /// in any order of their keys.
    ///
    /// # Errors
    ///
    /// - [`OpenError::BadTable`]: the text isn't a table; it has the first fault.
    /// - [`ErrorKind::TooManyRows`]: more rows than [`Options::row_limit`].
    /// - [`ErrorKind::BadLimit`]: an option is outside its range.
    /// - [`ErrorKind::NoMemory`]: out of memory.
    ///
    /// ```
    /// use narthexmace::{ColumnType, Error, OpenError, Options, Table};
    /// let table = Table::open("id:int:key,name:text\n10,Ann\n", &Options::default())?;
    /// assert_eq!("name", table.columns()[1].name);
    /// assert_eq!(ColumnType::Text, table.columns()[1].column_type);
    /// let Err(OpenError::BadTable(fault)) = Table::open("id:int:key\n10\nx\n", &Options::default()) else { panic!() };
    /// assert_eq!((3, 0), (fault.record, fault.column));
    /// assert_eq!("the cell is no value of the column's type", fault.cause);
    /// # Ok::<(), Error>(())
    /// ```
    pub fn open(csv: impl AsRef<[u8]>, options: &Options) -> Result<Table, OpenError> {
        let csv = csv.as_ref();
        let options = options.passed()?;
        let mut raw = ptr::null_mut();
        let mut fault = ffi::Fault { place: ffi::Place::default(), cause: ptr::null() };
        // SAFETY: the pointer and the length are one slice's; the options, the fault and `raw` are there during the
        // call.
        let code = unsafe { ffi::pdt_open_csv(csv.as_ptr().cast(), csv.len(), &options, &mut fault, &mut raw) };
        if code == ffi::BAD_TABLE {
            // SAFETY: at this code the library has written the fault.
            return Err(OpenError::BadTable(unsafe { TableFault::told(&fault) }));
        }
        done(code)?;
        // SAFETY: an opening that is done hands out a table.
        Ok(unsafe { Table::adopt(raw) }?)
    }

    /// Opens a table over a checkpoint in a folder, which [`checkpoint`](Table::checkpoint) wrote. The files are read
    /// whole and not changed. Truncated files and bytes without a column's structure are found; other damage isn't,
    /// since a checkpoint has no checksum.
    ///
    /// # Errors
    ///
    /// - [`ErrorKind::Io`]: a file can't be read.
    /// - [`ErrorKind::BadTable`]: `header.csv` doesn't describe columns.
    /// - [`ErrorKind::BadCheckpoint`]: a column's file can't be read as one.
    /// - [`ErrorKind::NoCheckpoint`]: the files contain no complete checkpoint.
    /// - [`ErrorKind::TooManyRows`]: more rows than [`Options::row_limit`].
    /// - [`ErrorKind::BadLimit`]: an option is outside its range.
    /// - [`ErrorKind::NoMemory`]: out of memory.
    /// - [`ErrorKind::Misuse`]: the path is empty, too long or has a zero byte.
    pub fn recover(folder: impl AsRef<Path>, options: &Options) -> Result<Table, Error> {
        let folder = path_of(folder.as_ref())?;
        let options = options.passed()?;
        let mut raw = ptr::null_mut();
        // SAFETY: the path ends with a zero; it, the options and `raw` are there during the call.
        done(unsafe { ffi::pdt_recover(folder.as_ptr(), &options, &mut raw) })?;
        // SAFETY: a recovery that is done hands out a table.
        unsafe { Table::adopt(raw) }
    }

    /// A table that was just opened, with its columns.
    ///
    /// # Safety
    /// `raw` is an open table, and nothing else owns it.
    pub(crate) unsafe fn adopt(raw: *mut ffi::Table) -> Result<Table, Error> {
        // SAFETY: the caller promises it.
        unsafe { Table::with_columns(raw, true, None) }
    }

    /// A table of a database, with its columns. The handle is with the table, or beside it.
    ///
    /// # Safety
    /// `raw` is the handle's table. A handle beside it is there as long as the table.
    pub(crate) unsafe fn of_database(raw: *mut ffi::Table, handle: Option<Handle<'static>>) -> Result<Table, Error> {
        // SAFETY: a handle keeps the table and its database.
        unsafe { Table::with_columns(raw, false, handle) }
    }

    /// # Safety
    /// `raw` is a table that is open as long as this one is there. If `is_own`, nothing else owns it.
    unsafe fn with_columns(
        raw: *mut ffi::Table,
        is_own: bool,
        handle: Option<Handle<'static>>,
    ) -> Result<Table, Error> {
        let raw = NonNull::new(raw).expect("an opening that is done hands out a table");
        let mut table = Table { raw, columns: Vec::new(), key_columns: 0, is_own, _handle: handle };
        // SAFETY: the table is open.
        let (width, key) = unsafe { (ffi::pdt_columns(raw.as_ptr()), ffi::pdt_key_columns(raw.as_ptr())) };
        table.key_columns = key;
        table.columns.try_reserve_exact(width)?;
        for column in 0..width {
            // SAFETY: the table is open; the name of a column that is there ends with a zero, and stays until the
            // close.
            let (name, code) = unsafe {
                let name = CStr::from_ptr(ffi::pdt_column_name(raw.as_ptr(), column));
                (name, ffi::pdt_column_type(raw.as_ptr(), column))
            };
            let name = owned(name.to_str().expect("a column's name is UTF-8"))?;
            table.columns.push(Column { name, column_type: type_of(code) });
        }
        Ok(table)
    }

    /// The address by which the library knows the table.
    pub(crate) fn as_raw(&self) -> *mut ffi::Table {
        self.raw.as_ptr()
    }

    /// The columns, the key columns first.
    pub fn columns(&self) -> &[Column] {
        &self.columns
    }

    /// How many of the first columns are the key: 1 to 4.
    pub fn key_columns(&self) -> usize {
        self.key_columns
    }

    /// The index of the column with this name, from 0.
    pub fn column(&self, name: &str) -> Option<usize> {
        self.columns.iter().position(|column| column.name == name)
    }

    /// Reports what has grown since the last fold and checkpoint.
    pub fn sizes(&self) -> Sizes {
        let mut sizes = ffi::Sizes::default();
        // SAFETY: the table is open while `self` is there.
        let code = unsafe { ffi::pdt_size(self.raw.as_ptr(), &mut sizes) };
        debug_assert_eq!(ffi::OK, code);
        let ffi::Sizes { commits, write_entries, read_entries, open_transactions } = sizes;
        Sizes { commits, write_entries, read_entries, open_transactions }
    }

    /// Reads the table's counters. Commits wait while it visits the retained commits, at most [`Options::recent`].
    pub fn counts(&self) -> Counts {
        let mut counts = ffi::Counts { size: size_of::<ffi::Counts>(), ..ffi::Counts::default() };
        // SAFETY: the table is open while `self` is there, and the counts say how much room they have.
        let code = unsafe { ffi::pdt_count(self.raw.as_ptr(), &mut counts) };
        assert_eq!(ffi::OK, code, "a table counts whatever else it does");
        Counts::told(&counts)
    }

    /// Begins a transaction over the newest version, in constant time. It waits for no commit, fold or checkpoint.
    ///
    /// # Errors
    ///
    /// - [`ErrorKind::NoMemory`]: out of memory; nothing changed.
    pub fn begin(&self) -> Result<Transaction<'_>, Error> {
        begin(Keeper::Lent(self))
    }

    /// Begins a transaction over the newest version of a shared table, as [`begin`](Table::begin) does. The transaction
    /// keeps a share of the table, so that a session can keep both. The table is closed once it and everything begun so
    /// are dropped.
    ///
    /// # Errors
    ///
    /// - [`ErrorKind::NoMemory`]: out of memory; nothing changed.
    ///
    /// ```
    /// use narthexmace::{Error, Options, Table, Transaction};
    /// use std::sync::Arc;
    ///
    /// struct Session {
    ///     table: Arc<Table>,
    ///     open: Option<Transaction<'static>>,
    /// }
    ///
    /// let table = Arc::new(Table::open("id:int:key,qty:int\n10,7\n", &Options::default())?);
    /// let mut session = Session { table: Arc::clone(&table), open: None };
    /// session.open = Some(session.table.begin_shared()?);
    /// drop(table);
    /// let worker = std::thread::spawn(move || session.open.take().unwrap().rows());
    /// assert_eq!(1, worker.join().unwrap());
    /// # Ok::<(), Error>(())
    /// ```
    pub fn begin_shared(self: &Arc<Table>) -> Result<Transaction<'static>, Error> {
        begin(Keeper::Shared(Arc::clone(self)))
    }

    /// Pins the newest version, so that transactions begin over it whatever is committed since: see [`Pin`]. In
    /// constant time, without the table's lock.
    ///
    /// # Errors
    ///
    /// - [`ErrorKind::NoMemory`]: out of memory; nothing changed.
    ///
    /// ```
    /// use narthexmace::{Error, Options, Table};
    /// let table = Table::open("id:int:key,qty:int\n10,7\n20,2\n", &Options::default())?;
    /// let pin = table.pin()?;
    /// let mut txn = table.begin()?;
    /// txn.delete([10])?;
    /// assert_eq!(1, txn.commit()?);
    /// assert_eq!((0, 2), (pin.number(), pin.begin()?.rows()));
    /// assert_eq!(1, table.begin()?.rows());
    /// # Ok::<(), Error>(())
    /// ```
    pub fn pin(&self) -> Result<Pin<'_>, Error> {
        pin(Keeper::Lent(self))
    }

    /// Pins the newest version of a shared table, as [`pin`](Table::pin) does. The pin keeps a share of the table, and
    /// so do the transactions that begin at the pin.
    ///
    /// # Errors
    ///
    /// - [`ErrorKind::NoMemory`]: out of memory; nothing changed.
    pub fn pin_shared(self: &Arc<Table>) -> Result<Pin<'static>, Error> {
        pin(Keeper::Shared(Arc::clone(self)))
    }

    /// Folds the Write-PDT into the Read-PDT (a delta merge), so that later commits are applied to a small tree. No
    /// version changes, and no open transaction. Commits wait for the time that it takes to merge the entries.
    ///
    /// # Errors
    ///
    /// - [`ErrorKind::NoMemory`]: out of memory; nothing changed.
    /// - [`ErrorKind::Misuse`]: this thread holds a prepared commit of the table.
    pub fn fold(&self) -> Result<(), Error> {
        // SAFETY: the table is open while `self` is there.
        done(unsafe { ffi::pdt_fold(self.raw.as_ptr()) })
    }

    /// Frees the retained changes of the last commits, before there are [`Options::recent`] of them:
    /// [`changes`](Table::changes) has none of them any more. A transaction that began before the newest commit gets
    /// [`TooOld`](crate::CommitError::TooOld) if it commits a change, and reads on.
    ///
    /// # Panics
    ///
    /// If this thread holds a prepared commit of the table.
    pub fn trim(&self) {
        // SAFETY: the table is open while `self` is there.
        let code = unsafe { ffi::pdt_trim(self.raw.as_ptr()) };
        assert_eq!(ffi::OK, code, "no trim is made while this thread has a commit prepared");
    }

    /// Writes the newest version into a folder that has no checkpoint: each file is synced, then the folder, then the
    /// folder above it. After `Ok` it is durable, except for names further up, which the program syncs if it created
    /// those folders. In memory it is the stable table then. Commits wait for two folds, and not while the files are
    /// written.
    ///
    /// # Errors
    ///
    /// - [`ErrorKind::Exists`]: the folder has a checkpoint, or a part of one.
    /// - [`ErrorKind::Io`]: a file can't be written or synced, or the folder isn't there or may not be read.
    /// - [`ErrorKind::WritesFailed`]: a commit of the table's database can't be made durable.
    /// - [`ErrorKind::NoMemory`]: out of memory.
    /// - [`ErrorKind::Misuse`]: the path is empty, too long or has a zero byte, or this thread holds a prepared commit
    ///   of the table.
    ///
    /// After an error the files that were written are deleted, and the stable table is unchanged.
    pub fn checkpoint(&self, folder: impl AsRef<Path>) -> Result<(), Error> {
        let folder = path_of(folder.as_ref())?;
        // SAFETY: the table is open while `self` is there; the path ends with a zero, and is there during the call.
        done(unsafe { ffi::pdt_checkpoint(self.raw.as_ptr(), folder.as_ptr()) })
    }

    /// Begins a checkpoint of the newest version, which is written while others commit. It folds, which commits wait
    /// for.
    ///
    /// # Errors
    ///
    /// - [`ErrorKind::NoMemory`]: out of memory; nothing changed.
    /// - [`ErrorKind::Misuse`]: this thread holds a prepared commit of the table.
    pub fn begin_checkpoint(&self) -> Result<Checkpoint<'_>, Error> {
        begin_checkpoint(Keeper::Lent(self))
    }

    /// Begins a checkpoint of a shared table, as [`begin_checkpoint`](Table::begin_checkpoint) does. It keeps a share
    /// of the table.
    ///
    /// # Errors
    ///
    /// - [`ErrorKind::NoMemory`]: out of memory; nothing changed.
    /// - [`ErrorKind::Misuse`]: this thread holds a prepared commit of the table.
    pub fn begin_checkpoint_shared(self: &Arc<Table>) -> Result<Checkpoint<'static>, Error> {
        begin_checkpoint(Keeper::Shared(Arc::clone(self)))
    }
}

fn begin(table: Keeper<'_>) -> Result<Transaction<'_>, Error> {
    let mut raw = ptr::null_mut();
    // SAFETY: the table is open while it is kept.
    done(unsafe { ffi::pdt_begin(table.as_raw(), &mut raw) })?;
    let raw = NonNull::new(raw).expect("a begin that is done hands out a transaction");
    // SAFETY: the transaction is open, over this table, and nothing else owns it.
    Ok(unsafe { Transaction::adopt(raw, table) })
}

fn pin(table: Keeper<'_>) -> Result<Pin<'_>, Error> {
    let (mut number, mut raw) = (0, ptr::null_mut());
    // SAFETY: the table is open while it is kept.
    done(unsafe { ffi::pdt_pin(table.as_raw(), &mut number, &mut raw) })?;
    let raw = NonNull::new(raw).expect("a pin that is done hands out a pin");
    // SAFETY: the pin is of this table at this number, and nothing else owns it.
    Ok(unsafe { Pin::adopt(raw, number, table) })
}

fn begin_checkpoint(table: Keeper<'_>) -> Result<Checkpoint<'_>, Error> {
    let (mut number, mut raw) = (0, ptr::null_mut());
    // SAFETY: the table is open while it is kept.
    done(unsafe { ffi::pdt_checkpoint_begin(table.as_raw(), &mut number, &mut raw) })?;
    let raw = NonNull::new(raw).expect("a begin that is done hands out a checkpoint");
    // SAFETY: the checkpoint has begun over this table, and nothing else owns it.
    Ok(unsafe { Checkpoint::adopt(raw, number, table) })
}

impl Drop for Table {
    fn drop(&mut self) {
        if !self.is_own {
            return;
        }
        // SAFETY: nothing else uses the table, since each transaction, checkpoint and pin keeps it. One that was
        // forgotten is still open: the library answers MISUSE then, and the table stays.
        unsafe { ffi::pdt_close(self.raw.as_ptr()) };
    }
}

impl fmt::Debug for Table {
    fn fmt(&self, f: &mut fmt::Formatter<'_>) -> fmt::Result {
        f.debug_struct("Table").field("columns", &self.columns).finish_non_exhaustive()
    }
}

fn type_of(code: c_int) -> ColumnType {
    match code {
        ffi::INT => ColumnType::Int,
        ffi::TEXT => ColumnType::Text,
        ffi::BOOL => ColumnType::Bool,
        _ => unreachable!("pdt.h has no type {code}"),
    }
}

/// The bytes of a path and a zero, or `Misuse` where there is one among them.
pub(crate) fn path_of(path: &Path) -> Result<Vec<c_char>, Error> {
    let bytes = path.as_os_str().as_bytes();
    if bytes.contains(&0) {
        return Err(ErrorKind::Misuse.into());
    }
    let mut passed = Vec::new();
    passed.try_reserve_exact(bytes.len() + 1)?;
    passed.extend(bytes.iter().map(|byte| *byte as c_char));
    passed.push(0);
    Ok(passed)
}
