//! An open transaction: how it ends, its writes and its savepoints.
#[cfg(doc)]
use crate::ErrorKind;
use crate::cells::Passed;
use crate::error::done;
use crate::keeper::Keeper;
use crate::savepoints::{Savepoint, Savepoints};
use crate::{CellRef, CommitError, Error, Prepared, Refusal, Table, ffi, sentences};
use std::ffi::c_int;
use std::fmt;
use std::mem::take;
use std::ptr::NonNull;

/// Room for the texts of a row that is read without asking twice.
pub(crate) const TEXT_ROOM: usize = 512;

/// Where a key is among the rows.
#[derive(Clone, Copy, Debug, PartialEq, Eq)]
pub struct Rank {
    /// How many rows have a smaller key: the position of the key's row, if there is one.
    pub below: u64,
    /// Whether a row has this key.
    pub there: bool,
}

/// An open transaction: the version of its begin with its own writes. Positions count from 0. One that is dropped is
/// aborted. It may be sent to another thread; one thread at a time uses it. It borrows its table or, if
/// [`Table::begin_shared`] began it, keeps a share of it.
///
/// Writes take `&mut self`, so that what a [`Batch`](crate::Batch) or a text borrows stays where it is.
///
/// A row and a key are anything that iterates over cells: `[10]`, [`cells!`](crate::cells), a `&Row`.
///
/// A [`Part`](crate::Part) of a database transaction has the same reads, writes and savepoints, but ends with the
/// database transaction, and is neither committed nor prepared. A function that takes both is generic: `fn f<E:
/// Ending>(txn: &mut Transaction<'_, E>)`.
#[must_use = "a transaction that is dropped is aborted"]
pub struct Transaction<'s, E: Ending = Alone> {
    pub(crate) open: Open<'s>,
    savepoints: Savepoints,
    ending: E,
}

// SAFETY: a `pdt_txn` is used by one thread at a time, whichever that is: it isn't `Sync`, so no two threads have it.
// One that is a part of a database transaction stays on the database transaction's thread.
unsafe impl Send for Transaction<'_> {}

/// The library's transaction, which is open, and the table that it is over.
#[derive(Debug)]
pub(crate) struct Open<'s> {
    raw: NonNull<ffi::Txn>,
    table: Keeper<'s>,
}

impl Open<'_> {
    pub(crate) fn raw(&self) -> *mut ffi::Txn {
        self.raw.as_ptr()
    }

    pub(crate) fn table(&self) -> &Table {
        &self.table
    }
}

/// How a transaction ends: by itself ([`Alone`]), or with its database transaction ([`InDatabase`](crate::InDatabase)).
pub trait Ending: sealed::Ends {}

pub(crate) mod sealed {
    use crate::ffi;
    use crate::savepoints::Savepoints;

    /// How a transaction ends, once nothing uses it any more.
    pub trait Ends {
        /// Called once, with its table still there.
        fn end(&mut self, txn: *mut ffi::Txn, savepoints: Savepoints);
    }
}

/// A transaction that ends by itself: it is committed, or aborted when it is dropped.
#[derive(Debug)]
pub struct Alone {
    /// The library has ended it already.
    is_over: bool,
}

impl Ending for Alone {}

impl sealed::Ends for Alone {
    fn end(&mut self, txn: *mut ffi::Txn, _: Savepoints) {
        if !self.is_over {
            // SAFETY: the transaction is open, and nothing uses it any more; its table is kept, and so is open.
            unsafe { ffi::pdt_abort(txn) };
        }
    }
}

impl<'s> Transaction<'s> {
    /// A transaction that has just begun.
    ///
    /// # Safety
    /// `raw` is open, a transaction over this table, and nothing else owns it.
    pub(crate) unsafe fn adopt(raw: NonNull<ffi::Txn>, table: Keeper<'s>) -> Transaction<'s> {
        Transaction { open: Open { raw, table }, savepoints: Savepoints::default(), ending: Alone { is_over: false } }
    }

    /// Commits, and returns the number of the newest version. A transaction that changes nothing takes no number, is
    /// never refused, and returns the number of the version that it [saw](Transaction::version). After an error the
    /// transaction is over; [`try_commit`](Transaction::try_commit) gives it back if it is still open.
    ///
    /// ```
    /// use narthexmace::{Error, ErrorKind, Options, Table};
    /// let table = Table::open("id:int:key,qty:int\n10,7\n", &Options::default())?;
    /// let (mut first, mut second) = (table.begin()?, table.begin()?);
    /// first.set([10], 1, 5)?;
    /// second.set([10], 1, 6)?;
    /// assert_eq!(1, first.commit()?);
    /// assert_eq!(second.commit().unwrap_err(), ErrorKind::Conflict);
    /// # Ok::<(), Box<dyn std::error::Error + Send + Sync>>(())
    /// ```
    ///
    /// Over a table of a [`Database`](crate::Database) it returns once the commit is as durable as the
    /// [`SyncMode`](crate::SyncMode) says, with the number of the database's newest commit.
    ///
    /// # Errors
    ///
    /// - [`ErrorKind::Conflict`]: a concurrent commit modified the same data. Begin again, and repeat the work.
    /// - [`ErrorKind::TooOld`]: the changes of a commit since the begin aren't retained any more. Begin again.
    /// - [`ErrorKind::Full`]: the table would have more rows than [`Options::row_limit`](crate::Options::row_limit).
    /// - [`ErrorKind::NoMemory`]: out of memory.
    /// - [`ErrorKind::Misuse`]: this thread holds another prepared commit of the table.
    ///
    /// Over a table of a database also:
    ///
    /// - [`ErrorKind::OutcomeUnknown`]: I/O error while the commit was written; whether it is durable is unknown until
    ///   the database is reopened. With early reads also for a transaction that changes nothing.
    /// - [`ErrorKind::WritesFailed`]: an earlier write failed.
    /// - [`ErrorKind::TooLong`]: the changes take 4 GiB or more in the journal.
    /// - [`ErrorKind::ReadOnly`]: the database was opened read-only.
    pub fn commit(self) -> Result<u64, Error> {
        self.try_commit().map_err(Error::from)
    }

    /// Commits as [`commit`](Transaction::commit) does, and gives the transaction back if it is still open.
    ///
    /// # Errors
    ///
    /// The causes of [`commit`](Transaction::commit). The refusal has the number of the newest version if the
    /// transaction is over, or else the transaction, which may commit again, as [`CommitError::NoMemory`] does.
    pub fn try_commit(self) -> Result<u64, CommitError<'s>> {
        let mut number = 0;
        // SAFETY: the transaction is open; it is over then, unless the answer is one that gives it back.
        let code = unsafe { ffi::pdt_commit(self.raw(), &mut number) };
        if code != ffi::OK {
            return Err(self.refused(code, number));
        }
        self.forget();
        Ok(number)
    }

    /// Decides the commit, and makes everything that it needs, so that it can't fail any more. A program then writes
    /// its own log, and installs the commit or gives it up.
    ///
    /// # Errors
    ///
    /// The causes of [`commit`](Transaction::commit), except for [`ErrorKind::OutcomeUnknown`].
    pub fn prepare(self) -> Result<Prepared<'s>, Error> {
        self.try_prepare().map_err(Error::from)
    }

    /// Prepares as [`prepare`](Transaction::prepare) does, and gives the transaction back if it is still open.
    ///
    /// # Errors
    ///
    /// As [`try_commit`](Transaction::try_commit).
    pub fn try_prepare(self) -> Result<Prepared<'s>, CommitError<'s>> {
        let mut number = 0;
        // SAFETY: the transaction is open; it is so after OK too, and over after an answer that doesn't give it back.
        let code = unsafe { ffi::pdt_prepare(self.raw(), &mut number) };
        if code == ffi::OK { Ok(Prepared::new(self, number)) } else { Err(self.refused(code, number)) }
    }

    /// The refusal of a commit, which has ended the transaction unless it gives it back.
    fn refused(self, code: c_int, number: u64) -> CommitError<'s> {
        let (refusal, over) = Refusal::of(code, number, self);
        if let Some(over) = over {
            over.forget();
        }
        refusal
    }

    /// Lets a transaction go that the library has ended.
    pub(crate) fn forget(mut self) {
        self.ending.is_over = true;
    }

    /// Ends the transaction without a commit, as a drop does.
    pub fn abort(self) {}
}

impl<'s, E: Ending> Transaction<'s, E> {
    /// A database transaction's part, with the savepoints that are set in it.
    ///
    /// # Safety
    /// `raw` is open as long as `'s`, a transaction over this table, and nothing else uses it.
    pub(crate) unsafe fn lent(
        raw: NonNull<ffi::Txn>,
        table: Keeper<'s>,
        savepoints: Savepoints,
        ending: E,
    ) -> Transaction<'s, E> {
        Transaction { open: Open { raw, table }, savepoints, ending }
    }

    pub(crate) fn raw(&self) -> *mut ffi::Txn {
        self.open.raw()
    }

    /// The table that it is over.
    pub fn table(&self) -> &Table {
        self.open.table()
    }

    /// The number of the version that it sees below its own writes.
    pub fn version(&self) -> u64 {
        let mut number = 0;
        // SAFETY: the transaction is open.
        let code = unsafe { ffi::pdt_txn_version(self.raw(), &mut number) };
        debug_assert_eq!(ffi::OK, code);
        number
    }

    /// Inserts a row.
    ///
    /// # Errors
    ///
    /// - [`ErrorKind::Duplicate`]: a row with this key exists.
    /// - [`ErrorKind::Full`]: the table would have more rows than [`Options::row_limit`](crate::Options::row_limit).
    /// - [`ErrorKind::TypeMismatch`]: a cell doesn't fit its column, or there are too few or too many.
    /// - [`ErrorKind::NoMemory`]: out of memory; nothing changed.
    pub fn insert<'c, C: Into<CellRef<'c>>>(&mut self, row: impl IntoIterator<Item = C>) -> Result<(), Error> {
        let row = Passed::of("row", row, self.table().columns())?;
        // SAFETY: the transaction is open; there are as many numbers as columns, and as many bytes as is said.
        done(unsafe { ffi::pdt_insert(self.raw(), row.numbers(), row.texts(), row.bytes()) })
    }

    /// Deletes the row of a key.
    ///
    /// # Errors
    ///
    /// - [`ErrorKind::Missing`]: no row has this key.
    /// - [`ErrorKind::TypeMismatch`]: the key doesn't fit the key columns.
    /// - [`ErrorKind::NoMemory`]: out of memory; nothing changed.
    pub fn delete<'c, C: Into<CellRef<'c>>>(&mut self, key: impl IntoIterator<Item = C>) -> Result<(), Error> {
        let key = self.key(key)?;
        // SAFETY: the transaction is open; there are as many numbers as key columns, and as many bytes as is said.
        done(unsafe { ffi::pdt_delete(self.raw(), key.numbers(), key.texts(), key.bytes()) })
    }

    /// Sets one cell of the row of a key, in a column that isn't a key column.
    ///
    /// # Errors
    ///
    /// - [`ErrorKind::Missing`]: no row has this key.
    /// - [`ErrorKind::TypeMismatch`]: the key doesn't fit the key columns, there is no such column, it is a key column,
    ///   or the cell doesn't fit it.
    /// - [`ErrorKind::NoMemory`]: out of memory; nothing changed.
    pub fn set<'c, 'd, C: Into<CellRef<'c>>>(
        &mut self,
        key: impl IntoIterator<Item = C>,
        column: usize,
        cell: impl Into<CellRef<'d>>,
    ) -> Result<(), Error> {
        let key = self.key(key)?;
        let cell = cell.into();
        cell.check(sentences::column(self.table().columns(), column)?)?;
        let (number, text) = (cell.number(), cell.bytes().as_ptr().cast());
        // SAFETY: the transaction is open; there are as many numbers as key columns, and as many bytes as is said; of a
        // text column the cell is a text, whose number is how many bytes it has.
        done(unsafe { ffi::pdt_set(self.raw(), key.numbers(), key.texts(), key.bytes(), column, number, text) })
    }

    /// Makes a savepoint, to roll back to. Savepoints nest.
    ///
    /// # Errors
    ///
    /// - [`ErrorKind::NoMemory`]: out of memory; nothing changed.
    ///
    /// ```
    /// use narthexmace::{Error, Options, Table};
    /// let table = Table::open("id:int:key,qty:int\n10,7\n20,2\n", &Options::default())?;
    /// let mut txn = table.begin()?;
    /// txn.set([10], 1, 5)?;
    /// let savepoint = txn.savepoint()?;
    /// txn.delete([20])?;
    /// txn.rollback_to(&savepoint)?; // the delete was never asked for
    /// assert_eq!(2, txn.rows());
    /// # Ok::<(), Error>(())
    /// ```
    pub fn savepoint(&mut self) -> Result<Savepoint, Error> {
        self.savepoints.reserve()?;
        let mut level = 0;
        // SAFETY: the transaction is open.
        done(unsafe { ffi::pdt_savepoint(self.raw(), &mut level) })?;
        Ok(self.savepoints.push(level))
    }

    /// Undoes all writes since a savepoint: a commit records none of them. The savepoint stays, and later ones are
    /// gone. Takes no memory.
    ///
    /// # Errors
    ///
    /// - [`ErrorKind::Missing`]: the savepoint is gone, or is another transaction's; nothing changes.
    pub fn rollback_to(&mut self, savepoint: &Savepoint) -> Result<(), Error> {
        let level = self.savepoints.level(savepoint)?;
        // SAFETY: the transaction is open.
        done(unsafe { ffi::pdt_rollback_to(self.raw(), level) })?;
        self.savepoints.truncate(level + 1);
        Ok(())
    }

    /// Releases a savepoint and all later ones; their writes stay. Takes no memory.
    ///
    /// # Errors
    ///
    /// - [`ErrorKind::Missing`]: the savepoint is gone, or is another transaction's; nothing changes.
    pub fn release(&mut self, savepoint: Savepoint) -> Result<(), Error> {
        let level = self.savepoints.level(&savepoint)?;
        // SAFETY: the transaction is open.
        done(unsafe { ffi::pdt_release(self.raw(), level) })?;
        self.savepoints.truncate(level);
        Ok(())
    }

    /// A key, as the library takes it.
    pub(crate) fn key<'c, C: Into<CellRef<'c>>>(&self, key: impl IntoIterator<Item = C>) -> Result<Passed, Error> {
        Passed::of("key", key, &self.table().columns()[..self.table().key_columns()])
    }
}

impl<E: Ending> Drop for Transaction<'_, E> {
    fn drop(&mut self) {
        self.ending.end(self.open.raw(), take(&mut self.savepoints));
    }
}

impl<E: Ending> fmt::Debug for Transaction<'_, E> {
    fn fmt(&self, f: &mut fmt::Formatter<'_>) -> fmt::Result {
        f.debug_struct("Transaction").field("table", self.table()).finish_non_exhaustive()
    }
}
