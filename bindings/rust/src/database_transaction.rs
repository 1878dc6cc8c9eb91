//! Transactions over several tables of a database.
use crate::error::done;
use crate::keeper::Keeper;
use crate::savepoints::Savepoints;
use crate::transaction::sealed;
use crate::transaction::{Ending, Transaction};
use crate::{Database, DatabaseCommitError, Error, ErrorKind, Refusal, Table, ffi};
use std::cell::RefCell;
use std::fmt;
use std::ptr::{self, NonNull};

/// An open transaction over all tables of a [`Database`], as of one moment. It is committed on all tables that it has
/// changed or on none, and aborted when it is dropped. It may be sent to another thread; one thread at a time uses it.
/// It borrows its database or, if [`Database::begin_shared`] began it, keeps a share of it, so that a session can keep
/// both.
///
/// ```
/// # fn run(folder: &std::path::Path) -> Result<(), narthexmace::Error> {
/// use narthexmace::{Database, DatabaseOptions, Options, cells};
/// let (database, _) = Database::open(folder, &DatabaseOptions::default())?;
/// let accounts = database.create("accounts", "id:int:key,sum:int\n1,100\n2,0\n", &Options::default())?;
/// let moves = database.create("moves", "id:int:key,of:int,to:int,sum:int\n", &Options::default())?;
/// let dbtxn = database.begin()?;
/// let (mut on_accounts, mut on_moves) = (dbtxn.on(&accounts)?, dbtxn.on(&moves)?);
/// on_accounts.set([1], 1, 70)?;
/// on_accounts.set([2], 1, 30)?;
/// on_moves.insert([1, 1, 2, 30])?;
/// drop((on_accounts, on_moves)); // both end with the work
/// assert_eq!(1, dbtxn.commit()?);
/// assert_eq!(1, moves.begin()?.rows());
/// # Ok(())
/// # }
/// # let folder = std::env::temp_dir().join(format!("narthexmace-work-{}", std::process::id()));
/// # run(&folder).unwrap();
/// # std::fs::remove_dir_all(&folder).unwrap();
/// ```
#[must_use = "a database transaction that is dropped is aborted"]
pub struct DatabaseTransaction<'d> {
    raw: NonNull<ffi::DatabaseTransaction>,
    parts: RefCell<Vec<Begun>>,
    /// The library has ended it already.
    is_over: bool,
    database: Keeper<'d, Database>,
}

/// A table's transaction that was asked for.
struct Begun {
    txn: NonNull<ffi::Txn>,
    /// Its savepoints, while no part is handed out.
    savepoints: Option<Savepoints>,
}

// SAFETY: a `pdt_dbtxn` is used by one thread at a time, whichever that is: it isn't `Sync`, so no two threads have it,
// and what it lends to one isn't `Send`.
unsafe impl Send for DatabaseTransaction<'_> {}

/// A database transaction's part over a table: see [`DatabaseTransaction::on`].
pub type Part<'w> = Transaction<'w, InDatabase<'w>>;

/// A transaction that ends with its database transaction.
pub struct InDatabase<'w> {
    dbtxn: &'w DatabaseTransaction<'w>,
    at: usize,
}

impl Ending for InDatabase<'_> {}

impl sealed::Ends for InDatabase<'_> {
    /// The savepoints stay in the database transaction, for a caller that asks for the transaction again.
    fn end(&mut self, _: *mut ffi::Txn, savepoints: Savepoints) {
        self.dbtxn.parts.borrow_mut()[self.at].savepoints = Some(savepoints);
    }
}

impl fmt::Debug for InDatabase<'_> {
    fn fmt(&self, f: &mut fmt::Formatter<'_>) -> fmt::Result {
        f.write_str("InDatabase")
    }
}

impl<'d> DatabaseTransaction<'d> {
    /// A database transaction that has just begun.
    pub(crate) fn begun(database: Keeper<'d, Database>) -> Result<DatabaseTransaction<'d>, Error> {
        let mut raw = ptr::null_mut();
        // SAFETY: the database is open while it is kept.
        done(unsafe { ffi::pdt_dbtxn_begin(database.as_raw(), &mut raw) })?;
        let raw = NonNull::new(raw).expect("a begin that is done hands out a database transaction");
        Ok(DatabaseTransaction { raw, parts: RefCell::default(), is_over: false, database })
    }

    /// The database that it is over.
    pub fn database(&self) -> &Database {
        &self.database
    }

    /// Its part over a table: the reads, the writes and the savepoints of a [`Transaction`], without an end of its own.
    /// Parts over several tables may be there side by side, and stay on this thread. One that is dropped may be asked
    /// for again, with its writes and savepoints.
    ///
    /// # Errors
    ///
    /// - [`ErrorKind::Missing`]: the table was created after the database transaction began.
    /// - [`ErrorKind::Misuse`]: a part over this table is there already, or the table isn't in this database.
    /// - [`ErrorKind::NoMemory`]: out of memory; nothing changed.
    pub fn on<'w>(&'w self, table: &'w Table) -> Result<Part<'w>, Error> {
        let mut raw = ptr::null_mut();
        let mut parts = self.parts.borrow_mut();
        parts.try_reserve(1)?;
        // SAFETY: the database transaction is open, and so is the table.
        done(unsafe { ffi::pdt_dbtxn_on(self.raw.as_ptr(), table.as_raw(), &mut raw) })?;
        let txn = NonNull::new(raw).expect("a database transaction hands out its transactions");
        let at = parts.iter().position(|begun| begun.txn == txn).unwrap_or(parts.len());
        if at == parts.len() {
            parts.push(Begun { txn, savepoints: Some(Savepoints::default()) });
        }
        let savepoints = parts[at].savepoints.take().ok_or(ErrorKind::Misuse)?;
        // SAFETY: the transaction is over this table, and open as long as the database transaction, which is borrowed;
        // nothing else has it, since its savepoints were there.
        Ok(unsafe { Transaction::lent(txn, Keeper::Lent(table), savepoints, InDatabase { dbtxn: self, at }) })
    }

    /// Commits on all tables that it has changed, or on none, as one commit with one number, and returns that number.
    /// One that changes nothing takes no number, and returns the number that it saw. After an error the database
    /// transaction is over.
    ///
    /// # Errors
    ///
    /// Those of [`Transaction::commit`](crate::Transaction::commit), of any of the tables.
    pub fn commit(self) -> Result<u64, Error> {
        self.try_commit().map_err(Error::from)
    }

    /// Commits as [`commit`](DatabaseTransaction::commit) does, and gives the database transaction back if it is still
    /// open.
    ///
    /// # Errors
    ///
    /// The causes of [`commit`](DatabaseTransaction::commit). The refusal has the number of the newest commit if the
    /// database transaction is over, or else the database transaction, which may commit again.
    pub fn try_commit(mut self) -> Result<u64, DatabaseCommitError<'d>> {
        let mut number = 0;
        // SAFETY: the database transaction is open; it is over then, unless the answer is one that gives it back.
        let code = unsafe { ffi::pdt_dbtxn_commit(self.raw.as_ptr(), &mut number) };
        if code == ffi::OK {
            self.is_over = true;
            return Ok(number);
        }
        let (refusal, over) = Refusal::of(code, number, self);
        if let Some(mut over) = over {
            over.is_over = true;
        }
        Err(refusal)
    }

    /// Ends the database transaction without a commit, as a drop does.
    pub fn abort(self) {}
}

impl Drop for DatabaseTransaction<'_> {
    fn drop(&mut self) {
        if !self.is_over {
            // SAFETY: the database transaction is open, and nothing uses it any more; its database is kept, and so is
            // open.
            unsafe { ffi::pdt_dbtxn_abort(self.raw.as_ptr()) };
        }
    }
}

impl fmt::Debug for DatabaseTransaction<'_> {
    fn fmt(&self, f: &mut fmt::Formatter<'_>) -> fmt::Result {
        f.debug_struct("DatabaseTransaction").field("tables", &self.parts.borrow().len()).finish_non_exhaustive()
    }
}
