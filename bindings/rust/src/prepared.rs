//! A commit in two parts.
use crate::{CommitError, Table, Transaction, ffi};
use std::fmt;
use std::marker::PhantomData;

/// A transaction whose commit is decided and can't fail any more, and hasn't taken place yet: time for a program to
/// write its own log. [`install`](Prepared::install) makes it take place. One that is dropped is given up, and its
/// transaction aborted.
///
/// It holds the table's lock, and so it stays on its thread. Commits of other threads wait, and so do their folds and
/// checkpoints; begins and pins don't, and see the version before. Other calls of this thread on the table return
/// [`ErrorKind::Misuse`](crate::ErrorKind::Misuse), except for begins and pins, reads of the columns, [`Table::sizes`],
/// [`Table::counts`] and [`Table::wait`]; [`Table::trim`] panics. Threads that call on other tables meanwhile do so in
/// one order of the tables: else they deadlock. One that is forgotten ([`std::mem::forget`]) keeps the lock: other
/// threads' commits, and the table's drop by one of them, never return.
///
/// A transaction that changes nothing holds no lock, and takes no number: it ends as by an abort.
///
/// ```
/// use narthexmace::{Error, Options, Table};
/// let table = Table::open("id:int:key,qty:int\n10,7\n", &Options::default())?;
/// let mut txn = table.begin()?;
/// txn.set([10], 1, 5)?;
/// let mut log = Vec::new();
/// let prepared = txn.prepare()?;
/// log.push((prepared.number(), "10,5"));
/// assert_eq!(1, prepared.install());
/// # Ok::<(), Error>(())
/// ```
#[must_use = "a prepared commit that is dropped is given up"]
pub struct Prepared<'s> {
    txn: Transaction<'s>,
    number: u64,
    /// The lock is its thread's.
    on_thread: PhantomData<*const ()>,
}

impl<'s> Prepared<'s> {
    /// A commit that has just been prepared on this thread.
    pub(crate) fn new(txn: Transaction<'s>, number: u64) -> Prepared<'s> {
        Prepared { txn, number, on_thread: PhantomData }
    }

    /// The number that the commit will have; for a transaction that changes nothing, the number of the version that it
    /// saw.
    pub fn number(&self) -> u64 {
        self.number
    }

    /// The transaction, for reads.
    pub fn transaction(&self) -> &Transaction<'s> {
        &self.txn
    }

    /// The table that it is over.
    pub fn table(&self) -> &Table {
        self.txn.table()
    }

    /// Makes the commit take place, and returns its number. It takes no memory, and can't be refused.
    ///
    /// # Panics
    ///
    /// Over a table of a [`Database`](crate::Database) if the device fails: see [`try_install`](Prepared::try_install).
    pub fn install(self) -> u64 {
        self.try_install().expect("the device of the database takes the commit")
    }

    /// Installs over a table of a [`Database`](crate::Database), whose device may fail: it appends the commit to the
    /// journal, and waits as [`Transaction::commit`] does.
    ///
    /// # Errors
    ///
    /// - [`CommitError::OutcomeUnknown`]: I/O error while the commit was written; whether it is durable is unknown
    ///   until the database is reopened.
    /// - [`CommitError::WritesFailed`]: a write has failed since the commit was prepared. It is given up, and the
    ///   refusal has the transaction.
    pub fn try_install(self) -> Result<u64, CommitError<'s>> {
        // SAFETY: the transaction is open, and prepared on this thread; it is over then, unless the answer is FAILED.
        match unsafe { ffi::pdt_install(self.txn.raw()) } {
            ffi::OK => {
                self.txn.forget();
                Ok(self.number)
            }
            ffi::FAILED => Err(CommitError::WritesFailed(self.give_up())),
            code => {
                debug_assert_eq!(ffi::UNSURE, code);
                self.txn.forget();
                Err(CommitError::OutcomeUnknown)
            }
        }
    }

    /// Gives the commit up: the table is as if it had never been prepared, and the transaction is open as before.
    pub fn give_up(self) -> Transaction<'s> {
        // SAFETY: the transaction is open, and prepared on this thread.
        let code = unsafe { ffi::pdt_give_up(self.txn.raw()) };
        debug_assert_eq!(ffi::OK, code);
        self.txn
    }
}

impl fmt::Debug for Prepared<'_> {
    fn fmt(&self, f: &mut fmt::Formatter<'_>) -> fmt::Result {
        f.debug_struct("Prepared").field("number", &self.number).finish_non_exhaustive()
    }
}
