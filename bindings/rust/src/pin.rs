//! Versions that are kept.
#[cfg(doc)]
use crate::ErrorKind;
use crate::error::done;
use crate::keeper::Keeper;
use crate::{Error, Table, Transaction, ffi};
use std::fmt;
use std::ptr::{self, NonNull};

/// A version of a table that is kept. Transactions begin over it whatever was committed since, and several threads read
/// it side by side: each begins a transaction of its own.
///
/// A pin keeps in memory what commits, folds and checkpoints have replaced since. Dropping it releases the version; the
/// transactions that began at it stay open. It borrows its table or, if [`Table::pin_shared`] made it, keeps a share of
/// it, and so do its transactions.
///
/// ```
/// use narthexmace::{Error, Options, Table};
/// let table = Table::open("id:int:key,qty:int\n10,7\n20,2\n", &Options::default())?;
/// let pin = table.pin()?;
/// let sum = || -> Result<i64, Error> { Ok(pin.begin()?.batch(&[1], ..)?.ints(0).unwrap().iter().sum()) };
/// let (one, other) = std::thread::scope(|threads| {
///     let (one, other) = (threads.spawn(sum), threads.spawn(sum));
///     (one.join().unwrap(), other.join().unwrap())
/// });
/// assert_eq!((9, 9), (one?, other?));
/// # Ok::<(), Error>(())
/// ```
#[must_use = "a pin that is dropped keeps nothing"]
pub struct Pin<'s> {
    pub(crate) raw: NonNull<ffi::Pinned>,
    number: u64,
    table: Keeper<'s>,
}

// SAFETY: a pin is no thread's own, and let go by whichever drops it.
unsafe impl Send for Pin<'_> {}
// SAFETY: any threads may begin at a `pdt_pinned` at once, and its number never changes.
unsafe impl Sync for Pin<'_> {}

impl<'s> Pin<'s> {
    /// A table that has just been kept.
    ///
    /// # Safety
    /// `raw` is of this table at this number, and nothing else owns it.
    pub(crate) unsafe fn adopt(raw: NonNull<ffi::Pinned>, number: u64, table: Keeper<'s>) -> Pin<'s> {
        Pin { raw, number, table }
    }

    /// The number of its version.
    pub fn number(&self) -> u64 {
        self.number
    }

    /// The table of this version.
    pub fn table(&self) -> &Table {
        &self.table
    }

    /// Begins a transaction over its version, in constant time and without the table's lock. It may write, and commits
    /// as one that began when this version was the newest: expect
    /// [`CommitError::Conflict`](crate::CommitError::Conflict) and [`CommitError::TooOld`](crate::CommitError::TooOld).
    ///
    /// # Errors
    ///
    /// - [`ErrorKind::NoMemory`]: out of memory; nothing changed.
    pub fn begin(&self) -> Result<Transaction<'s>, Error> {
        let mut raw = ptr::null_mut();
        // SAFETY: the pin is not let go, and its table is kept, and so is open.
        done(unsafe { ffi::pdt_begin_at(self.raw.as_ptr(), &mut raw) })?;
        let raw = NonNull::new(raw).expect("a begin that is done hands out a transaction");
        // SAFETY: the transaction is open, over this table, and nothing else owns it.
        Ok(unsafe { Transaction::adopt(raw, self.table.clone()) })
    }
}

impl Drop for Pin<'_> {
    fn drop(&mut self) {
        // SAFETY: nothing uses the pin any more; its table is kept until after this, and so is open.
        unsafe { ffi::pdt_unpin(self.raw.as_ptr()) };
    }
}

impl fmt::Debug for Pin<'_> {
    fn fmt(&self, f: &mut fmt::Formatter<'_>) -> fmt::Result {
        f.debug_struct("Pin").field("number", &self.number).finish_non_exhaustive()
    }
}
