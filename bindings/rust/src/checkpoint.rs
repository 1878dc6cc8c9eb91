//! A checkpoint while others commit.
#[cfg(doc)]
use crate::ErrorKind;
use crate::error::done;
use crate::keeper::Keeper;
use crate::table::path_of;
use crate::{Error, Table, Transaction, ffi};
use std::fmt;
use std::path::Path;
use std::ptr::{self, NonNull};

/// A checkpoint that has begun: the version of the begin. Others commit while its table is made and written. It may be
/// sent to another thread, and ends when it is dropped; what it wrote stays.
///
/// ```no_run
/// use narthexmace::{Error, Options, Table};
/// let table = Table::open("id:int:key,qty:int\n10,7\n", &Options::default())?;
/// let mut checkpoint = table.begin_checkpoint()?;
/// checkpoint.write("checkpoints/7")?; // others commit meanwhile
/// println!("the log is needed from commit {} on", checkpoint.number() + 1);
/// checkpoint.install()?;
/// # Ok::<(), Error>(())
/// ```
#[must_use = "a checkpoint that is dropped ends, and is not installed"]
pub struct Checkpoint<'s> {
    raw: NonNull<ffi::OpenCheckpoint>,
    number: u64,
    table: Keeper<'s>,
}

// SAFETY: a `pdt_open_checkpoint` is used by one thread at a time, whichever that is: only a call with `&mut self` uses it.
unsafe impl Send for Checkpoint<'_> {}

impl<'s> Checkpoint<'s> {
    /// A checkpoint that has just begun.
    ///
    /// # Safety
    /// `raw` has begun over this table, at the commit of this number, and nothing else owns it.
    pub(crate) unsafe fn adopt(raw: NonNull<ffi::OpenCheckpoint>, number: u64, table: Keeper<'s>) -> Checkpoint<'s> {
        Checkpoint { raw, number, table }
    }

    /// The number of its version. A program's log of later commits must stay.
    pub fn number(&self) -> u64 {
        self.number
    }

    /// The table that it is of.
    pub fn table(&self) -> &Table {
        &self.table
    }

    /// Writes its version into a folder, as [`Table::checkpoint`] does. After `Ok` it is durable.
    ///
    /// # Errors
    ///
    /// - [`ErrorKind::Exists`]: the folder has a checkpoint, or a part of one.
    /// - [`ErrorKind::Io`]: a file can't be written or synced, or the folder isn't there or may not be read.
    /// - [`ErrorKind::WritesFailed`]: a commit of the table's database can't be made durable.
    /// - [`ErrorKind::NoMemory`]: out of memory.
    /// - [`ErrorKind::Misuse`]: it is written already, or the path is empty, too long or has a zero byte.
    ///
    /// After an error the files that were written are deleted, and it may be called again, unless it was written
    /// already.
    pub fn write(&mut self, folder: impl AsRef<Path>) -> Result<(), Error> {
        let folder = path_of(folder.as_ref())?;
        // SAFETY: the checkpoint has not ended; the path ends with a zero, and is there during the call.
        done(unsafe { ffi::pdt_checkpoint_write(self.raw.as_ptr(), folder.as_ptr()) })
    }

    /// Begins a transaction over its version, whatever was committed since, as [`Pin::begin`](crate::Pin::begin) does.
    /// Before the install its row runs are over the stable table that the checkpoint replaces: a program with a column
    /// in files of its own writes the next file by them.
    ///
    /// # Errors
    ///
    /// - [`ErrorKind::NoMemory`]: out of memory; nothing changed.
    pub fn begin(&mut self) -> Result<Transaction<'s>, Error> {
        let mut raw = ptr::null_mut();
        // SAFETY: the checkpoint has not ended, and its table is kept, and so is open.
        done(unsafe { ffi::pdt_checkpoint_read(self.raw.as_ptr(), &mut raw) })?;
        let raw = NonNull::new(raw).expect("a begin that is done hands out a transaction");
        // SAFETY: the transaction is open, over this table, and nothing else owns it.
        Ok(unsafe { Transaction::adopt(raw, self.table.clone()) })
    }

    /// Makes what was written the stable table in memory. The commits since the begin stay in the Write-PDT, and no
    /// version changes. Commits wait for a handful of allocations.
    ///
    /// # Errors
    ///
    /// - [`ErrorKind::Superseded`]: a fold or another checkpoint came since the begin. What was written stays valid.
    /// - [`ErrorKind::NoMemory`]: out of memory; it may be called again.
    /// - [`ErrorKind::Misuse`]: it isn't written, or is installed already, or this thread holds a prepared commit of
    ///   the table.
    pub fn install(&mut self) -> Result<(), Error> {
        // SAFETY: the checkpoint has not ended, and its table is open, since it is kept.
        done(unsafe { ffi::pdt_checkpoint_install(self.raw.as_ptr()) })
    }
}

impl Drop for Checkpoint<'_> {
    fn drop(&mut self) {
        // SAFETY: the checkpoint has not ended, and nothing uses it any more; its table is kept, and so is open.
        unsafe { ffi::pdt_checkpoint_end(self.raw.as_ptr()) };
    }
}

impl fmt::Debug for Checkpoint<'_> {
    fn fmt(&self, f: &mut fmt::Formatter<'_>) -> fmt::Result {
        f.debug_struct("Checkpoint").field("number", &self.number).finish_non_exhaustive()
    }
}
