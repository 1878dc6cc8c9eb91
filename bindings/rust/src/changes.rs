//! The change feed: what each commit changed.
#[cfg(doc)]
use crate::ErrorKind;
use crate::cells::{cells_of, filled};
use crate::error::{done, refused};
use crate::table::ColumnType;
use crate::transaction::TEXT_ROOM;
use crate::{Cell, Error, Row, Table, ffi};
use std::fmt;
use std::iter::FusedIterator;
use std::ptr::{self, NonNull};
use std::time::Duration;

/// The change that an entry makes to the rows below its layer.
#[derive(Clone, Debug, PartialEq, Eq, Hash)]
#[non_exhaustive]
pub enum Change {
    /// Inserts this row.
    Insert(Row),
    /// Deletes the row of this key.
    Delete(Vec<Cell>),
    /// Sets a cell of a row.
    Modify {
        /// The column of the cell.
        column: usize,
        /// The new value.
        cell: Cell,
    },
}

/// An entry of a layer. Positions count from 0.
#[derive(Clone, Debug, PartialEq, Eq, Hash)]
pub struct Entry {
    /// Its position among the rows below the layer.
    pub sid: u64,
    /// The position of its row among the rows above the layer; for a delete, where the row would be.
    pub rid: u64,
    /// The change that it makes.
    pub change: Change,
}

/// The entries of a commit as of the call, which nothing changes any more. It may outlive its table. It may be sent to
/// another thread; one thread at a time uses it.
///
/// Entries are in the order of their SIDs. Applied in this order, each at its RID, they turn the rows of the version
/// before the commit into those of its own version.
///
/// ```
/// use narthexmace::{Cell, Change, Error, Options, Table};
/// let table = Table::open("id:int:key,qty:int\n10,7\n20,2\n", &Options::default())?;
/// let mut qtys = vec![7, 2]; // a copy that follows the table
/// let mut txn = table.begin()?;
/// txn.insert([15, 4])?;
/// txn.set([20], 1, 5)?;
/// txn.commit()?;
/// for entry in table.changes(1)?.expect("the last commits are kept").entries() {
///     let entry = entry?;
///     let at = entry.rid as usize;
///     match entry.change {
///         Change::Insert(row) => qtys.insert(at, row[1].as_int().unwrap()),
///         Change::Delete(_) => drop(qtys.remove(at)),
///         Change::Modify { cell, .. } => qtys[at] = cell.as_int().unwrap(),
///         _ => unreachable!("a kind of change that this program doesn't know"),
///     }
/// }
/// assert_eq!(vec![7, 4, 5], qtys);
/// # Ok::<(), Error>(())
/// ```
pub struct Layer {
    raw: NonNull<ffi::Layer>,
    types: [ColumnType; ffi::MAX_COLUMNS],
    width: usize,
    key_columns: usize,
}

// SAFETY: a `pdt_layer` is used by one thread at a time, whichever that is: it isn't `Sync`, so no two threads have it.
unsafe impl Send for Layer {}

impl Layer {
    /// A layer of a table.
    ///
    /// # Safety
    /// `raw` has been made of this table, and nothing else owns it.
    unsafe fn adopt(raw: NonNull<ffi::Layer>, table: &Table) -> Layer {
        let mut types = [ColumnType::Int; ffi::MAX_COLUMNS];
        types.iter_mut().zip(table.columns()).for_each(|(to, column)| *to = column.column_type);
        Layer { raw, types, width: table.columns().len(), key_columns: table.key_columns() }
    }

    /// How many entries there are.
    pub fn len(&self) -> usize {
        // SAFETY: the layer is not closed.
        unsafe { ffi::pdt_layer_size(self.raw.as_ptr()) }
    }

    /// Whether there is no entry.
    pub fn is_empty(&self) -> bool {
        self.len() == 0
    }

    /// The entry at an index, from 0 in the order of the SIDs, or `None` past the end. In logarithmic time.
    ///
    /// # Errors
    ///
    /// - [`ErrorKind::NoMemory`]: out of memory; nothing changed.
    pub fn entry(&self, index: usize) -> Result<Option<Entry>, Error> {
        let mut numbers = [0; ffi::MAX_COLUMNS];
        let mut first = [0u8; TEXT_ROOM];
        let mut more;
        let mut room = &mut first[..];
        loop {
            let mut entry = ffi::Entry::default();
            let (out, len) = (room.as_mut_ptr().cast(), room.len());
            // SAFETY: the layer is not closed; there is room for as many numbers as columns, and as many bytes as is said.
            match unsafe { ffi::pdt_entry_at(self.raw.as_ptr(), index, &mut entry, numbers.as_mut_ptr(), out, len) } {
                ffi::MISSING => return Ok(None),
                ffi::TOO_SMALL => {
                    more = filled(entry.bytes, 0u8)?;
                    room = &mut more;
                }
                code => {
                    done(code)?;
                    let texts = std::str::from_utf8(&room[..entry.bytes]).expect("the texts of an entry are UTF-8");
                    return self.read(&entry, &numbers, texts).map(Some);
                }
            }
        }
    }

    /// The entries, in the order of their SIDs.
    pub fn entries(&self) -> Entries<'_> {
        Entries { layer: self, at: 0, to: self.len() }
    }

    /// The entry that the library handed out as numbers and texts.
    fn read(&self, entry: &ffi::Entry, numbers: &[i64], texts: &str) -> Result<Entry, Error> {
        let types = match entry.kind {
            ffi::INSERT => &self.types[..self.width],
            ffi::DELETE => &self.types[..self.key_columns],
            ffi::MODIFY => &self.types[entry.column..=entry.column],
            kind => unreachable!("pdt.h has no kind {kind}"),
        };
        let mut cells = cells_of(types.iter().copied(), numbers, texts)?;
        let change = match entry.kind {
            ffi::INSERT => Change::Insert(Row::of(cells)),
            ffi::DELETE => Change::Delete(cells),
            _ => Change::Modify { column: entry.column, cell: cells.remove(0) },
        };
        Ok(Entry { sid: entry.sid, rid: entry.rid, change })
    }
}

impl Drop for Layer {
    fn drop(&mut self) {
        // SAFETY: the layer is not closed, and nothing uses it any more.
        unsafe { ffi::pdt_layer_close(self.raw.as_ptr()) };
    }
}

impl fmt::Debug for Layer {
    fn fmt(&self, f: &mut fmt::Formatter<'_>) -> fmt::Result {
        f.debug_struct("Layer").field("entries", &self.len()).finish_non_exhaustive()
    }
}

/// The entries of a layer, in the order of their SIDs. After [`ErrorKind::NoMemory`] the same entry comes again.
#[derive(Debug)]
pub struct Entries<'l> {
    layer: &'l Layer,
    at: usize,
    to: usize,
}

impl Iterator for Entries<'_> {
    type Item = Result<Entry, Error>;

    fn next(&mut self) -> Option<Self::Item> {
        if self.at >= self.to {
            return None;
        }
        let entry = self.layer.entry(self.at).transpose();
        self.at += usize::from(!matches!(entry, Some(Err(_))));
        entry
    }
}

impl FusedIterator for Entries<'_> {}

/// The changes of each commit after a number: see [`Table::changes_after`].
#[derive(Debug)]
pub struct Changes<'s> {
    table: &'s Table,
    at: u64,
    to: u64,
}

impl Iterator for Changes<'_> {
    type Item = Result<(u64, Layer), Error>;

    fn next(&mut self) -> Option<Self::Item> {
        if self.at >= self.to {
            return None;
        }
        let number = self.at + 1;
        let layer = self.table.changes(number).and_then(|layer| layer.ok_or_else(|| refused(ffi::MISSING)));
        self.at = if layer.is_ok() { number } else { self.to };
        Some(layer.map(|layer| (number, layer)))
    }
}

impl FusedIterator for Changes<'_> {}

impl Table {
    /// The changes of a commit: its entries over the version before it. `None` if it isn't one of the last
    /// [`Options::recent`](crate::Options::recent) commits, came before the last [`trim`](Table::trim), or hasn't taken
    /// place. Takes memory for each entry and copies no row. Commits wait for the time of the copy.
    ///
    /// # Errors
    ///
    /// - [`ErrorKind::NoMemory`]: out of memory; nothing changed.
    /// - [`ErrorKind::Misuse`]: this thread holds a prepared commit of the table.
    pub fn changes(&self, number: u64) -> Result<Option<Layer>, Error> {
        let mut raw = ptr::null_mut();
        // SAFETY: the table is open while `self` is there.
        match unsafe { ffi::pdt_changes(self.as_raw(), number, &mut raw) } {
            ffi::MISSING => Ok(None),
            code => {
                done(code)?;
                let raw = NonNull::new(raw).expect("changes that are there are handed out");
                // SAFETY: the layer has just been made of this table, and nothing else owns it.
                Ok(Some(unsafe { Layer::adopt(raw, self) }))
            }
        }
    }

    /// The changes of each commit after a number, with the commit's own number, up to the newest commit of this call
    /// (change data capture).
    ///
    /// There is never a gap: if the next commit isn't retained any more, [`ErrorKind::Missing`] comes in its place, and
    /// nothing after it. A follower then reads the rows of a [`pin`](Table::pin), and goes on from its number. Nothing
    /// comes after [`ErrorKind::NoMemory`] and [`ErrorKind::Misuse`] either; a follower may ask again from the last
    /// number that it has handled.
    ///
    /// ```
    /// use narthexmace::{Error, ErrorKind, Options, Table};
    /// let table = Table::open("id:int:key,qty:int\n10,7\n", &Options { recent: 2, ..Options::default() })?;
    /// for qty in 1..=3 {
    ///     let mut txn = table.begin()?;
    ///     txn.set([10], 1, qty)?;
    ///     txn.commit()?;
    /// }
    /// let mut numbers = Vec::new();
    /// for change in table.changes_after(1) {
    ///     let (number, layer) = change?;
    ///     numbers.push((number, layer.len()));
    /// }
    /// assert_eq!(vec![(2, 1), (3, 1)], numbers);
    /// let gone = table.changes_after(0).next().unwrap().unwrap_err(); // the first one is let go
    /// assert_eq!(gone, ErrorKind::Missing);
    /// # Ok::<(), Error>(())
    /// ```
    pub fn changes_after(&self, number: u64) -> Changes<'_> {
        Changes { table: self, at: number, to: self.wait(number, Duration::ZERO).unwrap_or(number) }
    }

    /// Blocks until the newest version has a number above `after`, and returns that number; `None` if there was no
    /// commit in `time`. It takes no lock that a commit, a fold or a checkpoint holds. Times are rounded up to
    /// milliseconds.
    ///
    /// ```
    /// use narthexmace::{Error, Options, Table};
    /// use std::time::Duration;
    /// let table = Table::open("id:int:key,qty:int\n10,7\n", &Options::default())?;
    /// assert_eq!(None, table.wait(0, Duration::from_millis(1)));
    /// std::thread::scope(|threads| {
    ///     let waits = threads.spawn(|| table.wait(0, Duration::from_secs(60)));
    ///     let mut txn = table.begin()?;
    ///     txn.set([10], 1, 5)?;
    ///     txn.commit()?;
    ///     assert_eq!(Some(1), waits.join().unwrap());
    ///     Ok::<(), Error>(())
    /// })?;
    /// # Ok::<(), Error>(())
    /// ```
    pub fn wait(&self, after: u64, time: Duration) -> Option<u64> {
        let milliseconds = u64::try_from(time.as_nanos().div_ceil(1_000_000)).unwrap_or(u64::MAX);
        let mut number = 0;
        // SAFETY: the table is open while `self` is there.
        match unsafe { ffi::pdt_wait(self.as_raw(), after, milliseconds, &mut number) } {
            ffi::OK => Some(number),
            code => {
                debug_assert_eq!(ffi::MISSING, code);
                None
            }
        }
    }
}
