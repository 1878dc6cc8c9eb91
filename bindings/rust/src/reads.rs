//! What a transaction reads.
#[cfg(doc)]
use crate::ErrorKind;
use crate::batch::{self, Batch, Batches};
use crate::cells::{filled, row_of};
use crate::error::done;
use crate::table::ColumnType;
use crate::transaction::{Ending, Rank, TEXT_ROOM};
use crate::{CellRef, Error, Row, RowRuns, Transaction, ffi, sentences, texts};
use std::ffi::{c_int, c_void};
use std::ops::{Bound, RangeBounds};

impl<E: Ending> Transaction<'_, E> {
    /// How many rows there are.
    pub fn rows(&self) -> u64 {
        let mut rows = 0;
        // SAFETY: the transaction is open.
        let code = unsafe { ffi::pdt_rows(self.raw(), &mut rows) };
        debug_assert_eq!(ffi::OK, code);
        rows
    }

    /// How many rows have a smaller key, and whether a row has this key. A range of keys is the range of positions
    /// between two ranks. In logarithmic time.
    ///
    /// # Errors
    ///
    /// - [`ErrorKind::TypeMismatch`]: the key doesn't fit the key columns.
    /// - [`ErrorKind::NoMemory`]: out of memory; nothing changed.
    pub fn rank<'c, C: Into<CellRef<'c>>>(&self, key: impl IntoIterator<Item = C>) -> Result<Rank, Error> {
        let key = self.key(key)?;
        let mut rank = Rank { below: 0, there: false };
        let (below, there) = (&mut rank.below, &mut rank.there);
        // SAFETY: the transaction is open; there are as many numbers as key columns, and as many bytes as is said.
        done(unsafe { ffi::pdt_rank(self.raw(), key.numbers(), key.texts(), key.bytes(), below, there) })?;
        Ok(rank)
    }

    /// The row of a key, or `None`.
    ///
    /// # Errors
    ///
    /// - [`ErrorKind::TypeMismatch`]: the key doesn't fit the key columns.
    /// - [`ErrorKind::NoMemory`]: out of memory; nothing changed.
    pub fn get<'c, C: Into<CellRef<'c>>>(&self, key: impl IntoIterator<Item = C>) -> Result<Option<Row>, Error> {
        let key = self.key(key)?;
        self.read_row(|numbers, out, room, needed| {
            // SAFETY: the transaction is open; the key is as many numbers as key columns, and as many bytes as is said;
            // `read_row` hands in room for a row.
            unsafe { ffi::pdt_get(self.raw(), key.numbers(), key.texts(), key.bytes(), numbers, out, room, needed) }
        })
    }

    /// The row at a position, or `None` past the end.
    ///
    /// # Errors
    ///
    /// - [`ErrorKind::NoMemory`]: out of memory; nothing changed.
    pub fn row_at(&self, position: u64) -> Result<Option<Row>, Error> {
        self.read_row(|numbers, out, room, needed| {
            // SAFETY: the transaction is open; `read_row` hands in room for a row.
            unsafe { ffi::pdt_row_at(self.raw(), position, numbers, out, room, needed) }
        })
    }

    /// The cells of chosen columns between two positions, up to the end of the table: see [`Batch`].
    ///
    /// # Errors
    ///
    /// - [`ErrorKind::TypeMismatch`]: there is no such column.
    /// - [`ErrorKind::NoMemory`]: out of memory; nothing changed.
    pub fn batch(&self, columns: &[usize], positions: impl RangeBounds<u64>) -> Result<Batch<'_>, Error> {
        let (from, to) = self.within(positions);
        Batch::read(&self.open, columns, from, to)
    }

    /// The cells of chosen columns between two positions, in batches of `rows` rows, at least one; the last batch has
    /// what is left.
    ///
    /// # Errors
    ///
    /// - [`ErrorKind::TypeMismatch`]: there is no such column.
    /// - [`ErrorKind::NoMemory`]: out of memory, here or for a batch, after which none comes.
    ///
    /// ```
    /// use narthexmace::{Error, Options, Table};
    /// let table = Table::open("id:int:key,qty:int\n10,7\n20,2\n30,4\n", &Options::default())?;
    /// let txn = table.begin()?;
    /// let mut sums = Vec::new();
    /// for batch in txn.batches(&[1], .., 2)? {
    ///     sums.push(batch?.ints(0).unwrap().iter().sum::<i64>());
    /// }
    /// assert_eq!(vec![9, 4], sums);
    /// # Ok::<(), Error>(())
    /// ```
    pub fn batches(
        &self,
        columns: &[usize],
        positions: impl RangeBounds<u64>,
        rows: usize,
    ) -> Result<Batches<'_>, Error> {
        let (from, to) = self.within(positions);
        Batches::over(&self.open, columns, from, to, rows)
    }

    /// The texts of a text column between two positions, up to the end of the table, borrowed where they are
    /// (zero-copy). No write, commit or abort of the transaction compiles while one is there.
    ///
    /// # Errors
    ///
    /// - [`ErrorKind::TypeMismatch`]: there is no such column, or it isn't a text column.
    /// - [`ErrorKind::NoMemory`]: out of memory; nothing changed.
    ///
    /// ```
    /// use narthexmace::{Error, Options, Table};
    /// let table = Table::open("id:int:key,name:text\n10,Ann\n20,Bob\n30,\n", &Options::default())?;
    /// let mut txn = table.begin()?;
    /// txn.set([20], 1, "Rob")?;
    /// assert_eq!(vec!["Rob", ""], txn.texts(1, 1..)?);
    /// # Ok::<(), Error>(())
    /// ```
    pub fn texts(&self, column: usize, positions: impl RangeBounds<u64>) -> Result<Vec<&str>, Error> {
        let (from, to) = self.within(positions);
        texts::lent(&self.open, column, from, to)
    }

    /// Copies the values of an int column from a position on, as many as fit and there are, and returns how many.
    /// Values behind them are left as they were.
    ///
    /// # Errors
    ///
    /// - [`ErrorKind::TypeMismatch`]: there is no such column, or it isn't an int column.
    ///
    /// ```
    /// use narthexmace::{Error, Options, Table};
    /// let table = Table::open("id:int:key,qty:int\n10,7\n20,2\n30,4\n", &Options::default())?;
    /// let txn = table.begin()?;
    /// let mut numbers = [9; 4];
    /// assert_eq!(2, txn.ints(1, 1, &mut numbers)?);
    /// assert_eq!([2, 4, 9, 9], numbers);
    /// # Ok::<(), Error>(())
    /// ```
    pub fn ints(&self, column: usize, from: u64, numbers: &mut [i64]) -> Result<usize, Error> {
        sentences::column_of(self.table().columns(), column, ColumnType::Int)?;
        batch::numbers(&self.open, column, from, numbers)
    }

    /// Copies the values of a bool column from a position on as bytes of 0 or 1, as many as fit and there are, and
    /// returns how many. Bytes behind them are left as they were.
    ///
    /// # Errors
    ///
    /// - [`ErrorKind::TypeMismatch`]: there is no such column, or it isn't a bool column.
    ///
    /// ```
    /// use narthexmace::{Error, Options, Table};
    /// let table = Table::open("id:int:key,ok:bool\n10,true\n20,false\n30,true\n", &Options::default())?;
    /// let txn = table.begin()?;
    /// let mut booleans = [9; 4];
    /// assert_eq!(2, txn.bools(1, 1, &mut booleans)?);
    /// assert_eq!([0, 1, 9, 9], booleans);
    /// # Ok::<(), Error>(())
    /// ```
    pub fn bools(&self, column: usize, from: u64, booleans: &mut [u8]) -> Result<usize, Error> {
        sentences::column_of(self.table().columns(), column, ColumnType::Bool)?;
        batch::booleans(&self.open, column, from, booleans)
    }

    /// The runs of rows between two positions, up to the end of the table, in order: stable rows without changes,
    /// stable rows with changed columns, and inserted rows. No key is read.
    ///
    /// Read over the rows of the stable table, the runs are the rows of the transaction; read over any other rows of
    /// the same number, they are those rows with the same changes. A program that keeps a column in files of its own
    /// ([`ColumnValues::Outside`](crate::ColumnValues::Outside)) reads it by the stable positions, and the cells that a
    /// changed row overrides from the table. The stable table is the table of the last checkpoint before the
    /// transaction began, or else of the opening.
    ///
    /// ```
    /// use narthexmace::{ColumnType, ColumnValues, Error, Options, RowRun, Table};
    /// let mine = [7, 2, 4]; // the values of qty, which the library never sees
    /// let qty = ColumnValues::Outside { column_type: ColumnType::Int, rows: 3 };
    /// let columns = [("id", ColumnValues::Ints(&[10, 20, 30])), ("qty", qty)];
    /// let table = Table::from_columns(&columns, 1, &Options::default())?;
    /// let mut txn = table.begin()?;
    /// txn.insert([15, 5])?;
    /// txn.set([20], 1, 3)?;
    /// let (mut read, mut own) = (Vec::new(), [0]);
    /// for row_run in txn.row_runs(..) {
    ///     let position = row_run.position();
    ///     match row_run {
    ///         RowRun::Stable { sid, rows, .. } => read.extend_from_slice(&mine[sid as usize..][..rows as usize]),
    ///         RowRun::Changed { sid, .. } if !txn.changed(position)?[1] => read.push(mine[sid as usize]),
    ///         RowRun::Changed { .. } | RowRun::Inserted { .. } => {
    ///             txn.ints(1, position, &mut own)?;
    ///             read.push(own[0]);
    ///         }
    ///     }
    /// }
    /// assert_eq!(vec![7, 5, 3, 4], read);
    /// # Ok::<(), Error>(())
    /// ```
    pub fn row_runs(&self, positions: impl RangeBounds<u64>) -> RowRuns<'_> {
        let (from, to) = self.within(positions);
        RowRuns::over(&self.open, from, to)
    }

    /// Which cells of the row at a position differ from the stable row below it, a boolean for each column: false for
    /// the cell of the stable row. All are true for an inserted row.
    ///
    /// # Errors
    ///
    /// - [`ErrorKind::Missing`]: the position is past the end.
    /// - [`ErrorKind::NoMemory`]: out of memory; nothing changed.
    pub fn changed(&self, position: u64) -> Result<Vec<bool>, Error> {
        let mut bytes = [0u8; ffi::MAX_COLUMNS];
        let width = self.table().columns().len();
        // SAFETY: the transaction is open, and a table has at most `MAX_COLUMNS` columns.
        done(unsafe { ffi::pdt_changed(self.raw(), position, bytes.as_mut_ptr(), width) })?;
        let mut changed = Vec::new();
        changed.try_reserve_exact(width)?;
        changed.extend(bytes[..width].iter().map(|byte| *byte != 0));
        Ok(changed)
    }

    /// The positions from the first up to but without the second, both cut to the length of the table.
    fn within(&self, positions: impl RangeBounds<u64>) -> (u64, u64) {
        let rows = self.rows();
        let from = match positions.start_bound() {
            Bound::Included(from) => *from,
            Bound::Excluded(before) => before.saturating_add(1),
            Bound::Unbounded => 0,
        };
        let to = match positions.end_bound() {
            Bound::Included(last) => last.saturating_add(1),
            Bound::Excluded(to) => *to,
            Bound::Unbounded => rows,
        };
        let to = to.min(rows);
        (from.min(to), to)
    }

    /// Reads a row by a call of the library, which is handed room for as many numbers as columns, and for texts: first
    /// what does for most rows, then what the library asked for.
    fn read_row(&self, call: impl Fn(*mut i64, *mut c_void, usize, *mut usize) -> c_int) -> Result<Option<Row>, Error> {
        let mut numbers = [0; ffi::MAX_COLUMNS];
        let mut first = [0u8; TEXT_ROOM];
        let mut more;
        let mut room = &mut first[..];
        loop {
            let mut needed = 0;
            match call(numbers.as_mut_ptr(), room.as_mut_ptr().cast(), room.len(), &mut needed) {
                ffi::MISSING => return Ok(None),
                ffi::TOO_SMALL => {
                    more = filled(needed, 0u8)?;
                    room = &mut more;
                }
                code => {
                    done(code)?;
                    let texts = std::str::from_utf8(&room[..needed]).expect("the texts of a row are UTF-8");
                    return row_of(self.table().columns(), &numbers, texts).map(Some);
                }
            }
        }
    }
}
