//! Cells column by column.
use crate::cells::filled;
use crate::error::done;
use crate::table::ColumnType;
use crate::transaction::Open;
use crate::{Error, ErrorKind, ffi, sentences};
use std::iter::FusedIterator;
use std::slice;

/// How many spans the library is asked for at a time.
const PIECES: usize = 128;

/// The cells of chosen columns between two positions.
///
/// Ints are borrowed where they are (zero-copy), for as long as the transaction is borrowed: no write, commit or abort
/// of it compiles while a batch is there. Texts and booleans are copied.
///
/// ```
/// use narthexmace::{Error, Options, Table};
/// let table = Table::open("id:int:key,name:text,qty:int\n10,Ann,7\n20,Bob,2\n", &Options::default())?;
/// let txn = table.begin()?;
/// let batch = txn.batch(&[2, 1], ..)?;
/// assert_eq!(vec![7, 2], batch.ints(0).unwrap().iter().collect::<Vec<i64>>());
/// assert_eq!(vec!["Ann", "Bob"], batch.texts(1).unwrap().iter().collect::<Vec<&str>>());
/// # Ok::<(), Error>(())
/// ```
#[derive(Clone, Debug)]
pub struct Batch<'t> {
    first: u64,
    rows: usize,
    columns: Vec<Values<'t>>,
}

/// The cells of one column of a batch.
#[derive(Clone, Debug)]
#[non_exhaustive]
pub enum Values<'t> {
    /// The numbers of an int column.
    Ints(Ints<'t>),
    /// The texts of a text column.
    Texts(Texts),
    /// The booleans of a bool column.
    Bools(Vec<bool>),
}

impl<'t> Batch<'t> {
    /// The position of its first row.
    pub fn first(&self) -> u64 {
        self.first
    }

    /// How many rows it has.
    pub fn rows(&self) -> usize {
        self.rows
    }

    /// The cells of each chosen column, in the order in which they were chosen.
    pub fn columns(&self) -> &[Values<'t>] {
        &self.columns
    }

    /// The numbers of the chosen column of this index, where it is one of numbers.
    pub fn ints(&self, chosen: usize) -> Option<&Ints<'t>> {
        match self.columns.get(chosen) {
            Some(Values::Ints(ints)) => Some(ints),
            _ => None,
        }
    }

    /// The texts of the chosen column of this index, where it is one of texts.
    pub fn texts(&self, chosen: usize) -> Option<&Texts> {
        match self.columns.get(chosen) {
            Some(Values::Texts(texts)) => Some(texts),
            _ => None,
        }
    }

    /// The booleans of the chosen column of this index, where it is one of booleans.
    pub fn bools(&self, chosen: usize) -> Option<&[bool]> {
        match self.columns.get(chosen) {
            Some(Values::Bools(booleans)) => Some(booleans),
            _ => None,
        }
    }

    /// The cells of the columns from one position of the table up to another.
    pub(crate) fn read(txn: &'t Open<'_>, chosen: &[usize], from: u64, to: u64) -> Result<Batch<'t>, Error> {
        let rows = usize::try_from(to - from).map_err(|_| ErrorKind::NoMemory)?;
        let mut columns = Vec::new();
        columns.try_reserve_exact(chosen.len())?;
        for column in chosen {
            let values = match sentences::column(txn.table().columns(), *column)?.column_type {
                ColumnType::Int => Values::Ints(Ints::read(txn, *column, from, to)?),
                ColumnType::Text => Values::Texts(Texts::read(txn, *column, from, rows)?),
                ColumnType::Bool => Values::Bools(read_truths(txn, *column, from, rows)?),
            };
            columns.push(values);
        }
        Ok(Batch { first: from, rows, columns })
    }
}

/// A contiguous run of ints in a column.
#[derive(Clone, Copy, Debug)]
pub enum IntSpan<'t> {
    /// Values of the stable table, where they are.
    Stable(&'t [i64]),
    /// The value of a row that was inserted or changed.
    Changed(i64),
}

impl IntSpan<'_> {
    /// The values.
    pub fn as_slice(&self) -> &[i64] {
        match self {
            IntSpan::Stable(numbers) => numbers,
            IntSpan::Changed(number) => slice::from_ref(number),
        }
    }
}

/// The ints of a column of a batch, as runs: a run has up to 1,024 values, fewer where rows have changed.
#[derive(Clone, Debug)]
pub struct Ints<'t> {
    spans: Vec<IntSpan<'t>>,
}

impl<'t> Ints<'t> {
    /// The runs, in order.
    pub fn int_spans(&self) -> &[IntSpan<'t>] {
        &self.spans
    }

    /// The values, one by one.
    pub fn iter(&self) -> impl Iterator<Item = i64> {
        self.spans.iter().flat_map(|span| span.as_slice().iter().copied())
    }

    /// The spans of an int column from one position of the table up to another.
    fn read(txn: &'t Open<'_>, column: usize, from: u64, to: u64) -> Result<Ints<'t>, Error> {
        let none = ffi::IntSpan { at: std::ptr::null(), count: 0, number: 0 };
        let mut spans = Vec::new();
        let mut at = from;
        while at < to {
            let mut room = [none; PIECES];
            let (mut count, mut rows) = (PIECES, 0);
            // SAFETY: the transaction is open, and there is room for as many spans as `count` says.
            done(unsafe { ffi::pdt_int_spans(txn.raw(), column, at, to, room.as_mut_ptr(), &mut count, &mut rows) })?;
            assert!(rows > 0, "each number between two positions of a table is in a span");
            spans.try_reserve(count)?;
            // SAFETY: the library has filled as many spans, and the transaction is borrowed as long as they are there.
            spans.extend(room[..count].iter().map(|span| unsafe { IntSpan::lent(span) }));
            at += rows;
        }
        Ok(Ints { spans })
    }
}

impl<'t> IntSpan<'t> {
    /// A span that the library has handed out of a transaction.
    ///
    /// # Safety
    /// `pdt_int_spans` has filled the span, and until `'t` ends its transaction makes no write and isn't over.
    unsafe fn lent(span: &ffi::IntSpan) -> IntSpan<'t> {
        if span.at.is_null() {
            return IntSpan::Changed(span.number);
        }
        // SAFETY: as many numbers are there, nothing writes them, and they stay as long as the caller promises.
        IntSpan::Stable(unsafe { slice::from_raw_parts(span.at, span.count as usize) })
    }
}

/// The texts of a column of a batch, one after the other.
#[derive(Clone, Debug, PartialEq, Eq)]
pub struct Texts {
    offsets: Vec<usize>,
    bytes: String,
}

impl Texts {
    /// Where each text begins in [`as_str`](Texts::as_str), and where the last one ends: one more than there are texts.
    pub fn offsets(&self) -> &[usize] {
        &self.offsets
    }

    /// All texts, one after the other.
    pub fn as_str(&self) -> &str {
        &self.bytes
    }

    /// One text.
    pub fn get(&self, index: usize) -> Option<&str> {
        let (from, to) = (self.offsets.get(index)?, self.offsets.get(index.checked_add(1)?)?);
        Some(&self.bytes[*from..*to])
    }

    /// The texts, one by one.
    pub fn iter(&self) -> impl Iterator<Item = &str> {
        self.offsets.windows(2).map(|ends| &self.bytes[ends[0]..ends[1]])
    }

    /// The texts of a text column, of `rows` rows from a position on.
    fn read(txn: &Open<'_>, column: usize, from: u64, rows: usize) -> Result<Texts, Error> {
        let mut lengths = filled(rows, 0i64)?;
        let mut bytes = filled(rows.saturating_mul(16).max(ffi::MAX_TEXT), 0u8)?;
        let (mut done, mut end) = (0, 0);
        while done < rows {
            let read = read_cells(txn, column, from + done as u64, &mut lengths[done..], &mut bytes[end..])?;
            done += read.cells;
            end += read.bytes;
            if done < rows {
                let room = bytes.len().max(ffi::MAX_TEXT); // twice as much, so that the longest text has room
                bytes.try_reserve_exact(room)?;
                bytes.resize(bytes.len() + room, 0);
            }
        }
        bytes.truncate(end);
        let bytes = String::from_utf8(bytes).expect("the texts of a column are UTF-8");
        Ok(Texts { offsets: offsets_of(&lengths)?, bytes })
    }
}

/// Where texts of these lengths begin, and where the last one ends.
fn offsets_of(lengths: &[i64]) -> Result<Vec<usize>, Error> {
    let mut offsets = Vec::new();
    offsets.try_reserve_exact(lengths.len() + 1)?;
    let mut end = 0;
    offsets.push(end);
    for length in lengths {
        end += *length as usize;
        offsets.push(end);
    }
    Ok(offsets)
}

/// The numbers of an int column from a position on, as many as there is room for. Answers how many came.
pub(crate) fn numbers(txn: &Open<'_>, column: usize, from: u64, room: &mut [i64]) -> Result<usize, Error> {
    let mut count = room.len();
    // SAFETY: the transaction is open, and there is room for as many numbers as `count` says.
    done(unsafe { ffi::pdt_ints(txn.raw(), column, from, room.as_mut_ptr(), &mut count) })?;
    Ok(count)
}

/// The booleans of a bool column from a position on, as many as there is room for. Answers how many came.
pub(crate) fn booleans(txn: &Open<'_>, column: usize, from: u64, room: &mut [u8]) -> Result<usize, Error> {
    let mut count = room.len();
    // SAFETY: the transaction is open, and there is room for as many booleans as `count` says.
    done(unsafe { ffi::pdt_bools(txn.raw(), column, from, room.as_mut_ptr(), &mut count) })?;
    Ok(count)
}

/// The booleans of a bool column, of `rows` rows from a position on.
fn read_truths(txn: &Open<'_>, column: usize, from: u64, rows: usize) -> Result<Vec<bool>, Error> {
    let mut bytes = filled(rows, 0u8)?;
    let count = booleans(txn, column, from, &mut bytes)?;
    assert_eq!(rows, count, "each boolean between two positions of a table is handed out");
    let mut read = Vec::new();
    read.try_reserve_exact(rows)?;
    read.extend(bytes.iter().map(|byte| *byte != 0));
    Ok(read)
}

/// How many cells came, and how many bytes their texts have.
struct Read {
    cells: usize,
    bytes: usize,
}

/// Reads the cells of a column from a position on, as many as there is room for.
fn read_cells(txn: &Open<'_>, column: usize, from: u64, numbers: &mut [i64], texts: &mut [u8]) -> Result<Read, Error> {
    let mut read = Read { cells: numbers.len(), bytes: 0 };
    let (count, bytes) = (&mut read.cells, &mut read.bytes);
    let (room, out) = (texts.len(), texts.as_mut_ptr().cast());
    // SAFETY: the transaction is open, and there is room for as many numbers and bytes as is said.
    done(unsafe { ffi::pdt_cells(txn.raw(), column, from, numbers.as_mut_ptr(), count, out, room, bytes) })?;
    Ok(read)
}

/// The batches of a range of positions, in order. After an error none comes.
#[must_use = "batches are read as they are asked for"]
#[derive(Debug)]
pub struct Batches<'t> {
    txn: &'t Open<'t>,
    columns: Vec<usize>,
    at: u64,
    to: u64,
    rows: u64,
}

impl<'t> Batches<'t> {
    /// The batches of `rows` rows from one position of the table up to another.
    pub(crate) fn over(
        txn: &'t Open<'_>,
        chosen: &[usize],
        from: u64,
        to: u64,
        rows: usize,
    ) -> Result<Batches<'t>, Error> {
        for column in chosen {
            sentences::column(txn.table().columns(), *column)?;
        }
        let mut columns = Vec::new();
        columns.try_reserve_exact(chosen.len())?;
        columns.extend_from_slice(chosen);
        Ok(Batches { txn, columns, at: from, to, rows: rows.max(1) as u64 })
    }
}

impl<'t> Iterator for Batches<'t> {
    type Item = Result<Batch<'t>, Error>;

    fn next(&mut self) -> Option<Self::Item> {
        if self.at >= self.to {
            return None;
        }
        let end = self.at.saturating_add(self.rows).min(self.to);
        let batch = Batch::read(self.txn, &self.columns, self.at, end);
        self.at = if batch.is_ok() { end } else { self.to };
        Some(batch)
    }
}

impl FusedIterator for Batches<'_> {}
