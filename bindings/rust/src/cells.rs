//! Cells, rows, and how they go to the library and come from it.
use crate::table::{Column, ColumnType};
use crate::{Error, ffi, sentences};
use std::ffi::c_void;
use std::ops::Deref;

/// A cell of a row. Cells are ordered as in keys: ints by value, texts by their bytes, false before true.
#[derive(Clone, Debug, PartialEq, Eq, PartialOrd, Ord, Hash)]
pub enum Cell {
    /// A number.
    Int(i64),
    /// A text of at most 4,096 bytes.
    Text(String),
    /// A boolean.
    Bool(bool),
}

impl Cell {
    /// The cell, borrowed.
    pub fn as_ref(&self) -> CellRef<'_> {
        match self {
            Cell::Int(number) => CellRef::Int(*number),
            Cell::Text(text) => CellRef::Text(text),
            Cell::Bool(boolean) => CellRef::Bool(*boolean),
        }
    }

    /// The number, where it is one.
    pub fn as_int(&self) -> Option<i64> {
        self.as_ref().as_int()
    }

    /// The text, where it is one.
    pub fn as_text(&self) -> Option<&str> {
        self.as_ref().as_text()
    }

    /// The boolean, where it is one.
    pub fn as_bool(&self) -> Option<bool> {
        self.as_ref().as_bool()
    }
}

/// A cell whose text is borrowed: what writes and look-ups take.
#[derive(Clone, Copy, Debug, PartialEq, Eq, Hash)]
pub enum CellRef<'c> {
    /// A number.
    Int(i64),
    /// A text.
    Text(&'c str),
    /// A boolean.
    Bool(bool),
}

impl<'c> CellRef<'c> {
    /// The number, where it is one.
    pub fn as_int(self) -> Option<i64> {
        match self {
            CellRef::Int(number) => Some(number),
            _ => None,
        }
    }

    /// The text, where it is one.
    pub fn as_text(self) -> Option<&'c str> {
        match self {
            CellRef::Text(text) => Some(text),
            _ => None,
        }
    }

    /// The boolean, where it is one.
    pub fn as_bool(self) -> Option<bool> {
        match self {
            CellRef::Bool(boolean) => Some(boolean),
            _ => None,
        }
    }

    fn column_type(self) -> ColumnType {
        match self {
            CellRef::Int(_) => ColumnType::Int,
            CellRef::Text(_) => ColumnType::Text,
            CellRef::Bool(_) => ColumnType::Bool,
        }
    }

    /// The number that the library has for the cell: a text's is how many bytes it has. No text is longer than
    /// `isize::MAX`.
    pub(crate) fn number(self) -> i64 {
        match self {
            CellRef::Int(number) => number,
            CellRef::Text(text) => text.len() as i64,
            CellRef::Bool(boolean) => i64::from(boolean),
        }
    }

    pub(crate) fn bytes(self) -> &'c [u8] {
        self.as_text().unwrap_or("").as_bytes()
    }

    /// `TypeMismatch` where the cell has another type than the column. The library says so of a long text.
    pub(crate) fn check(self, column: &Column) -> Result<(), Error> {
        if self.column_type() == column.column_type { Ok(()) } else { Err(sentences::no_cell(self, column)) }
    }
}

impl From<i64> for CellRef<'_> {
    fn from(number: i64) -> Self {
        CellRef::Int(number)
    }
}

impl<'c> From<&'c str> for CellRef<'c> {
    fn from(text: &'c str) -> Self {
        CellRef::Text(text)
    }
}

impl<'c> From<&'c String> for CellRef<'c> {
    fn from(text: &'c String) -> Self {
        CellRef::Text(text)
    }
}

impl From<bool> for CellRef<'_> {
    fn from(boolean: bool) -> Self {
        CellRef::Bool(boolean)
    }
}

impl<'c> From<&'c Cell> for CellRef<'c> {
    fn from(cell: &'c Cell) -> Self {
        cell.as_ref()
    }
}

impl<'c> From<&CellRef<'c>> for CellRef<'c> {
    fn from(cell: &CellRef<'c>) -> Self {
        *cell
    }
}

/// The cells of a row or of a key, as an array of [`CellRef`]s: numbers, texts and booleans side by side.
///
/// ```
/// use narthexmace::{CellRef, cells};
/// assert_eq!([CellRef::Int(30), CellRef::Text("Cid"), CellRef::Bool(true)], cells![30, "Cid", true]);
/// ```
#[macro_export]
macro_rules! cells {
    ($($cell:expr),+ $(,)?) => { [$($crate::CellRef::from($cell)),+] };
}

/// A row as a read hands it out: its cells, in the order of the columns. It may be inserted again as `&row`.
#[derive(Clone, Debug, PartialEq, Eq, Hash)]
pub struct Row(Vec<Cell>);

impl Row {
    pub(crate) fn of(cells: Vec<Cell>) -> Row {
        Row(cells)
    }
}

impl Deref for Row {
    type Target = [Cell];

    fn deref(&self) -> &[Cell] {
        &self.0
    }
}

impl From<Row> for Vec<Cell> {
    fn from(row: Row) -> Vec<Cell> {
        row.0
    }
}

impl IntoIterator for Row {
    type Item = Cell;
    type IntoIter = std::vec::IntoIter<Cell>;

    fn into_iter(self) -> Self::IntoIter {
        self.0.into_iter()
    }
}

impl<'c> IntoIterator for &'c Row {
    type Item = &'c Cell;
    type IntoIter = std::slice::Iter<'c, Cell>;

    fn into_iter(self) -> Self::IntoIter {
        self.0.iter()
    }
}

/// `count` clones of an element, or `NoMemory`.
pub(crate) fn filled<T: Clone>(count: usize, element: T) -> Result<Vec<T>, Error> {
    let mut elements = Vec::new();
    elements.try_reserve_exact(count)?;
    elements.resize(count, element);
    Ok(elements)
}

/// A text of its own, or `NoMemory`.
pub(crate) fn owned(text: &str) -> Result<String, Error> {
    let mut own = String::new();
    own.try_reserve_exact(text.len())?;
    own.push_str(text);
    Ok(own)
}

/// Cells as the library takes them: a number for each, and the texts one after the other.
pub(crate) struct Passed {
    numbers: [i64; ffi::MAX_COLUMNS],
    texts: Vec<u8>,
}

impl Passed {
    /// The cells of these columns, `"row"` or `"key"`: one for each, or `TypeMismatch`. `NoMemory` where there is none
    /// for the texts.
    pub(crate) fn of<'c, C: Into<CellRef<'c>>>(
        what: &str,
        cells: impl IntoIterator<Item = C>,
        columns: &[Column],
    ) -> Result<Passed, Error> {
        let mut passed = Passed { numbers: [0; ffi::MAX_COLUMNS], texts: Vec::new() };
        let mut cells = cells.into_iter();
        for (at, (column, number)) in columns.iter().zip(&mut passed.numbers).enumerate() {
            let cell = cells.next().ok_or_else(|| sentences::no_row(what, at, columns.len()))?.into();
            cell.check(column)?;
            *number = cell.number();
            passed.texts.try_reserve(cell.bytes().len())?;
            passed.texts.extend_from_slice(cell.bytes());
        }
        match cells.next() {
            Some(_) => Err(sentences::no_row(what, columns.len() + 1 + cells.count(), columns.len())),
            None => Ok(passed),
        }
    }

    /// As many numbers as there are columns in any table, those of the cells first.
    pub(crate) fn numbers(&self) -> *const i64 {
        self.numbers.as_ptr()
    }

    pub(crate) fn texts(&self) -> *const c_void {
        self.texts.as_ptr().cast()
    }

    pub(crate) fn bytes(&self) -> usize {
        self.texts.len()
    }
}

/// The cells of these types that the library handed out as numbers and texts: one number for each, or more.
pub(crate) fn cells_of(
    types: impl ExactSizeIterator<Item = ColumnType>,
    numbers: &[i64],
    texts: &str,
) -> Result<Vec<Cell>, Error> {
    let mut cells = Vec::new();
    cells.try_reserve_exact(types.len())?;
    let mut rest = texts;
    for (column_type, number) in types.zip(numbers) {
        cells.push(match column_type {
            ColumnType::Int => Cell::Int(*number),
            ColumnType::Bool => Cell::Bool(*number != 0),
            ColumnType::Text => {
                let (text, after) = rest.split_at(*number as usize);
                rest = after;
                Cell::Text(owned(text)?)
            }
        });
    }
    Ok(cells)
}

/// The row of these columns that the library handed out as numbers and texts.
pub(crate) fn row_of(columns: &[Column], numbers: &[i64], texts: &str) -> Result<Row, Error> {
    cells_of(columns.iter().map(|column| column.column_type), numbers, texts).map(Row)
}
