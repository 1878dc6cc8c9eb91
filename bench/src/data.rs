//! The tables that are measured. A row is known by a number, from which its cells follow: those of a table are even, so
//! that a row can come to stand between any two.
use crate::drawn::scattered;
use narthexmace::{CellRef, ColumnValues, Options, Table};
use std::fmt::Write;

/// What a key is made of.
#[derive(Clone, Copy, PartialEq, Eq)]
pub enum KeyKind {
    Int,
    FourInts,
    Text,
    /// A text that begins as all others do.
    LongText,
}

/// With how many equal bytes the keys of a kind begin that is a long text.
pub const PREFIX: usize = 1_000;

impl KeyKind {
    pub const SHORT: [KeyKind; 3] = [KeyKind::Int, KeyKind::FourInts, KeyKind::Text];
    pub const ALL: [KeyKind; 4] = [KeyKind::Int, KeyKind::FourInts, KeyKind::Text, KeyKind::LongText];

    pub fn word(self) -> &'static str {
        match self {
            KeyKind::Int => "one int",
            KeyKind::FourInts => "four ints",
            KeyKind::Text => "a text of 21 bytes",
            KeyKind::LongText => "1,000 equal bytes and 21",
        }
    }

    fn head(self) -> &'static str {
        match self {
            KeyKind::Int => "id:int:key",
            KeyKind::FourInts => "region:int:key,customer:int:key,order:int:key,line:int:key",
            KeyKind::Text | KeyKind::LongText => "id:text:key",
        }
    }

    /// The column of the names, the first after the key.
    pub fn name_column(self) -> usize {
        if self == KeyKind::FourInts { 4 } else { 1 }
    }

    /// The column of the quantities, the last one.
    pub fn qty_column(self) -> usize {
        self.name_column() + 1
    }
}

/// The four ints of the key of a row.
pub fn parts_of(number: i64) -> [i64; 4] {
    [number >> 18, number >> 12 & 63, number >> 6 & 63, number & 63]
}

/// The text of the key of a row, after so many bytes that are the same in each.
pub fn text_of(prefix: usize, number: i64) -> String {
    format!("{}customer-{number:012}", "-".repeat(prefix))
}

/// The name of a row, of 8 bytes.
pub fn name_of(number: i64) -> String {
    format!("name{:04}", number % 10_000)
}

/// The quantity of a row, as long as it isn't set: at least 1, so that a row that is missed is missed in a sum.
pub fn qty_of(number: i64) -> i64 {
    1 + (scattered(number as u64) % 1000) as i64
}

/// The last byte of a text: the names of rows beside each other have another one each.
pub fn last_byte(text: &str) -> i64 {
    text.bytes().next_back().map_or(0, i64::from)
}

/// The key of a row, in room of its own.
pub struct Key {
    kind: KeyKind,
    parts: [i64; 4],
    text: String,
}

impl Key {
    pub fn of(kind: KeyKind, number: i64) -> Key {
        let text = match kind {
            KeyKind::Text => text_of(0, number),
            KeyKind::LongText => text_of(PREFIX, number),
            KeyKind::Int | KeyKind::FourInts => String::new(),
        };
        let parts = if kind == KeyKind::Int { [number, 0, 0, 0] } else { parts_of(number) };
        Key { kind, parts, text }
    }

    pub fn cells(&self) -> Vec<CellRef<'_>> {
        match self.kind {
            KeyKind::Int => vec![CellRef::Int(self.parts[0])],
            KeyKind::FourInts => self.parts.iter().map(|part| CellRef::Int(*part)).collect(),
            KeyKind::Text | KeyKind::LongText => vec![CellRef::Text(&self.text)],
        }
    }
}

/// The numbers of the rows of a table.
pub fn numbers(rows: usize) -> impl Iterator<Item = i64> + Clone {
    (0..rows as i64).map(|row| 2 * row)
}

/// The CSV text of rows: their keys, names and quantities.
pub fn csv(kind: KeyKind, numbers: impl Iterator<Item = i64>) -> String {
    let mut text = format!("{},name:text,qty:int\n", kind.head());
    for number in numbers {
        let key = Key::of(kind, number);
        for cell in key.cells() {
            match cell {
                CellRef::Text(part) => write!(text, "{part},"),
                cell => write!(text, "{},", cell.as_int().unwrap_or(0)),
            }
            .expect("a string takes what is written");
        }
        writeln!(text, "{},{}", name_of(number), qty_of(number)).expect("a string takes what is written");
    }
    text
}

/// A table over a table of so many rows.
pub fn table(kind: KeyKind, rows: usize) -> Table {
    opened(&csv(kind, numbers(rows)))
}

/// A table over a table of so many rows under a key of one number, handed over by columns: the blocks of each lie
/// together.
pub fn by_columns(rows: usize) -> Table {
    with_columns(rows, |columns| Table::from_columns(columns, 1, &Options::default()).expect("the columns are a table"))
}

/// Calls with the columns of such a table.
pub fn with_columns<T>(rows: usize, call: impl FnOnce(&[(&str, ColumnValues<'_>)]) -> T) -> T {
    let ids: Vec<i64> = numbers(rows).collect();
    let quantities: Vec<i64> = ids.iter().map(|id| qty_of(*id)).collect();
    let (mut names, mut offsets) = (String::new(), vec![0]);
    for id in &ids {
        names.push_str(&name_of(*id));
        offsets.push(names.len() as u64);
    }
    call(&[
        ("id", ColumnValues::Ints(&ids)),
        ("name", ColumnValues::Texts { offsets: &offsets, bytes: names.as_bytes() }),
        ("qty", ColumnValues::Ints(&quantities)),
    ])
}

/// The table of a text.
pub fn opened(csv: &str) -> Table {
    Table::open(csv, &Options::default()).expect("the text is a table")
}
