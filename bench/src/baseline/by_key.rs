//! A merge by key: the updates of a table are kept in a tree in the order of their keys, and a scan finds where each
//! belongs by comparing keys, for which it reads the key columns.
use crate::data::{KeyKind, PREFIX, numbers, parts_of, qty_of, text_of};
use crate::drawn::Drawn;
use crate::updates::{Change, Update};
use std::cmp::Ordering;
use std::collections::BTreeMap;

/// The key columns of a table.
pub trait KeyColumns {
    /// A key of its own.
    type Key: Ord + Clone;

    fn of(numbers: impl Iterator<Item = i64>) -> Self;
    fn key_of(number: i64) -> Self::Key;
    fn rows(&self) -> usize;
    fn compare(&self, row: usize, key: &Self::Key) -> Ordering;
}

impl KeyColumns for Vec<i64> {
    type Key = i64;

    fn of(numbers: impl Iterator<Item = i64>) -> Vec<i64> {
        numbers.collect()
    }

    fn key_of(number: i64) -> i64 {
        number
    }

    fn rows(&self) -> usize {
        self.len()
    }

    fn compare(&self, row: usize, key: &i64) -> Ordering {
        self[row].cmp(key)
    }
}

impl KeyColumns for [Vec<i64>; 4] {
    type Key = [i64; 4];

    fn of(numbers: impl Iterator<Item = i64>) -> [Vec<i64>; 4] {
        let mut columns = [const { Vec::new() }; 4];
        for number in numbers {
            for (column, part) in columns.iter_mut().zip(parts_of(number)) {
                column.push(part);
            }
        }
        columns
    }

    fn key_of(number: i64) -> [i64; 4] {
        parts_of(number)
    }

    fn rows(&self) -> usize {
        self[0].len()
    }

    fn compare(&self, row: usize, key: &[i64; 4]) -> Ordering {
        for (column, part) in self.iter().zip(key) {
            match column[row].cmp(part) {
                Ordering::Equal => {}
                other => return other,
            }
        }
        Ordering::Equal
    }
}

/// A column of texts, so many bytes of which are the same in each: their bytes one after the other, and where each begins
/// and ends.
pub struct TextColumn<const SAME: usize> {
    ends: Vec<usize>,
    bytes: Vec<u8>,
}

impl<const SAME: usize> KeyColumns for TextColumn<SAME> {
    type Key = String;

    fn of(numbers: impl Iterator<Item = i64>) -> TextColumn<SAME> {
        let mut column = TextColumn { ends: vec![0], bytes: Vec::new() };
        for number in numbers {
            column.bytes.extend_from_slice(text_of(SAME, number).as_bytes());
            column.ends.push(column.bytes.len());
        }
        column
    }

    fn key_of(number: i64) -> String {
        text_of(SAME, number)
    }

    fn rows(&self) -> usize {
        self.ends.len() - 1
    }

    fn compare(&self, row: usize, key: &String) -> Ordering {
        self.bytes[self.ends[row]..self.ends[row + 1]].cmp(key.as_bytes())
    }
}

/// How the row of the next update is found.
#[derive(Clone, Copy, PartialEq, Eq)]
pub enum Search {
    /// By comparing each row's key with the update's, as a merge of two streams does.
    EachRow,
    /// By galloping, then binary search, as only a table in memory can be searched.
    Halving,
}

/// A table whose updates are kept by key, and a column of it.
pub struct ByKey<K: KeyColumns> {
    keys: K,
    qtys: Vec<i64>,
    updates: BTreeMap<K::Key, Change>,
}

impl<K: KeyColumns> ByKey<K> {
    pub fn of(rows: usize, updates: &[Update]) -> ByKey<K> {
        let mut order = updates.to_vec();
        Drawn::new(1).shuffle(&mut order);
        let mut updates = BTreeMap::new();
        for update in order {
            updates.insert(K::key_of(update.number), update.change);
        }
        ByKey { keys: K::of(numbers(rows)), qtys: numbers(rows).map(qty_of).collect(), updates }
    }

    /// The sum of the column after the updates.
    pub fn sum(&self, search: Search) -> i64 {
        let (mut sum, mut row) = (0, 0);
        for (key, change) in &self.updates {
            let next = match search {
                Search::EachRow => self.next_row(row, key, &mut sum),
                Search::Halving => self.halved(row, key, &mut sum),
            };
            row = match change {
                Change::Insert(qty) => {
                    sum += qty;
                    next
                }
                Change::Delete => next + 1,
                Change::Set(qty) => {
                    sum += qty;
                    next + 1
                }
            };
        }
        sum + self.qtys[row..].iter().sum::<i64>()
    }

    /// Adds the rows below a key from one on, and answers the first one that isn't below.
    fn next_row(&self, from: usize, key: &K::Key, sum: &mut i64) -> usize {
        let mut row = from;
        while row < self.keys.rows() && self.keys.compare(row, key) == Ordering::Less {
            *sum += self.qtys[row];
            row += 1;
        }
        row
    }

    /// The same by halving.
    fn halved(&self, from: usize, key: &K::Key, sum: &mut i64) -> usize {
        let (rows, mut step) = (self.keys.rows(), 1);
        let is_below = |row: usize| row < rows && self.keys.compare(row, key) == Ordering::Less;
        while is_below(from + step - 1) {
            step *= 2;
        }
        let (mut low, mut high) = (from + step / 2, (from + step - 1).min(rows)); // below it all are, from it on none
        while low < high {
            let middle = low + (high - low) / 2;
            if is_below(middle) {
                low = middle + 1;
            } else {
                high = middle;
            }
        }
        *sum += self.qtys[from..low].iter().sum::<i64>();
        low
    }
}

/// A table with updates by key, whatever its keys are.
pub enum AnyByKey {
    Int(ByKey<Vec<i64>>),
    FourInts(ByKey<[Vec<i64>; 4]>),
    Text(ByKey<TextColumn<0>>),
    LongText(ByKey<TextColumn<PREFIX>>),
}

impl AnyByKey {
    pub fn of(kind: KeyKind, rows: usize, updates: &[Update]) -> AnyByKey {
        match kind {
            KeyKind::Int => AnyByKey::Int(ByKey::of(rows, updates)),
            KeyKind::FourInts => AnyByKey::FourInts(ByKey::of(rows, updates)),
            KeyKind::Text => AnyByKey::Text(ByKey::of(rows, updates)),
            KeyKind::LongText => AnyByKey::LongText(ByKey::of(rows, updates)),
        }
    }

    pub fn sum(&self, search: Search) -> i64 {
        match self {
            AnyByKey::Int(table) => table.sum(search),
            AnyByKey::FourInts(table) => table.sum(search),
            AnyByKey::Text(table) => table.sum(search),
            AnyByKey::LongText(table) => table.sum(search),
        }
    }
}
