//! Rows in a plain map, which is changed in place and has no snapshots, and in sorted vectors, which aren't changed.
use crate::data::name_of;
use std::collections::BTreeMap;

/// A row but for its key.
#[derive(Clone)]
pub struct Record {
    pub name: String,
    pub qty: i64,
}

/// Rows by their numbers.
pub type Map = BTreeMap<i64, Record>;

/// The rows of an image.
pub fn map_of(image: &BTreeMap<i64, i64>) -> Map {
    image.iter().map(|(number, qty)| (*number, Record { name: name_of(*number), qty: *qty })).collect()
}

/// The sum of the quantities, and how many rows there are, in one number.
pub fn state_of(map: &Map) -> i64 {
    map.values().map(|record| record.qty).sum::<i64>() + map.len() as i64
}

/// Rows in the order of their numbers.
pub struct Sorted {
    numbers: Vec<i64>,
    records: Vec<Record>,
}

impl Sorted {
    pub fn of(image: &BTreeMap<i64, i64>) -> Sorted {
        Sorted { numbers: image.keys().copied().collect(), records: map_of(image).into_values().collect() }
    }

    /// The row of a number that is there.
    pub fn get(&self, number: i64) -> Record {
        self.records[self.rank(number)].clone()
    }

    pub fn row_at(&self, position: usize) -> Record {
        self.records[position].clone()
    }

    /// How many rows have a smaller number.
    pub fn rank(&self, number: i64) -> usize {
        self.numbers.partition_point(|other| *other < number)
    }
}
