//! Updates of a table, and where they lie.
use crate::data::{Key, KeyKind, name_of, qty_of};
use crate::drawn::Drawn;
use narthexmace::{CellRef, Table, Transaction};
use std::collections::BTreeMap;

/// What becomes of a row.
#[derive(Clone, Copy)]
pub enum Change {
    /// It is inserted, with this quantity.
    Insert(i64),
    Delete,
    /// Its quantity is set.
    Set(i64),
}

/// A change of the row of a number.
#[derive(Clone, Copy)]
pub struct Update {
    pub number: i64,
    pub change: Change,
}

/// Which changes there are.
#[derive(Clone, Copy, PartialEq, Eq)]
pub enum Mix {
    /// Inserts, deletes and sets, a third each.
    Mixed,
    Sets,
}

impl Mix {
    pub fn word(self) -> &'static str {
        match self {
            Mix::Mixed => "inserts, deletes and sets",
            Mix::Sets => "sets",
        }
    }
}

/// Where updates lie.
#[derive(Clone, Copy, PartialEq, Eq)]
pub enum Place {
    /// They were committed, and folded.
    ReadPdt,
    /// They were committed.
    WritePdt,
    /// The transaction that reads has made them.
    Own,
}

impl Place {
    pub const ALL: [Place; 3] = [Place::ReadPdt, Place::WritePdt, Place::Own];
}

/// So many updates of a table of so many rows, of rows that are spread evenly, in the order of their keys.
pub fn updates(rows: usize, count: usize, mix: Mix) -> Vec<Update> {
    let mut drawn = Drawn::new(count as u64);
    (0..count)
        .map(|place| {
            let (from, to) = (place * rows / count, (place + 1) * rows / count);
            let number = 2 * (from + drawn.below(to - from)) as i64;
            let qty = 1 + drawn.below(1000) as i64;
            match (mix, place % 3) {
                (Mix::Mixed, 0) => Update { number: number + 1, change: Change::Insert(qty) },
                (Mix::Mixed, 1) => Update { number, change: Change::Delete },
                _ => Update { number, change: Change::Set(qty) },
            }
        })
        .collect()
}

/// The quantities of the rows of a table after updates, by the numbers of the rows.
pub fn image(rows: usize, updates: &[Update]) -> BTreeMap<i64, i64> {
    let mut image: BTreeMap<i64, i64> = crate::data::numbers(rows).map(|number| (number, qty_of(number))).collect();
    for update in updates {
        match update.change {
            Change::Insert(qty) | Change::Set(qty) => image.insert(update.number, qty),
            Change::Delete => image.remove(&update.number),
        };
    }
    image
}

/// Makes updates in a transaction, in a drawn order.
pub fn make(txn: &mut Transaction<'_>, kind: KeyKind, updates: &[Update]) {
    let mut order = updates.to_vec();
    Drawn::new(1).shuffle(&mut order);
    for update in order {
        let key = Key::of(kind, update.number);
        match update.change {
            Change::Insert(qty) => insert(txn, &key, update.number, qty),
            Change::Delete => txn.delete(key.cells()).expect("there is a row of the key"),
            Change::Set(qty) => txn.set(key.cells(), kind.qty_column(), qty).expect("there is a row of the key"),
        }
    }
}

fn insert(txn: &mut Transaction<'_>, key: &Key, number: i64, qty: i64) {
    let name = name_of(number);
    let mut row = key.cells();
    row.extend([CellRef::Text(&name), CellRef::Int(qty)]);
    txn.insert(row).expect("there is no row of the key");
}

/// A transaction that sees updates of its table, which lie at a place.
pub fn updated<'s>(table: &'s Table, kind: KeyKind, updates: &[Update], place: Place) -> Transaction<'s> {
    let mut txn = begun(table);
    make(&mut txn, kind, updates);
    if place == Place::Own {
        return txn;
    }
    txn.commit().expect("nobody else commits");
    if place == Place::ReadPdt {
        table.fold().expect("there is memory");
    }
    begun(table)
}

/// A transaction that has begun.
pub fn begun(table: &Table) -> Transaction<'_> {
    table.begin().expect("there is memory")
}

/// How many rows a scan asks for at a time.
const BATCH: usize = 16_384;

/// The sum of a column of numbers, by its pieces where they lie.
pub fn sum(txn: &Transaction<'_>, column: usize) -> i64 {
    let mut sum = 0i64;
    for batch in txn.batches(&[column], .., BATCH).expect("there is such a column") {
        let batch = batch.expect("there is memory");
        for span in batch.ints(0).expect("it is a column of numbers").int_spans() {
            sum = span.as_slice().iter().fold(sum, |sum, number| sum.wrapping_add(*number));
        }
    }
    sum
}

/// How many numbers a room has that they are copied into: so many lie near the processor.
const ROOM: usize = 8_192;

/// The sum of a column of numbers, which are copied into a room first.
pub fn sum_copied(txn: &Transaction<'_>, column: usize) -> i64 {
    let mut room = [0; ROOM];
    let (mut sum, mut from) = (0i64, 0);
    loop {
        let count = txn.ints(column, from, &mut room).expect("it is a column of numbers");
        if count == 0 {
            return sum;
        }
        sum = room[..count].iter().fold(sum, |sum, number| sum.wrapping_add(*number));
        from += count as u64;
    }
}

/// The sum of a column, and how many rows there are, in one number.
pub fn state(txn: &Transaction<'_>, column: usize) -> i64 {
    sum(txn, column) + txn.rows() as i64
}
