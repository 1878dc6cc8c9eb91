//! Scans of a column of booleans, by how many rows are updated, and how.
use super::{SHARES, Size, percent};
use crate::data::numbers;
use crate::drawn::scattered;
use crate::figures::{Figures, Line, Unit, grouped};
use crate::timing::{least, whole};
use crate::updates::{Change, Mix, Update, begun, updates};
use narthexmace::{ColumnValues, Options, Table, Transaction, cells};
use std::collections::BTreeMap;
use std::hint::black_box;

pub const NAME: &str = "booleans";
const TRUTH_COLUMN: usize = 1;

/// How many booleans a room has that they are copied into.
const ROOM: usize = 8_192;

pub fn run(size: &Size) -> Figures {
    let mut lines = vec![line(size, 0.0, Mix::Sets, "-")];
    for mix in [Mix::Mixed, Mix::Sets] {
        lines.extend([SHARES[1], SHARES[2]].map(|share| line(size, share, mix, mix.word())));
    }
    Figures {
        name: NAME,
        question: format!(
            "how long does it take to count what is true in a column of {} booleans, where the updates lie in the Read-PDT?",
            grouped(size.rows)
        ),
        unit: Unit::Time,
        heads: &["updated rows", "by"],
        ways: &["ours", "vector of bool"],
        lines,
    }
}

fn line(size: &Size, share: f64, mix: Mix, word: &str) -> Line {
    let updates = updates(size.rows, percent(share, size.rows), mix);
    let table = table(size.rows);
    make(&table, &updates);
    let booleans: Vec<bool> = image(size.rows, &updates).into_values().collect();
    let due = count(booleans.iter().copied());
    let txn = begun(&table);
    assert_eq!(booleans.len() as u64, txn.rows(), "{NAME}: as many rows as in the image");
    let ways = vec![whole(1, due, || counted(&txn)), whole(1, due, || count(black_box(&booleans).iter().copied()))];
    Line::new(&[&format!("{share} %"), &word], least(NAME, size.rounds, ways))
}

/// Whether a row's boolean is true, as long as it isn't set.
fn truth_of(number: i64) -> bool {
    scattered(number as u64) % 3 == 0
}

/// What an update's quantity says of the boolean.
fn truth_in(qty: i64) -> bool {
    qty % 2 == 0
}

fn count(booleans: impl Iterator<Item = bool>) -> i64 {
    booleans.map(i64::from).sum()
}

/// A table over a table of so many booleans, each under a number as key.
fn table(rows: usize) -> Table {
    let ids: Vec<i64> = numbers(rows).collect();
    let booleans: Vec<bool> = ids.iter().map(|id| truth_of(*id)).collect();
    let columns = [("id", ColumnValues::Ints(&ids)), ("ok", ColumnValues::Bools(&booleans))];
    Table::from_columns(&columns, 1, &Options::default()).expect("the columns are a table")
}

/// The booleans of the rows of a table after updates, by the numbers of the rows.
fn image(rows: usize, updates: &[Update]) -> BTreeMap<i64, bool> {
    let mut image: BTreeMap<i64, bool> = numbers(rows).map(|number| (number, truth_of(number))).collect();
    for update in updates {
        match update.change {
            Change::Insert(qty) | Change::Set(qty) => image.insert(update.number, truth_in(qty)),
            Change::Delete => image.remove(&update.number),
        };
    }
    image
}

/// Makes the updates, which set booleans where others set quantities, and folds them.
fn make(table: &Table, updates: &[Update]) {
    let mut txn = begun(table);
    for Update { number, change } in updates {
        let written = match change {
            Change::Insert(qty) => txn.insert(cells![*number, truth_in(*qty)]),
            Change::Delete => txn.delete([*number]),
            Change::Set(qty) => txn.set([*number], TRUTH_COLUMN, truth_in(*qty)),
        };
        written.expect("the row is as it should be");
    }
    txn.commit().expect("nobody else commits");
    table.fold().expect("there is memory");
}

/// Counts what is true, of booleans that are copied into a room first.
fn counted(txn: &Transaction<'_>) -> i64 {
    let mut room = [0; ROOM];
    let (mut sum, mut from) = (0, 0);
    loop {
        let rows = txn.bools(TRUTH_COLUMN, from, &mut room).expect("it is a column of booleans");
        if rows == 0 {
            return sum;
        }
        sum += room[..rows].iter().map(|boolean| i64::from(*boolean)).sum::<i64>();
        from += rows as u64;
    }
}
