//! Scans of a column of texts, by how many rows are updated: inserts, deletes, and texts that are set.
use super::{SHARES, Size, percent};
use crate::data::{by_columns, last_byte, name_of, numbers};
use crate::figures::{Figures, Line, Unit, grouped};
use crate::sqlite::{self, Bound, Database};
use crate::timing::{least, whole};
use crate::updates::{Change, Mix, Update, begun, updates};
use narthexmace::{Batch, Table, Transaction, cells};
use std::collections::BTreeMap;
use std::hint::black_box;

pub const NAME: &str = "texts";
const NAME_COLUMN: usize = 1;

/// How many rows a scan asks for at a time.
const BATCH: usize = 8_192;

pub fn run(size: &Size) -> Figures {
    let shares = [0.0, SHARES[1], SHARES[2]];
    Figures {
        name: NAME,
        question: format!(
            "how long does a scan of a column of {} texts of 8 bytes take, where inserts, deletes and set texts lie in \
             the Read-PDT?",
            grouped(size.rows)
        ),
        unit: Unit::Time,
        heads: &["updated rows"],
        ways: &["ours, lent", "ours, copied", "vector of strings", "SQLite"],
        lines: shares.map(|share| line(size, share)).into(),
    }
}

fn line(size: &Size, share: f64) -> Line {
    let updates = updates(size.rows, percent(share, size.rows), Mix::Mixed);
    let (table, database) = (by_columns(size.rows), sqlite::table(size.rows));
    make(&table, &updates);
    make_in_sqlite(&database, &updates);
    let strings: Vec<String> = names(size.rows, &updates).into_values().collect();
    let due = strings.iter().map(|name| weight(name)).sum();
    let txn = begun(&table);
    assert_eq!(strings.len() as u64, txn.rows(), "{NAME}: as many rows as in the image");
    let mut query = database.statement("SELECT name FROM items");
    let ways = vec![
        whole(1, due, || lent(&txn)),
        whole(1, due, || copied(&txn)),
        whole(1, due, || black_box(&strings).iter().map(|name| weight(name)).sum()),
        whole(1, due, || {
            let mut sum = 0;
            query.each(&[], |row| sum += weight(&row.text(0)));
            sum
        }),
    ];
    Line::new(&[&format!("{share} %")], least(NAME, size.rounds, ways))
}

/// What a text adds to an answer: its last byte, so that its bytes are read, and its length.
fn weight(name: &str) -> i64 {
    last_byte(name) + name.len() as i64
}

/// The name that is set.
fn other_name(number: i64) -> String {
    format!("other-{}", number % 1_000)
}

/// The names of the rows of a table after updates, by the numbers of the rows.
fn names(rows: usize, updates: &[Update]) -> BTreeMap<i64, String> {
    let mut names: BTreeMap<i64, String> = numbers(rows).map(|number| (number, name_of(number))).collect();
    for update in updates {
        match update.change {
            Change::Insert(_) => names.insert(update.number, name_of(update.number)),
            Change::Delete => names.remove(&update.number),
            Change::Set(_) => names.insert(update.number, other_name(update.number)),
        };
    }
    names
}

/// Makes the updates, which set names where others set quantities, and folds them.
fn make(table: &Table, updates: &[Update]) {
    let mut txn = begun(table);
    for Update { number, change } in updates {
        let written = match change {
            Change::Insert(qty) => txn.insert(cells![*number, &name_of(*number), *qty]),
            Change::Delete => txn.delete([*number]),
            Change::Set(_) => txn.set([*number], NAME_COLUMN, &other_name(*number)),
        };
        written.expect("the row is as it should be");
    }
    txn.commit().expect("nobody else commits");
    table.fold().expect("there is memory");
}

fn make_in_sqlite(database: &Database, updates: &[Update]) {
    let [mut insert, mut delete, mut set] =
        [sqlite::INSERT, sqlite::DELETE, "UPDATE items SET name = ? WHERE id = ?"].map(|sql| database.statement(sql));
    database.run("BEGIN");
    for Update { number, change } in updates {
        let id = Bound::Int(*number);
        match change {
            Change::Insert(qty) => insert.run(&[id, Bound::Text(&name_of(*number)), Bound::Int(*qty)]),
            Change::Delete => delete.run(&[id]),
            Change::Set(_) => set.run(&[Bound::Text(&other_name(*number)), id]),
        }
    }
    database.run("COMMIT");
}

/// Adds up the texts where they lie.
fn lent(txn: &Transaction<'_>) -> i64 {
    let batches = (0..txn.rows()).step_by(BATCH);
    let texts = |from: u64| txn.texts(NAME_COLUMN, from..from + BATCH as u64).expect("it is a column of texts");
    batches.map(|from| texts(from).into_iter().map(weight).sum::<i64>()).sum()
}

/// Adds up the texts, which are copied into batches first.
fn copied(txn: &Transaction<'_>) -> i64 {
    let batches = txn.batches(&[NAME_COLUMN], .., BATCH).expect("there is such a column");
    let sum = |batch: Batch<'_>| batch.texts(0).expect("it is a column of texts").iter().map(weight).sum::<i64>();
    batches.map(|batch| sum(batch.expect("there is memory"))).sum()
}
