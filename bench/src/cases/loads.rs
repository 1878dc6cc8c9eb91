//! The reading of a table from CSV.
use super::Size;
use crate::baseline::reading::{columns, rows};
use crate::data::{KeyKind, csv, name_of, numbers, opened, qty_of};
use crate::drawn::Drawn;
use crate::figures::{Figures, Line, Unit, grouped};
use crate::sqlite::{self, Bound};
use crate::timing::{Turn, clocked, least, way};
use crate::updates::begun;
use std::hint::black_box;

pub const NAME: &str = "loads";

pub fn run(size: &Size) -> Figures {
    let mut drawn: Vec<i64> = numbers(size.rows).collect();
    Drawn::new(11).shuffle(&mut drawn);
    let texts = [
        ("in the order of their keys", csv(KeyKind::Int, numbers(size.rows))),
        ("in no order", csv(KeyKind::Int, drawn.into_iter())),
    ];
    let due = numbers(size.rows).map(qty_of).sum::<i64>() + size.rows as i64;
    let bytes = texts[0].1.len();
    let lines = texts.map(|(word, text)| {
        let ways = vec![way(1, due, || ours(&text)), way(1, due, || plain(&text)), way(1, due, || in_sqlite(&text))];
        Line::new(&[&word], least(NAME, size.rounds, ways))
    });
    Figures {
        name: NAME,
        question: format!("how long does a CSV text of {} rows and {} bytes take?", grouped(size.rows), grouped(bytes)),
        unit: Unit::Time,
        heads: &["rows"],
        ways: &["ours", "plain columns", "SQLite"],
        lines: lines.into(),
    }
}

fn ours(text: &str) -> Turn {
    let (time, table) = clocked(|| opened(text));
    let txn = begun(&table);
    let batch = txn.batch(&[0, 1, 2], ..).expect("there is memory");
    let (ids, qtys) = (batch.ints(0).expect("numbers"), batch.ints(2).expect("numbers"));
    let names = batch.texts(1).expect("texts");
    let rows = ids.iter().zip(names.iter()).zip(qtys.iter());
    Turn { time, answer: state_of_table(rows.map(|((id, name), qty)| (id, name, qty))) }
}

fn plain(text: &str) -> Turn {
    let (time, columns) = clocked(|| black_box(columns(text)));
    let rows = (0..columns.ids.len()).map(|row| (columns.ids[row], columns.names.get(row), columns.qtys[row]));
    Turn { time, answer: state_of_table(rows) }
}

fn in_sqlite(text: &str) -> Turn {
    let database = sqlite::empty();
    let (time, ()) = clocked(|| {
        database.run("BEGIN");
        let mut insert = database.statement(sqlite::INSERT);
        for (id, name, qty) in rows(text) {
            insert.run(&[Bound::Int(id), Bound::Text(name), Bound::Int(qty)]);
        }
        drop(insert);
        database.run("COMMIT");
    });
    let mut rows = Vec::new();
    let mut all = database.statement("SELECT id, name, qty FROM items ORDER BY id");
    all.each(&[], |row| rows.push((row.int(0), row.text(1), row.int(2))));
    Turn { time, answer: state_of_table(rows.iter().map(|(id, name, qty)| (*id, name.as_str(), *qty))) }
}

/// The sum of the quantities, and how many rows there are. Ends the program where a row isn't the table's of its place.
fn state_of_table<'r>(rows: impl Iterator<Item = (i64, &'r str, i64)>) -> i64 {
    let mut state = 0;
    for ((id, name, qty), number) in rows.zip(numbers(usize::MAX >> 2)) {
        assert!(id == number && name == name_of(number) && qty == qty_of(number), "{NAME}: another row of {number}");
        state += qty + 1;
    }
    state
}
