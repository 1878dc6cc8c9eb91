//! Inserts of a transaction that makes savepoints, which SQL calls savepoints: each lets the one before it go.
use super::Size;
use crate::data::{KeyKind, name_of, table};
use crate::drawn::Drawn;
use crate::figures::{Figures, Line, Unit, grouped};
use crate::sqlite::{self, Bound, Database};
use crate::timing::{Turn, clocked, least, way};
use crate::updates::{begun, image, state};
use narthexmace::{Table, cells};

pub const NAME: &str = "savepoints";
const QTY: i64 = 1_000_000;

pub fn run(size: &Size) -> Figures {
    let (table, database) = (table(KeyKind::Int, size.rows), sqlite::table(size.rows));
    let inserts = Inserts::of(size);
    let line = |word: &str, each: usize| {
        let ways = vec![
            way(inserts.rows.len(), inserts.due, || inserts.ours(&table, each)),
            way(inserts.rows.len(), inserts.due, || inserts.in_sqlite(&database, each)),
        ];
        Line::new(&[&word], least(NAME, size.rounds, ways))
    };
    Figures {
        name: NAME,
        question: format!(
            "how long does each of {} inserts of a transaction take where savepoints are made, over {} rows?",
            grouped(inserts.rows.len()),
            grouped(size.rows)
        ),
        unit: Unit::Time,
        heads: &["savepoints"],
        ways: &["ours", "SQLite"],
        lines: vec![line("none", usize::MAX), line("one before each ten", 10), line("one before each", 1)],
    }
}

/// The rows that are inserted, in a drawn order, and the state that is due then.
struct Inserts {
    rows: Vec<(i64, String)>,
    due: i64,
}

impl Inserts {
    fn of(size: &Size) -> Inserts {
        let mut numbers: Vec<i64> = (0..size.rows as i64).map(|row| 2 * row + 1).collect();
        Drawn::new(17).shuffle(&mut numbers);
        numbers.truncate(size.calls.min(size.rows / 10));
        let before = image(size.rows, &[]);
        let due = before.values().sum::<i64>() + before.len() as i64 + numbers.len() as i64 * (QTY + 1);
        Inserts { rows: numbers.into_iter().map(|number| (number, name_of(number))).collect(), due }
    }

    fn ours(&self, table: &Table, each: usize) -> Turn {
        let mut txn = begun(table);
        let mut last = None;
        let (time, ()) = clocked(|| {
            for (place, (number, name)) in self.rows.iter().enumerate() {
                if place % each == each - 1 {
                    if let Some(savepoint) = last.take() {
                        txn.release(savepoint).expect("the savepoint stands");
                    }
                    last = Some(txn.savepoint().expect("there is memory"));
                }
                txn.insert(cells![*number, name, QTY]).expect("there is no row of the key");
            }
        });
        Turn { time, answer: state(&txn, KeyKind::Int.qty_column()) }
    }

    fn in_sqlite(&self, database: &Database, each: usize) -> Turn {
        database.run("BEGIN");
        let [mut savepoint, mut release, mut insert] =
            ["SAVEPOINT s", "RELEASE s", sqlite::INSERT].map(|sql| database.statement(sql));
        let (time, ()) = clocked(|| {
            for (place, (number, name)) in self.rows.iter().enumerate() {
                if place % each == each - 1 {
                    if place >= each {
                        release.run(&[]);
                    }
                    savepoint.run(&[]);
                }
                insert.run(&[Bound::Int(*number), Bound::Text(name), Bound::Int(QTY)]);
            }
        });
        drop((savepoint, release, insert));
        let answer = database.number(sqlite::STATE);
        database.run("ROLLBACK");
        Turn { time, answer }
    }
}
