//! Transactions of SQL with one write: on a virtual table of the extension, and on a table of SQLite's own.
use super::Size;
use crate::data::name_of;
use crate::drawn::Drawn;
use crate::figures::{Figures, Line, Unit, grouped};
use crate::sqlite::{self, Bound, Database};
use crate::timing::{Turn, clocked, least, way};
use crate::updates::image;

pub const NAME: &str = "sql_transactions";
const QTY: i64 = 1_000_000;

pub fn run(size: &Size) -> Figures {
    let (ours, own) = (sqlite::virtual_table(size.rows), sqlite::table(size.rows));
    let line = |write: Write| {
        let rows = write.rows(size);
        let due = write.due(size, &rows);
        let ways = [&ours, &own].map(|database| way(rows.len(), due, || write.turn(database, &rows)));
        Line::new(&[&write.word()], least(NAME, size.rounds, ways.into()))
    };
    Figures {
        name: NAME,
        question: format!(
            "how long does a transaction of SQL with one write take, from BEGIN to COMMIT, over {} rows?",
            grouped(size.rows)
        ),
        unit: Unit::Time,
        heads: &["write"],
        ways: &["ours", "SQLite"],
        lines: vec![line(Write::Insert), line(Write::Set)],
    }
}

/// The write of a transaction.
#[derive(Clone, Copy)]
enum Write {
    Insert,
    Set,
}

impl Write {
    fn word(self) -> &'static str {
        match self {
            Write::Insert => "an insert",
            Write::Set => "a set",
        }
    }

    /// Drawn rows, each another one: of the table, or between those of the table.
    fn rows(self, size: &Size) -> Vec<i64> {
        let mut rows: Vec<i64> = (0..size.rows as i64).collect();
        Drawn::new(11).shuffle(&mut rows);
        rows.truncate(size.calls.min(size.rows / 10));
        rows.iter().map(|row| 2 * row + i64::from(matches!(self, Write::Insert))).collect()
    }

    /// The sum of the quantities after the transactions, and how many rows there are then.
    fn due(self, size: &Size, rows: &[i64]) -> i64 {
        let image = image(size.rows, &[]);
        let before = image.values().sum::<i64>() + image.len() as i64;
        rows.iter().fold(before, |state, row| match self {
            Write::Insert => state + QTY + 1,
            Write::Set => state + QTY - image[row],
        })
    }

    /// A transaction for each row. What was inserted is deleted again, in a time that isn't counted.
    fn turn(self, database: &Database, rows: &[i64]) -> Turn {
        let [mut begin, mut commit] = ["BEGIN", "COMMIT"].map(|sql| database.statement(sql));
        let mut write = database.statement(match self {
            Write::Insert => sqlite::INSERT,
            Write::Set => sqlite::SET,
        });
        let names: Vec<String> = rows.iter().map(|row| name_of(*row)).collect();
        let (time, ()) = clocked(|| {
            for (row, name) in rows.iter().zip(&names) {
                begin.run(&[]);
                match self {
                    Write::Insert => write.run(&[Bound::Int(*row), Bound::Text(name), Bound::Int(QTY)]),
                    Write::Set => write.run(&[Bound::Int(QTY), Bound::Int(*row)]),
                }
                commit.run(&[]);
            }
        });
        let answer = database.number(sqlite::STATE);
        if matches!(self, Write::Insert) {
            database.run("DELETE FROM items WHERE id % 2 = 1");
        }
        Turn { time, answer }
    }
}
