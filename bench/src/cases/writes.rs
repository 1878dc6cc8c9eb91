//! Writes in a transaction, by the size of the Write-PDT below it.
use super::Size;
use crate::baseline::map::{Map, Record, map_of, state_of};
use crate::data::{KeyKind, name_of, table};
use crate::drawn::Drawn;
use crate::figures::{Figures, Line, Unit, grouped};
use crate::sqlite::{self, Bound, Database};
use crate::timing::{Turn, clocked, least, way};
use crate::updates::{Mix, Place, begun, image, state, updated, updates};
use narthexmace::{Table, Transaction, cells};
use std::collections::BTreeMap;

pub const NAME: &str = "writes";

/// A kind of write.
#[derive(Clone, Copy)]
enum Kind {
    Insert,
    Delete,
    Set,
}

impl Kind {
    const ALL: [Kind; 3] = [Kind::Insert, Kind::Delete, Kind::Set];

    fn word(self) -> &'static str {
        match self {
            Kind::Insert => "insert",
            Kind::Delete => "delete",
            Kind::Set => "set",
        }
    }
}

pub fn run(size: &Size) -> Figures {
    let database = sqlite::table(size.rows);
    let mut lines: [Vec<Line>; 3] = Default::default();
    for entries in size.entries {
        let updates = updates(size.rows, *entries, Mix::Mixed);
        let table = table(KeyKind::Int, size.rows);
        drop(updated(&table, KeyKind::Int, &updates, Place::WritePdt));
        database.run("BEGIN");
        sqlite::make(&database, &updates);
        let image = image(size.rows, &updates);
        for (lines, kind) in lines.iter_mut().zip(Kind::ALL) {
            let times = Writes::of(kind, &image, size.calls.min(size.rows / 10)).times(size, &table, &image, &database);
            lines.push(Line::new(&[&kind.word(), &grouped(*entries)], times));
        }
        database.run("ROLLBACK");
    }
    let rows = grouped(size.rows);
    Figures {
        name: NAME,
        question: format!("how long does a write in an open transaction take, over a table of {rows} rows?"),
        unit: Unit::Time,
        heads: &["write", "entries of the Write-PDT"],
        ways: &["ours", "map", "SQLite"],
        lines: lines.into_iter().flatten().collect(),
    }
}

/// Writes of one kind, of as many rows.
struct Writes {
    kind: Kind,
    rows: Vec<(i64, String, i64)>,
}

impl Writes {
    /// Writes of drawn rows of an image, or of such as aren't there.
    fn of(kind: Kind, image: &BTreeMap<i64, i64>, calls: usize) -> Writes {
        let mut numbers: Vec<i64> = match kind {
            Kind::Insert => image.keys().map(|number| number | 1).filter(|odd| !image.contains_key(odd)).collect(),
            Kind::Delete | Kind::Set => image.keys().copied().collect(),
        };
        let mut drawn = Drawn::new(3);
        drawn.shuffle(&mut numbers);
        let qty = 1_000_000;
        Writes { kind, rows: numbers[..calls].iter().map(|number| (*number, name_of(*number), qty)).collect() }
    }

    fn times(&self, size: &Size, table: &Table, image: &BTreeMap<i64, i64>, database: &Database) -> Vec<f64> {
        let due = self.due(image);
        let map = map_of(image);
        let ways = vec![
            way(self.rows.len(), due, || self.ours(begun(table))),
            way(self.rows.len(), due, || self.in_map(map.clone())),
            way(self.rows.len(), due, || self.in_sqlite(database)),
        ];
        least(NAME, size.rounds, ways)
    }

    /// The sum of the quantities after the writes, and how many rows there are then.
    fn due(&self, image: &BTreeMap<i64, i64>) -> i64 {
        let before = image.values().sum::<i64>() + image.len() as i64;
        self.rows.iter().fold(before, |state, (number, _, qty)| match self.kind {
            Kind::Insert => state + qty + 1,
            Kind::Delete => state - image[number] - 1,
            Kind::Set => state + qty - image[number],
        })
    }

    fn ours(&self, mut txn: Transaction<'_>) -> Turn {
        let column = KeyKind::Int.qty_column();
        let (time, ()) = clocked(|| {
            for (number, name, qty) in &self.rows {
                let written = match self.kind {
                    Kind::Insert => txn.insert(cells![*number, name, *qty]),
                    Kind::Delete => txn.delete([*number]),
                    Kind::Set => txn.set([*number], column, *qty),
                };
                written.expect("the row is as it should be");
            }
        });
        Turn { time, answer: state(&txn, column) }
    }

    fn in_map(&self, mut map: Map) -> Turn {
        let (time, ()) = clocked(|| {
            for (number, name, qty) in &self.rows {
                match self.kind {
                    Kind::Insert => drop(map.insert(*number, Record { name: name.clone(), qty: *qty })),
                    Kind::Delete => drop(map.remove(number)),
                    Kind::Set => map.get_mut(number).expect("there is such a row").qty = *qty,
                }
            }
        });
        Turn { time, answer: state_of(&map) }
    }

    fn in_sqlite(&self, database: &Database) -> Turn {
        database.run("SAVEPOINT writes");
        let mut write = database.statement(match self.kind {
            Kind::Insert => sqlite::INSERT,
            Kind::Delete => sqlite::DELETE,
            Kind::Set => sqlite::SET,
        });
        let (time, ()) = clocked(|| {
            for (number, name, qty) in &self.rows {
                let (number, qty) = (Bound::Int(*number), Bound::Int(*qty));
                match self.kind {
                    Kind::Insert => write.run(&[number, Bound::Text(name), qty]),
                    Kind::Delete => write.run(&[number]),
                    Kind::Set => write.run(&[qty, number]),
                }
            }
        });
        drop(write);
        let answer = database.number(sqlite::STATE);
        database.run("ROLLBACK TO writes");
        database.run("RELEASE writes");
        Turn { time, answer }
    }
}
