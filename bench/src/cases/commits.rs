//! Whole transactions of sets, by the size of the Write-PDT into which they commit.
use super::Size;
use crate::baseline::map::{Map, map_of, state_of};
use crate::data::{KeyKind, table};
use crate::drawn::Drawn;
use crate::figures::{Figures, Line, Unit, grouped};
use crate::sqlite::{self, Bound, Database};
use crate::timing::{Turn, clocked, least, way};
use crate::updates::{Mix, Place, Update, begun, image, state, updated, updates};
use narthexmace::Table;
use std::collections::BTreeMap;
use std::sync::Mutex;

pub const NAME: &str = "commits";

pub fn run(size: &Size) -> Figures {
    let mut lines: [Vec<Line>; 2] = Default::default();
    for entries in size.entries {
        let base = Base::of(size.rows, *entries);
        for (lines, each) in lines.iter_mut().zip([1, 10]) {
            let times = base.times(size.rounds, &base.sets(each, (size.calls / 10).max(50)));
            lines.push(Line::new(&[&each, &grouped(*entries)], times));
        }
    }
    let rows = grouped(size.rows);
    Figures {
        name: NAME,
        question: format!("how long does a transaction of sets take, from begin to commit, over {rows} rows?"),
        unit: Unit::Time,
        heads: &["sets", "entries of the Write-PDT"],
        ways: &["ours", "map under a lock", "SQLite"],
        lines: lines.into_iter().flatten().collect(),
    }
}

/// The same table three times, some rows of which are set. What is set again is one of these rows, so that the Write-PDT
/// keeps its size.
pub(super) struct Base {
    updates: Vec<Update>,
    image: BTreeMap<i64, i64>,
    table: Table,
    map: Mutex<Map>,
    database: Database,
}

/// What transactions set: the row and its quantity, so many for each.
pub(super) struct Sets {
    each: usize,
    cells: Vec<(i64, i64)>,
}

impl Base {
    pub(super) fn of(rows: usize, entries: usize) -> Base {
        let updates = updates(rows, entries, Mix::Sets);
        let (image, table, database) = (image(rows, &updates), table(KeyKind::Int, rows), sqlite::table(rows));
        drop(updated(&table, KeyKind::Int, &updates, Place::WritePdt));
        database.run("BEGIN");
        sqlite::make(&database, &updates);
        database.run("COMMIT");
        Base { map: Mutex::new(map_of(&image)), updates, image, table, database }
    }

    pub(super) fn sets(&self, each: usize, transactions: usize) -> Sets {
        let drawn = Drawn::new(5).sample(&self.updates, each * transactions);
        Sets { each, cells: drawn.iter().zip(1_000_000..).map(|(update, qty)| (update.number, qty)).collect() }
    }

    /// The nanoseconds of a transaction. Each way leaves its table as the other ones do.
    pub(super) fn times(&self, rounds: usize, sets: &Sets) -> Vec<f64> {
        let mut after = self.image.clone();
        after.extend(self.map.lock().expect("no thread has panicked").iter().map(|(row, it)| (*row, it.qty)));
        after.extend(sets.cells.iter().copied());
        let due = after.values().sum::<i64>() + after.len() as i64;
        let calls = sets.cells.len() / sets.each;
        let ways = vec![
            way(calls, due, || self.ours(sets)),
            way(calls, due, || self.in_map(sets)),
            way(calls, due, || self.in_sqlite(sets)),
        ];
        least(NAME, rounds, ways)
    }

    fn ours(&self, sets: &Sets) -> Turn {
        self.table.trim(); // no turn has more commits behind it than the first
        let (time, ()) = clocked(|| {
            for cells in sets.cells.chunks(sets.each) {
                let mut txn = begun(&self.table);
                for (row, qty) in cells {
                    txn.set([*row], KeyKind::Int.qty_column(), *qty).expect("there is such a row");
                }
                txn.commit().expect("nobody else commits");
            }
        });
        Turn { time, answer: state(&begun(&self.table), KeyKind::Int.qty_column()) }
    }

    fn in_map(&self, sets: &Sets) -> Turn {
        let (time, ()) = clocked(|| {
            for cells in sets.cells.chunks(sets.each) {
                let mut map = self.map.lock().expect("no thread has panicked");
                for (row, qty) in cells {
                    map.get_mut(row).expect("there is such a row").qty = *qty;
                }
            }
        });
        Turn { time, answer: state_of(&self.map.lock().expect("no thread has panicked")) }
    }

    fn in_sqlite(&self, sets: &Sets) -> Turn {
        let statement = |sql| self.database.statement(sql);
        let (mut begin, mut set, mut commit) = (statement("BEGIN"), statement(sqlite::SET), statement("COMMIT"));
        let (time, ()) = clocked(|| {
            for cells in sets.cells.chunks(sets.each) {
                begin.run(&[]);
                for (row, qty) in cells {
                    set.run(&[Bound::Int(*qty), Bound::Int(*row)]);
                }
                commit.run(&[]);
            }
        });
        Turn { time, answer: self.database.number(sqlite::STATE) }
    }
}
