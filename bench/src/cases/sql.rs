//! Statements of SQL that read: on a virtual table of the extension, on one over a vector that does as little as a virtual table
//! can, and on a table of SQLite's own.
use super::{Size, percent};
use crate::drawn::Drawn;
use crate::figures::{Figures, Line, Unit, grouped};
use crate::sqlite::{self, Bound, Database};
use crate::timing::{Way, least, whole};
use crate::updates::{Mix, image, updates};
use std::collections::BTreeMap;

pub const NAME: &str = "sql";
const RANGE: &str = "SELECT sum(qty) FROM items WHERE id >= ? AND id < ?";
const RANGE_ROWS: usize = 1_000;

pub fn run(size: &Size) -> Figures {
    let databases = Databases {
        ours: sqlite::virtual_table(size.rows),
        vector: sqlite::vector(size.rows),
        own: sqlite::table(size.rows),
    };
    let mut lines = vec![databases.sum(size, "the sum of a column", &image(size.rows, &[])), databases.ranges(size)];
    let updates = updates(size.rows, percent(1.0, size.rows), Mix::Mixed);
    for database in [&databases.ours, &databases.own] {
        database.run("BEGIN");
        sqlite::make(database, &updates);
    }
    lines.push(databases.sum(size, "the sum, 1 % of the rows updated", &image(size.rows, &updates)));
    Figures {
        name: NAME,
        question: format!("how long does a statement of SQL take over a table of {} rows?", grouped(size.rows)),
        unit: Unit::Time,
        heads: &["statement"],
        ways: &["ours", "a virtual table over a vector", "SQLite"],
        lines,
    }
}

/// The same table three times; in that over a vector each quantity is 1.
struct Databases {
    ours: Database,
    vector: Database,
    own: Database,
}

impl Databases {
    fn sum(&self, size: &Size, word: &str, image: &BTreeMap<i64, i64>) -> Line {
        let due = image.values().sum();
        let ways = vec![sum_of(&self.ours, due), sum_of(&self.vector, size.rows as i64), sum_of(&self.own, due)];
        Line::new(&[&word], least(NAME, size.rounds, ways))
    }

    /// Sums over ranges of keys that begin at drawn rows.
    fn ranges(&self, size: &Size) -> Line {
        let image = image(size.rows, &[]);
        let mut drawn = Drawn::new(7);
        let from = (0..size.calls / 10).map(|_| 2 * drawn.below(size.rows - RANGE_ROWS) as i64);
        let ranges: Vec<(i64, i64)> = from.map(|low| (low, low + 2 * RANGE_ROWS as i64)).collect();
        let due = ranges.iter().map(|(low, high)| image.range(low..high).map(|(_, qty)| qty).sum::<i64>()).sum();
        let ways = vec![
            ranges_of(&self.ours, &ranges, due),
            ranges_of(&self.vector, &ranges, (ranges.len() * RANGE_ROWS) as i64),
            ranges_of(&self.own, &ranges, due),
        ];
        Line::new(
            &[&format!("the sum of {} rows, by a range of keys", grouped(RANGE_ROWS))],
            least(NAME, size.rounds, ways),
        )
    }
}

fn sum_of(database: &Database, due: i64) -> Way<'_> {
    let mut query = database.statement(sqlite::SUM);
    whole(1, due, move || query.number(&[]))
}

fn ranges_of<'d>(database: &'d Database, ranges: &'d [(i64, i64)], due: i64) -> Way<'d> {
    let mut query = database.statement(RANGE);
    let mut sum = move |low, high| query.number(&[Bound::Int(low), Bound::Int(high)]);
    whole(ranges.len(), due, move || ranges.iter().map(|(low, high)| sum(*low, *high)).sum())
}
