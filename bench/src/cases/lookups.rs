//! Look-ups by key and by position, and the rank of a key, by the size of the table and by updates.
use super::{Size, percent};
use crate::baseline::map::{Record, Sorted};
use crate::data::{KeyKind, last_byte, table};
use crate::drawn::Drawn;
use crate::figures::{Figures, Line, Unit, grouped};
use crate::sqlite::{self, Bound, Database, Statement};
use crate::timing::{Way, least, whole};
use crate::updates::{Mix, Place, image, updated, updates};
use narthexmace::{Row, Transaction};
use std::collections::BTreeMap;

pub const NAME: &str = "lookups";

const KIND: KeyKind = KeyKind::Int;

/// The share of the rows that are updated in the second of two tables.
const SHARE: f64 = 10.0;

pub fn run(size: &Size) -> Figures {
    let mut lines: [Vec<Line>; 3] = Default::default();
    for rows in size.tables {
        for (lines, line) in lines.iter_mut().zip(three_lines(size, *rows)) {
            lines.push(line);
        }
    }
    Figures {
        name: NAME,
        question: format!("how long does a look-up take, with none and with {SHARE} % of the rows updated?"),
        unit: Unit::Time,
        heads: &["look-up", "rows"],
        ways: &["ours", "ours, updated", "sorted vector", "SQLite"],
        lines: lines.into_iter().flatten().collect(),
    }
}

/// The look-ups of tables of so many rows.
fn three_lines(size: &Size, rows: usize) -> [Line; 3] {
    let updates = updates(rows, percent(SHARE, rows), Mix::Mixed);
    let tables = [(); 2].map(|()| table(KIND, rows));
    let (plain, changed) = (image(rows, &[]), image(rows, &updates));
    let asked = [plain, changed].map(|image| Asked::of(&image, size.calls));
    let txns = [updated(&tables[0], KIND, &[], Place::Own), updated(&tables[1], KIND, &updates, Place::ReadPdt)];
    let database = sqlite::table(rows);
    type Ours = for<'a> fn(&'a Asked, &'a Transaction<'_>) -> Way<'a>;
    type Baselines = for<'a> fn(&'a Asked, &'a Database) -> [Way<'a>; 2];
    let cases: [(&str, Ours, Baselines); 3] = [
        ("by key", Asked::by_key, Asked::by_key_elsewhere),
        ("by position", Asked::by_position, Asked::by_position_elsewhere),
        ("rank of a key", Asked::rank, Asked::rank_elsewhere),
    ];
    cases.map(|(word, ours, baselines)| {
        let mut ways = vec![ours(&asked[0], &txns[0]), ours(&asked[1], &txns[1])];
        ways.extend(baselines(&asked[0], &database));
        Line::new(&[&word, &grouped(rows)], least(NAME, size.rounds, ways))
    })
}

/// What is asked: keys of rows that are there, and their positions.
struct Asked {
    sorted: Sorted,
    numbers: Vec<i64>,
    positions: Vec<usize>,
    /// How many of them SQLite is asked, where it counts rows.
    few: usize,
}

impl Asked {
    fn of(image: &BTreeMap<i64, i64>, calls: usize) -> Asked {
        let all: Vec<i64> = image.keys().copied().collect();
        let mut drawn = Drawn::new(7);
        let positions: Vec<usize> = (0..calls).map(|_| drawn.below(all.len())).collect();
        let numbers = positions.iter().map(|position| all[*position]).collect();
        Asked { sorted: Sorted::of(image), numbers, positions, few: calls.min(2_000_000 / all.len() + 5) }
    }

    /// What the rows of all numbers, or of the first so many, add up to.
    fn due(&self, calls: usize) -> i64 {
        self.positions[..calls].iter().map(|position| weight(&self.sorted.row_at(*position))).sum()
    }

    fn by_key<'a>(&'a self, txn: &'a Transaction<'_>) -> Way<'a> {
        let get = |number: &i64| txn.get([*number]).expect("there is memory").expect("there is a row of the key");
        let calls = self.numbers.len();
        whole(calls, self.due(calls), move || self.numbers.iter().map(|number| weight_of(&get(number), KIND)).sum())
    }

    fn by_key_elsewhere<'a>(&'a self, database: &'a Database) -> [Way<'a>; 2] {
        let mut query = database.statement("SELECT name, qty FROM items WHERE id = ?");
        let (calls, due) = (self.numbers.len(), self.due(self.numbers.len()));
        [
            whole(calls, due, move || self.numbers.iter().map(|number| weight(&self.sorted.get(*number))).sum()),
            whole(calls, due, move || {
                self.numbers.iter().map(|number| selected(&mut query, &[Bound::Int(*number)])).sum()
            }),
        ]
    }

    fn by_position<'a>(&'a self, txn: &'a Transaction<'_>) -> Way<'a> {
        let row_at = |at: &usize| txn.row_at(*at as u64).expect("there is memory").expect("there is such a row");
        let calls = self.positions.len();
        whole(calls, self.due(calls), move || self.positions.iter().map(|at| weight_of(&row_at(at), KIND)).sum())
    }

    fn by_position_elsewhere<'a>(&'a self, database: &'a Database) -> [Way<'a>; 2] {
        let mut query = database.statement("SELECT name, qty FROM items ORDER BY id LIMIT 1 OFFSET ?");
        let (calls, few) = (self.positions.len(), &self.positions[..self.few]);
        [
            whole(calls, self.due(calls), move || {
                self.positions.iter().map(|at| weight(&self.sorted.row_at(*at))).sum()
            }),
            whole(self.few, self.due(self.few), move || {
                few.iter().map(|at| selected(&mut query, &[Bound::Int(*at as i64)])).sum()
            }),
        ]
    }

    fn rank<'a>(&'a self, txn: &'a Transaction<'_>) -> Way<'a> {
        let rank = |number: &i64| txn.rank([*number]).expect("there is memory").below as i64;
        let calls = self.numbers.len();
        whole(calls, self.due_rank(calls), move || self.numbers.iter().map(rank).sum())
    }

    fn rank_elsewhere<'a>(&'a self, database: &'a Database) -> [Way<'a>; 2] {
        let mut query = database.statement("SELECT count(*) FROM items WHERE id < ?");
        let (calls, few) = (self.numbers.len(), &self.numbers[..self.few]);
        let rank = |number: &i64| self.sorted.rank(*number) as i64;
        [
            whole(calls, self.due_rank(calls), move || self.numbers.iter().map(rank).sum()),
            whole(self.few, self.due_rank(self.few), move || {
                few.iter().map(|number| query.number(&[Bound::Int(*number)])).sum()
            }),
        ]
    }

    fn due_rank(&self, calls: usize) -> i64 {
        self.positions[..calls].iter().sum::<usize>() as i64
    }
}

/// What the row weighs that SQLite hands out for values.
pub(super) fn selected(query: &mut Statement<'_>, values: &[Bound<'_>]) -> i64 {
    let mut found = None;
    query.each(values, |row| found = Some(Record { name: row.text(0), qty: row.int(1) }));
    weight(&found.expect("there is such a row"))
}

/// What a row adds to an answer: its quantity, and the last byte of its name, so that each way has its text in hand.
pub(super) fn weight(record: &Record) -> i64 {
    record.qty + last_byte(&record.name)
}

/// The same of a row of ours, under a key of a kind.
pub(super) fn weight_of(row: &Row, kind: KeyKind) -> i64 {
    let (qty, name) = (row[kind.qty_column()].as_int(), row[kind.name_column()].as_text());
    qty.expect("a number") + last_byte(name.expect("a text"))
}
