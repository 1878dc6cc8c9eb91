//! Look-ups by key and inserts, by what the keys are made of.
use super::lookups::{selected, weight, weight_of};
use super::{Size, percent};
use crate::baseline::by_key::{KeyColumns, TextColumn};
use crate::baseline::map::Record;
use crate::data::{Key, KeyKind, PREFIX, last_byte, name_of, numbers, qty_of, table};
use crate::drawn::Drawn;
use crate::figures::{Figures, Line, Unit, grouped};
use crate::sqlite::{self, Bound, Database};
use crate::timing::{Turn, Way, clocked, least, way, whole};
use crate::updates::{Mix, Place, Update, begun, image, state, updated, updates};
use narthexmace::{CellRef, Table, Transaction};
use std::collections::BTreeMap;

pub const NAME: &str = "key_kinds";

/// The share of the rows that are updated in the second of two tables.
const SHARE: f64 = 10.0;
/// The quantity of each row that is inserted.
const QTY: i64 = 1_000_000;

pub fn run(size: &Size) -> Figures {
    let rows = size.rows / 10;
    let two_lines = |kind| match kind {
        KeyKind::Int => two_lines::<Vec<i64>>(size, kind, rows),
        KeyKind::FourInts => two_lines::<[Vec<i64>; 4]>(size, kind, rows),
        KeyKind::Text => two_lines::<TextColumn<0>>(size, kind, rows),
        KeyKind::LongText => two_lines::<TextColumn<PREFIX>>(size, kind, rows),
    };
    let mut lines: [Vec<Line>; 2] = Default::default();
    for kind in KeyKind::ALL {
        for (lines, line) in lines.iter_mut().zip(two_lines(kind)) {
            lines.push(line);
        }
    }
    Figures {
        name: NAME,
        question: format!(
            "how long do a look-up by key and an insert in an open transaction take, by what the keys are made of, over \
             {} rows, with none and with {SHARE} % of them updated in the Write-PDT?",
            grouped(rows)
        ),
        unit: Unit::Time,
        heads: &["call", "key"],
        ways: &["ours", "ours, updated", "map", "SQLite"],
        lines: lines.into_iter().flatten().collect(),
    }
}

/// A line for look-ups and one for inserts, by keys that the map has as `K` has them.
fn two_lines<K: KeyColumns>(size: &Size, kind: KeyKind, rows: usize) -> [Line; 2] {
    let changes = updates(rows, percent(SHARE, rows), Mix::Mixed);
    let [plain, updated] = [&[], changes.as_slice()].map(|updates| Kept::of(kind, rows, updates));
    let elsewhere = Elsewhere::<K>::of(kind, rows);
    let calls = size.calls.min(rows / 10);
    let [gets, changed_gets] = [&plain, &updated].map(|built| Asked::of(kind, built.there(calls)));
    let [inserts, changed_inserts] = [&plain, &updated].map(|built| Asked::of(kind, built.missing(calls)));
    let [txn, changed_txn] = [&plain, &updated].map(|built| begun(&built.table));
    let (due, due_after) = (plain.due_of(&gets), plain.due_after(&inserts));
    let get_ways = vec![
        gets.by_key(&txn, due),
        changed_gets.by_key(&changed_txn, updated.due_of(&changed_gets)),
        elsewhere.by_key_in_map(&gets, due),
        elsewhere.by_key_in_sqlite(&gets, due),
    ];
    let insert_ways = vec![
        inserts.insert(&plain.table, due_after),
        changed_inserts.insert(&updated.table, updated.due_after(&changed_inserts)),
        elsewhere.insert_into_map(&inserts, due_after),
        elsewhere.insert_into_sqlite(&inserts, due_after),
    ];
    [("look-up", get_ways), ("insert", insert_ways)]
        .map(|(call, ways)| Line::new(&[&call, &kind.word()], least(NAME, size.rounds, ways)))
}

/// A table of ours, and the quantities of its rows.
struct Kept {
    rows: usize,
    table: Table,
    image: BTreeMap<i64, i64>,
}

impl Kept {
    fn of(kind: KeyKind, rows: usize, updates: &[Update]) -> Kept {
        let table = table(kind, rows);
        drop(updated(&table, kind, updates, Place::WritePdt));
        Kept { rows, table, image: image(rows, updates) }
    }

    /// The numbers of so many rows, each drawn from all.
    fn there(&self, calls: usize) -> Vec<i64> {
        let all: Vec<i64> = self.image.keys().copied().collect();
        Drawn::new(7).sample(&all, calls)
    }

    /// The numbers of so many rows that aren't there, between those that are, in a drawn order.
    fn missing(&self, calls: usize) -> Vec<i64> {
        let odd = numbers(self.rows).map(|number| number + 1);
        let mut missing: Vec<i64> = odd.filter(|number| !self.image.contains_key(number)).collect();
        Drawn::new(3).shuffle(&mut missing);
        missing.truncate(calls);
        missing
    }

    /// What the rows that are asked for add up to.
    fn due_of(&self, asked: &Asked) -> i64 {
        asked.numbers.iter().map(|number| self.image[number] + last_byte(&name_of(*number))).sum()
    }

    /// The sum of the quantities after inserts, and how many rows there are then.
    fn due_after(&self, inserts: &Asked) -> i64 {
        let count = inserts.numbers.len() as i64;
        self.image.values().sum::<i64>() + self.image.len() as i64 + count * (QTY + 1)
    }
}

/// Rows that are asked for, or inserted.
struct Asked {
    kind: KeyKind,
    numbers: Vec<i64>,
    keys: Vec<Key>,
    names: Vec<String>,
}

impl Asked {
    fn of(kind: KeyKind, numbers: Vec<i64>) -> Asked {
        let keys = numbers.iter().map(|number| Key::of(kind, *number)).collect();
        let names = numbers.iter().map(|number| name_of(*number)).collect();
        Asked { kind, numbers, keys, names }
    }

    fn calls(&self) -> usize {
        self.numbers.len()
    }

    /// The cells of each key.
    fn keys(&self) -> Vec<Vec<CellRef<'_>>> {
        self.keys.iter().map(Key::cells).collect()
    }

    /// The cells of each row that is inserted.
    fn rows(&self) -> Vec<Vec<CellRef<'_>>> {
        let mut rows = self.keys();
        for (row, name) in rows.iter_mut().zip(&self.names) {
            row.extend([CellRef::Text(name), CellRef::Int(QTY)]);
        }
        rows
    }

    fn by_key<'a>(&'a self, txn: &'a Transaction<'_>, due: i64) -> Way<'a> {
        let keys = self.keys();
        let get = |key: &Vec<CellRef<'_>>| txn.get(key.iter().copied()).expect("there is memory").expect("such a row");
        whole(self.calls(), due, move || keys.iter().map(|key| weight_of(&get(key), self.kind)).sum())
    }

    fn insert<'a>(&'a self, table: &'a Table, due: i64) -> Way<'a> {
        let rows = self.rows();
        way(self.calls(), due, move || {
            let mut txn = begun(table);
            let insert = |row: &Vec<CellRef<'_>>| txn.insert(row.iter().copied()).expect("there is no such row");
            let (time, ()) = clocked(|| rows.iter().for_each(insert));
            Turn { time, answer: state(&txn, self.kind.qty_column()) }
        })
    }
}

/// The same rows in a map and in SQLite.
struct Elsewhere<K: KeyColumns> {
    map: BTreeMap<K::Key, Record>,
    database: Database,
}

impl<K: KeyColumns> Elsewhere<K> {
    fn of(kind: KeyKind, rows: usize) -> Elsewhere<K> {
        let record = |number: i64| Record { name: name_of(number), qty: qty_of(number) };
        let map = numbers(rows).map(|number| (K::key_of(number), record(number))).collect();
        let database = Database::in_memory();
        database.run(create(kind));
        database.run("BEGIN");
        let mut insert = database.statement(insert(kind));
        for number in numbers(rows) {
            let (key, name) = (Key::of(kind, number), name_of(number));
            let mut row = bounds(&key.cells());
            row.extend([Bound::Text(&name), Bound::Int(qty_of(number))]);
            insert.run(&row);
        }
        drop(insert);
        database.run("COMMIT");
        Elsewhere { map, database }
    }

    fn by_key_in_map<'a>(&'a self, asked: &'a Asked, due: i64) -> Way<'a> {
        let keys: Vec<K::Key> = asked.numbers.iter().map(|number| K::key_of(*number)).collect();
        whole(asked.calls(), due, move || keys.iter().map(|key| weight(&self.map[key].clone())).sum())
    }

    fn by_key_in_sqlite<'a>(&'a self, asked: &'a Asked, due: i64) -> Way<'a> {
        let keys: Vec<Vec<Bound<'_>>> = asked.keys().iter().map(|cells| bounds(cells)).collect();
        let mut query = self.database.statement(select(asked.kind));
        whole(asked.calls(), due, move || keys.iter().map(|key| selected(&mut query, key)).sum())
    }

    fn insert_into_map<'a>(&'a self, asked: &'a Asked, due: i64) -> Way<'a> {
        way(asked.calls(), due, move || {
            let mut map = self.map.clone();
            let keys: Vec<K::Key> = asked.numbers.iter().map(|number| K::key_of(*number)).collect();
            let (time, ()) = clocked(|| {
                for (key, name) in keys.into_iter().zip(&asked.names) {
                    map.insert(key, Record { name: name.clone(), qty: QTY });
                }
            });
            Turn { time, answer: map.values().map(|record| record.qty).sum::<i64>() + map.len() as i64 }
        })
    }

    fn insert_into_sqlite<'a>(&'a self, asked: &'a Asked, due: i64) -> Way<'a> {
        let rows: Vec<Vec<Bound<'_>>> = asked.rows().iter().map(|cells| bounds(cells)).collect();
        way(asked.calls(), due, move || {
            self.database.run("BEGIN");
            let mut insert = self.database.statement(insert(asked.kind));
            let (time, ()) = clocked(|| rows.iter().for_each(|row| insert.run(row)));
            drop(insert);
            let answer = self.database.number(sqlite::STATE);
            self.database.run("ROLLBACK");
            Turn { time, answer }
        })
    }
}

/// Cells as SQLite takes them.
fn bounds<'c>(cells: &[CellRef<'c>]) -> Vec<Bound<'c>> {
    let bound = |cell: &CellRef<'c>| match *cell {
        CellRef::Text(text) => Bound::Text(text),
        CellRef::Int(number) => Bound::Int(number),
        CellRef::Bool(boolean) => Bound::Int(i64::from(boolean)),
    };
    cells.iter().map(bound).collect()
}

fn create(kind: KeyKind) -> &'static str {
    match kind {
        KeyKind::Int => sqlite::CREATE,
        KeyKind::FourInts => {
            "CREATE TABLE items (region INTEGER NOT NULL, customer INTEGER NOT NULL, \"order\" INTEGER NOT NULL, \
             line INTEGER NOT NULL, name TEXT NOT NULL, qty INTEGER NOT NULL, \
             PRIMARY KEY (region, customer, \"order\", line)) WITHOUT ROWID"
        }
        KeyKind::Text | KeyKind::LongText => {
            "CREATE TABLE items (id TEXT PRIMARY KEY, name TEXT NOT NULL, qty INTEGER NOT NULL) WITHOUT ROWID"
        }
    }
}

fn insert(kind: KeyKind) -> &'static str {
    match kind {
        KeyKind::FourInts => "INSERT INTO items VALUES (?, ?, ?, ?, ?, ?)",
        _ => sqlite::INSERT,
    }
}

fn select(kind: KeyKind) -> &'static str {
    match kind {
        KeyKind::FourInts => {
            "SELECT name, qty FROM items WHERE region = ? AND customer = ? AND \"order\" = ? AND line = ?"
        }
        _ => "SELECT name, qty FROM items WHERE id = ?",
    }
}
