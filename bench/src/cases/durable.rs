//! Durable commits by threads: each is a transaction that inserts one row, and is answered once the disk has it.
use super::Size;
use crate::data::{KeyKind, name_of, qty_of};
use crate::figures::{Figures, Line, Unit};
use crate::room::Room;
use crate::sqlite::{self, Bound};
use crate::threads::at_once;
use crate::timing::{Turn, least, way};
use crate::updates::{begun, state};
use narthexmace::{Database, DatabaseOptions, Options, SyncMode, Table, cells};
use std::cell::Cell;
use std::path::Path;
use std::time::Duration;

pub const NAME: &str = "durable";

/// How many threads there are in turn.
const THREADS: [usize; 3] = [1, 4, 16];

pub fn run(size: &Size) -> Figures {
    let room = Room::new();
    let lines = THREADS.map(|threads| {
        let due = due(size.durable);
        let quickest = Cell::new((Duration::MAX, 0.0)); // the time of our quickest turn, and how its commits shared syncs
        let ways = vec![
            way(size.durable, due, || {
                let turn = ours(&room.empty("ours"), SyncMode::Full, threads, size.durable);
                if turn.turn.time < quickest.get().0 {
                    quickest.set((turn.turn.time, turn.shared));
                }
                turn.turn
            }),
            way(size.durable, due, || theirs(&room.empty("theirs"), "FULL", threads, size.durable)),
            way(size.durable, due, || theirs(&room.empty("theirs"), "FULL", 1, size.durable)),
        ];
        let times = least(NAME, size.rounds, ways);
        let per_second = times.into_iter().map(|time| 1e9 / time).collect();
        Line::new(&[&threads, &format!("{:.1}", quickest.get().1)], per_second)
    });
    Figures {
        name: NAME,
        question: "how many commits of one row are made in a second by threads, each on the disk when it is answered?"
            .to_string(),
        unit: Unit::PerSecond,
        heads: &["threads", "our commits in a sync"],
        ways: &["ours", "SQLite in a file", "SQLite in a file by one thread"],
        lines: lines.into(),
    }
}

/// The sum of the quantities of so many rows, and how many they are.
pub fn due(rows: usize) -> i64 {
    (0..rows as i64).map(|number| qty_of(number) + 1).sum()
}

/// The numbers of the rows that a thread of several inserts.
fn numbers(thread: usize, threads: usize, rows: usize) -> impl Iterator<Item = i64> {
    (thread..rows).step_by(threads).map(|number| number as i64)
}

/// A turn of ours, and how many commits shared a sync on the average.
pub struct Ours {
    pub turn: Turn,
    pub shared: f64,
}

/// Inserts into a new database in an empty folder, by threads. What it answers is read after it is opened again.
pub fn ours(folder: &Path, sync: SyncMode, threads: usize, rows: usize) -> Ours {
    let options = DatabaseOptions { sync, ..DatabaseOptions::default() };
    let open = || Database::open(folder, &options).expect("a database can be opened").0;
    let database = open();
    let items = database.create("items", "id:int:key,name:text,qty:int\n", &Options::default()).expect("a new table");
    let syncs = database.counts().syncs;
    let done = at_once(threads, |thread| {
        numbers(thread, threads, rows).for_each(|number| insert(&items, number));
        0
    });
    let shared = rows as f64 / (database.counts().syncs - syncs).max(1) as f64;
    drop(items);
    database.close().expect("all is on the disk");
    let answer = state(&begun(&open().table("items").expect("it was made")), KeyKind::Int.qty_column());
    Ours { turn: Turn { time: done.whole, answer }, shared }
}

fn insert(items: &Table, number: i64) {
    let mut txn = begun(items);
    txn.insert(cells![number, &name_of(number), qty_of(number)]).expect("there is no such row");
    txn.commit().expect("nobody else inserts it");
}

/// The same into a database of SQLite's, with a connection for each thread.
pub fn theirs(folder: &Path, synchronous: &str, threads: usize, rows: usize) -> Turn {
    let file = folder.join("items.db");
    sqlite::logged(&file, synchronous).run(sqlite::CREATE);
    let connections: Vec<_> = (0..threads).map(|_| sqlite::logged(&file, synchronous)).collect();
    let done = at_once(threads, |thread| {
        let mut insert = connections[thread].statement(sqlite::INSERT);
        for number in numbers(thread, threads, rows) {
            insert.run(&[Bound::Int(number), Bound::Text(&name_of(number)), Bound::Int(qty_of(number))]);
        }
        0
    });
    drop(connections);
    Turn { time: done.whole, answer: sqlite::logged(&file, synchronous).number(sqlite::STATE) }
}
