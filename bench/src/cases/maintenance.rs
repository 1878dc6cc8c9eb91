//! Begins and commits over a table of a database, call by call, while its own thread folds it and makes images of it.
use super::Size;
use crate::data::{KeyKind, name_of, numbers, qty_of, with_columns};
use crate::drawn::Drawn;
use crate::figures::{Figures, Line, NONE, Unit, grouped};
use crate::room::Room;
use crate::sqlite::{self, Bound};
use crate::tails::{Calls, FIGURES, Turns, middle};
use crate::updates::{begun, state};
use narthexmace::{Database, DatabaseOptions, Options, SyncMode, Table, cells};
use std::fs;
use std::path::Path;
use std::thread;
use std::time::Duration;

pub const NAME: &str = "maintenance";

/// How many turns there are at most: each takes some seconds.
const ROUNDS: usize = 3;

/// Inserts come in groups of so many, with a pause between them.
const GROUP: usize = 100;
const PAUSE: Duration = Duration::from_millis(1);

pub fn run(size: &Size) -> Figures {
    let inserts = Inserts::of(size);
    let syncs = [("normal", SyncMode::Normal, "NORMAL"), ("off", SyncMode::Off, "OFF")];
    let lines = syncs.map(|(word, sync, synchronous)| inserts.lines(size.rounds.min(ROUNDS), word, sync, synchronous));
    Figures {
        name: NAME,
        question: format!(
            "how long do the begin and the commit of each of {} transactions of one insert take, over a table of a \
             database of {} rows, which folds and makes images by itself?",
            grouped(inserts.numbers.len()),
            grouped(size.rows)
        ),
        unit: Unit::Time,
        heads: &["what", "sync", "folds", "images"],
        ways: &[
            "ours, p50",
            "ours, p99",
            "ours, worst",
            "SQLite in a file, p50",
            "SQLite in a file, p99",
            "SQLite in a file, worst",
        ],
        lines: lines.into_iter().flatten().collect(),
    }
}

/// What a turn of ours tells beside its calls: the longest time that the lock was held, folds, and images.
const TOLD: usize = 3;
const ALL: usize = 2 * FIGURES + TOLD;

/// The median, the 99th percentile and the worst of the figures of calls that begin at a place.
fn chosen(figures: &[f64; ALL], from: usize) -> [f64; 3] {
    [0, 1, FIGURES - 1].map(|place| figures[from + place])
}

/// The rows that are inserted, drawn from all places of the table.
struct Inserts {
    rows: usize,
    numbers: Vec<i64>,
}

impl Inserts {
    fn of(size: &Size) -> Inserts {
        let mut odd: Vec<i64> = numbers(size.rows).map(|number| number + 1).collect();
        Drawn::new(23).shuffle(&mut odd);
        odd.truncate(size.journal);
        Inserts { rows: size.rows, numbers: odd }
    }

    /// The sum of the quantities after all of them, and how many rows there are then.
    fn due(&self) -> i64 {
        numbers(self.rows).chain(self.numbers.iter().copied()).map(|number| qty_of(number) + 1).sum()
    }

    /// A line for the begins, one for the commits, and one for the lock.
    fn lines(&self, rounds: usize, word: &str, sync: SyncMode, synchronous: &str) -> [Line; 3] {
        let (room, due) = (Room::new(), self.due());
        let made = room.empty("made").join("items.db");
        make_file(&made, self.rows);
        let ways: Vec<Turns<'_, ALL>> = vec![
            Box::new(|| self.ours(&room.empty("ours"), sync, due)),
            Box::new(|| {
                let file = room.empty("theirs").join("items.db");
                fs::copy(&made, &file).expect("there is room for another file");
                self.theirs(&file, synchronous, due)
            }),
        ];
        let told = middle(rounds, ways);
        let [hold, folds, images] = [0, 1, 2].map(|place| told[0][2 * FIGURES + place]);
        let line = |what: &str, figures: Vec<f64>| Line::new(&[&what, &word, &folds, &images], figures);
        let calls = |from: usize| told.iter().flat_map(|figures| chosen(figures, from)).collect();
        let lock = [vec![NONE, NONE, hold], vec![NONE; 3]].concat();
        [line("a begin", calls(0)), line("a commit", calls(FIGURES)), line("a hold of the lock", lock)]
    }

    /// Inserts into a new database in an empty folder. What it has is read after it is opened again.
    fn ours(&self, folder: &Path, sync: SyncMode, due: i64) -> [f64; ALL] {
        let options = DatabaseOptions { sync, ..DatabaseOptions::default() };
        let open = || Database::open(folder, &options).expect("a database can be opened").0;
        make(&open(), self.rows);
        let database = open();
        let items = database.table("items").expect("it was made");
        let calls = self.turn(|number, calls| insert(&items, number, calls));
        let (counts, hold) = (database.counts(), items.counts().longest_hold);
        assert_eq!(0, counts.faults, "{NAME}: nothing that was due has failed");
        drop(items);
        database.close().expect("all is on the disk");
        let database = open();
        let items = database.table("items").expect("it was made");
        assert_eq!(due, state(&begun(&items), KeyKind::Int.qty_column()), "{NAME}: another table than is due");
        let told = [hold.as_nanos() as f64, counts.folds as f64, counts.checkpoints as f64];
        with(calls, told)
    }

    /// The same into a file of SQLite's, which checkpoints its log by itself.
    fn theirs(&self, file: &Path, synchronous: &str, due: i64) -> [f64; ALL] {
        let database = sqlite::logged(file, synchronous);
        let [mut begin, mut insert, mut commit] =
            ["BEGIN IMMEDIATE", sqlite::INSERT, "COMMIT"].map(|sql| database.statement(sql));
        let calls = self.turn(|number, calls| {
            calls.begins.timed(|| begin.run(&[]));
            insert.run(&[Bound::Int(number), Bound::Text(&name_of(number)), Bound::Int(qty_of(number))]);
            calls.commits.timed(|| commit.run(&[]));
        });
        assert_eq!(due, database.number(sqlite::STATE), "{NAME}: another table than is due");
        with(calls, [0.0; TOLD])
    }

    fn turn(&self, mut insert: impl FnMut(i64, &mut Calls)) -> Calls {
        let mut calls = Calls::of(self.numbers.len());
        for group in self.numbers.chunks(GROUP) {
            group.iter().for_each(|number| insert(*number, &mut calls));
            thread::sleep(PAUSE);
        }
        calls
    }
}

/// The figures of calls, and what is told beside them.
fn with(calls: Calls, told: [f64; TOLD]) -> [f64; ALL] {
    let calls = calls.figures();
    std::array::from_fn(|place| if place < 2 * FIGURES { calls[place] } else { told[place - 2 * FIGURES] })
}

/// Makes a table of so many rows.
fn make(database: &Database, rows: usize) {
    with_columns(rows, |columns| {
        database.create_from_columns("items", columns, 1, &Options::default()).expect("a new table");
    });
}

/// Makes a file of SQLite's with such a table.
fn make_file(file: &Path, rows: usize) {
    let database = sqlite::logged(file, "OFF");
    database.run(sqlite::CREATE);
    sqlite::fill(&database, rows);
}

fn insert(items: &Table, number: i64, calls: &mut Calls) {
    let mut txn = calls.begins.timed(|| begun(items));
    txn.insert(cells![number, &name_of(number), qty_of(number)]).expect("there is no such row");
    calls.commits.timed(|| txn.commit()).expect("nobody else inserts it");
}
