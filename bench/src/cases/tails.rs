//! Begins and commits of one thread, call by call, while another one folds, cuts, checkpoints or commits late.
use super::Size;
use crate::baseline::map::{Map, map_of, state_of};
use crate::data::{KeyKind, by_columns};
use crate::drawn::Drawn;
use crate::figures::{Figures, Line, Unit, grouped};
use crate::tails::{Calls, FIGURES, Turns, middle};
use crate::updates::{begun, image, state};
use narthexmace::{Error, Table};
use std::collections::BTreeMap;
use std::hint::black_box;
use std::sync::Mutex;
use std::sync::atomic::{AtomicUsize, Ordering};
use std::thread;
use std::time::Duration;

pub const NAME: &str = "tails";

pub fn run(size: &Size) -> Figures {
    let asked = Asked::of(size);
    Figures {
        name: NAME,
        question: format!(
            "how long do the begin and the commit of a transaction of one set take over {} rows, while another thread \
             works on the table?",
            grouped(size.rows)
        ),
        unit: Unit::Time,
        heads: &["call", "beside it"],
        ways: &[
            "ours, p50",
            "ours, p99",
            "ours, p99.9",
            "ours, worst",
            "map under a lock, p50",
            "map under a lock, p99",
            "map under a lock, p99.9",
            "map under a lock, worst",
        ],
        lines: Beside::ALL.into_iter().flat_map(|beside| asked.lines(size.rounds, beside)).collect(),
    }
}

/// What another thread does meanwhile.
#[derive(Clone, Copy, PartialEq, Eq)]
enum Beside {
    Nothing,
    Folds,
    Cuts,
    Checkpoints,
    LateCommits,
}

impl Beside {
    const ALL: [Beside; 5] = [Beside::Nothing, Beside::Folds, Beside::Cuts, Beside::Checkpoints, Beside::LateCommits];

    fn word(self) -> &'static str {
        match self {
            Beside::Nothing => "nothing",
            Beside::Folds => "folds",
            Beside::Cuts => "cuts",
            Beside::Checkpoints => "checkpoints",
            Beside::LateCommits => "late commits",
        }
    }

    /// How often it is done in a turn at most.
    fn often(self) -> usize {
        match self {
            Beside::Nothing => 0,
            Beside::Folds | Beside::Cuts => 100,
            Beside::Checkpoints | Beside::LateCommits => 10,
        }
    }
}

/// The quantity to which late commits set their rows.
const LATE_QTY: i64 = 5_000_000;

/// What is set: a row and its quantity by each transaction, and other rows by each late commit.
struct Asked {
    rows: usize,
    sets: Vec<(i64, i64)>,
    late: Vec<i64>,
}

impl Asked {
    fn of(size: &Size) -> Asked {
        let each_other = |first: usize| (first..size.rows).step_by(2).map(|row| 2 * row as i64).collect::<Vec<i64>>();
        let (own, mut late) = (each_other(0), each_other(1));
        Drawn::new(21).shuffle(&mut late);
        late.truncate(size.calls);
        let drawn = Drawn::new(19).sample(&own, size.thread_calls / 2);
        Asked { rows: size.rows, sets: drawn.into_iter().zip(1_000_000..).collect(), late }
    }

    /// A line for the begins, and one for the commits.
    fn lines(&self, rounds: usize, beside: Beside) -> [Line; 2] {
        let before = image(self.rows, &[]);
        let map = Mutex::new(map_of(&before));
        let due = self.due(before, beside);
        let ways: Vec<Turns<'_, { 2 * FIGURES }>> =
            vec![Box::new(|| self.ours(beside, due)), Box::new(|| self.in_map(&map, beside, due))];
        let told = middle(rounds, ways);
        let line = |word: &str, from: usize| {
            let figures = told.iter().flat_map(|figures| figures[from..from + FIGURES].iter().copied());
            Line::new(&[&word, &beside.word()], figures.collect())
        };
        [line("begin", 0), line("commit", FIGURES)]
    }

    /// The sum of the quantities after all of them, and how many rows there are then.
    fn due(&self, mut after: BTreeMap<i64, i64>, beside: Beside) -> i64 {
        after.extend(self.sets.iter().copied());
        if beside == Beside::LateCommits {
            after.extend(self.late.iter().map(|row| (*row, LATE_QTY)));
        }
        after.values().sum::<i64>() + after.len() as i64
    }

    fn ours(&self, beside: Beside, due: i64) -> [f64; 2 * FIGURES] {
        let (table, column) = (by_columns(self.rows), KeyKind::Int.qty_column());
        let transact = |row: i64, qty: i64, calls: &mut Calls| {
            let mut txn = calls.begins.timed(|| begun(&table));
            txn.set([row], column, qty).expect("there is such a row");
            calls.commits.timed(|| txn.commit()).expect("nobody else sets these rows");
        };
        let calls = self.turn(beside, transact, |progress| self.dbtxn(&table, beside, progress));
        assert_eq!(due, state(&begun(&table), column), "{NAME}: another table than is due");
        calls.figures()
    }

    /// Does once what is done beside the transactions.
    fn dbtxn(&self, table: &Table, beside: Beside, progress: &Progress) {
        let pause = || progress.wait(self.sets.len() / beside.often());
        match beside {
            Beside::Nothing => {}
            Beside::Folds => {
                pause();
                table.fold().expect("there is memory");
            }
            Beside::Cuts => {
                pause();
                table.trim();
            }
            Beside::Checkpoints => {
                pause();
                let mut bytes = 0;
                let take = |_, part: &[u8]| {
                    bytes += part.len();
                    Ok::<(), Error>(())
                };
                table.checkpoint_to(take).expect("there is memory");
                assert!(bytes > self.rows, "{NAME}: a checkpoint has some bytes for each row");
            }
            Beside::LateCommits => {
                let mut txn = begun(table);
                for row in &self.late {
                    txn.set([*row], KeyKind::Int.qty_column(), LATE_QTY).expect("there is such a row");
                }
                pause();
                txn.commit().expect("nobody else sets these rows");
            }
        }
    }

    fn in_map(&self, map: &Mutex<Map>, beside: Beside, due: i64) -> [f64; 2 * FIGURES] {
        let locked = || map.lock().expect("no thread has panicked");
        let transact = |row: i64, qty: i64, calls: &mut Calls| {
            calls.begins.timed(|| drop(locked()));
            calls.commits.timed(|| locked().get_mut(&row).expect("there is such a row").qty = qty);
        };
        let dbtxn = |progress: &Progress| {
            progress.wait(self.sets.len() / beside.often());
            self.work_on(&mut locked(), beside);
        };
        let calls = self.turn(beside, transact, dbtxn);
        assert_eq!(due, state_of(&locked()), "{NAME}: another map than is due");
        calls.figures()
    }

    /// What a map has of it: it has nothing to fold and to cut, and is copied and changed as a whole.
    fn work_on(&self, map: &mut Map, beside: Beside) {
        match beside {
            Beside::Nothing | Beside::Folds | Beside::Cuts => {}
            Beside::Checkpoints => drop(black_box(bytes_of(map))),
            Beside::LateCommits => {
                for row in &self.late {
                    map.get_mut(row).expect("there is such a row").qty = LATE_QTY;
                }
            }
        }
    }

    /// Makes all transactions in this thread, while another one works, once at least.
    fn turn(
        &self,
        beside: Beside,
        mut transact: impl FnMut(i64, i64, &mut Calls),
        dbtxn: impl Fn(&Progress) + Sync,
    ) -> Calls {
        let progress = Progress { committed: AtomicUsize::new(0), all: self.sets.len() };
        let mut calls = Calls::of(self.sets.len());
        thread::scope(|threads| {
            if beside != Beside::Nothing {
                threads.spawn(|| {
                    dbtxn(&progress);
                    while !progress.is_over() {
                        dbtxn(&progress);
                    }
                });
            }
            for (row, qty) in &self.sets {
                transact(*row, *qty, &mut calls);
                progress.committed.fetch_add(1, Ordering::Release);
            }
        });
        calls
    }
}

/// The rows of a map as bytes.
fn bytes_of(map: &Map) -> Vec<u8> {
    let mut bytes = Vec::new();
    for (number, record) in map {
        bytes.extend(number.to_le_bytes());
        bytes.extend(record.name.bytes());
        bytes.extend(record.qty.to_le_bytes());
    }
    bytes
}

/// How many of the transactions of a turn are committed.
struct Progress {
    committed: AtomicUsize,
    all: usize,
}

impl Progress {
    /// How long a thread sleeps between two looks.
    const LOOKS: Duration = Duration::from_micros(50);

    fn committed(&self) -> usize {
        self.committed.load(Ordering::Acquire)
    }

    fn is_over(&self) -> bool {
        self.committed() == self.all
    }

    /// Waits until so many more are committed, or all are.
    fn wait(&self, more: usize) {
        let until = self.all.min(self.committed() + more);
        while self.committed() < until {
            thread::sleep(Progress::LOOKS);
        }
    }
}
