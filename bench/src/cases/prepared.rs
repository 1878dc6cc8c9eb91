//! Begins and aborts while another thread holds a commit prepared, and with nothing beside them.
use super::Size;
use crate::data::{KeyKind, table};
use crate::figures::{Figures, Line, Unit};
use crate::threads::{AtOnce, at_once};
use crate::timing::{Turn, least, way};
use crate::updates::begun;
use narthexmace::Table;
use std::hint::black_box;
use std::sync::{Arc, Mutex, mpsc};
use std::thread;
use std::time::{Duration, Instant};

pub const NAME: &str = "prepared";

pub fn run(size: &Size) -> Figures {
    let rows = size.rows / 100;
    let table = table(KeyKind::Int, rows);
    let mut lines = Vec::new();
    for beside in [Beside::Nothing, Beside::Prepared] {
        for threads in [1, 4] {
            for figure in [Figure::Mean, Figure::Worst] {
                lines.push(Asked { beside, threads, figure, calls: size.thread_calls }.line(size.rounds, &table, rows));
            }
        }
    }
    Figures {
        name: NAME,
        question: "how long does a begin with its abort take in each of several threads, while another thread holds a \
                   commit prepared?"
            .to_string(),
        unit: Unit::Time,
        heads: &["beside it", "threads", "which"],
        ways: &["ours", "Arc under a lock"],
        lines,
    }
}

/// What another thread does meanwhile.
#[derive(Clone, Copy)]
enum Beside {
    Nothing,
    Prepared,
}

impl Beside {
    fn word(self) -> &'static str {
        match self {
            Beside::Nothing => "nothing",
            Beside::Prepared => "a commit prepared",
        }
    }

    /// Makes a call while it is done.
    fn during(self, table: &Table, call: impl FnOnce() -> AtOnce) -> AtOnce {
        let Beside::Prepared = self else { return call() };
        let ((says, said), (ends, ended)) = (mpsc::channel(), mpsc::channel::<()>());
        thread::scope(|threads| {
            threads.spawn(move || {
                let mut txn = begun(table);
                txn.set([0], KeyKind::Int.qty_column(), 7).expect("there is such a row");
                let prepared = txn.prepare().expect("nobody else commits");
                says.send(()).expect("the call waits for it");
                let _ = ended.recv(); // until the call is done
                drop(prepared);
            });
            said.recv().expect("a commit is prepared");
            let done = call();
            drop(ends);
            done
        })
    }
}

/// What is told of the begins of a turn.
#[derive(Clone, Copy)]
enum Figure {
    Mean,
    /// The longest of them: each is timed by itself.
    Worst,
}

impl Figure {
    fn word(self) -> &'static str {
        match self {
            Figure::Mean => "on the average",
            Figure::Worst => "the worst",
        }
    }
}

/// What a line asks.
struct Asked {
    beside: Beside,
    threads: usize,
    figure: Figure,
    /// The begins of each thread in a turn.
    calls: usize,
}

impl Asked {
    fn line(&self, rounds: usize, table: &Table, rows: usize) -> Line {
        let shared = Mutex::new(Arc::new(rows as i64));
        let newest = || Arc::clone(&shared.lock().expect("no thread has panicked"));
        let due = (self.threads * rows) as i64;
        let ways = vec![
            way(self.calls, due, || self.turn(table, || begun(table), |txn| txn.rows() as i64)),
            way(self.calls, due, || self.turn(table, newest, |rows| **rows)),
        ];
        Line::new(&[&self.beside.word(), &self.threads, &self.figure.word()], least(NAME, rounds, ways))
    }

    /// Begins and ends in threads at once. What the last begin of each sees is added up.
    fn turn<T>(&self, table: &Table, begin: impl Fn() -> T + Sync, seen: impl Fn(&T) -> i64 + Sync) -> Turn {
        let worst = Mutex::new(Duration::ZERO);
        let timed = || {
            let start = Instant::now();
            drop(black_box(begin()));
            start.elapsed()
        };
        let thread = |_| {
            match self.figure {
                Figure::Mean => (1..self.calls).for_each(|_| drop(black_box(begin()))),
                Figure::Worst => {
                    let longest = (1..self.calls).map(|_| timed()).max().unwrap_or_default();
                    let mut worst = worst.lock().expect("no thread has panicked");
                    *worst = worst.max(longest);
                }
            }
            seen(&begin())
        };
        let done = self.beside.during(table, || at_once(self.threads, thread));
        let time = match self.figure {
            Figure::Mean => done.each,
            Figure::Worst => worst.into_inner().expect("no thread has panicked") * self.calls as u32,
        };
        Turn { time, answer: done.answer }
    }
}
