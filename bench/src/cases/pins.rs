//! Pins, and begins at one, by threads.
use super::Size;
use crate::data::{KeyKind, numbers, table};
use crate::figures::{Figures, Line, Unit};
use crate::threads::{THREADS, at_once};
use crate::timing::{Turn, least, way};
use crate::updates::begun;
use narthexmace::{Pin, Table};
use std::hint::black_box;
use std::sync::{Arc, Mutex};

pub const NAME: &str = "pins";

/// How many commits come before: so many is the number of each pin.
const COMMITS: usize = 3;

pub fn run(size: &Size) -> Figures {
    let rows = size.rows / 100;
    let table = table(KeyKind::Int, rows);
    for number in numbers(rows).take(COMMITS) {
        let mut txn = begun(&table);
        txn.delete([number]).expect("there is such a row");
        txn.commit().expect("nobody else commits");
    }
    let lines = [pinned, begun_at].map(|make| THREADS.map(|threads| make(size, &table, threads)));
    Figures {
        name: NAME,
        question: "how many pins are made and let go, and how many transactions begin at a pin and are aborted, in a \
                   second, by several threads together?"
            .to_string(),
        unit: Unit::PerSecond,
        heads: &["call", "threads"],
        ways: &["ours", "Arc under a lock"],
        lines: lines.into_iter().flatten().collect(),
    }
}

fn pin(table: &Table) -> Pin<'_> {
    table.pin().expect("there is memory")
}

/// The numbers of all pins, added up.
fn pinned(size: &Size, table: &Table, threads: usize) -> Line {
    let calls = size.thread_calls;
    let ours = || {
        let done = at_once(threads, |_| (0..calls).map(|_| pin(table).number() as i64).sum());
        assert_eq!(0, table.counts().pins, "{NAME}: each pin is let go");
        Turn { time: done.whole, answer: done.answer }
    };
    line(size, "a pin made and let go", threads, COMMITS as i64, ours)
}

/// The rows that the transactions see, added up.
fn begun_at(size: &Size, table: &Table, threads: usize) -> Line {
    let (calls, pin) = (size.thread_calls, pin(table));
    let rows = size.rows as i64 / 100 - COMMITS as i64;
    let ours = || {
        let begin = || pin.begin().expect("there is memory");
        let done = at_once(threads, |_| (0..calls).map(|_| begin().rows() as i64).sum());
        Turn { time: done.whole, answer: done.answer }
    };
    line(size, "a begin at a pin, and its abort", threads, rows, ours)
}

/// A line whose baseline copies and drops an `Arc` of what each call answers.
fn line(size: &Size, word: &str, threads: usize, answer: i64, ours: impl FnMut() -> Turn) -> Line {
    let (shared, calls) = (Mutex::new(Arc::new(answer)), size.thread_calls);
    let (all, due) = (threads * calls, (threads * calls) as i64 * answer);
    let plain = || {
        let newest = || Arc::clone(&shared.lock().expect("no thread has panicked"));
        let done = at_once(threads, |_| (0..calls).map(|_| *black_box(newest())).sum());
        Turn { time: done.whole, answer: done.answer }
    };
    let times = least(NAME, size.rounds, vec![way(all, due, ours), way(all, due, plain)]);
    Line::new(&[&word, &threads], times.into_iter().map(|time| 1e9 / time).collect())
}
