//! Scans of one pin, by threads, each with a transaction of its own.
use super::{SHARES, Size, percent};
use crate::data::{KeyKind, by_columns};
use crate::figures::{Figures, Line, Unit, grouped};
use crate::threads::{THREADS, at_once};
use crate::timing::{Turn, least, way};
use crate::updates::{Mix, Place, image, sum, updated, updates};
use std::hint::black_box;

pub const NAME: &str = "pin_scans";

/// How many scans a thread makes in a turn.
const SCANS: usize = 10;

pub fn run(size: &Size) -> Figures {
    Figures {
        name: NAME,
        question: format!(
            "how many rows of a column are added up in a second by threads that scan one pin of {} rows, where updates \
             lie in the Write-PDT?",
            grouped(size.rows)
        ),
        unit: Unit::PerSecond,
        heads: &["updated rows", "threads"],
        ways: &["ours", "one vector"],
        lines: [0.0, SHARES[1]].into_iter().flat_map(|share| lines(size, share)).collect(),
    }
}

/// A line for each number of threads.
fn lines(size: &Size, share: f64) -> Vec<Line> {
    let updates = updates(size.rows, percent(share, size.rows), Mix::Mixed);
    let table = by_columns(size.rows);
    drop(updated(&table, KeyKind::Int, &updates, Place::WritePdt));
    let pin = table.pin().expect("there is memory");
    let mut vector: Vec<i64> = image(size.rows, &updates).into_values().collect();
    let once: i64 = vector.iter().sum();
    vector.shrink_to_fit();
    let turn = |threads: usize, scan: &(dyn Fn() -> i64 + Sync)| {
        let done = at_once(threads, |_| (0..SCANS).map(|_| scan()).sum());
        Turn { time: done.whole, answer: done.answer }
    };
    let ours = || sum(&pin.begin().expect("there is memory"), KeyKind::Int.qty_column());
    let plain = || black_box(&vector).iter().sum();
    let line = |threads: usize| {
        let (rows, due) = (SCANS * threads * vector.len(), (SCANS * threads) as i64 * once);
        let ways = vec![way(rows, due, || turn(threads, &ours)), way(rows, due, || turn(threads, &plain))];
        let times = least(NAME, size.rounds, ways);
        Line::new(&[&format!("{share} %"), &threads], times.into_iter().map(|time| 1e9 / time).collect())
    };
    THREADS.map(line).into()
}
