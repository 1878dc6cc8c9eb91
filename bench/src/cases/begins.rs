//! Begins and aborts, by threads.
use super::Size;
use crate::data::{KeyKind, table};
use crate::figures::{Figures, Line, Unit};
use crate::threads::{AtOnce, THREADS, at_once};
use crate::timing::{Turn, least, way};
use crate::updates::begun;
use std::hint::black_box;
use std::sync::{Arc, Mutex};

pub const NAME: &str = "begins";

pub fn run(size: &Size) -> Figures {
    let rows = size.rows / 100;
    let table = table(KeyKind::Int, rows);
    let shared = Mutex::new(Arc::new(rows));
    let calls = size.thread_calls * 5;
    let lines = THREADS.map(|threads| {
        let due = (threads * rows) as i64;
        let ours = || {
            at_once(threads, |_| {
                (1..calls).for_each(|_| begun(&table).abort());
                begun(&table).rows() as i64
            })
        };
        let plain = || {
            let newest = || Arc::clone(&shared.lock().expect("no thread has panicked"));
            at_once(threads, |_| {
                (1..calls).for_each(|_| drop(black_box(newest())));
                *newest() as i64
            })
        };
        let each = |done: AtOnce| Turn { time: done.each, answer: done.answer };
        let ways = vec![way(calls, due, || each(ours())), way(calls, due, || each(plain()))];
        Line::new(&[&threads], least(NAME, size.rounds, ways))
    });
    Figures {
        name: NAME,
        question: "how long does a begin with its abort take in each of several threads?".to_string(),
        unit: Unit::Time,
        heads: &["threads"],
        ways: &["ours", "Arc under a lock"],
        lines: lines.into(),
    }
}
