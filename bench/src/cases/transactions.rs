//! Transactions in a second, by threads.
use super::Size;
use crate::baseline::map::{map_of, state_of};
use crate::data::{KeyKind, table};
use crate::figures::{Figures, Line, Unit, grouped};
use crate::sqlite::{self, Bound};
use crate::threads::{THREADS, at_once};
use crate::timing::{Turn, least, way};
use crate::updates::{begun, image, state};
use std::collections::BTreeMap;
use std::sync::Mutex;

pub const NAME: &str = "transactions";

pub fn run(size: &Size) -> Figures {
    let rows = size.rows / 100;
    Figures {
        name: NAME,
        question: format!(
            "how many transactions of one look-up and one set of a row of their own are committed in a second, \
             over {} rows?",
            grouped(rows)
        ),
        unit: Unit::PerSecond,
        heads: &["threads"],
        ways: &["ours", "map under a lock", "SQLite"],
        lines: THREADS.map(|threads| line(size, rows, threads)).into(),
    }
}

/// The rows of a thread, each with the quantity that it sets: those of two threads are never the same.
struct Own {
    threads: usize,
    rows: usize,
    calls: usize,
}

impl Own {
    fn of(&self, thread: usize) -> impl Iterator<Item = (i64, i64)> {
        let (threads, each) = (self.threads, self.rows / self.threads);
        (0..self.calls).map(move |call| (2 * (thread + threads * (call * 7 % each)) as i64, 1000 + call as i64))
    }

    /// The quantities after the transactions of all threads.
    fn after(&self) -> BTreeMap<i64, i64> {
        let mut after = image(self.rows, &[]);
        (0..self.threads).for_each(|thread| after.extend(self.of(thread)));
        after
    }
}

fn line(size: &Size, rows: usize, threads: usize) -> Line {
    let own = Own { threads, rows, calls: size.thread_calls / threads };
    let after = own.after();
    let due = after.values().sum::<i64>() + after.len() as i64;
    let calls = own.calls * threads;
    let ways =
        vec![way(calls, due, || ours(&own)), way(calls, due, || in_map(&own)), way(calls, due, || in_sqlite(&own))];
    let times = least(NAME, size.rounds, ways);
    Line::new(&[&threads], times.into_iter().map(|time| 1e9 / time).collect())
}

fn ours(own: &Own) -> Turn {
    let table = table(KeyKind::Int, own.rows);
    let column = KeyKind::Int.qty_column();
    let done = at_once(own.threads, |thread| {
        for (row, qty) in own.of(thread) {
            let mut txn = begun(&table);
            assert!(txn.get([row]).expect("there is memory").is_some(), "there is such a row");
            txn.set([row], column, qty).expect("there is such a row");
            txn.commit().expect("no thread sets another one's rows");
        }
        0
    });
    Turn { answer: state(&begun(&table), column), time: done.whole }
}

fn in_map(own: &Own) -> Turn {
    let map = Mutex::new(map_of(&image(own.rows, &[])));
    let done = at_once(own.threads, |thread| {
        for (row, qty) in own.of(thread) {
            let mut map = map.lock().expect("no thread has panicked");
            assert!(map.get(&row).cloned().is_some(), "there is such a row");
            map.get_mut(&row).expect("there is such a row").qty = qty;
        }
        0
    });
    Turn { answer: state_of(&map.lock().expect("no thread has panicked")), time: done.whole }
}

/// All threads have one connection, and a transaction has it for itself.
fn in_sqlite(own: &Own) -> Turn {
    let database = sqlite::table(own.rows);
    let statement = |sql| database.statement(sql);
    let get = statement("SELECT name, qty FROM items WHERE id = ?");
    let statements = Mutex::new([statement("BEGIN"), get, statement(sqlite::SET), statement("COMMIT")]);
    let done = at_once(own.threads, |thread| {
        for (row, qty) in own.of(thread) {
            let mut statements = statements.lock().expect("no thread has panicked");
            let [begin, get, set, commit] = &mut *statements;
            begin.run(&[]);
            let mut found = None;
            get.each(&[Bound::Int(row)], |it| found = Some((it.text(0), it.int(1))));
            assert!(found.is_some(), "there is such a row");
            set.run(&[Bound::Int(qty), Bound::Int(row)]);
            commit.run(&[]);
        }
        0
    });
    drop(statements);
    Turn { answer: database.number(sqlite::STATE), time: done.whole }
}
