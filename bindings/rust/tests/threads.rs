//! Eight threads add to the same rows, and try again where a commit is refused: the sums are those of all that was
//! added.
use narthexmace::{CommitError, Error, ErrorKind, Options, Table, Transaction};
use std::sync::Arc;
use std::sync::atomic::{AtomicUsize, Ordering};
use std::thread;

const THREADS: i64 = 8;
const ROWS: i64 = 10;
const FOLD_EVERY: u64 = 1000;

/// The row that a thread's addition of this number goes to, and how much is added.
fn addition(thread: i64, number: i64) -> (i64, i64) {
    ((number * 7 + thread) % ROWS, number % 5 + 1)
}

/// Adds to a row in a transaction of its own, until it is committed. Answers the commit, and how often one was refused.
fn add(table: &Table, row: i64, amount: i64) -> Result<(u64, usize), Error> {
    let mut refused = 0;
    loop {
        let mut txn = table.begin()?;
        let sum = txn.get([row])?.and_then(|row| row[1].as_int()).ok_or(ErrorKind::Missing)?;
        txn.set([row], 1, sum + amount)?;
        match txn.try_commit() {
            Ok(commit) => return Ok((commit, refused)),
            Err(CommitError::Conflict(_) | CommitError::TooOld(_)) => refused += 1,
            Err(other) => return Err(other.error()),
        }
    }
}

#[test]
fn additions_of_eight_threads_are_all_there() {
    let commits = std::env::var("PDT_COMMITS").map_or(100_000, |count| count.parse::<i64>().unwrap());
    let each = commits / THREADS;
    let text: String = (0..ROWS).map(|row| format!("{row},0\n")).collect();
    let table = Table::open(format!("id:int:key,sum:int\n{text}"), &Options::default()).unwrap();
    let refused = AtomicUsize::new(0);
    thread::scope(|threads| {
        for thread in 0..THREADS {
            let (table, refused) = (&table, &refused);
            threads.spawn(move || {
                for number in 0..each {
                    let (row, amount) = addition(thread, number);
                    let (commit, conflicts) = add(table, row, amount).unwrap();
                    refused.fetch_add(conflicts, Ordering::Relaxed);
                    if commit % FOLD_EVERY == 0 {
                        table.fold().unwrap();
                        table.trim();
                    }
                }
            });
        }
    });
    let mut wanted = vec![0; ROWS as usize];
    for (row, amount) in (0..THREADS).flat_map(|thread| (0..each).map(move |number| addition(thread, number))) {
        wanted[row as usize] += amount;
    }
    let txn = table.begin().unwrap();
    let sums: Vec<i64> = txn.batch(&[1], ..).unwrap().ints(0).unwrap().iter().collect();
    assert_eq!(wanted, sums);
    assert_eq!((each * THREADS) as u64, table.sizes().commits);
    println!("{} commits, {} refused", each * THREADS, refused.into_inner());
}

#[test]
fn a_transaction_ends_on_another_thread() {
    let table = Table::open("id:int:key\n", &Options::default()).unwrap();
    let (mut first, mut second) = (table.begin().unwrap(), table.begin().unwrap());
    thread::scope(|threads| {
        threads.spawn(move || first.insert([1]).and_then(|()| first.commit()).unwrap());
        threads.spawn(move || second.insert([2]).unwrap()); // dropped there, and so aborted
    });
    assert_eq!(0, table.sizes().open_transactions);
    assert_eq!(1, table.begin().unwrap().rows());
}

#[test]
fn sessions_keep_their_table_and_their_transactions() {
    struct Session {
        table: Arc<Table>,
        open: Transaction<'static>,
    }
    let table = Arc::new(Table::open("id:int:key,sum:int\n0,0\n", &Options::default()).unwrap());
    let sessions = (0..4).map(|_| Session { table: Arc::clone(&table), open: table.begin_shared().unwrap() });
    let sessions: Vec<Session> = sessions.collect();
    let threads = sessions.into_iter().enumerate().map(|(number, Session { table, mut open })| {
        thread::spawn(move || {
            open.insert([number as i64 + 1, 7]).unwrap();
            open.commit().unwrap();
            add(&table, 0, 1).unwrap();
        })
    });
    for thread in threads.collect::<Vec<_>>() {
        thread.join().unwrap();
    }
    let table = Arc::try_unwrap(table).unwrap(); // no other share of it is left
    let txn = table.begin().unwrap();
    assert_eq!(vec![4, 7, 7, 7, 7], txn.batch(&[1], ..).unwrap().ints(0).unwrap().iter().collect::<Vec<i64>>());
}

#[test]
fn threads_read_what_a_batch_lends_while_others_commit() {
    let text: String = (0..3000).map(|row| format!("{row},{row}\n")).collect();
    let table = Table::open(format!("id:int:key,qty:int\n{text}"), &Options::default()).unwrap();
    let txn = table.begin().unwrap();
    let batch = txn.batch(&[1], ..).unwrap();
    thread::scope(|threads| {
        let reader = threads.spawn(|| (0..50).map(|_| batch.ints(0).unwrap().iter().sum::<i64>()).collect::<Vec<_>>());
        for row in 0..200 {
            let mut other = table.begin().unwrap();
            other.set([row], 1, -1).unwrap();
            other.commit().unwrap();
            assert_eq!(Some(row), txn.row_at(row as u64).unwrap().unwrap()[1].as_int());
        }
        table.fold().unwrap();
        table.trim();
        assert_eq!(vec![2999 * 3000 / 2; 50], reader.join().unwrap());
    });
    assert_eq!(2999 * 3000 / 2, batch.ints(0).unwrap().iter().sum::<i64>());
}
