//! What a table counts.
use narthexmace::{CommitError, Options, Table, Transaction};
use std::thread;
use std::time::{Duration, Instant};

const LONG: Duration = Duration::from_secs(60);

fn opened(options: &Options) -> Table {
    Table::open("id:int:key,qty:int\n10,1\n20,2\n30,3\n", options).unwrap()
}

fn setting(table: &Table, key: i64, qty: i64) -> Transaction<'_> {
    let mut txn = table.begin().unwrap();
    txn.set([key], 1, qty).unwrap();
    txn
}

#[test]
fn each_end_of_a_transaction_is_counted_once() {
    let table = opened(&Options { recent: 2, row_limit: 4, ..Options::default() });
    let (same, old) = (setting(&table, 10, 5), setting(&table, 30, 5));
    let (mut one, mut other) = (table.begin().unwrap(), table.begin().unwrap());
    setting(&table, 10, 6).commit().unwrap(); // 1
    assert!(matches!(same.try_commit(), Err(CommitError::Conflict(1))));
    one.insert([40, 4]).unwrap();
    other.insert([50, 5]).unwrap();
    one.prepare().unwrap().install(); // 2
    assert!(matches!(other.try_prepare(), Err(CommitError::Full(2))));
    setting(&table, 20, 6).commit().unwrap(); // 3
    assert!(matches!(old.try_commit(), Err(CommitError::TooOld(3))));
    assert_eq!(3, table.begin().unwrap().commit().unwrap()); // changes nothing
    drop(setting(&table, 10, 7).prepare().unwrap());
    let counts = table.counts();
    assert_eq!((8, 3), (counts.begins, counts.commits));
    assert_eq!((1, 1, 1), (counts.conflicts, counts.too_old, counts.full));
    assert_eq!((2, 2), (counts.kept, counts.kept_entries));
    assert_eq!(0, table.sizes().open_transactions);
}

#[test]
fn folds_and_checkpoints_are_counted() {
    let table = opened(&Options::default());
    table.fold().unwrap();
    let counts = table.counts();
    assert_eq!((1, 0, 0), (counts.folds, counts.checkpoints, counts.superseded));
    table.checkpoint_to(|_, _| Ok::<(), ()>(())).unwrap();
    let counts = table.counts();
    assert_eq!((1, 1, 0), (counts.folds, counts.checkpoints, counts.superseded));
    assert_eq!(counts, table.counts());
}

#[test]
fn pins_and_what_is_kept_are_counted() {
    let table = opened(&Options::default());
    assert_eq!((0, None), (table.counts().pins, table.counts().oldest_pin));
    let first = table.pin().unwrap();
    assert_eq!((1, Some(0)), (table.counts().pins, table.counts().oldest_pin));
    let mut txn = setting(&table, 10, 5);
    txn.delete([20]).unwrap();
    txn.commit().unwrap();
    let second = table.pin().unwrap();
    assert_eq!((2, Some(0)), (table.counts().pins, table.counts().oldest_pin));
    drop(first);
    assert_eq!((1, Some(1)), (table.counts().pins, table.counts().oldest_pin));
    assert_eq!((1, 2), (table.counts().kept, table.counts().kept_entries));
    table.trim();
    assert_eq!((0, 0), (table.counts().kept, table.counts().kept_entries));
    drop(second);
    assert_eq!((0, None), (table.counts().pins, table.counts().oldest_pin));
}

/// Holds a commit prepared until another thread's has found the lock taken, and for 20 ms more.
fn hold(table: &Table) {
    let (start, prepared) = (Instant::now(), setting(table, 10, 5).prepare().unwrap());
    thread::scope(|threads| {
        threads.spawn(|| setting(table, 20, 6).commit().unwrap());
        while table.counts().waits == 0 && start.elapsed() < LONG {
            thread::sleep(Duration::from_millis(1));
        }
        thread::sleep(Duration::from_millis(20));
        prepared.install();
    });
}

#[test]
fn a_thread_that_waits_for_the_lock_is_counted_and_how_long_it_was_held() {
    let (start, table) = (Instant::now(), opened(&Options::default()));
    assert_eq!(0, table.counts().waits);
    hold(&table);
    let counts = table.counts();
    assert_eq!((1, 2), (counts.waits, counts.commits));
    assert!(counts.longest_hold >= Duration::from_millis(20), "{:?}", counts.longest_hold);
    assert!(counts.longest_hold <= start.elapsed(), "{:?}", counts.longest_hold);
}
