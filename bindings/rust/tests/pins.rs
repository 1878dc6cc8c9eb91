//! Tables that are kept: many threads begin over one while others commit.
use narthexmace::{CommitError, Entry, Error, Layer, Options, Pin, Table, Transaction};
use std::sync::Arc;
use std::thread;

const READERS: usize = 4;
const WRITERS: i64 = 4;
/// The rows of each writer: no other one changes them.
const ROWS: i64 = 500;
/// What each commit adds to the sum of the quantities.
const ADDED: i64 = 3;

/// A table whose quantities are 1, 2, 3 and so on.
fn opened() -> Table {
    let table: String = (0..WRITERS * ROWS).map(|row| format!("{row},{}\n", row + 1)).collect();
    Table::open(format!("id:int:key,qty:int\n{table}"), &Options::default()).unwrap()
}

/// The sum of the quantities of the table of a number, of which nothing but the number is known.
fn sum_at(number: u64) -> i64 {
    let rows = WRITERS * ROWS;
    rows * (rows + 1) / 2 + ADDED * number as i64
}

fn sum(txn: &Transaction<'_>) -> i64 {
    txn.batches(&[1], .., 300)
        .unwrap()
        .flat_map(|batch| batch.unwrap().ints(0).unwrap().iter().collect::<Vec<_>>())
        .sum()
}

/// Commits of a writer to rows of its own: one sets a row, one takes from a row and gives to the next, one deletes a row
/// and inserts its quantity elsewhere, each with what is added.
fn write(table: &Table, writer: i64, commits: i64) {
    for number in 0..commits {
        let row = writer * ROWS + number * 7 % (ROWS - 1);
        let mut txn = table.begin().unwrap();
        let qty = |txn: &Transaction<'_>, row: i64| txn.get([row]).unwrap().map(|row| row[1].as_int().unwrap());
        let (one, next) = (qty(&txn, row), qty(&txn, row + 1));
        match (one, next) {
            (Some(one), Some(next)) if number % 3 == 1 => {
                txn.set([row], 1, one - 50).unwrap();
                txn.set([row + 1], 1, next + 50 + ADDED).unwrap();
            }
            (Some(one), _) if number % 3 == 2 => {
                txn.delete([row]).unwrap();
                txn.insert([row, one + ADDED]).unwrap();
            }
            (Some(one), _) => txn.set([row], 1, one + ADDED).unwrap(),
            (None, _) => panic!("a row is gone"),
        }
        txn.commit().unwrap();
        if number % 50 == 49 {
            table.fold().unwrap();
        }
    }
}

#[test]
fn four_threads_scan_a_pin_while_four_commit() {
    let table = opened();
    let mut pins = vec![table.pin().unwrap()];
    for _ in 0..5 {
        let pin = table.pin().unwrap();
        thread::scope(|threads| {
            for writer in 0..WRITERS {
                let table = &table;
                threads.spawn(move || write(table, writer, 100));
            }
            for _ in 0..READERS {
                threads.spawn(|| {
                    for _ in 0..20 {
                        let txn = pin.begin().unwrap();
                        assert_eq!((pin.number(), sum_at(pin.number())), (txn.version(), sum(&txn)));
                        let newest = table.pin().unwrap();
                        assert!(newest.number() >= pin.number());
                        assert_eq!(sum_at(newest.number()), sum(&newest.begin().unwrap()));
                    }
                });
            }
        });
        pins.push(pin);
    }
    table.trim();
    let numbers: Vec<u64> = pins.iter().map(Pin::number).collect();
    assert_eq!(vec![0, 0, 400, 800, 1200, 1600], numbers);
    for pin in &pins {
        assert_eq!(sum_at(pin.number()), sum(&pin.begin().unwrap()));
    }
    assert_eq!(sum_at(2000), sum(&table.begin().unwrap()));
}

/// A transaction of a table's newest table that sets a quantity is committed.
fn set(table: &Table, row: i64, qty: i64) -> u64 {
    let mut txn = table.begin().unwrap();
    txn.set([row], 1, qty).unwrap();
    txn.commit().unwrap()
}

#[test]
fn a_transaction_at_a_pin_commits_as_one_that_began_then() {
    let table = opened();
    let pin = table.pin().unwrap();
    assert_eq!(1, set(&table, 10, 0));
    let begin = |row: i64| {
        let mut txn = pin.begin().unwrap();
        txn.set([row], 1, 7).unwrap();
        txn
    };
    assert!(matches!(begin(10).try_commit(), Err(CommitError::Conflict(1))));
    assert_eq!(2, begin(11).commit().unwrap());
    assert!(matches!(begin(11).try_commit(), Err(CommitError::Conflict(2)))); // the pin's table doesn't move
    let late = begin(12);
    table.trim();
    assert!(matches!(late.try_commit(), Err(CommitError::TooOld(2))));
    assert!(matches!(begin(13).try_commit(), Err(CommitError::TooOld(2))));
    assert_eq!(0, pin.begin().unwrap().commit().unwrap()); // it changes nothing
    assert_eq!(sum_at(0), sum(&pin.begin().unwrap()));
    assert_eq!(0, table.sizes().open_transactions);
}

#[test]
fn transactions_outlive_the_pin_and_pins_their_transactions() {
    let table = opened();
    let pin = table.pin().unwrap();
    let (first, second) = (pin.begin().unwrap(), pin.begin().unwrap());
    set(&table, 10, 0);
    drop(first);
    assert_eq!(sum_at(0), sum(&second));
    assert_eq!(sum_at(0), sum(&pin.begin().unwrap()));
    drop(pin);
    table.fold().unwrap();
    set(&table, 11, 0);
    assert_eq!(sum_at(0), sum(&second));
    assert_eq!((0, 1), (table.counts().pins, table.sizes().open_transactions));
}

#[test]
fn a_shared_table_is_dropped_while_pins_live() {
    let table = Arc::new(opened());
    let (older, newer) = (table.pin_shared().unwrap(), Arc::new(table.pin_shared().unwrap()));
    set(&table, 10, 0);
    let weak = Arc::downgrade(&table);
    drop(table);
    let scans = (0..READERS).map(|_| {
        let pin = Arc::clone(&newer);
        thread::spawn(move || sum(&pin.begin().unwrap()))
    });
    for scan in scans.collect::<Vec<_>>() {
        assert_eq!(sum_at(0), scan.join().unwrap());
    }
    let mut txn = older.begin().unwrap();
    drop((older, newer));
    assert_eq!(sum_at(0), sum(&txn));
    assert_eq!(1, txn.table().counts().commits);
    txn.set([11], 1, 0).unwrap();
    assert!(weak.upgrade().is_some());
    assert_eq!(2, txn.commit().unwrap());
    assert!(weak.upgrade().is_none());
}

#[test]
fn a_pin_stays_as_it_is_over_folds_and_checkpoints() {
    let table = opened();
    set(&table, 10, 11 + ADDED);
    let pin = table.pin().unwrap();
    set(&table, 10, 0);
    table.fold().unwrap();
    table.checkpoint_to(|_, _| Ok::<(), ()>(())).unwrap();
    set(&table, 11, 0);
    assert_eq!((1, sum_at(1)), (pin.number(), sum(&pin.begin().unwrap())));
    assert_eq!(sum_at(0) - 11 - 12, sum(&table.begin().unwrap()));
    assert_eq!(table.columns(), pin.table().columns());
    assert_eq!("Pin { number: 1, .. }", format!("{pin:?}"));
}

#[test]
fn threads_share_pins_and_tables_and_send_the_rest() {
    fn is_shared<T: Send + Sync>() {}
    fn is_sent<T: Send>() {}
    is_shared::<Table>();
    is_shared::<Pin<'static>>();
    is_sent::<Transaction<'static>>();
    is_sent::<Layer>();
    is_sent::<Result<Entry, Error>>();
}
