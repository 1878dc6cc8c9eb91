//! Batches over a table of several blocks in which rows were changed, inserted and deleted, beside the rows as a list.
use narthexmace::{ErrorKind, IntSpan, Options, Table, Transaction, cells};
use std::ops::{Bound, RangeBounds};

const ROWS: i64 = 5000;

/// A row as the test has it: key, number, text, boolean.
type Line = (i64, i64, String, bool);

/// The row of an even key as the table is opened with it.
fn stable(key: i64) -> Line {
    (key, -key, "é".repeat((key % 7) as usize), key % 3 == 0)
}

/// What the changes leave of the row of an even key, and the row that they insert behind it.
fn changed(key: i64) -> Vec<Line> {
    let (_, number, text, boolean) = stable(key);
    match key % 100 {
        0 => vec![],
        20 => vec![(key, 7, text, boolean)],
        40 => vec![(key, number, "set".into(), boolean), (key + 1, 1, "x".repeat(4096), true)],
        _ => vec![(key, number, text, boolean)],
    }
}

fn opened() -> Table {
    let line = |(key, number, text, boolean): Line| format!("{key},{number},{text},{boolean}\n");
    let table: String = (0..ROWS).map(|row| line(stable(2 * row))).collect();
    Table::open(format!("id:int:key,n:int,t:text,f:bool\n{table}"), &Options::default()).unwrap()
}

fn change(txn: &mut Transaction<'_>) {
    for key in (0..2 * ROWS).step_by(20) {
        match key % 100 {
            0 => txn.delete([key]).unwrap(),
            20 => txn.set([key], 1, 7).unwrap(),
            40 => {
                txn.set([key], 2, "set").unwrap();
                txn.insert(cells![key + 1, 1, &"x".repeat(4096), true]).unwrap();
            }
            _ => {}
        }
    }
}

fn wanted() -> Vec<Line> {
    (0..ROWS).flat_map(|row| changed(2 * row)).collect()
}

/// Reads all columns between two positions, so many rows at a time.
fn read(txn: &Transaction<'_>, positions: impl RangeBounds<u64>, rows: usize) -> Vec<Line> {
    let mut lines = Vec::new();
    for batch in txn.batches(&[3, 2, 1, 0], positions, rows).unwrap() {
        let batch = batch.unwrap();
        let (booleans, texts) = (batch.bools(0).unwrap(), batch.texts(1).unwrap());
        let numbers: Vec<i64> = batch.ints(2).unwrap().iter().collect();
        let keys: Vec<i64> = batch.ints(3).unwrap().iter().collect();
        assert_eq!([batch.rows(); 3], [booleans.len(), numbers.len(), keys.len()]);
        assert_eq!(batch.rows() + 1, texts.offsets().len());
        assert_eq!(None, texts.get(batch.rows()));
        let line = |row: usize| (keys[row], numbers[row], texts.get(row).unwrap().to_owned(), booleans[row]);
        lines.extend((0..batch.rows()).map(line));
    }
    lines
}

#[test]
fn batches_have_the_rows_as_a_transaction_changed_them() {
    let table = opened();
    let mut txn = table.begin().unwrap();
    assert_eq!((0..ROWS).map(|row| stable(2 * row)).collect::<Vec<_>>(), read(&txn, .., 1000));
    change(&mut txn);
    let wanted = wanted();
    assert_eq!(wanted.len() as u64, txn.rows());
    for rows in [1, 1000, 1024, usize::MAX] {
        assert_eq!(wanted, read(&txn, .., rows));
    }
    txn.commit().unwrap();
    assert_eq!(wanted, read(&table.begin().unwrap(), .., 4096));
    table.fold().unwrap();
    assert_eq!(wanted, read(&table.begin().unwrap(), .., 4096));
}

#[test]
fn texts_are_lent_as_a_transaction_changed_them() {
    let table = opened();
    let mut txn = table.begin().unwrap();
    change(&mut txn);
    let wanted: Vec<String> = wanted().into_iter().map(|line| line.2).collect();
    assert_eq!(wanted, txn.texts(2, ..).unwrap());
    assert_eq!(wanted[1000..1100], txn.texts(2, 1000..1100).unwrap());
    txn.commit().unwrap();
    let reader = table.begin().unwrap();
    let texts = reader.texts(2, ..).unwrap();
    table.fold().unwrap();
    assert_eq!(wanted, texts);
    assert!(reader.texts(2, reader.rows()..).unwrap().is_empty());
    assert_eq!(
        [Err(ErrorKind::TypeMismatch.into()), Err(ErrorKind::TypeMismatch.into())],
        [reader.texts(1, ..), reader.texts(4, ..)]
    );
}

#[test]
fn truths_are_copied_as_a_transaction_changed_them() {
    let table = opened();
    let mut txn = table.begin().unwrap();
    change(&mut txn);
    let wanted: Vec<u8> = wanted().into_iter().map(|line| u8::from(line.3)).collect();
    let rows = wanted.len();
    let mut booleans = vec![9; rows + 5];
    assert_eq!(Ok(rows), txn.bools(3, 0, &mut booleans));
    assert_eq!((&wanted[..], &[9; 5][..]), booleans.split_at(rows));
    let mut some = [9; 1500];
    assert_eq!(Ok(1500), txn.bools(3, 1001, &mut some));
    assert_eq!(wanted[1001..2501], some);
    assert_eq!(
        [Ok(3), Ok(0), Ok(0)],
        [rows as u64 - 3, rows as u64, u64::MAX].map(|from| txn.bools(3, from, &mut some))
    );
    assert_eq!(Ok(0), txn.bools(3, 0, &mut []));
    for column in [0, 2, 4] {
        assert_eq!(Err(ErrorKind::TypeMismatch.into()), txn.bools(column, 0, &mut some));
    }
}

#[test]
fn numbers_are_copied_as_a_transaction_changed_them() {
    let table = opened();
    let mut txn = table.begin().unwrap();
    change(&mut txn);
    let wanted: Vec<i64> = wanted().into_iter().map(|line| line.1).collect();
    let rows = wanted.len();
    let mut numbers = vec![9; rows + 5];
    assert_eq!(Ok(rows), txn.ints(1, 0, &mut numbers));
    assert_eq!((&wanted[..], &[9; 5][..]), numbers.split_at(rows));
    let mut some = [9; 1500];
    assert_eq!(Ok(1500), txn.ints(1, 1001, &mut some));
    assert_eq!(wanted[1001..2501], some);
    assert_eq!(
        [Ok(3), Ok(0), Ok(0)],
        [rows as u64 - 3, rows as u64, u64::MAX].map(|from| txn.ints(1, from, &mut some))
    );
    assert_eq!(Ok(0), txn.ints(1, 0, &mut []));
    for column in [2, 3, 4] {
        assert_eq!(Err(ErrorKind::TypeMismatch.into()), txn.ints(column, 0, &mut some));
    }
}

#[test]
fn texts_of_rows_that_have_not_changed_lie_side_by_side() {
    let table = opened();
    let txn = table.begin().unwrap();
    let texts = txn.texts(2, 1..4).unwrap();
    assert_eq!(texts[0].as_bytes().as_ptr_range().end, texts[1].as_ptr());
    assert_eq!(texts[1].as_ptr(), txn.texts(2, 2..).unwrap()[0].as_ptr());
}

#[test]
fn positions_are_cut_to_the_table() {
    let table = opened();
    let txn = table.begin().unwrap();
    let keys = |positions: (Bound<u64>, Bound<u64>)| {
        let batch = txn.batch(&[0], positions).unwrap();
        let keys: Vec<i64> = batch.ints(0).unwrap().iter().collect();
        assert_eq!(batch.rows(), keys.len());
        keys
    };
    let (end, all) = (ROWS as u64, Bound::Unbounded);
    assert_eq!(vec![0, 2], keys((all, Bound::Excluded(2))));
    assert_eq!(vec![4, 6], keys((Bound::Included(2), Bound::Included(3))));
    assert_eq!(vec![6], keys((Bound::Excluded(2), Bound::Excluded(4))));
    assert_eq!(vec![2 * ROWS - 2], keys((Bound::Included(end - 1), all)));
    assert_eq!(vec![2 * ROWS - 2], keys((Bound::Included(end - 1), Bound::Included(u64::MAX))));
    assert!(keys((Bound::Included(end), all)).is_empty());
    assert!(keys((Bound::Excluded(u64::MAX), all)).is_empty());
    assert!(keys((Bound::Included(9), Bound::Excluded(3))).is_empty());
    assert_eq!(0, txn.batches(&[0], end.., 10).unwrap().count());
    assert_eq!(ROWS as usize, txn.batches(&[0], .., 0).unwrap().count());
}

#[test]
fn numbers_of_rows_that_have_not_changed_are_lent_by_blocks() {
    let table = opened();
    let mut txn = table.begin().unwrap();
    txn.set([2], 1, 9).unwrap();
    let batch = txn.batch(&[1], ..).unwrap();
    let mut lengths = Vec::new();
    for span in batch.ints(0).unwrap().int_spans() {
        match span {
            IntSpan::Stable(numbers) => lengths.push(numbers.len()),
            IntSpan::Changed(number) => assert_eq!(9, *number),
        }
    }
    assert_eq!(vec![1, 1022, 1024, 1024, 1024, 904], lengths);
    assert!(batch.texts(0).is_none() && batch.bools(0).is_none() && batch.ints(1).is_none());
}

#[test]
fn a_row_that_was_read_is_inserted_again() {
    let table = opened();
    let mut txn = table.begin().unwrap();
    let row = txn.get([26]).unwrap().unwrap();
    txn.delete(&row[..1]).unwrap();
    assert_eq!(None, txn.get([26]).unwrap());
    txn.insert(&row).unwrap();
    assert_eq!(Some(row), txn.row_at(13).unwrap());
}
