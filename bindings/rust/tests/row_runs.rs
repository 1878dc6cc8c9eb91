//! A column that stays with the caller, read by row runs beside the same column as the library keeps it.
use narthexmace::{
    Batch, Checkpoint, ColumnType, ColumnValues, ColumnsError, ErrorKind, Options, RowRun, Table, Transaction,
};
use std::fs;
use std::ops::RangeBounds;

const ROWS: i64 = 3000;

/// The columns: the key, the number as the library keeps it, another one, and the number that is the caller's.
const INSIDE: usize = 1;
const OTHER: usize = 2;
const OUTSIDE: usize = 3;

fn number_of(key: i64) -> i64 {
    key * key + 5
}

/// A table, and the caller's column beside it.
fn opened() -> (Table, Vec<i64>) {
    let keys: Vec<i64> = (0..ROWS).map(|row| 10 * row).collect();
    let numbers: Vec<i64> = keys.iter().copied().map(number_of).collect();
    let outside = ColumnValues::Outside { column_type: ColumnType::Int, rows: ROWS as usize };
    let columns = [
        ("id", ColumnValues::Ints(&keys)),
        ("inside", ColumnValues::Ints(&numbers)),
        ("other", ColumnValues::Ints(&keys)),
        ("outside", outside),
    ];
    (Table::from_columns(&columns, 1, &Options::default()).unwrap(), numbers)
}

/// The number of a row in a column.
fn number_at(txn: &Transaction<'_>, column: usize, position: u64) -> i64 {
    let mut number = [0];
    assert_eq!(1, txn.ints(column, position, &mut number).unwrap());
    number[0]
}

/// The caller's column between two positions.
fn read_outside(txn: &Transaction<'_>, column: &[i64], positions: impl RangeBounds<u64>) -> Vec<i64> {
    let mut numbers = Vec::new();
    let mut next = None;
    for row_run in txn.row_runs(positions) {
        assert_eq!(next.unwrap_or(row_run.position()), row_run.position(), "one after the other");
        next = Some(row_run.position() + row_run.rows());
        match row_run {
            RowRun::Stable { sid, rows, .. } => numbers.extend_from_slice(&column[sid as usize..][..rows as usize]),
            RowRun::Changed { sid, position } => {
                let changed = txn.changed(position).unwrap();
                assert!(!changed[0], "a key is never set");
                numbers.push(if changed[OUTSIDE] { number_at(txn, OUTSIDE, position) } else { column[sid as usize] });
            }
            RowRun::Inserted { position } => {
                assert_eq!(vec![true; 4], txn.changed(position).unwrap());
                numbers.push(number_at(txn, OUTSIDE, position));
            }
        }
    }
    numbers
}

/// The column as the library keeps it.
fn inside(batch: &Batch<'_>) -> Vec<i64> {
    batch.ints(0).unwrap().iter().collect()
}

fn are_the_same(txn: &Transaction<'_>, column: &[i64]) {
    let all = inside(&txn.batch(&[INSIDE], ..).unwrap());
    assert_eq!(txn.rows(), all.len() as u64);
    assert_eq!(all, read_outside(txn, column, ..));
    assert_eq!(all[100..400], read_outside(txn, column, 100..400));
    assert_eq!(all[2000..], read_outside(txn, column, 2000..u64::MAX));
    assert_eq!(0, txn.row_runs(5..5).count() + txn.row_runs(1_000_000..).count());
}

/// Sets, deletes and inserts rows; both columns get the same numbers.
fn write_some(txn: &mut Transaction<'_>, seed: i64) {
    for key in (10 * seed..10 * ROWS).step_by(310) {
        let set = txn.set([key], INSIDE, seed - key);
        assert_eq!(set, txn.set([key], OUTSIDE, seed - key));
    }
    for key in (30 * seed..10 * ROWS).step_by(410) {
        let _ = txn.set([key], OTHER, seed); // neither number changes, and the row may be gone
    }
    for key in (10 * (seed % 7 + 1)..10 * ROWS).step_by(190) {
        if txn.delete([key]).is_ok() {
            txn.insert([key + 3, seed - key, seed, seed - key]).unwrap();
        }
    }
}

fn write_all(table: &Table, seed: i64) {
    let mut txn = table.begin().unwrap();
    write_some(&mut txn, seed);
    txn.commit().unwrap();
}

/// The caller's column as a checkpoint's table has it.
fn written_anew(checkpoint: &mut Checkpoint<'_>, column: &[i64]) -> Vec<i64> {
    let txn = checkpoint.begin().unwrap();
    are_the_same(&txn, column);
    read_outside(&txn, column, ..)
}

#[test]
fn a_column_of_the_callers_is_read_by_position() {
    let (table, column) = opened();
    are_the_same(&table.begin().unwrap(), &column);
    write_all(&table, 1);
    are_the_same(&table.begin().unwrap(), &column);
    table.fold().unwrap();
    are_the_same(&table.begin().unwrap(), &column);
    let mut txn = table.begin().unwrap();
    write_some(&mut txn, 4);
    are_the_same(&txn, &column);
    assert_eq!(Some(ErrorKind::Missing.into()), txn.changed(txn.rows()).err());
}

#[test]
fn a_checkpoint_makes_another_column() {
    let folder = std::env::temp_dir().join(format!("narthexmace-row runs-{}", std::process::id()));
    fs::create_dir(&folder).unwrap();
    let (table, old) = opened();
    write_all(&table, 1);
    let pin = table.pin().unwrap();
    let mut checkpoint = table.begin_checkpoint().unwrap();
    write_all(&table, 2);
    let new = written_anew(&mut checkpoint, &old);
    checkpoint.write(&folder).unwrap();
    checkpoint.install().unwrap();
    are_the_same(&table.begin().unwrap(), &new);
    are_the_same(&pin.begin().unwrap(), &old);
    write_all(&table, 3);
    are_the_same(&table.begin().unwrap(), &new);
    fs::remove_dir_all(&folder).unwrap();
}

#[test]
fn values_that_stay_with_the_caller_are_shown_as_none() {
    let outside = |column_type, rows| ColumnValues::Outside { column_type, rows };
    let id = ("id", ColumnValues::Ints(&[10, 20]));
    let columns = [
        id,
        ("number", outside(ColumnType::Int, 2)),
        ("text", outside(ColumnType::Text, 2)),
        ("boolean", outside(ColumnType::Bool, 2)),
    ];
    let table = Table::from_columns(&columns, 1, &Options::default()).unwrap();
    let mut txn = table.begin().unwrap();
    txn.set([20], 3, true).unwrap();
    for (position, boolean) in [(0, false), (1, true)] {
        let row = txn.row_at(position).unwrap().unwrap();
        assert_eq!((Some(0), Some(""), Some(boolean)), (row[1].as_int(), row[2].as_text(), row[3].as_bool()));
    }
    let wanted = [RowRun::Stable { sid: 0, rows: 1, position: 0 }, RowRun::Changed { sid: 1, position: 1 }];
    assert_eq!(wanted.to_vec(), txn.row_runs(..).collect::<Vec<_>>());
    assert_eq!(vec![false, false, false, true], txn.changed(1).unwrap());
    let refused = |columns: &[(&str, ColumnValues<'_>)]| Table::from_columns(columns, 1, &Options::default()).err();
    assert_eq!(Some(ColumnsError::Other(ErrorKind::BadTable.into())), refused(&[("id", outside(ColumnType::Int, 2))]));
    let longer = ColumnsError::Value { row: 2, column: 1, error: ErrorKind::TypeMismatch.into() };
    assert_eq!(Some(longer), refused(&[id, ("number", outside(ColumnType::Int, 3))]));
}
