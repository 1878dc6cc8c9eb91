//! Tables over slices, and images as bytes.
use narthexmace::{
    CheckpointError, CheckpointPart, ColumnValues, ColumnsError, Error, ErrorKind, Options, Table, cells,
};

const IDS: [i64; 4] = [10, 20, 30, 40];
const OFFSETS: [u64; 5] = [0, 3, 3, 9, 10];
const TEXTS: &[u8] = "AnnBébé!".as_bytes();
const TRUTHS: [bool; 4] = [true, false, false, true];

fn columns() -> [(&'static str, ColumnValues<'static>); 3] {
    [
        ("id", ColumnValues::Ints(&IDS)),
        ("name", ColumnValues::Texts { offsets: &OFFSETS, bytes: TEXTS }),
        ("ok", ColumnValues::Bools(&TRUTHS)),
    ]
}

fn refused(columns: &[(&str, ColumnValues<'_>)]) -> ColumnsError {
    Table::from_columns(columns, 1, &Options::default()).unwrap_err()
}

#[test]
fn each_value_stands_in_its_row() {
    let table = Table::from_columns(&columns(), 1, &Options::default()).unwrap();
    let txn = table.begin().unwrap();
    assert_eq!(4, txn.rows());
    let wanted = [("Ann", true), ("", false), ("Bébé", false), ("!", true)];
    for (row, (name, ok)) in (0..).zip(wanted) {
        let cells = txn.row_at(row).unwrap().unwrap();
        assert_eq!(Some(IDS[row as usize]), cells[0].as_int());
        assert_eq!(Some(name), cells[1].as_text());
        assert_eq!(Some(ok), cells[2].as_bool());
    }
}

#[test]
fn the_first_fault_has_its_place() {
    let texts = |offsets| ("name", ColumnValues::Texts { offsets, bytes: TEXTS });
    let id = ("id", ColumnValues::Ints(&IDS));
    let at = |row, column| ColumnsError::Value { row, column, error: ErrorKind::TypeMismatch.into() };
    assert_eq!(at(2, 1), refused(&[id, texts(&[0, 3, 4, 3, 10])]));
    assert_eq!(at(3, 1), refused(&[id, texts(&[0, 3, 3, 9, 11])]));
    assert_eq!(at(1, 1), refused(&[id, texts(&[0, 3, 5, 9, 10])])); // cuts a character
    assert_eq!(at(3, 1), refused(&[id, texts(&[0, 3, 3, 9])]));
    assert_eq!(at(4, 1), refused(&[id, ("ok", ColumnValues::Bools(&[true; 5]))]));
    let equal = refused(&[("id", ColumnValues::Ints(&[1, 3, 3, 2]))]);
    assert_eq!(ColumnsError::NotAscending { row: 2, error: ErrorKind::NotAscending.into() }, equal);
    assert_eq!(ColumnsError::Other(ErrorKind::BadTable.into()), refused(&[id, id]));
    assert_eq!(ColumnsError::Other(ErrorKind::BadTable.into()), refused(&[("i\0d", ColumnValues::Ints(&IDS))]));
    assert_eq!(ColumnsError::Other(ErrorKind::BadTable.into()), refused(&[]));
    let none = "column \"name\" has 0 values, and column \"id\" has 4";
    assert_eq!((at(0, 1), none), (refused(&[id, texts(&[0])]), &*refused(&[id, texts(&[0])]).to_string()));
}

/// The parts of an image, the header first.
fn image(table: &Table) -> Vec<Vec<u8>> {
    let mut parts = vec![Vec::new(); 1 + table.columns().len()];
    table
        .checkpoint_to(|part, bytes| {
            let at = match part {
                CheckpointPart::Header => 0,
                CheckpointPart::Column(column) => column + 1,
            };
            parts[at].extend_from_slice(bytes);
            Ok::<(), ()>(())
        })
        .unwrap();
    parts
}

#[test]
fn an_image_in_memory_is_recovered() {
    let table = Table::from_columns(&columns(), 1, &Options::default()).unwrap();
    let mut txn = table.begin().unwrap();
    txn.insert(cells![25, "Cid", true]).unwrap();
    txn.commit().unwrap();
    let parts = image(&table);
    let bytes: Vec<&[u8]> = parts[1..].iter().map(Vec::as_slice).collect();
    let again = Table::recover_from(&parts[0], &bytes, &Options::default()).unwrap();
    let txn = again.begin().unwrap();
    assert_eq!(5, txn.rows());
    assert_eq!(Some("Cid"), txn.row_at(2).unwrap().unwrap()[1].as_text());
    assert_eq!(
        Some(ErrorKind::BadCheckpoint.into()),
        Table::recover_from(&parts[0], &bytes[1..], &Options::default()).err()
    );
    assert_eq!(Some(ErrorKind::BadTable.into()), Table::recover_from(b"", &bytes, &Options::default()).err());
}

#[test]
fn a_write_that_fails_says_so() {
    let table = Table::from_columns(&columns(), 1, &Options::default()).unwrap();
    let mut calls = 0;
    let failed = table.checkpoint_to(|part, _| {
        calls += 1;
        if part == CheckpointPart::Column(1) { Err("no room") } else { Ok(()) }
    });
    let failed = failed.unwrap_err();
    assert!(matches!(failed, CheckpointError::Write(CheckpointPart::Column(1), "no room")));
    assert_eq!("the caller's write or stream failed: column 1: no room", failed.to_string());
    assert_eq!(3, calls);
    assert_eq!(4, table.begin().unwrap().rows());
}

#[test]
fn a_writer_may_make_calls_on_the_table() {
    let table = Table::from_columns(&columns(), 1, &Options::default()).unwrap();
    let written = table.checkpoint_to(|_, _| {
        let mut txn = table.begin()?;
        txn.set([10], 1, "Eve")?;
        txn.commit()?;
        table.fold()
    });
    assert!(written.is_ok());
    assert_eq!(Some("Eve"), table.begin().unwrap().row_at(0).unwrap().unwrap()[1].as_text());
}

#[test]
fn no_image_is_made_while_a_commit_is_prepared() {
    let table = Table::from_columns(&columns(), 1, &Options::default()).unwrap();
    let mut txn = table.begin().unwrap();
    txn.set([10], 1, "Eve").unwrap();
    let prepared = txn.prepare().unwrap();
    let refused = table.checkpoint_to(|_, _| -> Result<(), Error> { unreachable!("nothing is handed out") });
    assert!(matches!(refused, Err(CheckpointError::Other(error)) if error == ErrorKind::Misuse));
    assert_eq!(1, prepared.install());
}

#[test]
#[should_panic(expected = "a writer's own")]
fn a_panic_of_the_writer_goes_on() {
    let table = Table::from_columns(&columns(), 1, &Options::default()).unwrap();
    let _ = table.checkpoint_to(|_, _| -> Result<(), ()> { panic!("a writer's own") });
}
