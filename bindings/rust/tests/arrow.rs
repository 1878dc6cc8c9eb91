//! Arrow's C streams: what goes out comes in again, and each struct is released.
#[path = "fixtures/databases.rs"]
mod fixtures;

use fixtures::{Folder, opened as database};
use narthexmace::{Apply, ArrowArrayStream, ArrowColumn, ErrorKind, Options, Table};
use std::sync::Arc;

fn opened() -> Table {
    let rows: String = (0..1000).map(|row| format!("{row},name{row},{}\n", row % 2 == 0)).collect();
    Table::open(format!("id:int:key,name:text,even:bool\n{rows}"), &Options::default()).unwrap()
}

#[test]
fn what_goes_out_comes_in() {
    let table = opened();
    let mut txn = table.begin().unwrap();
    txn.delete([7]).unwrap();
    let stream = txn.arrow(&[], .., 64).unwrap();
    txn.delete([8]).unwrap();
    let again = Table::open_arrow(stream, &["id"], &Options::default()).unwrap();
    let same = again.begin().unwrap();
    assert_eq!(999, same.rows());
    assert_eq!(None, same.get([7]).unwrap());
    assert_eq!(Some("name8"), same.get([8]).unwrap().unwrap()[1].as_text());
    txn.abort();
    let pin = table.pin().unwrap();
    let mut batch = {
        let mut stream = pin.arrow(&[ArrowColumn::of(0), ArrowColumn::shown(1, c"u")], 10..20, 0).unwrap();
        assert_eq!(2, stream.schema().unwrap().columns());
        let batch = stream.next_batch().unwrap().unwrap();
        assert!(stream.next_batch().unwrap().is_none());
        batch
    };
    drop(pin);
    drop(table);
    assert_eq!((10, 2), (batch.rows(), batch.columns()));
    assert!(!batch.as_mut_ptr().is_null());
}

#[test]
fn positions_are_those_of_each_kind_of_range() {
    use std::ops::Bound::{Excluded, Included, Unbounded};
    let table = opened();
    let pin = table.pin().unwrap();
    let txn = pin.begin().unwrap();
    let all = [
        ((Included(3), Excluded(6)), 3..6),
        ((Included(3), Included(6)), 3..7),
        ((Excluded(3), Excluded(6)), 4..6),
        ((Excluded(3), Included(6)), 4..7),
        ((Unbounded, Included(2)), 0..3),
        ((Excluded(997), Unbounded), 998..1000),
        ((Included(998), Included(u64::MAX)), 998..1000),
        ((Excluded(u64::MAX), Unbounded), 0..0),
    ];
    for (range, wanted) in all {
        for stream in [pin.arrow(&[], range, 0).unwrap(), txn.arrow(&[], range, 0).unwrap()] {
            let again = Table::open_arrow(stream, &["id"], &Options::default()).unwrap();
            let found = again.begin().unwrap();
            let ids: Vec<_> =
                (0..found.rows()).map(|at| found.row_at(at).unwrap().unwrap()[0].as_int().unwrap()).collect();
            assert_eq!(wanted.clone().collect::<Vec<i64>>(), ids, "{range:?}");
        }
    }
}

#[test]
fn rows_are_applied_or_none() {
    let table = opened();
    let mut txn = table.begin().unwrap();
    let stream = || table.pin().unwrap().arrow(&[], 100..200, 30).unwrap();
    let refusal = txn.apply_arrow(stream(), Apply::Insert).unwrap_err();
    assert_eq!((ErrorKind::Duplicate, 0), (refusal.error.kind(), refusal.row));
    assert_eq!("row 0, column 0: a row with the key id=100 exists", refusal.to_string());
    assert_eq!(100, txn.apply_arrow(stream(), Apply::Delete).unwrap());
    assert_eq!(900, txn.rows());
    let refusal = txn.apply_arrow(stream(), Apply::Delete).unwrap_err();
    assert_eq!(ErrorKind::Missing, refusal.error);
    assert_eq!(100, txn.apply_arrow(stream(), Apply::Insert).unwrap());
    assert_eq!(100, txn.apply_arrow(stream(), Apply::Upsert).unwrap());
    assert_eq!(1000, txn.rows());
    let narrow = table.pin().unwrap().arrow(&[ArrowColumn::of(0)], .., 0).unwrap();
    let refusal = txn.apply_arrow(narrow, Apply::Insert).unwrap_err();
    let cause = "column \"name\" of the table isn't there";
    assert_eq!((ErrorKind::TypeMismatch, cause), (refusal.error.kind(), &*refusal.cause));
    assert_eq!(cause, refusal.error.to_string());
}

#[test]
fn streams_that_are_none_are_refused() {
    let table = opened();
    let mut moved = table.pin().unwrap().arrow(&[], .., 0).unwrap();
    // SAFETY: it is a stream of this crate's.
    let stream = unsafe { ArrowArrayStream::take(moved.as_mut_ptr()) };
    assert_eq!(22, moved.schema().unwrap_err().errno);
    assert!(moved.next_batch().is_err());
    let mut txn = table.begin().unwrap();
    assert_eq!(ErrorKind::Misuse, txn.apply_arrow(moved, Apply::Delete).unwrap_err().error);
    assert_eq!(1000, txn.apply_arrow(stream, Apply::Delete).unwrap());
    let pin = table.pin().unwrap();
    assert_eq!(Some(ErrorKind::TypeMismatch.into()), pin.arrow(&[ArrowColumn::of(3)], .., 0).err());
    assert_eq!(Some(ErrorKind::TypeMismatch.into()), pin.arrow(&[ArrowColumn::shown(1, c"l")], .., 0).err());
    let refusal = Table::open_arrow(pin.arrow(&[], .., 0).unwrap(), &["nope"], &Options::default()).unwrap_err();
    let cause = "there is no column \"nope\", which the key names";
    assert_eq!((ErrorKind::BadTable, cause), (refusal.error.kind(), &*refusal.cause));
}

#[test]
fn threads_have_streams_of_one_pin() {
    let table = opened();
    let pin = table.pin().unwrap();
    std::thread::scope(|threads| {
        for _ in 0..4 {
            threads.spawn(|| {
                let mut stream = pin.arrow(&[], .., 10).unwrap();
                let mut rows = 0;
                while let Some(batch) = stream.next_batch().unwrap() {
                    rows += batch.rows();
                }
                assert_eq!(1000, rows);
            });
        }
    });
}

#[test]
fn a_table_of_a_database_is_made_of_a_stream() {
    let folder = Folder::in_memory("arrow");
    let table = opened();
    let stream = || table.pin().unwrap().arrow(&[], ..100, 7).unwrap();
    let (database, _) = database(&folder);
    let names = database.create_from_arrow("names", stream(), &["name", "id"], &Options::default()).unwrap();
    assert_eq!(100, names.begin().unwrap().rows());
    assert_eq!("name", names.columns()[0].name);
    let refusal = database.create_from_arrow("names", stream(), &["id"], &Options::default()).unwrap_err();
    assert_eq!(ErrorKind::Exists, refusal.error);
    let refusal = database.create_from_arrow("other", stream(), &["even"], &Options::default()).unwrap_err();
    assert_eq!((ErrorKind::Duplicate, 3), (refusal.error.kind(), refusal.row)); // the second one of the least key
    let refusal = database.create_from_arrow("", stream(), &["id"], &Options::default()).unwrap_err();
    assert_eq!(ErrorKind::TypeMismatch, refusal.error);
}

#[test]
fn what_a_column_is_declared_as_goes_out_and_comes_in() {
    let table = Table::open("id:int:key,day:int\n1,20000\n", &Options::default()).unwrap();
    assert_eq!(None, table.declared(1).unwrap());
    table.declare(1, Some(c"tdD")).unwrap();
    let again =
        Table::open_arrow(table.pin().unwrap().arrow(&[], .., 0).unwrap(), &["id"], &Options::default()).unwrap();
    assert_eq!(Some("tdD"), again.declared(1).unwrap().as_deref());
    assert_eq!(Err(ErrorKind::TypeMismatch.into()), table.declare(0, Some(c"?l")));
    assert_eq!(Err(ErrorKind::TypeMismatch.into()), table.declare(2, None));
    table.declare(1, None).unwrap();
    assert_eq!((None, None), (table.declared(1).unwrap(), table.declared(2).unwrap()));
}

#[test]
fn a_stream_keeps_a_database_open_until_it_is_released() {
    let folder = Folder::in_memory("streams");
    let (opened, _) = database(&folder);
    let stream = {
        let table = opened.create("t", "id:int:key\n1\n", &Options::default()).unwrap();
        table.pin().unwrap().arrow(&[], .., 0).unwrap()
    };
    let refused = opened.close().unwrap_err();
    assert_eq!(ErrorKind::Misuse, refused.error);
    drop(stream);
    refused.database.unwrap().close().unwrap();
    database(&folder).0.close().unwrap(); // nobody has its folder any more
}

#[test]
fn a_column_is_declared_while_others_read_its_format() {
    let folder = Folder::in_memory("declared");
    let database = Arc::new(database(&folder).0);
    let table = database.create("t", "id:int:key,at:int\n1,1\n", &Options::default()).unwrap();
    let (long, short) = (c"tsu:Some/Very_Long_Name_Of_A_Zone", c"tdD");
    table.declare(1, Some(short)).unwrap(); // by a borrow of the database's
    drop(table);
    let (one, other) = (database.table_shared("t").unwrap(), database.table_shared("t").unwrap());
    std::thread::scope(|threads| {
        let writer = threads.spawn(|| {
            for _ in 0..200 {
                one.declare(1, Some(long)).unwrap();
                one.declare(1, Some(short)).unwrap();
            }
        });
        while !writer.is_finished() {
            let format = other.declared(1).unwrap().unwrap();
            assert!(format == long.to_str().unwrap() || format == short.to_str().unwrap(), "{format}");
            let stream = other.pin().unwrap().arrow(&[], .., 0).unwrap();
            assert!(Table::open_arrow(stream, &["id"], &Options::default()).unwrap().declared(1).unwrap().is_some());
        }
    });
}
