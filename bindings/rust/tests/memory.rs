//! Each allocation of a run is refused in turn, this crate's own among them: the call answers `NoMemory`, or did
//! without, made again it does its database transaction, and the table at the end is as wanted.
#[path = "fixtures/memory.rs"]
mod fixtures;

use fixtures::{GRANTED, LIVE, Run};
use narthexmace::{Apply, ArrowRefusal, Change, Entry, ErrorKind, Options, Row, Table, Transaction, cells};
use std::collections::BTreeSet;
use std::path::Path;
use std::sync::Arc;
use std::{env, fs, process};

const TABLE: &str = "id:int:key,name:text,ok:bool,qty:int\n10,Ann,false,1\n20,Bob,true,2\n30,Cid,true,3\n";
const CALLS: [&str; 27] = [
    "open",
    "begin",
    "savepoint",
    "insert",
    "set",
    "delete",
    "get",
    "row_at",
    "batch",
    "batches",
    "texts",
    "schema",
    "open_arrow",
    "a refusal of open_arrow",
    "a refusal of apply_arrow",
    "commit",
    "prepare",
    "pin",
    "begin at a pin",
    "changes",
    "entry",
    "fold",
    "begin_checkpoint",
    "write",
    "install",
    "checkpoint",
    "recover",
];

fn rows_of(table: &Table) -> Vec<Row> {
    let txn = table.begin().unwrap();
    (0..txn.rows()).map(|position| txn.row_at(position).unwrap().unwrap()).collect()
}

fn write(run: &mut Run, txn: &mut Transaction<'_>, long: &str) {
    run.made("delete", || txn.delete([10]));
    run.made("insert", || txn.insert(cells![10, "Ann", false, 1]));
    let savepoint = run.made("savepoint", || txn.savepoint());
    run.made("insert", || txn.insert(cells![25, long, true, 5]));
    run.made("set", || txn.set([30], 1, long));
    run.counted(|| txn.rollback_to(&savepoint)).unwrap(); // takes no memory
    run.made("insert", || txn.insert(cells![15, long, true, 5]));
    run.made("set", || txn.set([10], 1, long));
    run.made("delete", || txn.delete([20]));
}

fn read(run: &mut Run, txn: &Transaction<'_>, long: &str) {
    let row = run.made("get", || txn.get([10])).unwrap();
    assert_eq!(Some(long), row[1].as_text());
    assert_eq!(row, run.made("row_at", || txn.row_at(0)).unwrap());
    assert_eq!(vec![long, long, "Cid"], run.made("texts", || txn.texts(1, ..)));
    let batch = run.made("batch", || txn.batch(&[0, 1, 2], ..));
    assert_eq!(vec![10, 15, 30], batch.ints(0).unwrap().iter().collect::<Vec<i64>>());
    assert_eq!(vec![long, long, "Cid"], batch.texts(1).unwrap().iter().collect::<Vec<&str>>());
    assert_eq!(Some(&[false, true, true][..]), batch.bools(2));
    assert_eq!(2, run.made("batches", || txn.batches(&[0], .., 2)).count());
}

/// A pin, and what the first commit changed.
fn follow(run: &mut Run, table: &Table, long: &str) {
    let pin = run.made("pin", || table.pin());
    let txn = run.made("begin at a pin", || pin.begin());
    assert_eq!((2, 2, 3), (pin.number(), txn.version(), txn.rows()));
    let layer = run.made("changes", || table.changes(1)).unwrap();
    let entries: Vec<Entry> = (0..layer.len()).map(|index| run.made("entry", || layer.entry(index)).unwrap()).collect();
    let texts = entries.iter().filter(|entry| match &entry.change {
        Change::Insert(row) => row[1].as_text() == Some(long),
        Change::Modify { cell, .. } => cell.as_text() == Some(long),
        _ => false,
    });
    assert_eq!(2, texts.count());
}

/// Rows that go out by Arrow and come in again, and refusals of them, which have a sentence.
fn exchange(run: &mut Run, table: &Table) {
    let pin = run.made("pin", || table.pin());
    let open = |recent| {
        let options = Options { recent, ..Options::default() };
        let stream = pin.arrow(&[], .., 0)?;
        Table::open_arrow(stream, &["id"], &options).map_err(|refused| refused.error)
    };
    let columns = run.made("schema", || {
        let mut stream = pin.arrow(&[], .., 0)?;
        stream.schema().map(|schema| schema.columns()).map_err(|_| ErrorKind::NoMemory.into())
    });
    assert_eq!(4, columns);
    let again = run.made("open_arrow", || open(1));
    assert_eq!(rows_of(table), rows_of(&again));
    let mut txn = run.made("begin", || again.begin());
    run.made("a refusal of apply_arrow", || {
        let stream = pin.arrow(&[], .., 0)?;
        match txn.apply_arrow(stream, Apply::Insert) {
            Err(ArrowRefusal { error, .. }) if error == ErrorKind::Duplicate => Ok(()),
            refused => refused.map(|_| ()).map_err(|refused| refused.error),
        }
    });
    run.made("a refusal of open_arrow", || match open(0) {
        Err(error) if error == ErrorKind::BadLimit => Ok(()),
        refused => refused.map(|_| ()),
    });
}

/// Each call once, with an allocation refused after so many. Answers which were told, or none where none was refused.
fn run(granted: usize, folder: &Path) -> Option<BTreeSet<&'static str>> {
    let mut run = Run { granted: Some(granted), told: BTreeSet::new() };
    let long = "x".repeat(1000);
    let table = run.made("open", || Ok(Table::open(TABLE, &Options::default())?));
    let mut txn = run.made("begin", || table.begin());
    write(&mut run, &mut txn, &long);
    read(&mut run, &txn, &long);
    assert_eq!(1, run.committed(txn));
    let mut txn = run.made("begin", || table.begin());
    run.made("set", || txn.set([10], 2, false));
    assert_eq!(2, run.prepared(txn).install());
    follow(&mut run, &table, &long);
    exchange(&mut run, &table);
    run.made("fold", || table.fold());
    let rows = rows_of(&table);
    let qty: Vec<_> = rows.iter().map(|row| (row[0].as_int(), row[3].as_int())).collect();
    assert_eq!(vec![(Some(10), Some(1)), (Some(15), Some(5)), (Some(30), Some(3))], qty);
    if run.granted.is_some() {
        let parts = folder.join("parts");
        fs::create_dir(&parts).unwrap();
        let mut checkpoint = run.made("begin_checkpoint", || table.begin_checkpoint());
        run.made("write", || checkpoint.write(&parts));
        run.made("install", || checkpoint.install());
        drop(checkpoint);
        assert_eq!(rows, rows_of(&table));
        run.made("checkpoint", || table.checkpoint(folder));
        let again = run.made("recover", || Table::recover(folder, &Options::default()));
        assert_eq!(rows, rows_of(&again));
        assert_eq!(rows, rows_of(&table));
    }
    assert_eq!(0, table.sizes().open_transactions);
    if run.granted.is_some() { None } else { Some(run.told) }
}

#[test]
fn each_refused_allocation_is_told_and_changes_nothing() {
    let folder = env::temp_dir().join(format!("narthexmace-{}-memory", process::id()));
    let (mut told, mut refused) = (BTreeSet::new(), 0);
    loop {
        fs::create_dir(&folder).unwrap();
        let answer = run(refused, &folder);
        fs::remove_dir_all(&folder).unwrap();
        let Some(calls) = answer else { break };
        assert!(calls.len() <= 1, "one allocation was refused, and told {calls:?}");
        told.extend(calls);
        refused += 1;
    }
    assert_eq!(BTreeSet::from(CALLS), told);
    println!("{refused} allocations, each refused once");
}

#[test]
fn after_a_batch_that_was_refused_none_comes() {
    let table = Table::open(TABLE, &Options::default()).unwrap();
    let txn = table.begin().unwrap();
    let mut batches = txn.batches(&[1], .., 1).unwrap();
    assert_eq!(Some("Ann"), batches.next().unwrap().unwrap().texts(0).unwrap().get(0));
    GRANTED.set(Some(0));
    let refused = batches.next();
    GRANTED.set(None);
    assert_eq!(Some(ErrorKind::NoMemory.into()), refused.unwrap().err());
    assert!(batches.next().is_none());
}

#[test]
fn after_a_change_that_was_refused_none_comes_and_an_entry_comes_again() {
    let table = Table::open(TABLE, &Options::default()).unwrap();
    for row in 1..=3 {
        let mut txn = table.begin().unwrap();
        txn.delete([10 * row]).unwrap();
        txn.commit().unwrap();
    }
    let mut changes = table.changes_after(0);
    let (number, layer) = changes.next().unwrap().unwrap();
    GRANTED.set(Some(0));
    let refused = changes.next();
    GRANTED.set(Some(0));
    let mut entries = layer.entries();
    let unread = entries.next();
    GRANTED.set(None);
    assert_eq!((1, Some(ErrorKind::NoMemory.into())), (number, refused.unwrap().err()));
    assert!(changes.next().is_none());
    assert_eq!(Some(Err(ErrorKind::NoMemory.into())), unread);
    assert!(matches!(entries.next(), Some(Ok(Entry { change: Change::Delete(_), .. }))));
    assert!(entries.next().is_none());
}

#[test]
fn what_is_dropped_is_freed() {
    let before = LIVE.get();
    let table = Table::open(TABLE, &Options::default()).unwrap();
    let opened = LIVE.get();
    assert!(opened > before);
    let mut txn = table.begin().unwrap();
    txn.insert(cells![15, "Dee", true, 5]).unwrap();
    assert_eq!(4, txn.batch(&[0, 1, 2, 3], ..).unwrap().rows());
    assert_eq!(4, txn.batches(&[0, 1], .., 3).unwrap().map(|batch| batch.unwrap().rows()).sum::<usize>());
    let mut stream = txn.arrow(&[], .., 0).unwrap();
    assert_eq!(4, stream.schema().unwrap().columns());
    drop(stream);
    drop(txn);
    assert_eq!(opened, LIVE.get());
    let mut txn = table.begin().unwrap();
    txn.delete([10]).unwrap();
    let savepoint = txn.savepoint().unwrap();
    txn.insert(cells![15, "Dee", true, 5]).unwrap();
    txn.rollback_to(&savepoint).unwrap();
    txn.savepoint().unwrap();
    txn.commit().unwrap();
    let (pin, layer) = (table.pin().unwrap(), table.changes(1).unwrap());
    drop(pin.begin().unwrap());
    drop((pin, layer)); // a pin that stayed would keep the table open
    let mut checkpoint = table.begin_checkpoint().unwrap();
    assert!(checkpoint.install().is_err());
    drop(checkpoint); // ends it: else the table could not be closed
    drop(table);
    assert_eq!(before, LIVE.get());
}

#[test]
fn a_shared_table_is_freed_with_the_last_that_keeps_it() {
    let before = LIVE.get();
    let table = Arc::new(Table::open(TABLE, &Options::default()).unwrap());
    let (dropped, mut committed) = (table.begin_shared().unwrap(), table.begin_shared().unwrap());
    let (prepared, checkpoint) = (table.begin_shared().unwrap(), table.begin_checkpoint_shared().unwrap());
    let pin = table.pin_shared().unwrap();
    drop(table);
    drop(dropped);
    drop(prepared.prepare().unwrap());
    committed.delete([10]).unwrap();
    assert_eq!(3, checkpoint.table().columns().len() - 1);
    drop(checkpoint);
    assert!(LIVE.get() > before);
    assert_eq!(1, committed.commit().unwrap());
    assert_eq!((0, 3), (pin.number(), pin.begin().unwrap().rows()));
    drop(pin); // the last one that keeps the table: it is let go before the table is closed
    assert_eq!(before, LIVE.get());
}
