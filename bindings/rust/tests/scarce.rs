//! Each allocation of a run over a database is refused in turn, this crate's own among them: the call answers `NoMemory`, or
//! did without, and made again it does its database transaction.
#[path = "fixtures/databases.rs"]
mod databases;
#[path = "fixtures/memory.rs"]
mod memory;

use databases::{Folder, ITEMS, qtys};
use memory::{LIVE, Run};
use narthexmace::{
    ColumnValues, Database, DatabaseOptions, DatabaseTransaction, Error, ErrorKind, Options, Table, TableRef,
};
use std::collections::BTreeSet;
use std::fs;
use std::sync::Arc;

const CALLS: [&str; 13] = [
    "open",
    "create",
    "create_from_columns",
    "table",
    "table_shared",
    "begin",
    "begin_shared",
    "on",
    "savepoint",
    "commit",
    "names",
    "drop_table",
    "maintenance",
];

fn opened(folder: &Folder) -> Result<Database, Error> {
    let few =
        DatabaseOptions { maintenance: false, fold_entries: 1, checkpoint_entries: 1, ..DatabaseOptions::default() };
    Ok(Database::open(folder, &few)?.0)
}

/// Makes a table, unless it was made before and only its handle refused.
fn made<'d>(database: &'d Database, name: &str) -> Result<TableRef<'d>, Error> {
    match database.create(name, ITEMS, &Options::default()).map_err(Error::from) {
        Err(error) if error == ErrorKind::Exists => database.table(name),
        answer => answer,
    }
}

fn made_from_columns<'d>(database: &'d Database, name: &str) -> Result<TableRef<'d>, Error> {
    let columns = [("id", ColumnValues::Ints(&[10, 20])), ("qty", ColumnValues::Ints(&[7, 2]))];
    match database.create_from_columns(name, &columns, 1, &Options::default()).map_err(Error::from) {
        Err(error) if error == ErrorKind::Exists => database.table(name),
        answer => answer,
    }
}

/// Each call once, with an allocation refused after so many. Answers which were told, or none where none was refused.
fn run(granted: usize, folder: &Folder) -> Option<BTreeSet<&'static str>> {
    let mut run = Run { granted: Some(granted), told: BTreeSet::new() };
    let database = Arc::new(run.made("open", || opened(folder)));
    let a = run.made("create", || made(&database, "a"));
    drop(run.made("create_from_columns", || made_from_columns(&database, "b")));
    let b = run.made("table", || database.table("b"));
    let shared: Table = run.made("table_shared", || database.table_shared("a"));
    let dbtxn = run.made("begin", || database.begin());
    {
        let mut on_a = run.made("on", || dbtxn.on(&a));
        on_a.set([10], 1, 5).unwrap();
        run.made("savepoint", || on_a.savepoint());
        run.made("on", || dbtxn.on(&b)).delete([20]).unwrap();
    }
    assert_eq!(1, run.ended("commit", dbtxn, DatabaseTransaction::try_commit));
    let dbtxn = run.made("begin_shared", || database.begin_shared());
    run.made("on", || dbtxn.on(&shared)).set([20], 1, 9).unwrap();
    assert_eq!(2, run.ended("commit", dbtxn, DatabaseTransaction::try_commit));
    run.made("maintenance", || database.maintain());
    assert_eq!((vec![5, 9], vec![7]), (qtys(&a), qtys(&b)));
    drop(b);
    assert_eq!(vec!["a", "b"], run.made("names", || database.names()));
    run.made("drop_table", || database.drop_table("b"));
    drop((a, shared));
    drop(database);
    let database = opened(folder).unwrap();
    assert_eq!((vec![5, 9], vec!["a".to_string()]), (qtys(&database.table("a").unwrap()), database.names().unwrap()));
    if run.granted.is_some() { None } else { Some(run.told) }
}

#[test]
fn each_refused_allocation_is_told_and_changes_nothing() {
    let (mut told, mut refused) = (BTreeSet::new(), 0);
    loop {
        let folder = Folder::in_memory("scarce");
        fs::create_dir(&folder).unwrap();
        let Some(calls) = run(refused, &folder) else { break };
        assert!(calls.len() <= 1, "one allocation was refused, and told {calls:?}");
        drop(folder);
        told.extend(calls);
        refused += 1;
    }
    assert_eq!(BTreeSet::from(CALLS), told);
    println!("{refused} allocations, each refused once");
}

#[test]
fn what_is_dropped_is_freed() {
    let folder = Folder::new("freed");
    let before = LIVE.get();
    {
        let database = Arc::new(opened(&folder).unwrap());
        drop(made(&database, "a").unwrap());
        let a = Arc::new(database.table_shared("a").unwrap());
        let dbtxn = database.begin_shared().unwrap();
        dbtxn.on(&a).unwrap().set([10], 1, 5).unwrap();
        dbtxn.on(&a).unwrap().savepoint().unwrap();
        let refused = database.begin_shared().unwrap();
        refused.on(&a).unwrap().delete([10]).unwrap();
        drop(database);
        assert_eq!(1, dbtxn.commit().unwrap());
        assert!(refused.commit().is_err());
        let txn = a.begin_shared().unwrap();
        drop(a);
        assert_eq!(2, txn.rows());
        assert!(LIVE.get() > before);
    }
    assert_eq!(before, LIVE.get());
}
