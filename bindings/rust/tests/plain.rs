//! CSV texts whose header names columns and no types.
use narthexmace::{
    Cell, ColumnType, Database, DatabaseOptions, ErrorKind, OpenError, Options, PlainCsv, Table, csv_has_types,
};
use std::fs;

const PEOPLE: &str = "name,age,mail,new\nAnn,40,b@x,true\nBob,50,a@x,false\n";

fn opened(csv: &str, key: &[&str]) -> Table {
    Table::open_plain(csv, &PlainCsv { key, sample: 0 }, &Options::default()).unwrap()
}

fn names(table: &Table) -> Vec<&str> {
    table.columns().iter().map(|column| column.name.as_str()).collect()
}

#[test]
fn types_are_found_and_the_key_comes_first() {
    let table = opened(PEOPLE, &[]);
    assert_eq!(vec!["name", "age", "mail", "new"], names(&table));
    let types: Vec<ColumnType> = table.columns().iter().map(|column| column.column_type).collect();
    assert_eq!(vec![ColumnType::Text, ColumnType::Int, ColumnType::Text, ColumnType::Bool], types);
    let table = opened(PEOPLE, &["new", "mail"]);
    assert_eq!(vec!["new", "mail", "name", "age"], names(&table));
    let txn = table.begin().unwrap();
    let row = txn.row_at(0).unwrap().unwrap();
    assert_eq!(
        vec![Cell::Bool(false), Cell::Text("a@x".into()), Cell::Text("Bob".into()), Cell::Int(50)],
        row.to_vec()
    );
}

#[test]
fn a_fault_has_its_place() {
    let mut csv = String::from("id,amount\n");
    (0..1000).for_each(|id| csv += &format!("{id},{id}\n"));
    csv += "1000,many\n";
    let place =
        |csv: &str, key: &[&str]| match Table::open_plain(csv, &PlainCsv { key, sample: 0 }, &Options::default()) {
            Err(OpenError::BadTable(fault)) => (fault.record, fault.column),
            other => panic!("{other:?}"),
        };
    assert_eq!((1002, 1), place(&csv, &[]));
    assert_eq!((1, 1), place("id,id\n1,2\n", &[]));
    assert_eq!((1, 1), place("id,a:int\n1,2\n", &[]));
    assert_eq!((1, 0), place(PEOPLE, &["phone", "mail"]));
    assert_eq!((1, 1), place(PEOPLE, &["phone", "Mail"]));
    let all = PlainCsv { key: &[], sample: usize::MAX };
    let table = Table::open_plain(&csv, &all, &Options::default()).unwrap();
    assert_eq!(ColumnType::Text, table.columns()[1].column_type);
    let zero = PlainCsv { key: &["a\0b"], sample: 0 };
    let Err(OpenError::Other(error)) = Table::open_plain(PEOPLE, &zero, &Options::default()) else { panic!() };
    assert_eq!(ErrorKind::TypeMismatch, error.kind());
}

#[test]
fn headers_are_told_apart() {
    assert!(csv_has_types("id:int:key\n").unwrap());
    assert!(!csv_has_types("id,name\n1:2,3\n").unwrap());
    assert!(!csv_has_types("").unwrap());
}

#[test]
fn a_database_keeps_it() {
    let folder = std::env::temp_dir().join(format!("narthexmace-{}-plain", std::process::id()));
    let (db, _) = Database::open(&folder, &DatabaseOptions::default()).unwrap();
    let by_mail = PlainCsv { key: &["mail"], sample: 0 };
    let made = db.create_plain("people", PEOPLE, &by_mail, &Options::default()).unwrap();
    assert_eq!(vec!["mail", "name", "age", "new"], names(&made));
    drop(made);
    let Err(OpenError::Other(error)) = db.create_plain("people", PEOPLE, &by_mail, &Options::default()) else {
        panic!()
    };
    assert_eq!(ErrorKind::Exists, error.kind());
    db.close().unwrap();
    let (db, _) = Database::open(&folder, &DatabaseOptions::default()).unwrap();
    assert_eq!(vec!["mail", "name", "age", "new"], names(&db.table("people").unwrap()));
    db.close().unwrap();
    fs::remove_dir_all(&folder).unwrap();
}
