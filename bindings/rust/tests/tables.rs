//! What a checkpoint leaves, what is recovered of it, and what is refused.
use narthexmace::{Cell, ColumnType, Error, ErrorKind, Options, Row, Table, cells};
use std::fs;
use std::path::PathBuf;

const ENOENT: i32 = 2;

/// An empty folder, which goes when it is dropped.
struct Folder(PathBuf);

impl Folder {
    fn new(name: &str) -> Folder {
        let path = std::env::temp_dir().join(format!("narthexmace-{}-{name}", std::process::id()));
        fs::create_dir(&path).unwrap();
        Folder(path)
    }
}

impl Drop for Folder {
    fn drop(&mut self) {
        fs::remove_dir_all(&self.0).unwrap();
    }
}

const TABLE: &str = "\"a,\"\"b\"\"\":int:key,name:text,ok:bool\n10,\"Ann, Jr\",false\n20,Bob,true\n";

/// A table with two commits behind it: its rows are `10,Ann,true`, and `15` with a text of two bytes.
fn changed() -> Table {
    let table = Table::open(TABLE, &Options::default()).unwrap();
    let mut txn = table.begin().unwrap();
    txn.delete([20]).unwrap();
    txn.set([10], 2, true).unwrap();
    txn.commit().unwrap();
    table.fold().unwrap();
    let mut txn = table.begin().unwrap();
    txn.set([10], 1, "Ann").unwrap();
    txn.insert(cells![15, "é", false]).unwrap();
    txn.commit().unwrap();
    table
}

fn rows_of(table: &Table) -> Vec<Row> {
    let txn = table.begin().unwrap();
    (0..txn.rows()).map(|position| txn.row_at(position).unwrap().unwrap()).collect()
}

fn refusal(folder: &Folder) -> Option<Error> {
    Table::recover(&folder.0, &Options::default()).err()
}

#[test]
fn the_newest_table_is_recovered() {
    let (table, folder) = (changed(), Folder::new("newest"));
    table.checkpoint(&folder.0).unwrap();
    let mut later = table.begin().unwrap();
    later.delete([10]).unwrap();
    later.commit().unwrap();
    let again = Table::recover(&folder.0, &Options::default()).unwrap();
    assert_eq!(table.columns(), again.columns());
    assert_eq!((1, Some(2)), (again.key_columns(), again.column("ok")));
    assert_eq!(("a,\"b\"", ColumnType::Int), (again.columns()[0].name.as_str(), again.columns()[0].column_type));
    let wanted = [
        [Cell::Int(10), Cell::Text("Ann".into()), Cell::Bool(true)],
        [Cell::Int(15), Cell::Text("é".into()), Cell::Bool(false)],
    ];
    let rows = rows_of(&again);
    assert_eq!(2, rows.len());
    assert!(rows.iter().zip(&wanted).all(|(row, wanted)| row[..] == wanted[..]), "{rows:?}");
    assert_eq!(1, rows_of(&table).len());
}

#[test]
fn a_checkpoint_moves_the_entries_into_the_table() {
    let (table, folder) = (changed(), Folder::new("entries"));
    let before = table.sizes();
    assert_eq!((2, 2, 2), (before.commits, before.write_entries, before.read_entries));
    let rows = rows_of(&table);
    table.checkpoint(&folder.0).unwrap();
    let after = table.sizes();
    assert_eq!((2, 0, 0), (after.commits, after.write_entries, after.read_entries));
    assert_eq!(rows, rows_of(&table));
}

#[test]
fn checkpoints_are_refused() {
    let (table, folder) = (changed(), Folder::new("refused"));
    let nowhere = folder.0.join("nowhere");
    assert_eq!(Err(ErrorKind::Io { errno: ENOENT }.into()), table.checkpoint(&nowhere));
    table.checkpoint(&folder.0).unwrap();
    assert_eq!(Err(ErrorKind::Exists.into()), table.checkpoint(&folder.0));
    assert_eq!(4, fs::read_dir(&folder.0).unwrap().count());
}

#[test]
fn recoveries_are_refused() {
    let (table, folder) = (changed(), Folder::new("damaged"));
    assert_eq!(Some(ErrorKind::Io { errno: ENOENT }.into()), refusal(&folder));
    table.checkpoint(&folder.0).unwrap();
    let column = folder.0.join("column-1.pdt");
    let whole = fs::read(&column).unwrap();
    fs::write(&column, &whole[..whole.len() - 1]).unwrap();
    assert_eq!(Some(ErrorKind::NoCheckpoint.into()), refusal(&folder));
    fs::write(&column, b"no column").unwrap();
    assert_eq!(Some(ErrorKind::BadCheckpoint.into()), refusal(&folder));
    fs::write(&column, &whole).unwrap();
    let few = Options { row_limit: 1, ..Options::default() };
    assert_eq!(Some(ErrorKind::TooManyRows.into()), Table::recover(&folder.0, &few).err());
    fs::write(folder.0.join("header.csv"), "no header\n").unwrap();
    assert_eq!(Some(ErrorKind::BadTable.into()), refusal(&folder));
}
