//! Each error once, by its cause.
use narthexmace::{
    ColumnValues, CommitError, ConflictRule, Error, ErrorKind, OpenError, Options, Table, Transaction, cells,
};
use std::ffi::OsStr;
use std::os::unix::ffi::OsStrExt;

const TABLE: &str = "id:int:key,name:text,ok:bool,qty:int\n10,Ann,false,1\n20,Bob,true,2\n30,Cid,true,3\n";

fn opened(options: &Options) -> Table {
    Table::open(TABLE, options).unwrap()
}

fn refused(csv: &str, options: &Options) -> Error {
    Table::open(csv, options).unwrap_err().into()
}

#[test]
fn a_text_that_is_no_table_has_its_first_fault_told() {
    let cases = [
        ("", 1, 0, "there is no header", "the text is empty: a header such as id:int:key,name:text is wanted"),
        (
            "id:int:key,qty:int\n1,2\n3\n",
            3,
            0,
            "the record has not as many cells as the header",
            "line 3: 1 cell, and the header has 2 columns",
        ),
        (
            "id:int:key,ok:bool\n1,true\n2,yes\n",
            3,
            1,
            "the cell is no value of the column's type",
            "line 3, column \"ok\": \"yes\" is not a bool: true or false is wanted",
        ),
        (
            "id:int:key\n1\n2\n1\n",
            4,
            0,
            "the key is that of an earlier record",
            "line 4, key id=1: an earlier record has this key",
        ),
    ];
    for (csv, record, column, cause, sentence) in cases {
        let refused = Table::open(csv, &Options::default()).unwrap_err();
        let OpenError::BadTable(fault) = &refused else { panic!("{refused:?}") };
        assert_eq!((record, column, cause), (fault.record, fault.column, fault.cause));
        assert_eq!([sentence, sentence], [&*refused.to_string(), &*fault.to_string()]);
        let error = Error::from(refused);
        assert_eq!((ErrorKind::BadTable, sentence), (error.kind(), &*error.to_string()));
    }
}

#[test]
fn openings_are_refused() {
    let all = Options::default();
    assert_eq!(ErrorKind::BadTable, refused("", &all));
    assert_eq!(ErrorKind::BadTable, refused("id:int:key\nx\n", &all));
    assert_eq!(ErrorKind::BadTable, refused("id:int:key\n1\n1\n", &all));
    assert_eq!(ErrorKind::TooManyRows, refused(TABLE, &Options { row_limit: 2, ..all }));
    assert_eq!(ErrorKind::BadLimit, refused(TABLE, &Options { recent: 0, ..all }));
    assert_eq!(ErrorKind::BadLimit, refused(TABLE, &Options { recent: 65_537, ..all }));
    assert_eq!(ErrorKind::BadLimit, refused(TABLE, &Options { row_limit: 0, ..all }));
    assert_eq!(ErrorKind::BadLimit, refused(TABLE, &Options { row_limit: 2_147_483_648, ..all }));
}

#[test]
fn writes_are_refused() {
    let table = opened(&Options { row_limit: 4, ..Options::default() });
    let mut txn = table.begin().unwrap();
    assert_eq!(Err(ErrorKind::Duplicate.into()), txn.insert(cells![20, "Bob", true, 2]));
    assert_eq!(Err(ErrorKind::Missing.into()), txn.delete([25]));
    assert_eq!(Err(ErrorKind::Missing.into()), txn.set([25], 3, 1));
    assert_eq!(Ok(()), txn.insert(cells![40, "Dee", true, 4]));
    assert_eq!(Err(ErrorKind::Full.into()), txn.insert(cells![50, "Eve", true, 5]));
    assert_eq!(4, txn.rows());
}

/// Looks that a call is refused by a kind and a sentence.
#[track_caller]
fn says<T: std::fmt::Debug, E: Into<Error>>(kind: ErrorKind, sentence: &str, answer: Result<T, E>) {
    let error = answer.map_err(Into::into).expect_err(sentence);
    assert_eq!((kind, sentence), (error.kind(), &*error.to_string()));
}

#[test]
fn refused_writes_name_the_key() {
    let table =
        Table::open("id:int:key,name:text:key,new:bool:key,n:int\n7,Ann,true,1\n", &Options::default()).unwrap();
    let mut txn = table.begin().unwrap();
    let ann = "a row with the key id=7, name=\"Ann\", new=true exists";
    says(ErrorKind::Duplicate, ann, txn.insert(cells![7, "Ann", true, 2]));
    says(
        ErrorKind::Missing,
        "no row has the key id=8, name=\"a\\nb\", new=false",
        txn.delete(cells![8, "a\nb", false]),
    );
    let long = "x".repeat(65);
    let cut = format!("no row has the key id=8, name=\"{}\".., new=false", &long[..64]);
    says(ErrorKind::Missing, &cut, txn.set(cells![8, &*long, false], 3, 1));
}

#[test]
fn cells_that_do_not_fit_are_named() {
    let table = Table::open("id:int:key,name:text,new:bool\n7,Ann,true\n", &Options::default()).unwrap();
    let mut txn = table.begin().unwrap();
    let says = |sentence: &str, answer: Result<(), Error>| says(ErrorKind::TypeMismatch, sentence, answer);
    says("column \"name\": 5 is not a text", txn.insert(cells![8, 5, true]));
    says("column \"new\": 1 is not a bool", txn.insert(cells![8, "x", 1]));
    says("column \"id\": \"say \\\"no\\\"\" is not an int", txn.insert(cells!["say \"no\"", "x", true]));
    says("column \"name\": true is not a text", txn.set([7], 1, true));
    let long = "x".repeat(5000);
    says("column \"name\": the text has 5,000 bytes, and 4,096 are the most", txn.insert(cells![8, &*long, true]));
    says("column \"name\": the text has 5,000 bytes, and 4,096 are the most", txn.set([7], 1, &long));
    says("column \"id\" is a key column, which can't be set", txn.set([7], 0, 1));
    says("there is no column 7: the table has 3", txn.set([7], 7, 1));
    says("there is no column 3: the table has 3", txn.batch(&[0, 3], ..).map(|_| ()));
    says("column \"id\" is of type int, and type text is wanted", txn.texts(0, ..).map(|_| ()));
    says("the row has 2 cells, and 3 are wanted", txn.insert(cells![8, "x"]));
    says("the row has 5 cells, and 3 are wanted", txn.insert(cells![8, "x", true, 1, 2]));
    says("the key has 2 cells, and 1 is wanted", txn.delete([7, 8]));
    says("the key has 0 cells, and 1 is wanted", txn.delete::<i64>([]));
}

#[test]
fn limits_names_and_orders_are_named() {
    let all = Options::default();
    let open = |options: Options| Table::open(TABLE, &options);
    says(ErrorKind::BadLimit, "recent is 70000: 1 to 65,536 is wanted", open(Options { recent: 70_000, ..all }));
    says(ErrorKind::BadLimit, "recent is 0: 1 to 65,536 is wanted", open(Options { recent: 0, ..all }));
    let limit = "row_limit is 3000000000: 1 to 2,147,483,647 is wanted";
    says(ErrorKind::BadLimit, limit, open(Options { row_limit: 3_000_000_000, ..all }));
    let rows = "the table has more rows than its limit, 2";
    says(ErrorKind::TooManyRows, rows, open(Options { row_limit: 2, ..all }));
    let columns = |columns: &[(&str, ColumnValues<'_>)]| Table::from_columns(columns, 1, &all);
    let (id, order) =
        (ColumnValues::Ints(&[4, 3]), "row 1: the key id=3 is not above the key id=4 of the row before it");
    says(ErrorKind::NotAscending, order, columns(&[("id", id)]));
    says(ErrorKind::BadTable, "two columns have the name \"id\"", columns(&[("id", id), ("id", id)]));
    let zero = "a column can't have the name \"a\\x00b\", which has a zero byte";
    says(ErrorKind::BadTable, zero, columns(&[("a\0b", id)]));
    let (ids, texts) = (ColumnValues::Ints(&[3, 4]), ColumnValues::Texts { offsets: &[0, 1, 3], bytes: b"x\xff\xff" });
    let place = "row 1, column \"name\": the text is not UTF-8";
    says(ErrorKind::TypeMismatch, place, columns(&[("id", ids), ("name", texts)]));
}

/// A sentence is that of its own call, whatever another thread is refused, and when the table is gone.
#[test]
fn errors_keep_their_sentences() {
    let refused = |key: i64| {
        let table = opened(&Options::default());
        let mut txn = table.begin().unwrap();
        txn.delete([key]).unwrap_err()
    };
    let first = refused(77);
    let other = std::thread::spawn(move || refused(78)).join().unwrap();
    assert_eq!(first, ErrorKind::Missing);
    assert_eq!("no row has the key id=77", first.to_string());
    assert_eq!("no row has the key id=78", other.to_string());
    assert_eq!("Missing: no row has the key id=77", format!("{first:?}"));
    assert_eq!(ErrorKind::Missing.to_string(), Error::from(ErrorKind::Missing).to_string());
}

/// What each call answers to cells that don't fit the columns.
fn shapes(txn: &mut Transaction<'_>, long: &str) -> Vec<Result<(), Error>> {
    vec![
        txn.insert(cells![40, "Dee", true]),
        txn.insert(cells![40, "Dee", true, 4, 5]),
        txn.insert(cells![40, 4, true, 4]),
        txn.insert(cells![40, "Dee", 1, 4]),
        txn.insert(cells![40, long, true, 4]),
        txn.delete::<i64>([]),
        txn.delete([10, 20]),
        txn.delete(["Ann"]),
        txn.set([10], 0, 11),
        txn.set([10], 4, 11),
        txn.set([10], 3, "Ann"),
        txn.set([10], 1, long),
        txn.set(["Ann"], 3, 1),
        txn.get([true]).map(|_| ()),
        txn.rank([10, 20]).map(|_| ()),
        txn.batch(&[4], ..).map(|_| ()),
        txn.batches(&[0, 4], .., 10).map(|_| ()),
    ]
}

#[test]
fn cells_that_do_not_fit_are_refused() {
    let table = opened(&Options::default());
    let mut txn = table.begin().unwrap();
    let longest = "é".repeat(2048);
    for (index, answer) in shapes(&mut txn, &(longest.clone() + "e")).into_iter().enumerate() {
        assert_eq!(Err(ErrorKind::TypeMismatch.into()), answer, "case {index}");
    }
    assert_eq!(Ok(()), txn.set([10], 1, &longest));
    assert_eq!(Some(longest.as_str()), txn.row_at(0).unwrap().unwrap()[1].as_text());
    assert_eq!(3, txn.rows());
}

#[test]
fn marks_that_are_gone_are_missing() {
    let table = opened(&Options::default());
    let (mut txn, mut other) = (table.begin().unwrap(), table.begin().unwrap());
    let (older, younger, stranger) = (txn.savepoint().unwrap(), txn.savepoint().unwrap(), other.savepoint().unwrap());
    txn.delete([10]).unwrap();
    assert_eq!(Err(ErrorKind::Missing.into()), txn.rollback_to(&stranger));
    assert_eq!(Err(ErrorKind::Missing.into()), other.rollback_to(&younger));
    assert_eq!(Ok(()), txn.rollback_to(&older));
    assert_eq!(3, txn.rows());
    assert_eq!(Err(ErrorKind::Missing.into()), txn.rollback_to(&younger));
    let again = txn.savepoint().unwrap(); // at the level of the younger one
    assert_eq!(Err(ErrorKind::Missing.into()), txn.release(younger));
    txn.delete([10]).unwrap();
    assert_eq!(Ok(()), txn.release(older));
    assert_eq!(Err(ErrorKind::Missing.into()), txn.rollback_to(&again));
    assert_eq!(2, txn.rows());
    txn.savepoint().unwrap();
    assert_eq!(1, txn.commit().unwrap());
    assert_eq!(2, table.begin().unwrap().rows());
}

#[test]
fn commits_are_refused() {
    let table = opened(&Options { recent: 1, row_limit: 4, conflicts: ConflictRule::ByRow });
    let begin = || table.begin().unwrap();
    let (mut first, mut second, mut third, idle) = (begin(), begin(), begin(), begin());
    first.set([10], 1, "Eve").unwrap();
    second.set([10], 3, 7).unwrap();
    third.set([20], 3, 7).unwrap();
    assert_eq!(1, first.commit().unwrap());
    assert!(matches!(second.try_commit(), Err(CommitError::Conflict(1))));
    let (mut one, mut other) = (begin(), begin());
    one.insert(cells![40, "Dee", true, 4]).unwrap();
    other.insert(cells![50, "Flo", true, 5]).unwrap();
    assert_eq!(2, one.commit().unwrap());
    assert!(matches!(other.try_commit(), Err(CommitError::Full(2))));
    assert!(matches!(third.try_commit(), Err(CommitError::TooOld(2))));
    assert_eq!(0, idle.commit().unwrap()); // it changes nothing, and is never too old
    assert_eq!(2, table.sizes().commits);
    assert_eq!(0, table.sizes().open_transactions);
}

#[test]
fn by_column_changes_of_two_columns_do_not_conflict() {
    let table = opened(&Options::default());
    let (mut first, mut second) = (table.begin().unwrap(), table.begin().unwrap());
    first.set([10], 1, "Eve").unwrap();
    second.set([10], 3, 7).unwrap();
    assert_eq!(1, first.commit().unwrap());
    assert_eq!(2, second.commit().unwrap());
}

#[test]
fn a_cut_makes_open_transactions_too_old() {
    let table = opened(&Options::default());
    let mut old = table.begin().unwrap();
    let mut txn = table.begin().unwrap();
    txn.set([10], 3, 5).unwrap();
    txn.commit().unwrap();
    table.trim();
    old.set([20], 3, 5).unwrap();
    assert_eq!(Some(1), old.get([10]).unwrap().unwrap()[3].as_int());
    assert_eq!(ErrorKind::TooOld, old.commit().unwrap_err());
}

#[test]
fn paths_that_no_file_can_have_are_refused() {
    let table = opened(&Options::default());
    let long = "x".repeat(5000);
    for path in [OsStr::from_bytes(b"a\0b"), OsStr::new(&long), OsStr::new("")] {
        assert_eq!(Err(ErrorKind::Misuse.into()), table.checkpoint(path));
        assert_eq!(Some(ErrorKind::Misuse.into()), Table::recover(path, &Options::default()).err());
    }
}

#[test]
fn a_transaction_that_is_dropped_is_aborted() {
    let table = opened(&Options::default());
    let mut txn = table.begin().unwrap();
    txn.delete([10]).unwrap();
    assert_eq!(1, table.sizes().open_transactions);
    drop(txn);
    table.begin().unwrap().abort();
    assert_eq!(0, table.sizes().open_transactions);
    assert_eq!(3, table.begin().unwrap().rows());
}
