//! Works: commits on several tables, or on none.
#[path = "fixtures/databases.rs"]
mod fixtures;

use fixtures::{Folder, ITEMS, made, opened, qtys, refused, set};
use narthexmace::{
    Database, DatabaseCommitError, DatabaseOptions, DatabaseTransaction, ErrorKind, OpenError, Options, SyncMode, Table,
};
use std::sync::Arc;
use std::sync::atomic::{AtomicU64, Ordering};
use std::thread;

#[test]
fn a_work_is_committed_on_all_tables_or_on_none() {
    let folder = Folder::new("works");
    let database = made(&folder, &["a", "b"]);
    let (a, b) = (database.table("a").unwrap(), database.table("b").unwrap());
    let dbtxn = database.begin().unwrap();
    let (mut on_a, mut on_b) = (dbtxn.on(&a).unwrap(), dbtxn.on(&b).unwrap());
    on_a.set([10], 1, 6).unwrap();
    on_b.insert([30, 1]).unwrap();
    assert_eq!((2, 3), (on_a.rows(), on_b.rows()));
    assert_eq!(vec![7, 2], qtys(&a));
    drop((on_a, on_b));
    assert_eq!(1, dbtxn.commit().unwrap());
    assert_eq!((vec![6, 2], vec![7, 2, 1]), (qtys(&a), qtys(&b)));
    assert_eq!((1, 1), (a.changes(1).unwrap().unwrap().len(), b.changes(1).unwrap().unwrap().len()));

    let dbtxn = database.begin().unwrap();
    dbtxn.on(&a).unwrap().set([10], 1, 5).unwrap();
    dbtxn.on(&b).unwrap().set([10], 1, 5).unwrap();
    assert_eq!(2, set(&b, 10, 4));
    assert!(matches!(dbtxn.try_commit(), Err(DatabaseCommitError::Conflict(2))));
    assert_eq!((vec![6, 2], vec![4, 2, 1]), (qtys(&a), qtys(&b)));

    let dbtxn = database.begin().unwrap();
    dbtxn.on(&a).unwrap().delete([10]).unwrap();
    drop(dbtxn);
    database.begin().unwrap().abort();
    assert_eq!(vec![6, 2], qtys(&a));
    assert_eq!(2, database.begin().unwrap().commit().unwrap()); // it changes nothing
    drop((a, b));
    database.close().unwrap();
    let (database, report) = opened(&folder);
    assert_eq!(2, report.commits);
    assert_eq!(vec![6, 2], qtys(&database.table("a").unwrap()));
    assert_eq!(vec![4, 2, 1], qtys(&database.table("b").unwrap()));
}

#[test]
fn a_work_sees_all_tables_at_one_moment() {
    let folder = Folder::new("moment");
    let database = made(&folder, &["a", "b"]);
    let (a, b) = (database.table("a").unwrap(), database.table("b").unwrap());
    let dbtxn = database.begin().unwrap();
    set(&a, 10, 8);
    set(&b, 10, 8);
    assert_eq!(Some(7), dbtxn.on(&a).unwrap().get([10]).unwrap().unwrap()[1].as_int());
    assert_eq!((0, 7), {
        let on_b = dbtxn.on(&b).unwrap();
        (on_b.version(), on_b.batch(&[1], ..).unwrap().ints(0).unwrap().iter().next().unwrap())
    });
    let later = database.create("later", ITEMS, &Options::default()).unwrap();
    assert_eq!(Some(ErrorKind::Missing.into()), dbtxn.on(&later).err());
}

#[test]
fn a_works_transaction_keeps_its_writes_and_its_marks() {
    let folder = Folder::new("savepoints");
    let database = made(&folder, &["a"]);
    let a = database.table("a").unwrap();
    let dbtxn = database.begin().unwrap();
    let mut first = dbtxn.on(&a).unwrap();
    first.set([10], 1, 5).unwrap();
    let savepoint = first.savepoint().unwrap();
    first.delete([20]).unwrap();
    assert_eq!(Some(ErrorKind::Misuse.into()), dbtxn.on(&a).err()); // it is there already
    drop(first);
    let mut again = dbtxn.on(&a).unwrap();
    assert_eq!((1, &a.columns()[0].name), (again.rows(), &again.table().columns()[0].name));
    again.rollback_to(&savepoint).unwrap();
    again.release(savepoint).unwrap();
    assert_eq!(vec![5, 2], again.batch(&[1], ..).unwrap().ints(0).unwrap().iter().collect::<Vec<i64>>());
    let (plain, other) = (Table::open(ITEMS, &Options::default()).unwrap(), Folder::new("other"));
    let others = made(&other, &["a"]);
    assert_eq!(Some(ErrorKind::Misuse.into()), dbtxn.on(&plain).err());
    assert_eq!(Some(ErrorKind::Misuse.into()), dbtxn.on(&others.table("a").unwrap()).err());
    drop(again);
    assert_eq!(1, dbtxn.commit().unwrap());
    assert_eq!(vec![5, 2], qtys(&a));
}

#[test]
fn a_commit_in_two_parts_is_put_into_the_journal() {
    let folder = Folder::new("parts");
    let database = made(&folder, &["a"]);
    let a = database.table("a").unwrap();
    let mut txn = a.begin().unwrap();
    txn.set([10], 1, 5).unwrap();
    let prepared = txn.prepare().unwrap();
    assert_eq!(Err(ErrorKind::Misuse.into()), database.drop_table("a"));
    assert_eq!(Err(ErrorKind::Misuse.into()), database.maintain());
    assert!(matches!(
        database.create("b", ITEMS, &Options::default()),
        Err(OpenError::Other(error)) if error == ErrorKind::Misuse
    ));
    let dbtxn = database.begin().unwrap();
    dbtxn.on(&a).unwrap().set([20], 1, 5).unwrap();
    let Err(DatabaseCommitError::Misuse(dbtxn)) = dbtxn.try_commit() else { panic!("a commit came between") };
    assert_eq!((1, 1), (prepared.number(), prepared.try_install().unwrap()));
    assert_eq!(2, dbtxn.commit().unwrap()); // of another row
    let mut txn = a.begin().unwrap();
    txn.delete([20]).unwrap();
    drop(txn.prepare().unwrap());
    drop(a);
    database.close().unwrap();
    assert_eq!(vec![5, 5], qtys(&opened(&folder).0.table("a").unwrap()));
}

const ACCOUNTS: i64 = 20;
const MONEY: i64 = 3 * ACCOUNTS * 100;

/// Moves a coin from an account of one bank to one of another, and answers whether it did.
fn is_moved(database: &Database, banks: [&Table; 2], accounts: [i64; 2]) -> bool {
    let dbtxn = database.begin().unwrap();
    for (bank, account, more) in [(banks[0], accounts[0], -1), (banks[1], accounts[1], 1)] {
        let mut txn = dbtxn.on(bank).unwrap();
        let money = txn.get([account]).unwrap().unwrap()[1].as_int().unwrap();
        txn.set([account], 1, money + more).unwrap();
    }
    match dbtxn.try_commit() {
        Ok(_) => true,
        Err(DatabaseCommitError::Conflict(_)) => false,
        Err(other) => panic!("{other}"),
    }
}

/// All money, as a database transaction sees it.
fn money(database: &Database, banks: [&Table; 3]) -> i64 {
    let dbtxn = database.begin().unwrap();
    let parts = banks.map(|bank| dbtxn.on(bank).unwrap());
    parts.iter().map(|part| part.batch(&[1], ..).unwrap().ints(0).unwrap().iter().sum::<i64>()).sum()
}

#[test]
fn money_moves_between_three_tables() {
    for sync in [SyncMode::Full, SyncMode::Normal, SyncMode::Off] {
        let folder = Folder::new(&format!("money-{sync:?}"));
        let options = DatabaseOptions { sync, fold_entries: 64, checkpoint_entries: 100, ..DatabaseOptions::default() };
        let (database, _) = Database::open(&folder, &options).unwrap();
        let accounts: String = (0..ACCOUNTS).map(|id| format!("{id},100\n")).collect();
        let names = ["north", "south", "west"];
        let csv = format!("id:int:key,money:int\n{accounts}");
        let banks = names.map(|name| database.create(name, &csv, &Options::default()).unwrap());
        let moved = AtomicU64::new(0);
        thread::scope(|threads| {
            for thread in 0..4 {
                let (database, banks, moved) = (&database, &banks, &moved);
                threads.spawn(move || {
                    for number in 0..100 {
                        let (from, to) = ((thread + number) % 3, (thread + number + 1 + number / 3 % 2) % 3);
                        let accounts = [number as i64 * 7 % ACCOUNTS, (number + thread) as i64 * 3 % ACCOUNTS];
                        let moves = is_moved(database, [&banks[from], &banks[to]], accounts);
                        moved.fetch_add(u64::from(moves), Ordering::Relaxed);
                        assert_eq!(MONEY, money(database, banks.each_ref().map(|bank| &**bank)));
                    }
                });
            }
        });
        drop(banks);
        database.close().unwrap();
        let (database, report) = opened(&folder);
        assert_eq!(moved.into_inner(), report.commits);
        let banks = names.map(|name| database.table(name).unwrap());
        assert_eq!(MONEY, money(&database, banks.each_ref().map(|bank| &**bank)));
    }
}

#[test]
fn sessions_keep_their_database_their_tables_and_their_works() {
    struct Session {
        items: Table,
        open: DatabaseTransaction<'static>,
        database: Arc<Database>,
    }
    let folder = Folder::new("sessions");
    let database = Arc::new(made(&folder, &["items"]));
    let sessions = (0..4).map(|_| Session {
        items: database.table_shared("items").unwrap(),
        open: database.begin_shared().unwrap(),
        database: Arc::clone(&database),
    });
    let sessions: Vec<Session> = sessions.collect();
    let threads = sessions.into_iter().enumerate().map(|(number, Session { items, open, database })| {
        thread::spawn(move || {
            open.on(&items).unwrap().insert([number as i64, 7]).unwrap();
            drop(database);
            open.commit().unwrap();
        })
    });
    for thread in threads.collect::<Vec<_>>() {
        thread.join().unwrap();
    }
    let items = Arc::new(database.table_shared("items").unwrap());
    drop(database);
    assert_eq!(ErrorKind::Locked, refused(&folder).error); // the table keeps it
    let txn = items.begin_shared().unwrap();
    drop(items);
    assert_eq!(6, txn.rows());
    drop(txn);
    assert_eq!(4, opened(&folder).1.commits);
}
