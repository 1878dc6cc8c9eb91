//! Databases: what lasts, what is told of damage, and what is refused.
#[path = "fixtures/databases.rs"]
mod fixtures;

use fixtures::{Folder, ITEMS, made, opened, qtys, refused, set};
use narthexmace::{
    Cell, ColumnValues, ColumnsError, CommitError, Database, DatabaseOptions, Error, ErrorKind, OpenError, Options,
};
use std::path::Path;
use std::sync::Arc;
use std::sync::atomic::{AtomicBool, Ordering};
use std::time::Duration;
use std::{fs, thread};

#[test]
fn what_was_committed_is_there_again() {
    let folder = Folder::new("lasts");
    let database = made(&folder, &["a", "ö ✓"]);
    let (a, b) = (database.table("a").unwrap(), database.table("ö ✓").unwrap());
    assert_eq!((1, 2), (set(&a, 10, 8), set(&b, 20, 9)));
    assert_eq!((Some(1), Some(2)), (a.wait(0, Duration::ZERO), b.wait(0, Duration::ZERO)));
    let entries = b.changes_after(0).map(|change| change.map(|(number, layer)| (number, layer.len())));
    assert_eq!(Ok(vec![(1, 0), (2, 1)]), entries.collect()); // the first one changed the other table
    drop((a, b));
    database.close().unwrap();
    let (database, report) = opened(&folder);
    assert_eq!((2, 2, 0), (report.commits, report.replayed, report.torn_bytes));
    assert_eq!(vec!["a", "ö ✓"], database.names().unwrap());
    assert_eq!(vec![8, 2], qtys(&database.table("a").unwrap()));
    assert_eq!(vec![7, 9], qtys(&database.table("ö ✓").unwrap()));
    assert_eq!(3, set(&database.table("a").unwrap(), 10, 1)); // numbers go on
}

#[test]
fn tables_are_made_over_texts_and_columns() {
    let folder = Folder::new("made");
    let database = made(&folder, &[]);
    let all = Options::default();
    let empty = database.create("empty", "id:int:key,name:text\n", &all).unwrap();
    assert_eq!((0, "name"), (empty.begin().unwrap().rows(), empty.columns()[1].name.as_str()));
    let (id, ok) = (ColumnValues::Ints(&[1, 2]), ColumnValues::Bools(&[true, false]));
    let columns = database.create_from_columns("columns", &[("id", id), ("ok", ok)], 1, &all).unwrap();
    let last = columns.begin().unwrap().row_at(1).unwrap().unwrap();
    assert_eq!([Cell::Int(2), Cell::Bool(false)], last[..]);
    let refused = |name: &str, csv: &str, options: &Options| database.create(name, csv, options).unwrap_err();
    assert_eq!(OpenError::Other(ErrorKind::Exists.into()), refused("empty", ITEMS, &all));
    assert!(matches!(refused("x", "id:int:key\nx\n", &all), OpenError::BadTable(fault) if fault.record == 2));
    assert_eq!(OpenError::Other(ErrorKind::TooManyRows.into()), refused("x", ITEMS, &Options { row_limit: 1, ..all }));
    for name in ["", "a\0b", "a\nb", "\x7f", &"x".repeat(65)] {
        assert_eq!(OpenError::Other(ErrorKind::TypeMismatch.into()), refused(name, ITEMS, &all));
        assert_eq!(Some(ErrorKind::Missing.into()), database.table(name).err());
        assert_eq!(Err(ErrorKind::Missing.into()), database.drop_table(name));
        let twice = database.create_from_columns(name, &[("id", ColumnValues::Ints(&[1, 1]))], 1, &all);
        assert_eq!(Some(ColumnsError::Other(ErrorKind::TypeMismatch.into())), twice.err());
    }
    let twice = database.create_from_columns("x", &[("id", ColumnValues::Ints(&[1, 1]))], 1, &all);
    assert_eq!(Some(ColumnsError::NotAscending { row: 1, error: ErrorKind::NotAscending.into() }), twice.err());
    let longest = "x".repeat(64);
    database.create(&longest, ITEMS, &all).unwrap();
    assert_eq!(vec!["empty", "columns", &longest], database.names().unwrap());
    assert_eq!(3, database.counts().tables);
}

#[test]
fn the_options_of_a_table_last() {
    let folder = Folder::new("options");
    let (database, _) = opened(&folder);
    database.create("few", ITEMS, &Options { row_limit: 2, ..Options::default() }).unwrap();
    drop(database);
    let (database, _) = opened(&folder);
    let few = database.table("few").unwrap();
    assert_eq!(Err(ErrorKind::Full.into()), few.begin().unwrap().insert([30, 1]));
}

#[test]
fn one_opening_at_a_time_has_a_database() {
    let folder = Folder::new("locked");
    let database = made(&folder, &["a"]);
    let again = refused(&folder);
    assert_eq!((ErrorKind::Locked, None), (again.error.kind(), again.commit));
    assert!(again.to_string().starts_with("the database is open already"), "{again}");
    drop(database);
    assert_eq!(0, opened(&folder).1.commits);
}

#[test]
fn a_table_is_dropped_once_nobody_has_it() {
    let folder = Folder::new("drops");
    let database = Arc::new(made(&folder, &["a", "b", "c"]));
    let table = database.table("a").unwrap();
    assert_eq!(Err(ErrorKind::Misuse.into()), database.drop_table("a"));
    let (second, shared) = (database.table("a").unwrap(), database.table_shared("a").unwrap());
    drop((table, second));
    assert_eq!(Err(ErrorKind::Misuse.into()), database.drop_table("a"));
    let shared = Arc::new(shared);
    let txn = shared.begin_shared().unwrap();
    drop(shared);
    assert_eq!(Err(ErrorKind::Misuse.into()), database.drop_table("a"));
    drop(txn);
    let dbtxn = database.begin().unwrap();
    assert_eq!(Err(ErrorKind::Misuse.into()), database.drop_table("a")); // the database transaction may come to it
    drop(dbtxn);
    assert_eq!(Ok(()), database.drop_table("a"));
    assert_eq!(Err(ErrorKind::Missing.into()), database.drop_table("a"));
    assert_eq!(Some(ErrorKind::Missing.into()), database.table("a").err());
    assert_eq!(vec!["b", "c"], database.names().unwrap());
    database.create("a", "id:int:key\n", &Options::default()).unwrap();
    drop(database);
    let (database, _) = opened(&folder);
    assert_eq!(vec!["b", "c", "a"], database.names().unwrap());
    assert_eq!(1, database.table("a").unwrap().columns().len());
}

#[test]
fn threads_take_and_drop_a_table() {
    let folder = Folder::new("taken");
    let database = made(&folder, &["kept"]);
    thread::scope(|threads| {
        for _ in 0..3 {
            threads.spawn(|| {
                for _ in 0..300 {
                    match database.table("a") {
                        Ok(table) => assert_eq!(2, table.begin().unwrap().rows()),
                        Err(error) => assert_eq!(ErrorKind::Missing, error),
                    }
                    assert_eq!("kept", database.names().unwrap()[0]);
                    database.begin().unwrap().commit().unwrap();
                }
            });
        }
        for _ in 0..20 {
            database.create("a", ITEMS, &Options::default()).unwrap();
            while let Err(error) = database.drop_table("a") {
                assert_eq!(ErrorKind::Misuse, error);
                thread::yield_now();
            }
        }
    });
    assert_eq!(vec!["kept"], database.names().unwrap());
}

#[test]
fn a_name_comes_once_where_tables_move_meanwhile() {
    let folder = Folder::new("moving");
    let all = ["t0", "t1", "t2", "t3", "t4", "kept"];
    let database = made(&folder, &all);
    let done = AtomicBool::new(false);
    thread::scope(|threads| {
        threads.spawn(|| {
            while !done.load(Ordering::Relaxed) {
                let names = database.names().unwrap();
                let times = |name: &str| names.iter().filter(|it| *it == name).count();
                assert_eq!(1, times("kept"));
                assert!(all.iter().all(|name| times(name) <= 1), "{names:?}");
            }
        });
        for name in all[..5].iter().cycle().take(40) {
            database.drop_table(name).unwrap();
            database.create(name, ITEMS, &Options::default()).unwrap();
        }
        done.store(true, Ordering::Relaxed);
    });
}

/// Five commits over one table, and nothing made of them: the journal has them all.
fn whole(folder: &Folder) {
    let database = made(folder, &["items"]);
    let items = database.table("items").unwrap();
    for qty in 0..5 {
        set(&items, 10, qty);
    }
}

fn copied(from: &Folder, to: &Folder) {
    fn copy(from: &Path, to: &Path) {
        fs::create_dir(to).unwrap();
        for entry in fs::read_dir(from).unwrap() {
            let path = entry.unwrap().path();
            let place = to.join(path.file_name().unwrap());
            if path.is_dir() {
                copy(&path, &place);
            } else {
                fs::copy(&path, &place).unwrap();
            }
        }
    }
    copy(&from.0, &to.0);
}

/// Flips a bit of a file.
fn damage(folder: &Folder, file: &str, at: usize) {
    let mut bytes = fs::read(folder.0.join(file)).unwrap();
    bytes[at] ^= 1;
    fs::write(folder.0.join(file), bytes).unwrap();
}

/// An error, the file or the commit that is reported with it, and the damage to a folder that causes it.
type Damage = (ErrorKind, Option<&'static str>, Option<u64>, fn(&Folder));

#[test]
fn damage_is_told_with_its_file_or_its_commit() {
    let cases: [Damage; 6] = [
        (ErrorKind::Corrupt, Some("image-1-1/column-1.pdt"), None, |folder| {
            damage(folder, "image-1-1/column-1.pdt", 3)
        }),
        (ErrorKind::Corrupt, Some("manifest"), None, |folder| damage(folder, "manifest", 30)),
        (ErrorKind::Corrupt, None, Some(1), |folder| damage(folder, "journal-1", 36 + 30)),
        (ErrorKind::Incomplete, Some("image-1-1/column-0.pdt"), None, |folder| {
            fs::remove_file(folder.0.join("image-1-1/column-0.pdt")).unwrap();
        }),
        (ErrorKind::Incomplete, Some("journal"), None, |folder| fs::remove_file(folder.0.join("journal-1")).unwrap()),
        (ErrorKind::Mismatch, Some("journal-1"), None, |folder| {
            let other = Folder::new("stranger");
            whole(&other);
            fs::copy(other.0.join("journal-1"), folder.0.join("journal-1")).unwrap();
        }),
    ];
    for (number, (error, file, commit, harm)) in cases.into_iter().enumerate() {
        let folder = Folder::new(&format!("damaged-{number}"));
        whole(&folder);
        harm(&folder);
        let told = refused(&folder);
        assert_eq!((error, file, commit), (told.error.kind(), told.file.as_deref(), told.commit), "case {number}");
        let place = file.map_or_else(|| "commit 1".to_string(), str::to_string);
        assert_eq!(format!("{error}: {place}"), told.to_string());
        assert_eq!(error, Error::from(told));
    }
}

#[test]
fn what_is_torn_is_cut_off() {
    let (running, folder) = (Folder::new("running"), Folder::new("torn"));
    let database = made(&running, &["items"]);
    let items = database.table("items").unwrap();
    for qty in 0..5 {
        set(&items, 10, qty);
    }
    copied(&running, &folder); // as a power failure leaves it: no close has noted the last commit
    let last = fs::metadata(folder.0.join("journal-1")).unwrap().len() - 1;
    damage(&folder, "journal-1", last as usize);
    let (database, report) = opened(&folder);
    assert_eq!((4, 4), (report.commits, report.replayed));
    assert!(report.torn_bytes > 0);
    assert_eq!(vec![3, 2], qtys(&database.table("items").unwrap()));
}

#[test]
fn openings_are_refused() {
    let folder = Folder::new("refused");
    let nowhere = Database::open(folder.0.join("a/b"), &DatabaseOptions::default()).unwrap_err();
    assert_eq!(ErrorKind::Io { errno: 2 }, nowhere.error);
    let all = DatabaseOptions::default();
    let limits = [
        DatabaseOptions { fold_entries: 0, ..all },
        DatabaseOptions { checkpoint_entries: 0, ..all },
        DatabaseOptions { journal_bytes: 0, ..all },
        DatabaseOptions { kept_bytes: 0, ..all },
        DatabaseOptions { mode: 0, ..all },
        DatabaseOptions { mode: 0o1000, ..all },
    ];
    for options in limits {
        assert_eq!(ErrorKind::BadLimit, Database::open(&folder, &options).unwrap_err().error);
    }
    assert_eq!(ErrorKind::Misuse, Database::open("", &all).unwrap_err().error);
    assert!(!folder.0.exists());
}

#[test]
fn a_database_is_opened_for_reading_alone() {
    let folder = Folder::new("reading");
    drop(made(&folder, &["items"]));
    let reads = DatabaseOptions { read_only: true, ..DatabaseOptions::default() };
    let (one, _) = Database::open(&folder, &reads).unwrap();
    let (other, _) = Database::open(&folder, &reads).unwrap();
    assert_eq!(ErrorKind::Locked, Database::open(&folder, &DatabaseOptions::default()).unwrap_err().error);
    assert_eq!(Some(ErrorKind::ReadOnly.into()), one.create("more", ITEMS, &Options::default()).err().map(Error::from));
    assert_eq!(Err(ErrorKind::ReadOnly.into()), one.drop_table("items"));
    let items = other.table("items").unwrap();
    let mut txn = items.begin().unwrap();
    txn.insert([77, 1]).unwrap();
    let Err(CommitError::ReadOnly(txn)) = txn.try_commit() else { panic!("a commit is written") };
    assert!(txn.get([77]).unwrap().is_some()); // it is still open
    let nowhere = Folder::new("nothing-to-read");
    assert_eq!(ErrorKind::Missing, Database::open(&nowhere, &reads).unwrap_err().error);
    assert!(!nowhere.0.exists());
}

#[test]
fn files_are_made_by_a_mode() {
    use std::os::unix::fs::PermissionsExt;
    let folder = Folder::new("mode");
    let options = DatabaseOptions { mode: 0o600, ..DatabaseOptions::default() };
    drop(Database::open(&folder, &options).unwrap());
    let mode = |file: &str| folder.0.join(file).metadata().unwrap().permissions().mode() & 0o777;
    assert_eq!((0o700, 0o600, 0o600), (mode("."), mode("manifest"), mode("journal-1")));
}

#[test]
fn the_upkeep_folds_and_makes_images() {
    let folder = Folder::new("maintenance");
    let few =
        DatabaseOptions { maintenance: false, fold_entries: 4, checkpoint_entries: 8, ..DatabaseOptions::default() };
    let (database, _) = Database::open(&folder, &few).unwrap();
    let items = database.create("items", ITEMS, &Options::default()).unwrap();
    for id in 100..150 {
        let mut txn = items.begin().unwrap();
        txn.insert([id, 1]).unwrap();
        txn.commit().unwrap();
        database.maintain().unwrap();
    }
    let counts = database.counts();
    assert_eq!((50, 50, 1, 0), (counts.commits, counts.durable, counts.tables, counts.faults));
    assert!(counts.folds > 0 && counts.checkpoints > 1 && counts.batches == 50 && counts.syncs >= 50, "{counts:?}");
    assert!(counts.journal_files > 0 && counts.journal_bytes > 0, "{counts:?}");
    drop(items);
    drop(database);
    let (database, report) = opened(&folder);
    assert!(report.replayed < 50);
    assert_eq!((50, 52), (report.commits, database.table("items").unwrap().begin().unwrap().rows()));
}

#[test]
fn what_is_forgotten_keeps_a_database_open() {
    let folder = Folder::new("forgotten");
    let database = made(&folder, &["a"]);
    std::mem::forget(database.begin().unwrap());
    assert_eq!(ErrorKind::Misuse, database.close().unwrap_err().error);
    assert_eq!(ErrorKind::Locked, refused(&folder).error);
}
