//! A commit in two parts, with a log that a program writes in between, and a checkpoint that is written while others
//! commit.
use narthexmace::{CommitError, ErrorKind, Options, Table, Transaction};
use std::fs;
use std::path::PathBuf;
use std::sync::mpsc;
use std::thread;
use std::time::Duration;

const TABLE: &str = "id:int:key,qty:int\n10,1\n20,2\n30,3\n";

/// An empty folder, which goes when it is dropped.
struct Folder(PathBuf);

impl Folder {
    fn new(name: &str) -> Folder {
        let path = std::env::temp_dir().join(format!("narthexmace-{}-parts-{name}", std::process::id()));
        fs::create_dir(&path).unwrap();
        Folder(path)
    }
}

impl Drop for Folder {
    fn drop(&mut self) {
        fs::remove_dir_all(&self.0).unwrap();
    }
}

fn opened() -> Table {
    Table::open(TABLE, &Options::default()).unwrap()
}

fn setting(table: &Table, key: i64, qty: i64) -> Transaction<'_> {
    let mut txn = table.begin().unwrap();
    txn.set([key], 1, qty).unwrap();
    txn
}

/// The quantities of the newest table.
fn newest(table: &Table) -> Vec<i64> {
    let txn = table.begin().unwrap();
    txn.batch(&[1], ..).unwrap().ints(0).unwrap().iter().collect()
}

#[test]
fn what_is_prepared_is_done_or_given_up() {
    let table = opened();
    let prepared = setting(&table, 10, 5).prepare().unwrap();
    assert_eq!(1, prepared.number());
    assert_eq!(Some(5), prepared.transaction().get([10]).unwrap().unwrap()[1].as_int());
    assert_eq!(0, table.sizes().commits);
    let mut again = prepared.give_up();
    assert_eq!(vec![1, 2, 3], newest(&table));
    again.set([20], 1, 7).unwrap();
    assert_eq!(1, again.prepare().unwrap().install());
    assert_eq!(vec![5, 7, 3], newest(&table));
    drop(setting(&table, 30, 9).prepare().unwrap());
    assert_eq!(vec![5, 7, 3], newest(&table));
    assert_eq!((1, 0), (table.sizes().commits, table.sizes().open_transactions));
}

#[test]
fn what_a_commit_refuses_a_prepare_refuses() {
    let table = Table::open(TABLE, &Options { recent: 1, row_limit: 3, ..Options::default() }).unwrap();
    let (late, older) = (setting(&table, 10, 6), setting(&table, 30, 6));
    setting(&table, 10, 5).commit().unwrap();
    assert!(matches!(late.try_prepare(), Err(CommitError::Conflict(1))));
    let (mut one, mut two) = (table.begin().unwrap(), table.begin().unwrap());
    one.delete([20]).unwrap();
    one.insert([40, 4]).unwrap();
    two.delete([30]).unwrap();
    two.insert([50, 4]).unwrap();
    one.commit().unwrap();
    assert!(matches!(older.try_prepare(), Err(CommitError::TooOld(2))));
    two.prepare().unwrap().install();
    assert_eq!(0, table.sizes().open_transactions);
}

#[test]
fn a_thread_prepares_one_commit_at_a_time() {
    let table = opened();
    let (other, folder) = (setting(&table, 20, 6), Folder::new("one"));
    let prepared = setting(&table, 10, 5).prepare().unwrap();
    let Err(CommitError::Misuse(other)) = other.try_prepare() else { panic!("two commits are prepared") };
    let Err(CommitError::Misuse(other)) = other.try_commit() else { panic!("a commit came between") };
    assert_eq!(Err(ErrorKind::Misuse.into()), table.fold());
    assert_eq!(Some(ErrorKind::Misuse.into()), table.changes(0).err());
    assert_eq!(vec![1, 2, 3], newest(&table)); // a begin is of the table as it was, and so is a pin
    assert_eq!(0, table.pin().unwrap().number());
    assert_eq!((0, 0), (table.counts().commits, table.sizes().commits));
    assert_eq!(None, table.wait(0, Duration::ZERO));
    assert_eq!(Err(ErrorKind::Misuse.into()), table.checkpoint(&folder.0));
    assert_eq!(Some(ErrorKind::Misuse.into()), table.begin_checkpoint().err());
    prepared.install();
    assert_eq!(2, other.commit().unwrap());
    assert_eq!(vec![5, 6, 3], newest(&table));
}

#[test]
fn a_begin_of_another_thread_does_not_wait_and_sees_the_table_as_it_was() {
    let table = opened();
    let (tells, told) = mpsc::channel();
    let prepared = setting(&table, 10, 5).prepare().unwrap();
    thread::scope(|threads| {
        threads.spawn(|| tells.send((newest(&table), table.pin().unwrap().number())).unwrap());
        assert_eq!(Ok((vec![1, 2, 3], 0)), told.recv_timeout(Duration::from_secs(60)));
        prepared.install();
    });
    assert_eq!(vec![5, 2, 3], newest(&table));
}

#[test]
fn a_transaction_that_changes_nothing_takes_no_number_and_no_lock() {
    let table = opened();
    setting(&table, 10, 5).commit().unwrap();
    let mut idle = table.begin().unwrap();
    idle.insert([40, 4]).unwrap();
    idle.delete([40]).unwrap();
    let prepared = idle.prepare().unwrap();
    assert_eq!(1, prepared.number());
    assert_eq!(2, setting(&table, 20, 6).commit().unwrap());
    let again = prepared.give_up().prepare().unwrap();
    assert_eq!(Ok(()), table.fold());
    assert_eq!(1, again.install());
    assert_eq!((2, 0), (table.sizes().commits, table.sizes().open_transactions));
    assert_eq!(2, table.counts().commits);
}

/// A log of commits: the number, and what was set.
type Log = Vec<(u64, i64, i64)>;

/// Commits with a line of the log for each, and stops between the parts of the last one, before its line or after it.
fn run_until(table: &Table, log: &mut Log, is_logged: bool) {
    for row in 1..=3 {
        let prepared = setting(table, 10 * row, 100 * row).prepare().unwrap();
        if row < 3 || is_logged {
            log.push((prepared.number(), 10 * row, 100 * row));
        }
        if row < 3 {
            prepared.install();
        } // else the program stops here
    }
}

#[test]
fn a_program_that_stops_between_the_parts_has_what_it_logged() {
    for (is_logged, wanted) in [(false, vec![100, 200, 3]), (true, vec![100, 200, 300])] {
        let (table, folder, mut log) = (opened(), Folder::new(&format!("log-{is_logged}")), Log::new());
        table.checkpoint(&folder.0).unwrap();
        run_until(&table, &mut log, is_logged);
        assert_eq!(vec![100, 200, 3], newest(&table)); // nothing of the last one was installed
        drop(table);
        let again = Table::recover(&folder.0, &Options::default()).unwrap();
        for (number, key, qty) in log {
            assert_eq!(number, setting(&again, key, qty).commit().unwrap());
        }
        assert_eq!(wanted, newest(&again));
    }
}

#[test]
fn others_commit_while_a_checkpoint_is_written() {
    let (table, folder) = (opened(), Folder::new("written"));
    setting(&table, 10, 5).commit().unwrap();
    let open = setting(&table, 30, 8);
    let mut checkpoint = table.begin_checkpoint().unwrap();
    assert_eq!(1, checkpoint.number());
    assert_eq!(Err(ErrorKind::Misuse.into()), checkpoint.install());
    thread::scope(|threads| {
        threads.spawn(|| (1..=200).for_each(|qty| assert!(setting(&table, 20, qty).commit().is_ok())));
        threads.spawn(|| checkpoint.write(&folder.0).unwrap());
    });
    assert_eq!(202, open.commit().unwrap());
    checkpoint.install().unwrap();
    assert_eq!(
        (Err(ErrorKind::Misuse.into()), Err(ErrorKind::Misuse.into())),
        (checkpoint.install(), checkpoint.write(&folder.0))
    );
    drop(checkpoint);
    let sizes = table.sizes();
    assert_eq!((202, 2, 0), (sizes.commits, sizes.write_entries, sizes.read_entries));
    assert_eq!(vec![5, 200, 8], newest(&table));
    let again = Table::recover(&folder.0, &Options::default()).unwrap();
    assert_eq!(vec![5, 2, 3], newest(&again));
}

#[test]
fn a_fold_or_another_checkpoint_supersedes_a_checkpoint() {
    let table = opened();
    let (first, second) = (Folder::new("first"), Folder::new("second"));
    setting(&table, 10, 5).commit().unwrap();
    let mut old = table.begin_checkpoint().unwrap();
    old.write(&first.0).unwrap();
    let mut new = table.begin_checkpoint().unwrap();
    assert_eq!(Err(ErrorKind::Superseded.into()), old.install());
    setting(&table, 20, 6).commit().unwrap();
    new.write(&second.0).unwrap();
    table.fold().unwrap();
    assert_eq!(Err(ErrorKind::Superseded.into()), new.install());
    assert_eq!(vec![5, 6, 3], newest(&table));
    for folder in [&first, &second] {
        assert_eq!(vec![5, 2, 3], newest(&Table::recover(&folder.0, &Options::default()).unwrap()));
    }
}
