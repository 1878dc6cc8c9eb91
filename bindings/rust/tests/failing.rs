//! A device that fails over a commit: what is answered to it and to those after it, and what is there again.
#[path = "fixtures/databases.rs"]
mod fixtures;

use fixtures::{Folder, ITEMS, made, opened, qtys, set};
use narthexmace::{CommitError, DatabaseCommitError, ErrorKind, OpenError, Options};
use std::ffi::c_int;
use std::fs;

const FILE_SIZE: c_int = 1; // RLIMIT_FSIZE
const UNLIMITED: u64 = u64::MAX;
const SIGXFSZ: c_int = 25;
const IGNORED: usize = 1; // SIG_IGN

unsafe extern "C" {
    fn setrlimit(resource: c_int, limits: *const [u64; 2]) -> c_int;
    fn signal(number: c_int, handler: usize) -> usize;
}

/// Lets no file of this process grow past so many bytes: a write that would is answered EFBIG.
fn limit(bytes: u64) {
    // SAFETY: the limits are there during the call, and no signal is sent where it is ignored.
    let bad = unsafe {
        signal(SIGXFSZ, IGNORED);
        setrlimit(FILE_SIZE, &[bytes, UNLIMITED])
    };
    assert_eq!(0, bad);
}

#[test]
fn a_commit_over_which_the_device_fails_is_unsure_and_none_comes_after() {
    for is_work in [false, true] {
        let folder = Folder::new(&format!("failing-{is_work}"));
        let database = made(&folder, &["a", "b"]);
        let (a, b) = (database.table("a").unwrap(), database.table("b").unwrap());
        assert_eq!(1, set(&a, 10, 8));
        let mut later = a.begin().unwrap();
        later.set([20], 1, 3).unwrap();
        let dbtxn = database.begin().unwrap();
        dbtxn.on(&b).unwrap().set([10], 1, 9).unwrap();
        let mut txn = b.begin().unwrap();
        txn.set([20], 1, 9).unwrap();
        let prepared = txn.prepare().unwrap();
        limit(fs::metadata(folder.0.join("journal-1")).unwrap().len());
        let dbtxn = if is_work {
            drop(prepared);
            assert!(matches!(dbtxn.try_commit(), Err(DatabaseCommitError::OutcomeUnknown)));
            database.begin().unwrap()
        } else {
            assert!(matches!(prepared.try_install(), Err(CommitError::OutcomeUnknown)));
            dbtxn
        };
        let Err(CommitError::WritesFailed(later)) = later.try_commit() else { panic!("no commit is taken any more") };
        assert_eq!(vec![8, 3], later.batch(&[1], ..).unwrap().ints(0).unwrap().iter().collect::<Vec<i64>>());
        let Err(CommitError::WritesFailed(later)) = later.try_prepare() else { panic!("none is prepared either") };
        dbtxn.on(&a).unwrap().set([10], 1, 1).unwrap();
        let Err(DatabaseCommitError::WritesFailed(dbtxn)) = dbtxn.try_commit() else {
            panic!("no database transaction is taken any more")
        };
        assert_eq!(2, dbtxn.on(&b).unwrap().rows()); // it is still open
        let refused = database.create("c", ITEMS, &Options::default()).err();
        assert_eq!(Some(OpenError::Other(ErrorKind::WritesFailed.into())), refused);
        assert_eq!(vec![8, 2], qtys(&a));
        drop((later, dbtxn));
        drop((a, b));
        assert_eq!(Err(ErrorKind::WritesFailed.into()), database.drop_table("a"));
        let refused = database.close().unwrap_err();
        assert_eq!((ErrorKind::OutcomeUnknown, true), (refused.error.kind(), refused.database.is_none()));
        limit(UNLIMITED);
        let (database, report) = opened(&folder);
        assert!((1..=2).contains(&report.commits), "{report:?}"); // the second one is there or not
        assert_eq!(vec![8, 2], qtys(&database.table("a").unwrap()));
        assert_eq!(report.commits + 1, set(&database.table("a").unwrap(), 10, 1));
    }
}
