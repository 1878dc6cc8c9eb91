//! The savepoints of a transaction.
use crate::{Error, ErrorKind};
use std::sync::atomic::{AtomicU64, Ordering};

/// A place in a transaction's writes, to which [`Transaction::rollback_to`](crate::Transaction::rollback_to) rolls
/// back.
#[derive(Debug, PartialEq, Eq)]
pub struct Savepoint {
    level: usize,
    number: u64,
}

/// The savepoints that are set, by their levels: the number of each, which no other savepoint of the program has.
#[derive(Default)]
pub struct Savepoints(Vec<u64>);

impl Savepoints {
    /// Makes room for one savepoint more.
    pub(crate) fn reserve(&mut self) -> Result<(), Error> {
        Ok(self.0.try_reserve(1)?)
    }

    /// The savepoint of a level that the library has just made.
    pub(crate) fn push(&mut self, level: usize) -> Savepoint {
        static NUMBERS: AtomicU64 = AtomicU64::new(0);
        debug_assert_eq!(self.0.len(), level);
        let number = NUMBERS.fetch_add(1, Ordering::Relaxed);
        self.0.push(number);
        Savepoint { level, number }
    }

    /// The level of a savepoint, if it is one of these.
    pub(crate) fn level(&self, savepoint: &Savepoint) -> Result<usize, Error> {
        match self.0.get(savepoint.level) {
            Some(number) if *number == savepoint.number => Ok(savepoint.level),
            _ => Err(Error::with(ErrorKind::Missing, format_args!("the savepoint is gone"))),
        }
    }

    /// Drops all savepoints but the first `count`.
    pub(crate) fn truncate(&mut self, count: usize) {
        self.0.truncate(count);
    }
}
