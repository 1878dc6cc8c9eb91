//! The row runs of a table, for columns that stay with the caller and are merged by position.
use crate::ffi;
use crate::transaction::Open;
use std::iter::FusedIterator;

/// How many row runs the library is asked for at a time.
const STRETCHES: usize = 64;

/// Consecutive rows from one source. Positions and SIDs count from 0.
#[derive(Clone, Copy, Debug, PartialEq, Eq, Hash)]
pub enum RowRun {
    /// Stable rows as they are.
    Stable {
        /// Where the first one is in the stable table.
        sid: u64,
        /// How many there are.
        rows: u64,
        /// Where the first one is in the transaction's table.
        position: u64,
    },
    /// A stable row with columns that layers change: [`Transaction::changed`](crate::Transaction::changed) says which.
    Changed {
        /// Where it is in the stable table.
        sid: u64,
        /// Where it is in the transaction's table.
        position: u64,
    },
    /// A row that a layer inserts: all of its cells are its own.
    Inserted {
        /// Where it is in the transaction's table.
        position: u64,
    },
}

impl RowRun {
    /// The position of its first row.
    pub fn position(&self) -> u64 {
        match self {
            RowRun::Stable { position, .. } | RowRun::Changed { position, .. } | RowRun::Inserted { position } => {
                *position
            }
        }
    }

    /// How many rows it has.
    pub fn rows(&self) -> u64 {
        match self {
            RowRun::Stable { rows, .. } => *rows,
            RowRun::Changed { .. } | RowRun::Inserted { .. } => 1,
        }
    }

    /// A row run that the library has handed out.
    fn of(row_run: &ffi::RowRun) -> RowRun {
        let ffi::RowRun { position, rows, sid, source } = *row_run;
        match source {
            ffi::STABLE => RowRun::Stable { sid, rows, position },
            ffi::CHANGED => RowRun::Changed { sid, position },
            ffi::INSERTED => RowRun::Inserted { position },
            source => unreachable!("pdt.h has no source {source}"),
        }
    }
}

/// The row runs of a range of positions, in order: see [`Transaction::row_runs`](crate::Transaction::row_runs).
#[must_use = "row runs are read as they are asked for"]
#[derive(Debug)]
pub struct RowRuns<'t> {
    txn: &'t Open<'t>,
    /// The first position without a row run that has been handed out, and the end of the range.
    at: u64,
    to: u64,
    room: [ffi::RowRun; STRETCHES],
    /// Those of the room that the library has filled, and that are still to be handed out.
    filled: std::ops::Range<usize>,
}

impl<'t> RowRuns<'t> {
    /// The row runs from one position of the table up to another.
    pub(crate) fn over(txn: &'t Open<'_>, from: u64, to: u64) -> RowRuns<'t> {
        RowRuns { txn, at: from, to, room: [ffi::RowRun::default(); STRETCHES], filled: 0..0 }
    }

    /// Asks for the next ones.
    fn fill(&mut self) {
        let mut count = STRETCHES;
        // SAFETY: the transaction is open, and there is room for as many row runs as `count` says.
        let code = unsafe { ffi::pdt_row_runs(self.txn.raw(), self.at, self.to, self.room.as_mut_ptr(), &mut count) };
        debug_assert_eq!(ffi::OK, code);
        assert!(count > 0, "each row between two positions of a table is in a row run");
        self.filled = 0..count;
    }
}

impl Iterator for RowRuns<'_> {
    type Item = RowRun;

    fn next(&mut self) -> Option<RowRun> {
        if self.at >= self.to {
            return None;
        }
        if self.filled.is_empty() {
            self.fill();
        }
        let row_run = RowRun::of(&self.room[self.filled.next()?]);
        self.at += row_run.rows();
        Some(row_run)
    }
}

impl FusedIterator for RowRuns<'_> {}
