//! What a table counts.
use crate::ffi;
use std::time::Duration;

/// A table's counters since its opening, and what it retains now: see [`Table::counts`](crate::Table::counts).
#[derive(Clone, Copy, Debug, PartialEq, Eq)]
#[non_exhaustive]
pub struct Counts {
    /// Transactions begun.
    pub begins: u64,
    /// Transactions committed that changed something.
    pub commits: u64,
    /// Commits refused with [`Conflict`](crate::CommitError::Conflict).
    pub conflicts: u64,
    /// Commits refused with [`TooOld`](crate::CommitError::TooOld).
    pub too_old: u64,
    /// Commits refused with [`Full`](crate::CommitError::Full).
    pub full: u64,
    /// Folds by [`Table::fold`](crate::Table::fold).
    pub folds: u64,
    /// Checkpoints installed.
    pub checkpoints: u64,
    /// Checkpoints refused with [`ErrorKind::Superseded`](crate::ErrorKind::Superseded).
    pub superseded: u64,
    /// Pins that are open now.
    pub pins: usize,
    /// The version of the oldest of them.
    pub oldest_pin: Option<u64>,
    /// Commits whose changes are retained now.
    pub kept: usize,
    /// Entries of these changes.
    pub kept_entries: u64,
    /// How often a thread waited for the table's lock.
    pub waits: u64,
    /// The longest time that a call held the table's lock.
    pub longest_hold: Duration,
    /// How often a fold packed the Read-PDT for scans.
    pub packs: u64,
}

impl Counts {
    /// The counts that the library has returned.
    pub(crate) fn told(counts: &ffi::Counts) -> Counts {
        Counts {
            begins: counts.begins,
            commits: counts.commits,
            conflicts: counts.conflicts,
            too_old: counts.too_old,
            full: counts.full,
            folds: counts.folds,
            checkpoints: counts.checkpoints,
            superseded: counts.superseded,
            pins: counts.pins,
            oldest_pin: (counts.pins > 0).then_some(counts.oldest_pin),
            kept: counts.kept,
            kept_entries: counts.kept_entries,
            waits: counts.waits,
            longest_hold: Duration::from_nanos(counts.longest_hold),
            packs: counts.packs,
        }
    }
}
