//! The cases: each asks one question, and answers it by a table.
mod begins;
mod booleans;
mod commits;
mod durable;
mod files;
mod folds;
mod key_kinds;
mod keys;
mod large_writes;
mod loads;
mod lookups;
mod maintenance;
mod memory;
mod openings;
mod pin_scans;
mod pins;
mod prepared;
mod rebases;
mod savepoints;
mod scans;
mod sql;
mod sql_transactions;
mod syncs;
mod tails;
mod texts;
mod transactions;
mod untouched;
mod wide;
mod writes;

use crate::figures::Figures;
use rebases::Rebase;

/// How large the tables are, and how often things are done.
pub struct Size {
    pub word: &'static str,
    /// The rows of a table.
    pub rows: usize,
    /// The rows of tables of several sizes.
    pub tables: &'static [usize],
    /// The entries of a Write-PDT.
    pub entries: &'static [usize],
    /// The entries that are folded, and the entries of the Read-PDT into which they go.
    pub folds: &'static [(usize, usize)],
    /// What stands between a transaction's begin and its commit.
    pub rebases: &'static [Rebase],
    /// The calls of a turn.
    pub calls: usize,
    /// The calls of a turn where threads make them.
    pub thread_calls: usize,
    /// The commits of a turn where each waits for the disk.
    pub durable: usize,
    /// The commits of a journal.
    pub journal: usize,
    /// The turns of each way.
    pub rounds: usize,
}

impl Size {
    /// As a person waits for: some minutes.
    pub const FULL: Size = Size {
        word: "full",
        rows: 1_000_000,
        tables: &[1_000, 10_000, 100_000, 1_000_000],
        entries: &[100, 1_000, 10_000, 100_000, 300_000],
        folds: &[(10, 100_000), (1_000, 100_000), (10_000, 100_000), (100_000, 100_000), (100_000, 10)],
        rebases: &[
            Rebase { own: 10, commits: 1, each: 1_000 },
            Rebase { own: 10, commits: 1, each: 100_000 },
            Rebase { own: 10_000, commits: 1, each: 100_000 },
            Rebase { own: 100_000, commits: 1, each: 100_000 },
            Rebase { own: 30_000, commits: 10_000, each: 1 },
            Rebase { own: 100_000, commits: 60_000, each: 1 },
        ],
        calls: 10_000,
        thread_calls: 200_000,
        durable: 800,
        journal: 100_000,
        rounds: 7,
    };

    /// As a check takes: some seconds, in which each answer is looked at and no time says much.
    pub const SMALL: Size = Size {
        word: "small",
        rows: 20_000,
        tables: &[100, 5_000],
        entries: &[100, 2_000],
        folds: &[(10, 1_000), (500, 1_000), (1_000, 10)],
        rebases: &[Rebase { own: 10, commits: 1, each: 1_000 }, Rebase { own: 300, commits: 100, each: 1 }],
        calls: 200,
        thread_calls: 2_000,
        durable: 64,
        journal: 500,
        rounds: 2,
    };
}

/// The shares of the rows of a table that are updated.
const SHARES: [f64; 3] = [0.1, 1.0, 10.0];

/// So many percent of a number of rows.
fn percent(share: f64, rows: usize) -> usize {
    (rows as f64 * share / 100.0).round() as usize
}

/// A case by its name.
pub struct Case {
    pub name: &'static str,
    pub run: fn(&Size) -> Figures,
}

pub const CASES: [Case; 29] = [
    Case { name: scans::NAME, run: scans::run },
    Case { name: untouched::NAME, run: untouched::run },
    Case { name: keys::NAME, run: keys::run },
    Case { name: booleans::NAME, run: booleans::run },
    Case { name: texts::NAME, run: texts::run },
    Case { name: lookups::NAME, run: lookups::run },
    Case { name: writes::NAME, run: writes::run },
    Case { name: key_kinds::NAME, run: key_kinds::run },
    Case { name: wide::NAME, run: wide::run },
    Case { name: commits::NAME, run: commits::run },
    Case { name: large_writes::NAME, run: large_writes::run },
    Case { name: savepoints::NAME, run: savepoints::run },
    Case { name: begins::NAME, run: begins::run },
    Case { name: prepared::NAME, run: prepared::run },
    Case { name: pins::NAME, run: pins::run },
    Case { name: pin_scans::NAME, run: pin_scans::run },
    Case { name: transactions::NAME, run: transactions::run },
    Case { name: tails::NAME, run: tails::run },
    Case { name: folds::NAME, run: folds::run },
    Case { name: rebases::NAME, run: rebases::run },
    Case { name: files::NAME, run: files::run },
    Case { name: durable::NAME, run: durable::run },
    Case { name: syncs::NAME, run: syncs::run },
    Case { name: openings::NAME, run: openings::run },
    Case { name: maintenance::NAME, run: maintenance::run },
    Case { name: loads::NAME, run: loads::run },
    Case { name: memory::NAME, run: memory::run },
    Case { name: sql::NAME, run: sql::run },
    Case { name: sql_transactions::NAME, run: sql_transactions::run },
];
