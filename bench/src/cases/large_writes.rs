//! Commits of one set, by how many entries the Write-PDT has into which they go, up to one for each row.
use super::Size;
use super::commits::Base;
use crate::figures::{Figures, Line, Unit, grouped};

pub const NAME: &str = "large_writes";

pub fn run(size: &Size) -> Figures {
    let lines = [100, 10, 1].map(|part| {
        let entries = size.rows / part;
        let base = Base::of(size.rows, entries);
        let sets = base.sets(1, size.calls);
        Line::new(&[&grouped(entries)], base.times(size.rounds, &sets))
    });
    Figures {
        name: NAME,
        question: format!(
            "how long does a transaction of one set take, from begin to commit, over {} rows, of which many are set in \
             the Write-PDT?",
            grouped(size.rows)
        ),
        unit: Unit::Time,
        heads: &["entries of the Write-PDT"],
        ways: &["ours", "map under a lock", "SQLite"],
        lines: lines.into(),
    }
}
