//! Commits of a transaction past those that came since its begin.
use super::Size;
use crate::data::{KeyKind, csv, numbers, opened};
use crate::drawn::Drawn;
use crate::figures::{Figures, Line, Unit, grouped};
use crate::timing::{Turn, clocked, least, way};
use crate::updates::{Change, Mix, Update, begun, image, make, state, updates};

pub const NAME: &str = "rebases";

/// What is between a transaction's begin and its commit.
pub struct Rebase {
    /// How many rows the transaction sets.
    pub own: usize,
    /// How many commits come since its begin.
    pub commits: usize,
    /// How many other rows each of these changes.
    pub each: usize,
}

pub fn run(size: &Size) -> Figures {
    let csv = csv(KeyKind::Int, numbers(size.rows));
    let line = |rebase: &Rebase, mix| {
        let writes = Writes::of(size.rows, rebase, mix);
        let (all, own) = (writes.due(size.rows, true), writes.due(size.rows, false));
        let ways = vec![way(1, all, || writes.committed(&csv, true)), way(1, own, || writes.committed(&csv, false))];
        let words: [&dyn std::fmt::Display; 4] =
            [&grouped(rebase.own), &grouped(rebase.commits), &grouped(rebase.each), &mix.word()];
        Line::new(&words, least(NAME, size.rounds, ways))
    };
    let sets = size.rebases.iter().map(|rebase| line(rebase, Mix::Sets));
    let mixed = size.rebases.last().map(|rebase| line(rebase, Mix::Mixed));
    Figures {
        name: NAME,
        question: format!(
            "how long does the commit of a transaction of sets take, past commits since its begin, over {} rows?",
            grouped(size.rows)
        ),
        unit: Unit::Time,
        heads: &["sets", "commits since", "changes of each", "which are"],
        ways: &["ours", "ours, with no commit since"],
        lines: sets.chain(mixed).collect(),
    }
}

/// The sets of a transaction, and what each commit since its begin changes: other rows.
struct Writes {
    own: Vec<Update>,
    since: Vec<Vec<Update>>,
}

impl Writes {
    fn of(rows: usize, rebase: &Rebase, mix: Mix) -> Writes {
        let mut all = updates(rows, rebase.own + rebase.commits * rebase.each, mix);
        Drawn::new(13).shuffle(&mut all);
        let since = all.split_off(rebase.own);
        let set = |update: &Update| Update { number: update.number & !1, change: Change::Set(1_000_000) };
        Writes {
            own: all.iter().map(set).collect(),
            since: since.chunks(rebase.each).map(<[Update]>::to_vec).collect(),
        }
    }

    /// The sum of the quantities after all of them, and how many rows there are then.
    fn due(&self, rows: usize, past: bool) -> i64 {
        let since = self.since.iter().filter(|_| past).flatten();
        let all: Vec<Update> = since.chain(&self.own).copied().collect();
        let image = image(rows, &all);
        image.values().sum::<i64>() + image.len() as i64
    }

    fn committed(&self, csv: &str, past: bool) -> Turn {
        let table = opened(csv);
        let mut txn = begun(&table);
        make(&mut txn, KeyKind::Int, &self.own);
        for updates in self.since.iter().filter(|_| past) {
            let mut other = begun(&table);
            make(&mut other, KeyKind::Int, updates);
            other.commit().expect("nobody else has changed these rows");
        }
        let (time, number) = clocked(|| txn.commit().expect("nobody else has changed these rows"));
        assert_eq!(if past { self.since.len() as u64 + 1 } else { 1 }, number, "{NAME}: the number of the commit");
        Turn { time, answer: state(&begun(&table), KeyKind::Int.qty_column()) }
    }
}
