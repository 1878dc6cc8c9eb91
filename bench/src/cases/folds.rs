//! Folds of the Write-PDT into the Read-PDT, by the entries of both.
use super::Size;
use crate::data::{KeyKind, csv, numbers, opened};
use crate::drawn::Drawn;
use crate::figures::{Figures, Line, Unit, grouped};
use crate::timing::{Turn, clocked, least, way};
use crate::updates::{Mix, Place, Update, begun, image, state, updated, updates};
use std::collections::BTreeMap;

pub const NAME: &str = "folds";

pub fn run(size: &Size) -> Figures {
    let csv = csv(KeyKind::Int, numbers(size.rows));
    Figures {
        name: NAME,
        question: format!("how long does a fold take, over a table of {} rows?", grouped(size.rows)),
        unit: Unit::Time,
        heads: &["entries of the Write-PDT", "of the Read-PDT"],
        ways: &["ours", "two sorted vectors merged"],
        lines: size.folds.iter().map(|(upper, lower)| line(size, &csv, *upper, *lower)).collect(),
    }
}

fn line(size: &Size, csv: &str, upper: usize, lower: usize) -> Line {
    let trees = Trees::of(size.rows, upper, lower);
    let ways =
        vec![way(1, trees.due(size.rows), || trees.folded(csv)), way(1, (upper + lower) as i64, || trees.merged())];
    Line::new(&[&grouped(upper), &grouped(lower)], least(NAME, size.rounds, ways))
}

/// The updates of the Write-PDT, and those of the Read-PDT, of other rows.
struct Trees {
    upper: Vec<Update>,
    lower: Vec<Update>,
}

impl Trees {
    fn of(rows: usize, upper: usize, lower: usize) -> Trees {
        let mut all = updates(rows, upper + lower, Mix::Mixed);
        Drawn::new(9).shuffle(&mut all);
        let mut lower = all.split_off(upper);
        for updates in [&mut all, &mut lower] {
            updates.sort_by_key(|update| update.number);
        }
        Trees { upper: all, lower }
    }

    /// The sum of the quantities after all of them, and how many rows there are then.
    fn due(&self, rows: usize) -> i64 {
        let all: Vec<Update> = self.lower.iter().chain(&self.upper).copied().collect();
        let image: BTreeMap<i64, i64> = image(rows, &all);
        image.values().sum::<i64>() + image.len() as i64
    }

    fn folded(&self, csv: &str) -> Turn {
        let table = opened(csv);
        drop(updated(&table, KeyKind::Int, &self.lower, Place::ReadPdt));
        drop(updated(&table, KeyKind::Int, &self.upper, Place::WritePdt));
        let (time, ()) = clocked(|| table.fold().expect("there is memory"));
        let sizes = table.sizes();
        assert_eq!((0, self.upper.len() + self.lower.len()), (sizes.write_entries, sizes.read_entries));
        Turn { time, answer: state(&begun(&table), KeyKind::Int.qty_column()) }
    }

    /// What a fold is at the least: a third list of all entries.
    fn merged(&self) -> Turn {
        let (time, merged) = clocked(|| {
            let mut merged = Vec::with_capacity(self.upper.len() + self.lower.len());
            let (mut upper, mut lower) = (self.upper.as_slice(), self.lower.as_slice());
            while let ([first, rest @ ..], [other, others @ ..]) = (upper, lower) {
                if first.number < other.number {
                    merged.push(*first);
                    upper = rest;
                } else {
                    merged.push(*other);
                    lower = others;
                }
            }
            merged.extend_from_slice(upper);
            merged.extend_from_slice(lower);
            merged
        });
        assert!(merged.is_sorted_by_key(|update| update.number), "{NAME}: a merged list is sorted");
        Turn { time, answer: merged.len() as i64 }
    }
}
