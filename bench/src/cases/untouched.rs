//! Scans of the column of keys, of which nothing changes, while other columns or rows do.
use super::{SHARES, Size, percent};
use crate::data::{KeyKind, by_columns};
use crate::figures::{Figures, Line, Unit, grouped};
use crate::timing::{least, whole};
use crate::updates::{Mix, Place, image, sum, sum_copied, updated, updates};
use std::hint::black_box;

pub const NAME: &str = "untouched";
/// The column of the keys.
const KEYS: usize = 0;

pub fn run(size: &Size) -> Figures {
    Figures {
        name: NAME,
        question: format!(
            "how long does the sum of the keys of {} rows take, while the quantities of some were set, in the Read-PDT?",
            grouped(size.rows)
        ),
        unit: Unit::Time,
        heads: &["updated rows"],
        ways: &["ours, copied", "ours", "vector"],
        lines: SHARES.map(|share| line(size, share)).into(),
    }
}

fn line(size: &Size, share: f64) -> Line {
    let updates = updates(size.rows, percent(share, size.rows), Mix::Sets);
    let table = by_columns(size.rows);
    let txn = updated(&table, KeyKind::Int, &updates, Place::ReadPdt);
    let vector: Vec<i64> = image(size.rows, &updates).into_keys().collect();
    let due = vector.iter().sum();
    let ways = vec![
        whole(1, due, || sum_copied(&txn, KEYS)),
        whole(1, due, || sum(&txn, KEYS)),
        whole(1, due, || black_box(&vector).iter().sum()),
    ];
    Line::new(&[&format!("{share} %")], least(NAME, size.rounds, ways))
}
