//! Scans of one column, by what the keys are made of: a merge by position reads no key column, one by key reads them all.
use super::{SHARES, Size, percent};
use crate::baseline::by_key::{AnyByKey, Search};
use crate::data::{KeyKind, csv, numbers, opened};
use crate::figures::{Figures, Line, Unit, grouped};
use crate::timing::{least, whole};
use crate::updates::{Mix, Place, image, sum_copied, updated, updates};
use std::hint::black_box;

pub const NAME: &str = "keys";

pub fn run(size: &Size) -> Figures {
    let mut lines = Vec::new();
    for kind in KeyKind::SHORT {
        let csv = csv(kind, numbers(size.rows));
        for share in SHARES {
            lines.push(line(size, kind, &csv, share));
        }
    }
    Figures {
        name: NAME,
        question: format!(
            "how does the sum of a column of {} rows grow with the width of the key, \
             where inserts, deletes and sets lie in the Read-PDT?",
            grouped(size.rows)
        ),
        unit: Unit::Time,
        heads: &["key", "updated rows"],
        ways: &["ours, copied", "by key", "by key, halving"],
        lines,
    }
}

fn line(size: &Size, kind: KeyKind, csv: &str, share: f64) -> Line {
    let updates = updates(size.rows, percent(share, size.rows), Mix::Mixed);
    let table = opened(csv);
    let txn = updated(&table, kind, &updates, Place::ReadPdt);
    let by_key = AnyByKey::of(kind, size.rows, &updates);
    let image = image(size.rows, &updates);
    let due = image.values().sum();
    assert_eq!(image.len() as u64, txn.rows(), "{NAME}: as many rows as in the image");
    let ways = vec![
        whole(1, due, || sum_copied(&txn, kind.qty_column())),
        whole(1, due, || black_box(&by_key).sum(Search::EachRow)),
        whole(1, due, || black_box(&by_key).sum(Search::Halving)),
    ];
    Line::new(&[&kind.word(), &format!("{share} %")], least(NAME, size.rounds, ways))
}
