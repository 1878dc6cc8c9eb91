//! Scans of one column, by how many rows are updated, how, and where the updates lie.
use super::{SHARES, Size, percent};
use crate::baseline::by_key::{AnyByKey, Search};
use crate::data::{KeyKind, by_columns, table};
use crate::figures::{Figures, Line, Unit, grouped};
use crate::sqlite::{self, Database};
use crate::timing::{Way, least, whole};
use crate::updates::{Mix, Place, Update, image, sum, sum_copied, updated, updates};
use narthexmace::Table;
use std::hint::black_box;

pub const NAME: &str = "scans";
const KIND: KeyKind = KeyKind::Int;
/// The numbers of a block of ours.
const BLOCK: usize = 1_024;

pub fn run(size: &Size) -> Figures {
    let scan = Scan { size, database: sqlite::table(size.rows) };
    let text = |rows| table(KIND, rows);
    let mut lines =
        vec![scan.line(0.0, Mix::Sets, "-, read from a text", &text), scan.line(0.0, Mix::Sets, "-", &by_columns)];
    for mix in [Mix::Mixed, Mix::Sets] {
        lines.extend(SHARES.map(|share| scan.line(share, mix, mix.word(), &by_columns)));
    }
    Figures {
        name: NAME,
        question: format!(
            "how long does the sum of a column of {} rows take, by where the updates lie?",
            grouped(size.rows)
        ),
        unit: Unit::Time,
        heads: &["updated rows", "by"],
        ways: &[
            "ours, Read-PDT, copied",
            "ours, Read-PDT",
            "ours, Write-PDT",
            "ours, its own",
            "vector",
            "vector in blocks",
            "by key",
            "SQLite",
        ],
        lines,
    }
}

/// A table that is scanned.
struct Scan<'s> {
    size: &'s Size,
    database: Database,
}

impl Scan<'_> {
    fn line(&self, share: f64, mix: Mix, word: &str, table: &dyn Fn(usize) -> Table) -> Line {
        let updates = updates(self.size.rows, percent(share, self.size.rows), mix);
        self.database.run("BEGIN");
        sqlite::make(&self.database, &updates);
        let times = self.times(&updates, table);
        self.database.run("ROLLBACK");
        Line::new(&[&format!("{share} %"), &word], times)
    }

    /// The nanoseconds of a scan, the same updates at each place in turn, and then by each baseline.
    fn times(&self, updates: &[Update], table: &dyn Fn(usize) -> Table) -> Vec<f64> {
        let tables = Place::ALL.map(|_| table(self.size.rows));
        let txns = [0, 1, 2].map(|it| updated(&tables[it], KIND, updates, Place::ALL[it]));
        let by_key = AnyByKey::of(KIND, self.size.rows, updates);
        let vector: Vec<i64> = image(self.size.rows, updates).into_values().collect();
        let blocks: Vec<Vec<i64>> = vector.chunks(BLOCK).map(<[i64]>::to_vec).collect();
        let due = vector.iter().sum();
        let mut query = self.database.statement(sqlite::SUM);
        let mut ways: Vec<Way<'_>> = vec![whole(1, due, || sum_copied(&txns[0], KIND.qty_column()))];
        for txn in &txns {
            assert_eq!(vector.len() as u64, txn.rows(), "{NAME}: as many rows as in the image");
            ways.push(whole(1, due, || sum(txn, KIND.qty_column())));
        }
        ways.push(whole(1, due, || black_box(&vector).iter().sum()));
        ways.push(whole(1, due, || black_box(&blocks).iter().map(|block| block.iter().sum::<i64>()).sum()));
        ways.push(whole(1, due, || black_box(&by_key).sum(Search::EachRow)));
        ways.push(whole(1, due, || query.number(&[])));
        least(NAME, self.size.rounds, ways)
    }
}
