//! Checkpoints and recoveries, beside a plain write and a plain read of as many bytes.
use super::{Size, percent};
use crate::baseline::files;
use crate::data::{KeyKind, csv, last_byte, numbers, opened, qty_of};
use crate::drawn::scattered;
use crate::figures::{Figures, Line, Unit, grouped};
use crate::room::Room;
use crate::timing::{Turn, clocked, least, way};
use crate::updates::{begun, sum};
use narthexmace::{Column, ColumnType, Options, Table};
use std::fmt::Write;
use std::path::{Path, PathBuf};

pub const NAME: &str = "files";

pub fn run(size: &Size) -> Figures {
    let room = Room::new();
    let texts = csv(KeyKind::Int, numbers(size.rows));
    let mut lines = Vec::new();
    for (word, csv) in [("a number, a text of 8 bytes, a number", texts), ("four numbers", four_ints(size.rows))] {
        lines.extend(two_lines(size, &room, word, &csv));
    }
    Figures {
        name: NAME,
        question: format!(
            "how many megabytes of files are written and read in a second, each synced, of a table of {} rows \
             of which one in a hundred was set?",
            grouped(size.rows)
        ),
        unit: Unit::Megabytes,
        heads: &["call", "columns", "bytes"],
        ways: &["ours", "plain files"],
        lines,
    }
}

/// The text of a table of four columns of numbers.
fn four_ints(rows: usize) -> String {
    let mut text = "id:int:key,a:int,b:int,c:int\n".to_string();
    for number in numbers(rows) {
        let [a, b] = [1, 2].map(|more| scattered(number as u64 + more) >> 1);
        writeln!(text, "{number},{a},{b},{}", qty_of(number)).expect("a string takes what is written");
    }
    text
}

fn two_lines(size: &Size, room: &Room, word: &str, csv: &str) -> [Line; 2] {
    let due = due(size, csv);
    let table = opened(csv);
    set(&table, size);
    let kept = room.empty("kept");
    table.checkpoint(&kept).expect("a table can be written");
    let files = files::read(&kept).expect("a table can be read");
    let bytes = files::bytes(&files);
    let checkpoints = vec![
        way(1, due, || {
            set(&table, size);
            checkpoint(&table, room.empty("ours"))
        }),
        way(1, bytes as i64, || {
            let folder = room.empty("plain");
            let (time, ()) = clocked(|| files::write(&folder, &files).expect("files can be written"));
            Turn { time, answer: files::bytes(&files::read(&folder).expect("files can be read")) as i64 }
        }),
    ];
    let recoveries = vec![
        way(1, due, || {
            let (time, recovered) = clocked(|| recover(&kept));
            Turn { time, answer: answer_of(&recovered) }
        }),
        way(1, bytes as i64, || {
            let (time, files) = clocked(|| files::read(&kept).expect("files can be read"));
            Turn { time, answer: files::bytes(&files) as i64 }
        }),
    ];
    [("checkpoint", checkpoints), ("recovery", recoveries)].map(|(call, ways)| {
        let times = least(NAME, size.rounds, ways);
        let megabytes = times.into_iter().map(|time| bytes as f64 * 1e3 / time).collect();
        Line::new(&[&call, &word, &grouped(bytes)], megabytes)
    })
}

/// The quantity to which one row in a hundred is set.
const QTY: i64 = 1_000_000;

/// The rows that are set.
fn rows_set(size: &Size) -> impl Iterator<Item = i64> {
    numbers(size.rows).step_by(size.rows / percent(1.0, size.rows))
}

/// What all cells of a table add up to after that: numbers, the last byte of each text, and one for each row.
fn due(size: &Size, csv: &str) -> i64 {
    let cells = csv.lines().skip(1).flat_map(|row| row.split(','));
    let before = cells.fold(size.rows as i64, |sum, cell| sum.wrapping_add(cell.parse().unwrap_or(last_byte(cell))));
    rows_set(size).fold(before, |sum, number| sum.wrapping_add(QTY - qty_of(number)))
}

/// Sets the rows anew, so that a checkpoint has updates to merge.
fn set(table: &Table, size: &Size) {
    let mut txn = begun(table);
    for number in rows_set(size) {
        txn.set([number], table.columns().len() - 1, QTY).expect("there is such a row");
    }
    txn.commit().expect("nobody else commits");
    assert_eq!(rows_set(size).count(), table.sizes().write_entries, "{NAME}: an entry for each set");
}

fn checkpoint(table: &Table, folder: PathBuf) -> Turn {
    let (time, ()) = clocked(|| table.checkpoint(&folder).expect("a table can be written"));
    Turn { time, answer: answer_of(&recover(&folder)) }
}

fn recover(folder: &Path) -> Table {
    Table::recover(folder, &Options::default()).expect("a table can be read")
}

/// What all cells of a table add up to.
fn answer_of(table: &Table) -> i64 {
    let txn = begun(table);
    let sum_of = |(column, it): (usize, &Column)| match it.column_type {
        ColumnType::Text => {
            let batch = txn.batch(&[column], ..).expect("there is memory");
            batch.texts(0).expect("texts").iter().map(last_byte).sum()
        }
        _ => sum(&txn, column),
    };
    table.columns().iter().enumerate().map(sum_of).fold(txn.rows() as i64, i64::wrapping_add)
}
