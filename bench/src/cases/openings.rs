//! Openings of a database, by what its journal has.
use super::Size;
use crate::baseline::files;
use crate::data::{KeyKind, name_of, numbers, qty_of, with_columns};
use crate::figures::{Figures, Line, Unit, grouped};
use crate::room::Room;
use crate::timing::{Turn, clocked, least, timed, way};
use crate::updates::{begun, state};
use narthexmace::{Database, DatabaseOptions, Options, SyncMode, cells};
use std::path::Path;

pub const NAME: &str = "openings";

/// Nothing is folded, and no image is made: the journal stays as it is.
const OPTIONS: DatabaseOptions = DatabaseOptions {
    sync: SyncMode::Off,
    early_reads: false,
    maintenance: false,
    read_only: false,
    fold_entries: 1024,
    checkpoint_entries: 10_000,
    journal_bytes: 64 << 20,
    kept_bytes: 256 << 20,
    mode: 0o666,
};

pub fn run(size: &Size) -> Figures {
    let room = Room::new();
    let lines = [0, size.journal].map(|commits| {
        let folder = room.empty("kept");
        make(&folder, size.rows, commits);
        let bytes = read(&folder);
        let due = numbers(size.rows).chain(inserted(commits)).map(|number| qty_of(number) + 1).sum::<i64>();
        let ways = vec![
            way(1, due + commits as i64, || opening(&folder)),
            way(1, bytes as i64, || timed(|| read(&folder) as i64)),
        ];
        Line::new(&[&grouped(commits), &grouped(bytes)], least(NAME, size.rounds, ways))
    });
    Figures {
        name: NAME,
        question: format!(
            "how long does the opening of a database take, whose image has {} rows, by how many commits of one row its \
             journal has?",
            grouped(size.rows)
        ),
        unit: Unit::Time,
        heads: &["commits", "bytes"],
        ways: &["ours", "plain files"],
        lines: lines.into(),
    }
}

/// The numbers of the rows that the journal's commits insert, between those of the image.
fn inserted(commits: usize) -> impl Iterator<Item = i64> {
    numbers(commits).map(|number| number + 1)
}

/// Makes a database with a table of so many rows, and so many commits after its image.
fn make(folder: &Path, rows: usize, commits: usize) {
    let (database, _) = Database::open(folder, &OPTIONS).expect("a database can be made");
    let items = with_columns(rows, |columns| {
        database.create_from_columns("items", columns, 1, &Options::default()).expect("a new table")
    });
    for number in inserted(commits) {
        let mut txn = begun(&items);
        txn.insert(cells![number, &name_of(number), qty_of(number)]).expect("there is no such row");
        txn.commit().expect("nobody else commits");
    }
    drop(items);
    database.close().expect("all is on the disk");
}

/// Opens it. The answer has all its rows, and how many commits were read from the journal.
fn opening(folder: &Path) -> Turn {
    let (time, (database, report)) = clocked(|| Database::open(folder, &OPTIONS).expect("it was made"));
    let items = database.table("items").expect("it was made");
    Turn { time, answer: state(&begun(&items), KeyKind::Int.qty_column()) + report.replayed as i64 }
}

/// Reads each file of the database whole, and answers how many bytes they have.
fn read(folder: &Path) -> usize {
    let folders = folder.read_dir().expect("a folder").map(|entry| entry.expect("a name").path());
    let images = folders.filter(|path| path.is_dir()).map(|image| files::read(&image).expect("files can be read"));
    let journal = folder.read_dir().expect("a folder").map(|entry| entry.expect("a name").path());
    let journal =
        journal.filter(|path| path.is_file()).map(|path| std::fs::read(path).expect("a file can be read").len());
    images.map(|image| files::bytes(&image)).sum::<usize>() + journal.sum::<usize>()
}
