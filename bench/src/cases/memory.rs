//! The memory of a row, of an entry of each kind in each layer, of an open transaction, of a pin, and of a commit that is
//! kept.
use super::Size;
use crate::baseline::map::{Map, Record, map_of};
use crate::data::{KeyKind, by_columns, name_of, numbers, qty_of, with_columns};
use crate::drawn::Drawn;
use crate::figures::{Figures, Line, NONE, Unit, grouped};
use crate::heap::{in_use, left, since};
use crate::sqlite::{self, Bound, Database};
use crate::updates::{Mix, Place, Update, begun, image, updated, updates};
use narthexmace::{Error, Options, Pin, Table, Transaction, cells};

pub const NAME: &str = "memory";
const NAME_COLUMN: usize = 1;
const QTY_COLUMN: usize = 2;

pub fn run(size: &Size) -> Figures {
    let count = size.rows / 20;
    let mut lines = vec![row(size.rows)];
    lines.extend(Kind::ALL.into_iter().flat_map(|kind| Entries::of(size.rows, count, kind).lines()));
    lines.extend(transactions(size.rows, count));
    lines.extend(pins(size.rows, count));
    lines.extend([1, 10].map(|each| kept_commits(size.rows, count, each)));
    Figures {
        name: NAME,
        question: format!(
            "how much memory does each take, over {} rows of a number, a text of 8 bytes and a number, {} of which are \
             changed?",
            grouped(size.rows),
            grouped(count)
        ),
        unit: Unit::Bytes,
        heads: &["what", "where"],
        ways: &["ours", "map", "SQLite"],
        lines,
    }
}

/// A row of a table that nobody has changed.
fn row(rows: usize) -> Line {
    let image = image(rows, &[]);
    let (ours, table) = left(rows, || by_columns(rows));
    let (theirs, map) = left(rows, || map_of(&image));
    let (database, there) = left(rows, || sqlite::table(rows));
    assert_eq!((rows as u64, rows), (begun(&table).rows(), map.len()), "{NAME}: as many rows");
    assert_eq!(rows as i64, there.number(COUNT), "{NAME}: as many rows");
    Line::new(&[&"a row", &"the stable table"], vec![ours, theirs, database])
}

const COUNT: &str = "SELECT count(*) FROM items";

/// A kind of entry.
#[derive(Clone, Copy, PartialEq, Eq)]
enum Kind {
    Insert,
    Delete,
    SetNumber,
    SetText,
}

impl Kind {
    const ALL: [Kind; 4] = [Kind::Insert, Kind::Delete, Kind::SetNumber, Kind::SetText];

    fn word(self) -> &'static str {
        match self {
            Kind::Insert => "an insert",
            Kind::Delete => "a delete",
            Kind::SetNumber => "a set number",
            Kind::SetText => "a set text of 8 bytes",
        }
    }
}

/// Entries of one kind, of drawn rows.
struct Entries {
    rows: usize,
    kind: Kind,
    writes: Vec<(i64, String)>,
}

impl Entries {
    fn of(rows: usize, count: usize, kind: Kind) -> Entries {
        let more = i64::from(kind == Kind::Insert); // a row that isn't there stands beside one that is
        let mut drawn: Vec<i64> = numbers(rows).map(|number| number + more).collect();
        Drawn::new(31).shuffle(&mut drawn);
        drawn.truncate(count);
        Entries { rows, kind, writes: drawn.into_iter().map(|number| (number, name_of(number + 4))).collect() }
    }

    fn count(&self) -> usize {
        self.writes.len()
    }

    /// A line for each layer. Beside the Write-PDT stand the baselines, where they have rows of their own for it.
    fn lines(&self) -> [Line; 3] {
        let table = by_columns(self.rows);
        let before = in_use();
        let mut txn = begun(&table);
        for (number, name) in &self.writes {
            self.write(&mut txn, *number, name).expect("the row is as it should be");
        }
        let own = since(before, self.count());
        txn.commit().expect("nobody else commits");
        table.trim(); // no commit is kept beside the layers
        assert_eq!(self.count(), table.sizes().write_entries, "{NAME}: an entry for each write");
        let write_pdt = since(before, self.count());
        table.fold().expect("there is memory");
        assert_eq!((0, self.count()), (table.sizes().write_entries, table.sizes().read_entries));
        let read_pdt = since(before, self.count());
        let [map, database] = if self.kind == Kind::Insert { self.inserted_elsewhere() } else { [NONE; 2] };
        [
            Line::new(&[&self.kind.word(), &"its transaction"], vec![own, NONE, NONE]),
            Line::new(&[&self.kind.word(), &"the Write-PDT"], vec![write_pdt, map, database]),
            Line::new(&[&self.kind.word(), &"the Read-PDT, packed"], vec![read_pdt, NONE, NONE]),
        ]
    }

    fn write(&self, txn: &mut Transaction<'_>, number: i64, name: &str) -> Result<(), Error> {
        match self.kind {
            Kind::Insert => txn.insert(cells![number, name, qty_of(number)]),
            Kind::Delete => txn.delete([number]),
            Kind::SetNumber => txn.set([number], QTY_COLUMN, 1_000_000),
            Kind::SetText => txn.set([number], NAME_COLUMN, name),
        }
    }

    /// What the inserts take in a map, and in SQLite.
    fn inserted_elsewhere(&self) -> [f64; 2] {
        let mut map: Map = map_of(&image(self.rows, &[]));
        let (in_map, ()) = left(self.count(), || {
            for (number, name) in &self.writes {
                map.insert(*number, Record { name: name.clone(), qty: qty_of(*number) });
            }
        });
        let database = sqlite::table(self.rows);
        let (in_sqlite, ()) = left(self.count(), || self.insert_into(&database));
        let all = self.rows + self.count();
        assert_eq!((all, all as i64), (map.len(), database.number(COUNT)), "{NAME}: as many rows");
        [in_map, in_sqlite]
    }

    fn insert_into(&self, database: &Database) {
        database.run("BEGIN");
        let mut insert = database.statement(sqlite::INSERT);
        for (number, name) in &self.writes {
            insert.run(&[Bound::Int(*number), Bound::Text(name), Bound::Int(qty_of(*number))]);
        }
        drop(insert);
        database.run("COMMIT");
    }
}

/// Transactions that are open, over one version.
fn transactions(rows: usize, count: usize) -> [Line; 2] {
    let table = by_columns(rows);
    let mut open: Vec<Transaction<'_>> = Vec::with_capacity(count);
    let before = in_use();
    open.extend((0..count).map(|_| begun(&table)));
    let empty = since(before, count);
    assert_eq!(count, table.sizes().open_transactions, "{NAME}: each is open");
    for (txn, number) in open.iter_mut().zip(numbers(rows)) {
        txn.set([number], QTY_COLUMN, 1_000_000).expect("there is such a row");
    }
    let with_a_set = since(before, count);
    [("with no write", empty), ("with one set", with_a_set)]
        .map(|(word, bytes)| Line::new(&[&"an open transaction", &word], vec![bytes, NONE, NONE]))
}

/// Pins of one version, and pins of a version each, between which one row was set.
fn pins(rows: usize, count: usize) -> [Line; 2] {
    let options = Options { recent: 1, ..Options::default() };
    let table =
        with_columns(rows, |columns| Table::from_columns(columns, 1, &options).expect("the columns are a table"));
    let sets = set(&table, rows, count);
    let mut pins: Vec<Pin<'_>> = Vec::with_capacity(count);
    let (of_one, ()) = left(count, || pins.extend((0..count).map(|_| table.pin().expect("there is memory"))));
    assert_eq!(count, table.counts().pins, "{NAME}: each is kept");
    pins.clear();
    let few = count / 10;
    let (of_its_own, ()) = left(few, || {
        for update in sets.iter().step_by(10) {
            pins.push(table.pin().expect("there is memory"));
            commit(&table, &[*update]);
        }
    });
    assert_eq!(few, table.counts().pins, "{NAME}: each is kept");
    [("of one version", of_one), ("of a version of its own, one set apart", of_its_own)]
        .map(|(word, bytes)| Line::new(&[&"a pin", &word], vec![bytes, NONE, NONE]))
}

/// Commits that are kept, each of so many sets of rows that are in the Write-PDT already.
fn kept_commits(rows: usize, count: usize, each: usize) -> Line {
    let table = by_columns(rows);
    let mut sets = set(&table, rows, count);
    Drawn::new(37).shuffle(&mut sets);
    table.trim();
    let commits = count / each;
    let (bytes, ()) = left(commits, || sets.chunks(each).for_each(|sets| commit(&table, sets)));
    assert_eq!((commits, count), (table.counts().kept, table.sizes().write_entries), "{NAME}: each is kept");
    let word = if each == 1 { "of one set".to_string() } else { format!("of {each} sets") };
    Line::new(&[&"a commit that is kept", &word], vec![bytes, NONE, NONE])
}

/// Sets so many rows, which lie in the Write-PDT then.
fn set(table: &Table, rows: usize, count: usize) -> Vec<Update> {
    let sets = updates(rows, count, Mix::Sets);
    drop(updated(table, KeyKind::Int, &sets, Place::WritePdt));
    sets
}

fn commit(table: &Table, sets: &[Update]) {
    let mut txn = begun(table);
    for update in sets {
        txn.set([update.number], QTY_COLUMN, 2_000_000).expect("there is such a row");
    }
    txn.commit().expect("nobody else commits");
}
