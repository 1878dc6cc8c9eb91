//! Rows of many columns: an insert, the row at a position, and a scan of one column.
use super::Size;
use crate::data::numbers;
use crate::drawn::{Drawn, scattered};
use crate::figures::{Figures, Line, Unit, grouped};
use crate::sqlite::{Bound, Database};
use crate::timing::{Turn, Way, clocked, least, way, whole};
use crate::updates::{begun, state, sum_copied};
use narthexmace::{ColumnValues, Options, Row, Table, Transaction};
use std::cell::RefCell;
use std::hint::black_box;

pub const NAME: &str = "wide";

/// The numbers of columns: the second is the most that a table has.
const WIDTHS: [usize; 2] = [4, 32];
/// How many rows are inserted into vectors, which move all rows behind each.
const FEW: usize = 20;

pub fn run(size: &Size) -> Figures {
    let mut lines: [Vec<Line>; 3] = Default::default();
    for width in WIDTHS {
        for (lines, line) in lines.iter_mut().zip(three_lines(size, width)) {
            lines.push(line);
        }
    }
    Figures {
        name: NAME,
        question: format!(
            "how long do an insert in an open transaction, the row at a position and the sum of a column take over {} \
             rows of numbers, by how many columns they have?",
            grouped(size.rows)
        ),
        unit: Unit::Time,
        heads: &["call", "columns"],
        ways: &["ours", "vectors", "SQLite"],
        lines: lines.into_iter().flatten().collect(),
    }
}

/// The lines of a table of so many columns.
fn three_lines(size: &Size, width: usize) -> [Line; 3] {
    let wide = Wide::of(size.rows, width);
    let (table, database) = (wide.table(), wide.database());
    let txn = begun(&table);
    let asked = Asked::of(size, width);
    let calls = [
        ("insert", asked.inserts(&wide, &table, &database)),
        ("row at a position", asked.rows_at(&wide, &txn, &database)),
        ("sum of a column", wide.sums(&txn, &database)),
    ];
    calls.map(|(call, ways)| Line::new(&[&call, &width], least(NAME, size.rounds, ways)))
}

/// A cell of the row of a number: the first one is the number, which is the key.
fn cell(number: i64, column: usize) -> i64 {
    match column {
        0 => number,
        _ => 1 + (scattered(number as u64 + ((column as u64) << 32)) % 1_000) as i64,
    }
}

/// All cells of the row of a number.
fn row_of(number: i64, width: usize) -> Vec<i64> {
    (0..width).map(|column| cell(number, column)).collect()
}

/// A table as a vector for each column.
struct Wide {
    columns: RefCell<Vec<Vec<i64>>>,
    last: usize,
}

impl Wide {
    fn of(rows: usize, width: usize) -> Wide {
        let column = |column| numbers(rows).map(|number| cell(number, column)).collect();
        Wide { columns: RefCell::new((0..width).map(column).collect()), last: width - 1 }
    }

    /// The sum of the last column, and how many rows there are.
    fn state(&self) -> i64 {
        let last = &self.columns.borrow()[self.last];
        last.iter().sum::<i64>() + last.len() as i64
    }

    fn table(&self) -> Table {
        let (columns, names) = (self.columns.borrow(), names(self.last + 1));
        let columns: Vec<(&str, ColumnValues<'_>)> = names
            .iter()
            .zip(columns.iter())
            .map(|(name, column)| (name.as_str(), ColumnValues::Ints(column)))
            .collect();
        Table::from_columns(&columns, 1, &Options::default()).expect("the columns are a table")
    }

    fn database(&self) -> Database {
        let database = Database::in_memory();
        let (columns, names) = (self.columns.borrow(), names(self.last + 1));
        database.run(&format!(
            "CREATE TABLE items ({} INTEGER PRIMARY KEY, {} INTEGER)",
            names[0],
            names[1..].join(" INTEGER, ")
        ));
        database.run("BEGIN");
        let mut insert = database.statement(&insert_of(columns.len()));
        for row in 0..columns[0].len() {
            let cells: Vec<Bound<'_>> = columns.iter().map(|column| Bound::Int(column[row])).collect();
            insert.run(&cells);
        }
        drop(insert);
        database.run("COMMIT");
        database
    }

    fn sums<'a>(&'a self, txn: &'a Transaction<'_>, database: &'a Database) -> Vec<Way<'a>> {
        let due = self.columns.borrow()[self.last].iter().sum();
        let mut query = database.statement(&format!("SELECT sum({}) FROM items", name(self.last)));
        vec![
            whole(1, due, move || sum_copied(txn, self.last)),
            whole(1, due, move || black_box(&self.columns.borrow()[self.last]).iter().sum()),
            whole(1, due, move || query.number(&[])),
        ]
    }

    /// Inserts a row where its number belongs, and moves all that are behind it.
    fn insert(&self, row: &[i64]) {
        let mut columns = self.columns.borrow_mut();
        let at = columns[0].partition_point(|number| *number < row[0]);
        columns.iter_mut().zip(row).for_each(|(column, cell)| column.insert(at, *cell));
    }

    fn remove(&self, number: i64) {
        let mut columns = self.columns.borrow_mut();
        let at = columns[0].partition_point(|other| *other < number);
        for column in columns.iter_mut() {
            column.remove(at);
        }
    }

    /// The row at a position, gathered from the columns.
    fn row_at(&self, position: usize) -> Vec<i64> {
        self.columns.borrow().iter().map(|column| column[position]).collect()
    }
}

fn name(column: usize) -> String {
    format!("c{column}")
}

fn names(width: usize) -> Vec<String> {
    (0..width).map(name).collect()
}

fn insert_of(width: usize) -> String {
    format!("INSERT INTO items VALUES ({})", vec!["?"; width].join(", "))
}

/// The rows that are inserted, and the positions whose rows are asked for.
struct Asked {
    rows: Vec<Vec<i64>>,
    positions: Vec<usize>,
    /// How many of the positions SQLite is asked for, where it counts rows.
    few: usize,
}

impl Asked {
    fn of(size: &Size, width: usize) -> Asked {
        let mut odd: Vec<i64> = numbers(size.rows).map(|number| number + 1).collect();
        let mut drawn = Drawn::new(29);
        drawn.shuffle(&mut odd);
        odd.truncate(size.calls);
        let positions: Vec<usize> = (0..size.calls).map(|_| drawn.below(size.rows)).collect();
        Asked {
            rows: odd.into_iter().map(|number| row_of(number, width)).collect(),
            few: size.calls.min(2_000_000 / size.rows + 5),
            positions,
        }
    }

    fn inserts<'a>(&'a self, wide: &'a Wide, table: &'a Table, database: &'a Database) -> Vec<Way<'a>> {
        let (before, few) = (wide.state(), &self.rows[..FEW.min(self.rows.len())]);
        let due = |rows: &[Vec<i64>]| before + rows.iter().map(|row| row[wide.last] + 1).sum::<i64>();
        vec![
            way(self.rows.len(), due(&self.rows), || self.inserted(table, wide.last)),
            way(few.len(), due(few), move || {
                let (time, ()) = clocked(|| few.iter().for_each(|row| wide.insert(row)));
                let answer = wide.state();
                few.iter().for_each(|row| wide.remove(row[0]));
                Turn { time, answer }
            }),
            way(self.rows.len(), due(&self.rows), || self.inserted_into_sqlite(database, wide.last)),
        ]
    }

    fn inserted(&self, table: &Table, last: usize) -> Turn {
        let mut txn = begun(table);
        let (time, ()) = clocked(|| {
            for row in &self.rows {
                txn.insert(row.iter().copied()).expect("there is no such row");
            }
        });
        Turn { time, answer: state(&txn, last) }
    }

    fn inserted_into_sqlite(&self, database: &Database, last: usize) -> Turn {
        let rows: Vec<Vec<Bound<'_>>> =
            self.rows.iter().map(|row| row.iter().map(|cell| Bound::Int(*cell)).collect()).collect();
        database.run("BEGIN");
        let mut insert = database.statement(&insert_of(last + 1));
        let (time, ()) = clocked(|| rows.iter().for_each(|row| insert.run(row)));
        drop(insert);
        let answer = database.number(&format!("SELECT sum({}) + count(*) FROM items", name(last)));
        database.run("ROLLBACK");
        Turn { time, answer }
    }

    fn rows_at<'a>(&'a self, wide: &'a Wide, txn: &'a Transaction<'_>, database: &'a Database) -> Vec<Way<'a>> {
        let mut query = database.statement("SELECT * FROM items ORDER BY c0 LIMIT 1 OFFSET ?");
        let due = |positions: &[usize]| positions.iter().map(|at| wide.row_at(*at).iter().sum::<i64>()).sum();
        let row_at = |at: &usize| txn.row_at(*at as u64).expect("there is memory").expect("there is such a row");
        let (all, few) = (&self.positions, &self.positions[..self.few]);
        vec![
            whole(all.len(), due(all), move || all.iter().map(|at| sum_of(&row_at(at))).sum()),
            whole(all.len(), due(all), move || {
                all.iter().map(|at| black_box(wide.row_at(*at)).iter().sum::<i64>()).sum()
            }),
            whole(few.len(), due(few), move || {
                let mut sum = 0;
                for at in few {
                    query.each(&[Bound::Int(*at as i64)], |row| {
                        sum += (0..=wide.last).map(|it| row.int(it as i32)).sum::<i64>()
                    });
                }
                sum
            }),
        ]
    }
}

/// What the numbers of a row of ours add up to.
fn sum_of(row: &Row) -> i64 {
    row.iter().map(|cell| cell.as_int().expect("a number")).sum()
}
