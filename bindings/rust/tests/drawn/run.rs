//! A run: calls drawn from a seed, made of a table and of the model.
use crate::feed::apply;
use crate::model::{Cells, Model, Open, Refusal, Refused, Rules};
use narthexmace::{
    Cell, CommitError, ConflictRule, Error, ErrorKind, Options, Pin, Rank, Row, Savepoint, Table, Transaction, Values,
};
use std::collections::BTreeMap;
use std::time::Duration;
use std::{env, fs, process};

const CLIENTS: usize = 4;
const PINS: usize = 3;
/// How many numbers a key may have; half of the keys have one of the first, so that clients meet there.
const NUMBERS: [usize; 2] = [3, 40];

/// The replies that some call of many runs gets.
pub const REPLIES: [&str; 22] = [
    "Incomplete",
    "BegunAt",
    "Pinned",
    "Unpinned",
    "Changes",
    "NoChanges",
    "Followed",
    "Done",
    "Duplicate",
    "Missing",
    "Full",
    "Marked",
    "WentBack",
    "Released",
    "Committed",
    "Conflict",
    "TooOld",
    "FullAtCommit",
    "Row",
    "NoRow",
    "Rank",
    "Batch",
];

/// How many calls got each reply.
pub type Counts = BTreeMap<&'static str, usize>;

/// Numbers from a seed (SplitMix64).
struct Draw(u64);

impl Draw {
    fn bits(&mut self) -> u64 {
        self.0 = self.0.wrapping_add(0x9e37_79b9_7f4a_7c15);
        let mixed = (self.0 ^ (self.0 >> 30)).wrapping_mul(0xbf58_476d_1ce4_e5b9);
        let mixed = (mixed ^ (mixed >> 27)).wrapping_mul(0x94d0_49bb_1331_11eb);
        mixed ^ (mixed >> 31)
    }

    fn below(&mut self, end: usize) -> usize {
        (self.bits() % end as u64) as usize
    }

    /// A number of a key.
    fn number(&mut self) -> i64 {
        let end = self.one_of(&NUMBERS);
        self.below(end) as i64 - 1
    }

    fn one_of<T: Copy>(&mut self, choices: &[T]) -> T {
        choices[self.below(choices.len())]
    }
}

#[derive(Clone, Copy)]
enum Type {
    Int,
    Text,
    Bool,
}

/// The columns that runs are over, each with how many are the key.
const SCHEMAS: [(&str, usize, &[Type]); 3] = [
    ("a:int:key,n:int,t:text,f:bool", 1, &[Type::Int, Type::Int, Type::Text, Type::Bool]),
    ("a:int:key,b:text:key,n:int,t:text", 2, &[Type::Int, Type::Text, Type::Int, Type::Text]),
    ("b:text:key,f:bool:key,a:int:key,n:int", 3, &[Type::Text, Type::Bool, Type::Int, Type::Int]),
];

/// A row of these columns, whose key is one of not many.
fn row(draw: &mut Draw, types: &[Type], key_columns: usize) -> Cells {
    let cell = |(column, ty): (usize, &Type)| match ty {
        Type::Bool => Cell::Bool(draw.below(2) == 1),
        Type::Int if column < key_columns => Cell::Int(draw.number()),
        Type::Int => Cell::Int(draw.bits() as i64),
        Type::Text if column < key_columns => Cell::Text(draw.one_of(&["", "a", "b", "é"]).to_owned()),
        Type::Text => {
            let text = draw.one_of(&["", "x", "a, \"b\"\n", "é€𐍈"]);
            Cell::Text(text.repeat(draw.one_of(&[1, 3, 400])))
        }
    };
    types.iter().enumerate().map(cell).collect()
}

fn csv_of<'a>(head: &str, rows: impl Iterator<Item = &'a Cells>) -> String {
    let field = |cell: &Cell| match cell {
        Cell::Int(number) => number.to_string(),
        Cell::Text(text) => format!("\"{}\"", text.replace('"', "\"\"")),
        Cell::Bool(boolean) => boolean.to_string(),
    };
    let line = |row: &Cells| row.iter().map(field).collect::<Vec<_>>().join(",") + "\n";
    rows.fold(format!("{head}\n"), |text, row| text + &line(row))
}

/// A client's transaction, in the table and in the model, and its savepoints, each with what the model had then.
struct Client<'s> {
    txn: Transaction<'s>,
    open: Open,
    savepoints: Vec<(Savepoint, Open)>,
}

/// Compares a reply with the model's, and names it.
fn same<T: PartialEq + std::fmt::Debug>(wanted: T, found: T, name: &'static str) -> &'static str {
    assert_eq!(wanted, found);
    name
}

fn written(wanted: Result<(), Error>, found: Result<(), Error>) -> &'static str {
    assert_eq!(wanted, found);
    match found.map_err(|error| error.kind()) {
        Ok(()) => "Done",
        Err(ErrorKind::Duplicate) => "Duplicate",
        Err(ErrorKind::Missing) => "Missing",
        Err(ErrorKind::Full) => "Full",
        Err(other) => panic!("a write answered {other:?}"),
    }
}

fn read(wanted: Option<&Cells>, found: Option<Row>) -> &'static str {
    let found = found.map(Cells::from);
    assert_eq!(wanted, found.as_ref());
    if wanted.is_some() { "Row" } else { "NoRow" }
}

/// What a run draws from, and what it is over.
struct Run<'s> {
    draw: Draw,
    table: &'s Table,
    types: &'static [Type],
    model: Model,
    /// The pins, each with what the model begins at it.
    pins: Vec<(Pin<'s>, Open)>,
    folds: u64,
}

impl<'s> Run<'s> {
    /// A key: often one of a row that the client sees, or one that its transaction has changed.
    fn key(&mut self, client: &Client<'_>) -> Cells {
        let key_columns = self.model.rules.key_columns;
        let known: Vec<&Cells> = match self.draw.below(10) {
            0..=3 => client.open.table.keys().collect(),
            4..=6 => client.open.changed().collect(),
            _ => Vec::new(),
        };
        if known.is_empty() {
            return row(&mut self.draw, self.types, key_columns)[..key_columns].to_vec();
        }
        known[self.draw.below(known.len())].clone()
    }

    /// A row that may be inserted, one time in four under a key as above.
    fn row(&mut self, client: &Client<'_>) -> Cells {
        let mut row = row(&mut self.draw, self.types, self.model.rules.key_columns);
        if self.draw.below(4) == 0 {
            let key = self.key(client);
            row.splice(..key.len(), key);
        }
        row
    }

    /// A transaction over the newest table, or half of the time over that of a pin, where there is one.
    fn begin(&mut self) -> (Client<'s>, &'static str) {
        let at = self.draw.below(2 * PINS);
        let (txn, open, reply) = match self.pins.get(at) {
            Some((pin, open)) => (pin.begin().unwrap(), open.clone(), "BegunAt"),
            None => (self.table.begin().unwrap(), self.model.begin(), "Begun"),
        };
        assert_eq!(open.version(), txn.version());
        (Client { txn, open, savepoints: Vec::new() }, reply)
    }

    /// Keeps the newest table, or lets a pin go, whatever began at it.
    fn pin(&mut self) -> &'static str {
        if self.pins.len() < PINS && self.draw.below(2) == 0 {
            let pin = self.table.pin().unwrap();
            assert_eq!(self.model.number(), pin.number());
            self.pins.push((pin, self.model.begin()));
            return "Pinned";
        }
        if self.pins.is_empty() {
            return "NoPin";
        }
        drop(self.pins.remove(self.draw.below(self.pins.len())));
        "Unpinned"
    }

    /// What the commit of a drawn number changed: over the table of the number before it makes its own.
    fn changes(&mut self) -> &'static str {
        let number = self.draw.below(self.model.tables.len() + 2);
        let Some(layer) = self.table.changes(number as u64).unwrap() else {
            assert!(!self.model.is_kept(number));
            return "NoChanges";
        };
        assert!(self.model.is_kept(number));
        let mut rows = self.rows_of(number - 1);
        apply(&mut rows, &layer, self.model.rules.key_columns);
        same(self.rows_of(number), rows, "Changes")
    }

    /// Follows the commits after a drawn number, table by table.
    fn follow(&mut self) -> &'static str {
        let (from, newest) = (self.draw.below(self.model.tables.len() + 1), self.model.tables.len() - 1);
        assert_eq!((newest > from).then_some(newest as u64), self.table.wait(from as u64, Duration::ZERO));
        let mut changes = self.table.changes_after(from as u64);
        let mut rows = self.rows_of(from.min(newest));
        for number in from + 1..=newest {
            match changes.next().expect("what each commit changed comes, or that it is gone") {
                Ok((told, layer)) => {
                    assert!(self.model.is_kept(number));
                    assert_eq!(number as u64, told);
                    apply(&mut rows, &layer, self.model.rules.key_columns);
                    assert_eq!(self.rows_of(number), rows);
                }
                Err(refused) => {
                    assert_eq!((ErrorKind::Missing, false), (refused.kind(), self.model.is_kept(number)));
                    assert!(changes.next().is_none());
                    return "Incomplete";
                }
            }
        }
        assert!(changes.next().is_none());
        "Followed"
    }

    fn rows_of(&self, number: usize) -> Vec<Cells> {
        self.model.tables[number].values().cloned().collect()
    }

    fn write(&mut self, client: &mut Client<'_>) -> &'static str {
        match self.draw.below(5) {
            0 | 1 => {
                let row = self.row(client);
                written(self.model.insert(&mut client.open, &row), client.txn.insert(&row))
            }
            2 => {
                let key = self.key(client);
                written(self.model.delete(&mut client.open, &key), client.txn.delete(&key))
            }
            _ => {
                let (key, key_columns) = (self.key(client), self.model.rules.key_columns);
                let column = key_columns + self.draw.below(self.types.len() - key_columns);
                let cell = row(&mut self.draw, self.types, key_columns)[column].clone();
                let wanted = self.model.set(&mut client.open, &key, column, &cell);
                written(wanted, client.txn.set(&key, column, &cell))
            }
        }
    }

    fn savepoint(&mut self, client: &mut Client<'_>) -> &'static str {
        if client.savepoints.is_empty() || self.draw.below(3) == 0 {
            client.savepoints.push((client.txn.savepoint().unwrap(), client.open.clone()));
            return "Marked";
        }
        let level = self.draw.below(client.savepoints.len());
        if self.draw.below(4) == 0 {
            let released = client.savepoints.drain(level..).next().unwrap();
            client.txn.release(released.0).unwrap();
            return "Released";
        }
        client.txn.rollback_to(&client.savepoints[level].0).unwrap();
        client.open = client.savepoints[level].1.clone();
        client.savepoints.truncate(level + 1);
        "WentBack"
    }

    fn read(&mut self, client: &Client<'_>) -> &'static str {
        let table = &client.open.table;
        match self.draw.below(4) {
            0 => {
                let key = self.key(client);
                read(table.get(&key), client.txn.get(&key).unwrap())
            }
            1 => {
                let position = self.draw.below(table.len() + 2);
                read(table.values().nth(position), client.txn.row_at(position as u64).unwrap())
            }
            2 => {
                let key = self.key(client);
                let wanted = Rank { below: table.range(..key.clone()).count() as u64, there: table.contains_key(&key) };
                same(wanted, client.txn.rank(&key).unwrap(), "Rank")
            }
            _ => self.scan(client),
        }
    }

    /// Columns between two positions, whole or in batches.
    fn scan(&mut self, client: &Client<'_>) -> &'static str {
        let rows = client.open.table.len();
        assert_eq!(rows as u64, client.txn.rows());
        let (from, to) = (self.draw.below(rows + 2), self.draw.below(rows + 2));
        let chosen: Vec<usize> = (0..self.draw.below(4)).map(|_| self.draw.below(self.types.len())).collect();
        let each = self.draw.one_of(&[1, 7, 1000]);
        let mut found = vec![Cells::new(); chosen.len()];
        let mut next = from;
        for batch in client.txn.batches(&chosen, from as u64..to as u64, each).unwrap() {
            let batch = batch.unwrap();
            assert_eq!(next as u64, batch.first());
            assert_eq!(each.min(to.min(rows) - next), batch.rows());
            next += batch.rows();
            found.iter_mut().zip(batch.columns()).for_each(|(cells, values)| cells.extend(cells_of(values)));
        }
        assert_eq!(next, to.min(rows).max(from));
        let column = |column: &usize| {
            let rows = client.open.table.values().take(to).skip(from);
            rows.map(|row| row[*column].clone()).collect()
        };
        same(chosen.iter().map(column).collect::<Vec<Cells>>(), found, "Batch")
    }

    fn commit(&mut self, client: Client<'_>) -> &'static str {
        let wanted = self.model.commit(client.open);
        let number = self.model.number();
        let found = match client.txn.try_commit() {
            Ok(number) => Ok(number),
            Err(CommitError::Conflict(newest)) => Err((Refusal::Conflict, newest)),
            Err(CommitError::TooOld(newest)) => Err((Refusal::TooOld, newest)),
            Err(CommitError::Full(newest)) => Err((Refusal::Full, newest)),
            Err(refused) => panic!("{refused}"),
        };
        assert_eq!(wanted.map_err(|refusal| (refusal, number)), found);
        match wanted {
            Ok(_) => "Committed",
            Err(Refusal::Conflict) => "Conflict",
            Err(Refusal::TooOld) => "TooOld",
            Err(Refusal::Full) => "FullAtCommit",
        }
    }

    /// A call of a client, or one now and then on the table itself.
    fn step(&mut self, clients: &mut [Option<Client<'s>>; CLIENTS]) -> &'static str {
        let at = self.draw.below(CLIENTS);
        let Some(mut client) = clients[at].take() else {
            let (client, reply) = self.begin();
            clients[at] = Some(client);
            return reply;
        };
        let reply = match self.draw.below(1000) {
            0..=9 => {
                self.table.fold().unwrap();
                self.folds += 1;
                "Folded"
            }
            10..=12 => {
                self.table.trim();
                self.model.trim();
                "Cut"
            }
            13..=39 => return "Aborted", // dropped
            40..=139 => return self.commit(client),
            140..=559 => self.write(&mut client),
            560..=639 => self.savepoint(&mut client),
            640..=679 => self.pin(),
            680..=694 => self.changes(),
            695..=709 => self.follow(),
            _ => self.read(&client),
        };
        clients[at] = Some(client);
        reply
    }

    /// What the table has counted, as the model has it.
    fn check_counts(&self) {
        let counts = self.table.counts();
        let refused = Refused { conflicts: counts.conflicts, too_old: counts.too_old, full: counts.full };
        assert_eq!(self.model.refused, refused);
        assert_eq!((self.model.number(), self.folds), (counts.commits, counts.folds));
        assert_eq!((0, 0), (counts.checkpoints, counts.superseded));
        let oldest = self.pins.iter().map(|(_, open)| open.version()).min();
        assert_eq!((self.pins.len(), oldest), (counts.pins, counts.oldest_pin));
        let (kept, newest) = (self.model.kept(), self.model.number());
        let entries = |number: u64| self.table.changes(number).unwrap().unwrap().len() as u64;
        let kept_entries: u64 = (newest - kept as u64 + 1..=newest).map(entries).sum();
        assert_eq!((kept, kept_entries), (counts.kept, counts.kept_entries));
    }

    /// The rows of the newest table, those of a table that is recovered of its checkpoint, and those of the pins.
    fn check_end(&self, seed: u64) {
        self.check_counts();
        let folder = env::temp_dir().join(format!("narthexmace-{}-drawn-{seed}", process::id()));
        fs::create_dir(&folder).unwrap();
        self.table.checkpoint(&folder).unwrap();
        let again = Table::recover(&folder, &Options::default());
        fs::remove_dir_all(&folder).unwrap();
        let wanted = self.rows_of(self.model.tables.len() - 1);
        assert_eq!(wanted, rows_of(self.table));
        assert_eq!(wanted, rows_of(&again.unwrap()));
        assert_eq!(self.model.number(), self.table.sizes().commits);
        for (pin, open) in &self.pins {
            assert_eq!(self.rows_of(pin.number() as usize), seen_by(&pin.begin().unwrap()));
            assert_eq!(open.version(), pin.number());
        }
    }
}

fn rows_of(table: &Table) -> Vec<Cells> {
    seen_by(&table.begin().unwrap())
}

fn seen_by(txn: &Transaction<'_>) -> Vec<Cells> {
    (0..txn.rows()).map(|position| txn.row_at(position).unwrap().unwrap().into()).collect()
}

fn cells_of(values: &Values<'_>) -> Cells {
    match values {
        Values::Ints(ints) => ints.iter().map(Cell::Int).collect(),
        Values::Texts(texts) => texts.iter().map(|text| Cell::Text(text.to_owned())).collect(),
        Values::Bools(booleans) => booleans.iter().map(|boolean| Cell::Bool(*boolean)).collect(),
        _ => panic!("another type of column"),
    }
}

/// Names the run and the call in which an assertion failed.
struct Place {
    seed: u64,
    call: usize,
}

impl Drop for Place {
    fn drop(&mut self) {
        if std::thread::panicking() {
            eprintln!("seed {}, call {}", self.seed, self.call);
        }
    }
}

/// Makes so many calls, and answers how many got each reply.
pub fn run(seed: u64, calls: usize) -> Counts {
    let mut draw = Draw(seed);
    let (head, key_columns, types) = draw.one_of(&SCHEMAS);
    let rules = Rules {
        key_columns,
        recent: draw.one_of(&[2, 65_536, 65_536]),
        row_limit: draw.one_of(&[15, 40, 2_147_483_647]),
        by_row: draw.below(2) == 1,
    };
    let rows = (0..draw.one_of(&[0, 8, 14])).map(|_| row(&mut draw, types, key_columns)).collect::<Vec<_>>();
    let model = Model::new(rules, rows);
    let options = Options {
        recent: rules.recent,
        row_limit: rules.row_limit as u64,
        conflicts: if rules.by_row { ConflictRule::ByRow } else { ConflictRule::ByColumn },
    };
    let table = Table::open(csv_of(head, model.newest().values()), &options).unwrap();
    let mut run = Run { draw, table: &table, types, model, pins: Vec::new(), folds: 0 };
    let mut clients = [const { None }; CLIENTS];
    let (mut counts, mut place) = (Counts::new(), Place { seed, call: 0 });
    while place.call < calls {
        *counts.entry(run.step(&mut clients)).or_default() += 1;
        place.call += 1;
    }
    drop(clients);
    run.check_end(seed);
    counts
}
