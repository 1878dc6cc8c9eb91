//! A table under snapshot isolation as a map that each transaction copies.
use narthexmace::{Cell, Error, ErrorKind};
use std::collections::BTreeMap;

pub type Cells = Vec<Cell>;
pub type TableRef = BTreeMap<Cells, Cells>;

/// What a transaction does to the row of a key.
#[derive(Clone)]
enum Effect {
    Insert,
    Delete,
    Change(BTreeMap<usize, Cell>),
    Replace,
}

impl Effect {
    fn clashes(&self, other: &Effect, by_row: bool) -> bool {
        match (self, other) {
            (Effect::Insert, Effect::Insert) => true,
            (Effect::Insert, _) | (_, Effect::Insert) => false,
            (Effect::Change(one), Effect::Change(two)) => by_row || one.keys().any(|column| two.contains_key(column)),
            _ => true,
        }
    }
}

/// A transaction: the commits before it, the table as it sees it, and what it did to each key.
#[derive(Clone)]
pub struct Open {
    begun: usize,
    pub table: TableRef,
    effects: BTreeMap<Cells, Effect>,
}

impl Open {
    /// The number of the table under its writes.
    pub fn version(&self) -> u64 {
        self.begun as u64
    }

    /// The keys to which something was done, and not undone.
    pub fn changed(&self) -> impl Iterator<Item = &Cells> {
        self.effects.keys()
    }
}

/// Why a commit is refused.
#[derive(Clone, Copy, Debug, PartialEq, Eq)]
pub enum Refusal {
    Conflict,
    TooOld,
    Full,
}

/// What a table is opened with.
#[derive(Clone, Copy, Debug)]
pub struct Rules {
    pub key_columns: usize,
    pub recent: usize,
    pub row_limit: usize,
    pub by_row: bool,
}

pub struct Model {
    pub rules: Rules,
    /// The table of each number: the last one is the newest.
    pub tables: Vec<TableRef>,
    commits: Vec<BTreeMap<Cells, Effect>>,
    cut_at: usize,
    pub refused: Refused,
}

/// How many commits were refused, by why.
#[derive(Debug, Default, PartialEq, Eq)]
pub struct Refused {
    pub conflicts: u64,
    pub too_old: u64,
    pub full: u64,
}

impl Model {
    pub fn new(rules: Rules, rows: impl IntoIterator<Item = Cells>) -> Model {
        let first = rows.into_iter().map(|row| (row[..rules.key_columns].to_vec(), row)).collect();
        Model { rules, tables: vec![first], commits: Vec::new(), cut_at: 0, refused: Refused::default() }
    }

    pub fn newest(&self) -> &TableRef {
        self.tables.last().expect("a table is there from the first on")
    }

    /// A transaction over the newest table: one that begins at a pin is a copy of what was made so when it was pinned.
    pub fn begin(&self) -> Open {
        Open { begun: self.commits.len(), table: self.newest().clone(), effects: BTreeMap::new() }
    }

    /// Of how many of the last commits the changes are kept.
    pub fn kept(&self) -> usize {
        (self.commits.len() - self.cut_at).min(self.rules.recent)
    }

    /// Whether the changes of the commit of a number are kept.
    pub fn is_kept(&self, number: usize) -> bool {
        number <= self.commits.len() && number + self.kept() > self.commits.len()
    }

    pub fn number(&self) -> u64 {
        self.commits.len() as u64
    }

    pub fn trim(&mut self) {
        self.cut_at = self.commits.len();
    }

    pub fn insert(&self, open: &mut Open, row: &Cells) -> Result<(), Error> {
        let key = row[..self.rules.key_columns].to_vec();
        if open.table.contains_key(&key) {
            return Err(ErrorKind::Duplicate.into());
        }
        if open.table.len() >= self.rules.row_limit {
            return Err(ErrorKind::Full.into());
        }
        let effect = if open.effects.contains_key(&key) { Effect::Replace } else { Effect::Insert };
        open.effects.insert(key.clone(), effect);
        open.table.insert(key, row.clone());
        Ok(())
    }

    pub fn delete(&self, open: &mut Open, key: &Cells) -> Result<(), Error> {
        open.table.remove(key).ok_or(ErrorKind::Missing)?;
        match open.effects.get(key) {
            Some(Effect::Insert) => open.effects.remove(key),
            _ => open.effects.insert(key.clone(), Effect::Delete),
        };
        Ok(())
    }

    pub fn set(&self, open: &mut Open, key: &Cells, column: usize, cell: &Cell) -> Result<(), Error> {
        open.table.get_mut(key).ok_or(ErrorKind::Missing)?[column] = cell.clone();
        let effect = open.effects.entry(key.clone()).or_insert_with(|| Effect::Change(BTreeMap::new()));
        if let Effect::Change(cells) = effect {
            cells.insert(column, cell.clone());
        }
        Ok(())
    }

    /// The number of the new table, or of that which a transaction that changes nothing saw, or why there is none.
    pub fn commit(&mut self, open: Open) -> Result<u64, Refusal> {
        if open.effects.is_empty() {
            return Ok(open.version());
        }
        let answer = self.decide(open);
        match answer {
            Ok(_) => {}
            Err(Refusal::Conflict) => self.refused.conflicts += 1,
            Err(Refusal::TooOld) => self.refused.too_old += 1,
            Err(Refusal::Full) => self.refused.full += 1,
        }
        answer
    }

    fn decide(&mut self, open: Open) -> Result<u64, Refusal> {
        let since = self.commits.len() - open.begun;
        if open.begun < self.cut_at || since > self.rules.recent {
            return Err(Refusal::TooOld);
        }
        if self.commits[open.begun..].iter().any(|commit| self.clash(commit, &open.effects)) {
            return Err(Refusal::Conflict);
        }
        let table = self.table_with(&open);
        if table.len() > self.rules.row_limit {
            return Err(Refusal::Full);
        }
        self.tables.push(table);
        self.commits.push(open.effects);
        Ok(self.number())
    }

    fn clash(&self, one: &BTreeMap<Cells, Effect>, other: &BTreeMap<Cells, Effect>) -> bool {
        let by_row = self.rules.by_row;
        one.iter().any(|(key, effect)| other.get(key).is_some_and(|second| effect.clashes(second, by_row)))
    }

    /// The newest table with what a transaction did.
    fn table_with(&self, open: &Open) -> TableRef {
        let mut table = self.newest().clone();
        for (key, effect) in &open.effects {
            match effect {
                Effect::Delete => drop(table.remove(key)),
                Effect::Insert | Effect::Replace => drop(table.insert(key.clone(), open.table[key].clone())),
                Effect::Change(cells) => {
                    let row = table.get_mut(key).expect("a change of a row that is gone conflicts");
                    cells.iter().for_each(|(column, cell)| row[*column] = cell.clone());
                }
            }
        }
        table
    }
}
