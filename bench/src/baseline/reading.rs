//! A plain reader of the CSV text of a table, for a text without quotes and faults.
use std::str::Lines;

/// The columns of a table.
pub struct Columns {
    pub ids: Vec<i64>,
    pub names: Texts,
    pub qtys: Vec<i64>,
}

/// Texts, one after the other.
pub struct Texts {
    ends: Vec<usize>,
    bytes: String,
}

impl Texts {
    fn new() -> Texts {
        Texts { ends: vec![0], bytes: String::new() }
    }

    fn push(&mut self, text: &str) {
        self.bytes.push_str(text);
        self.ends.push(self.bytes.len());
    }

    pub fn get(&self, place: usize) -> &str {
        &self.bytes[self.ends[place]..self.ends[place + 1]]
    }
}

/// The rows of a text after its head.
pub struct Rows<'t>(Lines<'t>);

/// The rows of a text.
pub fn rows(text: &str) -> Rows<'_> {
    let mut lines = text.lines();
    lines.next();
    Rows(lines)
}

impl<'t> Iterator for Rows<'t> {
    type Item = (i64, &'t str, i64);

    fn next(&mut self) -> Option<(i64, &'t str, i64)> {
        let mut cells = self.0.next()?.split(',');
        let id = cells.next()?.parse().ok()?;
        let name = cells.next()?;
        Some((id, name, cells.next()?.parse().ok()?))
    }
}

/// Reads a table, and brings its rows into the order of their keys where they aren't.
pub fn columns(text: &str) -> Columns {
    let mut columns = Columns { ids: Vec::new(), names: Texts::new(), qtys: Vec::new() };
    for (id, name, qty) in rows(text) {
        columns.ids.push(id);
        columns.names.push(name);
        columns.qtys.push(qty);
    }
    if columns.ids.is_sorted() { columns } else { sorted(&columns) }
}

fn sorted(columns: &Columns) -> Columns {
    let mut places: Vec<usize> = (0..columns.ids.len()).collect();
    places.sort_unstable_by_key(|place| columns.ids[*place]);
    let mut names = Texts::new();
    for place in &places {
        names.push(columns.names.get(*place));
    }
    let gathered = |column: &[i64]| places.iter().map(|place| column[*place]).collect();
    Columns { ids: gathered(&columns.ids), names, qtys: gathered(&columns.qtys) }
}
