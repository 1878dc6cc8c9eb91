//! What a case has measured: a table that is printed, and written as CSV.
use std::fmt::{self, Write as _};
use std::fs;
use std::io;
use std::path::Path;

/// What the figures of a table are.
#[derive(Clone, Copy, PartialEq, Eq)]
pub enum Unit {
    /// Nanoseconds.
    Time,
    /// How many in a second.
    PerSecond,
    /// Megabytes (10^6 bytes) in a second.
    Megabytes,
    /// Bytes of memory.
    Bytes,
}

impl Unit {
    fn word(self) -> &'static str {
        match self {
            Unit::Time => "ns",
            Unit::PerSecond => "per second",
            Unit::Megabytes => "MB/s",
            Unit::Bytes => "bytes",
        }
    }

    fn shown(self, figure: f64) -> String {
        match self {
            _ if figure.is_nan() => "-".to_string(),
            Unit::Time if figure < 1e3 => format!("{figure:.0} ns"),
            Unit::Time if figure < 1e6 => format!("{:.2} us", figure / 1e3),
            Unit::Time if figure < 1e9 => format!("{:.2} ms", figure / 1e6),
            Unit::Time => format!("{:.2} s", figure / 1e9),
            Unit::PerSecond | Unit::Megabytes | Unit::Bytes => format!("{figure:.0}"),
        }
    }
}

/// A table: the words of each case, and a figure for each way, ours first. Each way that is ours is named so.
pub struct Figures {
    /// The name of the case, and of the file.
    pub name: &'static str,
    /// What is asked, as a sentence.
    pub question: String,
    pub unit: Unit,
    /// The heads of the words.
    pub heads: &'static [&'static str],
    /// The heads of the figures.
    pub ways: &'static [&'static str],
    pub lines: Vec<Line>,
}

/// The figure of a way that there isn't: shown as a dash.
pub const NONE: f64 = f64::NAN;

/// One line of a table.
pub struct Line {
    words: Vec<String>,
    figures: Vec<f64>,
}

impl Line {
    pub fn new(words: &[&dyn fmt::Display], figures: Vec<f64>) -> Line {
        Line { words: words.iter().map(|word| word.to_string()).collect(), figures }
    }
}

impl Figures {
    /// Writes the table into a folder, as a file of its own. Its first two lines are the run and the question.
    pub fn write(&self, folder: &Path, run: &str) -> io::Result<()> {
        let mut text = format!("# {run}\n# {}\n", self.question);
        let heads = self.heads.iter().map(|head| head.to_string());
        let ways = self.ways.iter().map(|way| format!("{way} ({})", self.unit.word()));
        text += &record(heads.chain(ways));
        for line in &self.lines {
            let figures = line.figures.iter().map(|figure| format!("{figure:.1}"));
            text += &record(line.words.iter().cloned().chain(figures));
        }
        fs::create_dir_all(folder)?;
        fs::write(folder.join(self.name).with_extension("csv"), text)
    }

    /// The cells as they are shown: beside each baseline our figure as a multiple of it.
    fn shown(&self) -> Vec<Vec<String>> {
        let mut shown = vec![self.heads.iter().map(|head| head.to_string()).collect::<Vec<_>>()];
        for way in self.ways {
            shown[0].push(way.to_string());
            shown[0].extend((!is_ours(way)).then(|| "ratio".to_string()));
        }
        for line in &self.lines {
            let mut cells = line.words.clone();
            for (way, figure) in self.ways.iter().zip(&line.figures) {
                cells.push(self.unit.shown(*figure));
                cells.extend((!is_ours(way)).then(|| ratio(line.figures[self.ours_for(way)], *figure)));
            }
            shown.push(cells);
        }
        shown
    }

    /// Which of our figures a baseline's is compared with: the one of the same word after a comma, or else the first.
    fn ours_for(&self, baseline: &str) -> usize {
        let what = baseline.split_once(", ").map(|(_, what)| what);
        let is_of_it = |way: &&str| what.is_some() && way.strip_prefix("ours, ") == what;
        self.ways.iter().position(is_of_it).unwrap_or(0)
    }
}

fn is_ours(way: &str) -> bool {
    way.starts_with("ours")
}

fn ratio(ours: f64, theirs: f64) -> String {
    if theirs.is_nan() { "-".to_string() } else { format!("{:.2}", ours / theirs) }
}

impl fmt::Display for Figures {
    fn fmt(&self, f: &mut fmt::Formatter<'_>) -> fmt::Result {
        let shown = self.shown();
        let width = |place: usize| shown.iter().map(|line| line[place].chars().count()).max().unwrap_or(0);
        let widths: Vec<usize> = (0..shown[0].len()).map(width).collect();
        writeln!(f, "{}: {}", self.name, self.question)?;
        for line in &shown {
            let mut text = String::new();
            for (cell, width) in line.iter().zip(&widths) {
                write!(text, "  {cell:>width$}")?;
            }
            writeln!(f, "{text}")?;
        }
        Ok(())
    }
}

/// A record of CSV. No cell has a quote in it.
fn record(cells: impl Iterator<Item = String>) -> String {
    let cells: Vec<String> = cells.map(|cell| if cell.contains(',') { format!("\"{cell}\"") } else { cell }).collect();
    cells.join(",") + "\n"
}

/// A number with a comma after each three digits.
pub fn grouped(number: usize) -> String {
    let digits = number.to_string();
    let mut text = String::new();
    for (place, digit) in digits.chars().enumerate() {
        if place > 0 && (digits.len() - place) % 3 == 0 {
            text.push(',');
        }
        text.push(digit);
    }
    text
}
