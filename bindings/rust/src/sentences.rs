//! The sentences of errors that this crate finds before the library does: with the same words, and as bounded.
use crate::{CellRef, Column, ColumnType, Error, ErrorKind};
use std::fmt::{self, Write};

/// How many characters of a text are shown.
const SHOWN: usize = 64;

/// Text that grows as far as there is memory.
struct Growing(String);

impl Write for Growing {
    fn write_str(&mut self, more: &str) -> fmt::Result {
        self.0.try_reserve(more.len()).map_err(|_| fmt::Error)?;
        self.0.push_str(more);
        Ok(())
    }
}

/// A text of its own, or none where memory is refused.
pub(crate) fn boxed(text: &str) -> Option<Box<str>> {
    let mut own = String::new();
    own.try_reserve_exact(text.len()).ok()?;
    own.push_str(text);
    Some(own.into_boxed_str()) // as long as its room: it isn't moved
}

/// A sentence, or none where memory is refused.
pub(crate) fn spelt(sentence: fmt::Arguments<'_>) -> Option<Box<str>> {
    let mut text = Growing(String::new());
    text.write_fmt(sentence).ok()?;
    boxed(&text.0)
}

/// A name or a text in quotes, with control characters escaped, and dots behind it where it is cut.
pub(crate) struct Quoted<'t>(pub(crate) &'t str);

impl fmt::Display for Quoted<'_> {
    fn fmt(&self, f: &mut fmt::Formatter<'_>) -> fmt::Result {
        f.write_char('"')?;
        let mut characters = self.0.chars();
        for character in characters.by_ref().take(SHOWN) {
            match character {
                '\n' => f.write_str("\\n")?,
                '\r' => f.write_str("\\r")?,
                '\t' => f.write_str("\\t")?,
                '"' | '\\' => write!(f, "\\{character}")?,
                character if character.is_control() => write!(f, "\\x{:02x}", u32::from(character))?,
                character => f.write_char(character)?,
            }
        }
        f.write_str(if characters.next().is_some() { "\".." } else { "\"" })
    }
}

/// A cell as it is shown.
struct Shown<'c>(CellRef<'c>);

impl fmt::Display for Shown<'_> {
    fn fmt(&self, f: &mut fmt::Formatter<'_>) -> fmt::Result {
        match self.0 {
            CellRef::Int(number) => number.fmt(f),
            CellRef::Text(text) => Quoted(text).fmt(f),
            CellRef::Bool(boolean) => boolean.fmt(f),
        }
    }
}

fn word(column_type: ColumnType) -> &'static str {
    match column_type {
        ColumnType::Int => "int",
        ColumnType::Text => "text",
        ColumnType::Bool => "bool",
    }
}

/// A cell of another type than its column.
pub(crate) fn no_cell(cell: CellRef<'_>, column: &Column) -> Error {
    let article = if column.column_type == ColumnType::Int { "an" } else { "a" };
    let (name, wanted) = (Quoted(&column.name), word(column.column_type));
    Error::with(ErrorKind::TypeMismatch, format_args!("column {name}: {} is not {article} {wanted}", Shown(cell)))
}

/// A row or a key with too few or too many cells.
pub(crate) fn no_row(what: &str, cells: usize, wanted: usize) -> Error {
    let (s, are) = (if cells == 1 { "" } else { "s" }, if wanted == 1 { "is" } else { "are" });
    Error::with(ErrorKind::TypeMismatch, format_args!("the {what} has {cells} cell{s}, and {wanted} {are} wanted"))
}

/// A column of these, by its place.
pub(crate) fn column(columns: &[Column], at: usize) -> Result<&Column, Error> {
    columns.get(at).ok_or_else(|| {
        let count = columns.len();
        Error::with(ErrorKind::TypeMismatch, format_args!("there is no column {at}: the table has {count}"))
    })
}

/// Looks that a column is of a type.
pub(crate) fn column_of(columns: &[Column], at: usize, wanted: ColumnType) -> Result<(), Error> {
    let column = column(columns, at)?;
    if column.column_type == wanted {
        return Ok(());
    }
    let (name, found, wanted) = (Quoted(&column.name), word(column.column_type), word(wanted));
    let told = format_args!("column {name} is of type {found}, and type {wanted} is wanted");
    Err(Error::with(ErrorKind::TypeMismatch, told))
}

#[cfg(test)]
mod tests {
    use super::*;

    #[test]
    fn texts_are_shown_as_the_library_shows_them() {
        let (whole, long) = ("é".repeat(64), "é".repeat(65));
        let cases = [
            ("Ann", "\"Ann\"".to_string()),
            ("", "\"\"".to_string()),
            ("a\nb\r\t", "\"a\\nb\\r\\t\"".to_string()),
            ("say \"no\" \\", "\"say \\\"no\\\" \\\\\"".to_string()),
            ("a\0b\u{1b}\u{7f}", "\"a\\x00b\\x1b\\x7f\"".to_string()),
            ("\u{85}\u{a0}", "\"\\x85\u{a0}\"".to_string()),
            (&whole, format!("\"{whole}\"")),
            (&long, format!("\"{whole}\"..")),
        ];
        for (text, shown) in cases {
            assert_eq!(shown, Quoted(text).to_string());
        }
    }
}
