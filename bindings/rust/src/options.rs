//! What a table is opened with.
use crate::{Error, ErrorKind, ffi};

/// The limits of a table.
#[derive(Clone, Copy, Debug, PartialEq, Eq)]
pub struct Options {
    /// How many commits may come between a transaction's begin and its commit: 1 to 65,536, which is the default.
    pub recent: usize,
    /// How many rows the table may have: 1 to 2,147,483,647, which is the default.
    pub row_limit: u64,
    /// Which changes of one row conflict; by column by default.
    pub conflicts: ConflictRule,
}

/// Which changes of one row conflict. An insert, a delete or a replacement of the row conflicts by either rule.
#[derive(Clone, Copy, Debug, Default, PartialEq, Eq)]
pub enum ConflictRule {
    /// Changes of one column.
    #[default]
    ByColumn,
    /// Any two changes.
    ByRow,
}

impl Default for Options {
    fn default() -> Options {
        Options { recent: 65_536, row_limit: 2_147_483_647, conflicts: ConflictRule::ByColumn }
    }
}

impl Options {
    /// For the library, to which a zero stands for the default: here it is a limit outside its range.
    pub(crate) fn passed(&self) -> Result<ffi::Options, Error> {
        if self.recent == 0 {
            return Err(Error::with(ErrorKind::BadLimit, format_args!("recent is 0: 1 to 65,536 is wanted")));
        }
        if self.row_limit == 0 {
            return Err(Error::with(ErrorKind::BadLimit, format_args!("row_limit is 0: 1 to 2,147,483,647 is wanted")));
        }
        let by_row = self.conflicts == ConflictRule::ByRow;
        let size = size_of::<ffi::Options>();
        Ok(ffi::Options { size, recent: self.recent, row_limit: self.row_limit, by_row })
    }
}
