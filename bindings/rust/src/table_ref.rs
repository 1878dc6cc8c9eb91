//! A table of a database, and the handles of each.
use crate::keeper::Keeper;
use crate::{Database, Error, ErrorKind, Table, ffi};
use std::fmt;
use std::ops::Deref;

/// A table of a [`Database`], which it borrows: a [`Table`] for all calls that a table has. Dropping it doesn't close
/// the table.
///
/// [`Database::table_shared`] returns a [`Table`] that keeps a share of its database instead, so that a session can
/// keep both.
///
/// ```
/// # fn run(folder: &std::path::Path) -> Result<(), narthexmace::Error> {
/// use narthexmace::{Database, DatabaseOptions, Options};
/// let (database, _) = Database::open(folder, &DatabaseOptions::default())?;
/// let items = database.create("items", "id:int:key,qty:int\n10,7\n", &Options::default())?;
/// let mut txn = items.begin()?;
/// txn.set([10], 1, 5)?;
/// assert_eq!(1, txn.commit()?); // and it is on the device
/// assert_eq!(1, items.changes(1)?.expect("the last commits are kept").len());
/// # Ok(())
/// # }
/// # let folder = std::env::temp_dir().join(format!("narthexmace-table-{}", std::process::id()));
/// # run(&folder).unwrap();
/// # std::fs::remove_dir_all(&folder).unwrap();
/// ```
pub struct TableRef<'d> {
    table: Table,
    /// Keeps the database open, and the table from being dropped.
    _handle: Handle<'d>,
}

impl<'d> TableRef<'d> {
    /// The table that a handle is of.
    ///
    /// # Safety
    /// `raw` is the handle's table.
    pub(crate) unsafe fn adopt(raw: *mut ffi::Table, handle: Handle<'d>) -> Result<TableRef<'d>, Error> {
        // SAFETY: the table is one of a database, both of which stay as long as the handle, which is dropped after
        // the table.
        let table = unsafe { Table::of_database(raw, None) }?;
        Ok(TableRef { table, _handle: handle })
    }
}

impl Deref for TableRef<'_> {
    type Target = Table;

    fn deref(&self) -> &Table {
        &self.table
    }
}

impl fmt::Debug for TableRef<'_> {
    fn fmt(&self, f: &mut fmt::Formatter<'_>) -> fmt::Result {
        f.debug_struct("TableRef").field("columns", &self.columns()).finish_non_exhaustive()
    }
}

/// One of those who have a table: while it is there its database stays open, and the table isn't dropped.
pub(crate) struct Handle<'d> {
    pub(crate) database: Keeper<'d, Database>,
    /// The table's address.
    pub(crate) table: usize,
}

impl Drop for Handle<'_> {
    fn drop(&mut self) {
        self.database.handles().let_go(self.table);
    }
}

/// The handles of a database's tables, counted. Tables are known by their addresses.
#[derive(Default)]
pub(crate) struct Handles(Vec<Had>);

/// A table that has handles, or that is being dropped.
struct Had {
    table: usize,
    handles: usize,
    leaves: bool,
}

impl Handles {
    fn of(&mut self, table: usize) -> Option<usize> {
        self.0.iter().position(|had| had.table == table)
    }

    /// Counts one handle of a table more. `Missing` if it is being dropped.
    pub(crate) fn take(&mut self, table: usize) -> Result<(), Error> {
        match self.of(table) {
            Some(at) if self.0[at].leaves => return Err(ErrorKind::Missing.into()),
            Some(at) => self.0[at].handles += 1,
            None => {
                self.0.try_reserve(1)?;
                self.0.push(Had { table, handles: 1, leaves: false });
            }
        }
        Ok(())
    }

    /// Counts one handle of a table less.
    fn let_go(&mut self, table: usize) {
        let at = self.of(table).expect("whoever has a table was counted");
        self.0[at].handles -= 1;
        if self.0[at].handles == 0 {
            self.0.swap_remove(at);
        }
    }

    /// Refuses further handles of a table. `Misuse` if it has handles, or is being dropped already.
    pub(crate) fn begin_drop(&mut self, table: usize) -> Result<(), Error> {
        if self.of(table).is_some() {
            return Err(ErrorKind::Misuse.into());
        }
        self.0.try_reserve(1)?;
        self.0.push(Had { table, handles: 0, leaves: true });
        Ok(())
    }

    /// The table is gone, or may be taken again.
    pub(crate) fn end_drop(&mut self, table: usize) {
        let at = self.of(table).expect("the drop of the table has begun");
        self.0.swap_remove(at);
    }
}
