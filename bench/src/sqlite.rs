//! SQLite, by its C interface: in memory, and in a file.
mod ffi;

use crate::data::{KeyKind, csv, name_of, numbers, qty_of};
use crate::updates::{Change, Update};
use std::env;
use std::ffi::{CStr, CString, c_int};
use std::fs;
use std::marker::PhantomData;
use std::os::unix::ffi::OsStrExt;
use std::path::Path;
use std::process;
use std::ptr::{self, NonNull};
use std::slice;

/// A database in memory, or in a file. SQLite is asked for the mode in which threads may share one.
pub struct Database {
    raw: NonNull<ffi::Sqlite3>,
}

// SAFETY: the database was opened with `OPEN_FULLMUTEX`: each call on it takes its lock.
unsafe impl Send for Database {}
// SAFETY: the same.
unsafe impl Sync for Database {}

/// How long a connection waits for others.
const BUSY_MILLISECONDS: c_int = 60_000;

/// A value that is bound to a statement.
#[derive(Clone, Copy)]
pub enum Bound<'b> {
    Int(i64),
    Text(&'b str),
}

impl Database {
    pub fn in_memory() -> Database {
        Database::opened(c":memory:", ffi::OPEN_MEMORY)
    }

    /// A connection to the database in a file, which is made where there is none. It waits for others that write.
    pub fn in_file(file: &Path) -> Database {
        let name = CString::new(file.as_os_str().as_bytes()).expect("no zero in a path");
        let database = Database::opened(&name, 0);
        // SAFETY: the database is open.
        unsafe { ffi::sqlite3_busy_timeout(database.raw.as_ptr(), BUSY_MILLISECONDS) };
        database
    }

    fn opened(name: &CStr, more: c_int) -> Database {
        let mut raw = ptr::null_mut();
        let flags = ffi::OPEN_READWRITE | ffi::OPEN_CREATE | ffi::OPEN_FULLMUTEX | more;
        // SAFETY: the name ends with a zero, and there is room for a pointer.
        let code = unsafe { ffi::sqlite3_open_v2(name.as_ptr(), &mut raw, flags, ptr::null()) };
        assert_eq!(ffi::OK, code, "SQLite opens {name:?}");
        Database { raw: NonNull::new(raw).expect("an opened database") }
    }

    /// Loads an extension, from a file without its ending.
    fn load(&self, file: &str) {
        let text = CString::new(file).expect("no zero in a path");
        // SAFETY: the database is open, the text ends with a zero, and no entry and no fault is asked for.
        let code = unsafe {
            ffi::sqlite3_enable_load_extension(self.raw.as_ptr(), 1);
            ffi::sqlite3_load_extension(self.raw.as_ptr(), text.as_ptr(), ptr::null(), ptr::null_mut())
        };
        assert_eq!(ffi::OK, code, "{file}: {} (make -C bindings/sqlite)", self.said());
    }

    /// A statement, compiled.
    pub fn statement(&self, sql: &str) -> Statement<'_> {
        let text = CString::new(sql).expect("no zero in a statement");
        let mut raw = ptr::null_mut();
        // SAFETY: the database is open, the text ends with a zero, and there is room for a pointer.
        let code = unsafe { ffi::sqlite3_prepare_v2(self.raw.as_ptr(), text.as_ptr(), -1, &mut raw, ptr::null_mut()) };
        assert_eq!(ffi::OK, code, "{sql}: {}", self.said());
        Statement { raw: NonNull::new(raw).expect("a statement that isn't empty"), database: self }
    }

    /// Runs a statement that hands out no rows.
    pub fn run(&self, sql: &str) {
        self.statement(sql).run(&[]);
    }

    /// The number that a statement hands out.
    pub fn number(&self, sql: &str) -> i64 {
        self.statement(sql).number(&[])
    }

    fn said(&self) -> String {
        // SAFETY: the database is open, and what it says ends with a zero.
        unsafe { CStr::from_ptr(ffi::sqlite3_errmsg(self.raw.as_ptr())) }.to_string_lossy().into_owned()
    }
}

impl Drop for Database {
    fn drop(&mut self) {
        // SAFETY: each statement borrows the database, so that none is left.
        unsafe { ffi::sqlite3_close(self.raw.as_ptr()) };
    }
}

/// A compiled statement.
pub struct Statement<'d> {
    raw: NonNull<ffi::Stmt>,
    database: &'d Database,
}

// SAFETY: calls on a statement take its database's lock.
unsafe impl Send for Statement<'_> {}

impl Statement<'_> {
    /// Runs the statement, which hands out no rows.
    pub fn run(&mut self, values: &[Bound<'_>]) {
        self.each(values, |_| ());
    }

    /// The number in the first column of the row that it hands out.
    pub fn number(&mut self, values: &[Bound<'_>]) -> i64 {
        let mut number = None;
        self.each(values, |row| number = Some(row.int(0)));
        number.expect("a row")
    }

    /// Runs the statement, and calls for each row that it hands out.
    pub fn each(&mut self, values: &[Bound<'_>], mut call: impl FnMut(&SqliteRow<'_>)) {
        // SAFETY: the statement is there.
        let wanted = unsafe { ffi::sqlite3_bind_parameter_count(self.raw.as_ptr()) };
        assert_eq!(wanted as usize, values.len(), "as many values as the statement has places");
        for (place, value) in values.iter().enumerate() {
            assert_eq!(ffi::OK, self.bind(place as c_int + 1, *value), "{}", self.database.said());
        }
        loop {
            // SAFETY: the statement is there, and what is bound to it too, in each of its places.
            match unsafe { ffi::sqlite3_step(self.raw.as_ptr()) } {
                ffi::ROW => call(&SqliteRow { raw: self.raw, statement: PhantomData }),
                ffi::DONE => break,
                _ => panic!("{}", self.database.said()),
            }
        }
        // SAFETY: the statement is there.
        unsafe { ffi::sqlite3_reset(self.raw.as_ptr()) };
    }

    fn bind(&self, place: c_int, value: Bound<'_>) -> c_int {
        match value {
            // SAFETY: the statement is there.
            Bound::Int(number) => unsafe { ffi::sqlite3_bind_int64(self.raw.as_ptr(), place, number) },
            // SAFETY: the statement is there. SQLite keeps where the text lies (its destructor is null), and reads it
            // only in `each`, which has borrowed it; the next run binds each place anew.
            Bound::Text(text) => unsafe {
                let bytes = text.len() as c_int;
                ffi::sqlite3_bind_text(self.raw.as_ptr(), place, text.as_ptr().cast(), bytes, ptr::null())
            },
        }
    }
}

impl Drop for Statement<'_> {
    fn drop(&mut self) {
        // SAFETY: the statement is there, and nobody uses it any more.
        unsafe { ffi::sqlite3_finalize(self.raw.as_ptr()) };
    }
}

/// A row as a statement hands it out.
pub struct SqliteRow<'r> {
    raw: NonNull<ffi::Stmt>,
    statement: PhantomData<&'r ()>,
}

impl SqliteRow<'_> {
    pub fn int(&self, column: c_int) -> i64 {
        // SAFETY: the statement stands at a row.
        unsafe { ffi::sqlite3_column_int64(self.raw.as_ptr(), column) }
    }

    pub fn text(&self, column: c_int) -> String {
        // SAFETY: the statement stands at a row; a text that isn't null has so many bytes, until the next step.
        let bytes = unsafe {
            let at = ffi::sqlite3_column_text(self.raw.as_ptr(), column);
            assert!(!at.is_null(), "a text");
            slice::from_raw_parts(at, ffi::sqlite3_column_bytes(self.raw.as_ptr(), column) as usize)
        };
        String::from_utf8(bytes.to_vec()).expect("a text of SQLite's is UTF-8")
    }
}

/// Which version of SQLite it is.
pub fn version() -> String {
    // SAFETY: the text ends with a zero, and is there as long as the program.
    unsafe { CStr::from_ptr(ffi::sqlite3_libversion()) }.to_string_lossy().into_owned()
}

pub const CREATE: &str = "CREATE TABLE items (id INTEGER PRIMARY KEY, name TEXT NOT NULL, qty INTEGER NOT NULL)";
pub const INSERT: &str = "INSERT INTO items VALUES (?, ?, ?)";
pub const DELETE: &str = "DELETE FROM items WHERE id = ?";
pub const SET: &str = "UPDATE items SET qty = ? WHERE id = ?";
pub const SUM: &str = "SELECT sum(qty) FROM items";
/// The sum of the quantities, and how many rows there are, in one number.
pub const STATE: &str = "SELECT sum(qty) + count(*) FROM items";

/// A database with the empty table that the cases use.
pub fn empty() -> Database {
    let database = Database::in_memory();
    database.run(CREATE);
    database
}

/// A connection to a database in a file, with a write-ahead log and so durable as a word of `synchronous` says.
pub fn logged(file: &Path, synchronous: &str) -> Database {
    let database = Database::in_file(file);
    database.run("PRAGMA journal_mode = WAL");
    database.run(&format!("PRAGMA synchronous = {synchronous}"));
    database
}

/// A database with a table of so many rows.
pub fn table(rows: usize) -> Database {
    let database = empty();
    fill(&database, rows);
    database
}

/// Inserts so many rows into an empty table.
pub fn fill(database: &Database, rows: usize) {
    database.run("BEGIN");
    let mut insert = database.statement(INSERT);
    for number in numbers(rows) {
        insert.run(&[Bound::Int(number), Bound::Text(&name_of(number)), Bound::Int(qty_of(number))]);
    }
    drop(insert);
    database.run("COMMIT");
}

/// A database whose table of so many rows is a virtual one, of the extension `bindings/sqlite`.
pub fn virtual_table(rows: usize) -> Database {
    let database = Database::in_memory();
    database.load(concat!(env!("CARGO_MANIFEST_DIR"), "/../bindings/sqlite/out/pdt"));
    let file = env::temp_dir().join(format!("bench-{}.csv", process::id()));
    fs::write(&file, csv(KeyKind::Int, numbers(rows))).expect("a file in the folder for such");
    database.run(&format!("CREATE VIRTUAL TABLE items USING pdt('{}')", file.display()));
    fs::remove_file(&file).expect("the file is there");
    database
}

/// A database whose table of so many rows is a virtual one over a vector: `bench/vector.c`.
pub fn vector(rows: usize) -> Database {
    let database = Database::in_memory();
    database.load(concat!(env!("CARGO_MANIFEST_DIR"), "/out/vector"));
    database.run(&format!("CREATE VIRTUAL TABLE items USING vector({rows})"));
    database
}

/// Makes updates in the transaction that is open.
pub fn make(database: &Database, updates: &[Update]) {
    let (mut insert, mut delete, mut set) =
        (database.statement(INSERT), database.statement(DELETE), database.statement(SET));
    for update in updates {
        let id = Bound::Int(update.number);
        match update.change {
            Change::Insert(qty) => insert.run(&[id, Bound::Text(&name_of(update.number)), Bound::Int(qty)]),
            Change::Delete => delete.run(&[id]),
            Change::Set(qty) => set.run(&[Bound::Int(qty), id]),
        }
    }
}
