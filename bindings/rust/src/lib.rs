//! Narthexmace from Rust: an ordered table under snapshot isolation, which takes updates without touching its sorted
//! columns.
//!
//! A [`Table`] is an ordered table that threads share. A [`Transaction`] reads the version of its begin with its own
//! writes, row by row or column by column ([`Batch`]), and is committed, or aborted when it is dropped. If two
//! transactions change the same cells, the first to commit wins, and the other one gets a conflict. A [`Pin`] keeps a
//! version, so that several threads begin over it. [`Table::changes_after`] returns what each commit changed
//! (change data capture), and [`Table::wait`] blocks until the next one.
//!
//! A [`Database`] is a folder of durable tables. Acknowledged commits over one of them ([`TableRef`]), or over several
//! by a [`DatabaseTransaction`], are there when the folder is opened again.
//!
//! ```
//! use narthexmace::{Error, Options, Table, cells};
//!
//! let table = Table::open("id:int:key,name:text,qty:int\n10,Ann,7\n20,Bob,2\n", &Options::default())?;
//! let mut txn = table.begin()?;
//! txn.set([10], 2, 5)?;
//! txn.insert(cells![30, "Cid", 4])?;
//! assert_eq!(3, txn.rows());
//! assert_eq!(Some("Cid"), txn.row_at(2)?.unwrap()[1].as_text());
//! assert_eq!(1, txn.commit()?);
//! # Ok::<(), Error>(())
//! ```
//!
//! The crate needs nothing but std, and the library.
//!
//! # Linking
//!
//! The build looks for the library in this order:
//!
//! 1. in the folder that `PDT_LIB_DIR` names in the environment of cargo; if it isn't there, nothing else is tried;
//! 2. where pkg-config has `pdt` of the version of this crate, as `make install` leaves it. `PKG_CONFIG` may name
//!    another program, and `PKG_CONFIG_PATH` more folders;
//! 3. in `../../libpdt/out` beside this crate, where `make libpdt` builds it at the top of the repository.
//!
//! If a folder has both, the static library `libpdt.a` is linked, so that the program needs no other file; or else
//! `libpdt.so`, which the program has to find when it runs. The documentation is built without a library:
//! `DOCS_RS=1 cargo doc`.
//!
//! # Memory
//!
//! If memory is refused, also to this crate, a call returns [`ErrorKind::NoMemory`], and the table and the transaction
//! are unchanged.
//!
//! # Errors
//!
//! An [`Error`] has a kind to match on, and a sentence with the column, the value and the key. Each call lists the kinds
//! that it returns. After an error nothing has changed, unless the call says otherwise.
//!
//! ```
//! # use narthexmace::{Error, ErrorKind, Options, Table, cells};
//! # let table = Table::open("id:int:key,qty:int\n7,1\n", &Options::default())?;
//! let mut txn = table.begin()?;
//! match txn.insert([7, 2]) {
//!     Err(error) if error == ErrorKind::Duplicate => txn.set([7], 1, 2)?,
//!     answer => answer?,
//! }
//! assert_eq!("column \"qty\": \"x\" is not an int", txn.set([7], 1, "x").unwrap_err().to_string());
//! # Ok::<(), Error>(())
//! ```
//!
//! # What doesn't compile
//!
//! A batch borrows its transaction, so that it can't outlive it:
//!
//! ```compile_fail,E0505
//! # use narthexmace::{Error, Options, Table};
//! # let table = Table::open("id:int:key\n10\n", &Options::default())?;
//! let txn = table.begin()?;
//! let batch = txn.batch(&[0], ..)?;
//! drop(txn);
//! println!("{}", batch.rows());
//! # Ok::<(), Error>(())
//! ```
//!
//! nor see a write:
//!
//! ```compile_fail,E0502
//! # use narthexmace::{Error, Options, Table};
//! # let table = Table::open("id:int:key\n10\n", &Options::default())?;
//! let mut txn = table.begin()?;
//! let batch = txn.batch(&[0], ..)?;
//! txn.delete([10])?;
//! println!("{}", batch.rows());
//! # Ok::<(), Error>(())
//! ```
//!
//! and neither does a text that is borrowed:
//!
//! ```compile_fail,E0502
//! # use narthexmace::{Error, Options, Table};
//! # let table = Table::open("id:int:key,name:text\n10,Ann\n", &Options::default())?;
//! let mut txn = table.begin()?;
//! let names = txn.texts(1, ..)?;
//! txn.set([10], 1, "Bob")?;
//! println!("{}", names[0]);
//! # Ok::<(), Error>(())
//! ```
//!
//! The numbers of a span are the transaction's: a span may be kept when its batch is gone, and can't outlive the
//! transaction.
//!
//! ```
//! # use narthexmace::{Error, Options, Table};
//! # let table = Table::open("id:int:key\n10\n", &Options::default())?;
//! let txn = table.begin()?;
//! let span = txn.batch(&[0], ..)?.ints(0).unwrap().int_spans()[0];
//! assert_eq!([10], span.as_slice());
//! # Ok::<(), Error>(())
//! ```
//!
//! ```compile_fail,E0505
//! # use narthexmace::{Error, Options, Table};
//! # let table = Table::open("id:int:key\n10\n", &Options::default())?;
//! let txn = table.begin()?;
//! let span = txn.batch(&[0], ..)?.ints(0).unwrap().int_spans()[0];
//! drop(txn);
//! println!("{:?}", span.as_slice());
//! # Ok::<(), Error>(())
//! ```
//!
//! A transaction borrows its table, where it doesn't keep a share of it ([`Table::begin_shared`]):
//!
//! ```compile_fail,E0505
//! # use narthexmace::{Error, Options, Table};
//! let table = Table::open("id:int:key\n10\n", &Options::default())?;
//! let txn = table.begin()?;
//! drop(table);
//! println!("{}", txn.rows());
//! # Ok::<(), Error>(())
//! ```
//!
//! and so does a pin:
//!
//! ```compile_fail,E0505
//! # use narthexmace::{Error, Options, Table};
//! let table = Table::open("id:int:key\n10\n", &Options::default())?;
//! let pin = table.pin()?;
//! drop(table);
//! println!("{}", pin.number());
//! # Ok::<(), Error>(())
//! ```
//!
//! A transaction that began at a pin may outlive it:
//!
//! ```
//! # use narthexmace::{Error, Options, Table};
//! # let table = Table::open("id:int:key\n10\n", &Options::default())?;
//! let pin = table.pin()?;
//! let txn = pin.begin()?;
//! drop(pin);
//! assert_eq!(1, txn.rows());
//! # Ok::<(), Error>(())
//! ```
//!
//! A commit takes the transaction:
//!
//! ```compile_fail,E0382
//! # use narthexmace::{Error, Options, Table};
//! # let table = Table::open("id:int:key\n10\n", &Options::default())?;
//! let mut txn = table.begin()?;
//! txn.commit()?;
//! txn.insert([20])?;
//! # Ok::<(), Error>(())
//! ```
//!
//! A commit that is prepared has the table's lock, and stays on its thread:
//!
//! ```compile_fail,E0277
//! # use narthexmace::{Error, Options, Table};
//! # let table = Table::open("id:int:key\n10\n", &Options::default())?;
//! let prepared = table.begin()?.prepare()?;
//! std::thread::scope(|threads| {
//!     threads.spawn(move || prepared.install());
//! });
//! # Ok::<(), Error>(())
//! ```
//!
//! A transaction may be sent to a thread, but two threads can't share it:
//!
//! ```compile_fail,E0277
//! # use narthexmace::{Error, Options, Table};
//! # let table = Table::open("id:int:key\n10\n", &Options::default())?;
//! let txn = table.begin()?;
//! std::thread::scope(|threads| {
//!     threads.spawn(|| txn.rows());
//!     threads.spawn(|| txn.rows());
//! });
//! # Ok::<(), Error>(())
//! ```
//!
//! and so may what a commit changed:
//!
//! ```compile_fail,E0277
//! # use narthexmace::{Error, Options, Table};
//! # let table = Table::open("id:int:key\n10\n", &Options::default())?;
//! # let mut txn = table.begin()?;
//! # txn.delete([10])?;
//! # txn.commit()?;
//! let layer = table.changes(1)?.expect("the last commits are kept");
//! std::thread::scope(|threads| {
//!     threads.spawn(|| layer.len());
//!     threads.spawn(|| layer.len());
//! });
//! # Ok::<(), Error>(())
//! ```
//!
//! A table of a database can't outlive it:
//!
//! ```compile_fail,E0505
//! # use narthexmace::{Database, DatabaseOptions, Error};
//! let (database, _) = Database::open("shop", &DatabaseOptions::default())?;
//! let items = database.table("items")?;
//! drop(database);
//! println!("{}", items.begin()?.rows());
//! # Ok::<(), Error>(())
//! ```
//!
//! nor be there when it is closed:
//!
//! ```compile_fail,E0505
//! # use narthexmace::{Database, DatabaseOptions, Error};
//! let (database, _) = Database::open("shop", &DatabaseOptions::default())?;
//! let dbtxn = database.begin()?;
//! database.close()?;
//! dbtxn.commit()?;
//! # Ok::<(), Error>(())
//! ```
//!
//! A database transaction's part can't outlive the database transaction:
//!
//! ```compile_fail,E0505
//! # use narthexmace::{Database, DatabaseOptions, Error};
//! # let (database, _) = Database::open("shop", &DatabaseOptions::default())?;
//! # let items = database.table("items")?;
//! let dbtxn = database.begin()?;
//! let on_items = dbtxn.on(&items)?;
//! dbtxn.commit()?;
//! println!("{}", on_items.rows());
//! # Ok::<(), Error>(())
//! ```
//!
//! nor the handle of its table:
//!
//! ```compile_fail,E0505
//! # use narthexmace::{Database, DatabaseOptions, Error};
//! # let (database, _) = Database::open("shop", &DatabaseOptions::default())?;
//! # let items = database.table("items")?;
//! # let dbtxn = database.begin()?;
//! let on_items = dbtxn.on(&items)?;
//! drop(items);
//! println!("{}", on_items.rows());
//! # Ok::<(), Error>(())
//! ```
//!
//! and has no commit of its own:
//!
//! ```compile_fail,E0599
//! # use narthexmace::{Database, DatabaseOptions, Error};
//! # let (database, _) = Database::open("shop", &DatabaseOptions::default())?;
//! # let items = database.table("items")?;
//! # let dbtxn = database.begin()?;
//! dbtxn.on(&items)?.commit()?;
//! # Ok::<(), Error>(())
//! ```
//!
//! A database transaction may be sent to a thread, but two threads can't share it:
//!
//! ```compile_fail,E0277
//! # use narthexmace::{Database, DatabaseOptions, Error};
//! # let (database, _) = Database::open("shop", &DatabaseOptions::default())?;
//! # let items = database.table("items")?;
//! let dbtxn = database.begin()?;
//! std::thread::scope(|threads| {
//!     threads.spawn(|| dbtxn.on(&items).is_ok());
//!     threads.spawn(|| dbtxn.on(&items).is_ok());
//! });
//! # Ok::<(), Error>(())
//! ```
//!
//! and its transactions stay on its thread:
//!
//! ```compile_fail,E0277
//! # use narthexmace::{Database, DatabaseOptions, Error};
//! # let (database, _) = Database::open("shop", &DatabaseOptions::default())?;
//! # let items = database.table("items")?;
//! let dbtxn = database.begin()?;
//! let on_items = dbtxn.on(&items)?;
//! std::thread::scope(|threads| {
//!     threads.spawn(move || on_items.rows());
//! });
//! # Ok::<(), Error>(())
//! ```
#![warn(clippy::missing_errors_doc)]
#![deny(missing_docs, unsafe_op_in_unsafe_fn, clippy::undocumented_unsafe_blocks)]

mod arrow;
mod batch;
mod cells;
mod changes;
mod checkpoint;
mod columns;
mod counts;
mod database;
mod database_transaction;
mod error;
mod ffi;
mod keeper;
mod opening;
mod options;
mod pin;
mod plain;
mod prepared;
mod reads;
mod row_runs;
mod savepoints;
mod sentences;
mod table;
mod table_ref;
mod texts;
mod transaction;

pub use arrow::{Apply, ArrowArray, ArrowArrayStream, ArrowColumn, ArrowError, ArrowRefusal, ArrowSchema};
pub use batch::{Batch, Batches, IntSpan, Ints, Texts, Values};
pub use cells::{Cell, CellRef, Row};
pub use changes::{Change, Changes, Entries, Entry, Layer};
pub use checkpoint::Checkpoint;
pub use columns::{CheckpointError, CheckpointPart, ColumnValues, ColumnsError};
pub use counts::Counts;
pub use database::{CloseError, Database};
pub use database_transaction::{DatabaseTransaction, InDatabase, Part};
pub use error::{CommitError, DatabaseCommitError, Error, ErrorKind, OpenError, Refusal, TableFault};
pub use opening::{DatabaseCounts, DatabaseError, DatabaseOptions, Report, SyncMode};
pub use options::{ConflictRule, Options};
pub use pin::Pin;
pub use plain::{PlainCsv, csv_has_types};
pub use prepared::Prepared;
pub use row_runs::{RowRun, RowRuns};
pub use savepoints::Savepoint;
pub use table::{Column, ColumnType, Sizes, Table};
pub use table_ref::TableRef;
pub use transaction::{Alone, Ending, Rank, Transaction};

/// The version of the library that runs, as `0.3.0-dev`.
///
/// ```
/// assert_eq!(3, narthexmace::version().split('.').count());
/// ```
pub fn version() -> &'static str {
    // SAFETY: the version is never null, ends with a zero, and is there as long as the program.
    let version = unsafe { std::ffi::CStr::from_ptr::<'static>(ffi::pdt_version()) };
    version.to_str().unwrap_or("")
}
