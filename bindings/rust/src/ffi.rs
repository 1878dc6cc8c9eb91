//! The declarations of `libpdt/include/pdt.h`, in its order.
mod arrow;
mod databases;

pub use arrow::*;
pub use databases::*;
use std::ffi::{c_char, c_int, c_void};
use std::marker::{PhantomData, PhantomPinned};

/// A `pdt_table`, known by its address.
#[repr(C)]
pub struct Table {
    private: [u8; 0],
    pinned: PhantomData<(*mut u8, PhantomPinned)>,
}

/// A `pdt_txn`, known by its address.
#[repr(C)]
pub struct Txn {
    private: [u8; 0],
    pinned: PhantomData<(*mut u8, PhantomPinned)>,
}

/// A `pdt_open_checkpoint`, known by its address.
#[repr(C)]
pub struct OpenCheckpoint {
    private: [u8; 0],
    pinned: PhantomData<(*mut u8, PhantomPinned)>,
}

/// A `pdt_pinned`, known by its address.
#[repr(C)]
pub struct Pinned {
    private: [u8; 0],
    pinned: PhantomData<(*mut u8, PhantomPinned)>,
}

/// A `pdt_layer`, known by its address.
#[repr(C)]
pub struct Layer {
    private: [u8; 0],
    pinned: PhantomData<(*mut u8, PhantomPinned)>,
}

#[repr(C)]
pub struct Options {
    pub size: usize,
    pub recent: usize,
    pub row_limit: u64,
    pub by_row: bool,
}

#[repr(C)]
#[derive(Default)]
pub struct Sizes {
    pub commits: u64,
    pub write_entries: usize,
    pub read_entries: usize,
    pub open_transactions: usize,
}

#[repr(C)]
pub struct Plain {
    pub size: usize,
    pub key: *const *const c_char,
    pub key_count: usize,
    pub sample: usize,
}

#[repr(C)]
#[derive(Default)]
pub struct Counts {
    pub size: usize,
    pub begins: u64,
    pub commits: u64,
    pub conflicts: u64,
    pub too_old: u64,
    pub full: u64,
    pub folds: u64,
    pub checkpoints: u64,
    pub superseded: u64,
    pub pins: usize,
    pub oldest_pin: u64,
    pub kept: usize,
    pub kept_entries: u64,
    pub waits: u64,
    pub longest_hold: u64,
    pub packs: u64,
}

#[repr(C)]
#[derive(Default)]
pub struct Entry {
    pub sid: u64,
    pub rid: u64,
    pub column: usize,
    pub cells: usize,
    pub bytes: usize,
    pub kind: u32,
}

#[repr(C)]
#[derive(Clone, Copy)]
pub struct IntSpan {
    pub at: *const i64,
    pub count: u64,
    pub number: i64,
}

#[repr(C)]
#[derive(Clone, Copy, Debug, Default)]
pub struct RowRun {
    pub position: u64,
    pub rows: u64,
    pub sid: u64,
    pub source: u32,
}

#[repr(C)]
pub struct Column {
    pub name: *const c_char,
    pub column_type: c_int,
    pub rows: u64,
    pub numbers: *const i64,
    pub offsets: *const u64,
    pub bytes: *const u8,
    pub len: usize,
}

#[repr(C)]
#[derive(Default)]
pub struct Place {
    pub row: u64,
    pub column: u64,
}

#[repr(C)]
pub struct Fault {
    pub place: Place,
    pub cause: *const c_char,
}

#[repr(C)]
pub struct Bytes {
    pub at: *const c_void,
    pub len: usize,
}

/// A function that takes the bytes of a checkpoint.
pub type Write = unsafe extern "C" fn(*mut c_void, usize, *const u8, usize) -> c_int;

/// The column of the header's bytes.
pub const HEADER: usize = usize::MAX;

pub const OK: c_int = 0;
pub const NOMEM: c_int = 1;
pub const CONFLICT: c_int = 2;
pub const TOO_OLD: c_int = 3;
pub const FULL: c_int = 4;
pub const DUPLICATE: c_int = 5;
pub const MISSING: c_int = 6;
pub const SHAPE: c_int = 7;
pub const BAD_TABLE: c_int = 8;
pub const BAD_LIMIT: c_int = 9;
pub const TOO_MANY_ROWS: c_int = 10;
pub const TOO_SMALL: c_int = 11;
pub const BAD_STORE: c_int = 12;
pub const NO_IMAGE: c_int = 13;
pub const MISUSE: c_int = 14;
pub const IO: c_int = 15;
pub const EXISTS: c_int = 16;
pub const SUPERSEDED: c_int = 17;
pub const NOT_ASCENDING: c_int = 18;
pub const DEVICE_FAILED: c_int = 19;
pub const LOCKED: c_int = 20;
pub const ROT: c_int = 21;
pub const GAP: c_int = 22;
pub const MISFIT: c_int = 23;
pub const UNSURE: c_int = 24;
pub const FAILED: c_int = 25;
pub const TOO_LONG: c_int = 26;
pub const NEWER_FORMAT: c_int = 27;
pub const READONLY: c_int = 28;

pub const INT: c_int = 1;
pub const TEXT: c_int = 2;
pub const BOOL: c_int = 3;

/// Added to the type of a column whose values stay with the caller.
pub const OUTSIDE: c_int = 16;

pub const INSERT: u32 = 1;
pub const DELETE: u32 = 2;
pub const MODIFY: u32 = 3;

pub const STABLE: u32 = 1;
pub const CHANGED: u32 = 2;
pub const INSERTED: u32 = 3;

pub const MAX_COLUMNS: usize = 32;
pub const MAX_TEXT: usize = 4096;

unsafe extern "C" {
    pub fn pdt_version() -> *const c_char;
    pub fn pdt_code_text(code: c_int) -> *const c_char;
    pub fn pdt_errmsg(code: c_int) -> *const c_char;

    pub fn pdt_csv_has_types(csv: *const c_void, bytes: usize, has: *mut bool) -> c_int;
    pub fn pdt_open_plain(
        csv: *const c_void,
        bytes: usize,
        plain: *const Plain,
        options: *const Options,
        fault: *mut Fault,
        table: *mut *mut Table,
    ) -> c_int;
    pub fn pdt_table_create_plain(
        database: *mut Database,
        name: *const c_char,
        csv: *const c_void,
        bytes: usize,
        plain: *const Plain,
        options: *const Options,
        fault: *mut Fault,
        table: *mut *mut Table,
    ) -> c_int;
    pub fn pdt_open_csv(
        csv: *const c_void,
        bytes: usize,
        options: *const Options,
        fault: *mut Fault,
        table: *mut *mut Table,
    ) -> c_int;
    pub fn pdt_open_columns(
        columns: *const Column,
        count: usize,
        key: usize,
        options: *const Options,
        place: *mut Place,
        table: *mut *mut Table,
    ) -> c_int;
    pub fn pdt_recover(folder: *const c_char, options: *const Options, table: *mut *mut Table) -> c_int;
    pub fn pdt_recover_from(
        header: *const c_void,
        len: usize,
        columns: *const Bytes,
        count: usize,
        options: *const Options,
        generation: *mut u32,
        table: *mut *mut Table,
    ) -> c_int;
    pub fn pdt_close(table: *mut Table) -> c_int;
    pub fn pdt_columns(table: *const Table) -> usize;
    pub fn pdt_key_columns(table: *const Table) -> usize;
    pub fn pdt_column_type(table: *const Table, column: usize) -> c_int;
    pub fn pdt_column_name(table: *const Table, column: usize) -> *const c_char;
    pub fn pdt_size(table: *mut Table, sizes: *mut Sizes) -> c_int;
    pub fn pdt_count(table: *mut Table, counts: *mut Counts) -> c_int;
    pub fn pdt_fold(table: *mut Table) -> c_int;
    pub fn pdt_trim(table: *mut Table) -> c_int;
    pub fn pdt_checkpoint(table: *mut Table, folder: *const c_char) -> c_int;
    pub fn pdt_checkpoint_to(table: *mut Table, write: Write, context: *mut c_void, column: *mut usize) -> c_int;

    pub fn pdt_checkpoint_begin(table: *mut Table, commits: *mut u64, checkpoint: *mut *mut OpenCheckpoint) -> c_int;
    pub fn pdt_checkpoint_write(checkpoint: *mut OpenCheckpoint, folder: *const c_char) -> c_int;
    pub fn pdt_checkpoint_read(checkpoint: *mut OpenCheckpoint, txn: *mut *mut Txn) -> c_int;
    pub fn pdt_checkpoint_install(checkpoint: *mut OpenCheckpoint) -> c_int;
    pub fn pdt_checkpoint_end(checkpoint: *mut OpenCheckpoint);

    pub fn pdt_begin(table: *mut Table, txn: *mut *mut Txn) -> c_int;
    pub fn pdt_txn_version(txn: *mut Txn, commits: *mut u64) -> c_int;
    pub fn pdt_abort(txn: *mut Txn);
    pub fn pdt_commit(txn: *mut Txn, commits: *mut u64) -> c_int;

    pub fn pdt_pin(table: *mut Table, commits: *mut u64, pin: *mut *mut Pinned) -> c_int;
    pub fn pdt_begin_at(pin: *mut Pinned, txn: *mut *mut Txn) -> c_int;
    pub fn pdt_unpin(pin: *mut Pinned);

    pub fn pdt_prepare(txn: *mut Txn, commits: *mut u64) -> c_int;
    pub fn pdt_install(txn: *mut Txn) -> c_int;
    pub fn pdt_give_up(txn: *mut Txn) -> c_int;

    pub fn pdt_insert(txn: *mut Txn, numbers: *const i64, texts: *const c_void, bytes: usize) -> c_int;
    pub fn pdt_delete(txn: *mut Txn, key: *const i64, texts: *const c_void, bytes: usize) -> c_int;
    pub fn pdt_set(
        txn: *mut Txn,
        key: *const i64,
        texts: *const c_void,
        bytes: usize,
        column: usize,
        number: i64,
        text: *const c_void,
    ) -> c_int;

    pub fn pdt_savepoint(txn: *mut Txn, level: *mut usize) -> c_int;
    pub fn pdt_rollback_to(txn: *mut Txn, level: usize) -> c_int;
    pub fn pdt_release(txn: *mut Txn, level: usize) -> c_int;

    pub fn pdt_rows(txn: *mut Txn, rows: *mut u64) -> c_int;
    pub fn pdt_rank(
        txn: *mut Txn,
        key: *const i64,
        texts: *const c_void,
        bytes: usize,
        below: *mut u64,
        there: *mut bool,
    ) -> c_int;
    pub fn pdt_get(
        txn: *mut Txn,
        key: *const i64,
        texts: *const c_void,
        bytes: usize,
        numbers: *mut i64,
        out: *mut c_void,
        room: usize,
        needed: *mut usize,
    ) -> c_int;
    pub fn pdt_row_at(
        txn: *mut Txn,
        position: u64,
        numbers: *mut i64,
        out: *mut c_void,
        room: usize,
        needed: *mut usize,
    ) -> c_int;
    pub fn pdt_cells(
        txn: *mut Txn,
        column: usize,
        from: u64,
        numbers: *mut i64,
        count: *mut usize,
        out: *mut c_void,
        room: usize,
        bytes: *mut usize,
    ) -> c_int;
    pub fn pdt_ints(txn: *mut Txn, column: usize, from: u64, numbers: *mut i64, count: *mut usize) -> c_int;
    pub fn pdt_bools(txn: *mut Txn, column: usize, from: u64, booleans: *mut u8, count: *mut usize) -> c_int;
    pub fn pdt_texts(
        txn: *mut Txn,
        column: usize,
        from: u64,
        texts: *mut *const c_char,
        lens: *mut i64,
        count: *mut usize,
    ) -> c_int;
    pub fn pdt_int_spans(
        txn: *mut Txn,
        column: usize,
        from: u64,
        to: u64,
        spans: *mut IntSpan,
        count: *mut usize,
        rows: *mut u64,
    ) -> c_int;
    pub fn pdt_row_runs(txn: *mut Txn, from: u64, to: u64, row_runs: *mut RowRun, count: *mut usize) -> c_int;
    pub fn pdt_changed(txn: *mut Txn, position: u64, changed: *mut u8, columns: usize) -> c_int;

    pub fn pdt_changes(table: *mut Table, number: u64, layer: *mut *mut Layer) -> c_int;
    pub fn pdt_wait(table: *mut Table, after: u64, milliseconds: u64, commits: *mut u64) -> c_int;
    pub fn pdt_layer_close(layer: *mut Layer);
    pub fn pdt_layer_size(layer: *mut Layer) -> usize;
    pub fn pdt_entry_at(
        layer: *mut Layer,
        index: usize,
        entry: *mut Entry,
        numbers: *mut i64,
        out: *mut c_void,
        room: usize,
    ) -> c_int;
}
