//! The last part of `libpdt/include/pdt.h`: databases.
use super::{Column, Fault, Options, Place, Table, Txn};
use std::ffi::{c_char, c_int, c_uint, c_void};
use std::marker::{PhantomData, PhantomPinned};

/// A `pdt_database`, known by its address.
#[repr(C)]
pub struct Database {
    private: [u8; 0],
    pinned: PhantomData<(*mut u8, PhantomPinned)>,
}

/// A `pdt_dbtxn`, known by its address.
#[repr(C)]
pub struct DatabaseTransaction {
    private: [u8; 0],
    pinned: PhantomData<(*mut u8, PhantomPinned)>,
}

#[repr(C)]
pub struct DatabaseOptions {
    pub size: usize,
    pub sync: c_int,
    pub early_reads: bool,
    pub no_maintenance: bool,
    pub read_only: bool,
    pub fold_entries: u64,
    pub checkpoint_entries: u64,
    pub journal_bytes: u64,
    pub kept_bytes: u64,
    pub mode: c_uint,
}

pub const FILE_NAME: usize = 64;

#[repr(C)]
pub struct Report {
    pub size: usize,
    pub commits: u64,
    pub replayed: u64,
    pub torn_bytes: u64,
    pub fault: u64,
    pub file: [c_char; FILE_NAME],
}

#[repr(C)]
#[derive(Default)]
pub struct DatabaseCounts {
    pub size: usize,
    pub commits: u64,
    pub durable: u64,
    pub batches: u64,
    pub syncs: u64,
    pub folds: u64,
    pub checkpoints: u64,
    pub faults: u64,
    pub journal_bytes: u64,
    pub journal_files: usize,
    pub tables: usize,
    pub kept_bytes: u64,
}

pub const SYNC_FULL: c_int = 0;
pub const SYNC_NORMAL: c_int = 1;
pub const SYNC_OFF: c_int = 2;

pub const MAX_NAME: usize = 64;

unsafe extern "C" {
    pub fn pdt_database_open(
        folder: *const c_char,
        options: *const DatabaseOptions,
        database: *mut *mut Database,
        report: *mut Report,
    ) -> c_int;
    pub fn pdt_database_close(database: *mut Database) -> c_int;

    pub fn pdt_table_create(
        database: *mut Database,
        name: *const c_char,
        columns: *const Column,
        count: usize,
        key: usize,
        options: *const Options,
        place: *mut Place,
        table: *mut *mut Table,
    ) -> c_int;
    pub fn pdt_table_create_csv(
        database: *mut Database,
        name: *const c_char,
        csv: *const c_void,
        bytes: usize,
        options: *const Options,
        fault: *mut Fault,
        table: *mut *mut Table,
    ) -> c_int;
    pub fn pdt_table_open(database: *mut Database, name: *const c_char, table: *mut *mut Table) -> c_int;
    pub fn pdt_table_name(database: *mut Database, index: usize, name: *mut c_char, room: usize) -> c_int;
    pub fn pdt_table_drop(database: *mut Database, name: *const c_char) -> c_int;

    pub fn pdt_dbtxn_begin(database: *mut Database, dbtxn: *mut *mut DatabaseTransaction) -> c_int;
    pub fn pdt_dbtxn_on(dbtxn: *mut DatabaseTransaction, table: *mut Table, txn: *mut *mut Txn) -> c_int;
    pub fn pdt_dbtxn_commit(dbtxn: *mut DatabaseTransaction, commits: *mut u64) -> c_int;
    pub fn pdt_dbtxn_abort(dbtxn: *mut DatabaseTransaction);

    pub fn pdt_maintain(database: *mut Database) -> c_int;
    pub fn pdt_database_count(database: *mut Database, counts: *mut DatabaseCounts) -> c_int;
}
