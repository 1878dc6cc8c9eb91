//! What the cases need of `sqlite3.h`.
use std::ffi::{c_char, c_int, c_void};
use std::marker::{PhantomData, PhantomPinned};

/// A `sqlite3`, known by its address.
#[repr(C)]
pub struct Sqlite3 {
    private: [u8; 0],
    pinned: PhantomData<(*mut u8, PhantomPinned)>,
}

/// A `sqlite3_stmt`, known by its address.
#[repr(C)]
pub struct Stmt {
    private: [u8; 0],
    pinned: PhantomData<(*mut u8, PhantomPinned)>,
}

pub const OK: c_int = 0;
pub const ROW: c_int = 100;
pub const DONE: c_int = 101;
pub const OPEN_READWRITE: c_int = 0x2;
pub const OPEN_CREATE: c_int = 0x4;
pub const OPEN_MEMORY: c_int = 0x80;
pub const OPEN_FULLMUTEX: c_int = 0x10000;

#[link(name = "sqlite3")]
unsafe extern "C" {
    pub fn sqlite3_libversion() -> *const c_char;
    pub fn sqlite3_open_v2(name: *const c_char, db: *mut *mut Sqlite3, flags: c_int, vfs: *const c_char) -> c_int;
    pub fn sqlite3_close(db: *mut Sqlite3) -> c_int;
    pub fn sqlite3_busy_timeout(db: *mut Sqlite3, milliseconds: c_int) -> c_int;
    pub fn sqlite3_enable_load_extension(db: *mut Sqlite3, on: c_int) -> c_int;
    pub fn sqlite3_load_extension(
        db: *mut Sqlite3,
        file: *const c_char,
        entry: *const c_char,
        fault: *mut *mut c_char,
    ) -> c_int;
    pub fn sqlite3_errmsg(db: *mut Sqlite3) -> *const c_char;
    pub fn sqlite3_prepare_v2(
        db: *mut Sqlite3,
        sql: *const c_char,
        bytes: c_int,
        statement: *mut *mut Stmt,
        tail: *mut *const c_char,
    ) -> c_int;
    pub fn sqlite3_finalize(statement: *mut Stmt) -> c_int;
    pub fn sqlite3_reset(statement: *mut Stmt) -> c_int;
    pub fn sqlite3_step(statement: *mut Stmt) -> c_int;
    pub fn sqlite3_bind_parameter_count(statement: *mut Stmt) -> c_int;
    pub fn sqlite3_bind_int64(statement: *mut Stmt, place: c_int, number: i64) -> c_int;
    pub fn sqlite3_bind_text(
        statement: *mut Stmt,
        place: c_int,
        text: *const c_char,
        bytes: c_int,
        destructor: *const c_void,
    ) -> c_int;
    pub fn sqlite3_column_int64(statement: *mut Stmt, column: c_int) -> i64;
    pub fn sqlite3_column_text(statement: *mut Stmt, column: c_int) -> *const u8;
    pub fn sqlite3_column_bytes(statement: *mut Stmt, column: c_int) -> c_int;
}
