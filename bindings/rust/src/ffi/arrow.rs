//! The declarations of `libpdt/include/pdt_arrow.h`, but for those of the structs.
use super::{Database, Options, Pinned, Place, Table, Txn};
use crate::arrow::{ArrowArrayStream, ArrowColumn};
use std::ffi::{c_char, c_int};

#[repr(C)]
pub struct ArrowFault {
    pub size: usize,
    pub place: Place,
    pub cause: [c_char; 256],
}

impl Default for ArrowFault {
    fn default() -> ArrowFault {
        ArrowFault { size: size_of::<ArrowFault>(), place: Place::default(), cause: [0; 256] }
    }
}

unsafe extern "C" {
    pub fn pdt_arrow(
        pin: *mut Pinned,
        columns: *const ArrowColumn<'static>,
        count: usize,
        from: u64,
        to: u64,
        batch: usize,
        stream: *mut ArrowArrayStream,
    ) -> c_int;
    pub fn pdt_txn_arrow(
        txn: *mut Txn,
        columns: *const ArrowColumn<'static>,
        count: usize,
        from: u64,
        to: u64,
        batch: usize,
        stream: *mut ArrowArrayStream,
    ) -> c_int;
    pub fn pdt_declare(table: *mut Table, column: usize, format: *const c_char) -> c_int;
    pub fn pdt_declared_copy(table: *const Table, column: usize, format: *mut c_char, room: usize) -> c_int;
    pub fn pdt_open_arrow(
        stream: *mut ArrowArrayStream,
        key: *const *const c_char,
        keys: usize,
        options: *const Options,
        fault: *mut ArrowFault,
        table: *mut *mut Table,
    ) -> c_int;
    pub fn pdt_table_create_arrow(
        database: *mut Database,
        name: *const c_char,
        stream: *mut ArrowArrayStream,
        key: *const *const c_char,
        keys: usize,
        options: *const Options,
        fault: *mut ArrowFault,
        table: *mut *mut Table,
    ) -> c_int;
    pub fn pdt_apply_arrow(
        txn: *mut Txn,
        stream: *mut ArrowArrayStream,
        what: c_int,
        fault: *mut ArrowFault,
        done: *mut u64,
    ) -> c_int;
}
