//! The texts of a column, zero-copy.
use crate::cells::filled;
use crate::error::done;
use crate::table::ColumnType;
use crate::transaction::Open;
use crate::{Error, ErrorKind, ffi, sentences};
use std::ffi::c_char;
use std::{ptr, slice, str};

/// The texts of a text column from one position of the table up to another.
pub(crate) fn lent<'t>(txn: &'t Open<'_>, column: usize, from: u64, to: u64) -> Result<Vec<&'t str>, Error> {
    sentences::column_of(txn.table().columns(), column, ColumnType::Text)?;
    let rows = usize::try_from(to - from).map_err(|_| ErrorKind::NoMemory)?;
    let mut addresses = filled(rows, ptr::null())?;
    let mut lengths = filled(rows, 0i64)?;
    let mut count = rows;
    let (at, lens) = (addresses.as_mut_ptr(), lengths.as_mut_ptr());
    // SAFETY: the transaction is open, and there is room for as many addresses and lengths as `count` says.
    done(unsafe { ffi::pdt_texts(txn.raw(), column, from, at, lens, &mut count) })?;
    assert_eq!(rows, count, "each text between two positions of a table is handed out");
    let mut texts = Vec::new();
    texts.try_reserve_exact(rows)?;
    // SAFETY: the library has filled as many, and the transaction is borrowed as long as the texts are there.
    texts.extend(addresses.iter().zip(&lengths).map(|(at, len)| unsafe { text_at(*at, *len) }));
    Ok(texts)
}

/// A text that the library hands out of a transaction.
///
/// # Safety
/// `pdt_texts` has filled both, and until `'t` ends its transaction makes no write, rolls back to no savepoint and
/// isn't over.
unsafe fn text_at<'t>(at: *const c_char, len: i64) -> &'t str {
    // SAFETY: as many bytes are there, nothing writes them, and they stay as long as the caller promises; where there
    // are none the address isn't null.
    let bytes = unsafe { slice::from_raw_parts(at.cast(), len as usize) };
    debug_assert!(str::from_utf8(bytes).is_ok());
    // SAFETY: the library hands out the bytes of a text of a column, each of which it tested when it came in.
    unsafe { str::from_utf8_unchecked(bytes) }
}
