//! CSV texts whose header names columns and no types.
use crate::error::{TableFault, done};
use crate::{Database, Error, ErrorKind, OpenError, Options, Table, TableRef, ffi};
use std::ffi::{CString, c_char};
use std::ptr;

/// How a plain CSV text is read: one whose header names columns and no types, as `id,name`.
///
/// A column is of ints or booleans if each of its cells in the first [`sample`](PlainCsv::sample) records is an integer
/// of 64 bits, or `true` or `false`; else it is of texts. A later cell that isn't of the column's type is a fault. An
/// empty cell is a text.
#[derive(Clone, Copy, Debug, Default, PartialEq, Eq)]
pub struct PlainCsv<'a> {
    /// The names of the key's columns, in the order of the key. They come first in the table. If there are none, the
    /// first column is the key.
    pub key: &'a [&'a str],
    /// How many of the first records show the types. 0 is the default: 1,000.
    pub sample: usize,
}

/// The names of a key, as C takes them.
struct Names {
    /// What the addresses lead to.
    _texts: Vec<CString>,
    addresses: Vec<*const c_char>,
}

impl Names {
    fn of(key: &[&str]) -> Result<Names, Error> {
        let mut texts = Vec::new();
        texts.try_reserve_exact(key.len())?;
        for name in key {
            let text = CString::new(*name).map_err(|_| {
                Error::with(
                    ErrorKind::TypeMismatch,
                    format_args!("the name {name:?} has a zero byte: no column has it"),
                )
            })?;
            texts.push(text);
        }
        let mut addresses = Vec::new();
        addresses.try_reserve_exact(key.len())?;
        addresses.extend(texts.iter().map(|text| text.as_ptr()));
        Ok(Names { _texts: texts, addresses })
    }

    fn passed(&self, sample: usize) -> ffi::Plain {
        let key = if self.addresses.is_empty() { ptr::null() } else { self.addresses.as_ptr() };
        ffi::Plain { size: size_of::<ffi::Plain>(), key, key_count: self.addresses.len(), sample }
    }
}

/// Whether the header of a CSV text names types: whether a cell of its first record has a colon. [`Table::open`] reads
/// such a text, and [`Table::open_plain`] others.
///
/// # Errors
///
/// - [`ErrorKind::NoMemory`]: out of memory.
///
/// ```
/// assert!(narthexmace::csv_has_types("id:int:key,name:text\n")?);
/// assert!(!narthexmace::csv_has_types("id,name\n")?);
/// # Ok::<(), narthexmace::Error>(())
/// ```
pub fn csv_has_types(csv: impl AsRef<[u8]>) -> Result<bool, Error> {
    let csv = csv.as_ref();
    let mut has = false;
    // SAFETY: the pointer and the length are one slice's, and `has` is there during the call.
    done(unsafe { ffi::pdt_csv_has_types(csv.as_ptr().cast(), csv.len(), &mut has) })?;
    Ok(has)
}

impl Table {
    /// Opens a table over a CSV text whose header names columns and no types, and finds their types. The records may be
    /// in any order of their keys.
    ///
    /// # Errors
    ///
    /// - [`OpenError::BadTable`]: the text isn't a table, or no column has a name of the key; it has the first fault.
    ///   For a name of the key the fault's column is the name's index.
    /// - [`ErrorKind::TooManyRows`]: more rows than [`Options::row_limit`].
    /// - [`ErrorKind::BadLimit`]: an option is outside its range.
    /// - [`ErrorKind::TypeMismatch`]: a name of the key has a zero byte.
    /// - [`ErrorKind::NoMemory`]: out of memory.
    ///
    /// ```
    /// use narthexmace::{ColumnType, Error, Options, PlainCsv, Table};
    /// let csv = "name,age\nBob,50\nAnn,40\n";
    /// let table = Table::open_plain(csv, &PlainCsv { key: &["age"], sample: 0 }, &Options::default())?;
    /// assert_eq!("age", table.columns()[0].name);
    /// assert_eq!(ColumnType::Int, table.columns()[0].column_type);
    /// # Ok::<(), Error>(())
    /// ```
    pub fn open_plain(csv: impl AsRef<[u8]>, plain: &PlainCsv<'_>, options: &Options) -> Result<Table, OpenError> {
        let (csv, names, options) = (csv.as_ref(), Names::of(plain.key)?, options.passed()?);
        let plain = names.passed(plain.sample);
        let mut raw = ptr::null_mut();
        let mut fault = ffi::Fault { place: ffi::Place::default(), cause: ptr::null() };
        // SAFETY: the pointer and the length are one slice's; the names, the options, the fault and `raw` are there
        // during the call.
        let code =
            unsafe { ffi::pdt_open_plain(csv.as_ptr().cast(), csv.len(), &plain, &options, &mut fault, &mut raw) };
        if code == ffi::BAD_TABLE {
            // SAFETY: at this code the library has written the fault.
            return Err(OpenError::BadTable(unsafe { TableFault::told(&fault) }));
        }
        done(code)?;
        // SAFETY: an opening that is done hands out a table.
        Ok(unsafe { Table::adopt(raw) }?)
    }
}

impl Database {
    /// Creates a table over a CSV text whose header names columns and no types, as [`Table::open_plain`] does; else as
    /// [`create`](Database::create). A header alone creates an empty table of texts.
    ///
    /// # Errors
    ///
    /// Those of [`Table::open_plain`] and [`create`](Database::create).
    pub fn create_plain(
        &self,
        name: &str,
        csv: impl AsRef<[u8]>,
        plain: &PlainCsv<'_>,
        options: &Options,
    ) -> Result<TableRef<'_>, OpenError> {
        let (passed, csv, names) = (crate::database::name_of(name)?, csv.as_ref(), Names::of(plain.key)?);
        let (plain, options) = (names.passed(plain.sample), options.passed()?);
        let mut raw = ptr::null_mut();
        let mut fault = ffi::Fault { place: ffi::Place::default(), cause: ptr::null() };
        // SAFETY: the database is open while `self` is there; the name ends with a zero, the pointer and the length are
        // one slice's, and all is there during the call.
        let code = unsafe {
            let (text, bytes, at) = (csv.as_ptr().cast(), csv.len(), self.as_raw());
            ffi::pdt_table_create_plain(at, passed.as_ptr(), text, bytes, &plain, &options, &mut fault, &mut raw)
        };
        if code == ffi::BAD_TABLE {
            // SAFETY: at this code the library has written the fault.
            return Err(OpenError::BadTable(unsafe { TableFault::told(&fault) }));
        }
        done(code)?;
        Ok(self.table(name)?)
    }
}
