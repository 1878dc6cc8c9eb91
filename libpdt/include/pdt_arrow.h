/**
 * @file pdt_arrow.h
 * Arrow's C streams: rows go out as streams, and come in from streams or from columns in memory.
 */

/**
 * @defgroup arrow Arrow
 *
 * Rows as Arrow's C streams, out and in.
 *
 * **Out.** pdt_arrow() returns the rows of a pin's version as an `ArrowArrayStream`,
 * pdt_txn_arrow() the rows of a transaction with its own writes. Cells are copied: a batch stays
 * valid whatever becomes of the stream, the pin, the transaction and the table. One thread at a
 * time uses a stream; several threads may read streams of one pin at once. `get_next` returns
 * `ENOMEM` when out of memory, and may be called again; it returns `EINVAL` for a number that the
 * requested format can't hold, and `get_last_error` has its row and its column.
 *
 * **In.** pdt_open_arrow() and pdt_table_create_arrow() make a table of a stream; pdt_apply_arrow()
 * applies the rows of a stream to a transaction. The calling thread reads the stream, without a
 * lock. The stream is released when the call returns, whatever its code, and so is everything that
 * it returned. Counts, offsets, pointers and the shape of each struct are checked before they are
 * used. The lengths of buffers aren't part of Arrow's structs, so that they can't be checked,
 * except for `u`, `U` and `vu`, whose offsets say where each text ends.
 *
 * **Types.** An int column takes:
 *
 * - `c C s S i I l L`; a number above 2^63 - 1 is refused,
 * - `td? tt? ts?: tD?`: dates, times, timestamps and durations, the number as it is,
 * - `d:P,S` of 128 bits: the number without its point, if 64 bits hold it,
 * - `f g`: a double whose bits are the integer n is stored as `n ^ (n >> 63 & INT64_MAX)`. That
 *   number sorts as the double does, with -0 below 0 and a NaN beyond both infinities.
 *
 * A text column takes `u U vu` and dictionaries of these, a bool column `b`. A null is refused,
 * except in a column that is declared with one (pdt_declare()).
 *
 * The structs are those of Arrow's C data interface and C stream interface, under the guards that
 * are published with them.
 */
#ifndef PDT_ARROW_H
#define PDT_ARROW_H

#include "pdt.h"

#ifdef __cplusplus
extern "C" {
#endif

/** @addtogroup arrow
 * @{ */

#ifndef ARROW_C_DATA_INTERFACE
#define ARROW_C_DATA_INTERFACE

/** @cond Arrow's own */
#define ARROW_FLAG_DICTIONARY_ORDERED 1
#define ARROW_FLAG_NULLABLE 2
#define ARROW_FLAG_MAP_KEYS_SORTED 4

struct ArrowSchema {
  const char *format;
  const char *name;
  const char *metadata;
  int64_t flags;
  int64_t n_children;
  struct ArrowSchema **children;
  struct ArrowSchema *dictionary;
  void (*release)(struct ArrowSchema *);
  void *private_data;
};

struct ArrowArray {
  int64_t length;
  int64_t null_count;
  int64_t offset;
  int64_t n_buffers;
  int64_t n_children;
  const void **buffers;
  struct ArrowArray **children;
  struct ArrowArray *dictionary;
  void (*release)(struct ArrowArray *);
  void *private_data;
};
/** @endcond */

#endif

#ifndef ARROW_C_STREAM_INTERFACE
#define ARROW_C_STREAM_INTERFACE

/** @cond Arrow's own */
struct ArrowArrayStream {
  int (*get_schema)(struct ArrowArrayStream *, struct ArrowSchema *out);
  int (*get_next)(struct ArrowArrayStream *, struct ArrowArray *out);
  const char *(*get_last_error)(struct ArrowArrayStream *);
  void (*release)(struct ArrowArrayStream *);
  void *private_data;
};
/** @endcond */

#endif

/* ---- what numbers stand for */

/**
 * Declares what the numbers of an int column mean, by the format in which they go out.
 *
 * The formats are those of ::pdt_arrow_column: "g" for doubles, "tdD" for days, "tsu:UTC" for
 * microseconds, "d:15,2" for decimals, "?l" for ints with nulls, which a key column can't have.
 * Streams then use this format unless they are asked for another, and pdt_apply_arrow() refuses
 * numbers that mean something else. The table itself isn't changed: every call of pdt.h returns the
 * same numbers in the same order.
 *
 * In a database the declaration is durable when this returns. Other threads may use the table
 * meanwhile; streams that they have begun before keep their format. If the device fails, a later
 * opening may find the new declaration.
 *
 * @param table   a table
 * @param column  the column, from 0
 * @param format  the format, or null to remove the declaration
 * @retval PDT_OK             declared
 * @retval PDT_TYPE_MISMATCH  there is no such column, it isn't an int column, or the format isn't
 *                            valid for it
 * @retval PDT_IO             a file of the database can't be written or synced; `errno` has the
 *                            cause
 * @retval PDT_READONLY       the database is open read-only
 * @retval PDT_MISUSE         `table` is null; in a database also: this thread holds a prepared
 *                            commit, or this process is a child of fork()
 */
pdt_code pdt_declare(pdt_table *table, size_t column, const char *format);

/**
 * The declared format of a column.
 *
 * No other thread may declare the column meanwhile; pdt_declared_copy() may be called then.
 *
 * @param table   a table
 * @param column  the column, from 0
 * @return the format, valid until the column is declared again; null if it isn't declared, or there
 *         is no such column
 */
const char *pdt_declared(const pdt_table *table, size_t column);

/**
 * Copies the declared format of a column, also while another thread declares it.
 *
 * @param table        a table
 * @param column       the column, from 0
 * @param[out] format  the format and a zero byte; an empty text if the column isn't declared
 * @param room         how many bytes fit at `format`: 64 are enough
 * @retval PDT_OK             the format is copied
 * @retval PDT_TYPE_MISMATCH  there is no such column
 * @retval PDT_TOO_SMALL      the format doesn't fit
 * @retval PDT_MISUSE         `table` is null, or `format` is null though `room` isn't 0
 */
pdt_code pdt_declared_copy(const pdt_table *table, size_t column, char *format, size_t room);

/**
 * Creates a table of a database over columns, as pdt_table_create() does, with declared columns.
 *
 * A crash leaves the table with its declarations, or no table.
 *
 * @param database    a database
 * @param name        as of pdt_table_create()
 * @param columns     as of pdt_table_create()
 * @param count       how many columns, and how many formats, there are: 1 to 32
 * @param key         how many of the first columns are the key: 1 to 4
 * @param formats     for each column the format that pdt_declare() takes, or null
 * @param options     limits, or null for the defaults
 * @param[out] place  may be null: the place of a fault, whose row and column count from 0
 * @param[out] table  the table; null after any other code than ::PDT_OK
 * @retval PDT_TYPE_MISMATCH  a format isn't valid for its column; or as of pdt_table_create()
 * @retval PDT_MISUSE         `formats` is null; or as of pdt_table_create()
 * @return any other code of pdt_table_create(), for its causes
 */
pdt_code pdt_table_create_declared(pdt_database *database, const char *name, const pdt_column *columns, size_t count, size_t key,
                                   const char *const *formats, const pdt_options *options, pdt_place *place, pdt_table **table);

/**
 * Creates a table of a database over CSV text, as pdt_table_create_csv() does, with declared
 * columns.
 *
 * A crash leaves the table with its declarations, or no table.
 *
 * @param database    a database
 * @param name        as of pdt_table_create()
 * @param csv         the text, in UTF-8; may be null if `bytes` is 0
 * @param bytes       its length in bytes
 * @param formats     for each of the first `count` columns the format that pdt_declare() takes, or
 *                    null
 * @param count       how many formats there are
 * @param options     limits, or null for the defaults
 * @param[out] fault  may be null; written at ::PDT_BAD_TABLE only
 * @param[out] table  the table; null after any other code than ::PDT_OK
 * @retval PDT_TYPE_MISMATCH  a format isn't valid for its column, or there is no such column; or as
 *                            of pdt_table_create_csv()
 * @retval PDT_MISUSE         `formats` is null though `count` isn't 0; or as of
 *                            pdt_table_create_csv()
 * @return any other code of pdt_table_create_csv(), for its causes
 */
pdt_code pdt_table_create_csv_declared(pdt_database *database, const char *name, const void *csv, size_t bytes, const char *const *formats,
                                       size_t count, const pdt_options *options, pdt_fault *fault, pdt_table **table);

/* ---- out */

/**
 * A column of a stream, and the format in which its cells go out.
 *
 * | Type | By default | On request |
 * |---|---|---|
 * | int | its declared format, or `l` | `tdm ttu ttn tDs tDm tDu tDn`; `ts` and one of `smun`, a colon and a zone |
 * | int, if 32 bits hold each number | | `i tdD tts ttm` |
 * | int, if each number has at most P digits, 1 to 38 | | `d:P,S` |
 * | int that came in as doubles | `g` | `g` |
 * | text | `U` | `u` |
 * | bool | `b` | |
 *
 * With `?` before a format of an int column the least number goes out as a null. A format has at
 * most 63 bytes.
 */
typedef struct pdt_arrow_column {
  size_t column;      /**< the column, from 0 */
  const char *format; /**< the format, or null for the default */
} pdt_arrow_column;

/**
 * Returns the rows of a pin's version between two positions as a stream.
 *
 * The batches are read as they are asked for, by a transaction of the stream's own, which is open
 * until the stream is released. The pin may be released before; the table is closed after.
 *
 * A range of keys is the range of positions between two pdt_rank()s of a transaction at the pin.
 *
 * @param pin          a pin
 * @param columns      the columns, up to 32, in any order and also repeated; null for all
 * @param count        how many columns there are
 * @param from         the position of the first row
 * @param to           the position after the last row; past the end it is the end
 * @param batch        rows in a batch, 0 for 65,536; at most 524,287 if texts go out as `u`
 * @param[out] stream  the stream; its `release` is null after any other code than ::PDT_OK
 * @retval PDT_OK             the stream is open
 * @retval PDT_TYPE_MISMATCH  there is no such column, a format isn't valid for its type, or more
 *                            than 32 columns
 * @retval PDT_NOMEM          out of memory
 * @retval PDT_MISUSE         `pin` or `stream` is null
 */
pdt_code pdt_arrow(pdt_pinned *pin, const pdt_arrow_column *columns, size_t count, uint64_t from, uint64_t to, size_t batch,
                   struct ArrowArrayStream *stream);

/**
 * Returns the rows that a transaction sees between two positions as a stream.
 *
 * All batches are read by this call, into memory: the transaction may be written, committed and
 * aborted before the stream is read.
 *
 * @param txn          a transaction
 * @param columns      the columns, up to 32, in any order and also repeated; null for all
 * @param count        how many columns there are
 * @param from         the position of the first row
 * @param to           the position after the last row; past the end it is the end
 * @param batch        rows in a batch, 0 for 65,536; at most 524,287 if texts go out as `u`
 * @param[out] stream  the stream; its `release` is null after any other code than ::PDT_OK
 * @retval PDT_OK             the stream is open
 * @retval PDT_TYPE_MISMATCH  there is no such column, a format isn't valid for its type, or more
 *                            than 32 columns
 * @retval PDT_NOMEM          out of memory
 * @retval PDT_MISUSE         `txn` or `stream` is null
 */
pdt_code pdt_txn_arrow(pdt_txn *txn, const pdt_arrow_column *columns, size_t count, uint64_t from, uint64_t to, size_t batch,
                       struct ArrowArrayStream *stream);

/* ---- in */

/** A fault in incoming columns: its cause and its place. */
typedef struct pdt_arrow_fault {
  size_t size;     /**< `sizeof(pdt_arrow_fault)`, set by the caller, also of an earlier or a later header */
  pdt_place place; /**< the row, from 0 over all batches: the first row of a batch for the batch as a whole; and the column
                        in the stream, from 0. Zeros where there is no place */
  char cause[256]; /**< a sentence in English with the column's name; empty after ::PDT_OK, ::PDT_NOMEM and ::PDT_MISUSE */
} pdt_arrow_fault;

/**
 * Opens a table over the rows of a stream, in any order.
 *
 * The named columns are the key, in this order; the other columns follow in the order of the
 * stream. Doubles, dates, times, durations and decimals are declared as what they are
 * (pdt_declare()), with `?` if the field allows nulls; so are ints of such a field. A null is
 * stored as the least number: a column can't have both. A column that has the least number and no
 * null is declared without `?`.
 *
 * @param stream       a stream, which is released
 * @param key          the names of the key columns
 * @param keys         how many there are: 1 to 4
 * @param options      limits, or null for the defaults
 * @param[out] fault   may be null: what is wrong, and where; the caller sets pdt_arrow_fault::size
 * @param[out] table   the table; null after any other code than ::PDT_OK
 * @retval PDT_OK             the table is open
 * @retval PDT_TYPE_MISMATCH  a null in a key, a text or a boolean, or in a column whose field
 *                            allows none; a number that 64 bits don't hold; a text that isn't UTF-8
 *                            or has more than 4,096 bytes; descending offsets; an index outside its
 *                            dictionary; a format that no column takes; or a batch that doesn't fit
 *                            its schema
 * @retval PDT_DUPLICATE      a row has the key of an earlier row; of several such keys the least is
 *                            reported
 * @retval PDT_BAD_TABLE      a column's name isn't valid, or the key isn't
 * @retval PDT_DEVICE_FAILED  the stream failed: pdt_arrow_fault::cause has its message
 * @retval PDT_TOO_MANY_ROWS  more rows than pdt_options::row_limit
 * @retval PDT_BAD_LIMIT      an option is outside its range
 * @retval PDT_NOMEM          out of memory, here or in the stream (`ENOMEM`)
 * @retval PDT_MISUSE         `table`, `stream`, `key` or a name is null, the stream is released
 *                            already, or a size isn't set
 */
pdt_code pdt_open_arrow(struct ArrowArrayStream *stream, const char *const *key, size_t keys, const pdt_options *options,
                        pdt_arrow_fault *fault, pdt_table **table);

/**
 * Creates a table of a database over the rows of a stream.
 *
 * Reads the stream as pdt_open_arrow() does, and creates the table as pdt_table_create() does, with
 * its declarations.
 *
 * @param database    a database
 * @param name        as of pdt_table_create()
 * @param stream      a stream, which is released
 * @param key         the names of the key columns
 * @param keys        how many there are: 1 to 4
 * @param options     limits, or null for the defaults
 * @param[out] fault  may be null: what is wrong, and where; the caller sets pdt_arrow_fault::size
 * @param[out] table  the table; null after any other code than ::PDT_OK
 * @return the codes of pdt_open_arrow() and pdt_table_create(), for their causes
 */
pdt_code pdt_table_create_arrow(pdt_database *database, const char *name, struct ArrowArrayStream *stream, const char *const *key,
                                size_t keys, const pdt_options *options, pdt_arrow_fault *fault, pdt_table **table);

/** The operation applied to each incoming row. */
enum pdt_apply {
  PDT_APPLY_INSERT = 1, /**< insert it, as pdt_insert() does */
  PDT_APPLY_UPSERT = 2, /**< insert it, or set all cells but the key's of the row that has its key */
  PDT_APPLY_DELETE = 3  /**< delete the row of its key, as pdt_delete() does */
};

/**
 * Applies the rows of a stream to a transaction, one after the other: all of them, or none.
 *
 * Columns are matched by name, in any order: all columns of the table, or for a delete those of the
 * key, and others are ignored. A stream has up to 32 columns, each in a format that its column
 * takes. After any other code than ::PDT_OK the transaction stays open, as it was.
 *
 * @param txn         a transaction
 * @param stream      a stream, which is released
 * @param what        a ::pdt_apply
 * @param[out] fault  may be null: what is wrong, and where; the caller sets pdt_arrow_fault::size
 * @param[out] done   may be null: how many rows were applied; 0 after any other code than ::PDT_OK
 * @retval PDT_OK             all rows are applied
 * @retval PDT_DUPLICATE      insert: a row with the key of the row at the place exists
 * @retval PDT_MISSING        delete: no row has the key of the row at the place
 * @retval PDT_FULL           the table would have more rows than pdt_options::row_limit
 * @retval PDT_TYPE_MISMATCH  as of pdt_open_arrow(), or the columns aren't those of the table, or a
 *                            column isn't what the table's is declared as
 * @retval PDT_DEVICE_FAILED  the stream failed: pdt_arrow_fault::cause has its message
 * @retval PDT_TOO_MANY_ROWS  a batch has more than 2,147,483,647 rows
 * @retval PDT_NOMEM          out of memory, here or in the stream
 * @retval PDT_MISUSE         `txn` or `stream` is null, the transaction is prepared, the stream is
 *                            released already, `what` isn't a ::pdt_apply, or pdt_arrow_fault::size
 *                            isn't set
 */
pdt_code pdt_apply_arrow(pdt_txn *txn, struct ArrowArrayStream *stream, int what, pdt_arrow_fault *fault, uint64_t *done);

/**
 * Applies rows of columns in memory to a transaction, one after the other: all of them, or none.
 *
 * Like pdt_apply_arrow(). The keys may be in any order. Ints are the numbers that the table stores,
 * whatever its columns are declared as.
 *
 * @param txn         a transaction
 * @param columns     the columns; all have the same number of rows
 * @param count       how many columns there are
 * @param what        a ::pdt_apply
 * @param[out] fault  may be null: what is wrong, and where; the caller sets pdt_arrow_fault::size
 * @param[out] done   may be null: how many rows were applied; 0 after any other code than ::PDT_OK
 * @retval PDT_OK             all rows are applied
 * @retval PDT_DUPLICATE      insert: a row with the key of the row at the place exists
 * @retval PDT_MISSING        delete: no row has the key of the row at the place
 * @retval PDT_FULL           the table would have more rows than pdt_options::row_limit
 * @retval PDT_TYPE_MISMATCH  a value isn't one of its type, or the columns aren't those of the
 *                            table
 * @retval PDT_NOMEM          out of memory
 * @retval PDT_MISUSE         a pointer is null, there is no column, the columns have different
 *                            numbers of rows, the transaction is prepared, `what` isn't a
 *                            ::pdt_apply, or pdt_arrow_fault::size isn't set
 */
pdt_code pdt_apply_columns(pdt_txn *txn, const pdt_column *columns, size_t count, int what, pdt_arrow_fault *fault, uint64_t *done);

/* ---- Python's capsules */

/**
 * Sets the functions of CPython that the destructors of capsules call.
 *
 * For a binding without C of its own. A capsule may be freed while an exception is raised, when no
 * Python code may run: its destructor is a function of C, one of the two below.
 *
 * @param pointer  `PyCapsule_GetPointer`
 * @param release  `PyMem_RawFree`
 */
void pdt_capsules(void *(*pointer)(void *capsule, const char *name), void (*release)(void *room));

/**
 * The destructor of a capsule named "arrow_array_stream": releases a stream that no reader has
 * taken, and frees its memory.
 *
 * @param capsule  a `PyCapsule`
 */
void pdt_end_stream_capsule(void *capsule);

/**
 * The destructor of a capsule named "arrow_schema": releases a schema that no reader has taken, and
 * frees its memory.
 *
 * @param capsule  a `PyCapsule`
 */
void pdt_end_schema_capsule(void *capsule);

/** @} */

#ifdef __cplusplus
}
#endif
#endif
