/**
 * @mainpage libpdt
 *
 * libpdt adds updates to sorted columns. A table is an ordered set of rows under snapshot
 * isolation; its updates are kept beside the columns, by position, in Positional Delta Trees
 * (PDTs), and every scan merges them in. The columns themselves don't change between checkpoints.
 *
 * **Objects.** A ::pdt_table is a table, a ::pdt_txn an open transaction over it, a ::pdt_pinned a
 * version of it that is kept. A ::pdt_database is a folder of durable tables, and a ::pdt_dbtxn an
 * open transaction over all of them. Each object is made by a call, known by its address, and freed
 * by a call: pdt_close(); pdt_commit() or pdt_abort(); pdt_unpin(); pdt_database_close();
 * pdt_dbtxn_commit() or pdt_dbtxn_abort().
 *
 * **Rows and keys.** A row or a key is passed as one number for each column, and the bytes of its
 * texts one after the other, in the order of the columns. The number of an int is its value, the
 * number of a text is its length in bytes, the number of a boolean is 0 or 1. The texts have
 * exactly as many bytes as these numbers say. A row has all columns; a key has the first
 * pdt_key_columns() of them. Rows are in ascending key: ints by value, texts by their bytes, false
 * before true.
 *
 * **Positions.** The rows of a transaction are numbered from 0 in the order of their keys. A
 * position is valid until the transaction writes. Calls take half-open ranges: `from` up to, not
 * including, `to`.
 *
 * **Errors.** A call that can fail returns a ::pdt_code, and ::PDT_OK is 0. pdt_errmsg() has a
 * sentence with the column, the value and the key. Unless a call says otherwise, nothing has changed
 * after any other code. The contents of the caller's buffers are
 * unspecified after any code but ::PDT_OK. ::PDT_MISUSE reports what the library can see of a wrong
 * call: a null pointer, a table that is closed while transactions are open, a call from a thread
 * that holds a prepared commit. No call aborts the process.
 *
 * **Threads.** Any threads may call on one ::pdt_table, ::pdt_database or ::pdt_pinned at once. A
 * ::pdt_txn, a ::pdt_dbtxn, a ::pdt_open_checkpoint and a ::pdt_layer are used by one thread at a
 * time; transactions of several threads read and write concurrently. Several threads read one
 * version of a table by a pin: each begins a transaction of its own at it.
 *
 * Each table has one lock, and the tables of a database share one. A call that says that it *blocks
 * commits* holds that lock meanwhile. Begins and pins take another lock, which no call holds for
 * longer than a begin takes: they never wait for a commit, a fold or a checkpoint.
 *
 * **Prepared commits.** From ::PDT_OK of pdt_prepare() to pdt_install(), pdt_give_up() or
 * pdt_abort() a thread *holds a prepared commit*, and with it the lock of the table, or of the
 * database. pdt_prepare() lists the calls that the thread may then make on the table; all others
 * return ::PDT_MISUSE. The thread must not end before. Threads that call on other tables while they
 * hold a prepared commit must do so in one order of the tables: else they deadlock.
 *
 * **Signals and fork.** No call may be made in a signal handler. A child of fork() must not use
 * what its parent opened: the lock may be held in its copy for ever. Calls that can see this return
 * ::PDT_MISUSE.
 *
 * **Memory.** All memory comes from malloc(). If malloc() refuses memory, a call returns
 * ::PDT_NOMEM, and the table and the transaction are unchanged. Results go into buffers that the
 * caller owns and that overlap no other argument. Only pdt_int_spans(), pdt_texts(),
 * pdt_column_name(), pdt_declared() and pdt_errmsg() return addresses in the library's memory; each
 * says how long they are valid. The sentence of pdt_errmsg() takes two kilobytes of each thread that
 * was refused something; if malloc() refuses them, the thread has the sentences of pdt_code_text().
 *
 * A table retains the newest version, the versions of pins and open transactions, and the changes
 * of the last pdt_options::recent commits. It doesn't grow with the number of commits.
 *
 * **Durability.** A ::pdt_database is durable, and a background thread maintains it. A table
 * outside a database is in memory: it is as durable as its last checkpoint, and the caller calls
 * pdt_fold(), pdt_trim() and pdt_checkpoint(). pdt_size() and pdt_count() report when.
 *
 * **A first program.** It is libpdt/examples/first.c.
 * @include first.c
 */

/**
 * @file pdt.h
 * The C interface: tables, transactions, checkpoints and databases.
 */

/* The groups, in the order in which an engine meets them. */
/** @defgroup versions Version */
/** @defgroup codes Error codes */
/** @defgroup types Types and limits */
/** @defgroup opening Opening and closing tables */
/** @defgroup transactions Transactions */
/** @defgroup reads Reads */
/** @defgroup writes Writes */
/** @defgroup savepoints Savepoints */
/** @defgroup prepared Commits in two parts */
/** @defgroup pins Pins */
/** @defgroup databases Databases */
/** @defgroup maintenance Maintenance and statistics */
/** @defgroup checkpoints Checkpoints */
/** @defgroup two_parts Checkpoints in two parts */
/** @defgroup row_runs Row runs */
/** @defgroup layers Layers and the change feed */
#ifndef PDT_H
#define PDT_H

#include <stdbool.h>
#include <stddef.h>
#include <stdint.h>

#ifdef __cplusplus
extern "C" {
#endif

/** @addtogroup versions
 * @{ */

/** The version of this header, as text. */
#define PDT_VERSION "0.3.0-dev"

/**
 * The version of the library that runs, as #PDT_VERSION has it.
 *
 * @return a constant string, never null
 */
const char *pdt_version(void);

/** @} */

/** @addtogroup codes
 * docs/ERRORS.md has these codes with their names in Rust, Python and SQLite, and with what to do.
 * @{ */

/** The code that a call returns. A call's page lists the codes that it returns and their causes. */
typedef enum pdt_code {
  PDT_OK = 0,               /**< success */
  PDT_NOMEM = 1,            /**< out of memory; nothing changed */
  PDT_CONFLICT = 2,         /**< a concurrent commit modified the same data; the transaction is over */
  PDT_TOO_OLD = 3,          /**< the changes of a commit since the transaction began are no longer retained: more than
                                 pdt_options::recent commits came since, or a trim, or a database ran over
                                 pdt_database_options::kept_bytes; the transaction is over */
  PDT_FULL = 4,             /**< the table would have more rows than its limit */
  PDT_DUPLICATE = 5,        /**< a row with this key exists */
  PDT_MISSING = 6,          /**< no such row, position, table or savepoint; the commit isn't retained; or the wait timed out */
  PDT_TYPE_MISMATCH = 7,    /**< a cell doesn't fit its column: a wrong type, invalid UTF-8, a text of more than 4,096 bytes,
                                 a key column that would be set, too few or too many bytes. Or a name isn't valid for a
                                 table, or a format for a column */
  PDT_BAD_TABLE = 8,        /**< the text or the columns don't describe a table: pdt_open_csv() reports why and where */
  PDT_BAD_LIMIT = 9,        /**< a limit is outside its range */
  PDT_TOO_MANY_ROWS = 10,   /**< the table has more rows than the limit */
  PDT_TOO_SMALL = 11,       /**< the caller's buffer is too small */
  PDT_BAD_CHECKPOINT = 12,  /**< a column file of the checkpoint can't be read as one */
  PDT_NO_CHECKPOINT = 13,   /**< the files contain no complete checkpoint */
  PDT_MISUSE = 14,          /**< the call isn't allowed now, or a pointer is null */
  PDT_IO = 15,              /**< a file can't be created, written, synced or read; `errno` has the cause */
  PDT_EXISTS = 16,          /**< a file of a checkpoint, or a table of this name, exists already */
  PDT_SUPERSEDED = 17,      /**< a fold or another checkpoint came since this checkpoint began */
  PDT_NOT_ASCENDING = 18,   /**< a row's key isn't above the key of the row before it */
  PDT_DEVICE_FAILED = 19,   /**< the caller's write function or stream failed */
  PDT_LOCKED = 20,          /**< the database is open, in this process or in another, or its folder is locked by flock() */
  PDT_CORRUPT = 21,         /**< durable data is corrupt: pdt_report has the file or the commit */
  PDT_INCOMPLETE = 22,      /**< a commit or a file of the database is missing: pdt_report has which */
  PDT_MISMATCH = 23,        /**< the journal isn't the journal of these tables: pdt_report has the commit */
  PDT_OUTCOME_UNKNOWN = 24, /**< I/O error during the commit: whether it is durable is unknown until the database is reopened */
  PDT_WRITES_FAILED = 25,   /**< an earlier write failed: the database is read-only until it is reopened */
  PDT_TOO_LONG = 26,        /**< the transaction's changes take 4 GiB or more in the journal */
  PDT_NEWER_FORMAT = 27,    /**< a later version of the library wrote a file of the database: pdt_report has which */
  PDT_READONLY = 28         /**< the database was opened read-only */
} pdt_code;

/**
 * A sentence for a code, in English.
 *
 * @param code  a ::pdt_code
 * @return a constant string, never null; "no such code" for other numbers
 */
const char *pdt_code_text(int code);

/**
 * A sentence for the code that this thread's last call returned, in English.
 *
 * It names the column, the value, the type that is wanted and the key, as far as that call knows
 * them: `a row with the key id=7 exists`, `column "name": the text is not UTF-8`. Else it is that of
 * pdt_code_text(). Names and texts are in quotes, with control characters escaped, and cut after 64
 * characters. It has at most 399 bytes. It is for people: programs compare codes.
 *
 * Each thread has its own. The table and the transaction may have ended. Leaves `errno` as it is.
 *
 * @param code  the code that the call returned
 * @return the sentence, valid until this thread's next call other than pdt_abort(),
 *         pdt_dbtxn_abort() and pdt_close(); never null
 */
const char *pdt_errmsg(pdt_code code);

/** @} */

/** @addtogroup types
 * @{ */

/** The type of a column. */
enum pdt_type {
  PDT_INT = 1,  /**< signed integers of 64 bits */
  PDT_TEXT = 2, /**< UTF-8 of at most ::PDT_MAX_TEXT bytes, which may contain zero bytes */
  PDT_BOOL = 3  /**< booleans */
};

/** A flag of a column's type. */
enum {
  PDT_OUTSIDE = 16 /**< added to the type of a column that pdt_open_columns() opens over: its values stay with the caller */
};

/** Limits. */
enum {
  PDT_MAX_COLUMNS = 32,      /**< columns of a table */
  PDT_MAX_KEY_COLUMNS = 4,   /**< columns of a key */
  PDT_MAX_NAME = 64,         /**< bytes of a column's or a table's name */
  PDT_MAX_TEXT = 4096,       /**< bytes of a text */
  PDT_MAX_ROWS = 2147483647, /**< rows of a table */
  PDT_MAX_RECENT = 65536     /**< commits whose changes a table retains */
};

/**
 * A table. Any threads may use it at once. Made by an opening, freed by pdt_close(), or by its
 * database.
 */
typedef struct pdt_table pdt_table;

/**
 * An open transaction over one table. One thread at a time uses it. Freed by its commit or
 * pdt_abort().
 */
typedef struct pdt_txn pdt_txn;

/**
 * An open database: a folder of durable tables. Any threads may use it at once. Freed by
 * pdt_database_close().
 */
typedef struct pdt_database pdt_database;

/**
 * An open transaction over all tables of a database. One thread at a time uses it. Freed by its
 * commit or pdt_dbtxn_abort().
 */
typedef struct pdt_dbtxn pdt_dbtxn;

/**
 * The limits of a table. A null pointer, or zeros in all members but the size, select the defaults.
 */
typedef struct pdt_options {
  size_t size;        /**< `sizeof(pdt_options)`, also of an earlier or a later header; members that the library lacks must be 0 */
  size_t recent;      /**< how many commits may come between a transaction's begin and its commit: 1 to 65,536; default 65,536 */
  uint64_t row_limit; /**< how many rows the table may have: 1 to 2,147,483,647; default 2,147,483,647 */
  bool by_row;        /**< true: changes of two columns of one row conflict. Default false: changes of one column conflict */
} pdt_options;

/** @} */

/* ---- tables */

/** @addtogroup opening
 *
 * An opening copies what it reads: the caller may free its arguments after the call. All openings
 * take ::pdt_options. They aren't valid if pdt_options::size isn't set, or if a member that this
 * version of the library doesn't know isn't 0.
 * @{ */

/**
 * Opens a table over CSV text.
 *
 * The first record names the columns and their types, as `id:int:key,name:text,new:bool`; the key
 * columns come first. The records may be in any order.
 *
 * @param csv         the text, in UTF-8; may be null if `bytes` is 0
 * @param bytes       its length in bytes
 * @param options     limits, or null for the defaults
 * @param[out] table  the table; null after any other code than ::PDT_OK
 * @retval PDT_OK             the table is open
 * @retval PDT_BAD_TABLE      the text isn't a table; pdt_open_csv() reports why and where
 * @retval PDT_TOO_MANY_ROWS  it has more rows than pdt_options::row_limit
 * @retval PDT_BAD_LIMIT      an option is outside its range
 * @retval PDT_NOMEM          out of memory
 * @retval PDT_MISUSE         `table` is null, `csv` is null though `bytes` isn't 0, or the options
 *                            aren't valid
 */
pdt_code pdt_open(const void *csv, size_t bytes, const pdt_options *options, pdt_table **table);

/** A row and a column. */
typedef struct pdt_place {
  uint64_t row;    /**< the row: each call says from where it counts */
  uint64_t column; /**< the column, from 0 */
} pdt_place;

/** Why text isn't a table, and where. */
typedef struct pdt_fault {
  pdt_place place;   /**< the record, from 1 with the header as 1; the column from 0, or 0 for the whole record */
  const char *cause; /**< a constant sentence in English, never null */
} pdt_fault;

/**
 * Opens a table over CSV text, and reports the first fault of text that isn't a table.
 *
 * Like pdt_open(). Faults are found in this order: the header; then record by record the number of
 * cells and each cell from the left; then equal keys.
 *
 * @param csv         the text, in UTF-8; may be null if `bytes` is 0
 * @param bytes       its length in bytes
 * @param options     limits, or null for the defaults
 * @param[out] fault  may be null; written at ::PDT_BAD_TABLE only
 * @param[out] table  the table; null after any other code than ::PDT_OK
 * @retval PDT_OK             the table is open
 * @retval PDT_BAD_TABLE      the text isn't a table: see `fault`
 * @retval PDT_TOO_MANY_ROWS  it has more rows than pdt_options::row_limit
 * @retval PDT_BAD_LIMIT      an option is outside its range
 * @retval PDT_NOMEM          out of memory
 * @retval PDT_MISUSE         `table` is null, `csv` is null though `bytes` isn't 0, or the options
 *                            aren't valid
 */
pdt_code pdt_open_csv(const void *csv, size_t bytes, const pdt_options *options, pdt_fault *fault, pdt_table **table);

/**
 * How a plain CSV text is read: one whose header names columns and no types. A null pointer, or zeros
 * in all members but the size, select the defaults.
 */
typedef struct pdt_plain {
  size_t size;            /**< `sizeof(pdt_plain)`, also of an earlier or a later header; members that the library lacks must be 0 */
  const char *const *key; /**< the names of the key's columns, in the order of the key; null if there are none */
  size_t key_count;       /**< how many names there are; 0: the first column is the key */
  size_t sample;          /**< how many of the first records show the types; 0: 1,000 */
} pdt_plain;

/**
 * Whether the header of a CSV text names types: whether a cell of its first record has a colon.
 *
 * pdt_open_csv() reads such a text, and pdt_open_plain() others.
 *
 * @param csv        the text; may be null if `bytes` is 0
 * @param bytes      its length in bytes
 * @param[out] has   whether it names types; false for an empty text
 * @retval PDT_OK      `has` is written
 * @retval PDT_NOMEM   out of memory
 * @retval PDT_MISUSE  `has` is null, or `csv` is null though `bytes` isn't 0
 */
pdt_code pdt_csv_has_types(const void *csv, size_t bytes, bool *has);

/**
 * Opens a table over a plain CSV text, and finds the types of its columns.
 *
 * The first record names the columns, as `id,name,new`. A column is of ::PDT_INT or ::PDT_BOOL if each
 * of its cells in the first pdt_plain::sample records is an integer of 64 bits, or `true` or `false`;
 * else it is of ::PDT_TEXT. A later cell that isn't of the column's type is a fault: name the types in
 * the header, or sample more records. An empty cell is a text. The columns of the key come first in
 * the table; the others follow in the order of the text. The records may be in any order.
 *
 * Faults are found in this order: the header; the names of the key, from the last; then record by
 * record the number of cells and each cell from the left; then equal keys.
 *
 * @param csv         the text, in UTF-8; may be null if `bytes` is 0
 * @param bytes       its length in bytes
 * @param plain       the key and the sample, or null for the defaults
 * @param options     limits, or null for the defaults
 * @param[out] fault  may be null; written at ::PDT_BAD_TABLE only. The column counts in the text; for a
 *                    name that no column has it is the name's index in the key
 * @param[out] table  the table; null after any other code than ::PDT_OK
 * @retval PDT_OK             the table is open
 * @retval PDT_BAD_TABLE      the text isn't a table, or no column has a name of the key: see `fault`
 * @retval PDT_TOO_MANY_ROWS  it has more rows than pdt_options::row_limit
 * @retval PDT_BAD_LIMIT      an option is outside its range
 * @retval PDT_NOMEM          out of memory
 * @retval PDT_MISUSE         `table` or a name is null, `csv` is null though `bytes` isn't 0, `plain` or
 *                            the options aren't valid
 */
pdt_code pdt_open_plain(const void *csv, size_t bytes, const pdt_plain *plain, const pdt_options *options, pdt_fault *fault,
                        pdt_table **table);

/** A column in the caller's memory. */
typedef struct pdt_column {
  const char *name;        /**< 1 to 64 bytes of UTF-8 without a colon, and a zero byte */
  int type;                /**< a ::pdt_type; with ::PDT_OUTSIDE added, the pointers below are null and `len` is 0 */
  uint64_t rows;           /**< how many values there are */
  const int64_t *numbers;  /**< int columns: the values, `rows` of them */
  const uint64_t *offsets; /**< text columns: `rows` + 1 offsets into `bytes`: where each text begins, and where the last ends */
  const uint8_t *bytes;    /**< text columns: the bytes of all texts; bool columns: `rows` bytes of 0 or 1 */
  size_t len;              /**< text columns: the length of `bytes` */
} pdt_column;

/**
 * Opens a table over columns in the caller's memory.
 *
 * The rows are in ascending key. The values are copied and checked column by column, the keys last.
 *
 * A column with ::PDT_OUTSIDE, which isn't a key column, is passed without values: its rows read as
 * 0, an empty text or false until a transaction sets them. Such an int or text takes no memory
 * while no other row of its block of 1,024 is set, and a boolean takes a bit. See @ref row_runs.
 *
 * @param columns     the columns, the key columns first; all have the same number of rows
 * @param count       how many columns there are: 1 to 32
 * @param key         how many of the first columns are the key: 1 to 4
 * @param options     limits, or null for the defaults
 * @param[out] place  may be null: the place of a fault, whose row and column count from 0
 * @param[out] table  the table; null after any other code than ::PDT_OK
 * @retval PDT_OK             the table is open
 * @retval PDT_TYPE_MISMATCH  the value at `place` isn't a value of its type: a boolean above 1; a
 *                            text that isn't UTF-8, has more than 4,096 bytes, or has offsets that
 *                            descend or pass the bytes. Or the column has no value for that row, or
 *                            values beyond the rows of the others
 * @retval PDT_NOT_ASCENDING  the key of the row at `place` isn't above the key of the row before it
 * @retval PDT_BAD_TABLE      a name, a type, the number of columns or of key columns isn't valid,
 *                            or a name is repeated
 * @retval PDT_TOO_MANY_ROWS  more rows than pdt_options::row_limit
 * @retval PDT_BAD_LIMIT      an option is outside its range
 * @retval PDT_NOMEM          out of memory
 * @retval PDT_MISUSE         `table`, `columns`, a name or the values of a column are null; a
 *                            column with ::PDT_OUTSIDE has values; or the options aren't valid
 */
pdt_code pdt_open_columns(const pdt_column *columns, size_t count, size_t key, const pdt_options *options, pdt_place *place,
                          pdt_table **table);

/**
 * Opens a table over a checkpoint in a folder.
 *
 * pdt_checkpoint(), pdt_checkpoint_write() or the program `pdt --store` wrote the folder. Its files
 * are read whole and not changed.
 *
 * Truncated files and bytes that don't have a column's structure are found. Other damage isn't: a
 * checkpoint has no checksum, and changed bytes may be another table, opened with ::PDT_OK. An
 * engine that must detect damage keeps checksums of the files. A ::pdt_database does so itself.
 *
 * @param folder      the folder's path, at most about 4,000 bytes
 * @param options     limits, or null for the defaults
 * @param[out] table  the table; null after any other code than ::PDT_OK
 * @retval PDT_OK              the table is open
 * @retval PDT_IO              `header.csv` or a column's file can't be read; `errno` has the cause
 * @retval PDT_BAD_TABLE       `header.csv` doesn't describe columns
 * @retval PDT_BAD_CHECKPOINT  a column's file can't be read as one, or the columns don't make a
 *                             table
 * @retval PDT_NO_CHECKPOINT   the files contain no complete checkpoint
 * @retval PDT_TOO_MANY_ROWS   it has more rows than pdt_options::row_limit
 * @retval PDT_BAD_LIMIT       an option is outside its range
 * @retval PDT_NOMEM           out of memory
 * @retval PDT_MISUSE          `table` or `folder` is null, the path is empty or too long, or the
 *                             options aren't valid
 */
pdt_code pdt_recover(const char *folder, const pdt_options *options, pdt_table **table);

/** Bytes in the caller's memory. */
typedef struct pdt_bytes {
  const void *at; /**< where they begin; may be null if `len` is 0 */
  size_t len;     /**< how many there are */
} pdt_bytes;

/**
 * Opens a table over the bytes of a checkpoint.
 *
 * They are the bytes that pdt_checkpoint_to() passed to its function, or those of the files in a
 * checkpoint's folder. Damage is found as far as pdt_recover() finds it.
 *
 * @param header           the header's bytes
 * @param len              their length
 * @param columns          the bytes of each column, in order
 * @param count            how many columns there are
 * @param options          limits, or null for the defaults
 * @param[out] generation  may be null: the sequence number of the newest complete checkpoint in
 *                         these bytes
 * @param[out] table       the table; null after any other code than ::PDT_OK
 * @retval PDT_OK              the table is open
 * @retval PDT_BAD_TABLE       the header doesn't describe columns
 * @retval PDT_BAD_CHECKPOINT  a column's bytes can't be read as one, the columns don't make a
 *                             table, or `count` isn't the header's number of columns
 * @retval PDT_NO_CHECKPOINT   the bytes contain no complete checkpoint
 * @retval PDT_TOO_MANY_ROWS   it has more rows than pdt_options::row_limit
 * @retval PDT_BAD_LIMIT       an option is outside its range
 * @retval PDT_NOMEM           out of memory
 * @retval PDT_MISUSE          `table`, `header`, `columns` or the bytes of a column are null, or
 *                             the options aren't valid
 */
pdt_code pdt_recover_from(const void *header, size_t len, const pdt_bytes *columns, size_t count, const pdt_options *options,
                          uint32_t *generation, pdt_table **table);

/**
 * Closes a table and frees it.
 *
 * No other thread may use the table any more. Layers of the table stay valid.
 *
 * @param table  the table; null does nothing
 * @retval PDT_OK      the table is closed
 * @retval PDT_MISUSE  a transaction, a pin, a checkpoint or a stream of the table is open, a thread
 *                     is in pdt_wait(), this thread holds a prepared commit, or the table is in a
 *                     database: it stays open
 */
pdt_code pdt_close(pdt_table *table);

/**
 * How many columns a table has. Columns never change, so that this and the next three calls take no
 * lock.
 *
 * @param table  a table
 * @return the number of columns, 1 to 32; 0 for null
 */
size_t pdt_columns(const pdt_table *table);

/**
 * How many of the first columns are the key.
 *
 * @param table  a table
 * @return the number of key columns, 1 to 4; 0 for null
 */
size_t pdt_key_columns(const pdt_table *table);

/**
 * The type of a column.
 *
 * @param table   a table
 * @param column  the column, from 0
 * @return a ::pdt_type; 0 if there is no such column
 */
int pdt_column_type(const pdt_table *table, size_t column);

/**
 * The name of a column.
 *
 * @param table   a table
 * @param column  the column, from 0
 * @return the name, valid until the table is closed; null if there is no such column. A name that
 *         contains a zero byte ends there
 */
const char *pdt_column_name(const pdt_table *table, size_t column);

/** @} */

/** @addtogroup maintenance
 *
 * A ::pdt_database maintains its tables itself. For a table outside a database the caller does it:
 * pdt_fold() keeps commits fast, pdt_checkpoint() keeps scans fast, pdt_trim() frees memory.
 * @{ */

/** The sizes of those parts of a table that grow between folds and checkpoints. */
typedef struct pdt_sizes {
  uint64_t commits;         /**< the number of the newest version, as of pdt_txn_version() */
  size_t write_entries;     /**< entries of the Write-PDT, which a fold moves into the Read-PDT */
  size_t read_entries;      /**< entries of the Read-PDT, which a checkpoint moves into the stable table */
  size_t open_transactions; /**< open transactions */
} pdt_sizes;

/**
 * Reports what has grown since the last fold and checkpoint.
 *
 * Takes the table's lock. May be called while this thread holds a prepared commit.
 *
 * @param table       a table
 * @param[out] sizes  the sizes
 * @retval PDT_OK      `sizes` is written
 * @retval PDT_MISUSE  a pointer is null
 */
pdt_code pdt_size(pdt_table *table, pdt_sizes *sizes);

/**
 * A table's counters since its opening, and what it retains now. Later versions may add members.
 */
typedef struct pdt_counts {
  size_t size;           /**< `sizeof(pdt_counts)`, set by the caller, also of an earlier or a later header */
  uint64_t begins;       /**< transactions begun */
  uint64_t commits;      /**< transactions committed that changed something */
  uint64_t conflicts;    /**< commits refused with ::PDT_CONFLICT */
  uint64_t too_old;      /**< commits refused with ::PDT_TOO_OLD */
  uint64_t full;         /**< commits refused with ::PDT_FULL */
  uint64_t folds;        /**< folds, by pdt_fold() or by the maintenance of a database */
  uint64_t checkpoints;  /**< checkpoints installed */
  uint64_t superseded;   /**< checkpoints refused with ::PDT_SUPERSEDED */
  size_t pins;           /**< pins that are open now */
  uint64_t oldest_pin;   /**< the version of the oldest of them, or 0 */
  size_t kept;           /**< commits whose changes are retained now */
  uint64_t kept_entries; /**< entries of those changes */
  uint64_t waits;        /**< how often a thread waited for the table's lock */
  uint64_t longest_hold; /**< the longest time that a call held the table's lock, in nanoseconds */
  uint64_t packs;        /**< how often a fold packed the Read-PDT for scans */
} pdt_counts;

/**
 * Reads a table's counters.
 *
 * Blocks commits for the time that it takes to visit the retained commits, at most
 * pdt_options::recent. May be called while this thread holds a prepared commit.
 *
 * @param table        a table
 * @param[out] counts  the counters; the caller sets pdt_counts::size
 * @retval PDT_OK      `counts` is written
 * @retval PDT_MISUSE  a pointer is null, or pdt_counts::size isn't set
 */
pdt_code pdt_count(pdt_table *table, pdt_counts *counts);

/**
 * Folds the Write-PDT into the Read-PDT (a delta merge), so that later commits are applied to a
 * small tree.
 *
 * No version changes, and no open transaction. Blocks commits for the time that it takes to merge
 * the entries of the Write-PDT.
 *
 * It then packs a Read-PDT of 256 entries or more, if a sixteenth of them came since it was packed
 * last. Transactions that begin from there on read ints by pdt_ints() and booleans by pdt_bools()
 * several times as fast. Packing doesn't block commits; it takes 24 bytes an entry, and 8 bytes for
 * each column of an inserted row, and is skipped if malloc() refuses them.
 *
 * @param table  a table
 * @retval PDT_OK      the Write-PDT is empty
 * @retval PDT_NOMEM   out of memory; nothing changed
 * @retval PDT_MISUSE  `table` is null, or this thread holds a prepared commit
 */
pdt_code pdt_fold(pdt_table *table);

/**
 * Frees the retained changes of the last commits, before there are pdt_options::recent of them.
 *
 * A transaction that began before the newest commit then gets ::PDT_TOO_OLD if it commits a change,
 * and reads on; pdt_changes() returns ::PDT_MISSING for these commits. Transactions that began
 * after the newest commit aren't affected. The changes are freed without the lock, unless malloc()
 * refuses the memory that this takes.
 *
 * @param table  a table
 * @retval PDT_OK      the changes are freed
 * @retval PDT_MISUSE  `table` is null, or this thread holds a prepared commit
 */
pdt_code pdt_trim(pdt_table *table);

/** @} */

/** @addtogroup checkpoints
 *
 * A checkpoint writes the newest version as a new stable table, which the table then reads in place
 * of the old one. It is written without the lock. pdt_recover() and pdt_recover_from() read it.
 *
 * These calls don't report the number of the version that they write. An engine with a log of its
 * own uses @ref two_parts, which does.
 * @{ */

/**
 * Writes the newest version into a folder that has no checkpoint, as `header.csv` and
 * `column-N.pdt`.
 *
 * Each file is synced, then the folder, then the folder above it. After ::PDT_OK the table is
 * durable, except for names further up: if the caller created those folders, it syncs them. A
 * folder above that may not be read (`EACCES`, `EPERM`) is skipped, and so is a folder whose file
 * system can't sync folders (`EINVAL`). The folder must exist and be readable.
 *
 * In memory the written table is then the stable table, with the commits since on top. If a fold or
 * another checkpoint comes meanwhile, the layers stay as that left them.
 *
 * Blocks commits for two folds, and neither while the table is made nor while it is written.
 *
 * @param table   a table
 * @param folder  the folder's path, at most about 4,000 bytes
 * @retval PDT_OK             the checkpoint is durable
 * @retval PDT_EXISTS         the folder has a checkpoint, or a part of one
 * @retval PDT_IO             a file can't be written or synced, or the folder isn't there or may
 *                            not be read; `errno` has the cause
 * @retval PDT_WRITES_FAILED  a commit of the table's database can't be made durable
 * @retval PDT_NOMEM          out of memory; if it came after the writing, the table may have been
 *                            folded
 * @retval PDT_MISUSE         a pointer is null, the path is empty or too long, or this thread holds
 *                            a prepared commit
 *
 * After any other code than ::PDT_OK the files that were written are deleted, the stable table is
 * unchanged, and a checkpoint that has begun elsewhere stays valid.
 */
pdt_code pdt_checkpoint(pdt_table *table, const char *folder);

/**
 * Takes the next bytes of a checkpoint: the function that a caller passes to pdt_checkpoint_to().
 *
 * The thread in pdt_checkpoint_to() calls it, without the table's lock. It may call on this table,
 * except for pdt_close().
 *
 * @param context  what the caller passed to pdt_checkpoint_to()
 * @param column   the column, from 0, or #PDT_HEADER; the bytes follow those of the same column
 *                 before
 * @param bytes    the bytes, valid during the call
 * @param len      how many there are
 * @return 0 if it took all bytes; any other number ends the checkpoint
 */
typedef int (*pdt_write)(void *context, size_t column, const uint8_t *bytes, size_t len);

/** The column number of the header's bytes. */
#define PDT_HEADER ((size_t)-1)

/**
 * Passes the bytes of a checkpoint of the newest version to a function: the header, then each
 * column in order.
 *
 * The caller makes the bytes durable, and records that they are complete. In memory the written
 * table is then the stable table, as after pdt_checkpoint().
 *
 * Blocks commits for two folds, and not while `write` runs.
 *
 * @param table        a table
 * @param write        takes the bytes
 * @param context      passed to `write`
 * @param[out] column  may be null: at ::PDT_DEVICE_FAILED the column whose bytes `write` refused
 * @retval PDT_OK             `write` took all bytes
 * @retval PDT_DEVICE_FAILED  `write` returned a number other than 0; it isn't called again, and the
 *                            bytes that it took are no checkpoint
 * @retval PDT_WRITES_FAILED  a commit of the table's database can't be made durable
 * @retval PDT_NOMEM          out of memory; if `write` took all bytes, the table may have been
 *                            folded
 * @retval PDT_MISUSE         `table` or `write` is null, or this thread holds a prepared commit
 *
 * After any other code than ::PDT_OK the stable table is unchanged.
 */
pdt_code pdt_checkpoint_to(pdt_table *table, pdt_write write, void *context, size_t *column);

/** @} */

/* ---- checkpoints in two parts */

/** @addtogroup two_parts
 *
 * Begin, write, install, end. The number of the version is known at the begin, so that an engine
 * can record in its log from which commit on a recovery replays. It takes the memory of a second
 * table meanwhile.
 * @{ */

/**
 * A checkpoint that has begun: the table as it was then. One thread at a time uses it. It ends
 * before its table is closed.
 */
typedef struct pdt_open_checkpoint pdt_open_checkpoint;

/**
 * Begins a checkpoint of the newest version.
 *
 * Folds the Write-PDT, which blocks commits.
 *
 * @param table            a table
 * @param[out] commits     may be null: the number of the version. An engine's log of later commits
 *                         must stay
 * @param[out] checkpoint  the checkpoint, freed by pdt_checkpoint_end(); null after any other code
 *                         than ::PDT_OK
 * @retval PDT_OK      the checkpoint has begun
 * @retval PDT_NOMEM   out of memory; nothing changed
 * @retval PDT_MISUSE  `table` or `checkpoint` is null, or this thread holds a prepared commit
 */
pdt_code pdt_checkpoint_begin(pdt_table *table, uint64_t *commits, pdt_open_checkpoint **checkpoint);

/**
 * Writes a checkpoint into a folder, as pdt_checkpoint() does.
 *
 * Takes no lock. It takes the memory of the table, and twice that of its bytes. After ::PDT_OK the
 * version of the begin is durable there. After any other code the files that were written are
 * deleted, nothing in memory has changed, and the call may be repeated.
 *
 * @param checkpoint  a checkpoint that isn't written yet
 * @param folder      the folder's path, at most about 4,000 bytes
 * @retval PDT_OK             the checkpoint is durable
 * @retval PDT_EXISTS         the folder has a checkpoint, or a part of one
 * @retval PDT_IO             a file can't be written or synced, or the folder isn't there or may
 *                            not be read; `errno` has the cause
 * @retval PDT_WRITES_FAILED  a commit of the table's database can't be made durable
 * @retval PDT_NOMEM          out of memory
 * @retval PDT_MISUSE         a pointer is null, the path is empty or too long, the checkpoint is
 *                            written already, or this thread holds a prepared commit of the table's
 *                            database, whose commits aren't durable yet
 */
pdt_code pdt_checkpoint_write(pdt_open_checkpoint *checkpoint, const char *folder);

/**
 * Begins a transaction over the version of a checkpoint, whatever was committed since, as
 * pdt_begin_at() does over a pin.
 *
 * An engine with columns of its own (::PDT_OUTSIDE) reads here the row runs from which it writes
 * them, before the install. Constant time; may be called while this thread holds a prepared commit.
 *
 * @param checkpoint  a checkpoint
 * @param[out] txn    the transaction; null after any other code than ::PDT_OK
 * @retval PDT_OK      the transaction is open
 * @retval PDT_NOMEM   out of memory
 * @retval PDT_MISUSE  a pointer is null
 */
pdt_code pdt_checkpoint_read(pdt_open_checkpoint *checkpoint, pdt_txn **txn);

/**
 * Makes the table that was written the stable table in memory.
 *
 * The commits since the begin stay in the Write-PDT, and no version changes. Blocks commits for a
 * handful of allocations, whatever the size of the table.
 *
 * @param checkpoint  a checkpoint that pdt_checkpoint_write() has written
 * @retval PDT_OK          the checkpoint is installed
 * @retval PDT_SUPERSEDED  a fold, or the begin or the install of another checkpoint, came since the
 *                         begin: nothing changes in memory. The written checkpoint stays valid, with the
 *                         version of the begin
 * @retval PDT_NOMEM       out of memory; the call may be repeated
 * @retval PDT_MISUSE      `checkpoint` is null, isn't written, or is installed already, or this
 *                         thread holds a prepared commit
 */
pdt_code pdt_checkpoint_install(pdt_open_checkpoint *checkpoint);

/**
 * Ends a checkpoint, at any stage, and frees it. What was written stays where it is.
 *
 * @param checkpoint  a checkpoint; null does nothing
 */
void pdt_checkpoint_end(pdt_open_checkpoint *checkpoint);

/** @} */

/* ---- transactions */

/** @addtogroup transactions
 *
 * A transaction reads one version of the table and its own writes (snapshot isolation). Its commit
 * is refused if a concurrent commit modified the same data; begin again then, and repeat the work.
 * @{ */

/**
 * Begins a transaction over the newest version.
 *
 * Constant time; waits for no commit, fold or checkpoint. If malloc() refused to share the newest
 * version with begins, the next begin or pin takes the table's lock once.
 *
 * In a database "newest" is the newest durable version under ::PDT_SYNC_FULL without
 * pdt_database_options::early_reads.
 *
 * @param table     a table
 * @param[out] txn  the transaction; null after any other code than ::PDT_OK
 * @retval PDT_OK      the transaction is open
 * @retval PDT_NOMEM   out of memory
 * @retval PDT_MISUSE  a pointer is null
 */
pdt_code pdt_begin(pdt_table *table, pdt_txn **txn);

/**
 * The number of the version that a transaction sees.
 *
 * Outside a database it is the number of commits since the opening. In a database it is the number
 * of the last commit that changed this table; if none has since the table was created or the folder
 * was opened, it is the number that the database's newest commit had then.
 *
 * @param txn           a transaction
 * @param[out] commits  the number
 * @retval PDT_OK      `commits` is written
 * @retval PDT_MISUSE  a pointer is null
 */
pdt_code pdt_txn_version(pdt_txn *txn, uint64_t *commits);

/**
 * Ends a transaction without a commit, and frees it.
 *
 * Takes no lock. A commit that this thread has prepared is given up first. A commit that another
 * thread has prepared, and a transaction of a ::pdt_dbtxn, stay as they are.
 *
 * @param txn  a transaction; null does nothing
 */
void pdt_abort(pdt_txn *txn);

/**
 * Commits a transaction.
 *
 * A transaction that changes nothing ends as by pdt_abort(): ::PDT_OK, no number is taken, and
 * `commits` is the version that it saw.
 *
 * Commits of a table run one after the other; a thread that holds the lock also runs the commits of
 * threads that wait for it. In a database the call returns once the commit is as durable as
 * ::pdt_sync says.
 *
 * @param txn           a transaction, freed unless the code says otherwise
 * @param[out] commits  may be null: the number of the newest version, also of a commit that is
 *                      refused. In a database it is the number of the database's newest commit
 * @retval PDT_OK               committed; the transaction is over
 * @retval PDT_CONFLICT         a commit since the begin set the same cell (a cell of the same row,
 *                              if pdt_options::by_row), inserted a row of the same key, or deleted
 *                              or replaced a row that this transaction sets, deletes or replaces,
 *                              or the other way round; the transaction is over. Two sets of a cell
 *                              conflict even if they set the same value
 * @retval PDT_TOO_OLD          the changes of a commit since the begin aren't retained any more;
 *                              the transaction is over
 * @retval PDT_FULL             the table would have more rows than pdt_options::row_limit; the
 *                              transaction is over
 * @retval PDT_OUTCOME_UNKNOWN  database only: I/O error while the commit was written; whether it is
 *                              durable is unknown until the database is reopened. The transaction
 *                              is over
 * @retval PDT_NOMEM            out of memory; the transaction stays open, and may commit again
 * @retval PDT_WRITES_FAILED    database only: an earlier write failed; the transaction stays open
 * @retval PDT_TOO_LONG         database only: the changes take 4 GiB or more in the journal; the
 *                              transaction stays open
 * @retval PDT_READONLY         database only: it is open read-only, and the transaction changes
 *                              something; it stays open
 * @retval PDT_MISUSE           `txn` is null, prepared, or part of a ::pdt_dbtxn; this thread holds
 *                              a prepared commit; or a child of fork() commits to its parent's
 *                              database. The transaction stays open
 */
pdt_code pdt_commit(pdt_txn *txn, uint64_t *commits);

/** @} */

/* ---- pins */

/** @addtogroup pins
 *
 * A parallel scan pins the newest version; each of its threads begins a transaction at the pin and
 * reads a range of positions. Time travel is a pin that is kept. A pin keeps in memory what
 * commits, folds and checkpoints have replaced since.
 * @{ */

/**
 * A version of a table that is kept. Any threads may begin at it at once. Freed by pdt_unpin(),
 * before its table is closed.
 */
typedef struct pdt_pinned pdt_pinned;

/**
 * Pins the newest version.
 *
 * Constant time, without the table's lock; see pdt_begin() for which version is the newest.
 *
 * @param table         a table
 * @param[out] commits  may be null: the number of the version
 * @param[out] pin      the pin; null after any other code than ::PDT_OK
 * @retval PDT_OK      the version is pinned
 * @retval PDT_NOMEM   out of memory
 * @retval PDT_MISUSE  `table` or `pin` is null
 */
pdt_code pdt_pin(pdt_table *table, uint64_t *commits, pdt_pinned **pin);

/**
 * The number of a pin's version.
 *
 * @param pin  a pin
 * @return the number; 0 for null
 */
uint64_t pdt_pinned_commits(const pdt_pinned *pin);

/**
 * Begins a transaction over the version of a pin.
 *
 * Constant time, without the table's lock. The transaction may write, and commits as one that began
 * when this version was the newest: expect ::PDT_CONFLICT and ::PDT_TOO_OLD.
 *
 * @param pin       a pin
 * @param[out] txn  the transaction; null after any other code than ::PDT_OK
 * @retval PDT_OK      the transaction is open
 * @retval PDT_NOMEM   out of memory
 * @retval PDT_MISUSE  a pointer is null
 */
pdt_code pdt_begin_at(pdt_pinned *pin, pdt_txn **txn);

/**
 * Releases a pin. Transactions that began at it stay open.
 *
 * No other thread may use the pin any more.
 *
 * @param pin  a pin; null does nothing
 */
void pdt_unpin(pdt_pinned *pin);

/** @} */

/* ---- commits in two parts */

/** @addtogroup prepared
 *
 * pdt_prepare() decides; the engine writes and syncs its log; pdt_install() publishes. The log then
 * has exactly the commits that took place, under ascending numbers without a gap. Other commits
 * wait for the log, so that several commits can't share one sync. A ::pdt_database does without
 * this: it has a journal with group commit.
 * @{ */

/**
 * Decides a commit, and makes everything that it needs, so that it can't fail any more.
 *
 * After ::PDT_OK nothing has changed yet, and this thread holds a prepared commit: pdt_install(),
 * pdt_give_up() or pdt_abort() follows, on this thread. The table's lock stays held: calls of other
 * threads on the table wait, except for begins and pins, which see the version before.
 *
 * Meanwhile this thread may call: reads of transactions, begins and pins, pdt_abort(), the commit
 * of a transaction that changes nothing, pdt_size(), pdt_count(), pdt_wait(),
 * pdt_checkpoint_read(), pdt_checkpoint_write() and pdt_checkpoint_end(). All other calls on the
 * table return ::PDT_MISUSE, and so do writes and savepoints of the prepared transaction.
 *
 * In a database pdt_checkpoint_write() returns ::PDT_MISUSE too until the commits of the checkpoint
 * are on the device. So does the commit of a transaction that changes nothing until the version
 * that it saw is as durable as ::pdt_sync says: the transaction stays open, and pdt_abort() ends
 * it.
 *
 * A transaction that changes nothing takes no number and holds no lock; pdt_install() ends it.
 *
 * @param txn           a transaction
 * @param[out] commits  may be null: the number that the commit will have
 * @retval PDT_OK             prepared
 * @retval PDT_CONFLICT       as of pdt_commit(); the transaction is over
 * @retval PDT_TOO_OLD        as of pdt_commit(); the transaction is over
 * @retval PDT_FULL           as of pdt_commit(); the transaction is over
 * @retval PDT_NOMEM          out of memory; the transaction stays open
 * @retval PDT_WRITES_FAILED  database only: an earlier write failed; the transaction stays open
 * @retval PDT_TOO_LONG       database only: the changes take 4 GiB or more in the journal; the
 *                            transaction stays open
 * @retval PDT_READONLY       database only: it is open read-only; the transaction stays open
 * @retval PDT_MISUSE         `txn` is null, prepared, or part of a ::pdt_dbtxn, or this thread
 *                            holds another prepared commit
 */
pdt_code pdt_prepare(pdt_txn *txn, uint64_t *commits);

/**
 * Installs a prepared commit: the transaction is committed and over.
 *
 * Takes no memory. Outside a database it can't be refused. In a database it appends the commit to
 * the journal, releases the lock, and waits as pdt_commit() does.
 *
 * @param txn  a transaction that this thread has prepared
 * @retval PDT_OK               committed
 * @retval PDT_OUTCOME_UNKNOWN  database only: as of pdt_commit(); the transaction is over
 * @retval PDT_WRITES_FAILED    database only: a write has failed since the prepare; the transaction
 *                              is still prepared, and is given up
 * @retval PDT_MISUSE           `txn` is null, or this thread hasn't prepared it: nothing changes
 */
pdt_code pdt_install(pdt_txn *txn);

/**
 * Gives up a prepared commit: the table is as if it had never been prepared, and the transaction is
 * open as before.
 *
 * @param txn  a transaction that this thread has prepared
 * @retval PDT_OK      given up
 * @retval PDT_MISUSE  `txn` is null, or this thread hasn't prepared it
 */
pdt_code pdt_give_up(pdt_txn *txn);

/** @} */

/* ---- writes */

/** @addtogroup writes
 *
 * A write takes effect at once for the reads of its transaction, and for others with the commit. A
 * write that is refused leaves the transaction as it was. No write takes the table's lock.
 * @{ */

/**
 * Inserts a row.
 *
 * @param txn      a transaction
 * @param numbers  a number for each column: pdt_columns() of them
 * @param texts    the bytes of the texts, one after the other; may be null if `bytes` is 0
 * @param bytes    how many bytes the texts have
 * @retval PDT_OK             inserted
 * @retval PDT_DUPLICATE      a row with this key exists
 * @retval PDT_FULL           the table would have more rows than pdt_options::row_limit
 * @retval PDT_TYPE_MISMATCH  a cell doesn't fit its column, or `bytes` isn't the sum of the texts'
 *                            lengths
 * @retval PDT_NOMEM          out of memory
 * @retval PDT_MISUSE         a pointer is null, or the transaction is prepared
 */
pdt_code pdt_insert(pdt_txn *txn, const int64_t *numbers, const void *texts, size_t bytes);

/**
 * Deletes the row of a key.
 *
 * @param txn    a transaction
 * @param key    a number for each key column: pdt_key_columns() of them
 * @param texts  the bytes of the key's texts, one after the other; may be null if `bytes` is 0
 * @param bytes  how many bytes they have
 * @retval PDT_OK             deleted
 * @retval PDT_MISSING        no row has this key
 * @retval PDT_TYPE_MISMATCH  the key doesn't fit the key columns
 * @retval PDT_NOMEM          out of memory
 * @retval PDT_MISUSE         a pointer is null, or the transaction is prepared
 */
pdt_code pdt_delete(pdt_txn *txn, const int64_t *key, const void *texts, size_t bytes);

/**
 * Sets one cell of the row of a key.
 *
 * @param txn     a transaction
 * @param key     a number for each key column: pdt_key_columns() of them
 * @param texts   the bytes of the key's texts, one after the other; may be null if `bytes` is 0
 * @param bytes   how many bytes they have
 * @param column  the column, from 0, which isn't a key column
 * @param number  an int's value, a boolean's 0 or 1, or a text's length in bytes
 * @param text    the bytes of a text; else not read, and may be null
 * @retval PDT_OK             set
 * @retval PDT_MISSING        no row has this key
 * @retval PDT_TYPE_MISMATCH  the key doesn't fit the key columns, there is no such column, it is a
 *                            key column, or the value isn't one of its type
 * @retval PDT_NOMEM          out of memory
 * @retval PDT_MISUSE         a pointer is null, or the transaction is prepared
 */
pdt_code pdt_set(pdt_txn *txn, const int64_t *key, const void *texts, size_t bytes, size_t column, int64_t number, const void *text);

/** @} */

/* ---- savepoints */

/** @addtogroup savepoints
 *
 * Savepoints nest like SQL's, each with a level. An engine makes one before a statement of many
 * writes, rolls back to it if a write fails, and releases it at the end.
 * @{ */

/**
 * Makes a savepoint.
 *
 * Constant time: it shares what the transaction has written, and later writes copy what they
 * change.
 *
 * @param txn         a transaction
 * @param[out] level  its level: how many savepoints there were before
 * @retval PDT_OK      the savepoint exists
 * @retval PDT_NOMEM   out of memory
 * @retval PDT_MISUSE  a pointer is null, or the transaction is prepared
 */
pdt_code pdt_savepoint(pdt_txn *txn, size_t *level);

/**
 * Undoes all writes since a savepoint.
 *
 * A commit records none of them. The savepoint stays, and later ones are gone. Takes no memory.
 * Spans of pdt_int_spans() stay valid, addresses of pdt_texts() don't.
 *
 * @param txn    a transaction
 * @param level  the savepoint's level
 * @retval PDT_OK       rolled back
 * @retval PDT_MISSING  there is no savepoint of this level
 * @retval PDT_NOMEM    a tree has 2^63 - 1 owners; never in practice
 * @retval PDT_MISUSE   `txn` is null, or the transaction is prepared
 */
pdt_code pdt_rollback_to(pdt_txn *txn, size_t level);

/**
 * Releases a savepoint and all later ones. Their writes stay.
 *
 * Takes no memory, and frees what only those savepoints needed.
 *
 * @param txn    a transaction
 * @param level  the savepoint's level
 * @retval PDT_OK       released
 * @retval PDT_MISSING  there is no savepoint of this level
 * @retval PDT_MISUSE   `txn` is null, or the transaction is prepared
 */
pdt_code pdt_release(pdt_txn *txn, size_t level);

/** @} */

/* ---- reads */

/** @addtogroup reads
 *
 * A transaction reads the version that it began over, with its own writes. No read takes the
 * table's lock, and a prepared transaction may be read. An engine scans column by column, in
 * batches between two positions: pdt_int_spans() returns ints without a copy, pdt_ints() and
 * pdt_bools() copy them, pdt_texts() returns the addresses of texts, and pdt_cells() copies the
 * cells of any column.
 *
 * A range of keys is the range of positions between two pdt_rank()s. Reads past the last row return
 * fewer rows, or none.
 * @{ */

/**
 * How many rows there are.
 *
 * @param txn        a transaction
 * @param[out] rows  the number of rows
 * @retval PDT_OK      `rows` is written
 * @retval PDT_MISUSE  a pointer is null
 */
pdt_code pdt_rows(pdt_txn *txn, uint64_t *rows);

/**
 * How many rows have a smaller key, and whether a row has this key.
 *
 * Logarithmic time.
 *
 * @param txn         a transaction
 * @param key         a number for each key column: pdt_key_columns() of them
 * @param texts       the bytes of the key's texts, one after the other; may be null if `bytes` is 0
 * @param bytes       how many bytes they have
 * @param[out] below  the number of rows with a smaller key: the position of this key's row, if
 *                    there is one
 * @param[out] there  whether a row has this key
 * @retval PDT_OK             `below` and `there` are written
 * @retval PDT_TYPE_MISMATCH  the key doesn't fit the key columns
 * @retval PDT_NOMEM          out of memory
 * @retval PDT_MISUSE         a pointer is null
 */
pdt_code pdt_rank(pdt_txn *txn, const int64_t *key, const void *texts, size_t bytes, uint64_t *below, bool *there);

/**
 * Copies the row of a key.
 *
 * @param txn           a transaction
 * @param key           a number for each key column: pdt_key_columns() of them
 * @param texts         the bytes of the key's texts, one after the other; may be null if `bytes` is
 *                      0
 * @param bytes         how many bytes they have
 * @param[out] numbers  a number for each column: room for pdt_columns() of them
 * @param[out] out      the bytes of the row's texts, one after the other; may be null if `room` is
 *                      0
 * @param room          how many bytes fit at `out`
 * @param[out] needed   may be null: how many bytes the row's texts have
 * @retval PDT_OK             the row is copied
 * @retval PDT_MISSING        no row has this key
 * @retval PDT_TOO_SMALL      the texts don't fit: `needed` bytes do
 * @retval PDT_TYPE_MISMATCH  the key doesn't fit the key columns
 * @retval PDT_NOMEM          out of memory
 * @retval PDT_MISUSE         a pointer is null
 */
pdt_code pdt_get(pdt_txn *txn, const int64_t *key, const void *texts, size_t bytes, int64_t *numbers, void *out, size_t room,
                 size_t *needed);

/**
 * Copies the row at a position.
 *
 * @param txn           a transaction
 * @param position      the position, from 0
 * @param[out] numbers  a number for each column: room for pdt_columns() of them
 * @param[out] out      the bytes of the row's texts, one after the other; may be null if `room` is
 *                      0
 * @param room          how many bytes fit at `out`
 * @param[out] needed   may be null: how many bytes the row's texts have
 * @retval PDT_OK         the row is copied
 * @retval PDT_MISSING    the position is past the last row
 * @retval PDT_TOO_SMALL  the texts don't fit: `needed` bytes do
 * @retval PDT_MISUSE     a pointer is null
 */
pdt_code pdt_row_at(pdt_txn *txn, uint64_t position, int64_t *numbers, void *out, size_t room, size_t *needed);

/**
 * Copies the cells of a column, of any type, from a position on.
 *
 * It stops at the last row, and before a text that doesn't fit.
 *
 * @param txn            a transaction
 * @param column         the column, from 0
 * @param from           the position of the first row
 * @param[out] numbers   a number for each cell
 * @param[in,out] count  how many numbers fit; then how many cells were copied: 0 if there is no
 *                       such column
 * @param[out] out       the bytes of the texts, one after the other; may be null if `room` is 0
 * @param room           how many bytes fit at `out`
 * @param[out] bytes     may be null: how many bytes of texts were copied
 * @retval PDT_OK      the cells are copied
 * @retval PDT_MISUSE  a pointer is null
 */
pdt_code pdt_cells(pdt_txn *txn, size_t column, uint64_t from, int64_t *numbers, size_t *count, void *out, size_t room, size_t *bytes);

/**
 * Copies the values of an int column from a position on.
 *
 * @param txn            a transaction
 * @param column         the column, from 0
 * @param from           the position of the first row
 * @param[out] numbers   the values
 * @param[in,out] count  how many values fit; then how many were copied: 0 for a column of another
 *                       type
 * @retval PDT_OK      the values are copied
 * @retval PDT_MISUSE  a pointer is null
 */
pdt_code pdt_ints(pdt_txn *txn, size_t column, uint64_t from, int64_t *numbers, size_t *count);

/**
 * Copies the values of a bool column from a position on, as bytes of 0 or 1.
 *
 * @param txn            a transaction
 * @param column         the column, from 0
 * @param from           the position of the first row
 * @param[out] booleans  the values
 * @param[in,out] count  how many values fit; then how many were copied: 0 for a column of another
 *                       type
 * @retval PDT_OK      the values are copied
 * @retval PDT_MISUSE  a pointer is null
 */
pdt_code pdt_bools(pdt_txn *txn, size_t column, uint64_t from, uint8_t *booleans, size_t *count);

/**
 * Returns the addresses and lengths of the texts of a text column from a position on (zero-copy).
 *
 * The bytes are in the stable table or, for changed rows, in entries over it. Any thread may read
 * them until the next write, pdt_rollback_to() or pdt_commit() on the transaction, or its end.
 *
 * @param txn            a transaction
 * @param column         the column, from 0
 * @param from           the position of the first row
 * @param[out] texts     the addresses, never null; a text has no zero byte at its end, may contain
 *                       zero bytes, and an empty one must not be read
 * @param[out] lens      the lengths in bytes
 * @param[in,out] count  how many addresses and lengths fit; then how many were written: 0 for a
 *                       column of another type
 * @retval PDT_OK      the addresses and lengths are written
 * @retval PDT_MISUSE  a pointer is null
 */
pdt_code pdt_texts(pdt_txn *txn, size_t column, uint64_t from, const char **texts, int64_t *lens, size_t *count);

/** A contiguous run of ints. */
typedef struct pdt_int_span {
  const int64_t *at; /**< where they begin; null for one value, which is in `number` */
  uint64_t count;    /**< how many there are */
  int64_t number;    /**< the value, if `at` is null */
} pdt_int_span;

/**
 * Returns the values of an int column between two positions as contiguous runs (zero-copy).
 *
 * The values are in the stable table, which doesn't change. Any thread may read them until the next
 * write on the transaction, or its end; pdt_rollback_to() leaves them valid.
 *
 * @param txn            a transaction
 * @param column         the column, from 0
 * @param from           the position of the first row
 * @param to             the position after the last row
 * @param[out] spans     the runs, in order
 * @param[in,out] count  how many runs fit; then how many were written: 0 for a column of another
 *                       type
 * @param[out] rows      may be null: how many rows the runs have. If it is less than asked for,
 *                       call again from there
 * @retval PDT_OK      the runs are written
 * @retval PDT_MISUSE  a pointer is null
 */
pdt_code pdt_int_spans(pdt_txn *txn, size_t column, uint64_t from, uint64_t to, pdt_int_span *spans, size_t *count, uint64_t *rows);

/** @} */

/* ---- row runs */

/** @addtogroup row_runs
 *
 * An engine may keep a column outside the library (::PDT_OUTSIDE), in the order of the stable
 * table, and merge it by position: row runs say which rows are stable rows, and at which positions
 * of the stable table. No key is read. docs/ENGINES.md has such an engine, with its checkpoints.
 * @{ */

/** Where the rows of a run come from. */
enum pdt_source {
  PDT_STABLE = 1,  /**< stable rows without changes */
  PDT_CHANGED = 2, /**< a stable row with changed columns: pdt_changed() reports which */
  PDT_INSERTED = 3 /**< an inserted row */
};

/** Consecutive rows from one source. */
typedef struct pdt_row_run {
  uint64_t position; /**< the position of the first row in the transaction's table */
  uint64_t rows;     /**< how many rows there are: 1 unless they are stable */
  uint64_t sid;      /**< the position of the first row in the stable table; 0 for an inserted row */
  uint32_t source;   /**< a ::pdt_source */
} pdt_row_run;

/**
 * Returns what the rows between two positions are made of, in order.
 *
 * Read over the rows of the stable table, the runs are the rows of the transaction; read over any
 * other rows of the same number, they are those rows with the same changes. So an engine reads its
 * own columns by the stable positions, and the cells that a changed row overrides from the library.
 *
 * The stable table is the table of the last checkpoint, made or installed, before the transaction
 * began (before the pin was taken, or before the checkpoint that it reads began), or else of the
 * opening.
 *
 * @param txn            a transaction
 * @param from           the position of the first row
 * @param to             the position after the last row
 * @param[out] row_runs  the runs
 * @param[in,out] count  how many runs fit; then how many were written
 * @retval PDT_OK      the runs are written
 * @retval PDT_MISUSE  a pointer is null
 */
pdt_code pdt_row_runs(pdt_txn *txn, uint64_t from, uint64_t to, pdt_row_run *row_runs, size_t *count);

/**
 * Reports which cells of the row at a position differ from the stable row below it, as a byte for
 * each column.
 *
 * @param txn           a transaction
 * @param position      the position, from 0
 * @param[out] changed  1 for a changed cell, 0 for the cell of the stable row; all 1 for an
 *                      inserted row
 * @param columns       how many columns to report, from the first on
 * @retval PDT_OK       `changed` is written
 * @retval PDT_MISSING  the position is past the last row
 * @retval PDT_MISUSE   a pointer is null
 */
pdt_code pdt_changed(pdt_txn *txn, uint64_t position, uint8_t *changed, size_t columns);

/** @} */

/* ---- layers and the change feed */

/** @addtogroup layers
 *
 * A layer is a PDT: entries that change the rows below it, by position. The Read-PDT is above the
 * stable table, the Write-PDT above the Read-PDT, and a transaction's own entries above the version
 * that it began over. Tools and tests look at layers; no engine needs them to read or to write.
 *
 * The change feed returns what each commit changed. A follower starts from the rows of a pin, then
 * reads pdt_changes() of one number after the other, and waits with pdt_wait(). At ::PDT_MISSING it
 * starts again from a pin.
 * @{ */

/**
 * A copy of a layer's entries, which nothing changes any more. One thread at a time uses it. Freed
 * by pdt_layer_close(), before or after its transaction and its table.
 */
typedef struct pdt_layer pdt_layer;

/** The change that an entry makes. */
enum pdt_kind {
  PDT_INSERT = 1, /**< inserts a row */
  PDT_DELETE = 2, /**< deletes a row */
  PDT_MODIFY = 3  /**< sets a cell of a row */
};

/**
 * An entry. Its cells are the whole row that it inserts, the key of the row that it deletes, or the
 * cell that it sets.
 */
typedef struct pdt_entry {
  uint64_t sid;  /**< its position among the rows below the layer */
  uint64_t rid;  /**< the position of its row among the rows above the layer; for a delete, where the row would be */
  size_t column; /**< the column that a modify sets; else 0 */
  size_t cells;  /**< how many cells it has */
  size_t bytes;  /**< how many bytes the texts of its cells have */
  uint32_t kind; /**< a ::pdt_kind */
} pdt_entry;

/**
 * Copies the Read-PDT and the Write-PDT of the newest version, both as of one moment.
 *
 * In a database this includes commits that aren't durable yet. Takes memory for each entry and
 * copies no row. Blocks commits for the time of the copy.
 *
 * @param table       a table
 * @param[out] read   the Read-PDT; null after any other code than ::PDT_OK
 * @param[out] write  the Write-PDT; null after any other code than ::PDT_OK
 * @retval PDT_OK      both are copied
 * @retval PDT_NOMEM   out of memory
 * @retval PDT_MISUSE  a pointer is null, `read` and `write` are one pointer, or this thread holds a
 *                     prepared commit
 */
pdt_code pdt_layers(pdt_table *table, pdt_layer **read, pdt_layer **write);

/**
 * Copies the entries of a transaction's own writes.
 *
 * @param txn         a transaction
 * @param[out] layer  the layer; null after any other code than ::PDT_OK
 * @retval PDT_OK      the entries are copied
 * @retval PDT_NOMEM   out of memory
 * @retval PDT_MISUSE  a pointer is null
 */
pdt_code pdt_own_layer(pdt_txn *txn, pdt_layer **layer);

/**
 * Returns what a commit changed: its entries over the version before it, which they turn into its
 * own version.
 *
 * Takes memory for each entry and copies no row. Blocks commits for the time of the copy. In a
 * database a commit that changed other tables has no entries.
 *
 * @param table       a table
 * @param number      the commit's number
 * @param[out] layer  the layer; null after any other code than ::PDT_OK
 * @retval PDT_OK       the entries are copied
 * @retval PDT_MISSING  the commit isn't retained: it isn't one of the last pdt_options::recent, it
 *                      came before the last trim or the opening, or it hasn't taken place. In a
 *                      database also a commit that begins don't see yet, and one that was freed for
 *                      pdt_database_options::kept_bytes
 * @retval PDT_NOMEM    out of memory
 * @retval PDT_MISUSE   a pointer is null, or this thread holds a prepared commit
 */
pdt_code pdt_changes(pdt_table *table, uint64_t number, pdt_layer **layer);

/**
 * Waits until the newest version has a number above `after`.
 *
 * Takes no lock that a commit holds. It must return before the table is closed. A thread may be
 * cancelled (pthread_cancel()) in this call, and in no other call of the library.
 *
 * @param table         a table
 * @param after         a version's number
 * @param milliseconds  how long to wait at most
 * @param[out] commits  may be null: the number of the newest version then
 * @retval PDT_OK       there is a newer version
 * @retval PDT_MISSING  there was none in that time
 * @retval PDT_MISUSE   `table` is null
 */
pdt_code pdt_wait(pdt_table *table, uint64_t after, uint64_t milliseconds, uint64_t *commits);

/**
 * Frees a layer.
 *
 * @param layer  a layer; null does nothing
 */
void pdt_layer_close(pdt_layer *layer);

/**
 * How many entries a layer has.
 *
 * @param layer  a layer
 * @return the number of entries; 0 for null
 */
size_t pdt_layer_size(pdt_layer *layer);

/**
 * Copies an entry.
 *
 * Entries are in the order of their SIDs. Logarithmic time.
 *
 * @param layer         a layer
 * @param index         the entry's index, from 0
 * @param[out] entry    the entry
 * @param[out] numbers  a number for each of its cells: room for pdt_columns() of them
 * @param[out] out      the bytes of its texts, one after the other; may be null if `room` is 0
 * @param room          how many bytes fit at `out`
 * @retval PDT_OK         the entry is copied
 * @retval PDT_MISSING    the index is past the last entry
 * @retval PDT_TOO_SMALL  the texts don't fit: pdt_entry::bytes do
 * @retval PDT_MISUSE     a pointer is null
 */
pdt_code pdt_entry_at(pdt_layer *layer, size_t index, pdt_entry *entry, int64_t *numbers, void *out, size_t room);

/** @} */

/* ---- databases */

/** @addtogroup databases
 *
 * A database is a folder with tables, each with a name, and a journal (a write-ahead log) of their
 * commits. Each table is a ::pdt_table: transactions begin, read, write and commit as over any
 * other. Acknowledged commits survive a kill of the process, and a crash of the machine, as far as
 * ::pdt_sync says.
 *
 * All tables of a database share one lock and one numbering: a commit has the number after that of
 * the commit before, whichever table that changed, and numbers go on when the folder is opened
 * again.
 *
 * A background thread folds, writes checkpoints of the tables and deletes files that are no longer
 * needed: pdt_fold(), pdt_trim() and pdt_checkpoint() aren't needed.
 *
 * Don't change or rename anything in the folder. It may be copied while no process has it open.
 * docs/DATABASES.md has its files, and what a crash leaves of them at each step.
 * @{ */

/** The failures that an acknowledged commit of a database survives. */
enum pdt_sync {
  PDT_SYNC_FULL = 0,   /**< a crash of the machine: a commit is acknowledged once it is on the device. Commits that wait at
                            the same time share a write and a sync (group commit) */
  PDT_SYNC_NORMAL = 1, /**< a kill of the process: a commit is acknowledged once the kernel has it. It is on the device a
                            second later or sooner, and without the background thread at the next pdt_maintain() */
  PDT_SYNC_OFF = 2     /**< neither: a commit is acknowledged from memory. It is on the device as under ::PDT_SYNC_NORMAL */
};

/**
 * How to open a database. A null pointer, or zeros in all members but the size, select the
 * defaults.
 */
typedef struct pdt_database_options {
  size_t size;                 /**< `sizeof(pdt_database_options)`, also of an earlier or a later header */
  int sync;                    /**< a ::pdt_sync; default ::PDT_SYNC_FULL */
  bool early_reads;            /**< true: a begin takes the newest version, even if a crash could still lose it; default false */
  bool no_maintenance;         /**< true: no background thread; the caller calls pdt_maintain(). Default false */
  bool read_only;              /**< true: open read-only: nothing in the folder is created or changed. Default false */
  uint64_t fold_entries;       /**< a Write-PDT with this many entries is folded; default: 1,024 */
  uint64_t checkpoint_entries; /**< a table with this many entries, and a fiftieth of its rows, gets a checkpoint; default: 10,000 */
  uint64_t journal_bytes;      /**< above this many bytes of journal tables with old checkpoints get new ones; default: 67,108,864 */
  uint64_t kept_bytes;         /**< bytes of memory for retained changes of all tables, the oldest freed first; default: 268,435,456 */
  unsigned mode;               /**< the mode of new files, less the umask, at most 0777; folders get search with read. Default 0666 */
} pdt_database_options;

/** The name of the table in a database that was made of a folder of the program `pdt`. */
#define PDT_IMPORTED "table"

/** The report of an opening. Later versions may add members. */
typedef struct pdt_report {
  size_t size;         /**< `sizeof(pdt_report)`, set by the caller, also of a later header */
  uint64_t commits;    /**< the number of the newest commit */
  uint64_t replayed;   /**< commits that were replayed from the journal, since no checkpoint has them */
  uint64_t torn_bytes; /**< bytes at the journal's end that are no complete commit: none of them was acknowledged; they are
                            cut off */
  uint64_t fault;      /**< at ::PDT_CORRUPT, ::PDT_INCOMPLETE and ::PDT_MISMATCH the number of the commit, or 0 for a file;
                            for `images.pdt` the number of the mark */
  char file[64];       /**< after an error the file in the folder that it is about, or an empty text; at ::PDT_OK the file to
                            which torn bytes were saved, if complete commits follow a damaged one in them */
} pdt_report;

/**
 * Opens the database in a folder.
 *
 * The folder is created if it isn't there; the folders above it aren't. Takes memory for all tables
 * and for the journal. One process may have a database open, or several read-only.
 *
 * Read-only, nothing in the folder is created or changed, and the file system may be full or
 * read-only. Torn bytes are ignored. Calls that would write return ::PDT_READONLY: a commit that
 * changes something, pdt_table_create(), pdt_table_drop(), pdt_declare(), pdt_maintain().
 *
 * A folder that the program made by `pdt run TABLE SCRIPT --store FOLDER --journal` becomes a
 * database with one table, named #PDT_IMPORTED: the rows of the newest checkpoint and of the
 * commits since, with numbers that go on after the last. The program's files are then deleted.
 * Don't open it during the run: the program takes no lock.
 *
 * @param folder         the folder's path
 * @param options        how to open it, or null for the defaults
 * @param[out] database  the database; null after any other code than ::PDT_OK
 * @param[out] report    may be null: what was found; the caller sets pdt_report::size
 * @retval PDT_OK              the database is open
 * @retval PDT_LOCKED          this process or another has it open, or another program has locked
 *                             its folder
 * @retval PDT_CORRUPT         durable data is corrupt: see pdt_report::fault and pdt_report::file
 * @retval PDT_INCOMPLETE      a commit or a file is missing: see pdt_report::fault and
 *                             pdt_report::file
 * @retval PDT_MISMATCH        the journal isn't the journal of these tables: see pdt_report::fault
 *                             and pdt_report::file
 * @retval PDT_BAD_CHECKPOINT  a checkpoint's file can't be read: see pdt_report::file
 * @retval PDT_NO_CHECKPOINT   the files of a table contain no complete checkpoint: see
 *                             pdt_report::file
 * @retval PDT_BAD_TABLE       a table's header has a valid checksum and doesn't describe columns:
 *                             another program wrote it
 * @retval PDT_TOO_MANY_ROWS   a table has more rows than its limit: another program wrote its files
 * @retval PDT_NEWER_FORMAT    a later version of the library wrote pdt_report::file
 * @retval PDT_MISSING         read-only: there is no database in the folder
 * @retval PDT_IO              a file can't be created, written, synced or read; `errno` has the
 *                             cause
 * @retval PDT_NOMEM           out of memory, or no thread can be created
 * @retval PDT_MISUSE          `folder` or `database` is null, the path is empty, pdt_report::size
 *                             isn't set, or an option isn't valid
 *
 * After any other code than ::PDT_OK no file has changed, except that torn bytes may be cut off at
 * ::PDT_IO and ::PDT_NOMEM; a folder that the call created is deleted again.
 */
pdt_code pdt_database_open(const char *folder, const pdt_database_options *options, pdt_database **database, pdt_report *report);

/**
 * Closes a database and its tables, and frees them.
 *
 * All commits are then durable, whatever ::pdt_sync it was opened with. No other thread may use it
 * any more.
 *
 * @param database  a database; null does nothing
 * @retval PDT_OK               closed, and all commits are durable
 * @retval PDT_OUTCOME_UNKNOWN  closed, but the last commits couldn't be made durable
 * @retval PDT_MISUSE           a transaction, a ::pdt_dbtxn, a pin, a checkpoint or a stream is
 *                              open, a thread is in pdt_wait(), this thread holds a prepared
 *                              commit, or this process is a child of fork(): it stays open
 */
pdt_code pdt_database_close(pdt_database *database);

/**
 * Creates a table over columns, as pdt_open_columns() does.
 *
 * Its rows, its name and its options are durable when this returns. It exists until it is dropped;
 * its handle is valid until the database is closed. Other threads commit while its files are
 * written.
 *
 * If the device fails twice, or memory is refused after it has failed, a later opening may find the table, as it was created.
 *
 * @param database    a database
 * @param name        1 to 64 bytes of UTF-8 and a zero byte; no byte below 32, and not 127
 * @param columns     as of pdt_open_columns(); no column has ::PDT_OUTSIDE
 * @param count       how many columns there are: 1 to 32
 * @param key         how many of the first columns are the key: 1 to 4
 * @param options     limits, or null for the defaults
 * @param[out] place  may be null: the place of a fault, whose row and column count from 0
 * @param[out] table  the table; null after any other code than ::PDT_OK
 * @retval PDT_OK             the table is durable
 * @retval PDT_EXISTS         a table of this name exists
 * @retval PDT_TYPE_MISMATCH  the name isn't valid, or a value isn't one of its type, as of
 *                            pdt_open_columns()
 * @retval PDT_NOT_ASCENDING  as of pdt_open_columns()
 * @retval PDT_BAD_TABLE      as of pdt_open_columns()
 * @retval PDT_TOO_MANY_ROWS  more rows than pdt_options::row_limit
 * @retval PDT_BAD_LIMIT      an option is outside its range
 * @retval PDT_FULL           the database has no table number left: they have 32 bits, and none is
 *                            used again
 * @retval PDT_IO             a file can't be written or synced; `errno` has the cause
 * @retval PDT_WRITES_FAILED  an earlier write failed
 * @retval PDT_INCOMPLETE     as of pdt_maintain()
 * @retval PDT_READONLY       the database is open read-only
 * @retval PDT_NOMEM          out of memory
 * @retval PDT_MISUSE         a pointer is null, a column has ::PDT_OUTSIDE, the options aren't
 *                            valid, this thread holds a prepared commit, or this process is a child
 *                            of fork()
 */
pdt_code pdt_table_create(pdt_database *database, const char *name, const pdt_column *columns, size_t count, size_t key,
                          const pdt_options *options, pdt_place *place, pdt_table **table);

/**
 * Creates a table over CSV text, as pdt_open_csv() does: a header alone creates an empty table.
 *
 * Like pdt_table_create().
 *
 * @param database    a database
 * @param name        1 to 64 bytes of UTF-8 and a zero byte; no byte below 32, and not 127
 * @param csv         the text, in UTF-8; may be null if `bytes` is 0
 * @param bytes       its length in bytes
 * @param options     limits, or null for the defaults
 * @param[out] fault  may be null; written at ::PDT_BAD_TABLE only
 * @param[out] table  the table; null after any other code than ::PDT_OK
 * @retval PDT_OK             the table is durable
 * @retval PDT_EXISTS         a table of this name exists
 * @retval PDT_TYPE_MISMATCH  the name isn't valid
 * @retval PDT_BAD_TABLE      the text isn't a table: see `fault`
 * @retval PDT_TOO_MANY_ROWS  more rows than pdt_options::row_limit
 * @retval PDT_BAD_LIMIT      an option is outside its range
 * @retval PDT_FULL           the database has no table number left
 * @retval PDT_IO             a file can't be written or synced; `errno` has the cause
 * @retval PDT_WRITES_FAILED  an earlier write failed
 * @retval PDT_INCOMPLETE     as of pdt_maintain()
 * @retval PDT_READONLY       the database is open read-only
 * @retval PDT_NOMEM          out of memory
 * @retval PDT_MISUSE         a pointer is null, the options aren't valid, this thread holds a
 *                            prepared commit, or this process is a child of fork()
 */
pdt_code pdt_table_create_csv(pdt_database *database, const char *name, const void *csv, size_t bytes, const pdt_options *options,
                              pdt_fault *fault, pdt_table **table);

/**
 * Creates a table over a plain CSV text, as pdt_open_plain() does. A header alone creates an empty
 * table of texts.
 *
 * Like pdt_table_create().
 *
 * @param database    a database
 * @param name        1 to 64 bytes of UTF-8 and a zero byte; no byte below 32, and not 127
 * @param csv         the text, in UTF-8; may be null if `bytes` is 0
 * @param bytes       its length in bytes
 * @param plain       the key and the sample, or null for the defaults
 * @param options     limits, or null for the defaults
 * @param[out] fault  may be null; written at ::PDT_BAD_TABLE only, as by pdt_open_plain()
 * @param[out] table  the table; null after any other code than ::PDT_OK
 * @retval PDT_OK             the table is durable
 * @retval PDT_EXISTS         a table of this name exists
 * @retval PDT_TYPE_MISMATCH  the name isn't valid
 * @retval PDT_BAD_TABLE      the text isn't a table, or no column has a name of the key: see `fault`
 * @retval PDT_TOO_MANY_ROWS  more rows than pdt_options::row_limit
 * @retval PDT_BAD_LIMIT      an option is outside its range
 * @retval PDT_FULL           the database has no table number left
 * @retval PDT_IO             a file can't be written or synced; `errno` has the cause
 * @retval PDT_WRITES_FAILED  an earlier write failed
 * @retval PDT_INCOMPLETE     as of pdt_maintain()
 * @retval PDT_READONLY       the database is open read-only
 * @retval PDT_NOMEM          out of memory
 * @retval PDT_MISUSE         a pointer is null, `plain` or the options aren't valid, this thread holds a
 *                            prepared commit, or this process is a child of fork()
 */
pdt_code pdt_table_create_plain(pdt_database *database, const char *name, const void *csv, size_t bytes, const pdt_plain *plain,
                                const pdt_options *options, pdt_fault *fault, pdt_table **table);

/**
 * Finds a table by its name.
 *
 * @param database    a database
 * @param name        the name
 * @param[out] table  the table, the same handle each time, which pdt_close() refuses; null if there
 *                    is none
 * @retval PDT_OK       found
 * @retval PDT_MISSING  no table has this name
 * @retval PDT_MISUSE   a pointer is null, or this process is a child of fork()
 */
pdt_code pdt_table_open(pdt_database *database, const char *name, pdt_table **table);

/**
 * Copies the name of a table, by its index in the order of creation.
 *
 * @param database   a database
 * @param index      the table's index, from 0
 * @param[out] name  the name and a zero byte
 * @param room       how many bytes fit at `name`: ::PDT_MAX_NAME + 1 are enough
 * @retval PDT_OK         the name is copied
 * @retval PDT_MISSING    the index is past the last table
 * @retval PDT_TOO_SMALL  the name doesn't fit
 * @retval PDT_MISUSE     a pointer is null, or this process is a child of fork()
 */
pdt_code pdt_table_name(pdt_database *database, size_t index, char *name, size_t room);

/**
 * Drops a table and frees its handle.
 *
 * Waits for a checkpoint of the table that the background thread is writing.
 *
 * If the device fails twice, the folder may be without the table: each later write then returns
 * ::PDT_WRITES_FAILED.
 *
 * @param database  a database
 * @param name      the table's name
 * @retval PDT_OK             dropped
 * @retval PDT_MISSING        no table has this name
 * @retval PDT_IO             a file can't be written or synced; the table stays, and commits go on
 * @retval PDT_WRITES_FAILED  an earlier write failed; the table stays
 * @retval PDT_INCOMPLETE     as of pdt_maintain(); the table stays
 * @retval PDT_READONLY       the database is open read-only
 * @retval PDT_NOMEM          out of memory; the table stays
 * @retval PDT_MISUSE         a pointer is null; a transaction, a ::pdt_dbtxn, a pin, a checkpoint
 *                            or a stream of the table is open, or a thread is in pdt_wait(); this
 *                            thread holds a prepared commit; or this process is a child of fork()
 */
pdt_code pdt_table_drop(pdt_database *database, const char *name);

/**
 * Begins a database transaction: one over all tables, as of one moment.
 *
 * Waits for no commit. One thread at a time uses it, with its transactions.
 *
 * @param database    a database
 * @param[out] dbtxn  the database transaction; null after any other code than ::PDT_OK
 * @retval PDT_OK      open
 * @retval PDT_NOMEM   out of memory
 * @retval PDT_MISUSE  a pointer is null, or this process is a child of fork()
 */
pdt_code pdt_dbtxn_begin(pdt_database *database, pdt_dbtxn **dbtxn);

/**
 * The transaction of a database transaction over one of its tables, for reads, writes and
 * savepoints.
 *
 * It is the same each time, and ends with the database transaction: pdt_commit() and pdt_prepare()
 * return ::PDT_MISUSE for it, and pdt_abort() does nothing.
 *
 * @param dbtxn     a database transaction
 * @param table     a table of its database
 * @param[out] txn  the transaction; null after any other code than ::PDT_OK
 * @retval PDT_OK       open
 * @retval PDT_MISSING  the table was created after the database transaction began
 * @retval PDT_NOMEM    out of memory
 * @retval PDT_MISUSE   a pointer is null, or the table isn't in this database
 */
pdt_code pdt_dbtxn_on(pdt_dbtxn *dbtxn, pdt_table *table, pdt_txn **txn);

/**
 * Commits a database transaction: on all tables that it changed, or on none, as one commit with one
 * number.
 *
 * Returns once the commit is as durable as ::pdt_sync says. A database transaction that changes
 * nothing ends as by pdt_dbtxn_abort(): ::PDT_OK, and `commits` is the number that it saw.
 *
 * @param dbtxn         a database transaction, freed unless the code says otherwise
 * @param[out] commits  may be null: the number of the commit; for a commit that is refused, of the
 *                      newest commit
 * @retval PDT_OK               committed; the database transaction is over
 * @retval PDT_CONFLICT         one of the tables refuses, as of pdt_commit(); nothing is committed,
 *                              and it is over
 * @retval PDT_TOO_OLD          one of the tables refuses, as of pdt_commit(); nothing is committed,
 *                              and it is over
 * @retval PDT_FULL             one of the tables refuses, as of pdt_commit(); nothing is committed,
 *                              and it is over
 * @retval PDT_OUTCOME_UNKNOWN  I/O error while the commit was written; whether it is durable is
 *                              unknown until the database is reopened. The database transaction is
 *                              over
 * @retval PDT_NOMEM            out of memory; it stays open
 * @retval PDT_WRITES_FAILED    an earlier write failed; it stays open
 * @retval PDT_TOO_LONG         the changes take 4 GiB or more in the journal; it stays open
 * @retval PDT_READONLY         the database is open read-only; it stays open
 * @retval PDT_MISUSE           `dbtxn` is null, this thread holds a prepared commit, or this
 *                              process is a child of fork(); it stays open
 */
pdt_code pdt_dbtxn_commit(pdt_dbtxn *dbtxn, uint64_t *commits);

/**
 * Rolls a database transaction back, and frees it with its transactions.
 *
 * Takes no lock that a commit holds.
 *
 * @param dbtxn  a database transaction; null does nothing
 */
void pdt_dbtxn_abort(pdt_dbtxn *dbtxn);

/**
 * Does the maintenance that is due: folds, checkpoints, and the deletion of files that are no
 * longer needed.
 *
 * Makes all commits durable first. Waits for a round of the background thread. Blocks commits for a
 * fold of pdt_database_options::fold_entries entries.
 *
 * @param database  a database
 * @retval PDT_OK             nothing is due any more
 * @retval PDT_IO             a file can't be written or synced; it is due again
 * @retval PDT_WRITES_FAILED  an earlier write failed, or the commits can't be made durable
 * @retval PDT_NOMEM          out of memory; it is due again
 * @retval PDT_INCOMPLETE     the next opening would miss a commit in what was to be written:
 *                            nothing was written, and it is due again
 * @retval PDT_READONLY       the database is open read-only
 * @retval PDT_MISUSE         `database` is null, this thread holds a prepared commit, or this
 *                            process is a child of fork()
 */
pdt_code pdt_maintain(pdt_database *database);

/** A database's counters since its opening, and what it has now. Later versions may add members. */
typedef struct pdt_database_counts {
  size_t size;            /**< `sizeof(pdt_database_counts)`, set by the caller, also of an earlier or a later header */
  uint64_t commits;       /**< the number of the newest commit */
  uint64_t durable;       /**< the number of the newest commit that is known to be on the device */
  uint64_t batches;       /**< writes to the journal, each of one commit or several */
  uint64_t syncs;         /**< syncs of the journal */
  uint64_t folds;         /**< folds by maintenance */
  uint64_t checkpoints;   /**< checkpoints by maintenance */
  uint64_t faults;        /**< how often maintenance failed */
  uint64_t journal_bytes; /**< bytes of the journal's files now */
  size_t journal_files;   /**< files of the journal now */
  size_t tables;          /**< tables now */
  uint64_t kept_bytes;    /**< bytes of memory that the retained changes take, an estimate */
} pdt_database_counts;

/**
 * Reads a database's counters.
 *
 * May be called while this thread holds a prepared commit.
 *
 * @param database     a database
 * @param[out] counts  the counters; the caller sets pdt_database_counts::size
 * @retval PDT_OK      `counts` is written
 * @retval PDT_MISUSE  a pointer is null, pdt_database_counts::size isn't set, or this process is a
 *                     child of fork()
 */
pdt_code pdt_database_count(pdt_database *database, pdt_database_counts *counts);

/** @} */

#ifdef __cplusplus
}
#endif
#endif
