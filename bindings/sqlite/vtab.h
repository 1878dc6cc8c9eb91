/* What the files of the extension share: the objects of a connection, and the calls between the files. */
#ifndef VTAB_H
#define VTAB_H

#include "tables.h"

#include <pdt.h>
#include <sqlite3ext.h>
#include <stdbool.h>
#include <stddef.h>
#include <stdint.h>

typedef struct connection connection;
typedef struct session session;
typedef struct cursor cursor;
typedef struct view view;

struct connection {
  sqlite3 *db;
  session *sessions;
  uint64_t statements; /* how many have begun, as the trace callback saw, with the programs of triggers */
  uint64_t current;    /* the number of the last one that none other has begun */
  bool has_inner;      /* whether programs or statements have begun inside of that */
  size_t levels;       /* of the open transaction: one for itself, and one for each savepoint, as SQLite has told */
  bool listens;        /* whether SQLite reports each savepoint of the open transaction */
};

/* A transaction over all tables of a database, of which a connection's views see one moment. It ends with the last of
   them, or is committed. */
typedef struct dbtxn {
  pdt_dbtxn *raw;
  view *views;
  bool doomed; /* whether writes of a table had to be undone, and couldn't be */
} dbtxn;

/* What a transaction reads and writes. Cursors that outlive it keep it. */
struct view {
  pdt_txn *txn;   /* null once its writes were committed or given up */
  dbtxn *dbtxn;   /* that has it; null of a table outside a database, and where txn is null */
  view *beside;   /* the next one in the database transaction */
  uint64_t begun; /* the connection's current statement then */
  bool is_lost;   /* whether the end of its transaction may have been missed */
  uint64_t edits; /* how many writes it has seen: cells that were read before one are stale */
  cursor *cursors;
};

#define UNTOLD SIZE_MAX /* above each level that there is */

struct session {
  connection *owner;
  session *next;
  char *schema, *name, *place; /* the place as it was declared */
  bool is_attached;            /* whether the schema is one that is attached */
  shared *shared;              /* null once it was let go, and so are the next two */
  database *in;                /* null of a table outside a database too */
  pdt_table *table;
  size_t width, keys, text_room; /* text_room: bytes enough for the texts of any row */
  meaning means[PDT_MAX_COLUMNS];
  unsigned tables; /* SQLite's objects for it */
  unsigned views;  /* its own, and those that only cursors have still */
  bool kept;       /* whether the connection has it; if not, it goes with the last of these */

  /* How many levels were open when its table was created or dropped in the open transaction, and 0 where it wasn't.
     What was done above the level of a savepoint is undone with it. A table is made at the level UNTOLD where that isn't known
     yet, since SQLite has reported no savepoint. */
  size_t created, dropped;

  uint64_t rows, sampled;            /* how many there were when last asked, and when last sampled */
  double alike[PDT_MAX_KEY_COLUMNS]; /* how many rows have the same first columns, by the sample */

  view *view;        /* of the open transaction; null before its first read or write */
  uint64_t seen;     /* the connection's statements when the view was last entered */
  bool writing;      /* from xBegin, or the first write, to xCommit or xRollback */
  bool wrote;        /* whether the view has writes */
  bool doomed;       /* whether some of them had to be undone, and memory was refused for that */
  size_t savepoints; /* how many savepoints the view has: after a write has begun, one for each level */
  size_t first;      /* how many of these are before the first write */
  size_t last;       /* from this level on no savepoint has a write after it */

  int64_t row[PDT_MAX_COLUMNS], old[PDT_MAX_COLUMNS]; /* the row that is written, and the one in its place */
  char *row_texts, *old_texts;
  struct keyset *replaced; /* keys whose rows an UPDATE that is under way has replaced; null before the first */
};

/* SQLite's object for a table; the one for pdt_savepoints has no session. */
typedef struct table {
  sqlite3_vtab base;
  connection *owner;
  session *session;
  bool is_maker; /* whether xCreate has made it */
} table;

static inline session *session_of(sqlite3_vtab *base) { return ((table *)base)->session; }
static inline connection *owner_of(sqlite3_vtab *base) { return ((table *)base)->owner; }
static inline int type_of(const session *s, size_t column) { return pdt_column_type(s->table, column); }

/* ---- numbers.c: SQLite's values of what an int column's numbers stand for */

enum { STAMP_ROOM = 32 }; /* bytes enough for the text of a date or a timestamp */

bool is_shown_as_text(const meaning *m);
/* The least and the greatest number that has a value, other than NULL. */
void bounds_of(const meaning *m, int64_t *least, int64_t *most);
int64_t number_of_real(double real);
double real_of_number(int64_t number);
/* The text of a date or a timestamp; false where it is none of the years 0000 to 9999. */
bool stamp_of_number(const meaning *m, int64_t number, char *text, size_t *len);
/* The number of such a text, behind which a zero is; false where it is no date, or no whole number of the unit. */
bool number_of_stamp(const meaning *m, const char *text, size_t len, int64_t *number);
/* A value as the number that is kept; false where the column doesn't take it. */
bool number_of_value(const meaning *m, sqlite3_value *value, int64_t *number);
/* Answers a number's value; false where there is none, as of a date after the year 9999. */
bool result_number(sqlite3_context *to, const meaning *m, int64_t number);
/* Narrows the numbers of dates or timestamps that a column may have by a comparison with a text, and those of doubles by
   one with a value, as SQLite compares them. A zero is behind the text. False where none is left. */
bool narrow_by_stamp(const meaning *m, int op, const char *text, size_t len, int64_t *least, int64_t *most);
bool narrow_by_number(int op, sqlite3_value *value, int64_t *least, int64_t *most);

/* Whether SQLite has texts for a column's cells, and compares them as texts. */
static inline bool has_texts(const session *s, size_t column) {
  return type_of(s, column) == PDT_TEXT || is_shown_as_text(&s->means[column]);
}

/* A key, or the first columns of one. */
typedef struct key {
  int64_t numbers[PDT_MAX_KEY_COLUMNS];
  size_t columns, bytes; /* how many columns are put, and how many bytes their texts have */
  char texts[PDT_MAX_KEY_COLUMNS * PDT_MAX_TEXT];
} key;

/* ---- session.c: errors, views, sessions */

/* Leaves a sentence with SQLite, and hands on the code. */
int say(sqlite3_vtab *base, int code, const char *format, ...);
/* SQLite's code for one of the library's. */
int code_of(int code);
/* The same, with the sentence of the library's code left with SQLite. */
int fail(sqlite3_vtab *base, int code);
/* Refuses to go on with a transaction of which a part should have been undone, in a table of the session. */
int refuse_doomed(sqlite3_vtab *base, const session *s);

/* Takes a view, if the transaction has none. A write outside a transaction has one of its own: cursors that are open
   then read on in theirs. So it is of a database's tables, which are entered together. */
int view_enter(sqlite3_vtab *base, bool write);
/* The view has no writes any more. */
void view_unwrite(session *s);
/* Lets the session's view go. Cursors that are in it read on, unless it has writes, which are no more to be seen. */
void view_leave(session *s);
void view_free(session *s, view *v);
/* After a cursor was closed: lets the view go, where it is of a transaction that has ended, or of a statement outside one that is over. */
void view_is_read(session *s);
/* The position of a key, or the one past its row. One of the library's codes. */
int view_position(view *v, const key *k, bool past, uint64_t *position);

/* Makes savepoints of the view until there are so many. One of the library's codes. */
int savepoints_make(session *s, size_t count);
/* Forgets the savepoint of a level, and those after it. */
void savepoints_release(session *s, size_t level);
/* Goes back to the savepoint of a level, where there is one; cursors that are open keep their places. One of the library's
   codes: where it is another than PDT_OK, only ROLLBACK is left. */
int savepoints_back_to(session *s, size_t level);

/* Sees each statement begin, in the place of whoever saw it before. */
void watch(connection *c);
/* Told of each statement that begins: where no transaction is open, what an earlier one read is let go. */
int statement_begins(unsigned what, void *context, void *statement, void *text);
/* A transaction of the session is over. */
void transaction_end(session *s);

/* The session of a table that is created, or that SQLite knows from its schema. Null, and a sentence, where there is
   none. A schema that was read anew has its table's session still, with its commits; so has one whose DROP was rolled
   back. */
session *session_open(connection *c, const char *schema, const char *name, const declaration *declared, bool create, failure *why);
/* Takes a session from its connection. It lets its table go when no cursor reads in it, and goes itself when SQLite has
   no object for it. */
void session_detach(session *s);
/* Frees what a session that was taken from its connection needs no more. */
void session_tidy(session *s);
/* Lets databases' tables go that SQLite knows no more, since another connection has dropped them. No trace callback calls it, since it
   may have SQLite read a schema. */
void sessions_let_go(connection *c);

/* ---- database transactions.c */

/* Begins a view of a database's table: in the connection's database transaction there, or in one that begins. One of SQLite's codes. */
int dbtxn_enter(sqlite3_vtab *base, view *v);
/* Takes a view from its database transaction, which ends with the last one. */
void dbtxn_leave(view *v);
/* Undoes what a session has written, and its savepoints, in a database transaction that may go on. */
void dbtxn_undo(session *s);
/* Commits the tables of a database transaction, but for what was written of one that was dropped. One of SQLite's codes. */
int dbtxn_commit(sqlite3_vtab *base, dbtxn *w);

/* ---- transactions.c: what SQLite tells of transactions and savepoints, through any of its objects */

int x_begin(sqlite3_vtab *base);
int x_sync(sqlite3_vtab *base);
int x_commit(sqlite3_vtab *base);
int x_rollback(sqlite3_vtab *base);
int x_savepoint(sqlite3_vtab *base, int savepoint);
int x_release(sqlite3_vtab *base, int savepoint);
int x_rollback_to(sqlite3_vtab *base, int savepoint);

/* Makes the session's view one that is written, with a savepoint for each level. */
int write_starts(sqlite3_vtab *base);
/* The session, if there is one, whose writes the open transaction would commit. */
session *writer_of(const connection *c);
/* From now on SQLite reports each savepoint to the connection, and the end of the transaction. One of SQLite's codes. It writes the
   main database: SQLite may read all schemas anew, so that only a table of main may be in the making. */
int listen_to_savepoints(connection *c);
/* Does so at the first use of a table that was made without it. One of SQLite's codes. */
int listen_at_first_use(sqlite3_vtab *base);
/* The table pdt_savepoints, through which it tells; its context is the connection. */
extern const sqlite3_module savepoints_module;

/* ---- keys.c */

void key_start(key *k);
void key_put_number(key *k, int64_t number);
void key_put_text(key *k, const void *text, size_t len);
/* Puts the least or the greatest cell of each column that lacks. */
void key_fill(const session *s, key *k, bool greatest);
/* The key of a row, whose numbers and texts begin with those of the key. */
void key_of_row(const session *s, const int64_t *numbers, const char *texts, key *k);
/* The key by which SQLite names a row that it has read: the key column itself, or the hidden one. False where it is none of a row. */
bool key_of_value(const session *s, sqlite3_value *value, key *k);
/* The order of two whole keys: below zero, zero or above. */
int key_compare(const session *s, const key *a, const key *b);
/* Copies no more of a key's room for texts than it has. */
void key_copy(key *to, const key *from);

/* A set of whole keys. */
typedef struct keyset keyset;
keyset *keyset_new(void);
void keyset_clear(keyset *set);
void keyset_free(keyset *set);
/* False where memory is refused. */
bool keyset_add(keyset *set, const key *k);
bool keyset_has(const keyset *set, const key *k);
/* Whether a text can be a cell's: UTF-8, and not too long. */
bool is_cell_text(const void *text, size_t len);

/* ---- plan.c */

/* A plan's number: how many leading key columns have one value, what bounds the next one, and the direction. Where
   that is a list of texts, its value is behind those of the columns. Of BLOB the value is that of the hidden column. Of ROW
   one row at most is read, and several columns of it. */
enum { EQUAL = 7, LOW = 8, LOW_PAST = 16, HIGH = 32, HIGH_PAST = 64, DOWN = 128, LIST = 256, BLOB = 512, ROW = 1024 };

/* What the values of a plan leave of the keys: those from low to high, both whole. Without the row of low where that is
   past it, and with the row of high where that is. */
typedef struct range {
  key low, high;
  bool past_low, past_high;
  bool empty;
} range;

int x_best_index(sqlite3_vtab *base, sqlite3_index_info *info);
/* The range of a plan; without the list, where it has one. */
void range_of(const session *s, range *r, int plan, sqlite3_value **values);
/* The key that the first columns of a plan have as their one value. False where one of them bounds nothing, or too
   much. */
bool stem_of(const session *s, key *stem, int plan, sqlite3_value **values);

/* ---- lists.c */

typedef struct list list;

/* The texts of a list, or the dates that they are, each a range behind the columns of the stem; null where a number is among
   them. One of SQLite's codes. */
int list_make(const session *s, const key *stem, sqlite3_value *values, list **out);
void list_free(list *l);
/* The next range, up or down; false where there is none. */
bool list_next(const session *s, list *l, bool down, range *r);

/* ---- read.c */

/* Cells of a column from a position on. */
typedef struct batch {
  uint64_t from, edits;
  size_t count, want; /* want: how many the next one should have */
  int64_t *numbers;   /* null before the first */
  size_t *ends;       /* where each text ends; for a text column alone, as is texts */
  char *texts;
} batch;

/* The positions from low to high are left, and the first or the last of them is the current row. Rows that are inserted
   ahead of it come too, as far as the bound. */
struct cursor {
  sqlite3_vtab_cursor base;
  cursor *next; /* in its view */
  view *view;
  uint64_t low, high;
  bool down;          /* whether the last position is the current one */
  bool over;          /* whether it has passed the last row */
  bool gone;          /* whether the current row was deleted: the next one is current without a step */
  bool bounded;       /* whether there is a bound; else it goes on to the end of the table */
  bool past;          /* whether the bound's own row is in the range */
  bool is_row;        /* whether the range is one row, which is read whole */
  int64_t *row;       /* that one, with its texts behind it; null before it was asked for */
  uint64_t row_edits; /* one more than the view's when it was read, and 0 before that */
  list *ranges;       /* those that come behind this one; null where there is one alone */
  key bound;          /* the key at which the range ends, in the cursor's direction */
  key stand;          /* the key of the row that is gone */
  batch batches[];
};

static inline uint64_t cursor_position(const cursor *c) { return c->down ? c->high - 1 : c->low; }

int x_open(sqlite3_vtab *base, sqlite3_vtab_cursor **out);
int x_close(sqlite3_vtab_cursor *base);
int x_filter(sqlite3_vtab_cursor *base, int plan, const char *words, int argc, sqlite3_value **argv);
int x_next(sqlite3_vtab_cursor *base);
int x_eof(sqlite3_vtab_cursor *base);
int x_rowid(sqlite3_vtab_cursor *base, sqlite3_int64 *row);
int x_column(sqlite3_vtab_cursor *base, sqlite3_context *to, int column);

/* Whether a cursor of a view is under way, so that its positions matter. */
bool cursors_are_open(const view *v);
/* After a row of a key was inserted at a position, or the one there was deleted. */
void cursors_insert(const session *s, uint64_t position, const key *k);
void cursors_delete(const session *s, uint64_t position, const key *k);
/* Goes back to a savepoint of the session's view. A cursor keeps its current row; where that is gone, the next one is
   current without a step. One of the library's codes. */
int cursors_go_back(session *s, size_t level);

/* ---- write.c */

int x_update(sqlite3_vtab *base, int argc, sqlite3_value **argv, sqlite3_int64 *rowid);

/* ---- functions.c */

/* The session of the one table of a name, before which a schema's may be, as in main.t; null, and a sentence that
   says why, sqlite3_malloc's, where there is none or several. */
session *session_named(connection *c, const char *name, char **why);
/* pdt_fold('t'), pdt_trim('t'), pdt_checkpoint('t', DIR), pdt_drop(DIR, NAME). One of SQLite's codes. */
int functions_make(connection *c);

/* ---- layers.c */

/* The table-valued function pdt_layers, whose context is the connection. */
extern const sqlite3_module layers_module;

#endif
