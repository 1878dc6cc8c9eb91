/* The tables and the databases that the connections of a process share. A table is known by the file or the folder that it
   was opened from, a table of a database by the folder and its name there: whoever names it again gets the same one, with
   all commits since. A table is closed when the last connection lets it go, a database when the last of its tables is. */
#ifndef TABLES_H
#define TABLES_H

#include <pdt.h>
#include <stdbool.h>

/* What a table is declared with: pdt('table.csv', recent=.., limit=.., conflicts=..); checkpoint='DIR' in the file's place; or
   database='DIR', table='NAME', sync=.. and what a table is made of that isn't there: columns, or the file. */
typedef struct declaration {
  char *path;     /* of the CSV file, or of the checkpoint's folder; sqlite3_malloc's, as the next ones; null where neither is named */
  bool is_folder; /* whether it is a checkpoint's folder */
  pdt_options options;
  char *folder, *table; /* of a database, and the table's name there; null of a table outside a database */
  int sync;             /* one of enum pdt_sync; -1 where it isn't said */
  char *place;          /* what a table is of, for whoever reads it: the path, or the table and its folder */
  size_t width, keys;   /* how many columns are declared, and how many make the key */
  char names[PDT_MAX_COLUMNS][PDT_MAX_NAME + 1], key[PDT_MAX_KEY_COLUMNS][PDT_MAX_NAME + 1];
  int types[PDT_MAX_COLUMNS];
  const char *formats[PDT_MAX_COLUMNS]; /* what a column's numbers are declared as; null where nothing is said of them */
} declaration;

/* Reads the words of a declaration. Null, or a sentence that says what is wrong, which is sqlite3_malloc's. */
char *declaration_read(int words, const char *const *word, declaration *out);
void declaration_free(declaration *declared);
/* The columns as the record of CSV that names them, sqlite3_malloc's; null where memory is refused. */
char *declaration_header(const declaration *declared);
/* The key of a file whose header names no types. The names are the declaration's, and their addresses go into room. */
pdt_plain declaration_plain(const declaration *declared, const char *room[PDT_MAX_KEY_COLUMNS]);

/* Why something can't be had: one of SQLite's codes, and a sentence, which is sqlite3_malloc's. */
typedef struct failure {
  int code;
  char *text;
} failure;

/* ---- tables.c */

typedef struct shared shared;
typedef struct database database;

/* Opens a table, or joins the one of the same place. A table that its database lacks is made where it is created. Null,
   and a failure, where it can't be had. Takes the lock of all tables, and holds it while files are read and written. */
shared *tables_join(const declaration *declared, bool create, failure *why);
/* Lets a table go, in which the caller has no open transaction. A table that was made for it alone is dropped. */
void tables_leave(shared *entry);
/* What was made for it stays. */
void tables_keep(shared *entry);
pdt_table *tables_get(const shared *entry);
/* The database that it is a table of; null where it is a table outside a database. */
database *tables_database(const shared *entry);

/* Drops a table of the database in a folder, which no connection of the process has. False, and a failure, where it can't. */
bool tables_drop(const char *folder, const char *table, failure *why);

/* beside the library's codes: a path is that of a folder, a device or a pipe; a key is declared of a file whose header names one */
enum { NOT_REGULAR = -1, HAS_KEY = -2 };

/* A failure with one of the library's codes for a place, whose cause errno has, where it is a file's. Null. */
void *failure_of(failure *why, int code, const char *place, int library_code);
/* Reads a regular file whole into memory, which is the caller's to free. One of the library's codes, or NOT_REGULAR: a device may
   have no end, and a pipe no writer. */
int read_file(const char *path, char **bytes, size_t *len);
/* Whether the header of a file's text names no types, so that they are found. One of the library's codes, or HAS_KEY. */
int is_plain_file(const declaration *declared, const char *bytes, size_t len, bool *is_plain);

/* ---- numbers.c */

/* What the numbers of an int column stand for: themselves, doubles, dates or timestamps. */
enum { NUMBERS, REALS, DATES, TIMES };

typedef struct meaning {
  int kind;
  bool has_null; /* whether the least number is NULL */
  int64_t unit;  /* of a timestamp, in microseconds */
} meaning;

/* That of a format, as pdt_declared tells it: numbers where it is null, or one of which SQLite has no values. */
meaning meaning_of(const char *format);

/* ---- databases.c: all but the last one are called with the lock of all tables held */

enum { ANY_SYNC = -2 }; /* for who asks for no table: as it is open */

/* Opens the database of a folder, which is made where that may be, or joins the one that is open. Null, and a failure,
   where it can't be had. */
database *databases_join(const char *folder, int sync, bool may_make, failure *why);
void databases_leave(database *in);
/* Makes a table of what is declared: of the columns, or of the file. Null, and a failure, where it can't be. */
pdt_table *databases_make(database *in, const declaration *declared, failure *why);
/* Whether the columns that are declared are those of a table. */
bool has_columns(pdt_table *table, const declaration *declared);
pdt_database *databases_get(const database *in);

#endif
