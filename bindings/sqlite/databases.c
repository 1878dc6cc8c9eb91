/* The databases that the connections of a process share: one for a folder, as long as somebody has a table of it. The callers
   hold the lock of all tables. */
#define _XOPEN_SOURCE 700
#include "tables.h"

#include <errno.h>
#include <pdt_arrow.h>
#include <sqlite3ext.h>
#include <stdlib.h>
#include <string.h>
#include <unistd.h>
SQLITE_EXTENSION_INIT3

struct database {
  char *path;    /* with no link and no dot in it; realpath's */
  pid_t process; /* which opened it: a child of fork has none of these */
  int sync;
  pdt_database *raw;
  unsigned users; /* tables that somebody has */
  database *next;
};

static database *all;

/* ---- opening */

/* SQLite's code for one of an opening. */
static int opening_code(int code) {
  switch (code) {
    case PDT_LOCKED: return SQLITE_BUSY;
    case PDT_CORRUPT:
    case PDT_INCOMPLETE:
    case PDT_MISMATCH:
    case PDT_BAD_CHECKPOINT:
    case PDT_NO_CHECKPOINT: return SQLITE_CORRUPT_VTAB; /* at SQLITE_CORRUPT itself SQLite writes no table of its own any more */
    case PDT_NEWER_FORMAT:
    case PDT_IO: return SQLITE_CANTOPEN;
    default: return SQLITE_ERROR;
  }
}

/* Says what an opening failed at: the file or the commit that the library has named. */
static void *tell(failure *why, const char *folder, int code, const pdt_report *report) {
  char *place = NULL;
  int cause = errno;
  const char *stroke = report->file[0] ? "/" : "";
  const char *of = strcmp(report->file, "images.pdt") ? "commit" : "mark"; /* of a folder that the program has made */
  if (report->fault) place = sqlite3_mprintf("%s%s%s, at %s %llu", folder, stroke, report->file, of, (unsigned long long)report->fault);
  else place = sqlite3_mprintf("%s%s%s", folder, stroke, report->file);
  errno = cause;
  failure_of(why, opening_code(code), place ? place : folder, code);
  sqlite3_free(place);
  if (code != PDT_LOCKED || !why->text) return NULL;
  sqlite3_free(why->text);
  why->text = sqlite3_mprintf("%s: %s, by another process or beside SQLite", folder, pdt_code_text(code));
  return NULL;
}

/* Whether there is a database in a folder. Who only looks for a table makes none. */
static bool is_one(const char *path) {
  char *manifest = sqlite3_mprintf("%s/manifest", path);
  bool is = manifest && !access(manifest, F_OK);
  sqlite3_free(manifest);
  return is;
}

/* Opens a database, and enters it. *path is that of its folder, and null where there is no such folder yet. */
static database *open_one(const char *folder, char *path, int sync, failure *why) {
  pdt_database_options options = {.size = sizeof options, .sync = sync};
  pdt_report report = {.size = sizeof report};
  database *in = sqlite3_malloc((int)sizeof *in);
  pdt_database *raw = NULL;
  int code = in ? pdt_database_open(folder, &options, &raw, &report) : PDT_NOMEM;
  if (code) tell(why, folder, code, &report);
  if (!code && !path) {
    path = realpath(folder, NULL);
    if (!path) failure_of(why, SQLITE_CANTOPEN, folder, errno == ENOMEM ? PDT_NOMEM : PDT_IO);
  }
  if (code || !path) {
    pdt_database_close(raw);
    sqlite3_free(in);
    free(path);
    return NULL;
  }
  *in = (database){path, getpid(), sync, raw, 0, all};
  all = in;
  return in;
}

database *databases_join(const char *folder, int sync, bool may_make, failure *why) {
  char *path = realpath(folder, NULL);
  if (!path && (errno != ENOENT || !may_make))
    return failure_of(why, errno == ENOMEM ? SQLITE_ERROR : SQLITE_CANTOPEN, folder, errno == ENOMEM ? PDT_NOMEM : PDT_IO);
  database *in = all;
  while (in && (!path || strcmp(in->path, path) || in->process != getpid())) in = in->next;
  int wanted = sync < 0 ? PDT_SYNC_FULL : sync;
  if (in && sync != ANY_SYNC && in->sync != wanted) {
    *why = (failure){SQLITE_ERROR, sqlite3_mprintf("%s is open with another sync", folder)};
    in = NULL;
  } else if (!in && path && !may_make && !is_one(path)) {
    *why = (failure){SQLITE_CANTOPEN, sqlite3_mprintf("%s has no manifest, and so is no database", folder)};
  } else if (!in) {
    in = open_one(folder, path, wanted, why);
    path = NULL;
  }
  free(path);
  if (in) in->users++;
  return in;
}

void databases_leave(database *in) {
  if (--in->users) return;
  int code = pdt_database_close(in->raw);
  if (code) sqlite3_log(SQLITE_IOERR, "pdt: %s: %s", in->path, pdt_code_text(code)); /* nobody else is there to be told */
  if (code == PDT_MISUSE) return;                                                    /* it stays open, for whoever comes next */
  database **at = &all;
  while (*at != in) at = &(*at)->next;
  *at = in->next;
  free(in->path);
  sqlite3_free(in);
}

pdt_database *databases_get(const database *in) { return in->raw; }

/* ---- tables */

/* The bytes of CSV that a table is made of: free's. One of the library's codes. */
static int read_content(const declaration *declared, char **bytes, size_t *len) {
  if (declared->path) return read_file(declared->path, bytes, len);
  char *header = declaration_header(declared);
  *bytes = header ? malloc(strlen(header)) : NULL;
  *len = *bytes ? strlen(header) : 0;
  if (*bytes) memcpy(*bytes, header, *len);
  sqlite3_free(header);
  return *bytes ? PDT_OK : PDT_NOMEM;
}

/* SQLite tells names without their case apart. */
static const char *doubled_name(pdt_table *table) {
  for (size_t column = 0; column < pdt_columns(table); column++)
    for (size_t other = 0; other < column; other++)
      if (!sqlite3_stricmp(pdt_column_name(table, column), pdt_column_name(table, other))) return pdt_column_name(table, column);
  return NULL;
}

/* Makes a table of a text: that of the declared columns, or of a file. */
static int make(database *in, const declaration *declared, const char *bytes, size_t len, pdt_table **table) {
  bool is_plain = false;
  const char *names[PDT_MAX_KEY_COLUMNS];
  int code = declared->path ? is_plain_file(declared, bytes, len, &is_plain) : PDT_OK;
  if (code) return code;
  pdt_plain plain = declaration_plain(declared, names);
  if (is_plain) return pdt_table_create_plain(in->raw, declared->table, bytes, len, &plain, &declared->options, NULL, table);
  return pdt_table_create_csv_declared(in->raw, declared->table, bytes, len, declared->formats, declared->width, &declared->options, NULL,
                                       table);
}

pdt_table *databases_make(database *in, const declaration *declared, failure *why) {
  const char *from = declared->path ? declared->path : declared->place;
  char *bytes = NULL;
  size_t len = 0;
  int code = read_content(declared, &bytes, &len);
  if (code) return failure_of(why, SQLITE_ERROR, from, code);
  pdt_table *table = NULL;
  code = make(in, declared, bytes, len, &table);
  free(bytes);
  if (code == PDT_BAD_TABLE || code == HAS_KEY) failure_of(why, SQLITE_ERROR, from, code);
  else if (code == PDT_TYPE_MISMATCH)
    *why = (failure){SQLITE_ERROR, sqlite3_mprintf("a table's name has 1 to %d bytes of UTF-8, and no control characters", PDT_MAX_NAME)};
  else if (code) failure_of(why, code == PDT_IO || code == PDT_WRITES_FAILED ? SQLITE_IOERR : SQLITE_ERROR, declared->place, code);
  if (code) return NULL;
  const char *doubled = doubled_name(table);
  if (!doubled) return table;
  *why = (failure){SQLITE_ERROR, sqlite3_mprintf("%s: duplicate column name: %s", from, doubled)};
  pdt_table_drop(in->raw, declared->table);
  return NULL;
}

/* Whether a column's numbers stand for what is said of them, if anything is: INTEGER alone is a column of numbers as the
   table has it. */
static bool means(const pdt_table *table, size_t column, const char *format) {
  meaning wanted = meaning_of(format), found = meaning_of(pdt_declared(table, column));
  return !format || (found.kind == wanted.kind && found.has_null == wanted.has_null);
}

bool has_columns(pdt_table *table, const declaration *declared) {
  if (!declared->width) return true;
  if (pdt_columns(table) != declared->width || pdt_key_columns(table) != declared->keys) return false;
  for (size_t i = 0; i < declared->width; i++)
    if (pdt_column_type(table, i) != declared->types[i] || !means(table, i, declared->formats[i]) ||
        sqlite3_stricmp(pdt_column_name(table, i), declared->names[i]))
      return false;
  return true;
}
