#define _XOPEN_SOURCE 700
#include "tables.h"

#include <errno.h>
#include <fcntl.h>
#include <limits.h>
#include <pthread.h>
#include <sqlite3ext.h>
#include <stdio.h>
#include <stdlib.h>
#include <string.h>
#include <sys/stat.h>
#include <unistd.h>
SQLITE_EXTENSION_INIT3

struct shared {
  char *name; /* the path, with no link and no dot in it, or the table's name in its database */
  bool is_folder;
  database *in; /* null of a table outside a database */
  pdt_options options;
  pdt_table *table;
  bool is_made; /* whether the table was made for the one that has it, and goes with it */
  unsigned users;
  shared *next;
};

static pthread_mutex_t lock = PTHREAD_MUTEX_INITIALIZER; /* of all that is below, and in databases.c */
static shared *all;

/* ---- opening */

/* Opens a regular file, and waits for no other. One of the library's codes, or NOT_REGULAR. */
static int open_regular(const char *path, FILE **out) {
  struct stat about;
  int file = open(path, O_RDONLY | O_NONBLOCK | O_CLOEXEC);
  if (file < 0) return PDT_IO;
  int code = fstat(file, &about) ? PDT_IO : S_ISREG(about.st_mode) ? PDT_OK : NOT_REGULAR;
  *out = code ? NULL : fdopen(file, "rb");
  if (!code && !*out) code = PDT_NOMEM;
  if (code) close(file);
  return code;
}

int read_file(const char *path, char **bytes, size_t *len) {
  FILE *file;
  int code = open_regular(path, &file);
  if (code) return code;
  size_t room = 0, count = 0;
  char *into = NULL;
  for (;;) {
    if (count == room) {
      room = room ? 2 * room : 1 << 16;
      char *more = realloc(into, room);
      if (!more) code = PDT_NOMEM;
      if (code) break;
      into = more;
    }
    size_t got = fread(into + count, 1, room - count, file);
    count += got;
    if (!got) break;
  }
  if (!code && ferror(file)) code = PDT_IO;
  int cause = errno;
  fclose(file);
  errno = cause;
  if (code) {
    free(into);
    return code;
  }
  *bytes = into;
  *len = count;
  return PDT_OK;
}

int is_plain_file(const declaration *declared, const char *bytes, size_t len, bool *is_plain) {
  bool has_types = false;
  int code = pdt_csv_has_types(bytes, len, &has_types);
  *is_plain = !has_types;
  return !code && has_types && declared->keys ? HAS_KEY : code;
}

static int open_text(const declaration *declared, const char *bytes, size_t len, pdt_table **table) {
  bool is_plain;
  const char *names[PDT_MAX_KEY_COLUMNS];
  int code = is_plain_file(declared, bytes, len, &is_plain);
  if (code) return code;
  if (!is_plain) return pdt_open(bytes, len, &declared->options, table);
  pdt_plain plain = declaration_plain(declared, names);
  return pdt_open_plain(bytes, len, &plain, &declared->options, NULL, table);
}

static int open_table(const declaration *declared, pdt_table **table) {
  if (declared->is_folder) return pdt_recover(declared->path, &declared->options, table);
  char *bytes;
  size_t len;
  int code = read_file(declared->path, &bytes, &len);
  if (code) return code;
  code = open_text(declared, bytes, len, table);
  free(bytes);
  return code;
}

void *failure_of(failure *why, int code, const char *place, int library_code) {
  const char *text = library_code == NOT_REGULAR ? NULL : pdt_errmsg(library_code);
  why->code = code;
  if (library_code == NOT_REGULAR) why->text = sqlite3_mprintf("%s is no regular file", place);
  else if (library_code == HAS_KEY) why->text = sqlite3_mprintf("%s: its header names the types and the key", place);
  else if (library_code == PDT_IO) why->text = sqlite3_mprintf("%s: %s: %s", place, text, strerror(errno));
  else why->text = sqlite3_mprintf("%s: %s", place, text);
  return NULL;
}

static bool same_options(const pdt_options *a, const pdt_options *b) {
  return a->recent == b->recent && a->row_limit == b->row_limit && a->by_row == b->by_row;
}

/* ---- the tables of the process; the callers hold the lock */

static shared *find(const database *in, const char *name, bool is_folder) {
  shared *entry = all;
  while (entry && (entry->in != in || entry->is_folder != is_folder || strcmp(entry->name, name))) entry = entry->next;
  return entry;
}

/* Enters a table, which it takes over. Null where memory is refused. */
static shared *enter(const char *name, const declaration *declared, database *in, pdt_table *table, bool is_made) {
  shared *entry = sqlite3_malloc((int)sizeof *entry);
  char *kept = sqlite3_mprintf("%s", name);
  if (!entry || !kept) {
    sqlite3_free(kept);
    sqlite3_free(entry);
    return NULL;
  }
  *entry = (shared){kept, declared->is_folder, in, declared->options, table, is_made, 0, all};
  all = entry;
  return entry;
}

/* Opens a table outside a database. */
static shared *add(const char *path, const declaration *declared, failure *why) {
  pdt_table *table = NULL;
  int code = open_table(declared, &table);
  if (code) return failure_of(why, SQLITE_ERROR, declared->place, code);
  shared *entry = enter(path, declared, NULL, table, false);
  if (entry) return entry;
  pdt_close(table);
  return failure_of(why, SQLITE_ERROR, declared->place, PDT_NOMEM);
}

/* Whether a table has the key that is declared, if any is. */
static bool same_key(const pdt_table *table, const declaration *declared) {
  if (declared->keys && declared->keys != pdt_key_columns(table)) return false;
  for (size_t i = 0; i < declared->keys; i++)
    if (strcmp(pdt_column_name(table, i), declared->key[i])) return false;
  return true;
}

static shared *join_alone(const char *path, const declaration *declared, failure *why) {
  shared *entry = find(NULL, path, declared->is_folder);
  if (entry && !same_key(entry->table, declared)) {
    *why = (failure){SQLITE_ERROR, sqlite3_mprintf("%s is open with another key", declared->place)};
    return NULL;
  }
  if (entry && !same_options(&entry->options, &declared->options)) {
    why->code = SQLITE_ERROR;
    why->text = sqlite3_mprintf("%s is open with another recent, limit or conflicts", declared->place);
    return NULL;
  }
  return entry ? entry : add(path, declared, why);
}

/* Finds a table in its database, or makes it where that is asked for. */
static pdt_table *find_table(database *in, const declaration *declared, bool create, bool *is_made, failure *why) {
  pdt_table *table = NULL;
  int code = pdt_table_open(databases_get(in), declared->table, &table);
  bool is_declared = declared->width || declared->path;
  if (code == PDT_MISSING && create && is_declared) {
    *is_made = true;
    return databases_make(in, declared, why);
  }
  if (code && code != PDT_MISSING) return failure_of(why, SQLITE_ERROR, declared->place, code);
  if (!code && has_columns(table, declared)) return table;
  why->code = SQLITE_ERROR;
  if (!code) why->text = sqlite3_mprintf("%s has other columns", declared->place);
  else if (!create) why->text = sqlite3_mprintf("%s has no table %s", declared->folder, declared->table);
  else why->text = sqlite3_mprintf("%s has no table %s, and no columns are declared to make it with", declared->folder, declared->table);
  return NULL;
}

static shared *add_table(database *in, const declaration *declared, bool create, failure *why) {
  bool is_made = false;
  pdt_table *table = find_table(in, declared, create, &is_made, why);
  shared *entry = table ? enter(declared->table, declared, in, table, is_made) : NULL;
  if (table && !entry) {
    if (is_made) pdt_table_drop(databases_get(in), declared->table);
    failure_of(why, SQLITE_ERROR, declared->place, PDT_NOMEM);
  }
  return entry;
}

/* Each table has its database once. */
static shared *join_table(const declaration *declared, bool create, failure *why) {
  bool may_make = create && (declared->width || declared->path);
  database *in = databases_join(declared->folder, declared->sync, may_make, why);
  if (!in) return NULL;
  shared *entry = find(in, declared->table, false);
  if (entry && has_columns(entry->table, declared)) {
    databases_leave(in);
    entry->is_made = false; /* it is somebody else's too */
    return entry;
  }
  entry = entry ? NULL : add_table(in, declared, create, why);
  if (entry) return entry;
  if (!why->code) {
    why->code = SQLITE_ERROR;
    why->text = sqlite3_mprintf("%s has other columns", declared->place);
  }
  databases_leave(in);
  return NULL;
}

shared *tables_join(const declaration *declared, bool create, failure *why) {
  *why = (failure){SQLITE_OK, NULL};
  char *path = declared->folder ? NULL : realpath(declared->path, NULL);
  if (!declared->folder && !path) return failure_of(why, SQLITE_ERROR, declared->place, errno == ENOMEM ? PDT_NOMEM : PDT_IO);
  pthread_mutex_lock(&lock);
  shared *entry = declared->folder ? join_table(declared, create, why) : join_alone(path, declared, why);
  if (entry) entry->users++;
  pthread_mutex_unlock(&lock);
  free(path);
  return entry;
}

/* Takes a table from the list. */
static void forget(shared *entry) {
  shared **at = &all;
  while (*at != entry) at = &(*at)->next;
  *at = entry->next;
  sqlite3_free(entry->name);
  sqlite3_free(entry);
}

void tables_leave(shared *entry) {
  pthread_mutex_lock(&lock);
  if (!--entry->users) {
    database *in = entry->in;
    if (in && entry->is_made) pdt_table_drop(databases_get(in), entry->name); /* where a database transaction has it it stays, empty */
    if (in || !pdt_close(entry->table)) forget(entry);
    if (in) databases_leave(in);
  }
  pthread_mutex_unlock(&lock);
}

void tables_keep(shared *entry) {
  pthread_mutex_lock(&lock);
  entry->is_made = false;
  pthread_mutex_unlock(&lock);
}

pdt_table *tables_get(const shared *entry) { return entry->table; }
database *tables_database(const shared *entry) { return entry->in; }

bool tables_drop(const char *folder, const char *table, failure *why) {
  *why = (failure){SQLITE_OK, NULL};
  pthread_mutex_lock(&lock);
  database *in = databases_join(folder, ANY_SYNC, false, why);
  if (in && find(in, table, false)) {
    why->code = SQLITE_LOCKED;
    why->text = sqlite3_mprintf("%s in %s is a table of a connection: drop that first", table, folder);
  } else if (in) {
    int code = pdt_table_drop(databases_get(in), table);
    if (code == PDT_MISSING) *why = (failure){SQLITE_ERROR, sqlite3_mprintf("%s has no table %s", folder, table)};
    else if (code == PDT_MISUSE) *why = (failure){SQLITE_LOCKED, sqlite3_mprintf("%s: a transaction is open over its tables", folder)};
    else if (code) failure_of(why, code == PDT_IO || code == PDT_WRITES_FAILED ? SQLITE_IOERR : SQLITE_ERROR, folder, code);
  }
  if (in) databases_leave(in);
  pthread_mutex_unlock(&lock);
  return !why->code;
}
