/* A virtual table of two columns over vectors of numbers, which does as little as a virtual table can: what SQLite itself
   takes for a row of one. Table name.rows: CREATE VIRTUAL TABLE t USING vector(1000000). The ids are even, as those of the
   bench's tables, and each row's quantity is 1. */
#include <sqlite3ext.h>
#include <stdlib.h>

SQLITE_EXTENSION_INIT1

typedef struct vector {
  sqlite3_vtab base;
  sqlite3_int64 rows;
  sqlite3_int64 *columns[2];
} vector;

typedef struct cursor {
  sqlite3_vtab_cursor base;
  sqlite3_int64 row, end;
} cursor;

static int x_disconnect(sqlite3_vtab *base) {
  vector *v = (vector *)base;
  for (int i = 0; i < 2; i++) sqlite3_free(v->columns[i]);
  sqlite3_free(v);
  return SQLITE_OK;
}

static int x_connect(sqlite3 *db, void *aux, int argc, const char *const *argv, sqlite3_vtab **out, char **fault) {
  (void)aux, (void)fault;
  vector *v = sqlite3_malloc(sizeof *v);
  if (!v) return SQLITE_NOMEM;
  *v = (vector){.rows = argc > 3 ? atoll(argv[3]) : 0};
  for (int i = 0; i < 2; i++) {
    v->columns[i] = sqlite3_malloc64((sqlite3_uint64)(v->rows + 1) * sizeof(sqlite3_int64));
    if (!v->columns[i]) return x_disconnect(&v->base), SQLITE_NOMEM;
    for (sqlite3_int64 row = 0; row < v->rows; row++) v->columns[i][row] = i ? 1 : 2 * row;
  }
  *out = &v->base;
  return sqlite3_declare_vtab(db, "CREATE TABLE v(id INTEGER, qty INTEGER)");
}

/* A range of ids is taken where both sides are given: the rows from the first one on, up to before the second. */
static int x_best_index(sqlite3_vtab *base, sqlite3_index_info *info) {
  (void)base;
  int low = -1, high = -1;
  for (int i = 0; i < info->nConstraint; i++) {
    const struct sqlite3_index_constraint *c = &info->aConstraint[i];
    if (!c->usable || c->iColumn) continue;
    if (c->op == SQLITE_INDEX_CONSTRAINT_GE) low = i;
    if (c->op == SQLITE_INDEX_CONSTRAINT_LT) high = i;
  }
  if (low < 0 || high < 0) return SQLITE_OK;
  info->aConstraintUsage[low].argvIndex = 1;
  info->aConstraintUsage[high].argvIndex = 2;
  info->aConstraintUsage[low].omit = info->aConstraintUsage[high].omit = 1;
  info->idxNum = 1;
  info->estimatedCost = 1000;
  return SQLITE_OK;
}

static int x_open(sqlite3_vtab *base, sqlite3_vtab_cursor **out) {
  (void)base;
  cursor *c = sqlite3_malloc(sizeof *c);
  if (!c) return SQLITE_NOMEM;
  *c = (cursor){.row = 0};
  *out = &c->base;
  return SQLITE_OK;
}

static int x_close(sqlite3_vtab_cursor *base) {
  sqlite3_free(base);
  return SQLITE_OK;
}

static sqlite3_int64 row_of(const vector *v, sqlite3_int64 id) {
  sqlite3_int64 row = (id + 1) / 2;
  return row < 0 ? 0 : row < v->rows ? row : v->rows;
}

static int x_filter(sqlite3_vtab_cursor *base, int plan, const char *words, int argc, sqlite3_value **argv) {
  (void)words, (void)argc;
  cursor *c = (cursor *)base;
  const vector *v = (const vector *)base->pVtab;
  c->row = plan ? row_of(v, sqlite3_value_int64(argv[0])) : 0;
  c->end = plan ? row_of(v, sqlite3_value_int64(argv[1])) : v->rows;
  return SQLITE_OK;
}

static int x_next(sqlite3_vtab_cursor *base) {
  ((cursor *)base)->row++;
  return SQLITE_OK;
}

static int x_eof(sqlite3_vtab_cursor *base) {
  const cursor *c = (const cursor *)base;
  return c->row >= c->end;
}

static int x_column(sqlite3_vtab_cursor *base, sqlite3_context *to, int column) {
  const vector *v = (const vector *)base->pVtab;
  sqlite3_result_int64(to, v->columns[column][((const cursor *)base)->row]);
  return SQLITE_OK;
}

static int x_rowid(sqlite3_vtab_cursor *base, sqlite3_int64 *out) {
  *out = ((const cursor *)base)->row;
  return SQLITE_OK;
}

int sqlite3_vector_init(sqlite3 *db, char **fault, const sqlite3_api_routines *api) {
  (void)fault;
  SQLITE_EXTENSION_INIT2(api);
  static const sqlite3_module module = {.xCreate = x_connect,
                                        .xConnect = x_connect,
                                        .xBestIndex = x_best_index,
                                        .xDisconnect = x_disconnect,
                                        .xDestroy = x_disconnect,
                                        .xOpen = x_open,
                                        .xClose = x_close,
                                        .xFilter = x_filter,
                                        .xNext = x_next,
                                        .xEof = x_eof,
                                        .xColumn = x_column,
                                        .xRowid = x_rowid};
  return sqlite3_create_module(db, "vector", &module, NULL);
}
