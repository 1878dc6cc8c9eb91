/* pdt_layers('t'): the entries of a table's layers, as rows of layer, sid, rid, kind and cells. First those of the
   newest table's Read-PDT, then of its Write-PDT, then the connection's own, where it has a transaction open. A
   cursor has them as they stood at its first row, and what it needs to show them: its table may go before it. */
#include "vtab.h"

#include <string.h>

SQLITE_EXTENSION_INIT3

enum { LAYERS = 3 };
enum { LAYER, SID, RID, KIND, CELLS, TABLE };

typedef struct layers_table {
  sqlite3_vtab base;
  connection *owner;
} layers_table;

typedef struct layers_cursor {
  sqlite3_vtab_cursor base;
  pdt_layer *layers[LAYERS];
  int layer;
  size_t index; /* of the current entry in its layer */
  sqlite3_int64 row;
  pdt_entry entry;
  int64_t numbers[PDT_MAX_COLUMNS];
  char *texts, *name;
  size_t room;
  int types[PDT_MAX_COLUMNS];
  meaning means[PDT_MAX_COLUMNS];
  char names[PDT_MAX_COLUMNS][PDT_MAX_NAME + 1];
} layers_cursor;

static int connect_layers(sqlite3 *db, void *context, int argc, const char *const *argv, sqlite3_vtab **out, char **error) {
  (void)argc, (void)argv, (void)error;
  int code = sqlite3_declare_vtab(db, "CREATE TABLE x(layer TEXT, sid INTEGER, rid INTEGER, kind TEXT, "
                                      "cells TEXT, name TEXT HIDDEN)");
  if (!code) code = sqlite3_vtab_config(db, SQLITE_VTAB_DIRECTONLY);
  if (code) return code;
  layers_table *t = sqlite3_malloc((int)sizeof *t);
  if (!t) return SQLITE_NOMEM;
  memset(t, 0, sizeof *t);
  t->owner = context;
  *out = &t->base;
  return SQLITE_OK;
}

static int disconnect_layers(sqlite3_vtab *base) {
  sqlite3_free(base);
  return SQLITE_OK;
}

/* The argument is a hidden column: a plan has its value, or there is none. */
static int plan_layers(sqlite3_vtab *base, sqlite3_index_info *info) {
  bool is_named = false;
  for (int i = 0; i < info->nConstraint; i++) {
    if (info->aConstraint[i].iColumn != TABLE || info->aConstraint[i].op != SQLITE_INDEX_CONSTRAINT_EQ) continue;
    is_named = true;
    if (!info->aConstraint[i].usable) continue;
    info->aConstraintUsage[i].argvIndex = 1;
    info->aConstraintUsage[i].omit = 1;
    info->estimatedCost = info->estimatedRows = 1000;
    return SQLITE_OK;
  }
  return is_named ? SQLITE_CONSTRAINT : say(base, SQLITE_ERROR, "pdt: name a table, as pdt_layers('t')");
}

static int open_layers(sqlite3_vtab *base, sqlite3_vtab_cursor **out) {
  (void)base;
  layers_cursor *c = sqlite3_malloc((int)sizeof *c);
  if (!c) return SQLITE_NOMEM;
  memset(c, 0, sizeof *c);
  c->layer = LAYERS;
  *out = &c->base;
  return SQLITE_OK;
}

static void let_go(layers_cursor *c) {
  for (int layer = 0; layer < LAYERS; layer++) {
    pdt_layer_close(c->layers[layer]);
    c->layers[layer] = NULL;
  }
  sqlite3_free(c->name);
  c->name = NULL;
  c->layer = LAYERS;
}

static int close_layers(sqlite3_vtab_cursor *base) {
  layers_cursor *c = (layers_cursor *)base;
  let_go(c);
  sqlite3_free(c->texts);
  sqlite3_free(c);
  return SQLITE_OK;
}

/* Shows the first entry from the current place on, if there is one. */
static int show_entry(layers_cursor *c) {
  while (c->layer < LAYERS && c->index >= pdt_layer_size(c->layers[c->layer])) c->layer++, c->index = 0;
  if (c->layer == LAYERS) return SQLITE_OK;
  pdt_layer *layer = c->layers[c->layer];
  int code = pdt_entry_at(layer, c->index, &c->entry, c->numbers, c->texts, c->room);
  if (code == PDT_TOO_SMALL) {
    size_t room = c->entry.bytes;
    char *texts = sqlite3_realloc64(c->texts, room);
    if (!texts) return SQLITE_NOMEM;
    c->texts = texts;
    c->room = room;
    code = pdt_entry_at(layer, c->index, &c->entry, c->numbers, c->texts, c->room);
  }
  return fail(c->base.pVtab, code);
}

static void keep_columns(layers_cursor *c, const session *s) {
  for (size_t column = 0; column < s->width; column++) {
    c->types[column] = type_of(s, column);
    c->means[column] = s->means[column];
    strcpy(c->names[column], pdt_column_name(s->table, column));
  }
}

static int filter_layers(sqlite3_vtab_cursor *base, int plan, const char *words, int argc, sqlite3_value **argv) {
  (void)plan, (void)words, (void)argc;
  layers_cursor *c = (layers_cursor *)base;
  sqlite3_vtab *table = base->pVtab;
  const char *name = (const char *)sqlite3_value_text(argv[0]);
  char *why = NULL;
  let_go(c);
  session *s = session_named(((layers_table *)table)->owner, name, &why);
  if (!s) {
    int code = say(table, why ? SQLITE_ERROR : SQLITE_NOMEM, "%s", why ? why : pdt_code_text(PDT_NOMEM));
    sqlite3_free(why);
    return code;
  }
  if (s->doomed) return say(table, SQLITE_ABORT, "pdt: only ROLLBACK is left for %s", s->name);
  int code = pdt_layers(s->table, &c->layers[0], &c->layers[1]);
  if (!code && s->view && s->view->txn) code = pdt_own_layer(s->view->txn, &c->layers[2]);
  if (code) return fail(table, code);
  c->name = sqlite3_mprintf("%s", name);
  if (!c->name) return SQLITE_NOMEM;
  keep_columns(c, s);
  c->layer = 0;
  c->index = 0;
  c->row = 0;
  return show_entry(c);
}

static int next_layers(sqlite3_vtab_cursor *base) {
  layers_cursor *c = (layers_cursor *)base;
  c->index++;
  c->row++;
  return show_entry(c);
}

static int eof_layers(sqlite3_vtab_cursor *base) { return ((layers_cursor *)base)->layer == LAYERS; }

static int rowid_layers(sqlite3_vtab_cursor *base, sqlite3_int64 *row) {
  *row = ((layers_cursor *)base)->row;
  return SQLITE_OK;
}

/* ---- cells as one text: those of a row or a key as a record of CSV, that of a modify after its column's name */

static void put_quoted(sqlite3_str *to, const char *text, size_t len) {
  sqlite3_str_appendchar(to, 1, '"');
  for (size_t i = 0; i < len; i++) sqlite3_str_appendchar(to, text[i] == '"' ? 2 : 1, text[i]);
  sqlite3_str_appendchar(to, 1, '"');
}

static bool wants_quotes(const char *text, size_t len) {
  for (size_t i = 0; i < len; i++)
    if (strchr(",\"\r\n", text[i])) return true;
  return false;
}

/* Puts what a number stands for; itself where it is no date. */
static void put_number(sqlite3_str *to, const meaning *m, int64_t number) {
  char text[STAMP_ROOM];
  size_t len = 0;
  if (m->has_null && number == INT64_MIN) sqlite3_str_appendall(to, "NULL");
  else if (m->kind == REALS) sqlite3_str_appendf(to, "%!.15g", real_of_number(number));
  else if (is_shown_as_text(m) && stamp_of_number(m, number, text, &len)) sqlite3_str_append(to, text, (int)len);
  else sqlite3_str_appendf(to, "%lld", (long long)number);
}

/* Puts a cell's number, or its text, which begins at texts, and answers how many bytes that has. */
static size_t put_cell(sqlite3_str *to, int type, const meaning *m, int64_t number, const char *texts, bool in_record) {
  if (type == PDT_INT) put_number(to, m, number);
  if (type == PDT_BOOL) sqlite3_str_appendall(to, number ? "true" : "false");
  if (type != PDT_TEXT) return 0;
  size_t len = (size_t)number;
  if (in_record && wants_quotes(texts, len)) put_quoted(to, texts, len);
  else sqlite3_str_append(to, texts, (int)len);
  return len;
}

static void put_cells(sqlite3_context *to, const layers_cursor *c) {
  sqlite3_str *cells = sqlite3_str_new(sqlite3_context_db_handle(to));
  const char *texts = c->texts;
  bool is_modify = c->entry.kind == PDT_MODIFY;
  if (is_modify) sqlite3_str_appendf(cells, "%s=", c->names[c->entry.column]);
  for (size_t i = 0; i < c->entry.cells; i++) {
    if (i) sqlite3_str_appendchar(cells, 1, ',');
    size_t column = is_modify ? c->entry.column : i;
    size_t bytes = put_cell(cells, c->types[column], &c->means[column], c->numbers[i], texts, !is_modify);
    if (bytes) texts += bytes;
  }
  int len = sqlite3_str_length(cells);
  char *text = sqlite3_str_finish(cells);
  if (text) sqlite3_result_text(to, text, len, sqlite3_free);
  else if (len) sqlite3_result_error_nomem(to);
  else sqlite3_result_text(to, "", 0, SQLITE_STATIC);
}

static int column_layers(sqlite3_vtab_cursor *base, sqlite3_context *to, int column) {
  static const char *const layers[LAYERS] = {"read", "write", "own"};
  static const char *const kinds[] = {"", "insert", "delete", "modify"};
  const layers_cursor *c = (const layers_cursor *)base;
  switch (column) {
    case LAYER: sqlite3_result_text(to, layers[c->layer], -1, SQLITE_STATIC); break;
    case SID: sqlite3_result_int64(to, (sqlite3_int64)c->entry.sid); break;
    case RID: sqlite3_result_int64(to, (sqlite3_int64)c->entry.rid); break;
    case KIND: sqlite3_result_text(to, kinds[c->entry.kind], -1, SQLITE_STATIC); break;
    case CELLS: put_cells(to, c); break;
    default: sqlite3_result_text(to, c->name, -1, SQLITE_TRANSIENT);
  }
  return SQLITE_OK;
}

const sqlite3_module layers_module = {
    .xConnect = connect_layers,
    .xBestIndex = plan_layers,
    .xDisconnect = disconnect_layers,
    .xOpen = open_layers,
    .xClose = close_layers,
    .xFilter = filter_layers,
    .xNext = next_layers,
    .xEof = eof_layers,
    .xColumn = column_layers,
    .xRowid = rowid_layers,
};
