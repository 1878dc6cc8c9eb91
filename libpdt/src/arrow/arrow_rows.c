/* Rows of columns, and of Arrow's C streams, that are applied to a transaction: all of them, or none. */
#include "arrow.h"

/* What is applied, and where its cells are. */
typedef struct {
  pdt_txn *txn;
  int what;
  pdt_arrow_fault *fault;
  size_t width;                  /* how many columns of the table are passed: all, or those of the key */
  size_t place[PDT_MAX_COLUMNS]; /* which of the columns that come in each of them is */
  const pdt_column *columns;
  uint8_t *texts;  /* those of a row, one after the other */
  uint64_t before; /* how many rows came before those of the columns */
} pdti_applying;

/* ---- columns */

static const char *name_of(int type) {
  return type == PDT_INT ? "type int" : type == PDT_TEXT ? "type text" : type == PDT_BOOL ? "type bool" : "no type";
}

/* Finds the columns of the table by their names among those that come in. */
static int find_columns(pdti_applying *apply, const pdt_column *columns, size_t count) {
  const pdt_table *table = apply->txn->table;
  apply->width = apply->what == PDT_APPLY_DELETE ? table->key : table->width;
  for (size_t column = 0; column < apply->width; column++) {
    size_t at = 0;
    while (at < count && strcmp(columns[at].name, table->names[column])) at++;
    pdti_quoted name;
    pdti_quote(&name, table->names[column], table->name_bytes[column]);
    if (at == count) return pdti_tell(apply->fault, PDT_TYPE_MISMATCH, 0, 0, "column %s of the table isn't there", name.text);
    if (columns[at].type != table->types[column])
      return pdti_tell(apply->fault, PDT_TYPE_MISMATCH, 0, at, "column %s is of %s, and %s is wanted", name.text, name_of(columns[at].type),
                       name_of(table->types[column]));
    apply->place[column] = at;
  }
  if (apply->what == PDT_APPLY_DELETE || count == apply->width) return PDT_OK;
  for (size_t at = 0; at < count; at++) {
    size_t column = 0;
    while (column < apply->width && apply->place[column] != at) column++;
    pdti_quoted name;
    if (column == apply->width)
      return pdti_tell(apply->fault, PDT_TYPE_MISMATCH, 0, at, "the table has no column %s",
                       pdti_quote(&name, columns[at].name, strnlen(columns[at].name, PDT_MAX_NAME + 1)));
  }
  return PDT_OK;
}

/* Room for the texts of a row. */
static int make_room(pdti_applying *apply) {
  size_t texts = 0;
  for (size_t column = 0; column < apply->width; column++) texts += apply->txn->table->types[column] == PDT_TEXT;
  apply->texts = malloc(texts * PDT_MAX_TEXT + 1);
  return apply->texts ? PDT_OK : PDT_NOMEM;
}

/* ---- rows */

/* A row as C's calls take it: the number of each cell, and how many bytes of texts the key has, and the whole row. */
typedef struct {
  int64_t numbers[PDT_MAX_COLUMNS];
  size_t key_bytes, bytes;
} pdti_row_cells;

/* A cell that isn't one of its column, which is looked for again. */
static int tell_cell(const pdti_applying *apply, size_t column, uint64_t row) {
  size_t at = apply->place[column];
  const pdt_column *in = &apply->columns[at];
  pdti_where where;
  if (!pdti_find_value(in, row, pdti_where_of(&where, in->name, strlen(in->name)))) pdti_plain(PDT_TYPE_MISMATCH);
  return pdti_tell_kept(apply->fault, PDT_TYPE_MISMATCH, apply->before + row, at);
}

/* Puts the text of a row behind those that are there. */
static int put_text(pdti_applying *apply, size_t column, uint64_t row, pdti_row_cells *cells) {
  const pdt_column *in = &apply->columns[apply->place[column]];
  uint64_t from = in->offsets[row], to = in->offsets[row + 1];
  if (to < from || to > in->len || to - from > PDT_MAX_TEXT) return tell_cell(apply, column, row);
  size_t len = (size_t)(to - from);
  if (len) memcpy(apply->texts + cells->bytes, in->bytes + from, len);
  cells->numbers[column] = (int64_t)len;
  cells->bytes += len;
  return PDT_OK;
}

static int put_cell(pdti_applying *apply, size_t column, uint64_t row, pdti_row_cells *cells) {
  const pdt_column *in = &apply->columns[apply->place[column]];
  if (in->type == PDT_TEXT) return put_text(apply, column, row, cells);
  if (in->type == PDT_BOOL && in->bytes[row] > 1) return tell_cell(apply, column, row);
  cells->numbers[column] = in->type == PDT_INT ? in->numbers[row] : in->bytes[row];
  return PDT_OK;
}

static int put_row(pdti_applying *apply, uint64_t row, pdti_row_cells *cells) {
  cells->bytes = cells->key_bytes = 0;
  for (size_t column = 0; column < apply->width; column++) {
    int code = put_cell(apply, column, row, cells);
    if (code) return code;
    if (column + 1 == apply->txn->table->key) cells->key_bytes = cells->bytes;
  }
  return PDT_OK;
}

/* Sets all cells of a row but those of its key. */
static int set_cells(pdti_applying *apply, const pdti_row_cells *cells) {
  const pdt_table *table = apply->txn->table;
  const uint8_t *text = apply->texts + cells->key_bytes;
  for (size_t column = table->key; column < table->width; column++) {
    int code = pdt_set(apply->txn, cells->numbers, apply->texts, cells->key_bytes, column, cells->numbers[column], text);
    if (code) return code;
    if (table->types[column] == PDT_TEXT) text += cells->numbers[column];
  }
  return PDT_OK;
}

static int write_row(pdti_applying *apply, const pdti_row_cells *cells) {
  if (apply->what == PDT_APPLY_DELETE) return pdt_delete(apply->txn, cells->numbers, apply->texts, cells->key_bytes);
  int code = pdt_insert(apply->txn, cells->numbers, apply->texts, cells->bytes);
  return code == PDT_DUPLICATE && apply->what == PDT_APPLY_UPSERT ? set_cells(apply, cells) : code;
}

/* Says why a row isn't written: of its cells only a text can be none. */
static int tell_row(const pdti_applying *apply, int code, uint64_t row, const pdti_row_cells *cells) {
  if (code == PDT_NOMEM || code == PDT_MISUSE) return code;
  const uint8_t *text = apply->texts;
  for (size_t column = 0; column < apply->width && code == PDT_TYPE_MISMATCH; column++) {
    if (apply->txn->table->types[column] != PDT_TEXT) continue;
    if (!pdti_is_utf8(text, (size_t)cells->numbers[column])) return tell_cell(apply, column, row);
    text += cells->numbers[column];
  }
  return pdti_tell_kept(apply->fault, code, apply->before + row, 0); /* the sentence of the write */
}

static int apply_rows(pdti_applying *apply, uint64_t rows) {
  pdti_row_cells cells;
  for (uint64_t row = 0; row < rows; row++) {
    int code = put_row(apply, row, &cells);
    if (code) return code;
    code = write_row(apply, &cells);
    if (code) return tell_row(apply, code, row, &cells);
  }
  return PDT_OK;
}

/* ---- all of them, or none */

/* Undoes what was written since the savepoint where a code isn't PDT_OK, and forgets the savepoint. */
static int end_mark(pdt_txn *txn, size_t level, int code) {
  int back = code ? pdt_rollback_to(txn, level) : PDT_OK;
  int released = pdt_release(txn, level);
  return back ? back : released ? released : code;
}

/* Applies the rows of gathered batches, one batch after the other. */
static int apply_batches(pdti_applying *apply, pdti_gathering *all, struct ArrowArrayStream *stream) {
  pdt_column columns[PDT_MAX_COLUMNS];
  bool is_end = false;
  apply->columns = columns;
  int code = pdti_gather_batch(all, stream, &is_end);
  while (!code && !is_end) {
    for (size_t at = 0; at < all->count; at++) columns[at] = pdti_column_of(all, at);
    apply->before = all->before;
    code = apply_rows(apply, all->rows);
    pdti_drop_rows(all);
    if (!code) code = pdti_gather_batch(all, stream, &is_end);
  }
  apply->columns = NULL;
  return code;
}

static int tell_meaning(const pdti_applying *apply, size_t at, const pdti_gathered *in, const char *declared) {
  pdti_quoted name;
  return pdti_tell(apply->fault, PDT_TYPE_MISMATCH, 0, at, "column %s is declared as %s, and comes in as %s",
                   pdti_quote(&name, in->name, strlen(in->name)), declared, in->format);
}

/* Tells a column whose numbers mean something else than those of the table's. Of integers nothing is known, and they are taken. */
static int compare_meanings(const pdti_applying *apply, pdti_gathering *all) {
  for (size_t column = 0; column < apply->width; column++) {
    pdti_gathered *in = &all->columns[apply->place[column]];
    char declared[PDTI_FORMAT_BYTES];
    pdti_copy_declared(apply->txn->table, column, declared);
    if (!*declared) continue;
    in->takes_nulls = *declared == '?';
    bool is_integer = in->as.kind == PDTI_NUMBERS && strlen(in->format) == 1;
    if (!is_integer && !pdti_means(declared, in->format)) return tell_meaning(apply, apply->place[column], in, declared);
  }
  return PDT_OK;
}

static int apply_stream(pdti_applying *apply, pdti_gathering *all, struct ArrowArrayStream *stream) {
  pdt_column columns[PDT_MAX_COLUMNS];
  int code = pdti_gather_schema(all, stream);
  for (size_t at = 0; at < all->count; at++) columns[at] = pdti_column_of(all, at);
  if (!code) code = find_columns(apply, columns, all->count);
  if (!code) code = compare_meanings(apply, all);
  if (!code) code = make_room(apply);
  if (code) return code;
  for (size_t at = 0; at < all->count; at++) {
    all->columns[at].is_left_out = true;
    for (size_t column = 0; column < apply->width; column++)
      if (apply->place[column] == at) all->columns[at].is_left_out = false;
  }
  size_t level = 0;
  code = pdt_savepoint(apply->txn, &level);
  return code ? code : end_mark(apply->txn, level, apply_batches(apply, all, stream));
}

static bool is_what(int what) { return what == PDT_APPLY_INSERT || what == PDT_APPLY_UPSERT || what == PDT_APPLY_DELETE; }

pdt_code pdt_apply_arrow(pdt_txn *txn, struct ArrowArrayStream *stream, int what, pdt_arrow_fault *fault, uint64_t *done) {
  int code = pdti_clear_fault(fault);
  if (done) *done = 0;
  if (!txn || txn->is_prepared || !stream || !stream->release || !is_what(what)) code = PDT_MISUSE;
  pdti_gathering *all = NULL;
  if (!code) {
    all = calloc(1, sizeof *all);
    if (!all) code = PDT_NOMEM;
  }
  if (!code) {
    pdti_applying apply = {.txn = txn, .what = what, .fault = fault};
    all->fault = fault;
    code = apply_stream(&apply, all, stream);
    free(apply.texts);
    if (done && !code) *done = all->before;
  }
  pdti_free_gathering(all);
  pdti_release_stream(stream);
  return code;
}

/* Whether a column is one that rows can be read of. */
static bool is_column(const pdt_column *column, uint64_t rows) {
  if (!column->name || column->rows != rows) return false;
  if (!rows) return true;
  if (column->type == PDT_TEXT) return column->offsets && (column->bytes || !column->len);
  return column->type == PDT_INT ? column->numbers != NULL : column->bytes != NULL;
}

pdt_code pdt_apply_columns(pdt_txn *txn, const pdt_column *columns, size_t count, int what, pdt_arrow_fault *fault, uint64_t *done) {
  int code = pdti_clear_fault(fault);
  if (done) *done = 0;
  if (code || !txn || txn->is_prepared || !columns || !count || !is_what(what)) return PDT_MISUSE;
  for (size_t at = 0; at < count; at++)
    if (!is_column(&columns[at], columns[0].rows)) return PDT_MISUSE;
  pdti_applying apply = {.txn = txn, .what = what, .fault = fault, .columns = columns};
  size_t level = 0;
  code = find_columns(&apply, columns, count);
  if (!code) code = make_room(&apply);
  if (!code) code = pdt_savepoint(txn, &level);
  if (!code) code = end_mark(txn, level, apply_rows(&apply, columns[0].rows));
  free(apply.texts);
  if (done && !code) *done = columns[0].rows;
  return code;
}
