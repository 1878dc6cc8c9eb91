/* Rows that go out as Arrow's C streams. */
#include "arrow.h"

enum { BATCH = 65536, MOST_OF_U = INT32_MAX / PDT_MAX_TEXT };

/* ---- schemas: each child owns what it points to, as an array's children do */

static void release_field(struct ArrowSchema *schema) {
  free(schema->private_data);
  schema->release = NULL;
}

static void release_schema(struct ArrowSchema *schema) {
  for (int64_t i = 0; i < schema->n_children; i++)
    if (schema->children[i]->release) schema->children[i]->release(schema->children[i]);
  free(schema->private_data);
  schema->release = NULL;
}

static bool fill_field(const pdti_shown *column, struct ArrowSchema *field) {
  size_t format = strlen(column->format) + 1, name = strlen(column->name) + 1;
  char *text = malloc(format + name);
  if (!text) return false;
  memcpy(text, column->format, format);
  memcpy(text + format, column->name, name);
  *field = (struct ArrowSchema){
      .format = text,
      .name = text + format,
      .flags = column->is_nullable ? ARROW_FLAG_NULLABLE : 0,
      .release = release_field,
      .private_data = text,
  };
  return true;
}

/* The children of a schema, and where they lie. */
typedef struct {
  struct ArrowSchema *at[PDT_MAX_COLUMNS];
  struct ArrowSchema field[PDT_MAX_COLUMNS];
} pdti_fields;

/* Fails a call without a word on the batches: what is said of one that can't be read is still to be told. */
static int no_memory(pdti_scan *from) {
  from->last_error = "memory was refused";
  return ENOMEM;
}

static int get_schema(struct ArrowArrayStream *stream, struct ArrowSchema *out) {
  pdti_scan *from = stream->private_data;
  pdti_fields *all = malloc(sizeof *all);
  *out = (struct ArrowSchema){0};
  from->last_error = NULL;
  if (!all) return no_memory(from);
  *out = (struct ArrowSchema){.format = "+s", .name = "", .children = all->at, .release = release_schema, .private_data = all};
  for (size_t i = 0; i < from->count; i++) {
    if (!fill_field(&from->columns[i], &all->field[i])) {
      release_schema(out);
      return no_memory(from);
    }
    all->at[i] = &all->field[i];
    out->n_children++;
  }
  return 0;
}

/* ---- streams */

static int get_next(struct ArrowArrayStream *stream, struct ArrowArray *batch) {
  pdti_scan *out = stream->private_data;
  *batch = (struct ArrowArray){0};
  out->last_error = NULL;
  if (out->first < out->many) {
    *batch = out->read[out->first++];
    return 0;
  }
  int code = out->txn ? pdti_read_batch(out, batch) : out->failed;
  if (code) out->last_error = out->error;
  return code;
}

static const char *get_last_error(struct ArrowArrayStream *stream) {
  pdti_scan *out = stream->private_data;
  return out->last_error;
}

static void free_scan(pdti_scan *out) {
  pdt_abort(out->txn);
  for (; out->first < out->many; out->first++) out->read[out->first].release(&out->read[out->first]);
  free(out->read);
  free(out);
}

static void release_stream(struct ArrowArrayStream *stream) {
  free_scan(stream->private_data);
  stream->release = NULL;
}

/* ---- openings */

/* A column that can't go out as it is asked for. */
static int refuse_shown(const pdt_table *table, const pdt_arrow_column *asked) {
  if (asked->column >= table->width) return pdti_refuse_column(table, asked->column);
  pdti_where where;
  pdti_quoted format;
  const char *wanted = asked->format ? asked->format : "";
  return pdti_say(PDT_TYPE_MISMATCH, "%s%s isn't a format of its type",
                  pdti_where_of(&where, table->names[asked->column], table->name_bytes[asked->column]),
                  pdti_quote(&format, wanted, strnlen(wanted, PDTI_FORMAT_BYTES)));
}

static bool show(const pdt_table *table, const pdt_arrow_column *asked, pdti_shown *column) {
  static const char *const of_type[] = {NULL, "l", "U", "b"};
  int type = pdt_column_type(table, asked->column);
  if (!type) return false;
  char declared[PDTI_FORMAT_BYTES];
  pdti_copy_declared(table, asked->column, declared);
  const char *format = asked->format ? asked->format : *declared ? declared : of_type[type];
  if (*format == '?') {
    if (type != PDT_INT) return false;
    column->is_nullable = true;
    format++;
  }
  if (!pdti_read_format(format, &column->as) || !pdti_goes_out(type, &column->as) || strlen(format) >= PDTI_FORMAT_BYTES) return false;
  column->column = asked->column;
  strcpy(column->format, format);
  strcpy(column->name, pdt_column_name(table, asked->column));
  return true;
}

/* Makes a scan of rows that a transaction sees, which it doesn't have yet. */
static int make_scan(pdt_txn *txn, const pdt_arrow_column *asked, size_t count, uint64_t from, uint64_t to, size_t batch,
                     pdti_scan **made) {
  const pdt_table *table = txn->table;
  if (!asked) count = table->width;
  if (count > PDT_MAX_COLUMNS) return pdti_say(PDT_TYPE_MISMATCH, "%zu columns are asked for, and 32 are the most", count);
  pdti_scan *out = calloc(1, sizeof *out + count * sizeof *out->columns);
  if (!out) return PDT_NOMEM;
  uint64_t rows = 0;
  int code = pdt_rows(txn, &rows);
  out->end = to < rows ? to : rows;
  out->at = from < out->end ? from : out->end;
  out->batch = batch ? batch : BATCH;
  out->count = count;
  for (size_t i = 0; i < count && !code; i++) {
    pdt_arrow_column column = asked ? asked[i] : (pdt_arrow_column){i, NULL};
    if (!show(table, &column, &out->columns[i])) code = refuse_shown(table, &column);
    if (out->columns[i].as.kind == PDTI_TEXTS && out->columns[i].as.bytes == 4 && out->batch > MOST_OF_U) out->batch = MOST_OF_U;
  }
  if (code) {
    free(out);
    return code;
  }
  *made = out;
  return PDT_OK;
}

static void hand_out(pdti_scan *out, struct ArrowArrayStream *stream) {
  *stream = (struct ArrowArrayStream){get_schema, get_next, get_last_error, release_stream, out};
}

pdt_code pdt_arrow(pdt_pinned *pin, const pdt_arrow_column *columns, size_t count, uint64_t from, uint64_t to, size_t batch,
                   struct ArrowArrayStream *stream) {
  if (!stream) return PDT_MISUSE;
  *stream = (struct ArrowArrayStream){0};
  if (!pin) return PDT_MISUSE;
  pdt_txn *txn = NULL;
  pdti_scan *out = NULL;
  int code = pdt_begin_at(pin, &txn);
  if (!code) code = make_scan(txn, columns, count, from, to, batch, &out);
  if (code) {
    pdt_abort(txn);
    return code;
  }
  out->txn = txn;
  hand_out(out, stream);
  return PDT_OK;
}

/* Room for one more batch. */
static bool reserve_batch(pdti_scan *out) {
  if (out->many < out->room) return true;
  size_t room = out->room ? 2 * out->room : 8;
  struct ArrowArray *more = realloc(out->read, room * sizeof *more);
  if (!more) return false;
  out->read = more;
  out->room = room;
  return true;
}

/* Reads all batches. What is wrong with a number is told by the stream, when it comes there. */
static int read_all(pdti_scan *out) {
  while (out->at < out->end) {
    struct ArrowArray batch = {0};
    int code = reserve_batch(out) ? pdti_read_batch(out, &batch) : ENOMEM;
    if (code == ENOMEM) return PDT_NOMEM;
    if (code) {
      out->failed = code;
      break;
    }
    out->read[out->many++] = batch;
  }
  return PDT_OK;
}

pdt_code pdt_txn_arrow(pdt_txn *txn, const pdt_arrow_column *columns, size_t count, uint64_t from, uint64_t to, size_t batch,
                       struct ArrowArrayStream *stream) {
  if (!stream) return PDT_MISUSE;
  *stream = (struct ArrowArrayStream){0};
  if (!txn) return PDT_MISUSE;
  pdti_scan *out = NULL;
  int code = make_scan(txn, columns, count, from, to, batch, &out);
  if (code) return code;
  out->txn = txn;
  code = read_all(out);
  out->txn = NULL; /* the caller's */
  if (code) {
    free_scan(out);
    return code;
  }
  hand_out(out, stream);
  return PDT_OK;
}
