/* Arrow's C streams: what goes out, read by the published rules; what comes in, from structs that are filled by hand, also so that they
   lie; that each struct is released on each path; and streams of one pin that several threads read while others commit. */
#define _POSIX_C_SOURCE 200809L
#include "arrow_source.h"

#include <pthread.h>
#include <stdio.h>
#include <stdlib.h>

static int failures;
static void is(const char *what, long long wanted, long long found) {
  if (wanted == found) return;
  failures++;
  fprintf(stderr, "%s: wanted %lld, found %lld\n", what, wanted, found);
}
static void says(const char *what, const char *wanted, const char *found) {
  if (found && strstr(found, wanted)) return;
  failures++;
  fprintf(stderr, "%s: wanted \"%s\", found \"%s\"\n", what, wanted, found ? found : "(none)");
}

enum { ROWS = 3000, WIDTH = 4, ID = 0, NAME = 1, OK = 2, QTY = 3 };

/* Row i is i, a text of i bytes modulo 40, a boolean of every third row, and 1,000 - i. */
static size_t name_of(int64_t i, char *text) {
  size_t len = (size_t)i % 40;
  for (size_t at = 0; at < len; at++) text[at] = (char)('a' + (i + (int64_t)at) % 26);
  return len;
}

static pdt_table *opened(void) {
  static int64_t ids[ROWS], qty[ROWS];
  static uint64_t offsets[ROWS + 1];
  static char texts[40 * ROWS];
  static uint8_t booleans[ROWS];
  for (int64_t i = 0; i < ROWS; i++) {
    ids[i] = i;
    qty[i] = 1000 - i;
    booleans[i] = i % 3 == 0;
    offsets[i + 1] = offsets[i] + name_of(i, texts + offsets[i]);
  }
  pdt_column columns[] = {
      {"id", PDT_INT, ROWS, ids, NULL, NULL, 0},
      {"name", PDT_TEXT, ROWS, NULL, offsets, (const uint8_t *)texts, offsets[ROWS]},
      {"ok", PDT_BOOL, ROWS, NULL, NULL, booleans, 0},
      {"qty", PDT_INT, ROWS, qty, NULL, NULL, 0},
  };
  pdt_table *table = NULL;
  is("open", PDT_OK, pdt_open_columns(columns, WIDTH, 1, NULL, NULL, &table));
  return table;
}

static pdt_txn *begun(pdt_table *table) {
  pdt_txn *txn = NULL;
  is("begin", PDT_OK, pdt_begin(table, &txn));
  return txn;
}

/* Some rows more, some fewer, and some others. */
static void change(pdt_txn *txn) {
  for (int64_t key = 7; key < ROWS; key += 100) {
    is("delete", PDT_OK, pdt_delete(txn, &key, NULL, 0));
    is("insert", PDT_OK, pdt_insert(txn, (int64_t[]){-key, 3, 1, 5}, "new", 3));
    int64_t other = key + 1;
    is("set", PDT_OK, pdt_set(txn, &other, NULL, 0, NAME, 0, NULL));
    is("set", PDT_OK, pdt_set(txn, &other, NULL, 0, QTY, key, NULL));
  }
}

static uint64_t rows_of(pdt_txn *txn) {
  uint64_t rows = 0;
  is("rows", PDT_OK, pdt_rows(txn, &rows));
  return rows;
}

/* ---- a consumer by the published rules */

static bool bit(const void *bits, int64_t at) { return ((const uint8_t *)bits)[at / 8] >> at % 8 & 1; }

static void look_at_schema(struct ArrowArrayStream *stream, const char *const *formats, const char *const *names, int64_t count) {
  struct ArrowSchema schema;
  is("get_schema", 0, stream->get_schema(stream, &schema));
  is("+s", 0, strcmp(schema.format, "+s"));
  is("children", count, schema.n_children);
  for (int64_t i = 0; i < count && i < schema.n_children; i++) {
    const struct ArrowSchema *field = schema.children[i];
    is("a field's format", 0, strcmp(formats[i], field->format));
    is("a field's name", 0, strcmp(names[i], field->name));
    is("a field is released with its schema", 1, field->release != NULL && !field->n_children && !field->dictionary);
  }
  schema.release(&schema);
  is("a schema that is released says so", 1, schema.release == NULL);
}

/* The rows of a stream of the four columns are those that a transaction sees from a position on. */
static uint64_t same_rows(struct ArrowArrayStream *stream, pdt_txn *txn, uint64_t from, int64_t most) {
  struct ArrowArray batch;
  while (!failures) {
    is("get_next", 0, stream->get_next(stream, &batch));
    if (!batch.release) break;
    is("a batch has rows", 1, batch.length > 0 && batch.length <= most && batch.offset == 0);
    is("a batch's layout", 1, batch.n_buffers == 1 && !batch.buffers[0] && batch.n_children == WIDTH && !batch.null_count);
    const struct ArrowArray *const *cells = (const struct ArrowArray *const *)batch.children;
    const int64_t *offsets = cells[NAME]->buffers[1];
    for (int64_t i = 0; i < batch.length && !failures; i++, from++) {
      int64_t row[WIDTH];
      char text[64];
      size_t len = 0;
      is("row", PDT_OK, pdt_row_at(txn, from, row, text, sizeof text, &len));
      is("id", row[ID], ((const int64_t *)cells[ID]->buffers[1])[i]);
      is("qty", row[QTY], ((const int64_t *)cells[QTY]->buffers[1])[i]);
      is("ok", row[OK], bit(cells[OK]->buffers[1], i));
      is("length", row[NAME], offsets[i + 1] - offsets[i]);
      is("name", 0, len && memcmp(text, (const char *)cells[NAME]->buffers[2] + offsets[i], len));
    }
    for (int i = 0; i < WIDTH; i++) is("a column's layout", i == NAME ? 3 : 2, cells[i]->n_buffers);
    batch.release(&batch);
    is("a batch that is released says so", 1, batch.release == NULL);
  }
  is("after the end comes the end again", 0, stream->get_next(stream, &batch));
  is("no batch", 1, batch.release == NULL);
  return from;
}

/* ---- out */

static void streams_are_the_rows(void) {
  static const char *const formats[] = {"l", "U", "b", "l"}, *const names[] = {"id", "name", "ok", "qty"};
  pdt_table *table = opened();
  pdt_txn *txn = begun(table), *same = NULL;
  pdt_pinned *pin = NULL;
  struct ArrowArrayStream stream;
  change(txn);
  is("a transaction's stream", PDT_OK, pdt_txn_arrow(txn, NULL, 0, 0, UINT64_MAX, 7, &stream));
  look_at_schema(&stream, formats, names, WIDTH);
  is("its own writes", (long long)rows_of(txn), (long long)same_rows(&stream, txn, 0, 7));
  stream.release(&stream);
  is("a stream that is released says so", 1, stream.release == NULL);
  is("commit", PDT_OK, pdt_commit(txn, NULL));
  is("pin", PDT_OK, pdt_pin(table, NULL, &pin));
  is("begin at", PDT_OK, pdt_begin_at(pin, &same));
  uint64_t rows = rows_of(same);
  for (size_t batch = 0; batch <= 4096; batch = 8 * batch + 1) {
    is("a pin's stream", PDT_OK, pdt_arrow(pin, NULL, 0, 0, UINT64_MAX, batch, &stream));
    is("all rows", (long long)rows, (long long)same_rows(&stream, same, 0, batch ? (int64_t)batch : 65536));
    stream.release(&stream);
  }
  is("a range", PDT_OK, pdt_arrow(pin, NULL, 0, 100, 2000, 0, &stream));
  is("its end", 2000, (long long)same_rows(&stream, same, 100, 1900));
  stream.release(&stream);
  is("a range past the end", PDT_OK, pdt_arrow(pin, NULL, 0, rows + 5, rows + 9, 0, &stream));
  look_at_schema(&stream, formats, names, WIDTH);
  is("no rows", (long long)rows, (long long)same_rows(&stream, same, rows, 1));
  stream.release(&stream);
  is("a range that is none", PDT_OK, pdt_arrow(pin, NULL, 0, 9, 5, 0, &stream));
  is("no rows", 5, (long long)same_rows(&stream, same, 5, 1));
  stream.release(&stream);
  pdt_abort(same);
  pdt_unpin(pin);
  is("close", PDT_OK, pdt_close(table));
}

/* What a batch has outlives the rest, and a child is moved out of it, as the rules let a consumer do. */
static void batches_outlive(void) {
  pdt_table *table = opened();
  pdt_txn *txn = begun(table);
  pdt_pinned *pin = NULL;
  struct ArrowArrayStream stream, other;
  struct ArrowArray batch, moved;
  struct ArrowSchema schema;
  change(txn);
  is("a transaction's stream", PDT_OK, pdt_txn_arrow(txn, NULL, 0, 0, 10, 0, &other));
  pdt_abort(txn);
  is("pin", PDT_OK, pdt_pin(table, NULL, &pin));
  is("a pin's stream", PDT_OK, pdt_arrow(pin, (pdt_arrow_column[]){{NAME, "u"}, {QTY, NULL}}, 2, 0, 100, 0, &stream));
  pdt_unpin(pin);
  is("a table with a stream", PDT_MISUSE, pdt_close(table));
  is("get_next", 0, stream.get_next(&stream, &batch));
  is("get_schema", 0, stream.get_schema(&stream, &schema));
  stream.release(&stream);
  is("close", PDT_OK, pdt_close(table));
  is("get_next of a transaction that is over", 0, other.get_next(&other, &moved));
  is("its rows", 10, moved.length);
  moved.release(&moved);
  other.release(&other);
  moved = *batch.children[1];
  batch.children[1]->release = NULL;
  const int32_t *offsets = batch.children[0]->buffers[1];
  is("where a text ends", 99 % 40, offsets[100] - offsets[99]);
  batch.release(&batch);
  is("a moved column", 1000 - 99, ((const int64_t *)moved.buffers[1])[99]);
  moved.release(&moved);
  struct ArrowSchema field = *schema.children[0];
  schema.children[0]->release = NULL;
  schema.release(&schema);
  is("a moved field", 0, strcmp(field.name, "name") || strcmp(field.format, "u"));
  field.release(&field);
}

/* A table of one column more than its key, whose numbers are these. */
static pdt_table *of_numbers(const int64_t *numbers, uint64_t count) {
  static int64_t ids[16];
  for (int64_t i = 0; i < 16; i++) ids[i] = i;
  pdt_column columns[] = {{"id", PDT_INT, count, ids, NULL, NULL, 0}, {"n", PDT_INT, count, numbers, NULL, NULL, 0}};
  pdt_table *table = NULL;
  is("open", PDT_OK, pdt_open_columns(columns, 2, 1, NULL, NULL, &table));
  return table;
}

/* The one batch of a stream of the numbers under a format, whose code is this; its last error says so. */
static struct ArrowArray shown(pdt_table *table, const char *format, int code, const char *error) {
  pdt_txn *txn = begun(table);
  struct ArrowArrayStream stream;
  struct ArrowArray batch = {0};
  struct ArrowSchema schema;
  is(format, PDT_OK, pdt_txn_arrow(txn, &(pdt_arrow_column){1, format}, 1, 0, UINT64_MAX, 0, &stream));
  pdt_abort(txn);
  if (!stream.release) return batch;
  is("get_schema", 0, stream.get_schema(&stream, &schema));
  bool is_nullable = *format == '?';
  is("a format", 0, strcmp(schema.children[0]->format, format + is_nullable));
  is("nullable", is_nullable ? ARROW_FLAG_NULLABLE : 0, schema.children[0]->flags);
  schema.release(&schema);
  is(format, code, stream.get_next(&stream, &batch));
  if (code) says(format, error, stream.get_last_error(&stream));
  stream.release(&stream);
  return batch;
}

static void formats_go_out(void) {
  static const int64_t numbers[] = {INT64_MIN, -1, 0, 1, 20000, INT64_MAX};
  static const char *const of_64[] = {"l", "tdm", "ttu", "ttn", "tDs", "tDm", "tDu", "tDn", "tss:", "tsm:UTC", "tsu:", "tsn:Europe/Berlin"};
  static const char *const of_32[] = {"i", "tdD", "tts", "ttm"};
  pdt_table *table = of_numbers(numbers, 6), *small = of_numbers(numbers + 1, 4);
  struct ArrowArray batch;
  for (size_t i = 0; i < sizeof of_64 / sizeof *of_64; i++) {
    batch = shown(table, of_64[i], 0, NULL);
    is(of_64[i], 0, memcmp(numbers, batch.children[0]->buffers[1], sizeof numbers));
    batch.release(&batch);
  }
  for (size_t i = 0; i < sizeof of_32 / sizeof *of_32; i++) {
    batch = shown(small, of_32[i], 0, NULL);
    for (int at = 0; at < 4; at++) is(of_32[i], numbers[at + 1], ((const int32_t *)batch.children[0]->buffers[1])[at]);
    batch.release(&batch);
    shown(table, of_32[i], EINVAL, "row 0, column n: -9223372036854775808 goes out as no");
  }
  batch = shown(table, "d:19,2", 0, NULL);
  for (int at = 0; at < 6; at++) {
    const int64_t *wide = (const int64_t *)batch.children[0]->buffers[1] + 2 * at;
    is("a decimal", numbers[at], wide[0]);
    is("and its sign", numbers[at] < 0 ? -1 : 0, wide[1]);
  }
  batch.release(&batch);
  batch = shown(small, "d:5,-2", 0, NULL);
  batch.release(&batch);
  shown(small, "d:4,4", EINVAL, "row 3, column n: 20000 goes out as no d:4,4");
  batch = shown(table, "?l", 0, NULL);
  is("a null", 1, batch.children[0]->null_count);
  is("its bit", 0x3e, *(const uint8_t *)batch.children[0]->buffers[0]);
  batch.release(&batch);
  batch = shown(small, "?tdD", 0, NULL);
  is("no null", 1, !batch.children[0]->null_count && !batch.children[0]->buffers[0]);
  batch.release(&batch);
  is("close", PDT_OK, pdt_close(table));
  is("close", PDT_OK, pdt_close(small));
}

static void formats_are_refused(void) {
  static const char *const none[] = {"",  "?",   "tdX",  "d:39,2", "d:0,0", "d:19", "d:19,2,64", "d:19,2x", "f",   "u",
                                     "b", "ts:", "tsx:", "tss",    "c",     "L",    "+s",        "n",       "tiM", "??l"};
  pdt_table *table = opened();
  pdt_pinned *pin = NULL;
  struct ArrowArrayStream stream;
  is("pin", PDT_OK, pdt_pin(table, NULL, &pin));
  for (size_t i = 0; i < sizeof none / sizeof *none; i++) {
    is(none[i], PDT_TYPE_MISMATCH, pdt_arrow(pin, &(pdt_arrow_column){ID, none[i]}, 1, 0, 1, 0, &stream));
    is("no stream", 1, stream.release == NULL);
  }
  char zone[200] = "tss:";
  memset(zone + 4, 'z', 180);
  is("a long zone", PDT_TYPE_MISMATCH, pdt_arrow(pin, &(pdt_arrow_column){ID, zone}, 1, 0, 1, 0, &stream));
  is("a text as numbers", PDT_TYPE_MISMATCH, pdt_arrow(pin, &(pdt_arrow_column){NAME, "l"}, 1, 0, 1, 0, &stream));
  is("a text with nulls", PDT_TYPE_MISMATCH, pdt_arrow(pin, &(pdt_arrow_column){NAME, "?U"}, 1, 0, 1, 0, &stream));
  is("a boolean as bytes", PDT_TYPE_MISMATCH, pdt_arrow(pin, &(pdt_arrow_column){OK, "c"}, 1, 0, 1, 0, &stream));
  is("no column", PDT_TYPE_MISMATCH, pdt_arrow(pin, &(pdt_arrow_column){WIDTH, NULL}, 1, 0, 1, 0, &stream));
  is("many columns", PDT_TYPE_MISMATCH, pdt_arrow(pin, &(pdt_arrow_column){0, NULL}, 33, 0, 1, 0, &stream));
  is("no pin", PDT_MISUSE, pdt_arrow(NULL, NULL, 0, 0, 1, 0, &stream));
  is("nowhere to", PDT_MISUSE, pdt_arrow(pin, NULL, 0, 0, 1, 0, NULL));
  is("no transaction", PDT_MISUSE, pdt_txn_arrow(NULL, NULL, 0, 0, 1, 0, &stream));
  is("no columns", PDT_OK, pdt_arrow(pin, (pdt_arrow_column[1]){{0, NULL}}, 0, 0, 10, 0, &stream));
  struct ArrowArray batch;
  is("get_next", 0, stream.get_next(&stream, &batch));
  is("rows without columns", 10, batch.n_children ? -1 : batch.length);
  batch.release(&batch);
  stream.release(&stream);
  pdt_unpin(pin);
  is("close", PDT_OK, pdt_close(table));
}

/* ---- in */

static const char *const id_key[] = {"id"};

/* The code of a table over a source, with its fault; each struct is released. */
static int opens(source *in, pdt_arrow_fault *fault, pdt_table **table) {
  struct ArrowArrayStream stream = source_stream(in);
  memset(fault, 0, sizeof *fault);
  fault->size = sizeof *fault;
  int code = pdt_open_arrow(&stream, id_key, 1, NULL, fault, table);
  is("the stream is released", 1, stream.release == NULL);
  is("all is released", 0, live);
  return code;
}

static void refused(const char *what, source *in, int code, uint64_t row, uint64_t column, const char *cause) {
  pdt_arrow_fault fault;
  pdt_table *table = (pdt_table *)&table;
  is(what, code, opens(in, &fault, &table));
  is("no table", 1, table == NULL);
  is(what, (long long)row, (long long)fault.place.row);
  is(what, (long long)column, (long long)fault.place.column);
  says(what, cause, fault.cause);
}

/* The numbers of a table's second column are these. */
static void has(const char *what, pdt_table *table, const int64_t *numbers, size_t count) {
  pdt_txn *txn = begun(table);
  int64_t found[16];
  size_t got = 16;
  is(what, (long long)count, (long long)rows_of(txn));
  is(what, PDT_OK, pdt_ints(txn, 1, 0, found, &got));
  for (size_t i = 0; i < count && i < got; i++) is(what, numbers[i], found[i]);
  pdt_abort(txn);
  is("close", PDT_OK, pdt_close(table));
}

static const int64_t six[] = {0, 1, 2, 3, 4, 5};

/* A source of six rows: the key, and a column of a format. */
static struct ArrowArray *of_format(source *in, const char *format, int64_t buffers, const void *cells, const void *bytes) {
  source_begin(in);
  source_column(in, "id", "l");
  source_column(in, "v", format);
  source_batch(in, 6);
  source_cells(in, 6, 2, NULL, six, NULL);
  return source_cells(in, 6, buffers, NULL, cells, bytes);
}

static void takes(const char *format, const void *cells, const int64_t *wanted) {
  static source in;
  pdt_arrow_fault fault;
  pdt_table *table = NULL;
  of_format(&in, format, 2, cells, NULL);
  is(format, PDT_OK, opens(&in, &fault, &table));
  if (table) has(format, table, wanted, 6);
  /* a slice of the batch, over columns that are slices too: the last two rows */
  in.batches[0].length = 2;
  in.batches[0].offset = 3;
  for (int column = 0; column < 2; column++) in.cells[0][column].offset = 1, in.cells[0][column].length = 5;
  is(format, PDT_OK, opens(&in, &fault, &table));
  if (table) has(format, table, wanted + 4, 2);
}

static void numbers_come_in(void) {
  takes("c", (int8_t[]){-128, -1, 0, 1, 2, 127}, (int64_t[]){-128, -1, 0, 1, 2, 127});
  takes("C", (uint8_t[]){0, 1, 2, 127, 128, 255}, (int64_t[]){0, 1, 2, 127, 128, 255});
  takes("s", (int16_t[]){INT16_MIN, -1, 0, 1, 2, INT16_MAX}, (int64_t[]){INT16_MIN, -1, 0, 1, 2, INT16_MAX});
  takes("S", (uint16_t[]){0, 1, 2, 3, 4, UINT16_MAX}, (int64_t[]){0, 1, 2, 3, 4, UINT16_MAX});
  static const int32_t of_32[] = {INT32_MIN, -1, 0, 1, 2, INT32_MAX};
  static const int64_t in_64[] = {INT32_MIN, -1, 0, 1, 2, INT32_MAX}, of_64[] = {INT64_MIN, -1, 0, 1, 2, INT64_MAX};
  static const char *const words[] = {"i", "tdD", "tts", "ttm"}, *const longs[] = {"l", "tdm", "ttu", "ttn", "tDs", "tsu:UTC", "tss:"};
  for (size_t i = 0; i < sizeof words / sizeof *words; i++) takes(words[i], of_32, in_64);
  for (size_t i = 0; i < sizeof longs / sizeof *longs; i++) takes(longs[i], of_64, of_64);
  takes("I", (uint32_t[]){0, 1, 2, 3, 4, UINT32_MAX}, (int64_t[]){0, 1, 2, 3, 4, UINT32_MAX});
  takes("L", (uint64_t[]){0, 1, 2, 3, 4, INT64_MAX}, (int64_t[]){0, 1, 2, 3, 4, INT64_MAX});
  static const int64_t one = 0x3ff0000000000000, two = 0x4000000000000000, half = 0x3fe0000000000000;
  const int64_t doubles[] = {~one, ~(int64_t)0, 0, half, one, two};
  takes("g", (double[]){-1, -0.0, 0, 0.5, 1, 2}, doubles);
  takes("f", (float[]){-1, -0.0f, 0, 0.5, 1, 2}, doubles);
  takes("d:19,2", (int64_t[]){INT64_MIN, -1, -1, -1, 0, 0, 1, 0, 2, 0, INT64_MAX, 0}, of_64);
}

/* The texts of a table's second column, one after the other with a bar after each. */
static void has_texts(const char *what, pdt_table *table, const char *wanted) {
  pdt_txn *txn = begun(table);
  const char *texts[16];
  int64_t lens[16];
  char found[256];
  size_t got = 16, len = 0;
  is(what, PDT_OK, pdt_texts(txn, 1, 0, texts, lens, &got));
  for (size_t i = 0; i < got; i++) len += (size_t)sprintf(found + len, "%.*s|", (int)lens[i], texts[i]);
  if (strcmp(wanted, found)) failures++, fprintf(stderr, "%s: wanted %s, found %s\n", what, wanted, found);
  pdt_abort(txn);
  is("close", PDT_OK, pdt_close(table));
}

static const char letters[] = "abc\xc3\xa4\xe6\xbc\xa2z";
static const int32_t ends[] = {0, 1, 1, 3, 5, 8, 9};
static const int64_t long_ends[] = {0, 1, 1, 3, 5, 8, 9};
static const char all_six[] = "a||bc|\xc3\xa4|\xe6\xbc\xa2|z|";

/* Six views: two short ones, an empty one, and three in two buffers. */
static void fill_views(uint8_t *views) {
  static const char *const short_ones[] = {"a", "twelve bytes", ""};
  static const int32_t long_ones[3][4] = {{13, 0, 0, 0}, {14, 0, 1, 2}, {13, 0, 1, 0}};
  memset(views, 0, 96);
  for (int i = 0; i < 3; i++) {
    int32_t len = (int32_t)strlen(short_ones[i]);
    memcpy(views + 16 * i, &len, 4);
    memcpy(views + 16 * i + 4, short_ones[i], (size_t)len);
    memcpy(views + 16 * (i + 3), long_ones[i], 16);
  }
}

static void texts_come_in(void) {
  static source in;
  static uint8_t views[96];
  static const int64_t sizes[] = {13, 16};
  pdt_arrow_fault fault;
  pdt_table *table = NULL;
  of_format(&in, "u", 3, ends, letters);
  is("u", PDT_OK, opens(&in, &fault, &table));
  has_texts("u", table, all_six);
  of_format(&in, "U", 3, long_ends, letters);
  is("U", PDT_OK, opens(&in, &fault, &table));
  has_texts("U", table, all_six);
  in.batches[0].length = 3;
  in.batches[0].offset = 2;
  in.cells[0][1].offset = in.cells[0][0].offset = 1;
  in.cells[0][1].length = in.cells[0][0].length = 5;
  is("a slice", PDT_OK, opens(&in, &fault, &table));
  has_texts("a slice", table, "\xc3\xa4|\xe6\xbc\xa2|z|");
  fill_views(views);
  struct ArrowArray *array = of_format(&in, "vu", 5, views, "thirteenbytes");
  array->buffers[3] = "16bytes_with_two";
  array->buffers[4] = sizes;
  is("vu", PDT_OK, opens(&in, &fault, &table));
  has_texts("vu", table, "a|twelve bytes||thirteenbytes|bytes_with_two|16bytes_with_|");
  struct ArrowSchema *field = &in.fields[1];
  struct ArrowArray *dictionary = &in.dictionaries[1];
  array = of_format(&in, "c", 2, (int8_t[]){2, 0, 1, 2, 2, 0}, NULL);
  in.values[1] = (struct ArrowSchema){.format = "u", .name = "", .release = release_part_of_schema};
  field->dictionary = &in.values[1];
  in.dictionary_buffers[1][1] = ends;
  in.dictionary_buffers[1][2] = letters;
  *dictionary = (struct ArrowArray){.length = 3, .offset = 1, .n_buffers = 3, .buffers = in.dictionary_buffers[1]};
  dictionary->release = release_part_of_batch;
  array->dictionary = dictionary;
  is("a dictionary", PDT_OK, opens(&in, &fault, &table));
  has_texts("a dictionary", table, "\xc3\xa4||bc|\xc3\xa4|\xc3\xa4||");
  dictionary->length = 2;
  refused("an index outside", &in, PDT_TYPE_MISMATCH, 0, 1, "column \"v\": the index is outside its dictionary");
  dictionary->length = 3;
  in.dictionary_buffers[1][0] = "\x0d";
  refused("a null in a dictionary", &in, PDT_TYPE_MISMATCH, 1, 1, "column \"v\": a null isn't allowed");
  dictionary->null_count = 1;
  in.dictionary_buffers[1][0] = NULL;
  refused("nulls of a dictionary that lie nowhere", &in, PDT_TYPE_MISMATCH, 0, 1, "a dictionary that can't be");
  array->dictionary = NULL;
  refused("no dictionary", &in, PDT_TYPE_MISMATCH, 0, 1, "another dictionary than its schema says");
  field->format = "g";
  refused("no index", &in, PDT_TYPE_MISMATCH, 0, 1, "which no column takes");
}

static void booleans_and_batches_come_in(void) {
  static source in;
  static const int64_t nine = 9, parts[] = {8, 3, 5};
  pdt_arrow_fault fault;
  pdt_table *table = NULL;
  of_format(&in, "b", 2, "\x2d", NULL);
  is("b", PDT_OK, opens(&in, &fault, &table));
  pdt_txn *txn = begun(table);
  uint8_t booleans[6];
  size_t got = 6;
  is("bools", PDT_OK, pdt_bools(txn, 1, 0, booleans, &got));
  for (int i = 0; i < 6; i++) is("a boolean", 0x2d >> i & 1, booleans[i]);
  pdt_abort(txn);
  is("close", PDT_OK, pdt_close(table));
  /* three batches, whose keys are in no order: the second is empty */
  of_format(&in, "l", 2, six, NULL);
  source_batch(&in, 0);
  source_cells(&in, 0, 2, NULL, NULL, NULL);
  source_cells(&in, 0, 2, NULL, NULL, NULL);
  source_batch(&in, 1);
  source_cells(&in, 1, 2, NULL, &nine, NULL);
  source_cells(&in, 1, 2, NULL, &nine, NULL);
  in.buffers[0][0][1] = (int64_t[]){5, 3, 1, 0, 2, 4};
  is("batches in no order", PDT_OK, opens(&in, &fault, &table));
  if (table) has("batches in no order", table, (int64_t[]){3, 2, 4, 1, 5, 0, 9}, 7);
  in.buffers[2][0][1] = parts;
  is("batches in another order", PDT_OK, opens(&in, &fault, &table));
  if (table) has("batches in another order", table, (int64_t[]){3, 2, 4, 1, 5, 0, 9}, 7);
  in.buffers[2][0][1] = parts + 1;
  refused("a key twice", &in, PDT_DUPLICATE, 6, 0, "the key id=3 is that of an earlier row");
  in.fails_at = 1;
  in.why = EIO;
  refused("a producer that fails", &in, PDT_DEVICE_FAILED, 6, 0, "made to fail");
  in.why = ENOMEM;
  refused("a producer without memory", &in, PDT_NOMEM, 0, 0, "");
  in.why = -EIO;
  refused("a schema that fails", &in, PDT_DEVICE_FAILED, 0, 0, "made to fail");
}

static void keys_are_looked_for(void) {
  static source in;
  pdt_arrow_fault fault = {.size = sizeof fault};
  pdt_table *table = NULL;
  struct {
    const char *what, *names[6];
    size_t count;
    int code;
    const char *cause;
  } cases[] = {
      {"a key that isn't there", {"x"}, 1, PDT_BAD_TABLE, "no column \"x\""},
      {"a key twice", {"id", "id"}, 2, PDT_BAD_TABLE, "names column \"id\" twice"},
      {"no key", {"id"}, 0, PDT_BAD_TABLE, "the key has no column"},
      {"a long key", {"id", "id", "id"}, 3, PDT_BAD_TABLE, "more than there are"},
      {"a null name", {NULL}, 1, PDT_MISUSE, ""},
  };
  for (size_t i = 0; i < sizeof cases / sizeof *cases; i++) {
    of_format(&in, "l", 2, six, NULL);
    struct ArrowArrayStream stream = source_stream(&in);
    is(cases[i].what, cases[i].code, pdt_open_arrow(&stream, cases[i].names, cases[i].count, NULL, &fault, &table));
    says(cases[i].what, cases[i].cause, fault.cause);
    is("all is released", 0, live);
  }
  /* the key is the second column, and is first in the table */
  of_format(&in, "u", 3, ends, "fedcbazyx");
  in.buffers[0][1][1] = (int32_t[]){0, 1, 2, 3, 4, 5, 6};
  struct ArrowArrayStream stream = source_stream(&in);
  is("a key of texts", PDT_OK, pdt_open_arrow(&stream, (const char *[]){"v"}, 1, NULL, &fault, &table));
  is("its name", 0, strcmp("v", pdt_column_name(table, 0)));
  has("a key of texts", table, (int64_t[]){5, 4, 3, 2, 1, 0}, 6);
  is("a released stream", PDT_MISUSE, pdt_open_arrow(&stream, id_key, 1, NULL, &fault, &table));
  is("no stream", PDT_MISUSE, pdt_open_arrow(NULL, id_key, 1, NULL, &fault, &table));
  stream = source_stream(&in);
  is("nowhere to", PDT_MISUSE, pdt_open_arrow(&stream, id_key, 1, NULL, &fault, NULL));
  stream = source_stream(&in);
  fault.size = 8;
  is("a small fault", PDT_MISUSE, pdt_open_arrow(&stream, id_key, 1, NULL, &fault, &table));
  stream = source_stream(&in);
  is("few rows", PDT_TOO_MANY_ROWS, pdt_open_arrow(&stream, id_key, 1, &(pdt_options){sizeof(pdt_options), 0, 3, false}, NULL, &table));
  stream = source_stream(&in);
  is("no database", PDT_MISUSE, pdt_table_create_arrow(NULL, "t", &stream, id_key, 1, NULL, NULL, &table));
  is("all is released", 0, live);
}

/* ---- streams that lie */

static void schemas_lie(void) {
  static source in;
  static char name[70];
  of_format(&in, "l", 2, six, NULL);
  in.schema.format = "l";
  refused("no struct", &in, PDT_TYPE_MISMATCH, 0, 0, "and not of +s");
  in.schema.format = NULL;
  refused("no format", &in, PDT_TYPE_MISMATCH, 0, 0, "format (none)");
  in.schema.format = "+s";
  for (int64_t count = -1; count <= 33; count += 34) {
    in.schema.n_children = count;
    refused("a number of columns", &in, PDT_BAD_TABLE, 0, 0, "columns, and not 1 to 32");
  }
  in.schema.n_children = 0;
  refused("no columns", &in, PDT_BAD_TABLE, 0, 0, "0 columns");
  in.schema.n_children = INT64_MAX;
  refused("many columns", &in, PDT_BAD_TABLE, 0, 0, "columns, and not 1 to 32");
  in.schema.n_children = 2;
  in.schema.children = NULL;
  refused("null columns", &in, PDT_BAD_TABLE, 0, 0, "2 columns");
  in.schema.children = in.at;
  in.at[1] = NULL;
  refused("a null column", &in, PDT_TYPE_MISMATCH, 0, 1, "the schema has no column 1");
  in.at[1] = &in.fields[1];
  in.fields[1].release = NULL;
  refused("a released column", &in, PDT_TYPE_MISMATCH, 0, 1, "the schema has no column 1");
  in.fields[1].release = release_part_of_schema;
  static const char *const none[] = {NULL, "",    "n",   "e",          "z",   "Z",   "vz", "w:16", "+l",
                                     "+r", "tdX", "tiM", "d:19,2,256", "d:,", "tss", "ll", "?l"};
  for (size_t i = 0; i < sizeof none / sizeof *none; i++) {
    in.fields[1].format = none[i];
    refused("a format", &in, PDT_TYPE_MISMATCH, 0, 1, "which no column takes");
  }
  in.fields[1].format = "l";
  static const char *const names[] = {NULL, "", "a:b", "\xff", name};
  memset(name, 'n', 65);
  for (size_t i = 0; i < sizeof names / sizeof *names; i++) {
    in.fields[1].name = names[i];
    refused("a name", &in, PDT_BAD_TABLE, 0, 1, "column 1 has no name of 1 to 64 bytes");
  }
  in.fields[1].name = "id";
  refused("a name twice", &in, PDT_BAD_TABLE, 0, 1, "two columns have the name \"id\"");
  in.fields[1].name = "v";
  in.schema.release = NULL;
  refused("a released schema", &in, PDT_TYPE_MISMATCH, 0, 0, "the stream has no schema");
}

static void batches_lie(void) {
  static source in;
  static const uint8_t none[] = {0x1f};
  pdt_arrow_fault fault;
  pdt_table *table = NULL;
#define LIE(what, place, lie, code, row, column, cause) \
  do {                                                  \
    of_format(&in, "l", 2, six, NULL);                  \
    in.place = lie;                                     \
    refused(what, &in, code, row, column, cause);       \
  } while (0)
  LIE("a length", batches[0].length, -1, PDT_TYPE_MISMATCH, 0, 0, "a length, an offset or a count of nulls that can't be");
  LIE("a length", batches[0].length, INT64_MAX, PDT_TYPE_MISMATCH, 0, 0, "that can't be");
  LIE("a length", batches[0].length, 2147483648, PDT_TOO_MANY_ROWS, 0, 0, "more rows than 2,147,483,647");
  LIE("a length", batches[0].length, 2147483647, PDT_TYPE_MISMATCH, 0, 0, "fewer cells than its batch has rows");
  LIE("an offset", batches[0].offset, -1, PDT_TYPE_MISMATCH, 0, 0, "that can't be");
  LIE("an offset", batches[0].offset, INT64_MAX, PDT_TYPE_MISMATCH, 0, 0, "that can't be");
  LIE("an offset", batches[0].offset, 1, PDT_TYPE_MISMATCH, 0, 0, "column \"id\" has fewer cells");
  LIE("nulls", batches[0].null_count, 7, PDT_TYPE_MISMATCH, 0, 0, "that can't be");
  LIE("nulls", batches[0].null_count, -2, PDT_TYPE_MISMATCH, 0, 0, "that can't be");
  LIE("nulls", batches[0].null_count, 1, PDT_TYPE_MISMATCH, 0, 0, "a batch counts nulls");
  LIE("a row that is null", valid[0][0], none, PDT_TYPE_MISMATCH, 5, 0, "the row is a null");
  LIE("columns", batches[0].n_children, 1, PDT_TYPE_MISMATCH, 0, 0, "other columns than the schema");
  LIE("columns", batches[0].n_children, 3, PDT_TYPE_MISMATCH, 0, 0, "other columns than the schema");
  LIE("columns", batches[0].children, NULL, PDT_TYPE_MISMATCH, 0, 0, "other columns than the schema");
  LIE("buffers", batches[0].n_buffers, 0, PDT_TYPE_MISMATCH, 0, 0, "the one buffer");
  LIE("buffers", batches[0].buffers, NULL, PDT_TYPE_MISMATCH, 0, 0, "the one buffer");
  LIE("a column that isn't there", cells_at[0][1], NULL, PDT_TYPE_MISMATCH, 0, 1, "column \"v\" isn't in a batch");
  LIE("a column that is released", cells[0][1].release, NULL, PDT_TYPE_MISMATCH, 0, 1, "column \"v\" isn't in a batch");
  LIE("a column's length", cells[0][1].length, 5, PDT_TYPE_MISMATCH, 0, 1, "column \"v\" has fewer cells");
  LIE("a column's length", cells[0][1].length, -6, PDT_TYPE_MISMATCH, 0, 1, "that can't be");
  LIE("a column's offset", cells[0][1].offset, INT64_MAX, PDT_TYPE_MISMATCH, 0, 1, "that can't be");
  LIE("a column's offset", cells[0][1].offset, -1, PDT_TYPE_MISMATCH, 0, 1, "that can't be");
  LIE("a column's nulls", cells[0][1].null_count, 1, PDT_TYPE_MISMATCH, 0, 1, "counts nulls, and doesn't say where");
  LIE("a column's buffers", cells[0][1].n_buffers, 3, PDT_TYPE_MISMATCH, 0, 1, "the buffers of its format");
  LIE("a column's buffers", cells[0][1].n_buffers, 0, PDT_TYPE_MISMATCH, 0, 1, "the buffers of its format");
  LIE("a column's buffers", cells[0][1].buffers, NULL, PDT_TYPE_MISMATCH, 0, 1, "the buffers of its format");
  LIE("a column's cells", buffers[0][1][1], NULL, PDT_TYPE_MISMATCH, 0, 1, "the buffers of its format");
  LIE("a column's children", cells[0][1].n_children, 1, PDT_TYPE_MISMATCH, 0, 1, "the buffers of its format");
  LIE("a column's dictionary", cells[0][1].dictionary, &in.dictionaries[0], PDT_TYPE_MISMATCH, 0, 1, "another dictionary");
  LIE("a null", buffers[0][1][0], "\x2f", PDT_TYPE_MISMATCH, 4, 1, "column \"v\": a null isn't allowed");
#undef LIE
  of_format(&in, "l", 2, six, NULL);
  in.buffers[0][1][0] = "\x3f";
  in.cells[0][1].null_count = 2;
  refused("nulls that aren't there", &in, PDT_TYPE_MISMATCH, 0, 1, "counts nulls that aren't there");
  in.cells[0][1].null_count = -1;
  is("nulls that weren't counted", PDT_OK, opens(&in, &fault, &table));
  has("nulls that weren't counted", table, six, 6);
}

static void cells_lie(void) {
  static source in;
  static char many[5000];
  static uint8_t views[96];
  static const int64_t sizes[] = {13, 16};
  static const struct {
    const char *what;
    int32_t ends[7];
    uint64_t row;
  } texts[] = {
      {"offsets that descend", {0, 1, 5, 3, 5, 8, 9}, 2},
      {"an offset below 0", {-1, 0, 1, 3, 5, 8, 9}, 0},
      {"a long text", {0, 1, 2, 3, 5, 8, 4999}, 5},
  };
  for (size_t i = 0; i < sizeof texts / sizeof *texts; i++) {
    of_format(&in, "u", 3, texts[i].ends, many);
    refused(texts[i].what, &in, PDT_TYPE_MISMATCH, texts[i].row, 1, "column \"v\": the text isn't within its buffer");
  }
  of_format(&in, "u", 3, ends, NULL);
  refused("no bytes", &in, PDT_TYPE_MISMATCH, 0, 1, "column \"v\": the text isn't within its buffer");
  of_format(&in, "u", 3, ends, "abc\xff\xffxxxx");
  refused("no UTF-8", &in, PDT_TYPE_MISMATCH, 3, 1, "column \"v\": the text is not UTF-8");
  of_format(&in, "L", 2, (uint64_t[]){0, 1, 2, 3, (uint64_t)INT64_MAX + 1, 5}, NULL);
  refused("a large number", &in, PDT_TYPE_MISMATCH, 4, 1, "the number is above 9,223,372,036,854,775,807");
  of_format(&in, "d:38,0", 2, (int64_t[]){0, 0, 1, 0, 2, 1, 3, 0, 4, 0, 5, 0}, NULL);
  refused("a large decimal", &in, PDT_TYPE_MISMATCH, 2, 1, "64 bits don't hold the decimal");
  static const int32_t bad[][4] = {{-1, 0, 0, 0},  {13, 0, 2, 0}, {13, 0, -1, 0}, {13, 0, 0, 1},
                                   {13, 0, 0, -1}, {17, 0, 1, 0}, {4097, 0, 0, 0}};
  for (size_t i = 0; i < sizeof bad / sizeof *bad; i++) {
    fill_views(views);
    memcpy(views + 32, bad[i], 16);
    struct ArrowArray *array = of_format(&in, "vu", 5, views, "thirteenbytes");
    array->buffers[3] = "16bytes_with_two";
    array->buffers[4] = sizes;
    refused("a view", &in, PDT_TYPE_MISMATCH, 2, 1, "column \"v\": the text isn't within its buffer");
  }
}

/* ---- rows that are applied */

static int applies(pdt_txn *txn, source *in, int what, pdt_arrow_fault *fault, uint64_t *done) {
  struct ArrowArrayStream stream = source_stream(in);
  *done = 99;
  fault->size = sizeof *fault;
  int code = pdt_apply_arrow(txn, &stream, what, fault, done);
  is("the stream is released", 1, stream.release == NULL && !live);
  return code;
}

/* A source of three rows of the four columns, in another order, with these keys, and a second batch with one more. */
static void rows_to_apply(source *in, const int64_t *keys) {
  source_begin(in);
  source_column(in, "ok", "b");
  source_column(in, "name", "u");
  source_column(in, "qty", "i");
  source_column(in, "id", "l");
  for (int batch = 0; batch < 2; batch++) {
    int64_t rows = batch ? 1 : 3;
    source_batch(in, rows);
    source_cells(in, rows, 2, NULL, "\x02", NULL);
    source_cells(in, rows, 3, NULL, ends, letters);
    source_cells(in, rows, 2, NULL, (int32_t[3]){0}, NULL)->buffers[1] = ends + 2;
    source_cells(in, rows, 2, NULL, keys + 3 * batch, NULL);
  }
}

static int64_t qty_of(pdt_txn *txn, int64_t key) {
  int64_t row[WIDTH] = {0};
  char text[64];
  int code = pdt_get(txn, &key, NULL, 0, row, text, sizeof text, NULL);
  return code ? -code : row[QTY];
}

static void rows_are_applied(void) {
  static source in;
  static const int64_t fresh[] = {-1, 9000, -3, 5000}, twice[] = {-10, -11, -12, 9000}, mixed[] = {-20, 5, 9000, 17};
  pdt_table *table = opened();
  pdt_txn *txn = begun(table);
  pdt_arrow_fault fault;
  uint64_t done = 0;
  rows_to_apply(&in, fresh);
  is("inserts", PDT_OK, applies(txn, &in, PDT_APPLY_INSERT, &fault, &done));
  is("how many", 4, (long long)done);
  is("rows", ROWS + 4, (long long)rows_of(txn));
  is("the third batch's row", 1, qty_of(txn, 5000));
  is("a row", 3, qty_of(txn, 9000));
  rows_to_apply(&in, twice);
  is("a duplicate", PDT_DUPLICATE, applies(txn, &in, PDT_APPLY_INSERT, &fault, &done));
  is("none", 0, (long long)done);
  is("its row", 3, (long long)fault.place.row);
  is("rows", ROWS + 4, (long long)rows_of(txn));
  rows_to_apply(&in, mixed);
  is("upserts", PDT_OK, applies(txn, &in, PDT_APPLY_UPSERT, &fault, &done));
  is("rows", ROWS + 5, (long long)rows_of(txn));
  is("a row that was there", 3, qty_of(txn, 5));
  is("a row of the second batch", 1, qty_of(txn, 17));
  in.schema.n_children = 4;
  is("deletes", PDT_OK, applies(txn, &in, PDT_APPLY_DELETE, &fault, &done));
  is("rows", ROWS + 1, (long long)rows_of(txn));
  is("gone", -PDT_MISSING, qty_of(txn, 5));
  is("a row that isn't there", PDT_MISSING, applies(txn, &in, PDT_APPLY_DELETE, &fault, &done));
  is("its row", 0, (long long)fault.place.row);
  rows_to_apply(&in, fresh);
  in.fields[3].name = "key";
  is("no key", PDT_TYPE_MISMATCH, applies(txn, &in, PDT_APPLY_DELETE, &fault, &done));
  says("no key", "column \"id\" of the table isn't there", fault.cause);
  in.fields[3].name = "id";
  in.fields[2].name = "price";
  is("another column", PDT_TYPE_MISMATCH, applies(txn, &in, PDT_APPLY_UPSERT, &fault, &done));
  in.fields[2].name = "qty";
  source_column(&in, "price", "l");
  is("one column more", PDT_TYPE_MISMATCH, applies(txn, &in, PDT_APPLY_INSERT, &fault, &done));
  says("one column more", "the table has no column \"price\"", fault.cause);
  rows_to_apply(&in, fresh);
  in.fields[1].format = "l";
  is("another type", PDT_TYPE_MISMATCH, applies(txn, &in, PDT_APPLY_INSERT, &fault, &done));
  says("another type", "column \"name\" is of type int, and type text is wanted", fault.cause);
  rows_to_apply(&in, (int64_t[]){-30, -31, -32, -33});
  in.buffers[1][1][2] = "\xff\xff\xff\xff\xff";
  is("no UTF-8", PDT_TYPE_MISMATCH, applies(txn, &in, PDT_APPLY_INSERT, &fault, &done));
  says("no UTF-8", "column \"name\": the text is not UTF-8", fault.cause);
  is("its row", 3, (long long)fault.place.row);
  is("its column", 1, (long long)fault.place.column);
  in.why = EIO;
  in.fails_at = 1;
  is("a producer that fails", PDT_DEVICE_FAILED, applies(txn, &in, PDT_APPLY_INSERT, &fault, &done));
  in.why = 0;
  in.cells[1][3].length = 0;
  is("a batch that lies", PDT_TYPE_MISMATCH, applies(txn, &in, PDT_APPLY_INSERT, &fault, &done));
  is("rows", ROWS + 1, (long long)rows_of(txn));
  is("no mark is left", PDT_MISSING, pdt_rollback_to(txn, 0));
  is("what isn't known", PDT_MISUSE, applies(txn, &in, 4, &fault, &done));
  is("prepare", PDT_OK, pdt_prepare(txn, NULL));
  is("a prepared one", PDT_MISUSE, applies(txn, &in, PDT_APPLY_INSERT, &fault, &done));
  pdt_abort(txn);
  is("no transaction", PDT_MISUSE, applies(NULL, &in, PDT_APPLY_INSERT, &fault, &done));
  is("close", PDT_OK, pdt_close(table));
}

static void columns_are_applied(void) {
  static const int64_t keys[] = {4, 2, 6}, qty[] = {40, 20, 60};
  pdt_column columns[] = {{"n", PDT_INT, 3, qty, NULL, NULL, 0}, {"id", PDT_INT, 3, keys, NULL, NULL, 0}};
  pdt_table *table = of_numbers(six, 3);
  pdt_txn *txn = begun(table);
  pdt_arrow_fault fault = {.size = sizeof fault};
  uint64_t done = 0;
  is("a duplicate", PDT_DUPLICATE, pdt_apply_columns(txn, columns, 2, PDT_APPLY_INSERT, &fault, &done));
  is("its row", 1, (long long)fault.place.row);
  is("upserts", PDT_OK, pdt_apply_columns(txn, columns, 2, PDT_APPLY_UPSERT, &fault, &done));
  is("how many", 3, (long long)done);
  is("commit", PDT_OK, pdt_commit(txn, NULL));
  txn = begun(table);
  is("a column of the key alone", PDT_OK, pdt_apply_columns(txn, columns + 1, 1, PDT_APPLY_DELETE, NULL, NULL));
  is("rows", 2, (long long)rows_of(txn));
  pdt_abort(txn);
  txn = begun(table);
  columns[0].rows = 2;
  is("a row too few", PDT_MISUSE, pdt_apply_columns(txn, columns, 2, PDT_APPLY_UPSERT, &fault, &done));
  columns[0].rows = 3;
  columns[0].numbers = NULL;
  is("no numbers", PDT_MISUSE, pdt_apply_columns(txn, columns, 2, PDT_APPLY_UPSERT, &fault, &done));
  is("no columns", PDT_MISUSE, pdt_apply_columns(txn, NULL, 0, PDT_APPLY_UPSERT, &fault, &done));
  pdt_abort(txn);
  has("what was committed", table, (int64_t[]){0, 1, 20, 40, 60}, 5);
}

/* ---- what numbers stand for */

static void goes_out_as(const char *what, pdt_table *table, const char *format) {
  pdt_txn *txn = begun(table);
  struct ArrowArrayStream stream;
  is(what, PDT_OK, pdt_txn_arrow(txn, NULL, 0, 0, UINT64_MAX, 0, &stream));
  look_at_schema(&stream, (const char *[]){"l", format}, (const char *[]){"id", "v"}, 2);
  stream.release(&stream);
  pdt_abort(txn);
}

static void columns_are_declared(void) {
  static source in;
  pdt_arrow_fault fault;
  pdt_table *table = NULL;
  uint64_t done = 0;
  static const struct {
    const char *in, *out;
  } formats[] = {{"g", "g"}, {"f", "g"}, {"tsu:UTC", "tsu:UTC"}, {"tDn", "tDn"}, {"d:19,2", "d:19,2"}, {"L", "l"}, {"s", "l"}};
  static const int64_t twelve[12] = {0};
  for (size_t i = 0; i < sizeof formats / sizeof *formats; i++) {
    of_format(&in, formats[i].in, 2, twelve, NULL);
    is(formats[i].in, PDT_OK, opens(&in, &fault, &table));
    goes_out_as(formats[i].in, table, formats[i].out);
    is("close", PDT_OK, pdt_close(table));
  }
  of_format(&in, "tdD", 2, six, NULL);
  is("dates", PDT_OK, opens(&in, &fault, &table));
  is("declared", 0, strcmp("tdD", pdt_declared(table, 1)));
  is("not declared", 1, !pdt_declared(table, 0) && !pdt_declared(table, 2) && !pdt_declared(NULL, 0));
  pdt_txn *txn = begun(table);
  static const int64_t more[] = {10, 11, 12, 13, 14, 15};
  in.buffers[0][0][1] = more;
  is("dates again", PDT_OK, applies(txn, &in, PDT_APPLY_INSERT, &fault, &done));
  of_format(&in, "l", 2, more, NULL);
  is("integers", PDT_OK, applies(txn, &in, PDT_APPLY_UPSERT, &fault, &done));
  of_format(&in, "tdm", 2, more, NULL);
  is("another unit", PDT_TYPE_MISMATCH, applies(txn, &in, PDT_APPLY_UPSERT, &fault, &done));
  says("another unit", "column \"v\" is declared as tdD, and comes in as tdm", fault.cause);
  of_format(&in, "l", 2, more, NULL);
  in.buffers[0][1][0] = "\x2f";
  is("a null", PDT_TYPE_MISMATCH, applies(txn, &in, PDT_APPLY_UPSERT, &fault, &done));
  is("declare", PDT_OK, pdt_declare(table, 1, "?tdD"));
  is("a null", PDT_OK, applies(txn, &in, PDT_APPLY_UPSERT, &fault, &done));
  static const int64_t least[] = {0, 1, INT64_MIN, 3, 4, 5};
  of_format(&in, "l", 2, least, NULL);
  is("the number of a null", PDT_TYPE_MISMATCH, applies(txn, &in, PDT_APPLY_UPSERT, &fault, &done));
  says("the number of a null", "the number is the one that stands for a null", fault.cause);
  is("its row", 2, (long long)fault.place.row);
  int64_t numbers[6];
  size_t got = 6;
  is("ints", PDT_OK, pdt_ints(txn, 1, 0, numbers, &got));
  is("a null is the least number", INT64_MIN, numbers[4]);
  pdt_abort(txn);
  static const char *const none[] = {"", "?", "x", "U", "b", "f", "c", "d:39,0"};
  for (size_t i = 0; i < sizeof none / sizeof *none; i++) is(none[i], PDT_TYPE_MISMATCH, pdt_declare(table, 1, none[i]));
  is("a null of a key", PDT_TYPE_MISMATCH, pdt_declare(table, 0, "?l"));
  is("no column", PDT_TYPE_MISMATCH, pdt_declare(table, 2, "g"));
  is("no table", PDT_MISUSE, pdt_declare(NULL, 0, "g"));
  is("as it was", 0, strcmp("?tdD", pdt_declared(table, 1)));
  is("declare", PDT_OK, pdt_declare(table, 1, NULL));
  goes_out_as("no more", table, "l");
  is("close", PDT_OK, pdt_close(table));
}

/* ---- threads */

enum { THREADS = 4, TIMES = 20 };

static void *reads(void *arg) {
  pdt_pinned *pin = arg;
  for (int i = 0; i < TIMES; i++) {
    struct ArrowArrayStream stream;
    struct ArrowArray batch;
    int64_t rows = 0, sum = 0;
    if (pdt_arrow(pin, (pdt_arrow_column[]){{ID, NULL}, {NAME, "u"}, {QTY, NULL}}, 3, 0, UINT64_MAX, 500, &stream)) return "a stream";
    for (;;) {
      if (stream.get_next(&stream, &batch)) return "get_next";
      if (!batch.release) break;
      rows += batch.length;
      for (int64_t at = 0; at < batch.length; at++) {
        sum += ((const int64_t *)batch.children[0]->buffers[1])[at] + ((const int64_t *)batch.children[2]->buffers[1])[at];
      }
      batch.release(&batch);
    }
    stream.release(&stream);
    if (rows != ROWS || sum != 1000ll * ROWS) return "a sum";
  }
  return NULL;
}

static void threads_read_one_pin(void) {
  pdt_table *table = opened();
  pdt_pinned *pin = NULL;
  pthread_t threads[THREADS];
  is("pin", PDT_OK, pdt_pin(table, NULL, &pin));
  for (int i = 0; i < THREADS; i++) is("a thread", 0, pthread_create(&threads[i], NULL, reads, pin));
  for (int i = 0; i < TIMES; i++) {
    pdt_txn *txn = begun(table);
    int64_t key = i;
    is("set", PDT_OK, pdt_set(txn, &key, NULL, 0, QTY, 1, NULL));
    is("commit", PDT_OK, pdt_commit(txn, NULL));
    if (i % 8 == 0) is("fold", PDT_OK, pdt_fold(table));
  }
  for (int i = 0; i < THREADS; i++) {
    void *what = NULL;
    pthread_join(threads[i], &what);
    if (what) failures++, fprintf(stderr, "a thread: %s\n", (const char *)what);
  }
  pdt_unpin(pin);
  is("close", PDT_OK, pdt_close(table));
}

int main(void) {
  streams_are_the_rows();
  batches_outlive();
  formats_go_out();
  formats_are_refused();
  numbers_come_in();
  texts_come_in();
  booleans_and_batches_come_in();
  keys_are_looked_for();
  schemas_lie();
  batches_lie();
  cells_lie();
  rows_are_applied();
  columns_are_applied();
  columns_are_declared();
  threads_read_one_pin();
  if (!failures) printf("arrow: passed\n");
  return failures != 0;
}
