/* Arrow's streams at the edges of their types: decimals of 63, 64 and more bits and of another scale, the least and the greatest number of
   each format that goes out, arrays that are slices of others with bits of nulls, text keys in any order of which one begins another, and
   the place of a fault where the key isn't the first column; formats of declared columns as long as may be, and longer. */
#define _POSIX_C_SOURCE 200809L
#include "arrow_source.h"

#include <inttypes.h>
#include <stdio.h>
#include <stdlib.h>

static int failures;
static void is(const char *what, long long wanted, long long found) {
  if (wanted == found) return;
  failures++;
  fprintf(stderr, "%s: wanted %lld, found %lld\n", what, wanted, found);
}

static pdt_table *opened(source *in, const char *key, int wanted, pdt_arrow_fault *fault) {
  pdt_table *table = NULL;
  struct ArrowArrayStream stream = source_stream(in);
  is("open", wanted, pdt_open_arrow(&stream, &key, 1, NULL, fault, &table));
  is("all is released", 0, live);
  return table;
}
static int64_t cell(pdt_table *table, uint64_t at, size_t column) {
  pdt_txn *txn = NULL;
  int64_t row[4] = {0};
  char text[64];
  is("begin", PDT_OK, pdt_begin(table, &txn));
  is("row", PDT_OK, pdt_row_at(txn, at, row, text, sizeof text, NULL));
  pdt_abort(txn);
  return row[column];
}

/* ---- decimals */

static const int64_t ids[] = {1, 2, 3, 4};

/* A decimal has 128 bits, the lowest first: one that 64 bits hold with its sign is taken, and no other. */
static void decimals_in(void) {
  static const struct {
    uint64_t low, high;
    bool is_taken;
  } cases[] = {
      {INT64_MAX, 0, true},
      {(uint64_t)INT64_MAX + 1, 0, false},
      {UINT64_MAX, 0, false},
      {(uint64_t)INT64_MIN, UINT64_MAX, true},
      {INT64_MAX, UINT64_MAX, false},
      {UINT64_MAX, UINT64_MAX, true},
      {5, 1, false},
      {5, UINT64_MAX - 1, false},
      {0, 0, true},
  };
  for (size_t i = 0; i < sizeof cases / sizeof *cases; i++) {
    static source in;
    uint64_t wide[] = {cases[i].low, cases[i].high};
    source_begin(&in);
    source_column(&in, "id", "l"), source_column(&in, "price", "d:38,2");
    source_batch(&in, 1);
    source_cells(&in, 1, 2, NULL, ids, NULL), source_cells(&in, 1, 2, NULL, wide, NULL);
    pdt_table *table = opened(&in, "id", cases[i].is_taken ? PDT_OK : PDT_TYPE_MISMATCH, NULL);
    if (table) is("a decimal", (int64_t)wide[0], cell(table, 0, 1));
    pdt_close(table);
  }
}

/* 1.50 isn't 0.150: a stream of another scale, or of another unit, isn't applied. */
static void other_meanings(void) {
  static const struct {
    const char *declared, *comes;
    int code;
  } cases[] = {
      {"d:15,2", "d:15,2", PDT_OK},
      {"d:15,2", "d:10,2", PDT_OK},
      {"d:15,2", "d:15,3", PDT_TYPE_MISMATCH},
      {"d:15,3", "d:15,2", PDT_TYPE_MISMATCH},
      {"tsu:", "tsu:", PDT_OK},
      {"tsu:UTC", "tsu:UTC", PDT_OK},
      {"tsu:UTC", "tsu:Europe/Berlin", PDT_OK},
      {"tsu:UTC", "tsu:", PDT_TYPE_MISMATCH},
      {"tsu:", "tsu:UTC", PDT_TYPE_MISMATCH},
      {"tsu:UTC", "tsm:UTC", PDT_TYPE_MISMATCH},
      {"tDu", "tDm", PDT_TYPE_MISMATCH},
  };
  for (size_t i = 0; i < sizeof cases / sizeof *cases; i++) {
    static const char csv[] = "id:int:key,at:int\n";
    static source in;
    uint64_t wide[] = {7, 0};
    pdt_table *table = NULL;
    pdt_txn *txn = NULL;
    is("open", PDT_OK, pdt_open_csv(csv, sizeof csv - 1, NULL, NULL, &table));
    is("declare", PDT_OK, pdt_declare(table, 1, cases[i].declared));
    source_begin(&in);
    source_column(&in, "id", "l"), source_column(&in, "at", cases[i].comes);
    source_batch(&in, 1);
    source_cells(&in, 1, 2, NULL, ids, NULL), source_cells(&in, 1, 2, NULL, wide, NULL);
    struct ArrowArrayStream stream = source_stream(&in);
    is("begin", PDT_OK, pdt_begin(table, &txn));
    is(cases[i].comes, cases[i].code, pdt_apply_arrow(txn, &stream, PDT_APPLY_INSERT, NULL, NULL));
    pdt_abort(txn);
    is("close", PDT_OK, pdt_close(table));
  }
}

/* ---- the least and the greatest that go out */

/* What get_next answers of a column of one number in a format. */
static int goes_out(int64_t number, const char *format, struct ArrowArray *batch) {
  pdt_column columns[] = {{"id", PDT_INT, 1, ids, NULL, NULL, 0}, {"n", PDT_INT, 1, &number, NULL, NULL, 0}};
  pdt_table *table = NULL;
  pdt_pinned *pin = NULL;
  struct ArrowArrayStream stream;
  is("open", PDT_OK, pdt_open_columns(columns, 2, 1, NULL, NULL, &table));
  is("pin", PDT_OK, pdt_pin(table, NULL, &pin));
  is("stream", PDT_OK, pdt_arrow(pin, &(pdt_arrow_column){1, format}, 1, 0, 1, 0, &stream));
  int code = stream.get_next(&stream, batch);
  is("a reason", code != 0, stream.get_last_error(&stream) != NULL);
  stream.release(&stream);
  pdt_unpin(pin);
  is("close", PDT_OK, pdt_close(table));
  return code;
}

static void ends_out(void) {
  static const struct {
    const char *format;
    int64_t least, most;
    size_t bytes;
  } cases[] = {
      {"i", INT32_MIN, INT32_MAX, 4},
      {"tdD", INT32_MIN, INT32_MAX, 4},
      {"d:1,0", -9, 9, 16},
      {"d:3,2", -999, 999, 16},
      {"d:18,0", -999999999999999999, 999999999999999999, 16},
      {"l", INT64_MIN, INT64_MAX, 8},
      {"d:19,0", INT64_MIN, INT64_MAX, 16},
      {"d:38,10", INT64_MIN, INT64_MAX, 16},
  };
  for (size_t i = 0; i < sizeof cases / sizeof *cases; i++) {
    int64_t ends[] = {cases[i].least, cases[i].most};
    for (int end = 0; end < 2; end++) {
      struct ArrowArray batch;
      is(cases[i].format, 0, goes_out(ends[end], cases[i].format, &batch));
      int64_t found = 0;
      memcpy(&found, batch.children[0]->buffers[1], cases[i].bytes > 8 ? 8 : cases[i].bytes);
      if (cases[i].bytes == 4) found = (int32_t)found;
      is(cases[i].format, ends[end], found);
      if (cases[i].bytes == 16) is("its sign", ends[end] < 0 ? -1 : 0, ((const int64_t *)batch.children[0]->buffers[1])[1]);
      batch.release(&batch);
      if (ends[end] == INT64_MIN || ends[end] == INT64_MAX) continue;
      is("past the end", EINVAL, goes_out(ends[end] + (end ? 1 : -1), cases[i].format, &batch));
    }
  }
}

/* ---- slices */

/* An array of a slice begins in the midst of its buffers, and its bits too: a null before it is none of it. */
static void slices(void) {
  static const int64_t keys[] = {1, 2, 3, 4, 5, 6, 7, 8, 9, 10, 11, 12};
  for (int null = 0; null < 12; null++)
    for (int64_t from = 0; from < 12; from += 3) {
      static source in;
      uint8_t bits[2] = {0xff, 0xff};
      bits[null / 8] &= (uint8_t) ~(1 << null % 8);
      source_begin(&in);
      source_column(&in, "id", "l"), source_column(&in, "n", "l");
      source_batch(&in, 3);
      struct ArrowArray *id = source_cells(&in, 3, 2, NULL, keys, NULL), *n = source_cells(&in, 3, 2, bits, keys, NULL);
      id->offset = n->offset = from;
      bool is_in = null >= from && null < from + 3;
      n->null_count = is_in; /* of the slice */
      pdt_arrow_fault fault = {.size = sizeof fault};
      pdt_table *table = opened(&in, "id", is_in ? PDT_TYPE_MISMATCH : PDT_OK, &fault);
      if (is_in) is("the row of the null", null - from, (long long)fault.place.row);
      if (is_in) is("its column", 1, (long long)fault.place.column);
      for (uint64_t row = 0; table && row < 3; row++) is("a row of the slice", from + (int64_t)row + 1, cell(table, row, 1));
      pdt_close(table);
    }
}

/* Nulls come in by a stream whose field says that there may be some, as the least number, and go out again. */
static void nulls_in(void) {
  static const struct {
    const char *comes, *declared;
    bool is_key;
  } cases[] = {{"l", "?l", false},     {"i", "?l", false}, {"g", "?g", false}, {"tsu:UTC", "?tsu:UTC", false},
               {"tdD", "?tdD", false}, {"l", NULL, true}};
  for (size_t i = 0; i < sizeof cases / sizeof *cases; i++) {
    static source in;
    static const int64_t cells[] = {1, 0, 3};
    static const int32_t small[] = {1, 0, 3};
    static const uint8_t bits[] = {5};                                        /* the second one isn't there */
    bool is_small = *cases[i].comes == 'i' || !strcmp(cases[i].comes, "tdD"); /* of 32 bits */
    source_begin(&in);
    source_column(&in, "id", "l"), source_column(&in, "n", cases[i].comes)->flags = ARROW_FLAG_NULLABLE;
    source_batch(&in, 3);
    source_cells(&in, 3, 2, NULL, ids, NULL)->null_count = 0;
    source_cells(&in, 3, 2, bits, is_small ? (const void *)small : cells, NULL)->null_count = 1;
    pdt_table *table = opened(&in, cases[i].is_key ? "n" : "id", cases[i].is_key ? PDT_TYPE_MISMATCH : PDT_OK, NULL);
    if (!table) continue;
    is(cases[i].comes, 0, strcmp(cases[i].declared, pdt_declared(table, 1) ? pdt_declared(table, 1) : ""));
    is("a null", INT64_MIN, cell(table, 1, 1));
    pdt_pinned *pin = NULL;
    struct ArrowArrayStream stream;
    const char *const key = "id";
    pdt_table *again = NULL;
    is("pin", PDT_OK, pdt_pin(table, NULL, &pin));
    is("stream", PDT_OK, pdt_arrow(pin, NULL, 0, 0, 3, 0, &stream));
    is("open again", PDT_OK, pdt_open_arrow(&stream, &key, 1, NULL, NULL, &again));
    is("the same type", 0, strcmp(cases[i].declared, again && pdt_declared(again, 1) ? pdt_declared(again, 1) : ""));
    for (uint64_t row = 0; again && row < 3; row++) is("the same cell", cell(table, row, 1), cell(again, row, 1));
    pdt_close(again);
    pdt_unpin(pin);
    is("close", PDT_OK, pdt_close(table));
  }
}

/* The least number stands for a null: beside one it isn't taken, in either order, and without one the column is of plain numbers. */
static void nulls_and_least(void) {
  static const int64_t cells[] = {1, INT64_MIN, 3};
  static const struct {
    uint8_t bits;
    int code;
  } cases[] = {{7, PDT_OK}, {6, PDT_TYPE_MISMATCH}, {3, PDT_TYPE_MISMATCH}, {5, PDT_OK}, {1, PDT_OK}};
  for (size_t i = 0; i < sizeof cases / sizeof *cases; i++) {
    static source in;
    source_begin(&in);
    source_column(&in, "id", "l"), source_column(&in, "n", "l")->flags = ARROW_FLAG_NULLABLE;
    source_batch(&in, 3);
    source_cells(&in, 3, 2, NULL, ids, NULL), source_cells(&in, 3, 2, &cases[i].bits, cells, NULL)->null_count = -1;
    pdt_table *table = opened(&in, "id", cases[i].code, NULL);
    if (!table) continue;
    is("declared", i ? 1 : 0, pdt_declared(table, 1) != NULL);
    is("the least number", INT64_MIN, cell(table, 1, 1));
    pdt_close(table);
  }
}

/* ---- keys of texts, and a key that isn't the first column */

static void text_keys(void) {
  static const char *const wanted[] = {"", "a", "aa", "aab", "ab", "b"};
  static const int32_t offsets[] = {0, 3, 4, 6, 6, 7, 9};
  static const char texts[] = "aabbaaaab"; /* aab b aa '' a ab */
  static const int64_t numbers[] = {0, 1, 2, 3, 4, 5}, order[] = {3, 4, 2, 0, 5, 1};
  static source in;
  source_begin(&in);
  source_column(&in, "n", "l"), source_column(&in, "word", "u");
  source_batch(&in, 6);
  source_cells(&in, 6, 2, NULL, numbers, NULL), source_cells(&in, 6, 3, NULL, offsets, texts);
  pdt_table *table = opened(&in, "word", PDT_OK, NULL);
  if (!table) return;
  is("the key is the first column", 0, strcmp("word", pdt_column_name(table, 0)));
  for (uint64_t at = 0; at < 6; at++) {
    pdt_txn *txn = NULL;
    int64_t row[2];
    char text[8] = {0};
    is("begin", PDT_OK, pdt_begin(table, &txn));
    is("row", PDT_OK, pdt_row_at(txn, at, row, text, sizeof text - 1, NULL));
    is(wanted[at], 0, strcmp(wanted[at], text));
    is("its number", order[at], row[1]);
    pdt_abort(txn);
  }
  is("close", PDT_OK, pdt_close(table));
  static const char same[] = "aabbaaabb"; /* aab b aa '' a bb: none is twice */
  source_begin(&in);
  source_column(&in, "n", "l"), source_column(&in, "word", "u");
  source_batch(&in, 2);
  static const int32_t twice[] = {0, 1, 2};
  source_cells(&in, 2, 2, NULL, numbers, NULL), source_cells(&in, 2, 3, NULL, twice, same);
  pdt_arrow_fault fault = {.size = sizeof fault};
  is("a key twice", 1, !opened(&in, "word", PDT_DUPLICATE, &fault));
  is("its row", 1, (long long)fault.place.row);
  is("the column of the key in the stream", 1, (long long)fault.place.column);
}

/* A fault's column is that of the stream, whichever is the key. */
static void places(void) {
  static const uint64_t large[] = {1, UINT64_MAX};
  for (int column = 0; column < 3; column++)
    for (int key = 0; key < 3; key++) {
      static const char *const names[] = {"a", "b", "c"};
      static source in;
      if (key == column) continue;
      source_begin(&in);
      for (int i = 0; i < 3; i++) source_column(&in, names[i], i == column ? "L" : "l");
      source_batch(&in, 2);
      for (int i = 0; i < 3; i++) source_cells(&in, 2, 2, NULL, i == column ? (const void *)large : ids, NULL);
      pdt_arrow_fault fault = {.size = sizeof fault};
      is("too large", 1, !opened(&in, names[key], PDT_TYPE_MISMATCH, &fault));
      is("its row", 1, (long long)fault.place.row);
      is("its column", column, (long long)fault.place.column);
      is("its name", 1, strstr(fault.cause, names[column]) != NULL);
    }
}

/* ---- formats of declared columns */

static void long_formats(void) {
  static const char csv[] = "id:int:key,at:int,after:int\n1,2,3\n";
  pdt_table *table = NULL;
  is("open", PDT_OK, pdt_open_csv(csv, sizeof csv - 1, NULL, NULL, &table));
  is("declare", PDT_OK, pdt_declare(table, 2, "tdD"));
  for (size_t len = 5; len <= 80; len++) {
    char format[100] = "tsu:", copy[64];
    memset(format + 4, 'z', len - 4);
    is("a format", len <= 63 ? PDT_OK : PDT_TYPE_MISMATCH, pdt_declare(table, 1, format));
    is("the next column's", 0, strcmp("tdD", pdt_declared(table, 2)));
    is("a copy", PDT_OK, pdt_declared_copy(table, 1, copy, sizeof copy));
    is("its length", (long long)(len <= 63 ? len : 63), (long long)strlen(copy));
    is("less room", PDT_TOO_SMALL, pdt_declared_copy(table, 1, copy, strlen(copy)));
  }
  char copy[64];
  is("declare", PDT_OK, pdt_declare(table, 1, NULL));
  is("a copy of none", PDT_OK, pdt_declared_copy(table, 1, copy, 1));
  is("is empty", 0, *copy);
  is("no such column", PDT_TYPE_MISMATCH, pdt_declared_copy(table, 3, copy, sizeof copy));
  is("close", PDT_OK, pdt_close(table));
}

int main(void) {
  decimals_in();
  other_meanings();
  ends_out();
  slices();
  nulls_in();
  nulls_and_least();
  text_keys();
  places();
  long_formats();
  return failures ? 1 : 0;
}
