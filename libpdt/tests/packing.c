/* A Read-PDT that a fold packs for scans: when it does, and that pdt_ints and pdt_bools read what they read before, beside rows that lie
   in an array: over each stack of layers, at each length, in transactions of before the fold and after it. */
#include <pdt.h>
#include <stdio.h>
#include <stdlib.h>
#include <string.h>

static int failures;
static void is(const char *what, long long wanted, long long found) {
  if (wanted == found) return;
  failures++;
  fprintf(stderr, "%s: wanted %lld, found %lld\n", what, wanted, found);
}

static uint64_t seed = 20261129;
static uint64_t drawn(uint64_t below) {
  seed = seed * 6364136223846793005u + 1442695040888963407u;
  return (seed >> 33) % below;
}

/* ---- the rows of a table, in an array: a number as key, two more numbers, a text that nobody reads here and a boolean */

enum { MOST = 20000, KEY = 0, FIRST = 1, NAME = 2, SECOND = 3, TRUTH = 4 };
typedef struct {
  int64_t key, first, second;
  uint8_t boolean;
} row;
typedef struct {
  row rows[MOST];
  size_t count;
} model;

/* How many rows have a smaller key. */
static size_t rank_of(const model *of, int64_t key) {
  size_t from = 0, to = of->count;
  while (from < to) {
    size_t middle = (from + to) / 2;
    if (of->rows[middle].key < key) from = middle + 1;
    else to = middle;
  }
  return from;
}
static int64_t number_of(const row *of, size_t column) { return column == KEY ? of->key : column == FIRST ? of->first : of->second; }

/* What a transaction reads of a column, from a position on into a room, beside the array. */
static void reads(const char *what, pdt_txn *txn, const model *due, size_t column, uint64_t from, size_t room) {
  static int64_t numbers[MOST + 1];
  size_t count = room, wanted = from >= due->count ? 0 : due->count - from < room ? due->count - from : room;
  numbers[room] = 77;
  is(what, PDT_OK, pdt_ints(txn, column, from, numbers, &count));
  is("how many", (long long)wanted, (long long)count);
  is("nothing past the room", 77, numbers[room]);
  for (size_t i = 0; i < wanted && i < count; i++)
    if (numbers[i] != number_of(&due->rows[from + i], column)) {
      fprintf(stderr, "%s, column %zu, position %llu: ", what, column, (unsigned long long)(from + i));
      is("number", number_of(&due->rows[from + i], column), numbers[i]);
      return;
    }
}
/* The same of the column of booleans, and as pdt_cells has them, which reads no packed entry. */
static void reads_booleans(const char *what, pdt_txn *txn, const model *due, uint64_t from, size_t room) {
  static uint8_t booleans[MOST + 1];
  static int64_t cells[MOST];
  size_t count = room, many = room, wanted = from >= due->count ? 0 : due->count - from < room ? due->count - from : room;
  booleans[room] = 77;
  is(what, PDT_OK, pdt_bools(txn, TRUTH, from, booleans, &count));
  is(what, PDT_OK, pdt_cells(txn, TRUTH, from, cells, &many, NULL, 0, NULL));
  is("how many booleans", (long long)wanted, (long long)count);
  is("how many cells", (long long)wanted, (long long)many);
  is("nothing past the room", 77, booleans[room]);
  for (size_t i = 0; i < wanted && i < count && !failures; i++) {
    is(what, due->rows[from + i].boolean, booleans[i]);
    is("the cell of a boolean", booleans[i], cells[i]);
  }
}
static void reads_all(const char *what, pdt_txn *txn, const model *due) {
  static const size_t columns[] = {KEY, FIRST, SECOND};
  reads_booleans(what, txn, due, 0, MOST);
  for (int k = 0; k < 4; k++) reads_booleans(what, txn, due, drawn(due->count + 2), drawn(1300));
  for (size_t i = 0; i < 3; i++) {
    reads(what, txn, due, columns[i], 0, MOST);
    for (int k = 0; k < 4; k++) reads(what, txn, due, columns[i], drawn(due->count + 2), drawn(300));
  }
}

static pdt_txn *begun(pdt_table *table) {
  pdt_txn *txn = NULL;
  is("begin", PDT_OK, pdt_begin(table, &txn));
  return txn;
}

/* Draws a write, and does it on both. */
static void draw_write(pdt_txn *txn, model *on) {
  uint64_t kind = drawn(10);
  size_t at = on->count ? drawn(on->count) : 0;
  if (!on->count || kind < 3) {
    int64_t key = (int64_t)drawn(1000000), first = (int64_t)drawn(1u << 30) - (1 << 29), second = INT64_MIN + (int64_t)drawn(100);
    at = rank_of(on, key);
    if (on->count == MOST || (at < on->count && on->rows[at].key == key)) return;
    uint8_t boolean = (uint8_t)drawn(2);
    is("insert", PDT_OK, pdt_insert(txn, (int64_t[]){key, first, 3, second, boolean}, "Bob", 3));
    memmove(&on->rows[at + 1], &on->rows[at], (on->count - at) * sizeof(row));
    on->rows[at] = (row){key, first, second, boolean};
    on->count++;
  } else if (kind < 5) {
    is("delete", PDT_OK, pdt_delete(txn, &on->rows[at].key, NULL, 0));
    on->count--;
    memmove(&on->rows[at], &on->rows[at + 1], (on->count - at) * sizeof(row));
  } else if (kind < 7) {
    on->rows[at].first = (int64_t)drawn(1000);
    is("set", PDT_OK, pdt_set(txn, &on->rows[at].key, NULL, 0, FIRST, on->rows[at].first, NULL));
  } else if (kind < 8) {
    on->rows[at].second = INT64_MAX - (int64_t)drawn(1000);
    is("set", PDT_OK, pdt_set(txn, &on->rows[at].key, NULL, 0, SECOND, on->rows[at].second, NULL));
  } else if (kind < 9) {
    is("set", PDT_OK, pdt_set(txn, &on->rows[at].key, NULL, 0, NAME, 5, "Robin"));
  } else {
    on->rows[at].boolean = (uint8_t)drawn(2);
    is("set", PDT_OK, pdt_set(txn, &on->rows[at].key, NULL, 0, TRUTH, on->rows[at].boolean, NULL));
  }
}

static pdt_table *opened(model *as, size_t rows) {
  static int64_t keys[MOST], firsts[MOST], seconds[MOST];
  static uint64_t ends[MOST + 1];
  static uint8_t booleans[MOST], none[1];
  for (size_t i = 0; i < rows; i++) {
    as->rows[i] = (row){(int64_t)i * 90 + 5, (int64_t)i, -(int64_t)i, i % 3 == 0 || i / 1024 == 1};
    keys[i] = as->rows[i].key, firsts[i] = as->rows[i].first, seconds[i] = as->rows[i].second, booleans[i] = as->rows[i].boolean;
  }
  as->count = rows;
  pdt_column columns[] = {{"key", PDT_INT, rows, keys, NULL, NULL, 0},
                          {"first", PDT_INT, rows, firsts, NULL, NULL, 0},
                          {"name", PDT_TEXT, rows, NULL, ends, none, 0},
                          {"second", PDT_INT, rows, seconds, NULL, NULL, 0},
                          {"boolean", PDT_BOOL, rows, NULL, NULL, booleans, 0}};
  pdt_table *table = NULL;
  is("open", PDT_OK, pdt_open_columns(columns, 5, 1, NULL, NULL, &table));
  return table;
}

static uint64_t packs_of(pdt_table *table) {
  pdt_counts counts = {.size = sizeof counts};
  is("count", PDT_OK, pdt_count(table, &counts));
  return counts.packs;
}

/* ---- random writes */

static int takes_all(void *context, size_t column, const uint8_t *bytes, size_t len) {
  return (void)context, (void)column, (void)bytes, (void)len, 0;
}

static model now, old, open_now;

static void beside_the_array(size_t rows, int rounds, size_t most) {
  pdt_table *table = opened(&now, rows);
  pdt_txn *before = begun(table);
  old = now;
  for (int i = 0; i < rounds; i++) {
    pdt_txn *txn = begun(table);
    for (size_t k = drawn(most) + 1; k; k--) draw_write(txn, &now);
    reads_all("its own writes", txn, &now);
    is("commit", PDT_OK, pdt_commit(txn, NULL));
    if (drawn(3)) is("fold", PDT_OK, pdt_fold(table));
    if (!drawn(12)) is("checkpoint", PDT_OK, pdt_checkpoint_to(table, takes_all, NULL, NULL));
    txn = begun(table);
    reads_all("the newest table", txn, &now);
    open_now = now;
    for (size_t k = drawn(5); k; k--) draw_write(txn, &open_now);
    reads_all("a few writes over it", txn, &open_now);
    pdt_abort(txn);
    reads_all("an older table", before, &old);
    if (!drawn(4)) {
      pdt_abort(before);
      before = begun(table);
      old = now;
    }
  }
  pdt_abort(before);
  is("some folds packed", 1, packs_of(table) > 0);
  is("close", PDT_OK, pdt_close(table));
}

/* One row in ten is changed, and they are read before a fold and after it. */
static void one_in_ten(void) {
  pdt_table *table = opened(&now, 10000);
  pdt_txn *txn = begun(table);
  for (int i = 0; i < 1000; i++) draw_write(txn, &now);
  is("commit", PDT_OK, pdt_commit(txn, NULL));
  txn = begun(table);
  reads_all("one in ten, before the fold", txn, &now);
  pdt_abort(txn);
  is("fold", PDT_OK, pdt_fold(table));
  is("it packed", 1, (long long)packs_of(table));
  txn = begun(table);
  reads_all("one in ten, after the fold", txn, &now);
  pdt_abort(txn);
  is("close", PDT_OK, pdt_close(table));
}

/* ---- when a fold packs */

static void set_rows(pdt_table *table, int64_t from, int64_t to) {
  pdt_txn *txn = begun(table);
  for (int64_t i = from; i < to; i++) {
    int64_t key = i * 90 + 5;
    is("set", PDT_OK, pdt_set(txn, &key, NULL, 0, FIRST, -7, NULL));
    now.rows[i].first = -7;
  }
  is("commit", PDT_OK, pdt_commit(txn, NULL));
}
static void folds(const char *what, pdt_table *table, uint64_t packs) {
  is("fold", PDT_OK, pdt_fold(table));
  is(what, (long long)packs, (long long)packs_of(table));
  pdt_txn *txn = begun(table);
  reads_all(what, txn, &now);
  pdt_abort(txn);
}

static void when(void) {
  pdt_table *table = opened(&now, 3000);
  folds("nothing to fold", table, 0);
  set_rows(table, 0, 255);
  folds("255 entries are few", table, 0);
  set_rows(table, 255, 256);
  folds("256 entries", table, 1);
  set_rows(table, 256, 271);
  folds("15 of 271 are few", table, 1);
  set_rows(table, 271, 273);
  folds("17 of 273, though not at once", table, 2);
  folds("nothing came", table, 2);
  set_rows(table, 273, 289);
  folds("16 of 289 are few", table, 2);
  set_rows(table, 289, 600);
  folds("327 of 600", table, 3);
  is("checkpoint", PDT_OK, pdt_checkpoint_to(table, takes_all, NULL, NULL));
  is("none is needed there", 3, (long long)packs_of(table));
  set_rows(table, 0, 16);
  folds("16 entries, after the others went", table, 3);
  is("close", PDT_OK, pdt_close(table));
}

int main(void) {
  when();
  one_in_ten();
  beside_the_array(3000, 60, 400);
  beside_the_array(0, 40, 600);
  beside_the_array(16500, 12, 3000); /* of three blocks */
  if (failures) return fprintf(stderr, "packing: %d failed\n", failures), 1;
  printf("packing: passed\n");
  return 0;
}
