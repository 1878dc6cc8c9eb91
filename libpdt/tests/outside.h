/* A column that stays with the engine: a file of 64-bit numbers in the order of the stable table, which is mapped, and read by row runs
   beside the same column as the library keeps it. */
#include <fcntl.h>
#include <pdt.h>
#include <stdio.h>
#include <stdlib.h>
#include <string.h>
#include <sys/mman.h>
#include <sys/stat.h>
#include <unistd.h>

static int failures;
static void is(const char *what, long long wanted, long long found) {
  if (wanted == found) return;
  if (failures++ < 20) fprintf(stderr, "%s: wanted %lld, found %lld\n", what, wanted, found);
}

/* of the table: its key, the column as the library keeps it, another one, and the column that is the engine's. There the library has
   what was written since the opening, and no values of the rows of that */
enum { KEY, INSIDE, OTHER, OUTSIDE, WIDTH };
/* rows at the opening, whose keys are multiples of ten; the most that there are; and row runs that are asked for at once */
enum { ROWS = 3000, MANY = 6000, ROOM = 7 };

/* ---- the engine's column */

typedef struct {
  const int64_t *numbers;
  uint64_t rows;
} column_file;

static void close_synced(FILE *out) {
  is("flush a file", 0, fflush(out));
  is("sync a file", 0, fsync(fileno(out)));
  is("close a file", 0, fclose(out));
}
static void write_column(const char *file, const int64_t *numbers, uint64_t rows) {
  FILE *out = fopen(file, "wb");
  is("make the column", 1, out != NULL);
  if (!out) exit(1);
  is("write the column", (long long)rows, (long long)fwrite(numbers, sizeof *numbers, rows, out));
  close_synced(out);
}
static column_file map_column(const char *file) {
  struct stat found;
  int in = open(file, O_RDONLY);
  void *at = in < 0 || fstat(in, &found) ? MAP_FAILED : mmap(NULL, (size_t)found.st_size, PROT_READ, MAP_PRIVATE, in, 0);
  is("map the column", 1, at != MAP_FAILED);
  if (in >= 0) close(in);
  if (at == MAP_FAILED) return (column_file){NULL, 0};
  return (column_file){at, (uint64_t)found.st_size / sizeof(int64_t)};
}
static void unmap_column(column_file column) { munmap((void *)column.numbers, (size_t)column.rows * sizeof(int64_t)); }

/* ---- reads by position */

static int64_t cell(pdt_txn *txn, size_t column, uint64_t position) {
  int64_t number = 0;
  size_t count = 1;
  is("a cell", PDT_OK, pdt_ints(txn, column, position, &number, &count));
  is("one cell", 1, (long long)count);
  return number;
}
/* The number of the engine's column at a position where a layer changes or inserts the row. */
static int64_t changed_number(pdt_txn *txn, const pdt_row_run *part, column_file column) {
  uint8_t changed[WIDTH];
  is("changed", PDT_OK, pdt_changed(txn, part->position, changed, WIDTH));
  is("the key", part->source == PDT_INSERTED, changed[KEY]);
  return changed[OUTSIDE] ? cell(txn, OUTSIDE, part->position) : column.numbers[part->sid];
}
/* Reads the engine's column of the rows between two positions, and says how many there are. */
static uint64_t read_outside(pdt_txn *txn, column_file column, uint64_t from, uint64_t to, int64_t *numbers) {
  pdt_row_run parts[ROOM];
  uint64_t at = from;
  for (;;) {
    size_t count = ROOM;
    is("row runs", PDT_OK, pdt_row_runs(txn, at, to, parts, &count));
    for (size_t i = 0; i < count; i++) {
      is("one after the other", (long long)at, (long long)parts[i].position);
      if (parts[i].source == PDT_STABLE) {
        is("within the file", 1, parts[i].sid + parts[i].rows <= column.rows);
        memcpy(numbers + (at - from), column.numbers + parts[i].sid, (size_t)parts[i].rows * sizeof *numbers);
      } else {
        is("one row", 1, (long long)parts[i].rows);
        numbers[at - from] = changed_number(txn, &parts[i], column);
      }
      at += parts[i].rows;
    }
    if (count < ROOM) return at - from;
  }
}
/* The engine's column is the one that the library keeps. */
static void are_the_same(const char *what, pdt_txn *txn, column_file column) {
  static int64_t outside[MANY], inside[MANY];
  uint64_t rows = 0;
  size_t count = MANY;
  is(what, PDT_OK, pdt_rows(txn, &rows));
  is(what, PDT_OK, pdt_ints(txn, INSIDE, 0, inside, &count));
  is("rows by row runs", (long long)rows, (long long)read_outside(txn, column, 0, UINT64_MAX, outside));
  for (uint64_t i = 0; i < rows; i++) is(what, inside[i], outside[i]);
  is("a part", 300, (long long)read_outside(txn, column, 100, 400, outside));
  for (uint64_t i = 0; i < 300; i++) is(what, inside[100 + i], outside[i]);
}
static void newest_is(const char *what, pdt_table *table, column_file column) {
  pdt_txn *txn = NULL;
  is(what, PDT_OK, pdt_begin(table, &txn));
  are_the_same(what, txn, column);
  pdt_abort(txn);
}

/* ---- writes: both columns get the number */

static void set_number(pdt_txn *txn, int64_t key, int64_t number) {
  int code = pdt_set(txn, &key, NULL, 0, INSIDE, number, NULL);
  is("set both", code, pdt_set(txn, &key, NULL, 0, OUTSIDE, number, NULL));
}
/* Opens the table, and says which numbers are those of the engine's column. */
static pdt_table *opened(int64_t *numbers) {
  static int64_t keys[ROWS];
  for (int i = 0; i < ROWS; i++) {
    keys[i] = 10 * i;
    numbers[i] = keys[i] * keys[i] + 5;
  }
  pdt_column columns[WIDTH] = {
      {.name = "id", .type = PDT_INT, .rows = ROWS, .numbers = keys},
      {.name = "inside", .type = PDT_INT, .rows = ROWS, .numbers = numbers},
      {.name = "other", .type = PDT_INT, .rows = ROWS, .numbers = keys},
      {.name = "outside", .type = PDT_INT | PDT_OUTSIDE, .rows = ROWS},
  };
  pdt_table *table = NULL;
  is("open", PDT_OK, pdt_open_columns(columns, WIDTH, 1, NULL, NULL, &table));
  return table;
}
