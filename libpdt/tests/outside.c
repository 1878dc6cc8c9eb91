/* A column that stays with the engine: a file of numbers by mmap, which is read by row runs beside the same column as the library
   keeps it, changed, written anew by the row runs of an open checkpoint while others commit, and mapped again.
   outside FOLDER: the folder is empty. */
#define _POSIX_C_SOURCE 200809L
#include "outside.h"

/* Deletes some rows, and puts others behind them. */
static void replace(pdt_txn *txn, int64_t seed) {
  for (int64_t key = 10 * (seed % 7 + 1); key < 10 * ROWS; key += 190)
    if (!pdt_delete(txn, &key, NULL, 0)) {
      int64_t row[WIDTH] = {key + 3, seed - key, seed, seed - key};
      is("insert", PDT_OK, pdt_insert(txn, row, NULL, 0));
    }
}
static void write_all(pdt_table *table, int64_t seed) {
  pdt_txn *txn = NULL;
  is("begin", PDT_OK, pdt_begin(table, &txn));
  for (int64_t key = 10 * seed; key < 10 * ROWS; key += 310) set_number(txn, key, seed - key);
  /* rows whose numbers stay, though another column is changed */
  for (int64_t key = 30 * seed; key < 10 * ROWS; key += 410) pdt_set(txn, &key, NULL, 0, OTHER, seed, NULL);
  replace(txn, seed);
  is("commit", PDT_OK, pdt_commit(txn, NULL));
}

/* A checkpoint of table and column: the column is written by the checkpoint's row runs, while another transaction commits. */
static column_file checkpoint(pdt_table *table, column_file old, const char *folder, const char *file) {
  static int64_t numbers[MANY];
  pdt_open_checkpoint *checkpoint = NULL;
  pdt_txn *txn = NULL;
  uint64_t commits = 0, seen = 0;
  is("begin a checkpoint", PDT_OK, pdt_checkpoint_begin(table, &commits, &checkpoint));
  write_all(table, 2);
  is("read it", PDT_OK, pdt_checkpoint_read(checkpoint, &txn));
  is("its number", PDT_OK, pdt_txn_version(txn, &seen));
  is("the table of the begin", (long long)commits, (long long)seen);
  are_the_same("the checkpoint", txn, old);
  write_column(file, numbers, read_outside(txn, old, 0, UINT64_MAX, numbers));
  pdt_abort(txn);
  is("write the table", PDT_OK, pdt_checkpoint_write(checkpoint, folder));
  is("install it", PDT_OK, pdt_checkpoint_install(checkpoint));
  pdt_checkpoint_end(checkpoint);
  return map_column(file);
}

int main(int argc, char **argv) {
  static int64_t numbers[ROWS];
  char first[300], second[300], folder[300];
  pdt_pinned *pin = NULL;
  pdt_txn *older = NULL, *txn = NULL;
  if (argc != 2) return 2;
  snprintf(first, sizeof first, "%s/first", argv[1]);
  snprintf(second, sizeof second, "%s/second", argv[1]);
  snprintf(folder, sizeof folder, "%s/table", argv[1]);
  is("mkdir", 0, mkdir(folder, 0777));
  pdt_table *table = opened(numbers);
  write_column(first, numbers, ROWS);
  column_file old = map_column(first);
  newest_is("as it was opened", table, old);
  write_all(table, 1);
  newest_is("after a commit", table, old);
  is("fold", PDT_OK, pdt_fold(table));
  newest_is("after a fold", table, old);
  is("begin", PDT_OK, pdt_begin(table, &txn));
  replace(txn, 4);
  are_the_same("with its own writes", txn, old);
  pdt_abort(txn);

  is("pin", PDT_OK, pdt_pin(table, NULL, &pin));
  column_file new = checkpoint(table, old, folder, second);
  newest_is("after the checkpoint, by the new file", table, new);
  is("begin at the pin", PDT_OK, pdt_begin_at(pin, &older));
  are_the_same("a pin from before, by the old file", older, old);
  is("past the end", PDT_MISSING, pdt_changed(older, UINT64_MAX, NULL, 0));
  pdt_abort(older);
  pdt_unpin(pin);
  write_all(table, 3);
  newest_is("after one more commit", table, new);

  is("no transaction", PDT_MISUSE, pdt_row_runs(NULL, 0, 1, NULL, &(size_t){0}));
  is("no checkpoint", PDT_MISUSE, pdt_checkpoint_read(NULL, &txn));
  unmap_column(old);
  unmap_column(new);
  is("close", PDT_OK, pdt_close(table));
  if (failures) return 1;
  return 0;
}
