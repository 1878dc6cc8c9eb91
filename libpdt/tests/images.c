/* Each allocation of an opening over columns, of checkpoints in one part and in two, and of recoveries is refused once, in turn:
   the call says so, made again it does its database transaction, and no memory stays. The power stays on, so that nothing is really synced:
   six thousand syncs take minutes on a slow disk. Linked with --wrap of malloc, calloc, realloc and free. */
#define _POSIX_C_SOURCE 200809L
#include "refusing.h"

#include <pdt.h>
#include <stdio.h>
#include <stdlib.h>
#include <string.h>
#include <unistd.h>

int fsync(int file) { return (void)file, 0; } /* in place of the C library's */

/* Makes a call, and once more where memory was refused. */
#define CALL(call)                                                                           \
  do {                                                                                       \
    int code_ = (call);                                                                      \
    if (code_ == PDT_NOMEM && refused) refused = false, answered++, code_ = (call);          \
    if (code_ != PDT_OK) return fprintf(stderr, "%s: %s\n", #call, pdt_code_text(code_)), 1; \
  } while (0)

enum { WIDTH = 3, ROWS = 1500, ROOM = 1 << 16 };
static long answered;
static int64_t ids[ROWS];
static uint64_t offsets[ROWS + 1];
static uint8_t texts[ROWS], booleans[ROWS];
static uint8_t image[WIDTH + 1][ROOM];
static size_t lens[WIDTH + 1];

static int take(void *context, size_t column, const uint8_t *bytes, size_t len) {
  size_t at = column + 1; /* the header is number 0 */
  (void)context;
  if (lens[at] + len > ROOM) return 1;
  memcpy(image[at] + lens[at], bytes, len);
  lens[at] += len;
  return 0;
}
static int checkpoint(pdt_table *table) {
  memset(lens, 0, sizeof lens);
  return pdt_checkpoint_to(table, take, NULL, NULL);
}

static int sum_is(pdt_table *table, int64_t wanted) {
  pdt_txn *txn;
  static int64_t numbers[ROWS + 1];
  int64_t sum = 0;
  size_t count = ROWS + 1;
  CALL(pdt_begin(table, &txn));
  CALL(pdt_ints(txn, 0, 0, numbers, &count));
  for (size_t row = 0; row < count; row++) sum += numbers[row];
  pdt_abort(txn);
  return sum == wanted && count == ROWS + 1 ? 0 : (fprintf(stderr, "%zu rows, sum %lld\n", count, (long long)sum), 1);
}

static void clear(const char *folder) {
  static const char *const files[] = {"header.csv", "column-0.pdt", "column-1.pdt", "column-2.pdt"};
  char path[4200];
  for (size_t i = 0; i < sizeof files / sizeof *files; i++) {
    snprintf(path, sizeof path, "%s/%s", folder, files[i]);
    unlink(path);
  }
}

static int run(const char *folder) {
  pdt_column columns[WIDTH] = {{"id", PDT_INT, ROWS, ids, NULL, NULL, 0},
                               {"name", PDT_TEXT, ROWS, NULL, offsets, texts, ROWS},
                               {"ok", PDT_BOOL, ROWS, NULL, NULL, booleans, 0}};
  pdt_table *table;
  pdt_txn *txn;
  CALL(pdt_open_columns(columns, WIDTH, 1, NULL, NULL, &table));
  CALL(pdt_begin(table, &txn));
  CALL(pdt_insert(txn, (int64_t[]){ROWS, 3, 1}, "new", 3));
  CALL(pdt_commit(txn, NULL));
  CALL(checkpoint(table));
  if (sum_is(table, (int64_t)ROWS * (ROWS + 1) / 2)) return 1;
  CALL(pdt_checkpoint(table, folder));
  pdt_open_checkpoint *checkpoint;
  CALL(pdt_begin(table, &txn));
  CALL(pdt_set(txn, (int64_t[]){0}, NULL, 0, 1, 3, "set"));
  CALL(pdt_commit(txn, NULL));
  CALL(pdt_checkpoint_begin(table, NULL, &checkpoint));
  clear(folder);
  CALL(pdt_checkpoint_write(checkpoint, folder));
  CALL(pdt_checkpoint_install(checkpoint));
  pdt_checkpoint_end(checkpoint);
  if (sum_is(table, (int64_t)ROWS * (ROWS + 1) / 2)) return 1;
  CALL(pdt_trim(table));
  CALL(pdt_close(table));
  pdt_bytes parts[WIDTH];
  for (size_t at = 0; at < WIDTH; at++) parts[at] = (pdt_bytes){image[at + 1], lens[at + 1]};
  CALL(pdt_recover_from(image[0], lens[0], parts, WIDTH, NULL, NULL, &table));
  if (sum_is(table, (int64_t)ROWS * (ROWS + 1) / 2)) return 1;
  CALL(pdt_close(table));
  CALL(pdt_recover(folder, NULL, &table));
  if (sum_is(table, (int64_t)ROWS * (ROWS + 1) / 2)) return 1;
  CALL(pdt_close(table));
  return 0;
}

int main(int argc, char **argv) {
  have_sentences();
  if (argc != 2) return fprintf(stderr, "images FOLDER: one that is empty\n"), 2;
  for (int row = 0; row < ROWS; row++) {
    ids[row] = row;
    texts[row] = (uint8_t)('a' + row % 26);
    offsets[row + 1] = (uint64_t)row + 1;
    booleans[row] = row % 2 == 0;
  }
  long n = 0;
  bool all = false;
  for (; !all; n++) {
    left = n;
    refused = false;
    if (run(argv[1])) return fprintf(stderr, "with allocation %ld refused\n", n), 1;
    all = left >= 0; /* there was none to refuse any more */
    left = -1;
    if (blocks) return fprintf(stderr, "with allocation %ld refused %ld blocks stay\n", n, blocks), 1;
    clear(argv[1]);
  }
  printf("%ld allocations refused, %ld answered\n", n - 1, answered);
  /* a vector that can't be grown in place is made anew, so that not each refusal is answered */
  return answered > (n - 1) * 4 / 5 ? 0 : 1;
}
