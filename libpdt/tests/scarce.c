/* Each of the allocations of a run over a database is refused once, in turn: the call that wanted it says so, the same call then does
   its database transaction, what is found in the end is right each time, and no memory stays. And each of those of a commit over which the
   device fails: what was durable before is read as ever. The power stays on, so that nothing is really synced: on a slow disk that would
   take minutes. Linked with --wrap of malloc, calloc, realloc, free and fdatasync. */
#include "refusing.h"

#include <errno.h>
#include <pdt.h>
#include <stdio.h>
#include <stdlib.h>
#include <string.h>

static long answered;
/* Makes a call, and once more where memory was refused. */
#define CALL(call)                                                                           \
  do {                                                                                       \
    int code_ = (call);                                                                      \
    if (code_ == PDT_NOMEM) answered++, code_ = (call);                                      \
    if (code_ != PDT_OK) return fprintf(stderr, "%s: %s\n", #call, pdt_code_text(code_)), 1; \
  } while (0)

static const pdt_database_options options = {
    .size = sizeof options, .no_maintenance = true, .fold_entries = 3, .checkpoint_entries = 5, .journal_bytes = 400};
static const char csv[] = "id:int:key,qty:int,name:text\n1,0,a\n2,0,b\n3,0,c\n";
enum { COMMITS = 9 };

/* The sum of a column as a transaction sees it. */
static int sum_is(pdt_txn *txn, int64_t wanted) {
  int64_t qty[8], sum = 0;
  size_t count = 8;
  CALL(pdt_ints(txn, 1, 0, qty, &count));
  for (size_t i = 0; i < count; i++) sum += qty[i];
  return sum == wanted ? 0 : (fprintf(stderr, "a sum is %lld, not %lld\n", (long long)sum, (long long)wanted), 1);
}

/* A commit over both tables, and one over the first alone. */
static int commit(pdt_database *database, pdt_table *a, pdt_table *b, int64_t n) {
  pdt_dbtxn *dbtxn;
  pdt_txn *txn;
  uint64_t number = 0;
  int64_t one = 1, two = 2, row[] = {100 + n, 1, 1};
  CALL(pdt_dbtxn_begin(database, &dbtxn));
  CALL(pdt_dbtxn_on(dbtxn, a, &txn));
  CALL(pdt_set(txn, &one, NULL, 0, 1, n, NULL));
  CALL(pdt_dbtxn_on(dbtxn, b, &txn));
  CALL(pdt_set(txn, &two, NULL, 0, 1, n, NULL));
  if (n == COMMITS) CALL(pdt_insert(txn, row, "x", 1));
  CALL(pdt_dbtxn_commit(dbtxn, &number));
  if (number != (uint64_t)(2 * n - 1)) return fprintf(stderr, "number %llu\n", (unsigned long long)number), 1;
  CALL(pdt_begin(a, &txn));
  CALL(pdt_set(txn, &two, NULL, 0, 1, n, NULL));
  CALL(pdt_commit(txn, NULL));
  CALL(pdt_begin(a, &txn)); /* what was answered is seen */
  if (sum_is(txn, 2 * n)) return 1;
  pdt_abort(txn);
  pdt_pinned *pin;
  CALL(pdt_pin(b, &number, &pin));
  pdt_unpin(pin);
  if (number != (uint64_t)(2 * n - 1)) return fprintf(stderr, "a pin has number %llu\n", (unsigned long long)number), 1;
  return 0;
}

static int run(const char *folder) {
  pdt_database *database;
  pdt_table *a, *b, *c;
  pdt_txn *txn;
  pdt_layer *layer;
  CALL(pdt_database_open(folder, &options, &database, NULL));
  CALL(pdt_table_create_csv(database, "a", csv, sizeof csv - 1, NULL, NULL, &a));
  CALL(pdt_table_create_csv(database, "b", csv, sizeof csv - 1, NULL, NULL, &b));
  CALL(pdt_table_create_csv(database, "c", csv, sizeof csv - 1, NULL, NULL, &c));
  for (int64_t n = 1; n <= COMMITS; n++) {
    if (commit(database, a, b, n)) return 1;
    if (n % 3 == 0) CALL(pdt_maintain(database));
  }
  pdt_counts counts = {.size = sizeof counts};
  CALL(pdt_count(a, &counts)); /* none of what the library begins to share a version again that was refused before */
  if (counts.begins != 3 * COMMITS) return fprintf(stderr, "%llu transactions have begun\n", (unsigned long long)counts.begins), 1;
  CALL(pdt_changes(a, 2 * COMMITS, &layer));
  if (pdt_layer_size(layer) != 1) return fprintf(stderr, "%zu changes\n", pdt_layer_size(layer)), 1;
  pdt_layer_close(layer);
  CALL(pdt_table_drop(database, "c"));
  CALL(pdt_database_close(database));
  CALL(pdt_database_open(folder, &options, &database, NULL));
  CALL(pdt_table_open(database, "a", &a));
  CALL(pdt_table_open(database, "b", &b));
  if (pdt_table_open(database, "c", &c) != PDT_MISSING) return fprintf(stderr, "c is there\n"), 1;
  CALL(pdt_begin(a, &txn));
  if (sum_is(txn, 2 * COMMITS)) return 1;
  pdt_abort(txn);
  CALL(pdt_begin(b, &txn));
  if (sum_is(txn, COMMITS + 1)) return 1;
  pdt_abort(txn);
  CALL(pdt_database_close(database));
  return 0;
}

/* ---- where the device fails too */

static bool fails_syncs;
int __wrap_fdatasync(int file) {
  (void)file;
  return fails_syncs ? errno = EIO, -1 : 0;
}
int fsync(int file) { return (void)file, 0; } /* in place of the C library's */

/* A commit that isn't synced, of which one allocation is refused. It is open then, or unsure; what was durable is read either way. */
static int fail_both(const char *folder, long at) {
  pdt_database *database;
  pdt_table *a;
  pdt_txn *txn;
  pdt_pinned *pin;
  pdt_dbtxn *dbtxn;
  int64_t one = 1;
  uint64_t number = 0;
  CALL(pdt_database_open(folder, &options, &database, NULL));
  CALL(pdt_table_create_csv(database, "a", csv, sizeof csv - 1, NULL, NULL, &a));
  for (int64_t qty = 1; qty <= 2; qty++) {
    CALL(pdt_begin(a, &txn));
    CALL(pdt_set(txn, &one, NULL, 0, 1, qty, NULL));
    if (qty == 1) CALL(pdt_commit(txn, NULL));
  }
  fails_syncs = true;
  left = at;
  int code = pdt_commit(txn, NULL);
  left = -1;
  if (code == PDT_NOMEM) pdt_abort(txn);
  else if (code != PDT_OUTCOME_UNKNOWN) return fprintf(stderr, "a commit: %s\n", pdt_code_text(code)), 1;
  CALL(pdt_pin(a, &number, &pin));
  CALL(pdt_begin_at(pin, &txn));
  if (number != 1 || sum_is(txn, 1)) return fprintf(stderr, "a pin has number %llu\n", (unsigned long long)number), 1;
  pdt_abort(txn);
  pdt_unpin(pin);
  CALL(pdt_dbtxn_begin(database, &dbtxn));
  CALL(pdt_dbtxn_on(dbtxn, a, &txn));
  if (sum_is(txn, 1)) return 1;
  pdt_dbtxn_abort(dbtxn);
  CALL(pdt_begin(a, &txn));
  if (sum_is(txn, 1)) return 1;
  pdt_abort(txn);
  (void)pdt_database_close(database);
  fails_syncs = false;
  return 0;
}

/* A drop of which an allocation and all after it are refused. Nothing has changed then: commits on the other table go on. */
static int drop_refused(const char *folder, long at) {
  pdt_database *database;
  pdt_table *a, *b;
  pdt_txn *txn;
  int64_t one = 1;
  CALL(pdt_database_open(folder, &options, &database, NULL));
  CALL(pdt_table_create_csv(database, "a", csv, sizeof csv - 1, NULL, NULL, &a));
  CALL(pdt_table_create_csv(database, "b", csv, sizeof csv - 1, NULL, NULL, &b));
  refuses_on = 1, left = at;
  int code = pdt_table_drop(database, "b");
  refuses_on = 0, left = -1;
  CALL(pdt_begin(a, &txn));
  CALL(pdt_set(txn, &one, NULL, 0, 1, 7, NULL));
  CALL(pdt_commit(txn, NULL));
  if (code) {
    if (code != PDT_NOMEM) return fprintf(stderr, "a drop: %s\n", pdt_code_text(code)), 1;
    CALL(pdt_table_drop(database, "b"));
  }
  CALL(pdt_database_close(database));
  return 0;
}

int main(int argc, char **argv) {
  have_sentences();
  if (argc < 3) return 2;
  char folder[400], words[500];
  snprintf(folder, sizeof folder, "%s/scarce", argv[1]);
  snprintf(words, sizeof words, "rm -rf '%s'", folder);
  int every = atoi(argv[2]);
  long runs = 0;
  for (long at = 0;; at += every, runs++) {
    if (system(words)) return 1;
    long before = blocks, refusals = refused;
    left = at;
    if (run(folder)) return fprintf(stderr, "allocation %ld\n", at), 1;
    left = -1;
    if (blocks != before) return fprintf(stderr, "allocation %ld: %ld blocks stay\n", at, blocks - before), 1;
    if (refused == refusals) break; /* there was no such allocation */
  }
  for (long at = 0, refusals = -1; refused != refusals; at++, runs++) {
    if (system(words)) return 1;
    refusals = refused;
    if (fail_both(folder, at)) return fprintf(stderr, "allocation %ld of a commit that isn't synced\n", at), 1;
  }
  for (long at = 0, refusals = -1; refused != refusals; at++, runs++) {
    if (system(words)) return 1;
    refusals = refused;
    if (drop_refused(folder, at)) return fprintf(stderr, "allocation %ld of a drop, and all after it\n", at), 1;
  }
  printf("%ld runs, %ld refused, %ld answered\n", runs, refused, answered);
  return answered ? 0 : 1;
}
