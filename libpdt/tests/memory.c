/* Each of the allocations of a run is refused once, in turn: the call that wanted it says so, the same call then does its
   database transaction, the last sum is right each time, and no memory stays. Linked with --wrap of malloc, calloc, realloc and free. */
#include "refusing.h"

#include <pdt.h>
#include <pthread.h>
#include <stdio.h>
#include <stdlib.h>
#include <string.h>

static long answered;
/* Makes a call, and once more where memory was refused. */
#define CALL(call)                                                                           \
  do {                                                                                       \
    int code_ = (call);                                                                      \
    if (code_ == PDT_NOMEM) answered++, code_ = (call);                                      \
    if (code_ != PDT_OK) return fprintf(stderr, "%s: %s\n", #call, pdt_code_text(code_)), 1; \
  } while (0)

/* The sum of column qty at a number, which a pin of it shows too. */
static int sum_of(pdt_txn *txn, int64_t *sum) {
  int64_t qty[64];
  size_t count = 64;
  if (pdt_ints(txn, 2, 0, qty, &count)) return 1;
  *sum = 0;
  for (size_t i = 0; i < count; i++) *sum += qty[i];
  return 0;
}

/* The table of a pin, and the newest one, whether it was shared or malloc refused that: each has the sum that is due. */
static int sees(pdt_table *table, pdt_pinned *pin, int64_t then, int64_t now) {
  pdt_txn *txn;
  pdt_pinned *newest;
  uint64_t number = 0;
  int64_t sum = 0;
  CALL(pdt_begin_at(pin, &txn));
  if (sum_of(txn, &sum) || sum != then) return fprintf(stderr, "at a pin %lld\n", (long long)sum), 1;
  pdt_abort(txn);
  CALL(pdt_begin(table, &txn));
  CALL(pdt_txn_version(txn, &number));
  if (sum_of(txn, &sum) || sum != now) return fprintf(stderr, "newest %lld, not %lld\n", (long long)sum, (long long)now), 1;
  pdt_abort(txn);
  CALL(pdt_pin(table, NULL, &newest));
  if (pdt_pinned_commits(newest) != number) return fprintf(stderr, "a pin of another number\n"), 1;
  CALL(pdt_begin_at(newest, &txn));
  pdt_unpin(newest);
  if (sum_of(txn, &sum) || sum != now) return fprintf(stderr, "newest at a pin %lld\n", (long long)sum), 1;
  pdt_abort(txn);
  return 0;
}

/* How many entries the commit of a number has in the change feed. */
static int changes_are(pdt_table *table, uint64_t number, size_t wanted) {
  pdt_layer *layer;
  CALL(pdt_changes(table, number, &layer));
  size_t found = pdt_layer_size(layer);
  pdt_layer_close(layer);
  return found == wanted ? 0 : (fprintf(stderr, "commit %llu has %zu changes\n", (unsigned long long)number, found), 1);
}

/* Pins, the change feed, counts and cuts: commit i sets a quantity to i, and inserts a row of 100. */
static int keeps(void) {
  static const char csv[] = "id:int:key,ok:bool,qty:int\n1,true,0\n3,false,0\n";
  pdt_table *table;
  pdt_txn *txn;
  pdt_pinned *pin;
  pdt_options options = {sizeof options, 8, 0, false};
  uint64_t pinned = 77;
  CALL(pdt_open(csv, sizeof csv - 1, &options, &table));
  CALL(pdt_pin(table, &pinned, &pin));
  if (pinned != 0) return fprintf(stderr, "pinned at %llu\n", (unsigned long long)pinned), 1;
  for (int64_t i = 1; i <= 10; i++) {
    CALL(pdt_begin(table, &txn));
    CALL(pdt_set(txn, (int64_t[]){3}, NULL, 0, 2, i, NULL));
    CALL(pdt_insert(txn, (int64_t[]){10 + i, i % 2, 100}, NULL, 0));
    if (i % 2) {
      CALL(pdt_commit(txn, NULL));
    } else {
      CALL(pdt_prepare(txn, NULL));
      CALL(pdt_install(txn));
    }
    if (i == 4) CALL(pdt_fold(table));
    if (sees(table, pin, 0, 100 * i + i)) return 1;
    uint8_t booleans[16];
    size_t count = 16, trues = 0;
    CALL(pdt_begin(table, &txn));
    CALL(pdt_bools(txn, 1, 0, booleans, &count));
    for (size_t at = 0; at < count; at++) trues += booleans[at];
    pdt_abort(txn);
    if (count != (size_t)i + 2 || trues != (size_t)(i + 1) / 2 + 1) return fprintf(stderr, "%zu booleans\n", count), 1;
    if (changes_are(table, (uint64_t)i, 2)) return 1;
  }
  pdt_counts counts = {.size = sizeof counts};
  CALL(pdt_count(table, &counts));
  if (counts.commits != 10 || counts.kept != 8 || counts.kept_entries != 16 || counts.pins != 1) return fprintf(stderr, "counts\n"), 1;
  CALL(pdt_trim(table));
  CALL(pdt_count(table, &counts));
  if (counts.kept || counts.kept_entries || counts.pins != 1) return fprintf(stderr, "counts after a trim\n"), 1;
  CALL(pdt_begin_at(pin, &txn));
  CALL(pdt_set(txn, (int64_t[]){1}, NULL, 0, 2, 9, NULL));
  pdt_code code = pdt_commit(txn, NULL);
  if (code == PDT_NOMEM) answered++, code = pdt_commit(txn, NULL);
  if (code != PDT_TOO_OLD) return fprintf(stderr, "at a pin before a trim: %s\n", pdt_code_text(code)), 1;
  if (sees(table, pin, 0, 1010)) return 1;
  pdt_unpin(pin);
  CALL(pdt_count(table, &counts));
  if (counts.pins || counts.oldest_pin) return fprintf(stderr, "a pin stays\n"), 1;
  CALL(pdt_close(table));
  return 0;
}

static int run(void) {
  static const char csv[] = "id:int:key,name:text,qty:int\n1,a,0\n3,b,0\n5,c,0\n";
  pdt_table *table;
  pdt_txn *txn;
  CALL(pdt_open(csv, sizeof csv - 1, NULL, &table));
  for (int64_t i = 0; i < 16; i++) {
    CALL(pdt_begin(table, &txn));
    CALL(pdt_insert(txn, (int64_t[]){2 * i + 100, 4, i}, "text", 4));
    CALL(pdt_set(txn, (int64_t[]){3}, NULL, 0, 2, i, NULL));
    CALL(pdt_set(txn, (int64_t[]){1}, NULL, 0, 1, 3, "new"));
    size_t level;
    CALL(pdt_savepoint(txn, &level));
    CALL(pdt_insert(txn, (int64_t[]){2 * i + 101, 4, 1000}, "text", 4));
    CALL(pdt_set(txn, (int64_t[]){3}, NULL, 0, 2, 1000, NULL));
    CALL(pdt_rollback_to(txn, level));
    CALL(pdt_delete(txn, (int64_t[]){1}, NULL, 0));
    CALL(pdt_rollback_to(txn, level));
    CALL(pdt_release(txn, level));
    if (i == 7) CALL(pdt_delete(txn, (int64_t[]){5}, NULL, 0));
    if (i % 3 == 2) {
      CALL(pdt_prepare(txn, NULL));
      CALL(pdt_install(txn));
    } else {
      CALL(pdt_commit(txn, NULL));
    }
    if (i % 4 == 3) CALL(pdt_fold(table));
  }
  CALL(pdt_begin(table, &txn));
  pdt_layer *read, *write, *own;
  CALL(pdt_layers(table, &read, &write));
  CALL(pdt_own_layer(txn, &own));
  size_t entries = pdt_layer_size(read) + pdt_layer_size(write) + pdt_layer_size(own);
  pdt_layer_close(read);
  pdt_layer_close(write);
  pdt_layer_close(own);
  int64_t qty[32], sum = 0;
  size_t count = 32;
  CALL(pdt_ints(txn, 2, 0, qty, &count));
  for (size_t i = 0; i < count; i++) sum += qty[i];
  pdt_abort(txn);
  if (count != 18 || sum != 120 + 15) return fprintf(stderr, "%zu rows, sum %lld\n", count, (long long)sum), 1;
  if (entries != 16 + 3) return fprintf(stderr, "%zu entries\n", entries), 1;
  CALL(pdt_close(table));
  return 0;
}

/* Runs it with each allocation refused in turn, or up to a number of them. */
static int refuses_each(int (*dbtxn)(void), long most) {
  refused = answered = 0;
  for (long n = 0; n < most; n++) {
    long before = refused;
    left = n;
    if (dbtxn()) return fprintf(stderr, "with allocation %ld refused\n", n), 1;
    left = -1;
    if (blocks) return fprintf(stderr, "with allocation %ld refused %ld blocks stay\n", n, blocks), 1;
    if (refused == before) break; /* there was none to refuse any more */
  }
  printf("%ld allocations refused, %ld answered\n", refused, answered);
  return 0;
}

/* A thread whose sentence finds no memory has that of the code, and a sentence of its own once there is some. */
static void *says_less_without_memory(void *to) {
  pdt_txn *txn = to;
  for (int more = 0; more < 2; more++) {
    left = more ? -1 : 0;
    int code = pdt_rollback_to(txn, 5);
    left = -1;
    const char *found = pdt_errmsg((pdt_code)code), *wanted = more ? "there is no savepoint of level 5" : pdt_code_text(PDT_MISSING);
    if (code == PDT_MISSING && !strcmp(found, wanted)) continue;
    fprintf(stderr, "code %d: %s\n", code, found);
    return to;
  }
  return NULL;
}
static int tells_a_new_thread(void) {
  static const char csv[] = "id:int:key\n1\n";
  pdt_table *table;
  pdt_txn *txn;
  pthread_t thread;
  void *failed = NULL;
  CALL(pdt_open(csv, sizeof csv - 1, NULL, &table));
  CALL(pdt_begin(table, &txn));
  long before = blocks, refusals = refused;
  if (pthread_create(&thread, NULL, says_less_without_memory, txn) || pthread_join(thread, &failed)) return 1;
  if (refused != refusals + 1) return fprintf(stderr, "its block wasn't asked for\n"), 1;
  if (blocks > before) return fprintf(stderr, "its block stays\n"), 1;
  pdt_abort(txn);
  CALL(pdt_close(table));
  return failed ? 1 : 0;
}

int main(int argc, char **argv) {
  have_sentences();
  long most = argc > 1 ? atol(argv[1]) : 400;
  if (tells_a_new_thread()) return 1;
  refused = answered = 0;
  if (refuses_each(run, most)) return 1;
  /* a node that can't be grown in place is made anew, and a version that can't be shared is shared by the next begin, so that not
     each refusal is answered */
  if (refused != most || answered <= most * 3 / 5) return 1;
  if (refuses_each(keeps, 100000)) return 1;
  return refused > 200 && answered > refused * 3 / 5 ? 0 : 1;
}
