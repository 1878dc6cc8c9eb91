/* Commits of threads that wait while another holds the lock: whoever gets it makes all of them. Each is answered as if it had been alone,
   a begin after its answer sees it, and none waits for ever. */
#define _POSIX_C_SOURCE 200809L
#include <pdt.h>
#include <pthread.h>
#include <stdio.h>
#include <string.h>
#include <time.h>

static int failures;
static void is(const char *what, long long wanted, long long found) {
  if (wanted == found) return;
  __atomic_add_fetch(&failures, 1, __ATOMIC_RELAXED);
  fprintf(stderr, "%s: wanted %lld, found %lld\n", what, wanted, found);
}

enum { THREADS = 12, ROWS = 8, ROUNDS = 40 };
static pdt_table *table;

static pdt_table *opened(size_t recent) {
  static const char csv[] = "id:int:key,qty:int\n0,0\n1,0\n2,0\n3,0\n4,0\n5,0\n6,0\n7,0\n";
  pdt_options options = {sizeof options, recent, 0, false};
  pdt_table *made = NULL;
  is("open", PDT_OK, pdt_open(csv, sizeof csv - 1, &options, &made));
  return made;
}

static pdt_txn *setting(int64_t key, int64_t qty) {
  pdt_txn *txn = NULL;
  is("begin", PDT_OK, pdt_begin(table, &txn));
  is("set", PDT_OK, pdt_set(txn, &key, NULL, 0, 1, qty, NULL));
  return txn;
}

static int64_t qty_of(int64_t key) {
  pdt_txn *txn = NULL;
  int64_t row[2] = {0, -1};
  is("begin", PDT_OK, pdt_begin(table, &txn));
  is("get", PDT_OK, pdt_get(txn, &key, NULL, 0, row, NULL, 0, NULL));
  pdt_abort(txn);
  return row[1];
}

/* What a thread commits, and what it is answered. */
typedef struct {
  pdt_txn *txn;
  int64_t key, qty;
  pdt_code code;
  uint64_t number;
} client;

static void *commits(void *arg) {
  client *c = arg;
  c->code = pdt_commit(c->txn, &c->number);
  if (c->code == PDT_OK) is("what it committed is there at once", c->qty, qty_of(c->key));
  return NULL;
}

static uint64_t waits(void) {
  pdt_counts counts = {.size = sizeof counts};
  is("count", PDT_OK, pdt_count(table, &counts));
  return counts.waits;
}

/* Twelve threads wait for a prepared commit: eight set a row of their own, four the row of another of them. */
static void meet(void) {
  client clients[THREADS];
  pthread_t threads[THREADS];
  pdt_sizes before, after;
  pdt_txn *holder = NULL, *other = setting(0, 50);
  int64_t row[] = {100, 0}, gone = 100;
  is("size", PDT_OK, pdt_size(table, &before));
  for (int i = 0; i < THREADS; i++) clients[i] = (client){setting(i % ROWS, i + 1), i % ROWS, i + 1, PDT_MISUSE, 0};
  is("begin", PDT_OK, pdt_begin(table, &holder));
  is("insert", PDT_OK, pdt_insert(holder, row, NULL, 0));
  is("prepare", PDT_OK, pdt_prepare(holder, NULL));
  uint64_t waited = waits();
  for (int i = 0; i < THREADS; i++)
    if (pthread_create(&threads[i], NULL, commits, &clients[i])) failures++;
  while (waits() < waited + THREADS) nanosleep(&(struct timespec){0, 1000000}, NULL);
  is("another commit of the thread that holds the lock", PDT_MISUSE, pdt_commit(other, NULL));
  is("install", PDT_OK, pdt_install(holder));
  pdt_abort(other);
  uint64_t seen = 0;
  int committed = 0;
  for (int i = 0; i < THREADS; i++) {
    pthread_join(threads[i], NULL);
    is("it is answered", 1, clients[i].code == PDT_OK || clients[i].code == PDT_CONFLICT);
    if (clients[i].code != PDT_OK) continue;
    committed++;
    is("a number of its own", 0, clients[i].number <= before.commits + 1 || clients[i].number > before.commits + 1 + ROWS);
    is("no other's", 0, seen >> (clients[i].number - before.commits) & 1);
    seen |= UINT64_C(1) << (clients[i].number - before.commits);
  }
  is("one of each row", ROWS, committed);
  for (int i = ROWS; i < THREADS; i++) is("one of two of a row", 1, (clients[i].code == PDT_OK) != (clients[i - ROWS].code == PDT_OK));
  is("size", PDT_OK, pdt_size(table, &after));
  is("commits", (long long)before.commits + 1 + ROWS, (long long)after.commits);
  is("open", 0, (long long)after.open_transactions);
  is("begin", PDT_OK, pdt_begin(table, &holder));
  is("delete", PDT_OK, pdt_delete(holder, &gone, NULL, 0));
  is("commit", PDT_OK, pdt_commit(holder, NULL));
}

/* One that waits while more commits are made than are kept is too old. */
static void too_old(void) {
  pdt_table *all = table;
  table = opened(1);
  client late = {setting(0, 7), 0, 7, PDT_MISUSE, 0};
  for (int i = 0; i < 2; i++) is("commit", PDT_OK, pdt_commit(setting(1, i), NULL));
  pdt_txn *holder = setting(2, 1);
  pthread_t thread;
  is("prepare", PDT_OK, pdt_prepare(holder, NULL));
  uint64_t waited = waits();
  if (pthread_create(&thread, NULL, commits, &late)) failures++;
  while (waits() == waited) nanosleep(&(struct timespec){0, 1000000}, NULL);
  is("install", PDT_OK, pdt_install(holder));
  pthread_join(thread, NULL);
  is("too old", PDT_TOO_OLD, late.code);
  is("nothing of it", 0, qty_of(0));
  is("close", PDT_OK, pdt_close(table));
  table = all;
}

int main(void) {
  table = opened(0);
  for (int round = 0; round < ROUNDS; round++) meet();
  too_old();
  is("close", PDT_OK, pdt_close(table));
  if (!failures) printf("together: passed\n");
  return failures != 0;
}
