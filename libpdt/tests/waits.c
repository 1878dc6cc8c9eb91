/* Begins and pins wait for no commit: while one thread keeps a commit prepared another begins and pins a thousand times, never finds the
   table's lock taken, and sees the table before; after the install it sees the commit. */
#define _DEFAULT_SOURCE
#include "events.h"
#include <pdt.h>
#include <pthread.h>
#include <stdio.h>
#include <string.h>

static int failures;
static void is(const char *what, long long wanted, long long found) {
  if (wanted == found) return;
  failures++;
  fprintf(stderr, "%s: wanted %lld, found %lld\n", what, wanted, found);
}

enum { ROUNDS = 1000 };
static pdt_table *table;
static pthread_mutex_t lock = PTHREAD_MUTEX_INITIALIZER;
static pthread_cond_t changed = PTHREAD_COND_INITIALIZER;
static enum { AT_FIRST, IS_PREPARED, HAS_LOOKED, IS_INSTALLED } stage;
static void go_to(int next) {
  pthread_mutex_lock(&lock);
  if ((int)stage < next) stage = next;
  pthread_cond_broadcast(&changed);
  pthread_mutex_unlock(&lock);
}
/* For a minute at most: a begin that waits for the install ends then, and the test fails. */
static void wait_for(int wanted) {
  struct timespec end;
  int late = 0;
  clock_gettime(CLOCK_REALTIME, &end);
  end.tv_sec += LIMIT;
  pthread_mutex_lock(&lock);
  while ((int)stage < wanted && !late) late = pthread_cond_timedwait(&changed, &lock, &end);
  pthread_mutex_unlock(&lock);
  is("the other thread went on", 0, late);
}
static uint64_t waits(void) {
  pdt_counts counts = {.size = sizeof counts};
  is("count", PDT_OK, pdt_count(table, &counts));
  return counts.waits;
}

static int64_t qty_of(pdt_txn *txn) {
  int64_t row[2] = {0, -1};
  is("get", PDT_OK, pdt_get(txn, (int64_t[]){2}, NULL, 0, row, NULL, 0, NULL));
  return row[1];
}

/* One begin, one pin and one begin at it; each sees this quantity at this number. */
static void look(int64_t qty, uint64_t number) {
  pdt_txn *txn = NULL, *other = NULL;
  pdt_pinned *pin = NULL;
  uint64_t pinned = 77, begun = 77;
  is("begin", PDT_OK, pdt_begin(table, &txn));
  is("pin", PDT_OK, pdt_pin(table, &pinned, &pin));
  is("begin at", PDT_OK, pdt_begin_at(pin, &other));
  pdt_unpin(pin);
  is("begun", PDT_OK, pdt_txn_version(txn, &begun));
  is("its number", (long long)number, (long long)begun);
  is("the pin's", (long long)number, (long long)pinned);
  is("its table", (long long)qty, (long long)qty_of(txn));
  is("the pin's", (long long)qty, (long long)qty_of(other));
  pdt_abort(txn);
  pdt_abort(other);
}

static void *keeps_it_prepared(void *arg) {
  pdt_txn *txn = arg;
  uint64_t number = 0;
  is("prepare", PDT_OK, pdt_prepare(txn, &number));
  is("its number", 1, (long long)number);
  go_to(IS_PREPARED);
  look(2, 0); /* its own thread may, too */
  wait_for(HAS_LOOKED);
  is("install", PDT_OK, pdt_install(txn));
  go_to(IS_INSTALLED);
  return NULL;
}

int main(void) {
  static const char csv[] = "id:int:key,qty:int\n1,1\n2,2\n";
  pdt_txn *txn = NULL;
  pthread_t thread;
  is("open", PDT_OK, pdt_open(csv, strlen(csv), NULL, &table));
  is("begin", PDT_OK, pdt_begin(table, &txn));
  is("set", PDT_OK, pdt_set(txn, (int64_t[]){2}, NULL, 0, 1, 22, NULL));
  if (pthread_create(&thread, NULL, keeps_it_prepared, txn)) return 2;
  wait_for(IS_PREPARED);
  for (int i = 0; i < ROUNDS; i++) look(2, 0);
  go_to(HAS_LOOKED);
  wait_for(IS_INSTALLED);
  look(22, 1);
  pthread_join(thread, NULL);
  is("none has found the lock taken", 0, (long long)waits());
  is("close", PDT_OK, pdt_close(table));
  printf("%d rounds while a commit was prepared\n", ROUNDS);
  return failures ? 1 : 0;
}
