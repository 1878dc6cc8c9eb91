/* A thread that is cancelled in pdt_wait leaves nothing behind: others begin, commit and wait, and the table is closed. */
#define _DEFAULT_SOURCE
#include "events.h"
#include <pdt.h>
#include <pthread.h>
#include <stdatomic.h>
#include <stdlib.h>

static int failures;
static void is(const char *what, long long wanted, long long found) {
  if (wanted == found) return;
  failures++;
  fprintf(stderr, "%s: wanted %lld, found %lld\n", what, wanted, found);
}

static pdt_table *table;
static atomic_long waiter;
static void *waits(void *context) {
  (void)context;
  waiter = this_thread();
  (void)pdt_wait(table, 100, 1000 * LIMIT, NULL);
  return NULL;
}

int main(void) {
  static const char csv[] = "id:int:key\n1\n";
  is("open", PDT_OK, pdt_open_csv(csv, sizeof csv - 1, NULL, NULL, &table));
  if (!table) return 1;
  pthread_t thread;
  for (int turn = 0; turn < 3; turn++) {
    waiter = 0;
    is("thread", 0, pthread_create(&thread, NULL, waits, NULL));
    UNTIL(waiter && is_asleep(waiter));
    is("a close while it waits", PDT_MISUSE, pdt_close(table));
    is("cancel", 0, pthread_cancel(thread));
    void *end = NULL;
    is("join", 0, pthread_join(thread, &end));
    is("cancelled", 1, end == PTHREAD_CANCELED);
    pdt_txn *txn = NULL;
    int64_t row[] = {10 + turn};
    is("begin", PDT_OK, pdt_begin(table, &txn));
    is("insert", PDT_OK, pdt_insert(txn, row, NULL, 0));
    is("commit", PDT_OK, pdt_commit(txn, NULL));
    is("wait", PDT_OK, pdt_wait(table, (uint64_t)turn, 0, NULL));
  }
  is("close", PDT_OK, pdt_close(table));
  return failures ? 1 : 0;
}
