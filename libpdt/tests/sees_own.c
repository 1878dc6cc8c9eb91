/* What a thread has committed its next begin sees, and the number of a commit is its own: several threads commit at once, each to a row of
   its own, so that the thread that has the lock makes the commits of those that wait. sees_own COMMITS */
#define _DEFAULT_SOURCE
#include <pdt.h>
#include <pthread.h>
#include <stdatomic.h>
#include <stdio.h>
#include <stdlib.h>

enum { THREADS = 8 };

static pdt_table *table;
static long due;
static atomic_uchar *taken; /* by the number of a commit */
static atomic_long wrong;

static void is(const char *what, long long wanted, long long found) {
  if (wanted == found || wrong++ > 10) return;
  fprintf(stderr, "%s: wanted %lld, found %lld\n", what, wanted, found);
}

static void *commits(void *context) {
  int64_t key = (int64_t)(size_t)context;
  uint64_t last = 0;
  for (long i = 1; i <= due && !wrong; i++) {
    pdt_txn *txn = NULL;
    int64_t row[2] = {0, 0};
    uint64_t begun = 0, number = 0;
    is("begin", PDT_OK, pdt_begin(table, &txn));
    is("begun", PDT_OK, pdt_txn_version(txn, &begun));
    is("sees its own commit's number", 1, begun >= last);
    is("get", PDT_OK, pdt_get(txn, &key, NULL, 0, row, NULL, 0, NULL));
    is("sees its own commit", i - 1, row[1]);
    is("set", PDT_OK, pdt_set(txn, &key, NULL, 0, 1, i, NULL));
    int code = pdt_commit(txn, &number);
    is("commit", PDT_OK, code);
    if (code) break;
    is("a number of its own", 0, atomic_fetch_add(&taken[number], 1));
    is("after the one before", 1, number > last);
    last = number;
  }
  return NULL;
}

int main(int argc, char **argv) {
  due = argc > 1 ? atol(argv[1]) : 0;
  if (due < 1) return fprintf(stderr, "sees_own COMMITS\n"), 2;
  char csv[200];
  int len = snprintf(csv, sizeof csv, "id:int:key,n:int\n");
  for (int i = 0; i < THREADS; i++) len += snprintf(csv + len, sizeof csv - (size_t)len, "%d,0\n", i);
  taken = calloc((size_t)due * THREADS + 1, sizeof *taken);
  is("open", PDT_OK, pdt_open_csv(csv, (size_t)len, NULL, NULL, &table));
  if (!table || !taken) return 1;
  pthread_t threads[THREADS];
  for (size_t i = 0; i < THREADS; i++) is("thread", 0, pthread_create(&threads[i], NULL, commits, (void *)i));
  for (size_t i = 0; i < THREADS; i++) pthread_join(threads[i], NULL);
  is("close", PDT_OK, pdt_close(table));
  free(taken);
  return wrong ? 1 : 0;
}
