/* While a commit is prepared its thread has the table's lock, whatever else it calls of what it may: a fold of another thread waits until
   the commit is installed. */
#define _DEFAULT_SOURCE
#include "events.h"
#include <pdt_arrow.h>
#include <pthread.h>
#include <stdatomic.h>
#include <stdlib.h>
#include <sys/stat.h>

static int failures;
static void is(const char *what, long long wanted, long long found) {
  if (wanted == found) return;
  failures++;
  fprintf(stderr, "%s: wanted %lld, found %lld\n", what, wanted, found);
}

static char folder[500];
static const char csv[] = "a:int:key,b:text\n1,x\n2,y\n";
static pdt_table *table;
static pdt_open_checkpoint *checkpoint; /* that began before the prepare */
static pdt_txn *other;                  /* and so did this one */

static pdt_txn *begun(void) {
  pdt_txn *txn = NULL;
  is("begin", PDT_OK, pdt_begin(table, &txn));
  return txn;
}

/* ---- the calls */

static void begin_and_abort(void) { pdt_abort(begun()); }
static void begin_at_a_pin(void) {
  pdt_pinned *pin = NULL;
  pdt_txn *txn = NULL;
  is("pin", PDT_OK, pdt_pin(table, NULL, &pin));
  is("begin at", PDT_OK, pdt_begin_at(pin, &txn));
  pdt_unpin(pin);
  pdt_abort(txn);
}
static void size(void) {
  pdt_sizes sizes;
  is("size", PDT_OK, pdt_size(table, &sizes));
}
static void count(void) {
  pdt_counts counts = {.size = sizeof counts};
  is("count", PDT_OK, pdt_count(table, &counts));
}
static void wait(void) { is("wait", PDT_MISSING, pdt_wait(table, 100, 1, NULL)); }
static void commit_nothing(void) { is("commit", PDT_OK, pdt_commit(begun(), NULL)); }
static void install_nothing(void) {
  pdt_txn *txn = begun();
  is("prepare", PDT_OK, pdt_prepare(txn, NULL));
  is("install", PDT_OK, pdt_install(txn));
}
static void read_checkpoint(void) {
  pdt_txn *txn = NULL;
  is("read", PDT_OK, pdt_checkpoint_read(checkpoint, &txn));
  pdt_abort(txn);
}
static void write_checkpoint(void) {
  static const char *const files[] = {"header.csv", "column-0.pdt", "column-1.pdt"};
  is("write", PDT_OK, pdt_checkpoint_write(checkpoint, folder));
  for (int i = 0; i < 3; i++) {
    char path[600];
    snprintf(path, sizeof path, "%s/%s", folder, files[i]);
    is("a file", 0, unlink(path));
  }
}
static void end_checkpoint(void) {
  pdt_checkpoint_end(checkpoint);
  checkpoint = NULL;
}
static void read_rows(void) {
  pdt_txn *txn = begun();
  uint64_t rows = 0;
  int64_t key = 1, row[2];
  char text[8];
  is("rows", PDT_OK, pdt_rows(txn, &rows));
  is("get", PDT_OK, pdt_get(txn, &key, NULL, 0, row, text, sizeof text, NULL));
  pdt_abort(txn);
}
static void stream(void) {
  pdt_pinned *pin = NULL;
  struct ArrowArrayStream out;
  struct ArrowArray batch;
  is("pin", PDT_OK, pdt_pin(table, NULL, &pin));
  is("stream", PDT_OK, pdt_arrow(pin, NULL, 0, 0, 2, 0, &out));
  is("a batch", 0, out.get_next(&out, &batch));
  batch.release(&batch);
  out.release(&out);
  pdt_unpin(pin);
}
static void are_refused(void) {
  pdt_txn *txn = begun();
  pdt_open_checkpoint *more = NULL;
  int64_t key = 2;
  is("set", PDT_OK, pdt_set(txn, &key, NULL, 0, 1, 1, "w"));
  is("a commit", PDT_MISUSE, pdt_commit(txn, NULL));
  is("a prepare", PDT_MISUSE, pdt_prepare(txn, NULL));
  is("a fold", PDT_MISUSE, pdt_fold(table));
  is("a trim", PDT_MISUSE, pdt_trim(table));
  is("a checkpoint", PDT_MISUSE, pdt_checkpoint_begin(table, NULL, &more));
  is("a close", PDT_MISUSE, pdt_close(table));
  pdt_abort(txn);
}
static void abort_other(void) {
  pdt_abort(other);
  other = NULL;
}

static const struct {
  const char *name;
  void (*call)(void);
} calls[] = {
    {"a begin and an abort", begin_and_abort},
    {"a begin at a pin", begin_at_a_pin},
    {"pdt_size", size},
    {"pdt_count", count},
    {"pdt_wait", wait},
    {"a commit of nothing", commit_nothing},
    {"an install of nothing", install_nothing},
    {"a read of a checkpoint", read_checkpoint},
    {"its write", write_checkpoint},
    {"its end", end_checkpoint},
    {"reads", read_rows},
    {"a stream", stream},
    {"calls that are refused", are_refused},
    {"the abort of another", abort_other},
};

/* ---- another thread */

static atomic_long folder_thread;
static atomic_bool is_folded;
static void *folds(void *context) {
  (void)context;
  folder_thread = this_thread();
  is("fold", PDT_OK, pdt_fold(table));
  is_folded = true;
  return NULL;
}

static void keeps_the_lock(size_t at) {
  is("open", PDT_OK, pdt_open_csv(csv, sizeof csv - 1, NULL, NULL, &table));
  is("a checkpoint", PDT_OK, pdt_checkpoint_begin(table, NULL, &checkpoint));
  pdt_txn *txn = begun();
  other = begun();
  int64_t key = 1;
  is("set", PDT_OK, pdt_set(txn, &key, NULL, 0, 1, 1, "z"));
  is("prepare", PDT_OK, pdt_prepare(txn, NULL));
  calls[at].call();
  folder_thread = 0;
  is_folded = false;
  pthread_t thread;
  is("thread", 0, pthread_create(&thread, NULL, folds, NULL));
  UNTIL(is_folded || (folder_thread && is_asleep(folder_thread)));
  is(calls[at].name, false, is_folded);
  is("install", PDT_OK, pdt_install(txn));
  pthread_join(thread, NULL);
  pdt_abort(other);
  pdt_checkpoint_end(checkpoint);
  is("close", PDT_OK, pdt_close(table));
}

int main(int argc, char **argv) {
  if (argc < 2) return 2;
  snprintf(folder, sizeof folder, "%s", argv[1]);
  for (size_t i = 0; i < sizeof calls / sizeof *calls; i++) keeps_the_lock(i);
  return failures ? 1 : 0;
}
