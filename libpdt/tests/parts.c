/* A commit in two parts, with a log that an engine writes in between, and a checkpoint that is written while others commit. */
#define _DEFAULT_SOURCE
#include "events.h"
#include <pdt.h>
#include <pthread.h>
#include <signal.h>
#include <stdio.h>
#include <stdlib.h>
#include <sys/wait.h>

static int failures;
static void is(const char *what, long long wanted, long long found) {
  if (wanted == found) return;
  failures++;
  fprintf(stderr, "%s: wanted %lld, found %lld\n", what, wanted, found);
}

static const char csv[] = "id:int:key,qty:int\n10,1\n20,2\n30,3\n";

static pdt_table *opened(void) {
  pdt_table *table = NULL;
  is("open", PDT_OK, pdt_open(csv, sizeof csv - 1, NULL, &table));
  return table;
}
static pdt_txn *begun(pdt_table *table) {
  pdt_txn *txn = NULL;
  is("begin", PDT_OK, pdt_begin(table, &txn));
  return txn;
}
static pdt_txn *setting(pdt_table *table, int64_t key, int64_t qty) {
  pdt_txn *txn = begun(table);
  is("set", PDT_OK, pdt_set(txn, &key, NULL, 0, 1, qty, NULL));
  return txn;
}
static long long qty_of(pdt_txn *txn, int64_t key) {
  int64_t row[2] = {0, -1};
  return pdt_get(txn, &key, NULL, 0, row, NULL, 0, NULL) ? -1 : row[1];
}
static void newest_is(const char *what, pdt_table *table, long long first, long long second, long long third) {
  pdt_txn *txn = begun(table);
  is(what, first, qty_of(txn, 10));
  is(what, second, qty_of(txn, 20));
  is(what, third, qty_of(txn, 30));
  pdt_abort(txn);
}
static pdt_sizes sizes_of(pdt_table *table) {
  pdt_sizes sizes = {0, 0, 0, 0};
  is("size", PDT_OK, pdt_size(table, &sizes));
  return sizes;
}
static void make_folder(char *folder, size_t len, const char *room, const char *name) {
  char words[600];
  snprintf(folder, len, "%s/%s", room, name);
  snprintf(words, sizeof words, "mkdir -p '%s'", folder);
  is("mkdir", 0, system(words));
}

/* ---- a commit in two parts */

/* What a thread may do while it has a commit of this table prepared, which is to be number 1. */
static void goes_on_beside(pdt_table *table, pdt_txn *prepared) {
  pdt_txn *txn = NULL;
  pdt_pinned *pin = NULL;
  pdt_counts counts = {.size = sizeof counts};
  uint64_t number = 77;
  newest_is("a begin, and the table before", table, 1, 2, 3);
  is("pin", PDT_OK, pdt_pin(table, &number, &pin));
  is("its number", 0, (long long)number);
  is("begin at it", PDT_OK, pdt_begin_at(pin, &txn));
  is("the table before", 1, qty_of(txn, 10));
  is("a write", PDT_OK, pdt_set(txn, &(int64_t){30}, NULL, 0, 1, 9, NULL));
  is("no commit", PDT_MISUSE, pdt_commit(txn, NULL));
  is("no second prepare", PDT_MISUSE, pdt_prepare(txn, NULL));
  pdt_abort(txn);
  pdt_unpin(pin);
  is("one that changes nothing ends", PDT_OK, pdt_commit(begun(table), &number));
  is("the number that it saw", 0, (long long)number);
  is("counts", PDT_OK, pdt_count(table, &counts));
  is("no commit yet", 0, (long long)counts.commits);
  is("a wait ends", PDT_MISSING, pdt_wait(table, 0, 1, &number));
  is("the newest number", 0, (long long)number);
  is("what it was begun at", PDT_OK, pdt_txn_version(prepared, &number));
  is("number", 0, (long long)number);
}

static void prepares(void) {
  pdt_table *table = opened(), *other = opened();
  pdt_txn *txn = setting(table, 10, 5), *late = setting(table, 10, 6), *third = setting(table, 20, 7);
  pdt_txn *elsewhere = setting(other, 10, 9);
  pdt_layer *read, *write;
  pdt_open_checkpoint *checkpoint;
  uint64_t number = 77;
  size_t level;
  int64_t key = 20;
  is("install what isn't prepared", PDT_MISUSE, pdt_install(txn));
  is("give up what isn't prepared", PDT_MISUSE, pdt_give_up(txn));
  is("prepare null", PDT_MISUSE, pdt_prepare(NULL, &number));
  is("install null", PDT_MISUSE, pdt_install(NULL));
  is("give up null", PDT_MISUSE, pdt_give_up(NULL));

  is("prepare", PDT_OK, pdt_prepare(txn, &number));
  is("its number", 1, (long long)number);
  is("nothing has changed", 0, (long long)sizes_of(table).commits);
  is("prepare again", PDT_MISUSE, pdt_prepare(txn, NULL));
  is("prepare another", PDT_MISUSE, pdt_prepare(late, NULL));
  is("commit it", PDT_MISUSE, pdt_commit(txn, NULL));
  is("commit another", PDT_MISUSE, pdt_commit(late, NULL));
  is("fold", PDT_MISUSE, pdt_fold(table));
  is("cut", PDT_MISUSE, pdt_trim(table));
  is("layers", PDT_MISUSE, pdt_layers(table, &read, &write));
  is("checkpoint", PDT_MISUSE, pdt_checkpoint(table, "/nowhere"));
  is("begin a checkpoint", PDT_MISUSE, pdt_checkpoint_begin(table, NULL, &checkpoint));
  is("changes", PDT_MISUSE, pdt_changes(table, 1, &read));
  is("null then", 1, read == NULL);
  is("close", PDT_MISUSE, pdt_close(table));
  goes_on_beside(table, txn);
  is("a write", PDT_MISUSE, pdt_set(txn, &key, NULL, 0, 1, 0, NULL));
  is("an insert", PDT_MISUSE, pdt_insert(txn, (int64_t[]){40, 4}, NULL, 0));
  is("a delete", PDT_MISUSE, pdt_delete(txn, &key, NULL, 0));
  is("a mark", PDT_MISUSE, pdt_savepoint(txn, &level));
  is("going back", PDT_MISUSE, pdt_rollback_to(txn, 0));
  is("a release", PDT_MISUSE, pdt_release(txn, 0));
  is("a read", 5, qty_of(txn, 10));
  is("a write of another", PDT_OK, pdt_set(late, &key, NULL, 0, 1, 8, NULL));
  is("another table", PDT_OK, pdt_commit(elsewhere, NULL));

  is("give up", PDT_OK, pdt_give_up(txn));
  is("once", PDT_MISUSE, pdt_give_up(txn));
  newest_is("nothing was done", table, 1, 2, 3);
  is("it goes on", PDT_OK, pdt_set(txn, &(int64_t){30}, NULL, 0, 1, 33, NULL));
  is("prepare", PDT_OK, pdt_prepare(txn, NULL));
  pdt_abort(third); /* while this thread has the lock */
  is("install", PDT_OK, pdt_install(txn));
  newest_is("all of it was done", table, 5, 2, 33);
  is("what conflicts is over", PDT_CONFLICT, pdt_prepare(late, &number));
  is("the newest number", 1, (long long)number);
  is("none is open", 0, (long long)sizes_of(table).open_transactions);

  txn = setting(table, 10, 99);
  is("prepare", PDT_OK, pdt_prepare(txn, NULL));
  pdt_abort(txn); /* gives up */
  newest_is("an abort leaves nothing", table, 5, 2, 33);
  is("close", PDT_OK, pdt_close(table));
  is("close", PDT_OK, pdt_close(other));
}

typedef struct {
  pdt_table *table;
  pdt_txn *prepared; /* by another thread */
  pdt_txn *open;     /* by another thread too */
  pthread_mutex_t lock;
  int has_ended;
} waiting;

static void *ends_anothers(void *arg) {
  waiting *w = arg;
  pdt_abort(w->open);
  is("install of another thread's", PDT_MISUSE, pdt_install(w->prepared));
  is("give up of another thread's", PDT_MISUSE, pdt_give_up(w->prepared));
  pdt_abort(w->prepared);
  return NULL;
}

static void *commits_too(void *arg) {
  waiting *w = arg;
  newest_is("a begin doesn't wait, and sees the table before", w->table, 1, 2, 3);
  pdt_txn *txn = setting(w->table, 20, 8);
  uint64_t number = 77;
  is("a commit waits", PDT_OK, pdt_commit(txn, &number));
  is("and comes after", 2, (long long)number);
  pthread_mutex_lock(&w->lock);
  w->has_ended = 1;
  pthread_mutex_unlock(&w->lock);
  return NULL;
}

static uint64_t waits_of(pdt_table *table) {
  pdt_counts counts = {.size = sizeof counts};
  is("count", PDT_OK, pdt_count(table, &counts));
  return counts.waits;
}

/* Another thread can't end what is prepared, and its abort of what isn't waits for nothing; its begin doesn't wait either, and its
   commit does. */
static void commits_wait(void) {
  waiting w = {opened(), NULL, NULL, PTHREAD_MUTEX_INITIALIZER, 0};
  w.prepared = setting(w.table, 10, 5);
  w.open = begun(w.table);
  pthread_t thread;
  is("prepare", PDT_OK, pdt_prepare(w.prepared, NULL));
  if (pthread_create(&thread, NULL, ends_anothers, &w)) exit(1);
  pthread_join(thread, NULL);
  pdt_sizes sizes;
  is("size", PDT_OK, pdt_size(w.table, &sizes));
  is("open are", 1, (long long)sizes.open_transactions);
  if (pthread_create(&thread, NULL, commits_too, &w)) exit(1);
  UNTIL(waits_of(w.table) > 0);
  is("it finds the lock taken", 1, (long long)waits_of(w.table));
  pthread_mutex_lock(&w.lock);
  is("it waits", 0, w.has_ended);
  pthread_mutex_unlock(&w.lock);
  is("install", PDT_OK, pdt_install(w.prepared));
  pthread_join(thread, NULL);
  newest_is("both are there", w.table, 5, 8, 3);
  is("close", PDT_OK, pdt_close(w.table));
}

/* ---- an engine with a log: a line for each commit, written between its parts */

static void engine(const char *folder, FILE *log) {
  pdt_table *table = opened();
  uint64_t number;
  if (pdt_checkpoint(table, folder)) _exit(2);
  for (int64_t i = 1; i <= 3; i++) {
    pdt_txn *txn = setting(table, 10 * i, 100 * i);
    if (pdt_prepare(txn, &number)) _exit(3);
    if (i == 3) raise(SIGKILL); /* it stops between the parts, before the line is written */
    fprintf(log, "%llu %lld %lld\n", (unsigned long long)number, (long long)(10 * i), (long long)(100 * i));
    fflush(log);
    if (pdt_install(txn)) _exit(4);
  }
}

static void recovers(const char *room) {
  char folder[512], path[600];
  make_folder(folder, sizeof folder, room, "logged");
  snprintf(path, sizeof path, "%s/log", folder);
  FILE *log = fopen(path, "w");
  pid_t child = fork();
  if (!child) engine(folder, log), _exit(5);
  fclose(log);
  int status = -1;
  waitpid(child, &status, 0);
  is("the engine stopped", SIGKILL, WIFSIGNALED(status) ? WTERMSIG(status) : -1);
  pdt_table *table = NULL;
  is("recover", PDT_OK, pdt_recover(folder, NULL, &table));
  newest_is("the checkpoint", table, 1, 2, 3);
  log = fopen(path, "r");
  unsigned long long logged;
  long long key, qty;
  uint64_t number = 0;
  while (log && fscanf(log, "%llu %lld %lld", &logged, &key, &qty) == 3) {
    is("commit", PDT_OK, pdt_commit(setting(table, key, qty), &number));
    is("the number that was logged", (long long)logged, (long long)number);
  }
  if (log) fclose(log);
  newest_is("what was logged is there, and no more", table, 100, 200, 3);
  pdt_close(table);
}

/* ---- a checkpoint in two parts */

enum { COMMITS = 200 };

static int takes_none(void *context, size_t column, const uint8_t *bytes, size_t len) {
  return (void)context, (void)column, (void)bytes, (void)len, 1;
}

static void *commits(void *arg) {
  pdt_table *table = arg;
  for (int64_t i = 1; i <= COMMITS; i++) is("commit", PDT_OK, pdt_commit(setting(table, 20, i), NULL));
  return NULL;
}

static void checkpoints(const char *room) {
  char folder[512], second[512];
  make_folder(folder, sizeof folder, room, "begun");
  make_folder(second, sizeof second, room, "second");
  pdt_table *table = opened(), *again = NULL;
  pdt_open_checkpoint *checkpoint = NULL;
  pthread_t thread;
  uint64_t number = 77;
  is("commit", PDT_OK, pdt_commit(setting(table, 10, 5), NULL));
  pdt_txn *open = setting(table, 30, 8);
  is("begin of null", PDT_MISUSE, pdt_checkpoint_begin(NULL, NULL, &checkpoint));
  is("begin to nowhere", PDT_MISUSE, pdt_checkpoint_begin(table, NULL, NULL));
  is("begin", PDT_OK, pdt_checkpoint_begin(table, &number, &checkpoint));
  is("its number", 1, (long long)number);
  is("it folds", 0, (long long)sizes_of(table).write_entries);
  is("install before it is written", PDT_MISUSE, pdt_checkpoint_install(checkpoint));

  if (pthread_create(&thread, NULL, commits, table)) exit(1);
  is("no folder", PDT_IO, pdt_checkpoint_write(checkpoint, "/nowhere/at/all"));
  is("write", PDT_OK, pdt_checkpoint_write(checkpoint, folder));
  is("once", PDT_MISUSE, pdt_checkpoint_write(checkpoint, second));
  pthread_join(thread, NULL);
  is("an open transaction commits", PDT_OK, pdt_commit(open, &number));
  is("its number", COMMITS + 2, (long long)number);
  open = setting(table, 20, -1);
  is("commit", PDT_OK, pdt_commit(setting(table, 10, 6), NULL));

  is("install", PDT_OK, pdt_checkpoint_install(checkpoint));
  is("once", PDT_MISUSE, pdt_checkpoint_install(checkpoint));
  is("close too soon", PDT_MISUSE, pdt_close(table));
  pdt_sizes sizes = sizes_of(table);
  is("nothing is left to move", 0, (long long)sizes.read_entries);
  is("the commits since the begin stay", 3, (long long)sizes.write_entries);
  is("commits", COMMITS + 3, (long long)sizes.commits);
  newest_is("no table has changed", table, 6, COMMITS, 8);
  is("what began before reads on", 5, qty_of(open, 10));
  is("and commits", PDT_OK, pdt_commit(open, NULL));
  newest_is("over the new stable table", table, 6, -1, 8);
  pdt_checkpoint_end(checkpoint);

  is("recover", PDT_OK, pdt_recover(folder, NULL, &again));
  newest_is("the table of the begin", again, 5, 2, 3);
  is("close", PDT_OK, pdt_close(again));
  is("a folder that has a table", PDT_OK, pdt_checkpoint_begin(table, NULL, &checkpoint));
  is("write", PDT_EXISTS, pdt_checkpoint_write(checkpoint, folder));
  is("close with a checkpoint alone begun", PDT_MISUSE, pdt_close(table));
  pdt_checkpoint_end(checkpoint);
  pdt_checkpoint_end(NULL);
  is("write null", PDT_MISUSE, pdt_checkpoint_write(NULL, folder));
  is("install null", PDT_MISUSE, pdt_checkpoint_install(NULL));
  is("close", PDT_OK, pdt_close(table));
}

/* What begins after an install reads the new stable table: no row of it is a change any more. */
static void reads_stable(const char *room) {
  char folder[512];
  make_folder(folder, sizeof folder, room, "stable");
  pdt_table *table = opened();
  pdt_open_checkpoint *checkpoint = NULL;
  pdt_int_span spans[3];
  is("commit", PDT_OK, pdt_commit(setting(table, 20, 5), NULL));
  is("begin", PDT_OK, pdt_checkpoint_begin(table, NULL, &checkpoint));
  is("write", PDT_OK, pdt_checkpoint_write(checkpoint, folder));
  for (int installed = 0; installed < 2; installed++) {
    if (installed) is("install", PDT_OK, pdt_checkpoint_install(checkpoint));
    pdt_txn *txn = begun(table);
    size_t count = 3;
    is("pieces", PDT_OK, pdt_int_spans(txn, 1, 0, 3, spans, &count, NULL));
    is("a row, a change and a row; or three rows that stand together", installed ? 1 : 3, (long long)count);
    pdt_abort(txn);
  }
  is("as they were committed", 1, spans[0].at && spans[0].at[0] == 1 && spans[0].at[1] == 5 && spans[0].at[2] == 3);
  pdt_checkpoint_end(checkpoint);
  is("close", PDT_OK, pdt_close(table));
}

/* A checkpoint that can't be written leaves the layers, and the other checkpoint, as they were. */
static void failed_checkpoints(const char *room) {
  char folder[512], full[512];
  make_folder(folder, sizeof folder, room, "beside");
  make_folder(full, sizeof full, room, "full");
  pdt_table *table = opened();
  pdt_open_checkpoint *checkpoint = NULL;
  is("commit", PDT_OK, pdt_commit(setting(table, 10, 5), NULL));
  is("begin", PDT_OK, pdt_checkpoint_begin(table, NULL, &checkpoint));
  is("write", PDT_OK, pdt_checkpoint_write(checkpoint, folder));
  is("commit", PDT_OK, pdt_commit(setting(table, 20, 6), NULL));
  is("no folder", PDT_IO, pdt_checkpoint(table, "/nowhere/at/all"));
  is("a folder that has a table", PDT_EXISTS, pdt_checkpoint(table, folder));
  is("a write that fails", PDT_DEVICE_FAILED, pdt_checkpoint_to(table, takes_none, NULL, NULL));
  pdt_sizes sizes = sizes_of(table);
  is("what a fold moves", 1, (long long)sizes.write_entries);
  is("what a checkpoint moves", 1, (long long)sizes.read_entries);
  is("the other one is installed", PDT_OK, pdt_checkpoint_install(checkpoint));
  pdt_checkpoint_end(checkpoint);
  is("what a checkpoint moves", 0, (long long)sizes_of(table).read_entries);
  newest_is("no table has changed", table, 5, 6, 3);
  is("checkpoint", PDT_OK, pdt_checkpoint(table, full));
  sizes = sizes_of(table);
  is("nothing is left to move", 0, (long long)(sizes.write_entries + sizes.read_entries));
  is("close", PDT_OK, pdt_close(table));
}

/* While its bytes are written a checkpoint's table is committed to, and the commits are in the stable table too. */
static int commits_meanwhile(void *context, size_t column, const uint8_t *bytes, size_t len) {
  pdt_table *table = context;
  (void)bytes, (void)len;
  return column == 0 ? pdt_commit(setting(table, 20, 9), NULL) : 0;
}
static void commits_in_the_middle(void) {
  pdt_table *table = opened();
  is("commit", PDT_OK, pdt_commit(setting(table, 10, 5), NULL));
  is("bytes", PDT_OK, pdt_checkpoint_to(table, commits_meanwhile, table, NULL));
  pdt_sizes sizes = sizes_of(table);
  is("commits", 2, (long long)sizes.commits);
  is("nothing is left to move", 0, (long long)(sizes.write_entries + sizes.read_entries));
  newest_is("no table has changed", table, 5, 9, 3);
  is("close", PDT_OK, pdt_close(table));
}

/* What comes between a begin and its install. */
static pdt_code fold(pdt_table *table, const char *folder) { return (void)folder, pdt_fold(table); }
static pdt_code cut(pdt_table *table, const char *folder) { return (void)folder, pdt_trim(table); }
static pdt_code commit(pdt_table *table, const char *folder) { return (void)folder, pdt_commit(setting(table, 20, 9), NULL); }
static pdt_code begin(pdt_table *table, const char *folder) {
  pdt_open_checkpoint *checkpoint;
  pdt_code code = pdt_checkpoint_begin(table, NULL, &checkpoint);
  return (void)folder, pdt_checkpoint_end(code ? NULL : checkpoint), code;
}
static pdt_code prepare(pdt_table *table, const char *folder) {
  pdt_txn *txn = setting(table, 20, 9);
  pdt_code code = pdt_prepare(txn, NULL);
  pdt_abort(txn);
  return (void)folder, code;
}

static int takes_all(void *context, size_t column, const uint8_t *bytes, size_t len) {
  return (void)context, (void)column, (void)bytes, (void)len, 0;
}

static pdt_code checkpoint_to(pdt_table *table, const char *folder) {
  return (void)folder, pdt_checkpoint_to(table, takes_all, NULL, NULL);
}

static void comes_between(const char *room) {
  static const struct {
    const char *name;
    pdt_code (*call)(pdt_table *, const char *);
    int code;
    long long qty;
  } cases[] = {
      {"fold", fold, PDT_SUPERSEDED, 2},
      {"checkpoint", pdt_checkpoint, PDT_SUPERSEDED, 2},
      {"another begin", begin, PDT_SUPERSEDED, 2},
      {"bytes", checkpoint_to, PDT_SUPERSEDED, 2},
      {"cut", cut, PDT_OK, 2},
      {"commit", commit, PDT_OK, 9},
      {"prepare", prepare, PDT_OK, 2},
  };
  for (size_t i = 0; i < sizeof cases / sizeof *cases; i++) {
    char folder[512], other[512], name[64];
    snprintf(name, sizeof name, "between-%zu", i);
    make_folder(folder, sizeof folder, room, name);
    snprintf(name, sizeof name, "beside-%zu", i);
    make_folder(other, sizeof other, room, name);
    pdt_table *table = opened(), *again = NULL;
    pdt_open_checkpoint *checkpoint = NULL;
    is("commit", PDT_OK, pdt_commit(setting(table, 10, 5), NULL));
    is("begin", PDT_OK, pdt_checkpoint_begin(table, NULL, &checkpoint));
    is("write", PDT_OK, pdt_checkpoint_write(checkpoint, folder));
    is(cases[i].name, PDT_OK, cases[i].call(table, other));
    is(cases[i].name, cases[i].code, pdt_checkpoint_install(checkpoint));
    newest_is(cases[i].name, table, 5, cases[i].qty, 3);
    pdt_checkpoint_end(checkpoint);
    newest_is(cases[i].name, table, 5, cases[i].qty, 3);
    is("recover", PDT_OK, pdt_recover(folder, NULL, &again));
    newest_is(cases[i].name, again, 5, 2, 3);
    pdt_close(again);
    is("close", PDT_OK, pdt_close(table));
  }
}

int main(int argc, char **argv) {
  prepares();
  commits_wait();
  if (argc > 1) recovers(argv[1]), checkpoints(argv[1]), reads_stable(argv[1]), comes_between(argv[1]), failed_checkpoints(argv[1]);
  commits_in_the_middle();
  return failures ? 1 : 0;
}
