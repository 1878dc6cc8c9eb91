/* What tests of chosen moments share: calls of the system that are held in one thread while others go on, or that fail; a database and
   threads over it. Who includes it is linked with --wrap of write, fdatasync, fsync, renameat and close. */
#ifndef HELD_H
#define HELD_H
#define _DEFAULT_SOURCE
#include "events.h"
#include <errno.h>
#include <fcntl.h>
#include <pdt.h>
#include <pthread.h>
#include <signal.h>
#include <stdatomic.h>
#include <stdio.h>
#include <stdlib.h>
#include <string.h>
#include <sys/stat.h>

static int failures;
static inline void is(const char *what, long long wanted, long long found) {
  if (wanted == found) return;
  failures++;
  fprintf(stderr, "%s: wanted %lld, found %lld\n", what, wanted, found);
}

/* ---- moments */

static inline bool comes(atomic_int *at, int wanted) {
  UNTIL(*at >= wanted);
  return *at >= wanted;
}

/* Where threads are held: the n-th that comes goes on once so many are let go. */
typedef struct {
  atomic_int holds, begun, let, gone;
} gate;
static gate syncs, writes, headers, renames, closes, fsyncs;
static atomic_int slow_headers, fails_syncs, fails_fsyncs, fails_renames;

static inline void hold(gate *at) {
  at->begun = at->let = at->gone = 0;
  at->holds = 1;
}
static inline void let(gate *at) {
  at->holds = 0;
  at->let = 1 << 20;
}
static inline void go_by(gate *at) {
  if (!at->holds) return;
  int number = ++at->begun;
  while (at->let < number) pass(1);
  at->gone++;
}

enum { TRIES = 8 };
static atomic_long renamer; /* the thread that has renamed last */
static atomic_int tries;    /* the renames that failed, and when the first of them did */
static double tried[TRIES];

ssize_t __real_write(int, const void *, size_t);
int __real_fsync(int);
int __real_renameat(int, const char *, int, const char *);
/* A header is written with the first frames of a file of the journal, which alone is opened to be appended to. */
static inline bool has_header(int file) {
  struct stat about;
  return !fstat(file, &about) && !about.st_size && fcntl(file, F_GETFL) & O_APPEND;
}
ssize_t __wrap_write(int file, const void *bytes, size_t len) {
  bool is_header = (slow_headers || headers.holds) && has_header(file);
  if (slow_headers && is_header) pass(30);
  if (is_header) go_by(&headers);
  go_by(&writes);
  return __real_write(file, bytes, len);
}
/* Which of this thread's next closes is held, or 0. */
static _Thread_local int holds_close;
int __real_close(int);
int __wrap_close(int file) {
  if (holds_close && !--holds_close) go_by(&closes);
  return __real_close(file);
}
int __wrap_fdatasync(int file) { /* the power stays on: nothing is really synced */
  (void)file;
  go_by(&syncs);
  if (!fails_syncs) return 0;
  fails_syncs--;
  errno = EIO;
  return -1;
}
int __wrap_fsync(int file) {
  (void)file;
  go_by(&fsyncs);
  if (!fails_fsyncs) return 0;
  fails_fsyncs--;
  errno = EIO;
  return -1;
}
int __wrap_renameat(int dir, const char *from, int to_dir, const char *to) {
  renamer = this_thread();
  go_by(&renames);
  if (!fails_renames) return __real_renameat(dir, from, to_dir, to);
  if (tries < TRIES) tried[tries] = seconds();
  tries++;
  return errno = EIO, -1;
}

/* ---- a database */

static const char *room;
static const char csv[] = "id:int:key,qty:int\n0,0\n1,0\n2,0\n3,0\n";
static inline pdt_database *opened(const char *name, const pdt_database_options *options, pdt_report *report) {
  char folder[500];
  snprintf(folder, sizeof folder, "%s/%s", room, name);
  pdt_database *database = NULL;
  int code = pdt_database_open(folder, options, &database, report);
  is("open", PDT_OK, code);
  if (!database) exit(1);
  return database;
}
static inline pdt_table *created(pdt_database *database, const char *name) {
  pdt_table *table = NULL;
  is("create", PDT_OK, pdt_table_create_csv(database, name, csv, sizeof csv - 1, NULL, NULL, &table));
  return table;
}
static inline void closed(pdt_database *database) { is("close", PDT_OK, pdt_database_close(database)); }
static inline pdt_txn *begun(pdt_table *table) {
  pdt_txn *txn = NULL;
  is("begin", PDT_OK, pdt_begin(table, &txn));
  return txn;
}
static inline void set(pdt_txn *txn, int64_t key, int64_t qty) { is("set", PDT_OK, pdt_set(txn, &key, NULL, 0, 1, qty, NULL)); }
static inline pdt_database_counts counted(pdt_database *database) {
  pdt_database_counts counts = {.size = sizeof counts};
  is("count", PDT_OK, pdt_database_count(database, &counts));
  return counts;
}

/* What a thread is asked for, and whether it has done it. */
typedef struct task {
  pthread_t thread;
  void *(*call)(struct task *);
  atomic_long thread_id;
  pdt_database *database;
  pdt_table *table;
  const char *name;
  int64_t key;
  pdt_txn *txn;
  pdt_dbtxn *dbtxn;
  uint64_t number;
  atomic_int code, ends, goes;
} task;
static inline void *runs(void *context) {
  task *one = context;
  one->thread_id = this_thread();
  return one->call(one);
}
static inline void start(task *one, void *(*call)(task *)) {
  one->ends = 0;
  one->thread_id = 0;
  one->call = call;
  is("thread", 0, pthread_create(&one->thread, NULL, runs, one));
}
/* Waits until it waits in the library, or has ended. It hasn't, where it has to wait. */
static inline void comes_to_wait(const char *what, task *one) {
  UNTIL(one->ends || is_asleep(one->thread_id));
  is(what, 0, one->ends);
}
static inline int joined(task *one) {
  pthread_join(one->thread, NULL);
  return one->code;
}
static inline void *commits(task *one) {
  pdt_txn *txn = begun(one->table);
  set(txn, one->key, 7);
  one->code = pdt_commit(txn, &one->number);
  one->ends = 1;
  return NULL;
}
static inline void *keeps_up(task *one) {
  one->code = pdt_maintain(one->database);
  one->ends = 1;
  return NULL;
}

#endif
