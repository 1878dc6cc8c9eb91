/* The change feed: what each commit changed, by position. Random histories are replayed from it alone into an array of rows, and compared
   with the table that a pin of each number shows. Then which numbers are kept, and how threads wait for the next one. */
#define _DEFAULT_SOURCE
#include "events.h"
#include <pdt.h>
#include <pthread.h>
#include <stdatomic.h>
#include <stdio.h>
#include <stdlib.h>
#include <string.h>

static pthread_mutex_t failing = PTHREAD_MUTEX_INITIALIZER;
static int failures;
static unsigned long long history; /* the seed of the one that is run */
static void is(const char *what, long long wanted, long long found) {
  if (wanted == found) return;
  pthread_mutex_lock(&failing);
  if (++failures < 20) fprintf(stderr, "history %llu: %s: wanted %lld, found %lld\n", history, what, wanted, found);
  pthread_mutex_unlock(&failing);
}

static uint64_t seed;
static uint64_t bits(void) { /* SplitMix64 */
  uint64_t x = seed += 0x9e3779b97f4a7c15u;
  x = (x ^ (x >> 30)) * 0xbf58476d1ce4e5b9u;
  x = (x ^ (x >> 27)) * 0x94d049bb133111ebu;
  return x ^ (x >> 31);
}
static int below(int end) { return (int)(bits() % (uint64_t)end); }

/* ---- tables as arrays of rows: a key, a text, a boolean and a quantity */

enum { WIDTH = 4, TEXT = 12, KEYS = 60, MOST = 200, COMMITS = 250, HISTORIES = 20 };
typedef struct {
  int64_t cells[WIDTH]; /* of the text its length */
  char text[TEXT];
} row;
typedef struct {
  row rows[MOST];
  size_t count;
} model;

static row drawn_row(int64_t key) {
  row r = {{key, below(TEXT), below(2), below(1000) - 500}, ""};
  for (int i = 0; i < r.cells[1]; i++) r.text[i] = (char)('a' + below(26));
  return r;
}

static void same_row(const char *what, const row *wanted, const row *found) {
  for (int i = 0; i < WIDTH; i++) is(what, (long long)wanted->cells[i], (long long)found->cells[i]);
  is(what, 0, memcmp(wanted->text, found->text, (size_t)wanted->cells[1]));
}

/* Applies the entries of a commit, in their order: the RID of each is where its row stands by then. */
static void replay(model *t, pdt_layer *changes) {
  long long grown = 0;
  for (size_t i = 0; i < pdt_layer_size(changes); i++) {
    pdt_entry entry;
    row r = {{0}, ""};
    is("an entry", PDT_OK, pdt_entry_at(changes, i, &entry, r.cells, r.text, TEXT));
    is("its RID", (long long)entry.sid + grown, (long long)entry.rid);
    bool fits = entry.rid < t->count || (entry.kind == PDT_INSERT && entry.rid == t->count);
    is("inside the table", 1, fits);
    if (!fits) return;
    row *at = &t->rows[entry.rid];
    switch (entry.kind) {
      case PDT_INSERT:
        memmove(at + 1, at, (t->count - entry.rid) * sizeof *at);
        t->count++, grown++;
        *at = r;
        break;
      case PDT_DELETE:
        is("the key of what it deletes", (long long)at->cells[0], (long long)r.cells[0]);
        t->count--, grown--;
        memmove(at, at + 1, (t->count - entry.rid) * sizeof *at);
        break;
      default:
        is("a set", PDT_MODIFY, entry.kind);
        at->cells[entry.column] = r.cells[0];
        if (entry.column == 1) memcpy(at->text, r.text, TEXT);
    }
  }
}

static void shows(const char *what, pdt_txn *txn, const model *t) {
  uint64_t rows = 0;
  is(what, PDT_OK, pdt_rows(txn, &rows));
  is(what, (long long)t->count, (long long)rows);
  for (size_t at = 0; at < t->count && at < rows; at++) {
    row r = {{0}, ""};
    is(what, PDT_OK, pdt_row_at(txn, at, r.cells, r.text, TEXT, NULL));
    same_row(what, &t->rows[at], &r);
  }
  uint8_t booleans[MOST];
  size_t count = MOST;
  is(what, PDT_OK, pdt_bools(txn, 2, 0, booleans, &count));
  is(what, (long long)t->count, (long long)count);
  for (size_t at = 0; at < count && at < t->count; at++) is(what, (long long)t->rows[at].cells[2], booleans[at]);
}

/* ---- histories */

static pdt_table *opened(model *t, size_t recent) {
  char text[MOST * 64];
  int len = sprintf(text, "id:int:key,name:text,ok:bool,qty:int\n");
  t->count = 0;
  for (int key = 0; key < KEYS; key += 2) {
    row r = t->rows[t->count++] = drawn_row(key);
    const char *boolean = r.cells[2] ? "true" : "false";
    len += sprintf(text + len, "%d,%.*s,%s,%lld\n", key, (int)r.cells[1], r.text, boolean, (long long)r.cells[3]);
  }
  pdt_options options = {sizeof options, recent, 0, false};
  pdt_table *table = NULL;
  is("open", PDT_OK, pdt_open(text, (size_t)len, &options, &table));
  return table;
}

static void write_some(pdt_txn *txn) {
  for (int writes = 1 + below(6); writes; writes--) {
    row r = drawn_row(below(KEYS));
    int column = 1 + below(3), way = below(8);
    if (way < 3) pdt_insert(txn, r.cells, r.text, (size_t)r.cells[1]);
    else if (way < 5) pdt_delete(txn, r.cells, NULL, 0);
    else pdt_set(txn, r.cells, NULL, 0, (size_t)column, r.cells[column], r.text);
  }
}

static int takes_all(void *context, size_t column, const uint8_t *bytes, size_t len) {
  return (void)context, (void)column, (void)bytes, (void)len, 0;
}
static void maintenance(pdt_table *table) {
  pdt_open_checkpoint *checkpoint;
  switch (below(12)) {
    case 0: is("fold", PDT_OK, pdt_fold(table)); return;
    case 1: is("checkpoint", PDT_OK, pdt_checkpoint_to(table, takes_all, NULL, NULL)); return;
    case 2: is("begin a checkpoint", PDT_OK, pdt_checkpoint_begin(table, NULL, &checkpoint)), pdt_checkpoint_end(checkpoint);
  }
}

typedef struct {
  pdt_pinned *pins[COMMITS + 1];
  pdt_layer *changes[COMMITS + 1];
  int count, rebased; /* commits, and those that began at an older table */
} past;

/* Runs a history: each table is pinned, and the changes of each commit are asked for at once, or at the end where all are kept. */
static void run(pdt_table *table, past *p, int recent, bool at_once) {
  pdt_txn *open[3] = {NULL, NULL, NULL};
  is("pin", PDT_OK, pdt_pin(table, NULL, &p->pins[0]));
  while (p->count < COMMITS) {
    pdt_txn **txn = &open[below(3)];
    maintenance(table);
    if (!*txn) {
      bool old = below(3) == 0;
      is("begin", PDT_OK, old ? pdt_begin_at(p->pins[p->count - below(p->count < 5 ? p->count + 1 : 5)], txn) : pdt_begin(table, txn));
      write_some(*txn);
      continue;
    }
    uint64_t began = 0, number = 0;
    pdt_layer *own = NULL;
    is("begun", PDT_OK, pdt_txn_version(*txn, &began));
    is("own layer", PDT_OK, pdt_own_layer(*txn, &own));
    size_t entries = pdt_layer_size(own);
    pdt_layer_close(own);
    pdt_code code = pdt_commit(*txn, &number);
    *txn = NULL;
    bool too_old = entries && p->count - (int)began > recent;
    is("too old", too_old, code == PDT_TOO_OLD);
    if (code == PDT_CONFLICT || too_old || !entries) continue;
    is("commit", PDT_OK, code);
    is("its number", ++p->count, (long long)number);
    p->rebased += began + 1 < number;
    is("pin", PDT_OK, pdt_pin(table, &number, &p->pins[p->count]));
    is("its number", p->count, (long long)number);
    if (at_once) is("changes", PDT_OK, pdt_changes(table, (uint64_t)p->count, &p->changes[p->count]));
  }
  for (int i = 0; i < 3; i++) pdt_abort(open[i]);
  for (int i = 1; i <= COMMITS && !at_once; i++) is("changes", PDT_OK, pdt_changes(table, (uint64_t)i, &p->changes[i]));
}

static int replays(bool at_once) {
  static model t;
  static past p;
  memset(&p, 0, sizeof p);
  int recent = at_once ? 5 + below(30) : COMMITS;
  pdt_table *table = opened(&t, (size_t)recent);
  run(table, &p, recent, at_once);
  for (int i = 0; i <= COMMITS; i++) {
    pdt_txn *txn = NULL;
    if (i) replay(&t, p.changes[i]);
    is("begin at", PDT_OK, pdt_begin_at(p.pins[i], &txn));
    shows("the table of a number", txn, &t);
    pdt_abort(txn);
  }
  for (int i = 0; i <= COMMITS; i++) pdt_unpin(p.pins[i]);
  is("close", PDT_OK, pdt_close(table)); /* layers outlive it */
  is("changes that outlive the table", 1, pdt_layer_size(p.changes[COMMITS]) > 0);
  for (int i = 1; i <= COMMITS; i++) pdt_layer_close(p.changes[i]);
  return p.rebased;
}

/* ---- what is kept */

static uint64_t commit_one(pdt_table *table, int64_t qty) {
  pdt_txn *txn = NULL;
  uint64_t number = 0;
  is("begin", PDT_OK, pdt_begin(table, &txn));
  is("set", PDT_OK, pdt_set(txn, (int64_t[]){2}, NULL, 0, 3, qty, NULL));
  is("commit", PDT_OK, pdt_commit(txn, &number));
  return number;
}

/* Just the changes of the numbers from first to last are there, and each is a set to ten times its number. */
static void kept_are(pdt_table *table, uint64_t first, uint64_t last) {
  for (uint64_t number = 0; number < last + 5; number++) {
    pdt_layer *layer = (pdt_layer *)&table;
    bool kept = first <= number && number <= last;
    is("changes", kept ? PDT_OK : PDT_MISSING, pdt_changes(table, number, &layer));
    is("null where they aren't there", kept, layer != NULL);
    if (!layer) continue;
    pdt_entry entry;
    int64_t numbers[WIDTH];
    is("one entry", 1, (long long)pdt_layer_size(layer));
    is("its entry", PDT_OK, pdt_entry_at(layer, 0, &entry, numbers, NULL, 0));
    is("a set", PDT_MODIFY, entry.kind);
    is("of the second row", 1, (long long)entry.rid);
    is("to ten times the number", 10 * (long long)number, (long long)numbers[0]);
    pdt_layer_close(layer);
  }
  pdt_layer *layer = (pdt_layer *)&table;
  is("changes past all numbers", PDT_MISSING, pdt_changes(table, UINT64_MAX, &layer));
  is("null then", 1, layer == NULL);
}

static void keeps(void) {
  static model t;
  pdt_table *table = opened(&t, 6);
  pdt_layer *layer = (pdt_layer *)&t;
  kept_are(table, 1, 0);
  for (int i = 1; i <= 20; i++) {
    is("numbers", i, (long long)commit_one(table, 10 * i));
    if (i == 4) is("fold", PDT_OK, pdt_fold(table));
    if (i == 9) is("checkpoint", PDT_OK, pdt_checkpoint_to(table, takes_all, NULL, NULL));
    kept_are(table, i <= 6 ? 1 : (uint64_t)i - 5, (uint64_t)i);
  }
  is("cut", PDT_OK, pdt_trim(table));
  kept_are(table, 21, 20);
  for (int i = 21; i <= 30; i++) {
    commit_one(table, 10 * i);
    kept_are(table, i <= 26 ? 21 : (uint64_t)i - 5, (uint64_t)i);
  }
  is("changes of null", PDT_MISUSE, pdt_changes(NULL, 1, &layer));
  is("null then", 1, layer == NULL);
  is("changes to nowhere", PDT_MISUSE, pdt_changes(table, 30, NULL));
  is("close", PDT_OK, pdt_close(table));
}

/* ---- waits */

enum { LONG = 90000 }; /* milliseconds: no wait that is woken lasts so long */
typedef struct {
  pdt_table *table;
  uint64_t after, milliseconds, found;
  pdt_code code;
  double began, ended;
  atomic_long thread; /* once its wait comes next */
  atomic_bool has_ended;
} waiter;
static void *waits(void *arg) {
  waiter *w = arg;
  w->began = seconds();
  w->thread = this_thread();
  w->code = pdt_wait(w->table, w->after, w->milliseconds, &w->found);
  w->ended = seconds();
  w->has_ended = true;
  return NULL;
}
static void waits_are(const char *what, waiter *w, void (*meanwhile)(pdt_table *), pdt_code code, uint64_t found) {
  pthread_t thread;
  bool is_waiting = false;
  if (pthread_create(&thread, NULL, waits, w)) exit(2);
  UNTIL((is_waiting = w->has_ended || is_asleep(w->thread)));
  is("it waits", true, is_waiting);
  meanwhile(w->table);
  pthread_join(thread, NULL);
  is(what, code, w->code);
  is(what, (long long)found, (long long)w->found);
}
static void commits(pdt_table *table) { commit_one(table, 5); }
static void folds(pdt_table *table) { is("fold", PDT_OK, pdt_fold(table)); }
static void installs(pdt_table *table) {
  pdt_txn *txn = NULL;
  is("begin", PDT_OK, pdt_begin(table, &txn));
  is("set", PDT_OK, pdt_set(txn, (int64_t[]){4}, NULL, 0, 3, 1, NULL));
  is("prepare", PDT_OK, pdt_prepare(txn, NULL));
  pass(50);
  is("install", PDT_OK, pdt_install(txn));
}
static void closes(pdt_table *table) {
  is("close while one waits", PDT_MISUSE, pdt_close(table));
  commit_one(table, 6);
}
static double second; /* when the second of two commits was asked for */
static void twice(pdt_table *table) { commit_one(table, 7), pass(100), second = seconds(), commit_one(table, 8); }

static void waiting(void) {
  static model t;
  pdt_table *table = opened(&t, 0);
  uint64_t number = 77;
  for (int i = 0; i < 20; i++) { /* for more than a second, so that one of them ends in another second than it began in */
    double began = seconds(), took;
    number = 77;
    is("a wait for what isn't there", PDT_MISSING, pdt_wait(table, 0, 60, &number));
    took = seconds() - began;
    is("in its time", 1, took >= 0.06 && took < LIMIT);
    is("the newest number", 0, (long long)number);
  }
  waiter w = {.table = table, .after = 0, .milliseconds = LONG};
  waits_are("a commit wakes", &w, commits, PDT_OK, 1);
  is("at once", 1, w.ended - w.began < LIMIT);
  w = (waiter){.table = table, .after = 1, .milliseconds = UINT64_MAX};
  waits_are("an install wakes one that would wait for ever", &w, installs, PDT_OK, 2);
  w = (waiter){.table = table, .after = 2, .milliseconds = 1000};
  waits_are("a fold doesn't wake", &w, folds, PDT_MISSING, 2);
  is("to the end", 1, w.ended - w.began >= 1);
  w = (waiter){.table = table, .after = 2, .milliseconds = LONG};
  waits_are("a table stays while one waits", &w, closes, PDT_OK, 3);
  w = (waiter){.table = table, .after = 4, .milliseconds = LONG};
  waits_are("the second commit wakes", &w, twice, PDT_OK, 5);
  is("and not the first", 1, w.ended >= second);
  is("what is there is told at once", PDT_OK, pdt_wait(table, 4, 0, NULL));
  is("what is there is told at once", PDT_OK, pdt_wait(table, 0, LONG, &number));
  is("with the newest number", 5, (long long)number);
  is("what isn't too", PDT_MISSING, pdt_wait(table, 5, 0, &number));
  is("past all numbers", PDT_MISSING, pdt_wait(table, UINT64_MAX, 1, NULL));
  is("a wait of null", PDT_MISUSE, pdt_wait(NULL, 0, 1, &number));
  is("close", PDT_OK, pdt_close(table));
}

/* ---- a thread that follows: it has the table by the change feed, while others commit */

enum { FOLLOWED = 2000 };
typedef struct {
  pdt_table *table;
  model t;
} follower;
static void *follows(void *arg) {
  follower *f = arg;
  uint64_t done = 0, newest = 0;
  while (done < FOLLOWED) {
    pdt_code code = pdt_wait(f->table, done, LONG, &newest);
    is("a commit comes", PDT_OK, code);
    if (code) return NULL;
    for (; done < newest; done++) {
      pdt_layer *changes = NULL;
      is("changes", PDT_OK, pdt_changes(f->table, done + 1, &changes));
      replay(&f->t, changes);
      pdt_layer_close(changes);
    }
  }
  return NULL;
}
static void followed(void) {
  static follower f;
  f.table = opened(&f.t, 0);
  pthread_t thread;
  if (pthread_create(&thread, NULL, follows, &f)) exit(2);
  uint64_t number = 0;
  while (number < FOLLOWED) {
    pdt_txn *txn = NULL;
    is("begin", PDT_OK, pdt_begin(f.table, &txn));
    write_some(txn);
    is("commit", PDT_OK, pdt_commit(txn, &number));
    if (below(50) == 0) maintenance(f.table);
  }
  pthread_join(thread, NULL);
  pdt_txn *txn = NULL;
  is("begin", PDT_OK, pdt_begin(f.table, &txn));
  shows("what was followed", txn, &f.t);
  pdt_abort(txn);
  is("close", PDT_OK, pdt_close(f.table));
}

int main(void) {
  int rebased = 0;
  for (history = 1; history <= HISTORIES; history++) {
    seed = history;
    rebased += replays(history % 2);
  }
  is("commits that began at an older table", 1, rebased > 10 * HISTORIES);
  keeps();
  waiting();
  followed();
  printf("%d histories of %d commits, %d of them begun at an older table\n", HISTORIES, COMMITS, rebased);
  return failures ? 1 : 0;
}
