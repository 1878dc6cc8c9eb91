/* Two threads for each rule of the table of threads in docs/ENGINES.md, so that a sanitizer of threads sees each: what one does
   while the other goes on, and that it sees what it must. */
#define _DEFAULT_SOURCE
#include "events.h"
#include <pdt.h>
#include <pthread.h>
#include <stdio.h>
#include <stdlib.h>
#include <string.h>
#include <sys/stat.h>
#include <sys/wait.h>

enum { ROWS = 3000, ROUNDS = 200 };
static pthread_mutex_t failing = PTHREAD_MUTEX_INITIALIZER;
static int failures;
static void is(const char *what, long long wanted, long long found) {
  if (wanted == found) return;
  pthread_mutex_lock(&failing);
  failures++;
  fprintf(stderr, "%s: wanted %lld, found %lld\n", what, wanted, found);
  pthread_mutex_unlock(&failing);
}
static char room[256];

/* Row i is i, "n" and i, i. */
static pdt_table *opened(void) {
  size_t len = 0;
  char *text = malloc(ROWS * 32 + 64);
  if (!text) exit(2);
  len += (size_t)sprintf(text, "id:int:key,name:text,qty:int\n");
  for (int i = 0; i < ROWS; i++) len += (size_t)sprintf(text + len, "%d,n%d,%d\n", i, i, i);
  pdt_table *table = NULL;
  is("open", PDT_OK, pdt_open(text, len, NULL, &table));
  free(text);
  return table;
}
static pdt_txn *begun(pdt_table *table) {
  pdt_txn *txn = NULL;
  is("begin", PDT_OK, pdt_begin(table, &txn));
  return txn;
}
static int set(pdt_txn *txn, int64_t key, int64_t qty) { return pdt_set(txn, &key, NULL, 0, 2, qty, NULL); }
static long long qty_of(pdt_txn *txn, int64_t key) {
  int64_t row[3] = {0, 0, -1};
  char text[16];
  is("get", PDT_OK, pdt_get(txn, &key, NULL, 0, row, text, sizeof text, NULL));
  return row[2];
}

/* What another thread does once. */
static void beside(void *(*dbtxn)(void *), void *with, void (*meanwhile)(void *)) {
  pthread_t thread;
  if (pthread_create(&thread, NULL, dbtxn, with)) exit(2);
  if (meanwhile) meanwhile(with);
  pthread_join(thread, NULL);
}

/* ---- a table: any threads at once */

typedef struct {
  pdt_table *table;
  pdt_txn *txn;
  pdt_pinned *pin;
  pdt_open_checkpoint *checkpoint;
  pdt_layer *layer;
  const pdt_int_span *spans;
  const char *const *texts;
  const int64_t *lens;
  size_t count;
  pthread_mutex_t lock;
  bool has_ended;
} shared;

static void *uses_table(void *with) {
  pdt_table *table = ((shared *)with)->table;
  for (int i = 0; i < ROUNDS; i++) {
    pdt_sizes sizes;
    pdt_layer *read, *write;
    pdt_open_checkpoint *checkpoint;
    is("columns", 3, (long long)pdt_columns(table));
    is("key columns", 1, (long long)pdt_key_columns(table));
    is("type", PDT_TEXT, pdt_column_type(table, 1));
    is("name", 0, strcmp("qty", pdt_column_name(table, 2)));
    is("size", PDT_OK, pdt_size(table, &sizes));
    pdt_txn *txn = begun(table);
    set(txn, i, -i);
    if (i % 3) pdt_abort(txn);
    else pdt_commit(txn, NULL);
    pdt_pinned *pin = NULL;
    pdt_layer *changes = NULL;
    pdt_counts counts = {.size = sizeof counts};
    uint64_t number = 0;
    is("pin", PDT_OK, pdt_pin(table, &number, &pin));
    is("begin at", PDT_OK, pdt_begin_at(pin, &txn));
    pdt_unpin(pin);
    pdt_abort(txn);
    int code = pdt_changes(table, number, &changes);
    is("changes", true, code == PDT_OK || code == PDT_MISSING);
    pdt_layer_close(changes);
    is("counts", PDT_OK, pdt_count(table, &counts));
    is("a pin each at most", true, counts.pins <= 1);
    code = pdt_wait(table, number, 0, &number);
    is("wait", true, code == PDT_OK || code == PDT_MISSING);
    is("layers", PDT_OK, pdt_layers(table, &read, &write));
    pdt_layer_close(read), pdt_layer_close(write);
    if (i % 20 == 0) is("fold", PDT_OK, pdt_fold(table));
    if (i % 20 == 5) is("cut", PDT_OK, pdt_trim(table));
    is("begin a checkpoint", PDT_OK, pdt_checkpoint_begin(table, NULL, &checkpoint));
    pdt_checkpoint_end(checkpoint);
  }
  return NULL;
}
static void uses_table_too(void *with) { uses_table(with); }

/* ---- a pin: any threads begin at it at once, while others commit; a transaction that began at it is one thread's */

static void *begins_at(void *with) {
  shared *s = with;
  for (int i = 0; i < ROUNDS; i++) {
    pdt_txn *txn = NULL;
    is("begin at", PDT_OK, pdt_begin_at(s->pin, &txn));
    is("what was there", i, qty_of(txn, i));
    is("set", PDT_OK, set(txn, i, -7));
    is("number", 0, (long long)pdt_pinned_commits(s->pin));
    pdt_abort(txn);
  }
  return NULL;
}

/* ---- transactions: one thread each, side by side; and one after the other */

static void *uses_own(void *with) {
  shared *s = with;
  pdt_txn *txn = begun(s->table);
  for (int i = 0; i < ROUNDS; i++) is("set", PDT_OK, set(txn, i, 7)), is("its own write", 7, qty_of(txn, i));
  pdt_abort(txn);
  return NULL;
}
static void uses_own_too(void *with) { uses_own(with); }
static void *goes_on(void *with) {
  shared *s = with;
  is("what another thread wrote", -5, qty_of(s->txn, 5));
  is("set", PDT_OK, set(s->txn, 6, -6));
  is("commit", PDT_OK, pdt_commit(s->txn, NULL));
  return NULL;
}

/* ---- a prepared commit: it stays on its thread, and others wait */

static void *asks_sizes(void *with) {
  shared *s = with;
  pdt_sizes sizes = {0, 0, 0, 0};
  is("size", PDT_OK, pdt_size(s->table, &sizes)); /* waits for the install */
  is("it sees the commit", 1, (long long)sizes.commits);
  pthread_mutex_lock(&s->lock);
  s->has_ended = true;
  pthread_mutex_unlock(&s->lock);
  return NULL;
}
static uint64_t waits_of(pdt_table *table) {
  pdt_counts counts = {.size = sizeof counts};
  is("count", PDT_OK, pdt_count(table, &counts));
  return counts.waits;
}
static void installs(void *with) {
  shared *s = with;
  UNTIL(waits_of(s->table) > 0);
  is("it finds the lock taken", 1, (long long)waits_of(s->table));
  pthread_mutex_lock(&s->lock);
  is("it waits", 0, s->has_ended);
  pthread_mutex_unlock(&s->lock);
  is("install", PDT_OK, pdt_install(s->txn));
}

/* ---- a checkpoint in parts: each part on a thread of its own */

static void *writes_it(void *with) {
  char folder[320];
  snprintf(folder, sizeof folder, "%s/rules", room);
  is("mkdir", 0, mkdir(folder, 0777));
  is("write", PDT_OK, pdt_checkpoint_write(((shared *)with)->checkpoint, folder));
  return NULL;
}
static void *installs_it(void *with) { return is("install", PDT_OK, pdt_checkpoint_install(((shared *)with)->checkpoint)), NULL; }
static void *ends_it(void *with) { return pdt_checkpoint_end(((shared *)with)->checkpoint), NULL; }
static void commits(void *with) {
  shared *s = with;
  for (int i = 0; i < 50; i++) {
    pdt_txn *txn = begun(s->table);
    is("set", PDT_OK, set(txn, i, 50 + i));
    is("commit", PDT_OK, pdt_commit(txn, NULL));
  }
}

/* ---- what is lent: any thread, while others commit, fold and checkpoint */

static void *reads_lent(void *with) {
  shared *s = with;
  for (int round = 0; round < 20; round++) {
    int64_t sum = 0;
    for (size_t i = 0; i < s->count; i++)
      for (uint64_t k = 0; k < s->spans[i].count; k++) sum += s->spans[i].at ? s->spans[i].at[k] : s->spans[i].number;
    is("the sum of the pieces", (long long)ROWS * (ROWS - 1) / 2 + 1000, sum);
    for (int i = 0; i < ROWS; i++) {
      char wanted[16];
      is("a text", (long long)sprintf(wanted, "n%d", i), s->lens[i]);
      is("its bytes", 0, memcmp(wanted, s->texts[i], (size_t)s->lens[i]));
    }
  }
  return NULL;
}
static void changes_all(void *with) {
  shared *s = with;
  commits(with);
  is("fold", PDT_OK, pdt_fold(s->table));
  is("cut", PDT_OK, pdt_trim(s->table));
  pdt_open_checkpoint *checkpoint;
  is("begin a checkpoint", PDT_OK, pdt_checkpoint_begin(s->table, NULL, &checkpoint));
  pdt_checkpoint_end(checkpoint);
}
static void begins_and_changes(void *with) {
  changes_all(with);
  begins_at(with);
}
static void lent(shared *s) {
  static pdt_int_span spans[ROWS];
  static const char *texts[ROWS];
  static int64_t lens[ROWS];
  size_t names = ROWS;
  uint64_t rows = 0;
  s->txn = begun(s->table);
  is("set", PDT_OK, set(s->txn, 10, qty_of(s->txn, 10) + 1000));
  s->count = ROWS;
  is("pieces", PDT_OK, pdt_int_spans(s->txn, 2, 0, ROWS, spans, &s->count, &rows));
  is("rows", ROWS, (long long)rows);
  is("texts", PDT_OK, pdt_texts(s->txn, 1, 0, texts, lens, &names));
  is("how many", ROWS, (long long)names);
  s->spans = spans, s->texts = texts, s->lens = lens;
  beside(reads_lent, s, changes_all);
  pdt_abort(s->txn);
}

/* ---- a layer: one thread, past the end of its transaction and of its table */

static void *reads_layer(void *with) {
  pdt_layer *layer = ((shared *)with)->layer;
  pdt_entry entry;
  int64_t numbers[3];
  is("entries", 1, (long long)pdt_layer_size(layer));
  is("the entry", PDT_OK, pdt_entry_at(layer, 0, &entry, numbers, NULL, 0));
  is("its number", -4, (long long)numbers[0]);
  pdt_layer_close(layer);
  return NULL;
}

/* ---- a child of fork is told that it has nothing prepared */

static void forks(void) {
  pdt_table *table = opened();
  pdt_txn *txn = begun(table);
  is("set", PDT_OK, set(txn, 1, 5));
  is("prepare", PDT_OK, pdt_prepare(txn, NULL));
  pdt_txn *idle = begun(table);
  is("prepare what changes nothing", PDT_OK, pdt_prepare(idle, NULL));
  pid_t child = fork();
  if (!child) {
    int bad = pdt_install(txn) != PDT_MISUSE || pdt_give_up(txn) != PDT_MISUSE;
    bad |= pdt_install(idle) != PDT_MISUSE || pdt_give_up(idle) != PDT_MISUSE;
    pdt_abort(txn); /* does nothing */
    pdt_abort(idle);
    _exit(bad);
  }
  int status = -1;
  waitpid(child, &status, 0);
  is("a child of fork", 0, status);
  is("install what changes nothing", PDT_OK, pdt_install(idle));
  is("install", PDT_OK, pdt_install(txn));
  is("close", PDT_OK, pdt_close(table));
}

int main(int argc, char **argv) {
  if (argc != 2) return fprintf(stderr, "rules FOLDER: one that is empty\n"), 2;
  snprintf(room, sizeof room, "%s", argv[1]);
  shared s = {.table = opened(), .lock = PTHREAD_MUTEX_INITIALIZER};
  beside(uses_table, &s, uses_table_too);
  is("close", PDT_OK, pdt_close(s.table));
  s.table = opened();
  beside(uses_own, &s, uses_own_too);
  s.txn = begun(s.table);
  is("set", PDT_OK, set(s.txn, 5, -5));
  is("prepare", PDT_OK, pdt_prepare(s.txn, NULL));
  is("give up", PDT_OK, pdt_give_up(s.txn));
  beside(goes_on, &s, NULL);
  is("close", PDT_OK, pdt_close(s.table));
  s.table = opened();
  s.txn = begun(s.table);
  is("set", PDT_OK, set(s.txn, 5, -5));
  is("prepare", PDT_OK, pdt_prepare(s.txn, NULL));
  beside(asks_sizes, &s, installs);
  is("begin a checkpoint", PDT_OK, pdt_checkpoint_begin(s.table, NULL, &s.checkpoint));
  beside(writes_it, &s, commits);
  beside(installs_it, &s, NULL);
  beside(ends_it, &s, commits);
  is("close", PDT_OK, pdt_close(s.table));
  s.table = opened();
  is("pin", PDT_OK, pdt_pin(s.table, NULL, &s.pin));
  beside(begins_at, &s, begins_and_changes);
  pdt_unpin(s.pin);
  is("close", PDT_OK, pdt_close(s.table));
  s.table = opened();
  lent(&s);
  s.txn = begun(s.table);
  is("set", PDT_OK, set(s.txn, 4, -4));
  is("own layer", PDT_OK, pdt_own_layer(s.txn, &s.layer));
  pdt_abort(s.txn);
  is("close", PDT_OK, pdt_close(s.table));
  beside(reads_layer, &s, NULL);
  forks();
  return failures ? 1 : 0;
}
