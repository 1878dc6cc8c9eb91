/* Pins: versions of a table that are kept, over which transactions begin whatever was committed since. Each commit moves an amount
   from one row to another and adds 7, so that the sum of the table of number n is that of the first one and 7 n: a pin of another
   number has another sum. */
#define _DEFAULT_SOURCE
#include "events.h"
#include <pdt.h>
#include <pthread.h>
#include <stdatomic.h>
#include <stdio.h>
#include <stdlib.h>

static pthread_mutex_t failing = PTHREAD_MUTEX_INITIALIZER;
static int failures;
static void is(const char *what, long long wanted, long long found) {
  if (wanted == found) return;
  pthread_mutex_lock(&failing);
  failures++;
  fprintf(stderr, "%s: wanted %lld, found %lld\n", what, wanted, found);
  pthread_mutex_unlock(&failing);
}

enum { ROWS = 4000, START = 1000, WRITERS = 4, READERS = 4, PINS = 8, STEP = 7 };
static long long sum_at(uint64_t number) { return (long long)ROWS * START + STEP * (long long)number; }

/* Row i is i and START. */
static pdt_table *opened(size_t recent) {
  static int64_t ids[ROWS], qty[ROWS];
  for (int i = 0; i < ROWS; i++) ids[i] = i, qty[i] = START;
  pdt_column columns[] = {{"id", PDT_INT, ROWS, ids, NULL, NULL, 0}, {"qty", PDT_INT, ROWS, qty, NULL, NULL, 0}};
  pdt_options options = {sizeof options, recent, 0, false};
  pdt_table *table = NULL;
  is("open", PDT_OK, pdt_open_columns(columns, 2, 1, &options, NULL, &table));
  return table;
}
static pdt_txn *begun(pdt_table *table) {
  pdt_txn *txn = NULL;
  is("begin", PDT_OK, pdt_begin(table, &txn));
  return txn;
}
static pdt_pinned *pinned(pdt_table *table) {
  pdt_pinned *pin = NULL;
  uint64_t number = 77;
  is("pin", PDT_OK, pdt_pin(table, &number, &pin));
  is("its number", (long long)number, (long long)pdt_pinned_commits(pin));
  return pin;
}
static pdt_txn *begun_at(pdt_pinned *pin) {
  pdt_txn *txn = NULL;
  is("begin at", PDT_OK, pdt_begin_at(pin, &txn));
  return txn;
}
static long long qty_of(pdt_txn *txn, int64_t key) {
  int64_t row[2] = {0, -1};
  is("get", PDT_OK, pdt_get(txn, &key, NULL, 0, row, NULL, 0, NULL));
  return row[1];
}
static void set(pdt_txn *txn, int64_t key, int64_t qty) { is("set", PDT_OK, pdt_set(txn, &key, NULL, 0, 1, qty, NULL)); }
static void move(pdt_txn *txn, int64_t from, int64_t to, int64_t amount) {
  set(txn, from, qty_of(txn, from) - amount);
  set(txn, to, qty_of(txn, to) + amount + STEP);
}
static uint64_t commits_of(pdt_table *table) {
  pdt_sizes sizes = {0, 0, 0, 0};
  is("size", PDT_OK, pdt_size(table, &sizes));
  return sizes.commits;
}

/* The sum of the quantities, by copies or by pieces. */
static long long sum_of(pdt_txn *txn, bool by_spans) {
  int64_t numbers[512];
  pdt_int_span spans[512];
  uint64_t from = 0, rows = 0;
  long long sum = 0;
  for (;;) {
    size_t count = 512;
    if (by_spans) {
      is("pieces", PDT_OK, pdt_int_spans(txn, 1, from, ROWS, spans, &count, &rows));
      for (size_t i = 0; i < count; i++)
        for (uint64_t k = 0; k < spans[i].count; k++) sum += spans[i].at ? spans[i].at[k] : spans[i].number;
    } else {
      is("ints", PDT_OK, pdt_ints(txn, 1, from, numbers, &count));
      for (size_t i = 0; i < count; i++) sum += numbers[i];
      rows = count;
    }
    if (!count) return sum;
    from += rows;
  }
}

/* ---- four threads read pins while four others commit, fold and checkpoint */

typedef struct {
  pdt_table *table;
  pthread_mutex_t lock;
  pdt_pinned *pins[PINS];
  int count; /* how many pins there are by now */
  bool has_ended;
  atomic_long scans; /* by now */
  long commits;
} shared;
typedef struct {
  shared *with;
  int number;
} worker;

static void *reads(void *arg) {
  worker *w = arg;
  shared *s = w->with;
  for (int i = w->number;; i++) {
    pthread_mutex_lock(&s->lock);
    pdt_pinned *pin = s->pins[i % s->count];
    bool has_ended = s->has_ended;
    pthread_mutex_unlock(&s->lock);
    pdt_txn *txn = begun_at(pin);
    uint64_t number = 77;
    is("begun", PDT_OK, pdt_txn_version(txn, &number));
    is("at its pin", (long long)pdt_pinned_commits(pin), (long long)number);
    is("the sum of its number", sum_at(number), sum_of(txn, i % 2));
    pdt_abort(txn);
    s->scans++;
    if (has_ended) break;
  }
  return NULL;
}

static int takes_all(void *context, size_t column, const uint8_t *bytes, size_t len) {
  return (void)context, (void)column, (void)bytes, (void)len, 0;
}

/* Its rows are no other writer's, so that none conflicts. */
static void *writes(void *arg) {
  worker *w = arg;
  shared *s = w->with;
  long commits = 0;
  for (int i = 0;; i++) {
    pthread_mutex_lock(&s->lock);
    bool has_ended = s->has_ended;
    pthread_mutex_unlock(&s->lock);
    if (has_ended) break;
    int from = (i * 37 % (ROWS / WRITERS)) * WRITERS + w->number, to = (i * 11 % (ROWS / WRITERS)) * WRITERS + w->number;
    pdt_txn *txn = begun(s->table);
    if (from == to) set(txn, from, qty_of(txn, from) + STEP);
    else move(txn, from, to, i % 50);
    is("commit", PDT_OK, pdt_commit(txn, NULL));
    commits++;
    if (w->number == 0 && i % 100 == 99) is("fold", PDT_OK, pdt_fold(s->table));
    if (w->number == 1 && i % 500 == 499) is("checkpoint", PDT_OK, pdt_checkpoint_to(s->table, takes_all, NULL, NULL));
  }
  pthread_mutex_lock(&s->lock);
  s->commits += commits;
  pthread_mutex_unlock(&s->lock);
  return NULL;
}

static uint64_t packs_of(pdt_table *table) {
  pdt_counts counts = {.size = sizeof counts};
  is("count", PDT_OK, pdt_count(table, &counts));
  return counts.packs;
}

static void side_by_side(void) {
  shared s = {.table = opened(0), .lock = PTHREAD_MUTEX_INITIALIZER};
  pthread_t threads[READERS + WRITERS];
  worker workers[READERS + WRITERS];
  s.pins[0] = pinned(s.table);
  s.count = 1;
  for (int i = 0; i < READERS + WRITERS; i++) {
    workers[i] = (worker){&s, i % READERS};
    if (pthread_create(&threads[i], NULL, i < READERS ? reads : writes, &workers[i])) exit(2);
  }
  uint64_t last = 0;
  while (s.count < PINS) {
    uint64_t number = 0;
    is("a commit comes", PDT_OK, pdt_wait(s.table, last + 100, 1000 * LIMIT, &number));
    pdt_pinned *pin = pinned(s.table);
    is("the newest at least", 1, pdt_pinned_commits(pin) >= number);
    last = pdt_pinned_commits(pin);
    pthread_mutex_lock(&s.lock);
    s.pins[s.count++] = pin;
    long scans = s.scans;
    pthread_mutex_unlock(&s.lock);
    pass(200);
    UNTIL(s.scans >= scans + 5 * READERS);
  }
  UNTIL(packs_of(s.table) > 0);
  pthread_mutex_lock(&s.lock);
  s.has_ended = true;
  pthread_mutex_unlock(&s.lock);
  for (int i = 0; i < READERS + WRITERS; i++) pthread_join(threads[i], NULL);
  is("each commit counts once", s.commits, (long long)commits_of(s.table));
  is("folds packed under them", 1, packs_of(s.table) > 0);
  is("scans", 1, s.scans >= 5 * READERS * (PINS - 1));
  pdt_txn *txn = begun(s.table);
  is("the newest sum", sum_at((uint64_t)s.commits), sum_of(txn, false));
  pdt_abort(txn);
  is("close with pins", PDT_MISUSE, pdt_close(s.table));
  for (int i = 0; i < PINS; i++) {
    txn = begun_at(s.pins[i]);
    is("each pin to the end", sum_at(pdt_pinned_commits(s.pins[i])), sum_of(txn, true));
    pdt_abort(txn);
    if (i) is("of a number of its own", 1, pdt_pinned_commits(s.pins[i]) > pdt_pinned_commits(s.pins[i - 1]));
  }
  for (int i = 0; i < PINS; i++) pdt_unpin(s.pins[i]);
  is("close", PDT_OK, pdt_close(s.table));
}

/* ---- a transaction reads on when its pin goes, whatever is done to the table */

static void let_go(void) {
  pdt_table *table = opened(0);
  pdt_txn *txn = begun(table), *old[3];
  move(txn, 1, 2, 5);
  is("commit", PDT_OK, pdt_commit(txn, NULL));
  pdt_pinned *pin = pinned(table);
  for (int i = 0; i < 3; i++) old[i] = begun_at(pin);
  pdt_unpin(pin);
  txn = begun(table);
  move(txn, 1, 2, 100);
  is("commit", PDT_OK, pdt_commit(txn, NULL));
  is("fold", PDT_OK, pdt_fold(table));
  is("a sum at a pin that is gone", sum_at(1), sum_of(old[0], false));
  is("checkpoint", PDT_OK, pdt_checkpoint_to(table, takes_all, NULL, NULL));
  is("cut", PDT_OK, pdt_trim(table));
  for (int i = 0; i < 3; i++) is("a sum at a pin that is gone", sum_at(1), sum_of(old[i], i % 2));
  is("a row at it", START - 5, qty_of(old[0], 1));
  pdt_abort(old[0]);
  set(old[1], 3, 9);
  is("a commit came before the trim", PDT_TOO_OLD, pdt_commit(old[1], NULL));
  is("close with a transaction", PDT_MISUSE, pdt_close(table));
  is("a sum at a pin that is gone", sum_at(1), sum_of(old[2], true));
  pdt_abort(old[2]);
  is("close", PDT_OK, pdt_close(table));
}

/* ---- writes at an old pin: four commits are kept */

static pdt_code set_at(pdt_pinned *pin, int64_t key, int64_t qty, uint64_t *number) {
  pdt_txn *txn = begun_at(pin);
  set(txn, key, qty);
  return pdt_commit(txn, number);
}
static void writes_at_pins(void) {
  pdt_table *table = opened(4);
  pdt_pinned *first = pinned(table), *second;
  uint64_t number = 77;
  is("the first number", 0, (long long)pdt_pinned_commits(first));
  is("a commit at the newest", PDT_OK, set_at(first, 10, 1, &number));
  is("number", 1, (long long)number);
  is("it meets what was committed since", PDT_CONFLICT, set_at(first, 10, 2, &number));
  is("the newest number", 1, (long long)number);
  is("and here it doesn't", PDT_OK, set_at(first, 20, 3, &number));
  is("number", 2, (long long)number);
  second = pinned(table);
  is("its number", 2, (long long)pdt_pinned_commits(second));

  /* what is there since the pin isn't seen at it: to insert it again is a conflict, and no duplicate */
  pdt_txn *txn = begun(table);
  is("insert", PDT_OK, pdt_insert(txn, (int64_t[]){ROWS, 5}, NULL, 0));
  is("commit", PDT_OK, pdt_commit(txn, NULL));
  txn = begun_at(second);
  is("insert at a pin", PDT_OK, pdt_insert(txn, (int64_t[]){ROWS, 6}, NULL, 0));
  is("a conflict", PDT_CONFLICT, pdt_commit(txn, NULL));
  txn = begun(table);
  is("a duplicate", PDT_DUPLICATE, pdt_insert(txn, (int64_t[]){ROWS, 6}, NULL, 0));
  pdt_abort(txn);

  is("the third since the first pin", PDT_OK, set_at(first, 30, 4, &number));
  is("number", 4, (long long)number);
  is("with four between", PDT_OK, set_at(first, 40, 5, &number));
  is("number", 5, (long long)number);
  is("with five between", PDT_TOO_OLD, set_at(first, 50, 6, &number));
  is("the newest number", 5, (long long)number);
  txn = begun_at(first);
  is("one that changes nothing", PDT_OK, pdt_commit(txn, &number));
  is("the number that it saw", 0, (long long)number);
  is("a younger pin", PDT_OK, set_at(second, 50, 7, &number));
  is("number", 6, (long long)number);

  /* of two versions of one row each pin has its own, with its own writes over it */
  txn = begun_at(first);
  is("before", START, qty_of(txn, 10));
  set(txn, 11, 12);
  is("its own", 12, qty_of(txn, 11));
  pdt_abort(txn);
  txn = begun_at(second);
  is("then", 1, qty_of(txn, 10));
  is("then", 3, qty_of(txn, 20));
  is("not since", START, qty_of(txn, 30));
  pdt_abort(txn);
  txn = begun(table);
  is("now", 4, qty_of(txn, 30));
  is("now", 7, qty_of(txn, 50));
  pdt_abort(txn);
  pdt_unpin(first);
  pdt_unpin(second);
  is("close", PDT_OK, pdt_close(table));
}

/* ---- four pins, let go in each order: how many there are, and the number of the oldest */

static void counts_are(pdt_table *table, size_t pins, uint64_t oldest) {
  pdt_counts counts = {.size = sizeof counts};
  is("count", PDT_OK, pdt_count(table, &counts));
  is("pins", (long long)pins, (long long)counts.pins);
  is("the oldest", (long long)oldest, (long long)counts.oldest_pin);
}
static void each_order(void) {
  pdt_table *table = opened(0);
  for (int order = 0; order < 24; order++) {
    pdt_pinned *pins[4];
    int left[4] = {0, 1, 2, 3}, count = 4, code = order;
    for (int i = 0; i < 4; i++) {
      pdt_txn *txn = begun(table);
      set(txn, i, order);
      is("commit", PDT_OK, pdt_commit(txn, NULL));
      pins[i] = pinned(table);
    }
    uint64_t first = pdt_pinned_commits(pins[0]);
    is("the newest", (long long)commits_of(table), (long long)first + 3);
    counts_are(table, 4, first);
    while (count) {
      int at = code % count;
      code /= count;
      is("close with pins alone", PDT_MISUSE, pdt_close(table));
      pdt_unpin(pins[left[at]]);
      for (int i = at; i + 1 < count; i++) left[i] = left[i + 1];
      count--;
      counts_are(table, (size_t)count, count ? first + (uint64_t)left[0] : 0);
    }
  }
  pdt_pinned *one = pinned(table), *same = pinned(table);
  is("two of one number", (long long)pdt_pinned_commits(one), (long long)pdt_pinned_commits(same));
  pdt_unpin(one);
  counts_are(table, 1, 96);
  pdt_unpin(same);
  counts_are(table, 0, 0);
  is("close", PDT_OK, pdt_close(table));
}

static void misuses(void) {
  pdt_table *table = opened(0);
  pdt_pinned *pin = (pdt_pinned *)&table;
  pdt_txn *txn = (pdt_txn *)&table;
  uint64_t number = 77;
  is("pin of null", PDT_MISUSE, pdt_pin(NULL, &number, &pin));
  is("null then", 1, pin == NULL);
  is("pin to nowhere", PDT_MISUSE, pdt_pin(table, &number, NULL));
  is("begin at null", PDT_MISUSE, pdt_begin_at(NULL, &txn));
  is("null then", 1, txn == NULL);
  is("number of null", 0, (long long)pdt_pinned_commits(NULL));
  pdt_unpin(NULL);
  is("pin without a number", PDT_OK, pdt_pin(table, NULL, &pin));
  is("begin at to nowhere", PDT_MISUSE, pdt_begin_at(pin, NULL));
  txn = begun_at(pin);
  is("begun of null", PDT_MISUSE, pdt_txn_version(NULL, &number));
  is("begun to nowhere", PDT_MISUSE, pdt_txn_version(txn, NULL));
  is("nothing was written", 77, (long long)number);
  pdt_abort(txn);
  pdt_unpin(pin);
  is("none is open, none kept", PDT_OK, pdt_close(table));
}

int main(void) {
  misuses();
  writes_at_pins();
  let_go();
  each_order();
  side_by_side();
  return failures ? 1 : 0;
}
