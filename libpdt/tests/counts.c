/* Each number that a table counts, by a run that is written down here; and the sizes of structs that may grow. */
#define _DEFAULT_SOURCE
#include "events.h"
#include <pdt.h>
#include <pthread.h>
#include <stddef.h>
#include <stdio.h>
#include <string.h>

static int failures;
static void is(const char *what, long long wanted, long long found) {
  if (wanted == found) return;
  failures++;
  fprintf(stderr, "%s: wanted %lld, found %lld\n", what, wanted, found);
}

static const char csv[] = "id:int:key,qty:int\n10,1\n20,2\n30,3\n";
static pdt_table *table;
static pdt_counts due; /* what is to be counted by now */

/* Every number is as it is due; of the times a bound is known. */
static void counted(const char *what, uint64_t longest) {
  pdt_counts found;
  memset(&found, 0xff, sizeof found);
  found.size = sizeof found;
  is(what, PDT_OK, pdt_count(table, &found));
  const struct {
    const char *name;
    uint64_t due, found;
  } all[] = {
      {"begins", due.begins, found.begins},
      {"commits", due.commits, found.commits},
      {"conflicts", due.conflicts, found.conflicts},
      {"too old", due.too_old, found.too_old},
      {"full", due.full, found.full},
      {"folds", due.folds, found.folds},
      {"checkpoints", due.checkpoints, found.checkpoints},
      {"superseded", due.superseded, found.superseded},
      {"pins", due.pins, found.pins},
      {"the oldest pin", due.oldest_pin, found.oldest_pin},
      {"kept", due.kept, found.kept},
      {"kept entries", due.kept_entries, found.kept_entries},
      {"waits", due.waits, found.waits},
      {"size", sizeof found, found.size},
      {"packs", due.packs, found.packs},
  };
  for (size_t i = 0; i < sizeof all / sizeof *all; i++)
    if (all[i].due != all[i].found) fprintf(stderr, "%s: ", what), is(all[i].name, (long long)all[i].due, (long long)all[i].found);
  is(what, true, found.longest_hold >= longest && found.longest_hold < (uint64_t)60000000000);
}

static pdt_txn *begun(void) {
  pdt_txn *txn = NULL;
  is("begin", PDT_OK, pdt_begin(table, &txn));
  due.begins++;
  return txn;
}
static pdt_txn *setting(int64_t key, int64_t qty) {
  pdt_txn *txn = begun();
  is("set", PDT_OK, pdt_set(txn, &key, NULL, 0, 1, qty, NULL));
  return txn;
}
static pdt_txn *inserting(int64_t key) {
  pdt_txn *txn = begun();
  is("insert", PDT_OK, pdt_insert(txn, (int64_t[]){key, 0}, NULL, 0));
  return txn;
}
static void installs(pdt_txn *txn) {
  is("prepare", PDT_OK, pdt_prepare(txn, NULL));
  is("install", PDT_OK, pdt_install(txn));
}

static int takes_all(void *context, size_t column, const uint8_t *bytes, size_t len) {
  return (void)context, (void)column, (void)bytes, (void)len, 0;
}

/* Three commits are kept, of a table of at most four rows. */
static void commits(void) {
  counted("at first", 0);
  pdt_abort(begun());
  pdt_abort(setting(10, 5));
  counted("aborts", 0);
  is("commit", PDT_OK, pdt_commit(begun(), NULL));
  installs(begun());
  counted("commits of nothing", 0);
  is("a begin that is refused", PDT_MISUSE, pdt_begin(table, NULL));

  pdt_txn *late = setting(10, 7), *later = setting(10, 8), *other = setting(30, 9), *old = setting(30, 10), *older = setting(20, 1);
  is("commit", PDT_OK, pdt_commit(setting(10, 6), NULL));
  due.commits++, due.kept++, due.kept_entries++;
  counted("a commit of one entry", 0);
  is("conflict", PDT_CONFLICT, pdt_commit(late, NULL));
  is("conflict", PDT_CONFLICT, pdt_prepare(later, NULL));
  due.conflicts += 2;
  counted("conflicts", 0);
  pdt_txn *two = setting(20, 5);
  is("set", PDT_OK, pdt_set(two, (int64_t[]){30}, NULL, 0, 1, 8, NULL));
  is("prepare", PDT_OK, pdt_prepare(two, NULL));
  is("give up", PDT_OK, pdt_give_up(two));
  counted("a commit that was given up", 0);
  installs(two);
  due.commits++, due.kept++, due.kept_entries += 2;
  counted("a commit of two entries, in parts", 0);
  is("conflict", PDT_CONFLICT, pdt_commit(other, NULL));
  due.conflicts++;

  pdt_txn *first = inserting(40), *second = inserting(50), *third = inserting(60);
  is("the last row that fits", PDT_OK, pdt_commit(first, NULL));
  due.commits++, due.kept++, due.kept_entries++;
  is("full", PDT_FULL, pdt_commit(second, NULL));
  is("full", PDT_FULL, pdt_prepare(third, NULL));
  due.full += 2;
  counted("a full table", 0);
  is("commit", PDT_OK, pdt_commit(setting(40, 1), NULL));
  due.commits++; /* four commits, of which the first isn't kept any more */
  counted("the window has moved on", 0);
  is("too old", PDT_TOO_OLD, pdt_commit(old, NULL));
  is("too old", PDT_TOO_OLD, pdt_prepare(older, NULL));
  due.too_old += 2;
  counted("too old", 0);
  is("cut", PDT_OK, pdt_trim(table));
  due.kept = 0, due.kept_entries = 0;
  counted("a trim", 0);
}

static void pins(void) {
  pdt_pinned *four = NULL, *five = NULL;
  pdt_txn *txn = NULL;
  is("pin", PDT_OK, pdt_pin(table, NULL, &four));
  due.pins++, due.oldest_pin = 4;
  counted("a pin", 0);
  is("commit", PDT_OK, pdt_commit(setting(20, 50), NULL));
  due.commits++, due.kept++, due.kept_entries++;
  is("pin", PDT_OK, pdt_pin(table, NULL, &five));
  due.pins++;
  counted("a second pin", 0);
  is("begin at", PDT_OK, pdt_begin_at(four, &txn));
  due.begins++;
  counted("a begin at a pin", 0);
  pdt_abort(txn);
  is("pin to nowhere", PDT_MISUSE, pdt_pin(table, NULL, NULL));
  is("begin at to nowhere", PDT_MISUSE, pdt_begin_at(four, NULL));
  pdt_unpin(four);
  due.pins--, due.oldest_pin = 5;
  counted("without the oldest", 0);
  pdt_unpin(five);
  due.pins--, due.oldest_pin = 0;
  counted("without any", 0);
}

static void maintenance(const char *room) {
  pdt_open_checkpoint *checkpoint = NULL;
  char folder[320];
  is("fold", PDT_OK, pdt_fold(table));
  due.folds++;
  counted("a fold", 0);
  is("begin a checkpoint", PDT_OK, pdt_checkpoint_begin(table, NULL, &checkpoint));
  counted("a checkpoint that has begun", 0);
  snprintf(folder, sizeof folder, "%s", room);
  is("write", PDT_OK, pdt_checkpoint_write(checkpoint, folder));
  counted("a checkpoint that is written", 0);
  is("fold", PDT_OK, pdt_fold(table));
  due.folds++;
  is("superseded", PDT_SUPERSEDED, pdt_checkpoint_install(checkpoint));
  is("superseded", PDT_SUPERSEDED, pdt_checkpoint_install(checkpoint));
  due.superseded += 2;
  pdt_checkpoint_end(checkpoint);
  counted("a checkpoint that something else came before", 0);
  is("checkpoint", PDT_OK, pdt_checkpoint_to(table, takes_all, NULL, NULL));
  due.checkpoints++;
  counted("a checkpoint", 0);
  is("one that fails", PDT_EXISTS, pdt_checkpoint(table, folder));
  counted("a checkpoint that failed", 0);
}

/* ---- a thread that waits, and how long it does */

static void *waits(void *arg) {
  pdt_sizes sizes;
  is("size", PDT_OK, pdt_size(table, &sizes));
  return arg;
}
static uint64_t waits_now(void) {
  pdt_counts counts = {.size = sizeof counts};
  is("count", PDT_OK, pdt_count(table, &counts));
  return counts.waits;
}
static void holds(void) {
  pthread_t thread;
  pdt_txn *txn = setting(10, 60);
  is("prepare", PDT_OK, pdt_prepare(txn, NULL));
  is("what this thread may not do", PDT_MISUSE, pdt_fold(table));
  counted("a commit that is prepared, and no wait of its own thread", 0);
  if (pthread_create(&thread, NULL, waits, NULL)) failures++;
  UNTIL(waits_now() > due.waits);
  pass(200); /* that it is held for so long at least, is counted too */
  is("install", PDT_OK, pdt_install(txn));
  pthread_join(thread, NULL);
  due.commits++, due.kept++, due.kept_entries++;
  due.waits++;
  counted("a thread that waited, and a lock that was held for 200 ms", 200000000);
}

/* ---- structs of another size */

/* As a program has them that was made with a later version: it has further members. */
typedef struct {
  pdt_counts known;
  uint64_t further[2];
} later_counts;
typedef struct {
  pdt_options known;
  uint64_t further[2];
} later_options;

static void sizes(void) {
  later_counts counts;
  memset(&counts, 0xff, sizeof counts);
  later_counts as_it_was = counts;
  counts.known.size = as_it_was.known.size = offsetof(pdt_counts, packs) - 1;
  is("smaller than in any header", PDT_MISUSE, pdt_count(table, &counts.known));
  is("nothing was written", 0, memcmp(&counts, &as_it_was, sizeof counts));
  counts.known.size = as_it_was.known.size = 0;
  is("no size", PDT_MISUSE, pdt_count(table, &counts.known));
  is("nothing was written", 0, memcmp(&counts, &as_it_was, sizeof counts));
  counts.known.size = sizeof(pdt_counts);
  is("its own size", PDT_OK, pdt_count(table, &counts.known));
  is("nothing past it", 1, counts.further[0] == UINT64_MAX && counts.further[1] == UINT64_MAX);
  counts.known.size = sizeof(pdt_counts) + 8;
  is("a larger struct", PDT_OK, pdt_count(table, &counts.known));
  is("its further member is 0", 0, (long long)counts.further[0]);
  is("nothing past it", 1, counts.further[1] == UINT64_MAX);
  is("the size stays", sizeof(pdt_counts) + 8, (long long)counts.known.size);
  is("and the others are there", (long long)due.commits, (long long)counts.known.commits);
  is("count of null", PDT_MISUSE, pdt_count(NULL, &counts.known));
  is("count to nowhere", PDT_MISUSE, pdt_count(table, NULL));
}

static int taken;
static uint8_t image[3][1000];
static size_t lens[3];
static int keeps_bytes(void *context, size_t column, const uint8_t *bytes, size_t len) {
  (void)context;
  if (++taken > 3 || len > sizeof image[0]) return 1;
  memcpy(image[column + 1], bytes, len);
  lens[column + 1] = len;
  return 0;
}
static void opens(const char *what, pdt_code code, const pdt_options *options, const char *folder) {
  static const int64_t ids[] = {1, 2};
  pdt_column column = {"id", PDT_INT, 2, ids, NULL, NULL, 0};
  pdt_bytes parts[] = {{image[1], lens[1]}, {image[2], lens[2]}};
  for (int way = 0; way < 5; way++) {
    pdt_table *other = (pdt_table *)&other;
    pdt_code found = way == 0   ? pdt_open(csv, sizeof csv - 1, options, &other)
                     : way == 1 ? pdt_open_csv(csv, sizeof csv - 1, options, NULL, &other)
                     : way == 2 ? pdt_open_columns(&column, 1, 1, options, NULL, &other)
                     : way == 3 ? pdt_recover(folder, options, &other)
                                : pdt_recover_from(image[0], lens[0], parts, 2, options, NULL, &other);
    is(what, code, found);
    is("null but where it is open", code != PDT_OK, other == NULL);
    is("close", PDT_OK, pdt_close(other));
  }
}
static void options_sizes(const char *folder) {
  is("an image", PDT_OK, pdt_checkpoint_to(table, keeps_bytes, NULL, NULL));
  later_options options = {{sizeof(pdt_options), 0, 0, false}, {0, 0}};
  opens("none", PDT_OK, NULL, folder);
  opens("zeros", PDT_OK, &options.known, folder);
  options.known.size = 0;
  opens("no size", PDT_MISUSE, &options.known, folder);
  options.known.size = sizeof(pdt_options) - 1;
  opens("a smaller struct", PDT_MISUSE, &options.known, folder);
  options.known.size = sizeof options;
  opens("a larger struct of zeros", PDT_OK, &options.known, folder);
  options.known.recent = 65537;
  opens("a larger struct, whose first members count", PDT_BAD_LIMIT, &options.known, folder);
  options.known.recent = 0;
  options.further[1] = 1;
  opens("a further member that isn't known", PDT_MISUSE, &options.known, folder);
  options.known.size = sizeof(pdt_options) + 8;
  opens("one that isn't part of it", PDT_OK, &options.known, folder);
}

int main(int argc, char **argv) {
  if (argc != 2) return fprintf(stderr, "counts FOLDER: one that is empty\n"), 2;
  pdt_options options = {sizeof options, 3, 4, false};
  is("open", PDT_OK, pdt_open(csv, sizeof csv - 1, &options, &table));
  commits();
  pins();
  maintenance(argv[1]);
  holds();
  sizes();
  options_sizes(argv[1]);
  is("close", PDT_OK, pdt_close(table));
  return failures ? 1 : 0;
}
