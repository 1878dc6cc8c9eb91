/* Which calls take the table's lock and how often, and what is done under it: no export reads or changes a table without it,
   and none that takes long is called with it. Linked with --wrap of the lock's calls, of free and of the exports. */
#include <pdt.h>
#include <pthread.h>
#include <stdio.h>
#include <stdlib.h>
#include <string.h>
#include <sys/stat.h>

static int failures;
static void is(const char *what, long long wanted, long long found) {
  if (wanted == found) return;
  __atomic_add_fetch(&failures, 1, __ATOMIC_RELAXED);
  fprintf(stderr, "%s: wanted %lld, found %lld\n", what, wanted, found);
}

/* ---- the locks: a table's is one that is tried before it is waited for; the others are those of begins and of pins */

static __thread int holds, takes; /* how many locks of tables this thread holds, and how often it took one */
static __thread int shorts;       /* how many of the others it holds */
static int kept;                  /* how many of the locks of tables a prepared commit of this thread keeps */
static bool is_of_files;          /* a database is at work, which has further locks */
static pdt_table *ending;         /* of a checkpoint that ends: it counts until the lock is taken, and keeps its table from closing */

enum { STORES = 16 };
static const pthread_mutex_t *tables[STORES];
static int place_of(const pthread_mutex_t *lock) {
  int at = 0;
  while (at < STORES && tables[at] != lock) at++;
  return at;
}
static bool is_tables(const pthread_mutex_t *lock) { return place_of(lock) < STORES; }
static void is_of_lock(const char *what, long long wanted, long long found) {
  if (!is_of_files) is(what, wanted, found);
}

int __real_pthread_mutex_trylock(pthread_mutex_t *);
int __real_pthread_mutex_lock(pthread_mutex_t *);
int __real_pthread_mutex_unlock(pthread_mutex_t *);
int __real_pthread_mutex_destroy(pthread_mutex_t *);
int __wrap_pthread_mutex_trylock(pthread_mutex_t *lock) {
  pdt_table *table = ending;
  ending = NULL;
  if (table && pdt_close(table) != PDT_MISUSE) fprintf(stderr, "a checkpoint ends before the lock is taken\n"), exit(1);
  is_of_lock("no other lock is held before a table's", 0, shorts);
  if (!is_tables(lock)) tables[place_of(NULL)] = lock;
  int bad = __real_pthread_mutex_trylock(lock);
  if (!bad) holds++, takes++;
  return bad;
}
int __wrap_pthread_mutex_lock(pthread_mutex_t *lock) {
  bool of_table = is_tables(lock);
  int bad = __real_pthread_mutex_lock(lock);
  if (bad) return bad;
  if (of_table) holds++, takes++;
  else is_of_lock("one of the others at a time", 1, ++shorts);
  return 0;
}
int __wrap_pthread_mutex_unlock(pthread_mutex_t *lock) {
  int bad = __real_pthread_mutex_unlock(lock);
  if (!bad) --*(is_tables(lock) ? &holds : &shorts);
  return bad;
}
int __wrap_pthread_mutex_destroy(pthread_mutex_t *lock) {
  if (is_tables(lock)) tables[place_of(lock)] = NULL;
  return __real_pthread_mutex_destroy(lock);
}

/* ---- the exports that read or change a table, which want its lock; those that make or free much, which want none; and those by
   which begins and pins share a version, which want one that nothing long is done under */

#define WITH_LOCK(result, name, params, args) WRAPPED(1, 0, result, name, params, args)
#define WITHOUT_LOCK(result, name, params, args) WRAPPED(0, 0, result, name, params, args)
#define WITHSHORT_LOCK(result, name, params, args) WRAPPED(0, 1, result, name, params, args)
#define WRAPPED(lock, other, result, name, params, args)    \
  result __real_##name params;                              \
  result __wrap_##name params {                             \
    is_of_lock(#name " and the lock", lock, holds - kept);  \
    is_of_lock(#name " and the other lock", other, shorts); \
    return __real_##name args;                              \
  }
WITH_LOCK(uint64_t, pdtr_commits, (void *s), (s))
WITH_LOCK(size_t, pdtr_write_entries, (void *s), (s))
WITH_LOCK(size_t, pdtr_read_entries, (void *s), (s))
WITH_LOCK(uint32_t, pdtr_fold, (void *s), (s))
WITH_LOCK(uint32_t, pdtr_repack, (void *s, void *v), (s, v))
WITH_LOCK(void, pdtr_cut, (void *s), (s))
WITH_LOCK(void, pdtr_cut_into, (void *s, void *t), (s, t))
WITH_LOCK(void, pdtr_cut_to, (void *s, uint64_t n, void *t), (s, n, t))
WITH_LOCK(uint64_t, pdtr_floor, (void *s), (s))
WITH_LOCK(uint32_t, pdtr_share, (void *s, void *v), (s, v))
WITH_LOCK(uint32_t, pdtr_checkpoint_begin, (void *s, void *v), (s, v))
WITH_LOCK(uint32_t, pdtr_restack, (void *s, void *t), (s, t))
WITH_LOCK(uint32_t, pdtr_begin, (void *s, uint32_t c, void *t), (s, c, t))
WITH_LOCK(uint32_t, pdtr_commit, (void *s, void *t, void *e, uint64_t *n), (s, t, e, n))
WITH_LOCK(uint32_t, pdtr_prepare, (void *s, void *t, uint64_t *n, void *d), (s, t, n, d))
WITH_LOCK(uint32_t, pdtr_read_layer, (void *s, void *l), (s, l))
WITH_LOCK(uint32_t, pdtr_write_layer, (void *s, void *l), (s, l))
WITH_LOCK(uint32_t, pdtr_changes, (void *s, uint64_t n, void *l), (s, n, l))
WITH_LOCK(size_t, pdtr_kept, (void *s), (s))
WITH_LOCK(size_t, pdtr_change_entries, (void *s, uint64_t n), (s, n))
WITHOUT_LOCK(void, pdtr_ended_close, (void *e), (e))
WITHOUT_LOCK(void, pdtr_give_up, (void *d), (d))
WITHOUT_LOCK(uint32_t, pdtr_pack, (void *v), (v))
WITHOUT_LOCK(uint32_t, pdtr_room, (size_t n, void *t), (n, t))
WITHOUT_LOCK(void, pdtr_trees_close, (void *t), (t))
WITHOUT_LOCK(uint32_t, pdtr_snapshot_table, (void *v, void *t), (v, t))
WITHOUT_LOCK(uint32_t, pdtr_table_image, (void *t, void *i), (t, i))
WITHOUT_LOCK(size_t, pdtr_image_read, (void *i, size_t c, size_t f, void *o, size_t l), (i, c, f, o, l))
WITHOUT_LOCK(void, pdtr_image_close, (void *i), (i))
WITHOUT_LOCK(void, pdtr_table_close, (void *t), (t))
WITHSHORT_LOCK(uint32_t, pdtr_pin_again, (void *v, void *w), (v, w))

/* What was prepared is done under the lock that was kept. */
uint32_t __real_pdtr_install(void *, void *, void *, void *, uint64_t *);
uint32_t __wrap_pdtr_install(void *s, void *t, void *d, void *e, uint64_t *n) {
  is("an install and the lock", 1, holds);
  is("an install and the other lock", 0, shorts);
  return __real_pdtr_install(s, t, d, e, n);
}

/* A version is taken of a table under its lock, but while the table is opened: nobody else has it then. */
static bool opening;
static int refused; /* how often in turn malloc refuses it */
static int shared;  /* how often a version was taken, to be shared with begins */
uint32_t __real_pdtr_pin(void *, void *);
uint32_t __wrap_pdtr_pin(void *s, void *v) {
  is_of_lock("a version and the lock", !opening, holds);
  is_of_lock("a version and the other lock", 0, shorts);
  shared++;
  if (refused) return refused--, PDT_NOMEM;
  return __real_pdtr_pin(s, v);
}

/* ---- an abort: the transaction counts as open until all of it is freed, since its table may be closed then */

static pdt_table *watched;
static void *freed_last; /* the transaction that is aborted */
static int still_open(void) {
  pdt_sizes sizes = {0, 0, 0, 0};
  pdt_table *table = watched;
  watched = NULL; /* once */
  is("size", PDT_OK, pdt_size(table, &sizes));
  watched = table;
  return (int)sizes.open_transactions;
}
static bool begins; /* a transaction counts as open before it begins, too */
uint32_t __real_pdtr_begin_at(void *, uint32_t, void *);
uint32_t __wrap_pdtr_begin_at(void *v, uint32_t c, void *t) {
  is_of_lock("a begin and the lock", 0, holds - kept);
  is_of_lock("a begin and the other lock", 1, shorts);
  if (begins) {
    shorts--; /* as if it weren't held */
    begins = false;
    is("open before it begins", 1, still_open());
    shorts++;
  }
  return __real_pdtr_begin_at(v, c, t);
}
static pdt_table *pinned; /* it can't be closed until all that its pin has is freed */
void __real_pdtr_unpin(void *);
void __wrap_pdtr_unpin(void *v) {
  is_of_lock("a version's end and the lock", 0, holds - kept);
  is_of_lock("a version's end and the other lock", 0, shorts);
  if (pinned) is("pinned before it is freed", PDT_MISUSE, pdt_close(pinned));
  __real_pdtr_unpin(v);
  if (pinned) is("pinned after that", PDT_MISUSE, pdt_close(pinned));
}
void __real_pdtr_abort(void *);
void __wrap_pdtr_abort(void *txn) {
  is("an abort and the lock", 0, holds - kept);
  is("an abort and the other lock", 0, shorts);
  if (watched) is("open before its entries are freed", 1, still_open());
  __real_pdtr_abort(txn);
  if (watched) is("open after that", 1, still_open());
}
void __real_free(void *);
static long frees, frees_with_lock;
void __wrap_free(void *at) {
  __atomic_add_fetch(&frees, at != NULL, __ATOMIC_RELAXED);
  __atomic_add_fetch(&frees_with_lock, at && (holds || shorts), __ATOMIC_RELAXED);
  if (at && at == freed_last && watched) is("open before it is freed", 1, still_open());
  __real_free(at);
}

/* ---- tables */

static const char csv[] = "id:int:key,name:text\n10,Ann\n20,Bob\n";
static pdt_table *opened(size_t recent) {
  pdt_table *table = NULL;
  pdt_options options = {sizeof options, recent, 0, false};
  opening = true;
  is("open", PDT_OK, pdt_open(csv, sizeof csv - 1, &options, &table));
  opening = false;
  return table;
}
static pdt_txn *begun(pdt_table *table) {
  pdt_txn *txn = NULL;
  is("begin", PDT_OK, pdt_begin(table, &txn));
  return txn;
}
static pdt_txn *setting(pdt_table *table, const char *name) {
  pdt_txn *txn = begun(table);
  is("set", PDT_OK, pdt_set(txn, (int64_t[]){20}, NULL, 0, 1, (int64_t)strlen(name), name));
  return txn;
}

/* Makes a call, which takes the lock so often, and has so many more locks after it. */
#define TAKES(wanted, more, call)                \
  do {                                           \
    int before = holds;                          \
    takes = 0;                                   \
    (void)(call);                                \
    is(#call " takes the lock", wanted, takes);  \
    is(#call " keeps it", more, holds - before); \
  } while (0)

static void table_calls(const char *room) {
  pdt_table *table = opened(0);
  pdt_sizes sizes;
  pdt_txn *txn = NULL;
  pdt_layer *read, *write, *own, *feed;
  pdt_open_checkpoint *checkpoint;
  pdt_pinned *pin;
  pdt_counts counts = {.size = sizeof counts};
  uint64_t number;
  char folder[320], other[320];
  snprintf(folder, sizeof folder, "%s/one", room);
  snprintf(other, sizeof other, "%s/two", room);
  is("mkdir", 0, mkdir(folder, 0777) | mkdir(other, 0777));
  TAKES(0, 0, pdt_columns(table));
  TAKES(0, 0, pdt_key_columns(table));
  TAKES(0, 0, pdt_column_type(table, 0));
  TAKES(0, 0, pdt_column_name(table, 0));
  TAKES(1, 0, pdt_size(table, &sizes));
  TAKES(1, 0, pdt_count(table, &counts));
  TAKES(0, 0, pdt_pin(table, NULL, &pin));
  TAKES(0, 0, pdt_pinned_commits(pin));
  TAKES(0, 0, pdt_begin_at(pin, &txn));
  TAKES(0, 0, pdt_txn_version(txn, &number));
  TAKES(0, 0, pdt_unpin(pin));
  TAKES(0, 0, pdt_commit(txn, NULL)); /* of nothing */
  TAKES(0, 0, pdt_begin(table, &txn));
  TAKES(0, 0, pdt_set(txn, (int64_t[]){20}, NULL, 0, 1, 3, "Rob"));
  TAKES(0, 0, pdt_own_layer(txn, &own));
  TAKES(1, 0, pdt_commit(txn, NULL));
  TAKES(1, 0, pdt_changes(table, 1, &feed));
  TAKES(0, 0, pdt_wait(table, 0, 0, NULL));
  TAKES(0, 0, pdt_wait(table, 1, 1, NULL));
  TAKES(1, 0, pdt_layers(table, &read, &write));
  TAKES(1, 0, pdt_fold(table));
  TAKES(1, 0, pdt_trim(table));
  TAKES(1, 0, pdt_checkpoint_begin(table, NULL, &checkpoint));
  TAKES(0, 0, pdt_checkpoint_write(checkpoint, folder));
  TAKES(1, 0, pdt_checkpoint_install(checkpoint));
  TAKES(1, 0, pdt_checkpoint_end(checkpoint));
  is("begin", PDT_OK, pdt_checkpoint_begin(table, NULL, &checkpoint));
  ending = table;
  pdt_checkpoint_end(checkpoint);
  TAKES(5, 0, pdt_checkpoint(table, other));
  txn = begun(table);
  TAKES(0, 0, pdt_abort(txn));
  TAKES(0, 0, pdt_layer_close(read));
  pdt_layer_close(write);
  pdt_layer_close(own);
  pdt_layer_close(feed);
  TAKES(1, 0, pdt_close(table));
}

/* What is prepared keeps the lock until it is installed, given up or aborted. */
static void prepared(void) {
  pdt_table *table = opened(0);
  pdt_sizes sizes;
  pdt_txn *txn = setting(table, "Rob");
  pdt_txn *other;
  pdt_pinned *pin;
  pdt_counts counts = {.size = sizeof counts};
  TAKES(1, 1, pdt_prepare(txn, NULL));
  TAKES(0, 0, pdt_size(table, &sizes));
  TAKES(0, 0, pdt_count(table, &counts));
  kept = 1;
  TAKES(0, 0, pdt_begin(table, &other));
  TAKES(0, 0, pdt_commit(other, NULL)); /* of nothing */
  TAKES(0, 0, pdt_pin(table, NULL, &pin));
  TAKES(0, 0, pdt_begin_at(pin, &other));
  TAKES(0, 0, pdt_abort(other));
  TAKES(0, 0, pdt_unpin(pin));
  kept = 0;
  TAKES(0, -1, pdt_install(txn));
  txn = begun(table);
  TAKES(0, 0, pdt_prepare(txn, NULL)); /* of nothing */
  TAKES(0, 0, pdt_install(txn));
  txn = setting(table, "Bert");
  TAKES(1, 1, pdt_prepare(txn, NULL));
  TAKES(0, -1, pdt_give_up(txn));
  TAKES(1, 1, pdt_prepare(txn, NULL));
  TAKES(0, -1, pdt_abort(txn));
  pdt_txn *late = setting(table, "Zoe");
  is("commit", PDT_OK, pdt_commit(setting(table, "Eve"), NULL));
  TAKES(1, 0, pdt_prepare(late, NULL)); /* a conflict */
  is("close", PDT_OK, pdt_close(table));
}

static void ends_without_record(void (*end)(pdt_txn *), bool changes) {
  pdt_table *table = opened(0);
  pdt_txn *txn = changes ? setting(table, "Rob") : begun(table);
  watched = table;
  freed_last = txn;
  end(txn);
  is("and not after it", 0, still_open());
  watched = NULL;
  freed_last = NULL;
  is("close", PDT_OK, pdt_close(table));
}
static void commits(pdt_txn *txn) { is("commit", PDT_OK, pdt_commit(txn, NULL)); }
static void installs(pdt_txn *txn) {
  is("prepare", PDT_OK, pdt_prepare(txn, NULL));
  is("install", PDT_OK, pdt_install(txn));
}

/* From its begin on a transaction, and until its end a pin, keeps the table from closing. */
static void counted(void) {
  pdt_table *table = opened(0);
  pdt_pinned *pin = NULL;
  watched = table;
  begins = true;
  pdt_txn *txn = begun(table), *other = NULL;
  is("it has begun", false, begins);
  watched = NULL;
  pdt_abort(txn);
  is("pin", PDT_OK, pdt_pin(table, NULL, &pin));
  watched = table;
  begins = true;
  is("begin at it", PDT_OK, pdt_begin_at(pin, &other));
  is("it has begun", false, begins);
  watched = NULL;
  pdt_abort(other);
  pinned = table;
  pdt_unpin(pin);
  pinned = NULL;
  is("close", PDT_OK, pdt_close(table));
}

/* Where malloc refuses to share the newest version the call is done all the same, and the next begin or pin takes the lock once. */
static void name_is(const char *what, const char *wanted, pdt_txn *txn) {
  int64_t row[2] = {0, 0};
  char text[16];
  is(what, PDT_OK, pdt_get(txn, (int64_t[]){20}, NULL, 0, row, text, sizeof text, NULL));
  is(what, (long long)strlen(wanted), row[1]);
  is(what, 0, memcmp(wanted, text, strlen(wanted)));
  pdt_abort(txn);
}
static void shares_again(const char *what, pdt_table *table, const char *name, uint64_t number) {
  pdt_txn *txn = NULL;
  pdt_pinned *pin = NULL;
  uint64_t found = 77;
  TAKES(1, 0, pdt_begin(table, &txn));
  is(what, PDT_OK, pdt_txn_version(txn, &found));
  is(what, (long long)number, (long long)found);
  name_is(what, name, txn);
  TAKES(0, 0, pdt_begin(table, &txn));
  name_is(what, name, txn);
  refused = 1;
  is(what, PDT_OK, pdt_fold(table));
  is(what, 0, refused);
  TAKES(1, 0, pdt_pin(table, &found, &pin));
  is(what, (long long)number, (long long)found);
  TAKES(0, 0, pdt_begin_at(pin, &txn));
  pdt_unpin(pin);
  name_is(what, name, txn);
  TAKES(0, 0, pdt_begin(table, &txn));
  name_is(what, name, txn);
}
static void unshared(void) {
  pdt_table *table = opened(0);
  pdt_txn *txn = NULL;
  pdt_pinned *pin = (pdt_pinned *)&txn;
  refused = 1;
  is("commit", PDT_OK, pdt_commit(setting(table, "Rob"), NULL));
  is("it was refused", 0, refused);
  shares_again("after a commit", table, "Rob", 1);
  txn = setting(table, "Bert");
  is("prepare", PDT_OK, pdt_prepare(txn, NULL));
  refused = 1;
  is("install", PDT_OK, pdt_install(txn));
  is("it was refused", 0, refused);
  shares_again("after an install", table, "Bert", 2);
  refused = 2;
  is("commit", PDT_OK, pdt_commit(setting(table, "Zoe"), NULL));
  is("a pin that is refused it too", PDT_NOMEM, pdt_pin(table, NULL, &pin));
  is("null then", 1, pin == NULL);
  is("it was refused", 0, refused);
  shares_again("after that", table, "Zoe", 3);
  refused = 3;
  is("commit", PDT_OK, pdt_commit(setting(table, "Eve"), NULL));
  for (int i = 0; i < 2; i++) {
    TAKES(1, 0, pdt_begin(table, &txn));
    name_is("a begin that is refused it too", "Eve", txn);
  }
  is("it was refused", 0, refused);
  is("a wait", PDT_OK, pdt_wait(table, 3, 0, NULL));
  shares_again("after that", table, "Eve", 4);
  refused = 1;
  is("fold", PDT_OK, pdt_fold(table));
  pdt_txn *prepared = setting(table, "Ida"); /* shares it again */
  is("prepare", PDT_OK, pdt_prepare(prepared, NULL));
  is("give up", PDT_OK, pdt_give_up(prepared));
  refused = 1;
  is("fold", PDT_OK, pdt_fold(table));
  TAKES(1, 1, pdt_prepare(prepared, NULL));
  TAKES(0, 0, pdt_begin(table, &txn)); /* this thread has the lock already */
  kept = 1;
  name_is("beside what is prepared", "Eve", txn);
  TAKES(0, 0, pdt_begin(table, &txn));
  name_is("beside what is prepared", "Eve", txn);
  kept = 0;
  TAKES(0, -1, pdt_abort(prepared));
  refused = 1;
  is("fold", PDT_OK, pdt_fold(table));
  shares_again("after a give-up", table, "Eve", 4);
  opening = true;
  refused = 1;
  pdt_table *other = NULL;
  is("open", PDT_OK, pdt_open(csv, sizeof csv - 1, NULL, &other));
  opening = false;
  is("it was refused", 0, refused);
  shares_again("after an opening", other, "Bob", 0);
  refused = 1;
  is("commit", PDT_OK, pdt_commit(setting(table, "Una"), NULL));
  is("close a table that isn't shared", PDT_OK, pdt_close(table));
  is("close", PDT_OK, pdt_close(other));
}

/* What makes the newest version anew shares it once: else begins go on with the older one, and keep all that it has. */
#define SHARES(wanted, call)                                 \
  do {                                                       \
    shared = 0;                                              \
    is(#call, PDT_OK, call);                                 \
    is(#call " shares what is newest then", wanted, shared); \
  } while (0)
static void shares(const char *room) {
  pdt_table *table = opened(0);
  pdt_open_checkpoint *checkpoint = NULL;
  pdt_txn *txn = NULL;
  char folder[320];
  snprintf(folder, sizeof folder, "%s/three", room);
  is("mkdir", 0, mkdir(folder, 0777));
  SHARES(0, pdt_begin(table, &txn));
  SHARES(0, pdt_commit(txn, NULL)); /* of nothing */
  txn = setting(table, "Rob");
  SHARES(1, pdt_commit(txn, NULL));
  txn = setting(table, "Bert");
  SHARES(0, pdt_prepare(txn, NULL));
  SHARES(1, pdt_install(txn));
  SHARES(1, pdt_fold(table));
  SHARES(0, pdt_trim(table));
  SHARES(1, pdt_checkpoint_begin(table, NULL, &checkpoint));
  SHARES(0, pdt_checkpoint_write(checkpoint, folder));
  SHARES(1, pdt_checkpoint_install(checkpoint));
  pdt_checkpoint_end(checkpoint);
  is("close", PDT_OK, pdt_close(table));
}

/* A cut frees the changes of the last commits without the lock: what it frees with it doesn't grow with them. */
static void cuts(void) {
  pdt_table *table = opened(2000);
  long few = 0, all = 0;
  for (int i = 0; i < 10; i++) is("commit", PDT_OK, pdt_commit(setting(table, "Rob"), NULL));
  frees_with_lock = 0;
  is("cut", PDT_OK, pdt_trim(table));
  few = frees_with_lock;
  for (int i = 0; i < 1000; i++) is("commit", PDT_OK, pdt_commit(setting(table, "Rob"), NULL));
  frees_with_lock = frees = 0;
  is("cut", PDT_OK, pdt_trim(table));
  all = frees;
  is("blocks that a trim frees with the lock", few, frees_with_lock);
  is("and without it, one at least for each commit", 1, all >= 1000);
  is("close", PDT_OK, pdt_close(table));
}

/* A commit frees nothing with the lock: what it lets go of is freed after it, by the thread whose commit it is. The Write-PDT has so many
   entries that a commit of one edits it, and builds no tree of which it frees the room; and the rows that are set aren't its own, so
   that no row of it is copied. */
enum { ENTRIES = 300, WAITERS = 6 };
static void inserts(pdt_table *table, int64_t from) {
  pdt_txn *txn = begun(table);
  for (int64_t i = 0; i < ENTRIES; i++) is("insert", PDT_OK, pdt_insert(txn, (int64_t[]){from + i, 3}, "Eve", 3));
  is("commit", PDT_OK, pdt_commit(txn, NULL));
}
static void fill(pdt_table *table) {
  inserts(table, 100);
  is("fold", PDT_OK, pdt_fold(table));
  inserts(table, 1000);
}
static pdt_txn *setting_at(pdt_table *table, int64_t key) {
  pdt_txn *txn = begun(table);
  is("set", PDT_OK, pdt_set(txn, &key, NULL, 0, 1, 4, "Anna"));
  return txn;
}

/* Makes a call, which frees something, or nothing, and nothing of it with the lock. */
#define FREES(some, wanted, call)                                   \
  do {                                                              \
    frees = frees_with_lock = 0;                                    \
    is(#call, wanted, call);                                        \
    is(#call " frees something with the lock", 0, frees_with_lock); \
    is(#call " frees something", some, frees > 0);                  \
  } while (0)
static void lets_go(void) {
  pdt_table *table = opened(2); /* the trees of two commits are kept: the third one lets the first one's go */
  fill(table);
  for (int64_t i = 0; i < 4; i++) FREES(1, PDT_OK, pdt_commit(setting_at(table, 100 + i), NULL));
  for (int64_t i = 0; i < 4; i++) {
    pdt_txn *txn = setting_at(table, 110 + i);
    FREES(0, PDT_OK, pdt_prepare(txn, NULL));
    FREES(1, PDT_OK, pdt_install(txn));
  }
  pdt_txn *alone = setting_at(table, 120); /* the last one over its version, once that is folded */
  is("fold", PDT_OK, pdt_fold(table));
  inserts(table, 2000);
  FREES(1, PDT_OK, pdt_commit(alone, NULL));
  refused = 1; /* nobody but the table has this version: the next commit lets it go */
  FREES(1, PDT_OK, pdt_commit(setting_at(table, 130), NULL));
  is("it was refused", 0, refused);
  FREES(1, PDT_OK, pdt_commit(setting_at(table, 131), NULL));
  pdt_txn *late = setting_at(table, 140), *later = setting_at(table, 140), *given = setting_at(table, 141);
  is("commit", PDT_OK, pdt_commit(setting_at(table, 140), NULL));
  FREES(1, PDT_CONFLICT, pdt_commit(late, NULL));
  FREES(1, PDT_CONFLICT, pdt_prepare(later, NULL));
  is("prepare", PDT_OK, pdt_prepare(given, NULL));
  FREES(1, PDT_OK, pdt_give_up(given));
  FREES(1, PDT_OK, pdt_commit(given, NULL));
  is("close", PDT_OK, pdt_close(table));
}

/* Those that wait are made by whoever gets the lock, and each frees its own. */
static void *commits_one(void *txn) { return commits(txn), NULL; }
static void waiters_let_go(void) {
  pdt_table *table = opened(WAITERS + 1);
  pdt_txn *holder;
  pthread_t threads[WAITERS];
  pdt_txn *txns[WAITERS];
  pdt_counts counts = {.size = sizeof counts};
  fill(table);
  holder = setting_at(table, 100);
  for (int i = 0; i < WAITERS; i++) txns[i] = setting_at(table, 110 + i);
  is("prepare", PDT_OK, pdt_prepare(holder, NULL));
  frees = frees_with_lock = 0;
  for (int i = 0; i < WAITERS; i++) is("a thread", 0, pthread_create(&threads[i], NULL, commits_one, txns[i]));
  do is("count", PDT_OK, pdt_count(table, &counts));
  while (counts.waits < WAITERS);
  is("give up", PDT_OK, pdt_give_up(holder));
  for (int i = 0; i < WAITERS; i++) pthread_join(threads[i], NULL);
  is("commits of those that wait free something with the lock", 0, frees_with_lock);
  is("and something", 1, frees > WAITERS);
  pdt_abort(holder);
  is("close", PDT_OK, pdt_close(table));
}

/* And one of several tables, whose frame is behind the others then. */
static pdt_txn *working_on(pdt_dbtxn *dbtxn, pdt_table *table, int64_t key) {
  pdt_txn *txn = NULL;
  is("work on", PDT_OK, pdt_dbtxn_on(dbtxn, table, &txn));
  is("set", PDT_OK, pdt_set(txn, &key, NULL, 0, 1, 4, "Anna"));
  return txn;
}
static pdt_dbtxn *working(pdt_database *database, pdt_table *const tables[2], int64_t key) {
  pdt_dbtxn *dbtxn = NULL;
  is("work", PDT_OK, pdt_dbtxn_begin(database, &dbtxn));
  for (int i = 0; i < 2; i++) working_on(dbtxn, tables[i], key);
  return dbtxn;
}
static void dbtxns_let_go(const char *room) {
  pdt_database_options options = {.size = sizeof options, .sync = PDT_SYNC_OFF, .no_maintenance = true};
  pdt_database *database = NULL;
  pdt_table *tables[2] = {NULL, NULL};
  char folder[320];
  snprintf(folder, sizeof folder, "%s/database", room);
  is_of_files = opening = true;
  is("open", PDT_OK, pdt_database_open(folder, &options, &database, NULL));
  is("create", PDT_OK, pdt_table_create_csv(database, "one", csv, sizeof csv - 1, NULL, NULL, &tables[0]));
  is("create", PDT_OK, pdt_table_create_csv(database, "two", csv, sizeof csv - 1, NULL, NULL, &tables[1]));
  opening = false;
  holds = shorts = 0; /* its lock was taken before it was known for a table's */
  for (int i = 0; i < 2; i++) fill(tables[i]);
  for (int64_t i = 0; i < 4; i++) {
    pdt_txn *txn = setting_at(tables[0], 100 + i);
    FREES(1, PDT_OK, pdt_commit(txn, NULL));
    txn = setting_at(tables[1], 100 + i);
    FREES(0, PDT_OK, pdt_prepare(txn, NULL));
    FREES(1, PDT_OK, pdt_install(txn));
    pdt_dbtxn *dbtxn = working(database, tables, 110 + i), *late = working(database, tables, 110 + i);
    FREES(1, PDT_OK, pdt_dbtxn_commit(dbtxn, NULL));
    FREES(1, PDT_CONFLICT, pdt_dbtxn_commit(late, NULL));
  }
  is("close", PDT_OK, pdt_database_close(database));
  is_of_files = false;
  holds = shorts = 0; /* and is known no more before it is given back */
}

/* A fold packs the Read-PDT without the lock, and takes it once more to install what it packed. Where malloc refuses a version to
   pack, nothing is packed, and begins share the folded version all the same. */
static uint64_t packs_of(pdt_table *table) {
  pdt_counts counts = {.size = sizeof counts};
  is("count", PDT_OK, pdt_count(table, &counts));
  return counts.packs;
}
static void packs(void) {
  pdt_table *table = opened(0);
  pdt_txn *txn = begun(table);
  for (int64_t i = 0; i < 300; i++) is("insert", PDT_OK, pdt_insert(txn, (int64_t[]){100 + i, 3}, "Eve", 3));
  is("commit", PDT_OK, pdt_commit(txn, NULL));
  refused = 1;
  TAKES(1, 0, pdt_fold(table));
  is("it was refused", 0, refused);
  is("nothing is packed", 0, (long long)packs_of(table));
  TAKES(0, 0, pdt_begin(table, &txn));
  name_is("after a fold that doesn't pack", "Bob", txn);
  TAKES(2, 0, pdt_fold(table));
  is("it packs", 1, (long long)packs_of(table));
  TAKES(0, 0, pdt_begin(table, &txn));
  name_is("after a fold that packs", "Bob", txn);
  TAKES(1, 0, pdt_fold(table));
  is("what is packed stays so", 1, (long long)packs_of(table));
  is("close", PDT_OK, pdt_close(table));
}

int main(int argc, char **argv) {
  if (argc != 2) return fprintf(stderr, "locks FOLDER: one that is empty\n"), 2;
  table_calls(argv[1]);
  shares(argv[1]);
  prepared();
  ends_without_record(pdt_abort, true);
  ends_without_record(commits, false);
  ends_without_record(installs, false);
  counted();
  unshared();
  cuts();
  lets_go();
  waiters_let_go();
  dbtxns_let_go(argv[1]);
  packs();
  is("locks that are held", 0, holds + shorts);
  return failures ? 1 : 0;
}
