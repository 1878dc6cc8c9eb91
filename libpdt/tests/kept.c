/* The changes of the last commits are kept up to so many bytes over all tables of a database, and the oldest are let go of: late commits
   are too old then, and their changes aren't told any more. What is pinned, and the newest changes, stay. */
#define _DEFAULT_SOURCE
#include "events.h"
#include <pdt.h>
#include <stdlib.h>

static int failures;
static void is(const char *what, long long wanted, long long found) {
  if (wanted == found) return;
  failures++;
  fprintf(stderr, "%s: wanted %lld, found %lld\n", what, wanted, found);
}

enum { ROWS = 200, SETS = 100, COMMITS = 100, MOST = 200000 };

static const char *room;
static pdt_database *opened(const char *name, const pdt_database_options *options) {
  char folder[500];
  snprintf(folder, sizeof folder, "%s/%s", room, name);
  pdt_database *database = NULL;
  is("open", PDT_OK, pdt_database_open(folder, options, &database, NULL));
  if (!database) exit(1);
  return database;
}
static pdt_table *created(pdt_database *database, const char *name) {
  int64_t ids[ROWS], qty[ROWS] = {0};
  for (int i = 0; i < ROWS; i++) ids[i] = i;
  pdt_column columns[] = {{"id", PDT_INT, ROWS, ids, NULL, NULL, 0}, {"qty", PDT_INT, ROWS, qty, NULL, NULL, 0}};
  pdt_table *table = NULL;
  is("create", PDT_OK, pdt_table_create(database, name, columns, 2, 1, NULL, NULL, &table));
  return table;
}
static pdt_txn *begun(pdt_table *table) {
  pdt_txn *txn = NULL;
  is("begin", PDT_OK, pdt_begin(table, &txn));
  return txn;
}
static void set(pdt_txn *txn, int64_t key, int64_t qty) { is("set", PDT_OK, pdt_set(txn, &key, NULL, 0, 1, qty, NULL)); }
static uint64_t commit(pdt_table *table, int sets, int64_t qty) {
  pdt_txn *txn = begun(table);
  uint64_t number = 0;
  for (int64_t key = 0; key < sets; key++) set(txn, key, qty);
  is("commit", PDT_OK, pdt_commit(txn, &number));
  return number;
}
/* The entries that a commit has changed, or the code that says why they aren't told. */
static long long changes(pdt_table *table, uint64_t number) {
  pdt_layer *layer = NULL;
  int code = pdt_changes(table, number, &layer);
  long long size = code ? -code : (long long)pdt_layer_size(layer);
  pdt_layer_close(layer);
  return size;
}
static long long kept_bytes(pdt_database *database) {
  pdt_database_counts counts = {.size = sizeof counts};
  is("count", PDT_OK, pdt_database_count(database, &counts));
  return (long long)counts.kept_bytes;
}

static void oldest_first(void) {
  pdt_database_options options = {.size = sizeof options, .sync = PDT_SYNC_OFF, .no_maintenance = true, .kept_bytes = MOST};
  pdt_database *database = opened("oldest", &options);
  pdt_table *busy = created(database, "busy"), *idle = created(database, "idle");
  pdt_txn *late = begun(busy), *late_idle = begun(idle);
  set(late, ROWS - 1, 5), set(late_idle, ROWS - 1, 5);
  uint64_t first = commit(idle, 1, 1), newest = 0;
  pdt_pinned *pin = NULL;
  is("pin", PDT_OK, pdt_pin(busy, NULL, &pin));
  for (int i = 1; i < COMMITS; i++) newest = commit(busy, SETS, i);
  is("more than that is kept", 1, kept_bytes(database) > 2 * MOST);
  is("all of it is told", 1, changes(idle, first) == 1 && changes(busy, first + 1) == SETS);
  pdt_txn *soon = begun(busy);
  set(soon, ROWS - 2, 6);
  uint64_t last = commit(idle, 2, 2);
  newest = commit(busy, SETS, COMMITS);
  is("maintenance", PDT_OK, pdt_maintain(database));
  is("no more is kept", 1, kept_bytes(database) <= MOST);
  is("and not much less", 1, kept_bytes(database) > MOST / 2);
  is("the first one", -PDT_MISSING, changes(idle, first));
  is("the next one", -PDT_MISSING, changes(busy, first + 1));
  is("the last one but one", 2, changes(idle, last));
  is("the last one", SETS, changes(busy, newest));
  is("what began before them", PDT_TOO_OLD, pdt_commit(late, NULL));
  is("of the other table too", PDT_TOO_OLD, pdt_commit(late_idle, NULL));
  is("what began of late", PDT_OK, pdt_commit(soon, NULL));
  pdt_txn *pinned = NULL;
  int64_t key = 0, row[2];
  is("begin at a pin", PDT_OK, pdt_begin_at(pin, &pinned));
  is("get", PDT_OK, pdt_get(pinned, &key, NULL, 0, row, NULL, 0, NULL));
  is("as it was", 0, row[1]);
  pdt_abort(pinned);
  pdt_unpin(pin);
  is("close", PDT_OK, pdt_database_close(database));
  database = opened("oldest", &options);
  is("what is opened again has changed nothing", 0, kept_bytes(database));
  is("close", PDT_OK, pdt_database_close(database));
}

/* One commit that takes more than the option alone is let go of too. */
static void one_large(void) {
  pdt_database_options options = {.size = sizeof options, .sync = PDT_SYNC_OFF, .no_maintenance = true, .kept_bytes = 1};
  pdt_database *database = opened("large", &options);
  pdt_table *table = created(database, "t");
  uint64_t number = commit(table, SETS, 1);
  is("is told", SETS, changes(table, number));
  is("maintenance", PDT_OK, pdt_maintain(database));
  is("nothing is kept", 0, kept_bytes(database));
  is("isn't told any more", -PDT_MISSING, changes(table, number));
  is("goes on", (long long)number + 1, (long long)commit(table, 1, 2));
  is("is told", 1, changes(table, number + 1));
  is("close", PDT_OK, pdt_database_close(database));
}

/* The database's own thread does it, while others commit. */
static void by_the_thread(void) {
  pdt_database_options options = {.size = sizeof options, .sync = PDT_SYNC_OFF, .kept_bytes = MOST};
  pdt_database *database = opened("thread", &options);
  pdt_table *table = created(database, "t");
  for (int i = 1; i <= 3 * COMMITS; i++) (void)commit(table, SETS, i);
  UNTIL(kept_bytes(database) <= MOST);
  is("no more is kept", 1, kept_bytes(database) <= MOST);
  is("close", PDT_OK, pdt_database_close(database));
}

int main(int argc, char **argv) {
  if (argc < 2) return 2;
  room = argv[1];
  oldest_first();
  one_large();
  by_the_thread();
  return failures ? 1 : 0;
}
