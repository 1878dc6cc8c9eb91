/* Databases: what is made, kept, found again and refused. */
#define _DEFAULT_SOURCE
#include "events.h"
#include <dirent.h>
#include <errno.h>
#include <fcntl.h>
#include <pdt.h>
#include <pthread.h>
#include <sched.h>
#include <signal.h>
#include <stdlib.h>
#include <sys/stat.h>
#include <sys/wait.h>

static int failures;
static void is(const char *what, long long wanted, long long found) {
  if (wanted == found) return;
  failures++;
  fprintf(stderr, "%s: wanted %lld, found %lld\n", what, wanted, found);
}

static const char *room; /* the folder in which all of it is done */
static char place[512];
static const char *folder_of(const char *name) {
  snprintf(place, sizeof place, "%s/%s", room, name);
  return place;
}

static pdt_report report;
static pdt_database_options options = {.size = sizeof options, .no_maintenance = true};

static int try_open(const char *name, pdt_database **database) {
  report = (pdt_report){.size = sizeof report};
  return pdt_database_open(folder_of(name), &options, database, &report);
}
static pdt_database *opened(const char *name) {
  pdt_database *database = NULL;
  is("open", PDT_OK, try_open(name, &database));
  if (!database) fprintf(stderr, "%s: fault %llu, file %s\n", name, (unsigned long long)report.fault, report.file), exit(1);
  return database;
}
static void closed(pdt_database *database) { is("close", PDT_OK, pdt_database_close(database)); }

static const char csv[] = "id:int:key,qty:int\n10,1\n20,2\n30,3\n";

static pdt_table *created(pdt_database *database, const char *name) {
  pdt_table *table = NULL;
  is("create", PDT_OK, pdt_table_create_csv(database, name, csv, sizeof csv - 1, NULL, NULL, &table));
  return table;
}
static pdt_table *table_named(pdt_database *database, const char *name) {
  pdt_table *table = NULL;
  is("table", PDT_OK, pdt_table_open(database, name, &table));
  return table;
}
static pdt_txn *begun(pdt_table *table) {
  pdt_txn *txn = NULL;
  is("begin", PDT_OK, pdt_begin(table, &txn));
  return txn;
}
static void set(pdt_txn *txn, int64_t key, int64_t qty) { is("set", PDT_OK, pdt_set(txn, &key, NULL, 0, 1, qty, NULL)); }
static uint64_t committed(pdt_table *table, int64_t key, int64_t qty) {
  pdt_txn *txn = begun(table);
  uint64_t number = 0;
  set(txn, key, qty);
  is("commit", PDT_OK, pdt_commit(txn, &number));
  return number;
}
static long long in(pdt_txn *txn, int64_t key) {
  int64_t row[2] = {0, -1};
  return pdt_get(txn, &key, NULL, 0, row, NULL, 0, NULL) ? -1 : row[1];
}
static long long qty(pdt_table *table, int64_t key) {
  pdt_txn *txn = begun(table);
  long long found = in(txn, key);
  pdt_abort(txn);
  return found;
}
static pdt_dbtxn *working(pdt_database *database) {
  pdt_dbtxn *dbtxn = NULL;
  is("work", PDT_OK, pdt_dbtxn_begin(database, &dbtxn));
  return dbtxn;
}
static pdt_txn *on(pdt_dbtxn *dbtxn, pdt_table *table) {
  pdt_txn *txn = NULL;
  is("on", PDT_OK, pdt_dbtxn_on(dbtxn, table, &txn));
  return txn;
}
static pdt_database_counts counted(pdt_database *database) {
  pdt_database_counts counts = {.size = sizeof counts};
  is("count", PDT_OK, pdt_database_count(database, &counts));
  return counts;
}

/* ---- what is made is found again, with its numbers */

static void lasts(void) {
  pdt_database *database = opened("lasts");
  is("a new one", 0, (long long)report.commits);
  char name[PDT_MAX_NAME + 1];
  is("no table", PDT_MISSING, pdt_table_name(database, 0, name, sizeof name));
  pdt_table *items = created(database, "items"), *orders = created(database, "orders");
  is("the first commit", 1, (long long)committed(items, 10, 11));
  is("of another table", 2, (long long)committed(orders, 20, 22));
  is("and again", 3, (long long)committed(items, 20, 33));
  pdt_sizes sizes;
  is("size", PDT_OK, pdt_size(orders, &sizes));
  is("the number of a table", 2, (long long)sizes.commits);
  pdt_txn *txn = begun(orders);
  uint64_t number = 0;
  is("begun", PDT_OK, pdt_txn_version(txn, &number));
  is("its number", 2, (long long)number);
  is("nothing to commit", PDT_OK, pdt_commit(txn, &number));
  is("the number that it saw", 2, (long long)number);
  closed(database);

  database = opened("lasts");
  is("commits", 3, (long long)report.commits);
  is("replayed", 3, (long long)report.replayed);
  is("torn", 0, (long long)report.torn_bytes);
  is("the first name", PDT_OK, pdt_table_name(database, 0, name, sizeof name));
  is("is items", 0, strcmp(name, "items"));
  is("the second name", PDT_OK, pdt_table_name(database, 1, name, sizeof name));
  is("is orders", 0, strcmp(name, "orders"));
  is("too small", PDT_TOO_SMALL, pdt_table_name(database, 1, name, 6));
  items = table_named(database, "items");
  orders = table_named(database, "orders");
  is("items 10", 11, qty(items, 10));
  is("items 20", 33, qty(items, 20));
  is("items 30", 3, qty(items, 30));
  is("orders 20", 22, qty(orders, 20));
  is("goes on", 4, (long long)committed(orders, 10, 44));
  is("the same table", 1, items == table_named(database, "items"));
  closed(database);
  database = opened("lasts");
  is("orders 10", 44, qty(table_named(database, "orders"), 10));
  closed(database);
}

/* ---- names, columns and misuse */

static void refuses(void) {
  pdt_database *database = opened("refuses");
  pdt_table *items = created(database, "items"), *table = items;
  is("there already", PDT_EXISTS, pdt_table_create_csv(database, "items", csv, sizeof csv - 1, NULL, NULL, &table));
  is("no table", 1, !table);
  static const char *const bad[] = {"",
                                    "a\nb",
                                    "\x7f",
                                    "\xff",
                                    "\xc0\x80",
                                    "\xed\xa0\x80",
                                    "\xf4\x90\x80\x80",
                                    "\xe2\x82",
                                    "12345678901234567890123456789012345678901234567890123456789012345"};
  for (size_t i = 0; i < sizeof bad / sizeof *bad; i++)
    is("a bad name", PDT_TYPE_MISMATCH, pdt_table_create_csv(database, bad[i], csv, sizeof csv - 1, NULL, NULL, &table));
  is("a text that is no table", PDT_BAD_TABLE, pdt_table_create_csv(database, "x", "id", 2, NULL, NULL, &table));
  is("none of it", PDT_MISSING, pdt_table_open(database, "x", &table));
  static const char *const good[] = {"a", "\xc3\xa9t\xc3\xa9 \xe2\x82\xac \xf0\x9f\x98\x80", "a b/../c",
                                     "1234567890123456789012345678901234567890123456789012345678901234"};
  for (size_t i = 0; i < sizeof good / sizeof *good; i++) created(database, good[i]);
  int64_t ids[] = {1, 2};
  pdt_column columns[] = {{"id", PDT_INT, 2, ids, NULL, NULL, 0}};
  pdt_place where = {9, 9};
  is("over columns", PDT_OK, pdt_table_create(database, "columns", columns, 1, 1, NULL, &where, &table));
  ids[1] = 1;
  is("not ascending", PDT_NOT_ASCENDING, pdt_table_create(database, "other", columns, 1, 1, NULL, &where, &table));
  is("at", 1, (long long)where.row);
  pdt_column outside[] = {{"id", PDT_INT, 1, ids, NULL, NULL, 0}, {"n", PDT_INT | PDT_OUTSIDE, 1, NULL, NULL, NULL, 0}};
  is("outside", PDT_MISUSE, pdt_table_create(database, "outside", outside, 2, 1, NULL, NULL, &table));
  is("none of it", PDT_MISSING, pdt_table_open(database, "outside", &table));
  is("a table isn't closed", PDT_MISUSE, pdt_close(items));

  pdt_txn *txn = begun(items);
  is("an open transaction", PDT_MISUSE, pdt_database_close(database));
  is("of its table", PDT_MISUSE, pdt_table_drop(database, "items"));
  pdt_abort(txn);
  pdt_dbtxn *dbtxn = working(database);
  is("an open database transaction", PDT_MISUSE, pdt_database_close(database));
  is("over it", PDT_MISUSE, pdt_table_drop(database, "items"));
  txn = on(dbtxn, items);
  is("the same one", 1, txn == on(dbtxn, items));
  is("a part isn't committed", PDT_MISUSE, pdt_commit(txn, NULL));
  is("nor prepared", PDT_MISUSE, pdt_prepare(txn, NULL));
  pdt_abort(txn);
  set(txn, 10, 5); /* it is there still */
  pdt_dbtxn_abort(dbtxn);
  is("nothing of it", 1, qty(items, 10));
  pdt_pinned *pin = NULL;
  is("pin", PDT_OK, pdt_pin(items, NULL, &pin));
  is("a kept pin", PDT_MISUSE, pdt_table_drop(database, "items"));
  is("of its table", PDT_MISUSE, pdt_database_close(database));
  pdt_unpin(pin);
  pdt_open_checkpoint *checkpoint = NULL;
  is("checkpoint", PDT_OK, pdt_checkpoint_begin(items, NULL, &checkpoint));
  is("one that has begun", PDT_MISUSE, pdt_table_drop(database, "items"));
  is("of its table", PDT_MISUSE, pdt_database_close(database));
  pdt_checkpoint_end(checkpoint);
  is("no such table", PDT_MISSING, pdt_table_drop(database, "nothing"));
  is("a drop", PDT_OK, pdt_table_drop(database, "items"));
  is("is gone", PDT_MISSING, pdt_table_open(database, "items", &table));
  items = created(database, "items");
  is("a new one of the name", 1, qty(items, 10));
  closed(database);
  database = opened("refuses");
  for (size_t i = 0; i < sizeof good / sizeof *good; i++) table_named(database, good[i]);
  is("the new one is found", 1, qty(table_named(database, "items"), 10));
  closed(database);
  is("null", PDT_MISUSE, pdt_database_open(NULL, NULL, &database, NULL));
  is("empty", PDT_MISUSE, pdt_database_open("", NULL, &database, NULL));
  database = opened("none");
  dbtxn = working(database);
  is("a database transaction over no table", PDT_MISUSE, pdt_database_close(database));
  pdt_dbtxn_abort(dbtxn);
  closed(database);
  is("a folder above that isn't there", PDT_IO, try_open("no/such", &database));
  options.sync = 3;
  is("no such sync", PDT_MISUSE, try_open("refuses", &database));
  options.sync = PDT_SYNC_FULL;
}

/* ---- database transactions */

static void dbtxns(void) {
  pdt_database *database = opened("works");
  pdt_table *a = created(database, "a"), *b = created(database, "b"), *c = created(database, "c");
  pdt_dbtxn *reader = working(database);
  pdt_dbtxn *dbtxn = working(database);
  set(on(dbtxn, a), 10, 100);
  set(on(dbtxn, b), 10, 200);
  set(on(dbtxn, c), 10, 300);
  is("its own read", 100, in(on(dbtxn, a), 10));
  uint64_t number = 0;
  is("commit", PDT_OK, pdt_dbtxn_commit(dbtxn, &number));
  is("one number", 1, (long long)number);
  is("all of it", 100 + 200 + 300, qty(a, 10) + qty(b, 10) + qty(c, 10));
  is("a reader's moment", 1 + 1 + 1, in(on(reader, a), 10) + in(on(reader, b), 10) + in(on(reader, c), 10));
  is("nothing to commit", PDT_OK, pdt_dbtxn_commit(reader, &number));
  is("the number that it saw", 0, (long long)number);

  /* a conflict on one table leaves all of them */
  dbtxn = working(database);
  set(on(dbtxn, a), 20, 1);
  set(on(dbtxn, b), 20, 2);
  committed(b, 20, 3);
  is("conflict", PDT_CONFLICT, pdt_dbtxn_commit(dbtxn, &number));
  is("the newest", 2, (long long)number);
  is("a stays", 2, qty(a, 20));
  is("b stays", 3, qty(b, 20));
  pdt_counts counts = {.size = sizeof counts};
  is("count", PDT_OK, pdt_count(b, &counts));
  is("counted where it was", 1, (long long)counts.conflicts);

  /* a commit over one table, of a transaction that began before a database transaction's */
  pdt_txn *txn = begun(a);
  set(txn, 30, 7);
  dbtxn = working(database);
  set(on(dbtxn, a), 30, 8);
  set(on(dbtxn, c), 30, 9);
  is("the first", PDT_OK, pdt_dbtxn_commit(dbtxn, &number));
  is("the second", PDT_CONFLICT, pdt_commit(txn, &number));

  /* what each commit changed, by numbers that are the database's */
  pdt_layer *layer = NULL;
  is("changes of 1", PDT_OK, pdt_changes(a, 1, &layer));
  is("one entry", 1, (long long)pdt_layer_size(layer));
  pdt_layer_close(layer);
  is("changes of 2, which b has", PDT_OK, pdt_changes(a, 2, &layer));
  is("none", 0, (long long)pdt_layer_size(layer));
  pdt_entry entry;
  int64_t cells[2];
  is("no entry", PDT_MISSING, pdt_entry_at(layer, 0, &entry, cells, NULL, 0));
  pdt_layer_close(layer);
  is("changes of 4", PDT_MISSING, pdt_changes(a, 4, &layer));
  is("changes of 0", PDT_MISSING, pdt_changes(a, 0, &layer));
  is("wait", PDT_OK, pdt_wait(c, 1, 0, &number));
  is("c's number", 3, (long long)number);

  /* a table that was made after the database transaction began */
  dbtxn = working(database);
  pdt_table *later = created(database, "later");
  is("later", PDT_MISSING, pdt_dbtxn_on(dbtxn, later, &txn));
  pdt_dbtxn_abort(dbtxn);

  /* a commit in two parts */
  txn = begun(later);
  set(txn, 10, 6);
  is("prepare", PDT_OK, pdt_prepare(txn, &number));
  is("its number", 4, (long long)number);
  is("not by this thread", PDT_MISUSE, pdt_maintain(database));
  is("nor this", PDT_MISUSE, pdt_database_close(database));
  is("give up", PDT_OK, pdt_give_up(txn));
  is("prepare again", PDT_OK, pdt_prepare(txn, &number));
  is("install", PDT_OK, pdt_install(txn));
  is("the next", 5, (long long)committed(a, 10, 0));
  is("an idle work", PDT_OK, pdt_dbtxn_commit(working(database), &number));
  is("the number that it saw", 5, (long long)number);
  closed(database);

  database = opened("works");
  is("commits", 5, (long long)report.commits);
  a = table_named(database, "a");
  b = table_named(database, "b");
  c = table_named(database, "c");
  is("a 10", 0, qty(a, 10));
  is("b 10", 200, qty(b, 10));
  is("c 10", 300, qty(c, 10));
  is("a 20", 2, qty(a, 20));
  is("b 20", 3, qty(b, 20));
  is("a 30", 8, qty(a, 30));
  is("c 30", 9, qty(c, 30));
  is("later 10", 6, qty(table_named(database, "later"), 10));
  closed(database);
}

/* ---- maintenance: images, and a journal that doesn't grow */

static int names_with(const char *name, const char *front) {
  DIR *names = opendir(folder_of(name));
  int count = 0;
  for (struct dirent *one; names && (one = readdir(names));) count += !strncmp(one->d_name, front, strlen(front));
  if (names) closedir(names);
  return count;
}

static void keeps(void) {
  options.fold_entries = 8;
  options.checkpoint_entries = 20;
  options.journal_bytes = 2000;
  pdt_database *database = opened("keeps");
  pdt_table *hot = created(database, "hot"), *cold = created(database, "cold");
  committed(cold, 10, -10);
  for (int64_t i = 0; i < 300; i++) {
    pdt_txn *txn = begun(hot);
    int64_t row[] = {1000 + i, i};
    is("insert", PDT_OK, pdt_insert(txn, row, NULL, 0));
    is("commit", PDT_OK, pdt_commit(txn, NULL));
    if (i % 5 == 4) is("maintenance", PDT_OK, pdt_maintain(database));
  }
  committed(hot, 10, -1);
  is("maintenance", PDT_OK, pdt_maintain(database));
  pdt_database_counts counts = counted(database);
  is("commits", 302, (long long)counts.commits);
  is("all durable", 302, (long long)counts.durable);
  is("some images", 1, counts.checkpoints >= 10);
  is("some folds", 1, counts.folds >= 10);
  is("no fault", 0, (long long)counts.faults);
  is("few files", 1, counts.journal_files <= 3);
  is("few bytes", 1, counts.journal_bytes < 6000);
  is("few in the folder too", 1, names_with("keeps", "journal-") <= (int)counts.journal_files + 1); /* the next one may be made */
  is("an image for each table", 2, names_with("keeps", "image-"));
  closed(database);
  database = opened("keeps");
  is("few to replay", 1, report.replayed < 200);
  hot = table_named(database, "hot");
  for (int64_t i = 0; i < 300; i++) is("a row", i, qty(hot, 1000 + i));
  is("the last", -1, qty(hot, 10));
  is("the cold one", -10, qty(table_named(database, "cold"), 10));
  closed(database);
  options = (pdt_database_options){.size = sizeof options, .no_maintenance = true};
}

/* What was answered before the device had it is there soon after: the thread sees to it, also after a close that was refused. */
static void syncs_late(int sync) {
  options.sync = sync;
  options.no_maintenance = false;
  pdt_database *database = opened(sync == PDT_SYNC_OFF ? "off" : "normal");
  pdt_table *items = created(database, "items");
  pdt_txn *txn = begun(items);
  is("a close under a transaction", PDT_MISUSE, pdt_database_close(database));
  pdt_abort(txn);
  committed(items, 10, 1);
  UNTIL(counted(database).durable >= 1);
  is("durable", 1, (long long)counted(database).durable);
  closed(database);
  options = (pdt_database_options){.size = sizeof options, .no_maintenance = true};
}

/* Where there is no thread, what was answered from memory is on the device after maintenance, and before a checkpoint of it is written. */
static void syncs_when_asked(void) {
  options.sync = PDT_SYNC_OFF;
  pdt_database *database = opened("asked");
  pdt_table *items = created(database, "items");
  committed(items, 10, 1);
  is("in memory", 0, (long long)counted(database).durable);
  is("maintenance", PDT_OK, pdt_maintain(database));
  is("durable", 1, (long long)counted(database).durable);
  committed(items, 10, 2);
  is("mkdir", 0, mkdir(folder_of("asked/image"), 0777));
  is("checkpoint", PDT_OK, pdt_checkpoint(items, folder_of("asked/image")));
  is("durable", 2, (long long)counted(database).durable);
  closed(database);
  options = (pdt_database_options){.size = sizeof options, .no_maintenance = true};
}

/* Nor does what was answered from memory grow there without end: it is written once it is long. */
static void writes_what_is_long(void) {
  static const char header[] = "id:int:key,name:text\n";
  static char name[4000];
  options.sync = PDT_SYNC_OFF;
  pdt_database *database = opened("long");
  pdt_table *table = NULL;
  is("create", PDT_OK, pdt_table_create_csv(database, "t", header, sizeof header - 1, NULL, NULL, &table));
  memset(name, 'x', sizeof name);
  for (int64_t i = 0; i < 600; i++) {
    pdt_txn *txn = begun(table);
    is("insert", PDT_OK, pdt_insert(txn, (int64_t[]){i, sizeof name}, name, sizeof name));
    is("commit", PDT_OK, pdt_commit(txn, NULL));
  }
  is("two batches of a megabyte", 2, (long long)counted(database).batches);
  closed(database);
  options = (pdt_database_options){.size = sizeof options, .no_maintenance = true};
}

/* Maintenance's threads take no signal: those are the caller's threads'. */
static void takes_no_signal(void) {
  options.no_maintenance = false;
  options.sync = PDT_SYNC_NORMAL;
  pdt_database *database = opened("signals");
  sigset_t one, before, waiting;
  sigemptyset(&one);
  sigaddset(&one, SIGUSR1);
  pthread_sigmask(SIG_BLOCK, &one, &before); /* else a thread that takes it ends the process */
  kill(getpid(), SIGUSR1);
  usleep(20000);
  sigpending(&waiting);
  is("it waits", 1, sigismember(&waiting, SIGUSR1));
  int number = 0;
  is("for this thread", 0, sigwait(&one, &number));
  pthread_sigmask(SIG_SETMASK, &before, NULL);
  closed(database);
  options = (pdt_database_options){.size = sizeof options, .no_maintenance = true};
}

/* What maintenance has made stable is read so, also where no commit came since the opening. */
static size_t spans_of(pdt_table *table) {
  pdt_txn *txn = begun(table);
  pdt_int_span spans[8];
  size_t count = 8;
  is("pieces", PDT_OK, pdt_int_spans(txn, 1, 0, 3, spans, &count, NULL));
  pdt_abort(txn);
  return count;
}
static void shows_its_image(void) {
  pdt_database *database = opened("image");
  committed(created(database, "items"), 20, 5);
  closed(database);
  options.checkpoint_entries = 1;
  database = opened("image");
  pdt_table *items = table_named(database, "items");
  is("beside the stable rows", 3, (long long)spans_of(items));
  is("maintenance", PDT_OK, pdt_maintain(database));
  is("one of them", 1, (long long)spans_of(items));
  closed(database);
  options.checkpoint_entries = 0;
}

/* A table that no commit changes keeps no file of the journal, however short that is. */
static void keeps_no_idle(void) {
  options.fold_entries = 8;
  options.checkpoint_entries = 20;
  pdt_database *database = opened("idle");
  pdt_table *hot = created(database, "hot"), *idle = created(database, "idle");
  for (int64_t i = 0; i < 200; i++) {
    pdt_txn *txn = begun(hot);
    is("insert", PDT_OK, pdt_insert(txn, (int64_t[]){1000 + i, i}, NULL, 0));
    is("commit", PDT_OK, pdt_commit(txn, NULL));
    if (i % 5 == 4) is("maintenance", PDT_OK, pdt_maintain(database));
  }
  is("few files", 1, counted(database).journal_files <= 3);
  pdt_counts counts = {.size = sizeof counts};
  is("count", PDT_OK, pdt_count(idle, &counts));
  is("and no image", 0, (long long)counts.checkpoints);
  closed(database);
  options = (pdt_database_options){.size = sizeof options, .no_maintenance = true};
}

/* A file of the journal whose last commit alone a table wants stays. */
static void keeps_the_last(void) {
  options.checkpoint_entries = 2;
  pdt_database *database = opened("last");
  pdt_table *hot = created(database, "hot");
  pdt_txn *txn = begun(hot);
  set(txn, 10, 1), set(txn, 20, 1);
  is("commit", PDT_OK, pdt_commit(txn, NULL));
  pdt_table *cold = created(database, "cold");
  is("the last of its file", 2, (long long)committed(cold, 10, 5));
  is("maintenance", PDT_OK, pdt_maintain(database));
  is("the first of the next", 3, (long long)committed(hot, 10, 3));
  is("maintenance", PDT_OK, pdt_maintain(database));
  closed(database);
  options.checkpoint_entries = 0;
  database = opened("last");
  is("the cold one", 5, qty(table_named(database, "cold"), 10));
  closed(database);
}

static int descriptors(void) {
  DIR *dir = opendir("/proc/self/fd");
  if (!dir) return -1;
  int count = 0;
  while (readdir(dir)) count++;
  closedir(dir);
  return count;
}

/* Two images of one round have the journal's next file once. */
static void turns_over_once(void) {
  int before = descriptors();
  options.checkpoint_entries = 1;
  pdt_database *database = opened("turns");
  pdt_table *one = created(database, "one"), *two = created(database, "two");
  committed(one, 10, 5), committed(two, 20, 6);
  is("maintenance", PDT_OK, pdt_maintain(database));
  is("both at once", 2, (long long)counted(database).checkpoints);
  closed(database);
  options.checkpoint_entries = 0;
  is("files are closed", before, descriptors());
}

/* What a crash has left, whichever of its files, is taken away. */
static void tidies(void) {
  pdt_database *database = opened("tidies");
  committed(created(database, "items"), 10, 5);
  closed(database);
  static const char *const left[] = {"tidies/image-1-77", "tidies/image-9-2"};
  for (int i = 0; i < 2; i++) is("mkdir", 0, mkdir(folder_of(left[i]), 0777));
  static const char *const files[] = {"tidies/image-1-77/column-1.pdt", "tidies/image-1-77/column-31.pdt", "tidies/journal-0"};
  for (int i = 0; i < 3; i++) {
    FILE *file = fopen(folder_of(files[i]), "wb");
    if (!file || fputs("left", file) < 0 || fclose(file)) is("a file", 0, -1);
  }
  database = opened("tidies");
  is("its image alone", 1, names_with("tidies", "image-"));
  is("its journal alone", 1, names_with("tidies", "journal-"));
  is("what was committed", 5, qty(table_named(database, "items"), 10));
  FILE *file = fopen(folder_of("tidies/manifest-new"), "wb"); /* longer than the one that is written next */
  for (int i = 0; file && i < 5000; i++) fputc('x', file);
  if (!file || fclose(file)) is("a file", 0, -1);
  created(database, "more");
  closed(database);
  file = fopen(folder_of("tidies/journal-new"), "wb"); /* and than the frames that an opening writes anew */
  for (int i = 0; file && i < 5000; i++) fputc('x', file);
  if (!file || fclose(file)) is("a file", 0, -1);
  for (int opening = 0; opening < 2; opening++) {
    database = opened("tidies");
    is("nothing is torn", 0, (long long)report.torn_bytes);
    is("another table", 1, qty(table_named(database, "more"), 10));
    closed(database);
  }
}

/* Once all tables are dropped the journal begins anew, after the last number. */
static void starts_over(void) {
  for (int files = 1; files <= 2; files++) {
    const char *name = files == 1 ? "over" : "over again";
    options.checkpoint_entries = 1;
    pdt_database *database = opened(name);
    pdt_table *items = created(database, "items");
    committed(items, 10, 1);
    if (files == 2) is("maintenance", PDT_OK, pdt_maintain(database)), committed(items, 10, 2);
    is("drop", PDT_OK, pdt_table_drop(database, "items"));
    closed(database);
    options.checkpoint_entries = 0;
    for (int opening = 0; opening < 2; opening++) {
      database = opened(name);
      is("its numbers", files, (long long)report.commits);
      closed(database);
    }
    database = opened(name);
    is("the next", files + 1, (long long)committed(created(database, "items"), 10, 7));
    closed(database);
    database = opened(name);
    is("is there", 7, qty(table_named(database, "items"), 10));
    closed(database);
  }
}

/* A table keeps its options. */
static void keeps_options(void) {
  static const char three[] = "id:int:key,a:int,b:int\n1,0,0\n2,0,0\n3,0,0\n";
  static const pdt_options asked = {.size = sizeof asked, .recent = 2, .row_limit = 4, .by_row = true};
  pdt_database *database = opened("options");
  pdt_table *table = NULL;
  is("create", PDT_OK, pdt_table_create_csv(database, "t", three, sizeof three - 1, &asked, NULL, &table));
  for (int opening = 0; opening < 3; opening++) {
    int64_t key = 1;
    pdt_txn *one = begun(table), *two = begun(table), *old = begun(table), *full = begun(table);
    is("a", PDT_OK, pdt_set(one, &key, NULL, 0, 1, opening + 5, NULL));
    is("b", PDT_OK, pdt_set(two, &key, NULL, 0, 2, opening + 5, NULL));
    is("the first", PDT_OK, pdt_commit(one, NULL));
    is("conflicts by row", PDT_CONFLICT, pdt_commit(two, NULL));
    is("insert", PDT_OK, pdt_insert(full, (int64_t[]){8, 0, 0}, NULL, 0));
    is("the limit of rows", PDT_FULL, pdt_insert(full, (int64_t[]){9, 0, 0}, NULL, 0));
    pdt_abort(full);
    key = 3;
    is("set", PDT_OK, pdt_set(old, &key, NULL, 0, 1, opening + 5, NULL));
    for (key = 1; key <= 2; key++) {
      one = begun(table);
      is("set", PDT_OK, pdt_set(one, &key, NULL, 0, 2, opening + 10, NULL));
      is("commit", PDT_OK, pdt_commit(one, NULL));
    }
    is("the last two are kept", PDT_TOO_OLD, pdt_commit(old, NULL));
    if (opening == 1) {
      options.checkpoint_entries = 1;
      closed(database);
      database = opened("options");
      is("maintenance", PDT_OK, pdt_maintain(database)); /* a manifest that is written over what was read */
    }
    closed(database);
    options.checkpoint_entries = 0;
    database = opened("options");
    table = table_named(database, "t");
  }
  closed(database);
}

/* ---- one process */

/* How many files are open, and how many of those aren't closed at an exec. */
static int open_files(int *stay) {
  int count = 0;
  *stay = 0;
  for (int file = 3; file < 256; file++) {
    int flags = fcntl(file, F_GETFD);
    count += flags >= 0;
    *stay += flags >= 0 && !(flags & FD_CLOEXEC);
  }
  return count;
}

static void locks(void) {
  int stay, before, found = open_files(&before);
  pdt_database *database = opened("locks"), *other = NULL;
  is("some files are open", 1, open_files(&stay) > found);
  is("none stays at an exec", before, stay);
  pdt_table *items = created(database, "items");
  is("twice", PDT_LOCKED, try_open("locks", &other));
  pid_t child = fork();
  if (!child) { /* it has none of what its parent opened */
    bool right = try_open("locks", &other) == PDT_LOCKED && pdt_database_close(database) == PDT_MISUSE &&
                 pdt_maintain(database) == PDT_MISUSE;
    pdt_txn *txn = NULL;
    int64_t key = 10;
    right = right && !pdt_begin(items, &txn) && !pdt_set(txn, &key, NULL, 0, 1, 5, NULL) && pdt_prepare(txn, NULL) == PDT_MISUSE &&
            pdt_commit(txn, NULL) == PDT_MISUSE;
    _exit(!right);
  }
  int status = -1;
  waitpid(child, &status, 0);
  is("the child", 0, status);
  committed(items, 10, 5);
  int ends[2];
  is("pipe", 0, pipe(ends));
  child = fork(); /* which has the files too, and lives on */
  if (!child) _exit(close(ends[1]) || read(ends[0], &stay, 1) != 0);
  closed(database);
  database = opened("locks");
  is("what the parent did", 5, qty(table_named(database, "items"), 10));
  closed(database);
  close(ends[0]), close(ends[1]);
  waitpid(child, &status, 0);
  is("the child that lived on", 0, status);
  is("all files are closed", found, open_files(&stay));
}

/* With the standard streams closed no file takes their numbers, and none stays at an exec. */
static void leaves_the_streams(void) {
  pid_t child = fork();
  if (!child) {
    for (int file = 0; file < 3; file++) close(file);
    pdt_database *database = NULL;
    pdt_table *table = NULL;
    int stay, before;
    (void)open_files(&before);
    bool right = !try_open("streams", &database) && !pdt_table_create_csv(database, "t", csv, sizeof csv - 1, NULL, NULL, &table);
    for (int file = 0; file < 3; file++) right = right && fcntl(file, F_GETFD) < 0;
    (void)open_files(&stay);
    _exit(!(right && stay == before && !pdt_database_close(database)));
  }
  int status = -1;
  waitpid(child, &status, 0);
  is("the streams", 0, status);
}

/* ---- folders that this user may not write, or that stand in one that it may not read */

enum { NOBODY = 65534 };
static void in_child_of_nobody(const char *what, int (*dbtxn)(void)) {
  pid_t child = fork();
  if (!child) _exit(chdir(room) || (!geteuid() && (setgid(NOBODY) || setuid(NOBODY))) ? 1 : dbtxn());
  int status = -1;
  waitpid(child, &status, 0);
  is(what, 0, status);
}
static int opens_none(void) {
  pdt_database *database = NULL;
  bool is_refused = pdt_database_open("read-only", &options, &database, NULL) == PDT_IO && errno == EACCES && !database;
  return !(is_refused && pdt_database_open("read-only/new", &options, &database, NULL) == PDT_IO && errno == EACCES && !database);
}
static int opens_one(void) {
  pdt_database *database = NULL;
  return chdir("unread") || pdt_database_open("mine", &options, &database, NULL) || pdt_database_close(database);
}
static void of_others(void) {
  pdt_database *database = opened("read-only");
  committed(created(database, "items"), 10, 5);
  closed(database);
  is("chmod", 0, chmod(folder_of("read-only"), 0555) || chmod(folder_of("read-only/lock"), 0444));
  in_child_of_nobody("a folder that is read alone", opens_none);
  is("chmod", 0, chmod(folder_of("read-only"), 0755) || chmod(folder_of("read-only/lock"), 0644));
  database = opened("read-only");
  is("is as it was", 5, qty(table_named(database, "items"), 10));
  closed(database);
  is("mkdir", 0, mkdir(folder_of("unread"), 0755) || mkdir(folder_of("unread/mine"), 0755));
  if (!geteuid()) is("chown", 0, chown(folder_of("unread/mine"), NOBODY, NOBODY) || chown(folder_of("unread"), NOBODY, NOBODY));
  is("chmod", 0, chmod(folder_of("unread"), 0311)); /* whose names it may not sync */
  in_child_of_nobody("a folder in one that isn't read", opens_one);
  is("chmod", 0, chmod(folder_of("unread"), 0755));
}

/* ---- damage is told */

static void copy_folder(const char *from, const char *to) {
  char words[1200];
  snprintf(words, sizeof words, "rm -rf '%s/%s' && cp -r '%s/%s' '%s/%s'", room, to, room, from, room, to);
  is("copy", 0, system(words));
}
static void change(const char *name, const char *file, long at, int with) {
  char path[1024];
  snprintf(path, sizeof path, "%s/%s/%s", room, name, file);
  FILE *one = fopen(path, "r+b");
  if (!one || fseek(one, at, at < 0 ? SEEK_END : SEEK_SET)) fprintf(stderr, "no %s\n", path), exit(1);
  int was = fgetc(one);
  fseek(one, -1, SEEK_CUR);
  fputc(was ^ with, one);
  fclose(one);
}
static void damaged(const char *what, int wanted, long long fault, const char *file) {
  pdt_database *database = NULL;
  is(what, wanted, try_open("damaged", &database));
  is("no database", 1, !database);
  is("the commit", fault, (long long)report.fault);
  if (strcmp(report.file, file)) is(file, 0, 1), fprintf(stderr, "%s: file %s\n", what, report.file);
}
static void removed(const char *file) {
  char path[1024];
  snprintf(path, sizeof path, "%s/damaged/%s", room, file);
  is("unlink", 0, unlink(path));
}

static void is_told(void) {
  pdt_database *database = opened("whole");
  pdt_table *items = created(database, "items");
  for (int64_t i = 0; i < 5; i++) committed(items, 10, i);
  closed(database);
  for (int at = 0; at < 12; at++) {
    copy_folder("whole", "damaged");
    change("damaged", "image-1-1/column-1.pdt", at, 1 << at % 8);
    damaged("a bit of a column", PDT_CORRUPT, 0, "image-1-1/column-1.pdt");
  }
  copy_folder("whole", "damaged");
  change("damaged", "image-1-1/header.csv", 0, 1);
  damaged("a bit of a header", PDT_CORRUPT, 0, "image-1-1/header.csv");
  copy_folder("whole", "damaged");
  removed("image-1-1/column-0.pdt");
  damaged("a column that is missing", PDT_INCOMPLETE, 0, "image-1-1/column-0.pdt");
  copy_folder("whole", "damaged");
  change("damaged", "manifest", 30, 1);
  damaged("a bit of the manifest", PDT_CORRUPT, 0, "manifest");
  copy_folder("whole", "damaged");
  removed("manifest");
  damaged("a manifest that is missing", PDT_INCOMPLETE, 0, "manifest");
  copy_folder("whole", "damaged");
  removed("journal-1");
  damaged("a journal that is missing", PDT_INCOMPLETE, 0, "journal");
  /* a file of the journal whose last frame is damaged, which no image has, while there is a later one: with its frame, and with a header
     alone */
  options.checkpoint_entries = 1;
  database = opened("two");
  items = created(database, "items");
  committed(items, 10, 1);
  committed(items, 10, 2);
  is("mkdir", 0, mkdir(folder_of("two/manifest-new"), 0777)); /* the next file is made, and the image fails */
  is("maintenance", PDT_IO, pdt_maintain(database));
  is("rmdir", 0, rmdir(folder_of("two/manifest-new")));
  committed(items, 10, 3);
  is("two files", 2, (long long)counted(database).journal_files);
  closed(database);
  options.checkpoint_entries = 0;
  char words[1200];
  for (int round = 0; round < 2; round++) {
    copy_folder("two", "damaged");
    change("damaged", "journal-1", -1, 1);
    if (round) is("truncate", 0, truncate(folder_of("damaged/journal-2"), 36));
    damaged("a frame before another file", PDT_CORRUPT, 2, "");
  }
  database = opened("other");
  committed(created(database, "items"), 10, 1);
  closed(database);
  copy_folder("whole", "damaged");
  snprintf(words, sizeof words, "cp '%s/other/journal-1' '%s/damaged/journal-1'", room, room);
  is("cp", 0, system(words));
  damaged("the journal of another", PDT_MISMATCH, 0, "journal-1");
  copy_folder("whole", "damaged");
  snprintf(words, sizeof words, "mv '%s/damaged/journal-1' '%s/damaged/journal-2'", room, room);
  is("mv", 0, system(words));
  damaged("a file that is out of turn", PDT_INCOMPLETE, 0, "journal-2");
  copy_folder("whole", "damaged");
  change("damaged", "journal-1", 36 + 30, 1);
  damaged("a bit of the first frame", PDT_CORRUPT, 1, "");
  copy_folder("whole", "damaged");
  change("damaged", "journal-1", -1, 1); /* the last one: the manifest notes that it was durable */
  damaged("a bit of the last frame", PDT_CORRUPT, 5, "");
  copy_folder("whole", "open");
  database = opened("open");
  is("one more", 6, (long long)committed(table_named(database, "items"), 10, 40));
  copy_folder("open", "damaged"); /* as a kill would leave it */
  closed(database);
  change("damaged", "journal-1", -1, 1); /* nothing says that the last one was durable */
  database = NULL;
  is("a bit of the last frame", PDT_OK, try_open("damaged", &database));
  is("is torn", 1, report.torn_bytes > 0);
  is("commits", 5, (long long)report.commits);
  is("the last but one", 4, qty(table_named(database, "items"), 10));
  is("goes on", 6, (long long)committed(table_named(database, "items"), 10, 50));
  closed(database);
  is("again", PDT_OK, try_open("damaged", &database));
  is("nothing is torn", 0, (long long)report.torn_bytes);
  is("what came after", 50, qty(table_named(database, "items"), 10));
  closed(database);
}

/* ---- threads: money moves between three tables, and the sum is in each work */

enum { THREADS = 8, MOVES = 300, ACCOUNTS = 50 };
static pdt_table *banks[3];
static pdt_database *bank;
static _Atomic int moves, bad_sums;

static int64_t sum_of(pdt_dbtxn *dbtxn) {
  int64_t sum = 0;
  for (int i = 0; i < 3; i++) {
    int64_t numbers[ACCOUNTS];
    size_t count = ACCOUNTS;
    is("ints", PDT_OK, pdt_ints(on(dbtxn, banks[i]), 1, 0, numbers, &count));
    for (size_t k = 0; k < count; k++) sum += numbers[k];
  }
  return sum;
}
static void *mover(void *context) {
  unsigned seed = (unsigned)(size_t)context;
  for (int done = 0; done < MOVES;) {
    pdt_dbtxn *dbtxn = working(bank);
    if (sum_of(dbtxn) != 3 * ACCOUNTS * 100) bad_sums++;
    pdt_txn *from = on(dbtxn, banks[rand_r(&seed) % 3]), *to = on(dbtxn, banks[rand_r(&seed) % 3]);
    int64_t one = rand_r(&seed) % ACCOUNTS, other = rand_r(&seed) % ACCOUNTS;
    if (from == to && one == other) {
      pdt_dbtxn_abort(dbtxn);
      continue;
    }
    set(from, one, in(from, one) - 1);
    set(to, other, in(to, other) + 1);
    int code = pdt_dbtxn_commit(dbtxn, NULL);
    if (code && code != PDT_CONFLICT) is("move", PDT_OK, code);
    if (!code) done++, moves++;
  }
  return NULL;
}
/* A folder that is copied while it is written: the copy has some moment's state, or it is told that it has none. */
static int copied; /* how many of the copies were opened */
static void is_copied(const char *name) {
  copy_folder(name, "copy");
  pdt_database *copy = NULL;
  int code = try_open("copy", &copy);
  if (code) {
    is("a copy that is told to be none", 1, code == PDT_CORRUPT || code == PDT_INCOMPLETE);
    return;
  }
  copied++;
  int64_t sum = 0;
  for (size_t i = 0; i < 3; i++) {
    char called[PDT_MAX_NAME + 1];
    is("name", PDT_OK, pdt_table_name(copy, i, called, sizeof called));
    pdt_txn *txn = begun(table_named(copy, called));
    int64_t numbers[ACCOUNTS];
    size_t count = ACCOUNTS;
    is("ints", PDT_OK, pdt_ints(txn, 1, 0, numbers, &count));
    for (size_t k = 0; k < count; k++) sum += numbers[k];
    pdt_abort(txn);
  }
  is("the sum of a copy", 3 * ACCOUNTS * 100, sum);
  closed(copy);
}

static void threads(int sync, bool has_maintenance) {
  options.sync = sync;
  options.no_maintenance = !has_maintenance;
  options.fold_entries = 64;
  options.checkpoint_entries = 100;
  char name[32];
  snprintf(name, sizeof name, "bank-%d-%d", sync, has_maintenance);
  bank = opened(name);
  int64_t ids[ACCOUNTS], money[ACCOUNTS];
  for (int i = 0; i < ACCOUNTS; i++) ids[i] = i, money[i] = 100;
  pdt_column columns[] = {{"id", PDT_INT, ACCOUNTS, ids, NULL, NULL, 0}, {"money", PDT_INT, ACCOUNTS, money, NULL, NULL, 0}};
  static const char *const names[] = {"north", "south", "west"};
  for (int i = 0; i < 3; i++) is("bank", PDT_OK, pdt_table_create(bank, names[i], columns, 2, 1, NULL, NULL, &banks[i]));
  moves = 0;
  pthread_t all[THREADS];
  for (size_t i = 0; i < THREADS; i++) is("thread", 0, pthread_create(&all[i], NULL, mover, (void *)(i + 1)));
  for (int i = 0; i < 5; i++) is_copied(name);
  for (size_t i = 0; i < THREADS; i++) pthread_join(all[i], NULL);
  is("bad sums", 0, bad_sums);
  is("commits", moves, (long long)counted(bank).commits);
  closed(bank);
  bank = opened(name);
  for (int i = 0; i < 3; i++) banks[i] = table_named(bank, names[i]);
  is("commits then", moves, (long long)report.commits);
  pdt_dbtxn *dbtxn = working(bank);
  is("the sum", 3 * ACCOUNTS * 100, sum_of(dbtxn));
  pdt_dbtxn_abort(dbtxn);
  closed(bank);
  options = (pdt_database_options){.size = sizeof options, .no_maintenance = true};
}

/* Works begin and last while tables are made and dropped: a table that one of them has isn't dropped. */
enum { DROPS = 12 };
static _Atomic bool dropping;
static void *worker(void *context) {
  (void)context;
  while (dropping) {
    pdt_dbtxn *dbtxn = working(bank);
    nanosleep(&(struct timespec){0, 30000000}, NULL); /* longer than a drop takes, once it isn't refused */
    pdt_dbtxn_abort(dbtxn);
    nanosleep(&(struct timespec){0, 3000000}, NULL);
  }
  return NULL;
}
static void *setter(void *table) { /* whoever has the turn keeps a drop waiting */
  for (int64_t qty = 0; dropping; qty++) {
    pdt_txn *txn = begun(table);
    set(txn, 10, qty);
    is("commit", PDT_OK, pdt_commit(txn, NULL));
  }
  return NULL;
}
static void drops(void) {
  bank = opened("drops");
  pdt_table *kept = created(bank, "kept");
  dropping = true;
  pthread_t all[3];
  for (int i = 0; i < 2; i++) is("thread", 0, pthread_create(&all[i], NULL, worker, NULL));
  is("thread", 0, pthread_create(&all[2], NULL, setter, kept));
  for (int i = 0; i < DROPS; i++) {
    created(bank, "dropped");
    int code;
    while ((code = pdt_table_drop(bank, "dropped")) == PDT_MISUSE) sched_yield();
    is("drop", PDT_OK, code);
  }
  dropping = false;
  for (int i = 0; i < 3; i++) pthread_join(all[i], NULL);
  closed(bank);
}

int main(int argc, char **argv) {
  if (argc < 2) return 2;
  room = argv[1];
  int before = descriptors();
  lasts();
  refuses();
  dbtxns();
  keeps();
  syncs_late(PDT_SYNC_NORMAL);
  syncs_late(PDT_SYNC_OFF);
  syncs_when_asked();
  shows_its_image();
  writes_what_is_long();
  takes_no_signal();
  keeps_no_idle();
  keeps_the_last();
  turns_over_once();
  tidies();
  starts_over();
  keeps_options();
  locks();
  leaves_the_streams();
  of_others();
  is_told();
  threads(PDT_SYNC_FULL, true);
  threads(PDT_SYNC_FULL, false);
  threads(PDT_SYNC_NORMAL, true);
  threads(PDT_SYNC_OFF, true);
  drops();
  is("some copies are opened", 1, copied > 0);
  is("no file is left open", before, descriptors());
  return failures ? 1 : 0;
}
