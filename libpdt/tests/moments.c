/* Databases at chosen moments: calls of the system are held in one thread while others go on, or fail once. What is told is that no
   reader sees what a crash could take away, that none waits for ever, and what a step leaves that comes between two others. Linked with
   --wrap of write, fdatasync, fsync, renameat and close. */
#include "held.h"

/* ---- what isn't on the device isn't seen */

static void sees(pdt_database *database, pdt_table *table, uint64_t number, bool is_kept) {
  uint64_t found = 99;
  pdt_txn *txn = begun(table);
  is("begun", PDT_OK, pdt_txn_version(txn, &found));
  is("what a begin sees", (long long)number, (long long)found);
  pdt_abort(txn);
  pdt_pinned *pin = NULL;
  is("pin", PDT_OK, pdt_pin(table, &found, &pin));
  is("what a pin keeps", (long long)number, (long long)found);
  pdt_unpin(pin);
  pdt_dbtxn *dbtxn = NULL;
  is("work", PDT_OK, pdt_dbtxn_begin(database, &dbtxn));
  is("its end", PDT_OK, pdt_dbtxn_commit(dbtxn, &found));
  is("what a database transaction sees", (long long)number, (long long)found);
  pdt_layer *layer = NULL;
  if (number && is_kept) is("what it changed", PDT_OK, pdt_changes(table, number, &layer));
  pdt_layer_close(layer);
  is("no more changes", PDT_MISSING, pdt_changes(table, number + 1, &layer));
  is("no wait is over", PDT_MISSING, pdt_wait(table, number, 0, &found));
}
static void *waits(task *one) {
  one->code = pdt_wait(one->table, 0, 1500 * LIMIT, &one->number);
  one->ends = 1;
  return NULL;
}

static void hides(void) {
  pdt_database_options options = {.size = sizeof options, .no_maintenance = true};
  pdt_database *database = opened("hides", &options, NULL);
  pdt_table *table = created(database, "a");
  task waiter = {.table = table}, one = {.table = table, .key = 0}, two = {.table = table, .key = 1};
  start(&waiter, waits);
  comes_to_wait("a wait", &waiter);
  hold(&syncs);
  start(&one, commits);
  is("a sync", 1, comes(&syncs.begun, 1));
  start(&two, commits);
  UNTIL(counted(database).commits >= 2);
  is("both are installed", 2, (long long)counted(database).commits);
  sees(database, table, 0, true);
  is("a fold", PDT_OK, pdt_fold(table));
  sees(database, table, 0, true);
  comes_to_wait("nobody is woken", &waiter);
  syncs.let = 1;
  is("the next sync", 1, comes(&syncs.begun, 2));
  is("the first is answered", PDT_OK, joined(&one));
  sees(database, table, 1, true);
  is("the waiter is woken", 1, comes(&waiter.ends, 1));
  is("and told", PDT_OK, joined(&waiter));
  is("the second isn't", 0, two.ends);
  let(&syncs);
  is("the second is answered", PDT_OK, joined(&two));
  sees(database, table, 2, true);
  closed(database);
}

/* ---- what saw a commit that isn't durable waits for it, also where it changes nothing */

static void *ends_commit(task *one) {
  one->code = pdt_commit(one->txn, &one->number);
  one->ends = 1;
  return NULL;
}
static void *ends_parts(task *one) {
  one->code = pdt_prepare(one->txn, &one->number);
  if (!one->code) one->code = pdt_install(one->txn);
  one->ends = 1;
  return NULL;
}
static void *ends_dbtxn(task *one) {
  one->code = pdt_dbtxn_commit(one->dbtxn, &one->number);
  one->ends = 1;
  return NULL;
}

static void early(void) {
  pdt_database_options options = {.size = sizeof options, .no_maintenance = true, .early_reads = true};
  pdt_database *database = opened("early", &options, NULL);
  pdt_table *table = created(database, "a");
  task writer = {.table = table}, by_commit = {.table = table}, by_parts = {.table = table}, by_dbtxn = {.table = table};
  hold(&syncs);
  start(&writer, commits);
  is("a sync", 1, comes(&syncs.begun, 1));
  by_commit.txn = begun(table);
  by_parts.txn = begun(table);
  is("work", PDT_OK, pdt_dbtxn_begin(database, &by_dbtxn.dbtxn));
  start(&by_commit, ends_commit);
  start(&by_parts, ends_parts);
  start(&by_dbtxn, ends_dbtxn);
  comes_to_wait("a commit waits", &by_commit);
  comes_to_wait("a commit in two parts waits", &by_parts);
  comes_to_wait("a database transaction waits", &by_dbtxn);
  let(&syncs);
  task *all[] = {&writer, &by_commit, &by_parts, &by_dbtxn};
  for (int i = 0; i < 4; i++) {
    is("an end", PDT_OK, joined(all[i]));
    is("the number that it saw", 1, (long long)all[i]->number);
  }
  closed(database);
}

/* ---- a thread that has a commit prepared waits for nobody who waits for it */

static void prepared(void) {
  pdt_database_options options = {.size = sizeof options, .no_maintenance = true, .sync = PDT_SYNC_NORMAL};
  pdt_database *database = opened("prepared", &options, NULL);
  pdt_table *table = created(database, "a");
  task one = {.table = table, .key = 0}, two = {.table = table, .key = 1};
  hold(&writes);
  start(&one, commits);
  is("a write", 1, comes(&writes.begun, 1));
  start(&two, commits); /* is installed, and waits for the turn */
  UNTIL(counted(database).commits >= 2);
  pdt_txn *reader = begun(table), *txn = begun(table), *other = begun(table);
  pdt_dbtxn *dbtxn = NULL;
  is("work", PDT_OK, pdt_dbtxn_begin(database, &dbtxn));
  set(txn, 2, 5);
  uint64_t number = 0;
  is("begun", PDT_OK, pdt_txn_version(reader, &number));
  is("sees both", 2, (long long)number);
  is("prepare", PDT_OK, pdt_prepare(txn, NULL));
  is("nothing to prepare", PDT_OK, pdt_prepare(other, NULL));
  let(&writes);
  is("the first", PDT_OK, joined(&one));
  comes_to_wait("the second has the turn now, and waits for the lock", &two);
  alarm(LIMIT); /* for ever, if it waits */
  is("what it saw isn't written", PDT_MISUSE, pdt_commit(reader, NULL));
  is("nor of a database transaction", PDT_MISUSE, pdt_dbtxn_commit(dbtxn, NULL));
  is("nor in two parts", PDT_MISUSE, pdt_install(other));
  is("install", PDT_OK, pdt_install(txn));
  is("the second", PDT_OK, joined(&two));
  is("the end", PDT_OK, pdt_commit(reader, NULL));
  is("the database transaction's end", PDT_OK, pdt_dbtxn_commit(dbtxn, NULL));
  is("the end in two parts", PDT_OK, pdt_install(other));
  alarm(0);
  closed(database);

  /* a checkpoint of what isn't durable */
  options.sync = PDT_SYNC_OFF;
  database = opened("unwritten", &options, NULL);
  table = created(database, "a");
  one = (task){.table = table};
  start(&one, commits);
  is("a commit in memory", PDT_OK, joined(&one));
  pdt_open_checkpoint *checkpoint = NULL;
  is("checkpoint", PDT_OK, pdt_checkpoint_begin(table, NULL, &checkpoint));
  txn = begun(table);
  set(txn, 1, 1);
  char folder[500];
  snprintf(folder, sizeof folder, "%s/image", room);
  is("mkdir", 0, mkdir(folder, 0777));
  is("prepare", PDT_OK, pdt_prepare(txn, NULL));
  is("not now", PDT_MISUSE, pdt_checkpoint_write(checkpoint, folder));
  is("give up", PDT_OK, pdt_give_up(txn));
  is("write", PDT_OK, pdt_checkpoint_write(checkpoint, folder));
  is("is durable then", 1, (long long)counted(database).durable);
  pdt_checkpoint_end(checkpoint);
  is("goes on", PDT_OK, pdt_commit(txn, NULL));
  closed(database);
}

/* ---- tables that are made and dropped while others commit and begin works */

static void *creates(task *one) {
  one->code = pdt_table_create_csv(one->database, one->name, csv, sizeof csv - 1, NULL, NULL, &one->table);
  one->ends = 1;
  return NULL;
}
static void *drops(task *one) {
  one->code = pdt_table_drop(one->database, one->name);
  one->ends = 1;
  return NULL;
}
static void *prepares(task *one) { /* and installs once it is told to */
  pdt_txn *txn = begun(one->table);
  set(txn, 0, 9);
  is("prepare", PDT_OK, pdt_prepare(txn, NULL));
  one->ends = 1;
  comes(&one->goes, 1);
  one->code = pdt_install(txn);
  one->ends = 2;
  return NULL;
}

static void tables(void) {
  pdt_database_options options = {.size = sizeof options, .no_maintenance = true};
  pdt_database *database = opened("tables", &options, NULL);
  pdt_table *a = created(database, "a");
  /* a table is made over what is durable */
  task writer = {.table = a}, maker = {.database = database, .name = "b"};
  hold(&syncs);
  start(&writer, commits);
  is("a sync", 1, comes(&syncs.begun, 1));
  start(&maker, creates);
  comes_to_wait("a creation waits", &maker);
  let(&syncs);
  is("the commit", PDT_OK, joined(&writer));
  is("the creation", PDT_OK, joined(&maker));

  /* a commit comes between its manifest and the list: a crash could take that one away, and its number */
  task other = {.table = a};
  maker.name = "c";
  hold(&renames);
  start(&maker, creates);
  is("a manifest", 1, comes(&renames.begun, 1));
  start(&other, prepares);
  is("prepared", 1, comes(&other.ends, 1));
  hold(&syncs);
  let(&renames);
  comes(&renames.gone, 1);
  comes_to_wait("the maker has the turn, and waits for the lock", &maker);
  other.goes = 1;
  is("it waits for no sync of what came after it", 1, comes(&maker.ends, 1));
  if (!maker.ends) let(&syncs);
  is("the creation", PDT_OK, joined(&maker));
  uint64_t number = 0;
  pdt_txn *txn = begun(maker.table);
  is("begun", PDT_OK, pdt_txn_version(txn, &number));
  pdt_abort(txn);
  is("the number of a new table is durable", 1, number <= counted(database).durable);
  let(&syncs);
  is("the commit between", PDT_OK, joined(&other));
  closed(database);

  /* what isn't synced by itself is before a table is made */
  options.sync = PDT_SYNC_OFF;
  database = opened("tables", &options, NULL);
  is("a", PDT_OK, pdt_table_open(database, "a", &a));
  writer = (task){.table = a};
  start(&writer, commits);
  is("a commit in memory", PDT_OK, joined(&writer));
  created(database, "d");
  is("is durable then", (long long)writer.number, (long long)counted(database).durable);
  closed(database);
}

/* A drop waits for the device, and a database transaction begins meanwhile: it is over the table, which stays. */
static void dropped(void) {
  pdt_database_options options = {.size = sizeof options, .no_maintenance = true};
  pdt_database *database = opened("dropped", &options, NULL);
  pdt_table *a = created(database, "a"), *b = created(database, "b");
  task one = {.table = a, .key = 0}, dropper = {.database = database, .name = "b"};
  hold(&syncs);
  start(&one, commits);
  is("a sync", 1, comes(&syncs.begun, 1));
  start(&dropper, drops);
  comes_to_wait("a drop waits for the commit", &dropper);
  pdt_dbtxn *dbtxn = NULL;
  pdt_txn *txn = NULL;
  is("work", PDT_OK, pdt_dbtxn_begin(database, &dbtxn));
  is("over the table", PDT_OK, pdt_dbtxn_on(dbtxn, b, &txn));
  let(&syncs);
  is("the commit", PDT_OK, joined(&one));
  int code = joined(&dropper);
  is("a drop under a database transaction", PDT_MISUSE, code);
  if (!code) return; /* what the database transaction has is gone */
  is("it reads", PDT_OK, pdt_rows(txn, &(uint64_t){0}));
  pdt_dbtxn_abort(dbtxn);
  is("a drop", PDT_OK, pdt_table_drop(database, "b"));
  closed(database);
}

/* A commit that comes while a drop waits for the device has a number that no other gets. */
static void drops_late(void) {
  pdt_database_options options = {.size = sizeof options, .sync = PDT_SYNC_NORMAL, .no_maintenance = true};
  pdt_database *database = opened("drops-late", &options, NULL);
  pdt_table *a = created(database, "a");
  task one = {.table = a, .key = 0}, two = {.table = a, .key = 1}, dropper = {.database = database, .name = "a"};
  start(&one, commits);
  is("the first", PDT_OK, joined(&one));
  hold(&syncs);
  start(&dropper, drops); /* waits for the first commit */
  is("a sync", 1, comes(&syncs.begun, 1));
  start(&two, commits);
  is("the second", PDT_OK, joined(&two));
  is("its number", 2, (long long)two.number);
  let(&syncs);
  is("a drop", PDT_OK, joined(&dropper));
  closed(database);
  database = opened("drops-late", &options, NULL);
  task three = {.table = created(database, "b")};
  start(&three, commits);
  is("the third", PDT_OK, joined(&three));
  is("a number of its own", 3, (long long)three.number);
  closed(database);
}

/* ---- a manifest that is there, and of which the device isn't sure */

static void unknown(void) {
  pdt_database_options options = {.size = sizeof options, .no_maintenance = true};
  pdt_database *database = opened("unsure", &options, NULL);
  pdt_table *a = created(database, "a"), *table = NULL;
  fails_fsyncs = 1;
  is("a drop that fails", PDT_IO, pdt_table_drop(database, "a"));
  task one = {.table = a};
  start(&one, commits);
  is("it goes on", PDT_OK, joined(&one));
  closed(database);
  database = opened("unsure", &options, NULL);
  is("it is there", PDT_OK, pdt_table_open(database, "a", &table));
  hold(&renames);
  task maker = {.database = database, .name = "b"};
  start(&maker, creates);
  is("a manifest", 1, comes(&renames.begun, 1));
  fails_fsyncs = 1;
  let(&renames);
  is("a creation that fails", PDT_IO, joined(&maker));
  is("none", PDT_MISSING, pdt_table_open(database, "b", &table));
  closed(database);
  database = opened("unsure", &options, NULL);
  is("nor then", PDT_MISSING, pdt_table_open(database, "b", &table));
  closed(database);

  /* an image: both that may be named stay */
  options.checkpoint_entries = 1;
  database = opened("unsure", &options, NULL);
  is("a", PDT_OK, pdt_table_open(database, "a", &a));
  one = (task){.table = a, .key = 1};
  start(&one, commits);
  is("a commit", PDT_OK, joined(&one));
  hold(&renames);
  maker = (task){.database = database};
  start(&maker, keeps_up);
  is("a manifest", 1, comes(&renames.begun, 1));
  fails_fsyncs = 1;
  let(&renames);
  is("maintenance that fails", PDT_IO, joined(&maker));
  closed(database);
  database = opened("unsure", &options, NULL);
  is("it is there", PDT_OK, pdt_table_open(database, "a", &a));
  sees(database, a, 2, false);
  is("and due again", PDT_OK, pdt_maintain(database));

  /* the next one takes a folder that neither manifest names */
  one = (task){.table = a, .key = 2};
  start(&one, commits);
  is("a commit", PDT_OK, joined(&one));
  hold(&renames);
  maker = (task){.database = database};
  start(&maker, keeps_up);
  is("a manifest", 1, comes(&renames.begun, 1));
  fails_fsyncs = 1;
  let(&renames);
  is("maintenance that fails", PDT_IO, joined(&maker));
  is("is counted", 1, (long long)counted(database).faults);
  is("and due at once", PDT_OK, pdt_maintain(database));
  closed(database);

  /* a drop of which the device isn't sure, and the manifest with the table again neither: nothing is written any more */
  database = opened("unsure", &options, NULL);
  is("a", PDT_OK, pdt_table_open(database, "a", &a));
  fails_fsyncs = 2;
  is("a drop that fails", PDT_IO, pdt_table_drop(database, "a"));
  pdt_txn *txn = begun(a);
  set(txn, 0, 1);
  is("a commit", PDT_WRITES_FAILED, pdt_commit(txn, NULL));
  pdt_abort(txn);
  is("a creation", PDT_WRITES_FAILED, pdt_table_create_csv(database, "b", csv, sizeof csv - 1, NULL, NULL, &table));
  is("maintenance", PDT_WRITES_FAILED, pdt_maintain(database));
  is("it reads on", PDT_OK, pdt_begin(a, &txn));
  pdt_abort(txn);
  closed(database);
}

/* What fails is tried again, and not at once: a full disk isn't asked fifty times a second. Between two tries of maintenance is a second,
   or more on a machine that has much else to do. */
static void pauses(void) {
  pdt_database_options options = {.size = sizeof options, .checkpoint_entries = 1};
  pdt_database *database = opened("pauses", &options, NULL);
  pdt_table *table = created(database, "a");
  fails_renames = 1;
  task one = {.table = table};
  start(&one, commits);
  is("commit", PDT_OK, joined(&one));
  is("a try, and another", 1, comes(&tries, 2));
  is("a second later", 1, tried[1] - tried[0] >= 1);
  is("is counted", 1, counted(database).faults >= 1);
  fails_renames = 0;
  closed(database);
}

/* ---- the background thread */

/* It takes files of the journal away while a commit begins the next one. */
static void goes_on(void) {
  pdt_database_options options = {.size = sizeof options, .fold_entries = 4, .checkpoint_entries = 6, .journal_bytes = 100000};
  pdt_database *database = opened("goes-on", &options, NULL);
  pdt_table *table = created(database, "a");
  slow_headers = 1;
  for (int64_t i = 1; i <= 150; i++) {
    pdt_txn *txn = begun(table);
    for (int64_t k = 0; k < 10; k++) is("insert", PDT_OK, pdt_insert(txn, (int64_t[]){100 * i + k, k}, NULL, 0));
    is("commit", PDT_OK, pdt_commit(txn, NULL));
    pass(1);
  }
  slow_headers = 0;
  closed(database);
  pdt_report report = {.size = sizeof report};
  database = opened("goes-on", &options, &report);
  is("all is there", 150, (long long)report.commits);
  closed(database);
}

/* What was answered before the device had it is there a second later. */
static void late(int sync, const char *name) {
  pdt_database_options options = {.size = sizeof options, .sync = sync};
  pdt_database *database = opened(name, &options, NULL);
  pdt_table *table = created(database, "a");
  for (uint64_t number = 1; number <= 2; number++) { /* the second comes after the sync of some round */
    task one = {.table = table, .key = (int64_t)number};
    start(&one, commits);
    is("commit", PDT_OK, joined(&one));
    UNTIL(counted(database).durable >= number);
    is("is on the device", (long long)number, (long long)counted(database).durable);
  }
  closed(database);
}

/* The commit whose sync ends goes on in the next file of the journal, which maintenance has made for an image of the second table, and
   closes the one before: nobody waits for that. The fold of the first table is counted. */
static void *ends_dbtxn_held(task *one) {
  holds_close = 1;
  return ends_dbtxn(one);
}
static void sets_rows(pdt_txn *txn, int64_t count) {
  for (int64_t key = 0; key < count; key++) set(txn, key, 1);
}
static void next_file(void) {
  pdt_database_options options = {.size = sizeof options, .fold_entries = 1, .checkpoint_entries = 2};
  pdt_database *database = opened("next", &options, NULL);
  pdt_table *a = created(database, "a"), *b = created(database, "b");
  pdt_txn *txn = begun(a), *other = NULL;
  sets_rows(txn, 2);
  is("commit", PDT_OK, pdt_commit(txn, NULL));
  UNTIL(counted(database).checkpoints >= 1);
  long maintenance = renamer;
  uint64_t folds = counted(database).folds;
  task two = {.database = database};
  is("work", PDT_OK, pdt_dbtxn_begin(database, &two.dbtxn));
  is("on a", PDT_OK, pdt_dbtxn_on(two.dbtxn, a, &txn));
  is("on b", PDT_OK, pdt_dbtxn_on(two.dbtxn, b, &other));
  sets_rows(txn, 1), sets_rows(other, 2);
  hold(&syncs), hold(&closes);
  start(&two, ends_dbtxn_held);
  is("a sync", 1, comes(&syncs.begun, 1));
  UNTIL(counted(database).folds > folds);
  char path[600];
  snprintf(path, sizeof path, "%s/next/journal-3", room);
  UNTIL(!access(path, F_OK));
  UNTIL(is_asleep(maintenance)); /* until the commit is durable */
  let(&syncs);
  is("a close", 1, comes(&closes.begun, 1));
  is("what goes on meanwhile", 2, (long long)counted(database).durable);
  let(&closes);
  is("commit", PDT_OK, joined(&two));
  UNTIL(counted(database).checkpoints >= 2); /* its manifest names the files that are wanted */
  closed(database);
  options.no_maintenance = true;
  pdt_report report = {.size = sizeof report};
  database = opened("next", &options, &report);
  is("all commits", 2, (long long)report.commits);
  closed(database);
}

/* Once it has gone on in a file that has no header yet, maintenance takes no file away before it: a copy of the folder has all. A table
   that is folded twice meanwhile tells that a whole round has gone by. */
static void copied(const char *from, const char *to) {
  char words[1200];
  snprintf(words, sizeof words, "cp -r '%s/%s' '%s/%s'", room, from, room, to);
  is("copy", 0, system(words));
}
static uint64_t folds_of(pdt_table *table) {
  pdt_counts counts = {.size = sizeof counts};
  is("count", PDT_OK, pdt_count(table, &counts));
  return counts.folds;
}
static void copies_begun(pdt_database *database, pdt_table *b, pdt_table *c) {
  task two = {.table = b}, more[2] = {{.table = c, .key = 0}, {.table = c, .key = 1}};
  hold(&headers);
  start(&two, commits);
  is("a header", 1, comes(&headers.begun, 1));
  for (uint64_t i = 0; i < 2; i++) {
    start(&more[i], commits);
    UNTIL(folds_of(c) > i);
    is("a fold", (long long)i + 1, (long long)folds_of(c));
  }
  copied("begun", "begun-copy");
  let(&headers);
  is("commit", PDT_OK, joined(&two));
  for (int i = 0; i < 2; i++) is("commit", PDT_OK, joined(&more[i]));
  closed(database);
}
static void begun_file(void) {
  pdt_database_options options = {.size = sizeof options, .fold_entries = 1, .checkpoint_entries = 3};
  pdt_database *database = opened("begun", &options, NULL);
  pdt_table *a = created(database, "a"), *b = created(database, "b"), *c = created(database, "c"), *found = NULL;
  task one = {.table = a};
  start(&one, commits);
  is("commit", PDT_OK, joined(&one));
  pdt_txn *txn = begun(b);
  sets_rows(txn, 3);
  is("commit", PDT_OK, pdt_commit(txn, NULL));
  UNTIL(counted(database).checkpoints >= 1);
  copies_begun(database, b, c);
  options.no_maintenance = true;
  pdt_report report = {.size = sizeof report};
  database = opened("begun-copy", &options, &report);
  is("what was answered", 2, (long long)report.commits);
  is("a", PDT_OK, pdt_table_open(database, "a", &found));
  int64_t row[2] = {0, -1}, key = 0;
  txn = begun(found);
  is("get", PDT_OK, pdt_get(txn, &key, NULL, 0, row, NULL, 0, NULL));
  is("its cell", 7, (long long)row[1]);
  pdt_abort(txn);
  closed(database);
}

/* Also while maintenance is over an image for longer than that. */
static void late_under_image(void) {
  pdt_database_options options = {.size = sizeof options, .sync = PDT_SYNC_NORMAL, .checkpoint_entries = 1};
  pdt_database *database = opened("long", &options, NULL);
  pdt_table *table = created(database, "a");
  hold(&renames);
  task one = {.table = table, .key = 0}, two = {.table = table, .key = 1};
  start(&one, commits);
  is("commit", PDT_OK, joined(&one));
  is("a manifest", 1, comes(&renames.begun, 1));
  start(&two, commits);
  is("commit", PDT_OK, joined(&two));
  UNTIL(counted(database).durable >= 2);
  is("is on the device", 2, (long long)counted(database).durable);
  let(&renames);
  closed(database);
}

int main(int argc, char **argv) {
  if (argc < 2) return 2;
  room = argv[1];
  hides();
  early();
  prepared();
  tables();
  dropped();
  drops_late();
  unknown();
  pauses();
  goes_on();
  late(PDT_SYNC_NORMAL, "late");
  late(PDT_SYNC_OFF, "later");
  late_under_image();
  next_file();
  begun_file();
  return failures ? 1 : 0;
}
