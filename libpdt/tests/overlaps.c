/* What goes on while a sync or an image takes long: a conflict with a commit that begins don't see yet is answered once they do, and tables
   are made and dropped while the image of another one is written. Linked with --wrap of write, fdatasync, fsync, renameat and close. */
#include "held.h"

#include <pdt_arrow.h>

/* ---- a conflict with a commit that isn't seen yet */

static void *prepares(task *one) {
  one->code = pdt_prepare(one->txn, &one->number);
  one->ends = 1;
  return NULL;
}
static void *commits_begun(task *one) {
  one->code = pdt_commit(one->txn, &one->number);
  one->ends = 1;
  return NULL;
}
static void *commits_dbtxn(task *one) {
  one->code = pdt_dbtxn_commit(one->dbtxn, &one->number);
  one->ends = 1;
  return NULL;
}

/* Answered at once, it would be met again by each try until the sync is done. */
static void after_conflicts(void) {
  pdt_database_options options = {.size = sizeof options, .no_maintenance = true};
  pdt_database *database = opened("conflicts", &options, NULL);
  pdt_table *table = created(database, "a");
  task writer = {.table = table}, one = {.txn = begun(table)}, two = {.txn = begun(table)}, three = {0};
  is("work", PDT_OK, pdt_dbtxn_begin(database, &three.dbtxn));
  pdt_txn *part = NULL;
  is("on", PDT_OK, pdt_dbtxn_on(three.dbtxn, table, &part));
  set(one.txn, 0, 1), set(two.txn, 0, 2), set(part, 0, 3);
  hold(&syncs);
  start(&writer, commits);
  is("a sync", 1, comes(&syncs.begun, 1));
  start(&one, commits_begun);
  start(&two, prepares);
  start(&three, commits_dbtxn);
  comes_to_wait("a commit", &one);
  comes_to_wait("a prepare", &two);
  comes_to_wait("a database transaction", &three);
  let(&syncs);
  is("the commit before", PDT_OK, joined(&writer));
  is("a commit", PDT_CONFLICT, joined(&one));
  is("a prepare", PDT_CONFLICT, joined(&two));
  is("a database transaction", PDT_CONFLICT, joined(&three));
  pdt_txn *again = begun(table);
  set(again, 0, 4);
  is("the next try", PDT_OK, pdt_commit(again, NULL));
  closed(database);
}

/* Where the device fails meanwhile the answer is the same: nothing of the transaction is there. */
static void after_failure(void) {
  pdt_database_options options = {.size = sizeof options, .no_maintenance = true};
  pdt_database *database = opened("failure", &options, NULL);
  pdt_table *table = created(database, "a");
  task writer = {.table = table}, one = {.txn = begun(table)};
  set(one.txn, 0, 1);
  hold(&syncs);
  start(&writer, commits);
  is("a sync", 1, comes(&syncs.begun, 1));
  start(&one, commits_begun);
  comes_to_wait("a commit", &one);
  fails_syncs = 1;
  let(&syncs);
  is("the commit before", PDT_OUTCOME_UNKNOWN, joined(&writer));
  is("a commit", PDT_CONFLICT, joined(&one));
  is("close", PDT_OUTCOME_UNKNOWN, pdt_database_close(database));
  fails_syncs = 0;
}

/* ---- tables that are made and dropped while an image is written */

static void *keeps_up_slowly(task *one) {
  holds_close = 2; /* the first file of the image, after that of the journal */
  return keeps_up(one);
}
static void *drops(task *one) {
  one->code = pdt_table_drop(one->database, one->name);
  one->ends = 1;
  return NULL;
}

static void while_imaged(void) {
  pdt_database_options options = {.size = sizeof options, .no_maintenance = true, .checkpoint_entries = 4};
  pdt_database *database = opened("imaged", &options, NULL);
  pdt_table *large = created(database, "large"), *found = NULL;
  (void)created(database, "idle");
  pdt_txn *txn = begun(large);
  for (int64_t key = 0; key < 4; key++) set(txn, key, 7);
  is("commit", PDT_OK, pdt_commit(txn, NULL));
  task keeper = {.database = database}, dropper = {.database = database, .name = "large"};
  hold(&closes);
  start(&keeper, keeps_up_slowly);
  is("an image", 1, comes(&closes.begun, 1));
  (void)created(database, "new");
  is("of that name", PDT_EXISTS, pdt_table_create_csv(database, "new", csv, sizeof csv - 1, NULL, NULL, &found));
  is("a drop", PDT_OK, pdt_table_drop(database, "idle"));
  is("a declaration", PDT_OK, pdt_declare(large, 1, NULL));
  start(&dropper, drops);
  comes_to_wait("a drop of the table", &dropper);
  is("the image is still written", 0, closes.gone);
  let(&closes);
  is("maintenance", PDT_OK, joined(&keeper));
  is("the drop", PDT_OK, joined(&dropper));
  is("an image was made", 1, (long long)counted(database).checkpoints);
  closed(database);
  database = opened("imaged", &options, NULL);
  char name[PDT_MAX_NAME + 1];
  is("a table", PDT_OK, pdt_table_name(database, 0, name, sizeof name));
  is("the new one", 0, strcmp(name, "new"));
  is("alone", PDT_MISSING, pdt_table_name(database, 1, name, sizeof name));
  closed(database);
}

int main(int argc, char **argv) {
  if (argc < 2) return 2;
  room = argv[1];
  after_conflicts();
  after_failure();
  while_imaged();
  return failures ? 1 : 0;
}
