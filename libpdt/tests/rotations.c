/* The journal goes on in the next file while an image is made, a sync fails or a table lies idle: what is durable by then, and that no
   image is older than the journal that is left. Linked with --wrap of write, fdatasync, fsync, renameat and close. */
#include "held.h"

/* An image of a table that no commit has changed is as new as the one before it. Else the manifest would name one from before the journal
   that is left, and no opening would take it. */
static void many(pdt_table *table, int64_t keys) {
  pdt_txn *txn = begun(table);
  for (int64_t key = 0; key < keys; key++) set(txn, key, 7);
  is("commit", PDT_OK, pdt_commit(txn, NULL));
}
static void image_of_idle(void) {
  pdt_database_options options = {.size = sizeof options, .no_maintenance = true, .checkpoint_entries = 4};
  pdt_database *database = opened("idle", &options, NULL);
  pdt_table *idle = created(database, "idle"), *busy = created(database, "busy");
  many(idle, 4), many(busy, 1);
  task keeper = {.database = database};
  hold(&renames);
  start(&keeper, keeps_up);
  is("a manifest", 1, comes(&renames.begun, 1));
  is("a fold, so that the image isn't the stable table", PDT_OK, pdt_fold(idle));
  let(&renames);
  is("maintenance", PDT_OK, joined(&keeper));
  many(busy, 4);
  fails_fsyncs = 1; /* of the idle table's next image, while the first file of the journal is let go */
  is("maintenance that fails", PDT_IO, pdt_maintain(database));
  is("what is left", 1, (long long)counted(database).journal_files);
  many(busy, 1);
  is("maintenance", PDT_OK, pdt_maintain(database));
  closed(database);
  pdt_report report = {.size = sizeof report};
  database = opened("idle", &options, &report);
  is("all commits", 4, (long long)report.commits);
  closed(database);
}

/* Once the journal has gone on in the next file, all in the one before is known to be on the device. */
static void durable_before_next(void) {
  pdt_database_options options = {.size = sizeof options, .sync = PDT_SYNC_NORMAL, .no_maintenance = true, .checkpoint_entries = 4};
  pdt_database *database = opened("before-next", &options, NULL);
  pdt_table *a = created(database, "a"), *b = created(database, "b");
  many(a, 4);
  task keeper = {.database = database};
  hold(&fsyncs);
  start(&keeper, keeps_up);
  is("the next file is made", 1, comes(&fsyncs.begun, 1));
  many(b, 1); /* in the first one */
  is("is written alone", 1, (long long)counted(database).durable);
  let(&fsyncs);
  is("maintenance", PDT_OK, joined(&keeper));
  is("is written alone yet", 1, (long long)counted(database).durable);
  many(b, 1);
  is("is durable", 2, (long long)counted(database).durable);
  closed(database);
}

/* A sync fails while a commit waits for it, to go on in the next file: it isn't asked again, and nothing is written there. */
static void failed_before_next(void) {
  pdt_database_options options = {.size = sizeof options, .sync = PDT_SYNC_NORMAL, .no_maintenance = true, .checkpoint_entries = 4};
  pdt_database *database = opened("failed", &options, NULL);
  pdt_table *a = created(database, "a"), *b = created(database, "b");
  many(a, 4);
  task keeper = {.database = database}, last = {.table = b};
  hold(&fsyncs);
  start(&keeper, keeps_up);
  is("the next file is made", 1, comes(&fsyncs.begun, 1));
  many(a, 1); /* in the first one: the image waits until it is durable */
  hold(&syncs);
  let(&fsyncs);
  is("a sync", 1, comes(&syncs.begun, 1));
  start(&last, commits);
  pass(50);
  is("waits", 0, last.ends);
  fails_syncs = 1;
  syncs.let = 1 << 20;
  is("a commit that goes on", PDT_OUTCOME_UNKNOWN, joined(&last));
  is("maintenance that fails", PDT_WRITES_FAILED, joined(&keeper));
  is("no sync is asked again", 1, syncs.begun);
  is("no file is begun", 1, (long long)counted(database).journal_files);
  let(&syncs);
  is("close", PDT_OUTCOME_UNKNOWN, pdt_database_close(database));
  pdt_report report = {.size = sizeof report};
  database = opened("failed", &options, &report);
  is("what was answered", 2, (long long)report.commits);
  closed(database);
}

int main(int argc, char **argv) {
  if (argc != 2) return 2;
  room = argv[1];
  durable_before_next();
  failed_before_next();
  image_of_idle();
  return failures ? 1 : 0;
}
