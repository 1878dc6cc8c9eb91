/* What keeps a database fast and small while others commit: folds, images of the tables, and files that are needed no longer; and once
   none commits any more, what the manifest notes of the last ones. */
#include "database.h"

#include <signal.h>

/* Where a round has folded the next one comes soon, so that what is folded at once stays little. */
enum { EVERY_MS = 20, SOON_MS = 4, SYNC_ROUNDS = 50, QUIET_MS = 1000 };

/* ---- what is due */

/* How large a table and its layers are. */
typedef struct {
  uint64_t rows, write_entries, read_entries, newest;
} pdti_measure;

/* No transaction of the caller's counts is begun for it. */
static uint64_t rows_of(pdt_table *table) {
  pdti_handle txn = {NULL};
  pthread_mutex_lock(&table->locks->fresh_lock);
  if (table->fresh.at) (void)pdtr_begin_at(&table->fresh, 0, &txn);
  pthread_mutex_unlock(&table->locks->fresh_lock);
  if (!txn.at) return 0;
  uint64_t rows = pdtr_rows(&txn);
  pdtr_abort(&txn);
  return rows;
}

static int measure_table(pdt_table *table, pdti_measure *of) {
  if (pdti_enter(table)) return PDT_MISUSE;
  of->write_entries = pdtr_write_entries(&table->raw);
  of->read_entries = pdtr_read_entries(&table->raw);
  of->newest = table->newest;
  pdti_leave(table);
  of->rows = rows_of(table);
  return PDT_OK;
}

/* Each scan merges the entries of the layers: a fiftieth of the rows costs it little. */
static bool wants_image(const pdt_database *database, const pdti_measure *of) {
  uint64_t entries = of->write_entries + of->read_entries;
  return entries >= database->options.checkpoint_entries && entries >= of->rows / 50;
}

/* Whether the journal is longer than it may be, so that what keeps its oldest file is let go. */
static bool is_long(pdt_database *database) {
  uint64_t bytes = 0;
  pthread_mutex_lock(&database->journal_lock);
  for (size_t i = 0; i < database->file_count; i++) bytes += database->files[i].bytes;
  pthread_mutex_unlock(&database->journal_lock);
  return bytes > database->options.journal_bytes;
}

/* ---- images */

/* Writes the files of an image of a table. Without files_lock: others make and drop tables meanwhile. */
static int write_image(pdt_database *database, pdti_member *entry, pdt_open_checkpoint **checkpoint, pdti_table_image *made) {
  pdti_handle bytes = {NULL};
  int code = pdt_checkpoint_begin(entry->table, &made->number, checkpoint);
  if (!code) code = pdti_checkpoint_image(*checkpoint, &bytes);
  if (!code) code = pdti_write_image(database, entry, &bytes, made);
  int why = errno;
  if (bytes.at) pdtr_image_close(&bytes);
  errno = why;
  return code;
}

/* Has the manifest name an image in place of the one before, which goes. With files_lock held. */
static int name_image(pdt_database *database, pdti_member *entry, pdti_table_image *made) {
  pdti_table_image before = entry->image;
  bool in_doubt;
  /* a table that no commit has changed begins with the number that renumber gave the image before: the files of the journal up to
     that one may be gone. A commit that came since has a greater one. */
  if (made->number < before.number) made->number = before.number;
  entry->image = *made;
  int code = pdti_write_manifest(database, made->number, NULL, &in_doubt); /* it is durable: an image is made of no other table */
  if (code) entry->image = before;                                         /* where either may be named both stay */
  if (!code) pdti_remove_image(database, entry->number, before.folder);
  if (code && !in_doubt) pdti_remove_image(database, entry->number, made->folder);
  return code;
}

/* Makes an image of a table, has the manifest name it, and makes it the stable table in memory. With files_lock held, which it gives back
   while it writes. */
static int make_image(pdt_database *database, pdti_member *entry) {
  pdt_open_checkpoint *checkpoint = NULL;
  pdti_table_image made = {.folder = database->next_folder++}; /* what an earlier try left may be named yet */
  entry->is_imaged = true;
  pthread_mutex_unlock(&database->files_lock);
  int code = write_image(database, entry, &checkpoint, &made);
  pthread_mutex_lock(&database->files_lock);
  if (!code) code = name_image(database, entry, &made);
  if (!code) {
    database->checkpoints++;
    pdti_checkpoint_is_written(checkpoint);
    code = pdt_checkpoint_install(checkpoint);
    if (code == PDT_SUPERSEDED) code = PDT_OK; /* a fold of the caller's came between: the image is as good */
  }
  int why = errno;
  pdt_checkpoint_end(checkpoint);
  entry->is_imaged = false;
  pthread_cond_broadcast(&database->image_ends);
  errno = why;
  return code;
}

/* The image of a table that no commit has changed since is that of later commits too. */
static void renumber(pdti_member *entry, const pdti_measure *of, uint64_t durable) {
  if (of->newest <= entry->image.number && durable > entry->image.number) entry->image.number = durable;
}

/* Lets go of the files of the journal that no image wants any more, once the manifest says so. With files_lock held. */
static int tidy(pdt_database *database, uint64_t durable) {
  uint64_t oldest = durable;
  for (size_t i = 0; i < database->count; i++)
    if (database->members[i]->image.number < oldest) oldest = database->members[i]->image.number;
  uint64_t first = pdti_first_wanted(database, oldest);
  if (!first) return PDT_INCOMPLETE;
  if (first == pdti_first_file(database)) return PDT_OK;
  int code = pdti_write_manifest(database, durable, NULL, NULL);
  if (!code) pdti_remove_journals(database, first);
  return code;
}

/* ---- a round */

/* What is known at the begin of a round. */
typedef struct {
  uint64_t newest, durable;
  uint64_t wanted; /* each table gets a checkpoint that has the commits up to here */
} pdti_round;

static pdti_round begin_round(pdt_database *database) {
  bool is_journal_long = is_long(database);
  pthread_mutex_lock(&database->locks.lock);
  uint64_t newest = database->newest;
  pthread_mutex_unlock(&database->locks.lock);
  pthread_mutex_lock(&database->journal_lock);
  pdti_round now = {newest, database->at.durable, 0};
  /* its first file goes once each image has the commits that are in it */
  if (is_journal_long) now.wanted = database->file_count > 1 && database->files[1].bytes ? database->files[1].base : now.durable;
  pthread_mutex_unlock(&database->journal_lock);
  return now;
}

/* Folds a Write-PDT that is large. */
static int fold_where_large(pdt_database *database, pdt_table *table) {
  pdti_measure of;
  int code = measure_table(table, &of);
  if (code || of.write_entries < database->options.fold_entries) return code;
  code = pdt_fold(table);
  database->folds += !code;
  return code;
}

/* Does what is due of a table. With files_lock held, which an image gives back. */
static int keep_table(pdt_database *database, pdti_member *entry, const pdti_round *now) {
  pdti_measure of;
  int code = measure_table(entry->table, &of);
  if (code) return code;
  renumber(entry, &of, now->durable);
  if (wants_image(database, &of) || entry->image.number < now->wanted) {
    code = pdti_turn_over(database); /* so that the file that is written now goes some day too */
    if (!code) code = make_image(database, entry);
    if (code) return code;
  }
  return fold_where_large(database, entry->table); /* after an image those that came while it was written, into an empty tree */
}

/* The manifest notes the last commit once none has come for a second: so damage to a database at rest is reported, and under load
   nothing is written for it. With files_lock held. */
static int note_where_quiet(pdt_database *database, uint64_t durable) {
  struct timespec now;
  clock_gettime(CLOCK_MONOTONIC, &now);
  if (durable != database->quiet_at) {
    database->quiet_at = durable;
    database->quiet_since = now;
    return PDT_OK;
  }
  int64_t passed = (int64_t)(now.tv_sec - database->quiet_since.tv_sec) * 1000 + (now.tv_nsec - database->quiet_since.tv_nsec) / 1000000;
  return passed < QUIET_MS ? PDT_OK : pdti_note_durable(database);
}

/* Whether it takes commits: else there is nothing to keep up with, and no image may be made of what isn't durable. */
static bool takes_commits(const pdt_database *database) { return !database->has_failed; }

/* The first table from a number on, or null: they are in the order of their numbers. */
static pdti_member *next_table(const pdt_database *database, uint64_t number) {
  size_t from = 0, to = database->count;
  while (from < to) {
    size_t middle = from + (to - from) / 2;
    if (database->members[middle]->number < number) from = middle + 1;
    else to = middle;
  }
  return from < database->count ? database->members[from] : NULL;
}

/* Does what is due of all tables and of the journal. With files_lock held, which an image gives back. */
static int keep_all(pdt_database *database, const pdti_round *now) {
  int code = PDT_OK;
  uint64_t next = 0; /* the least number of a table that is left: others may be made and dropped while an image is written */
  for (pdti_member *entry; (entry = next_table(database, next));) {
    next = (uint64_t)entry->number + 1;
    int one = keep_table(database, entry, now);
    if (one) code = one;
  }
  int freed = pdti_let_go_of_oldest(database), last = tidy(database, now->durable);
  return last ? last : freed ? freed : code;
}

/* Looks at all tables, where the last round has left something to do, or a commit has come since or become durable. With files_lock held,
   as keep_all. */
static int keep_changed(pdt_database *database, const pdti_round *now) {
  if (database->is_rested && database->rested_newest == now->newest && database->rested_durable == now->durable) return PDT_OK;
  uint64_t done = database->folds + database->checkpoints;
  int code = keep_all(database, now);
  database->is_rested = !code && done == database->folds + database->checkpoints;
  database->rested_newest = now->newest;
  database->rested_durable = now->durable;
  return code;
}

/* One round at a time. */
static int dbtxn_round(pdt_database *database) {
  if (!takes_commits(database)) return PDT_WRITES_FAILED;
  pthread_mutex_lock(&database->round_lock);
  pthread_mutex_lock(&database->files_lock);
  pdti_round now = begin_round(database);
  int code = keep_changed(database, &now), last = note_where_quiet(database, now.durable);
  if (!code) code = last;
  database->faults += code != PDT_OK;
  pthread_mutex_unlock(&database->files_lock);
  pthread_mutex_unlock(&database->round_lock);
  return code;
}

pdt_code pdt_maintain(pdt_database *database) {
  if (!pdti_is_ours(database)) return PDT_MISUSE;
  if (database->options.read_only) return PDT_READONLY;
  int code = pdti_flush(database, true);
  if (code) return code == PDT_MISUSE ? code : PDT_WRITES_FAILED;
  pthread_mutex_lock(&database->files_lock);
  database->is_rested = false;
  pthread_mutex_unlock(&database->files_lock);
  return dbtxn_round(database);
}

/* ---- the thread */

/* Waits so long for the next round, or until it is told to stop. */
static bool goes_on(pdt_database *database, int milliseconds) {
  struct timespec at;
  clock_gettime(CLOCK_MONOTONIC, &at);
  at.tv_nsec += milliseconds * 1000000L;
  if (at.tv_nsec >= 1000000000L) at.tv_sec++, at.tv_nsec -= 1000000000L;
  pthread_mutex_lock(&database->maintenance_lock);
  int late = 0;
  while (!database->stops && !late) late = pthread_cond_timedwait(&database->maintenance_wakes, &database->maintenance_lock, &at);
  bool stops = database->stops;
  pthread_mutex_unlock(&database->maintenance_lock);
  return !stops;
}

/* What was answered before the device had it is there a second later. */
static void flush_late(pdt_database *database, unsigned turn) {
  int sync = database->options.sync;
  if (sync == PDT_SYNC_FULL) return;
  if (turn % SYNC_ROUNDS == 0) {
    (void)pdti_flush(database, true);
  } else if (sync == PDT_SYNC_OFF && turn % 5 == 0) {
    (void)pdti_flush(database, false);
  }
}

static void *keep_up(void *context) {
  pdt_database *database = context;
  int wait = EVERY_MS;
  for (unsigned pause = 0; goes_on(database, wait);) {
    uint64_t folds = database->folds;
    if (pause) {
      pause--;
    } else if (dbtxn_round(database)) {
      pause = SYNC_ROUNDS; /* what fails is due again: a full disk is tried once in a second */
    }
    wait = database->folds > folds ? SOON_MS : EVERY_MS;
  }
  return NULL;
}

/* A thread of its own, since an image may take longer than a second to write. */
static void *keep_durable(void *context) {
  pdt_database *database = context;
  for (unsigned turn = 0; goes_on(database, EVERY_MS); turn++) flush_late(database, turn);
  return NULL;
}

/* Makes a thread that takes no signal: those are the caller's threads'. */
static bool start(pthread_t *thread, void *(*run)(void *), pdt_database *database) {
  sigset_t all, before;
  sigfillset(&all);
  if (pthread_sigmask(SIG_SETMASK, &all, &before)) return false;
  bool is_made = !pthread_create(thread, NULL, run, database);
  pthread_sigmask(SIG_SETMASK, &before, NULL);
  return is_made;
}

int pdti_start_maintenance(pdt_database *database) {
  if (database->options.no_maintenance) return PDT_OK;
  database->stops = false;
  database->has_thread = start(&database->thread, keep_up, database);
  if (!database->has_thread) return PDT_NOMEM;
  if (database->options.sync == PDT_SYNC_FULL) return PDT_OK;
  database->has_syncer = start(&database->syncer, keep_durable, database);
  if (!database->has_syncer) pdti_stop_maintenance(database);
  return database->has_syncer ? PDT_OK : PDT_NOMEM;
}

void pdti_stop_maintenance(pdt_database *database) {
  if (!database->has_thread) return;
  pthread_mutex_lock(&database->maintenance_lock);
  database->stops = true;
  pthread_cond_broadcast(&database->maintenance_wakes);
  pthread_mutex_unlock(&database->maintenance_lock);
  pthread_join(database->thread, NULL);
  if (database->has_syncer) pthread_join(database->syncer, NULL);
  database->has_thread = database->has_syncer = false;
}
