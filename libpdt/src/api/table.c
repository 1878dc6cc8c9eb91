/* Tables: their locks, what they have, what keeps them fast and small, and what they count. */
#include "inside.h"

const uint8_t pdti_no_bytes[1];
uint8_t pdti_no_room[1];
int64_t pdti_no_numbers[1];

const char *pdt_code_text(int code) {
  static const char *const texts[] = {
      "done",
      "memory was refused",
      "a commit since the transaction began is in conflict with it",
      "the transaction began before the commits that are kept",
      "the table has as many rows as its limit",
      "there is a row of the key",
      "no such row, table, savepoint or commit exists, or the wait timed out",
      "a cell, a name or a format doesn't fit the table",
      "the text or the columns don't describe a table",
      "a limit is outside its range",
      "the table has more rows than the limit",
      "the room is too small",
      "the files of the checkpoint can't be read as one",
      "the folder has no whole checkpoint",
      "the call may not be made so, or not now",
      "a file failed",
      "a table of this name, or a file of a checkpoint, exists already",
      "a fold or another checkpoint came since the checkpoint began",
      [PDT_NOT_ASCENDING] = "a row's key isn't above that of the row before it",
      [PDT_DEVICE_FAILED] = "the caller's write or stream failed",
      [PDT_LOCKED] = "the database is open already",
      [PDT_CORRUPT] = "a file of the database is damaged",
      [PDT_INCOMPLETE] = "a commit, or a file of the database, is missing",
      [PDT_MISMATCH] = "the journal isn't of these tables",
      [PDT_OUTCOME_UNKNOWN] = "the device failed over the commit, which is there or not",
      [PDT_WRITES_FAILED] = "the device has failed, and nothing is written until the database is opened again",
      [PDT_TOO_LONG] = "what the transaction changes is too long for the journal",
      [PDT_NEWER_FORMAT] = "a later version of the library wrote a file of the database",
      [PDT_READONLY] = "the database was opened for reading alone",
  };
  return code >= 0 && (size_t)code < sizeof texts / sizeof *texts && texts[code] ? texts[code] : "no such code";
}

const char *pdt_version(void) { return PDT_VERSION; }

/* ---- the lock */

int pdti_make_lock(pthread_mutex_t *lock) {
  pthread_mutexattr_t kind;
  if (pthread_mutexattr_init(&kind)) return -1;
  int bad = pthread_mutexattr_settype(&kind, PTHREAD_MUTEX_ERRORCHECK) || pthread_mutex_init(lock, &kind);
  pthread_mutexattr_destroy(&kind);
  return bad;
}

int pdti_make_locks(pdti_locks *locks) {
  if (pthread_mutex_init(&locks->fresh_lock, NULL)) return -1;
  if (!pdti_make_lock(&locks->lock)) return 0;
  pthread_mutex_destroy(&locks->fresh_lock);
  return -1;
}

void pdti_destroy_locks(pdti_locks *locks) {
  pthread_mutex_destroy(&locks->fresh_lock);
  pthread_mutex_destroy(&locks->lock);
}

static uintptr_t this_thread(void) { return (uintptr_t)pthread_self(); }

/* It has been taken. */
static void begin_hold(pdti_locks *locks) {
  atomic_store_explicit(&locks->holder, this_thread(), memory_order_relaxed);
  clock_gettime(CLOCK_MONOTONIC, &locks->since);
}

int pdti_try_enter(pdt_table *table) {
  if (pthread_mutex_trylock(&table->locks->lock)) return PDT_MISUSE;
  begin_hold(table->locks);
  return PDT_OK;
}

int pdti_sleep_in(pdt_table *table) {
  if (pthread_mutex_lock(&table->locks->lock)) return PDT_MISUSE; /* EDEADLK where this thread has it */
  begin_hold(table->locks);
  return PDT_OK;
}

int pdti_enter(pdt_table *table) {
  if (!pdti_try_enter(table)) return PDT_OK;
  if (pdti_is_entered_here(table)) return PDT_MISUSE;
  table->locks->waits++;
  for (int looks = 0; looks < LOOKS; looks++, look_again())
    if (!pdti_is_entered(table) && !pdti_try_enter(table)) return PDT_OK;
  return pdti_sleep_in(table);
}

void pdti_leave(pdt_table *table) {
  pdti_locks *locks = table->locks;
  struct timespec now;
  clock_gettime(CLOCK_MONOTONIC, &now);
  int64_t held = (int64_t)(now.tv_sec - locks->since.tv_sec) * 1000000000 + (now.tv_nsec - locks->since.tv_nsec);
  if (held > (int64_t)locks->longest) locks->longest = (uint64_t)held;
  atomic_store_explicit(&locks->holder, 0, memory_order_relaxed);
  pthread_mutex_unlock(&locks->lock);
}

bool pdti_is_entered(const pdt_table *table) { return atomic_load_explicit(&table->locks->holder, memory_order_relaxed); }

bool pdti_is_entered_here(const pdt_table *table) {
  return atomic_load_explicit(&table->locks->holder, memory_order_relaxed) == this_thread();
}

/* ---- the version that begins take */

/* The table that begins take has another number. */
static void move(pdt_table *table, uint64_t commits) {
  if (table->commits == commits) return;
  table->commits = commits;
  if (table->waiting) pthread_cond_broadcast(&table->moved);
}

pdti_replaced pdti_share(pdt_table *table, pdti_handle version) {
  bool is_hidden = pdti_is_hidden(table);
  pdti_replaced before = {{table->coming}};
  table->coming = is_hidden ? version : (pdti_handle){NULL};
  table->coming_commits = table->newest;
  if (is_hidden) return before; /* what begins take is the newest that is durable, also where malloc has refused this one */
  before.at[1] = table->leaving;
  table->leaving.at = NULL;
  before.at[2] = table->fresh;
  table->fresh = version;
  move(table, table->newest);
  return before;
}

pdti_replaced pdti_publish(pdt_table *table, uint64_t durable) {
  pdti_replaced before = {{{NULL}}};
  if (table->leaving.at) {
    before.at[0] = table->fresh;
    table->fresh = table->leaving;
    table->leaving.at = NULL;
    move(table, table->leaving_commits);
  }
  if (table->coming.at && table->coming_commits <= durable) {
    before.at[1] = table->fresh;
    table->fresh = table->coming;
    table->coming.at = NULL;
    move(table, table->coming_commits);
  }
  if (table->commits < table->leaving_newest) { /* malloc refused it: whoever begins next shares the newest */
    before.at[2] = table->fresh;
    table->fresh.at = NULL;
    move(table, table->leaving_newest);
  }
  return before;
}

pdti_replaced pdti_refresh(pdt_table *table) {
  pdti_handle next = {NULL};
  (void)pdtr_pin(&table->raw, &next); /* nothing, where malloc refuses it */
  if (!table->database) table->newest = pdtr_commits(&table->raw);
  pthread_mutex_lock(&table->locks->fresh_lock);
  pdti_replaced before = pdti_share(table, next);
  pthread_mutex_unlock(&table->locks->fresh_lock);
  return before;
}

void pdti_drop(pdti_replaced versions) {
  for (int i = 0; i < 3; i++)
    if (versions.at[i].at) pdtr_unpin(&versions.at[i]);
}

/* ---- what a table has */

bool pdti_is_used_now(const pdt_table *table) { return table->open || table->checkpoints_open || table->pins || table->waiting; }

bool pdti_is_used(pdt_table *table) {
  pthread_mutex_lock(&table->locks->fresh_lock);
  bool is_used = pdti_is_used_now(table);
  pthread_mutex_unlock(&table->locks->fresh_lock);
  return is_used;
}

void pdti_free_table(pdt_table *table) {
  pdti_drop((pdti_replaced){{table->fresh, table->leaving, table->coming}});
  pdtr_close(&table->raw);
  pthread_cond_destroy(&table->moved);
  if (table->locks == &table->own_locks) pdti_destroy_locks(table->locks);
  free(table->made_by);
  free(table->kept_upto);
  free(table);
}

pdt_code pdt_close(pdt_table *table) {
  if (!table) return PDT_OK;
  if (table->database || pdti_enter(table)) return PDT_MISUSE;
  bool is_used = pdti_is_used(table);
  pdti_leave(table);
  if (is_used) return PDT_MISUSE;
  pdti_free_table(table);
  return PDT_OK;
}

size_t pdt_columns(const pdt_table *table) { return table ? table->width : 0; }
size_t pdt_key_columns(const pdt_table *table) { return table ? table->key : 0; }
int pdt_column_type(const pdt_table *table, size_t column) { return table && column < table->width ? table->types[column] : 0; }
const char *pdt_column_name(const pdt_table *table, size_t column) { return table && column < table->width ? table->names[column] : NULL; }

pdt_code pdt_size(pdt_table *table, pdt_sizes *sizes) {
  if (!table || !sizes) return PDT_MISUSE;
  int held = pdti_enter(table); /* by this thread, where a commit of its own is prepared */
  sizes->commits = table->newest;
  sizes->write_entries = pdtr_write_entries(&table->raw);
  sizes->read_entries = pdtr_read_entries(&table->raw);
  sizes->open_transactions = table->open;
  if (!held) pdti_leave(table);
  return PDT_OK;
}

/* ---- folding, packing, trimming */

/* A Read-PDT is packed where it has so many entries and, for each so many, one that came since it was packed last: then packing takes
   less time in all than the folds. */
enum { PACKED_FROM = 256, PACKED_AGAIN = 16 };

static bool wants_packing(pdt_table *table) {
  uint64_t entries = pdtr_read_entries(&table->raw);
  return entries >= PACKED_FROM && table->unpacked >= entries / PACKED_AGAIN;
}

/* Packs the Read-PDT of a version, without the lock, and has the newest version share it, where that has the same one still. Where
   malloc refuses it, scans stay as fast as they were. */
static void pack(pdt_table *table, pdti_handle *version, uint64_t rebuilt) {
  if (pdtr_pack(version) || pdti_enter(table)) return;
  pdti_replaced before = {{{NULL}}};
  if (table->rebuilt == rebuilt && !pdtr_repack(&table->raw, version)) {
    table->unpacked = 0;
    table->done.packs++;
    before = pdti_refresh(table);
  }
  pdti_leave(table);
  pdti_drop(before);
}

pdt_code pdt_fold(pdt_table *table) {
  if (!table || pdti_enter(table)) return PDT_MISUSE;
  uint64_t entries = pdtr_write_entries(&table->raw), rebuilt = 0;
  int code = (int)pdtr_fold(&table->raw);
  pdti_replaced before = {{{NULL}}};
  pdti_handle version = {NULL}; /* nothing where nothing is to be packed, or malloc refuses it */
  if (!code) {
    rebuilt = ++table->rebuilt;
    table->unpacked += entries;
    table->done.folds++;
    if (wants_packing(table)) (void)pdtr_pin(&table->raw, &version);
    before = pdti_refresh(table);
  }
  pdti_leave(table);
  pdti_drop(before);
  if (version.at) {
    pack(table, &version, rebuilt);
    pdtr_unpin(&version);
  }
  return code;
}

pdt_code pdt_trim(pdt_table *table) {
  if (!table) return PDT_MISUSE;
  pdti_handle trees = {NULL};
  (void)pdtr_room(table->recent, &trees); /* without the lock; where malloc refuses it, the trees are freed under it */
  int code = pdti_enter(table);
  if (!code) {
    if (trees.at) {
      pdtr_cut_into(&table->raw, &trees);
    } else {
      pdtr_cut(&table->raw);
    }
    pdti_leave(table);
  }
  if (trees.at) pdtr_trees_close(&trees);
  return code;
}

/* ---- what it counts */

/* How many entries the changes of the last commits have. */
static uint64_t kept_entries(pdt_table *table, size_t kept, uint64_t commits) {
  uint64_t entries = 0;
  for (size_t back = 0; back < kept; back++) entries += pdtr_change_entries(&table->raw, commits - back);
  return entries;
}

pdt_code pdt_count(pdt_table *table, pdt_counts *out) {
  if (!table || !out || pdti_may_fill(out, offsetof(pdt_counts, packs))) return PDT_MISUSE;
  pdt_counts made = {0}, *counts = &made;
  int held = pdti_enter(table); /* by this thread, where a commit of its own is prepared */
  counts->commits = table->done.commits;
  counts->conflicts = table->done.conflicts;
  counts->too_old = table->done.too_old;
  counts->full = table->done.full;
  counts->folds = table->done.folds;
  counts->checkpoints = table->done.checkpoints;
  counts->superseded = table->done.superseded;
  counts->kept = pdtr_kept(&table->raw);
  counts->kept_entries = kept_entries(table, counts->kept, pdtr_commits(&table->raw));
  counts->longest_hold = table->locks->longest;
  counts->packs = table->done.packs;
  if (!held) pdti_leave(table);
  counts->waits = table->locks->waits;
  counts->begins = table->begins;
  pthread_mutex_lock(&table->locks->fresh_lock);
  counts->pins = table->pins;
  counts->oldest_pin = table->oldest ? table->oldest->commits : 0;
  pthread_mutex_unlock(&table->locks->fresh_lock);
  pdti_fill_struct(out, counts, sizeof *counts);
  return PDT_OK;
}
