/* Databases: the object, and how it is opened, closed and counted. */
#define _DEFAULT_SOURCE
#include "database.h"

#include <fcntl.h>
#include <sys/file.h>
#include <sys/mman.h>

/* ---- options and reports */

static int options_of(const pdt_database_options *from, pdt_database_options *options) {
  *options = (pdt_database_options){.size = sizeof *options,
                                    .fold_entries = 1024,
                                    .checkpoint_entries = 10000,
                                    .journal_bytes = 64 << 20,
                                    .kept_bytes = 256 << 20,
                                    .mode = 0666};
  if (!from) return PDT_OK;
  pdt_database_options asked, *given = &asked;
  if (pdti_take_struct(given, sizeof *given, from, offsetof(pdt_database_options, kept_bytes))) return PDT_MISUSE;
  if (given->sync < PDT_SYNC_FULL || given->sync > PDT_SYNC_OFF) return PDT_MISUSE;
  options->sync = given->sync;
  if (given->mode > 0777) return PDT_MISUSE;
  options->early_reads = given->early_reads;
  options->read_only = given->read_only;
  options->no_maintenance = given->no_maintenance || given->read_only;
  if (given->mode) options->mode = given->mode;
  if (given->fold_entries) options->fold_entries = given->fold_entries;
  if (given->checkpoint_entries) options->checkpoint_entries = given->checkpoint_entries;
  if (given->journal_bytes) options->journal_bytes = given->journal_bytes;
  if (given->kept_bytes) options->kept_bytes = given->kept_bytes;
  return PDT_OK;
}

/* ---- the object */

int pdti_reserve_entry(pdt_database *database) {
  if (database->count < database->room) return PDT_OK;
  size_t room = database->room ? 2 * database->room : 16;
  pdti_member **members = malloc(room * sizeof *members);
  if (!members) return PDT_NOMEM;
  if (database->count) memcpy(members, database->members, database->count * sizeof *members);
  free(database->members);
  database->members = members;
  database->room = room;
  return PDT_OK;
}

void pdti_place_entry(pdt_database *database, pdti_member *entry) {
  size_t at = database->count++;
  for (; at && database->members[at - 1]->number > entry->number; at--) database->members[at] = database->members[at - 1];
  database->members[at] = entry;
}

int pdti_add_entry(pdt_database *database, pdti_member *entry) {
  if (pdti_reserve_entry(database)) return PDT_NOMEM;
  pdti_place_entry(database, entry);
  return PDT_OK;
}

void pdti_free_entry(pdti_member *entry) {
  if (entry->table) pdti_free_table(entry->table);
  free(entry);
}

/* Makes the page that says whose it is. Where there is none the process is asked for its number instead. */
static void make_page(pdt_database *database) {
#ifdef MADV_WIPEONFORK
  size_t len = (size_t)sysconf(_SC_PAGESIZE);
  bool *page = mmap(NULL, len, PROT_READ | PROT_WRITE, MAP_PRIVATE | MAP_ANONYMOUS, -1, 0);
  if (page == MAP_FAILED) return;
  *page = !madvise(page, len, MADV_WIPEONFORK);
  if (*page) database->is_ours = page;
  else munmap(page, len);
#else
  (void)database;
#endif
}

static void free_page(pdt_database *database) {
  if (database->is_ours) munmap((void *)(uintptr_t)database->is_ours, (size_t)sysconf(_SC_PAGESIZE));
}

/* Closes a file that is locked. A child of fork has it too, and would keep the lock for as long as it lives. */
static void unlock(int file) {
  if (file < 0) return;
  flock(file, LOCK_UN);
  close(file);
}

/* Lets go of a database that nobody uses, and whose locks are made or not. */
static void free_database(pdt_database *database) {
  for (size_t i = 0; i < database->count; i++) pdti_free_entry(database->members[i]);
  free(database->members);
  pdti_close_journal(database);
  if (database->file >= 0) close(database->file);
  if (database->next_file >= 0) close(database->next_file);
  unlock(database->dir);
  unlock(database->lock_file);
  free_page(database);
  free(database);
}

/* Makes the locks, or none of them. */
static int make_locks(pdt_database *database) {
  pthread_mutex_t *plain[] = {&database->journal_lock, &database->files_lock, &database->maintenance_lock, &database->round_lock};
  pthread_cond_t *conditions[] = {&database->journal_moves, &database->maintenance_wakes, &database->image_ends};
  size_t locks = 0, waits = 0;
  while (locks < 4 && !pthread_mutex_init(plain[locks], NULL)) locks++;
  pthread_condattr_t kind;
  if (locks == 4 && !pthread_condattr_init(&kind)) {
    int bad = pthread_condattr_setclock(&kind, CLOCK_MONOTONIC);
    while (!bad && waits < 3 && !pthread_cond_init(conditions[waits], &kind)) waits++;
    pthread_condattr_destroy(&kind);
  }
  if (waits == 3 && !pdti_make_locks(&database->locks)) return PDT_OK;
  while (waits) pthread_cond_destroy(conditions[--waits]);
  while (locks) pthread_mutex_destroy(plain[--locks]);
  return PDT_NOMEM;
}

static void destroy_locks(pdt_database *database) {
  pdti_destroy_locks(&database->locks);
  pthread_cond_destroy(&database->journal_moves);
  pthread_cond_destroy(&database->maintenance_wakes);
  pthread_cond_destroy(&database->image_ends);
  pthread_mutex_destroy(&database->journal_lock);
  pthread_mutex_destroy(&database->files_lock);
  pthread_mutex_destroy(&database->maintenance_lock);
  pthread_mutex_destroy(&database->round_lock);
}

void pdti_attach(pdt_database *database, pdti_member *entry, uint64_t number) {
  pdt_table *table = entry->table;
  pdti_destroy_locks(&table->own_locks);
  table->locks = &database->locks;
  table->database = database;
  table->member = entry;
  table->commits = number;
  pdti_number(table, pdtr_commits(&table->raw), number);
}

/* Opens a database in a folder that is there. */
static int open_in(pdt_database *database, const char *folder, pdt_report *found) {
  database->dir = pdti_open_in(AT_FDCWD, folder, O_RDONLY | O_DIRECTORY);
  if (database->dir < 0) return database->options.read_only && errno == ENOENT ? PDT_MISSING : PDT_IO;
  int code = pdti_lock_folder(database);
  if (!code) code = pdti_open_folder(database, found);
  return code ? code : pdti_start_maintenance(database);
}

pdt_code pdt_database_open(const char *folder, const pdt_database_options *options, pdt_database **out, pdt_report *told) {
  if (!out) return PDT_MISUSE;
  *out = NULL;
  pdt_report found = {.size = sizeof found};
  pdt_database_options asked;
  if (!folder || !*folder || (told && pdti_may_fill(told, sizeof *told)) || options_of(options, &asked)) return PDT_MISUSE;
  pdt_database *database = calloc(1, sizeof *database);
  if (!database) return PDT_NOMEM;
  database->dir = database->lock_file = database->file = database->next_file = -1;
  database->options = asked;
  database->process = getpid();
  int code = make_locks(database);
  if (code) {
    free(database);
    return code;
  }
  make_page(database);
  bool is_new = false;
  code = asked.read_only ? PDT_OK : pdti_make_folder(folder, asked.mode, &is_new);
  if (!code) code = open_in(database, folder, &found);
  if (told) pdti_fill_struct(told, &found, sizeof found);
  if (code) {
    int why = errno;
    destroy_locks(database);
    pdti_remove_new(database, is_new ? folder : NULL);
    free_database(database);
    errno = why;
    return code == PDT_MISSING ? pdti_say(code, "there is no database in the folder") : pdti_plain(code);
  }
  *out = database;
  return PDT_OK;
}

bool pdti_has_prepared(pdt_database *database) {
  if (pthread_mutex_lock(&database->locks.lock)) return true;
  pthread_mutex_unlock(&database->locks.lock);
  return false;
}

/* Whether something of it is in use. */
static bool is_used(pdt_database *database) {
  if (database->dbtxns) return true;
  bool is_used = false;
  pthread_mutex_lock(&database->locks.lock);
  for (size_t i = 0; i < database->count; i++) is_used |= pdti_is_used(database->members[i]->table);
  pthread_mutex_unlock(&database->locks.lock);
  return is_used;
}

pdt_code pdt_database_close(pdt_database *database) {
  if (!database) return PDT_OK;
  if (!pdti_is_ours(database) || pdti_has_prepared(database)) return PDT_MISUSE;
  pdti_stop_maintenance(database); /* it begins checkpoints, which are uses too */
  if (is_used(database)) {
    (void)pdti_start_maintenance(database); /* where no thread can be made, pdt_maintain does it */
    return PDT_MISUSE;
  }
  int code = pdti_flush(database, true);
  if (!code && !database->options.read_only) (void)pdti_note_durable(database); /* where that fails the commits are durable all the same */
  destroy_locks(database);
  free_database(database);
  return code;
}

/* ---- what it counts */

pdt_code pdt_database_count(pdt_database *database, pdt_database_counts *out) {
  if (!pdti_is_ours(database) || !out || pdti_may_fill(out, offsetof(pdt_database_counts, kept_bytes))) return PDT_MISUSE;
  pdt_database_counts made = {0}, *counts = &made;
  pthread_mutex_lock(&database->journal_lock); /* first: what is durable isn't newer than the newest then */
  counts->durable = database->at.durable;
  counts->batches = database->batches;
  counts->syncs = database->syncs;
  /* one that has no commit yet, behind others, isn't counted: nothing is in it */
  counts->journal_files = database->file_count - (database->file_count > 1 && !database->files[database->file_count - 1].bytes);
  for (size_t i = 0; i < database->file_count; i++) counts->journal_bytes += database->files[i].bytes;
  pthread_mutex_unlock(&database->journal_lock);
  int held = pthread_mutex_lock(&database->locks.lock); /* by this thread, where a commit of its own is prepared */
  counts->commits = database->newest;
  counts->tables = database->count;
  for (size_t i = 0; i < database->count; i++) counts->kept_bytes += pdti_kept_bytes(database->members[i]->table);
  if (!held) pthread_mutex_unlock(&database->locks.lock);
  counts->folds = database->folds;
  counts->checkpoints = database->checkpoints;
  counts->faults = database->faults;
  pdti_fill_struct(out, counts, sizeof *counts);
  return PDT_OK;
}
