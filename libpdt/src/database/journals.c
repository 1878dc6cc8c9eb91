/* The journal of a database. Its steps are a value of the exports: it is told which commits are added and how each step went, and says
   which step is due. Here they are performed, by the threads that wait for them, and without a lock. */
#include "database.h"

#include <fcntl.h>
#include <stdio.h>

/* How far a commit is to come, and so what is due for it. */
enum { TO_BE_WRITTEN = 1, TO_BE_DURABLE = 2 };

/* The steps, as the exports tell them. */
enum { NOTHING, APPEND, SYNC, CREATE, SYNC_NAMES };

enum { PIECES = 64 };

/* ---- under the lock of the tables */

/* Puts what a prepared commit changes of its table behind the parts of the commit so far. With journal_lock held. */
static int stage_part(pdt_database *database, pdt_txn *txn) {
  pdt_table *table = txn->table;
  uint64_t len = 0;
  int code = (int)pdtr_stage(&table->raw, &txn->raw, &txn->decision, table->member->number, &database->journal, &len);
  txn->part_bytes = (size_t)len;
  return code;
}

/* Whether the parts of a frame come in ascending table: an opening takes no other payload. */
static bool is_ascending(pdt_txn *const *txns, size_t count) {
  for (size_t i = 1; i < count; i++)
    if (txns[i - 1]->table->member->number >= txns[i]->table->member->number) return false;
  return true;
}

int pdti_stage(pdt_database *database, pdt_txn *const *txns, size_t count, uint64_t *number) {
  if (!is_ascending(txns, count)) return PDT_WRITES_FAILED;
  int code = PDT_OK;
  size_t bytes = 0;
  pthread_mutex_lock(&database->journal_lock);
  for (size_t i = 0; i < count && !code; i++) {
    code = stage_part(database, txns[i]);
    bytes += txns[i]->part_bytes;
  }
  if (code) pdtr_unstage(&database->journal);
  else code = (int)pdtr_add(&database->journal, number);
  pthread_mutex_unlock(&database->journal_lock);
  database->staged = code ? 0 : bytes;
  database->waiting += database->staged;
  return code;
}

void pdti_unstage(pdt_database *database) {
  pthread_mutex_lock(&database->journal_lock);
  pdtr_withdraw(&database->journal);
  pthread_mutex_unlock(&database->journal_lock);
  database->waiting -= database->staged;
}

int pdti_may_commit(const pdt_database *database) {
  if (!pdti_is_ours(database)) return PDT_MISUSE;
  if (database->options.read_only) return PDT_READONLY;
  return database->has_failed ? PDT_WRITES_FAILED : PDT_OK;
}

/* ---- what begins may see */

bool pdti_hides(const pdt_database *database) { return database->options.sync == PDT_SYNC_FULL && !database->options.early_reads; }

bool pdti_is_hidden(const pdt_table *table) {
  return table->database && pdti_hides(table->database) && table->newest > table->database->published;
}

uint64_t pdti_newest(const pdt_database *database) { return database->newest; }

uint64_t pdti_seen(const pdt_database *database) { return database->published; }

void pdti_enter_changed(pdt_database *database, pdt_table *table) {
  if (table->is_changed || !pdti_hides(database)) return;
  table->is_changed = true;
  table->next_changed = database->changed;
  database->changed = table;
}

/* Takes the versions that the commits of a batch made of each table, which begins take once these are durable. Under the lock. */
static void take_versions(pdt_database *database) {
  database->leaving = NULL;
  pthread_mutex_lock(&database->locks.fresh_lock);
  while (database->changed) {
    pdt_table *table = database->changed;
    database->changed = table->next_changed;
    table->is_changed = false;
    table->next_leaving = database->leaving;
    database->leaving = table;
    table->leaving_newest = table->newest;
    if (!table->coming.at) continue;
    table->leaving = table->coming; /* nothing is there: a batch that failed was the last one */
    table->leaving_commits = table->coming_commits;
    table->coming.at = NULL;
  }
  pthread_mutex_unlock(&database->locks.fresh_lock);
}

/* The commits up to a number are durable: begins take the versions that they made, of all tables at once. The sync that made them so is
   under way until it is reported, and no other batch is taken before. */
static void publish(pdt_database *database, uint64_t upto) {
  if (!pdti_hides(database)) return;
  pthread_mutex_lock(&database->locks.fresh_lock);
  database->published = upto;
  for (pdt_table *table = database->leaving; table; table = table->next_leaving) table->replaced = pdti_publish(table, upto);
  pthread_mutex_unlock(&database->locks.fresh_lock);
  for (pdt_table *table = database->leaving; table; table = table->next_leaving) pdti_drop(table->replaced);
  database->leaving = NULL;
}

/* ---- a step */

/* What is written through a room, so that small frames go to the file together. */
typedef struct {
  int file;
  uint8_t *room;
  size_t len;
  uint64_t written;
} pdti_gathered;

static int flush(pdti_gathered *into) {
  int code = pdti_write_to(into->file, into->room, into->len);
  into->len = 0;
  return code;
}

static int gather(pdti_gathered *into, const uint8_t *bytes, size_t len) {
  into->written += len;
  int code = len > WRITE_ROOM - into->len ? flush(into) : PDT_OK;
  if (code || len > WRITE_ROOM) return code ? code : pdti_write_to(into->file, bytes, len);
  memcpy(into->room + into->len, bytes, len);
  into->len += len;
  return PDT_OK;
}

/* Appends the frames of the batch, behind the header where the file has none. */
static int append_batch(pdt_database *database, uint64_t *written) {
  uint8_t header[JOURNAL_HEADER];
  pdti_gathered into = {database->file, database->write_room, 0, 0};
  int code = gather(&into, header, pdtr_seal(&database->batch, header, sizeof header));
  pdti_piece pieces[PIECES];
  size_t got = 1;
  for (size_t from = 0; got && !code; from += got) {
    got = pdtr_batch_frames(&database->batch, from, pieces, PIECES);
    for (size_t i = 0; i < got && !code; i++) code = gather(&into, pieces[i].at, pieces[i].len);
  }
  if (!code) code = flush(&into);
  pdtr_batch_end(&database->batch);
  *written = into.written;
  return code;
}

/* Makes a file of the journal, which is the next one. */
static int create_file(pdt_database *database, uint64_t seq) {
  char name[FILE_NAME];
  pdti_name_journal(name, seq);
  database->next_file = pdti_make_new(database, database->dir, name, O_WRONLY | O_APPEND);
  return database->next_file < 0 ? PDT_IO : PDT_OK;
}

/* Performs a step, without a lock. */
static int perform(pdt_database *database, uint32_t step, uint64_t file, uint64_t *written) {
  switch (step) {
    case APPEND: return append_batch(database, written);
    case SYNC: return pdti_sync(database->file);
    case CREATE: return create_file(database, file);
    default: return pdti_sync_in(database->dir);
  }
}

/* The last file of the journal. With journal_lock held. */
static pdti_journal_file *last_file(pdt_database *database) { return &database->files[database->file_count - 1]; }

/* The journal goes on in the next file: no append and no sync is under way. The one before is to be closed. With journal_lock held. */
static int go_on(pdt_database *database) {
  int before = database->file;
  database->file = database->next_file;
  database->next_file = -1;
  database->files[database->file_count++] = (pdti_journal_file){.seq = database->at.file};
  return before;
}

/* Takes the next file away, which isn't to be. It is to be closed, where there is one. With journal_lock held. */
static int without_next(pdt_database *database) {
  int file = database->next_file;
  database->next_file = -1;
  return file;
}

/* Reports how a step went, and takes up what the journal says then. *ended is a file to be closed, or -1. With journal_lock held. */
static void report(pdt_database *database, uint32_t step, int code, uint64_t written, int *ended) {
  pdti_journal_numbers before = database->at;
  pdti_journal_file *last = last_file(database);
  bool makes_next = step == CREATE || step == SYNC_NAMES;
  (code ? pdtr_failed : pdtr_done)(&database->journal, step);
  pdtr_journal_numbers(&database->journal, &database->at);
  if (!code && step == APPEND) *last = (pdti_journal_file){last->seq, last->bytes ? last->base : before.written, last->bytes + written};
  *ended = code && makes_next ? without_next(database) : database->at.file != before.file ? go_on(database) : -1;
  database->batches += !code && step == APPEND;
  database->syncs += !code && step == SYNC;
  database->has_failed = database->at.has_failed;
  pthread_cond_broadcast(&database->journal_moves);
}

/* Performs a step that has begun. With journal_lock held, which it gives back meanwhile. */
static int take_step(pdt_database *database, uint32_t step, uint64_t file) {
  uint64_t upto = database->at.written, written = 0;
  pthread_mutex_unlock(&database->journal_lock);
  int code = perform(database, step, file, &written), why = errno, ended;
  if (!code && step == SYNC) publish(database, upto);
  pthread_mutex_lock(&database->journal_lock);
  report(database, step, code, written, &ended);
  if (ended >= 0) { /* some file systems write a file as it is closed */
    pthread_mutex_unlock(&database->journal_lock);
    close(ended);
    pthread_mutex_lock(&database->journal_lock);
  }
  errno = why;
  return code;
}

/* Begins the step that is due toward a goal, or none. With journal_lock held. For an append it is given back to take the lock of the tables
   first: no commit is added or withdrawn meanwhile, and the tables' versions are those of the batch's last commit. What is due may be
   another step then. PDT_MISUSE where this thread has a commit prepared. */
static int begin_step(pdt_database *database, uint32_t goal, uint32_t *step, uint64_t *file) {
  *step = pdtr_due(&database->journal, goal);
  bool locks = *step == APPEND;
  if (locks) {
    pthread_mutex_unlock(&database->journal_lock);
    int is_held = pthread_mutex_lock(&database->locks.lock);
    pthread_mutex_lock(&database->journal_lock);
    if (is_held) return PDT_MISUSE;
    *step = pdtr_due(&database->journal, goal);
  }
  if (*step == APPEND) {
    *step = pdtr_next_batch(&database->journal, file, &database->batch);
    database->waiting = 0;
    if (pdti_hides(database)) take_versions(database);
  } else if (*step != NOTHING) {
    *step = pdtr_next(&database->journal, *step, file);
  }
  if (locks) pthread_mutex_unlock(&database->locks.lock);
  return PDT_OK;
}

/* ---- waiting */

/* Waits until a commit has come so far, and performs what is due for that where no other thread does. */
static int drive(pdt_database *database, uint32_t goal, uint64_t number) {
  const uint64_t *reached = goal == TO_BE_DURABLE ? &database->at.durable : &database->at.written;
  int code = PDT_OK;
  pthread_mutex_lock(&database->journal_lock);
  while (!code && *reached < number && !database->at.has_failed) {
    uint64_t file = 0;
    uint32_t step = NOTHING;
    code = begin_step(database, goal, &step, &file);
    if (!code && step != NOTHING) (void)take_step(database, step, file); /* where it fails the journal has */
    else if (!code && *reached < number && !database->at.has_failed) /* the lock was given back: a step of another thread may have ended */
      pthread_cond_wait(&database->journal_moves, &database->journal_lock);
  }
  if (*reached < number) code = PDT_OUTCOME_UNKNOWN;
  pthread_mutex_unlock(&database->journal_lock);
  return code;
}

int pdti_wait_until_durable(pdt_database *database, uint64_t number) {
  /* where commits don't wait for a sync themselves, one keeps nobody from writing */
  int code = database->options.sync == PDT_SYNC_FULL ? PDT_OK : drive(database, TO_BE_WRITTEN, number);
  return code ? code : drive(database, TO_BE_DURABLE, number);
}

int pdti_wait_for(pdt_database *database, uint64_t number) {
  switch (database->options.sync) {
    case PDT_SYNC_FULL: return drive(database, TO_BE_DURABLE, number);
    case PDT_SYNC_NORMAL: return drive(database, TO_BE_WRITTEN, number);
    default: return PDT_OK;
  }
}

/* Whether nothing is to be waited for before a commit is as durable as the database's sync says, or until the device has it. */
static bool is_there(pdt_database *database, uint64_t number, bool is_durable) {
  if (!is_durable && database->options.sync == PDT_SYNC_OFF) return true;
  if (pdti_hides(database) && number <= database->published) return true; /* with no lock: what a reader saw */
  is_durable |= database->options.sync == PDT_SYNC_FULL;
  pthread_mutex_lock(&database->journal_lock);
  bool is_reached = number <= (is_durable ? database->at.durable : database->at.written);
  pthread_mutex_unlock(&database->journal_lock);
  return is_reached;
}

void pdti_wait_out(pdt_database *database, uint64_t number) {
  if (pdti_hides(database) && number > database->published) (void)pdti_wait_until_durable(database, number);
}

int pdti_wait_for_seen(pdt_database *database, uint64_t number) {
  if (is_there(database, number, false)) return PDT_OK;
  return pdti_has_prepared(database) ? PDT_MISUSE : pdti_wait_for(database, number);
}

int pdti_wait_for_image(pdt_database *database, uint64_t number) {
  if (is_there(database, number, true)) return PDT_OK;
  if (pdti_has_prepared(database)) return PDT_MISUSE;
  return pdti_wait_until_durable(database, number) ? PDT_WRITES_FAILED : PDT_OK;
}

int pdti_flush(pdt_database *database, bool syncs) {
  if (pthread_mutex_lock(&database->locks.lock)) return PDT_MISUSE; /* this thread has a commit prepared */
  uint64_t number = database->newest;
  pthread_mutex_unlock(&database->locks.lock);
  return syncs ? pdti_wait_until_durable(database, number) : drive(database, TO_BE_WRITTEN, number);
}

uint64_t pdti_durable(pdt_database *database) {
  pthread_mutex_lock(&database->journal_lock);
  uint64_t durable = database->at.durable;
  pthread_mutex_unlock(&database->journal_lock);
  return durable;
}

/* What the device made of the last bytes isn't known, and isn't asked again. */
void pdti_fail(pdt_database *database) {
  pthread_mutex_lock(&database->journal_lock);
  if (database->journal.at) { /* nothing before it is opened */
    pdtr_stop(&database->journal);
    pdtr_journal_numbers(&database->journal, &database->at);
  }
  database->has_failed = true;
  pthread_cond_broadcast(&database->journal_moves);
  pthread_mutex_unlock(&database->journal_lock);
}

/* ---- files */

void pdti_name_journal(char *name, uint64_t seq) { pdti_name_file(name, PDTI_JOURNAL, seq, 0); }

int pdti_open_journal(pdt_database *database, uint64_t newest) {
  const pdti_journal_file *last = last_file(database);
  uint64_t base = last->bytes ? last->base : newest; /* a file with no bytes gets its header with its first commit */
  database->write_room = malloc(WRITE_ROOM);
  int code = database->write_room ? (int)pdtr_batch_new(&database->batch) : PDT_NOMEM;
  if (!code)
    code = (int)pdtr_journal_open(database->salt, database->name, base, newest, database->files[0].seq, last->seq, &database->journal);
  if (!code) pdtr_journal_numbers(&database->journal, &database->at);
  database->newest = newest;
  return code;
}

void pdti_close_journal(pdt_database *database) {
  if (database->journal.at) pdtr_journal_close(&database->journal);
  if (database->batch.at) pdtr_batch_close(&database->batch);
  free(database->write_room);
}

int pdti_turn_over(pdt_database *database) {
  int code = PDT_OK;
  uint64_t file = 0;
  pthread_mutex_lock(&database->journal_lock);
  if (database->file_count < JOURNAL_FILES) pdtr_want_next(&database->journal);
  for (uint32_t step; !code && (step = pdtr_next(&database->journal, CREATE, &file)) != NOTHING;) code = take_step(database, step, file);
  pthread_mutex_unlock(&database->journal_lock);
  return code;
}

/* Whether an image that has the commits up to a number needs none before a file. */
static bool begins_by(const pdti_journal_file *file, uint64_t oldest) { return file->bytes && file->base <= oldest; }

uint64_t pdti_first_wanted(pdt_database *database, uint64_t oldest) {
  pthread_mutex_lock(&database->journal_lock);
  size_t at = 0;
  while (at + 1 < database->file_count && begins_by(&database->files[at + 1], oldest)) at++;
  const pdti_journal_file *first = &database->files[at];
  uint64_t seq = !first->bytes || begins_by(first, oldest) ? first->seq : 0;
  pthread_mutex_unlock(&database->journal_lock);
  return seq;
}

uint64_t pdti_first_file(pdt_database *database) {
  pthread_mutex_lock(&database->journal_lock);
  uint64_t seq = database->files[0].seq;
  pthread_mutex_unlock(&database->journal_lock);
  return seq;
}

void pdti_remove_journals(pdt_database *database, uint64_t first) {
  for (;;) {
    uint64_t seq = 0;
    pthread_mutex_lock(&database->journal_lock);
    bool is_removed = database->files[0].seq < first && pdtr_remove_oldest(&database->journal, &seq);
    if (is_removed) memmove(database->files, database->files + 1, --database->file_count * sizeof *database->files);
    pthread_mutex_unlock(&database->journal_lock);
    if (!is_removed) return;
    char name[FILE_NAME];
    pdti_name_journal(name, seq);
    unlinkat(database->dir, name, 0);
  }
}
