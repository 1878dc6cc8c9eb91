/* A second journal value, beside the library's: it is told the same commits and the same ends of steps, and each call of the system on a
   file of the journal has to be the step that it says is due, of the thread that has begun it, on the file of its number, and with the bytes
   of its batch. Linked with --wrap of the exports. */
#ifndef SIMULATED_STEPS_H
#define SIMULATED_STEPS_H

#include "simulated_disk.h"

enum { NO_STEP, APPEND, SYNC, CREATE, SYNC_NAMES };
enum { PIECES = 16 };

/* What a thread has begun, and what has come of it. */
typedef struct {
  uint32_t step;
  uint64_t file;
  uint64_t upto; /* what was written when it began */
  bool is_done, is_bad;
} begun_step;
static begun_step begun_steps[THREADS];

static pdti_handle value, batch; /* the second one, and its batch */
static pdti_journal_numbers told;
static bool is_told;      /* it is open */
static bool checks_steps; /* calls are compared with it */
static uint8_t *sealed;   /* the bytes of the batch that is appended, and how many of them are written */
static size_t sealed_len, sealed_room, sealed_at;

/* What the model makes of a commit that is added, or taken back. */
static void commit_added(uint64_t number);
static void commit_withdrawn(void);

static begun_step *mine(void) { return &begun_steps[current]; }
/* The newest commit that a sync has covered: it is seen before the sync is reported, and also where the journal was stopped meanwhile. */
static uint64_t synced_upto;
static void step_is(const char *what, long long wanted, long long found) {
  if (checks_steps) is(what, wanted, found);
}

/* ---- calls of the system */

static void step_writes(const node *file, const void *bytes, size_t len) {
  if (!is_told || !file->journal) return;
  step_is("a write of the journal is a step that is due", APPEND, mine()->step);
  step_is("the file that is written", (long long)mine()->file, (long long)file->journal);
  step_is("no write follows one that has failed", 0, mine()->is_bad);
  step_is("no more than the batch is written", 1, len <= sealed_len - sealed_at);
  step_is("the bytes of the batch are written", 0, memcmp(sealed + sealed_at, bytes, len));
}
static void step_wrote(const node *file, size_t len, bool is_bad) {
  if (!is_told || !file->journal) return;
  sealed_at += len;
  mine()->is_bad |= is_bad;
  mine()->is_done = sealed_at == sealed_len && !is_bad;
}
static void step_syncs(const node *file) {
  if (!is_told || !file->journal) return;
  step_is("a sync of the journal is a step that is due", SYNC, mine()->step);
  step_is("the file that is synced", (long long)mine()->file, (long long)file->journal);
  step_is("no second sync is asked for", 0, mine()->is_done || mine()->is_bad);
}
static void step_synced(const node *file, bool is_bad) {
  if (!is_told || !file->journal) return;
  mine()->is_done = !is_bad;
  mine()->is_bad = is_bad;
  if (!is_bad && mine()->upto > synced_upto) synced_upto = mine()->upto;
}
static void step_makes(uint64_t journal) {
  if (!is_told || !journal) return;
  step_is("a file of the journal is a step that is due", CREATE, mine()->step);
  step_is("the file that is made", (long long)mine()->file, (long long)journal);
}
static void step_made(uint64_t journal, bool is_bad) {
  if (!is_told || !journal) return;
  mine()->is_done = !is_bad;
}
static bool step_syncs_names(void) { return is_told && mine()->step == SYNC_NAMES && !mine()->is_done; }
static void step_synced_names(bool is_bad) {
  if (!step_syncs_names()) return;
  mine()->is_done = !is_bad;
  mine()->is_bad = is_bad;
}
/* One of the journal that no opening wants any more, one in the way of the next one, or that of a new database that isn't opened. */
static void step_removes(uint64_t journal) {
  if (!is_told || !journal) return;
  bool is_next = is_opening || (mine()->step == CREATE && mine()->file == journal);
  step_is("a file of the journal that goes is wanted no more", 1, is_next || journal < told.first_file);
}

/* ---- the exports: the second value is told what the first is */

#define QUIETLY(...) (undrawn++, __VA_ARGS__, undrawn--)
void __real_pdtr_journal_numbers(pdti_handle *, pdti_journal_numbers *);
static void ask(void) { QUIETLY(__real_pdtr_journal_numbers(&value, &told)); }

uint32_t __real_pdtr_journal_open(uint64_t, uint64_t, uint64_t, uint64_t, uint64_t, uint64_t, pdti_handle *);
uint32_t __wrap_pdtr_journal_open(uint64_t salt, uint64_t name, uint64_t base, uint64_t newest, uint64_t first, uint64_t file,
                                  pdti_handle *journal) {
  uint32_t code = __real_pdtr_journal_open(salt, name, base, newest, first, file, journal), again = 0, room = 0;
  if (code) return code;
  value.at = batch.at = NULL;
  QUIETLY(again = __real_pdtr_journal_open(salt, name, base, newest, first, file, &value), room = pdtr_batch_new(&batch));
  is("a second value", 0, again + room);
  is_told = true;
  synced_upto = newest;
  memset(begun_steps, 0, sizeof begun_steps);
  ask();
  return code;
}
void __real_pdtr_journal_close(pdti_handle *);
void __wrap_pdtr_journal_close(pdti_handle *journal) {
  __real_pdtr_journal_close(journal);
  QUIETLY(__real_pdtr_journal_close(&value), pdtr_batch_close(&batch));
  is_told = false;
}
void __wrap_pdtr_journal_numbers(pdti_handle *journal, pdti_journal_numbers *numbers) {
  __real_pdtr_journal_numbers(journal, numbers);
  ask();
  step_is("the newest commit", (long long)told.newest, (long long)numbers->newest);
  step_is("the newest one that is written", (long long)told.written, (long long)numbers->written);
  step_is("the newest one that is durable", (long long)told.durable, (long long)numbers->durable);
  step_is("the file that is written", (long long)told.file, (long long)numbers->file);
  step_is("the oldest file", (long long)told.first_file, (long long)numbers->first_file);
  step_is("a failure", told.has_failed, numbers->has_failed);
  if (planted == ANSWERS_EARLY) numbers->durable = numbers->written;
}
uint32_t __real_pdtr_stage(pdti_handle *, pdti_handle *, pdti_handle *, uint32_t, pdti_handle *, uint64_t *);
uint32_t __wrap_pdtr_stage(pdti_handle *raw, pdti_handle *txn, pdti_handle *decision, uint32_t table, pdti_handle *journal, uint64_t *len) {
  uint32_t code = __real_pdtr_stage(raw, txn, decision, table, journal, len), again = 0;
  uint64_t bytes = 0;
  if (code) return code;
  QUIETLY(again = __real_pdtr_stage(raw, txn, decision, table, &value, &bytes));
  is("a part", 0, again);
  is("its bytes", (long long)*len, (long long)bytes);
  return code;
}
void __real_pdtr_unstage(pdti_handle *);
void __wrap_pdtr_unstage(pdti_handle *journal) {
  __real_pdtr_unstage(journal);
  QUIETLY(__real_pdtr_unstage(&value));
}
uint32_t __real_pdtr_add(pdti_handle *, uint64_t *);
uint32_t __wrap_pdtr_add(pdti_handle *journal, uint64_t *number) {
  uint32_t code = __real_pdtr_add(journal, number), again = 0;
  uint64_t second = 0;
  if (code) QUIETLY(__real_pdtr_unstage(&value));
  else QUIETLY(again = __real_pdtr_add(&value, &second));
  is("a commit", 0, again);
  if (code) return code;
  is("its number", (long long)*number, (long long)second);
  commit_added(second);
  return code;
}
void __real_pdtr_withdraw(pdti_handle *);
void __wrap_pdtr_withdraw(pdti_handle *journal) {
  __real_pdtr_withdraw(journal);
  QUIETLY(__real_pdtr_withdraw(&value));
  commit_withdrawn();
}
void __real_pdtr_stop(pdti_handle *);
void __wrap_pdtr_stop(pdti_handle *journal) {
  __real_pdtr_stop(journal);
  QUIETLY(__real_pdtr_stop(&value));
}
void __real_pdtr_want_next(pdti_handle *);
void __wrap_pdtr_want_next(pdti_handle *journal) {
  __real_pdtr_want_next(journal);
  QUIETLY(__real_pdtr_want_next(&value));
}
bool __real_pdtr_remove_oldest(pdti_handle *, uint64_t *);
bool __wrap_pdtr_remove_oldest(pdti_handle *journal, uint64_t *file) {
  uint64_t second = 0;
  bool is_one = __real_pdtr_remove_oldest(journal, file), again = false;
  QUIETLY(again = __real_pdtr_remove_oldest(&value, &second));
  is("a file to be removed", again, is_one);
  if (is_one) is("its number", (long long)second, (long long)*file), met(FILE_REMOVED);
  ask();
  return is_one;
}

/* ---- steps */

static void begins(uint32_t step, uint64_t file) {
  static const enum kind kinds_of[] = {0, STEP_APPEND, STEP_SYNC, STEP_CREATE, STEP_NAMES};
  met(kinds_of[step]);
  for (int i = 0; i < THREADS && step == APPEND; i++)
    if (begun_steps[i].step == SYNC) met(BESIDE);
  is("a thread has one step at a time", 0, mine()->step);
  *mine() = (begun_step){step, file, told.written, false, false};
  trace("thread %d begins step %u of file %llu, %zu bytes\n", current, step, U(file), step == APPEND ? sealed_len : 0);
}
static void seal(const void *bytes, size_t len) {
  if (sealed_room - sealed_len < len) {
    sealed_room = 2 * (sealed_len + len);
    sealed = __real_realloc(sealed, sealed_room);
    if (!sealed) exit(1);
  }
  memcpy(sealed + sealed_len, bytes, len);
  sealed_len += len;
}
size_t __real_pdtr_batch_frames(pdti_handle *, size_t, pdti_piece *, size_t);
static void seal_batch(void) {
  uint8_t header[36];
  pdti_piece pieces[PIECES];
  size_t got = 1, frames = 0;
  sealed_len = sealed_at = 0;
  seal(header, pdtr_seal(&batch, header, sizeof header));
  for (size_t from = 0; got; from += got) {
    got = __real_pdtr_batch_frames(&batch, from, pieces, PIECES);
    for (size_t i = 0; i < got; i++) seal(pieces[i].at, pieces[i].len);
    frames += got;
  }
  if (frames > 1) met(GROUPED);
  pdtr_batch_end(&batch);
}
uint32_t __real_pdtr_next_batch(pdti_handle *, uint64_t *, pdti_handle *);
uint32_t __wrap_pdtr_next_batch(pdti_handle *journal, uint64_t *file, pdti_handle *into) {
  uint64_t second = 0;
  uint32_t step = __real_pdtr_next_batch(journal, file, into), again = 0;
  QUIETLY(again = __real_pdtr_next_batch(&value, &second, &batch));
  is("the step", again, step);
  if (step == NO_STEP) return step;
  QUIETLY(seal_batch());
  begins(step, second);
  return step;
}
uint32_t __real_pdtr_next(pdti_handle *, uint32_t, uint64_t *);
uint32_t __wrap_pdtr_next(pdti_handle *journal, uint32_t kind, uint64_t *file) {
  uint64_t second = 0;
  uint32_t step = __real_pdtr_next(journal, kind, file), again = 0;
  QUIETLY(again = __real_pdtr_next(&value, kind, &second));
  is("the step", again, step);
  if (step != NO_STEP) begins(step, second);
  if (step == CREATE && planted == MAKES_OTHERS) ++*file;
  return step;
}
size_t __wrap_pdtr_batch_frames(pdti_handle *of, size_t from, pdti_piece *pieces, size_t room) {
  size_t got = __real_pdtr_batch_frames(of, from, pieces, room);
  if (planted == SWAPS_FRAMES && got > 1) {
    pdti_piece first = pieces[0];
    pieces[0] = pieces[1];
    pieces[1] = first;
  }
  return got;
}

void __real_pdtr_done(pdti_handle *, uint32_t);
void __real_pdtr_failed(pdti_handle *, uint32_t);
/* A step ends as it went. */
static void ends(uint32_t kind, bool is_done) {
  step_is("the step that is reported", mine()->step, kind);
  step_is("it is done", mine()->is_done, is_done);
  uint64_t before = told.file;
  if (is_done) QUIETLY(__real_pdtr_done(&value, kind));
  else QUIETLY(__real_pdtr_failed(&value, kind));
  if (!is_done) met(STEP_FAILED);
  *mine() = (begun_step){0};
  ask();
  if (told.file != before) met(GONE_ON);
  trace("thread %d: step %u %s; written %llu, durable %llu\n", current, kind, is_done ? "is done" : "has failed", U(told.written),
        U(told.durable));
}
void __wrap_pdtr_done(pdti_handle *journal, uint32_t kind) {
  __real_pdtr_done(journal, kind);
  ends(kind, true);
}
void __wrap_pdtr_failed(pdti_handle *journal, uint32_t kind) {
  if (planted == FORGIVES_STEPS) return __wrap_pdtr_done(journal, kind);
  __real_pdtr_failed(journal, kind);
  ends(kind, false);
}

#endif
