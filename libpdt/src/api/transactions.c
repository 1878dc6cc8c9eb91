/* Transactions: how they begin, the versions that they may begin over, how they end, and what they write. */
#include "inside.h"

/* ---- begins */

int pdti_begin_fresh(pdt_table *table, pdt_txn *txn) {
  txn->version_seen = table->commits;
  return (int)pdtr_begin_at(&table->fresh, 0, &txn->raw);
}

/* Begins under the table's lock, where malloc has refused to share a version. Then it is shared again, so that the next begin needs
   no lock of the table's. In a database a version may be hidden until its commits are durable. */
static int begin_locked(pdt_table *table, pdt_txn *txn) {
  for (;;) {
    int held = pdti_enter(table); /* by this thread, where a commit of its own is prepared */
    uint64_t number = table->newest;
    bool is_hidden = pdti_is_hidden(table);
    int code = PDT_OK;
    pdti_replaced before = {{{NULL}}};
    if (!is_hidden) {
      txn->version_seen = number;
      code = (int)pdtr_begin(&table->raw, 0, &txn->raw);
      before = pdti_refresh(table);
    }
    if (!held) pdti_leave(table);
    pdti_drop(before);
    if (!is_hidden) return code;
    if (held || pdti_wait_until_durable(table->database, number)) return PDT_NOMEM;
  }
}

int pdti_begin_newest(pdt_table *table, pdt_txn *txn) {
  pthread_mutex_lock(&table->locks->fresh_lock);
  bool is_shared = table->fresh.at;
  int code = is_shared ? pdti_begin_fresh(table, txn) : PDT_OK;
  pthread_mutex_unlock(&table->locks->fresh_lock);
  return is_shared ? code : begin_locked(table, txn);
}

int pdti_begin_over(pdt_table *table, const pdti_kept_version *kept, pdt_txn **out) {
  pdt_txn *txn = malloc(sizeof *txn); /* not calloc, which takes a lock of the allocator's where there are threads */
  if (!txn) return PDT_NOMEM;
  *txn = (pdt_txn){.table = table};
  table->open++; /* before it begins: the table may not be closed under it */
  int code;
  if (kept) {
    txn->version_seen = kept->commits;
    if (kept->lock) pthread_mutex_lock(kept->lock);
    code = (int)pdtr_begin_at(kept->version, 0, &txn->raw);
    if (kept->lock) pthread_mutex_unlock(kept->lock);
  } else {
    code = pdti_begin_newest(table, txn);
  }
  if (code) {
    free(txn);
    table->open--;
    return code;
  }
  table->begins++;
  *out = txn;
  return PDT_OK;
}

pdt_code pdt_begin(pdt_table *table, pdt_txn **out) {
  if (!out) return PDT_MISUSE;
  *out = NULL;
  return table ? pdti_begin_over(table, NULL, out) : PDT_MISUSE;
}

pdt_code pdt_txn_version(pdt_txn *txn, uint64_t *commits) {
  if (!txn || !commits) return PDT_MISUSE;
  *commits = txn->version_seen;
  return PDT_OK;
}

/* ---- pins */

/* Fills a pin with the newest version, and enters it among the others, which are older. Under fresh_lock. */
static int enter_pin(pdt_table *table, pdt_pinned *pin) {
  int code = (int)pdtr_pin_again(&table->fresh, &pin->version);
  if (code) return code;
  pin->commits = table->commits;
  pin->older = table->youngest;
  if (pin->older) {
    pin->older->younger = pin;
  } else {
    table->oldest = pin;
  }
  table->youngest = pin;
  table->pins++;
  return PDT_OK;
}

/* Shares the newest version where malloc refused that before. */
static void share_again(pdt_table *table) {
  int held = pdti_enter(table); /* by this thread, where a commit of its own is prepared */
  pdti_replaced before = pdti_refresh(table);
  if (!held) pdti_leave(table);
  pdti_drop(before);
}

pdt_code pdt_pin(pdt_table *table, uint64_t *commits, pdt_pinned **out) {
  if (!out) return PDT_MISUSE;
  *out = NULL;
  if (!table) return PDT_MISUSE;
  pdt_pinned *pin = calloc(1, sizeof *pin);
  if (!pin || pthread_mutex_init(&pin->lock, NULL)) {
    free(pin);
    return PDT_NOMEM;
  }
  pin->table = table;
  pthread_mutex_lock(&table->locks->fresh_lock);
  if (!table->fresh.at) {
    pthread_mutex_unlock(&table->locks->fresh_lock);
    share_again(table);
    pthread_mutex_lock(&table->locks->fresh_lock);
  }
  int code = table->fresh.at ? enter_pin(table, pin) : PDT_NOMEM;
  pthread_mutex_unlock(&table->locks->fresh_lock);
  if (code) {
    pthread_mutex_destroy(&pin->lock);
    free(pin);
    return code;
  }
  if (commits) *commits = pin->commits;
  *out = pin;
  return PDT_OK;
}

uint64_t pdt_pinned_commits(const pdt_pinned *pin) { return pin ? pin->commits : 0; }

pdt_code pdt_begin_at(pdt_pinned *pin, pdt_txn **out) {
  if (!out) return PDT_MISUSE;
  *out = NULL;
  if (!pin) return PDT_MISUSE;
  return pdti_begin_over(pin->table, &(pdti_kept_version){&pin->version, &pin->lock, pin->commits}, out);
}

void pdt_unpin(pdt_pinned *pin) {
  if (!pin) return;
  pdt_table *table = pin->table;
  pdtr_unpin(&pin->version); /* without a lock: what was replaced since may go with it */
  pthread_mutex_lock(&table->locks->fresh_lock);
  *(pin->older ? &pin->older->younger : &table->oldest) = pin->younger;
  *(pin->younger ? &pin->younger->older : &table->youngest) = pin->older;
  table->pins--;
  pthread_mutex_unlock(&table->locks->fresh_lock);
  pthread_mutex_destroy(&pin->lock);
  free(pin);
}

/* ---- ends */

void pdti_count(pdt_table *table, int code) {
  if (code == PDT_OK) table->done.commits++;
  if (code == PDT_CONFLICT) table->done.conflicts++;
  if (code == PDT_TOO_OLD) table->done.too_old++;
  if (code == PDT_FULL) table->done.full++;
}

void pdti_let_go(pdt_txn *txn) {
  if (txn->ended.at) pdtr_ended_close(&txn->ended);
  if (txn->decision.at) pdtr_give_up(&txn->decision);
}

void pdti_forget(pdt_txn *txn) {
  pdt_table *table = txn->table;
  pdti_let_go(txn);
  free(txn);
  table->open--; /* the last touch, after all before it in every thread's eyes: the table may be closed from now on */
}

void pdti_end(pdt_txn *txn) {
  if (txn->raw.at) pdtr_abort(&txn->raw); /* what it shares with the table is counted atomically */
  pdti_forget(txn);
}

void pdt_abort(pdt_txn *txn) {
  if (!txn || txn->dbtxn) return;                   /* a database transaction's ends with it */
  if (txn->is_prepared && pdt_give_up(txn)) return; /* another thread has it prepared, and goes on with it */
  pdti_end(txn);
}

bool pdti_is_idle(pdt_txn *txn) { return !pdtr_own_entries(&txn->raw); }

pdt_code pdt_commit(pdt_txn *txn, uint64_t *commits) {
  if (!txn || txn->is_prepared || txn->dbtxn) return PDT_MISUSE;
  pdt_table *table = txn->table;
  if (table->database) return pdti_commit_in(table->database, txn, commits);
  if (pdti_is_idle(txn)) {
    if (commits) *commits = txn->version_seen;
    pdti_end(txn);
    return PDT_OK;
  }
  uint64_t number = 0;
  int code = pdti_commit_alone(table, txn, &number);
  if (code == PDT_NOMEM || code == PDT_MISUSE) return code;
  if (commits) *commits = number;
  pdti_forget(txn);
  return code;
}

/* ---- a commit in two parts */

static void prepared_here(pdt_txn *txn) {
  txn->is_prepared = true;
  txn->by = pthread_self();
  txn->process = getpid();
}

int pdti_decide(pdt_table *table, pdt_txn *txn, uint64_t *number) {
  int code = (int)pdtr_prepare(&table->raw, &txn->raw, number, &txn->decision);
  bool is_below = code == PDT_NOMEM && pdtr_begun(&txn->raw) < pdtr_floor(&table->raw);
  if (!is_below) return code;
  *number = pdtr_commits(&table->raw);
  return PDT_TOO_OLD;
}

void pdti_refuse(pdt_table *table, pdt_txn *txn, int code) {
  uint64_t number = 0;
  if (txn->decision.at) pdtr_install(&table->raw, &txn->raw, &txn->decision, &txn->ended, &number);
  pdti_count(table, code);
}

pdt_code pdt_prepare(pdt_txn *txn, uint64_t *commits) {
  if (!txn || txn->is_prepared || txn->dbtxn) return PDT_MISUSE;
  if (pdti_is_idle(txn)) {
    if (commits) *commits = txn->version_seen;
    prepared_here(txn);
    return PDT_OK;
  }
  pdt_table *table = txn->table;
  uint64_t number = 0;
  if (pdti_enter(table)) return PDT_MISUSE;
  int code = table->database ? pdti_may_commit(table->database) : PDT_OK;
  bool is_open = code;
  if (!code) {
    code = pdti_decide(table, txn, &number);
    is_open = code == PDT_NOMEM;
  }
  if (!code && table->database) {
    code = pdti_stage_one(table->database, txn, &number);
    is_open = code;
  }
  if (!code) {
    prepared_here(txn); /* and keeps the lock */
    if (commits) *commits = number;
    return code;
  }
  if (!is_open) { /* nothing is left to be written before it: it ends as a commit does */
    pdti_refuse(table, txn, code);
    if (table->database) number = pdti_newest(table->database);
  }
  pdti_leave(table);
  if (is_open) return pdti_let_go(txn), code;
  if (code == PDT_CONFLICT && table->database) pdti_wait_out(table->database, number);
  if (commits) *commits = number;
  pdti_end(txn);
  return code;
}

static bool is_prepared_here(const pdt_txn *txn) {
  return txn && txn->is_prepared && pthread_equal(txn->by, pthread_self()) && txn->process == getpid();
}

pdt_code pdt_install(pdt_txn *txn) {
  if (!is_prepared_here(txn)) return PDT_MISUSE;
  pdt_table *table = txn->table;
  if (!txn->decision.at) {
    int code = table->database ? pdti_wait_for_seen(table->database, txn->version_seen) : PDT_OK; /* as a commit of nothing does */
    if (code != PDT_MISUSE) pdti_end(txn);
    return code;
  }
  if (table->database) return pdti_install_in(table->database, txn);
  uint64_t number = 0;
  int code = (int)pdtr_install(&table->raw, &txn->raw, &txn->decision, &txn->ended, &number);
  pdti_count(table, code);
  pdti_replaced before = pdti_refresh(table);
  pdti_leave(table);
  pdti_drop(before);
  pdti_forget(txn);
  return code;
}

pdt_code pdt_give_up(pdt_txn *txn) {
  if (!is_prepared_here(txn)) return PDT_MISUSE;
  txn->is_prepared = false;
  if (!txn->decision.at) return PDT_OK;
  if (txn->table->database) pdti_unstage(txn->table->database);
  pdti_leave(txn->table);
  pdti_let_go(txn);
  return PDT_OK;
}

/* ---- writes: none while a commit of these writes is prepared. What follows a refusal is off the path of a write that is done. */

static int refuse_row(int code, const pdt_table *table, const int64_t *numbers, const void *texts, size_t bytes) {
  if (code == PDT_DUPLICATE) return pdti_keep_key(code, PDTI_EXISTS, table, numbers, texts);
  return pdti_refuse_cells(code, table, numbers, table->width, texts, bytes);
}

pdt_code pdt_insert(pdt_txn *txn, const int64_t *numbers, const void *texts, size_t bytes) {
  if (!txn || txn->is_prepared || !numbers || (!texts && bytes)) return PDT_MISUSE;
  int code = (int)pdtr_insert(&txn->raw, numbers, txn->table->width, bytes_at(texts, bytes), bytes);
  return code ? refuse_row(code, txn->table, numbers, texts, bytes) : code;
}

pdt_code pdt_delete(pdt_txn *txn, const int64_t *key, const void *texts, size_t bytes) {
  if (!txn || txn->is_prepared || !key || (!texts && bytes)) return PDT_MISUSE;
  int code = (int)pdtr_delete(&txn->raw, key, txn->table->key, bytes_at(texts, bytes), bytes);
  return code ? pdti_refuse_key(code, txn->table, key, texts, bytes) : code;
}

pdt_code pdt_set(pdt_txn *txn, const int64_t *key, const void *texts, size_t bytes, size_t column, int64_t number, const void *text) {
  if (!txn || txn->is_prepared || !key || (!texts && bytes)) return PDT_MISUSE;
  size_t len = 0;
  if (pdt_column_type(txn->table, column) == PDT_TEXT) {
    if (number < 0 || number > PDT_MAX_TEXT) return pdti_refuse_set(txn->table, &(pdti_set_cell){key, texts, bytes, column, number, NULL});
    len = (size_t)number;
  }
  if (!text && len) return PDT_MISUSE;
  int code = (int)pdtr_set(&txn->raw, key, txn->table->key, bytes_at(texts, bytes), bytes, column, number, bytes_at(text, len), len);
  if (code == PDT_TYPE_MISMATCH) return pdti_refuse_set(txn->table, &(pdti_set_cell){key, texts, bytes, column, number, text});
  return code ? pdti_refuse_key(code, txn->table, key, texts, bytes) : code;
}

/* ---- savepoints */

pdt_code pdt_savepoint(pdt_txn *txn, size_t *level) {
  if (!txn || txn->is_prepared || !level) return PDT_MISUSE;
  return (int)pdtr_mark(&txn->raw, level);
}

static int refuse_level(int code, size_t level) {
  return code == PDT_MISSING ? pdti_say(code, "there is no savepoint of level %zu", level) : pdti_plain(code);
}

pdt_code pdt_rollback_to(pdt_txn *txn, size_t level) {
  if (!txn || txn->is_prepared) return PDT_MISUSE;
  int code = (int)pdtr_back_to(&txn->raw, level);
  return code ? refuse_level(code, level) : code;
}

pdt_code pdt_release(pdt_txn *txn, size_t level) {
  if (!txn || txn->is_prepared) return PDT_MISUSE;
  int code = (int)pdtr_release(&txn->raw, level);
  return code ? refuse_level(code, level) : code;
}
