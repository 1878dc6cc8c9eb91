/* Commits of a database: of a transaction over one of its tables, and of database transactions, which are over all of them. */
#include "database.h"

enum { OFF_ROOM = 1 << 20 };

/* ---- commits of one table or several */

/* The versions that a commit made of a table, and those that it replaced. */
typedef struct {
  pdti_handle made;
  pdti_replaced before;
} pdti_turned;

/* Decides each up to one whose decision isn't to commit: that is *refused. Under the lock. */
static int prepare_all(pdt_txn *const *txns, size_t count, size_t *refused) {
  for (size_t i = 0; i < count; i++) {
    uint64_t number;
    int code = pdti_decide(txns[i]->table, txns[i], &number);
    *refused = i;
    if (code) return code;
  }
  return PDT_OK;
}

/* Does what was decided of each, under the number that the journal has given it. Nothing of it can fail. Under the lock. */
static void install_all(pdt_database *database, pdt_txn *const *txns, size_t count, pdti_turned *members, uint64_t number) {
  database->newest = number;
  for (size_t i = 0; i < count; i++) {
    pdt_table *table = txns[i]->table;
    uint64_t local = 0;
    pdti_count(table, (int)pdtr_install(&table->raw, &txns[i]->raw, &txns[i]->decision, &txns[i]->ended, &local));
    pdti_number(table, local, number);
    pdti_keep(table, local, txns[i]->part_bytes);
    pdti_enter_changed(database, table);
    members[i].made.at = NULL;
    (void)pdtr_pin(&table->raw, &members[i].made); /* nothing, where malloc refuses it */
  }
  pthread_mutex_lock(&database->locks.fresh_lock); /* once: begins see all of it or nothing */
  for (size_t i = 0; i < count; i++) members[i].before = pdti_share(txns[i]->table, members[i].made);
  if (!pdti_hides(database)) database->published = number;
  pthread_mutex_unlock(&database->locks.fresh_lock);
}

/* Where nobody waits for what is written, it is written once it is large. */
static int write_where_large(pdt_database *database) {
  pthread_mutex_lock(&database->locks.lock);
  bool is_large = database->waiting > OFF_ROOM;
  pthread_mutex_unlock(&database->locks.lock);
  return is_large ? pdti_flush(database, false) : PDT_OK;
}

/* After a commit, without the lock. */
static int wait_after(pdt_database *database, uint64_t number) {
  if (database->options.sync != PDT_SYNC_OFF) return pdti_wait_for(database, number);
  (void)write_where_large(database); /* a fault is told to the next commit: this one asked for no more than memory */
  return PDT_OK;
}

/* Commits all, each of which changes something, or none. *over: they are over, and *number is told; else they are open as before. */
static int commit_all(pdt_database *database, pdt_txn *const *txns, size_t count, pdti_turned *members, uint64_t *number, bool *over) {
  *over = false;
  if (pdti_enter(txns[0]->table)) return PDT_MISUSE;
  size_t refused = 0;
  int code = pdti_may_commit(database);
  bool is_decided = !code;
  if (!code) code = prepare_all(txns, count, &refused);
  bool is_refused = is_decided && code && code != PDT_NOMEM;
  if (!code) code = pdti_stage(database, txns, count, number);
  if (is_refused) {
    pdti_refuse(txns[refused]->table, txns[refused], code);
    *number = database->newest;
  }
  if (!code) install_all(database, txns, count, members, *number);
  pdti_leave(txns[0]->table);
  for (size_t i = 0; i < count; i++) pdti_let_go(txns[i]);
  if (!code) {
    for (size_t i = 0; i < count; i++) pdti_drop(members[i].before);
    code = wait_after(database, *number);
  } else if (!is_refused) {
    return code;
  } else if (code == PDT_CONFLICT) {
    pdti_wait_out(database, *number);
  }
  *over = true;
  for (size_t i = 0; i < count; i++) pdti_end(txns[i]);
  return code;
}

int pdti_commit_in(pdt_database *database, pdt_txn *txn, uint64_t *commits) {
  if (!pdti_is_ours(database)) return PDT_MISUSE;
  if (pdti_is_idle(txn)) {
    int code = pdti_wait_for_seen(database, txn->version_seen); /* it may not be durable yet, if reads are early */
    if (code == PDT_MISUSE) return code;
    if (commits) *commits = txn->version_seen;
    pdti_end(txn);
    return code;
  }
  pdti_turned one;
  uint64_t number = 0;
  bool over;
  int code = commit_all(database, &txn, 1, &one, &number, &over);
  if (over && commits) *commits = number;
  return code;
}

/* ---- a commit in two parts */

int pdti_stage_one(pdt_database *database, pdt_txn *txn, uint64_t *number) { return pdti_stage(database, &txn, 1, number); }

int pdti_install_in(pdt_database *database, pdt_txn *txn) {
  pdti_turned one;
  if (database->has_failed) return PDT_WRITES_FAILED; /* since it was prepared */
  uint64_t number = database->newest + 1;             /* that it was given: the lock is held since then */
  install_all(database, &txn, 1, &one, number);
  pdti_leave(txn->table);
  pdti_drop(one.before);
  pdti_forget(txn);
  return wait_after(database, number);
}

/* ---- database transactions */

/* A table as a database transaction sees it. */
typedef struct {
  pdt_table *table;
  pdti_handle version;
  uint64_t commits;
  pdt_txn *txn; /* null before it is asked for */
} pdti_part;

struct pdt_dbtxn {
  pdt_database *database;
  uint64_t version_seen;
  size_t count;
  pdti_part *parts; /* in the order of the tables' numbers */
  pdt_txn **txns;   /* room for those that change something */
  pdti_turned *turned;
};

static void free_dbtxn(pdt_dbtxn *dbtxn) {
  free(dbtxn->parts);
  free(dbtxn->txns);
  free(dbtxn->turned);
  free(dbtxn);
}

/* Lets go of what a database transaction has; the transactions that are left end. */
static void end_dbtxn(pdt_dbtxn *dbtxn) {
  pdt_database *database = dbtxn->database;
  for (size_t i = 0; i < dbtxn->count; i++) {
    pdti_part *one = &dbtxn->parts[i];
    if (one->txn) pdti_end(one->txn);
    if (one->version.at) pdtr_unpin(&one->version);
    one->table->open--;
  }
  free_dbtxn(dbtxn);
  database->dbtxns--;
}

/* A database transaction with room for so many tables. */
static pdt_dbtxn *new_dbtxn(pdt_database *database, size_t count) {
  pdt_dbtxn *dbtxn = calloc(1, sizeof *dbtxn);
  if (!dbtxn) return NULL;
  dbtxn->database = database;
  dbtxn->parts = calloc(count + 1, sizeof *dbtxn->parts);
  dbtxn->txns = calloc(count + 1, sizeof *dbtxn->txns);
  dbtxn->turned = calloc(count + 1, sizeof *dbtxn->turned);
  if (dbtxn->parts && dbtxn->txns && dbtxn->turned) return dbtxn;
  free_dbtxn(dbtxn);
  return NULL;
}

/* Takes the version of each table that begins take, all of them at one moment. PDT_MISSING where *hidden has none, since malloc has
   refused to share it: it is open then, so that nobody drops it. With fresh_lock held. */
static int take_versions(pdt_dbtxn *dbtxn, pdt_table **hidden) {
  pdt_database *database = dbtxn->database;
  dbtxn->version_seen = database->published; /* also where no table that is left has that number */
  for (size_t i = 0; i < database->count; i++) {
    pdt_table *table = database->members[i]->table;
    if (!table->fresh.at) {
      *hidden = table;
      table->open++;
      return PDT_MISSING;
    }
    pdti_part *one = &dbtxn->parts[dbtxn->count];
    int code = (int)pdtr_pin_again(&table->fresh, &one->version);
    if (code) return code;
    *one = (pdti_part){table, one->version, table->commits, NULL};
    table->open++;
    dbtxn->count++;
  }
  return PDT_OK;
}

/* Has a version shared again: a transaction that begins does so, which is none of the caller's. The table is open no longer. */
static int share_again(pdt_table *table) {
  pdt_txn txn = {.table = table};
  int code = pdti_begin_newest(table, &txn);
  if (!code) pdtr_abort(&txn.raw);
  table->open--;
  return code;
}

pdt_code pdt_dbtxn_begin(pdt_database *database, pdt_dbtxn **out) {
  if (!out) return PDT_MISUSE;
  *out = NULL;
  if (!pdti_is_ours(database)) return PDT_MISUSE;
  database->dbtxns++; /* before it begins: the database may not be closed under it */
  for (;;) {
    pthread_mutex_lock(&database->locks.fresh_lock);
    size_t count = database->count;
    pthread_mutex_unlock(&database->locks.fresh_lock);
    pdt_dbtxn *dbtxn = new_dbtxn(database, count);
    if (!dbtxn) break;
    pdt_table *hidden = NULL;
    pthread_mutex_lock(&database->locks.fresh_lock);
    int code = database->count <= count ? take_versions(dbtxn, &hidden) : PDT_MISSING;
    pthread_mutex_unlock(&database->locks.fresh_lock);
    if (!code) {
      *out = dbtxn;
      return PDT_OK;
    }
    database->dbtxns++; /* that of the database transaction, which ends */
    end_dbtxn(dbtxn);
    if (code != PDT_MISSING || (hidden && share_again(hidden))) break;
  }
  database->dbtxns--;
  return PDT_NOMEM;
}

pdt_code pdt_dbtxn_on(pdt_dbtxn *dbtxn, pdt_table *table, pdt_txn **out) {
  if (!out) return PDT_MISUSE;
  *out = NULL;
  if (!dbtxn || !table || table->database != dbtxn->database) return PDT_MISUSE;
  pdti_part *one = dbtxn->parts;
  while (one < dbtxn->parts + dbtxn->count && one->table != table) one++;
  if (one == dbtxn->parts + dbtxn->count) return pdti_say(PDT_MISSING, "the table was created after the database transaction began");
  if (!one->txn) {
    pdt_txn *txn = malloc(sizeof *txn);
    if (!txn) return PDT_NOMEM;
    *txn = (pdt_txn){.table = table, .dbtxn = dbtxn, .version_seen = one->commits};
    int code = (int)pdtr_begin_at(&one->version, 0, &txn->raw);
    if (code) {
      free(txn);
      return code;
    }
    table->open++;
    table->begins++;
    one->txn = txn;
  }
  *out = one->txn;
  return PDT_OK;
}

/* Gathers the transactions that change something. */
static size_t gather(pdt_dbtxn *dbtxn) {
  size_t count = 0;
  for (size_t i = 0; i < dbtxn->count; i++) {
    pdt_txn *txn = dbtxn->parts[i].txn;
    if (txn && !pdti_is_idle(txn)) dbtxn->txns[count++] = txn;
  }
  return count;
}

/* Forgets the transactions that a commit has ended. */
static void forget_gathered(pdt_dbtxn *dbtxn, size_t count) {
  for (size_t i = 0, k = 0; i < dbtxn->count && k < count; i++) {
    if (dbtxn->parts[i].txn != dbtxn->txns[k]) continue;
    dbtxn->parts[i].txn = NULL;
    k++;
  }
}

pdt_code pdt_dbtxn_commit(pdt_dbtxn *dbtxn, uint64_t *commits) {
  if (!dbtxn || !pdti_is_ours(dbtxn->database)) return PDT_MISUSE;
  size_t count = gather(dbtxn);
  if (!count) {
    int code = pdti_wait_for_seen(dbtxn->database, dbtxn->version_seen); /* it may not be durable yet, if reads are early */
    if (code == PDT_MISUSE) return code;
    if (commits) *commits = dbtxn->version_seen;
    end_dbtxn(dbtxn);
    return code;
  }
  uint64_t number = 0;
  bool over;
  int code = commit_all(dbtxn->database, dbtxn->txns, count, dbtxn->turned, &number, &over);
  if (!over) return code;
  if (commits) *commits = number;
  forget_gathered(dbtxn, count);
  end_dbtxn(dbtxn);
  return code;
}

void pdt_dbtxn_abort(pdt_dbtxn *dbtxn) {
  if (dbtxn) end_dbtxn(dbtxn);
}
