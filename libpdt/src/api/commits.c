/* Commits of a table that is in no database. Whoever has the lock makes those of the threads that wait for it too: what a commit
   edits is near its processor then, and the lock doesn't go from one processor to another for each of them. */
#include "inside.h"

/* A commit of a thread that waits. */
struct pdti_commit {
  pdt_txn *txn;
  pdti_commit *next; /* that came before it */
  int code;
  uint64_t number;
  atomic_bool is_made; /* then its thread goes on, and it is gone */
};

static void wait_in(pdt_table *table, pdti_commit *commit) {
  commit->next = atomic_load_explicit(&table->waiting_commits, memory_order_relaxed);
  while (
      !atomic_compare_exchange_weak_explicit(&table->waiting_commits, &commit->next, commit, memory_order_release, memory_order_relaxed)) {}
}

/* Takes those that wait, the first one first. */
static pdti_commit *take_waiting(pdt_table *table) {
  if (!atomic_load_explicit(&table->waiting_commits, memory_order_relaxed)) return NULL;
  pdti_commit *last = atomic_exchange_explicit(&table->waiting_commits, NULL, memory_order_acquire), *first = NULL;
  while (last) {
    pdti_commit *before = last->next;
    last->next = first;
    first = last;
    last = before;
  }
  return first;
}

/* Under the lock. Whether the table has changed. */
static bool make(pdt_table *table, pdti_commit *commit) {
  commit->code = (int)pdtr_commit(&table->raw, &commit->txn->raw, &commit->txn->ended, &commit->number);
  pdti_count(table, commit->code);
  return commit->code == PDT_OK;
}

/* Makes a commit, or none, and those that wait, and gives the lock back. Their threads go on once begins take what they made. */
static void lead(pdt_table *table, pdti_commit *own) {
  bool has_changed = own && make(table, own);
  pdti_commit *waiting = take_waiting(table);
  for (pdti_commit *commit = waiting; commit; commit = commit->next) has_changed |= make(table, commit);
  pdti_replaced before = {{{NULL}}};
  if (has_changed) before = pdti_refresh(table);
  while (waiting) {
    pdti_commit *commit = waiting;
    waiting = commit->next;
    atomic_store_explicit(&commit->is_made, true, memory_order_release);
  }
  pdti_leave(table);
  pdti_drop(before);
}

/* Waits until the commit is made, and makes those that wait where nobody else does. */
static void wait_until_made(pdt_table *table, pdti_commit *commit) {
  for (int looks = 0; !atomic_load_explicit(&commit->is_made, memory_order_acquire); looks++) {
    if (looks < LOOKS ? !pdti_is_entered(table) && !pdti_try_enter(table) : !pdti_sleep_in(table)) {
      lead(table, NULL);
      return;
    }
    look_again();
  }
}

int pdti_commit_alone(pdt_table *table, pdt_txn *txn, uint64_t *number) {
  if (pdti_is_entered_here(table)) return PDT_MISUSE; /* a commit of this thread is prepared */
  pdti_commit commit = {.txn = txn};
  if (!pdti_try_enter(table)) {
    lead(table, &commit);
  } else {
    table->locks->waits++;
    wait_in(table, &commit);
    wait_until_made(table, &commit);
  }
  *number = commit.number;
  return commit.code;
}
