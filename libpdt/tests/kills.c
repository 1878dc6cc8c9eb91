/* A process is killed while its threads move money between the tables of a database, and another opens what it left: the sum stands, no
   transfer is there by half, and none that was answered is missing. Each transfer takes from one table, adds to another, and enters
   itself in a third, all in one database transaction; those that were answered are noted in memory that the processes share. */
#define _DEFAULT_SOURCE
#include "events.h"
#include <pdt.h>
#include <pthread.h>
#include <signal.h>
#include <stdio.h>
#include <stdlib.h>
#include <string.h>
#include <sys/mman.h>
#include <sys/wait.h>

enum { THREADS = 16, ACCOUNTS = 40, MONEY = 1000, MOST = 1 << 20 };

static int failures;
static void is(const char *what, long long wanted, long long found) {
  if (wanted == found) return;
  failures++;
  fprintf(stderr, "%s: wanted %lld, found %lld\n", what, wanted, found);
}

/* What the processes share: which transfers were answered, and which number is free. */
typedef struct {
  _Atomic uint32_t next;
  _Atomic uint32_t answered;
  _Atomic bool is_open;
  uint8_t done[MOST];
} notes;
static notes *shared;

static pdt_database *database;
static pdt_table *from_table, *to_table, *moves;

static pdt_txn *on(pdt_dbtxn *dbtxn, pdt_table *table) {
  pdt_txn *txn = NULL;
  is("on", PDT_OK, pdt_dbtxn_on(dbtxn, table, &txn));
  return txn;
}
static bool add(pdt_txn *txn, int64_t key, int64_t more) {
  int64_t row[2];
  return !pdt_get(txn, &key, NULL, 0, row, NULL, 0, NULL) && !pdt_set(txn, &key, NULL, 0, 1, row[1] + more, NULL);
}

static void *move(void *context) {
  unsigned seed = (unsigned)(size_t)context;
  while (shared->next < MOST) {
    pdt_dbtxn *dbtxn = NULL;
    if (pdt_dbtxn_begin(database, &dbtxn)) break;
    int64_t id = shared->next++, from = rand_r(&seed) % ACCOUNTS, to = rand_r(&seed) % ACCOUNTS, amount = 1 + rand_r(&seed) % 9;
    int64_t row[] = {id, from, to, amount};
    bool right = add(on(dbtxn, from_table), from, -amount) && add(on(dbtxn, to_table), to, amount) &&
                 !pdt_insert(on(dbtxn, moves), row, NULL, 0);
    if (!right) fprintf(stderr, "a write failed\n"), exit(1);
    int code = pdt_dbtxn_commit(dbtxn, NULL);
    if (!code) shared->done[id] = 1, shared->answered++;
    else if (code != PDT_CONFLICT) fprintf(stderr, "a commit: %s\n", pdt_code_text(code)), exit(1);
  }
  return NULL;
}

static pdt_database_options options = {.size = sizeof options, .fold_entries = 200, .checkpoint_entries = 500, .journal_bytes = 100000};

static bool find(const char *name, pdt_table **table) { return !pdt_table_open(database, name, table); }

/* Opens the database, and makes what it hasn't yet. */
static void open_all(const char *folder) {
  pdt_report report = {.size = sizeof report};
  int code = pdt_database_open(folder, &options, &database, &report);
  if (code)
    fprintf(stderr, "open: %s, commit %llu, file %s\n", pdt_code_text(code), (unsigned long long)report.fault, report.file), exit(1);
  int64_t ids[ACCOUNTS], money[ACCOUNTS];
  for (int i = 0; i < ACCOUNTS; i++) ids[i] = i, money[i] = MONEY;
  pdt_column columns[] = {{"id", PDT_INT, ACCOUNTS, ids, NULL, NULL, 0}, {"money", PDT_INT, ACCOUNTS, money, NULL, NULL, 0}};
  if (!find("from", &from_table)) is("create", PDT_OK, pdt_table_create(database, "from", columns, 2, 1, NULL, NULL, &from_table));
  if (!find("to", &to_table)) is("create", PDT_OK, pdt_table_create(database, "to", columns, 2, 1, NULL, NULL, &to_table));
  static const char csv[] = "id:int:key,from:int,to:int,amount:int\n";
  if (!find("moves", &moves)) is("create", PDT_OK, pdt_table_create_csv(database, "moves", csv, sizeof csv - 1, NULL, NULL, &moves));
}

/* Runs until it is killed. */
static void child(const char *folder, int round, int sync) {
  options.sync = sync;
  open_all(folder);
  shared->is_open = true;
  pthread_t threads[THREADS];
  for (size_t i = 0; i < THREADS; i++) pthread_create(&threads[i], NULL, move, (void *)(i + 1 + 100 * (size_t)round));
  for (size_t i = 0; i < THREADS; i++) pthread_join(threads[i], NULL);
  exit(1); /* it ran out of numbers */
}

static void sums_are(pdt_dbtxn *dbtxn, pdt_table *table, const int64_t *wanted, const char *what) {
  int64_t found[ACCOUNTS];
  size_t count = ACCOUNTS;
  is("ints", PDT_OK, pdt_ints(on(dbtxn, table), 1, 0, found, &count));
  is("accounts", ACCOUNTS, (long long)count);
  for (int i = 0; i < ACCOUNTS; i++) is(what, wanted[i], found[i]);
}

/* Adds up the transfers that are there, and looks for those that were answered. */
static void look(const char *folder) {
  options.sync = PDT_SYNC_FULL;
  open_all(folder);
  pdt_dbtxn *dbtxn = NULL;
  is("work", PDT_OK, pdt_dbtxn_begin(database, &dbtxn));
  int64_t took[ACCOUNTS], got[ACCOUNTS];
  for (int i = 0; i < ACCOUNTS; i++) took[i] = got[i] = MONEY;
  static uint8_t is_there[MOST];
  memset(is_there, 0, sizeof is_there);
  uint64_t rows = 0;
  pdt_txn *txn = on(dbtxn, moves);
  is("rows", PDT_OK, pdt_rows(txn, &rows));
  for (uint64_t i = 0; i < rows; i++) {
    int64_t row[4];
    is("row", PDT_OK, pdt_row_at(txn, i, row, NULL, 0, NULL));
    took[row[1]] -= row[3];
    got[row[2]] += row[3];
    is_there[row[0]] = 1;
  }
  sums_are(dbtxn, from_table, took, "what was taken");
  sums_are(dbtxn, to_table, got, "what was added");
  for (int i = 0; i < MOST && failures < 20; i++)
    if (shared->done[i] && !is_there[i]) is("an answered transfer", i, -1);
  pdt_dbtxn_abort(dbtxn);
  is("close", PDT_OK, pdt_database_close(database));
}

int main(int argc, char **argv) {
  if (argc < 3) return 2;
  int rounds = atoi(argv[2]);
  unsigned seed = argc > 3 ? (unsigned)atoi(argv[3]) : 1;
  int sync = argc > 4 ? atoi(argv[4]) : PDT_SYNC_FULL;
  char folder[500];
  snprintf(folder, sizeof folder, "%s/bank", argv[1]);
  shared = mmap(NULL, sizeof *shared, PROT_READ | PROT_WRITE, MAP_SHARED | MAP_ANONYMOUS, -1, 0);
  if (shared == MAP_FAILED) return 1;
  for (int round = 0; round < rounds && !failures; round++) {
    shared->is_open = false;
    fflush(NULL);
    uint32_t answered = shared->answered;
    pid_t pid = fork();
    if (!pid) child(folder, round, sync);
    int status = 0;
    bool has_ended = false;
    if (round % 3) { /* in the midst of the transfers; else at any moment, of an opening too */
      UNTIL((has_ended = waitpid(pid, &status, WNOHANG)) || (shared->is_open && shared->answered > answered));
      is("a transfer is answered", 1, shared->answered > answered);
    }
    usleep((unsigned)rand_r(&seed) % (round % 3 ? 60000 : 8000));
    if (!has_ended) kill(pid, SIGKILL), waitpid(pid, &status, 0);
    is("the child is killed", 1, WIFSIGNALED(status));
    pid = fork(); /* a process of its own looks, so that what it opens is gone with it */
    if (!pid) {
      look(folder);
      _exit(failures != 0);
    }
    waitpid(pid, &status, 0);
    is("what is there", 0, status);
  }
  printf("%d kills, %u transfers answered of %u\n", rounds, shared->answered, shared->next);
  return failures || !shared->answered ? 1 : 0;
}
