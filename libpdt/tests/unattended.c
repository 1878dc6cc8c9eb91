/* A database as it runs unattended, for as long as you like: unattended FOLDER SECONDS KILL_EVERY. A process of several threads works over
   one folder: small commits over two tables, commits of 1,000 sets, a table that stays idle, tables that come and go, and a reader that
   checks all tables at one moment each second. The process is killed at a random moment, some KILL_EVERY seconds after it began, or it
   closes the database; then the next one goes on. No acknowledged commit may be missing, none may be there by half, and no sum be wrong.

   Each minute it prints the resident memory, the open files, the bytes of the folder, and how long commits took. It fails where a sum is
   wrong, a call fails, or the memory or the folder grows without an end: both are compared with those of the second minute of a process.
   Reads /proc, as Linux has it. */
#define _XOPEN_SOURCE 700
#define _DEFAULT_SOURCE
#include "events.h"
#include "tails.h"
#include <dirent.h>
#include <ftw.h>
#include <pdt.h>
#include <pthread.h>
#include <signal.h>
#include <stdatomic.h>
#include <stdlib.h>
#include <sys/mman.h>
#include <sys/stat.h>
#include <sys/wait.h>

enum { SMALL = 3, ACCOUNTS = 1000, EACH = 100, WIDE = 1000, IDLE = 500, KEPT_ROWS = 2000, MINUTE = 60 };

/* What outlives a process that is killed: of each writer the number of its last commit that was tried, and that was acknowledged. */
typedef struct {
  atomic_llong tried[SMALL + 1], done[SMALL + 1]; /* the last one is of large commits */
  atomic_llong commits, checks, conflicts;
  atomic_int failed;
} record;

static record *all;
static pdt_database *database;
static pdt_table *accounts, *notes, *wide, *idle;
static atomic_bool stops, drops; /* while a table is dropped no database transaction begins, since it would be over that table too */
static pthread_mutex_t lock = PTHREAD_MUTEX_INITIALIZER;
static tails small_times, large_times;

static bool is_wrong(const char *what, long long wanted, long long found) {
  if (wanted == found) return false;
  fprintf(stderr, "%s: wanted %lld, found %lld\n", what, wanted, found);
  all->failed = 1;
  stops = true;
  return true;
}
#define MUST(call) is_wrong(#call, PDT_OK, (call))
static bool goes_on(void) { return !stops && !all->failed; }

/* ---- tables */

static pdt_table *find_or_make(const char *name, int64_t rows, int64_t value) {
  pdt_table *table = NULL;
  if (!pdt_table_open(database, name, &table)) return table;
  int64_t *ids = malloc(2 * (size_t)rows * sizeof *ids), *values = ids + rows;
  for (int64_t i = 0; i < rows; i++) ids[i] = i, values[i] = value;
  pdt_column columns[] = {{"id", PDT_INT, (size_t)rows, ids, NULL, NULL, 0}, {"value", PDT_INT, (size_t)rows, values, NULL, NULL, 0}};
  MUST(pdt_table_create(database, name, columns, 2, 1, NULL, NULL, &table));
  free(ids);
  return table;
}

/* ---- writers */

static void add_took(tails *to, int64_t nanoseconds) {
  pthread_mutex_lock(&lock);
  add_time(to, nanoseconds);
  pthread_mutex_unlock(&lock);
}

static int64_t value_of(pdt_txn *txn, int64_t key) {
  int64_t row[2] = {0, 0};
  MUST(pdt_get(txn, &key, NULL, 0, row, NULL, 0, NULL));
  return row[1];
}
static void set_value(pdt_txn *txn, int64_t key, int64_t value) { MUST(pdt_set(txn, &key, NULL, 0, 1, value, NULL)); }

static pdt_dbtxn *begin_dbtxn(void) {
  pdt_dbtxn *dbtxn = NULL;
  while (drops && goes_on()) pass(1);
  return MUST(pdt_dbtxn_begin(database, &dbtxn)) ? NULL : dbtxn;
}

/* Moves money between two accounts, and writes a note of the same commit: row N * SMALL + writer, of which the last ones are kept. */
static int transfer(int64_t writer, int64_t number, unsigned *seed) {
  pdt_dbtxn *dbtxn = begin_dbtxn();
  pdt_txn *money = NULL, *note = NULL;
  if (!dbtxn || MUST(pdt_dbtxn_on(dbtxn, accounts, &money)) || MUST(pdt_dbtxn_on(dbtxn, notes, &note))) return -1;
  int64_t from = rand_r(seed) % ACCOUNTS, to = rand_r(seed) % ACCOUNTS, amount = rand_r(seed) % 10;
  if (from != to) {
    set_value(money, from, value_of(money, from) - amount);
    set_value(money, to, value_of(money, to) + amount);
  }
  int64_t row[2] = {number * SMALL + writer, number}, old = (number - KEPT_ROWS) * SMALL + writer;
  MUST(pdt_insert(note, row, NULL, 0));
  if (old > 0) {
    int code = pdt_delete(note, &old, NULL, 0);
    if (code != PDT_MISSING) MUST(code);
  }
  all->tried[writer] = number;
  int64_t began = now();
  int code = pdt_dbtxn_commit(dbtxn, NULL);
  add_took(&small_times, now() - began);
  return code;
}

static void *write_small(void *context) {
  int64_t writer = (int64_t)(size_t)context;
  unsigned seed = (unsigned)getpid() + (unsigned)writer;
  for (int64_t number = all->done[writer] + 1; goes_on();) {
    int code = transfer(writer, number, &seed);
    if (code == PDT_CONFLICT || code == PDT_TOO_OLD) {
      all->conflicts++;
      continue;
    }
    if (MUST(code)) break;
    all->done[writer] = number++;
    all->commits++;
  }
  return NULL;
}

static void *write_large(void *context) {
  (void)context;
  for (int64_t number = all->done[SMALL] + 1; goes_on();) {
    pdt_txn *txn = NULL;
    if (MUST(pdt_begin(wide, &txn))) break;
    for (int64_t key = 0; key < WIDE && goes_on(); key++) set_value(txn, key, number);
    if (!goes_on()) { /* not all of it is set */
      pdt_abort(txn);
      break;
    }
    all->tried[SMALL] = number;
    int64_t began = now();
    int code = pdt_commit(txn, NULL);
    add_took(&large_times, now() - began);
    if (MUST(code)) break;
    all->done[SMALL] = number++;
    all->commits++;
  }
  return NULL;
}

/* Drops a table once no database transaction is over it. */
static int drop(const char *name) {
  int code;
  drops = true;
  while ((code = pdt_table_drop(database, name)) == PDT_MISUSE && goes_on()) pass(1);
  drops = false;
  return code;
}

static void *make_and_drop(void *context) {
  (void)context;
  unsigned seed = (unsigned)getpid();
  for (int turn = 0; goes_on(); turn++) {
    char name[32];
    snprintf(name, sizeof name, "temporary-%d", turn % 3);
    int code = drop(name); /* that a process before has left, or this one */
    if (code != PDT_MISSING && code != PDT_MISUSE && MUST(code)) break;
    pdt_table *table = find_or_make(name, 1 + rand_r(&seed) % 20000, turn);
    pdt_txn *txn = NULL;
    if (!table || MUST(pdt_begin(table, &txn))) break;
    set_value(txn, 0, turn + 1);
    if (MUST(pdt_commit(txn, NULL))) break;
    pass(rand_r(&seed) % 200);
    if (turn % 4 && (code = drop(name)) && code != PDT_MISUSE && MUST(code)) break;
  }
  return NULL;
}

/* ---- what has to be so at each moment */

static int64_t read_all(pdt_txn *txn, int64_t *values, size_t room) {
  size_t count = room;
  MUST(pdt_ints(txn, 1, 0, values, &count));
  return (int64_t)count;
}

static void check_tables(pdt_dbtxn *dbtxn) {
  static _Thread_local int64_t values[KEPT_ROWS * SMALL * 2];
  pdt_txn *txn = NULL;
  int64_t sum = 0;
  MUST(pdt_dbtxn_on(dbtxn, accounts, &txn));
  is_wrong("accounts", ACCOUNTS, read_all(txn, values, ACCOUNTS + 1));
  for (int i = 0; i < ACCOUNTS; i++) sum += values[i];
  is_wrong("money", (long long)ACCOUNTS * EACH, sum);
  MUST(pdt_dbtxn_on(dbtxn, wide, &txn));
  is_wrong("rows", WIDE, read_all(txn, values, WIDE + 1));
  for (int i = 1; i < WIDE; i++)
    if (is_wrong("a large commit is whole", values[0], values[i])) break;
  MUST(pdt_dbtxn_on(dbtxn, idle, &txn));
  is_wrong("idle rows", IDLE, read_all(txn, values, IDLE + 1));
  for (int i = 0; i < IDLE; i++)
    if (is_wrong("an idle row", 7, values[i])) break;
}

/* The last note of each writer is of a commit that was tried, and not before one that was acknowledged. */
static void check_notes(pdt_dbtxn *dbtxn, const long long *done) {
  pdt_txn *txn = NULL;
  MUST(pdt_dbtxn_on(dbtxn, notes, &txn));
  for (int64_t writer = 0; writer < SMALL; writer++) {
    long long found = 0;
    for (int64_t number = all->tried[writer]; number > 0 && number >= done[writer] && !found; number--) {
      int64_t key = number * SMALL + writer, row[2];
      if (!pdt_get(txn, &key, NULL, 0, row, NULL, 0, NULL)) found = number;
    }
    if (found < done[writer]) is_wrong("an acknowledged commit is there", done[writer], found);
  }
  MUST(pdt_dbtxn_on(dbtxn, wide, &txn));
  if (value_of(txn, 0) < done[SMALL]) is_wrong("an acknowledged large commit is there", done[SMALL], value_of(txn, 0));
}

static void check(void) {
  long long done[SMALL + 1];
  for (int i = 0; i <= SMALL; i++) done[i] = all->done[i]; /* before it begins */
  pdt_dbtxn *dbtxn = begin_dbtxn();
  if (!dbtxn) return;
  check_tables(dbtxn);
  check_notes(dbtxn, done);
  pdt_dbtxn_abort(dbtxn);
  all->checks++;
}

/* ---- what it takes */

static long resident(void) {
  char line[256];
  long kilobytes = -1;
  FILE *file = fopen("/proc/self/status", "r");
  while (file && fgets(line, sizeof line, file))
    if (sscanf(line, "VmRSS: %ld", &kilobytes) == 1) break;
  if (file) fclose(file);
  return kilobytes;
}
static int open_files(void) {
  int count = -3; /* its own, and the two names of each folder */
  DIR *names = opendir("/proc/self/fd");
  while (names && readdir(names)) count++;
  if (names) closedir(names);
  return count;
}
static long long bytes;
static int add_file(const char *path, const struct stat *about, int kind, struct FTW *where) {
  (void)path, (void)where;
  if (kind == FTW_F) bytes += about->st_size;
  return 0;
}

/* Prints a minute, and compares it with the second one of this process. */
static void show_minute(const char *folder, long minute) {
  static long kilobytes_at;
  static long long bytes_at;
  static int files_at;
  pthread_mutex_lock(&lock);
  tails small = small_times, large = large_times;
  small_times = large_times = (tails){0};
  pthread_mutex_unlock(&lock);
  bytes = 0;
  nftw(folder, add_file, 8, FTW_PHYS);
  long kilobytes = resident();
  int files = open_files();
  printf("process %ld, minute %ld: %ld KB, %d files, %lld KB in the folder, %lld commits", (long)getpid(), minute, kilobytes, files,
         bytes >> 10, (long long)all->commits);
  print_tails("small", &small);
  print_tails("large", &large);
  puts("");
  fflush(stdout);
  if (minute == 2) kilobytes_at = kilobytes, bytes_at = bytes, files_at = files;
  if (minute <= 2) return;
  if (kilobytes > 2 * kilobytes_at + (64 << 10)) is_wrong("the memory stays, in KB", kilobytes_at, kilobytes);
  if (bytes > 2 * bytes_at + (128LL << 20)) is_wrong("the folder stays", bytes_at, bytes);
  if (files > files_at + 8) is_wrong("the files stay", files_at, files);
}

/* ---- a process */

static void *repeat_checks(void *context) {
  (void)context;
  while (goes_on()) {
    check();
    for (int i = 0; i < 20 && goes_on(); i++) pass(50);
  }
  return NULL;
}

/* A commit that the last process has tried, and that wasn't acknowledged, is there or not: its writer goes on after it. */
static void settle(void) {
  pdt_txn *txn = NULL;
  if (MUST(pdt_begin(notes, &txn))) return;
  for (int64_t writer = 0; writer < SMALL; writer++) {
    int64_t key = all->tried[writer] * SMALL + writer, row[2];
    if (!pdt_get(txn, &key, NULL, 0, row, NULL, 0, NULL)) all->done[writer] = (long long)all->tried[writer];
  }
  pdt_abort(txn);
  if (MUST(pdt_begin(wide, &txn))) return;
  all->done[SMALL] = value_of(txn, 0);
  pdt_abort(txn);
}

/* Works until it is killed, or the seconds are over: then it closes the database. */
static int dbtxn_on(const char *folder, long limit) {
  pdt_database_options options = {.size = sizeof options, .sync = PDT_SYNC_NORMAL};
  pdt_report report = {.size = sizeof report};
  int code = pdt_database_open(folder, &options, &database, &report);
  if (code) fprintf(stderr, "commit %llu, file %s\n", (unsigned long long)report.fault, report.file);
  if (is_wrong("open", PDT_OK, code)) return 1;
  accounts = find_or_make("accounts", ACCOUNTS, EACH);
  notes = find_or_make("notes", 0, 0);
  wide = find_or_make("wide", WIDE, 0);
  idle = find_or_make("idle", IDLE, 7);
  if (!all->failed) check(); /* of what the last process has left */
  if (!all->failed) settle();
  pthread_t threads[SMALL + 3];
  void *(*const calls[])(void *) = {write_small, write_small, write_small, write_large, make_and_drop, repeat_checks};
  for (size_t i = 0; i < SMALL + 3; i++) pthread_create(&threads[i], NULL, calls[i], (void *)i);
  double end = seconds() + (double)limit, next = seconds() + MINUTE;
  for (long minute = 1; goes_on() && seconds() < end; pass(20)) {
    if (seconds() < next) continue;
    show_minute(folder, minute++);
    next += MINUTE;
  }
  stops = true;
  for (size_t i = 0; i < SMALL + 3; i++) pthread_join(threads[i], NULL);
  if (!all->failed) check();
  MUST(pdt_database_close(database));
  return all->failed;
}

int main(int argc, char **argv) {
  long limit = argc > 3 ? atol(argv[2]) : 0, every = argc > 3 ? atol(argv[3]) : 0;
  if (limit <= 0 || every <= 0) return fprintf(stderr, "unattended FOLDER SECONDS KILL_EVERY\n"), 2;
  char folder[500];
  snprintf(folder, sizeof folder, "%s/unattended", argv[1]);
  all = mmap(NULL, sizeof *all, PROT_READ | PROT_WRITE, MAP_SHARED | MAP_ANONYMOUS, -1, 0);
  if (all == MAP_FAILED) return perror("mmap"), 1;
  double end = seconds() + (double)limit;
  long kills = 0, closes = 0;
  unsigned seed = (unsigned)getpid();
  while (!all->failed && seconds() < end) {
    long left = (long)(end - seconds()) + 1, life = 1 + rand_r(&seed) % (2 * every);
    bool is_killed = rand_r(&seed) % 4 && life < left;
    pid_t child = fork();
    if (!child) _exit(dbtxn_on(folder, is_killed ? 1000000 : life < left ? life : left));
    double until = seconds() + (double)life - (double)(rand_r(&seed) % 1000) / 1000;
    int status = 0;
    while (is_killed && seconds() < until && !all->failed) pass(5);
    if (is_killed && !all->failed) kill(child, SIGKILL);
    waitpid(child, &status, 0);
    bool is_right = is_killed ? WIFSIGNALED(status) && WTERMSIG(status) == SIGKILL : WIFEXITED(status) && !WEXITSTATUS(status);
    if (!is_right) is_wrong("how a process ended", 0, status);
    kills += is_killed, closes += !is_killed;
  }
  if (!all->failed) is_wrong("the last process", 0, dbtxn_on(folder, 1));
  printf("%ld kills, %ld closes, %lld commits, %lld conflicts, %lld checks of all tables: %s\n", kills, closes, (long long)all->commits,
         (long long)all->conflicts, (long long)all->checks, all->failed ? "WRONG" : "right");
  return all->failed ? 1 : 0;
}
