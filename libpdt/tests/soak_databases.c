/* A database that runs on stays as it is: soak_databases FOLDER N has two threads write a table, N commits each, while another one scans
   it, and maintenance folds, makes images and takes files of the journal away. It prints the resident memory, the bytes of the folder, the
   quickest scan, and how long the begins and the commits of both took, each tenth. It fails where the memory has grown by more than 4 MB
   since the third tenth, or the folder has more than its bound. The times are for people to read. Reads /proc, as Linux has it. */
#define _XOPEN_SOURCE 700
#define _DEFAULT_SOURCE
#include "events.h"
#include "tails.h"
#include <ftw.h>
#include <pdt.h>
#include <pthread.h>
#include <stdatomic.h>
#include <stdio.h>
#include <stdlib.h>
#include <string.h>
#include <sys/stat.h>

enum { ROWS = 20000, WRITERS = 2, SETS = 3, TENTHS = 10, MOST_KB = 4096, MOST_BYTES = 6 << 20 };

static pdt_database *database;
static pdt_table *table;
static atomic_long commits;                              /* of all writers */
static atomic_llong quickest;                            /* of the scans since it was asked for, in nanoseconds */
static pthread_mutex_t lock = PTHREAD_MUTEX_INITIALIZER; /* of the next two */
static tails begins, ends;                               /* of all writers, since they were printed */
static atomic_bool stops, failed;
static long due;

static bool fails(const char *what, int code) {
  if (code) fprintf(stderr, "%s: %s\n", what, pdt_code_text(code)), failed = true;
  return code;
}

/* The memory that is resident, in KB; or -1. */
static long resident(void) {
  char line[256];
  long kilobytes = -1;
  FILE *file = fopen("/proc/self/status", "r");
  while (file && fgets(line, sizeof line, file))
    if (sscanf(line, "VmRSS: %ld", &kilobytes) == 1) break;
  if (file) fclose(file);
  return kilobytes;
}

static long long bytes;
static int add_file(const char *path, const struct stat *about, int kind, struct FTW *where) {
  (void)path, (void)where;
  if (kind == FTW_F) bytes += about->st_size;
  return 0; /* one that was taken away meanwhile has none */
}
static long long bytes_of(const char *folder) {
  bytes = 0;
  nftw(folder, add_file, 8, FTW_PHYS);
  return bytes;
}

static void add_times(int64_t begin, int64_t end) {
  pthread_mutex_lock(&lock);
  add_time(&begins, begin);
  add_time(&ends, end);
  pthread_mutex_unlock(&lock);
}
static void print_times(void) {
  pthread_mutex_lock(&lock);
  tails all_begins = begins, all_ends = ends; /* so that no writer waits for the printing */
  begins = ends = (tails){0};
  pthread_mutex_unlock(&lock);
  print_tails("begin", &all_begins);
  print_tails("commit", &all_ends);
}

/* Each has rows of its own, so that none conflicts. */
static void *write_on(void *context) {
  unsigned seed = (unsigned)(size_t)context;
  for (long i = 0; i < due && !failed;) {
    pdt_txn *txn;
    int64_t at = now();
    if (fails("begin", pdt_begin(table, &txn))) return NULL;
    int64_t begin = now() - at;
    for (int k = 0; k < SETS; k++) {
      int64_t id = WRITERS * (rand_r(&seed) % (ROWS / WRITERS)) + (int64_t)(size_t)context - 1;
      if (fails("set", pdt_set(txn, &id, NULL, 0, 1, i, NULL))) return NULL;
    }
    at = now();
    int code = pdt_commit(txn, NULL);
    int64_t end = now() - at;
    if (code == PDT_TOO_OLD) continue; /* the other thread has made many meanwhile */
    if (fails("commit", code)) return NULL;
    add_times(begin, end);
    commits++;
    i++;
  }
  return NULL;
}

static void *scan_on(void *context) {
  int64_t *numbers = context;
  while (!stops && !failed) {
    pdt_txn *txn;
    size_t count = ROWS;
    if (fails("begin", pdt_begin(table, &txn))) return NULL;
    int64_t began = now();
    bool bad = fails("ints", pdt_ints(txn, 1, 0, numbers, &count)) || count != ROWS;
    int64_t took = now() - began;
    pdt_abort(txn);
    if (bad) failed = true;
    if (took < quickest) quickest = took;
  }
  return NULL;
}

/* Looks at each tenth of the commits, and says whether all stays in its bounds. */
static bool watch(const char *folder) {
  long third = 0;
  for (long tenth = 1; tenth <= TENTHS; tenth++) {
    quickest = 1LL << 60;
    while (commits < WRITERS * due / TENTHS * tenth && !failed) nanosleep(&(struct timespec){0, 2000000}, NULL);
    long kilobytes = resident();
    long long found = bytes_of(folder), scan = quickest;
    printf("%ld commits: %ld KB, %lld bytes, a scan %lld us", (long)commits, kilobytes, found, scan / 1000);
    print_times();
    puts("");
    fflush(stdout);
    if (tenth == 3) third = kilobytes;
    if (failed || kilobytes < 0) return false;
    if (third && kilobytes - third > MOST_KB) return fprintf(stderr, "%ld KB more\n", kilobytes - third), false;
    if (found > MOST_BYTES) return fprintf(stderr, "the folder has %lld bytes\n", found), false;
  }
  return true;
}

int main(int argc, char **argv) {
  due = argc > 2 ? atol(argv[2]) : 0;
  if (due < TENTHS) return fprintf(stderr, "soak_databases FOLDER N: the commits of each of two threads, 10 or more\n"), 2;
  char folder[500];
  snprintf(folder, sizeof folder, "%s/soak", argv[1]);
  static int64_t ids[ROWS], qty[ROWS], numbers[ROWS];
  for (int i = 0; i < ROWS; i++) ids[i] = i;
  pdt_column columns[] = {{"id", PDT_INT, ROWS, ids, NULL, NULL, 0}, {"qty", PDT_INT, ROWS, qty, NULL, NULL, 0}};
  pdt_options small = {sizeof small, 256, 0, false};
  pdt_database_options options = {.size = sizeof options, .sync = PDT_SYNC_NORMAL, .checkpoint_entries = 2000, .journal_bytes = 1 << 20};
  if (fails("open", pdt_database_open(folder, &options, &database, NULL))) return 1;
  if (fails("create", pdt_table_create(database, "items", columns, 2, 1, &small, NULL, &table))) return 1;
  pthread_t writers[WRITERS], scanner;
  for (size_t i = 0; i < WRITERS; i++) pthread_create(&writers[i], NULL, write_on, (void *)(i + 1));
  pthread_create(&scanner, NULL, scan_on, numbers);
  bool right = watch(folder);
  if (!right) failed = true;
  for (size_t i = 0; i < WRITERS; i++) pthread_join(writers[i], NULL);
  stops = true;
  pthread_join(scanner, NULL);
  pdt_database_counts counts = {.size = sizeof counts};
  bool is_bad = false;
  UNTIL((is_bad = fails("count", pdt_database_count(database, &counts))) || counts.checkpoints); /* what is due is made soon */
  if (is_bad) return 1;
  printf("%llu folds, %llu images, %llu faults\n", (unsigned long long)counts.folds, (unsigned long long)counts.checkpoints,
         (unsigned long long)counts.faults);
  if (!counts.checkpoints || counts.faults) right = false;
  if (fails("close", pdt_database_close(database))) return 1;
  return right && !failed ? 0 : 1;
}
