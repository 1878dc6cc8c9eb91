/* What a table keeps doesn't grow with its commits. soak N: makes N commits of one set each over a small table that keeps 64 of
   them, with a fold each 10,000, and prints the resident memory each tenth, and how long its begins and its commits took. It fails where
   the memory has grown by more than 1 MB since the first tenth; the times are for people to read. Reads /proc, as Linux has it. */
#define _POSIX_C_SOURCE 200809L
#include "tails.h"
#include <pdt.h>
#include <stdio.h>
#include <stdlib.h>
#include <string.h>

/* The memory that is resident, in KB; or -1. */
static long resident(void) {
  char line[256];
  long kilobytes = -1;
  FILE *file = fopen("/proc/self/status", "r");
  while (file && fgets(line, sizeof line, file))
    if (sscanf(line, "VmRSS: %ld", &kilobytes) == 1) break;
  if (file) fclose(file);
  return kilobytes;
}

static int fails(const char *what, pdt_code code) { return fprintf(stderr, "%s: %s\n", what, pdt_code_text(code)), 1; }

int main(int argc, char **argv) {
  enum { ROWS = 1000 };
  long commits = argc > 1 ? atol(argv[1]) : 0, tenth = commits / 10;
  if (tenth < 1) return fprintf(stderr, "soak N: the commits, 10 or more\n"), 2;
  static int64_t ids[ROWS], qty[ROWS];
  for (int i = 0; i < ROWS; i++) ids[i] = i;
  pdt_column columns[] = {{"id", PDT_INT, ROWS, ids, NULL, NULL, 0}, {"qty", PDT_INT, ROWS, qty, NULL, NULL, 0}};
  pdt_options options = {sizeof options, 64, 0, false};
  pdt_table *table;
  pdt_code code = pdt_open_columns(columns, 2, 1, &options, NULL, &table);
  if (code) return fails("open", code);
  static tails begins, ends; /* of a tenth */
  long first = 0;
  int64_t start = now();
  for (long i = 1; i <= tenth * 10; i++) {
    pdt_txn *txn;
    int64_t at = now();
    if ((code = pdt_begin(table, &txn))) return fails("begin", code);
    add_time(&begins, now() - at);
    if ((code = pdt_set(txn, (int64_t[]){i * 7919 % ROWS}, NULL, 0, 1, i, NULL))) return fails("set", code);
    at = now();
    if ((code = pdt_commit(txn, NULL))) return fails("commit", code);
    add_time(&ends, now() - at);
    if (i % 10000 == 0 && (code = pdt_fold(table))) return fails("fold", code);
    if (i % tenth) continue;
    long kilobytes = resident();
    if (kilobytes < 0) return fprintf(stderr, "no resident memory is told\n"), 1;
    if (i == tenth) first = kilobytes;
    printf("%ld commits, %.1f s: %ld KB", i, (double)(now() - start) / 1e9, kilobytes);
    print_tails("begin", &begins);
    print_tails("commit", &ends);
    puts("");
    fflush(stdout);
    begins = ends = (tails){0};
    if (kilobytes - first > 1024) return fprintf(stderr, "%ld KB more than after the first tenth\n", kilobytes - first), 1;
  }
  pdt_counts counts = {.size = sizeof counts};
  if ((code = pdt_count(table, &counts))) return fails("count", code);
  if (counts.commits != (uint64_t)tenth * 10 || counts.kept != (tenth * 10 < 64 ? (size_t)tenth * 10 : 64) || counts.kept_entries > 64)
    return fprintf(stderr, "it keeps %zu commits of %llu\n", counts.kept, (unsigned long long)counts.commits), 1;
  code = pdt_close(table);
  return code ? fails("close", code) : 0;
}
