/* What a database keeps of declared columns, where one call of the system fails, or that one and all after it, as at a crash: the table
   is there with what it was made with, or not at all, whichever call makes it; and what is declared later is the old or the new, whole.
   Linked with --wrap of the calls.
   declared FOLDER: one that is empty. */
#define _POSIX_C_SOURCE 200809L
#include "arrow_source.h"

#include <dirent.h>
#include <fcntl.h>
#include <stdarg.h>
#include <stdio.h>
#include <stdlib.h>
#include <sys/stat.h>
#include <unistd.h>

static int failures;
static void is(const char *what, long at, long long wanted, long long found) {
  if (wanted == found) return;
  failures++;
  fprintf(stderr, "%s, with call %ld failing: wanted %lld, found %lld\n", what, at, wanted, found);
}

/* ---- the calls, the n-th of which fails */

static long calls, fails_at = -1; /* and those after it, where it stays so */
static bool stays;

static bool falls(void) {
  long at = calls++;
  bool now = fails_at >= 0 && (at == fails_at || (stays && at > fails_at));
  if (now) errno = EIO;
  return now;
}

int __real_openat(int, const char *, int, ...);
ssize_t __real_write(int, const void *, size_t);
ssize_t __real_read(int, void *, size_t);
int __real_renameat(int, const char *, int, const char *);
int __real_unlinkat(int, const char *, int);
int __real_mkdirat(int, const char *, mode_t);
int __real_ftruncate(int, off_t);

int __wrap_openat(int dir, const char *path, int how, ...) {
  va_list rest;
  va_start(rest, how);
  int mode = how & O_CREAT ? va_arg(rest, int) : 0;
  va_end(rest);
  return falls() ? -1 : __real_openat(dir, path, how, mode);
}
ssize_t __wrap_write(int file, const void *bytes, size_t len) {
  if (!falls()) return __real_write(file, bytes, len);
  if (len > 3) (void)!__real_write(file, bytes, len / 2); /* the device took a part, of which it doesn't tell */
  return -1;
}
ssize_t __wrap_read(int file, void *bytes, size_t len) { return falls() ? -1 : __real_read(file, bytes, len); }
int __wrap_fdatasync(int file) {
  (void)file;
  return falls() ? -1 : 0;
}
int __wrap_fsync(int file) {
  (void)file;
  return falls() ? -1 : 0;
}
int __wrap_renameat(int a, const char *from, int b, const char *to) { return falls() ? -1 : __real_renameat(a, from, b, to); }
int __wrap_unlinkat(int dir, const char *path, int how) { return falls() ? -1 : __real_unlinkat(dir, path, how); }
int __wrap_mkdirat(int dir, const char *path, mode_t mode) { return falls() ? -1 : __real_mkdirat(dir, path, mode); }
struct dirent *__real_readdir(DIR *);
struct dirent *__wrap_readdir(DIR *names) {
  return falls() ? NULL : __real_readdir(names);
}
int __wrap_ftruncate(int file, off_t len) { return falls() ? -1 : __real_ftruncate(file, len); }

/* ---- the run */

static const int64_t ids[] = {1, 2, 3};
static const int32_t days[] = {20000, 20001, 20002};
static pdt_database_options options = {.size = sizeof options, .no_maintenance = true};

static void fill(source *in) {
  source_begin(in);
  source_column(in, "id", "l");
  source_column(in, "day", "tdD");
  source_batch(in, 3);
  source_cells(in, 3, 2, NULL, ids, NULL);
  source_cells(in, 3, 2, NULL, days, NULL);
}

static void remove_all(const char *folder) {
  char command[4200];
  snprintf(command, sizeof command, "rm -rf '%s'", folder);
  if (system(command)) failures++;
}

/* Whether a column is declared so; of a null, whether it isn't. */
static bool is_declared(pdt_table *table, const char *format) {
  const char *found = pdt_declared(table, 1);
  return format && found ? !strcmp(format, found) : !format && !found;
}

/* The ways to make a table whose second column has days. */
enum way { BY_ARROW, BY_CSV, BY_COLUMNS, WAYS };
static const char csv[] = "id:int:key,day:int\n1,20000\n2,20001\n3,20002\n";
static const int64_t numbers[] = {20000, 20001, 20002};
static const pdt_column columns[] = {{"id", PDT_INT, 3, ids, NULL, NULL, 0}, {"day", PDT_INT, 3, numbers, NULL, NULL, 0}};
static const char *const formats[] = {NULL, "tdD"};

static int make(pdt_database *database, enum way way, pdt_table **table) {
  static source in;
  if (way == BY_CSV) return pdt_table_create_csv_declared(database, "t", csv, sizeof csv - 1, formats, 2, NULL, NULL, table);
  if (way == BY_COLUMNS) return pdt_table_create_declared(database, "t", columns, 2, 1, formats, NULL, NULL, table);
  fill(&in);
  struct ArrowArrayStream stream = source_stream(&in);
  return pdt_table_create_arrow(database, "t", &stream, (const char *[]){"id"}, 1, NULL, NULL, table);
}

/* Makes a table, and declares its column anew, while a call fails: what was answered is what the next opening finds. */
static int run(const char *folder, enum way way, long at) {
  pdt_database *database = NULL;
  pdt_table *table = NULL;
  is("open", at, PDT_OK, pdt_database_open(folder, &options, &database, NULL));
  if (!database) return -1;
  calls = 0;
  fails_at = at;
  int made = make(database, way, &table), declared = PDT_MISSING;
  if (!made) declared = pdt_declare(table, 1, "?tdD");
  if (!made) is("declared", at, true, is_declared(table, declared ? "tdD" : "?tdD"));
  long made_calls = calls;
  (void)pdt_database_close(database);
  fails_at = -1;
  is("structs", at, 0, live);
  is("open again", at, PDT_OK, pdt_database_open(folder, &options, &database, NULL));
  int there = pdt_table_open(database, "t", &table);
  if (!made) is("there", at, PDT_OK, there);
  if (!there) {
    if (!declared) is("declared again", at, true, is_declared(table, "?tdD"));
    if (declared) is("declared before", at, true, is_declared(table, "tdD") || is_declared(table, "?tdD"));
  } else if (!pdt_table_create_csv(database, "t", "id:int:key,day:int\n", 19, NULL, NULL, &table)) {
    is("another table", at, true, is_declared(table, NULL)); /* nothing is left of the one that wasn't made */
  }
  is("close", at, PDT_OK, pdt_database_close(database));
  is("open at last", at, PDT_OK, pdt_database_open(folder, &options, &database, NULL));
  if (there) is("still another table", at, true, !pdt_table_open(database, "t", &table) && is_declared(table, NULL));
  is("drop", at, PDT_OK, pdt_table_drop(database, "t"));
  is("close", at, PDT_OK, pdt_database_close(database));
  return at >= 0 && made_calls <= at; /* there was none to fail any more */
}

/* A format that is none of its column's makes no table. */
static void refuses(const char *folder) {
  static const struct {
    const char *formats[3];
    size_t count;
  } bad[] = {{{NULL, "no"}, 2}, {{NULL, "b"}, 2}, {{"?l", NULL}, 2}, {{NULL, NULL, "tdD"}, 3}};
  pdt_database *database = NULL;
  pdt_table *table = NULL;
  is("open", -1, PDT_OK, pdt_database_open(folder, &options, &database, NULL));
  for (size_t i = 0; i < sizeof bad / sizeof *bad; i++) {
    int code = pdt_table_create_csv_declared(database, "t", csv, sizeof csv - 1, bad[i].formats, bad[i].count, NULL, NULL, &table);
    is("a format of a text", (long)i, PDT_TYPE_MISMATCH, code);
    is("no table", (long)i, true, !table);
    if (bad[i].count > 2) continue;
    code = pdt_table_create_declared(database, "t", columns, 2, 1, bad[i].formats, NULL, NULL, &table);
    is("a format of columns", (long)i, PDT_TYPE_MISMATCH, code);
  }
  is("no formats", -1, PDT_MISUSE, pdt_table_create_csv_declared(database, "t", csv, sizeof csv - 1, NULL, 1, NULL, NULL, &table));
  is("nor of columns", -1, PDT_MISUSE, pdt_table_create_declared(database, "t", columns, 2, 1, NULL, NULL, NULL, &table));
  is("none is there", -1, PDT_MISSING, pdt_table_open(database, "t", &table));
  is("none of no columns", -1, PDT_OK, pdt_table_create_csv_declared(database, "t", csv, sizeof csv - 1, NULL, 0, NULL, NULL, &table));
  is("isn't declared", -1, true, is_declared(table, NULL));
  is("a table of the name", -1, PDT_EXISTS, make(database, BY_CSV, &table));
  is("close", -1, PDT_OK, pdt_database_close(database));
}

/* A file that isn't as it was written is told, and never believed. */
static void is_told(const char *folder) {
  char path[4300];
  uint8_t bytes[256];
  pdt_database *database = NULL;
  pdt_table *table = NULL;
  pdt_report report = {.size = sizeof report};
  remove_all(folder);
  is("open", -1, PDT_OK, pdt_database_open(folder, &options, &database, NULL));
  is("make", -1, PDT_OK, make(database, BY_CSV, &table));
  is("close", -1, PDT_OK, pdt_database_close(database));
  snprintf(path, sizeof path, "%s/types-1", folder);
  FILE *file = fopen(path, "r+b");
  size_t len = file ? fread(bytes, 1, sizeof bytes, file) : 0;
  is("a file", -1, true, len > 0);
  for (size_t at = 0; at < len; at++) {
    uint8_t changed = bytes[at] ^ (uint8_t)(1 << at % 8);
    fseek(file, (long)at, SEEK_SET);
    fwrite(&changed, 1, 1, file);
    fflush(file);
    is("a bit of it", (long)at, PDT_CORRUPT, pdt_database_open(folder, &options, &database, &report));
    is("its name", (long)at, 0, strcmp(report.file, "types-1"));
    fseek(file, (long)at, SEEK_SET);
    fwrite(&bytes[at], 1, 1, file);
    fflush(file);
  }
  if (file) fclose(file);
  is("whole again", -1, PDT_OK, pdt_database_open(folder, &options, &database, &report));
  snprintf(path, sizeof path, "%s/types-new", folder); /* that a crash has left, longer than the next one */
  file = fopen(path, "wb");
  for (int i = 0; file && i < 500; i++) fputc('x', file);
  if (file) fclose(file);
  is("table", -1, PDT_OK, pdt_table_open(database, "t", &table));
  is("declare", -1, PDT_OK, pdt_declare(table, 1, "tss:"));
  is("close", -1, PDT_OK, pdt_database_close(database));
  is("over what was left", -1, PDT_OK, pdt_database_open(folder, &options, &database, &report));
  is("table", -1, PDT_OK, pdt_table_open(database, "t", &table));
  is("declared", -1, true, is_declared(table, "tss:"));
  is("close", -1, PDT_OK, pdt_database_close(database));
}

int main(int argc, char **argv) {
  if (argc != 2) return fprintf(stderr, "declared FOLDER: one that is empty\n"), 2;
  char folder[4200];
  snprintf(folder, sizeof folder, "%s/database", argv[1]);
  refuses(folder);
  is_told(folder);
  long tried = 0;
  for (int round = 0; round < 2 * WAYS - 1; round++) {
    stays = round % 2;
    for (long at = -1; !failures; at++) {
      remove_all(folder);
      if (run(folder, (enum way)(round / 2), at)) break;
      tried++;
    }
  }
  remove_all(folder);
  if (!failures) printf("declared: %ld runs passed\n", tried);
  return failures || tried < 100;
}
