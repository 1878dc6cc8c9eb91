/* Folders that the program has made with a journal, opened as databases: what they have, that numbers go on, which damage is told and how,
   and that a crash in the midst of it leaves the run's folder or the database. Linked with --wrap of the calls, and of those for memory.

     imports ROOM RUN EVERY [PROGRAM]     RUN is a folder that the program made; PROGRAM is pdt, which makes some more */
#define _POSIX_C_SOURCE 200809L
#include <dirent.h>
#include <errno.h>
#include <fcntl.h>
#include <pdt.h>
#include <stdarg.h>
#include <stdio.h>
#include <stdlib.h>
#include <string.h>
#include <sys/stat.h>
#include <sys/wait.h>
#include <unistd.h>

static int failures;
static void is(const char *what, long long wanted, long long found) {
  if (wanted == found) return;
  failures++;
  fprintf(stderr, "%s: wanted %lld, found %lld\n", what, wanted, found);
}

/* ---- the calls, the n-th of which fails, or is where the process ends */

static long calls, fails_at = -1;
static enum { ONCE, STAYS, DIES } way;
static bool falls(void) {
  long at = calls++;
  bool now = fails_at >= 0 && (at == fails_at || (way == STAYS && at > fails_at));
  if (now && way == DIES) _exit(0);
  if (now) errno = EIO;
  return now;
}

int __real_openat(int, const char *, int, ...);
ssize_t __real_write(int, const void *, size_t);
int __real_renameat(int, const char *, int, const char *);
int __real_unlinkat(int, const char *, int);
int __real_mkdirat(int, const char *, mode_t);
int __real_ftruncate(int, off_t);
ssize_t __real_read(int, void *, size_t);

int __wrap_openat(int dir, const char *path, int how, ...) {
  va_list rest;
  va_start(rest, how);
  int mode = how & O_CREAT ? va_arg(rest, int) : 0;
  va_end(rest);
  return falls() ? -1 : __real_openat(dir, path, how, mode);
}
ssize_t __wrap_write(int file, const void *bytes, size_t len) { return falls() ? -1 : __real_write(file, bytes, len); }
ssize_t __wrap_read(int file, void *bytes, size_t len) { return falls() ? -1 : __real_read(file, bytes, len); }
int __wrap_fdatasync(int file) { return (void)file, falls() ? -1 : 0; }
int __wrap_fsync(int file) { return (void)file, falls() ? -1 : 0; }
int __wrap_renameat(int a, const char *from, int b, const char *to) { return falls() ? -1 : __real_renameat(a, from, b, to); }
int __wrap_unlinkat(int dir, const char *path, int how) { return falls() ? -1 : __real_unlinkat(dir, path, how); }
int __wrap_mkdirat(int dir, const char *path, mode_t mode) { return falls() ? -1 : __real_mkdirat(dir, path, mode); }
struct dirent *__real_readdir(DIR *);
struct dirent *__wrap_readdir(DIR *names) {
  return falls() ? NULL : __real_readdir(names);
}
int __wrap_ftruncate(int file, off_t len) { return falls() ? -1 : __real_ftruncate(file, len); }

/* ---- memory, of which the n-th piece is refused */

static long spans, refuses_at = -1, blocks;
void *__real_malloc(size_t);
void *__real_calloc(size_t, size_t);
void *__real_realloc(void *, size_t);
void __real_free(void *);
static bool refuses(void) { return spans++ == refuses_at; }
static void *counted(void *at) { return blocks += at != NULL, at; }
void *__wrap_malloc(size_t len) { return counted(refuses() ? NULL : __real_malloc(len)); }
void *__wrap_calloc(size_t count, size_t len) { return counted(refuses() ? NULL : __real_calloc(count, len)); }
void *__wrap_realloc(void *at, size_t len) {
  void *now = refuses() ? NULL : __real_realloc(at, len);
  return at ? now : counted(now);
}
void __wrap_free(void *at) {
  blocks -= at != NULL;
  __real_free(at);
}

/* ---- files */

static const char *room, *run;
static char folder[600]; /* in which a case is tried */

static void shell(const char *form, const char *a, const char *b) {
  char words[1600];
  snprintf(words, sizeof words, form, a, b);
  if (system(words)) fprintf(stderr, "%s\n", words), exit(1);
}
static void copied(const char *from) {
  char words[1600];
  snprintf(folder, sizeof folder, "%s/case", room);
  snprintf(words, sizeof words, "rm -rf '%s' && cp -r '%s' '%s'", folder, from, folder);
  if (system(words)) exit(1);
}
static const char *path_of(const char *file) {
  static char path[800];
  snprintf(path, sizeof path, "%s/%s", folder, file);
  return path;
}
static bool has(const char *file) {
  struct stat about;
  return !lstat(path_of(file), &about);
}
static long len_of(const char *file) {
  struct stat about;
  return stat(path_of(file), &about) ? -1 : (long)about.st_size;
}
static void put(const char *file, const void *bytes, size_t len) {
  FILE *one = fopen(path_of(file), "wb");
  if (!one || fwrite(bytes, 1, len, one) != len || fclose(one)) exit(1);
}
static size_t got(const char *file, uint8_t *bytes, size_t room_for) {
  FILE *one = fopen(path_of(file), "rb");
  if (!one) exit(1);
  size_t len = fread(bytes, 1, room_for, one);
  fclose(one);
  return len;
}
static void change(const char *file, long at, int with) {
  uint8_t bytes[4096];
  size_t len = got(file, bytes, sizeof bytes);
  bytes[at] ^= (uint8_t)with;
  put(file, bytes, len);
}
static void cut(const char *file, long len) {
  if (truncate(path_of(file), len)) exit(1);
}

/* ---- the run that is kept: three rows, of which it made four by four commits, with an image after the second */

static pdt_report report;
static pdt_database_options options = {.size = sizeof options, .no_maintenance = true};
static const char *const files[] = {"header.csv", "column-0.pdt", "column-1.pdt", "column-2.pdt", "images.pdt", "journal.pdt"};
enum { FILES = 6, COMMITS = 4, HEADER = 36, HEAD = 28, MARKED = 2 };

static int try_open(pdt_database **database) {
  *database = NULL;
  report = (pdt_report){.size = sizeof report};
  return pdt_database_open(folder, &options, database, &report);
}
static int files_there(void) {
  int count = 0;
  for (int i = 0; i < FILES; i++) count += has(files[i]);
  return count;
}

/* What the table has after each number of commits. */
typedef struct {
  int64_t id;
  const char *name;
  int64_t on;
} row;
static const row after[COMMITS + 1][5] = {
    {{10, "a", 1}, {20, "b", 0}, {30, "c", 1}},
    {{10, "a", 1}, {15, "x", 1}, {20, "bb", 0}, {30, "c", 1}},
    {{10, "a", 1}, {15, "x", 1}, {20, "bb", 0}},
    {{10, "a", 0}, {15, "x", 1}, {20, "bb", 0}},
    {{10, "a", 0}, {15, "x", 1}, {20, "bb", 0}, {40, "dd", 1}},
};

static pdt_table *imported(pdt_database *database) {
  pdt_table *table = NULL;
  is("the table", PDT_OK, pdt_table_open(database, PDT_IMPORTED, &table));
  char name[PDT_MAX_NAME + 1];
  is("no other", PDT_MISSING, pdt_table_name(database, 1, name, sizeof name));
  return table;
}
static void rows_are(pdt_table *table, int commits) {
  pdt_txn *txn = NULL;
  uint64_t count = 0, number = 0;
  const row *wanted = after[commits];
  is("begin", PDT_OK, pdt_begin(table, &txn));
  is("begun", PDT_OK, pdt_txn_version(txn, &number));
  is("the number", commits, (long long)number);
  is("rows", PDT_OK, pdt_rows(txn, &count));
  for (uint64_t i = 0; i < count; i++) {
    int64_t cells[3];
    char text[16] = {0};
    size_t bytes = 0;
    is("row", PDT_OK, pdt_row_at(txn, i, cells, text, sizeof text - 1, &bytes));
    is("id", wanted[i].id, cells[0]);
    is("name", 0, strcmp(wanted[i].name ? wanted[i].name : "", text));
    is("on", wanted[i].on, cells[2]);
  }
  is("as many", 1, count < 5 && !wanted[count].id);
  pdt_abort(txn);
}
static void goes_on(pdt_database *database, int commits) {
  pdt_txn *txn = NULL;
  int64_t key = 10;
  uint64_t number = 0;
  is("begin", PDT_OK, pdt_begin(imported(database), &txn));
  is("set", PDT_OK, pdt_set(txn, &key, NULL, 0, 1, 3, "new"));
  is("commit", PDT_OK, pdt_commit(txn, &number));
  is("the next number", commits + 1, (long long)number);
}

/* Opens the folder, whose run has so many whole commits, goes on, and opens it again. */
static void opens(int commits, int replayed, long torn) {
  pdt_database *database = NULL;
  int code = try_open(&database);
  is("open", PDT_OK, code);
  if (code) {
    fprintf(stderr, "fault %llu, file %s\n", (unsigned long long)report.fault, report.file);
    return;
  }
  is("commits", commits, (long long)report.commits);
  is("replayed", replayed, (long long)report.replayed);
  is("torn", torn, (long long)report.torn_bytes);
  is("no file is told", 0, report.file[0]);
  rows_are(imported(database), commits);
  is("the run's files are gone", 0, files_there());
  goes_on(database, commits);
  is("maintenance", PDT_OK, pdt_maintain(database));
  is("close", PDT_OK, pdt_database_close(database));
  is("open again", PDT_OK, try_open(&database));
  if (!database) return;
  is("commits again", commits + 1, (long long)report.commits);
  is("replayed again", 1, (long long)report.replayed);
  is("close", PDT_OK, pdt_database_close(database));
}

/* Nothing is opened, this is told, and the run's files stay. */
static void refused(int wanted, long long fault, const char *file) {
  pdt_database *database = NULL;
  int there = files_there(), before = failures;
  is("refused", wanted, try_open(&database));
  is("the fault", fault, (long long)report.fault);
  is("the file", 0, strcmp(file, report.file));
  is("all stay", there, files_there());
  is("no manifest", 0, has("manifest"));
  if (failures != before) fprintf(stderr, "file %s, told %s\n", file, report.file);
  if (database) pdt_database_close(database);
}

/* ---- cases */

/* How many frames are whole in the first bytes of a journal, and where they end. */
static int whole_in(const uint8_t *bytes, long len, long *end) {
  int count = 0;
  for (*end = HEADER; *end + HEAD <= len; count++) {
    const uint8_t *size = bytes + *end + 16;
    long next = *end + HEAD + ((long)size[0] << 24 | size[1] << 16 | size[2] << 8 | size[3]);
    if (next > len) break;
    *end = next;
  }
  return count;
}

static void whole(void) {
  copied(run);
  opens(COMMITS, COMMITS - MARKED, 0);
}

static void torn_and_damaged(int every) {
  uint8_t bytes[4096];
  copied(run);
  long len = (long)got("journal.pdt", bytes, sizeof bytes), end;
  is("the run", COMMITS, whole_in(bytes, len, &end));
  for (long at = 0; at < len && failures < 10; at++) {
    int count = whole_in(bytes, at, &end), frame = at < HEADER ? 0 : count + 1;
    copied(run);
    cut("journal.pdt", at);
    if (at < HEADER) refused(PDT_CORRUPT, 0, "journal.pdt");
    else if (count < MARKED) refused(PDT_INCOMPLETE, count + 1, "journal.pdt");
    else if (at % every == 0) opens(count, count - MARKED, at - end);
    copied(run);
    change("journal.pdt", at, 1 << at % 8);
    if (frame < COMMITS) refused(PDT_CORRUPT, frame, "journal.pdt");
    else if (at % every == 0) opens(COMMITS - 1, COMMITS - 1 - MARKED, len - end); /* nobody says that the last was durable */
  }
}

static void marks(void) {
  uint8_t bytes[4096];
  copied(run);
  long len = (long)got("images.pdt", bytes, sizeof bytes), end;
  is("the marks", 2, whole_in(bytes, len, &end));
  for (long at = 0; at < len && failures < 10; at++) {
    int count = whole_in(bytes, at, &end);
    copied(run);
    cut("images.pdt", at);
    if (at < HEADER) refused(PDT_CORRUPT, 0, "images.pdt");
    else refused(PDT_MISMATCH, 0, "images.pdt"); /* the newest image has no mark */
    copied(run);
    change("images.pdt", at, 1 << at % 8);
    if (at < HEADER) refused(PDT_CORRUPT, 0, "images.pdt");
    else if (!count) refused(PDT_CORRUPT, 1, "images.pdt");
    else refused(PDT_MISMATCH, 0, "images.pdt");
  }
}

extern bool pdtr_journal_header(uint64_t, uint64_t, uint64_t, uint8_t *, size_t);
static uint64_t long_at(const uint8_t *at) {
  uint64_t value = 0;
  for (int i = 0; i < 8; i++) value = value << 8 | at[i];
  return value;
}
static void others(const char *file) { /* the same with the header of another table */
  uint8_t bytes[4096];
  size_t len = got(file, bytes, sizeof bytes);
  uint64_t salt = 0, table = 0;
  for (int at = 0; at + 24 <= HEADER; at += 4) { /* found by its spelling, wherever it is */
    uint8_t header[HEADER];
    salt = long_at(bytes + at), table = long_at(bytes + at + 8);
    if (pdtr_journal_header(salt, table, 0, header, HEADER) && !memcmp(header, bytes, HEADER)) break;
    salt = 0;
  }
  is("the salt is found", 1, salt != 0);
  is("another header", 1, pdtr_journal_header(salt, table + 1, 0, bytes, HEADER));
  put(file, bytes, len);
}

static void parts(void) {
  copied(run);
  others("journal.pdt");
  refused(PDT_MISMATCH, 0, "journal.pdt");
  copied(run);
  others("images.pdt");
  refused(PDT_MISMATCH, 0, "journal.pdt");
  for (int i = 0; i < FILES; i++) {
    copied(run);
    unlink(path_of(files[i]));
    refused(PDT_INCOMPLETE, 0, files[i]);
  }
  for (int i = 1; i < 4; i++) {
    copied(run);
    change(files[i], 0, 1);
    refused(PDT_BAD_CHECKPOINT, 0, files[i]);
    copied(run);
    cut(files[i], 0);
    refused(PDT_NO_CHECKPOINT, 0, "");
    copied(run);
    cut(files[i], len_of(files[i]) - 1); /* the run had no end of its own */
    opens(COMMITS, COMMITS - MARKED, 0);
    copied(run);
    cut(files[i], len_of(files[i]) - 2); /* the image before it is the newest then */
    opens(COMMITS, COMMITS, 0);
  }
  copied(run);
  change("header.csv", 5, 0x40);
  refused(PDT_CORRUPT, 0, "header.csv");
  copied(run); /* what has no journal is no run's */
  unlink(path_of("images.pdt"));
  unlink(path_of("journal.pdt"));
  pdt_database *database = NULL;
  is("open", PDT_OK, try_open(&database));
  is("the others stay", 4, files_there());
  pdt_table *table = NULL;
  is("no table", PDT_MISSING, pdt_table_open(database, PDT_IMPORTED, &table));
  is("close", PDT_OK, pdt_database_close(database));
}

/* What is beside the run's files. */
static void beside(void) {
  copied(run);
  put("manifest-new", "narthex", 7);
  put("journal-1", "", 0);
  mkdir(path_of("image-1-1"), 0777);
  put("image-1-1/header.csv", "id:int", 6);
  put("image-1-1/column-0.pdt", "", 0);
  opens(COMMITS, COMMITS - MARKED, 0); /* an import was cut short */
  copied(run);
  mkdir(path_of("image-2-1"), 0777);
  refused(PDT_INCOMPLETE, 0, "manifest");
  copied(run);
  put("journal-1", "x", 1);
  refused(PDT_INCOMPLETE, 0, "manifest");
  copied(run);
  put("journal-2", "", 0);
  refused(PDT_INCOMPLETE, 0, "manifest");
  /* another run's files in a database are none of its own */
  copied(run);
  pdt_database *database = NULL;
  is("open", PDT_OK, try_open(&database));
  is("close", PDT_OK, pdt_database_close(database));
  shell("cp '%s'/* '%s'", run, folder);
  others("journal.pdt");
  is("open", PDT_OK, try_open(&database));
  is("they stay", FILES, files_there());
  is("close", PDT_OK, pdt_database_close(database));
  unlink(path_of("journal.pdt")); /* nor are a table's, alone */
  unlink(path_of("images.pdt"));
  is("open", PDT_OK, try_open(&database));
  is("they stay too", FILES - 2, files_there());
  is("close", PDT_OK, pdt_database_close(database));
}

/* ---- crashes */

/* Either it is the run's folder as it was, or the database. */
static void is_either(void) {
  char words[1600];
  if (has("manifest")) return;
  for (int i = 0; i < FILES; i++) {
    snprintf(words, sizeof words, "cmp -s '%s/%s' '%s/%s'", run, files[i], folder, files[i]);
    is("the run's file", 0, system(words));
  }
}
static void crashes(int every) {
  static const char *const ways[] = {"fails", "and all after it fail", "is the last"};
  copied(run);
  calls = 0;
  pdt_database *database = NULL;
  is("open", PDT_OK, try_open(&database));
  long all = calls;
  is("close", PDT_OK, pdt_database_close(database));
  int runs = 0, renamed = 0;
  for (int which = 0; which < 3; which++)
    for (long at = which == DIES ? 0 : which % every; at < all && failures < 10; at += which == DIES ? 1 : every, runs++) {
      copied(run);
      int before = failures;
      calls = 0, fails_at = at, way = which;
      pid_t child = way == DIES ? fork() : -1;
      if (child <= 0) {
        int code = try_open(&database);
        if (!child) _exit(1); /* it went past the call */
        is("an answer", 1, code == PDT_OK || code == PDT_IO);
        if (code) is("no database", 1, !database);
        fails_at = -1;
        if (!code) is("close", PDT_OK, pdt_database_close(database));
      } else {
        int status = 1;
        waitpid(child, &status, 0);
        is("it died there", 0, status);
      }
      fails_at = -1;
      is_either();
      renamed += has("manifest") && files_there() > 0;
      is("open", PDT_OK, try_open(&database));
      if (database) {
        rows_are(imported(database), COMMITS);
        is("the run's files are gone", 0, files_there());
        goes_on(database, COMMITS);
        is("close", PDT_OK, pdt_database_close(database));
      }
      if (failures != before) fprintf(stderr, "call %ld of %ld %s\n", at, all, ways[which]);
    }
  is("some fell between", 1, renamed > 3);
  printf("%ld calls, %d runs\n", all, runs);
}

/* Each piece of memory that an import takes is refused once. */
static void scarce(int every) {
  pdt_database *database = NULL;
  copied(run);
  spans = 0;
  is("open", PDT_OK, try_open(&database));
  long all = spans;
  is("close", PDT_OK, pdt_database_close(database));
  for (long at = 0; at < all && failures < 10; at += every) {
    copied(run);
    long had = blocks;
    int before = failures;
    spans = 0, refuses_at = at;
    int code = try_open(&database);
    refuses_at = -1;
    is("an answer", 1, code == PDT_OK || code == PDT_NOMEM);
    if (!code) is("close", PDT_OK, pdt_database_close(database));
    is_either();
    is("open again", PDT_OK, try_open(&database));
    if (database) {
      rows_are(imported(database), COMMITS);
      is("the run's files are gone", 0, files_there());
      is("close", PDT_OK, pdt_database_close(database));
    }
    is("memory that stays", had, blocks);
    if (failures != before) fprintf(stderr, "piece %ld of %ld\n", at, all);
  }
  printf("%ld pieces of memory\n", all);
}

/* ---- runs of the program itself */

/* The program prints the rows of the folder, which is a database now. */
static void is_recovered(const char *program, const int64_t *wanted) {
  char words[2200], line[64], row[64];
  snprintf(words, sizeof words, "'%s' recover '%s' >'%s/rows.csv'", program, folder, room);
  is("recover", 0, WEXITSTATUS(system(words)));
  snprintf(words, sizeof words, "%s/rows.csv", room);
  FILE *rows = fopen(words, "r");
  if (!rows) exit(1);
  for (int i = -1; i < 50; i++) {
    if (i < 0) snprintf(row, sizeof row, "id:int:key,qty:int\n");
    else snprintf(row, sizeof row, "%d,%lld\n", i, (long long)wanted[i]);
    is("a line of what is recovered", 0, fgets(line, sizeof line, rows) ? strcmp(line, row) : 1);
  }
  is("no line after them", 1, !fgets(line, sizeof line, rows));
  fclose(rows);
}

static void by_program(const char *program) {
  char made[700], words[2200];
  snprintf(made, sizeof made, "%s/made", room);
  for (unsigned seed = 1; seed <= 5 && failures < 10; seed++) {
    snprintf(words, sizeof words, "rm -rf '%s' && mkdir '%s'", made, made);
    if (system(words)) exit(1);
    snprintf(words, sizeof words, "%s/table.csv", room);
    FILE *table = fopen(words, "w");
    snprintf(words, sizeof words, "%s/script.csv", room);
    FILE *script = fopen(words, "w");
    int64_t wanted[50];
    int commits = 0;
    fprintf(table, "id:int:key,qty:int\n");
    for (int i = 0; i < 50; i++) fprintf(table, "%d,0\n", i), wanted[i] = 0;
    for (unsigned i = 0, draw = seed; i < 100 * seed; i++, commits++) {
      int key = rand_r(&draw) % 50;
      fprintf(script, "a,begin\na,set,%d,qty,%u\na,commit\n", key, i);
      wanted[key] = i;
      if (rand_r(&draw) % 10 == 0) fprintf(script, "a,%s\n", rand_r(&draw) % 2 ? "checkpoint" : "fold");
    }
    fclose(table), fclose(script);
    snprintf(words, sizeof words, "'%s' run '%s/table.csv' '%s/script.csv' --store '%s' --journal >/dev/null", program, room, room, made);
    is("the program", 0, system(words));
    copied(made);
    pdt_database *database = NULL;
    pdt_txn *txn = NULL;
    is("open", PDT_OK, try_open(&database));
    if (!database) return;
    is("commits", commits, (long long)report.commits);
    is("begin", PDT_OK, pdt_begin(imported(database), &txn));
    int64_t found[60];
    size_t count = 60;
    is("ints", PDT_OK, pdt_ints(txn, 1, 0, found, &count));
    is("rows", 50, (long long)count);
    for (int i = 0; i < 50; i++) is("qty", wanted[i], found[i]);
    pdt_abort(txn);
    is("close", PDT_OK, pdt_database_close(database));
    is_recovered(program, wanted);
  }
}

int main(int argc, char **argv) {
  if (argc < 4) return 2;
  room = argv[1], run = argv[2];
  int every = atoi(argv[3]); /* of how many calls one fails, and of how many ends of a journal one is gone on from */
  whole();
  torn_and_damaged(every);
  marks();
  parts();
  beside();
  crashes(every);
  scarce(every);
  if (argc > 4) by_program(argv[4]);
  return failures ? 1 : 0;
}
