/* What an opening does to a folder: for reading alone nothing, after a clean close nothing either, and where it fails nothing that stays.
   What it meets there that isn't its own: files of a later version, pipes and links under its names, files of the user's; and two names of
   one file. Linked with
   --wrap of the calls that write. */
#define _DEFAULT_SOURCE
#include "events.h"
#include <dirent.h>
#include <errno.h>
#include <fcntl.h>
#include <pdt_arrow.h>
#include <stdarg.h>
#include <stdint.h>
#include <stdlib.h>
#include <sys/stat.h>

static int failures;
static void is(const char *what, long long wanted, long long found) {
  if (wanted == found) return;
  failures++;
  fprintf(stderr, "%s: wanted %lld, found %lld\n", what, wanted, found);
}

/* ---- calls that write: they are counted, and each of them fails with an error, or one of them */

static int refuses, written, fails_at;
static bool writes(void) {
  written++;
  if (!refuses && written != fails_at) return false;
  errno = refuses ? refuses : EIO;
  return true;
}
int __real_openat(int, const char *, int, ...);
int __wrap_openat(int dir, const char *name, int how, ...) {
  va_list rest;
  va_start(rest, how);
  mode_t mode = how & O_CREAT ? va_arg(rest, mode_t) : 0;
  va_end(rest);
  bool makes = how & (O_CREAT | O_TRUNC), may_write = (how & O_ACCMODE) != O_RDONLY;
  if ((makes || (may_write && refuses == EROFS)) && writes()) return -1; /* a full disk lets files be opened that are there */
  return __real_openat(dir, name, how, mode);
}
#define WRAPPED(kind, call, parameters, ...) \
  kind __real_##call parameters;             \
  kind __wrap_##call parameters { return writes() ? -1 : __real_##call(__VA_ARGS__); }
WRAPPED(ssize_t, write, (int file, const void *bytes, size_t len), file, bytes, len)
WRAPPED(int, renameat, (int dir, const char *from, int to_dir, const char *to), dir, from, to_dir, to)
WRAPPED(int, unlinkat, (int dir, const char *name, int how), dir, name, how)
WRAPPED(int, mkdirat, (int dir, const char *name, mode_t mode), dir, name, mode)
WRAPPED(int, ftruncate, (int file, off_t len), file, len)
int __real_mkdir(const char *, mode_t);
int __wrap_mkdir(const char *name, mode_t mode) {
  struct stat about;
  bool is_there = !stat(name, &about); /* then a full disk isn't asked for room */
  return !is_there && writes() ? -1 : __real_mkdir(name, mode);
}

/* ---- a folder */

static const char *room;
static char folder[500], path[700];
static const char *in(const char *file) {
  snprintf(path, sizeof path, "%s/%s", folder, file);
  return path;
}
static void at(const char *name) { snprintf(folder, sizeof folder, "%s/%s", room, name); }

static pdt_report report;
static int try_open(const pdt_database_options *options, pdt_database **database) {
  report = (pdt_report){.size = sizeof report};
  return pdt_database_open(folder, options, database, &report);
}
static pdt_database *opened(const pdt_database_options *options) {
  pdt_database *database = NULL;
  is("open", PDT_OK, try_open(options, &database));
  if (!database) fprintf(stderr, "%s\n", folder), exit(1);
  return database;
}
static void closed(pdt_database *database) { is("close", PDT_OK, pdt_database_close(database)); }
static const pdt_database_options quiet = {.size = sizeof quiet, .no_maintenance = true}, reads = {.size = sizeof reads, .read_only = true};

static const char csv[] = "id:int:key,qty:int\n1,0\n2,0\n3,0\n";
static pdt_table *created(pdt_database *database, const char *name) {
  pdt_table *table = NULL;
  is("create", PDT_OK, pdt_table_create_csv(database, name, csv, sizeof csv - 1, NULL, NULL, &table));
  return table;
}
static pdt_table *table_named(pdt_database *database, const char *name) {
  pdt_table *table = NULL;
  is("table", PDT_OK, pdt_table_open(database, name, &table));
  return table;
}
static pdt_txn *set(pdt_table *table, int64_t key, int64_t qty) {
  pdt_txn *txn = NULL;
  is("begin", PDT_OK, pdt_begin(table, &txn));
  is("set", PDT_OK, pdt_set(txn, &key, NULL, 0, 1, qty, NULL));
  return txn;
}
static void commit(pdt_table *table, int64_t key, int64_t qty) { is("commit", PDT_OK, pdt_commit(set(table, key, qty), NULL)); }
static long long qty(pdt_table *table, int64_t key) {
  pdt_txn *txn = NULL;
  int64_t row[2] = {0, -1};
  is("begin", PDT_OK, pdt_begin(table, &txn));
  is("get", PDT_OK, pdt_get(txn, &key, NULL, 0, row, NULL, 0, NULL));
  pdt_abort(txn);
  return row[1];
}
/* A database of two tables and so many commits, which was closed. */
static void make(const char *name, int commits) {
  at(name);
  pdt_database *database = opened(&quiet);
  pdt_table *a = created(database, "a"), *b = created(database, "b");
  for (int i = 1; i <= commits; i++) commit(i % 2 ? a : b, 1 + i % 3, i);
  closed(database);
}
static void append(const char *file, const void *bytes, size_t len) {
  FILE *to = fopen(in(file), "ab");
  if (!to || fwrite(bytes, 1, len, to) != len || fclose(to)) perror(path), exit(1);
}
static long long length(const char *file) {
  struct stat about;
  return stat(in(file), &about) ? -1 : (long long)about.st_size;
}

/* What is in a folder and below it: a sum of names, lengths and times. */
static uint64_t seen(const char *where) {
  uint64_t sum = 7;
  DIR *names = opendir(where);
  if (!names) return 0;
  for (struct dirent *name; (name = readdir(names));) {
    char below[1000];
    struct stat about;
    if (!strcmp(name->d_name, ".") || !strcmp(name->d_name, "..")) continue;
    snprintf(below, sizeof below, "%s/%s", where, name->d_name);
    is("stat", 0, lstat(below, &about));
    uint64_t one = (uint64_t)about.st_size * 31 + (uint64_t)about.st_mtim.tv_nsec + (uint64_t)about.st_mtim.tv_sec + about.st_mode;
    for (const char *letter = name->d_name; *letter; letter++) one = one * 33 + (uint64_t)*letter;
    sum += one * one; /* in any order */
    if (S_ISDIR(about.st_mode)) sum += seen(below);
  }
  closedir(names);
  return sum;
}

/* ---- for reading alone */

static void is_refused(const char *what, int code) { is(what, PDT_READONLY, code); }

static void for_reading(void) {
  make("reads", 7);
  append("journal-1", "torn", 4);
  uint64_t before = seen(folder);
  refuses = EROFS;
  written = 0;
  pdt_database *database = opened(&reads), *other = opened(&reads);
  is("commits", 7, (long long)report.commits);
  is("what is torn is left out", 4, (long long)report.torn_bytes);
  is("the last of a", 7, qty(table_named(database, "a"), 2));
  is("the last of b", 6, qty(table_named(other, "b"), 1));
  pdt_txn *txn = set(table_named(database, "a"), 1, 99);
  is_refused("a commit", pdt_commit(txn, NULL));
  is_refused("again, since it is open", pdt_commit(txn, NULL));
  is_refused("a prepare", pdt_prepare(txn, NULL));
  pdt_abort(txn);
  pdt_dbtxn *dbtxn = NULL;
  is("a database transaction", PDT_OK, pdt_dbtxn_begin(database, &dbtxn));
  is("over a table", PDT_OK, pdt_dbtxn_on(dbtxn, table_named(database, "b"), &txn));
  int64_t key = 1;
  is("set", PDT_OK, pdt_set(txn, &key, NULL, 0, 1, 5, NULL));
  is_refused("its commit", pdt_dbtxn_commit(dbtxn, NULL));
  pdt_dbtxn_abort(dbtxn);
  pdt_table *table = NULL;
  is_refused("a creation", pdt_table_create_csv(database, "c", csv, sizeof csv - 1, NULL, NULL, &table));
  is_refused("a drop", pdt_table_drop(database, "a"));
  is_refused("a declaration", pdt_declare(table_named(database, "a"), 1, "tdD"));
  is_refused("maintenance", pdt_maintain(database));
  is("a fold, in memory", PDT_OK, pdt_fold(table_named(database, "a")));
  is("the last of a", 7, qty(table_named(database, "a"), 2));
  closed(database);
  closed(other);
  is("no call would have written", 0, written);
  refuses = 0;
  is("nothing is changed", 1, before == seen(folder));
}

/* Readers share a folder, and keep writers out; a writer keeps all others out. */
static void beside_writers(void) {
  make("beside", 3);
  pdt_database *database = opened(&reads), *other = NULL;
  is("a writer beside a reader", PDT_LOCKED, try_open(&quiet, &other));
  closed(database);
  database = opened(&quiet);
  is("a reader beside a writer", PDT_LOCKED, try_open(&reads, &other));
  closed(database);
  is("unlink", 0, unlink(in("lock")));
  database = opened(&reads);
  is("no file is made", -1, length("lock"));
  is("a writer, without the file", PDT_LOCKED, try_open(&quiet, &other));
  closed(database);
  at("nowhere");
  is("no folder", PDT_MISSING, try_open(&reads, &other));
  is("and none is made", -1, length("."));
  is("mkdir", 0, __real_mkdir(folder, 0777));
  is("no database", PDT_MISSING, try_open(&reads, &other));
  is("an empty folder stays empty", 7, (long long)seen(folder));
}

/* After a close, or a kill at rest, all is known to be on the device: an opening writes nothing, so that a full disk is no hindrance. */
static void after_a_close(void) {
  make("full", 5);
  refuses = ENOSPC;
  written = 0;
  pdt_database *database = opened(&quiet);
  is("no call writes", 0, written);
  is("the last of a", 5, qty(table_named(database, "a"), 3));
  is("a commit", PDT_OUTCOME_UNKNOWN, pdt_commit(set(table_named(database, "a"), 1, 9), NULL));
  refuses = 0;
  is("close", PDT_OUTCOME_UNKNOWN, pdt_database_close(database));
  database = opened(&quiet);
  is("all that was answered", 5, (long long)report.commits);
  closed(database);
}

/* ---- an opening that fails */

/* Each of the calls that make a database fails, in a folder that isn't there and in one that is empty: nothing stays of it. */
static void leaves_nothing(bool is_there) {
  at(is_there ? "empty" : "new");
  if (is_there) is("mkdir", 0, __real_mkdir(folder, 0777));
  uint64_t before = seen(folder);
  pdt_database *database = NULL;
  for (int count = 1; !database && count < 100; count++) {
    written = 0;
    fails_at = count;
    int code = try_open(&quiet, &database);
    fails_at = 0;
    is("a call has failed", written >= count, code != PDT_OK);
    if (!database) is("the folder", is_there ? 0 : -1, length(".") < 0 ? -1 : 0);
    if (!database) is("what is in it", (long long)before, (long long)seen(folder));
  }
  is("no call was left", 1, database != NULL);
  if (database) closed(database);
}

/* ---- what isn't the database's own */

/* CRC-32C, as a manifest ends with it: Castagnoli's polynomial, from all ones, without a last turn. */
static uint32_t check_of(const char *bytes, size_t len) {
  uint32_t sum = 0xffffffff;
  for (size_t i = 0; i < len; i++) {
    sum ^= (uint8_t)bytes[i];
    for (int bit = 0; bit < 8; bit++) sum = sum >> 1 ^ (sum & 1 ? 0x82f63b78 : 0);
  }
  return sum;
}

/* The file of a journal of a later version, with a header whose check is right: nothing behind it is read, or cut off. */
static void journal_of_later_version(void) {
  static uint8_t bytes[1 << 14];
  make("later-journal", 3);
  FILE *file = fopen(in("journal-1"), "r+b");
  size_t len = fread(bytes, 1, sizeof bytes, file);
  bytes[7] = 2; /* behind NMJ1 four bytes have the version */
  uint32_t check = check_of((const char *)bytes, 32);
  for (int i = 0; i < 4; i++) bytes[32 + i] = (uint8_t)(check >> (24 - 8 * i));
  rewind(file);
  is("write", 1, (long long)fwrite(bytes, len, 1, file));
  fclose(file);
  uint64_t before = seen(folder);
  pdt_database *database = NULL;
  is("a journal of a later version", PDT_NEWER_FORMAT, try_open(&quiet, &database));
  is("which file", 0, strcmp(report.file, "journal-1"));
  is("nothing is changed", 1, before == seen(folder));
  for (int earlier = 0; earlier < 2; earlier++) { /* a damaged one, and one of an earlier version, which there is none of */
    if (earlier) bytes[7] = 0, check = check_of((const char *)bytes, 32);
    for (int i = 0; i < 4; i++) bytes[32 + i] = (uint8_t)(check >> (24 - 8 * i)) ^ (uint8_t)(i == 3 && !earlier);
    file = fopen(in("journal-1"), "r+b");
    is("write", 1, (long long)fwrite(bytes, len, 1, file));
    fclose(file);
    int code = try_open(&quiet, &database);
    is("a damaged one", 1, code == PDT_CORRUPT || code == PDT_INCOMPLETE);
  }
}

static void of_later_version(void) {
  make("later", 3);
  static char text[1 << 14];
  FILE *file = fopen(in("manifest"), "rb");
  size_t len = fread(text, 1, sizeof text, file);
  fclose(file);
  char ending[32];
  snprintf(ending, sizeof ending, "end %08x\n", check_of(text, len - 13));
  is("the check is as it is said here", 0, memcmp(ending, text + len - 13, 13));
  text[12] = '2'; /* narthexmace 2 */
  snprintf(ending, sizeof ending, "end %08x\n", check_of(text, len - 13));
  memcpy(text + len - 13, ending, 13);
  file = fopen(in("manifest"), "wb");
  is("write", 1, (long long)fwrite(text, len, 1, file));
  fclose(file);
  uint64_t before = seen(folder);
  pdt_database *database = NULL;
  is("a manifest of a later version", PDT_NEWER_FORMAT, try_open(&quiet, &database));
  is("which file", 0, strcmp(report.file, "manifest"));
  is("the same for reading", PDT_NEWER_FORMAT, try_open(&reads, &database));
  is("nothing is changed", 1, before == seen(folder));
  journal_of_later_version();
}

/* Under each name of the database's files a pipe, a link and a folder: an opening is refused at once, and leaves them. */
static void strange_files(void) {
  static const char *const names[] = {"manifest", "journal-1", "image-1-1/header.csv", "lock"};
  for (int i = 0; i < 4; i++) {
    for (int kind = 0; kind < 2; kind++) {
      char name[40], kept[750];
      snprintf(name, sizeof name, "strange-%d-%d", i, kind);
      make(name, 2);
      snprintf(kept, sizeof kept, "%s/kept", folder);
      is("rename", 0, rename(in(names[i]), kept));
      is("a strange one", 0, kind ? symlink("kept", in(names[i])) : mkfifo(in(names[i]), 0666));
      pdt_database *database = NULL;
      int code = try_open(&quiet, &database);
      if (i < 3 || kind) is(names[i], PDT_IO, code);
      if (database) closed(database);
      struct stat about;
      is("it stays", 0, lstat(in(names[i]), &about));
      is("as it was", 1, kind ? S_ISLNK(about.st_mode) : S_ISFIFO(about.st_mode));
    }
  }
}

/* Files of the user's under names that no table has had. */
static void of_the_user(void) {
  at("user");
  is("mkdir", 0, __real_mkdir(folder, 0777));
  append("types-5", "mine", 4);
  pdt_database *database = NULL;
  is("it may be a database's whose manifest is lost", PDT_INCOMPLETE, try_open(&quiet, &database));
  is("it stays", 4, length("types-5"));
  make("owned", 2);
  append("types-77", "mine", 4);
  append("notes.txt", "mine", 4);
  /* each number has one spelling, and each kind of file as many numbers as it has */
  static const char *const names[] = {"journal-01", "journal-1-0", "journal-+1",      "journal-18446744073709551616",
                                      "image-1",    "image-01-1",  "image-1-2-3",     "image-4294967296-1",
                                      "types-01",   "types-1-1",   "types-4294967296"};
  for (size_t i = 0; i < sizeof names / sizeof *names; i++) append(names[i], "mine", 4);
  closed(opened(&quiet));
  for (size_t i = 0; i < sizeof names / sizeof *names; i++) is(names[i], 4, length(names[i]));
  is("no table's", 4, length("types-77"));
  is("a note", 4, length("notes.txt"));
}

/* ---- modes */

static long long mode_of(const char *file) {
  struct stat about;
  is("stat", 0, stat(in(file), &about));
  return about.st_mode & 0777;
}

static void modes(void) {
  mode_t before = umask(027);
  make("by-umask", 1);
  is("the folder", 0750, mode_of("."));
  is("a file", 0640, mode_of("manifest"));
  at("by-option");
  pdt_database_options options = {.size = sizeof options, .no_maintenance = true, .mode = 0600};
  pdt_database *database = opened(&options);
  created(database, "a");
  closed(database);
  static const char *const files[] = {"lock", "manifest", "journal-1", "image-1-1/header.csv", "image-1-1/column-0.pdt"};
  for (int i = 0; i < 5; i++) is(files[i], 0600, mode_of(files[i]));
  is("an image", 0700, mode_of("image-1-1"));
  is("the folder", 0700, mode_of("."));
  options.mode = 01777;
  is("no mode of files", PDT_MISUSE, try_open(&options, &database));
  umask(before);
}

/* ---- tables that no commit has changed */

/* The number of the folder that has the image of a table. */
static long long image_of(int table_named) {
  char front[32];
  int len = snprintf(front, sizeof front, "image-%d-", table_named);
  long long found = -1;
  DIR *names = opendir(folder);
  for (struct dirent *name; names && (name = readdir(names));)
    if (!strncmp(name->d_name, front, (size_t)len)) found = atoll(name->d_name + len);
  if (names) closedir(names);
  return found;
}

/* After an opening too, an image is made of the table that was changed alone, however long the journal is. */
static void images_of_changed(void) {
  make("unchanged", 12);
  pdt_database_options options = {.size = sizeof options, .no_maintenance = true, .journal_bytes = 300};
  pdt_database *database = opened(&options);
  is("maintenance", PDT_OK, pdt_maintain(database)); /* both tables were changed since their images */
  closed(database);
  long long changed = image_of(1), idle = image_of(2);
  is("both have new ones", 1, changed > 1 && idle > 2);
  for (int turn = 0; turn < 6; turn++) {
    database = opened(&options);
    for (int64_t i = 1; i <= 20; i++) commit(table_named(database, "a"), 1 + i % 3, 100 * turn + i);
    is("maintenance", PDT_OK, pdt_maintain(database));
    closed(database);
    is("the idle table has the image that it had", idle, image_of(2));
  }
  is("the changed one has a new one", 1, image_of(1) > changed);
}

static void linked(const char *file, const char *other) {
  char from[sizeof path];
  snprintf(from, sizeof from, "%s", in(file));
  is("link", 0, link(from, in(other)));
}

/* A crash may leave both names of a rename on one file: what is made under the one name, or fails to be, leaves what the other has. */
static void two_names_of_a_file(void) {
  char name[40];
  for (int call = 1; call <= 5; call++) {
    snprintf(name, sizeof name, "manifest twice %d", call);
    make(name, 4);
    linked("manifest", "manifest-new");
    pdt_database *database = opened(&quiet);
    fails_at = written + call;
    int code = pdt_table_drop(database, "b");
    fails_at = 0;
    closed(database);
    database = opened(&quiet);
    pdt_table *b = NULL;
    is("b after a drop", code ? PDT_OK : PDT_MISSING, pdt_table_open(database, "b", &b));
    is("a", 3, qty(table_named(database, "a"), 1));
    is("one name is left", -1, length("manifest-new"));
    closed(database);
    snprintf(name, sizeof name, "journal twice %d", call);
    make(name, 4);
    append("journal-1", "torn", 4);
    linked("journal-1", "journal-new");
    fails_at = written + call;
    code = try_open(&quiet, &database);
    fails_at = 0;
    if (!code) closed(database);
    database = opened(&quiet);
    is("a", 3, qty(table_named(database, "a"), 1));
    is("b", 4, qty(table_named(database, "b"), 2));
    closed(database);
  }
}

int main(int argc, char **argv) {
  if (argc < 2) return 2;
  room = argv[1];
  for_reading();
  beside_writers();
  after_a_close();
  leaves_nothing(false);
  leaves_nothing(true);
  of_later_version();
  strange_files();
  of_the_user();
  modes();
  images_of_changed();
  two_names_of_a_file();
  return failures ? 1 : 0;
}
