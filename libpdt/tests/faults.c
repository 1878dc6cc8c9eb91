/* What comes of a database when one call of the system fails, or that one and all after it: no commit that was answered is lost, none is
   answered after the journal has failed, reads go on, and the next opening finds it whole. Linked with --wrap of the calls. */
#define _POSIX_C_SOURCE 200809L
#include <dirent.h>
#include <errno.h>
#include <fcntl.h>
#include <pdt.h>
#include <stdarg.h>
#include <stdio.h>
#include <stdlib.h>
#include <string.h>
#include <sys/stat.h>
#include <unistd.h>

static int failures;
static void is(const char *what, long long wanted, long long found) {
  if (wanted == found) return;
  failures++;
  fprintf(stderr, "%s: wanted %lld, found %lld\n", what, wanted, found);
}

/* ---- the calls, the n-th of which fails */

static long calls, fails_at = -1; /* and those after it, where it stays so */
static bool syncs_no_folder;      /* as some file systems */
static long fallen;               /* how many have failed */
static bool stays;
static int with;
static const char *failed; /* the name of the first that did */

/* Those that a signal may cut off. */
static const char *const cut_off[] = {"openat", "write", "read", "fdatasync", "fsync"};
static bool may_be_cut(const char *name) {
  for (size_t i = 0; i < sizeof cut_off / sizeof *cut_off; i++)
    if (!strcmp(name, cut_off[i])) return true;
  return false;
}

/* At which call each of these is made first. */
enum { MAY_BE_CUT = 5 };
static long first[MAY_BE_CUT];
static void note(const char *name, long at) {
  for (int i = 0; i < MAY_BE_CUT; i++)
    if (!strcmp(name, cut_off[i]) && !first[i]) first[i] = at;
}

/* Those that a full disk refuses. */
static bool is_full;
static bool wants_room(const char *name) { return !strcmp(name, "openat") || !strcmp(name, "write") || !strcmp(name, "mkdirat"); }

static bool falls(const char *name) {
  if (is_full && !wants_room(name)) return false;
  long at = calls++;
  if (fails_at < 0) note(name, at);
  bool now = fails_at >= 0 && (at == fails_at || (stays && at > fails_at));
  if (now && with == EINTR && !may_be_cut(name)) return false;
  if (now && !failed) failed = name;
  fallen += now;
  if (now) errno = with;
  return now;
}

int __real_openat(int, const char *, int, ...);
ssize_t __real_write(int, const void *, size_t);
int __real_renameat(int, const char *, int, const char *);
int __real_unlinkat(int, const char *, int);
int __real_mkdirat(int, const char *, mode_t);
int __real_ftruncate(int, off_t);
ssize_t __real_read(int, void *, size_t);

int __wrap_openat(int dir, const char *path, int how, ...) {
  va_list rest;
  va_start(rest, how);
  int mode = how & O_CREAT ? va_arg(rest, int) : 0;
  va_end(rest);
  return falls("openat") ? -1 : __real_openat(dir, path, how, mode);
}
ssize_t __wrap_write(int file, const void *bytes, size_t len) {
  if (!falls("write")) return __real_write(file, bytes, len);
  if (len > 3 && with == ENOSPC) (void)!__real_write(file, bytes, len / 2); /* the disk took a part, of which it doesn't tell */
  return -1;
}
ssize_t __wrap_read(int file, void *bytes, size_t len) { return falls("read") ? -1 : __real_read(file, bytes, len); }
int __wrap_fdatasync(int file) {
  (void)file;
  return falls("fdatasync") ? -1 : 0;
}
int __wrap_fsync(int file) {
  (void)file;
  if (syncs_no_folder) return errno = EINVAL, -1;
  return falls("fsync") ? -1 : 0;
}
int __wrap_renameat(int a, const char *from, int b, const char *to) { return falls("renameat") ? -1 : __real_renameat(a, from, b, to); }
int __wrap_unlinkat(int dir, const char *path, int how) { return falls("unlinkat") ? -1 : __real_unlinkat(dir, path, how); }
int __wrap_mkdirat(int dir, const char *path, mode_t mode) { return falls("mkdirat") ? -1 : __real_mkdirat(dir, path, mode); }
struct dirent *__real_readdir(DIR *);
struct dirent *__wrap_readdir(DIR *names) {
  return falls("readdir") ? NULL : __real_readdir(names);
}
int __wrap_ftruncate(int file, off_t len) { return falls("ftruncate") ? -1 : __real_ftruncate(file, len); }

/* ---- the run */

static pdt_database_options options = {
    .size = sizeof options, .no_maintenance = true, .fold_entries = 4, .checkpoint_entries = 8, .journal_bytes = 600};
static const char csv[] = "id:int:key,qty:int\n0,0\n1,0\n2,0\n";
enum { KEYS = 3, COMMITS = 24 };

/* What was told so far. */
typedef struct {
  uint64_t answered; /* the number of the last commit that was answered PDT_OK */
  uint64_t unknown;  /* and of one that was answered PDT_OUTCOME_UNKNOWN, or 0 */
  bool is_made;      /* the table is */
} told;

static int set(pdt_table *table, int64_t key, int64_t qty, uint64_t *number) {
  pdt_txn *txn = NULL;
  int code = pdt_begin(table, &txn);
  if (code) return code;
  is("set", PDT_OK, pdt_set(txn, &key, NULL, 0, 1, qty, NULL));
  code = pdt_commit(txn, number);
  if (code == PDT_WRITES_FAILED) pdt_abort(txn);
  return code;
}

/* Reads go on whatever has failed, and see no commit that wasn't answered; early ones see it, and are told so when they end. */
static void reads(pdt_table *table, uint64_t answered, uint64_t unknown) {
  bool is_early = options.early_reads && unknown > answered;
  if (is_early) answered = unknown;
  pdt_txn *txn = NULL;
  is("a begin", PDT_OK, pdt_begin(table, &txn));
  uint64_t number = 99;
  is("begun", PDT_OK, pdt_txn_version(txn, &number));
  is("what is seen", (long long)answered, (long long)number);
  int64_t row[2], key = (int64_t)(answered % KEYS);
  is("a get", PDT_OK, pdt_get(txn, &key, NULL, 0, row, NULL, 0, NULL));
  is("the newest", (long long)answered, row[1]);
  is("a commit of nothing", is_early ? PDT_OUTCOME_UNKNOWN : PDT_OK, pdt_commit(txn, NULL));
}

static void run_in(pdt_database *database, told *said) {
  pdt_table *table = NULL;
  int code = pdt_table_open(database, "items", &table);
  if (code) code = pdt_table_create_csv(database, "items", csv, sizeof csv - 1, NULL, NULL, &table);
  if (code) {
    is("a creation that fails", 1, code == PDT_IO || code == PDT_WRITES_FAILED);
    return;
  }
  said->is_made = true;
  bool has_failed = false;
  for (int i = 0; i < COMMITS; i++) {
    uint64_t number = 0, wanted = said->answered + 1;
    long fell = fallen;
    code = set(table, (int64_t)(wanted % KEYS), (int64_t)wanted, &number);
    if (has_failed) is("after a failure", PDT_WRITES_FAILED, code);
    else if (fallen > fell && with != EINTR) is("over a failure", PDT_OUTCOME_UNKNOWN, code);
    if (code == PDT_OK) is("number", (long long)wanted, (long long)number), said->answered = number;
    else if (!has_failed) is("a commit", PDT_OUTCOME_UNKNOWN, code), said->unknown = wanted, has_failed = true;
    reads(table, said->answered, said->unknown);
    if (i % 3 == 2) {
      code = pdt_maintain(database);
      if (has_failed) is("maintenance after a failure", PDT_WRITES_FAILED, code);
      else if (code) is("maintenance", 1, code == PDT_IO || code == PDT_WRITES_FAILED || code == PDT_OUTCOME_UNKNOWN);
      if (code == PDT_WRITES_FAILED) has_failed = true;
      reads(table, said->answered, said->unknown);
    }
  }
}

/* How many names the folder has that begin so. */
static long names(const char *folder, const char *front) {
  DIR *all = opendir(folder);
  long count = 0;
  for (struct dirent *one; all && (one = readdir(all));) count += !strncmp(one->d_name, front, strlen(front));
  if (all) closedir(all);
  return count;
}

/* What is written under another name first is taken away where that fails. */
static void leaves_nothing(const char *folder) {
  is("what is left", 0, names(folder, "journal-new") + names(folder, "manifest-new") + names(folder, "types-new"));
}

static void run(const char *folder, told *said) {
  pdt_database *database = NULL;
  pdt_report report = {.size = sizeof report};
  int code = pdt_database_open(folder, &options, &database, &report);
  if (code) {
    is("an opening that fails", PDT_IO, code);
    if (!stays) leaves_nothing(folder);
    return;
  }
  if (said->unknown && report.commits == said->unknown) said->answered = said->unknown; /* it is there, and stays */
  said->unknown = 0;
  run_in(database, said);
  code = pdt_database_close(database);
  if (code) is("a close", PDT_OUTCOME_UNKNOWN, code);
}

static void look(const char *folder, const told *said) {
  pdt_database *database = NULL;
  pdt_report report = {.size = sizeof report};
  is("open again", PDT_OK, pdt_database_open(folder, &options, &database, &report));
  if (!database) return;
  uint64_t most = said->unknown ? said->unknown : said->answered;
  is("what was answered", 1, report.commits >= said->answered && report.commits <= most);
  pdt_table *table = NULL;
  int code = pdt_table_open(database, "items", &table);
  if (said->is_made) is("the table", PDT_OK, code);
  if (!code) reads(table, report.commits, 0);
  is("close", PDT_OK, pdt_database_close(database));
}

static void remove_all(const char *path) {
  char words[700];
  snprintf(words, sizeof words, "rm -rf '%s'", path);
  if (system(words)) exit(1);
}

/* A run of which a call is cut off by a signal, and is made again. */
static void run_whole(const char *folder, long at) {
  remove_all(folder);
  told said = {0, 0, false};
  calls = 0, failed = NULL, fails_at = at;
  run(folder, &said);
  fails_at = -1;
  is("all is answered", COMMITS, (long long)said.answered);
  look(folder, &said);
}

/* A disk that is full from a call on while a table is dropped and one is made: nothing has changed where they answer so, nothing is left,
   and commits on other tables go on once there is room. Whether there was such a call. */
static bool fill_up(const char *folder, long at) {
  pdt_database *database = NULL;
  pdt_table *table = NULL, *other = NULL;
  told said = {0, 0, true};
  remove_all(folder);
  is("open", PDT_OK, pdt_database_open(folder, &options, &database, NULL));
  is("create", PDT_OK, pdt_table_create_csv(database, "items", csv, sizeof csv - 1, NULL, NULL, &table));
  is("create", PDT_OK, pdt_table_create_csv(database, "old", csv, sizeof csv - 1, NULL, NULL, &other));
  calls = 0, fails_at = at, stays = is_full = true, with = ENOSPC;
  int dropped = pdt_table_drop(database, "old"), made = pdt_table_create_csv(database, "new", csv, sizeof csv - 1, NULL, NULL, &other);
  fails_at = -1, stays = is_full = false;
  bool was_full = calls > at;
  if (dropped) is("a drop on a full disk", PDT_IO, dropped);
  if (made) is("a creation on a full disk", PDT_IO, made);
  is("images", 1 + !!dropped + !made, names(folder, "image-"));
  leaves_nothing(folder);
  is("a commit", PDT_OK, set(table, 1, 1, &said.answered));
  is("another drop", dropped ? PDT_OK : PDT_MISSING, pdt_table_drop(database, "old"));
  is("another creation", made ? PDT_OK : PDT_EXISTS, pdt_table_create_csv(database, "new", csv, sizeof csv - 1, NULL, NULL, &other));
  is("close", PDT_OK, pdt_database_close(database));
  look(folder, &said);
  return was_full;
}

/* A disk that is full from a call of an opening on: the folder is as it was, and is opened once there is room. Whether there was such a
   call. */
static bool open_full(const char *folder, long at, const told *said) {
  pdt_database *database = NULL;
  calls = 0, fails_at = at, stays = is_full = true, with = ENOSPC;
  int code = pdt_database_open(folder, &options, &database, NULL);
  fails_at = -1, stays = is_full = false;
  bool was_full = calls > at;
  if (code) is("an opening on a full disk", PDT_IO, code);
  leaves_nothing(folder);
  is("close", PDT_OK, pdt_database_close(database));
  look(folder, said);
  return was_full;
}

int main(int argc, char **argv) {
  if (argc < 3) return 2;
  char folder[400];
  snprintf(folder, sizeof folder, "%s/faults", argv[1]);
  int every = atoi(argv[2]); /* of how many calls one fails */
  told none = {0, 0, false};
  calls = 0;
  run(folder, &none);
  is("all is answered", COMMITS, (long long)none.answered);
  long all = calls;
  calls = 0; /* an opening's own calls: its first read is one of those */
  look(folder, &none);
  int runs = 0;
  for (int way = 0; way < 8 && failures < 10; way++)
    for (long at = way % every; at < all && failures < 10; at += every, runs++) {
      remove_all(folder);
      told said = {0, 0, false};
      int before = failures;
      calls = 0, failed = NULL, fails_at = at, stays = way & 1, with = way & 2 ? ENOSPC : EIO;
      options.early_reads = way & 4;
      run(folder, &said);
      if (at % 2) run(folder, &said); /* opened while it fails, or afterwards */
      fails_at = -1;
      look(folder, &said);
      const char *how = stays ? "and all after it" : "once";
      if (failures != before) fprintf(stderr, "call %ld of %ld, %s, %s, %s\n", at, all, failed, how, strerror(with));
    }
  options.early_reads = false;
  stays = false, with = EINTR;
  for (int i = 0; i < MAY_BE_CUT; i++, runs++) {
    run_whole(folder, first[i]);
    calls = 0, fails_at = first[i];
    look(folder, &none);
    fails_at = -1;
  }
  for (long at = 0; at < all && failures < 10; at += every, runs++) run_whole(folder, at);
  for (long at = 0; failures < 10 && open_full(folder, at, &none); at++) runs++;
  for (long at = 0; failures < 10 && fill_up(folder, at); at++) runs++;
  syncs_no_folder = true;
  run_whole(folder, -1);
  printf("%ld calls, %d runs, %d failures\n", all, runs, failures);
  return failures ? 1 : 0;
}
