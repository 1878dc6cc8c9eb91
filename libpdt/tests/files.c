/* What a checkpoint does to files, call by call: which it makes, in which order they are written and synced, and what comes of a
   call that fails, is cut short or is cut off by a signal. Linked with --wrap of open, write, read, fsync, close and fcntl. */
#define _POSIX_C_SOURCE 200809L
#include <dirent.h>
#include <errno.h>
#include <fcntl.h>
#include <pdt.h>
#include <stdarg.h>
#include <stdio.h>
#include <stdlib.h>
#include <string.h>
#include <sys/stat.h>
#include <sys/wait.h>
#include <unistd.h>

static int failures;
static void is(const char *what, long long wanted, long long found) {
  if (wanted == found) return;
  failures++;
  fprintf(stderr, "%s: wanted %lld, found %lld\n", what, wanted, found);
}

/* ---- the calls: each is written down as a word and the last name of its path, and may fail */

enum { FILES = 64, LOG = 1 << 14 };
static char names[FILES][64], said[LOG];
static size_t ends;          /* of what was said */
static bool listens;         /* whether calls are written down */
static int opens;            /* how many files are open */
static const char *fails_at; /* a call that fails, as it is written down, or null */
static long fails_after;     /* any call, after so many; less than 0: none */
static int fails_with;       /* errno */
static bool failed;
static size_t at_most; /* how many bytes a write or a read takes */

int __real_open(const char *, int, ...);
ssize_t __real_write(int, const void *, size_t);
ssize_t __real_read(int, void *, size_t);
int __real_fsync(int);
int __real_close(int);
int __real_fcntl(int, int, ...);

/* Writes a call down, and says whether it fails; once is enough. */
static bool told(const char *word, const char *name) {
  char line[128];
  snprintf(line, sizeof line, "%s %s\n", word, name);
  if (!listens) return false;
  if (ends + strlen(line) < LOG) ends += (size_t)sprintf(said + ends, "%s", line);
  bool now = !failed && ((fails_at && !strncmp(line, fails_at, strlen(fails_at))) || fails_after == 0);
  fails_after -= fails_after >= 0;
  failed |= now;
  if (now) errno = fails_with;
  return now;
}
static const char *name_of(int file) { return file >= 0 && file < FILES && names[file][0] ? names[file] : "another"; }

int __wrap_open(const char *path, int how, ...) {
  va_list rest;
  va_start(rest, how);
  int mode = how & O_CREAT ? va_arg(rest, int) : 0;
  va_end(rest);
  const char *last = strrchr(path, '/') ? strrchr(path, '/') + 1 : path;
  if (listens) is("a file that a program it starts has too", O_CLOEXEC, how & O_CLOEXEC);
  if (told(how & O_CREAT ? "make" : "open", last)) return -1;
  int file = __real_open(path, how, mode);
  if (file >= 0 && file < FILES) snprintf(names[file], sizeof *names, "%s", last);
  opens += listens && file >= 0;
  return file;
}
ssize_t __wrap_write(int file, const void *bytes, size_t len) {
  if (listens) is("a file in the place of a standard stream", 1, file > 2);
  if (told("write", name_of(file))) return fails_with ? -1 : 0;
  return __real_write(file, bytes, at_most && len > at_most ? at_most : len);
}
ssize_t __wrap_read(int file, void *bytes, size_t len) {
  if (told("read", name_of(file))) return -1;
  return __real_read(file, bytes, at_most && len > at_most ? at_most : len);
}
int __wrap_fsync(int file) { return told("sync", name_of(file)) ? -1 : __real_fsync(file); }
int __wrap_close(int file) {
  bool fails = told("close", name_of(file));
  int why = errno, bad = __real_close(file);
  opens -= listens;
  if (fails) errno = why;
  return fails ? -1 : bad;
}
int __wrap_fcntl(int file, int what, ...) {
  va_list rest;
  va_start(rest, what);
  int from = va_arg(rest, int);
  va_end(rest);
  if (listens) is("a file is moved as it was opened", F_DUPFD_CLOEXEC, what);
  if (told("move", name_of(file))) return -1;
  int moved = __real_fcntl(file, what, from);
  if (moved >= 0 && moved < FILES) snprintf(names[moved], sizeof *names, "%s", name_of(file));
  opens += listens && moved >= 0;
  return moved;
}

static void listen(const char *at, long after, int why) {
  fails_at = at, fails_after = after, fails_with = why;
  failed = false, ends = 0, said[0] = 0, opens = 0, listens = true;
}
static void stop(void) {
  listens = false, at_most = 0;
  is("files that stay open", 0, opens);
}

/* ---- tables and folders */

static const char csv[] = "id:int:key,name:text\n10,Ann\n20,Bob\n";
static char room[256];
static int folders;

static pdt_table *opened(void) {
  pdt_table *table = NULL;
  is("open", PDT_OK, pdt_open(csv, sizeof csv - 1, NULL, &table));
  return table;
}
static void set(pdt_table *table, const char *name) {
  pdt_txn *txn = NULL;
  is("begin", PDT_OK, pdt_begin(table, &txn));
  is("set", PDT_OK, pdt_set(txn, (int64_t[]){20}, NULL, 0, 1, (int64_t)strlen(name), name));
  is("commit", PDT_OK, pdt_commit(txn, NULL));
}
static const char *new_folder(void) {
  static char path[320];
  snprintf(path, sizeof path, "%s/folder-%d", room, folders++);
  is("mkdir", 0, mkdir(path, 0777));
  return path;
}
static int files_in(const char *folder) {
  int count = 0;
  DIR *at = opendir(folder);
  for (struct dirent *entry; at && (entry = readdir(at));) count += entry->d_name[0] != '.';
  if (at) closedir(at);
  return count;
}
static size_t read_entries(pdt_table *table) {
  pdt_sizes sizes = {0, 0, 0, 0};
  is("size", PDT_OK, pdt_size(table, &sizes));
  return sizes.read_entries + sizes.write_entries;
}
/* The table in a folder is the table with this name at 20. */
static void recovers(const char *what, const char *folder, const char *name) {
  pdt_table *table = NULL;
  pdt_txn *txn = NULL;
  int64_t row[2] = {0, 0};
  char text[16] = "";
  is(what, PDT_OK, pdt_recover(folder, NULL, &table));
  if (!table) return;
  is(what, PDT_OK, pdt_begin(table, &txn));
  is(what, PDT_OK, pdt_get(txn, (int64_t[]){20}, NULL, 0, row, text, sizeof text, NULL));
  is(what, (long long)strlen(name), row[1]);
  is(what, 0, memcmp(text, name, strlen(name)));
  pdt_abort(txn);
  is(what, PDT_OK, pdt_close(table));
}

/* ---- the order: each file is synced before it is closed, then the folder, and then the one that it is in */

static const char *order(const char *folder) {
  static char wanted[1024];
  const char *last = strrchr(folder, '/') + 1;
  snprintf(wanted, sizeof wanted,
           "open %s\nclose %s\n"
           "make header.csv\nwrite header.csv\nsync header.csv\nclose header.csv\n"
           "make column-0.pdt\nwrite column-0.pdt\nsync column-0.pdt\nclose column-0.pdt\n"
           "make column-1.pdt\nwrite column-1.pdt\nsync column-1.pdt\nclose column-1.pdt\n"
           "open %s\nsync %s\nclose %s\nopen ..\nsync ..\nclose ..\n",
           last, last, last, last, last);
  return wanted;
}
static void the_order_is(const char *what, const char *folder) {
  if (strcmp(order(folder), said)) failures++, fprintf(stderr, "%s: wanted\n%sfound\n%s", what, order(folder), said);
}

static void orders(void) {
  pdt_table *table = opened();
  pdt_open_checkpoint *checkpoint = NULL;
  const char *folder = new_folder();
  set(table, "Rob");
  listen(NULL, -1, 0);
  is("checkpoint", PDT_OK, pdt_checkpoint(table, folder));
  stop();
  the_order_is("a checkpoint", folder);
  is("no entry is left", 0, (long long)read_entries(table));
  recovers("a checkpoint", folder, "Rob");
  folder = new_folder();
  is("begin", PDT_OK, pdt_checkpoint_begin(table, NULL, &checkpoint));
  listen(NULL, -1, 0);
  is("write", PDT_OK, pdt_checkpoint_write(checkpoint, folder));
  stop();
  the_order_is("a checkpoint in two parts", folder);
  pdt_checkpoint_end(checkpoint);
  is("close", PDT_OK, pdt_close(table));
}

/* ---- each call fails in turn: nothing is left in the folder, nor changed in memory, and another's checkpoint stays good */

/* A folder's close may fail: nothing was written through it. */
static bool is_passed_over(void) {
  static const char *const files[] = {" header.csv\n", " column-0.pdt\n", " column-1.pdt\n"};
  char *line = said + ends - 1;
  while (line > said && line[-1] != '\n') line--;
  if (strncmp(line, "close", 5)) return false;
  for (size_t i = 0; i < 3; i++)
    if (!strcmp(line + 5, files[i])) return false;
  return true;
}

static void failing_calls(int why, bool in_parts) {
  long after = 0;
  for (bool all = false; !all; after++) {
    pdt_table *table = opened();
    pdt_open_checkpoint *first = NULL, *second = NULL;
    const char *folder;
    set(table, "Rob");
    is("begin", PDT_OK, pdt_checkpoint_begin(table, NULL, &first));
    is("write", PDT_OK, pdt_checkpoint_write(first, new_folder()));
    set(table, "Bert");
    if (in_parts) is("begin", PDT_OK, pdt_checkpoint_begin(table, NULL, &second));
    size_t entries = read_entries(table);
    folder = new_folder();
    listen(NULL, after, why);
    int code = in_parts ? pdt_checkpoint_write(second, folder) : pdt_checkpoint(table, folder), cause = errno;
    bool was_closed = failed && is_passed_over();
    stop();
    all = !failed;
    if (code == PDT_OK) {
      is("a call that failed is told", 1, all || was_closed);
      recovers("what is written whole", folder, "Bert");
    } else {
      is("a failed call", PDT_IO, code);
      is("its cause", why, cause);
      is("no file is left", 0, files_in(folder));
      is("no entry has moved", (long long)entries, (long long)read_entries(table));
      is("another checkpoint stays good", in_parts ? PDT_SUPERSEDED : PDT_OK, pdt_checkpoint_install(first));
      is("it may be asked for again", PDT_OK, in_parts ? pdt_checkpoint_write(second, folder) : pdt_checkpoint(table, folder));
      recovers("the second time", folder, "Bert");
    }
    pdt_checkpoint_end(first);
    pdt_checkpoint_end(second);
    is("close", PDT_OK, pdt_close(table));
  }
  is("how many calls there are", 20 + 1, after);
}

/* ---- named calls that fail otherwise */

static void named_calls(void) {
  static const struct {
    const char *what, *call;
    int why, code;
  } cases[] = {
      {"a folder that can't be synced", "sync folder-", EINVAL, PDT_OK},
      {"a folder whose sync fails", "sync folder-", EIO, PDT_IO},
      {"a parent that can't be synced", "sync ..", EINVAL, PDT_OK},
      {"a parent whose sync fails", "sync ..", EIO, PDT_IO},
      {"a parent that may not be read", "open ..", EACCES, PDT_OK},
      {"a parent that is another's", "open ..", EPERM, PDT_OK},
      {"a folder that may not be read", "open folder-", EACCES, PDT_IO},
      {"a file that can't be synced", "sync header", EINVAL, PDT_IO},
      {"a column that can't be synced", "sync column-1", EINVAL, PDT_IO},
      {"a disk that is full", "write column-1", ENOSPC, PDT_IO},
      {"a write of nothing", "write column-0", 0, PDT_IO},
      {"a close that a signal cuts off", "close column-0", EINTR, PDT_OK},
      {"a header that is there since", "make header", EEXIST, PDT_EXISTS},
  };
  for (size_t i = 0; i < sizeof cases / sizeof *cases; i++) {
    pdt_table *table = opened();
    const char *folder = new_folder();
    set(table, "Rob");
    listen(cases[i].call, -1, cases[i].why);
    int code = pdt_checkpoint(table, folder), cause = errno;
    stop();
    is(cases[i].what, cases[i].code, code);
    is(cases[i].what, 1, failed);
    if (code == PDT_IO) is(cases[i].what, cases[i].why ? cases[i].why : EIO, cause);
    if (!strcmp(cases[i].call, "open folder-")) is("nothing is made in it", 0, strstr(said, "make") != NULL);
    is(cases[i].what, code ? 0 : 3, files_in(folder));
    is(cases[i].what, code ? 1 : 0, (long long)read_entries(table));
    is("close", PDT_OK, pdt_close(table));
  }
}

/* ---- signals, and writes and reads that take few bytes */

static void cut_short(void) {
  static const char *const calls[] = {"make header",   "write header", "sync header",  "make column-0", "write column-1",
                                      "sync column-1", "open folder-", "sync folder-", "open ..",       "sync .."};
  pdt_table *table = opened(), *again = NULL;
  set(table, "Rob");
  for (size_t i = 0; i < sizeof calls / sizeof *calls; i++) {
    const char *folder = new_folder();
    listen(calls[i], -1, EINTR);
    is(calls[i], PDT_OK, pdt_checkpoint(table, folder));
    stop();
    is(calls[i], 1, failed);
    recovers(calls[i], folder, "Rob");
  }
  const char *folder = new_folder();
  listen(NULL, -1, 0), at_most = 7;
  is("short writes", PDT_OK, pdt_checkpoint(table, folder));
  stop();
  recovers("short writes", folder, "Rob");
  static const char *const reads[] = {"open header", "read header", "open column-1", "read column-1"};
  for (size_t i = 0; i < sizeof reads / sizeof *reads; i++) {
    listen(reads[i], -1, EINTR), at_most = 13;
    is(reads[i], PDT_OK, pdt_recover(folder, NULL, &again));
    stop();
    is(reads[i], 1, failed);
    is("close", PDT_OK, pdt_close(again));
    listen(reads[i], -1, EIO);
    is(reads[i], PDT_IO, pdt_recover(folder, NULL, &again));
    is(reads[i], EIO, errno);
    stop();
  }
  is("close", PDT_OK, pdt_close(table));
}

/* ---- paths: an empty one is none, and not the root folder's */

static void paths(void) {
  pdt_table *table = opened(), *again = NULL;
  pdt_open_checkpoint *checkpoint = NULL;
  is("begin", PDT_OK, pdt_checkpoint_begin(table, NULL, &checkpoint));
  listen(NULL, -1, 0);
  is("a checkpoint in no folder", PDT_MISUSE, pdt_checkpoint(table, ""));
  is("a write in no folder", PDT_MISUSE, pdt_checkpoint_write(checkpoint, ""));
  is("a recovery of no folder", PDT_MISUSE, pdt_recover("", NULL, &again));
  stop();
  is("no file is looked at", 0, (long long)ends);
  is("a file in the place of a folder", PDT_IO, pdt_checkpoint(table, "/proc/self/stat"));
  is("why", ENOTDIR, errno);
  pdt_checkpoint_end(checkpoint);
  is("close", PDT_OK, pdt_close(table));
}

/* ---- with the standard streams closed no file takes their numbers */

static void closed_streams(void) {
  pdt_table *table = opened();
  const char *folder = new_folder();
  set(table, "Rob");
  pid_t child = fork();
  if (!child) {
    for (int file = 0; file < 3; file++) __real_close(file);
    listen(NULL, -1, 0);
    int code = pdt_checkpoint(table, folder);
    listens = false;
    _exit(code || failures || opens || !strstr(said, "move header.csv") || !strstr(said, "move column-1.pdt"));
  }
  int status = -1;
  waitpid(child, &status, 0);
  is("a checkpoint with no streams", 0, status);
  recovers("a checkpoint with no streams", folder, "Rob");
  is("close", PDT_OK, pdt_close(table));
}

/* ---- columns of more than 4 MiB, which go out and come in by pieces */

static void large_columns(void) {
  enum { ROWS = 700000 };
  int64_t *ids = malloc(ROWS * sizeof *ids), *found = malloc(ROWS * sizeof *found);
  if (!ids || !found) exit(2);
  for (int64_t row = 0; row < ROWS; row++) ids[row] = (int64_t)((uint64_t)row * 0x9E3779B97F4A7C15u);
  pdt_column columns[] = {{"id", PDT_INT, ROWS, found, NULL, NULL, 0}, {"qty", PDT_INT, ROWS, ids, NULL, NULL, 0}};
  for (int64_t row = 0; row < ROWS; row++) found[row] = row;
  pdt_table *table = NULL, *again = NULL;
  pdt_txn *txn = NULL;
  const char *folder = new_folder();
  char path[400];
  struct stat about = {0};
  is("open", PDT_OK, pdt_open_columns(columns, 2, 1, NULL, NULL, &table));
  is("checkpoint", PDT_OK, pdt_checkpoint(table, folder));
  snprintf(path, sizeof path, "%s/column-1.pdt", folder);
  is("its file", 0, stat(path, &about));
  is("it has more than 4 MiB", 1, about.st_size > 5 << 20);
  is("recover", PDT_OK, pdt_recover(folder, NULL, &again));
  is("begin", PDT_OK, pdt_begin(again, &txn));
  size_t count = ROWS;
  is("ints", PDT_OK, pdt_ints(txn, 1, 0, found, &count));
  is("how many", ROWS, (long long)count);
  is("each is as it was", 0, memcmp(ids, found, ROWS * sizeof *ids));
  pdt_abort(txn);
  is("close", PDT_OK, pdt_close(again));
  is("close", PDT_OK, pdt_close(table));
  free(ids), free(found);
}

int main(int argc, char **argv) {
  if (argc != 2) return fprintf(stderr, "files FOLDER: one that is empty\n"), 2;
  snprintf(room, sizeof room, "%s", argv[1]);
  orders();
  failing_calls(EIO, false);
  failing_calls(EIO, true);
  named_calls();
  cut_short();
  paths();
  closed_streams();
  large_columns();
  return failures ? 1 : 0;
}
