/* Who has a database open: one opening, also where the lock file was taken away or changed by hand, where a child of fork has the files
   too, and where a file system locks no folder. Linked with --wrap of flock. */
#define _DEFAULT_SOURCE
#include <errno.h>
#include <fcntl.h>
#include <pdt.h>
#include <stdio.h>
#include <stdlib.h>
#include <string.h>
#include <sys/file.h>
#include <sys/stat.h>
#include <sys/wait.h>
#include <unistd.h>

static int failures;
static void is(const char *what, long long wanted, long long found) {
  if (wanted == found) return;
  failures++;
  fprintf(stderr, "%s: wanted %lld, found %lld\n", what, wanted, found);
}

/* ---- flock, which fails on a folder or not */

static int fails_with, cuts_off; /* on folders; and how many calls a signal cuts off */
int __real_flock(int, int);
int __wrap_flock(int file, int how) {
  struct stat about;
  if (cuts_off) return cuts_off--, errno = EINTR, -1;
  if (fails_with && !fstat(file, &about) && S_ISDIR(about.st_mode)) return errno = fails_with, -1;
  return __real_flock(file, how);
}

/* ---- a folder */

static char folder[500];
static const pdt_database_options options = {.size = sizeof options, .no_maintenance = true};
static int try_open(pdt_database **database) { return pdt_database_open(folder, &options, database, NULL); }
static pdt_database *opened(void) {
  pdt_database *database = NULL;
  is("open", PDT_OK, try_open(&database));
  if (!database) exit(1);
  return database;
}
static void closed(pdt_database *database) { is("close", PDT_OK, pdt_database_close(database)); }
static const char *path_of(const char *file) {
  static char path[600];
  snprintf(path, sizeof path, "%s/%s", folder, file);
  return path;
}
static void is_locked(const char *what) {
  pdt_database *other = NULL;
  is(what, PDT_LOCKED, try_open(&other));
  (void)pdt_database_close(other);
}
static void in_child(const char *what, void (*dbtxn)(const char *)) {
  pid_t child = fork();
  if (!child) {
    failures = 0;
    dbtxn(what);
    _exit(failures);
  }
  int status = -1;
  waitpid(child, &status, 0);
  is(what, 0, status);
}

/* The name of the file invites to take it away; who has the database open doesn't lose it. */
static void without_file(void) {
  pdt_database *database = opened();
  is_locked("with the file");
  is("unlink", 0, unlink(path_of("lock")));
  is_locked("without the file");
  is("a refused opening leaves no file", -1, access(path_of("lock"), F_OK));
  close(open(path_of("lock"), O_CREAT | O_WRONLY, 0600));
  is_locked("with a new one");
  in_child("in another process", is_locked); /* which has the files too, and ends */
  is_locked("after its end");
  is("unlink", 0, unlink(path_of("lock")));
  int ends[2];
  is("pipe", 0, pipe(ends));
  pid_t child = fork(); /* which lives on */
  if (!child) _exit(close(ends[1]) || read(ends[0], folder, 1) != 0);
  closed(database);
  database = opened();
  is_locked("again");
  closed(database);
  close(ends[0]), close(ends[1]);
  int status = -1;
  waitpid(child, &status, 0);
  is("the child that lived on", 0, status);
}

/* A folder that another program has locked is locked, however it has opened it; a descriptor's copies share its lock. */
static void of_another(void) {
  int dir = open(folder, O_RDONLY | O_DIRECTORY);
  is("lock", 0, __real_flock(dir, LOCK_SH));
  is_locked("another program's folder");
  int copy = dup(dir);
  close(dir);
  is_locked("by a copy");
  close(copy);
  closed(opened());
}

/* Where the file was the only lock and is gone, another process may have the database: nothing more is written. */
static void without_lock(void) {
  static const char csv[] = "key:int:key\n";
  pdt_database *database = opened();
  pdt_table *table;
  is("create", PDT_OK, pdt_table_create_csv(database, "t", csv, sizeof csv - 1, NULL, NULL, &table));
  is("unlink", 0, unlink(path_of("lock")));
  is("the next list of files", PDT_LOCKED, pdt_table_create_csv(database, "u", csv, sizeof csv - 1, NULL, NULL, &table));
  is("no more tables", PDT_WRITES_FAILED, pdt_table_create_csv(database, "v", csv, sizeof csv - 1, NULL, NULL, &table));
  (void)pdt_database_close(database);
  database = opened();
  is("the first is there", PDT_OK, pdt_table_open(database, "t", &table));
  is("and no other", PDT_MISSING, pdt_table_open(database, "u", &table));
  is("drop", PDT_OK, pdt_table_drop(database, "t"));
  closed(database);
}

/* Where a file system locks no folder the file alone keeps others out. What fails otherwise is no lock. */
static void without_folder(void) {
  static const int answers[] = {EBADF, EINVAL, EOPNOTSUPP};
  for (int i = 0; i < 3; i++) {
    fails_with = answers[i];
    pdt_database *database = opened();
    is_locked("by the file alone");
    closed(database);
    without_lock();
  }
  fails_with = ENOLCK;
  pdt_database *database = NULL;
  is("no lock is left", PDT_IO, try_open(&database));
  is("which", ENOLCK, errno);
  fails_with = 0;
  for (cuts_off = 1; cuts_off < 5;) {
    int count = cuts_off;
    database = opened();
    cuts_off = 0;
    is_locked("after signals");
    closed(database);
    cuts_off = count + 1;
  }
  cuts_off = 0;
}

int main(int argc, char **argv) {
  if (argc < 2) return 2;
  snprintf(folder, sizeof folder, "%s/folder", argv[1]);
  without_file();
  of_another();
  without_folder();
  return failures ? 1 : 0;
}
