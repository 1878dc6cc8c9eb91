/* Damage to a database at rest is reported: each byte of its journal changed, and each end cut off, after a close, after a kill of a
   process that had come to rest, and after one of a process that had not. What was durable is there, or the opening says that it isn't. */
#define _DEFAULT_SOURCE
#include "events.h"
#include <fcntl.h>
#include <pdt.h>
#include <signal.h>
#include <stdlib.h>
#include <sys/stat.h>
#include <sys/wait.h>

static int failures;
static void is(const char *what, long long wanted, long long found) {
  if (wanted == found) return;
  failures++;
  fprintf(stderr, "%s: wanted %lld, found %lld\n", what, wanted, found);
}

enum { COMMITS = 12, MOST = 1 << 16 };

static const char *room;
static char folder[500], path[600];
static const char *in(const char *file) {
  snprintf(path, sizeof path, "%s/%s", folder, file);
  return path;
}

/* ---- files */

typedef struct {
  uint8_t at[MOST];
  size_t len;
} content;

static content read_file(const char *name) {
  content got = {{0}, 0};
  FILE *file = fopen(in(name), "rb");
  if (!file) perror(path), exit(1);
  got.len = fread(got.at, 1, MOST, file);
  fclose(file);
  return got;
}
static void write_file(const char *name, const uint8_t *bytes, size_t len) {
  FILE *file = fopen(in(name), "wb");
  if (!file || fwrite(bytes, 1, len, file) != len || fclose(file)) perror(path), exit(1);
}

/* ---- a database of some commits */

static const char csv[] = "id:int:key,qty:int\n1,0\n2,0\n3,0\n";
static void commit_all(pdt_database *database, int64_t count) {
  pdt_table *table = NULL;
  is("create", PDT_OK, pdt_table_create_csv(database, "t", csv, sizeof csv - 1, NULL, NULL, &table));
  for (int64_t i = 1; i <= count; i++) {
    pdt_txn *txn = NULL;
    int64_t key = 1 + i % 3;
    is("begin", PDT_OK, pdt_begin(table, &txn));
    is("set", PDT_OK, pdt_set(txn, &key, NULL, 0, 1, i, NULL));
    is("commit", PDT_OK, pdt_commit(txn, NULL));
  }
}
static pdt_database *opened(const pdt_database_options *options) {
  pdt_database *database = NULL;
  is("open", PDT_OK, pdt_database_open(folder, options, &database, NULL));
  if (!database) exit(1);
  return database;
}
static uint64_t noted(void) {
  unsigned long long number = 0;
  content manifest = read_file("manifest");
  manifest.at[MOST - 1] = 0;
  const char *at = strstr((const char *)manifest.at, "\nat ");
  return at && sscanf(at, "\nat %llu", &number) == 1 ? number : 0;
}

/* A process makes the commits, and is killed once it may be. */
static void make_and_kill(const char *name, int sync, bool rests) {
  snprintf(folder, sizeof folder, "%s/%s", room, name);
  int ends[2];
  if (pipe(ends)) perror("pipe"), exit(1);
  pid_t child = fork();
  if (!child) {
    pdt_database_options options = {.size = sizeof options, .sync = sync};
    commit_all(opened(&options), COMMITS);
    if (write(ends[1], "x", 1) != 1) _exit(1);
    pause();
  }
  char byte;
  is("the commits are made", 1, read(ends[0], &byte, 1));
  if (rests) UNTIL(noted() == COMMITS);
  if (rests) is("what the manifest notes at rest", COMMITS, (long long)noted());
  kill(child, SIGKILL);
  waitpid(child, NULL, 0);
  close(ends[0]), close(ends[1]);
}
static void make_and_close(const char *name, int sync) {
  snprintf(folder, sizeof folder, "%s/%s", room, name);
  pdt_database_options options = {.size = sizeof options, .sync = sync, .no_maintenance = true};
  pdt_database *database = opened(&options);
  commit_all(database, COMMITS);
  is("close", PDT_OK, pdt_database_close(database));
  is("what the manifest notes after a close", COMMITS, (long long)noted());
}

/* ---- damage */

/* An opening of the folder as it is: the commits that it finds, or -1 where it reports damage, and says of what. Nothing is changed. */
static long long found(void) {
  pdt_database_options options = {.size = sizeof options, .read_only = true};
  pdt_report report = {.size = sizeof report};
  pdt_database *database = NULL;
  int code = pdt_database_open(folder, &options, &database, &report);
  if (!code) {
    (void)pdt_database_close(database);
    return (long long)report.commits;
  }
  is("a code of damage", 1, code == PDT_CORRUPT || code == PDT_INCOMPLETE || code == PDT_MISMATCH);
  is("what is damaged", 1, report.fault || *report.file);
  return -1;
}

/* How many of all changes of a byte, and of all ends cut off, are opened with fewer commits than there were. */
static int untold(const char *journal) {
  content whole = read_file(journal), changed = whole;
  int count = 0;
  is("all of it", COMMITS, found());
  for (size_t i = 0; i < whole.len; i++) {
    changed.at[i] ^= (uint8_t)(1 << i % 8);
    write_file(journal, changed.at, whole.len);
    long long now = found();
    count += now >= 0 && now < COMMITS;
    changed.at[i] = whole.at[i];
    write_file(journal, whole.at, i);
    now = found();
    count += now >= 0 && now < COMMITS;
  }
  write_file(journal, whole.at, whole.len);
  is("all of it again", COMMITS, found());
  return count;
}

/* The code and the report tell what is damaged from what is missing. */
static void is_told(void) {
  content whole = read_file("journal-1");
  pdt_report report = {.size = sizeof report};
  pdt_database *database = NULL;
  whole.at[whole.len - 1] ^= 1;
  write_file("journal-1", whole.at, whole.len);
  is("the last commit is damaged", PDT_CORRUPT, pdt_database_open(folder, NULL, &database, &report));
  is("which", COMMITS, (long long)report.fault);
  whole.at[whole.len - 1] ^= 1;
  size_t frame = (whole.len - 36) / COMMITS; /* all are as long */
  write_file("journal-1", whole.at, whole.len - frame);
  is("the last commit is missing", PDT_INCOMPLETE, pdt_database_open(folder, NULL, &database, &report));
  is("which", COMMITS, (long long)report.fault);
  content left = read_file("journal-1");
  is("nothing is changed", (long long)(whole.len - frame), (long long)left.len);
  write_file("journal-1", whole.at, whole.len);
}

/* Commits that weren't known to be durable, of which one in the middle is damaged: those behind it are cut off, and their bytes kept. */
static void keeps_frames(void) {
  snprintf(folder, sizeof folder, "%s/kept", room);
  pid_t child = fork();
  if (!child) {
    pdt_database_options options = {.size = sizeof options, .sync = PDT_SYNC_NORMAL, .no_maintenance = true};
    commit_all(opened(&options), COMMITS);
    _exit(failures);
  }
  int status = -1;
  waitpid(child, &status, 0);
  is("the child", 0, status);
  content whole = read_file("journal-1");
  size_t frame = (whole.len - 36) / COMMITS, fifth = 36 + 4 * frame;
  whole.at[fifth + frame - 1] ^= 1;
  write_file("journal-1", whole.at, whole.len);
  pdt_database_options options = {.size = sizeof options, .no_maintenance = true};
  for (int turn = 0; turn < 2; turn++) {
    pdt_report report = {.size = sizeof report};
    pdt_database *database = NULL;
    is("open", PDT_OK, pdt_database_open(folder, &options, &database, &report));
    is("the commits before", 4, (long long)report.commits);
    is("what is cut off", turn ? 0 : (long long)(whole.len - fifth), (long long)report.torn_bytes);
    is("where it is kept", 0, strcmp(turn ? "" : "torn-1", report.file));
    is("close", PDT_OK, pdt_database_close(database));
  }
  content kept = read_file("torn-1");
  is("its length", (long long)(whole.len - fifth), (long long)kept.len);
  is("its bytes", 0, memcmp(whole.at + fifth, kept.at, kept.len));
}

/* A frame that is cut short has no whole one behind it: nothing is kept. */
static void keeps_no_end(void) {
  make_and_close("end", PDT_SYNC_NORMAL);
  FILE *file = fopen(in("journal-1"), "ab");
  if (!file || fwrite("torn", 4, 1, file) != 1 || fclose(file)) perror(path), exit(1);
  pdt_report report = {.size = sizeof report};
  pdt_database *database = NULL;
  is("open", PDT_OK, pdt_database_open(folder, NULL, &database, &report));
  is("what is cut off", 4, (long long)report.torn_bytes);
  is("nothing is kept", 0, *report.file);
  is("close", PDT_OK, pdt_database_close(database));
}

int main(int argc, char **argv) {
  if (argc < 2) return 2;
  room = argv[1];
  static const char *const closed[] = {"closed-full", "closed-normal", "closed-off"};
  static const char *const killed[] = {"killed-full", "killed-normal", "killed-off"};
  for (int sync = PDT_SYNC_FULL; sync <= PDT_SYNC_OFF; sync++) {
    make_and_close(closed[sync], sync);
    is(closed[sync], 0, untold("journal-1"));
    is_told();
    make_and_kill(killed[sync], sync, true);
    is(killed[sync], 0, untold("journal-1"));
  }
  /* the last commit may have been cut short by the kill: that an end is missing isn't known, and all before it is */
  make_and_kill("at-once", PDT_SYNC_FULL, false);
  is("after a kill amid commits", 1, found() == COMMITS);
  keeps_frames();
  keeps_no_end();
  return failures ? 1 : 0;
}
