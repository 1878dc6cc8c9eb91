/* What a loss of power leaves of a database. A run is written down, call by call: which files it makes, writes, syncs, renames and takes
   away, and what it answers. Then folders are made as the power may leave them after each call: with all that was done, with only what
   was synced, and with some of what wasn't, file by file and folder by folder; after each rename with that alone of the changes of names
   that weren't synced. Each is opened, and has to hold what was answered by then, also what a column is declared as, and what was not
   answered whole or not at all. Under another sync it has to hold the first commits, however many. And runs are killed before a call, in
   the midst of a write too, and opened again by another process, which goes on with what the kernel has: a loss of power right after
   that leaves no less. Where RUN is said, a folder that the program has made becomes a database in place of a new one. Linked with
   --wrap of the calls.

     power FOLDER EVERY SYNC SEED RUN */
#define _POSIX_C_SOURCE 200809L
#include <errno.h>
#include <fcntl.h>
#include <pdt_arrow.h>
#include <setjmp.h>
#include <stdarg.h>
#include <stdio.h>
#include <stdlib.h>
#include <string.h>
#include <sys/stat.h>
#include <unistd.h>

static int failures;
static void is(const char *what, long long wanted, long long found) {
  if (wanted == found) return;
  failures++;
  fprintf(stderr, "%s: wanted %lld, found %lld\n", what, wanted, found);
}

/* ---- what is written down */

enum kind { MAKE, MAKE_FOLDER, WRITE, CUT, SYNC, RENAME, REMOVE, ANSWER };
typedef struct {
  enum kind kind;
  int of;                /* the folder or file that it changes */
  int object;            /* that it makes */
  char name[48], to[48]; /* in the folder */
  uint8_t *bytes;
  size_t len;
  uint64_t number; /* that was answered */
  int made, declared;
  bool lasts;   /* whatever the sync: the database was closed */
  bool is_lost; /* of bytes: their sync failed, and the system takes them for written */
} event;

enum { EVENTS = 1 << 16, OBJECTS = 1 << 13, FDS = 256, PARENT = 0, TOP = 1 };
static event events[EVENTS];
static int count, objects = 2;
static bool listens, is_folder[OBJECTS] = {true, true};
static int object_of[FDS]; /* of a file that is open, and 0 of others */
static const char *top;    /* the path of the folder */

/* The call before which the process is killed, or -1. What it had open is closed, and what it had in memory is lost. */
static long calls, killed_at = -1;
static jmp_buf killed;
int __real_close(int);
static bool is_killed(void) { return listens && calls++ == killed_at; }
static void die(void) {
  for (int file = 0; file < FDS; file++)
    if (object_of[file]) {
      __real_close(file);
      object_of[file] = 0;
    }
  longjmp(killed, 1);
}

static event *add(enum kind kind, int of) {
  if (count == EVENTS) fprintf(stderr, "too many calls\n"), exit(1);
  events[count] = (event){.kind = kind, .of = of};
  return &events[count++];
}

/* The object of a name in a folder as it is after all events, or -1. */
static int find_in(int folder, const char *name) {
  int found = -1;
  for (int i = 0; i < count; i++) {
    const event *one = &events[i];
    if (one->of != folder) continue;
    if ((one->kind == MAKE || one->kind == MAKE_FOLDER) && !strcmp(one->name, name)) found = one->object;
    if (one->kind == REMOVE && !strcmp(one->name, name)) found = -1;
    if (one->kind == RENAME && !strcmp(one->name, name)) found = -1;
    if (one->kind == RENAME && !strcmp(one->to, name)) found = one->object;
  }
  return found;
}

/* The folder that a path leads through, and the last name of it. */
static int folder_of(int folder, const char *path, char *name) {
  const char *slash = strchr(path, '/');
  if (!slash) {
    snprintf(name, 48, "%s", path);
    return folder;
  }
  char first[48];
  snprintf(first, sizeof first, "%.*s", (int)(slash - path), path);
  return folder_of(find_in(folder, first), slash + 1, name);
}

int __real_openat(int, const char *, int, ...);
ssize_t __real_write(int, const void *, size_t);
int __real_ftruncate(int, off_t);
int __real_renameat(int, const char *, int, const char *);
int __real_unlinkat(int, const char *, int);
int __real_mkdirat(int, const char *, mode_t);
int __real_mkdir(const char *, mode_t);

static int object_at(int dir, const char *path) {
  if (dir == AT_FDCWD) return !strcmp(path, top) ? TOP : PARENT;
  if (!strcmp(path, ".")) return object_of[dir];
  if (!strcmp(path, "..")) return PARENT;
  char name[48];
  int folder = folder_of(object_of[dir], path, name);
  return find_in(folder, name);
}

/* Commits as another thread would: while a file of the journal is made, once that is there, and while an image is written. */
static void meanwhile(void);
static bool soon;
void *__real_calloc(size_t, size_t);
void *__wrap_calloc(size_t many, size_t len) { /* the next call of the library that takes memory */
  if (soon) soon = false, meanwhile();
  return __real_calloc(many, len);
}

int __wrap_openat(int dir, const char *path, int how, ...) {
  va_list rest;
  va_start(rest, how);
  int mode = how & O_CREAT ? va_arg(rest, int) : 0;
  va_end(rest);
  if (is_killed()) die();
  if (how & O_CREAT && !strncmp(path, "journal-", 8)) meanwhile(), soon = true;
  int file = __real_openat(dir, path, how, mode);
  if (!listens || file < 0) return file;
  int object = object_at(dir, path);
  if (object < 0) {
    char name[48];
    event *one = add(MAKE, 0);
    one->of = folder_of(object_of[dir], path, name);
    one->object = object = objects++;
    memcpy(one->name, name, sizeof name);
  } else if (how & O_TRUNC) {
    add(CUT, object);
  }
  if (file < FDS) object_of[file] = object;
  return file;
}
int __wrap_close(int file) {
  if (listens && file >= 0 && file < FDS) object_of[file] = 0;
  return __real_close(file);
}
ssize_t __wrap_write(int file, const void *bytes, size_t len) {
  bool dies = is_killed();
  ssize_t done = __real_write(file, bytes, dies ? len / 2 : len);
  if (dies && done <= 0) die();
  if (!listens || done <= 0 || file >= FDS || object_of[file] < 2) return done;
  event *one = add(WRITE, object_of[file]);
  one->bytes = malloc((size_t)done);
  memcpy(one->bytes, bytes, (size_t)done);
  one->len = (size_t)done;
  if (dies) die();
  return done;
}
/* The next sync of a file fails. What was to be synced is read as it was written, and no later sync writes it. */
static bool fails;
static int fail_sync(int object) {
  fails = false;
  for (int i = count - 1; i >= 0; i--) {
    if (events[i].of != object) continue;
    if (events[i].kind == SYNC) break;
    events[i].is_lost = events[i].kind == WRITE;
  }
  errno = EIO;
  return -1;
}
static int synced(int file, int bad) {
  if (is_killed()) die();
  if (listens && fails && file < FDS) return fail_sync(object_of[file]);
  if (listens && !bad && file < FDS) add(SYNC, object_of[file]);
  return bad;
}
int __wrap_fdatasync(int file) { return synced(file, 0); } /* the power stays on here: nothing is really synced */
int __wrap_fsync(int file) { return synced(file, 0); }
int __wrap_ftruncate(int file, off_t len) {
  if (is_killed()) die();
  int bad = __real_ftruncate(file, len);
  if (listens && !bad) add(CUT, object_of[file])->len = (size_t)len;
  return bad;
}
int __wrap_renameat(int dir, const char *from, int to_dir, const char *to) {
  if (is_killed()) die();
  int object = listens ? object_at(dir, from) : 0, bad = __real_renameat(dir, from, to_dir, to);
  if (!listens || bad) return bad;
  event *one = add(RENAME, object_of[dir]);
  one->object = object;
  snprintf(one->name, sizeof one->name, "%s", from);
  snprintf(one->to, sizeof one->to, "%s", to);
  return 0;
}
int __wrap_unlinkat(int dir, const char *path, int how) {
  if (is_killed()) die();
  int bad = __real_unlinkat(dir, path, how);
  if (!listens || bad) return bad;
  char name[48];
  int folder = folder_of(object_of[dir], path, name);
  memcpy(add(REMOVE, folder)->name, name, sizeof name);
  return 0;
}
static int made(int folder, const char *name, int bad) {
  if (!listens || bad) return bad;
  event *one = add(MAKE_FOLDER, folder);
  one->object = objects++;
  is_folder[one->object] = true;
  snprintf(one->name, sizeof one->name, "%s", name);
  return 0;
}
int __wrap_mkdirat(int dir, const char *path, mode_t mode) {
  if (is_killed()) die();
  meanwhile();
  return made(object_of[dir], path, __real_mkdirat(dir, path, mode));
}
int __wrap_mkdir(const char *path, mode_t mode) {
  if (is_killed()) die();
  int bad = __real_mkdir(path, mode);
  if (!listens || bad) return bad;
  event *one = add(MAKE_FOLDER, PARENT);
  one->object = TOP;
  snprintf(one->name, sizeof one->name, "top");
  return 0;
}

/* ---- the run */

enum { COMMITS = 120, KEYS = 7 };

static pdt_database_options options = {
    .size = sizeof options, .no_maintenance = true, .fold_entries = 6, .checkpoint_entries = 16, .journal_bytes = 1500};
static const char csv[] = "id:int:key,qty:int\n0,0\n1,0\n2,0\n3,0\n4,0\n5,0\n6,0\n";
static const char *const names[] = {"left", "right"};
static uint64_t number; /* of the last commit that was answered */

/* What a column of the first table is declared as: times in a zone that has a number for its name. The last that was answered. */
static int declared;
static const char *format_of(int as) {
  static char format[16];
  snprintf(format, sizeof format, "tsu:%d", as);
  return format;
}
static int declared_of(const pdt_table *table) {
  const char *format = pdt_declared(table, 1);
  return format && !strncmp(format, "tsu:", 4) ? atoi(format + 4) : -1;
}

static void answer(uint64_t number, int made, bool lasts) {
  event *one = add(ANSWER, -1);
  one->number = number;
  one->made = made;
  one->declared = declared;
  one->lasts = lasts;
}

/* Makes a table, the first one with a column that is declared. */
static void create(pdt_database *database, int place, pdt_table **table) {
  const char *const formats[] = {NULL, place ? NULL : format_of(declared)};
  is("create", PDT_OK, pdt_table_create_csv_declared(database, names[place], csv, sizeof csv - 1, formats, 2, NULL, NULL, table));
  answer(number, place + 1, true);
}

/* Each commit sets one key of both tables to its number. */
static uint64_t step(pdt_database *database, pdt_table *const *tables, uint64_t number) {
  pdt_dbtxn *dbtxn = NULL;
  uint64_t done = 0;
  is("work", PDT_OK, pdt_dbtxn_begin(database, &dbtxn));
  for (int i = 0; i < 2; i++) {
    pdt_txn *txn = NULL;
    int64_t key = (int64_t)(number % KEYS);
    is("on", PDT_OK, pdt_dbtxn_on(dbtxn, tables[i], &txn));
    is("set", PDT_OK, pdt_set(txn, &key, NULL, 0, 1, (int64_t)number, NULL));
  }
  is("commit", PDT_OK, pdt_dbtxn_commit(dbtxn, &done));
  is("number", (long long)number, (long long)done);
  return done;
}

static pdt_database *running;
static pdt_table *const *running_tables;
static void commit_one(void) {
  number = step(running, running_tables, number + 1);
  answer(number, 2, false);
}
static void meanwhile(void) {
  if (listens && running) commit_one();
}

/* What an opening finds is on the device then, and so is what a close leaves. */
/* A commit whose sync fails, and a close that can't make up for it. The device may have it, and has what was answered before. */
static void fail_once(pdt_database *database, pdt_table *const *tables) {
  pdt_dbtxn *dbtxn = NULL;
  is("work", PDT_OK, pdt_dbtxn_begin(database, &dbtxn));
  for (int i = 0; i < 2; i++) {
    pdt_txn *txn = NULL;
    int64_t key = (int64_t)((number + 1) % KEYS);
    is("on", PDT_OK, pdt_dbtxn_on(dbtxn, tables[i], &txn));
    is("set", PDT_OK, pdt_set(txn, &key, NULL, 0, 1, (int64_t)(number + 1), NULL));
  }
  fails = true;
  is("a commit that isn't synced", PDT_OUTCOME_UNKNOWN, pdt_dbtxn_commit(dbtxn, NULL));
  is("a close", PDT_OUTCOME_UNKNOWN, pdt_database_close(database));
}

static void open_once(const char *folder) {
  pdt_database *database = NULL;
  pdt_report report = {.size = sizeof report};
  is("open", PDT_OK, pdt_database_open(folder, &options, &database, &report));
  if (!database) exit(1);
  is("what is found", 1, report.commits <= number + 1 && (options.sync == PDT_SYNC_OFF || report.commits >= number));
  number = report.commits;
  pdt_table *tables[2];
  int there = 0;
  while (there < 2 && !pdt_table_open(database, names[there], &tables[there])) there++;
  int found = there ? declared_of(tables[0]) : declared;
  is("what is declared", 1, found == declared || found == declared + 1);
  declared = found;
  answer(number, there, true);
  for (; there < 2; there++) create(database, there, &tables[there]);
  running = database;
  running_tables = tables;
  for (int i = 0; i < COMMITS / 3; i++) {
    commit_one();
    if (i == COMMITS / 6) {
      is("declare", PDT_OK, pdt_declare(tables[0], 1, format_of(declared + 1)));
      declared++;
      answer(number, 2, false);
    }
    if (i % 4 == 3) is("maintenance", PDT_OK, pdt_maintain(database));
  }
  running = NULL;
  if (options.sync == PDT_SYNC_FULL) fail_once(database, tables); /* what comes of it is what the next opening says */
  else is("close", PDT_OK, pdt_database_close(database));
  answer(number, 2, true);
}

/* ---- the same over a folder that the program has made, which is there and was synced: its last commit is number 4 */

enum { MADE = 4 };
static const char *program_run;
static int begins; /* the events before are of the folder as it was made */

static const char *const run_files[] = {"header.csv", "column-0.pdt", "column-1.pdt", "column-2.pdt", "images.pdt", "journal.pdt"};

/* Once it is a database none of the run's files is there. */
static void has_no_run(const char *folder) {
  char path[600];
  for (int i = 0; i < 6; i++) {
    snprintf(path, sizeof path, "%s/%s", folder, run_files[i]);
    if (!access(path, F_OK)) is(run_files[i], 0, 1);
  }
}

static void lay_file(const char *name) {
  static uint8_t bytes[1 << 16];
  char path[700];
  snprintf(path, sizeof path, "%s/%s", program_run, name);
  FILE *file = fopen(path, "rb");
  if (!file) perror(path), exit(1);
  size_t len = fread(bytes, 1, sizeof bytes, file);
  fclose(file);
  event *one = add(MAKE, TOP);
  int object = one->object = objects++;
  snprintf(one->name, sizeof one->name, "%s", name);
  one = add(WRITE, object);
  one->bytes = malloc(len);
  memcpy(one->bytes, bytes, len);
  one->len = len;
  add(SYNC, object);
}

/* Each commit sets the name of one row to its number. */
static void step_imported(pdt_database *database, uint64_t wanted) {
  pdt_table *table = NULL;
  pdt_txn *txn = NULL;
  int64_t key = 10;
  uint64_t done = 0;
  char name[24];
  int len = snprintf(name, sizeof name, "%llu", (unsigned long long)wanted);
  is("table", PDT_OK, pdt_table_open(database, PDT_IMPORTED, &table));
  is("begin", PDT_OK, pdt_begin(table, &txn));
  is("set", PDT_OK, pdt_set(txn, &key, NULL, 0, 1, len, name));
  is("commit", PDT_OK, pdt_commit(txn, &done));
  is("number", (long long)wanted, (long long)done);
}

static void look_imported(pdt_database *database, uint64_t commits) {
  pdt_table *table = NULL;
  pdt_txn *txn = NULL;
  int64_t key = 10, row[3];
  uint64_t rows = 0;
  char name[24] = {0}, wanted[24] = "a";
  is("what the program made is there", 1, commits >= MADE);
  if (commits > MADE) snprintf(wanted, sizeof wanted, "%llu", (unsigned long long)commits);
  is("table", PDT_OK, pdt_table_open(database, PDT_IMPORTED, &table));
  if (!table) return;
  is("begin", PDT_OK, pdt_begin(table, &txn));
  is("rows", PDT_OK, pdt_rows(txn, &rows));
  is("four", 4, (long long)rows);
  is("get", PDT_OK, pdt_get(txn, &key, NULL, 0, row, name, sizeof name - 1, NULL));
  is("the name", 0, strcmp(wanted, name));
  pdt_abort(txn);
  step_imported(database, commits + 1);
}

static void put_folder(const char *path, int folder, int end, int way);
static void lay_run(const char *folder) {
  event *one = add(MAKE_FOLDER, PARENT);
  one->object = TOP;
  snprintf(one->name, sizeof one->name, "top");
  add(SYNC, PARENT);
  for (int i = 0; i < 6; i++) lay_file(run_files[i]);
  add(SYNC, TOP);
  put_folder(folder, TOP, count, 0);
  number = MADE;
  answer(number, 1, true);
  begins = count;
}

static void open_imported(const char *folder) {
  pdt_database *database = NULL;
  pdt_report report = {.size = sizeof report};
  is("open", PDT_OK, pdt_database_open(folder, &options, &database, &report));
  if (!database) exit(1);
  is("what is found", 1, report.commits <= number + 1 && (options.sync == PDT_SYNC_OFF || report.commits >= number));
  number = report.commits;
  answer(number, 1, true);
  for (int i = 0; i < COMMITS / 6; i++) {
    step_imported(database, number + 1);
    answer(++number, 1, false);
    if (i % 4 == 3) is("maintenance", PDT_OK, pdt_maintain(database));
  }
  is("close", PDT_OK, pdt_database_close(database));
  answer(number, 1, true);
}

/* ---- all of it */

static int died; /* at which event */
static void run(const char *folder, bool is_made) {
  static int left;
  top = folder;
  if (program_run) lay_run(folder);
  listens = true;
  left = 3;
  if (is_made && !program_run && mkdir(folder, 0777)) exit(1); /* by the caller, who syncs nothing */
  if (setjmp(killed)) {
    died = count;
    killed_at = -1;
    running = NULL;
    soon = fails = false;
  }
  while (left) {
    if (program_run) open_imported(folder);
    else open_once(folder);
    left--;
  }
  listens = false;
}
static void forget(void) {
  for (int i = 0; i < count; i++) free(events[i].bytes);
  count = 0;
  objects = 2;
  calls = 0;
  number = 0;
  declared = 0;
  memset(is_folder + 2, 0, sizeof is_folder - 2 * sizeof *is_folder);
}

/* ---- what the power leaves */

static unsigned seed = 1;
static int drawn(int below) { return below > 0 ? rand_r(&seed) % below : 0; }

/* All, what was synced, some of what wasn't; or of a folder what was synced and the last change of its names alone. */
enum left { ALL, SYNCED, SOME, LAST };

/* Up to which event a file or a folder is left, of those before `end`. */
static int left_of(int object, int end, enum left way) {
  if (way == ALL) return end;
  int last = 0, later = 0;
  for (int i = 0; i < end; i++) {
    if (events[i].of != object) continue;
    if (events[i].kind == SYNC) last = i, later = 0;
    else if (events[i].kind != ANSWER) later++;
  }
  if (way == SYNCED || way == LAST || !later) return last;
  int more = drawn(later + 1), at = last;
  while (more && ++at < end) more -= events[at].of == object && events[at].kind != ANSWER && events[at].kind != SYNC;
  return at + 1 < end ? at + 1 : end;
}

static void put_file(const char *path, int object, int end, enum left way) {
  int until = left_of(object, end, way), synced = left_of(object, end, SYNCED);
  static uint8_t bytes[1 << 20];
  size_t len = 0;
  for (int i = 0; i < until; i++) {
    const event *one = &events[i];
    if (one->of != object) continue;
    if (one->kind == CUT) len = one->len;
    if (one->kind == WRITE) {
      memcpy(bytes + len, one->bytes, one->len);
      if (one->is_lost && way != ALL) memset(bytes + len, 0, one->len);
      if (way == SOME && i > synced && !drawn(3)) memset(bytes + len, 0, one->len); /* it came later than one after it */
      len += one->len;
    }
  }
  if (way == SOME && until < end && drawn(2)) { /* a part of the next write, and maybe zeros where the rest would be */
    for (int i = until; i < end; i++) {
      const event *one = &events[i];
      if (one->of != object || one->kind != WRITE) continue;
      size_t some = (size_t)drawn((int)one->len + 1);
      memcpy(bytes + len, one->bytes, some);
      if (one->is_lost) memset(bytes + len, 0, some);
      bool zeros = drawn(2);
      if (zeros) memset(bytes + len + some, 0, one->len - some);
      len += zeros ? one->len : some;
      break;
    }
  }
  FILE *file = fopen(path, "wb");
  if (!file || fwrite(bytes, 1, len, file) != len || fclose(file)) perror(path), exit(1);
}

/* The names of a folder, and what they name. */
typedef struct {
  int object[512];
  char name[512][48];
  int count;
} names_held;
static void take_out(names_held *held, const char *name) {
  for (int k = 0; k < held->count; k++) {
    if (strcmp(held->name[k], name)) continue;
    held->object[k] = held->object[--held->count];
    memmove(held->name[k], held->name[held->count], 48);
    return;
  }
}

/* What a folder holds: of the changes of its names that weren't synced any may be left, since no rule says in which order they last. */
static void put_folder(const char *path, int folder, int end, int way) {
  int until = left_of(folder, end, way == SOME ? SYNCED : way), only = end - 1;
  while (way == LAST && only >= until && (events[only].of != folder || events[only].kind == SYNC)) only--;
  static names_held all[4];
  static int depth;
  names_held *held = &all[depth++];
  held->count = 0;
  __real_mkdir(path, 0777);
  for (int i = 0; i < end; i++) {
    const event *one = &events[i];
    if (one->of != folder || (i >= until && !(way == LAST && i == only) && (way != SOME || drawn(2)))) continue;
    if (one->kind == RENAME || one->kind == REMOVE) take_out(held, one->name);
    if (one->kind == RENAME) take_out(held, one->to);
    if (one->kind == MAKE || one->kind == MAKE_FOLDER || one->kind == RENAME) {
      held->object[held->count] = one->object;
      memcpy(held->name[held->count++], one->kind == RENAME ? one->to : one->name, 48);
    }
  }
  for (int k = 0; k < held->count; k++) {
    char inner[600];
    snprintf(inner, sizeof inner, "%s/%.47s", path, held->name[k]);
    if (is_folder[held->object[k]]) put_folder(inner, held->object[k], end, way);
    else put_file(inner, held->object[k], end, way);
  }
  depth--;
}

/* ---- what is found */

/* The number of the last commit up to this one that set the key. */
static long long value_at(uint64_t commits, int key) {
  for (uint64_t n = commits; n; n--)
    if (n % KEYS == (uint64_t)key) return (long long)n;
  return 0;
}

static void look(const char *folder, int end, const char *way) {
  uint64_t answered = 0, lasting = 0;
  int made = 0, said = 0, before = failures;
  for (int i = 0; i < end; i++)
    if (events[i].kind == ANSWER) {
      answered = events[i].number;
      made = events[i].made;
      said = events[i].declared;
      if (events[i].lasts) lasting = answered;
    }
  pdt_database *database = NULL;
  pdt_report report = {.size = sizeof report};
  is("open", PDT_OK, pdt_database_open(folder, &options, &database, &report));
  if (database) {
    bool lasts = options.sync == PDT_SYNC_FULL || (options.sync == PDT_SYNC_NORMAL && !strcmp(way, "all"));
    is("what was opened, or closed, is there", 1, report.commits >= lasting);
    if (lasts) is("what was answered is there", 1, report.commits >= answered);
    is("and one more at most", 1, report.commits <= answered + 1);
    pdt_table *tables[2];
    if (program_run) look_imported(database, report.commits), has_no_run(folder);
    for (int i = 0; i < 2 && !program_run; i++) {
      int code = pdt_table_open(database, names[i], &tables[i]);
      if (i < made) is("a table", PDT_OK, code);
      if (code) continue;
      if (!i && declared_of(tables[0]) != said) is("what is declared", said + 1, declared_of(tables[0]));
      pdt_txn *txn = NULL;
      is("begin", PDT_OK, pdt_begin(tables[i], &txn));
      for (int key = 0; key < KEYS; key++) {
        int64_t name = key, row[2] = {0, -1};
        is("get", PDT_OK, pdt_get(txn, &name, NULL, 0, row, NULL, 0, NULL));
        is("a cell", value_at(report.commits, key), row[1]);
      }
      pdt_abort(txn);
    }
    if (made == 2) step(database, tables, report.commits + 1); /* it goes on */
    is("close", PDT_OK, pdt_database_close(database));
  }
  if (failures != before)
    fprintf(stderr, "after call %d of %d (%s), fault %llu, file %s, answered %llu, found %llu\n", end, count, way,
            (unsigned long long)report.fault, report.file, (unsigned long long)answered, (unsigned long long)report.commits);
}

static void remove_all(const char *path) {
  char words[700];
  snprintf(words, sizeof words, "rm -rf '%s'", path);
  if (system(words)) exit(1);
}

/* Looks at what is left after so many events, in each way. */
static int look_at(const char *left, int end) {
  static const char *const ways[] = {"all", "synced", "some"};
  for (enum left way = ALL; way <= SOME; way++) {
    remove_all(left);
    /* a folder whose name isn't durable yet is made anew */
    if (left_of(PARENT, end, way) || way == ALL) put_folder(left, TOP, end, way);
    look(left, end, ways[way]);
  }
  return SOME + 1;
}

/* Looks at what is left where of the changes of names that weren't synced the last one alone has lasted: after each rename, and after
   each file of the program's that is taken away. */
static int look_at_names(const char *left) {
  int looked = 0;
  for (int end = begins + 1; end <= count && failures < 20; end++) {
    enum kind kind = events[end - 1].kind;
    if (kind != RENAME && !(program_run && kind == REMOVE)) continue;
    remove_all(left);
    put_folder(left, TOP, end, LAST);
    look(left, end, "last");
    looked++;
  }
  return looked;
}

int main(int argc, char **argv) {
  if (argc < 3) return 2;
  char folder[400], left[400];
  snprintf(folder, sizeof folder, "%s/run", argv[1]);
  snprintf(left, sizeof left, "%s/left", argv[1]);
  int every = atoi(argv[2]); /* of how many calls one is looked at */
  if (argc > 3) options.sync = atoi(argv[3]);
  if (argc > 4) seed = (unsigned)atoi(argv[4]);
  program_run = argc > 5 ? argv[5] : NULL;
  run(folder, false);
  int looked = 0;
  for (int end = begins + drawn(every); end <= count && failures < 20; end += 1 + drawn(2 * every - 1)) looked += look_at(left, end);
  looked += look_at_names(left);
  long all = calls;
  for (long at = drawn(2 * every); at < all && failures < 20; at += 1 + drawn(12 * every)) {
    remove_all(folder);
    forget();
    killed_at = at;
    run(folder, drawn(2));
    for (int end = died; end <= count && failures < 20; end += 1 + drawn(end < died + 60 ? 15 : count)) looked += look_at(left, end);
    if (failures) fprintf(stderr, "killed before call %ld of %ld, at event %d\n", at, all, died), at = all;
  }
  printf("%ld calls, %d folders, %d failures\n", all, looked, failures);
  return failures ? 1 : 0;
}
