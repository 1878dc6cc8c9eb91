/* A disk in memory, behind the calls of the system that a database makes. A file is its bytes, as they are read, and how many of them are
   durable; a folder is the changes of its names, and how many of those are. A sync makes durable what was there when it began, and after a
   write or a sync of a file that has failed no later sync of it does. A loss of power leaves of each file its durable bytes, maybe more of
   what was written behind them, and maybe other bytes where the rest was; and each name by itself as it was at some moment since its folder
   was synced. A kill leaves what is read. Linked with --wrap of the calls. */
#ifndef SIMULATED_DISK_H
#define SIMULATED_DISK_H

#include "simulated.h"

#include <dirent.h>
#include <fcntl.h>
#include <stdarg.h>
#include <sys/file.h>
#include <sys/stat.h>

/* ---- files and folders */

enum { NAME = 64, OPENINGS = 64, FIRST_OPENING = 1000 };
typedef struct node node;
typedef struct {
  char name[NAME];
  node *of;    /* null: the name was taken away */
  uint64_t at; /* changes count upwards */
} change;
struct node {
  node *next; /* of all that there are */
  bool is_folder, is_sound, is_reached;
  uint8_t *bytes;
  size_t len, room, durable;
  long writing; /* where the write begins that is under way, or -1 */
  node *above;
  change *changes;
  size_t count, change_room;
  uint64_t synced;  /* changes up to this one are durable */
  uint64_t journal; /* the number of the journal's file that it is */
  int locked_by;
};
typedef struct {
  node *of;
  size_t at; /* where it is read */
} opening;

static node *nodes, *parent;
static uint64_t changes;
static opening openings[OPENINGS];

/* What a control has the disk do: the first, that a loss of power takes nothing away. */
static bool keeps_all;

static node *new_node(node *above) {
  node *one = __real_calloc(1, sizeof *one);
  if (!one) exit(1);
  *one = (node){.next = nodes, .is_sound = true, .writing = -1, .above = above, .is_folder = !above};
  return nodes = one;
}
static void free_node(node *one) {
  __real_free(one->bytes);
  __real_free(one->changes);
  __real_free(one);
}
static node *named(const node *folder, const char *name) {
  for (size_t i = folder->count; i--;)
    if (!strcmp(folder->changes[i].name, name)) return folder->changes[i].of;
  return NULL;
}
static void change_name(node *folder, const char *name, node *of) {
  if (folder->count == folder->change_room) {
    folder->change_room = folder->change_room ? 2 * folder->change_room : 16;
    folder->changes = __real_realloc(folder->changes, folder->change_room * sizeof *folder->changes);
    if (!folder->changes) exit(1);
  }
  change *one = &folder->changes[folder->count++];
  snprintf(one->name, NAME, "%s", name);
  one->of = of;
  one->at = ++changes;
}

/* The names up to a change are durable. Of those the last change of each is kept. */
static void sync_changes(node *folder, uint64_t upto) {
  if (upto > folder->synced) folder->synced = upto;
  size_t kept = 0;
  for (size_t i = 0; i < folder->count; i++) {
    const change *one = &folder->changes[i];
    bool is_past = false;
    for (size_t k = i + 1; k < folder->count && one->at <= folder->synced && !is_past; k++)
      is_past = folder->changes[k].at <= folder->synced && !strcmp(folder->changes[k].name, one->name);
    if (is_past || (one->at <= folder->synced && !one->of)) continue;
    folder->changes[kept++] = *one;
  }
  folder->count = kept;
}

/* ---- what a crash leaves */

static void reach(node *one, bool all) {
  if (one->is_reached) return;
  one->is_reached = true;
  for (size_t i = 0; i < one->count; i++)
    if (one->changes[i].of && (all || named(one, one->changes[i].name) == one->changes[i].of)) reach(one->changes[i].of, all);
}
/* Frees what has no name, also none that a loss of power could bring back. */
static void sweep(bool all) {
  for (node *one = nodes; one; one = one->next) one->is_reached = false;
  reach(parent, all);
  for (node **at = &nodes; *at;) {
    node *one = *at;
    if (one->is_reached) {
      at = &one->next;
    } else {
      *at = one->next;
      free_node(one);
    }
  }
}

/* Each name as it was at some moment: all of them as they are, as they were, or each as it is drawn; or no name has gone. */
static void lose_names(node *folder) {
  int way = below(4);
  for (size_t i = 0; i < folder->count; i++) {
    if (folder->changes[i].at <= folder->synced) continue;
    char name[NAME];
    memcpy(name, folder->changes[i].name, NAME);
    size_t moments = 0, last = 0; /* the changes of this name that aren't durable */
    node *found = NULL, *now = named(folder, name);
    for (size_t k = 0; k < folder->count; k++) {
      if (strcmp(folder->changes[k].name, name)) continue;
      if (folder->changes[k].at <= folder->synced) found = folder->changes[k].of;
      else moments++;
    }
    last = way == 0 ? moments : way == 1 ? 0 : way == 2 ? (size_t)below((int)moments + 1) : moments - !now;
    for (size_t k = 0; k < folder->count && last; k++)
      if (!strcmp(folder->changes[k].name, name) && folder->changes[k].at > folder->synced && last--) found = folder->changes[k].of;
    if (found != now) met(NAME_UNDONE), trace("%s is undone\n", name);
    for (size_t k = folder->count; k-- > i;) /* one change is left, of what is found */
      if (!strcmp(folder->changes[k].name, name)) folder->changes[k].of = found, folder->changes[k].at = folder->synced;
  }
  for (size_t i = 0; i < folder->count; i++)
    if (folder->changes[i].at > folder->synced) folder->changes[i].at = folder->synced;
  sync_changes(folder, folder->synced);
}

/* The durable bytes, maybe more, and maybe others: none, zeros, random ones, or what was written there with a hole before it. */
static void lose_bytes(node *file) {
  size_t rest = file->len - file->durable, kept = one_in(3) ? rest : (size_t)below((int)rest + 1), other = rest - kept;
  if (!rest) return;
  if (one_in(4)) kept = 0, other = rest;
  if (other) met(LOST_BYTES);
  trace("journal-%llu: %zu bytes, %zu durable, %zu more kept\n", U(file->journal), file->len, file->durable, kept);
  size_t begins = file->durable + kept, left = other ? (size_t)below((int)other + 1) : 0;
  switch (below(4)) {
    case 0: left = 0; break;
    case 1:
      if (left) met(GARBAGE);
      for (size_t i = 0; i < left; i++) file->bytes[begins + i] = (uint8_t)bits();
      break;
    case 2: memset(file->bytes + begins, 0, left); break;
    default:
      if (left > 1) met(HOLES);
      memset(file->bytes + begins, 0, left ? 1 + (size_t)below((int)left) : 0);
  }
  file->len = begins + left;
}

static void close_all(void) {
  memset(openings, 0, sizeof openings);
  for (node *one = nodes; one; one = one->next) one->writing = -1, one->locked_by = 0;
}
/* A kill, after which the disk reads as before; or a loss of power, after which all that is left is durable. */
static void crash_disk(bool is_power) {
  close_all();
  if (!is_power) return sweep(true);
  for (node *one = nodes; one && !keeps_all; one = one->next) {
    if (one->is_folder) lose_names(one);
    else lose_bytes(one);
  }
  for (node *one = nodes; one; one = one->next) {
    sync_changes(one, changes);
    one->durable = one->len;
    one->is_sound = true;
  }
  sweep(false);
  for (node *one = nodes; one; one = one->next)
    for (size_t i = 0; i < one->count; i++)
      for (size_t k = 0; k < i; k++)
        if (one->changes[i].of == one->changes[k].of) met(TWO_NAMES);
}
static void new_disk(void) {
  while (nodes) {
    node *one = nodes;
    nodes = one->next;
    free_node(one);
  }
  memset(openings, 0, sizeof openings);
  parent = new_node(NULL);
}

/* ---- which calls fail, and before or amid which one the crash comes */

static int failure_rate; /* one of so many calls fails, or none */
static bool fills_up;    /* the disk has no room from the first failure on */
static bool is_full;
static long failures;                     /* so far */
static long crash_in = -1;                /* after so many calls, or never */
static enum kind crash_where = ALL_KINDS; /* only such calls count, or all */
static bool comes_by_power;               /* the crash that is to come */
static bool is_opening, is_closing;

static bool falls(bool asks_room) {
  if (undrawn || !((is_full && asks_room) || (failure_rate && one_in(failure_rate)))) return false;
  failures++;
  if (asks_room && fills_up && !is_full) is_full = true, met(FULL_DISK);
  return true;
}
/* The error of a call that asks for room. */
static int error_of_room(void) { return is_full || one_in(2) ? ENOSPC : EIO; }
static int failed(enum kind kind, int error) {
  met(kind);
  errno = error;
  return -1;
}
static bool is_cut_off(void) { return !undrawn && failure_rate && one_in(2 * failure_rate); }
static int cut_off(void) { return failed(EINTR_CALL, EINTR); }

enum death { NOT_YET, BEFORE, AMID };
static enum death dies(enum kind where) {
  if (undrawn || crash_in < 0 || (crash_where != ALL_KINDS && where != crash_where) || crash_in--) return NOT_YET;
  return one_in(2) ? BEFORE : AMID;
}
/* The crash comes here: none of the threads goes on. */
static void die(enum kind where) {
  met(where);
  if (is_opening) met(IN_OPENING);
  if (is_closing) met(IN_CLOSE);
  met(comes_by_power ? POWER : KILL);
  has_crashed = true;
  swapcontext(&threads[current].context, &chooser);
}

/* ---- what the journal's steps are to be, which the calls are compared with */

static void step_writes(const node *file, const void *bytes, size_t len);
static void step_wrote(const node *file, size_t len, bool is_bad);
static void step_syncs(const node *file);
static void step_synced(const node *file, bool is_bad);
static void step_makes(uint64_t journal);
static void step_made(uint64_t journal, bool is_bad);
static bool step_syncs_names(void);
static void step_synced_names(bool is_bad);
static void step_removes(uint64_t journal);

/* ---- what a shell or a device does wrong, in a control */

enum plant {
  NOTHING_WRONG,
  SKIPS_SYNCS,
  SYNCS_LATER,
  SYNCS_OTHERS,
  FORGIVES_SYNCS,
  SKIPS_NAMES,
  WRITES_TWICE,
  ANSWERS_EARLY,
  FORGIVES_STEPS,
  MAKES_OTHERS,
  SWAPS_FRAMES,
  PLANTS
};
static enum plant planted;
static node *synced_later;

/* ---- the calls: a thread that makes one may give its turn away, and holds up nobody who commits */

static void enter_call(void) {
  holds_no_other();
  turn();
}

static opening *opened(int file) {
  if (file < FIRST_OPENING || file >= FIRST_OPENING + OPENINGS || !openings[file - FIRST_OPENING].of) fail("a file that is open", 1, 0);
  return &openings[file - FIRST_OPENING];
}
static int open_node(node *of) {
  for (int i = 0; i < OPENINGS; i++) {
    if (openings[i].of) continue;
    openings[i] = (opening){of, 0};
    return FIRST_OPENING + i;
  }
  return errno = EMFILE, -1;
}
static uint64_t journal_of(const char *name) {
  unsigned long long seq = 0;
  char end;
  return sscanf(name, "journal-%llu%c", &seq, &end) == 1 ? seq : 0;
}
/* The folder of a path, and the last name of it. */
static node *folder_of(int dir, const char *path, const char **name) {
  node *folder = dir == AT_FDCWD ? parent : opened(dir)->of;
  const char *slash = strchr(path, '/');
  *name = slash ? slash + 1 : path;
  if (!slash) return folder;
  char first[NAME];
  snprintf(first, sizeof first, "%.*s", (int)(slash - path), path);
  return named(folder, first);
}
static node *at_path(int dir, const char *path) {
  const char *name;
  node *folder = folder_of(dir, path, &name);
  if (!folder || !strcmp(name, ".")) return folder;
  return !strcmp(name, "..") ? folder->above : named(folder, name);
}

static int make_file(node *folder, const char *name, int how, enum death death) {
  uint64_t journal = journal_of(name);
  step_makes(journal);
  bool is_bad = falls(true), is_there = !is_bad || one_in(4);
  if (is_bad && is_there) met(DONE_ALL_THE_SAME);
  if (is_there && (death != AMID || one_in(2))) {
    node *one = new_node(folder);
    one->is_folder = false;
    one->journal = journal;
    change_name(folder, name, one);
  }
  if (death == AMID) die(IN_NAMES);
  step_made(journal, is_bad);
  (void)how;
  return is_bad ? failed(BAD_CREATE, error_of_room()) : open_node(named(folder, name));
}
int __wrap_openat(int dir, const char *path, int how, ...) {
  enter_call();
  enum kind where = how & O_CREAT ? IN_NAMES : IN_OTHER;
  enum death death = dies(where);
  if (death == BEFORE) die(where);
  if (is_cut_off()) return cut_off();
  const char *name;
  node *folder = folder_of(dir, path, &name), *of = at_path(dir, path);
  if (!folder || (!of && !(how & O_CREAT))) return errno = ENOENT, -1;
  if (of && how & O_CREAT && how & O_EXCL) return errno = EEXIST, -1;
  if (!of) return make_file(folder, name, how, death);
  if (death == AMID) die(IN_OTHER);
  if (falls(false)) return failed(BAD_OPEN, EIO);
  if (!of->is_folder && how & O_DIRECTORY) return errno = ENOTDIR, -1;
  return open_node(of);
}
int __wrap_close(int file) {
  enter_call();
  opening *one = opened(file);
  if (one->of->locked_by == file) one->of->locked_by = 0;
  one->of = NULL;
  return falls(false) ? failed(BAD_CLOSE, EIO) : 0;
}
int __wrap_flock(int file, int how) {
  node *of = opened(file)->of;
  if (how & LOCK_UN && of->locked_by == file) of->locked_by = 0;
  if (how & LOCK_UN) return 0;
  if (is_cut_off()) return cut_off();
  if (of->locked_by && of->locked_by != file) return errno = EWOULDBLOCK, -1;
  of->locked_by = file;
  return 0;
}

static void append(node *file, const void *bytes, size_t len) {
  if (file->room - file->len < len) {
    file->room = 2 * (file->len + len);
    file->bytes = __real_realloc(file->bytes, file->room);
    if (!file->bytes) exit(1);
  }
  memcpy(file->bytes + file->len, bytes, len);
  file->len += len;
}
ssize_t __wrap_write(int number, const void *bytes, size_t len) {
  node *file = opened(number)->of;
  enter_call();
  enum death death = dies(IN_WRITE);
  if (death == BEFORE) die(IN_WRITE);
  if (is_cut_off()) return cut_off();
  step_writes(file, bytes, len);
  bool is_bad = falls(true), is_short = !is_bad && failure_rate && !undrawn && len > 1 && one_in(2 * failure_rate);
  size_t taken = is_bad || death == AMID ? (size_t)below((int)len + 1) : is_short ? 1 + (size_t)below((int)len - 1) : len;
  long before = (long)file->len;
  append(file, bytes, taken);
  if (planted == WRITES_TWICE && file->journal) append(file, bytes, taken);
  if (death == AMID) die(IN_WRITE);
  file->writing = before;
  turn(); /* others write beside it, and sync what was there before */
  file->writing = -1;
  step_wrote(file, taken, is_bad);
  if (file->journal)
    trace("thread %d writes %zu of %zu bytes at %ld of journal-%llu%s\n", current, taken, len, before, U(file->journal),
          is_bad ? ", and fails" : "");
  if (is_short) met(SHORT_WRITE);
  if (!is_bad) return (ssize_t)taken;
  if (taken) file->is_sound = false; /* one that takes nothing leaves the file as it was: an opening can't see that it was there */
  return failed(BAD_WRITE, error_of_room());
}

static node *another_journal(const node *than) {
  for (node *one = nodes; one; one = one->next)
    if (one->journal && one != than) return one;
  return NULL;
}
/* Makes durable what was there when a sync began. */
static void make_durable(node *file, size_t upto) {
  if (!file->is_sound) return;
  if (upto > file->durable) file->durable = upto;
}
static void sync_planted(node *file, size_t upto) {
  if (synced_later) make_durable(synced_later, synced_later->len);
  synced_later = NULL;
  if (!file->journal) return make_durable(file, upto);
  node *other = another_journal(file);
  switch (planted) {
    case SKIPS_SYNCS: return;
    case SYNCS_LATER: synced_later = file; return;
    case SYNCS_OTHERS: return other ? make_durable(other, other->len) : make_durable(file, upto);
    default: make_durable(file, upto);
  }
}
int __wrap_fdatasync(int number) {
  node *file = opened(number)->of;
  enter_call();
  enum death death = dies(IN_SYNC);
  if (death == BEFORE) die(IN_SYNC);
  if (is_cut_off()) return cut_off();
  step_syncs(file);
  size_t upto = file->writing < 0 ? file->len : (size_t)file->writing;
  turn();
  bool is_bad = falls(false);
  if (is_bad) file->is_sound = false;
  else if (death != AMID || one_in(2)) sync_planted(file, upto);
  if (death == AMID) die(IN_SYNC);
  if (file->journal)
    trace("thread %d syncs journal-%llu: %zu durable, sound %d%s\n", current, U(file->journal), file->durable, file->is_sound,
          is_bad ? ", and fails" : "");
  bool is_told = is_bad && planted != FORGIVES_SYNCS;
  step_synced(file, is_told);
  return is_told ? failed(BAD_SYNC, EIO) : 0;
}
int __wrap_fsync(int number) {
  node *folder = opened(number)->of;
  enter_call();
  enum death death = dies(IN_SYNC_NAMES);
  if (death == BEFORE) die(IN_SYNC_NAMES);
  if (is_cut_off()) return cut_off();
  uint64_t upto = changes;
  bool is_step = step_syncs_names();
  turn();
  bool is_bad = falls(false);
  if (!is_bad && (death != AMID || one_in(2)) && !(is_step && planted == SKIPS_NAMES)) sync_changes(folder, upto);
  if (death == AMID) die(IN_SYNC_NAMES);
  step_synced_names(is_bad);
  return is_bad ? failed(BAD_SYNC_NAMES, EIO) : 0;
}

/* Whether a change of names is done, and whether it is told to have failed. */
static bool changes_names(enum death death, bool asks_room, bool *is_bad) {
  *is_bad = falls(asks_room);
  bool is_done = *is_bad ? one_in(4) : death != AMID || one_in(2);
  if (*is_bad && is_done) met(DONE_ALL_THE_SAME);
  return is_done;
}
int __wrap_renameat(int dir, const char *from, int to_dir, const char *to) {
  enter_call();
  enum death death = dies(IN_NAMES);
  if (death == BEFORE) die(IN_NAMES);
  node *folder = opened(dir)->of, *of = named(folder, from);
  is("a rename is in one folder", dir, to_dir);
  if (!of) return errno = ENOENT, -1;
  bool is_bad;
  trace("%s is renamed %s\n", from, to);
  if (changes_names(death, true, &is_bad)) {
    of->journal = journal_of(to);
    change_name(folder, to, of);
    change_name(folder, from, NULL);
  }
  if (death == AMID) die(IN_NAMES);
  return is_bad ? failed(BAD_RENAME, error_of_room()) : 0;
}
static int take_away(node *folder, const char *name, bool is_folder, enum death death) {
  node *of = folder ? named(folder, name) : NULL;
  if (!of) return errno = ENOENT, -1;
  if (of->is_folder != is_folder) return errno = is_folder ? ENOTDIR : EISDIR, -1;
  for (size_t i = 0; i < of->count; i++)
    if (named(of, of->changes[i].name)) return errno = ENOTEMPTY, -1;
  step_removes(journal_of(name));
  bool is_bad;
  if (changes_names(death, false, &is_bad)) change_name(folder, name, NULL);
  if (death == AMID) die(IN_NAMES);
  return is_bad ? failed(BAD_UNLINK, EIO) : 0;
}
int __wrap_unlinkat(int dir, const char *path, int how) {
  enter_call();
  enum death death = dies(IN_NAMES);
  if (death == BEFORE) die(IN_NAMES);
  const char *name;
  node *folder = folder_of(dir, path, &name);
  return take_away(folder, name, how & AT_REMOVEDIR, death);
}
int __wrap_rmdir(const char *path) { return take_away(parent, path, true, NOT_YET); }
static int make_folder(node *folder, const char *name, enum death death) {
  if (named(folder, name)) return errno = EEXIST, -1;
  bool is_bad;
  if (changes_names(death, true, &is_bad)) {
    node *one = new_node(folder);
    one->is_folder = true;
    change_name(folder, name, one);
  }
  if (death == AMID) die(IN_NAMES);
  return is_bad ? failed(BAD_MKDIR, error_of_room()) : 0;
}
int __wrap_mkdirat(int dir, const char *name, mode_t mode) {
  (void)mode;
  enter_call();
  enum death death = dies(IN_NAMES);
  if (death == BEFORE) die(IN_NAMES);
  return make_folder(opened(dir)->of, name, death);
}
int __wrap_mkdir(const char *name, mode_t mode) {
  (void)mode;
  enum death death = dies(IN_NAMES);
  if (death == BEFORE) die(IN_NAMES);
  return make_folder(parent, name, death);
}

/* ---- reading */

ssize_t __wrap_read(int number, void *into, size_t len) {
  opening *one = opened(number);
  enter_call();
  if (dies(IN_OTHER)) die(IN_OTHER);
  if (is_cut_off()) return cut_off();
  if (falls(false)) return failed(BAD_READ, EIO);
  size_t rest = one->of->len - one->at, got = len < rest ? len : rest;
  if (got > 1 && failure_rate && !undrawn && one_in(failure_rate)) got = 1 + (size_t)below((int)got - 1), met(SHORT_READ);
  memcpy(into, one->of->bytes + one->at, got);
  one->at += got;
  return (ssize_t)got;
}
static int look_at(const node *of, struct stat *about) {
  if (falls(false)) return failed(BAD_STAT, EIO);
  memset(about, 0, sizeof *about);
  about->st_mode = of->is_folder ? S_IFDIR | 0777 : S_IFREG | 0666;
  about->st_size = (off_t)of->len;
  return 0;
}
int __wrap_fstat(int file, struct stat *about) { return look_at(opened(file)->of, about); }
int __wrap_fstatat(int dir, const char *path, struct stat *about, int how) {
  (void)how;
  node *of = at_path(dir, path);
  return of ? look_at(of, about) : (errno = ENOENT, -1);
}

/* The names of a folder as they are when it is opened, in no order. */
typedef struct {
  int file;
  size_t count, at;
  struct dirent name;
  char names[][NAME];
} listing;
DIR *__wrap_fdopendir(int file) {
  node *folder = opened(file)->of;
  if (falls(false)) return failed(BAD_LIST, EIO), NULL;
  listing *list = malloc(sizeof *list + folder->count * NAME);
  if (!list) return errno = ENOMEM, NULL;
  list->file = file;
  list->count = list->at = 0;
  for (size_t i = 0; i < folder->count; i++) {
    const char *name = folder->changes[i].name;
    bool is_entered = !named(folder, name);
    for (size_t k = 0; k < list->count && !is_entered; k++) is_entered = !strcmp(list->names[k], name);
    if (is_entered) continue;
    size_t at = (size_t)below((int)++list->count);
    memcpy(list->names[list->count - 1], list->names[at], NAME);
    memcpy(list->names[at], name, NAME);
  }
  return (DIR *)list;
}
struct dirent *__wrap_readdir(DIR *names) {
  listing *list = (listing *)names;
  if (falls(false)) return failed(BAD_LIST, EIO), NULL;
  if (list->at == list->count) return NULL;
  memcpy(list->name.d_name, list->names[list->at++], NAME);
  return &list->name;
}
int __wrap_closedir(DIR *names) {
  int file = ((listing *)names)->file;
  free(names);
  return __wrap_close(file);
}

#endif
