/* Draws calls of pdt.h from a seed and compares each reply with a model: a table of few rows that each transaction copies. The
   names of the calls come from pdt.h by way of calls.h, and one that was never drawn fails the run.
   drawn FOLDER CALLS SEED: the folder is empty, and is left so. */
#define _POSIX_C_SOURCE 200809L
#include <pdt.h>
#include <stdio.h>
#include <stdlib.h>
#include <string.h>
#include <sys/stat.h>
#include <unistd.h>

static const char *const names[] = {
#include "calls.h"
};
enum { CALLS = sizeof names / sizeof *names, KEYS = 24, CLIENTS = 4, PINS = 3, MARKS = 3, COMMITS = 300, TEXT = 12, WIDTH = 4 };
enum { FILES = 1 << 16 }; /* bytes of a column of an image */
static long replies[CALLS][PDT_TOO_LONG + 1], counts[CALLS], made;
static int last; /* which call was made last */
static uint64_t seed, first_seed;
static const char *room;

static void fail(const char *what, long long wanted, long long found) {
  fprintf(stderr, "seed %llu, call %ld: %s: wanted %lld, found %lld\n", (unsigned long long)first_seed, made, what, wanted, found);
  exit(1);
}
static void is(const char *what, long long wanted, long long found) {
  if (wanted != found) fail(what, wanted, found);
}
static void drew(const char *name) {
  made++;
  for (int i = 0; i < CALLS; i++)
    if (!strcmp(names[i], name)) {
      counts[last = i]++;
      return;
    }
  fail(name, 1, 0);
}
/* The code of the call that was made last. */
static void answers(const char *what, int wanted, int found) {
  is(what, wanted, found);
  if (found >= 0 && found <= PDT_TOO_LONG) replies[last][found]++;
}
/* Makes a call and counts it. */
#define D(name, ...) (drew(#name), name(__VA_ARGS__))

static uint64_t bits(void) { /* SplitMix64 */
  uint64_t x = seed += 0x9e3779b97f4a7c15u;
  x = (x ^ (x >> 30)) * 0xbf58476d1ce4e5b9u;
  x = (x ^ (x >> 27)) * 0x94d049bb133111ebu;
  return x ^ (x >> 31);
}
static int below(int end) { return (int)(bits() % (uint64_t)end); }

/* ---- the model: columns are id, name, ok and qty; a row's key is its index */

typedef struct {
  bool there, ok;
  int len;
  char name[TEXT];
  int64_t qty;
} row;
enum effect { NONE, INSERT, DELETE, CHANGE, REPLACE };
typedef struct {
  row rows[KEYS];
  unsigned char effects[KEYS], columns[KEYS]; /* of a change: a bit for each column */
} view;
typedef struct {
  pdt_txn *txn; /* null: none is open */
  int begun;
  view now, marked[MARKS];
  size_t marks;
} client;

static pdt_table *table;
static client clients[CLIENTS];
static view newest, commits[COMMITS + 1]; /* the commits' effects; of newest the rows alone */
static view tables[COMMITS + 1];          /* the rows alone of each number */
typedef struct {
  pdt_pinned *pin; /* null: none is kept */
  int number;
} kept_table;
static kept_table pins[PINS];
static pdt_counts counted; /* what the table counts of what has been done */
static int commit_count, cut_at, recent, row_limit;
static bool by_row;
static pdt_open_checkpoint *begun_checkpoint;
static view begun_rows; /* of the checkpoint that has begun */
static bool is_superseded, is_written, is_installed;

static int rows_of(const view *v) {
  int count = 0;
  for (int key = 0; key < KEYS; key++) count += v->rows[key].there;
  return count;
}
static int key_at(const view *v, int position) {
  for (int key = 0; key < KEYS; key++)
    if (v->rows[key].there && position-- == 0) return key;
  return -1;
}
static bool clash(const view *a, const view *b, int key) {
  int one = a->effects[key], two = b->effects[key];
  if (!one || !two) return false;
  if (one == INSERT || two == INSERT) return one == two;
  if (one == CHANGE && two == CHANGE) return by_row || (a->columns[key] & b->columns[key]);
  return true;
}
/* The newest table with what a transaction did. */
static view table_with(const view *v) {
  view due = newest;
  for (int key = 0; key < KEYS; key++) {
    row *to = &due.rows[key];
    const row *from = &v->rows[key];
    if (v->effects[key] == CHANGE) {
      if (v->columns[key] & 2) to->len = from->len, memcpy(to->name, from->name, TEXT);
      if (v->columns[key] & 4) to->ok = from->ok;
      if (v->columns[key] & 8) to->qty = from->qty;
    } else if (v->effects[key]) {
      *to = *from;
    }
  }
  return due;
}
static int entries_of(const view *v) {
  int count = 0;
  for (int key = 0; key < KEYS; key++) {
    if (v->effects[key] == CHANGE) count += (v->columns[key] >> 1 & 1) + (v->columns[key] >> 2 & 1) + (v->columns[key] >> 3 & 1);
    else count += v->effects[key] == REPLACE ? 2 : v->effects[key] != NONE;
  }
  return count;
}
static bool is_idle(const client *c) { return !entries_of(&c->now); }
static int due(const client *c) {
  if (is_idle(c)) return PDT_OK;
  if (c->begun < cut_at || commit_count - c->begun > recent) return PDT_TOO_OLD;
  for (int i = c->begun; i < commit_count; i++)
    for (int key = 0; key < KEYS; key++)
      if (clash(&commits[i], &c->now, key)) return PDT_CONFLICT;
  view due = table_with(&c->now);
  return rows_of(&due) > row_limit ? PDT_FULL : PDT_OK;
}
static void install(const client *c) {
  newest = table_with(&c->now);
  commits[commit_count++] = c->now;
  tables[commit_count] = newest;
}
/* What a commit that is decided counts as. */
static void count_of(int code) {
  if (code == PDT_CONFLICT) counted.conflicts++;
  if (code == PDT_TOO_OLD) counted.too_old++;
  if (code == PDT_FULL) counted.full++;
}

/* ---- rows that are read */

static void row_is(const char *what, const row *wanted, int key, const int64_t *numbers, const char *text, size_t bytes) {
  is(what, key, numbers[0]);
  is(what, wanted->len, numbers[1]);
  is(what, wanted->len, (long long)bytes);
  is(what, wanted->ok, numbers[2]);
  is(what, wanted->qty, numbers[3]);
  is(what, 0, memcmp(wanted->name, text, (size_t)wanted->len));
}
static int64_t number_of(const row *r, int key, int column) {
  return column == 0 ? key : column == 1 ? r->len : column == 2 ? r->ok : r->qty;
}

static void read_row(client *c) {
  int key = below(KEYS), position = below(KEYS + 2), rows = rows_of(&c->now);
  int64_t numbers[WIDTH];
  char text[TEXT];
  size_t needed = 0, space = (size_t)below(TEXT + 1);
  const row *wanted = &c->now.rows[key];
  bool is_small = wanted->there && (size_t)wanted->len > space;
  int code = D(pdt_get, c->txn, (int64_t[]){key}, NULL, 0, numbers, text, space, &needed);
  answers("get", !wanted->there ? PDT_MISSING : is_small ? PDT_TOO_SMALL : PDT_OK, code);
  if (is_small) is("needed", wanted->len, (long long)needed);
  if (code == PDT_OK) row_is("get", wanted, key, numbers, text, needed);
  code = D(pdt_row_at, c->txn, (uint64_t)position, numbers, text, TEXT, &needed);
  answers("row at", position < rows ? PDT_OK : PDT_MISSING, code);
  if (!code) key = key_at(&c->now, position), row_is("row at", &c->now.rows[key], key, numbers, text, needed);
}
static void read_rank(client *c) {
  int key = below(KEYS), wanted = 0;
  uint64_t position = 0, rows = 0;
  bool there = false;
  for (int other = 0; other < key; other++) wanted += c->now.rows[other].there;
  answers("rank", PDT_OK, D(pdt_rank, c->txn, (int64_t[]){key}, NULL, 0, &position, &there));
  is("below", wanted, (long long)position);
  is("there", c->now.rows[key].there, there);
  answers("rows", PDT_OK, D(pdt_rows, c->txn, &rows));
  is("rows", rows_of(&c->now), (long long)rows);
}
/* Each column, by each call that hands out one. */
static void read_column(client *c) {
  int column = below(WIDTH), from = below(KEYS + 2), rows = rows_of(&c->now), left = from < rows ? rows - from : 0;
  size_t room_for = (size_t)below(KEYS + 2), count = room_for, bytes = 0, end = 0;
  int wanted = left < (int)room_for ? left : (int)room_for;
  int64_t numbers[KEYS + 2];
  char text[KEYS * TEXT];
  answers("cells", PDT_OK, D(pdt_cells, c->txn, (size_t)column, (uint64_t)from, numbers, &count, text, sizeof text, &bytes));
  is("how many cells", wanted, (long long)count);
  for (int i = 0; i < wanted; i++) {
    int key = key_at(&c->now, from + i);
    const row *r = &c->now.rows[key];
    is("a cell", number_of(r, key, column), numbers[i]);
    if (column == 1) is("its text", 0, memcmp(r->name, text + end, (size_t)r->len)), end += (size_t)r->len;
  }
  is("bytes", (long long)end, (long long)bytes);
  uint8_t booleans[KEYS + 2];
  count = room_for;
  answers("bools", PDT_OK, D(pdt_bools, c->txn, (size_t)column, (uint64_t)from, booleans, &count));
  is("how many booleans", column == 2 ? wanted : 0, (long long)count);
  for (int i = 0; i < (int)count; i++) is("a boolean", c->now.rows[key_at(&c->now, from + i)].ok, booleans[i]);
  const char *texts[KEYS + 2];
  count = room_for;
  answers("texts", PDT_OK, D(pdt_texts, c->txn, (size_t)column, (uint64_t)from, texts, numbers, &count));
  is("how many texts", column == 1 ? wanted : 0, (long long)count);
  for (int i = 0; i < (int)count; i++) {
    const row *r = &c->now.rows[key_at(&c->now, from + i)];
    is("a text", r->len, numbers[i]);
    is("its bytes", 0, memcmp(r->name, texts[i], (size_t)r->len));
  }
}
static void read_numbers(client *c) {
  int column = below(WIDTH), from = below(KEYS + 2), to = from + below(KEYS), rows = rows_of(&c->now);
  int left = from < rows ? rows - from : 0, end = to < rows ? to : rows;
  bool is_int = column == 0 || column == 3;
  int64_t numbers[KEYS + 2];
  pdt_int_span spans[KEYS];
  size_t count = KEYS, at = 0;
  uint64_t in_them = 0;
  answers("ints", PDT_OK, D(pdt_ints, c->txn, (size_t)column, (uint64_t)from, numbers, &count));
  is("how many ints", is_int ? left : 0, (long long)count);
  for (int i = 0; i < (int)count; i++) {
    int key = key_at(&c->now, from + i);
    is("an int", number_of(&c->now.rows[key], key, column), numbers[i]);
  }
  count = KEYS;
  answers("pieces", PDT_OK, D(pdt_int_spans, c->txn, (size_t)column, (uint64_t)from, (uint64_t)to, spans, &count, &in_them));
  is("rows of pieces", is_int && end > from ? end - from : 0, (long long)in_them);
  for (size_t i = 0; i < count; i++)
    for (uint64_t k = 0; k < spans[i].count; k++, at++) {
      int key = key_at(&c->now, from + (int)at);
      is("a number of a piece", number_of(&c->now.rows[key], key, column), spans[i].at ? spans[i].at[k] : spans[i].number);
    }
  is("all of them", (long long)in_them, (long long)at);
}

/* What the rows between two positions are made of. The model has no stable table: it knows which rows a client has changed. */
static void read_row_runs(client *c) {
  int from = below(KEYS + 2), to = from + below(KEYS), rows = rows_of(&c->now), at = from;
  int end = to < rows ? to : rows;
  pdt_row_run parts[KEYS];
  size_t count = KEYS;
  answers("row runs", PDT_OK, D(pdt_row_runs, c->txn, (uint64_t)from, (uint64_t)to, parts, &count));
  for (size_t i = 0; i < count; i++) {
    int key = key_at(&c->now, at);
    uint8_t changed[WIDTH];
    is("one after the other", at, (long long)parts[i].position);
    answers("changed", PDT_OK, D(pdt_changed, c->txn, (uint64_t)at, changed, WIDTH));
    is("an inserted row is its own", parts[i].source == PDT_INSERTED, changed[0]);
    for (int column = 1; column < WIDTH; column++) {
      if (parts[i].source == PDT_INSERTED) is("in each column", 1, changed[column]);
      if (parts[i].source == PDT_STABLE) is("a stable row has none", 0, changed[column]);
      if (c->now.effects[key] == CHANGE && c->now.columns[key] >> column & 1) is("a change of its own", 1, changed[column]);
    }
    is("one row that isn't stable", 1, parts[i].source == PDT_STABLE ? 1 : (long long)parts[i].rows);
    at += (int)parts[i].rows;
  }
  is("all rows", end > from ? end : from, at);
  answers("past the end", PDT_MISSING, D(pdt_changed, c->txn, (uint64_t)rows, NULL, 0));
}

/* A table is the table of the model, whichever way it came. */
static void table_is(const char *what, pdt_table *other, const view *due) {
  pdt_txn *txn = NULL;
  uint64_t rows = 0;
  answers(what, PDT_OK, D(pdt_begin, other, &txn));
  if (other == table) counted.begins++;
  answers(what, PDT_OK, D(pdt_rows, txn, &rows));
  is(what, rows_of(due), (long long)rows);
  for (int at = 0; at < (int)rows; at++) {
    int64_t numbers[WIDTH];
    char text[TEXT];
    size_t needed = 0;
    int key = key_at(due, at);
    answers(what, PDT_OK, D(pdt_row_at, txn, (uint64_t)at, numbers, text, sizeof text, &needed));
    row_is(what, &due->rows[key], key, numbers, text, needed);
  }
  D(pdt_abort, txn);
}

/* ---- writes */

/* The sentence of the last call, which names a key. */
static void sentence_is(pdt_code code, const char *form, int key) {
  char wanted[64];
  snprintf(wanted, sizeof wanted, form, key);
  is(wanted, 0, strcmp(wanted, D(pdt_errmsg, code)));
}

static row drawn_row(void) {
  row r = {.there = true, .ok = below(2), .len = below(TEXT), .qty = below(3) ? below(5) : (int64_t)bits()};
  for (int i = 0; i < r.len; i++) r.name[i] = (char)('a' + below(26));
  return r;
}
static void insert(client *c) {
  int key = below(KEYS);
  row r = drawn_row(), *old = &c->now.rows[key];
  int wanted = old->there ? PDT_DUPLICATE : rows_of(&c->now) >= row_limit ? PDT_FULL : PDT_OK;
  answers("insert", wanted, D(pdt_insert, c->txn, (int64_t[]){key, r.len, r.ok, r.qty}, r.name, (size_t)r.len));
  if (wanted == PDT_DUPLICATE) sentence_is(PDT_DUPLICATE, "a row with the key id=%d exists", key);
  if (wanted) return;
  *old = r;
  c->now.effects[key] = c->now.effects[key] == DELETE ? REPLACE : INSERT;
}
static void delete (client *c) {
  int key = below(KEYS);
  bool there = c->now.rows[key].there;
  answers("delete", there ? PDT_OK : PDT_MISSING, D(pdt_delete, c->txn, (int64_t[]){key}, NULL, 0));
  if (!there) return sentence_is(PDT_MISSING, "no row has the key id=%d", key);
  memset(&c->now.rows[key], 0, sizeof(row));
  c->now.effects[key] = c->now.effects[key] == INSERT ? NONE : DELETE;
  c->now.columns[key] = 0;
}
static void set(client *c) {
  int key = below(KEYS), column = below(WIDTH + 1);
  row r = drawn_row(), *old = &c->now.rows[key];
  bool fits = column > 0 && column < WIDTH;
  int64_t number = column < WIDTH ? number_of(&r, key, column) : 0;
  int wanted = !fits ? PDT_TYPE_MISMATCH : old->there ? PDT_OK : PDT_MISSING;
  answers("set", wanted, D(pdt_set, c->txn, (int64_t[]){key}, NULL, 0, (size_t)column, number, column == 1 ? r.name : NULL));
  if (wanted == PDT_MISSING) sentence_is(PDT_MISSING, "no row has the key id=%d", key);
  if (wanted) return;
  if (column == 1) old->len = r.len, memcpy(old->name, r.name, TEXT);
  if (column == 2) old->ok = r.ok;
  if (column == 3) old->qty = r.qty;
  if (c->now.effects[key] == NONE) c->now.effects[key] = CHANGE;
  if (c->now.effects[key] == CHANGE) c->now.columns[key] |= (unsigned char)(1 << column);
}
static void mark(client *c) {
  size_t level = (size_t)below(MARKS), found = 0;
  switch (below(3)) {
    case 0:
      if (c->marks == MARKS) return;
      answers("mark", PDT_OK, D(pdt_savepoint, c->txn, &found));
      is("its level", (long long)c->marks, (long long)found);
      c->marked[c->marks++] = c->now;
      return;
    case 1:
      answers("back", level < c->marks ? PDT_OK : PDT_MISSING, D(pdt_rollback_to, c->txn, level));
      if (level < c->marks) c->now = c->marked[level], c->marks = level + 1;
      return;
    default:
      answers("release", level < c->marks ? PDT_OK : PDT_MISSING, D(pdt_release, c->txn, level));
      if (level < c->marks) c->marks = level;
  }
}

/* ---- ends */

static void commit(client *c) {
  int wanted = due(c);
  uint64_t number = 0;
  bool idle = is_idle(c);
  if (wanted == PDT_OK && !idle) install(c);
  count_of(wanted);
  answers("commit", wanted, D(pdt_commit, c->txn, &number));
  is("its number", idle ? c->begun : commit_count, (long long)number);
  c->txn = NULL;
}
/* What this thread can't do while it has a commit prepared, and what it can. */
static void beside(client *c) {
  pdt_txn *txn;
  pdt_layer *read, *write;
  pdt_open_checkpoint *other;
  pdt_pinned *pin;
  uint64_t number = 0;
  answers("a write of what is prepared", PDT_MISUSE, D(pdt_set, c->txn, (int64_t[]){0}, NULL, 0, 3, 1, NULL));
  answers("a second prepare", PDT_MISUSE, D(pdt_prepare, c->txn, &number));
  if (is_idle(c)) return; /* no lock is kept */
  answers("a fold", PDT_MISUSE, D(pdt_fold, table));
  answers("a trim", PDT_MISUSE, D(pdt_trim, table));
  answers("a close", PDT_MISUSE, D(pdt_close, table));
  answers("layers", PDT_MISUSE, D(pdt_layers, table, &read, &write));
  answers("changes", PDT_MISUSE, D(pdt_changes, table, 1, &read));
  answers("a checkpoint", PDT_MISUSE, D(pdt_checkpoint, table, room));
  answers("a checkpoint's begin", PDT_MISUSE, D(pdt_checkpoint_begin, table, NULL, &other));
  table_is("the table before", table, &newest);
  answers("a pin", PDT_OK, D(pdt_pin, table, &number, &pin));
  is("its number", commit_count, (long long)number);
  answers("a begin at it", PDT_OK, D(pdt_begin_at, pin, &txn));
  counted.begins++;
  D(pdt_unpin, pin);
  D(pdt_abort, txn);
}
static void prepare(client *c) {
  int wanted = due(c);
  bool idle = is_idle(c);
  uint64_t number = 0;
  answers("prepare", wanted, D(pdt_prepare, c->txn, &number));
  is("its number", idle ? c->begun : commit_count + (wanted == PDT_OK), (long long)number);
  count_of(wanted);
  if (wanted) {
    c->txn = NULL;
    return;
  }
  if (below(2)) beside(c);
  if (below(2)) read_row(c);
  switch (below(4)) {
    case 0: answers("give up", PDT_OK, D(pdt_give_up, c->txn)); return;
    case 1: D(pdt_abort, c->txn); break;
    default:
      if (!idle) install(c);
      answers("install", PDT_OK, D(pdt_install, c->txn));
  }
  c->txn = NULL;
}

/* ---- layers: an entry of the upper one is seen at its RID in the table above it */

static void layer_is(const char *what, pdt_layer *layer, size_t size, const view *above) {
  uint64_t sid = 0;
  is(what, (long long)size, (long long)D(pdt_layer_size, layer));
  for (size_t i = 0; i < size; i++) {
    pdt_entry entry;
    int64_t numbers[WIDTH];
    char text[TEXT];
    answers(what, PDT_OK, D(pdt_entry_at, layer, i, &entry, numbers, text, sizeof text));
    is("SIDs ascend", 1, entry.sid >= sid);
    is("its kind", 1, entry.kind >= PDT_INSERT && entry.kind <= PDT_MODIFY);
    sid = entry.sid;
    if (!above || entry.kind == PDT_DELETE) continue;
    int key = key_at(above, (int)entry.rid);
    const row *r = &above->rows[key];
    if (entry.kind == PDT_INSERT) row_is(what, r, key, numbers, text, entry.bytes);
    else is(what, number_of(r, key, (int)entry.column), numbers[0]);
  }
  answers("past the end", PDT_MISSING, D(pdt_entry_at, layer, size, &(pdt_entry){0}, (int64_t[WIDTH]){0}, NULL, 0));
  D(pdt_layer_close, layer);
}
static void layers(client *c) {
  pdt_layer *read, *write, *own;
  pdt_sizes sizes;
  answers("size", PDT_OK, D(pdt_size, table, &sizes));
  int open = 0;
  for (int i = 0; i < CLIENTS; i++) open += clients[i].txn != NULL;
  is("commits", commit_count, (long long)sizes.commits);
  is("open transactions", open, (long long)sizes.open_transactions);
  answers("layers", PDT_OK, D(pdt_layers, table, &read, &write));
  layer_is("the Read-PDT", read, sizes.read_entries, sizes.write_entries ? NULL : &newest);
  layer_is("the Write-PDT", write, sizes.write_entries, &newest);
  int from = commit_count - cut_at < recent ? cut_at : commit_count - recent, number = below(commit_count + 3);
  bool is_kept = number > from && number <= commit_count;
  pdt_layer *changes;
  answers("changes", is_kept ? PDT_OK : PDT_MISSING, D(pdt_changes, table, (uint64_t)number, &changes));
  is("null where they aren't kept", is_kept, changes != NULL);
  if (is_kept) layer_is("the changes of a commit", changes, (size_t)entries_of(&commits[number - 1]), &tables[number]);
  if (!c->txn) return;
  answers("own layer", PDT_OK, D(pdt_own_layer, c->txn, &own));
  layer_is("its own", own, (size_t)entries_of(&c->now), &c->now);
}

/* ---- what is counted, and waits that end at once */

static void counts_are(void) {
  pdt_counts found = {.size = sizeof found};
  int from = commit_count - cut_at < recent ? cut_at : commit_count - recent, entries = 0, pinned = 0, oldest = 0;
  for (int i = from; i < commit_count; i++) entries += entries_of(&commits[i]);
  for (int i = 0; i < PINS; i++)
    if (pins[i].pin && (!pinned++ || pins[i].number < oldest)) oldest = pins[i].number;
  answers("counts", PDT_OK, D(pdt_count, table, &found));
  is("begins", (long long)counted.begins, (long long)found.begins);
  is("commits", commit_count, (long long)found.commits);
  is("conflicts", (long long)counted.conflicts, (long long)found.conflicts);
  is("too old", (long long)counted.too_old, (long long)found.too_old);
  is("full", (long long)counted.full, (long long)found.full);
  is("folds", (long long)counted.folds, (long long)found.folds);
  is("checkpoints", (long long)counted.checkpoints, (long long)found.checkpoints);
  is("superseded", (long long)counted.superseded, (long long)found.superseded);
  is("pins", pinned, (long long)found.pins);
  is("the oldest", oldest, (long long)found.oldest_pin);
  is("kept", commit_count - from, (long long)found.kept);
  is("their entries", entries, (long long)found.kept_entries);
  is("waits", 0, (long long)found.waits);
  uint64_t after = (uint64_t)below(commit_count + 2), number = 0;
  answers("wait", after < (uint64_t)commit_count ? PDT_OK : PDT_MISSING, D(pdt_wait, table, after, 0, &number));
  is("the newest", commit_count, (long long)number);
}

/* ---- tables: each is the table of the model, whichever way it comes */

static const char header[] = "id:int:key,name:text,ok:bool,qty:int\n";
static pdt_options drawn_options(void) {
  recent = below(2) ? 65536 : 1 + below(20);
  row_limit = below(4) == 0 ? KEYS : rows_of(&newest) + 1 + below(3) / 2;
  by_row = below(2);
  return (pdt_options){sizeof(pdt_options), (size_t)recent, (uint64_t)row_limit, by_row};
}
static void open_text(const pdt_options *options) {
  char text[KEYS * 64 + 64];
  int len = sprintf(text, "%s", header);
  for (int key = KEYS - 1; key >= 0; key--) {
    const row *r = &newest.rows[key];
    const char *boolean = r->ok ? "true" : "false";
    if (r->there) len += sprintf(text + len, "%d,%.*s,%s,%lld\n", key, r->len, r->name, boolean, (long long)r->qty);
  }
  if (below(2)) {
    answers("open", PDT_OK, D(pdt_open, text, (size_t)len, options, &table));
    return;
  }
  bool has = false;
  answers("a header with types", PDT_OK, D(pdt_csv_has_types, text, (size_t)len, &has));
  is("its types", true, has);
  pdt_fault fault = {{0, 0}, NULL};
  sprintf(text + len, "0,a,maybe,1\n");
  answers("a text with a fault", PDT_BAD_TABLE, D(pdt_open_csv, text, strlen(text), options, &fault, &table));
  is("its record", rows_of(&newest) + 2, (long long)fault.place.row);
  is("its column", 2, (long long)fault.place.column);
  answers("open", PDT_OK, D(pdt_open_csv, text, (size_t)len, options, &fault, &table));
}
/* Over a text without types, whose key stands elsewhere: two rows or more, since a name may be a word that is a boolean too. */
static void open_plain(const pdt_options *options) {
  static const char *const key[] = {"id"};
  pdt_plain plain = {.size = sizeof plain, .key = key, .key_count = 1, .sample = below(2) ? 0 : KEYS};
  char text[KEYS * 64 + 64];
  int len = sprintf(text, "name,ok,id,qty\n");
  for (int at = KEYS - 1; at >= 0; at--) {
    const row *r = &newest.rows[at];
    const char *boolean = r->ok ? "true" : "false";
    if (r->there) len += sprintf(text + len, "%.*s,%s,%d,%lld\n", r->len, r->name, boolean, at, (long long)r->qty);
  }
  bool has = true;
  answers("a header without types", PDT_OK, D(pdt_csv_has_types, text, (size_t)len, &has));
  is("its types", false, has);
  pdt_fault fault = {{0, 0}, NULL};
  if (below(2)) {
    sprintf(text + len, "a,maybe,0,1\n");
    answers("a text with a fault", PDT_BAD_TABLE,
            D(pdt_open_plain, text, strlen(text), &(pdt_plain){.size = sizeof plain, .key = key, .key_count = 1, .sample = 1}, options,
              &fault, &table));
    is("its record", rows_of(&newest) + 2, (long long)fault.place.row);
    is("its column", 1, (long long)fault.place.column);
  }
  answers("open", PDT_OK, D(pdt_open_plain, text, (size_t)len, &plain, options, &fault, &table));
}
static void open_columns(const pdt_options *options) {
  int64_t ids[KEYS], qty[KEYS];
  uint64_t offsets[KEYS + 1] = {0};
  uint8_t texts[KEYS * TEXT], booleans[KEYS];
  int rows = 0;
  for (int key = 0; key < KEYS; key++) {
    const row *r = &newest.rows[key];
    if (!r->there) continue;
    ids[rows] = key, qty[rows] = r->qty, booleans[rows] = r->ok;
    memcpy(texts + offsets[rows], r->name, (size_t)r->len);
    offsets[rows + 1] = offsets[rows] + (uint64_t)r->len;
    rows++;
  }
  pdt_column columns[] = {{"id", PDT_INT, (uint64_t)rows, ids, NULL, NULL, 0},
                          {"name", PDT_TEXT, (uint64_t)rows, NULL, offsets, texts, (size_t)offsets[rows]},
                          {"ok", PDT_BOOL, (uint64_t)rows, NULL, NULL, booleans, 0},
                          {"qty", PDT_INT, (uint64_t)rows, qty, NULL, NULL, 0}};
  answers("open columns", PDT_OK, D(pdt_open_columns, columns, WIDTH, 1, options, NULL, &table));
}

/* An image that is handed out, and a write that fails at a drawn column. */
static uint8_t image[WIDTH + 1][FILES];
static size_t lens[WIDTH + 1];
static int fails_at;
static int take(void *context, size_t column, const uint8_t *bytes, size_t len) {
  size_t at = column + 1; /* the header is number 0 */
  (void)context;
  if ((int)at == fails_at || lens[at] + len > FILES) return 1;
  memcpy(image[at] + lens[at], bytes, len);
  lens[at] += len;
  return 0;
}
static void clear(void) {
  static const char *const files[] = {"header.csv", "column-0.pdt", "column-1.pdt", "column-2.pdt", "column-3.pdt"};
  char path[600];
  for (size_t i = 0; i < sizeof files / sizeof *files; i++) snprintf(path, sizeof path, "%s/%s", room, files[i]), unlink(path);
}
static void recover_files(const pdt_options *options, pdt_table **to) {
  answers("recover", PDT_OK, D(pdt_recover, room, options, to));
  clear();
}
static void recover_bytes(const pdt_options *options, pdt_table **to) {
  pdt_bytes parts[WIDTH];
  uint32_t generation = 0;
  for (size_t at = 0; at < WIDTH; at++) parts[at] = (pdt_bytes){image[at + 1], lens[at + 1]};
  answers("recover from", PDT_OK, D(pdt_recover_from, image[0], lens[0], parts, WIDTH, options, &generation, to));
  is("its image", 1, generation);
}
static void checkpoint(void) {
  pdt_table *other = NULL;
  size_t column = 99;
  pdt_sizes sizes;
  if (below(2)) {
    answers("no folder", PDT_IO, D(pdt_checkpoint, table, "/nowhere/at/all"));
    answers("checkpoint", PDT_OK, D(pdt_checkpoint, table, room));
    answers("a second one", PDT_EXISTS, D(pdt_checkpoint, table, room));
    recover_files(NULL, &other);
  } else {
    memset(lens, 0, sizeof lens);
    fails_at = below(WIDTH + 1);
    answers("a write that fails", PDT_DEVICE_FAILED, D(pdt_checkpoint_to, table, take, NULL, &column));
    is("at its column", fails_at - 1, fails_at ? (long long)column : column == PDT_HEADER ? -1 : 99);
    memset(lens, 0, sizeof lens);
    fails_at = -1;
    answers("checkpoint to", PDT_OK, D(pdt_checkpoint_to, table, take, NULL, NULL));
    recover_bytes(NULL, &other);
  }
  is_superseded = true;
  counted.checkpoints++;
  answers("size", PDT_OK, D(pdt_size, table, &sizes));
  is("nothing is left to move", 0, (long long)(sizes.read_entries + sizes.write_entries));
  table_is("a recovered table", other, &newest);
  answers("close", PDT_OK, D(pdt_close, other));
}
static void checkpoint_parts(void) {
  uint64_t number = 0;
  pdt_table *other = NULL;
  if (!begun_checkpoint) {
    answers("begin a checkpoint", PDT_OK, D(pdt_checkpoint_begin, table, &number, &begun_checkpoint));
    is("its number", commit_count, (long long)number);
    begun_rows = newest;
    is_superseded = is_written = is_installed = false;
    return;
  }
  switch (below(5)) {
    case 4: {
      pdt_txn *txn = NULL;
      uint64_t rows = 0;
      answers("read a checkpoint", PDT_OK, D(pdt_checkpoint_read, begun_checkpoint, &txn));
      counted.begins++;
      answers("rows of the begin", PDT_OK, D(pdt_rows, txn, &rows));
      is("rows of the begin", rows_of(&begun_rows), (long long)rows);
      D(pdt_abort, txn);
      return;
    }
    case 0:
    case 1:
      answers("write", is_written ? PDT_MISUSE : PDT_OK, D(pdt_checkpoint_write, begun_checkpoint, room));
      if (is_written) return;
      is_written = true;
      recover_files(NULL, &other);
      table_is("the table of the begin", other, &begun_rows);
      answers("close", PDT_OK, D(pdt_close, other));
      return;
    case 2: {
      int wanted = !is_written || is_installed ? PDT_MISUSE : is_superseded ? PDT_SUPERSEDED : PDT_OK;
      answers("install a checkpoint", wanted, D(pdt_checkpoint_install, begun_checkpoint));
      is_installed |= wanted == PDT_OK;
      counted.checkpoints += wanted == PDT_OK;
      counted.superseded += wanted == PDT_SUPERSEDED;
      return;
    }
    default:
      answers("close with a checkpoint begun", PDT_MISUSE, D(pdt_close, table));
      D(pdt_checkpoint_end, begun_checkpoint);
      begun_checkpoint = NULL;
  }
}

/* Closes the table and opens its newest table again, in a drawn way. */
static void reopen(void) {
  for (int i = 0; i < CLIENTS; i++) {
    if (!clients[i].txn) continue;
    answers("close with a transaction open", PDT_MISUSE, D(pdt_close, table));
    D(pdt_abort, clients[i].txn);
    clients[i].txn = NULL;
  }
  if (begun_checkpoint) D(pdt_checkpoint_end, begun_checkpoint);
  begun_checkpoint = NULL;
  for (int i = 0; i < PINS; i++) {
    if (!pins[i].pin) continue;
    answers("close with a pin kept", PDT_MISUSE, D(pdt_close, table));
    D(pdt_unpin, pins[i].pin);
    pins[i].pin = NULL;
  }
  int way = table ? below(4) : below(2);
  memset(lens, 0, sizeof lens);
  fails_at = -1;
  if (way == 2) answers("checkpoint", PDT_OK, D(pdt_checkpoint, table, room));
  if (way == 3) answers("checkpoint to", PDT_OK, D(pdt_checkpoint_to, table, take, NULL, NULL));
  answers("close", PDT_OK, D(pdt_close, table));
  pdt_options options = drawn_options();
  if (way == 0 && rows_of(&newest) > 1 && below(2)) open_plain(&options);
  else if (way == 0) open_text(&options);
  if (way == 1) open_columns(&options);
  if (way == 2) recover_files(&options, &table);
  if (way == 3) recover_bytes(&options, &table);
  commit_count = cut_at = 0;
  tables[0] = newest;
  counted = (pdt_counts){.size = 0};
  table_is("an opened table", table, &newest);
}
static void columns(void) {
  static const char *const heads[] = {"id", "name", "ok", "qty"};
  static const int types[] = {PDT_INT, PDT_TEXT, PDT_BOOL, PDT_INT, 0};
  int column = below(WIDTH + 1), code = below(PDT_READONLY + 5) - 2;
  is("columns", WIDTH, (long long)D(pdt_columns, table));
  is("key columns", 1, (long long)D(pdt_key_columns, table));
  is("type", types[column], D(pdt_column_type, table, (size_t)column));
  const char *name = D(pdt_column_name, table, (size_t)column);
  is("name", 0, column < WIDTH ? strcmp(heads[column], name) : name != NULL);
  is("the version", 0, strcmp(PDT_VERSION, D(pdt_version)));
  answers("a sentence", code < 0 || code > PDT_READONLY, strcmp("no such code", D(pdt_code_text, code)) == 0);
  answers("a sentence", code < 0 || code > PDT_READONLY, strcmp("no such code", D(pdt_errmsg, (pdt_code)code)) == 0);
}
static void maintenance(void) {
  switch (below(9)) {
    case 0:
      answers("fold", PDT_OK, D(pdt_fold, table));
      is_superseded = true;
      counted.folds++;
      return;
    case 2:
      answers("cut", PDT_OK, D(pdt_trim, table));
      cut_at = commit_count;
      return;
    case 3: columns(); return;
    case 4: checkpoint(); return;
    default: checkpoint_parts();
  }
}

/* ---- a run */

/* Begins over the newest table, or over that of a pin. */
static void begin(client *c) {
  const kept_table *at = &pins[below(PINS)];
  bool is_old = at->pin && below(3) == 0;
  uint64_t number = 0;
  if (is_old) answers("begin at", PDT_OK, D(pdt_begin_at, at->pin, &c->txn));
  else answers("begin", PDT_OK, D(pdt_begin, table, &c->txn));
  counted.begins++;
  c->begun = is_old ? at->number : commit_count;
  answers("begun", PDT_OK, D(pdt_txn_version, c->txn, &number));
  is("its number", c->begun, (long long)number);
  c->now = tables[c->begun];
  memset(c->now.effects, 0, sizeof c->now.effects);
  memset(c->now.columns, 0, sizeof c->now.columns);
  c->marks = 0;
}
static void pin_or_unpin(void) {
  kept_table *at = &pins[below(PINS)];
  uint64_t number = 0;
  if (at->pin) {
    is("a pin's number", at->number, (long long)D(pdt_pinned_commits, at->pin));
    D(pdt_unpin, at->pin);
    at->pin = NULL;
    return;
  }
  answers("pin", PDT_OK, D(pdt_pin, table, &number, &at->pin));
  is("its number", commit_count, (long long)number);
  at->number = commit_count;
}
static void step(void) {
  static void (*const reads[])(client *) = {read_row, read_rank, read_column, read_numbers, read_row_runs};
  static void (*const writes[])(client *) = {insert, insert, delete, set, set, mark};
  client *c = &clients[below(CLIENTS)];
  int what = below(100);
  if (what < 6) maintenance();
  else if (what < 7) layers(c);
  else if (what < 8) counts_are();
  else if (what < 10) pin_or_unpin();
  else if (!c->txn) begin(c);
  else if (what < 50) writes[below(6)](c);
  else if (what < 86) reads[below(5)](c);
  else if (what < 92) commit(c);
  else if (what < 96) prepare(c);
  else if (what < 98) D(pdt_abort, c->txn), c->txn = NULL;
}

/* Whether each call was drawn, and got the replies that many runs get. DRAWN_COUNTS asks for the counts. */
static bool each_was_drawn(void) {
  static const struct {
    const char *name;
    int code;
  } due_replies[] = {
      {"pdt_commit", PDT_CONFLICT},
      {"pdt_commit", PDT_TOO_OLD},
      {"pdt_commit", PDT_FULL},
      {"pdt_prepare", PDT_CONFLICT},
      {"pdt_insert", PDT_DUPLICATE},
      {"pdt_insert", PDT_FULL},
      {"pdt_delete", PDT_MISSING},
      {"pdt_set", PDT_MISSING},
      {"pdt_set", PDT_TYPE_MISMATCH},
      {"pdt_rollback_to", PDT_MISSING},
      {"pdt_rollback_to", PDT_OK},
      {"pdt_release", PDT_OK},
      {"pdt_get", PDT_TOO_SMALL},
      {"pdt_get", PDT_MISSING},
      {"pdt_give_up", PDT_OK},
      {"pdt_checkpoint", PDT_EXISTS},
      {"pdt_checkpoint", PDT_IO},
      {"pdt_checkpoint_to", PDT_DEVICE_FAILED},
      {"pdt_checkpoint_install", PDT_OK},
      {"pdt_open_csv", PDT_BAD_TABLE},
      {"pdt_checkpoint_install", PDT_SUPERSEDED},
      {"pdt_checkpoint_install", PDT_MISUSE},
      {"pdt_close", PDT_MISUSE},
      {"pdt_fold", PDT_MISUSE},
      {"pdt_changes", PDT_OK},
      {"pdt_changes", PDT_MISSING},
      {"pdt_changes", PDT_MISUSE},
      {"pdt_wait", PDT_OK},
      {"pdt_wait", PDT_MISSING},
      {"pdt_prepare", PDT_TOO_OLD},
  };
  bool all = true;
  for (int i = 0; i < CALLS; i++) {
    if (getenv("DRAWN_COUNTS")) printf("%s %ld\n", names[i], counts[i]);
    if (!counts[i]) all = false, fprintf(stderr, "%s was never drawn\n", names[i]);
    for (size_t k = 0; k < sizeof due_replies / sizeof *due_replies; k++)
      if (!strcmp(due_replies[k].name, names[i]) && !replies[i][due_replies[k].code])
        all = false, fprintf(stderr, "%s never answered: %s\n", names[i], pdt_code_text(due_replies[k].code));
  }
  return all;
}

int main(int argc, char **argv) {
  if (argc != 4) return fprintf(stderr, "drawn FOLDER CALLS SEED\n"), 2;
  room = argv[1];
  seed = first_seed = strtoull(argv[3], NULL, 10);
  for (int key = 0; key < KEYS; key += 2) newest.rows[key] = drawn_row();
  for (long end = atol(argv[2]); made < end;) {
    reopen();
    while (commit_count < COMMITS && made < end && below(200)) step();
  }
  reopen();
  answers("close", PDT_OK, D(pdt_close, table));
  bool all = each_was_drawn();
  printf("%ld calls of %d kinds from seed %llu, 0 differ\n", made, (int)CALLS, (unsigned long long)first_seed);
  return all ? 0 : 1;
}
