/* Draws calls on a database from a seed and compares each reply with a model: tables of few rows, of which each transaction and each work
   copies what it sees. The names of the calls come from pdt.h by way of database_calls.h, and one that was never drawn fails the run.
   The power stays on, so that nothing is really synced: four thousand syncs take minutes on a slow disk.
   drawn_databases FOLDER CALLS SEED */
#define _POSIX_C_SOURCE 200809L
#include <pdt.h>
#include <stdio.h>
#include <stdlib.h>
#include <string.h>

int fsync(int file) { return (void)file, 0; } /* in place of the C library's, as is the next */
int fdatasync(int file) { return (void)file, 0; }

static const char *const names[] = {
#include "database_calls.h"
};
enum { CALLS = sizeof names / sizeof *names, KEYS = 12, SLOTS = 4, WORKS = 3, LONERS = 2, COMMITS = 1 << 16, RECENT = 6 };
static long counts[CALLS], made;
static uint64_t seed, first_seed;
static const char *folder;

static void fail(const char *what, long long wanted, long long found) {
  fprintf(stderr, "seed %llu, call %ld: %s: wanted %lld, found %lld\n", (unsigned long long)first_seed, made, what, wanted, found);
  exit(1);
}
static void is(const char *what, long long wanted, long long found) {
  if (wanted != found) fail(what, wanted, found);
}
static void drew(const char *name) {
  made++;
  for (int i = 0; i < CALLS; i++)
    if (!strcmp(names[i], name)) {
      counts[i]++;
      return;
    }
  fail(name, 1, 0);
}
#define D(name, ...) (drew(#name), name(__VA_ARGS__))

static uint64_t bits(void) { /* SplitMix64 */
  uint64_t x = seed += 0x9e3779b97f4a7c15u;
  x = (x ^ (x >> 30)) * 0xbf58476d1ce4e5b9u;
  x = (x ^ (x >> 27)) * 0x94d049bb133111ebu;
  return x ^ (x >> 31);
}
static int below(int end) { return (int)(bits() % (uint64_t)end); }

/* ---- the model */

enum effect { NONE, INSERT, DELETE, CHANGE, REPLACE };
typedef struct {
  bool there[KEYS];
  int64_t qty[KEYS];
  unsigned char effects[KEYS];
} view;
typedef struct {
  pdt_table *table; /* null: there is no such table */
  int life;         /* how many tables have had this name */
  int made_at;      /* the number of the newest commit then */
  view rows;
} drawn_table;
typedef struct {
  int slot; /* of one of its tables; it may have others */
  int life[SLOTS];
  unsigned char effects[SLOTS][KEYS];
  bool changes[SLOTS];
} entry;
typedef struct {
  pdt_dbtxn *dbtxn; /* null: there is none */
  int begun, life[SLOTS];
  view views[SLOTS];
  pdt_txn *txns[SLOTS];
} session;
typedef struct {
  pdt_txn *txn;
  int begun, slot;
  view view;
} loner;

static pdt_database *database;
static drawn_table tables[SLOTS];
static session sessions[WORKS];
static loner loners[LONERS];
static entry commits[COMMITS];
static int commit_count, opened_at;
static const char *const called[SLOTS] = {"apples", "bears", "cats and dogs", "\xc3\xa9"};
static int order[SLOTS], ordered; /* the slots of the tables in the order in which they were made */

static int rows_of(const view *v) {
  int count = 0;
  for (int key = 0; key < KEYS; key++) count += v->there[key];
  return count;
}
static bool changes(const view *v) {
  for (int key = 0; key < KEYS; key++)
    if (v->effects[key]) return true;
  return false;
}
static bool clash(int one, int two) {
  if (!one || !two) return false;
  if (one == INSERT || two == INSERT) return one == two;
  return true; /* there is one column to change */
}
/* What a table answers to a commit of what was done to it since a number. */
static int due(int slot, int begun, const view *v) {
  if (!changes(v)) return PDT_OK;
  int since = 0;
  for (int n = begun; n < commit_count; n++) since += commits[n].changes[slot] && commits[n].life[slot] == tables[slot].life;
  if (since > RECENT) return PDT_TOO_OLD;
  for (int n = begun; n < commit_count; n++)
    if (commits[n].changes[slot] && commits[n].life[slot] == tables[slot].life)
      for (int key = 0; key < KEYS; key++)
        if (clash(commits[n].effects[slot][key], v->effects[key])) return PDT_CONFLICT;
  return PDT_OK;
}
static void install(int slot, const view *v, entry *one) {
  for (int key = 0; key < KEYS; key++) {
    if (!v->effects[key]) continue;
    tables[slot].rows.there[key] = v->there[key];
    tables[slot].rows.qty[key] = v->qty[key];
  }
  memcpy(one->effects[slot], v->effects, KEYS);
  one->changes[slot] = true;
  one->life[slot] = tables[slot].life;
}

/* ---- reads and writes of a transaction */

static void sees(pdt_txn *txn, const view *v) {
  uint64_t rows = 0;
  int64_t qty[KEYS];
  size_t count = KEYS;
  is("rows", PDT_OK, pdt_rows(txn, &rows));
  is("how many rows", rows_of(v), (long long)rows);
  is("ints", PDT_OK, pdt_ints(txn, 1, 0, qty, &count));
  for (int key = 0, at = 0; key < KEYS; key++)
    if (v->there[key]) is("a cell", v->qty[key], qty[at++]);
}
static void write(pdt_txn *txn, view *v) {
  int64_t key = below(KEYS), value = (int64_t)bits();
  bool there = v->there[key];
  unsigned char *effect = &v->effects[key];
  switch (below(4)) {
    case 0:
      is("insert", there ? PDT_DUPLICATE : PDT_OK, pdt_insert(txn, (int64_t[]){key, value}, NULL, 0));
      if (there) return;
      v->there[key] = true, v->qty[key] = value, *effect = *effect == DELETE ? REPLACE : INSERT;
      return;
    case 1:
      is("delete", there ? PDT_OK : PDT_MISSING, pdt_delete(txn, &key, NULL, 0));
      if (!there) return;
      v->there[key] = false, *effect = *effect == INSERT ? NONE : DELETE;
      return;
    default:
      is("set", there ? PDT_OK : PDT_MISSING, pdt_set(txn, &key, NULL, 0, 1, value, NULL));
      if (there) v->qty[key] = value, *effect = *effect ? *effect : CHANGE;
  }
}

/* ---- database transactions */

static void begin_dbtxn(session *s) {
  is("work", PDT_OK, D(pdt_dbtxn_begin, database, &s->dbtxn));
  s->begun = commit_count;
  for (int slot = 0; slot < SLOTS; slot++) {
    s->txns[slot] = NULL;
    s->life[slot] = tables[slot].table ? tables[slot].life : 0;
    s->views[slot] = tables[slot].rows;
    memset(s->views[slot].effects, 0, KEYS);
  }
}
static void use_dbtxn(session *s) {
  int slot = below(SLOTS);
  if (!tables[slot].table) return;
  pdt_txn *txn = NULL;
  bool is_later = s->life[slot] != tables[slot].life;
  is("on", is_later ? PDT_MISSING : PDT_OK, D(pdt_dbtxn_on, s->dbtxn, tables[slot].table, &txn));
  if (is_later) return;
  if (s->txns[slot]) is("the same one", 1, txn == s->txns[slot]);
  s->txns[slot] = txn;
  for (int i = below(4); i; i--) write(txn, &s->views[slot]);
  sees(txn, &s->views[slot]);
}
static void end_dbtxn(session *s) {
  uint64_t number = 0;
  if (below(5) == 0) {
    D(pdt_dbtxn_abort, s->dbtxn);
  } else {
    int wanted = PDT_OK;
    bool any = false;
    for (int i = 0; i < ordered; i++) { /* they are decided in the order in which they were made */
      int slot = order[i];
      if (!s->txns[slot] || !changes(&s->views[slot])) continue;
      any = true;
      if (!wanted) wanted = due(slot, s->begun, &s->views[slot]);
    }
    is("work commit", wanted, D(pdt_dbtxn_commit, s->dbtxn, &number));
    if (!wanted && any) {
      entry *one = &commits[commit_count++];
      memset(one, 0, sizeof *one);
      for (int slot = 0; slot < SLOTS; slot++)
        if (s->txns[slot] && changes(&s->views[slot])) install(slot, &s->views[slot], one);
    }
    if (wanted || any) is("its number", commit_count, (long long)number);
  }
  s->dbtxn = NULL;
}

/* ---- transactions over one table */

static void begin_alone(loner *one) {
  int slot = below(SLOTS);
  if (!tables[slot].table) return;
  is("begin", PDT_OK, pdt_begin(tables[slot].table, &one->txn));
  *one = (loner){one->txn, commit_count, slot, tables[slot].rows};
  memset(one->view.effects, 0, KEYS);
}
static void end_alone(loner *one) {
  uint64_t number = 0;
  int wanted = due(one->slot, one->begun, &one->view);
  bool any = changes(&one->view), parts = below(2);
  if (below(5) == 0) {
    pdt_abort(one->txn);
  } else if (parts) {
    is("prepare", wanted, pdt_prepare(one->txn, &number));
    if (!wanted && any) is("its number", commit_count + 1, (long long)number);
    if (!wanted && any && below(3) == 0) {
      is("give up", PDT_OK, pdt_give_up(one->txn));
      return;
    }
    if (!wanted) is("install", PDT_OK, pdt_install(one->txn));
  } else {
    is("commit", wanted, pdt_commit(one->txn, &number));
  }
  if (number && !wanted && any) {
    memset(&commits[commit_count], 0, sizeof *commits);
    install(one->slot, &one->view, &commits[commit_count++]);
  }
  if (number && (wanted || any)) is("its number", commit_count, (long long)number);
  one->txn = NULL;
}

/* ---- tables and the folder */

static bool is_used(int slot) {
  for (int i = 0; i < WORKS; i++)
    if (sessions[i].dbtxn && sessions[i].life[slot] == tables[slot].life) return true;
  for (int i = 0; i < LONERS; i++)
    if (loners[i].txn && loners[i].slot == slot) return true;
  return false;
}
/* Over a plain text, whose key comes last. */
static int create_plain(int slot, const int64_t *ids, const int64_t *qty, int64_t rows, const pdt_options *options, pdt_table **table) {
  static char text[64 * KEYS];
  static const char *const key[] = {"id"};
  pdt_plain plain = {.size = sizeof plain, .key = key, .key_count = 1, .sample = (size_t)(1 + below(3))};
  size_t len = (size_t)sprintf(text, "qty,id\n");
  for (int64_t i = rows - 1; i >= 0; i--) len += (size_t)sprintf(text + len, "%lld,%lld\n", (long long)qty[i], (long long)ids[i]);
  return D(pdt_table_create_plain, database, called[slot], text, len, &plain, options, NULL, table);
}
static void create(int slot) {
  static int lives;
  static const pdt_options options = {.size = sizeof options, .recent = RECENT};
  drawn_table *one = &tables[slot];
  pdt_table *table = NULL;
  int64_t ids[KEYS], qty[KEYS], rows = below(KEYS);
  for (int64_t i = 0; i < rows; i++) ids[i] = i, qty[i] = (int64_t)bits();
  pdt_column columns[] = {{"id", PDT_INT, (uint64_t)rows, ids, NULL, NULL, 0}, {"qty", PDT_INT, (uint64_t)rows, qty, NULL, NULL, 0}};
  bool is_empty = below(2);
  static const char csv[] = "id:int:key,qty:int\n";
  int code;
  if (is_empty) code = D(pdt_table_create_csv, database, called[slot], csv, sizeof csv - 1, &options, NULL, &table);
  else if (rows && below(3) == 0) code = create_plain(slot, ids, qty, rows, &options, &table);
  else code = D(pdt_table_create, database, called[slot], columns, 2, 1, &options, NULL, &table);
  is("create", one->table ? PDT_EXISTS : PDT_OK, code);
  if (code) return;
  *one = (drawn_table){.table = table, .life = ++lives, .made_at = commit_count};
  for (int64_t i = 0; i < rows && !is_empty; i++) one->rows.there[i] = true, one->rows.qty[i] = qty[i];
  order[ordered++] = slot;
}
static void drop(int slot) {
  drawn_table *one = &tables[slot];
  bool used = one->table && is_used(slot);
  is("drop", !one->table ? PDT_MISSING : used ? PDT_MISUSE : PDT_OK, D(pdt_table_drop, database, called[slot]));
  if (!one->table || used) return;
  one->table = NULL;
  memset(&one->rows, 0, sizeof one->rows);
  int at = 0;
  while (order[at] != slot) at++;
  memmove(order + at, order + at + 1, (size_t)(--ordered - at) * sizeof *order);
}
static void look(void) {
  char name[PDT_MAX_NAME + 1];
  for (int i = 0; i < ordered; i++) {
    is("name", PDT_OK, D(pdt_table_name, database, (size_t)i, name, sizeof name));
    is(called[order[i]], 0, strcmp(name, called[order[i]]));
  }
  is("no more", PDT_MISSING, D(pdt_table_name, database, (size_t)ordered, name, sizeof name));
  for (int slot = 0; slot < SLOTS; slot++) {
    pdt_table *table = NULL;
    is("table", tables[slot].table ? PDT_OK : PDT_MISSING, D(pdt_table_open, database, called[slot], &table));
    if (!table) continue;
    is("the same table", 1, table == tables[slot].table);
    pdt_txn *txn = NULL;
    is("begin", PDT_OK, pdt_begin(table, &txn));
    sees(txn, &tables[slot].rows);
    pdt_abort(txn);
  }
  pdt_database_counts found = {.size = sizeof found};
  is("count", PDT_OK, D(pdt_database_count, database, &found));
  is("commits", commit_count, (long long)found.commits);
  is("tables", ordered, (long long)found.tables);
}
static void feed(void) {
  int slot = below(SLOTS), number = commit_count - below(RECENT + 3);
  if (!tables[slot].table || number < 1) return;
  /* what the last commits of the table changed is kept, and that those between them changed nothing there: up to the one before */
  int since = 0, before = opened_at > tables[slot].made_at ? opened_at : tables[slot].made_at;
  for (int n = commit_count; n > before; n--)
    if (commits[n - 1].changes[slot] && commits[n - 1].life[slot] == tables[slot].life && ++since > RECENT) before = n;
  pdt_layer *layer = NULL;
  int code = pdt_changes(tables[slot].table, (uint64_t)number, &layer);
  is("changes", number > before ? PDT_OK : PDT_MISSING, code);
  size_t entries = 0;
  const entry *one = &commits[number - 1];
  for (int key = 0; key < KEYS && one->changes[slot] && one->life[slot] == tables[slot].life; key++)
    entries += one->effects[slot][key] == REPLACE ? 2 : one->effects[slot][key] != NONE;
  if (!code) is("entries", (long long)entries, (long long)pdt_layer_size(layer));
  pdt_layer_close(layer);
}
static void open_again(void) {
  for (int i = 0; i < WORKS; i++)
    if (sessions[i].dbtxn) D(pdt_dbtxn_abort, sessions[i].dbtxn), sessions[i].dbtxn = NULL;
  for (int i = 0; i < LONERS; i++) pdt_abort(loners[i].txn), loners[i].txn = NULL;
  if (database) is("close", PDT_OK, D(pdt_database_close, database));
  pdt_database_options options = {.size = sizeof options, .sync = below(3), .early_reads = below(2), .no_maintenance = below(2)};
  options.fold_entries = (uint64_t)(1 + below(10));
  options.checkpoint_entries = (uint64_t)(1 + below(20));
  options.journal_bytes = (uint64_t)(1 + below(3000));
  pdt_report report = {.size = sizeof report};
  is("open", PDT_OK, D(pdt_database_open, folder, &options, &database, &report));
  is("what is found", commit_count, (long long)report.commits);
  is("torn", 0, (long long)report.torn_bytes);
  opened_at = commit_count;
  for (int slot = 0; slot < SLOTS; slot++)
    if (tables[slot].table) is("table", PDT_OK, D(pdt_table_open, database, called[slot], &tables[slot].table));
}

static void draw(void) {
  session *s = &sessions[below(WORKS)];
  loner *one = &loners[below(LONERS)];
  switch (below(40)) {
    case 0: create(below(SLOTS)); return;
    case 1:
      if (!below(4)) drop(below(SLOTS));
      return;
    case 2: look(); return;
    case 3: is("maintenance", PDT_OK, D(pdt_maintain, database)); return;
    case 4: feed(); return;
    case 5:
      if (!below(3)) open_again();
      return;
    case 6:
    case 7:
    case 8:
    case 9:
    case 10:
    case 11:
      if (!one->txn) begin_alone(one);
      else if (below(3)) write(one->txn, &one->view), sees(one->txn, &one->view);
      else end_alone(one);
      return;
    default:
      if (!s->dbtxn) begin_dbtxn(s);
      else if (below(4)) use_dbtxn(s);
      else end_dbtxn(s);
  }
}

int main(int argc, char **argv) {
  if (argc < 4) return 2;
  folder = argv[1];
  long wanted = atol(argv[2]);
  first_seed = seed = strtoull(argv[3], NULL, 10);
  open_again();
  for (int slot = 0; slot < SLOTS - 1; slot++) create(slot);
  while (made < wanted && commit_count < COMMITS - 1) draw();
  open_again();
  look();
  is("close", PDT_OK, D(pdt_database_close, database));
  int never = 0;
  for (int i = 0; i < CALLS; i++)
    if (!counts[i]) never++, fprintf(stderr, "%s was never drawn\n", names[i]);
  printf("%ld calls, %d commits\n", made, commit_count);
  return never ? 1 : 0;
}
