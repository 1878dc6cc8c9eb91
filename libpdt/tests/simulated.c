/* A database over a disk in memory, on threads that one plays, beside a model of its commits. Clients are drawn that make and drop tables,
   commit over one or several of them, also in two parts, read, and call for maintenance; calls that fail are drawn, allocations that are
   refused, and crashes before or amid any call, in an opening too; and it is opened again, and goes on. After each crash all tables are at
   one commit, as the model has them there, and none is before a commit that was acknowledged. Each call on a file of the journal is the
   step that a second value of the journal says is due, and no lock is held over it. Wrong shells and devices are planted: each has to be
   found, by the crashes and by the steps. TRACE in the environment has a run told. Linked with the objects of the library, and --wrap of
   what it calls.

     simulated RUNS SEED [PLANT]: of the controls this one alone, or none where it is 0 */
#include "simulated_steps.h"

#include <sys/wait.h>

/* ---- the model */

enum { SLOTS = 4, KEYS = 20, COMMITS = 1 << 11, LIVES = 12 };

/* What was done to a row: a change of one column, of both, or what goes before other changes. */
enum { UNTOUCHED = 0, CHANGES_QTY = 1, CHANGES_NOTE = 2, INSERTS = 4, DELETES = 8, REPLACES = 16 };
typedef struct {
  bool is_there;
  int len, tag; /* of its note: how long it is, and what it is made of */
  int64_t qty;
} row;
typedef struct {
  row rows[KEYS];
} table_rows;
typedef struct {
  int life; /* of which table under this name; 0: there is none */
  bool is_changed;
  uint8_t effects[KEYS];
  table_rows rows; /* after it */
} part;
typedef struct {
  part parts[SLOTS];
} commit;

/* A table by its name. Whether it is there isn't known after a call that has failed, or a crash amid one. */
enum { ABSENT, THERE, IN_DOUBT };
typedef struct {
  pdt_table *table;
  int state, life;
  bool is_busy; /* one thread makes or drops it, or that has failed in this life */
  int users;
  uint64_t acknowledged; /* the newest commit of it that was answered */
  size_t recent;
  table_rows first, now;
} slot;

static slot slots[SLOTS];
static const char *const called[SLOTS] = {"apples", "bears", "cats and dogs", "\xc3\xa9"};
static commit commits[COMMITS];
static uint64_t newest;           /* that was handed out */
static uint64_t durable, written; /* the newest one that a loss of power must leave, and a kill */
static int lives_of_tables, prepared, open_dbtxns, busy_slot;
static bool is_done; /* no client goes on */
static long calls;

static table_rows *rows_at(int at, uint64_t number) {
  slot *one = &slots[at];
  part *of = &commits[number].parts[at];
  return number && of->life == one->life ? &of->rows : &one->first;
}

/* ---- a client, and what it is about to commit */

typedef struct {
  table_rows rows;
  uint8_t effects[KEYS];
  uint64_t begun;
  pdt_txn *txn; /* null: the table isn't a part of it */
} view;
typedef struct {
  view views[SLOTS];
  uint64_t added; /* the number that its commit was given, or 0 */
  bool is_late;   /* the journal had failed before it was asked to commit */
  int left;       /* how much it does yet */
} client;
static client clients[THREADS];
static client *self(void) { return &clients[current]; }

static bool is_changed(const view *v) {
  for (int key = 0; key < KEYS && v->txn; key++)
    if (v->effects[key]) return true;
  return false;
}
static bool clash(uint8_t one, uint8_t two) {
  if (!one || !two) return false;
  if (one == INSERTS || two == INSERTS) return one == two;
  return (one | two) > (CHANGES_QTY | CHANGES_NOTE) || one & two;
}
/* Whether commits after a number, and before another one, changed a table so that this one conflicts; and how many of them changed it. */
static bool conflicts(int at, const view *v, uint64_t upto, size_t *since) {
  bool is_one = false;
  *since = 0;
  for (uint64_t n = v->begun + 1; n < upto; n++) {
    const part *of = &commits[n].parts[at];
    if (of->life != slots[at].life || !of->is_changed) continue;
    ++*since;
    for (int key = 0; key < KEYS; key++) is_one |= clash(of->effects[key], v->effects[key]);
  }
  return is_one;
}

/* What was done to a row is done to what others have made of it meanwhile. */
static void apply(uint8_t effect, const row *from, row *to) {
  if (effect >= INSERTS) *to = *from;
  if (effect & CHANGES_QTY) to->qty = from->qty;
  if (effect & CHANGES_NOTE) to->len = from->len, to->tag = from->tag;
}
static void commit_added(uint64_t number) {
  is("the next number", (long long)newest + 1, (long long)number);
  if (number >= COMMITS) fail("room for commits", COMMITS, (long long)number);
  newest = number;
  self()->added = number;
  trace("thread %d adds commit %llu\n", current, U(number));
  for (int at = 0; at < SLOTS; at++) {
    part *of = &commits[number].parts[at];
    view *v = &self()->views[at];
    of->life = slots[at].state != ABSENT ? slots[at].life : 0;
    of->is_changed = is_changed(v);
    memcpy(of->effects, v->effects, KEYS);
    for (int key = 0; key < KEYS && of->is_changed; key++) apply(v->effects[key], &v->rows.rows[key], &slots[at].now.rows[key]);
    of->rows = slots[at].now;
  }
}
static void commit_withdrawn(void) {
  is("the newest one is taken back", (long long)self()->added, (long long)newest);
  newest--;
  for (int at = 0; at < SLOTS; at++)
    if (slots[at].state != ABSENT) slots[at].now = *rows_at(at, newest);
  self()->added = 0;
}

/* ---- what is answered */

static int sync_of_life;
static bool is_early;
static long refused_before, failures_before; /* when the life began */
static void lasts(uint64_t number) {
  if (number > durable) durable = number;
  if (durable > written) written = durable;
}
/* A commit is answered: a crash leaves it, as far as the options say. */
static void acknowledged(uint64_t number) {
  if (sync_of_life == PDT_SYNC_FULL) lasts(number);
  if (sync_of_life == PDT_SYNC_NORMAL && number > written) written = number;
  if (sync_of_life == PDT_SYNC_FULL) step_is("what is answered is durable", 1, synced_upto >= number);
  if (sync_of_life == PDT_SYNC_NORMAL) step_is("what is answered is written", 1, told.written >= number);
}
static bool hides(void) { return sync_of_life == PDT_SYNC_FULL && !is_early; }
static int failed_or(int code, int wanted) {
  calls++;
  if (code == wanted) return code;
  if (code == PDT_NOMEM) is("memory that was refused", 1, refused > refused_before);
  else if (code == PDT_IO)
    is("a call that has failed, or what an opening has left for want of memory", 1, failures > failures_before || refused > refused_before);
  else if (code == PDT_WRITES_FAILED) is("a journal that has failed", 1, told.has_failed), met(REFUSED_AFTER);
  else if (code == PDT_OUTCOME_UNKNOWN) is("a journal that fails", 1, told.has_failed), met(UNKNOWN);
  else fail("an answer", wanted, code);
  return code;
}

/* ---- reads and writes of a transaction */

static char letters[PDT_MAX_TEXT + 64];
static const char *note_of(const row *one) { return letters + one->tag; }

static void sees(pdt_txn *txn, const table_rows *rows) {
  static char note[PDT_MAX_TEXT];
  uint64_t found = 0;
  int wanted = 0;
  met(READ);
  calls++;
  undrawn++; /* memory isn't refused */
  is("rows", PDT_OK, pdt_rows(txn, &found));
  for (int key = 0; key < KEYS; key++) {
    const row *one = &rows->rows[key];
    int64_t name = key, cells[3] = {-1, -1, -1};
    wanted += one->is_there;
    is("get", one->is_there ? PDT_OK : PDT_MISSING, pdt_get(txn, &name, NULL, 0, cells, note, sizeof note, NULL));
    if (!one->is_there) continue;
    is("a number", one->qty, cells[1]);
    is("a note's length", one->len, cells[2]);
    is("a note", 0, memcmp(note, note_of(one), (size_t)one->len));
  }
  is("how many rows", wanted, (long long)found);
  undrawn--;
}
static void draw_row(row *one, bool is_large) {
  one->is_there = true;
  one->qty = (int64_t)bits();
  one->len = is_large ? PDT_MAX_TEXT : below(one_in(10) ? PDT_MAX_TEXT : 20);
  one->tag = below(26);
}
static void write_row(view *v, int key, bool is_large) {
  row *one = &v->rows.rows[key], drawn = *one;
  uint8_t *effect = &v->effects[key];
  int64_t cells[3] = {key};
  met(WRITE_ROW);
  draw_row(&drawn, is_large);
  cells[1] = drawn.qty, cells[2] = drawn.len;
  int how = is_large && one->is_there ? 2 : below(5), code;
  switch (how) {
    case 0:
      code = pdt_insert(v->txn, cells, note_of(&drawn), (size_t)drawn.len);
      if (failed_or(code, one->is_there ? PDT_DUPLICATE : PDT_OK)) return;
      *one = drawn, *effect = *effect == DELETES ? REPLACES : INSERTS;
      return;
    case 1:
      code = pdt_delete(v->txn, cells, NULL, 0);
      if (failed_or(code, one->is_there ? PDT_OK : PDT_MISSING)) return;
      one->is_there = false, *effect = *effect == INSERTS ? UNTOUCHED : DELETES;
      return;
    case 2:
      code = pdt_set(v->txn, cells, NULL, 0, 2, drawn.len, note_of(&drawn));
      if (failed_or(code, one->is_there ? PDT_OK : PDT_MISSING)) return;
      one->len = drawn.len, one->tag = drawn.tag, *effect |= *effect < INSERTS ? CHANGES_NOTE : 0;
      return;
    default:
      code = pdt_set(v->txn, cells, NULL, 0, 1, drawn.qty, NULL);
      if (failed_or(code, one->is_there ? PDT_OK : PDT_MISSING)) return;
      one->qty = drawn.qty, *effect |= *effect < INSERTS ? CHANGES_QTY : 0;
  }
}
static void write_rows(view *v, bool is_large) {
  for (int key = 0; key < KEYS && is_large; key++) write_row(v, key, true);
  for (int i = below(5); i; i--) write_row(v, below(KEYS), false);
}

/* Notes what a transaction sees, which is the rows of that version. */
static void begin_view(int at, pdt_txn *txn, uint64_t least) {
  view *v = &self()->views[at];
  uint64_t number = 0;
  is("its version", PDT_OK, pdt_txn_version(txn, &number));
  trace("thread %d begins over %s at %llu, answered %llu\n", current, called[at], U(number), U(least));
  if (number < least) fail("what is answered is seen", (long long)least, (long long)number);
  is("what is seen was handed out", 1, number <= newest);
  if (hides() && number > synced_upto) step_is("what is seen is durable", (long long)synced_upto, (long long)number);
  if (hides()) lasts(number);
  *v = (view){.rows = *rows_at(at, number), .begun = number, .txn = txn};
  sees(txn, &v->rows);
}
static void forget_views(void) {
  for (int at = 0; at < SLOTS; at++) self()->views[at].txn = NULL, memset(self()->views[at].effects, 0, KEYS);
  self()->added = 0;
}

/* The last commit of a table up to a number is seen by the next begin: who was refused doesn't meet it again. */
static void is_visible(int at, uint64_t number) {
  for (; number > slots[at].acknowledged; number--)
    if (commits[number].parts[at].life == slots[at].life && commits[number].parts[at].is_changed) slots[at].acknowledged = number;
}

/* Compares what a commit was answered with the model. Whether it is over. */
static bool answered(int code, uint64_t number) {
  bool clashes = false, is_old = false, changes_some = false;
  uint64_t upto = code == PDT_OK || code == PDT_OUTCOME_UNKNOWN ? self()->added : newest + 1;
  calls++;
  for (int at = 0; at < SLOTS; at++) {
    size_t since;
    const view *v = &self()->views[at];
    if (!is_changed(v)) continue;
    changes_some = true;
    clashes |= conflicts(at, v, upto, &since);
    is_old |= since > slots[at].recent;
  }
  if (code == PDT_CONFLICT || code == PDT_TOO_OLD) {
    met(code == PDT_CONFLICT ? CONFLICT : TOO_OLD);
    is("it is refused", 1, code == PDT_CONFLICT ? clashes : is_old);
    is("no number is given", 0, (long long)self()->added);
    for (int at = 0; at < SLOTS && code == PDT_CONFLICT && !told.has_failed; at++)
      if (is_changed(&self()->views[at])) is_visible(at, number);
    return true;
  }
  if (code == PDT_NOMEM || code == PDT_WRITES_FAILED)
    return failed_or(code, PDT_OK), is("nothing is added", 0, (long long)self()->added), false;
  if (code) failed_or(code, PDT_OUTCOME_UNKNOWN), is("a journal that fails", 1, told.has_failed), met(UNKNOWN);
  if (!changes_some && !code) acknowledged(number);
  if (!changes_some) return true;
  is("nothing is committed after a failure", 0, self()->is_late);
  is("it is not refused", 0, clashes || is_old);
  is("its number", (long long)self()->added, (long long)number);
  if (code) return true;
  acknowledged(number);
  for (int at = 0; at < SLOTS; at++)
    if (is_changed(&self()->views[at]) && number > slots[at].acknowledged) slots[at].acknowledged = number;
  return true;
}

/* ---- what clients do */

static pdt_database *database;

static bool is_usable(int at) { return slots[at].state == THERE && !slots[at].is_busy; }
static int draw_slot(void) { return one_in(5) ? below(SLOTS) : busy_slot; }

static void end_in_parts(view *v) {
  uint64_t number = 0;
  met(PREPARE);
  self()->is_late = told.has_failed;
  int code = pdt_prepare(v->txn, &number);
  if (!code && self()->added) prepared++;
  if (code) {
    if (!answered(code, number)) pdt_abort(v->txn);
    return;
  }
  for (int i = below(8); i; i--) turn(); /* with the lock, where it changes something */
  bool is_added = self()->added;
  if (is_added) is("the number that it will have", (long long)self()->added, (long long)number);
  if (one_in(3)) {
    met(GIVE_UP);
    is("give up", PDT_OK, pdt_give_up(v->txn));
    prepared -= is_added;
    pdt_abort(v->txn);
    return;
  }
  met(INSTALL);
  prepared -= is_added;
  self()->is_late = told.has_failed;
  code = pdt_install(v->txn);
  if (code == PDT_WRITES_FAILED) {
    failed_or(code, PDT_OK);
    pdt_abort(v->txn); /* which gives it up */
    return;
  }
  (void)answered(code, number);
}
static void commit_one(void) {
  int at = draw_slot();
  slot *one = &slots[at];
  if (!is_usable(at)) return;
  one->users++;
  pdt_txn *txn = NULL;
  uint64_t least = one->acknowledged;
  met(BEGIN);
  if (!failed_or(pdt_begin(one->table, &txn), PDT_OK)) {
    begin_view(at, txn, least);
    view *v = &self()->views[at];
    bool is_large = one_in(60);
    turn();
    if (!one_in(6)) write_rows(v, is_large);
    sees(txn, &v->rows);
    turn();
    uint64_t number = 0;
    if (is_large && is_changed(v)) met(LARGE_COMMIT);
    if (one_in(10)) {
      met(ABORT);
      pdt_abort(txn);
    } else if (one_in(3)) {
      end_in_parts(v);
    } else {
      met(COMMIT);
      self()->is_late = told.has_failed;
      int code = pdt_commit(txn, &number);
      if (!answered(code, number)) pdt_abort(txn);
    }
  }
  forget_views();
  one->users--;
}
static void commit_several(void) {
  pdt_dbtxn *dbtxn = NULL;
  uint64_t least[SLOTS], number = 0, latest = 0;
  for (int at = 0; at < SLOTS; at++) least[at] = slots[at].acknowledged;
  met(DBTXN);
  open_dbtxns++;
  if (failed_or(pdt_dbtxn_begin(database, &dbtxn), PDT_OK)) {
    open_dbtxns--;
    return;
  }
  int parts = 0;
  for (int i = 1 + below(4); i; i--) {
    int at = one_in(2) ? below(SLOTS) : draw_slot();
    view *v = &self()->views[at];
    pdt_txn *txn = NULL;
    if (!is_usable(at)) continue;
    slots[at].users++;
    int code = pdt_dbtxn_on(dbtxn, slots[at].table, &txn);
    if (code != PDT_MISSING && !failed_or(code, PDT_OK)) {
      if (!v->txn) begin_view(at, txn, least[at]), parts++;
      is("the same one", 1, v->txn == txn);
      if (v->begun > latest) latest = v->begun;
      write_rows(v, one_in(100));
      sees(txn, &v->rows);
    }
    slots[at].users--;
    turn();
  }
  size_t since;
  static const view none;
  for (int at = 0; at < SLOTS; at++) { /* all of them as of one moment */
    view seen = none;
    seen.begun = self()->views[at].begun;
    if (!self()->views[at].txn) continue;
    (void)conflicts(at, &seen, latest + 1, &since);
    is("a table is seen as of an earlier moment", 0, (long long)since);
  }
  if (one_in(8)) {
    met(ABORT);
    pdt_dbtxn_abort(dbtxn);
  } else {
    met(COMMIT);
    if (parts > 1) met(SEVERAL_TABLES);
    self()->is_late = told.has_failed;
    int code = pdt_dbtxn_commit(dbtxn, &number);
    if (code == PDT_OK) is("the number that it saw, or has", 1, number >= latest && number <= newest);
    if (!answered(code, number)) pdt_dbtxn_abort(dbtxn);
  }
  forget_views();
  open_dbtxns--;
}

static void create_table(int at) {
  slot *one = &slots[at];
  static const char csv[] = "id:int:key,qty:int,note:text\n";
  if (one->state != ABSENT || one->is_busy) return;
  met(CREATE_TABLE);
  bool is_empty = one_in(3);
  pdt_options options = {.size = sizeof options, .recent = one_in(2) ? (size_t)(1 + below(4)) : 0};
  table_rows rows = {{{0}}};
  int64_t ids[KEYS], qty[KEYS];
  uint64_t offsets[KEYS + 1] = {0};
  char notes[KEYS * 32];
  for (int key = 0; key < KEYS && !is_empty; key++) {
    row *drawn = &rows.rows[key];
    draw_row(drawn, false);
    if (drawn->len > 30) drawn->len = 30;
    ids[key] = key, qty[key] = drawn->qty;
    memcpy(notes + offsets[key], note_of(drawn), (size_t)drawn->len);
    offsets[key + 1] = offsets[key] + (uint64_t)drawn->len;
  }
  pdt_column columns[] = {{"id", PDT_INT, KEYS, ids, NULL, NULL, 0},
                          {"qty", PDT_INT, KEYS, qty, NULL, NULL, 0},
                          {"note", PDT_TEXT, KEYS, NULL, offsets, (const uint8_t *)notes, offsets[KEYS]}};
  *one = (slot){.state = IN_DOUBT,
                .life = ++lives_of_tables,
                .is_busy = true,
                .recent = options.recent ? options.recent : 1024,
                .first = rows,
                .now = rows};
  pdt_table *table = NULL;
  long before = failures + refused;
  int code = is_empty ? pdt_table_create_csv(database, called[at], csv, sizeof csv - 1, &options, NULL, &table)
                      : pdt_table_create(database, called[at], columns, 3, 1, &options, NULL, &table);
  one->is_busy = false;
  if (!failed_or(code, PDT_OK)) {
    one->table = table;
    one->state = THERE;
  } else {
    one->state = failures + refused - before > 1 ? IN_DOUBT : ABSENT; /* it couldn't be taken out of the manifest again */
    one->is_busy = one->state == IN_DOUBT;                            /* until the next opening */
  }
}
static void drop_table(int at) {
  slot *one = &slots[at];
  if (!is_usable(at) || one->users) return;
  met(DROP_TABLE);
  one->is_busy = true;
  one->state = IN_DOUBT;
  bool may_be_used = open_dbtxns;
  int code = pdt_table_drop(database, called[at]);
  may_be_used |= open_dbtxns > 0;
  calls++;
  one->is_busy = false;
  if (code == PDT_MISUSE) is("a table that is used", 1, may_be_used || one->users), one->state = THERE;
  else if (!failed_or(code, PDT_OK)) one->state = ABSENT;
  else one->state = told.has_failed ? IN_DOUBT : THERE;
  if (one->state == IN_DOUBT) one->is_busy = true;
}

static uint64_t count(void) {
  pdt_database_counts found = {.size = sizeof found};
  met(COUNT);
  calls++;
  is("count", PDT_OK, pdt_database_count(database, &found));
  is("what is counted was handed out", 1, found.commits <= newest && found.durable <= newest);
  lasts(found.durable);
  return found.durable;
}
static void maintain(void) {
  uint64_t before = newest;
  bool is_whole = !prepared;
  met(MAINTAIN);
  if (one_in(4)) clock_ns += 2000000000, met(NOTED);
  int code = pdt_maintain(database);
  if (!failed_or(code, PDT_OK) && is_whole) lasts(before);
}
static void fold(void) {
  int at = draw_slot();
  if (!is_usable(at)) return;
  slots[at].users++;
  met(FOLD);
  failed_or(pdt_fold(slots[at].table), PDT_OK);
  slots[at].users--;
}
static void open_beside(void) {
  pdt_database *other = NULL;
  undrawn++;
  met(LOCKED);
  is("another opening", PDT_LOCKED, pdt_database_open("db", NULL, &other, NULL));
  undrawn--;
}

static void run_client(int place) {
  for (client *one = &clients[place]; one->left && !is_done; one->left--) {
    int what = below(40);
    if (what < 18) commit_one();
    else if (what < 28) commit_several();
    else if (what < 31) create_table(below(SLOTS));
    else if (what < 32) drop_table(below(SLOTS));
    else if (what < 36) maintain();
    else if (what < 38) fold();
    else if (what < 39) count();
    else open_beside();
    turn();
    if (newest + 8 > COMMITS) is_done = true;
  }
}

/* ---- a life: from an opening to a close or a crash */

static int opened_code;
static uint64_t found_commits, found_torn;
static pdt_database_options options;

static void run_opening(int place) {
  (void)place;
  pdt_report report = {.size = sizeof report};
  met(OPENING);
  calls++;
  database = NULL;
  opened_code = pdt_database_open("db", &options, &database, &report);
  found_commits = report.commits;
  trace("opened: code %d, commits %llu, fault %llu, file %s, torn %llu; durable %llu, written %llu, newest %llu\n", opened_code,
        U(report.commits), U(report.fault), report.file, U(report.torn_bytes), U(durable), U(written), U(newest));
  found_torn = report.torn_bytes;
}
static void run_close(int place) {
  (void)place;
  met(CLOSE);
  int code = failed_or(pdt_database_close(database), PDT_OK);
  database = NULL;
  if (!code) lasts(newest);
}
static void run_alone(void (*run)(int)) {
  start_thread(0, run);
  play();
}

/* What an opening has found is one commit of the model's in all tables, and stays from now on. */
static void look(uint64_t least) {
  undrawn++;
  is("commits that were acknowledged", 1, found_commits >= least);
  is("commits that were handed out", 1, found_commits <= newest);
  if (found_commits < newest) met(LOST_COMMITS);
  if (found_commits > least) met(KEPT_COMMITS);
  if (found_torn) met(TORN);
  newest = found_commits;
  lasts(newest);
  written = durable;
  size_t tables = 0;
  for (int at = 0; at < SLOTS; at++) {
    slot *one = &slots[at];
    pdt_txn *txn = NULL;
    int code = pdt_table_open(database, called[at], &one->table);
    if (one->state != IN_DOUBT) is(called[at], one->state == THERE ? PDT_OK : PDT_MISSING, code);
    one->state = code ? ABSENT : THERE;
    one->is_busy = false;
    one->users = 0;
    if (one->acknowledged > newest) one->acknowledged = 0;
    if (code) continue;
    tables++;
    one->now = *rows_at(at, newest);
    is("begin", PDT_OK, pdt_begin(one->table, &txn));
    sees(txn, &one->now);
    pdt_abort(txn);
  }
  pdt_database_counts found = {.size = sizeof found};
  is("count", PDT_OK, pdt_database_count(database, &found));
  is("commits", (long long)newest, (long long)found.commits);
  is("durable", (long long)newest, (long long)found.durable);
  is("tables", (long long)tables, (long long)found.tables);
  undrawn--;
}
static void run_look(int place) {
  (void)place;
  long_locks[0] = &database->files_lock, long_locks[1] = &database->round_lock;
  look(written);
}

/* An opening for reading finds the same, and changes nothing. */
static void run_reading(int place) {
  (void)place;
  const pdt_database_options reads = {.size = sizeof reads, .read_only = true};
  pdt_report report = {.size = sizeof report};
  uint64_t before = changes;
  undrawn++;
  met(READING);
  int code = pdt_database_open("db", &reads, &database, &report);
  if (code) is("there is no database yet", PDT_MISSING, written ? PDT_OK : code);
  for (int at = 0; at < SLOTS && !code; at++) {
    pdt_table *table = NULL;
    pdt_txn *txn = NULL;
    int found = pdt_table_open(database, called[at], &table);
    if (slots[at].state != IN_DOUBT) is(called[at], slots[at].state == THERE ? PDT_OK : PDT_MISSING, found);
    if (found) continue;
    is("begin", PDT_OK, pdt_begin(table, &txn));
    sees(txn, rows_at(at, report.commits));
    pdt_abort(txn);
  }
  is("commits that a reader finds", 1, code || (report.commits >= written && report.commits <= newest));
  is("maintenance", code ? PDT_MISUSE : PDT_READONLY, pdt_maintain(database));
  is("close", PDT_OK, pdt_database_close(database));
  is("what a reader changes of names", (long long)before, (long long)changes);
  database = NULL;
  undrawn--;
}

static void draw_options(void) {
  options = (pdt_database_options){.size = sizeof options, .no_maintenance = one_in(2), .sync = one_in(2) ? PDT_SYNC_FULL : below(3)};
  options.early_reads = one_in(4);
  options.fold_entries = (uint64_t)(1 + below(one_in(2) ? 10 : 100));
  options.checkpoint_entries = (uint64_t)(1 + below(one_in(2) ? 20 : 300));
  options.journal_bytes = (uint64_t)(1 + below(one_in(2) ? 3000 : 200000));
  sync_of_life = options.sync;
  is_early = options.early_reads;
  met(sync_of_life == PDT_SYNC_FULL ? IN_FULL : sync_of_life == PDT_SYNC_NORMAL ? IN_NORMAL : IN_OFF);
  if (is_early) met(EARLY);
}
/* Which calls fail, and after how many of them a crash comes: in an opening, or in what follows it. After a kill the power may go soon. */
static bool after_kill, never_crashes;
static void draw_weather(bool is_opening_drawn) {
  static const int rates[] = {300, 100, 30, 10}, refusals[] = {3000, 300, 30};
  static const enum kind places[] = {IN_WRITE, IN_SYNC, IN_NAMES, IN_SYNC_NAMES, IN_SYNC_NAMES};
  bool is_soon = after_kill && one_in(2), is_calm = !is_soon && !one_in(is_opening_drawn ? 3 : 1);
  failure_rate = is_calm || !one_in(3) ? 0 : rates[below(4)];
  refusal_rate = is_calm || !one_in(3) ? 0 : refusals[below(3)];
  crash_where = one_in(2) ? ALL_KINDS : places[below(5)];
  crash_in = below(crash_where != ALL_KINDS ? 12 : is_soon || is_opening_drawn || one_in(3) ? 60 : one_in(2) ? 200 : 1000);
  if (is_calm || never_crashes || one_in(4)) crash_in = -1;
  comes_by_power = is_soon || !one_in(3);
  fills_up = one_in(3);
  is_full = false;
}
static void draw_calm(void) {
  failure_rate = refusal_rate = 0;
  crash_in = -1;
}

static void forget_life(void) {
  for (int i = 0; i < THREADS; i++) threads[i].is_there = false;
  memset(begun_steps, 0, sizeof begun_steps);
  memset(clients, 0, sizeof clients);
  prepared = open_dbtxns = 0;
  undrawn = 0;
  is_opening = is_closing = is_told = is_done = has_crashed = false;
  crash_in = -1;
  synced_later = NULL;
  long_locks[0] = NULL;
  database = NULL;
}
/* Whether it has crashed: the process is gone, and all that it had. */
static bool crashed(void) {
  if (!has_crashed) return false;
  bool is_power = comes_by_power;
  trace("a crash: %s\n", is_power ? "a loss of power" : "a kill");
  forget_life();
  free_blocks();
  crash_disk(is_power);
  if (is_power) written = durable;
  after_kill = !is_power;
  return true;
}

static void open_life(bool is_calm) {
  draw_options();
  draw_weather(true);
  if (is_calm) draw_calm();
  turn_rate = 2 + below(8);
  refused_before = refused;
  failures_before = failures;
  is_opening = true;
  run_alone(run_opening);
  is_opening = false;
}
static void live(void) {
  if (one_in(8)) run_alone(run_reading);
  open_life(false);
  if (crashed()) return;
  if (opened_code) {
    failed_or(opened_code, PDT_OK);
    is("what an opening leaves of memory", 1, blocks.after == &blocks);
    met(OPENED_AGAIN);
    sweep(true);
    forget_life();
    open_life(true);
    is("an opening", PDT_OK, opened_code);
  }
  run_alone(run_look);
  if (crashed()) return; /* amid a step of the library's own threads */
  draw_weather(false);
  if (one_in(6)) draw_calm();
  after_kill = false;
  busy_slot = below(SLOTS);
  if (one_in(6)) turn_rate = 1 << 30;
  for (int i = 0, many = 1 + below(CLIENTS); i < many; i++) {
    clients[i].left = 3 + below(40);
    start_thread(i, run_client);
  }
  play();
  if (crashed()) return;
  is_closing = true;
  run_alone(run_close);
  if (crashed()) return;
  is("what a close leaves of memory", 1, blocks.after == &blocks);
  for (int i = 0; i < OPENINGS; i++) is("a file that stays open", 0, openings[i].of != NULL);
  sweep(true);
  forget_life();
}

static void run(uint64_t with) {
  first_seed = seed = with;
  new_disk();
  memset(slots, 0, sizeof slots);
  newest = durable = written = 0;
  clock_ns = 1000000000;
  for (int lives = 1 + below(LIVES); lives && newest + 100 < COMMITS; lives--) live();
}

/* ---- controls: what is planted is found, by the crashes and by the steps */

typedef struct {
  const char *what;
  bool by_crashes, by_steps;
} control;
static const control controls[PLANTS] = {
    [SKIPS_SYNCS] = {"a sync does nothing", true, false},
    [SYNCS_LATER] = {"a sync is answered before it is done", true, false},
    [SYNCS_OTHERS] = {"another file is synced", true, false},
    [FORGIVES_SYNCS] = {"a sync that fails is taken for done", true, false},
    [SKIPS_NAMES] = {"the journal goes on in a file whose name isn't durable", true, false},
    [WRITES_TWICE] = {"a batch is written twice", true, false},
    [ANSWERS_EARLY] = {"a commit is answered before its sync", true, true},
    [FORGIVES_STEPS] = {"a step that fails is reported as done", true, true},
    [MAKES_OTHERS] = {"a file of another number is made", true, true},
    [SWAPS_FRAMES] = {"two frames are swapped", true, true},
};
enum { CONTROL_RUNS = 800, FEW = 100, ENOUGH = 500 /* runs for each kind of event */ };

/* After how many runs what is planted is found, or 0; and by what. */
static int runs_until_found(enum plant what, bool by_steps, uint64_t from, int most, const char **by) {
  int *runs = __real_mmap(NULL, 4096, PROT_READ | PROT_WRITE, MAP_SHARED | MAP_ANONYMOUS, -1, 0);
  if (runs == MAP_FAILED) perror("mmap"), exit(1);
  *by = (char *)(runs + 1);
  fflush(stdout);
  pid_t child = fork();
  if (child < 0) perror("fork"), exit(1);
  if (!child) {
    told_parent = (char *)(runs + 1);
    planted = what;
    checks_steps = never_crashes = by_steps;
    while (++*runs <= most) run(from + (uint64_t)*runs);
    _exit(0);
  }
  int status = 0;
  if (waitpid(child, &status, 0) != child) perror("waitpid"), exit(1);
  return WIFEXITED(status) && WEXITSTATUS(status) == 1 ? *runs : 0;
}
static void try_controls(uint64_t from) {
  const char *by;
  for (enum plant what = NOTHING_WRONG + 1; what < PLANTS; what++)
    for (int by_steps = 0; by_steps < 2; by_steps++) {
      if (!(by_steps ? controls[what].by_steps : controls[what].by_crashes)) continue;
      int runs = runs_until_found(what, by_steps, from, CONTROL_RUNS, &by);
      printf("%s: run %d, by %s: %s\n", controls[what].what, runs, by_steps ? "the steps" : "crashes", by);
      if (!runs) fprintf(stderr, "not found: %s\n", controls[what].what), exit(1);
    }
  /* a disk that keeps all that was written finds nothing: it is what is lost that finds it */
  keeps_all = true;
  is("what a disk that keeps all finds", 0, runs_until_found(SKIPS_SYNCS, false, from, FEW, &by));
  keeps_all = false;
}

int main(int argc, char **argv) {
  if (argc < 3) return 2;
  int runs = atoi(argv[1]);
  uint64_t from = strtoull(argv[2], NULL, 10);
  bool is_whole = argc == 3;
  is_traced = getenv("TRACE");
  if (!is_whole) planted = (enum plant)atoi(argv[3]);
  checks_steps = true;
  for (size_t i = 0; i < sizeof letters; i++) letters[i] = (char)('a' + i % 26);
  (void)pdti_say(PDT_MISSING, "%s", "the block of sentences is there from now on");
  keep_blocks();
  for (int i = 0; i < runs; i++) run(from + (uint64_t)i);
  printf("%ld calls, %ld commits, %ld events, %d runs\n", calls, counts[COMMIT], events, runs);
  for (int kind = 0; kind < ALL_KINDS; kind++) {
    printf("  %s: %ld\n", kinds[kind], counts[kind]);
    if (is_whole && runs >= ENOUGH && !counts[kind]) fprintf(stderr, "none: %s\n", kinds[kind]), exit(1);
  }
  if (is_whole) try_controls(from);
  return 0;
}
