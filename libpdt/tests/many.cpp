/* Threads over a table, or over a database, do all that may be done at once. Whatever the schedule: transfers keep the sum, of all tables
   too; each number is answered once, and seen by the next begin; a pin is read the same by all; and an engine's column, read by the
   row runs, is the one that the library keeps. What is opened again is what was closed.
   many FOLDER MODE SECONDS SEED THREADS: alone is a table with such a column, plain one without; full, early, normal and off are
   databases. The folder is empty, and is left so. */
#include <pdt.h>

#include <atomic>
#include <cinttypes>
#include <cstdio>
#include <cstdlib>
#include <cstring>
#include <ftw.h>
#include <map>
#include <memory>
#include <mutex>
#include <shared_mutex>
#include <string>
#include <sys/stat.h>
#include <thread>
#include <time.h>
#include <unistd.h>
#include <vector>
using std::string;
using std::vector;

static string room;
static std::atomic<bool> stop{false};
static double now() {
  struct timespec t;
  clock_gettime(CLOCK_MONOTONIC, &t);
  return (double)t.tv_sec + 1e-9 * (double)t.tv_nsec;
}
[[noreturn]] static void fail(const char *what, long long wanted, long long found) {
  fprintf(stderr, "%s: wanted %lld, found %lld\n", what, wanted, found);
  abort();
}
static void is(const char *what, long long wanted, long long found) {
  if (wanted != found) fail(what, wanted, found);
}
struct Random {
  uint64_t s;
  uint64_t bits() {
    uint64_t x = s += 0x9e3779b97f4a7c15u;
    x = (x ^ (x >> 30)) * 0xbf58476d1ce4e5b9u;
    x = (x ^ (x >> 27)) * 0x94d049bb133111ebu;
    return x ^ (x >> 31);
  }
  int64_t below(int64_t n) { return (int64_t)(bits() % (uint64_t)n); }
  bool one_in(int n) { return below(n) == 0; }
};
enum { ACCOUNTS = 1500, MONEY = 1000 };
/* columns: id key, inside, text, flag, outside (of a table outside a database; there it is the engine's) */
enum { ID, INSIDE, TEXT, FLAG, OUTSIDE, WIDTH };
typedef std::shared_ptr<vector<int64_t>> File;

struct Table {
  pdt_table *h = nullptr;
  bool outside = false;
  std::shared_mutex begins; /* the engine's own lock: its installs, and begins */
  File file;
  std::mutex pin_lock;
  pdt_pinned *pin = nullptr;
  File pin_file;
  uint64_t pin_number = 0;
  std::map<string, uint64_t> seen; /* what reads of the pin have said */
  int pin_users = 0;
};
static vector<Table *> tables;
static pdt_database *database;
struct Tally {
  std::map<string, long> n;
  vector<uint64_t> numbers;
};

struct Open {
  pdt_txn *h;
  File file;
};
static Open begin(Table *t) {
  Open o{nullptr, nullptr};
  if (t->outside) {
    std::shared_lock<std::shared_mutex> l(t->begins);
    o.file = t->file;
    is("begin", PDT_OK, pdt_begin(t->h, &o.h));
  } else {
    is("begin", PDT_OK, pdt_begin(t->h, &o.h));
  }
  return o;
}
static int64_t by_ints(pdt_txn *t, size_t c, Random &r, vector<int64_t> *all) {
  int64_t sum = 0;
  vector<int64_t> some(1 + (size_t)r.below(3000));
  for (uint64_t at = 0;;) {
    size_t count = some.size();
    is("ints", PDT_OK, pdt_ints(t, c, at, some.data(), &count));
    for (size_t i = 0; i < count; i++) {
      sum += some[i];
      if (all) all->push_back(some[i]);
    }
    at += count;
    if (count < some.size()) return sum;
  }
}
static int64_t by_spans(pdt_txn *t, size_t c, Random &r) {
  int64_t sum = 0;
  vector<pdt_int_span> some(1 + (size_t)r.below(200));
  for (uint64_t at = 0;;) {
    size_t count = some.size();
    uint64_t rows = 0;
    is("pieces", PDT_OK, pdt_int_spans(t, c, at, UINT64_MAX, some.data(), &count, &rows));
    for (size_t i = 0; i < count; i++)
      for (uint64_t k = 0; k < some[i].count; k++) sum += some[i].at ? some[i].at[k] : some[i].number;
    at += rows;
    if (count < some.size()) return sum;
  }
}
static int64_t by_cells(pdt_txn *t, size_t c, Random &r) {
  int64_t sum = 0;
  vector<int64_t> some(1 + (size_t)r.below(500));
  for (uint64_t at = 0;;) {
    size_t count = some.size(), bytes;
    is("cells", PDT_OK, pdt_cells(t, c, at, some.data(), &count, nullptr, 0, &bytes));
    for (size_t i = 0; i < count; i++) sum += some[i];
    at += count;
    if (count < some.size()) return sum;
  }
}
static int64_t by_rows(pdt_txn *t) {
  int64_t sum = 0, row[WIDTH];
  char text[4096];
  uint64_t rows;
  is("rows", PDT_OK, pdt_rows(t, &rows));
  for (uint64_t i = 0; i < rows; i++) {
    is("row at", PDT_OK, pdt_row_at(t, i, row, text, sizeof text, nullptr));
    sum += row[INSIDE];
  }
  return sum;
}
/* The engine's column, by row runs. */
static int64_t by_row_runs(pdt_txn *t, const File &file, Random &r, vector<int64_t> *all) {
  int64_t sum = 0;
  vector<pdt_row_run> some(1 + (size_t)r.below(100));
  uint64_t at = 0;
  for (;;) {
    size_t count = some.size();
    is("row runs", PDT_OK, pdt_row_runs(t, at, UINT64_MAX, some.data(), &count));
    for (size_t i = 0; i < count; i++) {
      pdt_row_run &p = some[i];
      is("position", (long long)at, (long long)p.position);
      for (uint64_t k = 0; k < p.rows; k++) {
        int64_t n;
        uint8_t changed[WIDTH];
        if (p.source == PDT_CHANGED) is("changed", PDT_OK, pdt_changed(t, at, changed, WIDTH));
        if (p.source == PDT_STABLE || (p.source == PDT_CHANGED && !changed[OUTSIDE])) {
          is("within the file", 1, p.sid + k < file->size());
          n = (*file)[p.sid + k];
        } else {
          size_t one = 1;
          is("a cell", PDT_OK, pdt_ints(t, OUTSIDE, at, &n, &one));
        }
        sum += n;
        if (all) all->push_back(n);
        at++;
      }
    }
    if (count < some.size()) return sum;
  }
}
static uint64_t texts_hash(pdt_txn *t) {
  uint64_t h = 1469598103934665603u;
  const char *at[300];
  int64_t lens[300];
  for (uint64_t from = 0;;) {
    size_t count = 300;
    is("texts", PDT_OK, pdt_texts(t, TEXT, from, at, lens, &count));
    for (size_t i = 0; i < count; i++)
      for (int64_t k = 0; k < lens[i]; k++) h = (h ^ (uint8_t)at[i][k]) * 1099511628211u;
    from += count;
    if (count < 300) return h;
  }
}
static int64_t bools_sum(pdt_txn *t) {
  int64_t sum = 0;
  uint8_t some[333];
  for (uint64_t from = 0;;) {
    size_t count = 333;
    is("bools", PDT_OK, pdt_bools(t, FLAG, from, some, &count));
    for (size_t i = 0; i < count; i++) sum += some[i] * (int64_t)(from + i + 1);
    from += count;
    if (count < 333) return sum;
  }
}
static int64_t inside_sum(pdt_txn *t, const File &file, Random &r) {
  switch (r.below(file ? 6 : 4)) {
    case 0: return by_ints(t, INSIDE, r, nullptr);
    case 1: return by_spans(t, INSIDE, r);
    case 2: return by_cells(t, INSIDE, r);
    case 3: return by_rows(t);
    default: return by_row_runs(t, file, r, nullptr);
  }
}

/* Takes from one row and gives to another; text and flag follow. Rows come and go with no money. */
static void move_money(pdt_txn *h, int64_t from, int64_t to, int64_t amount, pdt_txn *h2) {
  int64_t a[WIDTH], b[WIDTH];
  char text[64];
  if (pdt_get(h, &from, nullptr, 0, a, text, sizeof text, nullptr) || pdt_get(h2, &to, nullptr, 0, b, text, sizeof text, nullptr))
    fail("an account", 0, 1);
  if (from == to && h == h2) return;
  is("set", PDT_OK, pdt_set(h, &from, nullptr, 0, INSIDE, a[INSIDE] - amount, nullptr));
  is("set", PDT_OK, pdt_set(h, &from, nullptr, 0, OUTSIDE, a[INSIDE] - amount, nullptr));
  is("set", PDT_OK, pdt_set(h2, &to, nullptr, 0, INSIDE, b[INSIDE] + amount, nullptr));
  is("set", PDT_OK, pdt_set(h2, &to, nullptr, 0, OUTSIDE, b[INSIDE] + amount, nullptr));
}
static void come_and_go(pdt_txn *h, Random &r) {
  int64_t key = 2 * r.below(ACCOUNTS) + 1, row[WIDTH] = {key, 0, 3, 1, 0};
  if (r.one_in(2)) {
    int code = pdt_insert(h, row, "new", 3);
    if (code != PDT_OK && code != PDT_DUPLICATE) fail("insert", 0, code);
  } else {
    int code = pdt_delete(h, &key, nullptr, 0);
    if (code != PDT_OK && code != PDT_MISSING) fail("delete", 0, code);
  }
  int64_t other = 2 * r.below(ACCOUNTS);
  if (r.one_in(3)) pdt_set(h, &other, nullptr, 0, FLAG, r.below(2), nullptr);
  string text = "t" + std::to_string(r.below(1000));
  if (r.one_in(3)) pdt_set(h, &other, nullptr, 0, TEXT, (int64_t)text.size(), text.data());
}
/* What was answered is seen by what begins. */
static void is_seen(Table *t, uint64_t number) {
  pdt_txn *h;
  uint64_t seen = 0;
  is("begin", PDT_OK, pdt_begin(t->h, &h));
  is("begun", PDT_OK, pdt_txn_version(h, &seen));
  if (seen < number) fail("a begin after an answer", (long long)number, (long long)seen);
  pdt_abort(h);
}
/* Ends a transaction with writes in one of the ways. */
static int end(Table *t, pdt_txn *h, Random &r, Tally &y) {
  uint64_t number = 0;
  int code;
  switch (r.below(4)) {
    case 0:
      code = pdt_prepare(h, &number);
      y.n["prepare " + std::to_string(code)]++;
      if (code) return code;
      if (r.one_in(4)) {
        is("give up", PDT_OK, pdt_give_up(h));
        pdt_abort(h);
        return -1;
      }
      if (r.one_in(5)) usleep(200);
      code = pdt_install(h);
      y.n["install " + std::to_string(code)]++;
      break;
    default: code = pdt_commit(h, &number); y.n["commit " + std::to_string(code)]++;
  }
  if (!code) y.numbers.push_back(number);
  if (!code) is_seen(t, number);
  return code;
}
static void mutate(Table *t, Random &r, Tally &y) {
  Open o = begin(t);
  int n = 1 + (int)r.below(r.one_in(20) ? 60 : 4);
  for (int i = 0; i < n; i++) {
    move_money(o.h, 2 * r.below(ACCOUNTS), 2 * r.below(ACCOUNTS), 1 + r.below(9), o.h);
    if (r.one_in(3)) come_and_go(o.h, r);
  }
  if (r.one_in(10)) {
    size_t level;
    is("mark", PDT_OK, pdt_savepoint(o.h, &level));
    come_and_go(o.h, r);
    is("back", PDT_OK, pdt_rollback_to(o.h, level));
  }
  /* one that changes nothing has no number of its own: the row of a mutation is always changed */
  int64_t key = 2 * r.below(ACCOUNTS);
  is("set", PDT_OK, pdt_set(o.h, &key, nullptr, 0, FLAG, r.below(2), nullptr));
  int code = end(t, o.h, r, y);
  if (code > 0 && code != PDT_CONFLICT && code != PDT_TOO_OLD) fail("a commit", 0, code);
}
static void look(Table *t, Random &r, Tally &y) {
  Open o = begin(t);
  if (!database) is("the sum", (long long)ACCOUNTS * MONEY, inside_sum(o.h, o.file, r));
  if (o.file && r.one_in(2)) {
    vector<int64_t> in, out;
    by_ints(o.h, INSIDE, r, &in);
    by_row_runs(o.h, o.file, r, &out);
    if (in != out) fail("the column outside", 0, 1);
    y.n["columns outside compared"]++;
  }
  pdt_abort(o.h);
  y.n["looks"]++;
}
/* A pin is read the same by all. */
static void pinned(Table *t, Random &r, Tally &y) {
  std::unique_lock<std::mutex> l(t->pin_lock);
  if (!t->pin || (t->pin_users == 0 && r.one_in(30))) {
    if (t->pin) pdt_unpin(t->pin);
    t->seen.clear();
    std::shared_lock<std::shared_mutex> b(t->begins);
    t->pin_file = t->file;
    is("pin", PDT_OK, pdt_pin(t->h, &t->pin_number, &t->pin));
    y.n["pins"]++;
  }
  t->pin_users++;
  pdt_pinned *pin = t->pin;
  File file = t->pin_file;
  uint64_t number = t->pin_number;
  l.unlock();
  is("pinned", (long long)number, (long long)pdt_pinned_commits(pin));
  pdt_txn *h;
  is("begin at", PDT_OK, pdt_begin_at(pin, &h));
  string what;
  uint64_t found = 0;
  switch (r.below(4)) {
    case 0: what = "texts", found = texts_hash(h); break;
    case 1: what = "bools", found = (uint64_t)bools_sum(h); break;
    case 2: what = "rows", pdt_rows(h, &found); break;
    default: what = "sum", found = (uint64_t)inside_sum(h, file, r);
  }
  y.n["reads of a pin"]++;
  bool writes = r.one_in(10);
  if (writes) { /* a late commit over it */
    int64_t key = 2 * r.below(ACCOUNTS);
    is("set", PDT_OK, pdt_set(h, &key, nullptr, 0, FLAG, 1, nullptr));
    int code = end(t, h, r, y);
    if (code > 0 && code != PDT_CONFLICT && code != PDT_TOO_OLD) fail("a late commit", 0, code);
    y.n["late commit " + std::to_string(code)]++;
  } else {
    pdt_abort(h);
  }
  l.lock();
  auto it = t->seen.find(what);
  if (it == t->seen.end()) t->seen[what] = found;
  else is(what.c_str(), (long long)it->second, (long long)found);
  t->pin_users--;
}
static int remove_one(const char *path, const struct stat *, int, struct FTW *) { return remove(path); }
static std::atomic<int> folders{0};
static int take(void *context, size_t, const uint8_t *, size_t len) {
  *(size_t *)context += len;
  return 0;
}
static void keep_up(Table *t, Random &r, Tally &y) {
  switch (r.below(8)) {
    case 0:
    case 1:
    case 2:
      is("fold", PDT_OK, pdt_fold(t->h));
      y.n["folds"]++;
      break;
    case 3:
      if (r.one_in(6)) is("cut", PDT_OK, pdt_trim(t->h)), y.n["cuts"]++;
      break;
    case 4: {
      pdt_layer *a, *b;
      is("layers", PDT_OK, pdt_layers(t->h, &a, &b));
      size_t n = pdt_layer_size(a);
      int64_t row[WIDTH];
      char text[4096];
      pdt_entry e;
      if (n) is("entry", PDT_OK, pdt_entry_at(a, (size_t)r.below((int64_t)n), &e, row, text, sizeof text));
      pdt_layer_close(a);
      pdt_layer_close(b);
      y.n["layers"]++;
      break;
    }
    case 5: {
      pdt_counts c{};
      c.size = sizeof c;
      is("count", PDT_OK, pdt_count(t->h, &c));
      pdt_sizes s;
      is("size", PDT_OK, pdt_size(t->h, &s));
      uint64_t number = 0;
      int code = pdt_wait(t->h, s.commits, (uint64_t)r.below(3), &number);
      if (code == PDT_OK) is("waited", 1, number > s.commits);
      y.n["waits " + std::to_string(code)]++;
      break;
    }
    case 6: {
      if (!r.one_in(4)) break;
      if (t->outside) break; /* replaces the stable table in one call */
      size_t bytes = 0;
      is("checkpoint to", PDT_OK, pdt_checkpoint_to(t->h, take, &bytes, nullptr));
      y.n["checkpoints in one call"]++;
      break;
    }
    default: {
      if (!r.one_in(3)) break;
      pdt_open_checkpoint *s;
      uint64_t number;
      File file;
      {
        std::shared_lock<std::shared_mutex> l(t->begins);
        file = t->file;
        is("begin a checkpoint", PDT_OK, pdt_checkpoint_begin(t->h, &number, &s));
      }
      string f = room + "/c" + std::to_string(folders++);
      if (mkdir(f.c_str(), 0777)) abort();
      File next;
      if (t->outside) {
        pdt_txn *h;
        is("read a checkpoint", PDT_OK, pdt_checkpoint_read(s, &h));
        uint64_t seen;
        is("begun", PDT_OK, pdt_txn_version(h, &seen));
        is("its number", (long long)number, (long long)seen);
        next = std::make_shared<vector<int64_t>>();
        int64_t sum = by_row_runs(h, file, r, next.get());
        is("the sum of a checkpoint", (long long)ACCOUNTS * MONEY, sum);
        pdt_abort(h);
      }
      is("write", PDT_OK, pdt_checkpoint_write(s, f.c_str()));
      {
        std::unique_lock<std::shared_mutex> l(t->begins);
        int code = pdt_checkpoint_install(s);
        y.n["install of a checkpoint " + std::to_string(code)]++;
        if (code == PDT_OK && t->outside) t->file = next;
        if (code != PDT_OK && code != PDT_SUPERSEDED) fail("install", 0, code);
      }
      pdt_checkpoint_end(s);
      pdt_table *other;
      if (r.one_in(4)) {
        is("recover", PDT_OK, pdt_recover(f.c_str(), nullptr, &other));
        pdt_txn *h;
        is("begin", PDT_OK, pdt_begin(other, &h));
        if (!database) is("the sum of what was written", (long long)ACCOUNTS * MONEY, by_ints(h, INSIDE, r, nullptr));
        pdt_abort(h);
        is("close", PDT_OK, pdt_close(other));
      }
      nftw(f.c_str(), remove_one, 8, FTW_DEPTH | FTW_PHYS);
    }
  }
}
/* Follows the change feed: no number is left out, and each has changes. */
static void follow(Table *t, Tally &y) {
  uint64_t at;
  pdt_pinned *pin;
  is("pin", PDT_OK, pdt_pin(t->h, &at, &pin));
  pdt_unpin(pin);
  for (int i = 0; i < 50 && !stop; i++) {
    uint64_t number;
    if (pdt_wait(t->h, at, 3, &number)) continue;
    while (at < number) {
      pdt_layer *l;
      int code = pdt_changes(t->h, at + 1, &l);
      if (code == PDT_MISSING) { /* cut meanwhile */
        y.n["feed missed"]++;
        return;
      }
      is("changes", PDT_OK, code);
      if (!database && !pdt_layer_size(l)) fail("a commit of nothing", 1, 0);
      int64_t row[WIDTH];
      char text[4096];
      pdt_entry e;
      for (size_t k = 0; k < pdt_layer_size(l); k++) is("entry", PDT_OK, pdt_entry_at(l, k, &e, row, text, sizeof text));
      pdt_layer_close(l);
      at++;
      y.n["feed followed"]++;
    }
  }
}
/* Of a database: moves money between tables in a database transaction, and looks at the sum of all. */
static void dbtxn(Random &r, Tally &y) {
  pdt_dbtxn *k;
  is("work", PDT_OK, pdt_dbtxn_begin(database, &k));
  vector<pdt_txn *> h(tables.size());
  if (r.one_in(3)) {
    int64_t sum = 0;
    for (size_t i = 0; i < tables.size(); i++) {
      is("on", PDT_OK, pdt_dbtxn_on(k, tables[i]->h, &h[i]));
      sum += inside_sum(h[i], nullptr, r);
    }
    is("the sum of all tables", (long long)tables.size() * ACCOUNTS * MONEY, sum);
    pdt_dbtxn_abort(k);
    y.n["works that looked"]++;
    return;
  }
  size_t a = (size_t)r.below((int64_t)tables.size()), b = (size_t)r.below((int64_t)tables.size());
  is("on", PDT_OK, pdt_dbtxn_on(k, tables[a]->h, &h[a]));
  is("on", PDT_OK, pdt_dbtxn_on(k, tables[b]->h, &h[b]));
  for (int i = 0; i < 3; i++) move_money(h[a], 2 * r.below(ACCOUNTS), 2 * r.below(ACCOUNTS), 1 + r.below(20), h[b]);
  if (r.one_in(3)) come_and_go(h[b], r);
  int64_t key = 2 * r.below(ACCOUNTS);
  is("set", PDT_OK, pdt_set(h[a], &key, nullptr, 0, FLAG, r.below(2), nullptr));
  uint64_t number;
  int code = pdt_dbtxn_commit(k, &number);
  if (code && code != PDT_CONFLICT && code != PDT_TOO_OLD) fail("a database transaction's commit", 0, code);
  if (!code) y.numbers.push_back(number);
  if (!code) is_seen(tables[a], number);
  y.n["work " + std::to_string(code)]++;
}
/* Makes and drops a table of its own meanwhile. */
static void tables_come(int me, Random &r, Tally &y) {
  string name = "mine " + std::to_string(me) + "-" + std::to_string(r.below(3));
  pdt_table *s;
  int code = pdt_table_create_csv(database, name.c_str(), "id:int:key,n:int\n1,2\n", 21, nullptr, nullptr, &s);
  if (code == PDT_OK) {
    pdt_txn *h;
    int64_t key = 1;
    is("begin", PDT_OK, pdt_begin(s, &h));
    is("set", PDT_OK, pdt_set(h, &key, nullptr, 0, 1, 5, nullptr));
    uint64_t number;
    is("commit", PDT_OK, pdt_commit(h, &number));
    y.numbers.push_back(number);
  } else if (code != PDT_EXISTS) fail("create", 0, code);
  if (r.one_in(2)) {
    code = pdt_table_drop(database, name.c_str());
    if (code && code != PDT_MISUSE && code != PDT_MISSING) fail("drop", 0, code);
    y.n["drop " + std::to_string(code)]++;
  }
}
static void run(int me, uint64_t seed, Tally *y) {
  Random r{seed * 1000 + (uint64_t)me};
  while (!stop) {
    Table *t = tables[(size_t)r.below((int64_t)tables.size())];
    int what = (int)r.below(100);
    if (database) {
      if (what < 40) dbtxn(r, *y);
      else if (what < 62) mutate(t, r, *y);
      else if (what < 74) pinned(t, r, *y);
      else if (what < 80) look(t, r, *y);
      else if (what < 84) keep_up(t, r, *y);
      else if (what < 86) tables_come(me, r, *y);
      else if (what < 88) is("maintenance", PDT_OK, pdt_maintain(database));
      else if (what < 90) follow(t, *y);
      else {
        pdt_database_counts c{};
        c.size = sizeof c;
        is("count", PDT_OK, pdt_database_count(database, &c));
        is("durable", 1, c.durable <= c.commits);
        char name[80];
        pdt_table_name(database, 0, name, sizeof name);
      }
    } else {
      if (what < 55) mutate(t, r, *y);
      else if (what < 75) pinned(t, r, *y);
      else if (what < 90) look(t, r, *y);
      else if (what < 98) keep_up(t, r, *y);
      else follow(t, *y);
    }
  }
}
static void columns_of(vector<int64_t> &ids, vector<int64_t> &money, vector<uint64_t> &offsets, vector<uint8_t> &flags, pdt_column *c,
                       bool outside) {
  for (int i = 0; i < ACCOUNTS; i++) {
    ids.push_back(2 * i);
    money.push_back(MONEY);
    offsets.push_back(0);
    flags.push_back(0);
  }
  offsets.push_back(0);
  c[0] = {"id", PDT_INT, ACCOUNTS, ids.data(), nullptr, nullptr, 0};
  c[1] = {"inside", PDT_INT, ACCOUNTS, money.data(), nullptr, nullptr, 0};
  c[2] = {"text", PDT_TEXT, ACCOUNTS, nullptr, offsets.data(), nullptr, 0};
  c[3] = {"flag", PDT_BOOL, ACCOUNTS, nullptr, nullptr, flags.data(), 0};
  c[4] = {"outside", outside ? PDT_INT | PDT_OUTSIDE : PDT_INT, ACCOUNTS, outside ? nullptr : money.data(), nullptr, nullptr, 0};
}
int main(int argc, char **argv) {
  if (argc < 6) return 2;
  room = argv[1];
  string mode = argv[2];
  double seconds = atof(argv[3]);
  uint64_t seed = strtoull(argv[4], nullptr, 10);
  int threads = atoi(argv[5]);
  Random r{seed};
  vector<int64_t> ids, money;
  vector<uint64_t> offsets;
  vector<uint8_t> flags;
  pdt_column c[WIDTH];
  pdt_options o{sizeof o, r.one_in(2) ? (size_t)65536 : (size_t)(2 + r.below(40)), 0, r.one_in(2)};
  string path = room + "/db";
  pdt_database_options d{};
  d.size = sizeof d;
  if (mode == "alone" || mode == "plain") {
    Table *t = new Table;
    t->outside = mode == "alone";
    columns_of(ids, money, offsets, flags, c, t->outside);
    if (t->outside) t->file = std::make_shared<vector<int64_t>>(money);
    is("open", PDT_OK, pdt_open_columns(c, WIDTH, 1, &o, nullptr, &t->h));
    tables.push_back(t);
  } else {
    d.sync = mode == "normal" ? PDT_SYNC_NORMAL : mode == "off" ? PDT_SYNC_OFF : PDT_SYNC_FULL;
    d.early_reads = mode == "early";
    d.fold_entries = (uint64_t)(50 + r.below(1000));
    d.checkpoint_entries = (uint64_t)(200 + r.below(1500));
    d.journal_bytes = (uint64_t)(20000 + r.below(300000));
    is("open", PDT_OK, pdt_database_open(path.c_str(), &d, &database, nullptr));
    columns_of(ids, money, offsets, flags, c, false);
    for (int i = 0; i < 3; i++) {
      Table *t = new Table;
      is("create", PDT_OK, pdt_table_create(database, ("t" + std::to_string(i)).c_str(), c, WIDTH, 1, &o, nullptr, &t->h));
      tables.push_back(t);
    }
  }
  vector<Tally> tallies((size_t)threads);
  vector<std::thread> all;
  for (int i = 0; i < threads; i++) all.emplace_back(run, i, seed, &tallies[(size_t)i]);
  double until = now() + seconds;
  while (now() < until) usleep(50000);
  stop = true;
  for (auto &t : all) t.join();
  /* each number once */
  uint64_t newest;
  if (database) {
    pdt_database_counts n{};
    n.size = sizeof n;
    is("count", PDT_OK, pdt_database_count(database, &n));
    newest = n.commits;
    is("faults", 0, (long long)n.faults);
    printf("folds %" PRIu64 ", images %" PRIu64 ", batches %" PRIu64 ", syncs %" PRIu64 "\n", n.folds, n.checkpoints, n.batches, n.syncs);
  } else {
    pdt_counts n{};
    n.size = sizeof n;
    is("count", PDT_OK, pdt_count(tables[0]->h, &n));
    newest = n.commits;
    printf("waits %" PRIu64 ", packs %" PRIu64 "\n", n.waits, n.packs);
    is("pins", tables[0]->pin != nullptr, (long long)n.pins);
  }
  vector<char> told(newest + 1);
  uint64_t count = 0;
  std::map<string, long> sums;
  for (auto &y : tallies) {
    for (uint64_t n : y.numbers) {
      if (n == 0 || n > newest) fail("a number", (long long)newest, (long long)n);
      if (told[n]++) fail("a number twice", (long long)n, 2);
      count++;
    }
    for (auto &s : y.n) sums[s.first] += s.second;
  }
  is("each number once", (long long)newest, (long long)count);
  vector<int64_t> last[8];
  for (size_t i = 0; i < tables.size(); i++) {
    Table *t = tables[i];
    if (t->pin) pdt_unpin(t->pin);
    Open b = begin(t);
    by_ints(b.h, INSIDE, r, &last[i]);
    pdt_abort(b.h);
  }
  if (database) {
    is("close", PDT_OK, pdt_database_close(database));
    pdt_report rep{};
    rep.size = sizeof rep;
    is("open again", PDT_OK, pdt_database_open(path.c_str(), nullptr, &database, &rep));
    is("commits", (long long)newest, (long long)rep.commits);
    for (size_t i = 0; i < tables.size(); i++) {
      is("open a table", PDT_OK, pdt_table_open(database, ("t" + std::to_string(i)).c_str(), &tables[i]->h));
      Open b = begin(tables[i]);
      vector<int64_t> again;
      by_ints(b.h, INSIDE, r, &again);
      if (again != last[i]) fail("a table that was opened again", 0, 1);
      pdt_abort(b.h);
    }
    is("close", PDT_OK, pdt_database_close(database));
  } else {
    is("close", PDT_OK, pdt_close(tables[0]->h));
  }
  for (Table *t : tables) delete t;
  nftw(path.c_str(), remove_one, 8, FTW_DEPTH | FTW_PHYS);
  printf("%s, seed %" PRIu64 ", %d threads, %.0f s: %" PRIu64 " commits, 0 differences;", mode.c_str(), seed, threads, seconds, newest);
  for (auto &s : sums) printf(" %s: %ld;", s.first.c_str(), s.second);
  printf("\n");
  return 0;
}
