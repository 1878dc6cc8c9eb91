/* What is drawn, how replies are compared, and the model, which is written from pdt.h and docs/DEFINITIONS.md: a table is a sorted
   list of rows, and a transaction a map of what it does to each key. A row knows from which stable row it comes, and which of its cells
   are its own; beside the cells that the library shows it has those of the engine, whose columns stay outside. */
#pragma once
#include <pdt_arrow.h>
#include <pdt.h>

#include <algorithm>
#include <cinttypes>
#include <cstdarg>
#include <cstdio>
#include <cstdlib>
#include <cstring>
#include <ctime>
#include <deque>
#include <map>
#include <memory>
#include <string>
#include <sys/stat.h>
#include <ftw.h>
#include <unistd.h>
#include <vector>

using std::shared_ptr;
using std::string;
using std::vector;

static uint64_t seed, case_seed;
static long step_no, made, cases;
static bool traces;
static std::map<string, long> drawn;
static std::map<string, std::map<int, long>> replies;
static std::map<string, long> notes; /* what was met: states, not calls */
static string last, room;
static long refusals, refusals_told, refusals_borne; /* where allocations are refused */

static void say(const char *f, ...) {
  if (!traces) return;
  va_list a;
  va_start(a, f);
  fprintf(stderr, "  [%ld] ", step_no);
  vfprintf(stderr, f, a);
  fprintf(stderr, "\n");
  va_end(a);
}
[[noreturn]] static void fail(const char *what, const string &wanted, const string &found) {
  fprintf(stderr, "case seed %" PRIu64 ", step %ld, after %s: %s: wanted %s, found %s\n", case_seed, step_no, last.c_str(), what,
          wanted.c_str(), found.c_str());
  abort();
}
static void is(const char *what, long long wanted, long long found) {
  if (wanted != found) fail(what, std::to_string(wanted), std::to_string(found));
}
static void drew(const char *name) {
  made++;
  drawn[name]++;
  last = name;
}
static int answers(const char *what, int wanted, int found) {
  replies[last][found]++;
  is(what, wanted, found);
  return found;
}
#ifdef REFUSING
static const bool refuses = true;
/* Has an allocation of the call refused, now and then. PDT_NOMEM: the call is made again, and answers as if nothing had been. */
extern "C" {
#include "../refusing.h"
}
/* Not of one whose callback has taken bytes, and not of one that counts a begin though it is refused. */
static bool may_be_refused(const char *name) { return strcmp(name, "pdt_checkpoint_to") && strcmp(name, "pdt_arrow"); }
static uint64_t bits();
static void say(const char *f, ...);
template <class F> static auto with_refusals(const char *name, F call) -> decltype(call()) {
  using T = decltype(call());
  bool arms = may_be_refused(name) && bits() % 12 == 0;
  long before = refused;
  if (arms) left = (long)(bits() % (bits() % 3 ? 4 : 40));
  if constexpr (std::is_same_v<T, void>) {
    call();
    left = -1;
    refusals += refused - before;
  } else {
    T got = call();
    left = -1;
    bool was = refused > before;
    refusals += was;
    if constexpr (std::is_same_v<T, pdt_code>) {
      if (got == PDT_NOMEM && was) {
        say("%s: PDT_NOMEM", name);
        refusals_told++;
        return call();
      }
    }
    if (was) refusals_borne++, say("%s: a refusal borne", name);
    return got;
  }
}
#define D(name, ...) (drew(#name), with_refusals(#name, [&] { return name(__VA_ARGS__); }))
#else
static const bool refuses = false;
static void have_sentences() {}
#define D(name, ...) (drew(#name), name(__VA_ARGS__))
#endif

static uint64_t bits() {
  uint64_t x = seed += 0x9e3779b97f4a7c15u;
  x = (x ^ (x >> 30)) * 0xbf58476d1ce4e5b9u;
  x = (x ^ (x >> 27)) * 0x94d049bb133111ebu;
  return x ^ (x >> 31);
}
static int64_t below(int64_t end) { return end <= 0 ? 0 : (int64_t)(bits() % (uint64_t)end); }
static bool one_in(int n) { return below(n) == 0; }

/* ---- the model */

struct Cell {
  int64_t n = 0;
  string t;
  bool operator==(const Cell &o) const { return n == o.n && t == o.t; }
  bool operator!=(const Cell &o) const { return !(*this == o); }
};
static int cmp(const Cell &a, const Cell &b) { return a.n < b.n ? -1 : a.n > b.n ? 1 : a.t.compare(b.t); }
typedef vector<Cell> Cells;
struct R {
  Cells c, real; /* as the library shows it, and with the engine's values of columns outside */
  int64_t sid;   /* -1: a layer inserts it */
  uint32_t changed;
};
typedef vector<const R *> Rows;
static std::deque<R> arena;
static const R *keep(R r) {
  arena.push_back(std::move(r));
  return &arena.back();
}
struct Schema {
  size_t width = 0, key = 0;
  vector<int> type;
  vector<bool> outside;
  vector<string> name;
};
struct KeyLess {
  bool operator()(const Cells &a, const Cells &b) const {
    for (size_t i = 0; i < a.size() && i < b.size(); i++)
      if (int c = cmp(a[i], b[i])) return c < 0;
    return false;
  }
};
static const KeyLess key_less;
enum Kind { INS = 1, DEL, CHG, REP };
struct Eff {
  Kind kind;
  uint32_t mask;
  const R *row;
};
typedef std::map<Cells, Eff, KeyLess> Effects;
struct Version {
  Rows rows;
  shared_ptr<Rows> stable;
  uint64_t number = 0;
  int64_t local = 0;
};
typedef shared_ptr<Version> V;
struct Lent {
  const void *at;
  string wanted;
  bool is_text;
};
struct Store;
struct Work;
struct Txn {
  pdt_txn *h = nullptr;
  Store *s = nullptr;
  V base;
  Effects eff;
  Rows rows;
  vector<std::pair<Effects, Rows>> marks;
  vector<Lent> lent;
  bool prepared = false;
  Work *dbtxn = nullptr;
};
struct Pin {
  pdt_pinned *h;
  V v;
};
struct Snap {
  pdt_open_checkpoint *h;
  V v;
  int64_t rebuilt;
  bool written = false, installed = false;
  string folder;
};
struct Store {
  pdt_table *h = nullptr;
  Schema sc;
  string name;
  uint64_t limit = 0, recent = 0;
  bool by_row = false;
  V newest, folded;
  vector<Effects> effects;  /* of local commit i + 1 */
  vector<uint64_t> numbers; /* of local commit i + 1 */
  uint64_t opened_at = 0;
  std::map<int64_t, V> past; /* some of the last versions by local number */
  int64_t cut_at = 0, rebuilt = 0;
  vector<Txn *> txns;
  vector<Pin> pins;
  vector<Snap *> snaps;
  uint64_t begins = 0, commits = 0, conflicts = 0, too_old = 0, full = 0, folds = 0, checkpoints = 0, superseded = 0;
  bool knows_stable = true;
  uint64_t open_count() const { return txns.size(); }
};
struct Work {
  pdt_dbtxn *h;
  vector<std::pair<Store *, V>> saw;
  std::map<Store *, Txn *> txns;
  uint64_t number; /* of the newest commit when it began */
};
struct World {
  bool db = false;
  pdt_database *d = nullptr;
  pdt_database_options o{};
  string path;
  uint64_t number = 0;
  vector<Store *> tables;
  vector<Work *> dbtxns;
  int next_folder = 0, next_table = 0;
};
static World *w;

static Cells key_of(const Schema &sc, const Cells &row) { return Cells(row.begin(), row.begin() + (long)sc.key); }
static bool row_below(const R *r, const Cells &key) { return key_less(r->c, key); }
static size_t rank_of(const Rows &rows, const Cells &key) {
  return (size_t)(std::lower_bound(rows.begin(), rows.end(), key, row_below) - rows.begin());
}
static bool is_at(const Rows &rows, size_t at, const Cells &key) { return at < rows.size() && !key_less(key, rows[at]->c); }
static uint32_t all_of(const Schema &sc) { return sc.width == 32 ? ~0u : (1u << sc.width) - 1; }

static Rows applied(const Schema &sc, const Rows &rows, const Effects &effects) {
  Rows out;
  out.reserve(rows.size() + effects.size());
  size_t at = 0;
  for (auto &e : effects) {
    while (at < rows.size() && key_less(rows[at]->c, e.first)) out.push_back(rows[at++]);
    bool there = is_at(rows, at, e.first);
    switch (e.second.kind) {
      case INS:
        is("model: an insert fits", 0, there);
        out.push_back(e.second.row);
        break;
      case DEL:
        is("model: a delete fits", 1, there);
        at++;
        break;
      case REP:
        is("model: a replacement fits", 1, there);
        at++;
        out.push_back(e.second.row);
        break;
      case CHG: {
        is("model: a change fits", 1, there);
        R r = *rows[at++];
        for (size_t c = 0; c < sc.width; c++)
          if (e.second.mask >> c & 1) r.c[c] = r.real[c] = e.second.row->c[c];
        if (r.sid >= 0) r.changed |= e.second.mask;
        out.push_back(keep(r));
      }
    }
  }
  while (at < rows.size()) out.push_back(rows[at++]);
  return out;
}
/* Rows as stable ones. */
static shared_ptr<Rows> stable_of(const Rows &rows) {
  auto out = std::make_shared<Rows>();
  for (size_t i = 0; i < rows.size(); i++) {
    R r = *rows[i];
    r.sid = (int64_t)i;
    r.changed = 0;
    out->push_back(keep(r));
  }
  return out;
}
static bool clash(bool by_row, const Eff &a, const Eff &b) {
  if (a.kind == INS || b.kind == INS) return a.kind == b.kind;
  if (a.kind == CHG && b.kind == CHG) return by_row || (a.mask & b.mask);
  return true;
}
static int entries_of(const Effects &eff) {
  int n = 0;
  for (auto &e : eff) n += e.second.kind == CHG ? __builtin_popcount(e.second.mask) : e.second.kind == REP ? 2 : 1;
  return n;
}
static int due(const Txn *t) {
  Store *s = t->s;
  if (t->eff.empty()) return PDT_OK;
  if (t->base->local < s->cut_at || (uint64_t)(s->newest->local - t->base->local) > s->recent) return PDT_TOO_OLD;
  for (int64_t i = t->base->local; i < s->newest->local; i++) {
    const Effects &other = s->effects[(size_t)i];
    const Effects &small = other.size() < t->eff.size() ? other : t->eff, &large = other.size() < t->eff.size() ? t->eff : other;
    for (auto &e : small) {
      auto it = large.find(e.first);
      if (it != large.end() && clash(s->by_row, e.second, it->second)) return PDT_CONFLICT;
    }
  }
  return applied(s->sc, s->newest->rows, t->eff).size() > s->limit ? PDT_FULL : PDT_OK;
}
static void count_code(Store *s, int code) {
  if (code == PDT_OK) s->commits++;
  if (code == PDT_CONFLICT) s->conflicts++;
  if (code == PDT_TOO_OLD) s->too_old++;
  if (code == PDT_FULL) s->full++;
}
/* The model does a commit. */
static void install(Store *s, const Effects &eff, uint64_t number) {
  V v = std::make_shared<Version>();
  v->rows = applied(s->sc, s->newest->rows, eff);
  v->stable = s->newest->stable;
  v->number = number;
  v->local = s->newest->local + 1;
  s->effects.push_back(eff);
  s->numbers.push_back(number);
  s->newest = v;
  s->past[v->local] = v;
  if (s->past.size() > 24) s->past.erase(s->past.begin());
}

/* ---- values */

static string drawn_utf8(int most) {
  static const char *const spans[] = {"a", "b", "z", "A", "\xc3\xa4", "\xe2\x82\xac", "\xf0\x9f\x98\x80", ",", "\"", " ", "0", "\x7f"};
  string t;
  int n = (int)below(most + 1);
  for (int i = 0; i < n; i++) {
    if (one_in(40)) t.push_back('\0');
    else t += spans[below(12)];
  }
  return t;
}
static Cell drawn_cell(int type, bool in_key, int spread) {
  Cell c;
  switch (type) {
    case PDT_INT: c.n = one_in(60) ? (one_in(2) ? INT64_MIN : INT64_MAX) : in_key ? below(spread) - spread / 3 : below(2000) - 1000; break;
    case PDT_BOOL: c.n = below(2); break;
    default:
      if (in_key) {
        c.t = one_in(30) ? drawn_utf8(6) : one_in(3) ? string(1, (char)('a' + below(5))) : std::to_string(below(spread));
      } else {
        c.t = one_in(200) ? string((size_t)(4096 - below(3)), 'x') : drawn_utf8(9);
      }
  }
  return c;
}
static Cells drawn_key(const Schema &sc, int spread) {
  Cells k;
  for (size_t c = 0; c < sc.key; c++) k.push_back(drawn_cell(sc.type[c], true, spread));
  return k;
}
static Cells drawn_row(const Schema &sc, int spread) {
  Cells r = drawn_key(sc, spread);
  for (size_t c = sc.key; c < sc.width; c++) r.push_back(drawn_cell(sc.type[c], false, spread));
  return r;
}
static Cells some_key(const Txn *t, int spread) {
  if (!t->rows.empty() && !one_in(3)) return key_of(t->s->sc, t->rows[(size_t)below((int64_t)t->rows.size())]->c);
  if (!t->eff.empty() && one_in(3)) {
    auto it = t->eff.begin();
    std::advance(it, below((int64_t)t->eff.size()));
    return it->first;
  }
  return drawn_key(t->s->sc, spread);
}
/* Cells as a call takes them. */
struct Passed {
  vector<int64_t> numbers;
  string texts;
  Passed(const Schema &sc, const Cells &cells) {
    for (size_t c = 0; c < cells.size(); c++) {
      numbers.push_back(sc.type[c] == PDT_TEXT ? (int64_t)cells[c].t.size() : cells[c].n);
      texts += cells[c].t;
    }
  }
  const void *at() const { return texts.empty() && one_in(2) ? nullptr : (const void *)texts.data(); }
};
static int spread_of(const Store *s) { return (int)std::max<size_t>(20, s->newest->rows.size() * 2); }
