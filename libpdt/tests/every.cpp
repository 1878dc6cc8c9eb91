/* Draws calls of pdt.h from a seed and compares each reply with a model (every/model.hpp): tables of random columns, keys and sizes,
   alone or in a database, several transactions, pins and checkpoints side by side, and an engine's columns beside them. The names of
   the calls come from pdt.h, and one that was never drawn fails the run. With REFUSING, and --wrap of malloc, calloc, realloc and free,
   an allocation is refused now and then: then the call is made again.
   every FOLDER CASES SEED [STEPS]: each case has a seed of its own, which is told where it fails. TRACE=1 says what is done, BIG=1
   draws tables of many thousand rows. The folder is empty, and is left so. */
#include "every/databases.hpp"

/* In place of the C library's: the power stays on, and four thousand syncs take minutes on a slow disk. */
extern "C" int fsync(int) { return 0; }
extern "C" int fdatasync(int) { return 0; }

/* ---- steps */

static bool is_heavy; /* many writes at once, and large layers */
static void step() {
  Store *s = w->tables[(size_t)below((int64_t)w->tables.size())];
  int what = (int)below(100);
  if (w->db && what < 25) return db_step();
  for (Snap *p : s->snaps)
    if (!p->installed && one_in(5)) return checkpoint_parts(s);
  if (is_heavy && one_in(6) && !s->txns.empty()) return bulk(s->txns[(size_t)below((int64_t)s->txns.size())]);
  if (what < 28 || s->txns.empty()) {
    if (s->txns.size() < 6) return begin(s);
  }
  Txn *t = s->txns.empty() ? nullptr : s->txns[(size_t)below((int64_t)s->txns.size())];
  if (what < 50 && t) {
    int n = (int)below(6);
    for (int i = 0; i <= n; i++) write_something(t);
    if (one_in(4)) apply_rows(t);
    if (one_in(3)) read_own(t);
  } else if (what < 53 && t) bulk(t);
  else if (what < 66 && t) {
    for (int i = (int)below(5); i >= 0; i--) read_something(t);
  } else if (what < 69 && t) marks(t);
  else if (what < 78 && t) commit(t);
  else if (what < 80 && t) prepare(t);
  else if (what < 82 && t) abort_txn(t);
  else if (what < 84) pin(s);
  else if (what < (is_heavy || s->snaps.empty() ? 87 : 85)) fold(s);
  else if (what < 88) cut(s);
  else if (what < 89) (w->db && !s->snaps.empty() ? read_columns(s) : checkpoint(s));
  else if (what < 93) checkpoint_parts(s);
  else if (what < 94) read_layers(s);
  else if (what < 96) read_changes(s);
  else if (what < 97) read_counts(s), read_columns(s);
  else if (what < 98) {
    if (one_in(4)) {
      if (w->db) db_reopen();
      else reopen(s);
    }
  } else {
    Txn fresh;
    answers("begin", PDT_OK, D(pdt_begin, s->h, &fresh.h));
    s->begins++;
    begun(s, &fresh, s->newest);
    read_all(&fresh);
    D(pdt_abort, fresh.h);
  }
}
static void run_case(uint64_t of, long steps) {
  seed = case_seed = of;
  World world;
  w = &world;
  w->db = one_in(3);
  is_heavy = one_in(3);
  is_rarely_stored = one_in(2);
  step_no = 0;
  if (w->db) {
    w->path = room + "/db";
    db_options();
    db_open();
  }
  int n = w->db ? (int)(1 + below(3)) : 1 + (int)below(2);
  for (int i = 0; i < n; i++) {
    Store *s = new Store;
    s->sc = drawn_schema(!w->db && one_in(2));
    w->tables.push_back(s);
    open_table(s);
  }
  notes[w->db ? "cases of databases" : "cases of tables alone"]++;
  for (step_no = 1; step_no <= steps; step_no++) step();
  for (Store *s : w->tables) read_counts(s);
  if (w->db) {
    db_reopen();
    db_close();
    clear(w->path);
  } else {
    for (Store *s : w->tables) {
      end_all(s);
      answers("close", PDT_OK, D(pdt_close, s->h));
    }
  }
  for (Store *s : w->tables) delete s;
  arena.clear();
#ifdef REFUSING
  is("blocks that are left", 0, blocks);
#endif
  cases++;
}

static const char *const names[] = {
#include "calls.h"
#include "database_calls.h"
};
int main(int argc, char **argv) {
  if (argc < 4) return 2;
  have_sentences();
  room = argv[1];
  long wanted = atol(argv[2]), steps = argc > 4 ? atol(argv[4]) : 300;
  uint64_t first = strtoull(argv[3], nullptr, 10);
  traces = getenv("TRACE") != nullptr;
  is_big = getenv("BIG") != nullptr;
  while (cases < wanted) run_case(first++, steps);
  printf("%ld cases, %ld calls, 0 differences\n", cases, made);
  if (refuses) printf("  refused: %ld; told by PDT_NOMEM: %ld; answered otherwise: %ld\n", refusals, refusals_told, refusals_borne);
  for (auto &d : drawn) {
    printf("  %-28s %9ld ", d.first.c_str(), d.second);
    for (auto &r : replies[d.first]) printf(" %d:%ld", r.first, r.second);
    printf("\n");
  }
  for (auto &n : notes) printf("  %-50s %ld\n", n.first.c_str(), n.second);
  bool lacks = false;
  for (const char *name : names)
    if (!drawn[name]) lacks = fprintf(stderr, "never drawn: %s\n", name);
  return lacks && wanted >= 40;
}
