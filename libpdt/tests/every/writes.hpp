/* What transactions write, how they begin and end, and folds, cuts, checkpoints and pins. */
#pragma once
#include "reads.hpp"

/* ---- writes */

static void before_write(Txn *t) {
  lent_is(t);
  t->lent.clear();
}
static void bad_shape(Txn *t) { /* cells that don't fit */
  const Schema &sc = t->s->sc;
  Cells row = drawn_row(sc, 50);
  Passed p(sc, row);
  string texts = p.texts;
  size_t c = (size_t)below((int64_t)sc.width), bytes = texts.size();
  int which = (int)below(5);
  bool makes = true;
  if (which == 0) texts += "x", bytes++; /* bytes left over */
  else if (which == 1 && bytes) bytes--;
  else if (which == 2 && sc.type[c] == PDT_BOOL) p.numbers[c] = one_in(2) ? 2 : -1;
  else if (which == 3 && sc.type[c] == PDT_TEXT) p.numbers[c] = one_in(3) ? -1 : one_in(2) ? INT64_MAX : p.numbers[c] + 1;
  else if (which == 4 && sc.type[c] == PDT_TEXT && !row[c].t.empty()) {
    size_t at = 0;
    for (size_t i = 0; i < c; i++) at += row[i].t.size();
    texts[at] = '\xff';
  } else makes = false;
  if (!makes) return;
  answers("a row that doesn't fit", PDT_TYPE_MISMATCH, D(pdt_insert, t->h, p.numbers.data(), texts.data(), bytes));
  if (which == 0) {
    Cells key = some_key(t, 50);
    Passed k(sc, key);
    k.texts += "y";
    answers("a key with more bytes", PDT_TYPE_MISMATCH, D(pdt_delete, t->h, k.numbers.data(), k.texts.data(), k.texts.size()));
    uint64_t r;
    bool there;
    answers("a key with more bytes", PDT_TYPE_MISMATCH, D(pdt_rank, t->h, k.numbers.data(), k.texts.data(), k.texts.size(), &r, &there));
    vector<int64_t> n(sc.width);
    answers("a key with more bytes", PDT_TYPE_MISMATCH,
            D(pdt_get, t->h, k.numbers.data(), k.texts.data(), k.texts.size(), n.data(), nullptr, 0, nullptr));
  }
}
static void insert(Txn *t, const Cells &row) {
  Store *s = t->s;
  before_write(t);
  Passed p(s->sc, row);
  Cells key = key_of(s->sc, row);
  size_t at = rank_of(t->rows, key);
  int wanted = is_at(t->rows, at, key) ? PDT_DUPLICATE : t->rows.size() >= s->limit ? PDT_FULL : PDT_OK;
  if (answers("insert", wanted, D(pdt_insert, t->h, p.numbers.data(), p.at(), p.texts.size()))) {
    if (wanted == PDT_DUPLICATE) sentence_is(PDT_DUPLICATE, "a row with the key ", s->sc, key, " exists");
    return;
  }
  const R *r = keep(R{row, row, -1, all_of(s->sc)});
  t->rows.insert(t->rows.begin() + (long)at, r);
  auto it = t->eff.find(key);
  t->eff[key] = Eff{it == t->eff.end() ? INS : REP, 0, r};
}
static void erase(Txn *t, const Cells &key) {
  Store *s = t->s;
  before_write(t);
  Passed p(s->sc, key);
  size_t at = rank_of(t->rows, key);
  bool there = is_at(t->rows, at, key);
  if (answers("delete", there ? PDT_OK : PDT_MISSING, D(pdt_delete, t->h, p.numbers.data(), p.at(), p.texts.size())))
    return sentence_is(PDT_MISSING, "no row has the key ", s->sc, key, "");
  t->rows.erase(t->rows.begin() + (long)at);
  auto it = t->eff.find(key);
  if (it != t->eff.end() && it->second.kind == INS) t->eff.erase(it);
  else t->eff[key] = Eff{DEL, 0, nullptr};
}
static void set(Txn *t, const Cells &key, size_t c, const Cell &v) {
  Store *s = t->s;
  before_write(t);
  Passed p(s->sc, key);
  size_t at = rank_of(t->rows, key);
  bool there = is_at(t->rows, at, key), is_text = s->sc.type[c] == PDT_TEXT;
  int wanted = c < s->sc.key ? PDT_TYPE_MISMATCH : there ? PDT_OK : PDT_MISSING;
  if (answers("set", wanted,
              D(pdt_set, t->h, p.numbers.data(), p.at(), p.texts.size(), c, is_text ? (int64_t)v.t.size() : v.n,
                is_text ? v.t.data() : nullptr))) {
    if (wanted == PDT_MISSING) sentence_is(PDT_MISSING, "no row has the key ", s->sc, key, "");
    return;
  }
  R r = *t->rows[at];
  r.c[c] = r.real[c] = v;
  if (r.sid >= 0) r.changed |= 1u << c;
  const R *kept = t->rows[at] = keep(r);
  auto it = t->eff.find(key);
  if (it == t->eff.end()) t->eff[key] = Eff{CHG, 1u << c, kept};
  else if (it->second.kind == CHG) it->second = Eff{CHG, it->second.mask | 1u << c, kept};
  else it->second.row = kept;
}
static void write_something(Txn *t) {
  Store *s = t->s;
  int spread = spread_of(s);
  switch (below(12)) {
    case 0:
    case 1:
    case 2: {
      Cells row = drawn_row(s->sc, spread);
      if (one_in(4)) { /* the key of a row that the transaction has deleted or that is there */
        Cells key = some_key(t, spread);
        std::copy(key.begin(), key.end(), row.begin());
      }
      insert(t, row);
      break;
    }
    case 3:
    case 4: erase(t, some_key(t, spread)); break;
    case 5:
      if (one_in(3)) {
        bad_shape(t);
        break;
      } /* fall through */
    default: {
      size_t c = one_in(15) ? (size_t)below((int64_t)s->sc.width) : s->sc.key + (size_t)below((int64_t)(s->sc.width - s->sc.key));
      if (c >= s->sc.width) return;
      Cell v = drawn_cell(s->sc.type[c], false, spread);
      set(t, some_key(t, spread), c, v);
    }
  }
}
static bool is_big; /* tables and transactions of many thousands */
static void apply_rows(Txn *t);
static void bulk(Txn *t) {
  int n = (int)(20 + below(one_in(4) ? is_big ? 5000 : 500 : 120));
  int way = (int)below(5);
  if (way == 4) return apply_rows(t);
  Store *s = t->s;
  size_t from = (size_t)below((int64_t)t->rows.size() + 1);
  say("bulk %d of way %d", n, way);
  for (int i = 0; i < n; i++) {
    if (way == 0) write_something(t);
    else if (way == 1) { /* a run of sets */
      if (t->rows.empty() || s->sc.width == s->sc.key) return;
      size_t c = s->sc.key + (size_t)below((int64_t)(s->sc.width - s->sc.key));
      set(t, key_of(s->sc, t->rows[(from + (size_t)i) % t->rows.size()]->c), c, drawn_cell(s->sc.type[c], false, 50));
    } else if (way == 2) { /* a run of deletes */
      if (t->rows.size() < 30) return;
      erase(t, key_of(s->sc, t->rows[(from + (size_t)i) % t->rows.size()]->c));
    } else {
      insert(t, drawn_row(s->sc, spread_of(s)));
    }
  }
}
static void marks(Txn *t) {
  size_t level = t->marks.size() ? (size_t)below((int64_t)t->marks.size() + (one_in(5) ? 2 : 0)) : (size_t)below(2), found = 999;
  bool there = level < t->marks.size();
  switch (below(3)) {
    case 0:
      if (t->marks.size() > 5) return;
      lent_is(t);
      answers("mark", PDT_OK, D(pdt_savepoint, t->h, &found));
      is("a level", (long long)t->marks.size(), (long long)found);
      t->marks.push_back({t->eff, t->rows});
      break;
    case 1: {
      lent_is(t);
      answers("back", there ? PDT_OK : PDT_MISSING, D(pdt_rollback_to, t->h, level));
      if (!there) return;
      vector<Lent> stay;
      for (auto &l : t->lent)
        if (!l.is_text) stay.push_back(l);
      t->lent = stay;
      lent_is(t); /* pieces may be read on */
      t->eff = t->marks[level].first;
      t->rows = t->marks[level].second;
      t->marks.resize(level + 1);
      break;
    }
    default:
      lent_is(t);
      answers("release", there ? PDT_OK : PDT_MISSING, D(pdt_release, t->h, level));
      if (there) t->marks.resize(level);
  }
}

/* ---- begins and ends */

static void begun(Store *s, Txn *t, V v) {
  t->s = s;
  t->base = v;
  t->rows = v->rows;
  uint64_t number = 777777;
  answers("begun", PDT_OK, D(pdt_txn_version, t->h, &number));
  is("begun", (long long)v->number, (long long)number);
}
static void begin(Store *s) {
  Txn *t = new Txn;
  V v = s->newest;
  int which = (int)below(5);
  if (which == 0 && !s->pins.empty()) {
    Pin &p = s->pins[(size_t)below((int64_t)s->pins.size())];
    v = p.v;
    answers("begin at", PDT_OK, D(pdt_begin_at, p.h, &t->h));
  } else if (which == 1 && !s->snaps.empty()) {
    Snap *p = s->snaps[(size_t)below((int64_t)s->snaps.size())];
    v = p->v;
    answers("read a checkpoint", PDT_OK, D(pdt_checkpoint_read, p->h, &t->h));
    notes["transactions over a snapshot"]++;
  } else {
    answers("begin", PDT_OK, D(pdt_begin, s->h, &t->h));
  }
  begun(s, t, v);
  s->begins++;
  s->txns.push_back(t);
  say("begin over %" PRIu64, v->number);
}
static void forget(Txn *t) {
  auto &all = t->s->txns;
  all.erase(std::find(all.begin(), all.end(), t));
  delete t;
}
static void abort_txn(Txn *t) {
  lent_is(t);
  D(pdt_abort, t->h);
  forget(t);
}
static void commit(Txn *t) {
  Store *s = t->s;
  lent_is(t);
  int wanted = due(t);
  uint64_t number = 99999;
  bool idle = t->eff.empty();
  bool late = t->base->local < s->newest->local;
  if (late && !idle) notes[wanted == PDT_OK ? "late commits that went through" : "late commits refused"]++;
  say("commit of %zu effects, wanted %d", t->eff.size(), wanted);
  answers("commit", wanted, D(pdt_commit, t->h, one_in(6) ? nullptr : &number));
  if (!idle) count_code(s, wanted);
  if (wanted == PDT_OK && !idle) {
    uint64_t next = w->db ? ++w->number : s->newest->number + 1;
    install(s, t->eff, next);
  }
  uint64_t told = idle ? t->base->number : w->db ? w->number : s->newest->number;
  if (number != 99999) is("a commit's number", (long long)told, (long long)number);
  forget(t);
}
/* While a commit is prepared. */
static void beside(Txn *t) {
  Store *s = t->s;
  Cells row = drawn_row(s->sc, 30);
  Passed p(s->sc, row);
  uint64_t number;
  bool has_lock = !t->eff.empty();
  answers("a write of what is prepared", PDT_MISUSE, D(pdt_insert, t->h, p.numbers.data(), p.texts.data(), p.texts.size()));
  size_t level;
  answers("a mark of what is prepared", PDT_MISUSE, D(pdt_savepoint, t->h, &level));
  answers("a second prepare", PDT_MISUSE, D(pdt_prepare, t->h, &number));
  answers("a commit of what is prepared", PDT_MISUSE, D(pdt_commit, t->h, &number));
  if (has_lock) {
    pdt_layer *a, *b;
    answers("a fold", PDT_MISUSE, D(pdt_fold, s->h));
    answers("a trim", PDT_MISUSE, D(pdt_trim, s->h));
    answers("layers", PDT_MISUSE, D(pdt_layers, s->h, &a, &b));
    answers("changes", PDT_MISUSE, D(pdt_changes, s->h, 1, &a));
    pdt_open_checkpoint *snap;
    answers("a checkpoint's begin", PDT_MISUSE, D(pdt_checkpoint_begin, s->h, nullptr, &snap));
    answers("a checkpoint", PDT_MISUSE, D(pdt_checkpoint, s->h, "/nowhere"));
    for (Txn *o : s->txns)
      if (o != t && !o->eff.empty() && !o->prepared) {
        answers("another commit", PDT_MISUSE, D(pdt_commit, o->h, &number));
        break;
      }
    if (w->db) answers("maintenance", PDT_MISUSE, D(pdt_maintain, w->d));
  }
  pdt_sizes sizes;
  answers("size", PDT_OK, D(pdt_size, s->h, &sizes));
  is("size's commits", (long long)s->newest->number, (long long)sizes.commits);
  Txn other;
  answers("a begin beside", PDT_OK, D(pdt_begin, s->h, &other.h));
  s->begins++;
  begun(s, &other, s->newest);
  read_something(&other);
  D(pdt_abort, other.h);
  pdt_pinned *pin;
  answers("a pin beside", PDT_OK, D(pdt_pin, s->h, &number, &pin));
  is("a pin's number", (long long)s->newest->number, (long long)number);
  D(pdt_unpin, pin);
  read_something(t);
  if (!s->snaps.empty()) { /* a begin, too */
    pdt_txn *over;
    answers("read a checkpoint beside", PDT_OK, D(pdt_checkpoint_read, s->snaps[0]->h, &over));
    s->begins++;
    D(pdt_abort, over);
  }
  if (!s->txns.empty()) read_something(s->txns[(size_t)below((int64_t)s->txns.size())]);
}
static void prepare(Txn *t) {
  Store *s = t->s;
  lent_is(t);
  int wanted = due(t);
  bool idle = t->eff.empty();
  uint64_t number = 88888, next = w->db ? w->number + 1 : s->newest->number + 1;
  answers("prepare", wanted, D(pdt_prepare, t->h, &number));
  if (wanted != PDT_OK) {
    count_code(s, wanted);
    is("a refused one's number", (long long)(w->db ? w->number : s->newest->number), (long long)number);
    forget(t);
    return;
  }
  is("a prepared one's number", (long long)(idle ? t->base->number : next), (long long)number);
  t->prepared = true;
  if (one_in(2)) beside(t);
  switch (below(4)) {
    case 0:
      answers("give up", PDT_OK, D(pdt_give_up, t->h));
      t->prepared = false;
      answers("give up twice", PDT_MISUSE, D(pdt_give_up, t->h));
      answers("install what isn't prepared", PDT_MISUSE, D(pdt_install, t->h));
      read_something(t);
      return;
    case 1:
      D(pdt_abort, t->h);
      forget(t);
      return;
    default:
      answers("install", PDT_OK, D(pdt_install, t->h));
      if (!idle) {
        count_code(s, PDT_OK);
        if (w->db) w->number = next;
        install(s, t->eff, next);
      }
      forget(t);
  }
}

/* ---- folds, cuts, checkpoints, pins */

static void pin(Store *s) {
  if (!s->pins.empty() && (s->pins.size() > 3 || one_in(2))) {
    size_t i = (size_t)below((int64_t)s->pins.size());
    is("a pin's number", (long long)s->pins[i].v->number, (long long)D(pdt_pinned_commits, s->pins[i].h));
    D(pdt_unpin, s->pins[i].h);
    s->pins.erase(s->pins.begin() + (long)i);
    return;
  }
  Pin p{nullptr, s->newest};
  uint64_t number = 0;
  answers("pin", PDT_OK, D(pdt_pin, s->h, &number, &p.h));
  is("a pin's number", (long long)s->newest->number, (long long)number);
  s->pins.push_back(p);
}
static V copy_of(V v) { return std::make_shared<Version>(*v); }
static void fold(Store *s) {
  answers("fold", PDT_OK, D(pdt_fold, s->h));
  s->folds++;
  s->rebuilt++;
  s->folded = copy_of(s->newest);
  say("fold");
}
static void cut(Store *s) {
  answers("cut", PDT_OK, D(pdt_trim, s->h));
  s->cut_at = s->newest->local;
  say("cut");
}
/* What a checkpoint of a version leaves: the commits since stay above it. */
static void restack(Store *s, V v) {
  if (!s->knows_stable) { /* maintenance makes others */
    s->checkpoints++;
    s->rebuilt++;
    return;
  }
  V c = copy_of(v);
  c->stable = stable_of(v->rows);
  c->rows = *c->stable;
  V n = copy_of(s->newest);
  n->stable = c->stable;
  n->rows = c->rows;
  for (int64_t i = v->local; i < s->newest->local; i++) n->rows = applied(s->sc, n->rows, s->effects[(size_t)i]);
  s->newest = n;
  s->past[n->local] = n;
  s->folded = c;
  s->checkpoints++;
  s->rebuilt++;
}
static string new_folder() {
  string f = room + "/f" + std::to_string(w->next_folder++);
  if (mkdir(f.c_str(), 0777)) abort();
  return f;
}
static int remove_one(const char *path, const struct stat *, int, struct FTW *) { return remove(path); }
static void clear(const string &path) { nftw(path.c_str(), remove_one, 16, FTW_DEPTH | FTW_PHYS); }

/* Another table is a version: its cells as the library has them. */
static void table_is(const char *what, Store *like, pdt_table *other, const Rows &rows) {
  Store s;
  s.sc = like->sc;
  s.h = other;
  s.limit = like->limit;
  V v = std::make_shared<Version>();
  v->rows = rows;
  v->stable = stable_of(rows);
  v->rows = *v->stable;
  s.newest = s.folded = v;
  Txn t;
  answers(what, PDT_OK, D(pdt_begin, other, &t.h));
  t.s = &s;
  t.base = v;
  t.rows = v->rows;
  read_all(&t);
  D(pdt_abort, t.h);
  answers("close", PDT_OK, D(pdt_close, other));
}
static pdt_options some_options(const Store *s) { return pdt_options{sizeof(pdt_options), (size_t)s->recent, s->limit, s->by_row}; }

struct Taken {
  std::map<size_t, string> at;
  long left;
  Store *calls = nullptr;
};
static int take(void *context, size_t column, const uint8_t *bytes, size_t len) {
  Taken *t = (Taken *)context;
  if (t->left >= 0 && t->left-- == 0) return 1;
  t->at[column].append((const char *)bytes, len);
  if (t->calls) { /* it may make calls on this table */
    pdt_txn *txn;
    uint64_t rows;
    if (D(pdt_begin, t->calls->h, &txn)) abort();
    t->calls->begins++;
    if (D(pdt_rows, txn, &rows)) abort();
    is("rows in a callback", (long long)t->calls->newest->rows.size(), (long long)rows);
    D(pdt_abort, txn);
  }
  return 0;
}
static bool is_rarely_stored;
static void checkpoint(Store *s) { /* in one call */
  if (is_rarely_stored && !one_in(15)) return;
  pdt_options o = some_options(s);
  pdt_table *other = nullptr;
  if (one_in(2)) {
    string f = new_folder();
    if (one_in(4)) answers("a folder that isn't", PDT_IO, D(pdt_checkpoint, s->h, (f + "/none").c_str()));
    if (one_in(9)) answers("no name", PDT_MISUSE, D(pdt_checkpoint, s->h, ""));
    answers("checkpoint", PDT_OK, D(pdt_checkpoint, s->h, f.c_str()));
    restack(s, s->newest);
    s->rebuilt++;
    if (one_in(4)) answers("checkpoint where one is", PDT_EXISTS, D(pdt_checkpoint, s->h, f.c_str()));
    answers("recover", PDT_OK, D(pdt_recover, f.c_str(), one_in(3) ? nullptr : &o, &other));
    table_is("a checkpoint that was recovered", s, other, s->newest->rows);
    clear(f);
  } else {
    Taken t;
    t.left = one_in(3) ? below(4) : -1;
    if (one_in(3)) t.calls = s;
    size_t column = 12345;
    long fails = t.left;
    int code = D(pdt_checkpoint_to, s->h, take, &t, &column);
    bool failed = code == PDT_DEVICE_FAILED;
    answers("checkpoint to", fails >= 0 && t.left < 0 ? PDT_DEVICE_FAILED : PDT_OK, code);
    if (failed) return;
    restack(s, s->newest);
    s->rebuilt++;
    vector<pdt_bytes> parts;
    for (size_t c = 0; c < s->sc.width; c++) parts.push_back({t.at[c].data(), t.at[c].size()});
    string head = t.at[PDT_HEADER];
    uint32_t generation = 0;
    answers("recover from", PDT_OK, D(pdt_recover_from, head.data(), head.size(), parts.data(), parts.size(), &o, &generation, &other));
    is("generation", 1, generation);
    table_is("bytes that were recovered", s, other, s->newest->rows);
  }
  say("checkpoint in one call");
}
static void checkpoint_parts(Store *s) {
  if (is_rarely_stored && s->snaps.empty() && !one_in(15)) return;
  if (s->snaps.empty() || (s->snaps.size() < 2 && one_in(4))) {
    Snap *p = new Snap{};
    uint64_t number = 0;
    answers("begin a checkpoint", PDT_OK, D(pdt_checkpoint_begin, s->h, &number, &p->h));
    is("its number", (long long)s->newest->number, (long long)number);
    s->rebuilt++;
    p->rebuilt = s->rebuilt;
    s->folded = copy_of(s->newest);
    p->v = s->newest;
    s->snaps.push_back(p);
    say("begin a checkpoint of %" PRIu64, number);
    return;
  }
  size_t i = (size_t)below((int64_t)s->snaps.size());
  Snap *p = s->snaps[i];
  switch (below(5)) {
    case 0:
    case 1:
    case 4: {
      if (!p->written && one_in(6)) {
        answers("install what isn't written", PDT_MISUSE, D(pdt_checkpoint_install, p->h));
        return;
      }
      if (p->written) {
        if (one_in(8)) {
          answers("write twice", PDT_MISUSE, D(pdt_checkpoint_write, p->h, room.c_str()));
          return;
        }
        bool good = !p->installed && p->rebuilt == s->rebuilt;
        int code = D(pdt_checkpoint_install, p->h);
        if (w->db && good && code == PDT_SUPERSEDED) good = false; /* by maintenance */
        answers("install a checkpoint", p->installed ? PDT_MISUSE : good ? PDT_OK : PDT_SUPERSEDED, code);
        if (good) {
          notes[p->v->local == s->newest->local ? "installs of the newest table" : "installs under later commits"]++;
          restack(s, p->v);
          p->installed = true;
          say("install a checkpoint of %" PRIu64, p->v->number);
        } else if (code == PDT_SUPERSEDED) s->superseded++;
        return;
      }
      string f = new_folder();
      if (one_in(5)) answers("write nowhere", PDT_IO, D(pdt_checkpoint_write, p->h, (f + "/none").c_str()));
      answers("write", PDT_OK, D(pdt_checkpoint_write, p->h, f.c_str()));
      p->written = true;
      if (one_in(2)) {
        pdt_table *other = nullptr;
        answers("recover", PDT_OK, D(pdt_recover, f.c_str(), nullptr, &other));
        table_is("a snapshot that was recovered", s, other, p->v->rows);
      }
      clear(f);
      return;
    }
    case 2: {
      if (!one_in(3)) return;
      D(pdt_checkpoint_end, p->h);
      delete p;
      s->snaps.erase(s->snaps.begin() + (long)i);
      return;
    }
    default: { /* read it */
      Txn t;
      answers("read a checkpoint", PDT_OK, D(pdt_checkpoint_read, p->h, &t.h));
      s->begins++;
      begun(s, &t, p->v);
      read_all(&t);
      D(pdt_abort, t.h);
    }
  }
}
