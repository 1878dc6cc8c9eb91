/* Databases: their tables, and works over several of them. */
#pragma once
#include "openings.hpp"

/* ---- databases */

static void dbtxn_begin() {
  if (w->dbtxns.size() > 2) return;
  Work *k = new Work{nullptr, {}, {}, w->number}; /* also where the table that it changed was dropped */
  answers("begin a database transaction", PDT_OK, D(pdt_dbtxn_begin, w->d, &k->h));
  for (Store *s : w->tables) k->saw.push_back({s, s->newest});
  w->dbtxns.push_back(k);
}
static Txn *dbtxn_on(Work *k) {
  size_t i = (size_t)below((int64_t)w->tables.size());
  Store *s = w->tables[i];
  pdt_txn *h = nullptr;
  V v;
  for (auto &p : k->saw)
    if (p.first == s) v = p.second;
  answers("work on", v ? PDT_OK : PDT_MISSING, D(pdt_dbtxn_on, k->h, s->h, &h));
  if (!v) return nullptr;
  Txn *&t = k->txns[s];
  if (!t) {
    t = new Txn;
    t->h = h;
    t->dbtxn = k;
    s->begins++;
    begun(s, t, v);
  }
  if (t->h != h) fail("a database transaction's part", "the same", "another");
  return t;
}
static void dbtxn_end(Work *k) {
  for (auto &p : k->txns) delete p.second;
  w->dbtxns.erase(std::find(w->dbtxns.begin(), w->dbtxns.end(), k));
  delete k;
}
static void dbtxn_commit(Work *k) {
  vector<Txn *> changed;
  for (auto &p : k->txns) {
    lent_is(p.second);
    if (!p.second->eff.empty()) changed.push_back(p.second);
  }
  if (one_in(4)) {
    D(pdt_dbtxn_abort, k->h);
    dbtxn_end(k);
    return;
  }
  vector<int> codes;
  for (Txn *t : changed) codes.push_back(due(t));
  bool good = std::count(codes.begin(), codes.end(), PDT_OK) == (long)codes.size();
  uint64_t number = 424242;
  int code = D(pdt_dbtxn_commit, k->h, &number);
  replies[last][code]++;
  if (good) is("a database transaction's commit", PDT_OK, code);
  else if (code == PDT_OK || std::find(codes.begin(), codes.end(), code) == codes.end())
    fail("a database transaction's commit", "a code that is due", std::to_string(code));
  if (changed.empty()) {
    is("an idle work's number", (long long)k->number, (long long)number);
  } else if (good) {
    w->number++;
    for (Txn *t : changed) {
      count_code(t->s, PDT_OK);
      install(t->s, t->eff, w->number);
    }
    is("a database transaction's number", (long long)w->number, (long long)number);
    if (changed.size() > 1) notes["works over several tables"]++;
  } else {
    /* the table that refused has counted it: the first, by the tables' order, that answers so */
    for (Store *s : w->tables) {
      auto it = k->txns.find(s);
      if (it == k->txns.end() || it->second->eff.empty()) continue;
      int d = due(it->second);
      if (d != PDT_OK) {
        is("the first table's refusal", d, code);
        count_code(s, d);
        break;
      }
    }
    is("a refused work's number", (long long)w->number, (long long)number);
  }
  dbtxn_end(k);
}
static void db_options() {
  w->o = pdt_database_options{};
  w->o.size = sizeof w->o;
  w->o.sync = (int)below(3);
  w->o.early_reads = one_in(3);
  w->o.no_maintenance = refuses || one_in(2);
  w->o.fold_entries = (uint64_t)(one_in(2) ? 8 + below(300) : 0);
  w->o.checkpoint_entries = (uint64_t)(one_in(2) ? 20 + below(700) : 0);
  w->o.journal_bytes = (uint64_t)(one_in(2) ? 500 + below(60000) : 0);
}
static void db_open() {
  pdt_report report{};
  report.size = sizeof report;
  answers("open a database", PDT_OK,
          D(pdt_database_open, w->path.c_str(),
            !refuses && one_in(5) ? (w->o = pdt_database_options{}, w->o.size = sizeof w->o, nullptr) : &w->o, &w->d, &report));
  is("the newest commit", (long long)w->number, (long long)report.commits);
  is("no byte is torn", 0, (long long)report.torn_bytes);
  notes["commits replayed"] += (long)report.replayed;
}
static void db_close() {
  while (!w->dbtxns.empty()) {
    answers("close with a database transaction", PDT_MISUSE, D(pdt_database_close, w->d));
    dbtxn_commit(w->dbtxns.back());
  }
  for (Store *s : w->tables) {
    if (!s->txns.empty()) answers("close with a transaction", PDT_MISUSE, D(pdt_database_close, w->d));
    end_all(s);
  }
  answers("close a database", PDT_OK, D(pdt_database_close, w->d));
}
static void db_reopen() {
  db_close();
  db_options();
  db_open();
  say("database reopened, sync %d", w->o.sync);
  for (Store *s : w->tables) {
    answers("open a table", PDT_OK, D(pdt_table_open, w->d, s->name.c_str(), &s->h));
    Rows rows = s->newest->rows;
    pdt_sizes sizes{};
    answers("size", PDT_OK, D(pdt_size, s->h, &sizes));
    uint64_t number = s->newest->number;
    if (sizes.commits != number) {
      notes["tables opened again whose number is the database's, and no commit's of theirs"]++;
      is("the number of a table that was opened again", (long long)w->number, (long long)sizes.commits);
      number = w->number;
    }
    new_model(s, rows, number);
    Txn t;
    answers("begin", PDT_OK, D(pdt_begin, s->h, &t.h));
    s->begins++;
    begun(s, &t, s->newest);
    read_all(&t);
    D(pdt_abort, t.h);
  }
}
static void db_step() {
  char name[PDT_MAX_NAME + 1];
  switch (below(9)) {
    case 0:
      if (w->tables.size() < 4) {
        Store *s = new Store;
        s->sc = drawn_schema(one_in(5));
        w->tables.push_back(s);
        open_table(s);
      }
      break;
    case 1:
      if (w->tables.size() > 1 && one_in(3)) {
        size_t i = (size_t)below((int64_t)w->tables.size());
        Store *s = w->tables[i];
        bool used = !s->txns.empty() || !s->pins.empty() || !s->snaps.empty();
        for (Work *k : w->dbtxns)
          for (auto &p : k->saw) used |= p.first == s;
        answers("drop", used ? PDT_MISUSE : PDT_OK, D(pdt_table_drop, w->d, s->name.c_str()));
        if (!used) {
          w->tables.erase(w->tables.begin() + (long)i);
          pdt_table *none;
          answers("open what was dropped", PDT_MISSING, D(pdt_table_open, w->d, s->name.c_str(), &none));
          delete s;
        }
      }
      break;
    case 2: {
      size_t i = (size_t)below((int64_t)w->tables.size() + 2);
      int code = D(pdt_table_name, w->d, i, name, sizeof name);
      answers("name", i < w->tables.size() ? PDT_OK : PDT_MISSING, code);
      if (!code && w->tables[i]->name != name) fail("a table's name", w->tables[i]->name, name);
      if (!code && one_in(3)) answers("no room", PDT_TOO_SMALL, D(pdt_table_name, w->d, i, name, w->tables[i]->name.size()));
      break;
    }
    case 3: {
      pdt_database_counts c{};
      c.size = sizeof c;
      answers("count", PDT_OK, D(pdt_database_count, w->d, &c));
      is("newest", (long long)w->number, (long long)c.commits);
      is("durable", 1, c.durable <= c.commits);
      is("tables", (long long)w->tables.size(), (long long)c.tables);
      if (!refuses) is("faults", 0, (long long)c.faults);
      if (w->o.sync == PDT_SYNC_FULL) is("all is durable", (long long)c.commits, (long long)c.durable);
      notes["folds of maintenance (most of one opening)"] = std::max<long>(notes["folds of maintenance (most of one opening)"],
                                                                           (long)c.folds);
      notes["images of maintenance (most of one opening)"] = std::max<long>(notes["images of maintenance (most of one opening)"],
                                                                            (long)c.checkpoints);
      break;
    }
    case 4: answers("maintenance", PDT_OK, D(pdt_maintain, w->d)); break;
    case 5: dbtxn_begin(); break;
    case 6:
    case 7:
      if (!w->dbtxns.empty()) {
        Work *k = w->dbtxns[(size_t)below((int64_t)w->dbtxns.size())];
        Txn *t = dbtxn_on(k);
        if (!t) break;
        for (int i = (int)below(8); i >= 0; i--) {
          if (one_in(3)) read_something(t);
          else if (one_in(6)) marks(t);
          else write_something(t);
        }
        if (one_in(10)) bulk(t);
        uint64_t n;
        if (one_in(8)) answers("commit of a database transaction's", PDT_MISUSE, D(pdt_commit, t->h, &n));
        if (one_in(8)) answers("prepare of a database transaction's", PDT_MISUSE, D(pdt_prepare, t->h, &n));
        if (one_in(8)) D(pdt_abort, t->h);
        read_own(t);
      }
      break;
    default:
      if (!w->dbtxns.empty()) dbtxn_commit(w->dbtxns[(size_t)below((int64_t)w->dbtxns.size())]);
  }
  pdt_database *again;
  pdt_report report{};
  report.size = sizeof report;
  if (one_in(60)) answers("open twice", PDT_LOCKED, D(pdt_database_open, w->path.c_str(), nullptr, &again, &report));
}
