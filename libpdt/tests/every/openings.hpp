/* Streams of Arrow's, and how tables are opened, closed and opened again. */
#pragma once
#include "writes.hpp"

/* ---- Arrow's streams, and rows of columns that are applied */

static void batch_is(Txn *t, const vector<size_t> &columns, const struct ArrowArray &a, size_t at) {
  is("children", (long long)columns.size(), a.n_children);
  for (size_t k = 0; k < columns.size(); k++) {
    const struct ArrowArray *c = a.children[k];
    is("a child's length", a.length, c->length);
    int type = t->s->sc.type[columns[k]];
    for (int64_t i = 0; i < a.length; i++) {
      const Cell &wanted = t->rows[at + (size_t)i]->c[columns[k]];
      size_t o = (size_t)(c->offset + i);
      if (type == PDT_INT) is("an Arrow number", wanted.n, ((const int64_t *)c->buffers[1])[o]);
      else if (type == PDT_BOOL) is("an Arrow bool", wanted.n, ((const uint8_t *)c->buffers[1])[o / 8] >> (o % 8) & 1);
      else {
        const int64_t *offsets = (const int64_t *)c->buffers[1];
        string found((const char *)c->buffers[2] + offsets[o], (size_t)(offsets[o + 1] - offsets[o]));
        if (found != wanted.t) fail("an Arrow text", wanted.t, found);
      }
    }
  }
}
static void read_stream(Txn *t, struct ArrowArrayStream *stream, const vector<size_t> &columns, size_t from, size_t to, size_t batch) {
  const Schema &sc = t->s->sc;
  struct ArrowSchema schema;
  is("get_schema", 0, stream->get_schema(stream, &schema));
  is("its children", (long long)columns.size(), schema.n_children);
  for (size_t k = 0; k < columns.size(); k++)
    if (sc.name[columns[k]] != schema.children[k]->name) fail("a child's name", sc.name[columns[k]], schema.children[k]->name);
  schema.release(&schema);
  size_t at = std::min(from, t->rows.size()), end = std::max(at, std::min(to, t->rows.size()));
  for (;;) {
    struct ArrowArray a;
    is("get_next", 0, stream->get_next(stream, &a));
    if (!a.release) break;
    if (a.length > (int64_t)(batch ? batch : 65536) || at + (size_t)a.length > end)
      fail("a batch's length", std::to_string(batch), std::to_string(a.length));
    batch_is(t, columns, a, at);
    at += (size_t)a.length;
    a.release(&a);
  }
  is("rows of a stream", (long long)end, (long long)at);
  stream->release(stream);
}
static void read_arrow(Txn *t) {
  const Schema &sc = t->s->sc;
  vector<pdt_arrow_column> asked;
  vector<size_t> columns;
  bool all = one_in(3);
  size_t n = all ? sc.width : (size_t)(1 + below((int64_t)std::min<size_t>(sc.width, 5)));
  for (size_t k = 0; k < n; k++) {
    columns.push_back(all ? k : (size_t)below((int64_t)sc.width));
    asked.push_back({columns[k], one_in(4) ? (sc.type[columns[k]] == PDT_INT    ? "l"
                                              : sc.type[columns[k]] == PDT_TEXT ? "U"
                                                                                : "b")
                                           : nullptr});
  }
  size_t from = drawn_from(t), to = one_in(3) ? SIZE_MAX : from + (size_t)below(900), batch = one_in(3) ? 0 : (size_t)(1 + below(700));
  struct ArrowArrayStream stream;
  if (!t->dbtxn && t->eff.empty() && !t->s->pins.empty() && one_in(2)) {
    Pin &p = t->s->pins[(size_t)below((int64_t)t->s->pins.size())];
    Txn over;
    over.s = t->s;
    over.base = p.v;
    over.rows = p.v->rows;
    answers("a pin's stream", PDT_OK, D(pdt_arrow, p.h, all && one_in(2) ? nullptr : asked.data(), n, from, to, batch, &stream));
    t->s->begins++;
    read_stream(&over, &stream, columns, from, to, batch);
    return;
  }
  bool again = all && one_in(6);
  if (again) from = 0, to = SIZE_MAX;
  answers("a stream", PDT_OK, D(pdt_txn_arrow, t->h, all && one_in(2) ? nullptr : asked.data(), n, from, to, batch, &stream));
  if (again) { /* into another table */
    pdt_table *other;
    vector<const char *> key;
    for (size_t k = 0; k < sc.key; k++) key.push_back(sc.name[k].c_str());
    pdt_arrow_fault fault{};
    fault.size = sizeof fault;
    last = "pdt_open_arrow";
    drawn["pdt_open_arrow"]++;
    answers("open a stream", PDT_OK, pdt_open_arrow(&stream, key.data(), key.size(), nullptr, &fault, &other));
    table_is("a table over a stream", t->s, other, t->rows);
    return;
  }
  read_stream(t, &stream, columns, from, to, batch);
}
/* ---- openings */

static Schema drawn_schema(bool may_outside) {
  Schema sc;
  sc.key = (size_t)(1 + (one_in(2) ? 0 : below(4)));
  sc.width = sc.key + (size_t)(one_in(12) ? 0 : one_in(15) ? 32 - (int64_t)sc.key : 1 + below(5));
  if (sc.width > 32) sc.width = 32;
  bool fine = false;
  for (size_t c = 0; c < sc.width; c++) {
    int type = (int)(1 + below(3));
    if (c < sc.key) {
      if (type != PDT_BOOL) fine = true;
      if (c + 1 == sc.key && !fine) type = PDT_INT;
    } else if (one_in(2)) type = PDT_INT;
    sc.type.push_back(type);
    sc.outside.push_back(may_outside && c >= sc.key && one_in(3));
    string name = "c" + std::to_string(c);
    if (one_in(10)) name += "\"q,\xc3\xa4";
    sc.name.push_back(name);
  }
  return sc;
}
static Rows drawn_rows(const Schema &sc, size_t n) {
  std::map<Cells, Cells, KeyLess> all;
  int spread = (int)std::max<size_t>(20, n * 2);
  for (size_t i = 0; i < 3 * n && all.size() < n; i++) {
    Cells row = drawn_row(sc, spread);
    all[key_of(sc, row)] = row;
  }
  Rows rows;
  for (auto &e : all) {
    R r{e.second, e.second, 0, 0};
    for (size_t c = 0; c < sc.width; c++)
      if (sc.outside[c]) r.c[c] = Cell{};
    r.sid = (int64_t)rows.size();
    rows.push_back(keep(r));
  }
  return rows;
}
static string quoted(const string &t) {
  string q = "\"";
  for (char ch : t) {
    if (ch == '"') q += '"';
    q += ch;
  }
  return q + "\"";
}
static string csv_of(const Schema &sc, const Rows &rows) {
  static const char *const words[] = {"", "int", "text", "bool"};
  string csv;
  for (size_t c = 0; c < sc.width; c++) csv += (c ? "," : "") + quoted(sc.name[c] + ":" + words[sc.type[c]] + (c < sc.key ? ":key" : ""));
  csv += "\n";
  vector<size_t> order(rows.size());
  for (size_t i = 0; i < rows.size(); i++) order[i] = i;
  for (size_t i = rows.size(); i > 1; i--) std::swap(order[i - 1], order[(size_t)below((int64_t)i)]);
  for (size_t i : order) {
    for (size_t c = 0; c < sc.width; c++) {
      const Cell &x = rows[i]->c[c];
      csv += c ? "," : "";
      if (sc.type[c] == PDT_TEXT) csv += quoted(x.t);
      else if (sc.type[c] == PDT_BOOL) csv += x.n ? "true" : "false";
      else csv += std::to_string(x.n);
    }
    csv += "\n";
  }
  return csv;
}
/* Whether a text without types shows the types that the columns have: each text column has a text that is neither an int nor a boolean. */
static bool shows_types(const Schema &sc, const Rows &rows) {
  for (size_t c = 0; c < sc.width; c++) {
    bool shown = sc.type[c] != PDT_TEXT && !rows.empty();
    for (auto &row : rows) {
      const string &t = row->c[c].t;
      bool is_word = t == "true" || t == "false";
      if (sc.type[c] == PDT_TEXT && !is_word && t.find_first_not_of("+-0123456789") != string::npos) shown = true;
    }
    if (!shown) return false;
  }
  return true;
}
/* A text without types: the key's columns stand anywhere among the others, which keep their order. */
static string plain_csv_of(const Schema &sc, const Rows &rows) {
  vector<size_t> columns;
  for (size_t c = sc.key; c < sc.width; c++) columns.push_back(c);
  for (size_t c = 0; c < sc.key; c++) columns.insert(columns.begin() + below((int64_t)columns.size() + 1), c);
  string csv;
  for (size_t c : columns) csv += (csv.empty() ? "" : ",") + quoted(sc.name[c]);
  csv += "\n";
  for (size_t i = rows.size(); i-- > 0;) {
    string line;
    for (size_t k = 0; k < columns.size(); k++) {
      const Cell &x = rows[i]->c[columns[k]];
      line += k ? "," : "";
      if (sc.type[columns[k]] == PDT_TEXT) line += quoted(x.t);
      else if (sc.type[columns[k]] == PDT_BOOL) line += x.n ? "true" : "false";
      else line += std::to_string(x.n);
    }
    csv += line + "\n";
  }
  return csv;
}
struct Plain { /* as pdt_open_plain takes it */
  vector<const char *> key;
  pdt_plain how;
  Plain(const Schema &sc, const Rows &rows) {
    for (size_t c = 0; c < sc.key; c++) key.push_back(sc.name[c].c_str());
    how = pdt_plain{sizeof how, key.data(), key.size(), rows.size()};
    notes["plain texts"]++;
  }
};
struct Columns { /* as pdt_open_columns takes them */
  vector<pdt_column> columns;
  vector<vector<int64_t>> numbers;
  vector<vector<uint64_t>> offsets;
  vector<vector<uint8_t>> bytes;
  Columns(const Schema &sc, const Rows &rows) : columns(sc.width), numbers(sc.width), offsets(sc.width), bytes(sc.width) {
    for (size_t c = 0; c < sc.width; c++) {
      pdt_column &p = columns[c];
      p = pdt_column{sc.name[c].c_str(), sc.type[c], rows.size(), nullptr, nullptr, nullptr, 0};
      if (sc.outside[c]) {
        p.type |= PDT_OUTSIDE;
        continue;
      }
      size_t skip = (size_t)below(4);
      if (sc.type[c] == PDT_TEXT) {
        for (size_t i = 0; i < skip; i++) bytes[c].push_back('#'); /* offsets needn't begin at 0 */
        for (const R *r : rows) {
          offsets[c].push_back(bytes[c].size());
          bytes[c].insert(bytes[c].end(), r->c[c].t.begin(), r->c[c].t.end());
        }
        offsets[c].push_back(bytes[c].size());
        p.offsets = offsets[c].data();
        p.bytes = bytes[c].data();
        p.len = bytes[c].size();
      } else if (sc.type[c] == PDT_BOOL) {
        for (const R *r : rows) bytes[c].push_back((uint8_t)r->c[c].n);
        p.bytes = bytes[c].data();
      } else {
        for (const R *r : rows) numbers[c].push_back(r->c[c].n);
        p.numbers = numbers[c].data();
      }
    }
  }
};
/* Rows of columns are inserted, upserted or deleted: all or none. */
static void apply_rows(Txn *t) {
  Store *s = t->s;
  const Schema &sc = s->sc;
  int what = (int)(1 + below(3)), n = (int)below(one_in(4) ? 60 : 8);
  Rows rows;
  for (int i = 0; i < n; i++) {
    Cells row = drawn_row(sc, spread_of(s));
    if (what == PDT_APPLY_DELETE ? !one_in(8) : one_in(what == PDT_APPLY_UPSERT ? 2 : 25)) {
      Cells key = some_key(t, spread_of(s));
      std::copy(key.begin(), key.end(), row.begin());
    }
    rows.push_back(keep(R{row, row, -1, all_of(sc)}));
  }
  Schema inside = sc;
  inside.outside.assign(sc.width, false);
  Columns cs(inside, rows);
  vector<pdt_column> columns = cs.columns;
  for (size_t i = columns.size(); i > 1; i--) std::swap(columns[i - 1], columns[(size_t)below((int64_t)i)]); /* in any order */
  before_write(t);
  /* the model, row by row */
  Effects eff = t->eff;
  Rows table = t->rows;
  int wanted = PDT_OK;
  size_t at_row = 0;
  for (; at_row < rows.size() && !wanted; at_row++) {
    const Cells &row = rows[at_row]->c;
    Cells key = key_of(sc, row);
    size_t at = rank_of(table, key);
    bool there = is_at(table, at, key);
    auto it = eff.find(key);
    if (what == PDT_APPLY_DELETE) {
      if (!there) wanted = PDT_MISSING;
      else {
        table.erase(table.begin() + (long)at);
        if (it != eff.end() && it->second.kind == INS) eff.erase(it);
        else eff[key] = Eff{DEL, 0, nullptr};
      }
    } else if (!there) {
      if (table.size() >= s->limit) wanted = PDT_FULL;
      else {
        table.insert(table.begin() + (long)at, rows[at_row]);
        eff[key] = Eff{it == eff.end() ? INS : REP, 0, rows[at_row]};
      }
    } else if (what == PDT_APPLY_INSERT) {
      wanted = PDT_DUPLICATE;
    } else if (sc.width > sc.key) {
      uint32_t mask = all_of(sc) & ~((1u << sc.key) - 1);
      R r = *table[at];
      for (size_t c = sc.key; c < sc.width; c++) r.c[c] = r.real[c] = row[c];
      if (r.sid >= 0) r.changed |= mask;
      const R *kept = table[at] = keep(r);
      if (it == eff.end()) eff[key] = Eff{CHG, mask, kept};
      else if (it->second.kind == CHG) it->second = Eff{CHG, it->second.mask | mask, kept};
      else it->second.row = kept;
    }
    if (wanted) break;
  }
  pdt_arrow_fault fault{};
  fault.size = sizeof fault;
  uint64_t done = 999;
  answers("apply", wanted, D(pdt_apply_columns, t->h, columns.data(), columns.size(), what, &fault, &done));
  is("applied", wanted ? 0 : n, (long long)done);
  if (wanted) {
    is("the row of it", (long long)at_row, (long long)fault.place.row);
    return;
  }
  t->eff = eff;
  t->rows = table;
}
static void new_model(Store *s, const Rows &rows, uint64_t number) {
  V v = std::make_shared<Version>();
  v->rows = rows;
  v->stable = s->knows_stable ? std::make_shared<Rows>(rows) : nullptr;
  v->number = number;
  s->newest = s->folded = v;
  s->opened_at = number;
  s->past.clear();
  s->past[0] = v;
  s->effects.clear();
  s->numbers.clear();
  s->cut_at = 0;
  s->rebuilt = 0;
  s->begins = s->commits = s->conflicts = s->too_old = s->full = s->folds = s->checkpoints = s->superseded = 0;
}
/* Columns with a fault: the place of it is told. */
static void bad_columns(const Schema &sc, const Rows &rows, const pdt_options *o) {
  if (rows.size() < 3) return;
  Columns cs(sc, rows);
  pdt_table *table = nullptr;
  pdt_place place{777, 777};
  size_t row = (size_t)below((int64_t)rows.size()), c = (size_t)below((int64_t)sc.width);
  if (one_in(3)) { /* the first column too short, or one too long */
    if (sc.width < 2) return;
    c = 1 + (size_t)below((int64_t)sc.width - 1);
    if (sc.outside[c]) return;
    cs.columns[c].rows = row;
    answers("a short column", PDT_TYPE_MISMATCH, D(pdt_open_columns, cs.columns.data(), sc.width, sc.key, o, &place, &table));
    is("its column", (long long)c, (long long)place.column);
    is("its row", (long long)row, (long long)place.row);
    return;
  }
  if (sc.outside[c]) {
    int64_t number = 0;
    uint8_t byte = 0;
    if (one_in(2)) cs.columns[c].numbers = &number;
    else cs.columns[c].bytes = &byte;
    answers("values of a column outside", PDT_MISUSE, D(pdt_open_columns, cs.columns.data(), sc.width, sc.key, o, &place, &table));
    return;
  }
  if (sc.type[c] == PDT_BOOL) {
    cs.bytes[c][row] = 2;
  } else if (sc.type[c] == PDT_TEXT) {
    if (rows[row]->c[c].t.empty()) return;
    cs.bytes[c][cs.offsets[c][row]] = 0xff;
  } else {
    if (c >= sc.key || c > 0 || row == 0 || sc.key > 1) return;
    std::swap(cs.numbers[0][row - 1], cs.numbers[0][row]); /* row's key isn't above the one before */
    answers("keys that don't ascend", PDT_NOT_ASCENDING, D(pdt_open_columns, cs.columns.data(), sc.width, sc.key, o, &place, &table));
    is("at row", (long long)row, (long long)place.row);
    return;
  }
  answers("a column with a fault", PDT_TYPE_MISMATCH, D(pdt_open_columns, cs.columns.data(), sc.width, sc.key, o, &place, &table));
  is("at column", (long long)c, (long long)place.column);
  is("at row", (long long)row, (long long)place.row);
}
static void bad_text(const Schema &sc, const Rows &rows, const pdt_options *o) {
  if (rows.size() < 2) return;
  string csv = csv_of(sc, rows);
  pdt_table *table = (pdt_table *)&csv;
  pdt_fault fault{{99, 99}, nullptr};
  csv += sc.width == 2 ? "x,y,z\n" : "x,y\n";
  int code = D(pdt_open_csv, csv.data(), csv.size(), o, &fault, &table);
  answers("a text with a fault", PDT_BAD_TABLE, code);
  if (!fault.cause || table) fail("a fault", "a cause, no table", "none");
}
static void open_table(Store *s) {
  size_t n = one_in(6) ? (size_t)below(4) : one_in(3) ? (size_t)(900 + below(2400)) : (size_t)below(220);
  if (is_big && one_in(2)) n = (size_t)(4000 + below(30000));
  if (s->sc.width > 12) n = std::min<size_t>(n, 60);
  Rows rows = drawn_rows(s->sc, n);
  n = rows.size();
  s->recent = one_in(3) ? (uint64_t)(1 + below(6)) : one_in(2) ? 65536 : (uint64_t)(10 + below(100));
  s->limit = one_in(4) ? n + (uint64_t)below(12) : 2147483647;
  if (!s->limit) s->limit = 1;
  s->by_row = one_in(3);
  pdt_options o = some_options(s);
  pdt_place place;
  pdt_fault fault;
  bool outside = std::count(s->sc.outside.begin(), s->sc.outside.end(), true) > 0;
  if (n > s->limit) abort();
  if (!w->db && n > 1 && one_in(5)) {
    pdt_options small = o;
    small.row_limit = n - 1;
    Columns cs(s->sc, rows);
    answers("too many rows", PDT_TOO_MANY_ROWS, D(pdt_open_columns, cs.columns.data(), s->sc.width, s->sc.key, &small, &place, &s->h));
    small.row_limit = 2147483648u;
    answers("a bad limit", PDT_BAD_LIMIT, D(pdt_open_columns, cs.columns.data(), s->sc.width, s->sc.key, &small, &place, &s->h));
    small = o;
    small.recent = 65537;
    answers("a bad limit", PDT_BAD_LIMIT, D(pdt_open_columns, cs.columns.data(), s->sc.width, s->sc.key, &small, &place, &s->h));
  }
  if (!w->db && one_in(3)) bad_columns(s->sc, rows, &o);
  if (!outside && one_in(5)) bad_text(s->sc, rows, &o);
  if (w->db) {
    s->name = (one_in(6) ? "t\xc3\xa4 / .." : "table ") + std::to_string(w->next_table++);
    if (outside) {
      Columns cs(s->sc, rows);
      answers("a database's column outside", PDT_MISUSE,
              D(pdt_table_create, w->d, s->name.c_str(), cs.columns.data(), s->sc.width, s->sc.key, &o, &place, &s->h));
      for (size_t c = 0; c < s->sc.width; c++) s->sc.outside[c] = false;
      rows = drawn_rows(s->sc, n);
      s->limit = std::max<uint64_t>(s->limit, rows.size());
      o = some_options(s);
    }
    if (one_in(4) && shows_types(s->sc, rows)) {
      Plain plain(s->sc, rows);
      string csv = plain_csv_of(s->sc, rows);
      answers("create", PDT_OK, D(pdt_table_create_plain, w->d, s->name.c_str(), csv.data(), csv.size(), &plain.how, &o, &fault, &s->h));
    } else if (one_in(2)) {
      Columns cs(s->sc, rows);
      answers("create", PDT_OK, D(pdt_table_create, w->d, s->name.c_str(), cs.columns.data(), s->sc.width, s->sc.key, &o, &place, &s->h));
    } else {
      string csv = csv_of(s->sc, rows);
      answers("create", PDT_OK, D(pdt_table_create_csv, w->d, s->name.c_str(), csv.data(), csv.size(), &o, &fault, &s->h));
    }
    if (one_in(4)) {
      pdt_table *again = s->h;
      answers("create twice", PDT_EXISTS, D(pdt_table_create_csv, w->d, s->name.c_str(), "a:int:key\n", 10, nullptr, &fault, &again));
    }
    s->knows_stable = false;
    new_model(s, rows, w->number);
    return;
  }
  if (outside || one_in(2)) {
    Columns cs(s->sc, rows);
    if (outside) notes["tables with columns outside"]++;
    answers("open columns", PDT_OK,
            D(pdt_open_columns, cs.columns.data(), s->sc.width, s->sc.key, &o, one_in(2) ? &place : nullptr, &s->h));
  } else if (one_in(3) && shows_types(s->sc, rows)) {
    Plain plain(s->sc, rows);
    string csv = plain_csv_of(s->sc, rows);
    bool has = true;
    answers("a header without types", PDT_OK, D(pdt_csv_has_types, csv.data(), csv.size(), &has));
    is("its types", false, has);
    answers("open", PDT_OK, D(pdt_open_plain, csv.data(), csv.size(), &plain.how, &o, one_in(2) ? &fault : nullptr, &s->h));
  } else {
    string csv = csv_of(s->sc, rows);
    if (one_in(2)) answers("open", PDT_OK, D(pdt_open, csv.data(), csv.size(), &o, &s->h));
    else answers("open", PDT_OK, D(pdt_open_csv, csv.data(), csv.size(), &o, one_in(2) ? &fault : nullptr, &s->h));
  }
  new_model(s, rows, 0);
  say("opened %zu rows of %zu columns, key %zu, recent %" PRIu64 ", limit %" PRIu64 ", by row %d", n, s->sc.width, s->sc.key, s->recent,
      s->limit, s->by_row);
}
static void end_all(Store *s) {
  while (!s->txns.empty()) {
    Txn *t = s->txns.back();
    if (!w->db) answers("close with a transaction open", PDT_MISUSE, D(pdt_close, s->h));
    if (one_in(2)) commit(t);
    else abort_txn(t);
  }
  for (auto &p : s->pins) {
    if (!w->db) answers("close with a pin kept", PDT_MISUSE, D(pdt_close, s->h));
    D(pdt_unpin, p.h);
  }
  s->pins.clear();
  for (Snap *p : s->snaps) {
    if (!w->db) answers("close with a checkpoint begun", PDT_MISUSE, D(pdt_close, s->h));
    D(pdt_checkpoint_end, p->h);
    delete p;
  }
  s->snaps.clear();
}
/* Closes a table outside a database, and opens its image again with other options. */
static void reopen(Store *s) {
  end_all(s);
  Rows rows = s->newest->rows;
  Taken t;
  t.left = -1;
  string f;
  bool by_files = one_in(2);
  if (by_files) {
    f = new_folder();
    answers("checkpoint", PDT_OK, D(pdt_checkpoint, s->h, f.c_str()));
  } else {
    answers("checkpoint to", PDT_OK, D(pdt_checkpoint_to, s->h, take, &t, nullptr));
  }
  answers("close", PDT_OK, D(pdt_close, s->h));
  s->recent = one_in(2) ? (uint64_t)(1 + below(6)) : 65536;
  s->limit = one_in(3) ? rows.size() + 1 + (uint64_t)below(12) : 2147483647;
  s->by_row = one_in(2);
  pdt_options o = some_options(s);
  if (by_files) {
    answers("recover", PDT_OK, D(pdt_recover, f.c_str(), &o, &s->h));
    clear(f);
  } else {
    vector<pdt_bytes> parts;
    for (size_t c = 0; c < s->sc.width; c++) parts.push_back({t.at[c].data(), t.at[c].size()});
    answers("recover from", PDT_OK,
            D(pdt_recover_from, t.at[PDT_HEADER].data(), t.at[PDT_HEADER].size(), parts.data(), parts.size(), &o, nullptr, &s->h));
  }
  new_model(s, *stable_of(rows), 0);
  say("reopened");
}
