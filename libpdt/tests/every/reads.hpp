/* Each call that reads, at drawn places, and the entries of layers, which are applied to the rows below them. */
#pragma once
#include "model.hpp"

/* ---- reads */

static void lent_is(Txn *t) {
  for (auto &l : t->lent)
    if (l.wanted.size() && memcmp(l.at, l.wanted.data(), l.wanted.size()))
      fail("what was lent", l.wanted, string((const char *)l.at, l.wanted.size()));
}
static void row_is(const Schema &sc, const char *what, const R *wanted, const int64_t *numbers, const char *text, size_t bytes) {
  size_t at = 0;
  for (size_t c = 0; c < sc.width; c++) {
    if (sc.type[c] == PDT_TEXT) {
      const string &t = wanted->c[c].t;
      is(what, (long long)t.size(), numbers[c]);
      if (at + t.size() > bytes || memcmp(text + at, t.data(), t.size()))
        fail(what, t, string(text + at, std::min(t.size(), bytes - std::min(at, bytes))));
      at += t.size();
    } else {
      is(what, wanted->c[c].n, numbers[c]);
    }
  }
  is(what, (long long)at, (long long)bytes);
}
/* A text in quotes, cut after 64 characters; of the characters that are drawn only these are escaped. */
static string shown_text(const string &text) {
  string out = "\"";
  size_t characters = 0;
  for (size_t i = 0; i < text.size(); i++) {
    unsigned char at = (unsigned char)text[i];
    char word[8];
    if ((at & 0xc0) != 0x80 && characters++ == 64) return out + "\"..";
    snprintf(word, sizeof word, at < 32 || at == 127 ? "\\x%02x" : "%c", at);
    out += at == '"' || at == '\\' ? string("\\") + text[i] : at == '\n' ? "\\n" : at == '\r' ? "\\r" : at == '\t' ? "\\t" : word;
  }
  return out + "\"";
}
/* The sentence of the last call, which names a key. A long one is cut. */
static void sentence_is(pdt_code code, const string &before, const Schema &sc, const Cells &key, const string &behind) {
  string wanted;
  for (size_t c = 0; c < sc.key; c++) {
    bool is_plain = sc.name[c].find_first_of("\",") == string::npos;
    wanted += (c ? ", " : "") + (is_plain ? sc.name[c] : shown_text(sc.name[c])) + "=";
    wanted += sc.type[c] == PDT_TEXT   ? shown_text(key[c].t)
              : sc.type[c] == PDT_BOOL ? (key[c].n ? "true" : "false")
                                       : std::to_string(key[c].n);
  }
  wanted = before + wanted + behind;
  string found = D(pdt_errmsg, code);
  notes[wanted.size() < 340 ? "sentences of keys" : "long sentences of keys"]++;
  if (wanted.size() < 340 && found != wanted) fail("a sentence", wanted, found);
}
static size_t bytes_of(const Schema &sc, const R *r) {
  size_t n = 0;
  for (size_t c = 0; c < sc.width; c++) n += r->c[c].t.size();
  return n;
}
static void read_row(Txn *t) {
  const Schema &sc = t->s->sc;
  vector<int64_t> numbers(sc.width);
  bool by_key = one_in(2);
  const R *wanted = nullptr;
  size_t at;
  Cells key;
  if (by_key) {
    key = some_key(t, spread_of(t->s));
    at = rank_of(t->rows, key);
    if (is_at(t->rows, at, key)) wanted = t->rows[at];
  } else {
    at = (size_t)below((int64_t)t->rows.size() + 2);
    if (at < t->rows.size()) wanted = t->rows[at];
  }
  size_t want = wanted ? bytes_of(sc, wanted) : 0;
  size_t space = one_in(4) && want ? (size_t)below((int64_t)want) : want + (one_in(2) ? 0 : 7);
  vector<char> text(space + 1);
  size_t needed = 99999;
  void *out = space || one_in(2) ? text.data() : nullptr;
  int code;
  if (by_key) {
    Passed p(sc, key);
    code = D(pdt_get, t->h, p.numbers.data(), p.at(), p.texts.size(), numbers.data(), out, space, &needed);
  } else {
    code = D(pdt_row_at, t->h, at, numbers.data(), out, space, one_in(5) ? (needed = want, nullptr) : &needed);
  }
  answers("a row", !wanted ? PDT_MISSING : want > space ? PDT_TOO_SMALL : PDT_OK, code);
  if (by_key && !wanted) sentence_is(PDT_MISSING, "no row has the key ", sc, key, "");
  if (wanted) is("how many bytes", (long long)want, (long long)needed);
  if (code == PDT_OK) row_is(sc, "a row's cells", wanted, numbers.data(), text.data(), want);
}
static void read_rank(Txn *t) {
  Cells key = some_key(t, spread_of(t->s));
  Passed p(t->s->sc, key);
  uint64_t at = 7, rows = 7;
  bool there = false;
  answers("rank", PDT_OK, D(pdt_rank, t->h, p.numbers.data(), p.at(), p.texts.size(), &at, &there));
  size_t wanted = rank_of(t->rows, key);
  is("rank", (long long)wanted, (long long)at);
  is("there", is_at(t->rows, wanted, key), there);
  answers("rows", PDT_OK, D(pdt_rows, t->h, &rows));
  is("rows", (long long)t->rows.size(), (long long)rows);
}
static size_t drawn_from(const Txn *t) {
  return one_in(20) ? t->rows.size() + (size_t)below(3) : (size_t)below((int64_t)t->rows.size() + 1);
}
static size_t drawn_count() {
  switch (below(6)) {
    case 0: return (size_t)below(3);
    case 1: return (size_t)(2 + below(20));
    case 2: return (size_t)(1000 + below(60));
    case 3: return 4096;
    default: return (size_t)below(300);
  }
}
static size_t left_from(const Txn *t, size_t from) { return from < t->rows.size() ? t->rows.size() - from : 0; }

static void read_cells(Txn *t, size_t c, size_t from, size_t most) {
  const Schema &sc = t->s->sc;
  bool is_text = sc.type[c] == PDT_TEXT;
  vector<int64_t> numbers(most + 1);
  size_t space = is_text ? (size_t)(one_in(3) ? below(40) : below(1) + (int64_t)most * 12) : (size_t)below(3);
  vector<char> text(space + 1);
  size_t count = most, bytes = 12345;
  answers("cells", PDT_OK,
          D(pdt_cells, t->h, c, from, most ? numbers.data() : nullptr, &count, space ? text.data() : nullptr, space, &bytes));
  size_t wanted = 0, used = 0;
  for (size_t i = from; i < t->rows.size() && wanted < most; i++, wanted++) {
    if (used + t->rows[i]->c[c].t.size() > space) break;
    used += t->rows[i]->c[c].t.size();
  }
  is("cells: how many", (long long)wanted, (long long)count);
  is("cells: bytes", (long long)used, (long long)bytes);
  size_t at = 0;
  for (size_t i = 0; i < count; i++) {
    const Cell &x = t->rows[from + i]->c[c];
    if (is_text) {
      is("cells: a text's length", (long long)x.t.size(), numbers[i]);
      if (memcmp(text.data() + at, x.t.data(), x.t.size())) fail("cells: a text", x.t, string(text.data() + at, x.t.size()));
      at += x.t.size();
    } else {
      is("cells: a number", x.n, numbers[i]);
    }
  }
}
static void read_ints(Txn *t, size_t c, size_t from, size_t most) {
  vector<int64_t> numbers(most + 1);
  size_t count = most;
  answers("ints", PDT_OK, D(pdt_ints, t->h, c, from, most ? numbers.data() : nullptr, &count));
  is("ints: how many", t->s->sc.type[c] == PDT_INT ? (long long)std::min(most, left_from(t, from)) : 0, (long long)count);
  for (size_t i = 0; i < count; i++) is("an int", t->rows[from + i]->c[c].n, numbers[i]);
}
static void read_bools(Txn *t, size_t c, size_t from, size_t most) {
  vector<uint8_t> booleans(most + 1, 9);
  size_t count = most;
  answers("bools", PDT_OK, D(pdt_bools, t->h, c, from, most ? booleans.data() : nullptr, &count));
  is("bools: how many", t->s->sc.type[c] == PDT_BOOL ? (long long)std::min(most, left_from(t, from)) : 0, (long long)count);
  for (size_t i = 0; i < count; i++) is("a bool", t->rows[from + i]->c[c].n, booleans[i]);
  is("bools: past them", 9, booleans[count]);
}
static void read_texts(Txn *t, size_t c, size_t from, size_t most) {
  vector<const char *> texts(most + 1);
  vector<int64_t> lens(most + 1);
  size_t count = most;
  answers("texts", PDT_OK, D(pdt_texts, t->h, c, from, most ? texts.data() : nullptr, most ? lens.data() : nullptr, &count));
  is("texts: how many", t->s->sc.type[c] == PDT_TEXT ? (long long)std::min(most, left_from(t, from)) : 0, (long long)count);
  for (size_t i = 0; i < count; i++) {
    const string &x = t->rows[from + i]->c[c].t;
    is("a text's length", (long long)x.size(), lens[i]);
    if (!texts[i]) fail("a text's address", "one", "null");
    if (memcmp(texts[i], x.data(), x.size())) fail("a text", x, string(texts[i], x.size()));
    if (t->lent.size() < 60 && x.size()) t->lent.push_back({texts[i], x, true});
  }
}
static void read_spans(Txn *t, size_t c, size_t from, size_t to, size_t most) {
  vector<pdt_int_span> spans(most + 1);
  size_t count = most;
  uint64_t rows = 77;
  answers("pieces", PDT_OK, D(pdt_int_spans, t->h, c, from, to, most ? spans.data() : nullptr, &count, &rows));
  size_t end = std::min(to, t->rows.size()), at = from;
  bool is_int = t->s->sc.type[c] == PDT_INT;
  if (!is_int) {
    is("pieces of another type", 0, (long long)count);
    is("rows of another type", 0, (long long)rows);
    return;
  }
  for (size_t i = 0; i < count; i++) {
    is("a piece that is empty", 1, spans[i].count > 0);
    if (spans[i].at) {
      for (uint64_t k = 0; k < spans[i].count; k++, at++) {
        if (at >= end) fail("pieces past the end", std::to_string(end), std::to_string(at));
        is("a number of a piece", t->rows[at]->c[c].n, spans[i].at[k]);
      }
      if (t->lent.size() < 60)
        t->lent.push_back({spans[i].at, string((const char *)spans[i].at, std::min<uint64_t>(spans[i].count, 8) * 8), false});
      notes["pieces lent"]++;
    } else {
      is("a number by value", 1, (long long)spans[i].count);
      if (at >= end) fail("pieces past the end", std::to_string(end), std::to_string(at));
      is("a number of a piece by value", t->rows[at]->c[c].n, spans[i].number);
      at++;
      notes["pieces by value"]++;
    }
  }
  is("rows of pieces", (long long)(at - from), (long long)rows);
  if (count < most) is("all rows came in pieces", (long long)(end > from ? end - from : 0), (long long)(at - from));
}
/* A number, boolean or text of one cell from the library. */
static Cell cell_of(Txn *t, size_t c, size_t at) {
  int64_t n = 0;
  char text[PDT_MAX_TEXT];
  size_t count = 1, bytes = 0;
  answers("a cell", PDT_OK, D(pdt_cells, t->h, c, at, &n, &count, text, sizeof text, &bytes));
  is("one cell", 1, (long long)count);
  Cell out;
  if (t->s->sc.type[c] == PDT_TEXT) out.t = string(text, bytes);
  else out.n = n;
  return out;
}
static void cell_is(const char *what, const Cell &wanted, const Cell &found) {
  if (wanted != found) fail(what, std::to_string(wanted.n) + "/" + wanted.t, std::to_string(found.n) + "/" + found.t);
}
static void read_row_runs(Txn *t, size_t from, size_t to, size_t most) {
  const Schema &sc = t->s->sc;
  vector<pdt_row_run> parts(most + 1);
  size_t count = most;
  answers("row runs", PDT_OK, D(pdt_row_runs, t->h, from, to, most ? parts.data() : nullptr, &count));
  size_t end = std::min(to, t->rows.size()), at = from;
  bool knows = t->base->stable != nullptr;
  for (size_t i = 0; i < count; i++) {
    const pdt_row_run &p = parts[i];
    is("a row run's position", (long long)at, (long long)p.position);
    if (p.source != PDT_STABLE) is("one row of a row run", 1, (long long)p.rows);
    is("a row run of no rows", 1, p.rows > 0);
    if (i && p.source == PDT_STABLE && parts[i - 1].source == PDT_STABLE && parts[i - 1].sid + parts[i - 1].rows == p.sid)
      notes["row runs that could be longer"]++;
    for (uint64_t k = 0; k < p.rows; k++, at++) {
      if (at >= end) fail("row runs past the end", std::to_string(end), std::to_string(at));
      const R *r = t->rows[at];
      if (!knows) continue;
      int source = r->sid < 0 ? PDT_INSERTED : r->changed ? PDT_CHANGED : PDT_STABLE;
      is("a row run's source", source, p.source);
      is("a row run's sid", r->sid < 0 ? 0 : r->sid, (long long)(p.sid + k));
      notes[source == PDT_INSERTED  ? "rows of row runs: inserted"
            : source == PDT_CHANGED ? "rows of row runs: changed"
                                    : "rows of row runs: stable"]++;
    }
    size_t here = (size_t)p.position;
    if (!knows || (p.source == PDT_STABLE && !one_in(4))) continue;
    uint8_t changed[PDT_MAX_COLUMNS + 2];
    memset(changed, 5, sizeof changed);
    size_t columns = one_in(8) ? (size_t)below((int64_t)sc.width + 1) : sc.width;
    answers("changed", PDT_OK, D(pdt_changed, t->h, here, changed, columns));
    const R *r = t->rows[here];
    for (size_t c = 0; c < columns; c++) is("a changed column", r->sid < 0 ? 1 : r->changed >> c & 1, changed[c]);
    is("changed past the columns", 5, changed[columns]);
    /* the true row, by the engine's columns */
    size_t c = (size_t)below((int64_t)sc.width);
    if (c >= columns) continue;
    Cell found = p.source != PDT_INSERTED && !changed[c] ? (*t->base->stable)[p.sid]->real[c] : cell_of(t, c, here);
    cell_is("a true cell", r->real[c], found);
    if (sc.outside[c]) notes["cells outside read by row runs"]++;
  }
  if (count < most) is("all rows came in row runs", (long long)(end > from ? end - from : 0), (long long)(at - from));
}
static void read_arrow(Txn *t);
static void read_something(Txn *t) {
  const Schema &sc = t->s->sc;
  size_t c = (size_t)below((int64_t)sc.width), from = drawn_from(t), most = drawn_count();
  size_t to = one_in(5) ? SIZE_MAX : from + (size_t)below(one_in(2) ? 40 : 3000);
  if (one_in(15) && from) to = (size_t)below((int64_t)from); /* before from: nothing is between */
  switch (below(10)) {
    case 9: read_arrow(t); break;
    case 0: read_row(t); break;
    case 1: read_rank(t); break;
    case 2: read_cells(t, c, from, most); break;
    case 3: read_ints(t, c, from, most); break;
    case 4: read_bools(t, c, from, most); break;
    case 5: read_texts(t, c, from, most); break;
    case 6: read_spans(t, c, from, to, most); break;
    case 7: read_row_runs(t, from, to, most); break;
    default: {
      uint8_t none[PDT_MAX_COLUMNS];
      answers("changed past the end", PDT_MISSING, D(pdt_changed, t->h, t->rows.size() + (uint64_t)below(3), none, (size_t)below(3)));
    }
  }
}
/* All of the table, by every call. */
static void read_all(Txn *t) {
  const Schema &sc = t->s->sc;
  size_t rows = t->rows.size();
  uint64_t found = 0;
  answers("rows", PDT_OK, D(pdt_rows, t->h, &found));
  is("rows", (long long)rows, (long long)found);
  for (size_t c = 0; c < sc.width; c++) {
    size_t chunk = one_in(2) ? rows + 1 : (size_t)(100 + below(1500));
    for (size_t at = 0; at <= rows; at += chunk) {
      if (sc.type[c] == PDT_INT) read_ints(t, c, at, chunk), read_spans(t, c, at, at + chunk, chunk + 1);
      if (sc.type[c] == PDT_BOOL) read_bools(t, c, at, chunk);
      if (sc.type[c] == PDT_TEXT) read_texts(t, c, at, chunk);
      if (one_in(3)) read_cells(t, c, at, chunk);
    }
  }
  read_row_runs(t, 0, SIZE_MAX, rows + 1);
}

/* ---- layers */

/* Applies a layer's entries to rows and compares with the rows above. */
static void layer_is(Store *s, const char *what, pdt_layer *layer, const Rows &lower, const Rows &upper) {
  const Schema &sc = s->sc;
  size_t size = D(pdt_layer_size, layer), at = 0, out = 0, kept_at = 0;
  vector<int64_t> numbers(sc.width);
  vector<char> text(PDT_MAX_TEXT * 4 + 64);
  R pending{{}, {}, -1, 0};
  bool has_pending = false;
  size_t pending_sid = 0;
  long ins = 0, del = 0;
  auto row_out = [&](const Cells &cells, const char *why) {
    if (out >= upper.size()) fail(what, "no more rows", why);
    for (size_t c = 0; c < sc.width; c++) cell_is(what, upper[out]->c[c], cells[c]);
    out++;
  };
  auto flush = [&]() {
    if (!has_pending) return;
    row_out(pending.c, "a modified row");
    at = pending_sid + 1;
    has_pending = false;
  };
  auto up_to = [&](size_t sid) {
    while (at < sid) {
      if (at >= lower.size()) fail(what, "a sid of the rows below", std::to_string(sid));
      row_out(lower[at]->c, "a row below");
      at++;
    }
  };
  for (size_t i = 0; i < size; i++) {
    pdt_entry e{};
    int code = D(pdt_entry_at, layer, i, &e, numbers.data(), text.data(), text.size());
    if (code == PDT_TOO_SMALL) {
      answers(what, PDT_TOO_SMALL, code);
      text.resize(e.bytes);
      code = D(pdt_entry_at, layer, i, &e, numbers.data(), text.data(), text.size());
    }
    answers(what, PDT_OK, code);
    if (i && e.sid < kept_at) fail(what, "sids that ascend", std::to_string(e.sid));
    kept_at = e.sid;
    vector<Cell> cells;
    size_t b = 0;
    size_t first = e.kind == PDT_MODIFY ? e.column : 0;
    is("an entry's cells", e.kind == PDT_INSERT ? (long long)sc.width : e.kind == PDT_DELETE ? (long long)sc.key : 1, (long long)e.cells);
    for (size_t c = 0; c < e.cells; c++) {
      Cell x;
      if (sc.type[first + c] == PDT_TEXT) {
        x.t = string(text.data() + b, (size_t)numbers[c]);
        b += (size_t)numbers[c];
      } else {
        x.n = numbers[c];
      }
      cells.push_back(x);
    }
    is("an entry's bytes", (long long)b, (long long)e.bytes);
    if (has_pending && (e.sid != pending_sid || e.kind != PDT_MODIFY)) flush();
    if (e.kind == PDT_INSERT) {
      up_to(e.sid);
      is("the rid of an insert", (long long)e.sid + ins - del, (long long)e.rid);
      row_out(cells, "an inserted row");
      ins++;
    } else if (e.kind == PDT_DELETE) {
      up_to(e.sid);
      if (e.sid >= lower.size()) fail(what, "a row below", "none");
      is("the rid of a delete", (long long)e.sid + ins - del, (long long)e.rid);
      for (size_t c = 0; c < sc.key; c++) cell_is("the key of a delete", lower[e.sid]->c[c], cells[c]);
      at = e.sid + 1;
      del++;
    } else {
      is("an entry's kind", PDT_MODIFY, e.kind);
      is("the rid of a modify", (long long)e.sid + ins - del, (long long)e.rid);
      if (!has_pending) {
        up_to(e.sid);
        if (e.sid >= lower.size()) fail(what, "a row below", "none");
        pending = *lower[e.sid];
        pending_sid = e.sid;
        has_pending = true;
      }
      is("a modify outside of the key", 1, e.column >= sc.key && e.column < sc.width);
      pending.c[e.column] = cells[0];
    }
  }
  flush();
  up_to(lower.size());
  is(what, (long long)upper.size(), (long long)out);
  pdt_entry e{};
  answers("an entry past the end", PDT_MISSING, D(pdt_entry_at, layer, size + (size_t)below(2), &e, numbers.data(), nullptr, 0));
}
static void read_layers(Store *s) {
  pdt_layer *read, *write;
  answers("layers", PDT_OK, D(pdt_layers, s->h, &read, &write));
  pdt_sizes sizes{};
  answers("size", PDT_OK, D(pdt_size, s->h, &sizes));
  is("commits", (long long)s->newest->number, (long long)sizes.commits);
  is("open transactions", 1, sizes.open_transactions >= s->open_count() || w->db);
  if (!w->db) {
    is("open transactions", (long long)s->open_count(), (long long)sizes.open_transactions);
    is("read entries", (long long)sizes.read_entries, (long long)pdt_layer_size(read));
    is("write entries", (long long)sizes.write_entries, (long long)pdt_layer_size(write));
    if (sizes.read_entries >= 256) notes["layers with a Read-PDT of 256 or more"]++;
  }
  if (s->knows_stable) {
    layer_is(s, "the Read-PDT", read, *s->folded->stable, s->folded->rows);
    layer_is(s, "the Write-PDT", write, s->folded->rows, s->newest->rows);
  }
  D(pdt_layer_close, read);
  D(pdt_layer_close, write);
}
static int64_t kept_of(const Store *s) { return std::min<int64_t>((int64_t)s->recent, s->newest->local - s->cut_at); }
static void read_changes(Store *s) {
  int64_t kept = kept_of(s), low = s->newest->local - kept;
  uint64_t newest = w->db ? w->number : s->newest->number;
  uint64_t number = one_in(6) ? newest + (uint64_t)below(3) : newest - (uint64_t)below(std::min<int64_t>((int64_t)newest, 30) + 1);
  uint64_t low_number = low ? s->numbers[(size_t)low - 1] : s->opened_at;
  pdt_layer *layer = nullptr;
  int wanted = number > newest || number <= low_number ? PDT_MISSING : PDT_OK;
  int code = D(pdt_changes, s->h, number, &layer);
  answers("changes", wanted, code);
  if (code) {
    if (layer) fail("changes", "null", "a layer");
    return;
  }
  auto it = std::lower_bound(s->numbers.begin(), s->numbers.end(), number);
  if (it == s->numbers.end() || *it != number) {
    is("changes of another table", 0, (long long)D(pdt_layer_size, layer));
    pdt_entry e{};
    int64_t numbers[PDT_MAX_COLUMNS];
    answers("no entry", PDT_MISSING, D(pdt_entry_at, layer, 0, &e, numbers, nullptr, 0));
    notes["changes of another table"]++;
  } else {
    int64_t local = it - s->numbers.begin() + 1;
    is("entries of a commit", entries_of(s->effects[(size_t)local - 1]), (long long)D(pdt_layer_size, layer));
    if (s->past.count(local) && s->past.count(local - 1))
      layer_is(s, "a commit's changes", layer, s->past[local - 1]->rows, s->past[local]->rows);
  }
  D(pdt_layer_close, layer);
}
static void read_own(Txn *t) {
  pdt_layer *own;
  answers("own layer", PDT_OK, D(pdt_own_layer, t->h, &own));
  is("own entries", entries_of(t->eff), (long long)D(pdt_layer_size, own));
  layer_is(t->s, "a transaction's own layer", own, t->base->rows, t->rows);
  D(pdt_layer_close, own);
}
static void read_counts(Store *s) {
  pdt_counts c{};
  c.size = one_in(9) ? 8 * (one_in(2) ? 1 : 1000) : sizeof c; // smaller than any header's, or garbage
  int code = D(pdt_count, s->h, &c);
  if (c.size != sizeof c) {
    answers("a size that no header has", PDT_MISUSE, code);
    return;
  }
  answers("count", PDT_OK, code);
  is("begins", (long long)s->begins, (long long)c.begins);
  is("commits", (long long)s->commits, (long long)c.commits);
  is("conflicts", (long long)s->conflicts, (long long)c.conflicts);
  is("too old", (long long)s->too_old, (long long)c.too_old);
  is("full", (long long)s->full, (long long)c.full);
  is("pins", (long long)s->pins.size(), (long long)c.pins);
  uint64_t oldest = s->pins.empty() ? 0 : UINT64_MAX, entries = 0;
  for (auto &p : s->pins) oldest = std::min(oldest, p.v->number);
  is("the oldest pin", (long long)oldest, (long long)c.oldest_pin);
  int64_t kept = kept_of(s);
  for (int64_t i = 0; i < kept; i++) entries += (uint64_t)entries_of(s->effects[(size_t)(s->newest->local - 1 - i)]);
  is("kept", kept, (long long)c.kept);
  is("kept entries", (long long)entries, (long long)c.kept_entries);
  if (s->knows_stable) {
    is("folds", (long long)s->folds, (long long)c.folds);
    is("checkpoints", (long long)s->checkpoints, (long long)c.checkpoints);
    is("superseded", (long long)s->superseded, (long long)c.superseded);
  }
  if (c.packs) notes["counts of a table that was packed"]++;
  notes["packs (most of one table)"] = std::max<long>(notes["packs (most of one table)"], (long)c.packs);
  uint64_t after = s->newest->number - (uint64_t)below(2), number = 0;
  if (one_in(3)) after = s->newest->number + (uint64_t)below(4);
  answers("wait", after < s->newest->number ? PDT_OK : PDT_MISSING,
          D(pdt_wait, s->h, after, one_in(30) ? 1 : 0, one_in(4) ? (number = s->newest->number, nullptr) : &number));
  is("waited for", (long long)s->newest->number, (long long)number);
}
static void read_columns(Store *s) {
  is("columns", (long long)s->sc.width, (long long)D(pdt_columns, s->h));
  is("key columns", (long long)s->sc.key, (long long)D(pdt_key_columns, s->h));
  size_t c = (size_t)below((int64_t)s->sc.width + 2);
  is("type", c < s->sc.width ? s->sc.type[c] : 0, D(pdt_column_type, s->h, c));
  const char *name = D(pdt_column_name, s->h, c);
  if (c < s->sc.width ? !name || s->sc.name[c] != name : name != nullptr)
    fail("a name", c < s->sc.width ? s->sc.name[c] : "null", name ? name : "null");
  if (strcmp(D(pdt_version), PDT_VERSION)) fail("version", PDT_VERSION, pdt_version());
  int code = (int)below(40) - 5;
  if (!D(pdt_code_text, code)) fail("a sentence", "one", "null");
  if (!D(pdt_errmsg, (pdt_code)code)) fail("a sentence", "one", "null");
}
