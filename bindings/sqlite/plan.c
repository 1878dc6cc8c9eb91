/* Plans, and the ranges of keys that they stand for. */
#include "vtab.h"

#include <string.h>

SQLITE_EXTENSION_INIT3

/* ---- plans: idxNum has how many leading key columns have one value, what bounds the next one, and the direction */

typedef struct planning {
  session *session;
  sqlite3_index_info *info;
  sqlite3_str *words; /* the plan as EXPLAIN QUERY PLAN shows it */
  int arguments;
  bool exact; /* whether the bounds so far are just what they say for any value, so that SQLite needn't compare again */
} planning;

/* The column of one of SQLite's: the hidden one of a key of one column is that. */
static int column_of(const session *s, int column) { return s->keys == 1 && column == (int)s->width ? 0 : column; }

/* A comparison of a column that may be used, with one of two operators; -1 where there is none. One of texts goes by
   their bytes; an IN of texts is told as an = but is one only where lists are looked for. */
static int find_constraint(const planning *p, size_t column, int op, int other, bool is_list) {
  bool is_text = has_texts(p->session, column);
  for (int i = 0; i < p->info->nConstraint; i++) {
    const struct sqlite3_index_constraint *c = &p->info->aConstraint[i];
    if (!c->usable || column_of(p->session, c->iColumn) != (int)column || (c->op != op && c->op != other)) continue;
    if (is_text && sqlite3_stricmp(sqlite3_vtab_collation(p->info, i), "BINARY")) continue;
    if (is_list == (is_text && sqlite3_vtab_in(p->info, i, -1))) return i;
  }
  return -1;
}

static void take_constraint(planning *p, int i, size_t column, const char *op) {
  p->info->aConstraintUsage[i].argvIndex = ++p->arguments;
  p->info->aConstraintUsage[i].omit = p->exact;
  sqlite3_str_appendf(p->words, "%s%s%s?", p->arguments > 1 ? " AND " : "", pdt_column_name(p->session->table, column), op);
}

/* Takes what bounds a column, a list or at both sides; the bits for it. */
static int take_range(planning *p, size_t column) {
  int bits = 0, list = find_constraint(p, column, SQLITE_INDEX_CONSTRAINT_EQ, SQLITE_INDEX_CONSTRAINT_EQ, true);
  if (list >= 0) {
    sqlite3_vtab_in(p->info, list, 1);
    take_constraint(p, list, column, " IN ");
    return LIST;
  }
  int low = find_constraint(p, column, SQLITE_INDEX_CONSTRAINT_GT, SQLITE_INDEX_CONSTRAINT_GE, false);
  int high = find_constraint(p, column, SQLITE_INDEX_CONSTRAINT_LT, SQLITE_INDEX_CONSTRAINT_LE, false);
  if (low >= 0) {
    bool past = p->info->aConstraint[low].op == SQLITE_INDEX_CONSTRAINT_GT;
    take_constraint(p, low, column, past ? ">" : ">=");
    bits |= LOW | (past ? LOW_PAST : 0);
  }
  if (high >= 0) {
    bool past = p->info->aConstraint[high].op == SQLITE_INDEX_CONSTRAINT_LE;
    take_constraint(p, high, column, past ? "<=" : "<");
    bits |= HIGH | (past ? HIGH_PAST : 0);
  }
  return bits;
}

/* Whether a column has doubles: to SQLite -0.0 and 0.0 are equal, and in a key they are two. So what comes after one orders
   these, and no row is the only one that has it. */
static bool is_real(const session *s, size_t column) { return s->means[column].kind == REALS; }

/* Whether the order that is asked for is that of the keys, up or down. The first `fixed` columns have one value; a
   whole key is one row's, so what comes after it orders nothing. */
static bool is_key_order(const planning *p, size_t fixed, bool *down) {
  size_t next = fixed;
  bool known = false;
  for (int i = 0; i < p->info->nOrderBy && (next < p->session->keys || is_real(p->session, next - 1)); i++) {
    int column = column_of(p->session, p->info->aOrderBy[i].iColumn);
    bool desc = p->info->aOrderBy[i].desc;
    if (column >= 0 && (size_t)column < fixed) continue;
    if (column != (int)next || (known && desc != *down) || (next && is_real(p->session, next - 1))) return false;
    *down = desc;
    known = true;
    next++;
  }
  return true;
}

/* ---- what the plans cost */

enum { SAMPLES = 24, LISTED = 25 }; /* LISTED: how many values an IN is taken to have, as SQLite takes it */

/* How many rows have the same first columns as the one at a position. One of the library's codes. */
static int count_alike(session *s, pdt_txn *txn, uint64_t position, size_t columns, uint64_t *count) {
  key low, high;
  uint64_t from = 0, to = 0;
  bool there = false;
  int code = pdt_row_at(txn, position, s->old, s->old_texts, s->text_room, NULL);
  if (code) return code;
  key_of_row(s, s->old, s->old_texts, &low);
  low.columns = columns;
  low.bytes = 0;
  for (size_t column = 0; column < columns; column++) low.bytes += type_of(s, column) == PDT_TEXT ? (size_t)low.numbers[column] : 0;
  key_copy(&high, &low);
  key_fill(s, &low, false);
  key_fill(s, &high, true);
  code = pdt_rank(txn, low.numbers, low.texts, low.bytes, &from, &there);
  if (!code) code = pdt_rank(txn, high.numbers, high.texts, high.bytes, &to, &there);
  *count = to + there - from;
  return code;
}

/* Samples rows at even distances: a value that many rows have is met by as many of them, so that it is the mean of 1
   / count that tells how many values there are. */
static int sample(session *s, pdt_txn *txn) {
  for (size_t columns = 1; columns < s->keys; columns++) {
    double values = 0;
    for (uint64_t i = 0; i < SAMPLES; i++) {
      uint64_t count = 0;
      int code = count_alike(s, txn, s->rows / SAMPLES * i + s->rows % SAMPLES * i / SAMPLES, columns, &count);
      if (code) return code;
      values += 1.0 / (double)count / SAMPLES;
    }
    s->alike[columns - 1] = 1 / values;
  }
  s->sampled = s->rows;
  return PDT_OK;
}

/* Whether the sample is of a table of another size by far. */
static bool is_outgrown(const session *s) { return s->rows / 2 > s->sampled || s->rows < s->sampled / 2; }

/* Asks for the number of rows where none is known, and samples them where the plan has some columns of a key. Where
   memory is refused the plan is made from what was known. */
static void learn(session *s, size_t equal) {
  bool is_part = equal && equal < s->keys;
  if (!s->table || (s->rows && !(is_part && is_outgrown(s)))) return;
  pdt_txn *begun = NULL, *txn = s->view ? s->view->txn : NULL;
  if (!txn && !pdt_begin(s->table, &begun)) txn = begun;
  if (txn && !pdt_rows(txn, &s->rows) && s->rows && is_part) sample(s, txn);
  pdt_abort(begun);
}

/* Fewer rows and fewer columns cost less; a search costs as much as some rows. */
static void put_cost(planning *p, size_t equal, int bits) {
  const session *s = p->session;
  size_t fixed = equal + !!(bits & LIST);
  double rows = fixed == s->keys ? 1 : fixed && s->sampled ? s->alike[fixed - 1] : (double)s->rows;
  if (bits & LIST) rows *= LISTED;
  if (rows > (double)s->rows) rows = (double)s->rows;
  if (bits & LOW) rows /= 4;
  if (bits & HIGH) rows /= 4;
  if (rows < 1) rows = 1;
  double columns = 1;
  for (uint64_t used = p->info->colUsed; used; used &= used - 1) columns++;
  p->info->estimatedRows = (sqlite3_int64)rows;
  p->info->estimatedCost = 20 + rows * columns;
}

/* Whether several columns are asked for: each has a bit, and all from the 64th on have the last one. */
static bool uses_several(const sqlite3_index_info *info) { return info->colUsed & (info->colUsed - 1); }

/* Hands over a plan, with what EXPLAIN QUERY PLAN shows. */
static int put_plan(planning *p, int plan) {
  bool is_one = plan & BLOB || (size_t)(plan & EQUAL) == p->session->keys;
  p->info->idxNum = plan | (is_one && uses_several(p->info) ? ROW : 0);
  int code = sqlite3_str_errcode(p->words);
  p->info->idxStr = sqlite3_str_finish(p->words);
  p->info->needToFreeIdxStr = 1;
  return code;
}

/* A comparison with one value of the hidden column of a key of several columns; -1 where there is none. */
static int find_hidden(const planning *p) {
  for (int i = 0; i < p->info->nConstraint && p->session->keys > 1; i++) {
    const struct sqlite3_index_constraint *c = &p->info->aConstraint[i];
    bool is_equal = c->op == SQLITE_INDEX_CONSTRAINT_EQ || c->op == SQLITE_INDEX_CONSTRAINT_IS;
    if (c->usable && c->iColumn == (int)p->session->width && is_equal) return i;
  }
  return -1;
}

/* Whether there is such a one: then it is the plan. */
static bool takes_hidden(planning *p) {
  int i = find_hidden(p);
  if (i < 0) return false;
  p->info->aConstraintUsage[i].argvIndex = 1;
  p->info->aConstraintUsage[i].omit = 1;
  p->info->idxFlags = SQLITE_INDEX_SCAN_UNIQUE;
  p->info->orderByConsumed = 1;
  p->info->estimatedRows = 1;
  p->info->estimatedCost = 20;
  sqlite3_str_appendall(p->words, "_rowid_=?");
  return true;
}

int x_best_index(sqlite3_vtab *base, sqlite3_index_info *info) {
  planning p = {session_of(base), info, sqlite3_str_new(NULL), 0, true};
  if (takes_hidden(&p)) return put_plan(&p, BLOB);
  size_t equal = 0, fixed = 0; /* fixed: those of the equal columns that are exact */
  for (; equal < p.session->keys; equal++) {
    int i = find_constraint(&p, equal, SQLITE_INDEX_CONSTRAINT_EQ, SQLITE_INDEX_CONSTRAINT_IS, false);
    p.exact = p.exact && !has_texts(p.session, equal) && !is_real(p.session, equal);
    if (i < 0) break;
    take_constraint(&p, i, equal, "=");
    fixed += p.exact;
  }
  int bits = equal < p.session->keys ? take_range(&p, equal) : 0;
  if (fixed == p.session->keys) info->idxFlags = SQLITE_INDEX_SCAN_UNIQUE;
  bool down = false;
  if (info->nOrderBy && is_key_order(&p, fixed, &down)) {
    info->orderByConsumed = 1;
    bits |= down ? DOWN : 0;
    sqlite3_str_appendf(p.words, "%sORDER BY KEY%s", p.arguments ? " " : "", down ? " DESC" : "");
  }
  learn(p.session, equal + !!(bits & LIST));
  put_cost(&p, equal, bits);
  return put_plan(&p, (int)equal | bits);
}

/* ---- ranges */

/* Narrows the numbers that a column may have by a comparison with a whole number. */
static bool narrow_by_int(int op, int64_t number, int64_t *least, int64_t *most) {
  if (op == SQLITE_INDEX_CONSTRAINT_GT && number == INT64_MAX) return false;
  if (op == SQLITE_INDEX_CONSTRAINT_LT && number == INT64_MIN) return false;
  int64_t from = op == SQLITE_INDEX_CONSTRAINT_GT ? number + 1 : number;
  int64_t to = op == SQLITE_INDEX_CONSTRAINT_LT ? number - 1 : number;
  bool below = op == SQLITE_INDEX_CONSTRAINT_LT || op == SQLITE_INDEX_CONSTRAINT_LE;
  bool above = op == SQLITE_INDEX_CONSTRAINT_GT || op == SQLITE_INDEX_CONSTRAINT_GE;
  if (!below && from > *least) *least = from;
  if (!above && to < *most) *most = to;
  return *least <= *most;
}

/* The same by a number with a fraction, or one past all whole numbers. */
static bool narrow_by_real(int op, double number, int64_t *least, int64_t *most) {
  bool below = op == SQLITE_INDEX_CONSTRAINT_LT || op == SQLITE_INDEX_CONSTRAINT_LE;
  bool above = op == SQLITE_INDEX_CONSTRAINT_GT || op == SQLITE_INDEX_CONSTRAINT_GE;
  if (number >= 9223372036854775808.0) return below;
  if (number < -9223372036854775808.0) return above;
  int64_t whole = (int64_t)number;
  if ((double)whole == number) return narrow_by_int(op, whole, least, most);
  if ((double)whole > number) whole--;
  if (below) return narrow_by_int(SQLITE_INDEX_CONSTRAINT_LE, whole, least, most);
  return above && narrow_by_int(SQLITE_INDEX_CONSTRAINT_GT, whole, least, most);
}

/* The same by any value, as SQLite compares it with a column of numbers: a text that looks like a number is one, any
   other text and a blob are above all numbers. It isn't NULL. False where no number is left. */
static bool narrow(int op, sqlite3_value *value, int64_t *least, int64_t *most) {
  switch (sqlite3_value_numeric_type(value)) {
    case SQLITE_INTEGER: return narrow_by_int(op, sqlite3_value_int64(value), least, most);
    case SQLITE_FLOAT: return narrow_by_real(op, sqlite3_value_double(value), least, most);
    default: return op == SQLITE_INDEX_CONSTRAINT_LT || op == SQLITE_INDEX_CONSTRAINT_LE;
  }
}

/* Narrows the numbers of a column by a value, which isn't NULL. A date is compared with texts alone: what else is there
   bounds nothing, and SQLite compares again. */
static bool narrow_column(const session *s, size_t column, int op, sqlite3_value *value, int64_t *least, int64_t *most) {
  const meaning *m = &s->means[column];
  if (m->kind == REALS) return narrow_by_number(op, value, least, most);
  if (!is_shown_as_text(m)) return narrow(op, value, least, most);
  if (sqlite3_value_type(value) != SQLITE_TEXT) return true;
  const char *text = (const char *)sqlite3_value_text(value);
  return !text || narrow_by_stamp(m, op, text, (size_t)sqlite3_value_bytes(value), least, most);
}

/* The numbers that a column of numbers may have. */
static void all_numbers(const session *s, size_t column, int64_t *least, int64_t *most) {
  bounds_of(&s->means[column], least, most);
  if (type_of(s, column) == PDT_BOOL) *least = 0, *most = 1;
}

/* A text that bounds a column of texts; null where the value is none, and then it bounds nothing: SQLite compares
   again. */
static const void *text_of(sqlite3_value *value, size_t *len) {
  if (sqlite3_value_type(value) != SQLITE_TEXT) return NULL;
  const void *text = sqlite3_value_text(value);
  *len = (size_t)sqlite3_value_bytes(value);
  return text && is_cell_text(text, *len) ? text : NULL;
}

/* Puts a column's one value into both keys. False where it bounds nothing. */
static bool put_equal(const session *s, range *r, sqlite3_value *value) {
  size_t column = r->low.columns, len = 0;
  if (type_of(s, column) == PDT_TEXT) {
    const void *text = text_of(value, &len);
    if (!text) return false;
    key_put_text(&r->low, text, len);
    key_put_text(&r->high, text, len);
    return true;
  }
  int64_t least, most;
  if (is_shown_as_text(&s->means[column]) && sqlite3_value_type(value) != SQLITE_TEXT) return false;
  all_numbers(s, column, &least, &most);
  if (!narrow_column(s, column, SQLITE_INDEX_CONSTRAINT_EQ, value, &least, &most)) r->empty = true;
  key_put_number(&r->low, least);
  key_put_number(&r->high, most);
  return true;
}

/* Puts the numbers between two bounds, of which each may be missing. */
static void put_numbers(const session *s, range *r, int plan, sqlite3_value *low, sqlite3_value *high) {
  size_t column = r->low.columns;
  int64_t least, most;
  all_numbers(s, column, &least, &most);
  int from = plan & LOW_PAST ? SQLITE_INDEX_CONSTRAINT_GT : SQLITE_INDEX_CONSTRAINT_GE;
  int to = plan & HIGH_PAST ? SQLITE_INDEX_CONSTRAINT_LE : SQLITE_INDEX_CONSTRAINT_LT;
  if (low && !narrow_column(s, column, from, low, &least, &most)) r->empty = true;
  if (high && !narrow_column(s, column, to, high, &least, &most)) r->empty = true;
  key_put_number(&r->low, least);
  key_put_number(&r->high, most);
}

/* Puts a text into a key; whether it was one. */
static bool put_text(key *k, sqlite3_value *value) {
  size_t len = 0;
  const void *text = value ? text_of(value, &len) : NULL;
  if (text) key_put_text(k, text, len);
  return text;
}

bool stem_of(const session *s, key *stem, int plan, sqlite3_value **values) {
  range r;
  int equal = plan & EQUAL, at = 0;
  key_start(&r.low);
  key_start(&r.high);
  r.empty = false;
  while (at < equal && sqlite3_value_type(values[at]) != SQLITE_NULL && put_equal(s, &r, values[at])) at++;
  if (at < equal || r.empty || memcmp(r.low.numbers, r.high.numbers, r.low.columns * sizeof *r.low.numbers)) return false;
  key_copy(stem, &r.low);
  return true;
}

/* The range of the one key that a value of the hidden column is. */
static void range_of_blob(const session *s, range *r, sqlite3_value *value) {
  r->past_low = false;
  r->past_high = true;
  r->empty = !key_of_value(s, value, &r->low);
  if (!r->empty) key_copy(&r->high, &r->low);
}

void range_of(const session *s, range *r, int plan, sqlite3_value **values) {
  if (plan & BLOB) {
    range_of_blob(s, r, values[0]);
    return;
  }
  int at = 0, equal = plan & EQUAL, count = equal + !!(plan & LOW) + !!(plan & HIGH);
  key_start(&r->low);
  key_start(&r->high);
  r->past_low = false;
  r->past_high = true;
  r->empty = false; /* nothing compares with NULL, and no key IS one */
  for (int i = 0; i < count; i++) r->empty = r->empty || sqlite3_value_type(values[i]) == SQLITE_NULL;
  while (at < equal && put_equal(s, r, values[at])) at++;
  if (at == equal && count > equal) {
    sqlite3_value *low = plan & LOW ? values[equal] : NULL, *high = plan & HIGH ? values[count - 1] : NULL;
    if (type_of(s, r->low.columns) != PDT_TEXT) put_numbers(s, r, plan, low, high);
    else {
      if (put_text(&r->low, low)) r->past_low = plan & LOW_PAST;
      if (put_text(&r->high, high)) r->past_high = plan & HIGH_PAST;
    }
  }
  key_fill(s, &r->low, r->past_low);
  key_fill(s, &r->high, r->past_high);
}
