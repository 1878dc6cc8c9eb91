/* Cursors. */
#include "vtab.h"

#include <string.h>

SQLITE_EXTENSION_INIT3

enum { LEAST_BATCH = 32, BATCH = 1024, BATCH_TEXT = 1 << 16 };

/* ---- cursors of a view */

bool cursors_are_open(const view *v) {
  const cursor *c = v->cursors;
  while (c && c->over) c = c->next;
  return c;
}

/* Whether a key that lies ahead of a cursor is in its range. */
static bool is_in_range(const session *s, const cursor *c, const key *k) {
  int order = c->bounded ? key_compare(s, k, &c->bound) : 0;
  return !c->bounded || (order == 0 ? c->past : (order > 0) == c->down);
}

/* Where a row that is inserted at a position is beside the current one: below it, above it, or in its place. */
static int side_of(const session *s, const cursor *c, uint64_t position, const key *k) {
  if (c->gone) return key_compare(s, k, &c->stand);
  return position <= cursor_position(c) ? -1 : 1;
}

static void cursor_insert(const session *s, cursor *c, uint64_t position, const key *k) {
  int side = side_of(s, c, position, k);
  bool ahead = side && (side < 0) == c->down;
  if (!side) {
    c->gone = false;
    c->high++;
  } else if (!ahead && !c->down) c->low++, c->high++;
  else if (ahead && !c->down) c->high += position < c->high || (position == c->high && is_in_range(s, c, k));
  else if (ahead) {
    c->low += position < c->low || (position == c->low && !is_in_range(s, c, k));
    c->high++;
  }
}

static void cursor_delete(cursor *c, uint64_t position, const key *k) {
  if (position >= c->high) return;
  if (position < c->low) c->low--;
  else if (position == cursor_position(c) && !c->gone) {
    c->gone = true;
    key_copy(&c->stand, k);
  }
  c->high--;
}

void cursors_insert(const session *s, uint64_t position, const key *k) {
  for (cursor *c = s->view->cursors; c; c = c->next)
    if (!c->over) cursor_insert(s, c, position, k);
}

void cursors_delete(const session *s, uint64_t position, const key *k) {
  for (cursor *c = s->view->cursors; c; c = c->next)
    if (!c->over) cursor_delete(c, position, k);
}

/* Puts the key of the current row into c->stand, where that of a row that is gone is. */
static int stand_read(session *s, cursor *c) {
  if (c->gone) return PDT_OK;
  int code = pdt_row_at(s->view->txn, cursor_position(c), s->old, s->old_texts, s->text_room, NULL);
  if (!code) key_of_row(s, s->old, s->old_texts, &c->stand);
  return code;
}

/* Takes the place of the key in c->stand, and all that is ahead of it as far as the bound. */
static int stand_take(const session *s, cursor *c) {
  uint64_t position = 0, end = 0;
  bool there = false;
  int code = pdt_rank(s->view->txn, c->stand.numbers, c->stand.texts, c->stand.bytes, &position, &there);
  if (code) return code;
  if (c->bounded) code = view_position(s->view, &c->bound, c->past != c->down, &end);
  else if (!c->down) code = pdt_rows(s->view->txn, &end);
  c->gone = !there;
  if (c->down) position += there;
  c->low = c->down ? end : position;
  c->high = c->down ? position : end;
  if (c->low > c->high) c->low = c->high = position;
  return code;
}

int cursors_go_back(session *s, size_t level) {
  int code = PDT_OK;
  for (cursor *c = s->view->cursors; c && !code; c = c->next)
    if (!c->over) code = stand_read(s, c);
  if (!code) code = pdt_rollback_to(s->view->txn, level);
  s->view->edits++;
  for (cursor *c = s->view->cursors; c && !code; c = c->next)
    if (!c->over) code = stand_take(s, c);
  return code;
}

/* ---- reading */

int x_open(sqlite3_vtab *base, sqlite3_vtab_cursor **out) {
  session *s = session_of(base);
  int code = listen_at_first_use(base);
  if (!code) code = view_enter(base, false);
  if (code) return code;
  cursor *c = sqlite3_malloc((int)(sizeof *c + s->width * sizeof *c->batches));
  if (!c) return SQLITE_NOMEM;
  memset(c, 0, offsetof(cursor, bound));
  memset(c->batches, 0, s->width * sizeof *c->batches);
  c->over = true;
  keyset_clear(s->replaced);
  c->view = s->view;
  c->next = s->view->cursors;
  s->view->cursors = c;
  *out = &c->base;
  return SQLITE_OK;
}

int x_close(sqlite3_vtab_cursor *base) {
  cursor *c = (cursor *)base;
  session *s = session_of(base->pVtab);
  view *v = c->view;
  cursor **at = &v->cursors;
  while (*at != c) at = &(*at)->next;
  *at = c->next;
  for (size_t column = 0; column < s->width; column++) {
    sqlite3_free(c->batches[column].numbers);
    sqlite3_free(c->batches[column].ends);
    sqlite3_free(c->batches[column].texts);
  }
  sqlite3_free(c->row);
  list_free(c->ranges);
  sqlite3_free(c);
  if (v != s->view && !v->cursors) {
    view_free(s, v);
    session_tidy(s);
  } else view_is_read(s);
  return SQLITE_OK;
}

static int transaction_is_over(sqlite3_vtab *base) {
  return say(base, SQLITE_ABORT, "pdt: the transaction that this statement read in is over");
}

/* Whether a range is that of one key. */
static bool is_one_key(const session *s, const range *r) {
  return !r->past_low && r->past_high && r->low.bytes == r->high.bytes &&
         !memcmp(r->low.numbers, r->high.numbers, s->keys * sizeof *r->low.numbers) && !memcmp(r->low.texts, r->high.texts, r->low.bytes);
}

/* The positions of a range's first row and of the one behind its last: by one search where it is that of one key.
   One of the library's codes. */
static int positions_of(const session *s, view *v, const range *r, uint64_t *low, uint64_t *high) {
  if (is_one_key(s, r)) {
    bool there = false;
    int code = pdt_rank(v->txn, r->low.numbers, r->low.texts, r->low.bytes, low, &there);
    *high = *low + there;
    return code;
  }
  int code = view_position(v, &r->low, r->past_low, low);
  return code ? code : view_position(v, &r->high, r->past_high, high);
}

/* Takes a range's positions; the cursor is over where there is no row. One of the library's codes. */
static int range_take(const session *s, cursor *c, const range *r) {
  c->row_edits = 0;
  c->bounded = true;
  c->past = c->down ? !r->past_low : r->past_high;
  int code = positions_of(s, c->view, r, &c->low, &c->high);
  c->over = code || c->low >= c->high;
  if (!c->over) key_copy(&c->bound, c->down ? &r->low : &r->high);
  return code;
}

/* Takes the next range that has a row. One of the library's codes. */
static int ranges_take(const session *s, cursor *c) {
  range r;
  int code = PDT_OK;
  while (!code && c->over && list_next(s, c->ranges, c->down, &r)) code = range_take(s, c, &r);
  return code;
}

/* Takes the ranges of a plan with a list; null ones where they can't be had, so that the whole range is to be taken. */
static int ranges_make(const session *s, cursor *c, int plan, sqlite3_value **values) {
  key stem;
  list_free(c->ranges);
  c->ranges = NULL;
  if (!(plan & LIST) || !stem_of(s, &stem, plan, values)) return SQLITE_OK;
  return list_make(s, &stem, values[plan & EQUAL], &c->ranges);
}

int x_filter(sqlite3_vtab_cursor *base, int plan, const char *words, int argc, sqlite3_value **argv) {
  (void)words, (void)argc;
  cursor *c = (cursor *)base;
  const session *s = session_of(base->pVtab);
  range r;
  if (s->doomed) return refuse_doomed(base->pVtab, s);
  if (!c->view->txn) return transaction_is_over(base->pVtab);
  c->down = plan & DOWN;
  c->over = true;
  c->gone = c->bounded = c->is_row = false;
  c->low = c->high = 0;
  for (size_t column = 0; column < s->width; column++) c->batches[column].want = LEAST_BATCH;
  int code = ranges_make(s, c, plan, argv);
  if (code) return code;
  if (c->ranges) return fail(base->pVtab, ranges_take(s, c));
  range_of(s, &r, plan, argv);
  if (r.empty) return SQLITE_OK;
  c->is_row = plan & ROW && is_one_key(s, &r);
  if (plan & (EQUAL | LOW | HIGH | BLOB)) return fail(base->pVtab, range_take(s, c, &r));
  code = pdt_rows(c->view->txn, &c->high);
  c->over = code || !c->high;
  return fail(base->pVtab, code);
}

int x_next(sqlite3_vtab_cursor *base) {
  cursor *c = (cursor *)base;
  const session *s = session_of(base->pVtab);
  if (s->doomed) return refuse_doomed(base->pVtab, s);
  if (!c->view->txn) return transaction_is_over(base->pVtab);
  if (c->gone) c->gone = false;
  else if (c->down) c->high--;
  else c->low++;
  c->over = c->low >= c->high;
  return c->over && c->ranges ? fail(base->pVtab, ranges_take(s, c)) : SQLITE_OK;
}

int x_eof(sqlite3_vtab_cursor *base) { return ((const cursor *)base)->over; }

/* A table of a key has no row numbers, but SQLite rewrites DELETE .. LIMIT and UPDATE .. LIMIT before it has read the table's declaration:
   it lists the rows by their numbers, and looks them up in a second scan. Both are over one view, where a row keeps its position. */
int x_rowid(sqlite3_vtab_cursor *base, sqlite3_int64 *row) {
  *row = (sqlite3_int64)cursor_position((const cursor *)base);
  return SQLITE_OK;
}

/* Room for a batch, which a cursor keeps. */
static bool batch_make(batch *b, bool is_text) {
  if (!b->numbers) b->numbers = sqlite3_malloc(BATCH * sizeof *b->numbers);
  if (is_text && !b->ends) b->ends = sqlite3_malloc(BATCH * sizeof *b->ends);
  if (is_text && !b->texts) b->texts = sqlite3_malloc(BATCH_TEXT);
  return b->numbers && (!is_text || (b->ends && b->texts));
}

/* Reads up to count cells from a position on. At least one comes: the room for texts has more than one of the
   longest. */
static int batch_read(const session *s, view *v, batch *b, size_t column, uint64_t from, size_t count) {
  b->from = from;
  b->edits = v->edits;
  b->count = count;
  if (type_of(s, column) == PDT_INT) return pdt_ints(v->txn, column, from, b->numbers, &b->count);
  int code = pdt_cells(v->txn, column, from, b->numbers, &b->count, b->texts, b->texts ? BATCH_TEXT : 0, NULL);
  for (size_t i = 0, end = 0; b->texts && !code && i < b->count; i++) b->ends[i] = end += (size_t)b->numbers[i];
  return code;
}

static bool batch_has(const batch *b, const view *v, uint64_t position) {
  return b->count && b->edits == v->edits && position >= b->from && position - b->from < b->count;
}

/* The batch of a column that has the current row: the cells from it on, or those up to it where the cursor goes down.
   Only columns that are asked for are read. */
static int batch_load(cursor *c, size_t column, batch **out) {
  const session *s = session_of(c->base.pVtab);
  batch *b = &c->batches[column];
  uint64_t current = cursor_position(c);
  *out = b;
  if (batch_has(b, c->view, current)) return PDT_OK;
  if (!batch_make(b, type_of(s, column) == PDT_TEXT)) return PDT_NOMEM;
  size_t count = b->want ? b->want : LEAST_BATCH;
  b->want = count < BATCH ? 2 * count : BATCH;
  if (count > c->high - c->low) count = (size_t)(c->high - c->low);
  for (;; count = (count + 1) / 2) {
    int code = batch_read(s, c->view, b, column, c->down ? c->high - count : current, count);
    if (code || batch_has(b, c->view, current)) return code;
    if (count == 1) return PDT_MISSING;
  }
}

/* Reads the current row whole, where it isn't there yet, or a write has been since. One of the library's codes. */
static int row_load(cursor *c) {
  const session *s = session_of(c->base.pVtab);
  size_t head = s->width * sizeof *c->row;
  if (!c->row) c->row = sqlite3_malloc64(head + s->text_room + 1);
  if (!c->row) return PDT_NOMEM;
  if (c->row_edits == c->view->edits + 1) return PDT_OK;
  int code = pdt_row_at(c->view->txn, cursor_position(c), c->row, (char *)c->row + head, s->text_room, NULL);
  if (!code) c->row_edits = c->view->edits + 1;
  return code;
}

/* The text of a column of the row. */
static const char *row_text(const cursor *c, size_t column) {
  const session *s = session_of(c->base.pVtab);
  const char *text = (const char *)(c->row + s->width);
  for (size_t before = 0; before < column; before++)
    if (type_of(s, before) == PDT_TEXT) text += c->row[before];
  return text;
}

static const char *batch_text(const batch *b, size_t i) { return b->texts + b->ends[i] - b->numbers[i]; }

/* The hidden column of a key of several columns: the key as one blob. */
static int put_key(cursor *c, sqlite3_context *to) {
  const session *s = session_of(c->base.pVtab);
  uint64_t current = cursor_position(c);
  char blob[sizeof(int64_t) * PDT_MAX_KEY_COLUMNS + PDT_MAX_KEY_COLUMNS * PDT_MAX_TEXT];
  size_t bytes = s->keys * sizeof(int64_t);
  for (size_t column = 0; column < s->keys; column++) {
    batch *b;
    int code = batch_load(c, column, &b);
    if (code) return code;
    size_t i = (size_t)(current - b->from);
    memcpy(blob + column * sizeof(int64_t), &b->numbers[i], sizeof(int64_t));
    if (!b->texts) continue;
    memcpy(blob + bytes, batch_text(b, i), (size_t)b->numbers[i]);
    bytes += (size_t)b->numbers[i];
  }
  sqlite3_result_blob(to, blob, (int)bytes, SQLITE_TRANSIENT);
  return PDT_OK;
}

/* A number's value. SQLite makes a NaN a NULL, which no key has. */
static int put_number(cursor *c, sqlite3_context *to, size_t column, int64_t number) {
  const session *s = session_of(c->base.pVtab);
  const meaning *m = &s->means[column];
  int64_t least = INT64_MIN, most = INT64_MAX;
  if (m->kind == NUMBERS && !m->has_null) {
    sqlite3_result_int64(to, number);
    return SQLITE_OK;
  }
  if (column < s->keys && m->kind == REALS) bounds_of(m, &least, &most);
  if (number >= least && number <= most && result_number(to, m, number)) return SQLITE_OK;
  return say(c->base.pVtab, SQLITE_MISMATCH, "pdt: column \"%s\" has the number %lld, which is %s", pdt_column_name(s->table, column),
             (long long)number, m->kind == REALS ? "a NaN in the key" : "no date of the years 0000 to 9999");
}

/* A cell of the one row of a range. */
static int put_of_row(cursor *c, sqlite3_context *to, size_t column) {
  int code = row_load(c);
  if (code) return fail(c->base.pVtab, code);
  if (type_of(session_of(c->base.pVtab), column) != PDT_TEXT) return put_number(c, to, column, c->row[column]);
  sqlite3_result_text(to, row_text(c, column), (int)c->row[column], SQLITE_TRANSIENT);
  return SQLITE_OK;
}

/* A cell of the current row. Nothing where an UPDATE leaves it as it is, and NULL where the row was deleted
   meanwhile. */
int x_column(sqlite3_vtab_cursor *base, sqlite3_context *to, int column) {
  cursor *c = (cursor *)base;
  const session *s = session_of(base->pVtab);
  if (s->doomed) return refuse_doomed(base->pVtab, s);
  if (c->gone || sqlite3_vtab_nochange(to)) return SQLITE_OK;
  if (!c->view->txn) return transaction_is_over(base->pVtab);
  if ((size_t)column == s->width && s->keys > 1) return fail(base->pVtab, put_key(c, to));
  if ((size_t)column == s->width) column = 0;
  if (c->is_row) return put_of_row(c, to, (size_t)column);
  uint64_t current = cursor_position(c);
  batch *b = &c->batches[column];
  if (!batch_has(b, c->view, current)) {
    int code = batch_load(c, (size_t)column, &b);
    if (code) return fail(base->pVtab, code);
  }
  size_t i = (size_t)(current - b->from);
  if (!b->texts) return put_number(c, to, (size_t)column, b->numbers[i]);
  sqlite3_result_text(to, batch_text(b, i), (int)b->numbers[i], SQLITE_TRANSIENT);
  return SQLITE_OK;
}
