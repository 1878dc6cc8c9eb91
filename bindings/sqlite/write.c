/* Writes. */
#include "vtab.h"

#include "../../libpdt/src/quoted.h"

#include <string.h>

SQLITE_EXTENSION_INIT3

/* What a write is refused for is a constraint of its statement: SQLite does what the statement's OR says. But OR IGNORE passes over
   a key that is there and a NULL alone, as in SQLite's own STRICT tables: what else is refused has another code there. */
static int constraint_or(const session *s, int code) {
  return sqlite3_vtab_on_conflict(s->owner->db) == SQLITE_IGNORE ? code : SQLITE_CONSTRAINT;
}

/* The key of the row in s->row, with the values of its columns as SQL has them. */
static void put_key(const session *s, pdti_text *to) {
  const char *texts = s->row_texts;
  char word[STAMP_ROOM + 24];
  for (size_t column = 0; column < s->keys; column++) {
    const meaning *m = &s->means[column];
    const char *name = pdt_column_name(s->table, column);
    int type = type_of(s, column);
    size_t len = 0;
    pdti_put_words(to, column ? ", " : "");
    pdti_put_name(to, name, strlen(name));
    pdti_put_words(to, "=");
    if (type == PDT_TEXT) {
      pdti_put_text(to, texts, (size_t)s->row[column], false);
      texts += s->row[column];
    } else if (type == PDT_INT && is_shown_as_text(m) && stamp_of_number(m, s->row[column], word, &len)) {
      pdti_put(to, word, len);
    } else {
      if (type == PDT_BOOL) sqlite3_snprintf(sizeof word, word, "%s", s->row[column] ? "true" : "false");
      else if (m->kind == REALS) sqlite3_snprintf(sizeof word, word, "%!.15g", real_of_number(s->row[column]));
      else sqlite3_snprintf(sizeof word, word, "%lld", (long long)s->row[column]);
      pdti_put_words(to, word);
    }
  }
}

/* A row of the key is there: the library's sentence, or where a number of the key stands for something else, one with that. */
static int refuse_key(sqlite3_vtab *base) {
  const session *s = session_of(base);
  char room[340];
  pdti_text key = {room, 0, sizeof room - 1, false};
  bool is_plain = true;
  for (size_t column = 0; column < s->keys; column++) is_plain &= s->means[column].kind == NUMBERS;
  if (is_plain) return say(base, SQLITE_CONSTRAINT, "pdt: %s", pdt_errmsg(PDT_DUPLICATE));
  put_key(s, &key);
  room[key.len] = 0;
  return say(base, SQLITE_CONSTRAINT, "pdt: a row with the key %s%s exists", room, key.is_full ? ".." : "");
}

/* At SQLITE_FULL SQLite would roll the whole transaction back. */
static int refuse(sqlite3_vtab *base, int code) {
  if (code == PDT_DUPLICATE) return refuse_key(base);
  return code == PDT_FULL ? say(base, constraint_or(session_of(base), SQLITE_ERROR), "pdt: %s", pdt_errmsg(code)) : fail(base, code);
}

/* A value as a sentence shows it. */
static void put_value(pdti_text *to, sqlite3_value *value) {
  enum { BLOB_SHOWN = 16 };
  char word[48];
  const uint8_t *bytes;
  size_t len;
  switch (sqlite3_value_type(value)) {
    case SQLITE_NULL: pdti_put_words(to, "NULL"); return;
    case SQLITE_INTEGER: sqlite3_snprintf(sizeof word, word, "%lld", (long long)sqlite3_value_int64(value)); break;
    case SQLITE_FLOAT: sqlite3_snprintf(sizeof word, word, "%!.15g", sqlite3_value_double(value)); break;
    case SQLITE_TEXT:
      bytes = sqlite3_value_text(value); /* null where memory is refused */
      pdti_put_text(to, bytes ? (const char *)bytes : "", bytes ? (size_t)sqlite3_value_bytes(value) : 0, false);
      return;
    default:
      bytes = sqlite3_value_blob(value);
      len = (size_t)sqlite3_value_bytes(value);
      pdti_put_words(to, "x'");
      for (size_t i = 0; bytes && i < len && i < BLOB_SHOWN; i++) {
        sqlite3_snprintf(sizeof word, word, "%02x", bytes[i]);
        pdti_put_words(to, word);
      }
      pdti_put_words(to, len > BLOB_SHOWN ? "'.." : "'");
      return;
  }
  pdti_put_words(to, word);
}

/* What is wrong with a value that a column doesn't take, behind the column's name. */
static void put_mismatch(const session *s, size_t column, sqlite3_value *value, pdti_text *to) {
  static const char *const wanted[] = {"", "", "a text", "a bool: 0 or 1 is wanted"};
  static const char *const kinds[] = {"an int", "a number", "a date as 2024-12-31", "a timestamp as 2024-12-31 23:59:59"};
  const meaning *m = &s->means[column];
  int type = type_of(s, column), found = sqlite3_value_type(value), len = sqlite3_value_bytes(value);
  if (type == PDT_TEXT && found != SQLITE_NULL && found != SQLITE_BLOB && len <= PDT_MAX_TEXT) {
    pdti_put_words(to, "the text is not UTF-8");
    return;
  }
  if (type == PDT_TEXT && found != SQLITE_NULL && found != SQLITE_BLOB) {
    pdti_put_words(to, "the text has ");
    pdti_put_number(to, (uint64_t)len, true);
    pdti_put_words(to, " bytes, and 4,096 are the most");
    return;
  }
  put_value(to, value);
  pdti_put_words(to, " is not ");
  pdti_put_words(to, type == PDT_INT ? kinds[m->kind] : wanted[type]);
  pdti_put_words(to, m->has_null ? " or NULL" : "");
}

static int mismatch(sqlite3_vtab *base, size_t column, sqlite3_value *value) {
  const session *s = session_of(base);
  const char *name = pdt_column_name(s->table, column);
  int code = sqlite3_value_type(value) == SQLITE_NULL ? SQLITE_CONSTRAINT : constraint_or(s, SQLITE_MISMATCH);
  char room[800];
  pdti_text text = {room, 0, sizeof room - 1, false};
  pdti_put_text(&text, name, strlen(name), false);
  pdti_put_words(&text, ": ");
  put_mismatch(s, column, value, &text);
  room[text.len] = 0;
  return say(base, code, "pdt: column %s", room);
}

/* Puts the cell of a value into a row, its text after the others. A number in a text column is its text, by its
   affinity. */
static int put_cell(sqlite3_vtab *base, size_t column, sqlite3_value *value, int64_t *numbers, char *texts, size_t *bytes) {
  int type = type_of(session_of(base), column), found = sqlite3_value_type(value);
  if (type != PDT_TEXT) {
    if (found == SQLITE_TEXT && !sqlite3_value_text(value)) return SQLITE_NOMEM;
    bool fits = number_of_value(&session_of(base)->means[column], value, &numbers[column]) &&
                (type == PDT_INT || numbers[column] == 0 || numbers[column] == 1);
    return fits ? SQLITE_OK : mismatch(base, column, value);
  }
  if (found == SQLITE_NULL || found == SQLITE_BLOB) return mismatch(base, column, value);
  const void *text = sqlite3_value_text(value);
  int len = sqlite3_value_bytes(value);
  if (!text) return SQLITE_NOMEM;
  if (!is_cell_text(text, (size_t)len)) return mismatch(base, column, value);
  memcpy(texts + *bytes, text, (size_t)len);
  numbers[column] = len;
  *bytes += (size_t)len;
  return SQLITE_OK;
}

/* After a write of the library:what it means for the other cursors and the commit. */
static void wrote(session *s) {
  s->wrote = true;
  s->view->edits++;
  s->last = s->savepoints;
}

/* Several writes of one row are done all or none: they are between these two. The second is handed their code, and
   answers it. */
static int whole_starts(session *s) { return savepoints_make(s, s->savepoints + 1); }

static int whole_ends(session *s, int code) {
  size_t level = s->savepoints - 1;
  if (code && savepoints_back_to(s, level)) code = PDT_NOMEM;
  savepoints_release(s, level);
  return code;
}

static int insert_row(session *s, size_t bytes) {
  key k;
  uint64_t position = 0;
  bool read = cursors_are_open(s->view);
  key_of_row(s, s->row, s->row_texts, &k);
  int code = read ? view_position(s->view, &k, false, &position) : PDT_OK;
  if (!code) code = pdt_insert(s->view->txn, s->row, s->row_texts, bytes);
  if (code) return code;
  wrote(s);
  if (read) cursors_insert(s, position, &k);
  return PDT_OK;
}

static int delete_row(session *s, const key *k) {
  uint64_t position = 0;
  bool read = cursors_are_open(s->view);
  int code = read ? view_position(s->view, k, false, &position) : PDT_OK;
  if (!code) code = pdt_delete(s->view->txn, k->numbers, k->texts, k->bytes);
  if (code) return code;
  wrote(s);
  if (read) cursors_delete(s, position, k);
  return PDT_OK;
}

/* Deletes rows and inserts the one in s->row. */
static int replace_row(session *s, const key *const *olds, size_t count, size_t bytes) {
  int code = whole_starts(s);
  if (code) return code;
  for (size_t done = 0; done < count && !code; done++) code = delete_row(s, olds[done]);
  if (!code) code = insert_row(s, bytes);
  return whole_ends(s, code);
}

static int hidden(sqlite3_vtab *base) { return say(base, SQLITE_MISMATCH, "pdt: the hidden column of the key can't be written"); }

static int insert(sqlite3_vtab *base, sqlite3_value **values) {
  session *s = session_of(base);
  size_t bytes = 0;
  for (size_t column = 0; column < s->width; column++) {
    int code = put_cell(base, column, values[column], s->row, s->row_texts, &bytes);
    if (code) return code;
  }
  if (sqlite3_value_type(values[s->width]) != SQLITE_NULL) return hidden(base);
  int code = insert_row(s, bytes);
  if (code != PDT_DUPLICATE || sqlite3_vtab_on_conflict(s->owner->db) != SQLITE_REPLACE) return refuse(base, code);
  key k;
  const key *old = &k;
  key_of_row(s, s->row, s->row_texts, &k);
  return refuse(base, replace_row(s, &old, 1, bytes));
}

/* How many cells an UPDATE names, beside those of the key. */
static size_t count_named(const session *s, sqlite3_value **values) {
  size_t count = 0;
  for (size_t column = s->keys; column < s->width; column++) count += !sqlite3_value_nochange(values[column]);
  return count;
}

/* Sets the cells that an UPDATE names; their numbers and texts are in s->row, in their order. */
static int set_cells(session *s, const key *k, sqlite3_value **values) {
  const char *text = s->row_texts;
  bool several = count_named(s, values) > 1;
  int code = several ? whole_starts(s) : PDT_OK;
  if (code) return code;
  for (size_t column = 0; column < s->width && !code; column++) {
    if (sqlite3_value_nochange(values[column])) continue;
    if (column >= s->keys) {
      code = pdt_set(s->view->txn, k->numbers, k->texts, k->bytes, column, s->row[column], text);
      if (!code) wrote(s);
    }
    if (type_of(s, column) == PDT_TEXT) text += s->row[column];
  }
  return several ? whole_ends(s, code) : code;
}

/* Puts the whole new row into s->row: cells that an UPDATE doesn't name are those of the old one, in s->old. */
static int merge_row(sqlite3_vtab *base, sqlite3_value **values, size_t *bytes) {
  session *s = session_of(base);
  const char *old = s->old_texts;
  *bytes = 0;
  for (size_t column = 0; column < s->width; column++) {
    bool is_text = type_of(s, column) == PDT_TEXT;
    size_t len = is_text ? (size_t)s->old[column] : 0;
    if (sqlite3_value_nochange(values[column])) {
      s->row[column] = s->old[column];
      memcpy(s->row_texts + *bytes, old, len);
      *bytes += len;
    } else {
      int code = put_cell(base, column, values[column], s->row, s->row_texts, bytes);
      if (code) return code;
    }
    old += len;
  }
  return SQLITE_OK;
}

/* Keeps the key of a row that an UPDATE replaces, until a statement reads again: none does before this one is over. */
static int keep_replaced(session *s, const key *k) {
  if (!s->replaced) s->replaced = keyset_new();
  return s->replaced && keyset_add(s->replaced, k) ? PDT_OK : PDT_NOMEM;
}

/* Moves the row in s->old to another key: inserts the new one, and deletes the old one. Where the table is full the old
   one goes first, and so does a row of the new key that is replaced. */
static int move_row(sqlite3_vtab *base, const key *from, const key *to, size_t bytes) {
  session *s = session_of(base);
  const key *olds[] = {from, to};
  int code = whole_starts(s);
  if (code) return code;
  code = insert_row(s, bytes);
  if (!code) code = delete_row(s, from);
  code = whole_ends(s, code);
  if (code == PDT_FULL) return replace_row(s, olds, 1, bytes);
  if (code != PDT_DUPLICATE || sqlite3_vtab_on_conflict(s->owner->db) != SQLITE_REPLACE) return code;
  code = keep_replaced(s, to);
  return code ? code : replace_row(s, olds, 2, bytes);
}

static bool names_key(const session *s, sqlite3_value **values) {
  for (size_t column = 0; column < s->keys; column++)
    if (!sqlite3_value_nochange(values[column])) return true;
  return false;
}

/* Puts the cells that are named into s->row, and nothing of the others. */
static int named_cells(sqlite3_vtab *base, sqlite3_value **values) {
  size_t bytes = 0;
  for (size_t column = 0; column < session_of(base)->width; column++) {
    if (sqlite3_value_nochange(values[column])) continue;
    int code = put_cell(base, column, values[column], session_of(base)->row, session_of(base)->row_texts, &bytes);
    if (code) return code;
  }
  return SQLITE_OK;
}

static int set_row(sqlite3_vtab *base, const key *k, sqlite3_value **values) {
  int code = named_cells(base, values);
  if (code) return code;
  code = set_cells(session_of(base), k, values);
  return code == PDT_MISSING ? SQLITE_OK : refuse(base, code);
}

static int update(sqlite3_vtab *base, const key *from, sqlite3_value **values) {
  session *s = session_of(base);
  key to;
  size_t bytes = 0;
  if (!sqlite3_value_nochange(values[s->width]) && (!key_of_value(s, values[s->width], &to) || key_compare(s, from, &to)))
    return hidden(base);
  if (keyset_has(s->replaced, from))
    return say(base, SQLITE_ERROR, "pdt: UPDATE OR REPLACE came to a row that it has put in the place of another");
  if (!names_key(s, values)) return set_row(base, from, values);
  int code = pdt_get(s->view->txn, from->numbers, from->texts, from->bytes, s->old, s->old_texts, s->text_room, NULL);
  if (code) return code == PDT_MISSING ? SQLITE_OK : fail(base, code);
  code = merge_row(base, values, &bytes);
  if (code) return code;
  key_of_row(s, s->row, s->row_texts, &to);
  return key_compare(s, from, &to) ? refuse(base, move_row(base, from, &to, bytes)) : set_row(base, from, values);
}

/* SQLite forgets the sign of a zero: the key is that of 0.0, or of -0.0, which others may write. One of its codes. */
static int settle_zero(sqlite3_vtab *base, key *k) {
  const session *s = session_of(base);
  int64_t negative = number_of_real(-0.0);
  uint64_t position = 0;
  bool there[2];
  if (s->keys > 1 || s->means[0].kind != REALS || k->numbers[0]) return SQLITE_OK;
  int code = pdt_rank(s->view->txn, k->numbers, k->texts, k->bytes, &position, &there[0]);
  if (!code) code = pdt_rank(s->view->txn, &negative, k->texts, k->bytes, &position, &there[1]);
  if (code) return fail(base, code);
  if (there[0] && there[1]) return say(base, SQLITE_ERROR, "pdt: %s has a row of -0.0 and one of 0.0, and SQLite has them equal", s->name);
  if (there[1]) k->numbers[0] = negative;
  return SQLITE_OK;
}

/* Refuses to write beside a table that the commit wouldn't be one with. */
static int refuse_second(sqlite3_vtab *base, const session *writer) {
  bool is_alone = !session_of(base)->in && !writer->in;
  return say(base, SQLITE_ERROR, "pdt: a transaction writes %s, and this one has written %s",
             is_alone ? "one table of pdt" : "tables of one database of pdt, or one table alone", writer->name);
}

/* What last_insert_rowid() is after an INSERT: the key, where that is one number as of an INTEGER PRIMARY KEY; else what it was, as
   after one into a table WITHOUT ROWID. */
static sqlite3_int64 rowid_of_insert(const session *s) {
  bool is_number = s->keys == 1 && type_of(s, 0) == PDT_INT && s->means[0].kind == NUMBERS;
  return is_number ? s->row[0] : sqlite3_last_insert_rowid(s->owner->db);
}

/* A row is written: deleted where there is one value, inserted where the first is NULL, and changed otherwise. One
   that the same statement has taken away already is passed over, as in SQLite's own tables. */
int x_update(sqlite3_vtab *base, int argc, sqlite3_value **argv, sqlite3_int64 *rowid) {
  session *s = session_of(base);
  key k;
  if (s->doomed) return refuse_doomed(base, s);
  const session *writer = writer_of(s->owner);
  if (writer && writer != s && (!s->in || s->in != writer->in)) return refuse_second(base, writer);
  int code = listen_at_first_use(base);
  if (!code) code = write_starts(base);
  if (code) return code;
  if (argc > 1 && sqlite3_value_type(argv[0]) == SQLITE_NULL) {
    code = insert(base, argv + 2);
    *rowid = rowid_of_insert(s);
    return code;
  }
  if (!key_of_value(s, argv[0], &k)) return fail(base, PDT_TYPE_MISMATCH);
  code = settle_zero(base, &k);
  if (code) return code;
  if (argc > 1) return update(base, &k, argv + 2);
  code = delete_row(s, &k);
  return code == PDT_MISSING ? SQLITE_OK : fail(base, code);
}
