/* Lists of texts: an IN over a key of texts or dates is handed out whole, since SQLite would compare a row with each value of
   it as by an =, which goes by another affinity. Each text bounds a range of its own; a list with a number bounds
   nothing. SQLite compares each row with the whole list. */
#include "vtab.h"

#include <stdlib.h>
#include <string.h>

SQLITE_EXTENSION_INIT3

typedef struct word {
  const char *text; /* null of a date */
  size_t len;
  int64_t number; /* of a date */
} word;

struct list {
  key stem; /* the columns before the texts */
  size_t count, next;
  word words[];
};

static int order_of(const void *left, const void *right) {
  const word *a = left, *b = right;
  if (!a->text) return (a->number > b->number) - (a->number < b->number);
  int order = memcmp(a->text, b->text, a->len < b->len ? a->len : b->len);
  return order ? order : (a->len > b->len) - (a->len < b->len);
}

/* How many texts a list has that can be a cell's, and their bytes. False where it has a number. One of SQLite's
   codes. */
static int measure(sqlite3_value *values, size_t *count, size_t *bytes, bool *is_bound) {
  sqlite3_value *value = NULL;
  int code = sqlite3_vtab_in_first(values, &value);
  *is_bound = true;
  for (*count = *bytes = 0; !code && value; code = sqlite3_vtab_in_next(values, &value)) {
    int type = sqlite3_value_type(value);
    if (type == SQLITE_INTEGER || type == SQLITE_FLOAT) *is_bound = false;
    if (type == SQLITE_TEXT) ++*count, *bytes += (size_t)sqlite3_value_bytes(value);
  }
  return code == SQLITE_DONE ? SQLITE_OK : code;
}

/* Adds a text, whose bytes are copied to a place, or the date that it is. One that is no cell's is passed over. */
static void add(list *l, const meaning *m, const char *text, size_t len, char **to) {
  int64_t least, most;
  if (is_shown_as_text(m)) {
    bounds_of(m, &least, &most);
    if (narrow_by_stamp(m, SQLITE_INDEX_CONSTRAINT_EQ, text, len, &least, &most)) l->words[l->count++] = (word){NULL, 0, least};
  } else if (is_cell_text(text, len)) {
    memcpy(*to, text, len);
    l->words[l->count++] = (word){*to, len, 0};
    *to += len;
  }
}

/* Copies the texts, which are those that were measured, and puts them into their order: SQLite promises none. One of its
   codes. */
static int fill(list *l, const meaning *m, sqlite3_value *values) {
  sqlite3_value *value = NULL;
  char *to = (char *)(l->words + l->count);
  size_t most = l->count;
  int code = sqlite3_vtab_in_first(values, &value);
  for (l->count = 0; !code && value; code = sqlite3_vtab_in_next(values, &value)) {
    if (sqlite3_value_type(value) != SQLITE_TEXT || l->count == most) continue;
    size_t len = (size_t)sqlite3_value_bytes(value);
    const char *text = (const char *)sqlite3_value_text(value);
    if (!text) return SQLITE_NOMEM;
    add(l, m, text, len, &to);
  }
  qsort(l->words, l->count, sizeof *l->words, order_of);
  return code == SQLITE_DONE ? SQLITE_OK : code;
}

int list_make(const session *s, const key *stem, sqlite3_value *values, list **out) {
  size_t count = 0, bytes = 0;
  bool is_bound = false;
  *out = NULL;
  int code = measure(values, &count, &bytes, &is_bound);
  if (code || !is_bound) return code;
  list *l = sqlite3_malloc64(sizeof *l + count * sizeof *l->words + bytes);
  if (!l) return SQLITE_NOMEM;
  key_copy(&l->stem, stem);
  l->count = count;
  l->next = 0;
  code = fill(l, &s->means[stem->columns], values);
  if (code) list_free(l);
  else *out = l;
  return code;
}

void list_free(list *l) { sqlite3_free(l); }

bool list_next(const session *s, list *l, bool down, range *r) {
  if (l->next == l->count) return false;
  const word *next = &l->words[down ? l->count - 1 - l->next : l->next];
  l->next++;
  key_copy(&r->low, &l->stem);
  if (next->text) key_put_text(&r->low, next->text, next->len);
  else key_put_number(&r->low, next->number);
  key_copy(&r->high, &r->low);
  key_fill(s, &r->low, false);
  key_fill(s, &r->high, true);
  r->past_low = false;
  r->past_high = true;
  r->empty = false;
  return true;
}
