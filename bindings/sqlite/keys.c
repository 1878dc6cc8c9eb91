/* Keys, as the library takes them. */
#include "vtab.h"

#include "../../libpdt/src/utf8.h"

#include <string.h>

SQLITE_EXTENSION_INIT3

bool is_cell_text(const void *text, size_t len) { return len <= PDT_MAX_TEXT && pdti_is_utf8(text, len); }

void key_start(key *k) { k->columns = k->bytes = 0; }

void key_put_number(key *k, int64_t number) { k->numbers[k->columns++] = number; }

void key_put_text(key *k, const void *text, size_t len) {
  memcpy(k->texts + k->bytes, text, len);
  k->bytes += len;
  key_put_number(k, (int64_t)len);
}

/* The greatest text is all of the greatest character, which is four bytes long. */
static void key_put_greatest_text(key *k) {
  char text[PDT_MAX_TEXT];
  for (size_t i = 0; i < PDT_MAX_TEXT; i += 4) memcpy(text + i, "\xf4\x8f\xbf\xbf", 4);
  key_put_text(k, text, PDT_MAX_TEXT);
}

void key_fill(const session *s, key *k, bool greatest) {
  while (k->columns < s->keys) {
    int type = type_of(s, k->columns);
    if (type == PDT_TEXT && greatest) key_put_greatest_text(k);
    else if (type == PDT_BOOL) key_put_number(k, greatest);
    else if (type == PDT_INT) key_put_number(k, greatest ? INT64_MAX : INT64_MIN);
    else key_put_text(k, "", 0);
  }
}

void key_of_row(const session *s, const int64_t *numbers, const char *texts, key *k) {
  key_start(k);
  for (size_t column = 0; column < s->keys; column++) {
    if (type_of(s, column) == PDT_TEXT) key_put_text(k, texts + k->bytes, (size_t)numbers[column]);
    else key_put_number(k, numbers[column]);
  }
}

int key_compare(const session *s, const key *a, const key *b) {
  const char *left = a->texts, *right = b->texts;
  for (size_t column = 0; column < s->keys; column++) {
    int64_t x = a->numbers[column], y = b->numbers[column];
    int order = (x > y) - (x < y);
    if (type_of(s, column) == PDT_TEXT) {
      int bytes = memcmp(left, right, (size_t)(x < y ? x : y));
      if (bytes) order = bytes;
      left += x;
      right += y;
    }
    if (order) return order;
  }
  return 0;
}

void key_copy(key *to, const key *from) {
  memcpy(to, from, offsetof(key, texts));
  memcpy(to->texts, from->texts, from->bytes);
}

/* Whether the texts of a key have the bytes that its numbers say. */
static bool has_its_bytes(const session *s, const key *k) {
  size_t bytes = 0;
  for (size_t column = 0; column < s->keys; column++) {
    if (type_of(s, column) != PDT_TEXT) continue;
    if (k->numbers[column] < 0 || k->numbers[column] > PDT_MAX_TEXT) return false;
    bytes += (size_t)k->numbers[column];
  }
  return bytes == k->bytes;
}

/* The key of the hidden column: its numbers and then its texts. Any blob may be compared with it. */
static bool key_of_blob(const session *s, sqlite3_value *value, key *k) {
  size_t bytes = (size_t)sqlite3_value_bytes(value), head = s->keys * sizeof *k->numbers;
  if (sqlite3_value_type(value) != SQLITE_BLOB || bytes < head || bytes - head > sizeof k->texts) return false;
  const char *blob = sqlite3_value_blob(value);
  memcpy(k->numbers, blob, head);
  memcpy(k->texts, blob + head, bytes - head);
  k->columns = s->keys;
  k->bytes = bytes - head;
  return has_its_bytes(s, k);
}

/* The number of a key column's value that was read there. SQLite may hand a double back as a whole number. */
static bool number_of_key(const meaning *m, sqlite3_value *value, int64_t *number) {
  if (m->kind != REALS) return number_of_value(m, value, number);
  *number = number_of_real(sqlite3_value_double(value));
  return sqlite3_value_type(value) == SQLITE_FLOAT || sqlite3_value_type(value) == SQLITE_INTEGER;
}

bool key_of_value(const session *s, sqlite3_value *value, key *k) {
  if (s->keys > 1) return key_of_blob(s, value, k);
  key_start(k);
  if (type_of(s, 0) != PDT_TEXT) {
    int64_t number = 0;
    bool is = number_of_key(&s->means[0], value, &number);
    key_put_number(k, number);
    return is;
  }
  const void *text = sqlite3_value_text(value);
  int len = sqlite3_value_bytes(value);
  if (!text || len > PDT_MAX_TEXT) return false;
  key_put_text(k, text, (size_t)len);
  return true;
}

/* ---- sets of keys: as many chains, in one of which each key is */

enum { CHAINS = 4096 };

typedef struct link {
  struct link *next;
  size_t len;
  char packed[];
} link;

struct keyset {
  size_t count;
  link *chains[CHAINS];
};

keyset *keyset_new(void) {
  keyset *set = sqlite3_malloc((int)sizeof *set);
  if (set) memset(set, 0, sizeof *set);
  return set;
}

void keyset_clear(keyset *set) {
  if (!set || !set->count) return;
  for (size_t i = 0; i < CHAINS; i++)
    while (set->chains[i]) {
      link *first = set->chains[i];
      set->chains[i] = first->next;
      sqlite3_free(first);
    }
  set->count = 0;
}

void keyset_free(keyset *set) {
  keyset_clear(set);
  sqlite3_free(set);
}

/* A key's bytes: its numbers, of which those of texts say where the texts end, and its texts. */
static size_t key_pack(const key *k, char *to) {
  size_t head = k->columns * sizeof *k->numbers;
  memcpy(to, k->numbers, head);
  memcpy(to + head, k->texts, k->bytes);
  return head + k->bytes;
}

static size_t chain_of(const char *packed, size_t len) {
  uint64_t hash = 14695981039346656037u; /* FNV-1a */
  for (size_t i = 0; i < len; i++) hash = (hash ^ (unsigned char)packed[i]) * 1099511628211u;
  return (size_t)(hash % CHAINS);
}

bool keyset_add(keyset *set, const key *k) {
  link *added = sqlite3_malloc64(sizeof *added + sizeof k->numbers + k->bytes);
  if (!added) return false;
  added->len = key_pack(k, added->packed);
  link **chain = &set->chains[chain_of(added->packed, added->len)];
  added->next = *chain;
  *chain = added;
  set->count++;
  return true;
}

bool keyset_has(const keyset *set, const key *k) {
  char packed[sizeof *k];
  if (!set || !set->count) return false;
  size_t len = key_pack(k, packed);
  const link *at = set->chains[chain_of(packed, len)];
  while (at && (at->len != len || memcmp(at->packed, packed, len))) at = at->next;
  return at;
}
