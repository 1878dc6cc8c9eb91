/* Declarations: what is between the brackets of USING pdt(..), of which SQLite hands out what is between the commas. */
#include "tables.h"

#include <errno.h>
#include <sqlite3ext.h>
#include <stdlib.h>
#include <string.h>
SQLITE_EXTENSION_INIT3

#define BLANKS " \t\r\n\f"

static const char *past_blanks(const char *at) { return at + strspn(at, BLANKS); }

/* ---- words of the form name=value */

/* What a word says after its `name=`; null if it has another name. */
static const char *value_of(const char *word, const char *name) {
  size_t len = strlen(name);
  if (sqlite3_strnicmp(word, name, (int)len)) return NULL;
  word = past_blanks(word + len);
  return *word == '=' ? past_blanks(word + 1) : NULL;
}

/* Takes a literal without its quotes, a doubled one of them single, or a word in no quotes. Null where memory is refused. *out is
   sqlite3_malloc's, and what is behind it is answered. */
static const char *take_literal(const char *word, char **out) {
  char quote = *word == '\'' || *word == '"' ? *word : 0, *to = *out = sqlite3_mprintf("%s", word);
  const char *from = word + !!quote;
  if (!to) return NULL;
  for (; *from; from++) {
    if (quote ? *from == quote && *++from != quote : !!strchr(BLANKS, *from)) break;
    *to++ = *from;
  }
  *to = 0;
  return from;
}

/* A whole number in decimal digits, from 1 on. */
static bool number_of(const char *word, uint64_t *number) {
  char *end;
  errno = 0;
  unsigned long long value = strtoull(word, &end, 10);
  if (*word < '0' || *word > '9' || *end || errno || !value) return false;
  *number = value;
  return true;
}

static char *no_memory(void) { return sqlite3_mprintf("%s", pdt_code_text(PDT_NOMEM)); }

/* Reads a literal, behind which nothing is. Null, or a sentence. */
static char *read_literal(const char *word, char **out) {
  const char *behind = take_literal(word, out);
  if (!behind) return no_memory();
  behind = past_blanks(behind);
  return *behind ? sqlite3_mprintf("a comma is missing before %s, or quotes around what has a blank", behind) : NULL;
}

static char *read_path(const char *word, bool is_folder, declaration *out) {
  if (out->path) return sqlite3_mprintf("a table has one file or one checkpoint");
  out->is_folder = is_folder;
  return read_literal(word, &out->path);
}

static char *read_name(const char *value, char **name) {
  if (*name) return sqlite3_mprintf("a table has one database, and one name there");
  return read_literal(value, name);
}

static char *read_sync(const char *value, declaration *out) {
  static const char *const words[] = {[PDT_SYNC_FULL] = "full", [PDT_SYNC_NORMAL] = "normal", [PDT_SYNC_OFF] = "off"};
  char *word = NULL, *error = read_literal(value, &word);
  out->sync = -1;
  for (int sync = PDT_SYNC_FULL; !error && sync <= PDT_SYNC_OFF; sync++)
    if (!sqlite3_stricmp(word, words[sync])) out->sync = sync;
  sqlite3_free(word);
  return error || out->sync >= 0 ? error : sqlite3_mprintf("sync is full, normal or off, not %s", value);
}

/* Reads a word of the form name=value. False where it has none of the names. */
static bool read_option(const char *word, declaration *out, char **error) {
  const char *value;
  uint64_t number = 0;
  if ((value = value_of(word, "checkpoint"))) *error = read_path(value, true, out);
  else if ((value = value_of(word, "database"))) *error = read_name(value, &out->folder);
  else if ((value = value_of(word, "table"))) *error = read_name(value, &out->table);
  else if ((value = value_of(word, "sync"))) *error = read_sync(value, out);
  else if ((value = value_of(word, "recent"))) {
    if (!number_of(value, &number) || number > SIZE_MAX) *error = sqlite3_mprintf("recent is a number from 1 on, not %s", value);
    out->options.recent = (size_t)number;
  } else if ((value = value_of(word, "limit"))) {
    if (!number_of(value, &number)) *error = sqlite3_mprintf("limit is a number from 1 on, not %s", value);
    out->options.row_limit = number;
  } else if ((value = value_of(word, "conflicts"))) {
    out->options.by_row = !sqlite3_stricmp(value, "row");
    if (!out->options.by_row && sqlite3_stricmp(value, "column")) *error = sqlite3_mprintf("conflicts is row or column, not %s", value);
  }
  return value;
}

/* ---- columns, as CREATE TABLE has them */

/* A name in quotes or in none, without them, or a mark. */
typedef struct piece {
  char text[PDT_MAX_NAME + 1]; /* as much of it as there is room for */
  bool is_quoted, is_long;
} piece;

static char closing(char quote) { return quote == '[' ? ']' : quote && strchr("'\"`", quote) ? quote : 0; }

/* Takes the next piece; null where there is none. */
static const char *take_piece(const char *at, piece *out) {
  static const char marks[] = "(),=";
  size_t len = 0;
  memset(out, 0, sizeof *out);
  at = at ? past_blanks(at) : "";
  if (!*at) return NULL;
  char end = closing(*at);
  out->is_quoted = end;
  if (end) at++;
  else if (strchr(marks, *at)) {
    out->text[0] = *at;
    return at + 1;
  }
  for (; *at; at++) {
    if (!end && (strchr(marks, *at) || strchr(BLANKS, *at))) break;
    if (end && *at == end && (end == ']' || *++at != end)) break;
    if (len < PDT_MAX_NAME) out->text[len++] = *at;
    else out->is_long = true;
  }
  return end == ']' && *at ? at + 1 : at;
}

static bool is_word(const piece *p, const char *word) { return !p->is_quoted && !sqlite3_stricmp(p->text, word); }

/* What is behind two words; null where they aren't there. */
static const char *past_words(const char *at, const char *first, const char *second) {
  piece p;
  at = take_piece(at, &p);
  if (!at || !is_word(&p, first)) return NULL;
  at = take_piece(at, &p);
  return at && is_word(&p, second) ? at : NULL;
}

/* A type: what its column is declared as where it takes NULL, and else where the numbers stand for something. */
typedef struct column_type {
  const char *name;
  int type;
  const char *nullable, *format;
} column_type;

/* The type of a word; null where it is none. */
static const column_type *type_named(const piece *p) {
  static const column_type types[] = {
      {"INTEGER", PDT_INT, "?l", NULL}, {"INT", PDT_INT, "?l", NULL},      {"REAL", PDT_INT, "?g", "g"},
      {"DATE", PDT_INT, "?tdD", "tdD"}, {"TEXT", PDT_TEXT, NULL, NULL},    {"TIMESTAMP", PDT_INT, "?tsu:", "tsu:"},
      {"BOOL", PDT_BOOL, NULL, NULL},   {"BOOLEAN", PDT_BOOL, NULL, NULL},
  };
  for (size_t i = 0; i < sizeof types / sizeof *types; i++)
    if (is_word(p, types[i].name)) return &types[i];
  return NULL;
}

static char *add_key(const piece *name, declaration *out) {
  if (out->keys == PDT_MAX_KEY_COLUMNS) return sqlite3_mprintf("a key has at most %d columns", PDT_MAX_KEY_COLUMNS);
  strcpy(out->key[out->keys++], name->text);
  return NULL;
}

static char *two_keys(void) { return sqlite3_mprintf("a table has one key; of several columns it is PRIMARY KEY (a, b)"); }

/* The names of PRIMARY KEY (a, b). */
static char *read_key(const char *word, const char *at, declaration *out) {
  piece name, mark;
  char *error = out->keys ? two_keys() : NULL;
  at = take_piece(at, &mark);
  bool is_good = at && is_word(&mark, "(");
  do {
    at = take_piece(at, &name);
    is_good = is_good && at;
    if (is_good && !error) error = add_key(&name, out);
    at = take_piece(at, &mark);
  } while (is_good && !error && at && is_word(&mark, ","));
  if (error || (is_good && at && is_word(&mark, ")") && !*past_blanks(at))) return error;
  return sqlite3_mprintf("a key is declared as PRIMARY KEY (a, b), not as %s", word);
}

/* What is behind the word NULL, of a column that may take it; null where it isn't there. */
static const char *past_null_of(const char *at, const column_type *type) {
  piece p;
  at = type->nullable ? take_piece(at, &p) : NULL;
  return at && is_word(&p, "NULL") ? at : NULL;
}

/* What is behind the type of a column: NOT NULL, which each is that doesn't say NULL, and PRIMARY KEY. */
static char *read_rules(const char *at, const piece *name, const column_type *type, declaration *out) {
  const char *past_own = past_null_of(at, type);
  if (past_own) {
    out->formats[out->width - 1] = type->nullable;
    at = past_own;
  }
  while (*past_blanks(at)) {
    const char *past_null = past_own ? NULL : past_words(at, "NOT", "NULL"), *past_key = past_words(at, "PRIMARY", "KEY");
    if (!past_null && !past_key)
      return sqlite3_mprintf("column %s is NOT NULL and may be PRIMARY KEY, and not %s", name->text, past_blanks(at));
    if (past_key && out->keys) return two_keys();
    if (past_key) add_key(name, out);
    at = past_key ? past_key : past_null;
  }
  return NULL;
}

/* Reads `name TYPE ..`. */
static char *read_column(const char *at, const piece *name, declaration *out) {
  piece type;
  at = take_piece(at, &type);
  if (out->width == PDT_MAX_COLUMNS) return sqlite3_mprintf("a table has at most %d columns", PDT_MAX_COLUMNS);
  if (!name->text[0] || name->is_long || strchr(name->text, ':'))
    return sqlite3_mprintf("a column's name has 1 to %d bytes and no colon", PDT_MAX_NAME);
  const column_type *found = type_named(&type);
  if (!found) return sqlite3_mprintf("column %s is INTEGER, REAL, DATE, TIMESTAMP, TEXT or BOOLEAN, not %s", name->text, type.text);
  out->types[out->width] = found->type;
  out->formats[out->width] = found->format;
  strcpy(out->names[out->width++], name->text);
  return read_rules(at, name, found, out);
}

static char *read_word(const char *word, declaration *out) {
  char *error = NULL;
  piece first, second;
  const char *at = take_piece(word, &first), *past_key = past_words(word, "PRIMARY", "KEY");
  bool is_alone = !take_piece(at, &second);
  if (is_alone && (*word == '\'' || *word == '"')) return read_path(word, false, out);
  if (read_option(word, out, &error)) return error;
  if (is_alone || is_word(&second, "=")) return sqlite3_mprintf("no such word: %s", word);
  return past_key ? read_key(word, past_key, out) : read_column(at, &first, out);
}

/* ---- a whole declaration */

static char *check_columns(const declaration *out) {
  for (size_t i = 0; i < out->width; i++)
    for (size_t other = 0; other < i; other++)
      if (!sqlite3_stricmp(out->names[i], out->names[other])) return sqlite3_mprintf("duplicate column name: %s", out->names[i]);
  for (size_t i = 0; i < out->keys; i++)
    if (i >= out->width || sqlite3_stricmp(out->names[i], out->key[i]))
      return sqlite3_mprintf("the columns of the key come first, in its order");
  for (size_t i = 0; i < out->keys; i++)
    if (out->formats[i] && *out->formats[i] == '?') return sqlite3_mprintf("column %s is of the key, and so NOT NULL", out->names[i]);
  if (!out->width || out->keys) return NULL;
  return sqlite3_mprintf("declare the key, as id INTEGER PRIMARY KEY, or behind the columns as PRIMARY KEY (a, b)");
}

/* What is said of a database and what is said of a table outside a database. */
static char *check(const declaration *out) {
  bool is_file = out->path && !out->is_folder && !out->width; /* which may have a key declared, as a header without types has none */
  if (!out->folder && (out->table || out->sync >= 0 || out->width || (out->keys && !is_file)))
    return sqlite3_mprintf("a table's name, sync and columns are those of a database, as pdt(database='DIR', table='NAME')");
  if (!out->folder && !out->path)
    return sqlite3_mprintf("name a file, as pdt('table.csv'), a folder, as pdt(checkpoint='DIR'), or a database, as "
                           "pdt(database='DIR', table='NAME')");
  if (!out->folder) return NULL;
  if (!out->table) return sqlite3_mprintf("name a table of the database, as pdt(database='DIR', table='NAME')");
  if (out->is_folder) return sqlite3_mprintf("a table is a checkpoint's or a database's");
  if (out->path && out->width) return sqlite3_mprintf("a table is made of columns or of a file");
  return is_file ? NULL : check_columns(out);
}

char *declaration_read(int words, const char *const *word, declaration *out) {
  memset(out, 0, sizeof *out);
  out->options.size = sizeof out->options;
  out->sync = -1;
  char *error = NULL;
  for (int i = 0; i < words && !error; i++) error = read_word(word[i], out);
  if (!error) error = check(out);
  if (!error) {
    if (out->folder) out->place = sqlite3_mprintf("%s in %s", out->table, out->folder);
    else out->place = sqlite3_mprintf("%s", out->path);
    if (!out->place) error = no_memory();
  }
  if (error) declaration_free(out);
  return error;
}

void declaration_free(declaration *declared) {
  sqlite3_free(declared->path);
  sqlite3_free(declared->folder);
  sqlite3_free(declared->table);
  sqlite3_free(declared->place);
  declared->path = declared->folder = declared->table = declared->place = NULL;
}

char *declaration_header(const declaration *declared) {
  static const char *const types[] = {"", "int", "text", "bool"};
  sqlite3_str *text = sqlite3_str_new(NULL);
  for (size_t i = 0; i < declared->width; i++)
    sqlite3_str_appendf(text, "%s\"%w:%s%s\"", i ? "," : "", declared->names[i], types[declared->types[i]],
                        i < declared->keys ? ":key" : "");
  sqlite3_str_appendchar(text, 1, '\n');
  return sqlite3_str_finish(text);
}

pdt_plain declaration_plain(const declaration *declared, const char *room[PDT_MAX_KEY_COLUMNS]) {
  for (size_t i = 0; i < declared->keys; i++) room[i] = declared->key[i];
  return (pdt_plain){.size = sizeof(pdt_plain), .key = room, .key_count = declared->keys};
}
