/* Finds the cell, column or option that the exports refused. They decide, and return a code; this file looks for the cause afterwards, in
   the order of their tests. If it finds none, the code keeps its own sentence. */
#include "inside.h"

#include <inttypes.h>
#include <stdio.h>

/* ---- options */

int pdti_refuse_options(int code, const pdt_options *options) {
  pdti_grouped most;
  if (code == PDT_TOO_MANY_ROWS) return pdti_say(code, "the table has more rows than its limit, %s", pdti_group(&most, options->row_limit));
  if (code != PDT_BAD_LIMIT) return pdti_plain(code);
  if (options->recent > PDT_MAX_RECENT) return pdti_say(code, "recent is %zu: 1 to 65,536 is wanted", options->recent);
  return pdti_say(code, "row_limit is %" PRIu64 ": 1 to 2,147,483,647 is wanted", options->row_limit);
}

/* ---- cells of a row, or of a key */

static const char *where(pdti_where *into, const pdt_table *table, size_t column) {
  return pdti_where_of(into, table->names[column], table->name_bytes[column]);
}

int pdti_refuse_column(const pdt_table *table, size_t column) {
  return pdti_say(PDT_TYPE_MISMATCH, "there is no column %zu: the table has %zu", column, table->width);
}

int pdti_refuse_length(const char *where, uint64_t bytes) {
  pdti_grouped count;
  return pdti_say(PDT_TYPE_MISMATCH, "%sthe text has %s bytes, and 4,096 are the most", where, pdti_group(&count, bytes));
}

/* A number that is no cell of a column. */
static int refuse_number(const pdt_table *table, size_t column, int64_t number) {
  pdti_where at;
  const char *wanted = table->types[column] == PDT_BOOL ? "is not a bool: 0 or 1 is wanted" : "is not the length of a text";
  return pdti_say(PDT_TYPE_MISMATCH, "%s%" PRId64 " %s", where(&at, table, column), number, wanted);
}

static int refuse_text(const pdt_table *table, size_t column) {
  pdti_where at;
  return pdti_say(PDT_TYPE_MISMATCH, "%sthe text is not UTF-8", where(&at, table, column));
}

static int refuse_long_text(const pdt_table *table, size_t column, int64_t number) {
  pdti_where at;
  return pdti_refuse_length(where(&at, table, column), (uint64_t)number);
}

/* The texts have more or fewer bytes than their numbers say. */
static int refuse_bytes(const pdt_table *table, const int64_t *numbers, size_t count, size_t bytes) {
  pdti_grouped given, taken;
  uint64_t sum = 0;
  for (size_t column = 0; column < count; column++)
    if (table->types[column] == PDT_TEXT && numbers[column] > 0) {
      uint64_t number = (uint64_t)numbers[column];
      sum = number > UINT64_MAX - sum ? UINT64_MAX : sum + number;
    }
  return pdti_say(PDT_TYPE_MISMATCH, "the texts have %s bytes, and the cells take %s", pdti_group(&given, bytes), pdti_group(&taken, sum));
}

/* The first cell that is refused: PDT_OK if there is none. */
static int find_cell(const pdt_table *table, const int64_t *numbers, size_t count, const uint8_t *texts, size_t bytes) {
  size_t at = 0;
  for (size_t column = 0; column < count; column++) {
    int64_t number = numbers[column];
    if (table->types[column] == PDT_BOOL && number != 0 && number != 1) return refuse_number(table, column, number);
    if (table->types[column] != PDT_TEXT) continue;
    if (number < 0) return refuse_number(table, column, number);
    if ((uint64_t)number > bytes - at) return refuse_bytes(table, numbers, count, bytes);
    if (!pdti_is_utf8(texts + at, (size_t)number)) return refuse_text(table, column);
    at += (size_t)number;
  }
  if (at < bytes) return refuse_bytes(table, numbers, count, bytes);
  for (size_t column = 0; column < count; column++)
    if (table->types[column] == PDT_TEXT && numbers[column] > PDT_MAX_TEXT) return refuse_long_text(table, column, numbers[column]);
  return PDT_OK;
}

int pdti_refuse_cells(int code, const pdt_table *table, const int64_t *numbers, size_t count, const void *texts, size_t bytes) {
  int found = code == PDT_TYPE_MISMATCH ? find_cell(table, numbers, count, bytes_at(texts, bytes), bytes) : PDT_OK;
  return found ? code : pdti_plain(code);
}

int pdti_refuse_key(int code, const pdt_table *table, const int64_t *key, const void *texts, size_t bytes) {
  if (code == PDT_MISSING) return pdti_keep_key(code, PDTI_NO_ROW, table, key, texts);
  return pdti_refuse_cells(code, table, key, table->key, texts, bytes);
}

int pdti_refuse_set(const pdt_table *table, const pdti_set_cell *set) {
  pdti_quoted name;
  size_t column = set->column;
  int64_t number = set->number;
  if (find_cell(table, set->key, table->key, bytes_at(set->texts, set->bytes), set->bytes)) return PDT_TYPE_MISMATCH;
  if (column >= table->width) return pdti_refuse_column(table, column);
  if (column < table->key)
    return pdti_say(PDT_TYPE_MISMATCH, "column %s is a key column, which can't be set",
                    pdti_quote(&name, table->names[column], table->name_bytes[column]));
  bool is_text = table->types[column] == PDT_TEXT;
  if (table->types[column] == PDT_BOOL || (is_text && number < 0)) return refuse_number(table, column, number);
  if (is_text && number > PDT_MAX_TEXT) return refuse_long_text(table, column, number);
  if (is_text && set->text && !pdti_is_utf8(set->text, (size_t)number)) return refuse_text(table, column);
  return pdti_plain(PDT_TYPE_MISMATCH);
}

/* ---- columns that a table is to be made of */

/* A column whose name or type is refused, or PDT_OK. */
static int find_heading(const pdt_column *columns, size_t at, size_t key) {
  const pdt_column *column = &columns[at];
  pdti_quoted quoted;
  size_t len = strnlen(column->name, PDT_MAX_NAME + 1);
  pdti_quote(&quoted, column->name, len);
  if (!len || len > PDT_MAX_NAME || memchr(column->name, ':', len) || !pdti_is_utf8((const uint8_t *)column->name, len))
    return pdti_say(PDT_BAD_TABLE, "column %zu has the name %s: 1 to 64 bytes of UTF-8 without a colon are wanted", at, quoted.text);
  for (size_t before = 0; before < at; before++)
    if (!strcmp(columns[before].name, column->name)) return pdti_say(PDT_BAD_TABLE, "two columns have the name %s", quoted.text);
  int type = column->type & ~PDT_OUTSIDE;
  if (type < PDT_INT || type > PDT_BOOL)
    return pdti_say(PDT_BAD_TABLE, "column %s: %d is not a type: PDT_INT, PDT_TEXT or PDT_BOOL is wanted", quoted.text, column->type);
  if (at < key && column->type != type)
    return pdti_say(PDT_BAD_TABLE, "column %s is a key column, whose values can't stay outside", quoted.text);
  return PDT_OK;
}

int pdti_refuse_headings(const pdt_column *columns, size_t count, size_t key) {
  if (!count || count > PDT_MAX_COLUMNS) return pdti_say(PDT_BAD_TABLE, "there are %zu columns: 1 to 32 are wanted", count);
  if (!key || key > PDT_MAX_KEY_COLUMNS) return pdti_say(PDT_BAD_TABLE, "the key has %zu columns: 1 to 4 are wanted", key);
  if (key > count) return pdti_say(PDT_BAD_TABLE, "the key has %zu columns, and the table has %zu", key, count);
  for (size_t at = 0; at < count && columns[at].name; at++)
    if (find_heading(columns, at, key)) return PDT_BAD_TABLE;
  return pdti_plain(PDT_BAD_TABLE);
}

int pdti_find_value(const pdt_column *column, uint64_t row, const char *where) {
  if (column->type == PDT_BOOL && column->bytes[row] > 1)
    return pdti_say(PDT_TYPE_MISMATCH, "%s%d is not a bool: 0 or 1 is wanted", where, column->bytes[row]);
  if (column->type != PDT_TEXT) return PDT_OK;
  uint64_t from = column->offsets[row], to = column->offsets[row + 1];
  if (to < from || to > column->len)
    return pdti_say(PDT_TYPE_MISMATCH, "%sthe text is from byte %" PRIu64 " to byte %" PRIu64 " of %zu", where, from, to, column->len);
  if (to - from > PDT_MAX_TEXT) return pdti_refuse_length(where, to - from);
  if (!pdti_is_utf8(bytes_at(column->bytes + from, (size_t)(to - from)), (size_t)(to - from)))
    return pdti_say(PDT_TYPE_MISMATCH, "%sthe text is not UTF-8", where);
  return PDT_OK;
}

int pdti_refuse_value(const pdt_column *columns, const pdt_place *place) {
  const pdt_column *first = &columns[0], *column = &columns[place->column];
  pdti_quoted name, other;
  pdti_where at;
  pdti_quote(&name, column->name, strlen(column->name));
  if (column->rows != first->rows)
    return pdti_say(PDT_TYPE_MISMATCH, "column %s has %" PRIu64 " values, and column %s has %" PRIu64, name.text, column->rows,
                    pdti_quote(&other, first->name, strlen(first->name)), first->rows);
  snprintf(at.text, sizeof at.text, "row %" PRIu64 ", column %s: ", place->row, name.text);
  bool is_here = !(column->type & PDT_OUTSIDE) && place->row < column->rows;
  return is_here && pdti_find_value(column, place->row, at.text) ? PDT_TYPE_MISMATCH : pdti_plain(PDT_TYPE_MISMATCH);
}

/* The key of a row of columns. */
static void key_at(const pdt_column *columns, size_t key, uint64_t row, pdti_said_cell *cells) {
  for (size_t i = 0; i < key; i++) {
    const pdt_column *column = &columns[i];
    cells[i] = (pdti_said_cell){.name = column->name, .name_bytes = strlen(column->name), .type = column->type};
    if (column->type == PDT_TEXT) {
      cells[i].text = (const char *)column->bytes + column->offsets[row];
      cells[i].bytes = (size_t)(column->offsets[row + 1] - column->offsets[row]);
    } else {
      cells[i].number = column->type == PDT_INT ? column->numbers[row] : column->bytes[row];
    }
  }
}

int pdti_refuse_order(const pdt_column *columns, size_t key, uint64_t row) {
  pdti_said_cell cells[PDT_MAX_KEY_COLUMNS], before[PDT_MAX_KEY_COLUMNS];
  key_at(columns, key, row, cells);
  key_at(columns, key, row - 1, before);
  return pdti_say_order(row, cells, before, key);
}

int pdti_refuse_second(const pdt_column *columns, size_t key, uint64_t row) {
  pdti_said_cell cells[PDT_MAX_KEY_COLUMNS];
  key_at(columns, key, row, cells);
  return pdti_say_key(PDT_DUPLICATE, PDTI_EARLIER, cells, key);
}
