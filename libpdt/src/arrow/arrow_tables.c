/* Tables that are made of Arrow's C streams, whose rows may be in any order. */
#include "arrow.h"
#include "database.h"

#include <stdio.h>

/* What a table is made of: gathered columns, those of the key first. */
typedef struct {
  pdti_gathering *all;
  size_t order[PDT_MAX_COLUMNS]; /* which column of the stream each is */
  size_t keys;
  pdt_column columns[PDT_MAX_COLUMNS];
} pdti_making;

/* Where it is made: in a database under a name, or alone. */
typedef struct {
  pdt_database *database;
  const char *name;
  const pdt_options *options;
} pdti_home;

/* ---- the order of the columns */

static size_t find(const pdti_gathering *all, const char *name) {
  size_t at = 0;
  while (at < all->count && strcmp(all->columns[at].name, name)) at++;
  return at;
}

/* Columns of numbers whose field may have nulls take them, as the least number; but for those of the key. */
static void take_nulls(pdti_making *make) {
  for (size_t i = make->keys; i < make->all->count; i++) {
    pdti_gathered *in = &make->all->columns[make->order[i]];
    in->takes_nulls = in->may_have_least = in->is_nullable && in->as.type == PDT_INT;
  }
}

/* Puts the columns of the key first. */
static int order_columns(pdti_making *make, const char *const *key, size_t keys) {
  pdti_gathering *all = make->all;
  bool is_key[PDT_MAX_COLUMNS] = {false};
  if (!keys || keys > all->count || keys > PDT_MAX_KEY_COLUMNS)
    return pdti_tell(all->fault, PDT_BAD_TABLE, 0, 0, "the key has no column, more than 4, or more than there are");
  for (size_t i = 0; i < keys; i++) {
    if (!key[i]) return PDT_MISUSE;
    size_t at = find(all, key[i]);
    pdti_quoted name;
    pdti_quote(&name, key[i], strnlen(key[i], PDT_MAX_NAME + 1));
    if (at == all->count) return pdti_tell(all->fault, PDT_BAD_TABLE, 0, 0, "there is no column %s, which the key names", name.text);
    if (is_key[at]) return pdti_tell(all->fault, PDT_BAD_TABLE, 0, at, "the key names column %s twice", name.text);
    is_key[at] = true;
    make->order[i] = at;
  }
  make->keys = keys;
  for (size_t at = 0, next = keys; at < all->count; at++)
    if (!is_key[at]) make->order[next++] = at;
  take_nulls(make);
  return PDT_OK;
}

static void pass_columns(pdti_making *make) {
  for (size_t i = 0; i < make->all->count; i++) make->columns[i] = pdti_column_of(make->all, make->order[i]);
}

/* ---- the order of the rows */

static int compare_texts(const pdt_column *column, uint32_t one, uint32_t other) {
  size_t len = (size_t)(column->offsets[one + 1] - column->offsets[one]);
  size_t others = (size_t)(column->offsets[other + 1] - column->offsets[other]);
  int order = memcmp(column->bytes + column->offsets[one], column->bytes + column->offsets[other], len < others ? len : others);
  return order ? order : (len > others) - (len < others);
}

static int compare(const pdti_making *make, uint32_t one, uint32_t other) {
  int order = 0;
  for (size_t i = 0; i < make->keys && !order; i++) {
    const pdt_column *column = &make->columns[i];
    if (column->type == PDT_INT) {
      order = (column->numbers[one] > column->numbers[other]) - (column->numbers[one] < column->numbers[other]);
    } else if (column->type == PDT_BOOL) {
      order = column->bytes[one] - column->bytes[other];
    } else {
      order = compare_texts(column, one, other);
    }
  }
  return order;
}

/* Merges two runs of rows that are in order; of equal keys the earlier row stays first. */
static void merge(const pdti_making *make, const uint32_t *rows, size_t first, size_t middle, size_t end, uint32_t *out) {
  for (size_t left = first, right = middle, at = first; at < end; at++) {
    bool is_left = left < middle && (right == end || compare(make, rows[left], rows[right]) <= 0);
    out[at] = is_left ? rows[left++] : rows[right++];
  }
}

/* Sorts rows by their keys, with room for as many more. Answers which of the two rooms has them. */
static uint32_t *sort(const pdti_making *make, uint32_t *rows, uint32_t *room, size_t count) {
  for (size_t width = 1; width < count; width *= 2) {
    for (size_t first = 0; first < count; first += 2 * width) {
      size_t middle = first + width < count ? first + width : count, end = middle + width < count ? middle + width : count;
      merge(make, rows, first, middle, end, room);
    }
    uint32_t *other = rows;
    rows = room;
    room = other;
  }
  return rows;
}

/* Puts the cells of a column in another order of its rows: its rooms are as large as they need be. */
static int permute_numbers(pdti_gathered *column, const uint32_t *rows, size_t count) {
  int64_t *numbers = malloc(count * sizeof *numbers);
  if (!numbers) return PDT_NOMEM;
  for (size_t at = 0; at < count; at++) numbers[at] = column->numbers[rows[at]];
  free(column->numbers);
  column->numbers = numbers;
  return PDT_OK;
}

static int permute_booleans(pdti_gathered *column, const uint32_t *rows, size_t count) {
  uint8_t *booleans = malloc(count);
  if (!booleans) return PDT_NOMEM;
  for (size_t at = 0; at < count; at++) booleans[at] = column->bytes[rows[at]];
  free(column->bytes);
  column->bytes = booleans;
  return PDT_OK;
}

static int permute_texts(pdti_gathered *column, const uint32_t *rows, size_t count) {
  uint64_t *offsets = malloc((count + 1) * sizeof *offsets);
  uint8_t *bytes = malloc(column->len + 1);
  if (!offsets || !bytes) {
    free(offsets);
    free(bytes);
    return PDT_NOMEM;
  }
  offsets[0] = 0;
  for (size_t at = 0; at < count; at++) {
    uint64_t from = column->offsets[rows[at]], len = column->offsets[rows[at] + 1] - from;
    memcpy(bytes + offsets[at], column->bytes + from, (size_t)len);
    offsets[at + 1] = offsets[at] + len;
  }
  free(column->offsets);
  free(column->bytes);
  column->offsets = offsets;
  column->bytes = bytes;
  return PDT_OK;
}

static int permute(pdti_gathered *column, const uint32_t *rows, size_t count) {
  if (column->as.type == PDT_INT) return permute_numbers(column, rows, count);
  return column->as.type == PDT_BOOL ? permute_booleans(column, rows, count) : permute_texts(column, rows, count);
}

/* ---- the table */

/* What a column is declared as that came in so: nothing where it came in as integers, none of which may be a null. */
static void format_of(const pdti_gathered *in, char *format) {
  bool is_integer = in->as.kind == PDTI_NUMBERS && strlen(in->format) == 1, takes_nulls = in->takes_nulls && !in->has_least;
  const char *as = in->as.kind == PDTI_DOUBLES ? "g" : is_integer ? "l" : in->format;
  *format = 0;
  if (is_integer && !takes_nulls) return;
  if (strlen(as) + 2 <= PDTI_FORMAT_BYTES) sprintf(format, "%s%s", takes_nulls ? "?" : "", as);
}

/* Declares the columns that came in as something else than integers. */
static void declare(const pdti_making *make, pdt_table *table) {
  for (size_t column = 0; column < table->width; column++) {
    char format[PDTI_FORMAT_BYTES];
    format_of(&make->all->columns[make->order[column]], format);
    if (*format && pdti_may_declare(table, column, format)) strcpy(table->declared[column], format);
  }
}

static int create(const pdti_home *where, const pdti_making *make, pdt_place *place, pdt_table **out) {
  pdt_table *table = NULL;
  int code = pdt_open_columns(make->columns, make->all->count, make->keys, where->options, place, &table);
  if (code) return code;
  declare(make, table);
  if (where->database) return pdti_create_table(where->database, where->name, where->options, table, out);
  *out = table;
  return PDT_OK;
}

/* Makes the table of rows that aren't in order: they are sorted first. A key that is there twice is told at its second row. */
static int create_sorted(const pdti_home *where, pdti_making *make, pdt_place *place, pdt_table **table) {
  size_t count = (size_t)make->all->rows;
  uint32_t *rows = malloc(count * sizeof *rows), *room = malloc(count * sizeof *room), *sorted = NULL;
  int code = rows && room ? PDT_OK : PDT_NOMEM;
  if (!code) {
    for (size_t at = 0; at < count; at++) rows[at] = (uint32_t)at;
    sorted = sort(make, rows, room, count);
  }
  for (size_t at = 0; at < make->all->count && !code; at++) code = permute(&make->all->columns[at], sorted, count);
  if (!code) {
    pass_columns(make);
    code = create(where, make, place, table);
    if (code == PDT_NOT_ASCENDING) {
      code = pdti_refuse_second(make->columns, make->keys, place->row);
      *place = (pdt_place){sorted[place->row], 0};
    }
  }
  int why = errno; /* of a file */
  free(rows);
  free(room);
  errno = why;
  return code;
}

/* Says why the columns make no table. */
static int tell(const pdti_making *make, int code, pdt_place place) {
  pdt_arrow_fault *fault = make->all->fault;
  size_t at = make->order[place.column < make->all->count ? place.column : 0];
  if (code == PDT_TYPE_MISMATCH) {
    pdti_where where;
    return pdti_tell(fault, code, place.row, at, "%sthe text is not UTF-8",
                     pdti_where_of(&where, make->all->columns[at].name, strlen(make->all->columns[at].name)));
  }
  if (code == PDT_DUPLICATE) return pdti_tell_kept(fault, code, place.row, at);
  if (code == PDT_OK || code == PDT_NOMEM || code == PDT_MISUSE) return code;
  return pdti_tell_kept(fault, code, 0, 0);
}

static int make_table(const pdti_home *where, pdti_making *make, pdt_table **table) {
  pdt_place place = {0, 0};
  pass_columns(make);
  int code = create(where, make, &place, table);
  if (code == PDT_NOT_ASCENDING) code = create_sorted(where, make, &place, table);
  return tell(make, code, place);
}

static int open_stream(const pdti_home *where, struct ArrowArrayStream *stream, const char *const *key, size_t keys, pdt_arrow_fault *fault,
                       pdt_table **table) {
  pdti_making make = {.all = calloc(1, sizeof *make.all)};
  if (!make.all) return PDT_NOMEM;
  make.all->fault = fault;
  bool is_end = false;
  int code = pdti_gather_schema(make.all, stream);
  if (!code) code = order_columns(&make, key, keys);
  while (!code && !is_end) code = pdti_gather_batch(make.all, stream, &is_end);
  if (!code) code = make_table(where, &make, table);
  int why = errno; /* of a file */
  pdti_free_gathering(make.all);
  errno = why;
  return code;
}

/* What both calls do with what they are passed: the stream is released, whatever it is. */
static int open_or_create(const pdti_home *where, struct ArrowArrayStream *stream, const char *const *key, size_t keys,
                          pdt_arrow_fault *fault, pdt_table **table) {
  int code = pdti_clear_fault(fault);
  if (table) *table = NULL;
  if (!table || !stream || !stream->release || (!key && keys)) code = PDT_MISUSE;
  if (!code) code = open_stream(where, stream, key, keys, fault, table);
  int why = errno; /* of a file */
  pdti_release_stream(stream);
  errno = why;
  return code;
}

pdt_code pdt_open_arrow(struct ArrowArrayStream *stream, const char *const *key, size_t keys, const pdt_options *options,
                        pdt_arrow_fault *fault, pdt_table **table) {
  return open_or_create(&(pdti_home){NULL, NULL, options}, stream, key, keys, fault, table);
}

pdt_code pdt_table_create_arrow(pdt_database *database, const char *name, struct ArrowArrayStream *stream, const char *const *key,
                                size_t keys, const pdt_options *options, pdt_arrow_fault *fault, pdt_table **table) {
  int code = pdti_may_create(database, name, table);
  if (!code) return open_or_create(&(pdti_home){database, name, options}, stream, key, keys, fault, table);
  if (!pdti_clear_fault(fault) && code == PDT_TYPE_MISMATCH) pdti_tell_kept(fault, code, 0, 0);
  pdti_release_stream(stream);
  return code;
}
