/* The cells of a batch of an Arrow stream, appended to those that are gathered. */
#include "arrow.h"

const char pdti_no_null[] = "a null isn't allowed";

int pdti_tell_cell(const pdti_gathering *all, size_t at, uint64_t row, const char *what) {
  pdti_where where;
  pdti_where_of(&where, all->columns[at].name, strlen(all->columns[at].name));
  return pdti_tell(all->fault, PDT_TYPE_MISMATCH, all->before + all->rows + row, at, "%s%s", where.text, what);
}

/* ---- room */

/* Room for so many values of so many bytes. */
static bool reserve(void **at, size_t *room, size_t wanted, size_t bytes) {
  if (*at && wanted <= *room) return true;
  if (wanted > SIZE_MAX / 2 / bytes) return false;
  size_t next = *room <= wanted / 2 ? wanted + 1 : 2 * *room;
  void *more = realloc(*at, next * bytes);
  if (!more) return false;
  *at = more;
  *room = next;
  return true;
}

static bool reserve_numbers(pdti_gathered *column, size_t rows) {
  void *at = column->numbers;
  bool is_there = reserve(&at, &column->number_room, rows, sizeof *column->numbers);
  column->numbers = at;
  return is_there;
}

static bool reserve_offsets(pdti_gathered *column, size_t rows) {
  void *at = column->offsets;
  bool is_there = reserve(&at, &column->offset_room, rows + 1, sizeof *column->offsets);
  column->offsets = at;
  return is_there;
}

static bool reserve_bytes(pdti_gathered *column, size_t bytes) {
  void *at = column->bytes;
  bool is_there = reserve(&at, &column->byte_room, bytes, 1);
  column->bytes = at;
  return is_there;
}

/* ---- cells */

static bool is_set(const void *bits, uint64_t at) { return ((const uint8_t *)bits)[at / 8] >> at % 8 & 1; }

uint64_t pdti_first_unset(const void *bits, uint64_t from, uint64_t rows) {
  const uint8_t *bytes = bits;
  for (uint64_t row = 0; row < rows; row++) {
    while (!((from + row) % 8) && rows - row >= 8 && bytes[(from + row) / 8] == 0xff) row += 8;
    if (row < rows && !is_set(bits, from + row)) return row;
  }
  return rows;
}

/* A number of a format, as 64 bits: one of 64 bits without a sign may come out negative. */
static int64_t number_at(const void *cells, const pdti_format *as, uint64_t at) {
  const char *cell = (const char *)cells + at * as->bytes;
  union {
    int8_t of_8;
    int16_t of_16;
    int32_t of_32;
    int64_t of_64;
  } number;
  memcpy(&number, cell, as->bytes);
  switch (as->bytes) {
    case 1: return as->is_signed ? number.of_8 : (uint8_t)number.of_8;
    case 2: return as->is_signed ? number.of_16 : (uint16_t)number.of_16;
    case 4: return as->is_signed ? number.of_32 : (int64_t)(uint32_t)number.of_32;
    default: return number.of_64;
  }
}

/* A double, also of 32 bits, as the number that it is kept as. */
static int64_t double_at(const void *cells, const pdti_format *as, uint64_t at) {
  double value;
  int64_t bits;
  if (as->bytes == 4) {
    float small;
    memcpy(&small, (const char *)cells + at * sizeof small, sizeof small);
    value = small;
  } else {
    memcpy(&value, (const char *)cells + at * sizeof value, sizeof value);
  }
  memcpy(&bits, &value, sizeof bits);
  return pdti_in_order(bits);
}

/* Appends the numbers of a batch from a place on. */
static int take_numbers(pdti_gathering *all, size_t at, const void *cells, uint64_t from, size_t rows) {
  pdti_gathered *column = &all->columns[at];
  const pdti_format *as = &column->as;
  if (!reserve_numbers(column, (size_t)all->rows + rows)) return PDT_NOMEM;
  int64_t *out = column->numbers + all->rows;
  if (as->kind == PDTI_NUMBERS && as->bytes == 8) {
    memcpy(out, (const int64_t *)cells + from, rows * sizeof *out);
  } else if (as->kind == PDTI_NUMBERS) {
    for (size_t row = 0; row < rows; row++) out[row] = number_at(cells, as, from + row);
  } else if (as->kind == PDTI_DOUBLES) {
    for (size_t row = 0; row < rows; row++) out[row] = double_at(cells, as, from + row);
  } else {
    for (size_t row = 0; row < rows; row++) {
      int64_t wide[2];
      memcpy(wide, (const char *)cells + (from + row) * sizeof wide, sizeof wide);
      if (wide[1] != wide[0] >> 63) return pdti_tell_cell(all, at, row, "64 bits don't hold the decimal");
      out[row] = wide[0];
    }
  }
  if (as->kind != PDTI_NUMBERS || as->is_signed || as->bytes < 8) return PDT_OK;
  for (size_t row = 0; row < rows; row++)
    if (out[row] < 0) return pdti_tell_cell(all, at, row, "the number is above 9,223,372,036,854,775,807");
  return PDT_OK;
}

static int take_bits(pdti_gathering *all, size_t at, const void *cells, uint64_t from, size_t rows) {
  pdti_gathered *column = &all->columns[at];
  if (!reserve_bytes(column, (size_t)all->rows + rows)) return PDT_NOMEM;
  for (size_t row = 0; row < rows; row++) column->bytes[all->rows + row] = is_set(cells, from + row);
  return PDT_OK;
}

/* The texts of an array: how they lie, and where. */
typedef struct {
  const pdti_format *as;
  const void *cells;          /* offsets, or views */
  const uint8_t *bytes;       /* of texts with offsets: may be null where there are none */
  const void *const *buffers; /* of views: those that texts of more than 12 bytes lie in, and how long each is */
  const int64_t *sizes;
  uint64_t count;
} pdti_texts;

/* A text: null where the array says that it lies nowhere, or has more than 4,096 bytes. */
static const uint8_t *view_at(const pdti_texts *all, uint64_t at, size_t *len) {
  const uint8_t *view = (const uint8_t *)all->cells + 16 * at;
  int32_t bytes, buffer, from;
  memcpy(&bytes, view, sizeof bytes);
  memcpy(&buffer, view + 8, sizeof buffer);
  memcpy(&from, view + 12, sizeof from);
  if (bytes < 0 || bytes > PDT_MAX_TEXT) return NULL;
  *len = (size_t)bytes;
  if (bytes <= 12) return view + 4;
  if (buffer < 0 || (uint64_t)buffer >= all->count || from < 0 || !all->buffers[buffer]) return NULL;
  if (from > all->sizes[buffer] || bytes > all->sizes[buffer] - from) return NULL;
  return (const uint8_t *)all->buffers[buffer] + from;
}

/* Where a text begins, and the one before it ends. */
static int64_t offset_at(const pdti_texts *all, uint64_t at) {
  static const pdti_format of_32 = {PDTI_NUMBERS, PDT_INT, 4, true, 0}, of_64 = {PDTI_NUMBERS, PDT_INT, 8, true, 0};
  return number_at(all->cells, all->as->bytes == 8 ? &of_64 : &of_32, at);
}

static const uint8_t *text_at(const pdti_texts *all, uint64_t at, size_t *len) {
  if (all->as->kind == PDTI_VIEWS) return view_at(all, at, len);
  int64_t from = offset_at(all, at), to = offset_at(all, at + 1);
  if (from < 0 || to < from || to - from > PDT_MAX_TEXT) return NULL;
  *len = (size_t)(to - from);
  if (!*len) return pdti_no_bytes;
  return all->bytes ? all->bytes + from : NULL;
}

static int append_text(pdti_gathered *column, uint64_t row, const uint8_t *text, size_t len) {
  if (!reserve_bytes(column, column->len + len)) return PDT_NOMEM;
  memcpy(column->bytes + column->len, text, len);
  column->len += len;
  column->offsets[row + 1] = column->len;
  return PDT_OK;
}

static pdti_texts texts_of(const struct ArrowArray *array, const pdti_format *as) {
  pdti_texts found = {.as = as, .cells = array->buffers[1]};
  if (as->kind == PDTI_TEXTS) {
    found.bytes = array->buffers[2];
  } else {
    found.buffers = array->buffers + 2;
    found.count = (uint64_t)array->n_buffers - 3;
    found.sizes = array->buffers[array->n_buffers - 1];
  }
  return found;
}

static const char no_text[] = "the text isn't within its buffer, or has more than 4,096 bytes";

/* Appends texts that lie one after the other: all their bytes are copied at once. */
static int take_joined(pdti_gathering *all, size_t at, const pdti_texts *found, uint64_t from, size_t rows) {
  pdti_gathered *column = &all->columns[at];
  int64_t first = offset_at(found, from), end = first;
  for (size_t row = 0; row < rows; row++) {
    int64_t next = offset_at(found, from + row + 1);
    if (end < 0 || next < end || next - end > PDT_MAX_TEXT || (next > end && !found->bytes)) return pdti_tell_cell(all, at, row, no_text);
    end = next;
    column->offsets[all->rows + row + 1] = column->len + (uint64_t)(end - first);
  }
  size_t len = (size_t)(end - first);
  if (!reserve_bytes(column, column->len + len)) return PDT_NOMEM;
  if (len) memcpy(column->bytes + column->len, found->bytes + first, len);
  column->len += len;
  return PDT_OK;
}

static int take_texts(pdti_gathering *all, size_t at, const struct ArrowArray *array, uint64_t from, size_t rows) {
  pdti_gathered *column = &all->columns[at];
  pdti_texts found = texts_of(array, &column->as);
  if (column->as.kind == PDTI_TEXTS) return take_joined(all, at, &found, from, rows);
  for (size_t row = 0; row < rows; row++) {
    size_t len = 0;
    const uint8_t *text = view_at(&found, from + row, &len);
    if (!text) return pdti_tell_cell(all, at, row, no_text);
    int code = append_text(column, all->rows + row, text, len);
    if (code) return code;
  }
  return PDT_OK;
}

static int take_indexed(pdti_gathering *all, size_t at, const struct ArrowArray *array, uint64_t from, size_t rows) {
  pdti_gathered *column = &all->columns[at];
  const struct ArrowArray *values = array->dictionary;
  pdti_texts found = texts_of(values, &column->as);
  for (size_t row = 0; row < rows; row++) {
    size_t len = 0;
    int64_t index = number_at(array->buffers[1], &column->index, from + row);
    if (index < 0 || index >= values->length) return pdti_tell_cell(all, at, row, "the index is outside its dictionary");
    uint64_t place = (uint64_t)values->offset + (uint64_t)index;
    if (values->buffers[0] && !is_set(values->buffers[0], place)) return pdti_tell_cell(all, at, row, pdti_no_null);
    const uint8_t *text = text_at(&found, place, &len);
    if (!text) return pdti_tell_cell(all, at, row, no_text);
    int code = append_text(column, all->rows + row, text, len);
    if (code) return code;
  }
  return PDT_OK;
}

/* Puts the least number where a cell is null, which no other is then. */
static int put_nulls(pdti_gathering *all, size_t at, const void *bits, uint64_t from, size_t rows) {
  pdti_gathered *column = &all->columns[at];
  int64_t *numbers = column->numbers + all->rows;
  for (size_t row = 0; row < rows; row++) {
    bool is_there = !bits || is_set(bits, from + row);
    if (is_there && numbers[row] != INT64_MIN) continue;
    column->has_least |= is_there;
    column->has_null |= !is_there;
    bool is_clear = !column->has_least || (column->may_have_least && !column->has_null);
    if (!is_clear)
      return pdti_tell_cell(all, at, row,
                            is_there ? "the number is the one that stands for a null" : "a null, beside the number that stands for a null");
    numbers[row] = INT64_MIN;
  }
  return PDT_OK;
}

int pdti_take_cells(pdti_gathering *all, size_t at, const struct ArrowArray *array, uint64_t from, size_t rows) {
  pdti_gathered *column = &all->columns[at];
  if (column->as.kind == PDTI_BITS) return take_bits(all, at, array->buffers[1], from, rows);
  if (column->as.type == PDT_INT) {
    int code = take_numbers(all, at, array->buffers[1], from, rows);
    return code || !column->takes_nulls ? code : put_nulls(all, at, array->buffers[0], from, rows);
  }
  if (!reserve_offsets(column, (size_t)all->rows + rows) || !reserve_bytes(column, column->len + 1)) return PDT_NOMEM;
  column->offsets[all->rows] = column->len;
  return column->has_dictionary ? take_indexed(all, at, array, from, rows) : take_texts(all, at, array, from, rows);
}
