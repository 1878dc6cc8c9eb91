/* The batches of Arrow's C streams: each child owns its buffers, so that it may be moved out of its batch. */
#include "arrow.h"

#include <inttypes.h>
#include <stdio.h>

int pdti_fail_stream(pdti_scan *out, int code, const char *why) {
  snprintf(out->error, sizeof out->error, "%s", why);
  return code;
}

int pdti_no_stream_memory(pdti_scan *out) { return pdti_fail_stream(out, ENOMEM, "memory was refused"); }

/* The buffers of a column: the bits of what is there, the cells or the offsets, and the bytes of texts. */
typedef struct {
  const void *at[3];
} pdti_buffers;

typedef struct {
  const void *none[1]; /* a batch has no bits of its own: each row is there */
  struct ArrowArray *at[PDT_MAX_COLUMNS];
  struct ArrowArray column[PDT_MAX_COLUMNS];
} pdti_columns;

static void release_column(struct ArrowArray *array) {
  pdti_buffers *own = array->private_data;
  for (size_t i = 0; i < 3; i++) free((void *)own->at[i]);
  free(own);
  array->release = NULL;
}

static void release_batch(struct ArrowArray *array) {
  for (int64_t i = 0; i < array->n_children; i++)
    if (array->children[i]->release) array->children[i]->release(array->children[i]);
  free(array->private_data);
  array->release = NULL;
}

/* Never of a transaction that is as it was. */
static int missing(pdti_scan *out) { return pdti_fail_stream(out, EIO, "the rows aren't there any more"); }

static int fail_at(pdti_scan *out, const pdti_shown *column, uint64_t row, int64_t number) {
  snprintf(out->error, sizeof out->error, "row %" PRIu64 ", column %s: %" PRId64 " goes out as no %s", row, column->name, number,
           column->format);
  return EINVAL;
}

/* Clears the bits of the rows whose number is the least one. */
static int fill_nulls(pdti_scan *out, int64_t *numbers, size_t rows, struct ArrowArray *array) {
  uint8_t *bits = calloc(rows / 8 + 1, 1);
  if (!bits) return pdti_no_stream_memory(out);
  for (size_t i = 0; i < rows; i++) {
    if (numbers[i] == INT64_MIN) {
      numbers[i] = 0;
      array->null_count++;
    } else {
      bits[i / 8] |= (uint8_t)(1u << i % 8);
    }
  }
  pdti_buffers *own = array->private_data;
  if (array->null_count) {
    own->at[0] = bits;
  } else {
    free(bits);
  }
  return 0;
}

/* Numbers of 32 bits go where those of 64 bits were, each before the one that it is made of. */
static int narrow(pdti_scan *out, const pdti_shown *column, int64_t *numbers, size_t rows) {
  for (size_t i = 0; i < rows; i++) {
    int64_t number = numbers[i];
    if (number < INT32_MIN || number > INT32_MAX) return fail_at(out, column, out->at + i, number);
    int32_t small = (int32_t)number;
    memcpy((char *)numbers + i * sizeof small, &small, sizeof small);
  }
  return 0;
}

/* The numbers lie in the second half of the room for those of 128 bits, each of which goes at the one that it is made of, or before. */
static int widen(pdti_scan *out, const pdti_shown *column, int64_t *wide, size_t rows) {
  int64_t most = 1;
  for (int digit = 0; digit < column->as.digits && digit < 18; digit++) most *= 10;
  for (size_t i = 0; i < rows; i++) {
    int64_t number = wide[rows + i];
    if (column->as.digits <= 18 && (number <= -most || number >= most)) return fail_at(out, column, out->at + i, number);
    wide[2 * i] = number;
    wide[2 * i + 1] = number >> 63;
  }
  return 0;
}

static int fill_numbers(pdti_scan *out, const pdti_shown *column, size_t rows, struct ArrowArray *array) {
  pdti_buffers *own = array->private_data;
  size_t width = column->as.kind == PDTI_DECIMALS ? 2 : 1, got = rows;
  int64_t *room = malloc(width * rows * sizeof *room);
  if (!room) return pdti_no_stream_memory(out);
  own->at[1] = room;
  int64_t *numbers = room + (width - 1) * rows;
  if (pdt_ints(out->txn, column->column, out->at, numbers, &got) || got != rows) return missing(out);
  int code = column->is_nullable ? fill_nulls(out, numbers, rows, array) : 0;
  if (code) return code;
  if (column->as.kind == PDTI_DECIMALS) return widen(out, column, room, rows);
  if (column->as.kind == PDTI_NUMBERS && column->as.bytes == 4) return narrow(out, column, room, rows);
  if (column->as.kind == PDTI_DOUBLES)
    for (size_t i = 0; i < rows; i++) room[i] = pdti_in_order(room[i]);
  return 0;
}

static int fill_bits(pdti_scan *out, const pdti_shown *column, size_t rows, struct ArrowArray *array) {
  pdti_buffers *own = array->private_data;
  size_t got = rows;
  uint8_t *bits = calloc(rows / 8 + 1, 1), *booleans = malloc(rows);
  own->at[1] = bits;
  int code = bits && booleans ? 0 : pdti_no_stream_memory(out);
  if (!code && (pdt_bools(out->txn, column->column, out->at, booleans, &got) || got != rows)) code = missing(out);
  for (size_t i = 0; i < rows && !code; i++) bits[i / 8] |= (uint8_t)(booleans[i] << i % 8);
  free(booleans);
  return code;
}

/* The bytes of texts, of which those that lie one after the other are copied at once. */
static void copy_texts(const char *const *texts, const int64_t *offsets, size_t rows, char *bytes) {
  for (size_t first = 0, next; first < rows; first = next) {
    for (next = first + 1; next < rows; next++)
      if (texts[next] != texts[next - 1] + (offsets[next] - offsets[next - 1])) break;
    if (offsets[next] > offsets[first]) memcpy(bytes + offsets[first], texts[first], (size_t)(offsets[next] - offsets[first]));
  }
}

/* The lengths of the texts are put where their ends will be: each offset is then the sum of those before. */
static int put_texts(pdti_scan *out, const pdti_shown *column, size_t rows, const char **texts, int64_t *offsets, pdti_buffers *own) {
  size_t got = rows;
  if (pdt_texts(out->txn, column->column, out->at, texts, offsets + 1, &got) || got != rows) return missing(out);
  offsets[0] = 0;
  for (size_t i = 1; i <= rows; i++) offsets[i] += offsets[i - 1];
  char *bytes = malloc(offsets[rows] ? (size_t)offsets[rows] : 1);
  if (!bytes) return pdti_no_stream_memory(out);
  own->at[2] = bytes;
  copy_texts(texts, offsets, rows, bytes);
  if (column->as.bytes == 8) return 0;
  for (size_t i = 0; i <= rows; i++) { /* a batch is so small that its bytes have offsets of 32 bits */
    int32_t small = (int32_t)offsets[i];
    memcpy((char *)offsets + i * sizeof small, &small, sizeof small);
  }
  return 0;
}

static int fill_texts(pdti_scan *out, const pdti_shown *column, size_t rows, struct ArrowArray *array) {
  pdti_buffers *own = array->private_data;
  int64_t *offsets = malloc((rows + 1) * sizeof *offsets);
  const char **texts = malloc(rows * sizeof *texts);
  own->at[1] = offsets;
  int code = offsets && texts ? put_texts(out, column, rows, texts, offsets, own) : pdti_no_stream_memory(out);
  free(texts);
  return code;
}

/* Fills a column of a batch; what it has by then is released with it where that fails. */
static int fill_column(pdti_scan *out, const pdti_shown *column, size_t rows, struct ArrowArray *array) {
  pdti_buffers *own = calloc(1, sizeof *own);
  if (!own) return pdti_no_stream_memory(out);
  bool is_text = column->as.kind == PDTI_TEXTS;
  *array = (struct ArrowArray){
      .length = (int64_t)rows,
      .n_buffers = is_text ? 3 : 2,
      .buffers = own->at,
      .release = release_column,
      .private_data = own,
  };
  int code = is_text                        ? fill_texts(out, column, rows, array)
             : column->as.kind == PDTI_BITS ? fill_bits(out, column, rows, array)
                                            : fill_numbers(out, column, rows, array);
  if (code) release_column(array);
  return code;
}

int pdti_read_batch(pdti_scan *out, struct ArrowArray *batch) {
  uint64_t left = out->end - out->at;
  size_t rows = (size_t)(left < out->batch ? left : out->batch);
  if (!rows) return 0;
  pdti_columns *all = calloc(1, sizeof *all);
  if (!all) return pdti_no_stream_memory(out);
  struct ArrowArray made = {
      .length = (int64_t)rows,
      .n_buffers = 1,
      .buffers = all->none,
      .children = all->at,
      .release = release_batch,
      .private_data = all,
  };
  for (size_t i = 0; i < out->count; i++) {
    int code = fill_column(out, &out->columns[i], rows, &all->column[i]);
    if (code) {
      release_batch(&made);
      return code;
    }
    all->at[i] = &all->column[i];
    made.n_children++;
  }
  out->at += rows;
  *batch = made;
  return 0;
}
