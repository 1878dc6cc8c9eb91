/* The columns of an Arrow stream, gathered: what its structs say is looked at before it is used. */
#include "arrow.h"

#include <inttypes.h>
#include <stdarg.h>
#include <stdio.h>

/* ---- what is told */

int pdti_tell_kept(pdt_arrow_fault *fault, int code, uint64_t row, uint64_t column) {
  if (!fault) return code;
  const char *sentence = pdt_errmsg((pdt_code)code);
  size_t len = strlen(sentence), most = sizeof fault->cause - 1;
  if (len > most)
    for (len = most; ((uint8_t)sentence[len] & 0xc0) == 0x80;) len--; /* before a character */
  memcpy(fault->cause, sentence, len);
  fault->cause[len] = 0;
  fault->place = (pdt_place){row, column};
  return code;
}

int pdti_tell(pdt_arrow_fault *fault, int code, uint64_t row, uint64_t column, const char *form, ...) {
  va_list words;
  va_start(words, form);
  pdti_say_words(code, form, words);
  va_end(words);
  return pdti_tell_kept(fault, code, row, column);
}

int pdti_clear_fault(pdt_arrow_fault *fault) {
  if (!fault) return PDT_OK;
  if (pdti_may_fill(fault, sizeof *fault)) return PDT_MISUSE;
  fault->place = (pdt_place){0, 0};
  *fault->cause = 0;
  return PDT_OK;
}

/* A batch that isn't one of its schema. */
static int tell_batch(const pdti_gathering *all, const char *why) {
  return pdti_tell(all->fault, PDT_TYPE_MISMATCH, all->before + all->rows, 0, "a batch %s", why);
}

/* The cells of a column in the batch that comes next. */
static int tell_column(const pdti_gathering *all, size_t at, const char *why) {
  pdti_quoted name;
  const char *quoted = pdti_quote(&name, all->columns[at].name, strlen(all->columns[at].name));
  return pdti_tell(all->fault, PDT_TYPE_MISMATCH, all->before + all->rows, at, "column %s %s", quoted, why);
}

/* What a stream says of why it failed. */
static int tell_failure(const pdti_gathering *all, struct ArrowArrayStream *stream, int why) {
  if (why == ENOMEM) return PDT_NOMEM;
  const char *said = stream->get_last_error ? stream->get_last_error(stream) : NULL;
  return pdti_tell(all->fault, PDT_DEVICE_FAILED, all->before + all->rows, 0, "the stream failed (%d): %s", why,
                   said ? said : "it says no more");
}

/* ---- the schema */

static int take_name(pdti_gathering *all, size_t at, const char *name) {
  size_t len = name ? strnlen(name, PDT_MAX_NAME + 1) : 0;
  if (!len || len > PDT_MAX_NAME || strchr(name, ':') || !pdti_is_utf8((const uint8_t *)name, len))
    return pdti_tell(all->fault, PDT_BAD_TABLE, 0, at, "column %zu has no name of 1 to 64 bytes of UTF-8 without a colon", at);
  pdti_quoted quoted;
  for (size_t before = 0; before < at; before++)
    if (!strcmp(all->columns[before].name, name))
      return pdti_tell(all->fault, PDT_BAD_TABLE, 0, at, "two columns have the name %s", pdti_quote(&quoted, name, len));
  memcpy(all->columns[at].name, name, len + 1);
  return PDT_OK;
}

static int take_field(pdti_gathering *all, size_t at, const struct ArrowSchema *field) {
  pdti_gathered *column = &all->columns[at];
  if (!field || !field->release) return pdti_tell(all->fault, PDT_TYPE_MISMATCH, 0, at, "the schema has no column %zu", at);
  int code = take_name(all, at, field->name);
  if (code) return code;
  const struct ArrowSchema *values = field->dictionary ? field->dictionary : field;
  column->has_dictionary = field->dictionary;
  column->is_nullable = field->flags & ARROW_FLAG_NULLABLE;
  snprintf(column->format, sizeof column->format, "%s", values->format ? values->format : "");
  bool is_taken = pdti_read_format(values->format, &column->as);
  if (is_taken && column->has_dictionary)
    is_taken = column->as.type == PDT_TEXT && pdti_read_format(field->format, &column->index) && column->index.kind == PDTI_NUMBERS;
  if (is_taken) return PDT_OK;
  pdti_quoted name;
  return pdti_tell(all->fault, PDT_TYPE_MISMATCH, 0, at, "column %s is of Arrow's format %.40s%s, which no column takes",
                   pdti_quote(&name, column->name, strlen(column->name)), values->format ? values->format : "(none)",
                   column->has_dictionary ? " in a dictionary" : "");
}

static int take_schema(pdti_gathering *all, const struct ArrowSchema *schema) {
  if (!schema->release) return pdti_tell(all->fault, PDT_TYPE_MISMATCH, 0, 0, "the stream has no schema");
  if (!schema->format || strcmp(schema->format, "+s") || schema->dictionary)
    return pdti_tell(all->fault, PDT_TYPE_MISMATCH, 0, 0, "the stream is of Arrow's format %.40s, and not of +s: it has no columns",
                     schema->format ? schema->format : "(none)");
  if (schema->n_children < 1 || schema->n_children > PDT_MAX_COLUMNS || !schema->children)
    return pdti_tell(all->fault, PDT_BAD_TABLE, 0, 0, "the stream has %" PRId64 " columns, and not 1 to 32", schema->n_children);
  int code = PDT_OK;
  for (size_t at = 0; at < (size_t)schema->n_children && !code; at++) {
    code = take_field(all, at, schema->children[at]);
    all->count = at + 1;
  }
  return code;
}

int pdti_gather_schema(pdti_gathering *all, struct ArrowArrayStream *stream) {
  struct ArrowSchema schema = {0};
  if (!stream->get_schema || !stream->get_next)
    return pdti_tell(all->fault, PDT_TYPE_MISMATCH, 0, 0, "the stream has no schema, or no batches");
  int why = stream->get_schema(stream, &schema);
  if (why) return tell_failure(all, stream, why);
  int code = take_schema(all, &schema);
  if (schema.release) schema.release(&schema);
  return code;
}

/* ---- batches */

/* Whether an array's counts are ones that can be reckoned with: its cells' places, times 16 bytes, are below 2^63. */
static bool is_counted(const struct ArrowArray *array) {
  return array->length >= 0 && array->offset >= 0 && array->null_count >= -1 && array->null_count <= array->length &&
         array->length <= INT64_MAX / 32 && array->offset <= INT64_MAX / 32;
}

/* Whether an array has the buffers of a format, each of which is there where it has cells. */
static bool has_buffers(const struct ArrowArray *array, const pdti_format *as) {
  bool is_view = as->kind == PDTI_VIEWS;
  int64_t wanted = as->kind == PDTI_TEXTS || is_view ? 3 : 2;
  if (array->n_buffers < wanted || (!is_view && array->n_buffers > wanted) || array->n_buffers > INT32_MAX || !array->buffers) return false;
  if (array->n_children) return false;
  if (!array->length) return true;
  return array->buffers[1] && (!is_view || array->n_buffers == 3 || array->buffers[array->n_buffers - 1]);
}

static bool is_dictionary(const struct ArrowArray *array, const pdti_format *as) {
  if (!array->release || !is_counted(array) || !has_buffers(array, as)) return false;
  return array->buffers[0] || array->null_count <= 0;
}

/* A batch's column whose cells are from a place on: it has no null, and says so. */
static int look_at(const pdti_gathering *all, size_t at, const struct ArrowArray *array, uint64_t from, uint64_t rows) {
  const void *bits = array->buffers[0];
  if (all->columns[at].takes_nulls && bits) return PDT_OK;
  if (!bits) return array->null_count > 0 ? tell_column(all, at, "counts nulls, and doesn't say where they are") : PDT_OK;
  uint64_t row = pdti_first_unset(bits, from, rows);
  if (row < rows) return pdti_tell_cell(all, at, row, pdti_no_null);
  bool is_whole = rows == (uint64_t)array->length;
  return is_whole && array->null_count > 0 ? tell_column(all, at, "counts nulls that aren't there") : PDT_OK;
}

static int take_column(pdti_gathering *all, size_t at, const struct ArrowArray *batch) {
  pdti_gathered *column = &all->columns[at];
  const struct ArrowArray *array = batch->children[at];
  if (!array || !array->release) return tell_column(all, at, "isn't in a batch");
  if (!is_counted(array)) return tell_column(all, at, "has a length, an offset or a count of nulls that can't be");
  uint64_t from = (uint64_t)array->offset + (uint64_t)batch->offset;
  size_t rows = (size_t)batch->length;
  if (array->length < batch->offset + batch->length) return tell_column(all, at, "has fewer cells than its batch has rows");
  const pdti_format *as = column->has_dictionary ? &column->index : &column->as;
  if (!has_buffers(array, as)) return tell_column(all, at, "hasn't the buffers of its format");
  if ((array->dictionary != NULL) != column->has_dictionary) return tell_column(all, at, "has another dictionary than its schema says");
  if (column->has_dictionary && !is_dictionary(array->dictionary, &column->as))
    return tell_column(all, at, "has a dictionary that can't be");
  int code = look_at(all, at, array, from, rows);
  if (code) return code;
  return pdti_take_cells(all, at, array, from, rows);
}

static int take_batch(pdti_gathering *all, const struct ArrowArray *batch) {
  if (!is_counted(batch)) return tell_batch(all, "has a length, an offset or a count of nulls that can't be");
  if (batch->n_children != (int64_t)all->count || !batch->children) return tell_batch(all, "has other columns than the schema");
  if (batch->n_buffers != 1 || !batch->buffers || batch->dictionary) return tell_batch(all, "hasn't the one buffer of its format");
  uint64_t rows = (uint64_t)batch->length;
  if (rows > PDT_MAX_ROWS || all->rows > PDT_MAX_ROWS - rows)
    return pdti_tell(all->fault, PDT_TOO_MANY_ROWS, all->before + all->rows, 0, "there are more rows than 2,147,483,647");
  if (!rows) return PDT_OK;
  if (batch->buffers[0]) {
    uint64_t row = pdti_first_unset(batch->buffers[0], (uint64_t)batch->offset, rows);
    if (row < rows) return pdti_tell(all->fault, PDT_TYPE_MISMATCH, all->before + all->rows + row, 0, "the row is a null");
  } else if (batch->null_count > 0) {
    return tell_batch(all, "counts nulls, and doesn't say where they are");
  }
  int code = PDT_OK;
  for (size_t at = 0; at < all->count && !code; at++)
    if (!all->columns[at].is_left_out) code = take_column(all, at, batch);
  if (!code) all->rows += rows;
  return code;
}

int pdti_gather_batch(pdti_gathering *all, struct ArrowArrayStream *stream, bool *is_end) {
  struct ArrowArray batch = {0};
  int why = stream->get_next(stream, &batch);
  if (why) return tell_failure(all, stream, why);
  *is_end = !batch.release;
  if (*is_end) return PDT_OK;
  int code = take_batch(all, &batch);
  if (batch.release) batch.release(&batch);
  return code;
}

void pdti_drop_rows(pdti_gathering *all) {
  all->before += all->rows;
  all->rows = 0;
  for (size_t at = 0; at < all->count; at++) all->columns[at].len = 0;
}

void pdti_free_gathering(pdti_gathering *all) {
  for (size_t at = 0; all && at < all->count; at++) {
    free(all->columns[at].numbers);
    free(all->columns[at].offsets);
    free(all->columns[at].bytes);
  }
  free(all);
}

pdt_column pdti_column_of(const pdti_gathering *all, size_t at) {
  const pdti_gathered *column = &all->columns[at];
  return (pdt_column){
      .name = column->name,
      .type = column->as.type,
      .rows = all->rows,
      .numbers = column->numbers,
      .offsets = column->offsets,
      .bytes = column->bytes,
      .len = column->len,
  };
}
