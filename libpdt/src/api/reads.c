/* What a transaction reads. */
#include "inside.h"

#include <inttypes.h>

static const char *no_texts[1];
static pdt_int_span no_spans[1];
static pdt_row_run no_row_runs[1];

pdt_code pdt_rows(pdt_txn *txn, uint64_t *rows) {
  if (!txn || !rows) return PDT_MISUSE;
  *rows = pdtr_rows(&txn->raw);
  return PDT_OK;
}

pdt_code pdt_rank(pdt_txn *txn, const int64_t *key, const void *texts, size_t bytes, uint64_t *below, bool *there) {
  if (!txn || !key || (!texts && bytes) || !below || !there) return PDT_MISUSE;
  uint64_t position = 0;
  bool is_there = false;
  int code = (int)pdtr_rank(&txn->raw, key, txn->table->key, bytes_at(texts, bytes), bytes, &position, &is_there);
  *below = position;
  *there = is_there;
  return code ? pdti_refuse_key(code, txn->table, key, texts, bytes) : code;
}

pdt_code pdt_get(pdt_txn *txn, const int64_t *key, const void *texts, size_t bytes, int64_t *numbers, void *out, size_t room,
                 size_t *needed) {
  if (!txn || !key || (!texts && bytes) || !numbers || (!out && room)) return PDT_MISUSE;
  size_t count = 0;
  int code = (int)pdtr_get(&txn->raw, key, txn->table->key, bytes_at(texts, bytes), bytes, numbers, txn->table->width, room_at(out, room),
                           room, &count);
  if (needed) *needed = count;
  return code ? pdti_refuse_key(code, txn->table, key, texts, bytes) : code;
}

/* There is no row at a position. */
static int refuse_position(pdt_txn *txn, uint64_t position) {
  return pdti_say(PDT_MISSING, "there is no row at position %" PRIu64 ": the number of rows is %" PRIu64, position, pdtr_rows(&txn->raw));
}

pdt_code pdt_row_at(pdt_txn *txn, uint64_t position, int64_t *numbers, void *out, size_t room, size_t *needed) {
  if (!txn || !numbers || (!out && room)) return PDT_MISUSE;
  size_t count = 0;
  int code = (int)pdtr_row_at(&txn->raw, position, numbers, txn->table->width, room_at(out, room), room, &count);
  if (needed) *needed = count;
  return code == PDT_MISSING ? refuse_position(txn, position) : code;
}

pdt_code pdt_cells(pdt_txn *txn, size_t column, uint64_t from, int64_t *numbers, size_t *count, void *out, size_t room, size_t *bytes) {
  if (!txn || !count || (!numbers && *count) || (!out && room)) return PDT_MISUSE;
  size_t end = 0;
  *count = pdtr_cells(&txn->raw, column, from, *count ? numbers : pdti_no_numbers, *count, room_at(out, room), room, &end);
  if (bytes) *bytes = end;
  return PDT_OK;
}

pdt_code pdt_ints(pdt_txn *txn, size_t column, uint64_t from, int64_t *numbers, size_t *count) {
  if (!txn || !count || (!numbers && *count)) return PDT_MISUSE;
  *count = pdtr_ints(&txn->raw, column, from, *count ? numbers : pdti_no_numbers, *count);
  return PDT_OK;
}

pdt_code pdt_bools(pdt_txn *txn, size_t column, uint64_t from, uint8_t *booleans, size_t *count) {
  if (!txn || !count || (!booleans && *count)) return PDT_MISUSE;
  *count = pdtr_bools(&txn->raw, column, from, room_at(booleans, *count), *count);
  return PDT_OK;
}

pdt_code pdt_texts(pdt_txn *txn, size_t column, uint64_t from, const char **texts, int64_t *lens, size_t *count) {
  if (!txn || !count || ((!texts || !lens) && *count)) return PDT_MISUSE;
  *count = pdtr_texts(&txn->raw, column, from, *count ? texts : no_texts, *count, *count ? lens : pdti_no_numbers, *count);
  return PDT_OK;
}

pdt_code pdt_int_spans(pdt_txn *txn, size_t column, uint64_t from, uint64_t to, pdt_int_span *spans, size_t *count, uint64_t *rows) {
  if (!txn || !count || (!spans && *count)) return PDT_MISUSE;
  uint64_t in_them = 0;
  *count = pdtr_pieces(&txn->raw, column, from, to, *count ? spans : no_spans, *count, &in_them);
  if (rows) *rows = in_them;
  return PDT_OK;
}

pdt_code pdt_row_runs(pdt_txn *txn, uint64_t from, uint64_t to, pdt_row_run *row_runs, size_t *count) {
  if (!txn || !count || (!row_runs && *count)) return PDT_MISUSE;
  *count = pdtr_stretches(&txn->raw, from, to, *count ? row_runs : no_row_runs, *count);
  return PDT_OK;
}

pdt_code pdt_changed(pdt_txn *txn, uint64_t position, uint8_t *changed, size_t columns) {
  if (!txn || (!changed && columns)) return PDT_MISUSE;
  if (position >= pdtr_rows(&txn->raw)) return refuse_position(txn, position);
  pdtr_own(&txn->raw, position, room_at(changed, columns), columns);
  return PDT_OK;
}
