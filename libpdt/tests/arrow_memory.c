/* Each allocation of Arrow's calls is refused once, in turn: the call that wanted it says so, changes nothing, and does its database
   transaction when it is asked again; each struct is released, and no memory stays. Linked with --wrap of malloc, calloc, realloc and
   free. */
#include "refusing.h"

#include "arrow_source.h"

#include <stdio.h>

static long answered;
#define CALL(call)                                                                           \
  do {                                                                                       \
    int code_ = (call);                                                                      \
    if (code_ == PDT_NOMEM) answered++, code_ = (call);                                      \
    if (code_ != PDT_OK) return fprintf(stderr, "%s: %s\n", #call, pdt_code_text(code_)), 1; \
  } while (0)

/* A callback of a stream, which says that memory was refused in its last error too. */
#define ASK(stream, call)                                                                                   \
  do {                                                                                                      \
    int code_ = (call);                                                                                     \
    if (code_ == ENOMEM) {                                                                                  \
      const char *said_ = (stream)->get_last_error(stream);                                                 \
      if (!said_ || strcmp(said_, "memory was refused")) return fprintf(stderr, "another last error\n"), 1; \
      answered++, code_ = (call);                                                                           \
    }                                                                                                       \
    if (code_) return fprintf(stderr, "%s: %d\n", #call, code_), 1;                                         \
  } while (0)

enum { ROWS = 40 };
static int64_t keys[ROWS], amounts[ROWS];
static int32_t ends[ROWS + 1], days[ROWS];
static char letters[ROWS + 1];

/* Two batches of the columns, whose keys descend, so that they are sorted. */
static void fill(source *in, int64_t first) {
  source_begin(in);
  source_column(in, "id", "l");
  source_column(in, "t", "u");
  source_column(in, "d", "tdD");
  source_column(in, "x", "g");
  source_column(in, "b", "b");
  for (int i = 0; i < ROWS; i++) {
    keys[i] = first - i;
    amounts[i] = 0;
    days[i] = i;
    ends[i + 1] = i + 1;
    letters[i] = (char)('a' + i % 26);
  }
  for (int batch = 0; batch < 2; batch++) {
    int64_t rows = ROWS / 2;
    source_batch(in, rows);
    source_cells(in, rows, 2, NULL, keys + rows * batch, NULL);
    source_cells(in, rows, 3, NULL, ends + rows * batch, letters);
    source_cells(in, rows, 2, NULL, days + rows * batch, NULL);
    source_cells(in, rows, 2, NULL, amounts + rows * batch, NULL);
    source_cells(in, rows, 2, NULL, "\x55\x55\x55", NULL);
  }
}

static int opens(source *in, pdt_table **table) {
  struct ArrowArrayStream stream = source_stream(in);
  return pdt_open_arrow(&stream, (const char *[]){"id"}, 1, NULL, NULL, table);
}

static int applies(source *in, pdt_txn *txn, int what) {
  struct ArrowArrayStream stream = source_stream(in);
  uint64_t before = 0, after = 0, done = 9;
  if (pdt_rows(txn, &before)) return -1;
  int code = pdt_apply_arrow(txn, &stream, what, NULL, &done);
  if (pdt_rows(txn, &after)) return -1;
  if (code && (after != before || done)) return fprintf(stderr, "a refused apply has changed something\n"), -1;
  return code;
}

static const pdt_arrow_column shown[] = {{0, "?tsu:"}, {1, "u"}, {1, NULL}, {2, "tdD"}, {3, "g"}, {4, NULL}, {0, "d:19,0"}, {2, "?l"}};
enum { SHOWN = sizeof shown / sizeof *shown };

/* The rows of a stream, which is read to its end and released. */
static int count(struct ArrowArrayStream *stream, int64_t *rows) {
  struct ArrowSchema schema;
  struct ArrowArray batch;
  ASK(stream, stream->get_schema(stream, &schema));
  schema.release(&schema);
  for (*rows = 0;; batch.release(&batch)) {
    ASK(stream, stream->get_next(stream, &batch));
    if (!batch.release) break;
    *rows += batch.length;
  }
  stream->release(stream);
  return 0;
}

static int run(void) {
  static source in;
  struct ArrowArrayStream stream;
  pdt_table *table;
  pdt_txn *txn;
  pdt_pinned *pin;
  int64_t rows = 0;
  fill(&in, 1000);
  CALL(opens(&in, &table));
  CALL(pdt_begin(table, &txn));
  fill(&in, 100);
  CALL(applies(&in, txn, PDT_APPLY_INSERT));
  fill(&in, 90);
  CALL(applies(&in, txn, PDT_APPLY_UPSERT));
  CALL(pdt_txn_arrow(txn, shown, SHOWN, 0, UINT64_MAX, 3, &stream));
  fill(&in, 1000);
  CALL(applies(&in, txn, PDT_APPLY_DELETE));
  if (count(&stream, &rows) || rows != 2 * ROWS + 10) return fprintf(stderr, "%lld rows\n", (long long)rows), 1;
  CALL(pdt_commit(txn, NULL));
  CALL(pdt_pin(table, NULL, &pin));
  CALL(pdt_arrow(pin, shown, SHOWN, 0, UINT64_MAX, 30, &stream));
  pdt_unpin(pin);
  if (count(&stream, &rows) || rows != ROWS + 10) return fprintf(stderr, "%lld rows of a pin\n", (long long)rows), 1;
  CALL(pdt_close(table));
  return 0;
}

int main(void) {
  have_sentences();
  for (long n = 0;; n++) {
    long before = refused;
    left = n;
    if (run()) return fprintf(stderr, "with allocation %ld refused\n", n), 1;
    left = -1;
    if (live) return fprintf(stderr, "with allocation %ld refused %ld structs aren't released\n", n, live), 1;
    if (blocks) return fprintf(stderr, "with allocation %ld refused %ld blocks stay\n", n, blocks), 1;
    if (refused == before) break;
  }
  printf("%ld allocations refused, %ld answered\n", refused, answered);
  return refused > 300 && answered > refused / 2 ? 0 : 1;
}
