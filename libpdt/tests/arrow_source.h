/* A producer of Arrow's C streams whose structs a test fills by hand, also so that they lie. It counts those that aren't released. */
#include <errno.h>
#include <pdt_arrow.h>
#include <string.h>

enum { SOURCE_COLUMNS = 40, SOURCE_BATCHES = 3, SOURCE_BUFFERS = 5 };

typedef struct {
  struct ArrowSchema schema, fields[SOURCE_COLUMNS], values[SOURCE_COLUMNS], *at[SOURCE_COLUMNS];
  struct ArrowArray batches[SOURCE_BATCHES], cells[SOURCE_BATCHES][SOURCE_COLUMNS], *cells_at[SOURCE_BATCHES][SOURCE_COLUMNS];
  struct ArrowArray dictionaries[SOURCE_COLUMNS];
  const void *buffers[SOURCE_BATCHES][SOURCE_COLUMNS][SOURCE_BUFFERS], *dictionary_buffers[SOURCE_COLUMNS][SOURCE_BUFFERS];
  const void *valid[SOURCE_BATCHES][1];
  size_t count, next;
  size_t fails_at; /* the batch in whose place it fails */
  int why;         /* and how; of the schema too, where it is negative */
} source;

static long live; /* how many structs were handed out and not released */

static void release_part_of_schema(struct ArrowSchema *schema) { schema->release = NULL; }
static void release_part_of_batch(struct ArrowArray *array) { array->release = NULL; }
static void release_source_schema(struct ArrowSchema *schema) {
  schema->release = NULL;
  live--;
}
static void release_source_batch(struct ArrowArray *array) {
  array->release = NULL;
  live--;
}
static void release_source(struct ArrowArrayStream *stream) {
  stream->release = NULL;
  live--;
}

static int source_schema(struct ArrowArrayStream *stream, struct ArrowSchema *out) {
  source *from = stream->private_data;
  if (from->why < 0) return -from->why;
  *out = from->schema;
  if (out->release) live++;
  return 0;
}

static int source_next(struct ArrowArrayStream *stream, struct ArrowArray *out) {
  source *from = stream->private_data;
  if (from->why && from->next == from->fails_at) return from->why;
  memset(out, 0, sizeof *out);
  if (from->next == from->count) return 0;
  *out = from->batches[from->next++];
  if (out->release) live++;
  return 0;
}

static const char *source_error(struct ArrowArrayStream *stream) {
  (void)stream;
  return "made to fail";
}

/* Begins a source of columns that are added next. */
static void source_begin(source *in) {
  memset(in, 0, sizeof *in);
  in->schema.format = "+s";
  in->schema.name = "";
  in->schema.children = in->at;
  in->schema.release = release_source_schema;
  in->fails_at = SOURCE_BATCHES + 1;
}

static struct ArrowSchema *source_column(source *in, const char *name, const char *format) {
  size_t at = (size_t)in->schema.n_children++;
  in->fields[at].format = format;
  in->fields[at].name = name;
  in->fields[at].release = release_part_of_schema;
  in->at[at] = &in->fields[at];
  return &in->fields[at];
}

/* Adds a batch of so many rows, whose columns are filled next. */
static struct ArrowArray *source_batch(source *in, int64_t rows) {
  size_t at = in->count++;
  struct ArrowArray *batch = &in->batches[at];
  batch->length = rows;
  batch->n_buffers = 1;
  batch->buffers = in->valid[at];
  batch->children = in->cells_at[at];
  batch->release = release_source_batch;
  return batch;
}

/* Fills the next column of the last batch: the bits of what is there, the cells or the offsets, and the bytes. */
static struct ArrowArray *source_cells(source *in, int64_t length, int64_t buffers, const void *bits, const void *cells,
                                       const void *bytes) {
  size_t at = in->count - 1, column = (size_t)in->batches[at].n_children++;
  struct ArrowArray *array = &in->cells[at][column];
  const void **room = in->buffers[at][column];
  room[0] = bits;
  room[1] = cells;
  room[2] = bytes;
  array->length = length;
  array->n_buffers = buffers;
  array->buffers = room;
  array->release = release_part_of_batch;
  in->cells_at[at][column] = array;
  return array;
}

/* A stream over it, from its first batch on. */
static struct ArrowArrayStream source_stream(source *in) {
  struct ArrowArrayStream stream = {source_schema, source_next, source_error, release_source, NULL};
  in->next = 0;
  stream.private_data = in;
  live++;
  return stream;
}
