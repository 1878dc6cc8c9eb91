/* What the files of Arrow's streams share: formats, and the columns that are gathered from a stream. */
#ifndef PDT_INSIDE_ARROW_H
#define PDT_INSIDE_ARROW_H

#include "inside.h"
#include "pdt_arrow.h"

/* ---- formats */

enum pdti_kind { PDTI_NUMBERS = 1, PDTI_DOUBLES, PDTI_DECIMALS, PDTI_BITS, PDTI_TEXTS, PDTI_VIEWS };

/* How the cells of a format lie. */
typedef struct {
  enum pdti_kind kind;
  int type;       /* of the column that takes them */
  size_t bytes;   /* of a number; of an offset, where they are texts */
  bool is_signed; /* of numbers */
  int digits;     /* of a decimal, at most */
} pdti_format;

/* Reads a format. False where no column takes it. */
bool pdti_read_format(const char *text, pdti_format *format);

/* Whether a column of a type goes out as a format; and whether an int column may be declared as one, which may begin with ?. */
bool pdti_goes_out(int type, const pdti_format *as);
bool pdti_may_declare(const pdt_table *table, size_t column, const char *format);

/* Whether the numbers of a format that comes in mean what those of another do: both may begin with ?. */
bool pdti_means(const char *format, const char *other);

/* A double that is seen as a number of 64 bits, in the order of doubles; and back. */
static inline int64_t pdti_in_order(int64_t bits) { return bits ^ (bits >> 63 & INT64_MAX); }

/* ---- rows that go out */

/* A column that goes out. */
typedef struct {
  size_t column;
  pdti_format as;
  bool is_nullable; /* the least number goes out as a null */
  char format[PDTI_FORMAT_BYTES];
  char name[PDT_MAX_NAME + 1];
} pdti_shown;

/* What a stream is: either a transaction of its own, over which batches are read as they are asked for, or batches that were read. */
typedef struct {
  pdt_txn *txn;
  uint64_t at, end; /* the positions that are still to be read */
  uint64_t batch;
  size_t count;
  int failed; /* what get_next answers once the batches that were read are handed out */
  struct ArrowArray *read;
  size_t first, many, room;
  char error[256];        /* why a batch can't be read */
  const char *last_error; /* of the last call of the stream's, or null */
  pdti_shown columns[];
} pdti_scan;

/* Keeps a sentence for get_last_error, and answers the code; that memory was refused; and reads the next batch: what says that there is
   none is one that is released. */
int pdti_fail_stream(pdti_scan *out, int code, const char *why);
int pdti_no_stream_memory(pdti_scan *out);
int pdti_read_batch(pdti_scan *out, struct ArrowArray *batch);

/* ---- columns that are gathered from a stream */

typedef struct {
  char name[PDT_MAX_NAME + 1], format[PDTI_FORMAT_BYTES]; /* the format is cut where it is longer */
  pdti_format as;
  pdti_format index; /* of a dictionary: how its indices lie */
  bool has_dictionary;
  bool is_left_out;         /* its cells are passed over */
  bool is_nullable;         /* its field says so */
  bool takes_nulls;         /* as the least number, which no other cell is then */
  bool may_have_least;      /* where it has no null, it may have that number */
  bool has_null, has_least; /* of these columns, so far */
  int64_t *numbers;
  uint64_t *offsets;
  uint8_t *bytes;
  size_t len; /* how many bytes the texts have */
  size_t number_room, offset_room, byte_room;
} pdti_gathered;

typedef struct {
  pdti_gathered columns[PDT_MAX_COLUMNS];
  size_t count;
  uint64_t before; /* how many rows were gathered and let go */
  uint64_t rows;   /* and how many are here */
  pdt_arrow_fault *fault;
} pdti_gathering;

/* Keeps a sentence for a code, and fills a fault, which may be null, with it and a place. Answers the code. */
int pdti_tell(pdt_arrow_fault *fault, int code, uint64_t row, uint64_t column, const char *form, ...) __attribute__((format(printf, 5, 6)));

/* Fills a fault, which may be null, with a place and the sentence that is kept for a code, which it answers. */
int pdti_tell_kept(pdt_arrow_fault *fault, int code, uint64_t row, uint64_t column);

/* What is said of a cell that is a null and may not be. */
extern const char pdti_no_null[];

/* Tells a cell of the batch that comes next, by its row there. */
int pdti_tell_cell(const pdti_gathering *all, size_t at, uint64_t row, const char *what);

/* Empties a fault, which may be null. PDT_MISUSE where it is a smaller one. */
int pdti_clear_fault(pdt_arrow_fault *fault);

/* Reads the schema of a stream. */
int pdti_gather_schema(pdti_gathering *all, struct ArrowArrayStream *stream);

/* Adds the rows of the next batch; *is_end says that there is none any more. */
int pdti_gather_batch(pdti_gathering *all, struct ArrowArrayStream *stream, bool *is_end);

/* Appends the cells of a column from a place in its array on, whose counts and buffers were looked at. */
int pdti_take_cells(pdti_gathering *all, size_t at, const struct ArrowArray *array, uint64_t from, size_t rows);

/* The first row from a place on whose bit isn't set, or how many rows there are. */
uint64_t pdti_first_unset(const void *bits, uint64_t from, uint64_t rows);

/* Lets the rows that are here go, and keeps their room; and frees that. */
void pdti_drop_rows(pdti_gathering *all);
void pdti_free_gathering(pdti_gathering *all);

/* A gathered column as pdt_open_columns takes it. */
pdt_column pdti_column_of(const pdti_gathering *all, size_t at);

/* Releases a stream, if there is one. */
static inline void pdti_release_stream(struct ArrowArrayStream *stream) {
  if (stream && stream->release) stream->release(stream);
}

#endif
