/* Opening tables: over a text, over columns, and over the bytes of an image. */
#define _DEFAULT_SOURCE
#include "inside.h"

#include <inttypes.h>
#include <stdio.h>
#include <sys/mman.h>

/* ---- headers */

/* Keeps the header of a table's columns, which no image is without. */
static int keep_header(pdt_table *table) {
  pdti_handle header = {NULL};
  int code = (int)pdtr_header(&table->raw, &header);
  if (code) return code;
  table->header_bytes = pdtr_image_read(&header, 0, 0, (uint8_t *)table->header, sizeof table->header);
  pdtr_image_close(&header);
  return PDT_OK;
}

/* ---- options */

int pdti_options_of(const pdt_options *given, pdt_options *options) {
  *options = (pdt_options){sizeof *options, PDT_MAX_RECENT, PDT_MAX_ROWS, false};
  if (!given) return PDT_OK;
  pdt_options asked;
  if (pdti_take_struct(&asked, sizeof asked, given, sizeof asked)) return PDT_MISUSE;
  if (asked.recent) options->recent = asked.recent;
  if (asked.row_limit) options->row_limit = asked.row_limit;
  options->by_row = asked.by_row;
  return PDT_OK;
}

/* ---- texts */

/* Makes the condition that a table's waits wait for. */
static int make_condition(pthread_cond_t *moved) {
  pthread_condattr_t kind;
  if (pthread_condattr_init(&kind)) return -1;
  int bad = pthread_condattr_setclock(&kind, CLOCK_MONOTONIC) || pthread_cond_init(moved, &kind);
  pthread_condattr_destroy(&kind);
  return bad ? -1 : 0;
}

/* Makes the locks of a table outside a database and its condition, or none of them. */
static int make_own(pdt_table *table) {
  if (make_condition(&table->moved)) return -1;
  if (!pdti_make_locks(&table->own_locks)) return 0;
  pthread_cond_destroy(&table->moved);
  return -1;
}

int pdti_adopt(pdt_table *table, const pdt_options *options, pdt_table **out) {
  int code = keep_header(table);
  if (!code && make_own(table)) code = PDT_NOMEM;
  if (code) {
    pdtr_close(&table->raw);
    free(table);
    return code;
  }
  table->locks = &table->own_locks;
  table->recent = options->recent;
  (void)pdtr_pin(&table->raw, &table->fresh);
  table->width = pdtr_width(&table->raw);
  table->key = pdtr_key_columns(&table->raw);
  for (size_t column = 0; column < table->width; column++) {
    table->types[column] = (int)pdtr_type(&table->raw, column);
    table->name_bytes[column] = pdtr_name(&table->raw, column, (uint8_t *)table->names[column], PDT_MAX_NAME);
  }
  *out = table;
  return PDT_OK;
}

/* What is told of the first fault of a text: a cause of which there is no sentence has the code's. */
static pdt_fault fault_of(const pdti_text_fault *found) {
  static const char *const text_faults[] = {
      NULL,
      "there is no header",
      "the cell isn't a name of 1 to 64 bytes, a colon and a type, or it is a key column after one that is not",
      "the header has no column",
      "the header has more than 32 columns",
      "the key has no column, or more than 4",
      "the column has the name of an earlier one",
      "the record has not as many cells as the header",
      "the text is not UTF-8",
      "the cell is no value of the column's type",
      "the text has more than 4,096 bytes",
      "the key is that of an earlier record",
      "no column has this name of the key, or the key has it twice",
      "the cell isn't a name of 1 to 64 bytes without a colon",
  };
  bool is_known = found->cause && found->cause < sizeof text_faults / sizeof *text_faults;
  return (pdt_fault){{found->row, found->column}, is_known ? text_faults[found->cause] : pdt_code_text(PDT_BAD_TABLE)};
}

/* The first fault of a text that is opened: its place, and its sentence, of `said` bytes; 0 if memory ran out. */
typedef struct {
  pdti_text_fault at;
  size_t said;
  uint8_t sentence[512];
} told_text;

/* Keeps the sentence of a text's first fault, or, where there is none, the place and the cause. */
static int refuse_text(const told_text *told) {
  if (told->said && told->said <= sizeof told->sentence) return pdti_keep_sentence(PDT_BAD_TABLE, (const char *)told->sentence, told->said);
  pdt_fault fault = fault_of(&told->at);
  return pdti_say(PDT_BAD_TABLE, "record %" PRIu64 ", column %" PRIu64 ": %s", fault.place.row, fault.place.column, fault.cause);
}

/* Why a text isn't opened as a table. */
static int refuse_opening(int code, const told_text *told, const pdt_options *options, pdt_fault *fault) {
  if (code != PDT_BAD_TABLE) return pdti_refuse_options(code, options);
  if (fault) *fault = fault_of(&told->at);
  return refuse_text(told);
}

pdt_code pdt_open(const void *csv, size_t bytes, const pdt_options *options, pdt_table **out) {
  return pdt_open_csv(csv, bytes, options, NULL, out);
}

pdt_code pdt_open_csv(const void *csv, size_t bytes, const pdt_options *options, pdt_fault *fault, pdt_table **out) {
  if (!out) return PDT_MISUSE;
  *out = NULL;
  pdt_options asked;
  if ((!csv && bytes) || pdti_options_of(options, &asked)) return PDT_MISUSE;
  pdt_table *table = calloc(1, sizeof *table);
  if (!table) return PDT_NOMEM;
  told_text told = {.said = 0};
  int code = (int)pdtr_open(bytes_at(csv, bytes), bytes, asked.recent, asked.row_limit, asked.by_row, &told.at, told.sentence,
                            sizeof told.sentence, &told.said, &table->raw);
  if (code) {
    free(table);
    return refuse_opening(code, &told, &asked, fault);
  }
  return pdti_adopt(table, &asked, out);
}

pdt_code pdt_csv_has_types(const void *csv, size_t bytes, bool *has) {
  if (!has || (!csv && bytes)) return PDT_MISUSE;
  *has = false;
  return (int)pdtr_has_types(bytes_at(csv, bytes), bytes, has);
}

enum { PLAIN_SAMPLE = 1000, NO_SUCH_NAME = 12 /* of text_faults: a name of the key */ };

/* Keeps a sentence for a name of a key. */
static int refuse_name(const char *name) {
  pdti_quoted quoted;
  return pdti_say(PDT_BAD_TABLE, "key: no column has the name %s, or the key has it twice", pdti_quote(&quoted, name, strlen(name)));
}

/* The names of a key. */
static int pass_names(pdti_slice **names, const char *const *key, size_t count) {
  *names = calloc(count ? count : 1, sizeof **names);
  if (!*names) return PDT_NOMEM;
  for (size_t i = 0; i < count; i++) {
    if (!key[i]) return PDT_MISUSE;
    (*names)[i] = (pdti_slice){(const uint8_t *)key[i], strlen(key[i])};
  }
  return PDT_OK;
}

pdt_code pdt_open_plain(const void *csv, size_t bytes, const pdt_plain *plain, const pdt_options *options, pdt_fault *fault,
                        pdt_table **out) {
  if (!out) return PDT_MISUSE;
  *out = NULL;
  pdt_options asked;
  pdt_plain how = {0};
  if ((!csv && bytes) || pdti_options_of(options, &asked)) return PDT_MISUSE;
  if (plain && pdti_take_struct(&how, sizeof how, plain, sizeof how)) return PDT_MISUSE;
  if (!how.key && how.key_count) return PDT_MISUSE;
  pdti_slice *names = NULL;
  told_text told = {.said = 0};
  pdt_table *table = calloc(1, sizeof *table);
  int code = table ? pass_names(&names, how.key, how.key_count) : PDT_NOMEM;
  if (!code)
    code = (int)pdtr_open_plain(bytes_at(csv, bytes), bytes, names, how.key_count, how.sample ? how.sample : PLAIN_SAMPLE, asked.recent,
                                asked.row_limit, asked.by_row, &told.at, told.sentence, sizeof told.sentence, &told.said, &table->raw);
  free(names);
  if (code) {
    free(table);
    bool is_name = code == PDT_BAD_TABLE && told.at.cause == NO_SUCH_NAME;
    code = refuse_opening(code, &told, &asked, fault);
    return is_name ? refuse_name(how.key[told.at.column]) : code;
  }
  return pdti_adopt(table, &asked, out);
}

/* It is the text of a table with no rows. */
int pdti_width_of(const uint8_t *header, size_t len, size_t *width) {
  pdti_handle raw = {NULL};
  told_text told = {.said = 0};
  int code = (int)pdtr_open(bytes_at(header, len), len, 1, PDT_MAX_ROWS, false, &told.at, told.sentence, sizeof told.sentence, &told.said,
                            &raw);
  if (code) return code == PDT_BAD_TABLE ? refuse_text(&told) : pdti_plain(code);
  *width = pdtr_width(&raw);
  pdtr_close(&raw);
  return PDT_OK;
}

/* ---- columns that the caller hands over */

/* What is passed of each column: nothing but what its type has. */
typedef struct {
  pdti_numbers numbers[PDT_MAX_COLUMNS];
  pdti_offsets offsets[PDT_MAX_COLUMNS];
  pdti_slice bytes[PDT_MAX_COLUMNS];
} pdti_passed;

/* What stands for the values that stay with the caller: pages that nobody writes to, which are the system's one page of zeros. */
typedef struct {
  void *at;
  size_t len;
} pdti_zeros;

/* Maps as many as the longest of the columns that stay outside wants: a text begins at each row, and ends at one more. */
static int map_zeros(pdti_zeros *map, const pdt_column *columns, size_t count) {
  size_t most = 0;
  for (size_t i = 0; i < count; i++)
    if (columns[i].type & PDT_OUTSIDE && columns[i].rows <= PDT_MAX_ROWS && columns[i].rows >= most) most = (size_t)columns[i].rows + 1;
  if (!most) return PDT_OK;
  size_t len = most * sizeof(uint64_t);
  void *at = mmap(NULL, len, PROT_READ, MAP_PRIVATE | MAP_ANONYMOUS | MAP_NORESERVE, -1, 0);
  if (at == MAP_FAILED) return PDT_NOMEM;
  *map = (pdti_zeros){at, len};
  return PDT_OK;
}

/* A column whose values stay with the caller: 0, no text and false stand for them. */
static int pass_outside(pdti_passed *all, size_t at, const pdt_column *column, const pdti_zeros *map) {
  size_t rows = (size_t)column->rows;
  if (column->numbers || column->offsets || column->bytes || column->len) return PDT_MISUSE;
  switch (column->type & ~PDT_OUTSIDE) {
    case PDT_INT: all->numbers[at] = (pdti_numbers){map->at, rows}; return PDT_OK;
    case PDT_BOOL: all->bytes[at] = (pdti_slice){map->at, rows}; return PDT_OK;
    default: all->offsets[at] = (pdti_offsets){map->at, rows + 1}; return PDT_OK;
  }
}

static int pass_column(pdti_passed *all, size_t at, const pdt_column *column, const pdti_zeros *map) {
  static const uint64_t no_offsets[1];
  size_t rows = (size_t)column->rows;
  all->numbers[at] = (pdti_numbers){pdti_no_numbers, 0};
  all->offsets[at] = (pdti_offsets){no_offsets, 0};
  all->bytes[at] = (pdti_slice){pdti_no_bytes, 0};
  if (column->rows > PDT_MAX_ROWS) return PDT_TOO_MANY_ROWS;
  if (column->type & PDT_OUTSIDE) return pass_outside(all, at, column, map);
  if (!rows) return PDT_OK;
  switch (column->type) {
    case PDT_INT: all->numbers[at] = (pdti_numbers){column->numbers, rows}; return column->numbers ? PDT_OK : PDT_MISUSE;
    case PDT_BOOL: all->bytes[at] = (pdti_slice){column->bytes, rows}; return column->bytes ? PDT_OK : PDT_MISUSE;
    default:
      all->offsets[at] = (pdti_offsets){column->offsets, rows + 1};
      all->bytes[at] = (pdti_slice){bytes_at(column->bytes, column->len), column->len};
      return column->offsets && (column->bytes || !column->len) ? PDT_OK : PDT_MISUSE;
  }
}

/* The names and the types of columns. */
typedef struct {
  pdti_slice names[PDT_MAX_COLUMNS];
  uint32_t types[PDT_MAX_COLUMNS];
} pdti_headings;

/* Takes them, of which so much is tested as the passing of the columns wants. */
static int head_columns(const pdt_column *columns, size_t count, size_t key, pdti_headings *headings) {
  if (!count || count > PDT_MAX_COLUMNS || !key || key > count) return PDT_BAD_TABLE;
  for (size_t column = 0; column < count; column++) {
    const pdt_column *one = &columns[column];
    if (!one->name) return PDT_MISUSE;
    size_t bytes = strnlen(one->name, PDT_MAX_NAME + 1);
    int type = column < key ? one->type : one->type & ~PDT_OUTSIDE; /* the key's values never stay outside */
    if (bytes > PDT_MAX_NAME || type < PDT_INT || type > PDT_BOOL) return PDT_BAD_TABLE;
    headings->names[column] = (pdti_slice){(const uint8_t *)one->name, bytes};
    headings->types[column] = (uint32_t)type;
  }
  return PDT_OK;
}

/* Why columns aren't opened as a table. */
static int refuse_columns(int code, const pdt_column *columns, size_t count, size_t key, const pdt_place *at, const pdt_options *asked) {
  if (code == PDT_BAD_TABLE) return pdti_refuse_headings(columns, count, key);
  if (code == PDT_TYPE_MISMATCH) return pdti_refuse_value(columns, at);
  if (code == PDT_NOT_ASCENDING) return pdti_refuse_order(columns, key, at->row);
  return pdti_refuse_options(code, asked);
}

pdt_code pdt_open_columns(const pdt_column *columns, size_t count, size_t key, const pdt_options *options, pdt_place *place,
                          pdt_table **out) {
  if (!out) return PDT_MISUSE;
  *out = NULL;
  pdt_options asked;
  if ((!columns && count) || pdti_options_of(options, &asked)) return PDT_MISUSE;
  pdti_headings headings;
  pdt_place at = {0, 0};
  int code = head_columns(columns, count, key, &headings);
  if (code) return refuse_columns(code, columns, count, key, &at, &asked);
  pdti_passed *all = malloc(sizeof *all);
  pdt_table *table = calloc(1, sizeof *table);
  pdti_zeros map = {NULL, 0};
  if (!all || !table || map_zeros(&map, columns, count)) code = PDT_NOMEM;
  for (size_t column = 0; column < count && !code; column++) code = pass_column(all, column, &columns[column], &map);
  if (!code)
    code = (int)pdtr_open_columns(headings.names, count, headings.types, count, key, (size_t)columns[0].rows, all->numbers, count,
                                  all->offsets, count, all->bytes, count, asked.recent, asked.row_limit, asked.by_row, &at, &table->raw);
  free(all);
  if (map.len) munmap(map.at, map.len);
  if (place) *place = at;
  if (code) {
    free(table);
    return refuse_columns(code, columns, count, key, &at, &asked);
  }
  return pdti_adopt(table, &asked, out);
}

/* ---- images as bytes */

pdt_code pdt_recover_from(const void *header, size_t len, const pdt_bytes *columns, size_t count, const pdt_options *options,
                          uint32_t *generation, pdt_table **out) {
  if (!out) return PDT_MISUSE;
  *out = NULL;
  pdt_options asked;
  if ((!header && len) || (!columns && count) || pdti_options_of(options, &asked)) return PDT_MISUSE;
  if (count > PDT_MAX_COLUMNS) return PDT_BAD_CHECKPOINT;
  pdti_slice slices[PDT_MAX_COLUMNS] = {{pdti_no_bytes, 0}};
  for (size_t column = 0; column < count; column++) {
    if (!columns[column].at && columns[column].len) return PDT_MISUSE;
    slices[column] = (pdti_slice){bytes_at(columns[column].at, columns[column].len), columns[column].len};
  }
  pdt_table *table = calloc(1, sizeof *table);
  if (!table) return PDT_NOMEM;
  uint32_t found = 0;
  size_t width;
  int code = (int)pdtr_recover(bytes_at(header, len), len, slices, count, asked.recent, asked.row_limit, asked.by_row, &found, &table->raw);
  if (code) {
    free(table);
    bool is_header = code == PDT_BAD_TABLE && pdti_width_of(header, len, &width) == code; /* which says why */
    return is_header ? code : pdti_refuse_options(code, &asked);
  }
  if (generation) *generation = found;
  return pdti_adopt(table, &asked, out);
}
