/* Tables over columns that the caller has or keeps, each fault with its place, and images that the caller writes and reads itself;
   and a checkpoint on a disk that is full. */
#define _POSIX_C_SOURCE 200809L
#include <errno.h>
#include <malloc.h>
#include <pdt.h>
#include <signal.h>
#include <stdio.h>
#include <stdlib.h>
#include <string.h>
#include <sys/resource.h>
#include <unistd.h>

static int failures;
static void is(const char *what, long long wanted, long long found) {
  if (wanted == found) return;
  failures++;
  fprintf(stderr, "%s: wanted %lld, found %lld\n", what, wanted, found);
}

enum { ROWS = 5000, MANY = 1000000, ID = 0, NAME = 1, OK = 2, WIDTH = 3 };
static int64_t ids[ROWS];
static uint64_t offsets[ROWS + 1];
static uint8_t texts[8 * ROWS], booleans[ROWS];
static pdt_column columns[WIDTH];

/* Five thousand rows: in the name of each is its number, and every third boolean is true. */
static void fill(void) {
  for (int row = 0; row < ROWS; row++) {
    ids[row] = 10 * row;
    offsets[row + 1] = offsets[row] + (uint64_t)sprintf((char *)texts + offsets[row], "r%d", row);
    booleans[row] = row % 3 == 0;
  }
  columns[ID] = (pdt_column){"id", PDT_INT, ROWS, ids, NULL, NULL, 0};
  columns[NAME] = (pdt_column){"na,\"me", PDT_TEXT, ROWS, NULL, offsets, texts, offsets[ROWS]};
  columns[OK] = (pdt_column){"ok", PDT_BOOL, ROWS, NULL, NULL, booleans, 0};
}

static pdt_table *opened(void) {
  pdt_table *table = NULL;
  is("open", PDT_OK, pdt_open_columns(columns, WIDTH, 1, NULL, NULL, &table));
  return table;
}

/* Each row is as it was filled, but for one name. */
static void all_there(pdt_table *table, int other, const char *name) {
  pdt_txn *txn = NULL;
  uint64_t rows = 0;
  is("begin", PDT_OK, pdt_begin(table, &txn));
  is("rows", PDT_OK, pdt_rows(txn, &rows));
  is("how many rows", ROWS, (long long)rows);
  for (int row = 0; row < ROWS && !failures; row++) {
    int64_t cells[WIDTH];
    char text[16], wanted[16];
    size_t len = 0;
    sprintf(wanted, "r%d", row);
    if (row == other) strcpy(wanted, name);
    is("row", PDT_OK, pdt_row_at(txn, (uint64_t)row, cells, text, sizeof text, &len));
    is("id", 10 * row, cells[ID]);
    is("name", 0, len != strlen(wanted) || memcmp(wanted, text, len));
    is("boolean", row % 3 == 0, cells[OK]);
  }
  pdt_abort(txn);
}

static void rename_row(pdt_table *table, int row, const char *name) {
  pdt_txn *txn = NULL;
  int64_t key = 10 * row;
  is("begin", PDT_OK, pdt_begin(table, &txn));
  is("set", PDT_OK, pdt_set(txn, &key, NULL, 0, NAME, (int64_t)strlen(name), name));
  is("commit", PDT_OK, pdt_commit(txn, NULL));
}

static void refused(const char *what, int code, uint64_t row, uint64_t column) {
  pdt_table *table = (pdt_table *)&table;
  pdt_place place = {0, 0};
  is(what, code, pdt_open_columns(columns, WIDTH, 1, NULL, &place, &table));
  is("no table", 1, table == NULL);
  is("row", (long long)row, (long long)place.row);
  is("column", (long long)column, (long long)place.column);
}

static void faults(void) {
  booleans[4000] = 2;
  refused("no boolean", PDT_TYPE_MISMATCH, 4000, OK);
  texts[offsets[1030]] = 0xff; /* the name comes before the boolean */
  refused("no UTF-8", PDT_TYPE_MISMATCH, 1030, NAME);
  texts[offsets[1030]] = 'r';
  booleans[4000] = 0;
  uint64_t end = offsets[7];
  offsets[7] = offsets[6] - 1;
  refused("offsets that descend", PDT_TYPE_MISMATCH, 6, NAME);
  offsets[7] = UINT64_MAX;
  refused("an offset past the bytes", PDT_TYPE_MISMATCH, 6, NAME);
  offsets[7] = offsets[6] + 4097;
  refused("a long text", PDT_TYPE_MISMATCH, 6, NAME);
  offsets[7] = end;
  columns[OK].rows = ROWS - 1;
  refused("a value too few", PDT_TYPE_MISMATCH, ROWS - 1, OK);
  columns[OK].rows = ROWS;
  columns[ID].rows = ROWS - 1;
  refused("a value too many", PDT_TYPE_MISMATCH, ROWS - 1, NAME);
  columns[ID].rows = ROWS;
  ids[3000] = ids[2999];
  refused("a key twice", PDT_NOT_ASCENDING, 3000, 0);
  ids[3000] = 30000;
  columns[ID].rows = UINT64_MAX;
  refused("more rows than there can be", PDT_TOO_MANY_ROWS, 0, 0);
  columns[ID].rows = ROWS;
  for (int column = NAME; column <= OK; column++) {
    columns[column].rows = UINT64_MAX;
    refused("more rows than there can be in a later column", PDT_TOO_MANY_ROWS, 0, 0);
    columns[column].rows = 2147483648;
    refused("a row more than there can be", PDT_TOO_MANY_ROWS, 0, 0);
    columns[column].rows = ROWS;
  }
  columns[OK].name = "id";
  refused("a name twice", PDT_BAD_TABLE, 0, 0);
  columns[OK].name = "";
  refused("no name", PDT_BAD_TABLE, 0, 0);
  columns[OK].name = "ok:bool";
  refused("a name with a colon", PDT_BAD_TABLE, 0, 0);
  columns[OK].name = NULL;
  refused("a null name", PDT_MISUSE, 0, 0);
  columns[OK].name = "ok";
  columns[OK].type = 4;
  refused("no type", PDT_BAD_TABLE, 0, 0);
  columns[OK].type = PDT_BOOL;
  columns[OK].bytes = NULL;
  refused("no bytes", PDT_MISUSE, 0, 0);
  columns[OK].bytes = booleans;
  pdt_table *table = NULL;
  pdt_options few = {sizeof few, 0, ROWS - 1, false};
  is("a limit", PDT_TOO_MANY_ROWS, pdt_open_columns(columns, WIDTH, 1, &few, NULL, &table));
  is("no key", PDT_BAD_TABLE, pdt_open_columns(columns, WIDTH, 0, NULL, NULL, &table));
  is("a key past the columns", PDT_BAD_TABLE, pdt_open_columns(columns, WIDTH, 4, NULL, NULL, &table));
  is("too many columns", PDT_BAD_TABLE, pdt_open_columns(columns, 33, 1, NULL, NULL, &table));
  is("no columns", PDT_BAD_TABLE, pdt_open_columns(NULL, 0, 1, NULL, NULL, &table));
  is("nowhere to", PDT_MISUSE, pdt_open_columns(columns, WIDTH, 1, NULL, NULL, NULL));
}

/* ---- columns whose values stay with the caller */

static int64_t keys[MANY];

/* A table of a key and a column of each type that stays outside. */
static void leave_outside(pdt_column *given, uint64_t rows) {
  for (uint64_t row = 0; row < rows; row++) keys[row] = (int64_t)row;
  given[0] = (pdt_column){"id", PDT_INT, rows, keys, NULL, NULL, 0};
  given[1] = (pdt_column){"number", PDT_INT | PDT_OUTSIDE, rows, NULL, NULL, NULL, 0};
  given[2] = (pdt_column){"text", PDT_TEXT | PDT_OUTSIDE, rows, NULL, NULL, NULL, 0};
  given[3] = (pdt_column){"boolean", PDT_BOOL | PDT_OUTSIDE, rows, NULL, NULL, NULL, 0};
}

static void refused_outside(const char *what, int wanted, const pdt_column *given, size_t key) {
  pdt_table *table = NULL;
  is(what, wanted, pdt_open_columns(given, 4, key, NULL, NULL, &table));
  is(what, 0, table != NULL);
}

static void outside_faults(void) {
  pdt_column given[4];
  leave_outside(given, ROWS);
  refused_outside("a key outside", PDT_BAD_TABLE, given, 2);
  given[1].numbers = ids;
  refused_outside("numbers of one outside", PDT_MISUSE, given, 1);
  given[1].numbers = NULL;
  given[2].offsets = offsets;
  refused_outside("offsets of one outside", PDT_MISUSE, given, 1);
  given[2].offsets = NULL;
  given[3].bytes = booleans;
  refused_outside("bytes of one outside", PDT_MISUSE, given, 1);
  given[3].bytes = NULL;
  given[2].len = 1;
  refused_outside("a length of one outside", PDT_MISUSE, given, 1);
  given[2].len = 0;
  given[1].type = PDT_OUTSIDE;
  refused_outside("no type outside", PDT_BAD_TABLE, given, 1);
  given[1].type = 4 | PDT_OUTSIDE;
  refused_outside("a type that isn't there, outside", PDT_BAD_TABLE, given, 1);
  given[1].type = PDT_INT | PDT_OUTSIDE;
  given[1].rows = ROWS + 1;
  refused_outside("a row too many outside", PDT_TYPE_MISMATCH, given, 1);
  given[1].rows = ROWS - 1;
  refused_outside("a row too few outside", PDT_TYPE_MISMATCH, given, 1);
}

/* A row's cells outside the key. */
static void cells_are(pdt_table *table, uint64_t row, int64_t number, const char *text, int64_t boolean) {
  pdt_txn *txn = NULL;
  int64_t cells[4];
  char found[16];
  size_t len = 0;
  is("begin", PDT_OK, pdt_begin(table, &txn));
  is("row", PDT_OK, pdt_row_at(txn, row, cells, found, sizeof found, &len));
  is("its number", number, cells[1]);
  is("its text", 0, len != strlen(text) || memcmp(found, text, len));
  is("its boolean", boolean, cells[3]);
  pdt_abort(txn);
}

static int takes_all(void *context, size_t column, const uint8_t *bytes, size_t len) {
  return (void)context, (void)column, (void)bytes, (void)len, 0;
}

/* What isn't set is 0, no text and false; what is set is what it was set to, under either layer and in the stable table. */
static void outside_values(void) {
  pdt_column given[4];
  pdt_table *table = NULL;
  pdt_txn *txn = NULL;
  int64_t key = 2047;
  leave_outside(given, ROWS);
  is("open", PDT_OK, pdt_open_columns(given, 4, 1, NULL, NULL, &table));
  is("its type", PDT_INT, pdt_column_type(table, 1));
  cells_are(table, 0, 0, "", 0);
  cells_are(table, ROWS - 1, 0, "", 0);
  is("begin", PDT_OK, pdt_begin(table, &txn));
  is("set", PDT_OK, pdt_set(txn, &key, NULL, 0, 1, -7, NULL));
  is("set", PDT_OK, pdt_set(txn, &key, NULL, 0, 2, 5, "seven"));
  is("set", PDT_OK, pdt_set(txn, &key, NULL, 0, 3, 1, NULL));
  is("commit", PDT_OK, pdt_commit(txn, NULL));
  cells_are(table, 2047, -7, "seven", 1);
  is("fold", PDT_OK, pdt_fold(table));
  cells_are(table, 2047, -7, "seven", 1);
  is("checkpoint", PDT_OK, pdt_checkpoint_to(table, takes_all, NULL, NULL));
  for (uint64_t row = 2046; row <= 2048; row++) cells_are(table, row, row == 2047 ? -7 : 0, row == 2047 ? "seven" : "", row == 2047);
  is("close", PDT_OK, pdt_close(table));
  leave_outside(given, 0);
  is("no rows outside", PDT_OK, pdt_open_columns(given, 4, 1, NULL, NULL, &table));
  is("close", PDT_OK, pdt_close(table));
}

/* How much memory the process has from malloc. */
static size_t in_use(void) {
#ifdef __SANITIZE_ADDRESS__ /* which has a malloc of its own, that counts nothing */
  return 0;
#else
  struct mallinfo2 now = mallinfo2();
  return now.uordblks + now.hblkhd;
#endif
}

#ifdef __SANITIZE_ADDRESS__
static void outside_memory(void) {}
#else
/* The memory of a table of so many rows with so many numbers outside. */
static size_t taken_by(size_t outside) {
  pdt_column given[PDT_MAX_COLUMNS];
  char names[PDT_MAX_COLUMNS][8];
  pdt_table *table = NULL;
  leave_outside(given, MANY);
  for (size_t i = 1; i <= outside; i++) {
    sprintf(names[i], "c%zu", i);
    given[i] = (pdt_column){names[i], PDT_INT | PDT_OUTSIDE, MANY, NULL, NULL, NULL, 0};
  }
  size_t before = in_use();
  is("open", PDT_OK, pdt_open_columns(given, 1 + outside, 1, NULL, NULL, &table));
  size_t after = in_use();
  is("close", PDT_OK, pdt_close(table));
  return after - before;
}

/* Thirty columns of a million numbers outside take less than a quarter of what one column of numbers does. */
static void outside_memory(void) {
  size_t none = taken_by(0), thirty = taken_by(30);
  is("the keys' memory", 1, none > 8 * (size_t)MANY);
  is("the memory of thirty columns outside", 1, thirty - none < 8 * (size_t)MANY / 4);
}
#endif

static void openings(void) {
  pdt_table *table = opened();
  is("columns", WIDTH, (long long)pdt_columns(table));
  is("key columns", 1, (long long)pdt_key_columns(table));
  is("a name with a comma and a quote", 0, strcmp(pdt_column_name(table, NAME), "na,\"me"));
  all_there(table, -1, "");
  is("close", PDT_OK, pdt_close(table));
  pdt_column none[] = {{"id", PDT_INT, 0, NULL, NULL, NULL, 0}, {"name", PDT_TEXT, 0, NULL, NULL, NULL, 0}};
  is("no rows", PDT_OK, pdt_open_columns(none, 2, 1, NULL, NULL, &table));
  is("close", PDT_OK, pdt_close(table));
}

/* An image in memory: its header, and its columns. */
typedef struct {
  uint8_t *bytes[WIDTH + 1];
  size_t len[WIDTH + 1];
  size_t fails_at; /* which of them is not taken: the header is number 0 */
  size_t last;
} taken;

static int take(void *context, size_t column, const uint8_t *bytes, size_t len) {
  taken *image = context;
  size_t at = column == PDT_HEADER ? 0 : column + 1;
  if (at < image->last) failures++;
  image->last = at;
  if (at == image->fails_at) return -1;
  image->bytes[at] = realloc(image->bytes[at], image->len[at] + len);
  memcpy(image->bytes[at] + image->len[at], bytes, len);
  image->len[at] += len;
  return 0;
}

static void let_go(taken *image) {
  for (size_t at = 0; at <= WIDTH; at++) free(image->bytes[at]);
  memset(image, 0, sizeof *image);
  image->fails_at = WIDTH + 1;
}

static void images(void) {
  pdt_table *table = opened(), *again = NULL;
  taken image = {{NULL}, {0}, 0, 0};
  let_go(&image);
  rename_row(table, 17, "seventeen");
  for (size_t at = 0; at <= WIDTH; at++) {
    size_t column = 99;
    image.fails_at = at;
    is("a write that fails", PDT_DEVICE_FAILED, pdt_checkpoint_to(table, take, &image, &column));
    is("its column", (long long)(at ? at - 1 : PDT_HEADER), (long long)column);
    let_go(&image);
  }
  rename_row(table, 18, "r18");
  is("a checkpoint", PDT_OK, pdt_checkpoint_to(table, take, &image, NULL));
  all_there(table, 17, "seventeen");
  is("close", PDT_OK, pdt_close(table));
  pdt_bytes parts[WIDTH];
  for (size_t at = 0; at < WIDTH; at++) parts[at] = (pdt_bytes){image.bytes[at + 1], image.len[at + 1]};
  uint32_t generation = 0;
  is("recover", PDT_OK, pdt_recover_from(image.bytes[0], image.len[0], parts, WIDTH, NULL, &generation, &again));
  is("generation", 1, generation);
  all_there(again, 17, "seventeen");
  is("close", PDT_OK, pdt_close(again));
  is("a column too few", PDT_BAD_CHECKPOINT, pdt_recover_from(image.bytes[0], image.len[0], parts, WIDTH - 1, NULL, NULL, &again));
  is("no header", PDT_BAD_TABLE, pdt_recover_from(NULL, 0, parts, WIDTH, NULL, NULL, &again));
  parts[OK].len--;
  is("a column that is cut", PDT_NO_CHECKPOINT, pdt_recover_from(image.bytes[0], image.len[0], parts, WIDTH, NULL, NULL, &again));
  is("no table", 1, again == NULL);
  parts[OK] = parts[NAME];
  is("another's column", PDT_BAD_CHECKPOINT, pdt_recover_from(image.bytes[0], image.len[0], parts, WIDTH, NULL, NULL, &again));
  is("no write", PDT_MISUSE, pdt_checkpoint_to(NULL, take, &image, NULL));
  let_go(&image);
}

enum { EQUAL = 4000, LONG = 4096, CHANGED = 1500 };
static const pdt_options keeps_few = {sizeof keeps_few, 64, 0, false}; /* the room for commits that are kept has a size of its own */

/* Each row of a table of equal texts, but for one that may be another. */
static void texts_are(pdt_table *table, const char *text, const char *changed) {
  static const int rows[] = {0, 1, 1023, 1024, CHANGED - 1, CHANGED, CHANGED + 1, EQUAL - 1};
  static char found[LONG];
  pdt_txn *txn = NULL;
  is("begin", PDT_OK, pdt_begin(table, &txn));
  for (size_t i = 0; i < sizeof rows / sizeof *rows; i++) {
    const char *wanted = rows[i] == CHANGED ? changed : text;
    int64_t cells[2];
    size_t len = 0;
    is("row", PDT_OK, pdt_row_at(txn, (uint64_t)rows[i], cells, found, sizeof found, &len));
    is("a text's length", (long long)strlen(wanted), (long long)len);
    is("a text", 0, memcmp(wanted, found, len));
  }
  pdt_abort(txn);
}

/* Makes an image, and opens it: what the image and the table opened from it take. */
static pdt_table *opened_again(pdt_table *table, size_t *stored, size_t *taken_in) {
  taken image = {{NULL}, {0}, 0, 0};
  let_go(&image);
  is("checkpoint", PDT_OK, pdt_checkpoint_to(table, take, &image, NULL));
  is("close", PDT_OK, pdt_close(table));
  pdt_bytes parts[] = {{image.bytes[1], image.len[1]}, {image.bytes[2], image.len[2]}};
  size_t before = in_use();
  is("recover", PDT_OK, pdt_recover_from(image.bytes[0], image.len[0], parts, 2, &keeps_few, NULL, &table));
  *stored = image.len[1] + image.len[2];
  *taken_in = in_use() - before;
  let_go(&image);
  return table;
}

/* Four thousand rows have the same text of 4,096 bytes. It is stored and kept once for each 1,024 of them, so that an image of 100 KB
   doesn't want 16 MB. Where one row has another text its block is spelled out. */
static void equal_texts(void) {
  size_t len = (size_t)EQUAL * LONG, stored = 0, opened = 0;
  char *bytes = malloc(len), text[LONG + 1];
  uint64_t *places = malloc((EQUAL + 1) * sizeof *places);
  int64_t *keys = malloc(EQUAL * sizeof *keys);
  memset(bytes, 'x', len), memset(text, 'x', LONG), text[LONG] = 0;
  for (int row = 0; row <= EQUAL; row++) places[row] = (uint64_t)row * LONG;
  for (int row = 0; row < EQUAL; row++) keys[row] = row;
  pdt_column given[] = {{"id", PDT_INT, EQUAL, keys, NULL, NULL, 0}, {"text", PDT_TEXT, EQUAL, NULL, places, (uint8_t *)bytes, len}};
  pdt_table *table = NULL;
  size_t before = in_use();
  is("open", PDT_OK, pdt_open_columns(given, 2, 1, &keeps_few, NULL, &table));
  is("equal texts that are handed over", 1, in_use() - before < len / 32);
  free(bytes), free(places), free(keys);
  texts_are(table, text, text);
  table = opened_again(table, &stored, &opened);
  is("equal texts that are stored", 1, stored < len / 100);
  is("equal texts that are read", 1, opened < len / 32);
  texts_are(table, text, text);
  pdt_txn *txn = NULL;
  int64_t key = CHANGED;
  is("begin", PDT_OK, pdt_begin(table, &txn));
  is("set", PDT_OK, pdt_set(txn, &key, NULL, 0, 1, 5, "other"));
  is("commit", PDT_OK, pdt_commit(txn, NULL));
  texts_are(table, text, "other");
  table = opened_again(table, &stored, &opened);
  is("one block that is spelled out", 1, stored > 1000 * (size_t)LONG && stored < 1100 * (size_t)LONG);
  is("the other blocks", 1, opened < 1100 * (size_t)LONG);
  texts_are(table, text, "other");
  is("close", PDT_OK, pdt_close(table));
}

/* A write may make calls on the table: what it commits comes after the image. */
static int commits(void *context, size_t column, const uint8_t *bytes, size_t len) {
  (void)column, (void)bytes, (void)len;
  rename_row(context, 17, "meanwhile");
  is("fold", PDT_OK, pdt_fold(context));
  return 0;
}

static void meanwhile(void) {
  pdt_table *table = opened();
  is("a write that commits", PDT_OK, pdt_checkpoint_to(table, commits, table, NULL));
  all_there(table, 17, "meanwhile");
  is("close", PDT_OK, pdt_close(table));
}

/* Where no file can be opened none is taken away: a link to nowhere isn't the checkpoint's. */
static void no_files(const char *folder) {
  char path[4200];
  struct rlimit before, none;
  pdt_table *table = opened();
  snprintf(path, sizeof path, "%s/header.csv", folder);
  is("link", 0, symlink("nowhere", path));
  is("limit", 0, getrlimit(RLIMIT_NOFILE, &before));
  none = before;
  none.rlim_cur = 0;
  is("limit", 0, setrlimit(RLIMIT_NOFILE, &none));
  int code = pdt_checkpoint(table, folder), cause = errno;
  is("limit", 0, setrlimit(RLIMIT_NOFILE, &before));
  is("no file", PDT_IO, code);
  is("its cause", EMFILE, cause);
  is("the link is still there", 0, unlink(path));
  is("close", PDT_OK, pdt_close(table));
}

/* No file may have more than 4,096 bytes: the checkpoint says so, takes its files away, and the table goes on. */
static void full_disk(const char *folder) {
  struct rlimit before, small;
  pdt_table *table = opened(), *again = NULL;
  rename_row(table, 20, "twenty");
  signal(SIGXFSZ, SIG_IGN);
  is("limit", 0, getrlimit(RLIMIT_FSIZE, &before));
  small = before;
  small.rlim_cur = 4096;
  is("limit", 0, setrlimit(RLIMIT_FSIZE, &small));
  int code = pdt_checkpoint(table, folder), cause = errno;
  is("limit", 0, setrlimit(RLIMIT_FSIZE, &before));
  is("a full disk", PDT_IO, code);
  is("its cause", EFBIG, cause);
  rename_row(table, 20, "twenty again");
  all_there(table, 20, "twenty again");
  is("another checkpoint", PDT_OK, pdt_checkpoint(table, folder));
  is("close", PDT_OK, pdt_close(table));
  is("recover", PDT_OK, pdt_recover(folder, NULL, &again));
  all_there(again, 20, "twenty again");
  is("close", PDT_OK, pdt_close(again));
}

int main(int argc, char **argv) {
  if (argc != 2) return fprintf(stderr, "columns FOLDER: one that is empty\n"), 2;
  fill();
  openings();
  faults();
  outside_faults();
  outside_values();
  outside_memory();
  images();
  equal_texts();
  meanwhile();
  no_files(argv[1]);
  full_disk(argv[1]);
  if (!failures) printf("columns: passed\n");
  return failures != 0;
}
