/* The sentences of pdt_errmsg: each one literally, in its own thread, and never one of an earlier call. The argument is an empty folder. */
#define _POSIX_C_SOURCE 200809L
#include "arrow_source.h"

#include <errno.h>
#include <pdt.h>
#include <pthread.h>
#include <stdio.h>
#include <stdlib.h>
#include <string.h>
#include <unistd.h>

enum { MOST = 399 };

static int failures;
static void is(const char *what, long long wanted, long long found) {
  errno = EDOM; /* which no call of the next sentence may change */
  if (wanted == found) return;
  failures++;
  fprintf(stderr, "%s: wanted %lld, found %lld\n", what, wanted, found);
}

/* The sentence of a code is this one, also where it is asked for twice; and no other code has it. */
static void reads(pdt_code code, const char *sentence) {
  for (int times = 0; times < 2; times++) {
    const char *found = pdt_errmsg(code);
    is("errno", EDOM, errno);
    if (!strcmp(sentence, found)) continue;
    failures++;
    fprintf(stderr, "wanted: %s\nfound:  %s\n", sentence, found);
  }
  for (int other = PDT_OK; other <= PDT_READONLY + 1; other++)
    if (other != (int)code) is("another code's", 0, strcmp(pdt_code_text(other), pdt_errmsg((pdt_code)other)));
}

/* A call has answered a code, and left errno as it was: this is the code's sentence. */
static void says(int wanted, int found, const char *sentence) {
  int why = errno;
  if (wanted != found) fprintf(stderr, "%s\n", sentence);
  is("a code", wanted, found);
  is("errno", EDOM, why);
  reads((pdt_code)found, sentence);
}

static pdt_table *opened(const char *csv, const pdt_options *options) {
  pdt_table *table = NULL;
  is("open", PDT_OK, pdt_open(csv, strlen(csv), options, &table));
  return table;
}
static pdt_txn *begun(pdt_table *table) {
  pdt_txn *txn = NULL;
  is("begin", PDT_OK, pdt_begin(table, &txn));
  return txn;
}
static void ends(pdt_txn *txn, pdt_table *table) {
  pdt_abort(txn);
  is("close", PDT_OK, pdt_close(table));
}

static const char people[] = "id:int:key,name:text,new:bool\n7,Ann,true\n";
static const char text_of_5000[5000] = {'x'};

static const int64_t seven = 7, eight = 8;

/* ---- writes and reads by a key */

static void keys_are_told(void) {
  pdt_table *table = opened(people, NULL);
  pdt_txn *txn = begun(table);
  int64_t row[3] = {7, 3, 1}, least = INT64_MIN;
  char text[8];
  says(PDT_DUPLICATE, pdt_insert(txn, row, "Bob", 3), "a row with the key id=7 exists");
  says(PDT_MISSING, pdt_delete(txn, &eight, NULL, 0), "no row has the key id=8");
  says(PDT_MISSING, pdt_set(txn, &least, NULL, 0, 2, 1, NULL), "no row has the key id=-9223372036854775808");
  says(PDT_MISSING, pdt_get(txn, &eight, NULL, 0, row, text, sizeof text, NULL), "no row has the key id=8");
  ends(txn, table);
}

/* Inserts the row of a text twice, and deletes it twice. */
static void text_is_told(const char *bytes, size_t len, const char *shown) {
  char there[500], gone[500];
  int64_t number = (int64_t)len;
  pdt_table *table = opened("t:text:key\n", NULL);
  pdt_txn *txn = begun(table);
  snprintf(there, sizeof there, "a row with the key t=%s exists", shown);
  snprintf(gone, sizeof gone, "no row has the key t=%s", shown);
  is("insert", PDT_OK, pdt_insert(txn, &number, bytes, len));
  says(PDT_DUPLICATE, pdt_insert(txn, &number, bytes, len), there);
  is("delete", PDT_OK, pdt_delete(txn, &number, bytes, len));
  says(PDT_MISSING, pdt_delete(txn, &number, bytes, len), gone);
  ends(txn, table);
}

#define SIXTEEN "0123456789abcdef"
#define SIXTY_FOUR SIXTEEN SIXTEEN SIXTEEN SIXTEEN
#define FOUR_MUSKETEERS "\360\237\244\272\360\237\244\272\360\237\244\272\360\237\244\272"
#define MUSKETEERS FOUR_MUSKETEERS FOUR_MUSKETEERS FOUR_MUSKETEERS FOUR_MUSKETEERS

static void texts_are_shown(void) {
  static const struct {
    const char *bytes;
    size_t len;
    const char *shown;
  } cases[] = {
      {"Ann", 3, "\"Ann\""},
      {"", 0, "\"\""},
      {"a\nb\r\t", 5, "\"a\\nb\\r\\t\""},
      {"say \"no\" \\", 10, "\"say \\\"no\\\" \\\\\""},
      {"a\0b", 3, "\"a\\x00b\""},
      {"\x1b[2J\x7f", 5, "\"\\x1b[2J\\x7f\""},
      {"J\303\274rgen", 7, "\"J\303\274rgen\""},
      {"a\302\205b\302\240", 6, "\"a\\x85b\302\240\""},
      {SIXTY_FOUR, 64, "\"" SIXTY_FOUR "\""},
      {SIXTY_FOUR "g", 65, "\"" SIXTY_FOUR "\".."},
      {MUSKETEERS MUSKETEERS MUSKETEERS MUSKETEERS, 256, "\"" MUSKETEERS MUSKETEERS MUSKETEERS MUSKETEERS "\""},
      {MUSKETEERS MUSKETEERS MUSKETEERS MUSKETEERS "x", 257, "\"" MUSKETEERS MUSKETEERS MUSKETEERS MUSKETEERS "\".."},
  };
  for (size_t i = 0; i < sizeof cases / sizeof *cases; i++) text_is_told(cases[i].bytes, cases[i].len, cases[i].shown);
}

static void all_key_columns_are_told(void) {
  pdt_table *table = opened("a:int:key,b:text:key,\"c \"\"d\"\"\":bool:key,\xc3\xa4:bool:key\n", NULL);
  pdt_txn *txn = begun(table);
  int64_t row[] = {-1, 2, 1, 0};
  says(PDT_MISSING, pdt_delete(txn, row, "xy", 2), "no row has the key a=-1, b=\"xy\", \"c \\\"d\\\"\"=true, \303\244=false");
  is("insert", PDT_OK, pdt_insert(txn, row, "xy", 2));
  says(PDT_DUPLICATE, pdt_insert(txn, row, "xy", 2), "a row with the key a=-1, b=\"xy\", \"c \\\"d\\\"\"=true, \303\244=false exists");
  ends(txn, table);
}

/* The names and the texts are as long as they may be: the sentence is cut in its key, and still says what is wrong. */
static void sentences_are_bounded(void) {
  char csv[1000] = "", texts[4 * 4096], name[PDT_MAX_NAME + 1];
  int64_t row[] = {4096, 4096, 4096, 4096};
  for (size_t column = 0; column < 4; column++) {
    memset(name, 'a' + (int)column, PDT_MAX_NAME);
    name[PDT_MAX_NAME] = 0;
    sprintf(csv + strlen(csv), "%s%s:text:key", column ? "," : "", name);
    for (size_t i = 0; i < 4096; i += 2) memcpy(texts + 4096 * column + i, "\303\244", 2);
  }
  strcat(csv, "\n");
  pdt_table *table = opened(csv, NULL);
  pdt_txn *txn = begun(table);
  is("insert", PDT_OK, pdt_insert(txn, row, texts, sizeof texts));
  is("insert", PDT_DUPLICATE, pdt_insert(txn, row, texts, sizeof texts));
  const char *sentence = pdt_errmsg(PDT_DUPLICATE), *end = "\303\244.. exists";
  size_t len = strlen(sentence), tail = strlen(end);
  is("no longer", 1, len <= MOST);
  is("the end", 0, strcmp(end, sentence + len - tail));
  is("the beginning", 0, strncmp("a row with the key aaaa", sentence, 23));
  ends(txn, table);
}

/* ---- cells that don't fit */

static void cells_are_told(void) {
  pdt_table *table = opened(people, NULL);
  pdt_txn *txn = begun(table);
  static const char no_utf8[] = "column \"name\": the text is not UTF-8", no_bool[] = "column \"new\": 2 is not a bool: 0 or 1 is wanted";
  static const char long_text[] = "column \"name\": the text has 5,000 bytes, and 4,096 are the most";
  static const char short_texts[] = "the texts have 9 bytes, and the cells take 12",
                    no_length[] = "column \"name\": -1 is not the length of a text";
  static const char no_column[] = "there is no column 7: the table has 3";
  says(PDT_TYPE_MISMATCH, pdt_insert(txn, (int64_t[]){8, 2, 1}, "\xc3\x28", 2), no_utf8);
  says(PDT_TYPE_MISMATCH, pdt_insert(txn, (int64_t[]){8, 1, 2}, "x", 1), no_bool);
  says(PDT_TYPE_MISMATCH, pdt_insert(txn, (int64_t[]){8, 5000, 1}, text_of_5000, 5000), long_text);
  says(PDT_TYPE_MISMATCH, pdt_insert(txn, (int64_t[]){8, 12, 1}, "123456789", 9), short_texts);
  says(PDT_TYPE_MISMATCH, pdt_insert(txn, (int64_t[]){8, 2, 1}, "123456789", 9), "the texts have 9 bytes, and the cells take 2");
  says(PDT_TYPE_MISMATCH, pdt_insert(txn, (int64_t[]){8, -1, 1}, "", 0), no_length);
  says(PDT_TYPE_MISMATCH, pdt_set(txn, &seven, NULL, 0, 1, 2, "\xc3\x28"), no_utf8);
  says(PDT_TYPE_MISMATCH, pdt_set(txn, &seven, NULL, 0, 2, 2, NULL), no_bool);
  says(PDT_TYPE_MISMATCH, pdt_set(txn, &seven, NULL, 0, 1, 5000, text_of_5000), long_text);
  says(PDT_TYPE_MISMATCH, pdt_set(txn, &seven, NULL, 0, 1, -1, ""), no_length);
  says(PDT_TYPE_MISMATCH, pdt_set(txn, &seven, NULL, 0, 0, 1, NULL), "column \"id\" is a key column, which can't be set");
  says(PDT_TYPE_MISMATCH, pdt_set(txn, &seven, NULL, 0, 7, 1, NULL), no_column);
  says(PDT_TYPE_MISMATCH, pdt_set(txn, &seven, "x", 1, 7, 1, NULL), "the texts have 1 bytes, and the cells take 0");
  ends(txn, table);
}

static void keys_that_do_not_fit_are_told(void) {
  pdt_table *table = opened("on:bool:key,\"a\nb\":text:key,qty:int\n", NULL);
  pdt_txn *txn = begun(table);
  int64_t neither[] = {2, 1}, wrong[] = {1, 1}, numbers[3];
  uint64_t below;
  bool there;
  static const char no_bool[] = "column \"on\": 2 is not a bool: 0 or 1 is wanted", no_utf8[] = "column \"a\\nb\": the text is not UTF-8";
  says(PDT_TYPE_MISMATCH, pdt_delete(txn, neither, "x", 1), no_bool);
  says(PDT_TYPE_MISMATCH, pdt_set(txn, neither, "x", 1, 2, 5, NULL), no_bool);
  says(PDT_TYPE_MISMATCH, pdt_rank(txn, wrong, "\xff", 1, &below, &there), no_utf8);
  says(PDT_TYPE_MISMATCH, pdt_get(txn, wrong, "\xff", 1, numbers, NULL, 0, NULL), no_utf8);
  ends(txn, table);
}

/* ---- places, savepoints, commits */

static void places_are_told(void) {
  pdt_table *table = opened(people, NULL);
  pdt_txn *txn = begun(table);
  int64_t row[3] = {8, 1, 0};
  uint8_t changed[3];
  pdt_layer *layer = NULL;
  pdt_entry entry;
  says(PDT_MISSING, pdt_row_at(txn, 5, row, NULL, 0, NULL), "there is no row at position 5: the number of rows is 1");
  says(PDT_MISSING, pdt_changed(txn, 1, changed, 3), "there is no row at position 1: the number of rows is 1");
  says(PDT_MISSING, pdt_rollback_to(txn, 2), "there is no savepoint of level 2");
  says(PDT_MISSING, pdt_release(txn, 0), "there is no savepoint of level 0");
  says(PDT_MISSING, pdt_changes(table, 3, &layer), "the changes of commit 3 aren't retained");
  says(PDT_MISSING, pdt_wait(table, 4, 1, NULL), "no commit came after 4 within 1 ms");
  is("insert", PDT_OK, pdt_insert(txn, (int64_t[]){8, 1, 0}, "x", 1));
  is("layer", PDT_OK, pdt_own_layer(txn, &layer));
  says(PDT_MISSING, pdt_entry_at(layer, 9, &entry, row, NULL, 0), "there is no entry 9: the layer has 1");
  pdt_layer_close(layer);
  ends(txn, table);
}

/* ---- openings */

static void texts_of_tables_are_told(void) {
  pdt_options one = {sizeof one, 1, 1, false}, recent = {sizeof recent, 70000, 0, false}, limit = {sizeof limit, 1, 3000000000, false};
  pdt_table *table = NULL;
  says(PDT_BAD_TABLE, pdt_open("id:int:key\n1\nx\n", 15, NULL, &table),
       "line 3, column \"id\": \"x\" is not an int: a whole number of 64 bits is wanted");
  static const char lines[] = "name,mail\n\"Ann\nLee\",5\n\nBob,x\n";
  const char *mail[] = {"mail"}, *quoted[] = {"a \"b\""};
  pdt_plain by_mail = {.size = sizeof by_mail, .key = mail, .key_count = 1, .sample = 1}, by_quoted = by_mail;
  by_quoted.key = quoted;
  says(PDT_BAD_TABLE, pdt_open_plain(lines, strlen(lines), &by_mail, NULL, NULL, &table),
       "line 5 (record 3), column \"mail\": \"x\" is not an int: a whole number of 64 bits is wanted");
  says(PDT_BAD_TABLE, pdt_open_plain("name\nAnn\n", 9, &by_mail, NULL, NULL, &table),
       "key: no column has the name \"mail\", or the key has it twice");
  says(PDT_BAD_TABLE, pdt_open_plain("name\nAnn\n", 9, &by_quoted, NULL, NULL, &table),
       "key: no column has the name \"a \\\"b\\\"\", or the key has it twice");
  says(PDT_BAD_TABLE, pdt_open_plain("id,a:int\n", 9, NULL, NULL, NULL, &table),
       "line 1, column 2: \"a:int\" is not a column's name: 1 to 64 bytes of UTF-8 without a colon are wanted");
  says(PDT_BAD_LIMIT, pdt_open(people, strlen(people), &recent, &table), "recent is 70000: 1 to 65,536 is wanted");
  says(PDT_BAD_LIMIT, pdt_open(people, strlen(people), &limit, &table), "row_limit is 3000000000: 1 to 2,147,483,647 is wanted");
  says(PDT_TOO_MANY_ROWS, pdt_open("id:int:key\n1\n2\n", 15, &one, &table), "the table has more rows than its limit, 1");
  says(PDT_BAD_TABLE, pdt_recover_from("id:int\n", 7, NULL, 0, NULL, NULL, &table),
       "line 1: 0 key columns, and 1 to 4 are wanted, as in id:int:key");
}

/* Opens a table over columns of which one isn't as it should be. */
static void columns_are(int code, const pdt_column *columns, size_t count, size_t key, const char *sentence) {
  pdt_table *table = NULL;
  says(code, pdt_open_columns(columns, count, key, NULL, NULL, &table), sentence);
}

static void headings_are_told(void) {
  static const int64_t two[] = {1, 2};
  pdt_column columns[] = {{"id", PDT_INT, 2, two, NULL, NULL, 0}, {"qty", PDT_INT, 2, two, NULL, NULL, 0}};
  columns_are(PDT_BAD_TABLE, columns, 0, 1, "there are 0 columns: 1 to 32 are wanted");
  columns_are(PDT_BAD_TABLE, columns, 2, 0, "the key has 0 columns: 1 to 4 are wanted");
  columns_are(PDT_BAD_TABLE, columns, 2, 3, "the key has 3 columns, and the table has 2");
  columns[1].name = "a:b";
  columns_are(PDT_BAD_TABLE, columns, 2, 1, "column 1 has the name \"a:b\": 1 to 64 bytes of UTF-8 without a colon are wanted");
  columns[1].name = SIXTY_FOUR "g";
  columns_are(PDT_BAD_TABLE, columns, 2, 1,
              "column 1 has the name \"" SIXTY_FOUR "\"..: 1 to 64 bytes of UTF-8 without a colon are wanted");
  columns[1].name = "id";
  columns_are(PDT_BAD_TABLE, columns, 2, 1, "two columns have the name \"id\"");
  columns[1].name = "qty";
  columns[1].type = 7;
  columns_are(PDT_BAD_TABLE, columns, 2, 1, "column \"qty\": 7 is not a type: PDT_INT, PDT_TEXT or PDT_BOOL is wanted");
  columns[1].type = PDT_INT;
  columns[0].type = PDT_INT | PDT_OUTSIDE;
  columns_are(PDT_BAD_TABLE, columns, 2, 1, "column \"id\" is a key column, whose values can't stay outside");
}

static void values_are_told(void) {
  static const int64_t keys[] = {1, 2, 4, 3};
  uint64_t at[] = {0, 1, 3, 3, 4};
  pdt_column id = {"id", PDT_INT, 3, keys, NULL, NULL, 0};
  pdt_column columns[] = {id, {"on", PDT_BOOL, 3, NULL, NULL, (const uint8_t *)"\0\1\2", 0}};
  columns_are(PDT_TYPE_MISMATCH, columns, 2, 1, "row 2, column \"on\": 2 is not a bool: 0 or 1 is wanted");
  columns[1].rows = 2;
  columns_are(PDT_TYPE_MISMATCH, columns, 2, 1, "column \"on\" has 2 values, and column \"id\" has 3");
  columns[1] = (pdt_column){"name", PDT_TEXT, 3, NULL, at, (const uint8_t *)"x\xff\xffy", 4};
  columns_are(PDT_TYPE_MISMATCH, columns, 2, 1, "row 1, column \"name\": the text is not UTF-8");
  at[2] = 5;
  columns_are(PDT_TYPE_MISMATCH, columns, 2, 1, "row 1, column \"name\": the text is from byte 1 to byte 5 of 4");
  columns[1].bytes = (const uint8_t *)text_of_5000;
  columns[1].len = at[2] = at[3] = 5000;
  columns_are(PDT_TYPE_MISMATCH, columns, 2, 1, "row 1, column \"name\": the text has 4,999 bytes, and 4,096 are the most");
  id.rows = 4;
  columns_are(PDT_NOT_ASCENDING, &id, 1, 1, "row 3: the key id=3 is not above the key id=4 of the row before it");
}

static void long_keys_are_told_in_order(void) {
  static char bytes[2 * 4096];
  static const uint64_t at[] = {0, 4096, 8192};
  memset(bytes, 'x', sizeof bytes);
  pdt_column columns[4];
  for (int i = 0; i < 4; i++)
    columns[i] = (pdt_column){(const char *[]){"a", "b", "c", "d"}[i], PDT_TEXT, 2, NULL, at, (uint8_t *)bytes, 8192};
  pdt_table *table = NULL;
  is("equal keys", PDT_NOT_ASCENDING, pdt_open_columns(columns, 4, 4, NULL, NULL, &table));
  const char *sentence = pdt_errmsg(PDT_NOT_ASCENDING), *end = " of the row before it";
  is("no longer", 1, strlen(sentence) <= MOST);
  is("the end", 0, strcmp(end, sentence + strlen(sentence) - strlen(end)));
  is("the other key", 1, strstr(sentence, " is not above the key a=\"xxx") != NULL);
}

/* ---- columns of rows, and formats */

/* The sentence of a call that fills a fault is that of the fault; without a fault it is there too. */
static void applied(pdt_txn *txn, const pdt_column *columns, size_t count, int what, int code, const char *sentence) {
  pdt_arrow_fault fault = {.size = sizeof fault};
  says(code, pdt_apply_columns(txn, columns, count, what, &fault, NULL), sentence);
  is("the fault's", 0, strcmp(sentence, fault.cause));
  is("another call", PDT_MISSING, pdt_rollback_to(txn, 7777));
  says(code, pdt_apply_columns(txn, columns, count, what, NULL, NULL), sentence);
}

static void rows_of_columns_are_told(void) {
  static const int64_t keys[] = {8, 7};
  uint64_t at[] = {0, 1, 2};
  pdt_table *table = opened(people, NULL);
  pdt_txn *txn = begun(table);
  pdt_column columns[] = {{"id", PDT_INT, 2, keys, NULL, NULL, 0},
                          {"name", PDT_TEXT, 2, NULL, at, (const uint8_t *)"xy", 2},
                          {"new", PDT_BOOL, 2, NULL, NULL, (const uint8_t *)"\0\1", 0}};
  applied(txn, columns, 3, PDT_APPLY_INSERT, PDT_DUPLICATE, "a row with the key id=7 exists");
  applied(txn, columns, 1, PDT_APPLY_DELETE, PDT_MISSING, "no row has the key id=8");
  applied(txn, columns, 2, PDT_APPLY_UPSERT, PDT_TYPE_MISMATCH, "column \"new\" of the table isn't there");
  columns[2].bytes = (const uint8_t *)"\0\2";
  applied(txn, columns, 3, PDT_APPLY_UPSERT, PDT_TYPE_MISMATCH, "column \"new\": 2 is not a bool: 0 or 1 is wanted");
  columns[1].bytes = (const uint8_t *)"x\xff";
  columns[2].bytes = (const uint8_t *)"\0\1";
  applied(txn, columns, 3, PDT_APPLY_UPSERT, PDT_TYPE_MISMATCH, "column \"name\": the text is not UTF-8");
  columns[1].bytes = (const uint8_t *)text_of_5000;
  columns[1].len = at[2] = 4098;
  applied(txn, columns, 3, PDT_APPLY_UPSERT, PDT_TYPE_MISMATCH, "column \"name\": the text has 4,097 bytes, and 4,096 are the most");
  columns[1] = (pdt_column){"name", PDT_INT, 2, keys, NULL, NULL, 0};
  applied(txn, columns, 3, PDT_APPLY_UPSERT, PDT_TYPE_MISMATCH, "column \"name\" is of type int, and type text is wanted");
  pdt_column more[4] = {{"price \"net\"", PDT_INT, 2, keys, NULL, NULL, 0}};
  memcpy(more + 1, columns, sizeof columns);
  more[2] = (pdt_column){"name", PDT_TEXT, 2, NULL, (const uint64_t[]){0, 1, 2}, (const uint8_t *)"xy", 2};
  applied(txn, more, 4, PDT_APPLY_UPSERT, PDT_TYPE_MISMATCH, "the table has no column \"price \\\"net\\\"\"");
  ends(txn, table);
}

static void formats_are_told(void) {
  pdt_table *table = opened(people, NULL);
  pdt_txn *txn = begun(table);
  struct ArrowArrayStream stream;
  pdt_arrow_column column = {1, "tdD"};
  char room[64];
  says(PDT_TYPE_MISMATCH, pdt_declare(table, 1, "g"), "column \"name\": a text column isn't declared, only an int column");
  says(PDT_TYPE_MISMATCH, pdt_declare(table, 0, "zz"), "column \"id\": \"zz\" is not a format of numbers");
  says(PDT_TYPE_MISMATCH, pdt_declare(table, 0, "?l"), "column \"id\": a key column has no nulls, as \"?l\" wants");
  says(PDT_TYPE_MISMATCH, pdt_declare(table, 9, NULL), "there is no column 9: the table has 3");
  says(PDT_TYPE_MISMATCH, pdt_declared_copy(table, 3, room, sizeof room), "there is no column 3: the table has 3");
  says(PDT_TYPE_MISMATCH, pdt_txn_arrow(txn, &column, 1, 0, 9, 0, &stream), "column \"name\": \"tdD\" isn't a format of its type");
  column.column = 3;
  says(PDT_TYPE_MISMATCH, pdt_txn_arrow(txn, &column, 1, 0, 9, 0, &stream), "there is no column 3: the table has 3");
  says(PDT_TYPE_MISMATCH, pdt_txn_arrow(txn, &column, 33, 0, 9, 0, &stream), "33 columns are asked for, and 32 are the most");
  ends(txn, table);
}

static const int64_t in_any_order[] = {3, 1, 3};

/* A stream of one int column with these keys. */
static struct ArrowArrayStream stream_of(source *in, const int64_t *keys) {
  source_begin(in);
  source_column(in, "id", "l");
  source_batch(in, 3);
  source_cells(in, 3, 2, NULL, keys, NULL);
  return source_stream(in);
}

static void streams_are_told(void) {
  static source in;
  const char *const key = "id";
  pdt_arrow_fault fault = {.size = sizeof fault};
  pdt_table *table = NULL;
  struct ArrowArrayStream stream = stream_of(&in, in_any_order);
  says(PDT_DUPLICATE, pdt_open_arrow(&stream, &key, 1, NULL, &fault, &table), "the key id=3 is that of an earlier row");
  is("the fault's", 0, strcmp(pdt_errmsg(PDT_DUPLICATE), fault.cause));
  stream = stream_of(&in, in_any_order);
  in.fields[0].format = "z";
  says(PDT_TYPE_MISMATCH, pdt_open_arrow(&stream, &key, 1, NULL, &fault, &table),
       "column \"id\" is of Arrow's format z, which no column takes");
  is("the fault's", 0, strcmp(pdt_errmsg(PDT_TYPE_MISMATCH), fault.cause));
  stream = stream_of(&in, in_any_order);
  in.batches[0].children[0]->buffers = (const void *[]){"\5", in_any_order};
  says(PDT_TYPE_MISMATCH, pdt_open_arrow(&stream, &key, 1, NULL, NULL, &table), "column \"id\": a null isn't allowed");
  stream = stream_of(&in, in_any_order);
  in.why = 5;
  in.fails_at = 0;
  says(PDT_DEVICE_FAILED, pdt_open_arrow(&stream, &key, 1, NULL, NULL, &table), "the stream failed (5): made to fail");
  is("none is left", 0, live);
}

/* ---- databases */

static pdt_database *shop;

static void names_are_told(const char *folder) {
  static const char empty[] = "id:int:key\n";
  static const char bad_name[] = "a table can't have the name \"a\\nb\": 1 to 64 bytes of UTF-8 without control characters are wanted";
  pdt_database_options reading = {.size = sizeof reading, .read_only = true};
  pdt_table *table = NULL, *late = NULL;
  pdt_dbtxn *dbtxn = NULL;
  pdt_txn *txn = NULL;
  char room[80];
  is("open", PDT_MISSING, pdt_database_open(folder, &reading, &shop, NULL));
  reads(PDT_MISSING, "there is no database in the folder");
  is("open", PDT_OK, pdt_database_open(folder, NULL, &shop, NULL));
  says(PDT_MISSING, pdt_table_open(shop, "items\n", &table), "no table has the name \"items\\n\"");
  says(PDT_MISSING, pdt_table_drop(shop, "items"), "no table has the name \"items\"");
  says(PDT_MISSING, pdt_table_name(shop, 2, room, sizeof room), "there is no table 2: the database has 0");
  says(PDT_TYPE_MISMATCH, pdt_table_create_csv(shop, "a\nb", empty, sizeof empty - 1, NULL, NULL, &table), bad_name);
  is("create", PDT_OK, pdt_table_create_csv(shop, "items", empty, sizeof empty - 1, NULL, NULL, &table));
  says(PDT_EXISTS, pdt_table_create_csv(shop, "items", empty, sizeof empty - 1, NULL, NULL, &late),
       "a table with the name \"items\" exists");
  says(PDT_BAD_TABLE, pdt_table_create_csv(shop, "t", "id:int:key\nx\n", 13, NULL, NULL, &late),
       "line 2, column \"id\": \"x\" is not an int: a whole number of 64 bits is wanted");
  says(PDT_TYPE_MISMATCH, pdt_table_create_csv_declared(shop, "t", empty, sizeof empty - 1, (const char *[]){"u"}, 1, NULL, NULL, &late),
       "column \"id\": \"u\" is not a format of numbers");
  is("begin", PDT_OK, pdt_dbtxn_begin(shop, &dbtxn));
  is("create", PDT_OK, pdt_table_create_csv(shop, "late", empty, sizeof empty - 1, NULL, NULL, &late));
  says(PDT_MISSING, pdt_dbtxn_on(dbtxn, late, &txn), "the table was created after the database transaction began");
  pdt_dbtxn_abort(dbtxn);
}

/* ---- what isn't said: the sentence of an earlier call */

static pdt_table *old;
static pdt_txn *writer;

/* Has each code that may have a sentence have one, which begins with a table, a level or a column that no test has otherwise. */
static void mark(pdt_code code) {
  static source in;
  static const char *const key = "id";
  static const int64_t equal[] = {77777, 77777};
  pdt_column id = {"id", PDT_INT, 2, equal, NULL, NULL, 0};
  pdt_options many = {sizeof many, 77777, 0, false}, few = {sizeof few, 1, 1, false};
  pdt_table *table = NULL;
  struct ArrowArrayStream stream;
  int found = PDT_OK;
  switch (code) {
    case PDT_DUPLICATE: found = pdt_insert(writer, &(int64_t){77777}, NULL, 0); break;
    case PDT_MISSING: found = pdt_release(writer, 77777); break;
    case PDT_TYPE_MISMATCH: found = pdt_set(writer, &(int64_t){77777}, NULL, 0, 77777, 0, NULL); break;
    case PDT_BAD_TABLE: found = pdt_open_columns(&id, 77777, 1, NULL, NULL, &table); break;
    case PDT_NOT_ASCENDING: found = pdt_open_columns(&id, 1, 1, NULL, NULL, &table); break;
    case PDT_BAD_LIMIT: found = pdt_open("id:int:key\n77777\n", 17, &many, &table); break;
    case PDT_TOO_MANY_ROWS: found = pdt_open("id:int:key\n1\n77777\n", 19, &few, &table); break;
    case PDT_EXISTS: found = pdt_table_create_csv(shop, "items", "id:int:key\n77777\n", 17, NULL, NULL, &table); break;
    default:
      stream = stream_of(&in, in_any_order);
      in.why = 77;
      in.fails_at = 0;
      found = pdt_open_arrow(&stream, &key, 1, NULL, NULL, &table);
  }
  is("a mark", (long long)code, found);
  is("has a sentence", 1, strcmp(pdt_code_text(code), pdt_errmsg(code)) != 0);
}

/* A call that answers a code after another one has answered it: the sentence is the call's, or that of the code. */
#define FRESH(code, call)                                                                     \
  do {                                                                                        \
    char before_[400];                                                                        \
    mark(code);                                                                               \
    strcpy(before_, pdt_errmsg(code));                                                        \
    is(#call, (code), (call));                                                                \
    is("not the earlier one: " #call, 1, strcmp(before_, pdt_errmsg((pdt_code)(code))) != 0); \
  } while (0)

static int refuses(void *context, size_t column, const uint8_t *bytes, size_t len) {
  (void)context, (void)column, (void)bytes, (void)len;
  return 1;
}

static void earlier_sentences_are_gone(const char *folder) {
  static const char csv[] = "id:int:key\n77777\n", wrong[] = "id:text\n";
  int64_t one = 1, cell;
  uint64_t below;
  bool there;
  char room[64], path[300];
  pdt_options limit = {sizeof limit, 1, 3000000000, false}, few = {sizeof few, 1, 1, false};
  pdt_column id = {"id", PDT_INT, 2, (const int64_t[]){2, 1}, NULL, NULL, 0},
             on = {"on", PDT_BOOL, 1, NULL, NULL, (const uint8_t *)"\2", 0};
  pdt_table *table = NULL;
  pdt_layer *layer = NULL;
  pdt_entry entry;
  struct ArrowArrayStream stream;
  pdt_database_options reading = {.size = sizeof reading, .read_only = true};
  pdt_database *none = NULL;
  static source in;
  const char *const key = "id";
  old = opened(csv, NULL);
  writer = begun(old);
  is("insert", PDT_OK, pdt_insert(writer, &one, NULL, 0));
  FRESH(PDT_DUPLICATE, pdt_insert(writer, &one, NULL, 0));
  FRESH(PDT_DUPLICATE, (stream = stream_of(&in, in_any_order), pdt_open_arrow(&stream, &key, 1, NULL, NULL, &table)));
  one = 2;
  FRESH(PDT_MISSING, pdt_delete(writer, &one, NULL, 0));
  FRESH(PDT_MISSING, pdt_get(writer, &one, NULL, 0, &cell, NULL, 0, NULL));
  FRESH(PDT_MISSING, pdt_row_at(writer, 9, &cell, NULL, 0, NULL));
  FRESH(PDT_MISSING, pdt_changed(writer, 9, NULL, 0));
  FRESH(PDT_MISSING, pdt_rollback_to(writer, 9));
  FRESH(PDT_MISSING, pdt_release(writer, 9));
  FRESH(PDT_MISSING, pdt_changes(old, 9, &layer));
  FRESH(PDT_MISSING, pdt_wait(old, 9, 0, NULL));
  is("layer", PDT_OK, pdt_own_layer(writer, &layer));
  FRESH(PDT_MISSING, pdt_entry_at(layer, 9, &entry, &cell, NULL, 0));
  pdt_layer_close(layer);
  FRESH(PDT_MISSING, pdt_table_open(shop, "none", &table));
  FRESH(PDT_MISSING, pdt_table_name(shop, 9, room, sizeof room));
  FRESH(PDT_MISSING, pdt_table_drop(shop, "none"));
  snprintf(path, sizeof path, "%s/none", folder);
  FRESH(PDT_MISSING, pdt_database_open(path, &reading, &none, NULL));
  FRESH(PDT_TYPE_MISMATCH, pdt_insert(writer, &one, "x", 1));
  FRESH(PDT_TYPE_MISMATCH, pdt_delete(writer, &one, "x", 1));
  FRESH(PDT_TYPE_MISMATCH, pdt_set(writer, &one, "x", 1, 0, 0, NULL));
  FRESH(PDT_TYPE_MISMATCH, pdt_rank(writer, &one, "x", 1, &below, &there));
  FRESH(PDT_TYPE_MISMATCH, pdt_get(writer, &one, "x", 1, &cell, NULL, 0, NULL));
  FRESH(PDT_TYPE_MISMATCH, pdt_declare(old, 9, NULL));
  FRESH(PDT_TYPE_MISMATCH, pdt_declared_copy(old, 9, room, sizeof room));
  FRESH(PDT_TYPE_MISMATCH, pdt_txn_arrow(writer, &(pdt_arrow_column){9, NULL}, 1, 0, 1, 0, &stream));
  FRESH(PDT_TYPE_MISMATCH, pdt_open_columns(&on, 1, 1, NULL, NULL, &table));
  FRESH(PDT_TYPE_MISMATCH, pdt_apply_columns(writer, &on, 1, PDT_APPLY_INSERT, NULL, NULL));
  FRESH(PDT_TYPE_MISMATCH, pdt_table_create(shop, "", &id, 1, 1, NULL, NULL, &table));
  FRESH(PDT_BAD_TABLE, pdt_open(wrong, 8, NULL, &table));
  FRESH(PDT_BAD_TABLE, pdt_recover_from(wrong, 8, NULL, 0, NULL, NULL, &table));
  FRESH(PDT_BAD_TABLE, pdt_open_columns(&id, 0, 1, NULL, NULL, &table));
  FRESH(PDT_NOT_ASCENDING, pdt_table_create(shop, "t", &id, 1, 1, NULL, NULL, &table));
  FRESH(PDT_BAD_LIMIT, pdt_open(csv, sizeof csv - 1, &limit, &table));
  FRESH(PDT_BAD_LIMIT, pdt_table_create_csv(shop, "t", csv, sizeof csv - 1, &limit, NULL, &table));
  few.row_limit = 2;
  FRESH(PDT_TOO_MANY_ROWS, pdt_open("id:int:key\n1\n2\n3\n", 17, &few, &table));
  FRESH(PDT_EXISTS, pdt_table_create_csv(shop, "late", csv, sizeof csv - 1, NULL, NULL, &table));
  is("checkpoint", PDT_OK, pdt_checkpoint(old, folder));
  FRESH(PDT_EXISTS, pdt_checkpoint(old, folder));
  is("a file's", 0, strcmp(pdt_code_text(PDT_EXISTS), pdt_errmsg(PDT_EXISTS)));
  FRESH(PDT_DEVICE_FAILED, pdt_checkpoint_to(old, refuses, NULL, NULL));
  is("a write's", 0, strcmp(pdt_code_text(PDT_DEVICE_FAILED), pdt_errmsg(PDT_DEVICE_FAILED)));
  ends(writer, old);
  is("none is left", 0, live);
}

/* ---- threads and ends */

static void *of_another_thread(void *context) {
  (void)context;
  is("none yet", 0, strcmp(pdt_code_text(PDT_DUPLICATE), pdt_errmsg(PDT_DUPLICATE)));
  pdt_table *table = opened(people, NULL);
  pdt_txn *txn = begun(table);
  is("a code", PDT_MISSING, pdt_delete(txn, &eight, NULL, 0));
  is("its sentence", 0, strcmp("no row has the key id=8", pdt_errmsg(PDT_MISSING)));
  is("not another's", 0, strcmp(pdt_code_text(PDT_DUPLICATE), pdt_errmsg(PDT_DUPLICATE)));
  ends(txn, table);
  return NULL;
}

/* Two threads have errors of their own, and a sentence is there once its table is closed. */
static void sentences_are_of_a_thread(void) {
  pthread_t other;
  pdt_table *table = opened(people, NULL);
  pdt_txn *txn = begun(table);
  is("a code", PDT_DUPLICATE, pdt_insert(txn, (int64_t[]){7, 0, 0}, NULL, 0));
  ends(txn, table);
  is("a thread", 0, pthread_create(&other, NULL, of_another_thread, NULL));
  is("its end", 0, pthread_join(other, NULL));
  reads(PDT_DUPLICATE, "a row with the key id=7 exists");
}

int main(int argc, char **argv) {
  if (argc != 2) return fprintf(stderr, "usage: messages FOLDER\n"), 2;
  char folder[200];
  snprintf(folder, sizeof folder, "%s/shop", argv[1]);
  errno = EDOM;
  reads(PDT_DUPLICATE, pdt_code_text(PDT_DUPLICATE));
  is("of no code", 0, strcmp("no such code", pdt_errmsg((pdt_code)1000)));
  keys_are_told();
  texts_are_shown();
  all_key_columns_are_told();
  sentences_are_bounded();
  cells_are_told();
  keys_that_do_not_fit_are_told();
  places_are_told();
  texts_of_tables_are_told();
  headings_are_told();
  values_are_told();
  long_keys_are_told_in_order();
  rows_of_columns_are_told();
  formats_are_told();
  streams_are_told();
  sentences_are_of_a_thread();
  names_are_told(folder);
  earlier_sentences_are_gone(argv[1]);
  is("close", PDT_OK, pdt_database_close(shop));
  return failures ? 1 : 0;
}
