/* CSV texts whose header names columns and no types: the types that are found, the key, each fault with its place, and a type that changes
   at record 1,000,000. The argument is an empty folder. */
#define _POSIX_C_SOURCE 200809L
#include <pdt.h>
#include <stdint.h>
#include <stdio.h>
#include <stdlib.h>
#include <string.h>

enum { MANY = 1000000 };

static int failures;
static void is(const char *what, long long wanted, long long found) {
  if (wanted == found) return;
  failures++;
  fprintf(stderr, "%s: wanted %lld, found %lld\n", what, wanted, found);
}

/* ---- tables */

static pdt_table *opened(const char *csv, const pdt_plain *plain) {
  pdt_table *table = NULL;
  int code = pdt_open_plain(csv, strlen(csv), plain, NULL, NULL, &table);
  if (code) fprintf(stderr, "%.60s: %s\n", csv, pdt_code_text(code));
  is("open", PDT_OK, code);
  return table;
}

/* The columns of a table, each as its name and its type's first letter, as "id:i,name:t", with a bar after the key. */
static void columns_are(const char *wanted, pdt_table *table) {
  static const char letters[] = " itb";
  char found[512] = "";
  for (size_t column = 0; column < pdt_columns(table); column++)
    sprintf(found + strlen(found), "%s%s:%c",
            !column                            ? ""
            : column == pdt_key_columns(table) ? "|"
                                               : ",",
            pdt_column_name(table, column), letters[pdt_column_type(table, column)]);
  if (!strcmp(wanted, found)) return;
  failures++;
  fprintf(stderr, "columns: wanted %s, found %s\n", wanted, found);
}

/* The rows, each cell with a comma after it, and each row with a line end. */
static void rows_are(const char *wanted, pdt_table *table) {
  char found[4096] = "", texts[1024];
  int64_t cells[PDT_MAX_COLUMNS];
  size_t len = 0;
  uint64_t rows = 0;
  pdt_txn *txn = NULL;
  is("begin", PDT_OK, pdt_begin(table, &txn));
  is("rows", PDT_OK, pdt_rows(txn, &rows));
  for (uint64_t row = 0; row < rows; row++) {
    is("row", PDT_OK, pdt_row_at(txn, row, cells, texts, sizeof texts, &len));
    size_t at = 0;
    for (size_t column = 0; column < pdt_columns(table); column++) {
      char *end = found + strlen(found);
      if (pdt_column_type(table, column) == PDT_TEXT) {
        sprintf(end, "%.*s,", (int)cells[column], texts + at);
        at += (size_t)cells[column];
      } else {
        sprintf(end, "%lld,", (long long)cells[column]);
      }
    }
    strcat(found, "\n");
  }
  pdt_abort(txn);
  if (!strcmp(wanted, found)) return;
  failures++;
  fprintf(stderr, "rows: wanted\n%sfound\n%s", wanted, found);
}

static void table_is(const char *csv, const pdt_plain *plain, const char *columns, const char *rows) {
  pdt_table *table = opened(csv, plain);
  if (!table) return;
  columns_are(columns, table);
  rows_are(rows, table);
  is("close", PDT_OK, pdt_close(table));
}

static pdt_plain with_key(const char *const *key, size_t count) {
  return (pdt_plain){.size = sizeof(pdt_plain), .key = key, .key_count = count};
}
static pdt_plain with_sample(size_t sample) { return (pdt_plain){.size = sizeof(pdt_plain), .sample = sample}; }

static void types_are_found(void) {
  table_is("id,name,new,score\n7,Ann,true,-5\n3,Bob,false,+12\n", NULL, "id:i|name:t,new:b,score:i", "3,Bob,0,12,\n7,Ann,1,-5,\n");
  table_is("id,a,b,c,d\r\n1,true,7,,9223372036854775807\r\n2,x,x,,-9223372036854775808\r\n", NULL, "id:i|a:t,b:t,c:t,d:i",
           "1,true,7,,9223372036854775807,\n2,x,x,,-9223372036854775808,\n");
  table_is("id,a,b,c\n1,9223372036854775808,1.5,true\n2,1,2,1\n", NULL, "id:i|a:t,b:t,c:t", "1,9223372036854775808,1.5,true,\n2,1,2,1,\n");
  table_is("id,a,b\n1,,True\n2,3,False\n", NULL, "id:i|a:t,b:t", "1,,True,\n2,3,False,\n");
  table_is("name,\"a, b\"\n\"x,\n\"\"y\"\"\",1\n", NULL, "name:t|a, b:i", "x,\n\"y\",1,\n");
  table_is("new\ntrue\nfalse\n", NULL, "new:b", "0,\n1,\n");
  table_is("id,name\n", NULL, "id:t|name:t", "");
  table_is("\xef\xbb\xbfid,n\n2,1\n", NULL, "id:i|n:i", "2,1,\n");
}

static void a_key_comes_first(void) {
  static const char people[] = "name,age,mail,new\nAnn,40,b@x,true\nBob,50,a@x,false\n";
  const char *mail[] = {"mail"}, *two[] = {"age", "name"}, *all[] = {"new", "mail", "age", "name"};
  pdt_plain by_mail = with_key(mail, 1), by_two = with_key(two, 2), by_all = with_key(all, 4), first = with_key(NULL, 0);
  table_is(people, &by_mail, "mail:t|name:t,age:i,new:b", "a@x,Bob,50,0,\nb@x,Ann,40,1,\n");
  table_is(people, &by_two, "age:i,name:t|mail:t,new:b", "40,Ann,b@x,1,\n50,Bob,a@x,0,\n");
  table_is(people, &by_all, "new:b,mail:t,age:i,name:t", "0,a@x,50,Bob,\n1,b@x,40,Ann,\n");
  table_is(people, &first, "name:t|age:i,mail:t,new:b", "Ann,40,b@x,1,\nBob,50,a@x,0,\n");
}

static void a_sample_shows_types(void) {
  pdt_plain one = with_sample(1), two = with_sample(2), most = with_sample(SIZE_MAX);
  table_is("id,a\n1,5\n2,6\n", &one, "id:i|a:i", "1,5,\n2,6,\n");
  table_is("id,a\n1,5\n2,x\n", &two, "id:i|a:t", "1,5,\n2,x,\n");
  table_is("id,a\n1,5\n2,x\n", &most, "id:i|a:t", "1,5,\n2,x,\n");
}

/* ---- faults */

static void refused_bytes(const char *csv, size_t bytes, const pdt_plain *plain, uint64_t record, uint64_t column, const char *cause) {
  pdt_table *table = (pdt_table *)&table;
  pdt_fault fault = {{77, 77}, NULL};
  is("refused", PDT_BAD_TABLE, pdt_open_plain(csv, bytes, plain, NULL, &fault, &table));
  is("no table", 1, table == NULL);
  bool same = fault.place.row == record && fault.place.column == column && fault.cause && !strcmp(cause, fault.cause);
  if (same) return;
  failures++;
  fprintf(stderr, "%.60s\n  wanted %llu %llu %s\n  found  %llu %llu %s\n", csv, (unsigned long long)record, (unsigned long long)column,
          cause, (unsigned long long)fault.place.row, (unsigned long long)fault.place.column, fault.cause ? fault.cause : "nothing");
}
static void refused(const char *csv, const pdt_plain *plain, uint64_t record, uint64_t column, const char *cause) {
  refused_bytes(csv, strlen(csv), plain, record, column, cause);
}

static const char no_value[] = "the cell is no value of the column's type";
static const char no_name[] = "the cell isn't a name of 1 to 64 bytes without a colon";
static const char no_column[] = "no column has this name of the key, or the key has it twice";

static void faults_have_places(void) {
  pdt_plain one = with_sample(1);
  refused("", NULL, 1, 0, "there is no header");
  refused("id,a\n1,5\n2,x\n", &one, 3, 1, no_value);
  refused("id,a\n1,5\n2,\n", &one, 3, 1, no_value);
  refused("id,a\n1,5\n2\n", &one, 3, 0, "the record has not as many cells as the header");
  refused("id,a\n1,5,6\n2,3\n", NULL, 2, 0, "the record has not as many cells as the header");
  refused("id,a\n1,5\n2,6\n1,7\n", NULL, 4, 0, "the key is that of an earlier record");
  refused("id,id:int\n1,2\n", NULL, 1, 1, no_name);
  refused("id,\n1,2\n", NULL, 1, 1, no_name);
  refused("id,\xff\n1,2\n", NULL, 1, 1, no_name);
  refused("id,a,b,a\n1,2,3,4\n", NULL, 1, 3, "the column has the name of an earlier one");
  refused("id,a\n1,\xff\n", NULL, 2, 1, "the text is not UTF-8");
  char name[70] = "";
  memset(name, 'n', 65);
  strcat(name, "\n");
  refused(name, NULL, 1, 0, no_name);
  static char text[4200] = "id,a\nk,";
  memset(text + 7, 't', 4097);
  refused(text, NULL, 2, 1, "the text has more than 4,096 bytes");
}

static void keys_are_refused(void) {
  static const char csv[] = "a,b,c,d,e,f\n1,2,3,4,5,6\n";
  const char *none[] = {"a", "x", "b"}, *twice[] = {"b", "a", "b"}, *five[] = {"a", "b", "c", "d", "e"}, *empty[] = {""},
             *null[] = {"a", NULL};
  pdt_plain of_none = with_key(none, 3), of_twice = with_key(twice, 3), of_five = with_key(five, 5), of_empty = with_key(empty, 1);
  refused(csv, &of_none, 1, 1, no_column);
  refused(csv, &of_twice, 1, 0, no_column);
  refused(csv, &of_empty, 1, 0, no_column);
  refused(csv, &of_five, 1, 0, "the key has no column, or more than 4");
  pdt_table *table = (pdt_table *)&table;
  pdt_plain of_null = with_key(null, 2), unset = {0}, missing = with_key(NULL, 1), small = {.size = sizeof(size_t)};
  is("a name that is null", PDT_MISUSE, pdt_open_plain(csv, sizeof csv - 1, &of_null, NULL, NULL, &table));
  is("no table", 1, table == NULL);
  is("names that are null", PDT_MISUSE, pdt_open_plain(csv, sizeof csv - 1, &missing, NULL, NULL, &table));
  is("no size", PDT_MISUSE, pdt_open_plain(csv, sizeof csv - 1, &unset, NULL, NULL, &table));
  is("a small size", PDT_MISUSE, pdt_open_plain(csv, sizeof csv - 1, &small, NULL, NULL, &table));
  is("no text", PDT_MISUSE, pdt_open_plain(NULL, 1, NULL, NULL, NULL, &table));
  is("no place for it", PDT_MISUSE, pdt_open_plain(csv, sizeof csv - 1, NULL, NULL, NULL, NULL));
  pdt_options limit = {.size = sizeof limit, .row_limit = 1}, bad = {.size = sizeof bad, .recent = 70000};
  is("too many rows", PDT_TOO_MANY_ROWS, pdt_open_plain("a\n1\n2\n", 6, NULL, &limit, NULL, &table));
  is("a bad limit", PDT_BAD_LIMIT, pdt_open_plain("a\n1\n2\n", 6, NULL, &bad, NULL, &table));
}

/* Columns beyond what a table may have are refused by the header, without room for cells of each. */
static void wide_texts_are_refused(void) {
  char *text = malloc(12 * MANY), *end = text;
  end += sprintf(end, "c0");
  for (int column = 1; column < MANY; column++) end += sprintf(end, ",c%d", column);
  end += sprintf(end, "\n1");
  for (int column = 1; column < MANY; column++) end += sprintf(end, ",%d", column % 10);
  end += sprintf(end, "\n");
  refused_bytes(text, (size_t)(end - text), NULL, 1, PDT_MAX_COLUMNS, "the header has more than 32 columns");
  end = text;
  for (int column = 0; column < PDT_MAX_COLUMNS; column++) end += sprintf(end, "%sc%d", column ? "," : "", column);
  size_t header = (size_t)(end - text);
  pdt_table *table = NULL;
  is("32 columns", PDT_OK, pdt_open_plain(text, header, NULL, NULL, NULL, &table));
  is("close", PDT_OK, pdt_close(table));
  end += sprintf(end, ",last");
  refused_bytes(text, (size_t)(end - text), NULL, 1, PDT_MAX_COLUMNS, "the header has more than 32 columns");
  free(text);
}

/* A million records of ints, and one with a word. */
static void a_type_may_change_late(void) {
  char *text = malloc(20 * MANY), *end = text;
  end += sprintf(end, "id,amount\n");
  for (int row = 1; row < MANY; row++) end += sprintf(end, "%d,%d\n", row, row % 1000);
  size_t ints = (size_t)(end - text);
  end += sprintf(end, "%d,many\n", MANY);
  refused_bytes(text, (size_t)(end - text), NULL, MANY + 1, 1, no_value);
  pdt_table *table = NULL;
  is("open ints", PDT_OK, pdt_open_plain(text, ints, NULL, NULL, NULL, &table));
  columns_are("id:i|amount:i", table);
  is("close", PDT_OK, pdt_close(table));
  pdt_plain all = with_sample(MANY);
  is("open texts", PDT_OK, pdt_open_plain(text, (size_t)(end - text), &all, NULL, NULL, &table));
  columns_are("id:i|amount:t", table);
  is("close", PDT_OK, pdt_close(table));
  free(text);
}

/* ---- headers */

static void headers_are_told_apart(void) {
  static const struct {
    const char *csv;
    bool has;
  } cases[] = {{"", false},
               {"id,name\n1:2,3\n", false},
               {"id:int:key,name:text\n", true},
               {"id,name:text\n", true},
               {"id\n", false},
               {"\"a:b\"\n", true},
               {":\n", true},
               {"\n\nid,name:text", true},
               {"id,na me", false},
               {"\xff:", true}};
  for (size_t i = 0; i < sizeof cases / sizeof *cases; i++) {
    bool has = !cases[i].has;
    is("has types", PDT_OK, pdt_csv_has_types(cases[i].csv, strlen(cases[i].csv), &has));
    is(cases[i].csv, cases[i].has, has);
  }
  bool has = true;
  is("no text", PDT_OK, pdt_csv_has_types(NULL, 0, &has));
  is("of no text", false, has);
  is("null", PDT_MISUSE, pdt_csv_has_types(NULL, 3, &has));
  is("null", PDT_MISUSE, pdt_csv_has_types("id", 2, NULL));
}

/* ---- a database */

static void a_database_has_it(const char *folder) {
  static const char csv[] = "name,id\nAnn,7\nBob,3\n";
  const char *id[] = {"id"};
  pdt_plain by_id = with_key(id, 1);
  pdt_database *database = NULL;
  pdt_table *table = NULL;
  pdt_fault fault = {{77, 77}, NULL};
  is("open a database", PDT_OK, pdt_database_open(folder, NULL, &database, NULL));
  is("create", PDT_OK, pdt_table_create_plain(database, "people", csv, sizeof csv - 1, &by_id, NULL, NULL, &table));
  columns_are("id:i|name:t", table);
  is("create again", PDT_EXISTS, pdt_table_create_plain(database, "people", csv, sizeof csv - 1, &by_id, NULL, NULL, &table));
  is("no table", 1, table == NULL);
  is("create a bad one", PDT_BAD_TABLE, pdt_table_create_plain(database, "other", "a,a\n", 4, NULL, NULL, &fault, &table));
  is("its column", 1, (long long)fault.place.column);
  is("no name", PDT_TYPE_MISMATCH, pdt_table_create_plain(database, "", csv, sizeof csv - 1, NULL, NULL, NULL, &table));
  is("no database", PDT_MISUSE, pdt_table_create_plain(NULL, "other", csv, sizeof csv - 1, NULL, NULL, NULL, &table));
  is("close", PDT_OK, pdt_database_close(database));
  is("open it again", PDT_OK, pdt_database_open(folder, NULL, &database, NULL));
  is("its table", PDT_OK, pdt_table_open(database, "people", &table));
  columns_are("id:i|name:t", table);
  rows_are("3,Bob,\n7,Ann,\n", table);
  is("close", PDT_OK, pdt_database_close(database));
}

int main(int argc, char **argv) {
  if (argc != 2) return fprintf(stderr, "plain FOLDER\n"), 2;
  types_are_found();
  a_key_comes_first();
  a_sample_shows_types();
  faults_have_places();
  keys_are_refused();
  wide_texts_are_refused();
  a_type_may_change_late();
  headers_are_told_apart();
  a_database_has_it(argv[1]);
  return failures ? 1 : 0;
}
