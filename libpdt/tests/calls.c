/* Each call once where it succeeds, and once for each code that it can refuse with. Those of pins, of the change feed and of counts have
   tests of their own. */
#define _POSIX_C_SOURCE 200809L
#include <errno.h>
#include <pdt.h>
#include <stdio.h>
#include <stdlib.h>
#include <string.h>
#include <unistd.h>

static int failures;
static void is(const char *what, long long wanted, long long found) {
  if (wanted == found) return;
  failures++;
  fprintf(stderr, "%s: wanted %lld, found %lld\n", what, wanted, found);
}
static void same(const char *what, const void *wanted, const void *found, size_t len) {
  if (!memcmp(wanted, found, len)) return;
  failures++;
  fprintf(stderr, "%s: other bytes\n", what);
}

static const char csv[] = "id:int:key,name:text,ok:bool,qty:int\n30,Cid,true,3\n10,\"Ann, Jr\",false,1\n20,Bob,true,2\n";
static const char many[] = "id:int:key,qty:int\n";

static pdt_table *opened(const pdt_options *options) {
  pdt_table *table = NULL;
  is("open", PDT_OK, pdt_open(csv, sizeof csv - 1, options, &table));
  return table;
}
static pdt_txn *begun(pdt_table *table) {
  pdt_txn *txn = NULL;
  is("begin", PDT_OK, pdt_begin(table, &txn));
  return txn;
}
static uint64_t rows_of(pdt_txn *txn) {
  uint64_t rows = 0;
  is("rows", PDT_OK, pdt_rows(txn, &rows));
  return rows;
}

static void texts(void) {
  for (int code = PDT_OK; code <= PDT_READONLY; code++) {
    is("a text", 1, strcmp(pdt_code_text(code), "no such code") != 0);
    for (int other = PDT_OK; other < code; other++) is("another text", 1, strcmp(pdt_code_text(code), pdt_code_text(other)) != 0);
  }
  is("the last code", 0, strcmp(pdt_code_text(PDT_READONLY + 1), "no such code"));
  is("no such code", 0, strcmp(pdt_code_text(-1), "no such code"));
  is("no such code", 0, strcmp(pdt_code_text(1000), "no such code"));
  is("the version that runs is that of the header", 0, strcmp(PDT_VERSION, pdt_version()));
}

/* A sentence is true of each call that answers the code: it names what each of them may lack, or may have been given. */
static void shared_texts(void) {
  static const struct {
    int code;
    const char *word;
  } due[] = {{PDT_MISSING, "row"},        {PDT_MISSING, "table"},        {PDT_MISSING, "savepoint"}, {PDT_MISSING, "commit"},
             {PDT_MISSING, "wait"},       {PDT_EXISTS, "table"},         {PDT_EXISTS, "file"},       {PDT_TYPE_MISMATCH, "cell"},
             {PDT_TYPE_MISMATCH, "name"}, {PDT_TYPE_MISMATCH, "format"}, {PDT_BAD_TABLE, "text"},    {PDT_BAD_TABLE, "columns"}};
  for (size_t i = 0; i < sizeof due / sizeof *due; i++) is(due[i].word, 1, strstr(pdt_code_text(due[i].code), due[i].word) != NULL);
}

static void openings(void) {
  pdt_table *table = (pdt_table *)&table;
  pdt_options one = {sizeof one, 1, 1, false}, bad = {sizeof bad, 65537, 0, false};
  is("no table", PDT_BAD_TABLE, pdt_open("", 0, NULL, &table));
  is("null after a refusal", 1, table == NULL);
  is("a bad cell", PDT_BAD_TABLE, pdt_open("id:int:key\nx\n", 13, NULL, &table));
  is("a repeated key", PDT_BAD_TABLE, pdt_open("id:int:key\n1\n1\n", 15, NULL, &table));
  is("too many rows", PDT_TOO_MANY_ROWS, pdt_open("id:int:key\n1\n2\n", 15, &one, &table));
  is("a bad limit", PDT_BAD_LIMIT, pdt_open(csv, sizeof csv - 1, &bad, &table));
  is("no text", PDT_MISUSE, pdt_open(NULL, 1, NULL, &table));
  is("nowhere to", PDT_MISUSE, pdt_open(csv, 1, NULL, NULL));
  table = opened(NULL);
  is("columns", 4, (long long)pdt_columns(table));
  is("key columns", 1, (long long)pdt_key_columns(table));
  is("type", PDT_INT, pdt_column_type(table, 0));
  is("type", PDT_TEXT, pdt_column_type(table, 1));
  is("type", PDT_BOOL, pdt_column_type(table, 2));
  is("no type", 0, pdt_column_type(table, 4));
  is("name", 0, strcmp(pdt_column_name(table, 3), "qty"));
  is("no name", 1, pdt_column_name(table, 4) == NULL);
  is("columns of null", 0, (long long)pdt_columns(NULL));
  pdt_txn *txn = begun(table);
  is("close too soon", PDT_MISUSE, pdt_close(table));
  pdt_abort(txn);
  pdt_abort(NULL);
  is("close", PDT_OK, pdt_close(table));
  is("close null", PDT_OK, pdt_close(NULL));
}

/* The first fault of a text is told by a sentence, the record, which counts from 1 with the header, and the column. */
static void faults(void) {
  static const char heading[] = "the cell isn't a name of 1 to 64 bytes, a colon and a type, or it is a key column after one that is not";
  const struct {
    const char *text, *cause;
    uint64_t row, column;
  } cases[] = {
      {"", "there is no header", 1, 0},
      {"id:int:key,qty\n", heading, 1, 1},
      {"qty:int,id:int:key\n", heading, 1, 1},
      {"qty:int\n", "the key has no column, or more than 4", 1, 0},
      {"id:int:key,a:int,id:bool\n", "the column has the name of an earlier one", 1, 2},
      {"id:int:key,qty:int\n1,2\n3\n", "the record has not as many cells as the header", 3, 0},
      {"id:int:key,qty:int\n1,2\n3,4\n5,6,7\n", "the record has not as many cells as the header", 4, 0},
      {"id:int:key,name:text\n1,\xff\n", "the text is not UTF-8", 2, 1},
      {"id:int:key,ok:bool\n1,true\n2,yes\n", "the cell is no value of the column's type", 3, 1},
      {"id:int:key,qty:int\nx,y\n", "the cell is no value of the column's type", 2, 0},
      {"id:int:key\n1\n2\n1\n2\n", "the key is that of an earlier record", 4, 0},
  };
  pdt_table *table = NULL;
  for (size_t i = 0; i < sizeof cases / sizeof *cases; i++) {
    pdt_fault fault = {{99, 99}, NULL};
    is(cases[i].text, PDT_BAD_TABLE, pdt_open_csv(cases[i].text, strlen(cases[i].text), NULL, &fault, &table));
    is("null after a refusal", 1, table == NULL);
    is(cases[i].text, (long long)cases[i].row, (long long)fault.place.row);
    is(cases[i].text, (long long)cases[i].column, (long long)fault.place.column);
    is(cases[i].text, 0, fault.cause ? strcmp(cases[i].cause, fault.cause) : 1);
    is("with nowhere to tell it", PDT_BAD_TABLE, pdt_open_csv(cases[i].text, strlen(cases[i].text), NULL, NULL, &table));
  }
  static char wide[1024], deep[5000] = "id:int:key,name:text\n1,";
  sprintf(wide, "c0:int:key");
  for (int column = 1; column < 33; column++) sprintf(wide + strlen(wide), ",c%d:int", column);
  memset(deep + strlen(deep), 'a', 4097);
  pdt_fault fault;
  is("33 columns", PDT_BAD_TABLE, pdt_open_csv(wide, strlen(wide), NULL, &fault, &table));
  is("33 columns", 0, strcmp("the header has more than 32 columns", fault.cause));
  is("the first too many", 32, (long long)fault.place.column);
  is("a long text", PDT_BAD_TABLE, pdt_open_csv(deep, strlen(deep), NULL, &fault, &table));
  is("a long text", 0, strcmp("the text has more than 4,096 bytes", fault.cause));
  is("its record", 2, (long long)fault.place.row);
  is("a table", PDT_OK, pdt_open_csv(csv, sizeof csv - 1, NULL, &fault, &table));
  is("close", PDT_OK, pdt_close(table));
  is("nowhere to", PDT_MISUSE, pdt_open_csv(csv, 1, NULL, &fault, NULL));
}

static void writes(void) {
  pdt_table *table = opened(NULL);
  pdt_txn *txn = begun(table);
  int64_t row[] = {40, 3, 1, 4}, key = 20, none = 99;
  is("insert", PDT_OK, pdt_insert(txn, row, "Dee", 3));
  is("insert again", PDT_DUPLICATE, pdt_insert(txn, row, "Dee", 3));
  row[0] = 50;
  is("bytes left over", PDT_TYPE_MISMATCH, pdt_insert(txn, row, "Deed", 4));
  is("bytes that lack", PDT_TYPE_MISMATCH, pdt_insert(txn, row, "De", 2));
  is("no UTF-8", PDT_TYPE_MISMATCH, pdt_insert(txn, row, "\xff\xfe\xfd", 3));
  row[1] = -1;
  is("a negative length", PDT_TYPE_MISMATCH, pdt_insert(txn, row, "Dee", 3));
  row[1] = INT64_MAX;
  is("a great length", PDT_TYPE_MISMATCH, pdt_insert(txn, row, "Dee", 3));
  row[1] = 3, row[2] = 2;
  is("no boolean", PDT_TYPE_MISMATCH, pdt_insert(txn, row, "Dee", 3));
  row[2] = 1, row[1] = 4097;
  char *text = calloc(1, 4097);
  is("a long text", PDT_TYPE_MISMATCH, pdt_insert(txn, row, text, 4097));
  row[1] = 4096;
  memset(text, 'a', 4096);
  is("the longest text", PDT_OK, pdt_insert(txn, row, text, 4096));
  free(text);
  is("rows", 5, (long long)rows_of(txn));
  is("set", PDT_OK, pdt_set(txn, &key, NULL, 0, 3, 22, NULL));
  is("set a text", PDT_OK, pdt_set(txn, &key, NULL, 0, 1, 5, "Robin"));
  is("set no row", PDT_MISSING, pdt_set(txn, &none, NULL, 0, 3, 1, NULL));
  is("set the key", PDT_TYPE_MISMATCH, pdt_set(txn, &key, NULL, 0, 0, 21, NULL));
  is("set no column", PDT_TYPE_MISMATCH, pdt_set(txn, &key, NULL, 0, 4, 21, NULL));
  is("set a negative text", PDT_TYPE_MISMATCH, pdt_set(txn, &key, NULL, 0, 1, -5, "Robin"));
  is("set no text", PDT_MISUSE, pdt_set(txn, &key, NULL, 0, 1, 5, NULL));
  is("delete", PDT_OK, pdt_delete(txn, &key, NULL, 0));
  is("delete again", PDT_MISSING, pdt_delete(txn, &key, NULL, 0));
  is("a key with bytes", PDT_TYPE_MISMATCH, pdt_delete(txn, &key, "x", 1));
  is("insert of null", PDT_MISUSE, pdt_insert(txn, NULL, NULL, 0));
  is("insert into null", PDT_MISUSE, pdt_insert(NULL, row, NULL, 0));
  is("delete of null", PDT_MISUSE, pdt_delete(txn, NULL, NULL, 0));
  pdt_abort(txn);
  txn = begun(table);
  is("an abort leaves nothing", 3, (long long)rows_of(txn));
  pdt_abort(txn);
  pdt_options few = {sizeof few, 0, 3, false};
  pdt_table *full = opened(&few);
  txn = begun(full);
  row[1] = 3;
  is("full", PDT_FULL, pdt_insert(txn, row, "Dee", 3));
  pdt_abort(txn);
  pdt_close(full);
  pdt_close(table);
}

static long long qty_of(pdt_txn *txn, int64_t key) {
  int64_t numbers[4];
  char out[64];
  is("get", PDT_OK, pdt_get(txn, &key, NULL, 0, numbers, out, sizeof out, NULL));
  return (long long)numbers[3];
}

/* Marks nest; going back keeps the mark and drops those after it; a release keeps the writes; a commit has what is left. */
static void marks(void) {
  pdt_table *table = opened(NULL);
  pdt_txn *txn = begun(table);
  int64_t dee[] = {40, 3, 1, 4}, eve[] = {50, 3, 0, 5}, bob = 20, ann = 10;
  size_t level = 9;
  is("no mark", PDT_MISSING, pdt_rollback_to(txn, 0));
  is("no mark", PDT_MISSING, pdt_release(txn, 0));
  is("mark", PDT_OK, pdt_savepoint(txn, &level));
  is("the first level", 0, (long long)level);
  is("insert", PDT_OK, pdt_insert(txn, dee, "Dee", 3));
  is("mark", PDT_OK, pdt_savepoint(txn, &level));
  is("the second level", 1, (long long)level);
  is("set", PDT_OK, pdt_set(txn, &bob, NULL, 0, 3, 22, NULL));
  is("delete", PDT_OK, pdt_delete(txn, &ann, NULL, 0));
  is("rows", 3, (long long)rows_of(txn));
  is("back", PDT_OK, pdt_rollback_to(txn, 1));
  is("rows", 4, (long long)rows_of(txn));
  is("a set that is undone", 2, qty_of(txn, bob));
  is("a delete that is undone", 1, qty_of(txn, ann));
  is("insert", PDT_OK, pdt_insert(txn, eve, "Eve", 3));
  is("back once more", PDT_OK, pdt_rollback_to(txn, 1));
  is("rows", 4, (long long)rows_of(txn));
  is("back where nothing was written", PDT_OK, pdt_rollback_to(txn, 1));
  is("the older mark", PDT_OK, pdt_rollback_to(txn, 0));
  is("rows", 3, (long long)rows_of(txn));
  is("the younger one is gone", PDT_MISSING, pdt_rollback_to(txn, 1));
  is("the younger one is gone", PDT_MISSING, pdt_release(txn, 1));
  is("no such level", PDT_MISSING, pdt_rollback_to(txn, SIZE_MAX));
  is("an insert that was undone", PDT_OK, pdt_insert(txn, dee, "Dee", 3));
  is("mark", PDT_OK, pdt_savepoint(txn, &level));
  is("its level", 1, (long long)level);
  is("set", PDT_OK, pdt_set(txn, &bob, NULL, 0, 3, 7, NULL));
  is("release", PDT_OK, pdt_release(txn, 0));
  is("both are gone", PDT_MISSING, pdt_rollback_to(txn, 0));
  is("the writes stay", 7, qty_of(txn, bob));
  is("mark", PDT_OK, pdt_savepoint(txn, &level));
  is("levels begin anew", 0, (long long)level);
  is("delete", PDT_OK, pdt_delete(txn, &bob, NULL, 0));
  is("back", PDT_OK, pdt_rollback_to(txn, 0));
  is("mark of null", PDT_MISUSE, pdt_savepoint(NULL, &level));
  is("mark to nowhere", PDT_MISUSE, pdt_savepoint(txn, NULL));
  is("back of null", PDT_MISUSE, pdt_rollback_to(NULL, 0));
  is("release of null", PDT_MISUSE, pdt_release(NULL, 0));
  is("commit", PDT_OK, pdt_commit(txn, NULL));
  pdt_sizes sizes;
  is("size", PDT_OK, pdt_size(table, &sizes));
  is("an insert and a set", 2, (long long)sizes.write_entries);
  txn = begun(table);
  is("rows", 4, (long long)rows_of(txn));
  is("what was committed", 7, qty_of(txn, bob));
  is("mark", PDT_OK, pdt_savepoint(txn, &level));
  is("an end with a mark", PDT_OK, pdt_insert(txn, eve, "Eve", 3));
  pdt_abort(txn);
  pdt_close(table);
}

static void sets(pdt_table *table, int64_t key, int64_t qty) {
  pdt_txn *txn = begun(table);
  is("set", PDT_OK, pdt_set(txn, &key, NULL, 0, 3, qty, NULL));
  is("commit", PDT_OK, pdt_commit(txn, NULL));
}

/* What changes nothing ends as by an abort, however old it is: it takes no number, and keeps no lock. */
static void idle(void) {
  pdt_options one = {sizeof one, 1, 0, false};
  pdt_table *table = opened(&one);
  sets(table, 10, 5);
  pdt_txn *a = begun(table), *b = begun(table), *c = begun(table), *d = begun(table), *e = begun(table);
  int64_t bob = 20, row[] = {40, 3, 1, 4};
  uint64_t number = 77;
  sets(table, 30, 6);
  sets(table, 30, 7);
  is("insert", PDT_OK, pdt_insert(a, row, "Dee", 3));
  is("delete what was inserted", PDT_OK, pdt_delete(a, row, NULL, 0));
  is("commit", PDT_OK, pdt_commit(a, &number));
  is("the number that it saw", 1, (long long)number);
  number = 77;
  is("prepare", PDT_OK, pdt_prepare(b, &number));
  is("the number that it saw", 1, (long long)number);
  is("once", PDT_MISUSE, pdt_prepare(b, &number));
  is("a commit of what is prepared", PDT_MISUSE, pdt_commit(b, &number));
  is("a write of what is prepared", PDT_MISUSE, pdt_set(b, &bob, NULL, 0, 3, 9, NULL));
  is("no lock is kept", PDT_OK, pdt_fold(table));
  is("install", PDT_OK, pdt_install(b));
  is("prepare", PDT_OK, pdt_prepare(c, NULL));
  is("give up", PDT_OK, pdt_give_up(c));
  is("once", PDT_MISUSE, pdt_give_up(c));
  is("it goes on", PDT_OK, pdt_set(c, &bob, NULL, 0, 3, 9, NULL));
  is("and is too old", PDT_TOO_OLD, pdt_commit(c, &number));
  is("number", 3, (long long)number);
  is("prepare", PDT_OK, pdt_prepare(d, NULL));
  pdt_abort(d);
  is("a set to what it was", PDT_OK, pdt_set(e, &bob, NULL, 0, 3, 2, NULL));
  is("is a change", PDT_TOO_OLD, pdt_commit(e, NULL));
  pdt_sizes sizes;
  is("size", PDT_OK, pdt_size(table, &sizes));
  is("commits", 3, (long long)sizes.commits);
  is("open", 0, (long long)sizes.open_transactions);
  is("close", PDT_OK, pdt_close(table));
}

static void commits(void) {
  pdt_options one = {sizeof one, 1, 0, false};
  pdt_table *table = opened(&one);
  pdt_txn *a = begun(table), *b = begun(table), *c = begun(table), *d = begun(table);
  int64_t key = 10, other = 20;
  uint64_t number = 77;
  is("set", PDT_OK, pdt_set(a, &key, NULL, 0, 3, 5, NULL));
  is("set", PDT_OK, pdt_set(b, &key, NULL, 0, 3, 6, NULL));
  is("commit", PDT_OK, pdt_commit(a, &number));
  is("number", 1, (long long)number);
  is("conflict", PDT_CONFLICT, pdt_commit(b, &number));
  is("number", 1, (long long)number);
  is("set", PDT_OK, pdt_set(c, &other, NULL, 0, 3, 6, NULL));
  is("another row", PDT_OK, pdt_commit(c, NULL));
  is("set", PDT_OK, pdt_set(d, &other, NULL, 0, 1, 3, "Rob"));
  is("too old", PDT_TOO_OLD, pdt_commit(d, &number));
  is("number", 2, (long long)number);
  is("commit null", PDT_MISUSE, pdt_commit(NULL, NULL));
  is("begin in null", PDT_MISUSE, pdt_begin(NULL, &a));
  is("begin to nowhere", PDT_MISUSE, pdt_begin(table, NULL));
  pdt_sizes sizes;
  is("size", PDT_OK, pdt_size(table, &sizes));
  is("commits", 2, (long long)sizes.commits);
  is("write entries", 2, (long long)sizes.write_entries);
  is("fold", PDT_OK, pdt_fold(table));
  is("size", PDT_OK, pdt_size(table, &sizes));
  is("write entries", 0, (long long)sizes.write_entries);
  is("read entries", 2, (long long)sizes.read_entries);
  is("open", 0, (long long)sizes.open_transactions);
  a = begun(table);
  is("cut", PDT_OK, pdt_trim(table));
  is("set", PDT_OK, pdt_set(a, &key, NULL, 0, 3, 5, NULL));
  is("after a trim at its number", PDT_OK, pdt_commit(a, &number));
  is("numbers go on", 3, (long long)number);
  a = begun(table);
  b = begun(table);
  is("set", PDT_OK, pdt_set(b, &other, NULL, 0, 3, 7, NULL));
  is("commit", PDT_OK, pdt_commit(b, NULL));
  is("cut", PDT_OK, pdt_trim(table));
  is("a read after a trim", 5, qty_of(a, 10));
  is("set", PDT_OK, pdt_set(a, &key, NULL, 0, 3, 6, NULL));
  is("a commit came before the trim", PDT_TOO_OLD, pdt_commit(a, &number));
  is("number", 4, (long long)number);
  a = begun(table);
  b = begun(table);
  is("cut", PDT_OK, pdt_trim(table));
  is("set", PDT_OK, pdt_set(b, &other, NULL, 0, 3, 8, NULL));
  is("commit", PDT_OK, pdt_commit(b, NULL));
  is("set", PDT_OK, pdt_set(a, &key, NULL, 0, 3, 9, NULL));
  is("a commit came after the trim", PDT_OK, pdt_commit(a, NULL));
  is("fold null", PDT_MISUSE, pdt_fold(NULL));
  is("cut null", PDT_MISUSE, pdt_trim(NULL));
  is("size null", PDT_MISUSE, pdt_size(table, NULL));
  pdt_close(table);
}

static void reads(void) {
  pdt_table *table = opened(NULL);
  pdt_txn *txn = begun(table);
  int64_t key = 10, none = 15, numbers[4], qty[8];
  char out[64];
  size_t needed = 0, count = 8, bytes = 0;
  uint64_t below = 9, in_them = 0;
  bool there = false;
  pdt_int_span spans[8];
  is("set", PDT_OK, pdt_set(txn, &none, NULL, 0, 3, 1, NULL) == PDT_MISSING ? PDT_OK : 1);
  is("get", PDT_OK, pdt_get(txn, &key, NULL, 0, numbers, out, sizeof out, &needed));
  int64_t ann[] = {10, 7, 0, 1};
  same("its numbers", ann, numbers, sizeof ann);
  is("its bytes", 7, (long long)needed);
  same("its text", "Ann, Jr", out, 7);
  is("exact room", PDT_OK, pdt_get(txn, &key, NULL, 0, numbers, out, 7, &needed));
  is("small room", PDT_TOO_SMALL, pdt_get(txn, &key, NULL, 0, numbers, out, 6, &needed));
  is("what would do", 7, (long long)needed);
  is("no room", PDT_TOO_SMALL, pdt_get(txn, &key, NULL, 0, numbers, NULL, 0, &needed));
  is("no row", PDT_MISSING, pdt_get(txn, &none, NULL, 0, numbers, out, sizeof out, &needed));
  is("row at", PDT_OK, pdt_row_at(txn, 2, numbers, out, sizeof out, NULL));
  int64_t cid[] = {30, 3, 1, 3};
  same("its numbers", cid, numbers, sizeof cid);
  same("its text", "Cid", out, 3);
  is("past the end", PDT_MISSING, pdt_row_at(txn, 3, numbers, out, sizeof out, NULL));
  is("far past the end", PDT_MISSING, pdt_row_at(txn, UINT64_MAX, numbers, out, sizeof out, NULL));
  is("rank", PDT_OK, pdt_rank(txn, &none, NULL, 0, &below, &there));
  is("below", 1, (long long)below);
  is("there", 0, there);
  is("rank", PDT_OK, pdt_rank(txn, &key, NULL, 0, &below, &there));
  is("below", 0, (long long)below);
  is("there", 1, there);
  union {
    int64_t key;
    uint64_t below;
  } both = {30};
  is("rank into its key's room", PDT_OK, pdt_rank(txn, &both.key, NULL, 0, &both.below, &there));
  is("below", 2, (long long)both.below);
  is("there", 1, there);
  is("set", PDT_OK, pdt_set(txn, (int64_t[]){20}, NULL, 0, 3, 22, NULL));
  is("ints", PDT_OK, pdt_ints(txn, 3, 0, qty, &count));
  is("how many", 3, (long long)count);
  int64_t all[] = {1, 22, 3};
  same("which", all, qty, sizeof all);
  count = 1;
  is("ints from", PDT_OK, pdt_ints(txn, 3, 1, qty, &count));
  is("how many", 1, (long long)count);
  is("which", 22, (long long)qty[0]);
  count = 8;
  is("ints of a text column", PDT_OK, pdt_ints(txn, 1, 0, qty, &count));
  is("none", 0, (long long)count);
  count = 8;
  is("ints of no column", PDT_OK, pdt_ints(txn, 9, 0, qty, &count));
  is("none", 0, (long long)count);
  uint8_t booleans[8] = {9, 9, 9, 9};
  count = 8;
  is("bools", PDT_OK, pdt_bools(txn, 2, 0, booleans, &count));
  is("how many", 3, (long long)count);
  same("which, and no more", (uint8_t[]){0, 1, 1, 9}, booleans, 4);
  count = 1;
  is("bools from", PDT_OK, pdt_bools(txn, 2, 1, booleans, &count));
  is("how many", 1, (long long)count);
  same("which, and no more", (uint8_t[]){1, 1, 1, 9}, booleans, 4);
  is("set", PDT_OK, pdt_set(txn, &key, NULL, 0, 2, 1, NULL));
  count = 8;
  is("bools", PDT_OK, pdt_bools(txn, 2, 0, booleans, &count));
  same("with its own write", (uint8_t[]){1, 1, 1, 9}, booleans, 4);
  is("set", PDT_OK, pdt_set(txn, &(int64_t){30}, NULL, 0, 2, 0, NULL));
  is("bools", PDT_OK, pdt_bools(txn, 2, 0, booleans, &count));
  same("with both", (uint8_t[]){1, 1, 0, 9}, booleans, 4);
  is("set back", PDT_OK, pdt_set(txn, &key, NULL, 0, 2, 0, NULL));
  is("set back", PDT_OK, pdt_set(txn, &(int64_t){30}, NULL, 0, 2, 1, NULL));
  for (size_t column = 0; column < 10; column++) {
    count = column == 2 ? 0 : 8;
    is("bools of another column, or no room", PDT_OK, pdt_bools(txn, column, 0, column == 2 ? NULL : booleans, &count));
    is("none", 0, (long long)count);
  }
  count = 8;
  is("bools past the end", PDT_OK, pdt_bools(txn, 2, 3, booleans, &count));
  is("none", 0, (long long)count);
  count = 8;
  is("bools to nowhere", PDT_MISUSE, pdt_bools(txn, 2, 0, NULL, &count));
  is("bools of null", PDT_MISUSE, pdt_bools(NULL, 2, 0, booleans, &count));
  is("bools, and no count", PDT_MISUSE, pdt_bools(txn, 2, 0, booleans, NULL));
  count = 8;
  is("cells", PDT_OK, pdt_cells(txn, 1, 0, qty, &count, out, sizeof out, &bytes));
  is("how many", 3, (long long)count);
  is("bytes", 13, (long long)bytes);
  same("texts", "Ann, JrBobCid", out, 13);
  int64_t lengths[] = {7, 3, 3};
  same("lengths", lengths, qty, sizeof lengths);
  count = 8;
  is("cells in small room", PDT_OK, pdt_cells(txn, 1, 0, qty, &count, out, 9, &bytes));
  is("how many", 1, (long long)count);
  is("bytes", 7, (long long)bytes);
  count = 2;
  is("booleans", PDT_OK, pdt_cells(txn, 2, 1, qty, &count, NULL, 0, NULL));
  is("how many", 2, (long long)count);
  is("true", 1, (long long)(qty[0] && qty[1]));
  count = 8;
  is("cells past the end", PDT_OK, pdt_cells(txn, 2, 4, qty, &count, NULL, 0, NULL));
  is("none", 0, (long long)count);
  count = 8;
  is("pieces", PDT_OK, pdt_int_spans(txn, 3, 0, UINT64_MAX, spans, &count, &in_them));
  is("how many", 3, (long long)count);
  is("rows", 3, (long long)in_them);
  is("a stable one", 1, (long long)*spans[0].at);
  is("a changed one", 22, (long long)(spans[1].at ? 0 : spans[1].number));
  count = 0;
  is("no pieces", PDT_OK, pdt_int_spans(txn, 3, 0, 3, NULL, &count, NULL));
  is("none", 0, (long long)count);
  is("get null", PDT_MISUSE, pdt_get(txn, NULL, NULL, 0, numbers, out, sizeof out, NULL));
  is("rank null", PDT_MISUSE, pdt_rank(txn, &key, NULL, 0, NULL, &there));
  is("rows null", PDT_MISUSE, pdt_rows(txn, NULL));
  is("cells null", PDT_MISUSE, pdt_cells(txn, 0, 0, NULL, NULL, NULL, 0, NULL));
  is("ints null", PDT_MISUSE, pdt_ints(NULL, 0, 0, qty, &count));
  pdt_abort(txn);
  pdt_close(table);
}

static void tables(const char *room) {
  char folder[512], other[600];
  snprintf(folder, sizeof folder, "%s/one", room);
  snprintf(other, sizeof other, "mkdir -p '%s'", folder);
  is("mkdir", 0, system(other));
  pdt_table *table = opened(NULL), *again = NULL;
  pdt_txn *txn = begun(table);
  is("delete", PDT_OK, pdt_delete(txn, (int64_t[]){20}, NULL, 0));
  is("insert", PDT_OK, pdt_insert(txn, (int64_t[]){25, 2, 0, -4}, "\xc3\xa9", 2));
  is("commit", PDT_OK, pdt_commit(txn, NULL));
  is("nothing there", PDT_IO, pdt_recover(folder, NULL, &again));
  is("checkpoint", PDT_OK, pdt_checkpoint(table, folder));
  is("a second one", PDT_EXISTS, pdt_checkpoint(table, folder));
  is("no folder", PDT_IO, pdt_checkpoint(table, "/nowhere/at/all"));
  is("checkpoint null", PDT_MISUSE, pdt_checkpoint(table, NULL));
  is("recover", PDT_OK, pdt_recover(folder, NULL, &again));
  txn = begun(again);
  int64_t ids[4], numbers[4];
  char out[16];
  size_t count = 4, needed = 0;
  is("ids", PDT_OK, pdt_ints(txn, 0, 0, ids, &count));
  is("how many", 3, (long long)count);
  int64_t wanted[] = {10, 25, 30};
  same("which", wanted, ids, sizeof wanted);
  is("row", PDT_OK, pdt_row_at(txn, 1, numbers, out, sizeof out, &needed));
  int64_t row[] = {25, 2, 0, -4};
  same("its numbers", row, numbers, sizeof row);
  same("its text", "\xc3\xa9", out, 2);
  pdt_abort(txn);
  pdt_close(again);
  snprintf(other, sizeof other, "%s/column-1.pdt", folder);
  FILE *file = fopen(other, "r+b");
  if (file) fseek(file, 9, SEEK_SET), fputc('?', file), fclose(file);
  is("a damaged column", PDT_BAD_CHECKPOINT, pdt_recover(folder, NULL, &again));
  is("truncate", 0, truncate(other, 0));
  int code = pdt_recover(folder, NULL, &again);
  is("an empty column", 1, code == PDT_NO_CHECKPOINT || code == PDT_BAD_CHECKPOINT);
  is("recover null", PDT_MISUSE, pdt_recover(NULL, NULL, &again));
  pdt_close(table);
}

/* A failed checkpoint says why, and not how the taking away of its files went: as a rule no file can be made in /sys. */
static void causes(void) {
  if (access("/sys/kernel", F_OK)) return;
  pdt_table *table = opened(NULL);
  int code = pdt_checkpoint(table, "/sys"), cause = errno;
  if (code != PDT_OK) { /* some machine may let a file be made there */
    is("a checkpoint in /sys", PDT_IO, code);
    is("its cause", 1, cause == EACCES || cause == EROFS || cause == EPERM);
  }
  pdt_close(table);
}

/* Names with quotes, commas and zero bytes: two that differ behind a zero byte are two columns in a recovered table. */
static void names(const char *room) {
  static const char odd[] = "id:int:key,a\0b:int,a\0c:int,\"x,\"\"y\"\"\":text\n1,2,3,z\n";
  char folder[512], other[600];
  snprintf(folder, sizeof folder, "%s/names", room);
  snprintf(other, sizeof other, "mkdir -p '%s'", folder);
  is("mkdir", 0, system(other));
  pdt_table *table = NULL, *again = NULL;
  is("open", PDT_OK, pdt_open(odd, sizeof odd - 1, NULL, &table));
  is("checkpoint", PDT_OK, pdt_checkpoint(table, folder));
  is("recover", PDT_OK, pdt_recover(folder, NULL, &again));
  is("columns", 4, (long long)pdt_columns(again));
  if (again) is("name", 0, strcmp(pdt_column_name(again, 3), "x,\"y\""));
  pdt_close(again);
  pdt_close(table);
}

/* Rows over several blocks, with one in a hundred changed: copies and pieces say the same. */
static void scans(void) {
  enum { ROWS = 5000 };
  size_t room = ROWS * 24 + 64, len = 0;
  char *text = malloc(room);
  len += (size_t)sprintf(text, "%s", many);
  for (int i = 0; i < ROWS; i++) len += (size_t)sprintf(text + len, "%d,%d\n", 2 * i, i);
  pdt_table *table = NULL;
  is("open", PDT_OK, pdt_open(text, len, NULL, &table));
  free(text);
  pdt_txn *txn = begun(table);
  for (int i = 0; i < ROWS; i += 100) {
    is("set", PDT_OK, pdt_set(txn, (int64_t[]){2 * i}, NULL, 0, 1, -i, NULL));
    is("insert", PDT_OK, pdt_insert(txn, (int64_t[]){2 * i + 1, 7}, NULL, 0));
  }
  static int64_t qty[ROWS + 100], cells[ROWS + 100];
  static pdt_int_span spans[ROWS];
  size_t count = ROWS + 100, more = ROWS + 100, parts = ROWS, at = 0;
  uint64_t rows = 0;
  is("ints", PDT_OK, pdt_ints(txn, 1, 0, qty, &count));
  is("cells", PDT_OK, pdt_cells(txn, 1, 0, cells, &more, NULL, 0, NULL));
  is("pieces", PDT_OK, pdt_int_spans(txn, 1, 0, UINT64_MAX, spans, &parts, &rows));
  is("ints", ROWS + 50, (long long)count);
  is("cells", ROWS + 50, (long long)more);
  is("rows", ROWS + 50, (long long)rows);
  same("ints and cells", qty, cells, sizeof *qty * (ROWS + 50));
  for (size_t i = 0; i < parts; i++)
    for (uint64_t k = 0; k < spans[i].count; k++, at++)
      is("a piece", (long long)qty[at], (long long)(spans[i].at ? spans[i].at[k] : spans[i].number));
  is("all pieces", ROWS + 50, (long long)at);
  for (int i = 0, j = 0; i < ROWS; i++, j++) {
    is("a row", i % 100 ? i : -i, (long long)qty[j]);
    if (i % 100 == 0) is("an inserted row", 7, (long long)qty[++j]);
  }
  pdt_abort(txn);
  pdt_close(table);
}

/* An entry of a layer, worked out by hand. */
typedef struct {
  pdt_entry entry;
  int64_t numbers[4];
  const char *texts;
} shown;

static void layer_is(const char *what, pdt_layer *layer, const shown *wanted, size_t count) {
  is(what, (long long)count, (long long)pdt_layer_size(layer));
  for (size_t i = 0; i < count; i++) {
    const pdt_entry *due = &wanted[i].entry;
    pdt_entry entry;
    int64_t numbers[4];
    char texts[64];
    is(what, PDT_OK, pdt_entry_at(layer, i, &entry, numbers, texts, sizeof texts));
    is("sid", (long long)due->sid, (long long)entry.sid);
    is("rid", (long long)due->rid, (long long)entry.rid);
    is("kind", due->kind, entry.kind);
    is("column", (long long)due->column, (long long)entry.column);
    is("cells", (long long)due->cells, (long long)entry.cells);
    is("bytes", (long long)due->bytes, (long long)entry.bytes);
    same("numbers", wanted[i].numbers, numbers, due->cells * sizeof *numbers);
    same("texts", wanted[i].texts, texts, due->bytes);
  }
}

/* The stable rows are 10, 20 and 30. A first commit deletes 10 and inserts 15 and 25, and is folded; a second one sets two
   cells of 20, and one of 25; an open transaction deletes 15 and inserts 40. */
static const shown lower[] = {
    {{0, 0, 0, 1, 0, PDT_DELETE}, {10}, ""},
    {{1, 0, 0, 4, 3, PDT_INSERT}, {15, 3, 0, 5}, "Eve"},
    {{2, 2, 0, 4, 3, PDT_INSERT}, {25, 3, 1, 4}, "Dee"},
};
static const shown upper[] = {
    {{1, 1, 1, 1, 5, PDT_MODIFY}, {5}, "Robin"},
    {{1, 1, 2, 1, 0, PDT_MODIFY}, {0}, ""},
    {{2, 2, 3, 1, 0, PDT_MODIFY}, {-9}, ""},
};
static const shown own[] = {
    {{0, 0, 0, 1, 0, PDT_DELETE}, {15}, ""},
    {{4, 3, 0, 4, 0, PDT_INSERT}, {40, 0, 1, 0}, ""},
};

static void make_layers(pdt_table *table, pdt_txn **open) {
  int64_t ten = 10, fifteen = 15, twenty = 20, more = 25;
  int64_t eve[] = {15, 3, 0, 5}, dee[] = {25, 3, 1, 4}, last[] = {40, 0, 1, 0};
  pdt_txn *txn = begun(table);
  is("delete", PDT_OK, pdt_delete(txn, &ten, NULL, 0));
  is("insert", PDT_OK, pdt_insert(txn, eve, "Eve", 3));
  is("insert", PDT_OK, pdt_insert(txn, dee, "Dee", 3));
  is("commit", PDT_OK, pdt_commit(txn, NULL));
  is("fold", PDT_OK, pdt_fold(table));
  txn = begun(table);
  is("set", PDT_OK, pdt_set(txn, &more, NULL, 0, 3, -9, NULL));
  is("set", PDT_OK, pdt_set(txn, &twenty, NULL, 0, 2, 0, NULL));
  is("set", PDT_OK, pdt_set(txn, &twenty, NULL, 0, 1, 5, "Robin"));
  is("commit", PDT_OK, pdt_commit(txn, NULL));
  *open = begun(table);
  is("delete", PDT_OK, pdt_delete(*open, &fifteen, NULL, 0));
  is("insert", PDT_OK, pdt_insert(*open, last, NULL, 0));
}

static void layers(void) {
  pdt_table *table = opened(NULL);
  pdt_layer *read = (pdt_layer *)&table, *write = read, *txn_layer = read;
  is("layers of null", PDT_MISUSE, pdt_layers(NULL, &read, &write));
  is("both null then", 1, !read && !write);
  is("layers to nowhere", PDT_MISUSE, pdt_layers(table, &read, NULL));
  is("layers in one place", PDT_MISUSE, pdt_layers(table, &read, &read));
  is("own layer of null", PDT_MISUSE, pdt_own_layer(NULL, &txn_layer));
  is("null then", 1, txn_layer == NULL);
  is("layers of a new table", PDT_OK, pdt_layers(table, &read, &write));
  layer_is("no entries", read, NULL, 0);
  layer_is("no entries", write, NULL, 0);
  pdt_layer_close(read);
  pdt_layer_close(write);
  pdt_layer_close(NULL);
  is("size of null", 0, (long long)pdt_layer_size(NULL));

  pdt_txn *txn;
  make_layers(table, &txn);
  is("own layer to nowhere", PDT_MISUSE, pdt_own_layer(txn, NULL));
  is("layers", PDT_OK, pdt_layers(table, &read, &write));
  is("own layer", PDT_OK, pdt_own_layer(txn, &txn_layer));
  pdt_entry entry;
  int64_t numbers[4];
  char few[2];
  is("no room", PDT_TOO_SMALL, pdt_entry_at(read, 1, &entry, numbers, few, sizeof few));
  is("the room that would do", 3, (long long)entry.bytes);
  is("past the end", PDT_MISSING, pdt_entry_at(read, 3, &entry, numbers, few, sizeof few));
  is("far past the end", PDT_MISSING, pdt_entry_at(read, SIZE_MAX, &entry, numbers, few, sizeof few));
  is("an entry of null", PDT_MISUSE, pdt_entry_at(NULL, 0, &entry, numbers, few, sizeof few));
  is("an entry to nowhere", PDT_MISUSE, pdt_entry_at(read, 0, NULL, numbers, few, sizeof few));
  is("numbers to nowhere", PDT_MISUSE, pdt_entry_at(read, 0, &entry, NULL, few, sizeof few));
  is("texts to nowhere", PDT_MISUSE, pdt_entry_at(read, 0, &entry, numbers, NULL, 1));

  /* later calls leave them as they stood, and so does the end of their table */
  is("commit", PDT_OK, pdt_commit(txn, NULL));
  is("fold", PDT_OK, pdt_fold(table));
  is("close", PDT_OK, pdt_close(table));
  layer_is("the Read-PDT", read, lower, 3);
  layer_is("the Write-PDT", write, upper, 3);
  layer_is("its own", txn_layer, own, 2);
  pdt_layer_close(read);
  pdt_layer_close(write);
  pdt_layer_close(txn_layer);
}

int main(int argc, char **argv) {
  texts();
  shared_texts();
  openings();
  faults();
  writes();
  marks();
  commits();
  idle();
  reads();
  scans();
  layers();
  causes();
  if (argc > 1) tables(argv[1]), names(argv[1]);
  return failures ? 1 : 0;
}
