/* Refused writes keep no memory, as many as a transaction asks for, before and after a mark; and those that are done stay. */
#include <malloc.h>
#include <pdt.h>
#include <stdio.h>
#include <string.h>

enum { TIMES = 100000, MOST = 16384 };

static int failures;
static void is(const char *what, long long wanted, long long found) {
  if (wanted == found) return;
  if (failures++ < 10) fprintf(stderr, "%s: wanted %lld, found %lld\n", what, wanted, found);
}

static size_t used(void) {
  struct mallinfo2 all = mallinfo2();
  return all.uordblks + all.hblkhd;
}

static void refuses(pdt_txn *txn) {
  int64_t missing = 500, there[] = {1, 1, 2}, above[] = {9, 1, 2};
  for (int i = 0; i < TIMES; i++) {
    is("delete", PDT_MISSING, pdt_delete(txn, &missing, NULL, 0));
    is("insert", PDT_DUPLICATE, pdt_insert(txn, there, "ab", 2));
    is("insert past the limit", PDT_FULL, pdt_insert(txn, above, "ab", 2));
    is("set", PDT_MISSING, pdt_set(txn, &missing, NULL, 0, 1, 7, NULL));
  }
}

static void has(pdt_txn *txn, int64_t key, int64_t wanted) {
  int64_t row[3] = {0, 0, 0};
  char text[8];
  size_t bytes = 0;
  is("get", PDT_OK, pdt_get(txn, &key, NULL, 0, row, text, sizeof text, &bytes));
  is("a cell", wanted, row[1]);
}

int main(void) {
  const char *csv = "id:int:key,q:int,name:text\n1,7,one\n2,2,two\n";
  pdt_options options = {.size = sizeof options, .row_limit = 2};
  pdt_table *table = NULL;
  pdt_txn *txn = NULL;
  is("open", PDT_OK, pdt_open(csv, strlen(csv), &options, &table));
  is("begin", PDT_OK, pdt_begin(table, &txn));
  int64_t one = 1;
  is("set", PDT_OK, pdt_set(txn, &one, NULL, 0, 1, 70, NULL));
  size_t before = used();
  refuses(txn);
  size_t level = 0;
  is("mark", PDT_OK, pdt_savepoint(txn, &level));
  refuses(txn);
  is("kept", 0, used() > before + MOST);
  is("set", PDT_OK, pdt_set(txn, &one, NULL, 0, 1, 80, NULL));
  has(txn, 1, 80);
  is("back", PDT_OK, pdt_rollback_to(txn, level));
  has(txn, 1, 70);
  uint64_t number = 0;
  is("commit", PDT_OK, pdt_commit(txn, &number));
  is("number", 1, (long long)number);
  is("begin", PDT_OK, pdt_begin(table, &txn));
  has(txn, 1, 70);
  pdt_abort(txn);
  is("close", PDT_OK, pdt_close(table));
  return failures ? 1 : 0;
}
