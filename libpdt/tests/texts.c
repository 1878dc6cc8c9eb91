/* The texts of a column where they lie: over several blocks, with rows that are changed, inserted and deleted, while others
   commit and fold, and where there are none. */
#include <pdt.h>
#include <stdio.h>
#include <stdlib.h>
#include <string.h>

static int failures;
static void is(const char *what, long long wanted, long long found) {
  if (wanted == found) return;
  failures++;
  fprintf(stderr, "%s: wanted %lld, found %lld\n", what, wanted, found);
}

enum { ROWS = 2500, MOST = ROWS + 100, ID = 0, NAME = 1, OK = 2 };

/* The texts of one call. */
typedef struct {
  const char *at[MOST];
  int64_t len[MOST];
  size_t count;
} views;
static views lent, again;

/* What is to be there, text by text. */
static char wanted[MOST][24];
static size_t rows;

/* The text of a row as the table is opened with it: every seventh is empty. */
static void name_of(int row, char *name) {
  if (row % 7) sprintf(name, "r%d", row);
  else *name = 0;
}

/* So many rows of even keys: over two whole blocks, and some more. */
static pdt_table *opened(void) {
  char *text = malloc(ROWS * 40 + 64), name[24];
  size_t len = (size_t)sprintf(text, "id:int:key,name:text,ok:bool\n");
  for (int row = 0; row < ROWS; row++) {
    name_of(row, name);
    name_of(row, wanted[row]);
    len += (size_t)sprintf(text + len, "%d,%s,true\n", 2 * row, name);
  }
  rows = ROWS;
  pdt_table *table = NULL;
  is("open", PDT_OK, pdt_open(text, len, NULL, &table));
  free(text);
  return table;
}
static pdt_txn *begun(pdt_table *table) {
  pdt_txn *txn = NULL;
  is("begin", PDT_OK, pdt_begin(table, &txn));
  return txn;
}
static void rename_row(pdt_txn *txn, int64_t key, const char *name) {
  is("set", PDT_OK, pdt_set(txn, &key, NULL, 0, NAME, (int64_t)strlen(name), name));
}
static void read_all(pdt_txn *txn, views *into) {
  into->count = MOST;
  is("texts", PDT_OK, pdt_texts(txn, NAME, 0, into->at, into->len, &into->count));
}

/* Just the texts that are wanted lie there. */
static void all_there(const char *what, const views *found) {
  is(what, (long long)rows, (long long)found->count);
  for (size_t row = 0; row < rows && row < found->count && !failures; row++) {
    is(what, (long long)strlen(wanted[row]), (long long)found->len[row]);
    is("an address", 1, found->at[row] != NULL);
    is(what, 0, memcmp(wanted[row], found->at[row], strlen(wanted[row])));
  }
}

/* No byte is copied: a second call has the same addresses, and texts of one block lie side by side. */
static void where_they_lie(pdt_table *table) {
  pdt_txn *txn = begun(table);
  read_all(txn, &lent);
  read_all(txn, &again);
  all_there("as opened", &lent);
  is("one after the other", 1, lent.at[1] + lent.len[1] == lent.at[2]);
  for (size_t row = 0; row < rows; row++)
    if (lent.len[row]) is("the same address", 1, lent.at[row] == again.at[row]);
  pdt_abort(txn);
}

/* Changes a row in a hundred, inserts one behind it, and deletes the first: what is wanted changes with it. */
static void change(pdt_txn *txn) {
  static const int64_t first = 0;
  is("delete", PDT_OK, pdt_delete(txn, &first, NULL, 0));
  rows = 0;
  for (int row = 1; row < ROWS; row++) {
    name_of(row, wanted[rows++]);
    if (row % 100 != 50) continue;
    sprintf(wanted[rows - 1], "changed %d", row);
    rename_row(txn, 2 * row, wanted[rows - 1]);
    sprintf(wanted[rows], "inserted %d", row);
    int64_t cells[] = {2 * row + 1, (int64_t)strlen(wanted[rows]), 1};
    is("insert", PDT_OK, pdt_insert(txn, cells, wanted[rows], strlen(wanted[rows])));
    rows++;
  }
}

/* The texts of changed rows, in the transaction that changes them and in later ones; they stay while others commit and fold. */
static void changes(pdt_table *table) {
  pdt_txn *txn = begun(table), *other;
  change(txn);
  read_all(txn, &lent);
  all_there("changed", &lent);
  is("commit", PDT_OK, pdt_commit(txn, NULL));
  txn = begun(table);
  read_all(txn, &lent);
  all_there("committed", &lent);
  for (int64_t key = 2; key < 2 * ROWS; key += 98) {
    other = begun(table);
    rename_row(other, key, "another's");
    is("commit", PDT_OK, pdt_commit(other, NULL));
    if (key % 5 == 0) is("fold", PDT_OK, pdt_fold(table));
  }
  is("cut", PDT_OK, pdt_trim(table));
  all_there("while others commit", &lent);
  read_all(txn, &again);
  all_there("once more", &again);
  pdt_abort(txn);
}

/* What a mark keeps can be read while it is there, and what it goes back to is read anew. */
static void marks(pdt_table *table) {
  pdt_txn *txn = begun(table);
  size_t level = 9, few = 1;
  static const int64_t key = 2;
  rename_row(txn, key, "before");
  is("mark", PDT_OK, pdt_savepoint(txn, &level));
  rename_row(txn, key, "after");
  is("texts", PDT_OK, pdt_texts(txn, NAME, 1, lent.at, lent.len, &few));
  is("after", 0, few != 1 || lent.len[0] != 5 || memcmp("after", lent.at[0], 5));
  is("back", PDT_OK, pdt_rollback_to(txn, level));
  is("texts", PDT_OK, pdt_texts(txn, NAME, 1, lent.at, lent.len, &few));
  is("before", 0, few != 1 || lent.len[0] != 6 || memcmp("before", lent.at[0], 6));
  is("release", PDT_OK, pdt_release(txn, level));
  is("before", 0, memcmp("before", lent.at[0], 6));
  pdt_abort(txn);
}

/* How many come from a position on where there is so much room. */
static void counts(pdt_txn *txn, size_t column, uint64_t from, size_t room, size_t due) {
  size_t count = room;
  is("texts", PDT_OK, pdt_texts(txn, column, from, lent.at, lent.len, &count));
  is("how many", (long long)due, (long long)count);
}

static void edges(void) {
  pdt_table *table = opened();
  pdt_txn *txn = begun(table);
  size_t count = 0;
  counts(txn, NAME, ROWS - 3, MOST, 3);
  is("the last one", 0, memcmp("r2498", lent.at[1], 5));
  counts(txn, NAME, 1023, 2, 2);
  is("over the end of a block", 0, memcmp("r1023", lent.at[0], 5) || memcmp("r1024", lent.at[1], 5));
  lent.at[1] = "kept", lent.len[1] = -1;
  counts(txn, NAME, 5, 1, 1);
  is("past the room", 0, lent.len[1] != -1 || memcmp("kept", lent.at[1], 4));
  counts(txn, NAME, ROWS, MOST, 0);
  counts(txn, NAME, ROWS + 1, MOST, 0);
  counts(txn, NAME, UINT64_MAX, MOST, 0);
  counts(txn, ID, 0, MOST, 0);
  counts(txn, OK, 0, MOST, 0);
  counts(txn, 3, 0, MOST, 0);
  counts(txn, SIZE_MAX, 0, MOST, 0);
  is("no room", PDT_OK, pdt_texts(txn, NAME, 0, NULL, NULL, &count));
  is("none", 0, (long long)count);
  count = 1;
  is("no addresses", PDT_MISUSE, pdt_texts(txn, NAME, 0, NULL, lent.len, &count));
  is("no lengths", PDT_MISUSE, pdt_texts(txn, NAME, 0, lent.at, NULL, &count));
  is("no count", PDT_MISUSE, pdt_texts(txn, NAME, 0, lent.at, lent.len, NULL));
  is("no transaction", PDT_MISUSE, pdt_texts(NULL, NAME, 0, lent.at, lent.len, &count));
  pdt_abort(txn);
  is("close", PDT_OK, pdt_close(table));
}

int main(void) {
  pdt_table *table = opened();
  where_they_lie(table);
  changes(table);
  is("close", PDT_OK, pdt_close(table));
  table = opened();
  marks(table);
  is("close", PDT_OK, pdt_close(table));
  edges();
  if (!failures) printf("texts: passed\n");
  return failures != 0;
}
