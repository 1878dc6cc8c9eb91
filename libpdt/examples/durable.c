/* Takes an item off the stock, in a table that survives kill -9: each run continues where the one before it ended. */
#include <pdt.h>
#include <stdio.h>
#include <string.h>

int main(void) {
  const char *csv = "id:int:key,qty:int\n10,7\n20,2\n";
  int64_t id = 10, row[2];
  pdt_database *shop;
  pdt_table *items;
  pdt_txn *txn;
  pdt_code code = pdt_database_open("shop", NULL, &shop, NULL); /* a folder, created if missing */
  if (!code) code = pdt_table_open(shop, "items", &items);
  if (code == PDT_MISSING) code = pdt_table_create_csv(shop, "items", csv, strlen(csv), NULL, NULL, &items);
  if (!code) code = pdt_begin(items, &txn);
  if (code) return fprintf(stderr, "%s\n", pdt_errmsg(code)), 1;
  code = pdt_get(txn, &id, NULL, 0, row, NULL, 0, NULL);
  if (!code) code = pdt_set(txn, &id, NULL, 0, 1, row[1] - 1, NULL);
  if (!code) code = pdt_commit(txn, NULL); else pdt_abort(txn);
  if (code) return fprintf(stderr, "%s\n", pdt_errmsg(code)), 1;
  printf("%lld left\n", (long long)row[1] - 1); /* the commit is on disk: it survives kill -9 and a power failure */
  return pdt_database_close(shop);
}
