/* A table, a transaction that moves five pieces from one row to another, and a scan. */
#include <pdt.h>
#include <stdio.h>
#include <string.h>

int main(void) {
  const char *csv = "id:int:key,name:text,qty:int\n10,Ann,7\n20,Bob,2\n";
  pdt_table *table;
  pdt_txn *txn;
  if (pdt_open(csv, strlen(csv), NULL, &table)) return 1;
  if (pdt_begin(table, &txn)) return 1;
  int64_t ann = 10, bob = 20, row[] = {30, 3, 0}, qty[8];
  int code = pdt_set(txn, &ann, NULL, 0, 2, 2, NULL);
  if (!code) code = pdt_set(txn, &bob, NULL, 0, 2, 7, NULL);
  if (!code) code = pdt_insert(txn, row, "Cid", 3);
  if (!code) code = pdt_commit(txn, NULL); else pdt_abort(txn);
  if (code) return fprintf(stderr, "%s\n", pdt_errmsg(code)), 1;
  if (pdt_begin(table, &txn)) return 1;
  size_t count = 8;
  pdt_ints(txn, 2, 0, qty, &count);
  for (size_t i = 0; i < count; i++) printf("%lld\n", (long long)qty[i]);
  pdt_abort(txn);
  return pdt_close(table);
}
