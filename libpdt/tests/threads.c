/* Eight threads add to the same ten rows, every other one by commits in two parts, and try again at a conflict: the sum is that
   of all that was added. In between they look at the layers, which are folded: the sum by their entries never falls. */
#include <pdt.h>
#include <pthread.h>
#include <stdio.h>
#include <string.h>

enum { THREADS = 8, ADDS = 500, ROWS = 10 };
static pdt_table *table;

/* The sum by the entries of both layers: a row has what the upper one sets it to, or else the lower one. Less than 0 where
   they aren't as they must be. */
static int64_t sum_of_layers(void) {
  pdt_layer *layers[2];
  int64_t sums[ROWS] = {0}, sum = 0;
  if (pdt_layers(table, &layers[0], &layers[1])) return -1;
  for (int i = 0; i < 2; i++) {
    for (size_t at = 0; at < pdt_layer_size(layers[i]); at++) {
      pdt_entry entry;
      int64_t numbers[2];
      int code = pdt_entry_at(layers[i], at, &entry, numbers, NULL, 0);
      if (code || entry.kind != PDT_MODIFY || entry.sid >= ROWS || entry.rid != entry.sid) return -1;
      sums[entry.sid] = numbers[0];
    }
    pdt_layer_close(layers[i]);
  }
  for (int i = 0; i < ROWS; i++) sum += sums[i];
  return sum;
}

static pdt_code commit(pdt_txn *txn, bool in_parts) {
  if (!in_parts) return pdt_commit(txn, NULL);
  pdt_code code = pdt_prepare(txn, NULL);
  return code ? code : pdt_install(txn);
}

static void *adds(void *arg) {
  uint32_t client = (uint32_t)(size_t)arg;
  int64_t seen = 0;
  for (int i = 0; i < ADDS;) {
    pdt_txn *txn;
    int64_t key = (i * 7 + (int)client) % ROWS, row[2];
    if (pdt_begin(table, &txn)) return "begin";
    if (pdt_get(txn, &key, NULL, 0, row, NULL, 0, NULL)) return "get";
    if (pdt_set(txn, &key, NULL, 0, 1, row[1] + 1, NULL)) return "set";
    int code = commit(txn, client % 2);
    if (code == PDT_OK) i++;
    else if (code != PDT_CONFLICT) return "commit";
    if (code || i % 5) continue;
    if (client < 2 && pdt_fold(table)) return "fold";
    int64_t sum = sum_of_layers();
    if (sum < seen || sum < i || sum > THREADS * ADDS) return "layers";
    seen = sum;
  }
  return NULL;
}

int main(void) {
  static const char csv[] = "id:int:key,sum:int\n0,0\n1,0\n2,0\n3,0\n4,0\n5,0\n6,0\n7,0\n8,0\n9,0\n";
  pthread_t threads[THREADS];
  if (pdt_open(csv, sizeof csv - 1, NULL, &table)) return 1;
  for (size_t i = 0; i < THREADS; i++)
    if (pthread_create(&threads[i], NULL, adds, (void *)i)) return 1;
  int failed = 0;
  for (size_t i = 0; i < THREADS; i++) {
    void *what = NULL;
    pthread_join(threads[i], &what);
    if (what) failed = fprintf(stderr, "%s failed\n", (char *)what);
  }
  pdt_txn *txn;
  int64_t sums[ROWS], sum = 0;
  size_t count = ROWS;
  if (pdt_begin(table, &txn) || pdt_ints(txn, 1, 0, sums, &count)) return 1;
  for (size_t i = 0; i < count; i++) sum += sums[i];
  pdt_abort(txn);
  if (pdt_close(table)) return fprintf(stderr, "a transaction is still open\n"), 1;
  if (failed || sum != THREADS * ADDS) return fprintf(stderr, "sum %lld\n", (long long)sum), 1;
  return 0;
}
