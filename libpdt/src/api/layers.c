/* The entries of layers, and the change feed: what each commit changed. */
#include "inside.h"

#include <inttypes.h>

struct pdt_layer {
  pdti_handle raw;
  size_t width; /* of its table, which may be closed */
};

static pdt_layer *new_layer(const pdt_table *table) {
  pdt_layer *layer = calloc(1, sizeof *layer);
  if (layer) layer->width = table->width;
  return layer;
}

pdt_code pdt_layers(pdt_table *table, pdt_layer **read, pdt_layer **write) {
  if (read) *read = NULL;
  if (write) *write = NULL;
  if (!table || !read || !write || read == write) return PDT_MISUSE;
  pdt_layer *lower = new_layer(table), *upper = new_layer(table);
  int code = lower && upper ? PDT_OK : PDT_NOMEM;
  if (!code) code = pdti_enter(table);
  if (!code) {
    code = (int)pdtr_read_layer(&table->raw, &lower->raw);
    if (!code) code = (int)pdtr_write_layer(&table->raw, &upper->raw);
    pdti_leave(table);
  }
  if (code) {
    pdt_layer_close(lower);
    pdt_layer_close(upper);
    return code;
  }
  *read = lower;
  *write = upper;
  return PDT_OK;
}

pdt_code pdt_own_layer(pdt_txn *txn, pdt_layer **out) {
  if (!out) return PDT_MISUSE;
  *out = NULL;
  if (!txn) return PDT_MISUSE;
  pdt_layer *layer = new_layer(txn->table);
  if (!layer) return PDT_NOMEM;
  int code = (int)pdtr_own_layer(&txn->raw, &layer->raw);
  if (code) {
    pdt_layer_close(layer);
    return code;
  }
  *out = layer;
  return PDT_OK;
}

void pdt_layer_close(pdt_layer *layer) {
  if (!layer) return;
  if (layer->raw.at) pdtr_layer_close(&layer->raw);
  free(layer);
}

size_t pdt_layer_size(pdt_layer *layer) { return layer && layer->raw.at ? pdtr_layer_len(&layer->raw) : 0; }

pdt_code pdt_entry_at(pdt_layer *layer, size_t index, pdt_entry *entry, int64_t *numbers, void *out, size_t room) {
  if (!layer || !entry || !numbers || (!out && room)) return PDT_MISUSE;
  int code = PDT_MISSING;
  if (layer->raw.at) code = (int)pdtr_entry(&layer->raw, index, entry, numbers, layer->width, room_at(out, room), room);
  if (code != PDT_MISSING) return code; /* else it may be of a commit that changed another table */
  return pdti_say(code, "there is no entry %zu: the layer has %zu", index, pdt_layer_size(layer));
}

/* ---- the change feed */

/* The number that the commit has in the manager of a database's table, or 0 where that commit changed another table. PDT_MISSING
   where it isn't kept, or a crash could take it away yet. Under the lock. */
static int find_commit(pdt_table *table, uint64_t number, uint64_t *local) {
  size_t kept = pdtr_kept(&table->raw);
  uint64_t newest = pdtr_commits(&table->raw), low = newest - kept, high = newest;
  pthread_mutex_lock(&table->locks->fresh_lock);
  bool is_seen = number <= pdti_seen(table->database);
  pthread_mutex_unlock(&table->locks->fresh_lock);
  size_t slots = table->recent + 1;
  if (!is_seen || number <= table->made_by[low % slots]) return PDT_MISSING;
  while (low + 1 < high) { /* the commits above low, up to high: the first is at the number or before it */
    uint64_t middle = low + (high - low) / 2;
    if (table->made_by[middle % slots] < number) {
      low = middle;
    } else {
      high = middle;
    }
  }
  *local = table->made_by[high % slots] == number ? high : 0;
  return PDT_OK;
}

pdt_code pdt_changes(pdt_table *table, uint64_t number, pdt_layer **out) {
  if (!out) return PDT_MISUSE;
  *out = NULL;
  if (!table) return PDT_MISUSE;
  pdt_layer *layer = new_layer(table);
  if (!layer) return PDT_NOMEM;
  int code = pdti_enter(table);
  if (!code) {
    uint64_t local = number;
    if (table->database) code = find_commit(table, number, &local);
    if (!code && (!table->database || local)) code = (int)pdtr_changes(&table->raw, local, &layer->raw);
    pdti_leave(table);
  }
  if (code) {
    pdt_layer_close(layer);
    return code == PDT_MISSING ? pdti_say(code, "the changes of commit %" PRIu64 " aren't retained", number) : code;
  }
  *out = layer;
  return PDT_OK;
}

/* So many milliseconds from now. */
static struct timespec later(uint64_t milliseconds) {
  struct timespec at;
  clock_gettime(CLOCK_MONOTONIC, &at);
  uint64_t seconds = milliseconds / 1000;
  at.tv_sec += seconds < 1000000000 ? (time_t)seconds : 1000000000; /* some thirty years */
  at.tv_nsec += (long)(milliseconds % 1000) * 1000000;
  if (at.tv_nsec >= 1000000000) {
    at.tv_sec++;
    at.tv_nsec -= 1000000000;
  }
  return at;
}

/* A thread that waits ends to wait, also where it is cancelled: it has the lock then. */
static void end_wait(void *context) {
  pdt_table *table = context;
  table->waiting--;
  pthread_mutex_unlock(&table->locks->fresh_lock);
}

/* Waits until the number is above this one, or the time is over, with fresh_lock held: the number then. */
static uint64_t wait_until(pdt_table *table, uint64_t after, const struct timespec *end) {
  int late = 0;
  while (table->commits <= after && !late) late = pthread_cond_timedwait(&table->moved, &table->locks->fresh_lock, end);
  return table->commits;
}

pdt_code pdt_wait(pdt_table *table, uint64_t after, uint64_t milliseconds, uint64_t *commits) {
  if (!table) return PDT_MISUSE;
  struct timespec end = later(milliseconds);
  uint64_t number;
  pthread_mutex_lock(&table->locks->fresh_lock);
  table->waiting++;
  pthread_cleanup_push(end_wait, table);
  number = wait_until(table, after, &end);
  pthread_cleanup_pop(1);
  if (commits) *commits = number;
  return number > after ? PDT_OK : pdti_say(PDT_MISSING, "no commit came after %" PRIu64 " within %" PRIu64 " ms", after, milliseconds);
}
