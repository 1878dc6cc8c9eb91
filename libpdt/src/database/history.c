/* What a database keeps of the changes of its last commits, for transactions that commit late and for pdt_changes: the oldest are let go of
   where they take more memory than the database's option says. */
#include "database.h"

/* What an entry takes in a tree beside the bytes of its cells. */
enum { ENTRY_BYTES = 48 };

static size_t place_of(const pdt_table *table, uint64_t local) { return local % (table->recent + 1); }

int pdti_make_room_for_numbers(pdt_table *table) {
  table->made_by = calloc(table->recent + 1, sizeof *table->made_by);
  table->kept_upto = calloc(table->recent + 1, sizeof *table->kept_upto);
  return table->made_by && table->kept_upto ? PDT_OK : PDT_NOMEM;
}

void pdti_number(pdt_table *table, uint64_t local, uint64_t number) {
  table->made_by[place_of(table, local)] = number;
  table->newest = number;
}

void pdti_keep(pdt_table *table, uint64_t local, size_t bytes) {
  uint64_t kept = bytes + ENTRY_BYTES * (uint64_t)pdtr_change_entries(&table->raw, local);
  table->kept_upto[place_of(table, local)] = table->kept_upto[place_of(table, local - 1)] + kept;
}

/* ---- under the lock */

/* The last commit of a table that isn't kept any more, and the newest one, by its own numbers. */
typedef struct {
  uint64_t before, newest;
} pdti_kept_range;

static pdti_kept_range range_of(pdt_table *table) {
  uint64_t newest = pdtr_commits(&table->raw);
  return (pdti_kept_range){newest - pdtr_kept(&table->raw), newest};
}

uint64_t pdti_kept_bytes(pdt_table *table) {
  pdti_kept_range kept = range_of(table);
  return table->kept_upto[place_of(table, kept.newest)] - table->kept_upto[place_of(table, kept.before)];
}

/* The last commit of a table, by its own number, that has a number of the database's up to this one; of those that are kept, or the one
   before them. */
static uint64_t last_upto(pdt_table *table, uint64_t number) {
  pdti_kept_range kept = range_of(table);
  uint64_t from = kept.before, to = kept.newest;
  while (from < to) {
    uint64_t middle = from + (to - from + 1) / 2;
    if (table->made_by[place_of(table, middle)] <= number) from = middle;
    else to = middle - 1;
  }
  return from;
}

/* What the commits after a number of the database's take. */
static uint64_t bytes_after(const pdt_database *database, uint64_t number) {
  uint64_t bytes = 0;
  for (size_t i = 0; i < database->count; i++) {
    pdt_table *table = database->members[i]->table;
    bytes += table->kept_upto[place_of(table, pdtr_commits(&table->raw))] - table->kept_upto[place_of(table, last_upto(table, number))];
  }
  return bytes;
}

/* The least number after which the commits take no more than so much. */
static uint64_t number_to_keep_from(const pdt_database *database, uint64_t most) {
  uint64_t from = 0, to = database->newest;
  while (from < to) {
    uint64_t middle = from + (to - from) / 2;
    if (bytes_after(database, middle) <= most) to = middle;
    else from = middle + 1;
  }
  return to;
}

/* ---- what is let go of */

/* Lets go of a table's commits up to a number of the database's. They are freed without the lock. */
static int let_go_upto(pdt_table *table, uint64_t number) {
  pdti_handle trees = {NULL};
  int code = (int)pdtr_room(table->recent, &trees);
  if (code) return code;
  code = pdti_enter(table);
  if (!code) {
    pdtr_cut_to(&table->raw, last_upto(table, number), &trees);
    pdti_leave(table);
  }
  pdtr_trees_close(&trees);
  return code;
}

int pdti_let_go_of_oldest(pdt_database *database) {
  uint64_t most = database->options.kept_bytes, number = 0;
  pthread_mutex_lock(&database->locks.lock);
  bool is_due = bytes_after(database, 0) > most;
  if (is_due) number = number_to_keep_from(database, most - most / 8); /* so that it isn't due again at once */
  pthread_mutex_unlock(&database->locks.lock);
  int code = PDT_OK;
  for (size_t i = 0; is_due && i < database->count && !code; i++) code = let_go_upto(database->members[i]->table, number);
  return code;
}
