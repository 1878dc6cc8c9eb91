/* A manifest that no opening would take isn't written: one that names an image from before the first file of the journal. Nothing is known
   to make such an image; here its number is written into the open database. Linked with the objects of the library. */
#include "../src/database.h"

#include <stdio.h>

static int failures;
static void is(const char *what, long long wanted, long long found) {
  if (wanted == found) return;
  failures++;
  fprintf(stderr, "%s: wanted %lld, found %lld\n", what, wanted, found);
}

static const char csv[] = "id:int:key,qty:int\n0,0\n1,0\n2,0\n3,0\n";
static pdt_table *created(pdt_database *database, const char *name) {
  pdt_table *table = NULL;
  is("create", PDT_OK, pdt_table_create_csv(database, name, csv, sizeof csv - 1, NULL, NULL, &table));
  return table;
}
static void commit(pdt_table *table, int64_t qty) {
  pdt_txn *txn = NULL;
  is("begin", PDT_OK, pdt_begin(table, &txn));
  for (int64_t key = 0; key < 4; key++) is("set", PDT_OK, pdt_set(txn, &key, NULL, 0, 1, qty, NULL));
  is("commit", PDT_OK, pdt_commit(txn, NULL));
}

int main(int argc, char **argv) {
  if (argc < 2) return 2;
  char folder[500];
  snprintf(folder, sizeof folder, "%s/bases", argv[1]);
  pdt_database_options options = {.size = sizeof options, .no_maintenance = true, .checkpoint_entries = 4};
  pdt_database *database = NULL;
  pdt_report report = {.size = sizeof report};
  is("open", PDT_OK, pdt_database_open(folder, &options, &database, &report));
  if (!database) return 1;
  pdt_table *a = created(database, "a"), *b = created(database, "b"), *c = NULL;
  commit(a, 1), commit(b, 2);
  is("maintenance", PDT_OK, pdt_maintain(database));
  commit(a, 3);
  is("maintenance", PDT_OK, pdt_maintain(database));
  is("the first file is gone", 2, (long long)database->files[0].base);

  uint64_t number = database->members[1]->image.number;
  database->members[1]->image.number = 1;
  commit(a, 4);
  is("maintenance that writes no manifest", PDT_INCOMPLETE, pdt_maintain(database));
  is("nor a creation", PDT_INCOMPLETE, pdt_table_create_csv(database, "c", csv, sizeof csv - 1, NULL, NULL, &c));
  is("nor a drop", PDT_INCOMPLETE, pdt_table_drop(database, "a"));
  commit(b, 5); /* commits go on */
  pdt_database *copy = NULL;
  char words[1200];
  snprintf(words, sizeof words, "cp -r '%s' '%s-copy'", folder, folder);
  is("copy", 0, system(words));
  snprintf(words, sizeof words, "%s-copy", folder);
  is("a copy is opened", PDT_OK, pdt_database_open(words, &options, &copy, &report));
  is("its commits", 5, (long long)report.commits);
  is("close", PDT_OK, pdt_database_close(copy));

  database->members[1]->image.number = number;
  is("maintenance goes on", PDT_OK, pdt_maintain(database));
  is("so does a drop", PDT_OK, pdt_table_drop(database, "a"));
  is("close", PDT_OK, pdt_database_close(database));
  is("open again", PDT_OK, pdt_database_open(folder, &options, &database, &report));
  is("all commits", 5, (long long)report.commits);
  is("close", PDT_OK, pdt_database_close(database));
  return failures ? 1 : 0;
}
