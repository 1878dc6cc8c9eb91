/* Folders that earlier releases have written are opened, for reading and for writing, and have the rows that were put into them; and a
   folder that this library writes is made the same way: releases FOLDER FIXTURES, or releases make FOLDER for the folder of a release.

   Each folder of FIXTURES is of one release: two tables of which one is declared and has an image with what came after its creation, a
   table that was dropped, and a journal of five commits. */
#define _DEFAULT_SOURCE
#include <dirent.h>
#include <pdt_arrow.h>
#include <stdio.h>
#include <stdlib.h>
#include <string.h>
#include <sys/stat.h>

static int failures;
static void is(const char *what, long long wanted, long long found) {
  if (wanted == found) return;
  failures++;
  fprintf(stderr, "%s: wanted %lld, found %lld\n", what, wanted, found);
}

/* ---- what was put into it */

static const char items_csv[] = "id:int:key,name:text,ok:bool\n1,one,true\n2,zwei \xe2\x9c\x93,false\n3,,true\n";
static const char prices_csv[] = "day:int:key,price:int\n19000,1234\n19001,-5\n";

/* The rows as they are at the end. */
static const struct {
  int64_t id;
  const char *name;
  bool ok;
} items[] = {{1, "uno", true}, {3, "", false}, {4, "quattro", true}};
static const int64_t prices[][2] = {{19000, 1234}, {19001, 995}, {19002, 7}};
enum { COMMITS = 5 };

static pdt_table *table_named(pdt_database *database, const char *name) {
  pdt_table *table = NULL;
  is(name, PDT_OK, pdt_table_open(database, name, &table));
  return table;
}
static pdt_txn *begun(pdt_table *table) {
  pdt_txn *txn = NULL;
  is("begin", PDT_OK, pdt_begin(table, &txn));
  return txn;
}
static void committed(pdt_txn *txn, uint64_t wanted) {
  uint64_t number = 0;
  is("commit", PDT_OK, pdt_commit(txn, &number));
  is("number", (long long)wanted, (long long)number);
}

static void make(const char *folder) {
  pdt_database_options options = {.size = sizeof options, .no_maintenance = true, .checkpoint_entries = 2};
  const char *const formats[] = {"tdD", "d:15,2"};
  pdt_database *database = NULL;
  pdt_table *made = NULL;
  is("open", PDT_OK, pdt_database_open(folder, &options, &database, NULL));
  is("create", PDT_OK, pdt_table_create_csv(database, "items", items_csv, sizeof items_csv - 1, NULL, NULL, &made));
  is("create", PDT_OK, pdt_table_create_csv(database, "gone", items_csv, sizeof items_csv - 1, NULL, NULL, &made));
  is("create", PDT_OK, pdt_table_create_csv_declared(database, "prices", prices_csv, sizeof prices_csv - 1, formats, 2, NULL, NULL, &made));
  int64_t one = 1, two = 2, three = 3, day = 19001, four[] = {4, 7, 1}, later[] = {19002, 7};
  pdt_txn *txn = begun(table_named(database, "items"));
  is("set", PDT_OK, pdt_set(txn, &one, NULL, 0, 1, 3, "uno"));
  is("delete", PDT_OK, pdt_delete(txn, &two, NULL, 0));
  committed(txn, 1);
  is("an image", PDT_OK, pdt_maintain(database));
  txn = begun(table_named(database, "gone"));
  is("delete", PDT_OK, pdt_delete(txn, &two, NULL, 0));
  committed(txn, 2);
  txn = begun(table_named(database, "prices"));
  is("set", PDT_OK, pdt_set(txn, &day, NULL, 0, 1, 995, NULL));
  committed(txn, 3);
  is("drop", PDT_OK, pdt_table_drop(database, "gone"));
  pdt_dbtxn *dbtxn = NULL;
  is("work", PDT_OK, pdt_dbtxn_begin(database, &dbtxn));
  is("on", PDT_OK, pdt_dbtxn_on(dbtxn, table_named(database, "items"), &txn));
  is("insert", PDT_OK, pdt_insert(txn, four, "quattro", 7));
  is("on", PDT_OK, pdt_dbtxn_on(dbtxn, table_named(database, "prices"), &txn));
  is("insert", PDT_OK, pdt_insert(txn, later, NULL, 0));
  is("commit", PDT_OK, pdt_dbtxn_commit(dbtxn, NULL));
  txn = begun(table_named(database, "items"));
  is("set", PDT_OK, pdt_set(txn, &three, NULL, 0, 2, 0, NULL));
  committed(txn, COMMITS);
  is("close", PDT_OK, pdt_database_close(database));
}

/* ---- what is found */

static void look(pdt_database *database, const pdt_report *report) {
  char name[PDT_MAX_NAME + 1], text[64];
  uint64_t rows = 0;
  int64_t row[3];
  is("commits", COMMITS, (long long)report->commits);
  is("nothing is torn", 0, (long long)report->torn_bytes);
  is("no third table", PDT_MISSING, pdt_table_name(database, 2, name, sizeof name));
  pdt_txn *txn = begun(table_named(database, "items"));
  is("rows", PDT_OK, pdt_rows(txn, &rows));
  is("items", 3, (long long)rows);
  for (uint64_t at = 0; at < rows && at < 3; at++) {
    memset(text, 0, sizeof text);
    is("row", PDT_OK, pdt_row_at(txn, at, row, text, sizeof text - 1, NULL));
    is("an id", items[at].id, row[0]);
    is("a name", 0, strcmp(items[at].name, text));
    is("a boolean", items[at].ok, row[2]);
  }
  pdt_abort(txn);
  pdt_table *table = table_named(database, "prices");
  for (size_t column = 0; column < 2; column++)
    is("declared", 0, !pdt_declared(table, column) || strcmp(column ? "d:15,2" : "tdD", pdt_declared(table, column)));
  txn = begun(table);
  is("rows", PDT_OK, pdt_rows(txn, &rows));
  is("prices", 3, (long long)rows);
  for (uint64_t at = 0; at < rows && at < 3; at++) {
    is("row", PDT_OK, pdt_row_at(txn, at, row, NULL, 0, NULL));
    is("a day", prices[at][0], row[0]);
    is("a price", prices[at][1], row[1]);
  }
  pdt_abort(txn);
}

static void opens(const char *folder, bool reads) {
  pdt_database_options options = {.size = sizeof options, .no_maintenance = true, .read_only = reads};
  pdt_report report = {.size = sizeof report};
  pdt_database *database = NULL;
  int code = pdt_database_open(folder, &options, &database, &report);
  if (code) fprintf(stderr, "%s: %s\n", folder, report.file);
  is("open", PDT_OK, code);
  if (!database) return;
  look(database, &report);
  if (!reads) {
    int64_t five[] = {5, 0, 1};
    pdt_txn *txn = begun(table_named(database, "items"));
    is("insert", PDT_OK, pdt_insert(txn, five, NULL, 0));
    committed(txn, COMMITS + 1);
    is("maintenance", PDT_OK, pdt_maintain(database));
  }
  is("close", PDT_OK, pdt_database_close(database));
}

int main(int argc, char **argv) {
  if (argc < 3) return 2;
  if (!strcmp(argv[1], "make")) return make(argv[2]), failures ? 1 : 0;
  char folder[1000], command[2100];
  int count = 0;
  DIR *releases = opendir(argv[2]);
  for (struct dirent *release; releases && (release = readdir(releases));) {
    if (*release->d_name == '.') continue;
    count++;
    snprintf(folder, sizeof folder, "%.400s/%.200s", argv[1], release->d_name);
    snprintf(command, sizeof command, "cp -r '%.400s/%.200s' '%s'", argv[2], release->d_name, folder);
    is("a copy", 0, system(command));
    opens(folder, true);
    opens(folder, false);
  }
  if (releases) closedir(releases);
  is("a release", 1, count > 0);
  snprintf(folder, sizeof folder, "%.400s/now", argv[1]);
  make(folder);
  opens(folder, true);
  opens(folder, false);
  return failures ? 1 : 0;
}
