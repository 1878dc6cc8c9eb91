/* For tests, linked into the extension: one call of the library isn't made, and answers a code. */
#include <pdt.h>
#include <string.h>

static const char *failing = "";
static int answer;

/* The next call of a name answers a code. */
void fail_once(const char *name, int code) {
  failing = name;
  answer = code;
}

/* Whether the call of a name is the one. */
static int fails(const char *name) {
  int is = !strcmp(failing, name);
  if (is) failing = "";
  return is;
}

pdt_code __real_pdt_dbtxn_commit(pdt_dbtxn *dbtxn, uint64_t *commits);
pdt_code __real_pdt_rollback_to(pdt_txn *txn, size_t level);
pdt_code __real_pdt_database_close(pdt_database *database);

pdt_code __wrap_pdt_dbtxn_commit(pdt_dbtxn *dbtxn, uint64_t *commits) {
  return fails("pdt_dbtxn_commit") ? (pdt_code)answer : __real_pdt_dbtxn_commit(dbtxn, commits);
}

pdt_code __wrap_pdt_rollback_to(pdt_txn *txn, size_t level) {
  return fails("pdt_rollback_to") ? (pdt_code)answer : __real_pdt_rollback_to(txn, level);
}

pdt_code __wrap_pdt_database_close(pdt_database *database) {
  return fails("pdt_database_close") ? (pdt_code)answer : __real_pdt_database_close(database);
}
