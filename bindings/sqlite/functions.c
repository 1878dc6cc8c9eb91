/* Functions: pdt_fold('t'), pdt_trim('t'), pdt_checkpoint('t', DIR); each is NULL, or an error. */
#include "vtab.h"

#include <errno.h>
#include <string.h>

SQLITE_EXTENSION_INIT3

static void refuse(sqlite3_context *to, char *why) {
  sqlite3_result_error(to, why ? why : pdt_code_text(PDT_NOMEM), -1);
  sqlite3_free(why);
}

/* Has SQLite make its object for a table, which it otherwise does when a statement first names it. One of its codes. */
static int touch(sqlite3 *db, const char *schema, const char *name) {
  char *sql = schema ? sqlite3_mprintf("SELECT 1 FROM \"%w\".\"%w\" LIMIT 0", schema, name)
                     : sqlite3_mprintf("SELECT 1 FROM \"%w\" LIMIT 0", name);
  sqlite3_stmt *statement = NULL;
  int code = sql ? sqlite3_prepare_v2(db, sql, -1, &statement, NULL) : SQLITE_NOMEM;
  sqlite3_finalize(statement);
  sqlite3_free(sql);
  return code;
}

/* The session of a schema's table; of that of the one schema that has such a table where schema is null. */
static session *find_known(connection *c, const char *schema, const char *name, char **why) {
  session *found = NULL;
  unsigned count = 0;
  for (session *s = c->sessions; s; s = s->next)
    if (s->tables && !s->dropped && !sqlite3_stricmp(s->name, name) && (!schema || !sqlite3_stricmp(s->schema, schema))) found = s, count++;
  if (count == 1) return found;
  *why = sqlite3_mprintf(count ? "pdt: %s is a table of several schemas" : "pdt: %s is no table of pdt", name);
  return NULL;
}

session *session_named(connection *c, const char *name, char **why) {
  const char *dot = name ? strchr(name, '.') : NULL;
  session *found = NULL;
  if (!name) *why = sqlite3_mprintf("pdt: NULL is no table of pdt");
  else if (!touch(c->db, NULL, name)) found = find_known(c, NULL, name, why);
  else {
    char *schema = dot ? sqlite3_mprintf("%.*s", (int)(dot - name), name) : NULL;
    if (schema && !touch(c->db, schema, dot + 1)) found = find_known(c, schema, dot + 1, why);
    else *why = sqlite3_mprintf("pdt: %s", sqlite3_errmsg(c->db));
    sqlite3_free(schema);
  }
  return found;
}

/* The table that a function names; null, and an error, where it is none or one of several. */
static session *named(sqlite3_context *to, sqlite3_value *value) {
  char *why = NULL;
  session *found = session_named(sqlite3_user_data(to), (const char *)sqlite3_value_text(value), &why);
  if (!found) refuse(to, why);
  return found;
}

static void answer(sqlite3_context *to, int code) {
  if (code == PDT_IO) refuse(to, sqlite3_mprintf("pdt: %s: %s", pdt_code_text(code), strerror(errno)));
  else if (code) refuse(to, sqlite3_mprintf("pdt: %s", pdt_errmsg(code)));
  if (code) sqlite3_result_error_code(to, code_of(code));
}

static void f_fold(sqlite3_context *to, int argc, sqlite3_value **argv) {
  (void)argc;
  session *s = named(to, argv[0]);
  if (s) answer(to, pdt_fold(s->table));
}

static void f_cut(sqlite3_context *to, int argc, sqlite3_value **argv) {
  (void)argc;
  session *s = named(to, argv[0]);
  if (s) answer(to, pdt_trim(s->table));
}

/* Writes the newest committed table. Writes of an open transaction aren't in it, so it is refused while there are
   some. */
static void f_checkpoint(sqlite3_context *to, int argc, sqlite3_value **argv) {
  (void)argc;
  session *s = named(to, argv[0]);
  const char *folder = (const char *)sqlite3_value_text(argv[1]);
  if (!s) return;
  if (s->wrote) refuse(to, sqlite3_mprintf("pdt: commit what was written in %s first", s->name));
  else if (!folder) refuse(to, sqlite3_mprintf("pdt: a checkpoint has a folder"));
  else answer(to, pdt_checkpoint(s->table, folder));
}

/* Drops a table of a database: DROP TABLE leaves it there. */
static void f_drop(sqlite3_context *to, int argc, sqlite3_value **argv) {
  (void)argc;
  const char *folder = (const char *)sqlite3_value_text(argv[0]), *name = (const char *)sqlite3_value_text(argv[1]);
  failure why;
  sessions_let_go(sqlite3_user_data(to));
  if (!folder || !name) refuse(to, sqlite3_mprintf("pdt: name a folder and a table, as pdt_drop('DIR', 'NAME')"));
  else if (!tables_drop(folder, name, &why)) {
    refuse(to, why.text ? sqlite3_mprintf("pdt: %s", why.text) : NULL);
    sqlite3_result_error_code(to, why.code);
    sqlite3_free(why.text);
  }
}

int functions_make(connection *c) {
  const int flags = SQLITE_UTF8 | SQLITE_DIRECTONLY;
  int code = sqlite3_create_function(c->db, "pdt_fold", 1, flags, c, f_fold, NULL, NULL);
  if (!code) code = sqlite3_create_function(c->db, "pdt_trim", 1, flags, c, f_cut, NULL, NULL);
  if (!code) code = sqlite3_create_function(c->db, "pdt_checkpoint", 2, flags, c, f_checkpoint, NULL, NULL);
  if (!code) code = sqlite3_create_function(c->db, "pdt_drop", 2, flags, c, f_drop, NULL, NULL);
  return code;
}
