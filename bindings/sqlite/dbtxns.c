/* Database transactions: what the views of a connection's tables of one database share. All of them that a session still has are in one
   database transaction; one that a session has left, and that only cursors have, may be in an older one. */
#include "vtab.h"

#include <string.h>

SQLITE_EXTENSION_INIT3

/* The database transaction that the sessions of a database have; null where none has a view. */
static dbtxn *dbtxn_of(const connection *c, const database *in) {
  const session *s = c->sessions;
  while (s && (!s->view || s->in != in)) s = s->next;
  return s ? s->view->dbtxn : NULL;
}

/* Ends a database transaction that has no view. What it wasn't asked to commit is gone. */
static void dbtxn_end(dbtxn *w) {
  pdt_dbtxn_abort(w->raw);
  sqlite3_free(w);
}

static int dbtxn_begin(const database *in, dbtxn **out) {
  dbtxn *w = sqlite3_malloc((int)sizeof *w);
  if (!w) return PDT_NOMEM;
  memset(w, 0, sizeof *w);
  int code = pdt_dbtxn_begin(databases_get(in), &w->raw);
  if (code) sqlite3_free(w);
  else *out = w;
  return code;
}

/* Another session of the same table, which was dropped in the transaction and may come back; null where there is none. A database
   transaction has one transaction over a table, so that it has the savepoints of this one. */
static session *dropped_beside(const session *s) {
  session *other = s->owner->sessions;
  while (other && (other == s || other->table != s->table || !other->view)) other = other->next;
  return other;
}

int dbtxn_enter(sqlite3_vtab *base, view *v) {
  session *s = session_of(base), *dropped = dropped_beside(s);
  if (dropped && dropped->wrote)
    return say(base, SQLITE_ERROR, "pdt: the transaction has written %s before it was dropped: commit that first", s->name);
  if (dropped) savepoints_release(dropped, 0);
  dbtxn *w = dbtxn_of(s->owner, s->in);
  bool is_new = !w;
  int code = w ? PDT_OK : dbtxn_begin(s->in, &w);
  if (!code) code = pdt_dbtxn_on(w->raw, s->table, &v->txn);
  if (code && is_new && w) dbtxn_end(w);
  if (code == PDT_MISSING)
    return say(base, SQLITE_ERROR, "pdt: %s was made after its database was first read or written here: end that first", s->name);
  if (code) return fail(base, code);
  v->dbtxn = w;
  v->beside = w->views;
  w->views = v;
  return SQLITE_OK;
}

void dbtxn_leave(view *v) {
  dbtxn *w = v->dbtxn;
  view **at = &w->views;
  while (*at != v) at = &(*at)->beside;
  *at = v->beside;
  v->dbtxn = NULL;
  if (!w->views) dbtxn_end(w);
}

void dbtxn_undo(session *s) {
  if (s->wrote && (!s->first || pdt_rollback_to(s->view->txn, 0))) s->view->dbtxn->doomed = true;
  if (s->savepoints) pdt_release(s->view->txn, 0);
  s->savepoints = s->first = 0;
  view_unwrite(s);
}

/* The database transaction was committed, or refused: its views have no transaction any more. */
static void dbtxn_is_over(connection *c, dbtxn *w) {
  for (view *v = w->views, *next; v; v = next) {
    next = v->beside;
    v->txn = NULL;
    v->dbtxn = NULL;
  }
  sqlite3_free(w);
  for (session *s = c->sessions; s; s = s->next)
    if (s->in && s->view && !s->view->txn) view_leave(s);
}

/* Whether a commit has left its database transaction open, as it was. */
static bool is_open_after(int code) { return code == PDT_NOMEM || code == PDT_WRITES_FAILED || code == PDT_TOO_LONG || code == PDT_MISUSE; }

int dbtxn_commit(sqlite3_vtab *base, dbtxn *w) {
  connection *c = owner_of(base);
  for (session *s = c->sessions; s; s = s->next)
    if (s->dropped && s->wrote && s->view->dbtxn == w) dbtxn_undo(s);
  if (w->doomed) return say(base, SQLITE_ABORT, "pdt: writes of a table couldn't be undone: only ROLLBACK is left");
  int code = pdt_dbtxn_commit(w->raw, NULL);
  if (is_open_after(code)) return fail(base, code);
  for (session *s = c->sessions; s && !code; s = s->next)
    if (s->wrote) tables_keep(s->shared);
  dbtxn_is_over(c, w);
  return fail(base, code);
}
