/* For tests, linked into the extension: refuses one allocation, of the extension's own or of the library's under it. */
#include <sqlite3ext.h>
#include <stddef.h>
SQLITE_EXTENSION_INIT3

static long left;
static sqlite3_api_routines routines;
static void *(*lent)(int);

static int is_refused(void) { return left && !--left; }

void *__real_malloc(size_t);
void *__real_calloc(size_t, size_t);
void *__real_realloc(void *, size_t);
void *__wrap_malloc(size_t bytes) { return is_refused() ? NULL : __real_malloc(bytes); }
void *__wrap_calloc(size_t count, size_t bytes) { return is_refused() ? NULL : __real_calloc(count, bytes); }
void *__wrap_realloc(void *at, size_t bytes) { return is_refused() ? NULL : __real_realloc(at, bytes); }

static void *refusing(int bytes) { return is_refused() ? NULL : lent(bytes); }

/* Refuses the n-th allocation from now on; none where n is 0. Returns how many were left of the last n. */
long refuse(long n) {
  long was = left;
  if (sqlite3_api && sqlite3_api != &routines) {
    routines = *sqlite3_api;
    lent = routines.malloc;
    routines.malloc = refusing;
    sqlite3_api = &routines;
  }
  left = n;
  return was;
}
