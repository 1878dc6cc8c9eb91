/* Has each allocation refused that a test asks for, and counts the blocks that are there. Linked with --wrap of malloc, calloc, realloc
   and free. */
#include <pdt.h>
#include <stdlib.h>

static long left = -1, refused;
static int refuses_on; /* whether those after it are refused too */
void *__real_malloc(size_t);
void *__real_calloc(size_t, size_t);
void *__real_realloc(void *, size_t);
void __real_free(void *);
static int refuse(void) {
  if (left != 0) return left > 0 ? (left--, 0) : 0;
  if (!refuses_on) left = -1;
  refused++;
  return 1;
}
static long blocks; /* how many are there */
static void *counted(void *at) { return blocks += at != NULL, at; }
void *__wrap_malloc(size_t len) { return counted(refuse() ? NULL : __real_malloc(len)); }
void *__wrap_calloc(size_t count, size_t len) { return counted(refuse() ? NULL : __real_calloc(count, len)); }
void *__wrap_realloc(void *at, size_t len) {
  void *now = refuse() ? NULL : __real_realloc(at, len);
  return at ? now : counted(now);
}
void __wrap_free(void *at) {
  blocks -= at != NULL;
  __real_free(at);
}

/* Has the library allocate this thread's block of sentences, which stays until the thread ends, and counts it no more. */
static inline void have_sentences(void) {
  pdt_options bad = {sizeof bad, PDT_MAX_RECENT + 1, 0, 0};
  pdt_table *table;
  if (pdt_open("", 0, &bad, &table) != PDT_OK) blocks = 0;
}
