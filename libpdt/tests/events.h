/* How a test waits for what another thread does: until it is there, however slow the machine is, and for a minute at most, after which
   the test fails. Whether a thread sleeps is read from /proc, as Linux has it. Whoever includes this defines _DEFAULT_SOURCE first. */
#include <stdbool.h>
#include <stdio.h>
#include <string.h>
#include <sys/syscall.h>
#include <time.h>
#include <unistd.h>

enum { LIMIT = 60 }; /* seconds */

static inline double seconds(void) {
  struct timespec at;
  clock_gettime(CLOCK_MONOTONIC, &at);
  return (double)at.tv_sec + (double)at.tv_nsec / 1e9;
}
static inline void pass(long ms) { nanosleep(&(struct timespec){ms / 1000, ms % 1000 * 1000000}, NULL); }

/* Looks each millisecond whether something holds. Whether it does in the end is for the caller to ask. */
#define UNTIL(what)                                                              \
  do {                                                                           \
    for (double end_ = seconds() + LIMIT; !(what) && seconds() < end_;) pass(1); \
  } while (0)

static inline long this_thread(void) { return syscall(SYS_gettid); }

/* Whether a thread sleeps: one that was in a call of the library before waits there, for a lock or for another thread's word. */
static inline bool is_asleep(long thread) {
  char path[64], line[512];
  snprintf(path, sizeof path, "/proc/self/task/%ld/stat", thread);
  FILE *file = fopen(path, "r");
  if (!file) return false;
  const char *end = fgets(line, sizeof line, file) ? strrchr(line, ')') : NULL; /* of its name, which may have anything */
  fclose(file);
  return end && !strncmp(end, ") S", 3);
}
