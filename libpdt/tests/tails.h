/* How long calls took, in as much memory for any number of them: a histogram with eight steps for each doubling of the nanoseconds. */
#include <stdint.h>
#include <stdio.h>
#include <time.h>

enum { STEPS = 8 * 62 }; /* 64 bits have 16 numbers that are steps of their own, and 60 doublings above those */

typedef struct {
  uint64_t calls, worst, steps[STEPS];
} tails;

static int64_t now(void) { /* in nanoseconds */
  struct timespec at;
  clock_gettime(CLOCK_MONOTONIC, &at);
  return at.tv_sec * INT64_C(1000000000) + at.tv_nsec;
}

static void add_time(tails *all, int64_t nanoseconds) {
  uint64_t took = (uint64_t)nanoseconds, doublings = 0;
  while (took >> doublings >= 16) doublings++;
  all->steps[8 * doublings + (took >> doublings)]++;
  all->calls++;
  if (took > all->worst) all->worst = took;
}

/* The time that so many of a hundred calls took at most, in nanoseconds: the end of its step, which is an eighth above it at most, or
   the worst. */
static uint64_t percentile(const tails *all, unsigned percent) {
  uint64_t step = 0, calls = all->steps[0];
  while (calls * 100 < all->calls * percent) calls += all->steps[++step];
  uint64_t doublings = step < 16 ? 0 : step / 8 - 1, end = ((step - 8 * doublings + 1) << doublings) - 1;
  return end < all->worst ? end : all->worst;
}

static void print_tails(const char *what, const tails *all) {
  printf("; %s p50 %.2f, p99 %.2f, worst %.2f us", what, (double)percentile(all, 50) / 1e3, (double)percentile(all, 99) / 1e3,
         (double)all->worst / 1e3);
}
