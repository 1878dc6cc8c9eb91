/* What a simulation is made of beside its disk: what is drawn, what was met, memory, the clock, and threads that are all played by one. A
   thread gives its turn to a drawn one where it takes a lock, waits, or calls the system; none of them is a thread of the system's. Nothing
   depends on anything but the seed. Linked with --wrap of the calls of memory, of clocks and of pthread. */
#ifndef SIMULATED_H
#define SIMULATED_H

#define _GNU_SOURCE
#include "../src/database.h"

#include <stdio.h>
#include <sys/mman.h>
#include <ucontext.h>

/* ---- what is drawn */

static uint64_t seed, first_seed;
static long events; /* of all kinds, over all runs */

static uint64_t bits(void) { /* SplitMix64 */
  uint64_t x = seed += 0x9e3779b97f4a7c15u;
  x = (x ^ (x >> 30)) * 0xbf58476d1ce4e5b9u;
  x = (x ^ (x >> 27)) * 0x94d049bb133111ebu;
  return x ^ (x >> 31);
}
static int below(int end) { return (int)(bits() % (uint64_t)end); }
static bool one_in(int of) { return !below(of); }

/* ---- what was met: each kind has to be, in as many runs as the check has */

#define KINDS(KIND)                                                        \
  KIND(OPENING, "openings")                                                \
  KIND(OPENED_AGAIN, "openings after a failed one")                        \
  KIND(READING, "openings for reading")                                    \
  KIND(LOCKED, "openings beside another")                                  \
  KIND(CLOSE, "closes")                                                    \
  KIND(CREATE_TABLE, "tables made")                                        \
  KIND(DROP_TABLE, "tables dropped")                                       \
  KIND(BEGIN, "begins")                                                    \
  KIND(DBTXN, "database transactions")                                     \
  KIND(SEVERAL_TABLES, "commits over several tables")                      \
  KIND(WRITE_ROW, "writes of rows")                                        \
  KIND(READ, "reads")                                                      \
  KIND(COMMIT, "commits")                                                  \
  KIND(LARGE_COMMIT, "commits over 64 KiB")                                \
  KIND(PREPARE, "commits prepared")                                        \
  KIND(INSTALL, "prepared commits installed")                              \
  KIND(GIVE_UP, "prepared commits given up")                               \
  KIND(ABORT, "aborts")                                                    \
  KIND(FOLD, "folds")                                                      \
  KIND(MAINTAIN, "rounds of maintenance")                                  \
  KIND(COUNT, "counts")                                                    \
  KIND(CONFLICT, "conflicts")                                              \
  KIND(TOO_OLD, "commits too old")                                         \
  KIND(UNKNOWN, "outcomes unknown")                                        \
  KIND(REFUSED_AFTER, "commits refused after a failure")                   \
  KIND(IN_FULL, "lives with sync full")                                    \
  KIND(IN_NORMAL, "lives with sync normal")                                \
  KIND(IN_OFF, "lives with sync off")                                      \
  KIND(EARLY, "lives with early reads")                                    \
  KIND(STEP_APPEND, "appends")                                             \
  KIND(STEP_SYNC, "syncs")                                                 \
  KIND(STEP_CREATE, "files of the journal made")                           \
  KIND(STEP_NAMES, "syncs of the journal's names")                         \
  KIND(STEP_FAILED, "steps that failed")                                   \
  KIND(GROUPED, "appends of several commits")                              \
  KIND(BESIDE, "appends beside a sync")                                    \
  KIND(GONE_ON, "journals gone on in a new file")                          \
  KIND(FILE_REMOVED, "files of the journal removed")                       \
  KIND(WAITED_LOCK, "waits for a lock")                                    \
  KIND(WAITED_STEP, "waits for a step")                                    \
  KIND(THREAD, "threads that the library makes")                           \
  KIND(TURN, "turns")                                                      \
  KIND(NO_MEMORY, "allocations refused")                                   \
  KIND(EINTR_CALL, "calls cut off by a signal")                            \
  KIND(SHORT_WRITE, "writes cut short")                                    \
  KIND(SHORT_READ, "reads cut short")                                      \
  KIND(FULL_DISK, "lives with a disk that fills up")                       \
  KIND(BAD_WRITE, "writes that fail")                                      \
  KIND(BAD_READ, "reads that fail")                                        \
  KIND(BAD_SYNC, "syncs that fail")                                        \
  KIND(BAD_SYNC_NAMES, "syncs of a folder that fail")                      \
  KIND(BAD_OPEN, "files that aren't opened")                               \
  KIND(BAD_CREATE, "files that aren't made")                               \
  KIND(BAD_RENAME, "renames that fail")                                    \
  KIND(BAD_UNLINK, "removals that fail")                                   \
  KIND(BAD_MKDIR, "folders that aren't made")                              \
  KIND(BAD_STAT, "files that aren't looked at")                            \
  KIND(BAD_LIST, "folders that aren't listed")                             \
  KIND(BAD_CLOSE, "closes of files that fail")                             \
  KIND(DONE_ALL_THE_SAME, "names that change though the call fails")       \
  KIND(KILL, "kills")                                                      \
  KIND(POWER, "losses of power")                                           \
  KIND(IN_OPENING, "crashes in an opening")                                \
  KIND(IN_CLOSE, "crashes in a close")                                     \
  KIND(IN_WRITE, "crashes in a write")                                     \
  KIND(IN_SYNC, "crashes in a sync")                                       \
  KIND(IN_NAMES, "crashes in a change of names")                           \
  KIND(IN_SYNC_NAMES, "crashes in a sync of a folder")                     \
  KIND(IN_OTHER, "crashes in another call")                                \
  KIND(LOST_BYTES, "files that lose bytes")                                \
  KIND(GARBAGE, "files with other bytes at their ends")                    \
  KIND(HOLES, "files with a hole before their ends")                       \
  KIND(NAME_UNDONE, "names as they were before")                           \
  KIND(TWO_NAMES, "files with both names of a rename")                     \
  KIND(LOST_COMMITS, "openings without commits that weren't acknowledged") \
  KIND(KEPT_COMMITS, "openings with commits that weren't acknowledged")    \
  KIND(TORN, "openings that cut off torn bytes")                           \
  KIND(NOTED, "waits of a second at rest")

#define KIND_NAME(kind, words) kind,
#define KIND_WORDS(kind, words) words,
enum kind { KINDS(KIND_NAME) ALL_KINDS };
static const char *const kinds[] = {KINDS(KIND_WORDS)};
static long counts[ALL_KINDS];
static void met(enum kind kind) {
  counts[kind]++;
  events++;
}

/* ---- what differs ends the run: in a child it is what was wanted, and the parent is told */

static char *told_parent;
static __attribute__((noreturn)) void fail(const char *what, long long wanted, long long found) {
  if (told_parent) snprintf(told_parent, 200, "%s: wanted %lld, found %lld", what, wanted, found);
  else fprintf(stderr, "seed %llu, event %ld: %s: wanted %lld, found %lld\n", (unsigned long long)first_seed, events, what, wanted, found);
  _exit(1);
}
static void is(const char *what, long long wanted, long long found) {
  if (wanted != found) fail(what, wanted, found);
}

/* What happens is told where TRACE is in the environment. */
static bool is_traced;
#define trace(...) (is_traced ? (void)(fprintf(stderr, "%ld ", events), fprintf(stderr, __VA_ARGS__)) : (void)0)
#define U(number) (unsigned long long)(number)

/* ---- threads: those of clients, and those that the library makes */

enum { CLIENTS = 5, THREADS = CLIENTS + 2, STACK = 512 << 10, IDLE = 10000, HELD = 8 };
typedef struct {
  ucontext_t context;
  void (*run)(int);
  void *(*made)(void *); /* of the library's: what it runs, and with what */
  void *with;
  bool is_there;
  const void *waits_for; /* a lock, a condition or a thread; null: it goes on once it is drawn */
  int64_t until;         /* when its wait is over whatever comes, or 0 */
  bool is_late;
  const pthread_mutex_t *holds[HELD]; /* the locks that it has */
} played;
static played threads[THREADS];
static char stacks[THREADS][STACK] __attribute__((aligned(64)));
static ucontext_t chooser;
static int current = -1;
static bool has_crashed;
static int turn_rate = 4; /* of how many calls one gives the turn away */
static int undrawn;       /* above 0 where no call fails, no memory is refused, and no crash comes */
static int64_t clock_ns = 1000000000;

static void give_turn(void) {
  int why = errno, me = current;
  met(TURN);
  swapcontext(&threads[me].context, &chooser);
  errno = why;
}
static void turn(void) {
  if (current >= 0 && one_in(turn_rate)) give_turn();
}
static void wait_for(const void *what) {
  threads[current].waits_for = what;
  give_turn();
}
static void wake(const void *what) {
  for (int i = 0; i < THREADS; i++)
    if (threads[i].waits_for == what) threads[i].waits_for = NULL, threads[i].until = 0;
}

static void run_thread(int place) {
  threads[place].run(place);
  threads[place].is_there = false;
  wake(&threads[place]);
  setcontext(&chooser);
}
static void start_thread(int place, void (*run)(int)) {
  played *one = &threads[place];
  if (getcontext(&one->context)) perror("getcontext"), exit(1);
  one->context.uc_stack.ss_sp = stacks[place];
  one->context.uc_stack.ss_size = STACK;
  one->context.uc_link = NULL;
  one->run = run;
  one->is_there = true;
  one->waits_for = NULL;
  one->until = 0;
  memset(one->holds, 0, sizeof one->holds);
  makecontext(&one->context, (void (*)(void))run_thread, 1, place);
}

/* The thread whose wait ends first by the clock, or -1. */
static int next_late(void) {
  int found = -1;
  for (int i = 0; i < THREADS; i++)
    if (threads[i].is_there && threads[i].until && (found < 0 || threads[i].until < threads[found].until)) found = i;
  return found;
}
/* Draws the one that goes on: where none can, or now and then, one whose wait ends by the clock. */
static int choose(void) {
  static int idle;
  int ready[THREADS], count = 0, late = next_late();
  for (int i = 0; i < THREADS; i++)
    if (threads[i].is_there && !threads[i].waits_for) ready[count++] = i;
  idle = count ? 0 : idle + 1;
  if (idle > IDLE || (!count && late < 0)) fail("threads that wait for one another", 0, 1);
  if (late < 0 || (count && !one_in(50))) return ready[below(count)];
  played *one = &threads[late];
  if (one->until > clock_ns) clock_ns = one->until;
  one->until = 0;
  one->waits_for = NULL;
  one->is_late = true;
  return late;
}
/* Plays until all clients have ended, or a crash ends all threads. */
static void play(void) {
  for (;;) {
    int there = 0;
    for (int i = 0; i < CLIENTS; i++) there += threads[i].is_there;
    if (!there) return;
    current = choose();
    swapcontext(&chooser, &threads[current].context);
    current = -1;
    for (int i = 0; i < THREADS && has_crashed; i++) threads[i].is_there = false;
  }
}

static bool is_refused(void);
static void run_made(int place) { threads[place].made(threads[place].with); }
int __wrap_pthread_create(pthread_t *thread, const pthread_attr_t *kind, void *(*run)(void *), void *with) {
  (void)kind;
  int place = CLIENTS;
  while (place < THREADS && threads[place].is_there) place++;
  if (place == THREADS || is_refused()) return EAGAIN;
  met(THREAD);
  threads[place].made = run;
  threads[place].with = with;
  start_thread(place, run_made);
  *thread = (pthread_t)place;
  return 0;
}
int __wrap_pthread_join(pthread_t thread, void **result) {
  (void)result;
  while (threads[thread].is_there) wait_for(&threads[thread]);
  return 0;
}

/* A lock is the thread that has it, 0 for none, and whether that is told when it asks again. */
typedef struct {
  int holder, tells;
} lock_word;
static lock_word *word_of(pthread_mutex_t *lock) { return (lock_word *)(void *)lock; }

/* Those that a thread may have while it calls the system, once the database is open. */
static const pthread_mutex_t *long_locks[2];
static void takes_lock(pthread_mutex_t *lock) {
  word_of(lock)->holder = current + 2; /* 1 outside all threads */
  for (int i = 0; i < HELD && current >= 0; i++)
    if (!threads[current].holds[i]) {
      threads[current].holds[i] = lock;
      return;
    }
}
static void holds_no_other(void) {
  for (int i = 0; i < HELD && current >= 0 && long_locks[0]; i++) {
    const pthread_mutex_t *lock = threads[current].holds[i];
    if (lock && lock != long_locks[0] && lock != long_locks[1]) fail("a lock that is held over a call of the system", 0, 1);
  }
}

int __wrap_pthread_mutex_init(pthread_mutex_t *lock, const pthread_mutexattr_t *kind) {
  int type = PTHREAD_MUTEX_NORMAL;
  if (kind) pthread_mutexattr_gettype(kind, &type);
  *word_of(lock) = (lock_word){0, type == PTHREAD_MUTEX_ERRORCHECK};
  return 0;
}
int __wrap_pthread_mutex_destroy(pthread_mutex_t *lock) {
  is("who holds a lock that is destroyed", 0, word_of(lock)->holder);
  return 0;
}
int __wrap_pthread_mutex_lock(pthread_mutex_t *lock) {
  lock_word *word = word_of(lock);
  turn();
  if (word->holder == current + 2 && word->tells) return EDEADLK;
  is("a thread that waits for itself", 0, word->holder == current + 2);
  while (word->holder) {
    met(WAITED_LOCK);
    wait_for(lock);
  }
  takes_lock(lock);
  return 0;
}
int __wrap_pthread_mutex_trylock(pthread_mutex_t *lock) {
  turn();
  if (word_of(lock)->holder) return EBUSY;
  takes_lock(lock);
  return 0;
}
int __wrap_pthread_mutex_unlock(pthread_mutex_t *lock) {
  lock_word *word = word_of(lock);
  is("a lock's holder gives it back", current + 2, word->holder);
  word->holder = 0;
  for (int i = 0; i < HELD && current >= 0; i++)
    if (threads[current].holds[i] == lock) threads[current].holds[i] = NULL;
  wake(lock);
  return 0;
}
int __wrap_pthread_cond_init(pthread_cond_t *moves, const pthread_condattr_t *kind) { return (void)moves, (void)kind, 0; }
int __wrap_pthread_cond_destroy(pthread_cond_t *moves) { return (void)moves, 0; }
int __wrap_pthread_cond_broadcast(pthread_cond_t *moves) { return wake(moves), 0; }
int __wrap_pthread_cond_wait(pthread_cond_t *moves, pthread_mutex_t *lock) {
  met(WAITED_STEP);
  __wrap_pthread_mutex_unlock(lock);
  wait_for(one_in(8) ? NULL : (void *)moves); /* some return at once, for no reason */
  return __wrap_pthread_mutex_lock(lock);
}
int __wrap_pthread_cond_timedwait(pthread_cond_t *moves, pthread_mutex_t *lock, const struct timespec *at) {
  played *one = &threads[current];
  __wrap_pthread_mutex_unlock(lock);
  one->until = at->tv_sec * INT64_C(1000000000) + at->tv_nsec;
  one->is_late = false;
  wait_for(moves);
  int late = one->is_late ? ETIMEDOUT : 0;
  __wrap_pthread_mutex_lock(lock);
  return late;
}
pthread_t __wrap_pthread_self(void) { return (pthread_t)(current + 2); }

/* ---- memory: a block is known until it is freed, so that a crash frees all of them. Some are refused */

typedef struct block {
  struct block *before, *after;
  size_t len, unused;
} block;
static block blocks = {&blocks, &blocks, 0, 0};
static int refusal_rate; /* one of so many allocations is refused, or none */
static long refused;
void *__real_malloc(size_t);
void *__real_calloc(size_t, size_t);
void *__real_realloc(void *, size_t);
void __real_free(void *);

static void *enter_block(block *one, size_t len) {
  if (!one) return NULL;
  *one = (block){&blocks, blocks.after, len, 0};
  blocks.after->before = one;
  blocks.after = one;
  return one + 1;
}
static void leave_block(block *one) {
  one->before->after = one->after;
  one->after->before = one->before;
}
static bool is_refused(void) {
  if (!refusal_rate || undrawn || !one_in(refusal_rate)) return false;
  met(NO_MEMORY);
  refused++;
  return true;
}
void *__wrap_malloc(size_t len) { return is_refused() ? NULL : enter_block(__real_malloc(sizeof(block) + len), len); }
void *__wrap_calloc(size_t count, size_t len) {
  void *at = __wrap_malloc(count * len);
  return at ? memset(at, 0, count * len) : at;
}
void __wrap_free(void *at) {
  if (!at) return;
  leave_block((block *)at - 1);
  __real_free((block *)at - 1);
}
void *__wrap_realloc(void *at, size_t len) {
  void *now = __wrap_malloc(len);
  if (!at || !now) return now;
  size_t before = ((block *)at - 1)->len;
  memcpy(now, at, before < len ? before : len);
  __wrap_free(at);
  return now;
}
static void free_blocks(void) {
  while (blocks.after != &blocks) __wrap_free(blocks.after + 1);
}
/* What is there now stays, and is counted no more: the library's block of sentences. */
static void keep_blocks(void) {
  while (blocks.after != &blocks) {
    block *one = blocks.after;
    leave_block(one);
    one->before = one->after = one;
  }
}
/* A page that a child of fork doesn't have: the library does without it. */
void *__real_mmap(void *, size_t, int, int, int, off_t);
void *__wrap_mmap(void *at, size_t len, int how, int kind, int file, off_t from) {
  return (void)at, (void)len, (void)how, (void)kind, (void)file, (void)from, MAP_FAILED;
}

/* ---- the clock, and random numbers */

int __wrap_clock_gettime(clockid_t clock, struct timespec *at) {
  (void)clock;
  clock_ns += 1000;
  *at = (struct timespec){clock_ns / 1000000000, clock_ns % 1000000000};
  return 0;
}
ssize_t __wrap_getrandom(void *into, size_t len, unsigned how) {
  (void)how;
  if (!undrawn && one_in(50)) return met(EINTR_CALL), errno = EINTR, -1;
  for (size_t i = 0; i < len; i++) ((uint8_t *)into)[i] = (uint8_t)bits();
  return (ssize_t)len;
}

#endif
