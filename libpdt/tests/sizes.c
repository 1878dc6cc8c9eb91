/* Programs of an earlier and of a later header: structs that begin with their size are taken and filled as far as both know them, and a
   size that was never set is refused before a byte is read or written. */
#include <pdt_arrow.h>
#include <stddef.h>
#include <stdint.h>
#include <stdio.h>
#include <stdlib.h>
#include <string.h>

static int failures;
static void is(const char *what, long long wanted, long long found) {
  if (wanted == found) return;
  failures++;
  fprintf(stderr, "%s: wanted %lld, found %lld\n", what, wanted, found);
}

enum { MORE = 40, GUARD = 0x5a };

/* The structs of the first header that had them: what came later is behind these. */
enum {
  FIRST_OPTIONS = sizeof(pdt_options),
  FIRST_COUNTS = offsetof(pdt_counts, packs),
  FIRST_DATABASE_OPTIONS = offsetof(pdt_database_options, kept_bytes),
  FIRST_REPORT = sizeof(pdt_report),
  FIRST_DATABASE_COUNTS = offsetof(pdt_database_counts, kept_bytes),
};

static const size_t garbage[] = {0, 1, sizeof(size_t), 5000, SIZE_MAX / 2, SIZE_MAX};
enum { GARBAGE = sizeof garbage / sizeof *garbage };

static const char csv[] = "id:int:key\n1\n";
static pdt_table *table;
static pdt_database *database;

/* ---- what is filled */

typedef int (*fills)(void *room);
static int fill_counts(void *room) { return pdt_count(table, room); }
static int fill_database_counts(void *room) { return pdt_database_count(database, room); }

/* No byte behind the caller's struct is written, and what a later header has more is zeros. */
static void is_filled(const char *what, fills call, size_t first, size_t now) {
  uint8_t room[4096];
  for (size_t size = first; size <= now + MORE; size += 8) {
    memset(room, GUARD, sizeof room);
    memcpy(room, &size, sizeof size);
    is(what, PDT_OK, call(room));
    size_t kept = 0;
    memcpy(&kept, room, sizeof kept);
    is("its size stays", (long long)size, (long long)kept);
    for (size_t at = now; at < size; at++) is("a member of a later header", 0, room[at]);
    for (size_t at = size; at < sizeof room; at++) is("a byte behind it", GUARD, room[at]);
  }
  for (size_t i = 0; i < GARBAGE; i++) {
    memset(room, GUARD, sizeof room);
    memcpy(room, &garbage[i], sizeof garbage[i]);
    is(what, PDT_MISUSE, call(room));
    for (size_t at = sizeof(size_t); at < sizeof room; at++) is("a byte that isn't written", GUARD, room[at]);
  }
}

/* ---- what is taken */

static int take_options(const void *given) {
  pdt_table *made = NULL;
  int code = pdt_open_csv(csv, sizeof csv - 1, given, NULL, &made);
  return pdt_close(made), code;
}
static char folder[500];
static int take_database_options(const void *given) {
  pdt_database *made = NULL;
  int code = pdt_database_open(folder, given, &made, NULL);
  return pdt_database_close(made), code;
}

static void is_taken(const char *what, int (*call)(const void *), size_t first, size_t now) {
  uint8_t *given = calloc(1, 2 * garbage[3]); /* zeros behind it: the size alone is wrong */
  for (size_t size = first; size <= now + MORE; size += 8) {
    uint8_t *exact = calloc(1, size); /* no byte behind what is said is read: a sanitizer would tell */
    memcpy(exact, &size, sizeof size);
    is(what, PDT_OK, call(exact));
    if (size > now) {
      exact[size - 1] = 1; /* a later header's member, which asks for something */
      is("what isn't known", PDT_MISUSE, call(exact));
    }
    free(exact);
  }
  for (size_t i = 0; i < GARBAGE; i++) {
    memcpy(given, &garbage[i], sizeof garbage[i]);
    is(what, PDT_MISUSE, call(given));
  }
  free(given);
}

int main(int argc, char **argv) {
  if (argc < 2) return 2;
  snprintf(folder, sizeof folder, "%s/sizes", argv[1]);
  is("open", PDT_OK, pdt_open_csv(csv, sizeof csv - 1, NULL, NULL, &table));
  is_taken("options", take_options, FIRST_OPTIONS, sizeof(pdt_options));
  is_taken("options of a database", take_database_options, FIRST_DATABASE_OPTIONS, sizeof(pdt_database_options));
  is("open", PDT_OK, pdt_database_open(folder, NULL, &database, NULL));
  is_filled("counts", fill_counts, FIRST_COUNTS, sizeof(pdt_counts));
  is_filled("counts of a database", fill_database_counts, FIRST_DATABASE_COUNTS, sizeof(pdt_database_counts));
  is("close", PDT_OK, pdt_database_close(database));
  for (size_t i = 0; i < GARBAGE; i++) {
    pdt_report report = {.size = garbage[i]};
    is("a report", PDT_MISUSE, pdt_database_open(folder, NULL, &database, &report));
  }
  pdt_report report = {.size = FIRST_REPORT};
  is("a report", PDT_OK, pdt_database_open(folder, NULL, &database, &report));
  is("close", PDT_OK, pdt_database_close(database));
  is("close", PDT_OK, pdt_close(table));
  return failures ? 1 : 0;
}
