/* An engine that keeps a column in files of its own is killed at any moment, and what it left is opened: the newest generation is whole,
   its column is the one that the library keeps, and none that was told is gone. A generation is a folder with the table of a checkpoint
   and the engine's column beside it, and the file `newest` has its number: what a kill leaves besides is taken away by the next opening.
   outside_kills FOLDER KILLS SEED: the folder is empty, and a seed that isn't given is 1. */
#define _DEFAULT_SOURCE
#include "outside.h"
#include <dirent.h>
#include <errno.h>
#include <signal.h>
#include <sys/wait.h>

typedef struct {
  pdt_table *table;
  column_file column; /* of the rows of the stable table */
  int64_t generation; /* the newest one, or 0 */
} engine;

static unsigned seed = 1;
static int draw(int below) { return rand_r(&seed) % below; }

/* What the engine tells its parent: the newest generation that it has found or named, and the commits that the table of it counts. */
typedef struct {
  int64_t generation, commits;
} message;
static message told;
static int parent;

enum { STEPS = 7 }; /* of a generation, from its folder to the end of the one before */

/* Tells it after each step, and lets some time pass, so that a kill comes between any two. Where nobody reads, SIGPIPE ends it. */
static void step(void) {
  is("tell", sizeof told, write(parent, &told, sizeof told));
  usleep((unsigned)draw(1500));
}

/* ---- the files, all in the folder that the process is in */

static const char *path_of(int64_t generation, const char *file) {
  static char path[60];
  snprintf(path, sizeof path, "%lld%s", (long long)generation, file);
  return path;
}
static bool is_there(int64_t generation) { return !access(path_of(generation, ""), F_OK); }
static void take_away(int64_t generation) {
  DIR *folder = opendir(path_of(generation, ""));
  if (!folder) return;
  for (struct dirent *it; (it = readdir(folder));)
    if (*it->d_name != '.') is("unlink", 0, unlinkat(dirfd(folder), it->d_name, 0));
  closedir(folder);
  is("rmdir", 0, rmdir(path_of(generation, "")));
  step();
}

/* The generation that is named, or 0. */
static int64_t newest(void) {
  long long generation = 0;
  FILE *in = fopen("newest", "r");
  if (!in) return 0;
  is("the name", 1, fscanf(in, "%lld", &generation));
  fclose(in);
  return generation;
}
/* A name is written beside the one that is there, and put in its place: whenever it ends, one of the two is there, and whole. */
static void name_newest(message next) {
  FILE *out = fopen("next", "w");
  is("make the name", 1, out != NULL);
  if (!out) exit(1);
  step();
  fprintf(out, "%lld\n", (long long)next.generation);
  close_synced(out);
  step();
  is("rename", 0, rename("next", "newest"));
  int here = open(".", O_RDONLY);
  is("sync the folder", 1, !fsync(here) || errno == EINVAL); /* some file systems sync none */
  close(here);
  told = next;
  step();
}

/* ---- the engine */

/* The table's first row, which nothing else writes, counts its commits. */
static int64_t commits_of(pdt_txn *txn) { return cell(txn, INSIDE, 0); }

/* Puts a row, takes one away, or sets a number of one: that of both columns, or another one. */
static void write_row(pdt_txn *txn) {
  int64_t key = 5 * (1 + draw(MANY - 1)), number = draw(RAND_MAX);
  uint64_t below = 0;
  bool there = false;
  is("rank", PDT_OK, pdt_rank(txn, &key, NULL, 0, &below, &there));
  switch (draw(4)) {
    case 0: is("insert", there ? PDT_DUPLICATE : PDT_OK, pdt_insert(txn, (int64_t[]){key, number, 0, number}, NULL, 0)); break;
    case 1: is("delete", there ? PDT_OK : PDT_MISSING, pdt_delete(txn, &key, NULL, 0)); break;
    case 2: is("set", there ? PDT_OK : PDT_MISSING, pdt_set(txn, &key, NULL, 0, OTHER, number, NULL)); break;
    default: set_number(txn, key, number);
  }
}
static void commit(const engine *it) {
  pdt_txn *txn = NULL;
  is("begin", PDT_OK, pdt_begin(it->table, &txn));
  set_number(txn, 0, commits_of(txn) + 1);
  for (int i = draw(40); i > 0; i--) write_row(txn);
  is("commit", PDT_OK, pdt_commit(txn, NULL));
}

/* Writes the column and then the table, which syncs the names of both, while others commit. Says how many commits it has. */
static int64_t write_generation(const engine *it, pdt_open_checkpoint *checkpoint, int64_t generation) {
  static int64_t numbers[MANY];
  pdt_txn *txn = NULL;
  is("mkdir", 0, mkdir(path_of(generation, ""), 0777));
  step();
  commit(it);
  is("read it", PDT_OK, pdt_checkpoint_read(checkpoint, &txn));
  uint64_t rows = read_outside(txn, it->column, 0, UINT64_MAX, numbers);
  write_column(path_of(generation, "/column"), numbers, rows);
  int64_t commits = commits_of(txn);
  pdt_abort(txn);
  step();
  commit(it);
  is("write the table", PDT_OK, pdt_checkpoint_write(checkpoint, path_of(generation, "")));
  step();
  return commits;
}
/* Makes the next generation. Where a fold comes before the install, the table goes on over the stable table that it has, and so over the
   column of that, though another generation is the newest. */
static void make_next(engine *it) {
  pdt_open_checkpoint *checkpoint = NULL;
  int64_t next = it->generation + 1;
  bool folds = draw(4) == 0;
  is("begin a checkpoint", PDT_OK, pdt_checkpoint_begin(it->table, NULL, &checkpoint));
  int64_t commits = write_generation(it, checkpoint, next);
  name_newest((message){next, commits});
  take_away(it->generation);
  it->generation = next;
  if (folds) is("fold", PDT_OK, pdt_fold(it->table));
  is("install it", folds ? PDT_SUPERSEDED : PDT_OK, pdt_checkpoint_install(checkpoint));
  pdt_checkpoint_end(checkpoint);
  if (folds) return;
  unmap_column(it->column);
  it->column = map_column(path_of(next, "/column"));
}

/* Over numbers that are in no file yet. */
static void open_first(engine *it) {
  int64_t *numbers = mmap(NULL, ROWS * sizeof *numbers, PROT_READ | PROT_WRITE, MAP_PRIVATE | MAP_ANONYMOUS, -1, 0);
  if (numbers == MAP_FAILED) exit(1);
  it->table = opened(numbers);
  it->column = (column_file){numbers, ROWS};
}
/* Opens the newest generation, and says how many commits its table has. All of its rows are stable, and the column's are as many. */
static int64_t open_newest(engine *it) {
  pdt_txn *txn = NULL;
  pdt_row_run parts[2] = {{0}};
  size_t count = 2;
  it->column = map_column(path_of(it->generation, "/column"));
  is("recover", PDT_OK, pdt_recover(path_of(it->generation, ""), NULL, &it->table));
  is("begin", PDT_OK, pdt_begin(it->table, &txn));
  is("row runs", PDT_OK, pdt_row_runs(txn, 0, UINT64_MAX, parts, &count));
  is("one row run", 1, (long long)count);
  is("of stable rows", PDT_STABLE, parts[0].source);
  is("the rows of the column", (long long)parts[0].rows, (long long)it->column.rows);
  if (!failures) are_the_same("as it was opened", txn, it->column);
  int64_t commits = failures ? 0 : commits_of(txn);
  pdt_abort(txn);
  return commits;
}

/* Goes on over what is there, until it is killed. */
static void run(void) {
  engine it = {.generation = newest()};
  take_away(it.generation - 1); /* a kill leaves one of the two */
  take_away(it.generation + 1);
  if (it.generation) told = (message){it.generation, open_newest(&it)};
  else open_first(&it);
  step();
  while (!failures) {
    for (int i = draw(8); i >= 0; i--) {
      commit(&it);
      if (draw(3) == 0) is("fold", PDT_OK, pdt_fold(it.table));
      newest_is("after a commit", it.table, it.column);
    }
    make_next(&it);
    newest_is("after a checkpoint", it.table, it.column);
  }
  exit(1);
}

/* ---- who kills it */

/* Starts an engine and kills it: at any moment of its opening, or up to some generations on, after each of their steps in turn. */
static void kill_one(int number) {
  bool is_early = number % 4 == 0;
  int steps = is_early ? 0 : 1 + number % STEPS + STEPS * draw(3), wait = draw(is_early ? 8000 : 1000), other = draw(RAND_MAX);
  int line[2], status = 0;
  is("pipe", 0, pipe(line));
  fflush(NULL);
  pid_t pid = fork();
  if (!pid) {
    seed = (unsigned)other;
    parent = line[1];
    close(line[0]);
    run();
  }
  close(line[1]);
  while (steps > 0 && read(line[0], &told, sizeof told) == sizeof told) steps--;
  is("steps to go", 0, steps);
  usleep((unsigned)wait);
  kill(pid, SIGKILL);
  is("wait", pid, waitpid(pid, &status, 0));
  is("killed", SIGKILL, WIFSIGNALED(status) ? WTERMSIG(status) : 0);
  while (read(line[0], &told, sizeof told) == sizeof told) {}
  close(line[0]);
}
/* Looks at what a kill left: what was told last, or the next generation, which wasn't told yet. Says whether it was in the midst of one. */
static bool look(void) {
  engine it = {.generation = newest()};
  bool more = it.generation > told.generation, is_half = is_there(it.generation + 1);
  is("the generation", told.generation + more, it.generation);
  is("one beside it", 0, is_half && is_there(it.generation - 1));
  if (!it.generation) return is_half;
  int64_t commits = open_newest(&it);
  is("its commits", 1, more ? commits > told.commits : commits == told.commits);
  unmap_column(it.column);
  is("close", PDT_OK, pdt_close(it.table));
  return is_half;
}

int main(int argc, char **argv) {
  if (argc < 3 || chdir(argv[1])) return 2;
  if (argc > 3) seed = (unsigned)atoi(argv[3]);
  unsigned first = seed;
  int wanted = atoi(argv[2]), kills = 0, halves = 0;
  while (kills < wanted && !failures) {
    kill_one(kills++);
    halves += look();
  }
  is("a kill in the midst of a generation", 1, halves > 0);
  printf("%d kills, %d of them in the midst of a generation, of %lld that were told\n", kills, halves, (long long)told.generation);
  if (!failures) return 0;
  return fprintf(stderr, "outside_kills: the seed was %u, and the kill that failed number %d\n", first, kills), 1;
}
