/* Opening a folder that the program has made with a journal: it becomes a database with one table. The run's files are read, and none is
   changed before the manifest is there, from which on it is a database; then they are taken away. The database has the name of the run's
   table, so that files of that name are known to be its own. */
#include "database.h"

#include <fcntl.h>
#include <stdio.h>
#include <sys/stat.h>

enum { TABLE = 1 };

/* The bytes of a run's files, and what the headers of its journals say. */
typedef struct {
  pdti_buffer header, columns[PDT_MAX_COLUMNS], marks, commits;
  pdti_slice slices[PDT_MAX_COLUMNS];
  size_t width;
  pdti_journal_header marked, logged;
} pdti_run_files;

static void free_files(pdti_run_files *run) {
  free(run->header.at);
  for (size_t i = 0; i < PDT_MAX_COLUMNS; i++) free(run->columns[i].at);
  free(run->marks.at);
  free(run->commits.at);
}

static int look_for(const pdt_database *database, const char *name, bool *is_there) {
  struct stat about;
  *is_there = !fstatat(database->dir, name, &about, AT_SYMLINK_NOFOLLOW);
  return *is_there || errno == ENOENT ? PDT_OK : PDT_IO;
}

int pdti_find_run(const pdt_database *database, bool *has_run) {
  int code = look_for(database, "images.pdt", has_run);
  return code || *has_run ? code : look_for(database, "journal.pdt", has_run);
}

/* ---- reading: the tests are in the order of `pdt recover` */

static int read_one(pdt_database *database, const char *name, pdti_buffer *into, char *file) {
  snprintf(file, FILE_NAME, "%s", name);
  int code = pdti_read_in(database->dir, name, into);
  return code == PDT_MISSING ? PDT_INCOMPLETE : code;
}

/* A header that is none of a table is damaged, as a file that isn't what it was. */
static int read_table(pdt_database *database, pdti_run_files *run, char *file) {
  char name[FILE_NAME];
  pdti_name_column(name, -1);
  int code = read_one(database, name, &run->header, file);
  if (!code) code = pdti_width_of(bytes_at(run->header.at, run->header.len), run->header.len, &run->width);
  if (code == PDT_BAD_TABLE || code == PDT_TOO_MANY_ROWS) code = PDT_CORRUPT;
  for (size_t i = 0; i < run->width && !code; i++) {
    pdti_name_column(name, (int)i);
    code = read_one(database, name, &run->columns[i], file);
    run->slices[i] = (pdti_slice){bytes_at(run->columns[i].at, run->columns[i].len), run->columns[i].len};
  }
  return code;
}

static int read_header(const pdti_buffer *bytes, pdti_journal_header *header, const char *name, char *file) {
  snprintf(file, FILE_NAME, "%s", name);
  return (int)pdtr_journal_read(bytes_at(bytes->at, bytes->len), bytes->len, header);
}

/* Reads all of it. *file is the one that a code is about. */
static int read_run(pdt_database *database, pdti_run_files *run, char *file) {
  int code = read_table(database, run, file);
  if (!code) code = read_one(database, "images.pdt", &run->marks, file);
  if (!code) code = read_one(database, "journal.pdt", &run->commits, file);
  if (!code) code = read_header(&run->marks, &run->marked, "images.pdt", file);
  if (!code) code = read_header(&run->commits, &run->logged, "journal.pdt", file);
  return !code && run->marked.store != run->logged.store ? PDT_MISMATCH : code;
}

/* The number of the newest image. A fault of the columns names a column, if it names one. */
static int number_of(const pdti_run_files *run, uint64_t *number, pdt_report *report) {
  pdti_marked_image found = {0, 0};
  int code = (int)pdtr_marked(bytes_at(run->header.at, run->header.len), run->header.len, run->slices, run->width, run->marked.salt,
                              run->marked.base, bytes_at(run->marks.at + JOURNAL_HEADER, run->marks.len - JOURNAL_HEADER),
                              run->marks.len - JOURNAL_HEADER, &found);
  *number = found.number;
  if (code == PDT_CORRUPT || code == PDT_INCOMPLETE || code == PDT_MISMATCH) {
    report->fault = found.place;
    snprintf(report->file, sizeof report->file, "images.pdt");
  } else if (code == PDT_BAD_CHECKPOINT && found.place < run->width) {
    pdti_name_column(report->file, (int)found.place);
  }
  return code;
}

/* Opens the newest image with the commits since. The limits of a run aren't stored, so that the table has the widest. */
static int open_run(const pdti_run_files *run, pdti_member *entry, pdt_report *report) {
  uint64_t number = 0;
  report->file[0] = 0;
  int code = number_of(run, &number, report);
  if (code) return code;
  pdt_table *table = calloc(1, sizeof *table);
  if (!table) return PDT_NOMEM;
  (void)pdti_options_of(NULL, &entry->options);
  pdti_reopened found = {0, 0, 0};
  size_t len = run->commits.len - JOURNAL_HEADER;
  pdti_frames frames = {{NULL}, bytes_at(run->commits.at + JOURNAL_HEADER, len), len};
  code = (int)pdtr_frames_read(run->logged.salt, run->logged.base, frames.at, len, &frames.read);
  if (!code)
    code = (int)pdtr_reopen(bytes_at(run->header.at, run->header.len), run->header.len, run->slices, run->width, entry->options.recent,
                            entry->options.row_limit, entry->options.by_row, number, 0, &frames.read, frames.at, len, &found, &table->raw);
  if (frames.read.at) pdtr_frames_close(&frames.read);
  if (code) {
    free(table);
    report->fault = found.fault;
    if (code == PDT_CORRUPT || code == PDT_INCOMPLETE || code == PDT_MISMATCH) snprintf(report->file, sizeof report->file, "journal.pdt");
    return code;
  }
  report->replayed = found.newest - number;
  report->torn_bytes = len - found.whole;
  entry->number = TABLE;
  entry->width = run->width;
  entry->image.number = found.newest;
  memcpy(entry->name, PDT_IMPORTED, sizeof PDT_IMPORTED);
  return pdti_adopt(table, &entry->options, &entry->table);
}

/* ---- writing */

/* What an import that was cut short has left: the first image of the first table, and a file of the journal with no bytes. All else is of
   a database whose manifest is lost. */
typedef struct {
  int dir;
  bool has_image;
  size_t others;
} pdti_leftovers;

static void count_image(void *context, const char *name, uint64_t member, uint64_t folder) {
  pdti_leftovers *found = context;
  (void)name;
  if (member == TABLE && folder == 1) found->has_image = true;
  else found->others++;
}

static void count_journal(void *context, const char *name, uint64_t seq, uint64_t second) {
  pdti_leftovers *found = context;
  struct stat about;
  (void)second;
  if (seq != 1 || fstatat(found->dir, name, &about, 0) || about.st_size) found->others++;
}

static int clear_leftovers(pdt_database *database) {
  pdti_leftovers found = {database->dir, false, 0};
  int code = pdti_names(database->dir, PDTI_IMAGE, count_image, &found);
  if (!code) code = pdti_names(database->dir, PDTI_JOURNAL, count_journal, &found);
  if (code) return code;
  if (found.others) return PDT_INCOMPLETE;
  if (found.has_image) pdti_remove_image(database, TABLE, 1);
  return PDT_OK;
}

/* Makes the database: the journal, whose frames have a salt of their own, the image, and then the manifest that names them. */
static int make_database(pdt_database *database, pdti_member *entry, uint64_t name) {
  uint64_t number = entry->image.number;
  int code = clear_leftovers(database);
  database->name = name;
  database->next_table = TABLE + 1;
  entry->image.folder = 1;
  database->next_folder = 2;
  if (!code) code = pdti_begin_journal(database);
  if (!code) code = pdti_write_first(database, entry);
  return code ? code : pdti_write_manifest(database, number, entry, NULL);
}

int pdti_import(pdt_database *database, pdt_report *report) {
  pdti_run_files *run = calloc(1, sizeof *run);
  pdti_member *entry = calloc(1, sizeof *entry);
  int code = run && entry ? PDT_OK : PDT_NOMEM;
  if (!code) code = read_run(database, run, report->file);
  if (!code) code = open_run(run, entry, report);
  if (!code) {
    code = make_database(database, entry, run->logged.store);
    snprintf(report->file, sizeof report->file, "%s", code ? "manifest" : "");
  }
  int why = errno;
  if (run) free_files(run);
  free(run);
  if (entry) pdti_free_entry(entry);
  errno = why;
  return code;
}

/* ---- the run's files, once it is a database */

/* Whether the folder has the journal of the run that the database was made of. */
static bool has_own_run(pdt_database *database) {
  pdti_buffer bytes = {NULL, 0, 0};
  pdti_journal_header header = {0, 0, 0};
  bool is_own = !pdti_read_in(database->dir, "journal.pdt", &bytes) &&
                !pdtr_journal_read(bytes_at(bytes.at, bytes.len), bytes.len, &header) && header.store == database->name;
  free(bytes.at);
  return is_own;
}

/* The header says how many columns there are, and goes after them; the journal says whose files they are, and goes last. */
void pdti_remove_run(pdt_database *database) {
  pdti_buffer header = {NULL, 0, 0};
  size_t width = 0;
  char name[FILE_NAME];
  if (!has_own_run(database)) return;
  pdti_name_column(name, -1);
  int code = pdti_read_in(database->dir, name, &header);
  if (!code) code = pdti_width_of(bytes_at(header.at, header.len), header.len, &width);
  free(header.at);
  if (code && code != PDT_MISSING) return;
  for (size_t i = 0; i < width; i++) {
    pdti_name_column(name, (int)i);
    if (unlinkat(database->dir, name, 0) && errno != ENOENT) return;
  }
  pdti_name_column(name, -1);
  const char *const rest[] = {"images.pdt", name, "journal.pdt"};
  for (size_t i = 0; i < 3; i++)
    if (pdti_sync_in(database->dir) || (unlinkat(database->dir, rest[i], 0) && errno != ENOENT)) return;
}
