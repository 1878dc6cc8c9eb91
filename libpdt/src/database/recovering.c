/* Opening a database: what its folder has, and where its journal goes on. Nothing is changed before all of it is found. */
#include "database.h"

#include <fcntl.h>
#include <stdio.h>
#include <sys/file.h>
#include <sys/random.h>
#include <sys/stat.h>

/* Names the file that a code is about. */
static int about(pdt_report *report, const char *file, int code) {
  if (code) snprintf(report->file, sizeof report->file, "%s", file);
  return code;
}

/* ---- the folder */

int pdti_make_folder(const char *folder, mode_t mode, bool *is_new) {
  *is_new = !mkdir(folder, pdti_folder_mode(mode));
  return *is_new || errno == EEXIST ? PDT_OK : PDT_IO;
}

/* Makes the name of the folder durable, whoever made it. */
static int keep_folder(const pdt_database *database) {
  int dir = pdti_open_in(database->dir, "..", O_RDONLY | O_DIRECTORY);
  int code = dir < 0 || pdti_sync_in(dir) ? PDT_IO : PDT_OK;
  if (code && (errno == EACCES || errno == EPERM)) code = PDT_OK; /* it is another's, who keeps it */
  int why = errno;
  if (dir >= 0) close(dir);
  errno = why;
  return code;
}

/* A call that a signal has cut off is made again. */
static int lock(int file, int how) {
  int bad;
  do bad = flock(file, how | LOCK_NB);
  while (bad && errno == EINTR);
  return !bad ? PDT_OK : errno == EWOULDBLOCK ? PDT_LOCKED : PDT_IO;
}

/* Opens the file `lock`, or makes it where the database isn't only read. */
static int open_lock(pdt_database *database) {
  bool reads = database->options.read_only;
  database->lock_file = pdti_open_in(database->dir, "lock", reads ? O_RDONLY : O_RDWR);
  if (database->lock_file >= 0 || errno != ENOENT) return database->lock_file < 0 ? PDT_IO : PDT_OK;
  if (reads) return PDT_OK;
  database->lock_file = pdti_make_in(database, database->dir, "lock", O_RDWR);
  database->has_made_lock = database->lock_file >= 0;
  return database->lock_file < 0 ? PDT_IO : PDT_OK;
}

/* A file of the folder can be taken away by hand, and another be made in its place; the folder itself can't while it has the database.
   Some file systems lock no folder, or none that is open for reading alone: there it is the file's lock alone. Openings that only read
   share both, and make no file: where there is none the folder's lock is enough. */
int pdti_lock_folder(pdt_database *database) {
  bool reads = database->options.read_only;
  int how = reads ? LOCK_SH : LOCK_EX;
  int code = open_lock(database);
  if (!code && database->lock_file >= 0) code = lock(database->lock_file, how);
  if (code) return code;
  code = lock(database->dir, how);
  database->locks_none = code == PDT_IO && (errno == EBADF || errno == EINVAL || errno == EOPNOTSUPP);
  return database->locks_none ? PDT_OK : code;
}

bool pdti_has_lost_lock(const pdt_database *database) {
  struct stat ours, there;
  if (!database->locks_none || fstat(database->lock_file, &ours)) return false;
  if (fstatat(database->dir, "lock", &there, AT_SYMLINK_NOFOLLOW)) return errno == ENOENT;
  return ours.st_ino != there.st_ino || ours.st_dev != there.st_dev;
}

/* Takes the manifest away, and says whether it stays away: with one and without the journal the folder would have lost a file. */
static bool is_manifest_gone(int dir) { return unlinkat(dir, "manifest", 0) ? errno == ENOENT : !pdti_sync_in(dir); }

void pdti_remove_new(pdt_database *database, const char *folder) {
  if (database->has_made_lock) pdti_remove_in(database->dir, "lock");
  if (!folder) return;
  if (database->dir >= 0 && is_manifest_gone(database->dir)) pdti_remove_in(database->dir, "journal-1");
  rmdir(folder);
}

/* ---- what is new */

/* What is in a folder without a manifest, that one would have named. */
typedef struct {
  int dir;
  size_t count;
  int why; /* errno, where a file isn't known */
} pdti_leftovers;

static void count_image(void *context, const char *name, uint64_t member, uint64_t folder) {
  (void)name, (void)member, (void)folder;
  ((pdti_leftovers *)context)->count++;
}

static void count_journal(void *context, const char *name, uint64_t seq, uint64_t second) {
  pdti_leftovers *found = context;
  struct stat about;
  (void)seq, (void)second;
  if (fstatat(found->dir, name, &about, 0)) found->why = errno;
  else if (about.st_size) found->count++; /* an empty one was made, and nothing came of it */
}

/* Draws what its frames are told by from any other's. */
static int draw(uint64_t *number) {
  ssize_t got;
  do got = getrandom(number, sizeof *number, 0);
  while (got < 0 && errno == EINTR);
  return got == sizeof *number ? PDT_OK : PDT_IO;
}

/* Makes an empty file of the journal, and its name durable. */
static int make_journal(pdt_database *database, uint64_t seq) {
  char name[FILE_NAME];
  pdti_name_journal(name, seq);
  int file = pdti_make_new(database, database->dir, name, O_WRONLY | O_APPEND);
  if (file < 0) return PDT_IO;
  close(file);
  return pdti_sync_in(database->dir);
}

int pdti_begin_journal(pdt_database *database) {
  uint8_t header[JOURNAL_HEADER];
  do /* a salt of which there are no frames is drawn once in 2^32 times */
    if (draw(&database->salt)) return PDT_IO;
  while (!pdtr_journal_header(database->salt, database->name, 0, header, sizeof header));
  database->files[0] = (pdti_journal_file){.seq = 1};
  database->file_count = 1;
  return keep_folder(database) ? PDT_IO : make_journal(database, 1);
}

/* Makes the manifest of a database in a folder that has none, after its journal. Where images, types or frames are there, it is lost. */
static int make_new(pdt_database *database) {
  pdti_leftovers found = {database->dir, 0, 0};
  struct stat about;
  int code = pdti_names(database->dir, PDTI_IMAGE, count_image, &found);
  if (!code) code = pdti_names(database->dir, PDTI_TYPES, count_image, &found);
  if (!code) code = pdti_names(database->dir, PDTI_JOURNAL, count_journal, &found);
  if (code) return code;
  if (found.count) return PDT_INCOMPLETE;
  if (found.why) return errno = found.why, PDT_IO;
  database->next_table = database->next_folder = 1;
  code = draw(&database->name) || pdti_begin_journal(database) ? PDT_IO : pdti_write_manifest(database, 0, NULL, NULL);
  int why = errno;
  bool has_none = code && fstatat(database->dir, "manifest", &about, 0) && errno == ENOENT;
  if (has_none) pdti_remove_in(database->dir, "journal-1"); /* which has no byte */
  errno = why;
  return code;
}

/* ---- the journal */

/* What was read of the journal: the frames of its files, one after the other. */
typedef struct {
  pdt_database *database;
  pdti_buffer frames;
  pdti_segment files[JOURNAL_FILES]; /* what each file is */
  uint64_t first;                    /* the number of the first file that an image wants */
  bool is_full;
} pdti_journal_read;

/* Enters a file of the journal in the order of their numbers. */
static void list_file(void *context, const char *name, uint64_t seq, uint64_t second) {
  pdti_journal_read *read = context;
  pdt_database *database = read->database;
  (void)name, (void)second;
  if (seq < read->first) return;
  if (database->file_count == JOURNAL_FILES) {
    read->is_full = true;
    return;
  }
  size_t at = database->file_count++;
  for (; at && database->files[at - 1].seq > seq; at--) database->files[at] = database->files[at - 1];
  database->files[at] = (pdti_journal_file){.seq = seq};
}

/* Reads a file after those before it. */
static int read_file(pdti_journal_read *read, size_t at, char *name) {
  pdt_database *database = read->database;
  pdti_journal_file *file = &database->files[at];
  pdti_segment *found = &read->files[at];
  pdti_buffer bytes = {NULL, 0, 0};
  pdti_name_journal(name, file->seq);
  int code = pdti_read_in(database->dir, name, &bytes);
  if (code == PDT_MISSING) code = PDT_INCOMPLETE;
  if (!code)
    code = (int)pdtr_journal_file(read->first + at, file->seq, database->salt, database->name, bytes_at(bytes.at, bytes.len), bytes.len,
                                  found);
  if (!code) code = pdti_reserve(&read->frames, bytes.len + 1);
  if (!code) {
    *file = (pdti_journal_file){file->seq, found->base, bytes.len};
    if (found->len) memcpy(read->frames.at + read->frames.len, bytes.at + found->front, found->len);
    read->frames.len += found->len;
  }
  free(bytes.at);
  return code;
}

/* Reads the files of the journal from the first that an image wants. */
static int read_journal(pdti_journal_read *read, pdt_report *report) {
  pdt_database *database = read->database;
  database->file_count = 0;
  int listed = pdti_names(database->dir, PDTI_JOURNAL, list_file, read);
  if (listed) return listed;
  if (read->is_full || !database->file_count) return about(report, "journal", PDT_INCOMPLETE);
  for (size_t i = 0; i < database->file_count; i++) {
    char name[FILE_NAME];
    int code = read_file(read, i, name);
    if (code) return about(report, name, code);
  }
  return PDT_OK;
}

/* ---- the tables */

/* All tables come to one commit, since they are made of the same frames. */
static int test_equal(const pdti_reopened *found, uint64_t newest, pdt_report *report) {
  if (found->newest == newest) return PDT_OK;
  *report->file = 0;
  return PDT_MISMATCH;
}

/* Opens each table over its image, with the commits since. */
static int open_each(pdt_database *database, pdti_frames *frames, pdti_reopened *found, pdt_report *report) {
  uint64_t oldest = UINT64_MAX, newest = 0;
  for (size_t i = 0; i < database->count; i++) {
    pdti_member *entry = database->members[i];
    int code = pdti_open_image(database, entry, frames, found, report->file);
    if (!code) code = pdti_read_types(database, entry, report->file);
    if (!i) newest = found->newest;
    if (!code) code = test_equal(found, newest, report);
    if (code) {
      report->fault = found->fault;
      return code;
    }
    report->file[0] = 0;
    if (entry->image.number < oldest) oldest = entry->image.number;
  }
  report->replayed += found->newest - oldest;
  return PDT_OK;
}

/* Reads the frames once, and opens the tables on them. */
static int open_tables(pdti_journal_read *read, uint64_t number, pdti_reopened *found, pdt_report *report) {
  pdt_database *database = read->database;
  if (!database->count) return PDT_OK;
  uint64_t base = pdtr_journal_base(number, read->files, database->file_count);
  pdti_frames frames = {{NULL}, bytes_at(read->frames.at, read->frames.len), read->frames.len};
  int code = (int)pdtr_frames_read(database->salt, base, frames.at, frames.len, &frames.read);
  if (code) return code;
  code = open_each(database, &frames, found, report);
  int why = errno;
  pdtr_frames_close(&frames.read);
  errno = why;
  return code;
}

/* ---- where the journal goes on */

/* Puts the frames of a file that stay into another one, behind its header if there are any, which the device takes. */
static int copy_frames(const pdti_journal_read *read, size_t place, const uint8_t *frames, size_t kept, const char *name) {
  pdt_database *database = read->database;
  const pdti_segment *of = &read->files[place];
  uint8_t header[JOURNAL_HEADER];
  size_t front = kept ? of->front : 0; /* it is written with the first frame */
  if (front && !pdtr_journal_header(database->salt, database->name, of->base, header, sizeof header)) return PDT_CORRUPT;
  int file = pdti_make_new(database, database->dir, name, O_WRONLY);
  if (file < 0) return PDT_IO;
  int code = pdti_write_to(file, header, front);
  return pdti_close_synced(file, code ? code : pdti_write_to(file, frames, kept));
}

/* Writes a file anew with the frames that stay. Where a sync has failed before, the system may hold bytes that the device hasn't, and takes
   them for written: only what is written again is sure to be there. */
static int write_anew(const pdti_journal_read *read, size_t place, const uint8_t *frames, size_t kept) {
  pdt_database *database = read->database;
  pdti_journal_file *file = &database->files[place];
  char name[FILE_NAME];
  pdti_name_journal(name, file->seq);
  int code = copy_frames(read, place, frames, kept, "journal-new");
  if (!code && renameat(database->dir, "journal-new", database->dir, name)) code = PDT_IO;
  if (code) pdti_remove_in(database->dir, "journal-new"); /* it may be what has filled the disk */
  if (!code) code = pdti_sync_in(database->dir);
  if (!code) file->bytes = kept ? read->files[place].front + kept : 0;
  return code;
}

/* A last file that has its header and no frame is written anew without it. */
static int empty_last(const pdti_journal_read *read) {
  const pdt_database *database = read->database;
  size_t last = database->file_count - 1;
  bool has_none = database->count && database->files[last].bytes && database->files[last].bytes <= read->files[last].front;
  return has_none && !database->options.read_only ? write_anew(read, last, pdti_no_bytes, 0) : PDT_OK;
}

/* Keeps what is torn where it has whole frames, and says where. */
static int keep_frames(const pdti_journal_read *read, const pdti_reopened *found, size_t torn, pdt_report *report) {
  const pdt_database *database = read->database;
  const uint8_t *at = read->frames.at + found->whole;
  if (!torn || !pdtr_has_frames(database->salt, found->newest, at, torn)) return PDT_OK;
  return pdti_keep_torn(database, database->files[database->file_count - 1].seq, at, torn, report->file);
}

/* Finds where frames go on, with all commits that the manifest knows to be durable before it, and leaves what is torn behind. */
static int cut_torn(pdti_journal_read *read, const pdti_reopened *found, uint64_t number, pdt_report *report) {
  const pdt_database *database = read->database;
  pdti_journal_end end = {0, 0, 0, 0, false};
  int code = (int)pdtr_journal_end(read->files, database->file_count, found->newest, found->whole, number, &end);
  report->fault = end.missing;
  report->torn_bytes += end.torn;
  if (code || database->options.read_only) return code;
  code = keep_frames(read, found, end.torn, report);
  return code || !end.is_anew ? code : write_anew(read, end.place, read->frames.at + found->whole - end.kept, end.kept);
}

/* Opens the last file of the journal, in which frames go on. */
static int open_last(pdt_database *database) {
  if (database->options.read_only) return PDT_OK;
  char name[FILE_NAME];
  pdti_journal_file *last = &database->files[database->file_count - 1];
  pdti_name_journal(name, last->seq);
  database->file = pdti_open_in(database->dir, name, O_WRONLY | O_APPEND);
  return database->file < 0 ? PDT_IO : PDT_OK;
}

/* Begins a new file where no table wants one of those that are there, but for one with no bytes. */
static int begin_anew(pdt_database *database, uint64_t number) {
  if (database->options.read_only || (database->file_count == 1 && !database->files[0].bytes)) return PDT_OK;
  uint64_t seq = database->files[database->file_count - 1].seq + 1;
  if (make_journal(database, seq)) return PDT_IO;
  database->files[0] = (pdti_journal_file){.seq = seq};
  database->file_count = 1;
  return pdti_write_manifest(database, number, NULL, NULL);
}

static void remove_old_journal(void *context, const char *name, uint64_t seq, uint64_t second) {
  pdt_database *database = context;
  if (!second && seq < database->files[0].seq) unlinkat(database->dir, name, 0);
}

/* ---- all of it */

/* Reads the manifest. Where there is none the database is made: of the files of a run, or new. */
static int find_manifest(pdt_database *database, uint64_t *number, pdti_journal_read *read, pdt_report *report) {
  int code = pdti_read_manifest(database, number, &read->first);
  if (code != PDT_MISSING || database->options.read_only) return about(report, "manifest", code);
  bool has_run = false;
  if (pdti_find_run(database, &has_run)) return PDT_IO;
  if (has_run) {
    code = pdti_import(database, report);
    return code ? code : about(report, "manifest", pdti_read_manifest(database, number, &read->first));
  }
  read->first = 1;
  return about(report, "manifest", make_new(database));
}

/* The image of a table that no commit has changed since is that of the newest commit too. */
static void renumber_unchanged(pdti_member *entry, uint64_t newest) {
  pdti_handle *raw = &entry->table->raw;
  if (!pdtr_write_entries(raw) && !pdtr_read_entries(raw)) entry->image.number = newest;
}

/* The tables go on after the newest commit, which is durable. */
static int attach_tables(pdt_database *database, uint64_t newest) {
  for (size_t i = 0; i < database->count; i++)
    if (pdti_make_room_for_numbers(database->members[i]->table)) return PDT_NOMEM;
  for (size_t i = 0; i < database->count; i++) {
    pdti_attach(database, database->members[i], newest);
    renumber_unchanged(database->members[i], newest);
  }
  return PDT_OK;
}

/* Finds the tables and where the journal goes on, and changes nothing before all of it is found. */
static int recover(pdt_database *database, pdti_journal_read *read, pdt_report *report) {
  uint64_t number = 0;
  int code = find_manifest(database, &number, read, report);
  if (code) return code;
  /* what a process left that was killed may have names that aren't durable: nothing is relied on, or taken away, before they are */
  if (!database->options.read_only && pdti_sync_in(database->dir)) return PDT_IO;
  code = read_journal(read, report);
  pdti_reopened found = {0, number, 0};
  if (!code) code = open_tables(read, number, &found, report);
  if (!code) code = database->count ? cut_torn(read, &found, number, report) : begin_anew(database, number);
  if (!code) code = empty_last(read);
  if (!code) code = open_last(database);
  if (code) return code;
  report->commits = found.newest;
  database->published = found.newest;
  code = pdti_open_journal(database, found.newest);
  return code ? code : attach_tables(database, found.newest);
}

int pdti_open_folder(pdt_database *database, pdt_report *report) {
  pdti_journal_read *read = calloc(1, sizeof *read);
  if (!read) return PDT_NOMEM;
  read->database = database;
  int code = recover(database, read, report);
  int why = errno;
  free(read->frames.at);
  free(read);
  errno = why;
  if (code || database->options.read_only) return code;
  pdti_remove_images(database);
  pdti_remove_run(database);
  (void)pdti_names(database->dir, PDTI_JOURNAL, remove_old_journal, database);
  return PDT_OK;
}
