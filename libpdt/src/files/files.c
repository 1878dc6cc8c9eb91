/* Checkpoints in folders: header.csv and column-0.pdt, column-1.pdt and so on. */
#include "inside.h"

#include <fcntl.h>
#include <stdio.h>
#include <sys/stat.h>

enum { PATH_BYTES = 4096 };

/* The path of a file of a checkpoint: the header's where column is negative. No path is empty: that would be the root folder's. */
static int path_of(char *path, const char *folder, int column) {
  char name[FILE_NAME];
  if (!*folder) return PDT_MISUSE;
  pdti_name_column(name, column);
  int len = snprintf(path, PATH_BYTES, "%s/%s", folder, name);
  return len >= 0 && len < PATH_BYTES ? PDT_OK : PDT_MISUSE;
}

/* Opens a file, under a number above those of the standard streams: where they are closed it would be taken for one. */
static int open_file(const char *path, int how) {
  int file;
  do file = open(path, how | O_CLOEXEC, 0666);
  while (file < 0 && errno == EINTR);
  if (file < 0 || file > 2) return file;
  int moved = fcntl(file, F_DUPFD_CLOEXEC, 3), why = errno;
  close(file);
  if (moved < 0 && how & O_CREAT) unlink(path);
  errno = why;
  return moved;
}

/* A call that a signal has cut off is made again. */
static int sync_file(int file) {
  int bad;
  do bad = fsync(file);
  while (bad && errno == EINTR);
  return bad;
}

/* Closes a file whose bytes are written, synced first. A close that a signal cuts off has closed it. */
static int end_file(int file, int code) {
  if (!code && sync_file(file)) code = PDT_IO;
  int why = errno;
  if (close(file) && errno != EINTR && !code) return PDT_IO;
  errno = why;
  return code;
}

/* Makes a file that isn't there. *made is the column of the next one then: none is ours before it is open. */
static int make_file(const char *folder, int column, int *made) {
  char path[PATH_BYTES];
  if (path_of(path, folder, column)) return -PDT_MISUSE;
  int file = open_file(path, O_WRONLY | O_CREAT | O_EXCL);
  if (file < 0) return errno == EEXIST ? -PDT_EXISTS : -PDT_IO;
  *made = column + 1;
  return file;
}

static int write_header(const pdt_table *table, const char *folder, int *made) {
  int file = make_file(folder, -1, made);
  return file < 0 ? -file : end_file(file, pdti_write_to(file, table->header, table->header_bytes));
}

bool pdti_hand_column(pdti_handle *image, size_t column, uint8_t *chunk, pdt_write write, void *context) {
  size_t len = pdtr_image_len(image, column);
  for (size_t at = 0; at < len;) {
    size_t count = pdtr_image_read(image, column, at, chunk, CHUNK);
    if (!count) errno = EIO; /* no clause says that bytes come */
    if (!count || write(context, column, chunk, count)) return false;
    at += count;
  }
  return true;
}

static int append(void *file, size_t column, const uint8_t *bytes, size_t len) {
  (void)column;
  return pdti_write_to(*(const int *)file, bytes, len);
}

static int write_column(pdti_handle *image, const char *folder, size_t column, uint8_t *chunk, int *made) {
  int file = make_file(folder, (int)column, made);
  return file < 0 ? -file : end_file(file, pdti_hand_column(image, column, chunk, append, &file) ? PDT_OK : PDT_IO);
}

/* Syncs a folder, so that the names in it last. Some file systems sync no folder, and answer EINVAL. */
static int sync_folder(const char *folder) {
  int file = open_file(folder, O_RDONLY | O_DIRECTORY);
  if (file < 0) return PDT_IO;
  int code = sync_file(file) && errno != EINVAL ? PDT_IO : PDT_OK;
  int why = errno;
  close(file); /* nothing was written through it */
  errno = why;
  return code;
}

/* Syncs the folder, and the one that it is in, so that its own name lasts: that one may be another's, and not be read. */
static int sync_names(const char *folder) {
  char parent[PATH_BYTES];
  int code = sync_folder(folder), len = snprintf(parent, sizeof parent, "%s/..", folder);
  if (code || len < 0 || len >= PATH_BYTES) return code;
  return sync_folder(parent) && errno != EACCES && errno != EPERM ? PDT_IO : PDT_OK;
}

int pdti_try_folder(const pdt_table *table, const char *folder) {
  char path[PATH_BYTES];
  for (int column = -1; column < (int)table->width; column++) {
    if (path_of(path, folder, column)) return PDT_MISUSE;
    if (!access(path, F_OK)) return PDT_EXISTS;
  }
  int file = open_file(folder, O_RDONLY | O_DIRECTORY);
  if (file < 0) return PDT_IO;
  close(file);
  return PDT_OK;
}

void pdti_free_chunk(uint8_t *chunk) {
  int why = errno;
  free(chunk);
  errno = why;
}

void pdti_remove_files(const char *folder, int end) {
  char path[PATH_BYTES];
  int why = errno;
  for (int column = -1; column < end; column++)
    if (!path_of(path, folder, column)) unlink(path);
  errno = why;
}

int pdti_write_files(const pdt_table *table, pdti_handle *image, const char *folder, uint8_t *chunk) {
  int made = -1;
  int code = write_header(table, folder, &made);
  for (size_t column = 0; column < table->width && !code; column++) code = write_column(image, folder, column, chunk, &made);
  if (!code) code = sync_names(folder);
  if (code) pdti_remove_files(folder, made);
  return code;
}

/* ---- recovery */

/* Reads a file whole into memory, which is the caller's to free. */
static int read_file(const char *path, uint8_t **bytes, size_t *len) {
  int file = open_file(path, O_RDONLY);
  if (file < 0) return PDT_IO;
  struct stat about;
  int code = fstat(file, &about) ? PDT_IO : PDT_OK;
  size_t room = code || about.st_size < 0 ? 0 : (size_t)about.st_size;
  uint8_t *into = code ? NULL : malloc(room + 1);
  if (!code && !into) code = PDT_NOMEM;
  size_t count = 0;
  while (!code && count < room) {
    ssize_t done = read(file, into + count, room - count);
    if (done < 0 && errno == EINTR) continue;
    if (done < 0) code = PDT_IO;
    if (done <= 0) break;
    count += (size_t)done;
  }
  close(file);
  if (code) {
    free(into);
    return code;
  }
  *bytes = into;
  *len = count;
  return PDT_OK;
}

pdt_code pdt_recover(const char *folder, const pdt_options *options, pdt_table **out) {
  if (!out) return PDT_MISUSE;
  *out = NULL;
  if (!folder) return PDT_MISUSE;
  char path[PATH_BYTES];
  uint8_t *header = NULL, *bytes[PDT_MAX_COLUMNS] = {NULL};
  pdt_bytes columns[PDT_MAX_COLUMNS];
  size_t len = 0, width = 0;
  int code = path_of(path, folder, -1);
  if (!code) code = read_file(path, &header, &len);
  if (!code) code = pdti_width_of(header, len, &width);
  for (size_t column = 0; column < width && !code; column++) {
    code = path_of(path, folder, (int)column);
    if (!code) code = read_file(path, &bytes[column], &columns[column].len);
    columns[column].at = bytes[column];
  }
  if (!code) code = pdt_recover_from(header, len, columns, width, options, NULL, out);
  free(header);
  for (size_t column = 0; column < width; column++) free(bytes[column]);
  return code;
}
