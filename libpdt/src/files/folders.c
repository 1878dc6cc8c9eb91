/* Files by their names in a database's folder. */
#include "database.h"

#include <dirent.h>
#include <fcntl.h>
#include <stdio.h>
#include <sys/stat.h>

int pdti_reserve(pdti_buffer *into, size_t more) {
  if (into->room - into->len >= more) return PDT_OK;
  size_t room = into->room ? into->room : 4096;
  while (room - into->len < more) room *= 2;
  uint8_t *at = realloc(into->at, room);
  if (!at) return PDT_NOMEM;
  into->at = at;
  into->room = room;
  return PDT_OK;
}

/* Under a number above those of the standard streams: where they are closed it would be taken for one. In a folder no link is followed,
   and a pipe of that name is waited for by nobody. */
static int open_as(int dir, const char *name, int how, mode_t mode) {
  if (dir != AT_FDCWD) how |= O_NOFOLLOW | O_NONBLOCK;
  int file;
  do file = openat(dir, name, how | O_CLOEXEC, mode);
  while (file < 0 && errno == EINTR);
  if (file < 0 || file > 2) return file;
  int moved = fcntl(file, F_DUPFD_CLOEXEC, 3), why = errno;
  close(file);
  errno = why;
  return moved;
}

int pdti_open_in(int dir, const char *name, int how) { return open_as(dir, name, how, 0); }

int pdti_make_in(const pdt_database *database, int dir, const char *name, int how) {
  return open_as(dir, name, how | O_CREAT, database->options.mode);
}

/* One of this name that a crash or an earlier try has left goes first, and isn't emptied: a crash may have left both names of a rename on
   one file, which the other name still needs. */
int pdti_make_new(const pdt_database *database, int dir, const char *name, int how) {
  if (unlinkat(dir, name, 0) && errno != ENOENT) return -1;
  return pdti_make_in(database, dir, name, how | O_EXCL);
}

/* Who may read a file may look into its folder. */
mode_t pdti_folder_mode(mode_t mode) { return mode | (mode & 0444) >> 2; }

int pdti_write_to(int file, const void *bytes, size_t len) {
  const uint8_t *at = bytes;
  while (len) {
    ssize_t done = write(file, at, len);
    if (done < 0 && errno == EINTR) continue;
    if (!done) errno = EIO;
    if (done <= 0) return PDT_IO;
    at += done;
    len -= (size_t)done;
  }
  return PDT_OK;
}

/* A call that a signal has cut off is made again; of no other a second answer is asked, since it would be about less. */
int pdti_sync(int file) {
  int bad;
  do bad = fdatasync(file);
  while (bad && errno == EINTR);
  return bad ? PDT_IO : PDT_OK;
}

/* Some file systems sync no folder, and answer EINVAL. */
int pdti_sync_in(int dir) {
  int bad;
  do bad = fsync(dir);
  while (bad && errno == EINTR);
  return bad && errno != EINVAL ? PDT_IO : PDT_OK;
}

int pdti_close_synced(int file, int code) {
  if (!code) code = pdti_sync(file);
  int why = errno;
  if (close(file) && errno != EINTR && !code) return PDT_IO;
  errno = why;
  return code;
}

void pdti_remove_in(int dir, const char *name) {
  int why = errno;
  unlinkat(dir, name, 0);
  errno = why;
}

/* The bytes come after those that are there. */
int pdti_read_in(int dir, const char *name, pdti_buffer *into) {
  int file = pdti_open_in(dir, name, O_RDONLY);
  if (file < 0) return errno == ENOENT ? PDT_MISSING : PDT_IO;
  struct stat about;
  int code = fstat(file, &about) ? PDT_IO : PDT_OK;
  if (!code && !S_ISREG(about.st_mode)) {
    errno = EINVAL;
    code = PDT_IO;
  }
  size_t len = code || about.st_size < 0 ? 0 : (size_t)about.st_size;
  if (!code) code = pdti_reserve(into, len + 1);
  while (!code && len) {
    ssize_t done = read(file, into->at + into->len, len);
    if (done < 0 && errno == EINTR) continue;
    if (done < 0) code = PDT_IO;
    if (done <= 0) break;
    into->len += (size_t)done;
    len -= (size_t)done;
  }
  int why = errno;
  close(file);
  errno = why;
  return code;
}

int pdti_take_bytes(pdti_handle *bytes, pdti_buffer *into) {
  size_t len = pdtr_image_len(bytes, 0);
  int code = pdti_reserve(into, len);
  if (!code) into->len += pdtr_image_read(bytes, 0, 0, into->at + into->len, len);
  pdtr_image_close(bytes);
  return code;
}

/* ---- names */

void pdti_name_file(char *name, uint32_t kind, uint64_t first, uint64_t second) {
  if (!pdtr_file_name(kind, first, second, (uint8_t *)name, FILE_NAME)) *name = 0;
}

void pdti_name_column(char *name, int column) {
  if (column < 0) pdti_name_file(name, PDTI_HEADER, 0, 0);
  else pdti_name_file(name, PDTI_COLUMN, (uint64_t)column, 0);
}

/* The next name, or null at the end and where reading fails: only errno tells which. */
static struct dirent *next_name(DIR *names) {
  errno = 0;
  return readdir(names);
}

int pdti_names(int dir, uint32_t kind, pdti_each each, void *context) {
  int copy = pdti_open_in(dir, ".", O_RDONLY | O_DIRECTORY);
  if (copy < 0) return PDT_IO;
  DIR *names = fdopendir(copy);
  if (!names) {
    int why = errno;
    close(copy);
    errno = why;
    return why == ENOMEM ? PDT_NOMEM : PDT_IO;
  }
  for (struct dirent *name; (name = next_name(names));) {
    pdti_file_name file = {0, 0, 0};
    uint32_t code = pdtr_file_read((const uint8_t *)name->d_name, strlen(name->d_name) + 1, &file);
    if (!code && file.kind == kind) each(context, name->d_name, file.first, file.second);
  }
  int why = errno;
  closedir(names);
  errno = why;
  return why ? PDT_IO : PDT_OK;
}
