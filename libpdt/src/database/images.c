/* The images of a database's tables: a folder of files for each, whose lengths and checks the manifest has. */
#include "database.h"

#include <fcntl.h>
#include <stdio.h>
#include <sys/stat.h>

static void folder_of(char *name, uint64_t member, uint64_t folder) { pdti_name_file(name, PDTI_IMAGE, member, folder); }

/* ---- writing */

/* A file that is written, and what is known of it so far. */
typedef struct {
  int file;
  pdti_manifest_mark mark;
} pdti_marked_file;

static int put_marked(void *context, size_t column, const uint8_t *bytes, size_t len) {
  pdti_marked_file *into = context;
  (void)column;
  into->mark.check = pdtr_check(into->mark.check, bytes_at(bytes, len), len);
  into->mark.size += len;
  return pdti_write_to(into->file, bytes, len);
}

/* What an image is written of, and where. */
typedef struct {
  const pdt_database *database;
  const pdt_table *table;
  pdti_handle *bytes;
  int dir;
  uint8_t *chunk;
} pdti_writer;

/* Writes one file of an image, synced. */
static int write_one(const pdti_writer *of, int column, pdti_manifest_mark *mark) {
  char name[FILE_NAME];
  pdti_name_column(name, column);
  pdti_marked_file into = {pdti_make_in(of->database, of->dir, name, O_WRONLY | O_EXCL), {0, (uint32_t)CHECK_SEED}};
  if (into.file < 0) return PDT_IO;
  int code;
  if (column < 0) code = put_marked(&into, PDT_HEADER, (const uint8_t *)of->table->header, of->table->header_bytes);
  else code = pdti_hand_column(of->bytes, (size_t)column, of->chunk, put_marked, &into) ? PDT_OK : PDT_IO;
  *mark = into.mark;
  return pdti_close_synced(into.file, code);
}

int pdti_write_image(pdt_database *database, const pdti_member *entry, pdti_handle *bytes, pdti_table_image *image) {
  char name[FILE_NAME];
  folder_of(name, entry->number, image->folder);
  if (mkdirat(database->dir, name, pdti_folder_mode(database->options.mode))) return PDT_IO;
  int dir = pdti_open_in(database->dir, name, O_RDONLY | O_DIRECTORY);
  pdti_writer of = {database, entry->table, bytes, dir, malloc(CHUNK)};
  int code = dir < 0 ? PDT_IO : of.chunk ? PDT_OK : PDT_NOMEM;
  for (int column = -1; column < (int)entry->width && !code; column++)
    code = write_one(&of, column, column < 0 ? &image->header : &image->columns[column]);
  if (!code) code = pdti_sync_in(dir);
  if (!code) code = pdti_sync_in(database->dir);
  int why = errno;
  free(of.chunk);
  if (dir >= 0) close(dir);
  if (code) pdti_remove_image(database, entry->number, image->folder);
  errno = why;
  return code;
}

void pdti_remove_image(pdt_database *database, uint64_t member, uint64_t folder) {
  char name[FILE_NAME], file[2 * FILE_NAME];
  int why = errno;
  folder_of(name, member, folder);
  if (!*name) return; /* no table has this number */
  for (int column = -1; column < PDT_MAX_COLUMNS; column++) {
    char one[FILE_NAME];
    pdti_name_column(one, column);
    snprintf(file, sizeof file, "%s/%s", name, one);
    unlinkat(database->dir, file, 0); /* a crash may have left any of them */
  }
  unlinkat(database->dir, name, AT_REMOVEDIR);
  errno = why;
}

/* ---- reading */

/* Reads a file, and tests its length and its check. */
static int read_marked(int dir, const char *folder, int column, const pdti_manifest_mark *mark, pdti_buffer *into, char *file) {
  char name[FILE_NAME];
  pdti_name_column(name, column);
  snprintf(file, FILE_NAME, "%.40s/%.20s", folder, name);
  int code = pdti_read_in(dir, file, into);
  if (code) return code == PDT_MISSING ? PDT_INCOMPLETE : code;
  return pdtr_has_mark(mark->size, mark->check, bytes_at(into->at, into->len), into->len) ? PDT_OK : PDT_CORRUPT;
}

int pdti_open_image(pdt_database *database, pdti_member *entry, pdti_frames *frames, pdti_reopened *found, char *file) {
  char folder[FILE_NAME];
  pdti_buffer header = {NULL, 0, 0}, columns[PDT_MAX_COLUMNS];
  pdti_slice slices[PDT_MAX_COLUMNS] = {{pdti_no_bytes, 0}};
  memset(columns, 0, sizeof columns);
  folder_of(folder, entry->number, entry->image.folder);
  int code = read_marked(database->dir, folder, -1, &entry->image.header, &header, file);
  for (size_t i = 0; i < entry->width && !code; i++) {
    code = read_marked(database->dir, folder, (int)i, &entry->image.columns[i], &columns[i], file);
    slices[i] = (pdti_slice){bytes_at(columns[i].at, columns[i].len), columns[i].len};
  }
  pdt_table *table = code ? NULL : calloc(1, sizeof *table);
  if (!code && !table) code = PDT_NOMEM;
  if (!code) {
    const pdt_options *options = &entry->options;
    *file = 0; /* it isn't the image's, whatever comes */
    code = (int)pdtr_reopen(bytes_at(header.at, header.len), header.len, slices, entry->width, options->recent, options->row_limit,
                            options->by_row, entry->image.number, entry->number, &frames->read, frames->at, frames->len, found,
                            &table->raw);
    if (code) free(table);
  }
  free(header.at);
  for (size_t i = 0; i < entry->width; i++) free(columns[i].at);
  return code ? code : pdti_adopt(table, &entry->options, &entry->table);
}
