/* The manifest of a database: which tables it has, and for each the image that stands for it, with the length and the check of
   each file. It is one file, `manifest`, written anew under another name and then renamed: one or the other is there, whole. The first
   line has the version of the format; it and the last line are those of every version.

     narthexmace 1
     database NAME SALT         both in hexadecimal
     at COMMIT FILE             the number of a commit that was durable, and the first file of the journal that an image wants
     next TABLE FOLDER          the numbers of the next table and of the next image's folder
     table NUMBER COMMIT FOLDER RECENT LIMIT BY_ROW WIDTH NAME
     LENGTH CHECK               of the header's file, and then of each column's
     end CHECK                  of all bytes before this line */
#include "database.h"

#include <fcntl.h>
#include <stdio.h>

/* ---- writing: the exports spell what they are given, or refuse it */

static int add_table(pdti_handle *manifest, const pdti_member *entry) {
  const pdt_options *options = &entry->options;
  const pdti_table_image *image = &entry->image;
  const pdti_manifest_line line = {image->number, image->folder, options->recent, options->row_limit,
                                   entry->width,  entry->number, options->by_row};
  return (int)pdtr_manifest_add(manifest, &line, (const uint8_t *)entry->name, strlen(entry->name), &image->header, image->columns,
                                entry->width);
}

/* The commits that all images have. */
static uint64_t oldest_image(const pdt_database *database, uint64_t number, const pdti_member *added) {
  uint64_t oldest = added && added->image.number < number ? added->image.number : number;
  for (size_t i = 0; i < database->count; i++)
    if (database->members[i]->image.number < oldest) oldest = database->members[i]->image.number;
  return oldest;
}

/* The newest commit that is known to be durable, where one is. */
static uint64_t durable_number(pdt_database *database, uint64_t number) {
  uint64_t durable = pdti_durable(database);
  return durable > number ? durable : number;
}

/* Adds the tables, and one more where it isn't null, by their numbers. */
static int add_tables(const pdt_database *database, pdti_handle *manifest, const pdti_member *added) {
  int code = PDT_OK;
  for (size_t i = 0; i < database->count && !code; i++) {
    const pdti_member *entry = database->members[i];
    if (added && added->number < entry->number) {
      code = add_table(manifest, added);
      added = NULL;
    }
    if (!code) code = add_table(manifest, entry);
  }
  return code || !added ? code : add_table(manifest, added);
}

static int put_manifest(pdt_database *database, uint64_t number, const pdti_member *added, pdti_buffer *text) {
  pdti_handle manifest = {NULL}, bytes = {NULL};
  uint64_t first = pdti_first_wanted(database, oldest_image(database, number, added));
  if (!first) return PDT_INCOMPLETE;
  const pdti_manifest_head head = {database->name, database->salt, number, first, database->next_folder, database->next_table};
  int code = (int)pdtr_manifest_new(&head, &manifest);
  if (code) return code;
  code = add_tables(database, &manifest, added);
  if (!code) code = (int)pdtr_manifest_bytes(&manifest, &bytes);
  pdtr_manifest_close(&manifest);
  return code ? code : pdti_take_bytes(&bytes, text);
}

int pdti_write_manifest(pdt_database *database, uint64_t number, const pdti_member *added, bool *in_doubt) {
  pdti_buffer text = {NULL, 0, 0};
  if (in_doubt) *in_doubt = false;
  if (pdti_has_lost_lock(database)) {
    pdti_fail(database); /* another process may write the same files */
    return PDT_LOCKED;
  }
  number = durable_number(database, number);
  int code = put_manifest(database, number, added, &text);
  if (!code) {
    int file = pdti_make_new(database, database->dir, "manifest-new", O_WRONLY);
    code = file < 0 ? PDT_IO : pdti_close_synced(file, pdti_write_to(file, text.at, text.len));
  }
  bool is_written = !code;
  if (!code && renameat(database->dir, "manifest-new", database->dir, "manifest")) code = PDT_IO;
  if (code) pdti_remove_in(database->dir, "manifest-new"); /* on a full disk it would keep the room that others want */
  if (!code) code = pdti_sync_in(database->dir);
  if (in_doubt) *in_doubt = code && is_written;
  if (!code) database->noted = number;
  int why = errno;
  free(text.at);
  errno = why;
  return code;
}

int pdti_note_durable(pdt_database *database) {
  uint64_t durable = durable_number(database, database->noted);
  return durable > database->noted ? pdti_write_manifest(database, durable, NULL, NULL) : PDT_OK;
}

/* ---- reading: the exports say what the bytes spell, and that other bytes are damaged or of a later version */

/* A table of a manifest that was read: its line and the marks of its files. */
static void take_table(pdti_handle *manifest, size_t table, pdti_member *entry) {
  pdti_manifest_line line = {0};
  size_t len = pdtr_manifest_table(manifest, table, &line, (uint8_t *)entry->name, PDT_MAX_NAME);
  entry->name[len] = 0;
  entry->number = line.number;
  entry->image.number = line.commit;
  entry->image.folder = line.folder;
  entry->options = (pdt_options){sizeof entry->options, (size_t)line.recent, line.limit, line.by_row};
  entry->width = (size_t)line.width;
  for (size_t file = 0; file <= entry->width; file++) {
    pdti_manifest_mark *mark = file ? &entry->image.columns[file - 1] : &entry->image.header;
    (void)pdtr_manifest_mark(manifest, table, file, mark);
  }
}

/* Adds the tables to those of a database that nobody else has yet. */
static int take_tables(pdt_database *database, pdti_handle *manifest, size_t count) {
  for (size_t table = 0; table < count; table++) {
    pdti_member *entry = calloc(1, sizeof *entry);
    if (!entry) return PDT_NOMEM;
    take_table(manifest, table, entry);
    int code = pdti_add_entry(database, entry);
    if (code) {
      free(entry);
      return code;
    }
  }
  return PDT_OK;
}

int pdti_read_manifest(pdt_database *database, uint64_t *number, uint64_t *first) {
  pdti_buffer bytes = {NULL, 0, 0};
  pdti_handle manifest = {NULL};
  int code = pdti_read_in(database->dir, "manifest", &bytes);
  if (!code) code = (int)pdtr_manifest_read(bytes_at(bytes.at, bytes.len), bytes.len, &manifest);
  free(bytes.at);
  if (code) return code;
  pdti_manifest_head head = {0};
  size_t count = pdtr_manifest_head(&manifest, &head);
  database->name = head.store;
  database->salt = head.salt;
  database->noted = *number = head.commit;
  *first = head.first_file;
  database->next_table = head.next_table;
  database->next_folder = head.next_folder;
  code = take_tables(database, &manifest, count);
  pdtr_manifest_close(&manifest);
  return code;
}

/* ---- what it doesn't name */

static bool is_named(const pdt_database *database, uint64_t member, uint64_t folder) {
  for (size_t i = 0; i < database->count; i++)
    if (database->members[i]->number == member && database->members[i]->image.folder == folder) return true;
  return false;
}

static void remove_unnamed(void *context, const char *name, uint64_t member, uint64_t folder) {
  pdt_database *database = context;
  (void)name;
  if (!is_named(database, member, folder)) pdti_remove_image(database, member, folder);
}

/* Those of a table that is there, or that no table has been yet, aren't the database's to remove. */
static void remove_types(void *context, const char *name, uint64_t member, uint64_t second) {
  pdt_database *database = context;
  (void)name, (void)second;
  if (member > database->next_table) return;
  for (size_t i = 0; i < database->count; i++)
    if (database->members[i]->number == member) return;
  pdti_remove_types(database, (uint32_t)member);
}

void pdti_remove_images(pdt_database *database) {
  (void)pdti_names(database->dir, PDTI_IMAGE, remove_unnamed, database);
  (void)pdti_names(database->dir, PDTI_TYPES, remove_types, database);
}
