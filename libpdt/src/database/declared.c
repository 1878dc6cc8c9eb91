/* What the numbers of int columns are declared as; of a table of a database in a file beside its image, types-TABLE:

     COLUMN FORMAT              of each column that is declared, by its place
     end CHECK                  of all bytes before this line

   Who knows nothing of it opens the database without it: the table is the same. */
#include "arrow.h"
#include "database.h"

#include <fcntl.h>
#include <stdio.h>

enum { END = 13 }; /* how many bytes the last line has */

const char *pdt_declared(const pdt_table *table, size_t column) {
  bool is_there = table && column < table->width && *table->declared[column];
  return is_there ? table->declared[column] : NULL;
}

void pdti_copy_declared(const pdt_table *table, size_t column, char *format) {
  pthread_mutex_lock(&table->locks->fresh_lock);
  strcpy(format, table->declared[column]);
  pthread_mutex_unlock(&table->locks->fresh_lock);
}

pdt_code pdt_declared_copy(const pdt_table *table, size_t column, char *format, size_t room) {
  if (!table || (!format && room)) return PDT_MISUSE;
  if (column >= table->width) return pdti_refuse_column(table, column);
  char copy[PDTI_FORMAT_BYTES];
  pdti_copy_declared(table, column, copy);
  size_t len = strlen(copy) + 1;
  if (len > room) return PDT_TOO_SMALL;
  memcpy(format, copy, len);
  return PDT_OK;
}

bool pdti_may_declare(const pdt_table *table, size_t column, const char *format) {
  pdti_format as;
  if (column >= table->width || table->types[column] != PDT_INT || strlen(format) >= PDTI_FORMAT_BYTES) return false;
  return pdti_read_format(format + (*format == '?'), &as) && pdti_goes_out(PDT_INT, &as) && (*format != '?' || column >= table->key);
}

/* A column that can't be declared as a format; of none, a column that isn't there. */
static int refuse_format(const pdt_table *table, size_t column, const char *format) {
  if (column >= table->width) return pdti_refuse_column(table, column);
  pdti_where where;
  pdti_quoted quoted;
  pdti_where_of(&where, table->names[column], table->name_bytes[column]);
  pdti_quote(&quoted, format, strnlen(format, PDTI_FORMAT_BYTES));
  if (table->types[column] != PDT_INT)
    return pdti_say(PDT_TYPE_MISMATCH, "%sa %s column isn't declared, only an int column", where.text,
                    table->types[column] == PDT_TEXT ? "text" : "bool");
  if (column < table->key && *format == '?')
    return pdti_say(PDT_TYPE_MISMATCH, "%sa key column has no nulls, as %s wants", where.text, quoted.text);
  return pdti_say(PDT_TYPE_MISMATCH, "%s%s is not a format of numbers", where.text, quoted.text);
}

/* ---- files */

static void name_types(char *name, uint32_t member) { pdti_name_file(name, PDTI_TYPES, member, 0); }

/* The file's text. */
static int put_types(const pdt_table *table, pdti_buffer *text) {
  pdti_slice formats[PDT_MAX_COLUMNS];
  pdti_handle bytes = {NULL};
  for (size_t column = 0; column < table->width; column++)
    formats[column] = (pdti_slice){(const uint8_t *)table->declared[column], strlen(table->declared[column])};
  int code = (int)pdtr_types_bytes(formats, table->width, &bytes);
  return code ? code : pdti_take_bytes(&bytes, text);
}

/* Writes it into a file of a name, synced. */
static int write_text(const pdt_database *database, const char *name, const pdti_buffer *text) {
  int file = pdti_make_new(database, database->dir, name, O_WRONLY);
  return file < 0 ? PDT_IO : pdti_close_synced(file, pdti_write_to(file, text->at, text->len));
}

int pdti_write_types(pdt_database *database, const pdti_member *entry) {
  char name[FILE_NAME];
  pdti_buffer text = {NULL, 0, 0};
  name_types(name, entry->number);
  int code = put_types(entry->table, &text);
  if (!code && text.len > END) code = write_text(database, name, &text); /* of a new table, of which no other is there */
  int why = errno;
  free(text.at);
  errno = why;
  return code;
}

/* Writes it anew for a table that is there: one or the other file is there after a crash. */
static int rewrite_types(pdt_database *database, const pdti_member *entry) {
  char name[FILE_NAME];
  pdti_buffer text = {NULL, 0, 0};
  name_types(name, entry->number);
  int code = put_types(entry->table, &text);
  if (code) return code;
  code = write_text(database, "types-new", &text);
  if (!code && renameat(database->dir, "types-new", database->dir, name)) code = PDT_IO;
  if (code) pdti_remove_in(database->dir, "types-new");
  if (!code) code = pdti_sync_in(database->dir);
  int why = errno;
  free(text.at);
  errno = why;
  return code;
}

/* Takes the formats that the bytes of a file say, each of which its column has to go out as. */
static int take_types(pdt_table *table, const pdti_buffer *bytes) {
  for (size_t column = 0; column < table->width; column++) {
    char format[PDTI_FORMAT_BYTES] = "";
    size_t len = 0;
    int code = (int)pdtr_types_read(bytes_at(bytes->at, bytes->len), bytes->len, table->width, column, (uint8_t *)format, sizeof format - 1,
                                    &len);
    if (code) return code;
    if (len && !pdti_may_declare(table, column, format)) return PDT_CORRUPT;
    strcpy(table->declared[column], format);
  }
  return PDT_OK;
}

int pdti_read_types(pdt_database *database, pdti_member *entry, char *file) {
  pdti_buffer bytes = {NULL, 0, 0};
  name_types(file, entry->number);
  int code = pdti_read_in(database->dir, file, &bytes);
  code = code == PDT_MISSING ? PDT_OK : code ? code : take_types(entry->table, &bytes);
  free(bytes.at);
  return code;
}

void pdti_remove_types(pdt_database *database, uint32_t member) {
  char name[FILE_NAME];
  name_types(name, member);
  pdti_remove_in(database->dir, name);
}

/* ---- the calls */

/* Declares a column in memory: others read formats meanwhile. */
static void set_declared(pdt_table *table, size_t column, const char *format) {
  pthread_mutex_lock(&table->locks->fresh_lock);
  strcpy(table->declared[column], format);
  pthread_mutex_unlock(&table->locks->fresh_lock);
}

static int declare_in(pdt_database *database, pdt_table *table, size_t column, const char *format) {
  char before[PDTI_FORMAT_BYTES];
  if (!pdti_is_ours(database) || pdti_has_prepared(database)) return PDT_MISUSE;
  if (database->options.read_only) return PDT_READONLY;
  pthread_mutex_lock(&database->files_lock); /* under which alone they change */
  strcpy(before, table->declared[column]);
  set_declared(table, column, format);
  int code = rewrite_types(database, table->member);
  if (code) set_declared(table, column, before);
  pthread_mutex_unlock(&database->files_lock);
  return code;
}

pdt_code pdt_declare(pdt_table *table, size_t column, const char *format) {
  if (!table) return PDT_MISUSE;
  if (format ? !pdti_may_declare(table, column, format) : column >= table->width) return refuse_format(table, column, format);
  if (!format) format = "";
  if (table->database) return declare_in(table->database, table, column, format);
  set_declared(table, column, format);
  return PDT_OK;
}

/* Declares the columns of a table that is in no database yet, and puts it there; else it is freed. */
static int create_declared(pdt_database *database, const char *name, const char *const *formats, size_t count, const pdt_options *options,
                           pdt_table *table, pdt_table **out) {
  for (size_t column = 0; column < count; column++) {
    if (!formats[column]) continue;
    if (!pdti_may_declare(table, column, formats[column])) {
      int code = refuse_format(table, column, formats[column]);
      pdti_free_table(table);
      return code;
    }
    strcpy(table->declared[column], formats[column]);
  }
  return pdti_create_table(database, name, options, table, out);
}

pdt_code pdt_table_create_declared(pdt_database *database, const char *name, const pdt_column *columns, size_t count, size_t key,
                                   const char *const *formats, const pdt_options *options, pdt_place *place, pdt_table **out) {
  pdt_table *table = NULL;
  int code = pdti_may_create(database, name, out);
  if (!code && !formats && count) code = PDT_MISUSE;
  if (!code) code = pdti_open_inside(columns, count, key, options, place, &table);
  return code ? code : create_declared(database, name, formats, count, options, table, out);
}

pdt_code pdt_table_create_csv_declared(pdt_database *database, const char *name, const void *csv, size_t bytes, const char *const *formats,
                                       size_t count, const pdt_options *options, pdt_fault *fault, pdt_table **out) {
  pdt_table *table = NULL;
  int code = pdti_may_create(database, name, out);
  if (!code && !formats && count) code = PDT_MISUSE;
  if (!code) code = pdt_open_csv(csv, bytes, options, fault, &table);
  return code ? code : create_declared(database, name, formats, count, options, table, out);
}
