/* The tables of a database: how they are made, found and dropped. */
#include "database.h"

/* ---- names */

/* A name is text without what would end a line or a word of a shell's. */
static bool is_name(const char *name) {
  size_t len = strnlen(name, PDT_MAX_NAME + 1);
  if (!len || len > PDT_MAX_NAME) return false;
  for (size_t i = 0; i < len; i++)
    if ((uint8_t)name[i] < 32 || name[i] == 127) return false;
  return pdti_is_utf8((const uint8_t *)name, len);
}

static pdti_member *find(pdt_database *database, const char *name) {
  for (size_t i = 0; i < database->count; i++)
    if (!strcmp(database->members[i]->name, name)) return database->members[i];
  return NULL;
}

static int refuse_name(const char *name) {
  pdti_quoted quoted;
  return pdti_say(PDT_MISSING, "no table has the name %s", pdti_quote(&quoted, name, strlen(name)));
}

pdt_code pdt_table_open(pdt_database *database, const char *name, pdt_table **table) {
  if (!table) return PDT_MISUSE;
  *table = NULL;
  if (!name || !pdti_is_ours(database)) return PDT_MISUSE;
  pthread_mutex_lock(&database->locks.fresh_lock);
  pdti_member *entry = find(database, name);
  if (entry) *table = entry->table;
  pthread_mutex_unlock(&database->locks.fresh_lock);
  return entry ? PDT_OK : refuse_name(name);
}

pdt_code pdt_table_name(pdt_database *database, size_t index, char *name, size_t room) {
  if (!pdti_is_ours(database) || (!name && room)) return PDT_MISUSE;
  pthread_mutex_lock(&database->locks.fresh_lock);
  size_t count = database->count;
  int code = index < count ? PDT_OK : PDT_MISSING;
  size_t len = code ? 0 : strlen(database->members[index]->name) + 1;
  if (!code && len > room) code = PDT_TOO_SMALL;
  if (!code) memcpy(name, database->members[index]->name, len);
  pthread_mutex_unlock(&database->locks.fresh_lock);
  return code == PDT_MISSING ? pdti_say(code, "there is no table %zu: the database has %zu", index, count) : code;
}

/* Changes the list of tables while no other thread commits or begins. */
static void lock_tables(pdt_database *database) {
  pthread_mutex_lock(&database->locks.lock);
  pthread_mutex_lock(&database->locks.fresh_lock);
}

static void unlock_tables(pdt_database *database) {
  pthread_mutex_unlock(&database->locks.fresh_lock);
  pthread_mutex_unlock(&database->locks.lock);
}

/* The number of a commit that is durable once this returns, and that is the newest one as it begins. */
static int durable_number(pdt_database *database, uint64_t *number) {
  pthread_mutex_lock(&database->locks.lock);
  *number = database->newest;
  int code = pdti_may_commit(database);
  pthread_mutex_unlock(&database->locks.lock);
  return code ? code : pdti_wait_until_durable(database, *number) ? PDT_WRITES_FAILED : PDT_OK;
}

int pdti_write_first(pdt_database *database, pdti_member *entry) {
  pdt_open_checkpoint *checkpoint = NULL;
  pdti_handle image = {NULL};
  int code = pdt_checkpoint_begin(entry->table, NULL, &checkpoint);
  if (!code) code = pdti_checkpoint_image(checkpoint, &image);
  if (!code) code = pdti_write_image(database, entry, &image, &entry->image);
  int why = errno;
  if (image.at) pdtr_image_close(&image);
  pdt_checkpoint_end(checkpoint);
  errno = why;
  return code;
}

/* Takes away the files of a table that couldn't be made. Where the manifest may name it, it is written without the table first. */
static void without_table(pdt_database *database, uint64_t number, const pdti_member *entry, bool in_doubt) {
  int why = errno;
  if (!in_doubt || !pdti_write_manifest(database, number, NULL, NULL)) {
    pdti_remove_image(database, entry->number, entry->image.folder);
    pdti_remove_types(database, entry->number);
  }
  errno = why;
}

/* Gives a table that is to be made its numbers, where there is none of the name. With files_lock held. */
static int take_numbers(pdt_database *database, pdti_member *entry) {
  if (find(database, entry->name)) return PDT_EXISTS;
  if (database->next_table == UINT32_MAX) return PDT_FULL;
  entry->number = database->next_table++;
  entry->image.folder = database->next_folder++;
  return PDT_OK;
}

/* Writes the files of a table that is to be made, or none of them. Without files_lock: an image may take long. */
static int write_table(pdt_database *database, pdti_member *entry) {
  int code = pdti_write_types(database, entry);
  if (!code) code = pdti_write_first(database, entry);
  if (code) pdti_remove_types(database, entry->number);
  return code;
}

/* Has the manifest name a table whose files are written, and then it is there. With files_lock held. */
static int add_table(pdt_database *database, pdti_member *entry) {
  uint64_t number = 0;
  bool in_doubt = false;
  int code = find(database, entry->name) ? PDT_EXISTS : durable_number(database, &number);
  entry->image.number = number;
  if (!code) {
    lock_tables(database);
    code = pdti_reserve_entry(database);
    unlock_tables(database);
  }
  if (!code) code = pdti_write_manifest(database, number, entry, &in_doubt);
  if (code) {
    without_table(database, number, entry, in_doubt);
    return code;
  }
  lock_tables(database);
  pdti_attach(database, entry, number);
  pdti_place_entry(database, entry);
  unlock_tables(database);
  return PDT_OK;
}

/* Makes a table one of a database's: its files first, then the manifest, and then it is there. */
static int make_table(pdt_database *database, pdti_member *entry) {
  pthread_mutex_lock(&database->files_lock);
  int code = take_numbers(database, entry);
  pthread_mutex_unlock(&database->files_lock);
  pthread_mutex_lock(&database->locks.lock);
  if (!code) code = pdti_may_commit(database);
  pthread_mutex_unlock(&database->locks.lock);
  if (!code) code = write_table(database, entry);
  if (code) return code;
  pthread_mutex_lock(&database->files_lock);
  code = add_table(database, entry);
  pthread_mutex_unlock(&database->files_lock);
  return code;
}

int pdti_create_table(pdt_database *database, const char *name, const pdt_options *options, pdt_table *table, pdt_table **out) {
  pdti_member *entry = calloc(1, sizeof *entry);
  int code = entry ? pdti_make_room_for_numbers(table) : PDT_NOMEM;
  if (!code) {
    entry->table = table;
    entry->width = table->width;
    (void)pdti_options_of(options, &entry->options);
    memcpy(entry->name, name, strlen(name) + 1);
    code = make_table(database, entry);
  }
  if (!code) {
    *out = table;
    return PDT_OK;
  }
  int why = errno;
  free(entry);
  pdti_free_table(table);
  errno = why;
  pdti_quoted quoted;
  return code == PDT_EXISTS ? pdti_say(code, "a table with the name %s exists", pdti_quote(&quoted, name, strlen(name))) : code;
}

int pdti_may_create(pdt_database *database, const char *name, pdt_table **table) {
  if (!table) return PDT_MISUSE;
  *table = NULL;
  if (!name || !pdti_is_ours(database) || pdti_has_prepared(database)) return PDT_MISUSE;
  if (database->options.read_only) return PDT_READONLY;
  if (is_name(name)) return PDT_OK;
  pdti_quoted quoted;
  pdti_quote(&quoted, name, strnlen(name, PDT_MAX_NAME + 1));
  return pdti_say(PDT_TYPE_MISMATCH, "a table can't have the name %s: 1 to 64 bytes of UTF-8 without control characters are wanted",
                  quoted.text);
}

int pdti_open_inside(const pdt_column *columns, size_t count, size_t key, const pdt_options *options, pdt_place *place, pdt_table **table) {
  for (size_t column = 0; columns && column < count; column++)
    if (columns[column].type & PDT_OUTSIDE) return PDT_MISUSE;
  return pdt_open_columns(columns, count, key, options, place, table);
}

pdt_code pdt_table_create(pdt_database *database, const char *name, const pdt_column *columns, size_t count, size_t key,
                          const pdt_options *options, pdt_place *place, pdt_table **out) {
  pdt_table *table = NULL;
  int code = pdti_may_create(database, name, out);
  if (!code) code = pdti_open_inside(columns, count, key, options, place, &table);
  return code ? code : pdti_create_table(database, name, options, table, out);
}

pdt_code pdt_table_create_csv(pdt_database *database, const char *name, const void *csv, size_t bytes, const pdt_options *options,
                              pdt_fault *fault, pdt_table **out) {
  pdt_table *table = NULL;
  int code = pdti_may_create(database, name, out);
  if (!code) code = pdt_open_csv(csv, bytes, options, fault, &table);
  return code ? code : pdti_create_table(database, name, options, table, out);
}

pdt_code pdt_table_create_plain(pdt_database *database, const char *name, const void *csv, size_t bytes, const pdt_plain *plain,
                                const pdt_options *options, pdt_fault *fault, pdt_table **out) {
  pdt_table *table = NULL;
  int code = pdti_may_create(database, name, out);
  if (!code) code = pdt_open_plain(csv, bytes, plain, options, fault, &table);
  return code ? code : pdti_create_table(database, name, options, table, out);
}

/* Takes an entry out of the list, where nothing has begun over it: no database transaction begins meanwhile. *number is that of the newest
   commit then: none over the table comes after it. */
static int take_out(pdt_database *database, size_t at, uint64_t *number) {
  lock_tables(database);
  bool is_used = pdti_is_used_now(database->members[at]->table);
  *number = database->newest;
  if (!is_used) memmove(database->members + at, database->members + at + 1, (--database->count - at) * sizeof *database->members);
  unlock_tables(database);
  return is_used ? PDT_MISUSE : PDT_OK;
}

/* Puts it back where it stood. */
static void put_back(pdt_database *database, size_t at, pdti_member *entry) {
  lock_tables(database);
  memmove(database->members + at + 1, database->members + at, (database->count++ - at) * sizeof *database->members);
  database->members[at] = entry;
  unlock_tables(database);
}

/* Drops a table. Where that fails before the manifest may be without it, nothing has changed. Else the manifest is written with it again,
   or no commit is taken any more: it would be of a table that the next opening doesn't know. */
static int drop(pdt_database *database, const char *name) {
  pdti_member *entry = find(database, name);
  while (entry && entry->is_imaged) {
    pthread_cond_wait(&database->image_ends, &database->files_lock);
    entry = find(database, name);
  }
  if (!entry) return PDT_MISSING;
  size_t at = 0;
  while (database->members[at] != entry) at++;
  uint64_t number = 0;
  int code = durable_number(database, &number);
  if (code) return code;
  code = take_out(database, at, &number);
  if (code) return code;
  if (pdti_wait_until_durable(database, number)) {
    put_back(database, at, entry);
    return PDT_WRITES_FAILED;
  }
  bool in_doubt;
  code = pdti_write_manifest(database, number, NULL, &in_doubt);
  if (code) {
    int why = errno;
    put_back(database, at, entry);
    if (in_doubt && pdti_write_manifest(database, number, NULL, NULL)) pdti_fail(database);
    errno = why;
    return code;
  }
  pdti_remove_image(database, entry->number, entry->image.folder);
  pdti_remove_types(database, entry->number);
  pdti_free_entry(entry);
  database->is_rested = false; /* it may have wanted a file of the journal */
  return PDT_OK;
}

pdt_code pdt_table_drop(pdt_database *database, const char *name) {
  if (!name || !pdti_is_ours(database) || pdti_has_prepared(database)) return PDT_MISUSE;
  pthread_mutex_lock(&database->files_lock);
  int code = drop(database, name);
  pthread_mutex_unlock(&database->files_lock);
  return code == PDT_MISSING ? refuse_name(name) : code;
}
