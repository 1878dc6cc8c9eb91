/* What the files of a database share: the object, its journal, its images and who may do what to them.

   Locks, in the order in which they are taken: `round_lock`, `files_lock`, the lock of the tables, `journal_lock`, `fresh_lock`. A begin
   takes the last one alone. No thread holds a lock while it writes or syncs the journal. */
#ifndef PDT_DATABASE_H
#define PDT_DATABASE_H

#include "inside.h"

/* Bytes that grow. */
typedef struct {
  uint8_t *at;
  size_t len, room;
} pdti_buffer;

/* The frames of a journal, which stay as they are while its tables are opened: their bytes, and what was read of them. */
typedef struct {
  pdti_handle read;
  const uint8_t *at;
  size_t len;
} pdti_frames;

/* Makes room for so many bytes more. */
int pdti_reserve(pdti_buffer *into, size_t more);

/* A file of the journal: journal-SEQ has the frames after its base, up to that of the next one. */
typedef struct {
  uint64_t seq;
  uint64_t base;  /* the number of the commit before its first frame */
  uint64_t bytes; /* how many it has: 0 before the first frame is written, when it has no header and no base either */
} pdti_journal_file;

/* How many files a journal may have, the bytes of its header and of a frame's head, room for what is written together, and what a CRC-32C
   begins with. */
enum { JOURNAL_FILES = 4096, JOURNAL_HEADER = 36, FRAME_HEAD = 28, WRITE_ROOM = 1 << 16, CHECK_SEED = -1 };

/* An image of a table. */
typedef struct {
  uint64_t number;                                     /* it has the commits up to this one */
  uint64_t folder;                                     /* and is in the folder image-TABLE-FOLDER: no other image ever has it */
  pdti_manifest_mark header, columns[PDT_MAX_COLUMNS]; /* how long its files are, and their checks */
} pdti_table_image;

/* A table of a database. */
struct pdti_member {
  pdt_table *table;
  uint32_t number; /* in the frames: no other table ever has it */
  char name[PDT_MAX_NAME + 1];
  pdt_options options;
  size_t width;
  pdti_table_image image; /* that the manifest names; under files_lock */
  bool is_imaged;         /* maintenance writes an image of it, without that lock: it isn't dropped meanwhile */
};

struct pdt_database {
  pdti_locks locks; /* of all its tables */
  int dir, lock_file;
  bool has_made_lock, locks_none; /* whether this opening has made that file; and whether the folder can't be locked beside it */
  uint64_t name, salt;
  pdt_database_options options; /* as they are, with no zeros */
  pid_t process;                /* which opened it */
  const volatile bool *is_ours; /* whether this is that one: on a page that the kernel wipes in a child, or null where it can't */

  /* changed under files_lock and both of `locks`, and read with any of the three */
  pdti_member **members;
  size_t count, room;
  atomic_size_t dbtxns; /* how many are open */

  /* under the lock of the tables */
  uint64_t newest;        /* the number of the newest commit that is installed */
  size_t staged, waiting; /* how many bytes the parts of the last commit that was added have, and of those that no batch has */
  pdt_table *changed;     /* the tables with commits that no batch has taken yet, where begins see them once they are durable */

  /* under journal_lock */
  pthread_mutex_t journal_lock;
  pthread_cond_t journal_moves; /* a step was reported */
  pdti_handle journal;          /* its steps: an append begins under the lock of the tables too */
  pdti_journal_numbers at;      /* what it has told last */
  pdti_journal_file files[JOURNAL_FILES];
  size_t file_count;
  uint64_t batches, syncs;
  atomic_bool has_failed; /* no commit is taken any more: read without the lock */

  /* of the thread whose append or sync is under way */
  pdti_handle batch;   /* the commits that are appended */
  uint8_t *write_room; /* what is written together */
  pdt_table *leaving;  /* the tables that the batch has changed, where begins see them once they are durable */
  int file;            /* the last one of the journal: changed under journal_lock, while neither is under way */
  int next_file;       /* the one after it, of the thread that makes it */

  atomic_uint_fast64_t published; /* the newest commit that begins may see; changed under fresh_lock */

  /* the manifest, and the files that it names */
  pthread_mutex_t files_lock;
  pthread_cond_t image_ends; /* that was written without it */
  uint32_t next_table;
  uint64_t next_folder;
  uint64_t noted; /* the number that the manifest has: a commit that is durable */

  /* maintenance */
  pthread_t thread, syncer; /* the second where a commit is answered before the device has it */
  bool has_thread, has_syncer;
  pthread_mutex_t maintenance_lock;
  pthread_cond_t maintenance_wakes;
  bool stops;
  pthread_mutex_t round_lock; /* one round at a time */
  uint64_t quiet_at;          /* the newest durable commit of the last round, and since when it is that; under files_lock, as the rest */
  struct timespec quiet_since;
  bool is_rested; /* the last round found nothing to do, at these numbers */
  uint64_t rested_newest, rested_durable;
  atomic_uint_fast64_t folds, checkpoints, faults;
};

/* ---- journals.c */

/* Adds one commit of prepared ones to the journal, and gives its number: no batch takes it while the lock is held. The transactions are
   in the order of their tables' numbers. Under the lock. */
int pdti_stage(pdt_database *database, pdt_txn *const *txns, size_t count, uint64_t *number);
/* Whether begins see a commit only once it is durable. */
bool pdti_hides(const pdt_database *database);
/* Enters a table that a commit has changed among those whose versions the next batch takes. Under the lock. */
void pdti_enter_changed(pdt_database *database, pdt_table *table);

/* Waits until a commit is as durable as the database's sync says. PDT_OUTCOME_UNKNOWN where the device fails. */
int pdti_wait_for(pdt_database *database, uint64_t number);

/* Writes what is pending and, if it is asked for, has the device take all that was written. */
int pdti_flush(pdt_database *database, bool syncs);

/* The newest commit that is durable. */
uint64_t pdti_durable(pdt_database *database);

/* Opens the steps of a journal whose files are known and whose commits up to a number are durable. What it has made stays for the other
   call, also where it fails. PDT_NOMEM. */
int pdti_open_journal(pdt_database *database, uint64_t newest);
void pdti_close_journal(pdt_database *database);

/* The name of a file of the journal, for which there is room for FILE_NAME bytes. */
void pdti_name_journal(char *name, uint64_t seq);

/* Makes the next file of the journal, in which the next frame is written. */
int pdti_turn_over(pdt_database *database);

/* The first file of the journal that an image wants, where the oldest one has the commits up to a number: 0 where that file is gone. */
uint64_t pdti_first_wanted(pdt_database *database, uint64_t oldest);
/* The first file that is there. */
uint64_t pdti_first_file(pdt_database *database);
/* Takes away the files before one. */
void pdti_remove_journals(pdt_database *database, uint64_t first);

/* No commit is taken any more. */
void pdti_fail(pdt_database *database);

/* ---- images.c */

/* Writes an image of a table into the folder whose number it has, which no other has had: how long its files are and their checks. */
int pdti_write_image(pdt_database *database, const pdti_member *entry, pdti_handle *bytes, pdti_table_image *image);

/* Reads the image that the manifest names, tests its checks, and opens it with the journal's frames. *file is the one that a code is
   about. */
int pdti_open_image(pdt_database *database, pdti_member *entry, pdti_frames *frames, pdti_reopened *found, char *file);

/* Takes away the folder of an image. */
void pdti_remove_image(pdt_database *database, uint64_t member, uint64_t folder);

/* ---- manifest.c */

/* Writes the manifest anew, with the tables and one more, if it is not null, after a commit that is durable: its number is that of the
   newest one that is known to be. What it named before is named no longer once it answers PDT_OK. Where it answers otherwise *in_doubt,
   if not null, says whether either may be: it came to the rename then. Else the one before stays. PDT_INCOMPLETE, and nothing is written,
   where an image is from before the first file of the journal: no opening would take it. With files_lock held. */
int pdti_write_manifest(pdt_database *database, uint64_t number, const pdti_member *added, bool *in_doubt);

/* Reads the manifest: the names, the number that it is of, the first file of the journal that it wants, and the tables, which have no
   handle yet. PDT_MISSING where there is none. */
int pdti_read_manifest(pdt_database *database, uint64_t *number, uint64_t *first);

/* Has the manifest note the newest commit that is durable, where it notes an older one: an opening that finds fewer reports damage. With
   files_lock held, or where nobody else has the database any more. */
int pdti_note_durable(pdt_database *database);

/* Takes away the images that the manifest doesn't name, in an opening. */
void pdti_remove_images(pdt_database *database);

/* ---- folders.c: files by their names in the database's folder */

/* Opens a file, or makes it where there is none, by the database's mode. A link isn't followed, but of AT_FDCWD. */
int pdti_open_in(int dir, const char *name, int how);
int pdti_make_in(const pdt_database *database, int dir, const char *name, int how);
/* Makes a file that is new, in place of one that has the name already. */
int pdti_make_new(const pdt_database *database, int dir, const char *name, int how);
mode_t pdti_folder_mode(mode_t mode); /* of a folder of files of a mode */
int pdti_sync(int file);              /* the data, and how long it is */
int pdti_sync_in(int dir);            /* the names */
int pdti_read_in(int dir, const char *name, pdti_buffer *into);
int pdti_close_synced(int file, int code);
void pdti_remove_in(int dir, const char *name); /* and leaves errno as it is */

/* Calls with each file in a folder that has the name of one of this kind, and its numbers. PDT_IO, PDT_NOMEM: not with all. */
typedef void (*pdti_each)(void *context, const char *name, uint64_t first, uint64_t second);
int pdti_names(int dir, uint32_t kind, pdti_each each, void *context);

/* The name of such a file, for which there is room for FILE_NAME bytes. It is empty where no file has these numbers. */
void pdti_name_file(char *name, uint32_t kind, uint64_t first, uint64_t second);

/* Puts the bytes of a handle's one column behind those of a buffer, and lets the handle go. PDT_NOMEM. */
int pdti_take_bytes(pdti_handle *bytes, pdti_buffer *into);

/* ---- torn.c */

/* Keeps what is torn off the journal's end in a file, for whose name there is room for FILE_NAME bytes. */
int pdti_keep_torn(const pdt_database *database, uint64_t seq, const uint8_t *torn, size_t len, char *name);

/* ---- maintenance.c */

int pdti_start_maintenance(pdt_database *database);
void pdti_stop_maintenance(pdt_database *database);

/* ---- recovering.c */

/* Makes the folder where it isn't there, and says whether it did. */
int pdti_make_folder(const char *folder, mode_t mode, bool *is_new);

/* Locks it for this opening, and the file `lock` in it: with others that only read, or alone. PDT_LOCKED, PDT_IO. */
int pdti_lock_folder(pdt_database *database);

/* Whether another process may have the database too: the file `lock` was taken away by hand, and the folder itself can't be locked. */
bool pdti_has_lost_lock(const pdt_database *database);

/* Takes away what an opening that fails has made: its lock file, and with all that is in it the folder, where that is not null. */
void pdti_remove_new(pdt_database *database, const char *folder);

/* Begins the journal of a new database, under its name: a salt that is drawn, and a file with no bytes. */
int pdti_begin_journal(pdt_database *database);

/* Opens what is in it, or makes it new. */
int pdti_open_folder(pdt_database *database, pdt_report *report);

/* ---- importing.c: folders that the program has made */

/* Says whether the folder has files of a run with a journal. PDT_IO. */
int pdti_find_run(const pdt_database *database, bool *has_run);

/* Makes a database of them in the folder, which has no manifest: it has one afterwards. Where it fails the files stay as they were, and
   the next opening does it from the beginning. */
int pdti_import(pdt_database *database, pdt_report *report);

/* Takes away the files of the run that the database was made of. One that stays is taken away by the next opening. */
void pdti_remove_run(pdt_database *database);

/* ---- tables.c */

/* Writes the first image of a table, which has the number of its folder. */
int pdti_write_first(pdt_database *database, pdti_member *entry);

/* Whether a table may be made under a name, and where it is handed out; *table is null then. */
int pdti_may_create(pdt_database *database, const char *name, pdt_table **table);

/* Opens a table over columns for a database. None of them stays outside: a database makes images by itself, whose rows the caller's own
   values wouldn't follow. */
int pdti_open_inside(const pdt_column *columns, size_t count, size_t key, const pdt_options *options, pdt_place *place, pdt_table **table);

/* Makes a table one of the database's, which was opened for that, and hands it out; else it is freed. */
int pdti_create_table(pdt_database *database, const char *name, const pdt_options *options, pdt_table *table, pdt_table **out);

/* ---- declared.c: what the numbers of a table's columns are declared as, in a file of its own */

/* Writes it for a table that is made, before its image, with whose name its own is durable. */
int pdti_write_types(pdt_database *database, const pdti_member *entry);

/* Reads it, if it is there; its name goes into file, which has room for FILE_NAME bytes. PDT_CORRUPT. */
int pdti_read_types(pdt_database *database, pdti_member *entry, char *file);

/* Takes it away. */
void pdti_remove_types(pdt_database *database, uint32_t member);

/* ---- databases.c */

/* Makes room for one table more, and puts it into the list by its number: tables that were begun earlier may be made later. The last does
   both, of a database that nobody else has yet. */
int pdti_reserve_entry(pdt_database *database);
void pdti_place_entry(pdt_database *database, pdti_member *entry);
int pdti_add_entry(pdt_database *database, pdti_member *entry);
void pdti_free_entry(pdti_member *entry);

/* Makes a table one of a database's, once it has room for the numbers that its last commits have there. The number that it
   begins with is of a commit that is durable. */
void pdti_attach(pdt_database *database, pdti_member *entry, uint64_t number);

/* ---- history.c: what is kept of the last commits */

/* Makes room for the numbers of a table's last commits, and for what they take. */
int pdti_make_room_for_numbers(pdt_table *table);

/* Keeps what a commit takes, whose part of its frame has so many bytes. Under the lock, as is the next. */
void pdti_keep(pdt_table *table, uint64_t local, size_t bytes);

/* How many bytes of memory, about, the changes of a table's last commits take. */
uint64_t pdti_kept_bytes(pdt_table *table);

/* Lets go of the oldest of them, where all tables' take more than the database's option says. PDT_NOMEM. With files_lock held. */
int pdti_let_go_of_oldest(pdt_database *database);

/* Whether this thread has a commit prepared: then it has the lock, and waits for nobody who may wait for that. */
bool pdti_has_prepared(pdt_database *database);

/* Whether the database is this process's: a child of fork has none. Each call asks, and getpid is a call of the system. */
static inline bool pdti_is_ours(const pdt_database *database) {
  return database && (database->is_ours ? *database->is_ours : database->process == getpid());
}

#endif
