/* What the files of the library share: the exports of crates/pdt_c, the objects, and how their locks are taken.

   Nothing there is checked against a C caller, so these files meet each `requires`: a handle is never copied and goes to one call
   at a time, one that is asked to hold something holds it, one that is filled holds nothing, and a commit gets the table that its
   transaction began over. From a prepare to its install the lock is kept, so that the table is as it was; a table is installed only
   where no fold and no checkpoint came since its begin, so that it is what is below the Write-PDT. */
#ifndef PDT_INSIDE_H
#define PDT_INSIDE_H

#define _POSIX_C_SOURCE 200809L
#include "pdt.h"
#include "utf8.h"

#include <errno.h>
#include <pthread.h>
#include <stdarg.h>
#include <stdatomic.h>
#include <stdlib.h>
#include <string.h>
#include <sys/types.h>
#include <time.h>
#include <unistd.h>

/* ---- the exports: a handle is a struct of one pointer, a slice its pointer and its length */

typedef struct {
  void *at;
} pdti_handle;

typedef struct {
  const uint8_t *at;
  size_t len;
} pdti_slice;

typedef struct {
  const int64_t *at;
  size_t len;
} pdti_numbers;

typedef struct {
  const uint64_t *at;
  size_t len;
} pdti_offsets;

/* the first fault of a text: the record, which counts from 1, the column, and which of text_faults says what is wrong */
typedef struct {
  uint64_t row, column;
  uint32_t cause;
} pdti_text_fault;

/* what the header of a journal says: what the seed of its checks is made from, the name of the database that it is of, and the number of
   the commit before its first frame */
typedef struct {
  uint64_t salt, store, base;
} pdti_journal_header;

/* a file of a journal: the number of the commit before its first frame, how many bytes of header stand before that, and how many bytes of
   frames it has. The first two are 0 where it has no header */
typedef struct {
  uint64_t base, front, len;
} pdti_segment;

/* where a journal's files end: the place of the last one that has frames, how many bytes of those stay and how many are torn; or the commit
   that is missing. And whether the file has to be written anew before anything is written behind it */
typedef struct {
  uint64_t place, kept, torn, missing;
  bool is_anew;
} pdti_journal_end;

/* what was reopened on an image and a journal: how many bytes of the frames are whole, and the number of the newest commit; or the
   commit that a fault names, 0 where it names none */
typedef struct {
  uint64_t whole, newest, fault;
} pdti_reopened;

/* the newest image of a run's store: how many commits had made it; or the column or the mark that a fault names */
typedef struct {
  uint64_t number, place;
} pdti_marked_image;

/* what a manifest says of the database, of a table beside its name, and of a file */
typedef struct {
  uint64_t store, salt, commit, first_file, next_folder;
  uint32_t next_table;
} pdti_manifest_head;
typedef struct {
  uint64_t commit, folder, recent, limit, width;
  uint32_t number;
  bool by_row;
} pdti_manifest_line;
typedef struct {
  uint64_t size;
  uint32_t check;
} pdti_manifest_mark;

/* a file of a database's folder: its kind, and its numbers. A journal's is the first, and so is that of what was torn off it; an image has
   its table's and its own, declared columns their table's, and in an image's folder a column has its place, and the header none */
typedef struct {
  uint64_t first, second;
  uint32_t kind;
} pdti_file_name;
enum { PDTI_JOURNAL = 1, PDTI_IMAGE = 2, PDTI_TYPES = 3, PDTI_TORN = 4, PDTI_COLUMN = 5, PDTI_HEADER = 6 };

extern uint32_t pdtr_open(const uint8_t *, size_t, size_t, uint64_t, bool, pdti_text_fault *, uint8_t *, size_t, size_t *, pdti_handle *);
extern uint32_t pdtr_has_types(const uint8_t *, size_t, bool *);
extern uint32_t pdtr_open_plain(const uint8_t *, size_t, const pdti_slice *, size_t, size_t, size_t, uint64_t, bool, pdti_text_fault *,
                                uint8_t *, size_t, size_t *, pdti_handle *);
extern uint32_t pdtr_open_columns(const pdti_slice *, size_t, const uint32_t *, size_t, size_t, size_t, const pdti_numbers *, size_t,
                                  const pdti_offsets *, size_t, const pdti_slice *, size_t, size_t, uint64_t, bool, pdt_place *,
                                  pdti_handle *);
extern uint32_t pdtr_recover(const uint8_t *, size_t, const pdti_slice *, size_t, size_t, uint64_t, bool, uint32_t *, pdti_handle *);
extern uint32_t pdtr_manifest_read(const uint8_t *, size_t, pdti_handle *);
extern size_t pdtr_manifest_head(pdti_handle *, pdti_manifest_head *);
extern size_t pdtr_manifest_table(pdti_handle *, size_t, pdti_manifest_line *, uint8_t *, size_t);
extern uint32_t pdtr_manifest_mark(pdti_handle *, size_t, size_t, pdti_manifest_mark *);
extern void pdtr_manifest_close(pdti_handle *);
extern uint32_t pdtr_manifest_new(const pdti_manifest_head *, pdti_handle *);
extern uint32_t pdtr_manifest_add(pdti_handle *, const pdti_manifest_line *, const uint8_t *, size_t, const pdti_manifest_mark *,
                                  const pdti_manifest_mark *, size_t);
extern uint32_t pdtr_manifest_bytes(pdti_handle *, pdti_handle *);
extern bool pdtr_has_mark(uint64_t, uint32_t, const uint8_t *, size_t);
extern uint32_t pdtr_file_read(const uint8_t *, size_t, pdti_file_name *);
extern size_t pdtr_file_name(uint32_t, uint64_t, uint64_t, uint8_t *, size_t);
extern uint32_t pdtr_types_read(const uint8_t *, size_t, size_t, size_t, uint8_t *, size_t, size_t *);
extern uint32_t pdtr_types_bytes(const pdti_slice *, size_t, pdti_handle *);
extern uint32_t pdtr_header(pdti_handle *, pdti_handle *);
extern void pdtr_close(pdti_handle *);
extern size_t pdtr_width(pdti_handle *);
extern size_t pdtr_key_columns(pdti_handle *);
extern uint32_t pdtr_type(pdti_handle *, size_t);
extern size_t pdtr_name(pdti_handle *, size_t, uint8_t *, size_t);
extern uint64_t pdtr_commits(pdti_handle *);
extern size_t pdtr_write_entries(pdti_handle *);
extern size_t pdtr_read_entries(pdti_handle *);
extern uint32_t pdtr_fold(pdti_handle *);
extern uint32_t pdtr_repack(pdti_handle *, pdti_handle *);
extern uint32_t pdtr_room(size_t, pdti_handle *);
extern void pdtr_cut(pdti_handle *);
extern void pdtr_cut_into(pdti_handle *, pdti_handle *);
extern void pdtr_cut_to(pdti_handle *, uint64_t, pdti_handle *);
extern uint64_t pdtr_floor(pdti_handle *);
extern void pdtr_trees_close(pdti_handle *);
extern size_t pdtr_image_len(pdti_handle *, size_t);
extern size_t pdtr_image_read(pdti_handle *, size_t, size_t, uint8_t *, size_t);
extern void pdtr_image_close(pdti_handle *);
extern uint32_t pdtr_begin(pdti_handle *, uint32_t, pdti_handle *);
extern uint32_t pdtr_begin_at(pdti_handle *, uint32_t, pdti_handle *);
extern uint64_t pdtr_begun(pdti_handle *);
extern size_t pdtr_own_entries(pdti_handle *);
extern void pdtr_abort(pdti_handle *);
extern uint32_t pdtr_commit(pdti_handle *, pdti_handle *, pdti_handle *, uint64_t *);
extern void pdtr_ended_close(pdti_handle *);
extern uint32_t pdtr_insert(pdti_handle *, const int64_t *, size_t, const uint8_t *, size_t);
extern uint32_t pdtr_delete(pdti_handle *, const int64_t *, size_t, const uint8_t *, size_t);
extern uint32_t pdtr_set(pdti_handle *, const int64_t *, size_t, const uint8_t *, size_t, size_t, int64_t, const uint8_t *, size_t);
extern uint32_t pdtr_mark(pdti_handle *, size_t *);
extern uint32_t pdtr_back_to(pdti_handle *, size_t);
extern uint32_t pdtr_release(pdti_handle *, size_t);
extern uint64_t pdtr_rows(pdti_handle *);
extern uint32_t pdtr_rank(pdti_handle *, const int64_t *, size_t, const uint8_t *, size_t, uint64_t *, bool *);
extern uint32_t pdtr_get(pdti_handle *, const int64_t *, size_t, const uint8_t *, size_t, int64_t *, size_t, uint8_t *, size_t, size_t *);
extern uint32_t pdtr_row_at(pdti_handle *, uint64_t, int64_t *, size_t, uint8_t *, size_t, size_t *);
extern size_t pdtr_cells(pdti_handle *, size_t, uint64_t, int64_t *, size_t, uint8_t *, size_t, size_t *);
extern size_t pdtr_ints(pdti_handle *, size_t, uint64_t, int64_t *, size_t);
extern size_t pdtr_bools(pdti_handle *, size_t, uint64_t, uint8_t *, size_t);
extern size_t pdtr_texts(pdti_handle *, size_t, uint64_t, const char **, size_t, int64_t *, size_t);
extern size_t pdtr_pieces(pdti_handle *, size_t, uint64_t, uint64_t, pdt_int_span *, size_t, uint64_t *);
extern size_t pdtr_stretches(pdti_handle *, uint64_t, uint64_t, pdt_row_run *, size_t);
extern uint64_t pdtr_own(pdti_handle *, uint64_t, uint8_t *, size_t);

extern uint32_t pdtr_read_layer(pdti_handle *, pdti_handle *);
extern uint32_t pdtr_write_layer(pdti_handle *, pdti_handle *);
extern uint32_t pdtr_own_layer(pdti_handle *, pdti_handle *);
extern uint32_t pdtr_changes(pdti_handle *, uint64_t, pdti_handle *);
extern size_t pdtr_kept(pdti_handle *);
extern size_t pdtr_change_entries(pdti_handle *, uint64_t);
extern void pdtr_layer_close(pdti_handle *);
extern size_t pdtr_layer_len(pdti_handle *);
extern uint32_t pdtr_entry(pdti_handle *, size_t, pdt_entry *, int64_t *, size_t, uint8_t *, size_t);

extern uint32_t pdtr_prepare(pdti_handle *, pdti_handle *, uint64_t *, pdti_handle *);
extern uint32_t pdtr_install(pdti_handle *, pdti_handle *, pdti_handle *, pdti_handle *, uint64_t *);
extern void pdtr_give_up(pdti_handle *);
extern uint32_t pdtr_share(pdti_handle *, pdti_handle *);
extern uint32_t pdtr_checkpoint_begin(pdti_handle *, pdti_handle *);
extern uint32_t pdtr_snapshot_table(pdti_handle *, pdti_handle *);
extern uint32_t pdtr_table_image(pdti_handle *, pdti_handle *);
extern uint32_t pdtr_restack(pdti_handle *, pdti_handle *);
extern void pdtr_table_close(pdti_handle *);

extern uint32_t pdtr_pin(pdti_handle *, pdti_handle *);
extern uint32_t pdtr_pack(pdti_handle *);
extern uint32_t pdtr_pin_again(pdti_handle *, pdti_handle *);
extern uint64_t pdtr_pinned(pdti_handle *);
extern void pdtr_unpin(pdti_handle *);

/* the journal: a header has 36 bytes, and a frame's head 28 */
extern uint32_t pdtr_check(uint32_t, const uint8_t *, size_t);
extern bool pdtr_journal_header(uint64_t, uint64_t, uint64_t, uint8_t *, size_t);
extern uint32_t pdtr_journal_read(const uint8_t *, size_t, pdti_journal_header *);
extern uint32_t pdtr_journal_file(uint64_t, uint64_t, uint64_t, uint64_t, const uint8_t *, size_t, pdti_segment *);
extern uint64_t pdtr_journal_base(uint64_t, const pdti_segment *, size_t);
extern uint32_t pdtr_journal_end(const pdti_segment *, size_t, uint64_t, uint64_t, uint64_t, pdti_journal_end *);
extern bool pdtr_has_frames(uint64_t, uint64_t, const uint8_t *, size_t);
extern bool pdtr_frame_head(uint64_t, uint64_t, uint64_t, const uint8_t *, size_t, uint8_t *, size_t);

/* its steps: the exports return the one that is due, and C reports how it went. A goal is 1 for a written commit, 2 for a durable one */
typedef struct {
  uint64_t newest, written, durable, file, first_file;
  bool has_failed;
} pdti_journal_numbers;
typedef struct {
  const uint8_t *at;
  size_t len;
} pdti_piece;
extern uint32_t pdtr_journal_open(uint64_t, uint64_t, uint64_t, uint64_t, uint64_t, uint64_t, pdti_handle *);
extern void pdtr_journal_close(pdti_handle *);
extern void pdtr_journal_numbers(pdti_handle *, pdti_journal_numbers *);
extern uint32_t pdtr_stage(pdti_handle *, pdti_handle *, pdti_handle *, uint32_t, pdti_handle *, uint64_t *);
extern void pdtr_unstage(pdti_handle *);
extern uint32_t pdtr_add(pdti_handle *, uint64_t *);
extern void pdtr_withdraw(pdti_handle *);
extern void pdtr_stop(pdti_handle *);
extern void pdtr_want_next(pdti_handle *);
extern bool pdtr_remove_oldest(pdti_handle *, uint64_t *);
extern uint32_t pdtr_due(pdti_handle *, uint32_t);
extern uint32_t pdtr_next_batch(pdti_handle *, uint64_t *, pdti_handle *);
extern uint32_t pdtr_next(pdti_handle *, uint32_t, uint64_t *);
extern void pdtr_done(pdti_handle *, uint32_t);
extern void pdtr_failed(pdti_handle *, uint32_t);
extern uint32_t pdtr_batch_new(pdti_handle *);
extern void pdtr_batch_close(pdti_handle *);
extern void pdtr_batch_end(pdti_handle *);
extern size_t pdtr_seal(pdti_handle *, uint8_t *, size_t);
extern size_t pdtr_batch_frames(pdti_handle *, size_t, pdti_piece *, size_t);
extern uint32_t pdtr_frames_read(uint64_t, uint64_t, const uint8_t *, size_t, pdti_handle *);
extern void pdtr_frames_close(pdti_handle *);
extern uint32_t pdtr_reopen(const uint8_t *, size_t, const pdti_slice *, size_t, size_t, uint64_t, bool, uint64_t, uint32_t, pdti_handle *,
                            const uint8_t *, size_t, pdti_reopened *, pdti_handle *);
extern uint32_t pdtr_marked(const uint8_t *, size_t, const pdti_slice *, size_t, uint64_t, uint64_t, const uint8_t *, size_t,
                            pdti_marked_image *);

/* ---- the objects */

/* Room for a declared format; and for a header: a record that names the columns, each in quotes, since a name may have commas, quotes and
   ends of lines. */
enum { PDTI_FORMAT_BYTES = 64, CSV_HEADER_BYTES = PDT_MAX_COLUMNS * (2 * PDT_MAX_NAME + 16) };

/* The locks of a table, which all tables of a database share. */
typedef struct {
  pthread_mutex_t lock;       /* held in each call on a raw but the opening and the closing */
  atomic_uintptr_t holder;    /* the thread that has it, or 0 */
  struct timespec since;      /* when it was taken */
  uint64_t longest;           /* the longest time that it was held, in nanoseconds */
  atomic_uint_fast64_t waits; /* how often a thread found it taken */
  pthread_mutex_t fresh_lock; /* which no call holds for longer than it takes to begin a transaction over each table */
} pdti_locks;

typedef struct pdti_member pdti_member;
typedef struct pdti_commit pdti_commit;

/* Versions that begins took and take no more: they are let go of without a lock. */
typedef struct {
  pdti_handle at[3];
} pdti_replaced;

struct pdt_table {
  pdti_handle raw;
  pdti_locks *locks; /* its own, or its database's */
  pdti_locks own_locks;
  pdt_database *database; /* null where it is a table outside a database */
  pdti_member *member;    /* what it is there */
  atomic_size_t open;     /* how many transactions are open: an abort lowers it without the lock */
  size_t recent;          /* how many of the last commits are kept */
  size_t width, key;      /* the columns never change, and are read without the lock */
  int types[PDT_MAX_COLUMNS];
  size_t name_bytes[PDT_MAX_COLUMNS]; /* a name may have a zero byte */
  char names[PDT_MAX_COLUMNS][PDT_MAX_NAME + 1];
  char header[CSV_HEADER_BYTES]; /* of its images */
  size_t header_bytes;
  char declared[PDT_MAX_COLUMNS][PDTI_FORMAT_BYTES]; /* what the numbers of an int column stand for, or nothing: a format of Arrow's */

  _Atomic(pdti_commit *) waiting_commits; /* the last one that waits to be made */

  /* under the lock */
  size_t checkpoints_open; /* those that have begun and not ended */
  uint64_t rebuilt;        /* how often what is below the Write-PDT was made anew */
  uint64_t unpacked;       /* how many entries were folded into the Read-PDT since it was packed */
  uint64_t newest;         /* the number of the newest table: of a database's, the number that its last commit has there */
  uint64_t *made_by;       /* of a database's: the numbers there of its last commits and of the table before them, each at its own number
                        modulo recent + 1 */
  uint64_t *kept_upto;     /* and how many bytes their changes take in memory, with those of all before them since the opening */
  struct {
    uint64_t commits, conflicts, too_old, full, folds, checkpoints, superseded, packs;
  } done;

  /* under fresh_lock */
  pdti_handle fresh;  /* the version that begins take: nothing where malloc refused it, and then a begin takes the other lock */
  uint64_t commits;   /* its number */
  pdti_handle coming; /* a newer one, which begins take once its commits are durable */
  uint64_t coming_commits;
  pdti_handle leaving; /* one between the two, whose commits are being written */
  uint64_t leaving_commits;
  uint64_t leaving_newest; /* the number of the newest one among those: malloc may have refused to share that */
  pdt_table *next_changed; /* of a database's, under the lock: in the list of those with commits that no batch has taken yet */
  bool is_changed;
  pdt_table *next_leaving; /* in the list of those that a batch has changed, of the thread that writes it, with what is replaced then */
  pdti_replaced replaced;
  pthread_cond_t moved;          /* the number has grown */
  size_t waiting;                /* how many threads wait for that */
  pdt_pinned *oldest, *youngest; /* the pins, in the order of their numbers */
  size_t pins;

  atomic_uint_fast64_t begins; /* of transactions, also over pins */
};

struct pdt_txn {
  pdti_handle raw;
  pdt_table *table;
  pdt_dbtxn *dbtxn;      /* that it is a part of, if it is */
  uint64_t version_seen; /* the number of the table that it sees */
  bool is_prepared;      /* its commit is */
  pdti_handle decision;  /* of a prepared commit: the table's lock is held then. Nothing where it changes nothing */
  size_t part_bytes;     /* of what a frame of its database's journal says of it */
  pdti_handle ended;     /* once it is over: all that it had, and what its commit has replaced */
  pthread_t by;          /* the thread that prepared it, and holds the lock */
  pid_t process;         /* of that thread: a child of fork has a thread of the same name, and no lock */
};

struct pdt_pinned {
  pdti_handle version;
  pthread_mutex_t lock; /* a handle goes to one call at a time */
  pdt_table *table;
  uint64_t commits;
  pdt_pinned *older, *younger; /* under fresh_lock */
};

/* ---- the table's lock */

/* Takes it. PDT_MISUSE where this thread has it, since a commit of its own is prepared. */
int pdti_enter(pdt_table *table);
/* Takes it where no thread has it, and doesn't wait; or sleeps until it is given back. Neither counts a wait. */
int pdti_try_enter(pdt_table *table);
int pdti_sleep_in(pdt_table *table);
/* Gives it back. */
void pdti_leave(pdt_table *table);
/* Whether a thread has it, and whether this one has. The first may be stale on return. */
bool pdti_is_entered(const pdt_table *table);
bool pdti_is_entered_here(const pdt_table *table);

/* How often a thread that waits for the lock looks again before it sleeps: some ten microseconds, in which several commits are made. To
   sleep and to be woken takes longer than one. */
enum { LOOKS = 1000 };

static inline void look_again(void) {
#if defined __x86_64__ || defined __i386__
  __builtin_ia32_pause();
#endif
}

/* Whether the newest table has a commit that a crash could take away, so that begins don't see it yet. */
bool pdti_is_hidden(const pdt_table *table);

/* Shares the newest version with begins, or keeps it for them until its commits are durable; before the lock is given back. */
pdti_replaced pdti_refresh(pdt_table *table);
void pdti_drop(pdti_replaced versions);

/* The same of a version that was taken already, or is nothing, with fresh_lock held. */
pdti_replaced pdti_share(pdt_table *table, pdti_handle version);

/* The commits up to a number are durable: begins take the version that was kept for them. With fresh_lock held. */
pdti_replaced pdti_publish(pdt_table *table, uint64_t durable);

/* Keeps the number of a database that the table's newest commit has there. Under the lock. */
void pdti_number(pdt_table *table, uint64_t local, uint64_t number);

/* A version that is kept: the number of its table, and the lock that one call at a time takes, where there is one. */
typedef struct {
  pdti_handle *version;
  pthread_mutex_t *lock;
  uint64_t commits;
} pdti_kept_version;

/* Makes a transaction that begins over a version that is kept, or over the newest one where it is null. */
int pdti_begin_over(pdt_table *table, const pdti_kept_version *kept, pdt_txn **out);

/* Begins over the version that begins take, with fresh_lock held; nothing is there where malloc refused it. */
int pdti_begin_fresh(pdt_table *table, pdt_txn *txn);

/* Begins over the newest version, once it may be read, and shares it again. Where it fails nothing has begun. */
int pdti_begin_newest(pdt_table *table, pdt_txn *txn);

/* Commits a transaction that changes something of a table that is in no database. PDT_NOMEM and PDT_MISUSE: it is open still. */
int pdti_commit_alone(pdt_table *table, pdt_txn *txn, uint64_t *number);

/* Decides a transaction's commit, whose decision it has then. PDT_TOO_OLD without one where the changes that decide it are let go of.
   PDT_NOMEM: it is open still. Under the lock. */
int pdti_decide(pdt_table *table, pdt_txn *txn, uint64_t *number);

/* Does what was decided of a commit that is refused. Under the lock; pdti_end follows without it. */
void pdti_refuse(pdt_table *table, pdt_txn *txn, int code);

/* Counts a commit that was decided. Under the lock. */
void pdti_count(pdt_table *table, int code);

/* Whether a transaction changes nothing, so that its commit is its abort. */
bool pdti_is_idle(pdt_txn *txn);

/* Ends a transaction, and what is left of one whose commit was decided. */
void pdti_end(pdt_txn *txn);

/* Frees what the commit of a transaction has let go of, or has made in vain. Without the lock, so that others don't wait for it. */
void pdti_let_go(pdt_txn *txn);

/* Frees a transaction whose handle is empty, with what its commit has let go of. */
void pdti_forget(pdt_txn *txn);

/* A lock that tells the thread which has it so, when it asks again. */
int pdti_make_lock(pthread_mutex_t *lock);

/* ---- a database's part in a commit */

/* Commits a transaction over one of its tables; what pdt_commit answers. */
int pdti_commit_in(pdt_database *database, pdt_txn *txn, uint64_t *commits);

/* Under the lock: whether it takes commits; adds a prepared one to the journal, and gives its number; and takes that back. */
int pdti_may_commit(const pdt_database *database);
int pdti_stage_one(pdt_database *database, pdt_txn *txn, uint64_t *number);
void pdti_unstage(pdt_database *database);

/* Installs what was added, gives the lock back, and waits as the database's sync says. */
int pdti_install_in(pdt_database *database, pdt_txn *txn);

/* The newest commit. Under the lock. */
uint64_t pdti_newest(const pdt_database *database);

/* The newest commit that begins may see. With fresh_lock held. */
uint64_t pdti_seen(const pdt_database *database);

/* Waits until the device has a commit. */
int pdti_wait_until_durable(pdt_database *database, uint64_t number);

/* Waits until what a transaction saw is as durable as the database's sync says; and until the device has what an image is made of: else
   PDT_WRITES_FAILED. PDT_MISUSE where that isn't yet, and this thread has a commit prepared: whoever writes waits for the lock. */
int pdti_wait_for_seen(pdt_database *database, uint64_t number);
/* After a conflict, without the lock: waits until begins see the commits up to a number, so that the next try doesn't meet them again. */
void pdti_wait_out(pdt_database *database, uint64_t number);
int pdti_wait_for_image(pdt_database *database, uint64_t number);

/* ---- slices: one of nothing still has an address that may be read */

extern const uint8_t pdti_no_bytes[1];
extern uint8_t pdti_no_room[1];
extern int64_t pdti_no_numbers[1];

static inline const uint8_t *bytes_at(const void *bytes, size_t len) { return len ? bytes : pdti_no_bytes; }
static inline uint8_t *room_at(void *room, size_t len) { return len ? room : pdti_no_room; }

/* ---- structs.c: those that begin with their size */

/* Takes a caller's struct as this version has it: members that an earlier one lacks are zeros. PDT_MISUSE where it is smaller than the
   first version's, or a later one with more than zeros, or the size is garbage. */
int pdti_take_struct(void *into, size_t room, const void *given, size_t least);

/* Whether a caller's struct may be filled; and fills as much of it as it has room for, with zeros behind what this version knows. */
int pdti_may_fill(const void *to, size_t least);
void pdti_fill_struct(void *to, const void *from, size_t room);

/* ---- messages.c: the sentence for the last code that a thread was returned. Each call that returns a code which some call explains either
   keeps a sentence for it, or none by pdti_plain: else pdt_errmsg would give that of an earlier call. These answer the code. */

/* Keeps none for a code other than PDT_OK. */
int pdti_plain(int code);

/* Keeps one: that which is passed, or one by printf's form. */
int pdti_keep_sentence(int code, const char *sentence, size_t bytes);
int pdti_say(int code, const char *form, ...) __attribute__((format(printf, 2, 3)));
int pdti_say_words(int code, const char *form, va_list words) __attribute__((format(printf, 2, 0)));

/* What is said of a key: that its row exists, that none does, or that an earlier row has it. */
enum pdti_key_words { PDTI_EXISTS, PDTI_NO_ROW, PDTI_EARLIER };

/* A cell that a sentence shows. */
typedef struct {
  const char *name, *text;
  size_t name_bytes, bytes;
  int64_t number;
  int type;
  bool is_cut; /* the text goes on */
} pdti_said_cell;

/* Keeps one with a key: by copies of it, since the table may be closed before it is asked for; or spelled at once. */
int pdti_keep_key(int code, enum pdti_key_words words, const pdt_table *table, const int64_t *numbers, const void *texts);
int pdti_say_key(int code, enum pdti_key_words words, const pdti_said_cell *key, size_t cells);
/* Keeps that a row's key isn't above that of the row before it. */
int pdti_say_order(uint64_t row, const pdti_said_cell *key, const pdti_said_cell *before, size_t cells);

/* A name in quotes, the beginning of a sentence about a cell, and a number with commas. */
typedef struct {
  char text[272];
} pdti_quoted;
typedef struct {
  char text[320];
} pdti_where;
typedef struct {
  char text[32];
} pdti_grouped;
const char *pdti_quote(pdti_quoted *into, const char *text, size_t bytes);
const char *pdti_where_of(pdti_where *into, const char *name, size_t bytes);
const char *pdti_group(pdti_grouped *into, uint64_t number);

/* ---- refusals.c: sentences for what the exports have refused */

/* The options of an opening; other codes than PDT_BAD_LIMIT and PDT_TOO_MANY_ROWS have no sentence. */
int pdti_refuse_options(int code, const pdt_options *options);
/* A column that a table hasn't. */
int pdti_refuse_column(const pdt_table *table, size_t column);
/* The cells of a row or of a key, of a code that may be PDT_TYPE_MISMATCH. */
int pdti_refuse_cells(int code, const pdt_table *table, const int64_t *numbers, size_t count, const void *texts, size_t bytes);
/* A set: its key, and the cell, whose text may be null. */
typedef struct {
  const int64_t *key;
  const void *texts;
  size_t bytes;
  size_t column;
  int64_t number;
  const void *text;
} pdti_set_cell;
int pdti_refuse_set(const pdt_table *table, const pdti_set_cell *set);
/* A read or a write of the row of a key: what refuses the key, or that there is no row. */
int pdti_refuse_key(int code, const pdt_table *table, const int64_t *key, const void *texts, size_t bytes);
/* A text that is too long, of a cell. */
int pdti_refuse_length(const char *where, uint64_t bytes);
/* Keeps the sentence of a fault: in the names, the types or the key of columns; of a value at a place; of a value in memory, or PDT_OK if
   it has its type; of a row whose key isn't above that of the row before it; and of a row whose key an earlier row has. */
int pdti_refuse_headings(const pdt_column *columns, size_t count, size_t key);
int pdti_refuse_value(const pdt_column *columns, const pdt_place *place);
int pdti_find_value(const pdt_column *column, uint64_t row, const char *where);
int pdti_refuse_order(const pdt_column *columns, size_t key, uint64_t row);
int pdti_refuse_second(const pdt_column *columns, size_t key, uint64_t row);

/* ---- opening */

/* What a caller asks for, or what stands for it. PDT_MISUSE as pdti_take_struct. */
int pdti_options_of(const pdt_options *given, pdt_options *options);

/* What a column is declared as, or no byte, into PDTI_FORMAT_BYTES, while other threads declare columns. */
void pdti_copy_declared(const pdt_table *table, size_t column, char *format);

/* Makes the locks of a table or of a database, or none of them. */
int pdti_make_locks(pdti_locks *locks);
void pdti_destroy_locks(pdti_locks *locks);

/* Keeps the columns of a table whose handle has just been filled, and hands it out; where that fails it is let go. */
int pdti_adopt(pdt_table *table, const pdt_options *options, pdt_table **out);

/* Lets go of a table that nobody uses. */
void pdti_free_table(pdt_table *table);

/* Whether a table is in use. Under the lock; the second with fresh_lock held too. */
bool pdti_is_used(pdt_table *table);
bool pdti_is_used_now(const pdt_table *table);

/* How many columns a header has. */
int pdti_width_of(const uint8_t *header, size_t len, size_t *width);

/* ---- files */

enum { CHUNK = 1 << 20 };

/* Room for the name of a file; and the name of one of an image: the header's where column is negative. */
enum { FILE_NAME = 64 };
void pdti_name_column(char *name, int column);

/* Writes all of the bytes, or PDT_IO. */
int pdti_write_to(int file, const void *bytes, size_t len);

/* The bytes of a checkpoint that has begun, once a crash can't take its commits away: of a database PDT_WRITES_FAILED where that is
   never. */
int pdti_checkpoint_image(pdt_open_checkpoint *checkpoint, pdti_handle *image);
/* They are written. */
void pdti_checkpoint_is_written(pdt_open_checkpoint *checkpoint);

/* Whether a checkpoint can be made in a folder: it is there, may be read, and has no file of one. Nothing is changed by it. */
int pdti_try_folder(const pdt_table *table, const char *folder);

/* Writes the bytes of a checkpoint into a folder, and takes them away where that fails. */
int pdti_write_files(const pdt_table *table, pdti_handle *image, const char *folder, uint8_t *chunk);

/* Takes away the files from the header's up to this column's, which this call made. errno goes on saying why. */
void pdti_remove_files(const char *folder, int end);

/* Hands the bytes of a column to write, and says whether it took all. */
bool pdti_hand_column(pdti_handle *image, size_t column, uint8_t *chunk, pdt_write write, void *context);

/* Frees the room for a chunk, and errno goes on saying why a file failed. */
void pdti_free_chunk(uint8_t *chunk);

#endif
