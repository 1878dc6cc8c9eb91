/* Checkpoints: the newest table becomes the stable one, in files, or as bytes that a caller takes. */
#include "inside.h"

/* ---- a checkpoint while others commit */

struct pdt_open_checkpoint {
  pdt_table *table;
  pdti_handle version; /* the newest one when it began */
  uint64_t commits;    /* the number of its table */
  pdti_handle stable;  /* made by the first write */
  uint64_t rebuilt;    /* that of the table when it began */
  bool is_written, is_installed;
};

pdt_code pdt_checkpoint_begin(pdt_table *table, uint64_t *commits, pdt_open_checkpoint **out) {
  if (!out) return PDT_MISUSE;
  *out = NULL;
  if (!table) return PDT_MISUSE;
  pdt_open_checkpoint *checkpoint = calloc(1, sizeof *checkpoint);
  if (!checkpoint) return PDT_NOMEM;
  pdti_replaced before = {{{NULL}}};
  int code = pdti_enter(table);
  if (!code) {
    uint64_t entries = pdtr_write_entries(&table->raw);
    code = (int)pdtr_checkpoint_begin(&table->raw, &checkpoint->version);
    if (!code) {
      table->unpacked += entries;
      table->checkpoints_open++;
      checkpoint->rebuilt = ++table->rebuilt;
      checkpoint->commits = table->newest;
      before = pdti_refresh(table);
    }
    pdti_leave(table);
  }
  pdti_drop(before);
  if (code) {
    free(checkpoint);
    return code;
  }
  checkpoint->table = table;
  if (commits) *commits = checkpoint->commits;
  *out = checkpoint;
  return PDT_OK;
}

pdt_code pdt_checkpoint_write(pdt_open_checkpoint *checkpoint, const char *folder) {
  if (!checkpoint || checkpoint->is_written || !folder) return PDT_MISUSE;
  int code = pdti_try_folder(checkpoint->table, folder);
  if (code) return pdti_plain(code);
  uint8_t *chunk = malloc(CHUNK);
  if (!chunk) return PDT_NOMEM;
  pdti_handle image = {NULL};
  code = pdti_checkpoint_image(checkpoint, &image);
  if (!code) {
    code = pdti_write_files(checkpoint->table, &image, folder, chunk);
    int why = errno;
    pdtr_image_close(&image);
    errno = why;
  }
  pdti_free_chunk(chunk);
  checkpoint->is_written = !code;
  return pdti_plain(code);
}

pdt_code pdt_checkpoint_read(pdt_open_checkpoint *checkpoint, pdt_txn **out) {
  if (!out) return PDT_MISUSE;
  *out = NULL;
  if (!checkpoint) return PDT_MISUSE;
  return pdti_begin_over(checkpoint->table, &(pdti_kept_version){&checkpoint->version, NULL, checkpoint->commits}, out);
}

int pdti_checkpoint_image(pdt_open_checkpoint *checkpoint, pdti_handle *image) {
  pdt_table *table = checkpoint->table;
  int code = table->database ? pdti_wait_for_image(table->database, checkpoint->commits) : PDT_OK;
  if (!code && !checkpoint->stable.at) code = (int)pdtr_snapshot_table(&checkpoint->version, &checkpoint->stable);
  return code ? code : (int)pdtr_table_image(&checkpoint->stable, image);
}

void pdti_checkpoint_is_written(pdt_open_checkpoint *checkpoint) { checkpoint->is_written = true; }

pdt_code pdt_checkpoint_install(pdt_open_checkpoint *checkpoint) {
  if (!checkpoint || !checkpoint->is_written || checkpoint->is_installed) return PDT_MISUSE;
  pdt_table *table = checkpoint->table;
  if (pdti_enter(table)) return PDT_MISUSE;
  int code = table->rebuilt == checkpoint->rebuilt ? (int)pdtr_restack(&table->raw, &checkpoint->stable) : PDT_SUPERSEDED;
  pdti_replaced before = {{{NULL}}};
  if (!code) {
    table->rebuilt++;
    table->unpacked = 0; /* the Read-PDT has no entries then */
    table->done.checkpoints++;
    before = pdti_refresh(table);
  }
  if (code == PDT_SUPERSEDED) table->done.superseded++;
  pdti_leave(table);
  pdti_drop(before);
  checkpoint->is_installed = !code;
  return code;
}

void pdt_checkpoint_end(pdt_open_checkpoint *checkpoint) {
  if (!checkpoint) return;
  pdt_table *table = checkpoint->table;
  if (checkpoint->stable.at) pdtr_table_close(&checkpoint->stable);
  pdtr_unpin(&checkpoint->version); /* without the lock: what the new table replaced goes with it */
  free(checkpoint);
  int held = pdti_enter(table); /* by this thread, where a commit of its own is prepared */
  table->checkpoints_open--;
  if (!held) pdti_leave(table);
}

/* ---- a checkpoint in one call: nothing changes before all of it is written */

/* The newest table and its bytes, made without the lock. */
typedef struct {
  pdti_handle version, stable, image;
  uint64_t commits; /* the number of the table */
} pdti_draft;

static int make_draft(pdt_table *table, pdti_draft *made) {
  if (pdti_enter(table)) return PDT_MISUSE;
  int code = (int)pdtr_share(&table->raw, &made->version);
  made->commits = table->newest;
  pdti_leave(table);
  if (!code && table->database && pdti_wait_until_durable(table->database, made->commits)) code = PDT_WRITES_FAILED;
  if (!code) code = (int)pdtr_snapshot_table(&made->version, &made->stable);
  if (!code) code = (int)pdtr_table_image(&made->stable, &made->image);
  return code;
}

static void end_draft(pdti_draft *made) {
  int why = errno;
  if (made->image.at) pdtr_image_close(&made->image);
  if (made->stable.at) pdtr_table_close(&made->stable);
  if (made->version.at) pdtr_unpin(&made->version);
  errno = why;
}

/* Makes the newest table the stable one in memory: the table that was written or, where commits came since, one that is made
   anew. Where a fold or another checkpoint comes between, its layers stay. */
static int install_draft(pdt_table *table, pdti_draft *made) {
  pdt_open_checkpoint *checkpoint = NULL;
  uint64_t commits = 0;
  int code = pdt_checkpoint_begin(table, &commits, &checkpoint);
  if (code) return code;
  if (commits == made->commits) {
    checkpoint->stable = made->stable;
    made->stable.at = NULL;
  } else {
    code = (int)pdtr_snapshot_table(&checkpoint->version, &checkpoint->stable);
  }
  checkpoint->is_written = !code;
  if (!code) code = pdt_checkpoint_install(checkpoint);
  pdt_checkpoint_end(checkpoint);
  return code == PDT_SUPERSEDED ? PDT_OK : code;
}

pdt_code pdt_checkpoint(pdt_table *table, const char *folder) {
  if (!table || !folder || pdti_enter(table)) return PDT_MISUSE;
  pdti_leave(table); /* no commit of this thread is prepared: that is said before the folder is looked at */
  int code = pdti_try_folder(table, folder);
  if (code) return pdti_plain(code);
  uint8_t *chunk = malloc(CHUNK);
  if (!chunk) return PDT_NOMEM;
  pdti_draft made = {{NULL}, {NULL}, {NULL}, 0};
  code = make_draft(table, &made);
  if (!code) code = pdti_write_files(table, &made.image, folder, chunk);
  if (!code) {
    code = install_draft(table, &made);
    if (code) pdti_remove_files(folder, (int)table->width);
  }
  end_draft(&made);
  pdti_free_chunk(chunk);
  return pdti_plain(code);
}

/* ---- images as bytes */

pdt_code pdt_checkpoint_to(pdt_table *table, pdt_write write, void *context, size_t *column) {
  if (!table || !write) return PDT_MISUSE;
  uint8_t *chunk = malloc(CHUNK);
  if (!chunk) return PDT_NOMEM;
  pdti_draft made = {{NULL}, {NULL}, {NULL}, 0};
  int code = make_draft(table, &made);
  if (!code) {
    size_t at = PDT_HEADER;
    if (write(context, at, (const uint8_t *)table->header, table->header_bytes)) code = PDT_DEVICE_FAILED;
    while (!code && ++at < table->width)
      if (!pdti_hand_column(&made.image, at, chunk, write, context)) code = PDT_DEVICE_FAILED;
    if (code && column) *column = at;
  }
  if (!code) code = install_draft(table, &made);
  end_draft(&made);
  pdti_free_chunk(chunk);
  return pdti_plain(code);
}
