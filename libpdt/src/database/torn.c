/* What is torn off a journal's end, where whole frames are behind the damage: commits that the device had and that weren't known to be
   durable. They can't be taken, since one before them is gone; so their bytes are kept beside the journal, for a person to look at. */
#include "database.h"

#include <fcntl.h>

int pdti_keep_torn(const pdt_database *database, uint64_t seq, const uint8_t *torn, size_t len, char *name) {
  pdti_name_file(name, PDTI_TORN, seq, 0);
  int file = pdti_make_new(database, database->dir, name, O_WRONLY);
  if (file < 0) return PDT_IO;
  int code = pdti_close_synced(file, pdti_write_to(file, torn, len));
  if (code) pdti_remove_in(database->dir, name);
  return code ? code : pdti_sync_in(database->dir);
}
