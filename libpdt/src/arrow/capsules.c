/* The destructors of Python's capsules of Arrow's structs. */
#include "arrow.h"

static void *(*pointer_of)(void *capsule, const char *name);
static void (*free_room)(void *room);

void pdt_capsules(void *(*pointer)(void *capsule, const char *name), void (*release)(void *room)) {
  pointer_of = pointer;
  free_room = release;
}

void pdt_end_stream_capsule(void *capsule) {
  struct ArrowArrayStream *stream = pointer_of(capsule, "arrow_array_stream");
  pdti_release_stream(stream);
  free_room(stream);
}

void pdt_end_schema_capsule(void *capsule) {
  struct ArrowSchema *schema = pointer_of(capsule, "arrow_schema");
  if (schema && schema->release) schema->release(schema);
  free_room(schema);
}
