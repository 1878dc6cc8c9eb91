/* Structs of an earlier or a later version of the header: each begins with its size, which the caller sets. */
#include "inside.h"

/* No struct of any version has so many bytes: a greater size was never set. */
enum { MOST = 4096 };

int pdti_take_struct(void *into, size_t room, const void *given, size_t least) {
  size_t size = *(const size_t *)given;
  if (size < least || size > MOST) return PDT_MISUSE;
  for (size_t at = room; at < size; at++)
    if (((const uint8_t *)given)[at]) return PDT_MISUSE;
  memset(into, 0, room);
  memcpy(into, given, size < room ? size : room);
  return PDT_OK;
}

int pdti_may_fill(const void *to, size_t least) {
  size_t size = *(const size_t *)to;
  return size < least || size > MOST ? PDT_MISUSE : PDT_OK;
}

void pdti_fill_struct(void *to, const void *from, size_t room) {
  size_t size = *(size_t *)to;
  memset(to, 0, size);
  memcpy(to, from, size < room ? size : room);
  *(size_t *)to = size;
}
