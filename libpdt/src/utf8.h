/* UTF-8. The extension of SQLite has this test too, as a file: the library shows none of its own names. */
#ifndef PDT_UTF8_H
#define PDT_UTF8_H

#include <stdbool.h>
#include <stddef.h>
#include <stdint.h>

static inline bool pdti_is_utf8(const uint8_t *at, size_t len) {
  for (const uint8_t *end = at + len; at < end;) {
    uint32_t lead = *at++, more = lead < 0x80 ? 0 : lead < 0xc2 ? 4 : lead < 0xe0 ? 1 : lead < 0xf0 ? 2 : lead < 0xf5 ? 3 : 4;
    if (more == 4 || (size_t)(end - at) < more) return false;
    uint32_t point = more ? lead & (0x3f >> more) : lead;
    for (uint32_t i = 0; i < more; i++, at++) {
      if ((*at & 0xc0) != 0x80) return false;
      point = point << 6 | (*at & 0x3f);
    }
    static const uint32_t least[] = {0, 0x80, 0x800, 0x10000};
    if (point < least[more] || point > 0x10ffff || (point >= 0xd800 && point < 0xe000)) return false;
  }
  return true;
}

#endif
