/* Names and texts in sentences: in quotes, and cut where they are long. The extension of SQLite has this too, as a file: the library shows
   none of its own names. */
#ifndef PDT_QUOTED_H
#define PDT_QUOTED_H

#include <stdbool.h>
#include <stddef.h>
#include <stdint.h>
#include <stdio.h>
#include <string.h>

/* How many characters of a text are shown. */
enum { PDTI_SHOWN = 64 };

/* Bytes that are put one part after the other, as many as fit: nothing is put behind a part that doesn't. */
typedef struct {
  char *at;
  size_t len, room;
  bool is_full;
} pdti_text;

static inline void pdti_put(pdti_text *to, const char *bytes, size_t len) {
  if (to->is_full || len > to->room - to->len) {
    to->is_full = true;
    return;
  }
  memcpy(to->at + to->len, bytes, len);
  to->len += len;
}

static inline void pdti_put_words(pdti_text *to, const char *words) { pdti_put(to, words, strlen(words)); }

/* Puts a number, with a comma before each three digits if that is asked for. */
static inline void pdti_put_number(pdti_text *to, uint64_t number, bool has_commas) {
  char digits[32];
  size_t at = sizeof digits;
  for (size_t count = 0; !count || number; count++, number /= 10) {
    if (has_commas && count && count % 3 == 0) digits[--at] = ',';
    digits[--at] = (char)('0' + number % 10);
  }
  pdti_put(to, digits + at, sizeof digits - at);
}

/* How many bytes the character has that a byte begins: 0 for none. */
static inline size_t pdti_length_of(uint8_t lead) {
  return lead < 0x80 ? 1 : lead < 0xc2 ? 0 : lead < 0xe0 ? 2 : lead < 0xf0 ? 3 : lead < 0xf5 ? 4 : 0;
}

/* Puts a character: quotes, backslashes and control characters are escaped, and bytes that are none. */
static inline void pdti_put_character(pdti_text *to, const uint8_t *at, size_t len) {
  static const char letters[] = {'\n', 'n', '\r', 'r', '\t', 't', '"', '"', '\\', '\\'};
  char word[8];
  for (size_t i = 0; i < sizeof letters; i += 2) {
    if (*at != (uint8_t)letters[i]) continue;
    pdti_put(to, (char[]){'\\', letters[i + 1]}, 2);
    return;
  }
  bool is_control = *at < 32 || *at == 127, is_high_control = len == 2 && *at == 0xc2 && at[1] < 0xa0;
  if (!is_control && !is_high_control && len) {
    pdti_put(to, (const char *)at, len);
    return;
  }
  snprintf(word, sizeof word, "\\x%02x", is_high_control ? at[1] : at[0]);
  pdti_put_words(to, word);
}

/* Puts a text in quotes, and dots behind it if it is cut. */
static inline void pdti_put_text(pdti_text *to, const char *text, size_t bytes, bool is_cut) {
  const uint8_t *at = (const uint8_t *)text, *end = at + bytes;
  pdti_put(to, "\"", 1);
  for (size_t characters = 0; at < end; characters++) {
    size_t len = pdti_length_of(*at);
    if (characters == PDTI_SHOWN || len > (size_t)(end - at)) {
      is_cut = true;
      break;
    }
    pdti_put_character(to, at, len);
    at += len ? len : 1;
  }
  pdti_put_words(to, is_cut ? "\".." : "\"");
}

/* Whether a name is read as one without quotes. Behind 0xc2 may be a control character. */
static inline bool pdti_is_plain(const char *name, size_t bytes) {
  for (size_t i = 0; i < bytes; i++) {
    uint8_t at = (uint8_t)name[i];
    bool is_letter = (at >= 'a' && at <= 'z') || (at >= 'A' && at <= 'Z') || (at >= '0' && at <= '9') || at == '_';
    if (!is_letter && (at < 0x80 || at == 0xc2)) return false;
  }
  return bytes;
}

/* Puts the name of a key column. */
static inline void pdti_put_name(pdti_text *to, const char *name, size_t bytes) {
  if (pdti_is_plain(name, bytes)) {
    pdti_put(to, name, bytes);
  } else {
    pdti_put_text(to, name, bytes, false);
  }
}

#endif
