/* The formats of Arrow's that a column takes or goes out as. */
#include "arrow.h"

#include <stdio.h>

/* Those of one letter or three. */
typedef struct {
  const char *text;
  pdti_format format;
} pdti_named;

static const pdti_named of_one[] = {
    {"c", {PDTI_NUMBERS, PDT_INT, 1, true, 0}},   {"C", {PDTI_NUMBERS, PDT_INT, 1, false, 0}},
    {"s", {PDTI_NUMBERS, PDT_INT, 2, true, 0}},   {"S", {PDTI_NUMBERS, PDT_INT, 2, false, 0}},
    {"i", {PDTI_NUMBERS, PDT_INT, 4, true, 0}},   {"I", {PDTI_NUMBERS, PDT_INT, 4, false, 0}},
    {"l", {PDTI_NUMBERS, PDT_INT, 8, true, 0}},   {"L", {PDTI_NUMBERS, PDT_INT, 8, false, 0}},
    {"f", {PDTI_DOUBLES, PDT_INT, 4, true, 0}},   {"g", {PDTI_DOUBLES, PDT_INT, 8, true, 0}},
    {"tdD", {PDTI_NUMBERS, PDT_INT, 4, true, 0}}, {"tdm", {PDTI_NUMBERS, PDT_INT, 8, true, 0}},
    {"tts", {PDTI_NUMBERS, PDT_INT, 4, true, 0}}, {"ttm", {PDTI_NUMBERS, PDT_INT, 4, true, 0}},
    {"ttu", {PDTI_NUMBERS, PDT_INT, 8, true, 0}}, {"ttn", {PDTI_NUMBERS, PDT_INT, 8, true, 0}},
    {"tDs", {PDTI_NUMBERS, PDT_INT, 8, true, 0}}, {"tDm", {PDTI_NUMBERS, PDT_INT, 8, true, 0}},
    {"tDu", {PDTI_NUMBERS, PDT_INT, 8, true, 0}}, {"tDn", {PDTI_NUMBERS, PDT_INT, 8, true, 0}},
    {"b", {PDTI_BITS, PDT_BOOL, 0, false, 0}},    {"u", {PDTI_TEXTS, PDT_TEXT, 4, false, 0}},
    {"U", {PDTI_TEXTS, PDT_TEXT, 8, false, 0}},   {"vu", {PDTI_VIEWS, PDT_TEXT, 16, false, 0}},
};

/* A number of at most three digits, with a sign if it may have one; *text goes on after it. */
static bool read_number(const char **text, bool may_be_signed, int *number) {
  const char *at = *text;
  bool is_negative = may_be_signed && *at == '-';
  if (is_negative) at++;
  int digits = 0, value = 0;
  for (; *at >= '0' && *at <= '9' && digits < 4; at++, digits++) value = 10 * value + (*at - '0');
  *text = at;
  *number = is_negative ? -value : value;
  return digits > 0 && digits < 4;
}

/* d:PRECISION,SCALE, and the width where it is told: 128 bits. */
static bool read_decimal(const char *text, pdti_format *format) {
  int digits = 0, scale = 0, width = 128;
  text += 2;
  if (!read_number(&text, false, &digits) || *text++ != ',' || !read_number(&text, true, &scale)) return false;
  if (*text == ',') {
    text++;
    if (!read_number(&text, false, &width)) return false;
  }
  *format = (pdti_format){PDTI_DECIMALS, PDT_INT, 16, true, digits};
  return !*text && width == 128 && digits >= 1 && digits <= 38;
}

bool pdti_read_format(const char *text, pdti_format *format) {
  if (!text) return false;
  for (size_t i = 0; i < sizeof of_one / sizeof *of_one; i++) {
    if (strcmp(of_one[i].text, text)) continue;
    *format = of_one[i].format;
    return true;
  }
  if (!strncmp(text, "d:", 2)) return read_decimal(text, format);
  if (strncmp(text, "ts", 2) || !text[2] || !strchr("smun", text[2]) || text[3] != ':') return false;
  *format = (pdti_format){PDTI_NUMBERS, PDT_INT, 8, true, 0};
  return true;
}

bool pdti_goes_out(int type, const pdti_format *as) {
  if (as->type != type) return false;
  if (as->kind == PDTI_NUMBERS) return as->is_signed && as->bytes >= 4;
  return as->kind != PDTI_VIEWS && (as->kind != PDTI_DOUBLES || as->bytes == 8);
}

/* The scale of a decimal: how many digits are behind its point. */
static int scale_of(const char *format) {
  const char *at = strchr(format, ',') + 1;
  int scale = 0;
  return read_number(&at, true, &scale) ? scale : 0;
}

bool pdti_means(const char *format, const char *other) {
  pdti_format one, two;
  format += *format == '?';
  other += *other == '?';
  if (!pdti_read_format(format, &one) || !pdti_read_format(other, &two) || one.kind != two.kind) return false;
  if (one.kind == PDTI_DECIMALS) return scale_of(format) == scale_of(other);
  bool is_time = strlen(format) >= 3 || strlen(other) >= 3;
  if (one.kind != PDTI_NUMBERS || !is_time) return true;
  bool is_timestamp = !strncmp(format, "ts", 2); /* in any zone it is counted from one moment, and without a zone from a local one */
  return !strncmp(format, other, 3) && (!is_timestamp || !format[4] == !other[4]);
}
