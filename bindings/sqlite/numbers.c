/* What the numbers of int columns stand for, and SQLite's values of it.

   A double is kept as a number in the order of doubles. A date is its days since 1970, shown as 2024-12-31; a timestamp is
   a count of its unit, shown as 2024-12-31 23:59:59, with its fraction behind a point where there is one. SQLite's functions
   of dates read both, and as texts they have the order of their numbers, between the years 0000 and 9999. */
#include "vtab.h"

#include <math.h>
#include <string.h>

SQLITE_EXTENSION_INIT3

static const int64_t second = 1000000, day = 86400 * (int64_t)1000000; /* in microseconds */

enum { FIRST_DAY = -719528, LAST_DAY = 2932896 }; /* 0000-01-01 and 9999-12-31 */

/* ---- meanings */

static int64_t unit_of(char letter) { return letter == 's' ? second : letter == 'm' ? 1000 : letter == 'u' ? 1 : 0; }

meaning meaning_of(const char *format) {
  meaning m = {NUMBERS, format && *format == '?', 0};
  if (!format) return m;
  format += m.has_null;
  if (!strcmp(format, "g")) m.kind = REALS;
  else if (!strcmp(format, "tdD")) m.kind = DATES;
  else if (!strncmp(format, "ts", 2)) m.unit = unit_of(format[2]);
  if (m.unit) m.kind = TIMES;
  return m;
}

bool is_shown_as_text(const meaning *m) { return m->kind == DATES || m->kind == TIMES; }

void bounds_of(const meaning *m, int64_t *least, int64_t *most) {
  *least = INT64_MIN;
  *most = INT64_MAX;
  if (m->kind == REALS) {
    *least = number_of_real(-INFINITY);
    *most = number_of_real(INFINITY);
  } else if (m->kind == DATES) {
    *least = FIRST_DAY;
    *most = LAST_DAY;
  } else if (m->kind == TIMES) {
    *least = FIRST_DAY * day / m->unit;
    *most = ((LAST_DAY + 1) * day - 1) / m->unit;
  }
}

/* ---- doubles */

int64_t number_of_real(double real) {
  int64_t bits;
  memcpy(&bits, &real, sizeof bits);
  return bits < 0 ? bits ^ INT64_MAX : bits;
}

double real_of_number(int64_t number) {
  int64_t bits = number < 0 ? number ^ INT64_MAX : number;
  double real;
  memcpy(&real, &bits, sizeof real);
  return real;
}

/* ---- dates and timestamps */

/* The date of a day, as Howard Hinnant's civil_from_days works it out (chrono-Compatible Low-Level Date Algorithms): a year
   begins with March there, and 400 of them are an era of 146097 days. */
static void date_of_day(int64_t number, int *year, int *month, int *of_month) {
  int64_t z = number + 719468, era = (z >= 0 ? z : z - 146096) / 146097, of_era = z - era * 146097;
  int64_t year_of_era = (of_era - of_era / 1460 + of_era / 36524 - of_era / 146096) / 365;
  int64_t of_year = of_era - (365 * year_of_era + year_of_era / 4 - year_of_era / 100);
  int64_t from_march = (5 * of_year + 2) / 153;
  *of_month = (int)(of_year - (153 * from_march + 2) / 5 + 1);
  *month = (int)(from_march < 10 ? from_march + 3 : from_march - 9);
  *year = (int)(year_of_era + era * 400 + (*month <= 2));
}

/* The day of a date: his days_from_civil. */
static int64_t day_of_date(int64_t year, int month, int of_month) {
  year -= month <= 2;
  int64_t era = (year >= 0 ? year : year - 399) / 400, of_era = year - era * 400;
  int64_t of_year = (153 * (month > 2 ? month - 3 : month + 9) + 2) / 5 + of_month - 1;
  return era * 146097 + of_era * 365 + of_era / 4 - of_era / 100 + of_year - 719468;
}

static size_t put_date(int64_t number, char *text) {
  int year, month, of_month;
  date_of_day(number, &year, &month, &of_month);
  sqlite3_snprintf(STAMP_ROOM, text, "%04d-%02d-%02d", year, month, of_month);
  return strlen(text);
}

bool stamp_of_number(const meaning *m, int64_t number, char *text, size_t *len) {
  int64_t least, most;
  bounds_of(m, &least, &most);
  if (number < least || number > most) return false;
  if (m->kind == DATES) {
    *len = put_date(number, text);
    return true;
  }
  int64_t since = number * m->unit - FIRST_DAY * day, of_day = since % day, seconds = of_day / second;
  int fraction = (int)(of_day % second);
  size_t at = put_date(since / day + FIRST_DAY, text);
  sqlite3_snprintf((int)(STAMP_ROOM - at), text + at, " %02d:%02d:%02d", (int)(seconds / 3600), (int)(seconds / 60 % 60),
                   (int)(seconds % 60));
  at += strlen(text + at);
  if (fraction && m->unit == 1) sqlite3_snprintf((int)(STAMP_ROOM - at), text + at, ".%06d", fraction);
  if (fraction && m->unit == 1000) sqlite3_snprintf((int)(STAMP_ROOM - at), text + at, ".%03d", fraction / 1000);
  *len = at + strlen(text + at);
  return true;
}

/* Takes so many digits, whose number is between two others, after a mark if there is to be one. */
static bool take_digits(const char **at, const char *marks, int digits, int least, int most, int *number) {
  if (*marks && (!**at || !strchr(marks, *(*at)++))) return false;
  *number = 0;
  for (int i = 0; i < digits; i++, ++*at) {
    if (**at < '0' || **at > '9') return false;
    *number = 10 * *number + (**at - '0');
  }
  return *number >= least && *number <= most;
}

static bool take_date(const char **at, int64_t *number) {
  int year, month, of_month, back[3];
  if (!take_digits(at, "", 4, 0, 9999, &year) || !take_digits(at, "-", 2, 1, 12, &month) || !take_digits(at, "-", 2, 1, 31, &of_month))
    return false;
  *number = day_of_date(year, month, of_month);
  date_of_day(*number, &back[0], &back[1], &back[2]);
  return back[2] == of_month; /* no day that the month lacks */
}

/* Takes ` HH:MM`, and `:SS` and a fraction where they are there; the microseconds since midnight. */
static bool take_time(const char **at, int64_t *since) {
  int hours, minutes, seconds = 0, fraction = 0, digits = 0;
  if (!take_digits(at, " T", 2, 0, 23, &hours) || !take_digits(at, ":", 2, 0, 59, &minutes)) return false;
  bool has_seconds = **at == ':';
  if (has_seconds && !take_digits(at, ":", 2, 0, 59, &seconds)) return false;
  if (has_seconds && **at == '.') {
    for (++*at; **at >= '0' && **at <= '9' && digits < 6; ++*at, digits++) fraction = 10 * fraction + (**at - '0');
    if (!digits) return false;
    for (; digits < 6; digits++) fraction *= 10;
  }
  *since = ((int64_t)hours * 3600 + minutes * 60 + seconds) * second + fraction;
  return true;
}

bool number_of_stamp(const meaning *m, const char *text, size_t len, int64_t *number) {
  const char *at = text;
  int64_t since = 0;
  if (!take_date(&at, number)) return false;
  if (m->kind == TIMES) {
    if (*at && !take_time(&at, &since)) return false;
    since += *number * day;
    *number = since / m->unit;
    if (since % m->unit) return false;
  }
  return (size_t)(at - text) == len;
}

/* ---- values */

/* A value as a double, by the affinity of such a column. -0.0 is written as 0.0, which SQLite has it equal to. */
static bool number_of_double(sqlite3_value *value, int64_t *number) {
  int type = sqlite3_value_numeric_type(value);
  double real = sqlite3_value_double(value);
  *number = number_of_real(real == 0 ? 0 : real);
  return type == SQLITE_INTEGER || type == SQLITE_FLOAT;
}

/* A value as a whole number, by the affinity of such columns: 5.0 and '5' are 5. The least one is none as a real. */
static bool number_of_whole(sqlite3_value *value, int64_t *number) {
  int type = sqlite3_value_numeric_type(value);
  if (type == SQLITE_INTEGER) *number = sqlite3_value_int64(value);
  if (type != SQLITE_FLOAT) return type == SQLITE_INTEGER;
  double real = sqlite3_value_double(value);
  if (!(real > -9223372036854775808.0 && real < 9223372036854775808.0)) return false;
  *number = (int64_t)real;
  return (double)*number == real;
}

bool number_of_value(const meaning *m, sqlite3_value *value, int64_t *number) {
  if (sqlite3_value_type(value) == SQLITE_NULL) {
    *number = INT64_MIN;
    return m->has_null;
  }
  bool is = false;
  if (m->kind == REALS) is = number_of_double(value, number);
  else if (m->kind == NUMBERS) is = number_of_whole(value, number);
  else if (sqlite3_value_type(value) == SQLITE_TEXT) {
    const char *text = (const char *)sqlite3_value_text(value);
    is = text && number_of_stamp(m, text, (size_t)sqlite3_value_bytes(value), number);
  }
  return is && !(m->has_null && *number == INT64_MIN);
}

bool result_number(sqlite3_context *to, const meaning *m, int64_t number) {
  char text[STAMP_ROOM];
  size_t len = 0;
  if (m->has_null && number == INT64_MIN) sqlite3_result_null(to);
  else if (m->kind == NUMBERS) sqlite3_result_int64(to, number);
  else if (m->kind == REALS) sqlite3_result_double(to, real_of_number(number));
  else if (stamp_of_number(m, number, text, &len)) sqlite3_result_text(to, text, (int)len, SQLITE_TRANSIENT);
  else return false;
  return true;
}

/* ---- comparisons */

/* The number whose text is just this one; false where there is none. */
static bool is_stamp(const meaning *m, const char *text, size_t len, int64_t *number) {
  char stamp[STAMP_ROOM];
  size_t bytes = 0;
  return number_of_stamp(m, text, len, number) && stamp_of_number(m, *number, stamp, &bytes) && bytes == len && !memcmp(stamp, text, len);
}

/* The least number whose text isn't below another, or the one past the last. Both have one order. */
static int64_t first_stamp(const meaning *m, const char *text, size_t len, bool *is_equal) {
  int64_t low, high;
  *is_equal = is_stamp(m, text, len, &low);
  if (*is_equal) return low;
  bounds_of(m, &low, &high);
  high++;
  while (low < high) {
    int64_t middle = low + (high - low) / 2;
    char stamp[STAMP_ROOM];
    size_t bytes = 0;
    stamp_of_number(m, middle, stamp, &bytes);
    int order = memcmp(stamp, text, bytes < len ? bytes : len);
    if (!order) order = (bytes > len) - (bytes < len);
    if (order < 0) low = middle + 1;
    else high = middle;
  }
  return low;
}

/* Narrows by the numbers that equal a value, from first to last; where last is below first it lies between the two. */
static bool narrow_by(int op, int64_t first, int64_t last, int64_t *least, int64_t *most) {
  int64_t from = *least, to = *most;
  switch (op) {
    case SQLITE_INDEX_CONSTRAINT_GE: from = first; break;
    case SQLITE_INDEX_CONSTRAINT_GT: from = last + 1; break;
    case SQLITE_INDEX_CONSTRAINT_LE: to = last; break;
    case SQLITE_INDEX_CONSTRAINT_LT: to = first - 1; break;
    default: from = first, to = last;
  }
  if (from > *least) *least = from;
  if (to < *most) *most = to;
  return *least <= *most;
}

bool narrow_by_stamp(const meaning *m, int op, const char *text, size_t len, int64_t *least, int64_t *most) {
  bool is_equal = false;
  int64_t first = first_stamp(m, text, len, &is_equal);
  return narrow_by(op, first, is_equal ? first : first - 1, least, most);
}

/* Whether a double is below, at or above a whole number that it was made from. */
static int order_of(double real, int64_t whole) {
  if (real >= 9223372036854775808.0) return 1;
  int64_t back = (int64_t)real;
  return (back > whole) - (back < whole);
}

bool narrow_by_number(int op, sqlite3_value *value, int64_t *least, int64_t *most) {
  int type = sqlite3_value_numeric_type(value);
  if (type != SQLITE_INTEGER && type != SQLITE_FLOAT) return op == SQLITE_INDEX_CONSTRAINT_LT || op == SQLITE_INDEX_CONSTRAINT_LE;
  double real = type == SQLITE_INTEGER ? (double)sqlite3_value_int64(value) : sqlite3_value_double(value);
  int order = type == SQLITE_INTEGER ? order_of(real, sqlite3_value_int64(value)) : 0;
  int64_t first = number_of_real(real == 0 ? -0.0 : real), last = number_of_real(real == 0 ? 0.0 : real);
  if (order > 0) last--;
  if (order < 0) first++;
  return narrow_by(op, first, last, least, most);
}
