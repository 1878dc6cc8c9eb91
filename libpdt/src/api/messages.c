/* The sentence for the last code that a thread was returned. A refused write keeps its key by a few copies, and pdt_errmsg spells the
   sentence. A thread's buffers are one block, which is allocated at its first refusal. errno stays as it was. */
#include "inside.h"
#include "quoted.h"

#include <inttypes.h>
#include <stdarg.h>
#include <stdio.h>

/* The most bytes of a sentence with its zero byte, of a key in one that shows one key, and of a key in one that shows two. */
enum { SENTENCE = 400, ONE_KEY = 340, EACH_OF_TWO = 150 };

/* What a thread keeps. */
typedef struct {
  int code;                  /* which the sentence is for; 0 if there is none */
  enum pdti_key_words words; /* how the sentence says the key */
  size_t cells;              /* of a key that isn't spelled yet; else 0 */
  pdti_said_cell key[PDT_MAX_KEY_COLUMNS];
  char pool[PDT_MAX_KEY_COLUMNS * (PDT_MAX_NAME + 4 * PDTI_SHOWN)]; /* its names, and of its texts what is shown */
  char sentence[SENTENCE];
} kept_sentence;

/* A thread's block, or null: no call of it was refused yet, or memory for the block ran out, and it keeps no sentence. The address is in
   the part of a thread's memory that the loader sets up with the thread: another part would be allocated at its first use, and glibc ends a
   process that has no memory for that. */
static _Thread_local kept_sentence *kept __attribute__((tls_model("initial-exec")));

/* By which a thread that ends frees its block. */
static pthread_once_t once = PTHREAD_ONCE_INIT;
static pthread_key_t key_of_block;
static bool has_key;

static void free_block(void *block) {
  kept = NULL;
  free(block);
}
static void make_key(void) { has_key = !pthread_key_create(&key_of_block, free_block); }

/* Where the library is unloaded, or the process ends. */
__attribute__((destructor)) static void delete_key(void) {
  if (!has_key) return;
  has_key = false;
  pthread_key_delete(key_of_block);
  free_block(kept);
}

/* This thread's block, or null where it is refused. */
static kept_sentence *block_here(void) {
  if (kept) return kept;
  (void)pthread_once(&once, make_key);
  kept_sentence *made = has_key ? calloc(1, sizeof *made) : NULL;
  if (made && pthread_setspecific(key_of_block, made)) {
    free(made);
    made = NULL;
  }
  return kept = made;
}

/* ---- keys */

/* Puts a cell as NAME=VALUE. */
static void put_cell(pdti_text *to, const pdti_said_cell *cell) {
  pdti_put_name(to, cell->name, cell->name_bytes);
  pdti_put_words(to, "=");
  if (cell->type == PDT_TEXT) {
    pdti_put_text(to, cell->text, cell->bytes, cell->is_cut);
  } else if (cell->type == PDT_BOOL) {
    pdti_put_words(to, cell->number ? "true" : "false");
  } else {
    if (cell->number < 0) pdti_put(to, "-", 1);
    pdti_put_number(to, cell->number < 0 ? 0 - (uint64_t)cell->number : (uint64_t)cell->number, false);
  }
}

/* Puts a key in so many bytes at most, and dots where it is cut. */
static void put_key(pdti_text *to, const pdti_said_cell *cells, size_t count, size_t most) {
  pdti_text key = {to->at + to->len, 0, most - 2, false};
  for (size_t i = 0; i < count; i++) {
    if (i) pdti_put_words(&key, ", ");
    put_cell(&key, &cells[i]);
  }
  to->len += key.len;
  if (key.is_full) pdti_put_words(to, "..");
}

/* ---- what is kept */

int pdti_plain(int code) {
  if (!code) return code;
  if (kept) kept->code = PDT_OK;
  return code;
}

/* A sentence that is longer than its room ends before a character, with dots. */
static void cut(char *text, size_t room) {
  size_t len = room - 3;
  while (len && ((uint8_t)text[len] & 0xc0) == 0x80) len--;
  strcpy(text + len, "..");
}

int pdti_keep_sentence(int code, const char *sentence, size_t bytes) {
  int why = errno;
  kept_sentence *to = block_here();
  errno = why;
  if (!to) return code;
  bool is_long = bytes >= SENTENCE;
  size_t len = is_long ? SENTENCE - 1 : bytes;
  memcpy(to->sentence, sentence, len);
  to->sentence[len] = 0;
  if (is_long) cut(to->sentence, SENTENCE);
  to->code = code;
  to->cells = 0;
  return code;
}

int pdti_say_words(int code, const char *form, va_list words) {
  int why = errno;
  char text[SENTENCE];
  int len = vsnprintf(text, sizeof text, form, words);
  if (len < 0) {
    errno = why;
    return pdti_plain(code);
  }
  if (len >= SENTENCE) cut(text, sizeof text);
  errno = why;
  return pdti_keep_sentence(code, text, strlen(text));
}

int pdti_say(int code, const char *form, ...) {
  va_list words;
  va_start(words, form);
  pdti_say_words(code, form, words);
  va_end(words);
  return code;
}

int pdti_keep_key(int code, enum pdti_key_words words, const pdt_table *table, const int64_t *numbers, const void *texts) {
  int why = errno;
  kept_sentence *to = block_here();
  errno = why;
  if (!to) return code;
  const char *text = texts;
  char *room = to->pool;
  to->code = code;
  to->words = words;
  to->cells = table->key;
  for (size_t column = 0; column < table->key; column++) {
    pdti_said_cell *cell = &to->key[column];
    cell->type = table->types[column];
    cell->number = numbers[column];
    cell->name = memcpy(room, table->names[column], PDT_MAX_NAME); /* so many, since that takes less time than to count them */
    cell->name_bytes = table->name_bytes[column];
    room += PDT_MAX_NAME;
    if (cell->type != PDT_TEXT) continue;
    size_t bytes = (size_t)numbers[column];
    cell->is_cut = bytes > 4 * PDTI_SHOWN;
    cell->bytes = cell->is_cut ? 4 * PDTI_SHOWN : bytes;
    cell->text = memcpy(room, bytes_at(text, bytes), cell->bytes);
    room += cell->bytes;
    if (bytes) text += bytes;
  }
  return code;
}

/* ---- sentences */

static void put_one_key(pdti_text *to, enum pdti_key_words words, const pdti_said_cell *key, size_t cells) {
  static const char *const before[] = {"a row with the key ", "no row has the key ", "the key "};
  static const char *const behind[] = {" exists", "", " is that of an earlier row"};
  pdti_put_words(to, before[words]);
  put_key(to, key, cells, ONE_KEY);
  pdti_put_words(to, behind[words]);
}

/* The sentence is spelled where it is kept: it has room, since what it shows of keys is bounded. */
static int end_sentence(int code, kept_sentence *to, const pdti_text *text) {
  to->sentence[text->len] = 0;
  to->code = code;
  to->cells = 0;
  return code;
}

int pdti_say_key(int code, enum pdti_key_words words, const pdti_said_cell *key, size_t cells) {
  int why = errno;
  kept_sentence *to = block_here();
  errno = why;
  if (!to) return code;
  pdti_text text = {to->sentence, 0, SENTENCE - 1, false};
  put_one_key(&text, words, key, cells);
  return end_sentence(code, to, &text);
}

int pdti_say_order(uint64_t row, const pdti_said_cell *key, const pdti_said_cell *before, size_t cells) {
  int why = errno;
  kept_sentence *to = block_here();
  errno = why;
  if (!to) return PDT_NOT_ASCENDING;
  pdti_text text = {to->sentence, 0, SENTENCE - 1, false};
  pdti_put_words(&text, "row ");
  pdti_put_number(&text, row, false);
  pdti_put_words(&text, ": the key ");
  put_key(&text, key, cells, EACH_OF_TWO);
  pdti_put_words(&text, " is not above the key ");
  put_key(&text, before, cells, EACH_OF_TWO);
  pdti_put_words(&text, " of the row before it");
  return end_sentence(PDT_NOT_ASCENDING, to, &text);
}

const char *pdti_quote(pdti_quoted *into, const char *text, size_t bytes) {
  pdti_text quoted = {into->text, 0, sizeof into->text - 1, false};
  pdti_put_text(&quoted, text, bytes, false);
  into->text[quoted.len] = 0;
  return into->text;
}

const char *pdti_where_of(pdti_where *into, const char *name, size_t bytes) {
  pdti_quoted quoted;
  snprintf(into->text, sizeof into->text, "column %s: ", pdti_quote(&quoted, name, bytes));
  return into->text;
}

const char *pdti_group(pdti_grouped *into, uint64_t number) {
  pdti_text text = {into->text, 0, sizeof into->text - 1, false};
  pdti_put_number(&text, number, true);
  into->text[text.len] = 0;
  return into->text;
}

/* ---- the call */

const char *pdt_errmsg(pdt_code code) {
  if (!kept || !code || kept->code != (int)code) return pdt_code_text((int)code);
  if (kept->cells) (void)pdti_say_key(kept->code, kept->words, kept->key, kept->cells);
  return kept->sentence;
}
