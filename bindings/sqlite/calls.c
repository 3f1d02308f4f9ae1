/*
 * The texts of arguments, results, and the errors that report what the library refuses.
 */
#include "calls.h"

SQLITE_EXTENSION_INIT3

/* The subtype of JSON, by which SQLite's own functions take a text as a value and not as a string. */
#define JSON_SUBTYPE 'J'
/* A message has so many bytes of a line at most. */
#define LONGEST_LINE 1000

/* Borrows the text of a value that is not NULL, until the function returns: bytes of a blob as they are, and of a number what SQLite
 * writes it as. Returns false if memory ran out. */
bool borrow(sqlite3_value *value, mergejoin_text *text) {
  bool is_blob = sqlite3_value_type(value) == SQLITE_BLOB;
  const void *bytes = is_blob ? sqlite3_value_blob(value) : sqlite3_value_text(value);
  size_t length = (size_t)sqlite3_value_bytes(value);

  *text = mergejoin_text_of(bytes, length);
  return bytes || (is_blob && length == 0);
}

/* Returns how many bytes a value of the connection can have. */
size_t longest(sqlite3_context *context) {
  return (size_t)sqlite3_limit(sqlite3_context_db_handle(context), SQLITE_LIMIT_LENGTH, -1);
}

/* Gives a text as JSON, and SQLite its memory, with what frees that. */
void give(sqlite3_context *context, char *text, size_t length, void (*freed)(void *)) {
  if (length > longest(context)) {
    freed(text);
    sqlite3_result_error_toobig(context);
    return;
  }
  sqlite3_result_text64(context, text, length, freed, SQLITE_UTF8);
  sqlite3_result_subtype(context, JSON_SUBTYPE);
}

/* Returns the code of an error. */
static int code_of(uint32_t status) {
  switch (status) {
    case MERGEJOIN_CONFLICT:
      return SQLITE_CONSTRAINT_FUNCTION;
    case MERGEJOIN_REFUSED:
      return SQLITE_CONSTRAINT_CHECK;
    case MERGEJOIN_TOO_LARGE:
      return SQLITE_TOOBIG;
    default:
      return SQLITE_ERROR;
  }
}

/* Reports what the library refuses by its line, or as much of that as a message may have. */
void refuse(sqlite3_context *context, const char *text, const mergejoin_reply *reply) {
  size_t length = reply->length - reply->places;
  bool is_cut = length > LONGEST_LINE;
  char *line;

  if (is_cut)
    for (length = LONGEST_LINE; (text[length] & 0xC0) == 0x80;) length -= 1; /* within a character */
  /* (without a line memory ran out for it) */
  line = text && length && reply->status != MERGEJOIN_PENDING ? sqlite3_mprintf("%.*s%s", (int)length, text, is_cut ? ".." : "") : NULL;
  if (line) {
    sqlite3_result_error(context, line, -1);
    sqlite3_result_error_code(context, code_of(reply->status));
  } else {
    sqlite3_result_error_nomem(context);
  }
  sqlite3_free(line);
}
