/*
 * The text of a jsonb, which grows up to a length. PostgreSQL's own functions raise an error if a text is longer than a value can be, and
 * take all memory up to there: of a jsonb of 100 kB, whose numbers may have 131,072 digits each.
 */
#include "writing.h"

#include "fmgr.h"
#include "miscadmin.h"
#include "utils/fmgrprotos.h"

/* What a text may keep beside its bytes at its end. */
#define SPARE 1024

/* Makes a text with nothing in it yet. */
Growing growing(Size capacity, Size most) {
  Growing text = {.capacity = Min(capacity, most), .most = most};

  text.bytes = palloc(text.capacity);
  return text;
}

/* Appends bytes, or none of them. */
static void append(Growing *text, const char *bytes, Size length) {
  text->is_over = text->is_over || length > text->most - text->length;
  if (text->is_over) return;
  if (length > text->capacity - text->length) {
    text->capacity = Min(Max(text->length + length, 2 * text->capacity), text->most);
    text->bytes = repalloc(text->bytes, text->capacity);
  }
  memcpy(text->bytes + text->length, bytes, length);
  text->length += length;
}

/* Appends a character that does not stand for itself in a JSON string. */
static void append_escaped(Growing *text, char character) {
  static const char escaped[] = "\"\\\b\t\n\f\r", spelled[] = "\"\\btnfr";
  const char *found = character ? strchr(escaped, character) : NULL;
  char spelling[sizeof("\\u0000")];

  if (found)
    snprintf(spelling, sizeof(spelling), "\\%c", spelled[found - escaped]);
  else
    snprintf(spelling, sizeof(spelling), "\\u%04x", (unsigned char)character);
  append(text, spelling, strlen(spelling));
}

/* Returns how many bytes stand for themselves in a JSON string, of some and before the first that does not. */
static Size plain_length(const char *bytes, Size length) {
  Size count = 0;

  while (count < length && (unsigned char)bytes[count] >= ' ' && bytes[count] != '"' && bytes[count] != '\\') count += 1;
  return count;
}

/* Appends bytes of UTF-8 as a JSON string. */
static void append_string(Growing *text, const char *bytes, Size length) {
  append(text, "\"", 1);
  for (Size at = 0; at < length; at += 1) {
    Size plain = plain_length(bytes + at, length - at);

    append(text, bytes + at, plain);
    at += plain;
    if (at < length) append_escaped(text, bytes[at]);
  }
  append(text, "\"", 1);
}

/* Appends what is neither an array nor an object. */
static void append_scalar(Growing *text, const JsonbValue *value) {
  char *number;

  switch (value->type) {
    case jbvNull:
      append(text, "null", strlen("null"));
      break;
    case jbvBool:
      append(text, value->val.boolean ? "true" : "false", value->val.boolean ? strlen("true") : strlen("false"));
      break;
    case jbvString:
      append_string(text, value->val.string.val, value->val.string.len);
      break;
    case jbvNumeric:
      number = DatumGetCString(DirectFunctionCall1(numeric_out, NumericGetDatum(value->val.numeric)));
      append(text, number, strlen(number));
      pfree(number);
      break;
    default:
      elog(ERROR, "mergejoin reads a jsonb of type %d", (int)value->type);
  }
}

/* Appends what a step through a jsonb has come to. */
static void append_token(Growing *text, JsonbIteratorToken token, const JsonbValue *value, bool is_scalar) {
  switch (token) {
    case WJB_BEGIN_ARRAY:
      if (!is_scalar) append(text, "[", 1);
      break;
    case WJB_END_ARRAY:
      if (!is_scalar) append(text, "]", 1);
      break;
    case WJB_BEGIN_OBJECT:
      append(text, "{", 1);
      break;
    case WJB_END_OBJECT:
      append(text, "}", 1);
      break;
    case WJB_KEY:
      append_string(text, value->val.string.val, value->val.string.len);
      append(text, ": ", 2);
      break;
    default:
      append_scalar(text, value);
  }
}

/* Appends the text of a jsonb, the same as PostgreSQL writes, unless it is over. A scalar is an array of one that says so. */
void append_jsonb(Growing *text, JsonbContainer *container) {
  JsonbIterator *steps = JsonbIteratorInit(container);
  JsonbIteratorToken token;
  JsonbValue value;
  bool is_scalar = JsonContainerIsScalar(container), is_after_value = false;

  while (!text->is_over && (token = JsonbIteratorNext(&steps, &value, false)) != WJB_DONE) {
    bool is_end = token == WJB_END_ARRAY || token == WJB_END_OBJECT;

    CHECK_FOR_INTERRUPTS();
    if (is_after_value && !is_end) append(text, ", ", 2);
    append_token(text, token, &value, is_scalar);
    is_after_value = is_end || token == WJB_ELEM || token == WJB_VALUE;
  }
}

/* Ends a text, which gives back what it does not need: all of it if it is over. */
void end(Growing *text) {
  if (text->is_over) text->length = 0;
  if (text->capacity - text->length <= SPARE) return;
  text->capacity = Max(text->length, 1);
  text->bytes = repalloc(text->bytes, text->capacity);
}
