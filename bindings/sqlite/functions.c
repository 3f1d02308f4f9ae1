/*
 * The functions: each makes one call, which borrows its arguments.
 */
#include "calls.h"

SQLITE_EXTENSION_INIT3

/* The library limits what a result of a JSON Patch, and a rewriting, take in memory: small objects take at most about so many bytes for
 * a byte of their text. */
#define WEIGHT 650

/* A function that makes a call with texts: of a document and patches, or of two texts; or else it is mergejoin_join. */
typedef struct Function {
  const char *name;
  int count; /* of its arguments, or -1 for any number */
  int least; /* of these */
  int flags; /* LINEAR, or none: copies may double a document, and edits be the square of what is read */
  char *(*on_patches)(const uint8_t *, size_t, const mergejoin_text *, size_t, size_t limit, mergejoin_reply *);
  char *(*on_texts)(const uint8_t *, size_t, const uint8_t *, size_t, size_t limit, mergejoin_reply *);
} Function;

static const Function functions[] = {
    {"mergejoin_join", -1, 0, LINEAR, NULL, NULL},
    {"mergejoin_replay", -1, 1, LINEAR, mergejoin_replay_new, NULL},
    {"mergejoin_merge", -1, 1, LINEAR, mergejoin_merge_new, NULL},
    {"mergejoin_rewrite", 2, 2, 0, NULL, mergejoin_rewrite_new},
    {"mergejoin_patch", 2, 2, 0, NULL, mergejoin_patch_new},
    {"mergejoin_get", 2, 2, LINEAR, NULL, mergejoin_get_new},
};

/* Returns the limit of a call. A result of a linear one is no longer than what is read, and of places a message shows the first ones. */
static size_t limit_of(const Function *function, const mergejoin_text *texts, size_t count, size_t longest) {
  size_t length = mergejoin_lengths_(0, texts, count), most = 2 * length + SHOWN_PLACES;

  if (function->flags != LINEAR) return longest + WEIGHT * length;
  return most < longest ? most : longest;
}

/* Makes the call with texts, and gives what it returns. What is missing is NULL. */
static void make_call(sqlite3_context *context, const Function *function, const mergejoin_text *texts, size_t count) {
  size_t limit = limit_of(function, texts, count, longest(context));
  mergejoin_reply reply;
  char *text;

  if (function->on_patches)
    text = function->on_patches(texts->bytes, texts->length, texts + 1, count - 1, limit, &reply);
  else if (function->on_texts)
    text = function->on_texts(texts[0].bytes, texts[0].length, texts[1].bytes, texts[1].length, limit, &reply);
  else
    text = mergejoin_join_new(texts, count, limit, &reply);
  if (text && reply.status == MERGEJOIN_RESULT) {
    give(context, text, reply.length, free);
    return;
  }
  if (!text || reply.status != MERGEJOIN_MISSING) refuse(context, text, &reply);
  free(text);
}

/* Calls with the arguments, unless one is NULL. */
static void call(sqlite3_context *context, int count, sqlite3_value **values) {
  const Function *function = sqlite3_user_data(context);
  mergejoin_text *texts;
  bool is_borrowed = true;

  if (count < function->least) {
    char *message = sqlite3_mprintf("wrong number of arguments to function %s()", function->name);
    sqlite3_result_error(context, message, -1);
    sqlite3_free(message);
    return;
  }
  for (int number = 0; number < count; number += 1)
    if (sqlite3_value_type(values[number]) == SQLITE_NULL) return;
  texts = sqlite3_malloc64(sizeof *texts * ((size_t)count + 1));
  for (int number = 0; texts && number < count; number += 1) is_borrowed = borrow(values[number], &texts[number]) && is_borrowed;
  if (texts && is_borrowed)
    make_call(context, function, texts, (size_t)count);
  else
    sqlite3_result_error_nomem(context);
  sqlite3_free(texts);
}

/* Whether a text is a patch, that is, a document. Of its join no byte is wanted. */
static void is_patch(sqlite3_context *context, int count, sqlite3_value **values) {
  mergejoin_text text;
  mergejoin_reply reply;

  (void)count;
  if (sqlite3_value_type(values[0]) == SQLITE_NULL) return;
  if (!borrow(values[0], &text)) {
    sqlite3_result_error_nomem(context);
    return;
  }
  reply = mergejoin_join(&text, 1, NULL, 0, 0);
  if (reply.status == MERGEJOIN_NO_MEMORY)
    sqlite3_result_error_nomem(context);
  else
    sqlite3_result_int(context, reply.status != MERGEJOIN_PATCH);
}

int add_functions(sqlite3 *db) {
  int status = sqlite3_create_function_v2(db, "mergejoin_is_patch", 1, FUNCTION_FLAGS | LINEAR, NULL, is_patch, NULL, NULL, NULL);

  for (size_t number = 0; status == SQLITE_OK && number < sizeof functions / sizeof *functions; number += 1) {
    const Function *it = &functions[number];
    status = sqlite3_create_function_v2(db, it->name, it->count, FUNCTION_FLAGS | it->flags, (void *)it, call, NULL, NULL, NULL);
  }
  return status;
}
