/*
 * The aggregates, which are window functions too.
 *
 * A group, or a frame of a window, has its join so far as a mergejoin_patches, and its texts. SQLite does not say whether rows will leave:
 * only once the first leaves, a frame is known to move, and what is left has to be there then. So the texts are kept next to the join.
 * If rows have left, the join is made anew of the texts when it is asked for.
 */
#include "calls.h"
#include "texts.h"

SQLITE_EXTENSION_INIT3

typedef struct Group {
  Texts texts;
  mergejoin_patches joined; /* all texts, unless it is stale */
  bool is_conflict;         /* two of them conflict */
  bool is_stale;            /* a text has left, and it is not made anew since */
} Group;

/* What the answer of a group is. */
typedef enum Kind { JOIN, JOIN_OR_NULL, FIRST_CONFLICT } Kind;

typedef struct Aggregate {
  const char *name;
  Kind kind;
} Aggregate;

static const Aggregate aggregates[] = {
    {"mergejoin_agg", JOIN}, {"mergejoin_try_agg", JOIN_OR_NULL}, {"mergejoin_conflict_agg", FIRST_CONFLICT}};

/* Returns the group of a call, or NULL if no text has come. */
static Group *group_of(sqlite3_context *context) { return sqlite3_aggregate_context(context, 0); }

/* Joins a text with those before. That two conflict is no error yet. Returns false if an error is reported. */
static bool join_text(sqlite3_context *context, Group *group, mergejoin_text text) {
  mergejoin_reply reply = mergejoin_patches_add(&group->joined, text.bytes, text.length, NULL, 0, 0);
  char *line;

  group->is_conflict = reply.status == MERGEJOIN_CONFLICT;
  if (reply.status == MERGEJOIN_RESULT || group->is_conflict) return true;
  /* What is not a patch was not taken: this gives the line. */
  line = reply.status == MERGEJOIN_PATCH ? mergejoin_patches_add_new(&group->joined, text.bytes, text.length, 0, &reply) : NULL;
  refuse(context, line, &reply);
  free(line);
  return false;
}

/* A row comes. */
static void step(sqlite3_context *context, int count, sqlite3_value **values) {
  Group *group;
  mergejoin_text text;

  (void)count;
  if (sqlite3_value_type(values[0]) == SQLITE_NULL) return;
  group = sqlite3_aggregate_context(context, sizeof *group);
  if (!group || !borrow(values[0], &text) || !texts_append(&group->texts, text)) {
    sqlite3_result_error_nomem(context);
    return;
  }
  if (!group->is_stale) join_text(context, group, text);
}

/* The row that came first leaves. */
static void inverse(sqlite3_context *context, int count, sqlite3_value **values) {
  Group *group = group_of(context);

  (void)count;
  if (!group || sqlite3_value_type(values[0]) == SQLITE_NULL) return;
  texts_drop_first(&group->texts);
  mergejoin_patches_free(&group->joined);
  group->is_conflict = false;
  group->is_stale = true;
}

/* Joins the texts anew if some have left. Returns false if an error is reported. */
static bool make_joined(sqlite3_context *context, Group *group) {
  Cursor cursor = {0};
  mergejoin_text text;

  while (group->is_stale && texts_next(&group->texts, &cursor, &text))
    if (!join_text(context, group, text)) return false;
  group->is_stale = false;
  return true;
}

/* Gives the join, or what is wrong with it. Of a conflict the first places are held, as few as weigh 64 kB. */
static void give_join(sqlite3_context *context, Group *group, bool is_null_of_conflict) {
  mergejoin_reply reply;
  char *text;

  if (group->is_conflict && is_null_of_conflict) return;
  text = mergejoin_patches_text_new(&group->joined, group->is_conflict ? SIZE_MAX : longest(context), &reply);
  if (text && reply.status == MERGEJOIN_RESULT) {
    give(context, text, reply.length, free);
    return;
  }
  if (!text || reply.status != MERGEJOIN_NO_PATCHES) refuse(context, text, &reply);
  free(text);
}

/* Gives the least pair that conflicts, with all its places. */
static void give_pair(sqlite3_context *context, const char *text, const mergejoin_reply *reply) {
  size_t at = 0, count = 0;
  char *written;

  while (mergejoin_next_place(text, reply, &at, NULL, 0) != SIZE_MAX) count += 1;
  if (count < reply->total) {
    sqlite3_result_error_toobig(context);
    return;
  }
  written = sqlite3_mprintf("{\"first\":%llu,\"second\":%llu,\"places\":%s}", (sqlite3_uint64)reply->first,
                            (sqlite3_uint64)reply->second, text + reply->length - reply->places);
  if (written)
    give(context, written, strlen(written), sqlite3_free);
  else
    sqlite3_result_error_nomem(context);
}

/* Gives the first two texts that conflict, for which all have to be read once more. */
static void give_conflict(sqlite3_context *context, const Group *group) {
  mergejoin_text *list;
  mergejoin_reply reply;
  char *text;

  if (!group->is_conflict) return;
  list = texts_list(&group->texts);
  if (!list) {
    sqlite3_result_error_nomem(context);
    return;
  }
  text = mergejoin_join_new(list, group->texts.count, longest(context), &reply);
  sqlite3_free(list);
  if (text && reply.status == MERGEJOIN_CONFLICT)
    give_pair(context, text, &reply);
  else
    refuse(context, text, &reply);
  free(text);
}

/* Gives the answer of the texts that are there. */
static void value(sqlite3_context *context) {
  Group *group = group_of(context);
  Kind kind = ((const Aggregate *)sqlite3_user_data(context))->kind;

  if (!group || !make_joined(context, group)) return;
  if (kind == FIRST_CONFLICT)
    give_conflict(context, group);
  else
    give_join(context, group, kind == JOIN_OR_NULL);
}

/* Gives the answer, and frees what the group has. SQLite calls it after an error too. */
static void final(sqlite3_context *context) {
  Group *group = group_of(context);

  value(context);
  if (!group) return;
  mergejoin_patches_free(&group->joined);
  texts_free(&group->texts);
}

int add_aggregates(sqlite3 *db) {
  int status = SQLITE_OK;

  for (size_t number = 0; status == SQLITE_OK && number < sizeof aggregates / sizeof *aggregates; number += 1) {
    const Aggregate *it = &aggregates[number];
    status = sqlite3_create_window_function(db, it->name, 1, FUNCTION_FLAGS, (void *)it, step, final, value, inverse, NULL);
  }
  return status;
}
