/* mergejoin_agg and mergejoin_try_agg. The state of each is what the library has of the patches of a group, their join, in the memory
 * context of the aggregate. That two patches conflict is a state too, which still reads all further texts, so that one which is not a
 * patch is an error in every order and plan. */
#include "errors.h"
#include "values.h"

/* What the kept form of two patches that conflict begins with. */
#define CONFLICT '!'
enum { LEAST = 256, JOIN = 65536 }; /* the bytes of the first buffer of a text, and of a join at most */

typedef struct Group {
  Memory memory;
  mergejoin_patches patches;
  size_t length;    /* of the texts that were taken */
  const text *kept; /* of a state that was read from bytes, which is only combined: these; else NULL */
} Group;

PG_FUNCTION_INFO_V1(mergejoin_take);
PG_FUNCTION_INFO_V1(mergejoin_combine);
PG_FUNCTION_INFO_V1(mergejoin_serialize);
PG_FUNCTION_INFO_V1(mergejoin_deserialize);
PG_FUNCTION_INFO_V1(mergejoin_joined);
PG_FUNCTION_INFO_V1(mergejoin_joined_or_null);

static mergejoin_reply call_text(void *group, uint8_t *out, size_t capacity) {
  return mergejoin_patches_text(&((Group *)group)->patches, out, capacity, LONGEST);
}

static mergejoin_reply call_kept(void *group, uint8_t *out, size_t capacity) {
  return mergejoin_patches_kept(&((Group *)group)->patches, out, capacity, LONGEST);
}

/* Returns what a state gives by one of these calls. */
static Answer answer_of_group(Group *group, Call call) {
  Answer answer = answer_by(call, group, &group->memory, Min(group->length + LEAST, JOIN));

  if (answer.reply.status == MERGEJOIN_TOO_LARGE) refuse_length();
  return answer;
}

/* Makes the state that two patches conflict of its kept form, and frees what there was. */
static void keep_conflict(Group *group, mergejoin_text kept) {
  prepare_call(&group->memory);
  if (mergejoin_patches_from_kept(&group->patches, kept.bytes, kept.length, NULL, 0, 0).status != MERGEJOIN_CONFLICT)
    refuse_for_memory(&group->memory);
}

/* Takes a text, for which so many bytes of the group's memory were made. */
static void take(Group *group, mergejoin_text text, Size made) {
  mergejoin_reply reply;

  group->memory.is_over = false;
  prepare_call(&group->memory);
  reply = mergejoin_patches_add(&group->patches, text.bytes, text.length, NULL, 0, 0);
  if (reply.status == MERGEJOIN_PATCH) refuse_patch(text, &group->memory);
  if (reply.status == MERGEJOIN_PENDING || reply.status == MERGEJOIN_NO_MEMORY) refuse_for_memory(&group->memory);
  group->length += text.length;
  group->memory.used -= made;
}

/* Returns the state that an argument is, or NULL. If it is made, it is without a text, and of the aggregate's memory context. */
static Group *group_of(FunctionCallInfo fcinfo, int number, bool is_made) {
  MemoryContext context;
  Group *group = PG_ARGISNULL(number) ? NULL : (Group *)PG_GETARG_POINTER(number);

  if (!AggCheckCallContext(fcinfo, &context)) refuse_caller();
  if (group || !is_made) return group;
  group = MemoryContextAllocZero(context, sizeof(Group));
  group->memory.context = context;
  return group;
}

/* Takes the patch of a row, unless that is NULL. */
Datum mergejoin_take(PG_FUNCTION_ARGS) {
  Group *group = group_of(fcinfo, 0, !PG_ARGISNULL(1));

  if (!PG_ARGISNULL(1)) {
    Size used = group->memory.used;
    mergejoin_text text = text_of_argument(fcinfo, 1, &group->memory.used);

    take(group, text, group->memory.used - used);
  }
  if (!group) PG_RETURN_NULL();
  PG_RETURN_POINTER(group);
}

/* Takes all that another state was given: its join is a patch with the effect of all of them. */
Datum mergejoin_combine(PG_FUNCTION_ARGS) {
  Group *other = group_of(fcinfo, 1, false), *group = group_of(fcinfo, 0, other != NULL);

  if (other) {
    mergejoin_text kept = borrowed(other->kept ? other->kept : answer_of_group(other, call_kept).value);

    if (*kept.bytes == CONFLICT) keep_conflict(group, kept);
    if (*kept.bytes != CONFLICT) take(group, kept, 0);
  }
  if (!group) PG_RETURN_NULL();
  PG_RETURN_POINTER(group);
}

/* Returns a state as bytes: its kept form. */
Datum mergejoin_serialize(PG_FUNCTION_ARGS) { PG_RETURN_BYTEA_P(answer_of_group(group_of(fcinfo, 0, false), call_kept).value); }

/* Returns the state of bytes, which is not read before it is combined. */
Datum mergejoin_deserialize(PG_FUNCTION_ARGS) {
  Group *group = palloc0(sizeof(Group));

  group->kept = PG_GETARG_BYTEA_PP(0);
  PG_RETURN_POINTER(group);
}

/* Returns the join of a group, or raises that two of its patches conflict. There is a state if there was a text. */
Datum mergejoin_joined(PG_FUNCTION_ARGS) {
  Group *group = group_of(fcinfo, 0, false);
  Answer answer = answer_of_group(group, call_text);

  if (answer.reply.status == MERGEJOIN_CONFLICT && answer.reply.length == 0) refuse_for_memory(&group->memory);
  if (answer.reply.status != MERGEJOIN_RESULT) refuse(&answer);
  return returned(fcinfo, answer.value);
}

/* The same, or NULL if two conflict. */
Datum mergejoin_joined_or_null(PG_FUNCTION_ARGS) {
  Answer answer = answer_of_group(group_of(fcinfo, 0, false), call_text);

  return returned(fcinfo, answer.reply.status == MERGEJOIN_RESULT ? answer.value : NULL);
}
