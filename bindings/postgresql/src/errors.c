/*
 * The errors that report what the library refuses. Patches and operations are numbered from 0, as everywhere.
 */
#include "errors.h"

#include "mb/pg_wchar.h"

/* The most bytes that an error shows of a line. */
#define LONGEST_LINE 1000
/* The most places that an error shows in its DETAIL, and the most bytes. */
#define MOST_PLACES 100
#define LONGEST_PLACES 8192
/* The most bytes that an error shows of a patch. */
#define LONGEST_PATCH 200

/* Returns the beginning of a text, of so many bytes at most, with two dots if that is not all. */
static char *beginning_of(const char *bytes, size_t length, int longest) {
  int shown = pg_mbcliplen(bytes, (int)length, longest);

  return psprintf("%.*s%s", shown, bytes, (size_t)shown < length ? ".." : "");
}

/* Returns the line of an answer. */
char *line_of(const Answer *answer) { return pnstrdup(VARDATA(answer->value), answer->reply.length - answer->reply.places); }

/* Returns that line as a message has it. */
static char *message_of(const Answer *answer) {
  return beginning_of(VARDATA(answer->value), answer->reply.length - answer->reply.places, LONGEST_LINE);
}

/* Appends the first places of a conflict as a JSON array, so many at most, of so many bytes together, and returns how many they are. */
size_t append_places(StringInfo list, const Answer *answer, size_t most, size_t longest) {
  const mergejoin_reply *reply = &answer->reply;
  size_t begin = reply->length - reply->places, end = begin, at = 0, count = 0;

  while (count < most && mergejoin_next_place(VARDATA(answer->value), reply, &at, NULL, 0) != SIZE_MAX && at - begin <= longest) {
    end = at;
    count += 1;
  }
  appendStringInfoChar(list, '[');
  if (count > 0) appendBinaryStringInfo(list, VARDATA(answer->value) + begin + 1, (int)(end - begin - 1));
  appendStringInfoChar(list, ']');
  return count;
}

/* Adds to the error of a conflict where the two patches do. Those of a group have no numbers. */
static int detail_places(const Answer *answer) {
  const mergejoin_reply *reply = &answer->reply;
  StringInfoData list;
  size_t count;

  initStringInfo(&list);
  count = append_places(&list, answer, MOST_PLACES, LONGEST_PLACES);
  errdetail_internal("%s", list.data);
  if (reply->first == reply->second)
    return errhint("mergejoin_conflict_agg(patch ORDER BY ..) returns the first two, and where they conflict.");
  if (count == reply->total) return 0;
  if (count > 0) return errhint("These are the first %zu of %zu places; mergejoin_conflicts returns all.", count, reply->total);
  return errhint("The first of %zu places is longer than %d bytes; mergejoin_conflicts returns all.", reply->total, LONGEST_PLACES);
}

/* Raises that a text of a group is not a patch, how it begins, and how to find it. */
void refuse_patch(mergejoin_text wrong, Memory *memory) {
  Request request = {.texts = &wrong, .count = 1, .memory = memory};
  Answer answer = answer_of(&request);

  ereport(ERROR, errcode(ERRCODE_INVALID_JSON_TEXT), errmsg_internal("%s", message_of(&answer)),
          errdetail("The patch is %s", beginning_of((const char *)wrong.bytes, wrong.length, LONGEST_PATCH)),
          errhint("mergejoin_is_patch(patch) is false of such a row."));
}

/* Raises that a part of an aggregate is called by itself. */
void refuse_caller(void) {
  ereport(ERROR, errcode(ERRCODE_FEATURE_NOT_SUPPORTED), errmsg("this function is for an aggregate to call"));
}

/* Raises that a result is longer than a value can be. */
void refuse_length(void) {
  ereport(ERROR, errcode(ERRCODE_PROGRAM_LIMIT_EXCEEDED), errmsg("the result is longer than a value can be"),
          errdetail("It has more than %zu bytes.", (size_t)LONGEST));
}

/* Raises that two patches conflict at more places than a call may list. */
void refuse_places(size_t count) {
  ereport(ERROR, errcode(ERRCODE_PROGRAM_LIMIT_EXCEEDED), errmsg("the places are too many"), errdetail("There are %zu.", count));
}

/* Returns the code of an error. */
static int code_of(uint32_t status) {
  switch (status) {
    case MERGEJOIN_CONFLICT:
      return ERRCODE_MERGEJOIN_CONFLICT;
    case MERGEJOIN_REFUSED:
      return ERRCODE_MERGEJOIN_REFUSED;
    case MERGEJOIN_DOCUMENT:
    case MERGEJOIN_PATCH:
      return ERRCODE_INVALID_JSON_TEXT;
    case MERGEJOIN_FORM:
      return ERRCODE_MERGEJOIN_FORM;
    case MERGEJOIN_NO_PATCHES:
    case MERGEJOIN_POINTER:
      return ERRCODE_INVALID_PARAMETER_VALUE;
    case MERGEJOIN_TOO_LARGE:
      return ERRCODE_PROGRAM_LIMIT_EXCEEDED;
    default:
      return ERRCODE_INTERNAL_ERROR;
  }
}

/* Raises what the library refuses, by its line. */
void refuse(const Answer *answer) {
  uint32_t status = answer->reply.status;

  ereport(ERROR, errcode(code_of(status)), errmsg_internal("%s", message_of(answer)),
          status == MERGEJOIN_CONFLICT ? detail_places(answer) : 0,
          status != MERGEJOIN_TOO_LARGE
              ? 0
              : errdetail("It, or what is made on the way to it, takes more than mergejoin.call_memory and what is read allow."));
}
