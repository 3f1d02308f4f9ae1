/*
 * The functions: each makes one call, which borrows its arguments, and returns the value that the call made.
 */
#include "errors.h"
#include "values.h"

#include "catalog/pg_type.h"
#include "utils/builtins.h"
#include "utils/json.h"

/* The most bytes of the places that the value of an aggregate has. */
#define REPORTED_PLACES 1048576
/* A rewriting has a test and an edit for each change, each with its path: at most about so many bytes for a byte of the patch. */
#define EDITS 16
/* The line of a patch that needs more than a call may take. */
#define TOO_LARGE "too large"

PG_MODULE_MAGIC;

PG_FUNCTION_INFO_V1(mergejoin_sql_join);
PG_FUNCTION_INFO_V1(mergejoin_sql_replay);
PG_FUNCTION_INFO_V1(mergejoin_sql_merge);
PG_FUNCTION_INFO_V1(mergejoin_sql_rewrite);
PG_FUNCTION_INFO_V1(mergejoin_sql_patch);
PG_FUNCTION_INFO_V1(mergejoin_sql_get);
PG_FUNCTION_INFO_V1(mergejoin_sql_conflicts);
PG_FUNCTION_INFO_V1(mergejoin_sql_is_patch);
PG_FUNCTION_INFO_V1(mergejoin_first_conflict);
PG_FUNCTION_INFO_V1(mergejoin_report);

extern PGDLLEXPORT void _PG_init(void);

void _PG_init(void) { define_settings(); }

/*
 * Reads the elements of an array, which is the caller's, for a request, whose list of them is made in the current memory context. An
 * element that is null is refused, or passed over and not numbered. Returns whether all are read: none is from that one on whose text
 * would be more than a call may take beside those before it.
 */
static bool read_elements(Request *request, ArrayType *array, bool passes_null) {
  Oid type = ARR_ELEMTYPE(array);
  Datum *elements;
  bool *are_null;
  int length;
  mergejoin_text *texts;

  deconstruct_array(array, type, -1, false, TYPALIGN_INT, &elements, &are_null, &length);
  texts = palloc(length * sizeof(mergejoin_text));
  request->texts = texts;
  request->count = 0;
  for (int number = 0; number < length; number += 1) {
    if (are_null[number] && !passes_null)
      ereport(ERROR, errcode(ERRCODE_NULL_VALUE_NOT_ALLOWED), errmsg("patch %d is null", number));
    if (are_null[number]) continue;
    if (!read_element(elements[number], type, &texts[request->count], &request->made)) return false;
    request->count += 1;
  }
  return true;
}

/* Reads an argument that is an array of patches. */
static void read_patches(Request *request, FunctionCallInfo fcinfo, int number, bool passes_null) {
  if (!read_elements(request, array_of_argument(fcinfo, number), passes_null)) refuse_for_call_memory();
}

/* Calls with a document, and an array of patches. */
static Datum of_patches(FunctionCallInfo fcinfo, OnPatches *call) {
  Request request = {.on_patches = call};

  request.document = text_of_argument(fcinfo, 0, &request.made);
  read_patches(&request, fcinfo, 1, false);
  return returned(fcinfo, result_of(&request));
}

/* Calls with a document, and a patch or a pointer. */
static Datum of_two(FunctionCallInfo fcinfo, OnTexts *call, size_t edits) {
  mergejoin_text second;
  Request request = {.on_texts = call, .edits = edits, .texts = &second, .count = 1};
  Answer answer;

  request.document = text_of_argument(fcinfo, 0, &request.made);
  second = text_of_argument(fcinfo, 1, &request.made);
  answer = answer_of(&request);
  if (answer.reply.status == MERGEJOIN_MISSING) PG_RETURN_NULL();
  if (answer.reply.status != MERGEJOIN_RESULT) refuse(&answer);
  return returned(fcinfo, answer.value);
}

Datum mergejoin_sql_join(PG_FUNCTION_ARGS) {
  Request request = {0};

  read_patches(&request, fcinfo, 0, false);
  return returned(fcinfo, result_of(&request));
}

Datum mergejoin_sql_replay(PG_FUNCTION_ARGS) { return of_patches(fcinfo, mergejoin_replay); }

Datum mergejoin_sql_merge(PG_FUNCTION_ARGS) { return of_patches(fcinfo, mergejoin_merge); }

Datum mergejoin_sql_rewrite(PG_FUNCTION_ARGS) { return of_two(fcinfo, mergejoin_rewrite, EDITS); }

Datum mergejoin_sql_patch(PG_FUNCTION_ARGS) { return of_two(fcinfo, mergejoin_patch, 0); }

Datum mergejoin_sql_get(PG_FUNCTION_ARGS) { return of_two(fcinfo, mergejoin_get, 0); }

/* Returns the places at which two patches conflict. */
Datum mergejoin_sql_conflicts(PG_FUNCTION_ARGS) {
  mergejoin_text texts[2];
  Request request = {.texts = texts, .count = lengthof(texts), .places = allowed_memory()};
  Answer answer;
  StringInfoData places;

  texts[0] = text_of_argument(fcinfo, 0, &request.made);
  texts[1] = text_of_argument(fcinfo, 1, &request.made);
  answer = answer_of(&request);
  if (answer.reply.status == MERGEJOIN_RESULT) return returned(fcinfo, cstring_to_text("[]"));
  if (answer.reply.status != MERGEJOIN_CONFLICT) refuse(&answer);
  initStringInfo(&places);
  if (append_places(&places, &answer, SIZE_MAX, SIZE_MAX) < answer.reply.total) refuse_places(answer.reply.total);
  return returned(fcinfo, cstring_to_text_with_len(places.data, places.len));
}

/* Reads a text as a patch, which takes memory, and returns whether it is one. A text for which a call may not take enough is none. */
static bool is_patch(mergejoin_text text, Memory *memory) {
  mergejoin_patches patches = {0};
  uint32_t status;

  prepare_call(memory);
  status = mergejoin_patches_add(&patches, text.bytes, text.length, NULL, 0, 0).status;
  if ((status == MERGEJOIN_NO_MEMORY || status == MERGEJOIN_PENDING) && !memory->is_over) refuse_for_memory(memory);
  return status == MERGEJOIN_RESULT;
}

/* Returns whether a text is a patch, whatever it has. */
Datum mergejoin_sql_is_patch(PG_FUNCTION_ARGS) {
  Memory memory = begun_memory(0);
  mergejoin_text text;
  bool is_one = read_argument(fcinfo, 0, &text, &memory.used) && is_patch(text, &memory);

  MemoryContextDelete(memory.context);
  PG_RETURN_BOOL(is_one);
}

/* Appends two patches that conflict, and where: the first places, and how many there are if those are not all. */
static void append_conflict(StringInfo report, const Answer *answer) {
  const mergejoin_reply *reply = &answer->reply;

  appendStringInfo(report, "{\"first\":%zu,\"second\":%zu,\"places\":", reply->first, reply->second);
  if (append_places(report, answer, SIZE_MAX, REPORTED_PLACES) < reply->total) appendStringInfo(report, ",\"total\":%zu", reply->total);
  appendStringInfoChar(report, '}');
}

/* Ends mergejoin_conflict_agg: returns the first two of an array of patches that conflict, and where, or NULL if none do. */
Datum mergejoin_first_conflict(PG_FUNCTION_ARGS) {
  Request request = {.places = REPORTED_PLACES};
  StringInfoData report;
  Answer answer;

  read_patches(&request, fcinfo, 0, true);
  answer = answer_of(&request);
  if (answer.reply.status == MERGEJOIN_RESULT || answer.reply.status == MERGEJOIN_NO_PATCHES) PG_RETURN_NULL();
  if (answer.reply.status != MERGEJOIN_CONFLICT) refuse(&answer);
  initStringInfo(&report);
  append_conflict(&report, &answer);
  return returned(fcinfo, cstring_to_text_with_len(report.data, report.len));
}

/* Appends which patch of a group is none, and the line that says why. */
static void append_bad(StringInfo report, size_t number, const char *line) {
  appendStringInfo(report, "{\"bad\":{\"number\":%zu,\"why\":", number);
  escape_json(report, line);
  appendStringInfoChar(report, '}');
}

/* Returns the number of the first of some patches, which are more than a call may take, that does not fit beside those before it. */
static size_t first_too_large(const Request *request) {
  Memory memory = begun_memory(0);
  size_t number;

  for (number = 0; number + 1 < request->count; number += 1) {
    if (request->made > 0) memory.used += request->texts[number].length;
    if (!is_patch(request->texts[number], &memory)) break;
  }
  MemoryContextDelete(memory.context);
  return number;
}

/* Appends what the patches of a request are, of four, but for the last brace. */
static void append_report(StringInfo report, const Request *request, const Answer *answer) {
  switch (answer->reply.status) {
    case MERGEJOIN_RESULT:
      appendStringInfoString(report, "{\"join\":");
      appendBinaryStringInfo(report, VARDATA(answer->value), (int)answer->reply.length);
      break;
    case MERGEJOIN_CONFLICT:
      appendStringInfoString(report, "{\"conflict\":");
      append_conflict(report, answer);
      break;
    case MERGEJOIN_PATCH:
      append_bad(report, answer->reply.first, line_of(answer));
      break;
    case MERGEJOIN_TOO_LARGE:
      append_bad(report, first_too_large(request), TOO_LARGE);
      break;
    default:
      refuse(answer);
  }
}

/* Ends mergejoin_report_agg: returns what an array of patches is. */
Datum mergejoin_report(PG_FUNCTION_ARGS) {
  Request request = {.places = REPORTED_PLACES, .is_kept = true};
  bool is_whole = read_elements(&request, array_of_argument(fcinfo, 0), true);
  Answer answer = answer_of(&request);
  StringInfoData report;

  if (is_whole && answer.reply.status == MERGEJOIN_NO_PATCHES) PG_RETURN_NULL();
  initStringInfo(&report);
  if (is_whole || answer.reply.status == MERGEJOIN_PATCH)
    append_report(&report, &request, &answer);
  else
    append_bad(&report, request.count, TOO_LARGE);
  appendStringInfoChar(&report, '}');
  return returned(fcinfo, cstring_to_text_with_len(report.data, report.len));
}
