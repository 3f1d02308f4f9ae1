/*
 * Values of json, text and jsonb as texts, and texts as values. A function over jsonb reads the text that the jsonb is written as.
 *
 * Of which types a function's values are is what it is declared with. The server's catalog has that of each call, also of one that no
 * expression makes, but a message of the protocol.
 */
#include "values.h"

#include "calls.h"
#include "catalog/pg_type.h"
#include "utils/builtins.h"
#include "utils/lsyscache.h"
#include "writing.h"

/* The types that a function is declared with. */
typedef struct Types {
  Oid result;
  Oid *arguments;
  int count;
} Types;

/* Returns those of the function that is called. They are looked up once, and stay as long as what is known of the function. */
static const Types *types_of(FunctionCallInfo fcinfo) {
  FmgrInfo *function = fcinfo->flinfo;
  Types *types = function->fn_extra;

  if (!types) {
    MemoryContext caller = MemoryContextSwitchTo(function->fn_mcxt);

    types = palloc(sizeof(Types));
    types->result = get_func_signature(function->fn_oid, &types->arguments, &types->count);
    MemoryContextSwitchTo(caller);
    function->fn_extra = types;
  }
  return types;
}

/* Raises that a function which is not of the extension's script is declared with another type. */
static void refuse_type(Oid type) {
  ereport(ERROR, errcode(ERRCODE_DATATYPE_MISMATCH),
          errmsg("a function of mergejoin is declared with the type %s", format_type_extended(type, -1, FORMAT_TYPE_ALLOW_INVALID)));
}

/* Returns the type of an argument, which is there. */
static Oid type_of_argument(FunctionCallInfo fcinfo, int number) {
  const Types *types = types_of(fcinfo);

  if (number >= types->count) refuse_type(InvalidOid);
  return types->arguments[number];
}

/* Makes the text of a jsonb in the current memory context, unless it is more than a call may take beside what was made. */
static bool make_text(const Jsonb *value, mergejoin_text *read, Size *made) {
  Growing written = growing(VARSIZE(value), Min(memory_beside(*made), MaxAllocSize));

  append_jsonb(&written, (JsonbContainer *)&value->root);
  end(&written);
  *made += written.capacity;
  *read = mergejoin_text_of(written.bytes, written.length);
  return !written.is_over;
}

/*
 * Reads the text of a value of a type, which is the value's own, or is made in the current memory context. What was made grows by what
 * that takes. Returns whether that is no more than a call may take.
 */
bool read_element(Datum element, Oid type, mergejoin_text *read, Size *made) {
  if (type == JSONBOID) return make_text(DatumGetJsonbP(element), read, made);
  if (type != JSONOID && type != TEXTOID) refuse_type(type);
  *read = borrowed(DatumGetTextPP(element));
  return true;
}

/* The same of an argument of the call. */
bool read_argument(FunctionCallInfo fcinfo, int number, mergejoin_text *read, Size *made) {
  return read_element(PG_GETARG_DATUM(number), type_of_argument(fcinfo, number), read, made);
}

/* Returns the text of an argument, or raises that it is more than a call may take. */
mergejoin_text text_of_argument(FunctionCallInfo fcinfo, int number, Size *made) {
  mergejoin_text read;

  if (!read_argument(fcinfo, number, &read, made)) refuse_for_call_memory();
  return read;
}

/* Returns an argument that is an array of texts. */
ArrayType *array_of_argument(FunctionCallInfo fcinfo, int number) {
  Oid type = type_of_argument(fcinfo, number);

  if (type != JSONARRAYOID && type != JSONBARRAYOID && type != TEXTARRAYOID) refuse_type(type);
  return PG_GETARG_ARRAYTYPE_P(number);
}

/* Returns a text as the value that the call returns, or NULL if there is none. */
Datum returned(FunctionCallInfo fcinfo, text *json) {
  Oid type = types_of(fcinfo)->result;
  char *written;

  if (type != JSONOID && type != JSONBOID) refuse_type(type);
  if (!json) PG_RETURN_NULL();
  if (type == JSONOID) PG_RETURN_TEXT_P(json);
  written = text_to_cstring(json);
  pfree(json);
  return DirectFunctionCall1(jsonb_in, CStringGetDatum(written));
}
