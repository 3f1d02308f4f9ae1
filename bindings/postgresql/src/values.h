/*
 * Values of json, text and jsonb as texts, and texts as values.
 */
#ifndef MERGEJOIN_VALUES_H
#define MERGEJOIN_VALUES_H

#include "postgres.h"

#include "fmgr.h"
#include "mergejoin.h"
#include "utils/array.h"

extern bool read_element(Datum element, Oid type, mergejoin_text *read, Size *made);
extern bool read_argument(FunctionCallInfo fcinfo, int number, mergejoin_text *read, Size *made);
extern mergejoin_text text_of_argument(FunctionCallInfo fcinfo, int number, Size *made);
extern ArrayType *array_of_argument(FunctionCallInfo fcinfo, int number);
extern Datum returned(FunctionCallInfo fcinfo, text *json);

#endif
