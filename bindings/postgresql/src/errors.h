/*
 * The errors that report what the library refuses.
 */
#ifndef MERGEJOIN_ERRORS_H
#define MERGEJOIN_ERRORS_H

#include "calls.h"
#include "lib/stringinfo.h"

extern char *line_of(const Answer *answer);
extern size_t append_places(StringInfo list, const Answer *answer, size_t most, size_t longest);
extern void refuse_patch(mergejoin_text wrong, Memory *memory) pg_attribute_noreturn();
extern void refuse_caller(void) pg_attribute_noreturn();
extern void refuse(const Answer *answer) pg_attribute_noreturn();
extern void refuse_length(void) pg_attribute_noreturn();
extern void refuse_places(size_t count) pg_attribute_noreturn();

#endif
