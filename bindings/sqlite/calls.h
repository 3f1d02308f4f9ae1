/*
 * What the files of the extension share: the texts of arguments, results, and the errors that report what the library refuses.
 */
#ifndef MERGEJOIN_SQLITE_CALLS_H
#define MERGEJOIN_SQLITE_CALLS_H

#include <sqlite3ext.h>
#include <stdbool.h>

#include "mergejoin.h"

/* SQLite 3.45 and later has it of a function that gives its result a subtype. Earlier ones pass over it. */
#ifndef SQLITE_RESULT_SUBTYPE
#define SQLITE_RESULT_SUBTYPE 0x001000000
#endif
/* What all functions and aggregates are. */
#define FUNCTION_FLAGS (SQLITE_UTF8 | SQLITE_DETERMINISTIC | SQLITE_RESULT_SUBTYPE)
/* What a function is that takes about as much time and memory as its arguments are long: a schema that is not trusted may call it. */
#define LINEAR SQLITE_INNOCUOUS
/* The limit of places that a message shows, of which it has the first ones. */
#define SHOWN_PLACES 32768

bool borrow(sqlite3_value *value, mergejoin_text *text);
size_t longest(sqlite3_context *context);
void give(sqlite3_context *context, char *text, size_t length, void (*freed)(void *));
void refuse(sqlite3_context *context, const char *text, const mergejoin_reply *reply);

int add_functions(sqlite3 *db);
int add_aggregates(sqlite3 *db);

#endif
