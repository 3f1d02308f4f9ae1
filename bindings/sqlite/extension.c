/*
 * The entry point, whose name SQLite makes of that of the file: mergejoin_sqlite.so.
 */
#include "calls.h"

SQLITE_EXTENSION_INIT1

/* Functions can be innocuous from this version on. */
#define OLDEST 3031000

__attribute__((visibility("default"))) int sqlite3_mergejoinsqlite_init(sqlite3 *db, char **error, const sqlite3_api_routines *api) {
  int status;

  SQLITE_EXTENSION_INIT2(api);
  if (sqlite3_libversion_number() < OLDEST) {
    *error = sqlite3_mprintf("mergejoin needs SQLite 3.31 or later, and this is %s", sqlite3_libversion());
    return SQLITE_ERROR;
  }
  status = add_functions(db);
  if (status == SQLITE_OK) status = add_aggregates(db);
  if (status != SQLITE_OK) *error = sqlite3_mprintf("%s", sqlite3_errmsg(db));
  return status;
}
