// Another extension for PostgreSQL, whose functions have the names of ours and answer nonsense: tests load it before ours and
// after, and want our answers. LOAD finds it by what PG_MODULE_MAGIC says.
#include "postgres.h"

#include "fmgr.h"
#include "utils/builtins.h"

PG_MODULE_MAGIC;

// Each takes whatever it is given, and says that it was called.
#define ANSWERS_NONSENSE(name) \
  extern Datum name(void);     \
  Datum name(void) {           \
    elog(WARNING, "the other extension answers in the place of " #name); \
    return CStringGetTextDatum("\"nonsense\""); \
  }

ANSWERS_NONSENSE(answer_of)
ANSWERS_NONSENSE(borrowed)
ANSWERS_NONSENSE(mergejoin_combine)
ANSWERS_NONSENSE(mergejoin_deserialize)
ANSWERS_NONSENSE(mergejoin_first_conflict)
ANSWERS_NONSENSE(mergejoin_get)
ANSWERS_NONSENSE(mergejoin_join)
ANSWERS_NONSENSE(mergejoin_joined_json)
ANSWERS_NONSENSE(mergejoin_joined_jsonb)
ANSWERS_NONSENSE(mergejoin_joined_or_null_json)
ANSWERS_NONSENSE(mergejoin_joined_or_null_jsonb)
ANSWERS_NONSENSE(mergejoin_merge)
ANSWERS_NONSENSE(mergejoin_patch)
ANSWERS_NONSENSE(mergejoin_replay)
ANSWERS_NONSENSE(mergejoin_rewrite)
ANSWERS_NONSENSE(mergejoin_serialize)
ANSWERS_NONSENSE(mergejoin_sql_get)
ANSWERS_NONSENSE(mergejoin_sql_join)
ANSWERS_NONSENSE(mergejoin_sql_merge)
ANSWERS_NONSENSE(mergejoin_sql_patch)
ANSWERS_NONSENSE(mergejoin_sql_replay)
ANSWERS_NONSENSE(mergejoin_sql_rewrite)
ANSWERS_NONSENSE(mergejoin_take_json)
ANSWERS_NONSENSE(mergejoin_take_jsonb)
ANSWERS_NONSENSE(refuse)
ANSWERS_NONSENSE(result_of)
ANSWERS_NONSENSE(serialize)
