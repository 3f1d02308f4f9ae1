/*
 * The text of a jsonb, which grows up to a length.
 */
#ifndef MERGEJOIN_WRITING_H
#define MERGEJOIN_WRITING_H

#include "postgres.h"

#include "utils/jsonb.h"

/* A text in the current memory context, which takes nothing more once it would be longer than it may be. */
typedef struct Growing {
  char *bytes;
  Size length;
  Size capacity;
  Size most; /* how many bytes it may have, and not less than it has */
  bool is_over;
} Growing;

extern Growing growing(Size capacity, Size most);
extern void append_jsonb(Growing *text, JsonbContainer *container);
extern void end(Growing *text);

#endif
