/*
 * Texts that are kept in the order in which they came, of which the first may leave.
 */
#ifndef MERGEJOIN_SQLITE_TEXTS_H
#define MERGEJOIN_SQLITE_TEXTS_H

#include <stdbool.h>

#include "mergejoin.h"

/* Texts one after the other, each after its length in four bytes. */
typedef struct Block {
  struct Block *next;
  size_t begin, end, capacity; /* of `bytes`: where the texts that are left begin, and where they end */
  char bytes[];
} Block;

/* {0} has no text. SQLite's allocator has the blocks, so they count for its limits. */
typedef struct Texts {
  Block *first, *last;
  size_t count;
} Texts;

/* A text of them: {0} before the first, and until texts_next returns false. */
typedef struct Cursor {
  const Block *block;
  size_t at;
} Cursor;

bool texts_append(Texts *texts, mergejoin_text text);
void texts_drop_first(Texts *texts);
bool texts_next(const Texts *texts, Cursor *cursor, mergejoin_text *text);
mergejoin_text *texts_list(const Texts *texts);
void texts_free(Texts *texts);

#endif
