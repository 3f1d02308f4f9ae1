/*
 * Texts that are kept in the order in which they came, of which the first may leave. A block is freed once all of it has left, so that a
 * frame takes what its texts take, however many have been in it.
 */
#include "texts.h"

#include <sqlite3ext.h>

SQLITE_EXTENSION_INIT3

/* The capacity of the first block, and the most to which that of the next ones doubles, but for a longer text. */
#define LEAST 256
#define MOST 1048576
/* A text of SQLite has less than 2 GB. */
typedef uint32_t Length;

/* Adds a block whose capacity is so many bytes at least. */
static bool add_block(Texts *texts, size_t bytes) {
  size_t capacity = texts->last ? 2 * texts->last->capacity : LEAST;
  Block *block;

  if (capacity > MOST) capacity = MOST;
  if (capacity < bytes) capacity = bytes;
  block = sqlite3_malloc64(sizeof *block + capacity);
  if (!block) return false;
  *block = (Block){.capacity = capacity};
  if (texts->last)
    texts->last->next = block;
  else
    texts->first = block;
  texts->last = block;
  return true;
}

/* Copies a text behind the others. Returns false if memory ran out. */
bool texts_append(Texts *texts, mergejoin_text text) {
  Length length = (Length)text.length;
  size_t bytes = sizeof length + text.length;
  Block *block = texts->last;

  if (!block || block->capacity - block->end < bytes) {
    if (!add_block(texts, bytes)) return false;
    block = texts->last;
  }
  memcpy(block->bytes + block->end, &length, sizeof length);
  memcpy(block->bytes + block->end + sizeof length, text.bytes, text.length);
  block->end += bytes;
  texts->count += 1;
  return true;
}

/* Gives the text after those that the cursor has passed, whose bytes stay those of the texts. Returns false at the end. */
bool texts_next(const Texts *texts, Cursor *cursor, mergejoin_text *text) {
  Length length;

  if (!cursor->block) *cursor = (Cursor){texts->first, texts->first ? texts->first->begin : 0};
  while (cursor->block && cursor->at == cursor->block->end)
    *cursor = (Cursor){cursor->block->next, cursor->block->next ? cursor->block->next->begin : 0};
  if (!cursor->block) return false;
  memcpy(&length, cursor->block->bytes + cursor->at, sizeof length);
  *text = (mergejoin_text){(const uint8_t *)cursor->block->bytes + cursor->at + sizeof length, length};
  cursor->at += sizeof length + length;
  return true;
}

/* Drops the text that came first. The last block stays, for the next text. */
void texts_drop_first(Texts *texts) {
  Cursor cursor = {0};
  mergejoin_text text;

  if (!texts_next(texts, &cursor, &text)) return;
  texts->count -= 1;
  while (texts->first != cursor.block) {
    Block *left = texts->first;
    texts->first = left->next;
    sqlite3_free(left);
  }
  texts->first->begin = cursor.at;
  if (texts->count == 0) texts->first->begin = texts->first->end = 0;
}

/* Returns a list of the texts, for sqlite3_free, or NULL if memory ran out. Their bytes stay those of the texts. */
mergejoin_text *texts_list(const Texts *texts) {
  mergejoin_text *list = sqlite3_malloc64(sizeof *list * (texts->count + 1));
  Cursor cursor = {0};

  for (size_t number = 0; list && texts_next(texts, &cursor, &list[number]);) number += 1;
  return list;
}

void texts_free(Texts *texts) {
  while (texts->first) {
    Block *left = texts->first;
    texts->first = left->next;
    sqlite3_free(left);
  }
  *texts = (Texts){0};
}
