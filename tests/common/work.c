// Makes one call of the library, for a heap that counts (failing_allocator.c), and for counts of instructions
// (tests/cost). It takes no memory from the heap itself, so that heap counts what the call takes alone. Standard input has the number
// of the export, which is LIMITED more for a call within LIMIT, and for each text its length and its bytes; the numbers have eight
// bytes each. The text of the answer is written to standard output, and the status is that of the reply, or the one for an input that
// does not fit. With an argument the bytes that the C library's heap has taken from the system are written to standard error.
#include <malloc.h>
#include <stdio.h>
#include <string.h>
#include <unistd.h>

#include "mergejoin.h"

enum { JOIN, REPLAY, MERGE, REWRITE, PATCH, GET, LIMITED = 100, LIMIT = 1 << 30 };
enum { MOST_TEXTS = 1 << 14, MOST_BYTES = 1 << 21, NO_FIT = 64 };

static uint8_t given[MOST_BYTES], buffer[MOST_BYTES];
static mergejoin_text texts[MOST_TEXTS];

static mergejoin_reply call(uint64_t export, size_t count) {
  const mergejoin_text *first = texts, *rest = texts + 1;
  const size_t limit = export < LIMITED ? SIZE_MAX : LIMIT;
  switch (export % LIMITED) {
  case JOIN: return mergejoin_join(texts, count, buffer, sizeof buffer, limit);
  case REPLAY: return mergejoin_replay(first->bytes, first->length, rest, count - 1, buffer, sizeof buffer, limit);
  case MERGE: return mergejoin_merge(first->bytes, first->length, rest, count - 1, buffer, sizeof buffer, limit);
  case REWRITE: return mergejoin_rewrite(first->bytes, first->length, rest->bytes, rest->length, buffer, sizeof buffer, limit);
  case PATCH: return mergejoin_patch(first->bytes, first->length, rest->bytes, rest->length, buffer, sizeof buffer, limit);
  default: return mergejoin_get(first->bytes, first->length, rest->bytes, rest->length, buffer, sizeof buffer, limit);
  }
}

int main(int argc, char *argv[]) {
  (void)argv;
  uint64_t export, length;
  size_t used = 0, place = sizeof export, count = 0;
  for (ssize_t taken = 1; taken > 0; used += (size_t)taken) {
    taken = read(0, given + used, sizeof given - used);
    if (taken < 0) return NO_FIT;
  }
  if (used < place || used == sizeof given) return NO_FIT;
  memcpy(&export, given, sizeof export);
  for (; place < used; place += length, count += 1) {
    if (used - place < sizeof length) return NO_FIT;
    memcpy(&length, given + place, sizeof length);
    place += sizeof length;
    if (count == MOST_TEXTS || length > used - place) return NO_FIT;
    texts[count] = (mergejoin_text){given + place, length};
  }
  mergejoin_reply reply = call(export, count);
  if (argc > 1) fprintf(stderr, "%zu\n", mallinfo2().arena + mallinfo2().hblkhd);
  if (reply.length > sizeof buffer || write(1, buffer, reply.length) != (ssize_t)reply.length) return NO_FIT;
  return (int)reply.status;
}
