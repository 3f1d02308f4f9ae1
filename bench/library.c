// Makes calls of the library again and again, for bench/run library:
//
//   library merge|join|receive TIMES <TEXTS
//
// TEXTS has for each text its length, a number of eight bytes, and then its bytes. `merge` merges all texts but the first into the
// first, `join` joins all; both do so TIMES times. `receive` starts a replica from the first, and gives it the next TIMES texts. The
// last answer is written to standard output.
#include <stdio.h>
#include <stdlib.h>
#include <string.h>

#include "mergejoin.h"

enum { MOST_TEXTS = 1 << 17, MOST_BYTES = 1 << 23 };

static uint8_t given[MOST_BYTES], out[MOST_BYTES];
static mergejoin_text texts[MOST_TEXTS];

static void end(const char *why) {
  fprintf(stderr, "%s\n", why);
  exit(1);
}

static size_t read_texts(void) {
  size_t used = fread(given, 1, sizeof given, stdin), count = 0;
  uint64_t length;
  for (size_t place = 0; place < used; place += length, count += 1) {
    if (used - place < sizeof length || count == MOST_TEXTS) end("what is no text");
    memcpy(&length, given + place, sizeof length);
    place += sizeof length;
    if (length > used - place) end("a text is cut");
    texts[count] = (mergejoin_text){given + place, length};
  }
  return count;
}

static mergejoin_reply wanted(mergejoin_reply reply) {
  if (reply.status != MERGEJOIN_RESULT || reply.length > sizeof out) end("no result");
  return reply;
}

static mergejoin_reply again_and_again(int is_join, size_t count, size_t times) {
  mergejoin_reply reply = {0};
  for (size_t time = 0; time < times; time += 1)
    reply = wanted(is_join ? mergejoin_join(texts, count, out, sizeof out, SIZE_MAX)
                           : mergejoin_merge(texts->bytes, texts->length, texts + 1, count - 1, out, sizeof out, SIZE_MAX));
  return reply;
}

static mergejoin_reply received(size_t times) {
  mergejoin_replica replica = {0};
  wanted(mergejoin_replica_start(&replica, texts->bytes, texts->length, out, sizeof out, SIZE_MAX));
  for (size_t number = 1; number <= times; number += 1)
    wanted(mergejoin_replica_receive(&replica, texts[number].bytes, texts[number].length, out, sizeof out, SIZE_MAX));
  mergejoin_reply reply = wanted(mergejoin_replica_document(&replica, out, sizeof out, SIZE_MAX));
  mergejoin_replica_free(&replica);
  return reply;
}

int main(int argc, char *argv[]) {
  if (argc != 3) end("usage: library merge|join|receive TIMES");
  size_t count = read_texts(), times = strtoul(argv[2], NULL, 10);
  if (count == 0 || times == 0) end("nothing to do");
  int is_receive = strcmp(argv[1], "receive") == 0;
  if (is_receive && times >= count) end("too few texts");
  mergejoin_reply reply = is_receive ? received(times) : again_and_again(strcmp(argv[1], "join") == 0, count, times);
  return fwrite(out, 1, reply.length, stdout) == reply.length && putchar('\n') == '\n' ? 0 : 1;
}
