// Takes texts apart by mergejoin_next_place. Each line of standard input has a number, of the bytes of the array at the end of a text, and
// the text in hexadecimal digits, which is put into a block that ends where it ends. For each place a line has its length, where it ends in the
// text, and its bytes; the capacity is the argument. After the last place a line has a dot.
#include <stdio.h>
#include <stdlib.h>
#include <string.h>

#include "mergejoin.h"

enum { MOST = 1 << 16 };

static char line[2 * MOST], place[MOST];

static void take_apart(const char *text, const mergejoin_reply *reply, size_t capacity) {
  size_t at = 0, length;
  while ((length = mergejoin_next_place(text, reply, &at, place, capacity)) != SIZE_MAX) {
    size_t shown = length < capacity ? length : capacity;
    printf("%zu %zu ", length, at);
    for (size_t number = 0; number < shown; number += 1) printf("%02x", (unsigned char)place[number]);
    putchar('\n');
  }
  size_t end = at;
  if (mergejoin_next_place(text, reply, &at, NULL, 0) == SIZE_MAX && at == end) puts(".");
}

int main(int count, char **words) {
  size_t capacity = count > 1 ? strtoull(words[1], NULL, 10) : MOST;
  while (fgets(line, sizeof line, stdin)) {
    char *digits;
    mergejoin_reply reply = {.status = MERGEJOIN_CONFLICT, .places = strtoull(line, &digits, 10)};
    reply.length = strspn(digits += 1, "0123456789abcdef") / 2;
    char *text = malloc(reply.length);
    for (size_t number = 0; number < reply.length; number += 1) sscanf(digits + 2 * number, "%2hhx", (unsigned char *)text + number);
    take_apart(text, &reply, capacity);
    free(text);
  }
  return 0;
}
