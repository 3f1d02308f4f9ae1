// Makes calls as a script says, and prints of each its name, the status, the numbers, the flags, the length and the places of the reply, how many requests
// to the heap were refused meanwhile, how many bytes of stack it took, how many the block has that a helper made, and the text.
// Standard input has a command a line:
//
//   CALL NUMBER OTHER #N .. xHEX ..   a call of the handle of this number, or of texts, which are in hexadecimal digits, with further
//                               numbers: of a start and of an identity, or each two of an identity
//   capacity N, limit N         of the calls that follow
//   refuse N ON                 request N of the next call is refused; if ON is not 0, each after it too
//   each ON                     the next call is made with request 1 refused so, with request 2, .. to the first not reached
//   heap                        prints how many blocks were taken and not given back, their bytes, the most bytes since the last
//                               such command, the most memory of the process in kB, and what is in use by mallinfo2
//
// With the argument `new` the calls are made by the header's helpers, with `stack` each is made on a stack of its own, with `exact` the
// buffer ends where its block does, as each text does, and with `asked` all requests to the heap are counted, and not those refused.
#include <malloc.h>
#include <stdio.h>
#include <string.h>
#include <sys/resource.h>

#include "mergejoin.h"
#include "painted_stack.h"
#include "refusing_heap.h"

enum { HANDLES = 8, MOST_TEXTS = 1 << 14, MOST_NUMBERS = 1 << 10, MOST_BYTES = 1 << 25 };

static mergejoin_replica replicas[HANDLES];
static mergejoin_patches sets[HANDLES];
static mergejoin_patch_log logs[HANDLES];
static mergejoin_text texts[MOST_TEXTS];
static uint64_t numbers[MOST_NUMBERS];
static mergejoin_identity *chosen;
static char line[MOST_BYTES];
static uint8_t *buffer;
static size_t count, given, capacity = 4096, limit = SIZE_MAX, behind = 32;
static int is_new, is_stack, is_asked, is_each;

typedef struct call {
  char name[20];
  size_t number, other;
  int is_made;
  mergejoin_reply reply;
  char *made;
} call;

// Each call: its name in a script, its function, and what that is given before the buffer.
#define TEXT(number) texts[number].bytes, texts[number].length
#define EACH_CALL(CALL)                                     \
  CALL(start, replica_start, replica, TEXT(0))              \
  CALL(receive, replica_receive, replica, TEXT(0))          \
  CALL(document, replica_document, replica)                 \
  CALL(joined, replica_joined, replica)                     \
  CALL(get, replica_get, replica, TEXT(0))                  \
  CALL(add, patches_add, patches, TEXT(0))                  \
  CALL(combine, patches_combine, patches, &sets[it->other]) \
  CALL(text, patches_text, patches)                         \
  CALL(kept, patches_kept, patches)                         \
  CALL(from, patches_from_kept, patches, TEXT(0))           \
  CALL(log_start, patch_log_start, log, *numbers, TEXT(0))  \
  CALL(log_receive, patch_log_receive, log, *numbers, numbers[1], numbers[2], TEXT(0)) \
  CALL(log_document, patch_log_document, log)               \
  CALL(log_conflicts, patch_log_conflicts, log)             \
  CALL(log_conflicts_of, patch_log_conflicts_of, log, *numbers, numbers[1]) \
  CALL(log_count, patch_log_count, log)                     \
  CALL(log_decide, patch_log_decide, log, chosen, given / 2) \
  CALL(join_of, join, texts, count)                         \
  CALL(replay_of, replay, TEXT(0), texts + 1, count - 1)    \
  CALL(merge_of, merge, TEXT(0), texts + 1, count - 1)      \
  CALL(rewrite_of, rewrite, TEXT(0), TEXT(1))               \
  CALL(patch_of, patch, TEXT(0), TEXT(1))                   \
  CALL(get_of, get, TEXT(0), TEXT(1))
#define MAKE(word, function, ...)                                                      \
  if (!strcmp(it->name, #word)) {                                                      \
    it->is_made = 1;                                                                   \
    if (is_new) it->made = mergejoin_##function##_new(__VA_ARGS__, limit, &it->reply); \
    else it->reply = mergejoin_##function(__VA_ARGS__, buffer, capacity, limit);       \
  }
#define OR_NAMED(word, ...) || !strcmp(name, #word)

static int is_call(const char *name) { return !strcmp(name, "free") || !strcmp(name, "drop") || !strcmp(name, "log_free") EACH_CALL(OR_NAMED); }

static void make(void *made) {
  call *it = made;
  mergejoin_replica *replica = &replicas[it->number];
  mergejoin_patches *patches = &sets[it->number];
  mergejoin_patch_log *log = &logs[it->number];
  EACH_CALL(MAKE)
  if (!strcmp(it->name, "free")) mergejoin_replica_free(replica);
  if (!strcmp(it->name, "drop")) mergejoin_patches_free(patches);
  if (!strcmp(it->name, "log_free")) mergejoin_patch_log_free(log);
}

// Whether what has no meaning is 0, and the places are a part of the text.
static int is_plain(const mergejoin_reply *reply) { return reply->places <= reply->length && !(reply->flags & ~MERGEJOIN_MORE); }

// Whether that is so, and the buffer has dots after the text.
static int is_intact(const mergejoin_reply *reply) {
  size_t written = reply->length < capacity ? reply->length : capacity;
  for (size_t place = written; place < capacity + behind; place += 1) {
    if (buffer[place] != '.') return 0;
  }
  return is_plain(reply);
}

static void print(const call *it, size_t stack) {
  const mergejoin_reply *reply = &it->reply;
  size_t shown = reply->length < capacity || it->made ? reply->length : capacity;
  int is_well = it->made ? !it->made[shown] && is_plain(reply) : is_intact(reply);
  if (is_new && it->is_made && !it->made != (reply->status == MERGEJOIN_NO_MEMORY)) is_well = 0;
  printf("%s %u %zu %zu %zu %u %zu %zu %zu %zu %zu %s ", it->name, reply->status, reply->first, reply->second, reply->total, reply->flags,
         reply->length, reply->places, is_asked ? requests : refusals, stack, malloc_usable_size(it->made), is_well ? "intact" : "spoilt");
  fwrite(it->made ? it->made : (const char *)buffer, 1, is_new && !it->made ? 0 : shown, stdout);
  putchar('\n');
}

static void run(call it) {
  static size_t idle;
  call none = {.name = ""};
  size_t stack = 0;
  buffer = malloc(capacity + behind);
  memset(buffer, '.', capacity + behind);
  requests = refusals = 0;
  if (is_stack) {
    if (!idle) idle = stack_of(make, &none);
    stack = stack_of(make, &it) - idle;
  } else {
    counting = 1;
    make(&it);
    counting = 0;
  }
  print(&it, stack);
  counting = 1;
  free(it.made);
  counting = 0;
  free(buffer);
}

static unsigned digit(char it) { return it <= '9' ? (unsigned)(it - '0') : (unsigned)(it - 'a') + 10; }

// A text from its digits, in a block of its own that ends where it ends.
static mergejoin_text text_of(const char *at, size_t length) {
  uint8_t *bytes = malloc(length);
  for (size_t place = 0; place < length; place += 1, at += 2) bytes[place] = (uint8_t)(16 * digit(at[0]) + digit(at[1]));
  return (mergejoin_text){bytes, length};
}

static void read_texts(const char *at) {
  for (count = 0; count < MOST_TEXTS && (at = strchr(at, 'x')); count += 1) {
    size_t digits = strspn(at += 1, "0123456789abcdef");
    texts[count] = text_of(at, digits / 2);
    at += digits;
  }
}

// Each two numbers as an identity, in a block that ends where the last one ends.
static void read_numbers(const char *at) {
  for (given = 0; given < MOST_NUMBERS && (at = strchr(at, '#')); given += 1) numbers[given] = strtoull(at += 1, NULL, 10);
  chosen = malloc(given / 2 * sizeof *chosen);
  for (size_t place = 0; place < given / 2; place += 1) chosen[place] = (mergejoin_identity){numbers[2 * place], numbers[2 * place + 1]};
}

static void answer(call it) {
  read_texts(line + strlen(it.name));
  read_numbers(line);
  do {
    refused_at += (size_t)is_each;
    run(it);
  } while (is_each && refusals);
  for (size_t number = 0; number < count; number += 1) free((void *)(uintptr_t)texts[number].bytes);
  free(chosen);
  refused_at = 0, refuses_on = 0, is_each = 0;
}

static int show_heap(void) {
  struct rusage used;
  struct mallinfo2 said = mallinfo2();
  getrusage(RUSAGE_SELF, &used);
  printf("heap %ld %zu %zu %ld %zu\n", live, held, peak, used.ru_maxrss, said.uordblks + said.hblkhd);
  return peak = held, 1;
}

static int obey(void) {
  call it = {.name = ""};
  int found = sscanf(line, "%19s %zu %zu", it.name, &it.number, &it.other);
  if (found == 2 && !strcmp(it.name, "capacity")) return capacity = it.number, 1;
  if (found == 2 && !strcmp(it.name, "limit")) return limit = it.number, 1;
  if (found == 3 && !strcmp(it.name, "refuse")) return refused_at = it.number, refuses_on = it.other != 0, 1;
  if (found == 2 && !strcmp(it.name, "each")) return is_each = 1, refuses_on = it.number != 0, 1;
  if (found == 1 && !strcmp(it.name, "heap")) return show_heap();
  if (found != 3 || !is_call(it.name) || it.number >= HANDLES || it.other >= HANDLES) return 0;
  return answer(it), 1;
}

int main(int words, char **word) {
  is_new = words == 2 && !strcmp(word[1], "new");
  is_stack = words == 2 && !strcmp(word[1], "stack");
  is_asked = words == 2 && !strcmp(word[1], "asked");
  if (words == 2 && !strcmp(word[1], "exact")) behind = 0;
  while (fgets(line, sizeof line, stdin)) {
    if (!obey()) return printf("what is %s", line), 2;
  }
  return 0;
}
