// A heap that refuses and counts, for a program that is linked with --wrap=malloc,--wrap=realloc,--wrap=free. While it counts, it
// refuses request number `refused_at`, and each after it if `refuses_on`; `live` is how many blocks were taken and not given back,
// `held` how many bytes they have, and `peak` the most that they had.
#include <malloc.h>
#include <stdlib.h>

void *__real_malloc(size_t);
void *__real_realloc(void *, size_t);
void __real_free(void *);
void *__wrap_malloc(size_t);
void *__wrap_realloc(void *, size_t);
void __wrap_free(void *);

static volatile int counting; // the compiler knows what free does, and would leave out a store before it
static int refuses_on;
static size_t requests, refused_at, refusals, held, peak;
static long live;

static int is_refused(void) {
  if (!counting) return 0;
  requests += 1;
  if (requests != refused_at && !(refuses_on && requests > refused_at)) return 0;
  refusals += 1;
  return 1;
}

// A block in the place of one that had so many bytes.
static void *taken(void *block, size_t before) {
  if (!counting || !block) return block;
  live += !before;
  held += malloc_usable_size(block) - before;
  if (held > peak) peak = held;
  return block;
}

void *__wrap_malloc(size_t size) { return is_refused() ? NULL : taken(__real_malloc(size), 0); }

void *__wrap_realloc(void *block, size_t size) {
  size_t before = malloc_usable_size(block);
  return is_refused() ? NULL : taken(__real_realloc(block, size), before);
}

void __wrap_free(void *block) {
  if (counting && block) live -= 1, held -= malloc_usable_size(block);
  __real_free(block);
}
