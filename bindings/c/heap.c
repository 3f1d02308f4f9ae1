/* The heap that the proved code asks for, over the C library's, for a machine for which the toolchain brings none. All blocks have an
 * alignment that divides 16, which is that of malloc. bin/library --arm64 links it. */
#include <stdbool.h>
#include <stdint.h>
#include <stdlib.h>

typedef struct {
  bool ok;
  uint8_t *block; /* if there is no memory: a byte that nobody owns */
} Tried;

static uint8_t nothing;

static Tried tried(void *block) { return block ? (Tried){true, block} : (Tried){false, &nothing}; }

Tried rattle_alloc(size_t size, size_t alignment);
Tried rattle_realloc(uint8_t *block, size_t kept, size_t size, size_t alignment);
void rattle_dealloc(uint8_t *block);

Tried rattle_alloc(size_t size, size_t alignment) {
  (void)alignment;
  return tried(malloc(size));
}

/* The first bytes, as many as are kept, are as they were. If there is no memory, the block is as it was. */
Tried rattle_realloc(uint8_t *block, size_t kept, size_t size, size_t alignment) {
  (void)kept, (void)alignment;
  return tried(realloc(block, size));
}

void rattle_dealloc(uint8_t *block) { free(block); }
