/*
 * The allocator of the library in a backend. In the library that the extension contains, malloc, realloc and free have the names of
 * the three functions here (the Makefile renames them).
 *
 * A request is refused if it would be more than mergejoin.call_memory allows, or if the session was asked to cancel or to end. The
 * library then returns that memory ran out, having given back all that it took in the call, and whoever called raises the error. So
 * no error is raised while the library runs.
 */
#include "memory.h"

#include <limits.h>

#include "miscadmin.h"
#include "utils/guc.h"
#include "utils/memutils.h"

/* What malloc aligns by, which is more than a memory context does; and the most bytes that a chunk needs for that. */
#define ALIGNMENT 16
#define PADDING (ALIGNMENT - MAXIMUM_ALIGNOF)
/* Blocks of fewer bytes stay as long as they are if they need less. */
#define SMALL 1024

/* What is before each block. It is short, since many blocks are names of a few bytes. */
typedef struct Header {
  uint64 offset : 8;    /* of the block in the chunk of the memory context */
  uint64 capacity : 56; /* of the block, as it was asked for: a debug build of PostgreSQL watches the bytes after it */
} Header;

extern void *mergejoin_malloc(size_t size);
extern void *mergejoin_realloc(void *block, size_t size);
extern void mergejoin_free(void *block);

static int call_memory = 1024 * 1024; /* kilobytes */
static Memory *in_use = NULL;         /* of the call that runs */

/* Defines mergejoin.call_memory. */
void define_settings(void) {
  DefineCustomIntVariable("mergejoin.call_memory", "Sets the most memory that a call, or the state of an aggregate, may take.",
                          "A call that needs more is an error. The values that it is given and returns do not count.", &call_memory,
                          1024 * 1024, 64, MAX_KILOBYTES, PGC_SUSET, GUC_UNIT_KB, NULL, NULL, NULL);
  MarkGUCPrefixReserved("mergejoin");
}

/* Returns how many bytes a call may take beside those that are taken. */
Size memory_beside(Size taken) {
  Size allowed = (Size)call_memory * 1024;

  return allowed - Min(taken, allowed);
}

/* Returns how many bytes a call may take. */
Size allowed_memory(void) { return memory_beside(0); }

/* Makes the memory of calls, of which so many bytes are taken, with a context of its own in the current one. */
Memory begun_memory(Size used) {
  Memory memory = {.context = AllocSetContextCreate(CurrentMemoryContext, "calls of mergejoin", ALLOCSET_DEFAULT_SIZES), .used = used};

  return memory;
}

/* Has the next calls take this memory, which is its caller's. */
void use_memory(Memory *memory) { in_use = memory; }

/* Raises that a call would need more memory than it may take. */
void refuse_for_call_memory(void) {
  ereport(ERROR, errcode(ERRCODE_OUT_OF_MEMORY), errmsg("out of memory"),
          errdetail("A call of mergejoin may take no more than mergejoin.call_memory, which is %d kB.", call_memory));
}

/* Raises why the library was refused memory. */
void refuse_for_memory(const Memory *memory) {
  CHECK_FOR_INTERRUPTS();
  if (memory->is_over) refuse_for_call_memory();
  ereport(ERROR, errcode(ERRCODE_OUT_OF_MEMORY), errmsg("out of memory"),
          errdetail("A call of mergejoin could not allocate memory."));
}

/* Returns whether the session was asked to cancel or to end, and may do so. */
static bool is_asked_to_stop(void) {
  return InterruptPending && (QueryCancelPending || ProcDiePending) && INTERRUPTS_CAN_BE_PROCESSED();
}

static Header *header_of(void *block) { return (Header *)block - 1; }

static char *chunk_of(void *block) { return (char *)block - header_of(block)->offset; }

/* Returns a block of so many bytes in a chunk, or NULL if there is none. */
static void *block_in(char *chunk, Size capacity) {
  char *block;

  if (!chunk) return NULL;
  block = (char *)TYPEALIGN(ALIGNMENT, chunk + sizeof(Header));
  *header_of(block) = (Header){.offset = block - chunk, .capacity = capacity};
  in_use->used += GetMemoryChunkSpace(chunk);
  return block;
}

void *mergejoin_malloc(size_t size) {
  if (is_asked_to_stop()) return NULL;
  if (size > memory_beside(in_use->used)) {
    in_use->is_over = true;
    return NULL;
  }
  return block_in(MemoryContextAllocExtended(in_use->context, size + sizeof(Header) + PADDING,
                                             MCXT_ALLOC_HUGE | MCXT_ALLOC_NO_OOM),
                  size);
}

/* A block that is to be shorter stays where it is if there is no memory for another. */
void *mergejoin_realloc(void *block, size_t size) {
  Size capacity;
  void *moved;

  if (!block) return mergejoin_malloc(size);
  capacity = header_of(block)->capacity;
  if (size <= capacity && (size > capacity / 2 || capacity < SMALL)) return block;
  moved = mergejoin_malloc(size);
  if (!moved) return size <= capacity ? block : NULL;
  memcpy(moved, block, Min(size, capacity));
  mergejoin_free(block);
  return moved;
}

void mergejoin_free(void *block) {
  if (!block) return;
  in_use->used -= GetMemoryChunkSpace(chunk_of(block));
  pfree(chunk_of(block));
}
