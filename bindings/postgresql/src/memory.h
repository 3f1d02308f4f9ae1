/*
 * The memory that calls of the library take: in memory contexts, and as much as mergejoin.call_memory allows.
 */
#ifndef MERGEJOIN_MEMORY_H
#define MERGEJOIN_MEMORY_H

#include "postgres.h"

/* What some calls take, one after another, and what they leave to the next. */
typedef struct Memory {
  MemoryContext context; /* which has all of it */
  Size used;             /* bytes that are taken now, also by the texts that were made for the calls */
  bool is_over;          /* whether a request was refused since it would have been more than is allowed */
} Memory;

extern void define_settings(void);
extern Size allowed_memory(void);
extern Size memory_beside(Size taken);
extern Memory begun_memory(Size used);
extern void use_memory(Memory *memory);
extern void refuse_for_call_memory(void) pg_attribute_noreturn();
extern void refuse_for_memory(const Memory *memory) pg_attribute_noreturn();

#endif
