/*
 * A call of the library from a backend, and the error that reports what it refuses.
 */
#ifndef MERGEJOIN_CALLS_H
#define MERGEJOIN_CALLS_H

#include "postgres.h"

#include "memory.h"
#include "mergejoin.h"
#include "utils/errcodes.h"
#include "utils/memutils.h"
#if PG_VERSION_NUM >= 160000
#include "varatt.h"
#endif

#define ERRCODE_MERGEJOIN_CONFLICT MAKE_SQLSTATE('M', 'J', '0', '0', '1')
#define ERRCODE_MERGEJOIN_REFUSED MAKE_SQLSTATE('M', 'J', '0', '0', '2')
#define ERRCODE_MERGEJOIN_FORM MAKE_SQLSTATE('M', 'J', '0', '0', '3')

/* The most bytes that a value can have after its header, and a text that a 0 follows. */
#define LONGEST (MaxAllocSize - VARHDRSZ - 1)
/* The most bytes of that which a report has around its join. */
#define AROUND 64

/* The calls of a document and patches, and of two texts. */
typedef mergejoin_reply OnPatches(const uint8_t *, size_t, const mergejoin_text *, size_t, uint8_t *out, size_t capacity, size_t limit);
typedef mergejoin_reply OnTexts(const uint8_t *, size_t, const uint8_t *, size_t, uint8_t *out, size_t capacity, size_t limit);

/* A call that is to be made: one of these, or else a join. The texts are those of whoever makes it, and stay so. */
typedef struct Request {
  OnPatches *on_patches;
  OnTexts *on_texts;
  size_t edits;                /* of a rewriting: about how many bytes its text has for a byte of the patch */
  mergejoin_text document;     /* of all but a join: the document or the start */
  const mergejoin_text *texts; /* the patches, or the one patch or pointer; never NULL */
  size_t count;
  size_t places;  /* how many bytes the places of a conflict may take, if it is more than an error needs */
  size_t made;    /* how many bytes the texts take that were made for the call */
  Memory *memory; /* what the call takes its memory from, and gives it back to, or NULL: then that is its own */
  bool is_kept;   /* whether a call that would need more than it may take is an answer, MERGEJOIN_TOO_LARGE, and no error */
} Request;

/* What the library returns. */
typedef struct Answer {
  mergejoin_reply reply;
  text *value; /* the whole text, whose owner is the memory context in which the call was made */
} Answer;

/* A call that writes into a buffer, of what it is given. */
typedef mergejoin_reply (*Call)(void *given, uint8_t *out, size_t capacity);

extern mergejoin_text borrowed(const text *value);
extern void prepare_call(Memory *memory);
extern Answer answer_by(Call call, void *given, Memory *memory, size_t likely);
extern Answer answer_of(const Request *request);
extern text *result_of(const Request *request);

#endif
