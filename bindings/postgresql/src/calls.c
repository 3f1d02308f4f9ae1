/*
 * A call of the library from a backend.
 *
 * What the library takes is in a memory context of the call, and keeps nothing. Control may leave before a call and after it, by an
 * error or an interrupt, and never within: the buffer is made before the call, and the allocator raises nothing.
 */
#include "calls.h"

#include "errors.h"
#include "mb/pg_wchar.h"
#include "miscadmin.h"

/* The library limits what a result takes in memory, too: by its own count at most so many bytes for a byte of a text. */
#define WEIGHT 350
/* What the places of a conflict may take beside what is read, if no one says it. */
#define PLACES 65536

/* Borrows the bytes of a value, which is not compressed nor out of line, and stays its owner's. */
mergejoin_text borrowed(const text *value) {
  mergejoin_text bytes = {(const uint8_t *)VARDATA_ANY(value), VARSIZE_ANY_EXHDR(value)};

  return bytes;
}

/* Returns how many bytes are read. */
static size_t length_of(const Request *request) {
  size_t length = request->document.length;

  for (size_t number = 0; number < request->count; number += 1) length += request->texts[number].length;
  return length;
}

/*
 * Returns the limit of a call. The results of a JSON Patch and of a rewriting may be much larger than what is read. No other result
 * is, nor is one place of a conflict.
 */
static size_t limit_of(const Request *request) {
  if (request->on_texts) return allowed_memory() + WEIGHT * length_of(request);
  return length_of(request) + Max(request->places, PLACES);
}

/* Makes the call of a request. */
static mergejoin_reply called(const Request *request, uint8_t *out, size_t capacity) {
  const mergejoin_text *document = &request->document, *texts = request->texts;
  size_t limit = limit_of(request);

  if (request->on_patches)
    return request->on_patches(document->bytes, document->length, texts, request->count, out, capacity, limit);
  if (request->on_texts)
    return request->on_texts(document->bytes, document->length, texts->bytes, texts->length, out, capacity, limit);
  return mergejoin_join(texts, request->count, out, capacity, limit);
}

/* Makes ready for a call that takes this memory. The library's texts are UTF-8, and so have to be those of the database. */
void prepare_call(Memory *memory) {
  if (GetDatabaseEncoding() != PG_UTF8)
    ereport(ERROR, errcode(ERRCODE_FEATURE_NOT_SUPPORTED), errmsg("mergejoin needs a database whose encoding is UTF8"),
            errdetail("The encoding of this database is %s.", GetDatabaseEncodingName()));
  CHECK_FOR_INTERRUPTS();
  check_stack_depth();
  use_memory(memory);
}

/* Gives a value the bytes after its header, for mergejoin_grow: an error is raised if it can't have so many. */
static void *resized(void *bytes, size_t capacity) {
  if (capacity > LONGEST + 1) refuse_length();
  if (!bytes) return VARDATA(palloc(VARHDRSZ + capacity));
  return VARDATA(repalloc((char *)bytes - VARHDRSZ, VARHDRSZ + capacity));
}

/*
 * Makes a call that takes this memory, of what it is given, whose text is likely to have so many bytes. The value is made in the current
 * memory context, and is its caller's.
 */
Answer answer_by(Call call, void *given, Memory *memory, size_t likely) {
  Answer answer;
  mergejoin_buffer buffer = {.likely = Min(likely, LONGEST - AROUND), .resized = resized};

  while (mergejoin_grow(&buffer, &answer.reply)) {
    prepare_call(memory);
    answer.reply = call(given, buffer.bytes, buffer.capacity);
    if (answer.reply.status == MERGEJOIN_NO_MEMORY) refuse_for_memory(memory);
  }
  if (!buffer.bytes) refuse_for_memory(memory);
  answer.value = (text *)(buffer.bytes - VARHDRSZ);
  SET_VARSIZE(answer.value, VARHDRSZ + answer.reply.length);
  return answer;
}

/* Makes the call of a request, of which too large may be an answer. */
static mergejoin_reply call_of_request(void *given, uint8_t *out, size_t capacity) {
  const Request *request = given;
  mergejoin_reply reply = called(request, out, capacity);
  bool is_too_large = (reply.status == MERGEJOIN_NO_MEMORY && request->memory->is_over) ||
                      (reply.status == MERGEJOIN_RESULT && reply.length > LONGEST - AROUND);

  if (request->is_kept && is_too_large) reply = (mergejoin_reply){.status = MERGEJOIN_TOO_LARGE};
  return reply;
}

/* Calls the library. The value is made in the current memory context, and is its caller's. */
Answer answer_of(const Request *request) {
  Request own = *request;
  size_t likely = length_of(request);
  Memory memory = {0};
  Answer answer;

  if (!own.memory) {
    memory = begun_memory(own.made);
    own.memory = &memory;
  }
  if (own.edits) likely += own.edits * own.texts->length;
  answer = answer_by(call_of_request, &own, own.memory, likely);
  if (memory.context) MemoryContextDelete(memory.context);
  return answer;
}

/* Returns the result of a request, which is its caller's, or raises what is refused. */
text *result_of(const Request *request) {
  Answer answer = answer_of(request);

  if (answer.reply.status != MERGEJOIN_RESULT) refuse(&answer);
  return answer.value;
}
