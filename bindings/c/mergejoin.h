/*
 * mergejoin: JSON Merge Patches (RFC 7396), JSON Pointers (RFC 6901) and JSON Patches (RFC 6902) over texts.
 *
 * Six functions keep nothing: join, replay, merge, rewrite, patch and get. Each borrows texts from its caller, writes the text of
 * its answer into a buffer of the caller's, and returns a mergejoin_reply by value. If there is no result, that text is a line that
 * says why, and after it the places that the line is about, as a JSON array for the program.
 *
 * Three handles stay in memory. A mergejoin_replica has a start and the patches that it received, and shows their document. A
 * mergejoin_patches has patches without a start, for a reduce or an aggregate. A mergejoin_patch_log has a start and each patch
 * under its identity, also those that conflict, and begins a new start once it is decided which of them count. What a further
 * patch costs depends on that patch, and hardly on what is there; in a patch log one that conflicts may cost what the log has.
 *
 * A short text can ask for all memory: a JSON Patch doubles a document with each copy, and two patches may conflict at very many
 * places. So call with the texts of strangers under a limit, which is the last argument of each call: no result of an operation,
 * no rewriting, no list of places or of pairs and no answer then takes more, as MERGEJOIN_TOO_LARGE, MERGEJOIN_CONFLICT and
 * MERGEJOIN_MORE say. What a call takes to read its texts is bounded by their lengths, which the caller knows: see "owns" below. What
 * a patch log takes is bounded by the lengths of its patches and by their number, which mergejoin_patch_log_count returns.
 *
 * What a call
 *
 *   reads    the texts it is given, as UTF-8 bytes without a terminating 0, while it runs and no longer; of any length. They
 *            may be one another, and may not change meanwhile.
 *   writes   the first min(reply.length, capacity) bytes of the buffer, and nothing after them: no terminating 0 either.
 *            reply.length is the length of the whole text. If it is greater than the capacity, the text is cut: call again
 *            with a buffer of that length. A capacity of 0 asks for the length alone. The buffer may not overlap what is read.
 *   owns     nothing when it returns, but for what a handle holds. It takes memory by malloc and realloc, and gives it back by
 *            free: for each byte that is read mostly 10 to 100 bytes at the peak, up to 175 for many small objects, and up to
 *            360 while the worst patches that were tried are joined or rewritten; and in addition what copies and the answer
 *            take: up to four times the limit. The document and a decision of a patch log take besides up to what the log
 *            holds, whatever the limit. Without a limit, for n bytes that are read, the places of a conflict and the edits of a
 *            rewriting may have n * n / 15 bytes. If malloc or realloc fails, the status is MERGEJOIN_NO_MEMORY or
 *            MERGEJOIN_PENDING, or a conflict on a handle has no text. A handle holds mostly 1 to 50 bytes for each byte of its
 *            start and of its patches, and up to 350 for many small objects, of which it has each twice: a replica in the join
 *            and in the document, a patch log by itself, and in the join if it conflicts with no other. A patch log holds
 *            besides at most 80 bytes for each two patches that conflict, and, once its document was asked for, that document.
 *   needs    256 KiB of stack: the deepest documents take up to 176 KiB of them.
 *
 * To call again is safe. Of the six, and of a call that reads a handle, the same arguments give the same reply and the same
 * text, unless memory runs out. If a replica has refused a patch, nothing was changed, and it refuses the patch again. If patches
 * conflict, an add of a patch that was taken takes it again, and repeats do not count; a combine takes nothing more of the other. A
 * patch log stores one patch under an identity, and a message that comes again is a repeat. A decision that was refused has changed
 * nothing; one that has begun a new start is not made again.
 *
 * A pointer may be null if its length, count or capacity is 0, as those of an empty std::string_view or std::vector are. No other
 * may: not the bytes of a mergejoin_text, for which mergejoin_text_of is there, and not a handle. No length is more than
 * PTRDIFF_MAX. The functions that the libraries export may be given no null at all, since proved code takes references: inline
 * functions of the same names, below, replace it. Another language calls the exports, and so may give none.
 *
 * No function may be called from a signal handler, nor in the child of a process that had threads when it forked, before it calls
 * exec. A call can't be cancelled.
 *
 * Threads: there is no global state and no callback, and any number of threads may call at once. A handle serves one call at a
 * time. That holds of the calls that read it too, since they may settle what is pending. A handle may go from thread to thread if
 * the caller orders its calls: by a lock, or by the start or the end of a thread. One lock for each handle is enough:
 *
 *   static mergejoin_replica replica;
 *   static pthread_mutex_t lock = PTHREAD_MUTEX_INITIALIZER;
 *
 *   uint32_t receive(const uint8_t *patch, size_t length) {
 *     pthread_mutex_lock(&lock);
 *     mergejoin_reply reply = mergejoin_replica_receive(&replica, patch, length, NULL, 0, SIZE_MAX);
 *     pthread_mutex_unlock(&lock);
 *     return reply.status;
 *   }
 *
 * It is proved that the status, the numbers, the length, the buffer and what a handle holds are as this page says, also if memory
 * ran out. The inline functions are tested. That callers do what this page asks is not proved.
 */
#ifndef MERGEJOIN_H
#define MERGEJOIN_H

#include <stddef.h>
#include <stdint.h>
#include <stdlib.h>
#include <string.h>

/** The version of this header. That of the library that is linked is what mergejoin_version() returns. */
#define MERGEJOIN_VERSION_MAJOR 0
#define MERGEJOIN_VERSION_MINOR 4
#define MERGEJOIN_VERSION_PATCH 0
#define MERGEJOIN_VERSION (MERGEJOIN_VERSION_MAJOR * 1000000 + MERGEJOIN_VERSION_MINOR * 1000 + MERGEJOIN_VERSION_PATCH)
#define MERGEJOIN_VERSION_STRING "0.4.0"

#ifdef __cplusplus
extern "C" {
#endif

/** What the text in the buffer is: the result; or a line that says why there is none, without a newline, and right after it the places
 * that the line is about. These are the last `places` bytes of the text, a compact JSON array of JSON Pointers, which
 * mergejoin_next_place takes apart; or there is no array, and `places` is 0. In the line too a place is a JSON string. So control
 * characters are escaped, and it may go to a terminal or a log. Each language gives the same line. If several errors hold, a call
 * reports the first in the order in which its own comment lists them. */
enum mergejoin_status {
  /** The result. It is empty if a call has none but to have succeeded. */
  MERGEJOIN_RESULT = 0,
  /** Two patches conflict, as `conflict: patches 0 and 2 at "/a", "/b"` says. The array has these places, in order; `total` is how
   * many there are in all. It has all of them if they weigh at most the limit together and it has at most so many bytes; else as
   * many as do. Then the line ends with `and 3 more`, or, if none do, with `at 5 places`. So the text has at most twice the limit,
   * and some hundred bytes. On a handle there is no text if memory ran out for it. A mergejoin_patches holds the first places of
   * its conflict that weigh at most 65,536 together, or those of a kept form. Then the limit bounds the bytes of the array alone,
   * `total` is how many places are held, and MERGEJOIN_MORE says if there are more, as does `and more` at the end of the line. A
   * place weighs 128, 8 for each token, and the bytes of its spelling. Of join and replay these are the places of the patches
   * `first` < `second`. Of a decision they are those of the patches with the identities `first` and `second` of those that are
   * chosen; of each other call of a handle the numbers are 0, and the line begins with `conflict: two patches`. */
  MERGEJOIN_CONFLICT = 1,
  /** `no patches`: there are none to join. */
  MERGEJOIN_NO_PATCHES = 2,
  /** `operation 4: test failed`: the operation of number `first` is refused. The causes are `into itself`, `remove of root`,
   * `missing`, `no place`, `too deep` and `test failed`. Of a decision `no number is left for a start`. */
  MERGEJOIN_REFUSED = 3,
  /** `missing`: the document has no part there; of a decision, under the identity of number `first` no patch is stored. */
  MERGEJOIN_MISSING = 4,
  /** The document, or the start, is not one, as `document: number not whole at "/price"` says. The causes are `not JSON`, without a
   * place; `number not whole` (a document has whole numbers from -2^63 to 2^64 - 1) at the first such number; and `too deep` (a
   * document has at most 126 levels) at the first array or object that is. `total` is 1 with a place. Of a kept form there is no
   * place, and the line may be `not kept patches`. */
  MERGEJOIN_DOCUMENT = 5,
  /** The patch of number `first` is not a document, for the same causes, as `patch 2: number not whole at "/price"` says. The
   * number of a single patch is 0. */
  MERGEJOIN_PATCH = 6,
  /** The document is not a JSON Patch: `not an array`; or, as `operation 4: no path`, of the operation of number `first`:
   * `not an object`, `no op`, `unknown op`, `no path`, `no from`, `bad pointer` or `no value`. */
  MERGEJOIN_FORM = 7,
  /** The text is not a pointer: `pointer: no slash`, `pointer: bad tilde at 3` or `pointer: not UTF-8 at 3`, at the offset `first`
   * in bytes. */
  MERGEJOIN_POINTER = 8,
  /** Memory ran out: no text, the buffer is unchanged, and a handle has received or taken nothing more. Any call may return
   * this. */
  MERGEJOIN_NO_MEMORY = 9,
  /** `pending`: the handle has received or taken the patch, and memory ran out before it could be shown. The patch is not lost, and
   * need not be given again: each later call that reads the handle, or gives it a patch, goes on with it first. */
  MERGEJOIN_PENDING = 10,
  /** `too large`: the result, or something on the way to it, is larger than the limit. Of a JSON Patch `first` is the number of the
   * operation whose result weighs more, or by which the work is more than 16 times the limit: the weight of each value that a copy
   * copies, and 1 for each element of an array that shifts. Of a rewriting it is how many of its operations fit; and it is 0 if
   * the text of the result is longer. A weight is about what a document takes in memory, in bytes: 40 for null, true, false or a
   * number; 80 and its bytes for a string; 80 and its elements for an array; 1,000 for an object, and for each name 128, its bytes
   * and its value. An operation weighs its places and its value. */
  MERGEJOIN_TOO_LARGE = 11,
  /** `not started`: the replica or the patch log is {0}. A call looks for this first. */
  MERGEJOIN_NOT_STARTED = 12
};

/** A text that a call borrows: `length` bytes at `bytes`, which is not null, even if the length is 0. */
typedef struct mergejoin_text {
  const uint8_t *bytes;
  size_t length;
} mergejoin_text;

/** What a call returns in addition to the text in the buffer. Patches and operations are numbered from 0. A number that has
 * no meaning for a status is 0. */
typedef struct mergejoin_reply {
  size_t length; /**< of the whole text in bytes, even if the buffer has only its beginning */
  size_t first;
  size_t second;
  size_t total; /**< how many places there are in all */
  size_t places; /**< how many bytes at the end of the text are the array of places, or 0 */
  uint32_t status; /**< an enum mergejoin_status */
  uint32_t flags; /**< MERGEJOIN_MORE or 0 */
} mergejoin_reply;

/** In `flags`: there are more places than `total`, or more pairs or places than mergejoin_patch_log_conflicts or
 * mergejoin_patch_log_conflicts_of has in its text. */
#define MERGEJOIN_MORE 1u

/* Handles. Each is {0} (in C++ {}) before its first use, is never copied, and is freed once it is not needed. To free it again, or to
 * free {0}, is harmless: after that it is {0}. */
typedef struct mergejoin_replica {
  void *held;
} mergejoin_replica;

typedef struct mergejoin_patches {
  void *held;
} mergejoin_patches;

typedef struct mergejoin_patch_log {
  void *held;
} mergejoin_patch_log;

/** Who made a patch, and the sender's number for it. Identities are ordered by the sender, and then by the number. A sender counts its
 * patches through all starts, and never uses a number twice. Many readers of JSON change a number of 2^53 or more. */
typedef struct mergejoin_identity {
  uint64_t sender;
  uint64_t number;
} mergejoin_identity;

/** A buffer that grows until the text of a call fits, for mergejoin_grow: {0}, or with `likely` and `resized`. */
typedef struct mergejoin_buffer {
  uint8_t *bytes; /**< null at first; afterwards the caller frees them */
  size_t capacity;
  size_t likely; /**< how many bytes the text is likely to have */
  void *(*resized)(void *bytes, size_t capacity); /**< takes the memory as realloc does; null is realloc */
} mergejoin_buffer;

/*
 * Each call ends with the buffer, its capacity and a limit in bytes: of the text of a result; of the places of a conflict and
 * of the pairs of a patch log, also by their weight; and of mergejoin_patch and mergejoin_rewrite also of what they make on the
 * way, by its weight. SIZE_MAX is no limit. Another line of an error is not limited: it has some bytes, and a place. On a handle
 * the limit bounds the reply alone: a handle takes what its patches take.
 *
 * Below, each call lists its statuses in the order in which it looks for them.
 */

/**
 * The join of merge patches: one patch with the effect of all, in any order and with any repeats. It may be given in the
 * place of the patches, to this function again too.
 *
 * MERGEJOIN_PATCH, MERGEJOIN_NO_PATCHES, MERGEJOIN_CONFLICT, MERGEJOIN_NO_MEMORY, MERGEJOIN_TOO_LARGE.
 */
static inline
mergejoin_reply mergejoin_join(const mergejoin_text *patches, size_t count, uint8_t *out, size_t capacity, size_t limit);

/**
 * The document that merge patches, no two of which conflict, make of the start, in any order and with any repeats. Of no
 * patches it is the start. Two calls with texts of the same documents on one start have the same bytes.
 *
 * MERGEJOIN_DOCUMENT, MERGEJOIN_PATCH, MERGEJOIN_CONFLICT, MERGEJOIN_NO_MEMORY, MERGEJOIN_TOO_LARGE.
 */
static inline
mergejoin_reply mergejoin_replay(const uint8_t *start, size_t start_length, const mergejoin_text *patches, size_t count,
                                 uint8_t *out, size_t capacity, size_t limit);

/**
 * The document after the merge patches, each applied to what the earlier ones left: if two conflict, their order decides.
 *
 * MERGEJOIN_DOCUMENT, MERGEJOIN_PATCH, MERGEJOIN_NO_MEMORY, MERGEJOIN_TOO_LARGE.
 */
static inline
mergejoin_reply mergejoin_merge(const uint8_t *document, size_t document_length, const mergejoin_text *patches, size_t count,
                                uint8_t *out, size_t capacity, size_t limit);

/**
 * The merge patch as a JSON Patch for the document: tests of what it changes and the document has, and then the edits.
 *
 * MERGEJOIN_DOCUMENT, MERGEJOIN_PATCH, MERGEJOIN_NO_MEMORY, MERGEJOIN_TOO_LARGE.
 */
static inline
mergejoin_reply mergejoin_rewrite(const uint8_t *document, size_t document_length, const uint8_t *patch, size_t patch_length,
                                  uint8_t *out, size_t capacity, size_t limit);

/**
 * The document after the JSON Patch.
 *
 * MERGEJOIN_DOCUMENT, MERGEJOIN_PATCH, MERGEJOIN_FORM, MERGEJOIN_REFUSED, MERGEJOIN_NO_MEMORY, MERGEJOIN_TOO_LARGE.
 */
static inline
mergejoin_reply mergejoin_patch(const uint8_t *document, size_t document_length, const uint8_t *json_patch,
                                size_t json_patch_length, uint8_t *out, size_t capacity, size_t limit);

/**
 * The part of the document that the JSON Pointer names.
 *
 * MERGEJOIN_DOCUMENT, MERGEJOIN_POINTER, MERGEJOIN_MISSING, MERGEJOIN_NO_MEMORY, MERGEJOIN_TOO_LARGE.
 */
static inline
mergejoin_reply mergejoin_get(const uint8_t *document, size_t document_length, const uint8_t *pointer, size_t pointer_length,
                              uint8_t *out, size_t capacity, size_t limit);

/**
 * Makes the replica of a start, with nothing received. A replica that is there already is made anew, and what it had is freed.
 * After another status than MERGEJOIN_RESULT it is as it was.
 *
 * MERGEJOIN_DOCUMENT, MERGEJOIN_NO_MEMORY.
 */
static inline
mergejoin_reply mergejoin_replica_start(mergejoin_replica *replica, const uint8_t *start, size_t length, uint8_t *out,
                                        size_t capacity, size_t limit);

/**
 * Receives a merge patch: afterwards the document shows it. If it conflicts with what was received, the text has the places at
 * which it does, and the replica is as it was; if memory ran out for the places, it is a conflict still, with MERGEJOIN_MORE and a
 * `total` of 0. A patch that was received before changes nothing.
 *
 * MERGEJOIN_NOT_STARTED, MERGEJOIN_PATCH, MERGEJOIN_CONFLICT, MERGEJOIN_NO_MEMORY (not received), MERGEJOIN_PENDING (received).
 */
static inline
mergejoin_reply mergejoin_replica_receive(mergejoin_replica *replica, const uint8_t *patch, size_t length, uint8_t *out,
                                          size_t capacity, size_t limit);

/**
 * The document: what mergejoin_replay returns of the start and of all that was received, in any order.
 *
 * MERGEJOIN_NOT_STARTED, MERGEJOIN_PENDING, MERGEJOIN_NO_MEMORY, MERGEJOIN_TOO_LARGE.
 */
static inline
mergejoin_reply mergejoin_replica_document(mergejoin_replica *replica, uint8_t *out, size_t capacity, size_t limit);

/**
 * The join of all that was received.
 *
 * MERGEJOIN_NOT_STARTED, MERGEJOIN_PENDING, MERGEJOIN_NO_PATCHES, MERGEJOIN_NO_MEMORY, MERGEJOIN_TOO_LARGE.
 */
static inline
mergejoin_reply mergejoin_replica_joined(mergejoin_replica *replica, uint8_t *out, size_t capacity, size_t limit);

/**
 * The part of the document that the JSON Pointer names.
 *
 * MERGEJOIN_NOT_STARTED, MERGEJOIN_POINTER, MERGEJOIN_PENDING, MERGEJOIN_MISSING, MERGEJOIN_NO_MEMORY, MERGEJOIN_TOO_LARGE.
 */
static inline
mergejoin_reply mergejoin_replica_get(mergejoin_replica *replica, const uint8_t *pointer, size_t length, uint8_t *out,
                                      size_t capacity, size_t limit);

/** Frees what the replica has, which is {0} then. */
void mergejoin_replica_free(mergejoin_replica *replica);

/**
 * Takes a merge patch. {0} has taken none. If two of those taken conflict, now or since an earlier call, the text has the first places
 * of the conflict that was seen first; the patch is taken too.
 *
 * MERGEJOIN_PATCH, MERGEJOIN_NO_MEMORY (not taken), MERGEJOIN_CONFLICT (taken), MERGEJOIN_PENDING (taken).
 */
static inline
mergejoin_reply mergejoin_patches_add(mergejoin_patches *patches, const uint8_t *patch, size_t length, uint8_t *out,
                                      size_t capacity, size_t limit);

/**
 * Takes what the other has taken, which has taken nothing then. The other is another handle. The join that weighs less is added to
 * the other one, whichever of the handles has it: it costs what that join costs.
 *
 * MERGEJOIN_NO_MEMORY (neither has changed), MERGEJOIN_CONFLICT (taken), MERGEJOIN_PENDING (taken).
 */
static inline
mergejoin_reply mergejoin_patches_combine(mergejoin_patches *patches, mergejoin_patches *other, uint8_t *out, size_t capacity,
                                          size_t limit);

/**
 * The join of all that was taken.
 *
 * MERGEJOIN_CONFLICT, MERGEJOIN_PENDING, MERGEJOIN_NO_PATCHES, MERGEJOIN_NO_MEMORY, MERGEJOIN_TOO_LARGE.
 */
static inline
mergejoin_reply mergejoin_patches_text(mergejoin_patches *patches, uint8_t *out, size_t capacity, size_t limit);

/**
 * What was taken, as a text that mergejoin_patches_from_kept reads: empty if nothing was taken, else the join, or, if two conflict, the
 * JSON array of the places that are held: behind `!` if these are all, and behind `!+` if there are more.
 *
 * MERGEJOIN_PENDING, MERGEJOIN_NO_MEMORY, MERGEJOIN_TOO_LARGE.
 */
static inline
mergejoin_reply mergejoin_patches_kept(mergejoin_patches *patches, uint8_t *out, size_t capacity, size_t limit);

/**
 * Makes the patches of such a text. Patches that are there already are made anew, and what they had is freed. After
 * MERGEJOIN_DOCUMENT and MERGEJOIN_NO_MEMORY they are as they were. MERGEJOIN_CONFLICT has the places that the text has.
 *
 * MERGEJOIN_DOCUMENT, MERGEJOIN_CONFLICT, MERGEJOIN_NO_MEMORY.
 */
static inline
mergejoin_reply mergejoin_patches_from_kept(mergejoin_patches *patches, const uint8_t *kept, size_t length, uint8_t *out,
                                            size_t capacity, size_t limit);

/** Frees what the patches have, which are {0} then. */
void mergejoin_patches_free(mergejoin_patches *patches);

/**
 * Makes the patch log of a start with its number, the epoch: nothing has arrived for it. A log that is there already is made anew, and
 * what it had is freed. After another status than MERGEJOIN_RESULT it is as it was.
 *
 * MERGEJOIN_DOCUMENT, MERGEJOIN_NO_MEMORY.
 */
static inline
mergejoin_reply mergejoin_patch_log_start(mergejoin_patch_log *log, uint64_t epoch, const uint8_t *start, size_t length,
                                          uint8_t *out, size_t capacity, size_t limit);

/**
 * Receives a message: a merge patch, its identity, and the number of the start that it was made for. The text is what became of it:
 * "stored", whether it conflicts with others or not; "repeat" if a patch with its identity is stored already; "late" if it is of an
 * earlier start, and is dropped; "early" if it is of a later one, so that the caller keeps it until that is begun. The patch is read
 * first, whatever the message is of. If the limit is less than these words, MERGEJOIN_TOO_LARGE says nothing of the message.
 * After another status the log is as it was.
 *
 * MERGEJOIN_NOT_STARTED, MERGEJOIN_PATCH, MERGEJOIN_NO_MEMORY, MERGEJOIN_TOO_LARGE.
 */
static inline
mergejoin_reply mergejoin_patch_log_receive(mergejoin_patch_log *log, uint64_t epoch, uint64_t sender, uint64_t number,
                                            const uint8_t *patch, size_t length, uint8_t *out, size_t capacity, size_t limit);

/**
 * The document: what mergejoin_replay returns of the start and of the patches that conflict with no other.
 *
 * MERGEJOIN_NOT_STARTED, MERGEJOIN_NO_MEMORY, MERGEJOIN_TOO_LARGE.
 */
static inline
mergejoin_reply mergejoin_patch_log_document(mergejoin_patch_log *log, uint8_t *out, size_t capacity, size_t limit);

/**
 * Each two patches that conflict, as a JSON array in the order of their identities, the lower one first:
 * [{"first":[1,1],"second":[2,1],"places":["/a"]}] of number 1 of sender 1 and number 1 of sender 2. Within the limit these are the
 * pairs that come first, as many as weigh at most the limit together and make a text of at most so many bytes; a pair weighs 64 and
 * its places, and the last one may have the first of its places alone. MERGEJOIN_MORE says if a pair or a place is left out.
 *
 * MERGEJOIN_NOT_STARTED, MERGEJOIN_NO_MEMORY, MERGEJOIN_TOO_LARGE.
 */
static inline
mergejoin_reply mergejoin_patch_log_conflicts(mergejoin_patch_log *log, uint8_t *out, size_t capacity, size_t limit);

/**
 * The same of the pairs with one identity: with which others its patch conflicts. It is [] if no patch is stored under it.
 *
 * MERGEJOIN_NOT_STARTED, MERGEJOIN_NO_MEMORY, MERGEJOIN_TOO_LARGE.
 */
static inline
mergejoin_reply mergejoin_patch_log_conflicts_of(mergejoin_patch_log *log, uint64_t sender, uint64_t number, uint8_t *out,
                                                 size_t capacity, size_t limit);

/**
 * How many patches the log stores, as the text of a whole number. A caller that bounds this bounds what the log takes.
 *
 * MERGEJOIN_NOT_STARTED, MERGEJOIN_NO_MEMORY, MERGEJOIN_TOO_LARGE.
 */
static inline
mergejoin_reply mergejoin_patch_log_count(mergejoin_patch_log *log, uint8_t *out, size_t capacity, size_t limit);

/**
 * Ends the start by the patches with the chosen identities, of which no two conflict: what they make of it is the new start, whose
 * number is the next. All patches are forgotten, and nothing has arrived for the new start. Neither the order of the identities
 * counts, nor do repeats. Each log makes one decision of one start once: it is for the start of one number, which its caller compares.
 * After another status the log is as it was. The identities are numbered from 0, and one that stands twice has the lesser number. A
 * conflict is that of the first two of the chosen patches that conflict, in the order of mergejoin_patch_log_conflicts.
 *
 * MERGEJOIN_NOT_STARTED, MERGEJOIN_REFUSED, MERGEJOIN_MISSING, MERGEJOIN_CONFLICT, MERGEJOIN_NO_MEMORY.
 */
static inline
mergejoin_reply mergejoin_patch_log_decide(mergejoin_patch_log *log, const mergejoin_identity *chosen, size_t count, uint8_t *out,
                                           size_t capacity, size_t limit);

/** Frees what the patch log has, which is {0} then. */
void mergejoin_patch_log_free(mergejoin_patch_log *log);

/** The version of the library: MERGEJOIN_VERSION of the header that it was made with. */
uint32_t mergejoin_version(void);

/*
 * What follows is inline. Names that end in `_` are the header's own.
 */

#ifdef __cplusplus
#define MERGEJOIN_AS_(type, pointer) static_cast<type>(pointer)
#define MERGEJOIN_NULL_ nullptr
#else
#define MERGEJOIN_AS_(type, pointer) ((type)(pointer))
#define MERGEJOIN_NULL_ NULL
#endif

/** A text whose bytes are not null. */
static inline mergejoin_text mergejoin_text_of(const void *bytes, size_t length) {
  static const uint8_t nothing[1] = {0};
  mergejoin_text text;
  text.bytes = length ? MERGEJOIN_AS_(const uint8_t *, bytes) : nothing;
  text.length = length;
  return text;
}

/* How many bytes spell the next one of a JSON string, which is `*byte` then; or 0 at its end, or at what the library writes in none. */
static inline size_t mergejoin_spelling_(const char *next, size_t left, char *byte) {
  static const char digits[] = "0123456789abcdef", escapes[] = "\"\\bfnrt", escaped[] = "\"\\\b\f\n\r\t";
  const char *escape = escapes, *high = digits, *low = digits;
  if (!left || *next == '"' || MERGEJOIN_AS_(unsigned char, *next) < ' ') return 0;
  *byte = *next;
  if (*next != '\\') return 1;
  if (left < 2) return 0;
  while (*escape && *escape != next[1]) escape += 1;
  *byte = escaped[escape - escapes];
  if (*escape) return 2;
  if (left < 6 || memcmp(next, "\\u00", 4) != 0) return 0;
  while (*high && *high != next[4]) high += 1;
  while (*low && *low != next[5]) low += 1;
  *byte = MERGEJOIN_AS_(char, 16 * (high - digits) + (low - digits));
  return *high && *low ? 6 : 0;
}

/**
 * Gives the next place of the array at the end of a whole text, and how many bytes it has, or SIZE_MAX if there is no further one.
 * Its first min(length, capacity) bytes are written to `place`, without the quotes and the escapes of JSON, and no terminating 0.
 * `*at` is 0 before the first call; each call sets it to where the place ends in the text, behind its quote. A text that is no such
 * array, or only the beginning of one, has no place from there on.
 *
 *   size_t at = 0, length;
 *   while ((length = mergejoin_next_place(text, &reply, &at, place, sizeof place)) != SIZE_MAX)
 *     use(place, length < sizeof place ? length : sizeof place);
 */
static inline size_t mergejoin_next_place(const char *text, const mergejoin_reply *reply, size_t *at, char *place, size_t capacity) {
  const size_t end = reply->length, begin = *at ? *at : end - reply->places;
  size_t here = begin + 2, length = 0, spelling;
  char byte;
  if (reply->places > end || begin > end || end - begin < 2) return SIZE_MAX;
  if (text[begin] != (*at ? ',' : '[') || text[begin + 1] != '"') return SIZE_MAX;
  for (; (spelling = mergejoin_spelling_(text + here, end - here, &byte)) > 0; here += spelling, length += 1)
    if (length < capacity) place[length] = byte;
  if (here == end || text[here] != '"') return SIZE_MAX;
  *at = here + 1;
  return length;
}

/* Gives a buffer another capacity. If there is no memory for it, the buffer is as it was. */
static inline int mergejoin_resize_(mergejoin_buffer *buffer, size_t capacity) {
  void *bytes = (buffer->resized ? buffer->resized : realloc)(buffer->bytes, capacity);
  if (!bytes) return 0;
  buffer->bytes = MERGEJOIN_AS_(uint8_t *, bytes);
  buffer->capacity = capacity;
  return 1;
}

/* Memory ran out: there is nothing more to say. */
static inline void mergejoin_no_memory_(mergejoin_reply *reply) {
  memset(reply, 0, sizeof *reply);
  reply->status = MERGEJOIN_NO_MEMORY;
}

/**
 * Makes a buffer longer, and returns whether a call is to be made with it: for the first time, or again, since its text did not fit:
 *
 *   mergejoin_buffer buffer = {0};
 *   while (mergejoin_grow(&buffer, &reply))
 *     reply = mergejoin_join(patches, count, buffer.bytes, buffer.capacity, limit);
 *
 * Then the buffer has the whole text and a terminating 0, and what is not needed is given back. If there was no memory for the buffer,
 * the status is MERGEJOIN_NO_MEMORY; or of a conflict MERGEJOIN_CONFLICT still, with no text. The caller frees the buffer's bytes, also
 * after MERGEJOIN_NO_MEMORY. A call that takes patches is not to be made again if they conflict: mergejoin_patches_text has the same text.
 */
static inline int mergejoin_grow(mergejoin_buffer *buffer, mergejoin_reply *reply) {
  if (!buffer->bytes) {
    mergejoin_no_memory_(reply);
    return mergejoin_resize_(buffer, buffer->likely + 64) || mergejoin_resize_(buffer, 64);
  }
  if (reply->length >= buffer->capacity) {
    if (mergejoin_resize_(buffer, reply->length + 1)) return 1;
    if (reply->status != MERGEJOIN_CONFLICT) mergejoin_no_memory_(reply);
    reply->length = reply->places = 0;
  }
  buffer->bytes[reply->length] = 0;
  if (buffer->capacity - reply->length > reply->length / 8 + 512) mergejoin_resize_(buffer, reply->length + 1);
  return 0;
}

/* A buffer for a text that is likely to have up to `length` bytes. */
static inline mergejoin_buffer mergejoin_likely_(size_t length, size_t limit) {
  mergejoin_buffer buffer = {MERGEJOIN_NULL_, 0, length < limit ? length : limit, MERGEJOIN_NULL_};
  return buffer;
}

/* The text of a buffer, or nothing if memory ran out. */
static inline char *mergejoin_made_(const mergejoin_buffer *buffer, const mergejoin_reply *reply) {
  if (reply->status != MERGEJOIN_NO_MEMORY) return MERGEJOIN_AS_(char *, MERGEJOIN_AS_(void *, buffer->bytes));
  free(buffer->bytes);
  return MERGEJOIN_NULL_;
}

static inline size_t mergejoin_lengths_(size_t length, const mergejoin_text *patches, size_t count) {
  for (size_t number = 0; number < count; number += 1) length += patches[number].length;
  return length;
}

/*
 * The same calls with a buffer of their own: each has the name of its call and `_new`, and a reply in the place of the buffer. It
 * returns the text with a terminating 0 after its reply->length bytes; the caller passes it to free. If memory runs out, it
 * returns NULL, and the status is MERGEJOIN_NO_MEMORY; if it runs out for the text of a conflict alone, the text is empty.
 *
 * The first buffer is as long as the text will be in most cases, or short if there is no memory for that. What is not needed is
 * given back. If the text is longer, a longer buffer is made, and the call is made again. So a text that is much longer than what
 * is read costs twice: the places of a conflict, a JSON Patch with copies, or a rewriting that is longer than the document and
 * sixteen times the patch. A text of a handle that is longer than 64 KB is written twice. A patch is never taken twice.
 */

/*
 * Each call, and the same with a buffer of its own, is a line of the table below: its name; whether it takes patches; how long its text
 * is likely to be; its parameters before the buffer; and what is passed of them. A call is inline, and calls the export of its name by
 * another name. In the place of null it passes the address of its last parameter, of which no byte is read or written. If the
 * compiler emits the inline function, it gives it that other name, so that the two are never confused. If patches that were
 * taken conflict, and the text was cut, it is that of what has them.
 */
#pragma GCC diagnostic push
#pragma GCC diagnostic ignored "-Wredundant-decls" /* the name that the compiler gives it needs a declaration */
#define MERGEJOIN_CALL_(name, or_taken, likely, given, passed)                                                              \
  extern __typeof__(name) name##_ __asm__(#name);                                                                           \
  static inline mergejoin_reply name(MERGEJOIN_LIST_ given, uint8_t *out, size_t capacity, size_t limit) __asm__(#name "_"); \
  static inline mergejoin_reply name(MERGEJOIN_LIST_ given, uint8_t *out, size_t capacity, size_t limit) {                  \
    return name##_(MERGEJOIN_LIST_ passed, MERGEJOIN_GIVEN_(uint8_t *, out, capacity), limit);                              \
  }                                                                                                                         \
  static inline char *name##_new(MERGEJOIN_LIST_ given, size_t limit, mergejoin_reply *reply) {                             \
    mergejoin_buffer buffer = mergejoin_likely_(likely, limit);                                                             \
    while (mergejoin_grow(&buffer, reply))                                                                                  \
      *reply = or_taken name##_(MERGEJOIN_LIST_ passed, buffer.bytes, buffer.capacity, limit);                              \
    return mergejoin_made_(&buffer, reply);                                                                                 \
  }
#define MERGEJOIN_TAKEN_ reply->status == MERGEJOIN_CONFLICT ? mergejoin_patches_text_(it, buffer.bytes, buffer.capacity, limit) :
#define MERGEJOIN_LIST_(...) __VA_ARGS__
#define MERGEJOIN_GIVEN_(type, pointer, length) ((length) ? (pointer) : MERGEJOIN_AS_(type, MERGEJOIN_AS_(void *, &limit))), (length)
#define MERGEJOIN_TEXT_(bytes, length) MERGEJOIN_GIVEN_(const uint8_t *, bytes, length)
#define MERGEJOIN_TEXTS_(patches, count) MERGEJOIN_GIVEN_(const mergejoin_text *, patches, count)
/* Of a document and patches, of two texts, of a handle and a text, and of a handle. */
#define MERGEJOIN_ON_PATCHES_(name)                                                                     \
  MERGEJOIN_CALL_(name, , mergejoin_lengths_(length, patches, count),                                   \
                  (const uint8_t *bytes, size_t length, const mergejoin_text *patches, size_t count),   \
                  (MERGEJOIN_TEXT_(bytes, length), MERGEJOIN_TEXTS_(patches, count)))
#define MERGEJOIN_ON_TEXTS_(name, likely)                                                                   \
  MERGEJOIN_CALL_(name, , likely, (const uint8_t *bytes, size_t length, const uint8_t *other, size_t more), \
                  (MERGEJOIN_TEXT_(bytes, length), MERGEJOIN_TEXT_(other, more)))
#define MERGEJOIN_OF_TEXT_(name, or_taken, handle, likely) \
  MERGEJOIN_CALL_(name, or_taken, likely, (handle *it, const uint8_t *bytes, size_t length), (it, MERGEJOIN_TEXT_(bytes, length)))
#define MERGEJOIN_OF_NONE_(name, handle, likely) MERGEJOIN_CALL_(name, , likely, (handle *it), (it))

/* How long texts are likely to be: one that is most often empty or a line, a part, and a document that a handle has. A line and an array
 * have the places of a patch twice. */
enum { MERGEJOIN_LINE_ = 256, MERGEJOIN_PART_ = 4096, MERGEJOIN_DOCUMENT_ = 65536 };

MERGEJOIN_CALL_(mergejoin_join, , mergejoin_lengths_(0, patches, count), (const mergejoin_text *patches, size_t count),
                (MERGEJOIN_TEXTS_(patches, count)))
MERGEJOIN_ON_PATCHES_(mergejoin_replay)
MERGEJOIN_ON_PATCHES_(mergejoin_merge)
MERGEJOIN_ON_TEXTS_(mergejoin_rewrite, length + 16 * more)
MERGEJOIN_ON_TEXTS_(mergejoin_patch, length + more)
MERGEJOIN_ON_TEXTS_(mergejoin_get, length)
MERGEJOIN_OF_TEXT_(mergejoin_replica_start, , mergejoin_replica, MERGEJOIN_LINE_)
MERGEJOIN_OF_TEXT_(mergejoin_replica_receive, , mergejoin_replica, 2 * length + MERGEJOIN_LINE_)
MERGEJOIN_OF_NONE_(mergejoin_replica_document, mergejoin_replica, MERGEJOIN_DOCUMENT_)
MERGEJOIN_OF_NONE_(mergejoin_replica_joined, mergejoin_replica, MERGEJOIN_DOCUMENT_)
MERGEJOIN_OF_TEXT_(mergejoin_replica_get, , mergejoin_replica, MERGEJOIN_PART_)
MERGEJOIN_OF_NONE_(mergejoin_patches_text, mergejoin_patches, MERGEJOIN_DOCUMENT_)
MERGEJOIN_OF_NONE_(mergejoin_patches_kept, mergejoin_patches, MERGEJOIN_DOCUMENT_)
MERGEJOIN_OF_TEXT_(mergejoin_patches_add, MERGEJOIN_TAKEN_, mergejoin_patches, 2 * length + MERGEJOIN_LINE_)
MERGEJOIN_CALL_(mergejoin_patches_combine, MERGEJOIN_TAKEN_, MERGEJOIN_LINE_, (mergejoin_patches *it, mergejoin_patches *other), (it, other))
MERGEJOIN_OF_TEXT_(mergejoin_patches_from_kept, MERGEJOIN_TAKEN_, mergejoin_patches, MERGEJOIN_LINE_)
MERGEJOIN_CALL_(mergejoin_patch_log_start, , MERGEJOIN_LINE_, (mergejoin_patch_log *it, uint64_t epoch, const uint8_t *start, size_t length),
                (it, epoch, MERGEJOIN_TEXT_(start, length)))
MERGEJOIN_CALL_(mergejoin_patch_log_receive, , MERGEJOIN_LINE_,
                (mergejoin_patch_log *it, uint64_t epoch, uint64_t sender, uint64_t number, const uint8_t *patch, size_t length),
                (it, epoch, sender, number, MERGEJOIN_TEXT_(patch, length)))
MERGEJOIN_OF_NONE_(mergejoin_patch_log_document, mergejoin_patch_log, MERGEJOIN_DOCUMENT_)
MERGEJOIN_OF_NONE_(mergejoin_patch_log_conflicts, mergejoin_patch_log, MERGEJOIN_PART_)
MERGEJOIN_CALL_(mergejoin_patch_log_conflicts_of, , MERGEJOIN_PART_, (mergejoin_patch_log *it, uint64_t sender, uint64_t number),
                (it, sender, number))
MERGEJOIN_OF_NONE_(mergejoin_patch_log_count, mergejoin_patch_log, MERGEJOIN_LINE_)
MERGEJOIN_CALL_(mergejoin_patch_log_decide, , MERGEJOIN_LINE_, (mergejoin_patch_log *it, const mergejoin_identity *chosen, size_t count),
                (it, MERGEJOIN_GIVEN_(const mergejoin_identity *, chosen, count)))

#pragma GCC diagnostic pop
#undef MERGEJOIN_OF_NONE_
#undef MERGEJOIN_OF_TEXT_
#undef MERGEJOIN_ON_TEXTS_
#undef MERGEJOIN_ON_PATCHES_
#undef MERGEJOIN_TEXTS_
#undef MERGEJOIN_TEXT_
#undef MERGEJOIN_GIVEN_
#undef MERGEJOIN_LIST_
#undef MERGEJOIN_TAKEN_
#undef MERGEJOIN_CALL_
#undef MERGEJOIN_NULL_
#undef MERGEJOIN_AS_

#ifdef __cplusplus
}
#endif

#endif
