// The header alone, as C99, C11, C17 and C++17, each with all warnings: what the sizes and offsets of its types are, that its
// numbers are those of the statuses, and that each function and each helper can be called, also with null of no length, as C++ has
// it of an empty std::string_view and std::vector.
#include "mergejoin.h"

#if defined __cplusplus
#include <string_view>
#include <type_traits>
#include <vector>
namespace {
struct nothing {
  operator const void *() const { return std::string_view{}.data(); }
  template <typename of> operator of *() const {
    std::vector<std::remove_const_t<of>> none;
    of *at = none.data();
    return at;
  }
};
} // namespace
#define HOLDS(fact) static_assert(fact, #fact)
#define NOTHING nothing{}
#else
#define NOTHING NULL
#if __STDC_VERSION__ >= 201112L
#define HOLDS(fact) _Static_assert(fact, #fact)
#else
#define NAMED(name, line) name##line
#define OF_LINE(name, line) NAMED(name, line)
#define HOLDS(fact) typedef char OF_LINE(holds_at_, __LINE__)[(fact) ? 1 : -1]
#endif
#endif

extern const mergejoin_reply some_reply;

HOLDS(sizeof(mergejoin_text) == 16);
HOLDS(offsetof(mergejoin_text, bytes) == 0);
HOLDS(offsetof(mergejoin_text, length) == 8);
HOLDS(sizeof(mergejoin_reply) == 48);
HOLDS(offsetof(mergejoin_reply, length) == 0);
HOLDS(offsetof(mergejoin_reply, first) == 8);
HOLDS(offsetof(mergejoin_reply, second) == 16);
HOLDS(offsetof(mergejoin_reply, total) == 24);
HOLDS(offsetof(mergejoin_reply, places) == 32);
HOLDS(offsetof(mergejoin_reply, status) == 40);
HOLDS(offsetof(mergejoin_reply, flags) == 44);
HOLDS(sizeof some_reply.status == 4);
HOLDS(sizeof(mergejoin_replica) == 8);
HOLDS(sizeof(mergejoin_patches) == 8);
HOLDS(sizeof(mergejoin_patch_log) == 8);
HOLDS(sizeof(mergejoin_identity) == 16);
HOLDS(offsetof(mergejoin_identity, sender) == 0);
HOLDS(offsetof(mergejoin_identity, number) == 8);
HOLDS(MERGEJOIN_RESULT == 0);
HOLDS(MERGEJOIN_CONFLICT == 1);
HOLDS(MERGEJOIN_NO_PATCHES == 2);
HOLDS(MERGEJOIN_REFUSED == 3);
HOLDS(MERGEJOIN_MISSING == 4);
HOLDS(MERGEJOIN_DOCUMENT == 5);
HOLDS(MERGEJOIN_PATCH == 6);
HOLDS(MERGEJOIN_FORM == 7);
HOLDS(MERGEJOIN_POINTER == 8);
HOLDS(MERGEJOIN_NO_MEMORY == 9);
HOLDS(MERGEJOIN_PENDING == 10);
HOLDS(MERGEJOIN_TOO_LARGE == 11);
HOLDS(MERGEJOIN_NOT_STARTED == 12);
HOLDS(MERGEJOIN_MORE == 1);

static const uint8_t five[] = {'5'}, none[] = {'[', ']'};
static mergejoin_reply reply; // of the last helper
static unsigned wrong;

// The helper has made a text, which is what is wanted, with a 0 at the end.
static void made(char *text, unsigned status, const char *wanted) {
  wrong += !text || reply.status != status || reply.length != strlen(wanted) || strcmp(text, wanted) != 0;
  free(text);
}

static void ends(mergejoin_reply seen, unsigned status, size_t length) {
  wrong += seen.status != status || seen.length != length || seen.places != (status == MERGEJOIN_CONFLICT ? 4 : 0) || seen.flags != 0;
}

// Each helper of the six, on documents that are 5, and each of the six without a buffer and with null of no length.
static void texts(void) {
  const mergejoin_text text = mergejoin_text_of(five, 1), empty = mergejoin_text_of(NOTHING, 0);
  made(mergejoin_join_new(&text, 1, SIZE_MAX, &reply), MERGEJOIN_RESULT, "5");
  made(mergejoin_replay_new(five, 1, &text, 1, SIZE_MAX, &reply), MERGEJOIN_RESULT, "5");
  made(mergejoin_merge_new(five, 1, &text, 1, SIZE_MAX, &reply), MERGEJOIN_RESULT, "5");
  made(mergejoin_rewrite_new(five, 1, five, 1, SIZE_MAX, &reply), MERGEJOIN_RESULT, "[]");
  made(mergejoin_patch_new(five, 1, none, 2, SIZE_MAX, &reply), MERGEJOIN_RESULT, "5");
  made(mergejoin_get_new(five, 1, NOTHING, 0, SIZE_MAX, &reply), MERGEJOIN_RESULT, "5");
  ends(mergejoin_join(NOTHING, 0, NOTHING, 0, SIZE_MAX), MERGEJOIN_NO_PATCHES, 10);
  ends(mergejoin_join(&empty, 1, NOTHING, 0, SIZE_MAX), MERGEJOIN_PATCH, 17);
  ends(mergejoin_replay(five, 1, NOTHING, 0, NOTHING, 0, SIZE_MAX), MERGEJOIN_RESULT, 1);
  ends(mergejoin_merge(NOTHING, 0, NOTHING, 0, NOTHING, 0, SIZE_MAX), MERGEJOIN_DOCUMENT, 18);
  ends(mergejoin_rewrite(NOTHING, 0, NOTHING, 0, NOTHING, 0, SIZE_MAX), MERGEJOIN_DOCUMENT, 18);
  ends(mergejoin_rewrite(five, 1, NOTHING, 0, NOTHING, 0, SIZE_MAX), MERGEJOIN_PATCH, 17);
  ends(mergejoin_patch(five, 1, NOTHING, 0, NOTHING, 0, SIZE_MAX), MERGEJOIN_PATCH, 17);
  ends(mergejoin_patch(five, 1, none, 2, NOTHING, 0, 0), MERGEJOIN_TOO_LARGE, 9);
  ends(mergejoin_get(five, 1, NOTHING, 0, NOTHING, 0, SIZE_MAX), MERGEJOIN_RESULT, 1);
}

static void replica(void) {
  static mergejoin_replica it;
  ends(mergejoin_replica_receive(&it, NOTHING, 0, NOTHING, 0, SIZE_MAX), MERGEJOIN_NOT_STARTED, 11);
  made(mergejoin_replica_document_new(&it, SIZE_MAX, &reply), MERGEJOIN_NOT_STARTED, "not started");
  made(mergejoin_replica_start_new(&it, five, 1, SIZE_MAX, &reply), MERGEJOIN_RESULT, "");
  ends(mergejoin_replica_start(&it, NOTHING, 0, NOTHING, 0, SIZE_MAX), MERGEJOIN_DOCUMENT, 18);
  ends(mergejoin_replica_joined(&it, NOTHING, 0, SIZE_MAX), MERGEJOIN_NO_PATCHES, 10);
  made(mergejoin_replica_receive_new(&it, five, 1, SIZE_MAX, &reply), MERGEJOIN_RESULT, "");
  ends(mergejoin_replica_receive(&it, NOTHING, 0, NOTHING, 0, SIZE_MAX), MERGEJOIN_PATCH, 17);
  made(mergejoin_replica_document_new(&it, SIZE_MAX, &reply), MERGEJOIN_RESULT, "5");
  made(mergejoin_replica_joined_new(&it, SIZE_MAX, &reply), MERGEJOIN_RESULT, "5");
  made(mergejoin_replica_get_new(&it, NOTHING, 0, SIZE_MAX, &reply), MERGEJOIN_RESULT, "5");
  ends(mergejoin_replica_get(&it, NOTHING, 0, NOTHING, 0, SIZE_MAX), MERGEJOIN_RESULT, 1);
  ends(mergejoin_replica_document(&it, NOTHING, 0, 0), MERGEJOIN_TOO_LARGE, 9);
  mergejoin_replica_free(&it);
  mergejoin_replica_free(&it);
}

static void patches(void) {
  static mergejoin_patches it, other;
  ends(mergejoin_patches_text(&it, NOTHING, 0, SIZE_MAX), MERGEJOIN_NO_PATCHES, 10);
  made(mergejoin_patches_text_new(&it, SIZE_MAX, &reply), MERGEJOIN_NO_PATCHES, "no patches");
  made(mergejoin_patches_add_new(&it, five, 1, SIZE_MAX, &reply), MERGEJOIN_RESULT, "");
  ends(mergejoin_patches_add(&it, NOTHING, 0, NOTHING, 0, SIZE_MAX), MERGEJOIN_PATCH, 17);
  ends(mergejoin_patches_text(&it, NOTHING, 0, SIZE_MAX), MERGEJOIN_RESULT, 1);
  ends(mergejoin_patches_combine(&it, &other, NOTHING, 0, SIZE_MAX), MERGEJOIN_RESULT, 0);
  made(mergejoin_patches_kept_new(&it, SIZE_MAX, &reply), MERGEJOIN_RESULT, "5");
  ends(mergejoin_patches_kept(&it, NOTHING, 0, SIZE_MAX), MERGEJOIN_RESULT, 1);
  made(mergejoin_patches_from_kept_new(&other, none, 2, SIZE_MAX, &reply), MERGEJOIN_RESULT, "");
  made(mergejoin_patches_combine_new(&it, &other, SIZE_MAX, &reply), MERGEJOIN_CONFLICT, "conflict: two patches at \"\"[\"\"]");
  ends(mergejoin_patches_combine(&it, &other, NOTHING, 0, SIZE_MAX), MERGEJOIN_CONFLICT, 31);
  ends(mergejoin_patches_from_kept(&it, NOTHING, 0, NOTHING, 0, SIZE_MAX), MERGEJOIN_RESULT, 0);
  mergejoin_patches_free(&it);
  mergejoin_patches_free(&other);
  mergejoin_patches_free(&other);
}

// A text whose first number that is not whole is at a place of a slash and twice LONG bytes: no first buffer has the line with it, and the array.
enum { LONG = 1000 };
static uint8_t not_whole[LONG + sizeof "{'':1.5}" - 1];

static void refused(char *text, unsigned status) {
  const size_t head = strlen(status == MERGEJOIN_PATCH ? "patch 0: " : "document: "), place = sizeof "/" - 1 + 2 * LONG;
  const size_t array = place + sizeof "['']" - 1, all = head + sizeof "number not whole at ''" - 1 + place + array;
  wrong += !text || reply.status != status || reply.length != all || reply.places != array || reply.total != 1 || strlen(text) != all;
  free(text);
}

static void long_places(void) {
  static mergejoin_replica replica;
  static mergejoin_patches it;
  static mergejoin_patch_log log;
  memset(not_whole, '~', sizeof not_whole);
  memcpy(not_whole, "{\"", 2);
  memcpy(not_whole + 2 + LONG, "\":1.5}", 6);
  refused(mergejoin_replica_start_new(&replica, not_whole, sizeof not_whole, SIZE_MAX, &reply), MERGEJOIN_DOCUMENT);
  made(mergejoin_replica_start_new(&replica, five, 1, SIZE_MAX, &reply), MERGEJOIN_RESULT, "");
  refused(mergejoin_replica_receive_new(&replica, not_whole, sizeof not_whole, SIZE_MAX, &reply), MERGEJOIN_PATCH);
  made(mergejoin_replica_document_new(&replica, SIZE_MAX, &reply), MERGEJOIN_RESULT, "5");
  refused(mergejoin_patches_add_new(&it, not_whole, sizeof not_whole, SIZE_MAX, &reply), MERGEJOIN_PATCH);
  made(mergejoin_patches_add_new(&it, five, 1, SIZE_MAX, &reply), MERGEJOIN_RESULT, "");
  refused(mergejoin_patches_add_new(&it, not_whole, sizeof not_whole, SIZE_MAX, &reply), MERGEJOIN_PATCH);
  made(mergejoin_patches_text_new(&it, SIZE_MAX, &reply), MERGEJOIN_RESULT, "5");
  refused(mergejoin_patch_log_start_new(&log, 0, not_whole, sizeof not_whole, SIZE_MAX, &reply), MERGEJOIN_DOCUMENT);
  made(mergejoin_patch_log_start_new(&log, 0, five, 1, SIZE_MAX, &reply), MERGEJOIN_RESULT, "");
  refused(mergejoin_patch_log_receive_new(&log, 0, 1, 2, not_whole, sizeof not_whole, SIZE_MAX, &reply), MERGEJOIN_PATCH);
  mergejoin_replica_free(&replica);
  mergejoin_patches_free(&it);
  mergejoin_patch_log_free(&log);
}

static void patch_log(void) {
  static mergejoin_patch_log it;
  const mergejoin_identity one = {1, 2};
  ends(mergejoin_patch_log_receive(&it, 0, 1, 2, NOTHING, 0, NOTHING, 0, SIZE_MAX), MERGEJOIN_NOT_STARTED, 11);
  ends(mergejoin_patch_log_decide(&it, NOTHING, 0, NOTHING, 0, SIZE_MAX), MERGEJOIN_NOT_STARTED, 11);
  ends(mergejoin_patch_log_start(&it, 0, NOTHING, 0, NOTHING, 0, SIZE_MAX), MERGEJOIN_DOCUMENT, 18);
  made(mergejoin_patch_log_start_new(&it, 0, five, 1, SIZE_MAX, &reply), MERGEJOIN_RESULT, "");
  ends(mergejoin_patch_log_receive(&it, 0, 1, 2, NOTHING, 0, NOTHING, 0, SIZE_MAX), MERGEJOIN_PATCH, 17);
  made(mergejoin_patch_log_receive_new(&it, 0, 1, 2, none, 2, SIZE_MAX, &reply), MERGEJOIN_RESULT, "stored");
  ends(mergejoin_patch_log_receive(&it, 0, 1, 2, none, 2, NOTHING, 0, SIZE_MAX), MERGEJOIN_RESULT, 6);
  made(mergejoin_patch_log_document_new(&it, SIZE_MAX, &reply), MERGEJOIN_RESULT, "[]");
  made(mergejoin_patch_log_conflicts_new(&it, SIZE_MAX, &reply), MERGEJOIN_RESULT, "[]");
  made(mergejoin_patch_log_conflicts_of_new(&it, 1, 2, SIZE_MAX, &reply), MERGEJOIN_RESULT, "[]");
  ends(mergejoin_patch_log_document(&it, NOTHING, 0, 0), MERGEJOIN_TOO_LARGE, 9);
  ends(mergejoin_patch_log_conflicts(&it, NOTHING, 0, SIZE_MAX), MERGEJOIN_RESULT, 2);
  ends(mergejoin_patch_log_conflicts_of(&it, 1, 2, NOTHING, 0, SIZE_MAX), MERGEJOIN_RESULT, 2);
  made(mergejoin_patch_log_count_new(&it, SIZE_MAX, &reply), MERGEJOIN_RESULT, "1");
  ends(mergejoin_patch_log_count(&it, NOTHING, 0, SIZE_MAX), MERGEJOIN_RESULT, 1);
  ends(mergejoin_patch_log_count(&it, NOTHING, 0, 0), MERGEJOIN_TOO_LARGE, 9);
  made(mergejoin_patch_log_decide_new(&it, &one, 1, SIZE_MAX, &reply), MERGEJOIN_RESULT, "");
  made(mergejoin_patch_log_decide_new(&it, &one, 1, SIZE_MAX, &reply), MERGEJOIN_MISSING, "missing");
  ends(mergejoin_patch_log_decide(&it, NOTHING, 0, NOTHING, 0, SIZE_MAX), MERGEJOIN_RESULT, 0);
  mergejoin_patch_log_free(&it);
  mergejoin_patch_log_free(&it);
}

// Memory of another kind for a buffer.
static size_t taken;

static void *resized(void *bytes, size_t capacity) {
  taken += 1;
  return realloc(bytes, capacity);
}

// The places of a conflict, one by one, from a buffer that is too short at first.
static void grown(void) {
  static const char one[] = "{\"a\\n\":1,\"long/\":{\"c\":1}}", other[] = "{\"a\\n\":2,\"long/\":{\"c\":2}}";
  const mergejoin_text texts[] = {mergejoin_text_of(one, sizeof one - 1), mergejoin_text_of(other, sizeof other - 1)};
  mergejoin_buffer buffer = {NOTHING, 0, 1, resized};
  char place[5] = {0}, *text;
  size_t at = 0, calls = 0;
  while (mergejoin_grow(&buffer, &reply)) {
    reply = mergejoin_join(texts, 2, buffer.bytes, buffer.capacity, SIZE_MAX);
    calls += 1;
  }
  wrong += calls != 2 || taken != calls || reply.status != MERGEJOIN_CONFLICT || reply.total != 2 || buffer.bytes[reply.length] != 0;
  free(buffer.bytes);
  text = mergejoin_join_new(texts, 2, SIZE_MAX, &reply);
  wrong += mergejoin_next_place(text, &reply, &at, place, sizeof place) != 3 || memcmp(place, "/a\n", 4) != 0;
  wrong += mergejoin_next_place(text, &reply, &at, place, sizeof place) != 9 || memcmp(place, "/long", 5) != 0;
  wrong += mergejoin_next_place(text, &reply, &at, NOTHING, 0) != SIZE_MAX || at != reply.length - 1;
  made(text, MERGEJOIN_CONFLICT, "conflict: patches 0 and 1 at \"/a\\n\", \"/long~1/c\"[\"/a\\n\",\"/long~1/c\"]");
}

int main(void) {
  texts();
  replica();
  patches();
  patch_log();
  long_places();
  grown();
  wrong += mergejoin_version() != MERGEJOIN_VERSION;
  return wrong ? 1 : 0;
}
