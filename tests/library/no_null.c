// Stands between a program and the library, for a program that is linked with --wrap of each export: none may be given null.
#include <stdlib.h>

#include "mergejoin.h"

#define ARE_THERE(name, pointers, parameters, arguments) \
  mergejoin_reply __real_##name parameters;              \
  mergejoin_reply __wrap_##name parameters;              \
  mergejoin_reply __wrap_##name parameters {             \
    if (!(pointers)) abort();                            \
    return __real_##name arguments;                      \
  }
#define OUT uint8_t *out, size_t capacity, size_t limit
#define ON_PATCHES(name)                                                                                                  \
  ARE_THERE(name, bytes && patches && out, (const uint8_t *bytes, size_t length, const mergejoin_text *patches, size_t count, OUT), \
            (bytes, length, patches, count, out, capacity, limit))
#define ON_TEXTS(name)                                                                                                    \
  ARE_THERE(name, bytes && other && out, (const uint8_t *bytes, size_t length, const uint8_t *other, size_t size, OUT),    \
            (bytes, length, other, size, out, capacity, limit))
#define OF_TEXT(name, handle)                                                                      \
  ARE_THERE(name, bytes && out, (handle *it, const uint8_t *bytes, size_t length, OUT),            \
            (it, bytes, length, out, capacity, limit))
#define OF_NONE(name, handle) ARE_THERE(name, out, (handle *it, OUT), (it, out, capacity, limit))

ARE_THERE(mergejoin_join, patches && out && (!count || patches->bytes), (const mergejoin_text *patches, size_t count, OUT),
          (patches, count, out, capacity, limit))
ON_PATCHES(mergejoin_replay)
ON_PATCHES(mergejoin_merge)
ON_TEXTS(mergejoin_rewrite)
ON_TEXTS(mergejoin_patch)
ON_TEXTS(mergejoin_get)
OF_TEXT(mergejoin_replica_start, mergejoin_replica)
OF_TEXT(mergejoin_replica_receive, mergejoin_replica)
OF_NONE(mergejoin_replica_document, mergejoin_replica)
OF_NONE(mergejoin_replica_joined, mergejoin_replica)
OF_TEXT(mergejoin_replica_get, mergejoin_replica)
OF_TEXT(mergejoin_patches_add, mergejoin_patches)
ARE_THERE(mergejoin_patches_combine, out, (mergejoin_patches *it, mergejoin_patches *other, OUT), (it, other, out, capacity, limit))
OF_NONE(mergejoin_patches_text, mergejoin_patches)
OF_NONE(mergejoin_patches_kept, mergejoin_patches)
OF_TEXT(mergejoin_patches_from_kept, mergejoin_patches)
ARE_THERE(mergejoin_patch_log_start, bytes && out, (mergejoin_patch_log *it, uint64_t epoch, const uint8_t *bytes, size_t length, OUT),
          (it, epoch, bytes, length, out, capacity, limit))
ARE_THERE(mergejoin_patch_log_receive, bytes && out,
          (mergejoin_patch_log *it, uint64_t epoch, uint64_t sender, uint64_t number, const uint8_t *bytes, size_t length, OUT),
          (it, epoch, sender, number, bytes, length, out, capacity, limit))
OF_NONE(mergejoin_patch_log_document, mergejoin_patch_log)
OF_NONE(mergejoin_patch_log_conflicts, mergejoin_patch_log)
ARE_THERE(mergejoin_patch_log_conflicts_of, out, (mergejoin_patch_log *it, uint64_t sender, uint64_t number, OUT),
          (it, sender, number, out, capacity, limit))
OF_NONE(mergejoin_patch_log_count, mergejoin_patch_log)
ARE_THERE(mergejoin_patch_log_decide, chosen && out, (mergejoin_patch_log *it, const mergejoin_identity *chosen, size_t count, OUT),
          (it, chosen, count, out, capacity, limit))
