// Four threads share one replica, by the example of mergejoin.h, which the test puts into example.h, and a patch log under a lock of
// its own. Each receives its patches, and the first thread prints both documents.
#include <pthread.h>
#include <stdio.h>
#include <string.h>

#include "mergejoin.h"

#include "example.h"

enum { THREADS = 4, PATCHES = 200 };

static mergejoin_patch_log patch_log;
static pthread_mutex_t lock_of_log = PTHREAD_MUTEX_INITIALIZER;

static uint32_t store(unsigned sender, unsigned number, const uint8_t *patch, size_t length) {
  pthread_mutex_lock(&lock_of_log);
  mergejoin_reply reply = mergejoin_patch_log_receive(&patch_log, 7, sender, number, patch, length, NULL, 0, SIZE_MAX);
  pthread_mutex_unlock(&lock_of_log);
  return reply.status;
}

static void *receives(void *given) {
  unsigned first = *(const unsigned *)given, wrong = 0;
  for (unsigned number = first; number < THREADS * PATCHES; number += THREADS) {
    char patch[64];
    int length = snprintf(patch, sizeof patch, "{\"k%03u\":{\"of\":%u}}", number, first);
    wrong += receive((const uint8_t *)patch, (size_t)length) != MERGEJOIN_RESULT;
    wrong += store(first, number, (const uint8_t *)patch, (size_t)length) != MERGEJOIN_RESULT;
  }
  return wrong ? given : NULL;
}

int main(void) {
  static unsigned firsts[THREADS];
  pthread_t threads[THREADS];
  mergejoin_reply reply = mergejoin_replica_start(&replica, (const uint8_t *)"{}", 2, NULL, 0, SIZE_MAX);
  unsigned wrong = reply.status;
  wrong += mergejoin_patch_log_start(&patch_log, 7, (const uint8_t *)"{}", 2, NULL, 0, SIZE_MAX).status;
  for (unsigned number = 0; number < THREADS; number += 1) {
    firsts[number] = number;
    wrong += pthread_create(&threads[number], NULL, receives, &firsts[number]) != 0;
  }
  for (unsigned number = 0; number < THREADS; number += 1) {
    void *failed;
    wrong += pthread_join(threads[number], &failed) != 0 || failed;
  }
  char *text = mergejoin_replica_document_new(&replica, SIZE_MAX, &reply);
  puts(text);
  free(text);
  mergejoin_replica_free(&replica);
  text = mergejoin_patch_log_document_new(&patch_log, SIZE_MAX, &reply);
  puts(text);
  free(text);
  mergejoin_patch_log_free(&patch_log);
  return wrong != 0;
}
