// Measures how much stack a call takes: it runs in a thread on a stack that was painted before.
#include <pthread.h>
#include <stdint.h>
#include <stdio.h>
#include <stdlib.h>
#include <string.h>
#include <sys/mman.h>

enum { STACK = 1 << 20, PAINT = 0xa5 };

typedef struct painted {
  void (*call)(void *);
  void *argument;
} painted;

static void *on_painted(void *given) {
  painted *it = given;
  it->call(it->argument);
  return NULL;
}

// How many bytes of a fresh stack a thread touched that makes the call.
static size_t stack_of(void (*call)(void *), void *argument) {
  uint8_t *stack = mmap(NULL, STACK, PROT_READ | PROT_WRITE, MAP_PRIVATE | MAP_ANONYMOUS, -1, 0);
  painted given = {call, argument};
  pthread_attr_t how;
  pthread_t thread;
  size_t place = 0;
  memset(stack, PAINT, STACK);
  pthread_attr_init(&how);
  pthread_attr_setstack(&how, stack, STACK);
  if (pthread_create(&thread, &how, on_painted, &given)) {
    puts("a thread was not made");
    exit(1);
  }
  pthread_join(thread, NULL);
  while (place < STACK && stack[place] == PAINT) place += 1;
  munmap(stack, STACK);
  return STACK - place;
}
