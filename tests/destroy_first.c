/* Checks the order in which a program over the C library destroys objects that it allocated.
 *
 *     cc .. PROGRAM.c tests/destroy_first.c LIBRARY -Wl,--wrap=zuphinka_step -Wl,--wrap=free
 *
 * The program must free each object that the pool tells it to destroy before it reports ZUPHINKA_INPUT_DESTROYED, since the report frees the
 * object's place. Prints what is wrong on standard error and exits with status 4; also if the program has destroyed no object at its end. */
#include <inttypes.h>
#include <stdio.h>
#include <stdlib.h>
#include <unistd.h>

#include "zuphinka.h"

enum { WRONG = 4 };

uint32_t __real_zuphinka_step(struct zuphinka *pool, const struct zuphinka_request *request, struct zuphinka_reply *reply);
uint32_t __wrap_zuphinka_step(struct zuphinka *pool, const struct zuphinka_request *request, struct zuphinka_reply *reply);
void __real_free(void *block);
void __wrap_free(void *block);

/* The object that the pool told the program to destroy last, and whether it was freed since. */
static void *object;
static bool is_freed;
static uint64_t reported;

void __wrap_free(void *block) {
  if (block && block == object) is_freed = true;
  __real_free(block);
}

uint32_t __wrap_zuphinka_step(struct zuphinka *pool, const struct zuphinka_request *request, struct zuphinka_reply *reply) {
  if (request->input == ZUPHINKA_INPUT_DESTROYED) {
    if (!is_freed) {
      fprintf(stderr, "object %" PRIu64 " is reported before it is freed\n", request->number);
      _exit(WRONG);
    }
    reported++;
  }
  uint32_t status = __real_zuphinka_step(pool, request, reply);
  bool is_told = reply->answer == ZUPHINKA_ANSWER_DESTROY || reply->answer == ZUPHINKA_ANSWER_DESTROY_IDLE;
  if (status == ZUPHINKA_STATUS_DONE && is_told && reply->has_object) {
    object = reply->object;
    is_freed = false;
  }
  return status;
}

__attribute__((destructor)) static void finish(void) {
  if (reported > 0) return;
  fprintf(stderr, "no object was destroyed\n");
  _exit(WRONG);
}
