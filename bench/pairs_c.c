/* Threads that borrow an object of a C pool and return it, for `bench/peers` and `bench/instructions`: `pairs_c OBJECTS THREADS ROUNDS [hooks]`.
 *
 * The pool keeps no journal. With `hooks` a callback that does nothing runs at each borrow and each return, and otherwise none. Times come from CLOCK_MONOTONIC. All threads begin at the same time, and each
 * does ROUNDS rounds. Prints the pairs, which are the uses of all objects, and the objects that were created.
 */
#define _POSIX_C_SOURCE 200809L

#include <inttypes.h>
#include <pthread.h>
#include <stdio.h>
#include <stdlib.h>
#include <string.h>

#include "zuphinka_pool.h"

enum { LONGEST_SETTINGS = 200, MOST_THREADS = 256 };

/* What the threads share. */
struct task {
  struct zuphinka_pool *pool;
  uint64_t rounds;
  pthread_barrier_t start;
  uint64_t uses, created; /* of the objects that were destroyed */
};

static void fail(const char *text) {
  fprintf(stderr, "%s\n", text);
  exit(1);
}

static void expect(enum zuphinka_pool_error error) {
  if (error != ZUPHINKA_POOL_ERROR_NONE) fail(zuphinka_pool_error_text(error));
}

/* An object counts its uses. */
static bool make(void *context, uint64_t id, void **object) {
  (void)context, (void)id;
  *object = calloc(1, sizeof(uint64_t));
  return *object;
}

/* Adds the uses of an object. It runs once the threads have ended. */
static void destroy(void *context, void *object) {
  struct task *task = context;
  task->uses += *(uint64_t *)object;
  task->created++;
  free(object);
}

static bool do_nothing(void *context, void *object) {
  (void)context, (void)object;
  return true;
}

static void *work(void *argument) {
  struct task *task = argument;
  pthread_barrier_wait(&task->start);
  for (uint64_t round = 0; round < task->rounds; round++) {
    struct zuphinka_pool_loan loan;
    expect(zuphinka_pool_get(task->pool, &loan));
    ++*(volatile uint64_t *)loan.object;
    expect(zuphinka_pool_give_back(task->pool, &loan));
  }
  return NULL;
}

static void run_threads(struct task *task, unsigned threads) {
  pthread_t started[MOST_THREADS];
  if (pthread_barrier_init(&task->start, NULL, threads)) fail("no barrier");
  for (unsigned n = 0; n < threads; n++) {
    if (pthread_create(&started[n], NULL, work, task)) fail("no thread");
  }
  for (unsigned n = 0; n < threads; n++) pthread_join(started[n], NULL);
}

int main(int count, char **words) {
  bool has_hooks = count == 5 && strcmp(words[4], "hooks") == 0, is_asked = count == 4 || has_hooks;
  struct task task = {.rounds = is_asked ? strtoull(words[3], NULL, 10) : 0};
  unsigned long threads = is_asked ? strtoul(words[2], NULL, 10) : 0;
  if (threads < 1 || threads > MOST_THREADS) fail("pairs_c OBJECTS THREADS ROUNDS [hooks]");
  char settings[LONGEST_SETTINGS];
  int size = snprintf(settings, sizeof settings, "journalLimit = 4294967296\nmaxTotal = %s\nmaxIdle = %s\n", words[1], words[1]);
  if (size >= LONGEST_SETTINGS) fail("too many objects");
  struct zuphinka_pool_host host = {.size = sizeof host, .context = &task, .make = make, .destroy = destroy};
  if (has_hooks) host.activate = host.passivate = do_nothing;
  expect(zuphinka_pool_open(&task.pool, settings, (size_t)size, &host, ZUPHINKA_POOL_JOURNAL_OFF));
  run_threads(&task, (unsigned)threads);
  expect(zuphinka_pool_end(task.pool));
  printf("pairs %" PRIu64 "\ncreated %" PRIu64 "\n", task.uses, task.created);
  return 0;
}
