/* Threads that borrow from the C pool and return for a long time, for `bench/soak`: `soak_c pairs N` makes N pairs, `soak_c seconds N` works
 * for N seconds.
 *
 * It does what bench/soak_rust does, and prints the same words with their numbers.
 */
#define _POSIX_C_SOURCE 200809L

#include <pthread.h>
#include <stdatomic.h>
#include <stdbool.h>
#include <stdint.h>
#include <stdio.h>
#include <stdlib.h>
#include <string.h>
#include <time.h>

#include "zuphinka_pool.h"

enum {
  THREADS = 4,
  OBJECTS = 3,
  CHUNK = 1000 /* the pairs that a thread takes at one time; in the first of them it invalidates its object */
};

static const struct timespec PAUSE = {.tv_nsec = 10000000};

static const char SETTINGS[] = "maxTotal = 3\nmaxIdle = 2\n";

struct tool {
  uint64_t id;
  uint64_t uses;
  atomic_bool is_held;
};

/* The sums over all objects and threads. */
static struct {
  _Atomic uint64_t made, destroyed, alive, uses, doubles, strays, excess, pairs;
} sums;

/* The pairs that are left for the threads. */
static _Atomic uint64_t left;

static bool is_timed;
static double length, began;

static void fail(const char *text) {
  fprintf(stderr, "%s\n", text);
  exit(1);
}

static double now(void) {
  struct timespec time;
  clock_gettime(CLOCK_MONOTONIC, &time);
  return time.tv_sec + time.tv_nsec / 1e9;
}

/* The share of the work that is done, from 0 to 1. */
static double share_done(void) {
  return is_timed ? (now() - began) / length : atomic_load(&sums.pairs) / length;
}

/* The resident memory of this process, in KiB. It is counted page by page, and so exact while threads run. */
static uint64_t resident(void) {
  FILE *file = fopen("/proc/self/smaps_rollup", "r");
  char line[256];
  unsigned long long found = 0;
  while (file && fgets(line, sizeof line, file) && sscanf(line, "Rss: %llu", &found) != 1) continue;
  if (file) fclose(file);
  return found;
}

/* Waits until a share of the work is done. Returns the most memory that it saw meanwhile. */
static uint64_t await_share(double share) {
  uint64_t most = resident();
  while (share_done() < share) {
    nanosleep(&PAUSE, NULL);
    uint64_t found = resident();
    if (found > most) most = found;
  }
  return most;
}

static bool make_tool(void *context, uint64_t id, void **object) {
  (void)context;
  struct tool *tool = calloc(1, sizeof *tool);
  if (!tool) return false;
  tool->id = id;
  atomic_fetch_add(&sums.made, 1);
  if (atomic_fetch_add(&sums.alive, 1) >= OBJECTS) atomic_fetch_add(&sums.excess, 1);
  *object = tool;
  return true;
}

static void destroy_tool(void *context, void *object) {
  (void)context;
  struct tool *tool = object;
  atomic_fetch_sub(&sums.alive, 1);
  atomic_fetch_add(&sums.destroyed, 1);
  atomic_fetch_add(&sums.uses, tool->uses);
  free(tool);
}

/* Uses an object, and counts it if another thread holds it or its id is wrong. */
static void use_tool(struct tool *tool, uint64_t id) {
  if (tool->id != id) atomic_fetch_add(&sums.strays, 1);
  if (atomic_exchange(&tool->is_held, true)) atomic_fetch_add(&sums.doubles, 1);
  tool->uses++;
  atomic_store(&tool->is_held, false);
}

/* Takes the pairs of one chunk, none if none are left. */
static uint64_t take(void) {
  uint64_t pairs = atomic_load(&left), taken;
  do {
    taken = pairs < CHUNK ? pairs : CHUNK;
  } while (taken && !atomic_compare_exchange_weak(&left, &pairs, pairs - taken));
  return taken;
}

/* Ends the program if a call failed, since pairs would be missing. */
static void expect(enum zuphinka_pool_error error) {
  if (error != ZUPHINKA_POOL_ERROR_NONE) fail(zuphinka_pool_error_text(error));
}

static struct zuphinka_pool_loan borrow(struct zuphinka_pool *pool) {
  struct zuphinka_pool_loan loan;
  expect(zuphinka_pool_get(pool, &loan));
  use_tool(loan.object, loan.id);
  return loan;
}

/* Makes the pairs of a thread while some are left. */
static void *work(void *argument) {
  struct zuphinka_pool *pool = argument;
  for (uint64_t taken = take(); taken; taken = take()) {
    struct zuphinka_pool_loan loan = borrow(pool);
    expect(zuphinka_pool_invalidate(pool, &loan));
    for (uint64_t pair = 1; pair < taken; pair++) {
      loan = borrow(pool);
      expect(zuphinka_pool_give_back(pool, &loan));
    }
    atomic_fetch_add(&sums.pairs, taken);
  }
  return NULL;
}

/* Lets all threads work. Stores the most memory in the first tenth of the work, and in the rest. */
static void run(struct zuphinka_pool *pool, uint64_t *early, uint64_t *late) {
  pthread_t threads[THREADS];
  began = now();
  for (int i = 0; i < THREADS; i++)
    if (pthread_create(&threads[i], NULL, work, pool)) fail("no thread");
  *early = await_share(0.1);
  *late = await_share(1.0);
  atomic_store(&left, 0);
  for (int i = 0; i < THREADS; i++) pthread_join(threads[i], NULL);
}

static void report(const char *word, uint64_t number) { printf("%s %llu\n", word, (unsigned long long)number); }

static void report_sums(void) {
  report("pairs", sums.pairs);
  report("uses", sums.uses);
  report("double", sums.doubles);
  report("stray", sums.strays);
  report("excess", sums.excess);
  report("made", sums.made);
  report("destroyed", sums.destroyed);
}

int main(int count, char **words) {
  is_timed = count == 3 && !strcmp(words[1], "seconds");
  length = count == 3 ? atof(words[2]) : 0;
  if (length <= 0 || (!is_timed && strcmp(words[1], "pairs"))) fail("soak_c pairs N, or soak_c seconds N");
  left = is_timed ? UINT64_MAX : (uint64_t)length;
  struct zuphinka_pool *pool;
  struct zuphinka_pool_host host = {.size = sizeof host, .make = make_tool, .destroy = destroy_tool};
  expect(zuphinka_pool_open(&pool, SETTINGS, strlen(SETTINGS), &host, ZUPHINKA_POOL_JOURNAL_OFF));
  uint64_t early, late;
  run(pool, &early, &late);
  zuphinka_pool_close(pool);
  struct zuphinka_tally counts;
  zuphinka_pool_counts(pool, &counts);
  expect(zuphinka_pool_end(pool));
  report("memory_early", early);
  report("memory", late > early ? late : early);
  report_sums();
  report("created", counts.created);
  report("freed", counts.destroyed);
  report("left", counts.idle + counts.lent + counts.reserved);
  return 0;
}
