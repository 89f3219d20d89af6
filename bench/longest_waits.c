/* How long a thread waits for the only object of a C pool, which another thread borrows again as soon as it has returned it, for
 * `bench/longest_waits`: `longest_waits HOLD WAITS`.
 *
 * The one thread holds the object for HOLD microseconds each time. The other one borrows it WAITS times and returns it at once, with a pause of a
 * millisecond between two waits. Prints the longest wait and the median.
 */
#define _POSIX_C_SOURCE 200809L

#include <pthread.h>
#include <stdatomic.h>
#include <stdbool.h>
#include <stdint.h>
#include <stdio.h>
#include <stdlib.h>
#include <string.h>
#include <time.h>

#include "zuphinka_pool.h"

enum { LONGEST_SPIN = 10 /* microseconds; a longer hold sleeps */ };

static const struct timespec PAUSE = {.tv_nsec = 1000000};

static const char SETTINGS[] = "maxTotal = 1\n";

static struct zuphinka_pool *pool;
static uint64_t hold;
static atomic_bool is_over;

static void fail(const char *text) {
  fprintf(stderr, "%s\n", text);
  exit(1);
}

static void expect(enum zuphinka_pool_error error) {
  if (error != ZUPHINKA_POOL_ERROR_NONE) fail(zuphinka_pool_error_text(error));
}

/* The time in nanoseconds. */
static uint64_t now(void) {
  struct timespec time;
  clock_gettime(CLOCK_MONOTONIC, &time);
  return (uint64_t)time.tv_sec * 1000000000 + (uint64_t)time.tv_nsec;
}

static bool make(void *context, uint64_t id, void **object) {
  (void)id;
  *object = context;
  return true;
}

static void destroy(void *context, void *object) { (void)context, (void)object; }

/* Holds the object. */
static void work(void) {
  struct timespec time = {.tv_sec = (time_t)(hold / 1000000), .tv_nsec = (long)(hold % 1000000) * 1000};
  if (hold > LONGEST_SPIN) {
    nanosleep(&time, NULL);
    return;
  }
  uint64_t end = now() + hold * 1000;
  while (now() < end) continue;
}

/* Borrows, holds and returns until the waits are over. */
static void *borrow_again(void *argument) {
  while (!atomic_load(&is_over)) {
    struct zuphinka_pool_loan loan;
    expect(zuphinka_pool_get(pool, &loan));
    work();
    expect(zuphinka_pool_give_back(pool, &loan));
  }
  return argument;
}

/* Waits once for the object. Returns how long it took, in microseconds. */
static uint64_t wait_once(void) {
  struct zuphinka_pool_loan loan;
  uint64_t began = now();
  expect(zuphinka_pool_get(pool, &loan));
  uint64_t waited = now() - began;
  expect(zuphinka_pool_give_back(pool, &loan));
  nanosleep(&PAUSE, NULL);
  return waited / 1000;
}

static int by_size(const void *one, const void *other) {
  uint64_t first = *(const uint64_t *)one, second = *(const uint64_t *)other;
  return (first > second) - (first < second);
}

int main(int count, char **words) {
  size_t waits = count == 3 ? strtoull(words[2], NULL, 10) : 0;
  uint64_t *times = calloc(waits ? waits : 1, sizeof *times);
  if (!waits || !times) fail("longest_waits HOLD WAITS");
  hold = strtoull(words[1], NULL, 10);
  struct zuphinka_pool_host host = {.size = sizeof host, .make = make, .destroy = destroy};
  expect(zuphinka_pool_open(&pool, SETTINGS, strlen(SETTINGS), &host, ZUPHINKA_POOL_JOURNAL_OFF));
  pthread_t thread;
  if (pthread_create(&thread, NULL, borrow_again, NULL)) fail("no thread");
  for (size_t n = 0; n < waits; n++) times[n] = wait_once();
  atomic_store(&is_over, true);
  pthread_join(thread, NULL);
  expect(zuphinka_pool_end(pool));
  qsort(times, waits, sizeof *times, by_size);
  printf("%zu waits, longest %llu us, median %llu us\n", waits, (unsigned long long)times[waits - 1], (unsigned long long)times[waits / 2]);
  free(times);
  return 0;
}
