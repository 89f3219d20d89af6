/* How a thread of the pool pauses and sleeps: the clock, pauses, a lock, and what threads sleep on. */
#ifndef ZUPHINKA_POOL_SLEEP_H
#define ZUPHINKA_POOL_SLEEP_H

#include <errno.h>
#include <limits.h>
#include <linux/futex.h>
#include <stdatomic.h>
#include <stdbool.h>
#include <stdint.h>
#include <sys/syscall.h>
#include <time.h>
#include <unistd.h>

/* In nanoseconds, as all times by CLOCK_MONOTONIC. A wait without a limit ends NEVER, and that of a thread that doesn't wait AT_ONCE. */
static const int64_t MILLISECOND = 1000000, SECOND = 1000000000, NEVER = INT64_MAX, AT_ONCE = 0;
static const uint64_t LONGEST_WAIT = UINT64_C(1) << 42; /* of all limits, in milliseconds: 139 years */

/* How long a thread pauses before it looks again, at first and at most, and in all before it sleeps; in nanoseconds. */
enum { FIRST_PAUSE = 250, LONGEST_PAUSE = 5000, ALL_PAUSES = 25000 };

/* A lock is free, or taken; and then a thread may sleep until it is free. */
enum { FREE, TAKEN, AWAITED };

/* What threads sleep on, with a lock. */
struct condition {
  atomic_uint wakes; /* how often it was signalled, modulo 2^32; a thread that pauses reads it without the lock */
  unsigned sleepers;
};

static int64_t least(int64_t one, int64_t other) { return one < other ? one : other; }

static int64_t monotonic(void) {
  struct timespec now;
  clock_gettime(CLOCK_MONOTONIC, &now);
  return now.tv_sec * SECOND + now.tv_nsec;
}

/* Returns how long a wait of some milliseconds is, in nanoseconds. */
static int64_t in_nanoseconds(uint64_t milliseconds) {
  return (int64_t)(milliseconds < LONGEST_WAIT ? milliseconds : LONGEST_WAIT) * MILLISECOND;
}

/* Returns the time some milliseconds from now. */
static int64_t after(uint64_t milliseconds) { return monotonic() + in_nanoseconds(milliseconds); }

/* Pauses for FIRST_PAUSE longer than since `began`, for LONGEST_PAUSE and until `end` at most. Returns false, without a pause, at `end`. */
static bool pause_once(int64_t began, int64_t end) {
  int64_t now = monotonic(), until = least(now + least(now - began + FIRST_PAUSE, LONGEST_PAUSE), end);
  if (now >= end) return false;
  while (monotonic() < until) {
#ifdef __x86_64__
    __builtin_ia32_pause();
#endif
  }
  return true;
}

/* Sleeps while a word has a value, until it is woken, a time is reached, or for no reason. Returns whether the time is not reached. */
static bool sleep_while(atomic_uint *word, unsigned value, int64_t end) {
  int kept = errno; /* it may be the reason of a callback that failed */
  struct timespec time = {.tv_sec = end / SECOND, .tv_nsec = end % SECOND};
  bool is_early = syscall(SYS_futex, word, FUTEX_WAIT_BITSET_PRIVATE, value, &time, NULL, FUTEX_BITSET_MATCH_ANY) == 0 || errno != ETIMEDOUT;
  errno = kept;
  return is_early;
}

/* Wakes some of the threads that sleep while a word has a value. */
static void wake_sleepers(atomic_uint *word, int most) { syscall(SYS_futex, word, FUTEX_WAKE_PRIVATE, most); }

/* Takes a lock if it is free. Returns whether it was. */
static bool try_take(atomic_uint *lock) {
  unsigned found = FREE;
  return atomic_compare_exchange_strong_explicit(lock, &found, TAKEN, memory_order_acquire, memory_order_relaxed);
}

/* Takes a lock that was not free once it is. To wake a thread takes longer than a lock is taken as a rule: so this one pauses before it sleeps, if it
 * may. */
static void take_later(atomic_uint *lock, bool may_pause) {
  int64_t began = monotonic(), end = began + (may_pause ? ALL_PAUSES : 0);
  while (pause_once(began, end)) {
    if (try_take(lock)) return;
  }
  while (atomic_exchange_explicit(lock, AWAITED, memory_order_acquire) != FREE) sleep_while(lock, AWAITED, NEVER);
}

static void release(atomic_uint *lock) {
  if (atomic_exchange_explicit(lock, FREE, memory_order_release) == AWAITED) wake_sleepers(lock, 1);
}

/* Wakes all threads that sleep on a condition, whose lock is taken. */
static void wake(struct condition *condition) {
  condition->wakes++;
  if (condition->sleepers > 0) wake_sleepers(&condition->wakes, INT_MAX);
}

#endif
