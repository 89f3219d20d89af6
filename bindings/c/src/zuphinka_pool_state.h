/* The state of a pool for threads and of a call, its clock, its lock, and the waits of threads. */
#ifndef ZUPHINKA_POOL_STATE_H
#define ZUPHINKA_POOL_STATE_H

#include <stdatomic.h>
#include <stdlib.h>
#include <unistd.h>

#include "zuphinka_pool.h"
#include "zuphinka_pool_metrics.h"
#include "zuphinka_pool_places.h"
#include "zuphinka_pool_sleep.h"

enum {
  CUT = 256, /* the condition of threads that wait for a cut; those before it are for threads that wait for an object */
  CONDITIONS,
  OVERTAKE_MS = 5,     /* for which a borrow that waits may be overtaken any number of times, if the host doesn't say */
  MOST_OVERTAKES = 64, /* of it after that, the same */
  MOST_LINES = 256,    /* that are copied in one critical section */
  TRIES = 16,          /* allocations that fail one after the other before a copy gives up */
  LAG = 10,            /* milliseconds by which the host's clock may be behind before a wait ends that is not over by it, and so without an entry */
};

/* A segment of the journal: its text is copied line by line, then the journal is cut, and the segment is to be stored. */
struct segment {
  char *text; /* null: none */
  size_t size;
  uint64_t first;         /* the position of its first entry in the history */
  uint64_t base, entries; /* lines of the base and of the journal that were copied */
};

struct zuphinka_pool {
  struct zuphinka_pool_host host;
  enum zuphinka_pool_journal journal;
  uint64_t quarter;    /* of the setting journalLimit */
  uint64_t number;     /* no other pool of the process has it; it is not 0 */
  uint64_t processors; /* how many the thread that opened the pool may run on, or the most that a set has if that is not known */
  int64_t opened;
  pid_t process; /* the process that opened the pool */

  struct segment unstored; /* of the thread that cuts, which needs no lock for it; of the lock if none does */

  atomic_uint lock; /* of all that follows */
  struct zuphinka core;
  struct measures measures;
  struct places places;
  uint64_t last_loan; /* its number */
  uint64_t cuts;      /* how often the journal was cut */
  uint64_t low;       /* the room below which a segment is stored */
  struct zuphinka_setup settings;
  uint64_t cutter; /* the thread that cuts the journal or stores what was cut off, which no other one may: its number and 1; 0: none */
  struct condition conditions[CONDITIONS]; /* a thread that waits for an object has that of its ticket, alone if not very many wait */
};

/* A call of a thread, from its beginning to its end. */
struct run {
  struct zuphinka_start start;
  struct zuphinka_effects next; /* what the thread does next */
  struct moment at;             /* when the clock was last read */
  uint64_t first;               /* when it was first read, in nanoseconds */
  int64_t began;                /* when it first waited, besides what the host's clock says; 0: it has not waited */
  unsigned wakes;               /* of the condition that it is to sleep on, before that */
  int64_t limit;                /* when it waits no longer, besides what the settings say */
  const struct zuphinka_pool_loan *loan; /* whose use it notes, or null */
  void *token;                  /* of the object that it made last */
  bool has_made;                /* it works on no object but those that it made, from then on */
  bool lacks_memory;            /* for the place of an object that it was to make */
  bool has_cut;                 /* it cut the journal; the segment is to be stored once it is over */
};

/* Settings that a pool is to have from a cut on. */
struct change {
  const char *text;
  size_t length;
  struct zuphinka_setup setup;
  uint64_t first; /* once it is made: the position of the first entry with these settings */
  bool is_made;
};

/* ---- time and numbers of threads */

/* Returns the time by the pool's clock, without the lock. */
static inline struct moment time_of(const struct zuphinka_pool *pool) {
  if (pool->host.now) {
    uint64_t now = pool->host.now(pool->host.context);
    return (struct moment){now, now * (uint64_t)MILLISECOND};
  }
  uint64_t passed = (uint64_t)(monotonic() - pool->opened);
  return (struct moment){passed / (uint64_t)MILLISECOND, passed};
}

/* Reads the clock without the lock, for a call that begins then. */
static void read_clock(const struct zuphinka_pool *pool, struct run *run) {
  run->at = time_of(pool);
  run->start.at = run->at.milliseconds;
}

uint32_t zuphinka_pool_caller(void) {
  static atomic_uint_least32_t numbered;
  static _Thread_local uint64_t next; /* the number after that of the thread; 0: it has none yet */
  if (next == 0) next = UINT64_C(1) + atomic_fetch_add_explicit(&numbered, 1, memory_order_relaxed);
  return (uint32_t)(next - 1);
}

/* A call begins now. */
static void begin_run(const struct zuphinka_pool *pool, struct run *run, uint32_t kind, int64_t limit) {
  run->start = (struct zuphinka_start){.kind = kind, .caller = zuphinka_pool_caller()};
  run->next.end = ZUPHINKA_END_NONE;
  run->limit = limit;
  run->loan = NULL;
  run->has_cut = false;
  read_clock(pool, run);
  run->first = run->at.nanoseconds;
}

/* ---- the lock, and sleep */

/* The lock is held for less than a microsecond. */
static void lock(struct zuphinka_pool *pool) {
  if (!try_take(&pool->lock)) take_later(&pool->lock, pool->processors > 1);
}

static void unlock(struct zuphinka_pool *pool) { release(&pool->lock); }

/* Sleeps until a condition is signalled or a time is reached, or for no reason, with the lock held before and after. Returns whether the time is not
 * reached. */
static bool sleep_on(struct zuphinka_pool *pool, struct condition *condition, int64_t end) {
  unsigned wakes = condition->wakes;
  condition->sleepers++;
  unlock(pool);
  bool is_early = sleep_while(&condition->wakes, wakes, end);
  lock(pool);
  condition->sleepers--;
  return is_early;
}

/* Reads the clock and locks, after an action of a call. */
static void lock_again(struct zuphinka_pool *pool, struct run *run) {
  run->at = time_of(pool);
  lock(pool);
}

static struct condition *condition_of(struct zuphinka_pool *pool, uint64_t ticket) { return &pool->conditions[ticket % CUT]; }

/* Returns when the wait of a call ends at the latest, with the lock held: by its caller, or by the settings if the host's clock goes back or stands. */
static int64_t latest_end(const struct zuphinka_pool *pool, struct run *run) {
  int64_t most = pool->settings.max_wait_millis;
  if (run->began == 0) run->began = monotonic();
  if (!pool->host.now || !run->next.has_until || most < 0) return run->limit;
  return least(run->limit, run->began + in_nanoseconds((uint64_t)most) + LAG * MILLISECOND);
}

/* Returns when the wait of a call ends, by the settings or by its caller. */
static int64_t end_of_wait(const struct zuphinka_pool *pool, struct run *run) {
  int64_t latest = latest_end(pool, run);
  if (!run->next.has_until) return latest;
  return least(latest, after(run->next.until > run->at.milliseconds ? run->next.until - run->at.milliseconds : 0));
}

/* Returns what is true of a pool at one time, with the lock held. */
static struct snapshot look(struct zuphinka_pool *pool) {
  struct snapshot seen = {.measures = pool->measures, .is_low = zuphinka_is_low(&pool->core, pool->quarter)};
  zuphinka_counts(&pool->core, &seen.counts);
  zuphinka_state(&pool->core, &seen.state);
  return seen;
}

/* Waits until a call is woken or its wait ends, with the lock held before and after. Returns the report. It pauses before it sleeps, since a short
 * loan ends meanwhile; but not if the threads that have an object or are in a call need all processors: it would keep one of them from running. */
static uint32_t wait_for_wake(struct zuphinka_pool *pool, struct run *run) {
  struct condition *condition = condition_of(pool, run->next.ticket);
  bool is_at_end = run->next.has_until && run->next.until <= run->at.milliseconds; /* of the clock, since its time is not over */
  int64_t now = monotonic(), latest = latest_end(pool, run);
  int64_t end = is_at_end ? latest : end_of_wait(pool, run), end_of_pause = least(now + ALL_PAUSES, end);
  if (latest <= now) return ZUPHINKA_REPORT_GIVEN_UP;
  struct snapshot seen = look(pool);
  if (seen.counts.lent + seen.state.running <= pool->processors) {
    unlock(pool);
    while (condition->wakes == run->wakes && pause_once(now, end_of_pause)) continue;
    lock(pool);
  }
  while (condition->wakes == run->wakes && sleep_on(pool, condition, end)) continue;
  return ZUPHINKA_REPORT_WOKEN;
}

#endif
