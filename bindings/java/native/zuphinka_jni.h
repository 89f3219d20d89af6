/* A pool of io.github.zuphinka.Core: the core, what Java reads and writes beside it, and places for calls in progress. */
#ifndef ZUPHINKA_JNI_H
#define ZUPHINKA_JNI_H

#include <jni.h>
#include <stdatomic.h>
#include <stdbool.h>
#include <stddef.h>
#include <sys/queue.h>

#include "zuphinka.h"

/* The most entries that a call makes by one report. */
enum { MOST_ENTRIES = 64 };

/* The bytes of a cache line. */
enum { LINE = 64 };

/* How many calls in progress a pool has places for at first, and how many more it gets at a time. */
enum { PLACES = 32 };

/* What Java reads of the last reply, by the offsets in io.github.zuphinka.Core. It writes those from `taken` on. */
struct details {
  uint64_t object; /* the id of the object that the action is for */
  uint64_t ticket, until, wake;
  uint64_t entries;        /* that the journal stores, when they were last looked at */
  uint64_t reclaimed;      /* how many objects were reclaimed so far; 0 if none can be */
  uint64_t progress;       /* the place of the call that began last; 0 if that was over then */
  uint64_t latest;         /* the greatest time so far, in milliseconds */
  uint64_t taken;          /* of how many reclaimed objects Java knows */
  uint64_t threshold;      /* from how many entries on a reply says so */
  uint32_t settings;       /* the number of the settings of the moment */
  char before[LINE];       /* threads that look at the lock do not slow down the one that writes the rest */
  _Atomic(uint32_t) lock;  /* whether a thread has the lock */
  char after[LINE];
};

/* A place for a call in progress. */
struct place {
  SLIST_ENTRY(place) others;
  struct zuphinka_call call;
};

struct places {
  SLIST_ENTRY(places) others;
  struct place all[PLACES];
};

struct pool {
  LIST_ENTRY(pool) others;
  struct zuphinka core;
  struct details details;
  jlong needed_stack;
  bool reclaims;
  uint64_t unlooked; /* for so many steps of calls the entries need not be looked at: they are some, and are below the threshold then, too */
  SLIST_HEAD(, place) free;
  SLIST_HEAD(, places) more;
  struct places first;
};

static inline struct pool *pool_at(jlong handle) { return (struct pool *)(intptr_t)handle; }

static inline struct zuphinka *core_at(jlong handle) { return &pool_at(handle)->core; }

/* The flags of a reply. A call that is over at once stores no details, and wakes nobody. */
enum { HAS_WAKE = 1, HAS_UNTIL = 2, AT_ONCE = 4, HAS_RECLAIMED = 8, IS_LOW = 16 };

/* Looks how many entries there are. Returns the flag for that. */
static inline uint64_t look_at_entries(struct pool *pool) {
  struct details *details = &pool->details;
  zuphinka_steps(&pool->core, &details->entries);
  bool is_low = details->entries >= details->threshold;
  pool->unlooked = is_low || details->entries == 0 ? 0 : (details->threshold - details->entries) / MOST_ENTRIES;
  return is_low ? IS_LOW : 0;
}

/* Notes the numbers that change with each report. Returns the flags for them. */
static inline uint64_t note_numbers(struct pool *pool) {
  struct details *details = &pool->details;
  uint64_t flags = 0;
  if (pool->unlooked > 0) pool->unlooked--;
  else flags = look_at_entries(pool);
  if (pool->reclaims) {
    struct zuphinka_tally counts;
    zuphinka_counts(&pool->core, &counts);
    details->reclaimed = counts.reclaimed;
    if (details->reclaimed > details->taken) flags |= HAS_RECLAIMED;
  }
  return flags;
}

#endif
