/* The places of a pool's objects: what the pool for threads knows of each, and of its loan. The library has the place of an idle object as its token. */
#ifndef ZUPHINKA_POOL_PLACES_H
#define ZUPHINKA_POOL_PLACES_H

#include <stdlib.h>

#include "zuphinka_pool.h"
#include "zuphinka_pool_metrics.h"

enum {
  FIRST_PLACES = 16,
  MOST_PLACES = 256, /* that are looked at in one critical section */
};

/* No number of a loan is less, and no number of a place as great. */
static const uint64_t FIRST_LOAN = UINT64_C(1) << 63;

/* The place of an object, from before it is made until it is destroyed; or a free one. */
struct place {
  uint64_t number;    /* that of its loan; 0 if it is not lent, or a call ends its loan; or the next free place */
  void *object;       /* the host's */
  uint64_t id;        /* in the journal */
  uint64_t made;      /* when, in milliseconds */
  struct moment lent; /* when its loan began */
  uint32_t borrower;  /* the thread that borrowed it */
  bool is_reported;   /* its loan was, since it lasts too long */
};

/* All places; the lock of the pool protects them. */
struct places {
  struct place *all;
  uint64_t capacity, free; /* how many there are; the first free one, or `capacity` */
};

/* Takes a free place. Returns whether there is memory for it. */
static bool take_place(struct places *places, uint64_t *place) {
  if (places->free == places->capacity) {
    uint64_t capacity = 2 * places->capacity + FIRST_PLACES;
    struct place *all = realloc(places->all, capacity * sizeof *all);
    if (!all) return false;
    for (uint64_t n = places->capacity; n < capacity; n++) all[n].number = n + 1;
    places->all = all;
    places->capacity = capacity;
  }
  *place = places->free;
  places->free = places->all[*place].number;
  places->all[*place].number = 0;
  return true;
}

static void free_place(struct places *places, uint64_t place) {
  places->all[place].number = places->free;
  places->free = place;
}

/* Returns whether something has lasted for some milliseconds; not so if the clock went back. */
static bool has_lasted(uint64_t begin, uint64_t now, uint64_t least) { return now >= begin && now - begin >= least; }

/* Stores in `found` the next loan that has lasted for `least` milliseconds and was not reported, of MOST_PLACES places from `next` on, which is then the
 * place after those that were looked at. Returns whether there is one. It counts as reported then. */
static bool find_long_loan(struct places *places, uint64_t least, uint64_t now, uint64_t *next, struct place *found) {
  uint64_t end = places->capacity - *next < MOST_PLACES ? places->capacity : *next + MOST_PLACES;
  while (*next < end) {
    struct place *place = &places->all[(*next)++];
    bool is_long = place->number > FIRST_LOAN && !place->is_reported && has_lasted(place->lent.milliseconds, now, least);
    if (!is_long) continue;
    place->is_reported = true;
    *found = *place;
    return true;
  }
  return false;
}

#endif
