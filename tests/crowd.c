/* A crowd of calls that wait for one object, over the exported calls of the C library (zuphinka_begin), in one thread.
 *
 *     cc .. tests/crowd.c LIBRARY -Wl,--wrap=malloc -Wl,--wrap=realloc
 *     crowd BORROWS REFUSED
 *
 * The only object is lent, BORROWS borrows begin, and the object is returned until all that wait have had it, in the order in which they came. Then it
 * is borrowed and returned PAIRS times. The allocation number REFUSED of those that the borrows take fails, if it is not 0: then a borrow ends for lack
 * of memory, and the others wait.
 *
 * Prints 'W wait, E ended, allocations: A, B of the first 1024, C while they are served, D by 1000 pairs'. What is wrong is told on standard error, and
 * the status is then 4. */
#include <inttypes.h>
#include <stdio.h>
#include <stdlib.h>

#include "zuphinka.h"

enum { WRONG = 4, MOST_BORROWS = 100000, FIRST = 1024, PAIRS = 1000 };

void *__real_malloc(size_t size);
void *__real_realloc(void *block, size_t size);
void *__wrap_malloc(size_t size);
void *__wrap_realloc(void *block, size_t size);

static uint64_t allocations, refused;

void *__wrap_malloc(size_t size) { return ++allocations == refused ? NULL : __real_malloc(size); }

void *__wrap_realloc(void *block, size_t size) { return ++allocations == refused ? NULL : __real_realloc(block, size); }

/* A borrow that waits. */
struct waiting {
  struct zuphinka_call call;
  uint64_t ticket;
};

static struct zuphinka pool;
static struct waiting crowd[MOST_BORROWS];
static char object;

static void check(bool holds, const char *what) {
  if (holds) return;
  fprintf(stderr, "crowd: %s, with allocation %" PRIu64 " refused\n", what, refused);
  exit(WRONG);
}

/* Checks that a call has lent the object. Returns its id. */
static uint64_t lent(uint32_t status, const struct zuphinka_effects *effects) {
  bool is_done = status == ZUPHINKA_STATUS_DONE && effects->action == ZUPHINKA_ACTION_DONE && !effects->has_ticket;
  check((is_done || status == ZUPHINKA_STATUS_AT_ONCE) && effects->end == ZUPHINKA_END_LENT, "a borrow has no object, or waits");
  check(effects->object == &object, "a borrow has another object");
  return effects->number;
}

/* Makes the object and lends it. Returns its id. */
static uint64_t make(void) {
  const struct zuphinka_start start = {.kind = ZUPHINKA_KIND_BORROW};
  const struct zuphinka_event made = {.object = &object, .report = ZUPHINKA_REPORT_MADE};
  struct zuphinka_call call;
  struct zuphinka_effects effects;
  check(zuphinka_begin(&pool, &start, &call, &effects) == ZUPHINKA_STATUS_DONE && effects.action == ZUPHINKA_ACTION_MAKE, "no object is made");
  return lent(zuphinka_advance(&pool, &call, &made, &effects), &effects);
}

/* Returns the object. Returns whether a call is to be woken, and stores its ticket. */
static bool give_back(uint64_t id, uint64_t *ticket) {
  const struct zuphinka_start start = {.id = id, .object = &object, .kind = ZUPHINKA_KIND_RETURN};
  struct zuphinka_call call;
  struct zuphinka_effects effects;
  uint64_t other = 0;
  uint32_t status = zuphinka_begin(&pool, &start, &call, &effects);
  if (status == ZUPHINKA_STATUS_AT_ONCE) return false;
  check(status == ZUPHINKA_STATUS_DONE, "a return failed");
  check(effects.action == ZUPHINKA_ACTION_DONE && effects.end == ZUPHINKA_END_PARKED, "a returned object is not idle");
  check(!effects.has_wake || zuphinka_next_wake(&pool, &other) == ZUPHINKA_STATUS_NO_WAKE, "two calls are woken for one object");
  *ticket = effects.wake;
  return effects.has_wake;
}

/* Begins a borrow. Returns whether it waits; otherwise it has ended for lack of memory. */
static bool wait(struct waiting *waiting) {
  const struct zuphinka_start start = {.kind = ZUPHINKA_KIND_BORROW};
  struct zuphinka_effects effects;
  check(zuphinka_begin(&pool, &start, &waiting->call, &effects) == ZUPHINKA_STATUS_DONE && !effects.has_wake, "a borrow failed, or wakes another");
  waiting->ticket = effects.ticket;
  if (effects.action == ZUPHINKA_ACTION_SLEEP && effects.has_ticket) return true;
  check(effects.action == ZUPHINKA_ACTION_DONE && effects.end == ZUPHINKA_END_OUT_OF_MEMORY, "a borrow does not wait");
  return false;
}

/* Lends the object to each that waits, in its order. */
static void serve(uint64_t id, uint64_t waits) {
  uint64_t ticket = 0;
  for (uint64_t place = 0; place < waits; place++) {
    const struct zuphinka_event woken = {.report = ZUPHINKA_REPORT_WOKEN};
    struct zuphinka_effects effects;
    check(give_back(id, &ticket) && ticket == crowd[place].ticket, "another call is woken than the oldest");
    check(lent(zuphinka_advance(&pool, &crowd[place].call, &woken, &effects), &effects) == id, "a woken borrow has another object");
  }
  check(!give_back(id, &ticket), "a call is woken that does not wait");
}

/* Borrows and returns the idle object some times. */
static void pair(uint64_t id) {
  const struct zuphinka_start start = {.kind = ZUPHINKA_KIND_BORROW};
  uint64_t ticket = 0;
  for (int number = 0; number < PAIRS; number++) {
    struct zuphinka_call call;
    struct zuphinka_effects effects;
    check(lent(zuphinka_begin(&pool, &start, &call, &effects), &effects) == id, "the idle object is not lent");
    check(!give_back(id, &ticket), "a call is woken that does not wait");
  }
}

/* Checks how many calls wait and are in progress. */
static void check_waiting(uint64_t waits) {
  struct zuphinka_activity state = {.waiting = waits + 1};
  zuphinka_state(&pool, &state);
  check(state.waiting == waits && state.running == waits, "other calls wait than those that began to");
}

int main(int count, char **words) {
  uint64_t borrows = count == 3 ? strtoull(words[1], NULL, 10) : 0, waits = 0, first = 0;
  check(borrows > 0 && borrows <= MOST_BORROWS, "crowd BORROWS REFUSED");
  const char settings[] = "maxTotal = 1\n";
  const struct zuphinka_options options = {.pool = 1};
  check(zuphinka_open_with(&pool, settings, sizeof settings - 1, &options) == ZUPHINKA_STATUS_DONE, "no pool");
  uint64_t id = make();
  allocations = 0;
  refused = strtoull(words[2], NULL, 10);
  for (uint64_t number = 0; number < borrows; number++) {
    waits += wait(&crowd[waits]);
    if (number + 1 == FIRST) first = allocations;
  }
  uint64_t waited = allocations;
  refused = 0;
  check_waiting(waits);
  serve(id, waits);
  uint64_t served = allocations;
  check_waiting(0);
  pair(id);
  check_waiting(0);
  printf("%" PRIu64 " wait, %" PRIu64 " ended, allocations: %" PRIu64 ", %" PRIu64 " of the first %d, %" PRIu64 " while they are served, %" PRIu64 " by %d pairs\n",
         waits, borrows - waits, waited, first, FIRST, served - waited, allocations - served, PAIRS);
  zuphinka_drop(&pool);
}
