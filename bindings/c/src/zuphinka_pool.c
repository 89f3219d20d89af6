/* A pool of objects for threads over the proved calls. zuphinka_pool.h explains its calls; docs/concepts.md has the life of an object.
 *
 * The library decides what a call does next, which calls wait, which one is woken, and when a journal is dropped (zuphinka_begin, zuphinka_advance);
 * docs/proved.md says what of that is proved. This file has the callbacks, the loans and the calls; zuphinka_pool_state.h has the lock and the waits of
 * the threads, and zuphinka_pool_cuts.h the cuts of the journal. */
#ifndef _GNU_SOURCE
#define _GNU_SOURCE
#endif

#include "zuphinka_pool.h"

#include <sched.h>
#include <stdatomic.h>
#include <stdio.h>
#include <stdlib.h>
#include <unistd.h>

#include "zuphinka_pool_cuts.h"
#include "zuphinka_pool_errors.h"
#include "zuphinka_pool_metrics.h"
#include "zuphinka_pool_places.h"
#include "zuphinka_pool_state.h"

/* ---- loans */

/* Returns why there is no such loan, with the lock held. */
static enum zuphinka_pool_error error_of_loan(const struct zuphinka_pool *pool, const struct zuphinka_pool_loan *loan) {
  if (loan->id == ZUPHINKA_POOL_NO_LOAN) return ZUPHINKA_POOL_ERROR_NOT_LENT;
  if (loan->pool != pool->number) return ZUPHINKA_POOL_ERROR_FOREIGN;
  bool is_lent = loan->place < pool->places.capacity && pool->places.all[loan->place].number == loan->number;
  return is_lent ? ZUPHINKA_POOL_ERROR_NONE : ZUPHINKA_POOL_ERROR_NOT_LENT;
}

/* ---- the course of a call */

/* Returns the error of a call that is over, with the lock held. A closed pool is closed, whatever a call lacks. Ends the program if the library
 * answered what it never answers. */
static enum zuphinka_pool_error error_of_end(struct zuphinka_pool *pool, const struct run *run) {
  uint32_t kind = run->start.kind, end = run->next.end;
  bool makes = kind == ZUPHINKA_KIND_ADD || kind == ZUPHINKA_KIND_FILL; /* an object, which only a pool that was closed meanwhile destroys */
  bool is_done = end == ZUPHINKA_END_LENT || end == ZUPHINKA_END_PARKED || end == ZUPHINKA_END_NOTED || end == ZUPHINKA_END_COMPLETE;
  if (is_done || (end == ZUPHINKA_END_DESTROYED && !makes)) return ZUPHINKA_POOL_ERROR_NONE;
  if (end == ZUPHINKA_END_DESTROYED) return ZUPHINKA_POOL_ERROR_CLOSED;
  if (end == ZUPHINKA_END_MAKE_FAILED && run->lacks_memory) end = ZUPHINKA_END_OUT_OF_MEMORY;
  bool is_over = end == ZUPHINKA_END_CANCELLED || end == ZUPHINKA_END_TIMED_OUT;
  if (is_over) return run->limit == AT_ONCE ? ZUPHINKA_POOL_ERROR_EXHAUSTED : ZUPHINKA_POOL_ERROR_TIMED_OUT;
  enum zuphinka_pool_error error = find_error(end, ZUPHINKA_STATUS_DONE);
  bool lacks = error == ZUPHINKA_POOL_ERROR_JOURNAL_FULL || error == ZUPHINKA_POOL_ERROR_OUT_OF_MEMORY;
  if (lacks && is_refused(pool, kind)) return ZUPHINKA_POOL_ERROR_CLOSED;
  if (error) return error;
  fprintf(stderr, "zuphinka_pool: a call of kind %u has action %u and end %u\n", kind, run->next.action, end);
  abort();
}

/* Returns the place that the library has as the token of an object, and back. */
static uint64_t place_of(const void *token) { return (uint64_t)(uintptr_t)token; }
static void *token_of(uint64_t place) { return (void *)(uintptr_t)place; }

/* Makes an object, with the lock held before and after, and not meanwhile. Returns the report. */
static uint32_t make_object(struct zuphinka_pool *pool, struct run *run) {
  uint64_t place = 0;
  void *object = NULL;
  run->lacks_memory = !take_place(&pool->places, &place);
  unlock(pool);
  bool is_made = !run->lacks_memory && pool->host.make(pool->host.context, run->next.number, &object);
  lock_again(pool, run);
  if (!is_made && !run->lacks_memory) free_place(&pool->places, place);
  if (!is_made) return ZUPHINKA_REPORT_FAILED;
  pool->places.all[place] = (struct place){.object = object, .id = run->next.number, .made = run->at.milliseconds};
  run->token = token_of(place);
  run->has_made = true;
  return ZUPHINKA_REPORT_MADE;
}

/* Destroys the object of a place, with the lock held before and after, and not meanwhile. */
static void destroy_object(struct zuphinka_pool *pool, struct run *run, uint64_t place) {
  void *object = pool->places.all[place].object;
  unlock(pool);
  pool->host.destroy(pool->host.context, object);
  lock_again(pool, run);
  free_place(&pool->places, place);
}

/* Activates, tests or passivates an object by a callback, with the lock held before and after, and not meanwhile. It fails if the object is too old,
 * unless the call has made it. Without a callback it succeeds: an eviction run tests in any case. Returns the report. */
static uint32_t prepare_object(struct zuphinka_pool *pool, struct run *run, bool (*prepare)(void *context, void *object)) {
  const struct place *place = &pool->places.all[place_of(run->next.object)];
  void *object = place->object;
  uint64_t most = pool->host.max_lifetime_ms;
  bool is_old = most > 0 && !run->has_made && has_lasted(place->made, run->at.milliseconds, most);
  unlock(pool);
  bool succeeds = !is_old && (!prepare || prepare(pool->host.context, object));
  lock_again(pool, run);
  return succeeds ? ZUPHINKA_REPORT_SUCCEEDED : ZUPHINKA_REPORT_FAILED;
}

/* Takes the next action of a call, with the lock held before and after, and not while a callback runs. Returns the report. */
static uint32_t act(struct zuphinka_pool *pool, struct run *run) {
  uint32_t report = ZUPHINKA_REPORT_GO_ON;
  switch (run->next.action) {
    case ZUPHINKA_ACTION_ACTIVATE: return prepare_object(pool, run, pool->host.activate);
    case ZUPHINKA_ACTION_VALIDATE: return prepare_object(pool, run, pool->host.validate);
    case ZUPHINKA_ACTION_PASSIVATE: return prepare_object(pool, run, pool->host.passivate);
    case ZUPHINKA_ACTION_MAKE: return make_object(pool, run);
    case ZUPHINKA_ACTION_DESTROY: destroy_object(pool, run, place_of(run->next.object)); return ZUPHINKA_REPORT_SUCCEEDED;
    case ZUPHINKA_ACTION_SLEEP: report = wait_for_wake(pool, run); break;
    case ZUPHINKA_ACTION_MAKE_ROOM: report = make_room(pool, run); break;
    default: break;
  }
  unlock(pool);
  lock_again(pool, run);
  bool has_ended = run->loan && error_of_loan(pool, run->loan); /* meanwhile */
  return has_ended ? ZUPHINKA_REPORT_GIVEN_UP : report;
}

/* Goes on with a call from what it does next to its end, with the lock held before and after, and not while a callback runs. Returns its error. */
static enum zuphinka_pool_error drive_on(struct zuphinka_pool *pool, struct run *run, struct zuphinka_call *call, uint32_t status) {
  run->began = 0;
  run->token = NULL;
  run->has_made = run->lacks_memory = false;
  while (status == ZUPHINKA_STATUS_DONE) {
    if (run->next.action == ZUPHINKA_ACTION_SLEEP) run->wakes = condition_of(pool, run->next.ticket)->wakes;
    if (run->next.has_wake) wake_from(pool, run->next.wake);
    if (run->next.action == ZUPHINKA_ACTION_DONE) break;
    uint32_t report = act(pool, run);
    struct zuphinka_event event = {run->at.milliseconds, run->token, run->start.caller, report};
    status = zuphinka_advance(&pool->core, call, &event, &run->next);
  }
  return status == ZUPHINKA_STATUS_AT_ONCE ? ZUPHINKA_POOL_ERROR_NONE : error_of_end(pool, run);
}

/* Makes a call from its beginning to its end, with the lock held before and after, and not while a callback runs. Returns its error. */
static inline enum zuphinka_pool_error drive(struct zuphinka_pool *pool, struct run *run) {
  struct zuphinka_call call;
  uint32_t status = zuphinka_begin(&pool->core, &run->start, &call, &run->next);
  return status == ZUPHINKA_STATUS_AT_ONCE ? ZUPHINKA_POOL_ERROR_NONE : drive_on(pool, run, &call, status);
}

/* ---- the calls */

/* Begins the loan of an object that was lent by a call just now, with the lock held. */
static void begin_loan(struct zuphinka_pool *pool, const struct run *run, struct zuphinka_pool_loan *loan) {
  uint64_t at = place_of(run->next.object), number = ++pool->last_loan;
  struct place *place = &pool->places.all[at];
  place->number = number;
  place->lent = run->at;
  place->borrower = run->start.caller;
  place->is_reported = false;
  measure(&pool->measures.waits, run->first, run->at.nanoseconds);
  *loan = (struct zuphinka_pool_loan){place->object, run->next.number, pool->number, at, number};
}

static enum zuphinka_pool_error borrow(struct zuphinka_pool *pool, int64_t limit, struct zuphinka_pool_loan *loan) {
  struct run run;
  begin_run(pool, &run, ZUPHINKA_KIND_BORROW, limit);
  lock(pool);
  keep_room(pool, &run);
  run.start.at += !pool->host.now; /* the clock was rounded down, and a wait is as long as it is to be */
  enum zuphinka_pool_error error = drive(pool, &run);
  if (!error) begin_loan(pool, &run, loan); /* the next call stores what it cut: the loan has begun */
  else {
    pool->measures.timeouts += error == ZUPHINKA_POOL_ERROR_TIMED_OUT;
    store_cut(pool, &run);
  }
  unlock(pool);
  return error;
}

enum zuphinka_pool_error zuphinka_pool_get(struct zuphinka_pool *pool, struct zuphinka_pool_loan *loan) { return borrow(pool, NEVER, loan); }

enum zuphinka_pool_error zuphinka_pool_try_get(struct zuphinka_pool *pool, struct zuphinka_pool_loan *loan) { return borrow(pool, AT_ONCE, loan); }

enum zuphinka_pool_error zuphinka_pool_get_timed(struct zuphinka_pool *pool, uint64_t milliseconds, struct zuphinka_pool_loan *loan) {
  return borrow(pool, after(milliseconds), loan);
}

/* Ends the loan of the object of a place, with the lock held before and after. Meanwhile the object is not lent. Returns the error. */
static enum zuphinka_pool_error end_loan_of(struct zuphinka_pool *pool, struct run *run, uint64_t at) {
  struct place *place = &pool->places.all[at];
  uint64_t number = place->number, lent = place->lent.nanoseconds;
  place->number = 0;
  run->start.id = place->id;
  run->start.object = token_of(at);
  enum zuphinka_pool_error error = drive(pool, run);
  if (!error) measure(&pool->measures.loans, lent, run->first);
  if (!error || error == ZUPHINKA_POOL_ERROR_GONE) return error;
  if (error == ZUPHINKA_POOL_ERROR_NOT_LENT) { /* it was reclaimed, before a change to settings that reclaim none */
    destroy_object(pool, run, at);
    return ZUPHINKA_POOL_ERROR_GONE;
  }
  pool->places.all[at].number = number; /* the call lacked something */
  return error;
}

/* Ends a loan by a return or an invalidation. It is read under the lock, since another thread may end it too. */
static enum zuphinka_pool_error end_loan(struct zuphinka_pool *pool, uint32_t kind, struct zuphinka_pool_loan *loan) {
  struct run run;
  begin_run(pool, &run, kind, NEVER);
  lock(pool);
  enum zuphinka_pool_error error = error_of_loan(pool, loan);
  if (!error) {
    error = end_loan_of(pool, &run, loan->place);
    bool has_ended = !error || error == ZUPHINKA_POOL_ERROR_GONE;
    if (has_ended) *loan = (struct zuphinka_pool_loan){.id = ZUPHINKA_POOL_NO_LOAN};
  }
  store_cut(pool, &run);
  unlock(pool);
  return error;
}

enum zuphinka_pool_error zuphinka_pool_give_back(struct zuphinka_pool *pool, struct zuphinka_pool_loan *loan) {
  return end_loan(pool, ZUPHINKA_KIND_RETURN, loan);
}

enum zuphinka_pool_error zuphinka_pool_invalidate(struct zuphinka_pool *pool, struct zuphinka_pool_loan *loan) {
  return end_loan(pool, ZUPHINKA_KIND_INVALIDATE, loan);
}

enum zuphinka_pool_error zuphinka_pool_touch(struct zuphinka_pool *pool, const struct zuphinka_pool_loan *loan) {
  struct run run;
  begin_run(pool, &run, ZUPHINKA_KIND_TOUCH, NEVER);
  lock(pool);
  const struct zuphinka_pool_loan used = *loan; /* another thread may end it meanwhile */
  enum zuphinka_pool_error error = error_of_loan(pool, &used);
  if (!error) {
    run.start.id = used.id;
    run.loan = &used;
    error = drive(pool, &run);
    if (error_of_loan(pool, &used)) error = error_of_loan(pool, &used);
    else if (error == ZUPHINKA_POOL_ERROR_NOT_LENT) error = ZUPHINKA_POOL_ERROR_GONE; /* as in end_loan */
  }
  store_cut(pool, &run);
  unlock(pool);
  return error;
}

/* Makes a call that is for no loan, and stores its counts, unless a pointer is null. */
static enum zuphinka_pool_error count_by(struct zuphinka_pool *pool, uint32_t kind, uint64_t *count, uint64_t *freed) {
  struct run run;
  begin_run(pool, &run, kind, NEVER);
  lock(pool);
  if (kind == ZUPHINKA_KIND_CLOSE) wake(&pool->conditions[CUT]); /* those that sleep there find it closed */
  enum zuphinka_pool_error error = drive(pool, &run);
  store_cut(pool, &run);
  unlock(pool);
  if (count) *count = run.next.count;
  if (freed) *freed = run.next.freed;
  return error;
}

enum zuphinka_pool_error zuphinka_pool_add(struct zuphinka_pool *pool) { return count_by(pool, ZUPHINKA_KIND_ADD, NULL, NULL); }

enum zuphinka_pool_error zuphinka_pool_fill(struct zuphinka_pool *pool, uint64_t *filled) {
  return count_by(pool, ZUPHINKA_KIND_FILL, filled, NULL);
}

enum zuphinka_pool_error zuphinka_pool_evict(struct zuphinka_pool *pool, struct zuphinka_pool_eviction *eviction) {
  return count_by(pool, ZUPHINKA_KIND_EVICT, eviction ? &eviction->examined : NULL, eviction ? &eviction->destroyed : NULL);
}

enum zuphinka_pool_error zuphinka_pool_reclaim(struct zuphinka_pool *pool, uint64_t *reclaimed) {
  return count_by(pool, ZUPHINKA_KIND_RECLAIM, reclaimed, NULL);
}

/* Reports the loans that have lasted too long, each once, without the lock. */
static void report_leaks(struct zuphinka_pool *pool) {
  const struct zuphinka_pool_host *host = &pool->host;
  bool is_over = host->leak_after_ms == 0;
  uint64_t next = 0, now = is_over ? 0 : time_of(pool).milliseconds;
  while (!is_over) {
    struct place found;
    lock(pool);
    bool is_found = find_long_loan(&pool->places, host->leak_after_ms, now, &next, &found);
    is_over = next == pool->places.capacity;
    unlock(pool);
    if (is_found) host->leak(host->context, found.id, found.borrower, found.lent.milliseconds);
  }
}

enum zuphinka_pool_error zuphinka_pool_maintain(struct zuphinka_pool *pool, struct zuphinka_pool_maintenance *done) {
  struct zuphinka_pool_maintenance all = {.reclaimed = 0};
  report_leaks(pool);
  lock(pool);
  keep_room(pool, NULL);
  unlock(pool);
  enum zuphinka_pool_error error = zuphinka_pool_evict(pool, &all.eviction);
  if (!error) error = zuphinka_pool_reclaim(pool, &all.reclaimed);
  if (!error) error = zuphinka_pool_fill(pool, &all.filled);
  if (done) *done = all;
  return error;
}

enum zuphinka_pool_error zuphinka_pool_clear(struct zuphinka_pool *pool, uint64_t *destroyed) {
  return count_by(pool, ZUPHINKA_KIND_CLEAR, destroyed, NULL);
}

uint64_t zuphinka_pool_close(struct zuphinka_pool *pool) {
  uint64_t destroyed = 0;
  if (pool->process == getpid()) count_by(pool, ZUPHINKA_KIND_CLOSE, &destroyed, NULL);
  return destroyed;
}

static struct snapshot snapshot_of(struct zuphinka_pool *pool) {
  lock(pool);
  struct snapshot seen = look(pool);
  unlock(pool);
  return seen;
}

bool zuphinka_pool_is_closed(struct zuphinka_pool *pool) { return snapshot_of(pool).state.is_closed; }
bool zuphinka_pool_is_low(struct zuphinka_pool *pool) { return snapshot_of(pool).is_low; }
void zuphinka_pool_counts(struct zuphinka_pool *pool, struct zuphinka_tally *counts) { *counts = snapshot_of(pool).counts; }

enum zuphinka_pool_error zuphinka_pool_cut(struct zuphinka_pool *pool, zuphinka_pool_store *store, void *context, uint64_t *entries) {
  if (entries) *entries = 0;
  lock(pool);
  bool has_turn = wait_for_cut(pool, NULL);
  enum zuphinka_pool_error error = has_turn ? cut_and_store(pool, store, context, entries, NULL) : ZUPHINKA_POOL_ERROR_STORING;
  unlock(pool);
  return error;
}

/* Reads settings from a text. Returns the error. */
static enum zuphinka_pool_error read_settings(const char *text, size_t length, struct zuphinka_setup *setup) {
  char key;
  uint64_t size = 0;
  return find_error(ZUPHINKA_END_NONE, zuphinka_settings(text, length, setup, &key, 1, &size));
}

enum zuphinka_pool_error zuphinka_pool_reconfigure(struct zuphinka_pool *pool, const char *settings, size_t length, zuphinka_pool_store *store,
                                                   void *context, uint64_t *first) {
  struct change change = {.text = settings, .length = length};
  if (!settings) return ZUPHINKA_POOL_ERROR_NULL_POINTER;
  bool has_store = pool->journal == ZUPHINKA_POOL_JOURNAL_SEGMENTS && !store;
  if (has_store) store = pool->host.store;
  if (has_store) context = pool->host.context;
  if (pool->journal != ZUPHINKA_POOL_JOURNAL_OFF && !store) return ZUPHINKA_POOL_ERROR_MISSING_CALLBACK;
  enum zuphinka_pool_error error = read_settings(settings, length, &change.setup);
  if (error) return error;
  lock(pool);
  if (pool->journal == ZUPHINKA_POOL_JOURNAL_OFF) error = find_error(ZUPHINKA_END_NONE, cut_off(pool, &change));
  else if (wait_for_cut(pool, NULL)) error = cut_and_store(pool, store, context, NULL, &change);
  else error = ZUPHINKA_POOL_ERROR_STORING;
  unlock(pool);
  if (change.is_made && first) *first = change.first;
  return change.is_made ? ZUPHINKA_POOL_ERROR_NONE : error;
}

/* ---- the pool */

/* Opens the core of a pool whose callbacks are set. */
static enum zuphinka_pool_error open_core(struct zuphinka_pool *pool, const char *settings, size_t length) {
  const struct zuphinka_pool_host *host = &pool->host;
  struct zuphinka_options options = {.pool = pool->number,
                                     .max_overtakes = host->max_overtakes ? host->max_overtakes : MOST_OVERTAKES,
                                     .overtake_millis = host->overtake_ms ? host->overtake_ms : OVERTAKE_MS,
                                     .activates = host->activate || host->max_lifetime_ms > 0,
                                     .validates = host->validate,
                                     .passivates = host->passivate || host->max_lifetime_ms > 0,
                                     .drops_journal = pool->journal == ZUPHINKA_POOL_JOURNAL_OFF};
  struct zuphinka_setup setup;
  cpu_set_t processors;
  enum zuphinka_pool_error error = read_settings(settings, length, &setup);
  if (error) return error;
  if (host->is_fair) options.max_overtakes = options.overtake_millis = 0;
  uint32_t status = zuphinka_open_with(&pool->core, settings, length, &options);
  take_settings(pool, &setup);
  pool->processors = sched_getaffinity(0, sizeof processors, &processors) == 0 ? (uint64_t)CPU_COUNT(&processors) : CPU_SETSIZE;
  pool->opened = monotonic();
  pool->last_loan = FIRST_LOAN;
  return find_error(ZUPHINKA_END_NONE, status);
}

/* Frees the memory of a pool, except for its objects. */
static void free_pool(struct zuphinka_pool *pool) {
  zuphinka_drop(&pool->core);
  free(pool->unstored.text);
  free(pool->places.all);
  free(pool);
}

enum zuphinka_pool_error zuphinka_pool_open(struct zuphinka_pool **pool, const char *settings, size_t length, const struct zuphinka_pool_host *host,
                                            enum zuphinka_pool_journal journal) {
  static atomic_uint_least64_t numbered;
  if (!pool || !settings || !host) return ZUPHINKA_POOL_ERROR_NULL_POINTER;
  if (host->size != sizeof *host) return ZUPHINKA_POOL_ERROR_UNKNOWN_SIZE; /* and nothing else of it is read */
  if ((unsigned)journal > ZUPHINKA_POOL_JOURNAL_SEGMENTS) return ZUPHINKA_POOL_ERROR_UNKNOWN_JOURNAL;
  bool lacks_store = journal == ZUPHINKA_POOL_JOURNAL_SEGMENTS && !host->store, lacks_leak = host->leak_after_ms > 0 && !host->leak;
  if (!host->make || !host->destroy || lacks_store || lacks_leak) return ZUPHINKA_POOL_ERROR_MISSING_CALLBACK;
  struct zuphinka_pool *opened = malloc(sizeof *opened);
  if (!opened) return ZUPHINKA_POOL_ERROR_OUT_OF_MEMORY;
  *opened = (struct zuphinka_pool){.host = *host, .journal = journal};
  opened->number = atomic_fetch_add(&numbered, 1) + 1;
  opened->process = getpid();
  enum zuphinka_pool_error error = open_core(opened, settings, length);
  if (error) free_pool(opened);
  else *pool = opened;
  return error;
}

/* Returns whether no thread is in a call of the copy of a pool in a forked process: one of another thread is unfinished for ever. */
static bool is_finished(struct zuphinka_pool *pool) {
  return try_take(&pool->lock) && !pool->cutter && look(pool).state.running == 0;
}

enum zuphinka_pool_error zuphinka_pool_end(struct zuphinka_pool *pool) {
  enum zuphinka_pool_error error = ZUPHINKA_POOL_ERROR_NONE;
  if (!pool) return error;
  bool is_copy = pool->process != getpid();
  if (is_copy && !is_finished(pool)) return error;
  if (!is_copy) {
    if (!zuphinka_pool_is_closed(pool)) zuphinka_pool_close(pool);
    struct zuphinka_tally counts = snapshot_of(pool).counts;
    if (pool->journal == ZUPHINKA_POOL_JOURNAL_SEGMENTS) error = zuphinka_pool_cut(pool, pool->host.store, pool->host.context, NULL);
    if (counts.lent + counts.reserved > 0) return ZUPHINKA_POOL_ERROR_IN_USE;
    if (error) return error;
  }
  free_pool(pool);
  return error;
}
