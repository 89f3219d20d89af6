/* The cuts of a pool's journal: when it is cut, who stores the segment, and the calls that wait for that. */
#ifndef ZUPHINKA_POOL_CUTS_H
#define ZUPHINKA_POOL_CUTS_H

#include <stdlib.h>

#include "zuphinka_pool_errors.h"
#include "zuphinka_pool_state.h"

/* Wakes the call with this ticket, and the others that may find something now, with the lock held. */
static void wake_from(struct zuphinka_pool *pool, uint64_t ticket) {
  do {
    wake(condition_of(pool, ticket));
  } while (zuphinka_next_wake(&pool->core, &ticket) == ZUPHINKA_STATUS_DONE);
}

static void take_settings(struct zuphinka_pool *pool, const struct zuphinka_setup *settings) {
  pool->settings = *settings;
  pool->low = pool->quarter = settings->journal_limit / 4;
}

/* Cuts the stored entries off, with the lock held. If there is a change of the settings, makes it. Returns the status. */
static uint32_t cut_off(struct zuphinka_pool *pool, struct change *change) {
  uint64_t ticket;
  uint32_t status = change ? zuphinka_reconfigure(&pool->core, change->text, change->length) : zuphinka_cut(&pool->core);
  if (status != ZUPHINKA_STATUS_DONE) return status;
  pool->cuts++;
  wake(&pool->conditions[CUT]);
  if (!change) return status;
  change->is_made = true;
  change->first = look(pool).counts.steps;
  take_settings(pool, &change->setup);
  if (zuphinka_next_wake(&pool->core, &ticket) == ZUPHINKA_STATUS_DONE) wake_from(pool, ticket);
  return status;
}

/* Copies the next line of the base or of the journal. Returns its status: after the last one ZUPHINKA_STATUS_NO_ENTRY. */
static uint32_t copy_line(struct zuphinka *core, struct segment *segment, size_t capacity) {
  char *end = segment->text + segment->size;
  uint64_t left = capacity - segment->size, size = 0, *lines = &segment->base;
  uint32_t status = zuphinka_base(core, *lines, end, left, &size);
  if (status == ZUPHINKA_STATUS_NO_ENTRY) status = zuphinka_line(core, *(lines = &segment->entries), end, left, &size);
  if (status != ZUPHINKA_STATUS_DONE) return status;
  segment->size += size;
  ++*lines;
  return status;
}

/* Copies lines, until `most` are copied or one is not. Returns the status of the last one. */
static uint32_t copy_lines(struct zuphinka *core, struct segment *segment, size_t capacity, uint64_t most) {
  uint32_t status = ZUPHINKA_STATUS_DONE;
  for (uint64_t lines = 0; status == ZUPHINKA_STATUS_DONE && lines < most; lines++) status = copy_line(core, segment, capacity);
  return status;
}

/* Copies the base and the stored entries, and cuts them off: they are the unstored segment then. A critical section is for MOST_LINES lines at most.
 * A pool that drops entries would drop some between two sections, so all of its lines are copied in one. Each line allocates, and other threads may
 * free memory until the next try. */
static enum zuphinka_pool_error copy_segment(struct zuphinka_pool *pool, struct change *change) {
  struct segment segment = {.text = NULL};
  bool is_whole = pool->journal == ZUPHINKA_POOL_JOURNAL_OFF, is_cut = false, is_full = false;
  for (int failures = 0; failures < TRIES && !is_cut && !is_full; failures++) {
    size_t before = segment.size, capacity = 2 * (before + MOST_LINES * ZUPHINKA_LONGEST_LINE);
    char *text = realloc(segment.text, capacity);
    if (!text) continue;
    segment.text = text;
    lock(pool);
    if (is_whole) segment = (struct segment){.text = text};
    uint32_t status = copy_lines(&pool->core, &segment, capacity, is_whole ? UINT64_MAX : MOST_LINES);
    bool is_copied = status == ZUPHINKA_STATUS_NO_ENTRY;
    if (is_copied) status = cut_off(pool, change);
    is_cut = is_copied && status == ZUPHINKA_STATUS_DONE;
    is_full = is_copied && status == ZUPHINKA_STATUS_JOURNAL_FULL;
    segment.first = look(pool).counts.steps - segment.entries;
    unlock(pool);
    if (segment.size > before) failures = -1;
  }
  if (is_cut && segment.entries > 0) pool->unstored = segment;
  else free(segment.text);
  if (is_cut) return ZUPHINKA_POOL_ERROR_NONE;
  return is_full ? ZUPHINKA_POOL_ERROR_JOURNAL_FULL : ZUPHINKA_POOL_ERROR_OUT_OF_MEMORY;
}

/* Stores the unstored segment and then the journal, as the thread that cuts, with the lock held before and after, and not meanwhile. Adds the stored
 * entries to `entries`, unless it is null, and makes a change of the settings, if there is one. After an error the next borrow that tries again is
 * one that finds half of the room that is left. */
static enum zuphinka_pool_error cut_and_store(struct zuphinka_pool *pool, zuphinka_pool_store *store, void *context, uint64_t *entries,
                                              struct change *change) {
  struct segment *segment = &pool->unstored;
  enum zuphinka_pool_error error = ZUPHINKA_POOL_ERROR_NONE;
  uint64_t steps = 0, room = 0;
  zuphinka_steps(&pool->core, &steps);
  pool->cutter = UINT64_C(1) + zuphinka_pool_caller();
  unlock(pool);
  for (bool is_copied = steps == 0 && !change; !error && (segment->text || !is_copied);) {
    if (!segment->text) {
      error = copy_segment(pool, change);
      is_copied = true;
    } else if (store(context, segment->first, segment->text, segment->size)) {
      if (entries) *entries += segment->entries;
      free(segment->text);
      segment->text = NULL;
    } else {
      error = ZUPHINKA_POOL_ERROR_STORE_FAILED;
    }
  }
  lock(pool);
  zuphinka_room(&pool->core, &room);
  pool->low = error && room / 2 < pool->quarter ? room / 2 : pool->quarter;
  pool->cutter = 0;
  wake(&pool->conditions[CUT]);
  return error;
}

/* Stores the journal in time for a borrow, or earlier for maintenance, which is no call (null) and tries a segment again that was not stored; with the
 * lock held before and after, and not meanwhile. The call's first step is then taken at the time after it. */
static void keep_room(struct zuphinka_pool *pool, struct run *run) {
  if (pool->journal != ZUPHINKA_POOL_JOURNAL_SEGMENTS || pool->cutter) return;
  bool is_due = run ? zuphinka_is_low(&pool->core, pool->low) : pool->unstored.text || zuphinka_is_low(&pool->core, 2 * pool->low);
  if (is_due) cut_and_store(pool, pool->host.store, pool->host.context, NULL, NULL);
  if (!is_due || !run) return;
  unlock(pool);
  read_clock(pool, run);
  lock(pool);
}

/* Returns whether the pool is closed, and refuses a call of this kind for that, with the lock held. */
static bool is_refused(struct zuphinka_pool *pool, uint32_t kind) {
  bool is_for_open_pools = kind == ZUPHINKA_KIND_BORROW || kind == ZUPHINKA_KIND_ADD || kind == ZUPHINKA_KIND_EVICT;
  return is_for_open_pools && look(pool).state.is_closed;
}

/* Returns until when a call waits for a cut: a borrow as long as for an object, and so not at all if the settings say that none waits. */
static int64_t end_of_wait_for_cut(const struct zuphinka_pool *pool, struct run *run) {
  if (!run) return NEVER;
  return run->start.kind == ZUPHINKA_KIND_BORROW && !pool->settings.block_when_exhausted ? AT_ONCE : end_of_wait(pool, run);
}

/* Sleeps while another thread cuts the journal or stores what was cut off. If it is for a call, it ends once the journal was cut, or the pool refuses
 * the call, and lasts no longer than for an object. The lock is held before and after. Returns whether no thread cuts any more. */
static bool wait_for_cut(struct zuphinka_pool *pool, struct run *run) {
  uint64_t cuts = run ? pool->cuts : UINT64_MAX;
  int64_t end = end_of_wait_for_cut(pool, run);
  bool may_wait = pool->cutter != UINT64_C(1) + zuphinka_pool_caller();
  while (pool->cutter && pool->cuts <= cuts && may_wait && !(run && is_refused(pool, run->start.kind))) {
    may_wait = sleep_on(pool, &pool->conditions[CUT], end);
  }
  return !pool->cutter;
}

/* Cuts the journal, as the thread that cuts, with the lock held before and after, and not meanwhile. The segment is left: the next borrow stores it, or
 * the call once it is over. */
static void cut_alone(struct zuphinka_pool *pool, struct run *run) {
  pool->cutter = UINT64_C(1) + zuphinka_pool_caller();
  unlock(pool);
  run->has_cut = copy_segment(pool, NULL) == ZUPHINKA_POOL_ERROR_NONE;
  lock(pool);
  if (run->has_cut) pool->low = UINT64_MAX / 2;
  pool->cutter = 0;
  wake(&pool->conditions[CUT]);
}

/* Stores what a call that is over has cut off, with the lock held before and after, and not meanwhile. */
static void store_cut(struct zuphinka_pool *pool, const struct run *run) {
  bool is_left = run->has_cut && !pool->cutter && pool->unstored.text;
  if (is_left) cut_and_store(pool, pool->host.store, pool->host.context, NULL, NULL);
}

/* Makes room in a full journal, with the lock held before and after. It waits for a cut as long as for an object. The call may be in the queue, or note a
 * use: so it stores nothing, unless an older segment is left. Returns the report. */
static uint32_t make_room(struct zuphinka_pool *pool, struct run *run) {
  uint64_t cuts = pool->cuts;
  if (pool->journal != ZUPHINKA_POOL_JOURNAL_SEGMENTS) return ZUPHINKA_REPORT_NO_ROOM;
  bool has_turn = wait_for_cut(pool, run) && pool->cuts == cuts && !is_refused(pool, run->start.kind);
  uint64_t steps = 0;
  zuphinka_steps(&pool->core, &steps);
  if (has_turn && steps > 0 && !pool->unstored.text) cut_alone(pool, run);
  else if (has_turn) cut_and_store(pool, pool->host.store, pool->host.context, NULL, NULL);
  return pool->cuts != cuts ? ZUPHINKA_REPORT_ROOM_MADE : ZUPHINKA_REPORT_NO_ROOM;
}

#endif
