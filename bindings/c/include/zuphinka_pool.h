/*
 * zuphinka_pool.h: a pool of objects for threads, over zuphinka.h.
 *
 * The host writes callbacks that make and destroy objects and, if it wishes, activate, test and passivate them. The pool lends the objects to
 * threads, with the settings of docs/settings.md.
 *
 * The installed libraries have this pool. Otherwise compile bindings/c/src/zuphinka_pool.c with the program, with -std=c11 and -pthread. zuphinka.h
 * has the commands. bindings/c/examples/shared_life.c is a program to copy from.
 *
 * The library of zuphinka.h decides what a call does next, which threads wait, which one is woken, and when a journal is dropped:
 * docs/proved.md says what of that is proved. The lock, the sleep of threads, the loans and the segments of the journal are not proved but
 * tested, by tests/play_c_pool.py.
 *
 * Rules
 *
 *   - Threads may call a pool at any time between `zuphinka_pool_open` and `zuphinka_pool_end`, also several at once. No call comes from a signal
 *     handler, and no thread is cancelled in a call.
 *   - A forked process has a copy of each pool of its parent, but the objects and the journal are the parent's. It may only close and end the copy,
 *     which calls no callback and waits for nobody. It may open pools of its own.
 *   - Callbacks run in the calling thread, without the pool's lock, and return normally. They may call the pool, except `zuphinka_pool_end`. While
 *     `store` runs nothing else cuts the journal: a call of its own gets ZUPHINKA_POOL_ERROR_JOURNAL_FULL if the journal is full. A callback that
 *     fails reports its reason to the host itself, in its context or in a variable of the thread.
 *   - Pointers point to memory of their types. A pointer may be null only if its description says so.
 *
 * No object is made while maxTotal others exist, not counting those that were reclaimed from their holders: the pool destroys an object before it
 * frees the object's place. A call that fails leaves no object without an owner and no place taken.
 *
 * The journal
 *
 * Each step makes one entry in the pool's journal: a borrow and a return take four. A journal has room for journalLimit entries, and is
 * - dropped (ZUPHINKA_POOL_JOURNAL_OFF): the pool drops entries as it goes and keeps few. It runs out of room only if journalLimit is less than
 *   six entries for each present object and two more;
 * - kept (ZUPHINKA_POOL_JOURNAL_MEMORY): the pool stores all entries. It lends nothing once its journal is full: a borrow that makes an object needs
 *   room for six entries, one that takes an idle object for four. `zuphinka_pool_is_low` says when to call `zuphinka_pool_cut`;
 * - stored in segments (ZUPHINKA_POOL_JOURNAL_SEGMENTS): the pool cuts its journal in time and passes each segment to `store`. A borrow does this if
 *   less than a quarter of the room is left, and `zuphinka_pool_maintain` if less than half is left. A call that finds the journal full cuts it, and
 *   the segment is stored once the call is over, by the next borrow after one that lends. Entries in memory are lost if the process is killed: to lose
 *   few, call `zuphinka_pool_cut` with the same `store` now and then.
 * `pool check SETTINGS SEGMENT..` checks the segments of a pool, in their order, as the one journal that they are. Callers in the journal are
 * threads, numbered from 0 in the order of their first calls. Times never decrease.
 */
#ifndef ZUPHINKA_POOL_H
#define ZUPHINKA_POOL_H

#include "zuphinka.h"

#ifdef __cplusplus
extern "C" {
#endif

/* A pool. */
struct zuphinka_pool;

/* An error of a call. `zuphinka_pool_error_text` explains each. */
enum zuphinka_pool_error {
  ZUPHINKA_POOL_ERROR_NONE = 0,
  ZUPHINKA_POOL_ERROR_CLOSED = 1,             /* the pool is closed */
  ZUPHINKA_POOL_ERROR_EXHAUSTED = 2,          /* no object and no place is free, and the call or the settings say not to wait */
  ZUPHINKA_POOL_ERROR_TIMED_OUT = 3,          /* no object and no place was free for as long as the call or the settings say */
  ZUPHINKA_POOL_ERROR_MAKE_FAILED = 4,        /* `make` failed */
  ZUPHINKA_POOL_ERROR_CREATE_TEST_FAILED = 5, /* a new object failed its test of testOnCreate */
  ZUPHINKA_POOL_ERROR_ACTIVATE_FAILED = 6,    /* `activate` failed on a new object */
  ZUPHINKA_POOL_ERROR_BORROW_TEST_FAILED = 7, /* a new object failed its test of testOnBorrow */
  ZUPHINKA_POOL_ERROR_PASSIVATE_FAILED = 8,   /* `passivate` failed on a new object */
  ZUPHINKA_POOL_ERROR_NO_PLACE = 9,           /* no place is free for a new object */
  ZUPHINKA_POOL_ERROR_GONE = 10,              /* the object was reclaimed from its holder */
  ZUPHINKA_POOL_ERROR_NOT_LENT = 11,          /* the loan ended before */
  ZUPHINKA_POOL_ERROR_IN_USE = 12,            /* the pool ends while objects are lent, or a call is in progress */
  ZUPHINKA_POOL_ERROR_JOURNAL_FULL = 13,      /* the journal has no room */
  ZUPHINKA_POOL_ERROR_STORE_FAILED = 14,      /* `store` failed; the pool keeps the segment for the next try */
  ZUPHINKA_POOL_ERROR_OUT_OF_MEMORY = 15,     /* an allocation failed */
  ZUPHINKA_POOL_ERROR_NO_LOCK = 16,           /* no call returns it: the pool needs no mutex of the system */
  ZUPHINKA_POOL_ERROR_MISSING_CALLBACK = 17,  /* `make` or `destroy` is null; or so is `store`, for a journal in segments, or `leak` beside its time */
  ZUPHINKA_POOL_ERROR_NOT_TEXT = 18,          /* the settings are not UTF-8 */
  ZUPHINKA_POOL_ERROR_NOT_TOML = 19,          /* the settings are not a TOML document */
  ZUPHINKA_POOL_ERROR_UNKNOWN_KEY = 20,       /* the settings have an unknown key; `zuphinka_settings` names the key of these three */
  ZUPHINKA_POOL_ERROR_WRONG_TYPE = 21,        /* a value in the settings has the wrong type */
  ZUPHINKA_POOL_ERROR_OUT_OF_RANGE = 22,      /* a number in the settings is out of range */
  ZUPHINKA_POOL_ERROR_NULL_POINTER = 23,      /* the place for the pool, the settings or the host is null */
  ZUPHINKA_POOL_ERROR_UNKNOWN_JOURNAL = 24,   /* the use of the journal is none of `enum zuphinka_pool_journal` */
  ZUPHINKA_POOL_ERROR_FOREIGN = 25,           /* the loan is one of another pool */
  ZUPHINKA_POOL_ERROR_BUFFER_TOO_SMALL = 26,  /* the text does not fit into the buffer */
  ZUPHINKA_POOL_ERROR_UNKNOWN_SIZE = 27,      /* the library knows no `struct zuphinka_pool_host` of the size that the host has in it */
  ZUPHINKA_POOL_ERROR_STORING = 28            /* `store` called it, and the journal is not cut while a segment of it is stored */
};

/* The use of the journal, as explained above. */
enum zuphinka_pool_journal { ZUPHINKA_POOL_JOURNAL_OFF = 0, ZUPHINKA_POOL_JOURNAL_MEMORY = 1, ZUPHINKA_POOL_JOURNAL_SEGMENTS = 2 };

/* Takes a segment: `size` bytes of text, whose first entry has position `first` in the history. Returns whether it has stored all of it. */
typedef bool zuphinka_pool_store(void *context, uint64_t first, const char *text, size_t size);

/* The callbacks of a host, and what it chooses. Each callback gets `context`. Those that return bool return whether they succeeded. Members that are 0
 * or null are as if they were not there, so name those that you set: `struct zuphinka_pool_host host = {.size = sizeof host, .make = make, ..};` */
struct zuphinka_pool_host {
  size_t size; /* `sizeof host`: a library that knows more members takes them as 0 then */

  void *context; /* any pointer, null included */

  /* Makes an object and stores it in `object`, any pointer. Its `id` in the journal is never used again. If it fails there is no object. */
  bool (*make)(void *context, uint64_t id, void **object);

  /* Makes an object ready for its holder: a new one, an idle one that is lent, and one that an eviction run tests. Null: nothing to do. */
  bool (*activate)(void *context, void *object);

  /* Returns whether an object can be used. The pool calls it if the settings say so (testOnBorrow and its like). Null: each object can. */
  bool (*validate)(void *context, void *object);

  /* Makes an object ready to be idle: one that is returned, added, or tested by an eviction run. Null: nothing to do. */
  bool (*passivate)(void *context, void *object);

  /* Destroys an object. The pool has no pointer to it any more. */
  void (*destroy)(void *context, void *object);

  /* Returns the time in milliseconds. Null: milliseconds since the pool was opened, by CLOCK_MONOTONIC. */
  uint64_t (*now)(void *context);

  /* Takes a segment, for ZUPHINKA_POOL_JOURNAL_SEGMENTS; otherwise null. If it fails the pool keeps the segment, cuts no further and tries again
   * later, until its journal is full. A host that does without a segment returns true. */
  zuphinka_pool_store *store;

  /* How long a thread waits, in milliseconds by the pool's clock, while any number of borrows may overtake it; 0 stands for 5. Threads that wait queue
   * in the order of arrival. A borrow overtakes them if it begins later and takes an object or a place that they could have had. */
  uint64_t overtake_ms;

  /* How many borrows may overtake a thread that has waited for so long, from then on: 1 to 4,294,967,295; 0 stands for 64. Once so many have overtaken
   * the first one, further borrows queue too, and `zuphinka_pool_try_get` finds nothing. They also do so if the first one has waited for so long, and any
   * thread was woken and found nothing, until one leaves the queue. From 2,147,483,647 on there is no limit, and no borrow queues while there is an
   * object or a place: a wait has no bound. */
  uint32_t max_overtakes;

  /* Whether no borrow overtakes a thread that waits, whatever these two say. */
  bool is_fair;

  /* The age at which objects are destroyed, in milliseconds by the pool's clock since they were made; 0: at none. An object of that age or more is not
   * lent: a borrow destroys it and tries the next one. So does its return, and an eviction run if testWhileIdle is set. No object is taken from its
   * holder. In the journal it failed to be activated, tested or passivated. */
  uint64_t max_lifetime_ms;

  /* The time after which a loan is reported to `leak`, in milliseconds by the pool's clock; 0: never. */
  uint64_t leak_after_ms;

  /* Reports a loan that has lasted for `leak_after_ms`, once: the object's `id` in the journal, the number of the thread that borrowed it, as
   * `zuphinka_pool_caller` returns it there, and the time at which it was lent. `zuphinka_pool_maintain` looks for such loans, and nothing else does. The
   * loan may end at the same time. May be null if `leak_after_ms` is 0. */
  void (*leak)(void *context, uint64_t id, uint32_t borrower, uint64_t since);
};

/*
 * A lent object. Its holder returns it to `zuphinka_pool_give_back` or `zuphinka_pool_invalidate`, once, from any thread. A copy is the same loan: it
 * ends with it, and no call takes a loan that has ended, even if the object is lent again.
 */
struct zuphinka_pool_loan {
  void *object;
  uint64_t id; /* the object's id in the journal */

  /* Only the library uses these. No other loan of the process has the same numbers. */
  uint64_t pool, place, number;
};

/* The id in a loan that has ended. */
#define ZUPHINKA_POOL_NO_LOAN UINT64_MAX

/* A pool, and its name in a text of metrics: UTF-8, ended by a null. */
struct zuphinka_pool_named {
  struct zuphinka_pool *pool;
  const char *name;
};

/* The last line of a text of metrics. */
#define ZUPHINKA_POOL_METRICS_END "# EOF\n"

/* What an eviction run did, in objects. */
struct zuphinka_pool_eviction {
  uint64_t examined;
  uint64_t destroyed;
};

/* What maintenance did, in objects. */
struct zuphinka_pool_maintenance {
  struct zuphinka_pool_eviction eviction;
  uint64_t reclaimed;
  uint64_t filled;
};

/*
 * Opens a pool with settings from a text, a TOML document of `length` bytes (docs/settings.md; of no bytes: all defaults), and stores it in
 * `pool`. It copies `host`, and makes no object yet.
 *
 * Errors, and `pool` is unchanged: ZUPHINKA_POOL_ERROR_NULL_POINTER, also for settings of no bytes; _UNKNOWN_SIZE, _UNKNOWN_JOURNAL,
 * _MISSING_CALLBACK, _NOT_TEXT, _NOT_TOML, _UNKNOWN_KEY, _WRONG_TYPE, _OUT_OF_RANGE, _OUT_OF_MEMORY.
 */
enum zuphinka_pool_error zuphinka_pool_open(struct zuphinka_pool **pool, const char *settings, size_t length,
                                            const struct zuphinka_pool_host *host, enum zuphinka_pool_journal journal);

/*
 * Borrows an object, an idle one or a new one, and stores it in `loan`. Waits for one if blockWhenExhausted is set, for maxWaitMillis at most.
 * If removeAbandonedOnBorrow is set, it first reclaims abandoned objects. An idle object that fails is destroyed, and the next one tried.
 *
 * Errors, and `loan` is unchanged: ZUPHINKA_POOL_ERROR_CLOSED, _EXHAUSTED, _TIMED_OUT, _MAKE_FAILED, _CREATE_TEST_FAILED, _ACTIVATE_FAILED,
 * _BORROW_TEST_FAILED, _JOURNAL_FULL, _OUT_OF_MEMORY. A new object that failed is destroyed. A call that is in `make` while the pool closes
 * still gets its object.
 */
enum zuphinka_pool_error zuphinka_pool_get(struct zuphinka_pool *pool, struct zuphinka_pool_loan *loan);

/* Does the same without waiting: ZUPHINKA_POOL_ERROR_EXHAUSTED if it would wait, also behind others (`max_overtakes`). */
enum zuphinka_pool_error zuphinka_pool_try_get(struct zuphinka_pool *pool, struct zuphinka_pool_loan *loan);

/*
 * Does the same, and waits for an object for at most `milliseconds`, and no longer than the settings say. Neither bounds the time of the
 * callbacks; nor does `zuphinka_pool_try_get`. If a journal of segments is full while another thread stores one, a borrow waits until the journal is
 * cut or that thread is done, but no longer than for an object. Then it gets ZUPHINKA_POOL_ERROR_JOURNAL_FULL.
 */
enum zuphinka_pool_error zuphinka_pool_get_timed(struct zuphinka_pool *pool, uint64_t milliseconds, struct zuphinka_pool_loan *loan);

/*
 * Returns a lent object. It is tested if testOnReturn is set, and passivated. It is then idle; or destroyed if it failed, maxIdle objects are
 * idle or the pool is closed. Ends the loan, and sets its id to ZUPHINKA_POOL_NO_LOAN.
 *
 * Errors: ZUPHINKA_POOL_ERROR_GONE, if the object was reclaimed: it is destroyed, and the loan has ended. ZUPHINKA_POOL_ERROR_NOT_LENT, if the
 * loan ended before, and ZUPHINKA_POOL_ERROR_FOREIGN, if it is one of another pool: nothing is done. ZUPHINKA_POOL_ERROR_JOURNAL_FULL and
 * _OUT_OF_MEMORY come only if the object isn't lent any more, since it was reclaimed: nothing is done. The object belongs to its holder alone, who
 * may return it again or destroy it.
 */
enum zuphinka_pool_error zuphinka_pool_give_back(struct zuphinka_pool *pool, struct zuphinka_pool_loan *loan);

/* Returns a lent object that can't be used any more: it is destroyed. Ends the loan, with the errors of `zuphinka_pool_give_back`. */
enum zuphinka_pool_error zuphinka_pool_invalidate(struct zuphinka_pool *pool, struct zuphinka_pool_loan *loan);

/*
 * Notes that a lent object is used: it counts as abandoned only after removeAbandonedTimeoutMillis without a use.
 *
 * Errors: ZUPHINKA_POOL_ERROR_GONE, if the object was reclaimed: it belongs to its holder alone, until the holder returns it.
 * ZUPHINKA_POOL_ERROR_NOT_LENT, _FOREIGN, _JOURNAL_FULL, _OUT_OF_MEMORY: nothing is noted.
 */
enum zuphinka_pool_error zuphinka_pool_touch(struct zuphinka_pool *pool, const struct zuphinka_pool_loan *loan);

/*
 * Makes one more idle object.
 *
 * Errors, and there is no new object: ZUPHINKA_POOL_ERROR_NO_PLACE, _CLOSED, _MAKE_FAILED, _CREATE_TEST_FAILED, _PASSIVATE_FAILED,
 * _JOURNAL_FULL, _OUT_OF_MEMORY.
 */
enum zuphinka_pool_error zuphinka_pool_add(struct zuphinka_pool *pool);

/*
 * Makes idle objects until minIdle are idle or no place is free. Stores in `filled`, unless it is null, how many it made, also after an error.
 *
 * Errors: those of `zuphinka_pool_add` except ZUPHINKA_POOL_ERROR_NO_PLACE. The objects made before stay.
 */
enum zuphinka_pool_error zuphinka_pool_fill(struct zuphinka_pool *pool, uint64_t *filled);

/*
 * Examines idle objects, as many as numTestsPerEvictionRun says. Destroys those that were idle for too long, and those that fail their test if
 * testWhileIdle is set. Stores in `eviction`, unless it is null, what it did, also after an error.
 *
 * Errors: ZUPHINKA_POOL_ERROR_CLOSED, _JOURNAL_FULL, _OUT_OF_MEMORY.
 */
enum zuphinka_pool_error zuphinka_pool_evict(struct zuphinka_pool *pool, struct zuphinka_pool_eviction *eviction);

/*
 * Reclaims abandoned objects if removeAbandonedOnMaintenance is set: they lose their places, and are destroyed when their holders return them.
 * Stores in `reclaimed`, unless it is null, how many, also after an error.
 *
 * Errors: ZUPHINKA_POOL_ERROR_JOURNAL_FULL, _OUT_OF_MEMORY.
 */
enum zuphinka_pool_error zuphinka_pool_reclaim(struct zuphinka_pool *pool, uint64_t *reclaimed);

/*
 * Maintains the pool: reports the loans that last too long (`leak`), also of a closed pool; then evicts, reclaims and fills. If the journal is stored in
 * segments and less than half of its room is left, it stores a segment before that. Call it now and then, from one thread. Stores in `done`, unless it
 * is null, what it did, also after an error. It stops at the first error.
 *
 * Errors: those of the three calls. A segment that can't be stored is tried again later.
 */
enum zuphinka_pool_error zuphinka_pool_maintain(struct zuphinka_pool *pool, struct zuphinka_pool_maintenance *done);

/*
 * Destroys the idle objects. Stores in `destroyed`, unless it is null, how many, also after an error.
 *
 * Errors: ZUPHINKA_POOL_ERROR_JOURNAL_FULL, _OUT_OF_MEMORY.
 */
enum zuphinka_pool_error zuphinka_pool_clear(struct zuphinka_pool *pool, uint64_t *destroyed);

/*
 * Closes the pool and destroys its idle objects; returns how many. All threads that wait get ZUPHINKA_POOL_ERROR_CLOSED. Lent objects stay with
 * their holders, and are destroyed when they are returned. It never fails. A pool that was closed before is unchanged. In a forked process it does
 * nothing.
 */
uint64_t zuphinka_pool_close(struct zuphinka_pool *pool);

/* Returns whether the pool is closed. */
bool zuphinka_pool_is_closed(struct zuphinka_pool *pool);

/* Stores the counts, all of one time, in `counts`. */
void zuphinka_pool_counts(struct zuphinka_pool *pool, struct zuphinka_tally *counts);

/*
 * Writes the state of `count` pools as a text in the OpenMetrics format, of the media type "application/openmetrics-text; version=1.0.0;
 * charset=utf-8". The numbers of a pool are all of one time, and have its name as the label `pool`; no two pools have the same name. The text is
 * stored in `text`, a buffer of `capacity` bytes, without a null after it, and its size in `size`. For each pool it takes at most 5,000 bytes and 51
 * times the name, in which each quote, backslash and line feed takes two bytes. A program that adds metrics of its own puts them before
 * ZUPHINKA_POOL_METRICS_END, the last line.
 *
 *   zuphinka_idle_objects, zuphinka_lent_objects    objects, as `zuphinka_pool_counts` has them
 *   zuphinka_waiting_borrows                        threads that wait for an object
 *   zuphinka_created_objects_total                  objects that the pool asked to make
 *   zuphinka_destroyed_objects_total                objects that were destroyed or could not be made, and those that were reclaimed
 *   zuphinka_borrows_total                          borrows that got an object
 *   zuphinka_timeouts_total                         borrows with the error ZUPHINKA_POOL_ERROR_TIMED_OUT
 *   zuphinka_wait_seconds                           a histogram of how long the borrows took that got an object, callbacks included
 *   zuphinka_loan_seconds                           a histogram of how long objects were lent, until they were returned or invalidated; those that
 *                                                   were reclaimed do not count
 *
 * The buckets of both histograms have the bounds 1, 2.5 and 5 times each power of ten from 0.0001 to 10 seconds, and 100 seconds. With a clock of
 * the host's each time is as exact as that clock, in milliseconds.
 *
 * Errors: ZUPHINKA_POOL_ERROR_BUFFER_TOO_SMALL: `text` has the beginning, and `size` what is needed; `text` may be null if `capacity` is 0.
 * ZUPHINKA_POOL_ERROR_NULL_POINTER, _OUT_OF_MEMORY: nothing is stored.
 */
enum zuphinka_pool_error zuphinka_pool_metrics(const struct zuphinka_pool_named *pools, size_t count, char *text, size_t capacity, size_t *size);

/* Returns whether to cut the journal: it stores entries, and less than a quarter of journalLimit is left. */
bool zuphinka_pool_is_low(struct zuphinka_pool *pool);

/*
 * Cuts the journal: passes the entries that are stored to `store`, as one segment after their base, and continues without them. A segment that
 * an earlier cut could not store comes first. Stores in `entries`, unless it is null, how many entries were stored, also after an error.
 * Without entries it does nothing. The text is copied while the pool lends, and `store` runs without the lock. One cut runs at a time.
 *
 * Errors: ZUPHINKA_POOL_ERROR_STORE_FAILED: the pool keeps the segment for the next cut. ZUPHINKA_POOL_ERROR_OUT_OF_MEMORY: the journal isn't
 * cut. ZUPHINKA_POOL_ERROR_STORING: `store` called it. Nothing is lost.
 */
enum zuphinka_pool_error zuphinka_pool_cut(struct zuphinka_pool *pool, zuphinka_pool_store *store, void *context, uint64_t *entries);

/*
 * Goes on with other settings, from a text as in `zuphinka_pool_open`. The objects stay, also if they are more than maxTotal then: none is made
 * until fewer are present. Calls in progress go on: each has the callbacks that its settings asked for when it began, and a thread that waits does so
 * for the new maxWaitMillis once it is woken or its time is over.
 *
 * Stores in `first`, unless it is null, the position of the first entry with these settings. What the journal stored before is cut off, as one segment
 * with the old settings. It goes to `store`, as by `zuphinka_pool_cut`; if `store` is null, to that of the host, for ZUPHINKA_POOL_JOURNAL_SEGMENTS.
 * A segment that can't be stored then is kept for the next cut. A journal that is dropped needs no `store`. `judge SETTINGS SEGMENT` checks each segment
 * with the settings that it had: keep these beside the first one (docs/journal.md).
 *
 * Errors, and the settings are as before: ZUPHINKA_POOL_ERROR_NULL_POINTER, also for settings of no bytes; _MISSING_CALLBACK, if there is no `store`;
 * _NOT_TEXT, _NOT_TOML, _UNKNOWN_KEY, _WRONG_TYPE, _OUT_OF_RANGE; _JOURNAL_FULL, if the new journalLimit leaves no room for the entries that end what
 * is in progress; _STORE_FAILED, of a segment that an earlier cut could not store; _OUT_OF_MEMORY; _STORING, if `store` called it.
 */
enum zuphinka_pool_error zuphinka_pool_reconfigure(struct zuphinka_pool *pool, const char *settings, size_t length, zuphinka_pool_store *store,
                                                   void *context, uint64_t *first);

/* Returns the number of the calling thread in the journals of all pools. */
uint32_t zuphinka_pool_caller(void);

/* Returns the sentence that explains an error, in English and without a line feed: a constant, also for a code of no error. */
const char *zuphinka_pool_error_text(enum zuphinka_pool_error error);

/*
 * Ends a pool that no thread calls any more: closes it, passes the rest of the journal to `store` if the journal is stored in segments, and frees
 * the pool. Objects that were reclaimed and not returned belong to their holders alone. Null: nothing to do. In a forked process it only frees the
 * memory of the copy, unless a thread of the parent was in a call when it forked: then it does nothing.
 *
 * Errors, and the pool is closed but not ended: ZUPHINKA_POOL_ERROR_IN_USE, if objects are lent: the journal is passed on all the same, since they may
 * never be returned. ZUPHINKA_POOL_ERROR_STORE_FAILED, _OUT_OF_MEMORY, of the last segment.
 */
enum zuphinka_pool_error zuphinka_pool_end(struct zuphinka_pool *pool);

#ifdef __cplusplus
}
#endif

#endif
