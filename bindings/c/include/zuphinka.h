/*
 * zuphinka.h: an object pool whose decisions are proved, for C and languages that call C.
 *
 * The pool decides; the host acts. For each step the host sends a request: what it wants or what it did. The pool answers what to do with
 * which object. The host makes, tests and destroys its objects. The pool knows an object by its id, a number that it never uses twice. While
 * an object is idle, the pool stores one pointer for it, the object's token, and never follows it.
 *
 * Each step appends one entry to the pool's journal. Its text is that of the program `pool`, and `pool check` checks it. The pool stores the
 * entries in memory, up to the setting journalLimit. A pool that runs longer writes its journal and cuts it in time (`zuphinka_is_low`,
 * `zuphinka_cut`). docs/journal.md lists the inputs with their answers, docs/concepts.md the phases of an object, and
 * docs/c.md explains both C libraries.
 *
 * `python3 tools/build.py zuphinka` builds the library, and `python3 tools/install.py --prefix FOLDER` installs it, as an archive and as a shared
 * library, with files for pkg-config: zuphinka-static for the archive, and zuphinka for the shared library.
 *
 *     cc -o server server.c $(PKG_CONFIG_PATH=FOLDER/lib/pkgconfig pkg-config --cflags --libs zuphinka-static)
 *
 * In the repository, plain_life.c and long_life.c in bindings/c/examples are programs of one thread to copy from. zuphinka_pool.h is a pool for
 * threads over this library: bindings/c/src/zuphinka_pool.c shows how threads share a pool under a lock, and shared_life.c in
 * bindings/c/examples uses it.
 *
 * Rules
 *
 * What is proved holds for callers that keep these rules. Nothing checks them.
 *   - Zero a handle (`struct zuphinka pool = {0};`) before its first call. Do not copy it and do not write to it. A zeroed handle is empty.
 *   - Each report to a call passes its `struct zuphinka_call` as the last report left it. It may be moved. A copy from before a report is not the call
 *     any more: the pool would take the report, for another course of the call than the one that it has.
 *   - Each pointer points to memory of its type or length, writable unless it is const. No pointer is null, even that of a text of no bytes.
 *     The pointers of one call do not overlap each other or the handle.
 *   - One call runs on a handle at a time. Threads that share a pool hold a lock of the host's during each call. Each call may write to the
 *     handle, also one that only reads the pool: so no handle is const. Calls on different handles may run at once. No call comes from a signal
 *     handler, or from a forked child of a process with threads.
 *   - malloc, realloc and free belong to one allocator, aligned as C requires, and stay the same for all calls on a handle.
 * There is no global state. Drop a pool that is no longer used (`zuphinka_drop`): nothing else frees its memory.
 *
 * A call on an empty handle breaks no rule: it returns a status.
 *
 * Threads that wait
 *
 * A borrower that is answered ZUPHINKA_ANSWER_WAIT sleeps on a condition variable, and asks again with the same `number` when it wakes:
 *
 *     pthread_mutex_lock(&lock);
 *     request = (struct zuphinka_request){.number = now(), .input = ZUPHINKA_INPUT_BORROW};
 *     for (;;) {
 *       request.at = now();
 *       status = zuphinka_step(&pool, &request, &reply);
 *       if (status != ZUPHINKA_STATUS_DONE || reply.answer != ZUPHINKA_ANSWER_WAIT) break;
 *       pthread_cond_wait(&changed, &lock);
 *     }
 *     if (status != ZUPHINKA_STATUS_DONE) pthread_cond_signal(&changed);
 *     pthread_mutex_unlock(&lock);
 *
 * The thread whose step may serve a borrower wakes it:
 *   - after ZUPHINKA_ANSWER_PARKED and ZUPHINKA_ANSWER_KEPT, since an object is idle, and after ZUPHINKA_ANSWER_FREED and
 *     ZUPHINKA_ANSWER_RECLAIMED, since a place is free, it wakes one borrower (`pthread_cond_signal`);
 *   - after ZUPHINKA_ANSWER_COUNT to ZUPHINKA_INPUT_CLOSE it wakes all of them (`pthread_cond_broadcast`), which learn that the pool is closed;
 *   - a borrower that was woken and whose step then fails wakes another one, as above.
 * If the setting maxWaitMillis isn't negative, a borrower sleeps no longer than the rest of that time, and asks again. The pool then answers
 * ZUPHINKA_ANSWER_TIMED_OUT. Make, test and destroy objects without the lock. Destroy an object before you report it
 * (ZUPHINKA_INPUT_DESTROYED): the report frees its place, and another thread may make a new object at once.
 *
 * A thread that returns an object and borrows at once may take it again before the one that it woke, over and over. To bound that, let borrowers
 * queue. A pool with calls (`zuphinka_open_with`) has a queue, which is proved, and decides all else above. bindings/c/src/zuphinka_pool.c drives
 * it for threads, and is tested with eight threads under ThreadSanitizer. Copy from it, or use it as it is (zuphinka_pool.h), as
 * bindings/c/examples/shared_life.c does.
 */
#ifndef ZUPHINKA_H
#define ZUPHINKA_H

#include <stdbool.h>
#include <stddef.h>
#include <stdint.h>

/* The version of this header, which is that of the library: a text, its three numbers, and one number that is greater for each later version. */
#define ZUPHINKA_VERSION "0.1.0"
#define ZUPHINKA_VERSION_MAJOR 0
#define ZUPHINKA_VERSION_MINOR 1
#define ZUPHINKA_VERSION_PATCH 0
#define ZUPHINKA_VERSION_NUMBER (ZUPHINKA_VERSION_MAJOR * 1000000 + ZUPHINKA_VERSION_MINOR * 1000 + ZUPHINKA_VERSION_PATCH)

#ifdef __cplusplus
extern "C" {
#endif

/* A handle: it has a pool, or is empty. Only the library uses its field. */
struct zuphinka {
  void *at;
};

/* The status of a call. If it is not ZUPHINKA_STATUS_DONE, the call changed nothing, unless its function says otherwise. */
enum zuphinka_status {
  ZUPHINKA_STATUS_DONE = 0,
  ZUPHINKA_STATUS_NOT_OPEN = 1,         /* the handle is empty */
  ZUPHINKA_STATUS_ALREADY_OPEN = 2,     /* the handle has a pool */
  ZUPHINKA_STATUS_OUT_OF_MEMORY = 3,    /* an allocation failed */
  ZUPHINKA_STATUS_JOURNAL_FULL = 4,     /* the journal has no room for the entry and those outstanding after it */
  ZUPHINKA_STATUS_BAD_REQUEST = 5,      /* `input`, `kind` or `report` has a wrong code, or `outcome` has one and the input needs an outcome */
  ZUPHINKA_STATUS_NO_ENTRY = 6,         /* the journal has no entry, or the base no line, at the position */
  ZUPHINKA_STATUS_BUFFER_TOO_SMALL = 7, /* the text does not fit into the buffer */
  ZUPHINKA_STATUS_NOT_TEXT = 8,         /* the settings are not UTF-8 */
  ZUPHINKA_STATUS_NOT_TOML = 9,         /* the settings are not a TOML document */
  ZUPHINKA_STATUS_UNKNOWN_KEY = 10,     /* no setting has the key */
  ZUPHINKA_STATUS_WRONG_TYPE = 11,      /* the value of a key has another type */
  ZUPHINKA_STATUS_OUT_OF_RANGE = 12,    /* the number of a key is out of its range */
  ZUPHINKA_STATUS_NO_CALL = 13,         /* the struct has no call in progress of the pool */
  ZUPHINKA_STATUS_MISFIT = 14,          /* the report does not fit the last action of the call */
  ZUPHINKA_STATUS_NO_WAKE = 15,         /* no call is to be woken */
  ZUPHINKA_STATUS_AT_ONCE = 16          /* the call is over: its object is lent, or idle, and no call is to be woken */
};

/* The input of a request. `number`, `outcome` and `object` are fields of the request. */
enum zuphinka_input {
  ZUPHINKA_INPUT_BORROW = 1,                   /* the caller wants an object, and has since time `number` */
  ZUPHINKA_INPUT_READY = 2,                    /* object `number` was made or activated for a borrower, with `outcome` */
  ZUPHINKA_INPUT_RETURN = 3,                   /* its holder returns object `number` */
  ZUPHINKA_INPUT_PARK = 4,                     /* returned object `number` was tested and passivated, with `outcome`; `object` is its token */
  ZUPHINKA_INPUT_INVALIDATE = 5,               /* its holder finds object `number` broken */
  ZUPHINKA_INPUT_USE = 6,                      /* its holder uses object `number` */
  ZUPHINKA_INPUT_ADD = 7,                      /* the caller wants one more idle object */
  ZUPHINKA_INPUT_FILL = 8,                     /* the caller wants an idle object if fewer than minIdle are idle */
  ZUPHINKA_INPUT_ADDED = 9,                    /* object `number` was made to be idle, with `outcome`; `object` is its token */
  ZUPHINKA_INPUT_EVICT = 10,                   /* an eviction run begins */
  ZUPHINKA_INPUT_EVICT_NEXT = 11,              /* the run examines the next idle object */
  ZUPHINKA_INPUT_TESTED = 12,                  /* idle object `number` was tested, with `outcome`; `object` is its token */
  ZUPHINKA_INPUT_RECLAIM_ON_BORROW = 13,       /* a reclaim of abandoned objects begins, at a borrow */
  ZUPHINKA_INPUT_RECLAIM_FOR_MAINTENANCE = 14, /* the same, for maintenance */
  ZUPHINKA_INPUT_RECLAIM_NEXT = 15,            /* the reclaim looks for the next abandoned object */
  ZUPHINKA_INPUT_CLEAR = 16,                   /* a clear of all idle objects begins */
  ZUPHINKA_INPUT_CLEAR_NEXT = 17,              /* the clear looks for the next idle object */
  ZUPHINKA_INPUT_DESTROYED = 18,               /* object `number` was destroyed */
  ZUPHINKA_INPUT_CLOSE = 19                    /* the pool closes */
};

/* The outcome of the host's work on an object. */
enum zuphinka_outcome {
  ZUPHINKA_OUTCOME_GOOD = 1,
  ZUPHINKA_OUTCOME_MAKE_FAILED = 2,
  ZUPHINKA_OUTCOME_CREATE_TEST_FAILED = 3, /* a new object failed its test (testOnCreate) */
  ZUPHINKA_OUTCOME_ACTIVATE_FAILED = 4,
  ZUPHINKA_OUTCOME_TEST_FAILED = 5,
  ZUPHINKA_OUTCOME_PASSIVATE_FAILED = 6
};

/* The answer of a pool. `number`, `object` and `cause` are fields of the reply; "the object" is that of the request. */
enum zuphinka_answer {
  ZUPHINKA_ANSWER_TAKE = 1,          /* activate idle object `number`, whose token is `object`, and report ZUPHINKA_INPUT_READY */
  ZUPHINKA_ANSWER_MAKE = 2,          /* make a new object with the id `number`, and report it */
  ZUPHINKA_ANSWER_WAIT = 3,          /* no object and no place is free: wait, and ask again with the same `number` */
  ZUPHINKA_ANSWER_EXHAUSTED = 4,     /* no object and no place is free, and the settings say not to wait */
  ZUPHINKA_ANSWER_TIMED_OUT = 5,     /* no object and no place is free, and the caller waited as long as the settings allow */
  ZUPHINKA_ANSWER_LENT = 6,          /* the object is lent */
  ZUPHINKA_ANSWER_CHECK = 7,         /* the object is returned: test it, passivate it, and report ZUPHINKA_INPUT_PARK */
  ZUPHINKA_ANSWER_PARKED = 8,        /* the object is idle, and the pool stores its token */
  ZUPHINKA_ANSWER_KEPT = 9,          /* the object passed its test and stays idle, and the pool stores its token */
  ZUPHINKA_ANSWER_KEPT_IDLE = 10,    /* idle object `number` is unchanged */
  ZUPHINKA_ANSWER_DESTROY = 11,      /* destroy the object, then report ZUPHINKA_INPUT_DESTROYED */
  ZUPHINKA_ANSWER_DESTROY_IDLE = 12, /* destroy idle object `number`, whose token is `object`, then report ZUPHINKA_INPUT_DESTROYED */
  ZUPHINKA_ANSWER_TEST = 13,         /* activate, test and passivate idle object `number`, whose token is `object` */
  ZUPHINKA_ANSWER_FREED = 14,        /* the object's place is free */
  ZUPHINKA_ANSWER_GONE = 15,         /* the object was reclaimed before, and belongs to its holder alone */
  ZUPHINKA_ANSWER_NOTED = 16,        /* the pool noted the use */
  ZUPHINKA_ANSWER_COUNT = 17,        /* the run, reclaim, clear or close is for `number` objects */
  ZUPHINKA_ANSWER_RECLAIMED = 18,    /* abandoned object `number` lost its place, which is free */
  ZUPHINKA_ANSWER_NOTHING = 19,      /* no object is left to examine, or the pool was closed before */
  ZUPHINKA_ANSWER_ENOUGH = 20,       /* enough objects are idle */
  ZUPHINKA_ANSWER_NO_PLACE = 21,     /* no place is free */
  ZUPHINKA_ANSWER_REFUSED = 22       /* nothing was done, for `cause` */
};

/* Why a pool answers ZUPHINKA_ANSWER_REFUSED. */
enum zuphinka_cause {
  ZUPHINKA_CAUSE_NONE = 0,
  ZUPHINKA_CAUSE_CLOSED = 1,     /* the pool is closed */
  ZUPHINKA_CAUSE_NOT_LENT = 2,   /* the object is not lent */
  ZUPHINKA_CAUSE_NOT_HELD = 3,   /* the object is not in the phase that the input reports on */
  ZUPHINKA_CAUSE_BAD_OUTCOME = 4 /* the work on the object cannot have this outcome */
};

/*
 * A request. The pool reads `number`, `outcome` and `object` if the input has them, and `object` only if the outcome is ZUPHINKA_OUTCOME_GOOD.
 * Set all fields: `struct zuphinka_request request = {.at = .., ..};` sets the others to 0.
 */
struct zuphinka_request {
  uint64_t at;      /* the time, in milliseconds */
  uint64_t number;  /* an object's id, or the time at which the caller first asked for an object */
  void *object;     /* the object's token, any pointer, null included */
  uint32_t caller;  /* the caller's number in the journal */
  uint32_t input;   /* enum zuphinka_input */
  uint32_t outcome; /* enum zuphinka_outcome */
};

/* A reply. */
struct zuphinka_reply {
  uint64_t number; /* an object's id or a number of objects, if the answer has one; else 0 */
  void *object;    /* the token that is returned, if has_object is true; else null */
  uint32_t answer; /* enum zuphinka_answer */
  uint32_t cause;  /* enum zuphinka_cause */
  bool has_object; /* a token is returned: that of an idle object, or the request's if the pool does not store it */
};

/* Numbers of entries and objects. */
struct zuphinka_tally {
  uint64_t steps;     /* entries since the pool was opened */
  uint64_t idle;      /* idle objects, including those under an idle test */
  uint64_t lent;      /* lent objects */
  uint64_t reserved;  /* present objects that are neither idle nor lent */
  uint64_t created;   /* objects that the pool asked to make */
  uint64_t destroyed; /* objects that were destroyed, or could not be made */
  uint64_t evicted;   /* idle objects that an eviction run destroyed, for their idle time or a failed test */
  uint64_t reclaimed; /* abandoned objects that lost their places */
};

/* Settings, as docs/settings.md explains them. The key of field `max_total` is maxTotal, and so on. */
struct zuphinka_setup {
  uint64_t journal_limit;                  /* the most entries that the journal stores */
  int64_t max_wait_millis;                 /* milliseconds; negative: no limit */
  int64_t min_evictable_idle_millis;       /* milliseconds; 0 or negative: no such eviction */
  int64_t remove_abandoned_timeout_millis; /* milliseconds; of the table `abandoned` */
  int64_t soft_min_evictable_idle_millis;  /* milliseconds; 0 or negative: no such eviction */
  int32_t max_idle;                        /* objects; negative: no limit */
  int32_t max_total;                       /* objects; negative: no limit */
  int32_t min_idle;                        /* objects */
  int32_t num_tests_per_eviction_run;      /* objects; -n: one n-th of the idle ones, rounded up */
  bool abandoned;                          /* the settings have a table `abandoned` */
  bool block_when_exhausted;
  bool lifo;
  bool remove_abandoned_on_borrow;      /* of the table `abandoned` */
  bool remove_abandoned_on_maintenance; /* of the table `abandoned` */
  bool test_on_borrow;
  bool test_on_create;
  bool test_on_return;
  bool test_while_idle;
};

/* How a pool works besides its settings. */
struct zuphinka_options {
  uint64_t pool;            /* the host's number of the pool: its calls bear it, and no call of a pool with another number is taken */
  uint64_t max_overtakes;   /* how often a borrow that waits is overtaken at most, by borrows that begin later; 0: never; from 2^31 - 1 on: any number */
  uint64_t overtake_millis; /* for so long, in milliseconds, a borrow that waits may be overtaken any number of times, and after that max_overtakes times */
  bool activates;           /* the host has work to activate an object that is to be lent */
  bool validates;           /* it tests objects; otherwise each passes, and only an eviction run by testWhileIdle asks for a test, which it reports as passed */
  bool passivates;          /* it has work to passivate an object that is to be idle */
  bool drops_journal;       /* the stored entries are forgotten once they are many beside the objects, or leave no room for a step */
};

/* The kind of a call. `id` and `object` are fields of its start. */
enum zuphinka_kind {
  ZUPHINKA_KIND_BORROW = 1,
  ZUPHINKA_KIND_RETURN = 2,     /* its holder returns object `id`, whose token is `object` */
  ZUPHINKA_KIND_INVALIDATE = 3, /* its holder finds object `id` broken, and it is destroyed */
  ZUPHINKA_KIND_DETACH = 4,     /* its holder keeps object `id`, and the pool frees its place */
  ZUPHINKA_KIND_TOUCH = 5,      /* its holder uses object `id` */
  ZUPHINKA_KIND_ADD = 6,        /* one more idle object is made */
  ZUPHINKA_KIND_FILL = 7,       /* objects are made until minIdle are idle */
  ZUPHINKA_KIND_EVICT = 8,      /* an eviction run */
  ZUPHINKA_KIND_RECLAIM = 9,    /* abandoned objects lose their places, for maintenance */
  ZUPHINKA_KIND_CLEAR = 10,     /* all idle objects are destroyed */
  ZUPHINKA_KIND_CLOSE = 11      /* the pool closes, and all idle objects are destroyed */
};

/* What begins a call. Set all fields: `struct zuphinka_start start = {.at = .., ..};` sets the others to 0. */
struct zuphinka_start {
  uint64_t at;     /* the time, in milliseconds */
  uint64_t id;     /* the object's id, of a return, an invalidation, a detachment or a touch; of a borrow the number of milliseconds by which its wait
                      may be longer than maxWaitMillis, and 0 as a rule */
  void *object;    /* its token, of a return, an invalidation or a detachment */
  uint32_t caller; /* the caller's number in the journal */
  uint32_t kind;   /* enum zuphinka_kind */
};

/* A call in progress, which the host keeps from its beginning to its end. Only the library reads and writes its words. */
struct zuphinka_call {
  uint64_t words[13];
};

/* What became of the last action of a call. */
enum zuphinka_report {
  ZUPHINKA_REPORT_GO_ON = 1,     /* of ZUPHINKA_ACTION_GO_ON: nothing; the call takes further steps */
  ZUPHINKA_REPORT_MADE = 2,      /* the object was made, and `object` is its token */
  ZUPHINKA_REPORT_SUCCEEDED = 3, /* it was activated, passed its test, was passivated or destroyed */
  ZUPHINKA_REPORT_FAILED = 4,    /* it was not, or it failed its test; to destroy it may fail too, and means the same */
  ZUPHINKA_REPORT_WOKEN = 5,     /* the sleep is over: the ticket was woken, or `until` is reached */
  ZUPHINKA_REPORT_ROOM_MADE = 6, /* the journal was cut */
  ZUPHINKA_REPORT_NO_ROOM = 7,   /* the journal could not be cut */
  ZUPHINKA_REPORT_GIVEN_UP = 8   /* the host gives the call up, once, at any action that is not the end, and has stopped that action */
};

/* What the host reports. Set all fields. */
struct zuphinka_event {
  uint64_t at;     /* the time, in milliseconds */
  void *object;    /* the token of the object, for ZUPHINKA_REPORT_MADE */
  uint32_t caller; /* the caller's number in the journal */
  uint32_t report; /* enum zuphinka_report */
};

/* What the host does next. `number`, `object` and the like are fields of the effects. */
enum zuphinka_action {
  ZUPHINKA_ACTION_GO_ON = 1,     /* 64 steps were taken and more follow: report ZUPHINKA_REPORT_GO_ON, after others had the lock */
  ZUPHINKA_ACTION_MAKE_ROOM = 2, /* cut the journal, if the host can */
  ZUPHINKA_ACTION_MAKE = 3,      /* make a new object with the id `number` */
  ZUPHINKA_ACTION_ACTIVATE = 4,  /* activate object `number`, whose token is `object` */
  ZUPHINKA_ACTION_VALIDATE = 5,  /* test it */
  ZUPHINKA_ACTION_PASSIVATE = 6, /* passivate it */
  ZUPHINKA_ACTION_DESTROY = 7,   /* destroy it */
  ZUPHINKA_ACTION_SLEEP = 8,     /* sleep until `ticket` is woken, or until `until` if there is such a time */
  ZUPHINKA_ACTION_DONE = 9       /* nothing: the call is over, and `end` says how */
};

/* How a call ended. */
enum zuphinka_end {
  ZUPHINKA_END_NONE = 0,               /* it is not over */
  ZUPHINKA_END_LENT = 1,               /* object `number`, whose token is `object`, is lent to the caller */
  ZUPHINKA_END_CLOSED = 2,             /* the pool is closed */
  ZUPHINKA_END_EXHAUSTED = 3,          /* no object and no place is free, and the settings say not to wait */
  ZUPHINKA_END_TIMED_OUT = 4,          /* no object and no place was free for as long as the settings say */
  ZUPHINKA_END_MAKE_FAILED = 5,        /* the host failed to make an object */
  ZUPHINKA_END_CREATE_TEST_FAILED = 6, /* a new object failed its test of testOnCreate, and was destroyed */
  ZUPHINKA_END_ACTIVATE_FAILED = 7,    /* a new object was not activated, and was destroyed */
  ZUPHINKA_END_BORROW_TEST_FAILED = 8, /* a new object failed its test of testOnBorrow, and was destroyed */
  ZUPHINKA_END_PASSIVATE_FAILED = 9,   /* a new object was not passivated, and was destroyed */
  ZUPHINKA_END_PARKED = 10,            /* the object is idle */
  ZUPHINKA_END_DESTROYED = 11,         /* the object was destroyed */
  ZUPHINKA_END_GONE = 12,              /* the pool had given the object's place away, and it was destroyed */
  ZUPHINKA_END_NOT_LENT = 13,          /* the object is not lent */
  ZUPHINKA_END_NOTED = 14,             /* the pool noted the use */
  ZUPHINKA_END_NO_PLACE = 15,          /* no place is free for one more object */
  ZUPHINKA_END_COMPLETE = 16,          /* the call did all that it was to do, and `count` says how much */
  ZUPHINKA_END_JOURNAL_FULL = 17,      /* the journal has no room, and the call holds no object */
  ZUPHINKA_END_OUT_OF_MEMORY = 18,     /* an allocation failed, and the call holds no object */
  ZUPHINKA_END_CANCELLED = 19,         /* the host gave the call up, and it holds no object */
  ZUPHINKA_END_CONTRADICTED = 20       /* the host broke a rule: it returned an object that another call works on, or the like */
};

/* What the host does next, with the numbers that it needs. */
struct zuphinka_effects {
  uint64_t number;    /* the id of the object that the action is for, or that is lent; else 0 */
  void *object;       /* the token of the call's object; null if it has none yet */
  uint64_t ticket;    /* the ticket of a call that waits, if has_ticket is true; else 0 */
  uint64_t until;     /* the time at which the wait of a borrow is over, in milliseconds, if has_until is true; else 0 */
  uint64_t wake;      /* the ticket of the call to wake first, if has_wake is true; else 0 */
  uint64_t count;     /* how many objects a fill made, a reclaim took, an eviction run examined, a clear or a close took so far; else 0 */
  uint64_t freed;     /* how many places of objects the call freed so far: of an eviction run the objects that it destroyed */
  uint32_t action;    /* enum zuphinka_action */
  uint32_t end;       /* enum zuphinka_end */
  bool has_ticket;    /* the call waits */
  bool has_until;     /* the wait is limited */
  bool has_wake;      /* a call is to be woken; then ask zuphinka_next_wake for more */
};

/* What is true of a pool besides its counts. */
struct zuphinka_activity {
  uint64_t waiting; /* calls that wait */
  uint64_t running; /* calls in progress, including those that wait */
  bool is_closed;
};

/* The greatest size of a line of a journal, in bytes, with its line feed. */
#define ZUPHINKA_LONGEST_LINE 256

#if defined(__STDC_VERSION__) && __STDC_VERSION__ >= 201112L
_Static_assert(sizeof(void *) == 8 && sizeof(size_t) == 8, "zuphinka.h is for 64-bit systems");
_Static_assert(sizeof(struct zuphinka_request) == 40 && sizeof(struct zuphinka_reply) == 32, "zuphinka.h: another layout of structs");
_Static_assert(sizeof(struct zuphinka_setup) == 72, "zuphinka.h: another layout of structs");
_Static_assert(sizeof(struct zuphinka_options) == 32 && sizeof(struct zuphinka_activity) == 24, "zuphinka.h: another layout of structs");
_Static_assert(sizeof(struct zuphinka_start) == 32 && sizeof(struct zuphinka_call) == 104, "zuphinka.h: another layout of structs");
_Static_assert(sizeof(struct zuphinka_event) == 24 && sizeof(struct zuphinka_effects) == 72, "zuphinka.h: another layout of structs");
#endif

/* Returns the ZUPHINKA_VERSION_NUMBER of the library that the program is linked with. It needs no pool. */
uint32_t zuphinka_version(void);

/*
 * Reads settings from a text: a TOML document of `length` bytes (docs/settings.md). A text of no bytes has all defaults. It needs no pool. A
 * host that steps a pool honours some of the settings itself: which objects are tested, and whether a borrow first reclaims.
 *
 * Returns ZUPHINKA_STATUS_DONE and stores the settings in `settings`. Errors leave `settings` unchanged:
 *   - ZUPHINKA_STATUS_NOT_TEXT, ZUPHINKA_STATUS_NOT_TOML;
 *   - ZUPHINKA_STATUS_UNKNOWN_KEY, ZUPHINKA_STATUS_WRONG_TYPE or ZUPHINKA_STATUS_OUT_OF_RANGE, the first error of the text. The size of the
 *     key's name is stored in `size`. The name is stored in `key`, a buffer of `capacity` bytes, if it fits. A key of the table is named
 *     `abandoned.<key>`;
 *   - ZUPHINKA_STATUS_OUT_OF_MEMORY, possibly in place of any other error except ZUPHINKA_STATUS_NOT_TEXT.
 * If no key is reported, `key` and `size` are unchanged.
 */
uint32_t zuphinka_settings(const char *text, size_t length, struct zuphinka_setup *settings, char *key, size_t capacity, uint64_t *size);

/*
 * Opens a pool in an empty handle: without objects, with an empty journal, and with settings from a text, a TOML document of `length` bytes
 * (docs/settings.md; of no bytes: all defaults). Sets aside the memory of the entry that closes the pool.
 *
 * Returns ZUPHINKA_STATUS_DONE. Errors leave the handle unchanged: ZUPHINKA_STATUS_ALREADY_OPEN; ZUPHINKA_STATUS_NOT_TEXT,
 * ZUPHINKA_STATUS_NOT_TOML, ZUPHINKA_STATUS_UNKNOWN_KEY, ZUPHINKA_STATUS_WRONG_TYPE or ZUPHINKA_STATUS_OUT_OF_RANGE, the first error of the
 * text; ZUPHINKA_STATUS_OUT_OF_MEMORY, possibly in place of any other error except ZUPHINKA_STATUS_ALREADY_OPEN.
 */
uint32_t zuphinka_open(struct zuphinka *pool, const char *settings, size_t length);

/*
 * Takes one step: stores the expected answer to `request` in `reply`, and appends exactly one entry, which records it.
 *
 * Returns ZUPHINKA_STATUS_DONE, also if the answer is ZUPHINKA_ANSWER_REFUSED. Errors leave pool and `reply` unchanged:
 *   - ZUPHINKA_STATUS_NOT_OPEN, ZUPHINKA_STATUS_BAD_REQUEST;
 *   - ZUPHINKA_STATUS_JOURNAL_FULL, exactly if the entry and those outstanding after it exceed the setting journalLimit;
 *   - ZUPHINKA_STATUS_OUT_OF_MEMORY. The same step may be tried again.
 *
 * A completing step never fails: its journal room and memory are set aside. A step completes if its answer is ZUPHINKA_ANSWER_LENT,
 * ZUPHINKA_ANSWER_CHECK, ZUPHINKA_ANSWER_PARKED, ZUPHINKA_ANSWER_KEPT, ZUPHINKA_ANSWER_DESTROY, ZUPHINKA_ANSWER_DESTROY_IDLE,
 * ZUPHINKA_ANSWER_FREED or ZUPHINKA_ANSWER_RECLAIMED, or if it is the ZUPHINKA_INPUT_CLOSE of an open pool.
 */
uint32_t zuphinka_step(struct zuphinka *pool, const struct zuphinka_request *request, struct zuphinka_reply *reply);

/* Stores the counts in `counts`. Returns ZUPHINKA_STATUS_DONE; or ZUPHINKA_STATUS_NOT_OPEN, and `counts` is unchanged. */
uint32_t zuphinka_counts(struct zuphinka *pool, struct zuphinka_tally *counts);

/*
 * Stores in `steps` the number of entries in the journal, since its last cut. Returns ZUPHINKA_STATUS_DONE; or ZUPHINKA_STATUS_NOT_OPEN, and
 * `steps` is unchanged.
 */
uint32_t zuphinka_steps(struct zuphinka *pool, uint64_t *steps);

/*
 * Stores in `room` the number of entries that the journal can still take, besides the outstanding ones. A step needs room for its entry and for
 * those that become outstanding by it: a borrow that makes an object needs 6, one that takes an idle object 4, ZUPHINKA_INPUT_ADD or
 * ZUPHINKA_INPUT_FILL that makes an object 4, a test of an idle object 2, a step that changes no object 1, and a completing step none. So
 * ZUPHINKA_STATUS_JOURNAL_FULL may come while the room is still 5.
 *
 * Returns ZUPHINKA_STATUS_DONE; or ZUPHINKA_STATUS_NOT_OPEN, and `room` is unchanged.
 */
uint32_t zuphinka_room(struct zuphinka *pool, uint64_t *room);

/*
 * Stores the line of the entry at `position`, counted from 0, in `text`, a buffer of `capacity` bytes, and its size in `size`. The line ends
 * in a line feed, without a null after it. The rest of the buffer is unchanged. ZUPHINKA_LONGEST_LINE bytes are always enough.
 *
 * Returns ZUPHINKA_STATUS_DONE. Errors leave the buffer unchanged, and all except the first leave `size` unchanged:
 *   - ZUPHINKA_STATUS_BUFFER_TOO_SMALL, if the size, which is stored, exceeds `capacity`;
 *   - ZUPHINKA_STATUS_NOT_OPEN; ZUPHINKA_STATUS_NO_ENTRY, if the journal is shorter;
 *   - ZUPHINKA_STATUS_OUT_OF_MEMORY, possibly in place of any other error except ZUPHINKA_STATUS_NOT_OPEN.
 * It allocates once, and frees that memory.
 */
uint32_t zuphinka_line(struct zuphinka *pool, uint64_t position, char *text, size_t capacity, uint64_t *size);

/*
 * Does the same for a line of the journal's base, which is the state after all entries before the stored ones. At position 0 is the line with
 * which a segment begins, and after it one line for each object that was present. The lines stay the same until the next cut. Returns
 * ZUPHINKA_STATUS_NO_ENTRY if the base has fewer lines.
 */
uint32_t zuphinka_base(struct zuphinka *pool, uint64_t position, char *text, size_t capacity, uint64_t *size);

/*
 * Cuts the journal: drops the stored entries, and makes the state after them the new base. Objects, their tokens and the counts are unchanged.
 * Positions and room then count from the new base. It takes time and memory in proportion to the present objects.
 *
 * To keep the history, first write the lines of the base and then those of all entries to a new file, a segment. Threads that share a pool
 * hold their lock from the last line on, so that no entry is lost. `pool check SETTINGS SEGMENT..` checks the segments of a pool, in
 * their order, as the one journal that they are.
 *
 * Returns ZUPHINKA_STATUS_DONE. Errors change nothing: ZUPHINKA_STATUS_NOT_OPEN; ZUPHINKA_STATUS_OUT_OF_MEMORY, and it may be tried again.
 */
uint32_t zuphinka_cut(struct zuphinka *pool);

/*
 * Goes on with other settings, from a text as in `zuphinka_open`, and cuts the journal, as `zuphinka_cut`: the entries before are answered by the old
 * settings, those after it by the new ones. The objects stay, also if they are more than maxTotal then: none is made until fewer are present. Calls
 * in progress go on. Callbacks that a call had when it began stay its own; a wait has the new maxWaitMillis once its call is woken or its time is
 * over. Then the host calls `zuphinka_next_wake` until it returns ZUPHINKA_STATUS_NO_WAKE, since there may be more places.
 *
 * To keep the history, write a segment first, as for `zuphinka_cut`, and the new settings beside the next one. `judge SETTINGS SEGMENT` checks each
 * segment with its own settings, and docs/journal.md has the join. `pool check` takes the same settings for all of its segments.
 *
 * Returns ZUPHINKA_STATUS_DONE. Errors change nothing: ZUPHINKA_STATUS_NOT_OPEN; ZUPHINKA_STATUS_NOT_TEXT, _NOT_TOML, _UNKNOWN_KEY, _WRONG_TYPE,
 * _OUT_OF_RANGE, of the settings; ZUPHINKA_STATUS_JOURNAL_FULL, if the new journalLimit has no room for the outstanding entries;
 * ZUPHINKA_STATUS_OUT_OF_MEMORY, and it may be tried again.
 */
uint32_t zuphinka_reconfigure(struct zuphinka *pool, const char *settings, size_t length);

/*
 * Ends a pool and frees its memory. The handle is then empty and may be opened again. It does nothing to an empty handle. The tokens that the
 * pool stores are lost, and their objects still belong to the host: close and clear the pool first.
 */
void zuphinka_drop(struct zuphinka *pool);

/*
 * Opens a pool as `zuphinka_open` does, with options. With all options 0 it is the same. Sets aside the memory of 1,024 calls that wait.
 */
uint32_t zuphinka_open_with(struct zuphinka *pool, const char *settings, size_t length, const struct zuphinka_options *options);

/*
 * Begins a call, and takes its first steps: those that follow each other without the host, at most 64. Stores in `effects` what the host does
 * next, and in `call` the call, which is in progress until its action is ZUPHINKA_ACTION_DONE. What `call` had before does not matter.
 *
 * A borrow of an idle object without activation or test is over at once, and so is the return of an object without test or passivation. Neither
 * allocates memory if the pool has as many objects as before.
 *
 * Where a borrow has lent its object or a return has parked it, and no call is to be woken, the status may be ZUPHINKA_STATUS_AT_ONCE in place of
 * ZUPHINKA_STATUS_DONE. Then only `number`, `object` and `end` are stored in `effects`, and the call is over.
 *
 * The host holds its lock during a call of the library, and not while it acts or sleeps. After each call of `zuphinka_begin` and
 * `zuphinka_advance` it wakes the call whose ticket is `wake`, if there is one, and then those of `zuphinka_next_wake` until none is left. After a
 * step by `zuphinka_step` it does the latter. A call that is woken reports ZUPHINKA_REPORT_WOKEN; if it is still not its turn, its action is
 * ZUPHINKA_ACTION_SLEEP again. Times never decrease: a call at an earlier time than one before it is taken at that of the latter.
 *
 * Returns ZUPHINKA_STATUS_DONE or ZUPHINKA_STATUS_AT_ONCE. Errors leave the pool, `call` and `effects` unchanged: ZUPHINKA_STATUS_NOT_OPEN;
 * ZUPHINKA_STATUS_BAD_REQUEST, if `kind` has a wrong code.
 */
uint32_t zuphinka_begin(struct zuphinka *pool, const struct zuphinka_start *start, struct zuphinka_call *call,
                        struct zuphinka_effects *effects);

/*
 * Goes on with a call in progress after a report of what became of its last action, as `zuphinka_begin` does. Once its action is
 * ZUPHINKA_ACTION_DONE it is in progress no more.
 *
 * Returns ZUPHINKA_STATUS_DONE or ZUPHINKA_STATUS_AT_ONCE. Errors leave the pool, `call` and `effects` unchanged:
 *   - ZUPHINKA_STATUS_NOT_OPEN; ZUPHINKA_STATUS_NO_CALL, exactly if `call` has no call in progress of a pool with this number: it is over, of a pool
 *     with another number, or none that the library has written;
 *   - ZUPHINKA_STATUS_BAD_REQUEST, if `report` has a wrong code; ZUPHINKA_STATUS_MISFIT, if the report does not fit the last action.
 */
uint32_t zuphinka_advance(struct zuphinka *pool, struct zuphinka_call *call, const struct zuphinka_event *event,
                          struct zuphinka_effects *effects);

/*
 * Stores in `ticket` the ticket of the next call to wake: the oldest that sleeps, one for each idle object and each free place, and all once the pool
 * is closed. Returns ZUPHINKA_STATUS_DONE; or ZUPHINKA_STATUS_NOT_OPEN, or ZUPHINKA_STATUS_NO_WAKE if no call is to be woken, and `ticket` is
 * unchanged.
 */
uint32_t zuphinka_next_wake(struct zuphinka *pool, uint64_t *ticket);

/*
 * From now on each call that has waited for `millis` milliseconds is overtaken at most `most` times, 0 for never. Stores this bound in `bound`. If the
 * oldest one was already overtaken more often, the bound is the number of times it was; ask again once it waits no longer.
 *
 * Returns ZUPHINKA_STATUS_DONE; or ZUPHINKA_STATUS_NOT_OPEN, and `bound` is unchanged.
 */
uint32_t zuphinka_set_overtakes(struct zuphinka *pool, uint64_t millis, uint64_t most, uint64_t *bound);

/*
 * Stores in `is_lent` whether the object with this id is lent: not so one that was reclaimed from its holder. Returns ZUPHINKA_STATUS_DONE; or
 * ZUPHINKA_STATUS_NOT_OPEN, and `is_lent` is unchanged.
 */
uint32_t zuphinka_is_lent(struct zuphinka *pool, uint64_t id, bool *is_lent);

/* Stores in `state` what is true of the pool. Returns ZUPHINKA_STATUS_DONE; or ZUPHINKA_STATUS_NOT_OPEN, and `state` is unchanged. */
uint32_t zuphinka_state(struct zuphinka *pool, struct zuphinka_activity *state);

/*
 * Returns whether to cut the journal now: it stores entries, and has room for fewer than `least` more. It is false for an empty handle.
 *
 * Ask it before a borrow, and cut if it is true. A borrow and its return take four entries, so a `least` of 16 is enough for one thread that
 * cuts at once. A host that lends while it writes the segment chooses a `least` for all that may happen meanwhile.
 */
static inline bool zuphinka_is_low(struct zuphinka *pool, uint64_t least) {
  uint64_t room = 0, steps = 0;
  if (zuphinka_room(pool, &room) != ZUPHINKA_STATUS_DONE || room >= least) return false;
  return zuphinka_steps(pool, &steps) == ZUPHINKA_STATUS_DONE && steps > 0;
}

/* Returns the sentence that explains a status, in English and without a line feed: a constant, also for a code of no status. */
static inline const char *zuphinka_status_text(uint32_t status) {
  switch (status) {
    case ZUPHINKA_STATUS_DONE: return "the call is done";
    case ZUPHINKA_STATUS_NOT_OPEN: return "the handle has no pool";
    case ZUPHINKA_STATUS_ALREADY_OPEN: return "the handle has a pool already";
    case ZUPHINKA_STATUS_OUT_OF_MEMORY: return "out of memory";
    case ZUPHINKA_STATUS_JOURNAL_FULL: return "the journal is full";
    case ZUPHINKA_STATUS_BAD_REQUEST: return "the request has a code that is none";
    case ZUPHINKA_STATUS_NO_ENTRY: return "there is no line at this position";
    case ZUPHINKA_STATUS_BUFFER_TOO_SMALL: return "the text does not fit into the buffer";
    case ZUPHINKA_STATUS_NOT_TEXT: return "the settings are not UTF-8";
    case ZUPHINKA_STATUS_NOT_TOML: return "the settings are not a TOML document";
    case ZUPHINKA_STATUS_UNKNOWN_KEY: return "the settings have an unknown key";
    case ZUPHINKA_STATUS_WRONG_TYPE: return "a value in the settings has the wrong type";
    case ZUPHINKA_STATUS_OUT_OF_RANGE: return "a number in the settings is out of range";
    case ZUPHINKA_STATUS_NO_CALL: return "the pool has no such call in progress";
    case ZUPHINKA_STATUS_MISFIT: return "the report does not fit the last action of the call";
    case ZUPHINKA_STATUS_NO_WAKE: return "no call is to be woken";
    case ZUPHINKA_STATUS_AT_ONCE: return "the call is over: its object is lent, or idle, and no call is to be woken";
    default: return "the code is no status";
  }
}

#ifdef __cplusplus
}
#endif

#endif
