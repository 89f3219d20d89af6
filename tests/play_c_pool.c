/* Tests bindings/c/src/zuphinka_pool.c, one test a run.
 *
 *     play_c_pool list                                  the names of the tests
 *     play_c_pool test NAME
 *     play_c_pool sink AT FOLDER                        a pool whose `store` fails at call AT, from 1
 *     play_c_pool random SEED THREADS CALLS FOLDER      threads that call a pool at random, over callbacks that fail at random
 *     play_c_pool soak PAIRS THREADS                    threads that borrow and return PAIRS times together, without a journal
 *     play_c_pool metrics PAIRS THREADS                 the same, while the metrics are read
 *
 * `sink` and `random` write the journal's segments to files `segment-POSITION` of the folder, and the settings to `settings.toml`. Settings that
 * change go to a file `settings-POSITION.toml`, with that of the first entry which they hold for. They print `steps N`, how many entries there were;
 * `sink` prints also how often `store` was called, and `random` a line `caller NUMBER lent N` for each thread. In `soak` the memory of the process
 * must not grow by more than a tenth, or SLACK bytes, after the first tenth of the pairs. `metrics` prints the texts of the metrics, the last one
 * after all pairs. Exits with status 0; or with status 4 and a line on standard
 * error that says what is wrong. */
#define _POSIX_C_SOURCE 200809L

#include <inttypes.h>
#include <pthread.h>
#include <sched.h>
#include <stdatomic.h>
#include <stdio.h>
#include <stdlib.h>
#include <string.h>
#include <sys/wait.h>
#include <time.h>
#include <unistd.h>

#include "zuphinka_pool.h"

enum {
  WRONG = 4,
  LONG = 60000, /* milliseconds, after which a wait has failed */
  LONGEST_TEXT = 1 << 16,
  MANY_LOANS = 20000,
  LAST_ERROR = ZUPHINKA_POOL_ERROR_STORING,
  SLACK = 1 << 20,
};

#define check(holds) check_at(holds, #holds, __LINE__)

static void check_at(bool holds, const char *what, int line) {
  if (holds) return;
  fprintf(stderr, "line %d: %s\n", line, what);
  exit(WRONG);
}

#define check_error(found, wanted) check_error_at(found, wanted, __LINE__)

static void check_error_at(enum zuphinka_pool_error found, enum zuphinka_pool_error wanted, int line) {
  if (found == wanted) return;
  fprintf(stderr, "line %d: wanted: %s; found: %s\n", line, zuphinka_pool_error_text(wanted), zuphinka_pool_error_text(found));
  exit(WRONG);
}

static void check_text_at(const char *found, const char *wanted, int line) {
  if (strcmp(found, wanted) == 0) return;
  fprintf(stderr, "line %d: wanted:\n%sfound:\n%s", line, wanted, found);
  exit(WRONG);
}

#define check_text(found, wanted) check_text_at(found, wanted, __LINE__)

static void sleep_for(long milliseconds) {
  struct timespec time = {.tv_sec = milliseconds / 1000, .tv_nsec = milliseconds % 1000 * 1000000};
  nanosleep(&time, NULL);
}

static int64_t milliseconds_now(void) {
  struct timespec now;
  clock_gettime(CLOCK_MONOTONIC, &now);
  return (int64_t)now.tv_sec * 1000 + now.tv_nsec / 1000000;
}

/* ---- the host of most tests */

enum call { MAKE, ACTIVATE, VALIDATE, PASSIVATE, DESTROY, CALLS };

struct thing {
  uint64_t id;
  atomic_int holders;
  bool is_awake;
};

/* Where segments go: to files of a folder. */
struct sink {
  const char *folder;
  int fails_at; /* the call that fails, from 1; 0: none; negative: all */
  atomic_int called;
  atomic_bool is_held; /* a call waits until it is let go */
};

struct maker {
  struct zuphinka_pool *pool;
  struct sink sink;
  atomic_int alive;                /* things that exist */
  int most;                        /* how many may exist; negative: no limit */
  atomic_uint failing;             /* a bit for each kind of call whose next one fails */
  atomic_uint_fast64_t now, ticks; /* the time, and by how much a look at the clock moves it on */
  atomic_int looks;                /* looks at the clock */
  atomic_uint held;                /* a caller whose look at the clock waits until it is let go, and 1; 0: none */
  pthread_mutex_t lock;            /* of the next two */
  char calls[1 << 12];             /* a letter for each call */
  size_t called;
  bool has_chance, is_plain, has_no_clock; /* calls fail at random; some callbacks are null; the clock is null */
  bool is_fair;                            /* as in the host */
  uint32_t max_overtakes;                  /* the same */
  uint64_t overtake_ms;                    /* the same */
  uint64_t max_lifetime_ms, leak_after_ms; /* the same */
  atomic_uint_fast64_t leaks;              /* loans that were reported */
  struct { uint64_t id, since; uint32_t borrower; } leak; /* the last one, in a test of one thread */
  uint64_t seed;
  atomic_uint_fast64_t chances;
};

/* Numbers that look random, and are the same in each run. */
static uint64_t roll(uint64_t *dice, uint64_t sides) {
  *dice = *dice * UINT64_C(6364136223846793005) + UINT64_C(1442695040888963407);
  return (*dice >> 33) % sides;
}

enum { FAILS_OF = 12, YIELDS_OF = 50 };

/* Returns whether a call fails at random, by its number. Before some calls other threads run. */
static bool fails_at_random(struct maker *maker) {
  if (!maker->has_chance) return false;
  uint64_t dice = maker->seed + atomic_fetch_add(&maker->chances, 1);
  if (roll(&dice, YIELDS_OF) == 0) sched_yield();
  return roll(&dice, FAILS_OF) == 0;
}

static void note_call(struct maker *maker, enum call call) {
  struct zuphinka_tally counts;
  if (maker->pool) zuphinka_pool_counts(maker->pool, &counts); /* which hangs if the pool holds its lock */
  pthread_mutex_lock(&maker->lock);
  if (maker->called + 1 < sizeof maker->calls) maker->calls[maker->called++] = "mavpd"[call];
  pthread_mutex_unlock(&maker->lock);
}

static bool succeeds(struct maker *maker, enum call call) {
  note_call(maker, call);
  if (fails_at_random(maker)) return false;
  return !(atomic_fetch_and(&maker->failing, ~(1u << call)) & (1u << call));
}

static void fail_next(struct maker *maker, enum call call) { atomic_fetch_or(&maker->failing, 1u << call); }

static bool make_thing(void *context, uint64_t id, void **object) {
  struct maker *maker = context;
  if (!succeeds(maker, MAKE)) return false;
  struct thing *thing = malloc(sizeof *thing);
  if (!thing) return false;
  *thing = (struct thing){.id = id};
  int alive = atomic_fetch_add(&maker->alive, 1) + 1;
  check(maker->most < 0 || alive <= maker->most);
  *object = thing;
  return true;
}

static bool activate_thing(void *context, void *object) {
  struct thing *thing = object;
  check(!thing->is_awake);
  if (!succeeds(context, ACTIVATE)) return false;
  thing->is_awake = true;
  return true;
}

static bool validate_thing(void *context, void *object) {
  check(atomic_load(&((struct thing *)object)->holders) == 0);
  return succeeds(context, VALIDATE);
}

static bool passivate_thing(void *context, void *object) {
  if (!succeeds(context, PASSIVATE)) return false;
  ((struct thing *)object)->is_awake = false;
  return true;
}

static void destroy_thing(void *context, void *object) {
  struct maker *maker = context;
  check(atomic_load(&((struct thing *)object)->holders) == 0);
  note_call(maker, DESTROY);
  if (maker->pool && !maker->has_chance) { /* its place is taken until it is destroyed, unless it was reclaimed */
    struct zuphinka_tally counts;
    zuphinka_pool_counts(maker->pool, &counts);
    check((uint64_t)atomic_load(&maker->alive) <= counts.idle + counts.lent + counts.reserved + counts.reclaimed);
  }
  free(object);
  atomic_fetch_sub(&maker->alive, 1);
}

static uint64_t tell_time(void *context) {
  struct maker *maker = context;
  struct zuphinka_tally counts;
  if (maker->pool) zuphinka_pool_counts(maker->pool, &counts); /* which hangs if the pool holds its lock */
  atomic_fetch_add(&maker->looks, 1);
  while (atomic_load(&maker->held) == zuphinka_pool_caller() + 1) sleep_for(1);
  return atomic_fetch_add(&maker->now, atomic_load(&maker->ticks));
}

static void note_leak(void *context, uint64_t id, uint32_t borrower, uint64_t since) {
  struct maker *maker = context;
  struct zuphinka_tally counts;
  if (maker->pool) zuphinka_pool_counts(maker->pool, &counts); /* which hangs if the pool holds its lock */
  atomic_fetch_add(&maker->leaks, 1);
  if (maker->has_chance) return;
  maker->leak.id = id;
  maker->leak.borrower = borrower;
  maker->leak.since = since;
}

static struct zuphinka_pool_host host_of(struct maker *maker) {
  return (struct zuphinka_pool_host){.size = sizeof(struct zuphinka_pool_host),
                                     .context = maker,
                                     .make = make_thing,
                                     .activate = activate_thing,
                                     .validate = validate_thing,
                                     .passivate = passivate_thing,
                                     .destroy = destroy_thing,
                                     .now = tell_time,
                                     .overtake_ms = maker->overtake_ms,
                                     .max_overtakes = maker->max_overtakes,
                                     .is_fair = maker->is_fair,
                                     .max_lifetime_ms = maker->max_lifetime_ms,
                                     .leak_after_ms = maker->leak_after_ms,
                                     .leak = note_leak};
}

static struct maker maker = {.most = 8, .lock = PTHREAD_MUTEX_INITIALIZER};

/* Opens a pool whose journal is kept, of at most so many objects. */
static struct zuphinka_pool *open_kept(const char *settings, int most) {
  struct zuphinka_pool_host host = host_of(&maker);
  maker.most = most;
  check_error(zuphinka_pool_open(&maker.pool, settings, strlen(settings), &host, ZUPHINKA_POOL_JOURNAL_MEMORY), ZUPHINKA_POOL_ERROR_NONE);
  return maker.pool;
}

/* The letters of the calls since it was asked last. */
static const char *calls(void) {
  static char found[sizeof maker.calls];
  pthread_mutex_lock(&maker.lock);
  memcpy(found, maker.calls, maker.called);
  found[maker.called] = 0;
  maker.called = 0;
  pthread_mutex_unlock(&maker.lock);
  return found;
}

static bool append_text(void *context, uint64_t first, const char *text, size_t size) {
  char *kept = context;
  size_t length = strlen(kept);
  (void)first;
  check(length + size < LONGEST_TEXT);
  memcpy(kept + length, text, size);
  kept[length + size] = 0;
  return true;
}

/* The entries since the last cut, without the lines of their base. */
static const char *entries(struct zuphinka_pool *pool) {
  static char text[LONGEST_TEXT];
  text[0] = 0;
  check_error(zuphinka_pool_cut(pool, append_text, text, NULL), ZUPHINKA_POOL_ERROR_NONE);
  const char *line = text;
  while (*line) {
    const char *end = strchr(line, '\n');
    check(end);
    const char *answer = strstr(line, " = ");
    if (answer && answer < end) return line;
    line = end + 1;
  }
  return line;
}

static struct zuphinka_tally counts_of(struct zuphinka_pool *pool) {
  struct zuphinka_tally counts;
  zuphinka_pool_counts(pool, &counts);
  return counts;
}

/* Closes and ends a pool, after which nothing exists. */
static void end_pool(struct zuphinka_pool *pool) {
  zuphinka_pool_close(pool);
  struct zuphinka_tally counts = counts_of(pool);
  check(counts.created == counts.destroyed + counts.reclaimed);
  maker.pool = NULL;
  check_error(zuphinka_pool_end(pool), ZUPHINKA_POOL_ERROR_NONE);
  check(atomic_load(&maker.alive) == 0);
}

static struct zuphinka_pool_loan lend(struct zuphinka_pool *pool) {
  struct zuphinka_pool_loan loan;
  check_error(zuphinka_pool_get(pool, &loan), ZUPHINKA_POOL_ERROR_NONE);
  struct thing *thing = loan.object;
  check(thing->id == loan.id && thing->is_awake && atomic_fetch_add(&thing->holders, 1) == 0);
  return loan;
}

/* What a holder does before it ends its loan. */
static void let_go(struct zuphinka_pool_loan *loan) { atomic_fetch_sub(&((struct thing *)loan->object)->holders, 1); }

static void give_back(struct zuphinka_pool *pool, struct zuphinka_pool_loan *loan) {
  let_go(loan);
  check_error(zuphinka_pool_give_back(pool, loan), ZUPHINKA_POOL_ERROR_NONE);
  check(loan->id == ZUPHINKA_POOL_NO_LOAN);
}

static void invalidate(struct zuphinka_pool *pool, struct zuphinka_pool_loan *loan) {
  let_go(loan);
  check_error(zuphinka_pool_invalidate(pool, loan), ZUPHINKA_POOL_ERROR_NONE);
}

/* ---- tests of one thread */

static void test_life(void) {
  struct zuphinka_pool *pool = open_kept("", 8);
  atomic_store(&maker.now, 10);
  atomic_store(&maker.ticks, 1);
  struct zuphinka_pool_loan loan = lend(pool);
  atomic_store(&maker.now, 15);
  give_back(pool, &loan);
  char lines[512];
  uint32_t caller = zuphinka_pool_caller();
  snprintf(lines, sizeof lines,
           "%" PRIu32 " 10 borrow 10 = make 0\n%" PRIu32
           " 12 ready 0 good = lent\n"
           "%" PRIu32 " 15 return 0 = check\n%" PRIu32 " 16 park 0 good = parked\n",
           caller, caller, caller, caller);
  check_text(entries(pool), lines);
  check_text(calls(), "map");
  end_pool(pool);
  check_text(calls(), "d");
}

static const char *const all_tests = "testOnCreate = true\ntestOnBorrow = true\ntestOnReturn = true\n";

/* A test comes where it is set, also if it is the only callback between two steps. */
static void test_life_with_tests_alone(void) {
  struct zuphinka_pool_host host = host_of(&maker);
  struct zuphinka_pool_loan loan;
  host.activate = host.passivate = NULL;
  check_error(zuphinka_pool_open(&maker.pool, all_tests, strlen(all_tests), &host, ZUPHINKA_POOL_JOURNAL_MEMORY), ZUPHINKA_POOL_ERROR_NONE);
  check_error(zuphinka_pool_get(maker.pool, &loan), ZUPHINKA_POOL_ERROR_NONE);
  check_text(calls(), "mvv");
  check_error(zuphinka_pool_give_back(maker.pool, &loan), ZUPHINKA_POOL_ERROR_NONE);
  check_text(calls(), "v");
  check_error(zuphinka_pool_get(maker.pool, &loan), ZUPHINKA_POOL_ERROR_NONE);
  check_text(calls(), "v");
  fail_next(&maker, VALIDATE);
  check_error(zuphinka_pool_give_back(maker.pool, &loan), ZUPHINKA_POOL_ERROR_NONE);
  check_text(calls(), "vd");
  end_pool(maker.pool);
}

/* Without callbacks two steps make one critical section, at one time. */
static void test_life_without_callbacks(void) {
  struct zuphinka_pool_host host = host_of(&maker);
  struct zuphinka_pool_loan loan;
  host.activate = host.passivate = NULL;
  host.validate = NULL;
  check_error(zuphinka_pool_open(&maker.pool, all_tests, strlen(all_tests), &host, ZUPHINKA_POOL_JOURNAL_MEMORY), ZUPHINKA_POOL_ERROR_NONE);
  check_error(zuphinka_pool_add(maker.pool), ZUPHINKA_POOL_ERROR_NONE);
  entries(maker.pool);
  atomic_store(&maker.now, 20);
  atomic_store(&maker.ticks, 1);
  check_error(zuphinka_pool_get(maker.pool, &loan), ZUPHINKA_POOL_ERROR_NONE);
  check_error(zuphinka_pool_give_back(maker.pool, &loan), ZUPHINKA_POOL_ERROR_NONE);
  check_text(entries(maker.pool), "0 20 borrow 20 = take 0\n0 20 ready 0 good = lent\n0 21 return 0 = check\n0 21 park 0 good = parked\n");
  end_pool(maker.pool);
  check_text(calls(), "md");
}

static void test_times_never_decrease(void) {
  struct zuphinka_pool *pool = open_kept("", 8);
  atomic_store(&maker.now, 50);
  struct zuphinka_pool_loan loan = lend(pool);
  atomic_store(&maker.now, 40);
  give_back(pool, &loan);
  check_text(entries(pool), "0 50 borrow 50 = make 0\n0 50 ready 0 good = lent\n0 50 return 0 = check\n0 50 park 0 good = parked\n");
  end_pool(pool);
}

static void test_last_or_first(void) {
  for (int is_lifo = 0; is_lifo < 2; is_lifo++) {
    struct zuphinka_pool *pool = open_kept(is_lifo ? "" : "lifo = false\n", 8);
    struct zuphinka_pool_loan loans[3];
    for (int n = 0; n < 3; n++) loans[n] = lend(pool);
    for (int n = 0; n < 3; n++) give_back(pool, &loans[n]);
    loans[0] = lend(pool);
    check(loans[0].id == (is_lifo ? 2 : 0));
    give_back(pool, &loans[0]);
    end_pool(pool);
  }
}

static void test_tests_come_where_they_are_set(void) {
  static const struct {
    const char *settings, *new, *taken, *returned, *added;
  } rows[] = {
      {"", "ma", "a", "p", "mp"},
      {"testOnCreate = true\n", "mva", "a", "p", "mvp"},
      {"testOnBorrow = true\n", "mav", "av", "p", "mp"},
      {"testOnReturn = true\n", "ma", "a", "vp", "mp"},
  };
  for (size_t n = 0; n < sizeof rows / sizeof *rows; n++) {
    struct zuphinka_pool *pool = open_kept(rows[n].settings, 8);
    calls();
    struct zuphinka_pool_loan loan = lend(pool);
    check_text(calls(), rows[n].new);
    give_back(pool, &loan);
    check_text(calls(), rows[n].returned);
    loan = lend(pool);
    check_text(calls(), rows[n].taken);
    give_back(pool, &loan);
    calls();
    check_error(zuphinka_pool_add(pool), ZUPHINKA_POOL_ERROR_NONE);
    check_text(calls(), rows[n].added);
    end_pool(pool);
  }
}

static void test_exhausted(void) {
  struct zuphinka_pool *pool = open_kept("maxTotal = 1\nblockWhenExhausted = false\n", 1);
  struct zuphinka_pool_loan loan = lend(pool), other = {.id = 77};
  check_error(zuphinka_pool_get(pool, &other), ZUPHINKA_POOL_ERROR_EXHAUSTED);
  check(other.id == 77);
  give_back(pool, &loan);
  end_pool(pool);
  pool = open_kept("maxTotal = 1\n", 1);
  loan = lend(pool);
  check_error(zuphinka_pool_try_get(pool, &other), ZUPHINKA_POOL_ERROR_EXHAUSTED);
  check(other.id == 77);
  give_back(pool, &loan);
  check_error(zuphinka_pool_try_get(pool, &loan), ZUPHINKA_POOL_ERROR_NONE);
  check_error(zuphinka_pool_give_back(pool, &loan), ZUPHINKA_POOL_ERROR_NONE);
  end_pool(pool);
  pool = open_kept("maxTotal = 1\nmaxWaitMillis = 0\n", 1);
  loan = lend(pool);
  check_error(zuphinka_pool_try_get(pool, &other), ZUPHINKA_POOL_ERROR_EXHAUSTED);
  check_error(zuphinka_pool_get(pool, &other), ZUPHINKA_POOL_ERROR_TIMED_OUT);
  give_back(pool, &loan);
  end_pool(pool);
}

/* Opens a pool of one object with the clock of the system, and lends the object. */
static struct zuphinka_pool_loan open_lent(const char *settings) {
  struct zuphinka_pool_host host = host_of(&maker);
  host.now = NULL;
  maker.most = 1;
  check_error(zuphinka_pool_open(&maker.pool, settings, strlen(settings), &host, ZUPHINKA_POOL_JOURNAL_MEMORY), ZUPHINKA_POOL_ERROR_NONE);
  struct zuphinka_pool_loan loan = lend(maker.pool);
  entries(maker.pool);
  return loan;
}

/* The settings end a wait, also one that the caller lets last longer. */
static void test_waits_end_by_the_settings(void) {
  struct zuphinka_pool_loan loan = open_lent("maxTotal = 1\nmaxWaitMillis = 60\n"), other;
  int64_t began = milliseconds_now();
  check_error(zuphinka_pool_get(maker.pool, &other), ZUPHINKA_POOL_ERROR_TIMED_OUT);
  check(milliseconds_now() - began >= 60 && strstr(entries(maker.pool), " = timeout\n"));
  began = milliseconds_now();
  check_error(zuphinka_pool_get_timed(maker.pool, LONG, &other), ZUPHINKA_POOL_ERROR_TIMED_OUT);
  check(milliseconds_now() - began < LONG && strstr(entries(maker.pool), " = timeout\n"));
  give_back(maker.pool, &loan);
  end_pool(maker.pool);
}

/* A wait sleeps while the clock of the host is at its end. */
static void test_waits_at_the_end_of_the_clock(void) {
  struct zuphinka_pool *pool = open_kept("maxTotal = 1\nmaxWaitMillis = 60000\n", 1);
  struct zuphinka_pool_loan loan = lend(pool), other;
  atomic_store(&maker.now, UINT64_MAX);
  atomic_store(&maker.looks, 0);
  check_error(zuphinka_pool_get_timed(pool, 50, &other), ZUPHINKA_POOL_ERROR_TIMED_OUT);
  check(atomic_load(&maker.looks) < 20);
  give_back(pool, &loan);
  end_pool(pool);
}

/* A wait lasts as long as the settings say, those before a change or after it, also if the clock of the host goes back or stands still. */
static void test_waits_end_without_the_clock(void) {
  static const char limited[] = "maxTotal = 1\nmaxWaitMillis = 60\n", unlimited[] = "maxTotal = 1\n";
  static char text[LONGEST_TEXT];
  for (int row = 0; row < 4; row++) {
    bool is_back = row % 2, is_changed = row / 2;
    struct zuphinka_pool *pool = open_kept(is_changed ? unlimited : limited, 1);
    atomic_store(&maker.now, 5000000);
    struct zuphinka_pool_loan loan = lend(pool), other;
    if (is_changed) check_error(zuphinka_pool_reconfigure(pool, limited, strlen(limited), append_text, text, NULL), ZUPHINKA_POOL_ERROR_NONE);
    if (is_back) atomic_store(&maker.now, 1000000);
    int64_t began = milliseconds_now();
    check_error(zuphinka_pool_get_timed(pool, LONG, &other), ZUPHINKA_POOL_ERROR_TIMED_OUT);
    int64_t passed = milliseconds_now() - began;
    check(passed >= 60 && passed < LONG);
    give_back(pool, &loan);
    end_pool(pool);
  }
}

/* The caller ends a wait, which makes no entry then. */
static void test_waits_end_by_the_caller(void) {
  struct zuphinka_pool_loan loan = open_lent("maxTotal = 1\nmaxWaitMillis = 60000\n"), other;
  int64_t began = milliseconds_now();
  check_error(zuphinka_pool_get_timed(maker.pool, 20, &other), ZUPHINKA_POOL_ERROR_TIMED_OUT);
  check(milliseconds_now() - began >= 20);
  check_error(zuphinka_pool_get_timed(maker.pool, 0, &other), ZUPHINKA_POOL_ERROR_TIMED_OUT);
  check(!strstr(entries(maker.pool), " = timeout\n"));
  give_back(maker.pool, &loan);
  check_error(zuphinka_pool_get_timed(maker.pool, UINT64_MAX, &loan), ZUPHINKA_POOL_ERROR_NONE);
  check_error(zuphinka_pool_give_back(maker.pool, &loan), ZUPHINKA_POOL_ERROR_NONE);
  end_pool(maker.pool);
}

/* A new object that fails is destroyed, if it was made, and its place is free. */
static void test_new_objects_that_fail(void) {
  static const struct {
    enum call call;
    enum zuphinka_pool_error of_get, of_add;
    const char *calls_of_get, *calls_of_add;
  } rows[] = {
      {MAKE, ZUPHINKA_POOL_ERROR_MAKE_FAILED, ZUPHINKA_POOL_ERROR_MAKE_FAILED, "m", "m"},
      {VALIDATE, ZUPHINKA_POOL_ERROR_CREATE_TEST_FAILED, ZUPHINKA_POOL_ERROR_CREATE_TEST_FAILED, "mvd", "mvd"},
      {ACTIVATE, ZUPHINKA_POOL_ERROR_ACTIVATE_FAILED, ZUPHINKA_POOL_ERROR_NONE, "mvad", "mvp"},
      {PASSIVATE, ZUPHINKA_POOL_ERROR_NONE, ZUPHINKA_POOL_ERROR_PASSIVATE_FAILED, "mvav", "mvpd"},
  };
  for (size_t n = 0; n < sizeof rows / sizeof *rows; n++) {
    struct zuphinka_pool *pool = open_kept("maxTotal = 1\ntestOnCreate = true\ntestOnBorrow = true\n", 1);
    struct zuphinka_pool_loan loan;
    calls();
    fail_next(&maker, rows[n].call);
    check_error(zuphinka_pool_get(pool, &loan), rows[n].of_get);
    check_text(calls(), rows[n].calls_of_get);
    atomic_store(&maker.failing, 0);
    if (rows[n].of_get == ZUPHINKA_POOL_ERROR_NONE) check_error(zuphinka_pool_invalidate(pool, &loan), ZUPHINKA_POOL_ERROR_NONE);
    calls();
    fail_next(&maker, rows[n].call);
    check_error(zuphinka_pool_add(pool), rows[n].of_add);
    check_text(calls(), rows[n].calls_of_add);
    atomic_store(&maker.failing, 0);
    loan = lend(pool);
    give_back(pool, &loan);
    end_pool(pool);
  }
}

static void test_second_test_of_a_new_object(void) {
  struct zuphinka_pool *pool = open_kept("testOnBorrow = true\n", 8);
  struct zuphinka_pool_loan loan;
  fail_next(&maker, VALIDATE);
  check_error(zuphinka_pool_get(pool, &loan), ZUPHINKA_POOL_ERROR_BORROW_TEST_FAILED);
  check_text(calls(), "mavd");
  end_pool(pool);
}

/* A borrow takes the next idle object, or a new one. */
static void test_idle_objects_that_fail(void) {
  struct zuphinka_pool *pool = open_kept("testOnBorrow = true\n", 8);
  for (int n = 0; n < 2; n++) check_error(zuphinka_pool_add(pool), ZUPHINKA_POOL_ERROR_NONE);
  calls();
  fail_next(&maker, ACTIVATE);
  struct zuphinka_pool_loan loan = lend(pool);
  check(loan.id == 0);
  check_text(calls(), "adav");
  give_back(pool, &loan);
  calls();
  fail_next(&maker, VALIDATE);
  loan = lend(pool);
  check(loan.id == 2);
  check_text(calls(), "avdmav");
  give_back(pool, &loan);
  end_pool(pool);
}

static void test_returned_objects_that_fail(void) {
  static const struct {
    enum call call;
    const char *calls;
  } rows[] = {{VALIDATE, "vd"}, {PASSIVATE, "vpd"}};
  for (size_t n = 0; n < sizeof rows / sizeof *rows; n++) {
    struct zuphinka_pool *pool = open_kept("testOnReturn = true\n", 8);
    struct zuphinka_pool_loan loan = lend(pool);
    calls();
    fail_next(&maker, rows[n].call);
    give_back(pool, &loan);
    check_text(calls(), rows[n].calls);
    check(counts_of(pool).idle == 0 && counts_of(pool).destroyed == 1);
    end_pool(pool);
  }
}

static void test_invalidated(void) {
  struct zuphinka_pool *pool = open_kept("maxTotal = 1\n", 1);
  struct zuphinka_pool_loan loan = lend(pool);
  calls();
  invalidate(pool, &loan);
  check_text(calls(), "d");
  check(counts_of(pool).destroyed == 1 && counts_of(pool).lent == 0);
  loan = lend(pool);
  check(loan.id == 1);
  give_back(pool, &loan);
  end_pool(pool);
}

/* A loan ends once. */
static void test_ended_loans(void) {
  struct zuphinka_pool *pool = open_kept("", 8);
  struct zuphinka_pool_loan loan = lend(pool), copy = loan;
  give_back(pool, &loan);
  uint64_t steps = counts_of(pool).steps;
  check_error(zuphinka_pool_give_back(pool, &loan), ZUPHINKA_POOL_ERROR_NOT_LENT);
  check_error(zuphinka_pool_invalidate(pool, &loan), ZUPHINKA_POOL_ERROR_NOT_LENT);
  check_error(zuphinka_pool_touch(pool, &loan), ZUPHINKA_POOL_ERROR_NOT_LENT);
  check(counts_of(pool).steps == steps);
  check_error(zuphinka_pool_give_back(pool, &copy), ZUPHINKA_POOL_ERROR_NOT_LENT);
  check_error(zuphinka_pool_touch(pool, &copy), ZUPHINKA_POOL_ERROR_NOT_LENT);
  check(counts_of(pool).idle == 1 && copy.id == 0);
  end_pool(pool);
}

/* A loan that no call takes, which changes nothing. */
static void check_no_loan(struct zuphinka_pool *pool, const struct zuphinka_pool_loan *loan, enum zuphinka_pool_error wanted) {
  struct zuphinka_pool_loan copy = *loan;
  check_error(zuphinka_pool_give_back(pool, &copy), wanted);
  check_error(zuphinka_pool_invalidate(pool, &copy), wanted);
  check_error(zuphinka_pool_touch(pool, &copy), wanted);
  check(memcmp(&copy, loan, sizeof copy) == 0);
}

/* A copy of a loan that has ended takes nothing from the object's next holder. */
static void test_stale_loans(void) {
  struct zuphinka_pool *pool = open_kept("maxTotal = 1\n", 1);
  struct zuphinka_pool_loan loan = lend(pool), stale = loan;
  for (int round = 0; round < 3; round++) {
    give_back(pool, &loan);
    loan = lend(pool);
    check(loan.id == stale.id && loan.object == stale.object);
    uint64_t steps = counts_of(pool).steps;
    check_no_loan(pool, &stale, ZUPHINKA_POOL_ERROR_NOT_LENT);
    check(counts_of(pool).steps == steps && counts_of(pool).lent == 1);
    check_error(zuphinka_pool_touch(pool, &loan), ZUPHINKA_POOL_ERROR_NONE);
    stale = loan;
  }
  give_back(pool, &loan);
  end_pool(pool);
}

/* Of two copies of a loan whose object was reclaimed, one has it destroyed. */
static void test_stale_loans_of_reclaimed_objects(void) {
  struct zuphinka_pool *pool =
      open_kept("maxTotal = 1\n[abandoned]\nremoveAbandonedOnBorrow = true\nremoveAbandonedTimeoutMillis = 100\n", -1);
  struct zuphinka_pool_loan loan = lend(pool), stale = loan;
  atomic_store(&maker.now, 100);
  struct zuphinka_pool_loan next = lend(pool);
  let_go(&loan);
  calls();
  check_error(zuphinka_pool_give_back(pool, &loan), ZUPHINKA_POOL_ERROR_GONE);
  check_no_loan(pool, &stale, ZUPHINKA_POOL_ERROR_NOT_LENT);
  check_text(calls(), "d");
  give_back(pool, &next);
  end_pool(pool);
}

/* A loan of another pool, also of one that has ended, takes nothing from the holder of an object with its id. */
static void test_foreign_loans(void) {
  static struct maker others = {.most = 8, .lock = PTHREAD_MUTEX_INITIALIZER};
  struct zuphinka_pool_host host = host_of(&others);
  struct zuphinka_pool *pool = open_kept("", 8);
  struct zuphinka_pool_loan loan = lend(pool), foreign, none = {.id = 0};
  for (int round = 0; round < 3; round++) {
    check_error(zuphinka_pool_open(&others.pool, "", 0, &host, ZUPHINKA_POOL_JOURNAL_OFF), ZUPHINKA_POOL_ERROR_NONE);
    if (round > 0) check_no_loan(others.pool, &foreign, ZUPHINKA_POOL_ERROR_FOREIGN);
    check_error(zuphinka_pool_get(others.pool, &foreign), ZUPHINKA_POOL_ERROR_NONE);
    check(foreign.id == loan.id);
    uint64_t steps = counts_of(pool).steps;
    check_no_loan(pool, &foreign, ZUPHINKA_POOL_ERROR_FOREIGN);
    check_no_loan(pool, &none, ZUPHINKA_POOL_ERROR_FOREIGN);
    check(counts_of(pool).steps == steps && counts_of(pool).lent == 1);
    struct zuphinka_pool_loan ended = foreign;
    check_error(zuphinka_pool_give_back(others.pool, &ended), ZUPHINKA_POOL_ERROR_NONE);
    struct zuphinka_pool *other = others.pool;
    others.pool = NULL;
    check_error(zuphinka_pool_end(other), ZUPHINKA_POOL_ERROR_NONE);
  }
  check_error(zuphinka_pool_touch(pool, &loan), ZUPHINKA_POOL_ERROR_NONE);
  give_back(pool, &loan);
  end_pool(pool);
}

static void test_most_idle(void) {
  struct zuphinka_pool *pool = open_kept("maxIdle = 1\n", 8);
  struct zuphinka_pool_loan loans[] = {lend(pool), lend(pool)};
  give_back(pool, &loans[0]);
  calls();
  give_back(pool, &loans[1]);
  check_text(calls(), "pd");
  check(counts_of(pool).idle == 1);
  end_pool(pool);
}

static void test_additions_and_fills(void) {
  struct zuphinka_pool *pool = open_kept("maxTotal = 4\nminIdle = 3\n", 4);
  uint64_t filled = 77;
  check_error(zuphinka_pool_add(pool), ZUPHINKA_POOL_ERROR_NONE);
  check_error(zuphinka_pool_fill(pool, &filled), ZUPHINKA_POOL_ERROR_NONE);
  check(filled == 2 && counts_of(pool).idle == 3);
  struct zuphinka_pool_loan loans[] = {lend(pool), lend(pool)};
  check_error(zuphinka_pool_fill(pool, &filled), ZUPHINKA_POOL_ERROR_NONE);
  check(filled == 1);
  check_error(zuphinka_pool_add(pool), ZUPHINKA_POOL_ERROR_NO_PLACE);
  check_error(zuphinka_pool_clear(pool, NULL), ZUPHINKA_POOL_ERROR_NONE);
  fail_next(&maker, PASSIVATE);
  check_error(zuphinka_pool_fill(pool, &filled), ZUPHINKA_POOL_ERROR_PASSIVATE_FAILED);
  check(filled == 0 && counts_of(pool).idle == 0);
  for (int n = 0; n < 2; n++) give_back(pool, &loans[n]);
  end_pool(pool);
}

static void test_evictions(void) {
  struct zuphinka_pool *pool = open_kept("minEvictableIdleMillis = 100\ntestWhileIdle = true\nnumTestsPerEvictionRun = 3\n", 8);
  struct zuphinka_pool_eviction done;
  for (int n = 0; n < 4; n++) {
    atomic_store(&maker.now, n == 0 ? 0 : 50);
    check_error(zuphinka_pool_add(pool), ZUPHINKA_POOL_ERROR_NONE);
  }
  calls();
  atomic_store(&maker.now, 101);
  fail_next(&maker, VALIDATE);
  check_error(zuphinka_pool_evict(pool, &done), ZUPHINKA_POOL_ERROR_NONE);
  check(done.examined == 3 && done.destroyed == 2);
  check_text(calls(), "davdavp");
  fail_next(&maker, ACTIVATE);
  check_error(zuphinka_pool_evict(pool, &done), ZUPHINKA_POOL_ERROR_NONE);
  check(done.examined == 2 && done.destroyed == 1 && counts_of(pool).idle == 1 && counts_of(pool).evicted == 3);
  zuphinka_pool_close(pool);
  check_error(zuphinka_pool_evict(pool, &done), ZUPHINKA_POOL_ERROR_CLOSED);
  check(done.examined == 0);
  end_pool(pool);
}

/* Without a callback that tests objects each one passes, also in an eviction run. */
static void test_evictions_without_a_test(void) {
  const char *settings = "testOnCreate = true\ntestOnBorrow = true\ntestOnReturn = true\ntestWhileIdle = true\nminIdle = 1\n";
  struct zuphinka_pool_host host = host_of(&maker);
  struct zuphinka_pool_eviction done;
  struct zuphinka_pool_maintenance maintained;
  host.validate = NULL;
  for (int is_plain = 0; is_plain < 2; is_plain++) {
    if (is_plain) host.activate = host.passivate = NULL;
    check_error(zuphinka_pool_open(&maker.pool, settings, strlen(settings), &host, ZUPHINKA_POOL_JOURNAL_MEMORY), ZUPHINKA_POOL_ERROR_NONE);
    check_error(zuphinka_pool_add(maker.pool), ZUPHINKA_POOL_ERROR_NONE);
    calls();
    check_error(zuphinka_pool_evict(maker.pool, &done), ZUPHINKA_POOL_ERROR_NONE);
    check(done.examined == 1 && done.destroyed == 0);
    check_error(zuphinka_pool_maintain(maker.pool, &maintained), ZUPHINKA_POOL_ERROR_NONE);
    check(maintained.eviction.examined == 1 && maintained.eviction.destroyed == 0 && maintained.filled == 0);
    check_text(calls(), is_plain ? "" : "apap");
    end_pool(maker.pool);
  }
}

/* Opens a pool whose objects get so old, with an idle object that is made at time 0, and perhaps without hooks. */
static struct zuphinka_pool *open_aging(const char *settings, uint64_t lifetime, bool is_plain) {
  struct zuphinka_pool_host host = host_of(&maker);
  host.max_lifetime_ms = lifetime;
  if (is_plain) host.activate = host.validate = host.passivate = NULL;
  atomic_store(&maker.now, 0);
  check_error(zuphinka_pool_open(&maker.pool, settings, strlen(settings), &host, ZUPHINKA_POOL_JOURNAL_MEMORY), ZUPHINKA_POOL_ERROR_NONE);
  check_error(zuphinka_pool_add(maker.pool), ZUPHINKA_POOL_ERROR_NONE);
  entries(maker.pool);
  calls();
  return maker.pool;
}

/* An object that is too old is not lent, but destroyed without another call, and the next one is tried. */
static void test_too_old_to_be_lent(void) {
  for (int is_plain = 0; is_plain < 2; is_plain++) {
    struct zuphinka_pool *pool = open_aging("testOnBorrow = true\ntestOnReturn = true\n", 100, is_plain);
    struct zuphinka_pool_loan loan;
    atomic_store(&maker.now, 99);
    check_error(zuphinka_pool_get(pool, &loan), ZUPHINKA_POOL_ERROR_NONE);
    check(loan.id == 0);
    check_error(zuphinka_pool_give_back(pool, &loan), ZUPHINKA_POOL_ERROR_NONE);
    check_text(calls(), is_plain ? "" : "avvp");
    entries(pool);
    atomic_store(&maker.now, 100);
    check_error(zuphinka_pool_get(pool, &loan), ZUPHINKA_POOL_ERROR_NONE);
    check(loan.id == 1);
    check_text(calls(), is_plain ? "dm" : "dmav");
    check_text(entries(pool), "0 100 borrow 100 = take 0\n0 100 ready 0 activatefail = destroy\n0 100 destroyed 0 = freed\n"
                              "0 100 borrow 100 = make 1\n0 100 ready 1 good = lent\n");
    check_error(zuphinka_pool_give_back(pool, &loan), ZUPHINKA_POOL_ERROR_NONE);
    end_pool(pool);
    calls();
  }
}

/* An object that is too old is destroyed at its return, and not before. */
static void test_too_old_to_return(void) {
  for (int row = 0; row < 4; row++) {
    bool is_plain = row % 2, tests = row / 2;
    struct zuphinka_pool *pool = open_aging(tests ? "testOnReturn = true\n" : "", 100, is_plain);
    struct zuphinka_pool_loan loan;
    check_error(zuphinka_pool_get(pool, &loan), ZUPHINKA_POOL_ERROR_NONE);
    atomic_store(&maker.now, 1000);
    check_error(zuphinka_pool_touch(pool, &loan), ZUPHINKA_POOL_ERROR_NONE);
    calls();
    check_error(zuphinka_pool_give_back(pool, &loan), ZUPHINKA_POOL_ERROR_NONE);
    check_text(calls(), "d");
    check(counts_of(pool).idle == 0 && counts_of(pool).destroyed == 1 && atomic_load(&maker.alive) == 0);
    check(strstr(entries(pool), tests && !is_plain ? " park 0 testfail = destroy\n" : " park 0 passivatefail = destroy\n"));
    end_pool(pool);
    calls();
  }
}

/* An eviction run destroys those that are too old, if it tests. */
static void test_too_old_to_be_kept(void) {
  static const struct {
    const char *settings;
    uint64_t destroyed;
    const char *calls, *plain_calls;
  } rows[] = {{"testWhileIdle = true\nlifo = false\n", 1, "davp", "d"}, {"lifo = false\n", 0, "", ""}};
  for (int row = 0; row < 2; row++) {
    for (int is_plain = 0; is_plain < 2; is_plain++) {
      struct zuphinka_pool *pool = open_aging(rows[row].settings, 100, is_plain);
      struct zuphinka_pool_eviction done;
      struct zuphinka_pool_loan loan;
      atomic_store(&maker.now, 50);
      check_error(zuphinka_pool_add(pool), ZUPHINKA_POOL_ERROR_NONE);
      calls();
      atomic_store(&maker.now, 149);
      check_error(zuphinka_pool_evict(pool, &done), ZUPHINKA_POOL_ERROR_NONE);
      check(done.examined == 2 && done.destroyed == rows[row].destroyed);
      check_text(calls(), is_plain ? rows[row].plain_calls : rows[row].calls);
      check_error(zuphinka_pool_get(pool, &loan), ZUPHINKA_POOL_ERROR_NONE);
      check(loan.id == 1);
      check_error(zuphinka_pool_give_back(pool, &loan), ZUPHINKA_POOL_ERROR_NONE);
      end_pool(pool);
      calls();
    }
  }
}

/* A new object is not too old, however long it takes to be made, and none is if the clock goes back. */
static void test_new_objects_are_not_old(void) {
  struct zuphinka_pool *pool = open_aging("testOnCreate = true\ntestOnBorrow = true\nminIdle = 1\nlifo = false\n", 10, false);
  check_error(zuphinka_pool_clear(pool, NULL), ZUPHINKA_POOL_ERROR_NONE);
  atomic_store(&maker.ticks, 20);
  struct zuphinka_pool_loan loan = lend(pool);
  check(loan.id == 1);
  check_error(zuphinka_pool_fill(pool, NULL), ZUPHINKA_POOL_ERROR_NONE);
  check(counts_of(pool).created == 3 && counts_of(pool).destroyed == 1);
  atomic_store(&maker.ticks, 0);
  atomic_store(&maker.now, 5);
  give_back(pool, &loan);
  loan = lend(pool);
  check(loan.id == 2 && counts_of(pool).idle == 1);
  give_back(pool, &loan);
  end_pool(pool);
}

/* ---- loans that last too long */

/* Maintains a pool. Returns how many loans that reports. */
static uint64_t leaks_found(struct zuphinka_pool *pool, uint64_t at, enum zuphinka_pool_error wanted) {
  uint64_t before = atomic_load(&maker.leaks);
  atomic_store(&maker.now, at);
  check_error(zuphinka_pool_maintain(pool, NULL), wanted);
  return atomic_load(&maker.leaks) - before;
}

static void *borrow_one(void *argument) {
  struct zuphinka_pool_loan *loan = argument;
  check_error(zuphinka_pool_get(maker.pool, loan), ZUPHINKA_POOL_ERROR_NONE);
  return NULL;
}

/* Each loan that lasts too long is reported once, by the first maintenance after that, also of a closed pool. */
static void test_leaks(void) {
  maker.leak_after_ms = 100;
  struct zuphinka_pool *pool = open_kept("", 8);
  struct zuphinka_pool_loan loans[2];
  pthread_t thread;
  atomic_store(&maker.now, 30);
  loans[0] = lend(pool);
  uint32_t here = zuphinka_pool_caller();
  atomic_store(&maker.now, 50);
  check(pthread_create(&thread, NULL, borrow_one, &loans[1]) == 0 && pthread_join(thread, NULL) == 0);
  check(leaks_found(pool, 129, ZUPHINKA_POOL_ERROR_NONE) == 0);
  check_error(zuphinka_pool_touch(pool, &loans[0]), ZUPHINKA_POOL_ERROR_NONE);
  check(leaks_found(pool, 130, ZUPHINKA_POOL_ERROR_NONE) == 1);
  check(maker.leak.id == 0 && maker.leak.since == 30 && maker.leak.borrower == here);
  check(leaks_found(pool, 149, ZUPHINKA_POOL_ERROR_NONE) == 0);
  check(leaks_found(pool, 40, ZUPHINKA_POOL_ERROR_NONE) == 0); /* the clock goes back */
  zuphinka_pool_close(pool);
  check(leaks_found(pool, 1000, ZUPHINKA_POOL_ERROR_CLOSED) == 1);
  check(maker.leak.id == 1 && maker.leak.since == 50 && maker.leak.borrower != here);
  check(leaks_found(pool, 2000, ZUPHINKA_POOL_ERROR_CLOSED) == 0);
  give_back(pool, &loans[0]);
  check_error(zuphinka_pool_give_back(pool, &loans[1]), ZUPHINKA_POOL_ERROR_NONE);
  end_pool(pool);
}

/* The next loan of an object is another one; a loan whose object was reclaimed lasts until its holder ends it. */
static void test_leaks_of_one_object(void) {
  maker.leak_after_ms = 100;
  struct zuphinka_pool *pool = open_kept(
      "maxTotal = 1\n[abandoned]\nremoveAbandonedOnMaintenance = true\nremoveAbandonedTimeoutMillis = 250\n", -1);
  struct zuphinka_pool_loan loan = lend(pool);
  check(leaks_found(pool, 100, ZUPHINKA_POOL_ERROR_NONE) == 1);
  give_back(pool, &loan);
  check(leaks_found(pool, 300, ZUPHINKA_POOL_ERROR_NONE) == 0);
  loan = lend(pool);
  check(loan.id == 0 && leaks_found(pool, 399, ZUPHINKA_POOL_ERROR_NONE) == 0);
  check(leaks_found(pool, 400, ZUPHINKA_POOL_ERROR_NONE) == 1 && maker.leak.since == 300);
  give_back(pool, &loan);
  loan = lend(pool);
  atomic_store(&maker.now, 650);
  check_error(zuphinka_pool_reclaim(pool, NULL), ZUPHINKA_POOL_ERROR_NONE);
  check(counts_of(pool).reclaimed == 1 && leaks_found(pool, 650, ZUPHINKA_POOL_ERROR_NONE) == 1);
  let_go(&loan);
  check_error(zuphinka_pool_give_back(pool, &loan), ZUPHINKA_POOL_ERROR_GONE);
  check(leaks_found(pool, 5000, ZUPHINKA_POOL_ERROR_NONE) == 0);
  end_pool(pool);
}

enum { MANY_LEAKS = 1000 };

/* All are found in one maintenance, however many there are; none without a time. */
static void test_many_leaks(void) {
  static struct zuphinka_pool_loan loans[MANY_LEAKS];
  for (int is_on = 0; is_on < 2; is_on++) {
    maker.leak_after_ms = is_on ? 1 : 0;
    struct zuphinka_pool *pool = open_kept("maxTotal = -1\nmaxIdle = -1\njournalLimit = 100000\n", -1);
    atomic_store(&maker.now, 0);
    for (int n = 0; n < MANY_LEAKS; n++) loans[n] = lend(pool);
    for (int n = 0; n < MANY_LEAKS; n += 2) give_back(pool, &loans[n]);
    check(leaks_found(pool, 1, ZUPHINKA_POOL_ERROR_NONE) == (is_on ? MANY_LEAKS / 2 : 0));
    check(leaks_found(pool, 2, ZUPHINKA_POOL_ERROR_NONE) == 0);
    for (int n = 1; n < MANY_LEAKS; n += 2) give_back(pool, &loans[n]);
    end_pool(pool);
  }
}

static const char *const reclaiming =
    "maxTotal = 2\nminIdle = 1\n[abandoned]\nremoveAbandonedOnBorrow = true\nremoveAbandonedOnMaintenance = true\n"
    "removeAbandonedTimeoutMillis = 100\n";

static void test_maintenance(void) {
  struct zuphinka_pool *pool = open_kept(reclaiming, -1);
  struct zuphinka_pool_maintenance done;
  struct zuphinka_pool_loan loans[] = {lend(pool), lend(pool)};
  atomic_store(&maker.now, 60);
  check_error(zuphinka_pool_touch(pool, &loans[1]), ZUPHINKA_POOL_ERROR_NONE);
  atomic_store(&maker.now, 100);
  check_error(zuphinka_pool_maintain(pool, &done), ZUPHINKA_POOL_ERROR_NONE);
  check(done.eviction.examined == 0 && done.reclaimed == 1 && done.filled == 1);
  check_error(zuphinka_pool_touch(pool, &loans[0]), ZUPHINKA_POOL_ERROR_GONE);
  let_go(&loans[0]);
  check_error(zuphinka_pool_give_back(pool, &loans[0]), ZUPHINKA_POOL_ERROR_GONE);
  check(loans[0].id == ZUPHINKA_POOL_NO_LOAN && counts_of(pool).reclaimed == 1 && atomic_load(&maker.alive) == 2);
  loans[0] = lend(pool);
  atomic_store(&maker.now, 200);
  fail_next(&maker, MAKE);
  check_error(zuphinka_pool_maintain(pool, &done), ZUPHINKA_POOL_ERROR_MAKE_FAILED);
  check(done.eviction.examined == 0 && done.reclaimed == 2 && done.filled == 0);
  zuphinka_pool_close(pool);
  check_error(zuphinka_pool_maintain(pool, &done), ZUPHINKA_POOL_ERROR_CLOSED);
  check(done.eviction.examined == 0 && done.reclaimed == 0 && done.filled == 0);
  for (int n = 0; n < 2; n++) {
    let_go(&loans[n]);
    check_error(zuphinka_pool_give_back(pool, &loans[n]), ZUPHINKA_POOL_ERROR_GONE);
  }
  end_pool(pool);
}

static void test_reclaims_at_a_borrow(void) {
  struct zuphinka_pool *pool = open_kept(reclaiming, -1);
  struct zuphinka_pool_loan loans[] = {lend(pool), lend(pool), {.id = 0}};
  atomic_store(&maker.now, 100);
  loans[2] = lend(pool);
  check(loans[2].id == 2 && counts_of(pool).reclaimed == 2);
  for (int n = 0; n < 2; n++) {
    let_go(&loans[n]);
    check_error(zuphinka_pool_invalidate(pool, &loans[n]), ZUPHINKA_POOL_ERROR_GONE);
  }
  give_back(pool, &loans[2]);
  end_pool(pool);
}

static void test_clears(void) {
  struct zuphinka_pool *pool = open_kept("", 8);
  uint64_t destroyed = 77;
  for (int n = 0; n < 3; n++) check_error(zuphinka_pool_add(pool), ZUPHINKA_POOL_ERROR_NONE);
  struct zuphinka_pool_loan loan = lend(pool);
  calls();
  check_error(zuphinka_pool_clear(pool, &destroyed), ZUPHINKA_POOL_ERROR_NONE);
  check(destroyed == 2 && counts_of(pool).idle == 0 && counts_of(pool).lent == 1);
  check_text(calls(), "dd");
  give_back(pool, &loan);
  end_pool(pool);
}

static void test_closed(void) {
  struct zuphinka_pool *pool = open_kept("minIdle = 2\n", 8);
  uint64_t filled;
  struct zuphinka_pool_loan loan = lend(pool), other;
  check_error(zuphinka_pool_add(pool), ZUPHINKA_POOL_ERROR_NONE);
  check(!zuphinka_pool_is_closed(pool) && zuphinka_pool_close(pool) == 1 && zuphinka_pool_is_closed(pool));
  check(zuphinka_pool_close(pool) == 0);
  check_error(zuphinka_pool_get(pool, &other), ZUPHINKA_POOL_ERROR_CLOSED);
  check_error(zuphinka_pool_add(pool), ZUPHINKA_POOL_ERROR_CLOSED);
  check_error(zuphinka_pool_fill(pool, &filled), ZUPHINKA_POOL_ERROR_NONE);
  check(filled == 0);
  check_error(zuphinka_pool_end(pool), ZUPHINKA_POOL_ERROR_IN_USE);
  calls();
  give_back(pool, &loan);
  check_text(calls(), "pd");
  end_pool(pool);
}

/* A host is refused that has no size, or that of no struct which the library knows; and of such a one nothing but the size is read. */
static void check_sizes(void) {
  const size_t sizes[] = {0, 1, sizeof(size_t), sizeof(struct zuphinka_pool_host) - 1, sizeof(struct zuphinka_pool_host) + 8, SIZE_MAX};
  struct zuphinka_pool *pool = NULL;
  struct zuphinka_pool_host host = host_of(&maker);
  for (size_t n = 0; n < sizeof sizes / sizeof *sizes; n++) {
    host.size = sizes[n];
    check_error(zuphinka_pool_open(&pool, "", 0, &host, ZUPHINKA_POOL_JOURNAL_OFF), ZUPHINKA_POOL_ERROR_UNKNOWN_SIZE);
    size_t *alone = malloc(sizeof *alone);
    check(alone != NULL);
    *alone = sizes[n];
    enum zuphinka_pool_error error = zuphinka_pool_open(&pool, "", 0, (const struct zuphinka_pool_host *)(const void *)alone, ZUPHINKA_POOL_JOURNAL_OFF);
    free(alone);
    check_error(error, ZUPHINKA_POOL_ERROR_UNKNOWN_SIZE);
  }
  check(!pool);
}

static void test_opens(void) {
  static const struct {
    const char *settings;
    enum zuphinka_pool_error error;
  } rows[] = {{"\xff", ZUPHINKA_POOL_ERROR_NOT_TEXT},
              {"maxTotal", ZUPHINKA_POOL_ERROR_NOT_TOML},
              {"maxTotl = 4", ZUPHINKA_POOL_ERROR_UNKNOWN_KEY},
              {"maxTotal = true", ZUPHINKA_POOL_ERROR_WRONG_TYPE},
              {"journalLimit = 0", ZUPHINKA_POOL_ERROR_OUT_OF_RANGE}};
  struct zuphinka_pool *pool = NULL;
  struct zuphinka_pool_host host = host_of(&maker);
  for (size_t n = 0; n < sizeof rows / sizeof *rows; n++) {
    check_error(zuphinka_pool_open(&pool, rows[n].settings, strlen(rows[n].settings), &host, ZUPHINKA_POOL_JOURNAL_OFF), rows[n].error);
    check(!pool);
  }
  check_error(zuphinka_pool_open(&pool, NULL, 0, &host, ZUPHINKA_POOL_JOURNAL_OFF), ZUPHINKA_POOL_ERROR_NULL_POINTER);
  check_error(zuphinka_pool_open(NULL, "", 0, &host, ZUPHINKA_POOL_JOURNAL_OFF), ZUPHINKA_POOL_ERROR_NULL_POINTER);
  check_error(zuphinka_pool_open(&pool, "", 0, NULL, ZUPHINKA_POOL_JOURNAL_OFF), ZUPHINKA_POOL_ERROR_NULL_POINTER);
  check_error(zuphinka_pool_open(&pool, "", 0, &host, (enum zuphinka_pool_journal)3), ZUPHINKA_POOL_ERROR_UNKNOWN_JOURNAL);
  check_error(zuphinka_pool_open(&pool, "", 0, &host, (enum zuphinka_pool_journal)7), ZUPHINKA_POOL_ERROR_UNKNOWN_JOURNAL);
  check_error(zuphinka_pool_open(&pool, "", 0, &host, ZUPHINKA_POOL_JOURNAL_SEGMENTS), ZUPHINKA_POOL_ERROR_MISSING_CALLBACK);
  host.leak = NULL;
  host.leak_after_ms = 1;
  check_error(zuphinka_pool_open(&pool, "", 0, &host, ZUPHINKA_POOL_JOURNAL_OFF), ZUPHINKA_POOL_ERROR_MISSING_CALLBACK);
  host = host_of(&maker);
  host.destroy = NULL;
  check_error(zuphinka_pool_open(&pool, "", 0, &host, ZUPHINKA_POOL_JOURNAL_OFF), ZUPHINKA_POOL_ERROR_MISSING_CALLBACK);
  check_sizes();
  check(!pool && zuphinka_pool_end(NULL) == ZUPHINKA_POOL_ERROR_NONE);
}

static void test_texts(void) {
  const char *none = zuphinka_pool_error_text((enum zuphinka_pool_error)(LAST_ERROR + 1));
  for (int n = 0; n <= LAST_ERROR; n++) {
    const char *text = zuphinka_pool_error_text((enum zuphinka_pool_error)n);
    check(*text && strcmp(text, none) != 0);
    for (int other = 0; other < n; other++) check(strcmp(text, zuphinka_pool_error_text((enum zuphinka_pool_error)other)) != 0);
  }
}

/* ---- metrics */

/* Returns the metrics of some pools, up to `size`. */
static enum zuphinka_pool_error read_metrics(const struct zuphinka_pool_named *pools, size_t count, char text[LONGEST_TEXT]) {
  size_t size = 0;
  enum zuphinka_pool_error error = zuphinka_pool_metrics(pools, count, text, LONGEST_TEXT - 1, &size);
  text[error ? 0 : size] = 0;
  return error;
}

/* Appends the samples of a histogram of a pool named "n": as many times below the first of two bounds, below the second, and from it on. */
static void append_histogram(char *text, const char *name, const char *bounds[2], const int counts[3], const char *sum) {
  static const char *const all[] = {"0.0001", "0.00025", "0.0005", "0.001", "0.0025", "0.005", "0.01", "0.025", "0.05", "0.1",
                                    "0.25",   "0.5",     "1.0",    "2.5",   "5.0",    "10.0",  "25.0", "50.0",  "100.0"};
  int stage = 0;
  for (size_t n = 0; n < sizeof all / sizeof *all; n++) {
    while (stage < 2 && strcmp(all[n], bounds[stage]) == 0) stage++;
    text += sprintf(text, "%s_bucket{pool=\"n\",le=\"%s\"} %d\n", name, all[n], counts[stage]);
  }
  text += sprintf(text, "%s_bucket{pool=\"n\",le=\"+Inf\"} %d\n", name, counts[2]);
  sprintf(text, "%s_count{pool=\"n\"} %d\n%s_sum{pool=\"n\"} %s\n", name, counts[2], name, sum);
}

/* A loan of 3 ms that is returned and one of 2 s that is invalidated; a wait of 22 ms, since the clock moves by 11 while an object is made and while it
 * is activated, and waits of none; and a borrow that times out at once. Returns a third loan, which lasts. */
static struct zuphinka_pool_loan lend_measured(struct zuphinka_pool *pool) {
  struct zuphinka_pool_loan other;
  atomic_store(&maker.now, 1000);
  atomic_store(&maker.ticks, 11);
  struct zuphinka_pool_loan loan = lend(pool);
  atomic_store(&maker.ticks, 0);
  atomic_store(&maker.now, 1025);
  give_back(pool, &loan);
  loan = lend(pool);
  check_error(zuphinka_pool_get(pool, &other), ZUPHINKA_POOL_ERROR_TIMED_OUT);
  atomic_fetch_add(&maker.now, 2000);
  invalidate(pool, &loan);
  return lend(pool);
}

static void test_metrics(void) {
  static char wanted[LONGEST_TEXT], found[LONGEST_TEXT];
  const struct zuphinka_pool_named named = {open_kept("maxTotal = 1\nmaxWaitMillis = 0\n", 1), "n"};
  struct zuphinka_pool_loan loan = lend_measured(named.pool);
  strcpy(wanted, "# TYPE zuphinka_idle_objects gauge\n# UNIT zuphinka_idle_objects objects\n# HELP zuphinka_idle_objects Idle objects.\n"
                 "zuphinka_idle_objects{pool=\"n\"} 0\n"
                 "# TYPE zuphinka_lent_objects gauge\n# UNIT zuphinka_lent_objects objects\n# HELP zuphinka_lent_objects Lent objects.\n"
                 "zuphinka_lent_objects{pool=\"n\"} 1\n"
                 "# TYPE zuphinka_waiting_borrows gauge\n# UNIT zuphinka_waiting_borrows borrows\n"
                 "# HELP zuphinka_waiting_borrows Borrows that wait for an object.\nzuphinka_waiting_borrows{pool=\"n\"} 0\n"
                 "# TYPE zuphinka_created_objects counter\n# UNIT zuphinka_created_objects objects\n"
                 "# HELP zuphinka_created_objects Objects that the pool began to make.\nzuphinka_created_objects_total{pool=\"n\"} 2\n"
                 "# TYPE zuphinka_destroyed_objects counter\n# UNIT zuphinka_destroyed_objects objects\n"
                 "# HELP zuphinka_destroyed_objects Objects that were destroyed, reclaimed, or could not be made.\n"
                 "zuphinka_destroyed_objects_total{pool=\"n\"} 1\n"
                 "# TYPE zuphinka_borrows counter\n# UNIT zuphinka_borrows borrows\n# HELP zuphinka_borrows Borrows that got an object.\n"
                 "zuphinka_borrows_total{pool=\"n\"} 3\n"
                 "# TYPE zuphinka_timeouts counter\n# UNIT zuphinka_timeouts timeouts\n# HELP zuphinka_timeouts Borrows that timed out.\n"
                 "zuphinka_timeouts_total{pool=\"n\"} 1\n"
                 "# TYPE zuphinka_wait_seconds histogram\n# UNIT zuphinka_wait_seconds seconds\n"
                 "# HELP zuphinka_wait_seconds How long borrows took that got an object.\n");
  append_histogram(wanted + strlen(wanted), "zuphinka_wait_seconds", (const char *[]){"0.025", "0.025"}, (const int[]){2, 2, 3}, "0.022000000");
  strcat(wanted, "# TYPE zuphinka_loan_seconds histogram\n# UNIT zuphinka_loan_seconds seconds\n"
                 "# HELP zuphinka_loan_seconds How long objects were lent that were not reclaimed, by the end of their loans.\n");
  append_histogram(wanted + strlen(wanted), "zuphinka_loan_seconds", (const char *[]){"0.005", "2.5"}, (const int[]){0, 1, 2}, "2.003000000");
  strcat(wanted, "# EOF\n");
  check_error(read_metrics(&named, 1, found), ZUPHINKA_POOL_ERROR_NONE);
  check_text(found, wanted);
  give_back(named.pool, &loan);
  end_pool(named.pool);
}

/* A text is stored as far as there is room for it, and its size always. The name of a pool may have any bytes. */
static void test_metrics_of_some_pools(void) {
  static char whole[LONGEST_TEXT], part[LONGEST_TEXT];
  struct zuphinka_pool *pool = open_kept("", 8);
  const struct zuphinka_pool_named named[] = {{pool, "a"}, {pool, "say \"b\\\"\nc"}};
  size_t size = 7, needed = 0;
  check_error(zuphinka_pool_metrics(named, 2, NULL, 0, &size), ZUPHINKA_POOL_ERROR_BUFFER_TOO_SMALL);
  check_error(read_metrics(named, 2, whole), ZUPHINKA_POOL_ERROR_NONE);
  check(size == strlen(whole));
  check(strstr(whole, "zuphinka_idle_objects{pool=\"a\"} 0\nzuphinka_idle_objects{pool=\"say \\\"b\\\\\\\"\\nc\"} 0\n# TYPE "));
  check(strcmp(whole + size - strlen(ZUPHINKA_POOL_METRICS_END), ZUPHINKA_POOL_METRICS_END) == 0);
  check_error(zuphinka_pool_metrics(named, 2, part, size, &needed), ZUPHINKA_POOL_ERROR_NONE);
  check(needed == size && strcmp(part, whole) == 0);
  memset(part, 'u', size);
  check_error(zuphinka_pool_metrics(named, 2, part, size - 1, &needed), ZUPHINKA_POOL_ERROR_BUFFER_TOO_SMALL);
  check(needed == size && memcmp(part, whole, size - 1) == 0 && part[size - 1] == 'u');
  check_error(zuphinka_pool_metrics(NULL, 0, part, size, &needed), ZUPHINKA_POOL_ERROR_NONE);
  check(needed < size && memcmp(part, "# TYPE ", 7) == 0);
  check_error(zuphinka_pool_metrics(NULL, 1, part, size, &needed), ZUPHINKA_POOL_ERROR_NULL_POINTER);
  check_error(zuphinka_pool_metrics(named, 1, part, size, NULL), ZUPHINKA_POOL_ERROR_NULL_POINTER);
  end_pool(pool);
}

/* Returns the number of a pool named "n" behind the name of a sample. */
static uint64_t number_of(const char *text, const char *sample) {
  char line[128];
  snprintf(line, sizeof line, "\n%s{pool=\"n\"} ", sample);
  const char *found = strstr(text, line);
  check(found);
  return strtoull(found + strlen(line), NULL, 10);
}

/* The number of threads that wait, or 0 without memory for the text that has it. */
static uint64_t waiting_in(struct zuphinka_pool *pool) {
  char text[LONGEST_TEXT];
  return read_metrics(&(struct zuphinka_pool_named){pool, "n"}, 1, text) ? 0 : number_of(text, "zuphinka_waiting_borrows");
}

/* The metrics of a pool in which nothing is lent agree with its counts. */
static void check_metrics(struct zuphinka_pool *pool, const struct zuphinka_tally *counts, bool is_short) {
  static char text[LONGEST_TEXT];
  enum zuphinka_pool_error error = read_metrics(&(struct zuphinka_pool_named){pool, "n"}, 1, text);
  if (error == ZUPHINKA_POOL_ERROR_OUT_OF_MEMORY && is_short) return;
  check_error(error, ZUPHINKA_POOL_ERROR_NONE);
  check(number_of(text, "zuphinka_created_objects_total") == counts->created);
  check(number_of(text, "zuphinka_destroyed_objects_total") == counts->destroyed + counts->reclaimed);
  check(number_of(text, "zuphinka_loan_seconds_count") == number_of(text, "zuphinka_borrows_total") - counts->reclaimed);
  check(number_of(text, "zuphinka_waiting_borrows") == 0 && number_of(text, "zuphinka_lent_objects") == 0);
}

/* ---- journals */

/* A pool whose journal is full takes back and closes; it lends again once its journal is cut. */
static void test_full_journal(void) {
  struct zuphinka_pool *pool = open_kept("journalLimit = 20\n", 8);
  struct zuphinka_pool_loan loan = lend(pool), other;
  check(!zuphinka_pool_is_low(pool));
  enum zuphinka_pool_error error;
  while ((error = zuphinka_pool_touch(pool, &loan)) == ZUPHINKA_POOL_ERROR_NONE) check(counts_of(pool).steps < 20);
  check_error(error, ZUPHINKA_POOL_ERROR_JOURNAL_FULL);
  check_error(zuphinka_pool_get(pool, &other), ZUPHINKA_POOL_ERROR_JOURNAL_FULL);
  check(zuphinka_pool_is_low(pool));
  give_back(pool, &loan);
  check_error(zuphinka_pool_get(pool, &loan), ZUPHINKA_POOL_ERROR_JOURNAL_FULL);
  entries(pool);
  check(!zuphinka_pool_is_low(pool));
  loan = lend(pool);
  give_back(pool, &loan);
  while ((error = zuphinka_pool_clear(pool, NULL)) == ZUPHINKA_POOL_ERROR_NONE) check(counts_of(pool).steps < 60);
  zuphinka_pool_close(pool);
  check_error(zuphinka_pool_get(pool, &loan), ZUPHINKA_POOL_ERROR_CLOSED);
  check_error(zuphinka_pool_add(pool), ZUPHINKA_POOL_ERROR_CLOSED);
  check_error(zuphinka_pool_evict(pool, NULL), ZUPHINKA_POOL_ERROR_CLOSED);
  end_pool(pool);
}

/* A closed pool is closed, also if a borrow would reclaim first, and has no room for that. */
static void test_closed_with_a_full_journal(void) {
  struct zuphinka_pool *pool = open_kept("journalLimit = 20\n[abandoned]\nremoveAbandonedOnBorrow = true\n", 8);
  struct zuphinka_pool_loan loan;
  enum zuphinka_pool_error error;
  zuphinka_pool_close(pool);
  while ((error = zuphinka_pool_clear(pool, NULL)) == ZUPHINKA_POOL_ERROR_NONE) check(counts_of(pool).steps <= 20);
  check_error(error, ZUPHINKA_POOL_ERROR_JOURNAL_FULL);
  check_error(zuphinka_pool_get(pool, &loan), ZUPHINKA_POOL_ERROR_CLOSED);
  check_error(zuphinka_pool_try_get(pool, &loan), ZUPHINKA_POOL_ERROR_CLOSED);
  check_error(zuphinka_pool_get_timed(pool, LONG, &loan), ZUPHINKA_POOL_ERROR_CLOSED);
  end_pool(pool);
}

/* A pool without a journal lends on, however small its journal is. */
static void test_dropped_journal(void) {
  for (int limit = 16; limit <= 100000; limit *= 25) {
    char settings[64];
    struct zuphinka_pool_host host = host_of(&maker);
    snprintf(settings, sizeof settings, "journalLimit = %d\n", limit);
    check_error(zuphinka_pool_open(&maker.pool, settings, strlen(settings), &host, ZUPHINKA_POOL_JOURNAL_OFF), ZUPHINKA_POOL_ERROR_NONE);
    for (int round = 0; round < 5000; round++) {
      struct zuphinka_pool_loan loan = lend(maker.pool);
      check_error(zuphinka_pool_touch(maker.pool, &loan), ZUPHINKA_POOL_ERROR_NONE);
      give_back(maker.pool, &loan);
    }
    check(counts_of(maker.pool).steps == 25000);
    uint64_t last = 0;
    static char text[LONGEST_TEXT];
    text[0] = 0;
    check_error(zuphinka_pool_cut(maker.pool, append_text, text, &last), ZUPHINKA_POOL_ERROR_NONE);
    check(last <= 1024 && last <= (uint64_t)limit);
    end_pool(maker.pool);
  }
}

static bool write_file(const char *folder, const char *name, const char *text, size_t size) {
  char path[1024];
  int length = snprintf(path, sizeof path, "%s/%s", folder, name);
  FILE *file = length > 0 && (size_t)length < sizeof path ? fopen(path, "wb") : NULL;
  if (!file) return false;
  bool is_written = fwrite(text, 1, size, file) == size;
  return fclose(file) == 0 && is_written;
}

/* Writes a segment to a file, unless this call is to fail. */
static bool store_segment(void *context, uint64_t first, const char *text, size_t size) {
  struct maker *made = context;
  struct sink *sink = &made->sink;
  struct zuphinka_tally counts;
  if (made->pool) zuphinka_pool_counts(made->pool, &counts); /* which hangs if the pool holds its lock */
  int call = atomic_fetch_add(&sink->called, 1) + 1;
  char name[32];
  while (atomic_load(&sink->is_held)) sleep_for(1);
  if (sink->fails_at < 0 || call == sink->fails_at) return false;
  snprintf(name, sizeof name, "segment-%020" PRIu64, first);
  return !sink->folder || write_file(sink->folder, name, text, size);
}

/* Opens a pool whose segments go to a folder, or nowhere; it may be without memory for a while. */
static struct zuphinka_pool *open_stored(struct maker *made, const char *settings, const char *folder, enum zuphinka_pool_journal journal) {
  struct zuphinka_pool_host host = host_of(made);
  host.store = store_segment;
  if (made->is_plain) host.activate = host.passivate = NULL;
  if (made->has_no_clock) host.now = NULL;
  made->sink.folder = folder;
  enum zuphinka_pool_error error = ZUPHINKA_POOL_ERROR_OUT_OF_MEMORY;
  for (int tries = 0; error == ZUPHINKA_POOL_ERROR_OUT_OF_MEMORY && tries < 1000; tries++) {
    error = zuphinka_pool_open(&made->pool, settings, strlen(settings), &host, journal);
  }
  check_error(error, ZUPHINKA_POOL_ERROR_NONE);
  bool is_written = !folder;
  for (int tries = 0; !is_written && tries < 1000; tries++) is_written = write_file(folder, "settings.toml", settings, strlen(settings));
  check(is_written);
  return made->pool;
}

/* Ends a pool whose last segment may fail for some time. */
static void end_stored(struct zuphinka_pool *pool) {
  enum zuphinka_pool_error error = ZUPHINKA_POOL_ERROR_STORE_FAILED;
  for (int tries = 0; error && tries < 1000; tries++) error = zuphinka_pool_end(pool);
  check_error(error, ZUPHINKA_POOL_ERROR_NONE);
}

/* Where a store fails nothing is lost: the journal fills up, and all of it is stored later. */
static void test_failing_store(void) {
  struct zuphinka_pool *pool = open_stored(&maker, "journalLimit = 1000\n", NULL, ZUPHINKA_POOL_JOURNAL_SEGMENTS);
  struct zuphinka_pool_loan loan;
  enum zuphinka_pool_error error;
  maker.sink.fails_at = -1;
  while ((error = zuphinka_pool_get(pool, &loan)) == ZUPHINKA_POOL_ERROR_NONE) {
    check_error(zuphinka_pool_give_back(pool, &loan), ZUPHINKA_POOL_ERROR_NONE);
    check(counts_of(pool).steps < 2000);
  }
  check_error(error, ZUPHINKA_POOL_ERROR_JOURNAL_FULL);
  check(counts_of(pool).steps > 1700 && zuphinka_pool_is_low(pool) && atomic_load(&maker.sink.called) < 20);
  check_error(zuphinka_pool_cut(pool, store_segment, &maker, NULL), ZUPHINKA_POOL_ERROR_STORE_FAILED);
  maker.sink.fails_at = 0;
  uint64_t entries = 0;
  check_error(zuphinka_pool_cut(pool, store_segment, &maker, &entries), ZUPHINKA_POOL_ERROR_NONE);
  check(entries == counts_of(pool).steps && !zuphinka_pool_is_low(pool));
  atomic_store(&maker.sink.called, 0);
  while (atomic_load(&maker.sink.called) == 0) {
    loan = lend(pool);
    give_back(pool, &loan);
  }
  check(counts_of(pool).steps - entries < 800); /* a quarter of the room was left */
  loan = lend(pool);
  give_back(pool, &loan);
  zuphinka_pool_close(pool);
  maker.sink.fails_at = -1;
  check_error(zuphinka_pool_end(pool), ZUPHINKA_POOL_ERROR_STORE_FAILED);
  maker.sink.fails_at = 0;
  maker.pool = NULL;
  check_error(zuphinka_pool_end(pool), ZUPHINKA_POOL_ERROR_NONE);
}

/* The journal is stored at the end of a pool also if an object is lent, which keeps the pool. */
static void test_in_use_at_the_end(void) {
  for (int fails = 0; fails < 2; fails++) {
    struct zuphinka_pool *pool = open_stored(&maker, "", NULL, ZUPHINKA_POOL_JOURNAL_SEGMENTS);
    struct zuphinka_pool_loan loan = lend(pool);
    uint64_t left = 0;
    maker.sink.fails_at = fails ? -1 : 0;
    check_error(zuphinka_pool_end(pool), ZUPHINKA_POOL_ERROR_IN_USE);
    maker.sink.fails_at = 0;
    check_error(zuphinka_pool_cut(pool, store_segment, &maker, &left), ZUPHINKA_POOL_ERROR_NONE);
    check(left == (fails ? counts_of(pool).steps : 0));
    give_back(pool, &loan);
    end_pool(pool);
  }
}

/* Returns whether a call had room; one that had none changed nothing. */
static bool had_room(enum zuphinka_pool_error error) {
  check(error == ZUPHINKA_POOL_ERROR_NONE || error == ZUPHINKA_POOL_ERROR_JOURNAL_FULL || error == ZUPHINKA_POOL_ERROR_NOT_LENT);
  return error == ZUPHINKA_POOL_ERROR_NONE;
}

/* Makes each call that needs room. Returns whether all of them had it. */
static bool call_all(struct zuphinka_pool *pool) {
  struct zuphinka_pool_loan first = {.id = ZUPHINKA_POOL_NO_LOAN}, second = first;
  bool all = had_room(zuphinka_pool_get(pool, &first));
  all &= had_room(zuphinka_pool_get(pool, &second));
  all &= had_room(zuphinka_pool_touch(pool, &second));
  all &= had_room(zuphinka_pool_give_back(pool, &second));
  all &= had_room(zuphinka_pool_give_back(pool, &first));
  all &= had_room(zuphinka_pool_evict(pool, NULL));
  all &= had_room(zuphinka_pool_maintain(pool, NULL));
  all &= had_room(zuphinka_pool_clear(pool, NULL));
  all &= had_room(zuphinka_pool_add(pool));
  return all & had_room(zuphinka_pool_fill(pool, NULL));
}

/* Plays a pool of two objects with a very small journal. */
static void play_small(int limit, bool reclaims, enum zuphinka_pool_journal journal) {
  char settings[160];
  snprintf(settings, sizeof settings, "maxTotal = 2\nmaxIdle = 2\nminIdle = 2\njournalLimit = %d\n%s", limit,
           reclaims ? "[abandoned]\nremoveAbandonedOnBorrow = true\n" : "");
  struct zuphinka_pool *pool = open_stored(&maker, settings, NULL, journal);
  for (int round = 0; round < 5; round++) {
    bool has_room = call_all(pool);
    check(has_room || journal == ZUPHINKA_POOL_JOURNAL_MEMORY || limit < 6 * 2 + 2);
  }
  end_pool(pool);
}

/* A pool with a very small journal ends each call, and closes. Six entries for each object and two more are enough if the journal is cut. */
static void test_small_journals(void) {
  for (int limit = 1; limit < 40; limit++) {
    for (int journal = ZUPHINKA_POOL_JOURNAL_OFF; journal <= ZUPHINKA_POOL_JOURNAL_SEGMENTS; journal++) {
      for (int reclaims = 0; reclaims < 2; reclaims++) play_small(limit, reclaims, (enum zuphinka_pool_journal)journal);
    }
  }
}

/* Maintenance stores a segment early, and tries one that failed again. */
static void test_maintained_journal(void) {
  struct zuphinka_pool *pool = open_stored(&maker, "journalLimit = 100\n", NULL, ZUPHINKA_POOL_JOURNAL_SEGMENTS);
  struct zuphinka_pool_loan loan;
  for (int round = 0; round < 12; round++) {
    loan = lend(pool);
    give_back(pool, &loan);
  }
  check(atomic_load(&maker.sink.called) == 0);
  maker.sink.fails_at = 1;
  check_error(zuphinka_pool_maintain(pool, NULL), ZUPHINKA_POOL_ERROR_NONE);
  check(atomic_load(&maker.sink.called) == 1);
  check_error(zuphinka_pool_maintain(pool, NULL), ZUPHINKA_POOL_ERROR_NONE);
  check(atomic_load(&maker.sink.called) == 3);
  check_error(zuphinka_pool_maintain(pool, NULL), ZUPHINKA_POOL_ERROR_NONE);
  check(atomic_load(&maker.sink.called) == 3);
  end_pool(pool);
}

static bool store_slowly(void *context, uint64_t first, const char *text, size_t size) {
  atomic_fetch_add(&((struct maker *)context)->now, 200);
  return store_segment(context, first, text, size);
}

/* A loan begins after the store of a segment that the borrow makes first. */
static void test_lent_after_a_slow_store(void) {
  const char *settings = "journalLimit = 60\n[abandoned]\nremoveAbandonedOnMaintenance = true\nremoveAbandonedTimeoutMillis = 100\n";
  struct zuphinka_pool_host host = host_of(&maker);
  struct zuphinka_pool_loan loan;
  uint64_t reclaimed = 1;
  host.activate = host.passivate = NULL;
  host.store = store_slowly;
  check_error(zuphinka_pool_open(&maker.pool, settings, strlen(settings), &host, ZUPHINKA_POOL_JOURNAL_SEGMENTS), ZUPHINKA_POOL_ERROR_NONE);
  check_error(zuphinka_pool_get(maker.pool, &loan), ZUPHINKA_POOL_ERROR_NONE);
  while (atomic_load(&maker.sink.called) == 0) {
    check_error(zuphinka_pool_give_back(maker.pool, &loan), ZUPHINKA_POOL_ERROR_NONE);
    check_error(zuphinka_pool_get(maker.pool, &loan), ZUPHINKA_POOL_ERROR_NONE);
  }
  check_error(zuphinka_pool_reclaim(maker.pool, &reclaimed), ZUPHINKA_POOL_ERROR_NONE);
  check(reclaimed == 0);
  check_error(zuphinka_pool_give_back(maker.pool, &loan), ZUPHINKA_POOL_ERROR_NONE);
  end_pool(maker.pool);
}

/* ---- settings that change */

static void reconfigure(struct zuphinka_pool *pool, const char *settings, enum zuphinka_pool_error wanted) {
  uint64_t first = UINT64_MAX;
  check_error(zuphinka_pool_reconfigure(pool, settings, strlen(settings), store_segment, &maker, &first), wanted);
  check((first == UINT64_MAX) == (wanted != ZUPHINKA_POOL_ERROR_NONE));
}

/* With fewer places than objects none is taken away, and none is made until fewer are present. */
static void test_fewer_places(void) {
  struct zuphinka_pool *pool = open_kept("maxTotal = 3\nblockWhenExhausted = false\n", 3);
  struct zuphinka_pool_loan loans[3], more;
  for (int n = 0; n < 3; n++) loans[n] = lend(pool);
  reconfigure(pool, "maxTotal = 2\nblockWhenExhausted = false\n", ZUPHINKA_POOL_ERROR_NONE);
  check(counts_of(pool).lent == 3);
  check_error(zuphinka_pool_get(pool, &more), ZUPHINKA_POOL_ERROR_EXHAUSTED);
  give_back(pool, &loans[0]);
  loans[0] = lend(pool); /* the idle one */
  check(loans[0].id == 0 && counts_of(pool).created == 3);
  invalidate(pool, &loans[0]);
  check_error(zuphinka_pool_get(pool, &more), ZUPHINKA_POOL_ERROR_EXHAUSTED); /* two are present */
  check_error(zuphinka_pool_add(pool), ZUPHINKA_POOL_ERROR_NO_PLACE);
  invalidate(pool, &loans[1]);
  maker.most = 2;
  loans[0] = lend(pool);
  check(loans[0].id == 3);
  check_error(zuphinka_pool_get(pool, &more), ZUPHINKA_POOL_ERROR_EXHAUSTED);
  give_back(pool, &loans[0]);
  give_back(pool, &loans[2]);
  end_pool(pool);
}

/* Each setting that a pool looks at holds from the change on. */
static void test_changed_settings(void) {
  struct zuphinka_pool *pool = open_kept("maxTotal = 2\n", 8);
  struct zuphinka_pool_loan first = lend(pool), second = lend(pool);
  calls();
  reconfigure(pool, "maxTotal = 3\nmaxIdle = 1\nlifo = false\ntestOnBorrow = true\nblockWhenExhausted = false\n", ZUPHINKA_POOL_ERROR_NONE);
  struct zuphinka_pool_loan third = lend(pool), more;
  check_text(calls(), "mav");
  check_error(zuphinka_pool_get(pool, &more), ZUPHINKA_POOL_ERROR_EXHAUSTED);
  give_back(pool, &first);
  give_back(pool, &second); /* one is idle already */
  check(counts_of(pool).idle == 1 && counts_of(pool).destroyed == 1);
  reconfigure(pool, "maxIdle = 8\nminEvictableIdleMillis = 5\n", ZUPHINKA_POOL_ERROR_NONE);
  give_back(pool, &third);
  check(counts_of(pool).idle == 2);
  atomic_fetch_add(&maker.now, 6);
  struct zuphinka_pool_eviction eviction;
  check_error(zuphinka_pool_evict(pool, &eviction), ZUPHINKA_POOL_ERROR_NONE);
  check(eviction.destroyed == 2);
  end_pool(pool);
}

/* An object that was reclaimed is destroyed at the end of its loan, also if the settings reclaim none any more. */
static void test_reclaimed_before_a_change(void) {
  struct zuphinka_pool *pool = open_kept(reclaiming, -1);
  struct zuphinka_pool_loan loans[] = {lend(pool), lend(pool)}, stale = loans[0];
  uint64_t reclaimed = 0;
  atomic_store(&maker.now, 100);
  check_error(zuphinka_pool_reclaim(pool, &reclaimed), ZUPHINKA_POOL_ERROR_NONE);
  check(reclaimed == 2);
  reconfigure(pool, "maxTotal = 2\n", ZUPHINKA_POOL_ERROR_NONE);
  check_error(zuphinka_pool_touch(pool, &loans[0]), ZUPHINKA_POOL_ERROR_GONE);
  for (int n = 0; n < 2; n++) let_go(&loans[n]);
  check_error(zuphinka_pool_give_back(pool, &loans[0]), ZUPHINKA_POOL_ERROR_GONE);
  check_error(zuphinka_pool_invalidate(pool, &loans[1]), ZUPHINKA_POOL_ERROR_GONE);
  check(atomic_load(&maker.alive) == 0);
  check_no_loan(pool, &stale, ZUPHINKA_POOL_ERROR_NOT_LENT);
  end_pool(pool);
}

/* The entries before a change are one segment, and those after it count from its end. */
static void test_segments_of_changed_settings(void) {
  struct zuphinka_pool *pool = open_kept("maxTotal = 1\nblockWhenExhausted = false\n", 8);
  static char text[LONGEST_TEXT];
  uint64_t first = 0;
  const char *settings = "maxTotal = 2\nblockWhenExhausted = false\n";
  struct zuphinka_pool_loan loan = lend(pool), more;
  check_error(zuphinka_pool_get(pool, &more), ZUPHINKA_POOL_ERROR_EXHAUSTED);
  check_error(zuphinka_pool_reconfigure(pool, settings, strlen(settings), append_text, text, &first), ZUPHINKA_POOL_ERROR_NONE);
  check(first == 3 && strstr(text, " = exhausted\n"));
  text[0] = 0;
  check_error(zuphinka_pool_reconfigure(pool, settings, strlen(settings), append_text, text, &first), ZUPHINKA_POOL_ERROR_NONE);
  check_text(text, ""); /* no entries, no segment */
  check(first == 3);
  more = lend(pool);
  check(strstr(entries(pool), " = make 1\n") && counts_of(pool).steps == 5);
  give_back(pool, &loan);
  give_back(pool, &more);
  end_pool(pool);
}

/* Settings that are refused change nothing, and no entry is lost. */
static void test_refused_settings(void) {
  struct zuphinka_pool *pool = open_kept("maxTotal = 1\nblockWhenExhausted = false\n", 1);
  struct zuphinka_pool_loan loan = lend(pool), more;
  reconfigure(pool, "maxTotal = ", ZUPHINKA_POOL_ERROR_NOT_TOML);
  reconfigure(pool, "maxTotl = 2", ZUPHINKA_POOL_ERROR_UNKNOWN_KEY);
  reconfigure(pool, "maxTotal = true", ZUPHINKA_POOL_ERROR_WRONG_TYPE);
  reconfigure(pool, "maxTotal = 3000000000", ZUPHINKA_POOL_ERROR_OUT_OF_RANGE);
  reconfigure(pool, "maxTotal = 2 # \xff", ZUPHINKA_POOL_ERROR_NOT_TEXT);
  reconfigure(pool, "maxTotal = 2\njournalLimit = 4\n", ZUPHINKA_POOL_ERROR_JOURNAL_FULL); /* 5 entries free the place and close the pool */
  check_error(zuphinka_pool_reconfigure(pool, NULL, 0, store_segment, &maker, NULL), ZUPHINKA_POOL_ERROR_NULL_POINTER);
  check_error(zuphinka_pool_reconfigure(pool, "", 0, NULL, NULL, NULL), ZUPHINKA_POOL_ERROR_MISSING_CALLBACK);
  check_error(zuphinka_pool_get(pool, &more), ZUPHINKA_POOL_ERROR_EXHAUSTED);
  check(atomic_load(&maker.sink.called) == 0 && counts_of(pool).steps == 3 && strstr(entries(pool), " = exhausted\n"));
  reconfigure(pool, "maxTotal = 1\nblockWhenExhausted = false\njournalLimit = 5\n", ZUPHINKA_POOL_ERROR_NONE);
  check_error(zuphinka_pool_get(pool, &more), ZUPHINKA_POOL_ERROR_JOURNAL_FULL);
  give_back(pool, &loan);
  end_pool(pool);
}

/* A segment that can't be stored at a change is stored by the next cut; one that an earlier cut could not store comes first. */
static void test_failing_store_at_a_change(void) {
  struct zuphinka_pool *pool = open_stored(&maker, "maxTotal = 1\nblockWhenExhausted = false\n", NULL, ZUPHINKA_POOL_JOURNAL_SEGMENTS);
  struct zuphinka_pool_loan loan = lend(pool), second;
  uint64_t first = 0, stored = 0;
  const char *settings = "maxTotal = 2\nblockWhenExhausted = false\n";
  maker.sink.fails_at = -1;
  check_error(zuphinka_pool_reconfigure(pool, settings, strlen(settings), NULL, NULL, &first), ZUPHINKA_POOL_ERROR_NONE);
  check(first == 2 && atomic_load(&maker.sink.called) == 1);
  second = lend(pool);
  check_error(zuphinka_pool_reconfigure(pool, "", 0, NULL, NULL, &first), ZUPHINKA_POOL_ERROR_STORE_FAILED);
  check(first == 2);
  check_error(zuphinka_pool_get(pool, &(struct zuphinka_pool_loan){.object = NULL}), ZUPHINKA_POOL_ERROR_EXHAUSTED); /* as before */
  maker.sink.fails_at = 0;
  check_error(zuphinka_pool_cut(pool, store_segment, &maker, &stored), ZUPHINKA_POOL_ERROR_NONE);
  check(stored == 5);
  give_back(pool, &loan);
  give_back(pool, &second);
  zuphinka_pool_close(pool);
  maker.pool = NULL;
  end_stored(pool);
}

static bool store_and_reconfigure(void *context, uint64_t first, const char *text, size_t size) {
  struct maker *made = context;
  (void)first, (void)text, (void)size;
  check_error(zuphinka_pool_reconfigure(made->pool, "", 0, store_and_reconfigure, made, NULL), ZUPHINKA_POOL_ERROR_STORING);
  return true;
}

/* A store can't change the settings while it stores. */
static void test_store_that_changes_settings(void) {
  struct zuphinka_pool *pool = open_kept("", 8);
  struct zuphinka_pool_loan loan = lend(pool);
  check_error(zuphinka_pool_cut(pool, store_and_reconfigure, &maker, NULL), ZUPHINKA_POOL_ERROR_NONE);
  give_back(pool, &loan);
  end_pool(pool);
}

/* ---- threads that wait */

struct waiter {
  pthread_t thread;
  uint32_t caller;
  struct zuphinka_pool *pool;
  struct zuphinka_pool_loan loan;
  enum zuphinka_pool_error error;
};

static void *wait_for_one(void *argument) {
  struct waiter *waiter = argument;
  waiter->caller = zuphinka_pool_caller();
  waiter->error = zuphinka_pool_get_timed(waiter->pool, LONG, &waiter->loan);
  return NULL;
}

static void *borrow_and_return(void *argument) {
  struct waiter *waiter = argument;
  waiter->caller = zuphinka_pool_caller();
  waiter->error = zuphinka_pool_get(waiter->pool, &waiter->loan);
  if (!waiter->error) waiter->error = zuphinka_pool_give_back(waiter->pool, &waiter->loan);
  return NULL;
}

/* Waits for longer than any clock goes. */
static void *wait_for_ever(void *argument) {
  struct waiter *waiter = argument;
  waiter->caller = zuphinka_pool_caller();
  waiter->error = zuphinka_pool_get_timed(waiter->pool, UINT64_MAX, &waiter->loan);
  return NULL;
}

/* Starts threads, and returns once each waits, or has made an entry. */
static void start(struct waiter *waiters, int count, struct zuphinka_pool *pool, void *(*run)(void *)) {
  uint64_t steps = counts_of(pool).steps + (uint64_t)count, waiting = waiting_in(pool) + (uint64_t)count;
  for (int n = 0; n < count; n++) {
    waiters[n].pool = pool;
    check(pthread_create(&waiters[n].thread, NULL, run, &waiters[n]) == 0);
  }
  while (counts_of(pool).steps < steps && waiting_in(pool) < waiting) sleep_for(1);
}

static void join(struct waiter *waiters, int count, enum zuphinka_pool_error wanted) {
  for (int n = 0; n < count; n++) {
    check(pthread_join(waiters[n].thread, NULL) == 0);
    check_error(waiters[n].error, wanted);
  }
}

static void test_woken_by_a_return(void) {
  struct zuphinka_pool *pool = open_kept("maxTotal = 1\nmaxWaitMillis = 9007199254740992\n", 1);
  struct zuphinka_pool_loan loan = lend(pool);
  struct waiter waiter;
  start(&waiter, 1, pool, wait_for_ever);
  give_back(pool, &loan);
  join(&waiter, 1, ZUPHINKA_POOL_ERROR_NONE);
  check(waiter.loan.id == 0);
  check_error(zuphinka_pool_give_back(pool, &waiter.loan), ZUPHINKA_POOL_ERROR_NONE);
  end_pool(pool);
}

/* An object that is invalidated, or that fails when it is returned, leaves a free place. */
static void test_woken_by_a_place(void) {
  for (int is_invalid = 0; is_invalid < 2; is_invalid++) {
    struct zuphinka_pool *pool = open_kept("maxTotal = 1\n", 1);
    struct zuphinka_pool_loan loan = lend(pool);
    struct waiter waiter;
    start(&waiter, 1, pool, wait_for_one);
    if (is_invalid) {
      invalidate(pool, &loan);
    } else {
      fail_next(&maker, PASSIVATE);
      give_back(pool, &loan);
    }
    join(&waiter, 1, ZUPHINKA_POOL_ERROR_NONE);
    check(waiter.loan.id == 1);
    check_error(zuphinka_pool_give_back(pool, &waiter.loan), ZUPHINKA_POOL_ERROR_NONE);
    end_pool(pool);
  }
}

/* A change that brings more places wakes those that wait for one, for each journal. */
static void test_woken_by_more_places(void) {
  for (int journal = ZUPHINKA_POOL_JOURNAL_OFF; journal <= ZUPHINKA_POOL_JOURNAL_SEGMENTS; journal++) {
    maker.most = 3;
    struct zuphinka_pool *pool = open_stored(&maker, "maxTotal = 1\n", NULL, (enum zuphinka_pool_journal)journal);
    struct zuphinka_pool_loan loan = lend(pool);
    struct waiter waiters[3];
    start(waiters, 3, pool, wait_for_one);
    reconfigure(pool, "maxTotal = 3\n", ZUPHINKA_POOL_ERROR_NONE);
    while (counts_of(pool).lent < 3) sleep_for(1);
    check(waiting_in(pool) == 1);
    give_back(pool, &loan);
    join(waiters, 3, ZUPHINKA_POOL_ERROR_NONE);
    for (int n = 0; n < 3; n++) check_error(zuphinka_pool_give_back(pool, &waiters[n].loan), ZUPHINKA_POOL_ERROR_NONE);
    zuphinka_pool_close(pool);
    maker.pool = NULL;
    end_stored(pool);
  }
}

/* Lends the object of a pool, and lets a thread wait for it by settings that then limit no wait any more. Returns whether they changed before the wait
 * was over, after some milliseconds; otherwise nobody waits, and nothing is lent. */
static bool change_in_time(struct zuphinka_pool *pool, int wait, struct zuphinka_pool_loan *loan, struct waiter *waiter) {
  char settings[64];
  snprintf(settings, sizeof settings, "maxTotal = 1\nmaxWaitMillis = %d\n", wait);
  reconfigure(pool, settings, ZUPHINKA_POOL_ERROR_NONE);
  *loan = lend(pool);
  int64_t began = milliseconds_now();
  start(waiter, 1, pool, wait_for_one);
  reconfigure(pool, "maxTotal = 1\nmaxWaitMillis = -1\n", ZUPHINKA_POOL_ERROR_NONE);
  if (milliseconds_now() - began < wait) return true;
  give_back(pool, loan);
  check(pthread_join(waiter->thread, NULL) == 0);
  if (!waiter->error) check_error(zuphinka_pool_give_back(pool, &waiter->loan), ZUPHINKA_POOL_ERROR_NONE);
  return false;
}

/* A wait ends by the settings that hold when it would end by those before. */
static void test_waits_by_changed_settings(void) {
  maker.has_no_clock = true;
  struct zuphinka_pool *pool = open_stored(&maker, "maxTotal = 1\n", NULL, ZUPHINKA_POOL_JOURNAL_OFF);
  struct zuphinka_pool_loan loan;
  struct waiter waiters[2];
  int wait = 50;
  while (!change_in_time(pool, wait, &loan, waiters)) wait *= 2;
  sleep_for(3 * wait);
  check(waiting_in(pool) == 1);
  start(waiters + 1, 1, pool, wait_for_one);
  reconfigure(pool, "maxTotal = 1\nmaxWaitMillis = 0\n", ZUPHINKA_POOL_ERROR_NONE);
  give_back(pool, &loan);
  join(waiters, 1, ZUPHINKA_POOL_ERROR_NONE);
  check_error(zuphinka_pool_give_back(pool, &waiters[0].loan), ZUPHINKA_POOL_ERROR_NONE);
  join(waiters + 1, 1, ZUPHINKA_POOL_ERROR_NONE);
  check_error(zuphinka_pool_give_back(pool, &waiters[1].loan), ZUPHINKA_POOL_ERROR_NONE);
  zuphinka_pool_close(pool);
  maker.pool = NULL;
  end_stored(pool);
}

static void test_woken_by_a_reclaim(void) {
  struct zuphinka_pool *pool =
      open_kept("maxTotal = 1\n[abandoned]\nremoveAbandonedOnMaintenance = true\nremoveAbandonedTimeoutMillis = 100\n", -1);
  struct zuphinka_pool_loan loan = lend(pool);
  struct waiter waiter;
  uint64_t reclaimed;
  start(&waiter, 1, pool, wait_for_one);
  atomic_store(&maker.now, 100);
  check_error(zuphinka_pool_reclaim(pool, &reclaimed), ZUPHINKA_POOL_ERROR_NONE);
  check(reclaimed == 1);
  join(&waiter, 1, ZUPHINKA_POOL_ERROR_NONE);
  let_go(&loan);
  check_error(zuphinka_pool_give_back(pool, &loan), ZUPHINKA_POOL_ERROR_GONE);
  check_error(zuphinka_pool_give_back(pool, &waiter.loan), ZUPHINKA_POOL_ERROR_NONE);
  end_pool(pool);
}

/* A borrow whose new object failed leaves its place to a thread that waits. */
static void test_woken_by_a_failure(void) {
  struct zuphinka_pool *pool = open_kept("maxTotal = 1\ntestOnBorrow = true\n", 1);
  struct zuphinka_pool_loan loan = lend(pool);
  struct waiter waiters[2];
  start(waiters, 2, pool, borrow_and_return);
  fail_next(&maker, MAKE);
  invalidate(pool, &loan);
  for (int n = 0; n < 2; n++) check(pthread_join(waiters[n].thread, NULL) == 0);
  bool is_first = waiters[0].error != ZUPHINKA_POOL_ERROR_NONE;
  check_error(waiters[!is_first].error, ZUPHINKA_POOL_ERROR_MAKE_FAILED);
  check_error(waiters[is_first].error, ZUPHINKA_POOL_ERROR_NONE);
  end_pool(pool);
}

enum { MANY = 5 };

static void test_all_hear_of_a_close(void) {
  struct zuphinka_pool *pool = open_kept("maxTotal = 1\n", 1);
  struct zuphinka_pool_loan loan = lend(pool);
  struct waiter waiters[MANY];
  start(waiters, MANY, pool, wait_for_one);
  check(zuphinka_pool_close(pool) == 0);
  join(waiters, MANY, ZUPHINKA_POOL_ERROR_CLOSED);
  give_back(pool, &loan);
  end_pool(pool);
}

static void test_all_hear_of_a_full_journal(void) {
  struct zuphinka_pool *pool = open_kept("maxTotal = 1\njournalLimit = 20\n", 1);
  struct zuphinka_pool_loan loan = lend(pool);
  struct waiter waiters[MANY];
  start(waiters, MANY, pool, borrow_and_return);
  while (zuphinka_pool_touch(pool, &loan) == ZUPHINKA_POOL_ERROR_NONE) check(counts_of(pool).steps < 20);
  give_back(pool, &loan);
  join(waiters, MANY, ZUPHINKA_POOL_ERROR_JOURNAL_FULL);
  end_pool(pool);
}

/* One object serves all in turn. Each that waits makes one entry before it is served: those that are woken for nothing make none. */
static void test_one_object_serves_all(void) {
  struct zuphinka_pool *pool = open_kept("maxTotal = 1\n", 1);
  struct zuphinka_pool_loan loan = lend(pool);
  struct waiter waiters[MANY];
  start(waiters, MANY, pool, borrow_and_return);
  give_back(pool, &loan);
  join(waiters, MANY, ZUPHINKA_POOL_ERROR_NONE);
  int waits = 0;
  for (const char *at = strstr(entries(pool), " = wait\n"); at; at = strstr(at + 1, " = wait\n")) waits++;
  check(waits == MANY);
  end_pool(pool);
}

/* One object wakes one of the threads that wait: the others do not look at the clock. */
static void test_one_object_wakes_one(void) {
  struct zuphinka_pool *pool = open_kept("maxTotal = 1\n", 1);
  struct zuphinka_pool_loan loan = lend(pool);
  struct waiter waiters[MANY];
  start(waiters, MANY, pool, wait_for_one);
  let_go(&loan);
  atomic_store(&maker.looks, 0);
  uint64_t steps = counts_of(pool).steps;
  check_error(zuphinka_pool_give_back(pool, &loan), ZUPHINKA_POOL_ERROR_NONE);
  while (counts_of(pool).steps < steps + 4) sleep_for(1);
  sleep_for(50);
  check(atomic_load(&maker.looks) < 4 + MANY - 1); /* the return, its parking, the thread that wakes and its loan; not each of the others */
  zuphinka_pool_close(pool);
  int lent = 0;
  for (int n = 0; n < MANY; n++) {
    check(pthread_join(waiters[n].thread, NULL) == 0);
    if (waiters[n].error == ZUPHINKA_POOL_ERROR_CLOSED) continue;
    check_error(zuphinka_pool_give_back(pool, &waiters[n].loan), ZUPHINKA_POOL_ERROR_NONE);
    lent++;
  }
  check(lent == 1);
  end_pool(pool);
}

/* A thread that waits, and is woken though the object is lent again before it looks, makes no further entry. */
static void test_woken_for_nothing(void) {
  struct zuphinka_pool *pool = open_kept("maxTotal = 1\n", 1);
  struct zuphinka_pool_loan loan = lend(pool);
  struct waiter waiter;
  start(&waiter, 1, pool, borrow_and_return);
  for (int round = 0; round < 200; round++) {
    give_back(pool, &loan);
    loan = lend(pool);
  }
  give_back(pool, &loan);
  join(&waiter, 1, ZUPHINKA_POOL_ERROR_NONE);
  int waits = 0;
  for (const char *line = entries(pool); *line; line = strchr(line, '\n') + 1) {
    bool is_other = strtoul(line, NULL, 10) != zuphinka_pool_caller();
    waits += is_other && memcmp(strchr(line, '\n') - 4, "wait", 4) == 0;
  }
  check(waits == 1);
  end_pool(pool);
}

/* A clock that goes back ends no wait: a borrow begins at the time of the last entry at least. */
static void test_waits_by_a_clock_that_goes_back(void) {
  struct zuphinka_pool *pool = open_kept("maxTotal = 1\nmaxWaitMillis = 60000\n", 1);
  atomic_store(&maker.now, 5000);
  struct zuphinka_pool_loan loan = lend(pool);
  entries(pool);
  atomic_store(&maker.now, 3000);
  struct waiter waiter;
  start(&waiter, 1, pool, borrow_and_return);
  check(strstr(entries(pool), " 5000 borrow 5000 = wait\n"));
  give_back(pool, &loan);
  join(&waiter, 1, ZUPHINKA_POOL_ERROR_NONE);
  end_pool(pool);
}

/* A thread gives up, and another one that waits is served. */
static void test_one_gives_up(void) {
  struct zuphinka_pool *pool = open_kept("maxTotal = 1\n", 1);
  struct zuphinka_pool_loan loan = lend(pool), other;
  struct waiter waiter;
  start(&waiter, 1, pool, wait_for_one);
  check_error(zuphinka_pool_get_timed(pool, 30, &other), ZUPHINKA_POOL_ERROR_TIMED_OUT);
  give_back(pool, &loan);
  join(&waiter, 1, ZUPHINKA_POOL_ERROR_NONE);
  check_error(zuphinka_pool_give_back(pool, &waiter.loan), ZUPHINKA_POOL_ERROR_NONE);
  end_pool(pool);
}

/* ---- threads that end one loan */

/* A call for the loan of another thread. */
struct ender {
  pthread_t thread;
  struct zuphinka_pool *pool;
  struct zuphinka_pool_loan *loan;
  bool touches, invalidates;
  enum zuphinka_pool_error error;
};

static void *end_one(void *argument) {
  struct ender *ender = argument;
  atomic_store(&maker.held, zuphinka_pool_caller() + 1);
  ender->error = zuphinka_pool_give_back(ender->pool, ender->loan);
  return NULL;
}

/* A thread ends the loan that is there once it has the lock: not one that was there before, whose object has another holder by then. */
static void test_loan_that_changes(void) {
  struct zuphinka_pool *pool = open_kept("maxTotal = 2\n", 2);
  struct zuphinka_pool_loan loan = lend(pool), other;
  struct ender ender = {.pool = pool, .loan = &loan};
  int looks = atomic_load(&maker.looks);
  check(pthread_create(&ender.thread, NULL, end_one, &ender) == 0);
  while (atomic_load(&maker.looks) == looks) sleep_for(1); /* its call has begun */
  give_back(pool, &loan);
  other = lend(pool);
  loan = lend(pool);
  check(other.id == 0 && loan.id == 1);
  let_go(&loan);
  atomic_store(&maker.held, 0);
  check(pthread_join(ender.thread, NULL) == 0);
  check_error(ender.error, ZUPHINKA_POOL_ERROR_NONE);
  check(loan.id == ZUPHINKA_POOL_NO_LOAN && counts_of(pool).lent == 1);
  check_error(zuphinka_pool_touch(pool, &other), ZUPHINKA_POOL_ERROR_NONE);
  give_back(pool, &other);
  check(counts_of(pool).lent == 0 && counts_of(pool).idle == 2);
  end_pool(pool);
}

static pthread_barrier_t together;

static void *end_together(void *argument) {
  struct ender *ender = argument;
  pthread_barrier_wait(&together);
  if (ender->touches) ender->error = zuphinka_pool_touch(ender->pool, ender->loan);
  else if (ender->invalidates) ender->error = zuphinka_pool_invalidate(ender->pool, ender->loan);
  else ender->error = zuphinka_pool_give_back(ender->pool, ender->loan);
  return NULL;
}

enum { ENDERS = 4, ENDINGS = 100 };

/* Of threads that end one loan, one does, and for the others it has ended, also for one that touches it later. */
static void test_one_loan_in_some_threads(void) {
  struct zuphinka_pool *pool = open_kept("maxTotal = 1\n", 1);
  check(pthread_barrier_init(&together, NULL, ENDERS) == 0);
  for (int round = 0; round < ENDINGS; round++) {
    struct ender enders[ENDERS];
    struct zuphinka_pool_loan loan = lend(pool);
    int ended = 0;
    let_go(&loan);
    for (int n = 0; n < ENDERS; n++) {
      enders[n] = (struct ender){.pool = pool, .loan = &loan, .touches = n == 0, .invalidates = n == 1};
      check(pthread_create(&enders[n].thread, NULL, end_together, &enders[n]) == 0);
    }
    for (int n = 0; n < ENDERS; n++) {
      check(pthread_join(enders[n].thread, NULL) == 0);
      if (enders[n].error) check_error(enders[n].error, ZUPHINKA_POOL_ERROR_NOT_LENT);
      else if (n > 0) ended++;
    }
    struct zuphinka_tally counts = counts_of(pool);
    check(ended == 1 && loan.id == ZUPHINKA_POOL_NO_LOAN && counts.lent == 0 && counts.idle + counts.destroyed == counts.created);
  }
  pthread_barrier_destroy(&together);
  end_pool(pool);
}

/* ---- overtaking */

/* What a host chooses about overtaking, and how often a thread that waits is overtaken then. */
static const struct {
  bool is_fair;
  uint32_t max_overtakes;
  int most;
} overtaking[] = {{false, 0, 64}, {false, 3, 3}, {false, 1, 1}, {true, 0, 0}, {true, 3, 0}};

enum { CHOICES = sizeof overtaking / sizeof *overtaking, THREE_TIMES = 1, MANY_TIMES = 300 };

/* For how long, in milliseconds, a thread has waited before that counts, if the host doesn't say. */
enum { OVERTAKE_MS = 5 };

/* Opens a pool of one object with such a choice, lends the object, and lets a thread wait for it. */
static struct zuphinka_pool_loan open_waited(int choice, const char *settings, struct waiter *waiter, void *(*run)(void *)) {
  maker.is_fair = overtaking[choice].is_fair;
  maker.max_overtakes = overtaking[choice].max_overtakes;
  struct zuphinka_pool *pool = open_kept(settings, 1);
  struct zuphinka_pool_loan loan = lend(pool);
  start(waiter, 1, pool, run);
  return loan;
}

/* Returns how often a thread that returns an object, some milliseconds later, takes it again before one that was woken by the return looks. */
static int overtakes_after(uint64_t passed, struct zuphinka_pool *pool, struct zuphinka_pool_loan *loan, const struct waiter *waiter) {
  int overtakes = 0;
  atomic_fetch_add(&maker.now, passed);
  atomic_store(&maker.held, waiter->caller + 1);
  give_back(pool, loan);
  for (; overtakes < MANY_TIMES && zuphinka_pool_try_get(pool, loan) == ZUPHINKA_POOL_ERROR_NONE; overtakes++) {
    check_error(zuphinka_pool_give_back(pool, loan), ZUPHINKA_POOL_ERROR_NONE);
  }
  return overtakes;
}

/* A thread that waits is overtaken as often as the host says, and then further borrows find nothing, and make no entry. One that waited behind it is
 * overtaken as often once it has waited longest, or no more if overtaking counts for each; one that begins later is overtaken as often anew. */
static void test_overtakes_are_bounded(void) {
  for (int choice = 0; choice < CHOICES; choice++) {
    struct waiter waiters[3];
    struct zuphinka_pool_loan loan = open_waited(choice, "maxTotal = 1\n", &waiters[0], wait_for_one), none;
    struct zuphinka_pool *pool = maker.pool;
    start(&waiters[1], overtaking[choice].most > 0, pool, wait_for_one);
    check(overtakes_after(OVERTAKE_MS, pool, &loan, &waiters[0]) == overtaking[choice].most);
    uint64_t steps = counts_of(pool).steps;
    check_error(zuphinka_pool_try_get(pool, &none), ZUPHINKA_POOL_ERROR_EXHAUSTED);
    check_error(zuphinka_pool_get_timed(pool, 0, &none), ZUPHINKA_POOL_ERROR_TIMED_OUT);
    check_error(zuphinka_pool_get_timed(pool, 20, &none), ZUPHINKA_POOL_ERROR_TIMED_OUT);
    check(counts_of(pool).steps == steps && counts_of(pool).idle == 1);
    atomic_store(&maker.held, 0);
    join(&waiters[0], 1, ZUPHINKA_POOL_ERROR_NONE);
    if (overtaking[choice].most == 0) start(&waiters[1], 1, pool, wait_for_one);
    check(atomic_fetch_add(&((struct thing *)waiters[0].loan.object)->holders, 1) == 0);
    check(overtakes_after(OVERTAKE_MS, pool, &waiters[0].loan, &waiters[1]) == 0);
    atomic_store(&maker.held, 0);
    join(&waiters[1], 1, ZUPHINKA_POOL_ERROR_NONE);
    start(&waiters[2], 1, pool, wait_for_one);
    check(atomic_fetch_add(&((struct thing *)waiters[1].loan.object)->holders, 1) == 0);
    check(overtakes_after(OVERTAKE_MS, pool, &waiters[1].loan, &waiters[2]) == overtaking[choice].most);
    atomic_store(&maker.held, 0);
    join(&waiters[2], 1, ZUPHINKA_POOL_ERROR_NONE);
    check_error(zuphinka_pool_give_back(pool, &waiters[2].loan), ZUPHINKA_POOL_ERROR_NONE);
    loan = lend(pool);
    give_back(pool, &loan);
    end_pool(pool);
  }
}

/* Any number of borrows overtake a thread until it has waited for as long as the host says, and from then on no more than it says. */
static void test_overtakes_by_time(void) {
  for (uint64_t choice = 0; choice < 3; choice++) {
    struct waiter waiter;
    maker.overtake_ms = 10 * choice;
    struct zuphinka_pool_loan loan = open_waited(THREE_TIMES, "maxTotal = 1\n", &waiter, borrow_and_return);
    uint64_t time = choice == 0 ? OVERTAKE_MS : maker.overtake_ms;
    check(overtakes_after(time - 1, maker.pool, &loan, &waiter) == MANY_TIMES);
    loan = lend(maker.pool);
    check(overtakes_after(1, maker.pool, &loan, &waiter) == overtaking[THREE_TIMES].most);
    atomic_store(&maker.held, 0);
    join(&waiter, 1, ZUPHINKA_POOL_ERROR_NONE);
    end_pool(maker.pool);
  }
}

/* Returns how many loans the caller of this thread got between the entry with which another caller began to wait, and its loan. */
static int loans_while_waiting(struct zuphinka_pool *pool, uint32_t other) {
  bool is_waiting = false;
  int loans = 0;
  for (const char *line = entries(pool); *line; line = strchr(line, '\n') + 1) {
    const char *end = strchr(line, '\n');
    bool is_other = strtoul(line, NULL, 10) == other, is_loan = memcmp(end - 4, "lent", 4) == 0;
    if (is_other) is_waiting = memcmp(end - 4, "wait", 4) == 0;
    loans += !is_other && is_loan && is_waiting;
  }
  return loans;
}

/* The same where the thread that returns an object borrows again for as long as it takes. */
static void test_no_thread_starves(void) {
  for (int choice = 0; choice < CHOICES; choice++) {
    struct waiter waiter;
    struct zuphinka_pool_loan loan = open_waited(choice, "maxTotal = 1\n", &waiter, borrow_and_return);
    atomic_fetch_add(&maker.now, OVERTAKE_MS);
    for (int round = 0; round < MANY_TIMES; round++) {
      give_back(maker.pool, &loan);
      loan = lend(maker.pool);
    }
    give_back(maker.pool, &loan);
    join(&waiter, 1, ZUPHINKA_POOL_ERROR_NONE);
    check(loans_while_waiting(maker.pool, waiter.caller) <= overtaking[choice].most);
    end_pool(maker.pool);
  }
}

/* Returns whether the only object is returned and borrowed again, while a thread that waits for it sleeps. */
static bool overtakes(struct zuphinka_pool *pool, const struct waiter *waiter, struct zuphinka_pool_loan *loan) {
  atomic_store(&maker.held, waiter->caller + 1);
  check_error(zuphinka_pool_give_back(pool, loan), ZUPHINKA_POOL_ERROR_NONE);
  bool is_lent = zuphinka_pool_try_get(pool, loan) == ZUPHINKA_POOL_ERROR_NONE;
  atomic_store(&maker.held, 0);
  sleep_for(2); /* in which it looks, sooner or later */
  return is_lent;
}

/* Opens a pool of one object, borrows it, and lets a thread wait for it, until overtakes count. */
static struct zuphinka_pool *open_overtaken(uint32_t most, struct waiter *waiter, struct zuphinka_pool_loan *loan) {
  maker.max_overtakes = most;
  struct zuphinka_pool *pool = open_kept("maxTotal = 1\n", 1);
  check_error(zuphinka_pool_get(pool, loan), ZUPHINKA_POOL_ERROR_NONE);
  start(waiter, 1, pool, borrow_and_return);
  atomic_fetch_add(&maker.now, OVERTAKE_MS);
  return pool;
}

/* Once the thread that has waited longest was woken and found nothing, it is not overtaken again, however often a host allows it. */
static void test_woken_for_nothing_once(void) {
  struct waiter waiter;
  struct zuphinka_pool_loan loan;
  int64_t began = milliseconds_now();
  struct zuphinka_pool *pool = open_overtaken(INT32_MAX - 1, &waiter, &loan);
  bool is_overtaken = true;
  while (is_overtaken && milliseconds_now() - began < LONG) is_overtaken = overtakes(pool, &waiter, &loan);
  check(!is_overtaken);
  join(&waiter, 1, ZUPHINKA_POOL_ERROR_NONE);
  end_pool(pool);
}

enum { OVERTAKES = 100 };

/* Without a limit it is, however often that happened. */
static void test_overtaken_without_limit(void) {
  const uint32_t unlimited[] = {INT32_MAX, UINT32_MAX};
  for (int choice = 0; choice < 2; choice++) {
    struct waiter waiter;
    struct zuphinka_pool_loan loan;
    struct zuphinka_pool *pool = open_overtaken(unlimited[choice], &waiter, &loan);
    for (int n = 0; n < OVERTAKES; n++) check(overtakes(pool, &waiter, &loan));
    check_error(zuphinka_pool_give_back(pool, &loan), ZUPHINKA_POOL_ERROR_NONE);
    join(&waiter, 1, ZUPHINKA_POOL_ERROR_NONE);
    end_pool(pool);
  }
}

/* Borrows that give up at once. */
static void give_up(struct zuphinka_pool *pool, int times) {
  struct zuphinka_pool_loan none;
  for (int n = 0; n < times; n++) check_error(zuphinka_pool_try_get(pool, &none), ZUPHINKA_POOL_ERROR_EXHAUSTED);
}

static void serve_in_order(int between) {
  struct waiter waiters[MANY];
  struct zuphinka_pool_loan loan = open_waited(0, "maxTotal = 1\n", &waiters[0], borrow_and_return);
  for (int n = 1; n < MANY; n++) {
    give_up(maker.pool, between);
    start(&waiters[n], 1, maker.pool, borrow_and_return);
  }
  entries(maker.pool);
  give_back(maker.pool, &loan);
  join(waiters, MANY, ZUPHINKA_POOL_ERROR_NONE);
  int served = 0;
  for (const char *line = entries(maker.pool); *line; line = strchr(line, '\n') + 1) {
    bool is_loan = memcmp(strchr(line, '\n') - 4, "lent", 4) == 0;
    if (is_loan) check(served < MANY && strtoul(line, NULL, 10) == waiters[served++].caller);
  }
  check(served == MANY);
  end_pool(maker.pool);
}

/* Threads that wait are served in the order of arrival, also if so many others gave up between them that all sleep on the same condition. */
static void test_served_in_order(void) {
  serve_in_order(0);
  serve_in_order(255);
}

enum { TAKERS = 6, TURNS = 200, TURNS_OF_A_SLEEP = 50 };

/* Borrows and returns again and again, and keeps the object now and then for so long that others sleep. */
static void *take_turns(void *argument) {
  struct waiter *waiter = argument;
  waiter->error = ZUPHINKA_POOL_ERROR_NONE;
  for (int turn = 0; turn < TURNS; turn++) {
    struct zuphinka_pool_loan loan;
    waiter->error = zuphinka_pool_get_timed(waiter->pool, LONG, &loan);
    if (waiter->error) break;
    check(atomic_fetch_add(&((struct thing *)loan.object)->holders, 1) == 0);
    if (turn % TURNS_OF_A_SLEEP == 0) sleep_for(1);
    give_back(waiter->pool, &loan);
  }
  return NULL;
}

/* Each of the threads that borrow again and again has all its turns, whether it finds an object while it pauses or while it sleeps. */
static void test_threads_take_turns(void) {
  atomic_store(&maker.ticks, 1);
  for (int choice = 0; choice < CHOICES; choice++) {
    struct waiter waiters[TAKERS];
    maker.is_fair = overtaking[choice].is_fair;
    maker.max_overtakes = overtaking[choice].max_overtakes;
    struct zuphinka_pool *pool = open_kept("maxTotal = 2\n", 2);
    for (int n = 0; n < TAKERS; n++) {
      waiters[n].pool = pool;
      check(pthread_create(&waiters[n].thread, NULL, take_turns, &waiters[n]) == 0);
    }
    join(waiters, TAKERS, ZUPHINKA_POOL_ERROR_NONE);
    check(counts_of(pool).lent == 0);
    end_pool(pool);
  }
}

/* What no thread that waits could have is no overtaking: a borrow takes it, also if the pool is fair. */
static void test_something_is_left(void) {
  maker.is_fair = true;
  struct zuphinka_pool *pool = open_kept("maxTotal = 2\n", 2);
  struct zuphinka_pool_loan loans[] = {lend(pool), lend(pool)}, none;
  struct waiter waiter;
  start(&waiter, 1, pool, borrow_and_return);
  atomic_store(&maker.held, waiter.caller + 1);
  for (int n = 0; n < 2; n++) give_back(pool, &loans[n]);
  check_error(zuphinka_pool_try_get(pool, &loans[0]), ZUPHINKA_POOL_ERROR_NONE);
  check_error(zuphinka_pool_try_get(pool, &none), ZUPHINKA_POOL_ERROR_EXHAUSTED);
  atomic_store(&maker.held, 0);
  join(&waiter, 1, ZUPHINKA_POOL_ERROR_NONE);
  check_error(zuphinka_pool_give_back(pool, &loans[0]), ZUPHINKA_POOL_ERROR_NONE);
  end_pool(pool);
}

/* A wait ends by the settings also while there is an object, but for a thread that came earlier. */
static void test_times_out_beside_an_object(void) {
  struct waiter waiters[2];
  struct zuphinka_pool_loan loan = open_waited(0, "maxTotal = 1\nmaxWaitMillis = 1000\n", &waiters[0], borrow_and_return);
  start(&waiters[1], 1, maker.pool, borrow_and_return);
  atomic_store(&maker.held, waiters[0].caller + 1);
  give_back(maker.pool, &loan);
  atomic_store(&maker.now, 1000);
  join(&waiters[1], 1, ZUPHINKA_POOL_ERROR_TIMED_OUT);
  check(!strstr(entries(maker.pool), " = timeout\n"));
  atomic_store(&maker.held, 0);
  join(&waiters[0], 1, ZUPHINKA_POOL_ERROR_NONE);
  end_pool(maker.pool);
}

static struct waiter newcomer;

/* Another thread begins to wait, and then the test fails. */
static bool fail_with_a_waiter(void *context, void *object) {
  (void)object;
  if (newcomer.pool) return true;
  struct maker *made = context;
  start(&newcomer, 1, made->pool, borrow_and_return);
  atomic_store(&made->held, newcomer.caller + 1);
  return false;
}

/* A borrow whose idle object fails goes before a thread that began to wait meanwhile, also if the pool is fair. */
static void test_failed_object_keeps_the_turn(void) {
  struct zuphinka_pool_host host = host_of(&maker);
  struct zuphinka_pool_loan loan;
  const char *settings = "maxTotal = 1\ntestOnBorrow = true\n";
  host.validate = fail_with_a_waiter;
  host.is_fair = true;
  check_error(zuphinka_pool_open(&maker.pool, settings, strlen(settings), &host, ZUPHINKA_POOL_JOURNAL_MEMORY), ZUPHINKA_POOL_ERROR_NONE);
  check_error(zuphinka_pool_add(maker.pool), ZUPHINKA_POOL_ERROR_NONE);
  check_error(zuphinka_pool_get_timed(maker.pool, LONG, &loan), ZUPHINKA_POOL_ERROR_NONE);
  check(loan.id == 1);
  atomic_store(&maker.held, 0);
  check_error(zuphinka_pool_give_back(maker.pool, &loan), ZUPHINKA_POOL_ERROR_NONE);
  join(&newcomer, 1, ZUPHINKA_POOL_ERROR_NONE);
  check(loans_while_waiting(maker.pool, newcomer.caller) == 1);
  end_pool(maker.pool);
}

/* ---- slow stores */

static void *lend_until_held(void *argument) {
  struct waiter *waiter = argument;
  waiter->error = ZUPHINKA_POOL_ERROR_NONE;
  while (!waiter->error && atomic_load(&maker.sink.called) == 0) {
    waiter->error = zuphinka_pool_get(waiter->pool, &waiter->loan);
    if (!waiter->error) waiter->error = zuphinka_pool_give_back(waiter->pool, &waiter->loan);
  }
  return NULL;
}

/* While a segment is being stored other threads borrow. */
static void test_slow_store(void) {
  struct zuphinka_pool *pool = open_stored(&maker, "journalLimit = 200\n", NULL, ZUPHINKA_POOL_JOURNAL_SEGMENTS);
  struct waiter waiter = {.pool = pool};
  atomic_store(&maker.sink.is_held, true);
  check(pthread_create(&waiter.thread, NULL, lend_until_held, &waiter) == 0);
  while (atomic_load(&maker.sink.called) == 0) sleep_for(1);
  struct zuphinka_pool_loan loan;
  check_error(zuphinka_pool_get_timed(pool, LONG, &loan), ZUPHINKA_POOL_ERROR_NONE);
  check_error(zuphinka_pool_give_back(pool, &loan), ZUPHINKA_POOL_ERROR_NONE);
  atomic_store(&maker.sink.is_held, false);
  join(&waiter, 1, ZUPHINKA_POOL_ERROR_NONE);
  end_pool(pool);
}

/* Borrows and returns, without a wait, until a borrow fails. Returns its error. */
static enum zuphinka_pool_error fill_journal(struct zuphinka_pool *pool) {
  for (;;) {
    struct zuphinka_pool_loan loan;
    enum zuphinka_pool_error error = zuphinka_pool_try_get(pool, &loan);
    if (error) return error;
    check_error(zuphinka_pool_give_back(pool, &loan), ZUPHINKA_POOL_ERROR_NONE);
  }
}

/* A borrow that finds the journal full waits for a store in another thread no longer than for an object, also if the clock of the host goes back. */
static void test_waits_for_a_store_end(void) {
  static const struct {
    const char *settings;
    bool has_no_clock;
  } rows[] = {
      {"journalLimit = 200\nmaxWaitMillis = 40\n", true},
      {"journalLimit = 200\nmaxWaitMillis = 40\n[abandoned]\nremoveAbandonedOnBorrow = true\n", true},
      {"journalLimit = 200\nmaxWaitMillis = 40\n", false},
  };
  for (size_t n = 0; n < sizeof rows / sizeof *rows; n++) {
    maker.has_no_clock = rows[n].has_no_clock;
    atomic_store(&maker.now, 5000000);
    struct zuphinka_pool *pool = open_stored(&maker, rows[n].settings, NULL, ZUPHINKA_POOL_JOURNAL_SEGMENTS);
    struct waiter waiter = {.pool = pool};
    struct zuphinka_pool_loan loan;
    atomic_store(&maker.sink.called, 0);
    atomic_store(&maker.sink.is_held, true);
    check(pthread_create(&waiter.thread, NULL, lend_until_held, &waiter) == 0);
    while (atomic_load(&maker.sink.called) == 0) sleep_for(1);
    check_error(fill_journal(pool), ZUPHINKA_POOL_ERROR_JOURNAL_FULL);
    atomic_store(&maker.now, 1000000);
    int64_t began = milliseconds_now();
    check_error(zuphinka_pool_get_timed(pool, 20, &loan), ZUPHINKA_POOL_ERROR_JOURNAL_FULL);
    check_error(zuphinka_pool_get_timed(pool, LONG, &loan), ZUPHINKA_POOL_ERROR_JOURNAL_FULL);
    int64_t passed = milliseconds_now() - began;
    check(passed >= 60 && passed < LONG);
    atomic_store(&maker.sink.is_held, false);
    join(&waiter, 1, ZUPHINKA_POOL_ERROR_NONE);
    loan = lend(pool);
    give_back(pool, &loan);
    end_pool(pool);
  }
}

static atomic_bool is_awaited; /* a call that makes an object, which then waits for a store in another thread */

/* Makes a thing, perhaps while another thread stores a segment, which it lets go. */
static bool make_beside_a_store(void *context, uint64_t id, void **object) {
  struct maker *made = context;
  if (atomic_load(&is_awaited)) {
    int64_t end = milliseconds_now() + LONG;
    atomic_store(&is_awaited, false);
    while (atomic_load(&made->sink.called) == 0 && milliseconds_now() < end) sleep_for(1);
    check(atomic_load(&made->sink.called) == 1);
    atomic_store(&made->sink.is_held, false);
  }
  return make_thing(context, id, object);
}

static void *add_one(void *argument) {
  struct waiter *waiter = argument;
  waiter->error = zuphinka_pool_add(waiter->pool);
  return NULL;
}

/* Plays a call that has cut the journal, and ends while another thread stores the segment. */
static void cut_beside_a_store(void) {
  struct zuphinka_pool_host host = host_of(&maker);
  const char *settings = "journalLimit = 40\n";
  struct waiter adding;
  host.make = make_beside_a_store;
  host.store = store_segment;
  atomic_store(&maker.sink.called, 0);
  check_error(zuphinka_pool_open(&maker.pool, settings, strlen(settings), &host, ZUPHINKA_POOL_JOURNAL_SEGMENTS), ZUPHINKA_POOL_ERROR_NONE);
  struct zuphinka_pool *pool = maker.pool;
  struct zuphinka_pool_loan loan = lend(pool);
  while (counts_of(pool).steps < 34) check_error(zuphinka_pool_touch(pool, &loan), ZUPHINKA_POOL_ERROR_NONE);
  adding.pool = pool;
  atomic_store(&maker.sink.is_held, true);
  atomic_store(&is_awaited, true);
  check(pthread_create(&adding.thread, NULL, add_one, &adding) == 0);
  while (atomic_load(&is_awaited)) sleep_for(1); /* it has cut the journal, and left the segment */
  check(atomic_load(&maker.sink.called) == 0);
  struct zuphinka_pool_loan other = lend(pool); /* which stores the segment first */
  join(&adding, 1, ZUPHINKA_POOL_ERROR_NONE);
  check(atomic_load(&maker.sink.called) > 0);
  give_back(pool, &loan);
  give_back(pool, &other);
  end_pool(pool);
}

/* A call that has cut the journal leaves its segment, unread, to a thread that stores it already. ThreadSanitizer does not see each such read. */
static void test_cut_while_another_stores(void) {
  for (int round = 0; round < 10; round++) cut_beside_a_store();
}

static atomic_int allowed;      /* calls of `store_when_allowed` that may end */
static atomic_bool has_gone_on; /* the thread of `borrow_and_tell` */

/* Fails at its first call. */
static bool store_when_allowed(void *context, uint64_t first, const char *text, size_t size) {
  struct maker *made = context;
  (void)first, (void)text, (void)size;
  int call = atomic_fetch_add(&made->sink.called, 1) + 1;
  while (atomic_load(&allowed) < call) sleep_for(1);
  return call > 1;
}

static void *cut_when_allowed(void *argument) {
  struct waiter *waiter = argument;
  waiter->error = zuphinka_pool_cut(waiter->pool, store_when_allowed, &maker, NULL);
  return NULL;
}

static void *borrow_and_tell(void *argument) {
  borrow_and_return(argument);
  atomic_store(&has_gone_on, true);
  return NULL;
}

/* A borrow that finds the journal full while another thread stores a segment goes on once the journal is cut, before the next one is stored. */
static void test_goes_on_after_a_cut(void) {
  struct zuphinka_pool *pool = open_stored(&maker, "journalLimit = 200\n", NULL, ZUPHINKA_POOL_JOURNAL_SEGMENTS);
  struct waiter cutting = {.pool = pool}, waiter = {.pool = pool};
  struct zuphinka_pool_loan loan = lend(pool);
  give_back(pool, &loan);
  atomic_store(&allowed, 1);
  check_error(zuphinka_pool_cut(pool, store_when_allowed, &maker, NULL), ZUPHINKA_POOL_ERROR_STORE_FAILED);
  loan = lend(pool);
  give_back(pool, &loan);
  check(pthread_create(&cutting.thread, NULL, cut_when_allowed, &cutting) == 0);
  while (atomic_load(&maker.sink.called) < 2) sleep_for(1);
  check_error(fill_journal(pool), ZUPHINKA_POOL_ERROR_JOURNAL_FULL);
  check(pthread_create(&waiter.thread, NULL, borrow_and_tell, &waiter) == 0);
  sleep_for(10);
  atomic_store(&allowed, 2);
  while (atomic_load(&maker.sink.called) < 3) sleep_for(1);
  for (int64_t end = milliseconds_now() + LONG / 6; !atomic_load(&has_gone_on) && milliseconds_now() < end;) sleep_for(1);
  bool goes_on = atomic_load(&has_gone_on);
  atomic_store(&allowed, 3);
  join(&cutting, 1, ZUPHINKA_POOL_ERROR_NONE);
  join(&waiter, 1, ZUPHINKA_POOL_ERROR_NONE);
  check(goes_on);
  end_pool(pool);
}

/* A borrow that finds the journal full while another thread stores a segment waits for that no longer than the pool is open. */
static void test_close_ends_a_wait_for_a_store(void) {
  struct zuphinka_pool *pool = open_stored(&maker, "journalLimit = 200\n", NULL, ZUPHINKA_POOL_JOURNAL_SEGMENTS);
  struct waiter storing = {.pool = pool};
  bool goes_on = true;
  atomic_store(&maker.sink.is_held, true);
  check(pthread_create(&storing.thread, NULL, lend_until_held, &storing) == 0);
  while (atomic_load(&maker.sink.called) == 0) sleep_for(1);
  check_error(fill_journal(pool), ZUPHINKA_POOL_ERROR_JOURNAL_FULL);
  struct waiter waiters[2] = {{.pool = pool}, {.pool = pool}}; /* the second one comes after the close */
  for (int n = 0; n < 2; n++) {
    int looks = atomic_load(&maker.looks);
    atomic_store(&has_gone_on, false);
    check(pthread_create(&waiters[n].thread, NULL, borrow_and_tell, &waiters[n]) == 0);
    while (atomic_load(&maker.looks) == looks) sleep_for(1);
    sleep_for(10);
    if (n == 0) zuphinka_pool_close(pool);
    for (int64_t end = milliseconds_now() + LONG / 6; !atomic_load(&has_gone_on) && milliseconds_now() < end;) sleep_for(1);
    goes_on = goes_on && atomic_load(&has_gone_on);
  }
  atomic_store(&maker.sink.is_held, false);
  join(&storing, 1, ZUPHINKA_POOL_ERROR_CLOSED);
  join(waiters, 2, ZUPHINKA_POOL_ERROR_CLOSED);
  check(goes_on);
  end_pool(pool);
}

/* A borrow that finds the journal full waits for no store in another thread if the settings say that no borrow waits, from the beginning or later. */
static void test_waits_for_no_store(void) {
  const char *settings = "journalLimit = 200\nblockWhenExhausted = false\n";
  for (int change = 0; change < 2; change++) {
    struct zuphinka_pool *pool = open_stored(&maker, change ? "" : settings, NULL, ZUPHINKA_POOL_JOURNAL_SEGMENTS);
    struct waiter storing = {.pool = pool}, waiter = {.pool = pool};
    if (change) check_error(zuphinka_pool_reconfigure(pool, settings, strlen(settings), NULL, NULL, NULL), ZUPHINKA_POOL_ERROR_NONE);
    atomic_store(&maker.sink.called, 0);
    atomic_store(&has_gone_on, false);
    atomic_store(&maker.sink.is_held, true);
    check(pthread_create(&storing.thread, NULL, lend_until_held, &storing) == 0);
    while (atomic_load(&maker.sink.called) == 0) sleep_for(1);
    check_error(fill_journal(pool), ZUPHINKA_POOL_ERROR_JOURNAL_FULL);
    check(pthread_create(&waiter.thread, NULL, borrow_and_tell, &waiter) == 0);
    for (int64_t end = milliseconds_now() + LONG / 6; !atomic_load(&has_gone_on) && milliseconds_now() < end;) sleep_for(1);
    bool goes_on = atomic_load(&has_gone_on);
    atomic_store(&maker.sink.is_held, false);
    join(&storing, 1, ZUPHINKA_POOL_ERROR_NONE);
    join(&waiter, 1, goes_on ? ZUPHINKA_POOL_ERROR_JOURNAL_FULL : ZUPHINKA_POOL_ERROR_NONE);
    check(goes_on);
    end_pool(pool);
  }
}

static void *touch_until_held(void *argument) {
  struct waiter *waiter = argument;
  waiter->error = ZUPHINKA_POOL_ERROR_NONE;
  while (!waiter->error && atomic_load(&maker.sink.called) < 2) waiter->error = zuphinka_pool_touch(waiter->pool, &waiter->loan);
  return NULL;
}

/* A touch that first stores a segment, which another one has left, notes no use if its loan ends meanwhile. */
static void test_ended_while_touched(void) {
  struct zuphinka_pool *pool = open_stored(&maker, "maxTotal = 1\njournalLimit = 200\n", NULL, ZUPHINKA_POOL_JOURNAL_SEGMENTS);
  struct zuphinka_pool_loan loan = lend(pool);
  struct waiter touching = {.pool = pool, .loan = loan};
  maker.sink.fails_at = 1;
  while (atomic_load(&maker.sink.called) == 0) check_error(zuphinka_pool_touch(pool, &loan), ZUPHINKA_POOL_ERROR_NONE);
  atomic_store(&maker.sink.is_held, true);
  check(pthread_create(&touching.thread, NULL, touch_until_held, &touching) == 0);
  while (atomic_load(&maker.sink.called) < 2) sleep_for(1);
  give_back(pool, &loan);
  uint64_t steps = counts_of(pool).steps;
  atomic_store(&maker.sink.is_held, false);
  join(&touching, 1, ZUPHINKA_POOL_ERROR_NOT_LENT);
  check(counts_of(pool).steps == steps);
  end_pool(pool);
}

/* A store that calls the pool. */
static bool store_and_borrow(void *context, uint64_t first, const char *text, size_t size) {
  (void)first, (void)text, (void)size;
  struct maker *made = context;
  enum zuphinka_pool_error error;
  if (atomic_fetch_add(&made->sink.called, 1) > 0) return true;
  check_error(fill_journal(made->pool), ZUPHINKA_POOL_ERROR_JOURNAL_FULL);
  while ((error = zuphinka_pool_clear(made->pool, NULL)) == ZUPHINKA_POOL_ERROR_NONE) check(counts_of(made->pool).steps < 2 * 60);
  check_error(error, ZUPHINKA_POOL_ERROR_JOURNAL_FULL);
  check_error(zuphinka_pool_cut(made->pool, store_and_borrow, made, NULL), ZUPHINKA_POOL_ERROR_STORING);
  return true;
}

/* A store that fills the journal does not wait for itself, and is not called again within. */
static void test_store_that_borrows(void) {
  struct zuphinka_pool_host host = host_of(&maker);
  const char *settings = "journalLimit = 60\n";
  host.store = store_and_borrow;
  check_error(zuphinka_pool_open(&maker.pool, settings, strlen(settings), &host, ZUPHINKA_POOL_JOURNAL_SEGMENTS), ZUPHINKA_POOL_ERROR_NONE);
  while (atomic_load(&maker.sink.called) < 2) {
    struct zuphinka_pool_loan loan = lend(maker.pool);
    give_back(maker.pool, &loan);
  }
  zuphinka_pool_close(maker.pool);
  struct zuphinka_pool *pool = maker.pool;
  maker.pool = NULL;
  check_error(zuphinka_pool_end(pool), ZUPHINKA_POOL_ERROR_NONE);
}

/* A store that borrows an object once, for a second at most. */
static bool store_and_lend(void *context, uint64_t first, const char *text, size_t size) {
  (void)first, (void)text, (void)size;
  struct maker *made = context;
  struct zuphinka_pool_loan loan;
  if (atomic_fetch_add(&made->sink.called, 1) > 0) return true;
  check_error(zuphinka_pool_get_timed(made->pool, 1000, &loan), ZUPHINKA_POOL_ERROR_NONE);
  check_error(zuphinka_pool_give_back(made->pool, &loan), ZUPHINKA_POOL_ERROR_NONE);
  return true;
}

/* A store that borrows does not wait for the call in which it runs: no segment is stored by a thread that is in the queue. */
static void test_store_that_borrows_in_the_queue(void) {
  struct waiter waiter;
  maker.is_fair = true;
  struct zuphinka_pool_host host = host_of(&maker);
  const char *settings = "maxTotal = 1\njournalLimit = 40\n";
  host.store = store_and_lend;
  check_error(zuphinka_pool_open(&maker.pool, settings, strlen(settings), &host, ZUPHINKA_POOL_JOURNAL_SEGMENTS), ZUPHINKA_POOL_ERROR_NONE);
  struct zuphinka_pool *pool = maker.pool;
  struct zuphinka_pool_loan loan = lend(pool);
  start(&waiter, 1, pool, borrow_and_return);
  while (counts_of(pool).steps < 34) check_error(zuphinka_pool_touch(pool, &loan), ZUPHINKA_POOL_ERROR_NONE);
  give_back(pool, &loan); /* the journal has room for less than the borrow that waits needs */
  join(&waiter, 1, ZUPHINKA_POOL_ERROR_NONE);
  loan = lend(pool);
  give_back(pool, &loan);
  zuphinka_pool_close(pool);
  atomic_store(&maker.sink.called, 1);
  end_pool(pool);
}

/* A store that takes longer than an object may be unused, after which abandoned objects are reclaimed. */
static bool store_for_long(void *context, uint64_t first, const char *text, size_t size) {
  (void)first, (void)text, (void)size;
  struct maker *made = context;
  if (atomic_fetch_add(&made->sink.called, 1) > 0) return true;
  atomic_fetch_add(&made->now, 600);
  check_error(zuphinka_pool_reclaim(made->pool, NULL), ZUPHINKA_POOL_ERROR_NONE);
  return true;
}

/* A touch of an object in time keeps it from a reclaim, also if it finds the journal full and the store is slow. */
static void test_touch_before_a_slow_store(void) {
  struct zuphinka_pool_host host = host_of(&maker);
  const char *settings = "maxTotal = 1\njournalLimit = 40\n[abandoned]\nremoveAbandonedOnMaintenance = true\nremoveAbandonedTimeoutMillis = 1000\n";
  host.store = store_for_long;
  check_error(zuphinka_pool_open(&maker.pool, settings, strlen(settings), &host, ZUPHINKA_POOL_JOURNAL_SEGMENTS), ZUPHINKA_POOL_ERROR_NONE);
  struct zuphinka_pool *pool = maker.pool;
  struct zuphinka_pool_loan loan = lend(pool);
  while (counts_of(pool).steps < 35) check_error(zuphinka_pool_touch(pool, &loan), ZUPHINKA_POOL_ERROR_NONE);
  atomic_fetch_add(&maker.now, 500);
  check_error(zuphinka_pool_touch(pool, &loan), ZUPHINKA_POOL_ERROR_NONE);
  give_back(pool, &loan);
  zuphinka_pool_close(pool);
  atomic_store(&maker.sink.called, 1);
  end_pool(pool);
}

/* ---- forked processes */

/* Closes and ends the copy of a pool in a forked process, which must call no callback, and then becomes another program. */
static void end_copy(struct zuphinka_pool *pool) {
  int stored = atomic_load(&maker.sink.called);
  maker.called = 0;
  alarm(LONG / 1000);
  check(zuphinka_pool_close(pool) == 0);
  check_error(zuphinka_pool_end(pool), ZUPHINKA_POOL_ERROR_NONE);
  check(maker.called == 0 && atomic_load(&maker.sink.called) == stored);
  execlp("true", "true", (char *)NULL);
  exit(WRONG);
}

/* Forks, and lets the new process end its copy of a pool. */
static void fork_and_end(struct zuphinka_pool *pool) {
  int status = WRONG;
  pid_t child = fork();
  check(child >= 0);
  if (child == 0) end_copy(pool);
  check(waitpid(child, &status, 0) == child && status == 0);
}

/* A forked process leaves the objects and the journal to its parent. */
static void test_forked(void) {
  struct zuphinka_pool *pool = open_stored(&maker, "", NULL, ZUPHINKA_POOL_JOURNAL_SEGMENTS);
  struct zuphinka_pool_loan loan = lend(pool);
  check_error(zuphinka_pool_add(pool), ZUPHINKA_POOL_ERROR_NONE);
  fork_and_end(pool);
  give_back(pool, &loan);
  fork_and_end(pool);
  check(counts_of(pool).idle == 2);
  end_pool(pool);
}

/* A forked process waits for no thread of its parent: one that stores a segment, and one that waits. */
static void test_forked_in_a_store(void) {
  struct zuphinka_pool *pool = open_stored(&maker, "maxTotal = 1\njournalLimit = 200\n", NULL, ZUPHINKA_POOL_JOURNAL_SEGMENTS);
  struct waiter storing = {.pool = pool}, waiter;
  atomic_store(&maker.sink.is_held, true);
  check(pthread_create(&storing.thread, NULL, lend_until_held, &storing) == 0);
  while (atomic_load(&maker.sink.called) == 0) sleep_for(1);
  struct zuphinka_pool_loan loan = lend(pool);
  start(&waiter, 1, pool, borrow_and_return);
  fork_and_end(pool);
  atomic_store(&maker.sink.is_held, false);
  give_back(pool, &loan);
  join(&storing, 1, ZUPHINKA_POOL_ERROR_NONE);
  join(&waiter, 1, ZUPHINKA_POOL_ERROR_NONE);
  end_pool(pool);
}

static atomic_bool is_busy;

static void *lend_while_busy(void *argument) {
  struct waiter *waiter = argument;
  do {
    borrow_and_return(waiter);
  } while (!waiter->error && atomic_load(&is_busy));
  return NULL;
}

/* The same while threads are in all calls of a loan. */
static void test_forked_in_any_call(void) {
  struct waiter waiters[3];
  struct zuphinka_pool *pool = open_stored(&maker, "maxTotal = 2\n", NULL, ZUPHINKA_POOL_JOURNAL_OFF);
  atomic_store(&is_busy, true);
  start(waiters, 3, pool, lend_while_busy);
  for (int round = 0; round < 30; round++) fork_and_end(pool);
  atomic_store(&is_busy, false);
  join(waiters, 3, ZUPHINKA_POOL_ERROR_NONE);
  end_pool(pool);
}

/* ---- numbers of threads */

static void *tell_caller(void *argument) {
  *(uint32_t *)argument = zuphinka_pool_caller();
  return NULL;
}

static void test_callers(void) {
  uint32_t here = zuphinka_pool_caller(), there = here;
  pthread_t thread;
  check(pthread_create(&thread, NULL, tell_caller, &there) == 0 && pthread_join(thread, NULL) == 0);
  check(there != here && zuphinka_pool_caller() == here);
}

/* ---- the calls of the library, without the pool for threads */

/* A pool whose host has all work to do. */
static struct zuphinka open_hosted(uint64_t number, const char *settings) {
  const struct zuphinka_options options = {.pool = number, .activates = true, .validates = true, .passivates = true};
  struct zuphinka pool = {.at = NULL};
  check(zuphinka_open_with(&pool, settings, strlen(settings), &options) == ZUPHINKA_STATUS_DONE);
  return pool;
}

static uint32_t begin(struct zuphinka *pool, uint32_t kind, struct zuphinka_call *call, struct zuphinka_effects *effects) {
  const struct zuphinka_start start = {.object = &maker, .kind = kind};
  return zuphinka_begin(pool, &start, call, effects);
}

static uint32_t advance(struct zuphinka *pool, struct zuphinka_call *call, uint32_t report, struct zuphinka_effects *effects) {
  const struct zuphinka_event event = {.object = &maker, .report = report};
  return zuphinka_advance(pool, call, &event, effects);
}

struct told {
  char text[512];
};

/* All that a pool says of itself; nothing of an empty handle. */
static struct told tell(struct zuphinka *pool) {
  struct told told;
  struct zuphinka_tally counts = {.steps = 0};
  struct zuphinka_activity state = {.is_closed = false};
  uint64_t steps = 0, room = 0;
  zuphinka_counts(pool, &counts);
  zuphinka_state(pool, &state);
  zuphinka_steps(pool, &steps);
  zuphinka_room(pool, &room);
  snprintf(told.text, sizeof told.text,
           "steps %" PRIu64 " of %" PRIu64 ", room %" PRIu64 ", idle %" PRIu64 ", lent %" PRIu64 ", reserved %" PRIu64 ", created %" PRIu64
           ", destroyed %" PRIu64 ", waiting %" PRIu64 ", running %" PRIu64 "%s\n",
           steps, counts.steps, room, counts.idle, counts.lent, counts.reserved, counts.created, counts.destroyed, state.waiting, state.running,
           state.is_closed ? ", closed" : "");
  return told;
}

/* What a call of the library stores, before it does. */
struct stored {
  struct zuphinka_call call;
  struct zuphinka_effects effects;
};

static void check_refused(uint32_t found, uint32_t wanted, const struct stored *stored, struct zuphinka *pool, const struct told *before) {
  struct stored unchanged;
  memset(&unchanged, 'u', sizeof unchanged);
  check(found == wanted);
  check(memcmp(&stored->effects, &unchanged.effects, sizeof unchanged.effects) == 0);
  check(memcmp(&stored->call, &unchanged.call, sizeof unchanged.call) == 0);
  check_text(tell(pool).text, before->text);
}

/* A report, or the beginning of a call if `call` is null, is refused, and leaves all as it was. */
static void refuse(struct zuphinka *pool, const struct zuphinka_call *call, uint32_t code, uint32_t status) {
  struct stored stored;
  struct told before = tell(pool);
  memset(&stored, 'u', sizeof stored);
  struct zuphinka_call same = call ? *call : stored.call;
  uint32_t found = call ? advance(pool, &same, code, &stored.effects) : begin(pool, code, &stored.call, &stored.effects);
  check_refused(found, status, &stored, pool, &before);
  check(!call || memcmp(&same, call, sizeof same) == 0);
}

static void test_calls_of_an_empty_handle(void) {
  struct zuphinka pool = {.at = NULL};
  struct zuphinka_call call = {.words = {0}};
  struct zuphinka_activity state = {.waiting = 7};
  uint64_t ticket = 7;
  bool is_lent = true;
  for (uint32_t code = 0; code <= ZUPHINKA_KIND_CLOSE + 1; code++) {
    refuse(&pool, NULL, code, ZUPHINKA_STATUS_NOT_OPEN);
    refuse(&pool, &call, code, ZUPHINKA_STATUS_NOT_OPEN);
  }
  check(zuphinka_next_wake(&pool, &ticket) == ZUPHINKA_STATUS_NOT_OPEN && ticket == 7);
  check(zuphinka_state(&pool, &state) == ZUPHINKA_STATUS_NOT_OPEN && state.waiting == 7);
  check(zuphinka_set_overtakes(&pool, 0, 1, &ticket) == ZUPHINKA_STATUS_NOT_OPEN && ticket == 7);
  check(zuphinka_is_lent(&pool, 0, &is_lent) == ZUPHINKA_STATUS_NOT_OPEN && is_lent);
  check(!pool.at);
}

/* The line of the journal at a position, without its line feed. */
static struct told line_at(struct zuphinka *pool, uint64_t position) {
  struct told line = {""};
  uint64_t size = 0;
  check(zuphinka_line(pool, position, line.text, sizeof line.text - 1, &size) == ZUPHINKA_STATUS_DONE);
  line.text[size - 1] = 0;
  return line;
}

/* The object of a loan. */
struct object {
  uint64_t id;
  void *token;
};

/* Borrows as a caller at a time, and lends an idle object at once. */
static struct object lend_at_once(struct zuphinka *pool, uint32_t caller, uint64_t at) {
  const struct zuphinka_start start = {.kind = ZUPHINKA_KIND_BORROW, .caller = caller, .at = at};
  struct zuphinka_call call;
  struct zuphinka_effects effects;
  check(zuphinka_begin(pool, &start, &call, &effects) == ZUPHINKA_STATUS_AT_ONCE && effects.end == ZUPHINKA_END_LENT);
  return (struct object){effects.number, effects.object};
}

/* Begins the return of an object by a caller at a time. */
static uint32_t begin_return(struct zuphinka *pool, uint32_t caller, uint64_t at, struct object object, struct zuphinka_call *call,
                             struct zuphinka_effects *effects) {
  const struct zuphinka_start start = {
      .kind = ZUPHINKA_KIND_RETURN, .caller = caller, .at = at, .id = object.id, .object = object.token};
  return zuphinka_begin(pool, &start, call, effects);
}

/* Returns an object that is idle at once; calls may wait for it. */
static void take_back(struct zuphinka *pool, uint32_t caller, uint64_t at, struct object object) {
  struct zuphinka_call call;
  struct zuphinka_effects effects;
  uint32_t status = begin_return(pool, caller, at, object, &call, &effects);
  check(status == ZUPHINKA_STATUS_AT_ONCE || (status == ZUPHINKA_STATUS_DONE && effects.has_wake));
  check(effects.end == ZUPHINKA_END_PARKED);
}

/* A borrow begins, and sleeps. Returns its ticket. */
static uint64_t sleeps(struct zuphinka *pool, struct zuphinka_call *call) {
  struct zuphinka_effects effects;
  check(begin(pool, ZUPHINKA_KIND_BORROW, call, &effects) == ZUPHINKA_STATUS_DONE && effects.action == ZUPHINKA_ACTION_SLEEP);
  return effects.ticket;
}

/* A call that sleeps is woken, and does this then. */
static void wakes_to(struct zuphinka *pool, struct zuphinka_call *call, uint32_t action) {
  struct zuphinka_effects effects;
  check(advance(pool, call, ZUPHINKA_REPORT_WOKEN, &effects) == ZUPHINKA_STATUS_DONE && effects.action == action);
  check(action != ZUPHINKA_ACTION_DONE || effects.end == ZUPHINKA_END_LENT);
}

/* A loan and its end take one call of the library each while the host has nothing to do and no call waits. */
static void test_loans_at_once(void) {
  static int token;
  struct zuphinka pool = {.at = NULL};
  struct zuphinka_call call;
  struct zuphinka_effects effects;
  check(zuphinka_open(&pool, "maxTotal = 1\n", 13) == ZUPHINKA_STATUS_DONE);
  check(begin(&pool, ZUPHINKA_KIND_BORROW, &call, &effects) == ZUPHINKA_STATUS_DONE && effects.action == ZUPHINKA_ACTION_MAKE);
  check(advance(&pool, &call, ZUPHINKA_REPORT_MADE, &effects) == ZUPHINKA_STATUS_DONE && effects.end == ZUPHINKA_END_LENT);
  take_back(&pool, 1, 5, (struct object){0, &token});
  struct object lent = lend_at_once(&pool, 2, 6);
  check(lent.id == 0 && lent.token == &token);
  check_text(line_at(&pool, 2).text, "1 5 return 0 = check");
  check_text(line_at(&pool, 3).text, "1 5 park 0 good = parked");
  check_text(line_at(&pool, 4).text, "2 6 borrow 6 = take 0");
  check_text(line_at(&pool, 5).text, "2 6 ready 0 good = lent");
  uint64_t ticket = sleeps(&pool, &call);
  check(begin_return(&pool, 2, 7, lent, &call, &effects) == ZUPHINKA_STATUS_DONE && effects.has_wake && effects.wake == ticket);
  zuphinka_drop(&pool);
}

/* Opens a pool with one object, which is lent. */
static struct zuphinka open_core_lent(const char *settings, const struct zuphinka_options *options) {
  struct zuphinka pool = {.at = NULL};
  struct zuphinka_call call;
  struct zuphinka_effects effects;
  check(zuphinka_open_with(&pool, settings, strlen(settings), options) == ZUPHINKA_STATUS_DONE);
  check(begin(&pool, ZUPHINKA_KIND_BORROW, &call, &effects) == ZUPHINKA_STATUS_DONE);
  uint32_t status = advance(&pool, &call, ZUPHINKA_REPORT_MADE, &effects);
  while (status == ZUPHINKA_STATUS_DONE && effects.action != ZUPHINKA_ACTION_DONE) {
    status = advance(&pool, &call, ZUPHINKA_REPORT_SUCCEEDED, &effects);
  }
  check(status == ZUPHINKA_STATUS_AT_ONCE || status == ZUPHINKA_STATUS_DONE);
  check(effects.end == ZUPHINKA_END_LENT);
  return pool;
}

/* Once a call was woken and found nothing, nothing is lent at once until one that waits has left. */
static void test_nothing_at_once_after_a_vain_wake(void) {
  const struct zuphinka_options options = {.max_overtakes = 16};
  const struct object object = {0, &maker};
  struct zuphinka pool = open_core_lent("maxTotal = 1\n", &options);
  struct zuphinka_call call, late;
  struct zuphinka_effects effects;
  sleeps(&pool, &call);
  take_back(&pool, 0, 0, object);
  check(lend_at_once(&pool, 0, 0).token == &maker);
  wakes_to(&pool, &call, ZUPHINKA_ACTION_SLEEP);
  take_back(&pool, 0, 0, object);
  sleeps(&pool, &late);
  wakes_to(&pool, &call, ZUPHINKA_ACTION_DONE);
  check(advance(&pool, &late, ZUPHINKA_REPORT_GIVEN_UP, &effects) == ZUPHINKA_STATUS_DONE);
  take_back(&pool, 0, 0, object);
  lend_at_once(&pool, 0, 0);
  zuphinka_drop(&pool);
}

/* A loan or its end that asks the host, or takes other steps, is not over at once. */
static void test_what_is_not_over_at_once(void) {
  static const struct {
    const char *settings;
    bool validates, is_closed, comes_back;
  } rows[] = {
      {"maxIdle = 0\n", false, false, false},
      {"testOnReturn = true\n", true, false, false},
      {"maxIdle = 8\n", false, true, false},
      {"testOnBorrow = true\n", true, false, true},
  };
  for (size_t n = 0; n < sizeof rows / sizeof *rows; n++) {
    const struct zuphinka_options options = {.validates = rows[n].validates};
    struct zuphinka pool = open_core_lent(rows[n].settings, &options);
    struct zuphinka_call call;
    struct zuphinka_effects effects;
    if (rows[n].is_closed) check(begin(&pool, ZUPHINKA_KIND_CLOSE, &call, &effects) == ZUPHINKA_STATUS_DONE);
    uint32_t status = begin_return(&pool, 0, 1, (struct object){0, &maker}, &call, &effects);
    check(status == (rows[n].comes_back ? ZUPHINKA_STATUS_AT_ONCE : ZUPHINKA_STATUS_DONE));
    check(begin(&pool, ZUPHINKA_KIND_BORROW, &call, &effects) == ZUPHINKA_STATUS_DONE);
    zuphinka_drop(&pool);
  }
}

static bool is_lent(struct zuphinka *pool, uint64_t id) {
  bool is_lent = false;
  check(zuphinka_is_lent(pool, id, &is_lent) == ZUPHINKA_STATUS_DONE);
  return is_lent;
}

/* Work on an idle object is asked for by a borrow of caller 4. */
static uint64_t begin_work(struct zuphinka *pool, uint64_t at, struct zuphinka_call *call) {
  const struct zuphinka_start start = {.kind = ZUPHINKA_KIND_BORROW, .caller = 4, .at = at};
  struct zuphinka_effects effects;
  check(zuphinka_begin(pool, &start, call, &effects) == ZUPHINKA_STATUS_DONE && effects.action == ZUPHINKA_ACTION_ACTIVATE);
  check(effects.object == &maker && !is_lent(pool, effects.number));
  return effects.number;
}

/* The work of a borrow or a return of caller 4 is done, by which it ends at once. */
static void end_work(struct zuphinka *pool, uint64_t at, struct zuphinka_call *call, uint32_t end) {
  const struct zuphinka_event event = {.caller = 4, .at = at, .report = ZUPHINKA_REPORT_SUCCEEDED};
  struct zuphinka_effects effects;
  check(zuphinka_advance(pool, call, &event, &effects) == ZUPHINKA_STATUS_AT_ONCE && effects.end == end && effects.object == &maker);
}

/* With hooks a loan and its end take two calls of the library each, between which the host works. */
static void test_loans_with_hooks(void) {
  const struct zuphinka_options hooks = {.activates = true, .passivates = true};
  struct zuphinka pool = open_core_lent("maxTotal = 1\n", &hooks);
  struct zuphinka_call call;
  struct zuphinka_effects effects;
  check(begin_return(&pool, 4, 5, (struct object){0, &maker}, &call, &effects) == ZUPHINKA_STATUS_DONE);
  check(effects.action == ZUPHINKA_ACTION_PASSIVATE && !is_lent(&pool, 0));
  end_work(&pool, 6, &call, ZUPHINKA_END_PARKED);
  check(begin_work(&pool, 7, &call) == 0);
  end_work(&pool, 8, &call, ZUPHINKA_END_LENT);
  check(is_lent(&pool, 0));
  check_text(line_at(&pool, 2).text, "4 5 return 0 = check");
  check_text(line_at(&pool, 3).text, "4 6 park 0 good = parked");
  check_text(line_at(&pool, 4).text, "4 7 borrow 7 = take 0");
  check_text(line_at(&pool, 5).text, "4 8 ready 0 good = lent");
  zuphinka_drop(&pool);
}

/* The same with many objects, on all of which the host works at a time. */
static void test_many_loans_with_hooks(void) {
  const struct zuphinka_options hooks = {.activates = true, .passivates = true};
  const char *settings = "maxTotal = -1\nmaxIdle = -1\njournalLimit = 10000000\n";
  struct zuphinka pool = {.at = NULL};
  struct zuphinka_call *calls = calloc(MANY_LOANS, sizeof *calls);
  struct zuphinka_effects effects;
  check(calls && zuphinka_open_with(&pool, settings, strlen(settings), &hooks) == ZUPHINKA_STATUS_DONE);
  for (uint64_t n = 0; n < MANY_LOANS; n++) {
    check(begin(&pool, ZUPHINKA_KIND_BORROW, &calls[n], &effects) == ZUPHINKA_STATUS_DONE && effects.number == n);
    check(advance(&pool, &calls[n], ZUPHINKA_REPORT_MADE, &effects) == ZUPHINKA_STATUS_DONE);
  }
  for (uint64_t n = 0; n < MANY_LOANS; n++) end_work(&pool, 1, &calls[n], ZUPHINKA_END_LENT);
  for (uint64_t n = 0; n < MANY_LOANS; n++) {
    check(begin_return(&pool, 4, 1, (struct object){n, &maker}, &calls[n], &effects) == ZUPHINKA_STATUS_DONE);
  }
  for (uint64_t n = 0; n < MANY_LOANS; n++) end_work(&pool, 1, &calls[n], ZUPHINKA_END_PARKED);
  for (uint64_t n = MANY_LOANS; n-- > 0;) check(begin_work(&pool, 1, &calls[n]) == n);
  for (uint64_t n = 0; n < MANY_LOANS; n++) end_work(&pool, 1, &calls[n], ZUPHINKA_END_LENT);
  free(calls);
  zuphinka_drop(&pool);
}

/* A borrow on whose object the host works overtakes one that waits, and no more often than is set. */
static void test_overtakes_with_hooks(void) {
  const struct zuphinka_options hooks = {.activates = true, .passivates = true, .max_overtakes = 2};
  struct zuphinka pool = open_core_lent("maxTotal = 1\n", &hooks);
  struct zuphinka_call call, other;
  struct zuphinka_effects effects;
  uint64_t ticket = sleeps(&pool, &call);
  for (int overtakes = 0;; overtakes++) {
    const struct zuphinka_event done = {.report = ZUPHINKA_REPORT_SUCCEEDED};
    check(begin_return(&pool, 4, 0, (struct object){0, &maker}, &other, &effects) == ZUPHINKA_STATUS_DONE);
    check(zuphinka_advance(&pool, &other, &done, &effects) == ZUPHINKA_STATUS_DONE && effects.wake == ticket);
    if (overtakes == 2) break;
    begin_work(&pool, 0, &other);
    end_work(&pool, 0, &other, ZUPHINKA_END_LENT);
  }
  sleeps(&pool, &other);
  wakes_to(&pool, &call, ZUPHINKA_ACTION_ACTIVATE);
  zuphinka_drop(&pool);
}

/* The same with many objects, which are idle at once and lent at once; between, the settings change. */
static void test_many_loans_at_once(void) {
  const char *settings = "maxTotal = -1\nmaxIdle = -1\njournalLimit = 10000000\n";
  struct zuphinka pool = {.at = NULL};
  struct zuphinka_call call;
  struct zuphinka_effects effects;
  struct zuphinka_tally counts;
  check(zuphinka_open(&pool, settings, strlen(settings)) == ZUPHINKA_STATUS_DONE);
  for (uint64_t n = 0; n < MANY_LOANS; n++) {
    check(begin(&pool, ZUPHINKA_KIND_BORROW, &call, &effects) == ZUPHINKA_STATUS_DONE && effects.number == n);
    check(advance(&pool, &call, ZUPHINKA_REPORT_MADE, &effects) == ZUPHINKA_STATUS_DONE && effects.end == ZUPHINKA_END_LENT);
  }
  for (int turn = 0; turn < 2; turn++) {
    for (uint64_t n = 0; n < MANY_LOANS; n++) take_back(&pool, 0, 1, (struct object){n, &maker});
    check(zuphinka_counts(&pool, &counts) == ZUPHINKA_STATUS_DONE && counts.idle == MANY_LOANS && counts.lent == 0);
    check(zuphinka_reconfigure(&pool, settings, strlen(settings)) == ZUPHINKA_STATUS_DONE);
    for (uint64_t n = MANY_LOANS; n-- > 0;) check(lend_at_once(&pool, 0, 1).id == n);
    check(zuphinka_counts(&pool, &counts) == ZUPHINKA_STATUS_DONE && counts.idle == 0 && counts.lent == MANY_LOANS);
  }
  zuphinka_drop(&pool);
}

/* Reports at a time that a call was woken. */
static void wake_at(struct zuphinka *pool, struct zuphinka_call *call, uint64_t at, struct zuphinka_effects *effects) {
  const struct zuphinka_event event = {.at = at, .report = ZUPHINKA_REPORT_WOKEN};
  check(zuphinka_advance(pool, call, &event, effects) == ZUPHINKA_STATUS_DONE);
}

/* A borrow may wait longer than the settings say: it makes no entry before its own time is over, and then ends as one whose time is over. */
static void test_longer_waits(void) {
  const struct zuphinka_start patient = {.kind = ZUPHINKA_KIND_BORROW, .at = 10, .id = 50};
  const struct zuphinka_start forever = {.kind = ZUPHINKA_KIND_BORROW, .at = 10, .id = UINT64_MAX};
  static const char *const limits[] = {"maxTotal = 1\nmaxWaitMillis = 0\n", "maxTotal = 1\nmaxWaitMillis = 30\n"};
  for (uint64_t n = 0; n < 2; n++) {
    uint64_t limit = 30 * n, steps = 0;
    struct zuphinka pool = {.at = NULL};
    struct zuphinka_call call, other;
    struct zuphinka_effects effects;
    check(zuphinka_open(&pool, limits[n], strlen(limits[n])) == ZUPHINKA_STATUS_DONE);
    check(begin(&pool, ZUPHINKA_KIND_BORROW, &call, &effects) == ZUPHINKA_STATUS_DONE);
    check(advance(&pool, &call, ZUPHINKA_REPORT_MADE, &effects) == ZUPHINKA_STATUS_DONE && effects.end == ZUPHINKA_END_LENT);
    check(zuphinka_begin(&pool, &patient, &call, &effects) == ZUPHINKA_STATUS_DONE && effects.action == ZUPHINKA_ACTION_SLEEP);
    check(effects.has_until && effects.until == 10 + limit + 50);
    check(zuphinka_begin(&pool, &forever, &other, &effects) == ZUPHINKA_STATUS_DONE && effects.action == ZUPHINKA_ACTION_SLEEP);
    check(effects.has_until && effects.until == UINT64_MAX);
    check(zuphinka_steps(&pool, &steps) == ZUPHINKA_STATUS_DONE && steps == 2 + n); /* where the limit is 0 the core answers no wait */
    wake_at(&pool, &call, 10 + limit + 49, &effects);
    check(effects.action == ZUPHINKA_ACTION_SLEEP && effects.has_ticket);
    wake_at(&pool, &call, 10 + limit + 50, &effects);
    check(effects.action == ZUPHINKA_ACTION_DONE && effects.end == ZUPHINKA_END_TIMED_OUT);
    wake_at(&pool, &other, 10 + limit + 1000, &effects);
    check(effects.action == ZUPHINKA_ACTION_SLEEP);
    check(zuphinka_steps(&pool, &steps) == ZUPHINKA_STATUS_DONE && steps == 2 + n);
    uint64_t ticket = effects.ticket;
    check(begin_return(&pool, 0, 2000, (struct object){0, &maker}, &call, &effects) == ZUPHINKA_STATUS_DONE && effects.wake == ticket);
    wake_at(&pool, &other, 2000, &effects);
    check(effects.end == ZUPHINKA_END_LENT && effects.number == 0);
    zuphinka_drop(&pool);
  }
}

/* A borrow is lent an object at once, and it returns. */
static void overtake(struct zuphinka *pool, uint64_t at) { take_back(pool, 0, at, lend_at_once(pool, 0, at)); }

/* The bound on overtakes can be raised and lowered while calls wait, but not below what the oldest has seen. */
static void test_changed_overtakes(void) {
  struct zuphinka pool = open_core_lent("maxTotal = 1\n", &(struct zuphinka_options){.max_overtakes = 7});
  struct zuphinka_call call, other;
  struct zuphinka_effects effects;
  uint64_t bound = 7;
  check(zuphinka_set_overtakes(&pool, 0, 3, &bound) == ZUPHINKA_STATUS_DONE && bound == 3);
  sleeps(&pool, &call);
  take_back(&pool, 0, 0, (struct object){0, &maker});
  overtake(&pool, 0);
  overtake(&pool, 0);
  check(zuphinka_set_overtakes(&pool, 0, 1, &bound) == ZUPHINKA_STATUS_DONE && bound == 2);
  sleeps(&pool, &other);
  check(advance(&pool, &other, ZUPHINKA_REPORT_GIVEN_UP, &effects) == ZUPHINKA_STATUS_DONE);
  check(zuphinka_set_overtakes(&pool, 0, UINT64_MAX, &bound) == ZUPHINKA_STATUS_DONE && bound == UINT64_MAX);
  overtake(&pool, 0);
  wakes_to(&pool, &call, ZUPHINKA_ACTION_DONE);
  check(zuphinka_set_overtakes(&pool, 0, 0, &bound) == ZUPHINKA_STATUS_DONE && bound == 0);
  zuphinka_drop(&pool);
}

/* Any number of borrows overtake a call until it has waited for as long as is set, and then as many as are. The time can be changed while it waits. */
static void test_overtakes_after_a_time(void) {
  struct zuphinka pool = open_core_lent("maxTotal = 1\n", &(struct zuphinka_options){.max_overtakes = 1, .overtake_millis = 10});
  struct zuphinka_call call, late;
  struct zuphinka_effects effects;
  uint64_t bound = 7;
  sleeps(&pool, &call);
  take_back(&pool, 0, 0, (struct object){0, &maker});
  for (int n = 0; n < 5; n++) overtake(&pool, 9);
  overtake(&pool, 10);
  sleeps(&pool, &late);
  check(advance(&pool, &late, ZUPHINKA_REPORT_GIVEN_UP, &effects) == ZUPHINKA_STATUS_DONE);
  check(zuphinka_set_overtakes(&pool, 20, 0, &bound) == ZUPHINKA_STATUS_DONE && bound == 1);
  for (int n = 0; n < 5; n++) overtake(&pool, 19);
  check(zuphinka_set_overtakes(&pool, 19, 0, &bound) == ZUPHINKA_STATUS_DONE && bound == 1);
  sleeps(&pool, &late);
  wakes_to(&pool, &call, ZUPHINKA_ACTION_DONE);
  zuphinka_drop(&pool);
}

/* An object is lent from its loan until its return, its end, or its removal from its holder. */
static void test_lent_objects(void) {
  const char *settings = "[abandoned]\nremoveAbandonedOnMaintenance = true\nremoveAbandonedTimeoutMillis = 10\n";
  const struct zuphinka_start reclaim = {.kind = ZUPHINKA_KIND_RECLAIM, .at = 100};
  struct zuphinka pool = {.at = NULL};
  struct zuphinka_call call;
  struct zuphinka_effects effects;
  check(zuphinka_open(&pool, settings, strlen(settings)) == ZUPHINKA_STATUS_DONE);
  check(!is_lent(&pool, 0));
  check(begin(&pool, ZUPHINKA_KIND_BORROW, &call, &effects) == ZUPHINKA_STATUS_DONE && !is_lent(&pool, 0));
  check(advance(&pool, &call, ZUPHINKA_REPORT_MADE, &effects) == ZUPHINKA_STATUS_DONE && is_lent(&pool, 0) && !is_lent(&pool, 1));
  take_back(&pool, 0, 0, (struct object){0, &maker});
  check(!is_lent(&pool, 0));
  check(lend_at_once(&pool, 0, 0).id == 0 && is_lent(&pool, 0));
  check(zuphinka_begin(&pool, &reclaim, &call, &effects) == ZUPHINKA_STATUS_DONE && effects.count == 1 && !is_lent(&pool, 0));
  zuphinka_drop(&pool);
}

static void test_unknown_kinds(void) {
  struct zuphinka pool = open_hosted(1, "");
  refuse(&pool, NULL, 0, ZUPHINKA_STATUS_BAD_REQUEST);
  refuse(&pool, NULL, ZUPHINKA_KIND_CLOSE + 1, ZUPHINKA_STATUS_BAD_REQUEST);
  refuse(&pool, NULL, UINT32_MAX, ZUPHINKA_STATUS_BAD_REQUEST);
  zuphinka_drop(&pool);
}

static bool fits(uint32_t action, uint32_t report) {
  switch (report) {
    case ZUPHINKA_REPORT_GO_ON: return action == ZUPHINKA_ACTION_GO_ON;
    case ZUPHINKA_REPORT_MADE: return action == ZUPHINKA_ACTION_MAKE;
    case ZUPHINKA_REPORT_SUCCEEDED: return action >= ZUPHINKA_ACTION_ACTIVATE && action <= ZUPHINKA_ACTION_DESTROY;
    case ZUPHINKA_REPORT_FAILED: return action >= ZUPHINKA_ACTION_MAKE && action <= ZUPHINKA_ACTION_DESTROY;
    case ZUPHINKA_REPORT_WOKEN: return action == ZUPHINKA_ACTION_SLEEP;
    case ZUPHINKA_REPORT_ROOM_MADE:
    case ZUPHINKA_REPORT_NO_ROOM: return action == ZUPHINKA_ACTION_MAKE_ROOM;
    default: return report == ZUPHINKA_REPORT_GIVEN_UP;
  }
}

/* Each report that does not fit the action of a call is refused; so is each to a struct without a call, to a call of another pool, and each unknown
 * one. */
static void refuse_all(struct zuphinka *pool, const struct zuphinka_call *call, uint32_t action) {
  static struct zuphinka other;
  struct zuphinka_call wrong[3];
  memset(&wrong[0], 0, sizeof *wrong);
  memset(&wrong[1], 'u', sizeof *wrong);
  wrong[2] = *call;
  memset(&wrong[2].words[2], 'u', sizeof *wrong - 2 * sizeof *wrong[2].words); /* the words after the mark and the pool */
  if (!other.at) other = open_hosted(2, "");
  for (uint32_t report = 0; report <= ZUPHINKA_REPORT_GIVEN_UP + 1; report++) {
    bool is_known = report >= ZUPHINKA_REPORT_GO_ON && report <= ZUPHINKA_REPORT_GIVEN_UP;
    for (size_t n = 0; n < sizeof wrong / sizeof *wrong; n++) refuse(pool, &wrong[n], report, ZUPHINKA_STATUS_NO_CALL);
    refuse(&other, call, report, ZUPHINKA_STATUS_NO_CALL);
    if (action == ZUPHINKA_ACTION_DONE) {
      refuse(pool, call, report, ZUPHINKA_STATUS_NO_CALL);
    } else if (!fits(action, report)) {
      refuse(pool, call, report, is_known ? ZUPHINKA_STATUS_MISFIT : ZUPHINKA_STATUS_BAD_REQUEST);
    }
  }
  if (action == ZUPHINKA_ACTION_DONE) zuphinka_drop(&other);
}

/* Notes the end of a call that is over at once, of which the library stores the object alone. Returns whether the call has gone on. */
static bool is_taken(uint32_t status, uint32_t kind, struct zuphinka_effects *effects) {
  bool is_over = status == ZUPHINKA_STATUS_AT_ONCE;
  if (is_over) {
    effects->action = ZUPHINKA_ACTION_DONE;
    effects->end = kind == ZUPHINKA_KIND_BORROW ? ZUPHINKA_END_LENT : ZUPHINKA_END_PARKED;
    effects->has_wake = false;
  }
  return is_over || status == ZUPHINKA_STATUS_DONE;
}

/* Makes a call whose actions all succeed, and tries all that is refused before each. Returns how it ended. */
static uint32_t drive_call(struct zuphinka *pool, uint32_t kind, const char *actions, struct zuphinka_effects *effects) {
  struct zuphinka_call call = {.words = {0}};
  check(is_taken(begin(pool, kind, &call, effects), kind, effects));
  for (; effects->action != ZUPHINKA_ACTION_DONE; actions++) {
    check(*actions == "?grmavpds"[effects->action]);
    refuse_all(pool, &call, effects->action);
    uint32_t report = effects->action == ZUPHINKA_ACTION_MAKE ? ZUPHINKA_REPORT_MADE : ZUPHINKA_REPORT_SUCCEEDED;
    check(is_taken(advance(pool, &call, report, effects), kind, effects));
  }
  check(!*actions);
  refuse_all(pool, &call, effects->action);
  return effects->end;
}

/* What is refused changes nothing at any action of a call, and the call goes on after it. */
static void test_refused_reports(void) {
  struct zuphinka pool = open_hosted(1, "maxTotal = 1\ntestOnBorrow = true\ntestOnReturn = true\n");
  struct zuphinka_effects effects;
  struct zuphinka_call waiting = {.words = {0}};
  check(drive_call(&pool, ZUPHINKA_KIND_BORROW, "mav", &effects) == ZUPHINKA_END_LENT && effects.object == &maker);
  check(begin(&pool, ZUPHINKA_KIND_BORROW, &waiting, &effects) == ZUPHINKA_STATUS_DONE);
  check(effects.action == ZUPHINKA_ACTION_SLEEP && effects.has_ticket);
  uint64_t ticket = effects.ticket;
  refuse_all(&pool, &waiting, effects.action);
  check(drive_call(&pool, ZUPHINKA_KIND_RETURN, "vp", &effects) == ZUPHINKA_END_PARKED);
  check(effects.has_wake && effects.wake == ticket && zuphinka_next_wake(&pool, &ticket) == ZUPHINKA_STATUS_NO_WAKE);
  refuse_all(&pool, &waiting, ZUPHINKA_ACTION_SLEEP);
  check(advance(&pool, &waiting, ZUPHINKA_REPORT_WOKEN, &effects) == ZUPHINKA_STATUS_DONE && effects.action == ZUPHINKA_ACTION_ACTIVATE);
  check(advance(&pool, &waiting, ZUPHINKA_REPORT_SUCCEEDED, &effects) == ZUPHINKA_STATUS_DONE && effects.action == ZUPHINKA_ACTION_VALIDATE);
  check(advance(&pool, &waiting, ZUPHINKA_REPORT_SUCCEEDED, &effects) == ZUPHINKA_STATUS_AT_ONCE);
  check(drive_call(&pool, ZUPHINKA_KIND_INVALIDATE, "d", &effects) == ZUPHINKA_END_DESTROYED);
  check(drive_call(&pool, ZUPHINKA_KIND_CLOSE, "", &effects) == ZUPHINKA_END_COMPLETE);
  zuphinka_drop(&pool);
}

/* The same while the journal has no room. */
static void test_refused_reports_without_room(void) {
  struct zuphinka pool = open_hosted(1, "journalLimit = 5\n");
  struct zuphinka_effects effects;
  struct zuphinka_call call = {.words = {0}};
  check(begin(&pool, ZUPHINKA_KIND_BORROW, &call, &effects) == ZUPHINKA_STATUS_DONE && effects.action == ZUPHINKA_ACTION_MAKE_ROOM);
  refuse_all(&pool, &call, effects.action);
  check(advance(&pool, &call, ZUPHINKA_REPORT_NO_ROOM, &effects) == ZUPHINKA_STATUS_DONE);
  check(effects.action == ZUPHINKA_ACTION_DONE && effects.end == ZUPHINKA_END_JOURNAL_FULL);
  refuse_all(&pool, &call, effects.action);
  zuphinka_drop(&pool);
}

/* A report to a call with a wrong byte is taken or refused, whatever byte that is, and the pool goes on. */
static void test_wrong_bytes(void) {
  static const unsigned char wrong[] = {0, 1, 2, 3, 4, 5, 6, 7, 8, 11, 128, 255};
  for (size_t at = 0; at < sizeof(struct zuphinka_call); at++) {
    for (size_t n = 0; n < sizeof wrong; n++) {
      struct zuphinka pool = open_hosted(1, "testOnBorrow = true\n");
      struct zuphinka_call call;
      struct zuphinka_effects effects;
      check(begin(&pool, ZUPHINKA_KIND_BORROW, &call, &effects) == ZUPHINKA_STATUS_DONE);
      check(advance(&pool, &call, ZUPHINKA_REPORT_MADE, &effects) == ZUPHINKA_STATUS_DONE && effects.action == ZUPHINKA_ACTION_ACTIVATE);
      memset((unsigned char *)call.words + at, wrong[n], 1);
      uint32_t report = n % 2 ? ZUPHINKA_REPORT_SUCCEEDED : ZUPHINKA_REPORT_GIVEN_UP, status = advance(&pool, &call, report, &effects);
      check(is_taken(status, ZUPHINKA_KIND_BORROW, &effects) || status == ZUPHINKA_STATUS_NO_CALL || status == ZUPHINKA_STATUS_MISFIT);
      check(begin(&pool, ZUPHINKA_KIND_BORROW, &call, &effects) == ZUPHINKA_STATUS_DONE && effects.action == ZUPHINKA_ACTION_MAKE);
      zuphinka_drop(&pool);
    }
  }
}

static bool has_counts(const struct zuphinka_effects *effects, uint64_t count, uint64_t freed) {
  return effects->count == count && effects->freed == freed;
}

static void test_counts_of_calls(void) {
  struct zuphinka pool = open_hosted(1, "maxTotal = 3\nminIdle = 2\ntestWhileIdle = true\n"
                                        "[abandoned]\nremoveAbandonedOnMaintenance = true\nremoveAbandonedTimeoutMillis = 0\n");
  struct zuphinka_effects effects;
  struct zuphinka_call call;
  check(drive_call(&pool, ZUPHINKA_KIND_FILL, "mpmp", &effects) == ZUPHINKA_END_COMPLETE && has_counts(&effects, 2, 0));
  check(drive_call(&pool, ZUPHINKA_KIND_BORROW, "a", &effects) == ZUPHINKA_END_LENT && has_counts(&effects, 0, 0));
  check(drive_call(&pool, ZUPHINKA_KIND_EVICT, "avp", &effects) == ZUPHINKA_END_COMPLETE && has_counts(&effects, 1, 0));
  check(drive_call(&pool, ZUPHINKA_KIND_RECLAIM, "", &effects) == ZUPHINKA_END_COMPLETE && has_counts(&effects, 1, 0));
  check(begin(&pool, ZUPHINKA_KIND_EVICT, &call, &effects) == ZUPHINKA_STATUS_DONE && effects.action == ZUPHINKA_ACTION_ACTIVATE);
  check(advance(&pool, &call, ZUPHINKA_REPORT_FAILED, &effects) == ZUPHINKA_STATUS_DONE && effects.action == ZUPHINKA_ACTION_DESTROY);
  check(has_counts(&effects, 1, 0));
  check(advance(&pool, &call, ZUPHINKA_REPORT_SUCCEEDED, &effects) == ZUPHINKA_STATUS_DONE && effects.action == ZUPHINKA_ACTION_DONE);
  check(has_counts(&effects, 1, 1));
  zuphinka_drop(&pool);
}

/* ---- a sink that fails at one call */

static void run_sink(int fails_at, const char *folder) {
  struct zuphinka_pool *pool = open_stored(&maker, "journalLimit = 60\nmaxTotal = 2\n", folder, ZUPHINKA_POOL_JOURNAL_SEGMENTS);
  maker.sink.fails_at = fails_at;
  for (int round = 0; round < 60; round++) {
    struct zuphinka_pool_loan loan = lend(pool);
    check_error(zuphinka_pool_touch(pool, &loan), ZUPHINKA_POOL_ERROR_NONE);
    give_back(pool, &loan);
    if (round % 20 == 19) check_error(zuphinka_pool_maintain(pool, NULL), ZUPHINKA_POOL_ERROR_NONE);
  }
  zuphinka_pool_close(pool);
  uint64_t steps = counts_of(pool).steps;
  maker.pool = NULL;
  end_stored(pool);
  printf("steps %" PRIu64 "\ncalled %d\n", steps, atomic_load(&maker.sink.called));
}

/* ---- threads that call at random */

enum { HELD = 6, MOST_THREADS = 16 };

/* What threads do with a pool that has nothing to lend. */
enum manner { WAITING, REFUSED, HASTY, MANNERS };

static const char *const settings_of_manner[MANNERS] = {
    [WAITING] = "lifo = false\nminEvictableIdleMillis = 40\nsoftMinEvictableIdleMillis = 20\nnumTestsPerEvictionRun = -1\n",
    [REFUSED] =
        ("maxIdle = 2\nblockWhenExhausted = false\ntestOnCreate = true\nminEvictableIdleMillis = 40\n"
         "numTestsPerEvictionRun = 2\n"),
    [HASTY] = "maxWaitMillis = 2\nminEvictableIdleMillis = 1\n",
};
static const int most_of_manner[MANNERS] = {1, 4, 3};
static const int timeout_of_manner[MANNERS] = {60, 200, 3};

struct table {
  struct zuphinka_pool *pool;
  enum manner manner;
  enum zuphinka_pool_journal journal;
  int calls;
  bool is_short; /* allocations may fail */
  bool is_changing; /* the settings change now and then */
  char settings[2][1024]; /* those of the table, and those with one place */
  pthread_mutex_t changing; /* held while the settings change, until they are stored */
  pthread_mutex_t lock;
  struct zuphinka_pool_loan handed[MOST_THREADS]; /* loans that one thread hands to another */
  size_t count;
  uint64_t lent; /* after all others */
};

struct player {
  pthread_t thread;
  struct table *table;
  uint64_t dice;
  struct zuphinka_pool_loan held[HELD];
  size_t count;
  struct zuphinka_pool_loan ended; /* the last one that it ended */
  uint32_t caller;
  uint64_t lent;
};

/* Errors that come to each call now and then. */
static bool is_expected(const struct table *table, enum zuphinka_pool_error error) {
  switch (error) {
    case ZUPHINKA_POOL_ERROR_NONE:
    case ZUPHINKA_POOL_ERROR_CLOSED:
    case ZUPHINKA_POOL_ERROR_MAKE_FAILED:
    case ZUPHINKA_POOL_ERROR_CREATE_TEST_FAILED:
    case ZUPHINKA_POOL_ERROR_ACTIVATE_FAILED:
    case ZUPHINKA_POOL_ERROR_BORROW_TEST_FAILED:
    case ZUPHINKA_POOL_ERROR_PASSIVATE_FAILED: return true;
    case ZUPHINKA_POOL_ERROR_JOURNAL_FULL:
    case ZUPHINKA_POOL_ERROR_STORE_FAILED:
    case ZUPHINKA_POOL_ERROR_OUT_OF_MEMORY: return table->is_short;
    default: return false;
  }
}

/* Tries the loan that a player ended last, whose object another one may have by now. */
static void use_ended(struct player *player) {
  if (player->ended.object) check_no_loan(player->table->pool, &player->ended, ZUPHINKA_POOL_ERROR_NOT_LENT);
}

static void borrow_at_random(struct player *player) {
  struct table *table = player->table;
  struct zuphinka_pool_loan loan;
  if (player->count == (table->manner == WAITING ? 1 : HELD)) return;
  use_ended(player);
  uint64_t how = table->manner == HASTY ? roll(&player->dice, 3) : 0;
  enum zuphinka_pool_error error = how == 0   ? zuphinka_pool_get(table->pool, &loan)
                                   : how == 1 ? zuphinka_pool_try_get(table->pool, &loan)
                                              : zuphinka_pool_get_timed(table->pool, 1, &loan);
  if (error) {
    bool has_none = error == ZUPHINKA_POOL_ERROR_EXHAUSTED || error == ZUPHINKA_POOL_ERROR_TIMED_OUT;
    bool stores = table->journal == ZUPHINKA_POOL_JOURNAL_SEGMENTS && table->manner != WAITING; /* a wait may end while another thread stores */
    bool is_late = stores && error == ZUPHINKA_POOL_ERROR_JOURNAL_FULL;
    check((has_none && table->manner != WAITING) || is_late || is_expected(table, error));
    return;
  }
  struct thing *thing = loan.object;
  check(thing->id == loan.id && (thing->is_awake || maker.is_plain) && atomic_fetch_add(&thing->holders, 1) == 0);
  player->held[player->count++] = loan;
  player->lent++;
}

/* Takes one of the loans that a player holds, at random. */
static struct zuphinka_pool_loan pick(struct player *player) {
  size_t at = roll(&player->dice, player->count);
  struct zuphinka_pool_loan loan = player->held[at];
  player->held[at] = player->held[--player->count];
  return loan;
}

/* Ends a loan, and returns whether it has ended. An object that was reclaimed is its holder's where the call fails. */
static bool end_loan(struct table *table, struct zuphinka_pool_loan loan, bool is_broken) {
  void *object = loan.object;
  let_go(&loan);
  enum zuphinka_pool_error error = is_broken ? zuphinka_pool_invalidate(table->pool, &loan) : zuphinka_pool_give_back(table->pool, &loan);
  bool has_ended = error == ZUPHINKA_POOL_ERROR_NONE || error == ZUPHINKA_POOL_ERROR_GONE;
  check((has_ended && loan.id == ZUPHINKA_POOL_NO_LOAN) || (error != ZUPHINKA_POOL_ERROR_CLOSED && is_expected(table, error)));
  if (!has_ended) destroy_thing(&maker, object);
  return has_ended;
}

static void end_at_random(struct player *player, bool is_broken) {
  struct zuphinka_pool_loan loan = pick(player);
  if (end_loan(player->table, loan, is_broken)) player->ended = loan;
}

static void touch_at_random(struct player *player) {
  const struct zuphinka_pool_loan *loan = &player->held[roll(&player->dice, player->count)];
  enum zuphinka_pool_error error = zuphinka_pool_touch(player->table->pool, loan);
  check(error == ZUPHINKA_POOL_ERROR_GONE || is_expected(player->table, error));
}

/* Hands a loan to another thread, and takes one that was handed on. */
static void hand_on(struct player *player) {
  struct table *table = player->table;
  if (table->manner == WAITING) return;
  pthread_mutex_lock(&table->lock);
  if (table->count < MOST_THREADS) table->handed[table->count++] = pick(player);
  size_t at = roll(&player->dice, table->count);
  player->held[player->count++] = table->handed[at];
  table->handed[at] = table->handed[--table->count];
  pthread_mutex_unlock(&table->lock);
}

static void call_with_one(struct player *player) {
  if (player->count == 0) {
    borrow_at_random(player);
    return;
  }
  uint64_t call = roll(&player->dice, 16);
  if (call < 13) {
    end_at_random(player, call > 10);
  } else if (call < 15) {
    touch_at_random(player);
  } else if (player->count < HELD) {
    hand_on(player);
  }
}

static void maintain_at_random(struct player *player) {
  struct table *table = player->table;
  enum zuphinka_pool_error error = ZUPHINKA_POOL_ERROR_NONE;
  switch (roll(&player->dice, 5)) {
    case 0: error = zuphinka_pool_add(table->pool); break;
    case 1: error = zuphinka_pool_fill(table->pool, NULL); break;
    case 2: error = zuphinka_pool_evict(table->pool, NULL); break;
    case 3: error = zuphinka_pool_reclaim(table->pool, NULL); break;
    default: error = zuphinka_pool_maintain(table->pool, NULL); break;
  }
  check(error == ZUPHINKA_POOL_ERROR_NO_PLACE || is_expected(table, error));
}

/* Changes the settings to those with one place, or back, and stores them beside the segments. Returns whether there was room and memory. */
static bool change_settings(struct table *table, int which) {
  const char *settings = table->settings[which];
  char name[64];
  uint64_t first;
  pthread_mutex_lock(&table->changing);
  enum zuphinka_pool_error error = zuphinka_pool_reconfigure(table->pool, settings, strlen(settings), store_segment, &maker, &first);
  check(is_expected(table, error));
  bool is_written = error || table->journal == ZUPHINKA_POOL_JOURNAL_OFF;
  if (!error) snprintf(name, sizeof name, "settings-%020" PRIu64 ".toml", first);
  for (int tries = 0; !is_written && tries < 1000; tries++) is_written = write_file(maker.sink.folder, name, settings, strlen(settings));
  check(is_written);
  pthread_mutex_unlock(&table->changing);
  return !error;
}

/* Calls that are made seldom: the pool is closed now and then. */
static void call_seldom(struct player *player) {
  struct table *table = player->table;
  uint64_t call = roll(&player->dice, 3000);
  if (call == 0) {
    zuphinka_pool_close(table->pool);
  } else if (call <= 500) {
    check(is_expected(table, zuphinka_pool_clear(table->pool, NULL)));
  } else if (call <= 600 && table->journal == ZUPHINKA_POOL_JOURNAL_MEMORY) {
    check(is_expected(table, zuphinka_pool_cut(table->pool, store_segment, &maker, NULL)));
  } else if (call > 600 && call <= 900 && table->is_changing) {
    change_settings(table, (int)(call % 2));
  } else {
    struct zuphinka_tally counts = counts_of(table->pool);
    check(counts.idle + counts.lent + counts.reserved <= (uint64_t)most_of_manner[table->manner]);
  }
}

static void *play(void *argument) {
  struct player *player = argument;
  player->caller = zuphinka_pool_caller();
  for (int n = 0; n < player->table->calls; n++) {
    uint64_t call = roll(&player->dice, 24);
    if (call < 8) {
      borrow_at_random(player);
    } else if (call < 17) {
      call_with_one(player);
    } else if (call < 22) {
      maintain_at_random(player);
    } else {
      call_seldom(player);
    }
  }
  while (player->count > 0) end_loan(player->table, pick(player), false);
  return NULL;
}

/* Opens a pool whose manner, journal and callbacks the seed chooses. */
static void open_table(struct table *table, uint64_t seed, const char *folder) {
  static const char *const limits[] = {"journalLimit = 100\n", "", "journalLimit = 400\n"};
  bool is_abandoning = seed % 2 == 0;
  table->manner = (enum manner)(seed % MANNERS);
  table->journal = (enum zuphinka_pool_journal)(seed / MANNERS % 3);
  maker.is_plain = seed % 5 == 0;
  maker.has_no_clock = table->manner == HASTY;
  maker.most = is_abandoning ? -1 : most_of_manner[table->manner];
  atomic_store(&maker.ticks, 1);
  table->is_changing = seed % 5 == 2 || seed % 5 == 4;
  for (int which = 0; which < 2; which++) {
    char *settings = table->settings[which];
    size_t size = sizeof table->settings[which];
    int length = snprintf(settings, size, "maxTotal = %d\n%s%sminIdle = 1\n%s", which ? 1 : most_of_manner[table->manner],
                          settings_of_manner[table->manner], limits[table->journal],
                          maker.is_plain ? "" : "testOnBorrow = true\ntestOnReturn = true\ntestWhileIdle = true\n");
    if (!is_abandoning) continue;
    snprintf(settings + length, size - (size_t)length,
             "[abandoned]\nremoveAbandonedOnBorrow = true\nremoveAbandonedOnMaintenance = true\nremoveAbandonedTimeoutMillis = %d\n",
             timeout_of_manner[table->manner]);
  }
  maker.max_lifetime_ms = seed / MANNERS % 2 ? 500 : 0;
  maker.leak_after_ms = seed % 2 == 0 ? 50 : 0;
  maker.is_fair = seed % 4 == 1;
  maker.max_overtakes = seed % 4 == 2 ? 1 : 0;
  table->pool = open_stored(&maker, table->settings[0], folder, table->journal);
  maker.seed = seed;
  maker.has_chance = true;
}

/* Lends all that the pool can have at once, without a wait: no place was lost, nor a signal, for which a call would still be in the queue. */
static void lend_all(struct table *table) {
  struct zuphinka_pool_loan loans[HELD];
  enum zuphinka_pool_error error = ZUPHINKA_POOL_ERROR_NONE;
  int most = most_of_manner[table->manner], lent = 0;
  for (int tries = 0; tries < 10000 && lent < most && error != ZUPHINKA_POOL_ERROR_CLOSED; tries++) {
    error = zuphinka_pool_try_get(table->pool, &loans[lent]);
    check(is_expected(table, error));
    if (!error) atomic_fetch_add(&((struct thing *)loans[lent++].object)->holders, 1);
  }
  check(lent == most || error == ZUPHINKA_POOL_ERROR_CLOSED);
  table->lent += (uint64_t)lent;
  while (lent > 0) end_loan(table, loans[--lent], false);
}

/* Closes the pool, which has nothing left then, and stores the rest of its journal. */
static void close_table(struct table *table) {
  while (table->count > 0) end_loan(table, table->handed[--table->count], false);
  for (int tries = 0; table->is_changing && !change_settings(table, 0) && tries < 1000; tries++) continue;
  lend_all(table);
  zuphinka_pool_close(table->pool);
  struct zuphinka_tally counts = counts_of(table->pool);
  check(counts.idle == 0 && counts.lent == 0 && counts.reserved == 0 && counts.created == counts.destroyed + counts.reclaimed);
  check(atomic_load(&maker.alive) == 0);
  check_metrics(table->pool, &counts, table->is_short);
  enum zuphinka_pool_error error = ZUPHINKA_POOL_ERROR_STORE_FAILED;
  for (int tries = 0; table->journal == ZUPHINKA_POOL_JOURNAL_MEMORY && error && tries < 1000; tries++) {
    error = zuphinka_pool_cut(table->pool, store_segment, &maker, NULL);
  }
  maker.pool = NULL;
  end_stored(table->pool);
  printf("steps %" PRIu64 "\n", table->journal == ZUPHINKA_POOL_JOURNAL_OFF ? 0 : counts.steps);
}

static void run_random(uint64_t seed, int threads, int calls, const char *folder) {
  static struct table table = {.lock = PTHREAD_MUTEX_INITIALIZER, .changing = PTHREAD_MUTEX_INITIALIZER};
  static struct player players[MOST_THREADS];
  int started = 0;
  check(threads > 0 && threads <= MOST_THREADS);
  table.calls = calls;
  table.is_short = getenv("REFUSE_OF") != NULL;
  open_table(&table, seed, folder);
  for (; started < threads; started++) {
    players[started] = (struct player){.table = &table, .dice = seed * 1000 + (uint64_t)started};
    if (pthread_create(&players[started].thread, NULL, play, &players[started]) != 0) break;
  }
  check(started == threads || table.is_short);
  for (int n = 0; n < started; n++) check(pthread_join(players[n].thread, NULL) == 0);
  close_table(&table);
  printf("caller %" PRIu32 " lent %" PRIu64 "\n", zuphinka_pool_caller(), table.lent);
  for (int n = 0; n < started; n++) printf("caller %" PRIu32 " lent %" PRIu64 "\n", players[n].caller, players[n].lent);
}

/* ---- a long life without a journal */

struct borrower {
  pthread_t thread;
  struct zuphinka_pool *pool;
  uint64_t rounds;
  _Alignas(64) atomic_uint_fast64_t done;
};

static void *borrow_for_long(void *argument) {
  struct borrower *borrower = argument;
  for (uint64_t round = 0; round < borrower->rounds; round++) {
    struct zuphinka_pool_loan loan = lend(borrower->pool);
    give_back(borrower->pool, &loan);
    atomic_fetch_add_explicit(&borrower->done, 1, memory_order_relaxed);
  }
  return NULL;
}

/* Returns how many pages of memory the process has. */
static long resident_pages(void) {
  long all = 0, resident = 0;
  FILE *file = fopen("/proc/self/statm", "r");
  check(file && fscanf(file, "%ld %ld", &all, &resident) == 2);
  fclose(file);
  return resident;
}

static uint64_t pairs_of(struct borrower *borrowers, int threads) {
  uint64_t pairs = 0;
  for (int n = 0; n < threads; n++) pairs += atomic_load(&borrowers[n].done);
  return pairs;
}

/* Opens a pool of three objects, and starts threads that borrow and return so often, all together. */
static struct zuphinka_pool *open_for(struct borrower *borrowers, uint64_t pairs, int threads) {
  struct zuphinka_pool_host host = host_of(&maker);
  struct zuphinka_pool *pool;
  check(threads > 0 && threads <= MOST_THREADS);
  host.now = NULL;
  check_error(zuphinka_pool_open(&pool, "maxTotal = 3\n", 13, &host, ZUPHINKA_POOL_JOURNAL_OFF), ZUPHINKA_POOL_ERROR_NONE);
  maker.most = 3;
  for (int n = 0; n < threads; n++) {
    borrowers[n].pool = pool;
    borrowers[n].rounds = pairs / (uint64_t)threads;
    check(pthread_create(&borrowers[n].thread, NULL, borrow_for_long, &borrowers[n]) == 0);
  }
  return pool;
}

static void run_soak(uint64_t pairs, int threads) {
  static struct borrower borrowers[MOST_THREADS];
  struct zuphinka_pool *pool = open_for(borrowers, pairs, threads);
  while (pairs_of(borrowers, threads) < pairs / 10) sleep_for(1);
  long early = resident_pages();
  for (int n = 0; n < threads; n++) check(pthread_join(borrowers[n].thread, NULL) == 0);
  long late = resident_pages(), page = sysconf(_SC_PAGESIZE);
  check(late <= early + early / 10 || (late - early) * page <= SLACK);
  check(counts_of(pool).steps >= 4 * pairs_of(borrowers, threads));
  end_pool(pool);
}

/* Prints the metrics of a pool, which has the name "a", a quote, a backslash and a line feed. */
static void print_metrics(struct zuphinka_pool *pool) {
  static char text[LONGEST_TEXT];
  check_error(read_metrics(&(struct zuphinka_pool_named){pool, "a\"\\\n"}, 1, text), ZUPHINKA_POOL_ERROR_NONE);
  fputs(text, stdout);
}

static void run_metrics(uint64_t pairs, int threads) {
  static struct borrower borrowers[MOST_THREADS];
  struct zuphinka_pool *pool = open_for(borrowers, pairs, threads);
  while (pairs_of(borrowers, threads) < pairs) {
    print_metrics(pool);
    sleep_for(1);
  }
  for (int n = 0; n < threads; n++) check(pthread_join(borrowers[n].thread, NULL) == 0);
  print_metrics(pool);
  end_pool(pool);
}

/* ---- the run */

#define TEST(name) \
  { #name, test_##name }

static const struct {
  const char *name;
  void (*run)(void);
} tests[] = {
    TEST(life),
    TEST(life_with_tests_alone),
    TEST(life_without_callbacks),
    TEST(times_never_decrease),
    TEST(last_or_first),
    TEST(tests_come_where_they_are_set),
    TEST(exhausted),
    TEST(waits_end_by_the_settings),
    TEST(waits_at_the_end_of_the_clock),
    TEST(waits_end_without_the_clock),
    TEST(waits_end_by_the_caller),
    TEST(new_objects_that_fail),
    TEST(second_test_of_a_new_object),
    TEST(idle_objects_that_fail),
    TEST(returned_objects_that_fail),
    TEST(invalidated),
    TEST(ended_loans),
    TEST(stale_loans),
    TEST(stale_loans_of_reclaimed_objects),
    TEST(foreign_loans),
    TEST(most_idle),
    TEST(additions_and_fills),
    TEST(evictions),
    TEST(evictions_without_a_test),
    TEST(too_old_to_be_lent),
    TEST(too_old_to_return),
    TEST(too_old_to_be_kept),
    TEST(new_objects_are_not_old),
    TEST(leaks),
    TEST(leaks_of_one_object),
    TEST(many_leaks),
    TEST(maintenance),
    TEST(reclaims_at_a_borrow),
    TEST(clears),
    TEST(closed),
    TEST(opens),
    TEST(texts),
    TEST(metrics),
    TEST(metrics_of_some_pools),
    TEST(full_journal),
    TEST(closed_with_a_full_journal),
    TEST(dropped_journal),
    TEST(failing_store),
    TEST(in_use_at_the_end),
    TEST(lent_after_a_slow_store),
    TEST(small_journals),
    TEST(maintained_journal),
    TEST(fewer_places),
    TEST(changed_settings),
    TEST(reclaimed_before_a_change),
    TEST(segments_of_changed_settings),
    TEST(refused_settings),
    TEST(failing_store_at_a_change),
    TEST(store_that_changes_settings),
    TEST(woken_by_a_return),
    TEST(woken_by_a_place),
    TEST(woken_by_more_places),
    TEST(waits_by_changed_settings),
    TEST(woken_by_a_reclaim),
    TEST(woken_by_a_failure),
    TEST(all_hear_of_a_close),
    TEST(all_hear_of_a_full_journal),
    TEST(one_object_serves_all),
    TEST(one_object_wakes_one),
    TEST(woken_for_nothing),
    TEST(waits_by_a_clock_that_goes_back),
    TEST(one_gives_up),
    TEST(loan_that_changes),
    TEST(one_loan_in_some_threads),
    TEST(overtakes_are_bounded),
    TEST(overtakes_by_time),
    TEST(no_thread_starves),
    TEST(woken_for_nothing_once),
    TEST(overtaken_without_limit),
    TEST(served_in_order),
    TEST(threads_take_turns),
    TEST(something_is_left),
    TEST(times_out_beside_an_object),
    TEST(failed_object_keeps_the_turn),
    TEST(slow_store),
    TEST(cut_while_another_stores),
    TEST(waits_for_a_store_end),
    TEST(goes_on_after_a_cut),
    TEST(close_ends_a_wait_for_a_store),
    TEST(waits_for_no_store),
    TEST(ended_while_touched),
    TEST(store_that_borrows),
    TEST(store_that_borrows_in_the_queue),
    TEST(touch_before_a_slow_store),
    TEST(forked),
    TEST(forked_in_a_store),
    TEST(forked_in_any_call),
    TEST(callers),
    TEST(calls_of_an_empty_handle),
    TEST(loans_at_once),
    TEST(many_loans_at_once),
    TEST(nothing_at_once_after_a_vain_wake),
    TEST(what_is_not_over_at_once),
    TEST(loans_with_hooks),
    TEST(many_loans_with_hooks),
    TEST(overtakes_with_hooks),
    TEST(longer_waits),
    TEST(changed_overtakes),
    TEST(overtakes_after_a_time),
    TEST(lent_objects),
    TEST(unknown_kinds),
    TEST(refused_reports),
    TEST(refused_reports_without_room),
    TEST(wrong_bytes),
    TEST(counts_of_calls),
};

static void run_test(const char *name) {
  for (size_t n = 0; n < sizeof tests / sizeof *tests; n++) {
    if (strcmp(tests[n].name, name) != 0) continue;
    tests[n].run();
    return;
  }
  check(!"a test of this name");
}

int main(int count, char **arguments) {
  const char *kind = count > 1 ? arguments[1] : "";
  if (strcmp(kind, "list") == 0) {
    for (size_t n = 0; n < sizeof tests / sizeof *tests; n++) printf("%s\n", tests[n].name);
  } else if (strcmp(kind, "test") == 0 && count == 3) {
    run_test(arguments[2]);
  } else if (strcmp(kind, "sink") == 0 && count == 4) {
    run_sink(atoi(arguments[2]), arguments[3]);
  } else if (strcmp(kind, "random") == 0 && count == 6) {
    run_random(strtoull(arguments[2], NULL, 10), atoi(arguments[3]), atoi(arguments[4]), arguments[5]);
  } else if (strcmp(kind, "soak") == 0 && count == 4) {
    run_soak(strtoull(arguments[2], NULL, 10), atoi(arguments[3]));
  } else if (strcmp(kind, "metrics") == 0 && count == 4) {
    run_metrics(strtoull(arguments[2], NULL, 10), atoi(arguments[3]));
  } else {
    check(!"a kind of run");
  }
  return 0;
}
