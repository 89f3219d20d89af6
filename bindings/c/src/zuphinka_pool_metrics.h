/* What the pool for threads measures, and its text in the OpenMetrics format. zuphinka_pool.h explains `zuphinka_pool_metrics`. */
#ifndef ZUPHINKA_POOL_METRICS_H
#define ZUPHINKA_POOL_METRICS_H

#include <inttypes.h>
#include <stdio.h>
#include <stdlib.h>

#include "zuphinka_pool.h"

/* A time by the pool's clock: in milliseconds, as entries have it; and in nanoseconds modulo 2^64, whose differences count. */
struct moment {
  uint64_t milliseconds, nanoseconds;
};

/* The greatest time of each bucket of a histogram but the last, which has no limit. */
static const struct {
  uint64_t nanoseconds;
  const char *seconds;
} bounds[] = {
    {100000, "0.0001"},    {250000, "0.00025"},   {500000, "0.0005"},    {1000000, "0.001"},    {2500000, "0.0025"},
    {5000000, "0.005"},    {10000000, "0.01"},    {25000000, "0.025"},   {50000000, "0.05"},    {100000000, "0.1"},
    {250000000, "0.25"},   {500000000, "0.5"},    {1000000000, "1.0"},   {2500000000, "2.5"},   {5000000000, "5.0"},
    {10000000000, "10.0"}, {25000000000, "25.0"}, {50000000000, "50.0"}, {100000000000, "100.0"},
};

enum { BOUNDS = sizeof bounds / sizeof *bounds };

/* How many times are in each bucket, and their sum in nanoseconds, which begins again from 0 after 584 years. */
struct histogram {
  uint64_t counts[BOUNDS + 1];
  uint64_t sum;
};

/* What a pool measures; its lock protects it. */
struct measures {
  struct histogram waits, loans;
  uint64_t timeouts;
};

/* What is true of a pool, all of one time, and its name in a text. */
struct snapshot {
  struct measures measures;
  struct zuphinka_tally counts;
  struct zuphinka_activity state;
  bool is_low;
  const char *name;
};

/* Returns what is true of a pool, without a name. */
static struct snapshot snapshot_of(struct zuphinka_pool *pool);

/* Counts the time between two readings of a clock; if it went back, as none. */
static void measure(struct histogram *histogram, uint64_t begin, uint64_t end) {
  uint64_t passed = (int64_t)(end - begin) < 0 ? 0 : end - begin;
  int bucket = 0;
  while (bucket < BOUNDS && passed > bounds[bucket].nanoseconds) bucket++;
  histogram->counts[bucket]++;
  histogram->sum += passed;
}

static uint64_t total(const struct histogram *histogram) {
  uint64_t count = 0;
  for (int bucket = 0; bucket <= BOUNDS; bucket++) count += histogram->counts[bucket];
  return count;
}

/* ---- the text */

/* A buffer, and the size of what was written to it, which may be greater. */
struct output {
  char *text;
  size_t capacity, size;
};

static void put_byte(struct output *to, char byte) {
  if (to->size < to->capacity) to->text[to->size] = byte;
  to->size++;
}

static void put(struct output *to, const char *text) {
  while (*text) put_byte(to, *text++);
}

static void put_number(struct output *to, uint64_t number) {
  char text[32];
  snprintf(text, sizeof text, "%" PRIu64, number);
  put(to, text);
}

/* Writes a name between quotes. */
static void put_quoted(struct output *to, const char *name) {
  put(to, "\"");
  for (; *name; name++) {
    if (*name == '\\' || *name == '"' || *name == '\n') put_byte(to, '\\');
    put_byte(to, *name == '\n' ? 'n' : *name);
  }
  put(to, "\"");
}

/* Writes a line up to its number: a family, an ending, the name of a pool, and the bound of a bucket, or null. */
static void put_labels(struct output *to, const char *family, const char *ending, const char *name, const char *bound) {
  put(to, family);
  put(to, ending);
  put(to, "{pool=");
  put_quoted(to, name);
  if (bound) put(to, ",le=\"");
  if (bound) put(to, bound);
  put(to, bound ? "\"} " : "} ");
}

static void put_line(struct output *to, const char *family, const char *ending, const char *name, const char *bound, uint64_t number) {
  put_labels(to, family, ending, name, bound);
  put_number(to, number);
  put(to, "\n");
}

static void put_histogram(struct output *to, const char *family, const char *name, const struct histogram *histogram) {
  uint64_t count = 0;
  for (int bucket = 0; bucket < BOUNDS; bucket++) {
    count += histogram->counts[bucket];
    put_line(to, family, "_bucket", name, bounds[bucket].seconds, count);
  }
  count += histogram->counts[BOUNDS];
  put_line(to, family, "_bucket", name, "+Inf", count);
  put_line(to, family, "_count", name, NULL, count);
  char seconds[32];
  snprintf(seconds, sizeof seconds, "%" PRIu64 ".%09" PRIu64 "\n", histogram->sum / 1000000000, histogram->sum % 1000000000);
  put_labels(to, family, "_sum", name, NULL);
  put(to, seconds);
}

enum family { IDLE, LENT, WAITING, CREATED, DESTROYED, BORROWS, TIMEOUTS, WAITS, LOANS, FAMILIES };

static const struct {
  const char *name, *type, *unit, *help;
} families[FAMILIES] = {
    [IDLE] = {"zuphinka_idle_objects", "gauge", "objects", "Idle objects."},
    [LENT] = {"zuphinka_lent_objects", "gauge", "objects", "Lent objects."},
    [WAITING] = {"zuphinka_waiting_borrows", "gauge", "borrows", "Borrows that wait for an object."},
    [CREATED] = {"zuphinka_created_objects", "counter", "objects", "Objects that the pool began to make."},
    [DESTROYED] = {"zuphinka_destroyed_objects", "counter", "objects", "Objects that were destroyed, reclaimed, or could not be made."},
    [BORROWS] = {"zuphinka_borrows", "counter", "borrows", "Borrows that got an object."},
    [TIMEOUTS] = {"zuphinka_timeouts", "counter", "timeouts", "Borrows that timed out."},
    [WAITS] = {"zuphinka_wait_seconds", "histogram", "seconds", "How long borrows took that got an object."},
    [LOANS] = {"zuphinka_loan_seconds", "histogram", "seconds", "How long objects were lent that were not reclaimed, by the end of their loans."},
};

/* Writes what a family says of a pool. */
static void put_samples(struct output *to, enum family family, const struct snapshot *of) {
  const char *name = families[family].name;
  switch (family) {
    case IDLE: put_line(to, name, "", of->name, NULL, of->counts.idle); break;
    case LENT: put_line(to, name, "", of->name, NULL, of->counts.lent); break;
    case WAITING: put_line(to, name, "", of->name, NULL, of->state.waiting); break;
    case CREATED: put_line(to, name, "_total", of->name, NULL, of->counts.created); break;
    case DESTROYED: put_line(to, name, "_total", of->name, NULL, of->counts.destroyed + of->counts.reclaimed); break;
    case BORROWS: put_line(to, name, "_total", of->name, NULL, total(&of->measures.waits)); break;
    case TIMEOUTS: put_line(to, name, "_total", of->name, NULL, of->measures.timeouts); break;
    case WAITS: put_histogram(to, name, of->name, &of->measures.waits); break;
    default: put_histogram(to, name, of->name, &of->measures.loans);
  }
}

/* Writes one line that says something of a family. */
static void put_about(struct output *to, const char *what, const char *family, const char *text) {
  const char *const words[] = {"# ", what, " ", family, " ", text, "\n"};
  for (size_t n = 0; n < sizeof words / sizeof *words; n++) put(to, words[n]);
}

/* Writes a family of some pools. */
static void put_family(struct output *to, enum family family, const struct snapshot *snapshots, size_t count) {
  const char *name = families[family].name;
  put_about(to, "TYPE", name, families[family].type);
  put_about(to, "UNIT", name, families[family].unit);
  put_about(to, "HELP", name, families[family].help);
  for (size_t n = 0; n < count; n++) put_samples(to, family, &snapshots[n]);
}

/* Returns snapshots of some pools, to be freed, or null without memory. */
static struct snapshot *take_snapshots(const struct zuphinka_pool_named *pools, size_t count) {
  struct snapshot *snapshots = calloc(count + 1, sizeof *snapshots);
  for (size_t n = 0; snapshots && n < count; n++) {
    snapshots[n] = snapshot_of(pools[n].pool);
    snapshots[n].name = pools[n].name;
  }
  return snapshots;
}

enum zuphinka_pool_error zuphinka_pool_metrics(const struct zuphinka_pool_named *pools, size_t count, char *text, size_t capacity, size_t *size) {
  struct output to = {.text = text, .capacity = text ? capacity : 0};
  if ((!pools && count > 0) || !size) return ZUPHINKA_POOL_ERROR_NULL_POINTER;
  struct snapshot *snapshots = take_snapshots(pools, count);
  if (!snapshots) return ZUPHINKA_POOL_ERROR_OUT_OF_MEMORY;
  for (int family = 0; family < FAMILIES; family++) put_family(&to, family, snapshots, count);
  put(&to, ZUPHINKA_POOL_METRICS_END);
  free(snapshots);
  *size = to.size;
  return to.size <= to.capacity ? ZUPHINKA_POOL_ERROR_NONE : ZUPHINKA_POOL_ERROR_BUFFER_TOO_SMALL;
}

#endif
