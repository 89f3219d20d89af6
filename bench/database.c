/* Threads that transfer money between accounts in PostgreSQL over a pool of four connections, for `bench/database`: `database KIND SERVER`.
 *
 * KIND is `zuphinka`, the pool of bindings/c, or `list`, which is a mutex, a list and a condition variable. SERVER is a connection string of libpq.
 * The standard input has a line for each turn: its workers, and its milliseconds. Each turn has a pool of its own, which has all its connections
 * when the turn begins, and tests each before it is lent. Prints a line for each turn, when its pool is closed: its transfers, its time, and the
 * longest wait for a connection. Ends with an error as soon as a transfer fails.
 */
#define _POSIX_C_SOURCE 200809L

#include <inttypes.h>
#include <libpq-fe.h>
#include <pthread.h>
#include <stdio.h>
#include <stdlib.h>
#include <string.h>
#include <time.h>

#include "zuphinka_pool.h"

enum { CONNECTIONS = 4, ACCOUNTS = 100, MOST_WORKERS = 256, LONGEST_LINE = 100 };

static const char SETTINGS[] = "maxTotal = 4\nmaxWaitMillis = 60000\ntestOnBorrow = true\n";

static const char *server;

static void fail(const char *text) {
  fprintf(stderr, "%s\n", text);
  exit(1);
}

/* The time in microseconds. */
static uint64_t now(void) {
  struct timespec time;
  clock_gettime(CLOCK_MONOTONIC, &time);
  return (uint64_t)time.tv_sec * 1000000 + (uint64_t)time.tv_nsec / 1000;
}

/* ---- connections */

static PGconn *connected(void) {
  PGconn *connection = PQconnectdb(server);
  if (PQstatus(connection) != CONNECTION_OK) fail(PQerrorMessage(connection));
  return connection;
}

/* Asks for an answer, which shows that the server is there. */
static bool is_answered(PGconn *connection) {
  PGresult *result = PQexec(connection, "");
  bool is_empty = PQresultStatus(result) == PGRES_EMPTY_QUERY;
  PQclear(result);
  return is_empty;
}

/* Executes a command with up to three numbers. */
static void execute(PGconn *connection, const char *command, int count, const int *numbers) {
  char texts[3][16];
  const char *values[3] = {texts[0], texts[1], texts[2]};
  for (int n = 0; n < count; n++) snprintf(texts[n], sizeof texts[n], "%d", numbers[n]);
  PGresult *result = count ? PQexecParams(connection, command, count, NULL, values, NULL, NULL, 0) : PQexec(connection, command);
  if (PQresultStatus(result) != PGRES_COMMAND_OK) fail(PQresultErrorMessage(result));
  PQclear(result);
}

/* Transfers a euro in one transaction, as the example bindings/c/examples/postgres.c does. */
static void transfer(PGconn *connection, int worker, int number) {
  static const char change[] = "UPDATE account SET euros = euros + $1 WHERE id = $2";
  /* The second account has the greater id, so that no two transfers wait for each other. */
  int source = number % (ACCOUNTS - 1), target = source + 1 + number % (ACCOUNTS - 1 - source);
  execute(connection, "BEGIN", 0, NULL);
  execute(connection, "INSERT INTO transfer VALUES ($1, $2, $3, 1)", 3, (int[]){worker, source, target});
  execute(connection, change, 2, (int[]){-1, source});
  execute(connection, change, 2, (int[]){1, target});
  execute(connection, "COMMIT", 0, NULL);
}

/* ---- pools */

/* A connection that is lent, and its loan if the pool has loans. */
struct lent {
  PGconn *connection;
  struct zuphinka_pool_loan loan;
};

struct kind {
  const char *name;
  void (*open)(void);
  void (*get)(struct lent *lent);
  void (*give_back)(struct lent *lent);
  void (*close)(void);
};

static struct zuphinka_pool *pool;

static void expect(enum zuphinka_pool_error error) {
  if (error != ZUPHINKA_POOL_ERROR_NONE) fail(zuphinka_pool_error_text(error));
}

static bool make(void *context, uint64_t id, void **object) {
  (void)context, (void)id;
  *object = connected();
  return true;
}

static bool validate(void *context, void *object) {
  (void)context;
  return is_answered(object);
}

static void destroy(void *context, void *object) {
  (void)context;
  PQfinish(object);
}

static void open_zuphinka(void) {
  struct zuphinka_pool_host host = {.size = sizeof host, .make = make, .validate = validate, .destroy = destroy, .max_overtakes = INT32_MAX};
  expect(zuphinka_pool_open(&pool, SETTINGS, strlen(SETTINGS), &host, ZUPHINKA_POOL_JOURNAL_OFF));
}

static void get_zuphinka(struct lent *lent) {
  expect(zuphinka_pool_get(pool, &lent->loan));
  lent->connection = lent->loan.object;
}

static void give_back_zuphinka(struct lent *lent) { expect(zuphinka_pool_give_back(pool, &lent->loan)); }

static void close_zuphinka(void) { expect(zuphinka_pool_end(pool)); }

/* The list has the idle connections. */
static struct {
  pthread_mutex_t mutex;
  pthread_cond_t returned;
  PGconn *idle[CONNECTIONS];
  int count;
} list = {.mutex = PTHREAD_MUTEX_INITIALIZER, .returned = PTHREAD_COND_INITIALIZER};

static void open_list(void) {
  for (; list.count < CONNECTIONS; list.count++) list.idle[list.count] = connected();
}

static void get_list(struct lent *lent) {
  pthread_mutex_lock(&list.mutex);
  while (list.count == 0) pthread_cond_wait(&list.returned, &list.mutex);
  lent->connection = list.idle[--list.count];
  pthread_mutex_unlock(&list.mutex);
  if (is_answered(lent->connection)) return;
  PQfinish(lent->connection);
  lent->connection = connected();
}

static void give_back_list(struct lent *lent) {
  pthread_mutex_lock(&list.mutex);
  list.idle[list.count++] = lent->connection;
  pthread_mutex_unlock(&list.mutex);
  pthread_cond_signal(&list.returned);
}

static void close_list(void) {
  while (list.count > 0) PQfinish(list.idle[--list.count]);
}

static const struct kind KINDS[] = {
    {"zuphinka", open_zuphinka, get_zuphinka, give_back_zuphinka, close_zuphinka},
    {"list", open_list, get_list, give_back_list, close_list},
};

static const struct kind *kind_of(const char *name) {
  for (size_t n = 0; n < sizeof KINDS / sizeof *KINDS; n++) {
    if (strcmp(KINDS[n].name, name) == 0) return &KINDS[n];
  }
  return NULL;
}

/* ---- turns */

/* What the workers of a turn share. */
struct turn {
  const struct kind *kind;
  unsigned workers;
  uint64_t microseconds;
  pthread_barrier_t start;
};

struct worker {
  pthread_t thread;
  struct turn *turn;
  unsigned number, made;
  uint64_t longest; /* wait for a connection, in microseconds */
};

/* Transfers until the turn is over. */
static void *work(void *argument) {
  struct worker *worker = argument;
  const struct turn *turn = worker->turn;
  pthread_barrier_wait(&worker->turn->start);
  uint64_t asked = now(), end = asked + turn->microseconds;
  while (asked < end) {
    struct lent lent;
    turn->kind->get(&lent);
    uint64_t waited = now() - asked;
    transfer(lent.connection, (int)worker->number, (int)(worker->number + turn->workers * worker->made));
    turn->kind->give_back(&lent);
    worker->made++;
    if (waited > worker->longest) worker->longest = waited;
    asked = now();
  }
  return NULL;
}

/* Has the pool open all its connections. */
static void open_all(const struct kind *kind) {
  struct lent lent[CONNECTIONS];
  kind->open();
  for (int n = 0; n < CONNECTIONS; n++) kind->get(&lent[n]);
  for (int n = 0; n < CONNECTIONS; n++) kind->give_back(&lent[n]);
}

/* Starts the workers of a turn. Returns when it began, before any of them asks. */
static uint64_t start(struct turn *turn, struct worker *workers) {
  if (pthread_barrier_init(&turn->start, NULL, turn->workers + 1)) fail("no barrier");
  for (unsigned n = 0; n < turn->workers; n++) {
    workers[n] = (struct worker){.turn = turn, .number = n};
    if (pthread_create(&workers[n].thread, NULL, work, &workers[n])) fail("no thread");
  }
  uint64_t began = now();
  pthread_barrier_wait(&turn->start);
  return began;
}

/* Plays a turn, and prints its line. */
static void play(struct turn *turn) {
  struct worker workers[MOST_WORKERS];
  uint64_t made = 0, longest = 0;
  open_all(turn->kind);
  uint64_t began = start(turn, workers);
  for (unsigned n = 0; n < turn->workers; n++) {
    pthread_join(workers[n].thread, NULL);
    made += workers[n].made;
    if (workers[n].longest > longest) longest = workers[n].longest;
  }
  uint64_t took = now() - began;
  pthread_barrier_destroy(&turn->start);
  turn->kind->close();
  printf("%" PRIu64 " transfers in %" PRIu64 " us, longest wait %" PRIu64 " us\n", made, took, longest);
  fflush(stdout);
}

int main(int count, char **words) {
  static const char usage[] = "usage: database zuphinka|list SERVER, with lines `WORKERS MILLISECONDS`";
  char line[LONGEST_LINE];
  struct turn turn = {.kind = count == 3 ? kind_of(words[1]) : NULL};
  if (!turn.kind) fail(usage);
  server = words[2];
  while (fgets(line, sizeof line, stdin)) {
    uint64_t milliseconds;
    if (sscanf(line, "%u %" SCNu64, &turn.workers, &milliseconds) != 2) fail(usage);
    if (turn.workers < 1 || turn.workers > MOST_WORKERS) fail("1 to 256 workers");
    turn.microseconds = milliseconds * 1000;
    play(&turn);
  }
  return 0;
}
