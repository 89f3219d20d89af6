/* Eight threads transfer money between accounts in PostgreSQL, over a pool of four connections. What fails is printed, and tried again.
 *
 *     postgres SERVER SECONDS FOLDER [PORT]
 *
 * SERVER is a connection string of libpq, such as "host=localhost dbname=bank". FOLDER is new, and gets the pool's settings and its journal:
 * `pool check FOLDER/settings.toml FOLDER/segment-*` checks them. With a PORT it serves the pool's metrics at http://127.0.0.1:PORT/metrics. Exits
 * with status 0; or with status 1 if the port is not free, or there is no pool, no table or no sum.
 *
 *     python3 tools/install.py --prefix installed
 *     cc -I installed/include -I "$(pg_config --includedir)" -o postgres bindings/c/examples/postgres.c installed/lib/libzuphinka.a -lpq -pthread
 */
#define _POSIX_C_SOURCE 200809L

#include <arpa/inet.h>
#include <errno.h>
#include <inttypes.h>
#include <libpq-fe.h>
#include <pthread.h>
#include <stdio.h>
#include <stdlib.h>
#include <string.h>
#include <sys/socket.h>
#include <sys/stat.h>
#include <sys/time.h>
#include <time.h>
#include <unistd.h>

#include "zuphinka_pool.h"

enum { WORKERS = 8, ACCOUNTS = 100, PAUSE = 50 /* milliseconds after a failure */ };

static const char settings[] = "maxTotal = 4\ntestOnBorrow = true\nmaxWaitMillis = 5000\n";
static const char tables[] =
    "CREATE TABLE IF NOT EXISTS account (id int PRIMARY KEY, euros int NOT NULL);"
    "CREATE TABLE IF NOT EXISTS transfer (worker int NOT NULL, source int NOT NULL, target int NOT NULL, euros int NOT NULL);"
    "INSERT INTO account SELECT id, 100 FROM generate_series(0, 99) AS id ON CONFLICT DO NOTHING;";

static struct zuphinka_pool *pool;
static const char *server, *folder;
static time_t deadline;

/* ---- connections */

static bool make(void *context, uint64_t id, void **object) {
  PGconn *connection = PQconnectdb(server);
  (void)context, (void)id;
  if (PQstatus(connection) != CONNECTION_OK) {
    fprintf(stderr, "postgres: %s", PQerrorMessage(connection));
    PQfinish(connection);
    return false;
  }
  *object = connection;
  return true;
}

/* An answer shows that the server is there. PQstatus notices only what has already failed. */
static bool validate(void *context, void *object) {
  PGresult *result = PQexec(object, "");
  bool is_answered = PQresultStatus(result) == PGRES_EMPTY_QUERY;
  (void)context;
  PQclear(result);
  return is_answered;
}

static void destroy(void *context, void *object) {
  (void)context;
  PQfinish(object);
}

/* Stores a segment of the journal in a new file. shared_life.c does so that it is complete or absent, also after a crash. */
static bool store(void *context, uint64_t first, const char *text, size_t size) {
  char path[1024];
  int length = snprintf(path, sizeof path, "%s/segment-%020" PRIu64, folder, first);
  FILE *file = length < 0 || (size_t)length >= sizeof path ? NULL : fopen(path, "wx");
  (void)context;
  if (!file) return false;
  bool is_written = fwrite(text, 1, size, file) == size;
  if (fclose(file) == 0 && is_written) return true;
  remove(path);
  return false;
}

/* ---- transfers */

/* Executes commands, or one command with up to three numbers. Returns whether they succeed, and prints why not. */
static bool execute(PGconn *connection, const char *command, int count, const int *numbers) {
  char texts[3][16];
  const char *values[3] = {texts[0], texts[1], texts[2]};
  for (int n = 0; n < count; n++) snprintf(texts[n], sizeof texts[n], "%d", numbers[n]);
  PGresult *result = count ? PQexecParams(connection, command, count, NULL, values, NULL, NULL, 0) : PQexec(connection, command);
  bool is_done = PQresultStatus(result) == PGRES_COMMAND_OK;
  if (!is_done) fprintf(stderr, "postgres: %s", PQresultErrorMessage(result));
  PQclear(result);
  return is_done;
}

/* Transfers a euro in one transaction. */
static bool transfer(PGconn *connection, int worker, int source, int target) {
  static const char note[] = "INSERT INTO transfer VALUES ($1, $2, $3, 1)";
  static const char change[] = "UPDATE account SET euros = euros + $1 WHERE id = $2";
  return execute(connection, "BEGIN", 0, NULL) && execute(connection, note, 3, (int[]){worker, source, target}) &&
         execute(connection, change, 2, (int[]){-1, source}) && execute(connection, change, 2, (int[]){1, target}) &&
         execute(connection, "COMMIT", 0, NULL);
}

static bool is_done(enum zuphinka_pool_error error, const char *call) {
  if (error != ZUPHINKA_POOL_ERROR_NONE) fprintf(stderr, "postgres: %s: %s\n", call, zuphinka_pool_error_text(error));
  return error == ZUPHINKA_POOL_ERROR_NONE;
}

/* Borrows a connection and transfers. A connection over which that failed is not used again: its transaction may be open. */
static bool serve(int worker, int number) {
  struct zuphinka_pool_loan loan;
  /* The second account has the greater id, so that no two transfers wait for each other. */
  int source = number % (ACCOUNTS - 1), target = source + 1 + number % (ACCOUNTS - 1 - source);
  if (!is_done(zuphinka_pool_get(pool, &loan), "borrow")) return false;
  if (transfer(loan.object, worker, source, target)) return is_done(zuphinka_pool_give_back(pool, &loan), "return");
  is_done(zuphinka_pool_invalidate(pool, &loan), "invalidation");
  return false;
}

struct worker {
  pthread_t thread;
  int number, made, failed;
};

static void *work(void *argument) {
  static const struct timespec pause = {.tv_nsec = PAUSE * 1000000L};
  struct worker *worker = argument;
  while (time(NULL) < deadline) {
    if (serve(worker->number, worker->number + WORKERS * (worker->made + worker->failed))) {
      worker->made++;
    } else {
      worker->failed++;
      nanosleep(&pause, NULL);
    }
  }
  return NULL;
}

/* Starts the workers; returns how many there are. */
static int start(struct worker *workers) {
  int started = 0;
  for (; started < WORKERS; started++) {
    workers[started].number = started;
    if (pthread_create(&workers[started].thread, NULL, work, &workers[started]) != 0) break;
  }
  return started;
}

/* ---- metrics */

static bool send_all(int client, const char *text, size_t size) {
  while (size > 0) {
    ssize_t sent = send(client, text, size, MSG_NOSIGNAL);
    if (sent <= 0) return false;
    text += sent;
    size -= (size_t)sent;
  }
  return true;
}

/* Answers a request with the metrics, whatever it asks for. A client that is too slow gets nothing. */
static void answer(int client) {
  static const char form[] = "HTTP/1.1 200 OK\r\nContent-Type: application/openmetrics-text; version=1.0.0; charset=utf-8\r\n"
                             "Content-Length: %zu\r\nConnection: close\r\n\r\n";
  static const struct timeval patience = {.tv_sec = 5};
  static char text[1 << 14];
  const struct zuphinka_pool_named named = {pool, "bank"};
  char head[256], request[4096];
  size_t size = 0;
  setsockopt(client, SOL_SOCKET, SO_RCVTIMEO, &patience, sizeof patience);
  setsockopt(client, SOL_SOCKET, SO_SNDTIMEO, &patience, sizeof patience);
  if (recv(client, request, sizeof request, 0) <= 0) return;
  if (!is_done(zuphinka_pool_metrics(&named, 1, text, sizeof text, &size), "metrics")) return;
  int length = snprintf(head, sizeof head, form, size);
  if (send_all(client, head, (size_t)length)) send_all(client, text, size);
}

/* Answers one client after the other, until the socket is shut down. */
static void *serve_metrics(void *argument) {
  int listener = *(int *)argument;
  for (;;) {
    int client = accept(listener, NULL, NULL);
    if (client >= 0) {
      answer(client);
      close(client);
    } else if (errno != EINTR && errno != ECONNABORTED) {
      return NULL;
    }
  }
}

/* Starts a thread that serves the metrics at a port of this machine, and stores its socket. */
static bool start_metrics(int port, int *listener, pthread_t *thread) {
  const struct sockaddr_in address = {.sin_family = AF_INET, .sin_port = htons((uint16_t)port), .sin_addr.s_addr = htonl(INADDR_LOOPBACK)};
  *listener = socket(AF_INET, SOCK_STREAM, 0);
  bool listens = *listener >= 0 && bind(*listener, (const struct sockaddr *)&address, sizeof address) == 0 && listen(*listener, 16) == 0;
  if (listens && pthread_create(thread, NULL, serve_metrics, listener) == 0) return true;
  perror("metrics");
  return false;
}

/* Ends that thread, which calls the pool no more. */
static void end_metrics(int listener, pthread_t thread) {
  shutdown(listener, SHUT_RDWR);
  pthread_join(thread, NULL);
  close(listener);
}

/* ---- the whole */

/* Makes the folder, and stores the settings beside the journal to come. */
static bool store_settings(void) {
  char path[1024];
  int length = snprintf(path, sizeof path, "%s/settings.toml", folder);
  FILE *file = length < 0 || (size_t)length >= sizeof path || mkdir(folder, 0755) != 0 ? NULL : fopen(path, "wx");
  bool is_written = file && fputs(settings, file) >= 0;
  if (file && fclose(file) == 0 && is_written) return true;
  perror(folder);
  return false;
}

static bool open_pool(void) {
  struct zuphinka_pool_host host = {.size = sizeof host, .make = make, .validate = validate, .destroy = destroy, .store = store};
  return is_done(zuphinka_pool_open(&pool, settings, strlen(settings), &host, ZUPHINKA_POOL_JOURNAL_SEGMENTS), "opening");
}

/* Makes the tables, over a connection of the pool. */
static bool make_tables(void) {
  struct zuphinka_pool_loan loan;
  if (!is_done(zuphinka_pool_get(pool, &loan), "borrow")) return false;
  bool are_made = execute(loan.object, tables, 0, NULL);
  return is_done(zuphinka_pool_give_back(pool, &loan), "return") && are_made;
}

/* Returns what the accounts have in all, or -1. */
static long sum(void) {
  struct zuphinka_pool_loan loan;
  if (!is_done(zuphinka_pool_get(pool, &loan), "borrow")) return -1;
  PGresult *result = PQexec(loan.object, "SELECT sum(euros) FROM account");
  long euros = PQntuples(result) == 1 ? strtol(PQgetvalue(result, 0, 0), NULL, 10) : -1;
  PQclear(result);
  return is_done(zuphinka_pool_give_back(pool, &loan), "return") ? euros : -1;
}

int main(int count, char **words) {
  static struct worker workers[WORKERS];
  struct zuphinka_tally counts;
  int seconds = count == 4 || count == 5 ? atoi(words[2]) : 0, port = count == 5 ? atoi(words[4]) : 0, made = 0, failed = 0, listener;
  pthread_t metrics;
  if (seconds < 1 || port < (count == 5) || port > UINT16_MAX) {
    fprintf(stderr, "usage: postgres SERVER SECONDS FOLDER [PORT]\n");
    return 1;
  }
  server = words[1];
  folder = words[3];
  if (!store_settings() || !open_pool() || !make_tables()) return 1;
  if (port && !start_metrics(port, &listener, &metrics)) return 1;
  deadline = time(NULL) + seconds;
  int started = start(workers);
  for (int n = 0; n < started; n++) {
    pthread_join(workers[n].thread, NULL);
    made += workers[n].made;
    failed += workers[n].failed;
  }
  long euros = sum();
  zuphinka_pool_close(pool);
  zuphinka_pool_counts(pool, &counts);
  printf("%d transfers, %d a second, %d failed\n%ld euros in all\n", made, made / seconds, failed, euros);
  printf("created %" PRIu64 ", destroyed %" PRIu64 ", idle %" PRIu64 ", lent %" PRIu64 "\n", counts.created, counts.destroyed, counts.idle, counts.lent);
  if (port) end_metrics(listener, metrics);
  bool has_ended = is_done(zuphinka_pool_end(pool), "end");
  return has_ended && started == WORKERS && euros >= 0 ? 0 : 1;
}
