/* Threads share connections by a pool, whose journal goes to files.
 *
 *     shared_life SETTINGS FOLDER THREADS ROUNDS
 *
 * Each of THREADS threads borrows a connection ROUNDS times, uses it and returns it, while the main thread maintains the pool. The journal goes
 * to the folder, in files segment-POSITION, each named for the position of its first entry: `pool check SETTINGS FOLDER/segment-*` checks them.
 * Exits with status 0; or with status 1 if a call of the pool or of the system fails, and prints on standard error which one. */
#define _POSIX_C_SOURCE 200809L

#include <fcntl.h>
#include <inttypes.h>
#include <pthread.h>
#include <stdatomic.h>
#include <stdio.h>
#include <stdlib.h>
#include <time.h>
#include <unistd.h>

#include "zuphinka_pool.h"

enum {
  MOST_THREADS = 64,
  PATIENCE = 5000,            /* milliseconds that a thread waits for a connection */
  PAUSE = 10,                 /* milliseconds between two calls of maintenance */
  LONGEST_SETTINGS = 1 << 20, /* bytes, the most that docs/settings.md allows */
};

/* ---- what the pool lends */

struct connection {
  uint64_t id, uses;
};

static bool make(void *folder, uint64_t id, void **object) {
  struct connection *connection = malloc(sizeof *connection);
  (void)folder;
  if (!connection) return false;
  *connection = (struct connection){.id = id};
  *object = connection;
  return true;
}

static void destroy(void *folder, void *object) {
  (void)folder;
  free(object);
}

/* ---- where the journal goes */

static bool write_text(int file, const char *text, size_t size) {
  while (size > 0) {
    ssize_t written = write(file, text, size);
    if (written < 0) return false;
    text += written;
    size -= (size_t)written;
  }
  return fsync(file) == 0;
}

/* Makes the new name of a file permanent. */
static bool sync_folder(const char *folder) {
  int file = open(folder, O_RDONLY | O_DIRECTORY);
  if (file < 0) return false;
  bool is_synced = fsync(file) == 0;
  return close(file) == 0 && is_synced;
}

/* Gives a file its name, unless another file has it, and makes the name permanent. */
static bool name_file(const char *folder, const char *unfinished, const char *finished) {
  if (link(unfinished, finished) != 0) return false;
  if (sync_folder(folder)) return true;
  unlink(finished);
  return false;
}

/* Stores a segment in a file that is complete or absent, also after a crash: it has a name of this process until it is written. It replaces no file
 * of another pool. */
static bool store(void *folder, uint64_t first, const char *text, size_t size) {
  char unfinished[1024], finished[1024];
  int length = snprintf(unfinished, sizeof unfinished, "%s/unfinished-%ld", (const char *)folder, (long)getpid());
  int other = snprintf(finished, sizeof finished, "%s/segment-%020" PRIu64, (const char *)folder, first);
  if (length < 0 || (size_t)length >= sizeof unfinished || other < 0 || (size_t)other >= sizeof finished) return false;
  unlink(unfinished); /* that of a process that crashed may be a segment by another name */
  int file = open(unfinished, O_WRONLY | O_CREAT | O_EXCL, 0644);
  if (file < 0) return false;
  bool is_written = write_text(file, text, size);
  bool is_stored = close(file) == 0 && is_written && name_file(folder, unfinished, finished);
  unlink(unfinished);
  return is_stored;
}

/* ---- threads */

static struct zuphinka_pool *pool;
static uint64_t rounds;
static atomic_int working;
static atomic_bool has_failed;

static bool is_done(enum zuphinka_pool_error error, const char *call) {
  if (error == ZUPHINKA_POOL_ERROR_NONE) return true;
  fprintf(stderr, "shared_life: %s: %s\n", call, zuphinka_pool_error_text(error));
  atomic_store(&has_failed, true);
  return false;
}

/* Borrows a connection, uses it and returns it. */
static bool serve(void) {
  struct zuphinka_pool_loan loan;
  if (!is_done(zuphinka_pool_get_timed(pool, PATIENCE, &loan), "borrow")) return false;
  struct connection *connection = loan.object;
  connection->uses++;
  return is_done(zuphinka_pool_give_back(pool, &loan), "return");
}

static void *work(void *argument) {
  for (uint64_t round = 0; round < rounds && serve(); round++) continue;
  atomic_fetch_sub(&working, 1);
  return argument;
}

/* Starts the threads; returns how many there are. */
static int start(pthread_t *threads, int wanted) {
  int started = 0;
  while (started < wanted) {
    atomic_fetch_add(&working, 1);
    if (pthread_create(&threads[started], NULL, work, NULL) == 0) {
      started++;
    } else {
      atomic_fetch_sub(&working, 1);
      atomic_store(&has_failed, true);
      wanted = started;
    }
  }
  return started;
}

/* Maintains the pool while threads work. */
static void maintain(void) {
  static const struct timespec pause = {.tv_nsec = PAUSE * 1000000L};
  while (atomic_load(&working) > 0 && is_done(zuphinka_pool_maintain(pool, NULL), "maintenance")) nanosleep(&pause, NULL);
}

static bool open_pool(const char *path, char *folder) {
  static char settings[LONGEST_SETTINGS + 1];
  struct zuphinka_pool_host host = {.size = sizeof host, .context = folder, .make = make, .destroy = destroy, .store = store};
  FILE *file = fopen(path, "rb");
  if (!file) return false;
  size_t length = fread(settings, 1, sizeof settings, file);
  bool is_read = !ferror(file) && length <= LONGEST_SETTINGS;
  fclose(file);
  return is_read && is_done(zuphinka_pool_open(&pool, settings, length, &host, ZUPHINKA_POOL_JOURNAL_SEGMENTS), "opening");
}

int main(int count, char **arguments) {
  static pthread_t threads[MOST_THREADS];
  int wanted = count == 5 ? atoi(arguments[3]) : 0;
  if (wanted < 1 || wanted > MOST_THREADS || !open_pool(arguments[1], arguments[2])) {
    fprintf(stderr, "shared_life: no pool\n");
    return 1;
  }
  rounds = strtoull(arguments[4], NULL, 10);
  int started = start(threads, wanted);
  maintain();
  for (int n = 0; n < started; n++) pthread_join(threads[n], NULL);
  bool has_ended = is_done(zuphinka_pool_end(pool), "end");
  return has_ended && !atomic_load(&has_failed) ? 0 : 1;
}
