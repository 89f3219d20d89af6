/* The plain life of a connection in a pool: it is made, lent, used, returned and idle, and destroyed at the end.
 *
 *     plain_life SETTINGS
 *
 * Writes the pool's journal before the close to standard output: that of examples/plain-life.script. Exits with status 0; or with status 1
 * if a call of the pool or of the system fails, and prints on standard error which one. */
#include <stdio.h>
#include <stdlib.h>

#include "zuphinka.h"

enum {
  CALLER = 0,
  LONGEST_SETTINGS = 1 << 20, /* bytes, the most that docs/settings.md allows */
};

struct connection {
  uint64_t id;
  int uses;
};

/* Returns the time, in milliseconds. A server asks its clock; here the times are always the same. */
static uint64_t now(void) {
  static const uint64_t times[] = {10, 11, 15, 16};
  static size_t asked;
  return times[asked < 3 ? asked++ : 3];
}

/* Makes a connection; returns null if there is no memory. */
static struct connection *make(uint64_t id) {
  struct connection *made = malloc(sizeof *made);
  if (made) *made = (struct connection){.id = id};
  return made;
}

static void destroy(struct connection *connection) { free(connection); }

/* Takes a step. One that fails, for lack of memory or of room in the journal, changes nothing. */
static bool step(struct zuphinka *pool, struct zuphinka_request request, struct zuphinka_reply *reply) {
  uint32_t status = zuphinka_step(pool, &request, reply);
  if (status != ZUPHINKA_STATUS_DONE) fprintf(stderr, "plain_life: input %u: %s\n", request.input, zuphinka_status_text(status));
  return status == ZUPHINKA_STATUS_DONE;
}

/* Reports what was done to the object with an id. This completes work that was begun, so it never fails. */
static struct zuphinka_reply report(struct zuphinka *pool, uint32_t input, uint64_t id, void *object, uint32_t outcome) {
  struct zuphinka_request request = {.at = now(), .number = id, .object = object, .caller = CALLER, .input = input, .outcome = outcome};
  struct zuphinka_reply reply = {0};
  step(pool, request, &reply);
  return reply;
}

/* Destroys a connection, and then reports it. The report frees its place, so that another one may be made. */
static void end(struct zuphinka *pool, struct connection *connection) {
  uint64_t id = connection->id;
  destroy(connection);
  report(pool, ZUPHINKA_INPUT_DESTROYED, id, NULL, 0);
}

/* Returns a connection of the pool, an idle one or a new one; or null. */
static struct connection *borrow(struct zuphinka *pool) {
  struct zuphinka_reply reply;
  uint64_t began = now();
  if (!step(pool, (struct zuphinka_request){.at = began, .number = began, .caller = CALLER, .input = ZUPHINKA_INPUT_BORROW}, &reply))
    return NULL;
  if (reply.answer != ZUPHINKA_ANSWER_TAKE && reply.answer != ZUPHINKA_ANSWER_MAKE) return NULL;
  struct connection *connection = reply.answer == ZUPHINKA_ANSWER_TAKE ? reply.object : make(reply.number);
  if (!connection) { /* it could not be made, and its place is free again */
    report(pool, ZUPHINKA_INPUT_READY, reply.number, NULL, ZUPHINKA_OUTCOME_MAKE_FAILED);
    return NULL;
  }
  reply = report(pool, ZUPHINKA_INPUT_READY, connection->id, connection, ZUPHINKA_OUTCOME_GOOD);
  if (reply.answer == ZUPHINKA_ANSWER_LENT) return connection;
  end(pool, connection);
  return NULL;
}

/* Returns a connection to the pool, which stores it or has it destroyed. */
static void give_back(struct zuphinka *pool, struct connection *connection) {
  struct zuphinka_reply reply = report(pool, ZUPHINKA_INPUT_RETURN, connection->id, NULL, 0);
  if (reply.answer == ZUPHINKA_ANSWER_CHECK) {
    reply = report(pool, ZUPHINKA_INPUT_PARK, connection->id, connection, ZUPHINKA_OUTCOME_GOOD);
  }
  if (reply.answer == ZUPHINKA_ANSWER_DESTROY) end(pool, connection);
}

/* Closes the pool, and destroys its idle connections. */
static void close_all(struct zuphinka *pool) {
  struct zuphinka_reply reply = {0};
  step(pool, (struct zuphinka_request){.at = now(), .caller = CALLER, .input = ZUPHINKA_INPUT_CLOSE}, &reply);
  while (step(pool, (struct zuphinka_request){.at = now(), .caller = CALLER, .input = ZUPHINKA_INPUT_CLEAR_NEXT}, &reply) &&
         reply.answer == ZUPHINKA_ANSWER_DESTROY_IDLE)
    end(pool, reply.object);
}

/* Writes the journal. */
static bool write_journal(struct zuphinka *pool) {
  char line[ZUPHINKA_LONGEST_LINE];
  uint64_t steps = 0, size = 0;
  if (zuphinka_steps(pool, &steps) != ZUPHINKA_STATUS_DONE) return false;
  for (uint64_t position = 0; position < steps; position++) {
    if (zuphinka_line(pool, position, line, sizeof line, &size) != ZUPHINKA_STATUS_DONE) return false;
    if (fwrite(line, 1, size, stdout) != size) return false;
  }
  return fflush(stdout) == 0;
}

/* Opens a pool with the settings of a file. */
static bool open_pool(struct zuphinka *pool, const char *path) {
  static char settings[LONGEST_SETTINGS + 1];
  FILE *file = fopen(path, "rb");
  if (!file) return false;
  size_t length = fread(settings, 1, sizeof settings, file);
  bool is_read = !ferror(file) && length <= LONGEST_SETTINGS;
  fclose(file);
  return is_read && zuphinka_open(pool, settings, length) == ZUPHINKA_STATUS_DONE;
}

int main(int count, char **arguments) {
  struct zuphinka pool = {0};
  if (count != 2 || !open_pool(&pool, arguments[1])) {
    fprintf(stderr, "plain_life: no pool\n");
    return 1;
  }
  struct connection *connection = borrow(&pool);
  if (connection) {
    connection->uses++;
    give_back(&pool, connection);
  }
  bool written = connection && write_journal(&pool);
  close_all(&pool);
  zuphinka_drop(&pool);
  if (!written) fprintf(stderr, "plain_life: no journal\n");
  return written ? 0 : 1;
}
