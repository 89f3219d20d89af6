/* A pool that runs for as long as it likes, since its journal is cut.
 *
 *     long_life SETTINGS FOLDER ROUNDS
 *
 * Borrows an object and returns it, ROUNDS times. When the journal has room for few more entries, the program writes it as a segment and cuts
 * it. Each segment is a file segment-POSITION of the folder, named for the position of its first entry: `pool check SETTINGS FOLDER/segment-*`
 * checks them. Exits with status 0; or with status 1 if a call of the pool or of the system fails. */
#include <inttypes.h>
#include <stdio.h>
#include <stdlib.h>

#include "zuphinka.h"

enum {
  /* A round has four entries. Those that close the pool and destroy its objects are outstanding: room for them is set aside. */
  FEW = 16,
  LONGEST_SETTINGS = 1 << 20, /* bytes, the most that docs/settings.md allows */
};

struct object {
  uint64_t id;
};

static uint64_t now; /* in milliseconds; a server asks its clock */

static bool step(struct zuphinka *pool, uint32_t input, uint64_t number, struct object *object, struct zuphinka_reply *reply) {
  struct zuphinka_request request = {.at = now, .number = number, .object = object, .input = input, .outcome = ZUPHINKA_OUTCOME_GOOD};
  uint32_t status = zuphinka_step(pool, &request, reply);
  if (status != ZUPHINKA_STATUS_DONE) fprintf(stderr, "long_life: input %u: %s\n", input, zuphinka_status_text(status));
  return status == ZUPHINKA_STATUS_DONE;
}

/* Returns the object that a borrow is answered: a new one, or the idle one; or null. */
static struct object *object_of(const struct zuphinka_reply *reply) {
  if (reply->answer == ZUPHINKA_ANSWER_TAKE) return reply->object;
  struct object *made = reply->answer == ZUPHINKA_ANSWER_MAKE ? malloc(sizeof *made) : NULL;
  if (made) made->id = reply->number;
  return made;
}

/* Destroys an object, and then reports it. The report frees its place, so that another one may be made. */
static bool end(struct zuphinka *pool, struct object *object) {
  struct zuphinka_reply reply;
  uint64_t id = object->id;
  free(object);
  return step(pool, ZUPHINKA_INPUT_DESTROYED, id, NULL, &reply);
}

/* Borrows an object and returns it. It is then idle, or destroyed if the settings say so. */
static bool lend(struct zuphinka *pool) {
  struct zuphinka_reply reply;
  if (!step(pool, ZUPHINKA_INPUT_BORROW, now, NULL, &reply)) return false;
  struct object *object = object_of(&reply);
  if (!object || !step(pool, ZUPHINKA_INPUT_READY, object->id, NULL, &reply) || reply.answer != ZUPHINKA_ANSWER_LENT) return false;
  now++;
  if (!step(pool, ZUPHINKA_INPUT_RETURN, object->id, NULL, &reply)) return false;
  if (reply.answer == ZUPHINKA_ANSWER_CHECK && !step(pool, ZUPHINKA_INPUT_PARK, object->id, object, &reply)) return false;
  return reply.answer == ZUPHINKA_ANSWER_DESTROY ? end(pool, object) : reply.answer == ZUPHINKA_ANSWER_PARKED;
}

/* Closes the pool, and destroys its idle objects. */
static bool close_all(struct zuphinka *pool) {
  struct zuphinka_reply reply;
  bool goes_on = step(pool, ZUPHINKA_INPUT_CLOSE, 0, NULL, &reply);
  while (goes_on && step(pool, ZUPHINKA_INPUT_CLEAR_NEXT, 0, NULL, &reply) && reply.answer == ZUPHINKA_ANSWER_DESTROY_IDLE)
    goes_on = end(pool, reply.object);
  return goes_on;
}

typedef uint32_t line_function(struct zuphinka *, uint64_t, char *, size_t, uint64_t *);

/* Writes all lines of the base or of the journal. */
static bool write_lines(line_function *line_at, struct zuphinka *pool, FILE *file) {
  char line[ZUPHINKA_LONGEST_LINE];
  uint64_t size;
  for (uint64_t position = 0;; position++) {
    uint32_t status = line_at(pool, position, line, sizeof line, &size);
    if (status != ZUPHINKA_STATUS_DONE) return status == ZUPHINKA_STATUS_NO_ENTRY;
    if (fwrite(line, 1, size, file) != size) return false;
  }
}

/* Writes a segment, and cuts the journal only if all of it is written. Threads that share a pool do this with the lock held. */
static bool cut(struct zuphinka *pool, const char *folder) {
  struct zuphinka_tally counts;
  uint64_t steps;
  char path[1024];
  if (zuphinka_counts(pool, &counts) != ZUPHINKA_STATUS_DONE || zuphinka_steps(pool, &steps) != ZUPHINKA_STATUS_DONE) return false;
  int length = snprintf(path, sizeof path, "%s/segment-%020" PRIu64, folder, counts.steps - steps);
  FILE *file = length > 0 && (size_t)length < sizeof path ? fopen(path, "wbx") : NULL; /* no file of another run */
  if (!file) return false;
  bool written = write_lines(zuphinka_base, pool, file) && write_lines(zuphinka_line, pool, file);
  return fclose(file) == 0 && written && zuphinka_cut(pool) == ZUPHINKA_STATUS_DONE;
}

/* Opens a pool with the settings of a file. */
static bool open_pool(struct zuphinka *pool, const char *path) {
  static char settings[LONGEST_SETTINGS + 1];
  FILE *file = fopen(path, "rb");
  if (!file) return false;
  size_t length = fread(settings, 1, sizeof settings, file);
  bool is_read = !ferror(file) && length <= LONGEST_SETTINGS;
  fclose(file);
  return is_read && zuphinka_open(pool, settings, length) == ZUPHINKA_STATUS_DONE;
}

int main(int count, char **arguments) {
  struct zuphinka pool = {0};
  if (count != 4 || !open_pool(&pool, arguments[1])) {
    fprintf(stderr, "long_life: no pool\n");
    return 1;
  }
  bool goes_on = true;
  for (uint64_t rounds = strtoull(arguments[3], NULL, 10); goes_on && rounds > 0; rounds--) {
    goes_on = (!zuphinka_is_low(&pool, FEW) || cut(&pool, arguments[2])) && lend(&pool);
  }
  goes_on = close_all(&pool) && goes_on && cut(&pool, arguments[2]);
  zuphinka_drop(&pool);
  if (!goes_on) fprintf(stderr, "long_life: ended early\n");
  return goes_on ? 0 : 1;
}
