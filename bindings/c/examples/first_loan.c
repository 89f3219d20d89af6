/* Borrows an object from a pool for threads, uses it and returns it.
 *
 *     first_loan
 *
 * Exits with status 0, or with status 1 if a call of the pool fails. */
#include <stdio.h>

#include "zuphinka_pool.h"

static bool make(void *context, uint64_t id, void **object) {
  (void)context, (void)id;
  *object = tmpfile(); /* connect to your server here */
  return *object != NULL;
}

static void destroy(void *context, void *object) {
  (void)context;
  fclose(object);
}

int main(void) {
  struct zuphinka_pool_host host = {.size = sizeof host, .make = make, .destroy = destroy};
  struct zuphinka_pool *pool;
  struct zuphinka_pool_loan loan;
  if (zuphinka_pool_open(&pool, "maxTotal = 2", 12, &host, ZUPHINKA_POOL_JOURNAL_OFF)) return 1;
  if (zuphinka_pool_get(pool, &loan)) return 1; /* in any thread */
  fputs("hello\n", loan.object);
  if (zuphinka_pool_give_back(pool, &loan)) return 1;
  return zuphinka_pool_end(pool) ? 1 : 0;
}
