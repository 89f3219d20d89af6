/* A library to preload, which measures for how long the threads of a program work.
 *
 *     cc -O1 -shared -fPIC -o worked.so bench/worked.c -ldl
 *     WORKED=FILE LD_PRELOAD=./worked.so PROGRAM ..
 *
 * The FILE gets one number: the seconds from the moment at which the first thread was asked for to that at which the last one ended. What
 * the main thread does before and after them is left out. The number is written as a thread ends, since a program may end without its exit handlers.
 */
#define _GNU_SOURCE
#include <dlfcn.h>
#include <pthread.h>
#include <stdio.h>
#include <stdlib.h>
#include <time.h>

struct work {
  void *(*run)(void *);
  void *argument;
};

static pthread_mutex_t lock = PTHREAD_MUTEX_INITIALIZER;
static double first;

static double now(void) {
  struct timespec time;
  clock_gettime(CLOCK_MONOTONIC, &time);
  return (double)time.tv_sec + (double)time.tv_nsec / 1e9;
}

static void tell(double end) {
  const char *path = getenv("WORKED");
  FILE *file = path ? fopen(path, "w") : NULL;
  if (!file) abort();
  fprintf(file, "%.9f\n", end - first);
  if (fclose(file)) abort();
}

static void *timed(void *given) {
  struct work work = *(struct work *)given;
  free(given);
  void *result = work.run(work.argument);
  pthread_mutex_lock(&lock);
  tell(now());
  pthread_mutex_unlock(&lock);
  return result;
}

int pthread_create(pthread_t *thread, const pthread_attr_t *attributes, void *(*run)(void *), void *argument) {
  static int (*real)(pthread_t *, const pthread_attr_t *, void *(*)(void *), void *);
  pthread_mutex_lock(&lock);
  if (!real) real = (int (*)(pthread_t *, const pthread_attr_t *, void *(*)(void *), void *))dlsym(RTLD_NEXT, "pthread_create");
  if (first == 0) first = now();
  pthread_mutex_unlock(&lock);
  struct work *work = malloc(sizeof *work);
  if (!work) abort();
  *work = (struct work){run, argument};
  int status = real(thread, attributes, timed, work);
  if (status) free(work);
  return status;
}
