/* A library to preload, which refuses a program allocations.
 *
 *     cc -O1 -shared -fPIC -o refuse.so tests/refuse.c -ldl
 *     REFUSE=N REFUSED=FILE LD_PRELOAD=./refuse.so PROGRAM ..
 *
 * The Nth call of malloc, realloc, aligned_alloc or posix_memalign fails; with N = 0 none does.
 *
 *     REFUSE_SEED=SEED REFUSE_OF=K REFUSED=FILE LD_PRELOAD=./refuse.so PROGRAM ..
 *
 * One in K of these calls fails, by chance; the SEED and a call's number say which.
 *
 * The FILE gets a byte for each call that fails, and isn't made where none does.
 */
#define _GNU_SOURCE
#include <dlfcn.h>
#include <errno.h>
#include <fcntl.h>
#include <stdlib.h>
#include <unistd.h>

static long calls, refused;
static unsigned long seed, one_of;
static const char *mark;

static unsigned long number_of(const char *name) {
  const char *number = getenv(name);
  return number ? strtoul(number, NULL, 10) : 0;
}

__attribute__((constructor)) static void begin(void) {
  refused = number_of("REFUSE");
  seed = number_of("REFUSE_SEED");
  one_of = number_of("REFUSE_OF");
  mark = getenv("REFUSED");
}

/* A number that looks like chance (splitmix64). */
static unsigned long mixed(unsigned long number) {
  number += 0x9e3779b97f4a7c15ul;
  number = (number ^ (number >> 30)) * 0xbf58476d1ce4e5b9ul;
  number = (number ^ (number >> 27)) * 0x94d049bb133111ebul;
  return number ^ (number >> 31);
}

static void note(void) {
  int file = open(mark, O_WRONLY | O_CREAT | O_APPEND, 0600);
  if (write(file, "x", 1) != 1) abort();
  close(file);
}

static int refuses(void) {
  long call = __atomic_add_fetch(&calls, 1, __ATOMIC_SEQ_CST);
  int fails = one_of ? mixed(mixed(seed) + call) % one_of == 0 : call == refused;
  if (fails && mark) note();
  return fails;
}

#define REAL(type, name, ...)       \
  static type (*real)(__VA_ARGS__); \
  if (!real) real = (type (*)(__VA_ARGS__))dlsym(RTLD_NEXT, name)

static void *nothing(void) {
  errno = ENOMEM;
  return NULL;
}

void *malloc(size_t size) {
  REAL(void *, "malloc", size_t);
  return refuses() ? nothing() : real(size);
}

void *realloc(void *block, size_t size) {
  REAL(void *, "realloc", void *, size_t);
  return refuses() ? nothing() : real(block, size);
}

void *aligned_alloc(size_t alignment, size_t size) {
  REAL(void *, "aligned_alloc", size_t, size_t);
  return refuses() ? nothing() : real(alignment, size);
}

int posix_memalign(void **block, size_t alignment, size_t size) {
  REAL(int, "posix_memalign", void **, size_t, size_t);
  return refuses() ? ENOMEM : real(block, alignment, size);
}
