/* A library to preload, which tells how much memory a program holds.
 *
 *     cc -O1 -shared -fPIC -o held.so bench/held.c -ldl
 *     HELD=FILE LD_PRELOAD=./held.so PROGRAM ..
 *
 * At the program's end the FILE has two numbers: the bytes that it held when it wrote for the last time, and how many of
 * them lay in its largest block. Blocks of less than LEAST_LARGE bytes aren't looked for there. For programs of one thread.
 */
#define _GNU_SOURCE
#include <dlfcn.h>
#include <malloc.h>
#include <stdio.h>
#include <stdlib.h>
#include <unistd.h>

enum { LEAST_LARGE = 1 << 16, MOST_LARGE = 256 };

static struct {
  void *start;
  size_t size;
} large[MOST_LARGE];
static size_t held, held_at_write, largest_at_write;

static size_t largest(void) {
  size_t most = 0;
  for (int i = 0; i < MOST_LARGE; i++)
    if (large[i].size > most) most = large[i].size;
  return most;
}

static void note(void *old, void *new, size_t size) {
  for (int i = 0; i < MOST_LARGE; i++)
    if (large[i].start == old) {
      large[i].start = new;
      large[i].size = size;
      return;
    }
  abort();
}

static void *gained(void *block) {
  size_t size = malloc_usable_size(block);
  held += size;
  if (size >= LEAST_LARGE) note(NULL, block, size);
  return block;
}

static void lost(void *block) {
  size_t size = malloc_usable_size(block);
  held -= size;
  if (size >= LEAST_LARGE) note(block, NULL, 0);
}

#define REAL(type, name, ...)       \
  static type (*real)(__VA_ARGS__); \
  if (!real) real = (type (*)(__VA_ARGS__))dlsym(RTLD_NEXT, name)

void *malloc(size_t size) {
  REAL(void *, "malloc", size_t);
  return gained(real(size));
}

void *calloc(size_t number, size_t size) {
  REAL(void *, "calloc", size_t, size_t);
  return gained(real(number, size));
}

void *realloc(void *block, size_t size) {
  REAL(void *, "realloc", void *, size_t);
  lost(block);
  void *moved = real(block, size);
  return gained(moved || !size ? moved : block), moved;
}

void *aligned_alloc(size_t alignment, size_t size) {
  REAL(void *, "aligned_alloc", size_t, size_t);
  return gained(real(alignment, size));
}

int posix_memalign(void **block, size_t alignment, size_t size) {
  REAL(int, "posix_memalign", void **, size_t, size_t);
  int fault = real(block, alignment, size);
  if (!fault) gained(*block);
  return fault;
}

void free(void *block) {
  REAL(void, "free", void *);
  lost(block);
  real(block);
}

ssize_t write(int file, const void *bytes, size_t count) {
  REAL(ssize_t, "write", int, const void *, size_t);
  held_at_write = held;
  largest_at_write = largest();
  return real(file, bytes, count);
}

static void tell(void) {
  FILE *file = fopen(getenv("HELD"), "w");
  if (!file) return;
  size_t at_write = held_at_write, in_largest = largest_at_write;
  fprintf(file, "%zu %zu\n", at_write, in_largest);
  fclose(file);
}

/* Some programs end by this call, and so by no destructor. */
void _exit(int status) {
  void (*real)(int) = (void (*)(int))dlsym(RTLD_NEXT, "_exit");
  tell();
  real(status);
  __builtin_unreachable();
}

/* The others end here. */
__attribute__((destructor)) static void tell_at_end(void) { tell(); }
