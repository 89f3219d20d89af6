/* A library to preload, which counts what a program asks of the system.
 *
 *     cc -O1 -shared -fPIC -o count.so tests/count.c -ldl
 *     COUNTED=FILE LD_PRELOAD=./count.so PROGRAM ..
 *
 * When the program has ended, by exit or _exit, the FILE has a line 'NAME NUMBER' for each of:
 *
 * - allocations, the calls of malloc, realloc, aligned_alloc and posix_memalign;
 * - most, the most bytes that were held at one time, as malloc_usable_size tells them;
 * - opened, the files that were opened by a relative path;
 * - reads, from other files than standard error, and of them those that answered no bytes (ends), an error (unread), and that
 *   came after the last write to standard output (late); room, the least room that one had;
 * - read and written, the bytes of all reads, and those of all writes to standard output; and writes, how many these were.
 *
 * Where a program has several threads, `most` may miss a moment at which two of them took memory at once.
 */
#define _GNU_SOURCE
#include <dlfcn.h>
#include <fcntl.h>
#include <malloc.h>
#include <stdarg.h>
#include <stdio.h>
#include <stdlib.h>
#include <unistd.h>

static struct {
  _Atomic long allocations, most, opened, reads, ends, unread, late, room, read, writes, written;
} counted = {.room = 1L << 62};
static _Atomic long held;

#define REAL(type, name, ...)       \
  static type (*real)(__VA_ARGS__); \
  if (!real) real = (type (*)(__VA_ARGS__))dlsym(RTLD_NEXT, name)

static void *gained(void *block) {
  counted.allocations++;
  held += malloc_usable_size(block);
  if (held > counted.most) counted.most = held;
  return block;
}

void *malloc(size_t size) {
  REAL(void *, "malloc", size_t);
  return gained(real(size));
}

void *realloc(void *block, size_t size) {
  REAL(void *, "realloc", void *, size_t);
  long before = malloc_usable_size(block);
  void *moved = real(block, size);
  if (moved || !size) held -= before;
  return gained(moved);
}

void *aligned_alloc(size_t alignment, size_t size) {
  REAL(void *, "aligned_alloc", size_t, size_t);
  return gained(real(alignment, size));
}

int posix_memalign(void **block, size_t alignment, size_t size) {
  REAL(int, "posix_memalign", void **, size_t, size_t);
  int refused = real(block, alignment, size);
  gained(refused ? NULL : *block);
  return refused;
}

void free(void *block) {
  REAL(void, "free", void *);
  held -= malloc_usable_size(block);
  real(block);
}

static int count_open(int file, const char *path) {
  if (file >= 0 && path[0] != '/') counted.opened++;
  return file;
}

int open(const char *path, int flags, ...) {
  REAL(int, "open", const char *, int, ...);
  va_list more;
  va_start(more, flags);
  int file = real(path, flags, va_arg(more, mode_t));
  va_end(more);
  return count_open(file, path);
}

int openat(int folder, const char *path, int flags, ...) {
  REAL(int, "openat", int, const char *, int, ...);
  va_list more;
  va_start(more, flags);
  int file = real(folder, path, flags, va_arg(more, mode_t));
  va_end(more);
  return count_open(file, path);
}

static ssize_t count_read(ssize_t count, size_t room) {
  counted.reads++;
  counted.late++;
  if (count == 0) counted.ends++;
  if (count < 0) counted.unread++;
  if (count > 0) counted.read += count;
  if ((long)room < counted.room) counted.room = room;
  return count;
}

ssize_t read(int file, void *bytes, size_t room) {
  REAL(ssize_t, "read", int, void *, size_t);
  return count_read(real(file, bytes, room), room);
}

ssize_t pread(int file, void *bytes, size_t room, off_t place) {
  REAL(ssize_t, "pread", int, void *, size_t, off_t);
  return count_read(real(file, bytes, room, place), room);
}

ssize_t write(int file, const void *bytes, size_t size) {
  REAL(ssize_t, "write", int, const void *, size_t);
  ssize_t count = real(file, bytes, size);
  if (file == STDOUT_FILENO) {
    counted.writes++;
    counted.late = 0;
    if (count > 0) counted.written += count;
  }
  return count;
}

#define TELL(name) fprintf(file, #name " %ld\n", told.name)

/* The destructors run at exit. */
__attribute__((destructor)) static void tell(void) {
  typeof(counted) told = counted;
  const char *path = getenv("COUNTED");
  FILE *file = path ? fopen(path, "w") : NULL;
  if (!file) return;
  TELL(allocations);
  TELL(most);
  TELL(opened);
  TELL(reads);
  TELL(ends);
  TELL(unread);
  TELL(late);
  TELL(room);
  TELL(read);
  TELL(writes);
  TELL(written);
  fclose(file);
}

/* A program that ends by this call runs no destructor. */
void _exit(int status) {
  REAL(void, "_exit", int);
  tell();
  real(status);
  __builtin_unreachable();
}
