/* A library to preload, which makes folders unfit for a program's files.
 *
 *     cc -O1 -shared -fPIC -o refuse_folders.so tests/refuse_folders.c -ldl
 *     FULL=FOLDER NOEXEC=FOLDER LD_PRELOAD=./refuse_folders.so PROGRAM ..
 *
 * A write to a file below the folder FULL fails, as on a disk that is full, and no library below the folder NOEXEC is loaded. Each may be left out.
 */
#define _GNU_SOURCE
#include <dlfcn.h>
#include <errno.h>
#include <limits.h>
#include <stdio.h>
#include <stdlib.h>
#include <string.h>
#include <unistd.h>

#define REAL(type, name, ...) type (*real)(__VA_ARGS__) = (type (*)(__VA_ARGS__))dlsym(RTLD_NEXT, name)

static int is_below(const char *path, const char *variable) {
  const char *folder = getenv(variable);
  size_t length = folder ? strlen(folder) : 0;
  return length && strncmp(path, folder, length) == 0 && path[length] == '/';
}

ssize_t write(int file, const void *bytes, size_t size) {
  REAL(ssize_t, "write", int, const void *, size_t);
  char name[64], path[PATH_MAX];
  snprintf(name, sizeof name, "/proc/self/fd/%d", file);
  ssize_t length = readlink(name, path, sizeof path - 1);
  path[length < 0 ? 0 : length] = 0;
  if (!is_below(path, "FULL")) return real(file, bytes, size);
  errno = ENOSPC;
  return -1;
}

void *dlopen(const char *path, int flags) {
  REAL(void *, "dlopen", const char *, int);
  return real(path && is_below(path, "NOEXEC") ? "/refused" : path, flags);
}
