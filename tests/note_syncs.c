/* A library to preload, which notes what a program syncs, renames and links.
 *
 *     cc -O1 -shared -fPIC -o note_syncs.so tests/note_syncs.c -ldl
 *     NOTED=FILE LD_PRELOAD=./note_syncs.so PROGRAM ..
 *
 * The FILE gets a line for each call of fsync, rename and link, before the call: `sync PATH SIZE`, with the size that the file has then, and 0 for a
 * folder; `rename FROM TO`; and `link FROM TO`. Paths have at most 4,095 bytes.
 */
#define _GNU_SOURCE
#include <dlfcn.h>
#include <fcntl.h>
#include <limits.h>
#include <stdio.h>
#include <stdlib.h>
#include <sys/stat.h>
#include <unistd.h>

#define REAL(type, name, ...) type (*real)(__VA_ARGS__) = (type (*)(__VA_ARGS__))dlsym(RTLD_NEXT, name)

static void note(const char *line, int length) {
  int file = open(getenv("NOTED"), O_WRONLY | O_CREAT | O_APPEND | O_CLOEXEC, 0600);
  if (length < 0 || write(file, line, (size_t)length) != length) abort();
  close(file);
}

int fsync(int file) {
  REAL(int, "fsync", int);
  char name[64], path[PATH_MAX], line[PATH_MAX + 64];
  snprintf(name, sizeof name, "/proc/self/fd/%d", file);
  ssize_t length = readlink(name, path, sizeof path);
  struct stat found;
  if (length < 0 || fstat(file, &found) != 0) abort();
  long size = S_ISDIR(found.st_mode) ? 0 : (long)found.st_size;
  note(line, snprintf(line, sizeof line, "sync %.*s %ld\n", (int)length, path, size));
  return real(file);
}

int rename(const char *from, const char *to) {
  REAL(int, "rename", const char *, const char *);
  char line[2 * PATH_MAX + 16];
  note(line, snprintf(line, sizeof line, "rename %s %s\n", from, to));
  return real(from, to);
}

int link(const char *from, const char *to) {
  REAL(int, "link", const char *, const char *);
  char line[2 * PATH_MAX + 16];
  note(line, snprintf(line, sizeof line, "link %s %s\n", from, to));
  return real(from, to);
}
