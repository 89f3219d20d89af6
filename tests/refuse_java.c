/* The native methods of io.github.zuphinka.Refusal, and the allocators of a native library of io.github.zuphinka.Core that is linked with
 *
 *     -Wl,--wrap=malloc,--wrap=calloc,--wrap=realloc,--wrap=free,--wrap=zuphinka_is_lent
 *
 * so that the allocations of this library alone can fail, and none of the virtual machine. When it is unloaded, it appends a line to the file that the
 * environment names by HELD: how many of its allocations were not freed. It also counts how often the core is asked whether an object is lent.
 */
#include <jni.h>
#include <stdio.h>
#include <stdlib.h>
#include <unistd.h>

#include "zuphinka.h"

void *__real_malloc(size_t size);
void *__real_calloc(size_t count, size_t size);
void *__real_realloc(void *block, size_t size);
void __real_free(void *block);
uint32_t __real_zuphinka_is_lent(struct zuphinka *pool, uint64_t id, bool *is_lent);

/* The number of allocations up to the one that fails; 0: none does. */
static jlong left;

static jlong held, questions;

static int refuses(void) { return left > 0 && --left == 0; }

static void *gained(void *block) {
  held += block != NULL;
  return block;
}

void *__wrap_malloc(size_t size) { return refuses() ? NULL : gained(__real_malloc(size)); }

void *__wrap_calloc(size_t count, size_t size) { return refuses() ? NULL : gained(__real_calloc(count, size)); }

void *__wrap_realloc(void *block, size_t size) {
  if (refuses()) return NULL;
  return block ? __real_realloc(block, size) : gained(__real_realloc(block, size));
}

void __wrap_free(void *block) {
  held -= block != NULL;
  __real_free(block);
}

uint32_t __wrap_zuphinka_is_lent(struct zuphinka *pool, uint64_t id, bool *is_lent) {
  questions++;
  return __real_zuphinka_is_lent(pool, id, is_lent);
}

__attribute__((destructor)) static void tell_held(void) {
  const char *path = getenv("HELD");
  FILE *file = path ? fopen(path, "a") : NULL;
  if (!file) return;
  fprintf(file, "%ld\n", (long)held);
  fclose(file);
}

JNIEXPORT void JNICALL Java_io_github_zuphinka_Refusal_refuse(JNIEnv *env, jclass class, jlong number) {
  (void)env, (void)class;
  left = number;
}

JNIEXPORT jboolean JNICALL Java_io_github_zuphinka_Refusal_isPending(JNIEnv *env, jclass class) {
  (void)env, (void)class;
  return left > 0;
}

JNIEXPORT jlong JNICALL Java_io_github_zuphinka_Refusal_questions(JNIEnv *env, jclass class) {
  (void)env, (void)class;
  return questions;
}

JNIEXPORT jboolean JNICALL Java_io_github_zuphinka_Refusal_enter(JNIEnv *env, jclass class, jbyteArray folder) {
  (void)class;
  jbyte *path = (*env)->GetByteArrayElements(env, folder, NULL);
  if (!path) return JNI_FALSE;
  jboolean is_there = chdir((const char *)path) == 0;
  (*env)->ReleaseByteArrayElements(env, folder, path, JNI_ABORT);
  return is_there;
}
