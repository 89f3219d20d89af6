/* The native methods of io.github.zuphinka.Core for the counts of a pool, and for its journal. The caller holds the lock of the pool. */
#include <stdlib.h>

#include "zuphinka_jni.h"

/* The most bytes of a part of a text: at least those of a line. A test may choose another number. */
#ifndef ZUPHINKA_JNI_LONGEST_PART
#define ZUPHINKA_JNI_LONGEST_PART 67108864
#endif

/* The bytes of a part at first, which are doubled as it grows. */
enum { SHORT_PART = 65536 };

typedef uint32_t line_printer(struct zuphinka *, uint64_t, char *, size_t, uint64_t *);

/* Stores the counts in their order in `struct zuphinka_tally`, then the entries since the base, and the room of the journal. */
JNIEXPORT void JNICALL Java_io_github_zuphinka_Core_counts(JNIEnv *env, jclass class, jlong handle, jlongArray to) {
  (void)class;
  struct zuphinka_tally counts;
  uint64_t steps = 0, room = 0;
  zuphinka_counts(core_at(handle), &counts);
  zuphinka_steps(core_at(handle), &steps);
  zuphinka_room(core_at(handle), &room);
  jlong numbers[] = {(jlong)counts.steps,     (jlong)counts.idle,    (jlong)counts.lent,      (jlong)counts.reserved, (jlong)counts.created,
                     (jlong)counts.destroyed, (jlong)counts.evicted, (jlong)counts.reclaimed, (jlong)steps,           (jlong)room};
  (*env)->SetLongArrayRegion(env, to, 0, sizeof numbers / sizeof *numbers, numbers);
}

struct part {
  char *bytes;
  size_t length, room;
};

/* How the lines of a printer end: all are appended, the part is full, or there is no memory. */
enum ending { COMPLETE, FULL, NO_MEMORY };

/* Makes room for a line in a part that is not full, and returns whether there was memory for it. */
static int has_room(struct part *part) {
  if (part->room - part->length >= ZUPHINKA_LONGEST_LINE) return 1;
  size_t doubled = part->room ? 2 * part->room : SHORT_PART;
  size_t room = doubled < ZUPHINKA_JNI_LONGEST_PART ? doubled : ZUPHINKA_JNI_LONGEST_PART;
  char *bytes = realloc(part->bytes, room);
  if (!bytes) return 0;
  part->bytes = bytes;
  part->room = room;
  return 1;
}

/* Appends the lines of a printer from a position on, which moves on with them. */
static enum ending append_lines(line_printer *print, struct zuphinka *pool, jlong *position, struct part *part) {
  for (;; ++*position) {
    if (ZUPHINKA_JNI_LONGEST_PART - part->length < ZUPHINKA_LONGEST_LINE) return FULL;
    if (!has_room(part)) return NO_MEMORY;
    uint64_t size;
    uint32_t status = print(pool, (uint64_t)*position, part->bytes + part->length, part->room - part->length, &size);
    if (status == ZUPHINKA_STATUS_NO_ENTRY) return COMPLETE;
    if (status != ZUPHINKA_STATUS_DONE) return NO_MEMORY;
    part->length += size;
  }
}

/*
 * Returns the next part of the text of the journal, which is empty after the last one; null if there is no memory. The two numbers are how many lines
 * of its base, and how many entries since that, the parts before have. They move on with it.
 */
JNIEXPORT jbyteArray JNICALL Java_io_github_zuphinka_Core_part(JNIEnv *env, jclass class, jlong handle, jlongArray numbers) {
  (void)class;
  struct part part = {0};
  jbyteArray bytes = NULL;
  jlong next[2];
  (*env)->GetLongArrayRegion(env, numbers, 0, 2, next);
  enum ending ending = append_lines(zuphinka_base, core_at(handle), &next[0], &part);
  if (ending == COMPLETE) ending = append_lines(zuphinka_line, core_at(handle), &next[1], &part);
  if (ending != NO_MEMORY) {
    bytes = (*env)->NewByteArray(env, (jsize)part.length);
    if (bytes) {
      (*env)->SetByteArrayRegion(env, bytes, 0, (jsize)part.length, (const jbyte *)part.bytes);
      (*env)->SetLongArrayRegion(env, numbers, 0, 2, next);
    }
  }
  free(part.bytes);
  return bytes;
}

/* Cuts the journal. Returns a status. */
JNIEXPORT jint JNICALL Java_io_github_zuphinka_Core_cut(JNIEnv *env, jclass class, jlong handle) {
  (void)env, (void)class;
  uint32_t status = zuphinka_cut(core_at(handle));
  look_at_entries(pool_at(handle));
  return -(jint)status;
}
