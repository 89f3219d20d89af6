/*
 * The native methods of io.github.zuphinka.Core, over the C library of the core. The caller holds the lock of the pool, except where a call begins or
 * goes on: those methods take it, if they are told that the caller does not hold it, and the caller frees it.
 *
 * A reply is one number: the action, the end << 8, flags << 16, and the token of the call's object << 24. A status other than "done" is its negative
 * code. What else a caller may need is in the `struct details` of the pool, until the next call.
 */
#define _GNU_SOURCE
#include <jni.h>
#include <pthread.h>
#include <stdlib.h>

#include "zuphinka_jni.h"

/* What no status of the library says: the pool has other settings; another thread has the lock; the stack is too full. With the last two the caller has
 * not the lock. */
enum { OTHER_SETTINGS = 100, BUSY = 101, TOO_LITTLE_STACK = 102 };

/* How a pool works: which methods of the factory the core asks for, and whether objects may be reclaimed. */
enum { ACTIVATES = 1, VALIDATES = 2, PASSIVATES = 4, RECLAIMS = 8 };

/* All open pools, which nobody has any more when this library is unloaded with the class loader of their classes; and what protects the list. */
static LIST_HEAD(, pool) pools = LIST_HEAD_INITIALIZER(pools);
static pthread_mutex_t lock_of_pools = PTHREAD_MUTEX_INITIALIZER;

/* Notes an open pool. Returns its handle. */
static jlong noted(struct pool *pool) {
  pthread_mutex_lock(&lock_of_pools);
  LIST_INSERT_HEAD(&pools, pool, others);
  pthread_mutex_unlock(&lock_of_pools);
  return (jlong)(intptr_t)pool;
}

/* Has more places for calls in progress. */
static void add_places(struct pool *pool, struct places *places) {
  for (size_t i = 0; i < PLACES; i++) SLIST_INSERT_HEAD(&pool->free, &places->all[i], others);
}

/* Returns whether a place is free for a call in progress: not so if there is no memory for more of them. */
static bool has_place(struct pool *pool) {
  if (!SLIST_EMPTY(&pool->free)) return true;
  struct places *places = malloc(sizeof *places);
  if (!places) return false;
  SLIST_INSERT_HEAD(&pool->more, places, others);
  add_places(pool, places);
  return true;
}

/* Frees a pool. */
static void end(struct pool *pool) {
  pthread_mutex_lock(&lock_of_pools);
  LIST_REMOVE(pool, others);
  pthread_mutex_unlock(&lock_of_pools);
  zuphinka_drop(&pool->core);
  while (!SLIST_EMPTY(&pool->more)) {
    struct places *places = SLIST_FIRST(&pool->more);
    SLIST_REMOVE_HEAD(&pool->more, others);
    free(places);
  }
  free(pool);
}

/* Frees the pools that are left when the library is unloaded. */
JNIEXPORT void JNICALL JNI_OnUnload(JavaVM *machine, void *reserved) {
  (void)machine, (void)reserved;
  while (!LIST_EMPTY(&pools)) end(LIST_FIRST(&pools));
}

/* Opens a pool that works as the flags say, and in which nobody overtakes. A call begins only with so many bytes of the stack left. Returns its handle,
 * or a negative status. */
JNIEXPORT jlong JNICALL Java_io_github_zuphinka_Core_open(JNIEnv *env, jclass class, jbyteArray settings, jint flags, jlong stack) {
  (void)class;
  struct zuphinka_options options = {
      .activates = flags & ACTIVATES, .validates = flags & VALIDATES, .passivates = flags & PASSIVATES};
  jsize length = (*env)->GetArrayLength(env, settings);
  struct pool *pool = calloc(1, sizeof *pool);
  char *text = malloc((size_t)length + 1);
  uint32_t status = ZUPHINKA_STATUS_OUT_OF_MEMORY;
  if (pool && text) {
    (*env)->GetByteArrayRegion(env, settings, 0, length, (jbyte *)text);
    pool->reclaims = flags & RECLAIMS;
    pool->needed_stack = stack;
    add_places(pool, &pool->first);
    status = zuphinka_open_with(&pool->core, text, (size_t)length, &options);
  }
  free(text);
  if (status == ZUPHINKA_STATUS_DONE) return noted(pool);
  free(pool);
  return -(jlong)status;
}

/* Goes on with other settings, and with other flags of whether objects may be reclaimed. Returns a status, and on an error nothing changed. */
JNIEXPORT jint JNICALL Java_io_github_zuphinka_Core_reconfigure(JNIEnv *env, jclass class, jlong handle, jbyteArray settings, jint flags) {
  (void)class;
  jsize length = (*env)->GetArrayLength(env, settings);
  char *text = malloc((size_t)length + 1);
  if (!text) return -(jint)ZUPHINKA_STATUS_OUT_OF_MEMORY;
  (*env)->GetByteArrayRegion(env, settings, 0, length, (jbyte *)text);
  uint32_t status = zuphinka_reconfigure(core_at(handle), text, (size_t)length);
  free(text);
  if (status == ZUPHINKA_STATUS_DONE) pool_at(handle)->reclaims = flags & RECLAIMS;
  look_at_entries(pool_at(handle));
  return -(jint)status;
}

/* Frees a pool. */
JNIEXPORT void JNICALL Java_io_github_zuphinka_Core_drop(JNIEnv *env, jclass class, jlong handle) {
  (void)env, (void)class;
  end(pool_at(handle));
}

/* Returns the details of a pool, which are valid until it is freed; null if there is no memory for the buffer. */
JNIEXPORT jobject JNICALL Java_io_github_zuphinka_Core_details(JNIEnv *env, jclass class, jlong handle) {
  (void)class;
  return (*env)->NewDirectByteBuffer(env, &pool_at(handle)->details, sizeof(struct details));
}

/* Returns the lowest address of the thread's stack; null if the system does not know it. */
static char *lowest_of_stack(void) {
  pthread_attr_t attributes;
  void *lowest = NULL;
  size_t size = 0;
  if (pthread_getattr_np(pthread_self(), &attributes) != 0) return NULL;
  if (pthread_attr_getstack(&attributes, &lowest, &size) != 0) lowest = NULL;
  pthread_attr_destroy(&attributes);
  return lowest;
}

/* Returns how many bytes of its stack the thread has left; any large number if the system does not know it. */
static jlong stack_left(void) {
  static _Thread_local char *lowest;
  if (!lowest) lowest = lowest_of_stack();
  return (jlong)((char *)__builtin_frame_address(0) - lowest);
}

JNIEXPORT jlong JNICALL Java_io_github_zuphinka_Core_stackLeft(JNIEnv *env, jclass class) {
  (void)env, (void)class;
  return stack_left();
}

/* Takes the lock, if no thread has it. Returns whether it did. */
static bool has_taken(struct details *details) {
  uint32_t none = 0;
  return atomic_load_explicit(&details->lock, memory_order_relaxed) == none &&
         atomic_compare_exchange_strong_explicit(&details->lock, &none, 1, memory_order_acquire, memory_order_relaxed);
}

/* Stores the details of effects. */
static void note_details(struct details *details, const struct zuphinka_effects *effects) {
  details->object = effects->number;
  details->ticket = effects->ticket;
  details->until = effects->until;
  details->wake = effects->wake;
}

/* Returns the reply for effects, and stores their details. Work on an object has none. */
static inline jlong reply(struct pool *pool, const struct zuphinka_effects *effects) {
  bool is_work = effects->action >= ZUPHINKA_ACTION_ACTIVATE && effects->action <= ZUPHINKA_ACTION_DESTROY;
  uint64_t flags = note_numbers(pool) | (effects->has_wake ? HAS_WAKE : 0) | (effects->has_until ? HAS_UNTIL : 0);
  if (!is_work || effects->has_wake) note_details(&pool->details, effects);
  return (jlong)((uint64_t)(uintptr_t)effects->object << 24 | flags << 16 | (uint64_t)effects->end << 8 | effects->action);
}

/* Returns the reply of a borrow or a return that is over at once, of which the library stores the object and the end alone. */
static inline jlong reply_at_once(struct pool *pool, const struct zuphinka_effects *effects) {
  uint64_t flags = note_numbers(pool) | AT_ONCE;
  return (jlong)((uint64_t)(uintptr_t)effects->object << 24 | flags << 16 | (uint64_t)effects->end << 8 | ZUPHINKA_ACTION_DONE);
}

/* Returns a time as that of the next step: the greatest so far, since the clock is read without the lock. */
static uint64_t time_of(struct details *details, jlong at) {
  if ((uint64_t)at > details->latest) details->latest = (uint64_t)at;
  return details->latest;
}

/* Begins a call that is for these settings, or for any if their number is 0. If it is in progress then, its place is in the details. */
JNIEXPORT jlong JNICALL Java_io_github_zuphinka_Core_begin(JNIEnv *env, jclass class, jlong handle, jlong at, jlong id, jlong token, jint caller,
                                                           jint kind, jint settings, jboolean is_held) {
  (void)env, (void)class;
  struct pool *pool = pool_at(handle);
  struct details *details = &pool->details;
  if (!is_held && stack_left() < pool->needed_stack) return -TOO_LITTLE_STACK;
  if (!is_held && !has_taken(details)) return -BUSY;
  if (settings && (uint32_t)settings != details->settings) return -OTHER_SETTINGS;
  if (!has_place(pool)) return -(jlong)ZUPHINKA_STATUS_OUT_OF_MEMORY;
  struct zuphinka_start start = {.at = time_of(details, at),
                                 .id = (uint64_t)id,
                                 .object = (void *)(uintptr_t)token,
                                 .caller = (uint32_t)caller,
                                 .kind = (uint32_t)kind};
  struct zuphinka_effects effects;
  struct place *place = SLIST_FIRST(&pool->free);
  details->progress = 0;
  uint32_t status = zuphinka_begin(&pool->core, &start, &place->call, &effects);
  if (status == ZUPHINKA_STATUS_AT_ONCE) return reply_at_once(pool, &effects);
  if (status != ZUPHINKA_STATUS_DONE) return -(jlong)status;
  if (effects.action != ZUPHINKA_ACTION_DONE) {
    SLIST_REMOVE_HEAD(&pool->free, others);
    details->progress = (uint64_t)(uintptr_t)place;
  }
  return reply(pool, &effects);
}

/* Goes on with a call in progress after a report. Its place is free once it is over. */
JNIEXPORT jlong JNICALL Java_io_github_zuphinka_Core_advance(JNIEnv *env, jclass class, jlong handle, jlong progress, jlong at, jlong token,
                                                             jint caller, jint report, jboolean is_held) {
  (void)env, (void)class;
  struct pool *pool = pool_at(handle);
  struct place *place = (struct place *)(intptr_t)progress;
  struct details *details = &pool->details;
  if (!is_held && !has_taken(details)) return -BUSY;
  if (!place) return -(jlong)ZUPHINKA_STATUS_NO_CALL;
  struct zuphinka_event event = {
      .at = time_of(details, at), .object = (void *)(uintptr_t)token, .caller = (uint32_t)caller, .report = (uint32_t)report};
  struct zuphinka_effects effects;
  uint32_t status = zuphinka_advance(&pool->core, &place->call, &event, &effects);
  bool is_at_once = status == ZUPHINKA_STATUS_AT_ONCE;
  if (!is_at_once && status != ZUPHINKA_STATUS_DONE) return -(jlong)status;
  if (is_at_once || effects.action == ZUPHINKA_ACTION_DONE) SLIST_INSERT_HEAD(&pool->free, place, others);
  return is_at_once ? reply_at_once(pool, &effects) : reply(pool, &effects);
}

/* Returns the ticket of the next call to wake, or a negative status. */
JNIEXPORT jlong JNICALL Java_io_github_zuphinka_Core_nextWake(JNIEnv *env, jclass class, jlong handle) {
  (void)env, (void)class;
  uint64_t ticket;
  uint32_t status = zuphinka_next_wake(core_at(handle), &ticket);
  return status == ZUPHINKA_STATUS_DONE ? (jlong)ticket : -(jlong)status;
}

/* Returns how many objects are lent and calls are in progress. */
JNIEXPORT jlong JNICALL Java_io_github_zuphinka_Core_busy(JNIEnv *env, jclass class, jlong handle) {
  (void)env, (void)class;
  struct zuphinka_tally counts = {.lent = 0};
  struct zuphinka_activity activity = {.running = 0};
  zuphinka_counts(core_at(handle), &counts);
  zuphinka_state(core_at(handle), &activity);
  return (jlong)(counts.lent + activity.running);
}

/* Returns whether the object with this id is lent. */
JNIEXPORT jboolean JNICALL Java_io_github_zuphinka_Core_isLent(JNIEnv *env, jclass class, jlong handle, jlong id) {
  (void)env, (void)class;
  bool is_lent = false;
  zuphinka_is_lent(core_at(handle), (uint64_t)id, &is_lent);
  return is_lent;
}

/* Sets for how many milliseconds a waiter is overtaken without a limit, and how often after that. Returns the bound, which is greater while one waits
 * that was overtaken more often. */
JNIEXPORT jlong JNICALL Java_io_github_zuphinka_Core_setOvertakes(JNIEnv *env, jclass class, jlong handle, jlong millis, jlong most) {
  (void)env, (void)class;
  uint64_t bound = (uint64_t)most;
  zuphinka_set_overtakes(core_at(handle), (uint64_t)millis, (uint64_t)most, &bound);
  return (jlong)bound;
}

/* Notes a use of the object with this id at a time, which may be earlier than others. Returns a status. */
JNIEXPORT jint JNICALL Java_io_github_zuphinka_Core_use(JNIEnv *env, jclass class, jlong handle, jlong at, jlong id, jint caller) {
  (void)env, (void)class;
  struct pool *pool = pool_at(handle);
  struct zuphinka_request request = {
      .at = (uint64_t)at, .number = (uint64_t)id, .caller = (uint32_t)caller, .input = ZUPHINKA_INPUT_USE};
  struct zuphinka_reply reply;
  uint32_t status = zuphinka_step(&pool->core, &request, &reply);
  note_numbers(pool);
  return -(jint)status;
}
