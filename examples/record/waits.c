/* What threads wait for without a lock: semaphores, barriers, what is done once. */
#include "recorder.h"
#include <semaphore.h>
#include <time.h>

/* A step that stands behind all that was handed on by an object, hands on by it, or both. */
static void pass(uint64_t at, const volatile void *address, enum object_kind kind, int is_behind, int is_giving) {
  if (!enter()) return;
  struct object *it = take_object(address, kind);
  struct row *row = ordered_row(at, PASS, it->address, 0);
  if (row) {
    uint64_t key = row->key;
    row->puts = is_giving != 0;
    if (is_behind) stand_behind(at, key, &it->released);
    if (is_giving) hand_on(&it->released, key);
  }
  give_object(it);
  leave();
}

/* Who waits for a semaphore stands behind all that posted before, and not behind others that waited. */
static int had(uint64_t at, sem_t *s, int code) {
  if (!code) pass(at, s, SEMAPHORE, 1, 0);
  return code;
}
int sem_wait(sem_t *s) { return had(PLACE, s, REAL(sem_wait)(s)); }
int sem_trywait(sem_t *s) { return had(PLACE, s, REAL(sem_trywait)(s)); }
int sem_timedwait(sem_t *restrict s, const struct timespec *restrict t) {
  return had(PLACE, s, REAL(sem_timedwait)(s, t));
}
int sem_clockwait(sem_t *restrict s, clockid_t c, const struct timespec *restrict t) {
  return had(PLACE, s, REAL(sem_clockwait)(s, c, t));
}
int sem_post(sem_t *s) {
  pass(PLACE, s, SEMAPHORE, 0, 1);
  return REAL(sem_post)(s);
}
int sem_init(sem_t *s, int shared, unsigned value) {
  forget_object(s, SEMAPHORE);
  return REAL(sem_init)(s, shared, value);
}
int sem_destroy(sem_t *s) {
  forget_object(s, SEMAPHORE);
  return REAL(sem_destroy)(s);
}

int pthread_barrier_init(pthread_barrier_t *restrict b, const pthread_barrierattr_t *restrict a, unsigned count) {
  int code = REAL(pthread_barrier_init)(b, a, count);
  if (!code) forget_object(b, BARRIER);
  if (code || !enter()) return code;
  struct object *it = take_object(b, BARRIER);
  it->members = count;
  give_object(it);
  leave();
  return code;
}
int pthread_barrier_destroy(pthread_barrier_t *b) {
  forget_object(b, BARRIER);
  return REAL(pthread_barrier_destroy)(b);
}

/* Of a barrier two generations can be under way at most: one that threads come to, and one that others have yet to
   leave. */
static uint32_t arrives(uint64_t at, pthread_barrier_t *b) {
  if (!enter()) return 0;
  struct object *it = take_object(b, BARRIER);
  uint32_t members = it->members ? it->members : 1, generation = it->arrivals / members % 2;
  struct marks *marks = generation ? &it->other : &it->released;
  if (it->arrivals % members == 0) marks->count = 0;
  it->arrivals++;
  struct row *row = ordered_row(at, PASS, it->address, 0);
  if (row) {
    row->puts = 1;
    hand_on(marks, row->key);
  }
  give_object(it);
  leave();
  return generation;
}
static void departs(uint64_t at, pthread_barrier_t *b, uint32_t generation) {
  if (!enter()) return;
  struct object *it = take_object(b, BARRIER);
  struct row *row = ordered_row(at, PASS, it->address, 0);
  if (row) stand_behind(at, row->key, generation ? &it->other : &it->released);
  give_object(it);
  leave();
}
int pthread_barrier_wait(pthread_barrier_t *b) {
  uint32_t generation = arrives(PLACE, b);
  int code = REAL(pthread_barrier_wait)(b);
  departs(PLACE, b, generation);
  return code;
}

/* Who passes a `once` stands behind the end of the function, which is handed on before anyone else may pass. */
static __thread pthread_once_t *once_now;
static void done_once(void) {
  pthread_once_t *it = once_now;
  void (*body)(void) = me->once;
  body();
  pass(PLACE, it, ONCE, 0, 1);
}
int pthread_once(pthread_once_t *o, void (*body)(void)) {
  if (!me) return REAL(pthread_once)(o, body);
  pthread_once_t *before = once_now;
  void (*body_before)(void) = me->once;
  once_now = o;
  me->once = body;
  int code = REAL(pthread_once)(o, done_once);
  once_now = before;
  me->once = body_before;
  if (!code) pass(PLACE, o, ONCE, 1, 0);
  return code;
}

/* C++'s static locals. The compiler loads the first byte of a guard atomically in front of these calls, and its
   library stores there: so the guard hands on as an atomic store does. */
struct guarded;
int __cxa_guard_acquire(struct guarded *g);
void __cxa_guard_release(struct guarded *g);

int __cxa_guard_acquire(struct guarded *g) {
  int is_first = REAL(__cxa_guard_acquire)(g);
  if (!is_first) pass(PLACE, g, ATOMIC_OBJECT, 1, 0);
  return is_first;
}
void __cxa_guard_release(struct guarded *g) {
  pass(PLACE, g, ATOMIC_OBJECT, 0, 1);
  REAL(__cxa_guard_release)(g);
}
