/* Locks of one holder, reader-writer locks, and conditions. A lock is had before its row is made, and its release has
   its row before it is given back. */
#include "recorder.h"
#include <errno.h>
#include <time.h>

/* A lock that has no number in a trace hands on by cells. */
static void lock_row(uint64_t at, struct object *it, enum kind kind, enum held held) {
  int is_number = is_event(it);
  struct row *row = ordered_row(at, is_number ? kind : PASS, it->address, 0);
  if (!row) return;
  row->lock = (uint16_t)(it->number < LOCKS ? it->number : 0);
  row->held = it->number < LOCKS ? held : NO_LOCK;
  if (is_number) return;
  uint64_t key = row->key;
  row->puts = 1;
  if (kind == RELEASE) hand_on(&it->released, key);
  if (kind == ACQUIRE) stand_behind(at, key, &it->released);
}

/* A thread that takes a recursive lock again does no step. */
void lock_taken(uint64_t at, const volatile void *lock, enum object_kind kind, int depth) {
  if (!enter()) return;
  struct object *it = take_object(lock, kind);
  if (it->holder == me->number) {
    it->depth += depth;
  } else {
    it->holder = me->number;
    it->depth = depth;
    lock_row(at, it, ACQUIRE, TAKES);
  }
  give_object(it);
  leave();
}

/* How often the thread had it, where it gives it up as a whole; a lock that another thread has isn't given back. */
int lock_given(uint64_t at, const volatile void *lock, enum object_kind kind, int is_whole) {
  if (!enter()) return 1;
  struct object *it = take_object(lock, kind);
  int depth = it->depth;
  if (it->holder == me->number && (is_whole || --it->depth == 0)) {
    it->holder = -1;
    lock_row(at, it, RELEASE, GIVES);
  }
  give_object(it);
  leave();
  return depth;
}

/* A mutex whose holder died is had all the same. */
static int had(int code) { return !code || code == EOWNERDEAD; }
static int mutex_taken(uint64_t at, pthread_mutex_t *m, int code) {
  if (had(code)) lock_taken(at, m, MUTEX, 1);
  return code;
}

int pthread_mutex_lock(pthread_mutex_t *m) { return mutex_taken(PLACE, m, REAL(pthread_mutex_lock)(m)); }
int pthread_mutex_trylock(pthread_mutex_t *m) { return mutex_taken(PLACE, m, REAL(pthread_mutex_trylock)(m)); }
int pthread_mutex_timedlock(pthread_mutex_t *restrict m, const struct timespec *restrict t) {
  return mutex_taken(PLACE, m, REAL(pthread_mutex_timedlock)(m, t));
}
int pthread_mutex_clocklock(pthread_mutex_t *restrict m, clockid_t c, const struct timespec *restrict t) {
  return mutex_taken(PLACE, m, REAL(pthread_mutex_clocklock)(m, c, t));
}
int pthread_mutex_unlock(pthread_mutex_t *m) {
  lock_given(PLACE, m, MUTEX, 0);
  return REAL(pthread_mutex_unlock)(m);
}
int pthread_mutex_init(pthread_mutex_t *m, const pthread_mutexattr_t *a) {
  forget_object(m, MUTEX);
  return REAL(pthread_mutex_init)(m, a);
}
int pthread_mutex_destroy(pthread_mutex_t *m) {
  int code = REAL(pthread_mutex_destroy)(m);
  if (!code) forget_object(m, MUTEX);
  return code;
}

static int spin_taken(uint64_t at, pthread_spinlock_t *l, int code) {
  if (!code) lock_taken(at, l, SPIN, 1);
  return code;
}
int pthread_spin_lock(pthread_spinlock_t *l) { return spin_taken(PLACE, l, REAL(pthread_spin_lock)(l)); }
int pthread_spin_trylock(pthread_spinlock_t *l) { return spin_taken(PLACE, l, REAL(pthread_spin_trylock)(l)); }
int pthread_spin_unlock(pthread_spinlock_t *l) {
  lock_given(PLACE, l, SPIN, 0);
  return REAL(pthread_spin_unlock)(l);
}
int pthread_spin_init(pthread_spinlock_t *l, int shared) {
  forget_object(l, SPIN);
  return REAL(pthread_spin_init)(l, shared);
}
int pthread_spin_destroy(pthread_spinlock_t *l) {
  forget_object(l, SPIN);
  return REAL(pthread_spin_destroy)(l);
}

/* A reader stands behind the last writer alone; a writer behind it and behind all readers since. */
static int shared_taken(uint64_t at, pthread_rwlock_t *l, int is_writer, int code) {
  if (code || !enter()) return code;
  struct object *it = take_object(l, READERS_WRITER);
  struct row *row = ordered_row(at, PASS, it->address, 0);
  if (row) {
    uint64_t key = row->key;
    row->lock = (uint16_t)(it->number % LOCKS);
    row->held = it->number >= LOCKS ? NO_LOCK : is_writer ? TAKES : TAKES_TO_READ;
    stand_behind(at, key, &it->released);
    if (is_writer) stand_behind(at, key, &it->other);
  }
  if (is_writer) {
    it->holder = me->number;
    it->other.count = 0;
  }
  give_object(it);
  leave();
  return code;
}

static void shared_given(uint64_t at, pthread_rwlock_t *l) {
  if (!enter()) return;
  struct object *it = take_object(l, READERS_WRITER);
  struct row *row = ordered_row(at, PASS, it->address, 0);
  if (row) {
    row->puts = 1;
    row->lock = (uint16_t)(it->number % LOCKS);
    row->held = it->number < LOCKS ? GIVES : NO_LOCK;
    hand_on(it->holder == me->number ? &it->released : &it->other, row->key);
  }
  if (it->holder == me->number) it->holder = -1;
  give_object(it);
  leave();
}

int pthread_rwlock_rdlock(pthread_rwlock_t *l) {
  return shared_taken(PLACE, l, 0, REAL(pthread_rwlock_rdlock)(l));
}
int pthread_rwlock_tryrdlock(pthread_rwlock_t *l) {
  return shared_taken(PLACE, l, 0, REAL(pthread_rwlock_tryrdlock)(l));
}
int pthread_rwlock_timedrdlock(pthread_rwlock_t *restrict l, const struct timespec *restrict t) {
  return shared_taken(PLACE, l, 0, REAL(pthread_rwlock_timedrdlock)(l, t));
}
int pthread_rwlock_clockrdlock(pthread_rwlock_t *restrict l, clockid_t c, const struct timespec *restrict t) {
  return shared_taken(PLACE, l, 0, REAL(pthread_rwlock_clockrdlock)(l, c, t));
}
int pthread_rwlock_wrlock(pthread_rwlock_t *l) {
  return shared_taken(PLACE, l, 1, REAL(pthread_rwlock_wrlock)(l));
}
int pthread_rwlock_trywrlock(pthread_rwlock_t *l) {
  return shared_taken(PLACE, l, 1, REAL(pthread_rwlock_trywrlock)(l));
}
int pthread_rwlock_timedwrlock(pthread_rwlock_t *restrict l, const struct timespec *restrict t) {
  return shared_taken(PLACE, l, 1, REAL(pthread_rwlock_timedwrlock)(l, t));
}
int pthread_rwlock_clockwrlock(pthread_rwlock_t *restrict l, clockid_t c, const struct timespec *restrict t) {
  return shared_taken(PLACE, l, 1, REAL(pthread_rwlock_clockwrlock)(l, c, t));
}
int pthread_rwlock_unlock(pthread_rwlock_t *l) {
  shared_given(PLACE, l);
  return REAL(pthread_rwlock_unlock)(l);
}
int pthread_rwlock_init(pthread_rwlock_t *restrict l, const pthread_rwlockattr_t *restrict a) {
  forget_object(l, READERS_WRITER);
  return REAL(pthread_rwlock_init)(l, a);
}
int pthread_rwlock_destroy(pthread_rwlock_t *l) {
  forget_object(l, READERS_WRITER);
  return REAL(pthread_rwlock_destroy)(l);
}

/* A thread that waits gives the mutex up and takes it again, also where it is cancelled while it waits. A signal of a
   condition orders nothing. */
struct wait { pthread_mutex_t *mutex; uint64_t at; int depth; };
static void wait_over(void *argument) {
  struct wait *it = argument;
  lock_taken(it->at, it->mutex, MUTEX, it->depth);
}
#define WAITS(CALL) \
  struct wait it = {m, PLACE, lock_given(PLACE, m, MUTEX, 1)}; \
  int code = 0; \
  pthread_cleanup_push(wait_over, &it); \
  code = CALL; \
  pthread_cleanup_pop(1); \
  return code;
int pthread_cond_wait(pthread_cond_t *restrict c, pthread_mutex_t *restrict m) { WAITS(REAL(pthread_cond_wait)(c, m)) }
int pthread_cond_timedwait(pthread_cond_t *restrict c, pthread_mutex_t *restrict m, const struct timespec *restrict t) {
  WAITS(REAL(pthread_cond_timedwait)(c, m, t))
}
int pthread_cond_clockwait(pthread_cond_t *restrict c, pthread_mutex_t *restrict m, clockid_t k,
                           const struct timespec *restrict t) {
  WAITS(REAL(pthread_cond_clockwait)(c, m, k, t))
}
