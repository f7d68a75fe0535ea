/* The threads of C11's <threads.h>. In glibc each thing of theirs is one of pthreads, and is recorded as that. */
#include "recorder.h"
#include <errno.h>
#include <stdint.h>
#include <threads.h>

struct start { thrd_start_t body; void *argument; };

static int answer(int code) {
  if (!code) return thrd_success;
  return code == EBUSY ? thrd_busy : code == ETIMEDOUT ? thrd_timedout : code == ENOMEM ? thrd_nomem : thrd_error;
}
static pthread_mutex_t *mutex(mtx_t *m) { return (pthread_mutex_t *)(void *)m; }
static pthread_cond_t *condition(cnd_t *c) { return (pthread_cond_t *)(void *)c; }

static void *body(void *argument) {
  struct start it = *(struct start *)argument;
  return (void *)(intptr_t)it.body(it.argument);
}
int thrd_create(thrd_t *t, thrd_start_t f, void *argument) {
  struct start *it = fresh(sizeof *it);
  if (!it) return thrd_nomem;
  *it = (struct start){f, argument};
  int code = pthread_create(t, 0, body, it);
  return code == EAGAIN ? thrd_nomem : answer(code);
}
int thrd_join(thrd_t t, int *r) {
  void *got = 0;
  int code = pthread_join(t, &got);
  if (!code && r) *r = (int)(intptr_t)got;
  return answer(code);
}
_Noreturn void thrd_exit(int r) { pthread_exit((void *)(intptr_t)r); }
int mtx_lock(mtx_t *m) { return answer(pthread_mutex_lock(mutex(m))); }
int mtx_trylock(mtx_t *m) { return answer(pthread_mutex_trylock(mutex(m))); }
int mtx_timedlock(mtx_t *restrict m, const struct timespec *restrict t) {
  return answer(pthread_mutex_timedlock(mutex(m), t));
}
int mtx_unlock(mtx_t *m) { return answer(pthread_mutex_unlock(mutex(m))); }
int cnd_wait(cnd_t *c, mtx_t *m) { return answer(pthread_cond_wait(condition(c), mutex(m))); }
int cnd_timedwait(cnd_t *restrict c, mtx_t *restrict m, const struct timespec *restrict t) {
  return answer(pthread_cond_timedwait(condition(c), mutex(m), t));
}
void call_once(once_flag *o, void (*f)(void)) { pthread_once((pthread_once_t *)(void *)o, f); }
