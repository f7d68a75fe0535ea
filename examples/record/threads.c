/* Threads: how they start, end and are joined. Each gets a stack of its own, which stays. */
#include "recorder.h"
#include <errno.h>
#include <limits.h>
#include <signal.h>
#include <sys/mman.h>
#include <time.h>
#include <unistd.h>

enum { ROUNDS = PTHREAD_DESTRUCTOR_ITERATIONS, MORE_STACK = 1 << 16 };

/* How a thread starts; `signals` are those that it blocks when it is known here. */
struct start { void *(*body)(void *); void *argument; struct thread *thread; sigset_t signals; };

static pthread_key_t last_key;

/* The destructor of thread-specific data that runs in the last round: behind it the thread does nothing that is
   recorded. */
static void ends(void *argument) {
  struct thread *it = argument;
  if (++it->rounds < ROUNDS) {
    pthread_setspecific(last_key, it);
    return;
  }
  if (enter()) {
    ordered_row(0, ENDS, 0, 0);
    leave();
  }
  sigset_t all;
  sigfillset(&all);
  pthread_sigmask(SIG_BLOCK, &all, 0);
  me = 0;
}
__attribute__((constructor(102))) static void make_key(void) {
  if (!me) return;
  if (pthread_key_create(&last_key, ends)) stop("there is no key of thread-specific data");
  /* main ends as a thread does where it calls pthread_exit */
  pthread_setspecific(last_key, me);
}

static void *body(void *argument) {
  struct start it = *(struct start *)argument;
  me = it.thread;
  me->handle = pthread_self();
  atomic_store(&me->is_started, 1);
  pthread_setspecific(last_key, me);
  pthread_sigmask(SIG_SETMASK, &it.signals, 0);
  return it.body(it.argument);
}

/* The attributes with a stack of our own, and a page below it that no one may touch. */
static int with_stack(pthread_attr_t *with) {
  size_t bytes = 0, page = (size_t)sysconf(_SC_PAGESIZE);
  int code = pthread_attr_getstacksize(with, &bytes);
  if (code) return code;
  bytes = (bytes + MORE_STACK + page - 1) / page * page;
  char *stack = fresh(bytes + page);
  if (!stack || mprotect(stack, page, PROT_NONE)) return EAGAIN;
  return pthread_attr_setstack(with, stack + page, bytes);
}

/* No handler of a signal runs in a thread before it is known. */
static int create(pthread_t *t, const pthread_attr_t *with, struct start *it) {
  sigset_t all;
  sigfillset(&all);
  pthread_sigmask(SIG_SETMASK, &all, &it->signals);
  int code = REAL(pthread_create)(t, with, body, it);
  pthread_sigmask(SIG_SETMASK, &it->signals, 0);
  return code;
}

/* The step that starts a thread is made before it runs. */
static struct start *started(uint64_t at, void *(*f)(void *), void *argument) {
  struct start *it = fresh(sizeof *it);
  struct thread *thread = it ? new_thread() : 0;
  if (!thread || !enter()) return 0;
  *it = (struct start){.body = f, .argument = argument, .thread = thread};
  ordered_row(at, STARTS, (uint64_t)thread->number, 0);
  leave();
  return it;
}

int pthread_create(pthread_t *restrict t, const pthread_attr_t *restrict a, void *(*f)(void *),
                   void *restrict argument) {
  struct start *it = 0;
  if (enter()) {
    leave();
    it = started(PLACE, f, argument);
  }
  if (!it) return REAL(pthread_create)(t, a, f, argument);
  pthread_attr_t with;
  if (a) with = *a;
  else pthread_attr_init(&with);
  int code = with_stack(&with);
  if (!code) code = create(t, &with, it);
  if (!a) pthread_attr_destroy(&with);
  return code;
}

static void joined(uint64_t at, pthread_t t) {
  if (!enter()) return;
  for (int k = atomic_load(&thread_count) - 1; k >= 0; k--) {
    const struct thread *it = __atomic_load_n(&threads[k], __ATOMIC_ACQUIRE);
    if (!it || !atomic_load(&it->is_started) || !pthread_equal(it->handle, t)) continue;
    ordered_row(at, JOINS, (uint64_t)k, 0);
    break;
  }
  leave();
}
static int after_join(uint64_t at, pthread_t t, int code) {
  if (!code) joined(at, t);
  return code;
}
int pthread_join(pthread_t t, void **r) { return after_join(PLACE, t, REAL(pthread_join)(t, r)); }
int pthread_tryjoin_np(pthread_t t, void **r) { return after_join(PLACE, t, REAL(pthread_tryjoin_np)(t, r)); }
int pthread_timedjoin_np(pthread_t t, void **r, const struct timespec *until) {
  return after_join(PLACE, t, REAL(pthread_timedjoin_np)(t, r, until));
}
int pthread_clockjoin_np(pthread_t t, void **r, clockid_t c, const struct timespec *until) {
  return after_join(PLACE, t, REAL(pthread_clockjoin_np)(t, r, c, until));
}

/* OpenMP's own threads and barriers aren't seen: a list of a program that has them would be wrong. */
static void refused(void) { stop("OpenMP isn't recorded: its barriers are no calls of pthreads"); }
void GOMP_parallel(void) { refused(); }
void GOMP_parallel_start(void) { refused(); }
void __kmpc_fork_call(void) { refused(); }
