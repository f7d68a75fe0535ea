/* Two threads add one to two counters: to the first under a lock, to the second without. Each step goes to standard output as it
   is made, in the form that trace.py reads, and the addresses of the counters go to standard error.

   A step and its line are made under the mutex of the log, so that the lines stand in the order of the steps. The log tells
   nothing of this mutex: it orders the steps of this run, and would be gone with the log. */
#include <inttypes.h>
#include <pthread.h>
#include <stdint.h>
#include <stdio.h>
#include <stdlib.h>

static pthread_mutex_t log_mutex = PTHREAD_MUTEX_INITIALIZER;
static pthread_mutex_t lock = PTHREAD_MUTEX_INITIALIZER;
static uint32_t locked, unlocked;

static void must(int code) {
  if (code) exit(1);
}

/* A step that uses no counter: a line of the log. */
static void step(int thread, const char *what, int number) {
  must(pthread_mutex_lock(&log_mutex));
  printf("thread %d: %s %d\n", thread, what, number);
  must(pthread_mutex_unlock(&log_mutex));
}

static uint32_t load(int thread, const uint32_t *from) {
  must(pthread_mutex_lock(&log_mutex));
  uint32_t value = *from;
  printf("thread %d: load %" PRIuPTR " 4\n", thread, (uintptr_t)from);
  must(pthread_mutex_unlock(&log_mutex));
  return value;
}

static void store(int thread, uint32_t *to, uint32_t value) {
  must(pthread_mutex_lock(&log_mutex));
  *to = value;
  printf("thread %d: store %" PRIuPTR " 4\n", thread, (uintptr_t)to);
  must(pthread_mutex_unlock(&log_mutex));
}

static void *worker(void *argument) {
  int me = *(int *)argument;
  /* The lock is had before the line is written, and given back behind its line: so no line tells that two threads have it. */
  must(pthread_mutex_lock(&lock));
  step(me, "acquire", 0);
  store(me, &locked, load(me, &locked) + 1);
  step(me, "release", 0);
  must(pthread_mutex_unlock(&lock));
  store(me, &unlocked, load(me, &unlocked) + 1);
  must(pthread_mutex_lock(&log_mutex));
  printf("thread %d: ends\n", me);
  must(pthread_mutex_unlock(&log_mutex));
  return 0;
}

int main(void) {
  pthread_t threads[2];
  int numbers[2] = {1, 2};
  fprintf(stderr, "locked %" PRIuPTR "\nunlocked %" PRIuPTR "\n", (uintptr_t)&locked, (uintptr_t)&unlocked);
  step(0, "create lock", 0);
  for (int n = 0; n < 2; n++) {
    /* the line stands in front of all lines of the new thread, and wakes it */
    must(pthread_mutex_lock(&log_mutex));
    printf("thread 0: spawn %d; wakes %d\n", numbers[n], numbers[n]);
    must(pthread_create(&threads[n], 0, worker, &numbers[n]));
    must(pthread_mutex_unlock(&log_mutex));
  }
  for (int n = 0; n < 2; n++) {
    must(pthread_join(threads[n], 0));
    step(0, "join", numbers[n]);
  }
  return 0;
}
