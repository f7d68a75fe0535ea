/* Two threads change a number without a lock, and another one under a lock. */
#include <pthread.h>
#include <stdio.h>

static int unlocked, locked;
static pthread_mutex_t lock = PTHREAD_MUTEX_INITIALIZER;

static void *work(void *argument) {
  unlocked++;
  pthread_mutex_lock(&lock);
  locked++;
  pthread_mutex_unlock(&lock);
  return argument;
}

int main(void) {
  pthread_t worker;
  pthread_create(&worker, 0, work, 0);
  work(0);
  pthread_join(worker, 0);
  printf("%d %d\n", unlocked, locked);
}
