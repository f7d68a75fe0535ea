// The twin of ../lock.mr: two threads raise a counter under a lock.
#include "beside.h"
uint32_t counter;
pthread_mutex_t lock = PTHREAD_MUTEX_INITIALIZER;
static void *first(void *p) {
  at(5);
  pthread_mutex_lock(&lock);
  at(7);
  counter = counter + 1; // step 7
  pthread_mutex_unlock(&lock);
  return p;
}
static void *second(void *p) {
  at(6);
  pthread_mutex_lock(&lock);
  counter = counter + 1; // step 10
  pthread_mutex_unlock(&lock);
  return p;
}
int main(void) {
  pthread_t t, u;
  begin(20);
  pthread_create(&t, 0, first, 0);
  pthread_create(&u, 0, second, 0);
  pthread_join(t, 0);
  pthread_join(u, 0);
  print(counter); // step 15
}
