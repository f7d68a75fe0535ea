// The twin of ../race-lock.mr: the same under a lock.
#include "beside.h"
uint32_t number;
pthread_mutex_t lock = PTHREAD_MUTEX_INITIALIZER;
static void *reader(void *p) {
  at(7);
  pthread_mutex_lock(&lock);
  uint32_t n = number; // step 13
  pthread_mutex_unlock(&lock);
  print(n);
  return p;
}
int main(void) {
  pthread_t t;
  begin(20);
  pthread_create(&t, 0, reader, 0);
  at(6);
  pthread_mutex_lock(&lock);
  at(8);
  number = 7; // step 8
  pthread_mutex_unlock(&lock);
  pthread_join(t, 0);
}
