// The twin of ../deadlock.mr: two threads take two locks in opposite orders.
#include "beside.h"
pthread_mutex_t lock[2] = {PTHREAD_MUTEX_INITIALIZER, PTHREAD_MUTEX_INITIALIZER};
static void *forth(void *p) {
  at(6);
  pthread_mutex_lock(&lock[0]); // step 6
  at(8);
  pthread_mutex_lock(&lock[1]); // step 8
  pthread_mutex_unlock(&lock[1]);
  pthread_mutex_unlock(&lock[0]);
  return p;
}
static void *back(void *p) {
  at(7);
  pthread_mutex_lock(&lock[1]); // step 7
  at(9);
  pthread_mutex_lock(&lock[0]); // step 9
  pthread_mutex_unlock(&lock[0]);
  pthread_mutex_unlock(&lock[1]);
  return p;
}
int main(void) {
  pthread_t t, u;
  begin(3);
  pthread_create(&t, 0, forth, 0);
  pthread_create(&u, 0, back, 0);
  pthread_join(t, 0);
  pthread_join(u, 0);
}
