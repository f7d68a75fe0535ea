// The twin of ../atomic.mr: two threads raise a counter by an atomic operation.
#include "beside.h"
_Atomic uint32_t counter;
static void *first(void *p) {
  at(6);
  atomic_fetch_add(&counter, 1); // step 6
  return p;
}
static void *second(void *p) {
  at(7);
  atomic_fetch_add(&counter, 1); // step 7
  return p;
}
int main(void) {
  pthread_t t, u;
  begin(20);
  pthread_create(&t, 0, first, 0);
  pthread_create(&u, 0, second, 0);
  pthread_join(t, 0);
  pthread_join(u, 0);
  print(counter); // step 12
}
