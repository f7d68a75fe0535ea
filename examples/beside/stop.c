// The twin of ../stop.mr: a worker looks whether it is to stop, after it has stored its result.
#include "beside.h"
_Atomic uint32_t stop_now;
uint32_t result;
static void *worker(void *p) {
  at(4);
  result = 7; // step 4
  at(5);
  (void)atomic_load(&stop_now); // step 5
  return p;
}
int main(void) {
  pthread_t t;
  begin(20);
  pthread_create(&t, 0, worker, 0);
  at(6);
  atomic_store(&stop_now, 1); // step 6
  at(7);
  print(result); // step 7
  pthread_join(t, 0);
}
