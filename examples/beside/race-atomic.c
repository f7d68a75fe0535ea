// The twin of ../race-atomic.mr: both accesses are atomic.
#include "beside.h"
_Atomic uint32_t number;
static void *reader(void *p) {
  at(9);
  uint32_t n = atomic_load(&number); // step 9
  print(n);
  return p;
}
int main(void) {
  pthread_t t;
  begin(20);
  pthread_create(&t, 0, reader, 0);
  at(4);
  atomic_store(&number, 7); // step 4
  pthread_join(t, 0);
}
