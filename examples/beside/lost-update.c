// The twin of ../lost-update.mr: two threads raise a counter with plain accesses.
#include "beside.h"
uint32_t counter;
static void *first(void *p) {
  at(5);
  uint32_t n = counter; // step 5
  at(9);
  counter = n + 1; // step 9
  return p;
}
static void *second(void *p) {
  at(7);
  uint32_t n = counter; // step 7
  at(12);
  counter = n + 1; // step 12
  return p;
}
int main(void) {
  pthread_t t, u;
  begin(20);
  pthread_create(&t, 0, first, 0);
  pthread_create(&u, 0, second, 0);
  pthread_join(t, 0);
  pthread_join(u, 0);
  print(counter); // step 16
}
