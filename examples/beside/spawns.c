// The twin of ../spawns.mr: two threads start a helper each, one after a store and one before a load.
#include "beside.h"
uint32_t number;
static void *helper(void *p) {
  return p;
}
static void *writer(void *p) {
  pthread_t t;
  at(4);
  number = 7; // step 4
  at(5);
  pthread_create(&t, 0, helper, 0); // step 5
  return p;
}
int main(void) {
  pthread_t t, u;
  begin(20);
  pthread_create(&t, 0, writer, 0);
  at(6);
  pthread_create(&u, 0, helper, 0); // step 6
  at(7);
  print(number); // step 7
  pthread_join(t, 0);
}
