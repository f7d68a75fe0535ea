// The twin of ../flag-plain.mr: the flag is raised by a plain store.
#include "beside.h"
uint32_t flag;
uint32_t message;
static void *reader(void *p) {
  at(9);
  while (!atomic_load((_Atomic uint32_t *)&flag)) // step 9
    at(9);
  at(11);
  print(message); // step 11
  return p;
}
int main(void) {
  pthread_t t;
  begin(20);
  pthread_create(&t, 0, reader, 0);
  at(6);
  message = 7; // step 6
  at(7);
  flag = 1; // step 7
  pthread_join(t, 0);
}
