// The twin of ../flag.mr: a message is handed over by an atomic flag.
#include "beside.h"
_Atomic uint32_t flag;
uint32_t message;
static void *reader(void *p) {
  at(5);
  while (!atomic_load(&flag)) // step 9
    at(9);
  at(11);
  print(message); // step 11
  return p;
}
int main(void) {
  pthread_t t;
  begin(20);
  pthread_create(&t, 0, reader, 0);
  at(7);
  message = 7; // step 7
  at(8);
  atomic_store(&flag, 1); // step 8
  pthread_join(t, 0);
}
