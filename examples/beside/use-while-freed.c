// The twin of ../use-while-freed.mr: main frees what a thread has read, and doesn't wait for it.
#include "beside.h"
static void *reader(void *p) {
  at(6);
  print(*(volatile uint32_t *)p); // step 6
  return 0;
}
int main(void) {
  pthread_t t;
  begin(20);
  uint32_t *p = malloc(4);
  *p = 7; // step 4
  pthread_create(&t, 0, reader, p);
  at(8);
  free(p); // step 8
  pthread_join(t, 0);
}
