// The twin of ../use-after-free.mr: a thread reads what main has freed.
#include "beside.h"
static void *reader(void *p) {
  at(7);
  print(*(volatile uint32_t *)p); // step 7
  return 0;
}
int main(void) {
  pthread_t t;
  begin(20);
  uint32_t *p = malloc(4);
  *p = 7; // step 4
  pthread_create(&t, 0, reader, p);
  at(6);
  free(p); // step 6
  pthread_join(t, 0);
}
