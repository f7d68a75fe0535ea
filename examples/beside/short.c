// The twin of ../short.mr: two threads store a byte each of a number, and main loads both.
#include "beside.h"
union { uint8_t half[2]; uint16_t both; } halves;
static void *low(void *p) {
  at(5);
  halves.half[0] = 1; // step 5
  return p;
}
static void *high(void *p) {
  at(7);
  halves.half[1] = 2; // step 7
  return p;
}
int main(void) {
  pthread_t t;
  begin(20);
  pthread_create(&t, 0, low, 0);
  pthread_create(&t, 0, high, 0);
  at(9);
  uint16_t x = halves.both; // step 9
  print(x);
}
