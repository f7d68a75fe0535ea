// A time table for threads. at(k) waits for slot k, counted from begin(): a slot is a step of the recorded run. It
// reads a clock and sleeps, which orders no two threads, so that a tool sees the order of the program alone. A slot
// takes as many milliseconds as SLOT says; with 0 nobody waits.
#ifndef BESIDE_H
#define BESIDE_H
#include <pthread.h>
#include <stdatomic.h>
#include <stdint.h>
#include <stdio.h>
#include <stdlib.h>
#include <time.h>
#include <unistd.h>

static struct timespec begun;
static long slot;

// In main, before any thread is made. A program that goes on for longer is ended.
static inline void begin(unsigned seconds) {
  const char *given = getenv("SLOT");
  slot = given ? atol(given) : 20;
  alarm(seconds);
  clock_gettime(CLOCK_MONOTONIC, &begun);
}

static inline void at(long k) {
  struct timespec until = begun;
  until.tv_sec += k * slot / 1000;
  until.tv_nsec += k * slot % 1000 * 1000000;
  if (until.tv_nsec >= 1000000000) {
    until.tv_sec++;
    until.tv_nsec -= 1000000000;
  }
  if (slot > 0)
    clock_nanosleep(CLOCK_MONOTONIC, TIMER_ABSTIME, &until, 0);
}

static inline void print(uint32_t n) {
  printf("%u\n", n);
}
#endif
