"""The small programs of record_programs.txt, as texts that a compiler reads."""
import os
from collections import namedtuple

PARTS = ("globals", "one", "two", "between", "after")
Case = namedtuple("Case", ("name", "language", "races", *PARTS))

PRELUDE = """#ifndef _GNU_SOURCE
#define _GNU_SOURCE
#endif
#include <errno.h>
#include <pthread.h>
#include <semaphore.h>
#include <setjmp.h>
#include <signal.h>
#include <stdint.h>
#include <stdio.h>
#include <stdlib.h>
#include <string.h>
#include <sys/mman.h>
#include <sys/wait.h>
#include <time.h>
#include <unistd.h>
#define HIDDEN __attribute__((no_sanitize("thread"), noinline)) static
static volatile int stage;
HIDDEN void THEN(int k) { stage = k; }
HIDDEN void UPON(int k) { while (stage < k) usleep(50); }
HIDDEN void must(int is_well) { if (!is_well) { puts("the program isn't as it should be"); fflush(stdout); _exit(9); } }
#define LOOK(it) ((void)*(volatile int *)&(it))
static int x;
static pthread_mutex_t m = PTHREAD_MUTEX_INITIALIZER, n = PTHREAD_MUTEX_INITIALIZER;
static pthread_cond_t c = PTHREAD_COND_INITIALIZER;
HIDDEN struct timespec soon(clockid_t clock) { struct timespec t; clock_gettime(clock, &t); t.tv_nsec += 20000000;
  if (t.tv_nsec >= 1000000000) { t.tv_sec++; t.tv_nsec -= 1000000000; } return t; }
"""
C = PRELUDE + "#include <stdatomic.h>\n"
CXX = PRELUDE + """#include <atomic>
#include <condition_variable>
#include <future>
#include <memory>
#include <mutex>
#include <shared_mutex>
#include <string>
#include <thread>
#include <vector>
"""
BODY = """%(globals)s
static void *one(void *argument) {
%(one)s
return argument; }
static void *two(void *argument) {
%(two)s
return argument; }
int main(void) {
pthread_t first, second;
must(!pthread_create(&first, 0, one, 0) && !pthread_create(&second, 0, two, 0));
%(between)s
pthread_join(first, 0);
pthread_join(second, 0);
%(after)s
return 0; }
"""


def cases():
    """The programs of the table, in its order."""
    with open(f"{os.path.dirname(os.path.abspath(__file__))}/record_programs.txt", encoding="utf-8") as it:
        blocks = it.read().split("\n== ")[1:]
    for block in blocks:
        name, *parts = block.split("\n-- ")
        fields = {"language": "c", "races": "", **dict.fromkeys(PARTS, "")}
        for part in parts:
            title, _, text = part.partition("\n")
            word, _, value = title.partition(" ")
            fields[word] = value or text.strip("\n")
        yield Case(name.strip(), fields["language"], frozenset(fields["races"].split()), *(fields[it] for it in PARTS))


def source(it):
    return (CXX if it.language == "cpp" else C) + BODY % it._asdict()
