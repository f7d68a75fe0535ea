/* The clock, the buffers, and how recording begins and ends. */
#include "recorder.h"
#include <dlfcn.h>
#include <linux/membarrier.h>
#include <sched.h>
#include <stdarg.h>
#include <stdio.h>
#include <stdlib.h>
#include <string.h>
#include <sys/mman.h>
#include <sys/syscall.h>
#include <unistd.h>

__thread struct thread *me;
struct thread *threads[THREADS];
atomic_int thread_count;
atomic_int strangers;

static atomic_int running;
static atomic_int is_finished;
static atomic_int window_open = 1;
static _Atomic(const char *) cut_why;
static _Atomic uint64_t now = 1;
static atomic_size_t chunk_count;
static size_t most_chunks;
static pid_t owner;

/* The section that the macros of mirace.h fill: where it is there, the window is closed at first. */
extern char __start_mirace_window[] __attribute__((weak));

/* A line of the error output, without the buffers of stdio. */
void tell(const char *form, ...) {
  char line[512];
  va_list values;
  va_start(values, form);
  int length = vsnprintf(line, sizeof line, form, values);
  va_end(values);
  if (length >= (int)sizeof line) length = sizeof line - 1;
  if (length > 0 && write(2, line, (size_t)length) < 0) return;
}

_Noreturn void stop(const char *why) {
  tell("record: %s\n", why);
  atomic_store(&is_finished, 1);
  syscall(SYS_exit_group, 70);
  __builtin_unreachable();
}

/* Nothing is recorded from here on. What was recorded is the front of a run, and is written at the end. */
void cut(const char *why) {
  const char *none = 0;
  atomic_compare_exchange_strong(&cut_why, &none, why);
  atomic_store(&running, 0);
}

const char *why_cut(void) { return atomic_load(&cut_why); }

/* Zeroed memory that is never given back; nothing where there is none. */
void *fresh(size_t bytes) {
  void *it = mmap(0, bytes, PROT_READ | PROT_WRITE, MAP_PRIVATE | MAP_ANONYMOUS | MAP_NORESERVE, -1, 0);
  return it == MAP_FAILED ? 0 : it;
}

void find_call(const char *name, void *call) {
  void *found = dlsym(RTLD_NEXT, name);
  if (!found) {
    tell("record: %s isn't there\n", name);
    stop("a call of the C library is missing");
  }
  *(void **)call = found;
}

/* Whether a row may be made here: recording goes on, the thread is known, and it isn't making one. Between enter and
   leave no handler of a signal runs in this thread. */
int enter(void) {
  if (!atomic_load_explicit(&running, memory_order_relaxed)) return 0;
  struct thread *t = me;
  if (!t) {
    atomic_store_explicit(&strangers, 1, memory_order_relaxed);
    return 0;
  }
  if (t->busy) return 0;
  t->busy = 1;
  atomic_signal_fence(memory_order_seq_cst);
  if (atomic_load_explicit(&running, memory_order_relaxed)) return 1;
  leave();
  return 0;
}

void leave(void) {
  struct thread *t = me;
  atomic_signal_fence(memory_order_seq_cst);
  __atomic_store_n(&t->busy, 0, __ATOMIC_RELEASE);
  atomic_signal_fence(memory_order_seq_cst);
  if (t->waiting) deliver();
}

int is_window_open(void) { return atomic_load_explicit(&window_open, memory_order_relaxed); }
void mirace_begin(void) { atomic_store(&window_open, 1); }
void mirace_end(void) { atomic_store(&window_open, 0); }

static int add_chunk(struct thread *t) {
  if (atomic_fetch_add(&chunk_count, 1) >= most_chunks) {
    cut("the buffers are full (MIRACE_ROOM)");
    return 0;
  }
  struct chunk *more = fresh(sizeof *more);
  if (!more) {
    cut("there is no more memory");
    return 0;
  }
  if (t->last) __atomic_store_n(&t->last->next, more, __ATOMIC_RELEASE);
  if (!t->first) t->first = more;
  t->last = more;
  return 1;
}

/* A thread's next row: it counts only when it is written. */
static struct row *next_row(struct thread *t) {
  if (atomic_load_explicit(&t->last->used, memory_order_relaxed) == CHUNK_ROWS && !add_chunk(t)) return 0;
  return &t->last->rows[atomic_load_explicit(&t->last->used, memory_order_relaxed)];
}

static void row_made(struct thread *t) {
  size_t used = atomic_load_explicit(&t->last->used, memory_order_relaxed);
  atomic_store_explicit(&t->last->used, used + 1, memory_order_release);
  /* a tick now and then keeps rows of several threads near the time of their making */
  if ((used & 63) == 0) atomic_fetch_add_explicit(&now, 1, memory_order_relaxed);
}

void record_access(uint64_t at, const volatile void *address, size_t length, enum kind kind) {
  if (!length || !is_window_open() || !enter()) return;
  uint64_t from = (uint64_t)(uintptr_t)address;
  while (length) {
    uint32_t piece = length > 1u << 30 ? 1u << 30 : (uint32_t)length;
    struct row *it = next_row(me);
    if (!it) break;
    *it = (struct row){.at = at, .address = from, .length = piece, .kind = (uint8_t)kind,
                       .key = 2 * atomic_load_explicit(&now, memory_order_relaxed)};
    row_made(me);
    from += piece;
    length -= piece;
  }
  leave();
}

/* The row of a step that orders threads; nothing where there is no room. Its caller has what makes the order of such
   steps that of their operations. */
struct row *ordered_row(uint64_t at, enum kind kind, uint64_t address, uint32_t length) {
  struct row *it = next_row(me);
  if (!it) return 0;
  uint64_t tick = atomic_fetch_add(&now, 1);
  *it = (struct row){.at = at, .address = address, .length = length, .kind = (uint8_t)kind, .key = 2 * tick + 1};
  row_made(me);
  return it;
}

/* Behind the row of a step: that it stands behind the step of a cell. */
void behind_row(uint64_t at, uint64_t key, uint64_t cell) {
  struct row *it = next_row(me);
  if (!it) return;
  *it = (struct row){.at = at, .address = cell, .length = 1, .kind = BEHIND, .key = key};
  row_made(me);
}

/* A new thread with its first buffer, which isn't running yet; nothing where the trace can't have one. */
struct thread *new_thread(void) {
  struct thread *it = fresh(sizeof *it);
  if (!it || !add_chunk(it)) {
    cut("there is no memory for a thread");
    return 0;
  }
  int number = atomic_fetch_add(&thread_count, 1);
  if (number >= THREADS) {
    atomic_store(&thread_count, THREADS);
    cut("there are more than 1,024 threads");
    return 0;
  }
  it->number = number;
  __atomic_store_n(&threads[number], it, __ATOMIC_RELEASE);
  return it;
}

/* The child of a fork isn't recorded, and writes nothing. */
static void in_child(void) {
  atomic_store(&running, 0);
  atomic_store(&is_finished, 1);
  me = 0;
  leave_trace();
}

static void read_room(void) {
  const char *given = getenv("MIRACE_ROOM");
  char *end = 0;
  unsigned long long room = given ? strtoull(given, &end, 10) : 4096;
  if (given && (end == given || *end || room == 0 || room > 1 << 20)) stop("MIRACE_ROOM is no number of MiB");
  most_chunks = (size_t)(((unsigned long long)room << 20) / sizeof(struct chunk)) + 1;
}

__attribute__((constructor(101))) static void start(void) {
  if (owner) return;
  owner = getpid();
  read_room();
  if (!open_trace()) {
    atomic_store(&is_finished, 1);
    return;
  }
  begin_modules();
  if (__start_mirace_window) atomic_store(&window_open, 0);
  syscall(SYS_membarrier, MEMBARRIER_CMD_REGISTER_PRIVATE_EXPEDITED, 0, 0);
  me = new_thread();
  if (!me) stop("there is no memory");
  me->handle = pthread_self();
  atomic_store(&me->is_started, 1);
  if (pthread_atfork(0, 0, in_child) || atexit(finish) || at_quick_exit(finish)) stop("there is no memory");
  watch_signals();
  atomic_store(&running, 1);
}

/* Waits till no other thread is making a row; at most a second for each. */
static void wait_for_rows(void) {
  if (syscall(SYS_membarrier, MEMBARRIER_CMD_PRIVATE_EXPEDITED, 0, 0)) usleep(10000);
  for (int k = 0; k < atomic_load(&thread_count); k++) {
    struct thread *t = __atomic_load_n(&threads[k], __ATOMIC_ACQUIRE);
    for (int n = 0; t && t != me && __atomic_load_n(&t->busy, __ATOMIC_ACQUIRE) && n < 1000; n++) usleep(1000);
  }
}

/* Ends recording and writes the trace: once, and in the process that was recorded. */
void finish(void) {
  if (getpid() != owner || atomic_exchange(&is_finished, 1)) return;
  atomic_store(&running, 0);
  wait_for_rows();
  write_trace();
}

void _exit(int status) {
  finish();
  syscall(SYS_exit_group, status);
  __builtin_unreachable();
}
void _Exit(int status) { _exit(status); }
