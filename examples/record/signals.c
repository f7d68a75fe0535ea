/* Signals. A handler of the program runs between two rows of its thread, never within one: a signal that comes within
   is sent again behind it. A signal that ends the program writes the trace first, but SIGKILL. */
#include "recorder.h"
#include <signal.h>
#include <string.h>
#include <sys/syscall.h>
#include <unistd.h>

enum { SIGNALS = 65 };

/* What the program asked for, of each signal. */
static struct sigaction wanted[SIGNALS];
static siginfo_t held_back[SIGNALS];
static const int deadly[] = {SIGHUP, SIGINT, SIGQUIT, SIGILL, SIGABRT, SIGBUS, SIGFPE, SIGSEGV, SIGPIPE, SIGALRM,
                             SIGTERM, SIGUSR1, SIGUSR2};

static int is_of_step(int signal) {
  return signal == SIGSEGV || signal == SIGBUS || signal == SIGFPE || signal == SIGILL || signal == SIGTRAP;
}
static int is_deadly(int signal) {
  for (size_t k = 0; k < sizeof deadly / sizeof *deadly; k++)
    if (deadly[k] == signal) return 1;
  return 0;
}

static int is_default(const struct sigaction *it) { return !(it->sa_flags & SA_SIGINFO) && it->sa_handler == SIG_DFL; }

static void handler(int signal, siginfo_t *info, void *context) {
  struct thread *t = me;
  if (t && t->busy && !is_of_step(signal)) {
    held_back[signal] = *info;
    t->waiting |= (uint64_t)1 << (signal - 1);
    return;
  }
  struct sigaction it = wanted[signal];
  if (it.sa_flags & SA_SIGINFO) it.sa_sigaction(signal, info, context);
  else if (it.sa_handler != SIG_DFL && it.sa_handler != SIG_IGN) it.sa_handler(signal);
}

/* Sends the signals again that came within a row. */
void deliver(void) {
  while (me->waiting) {
    int signal = 1 + __builtin_ctzll(me->waiting);
    me->waiting &= ~((uint64_t)1 << (signal - 1));
    siginfo_t info = held_back[signal];
    syscall(SYS_rt_tgsigqueueinfo, getpid(), syscall(SYS_gettid), signal, &info);
  }
}

static void dies(int signal) {
  if (me && me->busy && !is_of_step(signal)) {
    me->waiting |= (uint64_t)1 << (signal - 1);
    return;
  }
  tell("record: signal %d ends the program\n", signal);
  finish();
  struct sigaction plain = {.sa_handler = SIG_DFL};
  REAL(sigaction)(signal, &plain, 0);
  syscall(SYS_tgkill, getpid(), syscall(SYS_gettid), signal);
}
static int watch(int signal) {
  struct sigaction it = {.sa_handler = dies, .sa_flags = SA_RESTART | SA_NODEFER};
  return REAL(sigaction)(signal, &it, 0);
}
void watch_signals(void) {
  for (size_t k = 0; k < sizeof deadly / sizeof *deadly; k++) {
    struct sigaction now;
    if (REAL(sigaction)(deadly[k], 0, &now)) continue;
    if (is_default(&now)) watch(deadly[k]);
    else wanted[deadly[k]] = now;
  }
}

/* The program's handler is called by ours; the rest is done as it asks. */
static int set(int signal, const struct sigaction *asked) {
  int is_ignored = !(asked->sa_flags & SA_SIGINFO) && asked->sa_handler == SIG_IGN;
  if (is_default(asked) && is_deadly(signal)) return watch(signal);
  if (is_default(asked) || is_ignored) return REAL(sigaction)(signal, asked, 0);
  struct sigaction it = *asked;
  it.sa_sigaction = handler;
  it.sa_flags |= SA_SIGINFO;
  return REAL(sigaction)(signal, &it, 0);
}
int sigaction(int signal, const struct sigaction *restrict asked, struct sigaction *restrict before) {
  if (signal <= 0 || signal >= SIGNALS || signal == SIGKILL || signal == SIGSTOP)
    return REAL(sigaction)(signal, asked, before);
  struct sigaction was = wanted[signal];
  if (asked) {
    struct sigaction it = *asked;
    wanted[signal] = it;
    if (set(signal, &it)) {
      wanted[signal] = was;
      return -1;
    }
  }
  if (before) *before = was;
  return 0;
}
void (*signal(int number, void (*f)(int)))(int) {
  struct sigaction it = {.sa_handler = f, .sa_flags = SA_RESTART}, before;
  return sigaction(number, &it, &before) ? SIG_ERR : before.sa_handler;
}
