/* What the files of the recorder share. README of the whole: docs/RECORD.md.

   Each thread writes rows to buffers of its own. A row has a key, and the rows of all threads are put into one order
   by their keys when the program ends. The clock counts operations that order threads: such a step has the odd key
   2n+1 of its tick n, and an access the even key of the clock as it then stood. So an access stands behind what its
   thread was ordered behind, and in front of what its thread hands on.

   A step that others are to stand behind puts its cell: a byte of an address that no other step stores to. Who stands
   behind it loads that cell. A cell is named by the key of its step. */
#ifndef RECORDER_H
#define RECORDER_H
#include <pthread.h>
#include <stdatomic.h>
#include <stddef.h>
#include <stdint.h>

enum { THREADS = 1024, LOCKS = 4096, CHUNK_ROWS = 1 << 14 };

/* What a row tells. LOAD to ATOMIC_STORE have the number that a trace gives them. */
enum kind {
  LOAD, STORE, ATOMIC_LOAD, ATOMIC_STORE, UPDATE, FREED, /* accesses */
  FENCE, PASS, BEHIND, ACQUIRE, RELEASE, STARTS, JOINS, ENDS
};

/* How a row changes which locks its thread has, for the list of places. */
enum held { NO_LOCK, TAKES, TAKES_TO_READ, GIVES };

struct row {
  uint64_t at;      /* the address in the program's code behind which it was made */
  uint64_t address; /* of an access; the cell of BEHIND; the number of a thread */
  uint64_t key;
  uint32_t length;  /* of an access */
  uint16_t lock;    /* the number of a lock, where `held` tells of one */
  uint8_t kind;
  uint8_t held : 4;
  uint8_t puts : 1; /* others may stand behind this step */
};

struct chunk {
  struct chunk *next;
  atomic_size_t used;
  struct row rows[CHUNK_ROWS];
};

/* The last cell of each thread that something was handed on by. */
struct mark { uint64_t cell; uint32_t thread; };
struct marks { struct mark *list; uint32_t count, room; };

struct thread {
  int number;
  volatile int busy;             /* a row is being made: a signal's handler has to wait */
  volatile uint64_t waiting;     /* signals that do, by their bits */
  struct chunk *first, *last;
  pthread_t handle;
  atomic_int is_started;
  int rounds;                    /* of the destructors of thread-specific data */
  struct marks observed;         /* what relaxed loads saw, for a fence */
  uint64_t fence;                /* the cell of the last fence that releases */
  void (*once)(void);
  uint64_t seen[THREADS];        /* of each thread the last cell that was loaded here */
};

/* What is at an address of the program and orders threads. */
enum object_kind { ATOMIC_OBJECT, MUTEX, SPIN, READERS_WRITER, SEMAPHORE, BARRIER, ONCE };
struct object {
  struct object *next;
  uint64_t address;
  enum object_kind kind;
  uint32_t number;               /* of a lock */
  int holder, depth;             /* of a lock: the thread that has it to write, -1 where none has */
  uint32_t members, arrivals;    /* of a barrier */
  uint8_t size, is_mixed;        /* of what is atomic: its bytes, and whether other sizes have some of them */
  struct marks released, other;  /* other: of readers; of a barrier's second generation */
};

/* recorder.c */
extern __thread struct thread *me;
extern struct thread *threads[THREADS];
extern atomic_int thread_count;
extern atomic_int strangers;     /* steps of threads that no call of ours started */
void tell(const char *form, ...) __attribute__((format(printf, 1, 2)));
_Noreturn void stop(const char *why);
void cut(const char *why);
const char *why_cut(void);
int enter(void);
void leave(void);
int is_window_open(void);
void *fresh(size_t bytes);
struct thread *new_thread(void);
void record_access(uint64_t at, const volatile void *address, size_t length, enum kind kind);
struct row *ordered_row(uint64_t at, enum kind kind, uint64_t address, uint32_t length);
void behind_row(uint64_t at, uint64_t key, uint64_t cell);
void finish(void);
void find_call(const char *name, void *call);
#define PLACE ((uint64_t)(uintptr_t)__builtin_return_address(0))
#define REAL(NAME) ({ static __typeof__(&NAME) call_; if (!call_) find_call(#NAME, &call_); call_; })

/* order.c */
struct object *take_object(const volatile void *address, enum object_kind kind);
void give_object(struct object *object);
void has_size(struct object *object, uint8_t size);
struct object *next_mixed(const struct object *object, struct object *after);
void forget_object(const volatile void *address, enum object_kind kind);
void hand_on(struct marks *marks, uint64_t cell);
void add_mark(struct marks *marks, uint32_t thread, uint64_t cell);
void stand_behind(uint64_t at, uint64_t key, const struct marks *marks);
void only_of(struct marks *marks, uint32_t thread);
int lock_count(void);
int is_event(const struct object *lock);
void each_lock(void (*body)(const struct object *lock, void *argument), void *argument);

/* locks.c: for waits and C11's names */
void lock_taken(uint64_t at, const volatile void *lock, enum object_kind kind, int depth);
int lock_given(uint64_t at, const volatile void *lock, enum object_kind kind, int is_whole);

/* signals.c */
void watch_signals(void);
void deliver(void);

/* memory.c */
void begin_modules(void);
void add_module(uint64_t at);
int is_recorded_code(uint64_t at);

/* users.c */
int is_access(const struct row *it);
int is_atomic(const struct row *it);
void mark_words(void);
int is_shared(const struct row *it);
size_t atomic_users(const struct row *it, uint16_t self, uint16_t *found);

/* trace.c */
int open_trace(void);
void leave_trace(void);
void write_trace(void);
#endif
