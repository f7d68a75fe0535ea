/* What orders threads: objects at addresses of the program, and which threads have handed something on by them. */
#include "recorder.h"
#include <sched.h>
#include <string.h>

enum { BUCKETS = 1 << 16, BLOCK = 1 << 20 };

static struct { atomic_int taken; struct object *first; } buckets[BUCKETS];
static atomic_int arena_taken;
static char *arena;
static size_t arena_left;
static atomic_int locks;

static void spin(atomic_int *lock) {
  for (int n = 1; atomic_exchange_explicit(lock, 1, memory_order_acquire); n++)
    if (n % 64 == 0) sched_yield();
}
static void unspin(atomic_int *lock) { atomic_store_explicit(lock, 0, memory_order_release); }

/* Zeroed memory for an object or a list, which isn't given back. */
static void *room_for(size_t bytes) {
  bytes = (bytes + 15) & ~(size_t)15;
  if (bytes > BLOCK / 4) {
    void *it = fresh(bytes);
    if (!it) stop("there is no memory");
    return it;
  }
  spin(&arena_taken);
  if (arena_left < bytes) {
    arena = fresh(BLOCK);
    if (!arena) stop("there is no memory");
    arena_left = BLOCK;
  }
  void *it = arena;
  arena += bytes;
  arena_left -= bytes;
  unspin(&arena_taken);
  return it;
}

/* What is in one word of 16 bytes has one bucket. */
static size_t bucket_of(uint64_t address) {
  return (size_t)(((address >> 4) * 0x9e3779b97f4a7c15u) >> 48) % BUCKETS;
}

static struct object **find(uint64_t address, enum object_kind kind) {
  struct object **at = &buckets[bucket_of(address)].first;
  while (*at && ((*at)->address != address || (*at)->kind != kind)) at = &(*at)->next;
  return at;
}

/* The object of a kind at an address, for its taker alone until it is given. */
struct object *take_object(const volatile void *address, enum object_kind kind) {
  uint64_t a = (uint64_t)(uintptr_t)address;
  spin(&buckets[bucket_of(a)].taken);
  struct object **at = find(a, kind);
  if (!*at) {
    struct object *made = room_for(sizeof *made);
    made->address = a;
    made->kind = kind;
    made->holder = -1;
    if (kind == MUTEX || kind == SPIN || kind == READERS_WRITER) made->number = (uint32_t)atomic_fetch_add(&locks, 1);
    *at = made;
  }
  return *at;
}

static int has_same_bytes(const struct object *one, const struct object *other) {
  return one != other && one->kind == ATOMIC_OBJECT && other->kind == ATOMIC_OBJECT
      && one->address < other->address + other->size && other->address < one->address + one->size;
}

/* The next atomic object in the word of one that is taken that has bytes in common with it; nothing behind the last. */
struct object *next_mixed(const struct object *object, struct object *after) {
  struct object *it = after ? after->next : buckets[bucket_of(object->address)].first;
  while (it && !has_same_bytes(object, it)) it = it->next;
  return it;
}

/* An access of so many bytes is made to an object that is taken. */
void has_size(struct object *object, uint8_t size) {
  if (object->size >= size) return;
  object->size = size;
  for (struct object *it = next_mixed(object, 0); it; it = next_mixed(object, it)) object->is_mixed = it->is_mixed = 1;
}

void give_object(struct object *object) { unspin(&buckets[bucket_of(object->address)].taken); }

/* What is made anew at an address, or is done with there, hands nothing on to what comes. */
void forget_object(const volatile void *address, enum object_kind kind) {
  if (!enter()) return;
  uint64_t a = (uint64_t)(uintptr_t)address;
  spin(&buckets[bucket_of(a)].taken);
  struct object **at = find(a, kind);
  if (*at) *at = (*at)->next;
  unspin(&buckets[bucket_of(a)].taken);
  leave();
}

int lock_count(void) { return atomic_load(&locks); }

/* Whether taking a lock is an event of the trace: it has numbers for so many alone. Other locks hand on by cells. */
int is_event(const struct object *lock) {
  return (lock->kind == MUTEX || lock->kind == SPIN) && lock->number < LOCKS;
}

void each_lock(void (*body)(const struct object *lock, void *argument), void *argument) {
  for (size_t b = 0; b < BUCKETS; b++)
    for (const struct object *it = buckets[b].first; it; it = it->next)
      if (it->kind == MUTEX || it->kind == SPIN || it->kind == READERS_WRITER) body(it, argument);
}

/* A mark of a thread: of two of them the later one says all. */
void add_mark(struct marks *marks, uint32_t thread, uint64_t cell) {
  for (uint32_t i = 0; i < marks->count; i++)
    if (marks->list[i].thread == thread) {
      if (marks->list[i].cell < cell) marks->list[i].cell = cell;
      return;
    }
  if (marks->count == marks->room) {
    uint32_t more = marks->room ? 2 * marks->room : 2;
    struct mark *wider = room_for(more * sizeof *wider);
    for (uint32_t i = 0; i < marks->count; i++) wider[i] = marks->list[i];
    marks->list = wider;
    marks->room = more;
  }
  marks->list[marks->count++] = (struct mark){cell, thread};
}

/* The step of this cell, of this thread, hands on. */
void hand_on(struct marks *marks, uint64_t cell) { add_mark(marks, (uint32_t)me->number, cell); }

/* The step of this thread that was made last stands behind all of these. What it stood behind before is left out. */
void stand_behind(uint64_t at, uint64_t key, const struct marks *marks) {
  for (uint32_t i = 0; i < marks->count; i++) {
    struct mark it = marks->list[i];
    if (it.thread == (uint32_t)me->number || it.cell <= me->seen[it.thread]) continue;
    me->seen[it.thread] = it.cell;
    behind_row(at, key, it.cell);
  }
}

/* Keeps the mark of one thread alone. */
void only_of(struct marks *marks, uint32_t thread) {
  uint32_t kept = 0;
  for (uint32_t i = 0; i < marks->count; i++)
    if (marks->list[i].thread == thread) marks->list[kept++] = marks->list[i];
  marks->count = kept;
}
