/* Atomic operations, as C11 orders them: an operation that acquires stands behind each one that released and that
   heads a release sequence with the value that is read. An operation and its row are made while its object is taken,
   so that the rows of one address stand in the order of the operations. */
#include "recorder.h"

enum { RELAXED, CONSUME, ACQUIRES, RELEASES, BOTH, IN_ONE_ORDER };

static int acquires(int order) {
  order &= 0xff;
  return order != RELAXED && order != RELEASES;
}
static int releases(int order) { return (order & 0xff) >= RELEASES; }

/* What a load reads it stands behind, or a later fence does. */
static void reads_of(uint64_t at, uint64_t key, const struct object *it, int order) {
  if (acquires(order)) {
    stand_behind(at, key, &it->released);
  } else {
    for (uint32_t i = 0; i < it->released.count; i++)
      add_mark(&me->observed, it->released.list[i].thread, it->released.list[i].cell);
  }
}
static void reads(uint64_t at, uint64_t key, const struct object *it, int order) {
  reads_of(at, key, it, order);
  if (!it->is_mixed) return;
  for (struct object *other = next_mixed(it, 0); other; other = next_mixed(it, other)) reads_of(at, key, other, order);
}

/* What is stored is handed on by the operation itself, or by a fence before it. */
static void stores(uint64_t key, struct object *it, int order) {
  if (releases(order)) {
    hand_on(&it->released, key);
  } else if (me->fence) {
    hand_on(&it->released, me->fence);
  }
}

/* The row of an operation that is done while its object is taken. */
static void atomic_row(uint64_t at, struct object *it, uint32_t size, enum kind kind, int order) {
  struct row *row = ordered_row(at, kind, it->address, size);
  if (!row) return;
  has_size(it, (uint8_t)size);
  uint64_t key = row->key;
  row->puts = kind != ATOMIC_LOAD && releases(order);
  if (kind != ATOMIC_STORE) reads(at, key, it, order);
  /* a store that reads nothing begins anew; what its own thread released before goes on */
  if (kind == ATOMIC_STORE) only_of(&it->released, (uint32_t)me->number);
  if (kind != ATOMIC_LOAD) stores(key, it, order);
}

#define DONE(KIND, SIZE, ORDER, DO) \
  if (!enter()) { \
    DO; \
  } else { \
    struct object *it = take_object(a, ATOMIC_OBJECT); \
    DO; \
    atomic_row(PLACE, it, SIZE, KIND, ORDER); \
    give_object(it); \
    leave(); \
  }

#define FETCH(B, T, NAME) \
  T __tsan_atomic##B##_##NAME(volatile T *a, T v, int order) { \
    T r; \
    DONE(UPDATE, B / 8, order, r = __atomic_##NAME(a, v, 5)) \
    return r; \
  }

#define EXCHANGED(B, T) \
  static int exchanged##B(volatile T *a, T *c, T v) { return __atomic_compare_exchange_n(a, c, v, 0, 5, 5); }

#define EXCHANGES(B, T) \
  static int exchanges##B(uint64_t at, volatile T *a, T *c, T v, int order, int failing) { \
    if (!enter()) return exchanged##B(a, c, v); \
    struct object *it = take_object(a, ATOMIC_OBJECT); \
    int is_done = exchanged##B(a, c, v); \
    atomic_row(at, it, B / 8, is_done ? UPDATE : ATOMIC_LOAD, is_done ? order : failing); \
    give_object(it); \
    leave(); \
    return is_done; \
  } \
  int __tsan_atomic##B##_compare_exchange_strong(volatile T *a, T *c, T v, int order, int failing) { \
    return exchanges##B(PLACE, a, c, v, order, failing); \
  } \
  int __tsan_atomic##B##_compare_exchange_weak(volatile T *a, T *c, T v, int order, int failing) { \
    return exchanges##B(PLACE, a, c, v, order, failing); \
  } \
  T __tsan_atomic##B##_compare_exchange_val(volatile T *a, T c, T v, int order, int failing) { \
    exchanges##B(PLACE, a, &c, v, order, failing); \
    return c; \
  }

#define OPERATIONS(B, T) \
  T __tsan_atomic##B##_load(const volatile T *a, int order) { \
    T r; \
    DONE(ATOMIC_LOAD, B / 8, order, r = __atomic_load_n(a, 5)) \
    return r; \
  } \
  void __tsan_atomic##B##_store(volatile T *a, T v, int order) { \
    DONE(ATOMIC_STORE, B / 8, order, __atomic_store_n(a, v, 5)) \
  } \
  T __tsan_atomic##B##_exchange(volatile T *a, T v, int order) { \
    T r; \
    DONE(UPDATE, B / 8, order, r = __atomic_exchange_n(a, v, 5)) \
    return r; \
  } \
  FETCH(B, T, fetch_add) FETCH(B, T, fetch_sub) FETCH(B, T, fetch_and) FETCH(B, T, fetch_or) FETCH(B, T, fetch_xor) \
  FETCH(B, T, fetch_nand) EXCHANGED(B, T) EXCHANGES(B, T)

OPERATIONS(8, uint8_t)
OPERATIONS(16, uint16_t)
OPERATIONS(32, uint32_t)
OPERATIONS(64, uint64_t)

/* Of 16 bytes the processor has one operation, which compares and stores: the others are made of it, loads too. */
typedef unsigned __int128 uint128_t;
enum change { SAME, NEW, ADD, SUB, AND, OR, XOR, NAND };

static uint128_t changed(uint128_t r, uint128_t v, enum change how) {
  switch (how) {
    case SAME: return r;
    case NEW: return v;
    case ADD: return r + v;
    case SUB: return r - v;
    case AND: return r & v;
    case OR: return r | v;
    case XOR: return r ^ v;
    default: return ~(r & v);
  }
}

static int exchanged128(volatile uint128_t *a, uint128_t *c, uint128_t v) {
  uint128_t wanted = *c;
  *c = __sync_val_compare_and_swap(a, wanted, v);
  return *c == wanted;
}
EXCHANGES(128, uint128_t)

static uint128_t change(volatile uint128_t *a, uint128_t v, enum change how) {
  uint128_t r = 0;
  while (!exchanged128(a, &r, changed(r, v, how))) continue;
  return r;
}
static uint128_t changes(uint64_t at, volatile uint128_t *a, uint128_t v, enum change how, enum kind kind, int order) {
  if (!enter()) return change(a, v, how);
  struct object *it = take_object(a, ATOMIC_OBJECT);
  uint128_t r = change(a, v, how);
  atomic_row(at, it, 16, kind, order);
  give_object(it);
  leave();
  return r;
}

#define UPDATES(NAME, HOW) \
  uint128_t __tsan_atomic128_##NAME(volatile uint128_t *a, uint128_t v, int order) { \
    return changes(PLACE, a, v, HOW, UPDATE, order); \
  }
UPDATES(exchange, NEW) UPDATES(fetch_add, ADD) UPDATES(fetch_sub, SUB) UPDATES(fetch_and, AND) UPDATES(fetch_or, OR)
UPDATES(fetch_xor, XOR) UPDATES(fetch_nand, NAND)
uint128_t __tsan_atomic128_load(const volatile uint128_t *a, int order) {
  return changes(PLACE, (volatile uint128_t *)(uintptr_t)a, 0, SAME, ATOMIC_LOAD, order);
}
void __tsan_atomic128_store(volatile uint128_t *a, uint128_t v, int order) {
  changes(PLACE, a, v, NEW, ATOMIC_STORE, order);
}

/* A fence that acquires stands behind all that earlier loads of its thread saw; one that releases is handed on by
   later stores. */
void __tsan_atomic_thread_fence(int order) {
  __atomic_thread_fence(5);
  if ((order & 0xff) == RELAXED || !enter()) return;
  struct row *row = ordered_row(PLACE, FENCE, 0, 0);
  if (row) {
    uint64_t key = row->key;
    row->puts = 1;
    if (acquires(order)) stand_behind(PLACE, key, &me->observed);
    if (releases(order)) me->fence = key;
  }
  leave();
}
void __tsan_atomic_signal_fence(int order) { (void)order; }
