/* Plain accesses: what the compiler calls in front of each, and the functions of the C library that copy and look at
   memory. */
#include "recorder.h"
#include <string.h>

#define ACCESS(NAME, N, KIND) \
  void __tsan_##NAME##N(void *a) { record_access(PLACE, a, N, KIND); }
#define SIZE(N) \
  ACCESS(read, N, LOAD) ACCESS(unaligned_read, N, LOAD) ACCESS(volatile_read, N, LOAD) \
  ACCESS(unaligned_volatile_read, N, LOAD) \
  ACCESS(write, N, STORE) ACCESS(unaligned_write, N, STORE) ACCESS(volatile_write, N, STORE) \
  ACCESS(unaligned_volatile_write, N, STORE) \
  void __tsan_read_write##N(void *a) { record_access(PLACE, a, N, LOAD); record_access(PLACE, a, N, STORE); } \
  void __tsan_unaligned_read_write##N(void *a) { record_access(PLACE, a, N, LOAD); record_access(PLACE, a, N, STORE); }
SIZE(1) SIZE(2) SIZE(4) SIZE(8) SIZE(16)

void __tsan_read_range(void *a, unsigned long n) { record_access(PLACE, a, n, LOAD); }
void __tsan_write_range(void *a, unsigned long n) { record_access(PLACE, a, n, STORE); }
void __tsan_vptr_read(void *a) { record_access(PLACE, a, sizeof(void *), LOAD); }
void __tsan_vptr_update(void **a, void *v) { if (*a != v) record_access(PLACE, a, sizeof(void *), STORE); }
void __tsan_func_entry(void *a) { (void)a; }
void __tsan_func_exit(void) {}
void __tsan_init(void) { add_module(PLACE); }

/* The C library's own. */
static void *copied(void *to, const void *from, size_t n) { return REAL(memmove)(to, from, n); }
static void *filled(void *to, int byte, size_t n) { return REAL(memset)(to, byte, n); }

static void *copy(uint64_t at, void *to, const void *from, size_t n) {
  record_access(at, from, n, LOAD);
  record_access(at, to, n, STORE);
  return copied(to, from, n);
}
static void *fill(uint64_t at, void *to, int byte, size_t n) {
  record_access(at, to, n, STORE);
  return filled(to, byte, n);
}
void *__tsan_memcpy(void *to, const void *from, unsigned long n) { return copy(PLACE, to, from, n); }
void *__tsan_memmove(void *to, const void *from, unsigned long n) { return copy(PLACE, to, from, n); }
void *__tsan_memset(void *to, int byte, unsigned long n) { return fill(PLACE, to, byte, n); }

/* The functions below are recorded where code calls them that is recorded itself. */
static void used(uint64_t at, const void *a, size_t n, enum kind kind) {
  if (is_recorded_code(at)) record_access(at, a, n, kind);
}
static size_t length_of(const char *s) { return REAL(strlen)(s); }
static size_t length_within(const char *s, size_t n) { return REAL(strnlen)(s, n); }

void *memcpy(void *restrict to, const void *restrict from, size_t n) {
  return is_recorded_code(PLACE) ? copy(PLACE, to, from, n) : REAL(memcpy)(to, from, n);
}
void *memmove(void *to, const void *from, size_t n) {
  return is_recorded_code(PLACE) ? copy(PLACE, to, from, n) : copied(to, from, n);
}
void *memset(void *to, int byte, size_t n) {
  return is_recorded_code(PLACE) ? fill(PLACE, to, byte, n) : filled(to, byte, n);
}
void *__memcpy_chk(void *to, const void *from, size_t n, size_t room) {
  if (n > room) stop("memcpy past the end of an object");
  return is_recorded_code(PLACE) ? copy(PLACE, to, from, n) : copied(to, from, n);
}
void *__memmove_chk(void *to, const void *from, size_t n, size_t room) {
  if (n > room) stop("memmove past the end of an object");
  return is_recorded_code(PLACE) ? copy(PLACE, to, from, n) : copied(to, from, n);
}
void *__memset_chk(void *to, int byte, size_t n, size_t room) {
  if (n > room) stop("memset past the end of an object");
  return is_recorded_code(PLACE) ? fill(PLACE, to, byte, n) : filled(to, byte, n);
}

/* Of two blocks that are compared the bytes up to the first that differs are looked at. */
int memcmp(const void *a, const void *b, size_t n) {
  if (is_recorded_code(PLACE)) {
    const char *p = a, *q = b;
    size_t k = 0;
    while (k < n && p[k] == q[k]) k++;
    record_access(PLACE, a, k < n ? k + 1 : n, LOAD);
    record_access(PLACE, b, k < n ? k + 1 : n, LOAD);
  }
  return REAL(memcmp)(a, b, n);
}
size_t strlen(const char *s) {
  size_t n = length_of(s);
  used(PLACE, s, n + 1, LOAD);
  return n;
}
static void compared(uint64_t at, const char *a, const char *b, size_t most) {
  size_t k = 0;
  while (k < most && a[k] && a[k] == b[k]) k++;
  if (k < most) k++;
  record_access(at, a, k, LOAD);
  record_access(at, b, k, LOAD);
}
int strcmp(const char *a, const char *b) {
  if (is_recorded_code(PLACE)) compared(PLACE, a, b, SIZE_MAX);
  return REAL(strcmp)(a, b);
}
int strncmp(const char *a, const char *b, size_t n) {
  if (is_recorded_code(PLACE)) compared(PLACE, a, b, n);
  return REAL(strncmp)(a, b, n);
}
char *strcpy(char *restrict to, const char *restrict from) {
  size_t n = length_of(from) + 1;
  used(PLACE, from, n, LOAD);
  used(PLACE, to, n, STORE);
  copied(to, from, n);
  return to;
}
char *strncpy(char *restrict to, const char *restrict from, size_t n) {
  size_t length = length_within(from, n);
  used(PLACE, from, length < n ? length + 1 : n, LOAD);
  used(PLACE, to, n, STORE);
  return REAL(strncpy)(to, from, n);
}
char *strcat(char *restrict to, const char *restrict from) {
  size_t n = length_of(from) + 1, before = length_of(to);
  used(PLACE, from, n, LOAD);
  used(PLACE, to, before + 1, LOAD);
  used(PLACE, to + before, n, STORE);
  copied(to + before, from, n);
  return to;
}
