// Loaded in front of the C library: counts the allocations, reads and writes of a program, and refuses them by number.
#define _GNU_SOURCE
#include <dlfcn.h>
#include <errno.h>
#include <fcntl.h>
#include <stdio.h>
#include <stdlib.h>
#include <unistd.h>

// What is asked for by the environment; 0 refuses nothing.
static long refused, refused_from, failed_read, failed_write, most_read, most_written;
// How many calls there were, and whether they are counted: from the start of the program on.
static long allocations, reads, writes;
static int counting;

static long number(const char *name) {
    const char *text = getenv(name);
    return text ? atol(text) : 0;
}

__attribute__((constructor)) static void begin(void) {
    refused = number("REFUSED"), refused_from = number("REFUSED_FROM");
    failed_read = number("FAILED_READ"), failed_write = number("FAILED_WRITE");
    most_read = number("MOST_READ"), most_written = number("MOST_WRITTEN");
    counting = 1;
}

static int is_refused(void) {
    if (!counting) return 0;
    allocations++;
    int is_one = allocations == refused || (refused_from && allocations >= refused_from);
    if (is_one) errno = ENOMEM;
    return is_one;
}

void *__libc_malloc(size_t), *__libc_calloc(size_t, size_t);
void *__libc_realloc(void *, size_t), *__libc_memalign(size_t, size_t);
void *malloc(size_t n) { return is_refused() ? NULL : __libc_malloc(n); }
void *calloc(size_t k, size_t n) { return is_refused() ? NULL : __libc_calloc(k, n); }
void *realloc(void *p, size_t n) { return is_refused() ? NULL : __libc_realloc(p, n); }
void *aligned_alloc(size_t a, size_t n) { return is_refused() ? NULL : __libc_memalign(a, n); }
int posix_memalign(void **to, size_t a, size_t n) {
    if (is_refused()) return ENOMEM;
    *to = __libc_memalign(a, n);
    return *to ? 0 : ENOMEM;
}

static size_t at_most(size_t n, long most) { return most && n > (size_t)most ? (size_t)most : n; }

ssize_t read(int from, void *to, size_t n) {
    static ssize_t (*of_c)(int, void *, size_t);
    if (!of_c) of_c = (ssize_t(*)(int, void *, size_t))dlsym(RTLD_NEXT, "read");
    if (counting && from > 2 && ++reads == failed_read) return errno = EIO, -1;
    return of_c(from, to, counting && from > 2 ? at_most(n, most_read) : n);
}

ssize_t write(int to, const void *from, size_t n) {
    static ssize_t (*of_c)(int, const void *, size_t);
    if (!of_c) of_c = (ssize_t(*)(int, const void *, size_t))dlsym(RTLD_NEXT, "write");
    if (counting && to == 1 && ++writes == failed_write) return errno = EIO, -1;
    return of_c(to, from, counting && to == 1 ? at_most(n, most_written) : n);
}

__attribute__((destructor)) static void end(void) {
    const char *name = getenv("COUNTS");
    counting = 0;
    FILE *to = name ? fopen(name, "w") : NULL;
    if (to) fprintf(to, "%ld %ld %ld\n", allocations, reads, writes), fclose(to);
}
