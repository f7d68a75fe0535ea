/* Memory. No address is used twice: what is freed isn't given back. To free a block is to store to all of it, so that
   it can race with a use. */
#include "recorder.h"
#include <dlfcn.h>
#include <errno.h>
#include <link.h>
#include <malloc.h>
#include <stdlib.h>
#include <string.h>
#include <sys/mman.h>
#include <unistd.h>

enum { MODULES = 64, LARGE = 1 << 20 };

/* The code that is recorded: of the program and of libraries that are compiled the same way. */
static struct { uint64_t low, high; } modules[MODULES];
static atomic_int module_count;

static int note_module(struct dl_phdr_info *info, size_t size, void *argument) {
  (void)size;
  uint64_t at = *(const uint64_t *)argument;
  for (int i = 0; i < info->dlpi_phnum; i++) {
    const ElfW(Phdr) *part = &info->dlpi_phdr[i];
    uint64_t low = info->dlpi_addr + part->p_vaddr, high = low + part->p_memsz;
    if (part->p_type != PT_LOAD || at < low || at >= high) continue;
    int k = atomic_load(&module_count);
    if (k == MODULES) return 1;
    modules[k].low = low;
    modules[k].high = high;
    atomic_store(&module_count, k + 1);
    return 1;
  }
  return 0;
}

int is_recorded_code(uint64_t at) {
  int n = atomic_load_explicit(&module_count, memory_order_acquire);
  for (int k = 0; k < n; k++)
    if (at >= modules[k].low && at < modules[k].high) return 1;
  return 0;
}

/* Each file that is compiled so calls __tsan_init before main, or when its library is loaded. */
void add_module(uint64_t at) {
  if (!is_recorded_code(at)) dl_iterate_phdr(note_module, &at);
}
void begin_modules(void) { add_module((uint64_t)(uintptr_t)begin_modules); }

/* The pages of a large block go back, and its addresses stay. */
static void drop_pages(void *block, size_t bytes) {
  uintptr_t page = (uintptr_t)sysconf(_SC_PAGESIZE);
  uintptr_t low = ((uintptr_t)block + page - 1) / page * page, high = ((uintptr_t)block + bytes) / page * page;
  if (bytes >= LARGE && low < high) madvise((void *)low, high - low, MADV_DONTNEED);
}

static void freed(uint64_t at, void *block) {
  if (!block) return;
  size_t bytes = malloc_usable_size(block);
  record_access(at, block, bytes, FREED);
  drop_pages(block, bytes);
}

__attribute__((weak)) void free(void *block) { freed(PLACE, block); }

__attribute__((weak)) void *realloc(void *block, size_t bytes) {
  if (block && !bytes) {
    freed(PLACE, block);
    return 0;
  }
  void *made = malloc(bytes);
  if (!block || !made) return made;
  size_t before = malloc_usable_size(block), copied = before < bytes ? before : bytes;
  record_access(PLACE, block, copied, LOAD);
  record_access(PLACE, made, copied, STORE);
  REAL(memcpy)(made, block, copied);
  freed(PLACE, block);
  return made;
}

/* The addresses of a mapping that is gone stay taken, without memory. */
int munmap(void *block, size_t bytes) {
  size_t page = (size_t)sysconf(_SC_PAGESIZE);
  if ((uintptr_t)block % page || !bytes) {
    errno = EINVAL;
    return -1;
  }
  bytes = (bytes + page - 1) / page * page;
  record_access(PLACE, block, bytes, FREED);
  int flags = MAP_PRIVATE | MAP_ANONYMOUS | MAP_FIXED | MAP_NORESERVE;
  return mmap(block, bytes, PROT_NONE, flags, -1, 0) == MAP_FAILED ? -1 : 0;
}

/* C++'s delete in all its forms: without these it would free inside its library, and no place would be told. */
#define DELETE(NAME, ...) \
  __attribute__((weak)) void NAME(__VA_ARGS__) { freed(PLACE, block); }
DELETE(_ZdlPv, void *block)
DELETE(_ZdaPv, void *block)
DELETE(_ZdlPvm, void *block, __attribute__((unused)) size_t n)
DELETE(_ZdaPvm, void *block, __attribute__((unused)) size_t n)
DELETE(_ZdlPvSt11align_val_t, void *block, __attribute__((unused)) size_t align)
DELETE(_ZdaPvSt11align_val_t, void *block, __attribute__((unused)) size_t align)
DELETE(_ZdlPvmSt11align_val_t, void *block, __attribute__((unused)) size_t n, __attribute__((unused)) size_t align)
DELETE(_ZdaPvmSt11align_val_t, void *block, __attribute__((unused)) size_t n, __attribute__((unused)) size_t align)
