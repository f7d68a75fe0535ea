/* The trace and its places. The rows of all threads are put into one order. Those on memory that one thread alone used,
   or that nobody stored to, are left out, since they race with nothing and order nothing. What is written goes to
   NAME.part, which gets its name when it is whole. */
#include "recorder.h"
#include <errno.h>
#include <fcntl.h>
#include <stdio.h>
#include <stdlib.h>
#include <string.h>
#include <sys/file.h>
#include <sys/stat.h>
#include <unistd.h>

enum { MOST_STEPS = 1 << 22, MOST_BYTES = 1 << 28, HEAD = 9, MOST_STEP = 1 << 16 };
enum { NAME = 4096, HIGH = 900, BUFFER = 1 << 20 };

/* A file that is written: its number, which file that was when it was opened, its names, and what is held of it. */
struct file {
  int number;
  dev_t device;
  ino_t inode;
  char name[NAME], part[NAME];
  char *held;
  size_t used;
  uint64_t bytes;
};
static struct file trace, places;

static uint64_t first_step, behind_last = UINT64_MAX;
static uint64_t steps_made, steps_kept, steps_written;
static int is_full;

static void fail(const struct file *it, const char *what) {
  tell("record: %s %s: %s\n", it->part, what, strerror(errno));
  stop("there is no trace");
}

static void name_file(struct file *it, const char *name, const char *behind) {
  int length = snprintf(it->name, sizeof it->name, "%s%s", name, behind);
  if (length >= NAME - 8) stop("MIRACE_TRACE is too long");
  snprintf(it->part, sizeof it->part, "%.*s.part", NAME - 8, it->name);
}

/* Whether the file is there for this process: not where another one writes it that is still recorded. */
static int open_file(struct file *it) {
  struct stat about;
  if (!lstat(it->name, &about) && !S_ISREG(about.st_mode)) {
    tell("record: %s is no file\n", it->name);
    stop("there is no trace");
  }
  int number = open(it->part, O_RDWR | O_CREAT | O_CLOEXEC | O_NOFOLLOW, 0666);
  if (number < 0 || fstat(number, &about)) fail(it, "can't be opened");
  if (flock(number, LOCK_EX | LOCK_NB)) {
    close(number);
    return 0;
  }
  /* out of the way of the program's own numbers, where there are so many */
  it->number = fcntl(number, F_DUPFD_CLOEXEC, HIGH);
  if (it->number < 0) it->number = number;
  else close(number);
  it->device = about.st_dev;
  it->inode = about.st_ino;
  if (ftruncate(it->number, 0)) fail(it, "can't be written");
  if (unlink(it->name) && errno != ENOENT) fail(it, "takes the place of a file that can't be removed");
  it->held = fresh(BUFFER + MOST_STEP);
  if (!it->held) stop("there is no memory");
  return 1;
}

/* A program may close files that it didn't open, and open others by their numbers: these aren't written. */
static void must_be_open(const struct file *it) {
  struct stat about;
  if (!fstat(it->number, &about) && about.st_dev == it->device && about.st_ino == it->inode) return;
  tell("record: the program closed %s\n", it->part);
  stop("there is no trace");
}

static uint64_t number_of(const char *name, uint64_t otherwise) {
  const char *given = getenv(name);
  if (!given) return otherwise;
  char *end = 0;
  errno = 0;
  unsigned long long it = strtoull(given, &end, 10);
  if (end == given || *end || errno || *given == '-') {
    tell("record: %s is no number\n", name);
    stop("there is no trace");
  }
  return it;
}

/* When the program begins: what stood under the names is no trace of this run, and goes. Nothing is recorded where
   another process writes a trace of this name. */
int open_trace(void) {
  const char *name = getenv("MIRACE_TRACE");
  char full[NAME];
  if (!name || !*name) name = "trace.out";
  if (*name != '/') {
    if (!getcwd(full, sizeof full) || strlen(full) + strlen(name) + 16 > sizeof full) stop("MIRACE_TRACE is too long");
    strcat(full, "/");
    strcat(full, name);
    name = full;
  }
  first_step = number_of("MIRACE_FROM", 0);
  behind_last = number_of("MIRACE_TO", UINT64_MAX);
  name_file(&trace, name, "");
  name_file(&places, name, ".places");
  if (open_file(&trace) && open_file(&places)) return 1;
  tell("record: another process writes %s: this one isn't recorded\n", trace.part);
  return 0;
}
void leave_trace(void) {
  close(trace.number);
  close(places.number);
}

static void flush(struct file *it) {
  for (size_t done = 0; done < it->used;) {
    ssize_t n = write(it->number, it->held + done, it->used - done);
    if (n < 0 && errno == EINTR) continue;
    if (n <= 0) fail(it, "can't be written");
    done += (size_t)n;
  }
  it->used = 0;
}
static void put(struct file *it, uint64_t v, size_t bytes) {
  for (size_t i = 0; i < bytes; i++) it->held[it->used + i] = (char)(v >> (8 * i));
  it->used += bytes;
  it->bytes += bytes;
}
static void put_text(struct file *it, const char *text) {
  for (; *text; text++) {
    put(it, (unsigned char)*text, 1);
    if (it->used >= BUFFER) flush(it);
  }
}
static void close_file(struct file *it) {
  flush(it);
  if (close(it->number)) fail(it, "can't be written");
  if (rename(it->part, it->name)) fail(it, "can't be renamed");
}

/* Where an atomic access of a thread stands: apart from those of other threads, which it must not be ordered behind. */
static uint64_t aside(uint64_t address, uint64_t thread) {
  return (thread + 1) << 47 | (address & (((uint64_t)1 << 47) - 1));
}
/* The byte of a cell. */
static uint64_t cell_at(uint64_t key) { return (uint64_t)1 << 63 | key; }

static void put_access(enum kind kind, uint64_t address, uint64_t length) {
  put(&trace, kind, 1);
  put(&trace, address, 8);
  put(&trace, length, 8);
}
static void put_plain(const struct row *it, uint16_t thread) {
  static uint16_t others[THREADS];
  enum kind kind = it->kind == LOAD ? LOAD : STORE;
  size_t count = atomic_users(it, thread, others);
  put(&trace, 1 + count, 8);
  put_access(kind, it->address, it->length);
  for (size_t k = 0; k < count; k++) put_access(kind, aside(it->address, others[k]), it->length);
}
/* An ordered step: its access, the cell it puts, and those it stands behind, which are the rows after it. */
static void put_ordered(const struct row *it, size_t behind, uint16_t thread) {
  int is_update = it->kind == UPDATE, has_access = is_access(it);
  put(&trace, (uint64_t)(has_access + is_update) + it->puts + behind, 8);
  if (has_access) put_access(is_update ? ATOMIC_LOAD : it->kind, aside(it->address, thread), it->length);
  if (is_update) put_access(ATOMIC_STORE, aside(it->address, thread), it->length);
  for (size_t k = 1; k <= behind; k++) put_access(ATOMIC_LOAD, cell_at(it[k].address), 1);
  if (it->puts) put_access(ATOMIC_STORE, cell_at(it->key), 1);
}

static void put_place(const struct row *it, uint16_t thread) {
  put(&places, it->at, 8);
  put(&places, is_access(it) ? it->address : 0, 8);
  put(&places, thread, 2);
  put(&places, it->kind, 1);
  put(&places, it->held, 1);
  put(&places, it->lock, 2);
  put(&places, 0, 2);
  if (places.used >= BUFFER) flush(&places);
}

/* A step in the form of a trace. */
static void put_step(const struct row *it, size_t behind, uint16_t thread) {
  static const uint8_t events[] = {[ACQUIRE] = 2, [RELEASE] = 3, [JOINS] = 5, [ENDS] = 0};
  int event = it->kind < ACQUIRE || it->kind > JOINS ? 0 : events[it->kind];
  put(&trace, thread, 4);
  put(&trace, (uint64_t)event, 1);
  if (event) put(&trace, it->kind == JOINS ? it->address : it->lock, 4);
  put(&trace, it->kind == ENDS, 1);
  if (is_access(it) && !is_atomic(it)) put_plain(it, thread);
  else put_ordered(it, behind, thread);
  for (int list = 0; list < 3; list++) put(&trace, 0, 8);
  put(&trace, it->kind == STARTS, 8);
  if (it->kind == STARTS) put(&trace, it->address, 4);
  put_place(it, thread);
}

/* A step in the order of the run: it is written where it may be. One that stands behind another thread's is kept
   whatever it uses. */
static void next_step(const struct row *it, size_t behind, uint16_t thread) {
  steps_made++;
  if (is_access(it) && !behind && !is_shared(it)) return;
  uint64_t number = steps_kept++;
  if (is_full || number < first_step || number >= behind_last) return;
  uint64_t most = 64 + 17 * (behind + 3 + THREADS);
  if (steps_written == MOST_STEPS || trace.bytes + most > MOST_BYTES) {
    is_full = 1;
    return;
  }
  put_step(it, behind, thread);
  steps_written++;
  if (trace.used >= BUFFER) flush(&trace);
}

/* How far the rows of a thread are put in order. */
struct reader { const struct chunk *chunk; size_t place; uint16_t thread; };
static struct reader heap[THREADS];
static size_t readers;

static const struct row *row_of(const struct reader *it) { return &it->chunk->rows[it->place]; }
static int has_row(struct reader *it) {
  while (it->chunk && it->place == atomic_load_explicit(&it->chunk->used, memory_order_relaxed)) {
    it->chunk = it->chunk->next;
    it->place = 0;
  }
  return it->chunk != 0;
}
static void sink(size_t i) {
  for (;;) {
    size_t least = i;
    for (size_t child = 2 * i + 1; child <= 2 * i + 2 && child < readers; child++)
      if (row_of(&heap[child])->key < row_of(&heap[least])->key) least = child;
    if (least == i) return;
    struct reader it = heap[i];
    heap[i] = heap[least];
    heap[least] = it;
    i = least;
  }
}
/* The step at the front of a thread's rows, and the rows of what it stands behind, which are gathered in one place. */
static void take_step(struct reader *from) {
  static struct row step[THREADS + 1];
  size_t behind = 0;
  step[0] = *row_of(from);
  from->place++;
  while (has_row(from) && row_of(from)->kind == BEHIND && behind < THREADS) {
    step[++behind] = *row_of(from);
    from->place++;
  }
  next_step(step, behind, from->thread);
}
static void put_in_order(void) {
  for (int k = 0; k < atomic_load(&thread_count); k++) {
    struct reader it = {threads[k] ? threads[k]->first : 0, 0, (uint16_t)k};
    if (has_row(&it)) heap[readers++] = it;
  }
  for (size_t i = readers; i-- > 0;) sink(i);
  while (readers) {
    take_step(&heap[0]);
    if (!has_row(&heap[0])) heap[0] = heap[--readers];
    sink(0);
  }
}

/* The head of the places: where each file of the program lies, and each lock. */
static void put_maps(void) {
  char text[4096];
  int maps = open("/proc/self/maps", O_RDONLY | O_CLOEXEC);
  for (ssize_t n; maps >= 0 && (n = read(maps, text, sizeof text - 1)) > 0;) {
    text[n] = 0;
    put_text(&places, text);
  }
  if (maps >= 0) close(maps);
}
static void put_lock(const struct object *lock, void *argument) {
  (void)argument;
  static const char *const names[] = {[MUTEX] = "mutex", [SPIN] = "spin", [READERS_WRITER] = "rwlock"};
  char line[128];
  if (lock->number >= LOCKS) return;
  snprintf(line, sizeof line, "lock %u %s %llx\n", lock->number, names[lock->kind], (unsigned long long)lock->address);
  put_text(&places, line);
}

static void say_all(void) {
  unsigned long long made = steps_made, kept = steps_kept, written = steps_written;
  if (why_cut()) tell("record: %s: what came later isn't recorded\n", why_cut());
  if (atomic_load(&strangers)) tell("record: threads that pthread_create didn't start are left out\n");
  if (is_full)
    tell("record: %llu steps are kept, of which the first %llu from %llu on are written (MIRACE_FROM)\n", kept, written,
         (unsigned long long)first_step);
  if (lock_count() > LOCKS) tell("record: %d locks, of which 4,096 have a number\n", lock_count());
  tell("record: %llu steps made, %llu that can't race left out, %llu written; %d threads, %d locks\n", made,
       made - kept, written, atomic_load(&thread_count), lock_count());
}

/* Its steps are counted before they are known: the count gets its place at the end. */
void write_trace(void) {
  must_be_open(&trace);
  must_be_open(&places);
  put_text(&trace, "MRTR\1");
  put(&trace, 0, 4);
  put_text(&places, "places 1\n");
  put_maps();
  each_lock(put_lock, 0);
  put_text(&places, "steps\n");
  mark_words();
  put_in_order();
  flush(&trace);
  char count[4];
  for (int i = 0; i < 4; i++) count[i] = (char)(steps_written >> (8 * i));
  if (pwrite(trace.number, count, 4, HEAD - 4) != 4) fail(&trace, "can't be written");
  close_file(&places);
  close_file(&trace);
  say_all();
}
