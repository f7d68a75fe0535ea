/* Who uses each word of eight bytes: one thread, or several; whether anyone stores there; and which threads use it
   atomically. By pages of the program's memory. */
#include "recorder.h"

enum { NOBODY = 0, SEVERAL = 0xffff, ANYONE = 0xffff, WORDS = 512, RECENT = 256 };
struct page { uint64_t number; uint16_t users[WORDS], atomics[WORDS]; uint8_t stored[WORDS]; };
struct atomic_user { uint16_t thread, next; };
static struct page **pages;
static size_t page_room, page_count;
/* Lists of atomic users, by links; a list is shared by the words that have it. Where there are too many, a word has
   ANYONE: it may be named for a thread that doesn't use it atomically, since no step of that thread then meets it. */
static struct atomic_user lists[ANYONE];
static uint16_t list_count = 1;

static size_t page_slot(uint64_t number) {
  size_t i = (size_t)((number * 0x9e3779b97f4a7c15u) >> 32) & (page_room - 1);
  while (pages[i] && pages[i]->number != number) i = (i + 1) & (page_room - 1);
  return i;
}
static void widen_pages(void) {
  size_t before = page_room;
  struct page **old = pages;
  page_room = before ? 2 * before : 1 << 12;
  pages = fresh(page_room * sizeof *pages);
  if (!pages) stop("there is no memory for the trace");
  for (size_t i = 0; i < before; i++)
    if (old[i]) pages[page_slot(old[i]->number)] = old[i];
}
static struct page *page_of(uint64_t word, int is_made) {
  static struct page *recent[RECENT];
  uint64_t number = word / WORDS;
  struct page *last = recent[number % RECENT];
  if (last && last->number == number) return last;
  if (!page_room || (is_made && 2 * page_count >= page_room)) widen_pages();
  size_t i = page_slot(number);
  if (!pages[i] && is_made) {
    static struct page *room;
    static size_t left;
    if (!left) {
      left = 256;
      room = fresh(left * sizeof *room);
      if (!room) stop("there is no memory for the trace");
    }
    pages[i] = room++;
    left--;
    pages[i]->number = number;
    page_count++;
  }
  if (pages[i]) recent[number % RECENT] = pages[i];
  return pages[i];
}

/* The list that has one thread more. */
static uint16_t with_user(uint16_t list, uint16_t thread) {
  if (list == ANYONE) return list;
  for (uint16_t k = list; k; k = lists[k].next)
    if (lists[k].thread == thread) return list;
  for (uint16_t k = 1; k < list_count; k++)
    if (lists[k].thread == thread && lists[k].next == list) return k;
  if (list_count == ANYONE) return ANYONE;
  lists[list_count] = (struct atomic_user){thread, list};
  return list_count++;
}

int is_access(const struct row *it) { return it->kind <= FREED; }
int is_atomic(const struct row *it) { return it->kind >= ATOMIC_LOAD && it->kind <= UPDATE; }
static uint64_t first_word(const struct row *it) { return it->address >> 3; }
static uint64_t last_word(const struct row *it) { return (it->address + it->length - 1) >> 3; }

/* A free makes no word one that is used: it alone races with nothing. */
static void use_words(const struct row *it, uint16_t user) {
  for (uint64_t w = first_word(it); w <= last_word(it); w++) {
    struct page *page = page_of(w, it->kind != FREED);
    if (!page) {
      w |= WORDS - 1;
      continue;
    }
    uint16_t *users = &page->users[w % WORDS], *atomics = &page->atomics[w % WORDS];
    if (*users == NOBODY && it->kind != FREED) *users = user;
    if (*users != NOBODY && *users != user) *users = SEVERAL;
    if (it->kind != LOAD && it->kind != ATOMIC_LOAD) page->stored[w % WORDS] = 1;
    if (is_atomic(it)) *atomics = with_user(*atomics, (uint16_t)(user - 1));
  }
}
static void mark(int is_free) {
  for (int k = 0; k < atomic_load(&thread_count); k++)
    for (const struct chunk *c = threads[k] ? threads[k]->first : 0; c; c = c->next)
      for (size_t i = 0, n = atomic_load(&c->used); i < n; i++)
        if (is_access(&c->rows[i]) && (c->rows[i].kind == FREED) == is_free) use_words(&c->rows[i], (uint16_t)(k + 1));
}
int is_shared(const struct row *it) {
  for (uint64_t w = first_word(it); w <= last_word(it); w++) {
    const struct page *page = page_of(w, 0);
    if (!page) w |= WORDS - 1;
    else if (page->users[w % WORDS] == SEVERAL && page->stored[w % WORDS]) return 1;
  }
  return 0;
}

/* Threads that use a byte of an access atomically, but its own. */
static size_t with_list(uint16_t list, uint16_t self, uint16_t *found, size_t count) {
  for (uint16_t k = list; k; k = lists[k].next) {
    size_t i = 0;
    while (i < count && found[i] != lists[k].thread) i++;
    if (i == count && lists[k].thread != self) found[count++] = lists[k].thread;
  }
  return count;
}
static size_t all_but(uint16_t self, uint16_t *found) {
  size_t count = 0;
  for (uint16_t k = 0; k < atomic_load(&thread_count); k++)
    if (k != self) found[count++] = k;
  return count;
}
size_t atomic_users(const struct row *it, uint16_t self, uint16_t *found) {
  size_t count = 0;
  for (uint64_t w = first_word(it); w <= last_word(it); w++) {
    const struct page *page = page_of(w, 0);
    if (!page) w |= WORDS - 1;
    else if (page->atomics[w % WORDS] == ANYONE) return all_but(self, found);
    else count = with_list(page->atomics[w % WORDS], self, found, count);
  }
  return count;
}

/* Frees come last, when all words that are used are known. */
void mark_words(void) {
  mark(0);
  mark(1);
}
