// Loaded before the C library, it counts the calls of malloc and realloc, the bytes that they ask
// for, and the most bytes that are held at once. At its end a run writes the three to file 3.
#include <malloc.h>
#include <stdio.h>
#include <unistd.h>

extern void *__libc_malloc(size_t);
extern void *__libc_realloc(void *, size_t);
extern void __libc_free(void *);

static size_t calls, asked, held, most;

static void *counted(void *block, size_t bytes, size_t before) {
  calls++;
  asked += bytes;
  held += malloc_usable_size(block) - before;
  if (held > most)
    most = held;
  return block;
}

void *malloc(size_t bytes) { return counted(__libc_malloc(bytes), bytes, 0); }

void *realloc(void *block, size_t bytes) {
  size_t before = malloc_usable_size(block);
  return counted(__libc_realloc(block, bytes), bytes, before);
}

void free(void *block) {
  held -= malloc_usable_size(block);
  __libc_free(block);
}

__attribute__((destructor)) static void report(void) {
  dprintf(3, "%zu %zu %zu\n", calls, asked, most);
}
