// Loaded before the C library, it fails the allocation whose number, from 1, the environment names
// as FAILING_ALLOCATION, and writes a byte to file 3 when it does. Allocations are the calls of
// malloc and realloc, in their order. It needs no header, so that the toolchain's own clang
// compiles it.
typedef __SIZE_TYPE__ size;
extern void *__libc_malloc(size);
extern void *__libc_realloc(void *, size);
extern char *getenv(const char *);
extern unsigned long strtoul(const char *, char **, int);
extern long write(int, const void *, size);

static unsigned long allocations;

static int fails(void) {
  const char *number = getenv("FAILING_ALLOCATION");
  if (!number || ++allocations != strtoul(number, 0, 10))
    return 0;
  write(3, "r", 1);
  return 1;
}

void *malloc(size bytes) { return fails() ? 0 : __libc_malloc(bytes); }

void *realloc(void *block, size bytes) { return fails() ? 0 : __libc_realloc(block, bytes); }
