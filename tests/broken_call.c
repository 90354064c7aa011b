// A program that is the program PROGRAM with LIBRARY loaded before the C library, and WAY as BROKEN
// in its environment. It has no library itself, so that those which a test loads are loaded for
// PROGRAM alone (x86-64 Linux).
enum { EXECVE = 59, EXIT = 60, ROOM = 4096 };

static char libraries[ROOM] = "LD_PRELOAD=" LIBRARY;
static char *environment[ROOM] = {"BROKEN=" WAY, libraries};

static long call(long number, const void *first, const void *second, const void *third) {
  long result;
  __asm__ volatile("syscall" : "=a"(result) : "a"(number), "D"(first), "S"(second), "d"(third)
                   : "rcx", "r11", "memory");
  return result;
}

// The text after the name of a variable, or 0 if it is another variable.
static const char *value_of(const char *variable, const char *name) {
  while (*name)
    if (*variable++ != *name++)
      return 0;
  return variable;
}

void begin(char **stack) {
  char **words = stack + 1, **given = words + (long)stack[0] + 1;
  for (int at = 2; *given && at < ROOM - 1; given++) {
    const char *others = value_of(*given, "LD_PRELOAD=");
    if (!others) {
      environment[at++] = *given;
      continue;
    }
    char *end = libraries;
    while (*end)
      end++;
    *end++ = ':';
    while (*others && end < libraries + ROOM - 1)
      *end++ = *others++;
  }
  call(EXECVE, PROGRAM, words, environment);
  call(EXIT, (void *)127, 0, 0);
}

__asm__(".globl _start\n_start:\n  mov %rsp, %rdi\n  and $-16, %rsp\n  call begin\n");
