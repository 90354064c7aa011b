// Loaded before the C library, it ends the process at the call whose number, from 1, the
// environment names as KILLED_AT, before the call is made; of a write, half is done. If the
// environment names an error number as FAILS_WITH, the call fails with that instead. If it has
// HALVED, a read or a write of more than a byte does half, and the process continues. It counts the
// calls on files by which the program can change any, and those that read or look at them, or only
// those that COUNTED names: "create" (of a file that must not exist), "rename", "read" or "write".
// It needs no header, so that the toolchain's own clang compiles it. The numbers of system calls
// are those of Linux on x86-64.
enum {
  READ = 0, WRITE = 1, CLOSE = 3, GETPID = 39, KILL = 62, RENAME = 82, UNLINK = 87, FCHMOD = 91,
  OPENAT = 257, STATX = 332
};
enum { AT_FDCWD = -100, SIGKILL = 9, O_CREAT = 0100, O_EXCL = 0200 };
extern long syscall(long, ...);
extern char *getenv(const char *);
extern int strcmp(const char *, const char *);
extern unsigned long strtoul(const char *, char **, int);
extern int *__errno_location(void);

static unsigned long number_of(const char *name) {
  const char *number = getenv(name);
  return number ? strtoul(number, 0, 10) : 0;
}

static int is_due(const char *call) {
  static unsigned long calls;
  const char *counted = getenv("COUNTED");
  return (!counted || !strcmp(call, counted)) && ++calls == number_of("KILLED_AT");
}

// The call is not made: the process ends, or it fails.
static long fault(void) {
  unsigned long error = number_of("FAILS_WITH");
  if (!error)
    syscall(KILL, syscall(GETPID), SIGKILL);
  *__errno_location() = error;
  return -1;
}

long read(int file, void *bytes, unsigned long count) {
  if (!is_due("read"))
    return syscall(READ, file, bytes, count);
  return getenv("HALVED") ? syscall(READ, file, bytes, (count + 1) / 2) : fault();
}

long write(int file, const void *bytes, unsigned long count) {
  if (!is_due("write"))
    return syscall(WRITE, file, bytes, count);
  if (getenv("HALVED"))
    return syscall(WRITE, file, bytes, (count + 1) / 2);
  if (!number_of("FAILS_WITH"))
    syscall(WRITE, file, bytes, count / 2);
  return fault();
}

static int opened(int folder, const char *name, int flags, unsigned mode) {
  const char *call = flags & O_CREAT && flags & O_EXCL ? "create" : "open";
  return is_due(call) ? fault() : syscall(OPENAT, folder, name, flags, mode);
}

int open(const char *name, int flags, unsigned mode) { return opened(AT_FDCWD, name, flags, mode); }
int open64(const char *name, int flags, unsigned mode)
{
  return opened(AT_FDCWD, name, flags, mode);
}
int openat(int folder, const char *name, int flags, unsigned mode)
{
  return opened(folder, name, flags, mode);
}
int close(int file) { return is_due("close") ? fault() : syscall(CLOSE, file); }
int rename(const char *from, const char *to)
{
  return is_due("rename") ? fault() : syscall(RENAME, from, to);
}
int unlink(const char *name) { return is_due("unlink") ? fault() : syscall(UNLINK, name); }
int fchmod(int file, unsigned mode)
{
  return is_due("fchmod") ? fault() : syscall(FCHMOD, file, mode);
}
int statx(int folder, const char *name, int flags, unsigned mask, void *found) {
  return is_due("statx") ? fault() : syscall(STATX, folder, name, flags, mask, found);
}
