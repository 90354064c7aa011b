// Loaded before the C library, it breaks one call of the system: in the way that the environment
// names as BROKEN, which broken_programs.py has a row for. It needs no header, so that the
// toolchain's own clang compiles it.
typedef __SIZE_TYPE__ size;
enum {
  TO_WRITE = 1, TO_READ_AND_WRITE = 2, CREATED = 0100, TRUNCATED = 01000, APPENDED = 02000,
  NO_WAIT = 04000
};
enum { ABORTED = 6, KILLED = 9 };
enum { NO_RIGHT = 13, NO_SPACE = 28, NO_QUOTA = 122 };
#define NEXT ((void *)-1L)
#define NO_MEMORY "dyncollate: out of memory\n"
extern long __write(int, const void *, size);
extern long __read(int, void *, size);
extern int __open(const char *, int, ...);
extern int __close(int);
extern char *getenv(const char *);
extern int strcmp(const char *, const char *);
extern int strncmp(const char *, const char *, size);
extern char *strrchr(const char *, int);
extern size strlen(const char *);
extern int unlink(const char *);
extern int kill(int, int);
extern int getpid(void);
extern void _exit(int);
extern void *dlsym(void *, const char *);
extern int *__errno_location(void);

static int is(const char *way) {
  const char *broken = getenv("BROKEN");
  return broken && !strcmp(broken, way);
}

// A call that failed on a full disk fails as if the file could not be replaced.
static int unless_full(int result, const char *way) {
  int *error = __errno_location();
  if (result < 0 && (*error == NO_SPACE || *error == NO_QUOTA) && is(way))
    *error = NO_RIGHT;
  return result;
}

static int ends(const char *name, const char *ending) {
  size length = strlen(name), of_ending = strlen(ending);
  return length >= of_ending && !strcmp(name + length - of_ending, ending);
}

// The line of a run that ran out of memory is not written, or something else is done as well.
static int is_unwritten(const char *line) {
  if (is("no_line_without_memory"))
    return 1;
  if (is("status_1_without_memory")) {
    __write(2, line, strlen(NO_MEMORY));
    _exit(1);
  }
  if (is("an_abort_without_memory"))
    kill(getpid(), ABORTED);
  if (is("a_file_without_memory"))
    __close(__open("t.json", TO_WRITE | CREATED, 0666));
  return 0;
}

static long write_without_escapes(const char *bytes, size count) {
  static char made[65536];
  size length = 0;
  for (size at = 0; at < count && length < sizeof made; at++)
    if (bytes[at] != '$' || at + 1 == count || bytes[at + 1] != ':')
      made[length++] = bytes[at];
  return __write(1, made, length) < 0 ? -1 : (long)count;
}

long write(int file, const void *bytes, size count) {
  int is_file = file > 2;
  if (file == 2 && !strncmp(bytes, NO_MEMORY, strlen(NO_MEMORY)) && is_unwritten(bytes))
    return count;
  if (count && (is("a_file_without_its_last_byte") && is_file
      || is("output_without_its_last_byte") && file == 1))
    return __write(file, bytes, count - 1) + 1;
  if (count > 1 && is("a_long_write_cut_off") && is_file)
    return __write(file, bytes, count / 2) < 0 ? -1 : (long)count;
  if (file == 1 && is("a_colon_without_its_escape"))
    return write_without_escapes(bytes, count);
  long written = __write(file, bytes, count);
  if (written < 0 && is("a_broken_pipe_is_a_signal"))
    kill(getpid(), KILLED);
  if (written < 0 && (is("a_failed_write_of_a_file") && is_file
      || is("a_failed_write_of_the_output") && file == 1))
    return count;
  if (written >= 0 && written < (long)count && is("a_short_write_is_an_end"))
    return count;
  return written;
}

// how often a file was read since it was opened
static long reads;

long read(int file, void *bytes, size count) {
  if (is("a_file_read_in_one_piece") && file > 2 && reads++)
    return 0;
  long found = __read(file, bytes, count);
  if (found < 0 && is("a_failed_read_is_an_end"))
    return 0;
  if (found > 1 && is("a_file_read_without_its_last_byte") && file > 2)
    return found - 1;
  return found;
}

int open(const char *name, int flags, int mode) {
  int is_written = flags & (TO_WRITE | TO_READ_AND_WRITE);
  const char *end = strrchr(name, '/');
  reads = 0;
  if (!is_written && is("a_file_opened_twice")) {
    int first = __open(name, flags);
    if (first >= 0) {
      char byte;
      __read(first, &byte, 1);
      __close(first);
    }
    return __open(name, flags | NO_WAIT);
  }
  if (is_written && is("no_file_made"))
    flags &= ~CREATED;
  if (is_written && is("a_file_in_this_directory") && end)
    name = end + 1;
  if (is_written && is("the_line_in_a_file"))
    __close(2);
  int (*next)(const char *, int, ...) = dlsym(NEXT, "open");
  int file = unless_full(next(name, flags, mode), "a_full_disk_at_creation");
  if (file < 0 && !is_written && is("no_file_is_an_empty_one"))
    return __open("/dev/null", flags);
  if (file < 0 && is_written && is("a_file_that_cannot_be_made"))
    return __open("/dev/null", flags);
  return file;
}

// The permissions of a file are set as it is closed, and not before its bytes are written.
static int file_to_change = -1;
static unsigned later_mode;

int fchmod(int file, unsigned mode) {
  int (*next)(int, unsigned) = dlsym(NEXT, "fchmod");
  if (!is("permissions_after_the_bytes"))
    return next(file, mode);
  file_to_change = file;
  later_mode = mode;
  return 0;
}

int close(int file) {
  int (*next)(int) = dlsym(NEXT, "close"), (*change)(int, unsigned) = dlsym(NEXT, "fchmod");
  if (file == file_to_change) {
    change(file, later_mode);
    file_to_change = -1;
  }
  return next(file);
}

// The file is copied, byte by byte, in place of being renamed.
static int copied(const char *from, const char *to, int flags) {
  int source = __open(from, 0), target = __open(to, TO_WRITE | CREATED | flags, 0666);
  char byte;
  while (__read(source, &byte, 1) > 0)
    __write(target, &byte, 1);
  __close(source);
  __close(target);
  return unlink(from);
}

int rename(const char *from, const char *to) {
  int (*next)(const char *, const char *) = dlsym(NEXT, "rename");
  if (is("a_file_not_emptied"))
    return copied(from, to, 0);
  if (is("a_file_added_to"))
    return copied(from, to, APPENDED);
  if (is("a_file_in_place"))
    return copied(from, to, TRUNCATED);
  if (is("the_dyndep_file_nowhere") && ends(to, ".dd"))
    return unlink(from);
  return unless_full(next(from, to), "a_full_disk_at_renaming");
}

int getentropy(void *bytes, size count) {
  int (*next)(void *, size) = dlsym(NEXT, "getentropy");
  if (!is("the_same_random_bytes"))
    return next(bytes, count);
  for (size at = 0; at < count; at++)
    ((char *)bytes)[at] = 7;
  return 0;
}
