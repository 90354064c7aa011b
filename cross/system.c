/* The arguments of the program, and errno: of the functions of the kit's os/src/c.rt, which has
   their contracts, those that the program reaches. The kit has them only as x86-64 code, in
   libos_c.a. Nothing proves this file. */
typedef __SIZE_TYPE__ size;
typedef __INTPTR_TYPE__ signed_size;

extern int *__errno_location(void);

static int count;
static char **arguments;

/* glibc calls this before main, with the arguments of main. */
__attribute__((constructor)) static void keep(int main_count, char **main_arguments) {
    count = main_count;
    arguments = main_arguments;
}

/* Copies the argument at this index, without its final 0, to the start of the `bytes` bytes at
   `room`, and returns its length: -1 if there is no such argument, or -2 if it does not fit, and
   then `room` is full. */
signed_size rattle_arg(size index, char *room, size bytes) {
    if (index >= (size)count || !arguments[index]) return -1;
    const char *argument = arguments[index];
    for (size length = 0;; length++) {
        if (!argument[length]) return (signed_size)length;
        if (length == bytes) return -2;
        room[length] = argument[length];
    }
}

/* Returns errno of this thread. */
int rattle_errno(void) {
    return *__errno_location();
}

/* Sets errno of this thread. */
void rattle_set_errno(int error) {
    *__errno_location() = error;
}
