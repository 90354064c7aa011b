/* cross_functions "" ab: calls the functions in cross/, and checks what their comments say. These
   are its arguments. It prints the lines that do not hold. */
#include <errno.h>
#include <stdint.h>
#include <stdio.h>
#include <string.h>

typedef struct {
    _Bool is_got;
    void *at;
} tried;

tried rattle_alloc(size_t bytes, size_t align);
tried rattle_realloc(void *at, size_t kept, size_t bytes, size_t align);
void rattle_dealloc(void *at);
intptr_t rattle_arg(size_t index, char *room, size_t bytes);
int rattle_errno(void);
void rattle_set_errno(int error);

static int failed;

#define HOLDS(it) ((it) ? (void)0 : (void)(failed = 1, printf("line %d: %s\n", __LINE__, #it)))

enum { MOST = 1 << 20 };
static const size_t too_many = SIZE_MAX / 2;

static void blocks(size_t align)
{
    tried none = rattle_alloc(0, align), other = rattle_alloc(0, align),
          some = rattle_alloc(5 * align, align);
    HOLDS(none.is_got && other.is_got && some.is_got);
    HOLDS(none.at != other.at && none.at != some.at && none.at && other.at);
    HOLDS((uintptr_t)none.at % align == 0 && (uintptr_t)some.at % align == 0);
    memset(some.at, 7, 5 * align);

    tried none_again = rattle_realloc(none.at, 0, 0, align);
    HOLDS(none_again.is_got && none_again.at && none_again.at != other.at);
    tried more = rattle_realloc(some.at, 5 * align, MOST, align);
    HOLDS(more.is_got && (uintptr_t)more.at % align == 0);
    const char *bytes = more.at;
    for (size_t index = 0; index < 5 * align; index++) HOLDS(bytes[index] == 7);
    memset(more.at, 8, MOST);
    tried less = rattle_realloc(more.at, align, align, align);
    HOLDS(less.is_got && (uintptr_t)less.at % align == 0);
    bytes = less.at;
    for (size_t index = 0; index < align; index++) HOLDS(bytes[index] == 8);

    /* no memory: the block is as it was */
    tried failing = rattle_realloc(less.at, align, too_many, align);
    HOLDS(!failing.is_got && failing.at);
    for (size_t index = 0; index < align; index++) HOLDS(bytes[index] == 8);
    failing = rattle_alloc(too_many, align);
    HOLDS(!failing.is_got && failing.at);

    rattle_dealloc(none_again.at);
    rattle_dealloc(other.at);
    rattle_dealloc(less.at);
}

static void arguments(const char *name)
{
    char room[4096] = "xyz";
    HOLDS(rattle_arg(1, room, 0) == 0);
    HOLDS(rattle_arg(2, room, 0) == -2);
    HOLDS(memcmp(room, "xyz", 4) == 0);
    HOLDS(rattle_arg(2, room, 1) == -2 && memcmp(room, "ayz", 4) == 0);
    HOLDS(rattle_arg(2, room, 2) == 2 && memcmp(room, "abz", 4) == 0);
    HOLDS(rattle_arg(2, room, 3) == 2 && memcmp(room, "abz", 4) == 0);
    HOLDS(rattle_arg(1, room, 3) == 0 && memcmp(room, "abz", 4) == 0);
    HOLDS(rattle_arg(3, room, 3) == -1 && rattle_arg(SIZE_MAX, room, 3) == -1 &&
          rattle_arg((size_t)1 << 32, room, 3) == -1);
    HOLDS(memcmp(room, "abz", 4) == 0);
    HOLDS(rattle_arg(0, room, sizeof room) == (intptr_t)strlen(name) &&
          memcmp(room, name, strlen(name)) == 0);
}

int main(int count, char **words)
{
    HOLDS(count == 3);
    for (size_t align = 1; align <= 16; align *= 2) blocks(align);
    arguments(words[0]);
    rattle_set_errno(ENOENT);
    HOLDS(errno == ENOENT);
    errno = EINTR;
    HOLDS(rattle_errno() == EINTR);
    return failed;
}
