/* failing_allocations COMMAND FILE..: the call that each file has (fuzz/calls.h) is made again and
   again, and each allocation fails in turn. Then it says that memory ran out, writes nothing and
   leaks nothing, or it has the result that it has otherwise. It is linked with --wrap for malloc,
   realloc and free. */
#include "fuzz/calls.h"

#include <stdio.h>
#include <stdlib.h>
#include <string.h>

void *__real_malloc(size_t);
void *__real_realloc(void *, size_t);
void __real_free(void *);

/* The number of the allocation that fails, counted down to 0, or -1; how many blocks there are; and
   what this file has seen. */
static long left = -1, blocks;
static long allocations, failures;

static int fails(void)
{
    allocations++;
    return left >= 0 && left-- == 0;
}

void *__wrap_malloc(size_t size)
{
    void *block = fails() ? 0 : __real_malloc(size);
    blocks += block != 0;
    return block;
}

void *__wrap_realloc(void *block, size_t size)
{
    void *moved = fails() ? 0 : __real_realloc(block, size);
    blocks += !block && moved;
    return moved;
}

void __wrap_free(void *block)
{
    blocks -= block != 0;
    __real_free(block);
}

static int is_filled(const void *room, size_t size)
{
    const uint8_t *at = room;
    while (size && *at == 0xa5)
        at++, size--;
    return !size;
}

static void fail_each(enum command command, const struct input *input)
{
    struct result whole = result_of(command, input);
    struct passed passed = passed_of(command, input);
    int is_located = whole.status != DYNCOLLATE_DONE && command != STATEMENTS;
    size_t size = whole.size, needed = is_located ? 2 : whole.count;
    long number;
    for (number = 0;; number++) {
        size_t *numbers = __real_malloc(whole.count * sizeof *numbers + 1);
        uint8_t *room = __real_malloc(size + 1);
        long before = blocks;
        dyncollate_outcome got;
        memset(numbers, 0xa5, whole.count * sizeof *numbers + 1);
        memset(room, 0xa5, size + 1);
        left = number;
        got = call(command, &passed, numbers, whole.count, room, size);
        require(blocks == before);
        if (got.status == DYNCOLLATE_NO_MEMORY) {
            require(left == -1 && !got.written && !got.numbers && !got.text);
            require(is_filled(numbers, whole.count * sizeof *numbers + 1) &&
                    is_filled(room, size + 1));
            failures++;
        } else {
            require(got.status == whole.status && got.numbers == needed && got.text == size);
            require(!size || (got.written && !memcmp(room, whole.text, size) &&
                              !memcmp(numbers, whole.numbers, whole.count * sizeof *numbers)));
        }
        __real_free(numbers);
        __real_free(room);
        if (left >= 0)
            break;
    }
    left = -1;
    drop(whole);
}

int main(int count, char **words)
{
    static uint8_t bytes[1 << 24];
    enum command command = COLLATE;
    int index;
    while (command < COMMANDS && strcmp(names[command], words[1]))
        command++;
    require(count > 2 && command < COMMANDS);
    for (index = 2; index < count; index++) {
        FILE *file = fopen(words[index], "rb");
        size_t size;
        struct input input;
        require(file);
        size = fread(bytes, 1, sizeof bytes, file);
        fclose(file);
        input = input_of(bytes, size);
        fail_each(command, &input);
    }
    printf("%ld of %ld\n", failures, allocations);
    return 0;
}
