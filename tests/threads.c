/* threads COMMAND FILE: threads make the call that the file has (fuzz/calls.h) at once, and all get
   the result that one gets alone. */
#include "fuzz/calls.h"

#include <pthread.h>
#include <stdio.h>
#include <stdlib.h>
#include <string.h>

enum { THREADS = 8, CALLS = 50 };
static enum command command;
static struct passed passed;
static dyncollate_outcome alone;
static size_t *numbers;
static uint8_t *room;

static void *calls(void *unused)
{
    size_t *own_numbers = malloc(alone.numbers * sizeof *numbers);
    uint8_t *own_room = malloc(alone.text);
    int number;
    for (number = 0; number < CALLS; number++) {
        dyncollate_outcome got =
            call(command, &passed, own_numbers, alone.numbers, own_room, alone.text);
        require(got.status == alone.status && got.written && got.numbers == alone.numbers &&
                got.text == alone.text);
        require(!memcmp(own_numbers, numbers, alone.numbers * sizeof *numbers) &&
                !memcmp(own_room, room, alone.text));
        memset(own_room, 0, alone.text);
    }
    free(own_numbers);
    free(own_room);
    return unused;
}

int main(int count, char **words)
{
    static uint8_t bytes[1 << 20];
    pthread_t threads[THREADS];
    FILE *file;
    struct input input;
    int index;
    require(count == 3);
    file = fopen(words[2], "rb");
    require(file);
    while (command < COMMANDS && strcmp(names[command], words[1]))
        command++;
    require(command < COMMANDS);
    input = input_of(bytes, fread(bytes, 1, sizeof bytes, file));
    fclose(file);
    passed = passed_of(command, &input);
    alone = call(command, &passed, (size_t *)&count, 0, bytes, 0);
    numbers = malloc(alone.numbers * sizeof *numbers);
    room = malloc(alone.text);
    require(call(command, &passed, numbers, alone.numbers, room, alone.text).written);
    for (index = 0; index < THREADS; index++)
        require(!pthread_create(&threads[index], 0, calls, 0));
    for (index = 0; index < THREADS; index++)
        require(!pthread_join(threads[index], 0));
    free(numbers);
    free(room);
    puts("all alike");
    return 0;
}
