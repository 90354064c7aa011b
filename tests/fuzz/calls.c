#include "calls.h"

#include <stdio.h>
#include <stdlib.h>
#include <string.h>
#include <sys/mman.h>

const char *const names[COMMANDS] = {"collate", "project", "one", "effect", "order", "show",
                                     "statements"};

void failed(const char *what, const char *file, int line)
{
    fprintf(stderr, "%s:%d: does not hold: %s\n", file, line, what);
    abort();
}

struct input input_of(const uint8_t *bytes, size_t size)
{
    static const uint8_t separator[] = {'\n', 255, '\n'};
    struct input input = {0, {{0, 0}}};
    const uint8_t *end = bytes + size, *found;
    while (input.count < MOST_STRINGS) {
        found = memmem(bytes, (size_t)(end - bytes), separator, sizeof separator);
        input.strings[input.count++] =
            (struct string){bytes, (size_t)((found ? found : end) - bytes)};
        if (!found)
            break;
        bytes = found + sizeof separator;
    }
    return input;
}

/* A copy of these bytes that ends at a page that nobody may read.
   There is one copy at a time for each number. */
static void *at_edge(unsigned number, const void *bytes, size_t size)
{
    enum { ROOM = 1 << 26, PAGE = 4096, NUMBERS = 5 };
    static uint8_t *rooms[NUMBERS];
    require(number < NUMBERS && size <= ROOM);
    if (!rooms[number]) {
        rooms[number] = mmap(0, ROOM + PAGE, PROT_READ | PROT_WRITE,
                             MAP_PRIVATE | MAP_ANONYMOUS | MAP_NORESERVE, -1, 0);
        require(rooms[number] != MAP_FAILED && !mprotect(rooms[number] + ROOM, PAGE, PROT_NONE));
    }
    if (bytes)
        memcpy(rooms[number] + ROOM - size, bytes, size);
    return rooms[number] + ROOM - size;
}

/* The files of an input: the text, and the lengths of its parts. */
static void pass_files(struct passed *passed, const struct input *input)
{
    size_t numbers[MOST_STRINGS], size = 0, index;
    uint8_t *files, *at;
    passed->count = (input->count - 1) & ~(size_t)1;
    for (index = 0; index < passed->count; index++)
        size += numbers[index] = input->strings[index + 1].size;
    files = at = at_edge(1, 0, size);
    for (index = 0; index < passed->count; at += numbers[index++])
        if (numbers[index])
            memcpy(at, input->strings[index + 1].at, numbers[index]);
    passed->strings[1] = (struct string){files, size};
    passed->lengths = at_edge(2, numbers, passed->count * sizeof *numbers);
}

struct passed passed_of(enum command command, const struct input *input)
{
    struct passed passed = {{{0, 0}, {0, 0}, {0, 0}}, 0, 0};
    unsigned index, strings = command == ONE || command == EFFECT ? 3 : 1;
    for (index = 0; index < strings; index++) {
        struct string one = index < input->count ? input->strings[index] : text("");
        passed.strings[index] = (struct string){at_edge(index, one.at, one.size), one.size};
    }
    if (command == COLLATE || command == PROJECT)
        pass_files(&passed, input);
    return passed;
}

dyncollate_outcome call(enum command command, const struct passed *passed, size_t *numbers,
                        size_t count, uint8_t *to, size_t room)
{
    struct string one = passed->strings[0], two = passed->strings[1], three = passed->strings[2];
    switch (command) {
    case COLLATE:
        return dyncollate_collate(one.at, one.size, passed->lengths, passed->count, two.at,
                                  two.size, numbers, count, to, room);
    case PROJECT:
        return dyncollate_project(one.at, one.size, passed->lengths, passed->count, two.at,
                                  two.size, numbers, count, to, room);
    case ONE:
        return dyncollate_one(one.at, one.size, two.at, two.size, three.at, three.size, numbers,
                              count, to, room);
    case EFFECT:
        return dyncollate_effect(one.at, one.size, two.at, two.size, three.at, three.size, numbers,
                                 count, to, room);
    case ORDER:
        return dyncollate_order(one.at, one.size, numbers, count, to, room);
    case STATEMENTS:
        return dyncollate_statements(one.at, one.size, numbers, count, to, room);
    default:
        return dyncollate_show(one.at, one.size, numbers, count, to, room);
    }
}

/* Makes the call with this room, at whose edges are pages and bytes that it may not change. */
static dyncollate_outcome with_room(enum command command, const struct passed *passed, size_t count,
                                    size_t size, struct result *result)
{
    enum { BEFORE = 16 };
    size_t bytes = count * sizeof(size_t), index;
    uint8_t *numbers = at_edge(3, 0, bytes + BEFORE), *to = at_edge(4, 0, size + BEFORE);
    dyncollate_outcome got;
    memset(numbers, 0xa5, bytes + BEFORE);
    memset(to, 0xa5, size + BEFORE);
    got = call(command, passed, (size_t *)(void *)(numbers + BEFORE), count, to + BEFORE, size);
    require(got.written <= 1);
    for (index = 0; index < BEFORE + (got.written ? 0 : bytes); index++)
        require(numbers[index] == 0xa5);
    for (index = 0; index < BEFORE + (got.written ? 0 : size); index++)
        require(to[index] == 0xa5);
    if (got.written && result) {
        *result = (struct result){got.status, count, malloc(bytes + 1), size, malloc(size + 1)};
        memcpy(result->numbers, numbers + BEFORE, bytes);
        memcpy(result->text, to + BEFORE, size);
    }
    return got;
}

static int same(dyncollate_outcome one, dyncollate_outcome other)
{
    return one.status == other.status && one.numbers == other.numbers && one.text == other.text;
}

/* A line has this number after the label, unless it is absent. */
static int has(struct string line, const char *label, size_t number, const char *end)
{
    char text[64];
    snprintf(text, sizeof text, "%s%zu%s", label, number, end);
    return number == DYNCOLLATE_ABSENT || memmem(line.at, line.size, text, strlen(text));
}

/* The numbers of a location are in the line of the error. */
static int is_located(struct string line, const size_t *numbers)
{
    static const char *const lists[] = {"", " provides ", " requires ", " path "};
    dyncollate_location at;
    int is_scan, is_info;
    memcpy(&at, numbers, sizeof at);
    is_scan = at.document == DYNCOLLATE_SCAN;
    is_info = at.document == DYNCOLLATE_INFO;
    require(at.document <= DYNCOLLATE_DYNDEP && at.list <= DYNCOLLATE_PATHS);
    require((is_scan || is_info) == (at.index != DYNCOLLATE_ABSENT));
    require(!at.list == (at.entry == DYNCOLLATE_ABSENT) && !at.letter == !at.number);
    return has(line, (char[]){' ', (char)at.letter, 0}, at.letter ? at.number : DYNCOLLATE_ABSENT,
               " ") &&
           has(line, "target ", at.target, ": ") &&
           has(line, is_scan ? "scan " : "info ", at.index, ": ") &&
           has(line, "line ", at.line, ": ") &&
           has(line, is_scan ? " rule " : is_info ? " module " : " statement ", at.item, "") &&
           has(line, lists[at.list], at.entry, "") && has(line, " at ", at.offset, "\n");
}

/* One line, by which the program says why it failed. */
static int is_line(struct string line)
{
    size_t index;
    for (index = 0; index + 1 < line.size; index++)
        if (line.at[index] < 32 || line.at[index] == 127)
            return 0;
    return begins(line, "dyncollate: ") && line.at[line.size - 1] == '\n';
}

struct result result_of(enum command command, const struct input *input)
{
    struct result result = {0, 0, 0, 0, 0};
    struct passed passed = passed_of(command, input);
    dyncollate_outcome needed = with_room(command, &passed, 0, 0, 0);
    size_t room = needed.numbers;
    require(needed.status != DYNCOLLATE_NO_MEMORY);
    if (needed.status == DYNCOLLATE_MISUSED) {
        require(needed.numbers == 0 && needed.text == 0 && !needed.written);
        result.status = needed.status;
        return result;
    }
    require(needed.written == (needed.numbers == 0 && needed.text == 0));
    if (needed.numbers)
        require(same(needed, with_room(command, &passed, needed.numbers - 1, needed.text, 0)));
    if (needed.text)
        require(same(needed, with_room(command, &passed, needed.numbers, needed.text - 1, 0)));
    if (needed.status != DYNCOLLATE_DONE && command != STATEMENTS) {
        require(same(needed, with_room(command, &passed, room, needed.text, 0)));
        room = 12;
    }
    require(same(needed, with_room(command, &passed, room, needed.text, &result)));
    require(result.numbers);
    return result;
}

struct result answer(enum command command, const struct input *input)
{
    struct result result = result_of(command, input);
    size_t size = 0, index;
    if (result.status == DYNCOLLATE_MISUSED) {
        require(command != ORDER && command != SHOW);
        return result;
    }
    require(result.status == DYNCOLLATE_DONE || result.status == DYNCOLLATE_REJECTED ||
            (result.status == DYNCOLLATE_UNREAD && (command == COLLATE || command == PROJECT)));
    require(result.status == DYNCOLLATE_DONE ? result.count % 3 == 2 : result.count == 12);
    for (index = 0; index < parts(&result); index++)
        size += part(&result, index).size;
    require(size == result.size);
    if (result.status == DYNCOLLATE_DONE)
        require(part(&result, 1).size == 0);
    else
        require(part(&result, 0).size == 0 && is_line(part(&result, 1)) &&
                is_located(part(&result, 1), result.numbers + 2));
    if (command == COLLATE || command == PROJECT)
        require(part(&result, 0).size == 0);
    else
        require(parts(&result) == 2);
    return result;
}

static int is_any_twice(const struct input *input)
{
    size_t one, other;
    for (one = 1; one < input->count; one += 2)
        for (other = one + 2; other < input->count; other += 2)
            if (equal(input->strings[one], input->strings[other]))
                return 1;
    return 0;
}

struct result answer_in_any_order(enum command command, const struct input *input)
{
    struct result result = answer(command, input), turned;
    struct input opposite = *input;
    size_t index, count = (input->count - 1) & ~(size_t)1;
    if (is_any_twice(input))
        return result;
    for (index = 0; index < count; index++)
        opposite.strings[1 + index] =
            input->strings[1 + (count - 2 - (index & ~(size_t)1)) + (index & 1)];
    turned = answer(command, &opposite);
    require(same_results(&result, &turned));
    drop(turned);
    return result;
}

void drop(struct result result)
{
    free(result.numbers);
    free(result.text);
}

size_t parts(const struct result *result)
{
    return result->status == DYNCOLLATE_DONE ? 2 + (result->count - 2) / 3 * 2 : 2;
}

/* Where the length of a part is among the numbers: the third number of a file is no length. */
static size_t number_of(size_t index)
{
    return index < 2 ? index : 2 + (index - 2) / 2 * 3 + (index - 2) % 2;
}

struct string part(const struct result *result, size_t index)
{
    size_t at = 0, before;
    for (before = 0; before < index; before++)
        at += result->numbers[number_of(before)];
    return (struct string){result->text + at, result->numbers[number_of(index)]};
}

int equal(struct string one, struct string other)
{
    return one.size == other.size && (one.size == 0 || !memcmp(one.at, other.at, one.size));
}

int begins(struct string whole, const char *beginning)
{
    return whole.size >= strlen(beginning) && !memcmp(whole.at, beginning, strlen(beginning));
}

struct string text(const char *characters)
{
    return (struct string){(const uint8_t *)characters, strlen(characters)};
}

static struct string numbers_of(const struct result *result)
{
    return (struct string){(const uint8_t *)result->numbers,
                           result->count * sizeof *result->numbers};
}

int same_results(const struct result *one, const struct result *other)
{
    return one->status == other->status && equal(numbers_of(one), numbers_of(other)) &&
           equal((struct string){one->text, one->size}, (struct string){other->text, other->size});
}

void require_shown_unchanged(struct string dyndep)
{
    struct input input = {1, {dyndep}};
    struct result shown = answer(SHOW, &input);
    require(shown.status == DYNCOLLATE_DONE && equal(part(&shown, 0), dyndep));
    drop(shown);
}

struct result effect_of_nothing(struct string edges)
{
    char name[16];
    unsigned number = 0;
    struct input input;
    do
        snprintf(name, sizeof name, "none.%u", number++);
    while (edges.size && memmem(edges.at, edges.size, name, strlen(name)));
    input = (struct input){3, {text(name), edges, text("ninja_dyndep_version = 1\n")}};
    return answer(EFFECT, &input);
}

int is_beyond_order(const struct result *result)
{
    struct string line = result->numbers ? part(result, 1) : text("");
    return begins(line, "dyncollate: E9 ") || begins(line, "dyncollate: E6 ");
}
