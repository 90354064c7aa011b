// A library in place of libdyncollate that rejects every input, and breaks in the way that a macro
// names (broken_libraries.py), or is one of version 1.1.0 (python_package.py).
#include "dyncollate.h"

#include <stdlib.h>
#include <string.h>

static const char line[] = "dyncollate: line 1: Y8 BadLine\n";
static const dyncollate_location at = {DYNCOLLATE_DYNDEP, 'Y', 8, 0, DYNCOLLATE_ABSENT,
                                       DYNCOLLATE_ABSENT, 1, DYNCOLLATE_ABSENT, DYNCOLLATE_ABSENT,
                                       DYNCOLLATE_ABSENT};
enum { LINE = sizeof line - 1, NUMBERS = 2, LOCATED = 12 };

#define ROOM size_t *numbers, size_t count, uint8_t *text, size_t size

static dyncollate_outcome rejected(const uint8_t *input, size_t input_size, ROOM)
{
    dyncollate_outcome got = {DYNCOLLATE_REJECTED, 0, NUMBERS, LINE};
    dyncollate_outcome none = {DYNCOLLATE_NO_MEMORY, 0, 0, 0};
    uint8_t *copy = malloc(input_size + 1), *longer;
    if (!copy)
        return none;
    memcpy(copy, input, input_size);
    longer = realloc(copy, input_size + 100);
    if (!longer) {
#ifndef A_LEAK_IF_AN_ALLOCATION_FAILS
        free(copy);
#endif
        return none;
    }
#ifdef A_BYTE_AFTER_THE_INPUT
    longer[0] = *(const volatile uint8_t *)(input + input_size);
#endif
#ifdef A_STATE
    static unsigned calls;
    got.status += ++calls == 1u << 31;
#endif
#ifdef TEXT_IN_TOO_LITTLE_ROOM
    memcpy(text, line, size < LINE ? size : LINE);
#endif
#ifdef A_NUMBER_IN_TOO_LITTLE_ROOM
    if (count)
        numbers[0] = 0;
#endif
    if (count >= NUMBERS && size >= LINE) {
        got.written = 1;
        numbers[0] = 0;
        numbers[1] = LINE;
#ifndef OF_VERSION_1_1_0
        if (count >= LOCATED)
            memcpy(numbers + NUMBERS, &at, sizeof at);
#endif
        memcpy(text, line, LINE);
#ifdef A_BYTE_BEFORE_THE_ROOM
        text[-1] = 0;
#endif
#ifdef A_NUMBER_AFTER_THE_RESULT
        if (count > LOCATED)
            numbers[LOCATED] = 0;
        else if (count > NUMBERS && count < LOCATED)
            numbers[NUMBERS] = 0;
#endif
    }
#ifdef A_CALL_OF_THE_SYSTEM
    got.status += getenv("DYNCOLLATE") == (char *)text;
#endif
#ifndef A_LEAK
    free(longer);
#endif
    return got;
}

#define STRING(name) const uint8_t *name, size_t name##_size
#define FILES STRING(document), const size_t *lengths, size_t length_count, STRING(files)
#define REJECTED(name) { return rejected(name, name##_size, numbers, count, text, size); }

#ifndef OF_VERSION_1_1_0
uint32_t dyncollate_version(void) { return DYNCOLLATE_VERSION; }
#endif
dyncollate_outcome dyncollate_collate(FILES, ROOM) REJECTED(document)
dyncollate_outcome dyncollate_project(FILES, ROOM) REJECTED(document)
dyncollate_outcome dyncollate_one(STRING(scan), STRING(dir), STRING(ext), ROOM) REJECTED(scan)
dyncollate_outcome dyncollate_effect(STRING(name), STRING(edges), STRING(dyndep), ROOM)
    REJECTED(name)
dyncollate_outcome dyncollate_order(STRING(edges), ROOM) REJECTED(edges)
dyncollate_outcome dyncollate_show(STRING(dyndep), ROOM) REJECTED(dyndep)
dyncollate_outcome dyncollate_statements(STRING(dyndep), ROOM) REJECTED(dyndep)
#ifdef ANOTHER_SYMBOL
dyncollate_outcome dyncollate_more(STRING(dyndep), ROOM) REJECTED(dyndep)
#endif
