/* Calls each function of libdyncollate with a null pointer and the count 0 for each of its
   pointers, alone and all at once. The outcome, the numbers and the text have to be those of a
   pointer to no bytes. Prints how many calls were compared. */
#include <dyncollate.h>

#include <stdio.h>
#include <stdlib.h>
#include <string.h>

enum { MOST = 5, NUMBERS = 64, BYTES = 4096 };

static const char target[] =
    "{\"version\":1,\"target\":\"t\",\"module-dir\":\"m\",\"module-ext\":\".bmi\",\"scans\":[],"
    "\"dyndep\":\"t.dd\",\"info\":\"t.info\"}",
                  scan[] = "{\"version\":1,\"rules\":[{\"primary-output\":\"a.o\",\"provides\":[{"
                           "\"logical-name\":\"A\"}]}]}",
                  edges[] = "build a.o: x || t.dd\n  dyndep = t.dd\n",
                  dyndep[] = "ninja_dyndep_version = 1\nbuild a.o: dyndep\n",
                  project[] = "{\"version\":1,\"targets\":[]}";

/* What a call is given, and what it returned.
   The last two strings are the room for numbers and for text. */
struct given {
    const void *at[MOST];
    size_t count[MOST];
};
struct got {
    dyncollate_outcome outcome;
    size_t numbers[NUMBERS];
    uint8_t text[BYTES];
};

#define STRING(it, index) (const uint8_t *)(it).at[index], (it).count[index]
#define ROOM                                                                                       \
    (size_t *)given.at[MOST - 2], given.count[MOST - 2], (uint8_t *)given.at[MOST - 1],            \
        given.count[MOST - 1]

static dyncollate_outcome call(int function, struct given given)
{
    switch (function) {
    case 0:
        return dyncollate_collate(STRING(given, 0), (const size_t *)given.at[1], given.count[1],
                                  STRING(given, 2), ROOM);
    case 1:
        return dyncollate_project(STRING(given, 0), (const size_t *)given.at[1], given.count[1],
                                  STRING(given, 2), ROOM);
    case 2: return dyncollate_one(STRING(given, 0), STRING(given, 1), STRING(given, 2), ROOM);
    case 3: return dyncollate_effect(STRING(given, 0), STRING(given, 1), STRING(given, 2), ROOM);
    case 4: return dyncollate_order(STRING(given, 0), ROOM);
    case 5: return dyncollate_show(STRING(given, 0), ROOM);
    default: return dyncollate_statements(STRING(given, 0), ROOM);
    }
}

/* Calls a function. The strings whose bits are set have no bytes,
   and their pointers are null or not. */
static struct got result(int function, struct given given, unsigned empty, int is_null)
{
    static const size_t no_bytes[1] = {7};
    struct got got;
    memset(&got, 77, sizeof got);
    given.at[MOST - 2] = got.numbers;
    given.at[MOST - 1] = got.text;
    given.count[MOST - 2] = NUMBERS;
    given.count[MOST - 1] = BYTES;
    for (unsigned index = 0; index < MOST; index++)
        if (empty >> index & 1) {
            given.at[index] = is_null ? NULL : no_bytes;
            given.count[index] = 0;
        }
    got.outcome = call(function, given);
    return got;
}

#define TEXT(it) it, sizeof it - 1

static struct given with(const char *one, size_t one_size, const char *two, size_t two_size,
                         const char *three, size_t three_size)
{
    return (struct given){{one, two, three, NULL, NULL}, {one_size, two_size, three_size, 0, 0}};
}

int main(void)
{
    /* collate and project are passed two zeros as lengths, of one file without a name and without
       bytes, or no lengths. */
    static const size_t zeros[2] = {0, 0};
    struct given calls[] = {with(TEXT(target), (const char *)zeros, 2, TEXT("")),
                            with(TEXT(project), (const char *)zeros, 2, TEXT("")),
                            with(TEXT(scan), TEXT("mod"), TEXT(".bmi")),
                            with(TEXT("t.dd"), TEXT(edges), TEXT(dyndep)),
                            with(TEXT(edges), TEXT(""), TEXT("")),
                            with(TEXT(dyndep), TEXT(""), TEXT("")),
                            with(TEXT(dyndep), TEXT(""), TEXT(""))};
    int compared = 0;
    for (int function = 0; function < (int)(sizeof calls / sizeof *calls); function++)
        for (unsigned empty = 0; empty < 1 << MOST; empty++, compared++) {
            struct got null = result(function, calls[function], empty, 1),
                       not_null = result(function, calls[function], empty, 0);
            if (memcmp(&null, &not_null, sizeof null)) {
                printf("function %d differs with the null pointers %u\n", function, empty);
                return 1;
            }
        }
    printf("%d alike\n", compared);
    return 0;
}
