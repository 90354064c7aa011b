/* The reader accepts what `show` accepts, and its statements are those that `show` prints. It
   rejects the rest, with the line and the error that `show` prints. */
#include "calls.h"

#include <stdio.h>
#include <stdlib.h>
#include <string.h>

struct text {
    uint8_t *at;
    size_t size;
};

static void add(struct text *text, const char *more)
{
    memcpy(text->at + text->size, more, strlen(more));
    text->size += strlen(more);
}

/* Adds a space and a path, with `$` before what has a meaning in a Ninja file. */
static void add_path(struct text *text, struct string path)
{
    size_t index;
    add(text, " ");
    for (index = 0; index < path.size; index++) {
        if (path.at[index] && strchr("$ :", path.at[index]))
            add(text, "$");
        text->at[text->size++] = path.at[index];
    }
}

/* The file that has these statements, as `show` prints it. */
static struct text written(const struct result *read)
{
    struct text text = {malloc(2 * read->size + 64 * read->count + 64), 0};
    const uint8_t *path = read->text;
    const size_t *number = read->numbers, *end = number + read->count;
    size_t index, kind;
    add(&text, "ninja_dyndep_version = 1\n");
    while (number < end) {
        const size_t *head = number, counts[] = {1, head[1], head[2]};
        static const char *const before[] = {"build", " |", ": dyndep |"};
        require(end - number > 3 && head[0] <= 1);
        number += 3;
        for (kind = 0; kind < 3; kind++) {
            require((size_t)(end - number) >= counts[kind]);
            add(&text, counts[kind] ? before[kind] : kind == 2 ? ": dyndep" : "");
            for (index = 0; index < counts[kind]; index++, path += *number++)
                add_path(&text, (struct string){path, *number});
        }
        add(&text, head[0] ? "\n  restat = 1\n" : "\n");
    }
    require(path == read->text + read->size);
    return text;
}

int LLVMFuzzerTestOneInput(const uint8_t *bytes, size_t size)
{
    struct input input = {1, {{bytes, size}}};
    struct result read = result_of(STATEMENTS, &input), shown = answer(SHOW, &input);
    struct string line = part(&shown, 1);
    char wanted[128];
    require(read.status == DYNCOLLATE_DONE || read.status == DYNCOLLATE_REJECTED);
    if (read.status == DYNCOLLATE_DONE) {
        struct text text = written(&read);
        require(shown.status == DYNCOLLATE_DONE
                    ? equal(part(&shown, 0), (struct string){text.at, text.size})
                    : begins(line, "dyncollate: Y2 "));
        free(text.at);
    } else {
        require(read.count == 1 && shown.status == DYNCOLLATE_REJECTED);
        snprintf(wanted, sizeof wanted, "dyncollate: line %zu: %.*s", read.numbers[0],
                 (int)read.size, (const char *)read.text);
        require(begins(line, wanted) && shown.numbers[8] == read.numbers[0]);
    }
    drop(read);
    drop(shown);
    return 0;
}
