/* Calls of the library from the bytes of one test, and what must hold of each of them. */
#ifndef CALLS_H
#define CALLS_H

#include "dyncollate.h"

struct string {
    const uint8_t *at;
    size_t size;
};

/* The strings of a call, in the order of the header. For `collate` and `project` they are the
   document, and then the name and the bytes of each file. In the bytes of a test a line that is the
   byte 255 separates them. */
enum { MOST_STRINGS = 64 };
struct input {
    size_t count;
    struct string strings[MOST_STRINGS];
};
struct input input_of(const uint8_t *bytes, size_t size);

enum command { COLLATE, PROJECT, ONE, EFFECT, ORDER, SHOW, STATEMENTS, COMMANDS };
extern const char *const names[COMMANDS];

/* The result of a call, in room of exactly its size. Both are to be freed. */
struct result {
    uint32_t status;
    size_t count;
    size_t *numbers;
    size_t size;
    uint8_t *text;
};

/* What a call is passed: its strings, and for `collate` and `project` the document, the files, and
   their lengths. Each string ends at a page that nobody may read. It is there until the next one is
   prepared. */
struct passed {
    struct string strings[3];
    const size_t *lengths;
    size_t count;
};
struct passed passed_of(enum command, const struct input *);
dyncollate_outcome call(enum command, const struct passed *, size_t *numbers, size_t numbers_room,
                        uint8_t *text, size_t text_room);

/* Makes the call with no room, with too little and with enough, and checks what must hold of each
   call. `answer` also checks what must hold of the result of a command. */
struct result result_of(enum command, const struct input *);
struct result answer(enum command, const struct input *);
/* The same for `collate` and `project`, also with the files in the opposite order. */
struct result answer_in_any_order(enum command, const struct input *);
void drop(struct result);

/* A part of a result: 0 is standard output, 1 standard error, 2 and 3 the name and the bytes of the
   first file, and so on. */
struct string part(const struct result *, size_t index);
size_t parts(const struct result *);

int equal(struct string, struct string);
int begins(struct string, const char *);
struct string text(const char *);

/* Ends the test if this does not hold. */
#define require(holds) ((holds) ? (void)0 : failed(#holds, __FILE__, __LINE__))
void failed(const char *what, const char *file, int line);

int same_results(const struct result *, const struct result *);

/* `show` accepts this dyndep file, and prints it unchanged. */
void require_shown_unchanged(struct string dyndep);

/* What `effect` makes of an edge list,
   by a dyndep file without statements that none of its edges names. */
struct result effect_of_nothing(struct string edges);
/* `effect` rejects an edge list that `order` accepts: a line is too long to be printed, or an edge
   names the dyndep file after all. */
int is_beyond_order(const struct result *);

#endif
