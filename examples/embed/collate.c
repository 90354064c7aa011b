/* Collates a target in memory: `collate TARGETFILE FILE..` reads the target document and the files
   that it names, and prints the files that `dyncollate collate TARGETFILE` would write.

       cc collate.c $(pkg-config --cflags --libs dyncollate) -o collate */
#include <dyncollate.h>

#include <stdio.h>
#include <stdlib.h>
#include <string.h>

struct bytes {
    uint8_t *at;
    size_t size;
};

static void *allocated(void *block)
{
    if (!block) {
        fputs("collate: out of memory\n", stderr);
        exit(3);
    }
    return block;
}

static void append(struct bytes *text, const void *more, size_t size)
{
    text->at = allocated(realloc(text->at, text->size + size + 1));
    memcpy(text->at + text->size, more, size);
    text->size += size;
}

/* Appends the bytes of a file, and returns how many they are. */
static size_t append_file(struct bytes *text, const char *name)
{
    char part[4096];
    size_t before = text->size, size;
    FILE *file = fopen(name, "rb");
    append(text, "", 0);
    if (!file) {
        perror(name);
        exit(3);
    }
    while ((size = fread(part, 1, sizeof part, file)) > 0)
        append(text, part, size);
    fclose(file);
    return text->size - before;
}

int main(int argc, char **argv)
{
    struct bytes document = {0}, files = {0};
    dyncollate_outcome got = {0, 0, 64, 4096};
    size_t count = 0, *lengths, *numbers = NULL, at, i;
    uint8_t *text = NULL;

    if (argc < 2) {
        fputs("usage: collate TARGETFILE FILE..\n", stderr);
        return 2;
    }
    append_file(&document, argv[1]);
    append(&files, "", 0);
    lengths = allocated(malloc((2 * (size_t)argc) * sizeof *lengths));
    for (i = 2; i < (size_t)argc; i++) {
        append(&files, argv[i], lengths[count++] = strlen(argv[i]));
        lengths[count++] = append_file(&files, argv[i]);
    }

    /* With too little room the outcome says how much is needed. */
    do {
        size_t numbers_room = got.numbers, text_room = got.text;
        numbers = allocated(realloc(numbers, (numbers_room + 1) * sizeof *numbers));
        text = allocated(realloc(text, text_room + 1));
        got = dyncollate_collate(document.at, document.size, lengths, count, files.at, files.size,
                                 numbers, numbers_room, text, text_room);
    } while (!got.written && got.status < DYNCOLLATE_NO_MEMORY);

    if (got.written) {
        fwrite(text, 1, numbers[0], stdout);
        fwrite(text + numbers[0], 1, numbers[1], stderr);
        at = numbers[0] + numbers[1];
        for (i = 2; i < got.numbers; i += 3) {
            printf("==> %.*s <==\n", (int)numbers[i], (const char *)text + at);
            fwrite(text + at + numbers[i], 1, numbers[i + 1], stdout);
            at += numbers[i] + numbers[i + 1];
        }
    }
    free(document.at);
    free(files.at);
    free(lengths);
    free(numbers);
    free(text);
    return (int)got.status;
}
