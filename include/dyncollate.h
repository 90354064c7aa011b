/* libdyncollate: the commands of `dyncollate` as functions of your program.

   A call gets the bytes of the files that the command reads, and returns what the command prints
   and the files that it writes. It reads and writes no file itself. This program prints the dyndep
   file of one scan document:

       #include <dyncollate.h>
       #include <stdio.h>

       int main(void) {
           static const char scan[] =
               "{\"version\":1,\"rules\":[{\"primary-output\":\"obj/b.o\"}]}";
           size_t numbers[12];
           uint8_t text[4096];
           dyncollate_outcome got = dyncollate_one(
               (const uint8_t *)scan, sizeof scan - 1, (const uint8_t *)"mod", 3,
               (const uint8_t *)".bmi", 4, numbers, 12, text, sizeof text);
           if (!got.written)
               return 1;
           fwrite(text, 1, numbers[0], stdout);
           fwrite(text + numbers[0], 1, numbers[1], stderr);
           return (int)got.status;
       }

       cc b.c $(pkg-config --cflags --libs dyncollate) && ./a.out
       cc -static b.c $(pkg-config --static --cflags --libs dyncollate) && ./a.out

   With CMake, find_package(dyncollate) defines the targets dyncollate::dyncollate, the shared
   object, and dyncollate::static. For C++ there is dyncollate.hpp.

   FORMATS.md, which ./install puts into share/doc/dyncollate, describes the formats, and which
   error is reported.

   WHAT YOU PASS
     A string is a pointer to bytes and their count. It needs no zero at its end. A pointer whose
     count is 0 may be NULL, also those of `lengths`, `numbers` and `text`.
     Several files are one string `files`, in which the name and the bytes of each file follow each
     other, and `lengths`, which has two numbers per file: the length of its name, and of its bytes.
     `length_count` counts these numbers. If a name is there twice, its first file is used. A file
     that a document names and that is not there is a file that cannot be read.

   WHAT YOU GET
     You provide room for `numbers` and for `text`. The two overlap nothing else that you pass.
     If both have enough room, the result is at their beginning, `written` is 1, and what follows it
     is unchanged. Otherwise `written` is 0, both are unchanged, and the outcome says how much room
     is needed: call again with that much.
     The text of the six commands is standard output, standard error, and the name and the bytes of
     each file that the command writes, in that order. Their numbers are the length of standard
     output, the length of standard error, and three per file: the length of its name, the length of
     its bytes, and 1 if a file that already has these bytes is to be left alone ("restat":true in
     the target document), else 0. A command that fails writes no file, and has two numbers. The ten
     of `dyncollate_location` follow them if there is room for twelve, but need none.

   OWNERSHIP
     All memory that you pass stays yours, and no call keeps a pointer to it. Nothing that you get
     has to be freed: each call frees what it allocated, also if an allocation fails.

   GUARANTEES
     The functions are proved against contracts that say byte for byte what they write, in terms of
     the definitions that also specify the program: same bytes, same order, same errors. In the
     sources of dyncollate, docs/PROVED.md says what is proved and what is trusted.
     Your side of the contract is not checked: if a pointer has fewer elements than its count says,
     the behaviour is undefined.
     A call allocates with malloc, realloc and free, and calls nothing else of the system. There is
     no global state, so any number of threads may call at once. The same bytes give the same
     result. */
#ifndef DYNCOLLATE_H
#define DYNCOLLATE_H

#include <stddef.h>
#include <stdint.h>

#ifdef __cplusplus
extern "C" {
#endif

/* The version of this header: 10000 times the major version, 100 times the minor one, and the
   patch, so that 1.2.3 is 10203. */
#define DYNCOLLATE_VERSION 10200

/* Returns the version of the library that the program runs with. It is at least that of the header
   if the library is newer. All libraries with the major version 1 have the name libdyncollate.so.1,
   and a newer one has all functions of an older one. */
uint32_t dyncollate_version(void);

/* The status of an outcome. For each but DYNCOLLATE_DONE no file is to be written. */
enum {
    DYNCOLLATE_DONE = 0,      /* the command succeeded */
    DYNCOLLATE_REJECTED = 1,  /* the input is not valid; the line on standard error says why */
    DYNCOLLATE_UNREAD = 3,    /* a file that a document names was not passed; the line says which */
    DYNCOLLATE_NO_MEMORY = 4, /* an allocation failed, so nothing is known about the input */
    DYNCOLLATE_MISUSED = 5    /* `length_count` is odd, the lengths do not add up to `files_size`,
                                 or the name of a file, `dir`, `ext` or `name` is not UTF-8 */
};

typedef struct dyncollate_outcome {
    uint32_t status;  /* one of the above */
    uint32_t written; /* 1 if the result was written to `numbers` and `text`, else 0 */
    size_t numbers;   /* how many numbers the result has; 0 for DYNCOLLATE_NO_MEMORY and _MISUSED */
    size_t text;      /* how many bytes its text has; 0 for these two */
} dyncollate_outcome;

/* dyncollate collate TARGETFILE: `document` has the bytes of the target document, and `files` the
   files that it names. Write those of the result in their order: the dyndep file comes last. */
dyncollate_outcome dyncollate_collate(
    const uint8_t *document, size_t document_size,
    const size_t *lengths, size_t length_count, const uint8_t *files, size_t files_size,
    size_t *numbers, size_t numbers_room, uint8_t *text, size_t text_room);

/* dyncollate project FILE: `document` has the bytes of the project document, and `files` the target
   documents and the files that these name. */
dyncollate_outcome dyncollate_project(
    const uint8_t *document, size_t document_size,
    const size_t *lengths, size_t length_count, const uint8_t *files, size_t files_size,
    size_t *numbers, size_t numbers_room, uint8_t *text, size_t text_room);

/* dyncollate one SCAN DIR EXT: `scan` has the bytes of the scan document. */
dyncollate_outcome dyncollate_one(
    const uint8_t *scan, size_t scan_size,
    const uint8_t *dir, size_t dir_size, const uint8_t *ext, size_t ext_size,
    size_t *numbers, size_t numbers_room, uint8_t *text, size_t text_room);

/* dyncollate effect NAME EDGES DYNDEP: `edges` and `dyndep` have the bytes of the files. */
dyncollate_outcome dyncollate_effect(
    const uint8_t *name, size_t name_size,
    const uint8_t *edges, size_t edges_size, const uint8_t *dyndep, size_t dyndep_size,
    size_t *numbers, size_t numbers_room, uint8_t *text, size_t text_room);

/* dyncollate order EDGES: `edges` has the bytes of the edge list. */
dyncollate_outcome dyncollate_order(
    const uint8_t *edges, size_t edges_size,
    size_t *numbers, size_t numbers_room, uint8_t *text, size_t text_room);

/* dyncollate show DYNDEP: `dyndep` has the bytes of the dyndep file. */
dyncollate_outcome dyncollate_show(
    const uint8_t *dyndep, size_t dyndep_size,
    size_t *numbers, size_t numbers_room, uint8_t *text, size_t text_room);

/* Reads a dyndep file as data, for tools that load such files. The status is DYNCOLLATE_DONE,
   DYNCOLLATE_REJECTED or DYNCOLLATE_NO_MEMORY.
   If it is accepted, the text has the paths of each statement, one after another and without
   escapes: its output, its implicit outputs, its implicit inputs. For each statement the numbers
   are 1 if it has `restat`, else 0; how many implicit outputs it has; how many implicit inputs; and
   then the lengths of these paths, in the order of the text.
   If it is rejected, the one number is the line of the first error, from 1, and the text is its
   code and name, such as `Y8 BadLine`. dyncollate_show fails with the same error. */
dyncollate_outcome dyncollate_statements(
    const uint8_t *dyndep, size_t dyndep_size,
    size_t *numbers, size_t numbers_room, uint8_t *text, size_t text_room);

/* What has an error. */
enum {
    DYNCOLLATE_TARGET = 1, /* a target document */
    DYNCOLLATE_PROJECT,    /* a project document */
    DYNCOLLATE_SCAN,       /* a scan document */
    DYNCOLLATE_INFO,       /* an info file */
    DYNCOLLATE_EDGES,      /* an edge list */
    DYNCOLLATE_NAME,       /* the argument `name` of dyncollate_effect */
    DYNCOLLATE_DYNDEP      /* a dyndep file */
};

/* The lists that an entry can be in. */
enum {
    DYNCOLLATE_PROVIDES = 1, /* `provides` of a rule */
    DYNCOLLATE_REQUIRES,     /* `requires` of a rule or of a module */
    DYNCOLLATE_PATHS         /* the output, implicit outputs and implicit inputs of a statement */
};

/* Stands for a number that an error does not have. */
#define DYNCOLLATE_ABSENT ((size_t)-1)

/* Where the error of a command is, and which error it is: the numbers after the two lengths, in
   this order. With the status DYNCOLLATE_REJECTED or DYNCOLLATE_UNREAD, and with room for twelve
   numbers, copy them:
       dyncollate_location at;
       memcpy(&at, numbers + 2, sizeof at);
   If the error has no such number, the first four are 0, and the others DYNCOLLATE_ABSENT. Indexes
   count from 0, and lines from 1. For
       dyncollate: target 2: scan 0: S6 BadName rule 1 requires 3
   document is DYNCOLLATE_SCAN, letter 'S', number 6, list DYNCOLLATE_REQUIRES, target 2, index 0,
   item 1 and entry 3, and line and offset are DYNCOLLATE_ABSENT. */
typedef struct dyncollate_location {
    size_t document; /* what has the error, such as DYNCOLLATE_SCAN, or 0 also if not one file */
    size_t letter;   /* the letter of its code, such as 'S' */
    size_t number;   /* the number of its code, such as 6 */
    size_t list;     /* the list that `entry` is in, such as DYNCOLLATE_REQUIRES */
    size_t target;   /* which target of a project */
    size_t index;    /* which scan document or info file, in the list of the target document */
    size_t line;     /* which line of a dyndep file or of an edge list */
    size_t item;     /* which rule of a scan document, module of an info file, or statement */
    size_t entry;    /* which entry of `list` */
    size_t offset;   /* which byte of the line */
} dyncollate_location;

#ifdef __cplusplus
}
#endif

#endif
