/* The heap of the WebAssembly module: malloc and free, and by them the three functions that the
   toolchain has for x86-64 in its liblibc_c.a. A page in a browser has no C library.

   A block has a power of two of bytes, at least 32. Its first 16 bytes are its header. A block that
   is freed is kept in the list of its size, and the next allocation of that size takes it from
   there. If the list is empty, the block is taken from the end of the memory, which grows. A call
   of the library frees all that it allocated, so the next call finds its blocks in the lists.

   This file is not proved. tests/web.py runs each row of tests/rows with it, and calls that run out
   of memory. tests/web_functions.c calls its functions. */
typedef __SIZE_TYPE__ size;

typedef struct block {
    size order; /* the block has 1 << order bytes, with this header */
    struct block *next;
} block;

enum { SMALLEST = 5, PAGE = 16, LARGEST = 40 }; /* as powers of two */

extern unsigned char __heap_base;
static block *freed[LARGEST + 2];
static size end, limit; /* the first byte that no block has, and the first byte after the memory */

/* Makes the memory larger by these pages at least. An eighth of the memory more is asked for first,
   so that it grows seldom. memory.grow returns how many pages there were, and otherwise -1, of 32
   bits if wasm-opt made the memory one of 32 bits. */
static int has_grown(size pages) {
    size more = pages + (limit >> (PAGE + 3)), before = limit >> PAGE;
    if (__builtin_wasm_memory_grow(0, more) != before) {
        more = pages;
        if (__builtin_wasm_memory_grow(0, more) != before) return 0;
    }
    limit += more << PAGE;
    return 1;
}

void *malloc(size bytes) {
    if (bytes > (size)1 << LARGEST) return 0;
    size order = 64 - (size)__builtin_clzll(bytes + sizeof(block) - 1);
    if (order < SMALLEST) order = SMALLEST;
    block *it = freed[order];
    if (it) {
        freed[order] = it->next;
        return it + 1;
    }
    if (!end) {
        end = ((size)&__heap_base + 15) & ~(size)15;
        limit = __builtin_wasm_memory_size(0) << PAGE;
    }
    size room = (size)1 << order;
    if (room > limit - end && !has_grown((room - (limit - end) + ((size)1 << PAGE) - 1) >> PAGE))
        return 0;
    it = (block *)end;
    end += room;
    it->order = order;
    return it + 1;
}

void free(void *at) {
    if (!at) return;
    block *it = (block *)at - 1;
    it->next = freed[it->order];
    freed[it->order] = it;
}

/* The functions of the toolchain's heap. They return whether there was memory,
   and a pointer that is never null. */
typedef struct { _Bool ok; void *at; } allocated;

static char nothing;

static allocated allocated_at(void *at) { return (allocated){at != 0, at ? at : &nothing}; }

allocated rattle_alloc(size bytes, size align)
{
    return allocated_at(malloc(bytes ? bytes : align));
}

allocated rattle_realloc(void *at, size used, size bytes, size align) {
    size wanted = bytes ? bytes : align,
         room = ((size)1 << ((block *)at - 1)->order) - sizeof(block);
    if (wanted <= room) return (allocated){1, at};
    void *to = malloc(wanted);
    if (to) {
        __builtin_memcpy(to, at, used < wanted ? used : wanted);
        free(at);
    }
    return allocated_at(to);
}

void rattle_dealloc(void *at) { free(at); }
