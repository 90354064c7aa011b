/* web_functions ROUNDS: calls the functions in web/heap.c and web/wide.c, and checks what their
   comments say. It prints the lines that do not hold. */
#include <stdint.h>
#include <stdio.h>
#include <stdlib.h>
#include <string.h>
#include <sys/mman.h>

static size_t pages_now(void);
static size_t grow(size_t pages);

/* other names than those of the C library and of libgcc */
#define malloc heap_malloc
#define free heap_free
#define __heap_base (*heap_base)
#define __builtin_wasm_memory_size(index) pages_now()
#define __builtin_wasm_memory_grow(index, pages) grow(pages)
#include "../web/heap.c"
#undef malloc
#undef free
#define __multi3 wide_product
#define __ashlti3 wide_left
#define __lshrti3 wide_right
#include "../web/wide.c"

typedef unsigned __int128 wide;

static int failed;

#define HOLDS(it) ((it) ? (void)0 : (void)(failed = 1, printf("line %d: %s\n", __LINE__, #it)))

static uint64_t random_bits(void)
{
    static uint64_t state = 88172645463325252;
    state ^= state << 13;
    state ^= state >> 7;
    state ^= state << 17;
    return state;
}

/* ---- web/wide.c */

static void wide_values(wide x, wide y)
{
    HOLDS(wide_product(x, y) == x * y);
    for (int bits = 0; bits < 128; bits++) {
        HOLDS(wide_left(x, bits) == x << bits);
        HOLDS(wide_right(x, bits) == x >> bits);
    }
}

static wide joined(uint64_t high, uint64_t low) { return (wide)high << 64 | low; }

static void wide_functions(int rounds)
{
    static const uint64_t edges[] = {0, 1, 0xffffffff, 1ull << 32, 1ull << 63, UINT64_MAX};
    enum { EDGES = sizeof edges / sizeof *edges, PAIRS = EDGES * EDGES };
    for (int pair = 0; pair < PAIRS * PAIRS; pair++) {
        int x = pair % PAIRS, y = pair / PAIRS;
        wide_values(joined(edges[x % EDGES], edges[x / EDGES]),
                    joined(edges[y % EDGES], edges[y / EDGES]));
    }
    for (; rounds > 0; rounds--) {
        wide x = joined(random_bits(), random_bits()), y = joined(random_bits(), random_bits());
        wide_values(x >> random_bits() % 128, y);
    }
}

/* ---- web/heap.c. Its memory is the first pages at `memory`. The others may not be touched. */

enum { PAGE_BYTES = 1 << PAGE, PAGES = 256, BEFORE = 4 };
static uint8_t *memory, *memory_end;
static int grown;
uint8_t *heap_base;

static size_t pages_now(void) { return (uintptr_t)memory_end / PAGE_BYTES; }

static size_t grow(size_t pages)
{
    size_t before = pages_now();
    if (pages > PAGES - (size_t)(memory_end - memory) / PAGE_BYTES) return (size_t)-1;
    HOLDS(!mprotect(memory_end, pages * PAGE_BYTES, PROT_READ | PROT_WRITE));
    memory_end += pages * PAGE_BYTES;
    grown++;
    return before;
}

static void begin(void)
{
    int flags = MAP_PRIVATE | MAP_ANONYMOUS;
    uint8_t *all = mmap(NULL, (PAGES + 1) * PAGE_BYTES, PROT_NONE, flags, -1, 0);
    if (all == MAP_FAILED) exit(2);
    memory = memory_end = all + (-(uintptr_t)all & (PAGE_BYTES - 1));
    grow(BEFORE);
    heap_base = memory + 1010;
    /* a block has a power of two of bytes with its header */
    uint8_t *first = heap_malloc(1008), *second = heap_malloc(1008);
    HOLDS(second - first == 1024);
    heap_free(first);
    heap_free(second);
}

enum { BLOCKS = 200 };
static struct {
    uint8_t *at, value;
    size_t size;
} blocks[BLOCKS];

static void fill(int index, void *at, size_t size)
{
    blocks[index].at = at;
    blocks[index].size = size;
    blocks[index].value = (uint8_t)random_bits();
    memset(at, blocks[index].value, size);
    HOLDS((uintptr_t)at % 16 == 0);
    HOLDS((uint8_t *)at >= heap_base && (uint8_t *)at + size <= memory_end);
}

static int is_filled(int index, size_t size)
{
    for (size_t at = 0; at < size; at++)
        if (blocks[index].at[at] != blocks[index].value) return 0;
    return 1;
}

static void release_block(int index)
{
    HOLDS(is_filled(index, blocks[index].size));
    rattle_dealloc(blocks[index].at);
    blocks[index].at = NULL;
}

static size_t some_size(void) { return random_bits() % ((size_t)1 << random_bits() % 16); }

/* A block keeps its bytes while others are allocated, made larger or smaller, and freed. */
static void change(int index)
{
    size_t before = blocks[index].size, size = some_size();
    if (!blocks[index].at) {
        allocated got = rattle_alloc(size, 8);
        HOLDS(got.ok);
        fill(index, got.at, size);
    } else if (random_bits() % 2) {
        release_block(index);
    } else {
        allocated got = rattle_realloc(blocks[index].at, before, size, 8);
        HOLDS(got.ok);
        blocks[index].at = got.at;
        HOLDS(is_filled(index, before < size ? before : size));
        fill(index, got.at, size);
    }
}

/* The same calls again need no more memory: what is freed is used again. */
static void heap_uses_again(void)
{
    int before = 0;
    for (int call = 0; call < 1000; call++) {
        allocated blocks_of[64], longer = rattle_alloc(0, 8);
        for (size_t index = 0; index < 64; index++) blocks_of[index] = rattle_alloc(index * 700, 8);
        for (size_t size = 0; size < PAGE_BYTES && longer.ok; size += 1000)
            longer = rattle_realloc(longer.at, size, size + 1000, 8);
        HOLDS(longer.ok);
        rattle_dealloc(longer.at);
        for (size_t index = 0; index < 64; index++) {
            HOLDS(blocks_of[index].ok);
            rattle_dealloc(blocks_of[index * 5 % 64].at);
        }
        HOLDS(call == 0 || grown == before);
        before = grown;
    }
    for (int size = 0; size < PAGE_BYTES; size += 13) {
        void *first = heap_malloc((size_t)size);
        heap_free(first);
        void *second = heap_malloc((size_t)size);
        HOLDS(first && first == second);
        heap_free(second);
    }
}

/* Without memory, a call says so, its pointer is not null, and the block stays as it is. */
static void heap_ends(void)
{
    allocated some = rattle_alloc(100, 8), none = rattle_alloc(0, 1), other = rattle_alloc(0, 1);
    HOLDS(some.ok && none.ok && other.ok && none.at != other.at);
    fill(0, some.at, 100);
    const size_t all = (size_t)PAGES * PAGE_BYTES;
    const size_t too_many[] = {all / 2, all, (size_t)1 << 40, (size_t)1 << 62, SIZE_MAX};
    for (size_t index = 0; index < sizeof too_many / sizeof *too_many; index++) {
        allocated failing = rattle_realloc(some.at, 100, too_many[index], 8);
        HOLDS(!failing.ok && failing.at && is_filled(0, 100));
        failing = rattle_alloc(too_many[index], 8);
        HOLDS(!failing.ok && failing.at && !heap_malloc(too_many[index]));
    }
    heap_free(NULL);
    release_block(0);
    /* the last pages, up to the end of the memory */
    int count = 0;
    for (void *at; (at = heap_malloc(PAGE_BYTES - 16)); count++) memset(at, 7, PAGE_BYTES - 16);
    HOLDS(count > PAGES / 4 && memory_end == memory + PAGES * PAGE_BYTES);
}

int main(int count, char **words)
{
    int rounds = count > 1 ? atoi(words[1]) : 0;
    wide_functions(rounds);
    begin();
    for (int round = 0; round < 20 * rounds; round++) change((int)(random_bits() % BLOCKS));
    for (int index = 0; index < BLOCKS; index++)
        if (blocks[index].at) release_block(index);
    heap_uses_again();
    heap_ends();
    return failed;
}
