/* The heap: the functions of the kit's libc/src/heap.rt, which has their contracts, over malloc,
   realloc and free. The kit has them only as x86-64 code, in liblibc_c.a. Nothing proves this file.
   The callers have proved: `align` divides 16, to which malloc aligns; `bytes` is less than 2^63;
   `at` is of a block that was returned as got, and not freed since. No header is included, so that
   the kit's compiler needs no C library for another processor. */
typedef __SIZE_TYPE__ size;

extern void *malloc(size bytes);
extern void *realloc(void *at, size bytes);
extern void free(void *at);

/* What the kit calls Tried. If it is not got, nothing is owned at `at`, which is not null and is
   neither read nor written. */
typedef struct {
    _Bool is_got;
    void *at;
} tried;

static char nothing;

static tried result(void *block) {
    return (tried){block != 0, block ? block : &nothing};
}

/* Tries to get a block of `bytes` bytes at a multiple of `align`, which nobody else owns until it
   is freed. A block of no bytes has an address of its own as well, so it is of `align` bytes. */
tried rattle_alloc(size bytes, size align) {
    return result(malloc(bytes ? bytes : align));
}

/* Tries to make the block at `at` one of `bytes` bytes at a multiple of `align`, which may move.
   Its first `kept` bytes are as they were: at most as many as the old block has, and the new one.
   If it is not got, the old block is as it was. */
tried rattle_realloc(void *at, size kept, size bytes, size align) {
    (void)kept; /* realloc keeps what is in both blocks */
    return result(realloc(at, bytes ? bytes : align));
}

/* Frees the block, which nobody owns any more. */
void rattle_dealloc(void *at) {
    free(at);
}
