/* Coverage for libFuzzer of a library that is not compiled for it. Each basic block of the shared
   object begins with a breakpoint. The first run of the block removes the breakpoint and counts for
   libFuzzer as new coverage. blocks.h is made by tests/fuzzing.py: BLOCKS is the number of blocks,
   and OFFSETS has their offsets in order. */
#include "blocks.h"

#include <dlfcn.h>
#include <signal.h>
#include <stdint.h>
#include <stdio.h>
#include <stdlib.h>
#include <sys/mman.h>
#include <ucontext.h>

enum { BREAKPOINT = 0xcc, PAGE = 4096 };
static const unsigned offsets[BLOCKS] = {OFFSETS};
static uint8_t before[BLOCKS], *base;
static size_t reached;
__attribute__((section("__libfuzzer_extra_counters"))) static uint8_t counters[BLOCKS];

static int compare(const void *one, const void *other)
{
    unsigned a = *(const unsigned *)one, b = *(const unsigned *)other;
    return (a > b) - (a < b);
}

static void on_breakpoint(int number, siginfo_t *info, void *context)
{
    greg_t *next = &((ucontext_t *)context)->uc_mcontext.gregs[REG_RIP];
    unsigned offset = (unsigned)((uint8_t *)*next - 1 - base);
    const unsigned *found = bsearch(&offset, offsets, BLOCKS, sizeof *offsets, compare);
    (void)number, (void)info;
    if (!found || base[offset] != BREAKPOINT)
        abort();
    base[offset] = before[found - offsets];
    counters[found - offsets] = 1;
    reached++;
    --*next;
}

int LLVMFuzzerInitialize(int *count, char ***words)
{
    struct sigaction action = {0};
    size_t first = offsets[0] & ~(size_t)(PAGE - 1), index;
    Dl_info found;
    (void)count, (void)words;
    action.sa_sigaction = on_breakpoint;
    action.sa_flags = SA_SIGINFO;
    if (!dladdr(dlsym(RTLD_DEFAULT, "dyncollate_show"), &found) || sigaction(SIGTRAP, &action, 0))
        abort();
    base = found.dli_fbase;
    if (mprotect(base + first, offsets[BLOCKS - 1] + 1 - first, PROT_READ | PROT_WRITE | PROT_EXEC))
        abort();
    for (index = 0; index < BLOCKS; index++) {
        before[index] = base[offsets[index]];
        base[offsets[index]] = BREAKPOINT;
    }
    return 0;
}

__attribute__((destructor)) static void report(void)
{
    fprintf(stderr, "blocks: %zu of %d\n", reached, BLOCKS);
}
