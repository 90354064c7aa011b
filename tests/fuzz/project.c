/* An accepted project: `show` prints the dyndep file of each target unchanged. */
#include "calls.h"

int LLVMFuzzerTestOneInput(const uint8_t *bytes, size_t size)
{
    struct input input = input_of(bytes, size);
    struct result got = answer_in_any_order(PROJECT, &input);
    size_t index;
    if (got.status == DYNCOLLATE_DONE)
        for (index = 3; index < parts(&got); index += 2)
            if (begins(part(&got, index), "ninja_dyndep_version = 1\n"))
                require_shown_unchanged(part(&got, index));
    drop(got);
    return 0;
}
