/* An accepted target: `show` prints its dyndep file, which is written last, unchanged. */
#include "calls.h"

int LLVMFuzzerTestOneInput(const uint8_t *bytes, size_t size)
{
    struct input input = input_of(bytes, size);
    struct result got = answer_in_any_order(COLLATE, &input);
    if (got.status == DYNCOLLATE_DONE)
        require_shown_unchanged(part(&got, parts(&got) - 1));
    drop(got);
    return 0;
}
