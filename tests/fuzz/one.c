/* An accepted scan document: `show` prints its dyndep file unchanged. */
#include "calls.h"

int LLVMFuzzerTestOneInput(const uint8_t *bytes, size_t size)
{
    struct input input = input_of(bytes, size);
    struct result got = answer(ONE, &input);
    if (got.status == DYNCOLLATE_DONE)
        require_shown_unchanged(part(&got, 0));
    drop(got);
    return 0;
}
