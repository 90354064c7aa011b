/* What `show` prints of an accepted file, it prints unchanged, and a comment more changes nothing.
   What follows the first faulty line changes nothing, unless the end of the file is the fault. */
#include "calls.h"

#include <stdlib.h>
#include <string.h>

static struct result with_more(const uint8_t *bytes, size_t size, const char *more)
{
    uint8_t *longer = malloc(size + strlen(more) + 1);
    struct input input = {1, {{longer, size + strlen(more)}}};
    struct result got;
    memcpy(longer, bytes, size);
    memcpy(longer + size, more, strlen(more) + 1);
    got = answer(SHOW, &input);
    free(longer);
    return got;
}

int LLVMFuzzerTestOneInput(const uint8_t *bytes, size_t size)
{
    struct result got = with_more(bytes, size, ""), more;
    struct string line = part(&got, 1);
    if (got.status == DYNCOLLATE_DONE) {
        require_shown_unchanged(part(&got, 0));
        more = with_more(bytes, size, "# more\n");
    } else {
        require(begins(line, "dyncollate: line "));
        if (memmem(line.at, line.size, ": N6 ", 5) || memmem(line.at, line.size, ": Y4 ", 5)) {
            drop(got);
            return 0;
        }
        more = with_more(bytes, size, "\nbuild x: dyndep\n");
    }
    require(same_results(&got, &more));
    drop(got);
    drop(more);
    return 0;
}
