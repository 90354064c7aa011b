/* An accepted edge list has an order or a cycle. It is accepted if and only if `effect` accepts it,
   which has the same edges then. */
#include "calls.h"

#include <string.h>

static size_t lines(struct string all, const char *beginning)
{
    size_t count = 0;
    const uint8_t *line = all.at, *end = all.at + all.size;
    for (; line < end; line = (const uint8_t *)memchr(line, '\n', (size_t)(end - line)) + 1)
        count += begins((struct string){line, (size_t)(end - line)}, beginning);
    return count;
}

int LLVMFuzzerTestOneInput(const uint8_t *bytes, size_t size)
{
    struct input input = {1, {{bytes, size}}};
    struct result order = answer(ORDER, &input),
                  list = effect_of_nothing((struct string){bytes, size}), again;
    struct string line = part(&order, 1);
    if (order.status == DYNCOLLATE_REJECTED && !begins(line, "dyncollate: cycle ")) {
        require(list.status == DYNCOLLATE_REJECTED && equal(part(&list, 1), line));
    } else if (list.status == DYNCOLLATE_DONE) {
        require(order.status != DYNCOLLATE_DONE ||
                lines(part(&order, 0), "") == lines(part(&list, 0), "build "));
        input.strings[0] = part(&list, 0);
        again = answer(ORDER, &input);
        require(same_results(&order, &again));
        drop(again);
    } else {
        require(is_beyond_order(&list));
    }
    drop(order);
    drop(list);
    return 0;
}
