/* What `effect` prints, it accepts: without statements it prints it unchanged. `order` finds an
   order in it or a cycle. */
#include "calls.h"

int LLVMFuzzerTestOneInput(const uint8_t *bytes, size_t size)
{
    struct input input = input_of(bytes, size), list = {1, {{0, 0}}};
    struct result got = answer(EFFECT, &input), again, order;
    if (got.status == DYNCOLLATE_DONE) {
        again = effect_of_nothing(part(&got, 0));
        require(again.status == DYNCOLLATE_DONE ? equal(part(&again, 0), part(&got, 0))
                                                : is_beyond_order(&again));
        list.strings[0] = part(&got, 0);
        order = answer(ORDER, &list);
        require(order.status == DYNCOLLATE_DONE || begins(part(&order, 1), "dyncollate: cycle "));
        drop(again);
        drop(order);
    }
    drop(got);
    return 0;
}
