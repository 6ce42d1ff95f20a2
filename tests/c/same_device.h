/* Two devices of one value, field by field: what lies between the fields does not count. */
#ifndef SAME_DEVICE_H
#define SAME_DEVICE_H

#include <stdbool.h>
#include <string.h>

#include "lm89.h"

static inline bool same_device(const lm89_device *x, const lm89_device *y)
{
    return x->sensed.local == y->sensed.local && x->sensed.remote == y->sensed.remote && x->sensed.live == y->sensed.live
        && x->sensed.faults == y->sensed.faults && x->sensed.llatch == y->sensed.llatch && x->sensed.rlatch == y->sensed.rlatch
        && x->variant == y->variant && x->pointer == y->pointer && x->pending == y->pending && x->status == y->status
        && x->low == y->low && x->lowkept == y->lowkept
        && memcmp(x->settings, y->settings, sizeof x->settings) == 0;
}

#endif
