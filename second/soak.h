/* Is T_CRIT_A pulled at the end of a long soak? (document 02, request f) */
#ifndef SECOND_SOAK_H
#define SECOND_SOAK_H

#include "second.h"

typedef struct {
    uint8_t code;
    bool pulled;   /* T_CRIT_A at the end of the stretch; false on a refusal */
    uint64_t read; /* records read, a refused one counted */
} second_soaked;

/* A stretch of conversions of a device in run mode, read from the end backwards until both
 * latches are forced, whatever was before the records read, or the start is reached.
 *   8 if the device is out of its ranges, a variant not 1 to 3 among them; then
 *   10 if it is in standby; then
 *   4 if the length is no multiple of four, these three with `read` 0; then, at the first
 *   record read that is no valid 05 or 06, 3 for another kind and 4 for an operand; or 0.
 * Records that are not read are not judged.  NULL is fine with length 0. */
second_soaked second_soak(second_device device, const uint8_t *records, size_t length);

#endif
