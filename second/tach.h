/* The tachometer (document 02, request h; source document 002 has the counter).  It stands
 * beside sensor and fan and uses nothing of them. */
#ifndef SECOND_TACH_H
#define SECOND_TACH_H

#include <stddef.h>
#include <stdint.h>

/* Codes. */
enum {
    SECOND_TACH_OK = 0,
    SECOND_TACH_FEW = 12,  /* fewer than two stamps */
    SECOND_TACH_EQUAL = 13 /* two equal neighbours */
};

typedef struct {
    uint8_t code;
    uint32_t slowest; /* speeds are revolutions per minute, 82 to 5,400,000 */
    uint32_t fastest;
    uint64_t under;   /* how many of the speeds are below the floor */
} second_speeds;

/* The speeds of a list of stamps, one edge per revolution, of a counter at 90 kHz that passes
 * from 65,535 to 0: one speed for each two neighbours.
 *   12 if there are fewer than two stamps; then
 *   13 if two neighbours are equal, these two with all else 0; or 0.
 * NULL is fine with count 0. */
second_speeds second_tach(const uint16_t *stamps, size_t count, uint32_t floor);

#endif
