/* The LM63 fan table (document 02, request g; source document 000).  It stands beside the
 * sensor and uses nothing of it. */
#ifndef SECOND_FAN_H
#define SECOND_FAN_H

#include <stdint.h>

/* Codes. */
enum {
    SECOND_FAN_OK = 0,
    SECOND_FAN_RANGE = 4,   /* a number is out of its range */
    SECOND_FAN_FALLING = 11 /* the temperatures fall along the table */
};

enum { SECOND_FAN_ENTRIES = 8 };

typedef struct {
    uint8_t table[SECOND_FAN_ENTRIES][2]; /* temperature 0 to 127, PWM value 0 to 63 */
    uint8_t hysteresis;                   /* 0 to 31 */
    uint8_t frequency;                    /* n, 0 to 31, 0 counting as 1 */
} second_fan;

typedef struct {
    uint8_t code;
    uint8_t step;  /* the entry, 1 to 8, or 0 for none */
    uint8_t value; /* its PWM value, or 0 */
    uint16_t duty; /* of that value, hundredths of a percent */
} second_driven;

typedef struct {
    uint8_t code;
    uint16_t value;
} second_number;

/* The step after a reading in whole degrees, from the earlier step, 0 (none) to 8.
 *   11 if a temperature of the table is below the one before it, as the bytes stand; then
 *   4 if a temperature, PWM value, hysteresis, frequency or the earlier step is out of its
 *   range, these two with all else 0; or 0. */
second_driven second_fan_step(second_fan fan, uint8_t earlier, int8_t reading);

/* The duty of a PWM value in hundredths of a percent, ties upward: 4 if either is out of its
 * range, with value 0; or 0. */
second_number second_fan_duty(uint8_t frequency, uint8_t value);

/* The PWM value for about 75 percent: 4 if the frequency is out of its range, with value 0;
 * or 0. */
second_number second_fan_preset(uint8_t frequency);

#endif
