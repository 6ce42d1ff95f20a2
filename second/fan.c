/* The fan of request g; see fan.h and NOTES.md.  Every sum is taken in int.  Quoted
 * sentences are request g's. */
#include "fan.h"

#include <stdbool.h>

/* The two numbers of an entry. */
enum {
    TEMPERATURE = 0,
    VALUE = 1
};

/* The ends of the ranges; each begins at 0. */
enum {
    TEMPERATURE_MOST = 127,
    VALUE_MOST = 63,
    HYSTERESIS_MOST = 31,
    FREQUENCY_MOST = 31,
    STEP_MOST = SECOND_FAN_ENTRIES
};

enum { ALL = 10000 }; /* the whole, in hundredths of a percent */

/* "0 counting as 1". */
static int n_of(int frequency)
{
    return frequency == 0 ? 1 : frequency;
}

/* "Duty is value over 2n, all of it when value is 2n or more, reported in hundredths of a
 * percent, at most half a hundredth from the exact fraction, ties upward." */
static int duty_of(int n, int value)
{
    int whole = 2 * n;
    if (value >= whole)
        return ALL;
    int hundredths = value * ALL / whole;
    int rest = value * ALL % whole;
    return 2 * rest >= whole ? hundredths + 1 : hundredths;
}

/* "The preset of about 75 percent is one and a half n, a half going up, but 1 at n = 1". */
static int preset_of(int n)
{
    int halves = 3 * n;
    if (n == 1)
        return 1;
    return halves / 2 + halves % 2;
}

/* "11 for temperatures that fall along the table". */
static bool falls(const second_fan *fan)
{
    for (int i = 1; i < SECOND_FAN_ENTRIES; i++)
        if (fan->table[i][TEMPERATURE] < fan->table[i - 1][TEMPERATURE])
            return true;
    return false;
}

/* "4 for any number out of its range". */
static bool in_range(const second_fan *fan, int earlier)
{
    for (int i = 0; i < SECOND_FAN_ENTRIES; i++)
        if (fan->table[i][TEMPERATURE] > TEMPERATURE_MOST || fan->table[i][VALUE] > VALUE_MOST)
            return false;
    return fan->hysteresis <= HYSTERESIS_MOST && fan->frequency <= FREQUENCY_MOST &&
           earlier <= STEP_MOST;
}

/* Of an entry, counted from 1: "whose temperature the signed whole degrees reach, or, for
 * entries up to the earlier step, whose temperature less hysteresis they reach". */
static bool reached(const second_fan *fan, int entry, int earlier, int reading)
{
    int temperature = fan->table[entry - 1][TEMPERATURE];
    int hysteresis = fan->hysteresis;
    if (reading >= temperature)
        return true;
    return entry <= earlier && reading >= temperature - hysteresis;
}

/* "The step after a reading is the highest entry" that is reached; 0 if none is. */
static int step_after(const second_fan *fan, int earlier, int reading)
{
    for (int entry = SECOND_FAN_ENTRIES; entry >= 1; entry--)
        if (reached(fan, entry, earlier, reading))
            return entry;
    return 0;
}

second_driven second_fan_step(second_fan fan, uint8_t earlier, int8_t reading)
{
    second_driven driven = { SECOND_FAN_OK, 0, 0, 0 };
    if (falls(&fan)) {
        driven.code = SECOND_FAN_FALLING;
        return driven;
    }
    if (!in_range(&fan, earlier)) {
        driven.code = SECOND_FAN_RANGE;
        return driven;
    }
    int step = step_after(&fan, earlier, reading);
    int value = step == 0 ? 0 : fan.table[step - 1][VALUE]; /* "no such entry means PWM value 0" */
    driven.step = (uint8_t)step;
    driven.value = (uint8_t)value;
    driven.duty = (uint16_t)duty_of(n_of(fan.frequency), value);
    return driven;
}

second_number second_fan_duty(uint8_t frequency, uint8_t value)
{
    second_number duty = { SECOND_FAN_OK, 0 };
    if (frequency > FREQUENCY_MOST || value > VALUE_MOST)
        duty.code = SECOND_FAN_RANGE;
    else
        duty.value = (uint16_t)duty_of(n_of(frequency), value);
    return duty;
}

second_number second_fan_preset(uint8_t frequency)
{
    second_number preset = { SECOND_FAN_OK, 0 };
    if (frequency > FREQUENCY_MOST)
        preset.code = SECOND_FAN_RANGE;
    else
        preset.value = (uint16_t)preset_of(n_of(frequency));
    return preset;
}
