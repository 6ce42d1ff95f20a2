/*
 * The fan of a board with an LM63: which entry of its lookup table is in force as the board warms up and cools down, the PWM value of that entry and its
 * duty. An entry comes into force at its temperature and stays, unless a higher one does, until the reading is below that less hysteresis: 63 degrees mean
 * entry 4 on the way down from 66, and entry 3 on the way up from 60. examples/bench.c shows the test of the library's version.
 */
#include <stdio.h>
#include <stdlib.h>

#include "lm89.h"

#define HYSTERESIS 4   /* degrees, as at power-on */
#define FREQUENCY 20   /* a PWM value of twice that or more is a duty of 100 percent */
#define HUNDREDTHS 100 /* duties are in hundredths of a percent */

/* The data sheet's example, temperature and PWM value. Its page prints nine rows for a table of eight entries: the row of 25 degrees is left out. */
static const lm89_fan fan = {
    {{35, 9}, {45, 10}, {55, 13}, {65, 16}, {75, 21}, {85, 26}, {95, 33}, {105, 40}},
    HYSTERESIS,
    FREQUENCY,
};

/* What the board reads, in whole degrees. */
static const int8_t readings[] = {-5, 34, 35, 48, 66, 63, 60, 63, 88, 106, 101, 100, 72, 40, 31, 30};

/* The first entry whose temperature is below that of the one before it, counted from 0; the last if there is none. */
static unsigned falling_entry(void)
{
    unsigned entry = 1;
    while (entry < LM89_FAN_ENTRIES - 1 && fan.table[entry][LM89_FAN_TEMPERATURE] >= fan.table[entry - 1][LM89_FAN_TEMPERATURE]) {
        entry++;
    }
    return entry;
}

static void end_if_refused(const char *call, uint8_t code)
{
    if (code == LM89_CODE_DONE) {
        return;
    }
    unsigned entry = falling_entry();
    fprintf(stderr, "fan: %s gives code %u: ", call, code);
    if (code == LM89_CODE_FALLING) {
        fprintf(stderr, "entry %u has %u degrees, below the %u of entry %u: put the entries in order of temperature\n", entry + 1,
            fan.table[entry][LM89_FAN_TEMPERATURE], fan.table[entry - 1][LM89_FAN_TEMPERATURE], entry);
    } else {
        fprintf(stderr, "out of range: make temperatures 0 to 127, PWM values 0 to 63, hysteresis and frequency 0 to 31\n");
    }
    exit(1);
}

static void warm_up_and_cool_down(void)
{
    uint8_t step = 0; /* no entry is in force before the first reading */
    printf("degrees  step  PWM value  duty in percent\n");
    for (size_t i = 0; i < sizeof readings; i++) {
        lm89_driven driven = lm89_fan_step(fan, step, readings[i]);
        end_if_refused("lm89_fan_step", driven.code);
        step = driven.step;
        printf("%7d  %4u  %9u  %12u.%02u\n", readings[i], driven.step, driven.value, driven.duty / HUNDREDTHS, driven.duty % HUNDREDTHS);
    }
}

int main(void)
{
    warm_up_and_cool_down();
    lm89_number preset = lm89_fan_preset(fan.frequency);
    end_if_refused("lm89_fan_preset", preset.code);
    lm89_number duty = lm89_fan_duty(fan.frequency, (uint8_t)preset.value);
    end_if_refused("lm89_fan_duty", duty.code);
    printf("preset of about 75 percent: PWM value %u, duty %u.%02u percent\n", preset.value, duty.value / HUNDREDTHS, duty.value % HUNDREDTHS);
    return fclose(stdout) == 0 ? 0 : 1;
}
