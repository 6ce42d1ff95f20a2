/* The tachometer of request h; see tach.h and NOTES.md.  Quoted sentences are request h's. */
#include "tach.h"

/* At 90 kHz so many ticks are a minute. */
enum { MINUTE = 5400000 };

/* "The period is the later stamp less the earlier, going round": modulo 65,536, so that it is
 * 0 for equal stamps and else 1 to 65,535. */
static uint32_t period_of(uint16_t earlier, uint16_t later)
{
    return (uint16_t)(later - earlier);
}

/* "speed is 5,400,000 divided by the period, rounded down". */
static uint32_t speed_of(uint32_t period)
{
    return MINUTE / period;
}

static second_speeds refused(uint8_t code)
{
    second_speeds none = { code, 0, 0, 0 };
    return none;
}

second_speeds second_tach(const uint16_t *stamps, size_t count, uint32_t floor)
{
    if (count < 2)
        return refused(SECOND_TACH_FEW);

    second_speeds speeds = { SECOND_TACH_OK, MINUTE, 0, 0 }; /* no speed is above MINUTE */
    for (size_t i = 1; i < count; i++) {
        uint32_t period = period_of(stamps[i - 1], stamps[i]);
        if (period == 0)
            return refused(SECOND_TACH_EQUAL);
        uint32_t speed = speed_of(period);
        if (speed < speeds.slowest)
            speeds.slowest = speed;
        if (speed > speeds.fastest)
            speeds.fastest = speed;
        if (speed < floor)
            speeds.under++;
    }
    return speeds;
}
