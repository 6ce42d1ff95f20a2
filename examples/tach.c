/*
 * A fan that is switched off and runs down: a counter's stamp at each revolution, the period and the speed of each two neighbours, then the slowest and the
 * fastest speed of the run and how many of its speeds fell under a floor. The counter goes round on the way, from 62,700 to 164 and from 60,164 to 60,163:
 * the difference of two stamps in sixteen bits is the period all the same. examples/bench.c shows the test of the library's version.
 */
#include <stdio.h>
#include <stdlib.h>

#include "lm89.h"

#define FLOOR 900 /* revolutions a minute: a speed of 900 is not under it */

/* One a revolution, from a free-running 16-bit counter at 90 kHz. */
static const uint16_t stamps[] = {60000, 62700, 164, 6164, 60164, 60163};

#define STAMPS (sizeof stamps / sizeof stamps[0])

/* The first of `count` stamps that is the one before it, counted from 0. */
static size_t equal_stamp(const uint16_t *first, size_t count)
{
    size_t i = 1;
    while (i + 1 < count && first[i] != first[i - 1]) {
        i++;
    }
    return i;
}

static lm89_speeds speeds_of(const uint16_t *first, size_t count)
{
    lm89_speeds speeds = lm89_tach(first, count, FLOOR);
    if (speeds.code == LM89_CODE_FEW_STAMPS) {
        fprintf(stderr, "tach: code %u: stamps needed are two or more, and there are %zu: stamp more edges\n", speeds.code, count);
        exit(1);
    }
    if (speeds.code == LM89_CODE_EQUAL_STAMPS) {
        size_t i = equal_stamp(first, count);
        fprintf(stderr, "tach: code %u: stamps %zu and %zu are both %u: an edge was stamped twice, or a whole round of the counter was missed\n",
            speeds.code, i, i + 1, first[i]);
        exit(1);
    }
    return speeds;
}

int main(void)
{
    lm89_speeds run = speeds_of(stamps, STAMPS);
    printf("earlier  later  period    speed\n");
    for (size_t i = 1; i < STAMPS; i++) {
        lm89_speeds one = speeds_of(&stamps[i - 1], 2);
        printf("%7u  %5u  %6u  %7u\n", stamps[i - 1], stamps[i], (uint16_t)(stamps[i] - stamps[i - 1]), one.slowest);
    }
    printf("slowest %u, fastest %u, %llu of %zu under %u\n", run.slowest, run.fastest, (unsigned long long)run.under, STAMPS - 1, FLOOR);
    return fclose(stdout) == 0 ? 0 : 1;
}
