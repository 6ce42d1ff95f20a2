/* Examples from request h of document 02, worked out by hand, every period and every stamp,
 * true times that go round many times, and random lists.
 *   gcc -std=c11 -Wall -Wextra -Werror -pedantic -g -fsanitize=address,undefined \
 *       tach.c tach_selftest.c -o tach_selftest && ./tach_selftest */
#include "tach.h"

#include <stdbool.h>
#include <stdio.h>
#include <stdlib.h>
#include <string.h>

enum {
    ROUND = 65536,    /* ticks until the counter is back */
    MINUTE = 5400000, /* ticks of 90 kHz: 60 times 90,000 */
    LONG = 100000     /* stamps of a long list */
};

static int wrong;
static unsigned long checks;

static void check(bool good, const char *name, int line)
{
    checks++;
    if (!good) {
        printf("wrong: %s, line %d\n", name, line);
        wrong++;
    }
}
#define CHECK(good) check((good), #good, __LINE__)

static bool is(second_speeds speeds, unsigned code, uint32_t slowest, uint32_t fastest,
               uint64_t under)
{
    return speeds.code == code && speeds.slowest == slowest && speeds.fastest == fastest &&
           speeds.under == under;
}

static bool same(second_speeds one, second_speeds other)
{
    return is(one, other.code, other.slowest, other.fastest, other.under);
}

/* Memory for so many stamps and no more, so that a sanitizer sees a look beyond them. */
static uint16_t *copy_of(const uint16_t *stamps, size_t count)
{
    uint16_t *copy = malloc(count * sizeof *copy);
    if (copy == NULL) {
        printf("no memory\n");
        exit(1);
    }
    memcpy(copy, stamps, count * sizeof *copy);
    return copy;
}

/* The call, on such memory, which it may only read; NULL for no stamps. */
static second_speeds tach(const uint16_t *stamps, size_t count, uint32_t floor)
{
    if (count == 0)
        return second_tach(NULL, 0, floor);
    uint16_t *lent = copy_of(stamps, count);
    second_speeds speeds = second_tach(lent, count, floor);
    if (memcmp(lent, stamps, count * sizeof *lent) != 0)
        speeds.code = 255; /* wrong for every caller */
    free(lent);
    return speeds;
}

/* Two arguments: a list of stamps and their count. */
#define STAMPS(...)                    \
    (const uint16_t[]){ __VA_ARGS__ }, \
        sizeof((const uint16_t[]){ __VA_ARGS__ }) / sizeof(uint16_t)

/* Accepted, with this slowest and fastest speed and so many under the floor. */
static bool tells(const uint16_t *stamps, size_t count, uint32_t slowest, uint32_t fastest,
                  uint32_t floor, uint64_t under)
{
    return is(tach(stamps, count, floor), 0, slowest, fastest, under);
}

/* Refused with this code at floors of every sort, all else 0. */
static bool refuses(const uint16_t *stamps, size_t count, unsigned code)
{
    static const uint32_t floors[] = { 0, 1, 82, 83, 5400, 5400000, 5400001, 0x80000000u,
                                       UINT32_MAX };
    for (size_t i = 0; i < sizeof floors / sizeof *floors; i++)
        if (!is(tach(stamps, count, floors[i]), code, 0, 0, 0))
            return false;
    return true;
}

/* ---- Speeds by hand ---------------------------------------------------- */

/* Period times speed and the rest, which is less than the period, are 5,400,000. */
typedef struct {
    uint32_t period, speed, rest;
} speed_row;

static const speed_row speeds_by_hand[] = {
    { 1, 5400000, 0 }, { 2, 2700000, 0 }, { 3, 1800000, 0 }, { 4, 1350000, 0 },
    { 5, 1080000, 0 }, { 6, 900000, 0 }, { 7, 771428, 4 }, { 8, 675000, 0 }, { 9, 600000, 0 },
    { 10, 540000, 0 }, { 11, 490909, 1 }, { 12, 450000, 0 }, { 13, 415384, 8 },
    { 17, 317647, 1 },
    { 255, 21176, 120 }, { 256, 21093, 192 }, { 257, 21011, 173 },
    { 999, 5405, 405 }, { 1000, 5400, 0 }, { 1001, 5394, 606 },
    { 1983, 2723, 291 }, /* the example of source document 000, printed there as 2723 RPM */
    { 2323, 2324, 1348 }, { 2324, 2323, 1348 }, /* the root of 5,400,000 is between them */
    { 2999, 1800, 1800 }, { 3000, 1800, 0 }, { 3001, 1799, 1201 },
    { 5399, 1000, 1000 }, { 5400, 1000, 0 }, { 5401, 999, 4401 },
    { 32727, 165, 45 }, { 32728, 164, 32608 },
    { 32767, 164, 26212 }, { 32768, 164, 26048 }, { 32769, 164, 25884 },
    { 53999, 100, 100 }, { 54000, 100, 0 }, { 54001, 99, 53901 },
    { 65060, 83, 20 }, { 65061, 82, 64998 }, { 65534, 82, 26212 }, { 65535, 82, 26130 }
};

/* Two stamps, the floor at the speed, one below and one above it, and at its ends. */
static void one_period(uint16_t from, uint32_t period, uint32_t speed)
{
    uint16_t pair[2] = { from, (uint16_t)((from + period) % ROUND) };
    CHECK(tells(pair, 2, speed, speed, speed, 0));
    CHECK(tells(pair, 2, speed, speed, speed - 1, 0));
    CHECK(tells(pair, 2, speed, speed, speed + 1, 1));
    CHECK(tells(pair, 2, speed, speed, 0, 0));
    CHECK(tells(pair, 2, speed, speed, UINT32_MAX, 1));
}

static void periods(void)
{
    for (size_t i = 0; i < sizeof speeds_by_hand / sizeof *speeds_by_hand; i++) {
        speed_row at = speeds_by_hand[i];
        CHECK(at.period * at.speed + at.rest == MINUTE && at.rest < at.period);
        one_period(0, at.period, at.speed);
        one_period(1, at.period, at.speed);
        one_period(32768, at.period, at.speed);
        one_period(65535, at.period, at.speed);
        one_period((uint16_t)(ROUND - at.period), at.period, at.speed);     /* ends at 0 */
        one_period((uint16_t)(ROUND - 1 - at.period), at.period, at.speed); /* at 65,535 */
    }
}

/* Two stamps on both sides of the counter's end; the way is always upwards. */
static void going_round(void)
{
    CHECK(tells(STAMPS(65534, 65535), 5400000, 5400000, 0, 0));
    CHECK(tells(STAMPS(65535, 0), 5400000, 5400000, 0, 0));
    CHECK(tells(STAMPS(0, 1), 5400000, 5400000, 0, 0));
    CHECK(tells(STAMPS(65534, 0), 2700000, 2700000, 0, 0));
    CHECK(tells(STAMPS(65535, 1), 2700000, 2700000, 0, 0));
    CHECK(tells(STAMPS(0, 65535), 82, 82, 0, 0));
    CHECK(tells(STAMPS(1, 0), 82, 82, 0, 0));
    CHECK(tells(STAMPS(65535, 65534), 82, 82, 0, 0));
    CHECK(tells(STAMPS(0, 65534), 82, 82, 0, 0));
    CHECK(tells(STAMPS(2, 0), 82, 82, 0, 0));
    CHECK(tells(STAMPS(0, 32768), 164, 164, 0, 0));
    CHECK(tells(STAMPS(32768, 0), 164, 164, 0, 0));
    CHECK(tells(STAMPS(32767, 65535), 164, 164, 0, 0));
    CHECK(tells(STAMPS(65535, 32767), 164, 164, 0, 0));
    CHECK(tells(STAMPS(64536, 0), 5400, 5400, 0, 0));
    CHECK(tells(STAMPS(65535, 999), 5400, 5400, 0, 0));
    CHECK(tells(STAMPS(65036, 500), 5400, 5400, 0, 0));
    CHECK(tells(STAMPS(64535, 65535), 5400, 5400, 0, 0));
    CHECK(tells(STAMPS(65000, 500), 5212, 5212, 0, 0)); /* 536 + 500 */
    CHECK(tells(STAMPS(500, 65000), 83, 83, 0, 0));     /* 64,500 */
    CHECK(tells(STAMPS(30000, 40000), 540, 540, 0, 0));
    CHECK(tells(STAMPS(40000, 30000), 97, 97, 0, 0)); /* 25,536 + 30,000 */
}

/* Lists that go round inside. */
static void lists_round(void)
{
    CHECK(tells(STAMPS(65533, 65534, 65535, 0, 1, 2), 5400000, 5400000, 5400000, 0));
    CHECK(tells(STAMPS(65533, 65534, 65535, 0, 1, 2), 5400000, 5400000, 5400001, 5));
    CHECK(tells(STAMPS(2, 1, 0, 65535, 65534), 82, 82, 82, 0)); /* almost round each time */
    CHECK(tells(STAMPS(2, 1, 0, 65535, 65534), 82, 82, 83, 4));
    CHECK(tells(STAMPS(65000, 65500, 464, 964), 10800, 10800, 10800, 0)); /* 500 each */
    CHECK(tells(STAMPS(65000, 65500, 464, 964), 10800, 10800, 10801, 3));
    CHECK(tells(STAMPS(0, 30000, 60000, 24464, 54464, 18928), 180, 180, 180, 0)); /* 30,000 */
    CHECK(tells(STAMPS(0, 30000, 60000, 24464, 54464, 18928), 180, 180, 181, 5));
    CHECK(tells(STAMPS(65535, 65534, 65535), 82, 5400000, 83, 1));
    CHECK(tells(STAMPS(0, 65535, 0), 82, 5400000, 83, 1));
}

/* ---- Slowest, fastest, under the floor --------------------------------- */

/* Speeds 5400, 2700, 1800 and 1000, of periods 1000, 2000, 3000 and 5400 in any order. */
static void four_speeds(const uint16_t *stamps)
{
    CHECK(tells(stamps, 5, 1000, 5400, 0, 0));
    CHECK(tells(stamps, 5, 1000, 5400, 1, 0));
    CHECK(tells(stamps, 5, 1000, 5400, 999, 0));
    CHECK(tells(stamps, 5, 1000, 5400, 1000, 0));
    CHECK(tells(stamps, 5, 1000, 5400, 1001, 1));
    CHECK(tells(stamps, 5, 1000, 5400, 1799, 1));
    CHECK(tells(stamps, 5, 1000, 5400, 1800, 1));
    CHECK(tells(stamps, 5, 1000, 5400, 1801, 2));
    CHECK(tells(stamps, 5, 1000, 5400, 2699, 2));
    CHECK(tells(stamps, 5, 1000, 5400, 2700, 2));
    CHECK(tells(stamps, 5, 1000, 5400, 2701, 3));
    CHECK(tells(stamps, 5, 1000, 5400, 5399, 3));
    CHECK(tells(stamps, 5, 1000, 5400, 5400, 3));
    CHECK(tells(stamps, 5, 1000, 5400, 5401, 4));
    CHECK(tells(stamps, 5, 1000, 5400, 65535, 4));
    CHECK(tells(stamps, 5, 1000, 5400, 65536, 4));
    CHECK(tells(stamps, 5, 1000, 5400, 5400000, 4));
    CHECK(tells(stamps, 5, 1000, 5400, 5400001, 4));
    CHECK(tells(stamps, 5, 1000, 5400, 0x7FFFFFFFu, 4));
    CHECK(tells(stamps, 5, 1000, 5400, 0x80000000u, 4));
    CHECK(tells(stamps, 5, 1000, 5400, UINT32_MAX - 1, 4));
    CHECK(tells(stamps, 5, 1000, 5400, UINT32_MAX, 4));
}

static void orders(void)
{
    four_speeds((const uint16_t[]){ 0, 1000, 3000, 6000, 11400 });   /* slower and slower */
    four_speeds((const uint16_t[]){ 0, 5400, 8400, 10400, 11400 });  /* faster and faster */
    four_speeds((const uint16_t[]){ 0, 2000, 7400, 8400, 11400 });   /* ends inside, slow first */
    four_speeds((const uint16_t[]){ 0, 2000, 3000, 8400, 11400 });   /* ends inside, fast first */
    four_speeds((const uint16_t[]){ 0, 1000, 6400, 8400, 11400 });   /* fastest, slowest, ... */
    four_speeds((const uint16_t[]){ 0, 5400, 6400, 8400, 11400 });   /* slowest, fastest, ... */
    four_speeds((const uint16_t[]){ 60000, 61000, 63000, 464, 5864 });   /* round at the third */
    four_speeds((const uint16_t[]){ 65535, 5399, 8399, 10399, 11399 });  /* at the first */
    four_speeds((const uint16_t[]){ 54136, 56136, 61536, 62536, 0 });    /* at the last */
}

/* Each pair is a speed of its own, however many are alike. */
static void alike(void)
{
    CHECK(tells(STAMPS(0, 1000, 2000, 3000, 4000, 5000), 5400, 5400, 5400, 0));
    CHECK(tells(STAMPS(0, 1000, 2000, 3000, 4000, 5000), 5400, 5400, 5401, 5));
    /* 1000, 1000, 999, 1000, 1001 */
    CHECK(tells(STAMPS(0, 1000, 2000, 2999, 3999, 5000), 5394, 5405, 5394, 0));
    CHECK(tells(STAMPS(0, 1000, 2000, 2999, 3999, 5000), 5394, 5405, 5395, 1));
    CHECK(tells(STAMPS(0, 1000, 2000, 2999, 3999, 5000), 5394, 5405, 5400, 1));
    CHECK(tells(STAMPS(0, 1000, 2000, 2999, 3999, 5000), 5394, 5405, 5401, 4));
    CHECK(tells(STAMPS(0, 1000, 2000, 2999, 3999, 5000), 5394, 5405, 5405, 4));
    CHECK(tells(STAMPS(0, 1000, 2000, 2999, 3999, 5000), 5394, 5405, 5406, 5));
    /* 2999 and 3000 have one speed, 3001 the next below */
    CHECK(tells(STAMPS(0, 2999, 5999), 1800, 1800, 1800, 0));
    CHECK(tells(STAMPS(0, 2999, 5999), 1800, 1800, 1801, 2));
    CHECK(tells(STAMPS(0, 3000, 6001), 1799, 1800, 1799, 0));
    CHECK(tells(STAMPS(0, 3000, 6001), 1799, 1800, 1800, 1));
    CHECK(tells(STAMPS(0, 3000, 6001), 1799, 1800, 1801, 2));
}

/* The greatest and the least speed there is, in both orders: one tick on, and one tick back,
 * which is 65,535 on. */
static void ends_of_speed(void)
{
    CHECK(tells(STAMPS(7, 8, 7), 82, 5400000, 82, 0));
    CHECK(tells(STAMPS(7, 8, 7), 82, 5400000, 83, 1));
    CHECK(tells(STAMPS(7, 8, 7), 82, 5400000, 5400000, 1));
    CHECK(tells(STAMPS(7, 8, 7), 82, 5400000, 5400001, 2));
    CHECK(tells(STAMPS(8, 7, 8), 82, 5400000, 82, 0));
    CHECK(tells(STAMPS(8, 7, 8), 82, 5400000, 83, 1));
    CHECK(tells(STAMPS(8, 7, 8), 82, 5400000, 5400000, 1));
    CHECK(tells(STAMPS(8, 7, 8), 82, 5400000, 5400001, 2));
    CHECK(tells(STAMPS(7, 8, 10), 2700000, 5400000, 2700001, 1));
    CHECK(tells(STAMPS(7, 9, 10), 2700000, 5400000, 5400000, 1));
}

/* ---- Refusals by hand -------------------------------------------------- */

static void few(void)
{
    static const uint16_t equal[] = { 5, 5 };
    static const uint16_t rising[] = { 5, 6 };
    CHECK(refuses(NULL, 0, 12));
    CHECK(is(second_tach(equal, 0, 0), 12, 0, 0, 0));
    CHECK(is(second_tach(rising, 0, UINT32_MAX), 12, 0, 0, 0));
    CHECK(refuses(STAMPS(0), 12));
    CHECK(refuses(STAMPS(1), 12));
    CHECK(refuses(STAMPS(1000), 12));
    CHECK(refuses(STAMPS(65535), 12));
    CHECK(refuses(equal, 1, 12)); /* the equal one is not in the list */
    CHECK(refuses(rising, 1, 12));
    CHECK(refuses(equal, 2, 13));
    CHECK(tells(rising, 2, 5400000, 5400000, 0, 0));
}

static void equal_neighbours(void)
{
    CHECK(refuses(STAMPS(0, 0), 13));
    CHECK(refuses(STAMPS(1, 1), 13));
    CHECK(refuses(STAMPS(32768, 32768), 13));
    CHECK(refuses(STAMPS(65535, 65535), 13));
    CHECK(refuses(STAMPS(1000, 1000, 2000), 13));
    CHECK(refuses(STAMPS(1000, 2000, 2000), 13));
    CHECK(refuses(STAMPS(1000, 1000, 2000, 3000, 4000), 13));
    CHECK(refuses(STAMPS(1000, 2000, 2000, 3000, 4000), 13));
    CHECK(refuses(STAMPS(1000, 2000, 3000, 3000, 4000), 13));
    CHECK(refuses(STAMPS(1000, 2000, 3000, 4000, 4000), 13));
    CHECK(refuses(STAMPS(1000, 1000, 2000, 2000), 13));
    CHECK(refuses(STAMPS(7, 7, 7, 7), 13));
    CHECK(refuses(STAMPS(65535, 0, 0), 13));
    CHECK(refuses(STAMPS(65535, 65535, 0), 13));
    CHECK(refuses(STAMPS(0, 0, 65535), 13));
    CHECK(refuses(STAMPS(1, 0, 0), 13));
    CHECK(refuses(STAMPS(60000, 4000, 4000, 30000), 13));
}

/* Equal stamps that are no neighbours, and equal ones behind the list. */
static void equal_apart(void)
{
    CHECK(tells(STAMPS(1, 2, 1), 82, 5400000, 0, 0));
    CHECK(tells(STAMPS(0, 32768, 0), 164, 164, 165, 2));
    CHECK(tells(STAMPS(1000, 2000, 4000, 1000), 86, 5400, 0, 0)); /* 1000, 2000, 62,536 */
    CHECK(tells(STAMPS(5, 9, 5, 9, 5), 82, 1350000, 83, 2));      /* 4 and 65,532 */
    CHECK(tells(STAMPS(9, 5, 9, 5, 9), 82, 1350000, 83, 2));
    CHECK(tells(STAMPS(0, 30000, 60000, 0), 180, 975, 181, 2)); /* and 5,536 */
    CHECK(tells((const uint16_t[]){ 0, 1000, 1000 }, 2, 5400, 5400, 5401, 1));
    CHECK(tells((const uint16_t[]){ 0, 1000, 2000, 2000 }, 3, 5400, 5400, 5401, 2));
}

/* ---- Long lists by hand ------------------------------------------------ */

static uint16_t list[LONG];

/* All periods this one but that which ends at a place. */
static void make_list(size_t count, uint16_t from, uint32_t period, size_t place, uint32_t other)
{
    uint32_t at = from;
    for (size_t i = 0; i < count; i++) {
        if (i > 0)
            at = (at + (i == place ? other : period)) % ROUND;
        list[i] = (uint16_t)at;
    }
}

static bool long_tells(uint32_t slowest, uint32_t fastest, uint32_t floor, uint64_t under)
{
    return is(second_tach(list, LONG, floor), 0, slowest, fastest, under);
}

/* 99,999 speeds, of which one, the first, a middle one or the last, is another. */
static void one_other(size_t place)
{
    make_list(LONG, 0, 1000, place, 1001);
    CHECK(long_tells(5394, 5400, 0, 0));
    CHECK(long_tells(5394, 5400, 5394, 0));
    CHECK(long_tells(5394, 5400, 5395, 1));
    CHECK(long_tells(5394, 5400, 5400, 1));
    CHECK(long_tells(5394, 5400, 5401, 99999));
    make_list(LONG, 65535, 1000, place, 999);
    CHECK(long_tells(5400, 5405, 5400, 0));
    CHECK(long_tells(5400, 5405, 5401, 99998));
    CHECK(long_tells(5400, 5405, 5405, 99998));
    CHECK(long_tells(5400, 5405, 5406, 99999));
    make_list(LONG, 12345, 1000, place, 65535);
    CHECK(long_tells(82, 5400, 82, 0));
    CHECK(long_tells(82, 5400, 83, 1));
    CHECK(long_tells(82, 5400, 5400, 1));
    CHECK(long_tells(82, 5400, UINT32_MAX, 99999));
    make_list(LONG, 1, 65535, place, 1);
    CHECK(long_tells(82, 5400000, 82, 0));
    CHECK(long_tells(82, 5400000, 83, 99998));
    CHECK(long_tells(82, 5400000, 5400000, 99998));
    CHECK(long_tells(82, 5400000, 5400001, 99999));
    make_list(LONG, 1, 1, place, 2);
    CHECK(long_tells(2700000, 5400000, 2700000, 0));
    CHECK(long_tells(2700000, 5400000, 2700001, 1));
    CHECK(long_tells(2700000, 5400000, 5400001, 99999));
    make_list(LONG, 40000, 3000, place, 0);
    CHECK(is(second_tach(list, LONG, 0), 13, 0, 0, 0));
    CHECK(is(second_tach(list, LONG, 1801), 13, 0, 0, 0));
    CHECK(is(second_tach(list, LONG, UINT32_MAX), 13, 0, 0, 0));
}

static void long_lists(void)
{
    one_other(1);
    one_other(2);
    one_other(LONG / 2);
    one_other(LONG - 2);
    one_other(LONG - 1);
    make_list(LONG, 500, 32768, 0, 0); /* to and fro */
    CHECK(long_tells(164, 164, 164, 0));
    CHECK(long_tells(164, 164, 165, 99999));
    make_list(LONG, 0, 65535, 0, 0); /* one tick back each time */
    CHECK(long_tells(82, 82, 82, 0));
    CHECK(long_tells(82, 82, 83, 99999));
}

/* ---- True distances by hand -------------------------------------------- */

/* A distance of 65,535 ticks is the last that two stamps can tell: one more looks like none,
 * and from there on like one that is 65,536 less. */
static void true_distances(void)
{
    static const struct {
        uint64_t distance;
        uint32_t speed; /* 0 for equal stamps */
    } rows[] = {
        { 1, 5400000 }, { 1000, 5400 }, { 65534, 82 }, { 65535, 82 }, { 65536, 0 },
        { 65537, 5400000 }, { 66536, 5400 }, { 131071, 82 }, { 131072, 0 }, { 131073, 5400000 }
    };
    static const uint64_t starts[] = { 0, 1, 1000, 65535, 65536, 4294967295, 4294967296 };
    for (size_t i = 0; i < sizeof rows / sizeof *rows; i++)
        for (size_t j = 0; j < sizeof starts / sizeof *starts; j++) {
            uint16_t pair[2] = { (uint16_t)(starts[j] % ROUND),
                                 (uint16_t)((starts[j] + rows[i].distance) % ROUND) };
            uint32_t speed = rows[i].speed;
            CHECK(is(tach(pair, 2, 0), speed == 0 ? 13 : 0, speed, speed, 0));
        }
}

/* ---- Every period, every stamp ----------------------------------------- */

/* "5,400,000 divided by the period, rounded down". */
static bool is_speed(uint64_t speed, uint64_t period)
{
    return speed * period <= MINUTE && MINUTE < (speed + 1) * period;
}

static void one_pair(uint32_t from, uint32_t period)
{
    uint16_t pair[2] = { (uint16_t)from, (uint16_t)((from + period) % ROUND) };
    second_speeds speeds = second_tach(pair, 2, 0);
    uint32_t speed = speeds.slowest;
    CHECK(speeds.code == 0 && is_speed(speed, period));
    CHECK(speeds.fastest == speed && speeds.under == 0);
    CHECK(same(second_tach(pair, 2, speed), speeds));
    CHECK(is(second_tach(pair, 2, speed + 1), 0, speed, speed, 1));
}

static void every_period(void)
{
    static const uint32_t starts[] = { 0, 1, 12345, 32768, 65535 };
    for (size_t i = 0; i < sizeof starts / sizeof *starts; i++)
        for (uint32_t period = 1; period < ROUND; period++)
            one_pair(starts[i], period);
}

static void every_stamp(void)
{
    static const uint32_t some[] = { 1, 2, 1000, 32768, 65534, 65535 };
    for (uint32_t from = 0; from < ROUND; from++) {
        uint16_t pair[2] = { (uint16_t)from, (uint16_t)from };
        CHECK(is(second_tach(pair, 2, 0), 13, 0, 0, 0));
        CHECK(is(second_tach(pair, 2, UINT32_MAX), 13, 0, 0, 0));
        CHECK(is(second_tach(pair, 1, 0), 12, 0, 0, 0));
        for (size_t i = 0; i < sizeof some / sizeof *some; i++)
            one_pair(from, some[i]);
    }
}

/* Equal neighbours at each place of a list, and none. */
static void every_place(void)
{
    enum { COUNT = 300 };
    make_list(COUNT, 64000, 1000, 0, 0);
    CHECK(is(second_tach(list, COUNT, 5401), 0, 5400, 5400, COUNT - 1));
    for (size_t place = 1; place < COUNT; place++) {
        make_list(COUNT, 64000, 1000, place, 0);
        CHECK(is(second_tach(list, COUNT, 0), 13, 0, 0, 0));
        CHECK(is(second_tach(list, COUNT, 5401), 13, 0, 0, 0));
        CHECK(is(second_tach(list, place + 1, 5401), 13, 0, 0, 0)); /* the last of the list */
        if (place >= 2) /* just behind it */
            CHECK(is(second_tach(list, place, 5401), 0, 5400, 5400, place - 1));
        make_list(COUNT, 64000, 1000, place, 1001);
        CHECK(is(second_tach(list, COUNT, 5400), 0, 5394, 5400, 1));
        make_list(COUNT, 64000, 1000, place, 999);
        CHECK(is(second_tach(list, COUNT, 5401), 0, 5400, 5405, COUNT - 2));
    }
}

/* ---- Random lists ------------------------------------------------------ */

static uint32_t seed;

static uint32_t next(uint32_t below)
{
    seed = seed * 1664525u + 1013904223u;
    return (seed >> 8) % below;
}

/* A floor of any size, or near the speed of a period. */
static uint32_t any_floor(uint32_t period)
{
    switch (next(8)) {
    case 0:
        return 0;
    case 1:
        return UINT32_MAX - next(2);
    case 2:
        return next(65536) << 16 | next(65536);
    case 3:
        return next(6000000);
    default:
        return MINUTE / period + next(3) - 1;
    }
}

/* What a run of distances comes to, with no division: a speed is under the floor exactly if
 * floor times distance is more than 5,400,000, and the slowest has the greatest distance. */
typedef struct {
    uint64_t least, greatest, under;
} account;

static account no_account(void)
{
    account none = { UINT64_MAX, 0, 0 };
    return none;
}

static void add_distance(account *of, uint64_t distance, uint32_t floor)
{
    if (distance < of->least)
        of->least = distance;
    if (distance > of->greatest)
        of->greatest = distance;
    of->under += floor * distance > MINUTE;
}

static bool agrees(second_speeds speeds, const account *with)
{
    return speeds.code == 0 && is_speed(speeds.slowest, with->greatest) &&
           is_speed(speeds.fastest, with->least) && speeds.under == with->under;
}

/* A distance of a sort: any, short, long, or about one. */
static uint32_t any_distance(uint32_t sort)
{
    switch (sort) {
    case 0:
        return 1 + next(65535);
    case 1:
        return 1 + next(20);
    case 2:
        return 65535 - next(20);
    case 3:
        return 2900 + next(200);
    default:
        return next(1000) == 0 ? 1 + next(65535) : 1000;
    }
}

static unsigned long none_under, some_under, all_under; /* lists of each sort */

static void count_under(uint64_t under, size_t speeds)
{
    none_under += under == 0;
    some_under += under > 0 && under < speeds;
    all_under += under == speeds;
}

/* "Given that true distances are 1 to 65,535 ticks, the periods of a run of stamps are the
 * true ones": times of a clock that never goes round, of which the stamps show the part that
 * 16 bits hold, and the numbers of the true distances.  Gives the last time. */
static uint64_t one_run(size_t count, uint32_t sort)
{
    account run = no_account();
    uint64_t time = next(1000) * (uint64_t)ROUND + next(ROUND);
    uint32_t floor = any_floor(any_distance(sort));
    for (size_t i = 0; i < count; i++) {
        if (i > 0) {
            uint32_t distance = any_distance(sort);
            time += distance;
            add_distance(&run, distance, floor);
        }
        list[i] = (uint16_t)(time % ROUND);
    }
    CHECK(agrees(second_tach(list, count, floor), &run));
    count_under(run.under, count - 1);
    return time;
}

static void true_times(void)
{
    uint64_t last = 0;
    seed = 90;
    for (int round = 0; round < 20000; round++)
        one_run(2 + next(40), next(5));
    for (uint32_t sort = 0; sort < 5; sort++)
        for (int round = 0; round < 3; round++) {
            uint64_t time = one_run(LONG, sort);
            last = time > last ? time : last;
        }
    CHECK(last / ROUND > 90000 && last > UINT32_MAX); /* so often round */
    CHECK(none_under > 1000 && some_under > 1000 && all_under > 1000);
}

/* Any stamps; in a third of the lists so few numbers that neighbours are often equal. */
static size_t any_list(void)
{
    static const uint32_t widths[] = { 65536, 65536, 65536, 65536, 40, 3 };
    size_t count = next(24);
    uint32_t width = widths[next(6)];
    uint32_t from = next(65536);
    for (size_t i = 0; i < count; i++)
        list[i] = (uint16_t)((from + next(width)) % ROUND);
    return count;
}

/* 12 below two; then 13 if some stamp is the one before; else the account of the periods, each
 * taken as the later stamp is above the earlier or not.  Gives the code. */
static unsigned one_list(size_t count, uint32_t floor)
{
    account periods_of = no_account();
    size_t equal = 0;
    for (size_t i = 0; i + 1 < count; i++) {
        uint32_t earlier = list[i], later = list[i + 1];
        equal += later == earlier;
        add_distance(&periods_of, later > earlier ? later - earlier : ROUND - earlier + later,
                     floor);
    }
    unsigned code = count < 2 ? 12 : equal > 0 ? 13 : 0;
    second_speeds speeds = tach(list, count, floor);
    if (code != 0)
        CHECK(is(speeds, code, 0, 0, 0));
    else
        CHECK(agrees(speeds, &periods_of));
    if (code == 0)
        count_under(speeds.under, count - 1);
    return code;
}

/* A list and its two parts, of which the first ends with the stamp that begins the second. */
static void parts(size_t count, uint32_t floor)
{
    second_speeds whole = second_tach(list, count, floor);
    for (size_t cut = 1; cut + 1 < count; cut++) {
        second_speeds front = second_tach(list, cut + 1, floor);
        second_speeds back = second_tach(list + cut, count - cut, floor);
        if (whole.code != 0) {
            CHECK(front.code == 13 || back.code == 13);
            continue;
        }
        CHECK(front.code == 0 && back.code == 0 && whole.under == front.under + back.under);
        CHECK(whole.slowest == (front.slowest < back.slowest ? front.slowest : back.slowest));
        CHECK(whole.fastest == (front.fastest > back.fastest ? front.fastest : back.fastest));
    }
}

/* Where the counter stood at first is in no period, and a list back to front, with what each
 * stamp lacks to 65,536 for the stamp, has the same periods. */
static void turned(size_t count, uint32_t floor)
{
    uint16_t shifted[24], mirrored[24];
    uint32_t by = next(65536);
    for (size_t i = 0; i < count; i++) {
        shifted[i] = (uint16_t)((list[i] + by) % ROUND);
        mirrored[count - 1 - i] = (uint16_t)((ROUND - list[i]) % ROUND);
    }
    second_speeds speeds = second_tach(list, count, floor);
    CHECK(same(second_tach(shifted, count, floor), speeds));
    CHECK(same(second_tach(mirrored, count, floor), speeds));
}

/* Where the number under the floor begins and where it ends. */
static void floors(size_t count)
{
    second_speeds speeds = second_tach(list, count, 0);
    uint32_t slowest = speeds.slowest, fastest = speeds.fastest;
    CHECK(speeds.under == 0);
    CHECK(second_tach(list, count, slowest).under == 0);
    CHECK(second_tach(list, count, slowest + 1).under > 0);
    CHECK(second_tach(list, count, fastest).under < count - 1);
    CHECK(second_tach(list, count, fastest + 1).under == count - 1);
    CHECK(second_tach(list, count, UINT32_MAX).under == count - 1);
}

static void random_lists(void)
{
    unsigned long codes[14] = { 0 };
    seed = 91;
    none_under = some_under = all_under = 0;
    for (int round = 0; round < 60000; round++) {
        size_t count = any_list();
        int period = count < 2 ? 1 : (list[1] + ROUND - list[0]) % ROUND;
        uint32_t floor = any_floor(period == 0 ? 1 : (uint32_t)period);
        unsigned code = one_list(count, floor);
        codes[code]++;
        parts(count, floor);
        turned(count, floor);
        if (code == 0)
            floors(count);
    }
    CHECK(codes[0] > 20000 && codes[12] > 2000 && codes[13] > 5000);
    CHECK(none_under > 5000 && some_under > 5000 && all_under > 5000);
}

/* ---- All --------------------------------------------------------------- */

static void by_hand(void)
{
    periods();
    going_round();
    lists_round();
    orders();
    alike();
    ends_of_speed();
    few();
    equal_neighbours();
    equal_apart();
    long_lists();
    true_distances();
}

int main(void)
{
    by_hand();
    every_period();
    every_stamp();
    every_place();
    true_times();
    random_lists();
    printf("%s, %lu checks\n", wrong == 0 ? "all right" : "WRONG", checks);
    return wrong != 0;
}
