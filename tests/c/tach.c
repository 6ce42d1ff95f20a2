/*
 * lm89_tach: codes in their order; every period, from stamps that make it go round and from others; the floor at a speed and on both sides of it; slowest,
 * fastest and under at each place of a list; orders of the same periods; true times over thousands of rounds of the counter, and rounds that are missed;
 * millions of stamps; pages that nobody may touch around a list that nobody may write to. Numbers are worked by hand from document 02; sweeps are held to
 * its sentence without a division, speed times period <= 5,400,000 < (speed + 1) times period, and to true distances.
 */
#define _DEFAULT_SOURCE /* MAP_ANONYMOUS */
#include <inttypes.h>
#include <signal.h>
#include <string.h>
#include <sys/mman.h>
#include <unistd.h>

#include "check.h"
#include "lm89.h"

enum {
    MINUTE = 5400000, /* ticks of 90 kHz; the highest speed too */
    ROUND = 65536,    /* ticks in which the counter is back */
    LONGEST = 65535,  /* period; the highest stamp too */
    SHOWN = 8,        /* stamps of a list that a failure shows */
    MANY = 3000000,   /* stamps */
    EVEN = 1351,      /* period of many stamps: 3997.04 */
    FEW_MOST = 40,    /* stamps of a list whose every place is tried */
    SHIFTS = 8,       /* stamps of a room at which such a list begins */
    RUNS = 2000,
    RUN_MOST = 60,    /* stamps of a run */
    GUARD = 16,       /* stamps on either side of a list */
};

/* A fan that runs down: periods of 2,700, 3,000, going round, 6,000, 54,000 and 65,535; speeds of 2000, 1800, 900, 100 and 82. */
static const uint16_t down[] = {60000, 62700, 164, 6164, 60164, 60163};

/* Its periods, and one of a single tick. */
static const uint16_t drawn[] = {1, 2700, 3000, 6000, 54000, LONGEST};

/* Periods of 100, 200 and so on to 1,600, the second going round; what speeds they are. */
static const uint16_t rising[] = {65300, 65400, 64, 364, 764, 1264, 1864, 2564, 3364, 4264, 5264, 6364, 7564, 8864, 10264, 11764, 13364};
static const uint32_t falling[] = {54000, 27000, 18000, 13500, 10800, 9000, 7714, 6750, 6000, 5400, 4909, 4500, 4153, 3857, 3600, 3375};

#define LENGTH(list) (sizeof(list) / sizeof(list)[0])

static uint16_t many[MANY];

/* The call under way: its line and how many stamps it is handed. */
static volatile sig_atomic_t line_now, count_now;

/* Only a call that touches what it may not raises the signal, and it prints nothing itself, so that printing is safe here. */
static void touched(int raised)
{
    printf("%s:%d: lm89_tach of %d stamps reads outside of them or writes: signal %d; expected neither\n", __FILE__, (int)line_now, (int)count_now, raised);
    fflush(stdout);
    _exit(1);
}

static lm89_speeds ask(int line, const uint16_t *stamps, size_t count, uint32_t floor)
{
    line_now = line;
    count_now = (sig_atomic_t)count;
    return lm89_tach(stamps, count, floor);
}

/* Where a call failed, the beginning of its list and what it gave; the caller says what was expected. */
static void failed(int line, const uint16_t *stamps, size_t count, uint32_t floor, lm89_speeds told)
{
    printf("%s:%d: lm89_tach of %zu stamps", __FILE__, line, count);
    for (size_t i = 0; i < count && i < SHOWN; i++) {
        printf("%s %u", i == 0 ? ":" : "", stamps[i]);
    }
    printf("%s, floor %" PRIu32 ", gives code %u, slowest %" PRIu32 ", fastest %" PRIu32 ", under %" PRIu64 "; expected ", count > SHOWN ? " ..." : "", floor,
        told.code, told.slowest, told.fastest, told.under);
}

static bool same(lm89_speeds x, lm89_speeds y)
{
    return x.code == y.code && x.slowest == y.slowest && x.fastest == y.fastest && x.under == y.under;
}

static void gives(int line, const uint16_t *stamps, size_t count, uint32_t floor, lm89_speeds expected)
{
    lm89_speeds told = ask(line, stamps, count, floor);
    if (!same(told, expected)) {
        failed(line, stamps, count, floor, told);
        printf("code %u, slowest %" PRIu32 ", fastest %" PRIu32 ", under %" PRIu64 "\n", expected.code, expected.slowest, expected.fastest, expected.under);
        exit(1);
    }
}

#define GIVES(stamps, count, floor, slowest, fastest, under) \
    gives(__LINE__, (stamps), (count), (floor), (lm89_speeds){LM89_CODE_DONE, (slowest), (fastest), (under)})

/* On a refusal every other number is 0. */
#define REFUSED(stamps, count, floor, code) gives(__LINE__, (stamps), (count), (floor), (lm89_speeds){(code), 0, 0, 0})

/* Document 02, rounded down: the highest whole number that, times the period, is no more than a minute. */
static bool speed_is(uint64_t speed, uint64_t period)
{
    return speed * period <= MINUTE && MINUTE < (speed + 1) * period;
}

/* The slowest speed is of the longest period, the fastest of the shortest. */
static lm89_speeds tells(int line, const uint16_t *stamps, size_t count, uint32_t floor, uint64_t longest, uint64_t shortest, uint64_t under)
{
    lm89_speeds told = ask(line, stamps, count, floor);
    if (told.code != LM89_CODE_DONE || !speed_is(told.slowest, longest) || !speed_is(told.fastest, shortest) || told.under != under) {
        failed(line, stamps, count, floor, told);
        printf("code %u, the speeds of periods %" PRIu64 " and %" PRIu64 ", under %" PRIu64 "\n", LM89_CODE_DONE, longest, shortest, under);
        exit(1);
    }
    return told;
}

#define TELLS(stamps, count, floor, longest, shortest, under) tells(__LINE__, (stamps), (count), (floor), (longest), (shortest), (under))

/* What the counter shows at a true time. */
static uint16_t shown(uint64_t time)
{
    return (uint16_t)(time % ROUND);
}

/* Stamps of so many periods and one more, from a true time on; returns how many they are. */
static size_t lay(uint16_t *stamps, uint64_t time, const uint16_t *periods, size_t count)
{
    stamps[0] = shown(time);
    for (size_t i = 0; i < count; i++) {
        time += periods[i];
        stamps[i + 1] = shown(time);
    }
    return count + 1;
}

static uint32_t chance(uint32_t *seed, uint32_t below)
{
    *seed = *seed * 1664525u + 1013904223u;
    return (*seed >> 8) % below;
}

/* What stands behind the counted stamps is judged in no way, be it equal to the last. */
static void test_few(void)
{
    static const uint16_t stamps[] = {0, 0, 1, LONGEST, LONGEST};
    static const uint32_t floors[] = {0, 82, MINUTE, UINT32_MAX};
    for (size_t i = 0; i < LENGTH(floors); i++) {
        REFUSED(NULL, 0, floors[i], LM89_CODE_FEW_STAMPS);
        for (size_t j = 0; j < LENGTH(stamps); j++) {
            REFUSED(stamps + j, 0, floors[i], LM89_CODE_FEW_STAMPS);
            REFUSED(stamps + j, 1, floors[i], LM89_CODE_FEW_STAMPS);
        }
    }
}

static void test_two(void)
{
    static const struct {
        uint16_t stamps[2];
        uint32_t speed;
    } rows[] = {
        {{0, 1}, 5400000},
        {{LONGEST, 0}, 5400000}, /* document 02: the counter passes from 65,535 to 0 */
        {{65534, LONGEST}, 5400000},
        {{LONGEST, 1}, 2700000},
        {{65534, 0}, 2700000},
        {{65534, 1}, 1800000},
        {{10, 17}, 771428},      /* 771,428.57 */
        {{65530, 1}, 771428},
        {{0, 1983}, 2723},       /* 2723.15, an example of the LM63's data sheet */
        {{64000, 447}, 2723},
        {{100, 2423}, 2324},     /* period 2,323: 2324.58 */
        {{100, 2424}, 2323},     /* period 2,324: 2323.58 */
        {{0, 2699}, 2000},       /* 2000.74 */
        {{0, 2700}, 2000},
        {{0, 2701}, 1999},       /* 1999.26 */
        {{62700, 164}, 1800},
        {{0, 32767}, 164},       /* 164.80 */
        {{0, 32768}, 164},
        {{32768, 0}, 164},
        {{32767, 0}, 164},       /* period 32,769: 164.79 */
        {{0, 65060}, 83},        /* 83.0003 */
        {{0, 65061}, 82},        /* 82.999 */
        {{0, LONGEST}, 82},      /* 82.40 */
        {{1, 0}, 82},
        {{LONGEST, 65534}, 82},
        {{32768, 32767}, 82},
        {{256, 0}, 82},          /* period 65,280: 82.72 */
        {{0, 256}, 21093},       /* 21,093.75 */
    };
    for (size_t i = 0; i < LENGTH(rows); i++) {
        uint32_t speed = rows[i].speed;
        GIVES(rows[i].stamps, 2, speed - 1, speed, speed, 0);
        GIVES(rows[i].stamps, 2, speed, speed, speed, 0);
        GIVES(rows[i].stamps, 2, speed + 1, speed, speed, 1);
    }
}

/* A list whose periods are all the same. */
static void even(const uint16_t *stamps, size_t count, uint32_t speed)
{
    if (count < 2) {
        REFUSED(stamps, count, speed, LM89_CODE_FEW_STAMPS);
    } else {
        GIVES(stamps, count, speed, speed, speed, 0);
    }
}

/* Periods of this length and speed, but for one place, where two stamps are equal; up to there, and from there on, the list is as any other. */
static void equal_at(uint16_t *stamps, size_t count, size_t place, uint64_t period, uint32_t speed)
{
    for (size_t i = 0; i < count; i++) {
        stamps[i] = shown(65530 + period * (i > place ? i - 1 : i));
    }
    REFUSED(stamps, count, 0, LM89_CODE_EQUAL_STAMPS);
    REFUSED(stamps, count, 83, LM89_CODE_EQUAL_STAMPS);
    REFUSED(stamps, count, UINT32_MAX, LM89_CODE_EQUAL_STAMPS);
    even(stamps, place + 1, speed);
    even(stamps + place + 1, count - place - 1, speed);
}

/* Each place of lists of two stamps and more. */
static void test_equal_places(void)
{
    uint16_t room[FEW_MOST + SHIFTS];
    for (size_t count = 2; count <= FEW_MOST; count++) {
        for (size_t place = 0; place + 1 < count; place++) {
            for (size_t shift = 0; shift < SHIFTS; shift++) {
                equal_at(room + shift, count, place, 1, 5400000);
                equal_at(room + shift, count, place, LONGEST, 82);
            }
        }
    }
}

/* Equal at one end, at both, or everywhere; as neighbours that differ in one byte alone, which are not; at each place of a run; every stamp twice. */
static void test_equal(void)
{
    static const uint16_t three[][3] = {{5, 5, 6}, {5, 6, 6}, {5, 5, 5}, {LONGEST, LONGEST, 0}, {LONGEST, 0, 0}};
    static const uint16_t ends[] = {9, 9, 1, 4, 8, 4, 4};
    static const uint16_t bytes[] = {0x1234, 0x1235, 0x1335, 0x1334};
    for (size_t i = 0; i < LENGTH(three); i++) {
        REFUSED(three[i], 3, 0, LM89_CODE_EQUAL_STAMPS);
        REFUSED(three[i], 3, UINT32_MAX, LM89_CODE_EQUAL_STAMPS);
    }
    REFUSED(ends, LENGTH(ends), 900, LM89_CODE_EQUAL_STAMPS);
    REFUSED(ends + 1, LENGTH(ends) - 1, 900, LM89_CODE_EQUAL_STAMPS);
    GIVES(ends + 1, LENGTH(ends) - 2, 900, 82, 1800000, 2); /* periods 65,528, 3, 4 and 65,532 */
    GIVES(bytes, LENGTH(bytes), 83, 82, 5400000, 1);        /* periods 1, 256 and 65,535 */
    GIVES(down, LENGTH(down), 900, 82, 2000, 2);
    for (size_t place = 0; place + 1 < LENGTH(down); place++) {
        uint16_t stamps[LENGTH(down)];
        memcpy(stamps, down, sizeof down);
        stamps[place + 1] = stamps[place];
        REFUSED(stamps, LENGTH(down), 900, LM89_CODE_EQUAL_STAMPS);
    }
    for (uint32_t stamp = 0; stamp <= LONGEST; stamp++) {
        const uint16_t twice[] = {(uint16_t)stamp, (uint16_t)stamp};
        REFUSED(twice, LENGTH(twice), MINUTE, LM89_CODE_EQUAL_STAMPS);
    }
}

/* Equal stamps with another between them are no neighbours: a round lies between them. */
static void test_equal_apart(void)
{
    static const uint16_t there_and_back[] = {5, 6, 5}, to_and_fro[] = {65000, 3000, 65000, 3000, 65000}, ring[] = {0, 20000, 40000, 60000, 0};
    static const uint16_t half[] = {7, 32775, 7, 32775, 7};
    GIVES(there_and_back, LENGTH(there_and_back), 83, 82, 5400000, 1);
    GIVES(to_and_fro, LENGTH(to_and_fro), 1527, 87, 1527, 2); /* periods 3,536 and 62,000 by turns: 1527.15 and 87.10 */
    GIVES(ring, LENGTH(ring), 270, 270, 975, 0);              /* periods 20,000 and at last 5,536: 975.43 */
    GIVES(half, LENGTH(half), 165, 164, 164, 4);
}

/* Every period from each of these stamps; with that of `landing` it ends at 0, at 65,535 and at 1. */
static void test_every_period(void)
{
    static const uint16_t starts[] = {0, 1, 2, 32767, 32768, 40503, 65534, LONGEST};
    static const uint32_t landing[] = {ROUND, ROUND + LONGEST, ROUND + 1};
    for (uint32_t period = 1; period <= LONGEST; period++) {
        for (size_t i = 0; i < LENGTH(starts) + LENGTH(landing); i++) {
            uint32_t start = i < LENGTH(starts) ? starts[i] : landing[i - LENGTH(starts)] - period;
            const uint16_t stamps[] = {shown(start), shown((uint64_t)start + period)};
            uint32_t speed = TELLS(stamps, 2, 0, period, period, 0).slowest;
            TELLS(stamps, 2, speed, period, period, 0);
            TELLS(stamps, 2, speed + 1, period, period, 1);
        }
    }
}

/* How many of the periods 1 to 65,535 have a speed under a floor: 5,400,000 / 83 is 65,060.2, so 65,061 to 65,535 have. */
static const struct {
    uint32_t floor, under;
} counted[] = {
    {0, 0},           {1, 0},           {81, 0},          {82, 0},          {83, 475},        {84, 1250},        {100, 11535},     {101, 12070},
    {900, 59535},     {2000, 62835},    {2001, 62837},    {65535, 65453},   {65536, 65453},   {65618, 65453},    {1800000, 65532}, {1800001, 65533},
    {2700000, 65533}, {2700001, 65534}, {5399999, 65534}, {5400000, 65534}, {5400001, 65535}, {1u << 31, 65535}, {UINT32_MAX, 65535},
};

static void all_counted(size_t count)
{
    for (size_t i = 0; i < LENGTH(counted); i++) {
        GIVES(many, count, counted[i].floor, 82, 5400000, counted[i].under);
    }
}

/* Every period in one list, from the shortest to the longest, the other way, and in an order drawn. */
static void test_all_periods(void)
{
    static uint16_t periods[LONGEST];
    uint32_t seed = 8;
    for (size_t i = 0; i < LONGEST; i++) {
        periods[i] = (uint16_t)(i + 1);
    }
    all_counted(lay(many, 12345, periods, LONGEST));
    for (size_t i = 0; i < LONGEST; i++) {
        periods[i] = (uint16_t)(LONGEST - i);
    }
    all_counted(lay(many, 1, periods, LONGEST));
    for (size_t i = LONGEST - 1; i > 0; i--) {
        size_t other = chance(&seed, (uint32_t)i + 1);
        uint16_t period = periods[i];
        periods[i] = periods[other];
        periods[other] = period;
    }
    all_counted(lay(many, LONGEST, periods, LONGEST));
}

static void test_floor(void)
{
    static const struct {
        uint32_t floor, under;
    } rows[] = {
        {0, 0},       {1, 0},       {81, 0},      {82, 0},        {83, 1},       {99, 1},              {100, 1},            {101, 2},         {899, 2},
        {900, 2},     {901, 3},     {1799, 3},    {1800, 3},      {1801, 4},     {1999, 4},            {2000, 4},           {2001, 5},        {65535, 5},
        {65536, 5},   {65618, 5},   {5399999, 5}, {5400000, 5},   {5400001, 5},  {INT32_MAX, 5},       {1u << 31, 5},       {UINT32_MAX, 5},
    };
    for (size_t i = 0; i < LENGTH(rows); i++) {
        GIVES(down, LENGTH(down), rows[i].floor, 82, 2000, rows[i].under);
    }
}

/* So many periods of 3,000, but 6,000 at the place `slow` and 2,700 at the place `fast`, where the list has such a place. */
static size_t lay_odd(uint16_t *stamps, size_t periods, size_t slow, size_t fast)
{
    uint16_t lengths[RUN_MOST];
    for (size_t i = 0; i < periods; i++) {
        lengths[i] = i == slow ? 6000 : i == fast ? 2700 : 3000;
    }
    return lay(stamps, 60000, lengths, periods);
}

/* A speed of 900, one of 2000, and both, at each place among speeds of 1800. */
static void test_places(void)
{
    uint16_t stamps[RUN_MOST + 1];
    for (size_t periods = 2; periods <= 12; periods++) {
        for (size_t place = 0; place < periods; place++) {
            size_t count = lay_odd(stamps, periods, place, periods);
            GIVES(stamps, count, 900, 900, 1800, 0);
            GIVES(stamps, count, 901, 900, 1800, 1);
            GIVES(stamps, count, 1800, 900, 1800, 1);
            GIVES(stamps, count, 1801, 900, 1800, periods);
            count = lay_odd(stamps, periods, periods, place);
            GIVES(stamps, count, 1800, 1800, 2000, 0);
            GIVES(stamps, count, 1801, 1800, 2000, periods - 1);
            GIVES(stamps, count, 2000, 1800, 2000, periods - 1);
            GIVES(stamps, count, 2001, 1800, 2000, periods);
            for (size_t fast = 0; fast < periods; fast++) {
                if (fast != place) {
                    count = lay_odd(stamps, periods, place, fast);
                    GIVES(stamps, count, 1800, 900, 2000, 1);
                    GIVES(stamps, count, 1801, 900, 2000, periods - 1);
                    GIVES(stamps, count, 2001, 900, 2000, periods);
                }
            }
        }
    }
}

/* The periods drawn, in the order of number `order` of the 720 there are, from a true time on. */
static size_t lay_order(uint16_t *stamps, uint64_t time, unsigned order)
{
    uint16_t left[LENGTH(drawn)], periods[LENGTH(drawn)];
    memcpy(left, drawn, sizeof drawn);
    for (size_t i = 0; i < LENGTH(drawn); i++) {
        size_t remain = LENGTH(drawn) - i, taken = order % remain;
        order /= (unsigned)remain;
        periods[i] = left[taken];
        left[taken] = left[remain - 1];
    }
    return lay(stamps, time, periods, LENGTH(drawn));
}

/* Order does not matter: each order of the six periods tells the same. */
static void test_orders(void)
{
    uint16_t stamps[LENGTH(drawn) + 1];
    for (unsigned order = 0; order < 720; order++) {
        size_t count = lay_order(stamps, 1009u * order, order);
        GIVES(stamps, count, 82, 82, 5400000, 0);
        GIVES(stamps, count, 900, 82, 5400000, 2);
        GIVES(stamps, count, 901, 82, 5400000, 3);
        GIVES(stamps, count, 5400000, 82, 5400000, 5);
        GIVES(stamps, count, 5400001, 82, 5400000, 6);
    }
}

/* The order of the list is that of time: backwards the periods are what is left of a round. */
static void test_backwards(void)
{
    static const uint16_t back[] = {60163, 60164, 6164, 164, 62700, 60000};
    GIVES(back, LENGTH(back), 91, 85, 5400000, 3); /* periods 1, 11,536, 59,536, 62,536 and 62,836: 468.10, 90.70, 86.35 and 85.94 */
}

/* A run of true times, distances 1 to `most` ticks: as the counter shows them, and what they are. Under the floor without a division. */
static uint64_t true_run(uint32_t *seed, size_t count, uint32_t most, uint32_t floor, uint64_t *time)
{
    uint64_t longest = 0, shortest = LONGEST, under = 0;
    many[0] = shown(*time);
    for (size_t i = 1; i < count; i++) {
        uint64_t distance = 1 + chance(seed, most);
        *time += distance;
        many[i] = shown(*time);
        longest = distance > longest ? distance : longest;
        shortest = distance < shortest ? distance : shortest;
        under += MINUTE < floor * distance;
    }
    TELLS(many, count, floor, longest, shortest, under);
    return under;
}

/* Short runs, then a long one; the counter goes round thousands of times. Of the short ones a fair part have speeds on both sides of the floor. */
static void test_true_times(void)
{
    uint32_t seed = 89, mixed = 0;
    uint64_t time = 0;
    for (unsigned run = 0; run < RUNS; run++) {
        size_t count = 2 + chance(&seed, RUN_MOST - 1);
        uint32_t most = 1 + chance(&seed, LONGEST), floor = MINUTE / (1 + chance(&seed, most)) + chance(&seed, 2);
        uint64_t under = true_run(&seed, count, most, floor, &time);
        mixed += under > 0 && under < count - 1;
    }
    CHECK(mixed > RUNS / 2);
    CHECK(time / ROUND > 10000);
    uint64_t before = time, under = true_run(&seed, 200000, LONGEST, 165, &time);
    CHECK(under > 90000 && under < 110000); /* 165 is of 32,727 ticks, about half of a round */
    CHECK((time - before) / ROUND > 90000);
}

/* A fan so slow that each revolution takes nearly a round: periods of 65,533, and stamps that fall by 3. */
static void test_falling_stamps(void)
{
    uint64_t time = 3;
    for (size_t i = 0; i < 10000; i++) {
        many[i] = shown(time);
        time += LONGEST - 2;
    }
    GIVES(many, 10000, 82, 82, 82, 0);
    GIVES(many, 10000, 83, 82, 82, 9999);
}

/* Distances that the premise leaves out: a missed round cannot be seen, and a whole one looks like none at all. */
static void test_missed_rounds(void)
{
    static const struct {
        uint32_t distance;
        uint8_t code;
        uint32_t speed;
    } rows[] = {
        {LONGEST, LM89_CODE_DONE, 82},
        {ROUND, LM89_CODE_EQUAL_STAMPS, 0},
        {ROUND + 1, LM89_CODE_DONE, 5400000},
        {ROUND + 2700, LM89_CODE_DONE, 2000},
        {2 * ROUND - 1, LM89_CODE_DONE, 82},
        {2 * ROUND, LM89_CODE_EQUAL_STAMPS, 0},
        {2 * ROUND + 1, LM89_CODE_DONE, 5400000},
    };
    for (size_t i = 0; i < LENGTH(rows); i++) {
        for (uint32_t start = 0; start < ROUND; start += 1285) { /* the last is 65,535 */
            const uint16_t two[] = {shown(start), shown(start + rows[i].distance)};
            const uint16_t four[] = {shown(start + 62536), two[0], two[1], shown(start + rows[i].distance + 3000)}; /* 3,000 ticks on either side */
            uint32_t slowest = rows[i].speed < 1800 ? rows[i].speed : 1800, fastest = rows[i].speed < 1800 ? 1800 : rows[i].speed;
            if (rows[i].code == LM89_CODE_DONE) {
                GIVES(two, 2, 0, rows[i].speed, rows[i].speed, 0);
                GIVES(four, 4, 0, slowest, fastest, 0);
            } else {
                REFUSED(two, 2, 0, rows[i].code);
                REFUSED(four, 4, 0, rows[i].code);
            }
        }
    }
}

/* The same number added to every stamp, going round, changes nothing. */
static void test_offset(void)
{
    static const uint16_t equal[] = {60000, 62700, 164, 164, 60164};
    uint16_t stamps[LENGTH(down)];
    for (uint32_t offset = 0; offset < ROUND; offset++) {
        for (size_t i = 0; i < LENGTH(down); i++) {
            stamps[i] = shown(down[i] + offset);
        }
        GIVES(stamps, LENGTH(down), 900, 82, 2000, 2);
        for (size_t i = 0; i < LENGTH(equal); i++) {
            stamps[i] = shown(equal[i] + offset);
        }
        REFUSED(stamps, LENGTH(equal), 900, LM89_CODE_EQUAL_STAMPS);
    }
}

/* One stamp a tick later or earlier makes periods of 1,352 and 1,350 beside it: 3994.08 and 4000. */
static void test_millions(void)
{
    const size_t last = MANY - 1, middle = MANY / 2;
    for (size_t i = 0; i < MANY; i++) {
        many[i] = shown((uint64_t)i * EVEN);
    }
    GIVES(many, MANY, 3997, 3997, 3997, 0);
    GIVES(many, MANY, 3998, 3997, 3997, MANY - 1);
    many[last]++;
    GIVES(many, MANY, 3997, 3994, 3997, 1);
    many[last]--;
    many[0]++;
    GIVES(many, MANY, 3998, 3997, 4000, MANY - 2);
    many[0]--;
    many[middle]++;
    GIVES(many, MANY, 4000, 3994, 4000, MANY - 2);
    many[middle] = many[middle - 1];
    REFUSED(many, MANY, 4000, LM89_CODE_EQUAL_STAMPS);
    many[middle] = shown((uint64_t)middle * EVEN);
    many[last] = many[last - 1];
    REFUSED(many, MANY, 4000, LM89_CODE_EQUAL_STAMPS);
    GIVES(many, MANY - 1, 4000, 3997, 3997, MANY - 2);
    many[0] = many[1];
    REFUSED(many, MANY - 1, 4000, LM89_CODE_EQUAL_STAMPS);
    GIVES(many + 1, MANY - 2, 4000, 3997, 3997, MANY - 3);
}

/* A part of a list has the speeds of that part, wherever it begins: speeds fall along it, so that its ends are the slowest and the fastest. */
static void test_parts(void)
{
    for (size_t from = 0; from < LENGTH(rising); from++) {
        REFUSED(rising + from, 1, 54001, LM89_CODE_FEW_STAMPS);
        for (size_t count = 2; from + count <= LENGTH(rising); count++) {
            uint32_t fastest = falling[from], slowest = falling[from + count - 2];
            GIVES(rising + from, count, slowest, slowest, fastest, 0);
            GIVES(rising + from, count, slowest + 1, slowest, fastest, 1);
            GIVES(rising + from, count, fastest, slowest, fastest, count - 2);
            GIVES(rising + from, count, fastest + 1, slowest, fastest, count - 1);
        }
    }
}

/* A list and what stands around it; not static, so that the compiler reads it again after a call that could write to it. */
struct {
    uint16_t before[GUARD];
    uint16_t stamps[LENGTH(down)];
    uint16_t behind[GUARD];
} lent;

static void surround(uint16_t before, uint16_t behind)
{
    for (size_t i = 0; i < GUARD; i++) {
        lent.before[i] = before;
        lent.behind[i] = behind;
    }
    memcpy(lent.stamps, down, sizeof down);
}

/* Around the list its end stamps come again, or stamps a tick away or nearly a round: who reads them gives 13, 5,400,000 or 82. Nothing is written. */
static void test_around(void)
{
    uint8_t bytes[sizeof lent];
    for (int away = -1; away <= 1; away++) {
        surround((uint16_t)(60000 + away), (uint16_t)(60163 + away));
        memcpy(bytes, &lent, sizeof lent);
        GIVES(lent.stamps, LENGTH(down), 900, 82, 2000, 2);
        GIVES(lent.stamps, LENGTH(down) - 1, 900, 100, 2000, 1);
        GIVES(lent.stamps + 1, LENGTH(down) - 1, 900, 82, 1800, 2);
        GIVES(lent.stamps, 2, 2001, 2000, 2000, 1);
        REFUSED(lent.stamps, 1, 900, LM89_CODE_FEW_STAMPS);
        REFUSED(lent.stamps, 0, 900, LM89_CODE_FEW_STAMPS);
        CHECK(memcmp(bytes, &lent, sizeof lent) == 0);
        lent.stamps[3] = lent.stamps[2];
        memcpy(bytes, &lent, sizeof lent);
        REFUSED(lent.stamps, LENGTH(down), 900, LM89_CODE_EQUAL_STAMPS);
        CHECK(memcmp(bytes, &lent, sizeof lent) == 0);
    }
}

/* A list on a page that can only be read, from this byte of it on. */
static void on_page(int line, uint8_t *page, size_t from, const uint16_t *list, size_t count, uint32_t floor, lm89_speeds expected)
{
    size_t size = (size_t)sysconf(_SC_PAGESIZE);
    uint16_t *stamps = (uint16_t *)(void *)(page + from);
    CHECK(mprotect(page, size, PROT_READ | PROT_WRITE) == 0);
    if (count > 0) {
        memcpy(stamps, list, count * sizeof *list);
    }
    CHECK(mprotect(page, size, PROT_READ) == 0);
    gives(line, stamps, count, floor, expected);
}

#define ON_PAGE(page, from, list, count, floor, ...) on_page(__LINE__, (page), (from), (list), (count), (floor), (lm89_speeds){__VA_ARGS__})

/*
 * A page between two that cannot be touched: lists that begin where it begins, and such that end where it ends, from one of no stamps, which nobody looks
 * at, to one that fills the page.
 */
static void test_pages(void)
{
    size_t size = (size_t)sysconf(_SC_PAGESIZE), whole = size / sizeof(uint16_t);
    uint8_t *pages = mmap(NULL, 3 * size, PROT_NONE, MAP_PRIVATE | MAP_ANONYMOUS, -1, 0);
    CHECK(pages != MAP_FAILED);
    uint8_t *page = pages + size;
    for (size_t count = 0; count < 2; count++) {
        ON_PAGE(page, 0, rising, count, 0, LM89_CODE_FEW_STAMPS, 0, 0, 0);
        ON_PAGE(page, size - count * sizeof(uint16_t), rising, count, 0, LM89_CODE_FEW_STAMPS, 0, 0, 0);
    }
    for (size_t count = 2; count <= LENGTH(rising); count++) {
        ON_PAGE(page, 0, rising, count, falling[0], LM89_CODE_DONE, falling[count - 2], falling[0], count - 2);
        ON_PAGE(page, size - count * sizeof(uint16_t), rising, count, falling[0], LM89_CODE_DONE, falling[count - 2], falling[0], count - 2);
    }
    for (size_t i = 0; i < whole; i++) {
        many[i] = shown((uint64_t)i * EVEN);
    }
    ON_PAGE(page, 0, many, whole, 3998, LM89_CODE_DONE, 3997, 3997, whole - 1);
    many[whole - 1] = many[whole - 2];
    ON_PAGE(page, 0, many, whole, 3998, LM89_CODE_EQUAL_STAMPS, 0, 0, 0);
    CHECK(munmap(pages, 3 * size) == 0);
}

/* Nothing is kept between calls: three answers and two refusals, each after each, and an answer held stays what it is. */
static void test_calls_apart(void)
{
    static const struct {
        uint16_t stamps[3];
        size_t count;
        uint32_t floor;
        lm89_speeds told;
    } calls[] = {
        {{0, 1, 0}, 3, 83, {LM89_CODE_DONE, 82, 5400000, 1}},
        {{0, 3000, 6000}, 3, 1801, {LM89_CODE_DONE, 1800, 1800, 2}},
        {{0, 2700, 8700}, 2, 0, {LM89_CODE_DONE, 2000, 2000, 0}},
        {{0, 2700, 2700}, 3, 2001, {LM89_CODE_EQUAL_STAMPS, 0, 0, 0}},
        {{2700, 0, 0}, 1, 2001, {LM89_CODE_FEW_STAMPS, 0, 0, 0}},
    };
    for (size_t i = 0; i < LENGTH(calls); i++) {
        for (size_t j = 0; j < LENGTH(calls); j++) {
            lm89_speeds held = ask(__LINE__, calls[i].stamps, calls[i].count, calls[i].floor);
            gives(__LINE__, calls[j].stamps, calls[j].count, calls[j].floor, calls[j].told);
            gives(__LINE__, calls[j].stamps, calls[j].count, calls[j].floor, calls[j].told);
            CHECK(same(held, calls[i].told));
        }
    }
}

int main(void)
{
    CHECK(signal(SIGSEGV, touched) != SIG_ERR && signal(SIGBUS, touched) != SIG_ERR);
    test_few();
    test_two();
    test_equal_places();
    test_equal();
    test_equal_apart();
    test_every_period();
    test_all_periods();
    test_floor();
    test_places();
    test_orders();
    test_backwards();
    test_true_times();
    test_falling_stamps();
    test_missed_rounds();
    test_offset();
    test_millions();
    test_parts();
    test_around();
    test_pages();
    test_calls_apart();
    return 0;
}
