/* tachs: writes one stream of the tachometer's calls, in the format at the head of second/replay.c, to standard output. A list of stamps
 * is a run of true times, of which the counter shows the last 16 bits. The lists aim at the lines of request h (document 02): every period
 * between two stamps, going round and not, with the floor at the speed, one below and one above; every set of up to eight speeds under the
 * floor, slowest and fastest at every two places, and in long lists at the first, the last and between; equal neighbours at every set of
 * places, equal stamps that are none, and distances of 1 and 65,535; runs that go round many times, and the distances past 65,535 that
 * stamps cannot show.
 *
 * The same bytes at each run. What it knows of speeds serves to aim: it predicts no answer. */
#include "chance.h"

#include <stdbool.h>
#include <stdint.h>
#include <stdio.h>
#include <stdlib.h>

enum { ROUND = 65536, PERIOD_MOST = ROUND - 1, MIDDLE = ROUND / 2, MINUTE = 5400000, SLOWEST = MINUTE / PERIOD_MOST };
enum { SHORT_MOST = 8, LONG = 99999, LONGEST = 999999 }; /* numbers of distances: one less than stamps */
static const uint32_t ends[] = { 0, 1, MIDDLE - 1, MIDDLE, ROUND - 2, ROUND - 1 }; /* of the counter and of its halves */
static const uint32_t no_distances[] = { 0, ROUND, 2 * ROUND };                    /* those of equal stamps */
static const uint32_t floors[] = {
    0, 1, SLOWEST - 1, SLOWEST, SLOWEST + 1, ROUND - 1, ROUND, MINUTE - 1, MINUTE, MINUTE + 1, UINT32_MAX / 2, UINT32_MAX / 2 + 1, UINT32_MAX - 1,
    UINT32_MAX
};

/* ---- Output ------------------------------------------------------------ */

/* The run of the calls: the true distances between its edges, in ticks. */
static uint32_t distances[LONGEST];
static size_t number;

static void put_number(uint64_t value, unsigned size)
{
    for (unsigned i = size; i-- > 0;)
        if (putchar((uint8_t)(value >> 8 * i)) == EOF) {
            fprintf(stderr, "tachs: cannot write standard output\n");
            exit(1);
        }
}

static void put_head(uint32_t floor, size_t count)
{
    put_number('A', 1);
    put_number(floor, 4);
    put_number(count, 4);
}

static void call_without_stamps(uint32_t floor)
{
    put_head(floor, 0);
}

/* The stamps of the run, from this true time on. */
static void call(uint64_t time, uint32_t floor)
{
    put_head(floor, number + 1);
    put_number(time % ROUND, 2);
    for (size_t i = 0; i < number; i++) {
        time += distances[i];
        put_number(time % ROUND, 2);
    }
}

static uint32_t any_stamp(void)
{
    return below(ROUND);
}

static void call_anywhere(uint32_t floor)
{
    call(any_stamp(), floor);
}

/* ---- Runs -------------------------------------------------------------- */

static uint32_t any_period(void)
{
    return 1 + below(PERIOD_MOST);
}

static void any_run(size_t of_number)
{
    number = of_number;
    for (size_t i = 0; i < number; i++)
        distances[i] = any_period();
}

/* About the speed of one of the run's distances; now and then at an end. */
static uint32_t some_floor(void)
{
    uint32_t period = number == 0 ? 0 : distances[below(number)] % ROUND;
    if (period == 0 || one_in(6))
        return ONE_OF(floors);
    return MINUTE / period - 1 + below(3);
}

/* ---- Two stamps -------------------------------------------------------- */

/* A stamp from which a period does not go round, in some cases just not. */
static uint32_t stamp_within(uint32_t period)
{
    uint32_t last = PERIOD_MOST - period;
    return one_in(4) ? 0 : one_in(4) ? last : below(last + 1);
}

/* One from which it does, in some cases just to 0. */
static uint32_t stamp_round(uint32_t period)
{
    return PERIOD_MOST - (one_in(4) ? 0 : one_in(4) ? period - 1 : below(period));
}

/* Each period with the floor one below its speed, at it and one above: once not going round, once going round, once from any stamp. */
static void every_period(void)
{
    number = 1;
    for (uint32_t period = 1; period <= PERIOD_MOST; period++)
        for (uint32_t i = 0; i < 3; i++) {
            uint32_t way = (period + i) % 3;
            distances[0] = period;
            call(way == 0 ? stamp_within(period) : way == 1 ? stamp_round(period) : any_stamp(), MINUTE / period - 1 + i);
        }
}

/* Each two of the ends, equal ones too, with each floor. */
static void every_two_ends(void)
{
    number = 1;
    for (size_t i = 0; i < COUNT_OF(ends); i++)
        for (size_t j = 0; j < COUNT_OF(ends); j++)
            for (size_t k = 0; k < COUNT_OF(floors); k++) {
                distances[0] = (ends[j] + ROUND - ends[i]) % ROUND;
                call(ends[i], floors[k]);
            }
}

/* ---- Numbers of stamps ------------------------------------------------- */

static void every_number(void)
{
    static const size_t large[] = { 255, 256, 257, 65535, 65536, 65537 };
    enum { SMALL_MOST = 42 };
    for (size_t i = 0; i < COUNT_OF(floors); i++) {
        call_without_stamps(floors[i]);
        any_run(0);
        for (size_t j = 0; j < COUNT_OF(ends); j++)
            call(ends[j], floors[i]);
        any_run(2 + below(20));
        call_anywhere(floors[i]);
    }
    for (size_t n = 1; n <= SMALL_MOST; n++) {
        any_run(n);
        call_anywhere(0);
        call_anywhere(UINT32_MAX);
        call_anywhere(some_floor());
        for (size_t i = 0; i < n; i++)
            distances[i] = PERIOD_MOST; /* so many rounds, less one */
        call(0, SLOWEST);
    }
    for (size_t i = 0; i < COUNT_OF(large); i++) {
        any_run(large[i]);
        call_anywhere(0);
        call_anywhere(UINT32_MAX);
    }
}

/* ---- Places of speeds -------------------------------------------------- */

/* Periods of which the first has a higher speed than all from the second to the third, and the last a lower one. */
static const uint32_t spans[][4] = {
    { 1, 2, 65060, 65535 }, { 1, 2, 2, 3 }, { 82, 83, 83, 84 }, { 255, 256, 256, 257 }, { 2998, 2999, 3000, 3001 },
    { 32727, 32728, 32926, 32927 }, { 64285, 64286, 65060, 65061 }
};

/* The slowest and the fastest speed at these places. */
static void set_span(size_t of_number, const uint32_t *span, size_t slowest, size_t fastest)
{
    number = of_number;
    for (size_t i = 0; i < number; i++)
        distances[i] = i == slowest ? span[3] : i == fastest ? span[0] : span[1] + below(span[2] - span[1] + 1);
}

/* Each two places, with the floor about both speeds. */
static void every_two_places(const uint32_t *span)
{
    for (size_t n = 2; n <= SHORT_MOST; n++)
        for (size_t slowest = 0; slowest < n; slowest++)
            for (size_t fastest = 0; fastest < n; fastest++)
                for (uint32_t i = 0; slowest != fastest && i < 3; i++) {
                    set_span(n, span, slowest, fastest);
                    call_anywhere(MINUTE / span[3] - 1 + i);
                    call_anywhere(MINUTE / span[0] - 1 + i);
                }
}

/* A period whose speed is under that of this one, the longest of its speed; in some cases the shortest that is. */
static uint32_t slower_than(uint32_t longest)
{
    return longest + 1 + (one_in(3) ? 0 : below(PERIOD_MOST - longest));
}

/* One whose speed is not, in some cases the longest itself. */
static uint32_t not_slower_than(uint32_t longest)
{
    return longest - (one_in(3) ? 0 : below(longest));
}

/* Each set of places under the floor. */
static void every_set_under(void)
{
    enum { LONGEST_OF_83 = 65060 };
    for (number = 1; number <= SHORT_MOST; number++)
        for (uint32_t set = 0; set < 1u << number; set++) {
            uint32_t floor = MINUTE / (1 + below(LONGEST_OF_83)), longest = MINUTE / floor;
            for (size_t i = 0; i < number; i++)
                distances[i] = set >> i & 1 ? slower_than(longest) : not_slower_than(longest);
            call_anywhere(floor);
        }
}

/* Speeds that rise, fall or are alike all along, of periods that are alike or not. */
static void in_order(void)
{
    enum { SHORTEST_OF_82 = 65061 };
    for (size_t n = 1; n <= SHORT_MOST; n++) {
        uint32_t first = 1 + below(2000), by = 1 + below(50);
        number = n;
        for (size_t i = 0; i < n; i++)
            distances[i] = first + (uint32_t)i * by;
        call_anywhere(some_floor());
        for (size_t i = 0; i < n; i++)
            distances[i] = first + (uint32_t)(n - i) * by;
        call_anywhere(some_floor());
        for (size_t i = 0; i < n; i++)
            distances[i] = first;
        call_anywhere(MINUTE / first);
        call_anywhere(MINUTE / first + 1);
        for (size_t i = 0; i < n; i++)
            distances[i] = SHORTEST_OF_82 + (uint32_t)i * by;
        call_anywhere(SLOWEST);
        call_anywhere(SLOWEST + 1);
    }
}

/* ---- Equal stamps ------------------------------------------------------ */

/* Each set of places of equal neighbours but none, twice. */
static void every_set_equal(void)
{
    for (size_t n = 1; n <= SHORT_MOST; n++)
        for (uint32_t set = 1; set < 1u << n; set++)
            for (unsigned round = 0; round < 2; round++) {
                any_run(n);
                for (size_t i = 0; i < n; i++)
                    if (set >> i & 1)
                        distances[i] = ONE_OF(no_distances);
                call_anywhere(some_floor());
            }
}

/* At each place the distances next to those of equal stamps. */
static void nearly_equal(void)
{
    static const uint32_t next[] = { 1, ROUND - 1, ROUND + 1, 2 * ROUND - 1 };
    for (size_t n = 1; n <= SHORT_MOST; n++)
        for (size_t place = 0; place < n; place++)
            for (size_t i = 0; i < COUNT_OF(next); i++) {
                any_run(n);
                distances[place] = next[i];
                call_anywhere(some_floor());
            }
}

/* A run whose stamps at these two places, no neighbours, are equal: the distances between them are whole rounds together. */
static void run_equal_apart(size_t of_number, size_t first, size_t last)
{
    uint32_t others;
    do {
        any_run(of_number);
        others = 0;
        for (size_t i = first; i < last - 1; i++)
            others += distances[i];
    } while (others % ROUND == 0);
    distances[last - 1] = ROUND - others % ROUND;
}

static void every_two_equal_apart(void)
{
    for (size_t n = 2; n <= SHORT_MOST; n++)
        for (size_t first = 0; first < n; first++)
            for (size_t last = first + 2; last <= n; last++) {
                run_equal_apart(n, first, last);
                call_anywhere(some_floor());
            }
    for (size_t n = 2; n <= SHORT_MOST; n++) { /* two stamps in turn */
        any_run(n);
        for (size_t i = 1; i < n; i++)
            distances[i] = ROUND - distances[i - 1];
        call_anywhere(some_floor());
    }
}

/* ---- Rounds ------------------------------------------------------------ */

/* Each set of places where the counter passes 0. */
static void every_set_round(void)
{
    enum { STEP_MOST = MIDDLE / SHORT_MOST - 1 };
    for (number = 1; number <= SHORT_MOST; number++)
        for (uint32_t set = 0; set < 1u << number; set++) {
            for (size_t i = 0; i < number; i++) {
                uint32_t step = 1 + below(STEP_MOST);
                distances[i] = set >> i & 1 ? ROUND - step : step;
            }
            call(MIDDLE, some_floor());
        }
}

/* One run of less than a round, from 0, where it goes round once, and from any stamp. */
static void less_than_a_round(void)
{
    for (size_t n = 1; n <= SHORT_MOST; n++) {
        number = n;
        for (size_t i = 0; i < n; i++)
            distances[i] = 1 + below(PERIOD_MOST / SHORT_MOST);
        uint32_t floor = some_floor();
        call(0, floor);
        call(ROUND - 1, floor);
        call_anywhere(floor);
    }
}

static uint32_t some_distance(void)
{
    static const uint32_t some[] = { 1, 2, MIDDLE - 1, MIDDLE, MIDDLE + 1, ROUND - 2, ROUND - 1 };
    return one_in(2) ? ONE_OF(some) : any_period();
}

/* Runs from two stamps with one floor, then with another. In some of them one distance is longer than stamps can show. */
static void runs(void)
{
    static const uint32_t too_long[] = { ROUND, ROUND + 1, ROUND + 2, 2 * ROUND - 1, 2 * ROUND, 2 * ROUND + 1 };
    for (unsigned i = 0; i < 1500; i++) {
        number = 1 + below(one_in(2) ? SHORT_MOST : 100);
        for (size_t j = 0; j < number; j++)
            distances[j] = some_distance();
        if (one_in(4)) {
            size_t place = below(number);
            distances[place] = ONE_OF(too_long);
        }
        uint32_t floor = some_floor();
        call_anywhere(floor);
        call_anywhere(floor);
        call_anywhere(floor + 1 + below(20));
    }
}

/* ---- Long lists --------------------------------------------------------- */

static void long_lists(void)
{
    static const size_t places[][2] = { { 0, LONG - 1 }, { LONG - 1, 0 }, { 1, LONG / 2 }, { LONG / 2, LONG - 2 }, { LONG - 2, 1 } };
    static const size_t equal[] = { 0, LONG / 2, LONG - 1 };
    for (size_t i = 0; i < COUNT_OF(places); i++) {
        set_span(LONG, spans[0], places[i][0], places[i][1]);
        call_anywhere(SLOWEST + 1);
    }
    for (size_t i = 0; i < COUNT_OF(equal); i++) {
        any_run(LONG);
        distances[equal[i]] = 0;
        call_anywhere(some_floor());
    }
    any_run(LONGEST);
    call_anywhere(MINUTE / MIDDLE);
}

/* ---- At random ----------------------------------------------------------- */

/* Distances of any sort, or of few; now and then one of equal stamps. */
static void random_runs(void)
{
    for (unsigned i = 0; i < 10000; i++) {
        uint32_t most = one_in(3) ? PERIOD_MOST : one_in(2) ? 4 : 1 + below(3000);
        bool some_equal = one_in(3);
        number = below(13);
        for (size_t j = 0; j < number; j++)
            distances[j] = some_equal && one_in(8) ? ONE_OF(no_distances) : one_in(10) ? some_distance() : 1 + below(most);
        call_anywhere(some_floor());
    }
}

int main(void)
{
    enum { SEED = 5400 };
    chance_state = SEED;
    every_period();
    every_two_ends();
    every_number();
    for (size_t i = 0; i < COUNT_OF(spans); i++)
        every_two_places(spans[i]);
    every_set_under();
    in_order();
    every_set_equal();
    nearly_equal();
    every_two_equal_apart();
    every_set_round();
    less_than_a_round();
    runs();
    long_lists();
    random_runs();
    return fflush(stdout) == 0 ? 0 : 1;
}
