/* fans: writes one stream of the fan's calls, in the format at the head of second/replay.c, to standard output: every pair of bytes as
 * frequency and PWM value, every byte as the frequency of a preset, and steps. The steps aim at the lines of request g (document 02):
 * readings at each entry's temperature, at that less hysteresis and one degree to either side, from every earlier step; equal neighbours;
 * both ends of the temperatures and of the readings; temperatures less hysteresis below 0; tables that fall at one place, with all else
 * right and with each other number out of its range; every byte as each number; PWM values about 2n at every frequency.
 *
 * The same bytes at each run. It predicts no answer: a step comes back as the earlier one because all nine are tried. */
#include "chance.h"

#include <stdbool.h>
#include <stdint.h>
#include <stdio.h>
#include <stdlib.h>
#include <string.h>

enum { ENTRIES = 8, LAST = ENTRIES - 1, STEPS = ENTRIES + 1, BYTES = 256 };
enum { TEMPERATURE_MOST = 127, VALUE_MOST = 63, HYSTERESIS_MOST = 31, FREQUENCY_MOST = 31, STEP_MOST = ENTRIES };
enum { READING_LEAST = -128, READING_MOST = 127 };
enum { GAP_MOST = TEMPERATURE_MOST / LAST }; /* the widest between all neighbours of one table */

/* ---- Output ------------------------------------------------------------ */

/* The fan of the calls. */
static uint8_t temperatures[ENTRIES], values[ENTRIES], hysteresis, frequency;

static void put(const void *bytes, size_t size)
{
    if (fwrite(bytes, 1, size, stdout) != size) {
        fprintf(stderr, "fans: cannot write standard output\n");
        exit(1);
    }
}

/* A step of the fan; none for a reading that is no signed byte. */
static void call_step(unsigned earlier, int reading)
{
    if (reading < READING_LEAST || reading > READING_MOST)
        return;
    put("T", 1);
    for (unsigned i = 0; i < ENTRIES; i++) {
        const uint8_t entry[] = { temperatures[i], values[i] };
        put(entry, sizeof entry);
    }
    const uint8_t rest[] = { hysteresis, frequency, (uint8_t)earlier, (uint8_t)reading };
    put(rest, sizeof rest);
}

static void call_from_every_step(int reading)
{
    for (unsigned earlier = 0; earlier < STEPS; earlier++)
        call_step(earlier, reading);
}

static void call_duty(unsigned of_frequency, unsigned value)
{
    const uint8_t call[] = { 'U', (uint8_t)of_frequency, (uint8_t)value };
    put(call, sizeof call);
}

static void call_preset(unsigned of_frequency)
{
    const uint8_t call[] = { 'V', (uint8_t)of_frequency };
    put(call, sizeof call);
}

/* ---- Fans -------------------------------------------------------------- */

static uint8_t up_to(unsigned most)
{
    return (uint8_t)below(most + 1);
}

/* In its range, at an end of it more often than chance has it. */
static uint8_t in_range(unsigned most)
{
    return one_in(8) ? 0 : one_in(8) ? (uint8_t)most : up_to(most);
}

static uint8_t past_range(unsigned most)
{
    return one_in(3) ? (uint8_t)(most + 1) : (uint8_t)(most + 1 + below(BYTES - 1 - most));
}

/* PWM values in any order, and hysteresis and frequency, all in their ranges. */
static void random_rest(void)
{
    for (unsigned i = 0; i < ENTRIES; i++)
        values[i] = in_range(VALUE_MOST);
    hysteresis = in_range(HYSTERESIS_MOST);
    frequency = in_range(FREQUENCY_MOST);
}

/* Temperatures that rise by so much from entry to entry. */
static void spread(unsigned first, unsigned gap)
{
    for (unsigned i = 0; i < ENTRIES; i++)
        temperatures[i] = (uint8_t)(first + i * gap);
}

/* The same anywhere in the range. */
static void spread_anywhere(unsigned gap)
{
    spread(up_to(TEMPERATURE_MOST - LAST * gap), gap);
}

static int rising(const void *one, const void *other)
{
    return *(const uint8_t *)one - *(const uint8_t *)other;
}

/* Any temperatures up to this one, in order. */
static void random_temperatures(unsigned most)
{
    for (unsigned i = 0; i < ENTRIES; i++)
        temperatures[i] = in_range(most);
    qsort(temperatures, ENTRIES, 1, rising);
}

/* ---- Readings ---------------------------------------------------------- */

static const int ends[] = { READING_LEAST, -HYSTERESIS_MOST - 1, -HYSTERESIS_MOST, -1, 0, 1, READING_MOST - 1, READING_MOST };

/* Each line of an entry and one degree to either side, from every earlier step. */
static void at_lines_of(unsigned entry)
{
    for (int off = -1; off <= 1; off++) {
        call_from_every_step(temperatures[entry] + off);
        if (hysteresis > 0)
            call_from_every_step(temperatures[entry] - hysteresis + off);
    }
}

static void at_lines(void)
{
    for (unsigned entry = 0; entry < ENTRIES; entry++)
        at_lines_of(entry);
}

static void at_ends(void)
{
    for (size_t i = 0; i < COUNT_OF(ends); i++)
        call_from_every_step(ends[i]);
}

static int near_a_line(void)
{
    int line = temperatures[below(ENTRIES)];
    if (one_in(6))
        return ONE_OF(ends);
    if (one_in(6))
        return (int)below(BYTES) + READING_LEAST;
    if (one_in(2))
        line -= hysteresis;
    return line + (int)below(3) - 1;
}

/* ---- Steps ------------------------------------------------------------- */

/* Each hysteresis, with entries so far apart that it spans none or few, and so near that it spans many. */
static void every_hysteresis(void)
{
    for (unsigned h = 0; h <= HYSTERESIS_MOST; h++) {
        random_rest();
        hysteresis = (uint8_t)h;
        spread_anywhere(GAP_MOST - below(2));
        at_lines();
        random_rest();
        hysteresis = (uint8_t)h;
        spread_anywhere(1 + below(5));
        at_lines();
        at_ends();
    }
}

/* Every reading from every earlier step. */
static void every_reading(void)
{
    for (int reading = READING_LEAST; reading <= READING_MOST; reading++)
        call_from_every_step(reading);
}

/* The curve of source document 000, its table at power-on, and one with lines on both sides of 0. */
static void every_reading_of_some(void)
{
    static const uint8_t curve[ENTRIES] = { 8, 9, 10, 13, 16, 21, 26, 33 };
    enum { CURVE_FIRST = 25, CURVE_GAP = 10, CURVE_FREQUENCY = 20, PAGE_HYSTERESIS = 4, PAGE_FREQUENCY = 23 };
    spread(CURVE_FIRST, CURVE_GAP);
    memcpy(values, curve, ENTRIES);
    hysteresis = PAGE_HYSTERESIS;
    frequency = CURVE_FREQUENCY;
    every_reading();
    spread(TEMPERATURE_MOST, 0);
    memset(values, VALUE_MOST, ENTRIES);
    frequency = PAGE_FREQUENCY;
    every_reading();
    random_rest();
    spread(0, 5);
    hysteresis = 18;
    every_reading();
}

/* Temperatures low enough that each entry's less hysteresis is below 0, and at both ends of the range. */
static void every_end(void)
{
    for (unsigned gap = 0; gap <= 4; gap++)
        for (unsigned first = 0; first < 3; first++) {
            random_rest();
            spread(first, gap);
            hysteresis = first == 0 ? HYSTERESIS_MOST : (uint8_t)(HYSTERESIS_MOST - below(10));
            at_lines();
            at_ends();
        }
    for (unsigned low = 0; low <= ENTRIES; low++) { /* so many at 0, the others at 127 */
        random_rest();
        memset(temperatures, 0, low);
        memset(temperatures + low, TEMPERATURE_MOST, ENTRIES - low);
        at_ends();
        hysteresis = 0;
        at_ends();
    }
}

/* Every row of equal neighbours, among others that differ; without hysteresis, with some and with the most. */
static void equal_neighbours(void)
{
    for (unsigned first = 0; first < LAST; first++)
        for (unsigned last = first + 1; last < ENTRIES; last++)
            for (unsigned round = 0; round < 3; round++) {
                random_rest();
                spread_anywhere(GAP_MOST - below(8));
                memset(temperatures + first, temperatures[one_in(2) ? first : last], last - first + 1);
                hysteresis = round == 0 ? 0 : round == 1 ? (uint8_t)(1 + below(GAP_MOST - 8)) : HYSTERESIS_MOST;
                at_lines_of(last);
            }
}

/* Each temperature, as an entry's. */
static void every_temperature(void)
{
    for (unsigned i = 0; i <= TEMPERATURE_MOST; i++) {
        unsigned entry = i % ENTRIES;
        random_rest();
        for (unsigned other = 0; other < ENTRIES; other++)
            temperatures[other] = (uint8_t)(other < entry ? below(i + 1) : other > entry ? i + below(TEMPERATURE_MOST + 1 - i) : i);
        qsort(temperatures, ENTRIES, 1, rising);
        for (int off = -1; off <= 1; off++)
            call_from_every_step((int)i + off);
    }
}

/* ---- PWM values and frequencies ----------------------------------------- */

/* An entry in force with this PWM value, another in every other entry. */
static void call_value(unsigned entry, unsigned value)
{
    for (unsigned i = 0; i < ENTRIES; i++)
        values[i] = i == entry ? (uint8_t)value : (uint8_t)((value + 1 + below(VALUE_MOST)) % (VALUE_MOST + 1));
    spread_anywhere(GAP_MOST);
    hysteresis = up_to(HYSTERESIS_MOST);
    call_step(below(entry + 2), temperatures[entry]);
}

static void every_value(void)
{
    for (unsigned n = 0; n <= FREQUENCY_MOST; n++) {
        frequency = (uint8_t)n;
        for (unsigned value = 0; value <= VALUE_MOST; value++)
            call_value(below(ENTRIES), value);
        unsigned whole = n == 0 ? 2 : 2 * n;
        for (unsigned entry = 0; entry < ENTRIES; entry++)
            for (unsigned value = whole - 1; value <= whole + 1; value++)
                call_value(entry, value);
    }
}

/* ---- Ranges -------------------------------------------------------------- */

/* Both sides of every line: a reading that reaches no entry, one that reaches all, one anywhere. */
static void call_about(unsigned earlier)
{
    call_step(earlier, READING_LEAST);
    call_step(earlier, READING_MOST);
    call_step(earlier, near_a_line());
}

static void every_byte_of(uint8_t *number)
{
    random_rest();
    random_temperatures(TEMPERATURE_MOST);
    for (unsigned byte = 0; byte < BYTES; byte++) {
        *number = (uint8_t)byte;
        call_about(in_range(STEP_MOST));
    }
}

/* Every byte as the temperature of an entry, those before it no higher and those behind it no lower. */
static void every_byte_of_temperature(unsigned entry)
{
    for (unsigned byte = 0; byte < BYTES; byte++) {
        random_rest();
        random_temperatures(TEMPERATURE_MOST);
        for (unsigned i = 0; i < ENTRIES; i++)
            if (i == entry || (i < entry ? temperatures[i] > byte : temperatures[i] < byte))
                temperatures[i] = (uint8_t)byte;
        call_about(in_range(STEP_MOST));
    }
}

static void every_range(void)
{
    for (unsigned entry = 0; entry < ENTRIES; entry++) {
        every_byte_of_temperature(entry);
        every_byte_of(values + entry);
    }
    every_byte_of(&hysteresis);
    every_byte_of(&frequency);
    random_rest();
    random_temperatures(TEMPERATURE_MOST);
    for (unsigned earlier = 0; earlier < BYTES; earlier++)
        call_about(earlier);
    hysteresis = HYSTERESIS_MOST + 1; /* which no entry would need */
    call_about(0);
    hysteresis = 0;
    call_about(STEP_MOST + 1); /* which would make no difference */
}

/* ---- Falls ---------------------------------------------------------------- */

/* Temperatures that rise but for one fall, behind this entry. */
static void fall_behind(unsigned entry, unsigned by)
{
    unsigned gap = below(4), first = by + below(30);
    for (unsigned i = 0; i < ENTRIES; i++)
        temperatures[i] = (uint8_t)(first + i * gap - (i > entry ? by + gap : 0));
}

/* The numbers of a step that have a range. */
enum { TEMPERATURE, VALUE = ENTRIES, HYSTERESIS = VALUE + ENTRIES, FREQUENCY, EARLIER, NUMBERS };

/* A number out of its range; with a temperature those behind it too, up to this entry, so that no fall is added. */
static void put_out_of_range(unsigned number, unsigned last, unsigned *earlier)
{
    enum { LIFT = TEMPERATURE_MOST + 1 };
    if (number < VALUE) {
        for (unsigned i = number; i <= last; i++)
            temperatures[i] = (uint8_t)(temperatures[i] + LIFT);
    } else if (number < HYSTERESIS) {
        values[number - VALUE] = past_range(VALUE_MOST);
    } else if (number == HYSTERESIS) {
        hysteresis = past_range(HYSTERESIS_MOST);
    } else if (number == FREQUENCY) {
        frequency = past_range(FREQUENCY_MOST);
    } else {
        *earlier = past_range(STEP_MOST);
    }
}

/* A fall by 1 and by more behind each entry: with all else right, and with each number out of its range. */
static void every_fall(void)
{
    for (unsigned entry = 0; entry < LAST; entry++)
        for (unsigned number = 0; number <= NUMBERS; number++)
            for (unsigned round = 0; round < 4; round++) {
                unsigned earlier = in_range(STEP_MOST);
                bool back_into_range = round == 3 && number <= entry;
                random_rest();
                fall_behind(entry, round < 2 ? 1 : 2 + below(30));
                if (number < NUMBERS)
                    put_out_of_range(number, back_into_range ? entry : LAST, &earlier);
                call_step(earlier, round % 2 == 0 ? READING_MOST : near_a_line());
            }
}

/* The one temperature, then the other, which begins behind each entry in turn. */
static void one_then_other(uint8_t one, uint8_t other)
{
    for (unsigned entry = 0; entry < LAST; entry++) {
        random_rest();
        memset(temperatures, one, entry + 1);
        memset(temperatures + entry + 1, other, LAST - entry);
        call_about(in_range(STEP_MOST));
    }
}

static void falls_and_rises(void)
{
    static const uint8_t pairs[][2] = {
        { 0, 1 }, { 0, 127 }, { 126, 127 }, { 127, 128 }, { 128, 129 }, { 127, 255 }, { 0, 128 }, { 0, 255 }, { 254, 255 }
    };
    for (size_t i = 0; i < COUNT_OF(pairs); i++) {
        one_then_other(pairs[i][0], pairs[i][1]);
        one_then_other(pairs[i][1], pairs[i][0]);
    }
}

/* ---- At random -------------------------------------------------------------- */

static void random_sorted(void)
{
    for (unsigned i = 0; i < 1500; i++) {
        random_rest();
        random_temperatures(one_in(3) ? 1 + below(40) : TEMPERATURE_MOST);
        int reading = near_a_line();
        call_from_every_step(reading);
    }
}

/* Two neighbours exchanged, or one temperature moved by a little; now and then a number out of its range. */
static void random_nearly_sorted(void)
{
    for (unsigned i = 0; i < 4000; i++) {
        unsigned entry = below(LAST), earlier = in_range(STEP_MOST);
        random_rest();
        random_temperatures(one_in(4) ? BYTES - 1 : TEMPERATURE_MOST);
        if (one_in(3))
            put_out_of_range(below(NUMBERS), LAST, &earlier);
        uint8_t temperature = temperatures[entry];
        if (one_in(2)) {
            temperatures[entry] = temperatures[entry + 1];
            temperatures[entry + 1] = temperature;
        } else if (one_in(2)) {
            temperatures[entry] = (uint8_t)(temperature + below(7) - 3);
        }
        int reading = near_a_line();
        call_step(earlier, reading);
    }
}

static void random_bytes(void)
{
    for (unsigned i = 0; i < 2000; i++) {
        for (unsigned entry = 0; entry < ENTRIES; entry++) {
            temperatures[entry] = up_to(BYTES - 1);
            values[entry] = up_to(BYTES - 1);
        }
        hysteresis = up_to(BYTES - 1);
        frequency = up_to(BYTES - 1);
        unsigned earlier = up_to(BYTES - 1);
        call_step(earlier, near_a_line());
    }
}

int main(void)
{
    enum { SEED = 8907 };
    chance_state = SEED;
    for (unsigned n = 0; n < BYTES; n++) {
        call_preset(n);
        for (unsigned value = 0; value < BYTES; value++)
            call_duty(n, value);
    }
    every_hysteresis();
    every_reading_of_some();
    every_end();
    equal_neighbours();
    every_temperature();
    every_value();
    every_range();
    every_fall();
    falls_and_rises();
    random_sorted();
    random_nearly_sorted();
    random_bytes();
    return fflush(stdout) == 0 ? 0 : 1;
}
