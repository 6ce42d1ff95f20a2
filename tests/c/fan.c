/*
 * lm89_fan_step, lm89_fan_duty and lm89_fan_preset: the rows of the data sheet's page on duty cycle; each entry of its lookup table and its hysteresis at
 * the line and on both sides of it; readings below 0; equal temperatures; codes in their order and each range at its end and one past it; then every
 * byte of every argument. Numbers are worked by hand from document 02 and from the page.
 */
#include <string.h>

#include "check.h"
#include "lm89.h"

/* The ends of the ranges, which begin at 0, and what a byte may be. */
enum {
    TEMPERATURE_MOST = 127,
    VALUE_MOST = 63,
    HYSTERESIS_MOST = 31,
    FREQUENCY_MOST = 31,
    BYTE_MOST = 255,
};

#define LAST (LM89_FAN_ENTRIES - 1)

/*
 * The parabola of the data sheet at its frequency, 20, so that 40 is all of it; hysteresis is that of power-on. The page prints nine rows and a table has
 * eight entries: these are the last eight.
 */
static const lm89_fan curve = {{{35, 9}, {45, 10}, {55, 13}, {65, 16}, {75, 21}, {85, 26}, {95, 33}, {105, 40}}, 4, 20};

/* What each step of the curve gives, none before the first. */
static const lm89_driven given[LM89_FAN_ENTRIES + 1] = {
    {LM89_CODE_DONE, 0, 0, 0},     {LM89_CODE_DONE, 1, 9, 2250},  {LM89_CODE_DONE, 2, 10, 2500}, {LM89_CODE_DONE, 3, 13, 3250},
    {LM89_CODE_DONE, 4, 16, 4000}, {LM89_CODE_DONE, 5, 21, 5250}, {LM89_CODE_DONE, 6, 26, 6500}, {LM89_CODE_DONE, 7, 33, 8250},
    {LM89_CODE_DONE, 8, 40, LM89_FAN_ALL},
};

/* The widest hysteresis, which takes the first five entries below 0 degrees, the sixth to it and the others not so far. */
static const lm89_fan cold = {{{0, 1}, {5, 2}, {10, 3}, {20, 4}, {30, 5}, {31, 6}, {32, 7}, {TEMPERATURE_MOST, 8}}, HYSTERESIS_MOST, FREQUENCY_MOST};

/* Three entries at 20 degrees. PWM values may fall, and one of them is 0; frequency is 0 too. */
static const lm89_fan equal = {{{10, 63}, {20, 50}, {20, 40}, {20, 30}, {30, 0}, {40, 20}, {50, 10}, {60, 1}}, 5, 0};

/* The page's bytes at power-on: 7Fh and 3Fh in each entry, 04h, 17h. */
static const lm89_fan power_on = {
    {{0x7F, 0x3F}, {0x7F, 0x3F}, {0x7F, 0x3F}, {0x7F, 0x3F}, {0x7F, 0x3F}, {0x7F, 0x3F}, {0x7F, 0x3F}, {0x7F, 0x3F}}, 0x04, 0x17};

static const lm89_fan zeros = {{{0, 0}}, 0, 0};

static lm89_fan with_hysteresis(lm89_fan fan, uint8_t hysteresis)
{
    fan.hysteresis = hysteresis;
    return fan;
}

static bool same(lm89_driven x, lm89_driven y)
{
    return x.code == y.code && x.step == y.step && x.value == y.value && x.duty == y.duty;
}

static bool curve_gives(unsigned earlier, int reading, unsigned step)
{
    return same(lm89_fan_step(curve, (uint8_t)earlier, (int8_t)reading), given[step]);
}

/* The step, with the PWM value that the table has for it. */
static bool steps(lm89_fan fan, uint8_t earlier, int8_t reading, uint8_t step)
{
    lm89_driven driven = lm89_fan_step(fan, earlier, reading);
    uint8_t value = step == 0 ? 0 : fan.table[step - 1][LM89_FAN_VALUE];
    return driven.code == LM89_CODE_DONE && driven.step == step && driven.value == value;
}

/* The code, at readings of either end and about 0: no reading is out of its range. On a refusal every other number is 0. */
static bool judged(lm89_fan fan, unsigned earlier, uint8_t code)
{
    static const int8_t readings[] = {INT8_MIN, -1, 0, 1, INT8_MAX};
    const lm89_driven refusal = {code, 0, 0, 0};
    for (size_t i = 0; i < sizeof readings; i++) {
        lm89_driven driven = lm89_fan_step(fan, (uint8_t)earlier, readings[i]);
        if (code == LM89_CODE_DONE ? driven.code != code : !same(driven, refusal)) {
            return false;
        }
    }
    return true;
}

static bool is(lm89_number number, uint8_t code, uint16_t value)
{
    return number.code == code && number.value == value;
}

/*
 * The page's rows, frequency 1 to 31: the PWM values for 100, about 75 and 50 percent; the duty of PWM value 1, which the page calls step resolution, and
 * of the preset. The page gives some duties to one place, and cuts two of PWM value 1 off, at 11 and 12; here all are to the nearest hundredth.
 */
static const struct {
    uint8_t all, preset, half;
    uint16_t one, actual;
} page[FREQUENCY_MOST] = {
    {2, 1, 1, 5000, 5000},    {4, 3, 2, 2500, 7500},    {6, 5, 3, 1667, 8333},    {8, 6, 4, 1250, 7500},    {10, 8, 5, 1000, 8000},
    {12, 9, 6, 833, 7500},    {14, 11, 7, 714, 7857},   {16, 12, 8, 625, 7500},   {18, 14, 9, 556, 7778},   {20, 15, 10, 500, 7500},
    {22, 17, 11, 455, 7727},  {24, 18, 12, 417, 7500},  {26, 20, 13, 385, 7692},  {28, 21, 14, 357, 7500},  {30, 23, 15, 333, 7667},
    {32, 24, 16, 313, 7500},  {34, 26, 17, 294, 7647},  {36, 27, 18, 278, 7500},  {38, 29, 19, 263, 7632},  {40, 30, 20, 250, 7500},
    {42, 32, 21, 238, 7619},  {44, 33, 22, 227, 7500},  {46, 35, 23, 217, 7609},  {48, 36, 24, 208, 7500},  {50, 38, 25, 200, 7600},
    {52, 39, 26, 192, 7500},  {54, 41, 27, 185, 7593},  {56, 42, 28, 179, 7500},  {58, 44, 29, 172, 7586},  {60, 45, 30, 167, 7500},
    {62, 47, 31, 161, 7581},
};

static void test_page(void)
{
    for (uint8_t n = 1; n <= FREQUENCY_MOST; n++) {
        uint8_t all = page[n - 1].all, preset = page[n - 1].preset;
        CHECK(is(lm89_fan_duty(n, all), LM89_CODE_DONE, LM89_FAN_ALL));
        CHECK(lm89_fan_duty(n, (uint8_t)(all - 1)).value < LM89_FAN_ALL);
        CHECK(is(lm89_fan_duty(n, page[n - 1].half), LM89_CODE_DONE, LM89_FAN_ALL / 2));
        CHECK(is(lm89_fan_duty(n, 1), LM89_CODE_DONE, page[n - 1].one));
        CHECK(is(lm89_fan_preset(n), LM89_CODE_DONE, preset));
        CHECK(is(lm89_fan_duty(n, preset), LM89_CODE_DONE, page[n - 1].actual));
    }
    CHECK(is(lm89_fan_preset(0), LM89_CODE_DONE, 1)); /* "Address 0 is mapped to Address 1" */
}

static void test_duty(void)
{
    CHECK(is(lm89_fan_duty(3, 5), LM89_CODE_DONE, 8333));   /* document 02 */
    CHECK(is(lm89_fan_duty(24, 28), LM89_CODE_DONE, 5833)); /* the page: 58.3 percent */
    CHECK(is(lm89_fan_duty(3, 2), LM89_CODE_DONE, 3333));
    CHECK(is(lm89_fan_duty(3, 4), LM89_CODE_DONE, 6667));
    CHECK(is(lm89_fan_duty(7, 3), LM89_CODE_DONE, 2143));   /* 2142.857 */
    CHECK(is(lm89_fan_duty(16, 3), LM89_CODE_DONE, 938));   /* 937.5: a tie, as are all odd values at 16 */
    CHECK(is(lm89_fan_duty(16, 5), LM89_CODE_DONE, 1563));  /* 1562.5 */
    CHECK(is(lm89_fan_duty(16, 31), LM89_CODE_DONE, 9688)); /* 9687.5 */
    CHECK(is(lm89_fan_duty(31, 61), LM89_CODE_DONE, 9839)); /* 9838.709 */
    CHECK(is(lm89_fan_duty(31, VALUE_MOST), LM89_CODE_DONE, LM89_FAN_ALL));
    CHECK(is(lm89_fan_duty(1, VALUE_MOST), LM89_CODE_DONE, LM89_FAN_ALL));
    CHECK(is(lm89_fan_duty(0, 0), LM89_CODE_DONE, 0));
    CHECK(is(lm89_fan_duty(0, 1), LM89_CODE_DONE, 5000));
    CHECK(is(lm89_fan_duty(0, 2), LM89_CODE_DONE, LM89_FAN_ALL));
    CHECK(is(lm89_fan_duty(FREQUENCY_MOST, VALUE_MOST + 1), LM89_CODE_OPERAND, 0));
    CHECK(is(lm89_fan_duty(FREQUENCY_MOST + 1, VALUE_MOST), LM89_CODE_OPERAND, 0));
    CHECK(is(lm89_fan_duty(FREQUENCY_MOST + 1, 0), LM89_CODE_OPERAND, 0));
    CHECK(is(lm89_fan_duty(0, VALUE_MOST + 1), LM89_CODE_OPERAND, 0));
    CHECK(is(lm89_fan_duty(BYTE_MOST, BYTE_MOST), LM89_CODE_OPERAND, 0));
    CHECK(lm89_fan_preset(FREQUENCY_MOST).code == LM89_CODE_DONE);
    CHECK(is(lm89_fan_preset(FREQUENCY_MOST + 1), LM89_CODE_OPERAND, 0));
}

/* A duty that is not all lies less than half a hundredth below the exact fraction or at most half a hundredth above it, which is ties upward. */
static bool nearest(int n, int value, int duty)
{
    int over = 2 * n * duty - value * LM89_FAN_ALL; /* what it is too high by, times 2n */
    return value >= 2 * n ? duty == LM89_FAN_ALL : -n < over && over <= n;
}

static void test_every_duty(void)
{
    for (int frequency = 0; frequency <= BYTE_MOST; frequency++) {
        uint16_t before = 0;
        for (int value = 0; value <= BYTE_MOST; value++) {
            lm89_number duty = lm89_fan_duty((uint8_t)frequency, (uint8_t)value);
            if (frequency > FREQUENCY_MOST || value > VALUE_MOST) {
                CHECK(is(duty, LM89_CODE_OPERAND, 0));
                continue;
            }
            CHECK(duty.code == LM89_CODE_DONE && before <= duty.value && duty.value <= LM89_FAN_ALL);
            CHECK(nearest(frequency == 0 ? 1 : frequency, value, duty.value));
            CHECK(frequency == 0 || duty.value <= lm89_fan_duty((uint8_t)(frequency - 1), (uint8_t)value).value);
            before = duty.value;
        }
    }
}

/* Twice the preset is three times the frequency, made even upwards. */
static void test_every_preset(void)
{
    for (int frequency = 0; frequency <= BYTE_MOST; frequency++) {
        lm89_number preset = lm89_fan_preset((uint8_t)frequency);
        if (frequency > FREQUENCY_MOST) {
            CHECK(is(preset, LM89_CODE_OPERAND, 0));
        } else if (frequency <= 1) {
            CHECK(is(preset, LM89_CODE_DONE, 1));
        } else {
            CHECK(preset.code == LM89_CODE_DONE && preset.value <= VALUE_MOST);
            CHECK(2 * preset.value == 3 * frequency + frequency % 2);
        }
    }
}

/* Entries are ten degrees apart, so that within five of one only it and the one before it are near. Hysteresis is 4. */
static void test_entries(void)
{
    for (unsigned entry = 1; entry <= LM89_FAN_ENTRIES; entry++) {
        int temperature = curve.table[entry - 1][LM89_FAN_TEMPERATURE];
        CHECK(curve_gives(0, temperature - 1, entry - 1));
        CHECK(curve_gives(0, temperature, entry));
        CHECK(curve_gives(0, temperature + 1, entry));
        CHECK(curve_gives(entry - 1, temperature - 4, entry - 1)); /* upwards there is no hysteresis */
        CHECK(curve_gives(entry - 1, temperature - 1, entry - 1));
        CHECK(curve_gives(entry - 1, temperature, entry));
        CHECK(curve_gives(entry, temperature - 3, entry));
        CHECK(curve_gives(entry, temperature - 4, entry));
        CHECK(curve_gives(entry, temperature - 5, entry - 1));
        CHECK(curve_gives(LM89_FAN_ENTRIES, temperature - 3, entry)); /* every entry up to the earlier step has it, not that step alone */
        CHECK(curve_gives(LM89_FAN_ENTRIES, temperature - 4, entry));
        CHECK(curve_gives(LM89_FAN_ENTRIES, temperature - 5, entry - 1));
    }
    for (unsigned earlier = 0; earlier <= LM89_FAN_ENTRIES; earlier++) {
        CHECK(curve_gives(earlier, INT8_MIN, 0));
        CHECK(curve_gives(earlier, -1, 0));
        CHECK(curve_gives(earlier, 0, 0));
        CHECK(curve_gives(earlier, 30, 0));
        CHECK(curve_gives(earlier, 106, LM89_FAN_ENTRIES));
        CHECK(curve_gives(earlier, INT8_MAX, LM89_FAN_ENTRIES));
    }
}

/* At 31 hysteresis reaches over three entries: those up to the earlier step at 24, 14 and 4. Those above it are reached as without. */
static void test_hysteresis(void)
{
    lm89_fan none = with_hysteresis(curve, 0), one = with_hysteresis(curve, 1), most = with_hysteresis(curve, HYSTERESIS_MOST);
    CHECK(steps(none, 4, 65, 4));
    CHECK(steps(none, 4, 64, 3));
    CHECK(steps(none, 8, 64, 3));
    CHECK(steps(one, 4, 64, 4));
    CHECK(steps(one, 4, 63, 3));
    CHECK(steps(most, 3, 65, 4));
    CHECK(steps(most, 3, 64, 3));
    CHECK(steps(most, 3, 24, 3));
    CHECK(steps(most, 3, 23, 2));
    CHECK(steps(most, 3, 14, 2));
    CHECK(steps(most, 3, 13, 1));
    CHECK(steps(most, 3, 4, 1));
    CHECK(steps(most, 3, 3, 0));
    CHECK(steps(most, 8, 74, 8));
    CHECK(steps(most, 8, 73, 7));
    CHECK(steps(most, 0, 34, 0));
}

/* Lines below 0: 5 - 31 = -26, 0 - 31 = -31. A reading below 0 is no large one. */
static void test_below_zero(void)
{
    CHECK(steps(cold, 0, -1, 0));
    CHECK(steps(cold, 0, 0, 1));
    CHECK(steps(cold, 1, -1, 1));
    CHECK(steps(cold, 1, -31, 1));
    CHECK(steps(cold, 1, -32, 0));
    CHECK(steps(cold, 2, -26, 2));
    CHECK(steps(cold, 2, -27, 1));
    CHECK(steps(cold, 5, -1, 5));
    CHECK(steps(cold, 5, -2, 4));
    CHECK(steps(cold, 6, 0, 6));
    CHECK(steps(cold, 6, -1, 5));
    CHECK(steps(cold, 7, 1, 7));
    CHECK(steps(cold, 7, 0, 6));
    CHECK(steps(cold, 8, 96, 8));
    CHECK(steps(cold, 8, 95, 7));
    CHECK(steps(cold, 8, -31, 1));
    CHECK(steps(cold, 0, 126, 7));
    CHECK(steps(cold, 0, 127, 8));
    for (uint8_t earlier = 0; earlier <= LM89_FAN_ENTRIES; earlier++) {
        CHECK(steps(cold, earlier, -32, 0));
        CHECK(steps(cold, earlier, INT8_MIN, 0));
    }
}

/* Of equal temperatures the later entry is the higher one; with hysteresis, the earlier step. */
static void test_equal(void)
{
    CHECK(steps(equal, 0, 19, 1));
    CHECK(steps(equal, 0, 20, 4));
    CHECK(steps(equal, 2, 20, 4));
    CHECK(steps(equal, 2, 19, 2));
    CHECK(steps(equal, 2, 15, 2));
    CHECK(steps(equal, 2, 14, 1));
    CHECK(steps(equal, 3, 15, 3));
    CHECK(steps(equal, 4, 15, 4));
    CHECK(steps(equal, 8, 15, 4));
    CHECK(steps(equal, 0, 30, 5)); /* its PWM value is 0, and it is a step all the same */
    CHECK(steps(zeros, 0, 0, 8));
    CHECK(steps(zeros, 0, -1, 0));
    CHECK(steps(with_hysteresis(zeros, HYSTERESIS_MOST), 5, -31, 5));
    CHECK(steps(with_hysteresis(zeros, HYSTERESIS_MOST), 5, -32, 0));
}

/* Duties that come with a step: a frequency of 0 counts as 1, so that 1 is a half and 2 or more is all; at power-on 46 is all. */
static void test_driven(void)
{
    const lm89_driven all = {LM89_CODE_DONE, 1, 63, LM89_FAN_ALL}, rest = {LM89_CODE_DONE, 5, 0, 0}, half = {LM89_CODE_DONE, 8, 1, LM89_FAN_ALL / 2};
    const lm89_driven open = {LM89_CODE_DONE, 8, 63, LM89_FAN_ALL}, none = {LM89_CODE_DONE, 0, 0, 0}, sixth = {LM89_CODE_DONE, 6, 6, 968};
    CHECK(same(lm89_fan_step(equal, 0, 10), all));
    CHECK(same(lm89_fan_step(equal, 0, 30), rest));
    CHECK(same(lm89_fan_step(equal, 0, 60), half));
    CHECK(same(lm89_fan_step(equal, 0, 9), none));
    CHECK(same(lm89_fan_step(cold, 0, 31), sixth)); /* 6 of 62: 967.742 */
    CHECK(same(lm89_fan_step(power_on, 0, 127), open));
    CHECK(same(lm89_fan_step(power_on, 0, 126), none));
    CHECK(same(lm89_fan_step(power_on, 8, 123), open));
    CHECK(same(lm89_fan_step(power_on, 8, 122), none));
}

/* 11 is asked of the temperatures as they stand, bytes, before any range. */
static void test_falling(void)
{
    lm89_fan out;
    memset(&out, BYTE_MOST, sizeof out);
    CHECK(judged(out, BYTE_MOST, LM89_CODE_OPERAND)); /* equal ones do not fall */
    for (unsigned i = 1; i < LM89_FAN_ENTRIES; i++) {
        lm89_fan fan = curve, falls = out;
        fan.table[i][LM89_FAN_TEMPERATURE] = fan.table[i - 1][LM89_FAN_TEMPERATURE];
        CHECK(judged(fan, 0, LM89_CODE_DONE));
        fan.table[i][LM89_FAN_TEMPERATURE]--;
        CHECK(judged(fan, 0, LM89_CODE_FALLING));
        CHECK(judged(fan, LM89_FAN_ENTRIES, LM89_CODE_FALLING));
        CHECK(judged(fan, LM89_FAN_ENTRIES + 1, LM89_CODE_FALLING));
        falls.table[i][LM89_FAN_TEMPERATURE]--;
        CHECK(judged(falls, BYTE_MOST, LM89_CODE_FALLING));
    }
    lm89_fan fan = curve;
    fan.table[LAST][LM89_FAN_TEMPERATURE] = TEMPERATURE_MOST + 1;
    CHECK(judged(fan, 0, LM89_CODE_OPERAND));
    fan.table[LAST - 1][LM89_FAN_TEMPERATURE] = TEMPERATURE_MOST;
    CHECK(judged(fan, 0, LM89_CODE_OPERAND));
    fan.table[LAST - 1][LM89_FAN_TEMPERATURE] = TEMPERATURE_MOST + 1;
    fan.table[LAST][LM89_FAN_TEMPERATURE] = TEMPERATURE_MOST;
    CHECK(judged(fan, 0, LM89_CODE_FALLING));
    fan.table[0][LM89_FAN_VALUE] = VALUE_MOST + 1;
    fan.hysteresis = HYSTERESIS_MOST + 1;
    fan.frequency = FREQUENCY_MOST + 1;
    CHECK(judged(fan, LM89_FAN_ENTRIES + 1, LM89_CODE_FALLING));
}

#define RANGE(field, most, earlier)                       \
    do {                                                  \
        lm89_fan fan = curve;                             \
        fan.field = (most);                               \
        CHECK(judged(fan, (earlier), LM89_CODE_DONE));    \
        fan.field = (most) + 1;                           \
        CHECK(judged(fan, (earlier), LM89_CODE_OPERAND)); \
        fan.field = BYTE_MOST;                            \
        CHECK(judged(fan, (earlier), LM89_CODE_OPERAND)); \
    } while (0)

/* The curve with this byte for every temperature from that of an entry on: a single one past the end makes the next fall. */
static lm89_fan with_temperatures(unsigned from, uint8_t byte)
{
    lm89_fan fan = curve;
    for (unsigned i = from; i < LM89_FAN_ENTRIES; i++) {
        fan.table[i][LM89_FAN_TEMPERATURE] = byte;
    }
    return fan;
}

/* Each number at its end and one past it, whether its entry is reached or not. */
static void test_ranges(void)
{
    CHECK(judged(curve, LM89_FAN_ENTRIES, LM89_CODE_DONE));
    CHECK(judged(curve, LM89_FAN_ENTRIES + 1, LM89_CODE_OPERAND));
    CHECK(judged(curve, BYTE_MOST, LM89_CODE_OPERAND));
    RANGE(hysteresis, HYSTERESIS_MOST, 0);
    RANGE(hysteresis, HYSTERESIS_MOST, LM89_FAN_ENTRIES);
    RANGE(frequency, FREQUENCY_MOST, 0);
    RANGE(frequency, FREQUENCY_MOST, LM89_FAN_ENTRIES);
    for (unsigned i = 0; i < LM89_FAN_ENTRIES; i++) {
        RANGE(table[i][LM89_FAN_VALUE], VALUE_MOST, 0);
        RANGE(table[i][LM89_FAN_VALUE], VALUE_MOST, LM89_FAN_ENTRIES);
        CHECK(judged(with_temperatures(i, TEMPERATURE_MOST), 0, LM89_CODE_DONE));
        CHECK(judged(with_temperatures(i, TEMPERATURE_MOST + 1), 0, LM89_CODE_OPERAND));
        CHECK(judged(with_temperatures(i, BYTE_MOST), LM89_FAN_ENTRIES, LM89_CODE_OPERAND));
    }
}

/* The code where one temperature of the curve is this byte: it falls below the one before it, or the next falls below it. */
static uint8_t code_of_temperature(unsigned i, unsigned byte)
{
    unsigned before = i == 0 ? 0 : curve.table[i - 1][LM89_FAN_TEMPERATURE];
    unsigned next = i == LAST ? BYTE_MOST : curve.table[i + 1][LM89_FAN_TEMPERATURE];
    if (byte < before || next < byte) {
        return LM89_CODE_FALLING;
    }
    return byte > TEMPERATURE_MOST ? LM89_CODE_OPERAND : LM89_CODE_DONE;
}

#define BYTE_GIVES(field, byte, code)                 \
    do {                                              \
        lm89_fan fan = curve;                         \
        fan.field = (byte);                           \
        CHECK(judged(fan, 0, (code)));                \
        CHECK(judged(fan, LM89_FAN_ENTRIES, (code))); \
    } while (0)

/* Every byte in every place of a fan. */
static void test_every_byte(void)
{
    for (unsigned byte = 0; byte <= BYTE_MOST; byte++) {
        for (unsigned i = 0; i < LM89_FAN_ENTRIES; i++) {
            BYTE_GIVES(table[i][LM89_FAN_TEMPERATURE], (uint8_t)byte, code_of_temperature(i, byte));
            BYTE_GIVES(table[i][LM89_FAN_VALUE], (uint8_t)byte, byte > VALUE_MOST ? LM89_CODE_OPERAND : LM89_CODE_DONE);
        }
        BYTE_GIVES(hysteresis, (uint8_t)byte, byte > HYSTERESIS_MOST ? LM89_CODE_OPERAND : LM89_CODE_DONE);
        BYTE_GIVES(frequency, (uint8_t)byte, byte > FREQUENCY_MOST ? LM89_CODE_OPERAND : LM89_CODE_DONE);
    }
}

/* Document 02: the reading reaches the temperature, or, for entries up to the earlier step, the temperature less hysteresis. */
static bool reached(const lm89_fan *fan, unsigned entry, unsigned earlier, int reading)
{
    int temperature = fan->table[entry - 1][LM89_FAN_TEMPERATURE];
    return reading >= temperature || (entry <= earlier && reading >= temperature - fan->hysteresis);
}

/* The highest entry that is reached, its value, and the duty of that value; the same reading, come again, changes nothing. */
static void holds(const lm89_fan *fan, uint8_t earlier, int8_t reading, lm89_driven driven)
{
    CHECK(driven.code == LM89_CODE_DONE && driven.step <= LM89_FAN_ENTRIES && driven.duty <= LM89_FAN_ALL);
    CHECK(driven.step == 0 || reached(fan, driven.step, earlier, reading));
    for (unsigned entry = driven.step + 1u; entry <= LM89_FAN_ENTRIES; entry++) {
        CHECK(!reached(fan, entry, earlier, reading));
    }
    CHECK(driven.value == (driven.step == 0 ? 0 : fan->table[driven.step - 1][LM89_FAN_VALUE]));
    CHECK(is(lm89_fan_duty(fan->frequency, driven.value), LM89_CODE_DONE, driven.duty));
    CHECK(same(lm89_fan_step(*fan, driven.step, reading), driven));
}

/* Every earlier step and every reading, from the coldest to the hottest: a hotter one never gives a lower step. */
static void test_every_reading(lm89_fan fan)
{
    const lm89_driven refusal = {LM89_CODE_OPERAND, 0, 0, 0};
    for (unsigned earlier = 0; earlier <= BYTE_MOST; earlier++) {
        uint8_t colder = 0;
        for (int reading = INT8_MIN; reading <= INT8_MAX; reading++) {
            lm89_driven driven = lm89_fan_step(fan, (uint8_t)earlier, (int8_t)reading);
            if (earlier > LM89_FAN_ENTRIES) {
                CHECK(same(driven, refusal));
                continue;
            }
            holds(&fan, (uint8_t)earlier, (int8_t)reading, driven);
            CHECK(colder <= driven.step);
            colder = driven.step;
        }
    }
}

/* A fan and what stands around it; not static, so that the compiler reads it again after a call that could write to it. */
struct {
    uint8_t before[sizeof(lm89_fan)];
    lm89_fan fan;
    uint8_t behind[sizeof(lm89_fan)];
} lent;

/* A fan goes by value: accepted or refused, the caller's stays as it is, and so does what stands around it. */
static void test_by_value(void)
{
    uint8_t bytes[sizeof lent];
    memset(&lent, 0xA7, sizeof lent);
    lent.fan = curve;
    memcpy(bytes, &lent, sizeof lent);
    CHECK(same(lm89_fan_step(lent.fan, 8, 101), given[8]));
    CHECK(memcmp(bytes, &lent, sizeof lent) == 0);
    CHECK(same(lm89_fan_step(lent.fan, 0, INT8_MIN), given[0]));
    CHECK(memcmp(bytes, &lent, sizeof lent) == 0);
    CHECK(judged(lent.fan, BYTE_MOST, LM89_CODE_OPERAND));
    CHECK(memcmp(bytes, &lent, sizeof lent) == 0);
    memset(&lent.fan, 0, LM89_FAN_ENTRY_BYTES * LM89_FAN_ENTRIES);
    lent.fan.table[0][LM89_FAN_TEMPERATURE] = 1;
    memcpy(bytes, &lent, sizeof lent);
    CHECK(judged(lent.fan, 0, LM89_CODE_FALLING));
    CHECK(memcmp(bytes, &lent, sizeof lent) == 0);
}

int main(void)
{
    test_page();
    test_duty();
    test_every_duty();
    test_every_preset();
    test_entries();
    test_hysteresis();
    test_below_zero();
    test_equal();
    test_driven();
    test_falling();
    test_ranges();
    test_every_byte();
    test_every_reading(curve);
    test_every_reading(with_hysteresis(curve, HYSTERESIS_MOST));
    test_every_reading(cold);
    test_every_reading(equal);
    test_every_reading(power_on);
    test_every_reading(zeros);
    test_by_value();
    return 0;
}
