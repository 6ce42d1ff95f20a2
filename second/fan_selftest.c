/* Examples from request g of document 02 and from the fan pages of source document 000,
 * worked out by hand, every duty and preset call, every single byte of a table, and random
 * tables.
 *   gcc -std=c11 -Wall -Wextra -Werror -pedantic -g -fsanitize=address,undefined \
 *       fan.c fan_selftest.c -o fan_selftest && ./fan_selftest */
#include "fan.h"

#include <stdbool.h>
#include <stddef.h>
#include <stdio.h>

static int wrong;
static unsigned long checks;

static void check(bool good, const char *name, int line)
{
    checks++;
    if (!good) {
        printf("wrong: %s, line %d\n", name, line);
        wrong++;
    }
}
#define CHECK(good) check((good), #good, __LINE__)

static bool same(second_driven one, second_driven other)
{
    return one.code == other.code && one.step == other.step && one.value == other.value &&
           one.duty == other.duty;
}

static bool is_number(second_number number, unsigned code, unsigned value)
{
    return number.code == code && number.value == value;
}

/* ---- Steps by hand ----------------------------------------------------- */

/* One reading of a fan: earlier step, whole degrees; step, PWM value, hundredths. */
typedef struct {
    uint8_t earlier;
    int8_t reading;
    uint8_t step, value;
    uint16_t duty;
} row;

static void run_rows(const char *name, second_fan fan, const row *rows, size_t count)
{
    for (size_t i = 0; i < count; i++) {
        second_driven want = { 0, rows[i].step, rows[i].value, rows[i].duty };
        second_driven got = second_fan_step(fan, rows[i].earlier, rows[i].reading);
        checks++;
        if (same(got, want))
            continue;
        printf("wrong: %s, row %zu: code %u, step %u, value %u, duty %u, not 0, %u, %u, %u\n",
               name, i + 1, got.code, got.step, got.value, got.duty, want.step, want.value,
               want.duty);
        wrong++;
    }
}
#define ROWS(name, fan, ...)                                        \
    do {                                                            \
        static const row rows_[] = { __VA_ARGS__ };                 \
        run_rows(name, fan, rows_, sizeof rows_ / sizeof *rows_);   \
    } while (0)

static second_fan with_hysteresis(second_fan fan, uint8_t hysteresis)
{
    fan.hysteresis = hysteresis;
    return fan;
}

static second_fan with_frequency(second_fan fan, uint8_t frequency)
{
    fan.frequency = frequency;
    return fan;
}

/* No entry reached. */
#define OFF 0, 0, 0

/* The page's parabolic curve at frequency 20, so 2n = 40.  It prints nine pairs, and the
 * table holds eight: here the first eight, below the last eight.  Hysteresis 4 is the
 * power-on byte of 4F.  8 / 40 is 20 %, 9 / 40 22.5 %, and so on. */
static const second_fan curve = {
    { { 25, 8 }, { 35, 9 }, { 45, 10 }, { 55, 13 }, { 65, 16 }, { 75, 21 }, { 85, 26 },
      { 95, 33 } },
    4, 20
};
#define C1 1, 8, 2000
#define C2 2, 9, 2250
#define C3 3, 10, 2500
#define C4 4, 13, 3250
#define C5 5, 16, 4000
#define C6 6, 21, 5250
#define C7 7, 26, 6500
#define C8 8, 33, 8250

/* Earlier 0: each entry at its temperature, one below and one above.  At its temperature it
 * is reached, where the page says "exceeds". */
static void curve_from_none(void)
{
    ROWS("curve, earlier 0", curve,
         { 0, -128, OFF }, { 0, -1, OFF }, { 0, 0, OFF }, { 0, 20, OFF }, { 0, 21, OFF },
         { 0, 24, OFF }, { 0, 25, C1 }, { 0, 26, C1 },
         { 0, 34, C1 }, { 0, 35, C2 }, { 0, 36, C2 },
         { 0, 44, C2 }, { 0, 45, C3 }, { 0, 46, C3 },
         { 0, 54, C3 }, { 0, 55, C4 }, { 0, 56, C4 },
         { 0, 64, C4 }, { 0, 65, C5 }, { 0, 66, C5 },
         { 0, 74, C5 }, { 0, 75, C6 }, { 0, 76, C6 },
         { 0, 84, C6 }, { 0, 85, C7 }, { 0, 86, C7 },
         { 0, 94, C7 }, { 0, 95, C8 }, { 0, 96, C8 }, { 0, 127, C8 });
}

/* The earlier step itself, at its temperature less 4, one below and one above. */
static void curve_at_earlier(void)
{
    ROWS("curve, less hysteresis", curve,
         { 1, 20, OFF }, { 1, 21, C1 }, { 1, 22, C1 }, { 1, 24, C1 }, { 1, 25, C1 },
         { 2, 30, C1 }, { 2, 31, C2 }, { 2, 32, C2 }, { 2, 34, C2 }, { 2, 35, C2 },
         { 3, 40, C2 }, { 3, 41, C3 }, { 3, 42, C3 }, { 3, 44, C3 }, { 3, 45, C3 },
         { 4, 50, C3 }, { 4, 51, C4 }, { 4, 52, C4 }, { 4, 54, C4 }, { 4, 55, C4 },
         { 5, 60, C4 }, { 5, 61, C5 }, { 5, 62, C5 }, { 5, 64, C5 }, { 5, 65, C5 },
         { 6, 70, C5 }, { 6, 71, C6 }, { 6, 72, C6 }, { 6, 74, C6 }, { 6, 75, C6 },
         { 7, 80, C6 }, { 7, 81, C7 }, { 7, 82, C7 }, { 7, 84, C7 }, { 7, 85, C7 },
         { 8, 90, C7 }, { 8, 91, C8 }, { 8, 92, C8 }, { 8, 94, C8 }, { 8, 95, C8 });
}

/* The entry just above the earlier step has no hysteresis. */
static void curve_above_earlier(void)
{
    ROWS("curve, above the earlier step", curve,
         { 0, 21, OFF }, { 0, 24, OFF }, { 0, 25, C1 },
         { 1, 31, C1 }, { 1, 34, C1 }, { 1, 35, C2 },
         { 2, 41, C2 }, { 2, 44, C2 }, { 2, 45, C3 },
         { 3, 51, C3 }, { 3, 54, C3 }, { 3, 55, C4 },
         { 4, 61, C4 }, { 4, 64, C4 }, { 4, 65, C5 },
         { 5, 71, C5 }, { 5, 74, C5 }, { 5, 75, C6 },
         { 6, 81, C6 }, { 6, 84, C6 }, { 6, 85, C7 },
         { 7, 91, C7 }, { 7, 94, C7 }, { 7, 95, C8 });
}

/* All entries are up to the earlier step 8, and those below the earlier one count too. */
static void curve_below_earlier(void)
{
    ROWS("curve, earlier 8", curve,
         { 8, 127, C8 }, { 8, 91, C8 }, { 8, 90, C7 }, { 8, 81, C7 }, { 8, 80, C6 },
         { 8, 71, C6 }, { 8, 70, C5 }, { 8, 61, C5 }, { 8, 60, C4 }, { 8, 51, C4 },
         { 8, 50, C3 }, { 8, 41, C3 }, { 8, 40, C2 }, { 8, 31, C2 }, { 8, 30, C1 },
         { 8, 21, C1 }, { 8, 20, OFF }, { 8, 0, OFF }, { 8, -1, OFF }, { 8, -128, OFF });
    ROWS("curve, far below the earlier step", curve,
         { 5, 31, C2 }, { 5, 30, C1 }, { 5, 21, C1 }, { 5, 20, OFF }, { 3, 21, C1 },
         { 4, 127, C8 }, { 1, 127, C8 }, { 1, 91, C7 }, { 2, 90, C7 }, { 3, 64, C4 });
}

/* Hysteresis 0 is none, for every earlier step; 1 is one degree. */
static void curve_least_hysteresis(void)
{
    ROWS("curve, hysteresis 0, earlier 8", with_hysteresis(curve, 0),
         { 8, 24, OFF }, { 8, 25, C1 }, { 8, 26, C1 }, { 8, 34, C1 }, { 8, 35, C2 }, { 8, 36, C2 },
         { 8, 44, C2 }, { 8, 45, C3 }, { 8, 46, C3 }, { 8, 54, C3 }, { 8, 55, C4 }, { 8, 56, C4 },
         { 8, 64, C4 }, { 8, 65, C5 }, { 8, 66, C5 }, { 8, 74, C5 }, { 8, 75, C6 }, { 8, 76, C6 },
         { 8, 84, C6 }, { 8, 85, C7 }, { 8, 86, C7 }, { 8, 94, C7 }, { 8, 95, C8 }, { 8, 96, C8 });
    ROWS("curve, hysteresis 0, other earlier steps", with_hysteresis(curve, 0),
         { 0, 24, OFF }, { 0, 25, C1 }, { 1, 24, OFF }, { 1, 25, C1 }, { 2, 34, C1 }, { 2, 35, C2 },
         { 3, 44, C2 }, { 3, 45, C3 }, { 4, 54, C3 }, { 4, 55, C4 }, { 5, 64, C4 }, { 5, 65, C5 },
         { 6, 74, C5 }, { 6, 75, C6 }, { 7, 84, C6 }, { 7, 85, C7 }, { 7, 94, C7 }, { 7, 95, C8 },
         { 4, 95, C8 }, { 4, 25, C1 }, { 4, 24, OFF });
    ROWS("curve, hysteresis 1", with_hysteresis(curve, 1),
         { 8, 95, C8 }, { 8, 94, C8 }, { 8, 93, C7 }, { 7, 94, C7 },
         { 1, 24, C1 }, { 1, 23, OFF }, { 0, 24, OFF });
}

/* Less 31: -6, 4, 14, 24, 34, 44, 54, 64, which reaches over three entries. */
static void curve_most_hysteresis(void)
{
    ROWS("curve, hysteresis 31", with_hysteresis(curve, 31),
         { 8, 127, C8 }, { 8, 64, C8 }, { 8, 63, C7 }, { 8, 54, C7 }, { 8, 53, C6 },
         { 8, 44, C6 }, { 8, 43, C5 }, { 8, 34, C5 }, { 8, 33, C4 }, { 8, 24, C4 },
         { 8, 23, C3 }, { 8, 14, C3 }, { 8, 13, C2 }, { 8, 4, C2 }, { 8, 3, C1 },
         { 8, 0, C1 }, { 8, -1, C1 }, { 8, -6, C1 }, { 8, -7, OFF }, { 8, -128, OFF });
    ROWS("curve, hysteresis 31, other earlier steps", with_hysteresis(curve, 31),
         { 0, 64, C4 }, { 0, 24, OFF }, { 1, 34, C1 }, { 1, -6, C1 }, { 1, -7, OFF },
         { 2, 24, C2 }, { 2, 4, C2 }, { 2, 3, C1 }, { 5, 64, C5 }, { 5, 65, C5 },
         { 5, 75, C6 }, { 3, 64, C4 }, { 4, 54, C4 }, { 7, 94, C7 }, { 7, 95, C8 });
}

/* The step of each reading is the earlier one of the next. */
static void curve_walk(void)
{
    static const struct {
        int8_t reading;
        uint8_t step;
    } walk[] = {
        { 24, 0 }, { 25, 1 }, { 24, 1 }, { 21, 1 }, { 20, 0 }, { 24, 0 }, { 25, 1 },
        { 36, 2 }, { 31, 2 }, { 30, 1 }, { 34, 1 }, { 35, 2 }, { 95, 8 }, { 91, 8 },
        { 90, 7 }, { 81, 7 }, { 80, 6 }, { 75, 6 }, { 71, 6 }, { 70, 5 }, { 60, 4 },
        { 61, 4 }, { 64, 4 }, { 65, 5 }, { 61, 5 }, { -128, 0 }, { 127, 8 }, { 127, 8 }
    };
    uint8_t step = 0;
    for (size_t i = 0; i < sizeof walk / sizeof *walk; i++) {
        second_driven driven = second_fan_step(curve, step, walk[i].reading);
        CHECK(driven.code == 0 && driven.step == walk[i].step);
        step = driven.step;
    }
}

/* The last eight of the page's nine pairs: 40 / 40 is all. */
static void curve_last_eight(void)
{
    static const second_fan last = {
        { { 35, 9 }, { 45, 10 }, { 55, 13 }, { 65, 16 }, { 75, 21 }, { 85, 26 }, { 95, 33 },
          { 105, 40 } },
        4, 20
    };
    ROWS("the page's last eight pairs", last,
         { 0, 34, OFF }, { 0, 35, 1, 9, 2250 }, { 0, 45, 2, 10, 2500 }, { 0, 55, 3, 13, 3250 },
         { 0, 65, 4, 16, 4000 }, { 0, 75, 5, 21, 5250 }, { 0, 85, 6, 26, 6500 },
         { 0, 95, 7, 33, 8250 }, { 0, 104, 7, 33, 8250 }, { 0, 105, 8, 40, 10000 },
         { 8, 101, 8, 40, 10000 }, { 8, 100, 7, 33, 8250 });
}

/* Eight entries of which the i-th gives step i, PWM value i and, at n = 5, i times 10 %. */
#define E1 1, 1, 1000
#define E2 2, 2, 2000
#define E3 3, 3, 3000
#define E4 4, 4, 4000
#define E5 5, 5, 5000
#define E6 6, 6, 6000
#define E7 7, 7, 7000
#define E8 8, 8, 8000

/* Of equal temperatures the highest entry counts; with the earlier step among them, the
 * entries above it are without hysteresis. */
static void equal_temperatures(void)
{
    static const second_fan fan = {
        { { 10, 1 }, { 20, 2 }, { 20, 3 }, { 20, 4 }, { 30, 5 }, { 40, 6 }, { 40, 7 }, { 50, 8 } },
        5, 5
    };
    ROWS("equal, earlier 0", fan,
         { 0, 9, OFF }, { 0, 10, E1 }, { 0, 11, E1 }, { 0, 19, E1 }, { 0, 20, E4 }, { 0, 21, E4 },
         { 0, 29, E4 }, { 0, 30, E5 }, { 0, 39, E5 }, { 0, 40, E7 }, { 0, 41, E7 }, { 0, 49, E7 },
         { 0, 50, E8 });
    ROWS("equal, the earlier step among them", fan,
         { 1, 15, E1 }, { 1, 19, E1 }, { 1, 20, E4 },
         { 2, 14, E1 }, { 2, 15, E2 }, { 2, 16, E2 }, { 2, 19, E2 }, { 2, 20, E4 },
         { 3, 14, E1 }, { 3, 15, E3 }, { 3, 19, E3 }, { 3, 20, E4 },
         { 4, 14, E1 }, { 4, 15, E4 }, { 4, 25, E4 }, { 4, 30, E5 },
         { 6, 34, E5 }, { 6, 35, E6 }, { 6, 39, E6 }, { 6, 40, E7 },
         { 7, 34, E5 }, { 7, 35, E7 }, { 7, 45, E7 }, { 7, 50, E8 });
    ROWS("equal, below the earlier step", fan,
         { 5, 25, E5 }, { 5, 24, E4 }, { 5, 15, E4 }, { 5, 14, E1 }, { 5, 5, E1 }, { 5, 4, OFF },
         { 8, 45, E8 }, { 8, 44, E7 }, { 8, 35, E7 }, { 8, 34, E5 }, { 8, 25, E5 }, { 8, 24, E4 },
         { 8, 15, E4 }, { 8, 14, E1 }, { 8, 5, E1 }, { 8, 4, OFF });
}

/* One temperature: all or, down to it less hysteresis, the earlier step. */
static void one_temperature(void)
{
    static const second_fan fan = {
        { { 60, 1 }, { 60, 2 }, { 60, 3 }, { 60, 4 }, { 60, 5 }, { 60, 6 }, { 60, 7 }, { 60, 8 } },
        10, 5
    };
    ROWS("one temperature", fan,
         { 0, 50, OFF }, { 1, 50, E1 }, { 2, 50, E2 }, { 3, 50, E3 }, { 4, 50, E4 },
         { 5, 50, E5 }, { 6, 50, E6 }, { 7, 50, E7 }, { 8, 50, E8 },
         { 0, 59, OFF }, { 1, 59, E1 }, { 2, 59, E2 }, { 3, 59, E3 }, { 4, 59, E4 },
         { 5, 59, E5 }, { 6, 59, E6 }, { 7, 59, E7 }, { 8, 59, E8 },
         { 1, 49, OFF }, { 4, 49, OFF }, { 8, 49, OFF },
         { 0, 60, E8 }, { 1, 60, E8 }, { 4, 60, E8 }, { 8, 60, E8 }, { 0, 61, E8 });
}

/* Temperature less hysteresis may lie below zero, as a reading may. */
static void below_zero(void)
{
    static const second_fan zero = {
        { { 0, 1 }, { 0, 2 }, { 0, 3 }, { 0, 4 }, { 0, 5 }, { 0, 6 }, { 0, 7 }, { 0, 8 } }, 31, 5
    };
    static const second_fan low = { /* less 31: -26, -21, -16, -11, -6, -1, 0, 1 */
        { { 5, 1 }, { 10, 2 }, { 15, 3 }, { 20, 4 }, { 25, 5 }, { 30, 6 }, { 31, 7 }, { 32, 8 } },
        31, 5
    };
    ROWS("all at 0, hysteresis 31", zero,
         { 0, -128, OFF }, { 0, -31, OFF }, { 0, -1, OFF }, { 0, 0, E8 }, { 0, 127, E8 },
         { 1, -31, E1 }, { 1, -32, OFF }, { 3, -1, E3 }, { 3, -31, E3 }, { 3, -32, OFF },
         { 3, 0, E8 }, { 8, -1, E8 }, { 8, -31, E8 }, { 8, -32, OFF }, { 8, -128, OFF });
    ROWS("all at 0, hysteresis 1", with_hysteresis(zero, 1),
         { 8, 0, E8 }, { 8, -1, E8 }, { 8, -2, OFF }, { 7, -1, E7 }, { 0, -1, OFF });
    ROWS("all at 0, hysteresis 0", with_hysteresis(zero, 0),
         { 8, 0, E8 }, { 8, -1, OFF }, { 8, 127, E8 }, { 8, -128, OFF }, { 0, 0, E8 });
    ROWS("low, earlier 8", low,
         { 8, 127, E8 }, { 8, 1, E8 }, { 8, 0, E7 }, { 8, -1, E6 }, { 8, -2, E5 }, { 8, -6, E5 },
         { 8, -7, E4 }, { 8, -11, E4 }, { 8, -12, E3 }, { 8, -16, E3 }, { 8, -17, E2 },
         { 8, -21, E2 }, { 8, -22, E1 }, { 8, -26, E1 }, { 8, -27, OFF }, { 8, -128, OFF });
    ROWS("low, other earlier steps", low,
         { 0, -1, OFF }, { 0, 0, OFF }, { 0, 4, OFF }, { 0, 5, E1 }, { 0, 127, E8 },
         { 2, -22, E1 }, { 2, -21, E2 }, { 2, -11, E2 }, { 2, 4, E2 }, { 2, 14, E2 },
         { 2, 15, E3 }, { 6, -1, E6 }, { 6, 0, E6 }, { 6, 30, E6 }, { 6, 31, E7 });
}

/* Both ends of the temperatures, and all of them at 127. */
static void ends_of_scale(void)
{
    static const second_fan ends = {
        { { 0, 1 }, { 1, 2 }, { 2, 3 }, { 63, 4 }, { 64, 5 }, { 125, 6 }, { 126, 7 }, { 127, 8 } },
        0, 5
    };
    static const second_fan top = {
        { { 127, 1 }, { 127, 2 }, { 127, 3 }, { 127, 4 }, { 127, 5 }, { 127, 6 }, { 127, 7 },
          { 127, 8 } },
        31, 5
    };
    ROWS("both ends", ends,
         { 0, -128, OFF }, { 0, -1, OFF }, { 0, 0, E1 }, { 0, 1, E2 }, { 0, 2, E3 }, { 0, 3, E3 },
         { 0, 62, E3 }, { 0, 63, E4 }, { 0, 64, E5 }, { 0, 65, E5 }, { 0, 124, E5 },
         { 0, 125, E6 }, { 0, 126, E7 }, { 0, 127, E8 }, { 8, 126, E7 }, { 8, -1, OFF });
    ROWS("all at 127", top,
         { 0, 127, E8 }, { 0, 126, OFF }, { 0, 96, OFF }, { 8, 96, E8 }, { 8, 95, OFF },
         { 1, 96, E1 }, { 1, 126, E1 }, { 1, 127, E8 }, { 8, -128, OFF }, { 8, -1, OFF });
}

/* The page's power-on bytes: 7Fh and 3Fh in each pair, hysteresis 04h, frequency 17h.  63 is
 * above 46, which is 100 % at n = 23. */
static void power_on_bytes(void)
{
    static const second_fan fresh = {
        { { 0x7F, 0x3F }, { 0x7F, 0x3F }, { 0x7F, 0x3F }, { 0x7F, 0x3F }, { 0x7F, 0x3F },
          { 0x7F, 0x3F }, { 0x7F, 0x3F }, { 0x7F, 0x3F } },
        0x04, 0x17
    };
    ROWS("power-on bytes", fresh,
         { 0, 127, 8, 63, 10000 }, { 0, 126, OFF }, { 0, 0, OFF }, { 0, -128, OFF },
         { 8, 123, 8, 63, 10000 }, { 8, 122, OFF }, { 1, 123, 1, 63, 10000 },
         { 1, 126, 1, 63, 10000 }, { 1, 127, 8, 63, 10000 });
}

/* PWM values may stand in any order: the highest entry counts, not the greatest value, and a
 * value of 0 is an entry's as any other. */
static void values_in_any_order(void)
{
    static const second_fan down = {
        { { 10, 63 }, { 20, 40 }, { 30, 30 }, { 40, 20 }, { 50, 10 }, { 60, 5 }, { 70, 1 },
          { 80, 0 } },
        2, 31
    };
    static const second_fan none = {
        { { 10, 0 }, { 20, 0 }, { 30, 0 }, { 40, 0 }, { 50, 0 }, { 60, 0 }, { 70, 0 }, { 80, 0 } },
        2, 31
    };
    ROWS("values going down", down, /* 40 / 62 is 64.516 %, 1 / 62 1.613 % */
         { 0, 9, OFF }, { 0, 10, 1, 63, 10000 }, { 0, 20, 2, 40, 6452 }, { 0, 70, 7, 1, 161 },
         { 0, 79, 7, 1, 161 }, { 0, 80, 8, 0, 0 }, { 8, 78, 8, 0, 0 }, { 8, 77, 7, 1, 161 },
         { 0, 127, 8, 0, 0 });
    ROWS("values all 0", none,
         { 0, 9, OFF }, { 0, 10, 1, 0, 0 }, { 0, 80, 8, 0, 0 }, { 8, 78, 8, 0, 0 });
}

/* The duty of a step is its value's at the fan's frequency, 0 counting as 1. */
static void duty_of_steps(void)
{
    static const second_fan fan = {
        { { 10, 1 }, { 20, 2 }, { 30, 3 }, { 40, 62 }, { 50, 63 }, { 60, 5 }, { 70, 6 },
          { 80, 7 } },
        0, 1
    };
    ROWS("frequency 1", fan,
         { 0, 9, OFF }, { 0, 10, 1, 1, 5000 }, { 0, 20, 2, 2, 10000 }, { 0, 30, 3, 3, 10000 },
         { 0, 40, 4, 62, 10000 }, { 0, 50, 5, 63, 10000 }, { 0, 60, 6, 5, 10000 });
    ROWS("frequency 0", with_frequency(fan, 0),
         { 0, 9, OFF }, { 0, 10, 1, 1, 5000 }, { 0, 20, 2, 2, 10000 }, { 0, 30, 3, 3, 10000 },
         { 0, 40, 4, 62, 10000 }, { 0, 50, 5, 63, 10000 }, { 0, 60, 6, 5, 10000 });
    ROWS("frequency 3", with_frequency(fan, 3), /* sixths */
         { 0, 10, 1, 1, 1667 }, { 0, 20, 2, 2, 3333 }, { 0, 30, 3, 3, 5000 },
         { 0, 40, 4, 62, 10000 }, { 0, 60, 6, 5, 8333 }, { 0, 70, 7, 6, 10000 },
         { 0, 80, 8, 7, 10000 });
    ROWS("frequency 16", with_frequency(fan, 16), /* 1, 3, 5 and 7 / 32 are ties */
         { 0, 10, 1, 1, 313 }, { 0, 20, 2, 2, 625 }, { 0, 30, 3, 3, 938 }, { 0, 60, 6, 5, 1563 },
         { 0, 70, 7, 6, 1875 }, { 0, 80, 8, 7, 2188 });
    ROWS("frequency 31", with_frequency(fan, 31), /* 161.29 each */
         { 0, 10, 1, 1, 161 }, { 0, 20, 2, 2, 323 }, { 0, 30, 3, 3, 484 },
         { 0, 40, 4, 62, 10000 }, { 0, 50, 5, 63, 10000 }, { 0, 60, 6, 5, 806 },
         { 0, 70, 7, 6, 968 }, { 0, 80, 8, 7, 1129 });
}

/* ---- Refusals ---------------------------------------------------------- */

/* This code at every sort of reading, with all else 0 on a refusal. */
static bool gives(second_fan fan, uint8_t earlier, uint8_t code)
{
    static const int8_t readings[] = { -128, -1, 0, 25, 95, 127 };
    for (size_t i = 0; i < sizeof readings / sizeof *readings; i++) {
        second_driven driven = second_fan_step(fan, earlier, readings[i]);
        if (driven.code != code)
            return false;
        if (code != 0 && (driven.step != 0 || driven.value != 0 || driven.duty != 0))
            return false;
    }
    return true;
}

static second_fan with_temperature(second_fan fan, int entry, uint8_t temperature)
{
    fan.table[entry - 1][0] = temperature;
    return fan;
}

static second_fan with_value(second_fan fan, int entry, uint8_t value)
{
    fan.table[entry - 1][1] = value;
    return fan;
}

/* This temperature from an entry on. */
static second_fan with_temperatures(second_fan fan, int from, uint8_t temperature)
{
    for (int entry = from; entry <= SECOND_FAN_ENTRIES; entry++)
        fan = with_temperature(fan, entry, temperature);
    return fan;
}

/* Each range at its end and one past it; the curve is within all. */
static void range_ends(void)
{
    CHECK(gives(curve, 0, 0));
    CHECK(gives(curve, 8, 0));
    CHECK(gives(curve, 9, 4));
    CHECK(gives(curve, 128, 4));
    CHECK(gives(curve, 255, 4));
    CHECK(gives(with_hysteresis(curve, 0), 0, 0));
    CHECK(gives(with_hysteresis(curve, 31), 0, 0));
    CHECK(gives(with_hysteresis(curve, 32), 0, 4));
    CHECK(gives(with_hysteresis(curve, 128), 0, 4));
    CHECK(gives(with_hysteresis(curve, 255), 0, 4));
    CHECK(gives(with_frequency(curve, 0), 0, 0));
    CHECK(gives(with_frequency(curve, 1), 0, 0));
    CHECK(gives(with_frequency(curve, 31), 0, 0));
    CHECK(gives(with_frequency(curve, 32), 0, 4));
    CHECK(gives(with_frequency(curve, 128), 0, 4));
    CHECK(gives(with_frequency(curve, 255), 0, 4));
    CHECK(gives(with_temperatures(curve, 1, 0), 0, 0));
    CHECK(gives(with_temperatures(curve, 1, 127), 0, 0));
    CHECK(gives(with_temperatures(curve, 1, 128), 0, 4));
    CHECK(gives(with_temperatures(curve, 1, 255), 0, 4));
    CHECK(gives(with_temperature(curve, 1, 0), 0, 0));
    CHECK(gives(with_temperature(curve, 8, 127), 0, 0));
    CHECK(gives(with_temperature(curve, 8, 128), 0, 4));
    CHECK(gives(with_temperature(curve, 8, 255), 0, 4));
}

/* Every entry is judged, whether the reading reaches it or not. */
static void range_of_entries(void)
{
    for (int entry = 1; entry <= SECOND_FAN_ENTRIES; entry++) {
        CHECK(gives(with_value(curve, entry, 0), 0, 0));
        CHECK(gives(with_value(curve, entry, 63), 0, 0));
        CHECK(gives(with_value(curve, entry, 64), 0, 4));
        CHECK(gives(with_value(curve, entry, 128), 8, 4));
        CHECK(gives(with_value(curve, entry, 255), 0, 4));
        CHECK(gives(with_temperatures(curve, entry, 127), 0, 0));
        CHECK(gives(with_temperatures(curve, entry, 128), 0, 4));
        CHECK(gives(with_temperatures(curve, entry, 200), 8, 4));
        CHECK(gives(with_temperatures(curve, entry, 255), 0, 4));
    }
}

/* 11 at each of the seven places where a table can fall, by one degree or by all; equal is
 * no fall.  The bytes are compared as they stand, so one that rises past 127 does not fall,
 * and one that falls there does, before the ranges are asked. */
static void falling_places(void)
{
    for (int entry = 2; entry <= SECOND_FAN_ENTRIES; entry++) {
        uint8_t before = curve.table[entry - 2][0];
        CHECK(gives(with_temperature(curve, entry, before), 0, 0));
        CHECK(gives(with_temperature(curve, entry, (uint8_t)(before + 1)), 0, 0));
        CHECK(gives(with_temperature(curve, entry, (uint8_t)(before - 1)), 0, 11));
        CHECK(gives(with_temperature(curve, entry, 0), 0, 11));
        second_fan at_127 = with_temperatures(curve, entry - 1, 127);
        CHECK(gives(with_temperatures(at_127, entry, 126), 0, 11));
        CHECK(gives(with_temperatures(at_127, entry, 128), 0, 4));
        CHECK(gives(with_temperatures(at_127, entry, 255), 0, 4));
        second_fan at_128 = with_temperatures(curve, entry - 1, 128);
        CHECK(gives(with_temperatures(at_128, entry, 127), 0, 11));
        CHECK(gives(with_temperatures(at_128, entry, 129), 0, 4));
        second_fan at_255 = with_temperatures(curve, entry - 1, 255);
        CHECK(gives(with_temperatures(at_255, entry, 254), 0, 11));
        CHECK(gives(with_temperatures(at_255, entry, 128), 0, 11));
        CHECK(gives(with_temperatures(at_255, entry, 127), 0, 11));
        CHECK(gives(with_temperatures(at_255, entry, 0), 0, 11));
    }
}

/* One entry past 127 with a lower one behind it falls; the last has none behind it. */
static void falling_past_range(void)
{
    for (int entry = 1; entry < SECOND_FAN_ENTRIES; entry++) {
        CHECK(gives(with_temperature(curve, entry, 128), 0, 11));
        CHECK(gives(with_temperature(curve, entry, 255), 0, 11));
    }
    second_fan rising = with_temperatures(curve, 1, 127);
    CHECK(gives(with_temperature(rising, 8, 128), 0, 4));
    CHECK(gives(with_temperature(rising, 8, 126), 0, 11));
    CHECK(gives(with_temperature(rising, 1, 128), 0, 11));
    CHECK(gives(with_temperature(rising, 1, 126), 0, 0));
}

/* 11, then 4: each other number out of its range with a fall, and without one. */
static void order_of_codes(void)
{
    second_fan fall = with_temperature(curve, 2, 24);
    CHECK(gives(fall, 0, 11));
    CHECK(gives(fall, 8, 11));
    CHECK(gives(fall, 9, 11));
    CHECK(gives(fall, 255, 11));
    CHECK(gives(with_hysteresis(fall, 32), 0, 11));
    CHECK(gives(with_frequency(fall, 32), 0, 11));
    CHECK(gives(with_value(fall, 1, 64), 0, 11));
    CHECK(gives(with_value(fall, 8, 255), 0, 11));
    CHECK(gives(with_temperature(fall, 8, 128), 0, 11));
    CHECK(gives(with_temperature(fall, 1, 255), 0, 11));
    CHECK(gives(with_hysteresis(with_frequency(with_value(fall, 3, 64), 32), 32), 9, 11));
    CHECK(gives(with_hysteresis(with_frequency(with_value(curve, 3, 64), 32), 32), 9, 4));
    CHECK(gives(with_value(with_temperature(curve, 8, 128), 8, 64), 9, 4));
}

/* Each byte of a call at all its 256 values, the others within their ranges. */
static void every_byte(void)
{
    for (int byte = 0; byte < 256; byte++) {
        uint8_t b = (uint8_t)byte;
        CHECK(gives(curve, b, byte <= 8 ? 0 : 4));
        CHECK(gives(with_hysteresis(curve, b), 0, byte <= 31 ? 0 : 4));
        CHECK(gives(with_frequency(curve, b), 0, byte <= 31 ? 0 : 4));
        for (int entry = 1; entry <= SECOND_FAN_ENTRIES; entry++) {
            CHECK(gives(with_value(curve, entry, b), 0, byte <= 63 ? 0 : 4));
            int before = entry > 1 ? curve.table[entry - 2][0] : 0;
            int after = entry < SECOND_FAN_ENTRIES ? curve.table[entry][0] : 255;
            uint8_t code = byte < before || byte > after ? 11 : byte > 127 ? 4 : 0;
            CHECK(gives(with_temperature(curve, entry, b), 0, code));
        }
    }
}

/* ---- Duty -------------------------------------------------------------- */

typedef struct {
    uint8_t n, value;
    uint16_t duty;
} duty_row;

/* 625 / 2 for each: odd values at n = 16 are the ties, and go up.  Elsewhere none can be:
 * 10000 is sixteen times an odd number, so half a hundredth asks for 32 in 2n. */
static const duty_row ties[] = {
    { 16, 1, 313 }, { 16, 3, 938 }, { 16, 5, 1563 }, { 16, 7, 2188 }, { 16, 9, 2813 },
    { 16, 11, 3438 }, { 16, 13, 4063 }, { 16, 15, 4688 }, { 16, 17, 5313 }, { 16, 19, 5938 },
    { 16, 21, 6563 }, { 16, 23, 7188 }, { 16, 25, 7813 }, { 16, 27, 8438 }, { 16, 29, 9063 },
    { 16, 31, 9688 },
    { 16, 2, 625 }, { 16, 4, 1250 }, { 16, 16, 5000 }, { 16, 30, 9375 }, { 16, 32, 10000 }
};

/* The value one below all, 2n - 1: what is left is one part of 2n. */
static const duty_row last_parts[] = {
    { 1, 1, 5000 }, { 2, 3, 7500 }, { 3, 5, 8333 }, { 4, 7, 8750 }, { 5, 9, 9000 },
    { 6, 11, 9167 }, { 7, 13, 9286 }, { 8, 15, 9375 }, { 9, 17, 9444 }, { 10, 19, 9500 },
    { 11, 21, 9545 }, { 12, 23, 9583 }, { 13, 25, 9615 }, { 14, 27, 9643 }, { 15, 29, 9667 },
    { 16, 31, 9688 }, { 17, 33, 9706 }, { 18, 35, 9722 }, { 19, 37, 9737 }, { 20, 39, 9750 },
    { 21, 41, 9762 }, { 22, 43, 9773 }, { 23, 45, 9783 }, { 24, 47, 9792 }, { 25, 49, 9800 },
    { 26, 51, 9808 }, { 27, 53, 9815 }, { 28, 55, 9821 }, { 29, 57, 9828 }, { 30, 59, 9833 },
    { 31, 61, 9839 }
};

/* Ends and thirds, sevenths and so on; n = 0 as n = 1. */
static const duty_row some_duties[] = {
    { 0, 0, 0 }, { 0, 1, 5000 }, { 0, 2, 10000 }, { 0, 3, 10000 }, { 0, 63, 10000 },
    { 1, 0, 0 }, { 1, 1, 5000 }, { 1, 2, 10000 }, { 1, 3, 10000 }, { 1, 63, 10000 },
    { 2, 0, 0 }, { 2, 1, 2500 }, { 2, 2, 5000 }, { 2, 3, 7500 }, { 2, 4, 10000 }, { 2, 5, 10000 },
    { 3, 0, 0 }, { 3, 1, 1667 }, { 3, 2, 3333 }, { 3, 3, 5000 }, { 3, 4, 6667 },
    { 3, 5, 8333 }, /* the request's own example */
    { 3, 6, 10000 }, { 3, 7, 10000 }, { 3, 63, 10000 },
    { 7, 1, 714 }, { 7, 2, 1429 }, { 7, 3, 2143 }, { 7, 4, 2857 }, { 7, 6, 4286 }, { 7, 8, 5714 },
    { 11, 1, 455 }, { 11, 2, 909 }, { 12, 1, 417 }, { 12, 7, 2917 }, { 12, 11, 4583 },
    { 15, 1, 333 }, { 15, 2, 667 }, { 30, 1, 167 }, { 30, 2, 333 }, { 30, 59, 9833 },
    { 24, 28, 5833 }, /* the page's example, printed there as 58.3 % */
    { 31, 0, 0 }, { 31, 1, 161 }, { 31, 30, 4839 }, { 31, 31, 5000 }, { 31, 32, 5161 },
    { 31, 61, 9839 }, { 31, 62, 10000 }, { 31, 63, 10000 },
    { 30, 60, 10000 }, { 30, 61, 10000 }, { 30, 63, 10000 }
};

static void run_duties(const char *name, const duty_row *rows, size_t count)
{
    for (size_t i = 0; i < count; i++) {
        second_number got = second_fan_duty(rows[i].n, rows[i].value);
        checks++;
        if (is_number(got, 0, rows[i].duty))
            continue;
        printf("wrong: %s, n %u, value %u: code %u, %u, not 0, %u\n", name, rows[i].n,
               rows[i].value, got.code, got.value, rows[i].duty);
        wrong++;
    }
}
#define DUTIES(rows) run_duties(#rows, rows, sizeof rows / sizeof *rows)

/* All from 2n on, nothing at 0. */
static void duty_ends(void)
{
    CHECK(sizeof last_parts / sizeof *last_parts == 31);
    for (int n = 1; n <= 31; n++) {
        CHECK(is_number(second_fan_duty((uint8_t)n, 0), 0, 0));
        CHECK(is_number(second_fan_duty((uint8_t)n, (uint8_t)(2 * n)), 0, 10000));
        CHECK(is_number(second_fan_duty((uint8_t)n, (uint8_t)(2 * n + 1)), 0, 10000));
        CHECK(is_number(second_fan_duty((uint8_t)n, 63), 0, 10000));
    }
    CHECK(is_number(second_fan_duty(0, 64), 4, 0));
    CHECK(is_number(second_fan_duty(31, 64), 4, 0));
    CHECK(is_number(second_fan_duty(32, 0), 4, 0));
    CHECK(is_number(second_fan_duty(32, 63), 4, 0));
    CHECK(is_number(second_fan_duty(32, 64), 4, 0));
    CHECK(is_number(second_fan_duty(31, 255), 4, 0));
    CHECK(is_number(second_fan_duty(255, 0), 4, 0));
    CHECK(is_number(second_fan_duty(255, 255), 4, 0));
}

/* Every call: with d the number given, the exact fraction v / 2n lies from half a hundredth
 * below d, which is a tie that went up, to less than half a hundredth above it. */
static void every_duty(void)
{
    for (int frequency = 0; frequency < 256; frequency++)
        for (int value = 0; value < 256; value++) {
            second_number got = second_fan_duty((uint8_t)frequency, (uint8_t)value);
            int n = frequency > 0 ? frequency : 1;
            int above = 10000 * value - 2 * n * got.value; /* in 2n-ths of a hundredth */
            if (frequency > 31 || value > 63)
                CHECK(is_number(got, 4, 0));
            else if (value >= 2 * n)
                CHECK(is_number(got, 0, 10000));
            else
                CHECK(got.code == 0 && -n <= above && above < n);
        }
}

/* A greater value has no smaller duty, a greater frequency no greater one. */
static void duty_order(void)
{
    for (int n = 1; n <= 31; n++)
        for (int value = 0; value <= 62; value++) {
            second_number duty = second_fan_duty((uint8_t)n, (uint8_t)value);
            CHECK(duty.value <= second_fan_duty((uint8_t)n, (uint8_t)(value + 1)).value);
            CHECK(n == 31 || duty.value >= second_fan_duty((uint8_t)(n + 1), (uint8_t)value).value);
        }
}

/* ---- The page's table -------------------------------------------------- */

/* "FAN CONTROL DUTY CYCLE VS. REGISTER SETTINGS AND FREQUENCY", as printed but for the two
 * columns of actual frequencies; percents in hundredths, so 16.7 is 1670. */
typedef struct {
    uint8_t n;
    uint16_t resolution;        /* step resolution, % */
    uint8_t all, preset, half;  /* PWM value for 100 %, for about 75 %, for 50 % */
    uint16_t actual;            /* actual duty cycle, % when 75 % is selected */
} page_row;

static const page_row page[] = {
    { 1, 5000, 2, 1, 1, 5000 },
    { 2, 2500, 4, 3, 2, 7500 },
    { 3, 1670, 6, 5, 3, 8330 },
    { 4, 1250, 8, 6, 4, 7500 },
    { 5, 1000, 10, 8, 5, 8000 },
    { 6, 833, 12, 9, 6, 7500 },
    { 7, 714, 14, 11, 7, 7860 },
    { 8, 625, 16, 12, 8, 7500 },
    { 9, 556, 18, 14, 9, 7780 },
    { 10, 500, 20, 15, 10, 7500 },
    { 11, 454, 22, 17, 11, 7727 },
    { 12, 416, 24, 18, 12, 7500 },
    { 13, 385, 26, 20, 13, 7692 },
    { 14, 357, 28, 21, 14, 7500 },
    { 15, 333, 30, 23, 15, 7667 },
    { 16, 313, 32, 24, 16, 7500 },
    { 17, 294, 34, 26, 17, 7647 },
    { 18, 278, 36, 27, 18, 7500 },
    { 19, 263, 38, 29, 19, 7632 },
    { 20, 250, 40, 30, 20, 7500 },
    { 21, 238, 42, 32, 21, 7619 },
    { 22, 227, 44, 33, 22, 7500 },
    { 23, 217, 46, 35, 23, 7609 },
    { 24, 208, 48, 36, 24, 7500 },
    { 25, 200, 50, 38, 25, 7600 },
    { 26, 192, 52, 39, 26, 7500 },
    { 27, 185, 54, 41, 27, 7593 },
    { 28, 179, 56, 42, 28, 7500 },
    { 29, 172, 58, 44, 29, 7586 },
    { 30, 167, 60, 45, 30, 7500 },
    { 31, 161, 62, 47, 31, 7581 }
};
enum { PAGE_ROWS = sizeof page / sizeof *page };

/* Where the page has another number than the request's rule. */
typedef struct {
    uint8_t n;
    uint16_t printed, ruled;
} difference;

/* 16.7 has one place; 4.54 and 4.16 are cut off, as 100 / 22 is 4.5454... and 100 / 24 is
 * 4.1666..., nearest 4.55 and 4.17. */
static const difference resolutions[] = { { 3, 1670, 1667 }, { 11, 454, 455 }, { 12, 416, 417 } };

/* 83.3, 78.6 and 77.8 have one place: 5 / 6, 11 / 14 and 14 / 18. */
static const difference actuals[] = { { 3, 8330, 8333 }, { 7, 7860, 7857 }, { 9, 7780, 7778 } };

/* The printed number, or the rule's where they differ. */
static unsigned ruled(const difference differences[3], uint8_t n, uint16_t printed)
{
    for (int i = 0; i < 3; i++)
        if (differences[i].n == n) {
            CHECK(differences[i].printed == printed);
            return differences[i].ruled;
        }
    return printed;
}

static void page_table(void)
{
    CHECK(PAGE_ROWS == 31);
    for (int i = 0; i < PAGE_ROWS; i++) {
        page_row at = page[i];
        CHECK(at.n == i + 1);
        CHECK(is_number(second_fan_preset(at.n), 0, at.preset));
        CHECK(is_number(second_fan_duty(at.n, at.all), 0, 10000));
        CHECK(second_fan_duty(at.n, (uint8_t)(at.all - 1)).value < 10000);
        CHECK(is_number(second_fan_duty(at.n, at.half), 0, 5000));
        CHECK(is_number(second_fan_duty(at.n, 1), 0, ruled(resolutions, at.n, at.resolution)));
        CHECK(is_number(second_fan_duty(at.n, at.preset), 0, ruled(actuals, at.n, at.actual)));
        /* at most half of the last printed place off the exact fraction: of a tenth, */
        int off = 10000 * at.preset - at.actual * at.all;
        int half_tenth = 5 * at.all;
        CHECK(-half_tenth <= off && off <= half_tenth);
        /* and of a hundredth from row 11 on, where two places are printed */
        if (at.n >= 11)
            CHECK(-at.all <= 2 * off && 2 * off <= at.all);
    }
    CHECK(454 * 22 <= 10000 && 10000 < 455 * 22); /* cut off, not rounded */
    CHECK(416 * 24 <= 10000 && 10000 < 417 * 24);
}

/* Register 4B's bits 4:3 = 10 are said to give "75%-81%": 50 % at n = 1 and 83.33 % at n = 3
 * are outside, by the page's own last column too. */
static void page_spin_up(void)
{
    for (int n = 0; n <= 31; n++) {
        uint8_t preset = (uint8_t)second_fan_preset((uint8_t)n).value;
        unsigned duty = second_fan_duty((uint8_t)n, preset).value;
        if (n <= 1)
            CHECK(duty == 5000);
        else if (n == 3)
            CHECK(duty == 8333);
        else
            CHECK(7500 <= duty && duty <= 8000);
    }
}

/* "From 25 to 105 the fan is to go from 20% to 100%": the nine pairs of the page's curve,
 * y = 0.005 (x - 25)^2 + 8, with the closest PWM value, a half going up; n = 20. */
static void page_curve(void)
{
    static const struct {
        int temperature, tenths, value, duty;
    } rows[] = {
        { 25, 80, 8, 2000 }, { 35, 85, 9, 2250 }, { 45, 100, 10, 2500 }, { 55, 125, 13, 3250 },
        { 65, 160, 16, 4000 }, { 75, 205, 21, 5250 }, { 85, 260, 26, 6500 },
        { 95, 325, 33, 8250 }, { 105, 400, 40, 10000 }
    };
    CHECK(sizeof rows / sizeof *rows == SECOND_FAN_ENTRIES + 1);
    for (size_t i = 0; i < sizeof rows / sizeof *rows; i++) {
        int x = rows[i].temperature - 25;
        int more = 10 * rows[i].value - rows[i].tenths;
        CHECK(20 * rows[i].tenths == x * x + 1600);
        CHECK(-5 < more && more <= 5);
        CHECK(is_number(second_fan_duty(20, (uint8_t)rows[i].value), 0, (unsigned)rows[i].duty));
    }
}

/* ---- Preset ------------------------------------------------------------ */

/* n = 0 and both sides of the range's end; the column itself is in the page's table.  At
 * n = 1 one and a half goes to 1, at n = 3 four and a half to 5. */
static void preset_ends(void)
{
    CHECK(is_number(second_fan_preset(0), 0, 1));
    CHECK(is_number(second_fan_preset(1), 0, 1));
    CHECK(is_number(second_fan_preset(2), 0, 3));
    CHECK(is_number(second_fan_preset(3), 0, 5));
    CHECK(is_number(second_fan_preset(30), 0, 45));
    CHECK(is_number(second_fan_preset(31), 0, 47));
    CHECK(is_number(second_fan_preset(32), 4, 0));
    CHECK(is_number(second_fan_preset(33), 4, 0));
    CHECK(is_number(second_fan_preset(128), 4, 0));
    CHECK(is_number(second_fan_preset(255), 4, 0));
}

/* Every call: twice the preset is 3n, or one more where 3n is odd. */
static void every_preset(void)
{
    for (int frequency = 0; frequency < 256; frequency++) {
        second_number got = second_fan_preset((uint8_t)frequency);
        if (frequency > 31)
            CHECK(is_number(got, 4, 0));
        else if (frequency <= 1)
            CHECK(is_number(got, 0, 1));
        else
            CHECK(got.code == 0 && 2 * got.value >= 3 * frequency &&
                  2 * got.value <= 3 * frequency + 1);
    }
}

/* ---- Random tables ----------------------------------------------------- */

static uint32_t seed;

static uint32_t next(uint32_t below)
{
    seed = seed * 1664525u + 1013904223u;
    return (seed >> 8) % below;
}

/* An accepted table; in half of them the temperatures are close together. */
static second_fan any_fan(void)
{
    second_fan fan;
    uint32_t width = next(2) == 0 ? 128 : 1 + next(40);
    uint32_t least = next(129 - width);
    for (int i = 0; i < SECOND_FAN_ENTRIES; i++) {
        uint8_t temperature = (uint8_t)(least + next(width));
        int at = i;
        for (; at > 0 && fan.table[at - 1][0] > temperature; at--)
            fan.table[at][0] = fan.table[at - 1][0];
        fan.table[at][0] = temperature;
        fan.table[i][1] = (uint8_t)next(64);
    }
    fan.hysteresis = (uint8_t)next(32);
    fan.frequency = (uint8_t)next(32);
    return fan;
}

/* How many of the first entries have a temperature, less this, that the reading reaches. */
static int reached_of(const second_fan *fan, int entries, int less, int reading)
{
    int count = 0;
    for (int i = 0; i < entries; i++)
        count += fan->table[i][0] - less <= reading;
    return count;
}

static unsigned long held, plain, off; /* steps by hysteresis alone, without it, none */

/* The temperatures do not fall, so the entries reached are the first so many of them, and
 * the highest is their count, of all or of those up to the earlier step. */
static void one_reading(const second_fan *fan, int earlier, int reading)
{
    second_driven first = second_fan_step(*fan, (uint8_t)earlier, (int8_t)reading);
    int outright = reached_of(fan, SECOND_FAN_ENTRIES, 0, reading);
    int within = reached_of(fan, earlier, fan->hysteresis, reading);
    int step = within > outright ? within : outright;
    int value = step > 0 ? fan->table[step - 1][1] : 0;
    CHECK(first.code == 0 && first.step == step && first.value == value);
    CHECK(is_number(second_fan_duty(fan->frequency, (uint8_t)value), 0, first.duty));
    /* "The step never changes when the same reading comes twice." */
    second_driven twice = second_fan_step(*fan, first.step, (int8_t)reading);
    CHECK(same(first, twice));
    /* One degree more, or an earlier step one higher, gives no lower step. */
    if (reading < 127)
        CHECK(second_fan_step(*fan, (uint8_t)earlier, (int8_t)(reading + 1)).step >= first.step);
    if (earlier < SECOND_FAN_ENTRIES)
        CHECK(second_fan_step(*fan, (uint8_t)(earlier + 1), (int8_t)reading).step >= first.step);
    held += step > outright;
    plain += step > 0 && step == outright;
    off += step == 0;
}

static void random_tables(void)
{
    seed = 63;
    for (int round = 0; round < 300; round++) {
        second_fan fan = any_fan();
        for (int earlier = 0; earlier <= SECOND_FAN_ENTRIES; earlier++)
            for (int reading = -128; reading <= 127; reading++)
                one_reading(&fan, earlier, reading);
    }
    CHECK(held > 10000 && plain > 100000 && off > 100000);
}

/* Any bytes at all: 11 if some temperature is below one before it, then 4. */
static void random_bytes(void)
{
    unsigned long codes[12] = { 0 };
    seed = 64;
    for (int round = 0; round < 200000; round++) {
        second_fan fan = any_fan();
        uint8_t earlier = (uint8_t)(next(8) == 0 ? next(256) : next(9));
        if (next(3) == 0)
            fan.table[next(8)][next(2)] = (uint8_t)next(256);
        if (next(4) == 0)
            fan.table[7][0] = (uint8_t)(120 + next(16));
        if (next(8) == 0)
            fan.hysteresis = (uint8_t)next(256);
        if (next(8) == 0)
            fan.frequency = (uint8_t)next(256);
        bool falls = false;
        bool past = fan.hysteresis > 31 || fan.frequency > 31 || earlier > 8;
        for (int i = 0; i < SECOND_FAN_ENTRIES; i++) {
            past = past || fan.table[i][0] > 127 || fan.table[i][1] > 63;
            for (int j = 0; j < i; j++)
                falls = falls || fan.table[i][0] < fan.table[j][0];
        }
        uint8_t code = falls ? 11 : past ? 4 : 0;
        CHECK(gives(fan, earlier, code));
        codes[code]++;
    }
    CHECK(codes[0] > 20000 && codes[4] > 20000 && codes[11] > 20000);
}

/* ---- All --------------------------------------------------------------- */

static void steps(void)
{
    curve_from_none();
    curve_at_earlier();
    curve_above_earlier();
    curve_below_earlier();
    curve_least_hysteresis();
    curve_most_hysteresis();
    curve_walk();
    curve_last_eight();
    equal_temperatures();
    one_temperature();
    below_zero();
    ends_of_scale();
    power_on_bytes();
    values_in_any_order();
    duty_of_steps();
}

static void refusals(void)
{
    range_ends();
    range_of_entries();
    falling_places();
    falling_past_range();
    order_of_codes();
    every_byte();
}

static void numbers(void)
{
    DUTIES(ties);
    DUTIES(last_parts);
    DUTIES(some_duties);
    duty_ends();
    every_duty();
    duty_order();
    page_table();
    page_spin_up();
    page_curve();
    preset_ends();
    every_preset();
}

int main(void)
{
    steps();
    refusals();
    numbers();
    random_tables();
    random_bytes();
    printf("%s, %lu checks\n", wrong == 0 ? "all right" : "WRONG", checks);
    return wrong != 0;
}
