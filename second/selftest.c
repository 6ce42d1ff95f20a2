/* Hand-made scripts from the rulings of document 01 and from requests a, b, c, e and f of
 * document 02, every sum of sample and offset, every header, ranges, the cut tests, and
 * stretches for the soak.
 *   gcc -std=c11 -Wall -Wextra -Werror -pedantic -g -fsanitize=address,undefined \
 *       second.c account.c soak.c selftest.c -o selftest && ./selftest */
#include "account.h"
#include "second.h"
#include "soak.h"

#include <stdio.h>
#include <string.h>

static int wrong;

static void check(bool good, const char *name, int line)
{
    if (!good) {
        printf("wrong: %s, line %d\n", name, line);
        wrong++;
    }
}
#define CHECK(good) check((good), #good, __LINE__)

/* A script: records and their answers, from power-on. */
typedef struct {
    uint8_t record[4];
    uint8_t first, second;
} script_line;

static void expect(const char *name, size_t number, const script_line *line,
                   uint8_t code, uint8_t first, uint8_t second)
{
    if (code == 0 && first == line->first && second == line->second)
        return;
    printf("wrong: %s, record %zu: %u %02X %02X, not 0 %02X %02X\n", name, number,
           code, first, second, line->first, line->second);
    wrong++;
}

static void run_alone(const char *name, uint8_t variant, const script_line *line, size_t lines)
{
    second_device device;
    second_power_on(&device, variant);
    for (size_t i = 0; i < lines; i++) {
        second_event event;
        check(second_decode(1, line[i].record, &event) == 0, name, (int)i + 1);
        second_step_result got = second_step(&device, event);
        expect(name, i + 1, &line[i], got.code, got.first, got.second);
    }
}

/* A reader with its header taken: one device if the second variant is 0, else two. */
static void begin(second_reader *reader, uint8_t first, uint8_t second, uint32_t count)
{
    uint8_t header[SECOND_HEADER_2_BYTES];
    size_t length = second == 0 ? SECOND_HEADER_BYTES : SECOND_HEADER_2_BYTES;
    if (second == 0)
        CHECK(second_write_header(first, count, header, length) == 0);
    else
        CHECK(second_write_header_2(first, second, count, header, length) == 0);
    second_fresh(reader);
    second_feed_result fed = second_feed(reader, header, length, NULL, 0);
    CHECK(fed.code == 0 && fed.consumed == length && fed.written == 0);
}

/* The same script in the reader.  Place 0: the device alone.  Else beside a quiet one of
 * another address, as the first or the second of the two; there, what the script has at
 * that other address is left out, and conversions are those of the device's place. */
static void run_beside(const char *name, uint8_t variant, uint8_t place,
                       const script_line *line, size_t lines)
{
    uint8_t quiet = variant == 1 ? 2 : 1;
    uint8_t quiet_address = variant == 1 ? 0x4D : 0x4C;
    second_reader reader;
    if (place == 2)
        begin(&reader, quiet, variant, (uint32_t)lines);
    else
        begin(&reader, variant, place == 1 ? quiet : 0, (uint32_t)lines);
    for (size_t i = 0; i < lines; i++) {
        uint8_t record[4], answer[2] = { 0xA5, 0xA5 };
        memcpy(record, line[i].record, 4);
        if (place != 0 && record[0] <= SECOND_RECEIVE && record[1] == quiet_address)
            continue;
        if (place == 2 && (record[0] == 5 || record[0] == 6))
            record[0] = (uint8_t)(record[0] + 3);
        second_feed_result fed = second_feed(&reader, record, 4, answer, 2);
        expect(name, i + 1, &line[i], fed.code, answer[0], answer[1]);
    }
}

static void run_script(const char *name, uint8_t variant, const script_line *line, size_t lines)
{
    run_alone(name, variant, line, lines);
    for (uint8_t place = 0; place <= 2; place++)
        run_beside(name, variant, place, line, lines);
}

/* A script for both devices, in the reader from its header on; one if second is 0. */
static void run_bus(const char *name, uint8_t first, uint8_t second,
                    const script_line *line, size_t lines)
{
    second_reader reader;
    begin(&reader, first, second, (uint32_t)lines);
    for (size_t i = 0; i < lines; i++) {
        uint8_t answer[2] = { 0xA5, 0xA5 };
        check(second_finish(&reader) == 6, name, (int)i);
        second_feed_result fed = second_feed(&reader, line[i].record, 4, answer, 2);
        expect(name, i + 1, &line[i], fed.code, answer[0], answer[1]);
    }
    check(second_finish(&reader) == 0, name, (int)lines);
}
#define BUS(name, first, second, ...)                                          \
    do {                                                                       \
        static const script_line lines_[] = { __VA_ARGS__ };                   \
        run_bus(name, first, second, lines_, sizeof lines_ / sizeof *lines_);  \
    } while (0)
#define SCRIPT(name, variant, ...)                                          \
    do {                                                                    \
        static const script_line lines_[] = { __VA_ARGS__ };                \
        run_script(name, variant, lines_, sizeof lines_ / sizeof *lines_);  \
    } while (0)

#define WR(r, v, f) { { 1, 0x4C, r, v }, f, 0 }
#define RD(r, f, s) { { 2, 0x4C, r, 0 }, f, s }
#define SB(r, f) { { 3, 0x4C, r, 0 }, f, 0 }
#define RB(f, s) { { 4, 0x4C, 0, 0 }, f, s }
#define ARA(f, s) { { 4, 0x0C, 0, 0 }, f, s }
#define CV(l, h, lo, f) { { 5, l, h, lo }, f, 0 }
#define CO(l, f) { { 6, l, 0, 0 }, f, 0 }
#define PO { { 7, 0, 0, 0 }, 0, 0 }
/* At 4D, which the device at 4C does not answer. */
#define RD_OTHER(r) { { 2, 0x4D, r, 0 }, 0, 0 }
#define RB_OTHER { { 4, 0x4D, 0, 0 }, 0, 0 }
/* Request c: at 4D where a device is, and conversions of the second device. */
#define WR_D(r, v, f) { { 1, 0x4D, r, v }, f, 0 }
#define RD_D(r, f, s) { { 2, 0x4D, r, 0 }, f, s }
#define SB_D(r, f) { { 3, 0x4D, r, 0 }, f, 0 }
#define RB_D(f, s) { { 4, 0x4D, 0, 0 }, f, s }
#define CV2(l, h, lo, f) { { 8, l, h, lo }, f, 0 }
#define CO2(l, f) { { 9, l, 0, 0 }, f, 0 }

static void scripts(void)
{
    SCRIPT("listing", 1, WR(0x19, 0x55, 4), WR(0x0D, 0x7F, 4), CV(0x19, 0x55, 0x20, 0x0B),
           RD(2, 6, 2), WR(0x21, 5, 6), CV(0x19, 0x50, 0, 0x0A), CV(0x19, 0x4F, 0xE0, 8),
           RD(3, 4, 0x80), WR(0x30, 0, 0));
    SCRIPT("power-on bytes 1", 1, RD(0, 4, 0), RD(1, 4, 0), RD(2, 4, 0), RD(3, 4, 0),
           RD(4, 4, 8), RD(5, 4, 70), RD(6, 4, 0), RD(7, 4, 70), RD(8, 4, 0), RD(0x10, 4, 0),
           RD(0x11, 4, 0), RD(0x12, 4, 0), RD(0x13, 4, 0), RD(0x14, 4, 0), RD(0x19, 4, 110),
           RD(0x20, 4, 85), RD(0x21, 4, 10), RD(0xBF, 4, 0), RD(0xFE, 4, 1), RD(0xFF, 4, 0x31),
           RD(9, 0, 0), RD(0x0F, 0, 0), RD(0x15, 0, 0), RD(0xB0, 0, 0));
    SCRIPT("power-on bytes 2", 2, { { 2, 0x4D, 0x20, 0 }, 4, 85 },
           { { 2, 0x4D, 0xFF, 0 }, 4, 0x34 }, RD(0xFF, 0, 0));
    SCRIPT("power-on bytes 3", 3, { { 2, 0x4D, 0x20, 0 }, 4, 105 },
           { { 2, 0x4D, 0xFF, 0 }, 4, 0x35 }, { { 1, 0x4D, 0x20, 3 }, 4, 0 },
           PO, { { 2, 0x4D, 0x20, 0 }, 4, 105 });
    SCRIPT("kept bits", 1, WR(9, 0xFF, 4), RD(3, 4, 0xD5), WR(0x12, 0xFF, 4), RD(0x12, 4, 0xE0),
           WR(0x13, 0xFF, 4), RD(0x13, 4, 0xE0), WR(0x14, 0xFF, 4), RD(0x14, 4, 0xE0),
           WR(0x21, 0xFF, 4), RD(0x21, 4, 0x1F), WR(0xBF, 0xFF, 4), RD(0xBF, 4, 7),
           WR(0x0A, 0xFF, 4), RD(4, 4, 0xFF), WR(0x0B, 0xFE, 4), RD(5, 4, 0xFE),
           WR(0x0C, 0xFD, 4), RD(6, 4, 0xFD), WR(0x0D, 0xFC, 4), RD(7, 4, 0xFC),
           WR(0x0E, 0xFB, 4), RD(8, 4, 0xFB), WR(0x11, 0xFA, 4), RD(0x11, 4, 0xFA),
           WR(0x19, 0xF9, 4), RD(0x19, 4, 0xF9), WR(0x20, 0xF8, 4), RD(0x20, 4, 0xF8));
    /* P1, P3: -1024 is below 0; -1 eighth likewise; a low limit of -1/8 passes -1/8 */
    SCRIPT("P1", 1, CV(0, 0x80, 0, 9), RD(1, 5, 0x80), RD(0x10, 5, 0), RD(2, 4, 8),
           WR(9, 0, 4), CV(0, 0xFF, 0xE0, 9), RD(1, 5, 0xFF), RD(0x10, 5, 0xE0), RD(2, 4, 8),
           WR(9, 0, 4), WR(0x0E, 0xFF, 4), WR(0x14, 0xE0, 4), CV(0, 0xFF, 0xE0, 8),
           CV(0, 0xFF, 0xC0, 9));
    SCRIPT("P2", 1, WR(0x11, 1, 4), CV(0, 0x7F, 0x80, 0x1B), RD(1, 7, 0x7F), RD(0x10, 7, 0xE0),
           WR(0x11, 0xFF, 7), CV(0, 0x80, 0, 0x19), RD(1, 5, 0x80), RD(0x10, 5, 0),
           WR(0x11, 5, 5), CO(0, 0x0B), RD(1, 7, 0x7F), RD(0x10, 7, 0), RD(2, 6, 0x1E));
    SCRIPT("P3 remote", 1, WR(0x19, 85, 4), WR(0x0D, 127, 4), CV(0, 85, 0, 8),
           RD(2, 4, 0), CV(0, 85, 0x20, 0x0B), RD(2, 6, 2), WR(0x0D, 10, 6), WR(0x13, 0x20, 6),
           CV(0, 10, 0x20, 8), RD(2, 4, 0), CV(0, 10, 0x40, 8), RD(2, 4, 0x10));
    SCRIPT("P3 local", 1, CV(70, 0, 0, 8), RD(2, 4, 0), CV(71, 0, 0, 9), RD(2, 4, 0x40),
           WR(9, 0, 4), CV(0xFF, 0, 0, 9), RD(2, 4, 0x20), WR(0x0B, 127, 4), CV(85, 0, 0, 8),
           RD(2, 4, 0), CV(86, 0, 0, 0x0A), RD(2, 6, 1));
    SCRIPT("P4", 1, WR(0x19, 85, 4), WR(0x0D, 127, 4), WR(0x0E, 0x80, 4), WR(9, 1, 4),
           CV(0, 86, 0, 8), CV(0, 86, 0, 8), CV(0, 84, 0, 8), CV(0, 86, 0, 8), CV(0, 86, 0, 8),
           CV(0, 86, 0, 0x0B));
    SCRIPT("P4 other limits, D0 late, OPEN at once", 1, CV(0, 0xFF, 0, 9), CV(0, 71, 0, 9),
           RD(2, 4, 0x18), WR(9, 1, 4), CV(0, 0xFF, 0, 9), RD(2, 4, 8), PO, WR(9, 1, 4),
           CO(0, 8), RD(2, 4, 4), RD(3, 4, 1), CO(0, 8), CO(0, 0x0B), RD(2, 6, 0x16));
    SCRIPT("P5, P6, P7 interrupt", 1, CV(71, 0, 0, 9), CV(0, 0, 0, 9), CV(0xFF, 0, 0, 9),
           RD(2, 4, 0x60), RD(3, 4, 0x80), RD(2, 4, 0), WR(9, 0, 4), CV(0, 0, 0, 8),
           CO(0, 0x0B), RD(2, 6, 0x16), PO, WR(0x19, 127, 4), WR(0x0D, 127, 4), CO(0, 8),
           RD(2, 4, 4), RD(3, 4, 0));
    SCRIPT("P6, P7 comparator", 1, WR(0xBF, 1, 4), CV(71, 0, 0, 9), RD(2, 5, 0x40), RD(3, 5, 0),
           RD(2, 5, 0), ARA(1, 0), CV(0, 0, 0, 8), CV(71, 0, 0, 9), CV(0, 0, 0, 8),
           WR(0xBF, 0, 5), WR(9, 0x80, 4), WR(9, 0, 5));
    SCRIPT("P6 by receive", 1, CV(71, 0, 0, 9), SB(2, 5), RB(4, 0x40), RB(4, 0), RD(3, 4, 0x80));
    SCRIPT("P8 local below -128", 1, WR(0x20, 0x80, 4), WR(0x21, 1, 4), WR(0x0B, 127, 4),
           WR(0x0C, 0x80, 4), CV(0x81, 0, 0, 0x0B), CV(0x80, 0, 0, 0x0B), CV(0x80, 0, 0, 0x0B),
           PO);
    SCRIPT("P8 masks and moves", 1, WR(0x0B, 127, 4), WR(0x20, 50, 4), CV(51, 0, 0, 0x0B),
           WR(9, 4, 5), WR(9, 0x10, 7), WR(9, 0, 7), WR(0x20, 127, 7), RD(2, 6, 1),
           WR(0x20, 50, 6), CV(40, 0, 0, 0x0A), CV(39, 0, 0, 8), WR(0x0D, 127, 4),
           CV(0, 111, 0, 0x0A), WR(9, 0x10, 5), WR(9, 4, 7), WR(9, 0x14, 5));
    SCRIPT("P9", 1, ARA(0, 0), CV(71, 0, 0, 9), { { 2, 0x0C, 0, 0 }, 1, 0 }, ARA(4, 0x99),
           RD(3, 4, 0x80), ARA(0, 0), WR(9, 0, 5), RD(2, 4, 0x40));
    SCRIPT("P9 at 4D", 3, CV(71, 0, 0, 9), ARA(4, 0x9B));
    SCRIPT("P10", 1, CV(42, 1, 0x20, 8), RB(4, 42), SB(9, 4), RB(0, 0), SB(0x15, 0), SB(1, 4),
           RB(4, 1), WR(0x0F, 0, 4), RB(0, 0), RD(0x10, 4, 0x20), RB(4, 0x20), RD(0x0F, 0, 0),
           RB(4, 0x20), WR(0x30, 0, 0), WR(3, 0, 0), RB(4, 0x20), WR(0x19, 9, 4), RB(4, 9),
           { { 3, 0x4D, 0, 0 }, 0, 0 }, { { 4, 0x4D, 0, 0 }, 0, 0 }, RB(4, 9), PO, RB(4, 0));
    SCRIPT("P11", 1, WR(0x0F, 0, 4), WR(9, 0x40, 4), CV(9, 1, 0, 0), RD(0, 4, 0),
           WR(0x0F, 7, 4), WR(9, 0x41, 4), CV(9, 1, 0, 8), CV(10, 2, 0, 0), RD(0, 4, 9),
           WR(0x0F, 0, 4), WR(9, 0, 4), WR(9, 0x40, 4), CV(11, 2, 0, 0), WR(9, 0, 4),
           CV(12, 2, 0, 8), RD(0, 4, 12));
    SCRIPT("P12, filter and rate", 1, WR(0xBF, 6, 4), WR(0x0A, 0, 4), CV(0, 3, 0x60, 8),
           RD(1, 4, 3), RD(0x10, 4, 0x60));
}

/* Request a: pairs read 01, then 10, and what does and does not keep or let go.
 * Low bytes change from conversion to conversion, so an answer tells its reading. */
static void low_byte_scripts(void)
{
    SCRIPT("a, torn pair", 1, CV(0, 1, 0x20, 8), RD(1, 4, 1), CV(0, 2, 0x40, 8),
           RD(0x10, 4, 0x20), RD(1, 4, 2), RD(0x10, 4, 0x40));
    SCRIPT("a, torn pair, 1.875 is neither 1.000 nor 2.875", 1, CV(0, 1, 0xE0, 8), RD(1, 4, 1),
           CV(0, 2, 0, 8), RD(0x10, 4, 0xE0), RD(1, 4, 2), CV(0, 1, 0xE0, 8), RD(0x10, 4, 0));
    SCRIPT("a, at 4D", 3, CV(0, 1, 0x20, 8), { { 2, 0x4D, 1, 0 }, 4, 1 }, CV(0, 2, 0x40, 8),
           RD(1, 0, 0), RD(0x10, 0, 0), { { 2, 0x4D, 0x10, 0 }, 4, 0x20 },
           { { 2, 0x4D, 0x10, 0 }, 4, 0x40 });
    SCRIPT("a, second read of 10", 1, CV(0, 1, 0x20, 8), RD(1, 4, 1), CV(0, 2, 0x40, 8),
           RD(0x10, 4, 0x20), RD(0x10, 4, 0x40), CV(0, 3, 0x60, 8), RD(0x10, 4, 0x60));
    SCRIPT("a, 01 twice", 1, CV(0, 1, 0x20, 8), RD(1, 4, 1), CV(0, 2, 0x40, 8), RD(1, 4, 2),
           CV(0, 3, 0x60, 8), RD(0x10, 4, 0x40), RD(0x10, 4, 0x60));
    SCRIPT("a, 01 twice, no conversion between", 1, CV(0, 1, 0x20, 8), RD(1, 4, 1), RD(1, 4, 1),
           CV(0, 2, 0x40, 8), RD(0x10, 4, 0x20), RD(0x10, 4, 0x40));
    SCRIPT("a, nothing kept", 1, RD(0x10, 4, 0), CV(0, 1, 0x20, 8), RD(0x10, 4, 0x20),
           CV(0, 2, 0x40, 8), RD(0x10, 4, 0x40), CV(0, 3, 0x60, 8), RB(4, 0x60),
           CV(0, 4, 0x80, 8), RB(4, 0x80));
    SCRIPT("a, low byte first", 1, CV(0, 1, 0x20, 8), RD(0x10, 4, 0x20), RD(1, 4, 1),
           CV(0, 2, 0x40, 8), RD(0x10, 4, 0x20), RD(1, 4, 2));
    SCRIPT("a, low byte first with one-shots", 1, WR(9, 0x40, 4), WR(0x0F, 0, 4),
           CV(0, 1, 0x20, 8), RD(0x10, 4, 0x20), RD(1, 4, 1), WR(0x0F, 0, 4), CV(0, 2, 0x40, 8),
           RD(0x10, 4, 0x20), RD(1, 4, 2));

    /* By pointer; the send before it neither keeps nor lets go. */
    SCRIPT("a, 01 by pointer", 1, CV(0, 1, 0x20, 8), SB(1, 4), CV(0, 2, 0x40, 8), RB(4, 2),
           CV(0, 3, 0x60, 8), RD(0x10, 4, 0x40), RD(0x10, 4, 0x60));
    SCRIPT("a, 10 by pointer", 1, CV(0, 1, 0x20, 8), RD(1, 4, 1), SB(0x10, 4),
           CV(0, 2, 0x40, 8), RB(4, 0x20), RB(4, 0x40), CV(0, 3, 0x60, 8), RB(4, 0x60));
    SCRIPT("a, both by pointer", 1, CV(0, 1, 0x20, 8), SB(1, 4), RB(4, 1), CV(0, 2, 0x40, 8),
           SB(0x10, 4), RB(4, 0x20), RB(4, 0x40));
    SCRIPT("a, 01 twice by pointer", 1, CV(0, 1, 0x20, 8), SB(1, 4), RB(4, 1), CV(0, 2, 0x40, 8),
           RB(4, 2), CV(0, 3, 0x60, 8), SB(0x10, 4), RB(4, 0x40), RB(4, 0x60));
    SCRIPT("a, mixed", 1, CV(0, 1, 0x20, 8), RD(1, 4, 1), CV(0, 2, 0x40, 8), RB(4, 2),
           CV(0, 3, 0x60, 8), RD(0x10, 4, 0x40), RB(4, 0x60));

    SCRIPT("a, sends and writes between", 1, CV(0, 1, 0x20, 8), RD(1, 4, 1), CV(0, 2, 0x40, 8),
           SB(0x10, 4), SB(1, 4), SB(0, 4), SB(9, 4), SB(0x15, 0), WR(0x0F, 1, 4), WR(9, 0, 4),
           WR(0x11, 1, 4), WR(0x12, 0x60, 4), WR(1, 0x80, 0), WR(0x10, 0x80, 0), WR(0x30, 0, 0),
           RD(0x10, 4, 0x20), RD(0x10, 4, 0x40));
    SCRIPT("a, pointer moved from 01", 1, CV(0, 1, 0x20, 8), SB(1, 4), WR(0x19, 99, 4),
           RB(4, 99), WR(0x0F, 0, 4), RB(0, 0), SB(0, 4), RB(4, 0), CV(0, 2, 0x40, 8),
           RD(0x10, 4, 0x40));
    SCRIPT("a, pointer moved from 10", 1, CV(0, 1, 0x20, 8), RD(1, 4, 1), SB(0x10, 4),
           WR(0x19, 99, 4), RB(4, 99), CV(0, 2, 0x40, 8), SB(0x10, 4), SB(9, 4), RB(0, 0),
           SB(0x10, 4), WR(0x10, 0, 0), SB(0x15, 0), RB(4, 0x20), RB(4, 0x40));
    SCRIPT("a, other registers read between", 1, CV(5, 1, 0x20, 8), RD(1, 4, 1),
           CV(6, 2, 0x40, 8), RD(0, 4, 6), RB(4, 6), RD(2, 4, 0), RD(3, 4, 0), RD(4, 4, 8),
           RD(5, 4, 70), RD(6, 4, 0), RD(7, 4, 70), RD(8, 4, 0), RD(0x11, 4, 0), RD(0x12, 4, 0),
           RD(0x13, 4, 0), RD(0x14, 4, 0), RD(0x19, 4, 110), RD(0x20, 4, 85), RD(0x21, 4, 10),
           RD(0xBF, 4, 0), RD(0xFE, 4, 1), RD(0xFF, 4, 0x31), RD(9, 0, 0), RD(0x0F, 0, 0),
           RD(0x30, 0, 0), RD(0x10, 4, 0x20), RD(0x10, 4, 0x40));
    SCRIPT("a, other registers keep nothing", 1, CV(5, 1, 0x20, 8), RD(0, 4, 5), RD(2, 4, 0),
           RD(7, 4, 70), RD(8, 4, 0), RD(0x11, 4, 0), RD(0x13, 4, 0), RD(0x14, 4, 0),
           RD(0x19, 4, 110), RD(0xFE, 4, 1), CV(0, 2, 0x40, 8), RD(0x10, 4, 0x40));
    SCRIPT("a, status read between", 1, CV(71, 1, 0x20, 9), RD(1, 5, 1), CV(0, 2, 0x40, 9),
           RD(2, 4, 0x40), RB(4, 0), RD(0x10, 4, 0x20), RD(0x10, 4, 0x40));

    SCRIPT("a, another address keeps nothing", 1, CV(0, 1, 0x20, 8), RD_OTHER(1),
           { { 2, 0x0C, 1, 0 }, 0, 0 }, SB(1, 4), RB_OTHER, CV(0, 2, 0x40, 8),
           RD(0x10, 4, 0x40));
    SCRIPT("a, another address between", 1, CV(0, 1, 0x20, 8), RD(1, 4, 1), CV(0, 2, 0x40, 8),
           RD_OTHER(1), RB_OTHER, RD_OTHER(0x10), { { 3, 0x4D, 0x10, 0 }, 0, 0 },
           { { 1, 0x4D, 0x0F, 0 }, 0, 0 }, { { 2, 0x0C, 0x10, 0 }, 0, 0 }, SB(0x10, 4), RB_OTHER,
           RD(0x10, 4, 0x20), RD(0x10, 4, 0x40));
    SCRIPT("a, alert response with pointer at 01 keeps nothing", 1, CV(71, 1, 0x20, 9), SB(1, 5),
           ARA(4, 0x99), CV(0, 2, 0x40, 8), ARA(0, 0), CV(0, 3, 0x60, 8), RD(0x10, 4, 0x60));
    SCRIPT("a, alert response between with pointer at 01", 1, CV(71, 1, 0x20, 9), RD(1, 5, 1),
           CV(0, 2, 0x40, 9), ARA(4, 0x99), ARA(0, 0), RD(0x10, 4, 0x20), RD(0x10, 4, 0x40));
    SCRIPT("a, alert response between with pointer at 10", 1, CV(71, 1, 0x20, 9), RD(1, 5, 1),
           CV(0, 2, 0x40, 9), SB(0x10, 5), ARA(4, 0x99), ARA(0, 0), RB(4, 0x20), RB(4, 0x40));

    SCRIPT("a, standby between", 1, CV(0, 1, 0x20, 8), RD(1, 4, 1), CV(0, 2, 0x40, 8),
           WR(9, 0x40, 4), CV(0, 3, 0x60, 0), RD(0x10, 4, 0x20), RD(0x10, 4, 0x40));
    SCRIPT("a, standby, one-shot and run between", 1, WR(9, 0x40, 4), WR(0x0F, 0, 4),
           CV(0, 1, 0x20, 8), RD(1, 4, 1), WR(0x0F, 0, 4), CV(0, 2, 0x40, 8), CV(0, 3, 0x60, 0),
           WR(9, 0, 4), RD(0x10, 4, 0x20), RD(0x10, 4, 0x40));
    SCRIPT("a, conversion not taken between", 1, CV(0, 1, 0x20, 8), WR(9, 0x40, 4), RD(1, 4, 1),
           CV(0, 2, 0x40, 0), RD(0x10, 4, 0x20), RD(0x10, 4, 0x20));
    SCRIPT("a, open diode between", 1, CV(0, 1, 0x20, 8), RD(1, 4, 1), CO(0, 0x0B),
           RD(0x10, 7, 0x20), RD(0x10, 7, 0));
    SCRIPT("a, open diode kept", 1, CO(0, 0x0B), RD(1, 7, 0x7F), CV(0, 1, 0x20, 9),
           RD(0x10, 5, 0), RD(0x10, 5, 0x20));
    SCRIPT("a, power-on between", 1, CV(0, 1, 0x20, 8), RD(1, 4, 1), PO, RD(0x10, 4, 0),
           RD(1, 4, 0), PO, CV(0, 2, 0x40, 8), RD(0x10, 4, 0x40), RD(1, 4, 2), PO,
           CV(0, 3, 0x60, 8), RD(0x10, 4, 0x60));

    SCRIPT("a, a kept 0", 1, CV(0, 1, 0, 8), RD(1, 4, 1), CV(0, 2, 0x40, 8), RD(0x10, 4, 0),
           RD(0x10, 4, 0x40));
    SCRIPT("a, a kept 0 from before the first conversion", 1, RD(1, 4, 0), CV(0, 1, 0x20, 8),
           RD(0x10, 4, 0), RD(0x10, 4, 0x20));
    /* 1.125 plus 0.250; the offset is then another one */
    SCRIPT("a, of the reading, not the sample", 1, WR(0x12, 0x40, 4), CV(0, 1, 0x20, 8),
           RD(1, 4, 1), WR(0x12, 0x80, 4), CV(0, 2, 0x20, 8), RD(0x10, 4, 0x60),
           RD(0x10, 4, 0xA0));
    SCRIPT("a, both ends of the scale", 1, WR(0x11, 1, 4), CV(0, 0x7F, 0x80, 0x1B), RD(1, 7, 0x7F),
           WR(0x11, 0xFF, 7), CV(0, 0x80, 0, 0x19), RD(0x10, 5, 0xE0), RD(1, 5, 0x80),
           WR(0x11, 0, 5), CV(0, 0xFF, 0xE0, 9), RD(0x10, 5, 0), RD(0x10, 5, 0xE0));
}

/* Request a: what is kept after each record, from power-on. */
static void kept_after_records(void)
{
    static const struct {
        uint8_t record[4];
        bool lowkept;
        uint8_t low;
    } line[] = {
        { { 5, 0, 1, 0x20 }, false, 0 },
        { { 2, 0x4C, 0x10, 0 }, false, 0 },    /* nothing to let go */
        { { 3, 0x4C, 1, 0 }, false, 0 },
        { { 4, 0x4C, 0, 0 }, true, 0x20 },     /* 01 by pointer */
        { { 5, 0, 2, 0x40 }, true, 0x20 },
        { { 4, 0x4D, 0, 0 }, true, 0x20 },
        { { 2, 0x4C, 1, 0 }, true, 0x40 },     /* anew */
        { { 6, 0, 0, 0 }, true, 0x40 },
        { { 4, 0x0C, 0, 0 }, true, 0x40 },     /* alert response, pointer at 01 */
        { { 2, 0x4C, 2, 0 }, true, 0x40 },
        { { 1, 0x4C, 9, 0x40 }, true, 0x40 },
        { { 5, 0, 3, 0x60 }, true, 0x40 },     /* not taken */
        { { 3, 0x4C, 0x10, 0 }, true, 0x40 },
        { { 4, 0x0C, 0, 0 }, true, 0x40 },     /* no alert response, pointer at 10 */
        { { 4, 0x4C, 0, 0 }, false, 0 },       /* 10 by pointer */
        { { 4, 0x4C, 0, 0 }, false, 0 },
        { { 2, 0x4C, 1, 0 }, true, 0 },        /* open diode: a kept 0 */
        { { 2, 0x4C, 0x10, 0 }, false, 0 },
        { { 1, 0x4C, 9, 0 }, false, 0 },
        { { 5, 0, 0xFF, 0xE0 }, false, 0 },
        { { 2, 0x4C, 1, 0 }, true, 0xE0 },
        { { 7, 0, 0, 0 }, false, 0 },
        { { 2, 0x4C, 1, 0 }, true, 0 },
        { { 7, 0, 0, 0 }, false, 0 }
    };
    second_device device;
    second_power_on(&device, 1);
    CHECK(!device.lowkept && device.low == 0);
    for (size_t i = 0; i < sizeof line / sizeof *line; i++) {
        const uint8_t *record = line[i].record;
        second_event event = { record[0], record[1], record[2], record[3] };
        CHECK(second_step(&device, event).code == 0);
        check(device.lowkept == line[i].lowkept && device.low == line[i].low,
              "kept after record", (int)i + 1);
    }
}

/* Request b: D4 of the first answer byte.  QUIET masks ALERT and both T_CRIT, so that
 * a conversion answers 18 if taken with its sum held, 08 if taken else, 00 if not
 * taken.  Sums are in eighths; READS is the reading. */
#define QUIET WR(9, 0x94, 4)
#define QUIET_STANDBY WR(9, 0xD4, 4)
#define OFFSET(h, lo) WR(0x11, h, 4), WR(0x12, lo, 4)
#define READS(h, lo) RD(1, 4, h), RD(0x10, 4, lo)

/* Both sides of both ends, by the largest and the smallest offset and others. */
static void held_sum_ends(void)
{
    SCRIPT("b, offset 1023: sums 1023, 1024, 2046, 1022, -1", 1, QUIET, OFFSET(0x7F, 0xE0),
           CV(0, 0, 0, 8), READS(0x7F, 0xE0), CV(0, 0, 0x20, 0x18), READS(0x7F, 0xE0),
           CV(0, 0x7F, 0xE0, 0x18), READS(0x7F, 0xE0), CV(0, 0xFF, 0xE0, 8), READS(0x7F, 0xC0),
           CV(0, 0x80, 0, 8), READS(0xFF, 0xE0));
    SCRIPT("b, offset -1024: sums -1024, -1025, -2048, -1023, -1", 1, QUIET, OFFSET(0x80, 0),
           CV(0, 0, 0, 8), READS(0x80, 0), CV(0, 0xFF, 0xE0, 0x18), READS(0x80, 0),
           CV(0, 0x80, 0, 0x18), READS(0x80, 0), CV(0, 0, 0x20, 8), READS(0x80, 0x20),
           CV(0, 0x7F, 0xE0, 8), READS(0xFF, 0xE0));
    SCRIPT("b, offset 1: sums 1023, 1024, -1023", 1, QUIET, OFFSET(0, 0x20),
           CV(0, 0x7F, 0xC0, 8), READS(0x7F, 0xE0), CV(0, 0x7F, 0xE0, 0x18), READS(0x7F, 0xE0),
           CV(0, 0x80, 0, 8), READS(0x80, 0x20));
    SCRIPT("b, offset -1: sums -1024, -1025, 1022", 1, QUIET, OFFSET(0xFF, 0xE0),
           CV(0, 0x80, 0x20, 8), READS(0x80, 0), CV(0, 0x80, 0, 0x18), READS(0x80, 0),
           CV(0, 0x7F, 0xE0, 8), READS(0x7F, 0xC0));
    SCRIPT("b, offset 8: sums 1023, 1024", 1, QUIET, OFFSET(1, 0),
           CV(0, 0x7E, 0xE0, 8), READS(0x7F, 0xE0), CV(0, 0x7F, 0, 0x18), READS(0x7F, 0xE0));
    SCRIPT("b, offset -8: sums -1024, -1025", 1, QUIET, OFFSET(0xFF, 0),
           CV(0, 0x81, 0, 8), READS(0x80, 0), CV(0, 0x80, 0xE0, 0x18), READS(0x80, 0));
    SCRIPT("b, offset 85: sums 1023, 1024", 1, QUIET, OFFSET(0x0A, 0xA0),
           CV(0, 0x75, 0x40, 8), READS(0x7F, 0xE0), CV(0, 0x75, 0x60, 0x18), READS(0x7F, 0xE0));
    SCRIPT("b, offset -85: sums -1024, -1025", 1, QUIET, OFFSET(0xF5, 0x60),
           CV(0, 0x8A, 0xA0, 8), READS(0x80, 0), CV(0, 0x8A, 0x80, 0x18), READS(0x80, 0));
    SCRIPT("b, offset 512: sums 1023, 1024", 1, QUIET, OFFSET(0x40, 0),
           CV(0, 0x3F, 0xE0, 8), READS(0x7F, 0xE0), CV(0, 0x40, 0, 0x18), READS(0x7F, 0xE0));
    SCRIPT("b, offset -512: sums -1024, -1025", 1, QUIET, OFFSET(0xC0, 0),
           CV(0, 0xC0, 0, 8), READS(0x80, 0), CV(0, 0xBF, 0xE0, 0x18), READS(0x80, 0));
}

/* What is in the sum and what is not. */
static void held_sum_parts(void)
{
    SCRIPT("b, offset 0, samples at the ends", 1, QUIET, CV(0, 0x7F, 0xE0, 8),
           READS(0x7F, 0xE0), CV(0, 0x80, 0, 8), READS(0x80, 0), CV(0, 0, 0, 8),
           CV(0, 0xFF, 0xE0, 8), CV(0, 0x7F, 0, 8));
    SCRIPT("b, local readings are not in the sum", 1, QUIET, OFFSET(0x7F, 0xE0),
           CV(0x7F, 0, 0, 8), RD(0, 4, 0x7F), CV(0x80, 0, 0x20, 0x18), RD(0, 4, 0x80),
           OFFSET(0x80, 0), CV(0x80, 0, 0, 8), CV(0x7F, 0xFF, 0xE0, 0x18));
    SCRIPT("b, low byte of the offset, 8 to 9 and back", 1, QUIET, OFFSET(1, 0),
           CV(0, 0x7E, 0xE0, 8), WR(0x12, 0x20, 4), CV(0, 0x7E, 0xE0, 0x18), WR(0x12, 0, 4),
           CV(0, 0x7E, 0xE0, 8));
    SCRIPT("b, low byte of the offset, -8 to -7 and back", 1, QUIET, OFFSET(0xFF, 0),
           CV(0, 0x80, 0xE0, 0x18), WR(0x12, 0x20, 4), CV(0, 0x80, 0xE0, 8), READS(0x80, 0),
           CV(0, 0x80, 0xC0, 0x18), WR(0x12, 0, 4), CV(0, 0x80, 0xE0, 0x18));
    SCRIPT("b, low byte alone", 1, QUIET, WR(0x12, 0xE0, 4), CV(0, 0x7F, 0, 8),
           READS(0x7F, 0xE0), CV(0, 0x7F, 0x20, 0x18));
    SCRIPT("b, high byte alone", 1, QUIET, WR(0x11, 0x7F, 4), CV(0, 0, 0xE0, 8),
           READS(0x7F, 0xE0), CV(0, 1, 0, 0x18));
    SCRIPT("b, dropped bits of 12 are not in the sum", 1, QUIET, OFFSET(1, 0x1F),
           RD(0x12, 4, 0), CV(0, 0x7E, 0xE0, 8), WR(0x12, 0x3F, 4), RD(0x12, 4, 0x20),
           CV(0, 0x7E, 0xC0, 8), CV(0, 0x7E, 0xE0, 0x18), OFFSET(0xFF, 0x1F),
           CV(0, 0x81, 0, 8), CV(0, 0x80, 0xE0, 0x18), OFFSET(0x7F, 0xFF), CV(0, 0, 0, 8),
           CV(0, 0, 0x20, 0x18));
    SCRIPT("b, the offset that stands at the conversion", 1, QUIET, CV(0, 0x7F, 0xE0, 8),
           OFFSET(0x7F, 0xE0), READS(0x7F, 0xE0), CV(0, 0x7F, 0xE0, 0x18), WR(0x11, 0, 4),
           CV(0, 0x7F, 0xE0, 0x18), WR(0x12, 0, 4), CV(0, 0x7F, 0xE0, 8), WR(0x11, 1, 4),
           CV(0, 0x7F, 0xE0, 0x18), PO, QUIET, CV(0, 0x7F, 0xE0, 8));
    SCRIPT("b, offset written at another address or not in W", 1, QUIET,
           { { 1, 0x4D, 0x11, 0x7F }, 0, 0 }, WR(0x10, 0xE0, 0), WR(1, 0x7F, 0),
           CV(0, 0x7F, 0xE0, 8), CV(0, 0x80, 0, 8));
    SCRIPT("b, from one end to the other", 1, QUIET, OFFSET(0x40, 0), CV(0, 0x7F, 0xE0, 0x18),
           OFFSET(0xC0, 0), CV(0, 0x7F, 0xE0, 8), CV(0, 0x80, 0, 0x18), OFFSET(0x40, 0),
           CV(0, 0x80, 0, 8));
}

/* Pins, limits, fault queue and variant do not move it, nor it them. */
static void held_sum_beside_pins(void)
{
    SCRIPT("b, pins as they stand", 1, WR(0x11, 1, 4), CV(0, 0x7E, 0xE0, 0x0B),
           CV(0, 0x7F, 0, 0x1B), WR(9, 0x80, 6), CV(0, 0x7F, 0, 0x1A), WR(9, 0x10, 5),
           CV(0, 0x7F, 0, 0x19), WR(9, 0x90, 4), CV(0, 0x7F, 0, 0x18), CV(0, 0x7E, 0xE0, 8));
    SCRIPT("b, limits that nothing passes", 1, WR(0x0D, 0x7F, 4), WR(0x13, 0xE0, 4),
           WR(0x0E, 0x80, 4), WR(0x11, 0xFF, 4), CV(0, 0x80, 0, 0x18), CV(0, 0x81, 0, 8),
           RD(2, 4, 0));
    SCRIPT("b, fault queue", 1, WR(9, 1, 4), WR(0x11, 1, 4), CV(0, 0x7F, 0, 0x18),
           CV(0, 0x7F, 0, 0x18), CV(0, 0x7F, 0, 0x1B), CV(0, 0x7E, 0xE0, 0x0B), CO(0, 0x0B));
    SCRIPT("b, comparator", 1, WR(0xBF, 1, 4), WR(0x11, 1, 4), CV(0, 0x7F, 0, 0x1B),
           CV(0, 1, 0, 8), WR(0x11, 0xFF, 4), CV(0, 0x80, 0, 0x19), CV(0, 1, 0, 8));
    SCRIPT("b, at 4D", 2, { { 1, 0x4D, 0x11, 1 }, 4, 0 }, CV(0, 0x7E, 0xE0, 0x0B),
           CV(0, 0x7F, 0, 0x1B));
    SCRIPT("b, at 4D, local T_CRIT 105", 3, { { 1, 0x4D, 0x11, 0xFF }, 4, 0 },
           CV(0, 0x81, 0, 9), CV(0, 0x80, 0, 0x19));
}

/* An open diode has no sum; a conversion that is not taken does not show its own. */
static void held_sum_not_shown(void)
{
    SCRIPT("b, open diode", 1, QUIET, OFFSET(0x7F, 0xE0), CO(0, 8), READS(0x7F, 0),
           OFFSET(0x80, 0), CO(0, 8), READS(0x7F, 0), OFFSET(0, 0xE0), CO(0, 8),
           OFFSET(1, 0), CO(0, 8), READS(0x7F, 0), CO(0x7F, 8), CO(0x80, 8), OFFSET(0xFF, 0),
           CO(0, 8), OFFSET(0x40, 0), CO(0, 8), OFFSET(0xC0, 0), CO(0, 8));
    SCRIPT("b, open diode beside held sums", 1, WR(0x11, 0x7F, 4), CO(0, 0x0B),
           CV(0, 0x7F, 0, 0x1B), CO(0, 0x0B), CV(0, 1, 0, 0x1B), CO(0, 0x0B));
    SCRIPT("b, standby", 1, OFFSET(0x7F, 0xE0), QUIET_STANDBY, CV(0, 1, 0, 0), READS(0, 0),
           WR(0x0F, 0, 4), CV(0, 1, 0, 0x18), READS(0x7F, 0xE0), CV(0, 1, 0, 0),
           WR(0x0F, 0, 4), CV(0, 0, 0, 8), CV(0, 0, 0x20, 0), WR(0x0F, 0, 4), CO(0, 8),
           CV(0, 1, 0, 0), QUIET, CV(0, 1, 0, 0x18));
    SCRIPT("b, standby, lower end", 1, OFFSET(0x80, 0), QUIET_STANDBY, CV(0, 0x80, 0, 0),
           WR(0x0F, 0, 4), CV(0, 0xFF, 0xE0, 0x18), CV(0, 0x80, 0, 0), WR(0x0F, 0, 4),
           CV(0, 0, 0, 8), CV(0, 0xFF, 0xE0, 0), QUIET, CV(0, 0xFF, 0xE0, 0x18));
    SCRIPT("b, not taken, pins pulled", 1, WR(0x11, 1, 4), CV(0, 0x7F, 0, 0x1B), WR(9, 0x40, 7),
           CV(0, 0x7F, 0, 3), CV(0, 0x7E, 0xE0, 3), CO(0, 3), WR(0x0F, 0, 7),
           CV(0, 0x7F, 0, 0x1B), CV(0, 0x7F, 0, 3));
    SCRIPT("b, one-shot let go by leaving standby", 1, OFFSET(0x7F, 0xE0), QUIET_STANDBY,
           WR(0x0F, 0, 4), QUIET, QUIET_STANDBY, CV(0, 1, 0, 0));
}

/* It is of the one record: whatever comes next, or before, shows none. */
static void held_sum_of_one_record(void)
{
    SCRIPT("b, conversions next to it", 1, QUIET, OFFSET(1, 0), CV(0, 0x7F, 0, 0x18),
           CV(0, 0x7E, 0xE0, 8), CV(0, 0x7F, 0, 0x18), CO(0, 8), CV(0, 0x7F, 0, 0x18),
           QUIET_STANDBY, CV(0, 0x7F, 0, 0), QUIET, CV(0, 0x7F, 0, 0x18), CV(0, 0x7F, 0x20, 0x18),
           CV(0, 0, 0, 8));
    SCRIPT("b, reads and writes next to it", 1, QUIET, OFFSET(1, 0), CV(0, 0x7F, 0, 0x18),
           RD(0, 4, 0), CV(0, 0x7F, 0, 0x18), RD(1, 4, 0x7F), CV(0, 0x7F, 0, 0x18),
           RD(0x10, 4, 0xE0), CV(0, 0x7F, 0, 0x18), RD(2, 4, 0x12), CV(0, 0x7F, 0, 0x18),
           RD(0x11, 4, 1), CV(0, 0x7F, 0, 0x18), RD(9, 0, 0), CV(0, 0x7F, 0, 0x18), RD_OTHER(1),
           CV(0, 0x7F, 0, 0x18), WR(0x0A, 0, 4), CV(0, 0x7F, 0, 0x18), WR(0x11, 1, 4),
           CV(0, 0x7F, 0, 0x18), WR(0x12, 0, 4), CV(0, 0x7F, 0, 0x18), WR(0x0F, 0, 4),
           CV(0, 0x7F, 0, 0x18), WR(0x30, 0, 0));
    SCRIPT("b, sends and receives next to it", 1, QUIET, OFFSET(0xFF, 0), SB(1, 4),
           CV(0, 0x80, 0, 0x18), RB(4, 0x80), CV(0, 0x80, 0, 0x18), SB(0x10, 4),
           CV(0, 0x80, 0, 0x18), RB(4, 0), CV(0, 0x80, 0, 0x18), SB(0x15, 0),
           CV(0, 0x80, 0, 0x18), SB(9, 4), CV(0, 0x80, 0, 0x18), RB(0, 0),
           CV(0, 0x80, 0, 0x18), RB_OTHER, CV(0, 0x80, 0, 0x18), ARA(0, 0));
    SCRIPT("b, alert response next to it", 1, WR(0x11, 1, 4), CV(0, 0x7F, 0, 0x1B),
           ARA(6, 0x99), ARA(2, 0), CV(0, 0x7F, 0, 0x1A), ARA(2, 0), RD(2, 6, 0x12));
    SCRIPT("b, power-on next to it", 1, WR(0x11, 1, 4), CV(0, 0x7F, 0, 0x1B), PO, RD(1, 4, 0),
           CV(0, 0x7F, 0, 0x0B), WR(0x11, 1, 7), CV(0, 0x7F, 0, 0x1B), PO, PO, CO(0, 0x0B));
    SCRIPT("b, before it, with the same offset", 1, OFFSET(0x7F, 0xE0), RD(0, 4, 0), SB(1, 4),
           RB(4, 0), ARA(0, 0), RD(0x10, 4, 0), RD(0x12, 4, 0xE0), CV(0, 1, 0, 0x1B));
}

/* It is no part of the state: a held 1024 leaves the device as 1023 does, a held
 * -1025 as -1024 does.  A refusal has answer bytes 0. */
static void held_sum_and_state(void)
{
    static const struct {
        uint8_t offset;
        second_event held, on_scale;
    } end[] = {
        { 1, { 5, 9, 0x7F, 0 }, { 5, 9, 0x7E, 0xE0 } },
        { 0xFF, { 5, 9, 0x80, 0xE0 }, { 5, 9, 0x81, 0 } }
    };
    for (size_t i = 0; i < sizeof end / sizeof *end; i++) {
        second_device one, two;
        second_power_on(&one, 1);
        CHECK(second_step(&one, (second_event){ 1, 0x4C, 0x11, end[i].offset }).first == 4);
        two = one;
        second_step_result held = second_step(&one, end[i].held);
        second_step_result on_scale = second_step(&two, end[i].on_scale);
        CHECK(held.code == 0 && on_scale.code == 0 && held.second == 0 && on_scale.second == 0);
        CHECK(held.first == on_scale.first + 0x10);
        CHECK(memcmp(&one, &two, sizeof one) == 0 && second_device_in_range(&one));

        second_event wrong_low = end[i].held, second_sensor = end[i].held;
        wrong_low.c |= 1;
        second_sensor.kind = 8;
        second_step_result refused_step = second_step(&one, wrong_low);
        CHECK(refused_step.code == 4 && refused_step.first == 0 && refused_step.second == 0);
        refused_step = second_step(&one, second_sensor);
        CHECK(refused_step.code == 3 && refused_step.first == 0 && refused_step.second == 0);
        one.faults = 4;
        refused_step = second_step(&one, end[i].held);
        CHECK(refused_step.code == 8 && refused_step.first == 0 && refused_step.second == 0);
    }
}

/* In the reader: whole, and in parts of every size with rooms 0 to 3 and retries. */
static void held_sum_in_reader(void)
{
    static const uint8_t capture[] = { 1, 1, 0, 0, 0, 17,
        1, 0x4C, 9, 0x94, 1, 0x4C, 0x11, 0x7F, 1, 0x4C, 0x12, 0xE0, 5, 0, 0, 0, 5, 0, 0, 0x20,
        2, 0x4C, 1, 0, 6, 0, 0, 0, 1, 0x4C, 0x11, 0x80, 1, 0x4C, 0x12, 0, 5, 0, 0xFF, 0xE0,
        5, 0, 0, 0, 1, 0x4C, 9, 0xD4, 5, 0, 0xFF, 0xE0, 1, 0x4C, 0x0F, 0, 5, 0, 0xFF, 0xE0,
        7, 0, 0, 0, 5, 0, 0x80, 0 };
    static const uint8_t answers[] = { 4, 0, 4, 0, 4, 0, 8, 0, 0x18, 0, 4, 0x7F, 8, 0, 4, 0, 4, 0,
        0x18, 0, 8, 0, 4, 0, 0, 0, 4, 0, 0x18, 0, 0, 0, 9, 0 };
    uint8_t out[sizeof answers];
    CHECK(second_run(capture, sizeof capture, out, sizeof out) == 16 * sizeof answers);
    CHECK(memcmp(out, answers, sizeof out) == 0);
    for (size_t piece = 1; piece <= sizeof capture; piece++) {
        second_reader reader;
        size_t at = 0, written = 0, room = 0;
        uint8_t code = 0;
        second_fresh(&reader);
        memset(out, 0xA5, sizeof out);
        while (at < sizeof capture && (code == 0 || code == 7)) {
            size_t length = piece < sizeof capture - at ? piece : sizeof capture - at;
            size_t left = sizeof out - written;
            second_feed_result fed = second_feed(&reader, capture + at, length, out + written,
                                                 room < left ? room : left);
            at += fed.consumed;
            written += fed.written;
            code = fed.code;
            room = (room + 1) % 4;
        }
        CHECK(code == 0 && second_finish(&reader) == 0 && written == sizeof answers);
        CHECK(memcmp(out, answers, sizeof out) == 0);
    }
}

/* In the listing: the first answer byte as it is. */
static void held_sum_in_listing(void)
{
    char line[SECOND_LINE_MOST];
    CHECK(second_listing_record(line, sizeof line, 3, 0x1B, 0) == 8);
    CHECK(memcmp(line, "3 1B 00\n", 8) == 0);
    CHECK(second_listing_record(line, sizeof line, 10, 0x18, 0) == 9);
    CHECK(memcmp(line, "10 18 00\n", 9) == 0);
}

/* A number of eighths, -1024 to 1023, as its two bytes. */
static uint8_t high_of(int number)
{
    return (uint8_t)((number + 2048) / 8 % 256);
}

static uint8_t low_of(int number)
{
    return (uint8_t)((number + 2048) % 8 * 32);
}

static void write_quietly(second_device *device, uint8_t place, uint8_t value)
{
    second_step_result step = second_step(device, (second_event){ 1, 0x4C, place, value });
    CHECK(step.code == 0 && step.first == 4 && step.second == 0);
}

static second_step_result sample_step(second_device *device, int sample)
{
    return second_step(device, (second_event){ 5, 0, high_of(sample), low_of(sample) });
}

/* Every sample with every offset, in plain int, and an open diode with every offset.
 * As many samples are held as the offset is away from 0: a quarter of all pairs. */
static void every_sum(void)
{
    second_device device;
    int held_pairs = 0;
    second_power_on(&device, 1);
    write_quietly(&device, 9, 0x94);
    for (int offset = -1024; offset <= 1023; offset++) {
        int differ = 0, held = 0;
        write_quietly(&device, 0x11, high_of(offset));
        write_quietly(&device, 0x12, low_of(offset));
        for (int sample = -1024; sample <= 1023; sample++) {
            int reading = sample + offset, first = 8;
            if (reading > 1023) {
                reading = 1023;
                first = 8 + 16;
            } else if (reading < -1024) {
                reading = -1024;
                first = 8 + 16;
            }
            second_step_result step = sample_step(&device, sample);
            differ += step.code != 0 || step.first != first || step.second != 0;
            differ += device.remote != reading;
            held += step.first / 16;
        }
        check(differ == 0, "every sample, offset", offset);
        check(held == (offset < 0 ? -offset : offset), "samples held, offset", offset);
        held_pairs += held;
        second_step_result open = second_step(&device, (second_event){ 6, 0, 0, 0 });
        check(open.code == 0 && open.first == 8 && open.second == 0 && device.remote == 1016,
              "open diode, offset", offset);
    }
    CHECK(held_pairs == 2048 * 2048 / 4);
}

/* Every sample in rising order with one offset, as one capture: the last ones are held
 * if the offset is above 0, the first ones if it is below, as many as the offset says.
 * Kind 05 of one device, or kind 08 of the second of two. */
static void samples_in_capture(int offset, bool of_second)
{
    enum { SETUP = 3, SAMPLES = 2048 };
    static uint8_t capture[7 + 4 * (SETUP + SAMPLES)];
    static uint8_t answers[2 * (SETUP + SAMPLES)];
    uint8_t at = of_second ? 0x4D : 0x4C;
    size_t header = of_second ? 7 : 6;
    const uint8_t setup[4 * SETUP] = { 1, at, 9, 0x94, 1, at, 0x11, high_of(offset),
                                       1, at, 0x12, low_of(offset) };
    int differ = 0;
    if (of_second)
        CHECK(second_write_header_2(1, 2, SETUP + SAMPLES, capture, 7) == 0);
    else
        CHECK(second_write_header(1, SETUP + SAMPLES, capture, 6) == 0);
    memcpy(capture + header, setup, sizeof setup);
    for (int i = 0; i < SAMPLES; i++) {
        uint8_t *record = capture + header + 4 * (SETUP + i);
        record[0] = of_second ? 8 : 5;
        record[1] = 0;
        record[2] = high_of(i - 1024);
        record[3] = low_of(i - 1024);
    }
    CHECK(second_run(capture, header + 4 * (SETUP + SAMPLES), answers, sizeof answers) ==
          16 * sizeof answers);
    for (int i = 0; i < SAMPLES; i++) {
        bool held = offset > 0 ? i >= SAMPLES - offset : i < -offset;
        const uint8_t *answer = answers + 2 * (SETUP + i);
        differ += answer[0] != (held ? 0x18 : 8) || answer[1] != 0;
    }
    check(differ == 0, "samples in a capture, offset", offset);
}

/* Every sample in standby with one offset: not taken, taken by a one-shot, not taken. */
static void samples_in_standby(int offset)
{
    second_device device;
    int differ = 0;
    second_power_on(&device, 1);
    write_quietly(&device, 0x11, high_of(offset));
    write_quietly(&device, 0x12, low_of(offset));
    write_quietly(&device, 9, 0xD4);
    for (int sample = -1024; sample <= 1023; sample++) {
        bool held = offset > 0 ? sample > 1023 - offset : sample < -1024 - offset;
        differ += sample_step(&device, sample).first != 0;
        write_quietly(&device, 0x0F, 0);
        differ += sample_step(&device, sample).first != (held ? 0x18 : 8);
        differ += sample_step(&device, sample).first != 0;
    }
    check(differ == 0, "samples in standby, offset", offset);
}

static void some_offsets(void)
{
    static const int offsets[] = { -1024, -1023, -1017, -1016, -1015, -1000, -513, -512, -511, -256,
        -255, -129, -128, -85, -9, -8, -7, -2, -1, 0, 1, 2, 7, 8, 9, 31, 32, 85, 127, 128, 255,
        256, 257, 511, 512, 513, 1000, 1015, 1016, 1017, 1022, 1023 };
    for (size_t i = 0; i < sizeof offsets / sizeof *offsets; i++) {
        samples_in_capture(offsets[i], false);
        samples_in_capture(offsets[i], true);
        samples_in_standby(offsets[i]);
    }
}

static const uint8_t untouched[8] = { 0xA5, 0xA5, 0xA5, 0xA5, 0xA5, 0xA5, 0xA5, 0xA5 };

/* A record that decoder, step and writer refuse alike, whatever the room and under
 * whatever device count. */
static void refused(const uint8_t record[4], uint8_t code)
{
    second_event event = { record[0], record[1], record[2], record[3] };
    second_device device, before;
    uint8_t out[8];
    for (unsigned devices = 0; devices <= 3; devices++) {
        second_event decoded = { 1, 1, 1, 1 };
        CHECK(second_decode((uint8_t)devices, record, &decoded) == code);
        CHECK((decoded.kind | decoded.a | decoded.b | decoded.c) == 0);
    }
    memset(&device, 0, sizeof device);
    CHECK(second_step(&device, event).code == 8);
    second_power_on(&device, 1);
    before = device;
    second_step_result step = second_step(&device, event);
    CHECK(step.code == code && step.first == 0 && step.second == 0);
    CHECK(memcmp(&device, &before, sizeof device) == 0);
    memcpy(out, untouched, sizeof out);
    for (size_t room = 0; room <= sizeof out; room++)
        CHECK(second_write_event(event, out, room) == code);
    CHECK(memcmp(out, untouched, sizeof out) == 0);
}

static void records(void)
{
    static const uint8_t bad[][4] = {
        { 1, 0x80, 0, 0 }, { 2, 0x80, 0, 0 }, { 2, 0, 0, 1 }, { 3, 0x80, 0, 0 }, { 3, 0, 0, 1 },
        { 4, 0x80, 0, 0 }, { 4, 0, 1, 0 }, { 4, 0, 0, 1 }, { 5, 0, 0, 1 }, { 5, 0, 0, 16 },
        { 6, 0, 1, 0 }, { 6, 0, 0, 1 }, { 7, 1, 0, 0 }, { 7, 0, 1, 0 }, { 7, 0, 0, 1 }
    };
    static const uint8_t unknown[][4] = {
        { 0, 0, 0, 0 }, { 0, 0xFF, 1, 1 }, { 10, 0, 0, 0 }, { 10, 0xFF, 0xFF, 0xFF },
        { 0x81, 0x4C, 0, 0 }, { 0x88, 0, 0, 0 }, { 255, 0, 0, 0 }
    };
    uint8_t out[8];
    for (size_t i = 0; i < sizeof bad / sizeof *bad; i++)
        refused(bad[i], 4);
    for (size_t i = 0; i < sizeof unknown / sizeof *unknown; i++)
        refused(unknown[i], 3);
    memcpy(out, untouched, sizeof out);
    CHECK(second_write_event((second_event){ 4, 0x7F, 0, 0 }, NULL, 0) == 7);
    CHECK(second_write_event((second_event){ 4, 0x7F, 0, 0 }, out, 3) == 7 && out[0] == 0xA5);
    CHECK(second_write_event((second_event){ 4, 0x7F, 0, 0 }, out, 8) == 0);
    CHECK(memcmp(out, "\x04\x7F\x00\x00\xA5\xA5\xA5\xA5", 8) == 0);
}

static void refusals(void)
{
    uint8_t out[8];
    memcpy(out, untouched, sizeof out);
    CHECK(second_write_header(0, 1, out, 8) == 2 && second_write_header(4, 1, out, 0) == 2);
    CHECK(second_write_header(1, 1, out, 5) == 7 && out[0] == 0xA5);
    CHECK(second_write_header(3, 0x01020304, out, 8) == 0);
    CHECK(memcmp(out, "\x01\x03\x01\x02\x03\x04\xA5\xA5", 8) == 0);

    second_device device, zeros;
    memset(&zeros, 0, sizeof zeros);
    for (unsigned variant = 4; variant <= 256; variant++) {
        second_power_on(&device, (uint8_t)variant); /* 256 is 0 */
        CHECK(memcmp(&device, &zeros, sizeof device) == 0);
    }
    second_power_on(&device, 1);
    device.pending = true;
    CHECK(second_step(&device, (second_event){ 7, 0, 0, 0 }).code == 8);
    device.settings[0] = 0x40;
    CHECK(second_step(&device, (second_event){ 7, 0, 0, 0 }).code == 0);

    second_reader reader;
    second_fresh(&reader);
    CHECK(second_finish(&reader) == 6);
    second_feed_result fed = second_feed(&reader, (const uint8_t *)"\x01\x01\0\0\0\0\x01", 7,
                                         out, 8);
    CHECK(fed.code == 5 && fed.consumed == 6 && fed.written == 0 && reader.held == 5);
    fed = second_feed(&reader, NULL, 0, NULL, 0);
    CHECK(fed.code == 5 && fed.consumed == 0 && second_finish(&reader) == 5);
    CHECK(second_run((const uint8_t *)"\x01\x01\0\0\0\0", 6, NULL, 0) == 0);
    CHECK(second_run((const uint8_t *)"\x01\x01\0\0\0\x01\x07\0\0\0", 10, NULL, 0) == 7);
    CHECK(second_run((const uint8_t *)"\x01\x01\0\0\0\x01\x07\0\0\x01", 10, NULL, 0) == 4);
    CHECK(second_run((const uint8_t *)"\x01\x01\0\0\0\x01\x07\0\0\0", 10, out, 3) == 32);
    CHECK(second_run((const uint8_t *)"\x01\x01\0\0\0\x02\x07\0\0\0", 10, out, 3) == 38);
}

/* Request a: 8 or not from a step of this device, 8 before 3 and 4. */
static void low_byte_step(const second_device *given, bool in_range)
{
    second_device device = *given;
    CHECK(second_device_in_range(&device) == in_range);
    CHECK(second_step(&device, (second_event){ 0, 0, 0, 0 }).code == (in_range ? 3 : 8));
    CHECK(second_step(&device, (second_event){ 7, 1, 0, 0 }).code == (in_range ? 4 : 8));
    CHECK(memcmp(&device, given, sizeof device) == 0);
    second_step_result step = second_step(&device, (second_event){ 2, 0x4C, 0x10, 0 });
    if (in_range) {
        CHECK(step.code == 0 && step.first == 4 && step.second == given->low);
        CHECK(!device.lowkept && device.low == 0);
    } else {
        CHECK(step.code == 8 && step.first == 0 && step.second == 0);
        CHECK(memcmp(&device, given, sizeof device) == 0);
    }
}

/* Request a: 8 or not from a reader with this device, 8 before a held code. */
static void low_byte_feed(const second_device *device, bool in_range, uint8_t header, uint8_t held)
{
    static const uint8_t read_low[] = { 2, 0x4C, 0x10, 0 };
    uint8_t code = in_range ? held : 8;
    uint8_t out[8];
    second_reader reader, given;
    second_fresh(&reader);
    reader.header = header;
    reader.count = header == SECOND_HEADER_BYTES ? 1 : 0;
    reader.held = held;
    reader.bus.devices = header > 0 ? 1 : 0;
    reader.bus.first = *device;
    given = reader;
    CHECK(second_reader_in_range(&reader) == in_range);
    CHECK(second_finish(&reader) == (code != 0 ? code : 6));
    CHECK(second_feed(&reader, NULL, 0, NULL, 0).code == code);
    CHECK(memcmp(&reader, &given, sizeof reader) == 0);

    memcpy(out, untouched, sizeof out);
    if (code != 0) {
        second_feed_result fed = second_feed(&reader, read_low, sizeof read_low, out, sizeof out);
        CHECK(fed.code == code && fed.consumed == 0 && fed.written == 0);
        CHECK(memcmp(&reader, &given, sizeof reader) == 0);
        CHECK(memcmp(out, untouched, sizeof out) == 0);
    } else if (header == SECOND_HEADER_BYTES) {
        second_feed_result fed = second_feed(&reader, read_low, sizeof read_low, out, sizeof out);
        CHECK(fed.code == 0 && fed.consumed == 4 && fed.written == 2);
        CHECK(out[0] == 4 && out[1] == device->low && memcmp(out + 2, untouched, 6) == 0);
        CHECK(second_finish(&reader) == 0);
    }
}

static void low_byte_range(bool lowkept, uint8_t low, bool in_range)
{
    second_device device;
    second_power_on(&device, 1);
    device.lowkept = lowkept;
    device.low = low;
    low_byte_step(&device, in_range);
    for (uint8_t header = 0; header <= SECOND_HEADER_BYTES; header++)
        for (uint8_t held = 0; held <= SECOND_EXTRA; held++)
            low_byte_feed(&device, in_range, header, held);
}

static void low_byte_ranges(void)
{
    static const uint8_t multiples[] = { 0, 0x20, 0x40, 0x60, 0x80, 0xA0, 0xC0, 0xE0 };
    static const uint8_t others[] = { 1, 0x0F, 0x10, 0x1F, 0x21, 0x3F, 0x7F, 0xDF, 0xE1, 0xFF };
    for (size_t i = 0; i < sizeof multiples; i++)
        low_byte_range(true, multiples[i], true);
    for (size_t i = 0; i < sizeof others; i++)
        low_byte_range(true, others[i], false);
    low_byte_range(false, 0, true);
    for (size_t i = 1; i < sizeof multiples; i++)
        low_byte_range(false, multiples[i], false);
    for (size_t i = 0; i < sizeof others; i++)
        low_byte_range(false, others[i], false);
}

/* Request a in the reader: what is kept goes from call to call, a record that is
 * refused or waits for room neither keeps nor lets go, and the variant byte lets
 * go. */
static void low_byte_in_reader(void)
{
    static const uint8_t capture[] = { 1, 1, 0, 0, 0, 5, 5, 0, 1, 0x20, 2, 0x4C, 1, 0,
        5, 0, 2, 0x40, 2, 0x4C, 0x10, 0, 2, 0x4C, 0x10, 0 };
    second_reader reader;
    uint8_t out[8];
    memcpy(out, untouched, sizeof out);
    second_fresh(&reader);
    const second_device *device = &reader.bus.first;
    CHECK(!device->lowkept && device->low == 0);
    second_feed_result fed = second_feed(&reader, capture, 14, out, 3);
    CHECK(fed.code == 7 && fed.consumed == 13 && fed.written == 2 && !device->lowkept);
    fed = second_feed(&reader, capture + 13, 1, out, 2);
    CHECK(fed.code == 0 && memcmp(out, "\x04\x01", 2) == 0);
    CHECK(device->lowkept && device->low == 0x20);
    fed = second_feed(&reader, capture + 14, 8, out, 3);
    CHECK(fed.code == 7 && fed.consumed == 7 && memcmp(out, "\x08\x00", 2) == 0);
    CHECK(device->lowkept && device->low == 0x20 && device->remote == 18);
    fed = second_feed(&reader, (const uint8_t *)"\x01", 1, out, 8); /* 10 with c = 1 */
    CHECK(fed.code == 4 && fed.consumed == 0 && reader.held == 4);
    CHECK(device->lowkept && device->low == 0x20);
    reader.held = 0;
    fed = second_feed(&reader, capture + 21, 5, out, 4);
    CHECK(fed.code == 0 && fed.consumed == 5 && memcmp(out, "\x04\x20\x04\x40", 4) == 0);
    CHECK(!device->lowkept && device->low == 0 && second_finish(&reader) == 0);

    second_fresh(&reader);
    reader.bus.first.lowkept = true;
    reader.bus.first.low = 0x20;
    fed = second_feed(&reader, capture, 1, NULL, 0);
    CHECK(fed.code == 0 && device->lowkept && device->low == 0x20);
    fed = second_feed(&reader, capture + 1, 1, NULL, 0);
    CHECK(fed.code == 0 && !device->lowkept && device->low == 0);
}

/* Request c: two devices.  Variants by place and address, conversions by place. */
static void bus_places(void)
{
    BUS("c, 4C then 4D", 1, 2, RD(0xFF, 4, 0x31), RD_D(0xFF, 4, 0x34), RD(0x20, 4, 85),
        RD_D(0x20, 4, 85), RD(4, 4, 8), RD_D(4, 4, 8), RD(5, 4, 70), RD_D(5, 4, 70),
        RD(7, 4, 70), RD_D(7, 4, 70), RD(0x19, 4, 110), RD_D(0x19, 4, 110), RD(0x21, 4, 10),
        RD_D(0x21, 4, 10), RD(0xFE, 4, 1), RD_D(0xFE, 4, 1), RD(3, 4, 0), RD_D(3, 4, 0));
    BUS("c, 4C then 4D with 105", 1, 3, RD(0xFF, 4, 0x31), RD_D(0xFF, 4, 0x35),
        RD(0x20, 4, 85), RD_D(0x20, 4, 105));
    BUS("c, 4D then 4C", 2, 1, RD(0xFF, 4, 0x31), RD_D(0xFF, 4, 0x34), RD(0x20, 4, 85),
        RD_D(0x20, 4, 85));
    BUS("c, 4D with 105 then 4C", 3, 1, RD(0xFF, 4, 0x31), RD_D(0xFF, 4, 0x35),
        RD(0x20, 4, 85), RD_D(0x20, 4, 105));
    BUS("c, 05 is the first's, 08 the second's", 1, 2, CV(5, 1, 0x20, 8), RD_D(0, 4, 0),
        RD_D(1, 4, 0), CV2(6, 2, 0x40, 8), RD(0, 4, 5), RD_D(0, 4, 6), RD(1, 4, 1),
        RD_D(1, 4, 2), RD(0x10, 4, 0x20), RD_D(0x10, 4, 0x40));
    BUS("c, 05 is the first's at 4D too", 2, 1, CV(5, 1, 0x20, 8), RD(0, 4, 0), RD(1, 4, 0),
        CV2(6, 2, 0x40, 8), RD(0, 4, 6), RD_D(0, 4, 5), RD(1, 4, 2), RD_D(1, 4, 1),
        RD(0x10, 4, 0x40), RD_D(0x10, 4, 0x20));
    BUS("c, 06 is the first's, 09 the second's", 1, 2, CO(7, 0x0B), RD_D(2, 7, 0),
        RD_D(0, 7, 0), RD(0, 7, 7), RD(2, 6, 0x16), CO2(8, 0x0B), RD(2, 7, 0), RD(0, 7, 7),
        RD_D(0, 7, 8), RD_D(1, 7, 0x7F), RD_D(0x10, 7, 0), RD_D(2, 6, 0x16), RD(1, 6, 0x7F));
    BUS("c, 06 is the first's at 4D too", 3, 1, CO(7, 0x0B), RD(2, 7, 0), RD_D(2, 6, 0x16),
        CO2(8, 0x0B), RD_D(2, 7, 0), RD(2, 6, 0x16), RD(0, 6, 8), RD_D(0, 6, 7));
    BUS("c, limits by variant", 1, 3, WR(0x0B, 127, 4), WR_D(0x0B, 127, 4), CV(85, 0, 0, 8),
        CV2(105, 0, 0, 8), CV(86, 0, 0, 0x0B), PO, WR_D(0x0B, 127, 4), CV2(105, 0, 0, 8),
        CV2(106, 0, 0, 0x0B));
}

/* The answer pins are the joined lines, whoever the record is for. */
static void bus_lines(void)
{
    BUS("c, ALERT of either", 1, 2, CV(71, 0, 0, 9), CV2(0, 0, 0, 9), RD_D(3, 5, 0),
        SB_D(0, 5), RB_D(5, 0), WR_D(0x0A, 8, 5), RD_D(0x30, 1, 0), RD(2, 4, 0x40),
        CV2(71, 0, 0, 9), CV(0, 0, 0, 9), RD(3, 5, 0x80), SB(0, 5), RB(5, 0), WR(0x0A, 8, 5),
        RD(0x30, 1, 0), RD_D(2, 4, 0x40), CV(0, 0, 0, 8));
    BUS("c, ALERT of both, released one by one", 1, 2, CV(71, 0, 0, 9), CV2(71, 0, 0, 9),
        RD(2, 5, 0x40), RD_D(2, 4, 0x40), WR(9, 0, 4), WR_D(9, 0, 4), CV2(71, 0, 0, 9),
        CV(71, 0, 0, 9), RD_D(2, 5, 0x40), RD(2, 4, 0x40));
    BUS("c, ALERT masks", 2, 1, CV(71, 0, 0, 9), CV2(71, 0, 0, 9), WR(9, 0x80, 5),
        WR_D(9, 0x80, 4), WR(9, 0, 5), WR(9, 0x80, 4), WR_D(9, 0, 5));
    BUS("c, T_CRIT_A of either", 1, 2, WR(0x0B, 127, 4), WR_D(0x0B, 127, 4),
        CV(86, 0, 0, 0x0B), CV2(0, 0, 0, 0x0B), RD(2, 6, 1), RD_D(2, 6, 0), CV2(86, 0, 0, 0x0B),
        RD_D(2, 6, 1), CV(75, 0, 0, 0x0A), CV(74, 0, 0, 0x0A), CV2(75, 0, 0, 0x0A),
        CV2(74, 0, 0, 8), RD(3, 4, 0x80));
    BUS("c, T_CRIT_A masks", 1, 2, WR(9, 0x80, 4), WR_D(9, 0x80, 4), CV(86, 0, 0, 0x0A),
        WR_D(9, 0x94, 6), WR(9, 0x84, 4), CV2(0, 111, 0, 8), WR_D(9, 0x84, 6), WR(9, 0x80, 6),
        WR_D(9, 0x90, 6), WR(9, 0x84, 4));
    BUS("c, ALERT of one and T_CRIT_A of the other", 1, 2, CV2(71, 0, 0, 9), WR(9, 0x80, 5),
        CV(86, 0, 0, 0x0B), RD_D(2, 6, 0x40), CV(0, 0, 0, 8), CV2(0, 0, 0, 8));
    BUS("c, comparator beside status", 1, 2, WR_D(0xBF, 1, 4), CV2(71, 0, 0, 9),
        CV(0, 0, 0, 9), CV2(0, 0, 0, 8), CV(71, 0, 0, 9), CV(0, 0, 0, 9), CV2(71, 0, 0, 9),
        RD(2, 5, 0x40), CV2(0, 0, 0, 8));
    BUS("c, untaken and unacknowledged show the lines", 1, 2, CV(71, 0, 0, 9), WR_D(9, 0x40, 5),
        CV2(71, 0, 0, 1), CO2(0, 1), RD_D(0x30, 1, 0), RD_D(9, 1, 0), WR_D(0, 0, 1), SB_D(0x15, 1),
        { { 2, 0x4E, 0, 0 }, 1, 0 }, { { 4, 0x4B, 0, 0 }, 1, 0 });
}

/* The lowest address of those alerting answers, the other keeps pulling. */
static void bus_alert_response(void)
{
    BUS("c, none alerting", 1, 2, ARA(0, 0), CV(0, 0, 0, 8), CV2(0, 0, 0, 8), ARA(0, 0),
        RD(3, 4, 0), RD_D(3, 4, 0));
    BUS("c, both alerting, 4C first", 1, 2, CV(71, 0, 0, 9), CV2(71, 0, 0, 9), ARA(5, 0x99),
        RD(3, 5, 0x80), RD_D(3, 5, 0), ARA(4, 0x9B), RD_D(3, 4, 0x80), ARA(0, 0),
        RD(2, 4, 0x40), RD_D(2, 4, 0x40));
    BUS("c, both alerting, 4C last, and last to alert", 2, 1, CV(71, 0, 0, 9),
        CV2(71, 0, 0, 9), ARA(5, 0x99), RD(3, 5, 0x80), RD_D(3, 5, 0), ARA(4, 0x9B), ARA(0, 0));
    BUS("c, both alerting, 4C last, and first to alert", 3, 1, CV2(71, 0, 0, 9),
        CV(71, 0, 0, 9), ARA(5, 0x99), ARA(4, 0x9B), ARA(0, 0));
    BUS("c, both alerting, 4C first, and last to alert", 1, 3, CV2(71, 0, 0, 9),
        CV(71, 0, 0, 9), ARA(5, 0x99), ARA(4, 0x9B), ARA(0, 0));
    BUS("c, 4D alone alerting", 1, 2, CV2(71, 0, 0, 9), ARA(4, 0x9B), ARA(0, 0), RD(3, 4, 0),
        RD_D(3, 4, 0x80));
    BUS("c, 4D alone alerting, as the first", 2, 1, CV(71, 0, 0, 9), ARA(4, 0x9B), ARA(0, 0),
        RD(3, 4, 0), RD_D(3, 4, 0x80));
    BUS("c, 4C alone alerting", 1, 2, CV(71, 0, 0, 9), ARA(4, 0x99), ARA(0, 0), RD_D(3, 4, 0),
        RD(3, 4, 0x80));
    BUS("c, 4C alone alerting, as the second", 3, 1, CV2(71, 0, 0, 9), ARA(4, 0x99), ARA(0, 0),
        RD_D(3, 4, 0), RD(3, 4, 0x80));
    BUS("c, each time the lowest", 1, 2, CV(71, 0, 0, 9), CV2(71, 0, 0, 9), ARA(5, 0x99),
        WR(9, 0, 5), ARA(5, 0x99), WR(9, 0, 5), ARA(5, 0x99), ARA(4, 0x9B), WR(9, 0, 5),
        WR_D(9, 0, 5), ARA(5, 0x99), WR_D(9, 0, 5), ARA(4, 0x9B), ARA(0, 0));
    BUS("c, T_CRIT_A stays over alert responses", 1, 2, CV(86, 0, 0, 0x0B), CV2(86, 0, 0, 0x0B),
        ARA(7, 0x99), ARA(6, 0x9B), ARA(2, 0), CV(0, 0, 0, 0x0A), ARA(2, 0), CV2(0, 0, 0, 8));
    BUS("c, other kinds at 0C", 1, 2, CV(71, 0, 0, 9), CV2(71, 0, 0, 9),
        { { 1, 0x0C, 9, 0x80 }, 1, 0 }, { { 2, 0x0C, 2, 0 }, 1, 0 }, { { 3, 0x0C, 2, 0 }, 1, 0 },
        RD(3, 5, 0), RD_D(3, 5, 0), ARA(5, 0x99));
}

/* Who may answer is P9's: ALERT pulled, and not in comparator mode. */
static void bus_alert_response_modes(void)
{
    BUS("c, 4C pulls as comparator", 1, 2, WR(0xBF, 1, 4), CV(71, 0, 0, 9), ARA(1, 0),
        CV2(71, 0, 0, 9), ARA(5, 0x9B), RD(3, 5, 0), RD_D(3, 5, 0x80), ARA(1, 0),
        CV(0, 0, 0, 8), ARA(0, 0));
    BUS("c, 4C pulls as comparator, as the second", 2, 1, WR(0xBF, 1, 4), CV2(71, 0, 0, 9),
        CV(71, 0, 0, 9), ARA(5, 0x9B), ARA(1, 0), RD(3, 5, 0), RD_D(3, 5, 0x80));
    BUS("c, 4D pulls as comparator", 1, 2, WR_D(0xBF, 1, 4), CV2(71, 0, 0, 9), ARA(1, 0),
        CV(71, 0, 0, 9), ARA(5, 0x99), RD(3, 5, 0x80), RD_D(3, 5, 0), ARA(1, 0),
        WR_D(0xBF, 0, 5), ARA(4, 0x9B));
    BUS("c, 4D pulls as comparator, as the first", 3, 1, WR_D(0xBF, 1, 4), CV(71, 0, 0, 9),
        CV2(71, 0, 0, 9), ARA(5, 0x99), ARA(1, 0), RD_D(3, 5, 0), RD(3, 5, 0x80));
    BUS("c, both comparators", 1, 2, WR(0xBF, 1, 4), WR_D(0xBF, 1, 4), CV(71, 0, 0, 9),
        CV2(71, 0, 0, 9), ARA(1, 0), RD(3, 5, 0), RD_D(3, 5, 0), CV(0, 0, 0, 9), ARA(1, 0),
        CV2(0, 0, 0, 8));
    BUS("c, comparator with other filter bits", 1, 2, WR(0xBF, 6, 4), WR_D(0xBF, 7, 4),
        CV(71, 0, 0, 9), CV2(71, 0, 0, 9), ARA(5, 0x99), ARA(1, 0), WR_D(0xBF, 6, 5),
        ARA(4, 0x9B));
    BUS("c, 4C masked", 1, 2, WR(9, 0x80, 4), CV(71, 0, 0, 8), ARA(0, 0), CV2(71, 0, 0, 9),
        ARA(4, 0x9B), ARA(0, 0), WR(9, 0, 5), ARA(4, 0x99));
    BUS("c, 4D masked", 1, 2, WR_D(9, 0x80, 4), CV2(71, 0, 0, 8), CV(71, 0, 0, 9),
        ARA(4, 0x99), ARA(0, 0), WR_D(9, 0, 5), ARA(4, 0x9B));
    BUS("c, OPEN alone alerts nobody", 1, 2, WR(0x19, 127, 4), WR(0x0D, 127, 4), CO(0, 8),
        ARA(0, 0), CV2(71, 0, 0, 9), ARA(4, 0x9B), RD(2, 4, 4), RD(3, 4, 0));
    BUS("c, pointers and kept bytes through alert responses", 1, 2, CV(71, 1, 0x20, 9),
        CV2(71, 2, 0x40, 9), RD(1, 5, 1), RD_D(1, 5, 2), CV(71, 3, 0x60, 9), CV2(71, 4, 0x80, 9),
        SB(2, 5), SB_D(0x10, 5), ARA(5, 0x99), ARA(4, 0x9B), ARA(0, 0), RB_D(4, 0x40),
        RB_D(4, 0x80), RB(4, 0x40), RD(0x10, 4, 0x20), RD_D(2, 4, 0x40));
}

/* Pointer, kept byte, one-shot, fault count, offset and settings are each device's own. */
static void bus_own_state(void)
{
    BUS("c, own pointers", 1, 2, SB(1, 4), SB_D(0, 4), CV(5, 1, 0x20, 8), CV2(6, 2, 0x40, 8),
        RB(4, 1), RB_D(4, 6), SB(0x0F, 4), RB(0, 0), RB_D(4, 6), SB_D(9, 4), RB_D(0, 0),
        RD(0, 4, 5), RB_D(0, 0), RB(4, 5));
    BUS("c, own kept bytes", 1, 2, CV(0, 1, 0x20, 8), CV2(0, 2, 0x40, 8), RD(1, 4, 1),
        CV(0, 3, 0x60, 8), CV2(0, 4, 0x80, 8), RD_D(0x10, 4, 0x80), RD_D(1, 4, 4),
        RD(0x10, 4, 0x20), CV2(0, 5, 0xA0, 8), RD(0x10, 4, 0x60), RD_D(0x10, 4, 0x80),
        RD_D(0x10, 4, 0xA0));
    BUS("c, own standby and one-shots", 1, 2, WR_D(9, 0x40, 4), CV(1, 0, 0, 8), CV2(1, 0, 0, 0),
        WR(0x0F, 0, 4), CV2(1, 0, 0, 0), WR_D(0x0F, 0, 4), CV(2, 0, 0, 8), CV2(3, 0, 0, 8),
        CV2(4, 0, 0, 0), RD(0, 4, 2), RD_D(0, 4, 3), WR(9, 0x40, 4), WR_D(0x0F, 0, 4),
        CV(5, 0, 0, 0), CO(5, 0), WR_D(9, 0, 4), WR(0x0F, 0, 4), CO2(6, 0x0B),
        CV(7, 0, 0, 0x0B), CV(8, 0, 0, 3), RD(0, 7, 7), RD_D(0, 7, 6));
    BUS("c, leaving standby is each one's own", 1, 2, WR(9, 0x40, 4), WR_D(9, 0x40, 4),
        WR(0x0F, 0, 4), WR_D(0x0F, 0, 4), WR(9, 0, 4), WR(9, 0x40, 4), CV(1, 0, 0, 0),
        CV2(1, 0, 0, 8));
    BUS("c, own fault counts", 1, 2, WR(9, 1, 4), WR_D(9, 1, 4), CV(0, 71, 0, 8),
        CV(0, 71, 0, 8), CV2(0, 71, 0, 8), CV2(0, 71, 0, 8), CV(0, 0, 0, 8), CV2(0, 71, 0, 9),
        RD_D(2, 4, 0x10), CV(0, 71, 0, 8), CV(0, 71, 0, 8), CV(0, 71, 0, 9));
    BUS("c, own offsets and held sums", 1, 2, WR_D(0x11, 0x7F, 4), CV(0, 1, 0, 8),
        CV2(0, 1, 0, 0x1B), CV(0, 1, 0, 0x0B), RD(1, 7, 1), RD_D(1, 7, 0x7F), RD_D(0x10, 7, 0xE0),
        CV2(0, 0, 0xE0, 0x0B), WR(0x11, 0x80, 7), CV(0, 0xFF, 0xE0, 0x1B), CV2(0, 0, 0, 0x0B),
        CO2(0, 0x0B), CO(0, 0x0B), WR_D(9, 0x40, 7), CV2(0, 1, 0, 3), WR_D(0x0F, 0, 7),
        CV2(0, 1, 0, 0x1B), CV2(0, 1, 0, 3));
    BUS("c, held sums at 4C as the second", 2, 1, WR(0x11, 0xFF, 4), CV2(0, 0x81, 0, 9),
        CV2(0, 0x80, 0xE0, 0x19), CV(0, 0x80, 0xE0, 9), CV2(0, 0x80, 0, 0x19));
    BUS("c, own settings", 1, 2, WR(9, 0x95, 4), WR(0x0A, 1, 4), WR(0x0B, 2, 4), WR(0x0C, 3, 4),
        WR(0x0D, 4, 4), WR(0x0E, 5, 4), WR(0x11, 6, 4), WR(0x12, 0x20, 4), WR(0x13, 0x40, 4),
        WR(0x14, 0x60, 4), WR(0x19, 7, 4), WR(0x20, 8, 4), WR(0x21, 9, 4), WR(0xBF, 7, 4),
        RD_D(3, 4, 0), RD_D(4, 4, 8), RD_D(5, 4, 70), RD_D(6, 4, 0), RD_D(7, 4, 70), RD_D(8, 4, 0),
        RD_D(0x11, 4, 0), RD_D(0x12, 4, 0), RD_D(0x13, 4, 0), RD_D(0x14, 4, 0),
        RD_D(0x19, 4, 110), RD_D(0x20, 4, 85), RD_D(0x21, 4, 10), RD_D(0xBF, 4, 0),
        WR_D(0x20, 99, 4), RD(0x20, 4, 8), RD(3, 4, 0x95), RD(0xBF, 4, 7));
    BUS("c, own status", 1, 2, CV(71, 0, 0, 9), CV2(0xFF, 0, 0, 9), RD_D(2, 5, 0x20),
        RD_D(2, 5, 0), RD(2, 4, 0x40), RD(2, 4, 0), RD(3, 4, 0x80), RD_D(3, 4, 0x80));
}

/* 07 restarts both, each as its variant has it. */
static void bus_power_on(void)
{
    BUS("c, power-on of both", 1, 3, WR(0x20, 3, 4), WR_D(0x20, 4, 4), WR(0x21, 5, 4),
        WR_D(0x21, 6, 4), CV(9, 1, 0x20, 0x0B), CV2(9, 2, 0x40, 0x0B), PO, RD(0x20, 4, 85),
        RD_D(0x20, 4, 105), RD(0x21, 4, 10), RD_D(0x21, 4, 10), RD(0, 4, 0), RD_D(0, 4, 0),
        RD(1, 4, 0), RD_D(1, 4, 0), RD(2, 4, 0), RD_D(2, 4, 0), RD(0xFF, 4, 0x31),
        RD_D(0xFF, 4, 0x35));
    BUS("c, power-on of both, 4D first", 3, 1, WR(0x20, 3, 4), WR_D(0x20, 4, 4), PO,
        RD(0x20, 4, 85), RD_D(0x20, 4, 105), RD(0xFF, 4, 0x31), RD_D(0xFF, 4, 0x35));
    BUS("c, power-on releases the lines of the second", 1, 2, CO2(86, 0x0B), PO, PO,
        RD_D(2, 4, 0));
    BUS("c, power-on releases the lines of the first", 1, 2, CO(86, 0x0B), PO, RD(2, 4, 0));
    BUS("c, power-on lets go of both low bytes", 1, 2, CV(0, 1, 0x20, 8), CV2(0, 1, 0x40, 8),
        RD(1, 4, 1), RD_D(1, 4, 1), PO, CV(0, 2, 0x60, 8), CV2(0, 2, 0x80, 8),
        RD(0x10, 4, 0x60), RD_D(0x10, 4, 0x80));
    BUS("c, power-on resets both pointers", 1, 2, SB(4, 4), SB_D(5, 4), PO, RB(4, 0),
        RB_D(4, 0));
    BUS("c, power-on ends both standbys and one-shots", 1, 2, WR(9, 0x40, 4), WR_D(9, 0x40, 4),
        WR(0x0F, 0, 4), WR_D(0x0F, 0, 4), PO, CV(1, 0, 0, 8), CV2(1, 0, 0, 8), WR(9, 0x40, 4),
        WR_D(9, 0x40, 4), CV(2, 0, 0, 0), CV2(2, 0, 0, 0));
}

/* Addresses of neither, and of a second device that is not there: a variant of 0 has the
 * address 00 in the table of parts. */
static void bus_other_addresses(void)
{
    BUS("c, addresses of neither", 1, 2, { { 1, 0, 0x0A, 3 }, 0, 0 }, { { 2, 0, 0, 0 }, 0, 0 },
        { { 3, 0, 1, 0 }, 0, 0 }, { { 4, 0, 0, 0 }, 0, 0 }, { { 2, 0x4B, 4, 0 }, 0, 0 },
        { { 2, 0x4E, 4, 0 }, 0, 0 }, { { 1, 0x4E, 0x0A, 3 }, 0, 0 }, { { 4, 0x7F, 0, 0 }, 0, 0 },
        { { 1, 0x7F, 0x0A, 3 }, 0, 0 }, RD(4, 4, 8), RD_D(4, 4, 8));
    BUS("c, the absent second", 1, 0, { { 1, 0, 0x0A, 3 }, 0, 0 }, { { 2, 0, 0, 0 }, 0, 0 },
        { { 2, 0, 0xFF, 0 }, 0, 0 }, { { 3, 0, 1, 0 }, 0, 0 }, { { 4, 0, 0, 0 }, 0, 0 },
        RD_D(4, 0, 0), WR_D(0x0A, 3, 0), SB_D(1, 0), RB_D(0, 0), ARA(0, 0), CV(71, 0, 0, 9),
        { { 4, 0, 0, 0 }, 1, 0 }, ARA(4, 0x99), ARA(0, 0), PO, { { 2, 0, 0, 0 }, 0, 0 });
    BUS("c, the absent second beside 4D", 3, 0, { { 2, 0, 0, 0 }, 0, 0 }, RD(4, 0, 0),
        CV(71, 0, 0, 9), ARA(4, 0x9B), ARA(0, 0), { { 4, 0, 0, 0 }, 0, 0 }, PO,
        { { 1, 0, 0x0A, 3 }, 0, 0 });
}

static bool same_device(const second_device *one, const second_device *two)
{
    return one->variant == two->variant && one->pointer == two->pointer &&
           one->pending == two->pending && one->status == two->status &&
           one->local == two->local && one->remote == two->remote && one->live == two->live &&
           one->faults == two->faults && one->local_latch == two->local_latch &&
           one->remote_latch == two->remote_latch && one->low == two->low &&
           one->lowkept == two->lowkept &&
           memcmp(one->settings, two->settings, sizeof one->settings) == 0;
}

static bool same_reader(const second_reader *one, const second_reader *two)
{
    return one->header == two->header && one->count == two->count && one->done == two->done &&
           one->carried == two->carried && memcmp(one->carry, two->carry, 3) == 0 &&
           one->held == two->held && one->bus.devices == two->bus.devices &&
           same_device(&one->bus.first, &two->bus.first) &&
           same_device(&one->bus.second, &two->bus.second);
}

/* From both devices with everything set, each record changes the one it names alone. */
static void bus_leaves_other(void)
{
    static const struct {
        uint8_t record[4];
        bool first, second; /* may it change? */
    } line[] = {
        { { 1, 0x4C, 0x0A, 3 }, true, false }, { { 1, 0x4D, 0x0A, 3 }, false, true },
        { { 2, 0x4C, 2, 0 }, true, false }, { { 2, 0x4D, 2, 0 }, false, true },
        { { 2, 0x4C, 1, 0 }, true, false }, { { 2, 0x4D, 1, 0 }, false, true },
        { { 3, 0x4C, 5, 0 }, true, false }, { { 3, 0x4D, 5, 0 }, false, true },
        { { 4, 0x4C, 0, 0 }, true, false }, { { 4, 0x4D, 0, 0 }, false, true },
        { { 5, 9, 9, 0x20 }, true, false }, { { 8, 9, 9, 0x20 }, false, true },
        { { 6, 9, 0, 0 }, true, false }, { { 9, 9, 0, 0 }, false, true },
        { { 4, 0x0C, 0, 0 }, true, false }, { { 7, 0, 0, 0 }, true, true },
        { { 2, 0x4E, 2, 0 }, false, false }, { { 1, 0x30, 9, 0 }, false, false },
        { { 2, 0x4C, 0x30, 0 }, false, false }, { { 2, 0x4D, 0x30, 0 }, false, false }
    };
    static const uint8_t set_up[] = { 5, 86, 1, 0x20, 8, 86, 2, 0x40, 2, 0x4C, 1, 0, 2, 0x4D, 1, 0,
        5, 87, 111, 0x60, 8, 88, 112, 0x80, 1, 0x4C, 0x11, 1, 1, 0x4D, 0x11, 2,
        3, 0x4C, 0x10, 0, 3, 0x4D, 0x10, 0 };
    uint8_t out[sizeof set_up / 2];
    second_reader start;
    begin(&start, 1, 2, 100);
    CHECK(second_feed(&start, set_up, sizeof set_up, out, sizeof out).code == 0);
    for (size_t i = 0; i < sizeof line / sizeof *line; i++) {
        second_reader reader = start;
        CHECK(second_feed(&reader, line[i].record, 4, out, 2).code == 0);
        check(same_device(&reader.bus.first, &start.bus.first) != line[i].first,
              "first changed by record", (int)i + 1);
        check(same_device(&reader.bus.second, &start.bus.second) != line[i].second,
              "second changed by record", (int)i + 1);
    }
}

/* A header whose byte behind the consumed ones is refused: this code, the state as after
 * those, and the code held from then on; in one piece and byte by byte. */
static void header_refused(const uint8_t *header, size_t good, uint8_t code)
{
    second_reader reader, before, bytewise;
    uint8_t out[8];
    memcpy(out, untouched, sizeof out);
    second_fresh(&before);
    for (size_t i = 0; i < good; i++)
        CHECK(second_feed(&before, header + i, 1, NULL, 0).code == 0);
    CHECK(before.header == good && before.held == 0 && second_finish(&before) == 6);
    bytewise = before;
    second_feed_result fed = second_feed(&bytewise, header + good, 1, NULL, 0);
    CHECK(fed.code == code && fed.consumed == 0 && fed.written == 0);
    second_fresh(&reader);
    fed = second_feed(&reader, header, good + 1, out, sizeof out);
    CHECK(fed.code == code && fed.consumed == good && fed.written == 0);
    before.held = code;
    CHECK(same_reader(&reader, &before) && same_reader(&bytewise, &before));
    CHECK(second_finish(&reader) == code && second_reader_in_range(&reader));
    CHECK(second_feed(&reader, NULL, 0, NULL, 0).code == code);
    fed = second_feed(&reader, (const uint8_t *)"\x01\x01\x01\x01\x01", 5, out, sizeof out);
    CHECK(fed.code == code && fed.consumed == 0 && fed.written == 0);
    CHECK(same_reader(&reader, &before) && memcmp(out, untouched, sizeof out) == 0);
    CHECK(second_run(header, good + 1, out, sizeof out) == code);
}

/* A header's beginning that is taken: unfinished, whole and byte by byte. */
static void header_taken(const uint8_t *header, size_t length)
{
    second_reader reader, bytewise;
    second_fresh(&reader);
    second_fresh(&bytewise);
    second_feed_result fed = second_feed(&reader, header, length, NULL, 0);
    CHECK(fed.code == 0 && fed.consumed == length && fed.written == 0);
    for (size_t i = 0; i < length; i++)
        CHECK(second_feed(&bytewise, header + i, 1, NULL, 0).code == 0);
    CHECK(same_reader(&reader, &bytewise) && second_reader_in_range(&reader));
    CHECK(reader.header == length && reader.bus.devices == header[0] && reader.held == 0);
    CHECK(second_finish(&reader) == 6 && second_run(header, length, NULL, 0) == 6);
}

/* Every device count, and every variant of the first device under both. */
static void header_counts(void)
{
    for (unsigned devices = 0; devices <= 255; devices++) {
        const uint8_t header[] = { (uint8_t)devices };
        if (devices == 1 || devices == 2)
            header_taken(header, 1);
        else
            header_refused(header, 0, 1);
    }
    for (unsigned devices = 1; devices <= 2; devices++)
        for (unsigned variant = 0; variant <= 255; variant++) {
            const uint8_t header[] = { (uint8_t)devices, (uint8_t)variant };
            if (variant >= 1 && variant <= 3)
                header_taken(header, 2);
            else
                header_refused(header, 1, 2);
        }
}

/* Every second variant behind every first one: 2, then 9.  Behind it four bytes of record
 * count, and no more. */
static void header_variants(void)
{
    static const second_device none;
    for (uint8_t first = 1; first <= 3; first++)
        for (unsigned second = 0; second <= 255; second++) {
            const uint8_t header[] = { 2, first, (uint8_t)second, 0, 0, 0, 0, 7 };
            if (second < 1 || second > 3)
                header_refused(header, 2, 2);
            else if ((first == 1) == (second == 1))
                header_refused(header, 2, 9);
            else {
                for (size_t length = 3; length <= 6; length++)
                    header_taken(header, length);
                CHECK(second_run(header, 7, NULL, 0) == 0);
                CHECK(second_run(header, 8, NULL, 0) == 5);
            }
        }
    for (uint8_t variant = 1; variant <= 3; variant++) {
        const uint8_t header[] = { 1, variant, 0, 0, 0, 0, 7 };
        CHECK(second_run(header, 5, NULL, 0) == 6 && second_run(header, 6, NULL, 0) == 0);
        CHECK(second_run(header, 7, NULL, 0) == 5);
    }

    second_reader reader;
    second_device device;
    second_fresh(&reader);
    CHECK(second_feed(&reader, (const uint8_t *)"\x02\x03", 2, NULL, 0).code == 0);
    second_power_on(&device, 3);
    CHECK(same_device(&reader.bus.first, &device) && same_device(&reader.bus.second, &none));
    CHECK(second_feed(&reader, (const uint8_t *)"\x01\x12\x34\x56\x78", 5, NULL, 0).code == 0);
    CHECK(reader.count == 0x12345678 && same_device(&reader.bus.first, &device));
    second_power_on(&device, 1);
    CHECK(same_device(&reader.bus.second, &device) && reader.bus.devices == 2);
    begin(&reader, 2, 0, 0x87654321);
    CHECK(reader.bus.devices == 1 && reader.count == 0x87654321);
    CHECK(same_device(&reader.bus.second, &none));
}

/* The writer of two variants, 2 before 9 before 7, in every room; and what it writes is
 * read back. */
static void header_writers(void)
{
    for (unsigned first = 0; first <= 255; first++)
        for (unsigned second = 0; second <= 255; second++) {
            bool known = first >= 1 && first <= 3 && second >= 1 && second <= 3;
            bool one_address = (first == 1) == (second == 1);
            for (size_t room = 0; room <= 8; room++) {
                uint8_t out[8], want = 0;
                if (!known)
                    want = 2;
                else if (one_address)
                    want = 9;
                else if (room < 7)
                    want = 7;
                memcpy(out, untouched, sizeof out);
                uint8_t code = second_write_header_2((uint8_t)first, (uint8_t)second, 0x01020304,
                                                     out, room);
                CHECK(code == want);
                if (want != 0)
                    CHECK(memcmp(out, untouched, sizeof out) == 0);
                else
                    CHECK(out[0] == 2 && out[1] == first && out[2] == second &&
                          memcmp(out + 3, "\x01\x02\x03\x04\xA5", 5) == 0);
            }
        }
    CHECK(second_write_header_2(0, 1, 0, NULL, 0) == 2 && second_write_header_2(1, 1, 0, NULL, 0) == 9);
    CHECK(second_write_header_2(2, 3, 0, NULL, 0) == 9 && second_write_header_2(1, 2, 0, NULL, 0) == 7);
}

/* Every kind under every device count: 08 and 09 are read back under 2 alone. */
static void kinds_by_count(void)
{
    for (unsigned devices = 0; devices <= 255; devices++)
        for (unsigned kind = 0; kind <= 255; kind++) {
            const uint8_t record[4] = { (uint8_t)kind, 0, 0, 0 };
            bool known = kind >= 1 && kind <= (devices == 2 ? 9 : 7);
            second_event event = { 1, 2, 3, 4 };
            CHECK(second_decode((uint8_t)devices, record, &event) == (known ? 0 : 3));
            CHECK(event.kind == (known ? kind : 0) && (event.a | event.b | event.c) == 0);
        }
    for (unsigned kind = 0; kind <= 255; kind++) {
        uint8_t out[5] = { 0xA5, 0xA5, 0xA5, 0xA5, 0xA5 };
        bool known = kind >= 1 && kind <= 9;
        second_event event = { (uint8_t)kind, 0, 0, 0 };
        CHECK(second_write_event(event, out, 3) == (known ? 7 : 3));
        CHECK(second_write_event(event, out, 5) == (known ? 0 : 3));
        CHECK(out[0] == (known ? kind : 0xA5) && out[3] == (known ? 0 : 0xA5) && out[4] == 0xA5);
    }
}

/* 08 and 09 have the operands of 05 and 06: decoder and writer over all b and c.  Under a
 * count of 1 they are 3, whatever their operands. */
static void operands_of_second(void)
{
    static const uint8_t locals[] = { 0, 1, 0x4C, 0x7F, 0x80, 0xFF };
    for (size_t i = 0; i < sizeof locals; i++)
        for (unsigned b = 0; b <= 255; b++)
            for (unsigned c = 0; c <= 255; c++) {
                for (unsigned kind = 8; kind <= 9; kind++) {
                    const uint8_t record[4] = { (uint8_t)kind, locals[i], (uint8_t)b, (uint8_t)c };
                    bool good = kind == 8 ? c % 32 == 0 : b == 0 && c == 0;
                    second_event event = { record[0], record[1], record[2], record[3] };
                    second_event decoded;
                    uint8_t out[4] = { 0xA5, 0xA5, 0xA5, 0xA5 };
                    CHECK(second_decode(1, record, &decoded) == 3);
                    CHECK(second_decode(2, record, &decoded) == (good ? 0 : 4));
                    CHECK(decoded.kind == (good ? kind : 0) && decoded.a == (good ? locals[i] : 0));
                    CHECK(decoded.b == (good ? b : 0) && decoded.c == (good ? c : 0));
                    CHECK(second_write_event(event, out, 3) == (good ? 7 : 4) && out[0] == 0xA5);
                    CHECK(second_write_event(event, out, 4) == (good ? 0 : 4));
                    CHECK(memcmp(out, good ? record : untouched, 4) == 0);
                }
            }
}

/* The step of one device: 8, then 3 for 08 and 09, then 4. */
static void second_kinds_in_step(void)
{
    static const uint8_t operands[][3] = {
        { 0, 0, 0 }, { 9, 9, 0x20 }, { 0, 0, 1 }, { 0, 1, 0 }, { 0xFF, 0xFF, 0xFF }
    };
    for (uint8_t kind = 8; kind <= 9; kind++)
        for (size_t i = 0; i < sizeof operands / sizeof *operands; i++)
            for (uint8_t variant = 0; variant <= 4; variant++) {
                second_event event = { kind, operands[i][0], operands[i][1], operands[i][2] };
                second_device device, before;
                second_power_on(&device, variant);
                device.variant = variant;
                before = device;
                second_step_result step = second_step(&device, event);
                CHECK(step.code == (variant >= 1 && variant <= 3 ? 3 : 8));
                CHECK(step.first == 0 && step.second == 0 && same_device(&device, &before));
                device.faults = 4;
                CHECK(second_step(&device, event).code == 8);
            }
}

/* One record on a bus: its code with this room, in one piece and byte by byte. */
static void record_code(uint8_t second, const uint8_t record[4], size_t room, uint8_t code)
{
    uint8_t out[4];
    second_reader reader, bytewise, before;
    begin(&reader, 1, second, 1);
    before = bytewise = reader;
    memcpy(out, untouched, sizeof out);
    second_feed_result fed = second_feed(&reader, record, 4, out, room);
    CHECK(fed.code == code && fed.consumed == (code == 0 ? 4 : 3));
    CHECK(fed.written == (code == 0 ? 2 : 0));
    CHECK(memcmp(out + fed.written, untouched, sizeof out - fed.written) == 0);
    for (size_t i = 0; i < 3; i++)
        CHECK(second_feed(&bytewise, record + i, 1, NULL, 0).code == 0);
    CHECK(second_feed(&bytewise, record + 3, 1, out, room).code == code);
    CHECK(same_reader(&reader, &bytewise));
    CHECK(reader.held == (code == 3 || code == 4 ? code : 0));
    CHECK(second_finish(&reader) == (code == 7 ? 6 : code));
    if (code != 0) {
        memcpy(before.carry, record, 3);
        before.carried = 3;
        before.held = reader.held;
        CHECK(same_reader(&reader, &before));
    }
}

/* In the reader 08 and 09 are 3 where the count is 1; where it is 2, 4 before 7. */
static void second_kinds_in_reader(void)
{
    static const struct {
        uint8_t record[4], alone, of_two; /* codes with room for the answer */
    } line[] = {
        { { 8, 0, 0, 0 }, 3, 0 }, { { 8, 0xFF, 0xFF, 0xE0 }, 3, 0 }, { { 8, 0, 0, 1 }, 3, 4 },
        { { 8, 0, 0, 0x1F }, 3, 4 }, { { 8, 0, 0, 0x10 }, 3, 4 }, { { 9, 0, 0, 0 }, 3, 0 },
        { { 9, 0xFF, 0, 0 }, 3, 0 }, { { 9, 0, 1, 0 }, 3, 4 }, { { 9, 0, 0, 1 }, 3, 4 },
        { { 9, 0, 0, 0x20 }, 3, 4 }, { { 10, 0, 0, 0 }, 3, 3 }, { { 10, 0, 0, 1 }, 3, 3 },
        { { 0, 0, 0, 0 }, 3, 3 }, { { 0xFF, 0, 0, 0 }, 3, 3 }, { { 5, 0, 0, 0 }, 0, 0 },
        { { 5, 0, 0, 1 }, 4, 4 }, { { 6, 0, 0, 0 }, 0, 0 }, { { 6, 0, 1, 0 }, 4, 4 },
        { { 7, 0, 0, 0 }, 0, 0 }, { { 7, 1, 0, 0 }, 4, 4 }, { { 1, 0x80, 0, 0 }, 4, 4 },
        { { 2, 0x4D, 0, 0 }, 0, 0 }, { { 2, 0x4D, 0, 1 }, 4, 4 }, { { 4, 0x0C, 0, 0 }, 0, 0 },
        { { 4, 0x0C, 1, 0 }, 4, 4 }
    };
    for (size_t i = 0; i < sizeof line / sizeof *line; i++)
        for (size_t room = 0; room <= 3; room++) {
            uint8_t alone = line[i].alone, of_two = line[i].of_two;
            record_code(0, line[i].record, room, alone == 0 && room < 2 ? 7 : alone);
            record_code(2, line[i].record, room, of_two == 0 && room < 2 ? 7 : of_two);
        }
}

/* 8 or not from a reader, with nothing changed on 8; 8 before a held code. */
static void range(const second_reader *given, bool in_range, const char *name, int number)
{
    uint8_t out[8];
    second_reader reader = *given;
    uint8_t finish = second_finish(&reader);
    memcpy(out, untouched, sizeof out);
    check(second_reader_in_range(&reader) == in_range, name, number);
    check((finish == 8) == !in_range, name, number);
    second_feed_result fed = second_feed(&reader, NULL, 0, NULL, 0);
    check(fed.code == (in_range ? given->held : 8), name, number);
    check(same_reader(&reader, given), name, number);
    fed = second_feed(&reader, (const uint8_t *)"\x02\x01\x02\0\0\0\x01\x07", 8, out, 8);
    check((fed.code == 8) == !in_range, name, number);
    if (!in_range || given->held != 0) {
        check(fed.consumed == 0 && fed.written == 0, name, number);
        check(same_reader(&reader, given), name, number);
        check(memcmp(out, untouched, sizeof out) == 0, name, number);
    } else {
        check(second_reader_in_range(&reader), name, number);
    }
}

static bool is_stage(unsigned devices, unsigned header)
{
    if (header == 0)
        return devices == 0;
    return (devices == 1 && header <= 6) || (devices == 2 && header <= 7);
}

static bool has_second(unsigned devices, unsigned header)
{
    return devices == 2 && header >= 3;
}

/* A reader with these bytes taken, as far as there are such. */
static void at_stage(second_reader *reader, unsigned devices, unsigned header)
{
    second_fresh(reader);
    reader->header = (uint8_t)header;
    reader->bus.devices = (uint8_t)devices;
    if (header >= 2)
        second_power_on(&reader->bus.first, 1);
    if (has_second(devices, header))
        second_power_on(&reader->bus.second, 2);
}

/* Every device count with every number of header bytes and every held code. */
static void bus_stages(void)
{
    for (unsigned devices = 0; devices <= 255; devices++)
        for (unsigned header = 0; header <= 255; header++) {
            second_reader reader;
            at_stage(&reader, devices, header);
            range(&reader, is_stage(devices, header), "stage with header bytes", (int)header);
            if (!is_stage(devices, header))
                continue;
            for (unsigned held = 0; held <= 255; held++) {
                reader.held = (uint8_t)held;
                range(&reader, held <= 5 || held == 9, "held code", (int)held);
            }
        }
}

/* The record count below 256 to the power of its bytes taken; records done and bytes carried
 * only with the header complete. */
static void stage_counts(void)
{
    static const uint32_t above[] = { 1, 0x100, 0x10000, 0x1000000 };
    for (unsigned devices = 0; devices <= 2; devices++)
        for (unsigned header = 0; header <= 7; header++) {
            second_reader reader;
            if (!is_stage(devices, header))
                continue;
            unsigned before = devices == 2 ? 3 : 2;
            unsigned taken = header > before ? header - before : 0;
            at_stage(&reader, devices, header);
            for (size_t i = 0; i < 4; i++) {
                reader.count = above[i] - 1;
                range(&reader, taken >= i, "count below a power, header bytes", (int)header);
                reader.count = above[i];
                range(&reader, taken > i, "count of a power, header bytes", (int)header);
            }
            reader.count = 0xFFFFFFFF;
            range(&reader, taken == 4, "greatest count, header bytes", (int)header);
            reader.count = taken > 0 ? 1 : 0;
            reader.done = 1;
            range(&reader, taken == 4, "one done, header bytes", (int)header);
            reader.done = 2;
            range(&reader, false, "two done of one, header bytes", (int)header);
            reader.done = 0;
            for (uint8_t carried = 1; carried <= 4; carried++) {
                reader.carried = carried;
                range(&reader, taken == 4 && carried < 4, "carried, header bytes", (int)header);
            }
            reader.carried = 2;
            reader.carry[2] = 1;
            range(&reader, false, "unused place, header bytes", (int)header);
        }
}

/* Variants at every stage: the first's free below two header bytes, the second's of another
 * address from three on, and 0 until or without that. */
static void stage_variants(void)
{
    for (unsigned devices = 0; devices <= 2; devices++)
        for (unsigned header = 0; header <= 7; header++)
            for (unsigned first = 0; is_stage(devices, header) && first <= 256; first++) {
                second_reader reader;
                bool known = first >= 1 && first <= 3;
                at_stage(&reader, devices, header);
                reader.bus.first.variant = (uint8_t)first;
                if (!has_second(devices, header)) {
                    range(&reader, header < 2 || known, "first variant", (int)first);
                    reader.bus.second.variant = (uint8_t)(first % 4);
                    if (first % 4 != 0)
                        range(&reader, false, "variant of no second", (int)first);
                    continue;
                }
                for (unsigned second = 0; second <= 255; second += second < 5 ? 1 : 50) {
                    bool both = known && second >= 1 && second <= 3;
                    reader.bus.second.variant = (uint8_t)second;
                    range(&reader, both && (first == 1) != (second == 1), "variants",
                          (int)(1000 * first + second));
                }
            }
}

/* A variant byte replaces its device, whatever stood there, and leaves the other.  The first
 * one is not compared with what stood there: 9 is for the second alone. */
static void variant_bytes(void)
{
    static const second_device none;
    for (uint8_t variant = 1; variant <= 3; variant++) {
        second_reader reader;
        second_device device, stood;
        second_power_on(&device, variant);
        for (unsigned before = 0; before <= 255; before++)
            for (unsigned devices = 1; devices <= 2; devices++) {
                at_stage(&reader, devices, 1);
                reader.bus.first.variant = (uint8_t)before;
                reader.bus.first.status = 0x40;
                reader.bus.first.lowkept = true;
                CHECK(second_feed(&reader, &variant, 1, NULL, 0).code == 0 && reader.header == 2);
                CHECK(same_device(&reader.bus.first, &device));
                CHECK(same_device(&reader.bus.second, &none));
            }
        at_stage(&reader, 2, 2);
        reader.bus.first.variant = variant == 1 ? 3 : 1;
        reader.bus.first.status = 0x40;
        stood = reader.bus.first;
        CHECK(second_feed(&reader, &variant, 1, NULL, 0).code == 0 && reader.header == 3);
        CHECK(same_device(&reader.bus.first, &stood));
        CHECK(same_device(&reader.bus.second, &device));
    }
}

enum field {
    POINTER, PENDING, STATUS, LOCAL, REMOTE, LIVE, FAULTS, LOCAL_LATCH, REMOTE_LATCH, LOW,
    LOWKEPT, SETTING
};

static void set_field(second_device *device, int field, int value)
{
    switch (field) {
    case POINTER: device->pointer = (uint8_t)value; break;
    case PENDING: device->pending = value != 0; break;
    case STATUS: device->status = (uint8_t)value; break;
    case LOCAL: device->local = (uint8_t)value; break;
    case REMOTE: device->remote = (int16_t)value; break;
    case LIVE: device->live = (uint8_t)value; break;
    case FAULTS: device->faults = (uint8_t)value; break;
    case LOCAL_LATCH: device->local_latch = value != 0; break;
    case REMOTE_LATCH: device->remote_latch = value != 0; break;
    case LOW: device->low = (uint8_t)value; break;
    case LOWKEPT: device->lowkept = value != 0; break;
    default: device->settings[field - SETTING] = (uint8_t)value; break;
    }
}

/* One field of either device to a value that is not 0: in range or not where the device is
 * (the first from the fresh state on), and never in a second that is not there. */
static void field_range(int field, int value, bool good)
{
    for (unsigned devices = 0; devices <= 2; devices++)
        for (unsigned header = 0; header <= 7; header++) {
            second_reader reader;
            if (!is_stage(devices, header))
                continue;
            at_stage(&reader, devices, header);
            set_field(&reader.bus.first, field, value);
            range(&reader, good, "field of the first", field);
            at_stage(&reader, devices, header);
            set_field(&reader.bus.second, field, value);
            range(&reader, good && has_second(devices, header), "field of the second", field);
        }
}

static void device_ranges(void)
{
    static const struct {
        int field, value;
        bool good;
    } line[] = {
        { POINTER, 0x08, true }, { POINTER, 0x09, true }, { POINTER, 0x0F, true },
        { POINTER, 0x10, true }, { POINTER, 0x14, true }, { POINTER, 0x15, false },
        { POINTER, 0x18, false }, { POINTER, 0x19, true }, { POINTER, 0x1A, false },
        { POINTER, 0x22, false }, { POINTER, 0xBE, false }, { POINTER, 0xBF, true },
        { POINTER, 0xFD, false }, { POINTER, 0xFE, true }, { POINTER, 0xFF, true },
        { STATUS, 1, true }, { STATUS, 0x7F, true }, { STATUS, 0x80, false }, { LIVE, 1, true },
        { LIVE, 0x7F, true }, { LIVE, 0x80, false }, { LOCAL, 1, true }, { LOCAL, 0xFF, true },
        { REMOTE, 1, true }, { REMOTE, -1, true }, { REMOTE, 1023, true }, { REMOTE, 1024, false },
        { REMOTE, -1024, true }, { REMOTE, -1025, false }, { REMOTE, 32767, false },
        { REMOTE, -32768, false }, { REMOTE, 0x100, true }, { FAULTS, 1, true },
        { FAULTS, 3, true }, { FAULTS, 4, false }, { LOCAL_LATCH, 1, true },
        { REMOTE_LATCH, 1, true }, { PENDING, 1, false }, { LOW, 0x20, false }, { LOW, 1, false },
        { LOWKEPT, 1, true }
    };
    static const uint8_t masks[SECOND_SETTINGS] = { 0xD5, 0xFF, 0xFF, 0xFF, 0xFF, 0xFF, 0xFF,
        0xE0, 0xE0, 0xE0, 0xFF, 0xFF, 0x1F, 0x07 };
    for (size_t i = 0; i < sizeof line / sizeof *line; i++)
        field_range(line[i].field, line[i].value, line[i].good);
    for (int i = 0; i < SECOND_SETTINGS; i++)
        for (int bit = 0x01; bit <= 0x80; bit *= 2)
            field_range(SETTING + i, bit, (masks[i] & bit) != 0);

    second_reader reader; /* pending in standby, and a kept byte, of the second */
    at_stage(&reader, 2, 7);
    reader.bus.second.pending = true;
    reader.bus.second.settings[0] = 0x40;
    reader.bus.second.lowkept = true;
    reader.bus.second.low = 0xE0;
    range(&reader, true, "second in standby", 0);
    reader.bus.second.low = 0xE1;
    range(&reader, false, "kept byte of the second", 0xE1);
    reader.bus.second.low = 0;
    reader.bus.second.settings[0] = 0;
    reader.bus.first.settings[0] = 0x40;
    range(&reader, false, "second pending, first in standby", 0);
}

/* Two devices in a capture's bytes, and their listing: 01's, at 4C as the second. */
static void bus_listing(void)
{
    static const uint8_t capture[] = { 2, 2, 1, 0, 0, 0, 9, 1, 0x4C, 0x19, 0x55, 1, 0x4C, 0x0D, 0x7F,
        8, 0x19, 0x55, 0x20, 2, 0x4C, 2, 0, 1, 0x4C, 0x21, 5, 8, 0x19, 0x50, 0,
        8, 0x19, 0x4F, 0xE0, 2, 0x4C, 3, 0, 1, 0x4C, 0x30, 0 };
    static const char want[] = "1 04 00\n2 04 00\n3 0B 00\n4 06 02\n5 06 00\n6 0A 00\n7 08 00\n"
                               "8 04 80\n9 00 00\nend 9 0\n";
    uint8_t out[18];
    char text[sizeof want + SECOND_LINE_MOST];
    size_t length = 0;
    CHECK(second_run(capture, sizeof capture, out, sizeof out) == 16 * sizeof out);
    for (uint32_t i = 0; i < 9; i++)
        length += second_listing_record(text + length, sizeof text - length, i + 1,
                                        out[2 * i], out[2 * i + 1]);
    length += second_listing_end(text + length, sizeof text - length, 9, 0);
    CHECK(length == sizeof want - 1 && memcmp(text, want, length) == 0);
    length = second_listing_end(text, sizeof text, 0, 9); /* a refusal with 9 */
    CHECK(length == 8 && memcmp(text, "end 0 9\n", 8) == 0);
}

/* Random captures, right and wrong: in one piece, and in parts with little
 * room and retries.  Codes, answers, consumption and end state must agree. */
static uint32_t seed = 1;

static uint32_t next(uint32_t below)
{
    seed = seed * 1664525u + 1013904223u;
    return (seed >> 8) % below;
}

enum { RECORDS = 12, MOST = 7 + 4 * RECORDS + 2 };

/* Of any kind under this device count. */
static second_event any_event(uint8_t devices)
{
    static const uint8_t registers[] = { 0, 1, 1, 1, 2, 2, 2, 3, 9, 9, 9, 0x0B, 0x0C, 0x0D, 0x0E,
        0x0F, 0x0F, 0x10, 0x10, 0x10, 0x11, 0x12, 0x13, 0x14, 0x19, 0x20, 0x21, 0xBF, 0xBF, 0xFE,
        0xFF, 0x30 };
    second_event event = { (uint8_t)(1 + next(devices == 2 ? 9 : 7)), 0, 0, 0 };
    bool sample = event.kind == SECOND_CONVERSION || event.kind == SECOND_CONVERSION_2;
    bool open = event.kind == SECOND_CONVERSION_OPEN || event.kind == SECOND_OPEN_2;
    if (event.kind <= SECOND_RECEIVE)
        event.a = (uint8_t)(0x4C + next(2));
    if (event.kind == SECOND_RECEIVE && next(2) == 0)
        event.a = 0x0C;
    if (event.kind <= SECOND_SEND)
        event.b = registers[next(sizeof registers)];
    if (event.kind == SECOND_WRITE)
        event.c = (uint8_t)next(256);
    if (sample || open)
        event.a = (uint8_t)next(256);
    if (sample) {
        event.b = (uint8_t)next(256);
        event.c = (uint8_t)(32 * next(8));
    }
    return event;
}

static size_t make_capture(uint8_t *capture)
{
    size_t n = next(RECORDS + 1);
    uint8_t devices = (uint8_t)(1 + next(2));
    size_t header = 5u + devices;
    uint8_t first = (uint8_t)(1 + next(3));
    if (devices == 1)
        second_write_header(first, (uint32_t)n, capture, MOST);
    else
        second_write_header_2(first, first == 1 ? (uint8_t)(2 + next(2)) : 1, (uint32_t)n,
                              capture, MOST);
    for (size_t i = 0; i < n; i++)
        CHECK(second_write_event(any_event(devices), capture + header + 4 * i, 4) == 0);
    size_t length = header + 4 * n;
    if (next(3) == 0) /* too short, too long, or a bad byte somewhere */
        length = next((uint32_t)length + 1);
    else if (next(3) == 0)
        capture[length++] = 7;
    else if (next(2) == 0)
        capture[next((uint32_t)length)] = (uint8_t)next(256);
    else if (next(4) == 0) /* among the variant bytes, a small one */
        capture[next(3)] = (uint8_t)next(5);
    return length;
}

static void cuts(void)
{
    for (int round = 0; round < 3000; round++) {
        uint8_t capture[MOST];
        uint8_t whole[2 * RECORDS], joined[2 * RECORDS];
        second_reader one, parts;
        size_t length = make_capture(capture);
        second_fresh(&one);
        second_feed_result all = second_feed(&one, capture, length, whole, sizeof whole);
        CHECK(second_run(capture, length, joined, sizeof joined) ==
              16u * all.written + (all.code != 0 ? all.code : second_finish(&one)));
        for (size_t piece = 1; piece <= length + 1; piece++) {
            size_t at = 0, written = 0;
            uint8_t code = 0;
            second_fresh(&parts);
            for (int calls = 0; at < length && (code == 0 || code == 7) && calls < 1000; calls++) {
                size_t room = next(6);
                size_t left = sizeof joined - written;
                if (room > left)
                    room = left;
                second_feed_result fed = second_feed(&parts, capture + at,
                    piece < length - at ? piece : length - at, joined + written, room);
                at += fed.consumed;
                written += fed.written;
                code = fed.code;
            }
            CHECK(code == all.code && at == all.consumed && written == all.written);
            CHECK(memcmp(joined, whole, written) == 0);
            CHECK(memcmp(&parts, &one, sizeof one) == 0); /* both began as all zeros */
            CHECK(second_finish(&parts) == second_finish(&one));
        }
    }
}

/* Request a over random events: a low byte read after a high one, with neither
 * read again nor power-on between, is of the reading that stood at the high one. */
static void pairs(void)
{
    enum { HIGH = 0x01, LOW = 0x10, OWN = 0x4C, ACKNOWLEDGED = 0x04 };
    second_device device;
    bool high_read = false;
    int stood = 0; /* the reading at that read of 01 */
    second_power_on(&device, 1);
    for (int round = 0; round < 200000; round++) {
        second_event event = any_event(1);
        if (event.kind == SECOND_POWER_ON && next(8) != 0)
            continue; /* rarer, so that pairs come about */
        int reading = device.remote + 2048; /* above 0, so that / and % are the bytes */
        uint8_t place = event.kind == SECOND_RECEIVE ? device.pointer : event.b;
        second_step_result step = second_step(&device, event);
        CHECK(step.code == 0);
        if (event.kind == SECOND_POWER_ON)
            high_read = false;
        if (event.kind != SECOND_READ && event.kind != SECOND_RECEIVE)
            continue;
        if (event.a != OWN || (step.first & ACKNOWLEDGED) == 0)
            continue;
        if (place == HIGH) {
            high_read = true;
            stood = reading;
            CHECK(step.second == (uint8_t)(stood / 8));
        } else if (place == LOW) {
            CHECK(step.second == (high_read ? stood : reading) % 8 * 32);
            high_read = false;
        }
        CHECK(device.lowkept == high_read);
    }
}

/* Request b over random events: D4 stands exactly in the answer to a taken conversion
 * of kind 05 whose sum, with the offset by the writes so far, is off the scale.  D5 to
 * D7 never stand. */
static void held_over_events(void)
{
    second_device device;
    int degrees = 0, fine = 0, seen = 0; /* the offset is degrees and fine eighths */
    second_power_on(&device, 1);
    for (int round = 0; round < 200000; round++) {
        second_event event = any_event(1);
        if (event.kind == SECOND_POWER_ON && next(8) != 0)
            continue; /* rarer, so that offsets stand */
        if (event.kind == SECOND_WRITE && next(2) == 0)
            event.b = (uint8_t)(0x11 + next(2));
        second_step_result step = second_step(&device, event);
        CHECK(step.code == 0 && (step.first & 0xE0) == 0);
        if (event.kind == SECOND_POWER_ON)
            degrees = fine = 0;
        if (event.kind == SECOND_WRITE && event.a == 0x4C && event.b == 0x11)
            degrees = event.c < 128 ? event.c : event.c - 256;
        if (event.kind == SECOND_WRITE && event.a == 0x4C && event.b == 0x12)
            fine = event.c / 32;
        bool shown = false;
        if (event.kind == SECOND_CONVERSION && (step.first & 8) != 0) {
            int sum = 8 * (event.b < 128 ? event.b : event.b - 256) + event.c / 32;
            sum += 8 * degrees + fine;
            shown = sum > 1023 || sum < -1024;
        }
        CHECK(((step.first & 0x10) != 0) == shown);
        seen += shown;
    }
    CHECK(seen > 1000);
}

/* Feed these bytes until all are consumed or a code other than 7 comes; a 7 is answered
 * with room for at least one pair, so that each call but the first takes a record. */
static uint8_t feed_on(second_reader *reader, const uint8_t *bytes, size_t length, size_t room,
                       uint8_t *joined, size_t *written, size_t *consumed)
{
    size_t at = 0, calls = 0;
    uint8_t code;
    do {
        size_t left = 2 * RECORDS - *written;
        second_feed_result fed = second_feed(reader, bytes + at, length - at, joined + *written,
                                             room < left ? room : left);
        code = fed.code;
        at += fed.consumed;
        *written += fed.written;
        room = code == 7 && room < 2 ? 2 : room;
        calls++;
    } while (code == 7 && calls <= RECORDS + 1);
    *consumed += at;
    return code;
}

/* One capture cut at one place, with one room before the cut and one behind, against the
 * same in one piece. */
static void cut_at(const uint8_t *capture, size_t length, size_t cut, size_t room, size_t other)
{
    uint8_t whole[2 * RECORDS], joined[2 * RECORDS];
    second_reader one, parts;
    size_t written = 0, consumed = 0;
    memset(whole, 0xA5, sizeof whole);
    memset(joined, 0xA5, sizeof joined);
    second_fresh(&one);
    second_fresh(&parts);
    second_feed_result all = second_feed(&one, capture, length, whole, sizeof whole);
    uint8_t code = feed_on(&parts, capture, cut, room, joined, &written, &consumed);
    if (code == 0)
        code = feed_on(&parts, capture + cut, length - cut, other, joined, &written, &consumed);
    CHECK(code == all.code && consumed == all.consumed && written == all.written);
    CHECK(memcmp(joined, whole, sizeof whole) == 0 && same_reader(&one, &parts));
    CHECK(second_finish(&one) == second_finish(&parts));
}

/* Captures of two devices and of one, right and wrong, cut at every place with every small
 * room. */
static void every_cut_and_room(void)
{
    static const uint8_t right[] = { 2, 2, 1, 0, 0, 0, 9, 5, 71, 1, 0x20, 8, 71, 2, 0x40,
        4, 0x0C, 0, 0, 2, 0x4C, 1, 0, 8, 0, 3, 0x60, 4, 0x0C, 0, 0, 2, 0x4C, 0x10, 0,
        9, 86, 0, 0, 7, 0, 0, 0 };
    static const struct {
        size_t at; /* the byte of the above that is another; 0: the device count */
        uint8_t byte;
    } change[] = {
        { 0, 2 }, { 0, 1 }, { 0, 3 }, { 0, 0 }, { 1, 0 }, { 1, 1 }, { 1, 3 }, { 1, 4 }, { 2, 0 },
        { 2, 2 }, { 2, 3 }, { 2, 4 }, { 3, 1 }, { 6, 8 }, { 6, 10 }, { 6, 0 }, { 7, 10 }, { 7, 0 },
        { 11, 6 }, { 11, 10 }, { 14, 0x41 }, { 15, 0 }, { 35, 8 }, { 37, 1 }, { 38, 0x20 }, { 42, 1 }
    };
    for (size_t i = 0; i < sizeof change / sizeof *change; i++) {
        uint8_t capture[sizeof right];
        memcpy(capture, right, sizeof right);
        capture[change[i].at] = change[i].byte;
        for (size_t cut = 0; cut <= sizeof capture; cut++)
            for (size_t room = 0; room <= 5; room++)
                for (size_t other = 0; other <= 5; other++)
                    cut_at(capture, sizeof capture, cut, room, other);
    }
    static const uint8_t alone[] = { 1, 3, 0, 0, 0, 3, 5, 71, 1, 0x20, 4, 0x0C, 0, 0, 8, 0, 0, 0 };
    for (size_t cut = 0; cut <= sizeof alone; cut++)
        for (size_t room = 0; room <= 5; room++)
            cut_at(alone, sizeof alone, cut, room, 5 - room);
}

/* What a device pulls, by a read at an address that nobody has. */
static uint8_t pins_of(second_device device)
{
    return second_step(&device, (second_event){ 2, 0x7F, 0, 0 }).first;
}

static bool would_answer_alert(second_device device)
{
    return (second_step(&device, (second_event){ 4, 0x0C, 0, 0 }).first & 4) != 0;
}

/* Does this device see the event?  All but conversions of the other, and alert responses
 * of which another is named: one that would answer too, at a lower address. */
static bool sees(const second_device device[2], unsigned devices, unsigned place,
                 second_event event)
{
    if (event.kind == 5 || event.kind == 6)
        return place == 0;
    if (event.kind == 8 || event.kind == 9)
        return place == 1;
    if (event.kind == 4 && event.a == 0x0C && devices == 2 && device[place].variant != 1)
        return !would_answer_alert(device[1 - place]);
    return true;
}

/* One event on one or two devices by steps of each alone, on what it sees. */
static void step_each(second_device device[2], unsigned devices, second_event event,
                      uint8_t answer[2])
{
    bool seen[2] = { sees(device, devices, 0, event), sees(device, devices, 1, event) };
    answer[0] = answer[1] = 0;
    for (unsigned i = 0; i < devices; i++) {
        second_event alone = event;
        if (event.kind >= 8)
            alone.kind = (uint8_t)(event.kind - 3);
        if (seen[i]) {
            second_step_result step = second_step(&device[i], alone);
            CHECK(step.code == 0);
            answer[0] |= step.first;
            answer[1] |= step.second;
        } else {
            answer[0] |= pins_of(device[i]);
        }
    }
}

/* How many header bytes of a whole capture are good, and the code of the next or 0. */
static size_t good_header(const uint8_t *capture, size_t length, uint8_t *code)
{
    *code = 0;
    if (length == 0)
        return 0;
    if (capture[0] != 1 && capture[0] != 2)
        *code = 1;
    if (*code != 0 || length == 1)
        return *code != 0 ? 0 : 1;
    if (capture[1] < 1 || capture[1] > 3)
        *code = 2;
    if (*code != 0 || length == 2)
        return *code != 0 ? 1 : 2;
    if (capture[0] == 2) {
        if (capture[2] < 1 || capture[2] > 3)
            *code = 2;
        else if ((capture[1] == 1) == (capture[2] == 1))
            *code = 9;
        if (*code != 0)
            return 2;
    }
    size_t whole = 5u + capture[0];
    return length < whole ? length : whole;
}

/* What a whole capture, with room for every answer, comes to by the definition: its bytes
 * divided into header and records, the records stepped. */
typedef struct {
    uint8_t code, answers[2 * RECORDS];
    size_t consumed, written;
    second_reader reader;
} defined;

static void define_records(defined *want, const uint8_t *bytes, size_t length)
{
    second_reader *reader = &want->reader;
    second_device device[2] = { reader->bus.first, reader->bus.second };
    size_t at = 0;
    while (reader->done < reader->count && length - at >= 4 && want->code == 0) {
        second_event event;
        want->code = second_decode(reader->bus.devices, bytes + at, &event);
        if (want->code != 0)
            break;
        step_each(device, reader->bus.devices, event, want->answers + want->written);
        want->written += 2;
        reader->done++;
        at += 4;
    }
    size_t rest = length - at;
    if (reader->done == reader->count) {
        want->code = rest > 0 ? 5 : 0;
    } else {
        reader->carried = (uint8_t)(rest < 3 ? rest : 3);
        memcpy(reader->carry, bytes + at, reader->carried);
        at += reader->carried;
    }
    want->consumed += at;
    reader->bus.first = device[0];
    reader->bus.second = device[1];
}

static void define(defined *want, const uint8_t *capture, size_t length)
{
    memset(want, 0, sizeof *want);
    second_reader *reader = &want->reader;
    size_t good = good_header(capture, length, &want->code);
    uint8_t devices = good > 0 ? capture[0] : 0;
    want->consumed = good;
    reader->header = (uint8_t)good;
    reader->bus.devices = devices;
    if (good >= 2)
        second_power_on(&reader->bus.first, capture[1]);
    if (devices == 2 && good >= 3)
        second_power_on(&reader->bus.second, capture[2]);
    for (size_t i = 1u + devices; i < good; i++)
        reader->count = reader->count * 256 + capture[i];
    if (good > 0 && good == 5u + devices)
        define_records(want, capture + good, length - good);
    reader->held = want->code;
}

/* Random captures of one and two devices, right and wrong, against the definition. */
static void definition(void)
{
    for (int round = 0; round < 100000; round++) {
        uint8_t capture[MOST], out[2 * RECORDS];
        second_reader reader;
        defined want;
        size_t length = make_capture(capture);
        define(&want, capture, length);
        second_fresh(&reader);
        second_feed_result fed = second_feed(&reader, capture, length, out, sizeof out);
        CHECK(fed.code == want.code && fed.consumed == want.consumed);
        CHECK(fed.written == want.written && memcmp(out, want.answers, want.written) == 0);
        CHECK(same_reader(&reader, &want.reader));
        const second_reader *end = &want.reader;
        bool whole = end->header == 5 + end->bus.devices && end->done == end->count;
        CHECK(second_finish(&reader) == (want.code != 0 ? want.code : whole ? 0 : 6));
    }
}

/* A long row of events on two devices: answers and both states are those of each alone, and
 * what names one leaves the other.  Power-on is rarer, so that states come about. */
static void bus_as_devices(void)
{
    static const uint8_t variants[][2] = { { 1, 2 }, { 1, 3 }, { 2, 1 }, { 3, 1 } };
    int both_alerting = 0;
    for (int round = 0; round < 400000; round++) {
        static second_reader reader;
        static second_device device[2];
        if (round % 100000 == 0) {
            const uint8_t *variant = variants[round / 100000];
            begin(&reader, variant[0], variant[1], 100000);
            second_power_on(&device[0], variant[0]);
            second_power_on(&device[1], variant[1]);
        }
        second_event event = any_event(2);
        if (event.kind == SECOND_POWER_ON && next(8) != 0)
            event = (second_event){ 1, (uint8_t)(0x4C + next(2)), 9, (uint8_t)(next(2) * next(256)) };
        uint8_t record[4], got[2], want[2];
        CHECK(second_write_event(event, record, 4) == 0);
        bool alert_response = event.kind == 4 && event.a == 0x0C;
        if (alert_response && would_answer_alert(device[0]) && would_answer_alert(device[1]))
            both_alerting++;
        second_bus before = reader.bus;
        step_each(device, 2, event, want);
        CHECK(second_feed(&reader, record, 4, got, 2).code == 0);
        CHECK(got[0] == want[0] && got[1] == want[1]);
        CHECK(same_device(&reader.bus.first, &device[0]));
        CHECK(same_device(&reader.bus.second, &device[1]));
        if (event.kind != SECOND_POWER_ON)
            CHECK(same_device(&before.first, &device[0]) || same_device(&before.second, &device[1]));
    }
    CHECK(both_alerting > 100);
}

static void any_device(second_device *device)
{
    second_power_on(device, (uint8_t)(1 + next(3)));
    device->variant = (uint8_t)next(5);
    if (next(2)) {
        device->pointer = (uint8_t)next(256);
        device->status = (uint8_t)next(256);
        device->remote = (int16_t)((int)next(65536) - 32768);
        device->faults = (uint8_t)next(8);
        device->pending = next(2) != 0;
        device->settings[next(14)] = (uint8_t)next(256);
    }
    if (next(2)) {
        device->lowkept = next(2) != 0;
        device->low = (uint8_t)(next(4) ? 32 * next(8) : next(256));
    }
}

static void any_reader(second_reader *reader)
{
    memset(reader, 0, sizeof *reader);
    reader->header = (uint8_t)next(next(4) ? 8 : 256);
    reader->bus.devices = (uint8_t)next(next(4) ? 3 : 256);
    if (next(2)) /* often a complete header */
        reader->header = (uint8_t)(5 + reader->bus.devices);
    reader->count = next(2) ? next(5) : next(1u << 24) << 8;
    reader->done = next(3);
    reader->carried = (uint8_t)next(next(4) ? 4 : 256);
    for (size_t i = 0; i < 3; i++)
        reader->carry[i] = i < reader->carried ? (uint8_t)next(11) : 0;
    reader->held = (uint8_t)(next(2) ? 0 : next(11));
    any_device(&reader->bus.first);
    if (reader->bus.devices == 2 ? next(8) != 0 : next(8) == 0)
        any_device(&reader->bus.second);
    if (reader->bus.devices == 2 && next(2)) { /* often two addresses */
        reader->bus.first.variant = (uint8_t)(1 + next(3));
        reader->bus.second.variant = reader->bus.first.variant == 1 ? 3 : 1;
    }
}

/* Any bytes as a state, any bytes as input: an answer, and 8 changes nothing. */
static void anything(void)
{
    int with_two = 0;
    for (int round = 0; round < 400000; round++) {
        second_reader reader, before;
        uint8_t input[32], answers[16];
        any_reader(&reader);
        for (size_t i = 0; i < sizeof input; i++)
            input[i] = (uint8_t)next(next(2) ? 10 : 256);
        before = reader;
        second_feed_result fed = second_feed(&reader, input, next(33), answers, next(17));
        CHECK(fed.code <= 9 && fed.code != 6 && fed.written <= 16 && fed.consumed <= 32);
        CHECK(fed.code != 8 || (fed.consumed == 0 && same_reader(&reader, &before)));
        CHECK(fed.code == 8 || second_reader_in_range(&reader));
        CHECK((fed.code == 8) == (second_finish(&reader) == 8));
        with_two += fed.code != 8 && before.bus.devices == 2 && before.header == 7;
        second_step_result step = second_step(&before.bus.first,
            (second_event){ (uint8_t)next(11), input[0], input[1], input[2] });
        CHECK(step.code == 0 || step.code == 3 || step.code == 4 || step.code == 8);
        CHECK(step.code == 8 || second_device_in_range(&before.bus.first));
    }
    CHECK(with_two > 1000);
}

/* ---- Request e: the account ---------------------------------------------- */

enum { HISTORY_MOST = 7 + 4 * 32, UNTOUCHED = 0xA5 };

/* A script whose `first` is the account's verdict after the record: 1 and 2 the latches of
 * the first device, 4 and 8 those of the second, 10 the pin.  One device if second is 0. */
static void run_account(const char *name, uint8_t first, uint8_t second,
                        const script_line *line, size_t lines)
{
    uint8_t capture[HISTORY_MOST], verdicts[HISTORY_MOST];
    size_t header = second == 0 ? 6 : 7;
    if (second == 0)
        CHECK(second_write_header(first, (uint32_t)lines, capture, header) == 0);
    else
        CHECK(second_write_header_2(first, second, (uint32_t)lines, capture, header) == 0);
    for (size_t i = 0; i < lines; i++)
        memcpy(capture + header + 4 * i, line[i].record, 4);
    memset(verdicts, UNTOUCHED, sizeof verdicts);
    check(second_account(capture, header + 4 * lines, verdicts, lines) == lines, name, 0);
    check(verdicts[lines] == UNTOUCHED, name, (int)lines);
    for (size_t i = 0; i < lines; i++) {
        if (verdicts[i] == line[i].first)
            continue;
        printf("wrong: account, %s, record %zu: %02X, not %02X\n", name, i + 1, verdicts[i],
               line[i].first);
        wrong++;
    }
}
#define ACCOUNT(name, first, second, ...)                                          \
    do {                                                                           \
        static const script_line lines_[] = { __VA_ARGS__ };                       \
        run_account(name, first, second, lines_, sizeof lines_ / sizeof *lines_);  \
    } while (0)

/* The listing of document 01, and each line of "Both sides of each line" that a latch can
 * tell. */
static void account_lines(void)
{
    ACCOUNT("listing", 1, 0, WR(0x19, 0x55, 0), WR(0x0D, 0x7F, 0), CV(0x19, 0x55, 0x20, 0x12),
            RD(2, 0x12, 0), WR(0x21, 5, 0x12), CV(0x19, 0x50, 0, 0x12), CV(0x19, 0x4F, 0xE0, 0),
            RD(3, 0, 0), WR(0x30, 0, 0));
    ACCOUNT("T_CRIT 85", 1, 0, WR(0x19, 85, 0), CV(0, 85, 0, 0), CV(0, 85, 0x20, 0x12));
    ACCOUNT("hysteresis 5", 1, 0, WR(0x19, 85, 0), WR(0x21, 5, 0), CV(0, 86, 0, 0x12),
            CV(0, 80, 0, 0x12), CV(0, 79, 0xE0, 0), CV(0, 80, 0, 0));
    ACCOUNT("local", 1, 0, CV(85, 0, 0, 0), CV(86, 0, 0, 0x11), CV(75, 0, 0, 0x11),
            CV(74, 0, 0, 0));
    ACCOUNT("local of LM89-1D", 3, 0, CV(105, 0, 0, 0), CV(106, 0, 0, 0x11),
            CV(95, 0, 0, 0x11), CV(94, 0, 0, 0));
    ACCOUNT("fault queue", 1, 0, WR(0x19, 85, 0), WR(0x0D, 127, 0), WR(0x0E, 0x80, 0),
            WR(9, 1, 0), CV(0, 86, 0, 0), CV(0, 86, 0, 0), CV(0, 84, 0, 0), CV(0, 86, 0, 0),
            CV(0, 86, 0, 0), CV(0, 86, 0, 0x12));
    ACCOUNT("127.5 and offset 1", 1, 0, WR(0x19, 127, 0), WR(0x11, 1, 0), CV(0, 126, 0, 0),
            CV(0, 127, 0x80, 0x12));
    ACCOUNT("-128 and offset -1", 1, 0, WR(0x19, 0x8A, 0), CV(0, 0x8B, 0, 0x12),
            WR(0x11, 0xFF, 0x12), CV(0, 0x80, 0, 0x12), WR(0x19, 0x8B, 0x12), CV(0, 0x80, 0, 0));
    ACCOUNT("open diode and offset 5", 1, 0, WR(0x19, 127, 0), WR(0x11, 5, 0), CO(0, 0),
            WR(0x19, 126, 0), CO(0, 0x12), PO, WR(0x19, 126, 0), WR(0x11, 0xFB, 0), CO(0, 0x12));
    ACCOUNT("FFh to 09", 1, 0, WR(9, 0xFF, 0), CV(86, 127, 0, 0), WR(0x0F, 0, 0),
            CV(86, 127, 0, 1), CV(0, 0, 0, 1), WR(9, 0x51, 0x11), WR(9, 0x55, 1));
    ACCOUNT("T_CRIT -128, hysteresis 1", 1, 0, WR(0x20, 0x80, 0), WR(0x21, 1, 0),
            CV(0x81, 0, 0, 0x11), CV(0x80, 0, 0, 0x11), CV(0x80, 0, 0, 0x11), PO);
}

/* e: "under the settings then in force", "in force at that later one". */
static void account_settings(void)
{
    ACCOUNT("hysteresis at the later one", 1, 0, CV(86, 0, 0, 0x11), WR(0x21, 5, 0x11),
            CV(80, 0, 0, 0x11), CV(79, 0, 0, 0), CV(86, 0, 0, 0x11), WR(0x21, 20, 0x11),
            CV(65, 0, 0, 0x11), CV(64, 0, 0, 0));
    ACCOUNT("limit at the later one", 1, 0, CV(86, 0, 0, 0x11), WR(0x20, 95, 0x11),
            CV(85, 0, 0, 0x11), CV(84, 0, 0, 0), CV(95, 0, 0, 0));
    ACCOUNT("limit then, not now", 1, 0, CV(84, 0, 0, 0), WR(0x20, 80, 0), CV(80, 0, 0, 0),
            CV(81, 0, 0, 0x11), WR(0x20, 86, 0x11), CV(81, 0, 0, 0x11), CV(76, 0, 0, 0x11),
            CV(75, 0, 0, 0), CV(86, 0, 0, 0));
    ACCOUNT("writes alone", 1, 0, CV(80, 0, 0, 0), WR(0x20, 20, 0), WR(0x20, 85, 0),
            CV(86, 0, 0, 0x11), WR(0x20, 127, 0x11), WR(0x21, 0, 0x11), WR(0x20, 85, 0x11),
            CV(85, 0, 0, 0x11), CV(84, 0, 0, 0));
    ACCOUNT("bits that hysteresis drops", 1, 0, WR(0x21, 0xE5, 0), CV(86, 0, 0, 0x11),
            CV(80, 0, 0, 0x11), CV(79, 0, 0, 0));
    ACCOUNT("below, then live", 1, 0, CV(0, 111, 0, 0x12), CV(0, 99, 0xE0, 0),
            CV(0, 110, 0x20, 0x12), CV(0, 100, 0, 0x12));
    ACCOUNT("below 0", 1, 0, WR(0x19, 0xF6, 0), CV(0, 0xF6, 0, 0), CV(0, 0xF6, 0x20, 0x12),
            CV(0, 0xEC, 0, 0x12), CV(0, 0xEB, 0xE0, 0));
    ACCOUNT("offset then, not now", 1, 0, WR(0x11, 2, 0), WR(0x12, 0x20, 0),
            CV(0, 107, 0xE0, 0), CV(0, 108, 0, 0x12), WR(0x11, 0, 0x12), CV(0, 99, 0xE0, 0x12),
            WR(0x12, 0, 0x12), CV(0, 99, 0xE0, 0), WR(0x11, 50, 0));
}

/* The count that a conversion led to; and what is no taken conversion. */
static void account_queue(void)
{
    ACCOUNT("count runs with the queue off", 1, 0, CV(0, 71, 0, 0), CV(0, 0xFF, 0, 0),
            WR(9, 1, 0), CV(0, 111, 0, 0x12));
    ACCOUNT("a reading inside between", 1, 0, WR(9, 1, 0), CV(0, 111, 0, 0), CV(0, 111, 0, 0),
            CV(0, 70, 0, 0), CV(0, 111, 0, 0), CV(0, 71, 0, 0), CV(0, 111, 0, 0x12));
    ACCOUNT("held back, kept", 1, 0, WR(0x0D, 127, 0), CV(0, 111, 0, 0x12), WR(9, 1, 0x12),
            CV(0, 100, 0, 0x12), CV(0, 111, 0, 0x12), CV(0, 99, 0xE0, 0), CV(0, 111, 0, 0));
    ACCOUNT("turned off later", 1, 0, WR(9, 1, 0), CV(0, 111, 0, 0), WR(9, 0, 0),
            CV(0, 110, 0, 0), CV(0, 111, 0, 0x12));
    ACCOUNT("local has no queue", 1, 0, WR(9, 1, 0), CV(86, 0, 0, 0x11));
    ACCOUNT("count in standby", 1, 0, WR(9, 0x41, 0), CV(0, 111, 0, 0), CV(0, 111, 0, 0),
            WR(9, 1, 0), CV(0, 111, 0, 0), CV(0, 111, 0, 0), CV(0, 111, 0, 0x12));
    ACCOUNT("count and power-on", 1, 0, CV(0, 71, 0, 0), CV(0, 71, 0, 0), PO, WR(9, 1, 0),
            CV(0, 111, 0, 0), CV(0, 111, 0, 0), CV(0, 111, 0, 0x12));
    ACCOUNT("one-shot", 1, 0, WR(0x0F, 0, 0), WR(9, 0x40, 0), CV(86, 0, 0, 0), WR(0x0F, 7, 0),
            WR(9, 0x41, 0), CV(86, 0, 0, 0x11), CV(74, 0, 0, 0x11), WR(0x0F, 0, 0x11),
            WR(0x0F, 0, 0x11), CO(74, 0), CV(86, 0, 0, 0));
    ACCOUNT("one-shot and leaving", 1, 0, WR(9, 0x40, 0), WR(0x0F, 0, 0), WR(9, 0, 0),
            WR(9, 0x40, 0), CV(86, 0, 0, 0), WR(0x0F, 0, 0), PO, WR(9, 0x40, 0),
            CV(86, 0, 0, 0), WR(9, 0, 0), CV(86, 0, 0, 0x11));
}

/* What no latch depends on, masks, and power-on. */
static void account_events(void)
{
    ACCOUNT("reads", 1, 0, CV(86, 0, 0, 0x11), RD(2, 0x11, 0), SB(2, 0x11), RB(0x11, 0),
            WR(9, 0, 0x11), CV(80, 0, 0, 0x11), ARA(0x11, 0), { { 2, 0x4D, 2, 0 }, 0x11, 0 },
            SB(0x20, 0x11), RB(0x11, 0));
    ACCOUNT("elsewhere", 1, 0, { { 1, 0x4D, 0x20, 20 }, 0, 0 }, CV(21, 0, 0, 0),
            CV(86, 0, 0, 0x11), { { 1, 0x0C, 0x21, 0 }, 0x11, 0 }, CV(75, 0, 0, 0x11),
            WR(0x0B, 0, 0x11), WR(0xBF, 7, 0x11), WR(0x0A, 0, 0x11), CV(74, 0, 0, 0));
    ACCOUNT("masks", 1, 0, CV(86, 111, 0, 0x13), WR(9, 4, 0x13), WR(9, 0x14, 3),
            WR(9, 0x10, 0x13), CV(74, 110, 0, 2), CV(86, 110, 0, 0x13), WR(9, 0x14, 3),
            CV(86, 99, 0, 1), CV(0, 111, 0, 2), WR(9, 4, 0x12), WR(9, 0x90, 2), WR(9, 0, 0x12));
    ACCOUNT("power-on", 1, 0, CV(86, 111, 0, 0x13), PO, CV(85, 110, 0, 0), WR(0x20, 20, 0),
            PO, CV(21, 0, 0, 0), CV(86, 0, 0, 0x11));
}

/* c: each device by its own records, addresses and settings; the pin is joined. */
static void account_pairs(void)
{
    ACCOUNT("pair", 1, 2, CV(86, 0, 0, 0x11), CV2(86, 0, 0, 0x15), CV(0, 0, 0, 0x14),
            CV2(0, 111, 0, 0x18), WR_D(9, 0x10, 8), WR(9, 0x14, 8), WR_D(9, 0, 0x18), PO,
            CV2(85, 110, 0, 0), CO2(86, 0x1C), CV(0, 0, 0, 0x1C), CO(0, 0x1E), PO);
    ACCOUNT("pair, 4D first", 3, 1, CV(105, 0, 0, 0), CV2(105, 0, 0, 0x14), CV(106, 0, 0, 0x15),
            WR(0x20, 20, 0x15), CV(94, 0, 0, 0x14), CV2(10, 0, 0, 0x14), CV2(9, 0, 0, 0),
            WR_D(9, 0x40, 0), CV(127, 0, 0, 0), CV2(21, 0, 0, 0x14), WR(0x0F, 0, 0x14),
            CV(127, 0, 0, 0x14), WR_D(0x0F, 0, 0x14), CV(127, 0, 0, 0x15));
    ACCOUNT("pair, queues", 2, 1, WR(9, 1, 0), CV2(0, 111, 0, 0), CV(0, 111, 0, 0x12),
            CV2(0, 111, 0, 0x12), CV(0, 0, 0, 0), CV2(0, 111, 0, 0x18), WR_D(0x11, 3, 0x18),
            CV2(0, 110, 0, 0x18), CV(0, 107, 0x20, 0x1A), ARA(0x1A, 0), RD(2, 0x1A, 0),
            RD_D(2, 0x1A, 0));
}

/* Gives none, and touches nothing. */
static void no_account(const uint8_t *capture, size_t length, size_t room)
{
    uint8_t verdicts[HISTORY_MOST];
    memset(verdicts, UNTOUCHED, sizeof verdicts);
    CHECK(second_account(capture, length, verdicts, room) == SECOND_ACCOUNT_NONE);
    for (size_t i = 0; i < sizeof verdicts; i++)
        CHECK(verdicts[i] == UNTOUCHED);
}

/* Every code that keeps a capture from being accepted, and every room. */
static void account_refusals(void)
{
    static const uint8_t good[] = { 2, 1, 3, 0, 0, 0, 2, 9, 86, 0, 0, 8, 106, 0, 0 };
    static const struct {
        uint8_t at, byte;
    } bad[] = { { 0, 0 }, { 0, 1 }, { 0, 3 }, { 1, 0 }, { 1, 4 }, { 2, 0 }, { 2, 4 }, { 1, 2 },
                { 1, 3 }, { 2, 1 }, { 3, 1 }, { 6, 1 }, { 6, 3 }, { 7, 0 }, { 7, 10 }, { 9, 1 },
                { 14, 1 } };
    uint8_t capture[sizeof good + 1], verdicts[4];
    no_account(NULL, 0, 0);
    for (size_t length = 0; length < sizeof good; length++)
        no_account(good, length, 2);
    for (size_t i = 0; i < sizeof bad / sizeof *bad; i++) {
        memcpy(capture, good, sizeof good);
        capture[bad[i].at] = bad[i].byte;
        no_account(capture, sizeof good, 2);
    }
    memcpy(capture, good, sizeof good);
    capture[sizeof good] = 7;
    no_account(capture, sizeof capture, 4);
    for (size_t room = 0; room < 2; room++)
        no_account(good, sizeof good, room);
    for (size_t room = 2; room <= sizeof verdicts; room++) {
        memset(verdicts, UNTOUCHED, sizeof verdicts);
        CHECK(second_account(good, sizeof good, verdicts, room) == 2);
        CHECK(verdicts[0] == 0x18 && verdicts[1] == 0x14 && verdicts[2] == UNTOUCHED);
    }
    static const uint8_t none[] = { 1, 2, 0, 0, 0, 0 };
    CHECK(second_account(none, sizeof none, NULL, 0) == 0);
}

/* The verdict that latches and answers make after a record. */
static uint8_t verdict_of(const second_bus *bus, uint8_t answer)
{
    return (uint8_t)(bus->first.local_latch | bus->first.remote_latch << 1 |
                     bus->second.local_latch << 2 | bus->second.remote_latch << 3 |
                     ((answer & 2) != 0 ? 0x10 : 0));
}

/* Random captures, right and wrong: accepted where a run gives 0, and then as the reader's
 * latches and answers are, record by record. */
static void account_captures(void)
{
    int set = 0;
    for (int round = 0; round < 200000; round++) {
        uint8_t capture[MOST], verdicts[RECORDS], answers[2 * RECORDS];
        size_t length = make_capture(capture);
        size_t count = second_account(capture, length, verdicts, sizeof verdicts);
        bool accepted = second_run(capture, length, answers, sizeof answers) % 16 == 0;
        CHECK(accepted == (count != SECOND_ACCOUNT_NONE));
        if (!accepted)
            continue;
        second_reader reader;
        size_t header = length - 4 * count;
        second_fresh(&reader);
        second_feed(&reader, capture, header, NULL, 0);
        for (size_t i = 0; i < count; i++) {
            uint8_t answer[2];
            second_feed(&reader, capture + header + 4 * i, 4, answer, 2);
            CHECK(verdicts[i] == verdict_of(&reader.bus, answer[0]));
            CHECK(answer[0] == answers[2 * i]);
            set += verdicts[i] != 0;
        }
    }
    CHECK(set > 10000);
}

/* ---- Request f: the soak ------------------------------------------------- */

/* Under the settings of soak_start: local T_CRIT 85, remote 110, hysteresis 10, remote limits
 * 105 and 0.  Local readings, by what they do to the latch: */
enum { SETS = 86, HOLDS = 80, CLEARS = 0 };
/* Remote readings, each with a local one: */
#define CRIT(l) { 5, l, 111, 0 }  /* above T_CRIT, hence a fault */
#define WARM(l) { 5, l, 107, 0 }  /* between T_CRIT and 100: holds; above 105: a fault */
#define CALM(l) { 5, l, 102, 0 }  /* holds, no fault */
#define COOL(l) { 5, l, 50, 0 }   /* below 100, no fault */
#define COLD(l) { 5, l, 0xFF, 0 } /* below 100; below 0: a fault */
/* A record that gets 3 if it is read. */
#define UNREAD { 7, 0, 0, 0 }

enum { SOAK_MOST = 48 }; /* records of a random stretch */

static second_device soak_start(uint8_t configuration, uint8_t faults, bool local, bool remote)
{
    second_device device;
    second_power_on(&device, 1);
    device.settings[0] = configuration;
    device.settings[4] = 105; /* remote high limit */
    device.faults = faults;
    device.local_latch = local;
    device.remote_latch = remote;
    return device;
}

/* The same with one setting more, by its place in rising order of write address. */
static second_device soak_set(second_device device, size_t place, uint8_t value)
{
    device.settings[place] = value;
    return device;
}

/* f: "3 for another kind, else 4". */
static uint8_t soak_code(const uint8_t *record)
{
    if (record[0] == 5)
        return record[3] % 32 == 0 ? 0 : 4;
    if (record[0] == 6)
        return record[2] == 0 && record[3] == 0 ? 0 : 4;
    return 3;
}

static second_device run_records(second_device device, const uint8_t *records, size_t count)
{
    for (size_t i = 0; i < count; i++) {
        const uint8_t *record = records + 4 * i;
        second_event event = { record[0], record[1], record[2], record[3] };
        CHECK(second_step(&device, event).code == 0);
    }
    return device;
}

/* f: "A channel is decided when the records read give the same latch for every earlier latch
 * and fault count": by running them forwards from each of the eight. */
static bool decided_by(second_device device, const uint8_t *records, size_t count, bool remote)
{
    int set = 0;
    for (unsigned earlier = 0; earlier < 8; earlier++) {
        bool *latch = remote ? &device.remote_latch : &device.local_latch;
        *latch = earlier % 2 != 0;
        device.faults = (uint8_t)(earlier / 2);
        second_device after = run_records(device, records, count);
        set += remote ? after.remote_latch : after.local_latch;
    }
    return set == 0 || set == 8;
}

/* The answer by trial of each number of records from the end, nothing kept between trials. */
static second_soaked soak_by_trial(second_device device, const uint8_t *records, size_t count)
{
    second_soaked want = { 0, false, 0 };
    const uint8_t *from = records;
    while (want.read < count) {
        want.read++;
        from = records + 4 * (count - want.read);
        want.code = soak_code(from);
        if (want.code != 0)
            return want;
        if (decided_by(device, from, want.read, false) && decided_by(device, from, want.read, true))
            break;
    }
    want.pulled = (pins_of(run_records(device, from, want.read)) & 2) != 0;
    return want;
}

static bool same_soaked(second_soaked one, second_soaked two)
{
    return one.code == two.code && one.pulled == two.pulled && one.read == two.read;
}

static void expect_soaked(const char *name, second_device device, const uint8_t *records,
                          size_t length, second_soaked want)
{
    second_device before = device;
    second_soaked got = second_soak(device, records, length);
    CHECK(same_device(&device, &before));
    if (same_soaked(got, want))
        return;
    printf("wrong: soak, %s: %u %d %llu, not %u %d %llu\n", name, got.code, got.pulled,
           (unsigned long long)got.read, want.code, want.pulled, (unsigned long long)want.read);
    wrong++;
}

/* A stretch with its answer; the trial is held to the same one. */
static void run_soak(const char *name, second_device device, const uint8_t *records,
                     size_t count, second_soaked want)
{
    expect_soaked(name, device, records, 4 * count, want);
    check(same_soaked(soak_by_trial(device, records, count), want), name, __LINE__);
}

/* A stretch that decides both channels: the same answer from every latch and fault count. */
static void run_decided(const char *name, second_device device, const uint8_t *records,
                        size_t count, second_soaked want)
{
    for (unsigned start = 0; start < 16; start++) {
        device.local_latch = start % 2 != 0;
        device.remote_latch = start / 2 % 2 != 0;
        device.faults = (uint8_t)(start / 4);
        run_soak(name, device, records, count, want);
    }
}

/* SOAK: the records of a stretch in their order, from a given device.  DECIDED: behind a
 * record that must not be read, so that the reading stops where it should, and from every
 * latch and count.  REFUSED: with its code. */
#define STRETCH(run, name, device, code, pulled, read, ...)                           \
    do {                                                                              \
        static const uint8_t records_[][4] = { __VA_ARGS__ };                         \
        run(name, device, records_[0], sizeof records_ / sizeof *records_,            \
            (second_soaked){ code, pulled, read });                                   \
    } while (0)
#define SOAK(name, device, pulled, read, ...)                                         \
    STRETCH(run_soak, name, device, 0, pulled, read, __VA_ARGS__)
#define DECIDED(name, device, pulled, read, ...)                                      \
    STRETCH(run_decided, name, device, 0, pulled, read, UNREAD, __VA_ARGS__)
#define REFUSED(name, device, code, read, ...)                                        \
    STRETCH(run_decided, name, device, code, false, read, __VA_ARGS__)

/* Both channels have to be decided; what is not is the given state's. */
static void soak_channels(void)
{
    second_device off = soak_start(0, 0, false, false);
    DECIDED("local sets", off, true, 1, COOL(SETS));
    DECIDED("remote sets", off, true, 1, CRIT(CLEARS));
    DECIDED("both set", off, true, 1, CRIT(SETS));
    DECIDED("both clear", off, false, 1, COOL(CLEARS));
    DECIDED("local alone does not stop", off, true, 2, COOL(CLEARS), CALM(SETS));
    DECIDED("remote alone does not stop", off, true, 2, COOL(CLEARS), CRIT(HOLDS));
    DECIDED("local clear, remote set before", off, true, 2, CRIT(CLEARS), CALM(CLEARS));
    DECIDED("remote clear, local set before", off, true, 3, COOL(SETS), COOL(HOLDS),
            COOL(HOLDS));
    DECIDED("pin sure at 2, remote at 3", off, true, 3, COOL(CLEARS), CALM(SETS), CALM(HOLDS));
    DECIDED("pin sure at 2, local at 3", off, true, 3, CALM(CLEARS), CRIT(HOLDS), WARM(HOLDS));
    DECIDED("the later one, below", off, false, 1, CRIT(SETS), COOL(CLEARS));
    DECIDED("the later one, above", off, true, 1, COOL(CLEARS), CRIT(SETS));
    DECIDED("set, then cleared, then held", off, false, 2, CRIT(SETS), COOL(CLEARS),
            CALM(HOLDS));
    for (unsigned latches = 0; latches < 4; latches++) {
        bool local = latches % 2 != 0, remote = latches / 2 != 0;
        second_device start = soak_start(0, 0, local, remote);
        SOAK("held throughout", start, local || remote, 3, CALM(HOLDS), CALM(HOLDS),
             WARM(HOLDS));
        SOAK("local cleared, remote held", start, remote, 2, CALM(CLEARS), WARM(HOLDS));
        SOAK("remote cleared, local held", start, local, 2, COOL(HOLDS), CALM(HOLDS));
        SOAK("decided at the start", start, false, 2, COOL(CLEARS), CALM(HOLDS));
    }
}

/* Both sides of limit and of limit less hysteresis.  Where the last record holds, the one
 * before it tells what was held; where it does not, that one says the contrary, unread. */
static void soak_edges(void)
{
    second_device off = soak_start(0, 0, false, false);
    second_device none = soak_set(off, 12, 0); /* hysteresis 0 */
    second_device third = off;
    third.variant = 3;
    third.settings[11] = 105;
    DECIDED("local 85 holds", off, true, 2, COOL(SETS), COOL(85));
    DECIDED("local 86 sets", off, true, 1, COOL(CLEARS), COOL(86));
    DECIDED("local 75 holds", off, true, 2, COOL(SETS), COOL(75));
    DECIDED("local 74 clears", off, false, 1, COOL(SETS), COOL(74));
    DECIDED("local -128 clears", off, false, 1, COOL(SETS), COOL(0x80));
    DECIDED("local 105 holds in LM89-1D", third, false, 2, COOL(CLEARS), COOL(105));
    DECIDED("local 106 sets in LM89-1D", third, true, 1, COOL(CLEARS), COOL(106));
    DECIDED("remote 110.000 holds", off, true, 2, CRIT(CLEARS), { 5, CLEARS, 110, 0 });
    DECIDED("remote 110.125 sets", off, true, 1, COOL(CLEARS), { 5, CLEARS, 110, 0x20 });
    DECIDED("remote 100.000 holds", off, true, 2, CRIT(CLEARS), { 5, CLEARS, 100, 0 });
    DECIDED("remote 99.875 clears", off, false, 1, CRIT(CLEARS), { 5, CLEARS, 99, 0xE0 });
    DECIDED("hysteresis 0, local 85", none, true, 2, COOL(SETS), COOL(85));
    DECIDED("hysteresis 0, local 84", none, false, 1, COOL(SETS), COOL(84));
    DECIDED("hysteresis 0, remote 110.000", none, true, 2, CRIT(CLEARS), { 5, CLEARS, 110, 0 });
    DECIDED("hysteresis 0, remote 109.875", none, false, 1, CRIT(CLEARS),
            { 5, CLEARS, 109, 0xE0 });
}

/* Offset, open diode, and limits at the ends of the scale. */
static void soak_readings(void)
{
    second_device off = soak_start(0, 0, false, false);
    second_device two = soak_set(off, 6, 2);     /* offset 2 */
    second_device most = soak_set(off, 10, 127); /* remote T_CRIT 127: limit less 10 is 117 */
    second_device floor = soak_set(soak_set(off, 11, 0x80), 12, 1); /* local T_CRIT -128 */
    second_device ceiling = soak_set(soak_set(off, 11, 127), 12, 0); /* local T_CRIT 127 */
    DECIDED("108.125 plus 2 sets", two, true, 1, COOL(CLEARS), { 5, CLEARS, 108, 0x20 });
    DECIDED("108.000 plus 2 holds", two, false, 2, COOL(CLEARS), { 5, CLEARS, 108, 0 });
    DECIDED("98.000 plus 2 holds", two, true, 2, CRIT(CLEARS), { 5, CLEARS, 98, 0 });
    DECIDED("97.875 plus 2 clears", two, false, 1, CRIT(CLEARS), { 5, CLEARS, 97, 0xE0 });
    DECIDED("127.875 plus 127 is held and sets", soak_set(most, 6, 127), true, 1,
            COOL(CLEARS), { 5, CLEARS, 127, 0xE0 });
    DECIDED("open sets", off, true, 1, COOL(CLEARS), { 6, CLEARS, 0, 0 });
    DECIDED("open holds at T_CRIT 127", most, false, 2, COOL(CLEARS), { 6, CLEARS, 0, 0 });
    DECIDED("open has no offset", soak_set(most, 6, 5), false, 2, COOL(CLEARS),
            { 6, CLEARS, 0, 0 });
    DECIDED("open, local sets", most, true, 2, COOL(CLEARS), { 6, SETS, 0, 0 });
    DECIDED("T_CRIT -128, -127 sets", floor, true, 2, COOL(0x81), COOL(0x80));
    DECIDED("T_CRIT 127, 126 clears", ceiling, false, 2, COOL(126), COOL(127));
    SOAK("T_CRIT -128 never clears", floor, false, 2, COOL(0x80), COOL(0x80));
    SOAK("T_CRIT 127 never sets", ceiling, false, 2, COOL(127), COOL(127));
    floor.local_latch = true;
    ceiling.local_latch = true;
    SOAK("T_CRIT -128, set before", floor, true, 2, COOL(0x80), COOL(0x80));
    SOAK("T_CRIT 127, set before", ceiling, true, 2, COOL(127), COOL(127));
}

/* Masks hide a latch from the pin; its channel has to be decided all the same. */
static void soak_masks(void)
{
    second_device local = soak_start(0x04, 0, false, false);
    second_device remote = soak_start(0x10, 0, false, false);
    second_device both = soak_start(0x14, 0, false, false);
    second_device alert = soak_start(0x80, 0, false, false);
    DECIDED("local masked, local sets", local, false, 1, COOL(SETS));
    DECIDED("local masked, remote sets", local, true, 1, CRIT(CLEARS));
    DECIDED("remote masked, local sets", remote, true, 1, COOL(SETS));
    DECIDED("remote masked, remote sets", remote, false, 1, CRIT(CLEARS));
    DECIDED("both masked", both, false, 1, CRIT(SETS));
    DECIDED("ALERT masked", alert, true, 1, COOL(SETS));
    DECIDED("local masked and not decided", local, true, 2, COOL(CLEARS), CRIT(HOLDS));
    DECIDED("local masked, set before", local, false, 2, COOL(SETS), COOL(HOLDS));
    DECIDED("remote masked and not decided", remote, true, 2, COOL(CLEARS), CALM(SETS));
    DECIDED("remote masked, set before", remote, false, 2, CRIT(CLEARS), CALM(CLEARS));
    DECIDED("both masked, neither decided", both, false, 3, CALM(CLEARS), CRIT(HOLDS),
            WARM(HOLDS));
}

/* Queue on: what a reading above T_CRIT does hangs on the count, and that on the records
 * before it.  Counts are of the last records, in their order. */
static void soak_queue(void)
{
    second_device on = soak_start(0x01, 0, false, false);
    DECIDED("below, no fault", on, false, 1, COOL(0));
    DECIDED("below, a fault", on, false, 1, CRIT(0), CRIT(0), CRIT(0), COLD(0));
    DECIDED("three above", on, true, 3, CRIT(0), CRIT(0), CRIT(0));
    DECIDED("three faults, the last above", on, true, 3, WARM(0), WARM(0), CRIT(0));
    DECIDED("cleared twice, then 3", on, true, 3, COLD(0), COLD(0), CRIT(0));
    DECIDED("cleared, then 3", on, true, 3, COLD(0), CRIT(0), CRIT(0));
    DECIDED("cleared, held, then 3", on, true, 3, COLD(0), WARM(0), CRIT(0));
    DECIDED("a fault before what clears: 3", on, true, 3, WARM(0), COLD(0), CRIT(0));
    DECIDED("no fault before what clears: 2", on, false, 3, CALM(0), COLD(0), CRIT(0));
    DECIDED("below before what clears: 2", on, false, 3, COOL(0), COLD(0), CRIT(0));
    DECIDED("cleared at 0: 1", on, false, 2, COOL(0), CRIT(0));
    DECIDED("cleared at 0: 2", on, false, 3, COOL(0), CRIT(0), CRIT(0));
    DECIDED("cleared, then 0: 1", on, false, 3, COLD(0), CALM(0), CRIT(0));
    DECIDED("cleared, then 0: 2", on, false, 4, COLD(0), CALM(0), CRIT(0), CRIT(0));
    DECIDED("cleared, held twice", on, false, 3, COLD(0), WARM(0), WARM(0));
    DECIDED("the third is not above", on, false, 4, COOL(0), CRIT(0), CRIT(0), WARM(0));
    DECIDED("the third, then held", on, true, 4, CRIT(0), CRIT(0), CRIT(0), WARM(0));
    DECIDED("the third, then 0", on, true, 4, CRIT(0), CRIT(0), CRIT(0), CALM(0));
    DECIDED("third is above, fourth is not", on, true, 4, COLD(0), CRIT(0), CRIT(0), WARM(0));
    DECIDED("2, then held", on, false, 4, CALM(0), COLD(0), CRIT(0), CALM(0));
    DECIDED("3, then held", on, true, 4, WARM(0), COLD(0), CRIT(0), CALM(0));
    DECIDED("3, held at 0, then 1", on, true, 5, CRIT(0), CRIT(0), CRIT(0), CALM(0), CRIT(0));
    DECIDED("three in a row, none live", on, false, 5, COOL(0), CALM(0), CRIT(0), CRIT(0),
            WARM(0));
    DECIDED("local knows no queue", on, true, 1, COOL(SETS));
    DECIDED("remote at 3, local at 4", on, true, 4, COOL(CLEARS), CRIT(HOLDS), CRIT(HOLDS),
            CRIT(HOLDS));
    DECIDED("local at 2, remote at 3", on, true, 3, CRIT(0), CRIT(SETS), CRIT(HOLDS));
    DECIDED("three open", on, true, 3, { 6, 0, 0, 0 }, { 6, 0, 0, 0 }, { 6, 0, 0, 0 });
    DECIDED("open, no remote T_CRIT above it", soak_set(on, 10, 127), true, 3, { 6, 0, 0, 0 },
            COLD(0), { 5, 0, 127, 0x20 });
}

/* The same stretches with the queue off, where no count matters. */
static void soak_queue_off(void)
{
    second_device off = soak_start(0, 0, false, false);
    DECIDED("one above", off, true, 1, CRIT(0));
    DECIDED("cleared, then above", off, true, 1, COLD(0), CRIT(0));
    DECIDED("above, then held", off, true, 2, CALM(0), COLD(0), CRIT(0), CALM(0));
    DECIDED("above, then held at a fault", off, true, 2, COOL(0), CRIT(0), WARM(0));
    DECIDED("cleared, then held", off, false, 2, WARM(0), COLD(0), CALM(0));
}

/* What is a fault: outside any of three limits, in all eleven bits. */
static void soak_faults(void)
{
    second_device on = soak_start(0x01, 0, false, false);
    second_device fine = soak_set(on, 8, 0x20); /* remote high limit 105.125 */
    second_device wide = soak_set(soak_set(on, 4, 127), 5, 0x80);
    DECIDED("105.000 is none", on, false, 3, { 5, 0, 105, 0 }, COLD(0), CRIT(0));
    DECIDED("105.125 is one", on, true, 3, { 5, 0, 105, 0x20 }, COLD(0), CRIT(0));
    DECIDED("105.125 at its limit", fine, false, 3, { 5, 0, 105, 0x20 }, COLD(0), CRIT(0));
    DECIDED("105.250 above its limit", fine, true, 3, { 5, 0, 105, 0x40 }, COLD(0), CRIT(0));
    DECIDED("0.000 is none", on, false, 2, { 5, 0, 0, 0 }, CRIT(0));
    DECIDED("-0.125 is one, after none", on, false, 3, CALM(0), { 5, 0, 0xFF, 0xE0 }, CRIT(0));
    DECIDED("-0.125 is one, after one", on, true, 3, WARM(0), { 5, 0, 0xFF, 0xE0 }, CRIT(0));
    DECIDED("T_CRIT alone", wide, true, 3, CRIT(0), CRIT(0), CRIT(0));
    DECIDED("wide, cold is none", wide, false, 2, COLD(0), CRIT(0));
    DECIDED("wide, warm is none", wide, false, 4, COLD(0), WARM(0), WARM(0), CRIT(0));
}

/* A stretch with the queue on that is read to its start: the remote latch is set from a
 * given count of `least` on, and else kept, or clear if the stretch clears it. */
static void run_counts(const char *name, uint8_t least, bool clears, const uint8_t *records,
                       size_t count)
{
    for (uint8_t faults = 0; faults <= 3; faults++)
        for (unsigned latch = 0; latch <= 1; latch++) {
            bool set = faults >= least || (latch == 1 && !clears);
            run_soak(name, soak_start(0x01, faults, true, latch == 1), records, count,
                     (second_soaked){ 0, set, count });
        }
}
#define COUNTS(name, least, clears, ...)                                              \
    do {                                                                              \
        static const uint8_t records_[][4] = { __VA_ARGS__ };                         \
        run_counts(name, least, clears, records_[0],                                  \
                   sizeof records_ / sizeof *records_);                               \
    } while (0)

/* The fault count given with the device; 4 is never. */
static void soak_count_carried(void)
{
    COUNTS("one", 2, false, CRIT(0));
    COUNTS("two", 1, false, CRIT(0), CRIT(0));
    COUNTS("three", 0, false, CRIT(0), CRIT(0), CRIT(0));
    COUNTS("held, then one", 1, false, WARM(0), CRIT(0));
    COUNTS("one, then held", 2, false, CRIT(0), WARM(0));
    COUNTS("two, then held", 1, false, CRIT(0), CRIT(0), WARM(0));
    COUNTS("cleared, then one", 1, true, COLD(0), CRIT(0));
    COUNTS("cleared, then one, then held", 1, true, COLD(0), CRIT(0), CALM(0));
    COUNTS("none, then two", 4, false, CALM(0), CRIT(0), CRIT(0));
    COUNTS("none", 4, false, CALM(0));
    COUNTS("held at a fault", 4, false, WARM(0), WARM(0), WARM(0));
}

/* 22,000 times a count of 0, 1, 2, never 3: nothing is decided but at a first record that
 * clears, and the given state answers.  More records than sixteen bits count. */
static void soak_long(void)
{
    enum { TIMES = 22000, LONG = 3 * TIMES };
    static const uint8_t three[3][4] = { CALM(HOLDS), CRIT(HOLDS), CRIT(HOLDS) };
    static const uint8_t clears[4] = COOL(CLEARS), sets[4] = CRIT(SETS);
    static uint8_t records[LONG + 1][4];
    for (size_t i = 0; i < TIMES; i++)
        memcpy(&records[3 * i], three, sizeof three);
    for (unsigned start = 0; start < 4; start++) {
        bool local = start % 2 != 0, remote = start / 2 != 0;
        expect_soaked("long", soak_start(0x01, 3, local, remote), records[0], 4 * LONG,
                      (second_soaked){ 0, local || remote, LONG });
    }
    memcpy(records[0], clears, 4);
    expect_soaked("long, cleared at its start", soak_start(0x01, 3, true, true), records[0],
                  4 * LONG, (second_soaked){ 0, false, LONG });
    memcpy(records[LONG], sets, 4);
    expect_soaked("long, set at its end", soak_start(0, 0, false, false), records[0],
                  4 * (LONG + 1), (second_soaked){ 0, true, 1 });
}

/* An empty stretch answers from the given state, and reads nothing. */
static void soak_empty(void)
{
    static const uint8_t bad[4] = UNREAD;
    static const struct {
        uint8_t configuration;
        bool pulled[4]; /* neither latch, local, remote, both */
    } line[] = {
        { 0x00, { false, true, true, true } },  { 0x04, { false, false, true, true } },
        { 0x10, { false, true, false, true } }, { 0x14, { false, false, false, false } },
        { 0x81, { false, true, true, true } }
    };
    for (size_t i = 0; i < sizeof line / sizeof *line; i++)
        for (unsigned start = 0; start < 16; start++) {
            second_device device = soak_start(line[i].configuration, (uint8_t)(start / 4),
                                              start % 2 != 0, start / 2 % 2 != 0);
            second_soaked want = { 0, line[i].pulled[start % 4], 0 };
            expect_soaked("empty", device, NULL, 0, want);
            expect_soaked("empty, of other memory", device, bad, 0, want);
        }
}

/* At a record: every kind with operands that are good of kinds 01 to 09 and with bad ones,
 * and both kinds of conversion with every b and c. */
static void soak_records(void)
{
    second_device device = soak_start(0, 0, true, true);
    for (unsigned kind = 0; kind <= 255; kind++) {
        const uint8_t good[4] = { (uint8_t)kind, 0, 0, 0 };
        const uint8_t bad[4] = { (uint8_t)kind, 0xFF, 0xFF, 0xFF };
        bool conversion = kind == 5 || kind == 6;
        second_soaked want = { conversion ? 0 : 3, kind == 6, 1 };
        expect_soaked("kind", device, good, 4, want);
        want = (second_soaked){ conversion ? 4 : 3, false, 1 };
        expect_soaked("kind, operands bad", device, bad, 4, want);
    }
    for (unsigned byte = 0; byte <= 255; byte++) {
        const uint8_t sample[4] = { 5, 0xFF, 0xFF, (uint8_t)byte };
        const uint8_t open_b[4] = { 6, 0xFF, (uint8_t)byte, 0 };
        const uint8_t open_c[4] = { 6, 0xFF, 0, (uint8_t)byte };
        second_soaked refused_4 = { 4, false, 1 }, open = { 0, true, 1 };
        second_soaked clear = { 0, false, 1 };
        expect_soaked("05, c", device, sample, 4, byte % 32 == 0 ? clear : refused_4);
        expect_soaked("06, b", device, open_b, 4, byte == 0 ? open : refused_4);
        expect_soaked("06, c", device, open_c, 4, byte == 0 ? open : refused_4);
    }
}

/* The first from the end counts, `read` has it in, and what is not read is not judged. */
static void soak_first_bad(void)
{
    second_device off = soak_start(0, 0, false, false);
    second_device on = soak_start(0x01, 0, false, false);
    REFUSED("3 before 4, from the end", off, 3, 1, { 5, 0, 0, 1 }, UNREAD);
    REFUSED("4 before 3, from the end", off, 4, 1, UNREAD, { 5, 0, 0, 1 });
    REFUSED("08", off, 3, 1, COOL(CLEARS), { 8, 0, 0, 0 });
    REFUSED("09 after a record that holds", off, 3, 2, { 9, 0, 0, 0 }, CALM(HOLDS));
    REFUSED("a write", off, 3, 2, COOL(CLEARS), { 1, 0x4C, 9, 0 }, WARM(HOLDS));
    REFUSED("07 with a bad operand", off, 3, 2, { 7, 1, 0, 0 }, CALM(HOLDS));
    REFUSED("00", off, 3, 3, { 0, 0, 0, 0 }, CALM(HOLDS), CALM(HOLDS));
    REFUSED("FF", off, 3, 3, { 0xFF, 0, 0, 0 }, CALM(HOLDS), CALM(HOLDS));
    REFUSED("at the start", off, 4, 3, { 6, 0, 0, 1 }, CALM(HOLDS), CALM(HOLDS));
    REFUSED("pin sure, remote not", off, 3, 2, UNREAD, CALM(SETS));
    REFUSED("pin sure, local not", off, 4, 2, { 5, SETS, 111, 31 }, CRIT(HOLDS));
    REFUSED("a bad one would decide", off, 4, 2, { 5, CLEARS, 50, 8 }, CALM(HOLDS));
    REFUSED("cleared, count not known", on, 3, 3, UNREAD, COLD(0), CRIT(0));
    REFUSED("2 of 3 known", on, 4, 3, { 6, 0, 1, 0 }, CRIT(0), CRIT(0));
    SOAK("not read: one", off, false, 1, { 5, 0, 0, 1 }, COOL(CLEARS));
    SOAK("not read: many", off, true, 2, { 0xFF, 0xFF, 0xFF, 0xFF }, { 6, 0, 0, 9 }, UNREAD,
         COOL(SETS), CALM(HOLDS));
    SOAK("not read, queue off", off, true, 1, UNREAD, COLD(0), CRIT(0));
    SOAK("not read, queue on", on, true, 3, UNREAD, CRIT(0), CRIT(0), CRIT(0));
}

/* One code for these lengths and whatever the bytes are: `read` is 0, nothing pulled. */
static void soak_refused(const char *name, second_device device, uint8_t code)
{
    static const uint8_t good[8] = { 5, SETS, 111, 0, 5, SETS, 111, 0 };
    static const uint8_t bad[8] = { 0xFF, 0, 0, 0, 5, 0, 0, 1 };
    second_soaked want = { code, false, 0 };
    expect_soaked(name, device, NULL, 0, want);
    for (size_t length = 1; length <= sizeof good; length++) {
        expect_soaked(name, device, good, length, want);
        expect_soaked(name, device, bad, length, want);
    }
}

/* 8, then 10, then 4 for the length, then the records. */
static void soak_order(void)
{
    static const struct {
        int field, value;
    } out[] = { { POINTER, 0x15 }, { STATUS, 0x80 }, { LIVE, 0x80 }, { REMOTE, 1024 },
                { REMOTE, -1025 }, { FAULTS, 4 }, { FAULTS, 255 }, { LOW, 0x20 },
                { SETTING + 7, 0x10 }, { SETTING + 12, 0x20 }, { SETTING + 13, 0x08 } };
    static const uint8_t conversions[8] = { 5, 0, 0, 0, 5, 0, 0, 0 };
    static const uint8_t others[8] = { 5, 0, 0, 1, 7, 0, 0, 0 };
    static const uint8_t variants[] = { 0, 4, 255 };
    for (unsigned standby = 0; standby <= 0x40; standby += 0x40) {
        second_device start = soak_start((uint8_t)standby, 0, true, true), device;
        for (size_t i = 0; i < sizeof out / sizeof *out; i++) {
            device = start;
            set_field(&device, out[i].field, out[i].value);
            soak_refused("out of range", device, 8);
        }
        for (size_t i = 0; i < sizeof variants; i++) {
            device = start;
            device.variant = variants[i];
            soak_refused("variant", device, 8);
        }
        device = start;
        device.pending = true;
        soak_refused("pending", device, standby == 0 ? 8 : 10);
    }
    soak_refused("all zeros", (second_device){ 0 }, 8);
    soak_refused("configuration 42", soak_start(0x42, 0, true, true), 8);
    soak_refused("standby", soak_start(0x40, 0, true, true), 10);
    soak_refused("standby, all other bits", soak_start(0xD5, 3, true, true), 10);
    for (size_t length = 1; length < 8; length++) {
        if (length == 4)
            continue;
        second_soaked want = { 4, false, 0 };
        expect_soaked("length", soak_start(0, 0, true, true), conversions, length, want);
        expect_soaked("length before records", soak_start(0, 0, true, true), others, length, want);
    }
}

/* All stretches of up to five of the five remote readings, against P4 and P8 in the words of
 * this table: from each latch and count, the latch after the last `count` records. */
static bool latch_of(const uint8_t *pick, size_t count, bool queue, bool latch, unsigned faults)
{
    static const struct {
        bool above, below, fault;
    } reading[5] = { { true, false, true }, { false, false, true }, { false, false, false },
                     { false, true, false }, { false, true, true } };
    for (size_t i = 0; i < count; i++) {
        faults = !reading[pick[i]].fault ? 0 : faults == 3 ? 3 : faults + 1;
        if (reading[pick[i]].above && (!queue || faults == 3))
            latch = true;
        else if (reading[pick[i]].below)
            latch = false;
    }
    return latch;
}

/* How many records from the end force the latch; all if none do. */
static size_t forced_by(const uint8_t *pick, size_t count, bool queue)
{
    for (size_t n = 1; n < count; n++) {
        int set = 0;
        for (unsigned earlier = 0; earlier < 8; earlier++)
            set += latch_of(pick + count - n, n, queue, earlier % 2 != 0, earlier / 2);
        if (set == 0 || set == 8)
            return n;
    }
    return count;
}

static void soak_every_row(void)
{
    static const uint8_t reading[5][4] = { CRIT(0), WARM(0), CALM(0), COOL(0), COLD(0) };
    for (size_t count = 1, rows = 5; count <= 5; count++, rows *= 5)
        for (size_t row = 0; row < 2 * rows; row++) {
            uint8_t pick[5], records[5][4];
            bool queue = row % 2 != 0;
            for (size_t i = 0, rest = row / 2; i < count; i++, rest /= 5) {
                pick[i] = (uint8_t)(rest % 5);
                memcpy(records[i], reading[pick[i]], 4);
            }
            size_t read = forced_by(pick, count, queue);
            for (unsigned start = 0; start < 8; start++) {
                bool latch = start % 2 != 0;
                second_soaked want = { 0, latch_of(pick, count, queue, latch, start / 2), read };
                expect_soaked("every row", soak_start(queue, (uint8_t)(start / 2), true, latch),
                              records[0], 4 * count, want);
            }
        }
}

/* A random device in its ranges and in run mode, its remote limits often near T_CRIT. */
static second_device any_soak_device(void)
{
    static const uint8_t pointers[] = { 0, 1, 2, 9, 0x0F, 0x10, 0x21, 0xBF, 0xFF };
    second_device device;
    second_power_on(&device, (uint8_t)(1 + next(3)));
    device.pointer = pointers[next(sizeof pointers)];
    device.status = (uint8_t)next(128);
    device.live = (uint8_t)next(128);
    device.local = (uint8_t)next(256);
    device.remote = (int16_t)((int)next(2048) - 1024);
    device.faults = (uint8_t)next(4);
    device.local_latch = next(2) != 0;
    device.remote_latch = next(2) != 0;
    device.lowkept = next(2) != 0;
    device.low = device.lowkept ? (uint8_t)(32 * next(8)) : 0;
    uint8_t *set = device.settings;
    set[0] = (uint8_t)(next(256) & 0x94u) | (next(4) != 0);
    set[10] = (uint8_t)next(256);
    set[11] = (uint8_t)next(256);
    set[12] = (uint8_t)next(32);
    set[4] = (uint8_t)(next(4) ? set[10] - next(32) : next(256));
    set[5] = (uint8_t)(next(4) ? set[10] - next(48) : next(256));
    set[8] = (uint8_t)(32 * next(8));
    set[9] = (uint8_t)(32 * next(8));
    set[13] = (uint8_t)next(8);
    if (next(4) == 0) {
        set[6] = (uint8_t)(next(2) ? next(5) - 2 : next(256));
        set[7] = (uint8_t)(32 * next(8));
    }
    return device;
}

/* A temperature in eighths as a number of the scale. */
static int within_scale(int number)
{
    return number < -1024 ? -1024 : number > 1023 ? 1023 : number;
}

/* Signed, of a byte. */
static int signed_of(uint8_t byte)
{
    return byte < 128 ? byte : byte - 256;
}

/* A number that is mostly between the limit and the limit less hysteresis, ends included, at
 * times a little above or below. */
static int near_limit(int limit, int hysteresis, uint32_t beyond)
{
    switch (next(8)) {
    case 0:
    case 1:
        return limit + 1 + (int)next(beyond);
    case 2:
        return limit - hysteresis - 1 - (int)next(beyond);
    default:
        return limit - (int)next((uint32_t)hysteresis + 1);
    }
}

/* A valid 05 or 06 for the device, its readings mostly such that they hold. */
static void any_soak_record(const second_device *device, uint8_t record[4])
{
    const uint8_t *set = device->settings;
    int local = within_scale(8 * near_limit(signed_of(set[11]), set[12], 2)) / 8;
    int offset = signed_of(set[6]) * 8 + set[7] / 32;
    int remote = within_scale(near_limit(signed_of(set[10]) * 8, set[12] * 8, 24) - offset);
    bool open = next(16) == 0, anything_goes = next(32) == 0;
    record[0] = open ? 6 : 5;
    record[1] = anything_goes ? (uint8_t)next(256) : high_of(8 * local);
    record[2] = open ? 0 : anything_goes ? (uint8_t)next(256) : high_of(remote);
    record[3] = open ? 0 : low_of(remote);
}

/* Bytes that are no valid 05 or 06. */
static void spoil(uint8_t record[4])
{
    if (next(2) == 0)
        record[3] |= 1;
    else
        record[0] = (uint8_t)(next(2) ? 7 + next(249) : next(5));
}

/* Random stretches: as by trial, and where every record is valid the pin of the full run. */
static void soak_at_random(void)
{
    int deep = 0, to_start = 0, refused_there = 0, unjudged = 0, pulled = 0;
    seed = 1989;
    for (int round = 0; round < 20000; round++) {
        uint8_t records[SOAK_MOST][4] = { { 0 } };
        second_device device = any_soak_device();
        size_t count = next(SOAK_MOST + 1);
        bool spoilt = count > 0 && next(3) == 0;
        CHECK(second_device_in_range(&device));
        for (size_t i = 0; i < count; i++)
            any_soak_record(&device, records[i]);
        if (spoilt)
            spoil(records[next((uint32_t)count)]);
        second_soaked got = second_soak(device, count > 0 ? records[0] : NULL, 4 * count);
        CHECK(same_soaked(got, soak_by_trial(device, records[0], count)));
        if (!spoilt)
            CHECK(got.code == 0 &&
                  got.pulled == ((pins_of(run_records(device, records[0], count)) & 2) != 0));
        deep += got.code == 0 && got.read > 4 && got.read < count;
        to_start += got.code == 0 && got.read == count;
        refused_there += got.code != 0;
        unjudged += spoilt && got.code == 0;
        pulled += got.pulled;
    }
    CHECK(deep > 1000 && to_start > 1000 && refused_there > 500 && unjudged > 500);
    CHECK(pulled > 2000 && pulled < 18000);
}

/* Document 01's scripts, requests a and b. */
static void rulings_and_readings(void)
{
    scripts();
    low_byte_scripts();
    kept_after_records();
    held_sum_ends();
    held_sum_parts();
    held_sum_beside_pins();
    held_sum_not_shown();
    held_sum_of_one_record();
    held_sum_and_state();
    held_sum_in_reader();
    held_sum_in_listing();
    every_sum();
    some_offsets();
    records();
    refusals();
    low_byte_ranges();
    low_byte_in_reader();
}

/* Request c. */
static void two_devices(void)
{
    bus_places();
    bus_lines();
    bus_alert_response();
    bus_alert_response_modes();
    bus_own_state();
    bus_power_on();
    bus_other_addresses();
    bus_leaves_other();
    header_counts();
    header_variants();
    header_writers();
    kinds_by_count();
    operands_of_second();
    second_kinds_in_step();
    second_kinds_in_reader();
    bus_stages();
    stage_counts();
    stage_variants();
    variant_bytes();
    device_ranges();
    bus_listing();
}

/* Cuts, rooms and chance. */
static void over_captures(void)
{
    cuts();
    every_cut_and_room();
    definition();
    bus_as_devices();
    pairs();
    held_over_events();
    anything();
}

/* Request e. */
static void accounts(void)
{
    account_lines();
    account_settings();
    account_queue();
    account_events();
    account_pairs();
    account_refusals();
    account_captures();
}

/* Request f. */
static void soaks(void)
{
    soak_channels();
    soak_edges();
    soak_readings();
    soak_masks();
    soak_queue();
    soak_queue_off();
    soak_faults();
    soak_count_carried();
    soak_long();
    soak_empty();
    soak_records();
    soak_first_bad();
    soak_order();
    soak_every_row();
    soak_at_random();
}

int main(void)
{
    rulings_and_readings();
    two_devices();
    over_captures();
    accounts();
    soaks();
    puts(wrong == 0 ? "all right" : "WRONG");
    return wrong != 0;
}
