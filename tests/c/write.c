/*
 * lm89_write_header, lm89_write_header_2 and lm89_write_event: every kind's operands on both sides, the order of codes, and what is left
 * untouched.
 */
#include <string.h>

#include "check.h"
#include "lm89.h"

#define UNTOUCHED 0xA7
#define MOST 12

static bool all(const uint8_t *bytes, size_t length, uint8_t value)
{
    for (size_t i = 0; i < length; i++) {
        if (bytes[i] != value) {
            return false;
        }
    }
    return true;
}

/* The call on this room gives the code, and writes these bytes or, on a refusal, none; nothing behind them is touched. */
static bool header_is(uint8_t variant, uint32_t count, size_t room, uint8_t code, const uint8_t *bytes)
{
    uint8_t written[MOST];
    size_t length = code == LM89_CODE_DONE ? LM89_HEADER_BYTES : 0;
    memset(written, UNTOUCHED, sizeof written);
    return lm89_write_header(variant, count, written, room) == code && memcmp(written, bytes, length) == 0
        && all(written + length, sizeof written - length, UNTOUCHED);
}

static bool header_2_is(uint8_t first, uint8_t second, uint32_t count, size_t room, uint8_t code, const uint8_t *bytes)
{
    uint8_t written[MOST];
    size_t length = code == LM89_CODE_DONE ? LM89_HEADER_2_BYTES : 0;
    memset(written, UNTOUCHED, sizeof written);
    return lm89_write_header_2(first, second, count, written, room) == code && memcmp(written, bytes, length) == 0
        && all(written + length, sizeof written - length, UNTOUCHED);
}

static bool event_is(const uint8_t *event, size_t room, uint8_t code)
{
    uint8_t written[MOST];
    size_t length = code == LM89_CODE_DONE ? LM89_RECORD_BYTES : 0;
    memset(written, UNTOUCHED, sizeof written);
    return lm89_write_event(event[0], event[1], event[2], event[3], written, room) == code && memcmp(written, event, length) == 0
        && all(written + length, sizeof written - length, UNTOUCHED);
}

static bool is_part(unsigned variant)
{
    return variant == LM89_VARIANT_LM89C || variant == LM89_VARIANT_LM89_1C || variant == LM89_VARIANT_LM89_1D;
}

static void test_header(void)
{
    static const uint32_t counts[] = {0, 1, 0xFF, 0x100, 0x01020304, 0x80000000, UINT32_MAX};
    for (unsigned variant = 0; variant < 256; variant++) {
        bool known = is_part(variant);
        for (size_t i = 0; i < sizeof counts / sizeof counts[0]; i++) {
            uint32_t n = counts[i];
            const uint8_t bytes[LM89_HEADER_BYTES] = {
                1, (uint8_t)variant, (uint8_t)(n >> 24), (uint8_t)(n >> 16), (uint8_t)(n >> 8), (uint8_t)n,
            };
            for (size_t room = 0; room <= MOST; room++) {
                uint8_t fits = room < LM89_HEADER_BYTES ? LM89_CODE_NO_ROOM : LM89_CODE_DONE;
                CHECK(header_is((uint8_t)variant, n, room, known ? fits : LM89_CODE_VARIANT, bytes));
            }
        }
    }
    CHECK(lm89_write_header(LM89_VARIANT_LM89C, 0, NULL, 0) == LM89_CODE_NO_ROOM);
    CHECK(lm89_write_header(0, 0, NULL, 0) == LM89_CODE_VARIANT);
}

/* Request c: 2 for either variant, then 9 where both have one address, then 7 in fewer than seven bytes. */
static uint8_t header_2_code(unsigned first, unsigned second, size_t room)
{
    if (!is_part(first) || !is_part(second)) {
        return LM89_CODE_VARIANT;
    }
    if ((first == LM89_VARIANT_LM89C) == (second == LM89_VARIANT_LM89C)) {
        return LM89_CODE_ADDRESS;
    }
    return room < LM89_HEADER_2_BYTES ? LM89_CODE_NO_ROOM : LM89_CODE_DONE;
}

static void test_header_2(void)
{
    static const uint32_t counts[] = {0, 0x01020304, UINT32_MAX};
    for (unsigned variants = 0; variants < 65536; variants++) {
        uint8_t first = (uint8_t)(variants / 256);
        uint8_t second = (uint8_t)(variants % 256);
        for (size_t i = 0; i < sizeof counts / sizeof counts[0]; i++) {
            uint32_t n = counts[i];
            const uint8_t bytes[LM89_HEADER_2_BYTES] = {
                2, first, second, (uint8_t)(n >> 24), (uint8_t)(n >> 16), (uint8_t)(n >> 8), (uint8_t)n,
            };
            for (size_t room = 0; room <= MOST; room++) {
                CHECK(header_2_is(first, second, n, room, header_2_code(first, second, room), bytes));
            }
        }
        CHECK(lm89_write_header_2(first, second, 0, NULL, 0) == header_2_code(first, second, 0));
    }
}

/* The table above is not wrong in the same way as the library: some of its rows, written out. */
static void test_header_2_rows(void)
{
    static const uint8_t bytes[LM89_HEADER_2_BYTES] = {2, LM89_VARIANT_LM89_1D, LM89_VARIANT_LM89C, 0, 0, 1, 2};
    CHECK(header_2_is(LM89_VARIANT_LM89_1D, LM89_VARIANT_LM89C, 258, 6, LM89_CODE_NO_ROOM, bytes));
    CHECK(header_2_is(LM89_VARIANT_LM89_1D, LM89_VARIANT_LM89C, 258, 7, LM89_CODE_DONE, bytes));
    CHECK(header_2_is(LM89_VARIANT_LM89_1D, LM89_VARIANT_LM89C, 258, 8, LM89_CODE_DONE, bytes));
    CHECK(header_2_is(LM89_VARIANT_LM89_1C, LM89_VARIANT_LM89_1D, 258, 0, LM89_CODE_ADDRESS, bytes));
    CHECK(header_2_is(LM89_VARIANT_LM89C, LM89_VARIANT_LM89C, 258, 7, LM89_CODE_ADDRESS, bytes));
    CHECK(header_2_is(LM89_VARIANT_LM89C, 4, 258, 0, LM89_CODE_VARIANT, bytes));
    CHECK(header_2_is(0, 0, 258, 7, LM89_CODE_VARIANT, bytes));
    CHECK(lm89_write_header_2(LM89_VARIANT_LM89C, LM89_VARIANT_LM89_1C, 0, NULL, 0) == LM89_CODE_NO_ROOM);
    CHECK(lm89_write_header_2(LM89_VARIANT_LM89_1C, LM89_VARIANT_LM89_1C, 0, NULL, 0) == LM89_CODE_ADDRESS);
    CHECK(lm89_write_header_2(LM89_VARIANT_LM89_1C, 4, 0, NULL, 0) == LM89_CODE_VARIANT);
}

/* By the table of kinds, as under a device count of 2. */
static uint8_t judged(const uint8_t *event)
{
    bool address = event[1] <= 0x7F;
    bool b0 = event[2] == 0;
    bool c0 = event[3] == 0;
    bool fits = false;
    switch (event[0]) {
    case LM89_KIND_WRITE:
        fits = address;
        break;
    case LM89_KIND_READ:
    case LM89_KIND_SEND:
        fits = address && c0;
        break;
    case LM89_KIND_RECEIVE:
        fits = address && b0 && c0;
        break;
    case LM89_KIND_CONVERSION:
    case LM89_KIND_CONVERSION_2:
        fits = event[3] % 32 == 0;
        break;
    case LM89_KIND_OPEN:
    case LM89_KIND_OPEN_2:
        fits = b0 && c0;
        break;
    case LM89_KIND_POWER_ON:
        fits = event[1] == 0 && b0 && c0;
        break;
    default:
        return LM89_CODE_KIND;
    }
    return fits ? LM89_CODE_DONE : LM89_CODE_OPERAND;
}

static void check_event(const uint8_t *event)
{
    uint8_t code = judged(event);
    bool fits = code == LM89_CODE_DONE;
    CHECK(event_is(event, MOST, code));
    CHECK(event_is(event, LM89_RECORD_BYTES, code));
    CHECK(event_is(event, LM89_RECORD_BYTES - 1, fits ? LM89_CODE_NO_ROOM : code));
    CHECK(event_is(event, 0, fits ? LM89_CODE_NO_ROOM : code));
    CHECK(lm89_write_event(event[0], event[1], event[2], event[3], NULL, 0) == (fits ? LM89_CODE_NO_ROOM : code));
}

/* Every kind, and each operand at every value while the two others are on both sides of their limits. */
static void test_events(void)
{
    static const uint8_t edges[] = {0x00, 0x01, 0x1F, 0x20, 0x7F, 0x80, 0xE0, 0xFF};
    for (unsigned kind = 0; kind < 256; kind++) {
        bool known = LM89_KIND_WRITE <= kind && kind <= LM89_KIND_OPEN_2;
        for (unsigned value = 0; value < (known ? 256u : 2u); value++) {
            for (size_t i = 0; i < sizeof edges * sizeof edges; i++) {
                uint8_t x = (uint8_t)value;
                uint8_t y = edges[i / sizeof edges];
                uint8_t z = edges[i % sizeof edges];
                check_event((const uint8_t[]){(uint8_t)kind, x, y, z});
                check_event((const uint8_t[]){(uint8_t)kind, y, x, z});
                check_event((const uint8_t[]){(uint8_t)kind, y, z, x});
            }
        }
    }
}

/* A capture that the calls write is accepted, and its records are the events. */
static void test_read_back(void)
{
    static const uint8_t events[][LM89_RECORD_BYTES] = {
        {LM89_KIND_WRITE, LM89_ADDRESS_LM89_1D, LM89_WRITE_LOCAL_HIGH_LIMIT, 0x50},
        {LM89_KIND_READ, LM89_ADDRESS_LM89_1D, LM89_READ_LOCAL_HIGH_LIMIT, 0x00},
        {LM89_KIND_SEND, LM89_ADDRESS_LM89_1D, LM89_READ_STATUS, 0x00},
        {LM89_KIND_CONVERSION, 0x51, 0x19, 0xE0},
        {LM89_KIND_RECEIVE, LM89_ADDRESS_LM89_1D, 0x00, 0x00},
        {LM89_KIND_OPEN, 0x19, 0x00, 0x00},
        {LM89_KIND_RECEIVE, LM89_ADDRESS_ALERT_RESPONSE, 0x00, 0x00},
        {LM89_KIND_POWER_ON, 0x00, 0x00, 0x00},
    };
    enum { EVENTS = sizeof events / sizeof events[0] };
    uint8_t capture[LM89_HEADER_BYTES + LM89_RECORD_BYTES * EVENTS];
    uint8_t answers[LM89_ANSWER_BYTES * EVENTS];
    uint8_t *end = capture + LM89_HEADER_BYTES;
    lm89_device device = lm89_power_on(LM89_VARIANT_LM89_1D);
    CHECK(lm89_write_header(LM89_VARIANT_LM89_1D, EVENTS, capture, sizeof capture) == LM89_CODE_DONE);
    for (size_t i = 0; i < EVENTS; i++) {
        const uint8_t *q = events[i];
        CHECK(lm89_write_event(q[0], q[1], q[2], q[3], end, (size_t)(capture + sizeof capture - end)) == LM89_CODE_DONE);
        end += LM89_RECORD_BYTES;
    }
    CHECK(lm89_run(capture, sizeof capture, answers, sizeof answers) == 16 * sizeof answers + LM89_CODE_DONE);
    for (size_t i = 0; i < EVENTS; i++) {
        const uint8_t *q = events[i];
        lm89_answer answer = lm89_step(&device, q[0], q[1], q[2], q[3]);
        CHECK(answer.code == LM89_CODE_DONE);
        CHECK(answer.first == answers[LM89_ANSWER_BYTES * i] && answer.second == answers[LM89_ANSWER_BYTES * i + 1]);
    }
}

/* Request c: so is one of two devices, in which 08 and 09 are conversions of the second; in one of one device they are refused. */
static void test_read_back_of_two(void)
{
    static const uint8_t events[][LM89_RECORD_BYTES] = {
        {LM89_KIND_CONVERSION_2, 0x47, 0x19, 0xE0},
        {LM89_KIND_READ, LM89_ADDRESS_LM89_1C, LM89_READ_LOCAL, 0x00},
        {LM89_KIND_READ, LM89_ADDRESS_LM89C, LM89_READ_LOCAL, 0x00},
        {LM89_KIND_OPEN_2, 0x14, 0x00, 0x00},
        {LM89_KIND_READ, LM89_ADDRESS_LM89_1C, LM89_READ_REMOTE, 0x00},
        {LM89_KIND_READ, LM89_ADDRESS_LM89C, LM89_READ_REMOTE, 0x00},
    };
    static const uint8_t expected[] = {0x09, 0x00, 0x05, 0x47, 0x05, 0x00, 0x0B, 0x00, 0x07, 0x7F, 0x07, 0x00};
    enum { EVENTS = sizeof events / sizeof events[0] };
    uint8_t capture[LM89_HEADER_2_BYTES + LM89_RECORD_BYTES * EVENTS];
    uint8_t answers[LM89_ANSWER_BYTES * EVENTS];
    uint8_t *end = capture + LM89_HEADER_2_BYTES;
    CHECK(lm89_write_header_2(LM89_VARIANT_LM89C, LM89_VARIANT_LM89_1C, EVENTS, capture, sizeof capture) == LM89_CODE_DONE);
    for (size_t i = 0; i < EVENTS; i++) {
        const uint8_t *q = events[i];
        CHECK(lm89_write_event(q[0], q[1], q[2], q[3], end, (size_t)(capture + sizeof capture - end)) == LM89_CODE_DONE);
        end += LM89_RECORD_BYTES;
    }
    CHECK(lm89_run(capture, sizeof capture, answers, sizeof answers) == LM89_RUN_UNIT * sizeof answers + LM89_CODE_DONE);
    CHECK(memcmp(answers, expected, sizeof expected) == 0);
    uint8_t *alone = capture + LM89_HEADER_2_BYTES - LM89_HEADER_BYTES;
    CHECK(lm89_write_header(LM89_VARIANT_LM89C, EVENTS, alone, LM89_HEADER_BYTES) == LM89_CODE_DONE);
    CHECK(lm89_run(alone, sizeof capture - 1, answers, sizeof answers) == LM89_CODE_KIND);
}

int main(void)
{
    test_header();
    test_header_2();
    test_header_2_rows();
    test_events();
    test_read_back();
    test_read_back_of_two();
    return 0;
}
