/*
 * lm89_run, on one device and on two: empty slices, short room, prefixes, refusals, a pair of reads, two devices that alert, and a long capture
 * against the step.
 */
#include <string.h>

#include "check.h"
#include "lm89.h"

#define HEADER LM89_HEADER_BYTES
#define UNTOUCHED 0xA7

/* One device, two records: a write of the local high limit, and a read of it. */
static const uint8_t one[] = {
    0x01, LM89_VARIANT_LM89_1C, 0x00, 0x00, 0x00, 0x02,
    LM89_KIND_WRITE, LM89_ADDRESS_LM89_1C, LM89_WRITE_LOCAL_HIGH_LIMIT, 0x50,
    LM89_KIND_READ, LM89_ADDRESS_LM89_1C, LM89_READ_LOCAL_HIGH_LIMIT, 0x00,
};

static const uint8_t one_answers[] = {0x04, 0x00, 0x04, 0x50};

/* Request c: both are above their remote high limit of 70; the one at 4Ch, second in the header, answers first. */
static const uint8_t both[] = {
    0x02, LM89_VARIANT_LM89_1D, LM89_VARIANT_LM89C, 0x00, 0x00, 0x00, 0x05,
    LM89_KIND_CONVERSION, 0x19, 0x46, 0x20,
    LM89_KIND_CONVERSION_2, 0x19, 0x46, 0x20,
    LM89_KIND_RECEIVE, LM89_ADDRESS_ALERT_RESPONSE, 0x00, 0x00,
    LM89_KIND_RECEIVE, LM89_ADDRESS_ALERT_RESPONSE, 0x00, 0x00,
    LM89_KIND_OPEN_2, 0x19, 0x00, 0x00,
};

static const uint8_t both_answers[] = {0x09, 0x00, 0x09, 0x00, 0x05, 0x99, 0x04, 0x9B, 0x0A, 0x00};

static bool all(const uint8_t *bytes, size_t length, uint8_t value)
{
    for (size_t i = 0; i < length; i++) {
        if (bytes[i] != value) {
            return false;
        }
    }
    return true;
}

#define MOST 16

/* The capture in the given room writes this much of its answers, and not a byte behind, and ends with this code. */
static bool gives(const uint8_t *capture, size_t length, const uint8_t *expected, size_t room, size_t written, unsigned code)
{
    uint8_t answers[MOST];
    memset(answers, UNTOUCHED, sizeof answers);
    return lm89_run(capture, length, answers, room) == 16 * written + code
        && memcmp(answers, expected, written) == 0
        && all(answers + written, sizeof answers - written, UNTOUCHED);
}

static void test_empty(void)
{
    uint8_t answers[4] = {UNTOUCHED, UNTOUCHED, UNTOUCHED, UNTOUCHED};
    CHECK(lm89_run(NULL, 0, NULL, 0) == LM89_CODE_CUT_SHORT);
    CHECK(lm89_run(NULL, 0, answers, sizeof answers) == LM89_CODE_CUT_SHORT);
    CHECK(all(answers, sizeof answers, UNTOUCHED));
    CHECK(lm89_run(one, sizeof one, NULL, 0) == LM89_CODE_NO_ROOM);
    CHECK(lm89_run(one, HEADER, NULL, 0) == LM89_CODE_CUT_SHORT);
    CHECK(lm89_run(both, sizeof both, NULL, 0) == LM89_CODE_NO_ROOM);
    CHECK(lm89_run(both, LM89_HEADER_2_BYTES, NULL, 0) == LM89_CODE_CUT_SHORT);
}

/* In every room, also one that ends within a pair. */
static void test_room(const uint8_t *capture, size_t length, const uint8_t *expected, size_t answered)
{
    for (size_t room = 0; room <= MOST; room++) {
        size_t written = room < answered ? room / 2 * 2 : answered;
        CHECK(gives(capture, length, expected, room, written, room < answered ? LM89_CODE_NO_ROOM : LM89_CODE_DONE));
    }
}

static void test_prefixes(const uint8_t *capture, size_t capture_length, const uint8_t *expected, size_t header)
{
    for (size_t length = 0; length < capture_length; length++) {
        size_t written = length < header ? 0 : 2 * ((length - header) / 4);
        CHECK(gives(capture, length, expected, MOST, written, LM89_CODE_CUT_SHORT));
    }
}

/* The capture of one device with one byte changed. */
static bool changed(size_t at, uint8_t byte, size_t room, size_t written, unsigned code)
{
    uint8_t capture[sizeof one];
    memcpy(capture, one, sizeof one);
    capture[at] = byte;
    return gives(capture, sizeof capture, one_answers, room, written, code);
}

static void test_codes(void)
{
    CHECK(changed(0, 0, 16, 0, LM89_CODE_DEVICE_COUNT));
    CHECK(changed(0, 3, 16, 0, LM89_CODE_DEVICE_COUNT));
    CHECK(changed(0, 255, 16, 0, LM89_CODE_DEVICE_COUNT));
    CHECK(changed(0, 2, 16, 0, LM89_CODE_VARIANT));
    CHECK(changed(1, 0, 16, 0, LM89_CODE_VARIANT));
    CHECK(changed(1, 4, 16, 0, LM89_CODE_VARIANT));
    CHECK(changed(5, 0, 16, 0, LM89_CODE_PAST_END));
    CHECK(changed(5, 1, 16, 2, LM89_CODE_PAST_END));
    CHECK(changed(5, 3, 16, 4, LM89_CODE_CUT_SHORT));
    CHECK(changed(2, 1, 16, 4, LM89_CODE_CUT_SHORT));
    CHECK(changed(HEADER, 8, 0, 0, LM89_CODE_KIND));
    CHECK(changed(HEADER + 4, 8, 3, 2, LM89_CODE_KIND));
    CHECK(changed(HEADER + 4, 9, 3, 2, LM89_CODE_KIND));
    CHECK(changed(HEADER + 1, 0x80, 0, 0, LM89_CODE_OPERAND));
    CHECK(changed(HEADER + 4, 0, 3, 2, LM89_CODE_KIND));
    CHECK(changed(HEADER + 7, 1, 3, 2, LM89_CODE_OPERAND));
}

/* The capture of two devices with one byte changed. */
static bool changed_of_two(size_t at, uint8_t byte, size_t room, size_t written, unsigned code)
{
    uint8_t capture[sizeof both];
    memcpy(capture, both, sizeof both);
    capture[at] = byte;
    return gives(capture, sizeof capture, both_answers, room, written, code);
}

/* Request c: 2 before 9; 3, 4 and 7 at records of the second device. */
static void test_codes_of_two(void)
{
    const size_t header = LM89_HEADER_2_BYTES;
    CHECK(changed_of_two(0, 0, 16, 0, LM89_CODE_DEVICE_COUNT));
    CHECK(changed_of_two(0, 3, 16, 0, LM89_CODE_DEVICE_COUNT));
    CHECK(changed_of_two(1, 0, 16, 0, LM89_CODE_VARIANT));
    CHECK(changed_of_two(1, 4, 16, 0, LM89_CODE_VARIANT));
    CHECK(changed_of_two(1, 1, 16, 0, LM89_CODE_ADDRESS));
    CHECK(changed_of_two(1, 2, 16, 10, LM89_CODE_DONE));
    CHECK(changed_of_two(2, 0, 16, 0, LM89_CODE_VARIANT));
    CHECK(changed_of_two(2, 4, 16, 0, LM89_CODE_VARIANT));
    CHECK(changed_of_two(2, 2, 16, 0, LM89_CODE_ADDRESS));
    CHECK(changed_of_two(2, 3, 16, 0, LM89_CODE_ADDRESS));
    CHECK(changed_of_two(6, 0, 16, 0, LM89_CODE_PAST_END));
    CHECK(changed_of_two(6, 4, 16, 8, LM89_CODE_PAST_END));
    CHECK(changed_of_two(6, 6, 16, 10, LM89_CODE_CUT_SHORT));
    CHECK(changed_of_two(header, 10, 0, 0, LM89_CODE_KIND));
    CHECK(changed_of_two(header + 4, 0, 3, 2, LM89_CODE_KIND));
    CHECK(changed_of_two(header + 7, 0x1F, 3, 2, LM89_CODE_OPERAND));
    CHECK(changed_of_two(header + 7, 0x40, 3, 2, LM89_CODE_NO_ROOM));
    CHECK(changed_of_two(header + 18, 1, 8, 8, LM89_CODE_OPERAND));
    CHECK(changed_of_two(header + 19, 1, 8, 8, LM89_CODE_OPERAND));
}

/* Request a: 49.875 degrees, its high byte read, then 50.000: register 10 gives the byte of 49.875, then the latest. */
static void test_pair(void)
{
    static const uint8_t capture[] = {
        0x01, LM89_VARIANT_LM89C, 0x00, 0x00, 0x00, 0x05,
        LM89_KIND_CONVERSION, 0x19, 0x31, 0xE0,
        LM89_KIND_READ, LM89_ADDRESS_LM89C, LM89_READ_REMOTE, 0x00,
        LM89_KIND_CONVERSION, 0x19, 0x32, 0x00,
        LM89_KIND_READ, LM89_ADDRESS_LM89C, LM89_READ_REMOTE_LOW_BYTE, 0x00,
        LM89_KIND_READ, LM89_ADDRESS_LM89C, LM89_READ_REMOTE_LOW_BYTE, 0x00,
    };
    static const uint8_t expected[] = {
        LM89_ANSWER_TAKEN, 0x00, LM89_ANSWER_ACKNOWLEDGED, 0x31, LM89_ANSWER_TAKEN, 0x00,
        LM89_ANSWER_ACKNOWLEDGED, 0xE0, LM89_ANSWER_ACKNOWLEDGED, 0x00,
    };
    uint8_t answers[sizeof expected];
    CHECK(lm89_run(capture, sizeof capture, answers, sizeof answers) == LM89_RUN_UNIT * sizeof answers + LM89_CODE_DONE);
    CHECK(memcmp(answers, expected, sizeof expected) == 0);
}

/* A fixed row of numbers (xorshift). */
static uint32_t next(uint32_t *seed)
{
    *seed ^= *seed << 13;
    *seed ^= *seed >> 17;
    *seed ^= *seed << 5;
    return *seed;
}

static uint8_t some_address(uint32_t n)
{
    static const uint8_t addresses[] = {
        LM89_ADDRESS_LM89C, LM89_ADDRESS_LM89C, LM89_ADDRESS_LM89C, LM89_ADDRESS_LM89C,
        LM89_ADDRESS_LM89C, LM89_ADDRESS_LM89C, LM89_ADDRESS_LM89_1C, LM89_ADDRESS_ALERT_RESPONSE,
    };
    return addresses[n % sizeof addresses];
}

static uint8_t some_register(uint32_t n)
{
    static const uint8_t registers[] = {
        0x00, 0x01, 0x02, 0x02, 0x03, 0x04, 0x05, 0x06, 0x07, 0x08, 0x09, 0x09, 0x0A, 0x0B, 0x0C, 0x0D,
        0x0E, 0x0F, 0x0F, 0x10, 0x11, 0x12, 0x13, 0x14, 0x19, 0x20, 0x21, 0xBF, 0xBF, 0xFE, 0xFF, 0x30,
    };
    return registers[n % sizeof registers];
}

static void some_record(uint32_t *seed, uint8_t *record)
{
    static const uint8_t kinds[] = {
        LM89_KIND_WRITE, LM89_KIND_WRITE, LM89_KIND_READ, LM89_KIND_READ, LM89_KIND_SEND, LM89_KIND_RECEIVE,
        LM89_KIND_RECEIVE, LM89_KIND_CONVERSION, LM89_KIND_CONVERSION, LM89_KIND_CONVERSION, LM89_KIND_OPEN,
    };
    uint32_t n = next(seed);
    bool restart = n % 256 == 0;
    uint8_t kind = restart ? LM89_KIND_POWER_ON : kinds[(n >> 8) % sizeof kinds];
    bool converts = kind == LM89_KIND_CONVERSION || kind == LM89_KIND_OPEN;
    bool has_register = kind == LM89_KIND_WRITE || kind == LM89_KIND_READ || kind == LM89_KIND_SEND;
    uint32_t m = next(seed);
    memset(record, 0, 4);
    record[0] = kind;
    if (!restart) {
        record[1] = converts ? (uint8_t)m : some_address(m);
    }
    if (has_register) {
        record[2] = some_register(m >> 8);
    }
    if (kind == LM89_KIND_WRITE) {
        record[3] = (uint8_t)(m >> 16);
    }
    if (kind == LM89_KIND_CONVERSION) {
        record[2] = (uint8_t)(m >> 8);
        record[3] = (uint8_t)(m >> 16 & 0xE0);
    }
}

#define LONG_RECORDS ((size_t)1 << 20)
#define LONG_CAPTURE (HEADER + 4 * LONG_RECORDS)
#define LONG_ANSWERS (2 * LONG_RECORDS)

static void fill(uint8_t *capture)
{
    static const uint8_t header[HEADER] = {0x01, LM89_VARIANT_LM89C, 0x00, 0x10, 0x00, 0x00};
    uint32_t seed = 0x4C4D3839;
    memcpy(capture, header, HEADER);
    for (size_t i = 0; i < LONG_RECORDS; i++) {
        some_record(&seed, capture + HEADER + 4 * i);
    }
}

static void step_all(const uint8_t *capture, uint8_t *answers)
{
    lm89_device device = lm89_power_on(LM89_VARIANT_LM89C);
    for (size_t i = 0; i < LONG_RECORDS; i++) {
        const uint8_t *q = capture + HEADER + 4 * i;
        lm89_answer answer = lm89_step(&device, q[0], q[1], q[2], q[3]);
        CHECK(answer.code == LM89_CODE_DONE);
        answers[2 * i] = answer.first;
        answers[2 * i + 1] = answer.second;
    }
}

static void test_long(void)
{
    uint8_t *capture = malloc(LONG_CAPTURE);
    uint8_t *answers = malloc(LONG_ANSWERS);
    uint8_t *stepped = malloc(LONG_ANSWERS);
    CHECK(capture != NULL && answers != NULL && stepped != NULL);
    fill(capture);
    step_all(capture, stepped);
    CHECK(lm89_run(capture, LONG_CAPTURE, answers, LONG_ANSWERS) == 16 * LONG_ANSWERS + LM89_CODE_DONE);
    CHECK(memcmp(answers, stepped, LONG_ANSWERS) == 0);

    capture[HEADER + 4 * (LONG_RECORDS / 2)] = 0;
    memset(answers, UNTOUCHED, LONG_ANSWERS);
    CHECK(lm89_run(capture, LONG_CAPTURE, answers, LONG_ANSWERS) == 16 * LONG_RECORDS + LM89_CODE_KIND);
    CHECK(memcmp(answers, stepped, LONG_RECORDS) == 0);
    CHECK(all(answers + LONG_RECORDS, LONG_RECORDS, UNTOUCHED));
    free(capture);
    free(answers);
    free(stepped);
}

int main(void)
{
    test_empty();
    test_room(one, sizeof one, one_answers, sizeof one_answers);
    test_room(both, sizeof both, both_answers, sizeof both_answers);
    test_prefixes(one, sizeof one, one_answers, HEADER);
    test_prefixes(both, sizeof both, both_answers, LM89_HEADER_2_BYTES);
    test_codes();
    test_codes_of_two();
    test_pair();
    test_long();
    return 0;
}
