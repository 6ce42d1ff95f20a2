/*
 * Nanoseconds a record: lm89_run against the second program's run, on the same capture in the same process, best of five; on captures of one
 * device, and of two. 'speed RECORDS FILE' writes a mixed capture of one device with so many records instead.
 */
#define _POSIX_C_SOURCE 199309L
#include <inttypes.h>
#include <stdbool.h>
#include <stdio.h>
#include <stdlib.h>
#include <string.h>

#include "lm89.h"
#include "second.h"
#include "timing.h"

#define RECORDS 16000000u
#define ROUNDS 5

typedef uint64_t runner(const uint8_t *, size_t, uint8_t *, size_t);

static const uint8_t readable[] = {0x00, 0x01, 0x02, 0x03, 0x04, 0x05, 0x06, 0x07, 0x08, 0x10,
                                   0x11, 0x12, 0x13, 0x14, 0x19, 0x20, 0x21, 0xBF, 0xFE, 0xFF};
static const uint8_t writable[] = {0x09, 0x0A, 0x0B, 0x0C, 0x0D, 0x0E, 0x0F, 0x11,
                                   0x12, 0x13, 0x14, 0x19, 0x20, 0x21, 0xBF};

static void conversion(uint8_t *p, bool second)
{
    p[0] = second ? LM89_KIND_CONVERSION_2 : LM89_KIND_CONVERSION;
    p[1] = number(256);
    p[2] = number(256);
    p[3] = number(256) & 0xE0;
}

static void mixed(uint8_t *p, bool second)
{
    uint8_t address = second ? LM89_ADDRESS_LM89_1C : LM89_ADDRESS_LM89C;
    memset(p, 0, 4);
    p[0] = number(200) == 0 ? LM89_KIND_POWER_ON : 1 + number(6);
    switch (p[0]) {
    case LM89_KIND_WRITE:
        p[1] = address;
        p[2] = writable[number(sizeof writable)];
        p[3] = number(256);
        break;
    case LM89_KIND_READ:
    case LM89_KIND_SEND:
        p[1] = address;
        p[2] = readable[number(sizeof readable)];
        break;
    case LM89_KIND_RECEIVE:
        p[1] = number(8) == 0 ? LM89_ADDRESS_ALERT_RESPONSE : address;
        break;
    case LM89_KIND_CONVERSION:
        conversion(p, second);
        break;
    case LM89_KIND_OPEN:
        p[0] = second ? LM89_KIND_OPEN_2 : LM89_KIND_OPEN;
        p[1] = number(256);
        break;
    }
}

/* What a line of the result is of. Records of one of two devices come in rows of so many, or, with 0, in any order. */
typedef struct {
    const char *name;
    uint8_t devices;
    uint32_t row;
    void (*record)(uint8_t *, bool second);
} measured;

static const measured lines[] = {
    {"mixed", 1, 0, mixed},
    {"conversions", 1, 0, conversion},
    {"two devices, mixed in any order", 2, 0, mixed},
    {"two devices, mixed in rows of 32", 2, 32, mixed},
    {"two devices, conversions", 2, 0, conversion},
};

static double once(runner *run, const uint8_t *capture, size_t length, uint8_t *answers)
{
    double start = nanoseconds();
    uint64_t result = run(capture, length, answers, 2 * (size_t)RECORDS);
    if (result != 32 * (uint64_t)RECORDS) {
        fprintf(stderr, "speed: a run ended with %" PRIu64 "\n", result);
        exit(1);
    }
    return (nanoseconds() - start) / RECORDS;
}

static size_t length_of(uint32_t records, const measured *line)
{
    return 5 + line->devices + 4 * (size_t)records;
}

static bool second_at(uint32_t record, const measured *line)
{
    return line->devices == 2 && (line->row == 0 ? number(2) : record / line->row % 2) != 0;
}

static uint8_t *capture_of(uint32_t records, const measured *line)
{
    size_t length = length_of(records, line);
    uint8_t *capture = memory(length);
    uint8_t *at = capture + 5 + line->devices;
    uint8_t code = line->devices == 1 ? lm89_write_header(LM89_VARIANT_LM89C, records, capture, length)
                                      : lm89_write_header_2(LM89_VARIANT_LM89C, LM89_VARIANT_LM89_1C, records, capture, length);
    if (code != LM89_CODE_DONE) {
        fprintf(stderr, "speed: a header is refused with %u\n", code);
        exit(1);
    }
    for (uint32_t i = 0; i < records; i++) {
        line->record(at, second_at(i, line));
        at += 4;
    }
    return capture;
}

static void write_capture(uint32_t records, const char *path)
{
    uint8_t *capture = capture_of(records, &lines[0]);
    FILE *file = fopen(path, "wb");
    if (file == NULL || fwrite(capture, length_of(records, &lines[0]), 1, file) != 1 || fclose(file) != 0) {
        fprintf(stderr, "speed: %s cannot be written\n", path);
        exit(1);
    }
    free(capture);
}

static void compare(const measured *line)
{
    size_t length = length_of(RECORDS, line);
    uint8_t *capture = capture_of(RECORDS, line);
    uint8_t *answers = memory(2 * (size_t)RECORDS);
    uint8_t *others = memory(2 * (size_t)RECORDS);
    double best = 1e9;
    double other = 1e9;
    for (int i = 0; i < ROUNDS; i++) {
        double t = once(lm89_run, capture, length, answers);
        double u = once(second_run, capture, length, others);
        best = t < best ? t : best;
        other = u < other ? u : other;
    }
    if (memcmp(answers, others, 2 * (size_t)RECORDS) != 0) {
        fprintf(stderr, "speed: the answers differ\n");
        exit(1);
    }
    printf("%s: lm89_run %.1f ns, second %.1f ns a record, ratio %.2f\n", line->name, best, other, best / other);
    free(capture);
    free(answers);
    free(others);
}

int main(int count, char **words)
{
    if (count == 3) {
        write_capture((uint32_t)strtoul(words[1], NULL, 10), words[2]);
        return 0;
    }
    for (size_t i = 0; i < sizeof lines / sizeof lines[0]; i++) {
        compare(&lines[i]);
    }
    return 0;
}
