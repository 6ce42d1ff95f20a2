/*
 * The remote temperature in its two bytes, as firmware reads it: the high byte, 01, first, then the low byte, 10. A conversion
 * that falls between the two reads does not tear the pair. examples/bench.c shows the test of the library's version.
 */
#include <stdio.h>
#include <stdlib.h>

#include "lm89.h"

#define LOCAL 25           /* degrees, at every conversion here */
#define EIGHTHS 8          /* of a degree */
#define EIGHTH_IN_LOW 0x20 /* the low byte has its eighths in the top three bits */

/* The byte that a record reads. The program ends at one that is refused, or that the device does not acknowledge or take. */
static uint8_t step(lm89_device *device, uint8_t kind, uint8_t a, uint8_t b, uint8_t c, uint8_t wanted)
{
    lm89_answer answer = lm89_step(device, kind, a, b, c);
    if (answer.code != LM89_CODE_DONE || (answer.first & wanted) == 0) {
        fprintf(stderr, "pair: record %02X %02X %02X %02X: code %u, first answer byte %02X\n", kind, a, b, c, answer.code, answer.first);
        exit(1);
    }
    return answer.second;
}

static void convert(lm89_device *device, uint8_t high, uint8_t low)
{
    step(device, LM89_KIND_CONVERSION, LOCAL, high, low, LM89_ANSWER_TAKEN);
}

static uint8_t read_byte(lm89_device *device, uint8_t number)
{
    return step(device, LM89_KIND_READ, LM89_ADDRESS_LM89C, number, 0, LM89_ANSWER_ACKNOWLEDGED);
}

static void show(const char *name, uint8_t high, uint8_t low)
{
    int degrees = high < 0x80 ? high : high - 0x100; /* two's complement */
    int eighths = degrees * EIGHTHS + low / EIGHTH_IN_LOW;
    printf("%s: %02X %02X, %d eighths, %.3f degrees\n", name, high, low, eighths, (double)eighths / EIGHTHS);
}

int main(void)
{
    lm89_device device = lm89_power_on(LM89_VARIANT_LM89C);
    convert(&device, 0x31, 0xE0);                                /* 49.875 degrees */
    uint8_t high = read_byte(&device, LM89_READ_REMOTE);         /* keeps the low byte E0 */
    convert(&device, 0x32, 0x00);                                /* 50 degrees, before the low byte is read */
    uint8_t low = read_byte(&device, LM89_READ_REMOTE_LOW_BYTE); /* the kept E0: with the latest 00 it would be 49 degrees */
    show("first pair", high, low);
    high = read_byte(&device, LM89_READ_REMOTE);
    low = read_byte(&device, LM89_READ_REMOTE_LOW_BYTE);
    show("second pair", high, low);
    convert(&device, 0xFF, 0xE0);                                /* an eighth below 0: the high byte is -1, the low byte 7 eighths */
    high = read_byte(&device, LM89_READ_REMOTE);
    low = read_byte(&device, LM89_READ_REMOTE_LOW_BYTE);
    show("third pair", high, low);
    return fclose(stdout) == 0 ? 0 : 1;
}
