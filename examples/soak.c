/*
 * Is T_CRIT_A pulled at the end of a soak? A day of conversions, sixteen a second, lies in memory; the last of them say it. They are read from the
 * end, and only as far as it takes. examples/bench.c shows the test of the library's version.
 */
#include <stdio.h>
#include <stdlib.h>

#include "lm89.h"

#define CONVERSIONS (16ul * 60 * 60 * 24)
#define LOCAL 25  /* degrees, at every conversion here: well below the local T_CRIT */
#define TCRIT 85  /* degrees: the remote latch sets above it */
#define WARM 80   /* neither above it nor below it less the hysteresis, 10 at power-on: the latch stays as it is */
#define HOT 90

/* The device as it stands before the soak. The program ends at a write that is not acknowledged. */
static lm89_device set_up(void)
{
    static const uint8_t writes[][2] = {
        {LM89_REGISTER_REMOTE_TCRIT, TCRIT},
        {LM89_WRITE_REMOTE_HIGH_LIMIT, TCRIT},
        {LM89_WRITE_CONFIGURATION, LM89_CONFIGURATION_FAULT_QUEUE}, /* three faults in a row */
    };
    lm89_device device = lm89_power_on(LM89_VARIANT_LM89C);
    for (size_t i = 0; i < sizeof writes / sizeof writes[0]; i++) {
        lm89_answer answer = lm89_step(&device, LM89_KIND_WRITE, LM89_ADDRESS_LM89C, writes[i][0], writes[i][1]);
        if (answer.code != LM89_CODE_DONE || (answer.first & LM89_ANSWER_ACKNOWLEDGED) == 0) {
            fprintf(stderr, "soak: write of %02X to %02X: code %u\n", writes[i][1], writes[i][0], answer.code);
            exit(1);
        }
    }
    return device;
}

static void convert(uint8_t *records, size_t number, uint8_t remote)
{
    uint8_t *record = records + number * LM89_RECORD_BYTES;
    record[0] = LM89_KIND_CONVERSION;
    record[1] = LOCAL;
    record[2] = remote;
    record[3] = 0;
}

static void show(const char *soak, lm89_soaked soaked)
{
    printf("%s: code %u, T_CRIT_A is %s, %llu of %lu records read\n", soak, soaked.code, soaked.pulled ? "pulled" : "let go",
        (unsigned long long)soaked.read, CONVERSIONS);
}

int main(void)
{
    lm89_device device = set_up();
    uint8_t *records = (uint8_t *)malloc(CONVERSIONS * LM89_RECORD_BYTES);
    if (records == NULL) {
        fprintf(stderr, "soak: no memory\n");
        return 1;
    }
    for (size_t i = 0; i < CONVERSIONS; i++) {
        convert(records, i, WARM);
    }
    show("warm all day", lm89_soak(device, records, CONVERSIONS * LM89_RECORD_BYTES));
    for (size_t i = 1; i <= 3; i++) {
        convert(records, CONVERSIONS - i, HOT);
    }
    show("three hot at the end", lm89_soak(device, records, CONVERSIONS * LM89_RECORD_BYTES));
    convert(records, CONVERSIONS - 3, LOCAL);
    show("cold, then two hot", lm89_soak(device, records, CONVERSIONS * LM89_RECORD_BYTES));
    free(records);
    return fclose(stdout) == 0 ? 0 : 1;
}
