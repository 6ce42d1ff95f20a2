/*
 * lm89_soak on sixteen million conversions, best of five: where the last of them decide, nanoseconds a call; where none of them does, so that all
 * are read, nanoseconds a record beside lm89_run on the same conversions.
 */
#define _POSIX_C_SOURCE 199309L
#include <inttypes.h>
#include <stdbool.h>

#include "lm89.h"
#include "timing.h"

#define RECORDS 16000000u
#define LENGTH ((size_t)RECORDS * LM89_RECORD_BYTES)
#define ROUNDS 5
#define CALLS 1000000u

/* As at power-on a local latch stays as it is from 75 to 85 degrees, a remote one from 100 to 110. */
static void hold(uint8_t *record)
{
    record[0] = LM89_KIND_CONVERSION;
    record[1] = 75 + number(11);
    record[2] = 100 + number(10);
    record[3] = number(8) * 32;
}

static lm89_soaked soak(const lm89_device *device, const uint8_t *records)
{
    lm89_soaked soaked = lm89_soak(*device, records, LENGTH);
    if (soaked.code != LM89_CODE_DONE) {
        fprintf(stderr, "soak: refused with %u\n", soaked.code);
        exit(1);
    }
    return soaked;
}

static double forward(const uint8_t *capture, uint8_t *answers)
{
    double start = nanoseconds();
    uint64_t result = lm89_run(capture, LM89_HEADER_BYTES + LENGTH, answers, LENGTH / 2);
    if (result != LM89_RUN_UNIT * (uint64_t)(LENGTH / 2)) {
        fprintf(stderr, "soak: a run ended with %" PRIu64 "\n", result);
        exit(1);
    }
    return (nanoseconds() - start) / RECORDS;
}

static void never_decided(const lm89_device *device, const uint8_t *capture)
{
    uint8_t *answers = memory(LENGTH / 2);
    const uint8_t *records = capture + LM89_HEADER_BYTES;
    double back = 1e9, run = 1e9;
    for (int i = 0; i < ROUNDS; i++) {
        double start = nanoseconds();
        lm89_soaked soaked = soak(device, records);
        double took = (nanoseconds() - start) / RECORDS;
        double forwards = forward(capture, answers);
        if (soaked.read != RECORDS || soaked.pulled != ((answers[LENGTH / 2 - LM89_ANSWER_BYTES] & LM89_ANSWER_TCRIT) != 0)) {
            fprintf(stderr, "soak: %" PRIu64 " records read, or the run has another T_CRIT_A\n", soaked.read);
            exit(1);
        }
        back = took < back ? took : back;
        run = forwards < run ? forwards : run;
    }
    printf("soak, never decided: %.1f ns a record, lm89_run %.1f, ratio %.2f\n", back, run, back / run);
    free(answers);
}

static void ends_hot(const lm89_device *device, uint8_t *records)
{
    uint8_t *last = records + LENGTH - LM89_RECORD_BYTES;
    uint64_t read = 0;
    double best = 1e9;
    last[1] = 86;
    last[2] = 111;
    for (int i = 0; i < ROUNDS; i++) {
        double start = nanoseconds();
        for (unsigned call = 0; call < CALLS; call++) {
            read += soak(device, records).read;
        }
        double took = (nanoseconds() - start) / CALLS;
        best = took < best ? took : best;
    }
    printf("soak of %u conversions that ends hot: %.1f records read, %.1f ns a call\n", RECORDS, (double)read / ROUNDS / CALLS, best);
}

int main(void)
{
    lm89_device device = lm89_power_on(LM89_VARIANT_LM89C);
    uint8_t *capture = memory(LM89_HEADER_BYTES + LENGTH);
    uint8_t *records = capture + LM89_HEADER_BYTES;
    if (lm89_write_header(LM89_VARIANT_LM89C, RECORDS, capture, LM89_HEADER_BYTES) != LM89_CODE_DONE) {
        fprintf(stderr, "soak: the header is refused\n");
        return 1;
    }
    for (uint32_t i = 0; i < RECORDS; i++) {
        hold(records + (size_t)i * LM89_RECORD_BYTES);
    }
    never_decided(&device, capture);
    ends_hot(&device, records);
    free(capture);
    return 0;
}
