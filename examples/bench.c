/* A bench for a board with an LM89C: a recorded capture, stepped and then run, held to its expected answers. */
#include <stdio.h>
#include <string.h>

#include "lm89.h"

#define RECORDS 9
#define UNKNOWN_REGISTER 0x30
#define REMOTE_EIGHTHS (0x4F * 8 + 7) /* the last conversion's 79.875 degrees */
#define HYSTERESIS 5

/* T_CRIT passed by an eighth, status read, hysteresis from both sides, an unknown register. */
static const uint8_t capture[LM89_HEADER_BYTES + LM89_RECORD_BYTES * RECORDS] = {
    0x01, LM89_VARIANT_LM89C, 0x00, 0x00, 0x00, RECORDS,
    LM89_KIND_WRITE, LM89_ADDRESS_LM89C, LM89_REGISTER_REMOTE_TCRIT, 0x55,
    LM89_KIND_WRITE, LM89_ADDRESS_LM89C, LM89_WRITE_REMOTE_HIGH_LIMIT, 0x7F,
    LM89_KIND_CONVERSION, 0x19, 0x55, 0x20,
    LM89_KIND_READ, LM89_ADDRESS_LM89C, LM89_READ_STATUS, 0x00,
    LM89_KIND_WRITE, LM89_ADDRESS_LM89C, LM89_REGISTER_HYSTERESIS, HYSTERESIS,
    LM89_KIND_CONVERSION, 0x19, 0x50, 0x00,
    LM89_KIND_CONVERSION, 0x19, 0x4F, 0xE0,
    LM89_KIND_READ, LM89_ADDRESS_LM89C, LM89_READ_CONFIGURATION, 0x00,
    LM89_KIND_WRITE, LM89_ADDRESS_LM89C, UNKNOWN_REGISTER, 0x00,
};

enum {
    ACKNOWLEDGED = LM89_ANSWER_ACKNOWLEDGED,
    TAKEN = LM89_ANSWER_TAKEN,
    ALERT = LM89_ANSWER_ALERT,
    TCRIT = LM89_ANSWER_TCRIT,
};

static const uint8_t expected[RECORDS][LM89_ANSWER_BYTES] = {
    {ACKNOWLEDGED, 0},
    {ACKNOWLEDGED, 0},
    {TAKEN | TCRIT | ALERT, 0},
    {ACKNOWLEDGED | TCRIT, LM89_STATUS_RCRIT},
    {ACKNOWLEDGED | TCRIT, 0},
    {TAKEN | TCRIT, 0},
    {TAKEN, 0},
    {ACKNOWLEDGED, LM89_CONFIGURATION_ALERT_MASK},
    {0, 0},
};

/* A header and an archive of two major versions would give wrong answers: noticed here, before any. */
static bool one_version(void)
{
    unsigned major = (unsigned)(lm89_version() / LM89_VERSION_UNIT);
    unsigned minor = (unsigned)(lm89_version() % LM89_VERSION_UNIT);
    if (major == LM89_VERSION_MAJOR) {
        return true;
    }
    fprintf(stderr, "lm89.h is of version %d.%d, liblm89.a of %u.%u: compile and link with both of one version\n", LM89_VERSION_MAJOR,
            LM89_VERSION_MINOR, major, minor);
    return false;
}

static int disagreement(const char *where, unsigned record, const uint8_t *want, const uint8_t *got)
{
    if (memcmp(want, got, LM89_ANSWER_BYTES) == 0) {
        return 0;
    }
    printf("%s, record %u: expected %02X %02X, got %02X %02X\n", where, record, want[0], want[1], got[0], got[1]);
    return 1;
}

/* The capture's records one by one, on a device of our own. */
static int stepped(void)
{
    lm89_device device = lm89_power_on(LM89_VARIANT_LM89C);
    int disagreements = 0;
    for (unsigned i = 0; i < RECORDS; i++) {
        const uint8_t *record = capture + LM89_HEADER_BYTES + LM89_RECORD_BYTES * i;
        lm89_answer answer = lm89_step(&device, record[0], record[1], record[2], record[3]);
        const uint8_t got[LM89_ANSWER_BYTES] = {answer.first, answer.second};
        if (answer.code != LM89_CODE_DONE) {
            printf("step, record %u: code %u\n", i + 1, (unsigned)answer.code);
            return disagreements + 1;
        }
        disagreements += disagreement("step", i + 1, expected[i], got);
    }
    if (device.sensed.remote != REMOTE_EIGHTHS || device.settings[LM89_SETTING_HYSTERESIS] != HYSTERESIS) {
        printf("step: remote reading %d eighths, hysteresis %u\n", (int)device.sensed.remote,
               (unsigned)device.settings[LM89_SETTING_HYSTERESIS]);
        disagreements++;
    }
    return disagreements;
}

/* The whole capture in one call. */
static int run(void)
{
    uint8_t answers[LM89_ANSWER_BYTES * RECORDS] = {0};
    uint64_t result = lm89_run(capture, sizeof capture, answers, sizeof answers);
    int disagreements = 0;
    if (result != LM89_RUN_UNIT * sizeof answers + LM89_CODE_DONE) {
        printf("run: %u answer bytes, code %u\n", (unsigned)(result / LM89_RUN_UNIT), (unsigned)(result % LM89_RUN_UNIT));
        disagreements++;
    }
    for (unsigned i = 0; i < RECORDS; i++) {
        disagreements += disagreement("run", i + 1, expected[i], answers + LM89_ANSWER_BYTES * i);
    }
    return disagreements;
}

int main(void)
{
    if (!one_version() || stepped() + run() != 0) {
        return 1;
    }
    printf("%d records agree, stepped and run\n", RECORDS);
    return fclose(stdout) == 0 ? 0 : 1;
}
