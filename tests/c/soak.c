/*
 * lm89_soak: codes in their order, how far a stretch is read on both sides of each line, masks, an empty stretch, memory before the records
 * read that nobody may touch, and T_CRIT_A against lm89_step called for each record.
 */
#define _DEFAULT_SOURCE /* MAP_ANONYMOUS */
#include <string.h>
#include <sys/mman.h>
#include <unistd.h>

#include "check.h"
#include "lm89.h"

#define OTHER 0xFF, 0xFF, 0xFF, 0xFF /* no kind: refused if it is read */
#define STRETCHES 20000
#define RECORDS 24

/* T_CRIT 85 on both channels, hysteresis 10: a latch sets above 85 and clears below 75. Other remote limits are wide. */
static lm89_device soaking(uint8_t configuration)
{
    lm89_device device = lm89_power_on(LM89_VARIANT_LM89C);
    device.settings[LM89_SETTING_CONFIGURATION] = configuration;
    device.settings[LM89_SETTING_REMOTE_TCRIT] = 85;
    device.settings[LM89_SETTING_REMOTE_HIGH_LIMIT] = 127;
    device.settings[LM89_SETTING_REMOTE_LOW_LIMIT] = 0x80;
    return device;
}

static bool gives(lm89_device device, const uint8_t *records, size_t length, uint8_t code, bool pulled, uint64_t read)
{
    lm89_soaked soaked = lm89_soak(device, records, length);
    return soaked.code == code && soaked.pulled == pulled && soaked.read == read;
}

#define GIVES(device, code, pulled, read, ...)                                                                    \
    do {                                                                                                          \
        static const uint8_t records[] = {__VA_ARGS__};                                                           \
        CHECK(gives(device, records, sizeof records, code, pulled, read));                                        \
    } while (0)

static void test_codes(void)
{
    lm89_device device = soaking(0);
    lm89_device standby = soaking(LM89_CONFIGURATION_STANDBY);
    lm89_device none = {0};
    lm89_device out = standby;
    out.sensed.faults = 4;
    CHECK(gives(none, NULL, 0, LM89_CODE_RANGE, false, 0));
    GIVES(none, LM89_CODE_RANGE, false, 0, 5);
    GIVES(out, LM89_CODE_RANGE, false, 0, 5);
    CHECK(gives(standby, NULL, 0, LM89_CODE_STANDBY, false, 0));
    GIVES(standby, LM89_CODE_STANDBY, false, 0, 5);
    standby.pending = true;
    CHECK(gives(standby, NULL, 0, LM89_CODE_STANDBY, false, 0));
    GIVES(device, LM89_CODE_OPERAND, false, 0, OTHER, 5);
    GIVES(device, LM89_CODE_OPERAND, false, 0, 5, 25, 86, 0, OTHER, 5, 25, 86);
    for (unsigned kind = 0; kind < 256; kind++) {
        uint8_t bad[] = {(uint8_t)kind, 0x80, 0x01, 0x01};
        bool soaks = kind == LM89_KIND_CONVERSION || kind == LM89_KIND_OPEN;
        CHECK(gives(device, bad, sizeof bad, soaks ? LM89_CODE_OPERAND : LM89_CODE_KIND, false, 1));
    }
    GIVES(device, LM89_CODE_KIND, false, 1, LM89_KIND_POWER_ON, 0, 0, 0);
    GIVES(device, LM89_CODE_KIND, false, 1, LM89_KIND_CONVERSION_2, 25, 86, 0);
    GIVES(device, LM89_CODE_KIND, false, 1, LM89_KIND_OPEN_2, 25, 0, 0);
    GIVES(device, LM89_CODE_KIND, false, 3, OTHER, 5, 25, 80, 0, 5, 25, 80, 0);
    GIVES(device, LM89_CODE_OPERAND, false, 2, OTHER, 5, 25, 86, 1, 5, 25, 80, 0);
}

static void test_decided(void)
{
    lm89_device device = soaking(0);
    lm89_device queue = soaking(LM89_CONFIGURATION_FAULT_QUEUE);
    lm89_device low = queue, high = queue;
    low.settings[LM89_SETTING_REMOTE_LOW_LIMIT] = 75;   /* 70 clears, and counts as a fault */
    high.settings[LM89_SETTING_REMOTE_HIGH_LIMIT] = 76; /* 78 is a fault that neither sets nor clears */
    GIVES(device, LM89_CODE_DONE, true, 1, OTHER, 5, 25, 85, 0x20);
    GIVES(device, LM89_CODE_KIND, false, 2, OTHER, 5, 25, 85, 0);
    GIVES(device, LM89_CODE_DONE, false, 1, OTHER, 5, 25, 74, 0xE0);
    GIVES(device, LM89_CODE_KIND, false, 2, OTHER, 5, 25, 75, 0);
    GIVES(device, LM89_CODE_DONE, true, 1, OTHER, 6, 25, 0, 0);
    GIVES(device, LM89_CODE_KIND, false, 2, OTHER, 5, 80, 86, 0);
    GIVES(device, LM89_CODE_KIND, false, 2, OTHER, 5, 86, 80, 0);
    GIVES(device, LM89_CODE_DONE, true, 2, OTHER, 5, 25, 86, 0, 5, 86, 80, 0);
    GIVES(queue, LM89_CODE_DONE, true, 3, OTHER, 5, 25, 86, 0, 5, 25, 86, 0, 5, 25, 86, 0);
    GIVES(queue, LM89_CODE_KIND, false, 3, OTHER, 5, 25, 86, 0, 5, 25, 86, 0);
    GIVES(queue, LM89_CODE_DONE, false, 2, OTHER, 5, 25, 70, 0, 5, 25, 86, 0);
    GIVES(low, LM89_CODE_KIND, false, 3, OTHER, 5, 25, 70, 0, 5, 25, 86, 0);
    GIVES(low, LM89_CODE_DONE, true, 3, OTHER, 5, 25, 86, 0, 5, 25, 70, 0, 5, 25, 86, 0);
    GIVES(high, LM89_CODE_KIND, false, 4, OTHER, 5, 25, 78, 0, 5, 25, 78, 0, 5, 25, 78, 0);
}

static void test_masks(void)
{
    lm89_device both = soaking(LM89_CONFIGURATION_REMOTE_TCRIT_MASK | LM89_CONFIGURATION_LOCAL_TCRIT_MASK);
    lm89_device remote = soaking(LM89_CONFIGURATION_REMOTE_TCRIT_MASK);
    GIVES(both, LM89_CODE_DONE, false, 1, OTHER, 5, 86, 86, 0);
    GIVES(remote, LM89_CODE_DONE, true, 1, OTHER, 5, 86, 86, 0);
    GIVES(remote, LM89_CODE_KIND, false, 2, OTHER, 5, 86, 80, 0); /* the pin is sure, the masked channel is not decided */
}

static void test_start(void)
{
    lm89_device queue = soaking(LM89_CONFIGURATION_FAULT_QUEUE);
    CHECK(gives(queue, NULL, 0, LM89_CODE_DONE, false, 0));
    queue.sensed.faults = 1;
    GIVES(queue, LM89_CODE_DONE, false, 1, 5, 25, 86, 0);
    queue.sensed.faults = 2;
    GIVES(queue, LM89_CODE_DONE, true, 1, 5, 25, 86, 0);
    queue.sensed.rlatch = true;
    CHECK(gives(queue, NULL, 0, LM89_CODE_DONE, true, 0));
    GIVES(queue, LM89_CODE_DONE, true, 2, 5, 80, 80, 0, 5, 80, 80, 0);
    GIVES(queue, LM89_CODE_DONE, false, 1, 5, 80, 70, 0);
    queue.sensed.llatch = true;
    GIVES(queue, LM89_CODE_DONE, true, 1, 5, 80, 70, 0);
}

/* The records that decide stand at the beginning of a page; those before them on one that cannot be read. */
static void test_unread(void)
{
    size_t page = (size_t)sysconf(_SC_PAGESIZE);
    static const uint8_t hot[] = {5, 86, 86, 0};
    uint8_t *pages = mmap(NULL, 2 * page, PROT_READ | PROT_WRITE, MAP_PRIVATE | MAP_ANONYMOUS, -1, 0);
    CHECK(pages != MAP_FAILED);
    memcpy(pages + page, hot, sizeof hot);
    CHECK(mprotect(pages, page, PROT_NONE) == 0);
    CHECK(gives(soaking(0), pages, page + sizeof hot, LM89_CODE_DONE, true, 1));
    CHECK(munmap(pages, 2 * page) == 0);
}

static uint32_t chance(uint32_t *seed, uint32_t below)
{
    *seed = *seed * 1664525u + 1013904223u;
    return (*seed >> 8) % below;
}

/* One conversion in ten has its diode open; readings are near 75 and 85, where latches clear and set. */
static void draw(uint32_t *seed, uint8_t *record)
{
    bool open = chance(seed, 10) == 0;
    record[0] = open ? LM89_KIND_OPEN : LM89_KIND_CONVERSION;
    record[1] = (uint8_t)(72 + chance(seed, 16));
    record[2] = open ? 0 : (uint8_t)(72 + chance(seed, 16));
    record[3] = open ? 0 : (uint8_t)(chance(seed, 8) * 32);
}

static void test_against_steps(void)
{
    uint32_t seed = 17, pulled = 0;
    uint8_t records[RECORDS * LM89_RECORD_BYTES];
    for (unsigned stretch = 0; stretch < STRETCHES; stretch++) {
        lm89_device device = soaking((uint8_t)(chance(&seed, 2) * LM89_CONFIGURATION_FAULT_QUEUE + chance(&seed, 2) * LM89_CONFIGURATION_LOCAL_TCRIT_MASK));
        lm89_device stepped = device;
        lm89_answer answer = {0};
        unsigned count = 1 + chance(&seed, RECORDS);
        for (unsigned i = 0; i < count; i++) {
            uint8_t *record = records + i * LM89_RECORD_BYTES;
            draw(&seed, record);
            answer = lm89_step(&stepped, record[0], record[1], record[2], record[3]);
        }
        lm89_soaked soaked = lm89_soak(device, records, count * LM89_RECORD_BYTES);
        CHECK(soaked.code == LM89_CODE_DONE && soaked.read <= count);
        CHECK(soaked.pulled == ((answer.first & LM89_ANSWER_TCRIT) != 0));
        pulled += soaked.pulled;
    }
    CHECK(pulled > STRETCHES / 4 && pulled < STRETCHES / 4 * 3);
}

int main(void)
{
    test_codes();
    test_decided();
    test_masks();
    test_start();
    test_unread();
    test_against_steps();
    return 0;
}
