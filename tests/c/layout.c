/*
 * The headers against the library and the documents: where each struct's fields stand, the number of each name, and which fields
 * of a device each event moves; for a fan and for a tachometer, which byte is which number.
 */
#include <string.h>

#include "check.h"
#include "lm89.h"
#include "lm89_list.h"

_Static_assert(sizeof(lm89_sensed) == 8, "size of lm89_sensed");
_Static_assert(offsetof(lm89_sensed, remote) == 0, "remote");
_Static_assert(offsetof(lm89_sensed, local) == 2, "local");
_Static_assert(offsetof(lm89_sensed, live) == 3, "live");
_Static_assert(offsetof(lm89_sensed, faults) == 4, "faults");
_Static_assert(offsetof(lm89_sensed, llatch) == 5, "llatch");
_Static_assert(offsetof(lm89_sensed, rlatch) == 6, "rlatch");
_Static_assert(sizeof(lm89_device) == 28, "size of lm89_device");
_Static_assert(offsetof(lm89_device, sensed) == 0, "sensed");
_Static_assert(offsetof(lm89_device, variant) == 8, "variant");
_Static_assert(offsetof(lm89_device, pointer) == 9, "pointer");
_Static_assert(offsetof(lm89_device, pending) == 10, "pending");
_Static_assert(offsetof(lm89_device, status) == 11, "status");
_Static_assert(offsetof(lm89_device, settings) == 12, "settings");
_Static_assert(offsetof(lm89_device, low) == 26, "low");
_Static_assert(offsetof(lm89_device, lowkept) == 27, "lowkept");
_Static_assert(sizeof(lm89_answer) == 3, "size of lm89_answer");
_Static_assert(offsetof(lm89_answer, code) == 0, "code");
_Static_assert(offsetof(lm89_answer, first) == 1, "first");
_Static_assert(offsetof(lm89_answer, second) == 2, "second");
_Static_assert(sizeof(lm89_soaked) == 16, "size of lm89_soaked");
_Static_assert(offsetof(lm89_soaked, code) == 0, "code of lm89_soaked");
_Static_assert(offsetof(lm89_soaked, pulled) == 1, "pulled");
_Static_assert(offsetof(lm89_soaked, read) == 8, "read");
_Static_assert(sizeof(lm89_fan) == 18, "size of lm89_fan");
_Static_assert(offsetof(lm89_fan, table) == 0, "table");
_Static_assert(sizeof(((lm89_fan *)0)->table) == 16, "size of table");
_Static_assert(sizeof(((lm89_fan *)0)->table[0]) == 2, "size of an entry of table");
_Static_assert(offsetof(lm89_fan, hysteresis) == 16, "hysteresis");
_Static_assert(offsetof(lm89_fan, frequency) == 17, "frequency");
_Static_assert(sizeof(lm89_driven) == 6, "size of lm89_driven");
_Static_assert(offsetof(lm89_driven, code) == 0, "code of lm89_driven");
_Static_assert(offsetof(lm89_driven, step) == 1, "step");
_Static_assert(offsetof(lm89_driven, value) == 2, "value of lm89_driven");
_Static_assert(offsetof(lm89_driven, duty) == 4, "duty");
_Static_assert(sizeof(lm89_number) == 4, "size of lm89_number");
_Static_assert(offsetof(lm89_number, code) == 0, "code of lm89_number");
_Static_assert(offsetof(lm89_number, value) == 2, "value of lm89_number");
_Static_assert(sizeof(lm89_speeds) == 24, "size of lm89_speeds");
_Static_assert(_Alignof(lm89_speeds) == 8, "alignment of lm89_speeds");
_Static_assert(offsetof(lm89_speeds, code) == 0, "code of lm89_speeds");
_Static_assert(sizeof(((lm89_speeds *)0)->code) == 1, "size of code of lm89_speeds");
_Static_assert(offsetof(lm89_speeds, slowest) == 4, "slowest");
_Static_assert(sizeof(((lm89_speeds *)0)->slowest) == 4, "size of slowest");
_Static_assert(offsetof(lm89_speeds, fastest) == 8, "fastest");
_Static_assert(sizeof(((lm89_speeds *)0)->fastest) == 4, "size of fastest");
_Static_assert(offsetof(lm89_speeds, under) == 16, "under");
_Static_assert(sizeof(((lm89_speeds *)0)->under) == 8, "size of under");
_Static_assert(sizeof(lm89_bus) == 58, "size of lm89_bus");
_Static_assert(offsetof(lm89_bus, devices) == 0, "devices");
_Static_assert(offsetof(lm89_bus, first) == 2, "first of lm89_bus");
_Static_assert(offsetof(lm89_bus, second) == 30, "second of lm89_bus");
_Static_assert(sizeof(lm89_reader) == 76, "size of lm89_reader");
_Static_assert(offsetof(lm89_reader, head) == 0, "head");
_Static_assert(offsetof(lm89_reader, count) == 4, "count");
_Static_assert(offsetof(lm89_reader, done) == 8, "done");
_Static_assert(offsetof(lm89_reader, carried) == 12, "carried");
_Static_assert(offsetof(lm89_reader, bytes) == 13, "bytes");
_Static_assert(offsetof(lm89_reader, held) == 16, "held");
_Static_assert(offsetof(lm89_reader, bus) == 18, "bus");
_Static_assert(sizeof(lm89_fed) == 96, "size of lm89_fed");
_Static_assert(offsetof(lm89_fed, consumed) == 0, "consumed");
_Static_assert(offsetof(lm89_fed, written) == 8, "written");
_Static_assert(offsetof(lm89_fed, code) == 16, "code of lm89_fed");
_Static_assert(offsetof(lm89_fed, reader) == 20, "reader");
_Static_assert(sizeof(lm89_listed) == 16, "size of lm89_listed");
_Static_assert(offsetof(lm89_listed, consumed) == 0, "consumed of lm89_listed");
_Static_assert(offsetof(lm89_listed, done) == 8, "done of lm89_listed");
_Static_assert(offsetof(lm89_listed, code) == 12, "code of lm89_listed");
_Static_assert(offsetof(lm89_listed, failure) == 13, "failure");

/* Numbers as documents 01 and 02 print them; settings in rising order of the numbers at which they are written. */
#define NAMES(name, number) _Static_assert((name) == (number), #name)

NAMES(LM89_VERSION_UNIT, 65536);
NAMES(LM89_RUN_UNIT, 16);
NAMES(LM89_VARIANT_LM89C, 1);
NAMES(LM89_VARIANT_LM89_1C, 2);
NAMES(LM89_VARIANT_LM89_1D, 3);
NAMES(LM89_ADDRESS_LM89C, 0x4C);
NAMES(LM89_ADDRESS_LM89_1C, 0x4D);
NAMES(LM89_ADDRESS_LM89_1D, 0x4D);
NAMES(LM89_ADDRESS_ALERT_RESPONSE, 0x0C);
NAMES(LM89_KIND_WRITE, 1);
NAMES(LM89_KIND_READ, 2);
NAMES(LM89_KIND_SEND, 3);
NAMES(LM89_KIND_RECEIVE, 4);
NAMES(LM89_KIND_CONVERSION, 5);
NAMES(LM89_KIND_OPEN, 6);
NAMES(LM89_KIND_POWER_ON, 7);
NAMES(LM89_KIND_CONVERSION_2, 8);
NAMES(LM89_KIND_OPEN_2, 9);
NAMES(LM89_HEADER_BYTES, 6);
NAMES(LM89_HEADER_2_BYTES, 7);
NAMES(LM89_RECORD_BYTES, 4);
NAMES(LM89_ANSWER_BYTES, 2);

NAMES(LM89_READ_LOCAL, 0x00);
NAMES(LM89_READ_REMOTE, 0x01);
NAMES(LM89_READ_STATUS, 0x02);
NAMES(LM89_READ_CONFIGURATION, 0x03);
NAMES(LM89_READ_RATE, 0x04);
NAMES(LM89_READ_LOCAL_HIGH_LIMIT, 0x05);
NAMES(LM89_READ_LOCAL_LOW_LIMIT, 0x06);
NAMES(LM89_READ_REMOTE_HIGH_LIMIT, 0x07);
NAMES(LM89_READ_REMOTE_LOW_LIMIT, 0x08);
NAMES(LM89_READ_REMOTE_LOW_BYTE, 0x10);
NAMES(LM89_READ_MANUFACTURER, 0xFE);
NAMES(LM89_READ_REVISION, 0xFF);
NAMES(LM89_WRITE_CONFIGURATION, 0x09);
NAMES(LM89_WRITE_RATE, 0x0A);
NAMES(LM89_WRITE_LOCAL_HIGH_LIMIT, 0x0B);
NAMES(LM89_WRITE_LOCAL_LOW_LIMIT, 0x0C);
NAMES(LM89_WRITE_REMOTE_HIGH_LIMIT, 0x0D);
NAMES(LM89_WRITE_REMOTE_LOW_LIMIT, 0x0E);
NAMES(LM89_WRITE_ONE_SHOT, 0x0F);
NAMES(LM89_REGISTER_OFFSET, 0x11);
NAMES(LM89_REGISTER_OFFSET_LOW_BYTE, 0x12);
NAMES(LM89_REGISTER_REMOTE_HIGH_LIMIT_LOW_BYTE, 0x13);
NAMES(LM89_REGISTER_REMOTE_LOW_LIMIT_LOW_BYTE, 0x14);
NAMES(LM89_REGISTER_REMOTE_TCRIT, 0x19);
NAMES(LM89_REGISTER_LOCAL_TCRIT, 0x20);
NAMES(LM89_REGISTER_HYSTERESIS, 0x21);
NAMES(LM89_REGISTER_FILTER, 0xBF);

NAMES(LM89_STATUS_LHIGH, 1 << 6);
NAMES(LM89_STATUS_LLOW, 1 << 5);
NAMES(LM89_STATUS_RHIGH, 1 << 4);
NAMES(LM89_STATUS_RLOW, 1 << 3);
NAMES(LM89_STATUS_OPEN, 1 << 2);
NAMES(LM89_STATUS_RCRIT, 1 << 1);
NAMES(LM89_STATUS_LCRIT, 1 << 0);
NAMES(LM89_CONFIGURATION_ALERT_MASK, 1 << 7);
NAMES(LM89_CONFIGURATION_STANDBY, 1 << 6);
NAMES(LM89_CONFIGURATION_REMOTE_TCRIT_MASK, 1 << 4);
NAMES(LM89_CONFIGURATION_LOCAL_TCRIT_MASK, 1 << 2);
NAMES(LM89_CONFIGURATION_FAULT_QUEUE, 1 << 0);
NAMES(LM89_FILTER_BITS, 1 << 2 | 1 << 1);
NAMES(LM89_FILTER_COMPARATOR, 1 << 0);
NAMES(LM89_ANSWER_ALERT, 1 << 0);
NAMES(LM89_ANSWER_TCRIT, 1 << 1);
NAMES(LM89_ANSWER_ACKNOWLEDGED, 1 << 2);
NAMES(LM89_ANSWER_TAKEN, 1 << 3);
NAMES(LM89_ANSWER_HELD, 1 << 4);

NAMES(LM89_SETTING_CONFIGURATION, 0);
NAMES(LM89_SETTING_RATE, 1);
NAMES(LM89_SETTING_LOCAL_HIGH_LIMIT, 2);
NAMES(LM89_SETTING_LOCAL_LOW_LIMIT, 3);
NAMES(LM89_SETTING_REMOTE_HIGH_LIMIT, 4);
NAMES(LM89_SETTING_REMOTE_LOW_LIMIT, 5);
NAMES(LM89_SETTING_OFFSET, 6);
NAMES(LM89_SETTING_OFFSET_LOW_BYTE, 7);
NAMES(LM89_SETTING_REMOTE_HIGH_LIMIT_LOW_BYTE, 8);
NAMES(LM89_SETTING_REMOTE_LOW_LIMIT_LOW_BYTE, 9);
NAMES(LM89_SETTING_REMOTE_TCRIT, 10);
NAMES(LM89_SETTING_LOCAL_TCRIT, 11);
NAMES(LM89_SETTING_HYSTERESIS, 12);
NAMES(LM89_SETTING_FILTER, 13);
NAMES(LM89_SETTINGS, 14);

NAMES(LM89_CODE_DONE, 0);
NAMES(LM89_CODE_DEVICE_COUNT, 1);
NAMES(LM89_CODE_VARIANT, 2);
NAMES(LM89_CODE_KIND, 3);
NAMES(LM89_CODE_OPERAND, 4);
NAMES(LM89_CODE_PAST_END, 5);
NAMES(LM89_CODE_CUT_SHORT, 6);
NAMES(LM89_CODE_NO_ROOM, 7);
NAMES(LM89_CODE_RANGE, 8);
NAMES(LM89_CODE_ADDRESS, 9);
NAMES(LM89_CODE_STANDBY, 10);
NAMES(LM89_CODE_FALLING, 11);
NAMES(LM89_CODE_FEW_STAMPS, 12);
NAMES(LM89_CODE_EQUAL_STAMPS, 13);
NAMES(LM89_FAN_ENTRIES, 8);
NAMES(LM89_FAN_TEMPERATURE, 0);
NAMES(LM89_FAN_VALUE, 1);
NAMES(LM89_FAN_ENTRY_BYTES, 2);
NAMES(LM89_FAN_ALL, 10000);
NAMES(LM89_LIST_WHOLE, 0);
NAMES(LM89_LIST_NOT_READ, 1);
NAMES(LM89_LIST_NOT_WRITTEN, 2);

#define HERE LM89_ADDRESS_LM89C

static const uint8_t written_at[LM89_SETTINGS] = {
    0x09, 0x0A, 0x0B, 0x0C, 0x0D, 0x0E, 0x11, 0x12, 0x13, 0x14, 0x19, 0x20, 0x21, 0xBF,
};

static const uint8_t kept[LM89_SETTINGS] = {
    0xD5, 0xFF, 0xFF, 0xFF, 0xFF, 0xFF, 0xFF, 0xE0, 0xE0, 0xE0, 0xFF, 0xFF, 0x1F, 0x07,
};

static const uint8_t known[] = {
    0x00, 0x01, 0x02, 0x03, 0x04, 0x05, 0x06, 0x07, 0x08, 0x09, 0x0A, 0x0B, 0x0C, 0x0D, 0x0E, 0x0F,
    0x10, 0x11, 0x12, 0x13, 0x14, 0x19, 0x20, 0x21, 0xBF, 0xFE, 0xFF,
};

/* Every byte of the two devices but the one of padding at the end of what was sensed. */
static bool same(const lm89_device *x, const lm89_device *y)
{
    size_t sensed = offsetof(lm89_sensed, rlatch) + sizeof x->sensed.rlatch;
    size_t behind = offsetof(lm89_device, variant);
    return memcmp(x, y, sensed) == 0 && memcmp((const char *)x + behind, (const char *)y + behind, sizeof *x - behind) == 0;
}

static lm89_device zeros(void)
{
    lm89_device device;
    memset(&device, 0, sizeof device);
    return device;
}

static lm89_device fresh(void)
{
    return lm89_power_on(LM89_VARIANT_LM89C);
}

/* The step on a device between two fences, which it must leave alone. */
static lm89_answer fenced_step(lm89_device *device, uint8_t kind, uint8_t a, uint8_t b, uint8_t c)
{
    struct {
        uint8_t before[16];
        lm89_device device;
        uint8_t after[16];
    } field;
    uint8_t fence[16];
    memset(fence, 0xA7, sizeof fence);
    memcpy(field.before, fence, sizeof fence);
    memcpy(field.after, fence, sizeof fence);
    field.device = *device;
    lm89_answer answer = lm89_step(&field.device, kind, a, b, c);
    CHECK(memcmp(field.before, fence, sizeof fence) == 0);
    CHECK(memcmp(field.after, fence, sizeof fence) == 0);
    *device = field.device;
    return answer;
}

static bool is(lm89_answer answer, uint8_t code, uint8_t first, uint8_t second)
{
    return answer.code == code && answer.first == first && answer.second == second;
}

static bool refused(const lm89_device *device, uint8_t code, uint8_t kind, uint8_t a, uint8_t b, uint8_t c)
{
    lm89_device stepped = *device;
    return is(fenced_step(&stepped, kind, a, b, c), code, 0, 0) && same(&stepped, device);
}

static void test_version(void)
{
    CHECK(lm89_version() == LM89_VERSION_UNIT * LM89_VERSION_MAJOR + LM89_VERSION_MINOR);
}

static void test_power_on(void)
{
    static const uint8_t settings[LM89_SETTINGS] = {0, 8, 70, 0, 70, 0, 0, 0, 0, 0, 110, 85, 10, 0};
    for (unsigned variant = 0; variant < 256; variant++) {
        lm89_device expected = zeros();
        if (1 <= variant && variant <= 3) {
            expected.variant = (uint8_t)variant;
            memcpy(expected.settings, settings, sizeof settings);
        }
        if (variant == LM89_VARIANT_LM89_1D) {
            expected.settings[LM89_SETTING_LOCAL_TCRIT] = 105;
        }
        lm89_device device = lm89_power_on((uint8_t)variant);
        CHECK(same(&device, &expected));
    }
}

static void test_pointer(void)
{
    for (unsigned reg = 0; reg < 256; reg++) {
        lm89_device device = fresh();
        lm89_device expected = device;
        bool found = memchr(known, (int)reg, sizeof known) != NULL;
        if (found) {
            expected.pointer = (uint8_t)reg;
        }
        lm89_answer answer = fenced_step(&device, LM89_KIND_SEND, HERE, (uint8_t)reg, 0);
        CHECK(is(answer, LM89_CODE_DONE, found ? LM89_ANSWER_ACKNOWLEDGED : 0, 0));
        CHECK(same(&device, &expected));
    }
}

static void test_writes(void)
{
    for (unsigned i = 0; i < LM89_SETTINGS; i++) {
        for (unsigned value = 0; value < 256; value++) {
            lm89_device device = fresh();
            lm89_device expected = device;
            expected.pointer = written_at[i];
            expected.settings[i] = (uint8_t)(value & kept[i]);
            lm89_answer answer = fenced_step(&device, LM89_KIND_WRITE, HERE, written_at[i], (uint8_t)value);
            CHECK(is(answer, LM89_CODE_DONE, LM89_ANSWER_ACKNOWLEDGED, 0));
            CHECK(same(&device, &expected));
        }
    }
}

/* A conversion taken on a fresh device, whose limits are 0 and 70, with T_CRIT 85 local and 110 remote. */
static void converts(uint8_t kind, uint8_t local, uint8_t high, uint8_t low, lm89_sensed sensed, uint8_t first)
{
    lm89_device device = fresh();
    lm89_device expected = device;
    expected.sensed = sensed;
    expected.status = sensed.live;
    CHECK(is(fenced_step(&device, kind, local, high, low), LM89_CODE_DONE, first, 0));
    CHECK(same(&device, &expected));
}

static lm89_sensed sensed(uint8_t local, int16_t remote, uint8_t live, uint8_t faults, bool llatch, bool rlatch)
{
    return (lm89_sensed){.local = local, .remote = remote, .live = live, .faults = faults, .llatch = llatch, .rlatch = rlatch};
}

static void test_conversions(void)
{
    converts(LM89_KIND_CONVERSION, 0x19, 0x19, 0x20, sensed(0x19, 201, 0x00, 0, false, false), 0x08);
    converts(LM89_KIND_CONVERSION, 0x19, 0xFF, 0xE0, sensed(0x19, -1, 0x08, 1, false, false), 0x09);
    converts(LM89_KIND_CONVERSION, 0x80, 0x80, 0x00, sensed(0x80, -1024, 0x28, 1, false, false), 0x09);
    converts(LM89_KIND_CONVERSION, 0x19, 0x7F, 0xE0, sensed(0x19, 1023, 0x12, 1, false, true), 0x0B);
    converts(LM89_KIND_CONVERSION, 0x7F, 0x19, 0x00, sensed(0x7F, 200, 0x41, 0, true, false), 0x0B);
    converts(LM89_KIND_OPEN, 0x56, 0x00, 0x00, sensed(0x56, 1016, 0x57, 1, true, true), 0x0B);
}

static void test_faults(void)
{
    static const uint8_t counts[] = {1, 2, 3, 3};
    lm89_device device = fresh();
    for (unsigned i = 0; i < sizeof counts; i++) {
        fenced_step(&device, LM89_KIND_CONVERSION, 0x19, 0xF0, 0x00);
        CHECK(device.sensed.faults == counts[i]);
        CHECK(device.sensed.remote == -128);
    }
    fenced_step(&device, LM89_KIND_CONVERSION, 0x19, 0x19, 0x00);
    CHECK(device.sensed.faults == 0);
    CHECK(device.sensed.live == 0x00);
    CHECK(device.status == LM89_STATUS_RLOW);
}

static void test_status_read(void)
{
    lm89_device device = fresh();
    fenced_step(&device, LM89_KIND_CONVERSION, 0x47, 0x19, 0x00);
    lm89_device expected = device;
    CHECK(expected.status == LM89_STATUS_LHIGH);
    expected.status = 0;
    expected.pointer = LM89_READ_STATUS;
    expected.settings[LM89_SETTING_CONFIGURATION] = LM89_CONFIGURATION_ALERT_MASK;
    lm89_answer answer = fenced_step(&device, LM89_KIND_READ, HERE, LM89_READ_STATUS, 0);
    CHECK(is(answer, LM89_CODE_DONE, LM89_ANSWER_ACKNOWLEDGED, LM89_STATUS_LHIGH));
    CHECK(same(&device, &expected));
}

static void test_pending(void)
{
    lm89_device device = fresh();
    fenced_step(&device, LM89_KIND_WRITE, HERE, LM89_WRITE_CONFIGURATION, LM89_CONFIGURATION_STANDBY);
    lm89_device expected = device;
    CHECK(is(fenced_step(&device, LM89_KIND_CONVERSION, 0x19, 0x19, 0x00), LM89_CODE_DONE, 0, 0));
    CHECK(same(&device, &expected));
    expected.pointer = LM89_WRITE_ONE_SHOT;
    expected.pending = true;
    CHECK(is(fenced_step(&device, LM89_KIND_WRITE, HERE, LM89_WRITE_ONE_SHOT, 0x5A), LM89_CODE_DONE, LM89_ANSWER_ACKNOWLEDGED, 0));
    CHECK(same(&device, &expected));
    expected.pending = false;
    expected.sensed.local = 0x19;
    expected.sensed.remote = 200;
    CHECK(is(fenced_step(&device, LM89_KIND_CONVERSION, 0x19, 0x19, 0x00), LM89_CODE_DONE, LM89_ANSWER_TAKEN, 0));
    CHECK(same(&device, &expected));
}

/* Request a: a pair is of one reading, though a conversion falls between its two reads; each field after each event. */
static void test_pair(void)
{
    lm89_device device = fresh();
    fenced_step(&device, LM89_KIND_CONVERSION, 0x19, 0x32, 0x20);
    lm89_device expected = device;
    CHECK(device.sensed.remote == 401 && device.low == 0 && !device.lowkept);
    expected.pointer = LM89_READ_REMOTE;
    expected.low = 0x20;
    expected.lowkept = true;
    CHECK(is(fenced_step(&device, LM89_KIND_READ, HERE, LM89_READ_REMOTE, 0), LM89_CODE_DONE, LM89_ANSWER_ACKNOWLEDGED, 0x32));
    CHECK(same(&device, &expected));
    expected.sensed.remote = 415;
    CHECK(is(fenced_step(&device, LM89_KIND_CONVERSION, 0x19, 0x33, 0xE0), LM89_CODE_DONE, LM89_ANSWER_TAKEN, 0));
    CHECK(same(&device, &expected));
    expected.pointer = LM89_READ_REMOTE_LOW_BYTE;
    expected.low = 0;
    expected.lowkept = false;
    CHECK(is(fenced_step(&device, LM89_KIND_READ, HERE, LM89_READ_REMOTE_LOW_BYTE, 0), LM89_CODE_DONE, LM89_ANSWER_ACKNOWLEDGED, 0x20));
    CHECK(same(&device, &expected));
    CHECK(is(fenced_step(&device, LM89_KIND_RECEIVE, HERE, 0, 0), LM89_CODE_DONE, LM89_ANSWER_ACKNOWLEDGED, 0xE0));
    CHECK(same(&device, &expected));
}

#define KEPT 0x60
#define LATEST 0xA0

/* Its latest reading is 25.625 degrees, above no limit; the low byte of an earlier one is kept, or none. ALERT is pulled by status. */
static lm89_device with_low(bool lowkept, uint8_t pointer)
{
    lm89_device device = fresh();
    fenced_step(&device, LM89_KIND_CONVERSION, 0x47, 0x18, KEPT);
    if (lowkept) {
        fenced_step(&device, LM89_KIND_READ, HERE, LM89_READ_REMOTE, 0);
    }
    fenced_step(&device, LM89_KIND_CONVERSION, 0x19, 0x19, LATEST);
    fenced_step(&device, LM89_KIND_SEND, HERE, pointer, 0);
    CHECK(device.low == (lowkept ? KEPT : 0) && device.lowkept == lowkept && device.pointer == pointer);
    CHECK(device.sensed.remote == 205 && device.status == LM89_STATUS_LHIGH);
    return device;
}

/* After the event on that device the byte is kept or none is. */
static bool leaves(uint8_t low, bool lowkept, lm89_device device, uint8_t kind, uint8_t a, uint8_t b, uint8_t c)
{
    return fenced_step(&device, kind, a, b, c).code == LM89_CODE_DONE && device.low == low && device.lowkept == lowkept;
}

/* Request a, for every register: a read or receive of 01 keeps, one of 10 lets go, and nothing else at any register does either. */
static void test_what_keeps(bool lowkept)
{
    uint8_t before = lowkept ? KEPT : 0;
    for (unsigned i = 0; i < 256; i++) {
        uint8_t reg = (uint8_t)i;
        bool keeps = reg == LM89_READ_REMOTE;
        bool lets_go = reg == LM89_READ_REMOTE_LOW_BYTE;
        uint8_t low = keeps ? LATEST : lets_go ? 0 : before;
        lm89_device device = with_low(lowkept, LM89_READ_LOCAL);
        CHECK(leaves(low, keeps || (lowkept && !lets_go), device, LM89_KIND_READ, HERE, reg, 0));
        CHECK(leaves(before, lowkept, device, LM89_KIND_READ, LM89_ADDRESS_LM89_1C, reg, 0));
        CHECK(leaves(before, lowkept, device, LM89_KIND_SEND, HERE, reg, 0));
        CHECK(leaves(before, lowkept, device, LM89_KIND_WRITE, HERE, reg, 0xFF));
        if (memchr(known, reg, sizeof known) != NULL) {
            device = with_low(lowkept, reg);
            CHECK(leaves(low, keeps || (lowkept && !lets_go), device, LM89_KIND_RECEIVE, HERE, 0, 0));
            CHECK(leaves(before, lowkept, device, LM89_KIND_RECEIVE, LM89_ADDRESS_LM89_1C, 0, 0));
            CHECK(leaves(before, lowkept, device, LM89_KIND_RECEIVE, LM89_ADDRESS_ALERT_RESPONSE, 0, 0));
        }
    }
}

/* Conversions, taken or not, and an alert response, answered or not, leave a kept byte; power-on lets go. Standby is as run mode. */
static void test_what_stays(bool lowkept)
{
    uint8_t before = lowkept ? KEPT : 0;
    lm89_device device = with_low(lowkept, LM89_READ_REMOTE_LOW_BYTE);
    CHECK(leaves(before, lowkept, device, LM89_KIND_CONVERSION, 0x19, 0x19, 0x20));
    CHECK(leaves(before, lowkept, device, LM89_KIND_OPEN, 0x19, 0, 0));
    CHECK(leaves(0, false, device, LM89_KIND_POWER_ON, 0, 0, 0));
    CHECK(is(fenced_step(&device, LM89_KIND_RECEIVE, LM89_ADDRESS_ALERT_RESPONSE, 0, 0), LM89_CODE_DONE, LM89_ANSWER_ACKNOWLEDGED, 0x99));
    CHECK(is(fenced_step(&device, LM89_KIND_RECEIVE, LM89_ADDRESS_ALERT_RESPONSE, 0, 0), LM89_CODE_DONE, 0, 0));
    CHECK(device.low == before && device.lowkept == lowkept && device.pointer == LM89_READ_REMOTE_LOW_BYTE);
    fenced_step(&device, LM89_KIND_WRITE, HERE, LM89_WRITE_CONFIGURATION, LM89_CONFIGURATION_STANDBY);
    CHECK(leaves(before, lowkept, device, LM89_KIND_CONVERSION, 0x19, 0x19, 0x20));
    fenced_step(&device, LM89_KIND_WRITE, HERE, LM89_WRITE_ONE_SHOT, 0x00);
    CHECK(leaves(before, lowkept, device, LM89_KIND_CONVERSION, 0x19, 0x19, 0x20));
    CHECK(leaves(LATEST, true, device, LM89_KIND_READ, HERE, LM89_READ_REMOTE, 0));
    CHECK(leaves(0, false, device, LM89_KIND_READ, HERE, LM89_READ_REMOTE_LOW_BYTE, 0));
}

/* A device with something in every field, left by a read of 01, a conversion in standby after a one-shot, then a second one-shot. */
static lm89_device busy(void)
{
    lm89_device device = fresh();
    fenced_step(&device, LM89_KIND_CONVERSION, 0x19, 0x19, 0x20);
    fenced_step(&device, LM89_KIND_READ, HERE, LM89_READ_REMOTE, 0);
    fenced_step(&device, LM89_KIND_WRITE, HERE, LM89_WRITE_CONFIGURATION, LM89_CONFIGURATION_STANDBY);
    fenced_step(&device, LM89_KIND_WRITE, HERE, LM89_WRITE_ONE_SHOT, 0x00);
    fenced_step(&device, LM89_KIND_OPEN, 0x60, 0, 0);
    fenced_step(&device, LM89_KIND_WRITE, HERE, LM89_WRITE_ONE_SHOT, 0x00);
    CHECK(device.pending && device.sensed.llatch && device.sensed.rlatch);
    CHECK(device.status == 0x57 && device.sensed.live == 0x57 && device.sensed.faults == 1);
    CHECK(device.low == 0x20 && device.lowkept);
    return device;
}

static void test_kinds(void)
{
    lm89_device device = busy();
    CHECK(refused(&device, LM89_CODE_KIND, 0, 0, 0, 0));
    for (unsigned kind = 8; kind < 256; kind++) {
        CHECK(refused(&device, LM89_CODE_KIND, (uint8_t)kind, 0xFF, 0xFF, 0xFF));
    }
}

/* Request c: a device stepped alone has no second beside it: 3 for 08 and 09 with any operands, those of a good 05 or 06 too. */
static void test_second_kinds(void)
{
    static const uint8_t edges[] = {0x00, 0x01, 0x19, 0x20, 0x7F, 0x80, 0xE0, 0xFF};
    static const uint8_t variants[] = {LM89_VARIANT_LM89C, LM89_VARIANT_LM89_1C, LM89_VARIANT_LM89_1D};
    for (size_t v = 0; v < sizeof variants; v++) {
        lm89_device device = busy();
        device.variant = variants[v];
        for (size_t i = 0; i < sizeof edges; i++) {
            for (size_t j = 0; j < sizeof edges * sizeof edges; j++) {
                uint8_t b = edges[j / sizeof edges];
                uint8_t c = edges[j % sizeof edges];
                CHECK(refused(&device, LM89_CODE_KIND, LM89_KIND_CONVERSION_2, edges[i], b, c));
                CHECK(refused(&device, LM89_CODE_KIND, LM89_KIND_OPEN_2, edges[i], b, c));
            }
        }
    }
}

static void test_operands(void)
{
    static const uint8_t outside[][4] = {
        {LM89_KIND_WRITE, 0x80, 0x09, 0x00},      {LM89_KIND_READ, 0x80, 0x00, 0x00},
        {LM89_KIND_READ, HERE, 0x00, 0x01},       {LM89_KIND_SEND, 0x80, 0x00, 0x00},
        {LM89_KIND_SEND, HERE, 0x00, 0x01},       {LM89_KIND_RECEIVE, 0x80, 0x00, 0x00},
        {LM89_KIND_RECEIVE, HERE, 0x01, 0x00},    {LM89_KIND_RECEIVE, HERE, 0x00, 0x01},
        {LM89_KIND_CONVERSION, 0x19, 0x19, 0x01}, {LM89_KIND_CONVERSION, 0x19, 0x19, 0x10},
        {LM89_KIND_OPEN, 0x19, 0x01, 0x00},       {LM89_KIND_OPEN, 0x19, 0x00, 0x20},
        {LM89_KIND_POWER_ON, 0x01, 0x00, 0x00},   {LM89_KIND_POWER_ON, 0x00, 0x01, 0x00},
        {LM89_KIND_POWER_ON, 0x00, 0x00, 0x01},
    };
    lm89_device device = busy();
    for (unsigned i = 0; i < sizeof outside / sizeof outside[0]; i++) {
        const uint8_t *q = outside[i];
        CHECK(refused(&device, LM89_CODE_OPERAND, q[0], q[1], q[2], q[3]));
    }
}

/* Code 8 for the device, before 3 and before 4. */
static bool out_of_range(lm89_device device)
{
    return refused(&device, LM89_CODE_RANGE, LM89_KIND_POWER_ON, 0, 0, 0)
        && refused(&device, LM89_CODE_RANGE, 0, 0, 0, 0)
        && refused(&device, LM89_CODE_RANGE, LM89_KIND_CONVERSION_2, 0x19, 0x19, 0x00)
        && refused(&device, LM89_CODE_RANGE, LM89_KIND_OPEN_2, 0x19, 0x01, 0x00)
        && refused(&device, LM89_CODE_RANGE, LM89_KIND_POWER_ON, 1, 0, 0);
}

static void test_zeros(void)
{
    lm89_device device = zeros();
    lm89_device zero = zeros();
    CHECK(is(lm89_step(&device, LM89_KIND_READ, HERE, 0x00, 0), LM89_CODE_RANGE, 0, 0));
    CHECK(same(&device, &zero));
    CHECK(out_of_range(device));
}

#define OUT_OF_RANGE(field, value)     \
    do {                               \
        lm89_device device = busy();   \
        device.field = (value);        \
        CHECK(out_of_range(device));   \
    } while (0)

static void test_ranges(void)
{
    OUT_OF_RANGE(variant, 0);
    OUT_OF_RANGE(variant, 4);
    OUT_OF_RANGE(pointer, 0x30);
    OUT_OF_RANGE(status, 0x80);
    OUT_OF_RANGE(low, 1);
    OUT_OF_RANGE(low, 16);
    OUT_OF_RANGE(low, 33);
    OUT_OF_RANGE(low, 0xFF);
    OUT_OF_RANGE(lowkept, false);
    OUT_OF_RANGE(settings[LM89_SETTING_CONFIGURATION], 0x00);
    OUT_OF_RANGE(sensed.live, 0x80);
    OUT_OF_RANGE(sensed.faults, 4);
    OUT_OF_RANGE(sensed.remote, 1024);
    OUT_OF_RANGE(sensed.remote, -1025);
    for (unsigned i = 0; i < LM89_SETTINGS; i++) {
        if (kept[i] != 0xFF) {
            OUT_OF_RANGE(settings[i], 0xFF);
        }
    }
}

/* Request a: of the 512 contents of the two fields nine are in range, and a read of 10 gives the kept byte, or the latest. */
static void test_low_ranges(void)
{
    static const uint8_t multiples[] = {0x00, 0x20, 0x40, 0x60, 0x80, 0xA0, 0xC0, 0xE0};
    unsigned in_range = 0;
    for (unsigned i = 0; i < 512; i++) {
        lm89_device device = with_low(false, LM89_READ_REMOTE_LOW_BYTE);
        device.low = (uint8_t)i;
        device.lowkept = i >= 256;
        bool fits = device.lowkept && memchr(multiples, device.low, sizeof multiples) != NULL;
        if (!fits && (device.lowkept || device.low != 0)) {
            CHECK(out_of_range(device));
            continue;
        }
        lm89_device expected = device;
        expected.low = 0;
        expected.lowkept = false;
        uint8_t byte = device.lowkept ? device.low : LATEST;
        lm89_answer answer = fenced_step(&device, LM89_KIND_RECEIVE, HERE, 0, 0);
        CHECK(is(answer, LM89_CODE_DONE, LM89_ANSWER_ACKNOWLEDGED | LM89_ANSWER_ALERT, byte));
        CHECK(same(&device, &expected));
        in_range++;
    }
    CHECK(in_range == sizeof multiples + 1);
}

/* Request g: eighteen bytes in the order of registers 50h to 5Fh, then hysteresis and frequency. The library takes each for the number that it is. */
static void test_fan(void)
{
    static const uint8_t bytes[] = {10, 1, 20, 2, 30, 3, 40, 4, 50, 5, 60, 6, 70, 7, 80, 8, 5, 16};
    static const uint16_t duties[LM89_FAN_ENTRIES] = {313, 625, 938, 1250, 1563, 1875, 2188, 2500}; /* of 32, ties upward */
    lm89_fan fan;
    CHECK(sizeof bytes == sizeof fan);
    memcpy(&fan, bytes, sizeof fan);
    CHECK(fan.hysteresis == 5 && fan.frequency == 16);
    for (uint8_t i = 0; i < LM89_FAN_ENTRIES; i++) {
        int8_t temperature = (int8_t)(10 * (i + 1));
        CHECK(fan.table[i][LM89_FAN_TEMPERATURE] == temperature && fan.table[i][LM89_FAN_VALUE] == i + 1);
        lm89_driven driven = lm89_fan_step(fan, 0, temperature);
        CHECK(driven.code == LM89_CODE_DONE && driven.step == i + 1 && driven.value == i + 1 && driven.duty == duties[i]);
        driven = lm89_fan_step(fan, (uint8_t)(i + 1), (int8_t)(temperature - fan.hysteresis));
        CHECK(driven.code == LM89_CODE_DONE && driven.step == i + 1 && driven.value == i + 1 && driven.duty == duties[i]);
        lm89_number number = lm89_fan_duty(fan.frequency, fan.table[i][LM89_FAN_VALUE]);
        CHECK(number.code == LM89_CODE_DONE && number.value == duties[i]);
    }
}

/* So many bytes as a number, the lowest first. */
static uint64_t number(const uint8_t *bytes, size_t length)
{
    return length == 0 ? 0 : bytes[0] + 256 * number(bytes + 1, length - 1);
}

/* The answer's fields, and its bytes 0, 4 to 7, 8 to 11 and 16 to 23. */
static bool tells(lm89_speeds speeds, uint8_t code, uint32_t slowest, uint32_t fastest, uint64_t under)
{
    uint8_t bytes[sizeof speeds];
    memcpy(bytes, &speeds, sizeof bytes);
    return speeds.code == code && speeds.slowest == slowest && speeds.fastest == fastest && speeds.under == under && bytes[0] == code &&
        number(bytes + 4, 4) == slowest && number(bytes + 8, 4) == fastest && number(bytes + 16, 8) == under;
}

/* Request h: a stamp is two bytes, the lowest first. These are 65,529, 0, 2,700 and 259, so that periods are 7, 2,700 and 63,095. */
static void test_tach(void)
{
    static const uint8_t bytes[] = {0xF9, 0xFF, 0x00, 0x00, 0x8C, 0x0A, 0x03, 0x01};
    uint16_t stamps[4];
    CHECK(sizeof bytes == sizeof stamps);
    memcpy(stamps, bytes, sizeof stamps);
    CHECK(tells(lm89_tach(stamps, 4, 771428), LM89_CODE_DONE, 85, 771428, 2));
    CHECK(tells(lm89_tach(stamps, 4, 771429), LM89_CODE_DONE, 85, 771428, 3));
    CHECK(tells(lm89_tach(stamps, 3, 2000), LM89_CODE_DONE, 2000, 771428, 0));
    CHECK(tells(lm89_tach(stamps, 1, 2000), LM89_CODE_FEW_STAMPS, 0, 0, 0));
    stamps[3] = stamps[2];
    CHECK(tells(lm89_tach(stamps, 4, 2000), LM89_CODE_EQUAL_STAMPS, 0, 0, 0));
}

int main(void)
{
    test_version();
    test_power_on();
    test_pointer();
    test_writes();
    test_conversions();
    test_faults();
    test_status_read();
    test_pending();
    test_pair();
    test_what_keeps(false);
    test_what_keeps(true);
    test_what_stays(false);
    test_what_stays(true);
    test_kinds();
    test_second_kinds();
    test_operands();
    test_zeros();
    test_ranges();
    test_low_ranges();
    test_fan();
    test_tach();
    return 0;
}
