/*
 * lm89_fresh, lm89_feed and lm89_finish, on one device and on two: header, room, held codes, empty parts, readers out of their ranges, a
 * capture cut anywhere. With a capture in FILE: the same in parts of several sizes and with several rooms, against lm89_run.
 */
#include <string.h>

#include "check.h"
#include "lm89.h"
#include "same_device.h"

#define UNTOUCHED 0xA7
#define GUARD 16
#define ROOM 32 /* for every answer of a capture below */
#define LARGEST_BLOCK 65536
#define ROOM_FOR(length) ((length) / 2 + 2) /* for every answer that so many bytes may complete */

/* A capture, the bytes of its header, and the answers that it must give. */
typedef struct {
    const uint8_t *bytes;
    size_t length;
    size_t header;
    const uint8_t *answers;
    size_t written;
} expectation;

#define EXPECTATION(capture, header, answers) {(capture), sizeof(capture), (header), (answers), sizeof(answers)}

/* One device, two records: a write of the local high limit, and a read of it. */
static const uint8_t one_bytes[] = {
    0x01, LM89_VARIANT_LM89_1C, 0x00, 0x00, 0x00, 0x02,
    LM89_KIND_WRITE, LM89_ADDRESS_LM89_1C, LM89_WRITE_LOCAL_HIGH_LIMIT, 0x50,
    LM89_KIND_READ, LM89_ADDRESS_LM89_1C, LM89_READ_LOCAL_HIGH_LIMIT, 0x00,
};

static const uint8_t one_answers[] = {0x04, 0x00, 0x04, 0x50};

static const expectation one = EXPECTATION(one_bytes, LM89_HEADER_BYTES, one_answers);

/*
 * Two devices, the one of the higher address first in the header; each is above its remote high limit of 70. Worked by hand: the alert
 * responses are answered by 4Ch, then by 4Dh; the low byte that 4Ch keeps is its own; power-on restarts both.
 */
static const uint8_t both_bytes[] = {
    0x02, LM89_VARIANT_LM89_1C, LM89_VARIANT_LM89C, 0x00, 0x00, 0x00, 0x0E,
    LM89_KIND_CONVERSION, 0x19, 0x48, 0x00,
    LM89_KIND_CONVERSION_2, 0x19, 0x47, 0xE0,
    LM89_KIND_RECEIVE, LM89_ADDRESS_ALERT_RESPONSE, 0x00, 0x00,
    LM89_KIND_RECEIVE, LM89_ADDRESS_ALERT_RESPONSE, 0x00, 0x00,
    LM89_KIND_RECEIVE, LM89_ADDRESS_ALERT_RESPONSE, 0x00, 0x00,
    LM89_KIND_READ, LM89_ADDRESS_LM89C, LM89_READ_REMOTE, 0x00,
    LM89_KIND_CONVERSION_2, 0x19, 0x19, 0x20,
    LM89_KIND_READ, LM89_ADDRESS_LM89_1C, LM89_READ_REMOTE_LOW_BYTE, 0x00,
    LM89_KIND_READ, LM89_ADDRESS_LM89C, LM89_READ_REMOTE_LOW_BYTE, 0x00,
    LM89_KIND_OPEN_2, 0x7F, 0x00, 0x00,
    LM89_KIND_OPEN, 0x19, 0x00, 0x00,
    LM89_KIND_POWER_ON, 0x00, 0x00, 0x00,
    LM89_KIND_READ, LM89_ADDRESS_LM89C, LM89_READ_CONFIGURATION, 0x00,
    LM89_KIND_READ, LM89_ADDRESS_LM89_1C, LM89_READ_CONFIGURATION, 0x00,
};

static const uint8_t both_answers[] = {
    0x09, 0x00, 0x09, 0x00, 0x05, 0x99, 0x04, 0x9B, 0x00, 0x00, 0x04, 0x47, 0x08, 0x00,
    0x04, 0x00, 0x04, 0xE0, 0x0A, 0x00, 0x0A, 0x00, 0x00, 0x00, 0x04, 0x00, 0x04, 0x00,
};

static const expectation both = EXPECTATION(both_bytes, LM89_HEADER_2_BYTES, both_answers);

/* Request a: 50.125 degrees, its high byte read, then 51.875, then register 10 twice: the kept low byte, and the latest. */
static const uint8_t pair_bytes[] = {
    0x01, LM89_VARIANT_LM89C, 0x00, 0x00, 0x00, 0x05,
    LM89_KIND_CONVERSION, 0x19, 0x32, 0x20,
    LM89_KIND_READ, LM89_ADDRESS_LM89C, LM89_READ_REMOTE, 0x00,
    LM89_KIND_CONVERSION, 0x19, 0x33, 0xE0,
    LM89_KIND_READ, LM89_ADDRESS_LM89C, LM89_READ_REMOTE_LOW_BYTE, 0x00,
    LM89_KIND_RECEIVE, LM89_ADDRESS_LM89C, 0x00, 0x00,
};

static const uint8_t pair_answers[] = {0x08, 0x00, 0x04, 0x32, 0x08, 0x00, 0x04, 0x20, 0x04, 0xE0};

static const expectation pair = EXPECTATION(pair_bytes, LM89_HEADER_BYTES, pair_answers);

static bool all(const uint8_t *bytes, size_t length, uint8_t value)
{
    for (size_t i = 0; i < length; i++) {
        if (bytes[i] != value) {
            return false;
        }
    }
    return true;
}

static bool same_bus(const lm89_bus *x, const lm89_bus *y)
{
    return x->devices == y->devices && same_device(&x->first, &y->first) && same_device(&x->second, &y->second);
}

static bool same_reader(const lm89_reader *x, const lm89_reader *y)
{
    return x->head == y->head && x->count == y->count && x->done == y->done && x->carried == y->carried
        && memcmp(x->bytes, y->bytes, sizeof x->bytes) == 0 && x->held == y->held && same_bus(&x->bus, &y->bus);
}

/* One call, with this room in front of a guard; what it writes goes to the front of answers, and no byte behind it is touched. */
static lm89_fed guarded_feed(lm89_reader reader, const uint8_t *part, size_t length, uint8_t *answers, size_t room)
{
    static uint8_t guarded[ROOM_FOR(LARGEST_BLOCK) + GUARD];
    CHECK(room + GUARD <= sizeof guarded);
    memset(guarded, UNTOUCHED, room + GUARD);
    lm89_fed fed = lm89_feed(reader, part, length, guarded, room);
    CHECK(fed.consumed <= length && fed.written <= room);
    CHECK(all(guarded + fed.written, room + GUARD - fed.written, UNTOUCHED));
    memcpy(answers, guarded, fed.written);
    return fed;
}

/* Nothing is consumed or written, and the reader is as it was; the code is this one, also at the end. */
static bool stands(lm89_reader reader, uint8_t fed_code, uint8_t finish_code, const uint8_t *part, size_t length, size_t room)
{
    uint8_t answers[ROOM];
    lm89_fed fed = guarded_feed(reader, part, length, answers, room);
    return fed.code == fed_code && fed.consumed == 0 && fed.written == 0 && same_reader(&fed.reader, &reader)
        && lm89_finish(reader) == finish_code;
}

static bool empty_part_stands(lm89_reader reader, uint8_t fed_code, uint8_t finish_code)
{
    lm89_fed fed = lm89_feed(reader, NULL, 0, NULL, 0);
    return fed.code == fed_code && fed.consumed == 0 && fed.written == 0 && same_reader(&fed.reader, &reader)
        && stands(reader, fed_code, finish_code, one.bytes, 0, ROOM);
}

/* The code lasts, whatever comes. */
static bool holds(lm89_reader reader, uint8_t code)
{
    return reader.held == code && empty_part_stands(reader, code, code) && stands(reader, code, code, one.bytes, one.length, ROOM)
        && stands(reader, code, code, both.bytes, both.length, ROOM)
        && stands(reader, code, code, one.bytes + one.header, LM89_RECORD_BYTES, 0);
}

/* The reader after so many bytes of a capture. */
static lm89_reader after(const expectation *capture, size_t length)
{
    uint8_t answers[ROOM];
    lm89_fed fed = guarded_feed(lm89_fresh(), capture->bytes, length, answers, ROOM);
    CHECK(fed.code == LM89_CODE_DONE && fed.consumed == length);
    CHECK(fed.written <= capture->written && memcmp(answers, capture->answers, fed.written) == 0);
    return fed.reader;
}

static void test_fresh(void)
{
    lm89_reader zeros = {0};
    lm89_reader fresh = lm89_fresh();
    CHECK(same_reader(&fresh, &zeros));
    CHECK(empty_part_stands(fresh, LM89_CODE_DONE, LM89_CODE_CUT_SHORT));
}

/* Each device stands as after power-on at its variant byte, and is all zeros before. */
static void check_bus(const expectation *capture, size_t length, const lm89_bus *bus)
{
    const uint8_t *bytes = capture->bytes;
    bool second = bytes[0] == 2 && length >= 3;
    lm89_device first_fresh = lm89_power_on(length >= 2 ? bytes[1] : 0);
    lm89_device second_fresh = lm89_power_on(second ? bytes[2] : 0);
    CHECK(bus->devices == (length >= 1 ? bytes[0] : 0));
    CHECK(same_device(&bus->first, &first_fresh) && same_device(&bus->second, &second_fresh));
}

static void test_prefixes(const expectation *capture)
{
    const uint32_t records = (uint32_t)(capture->written / LM89_ANSWER_BYTES);
    for (size_t length = 0; length <= capture->length; length++) {
        lm89_reader reader = after(capture, length);
        bool complete = length >= capture->header;
        size_t behind = complete ? length - capture->header : 0;
        CHECK(reader.head == (complete ? capture->header : length));
        CHECK(reader.count == (complete ? records : 0u));
        CHECK(reader.done == behind / LM89_RECORD_BYTES);
        CHECK(reader.carried == behind % LM89_RECORD_BYTES);
        CHECK(memcmp(reader.bytes, capture->bytes + length - reader.carried, reader.carried) == 0);
        CHECK(empty_part_stands(reader, LM89_CODE_DONE, length == capture->length ? LM89_CODE_DONE : LM89_CODE_CUT_SHORT));
        if (length <= capture->header) {
            check_bus(capture, length, &reader.bus);
        }
    }
}

/* The count so far is the number that its bytes make, behind one variant or two. */
static void test_count_bytes(void)
{
    static const uint8_t headers[][LM89_HEADER_2_BYTES] = {{1, 3, 0x12, 0x34, 0x56, 0x78}, {2, 1, 3, 0x12, 0x34, 0x56, 0x78}};
    static const uint32_t counts[] = {0, 0x12, 0x1234, 0x123456, 0x12345678};
    for (size_t i = 0; i < sizeof headers / sizeof headers[0]; i++) {
        size_t before = 1 + headers[i][0];
        for (size_t taken = 0; taken < sizeof counts / sizeof counts[0]; taken++) {
            uint8_t answers[ROOM];
            lm89_fed fed = guarded_feed(lm89_fresh(), headers[i], before + taken, answers, ROOM);
            CHECK(fed.code == LM89_CODE_DONE && fed.consumed == before + taken && fed.reader.head == before + taken);
            CHECK(fed.reader.count == counts[taken] && lm89_finish(fed.reader) == LM89_CODE_CUT_SHORT);
        }
    }
}

/* A valid record waits at its fourth byte until there is room; a refused one does not wait. */
static void test_room(const expectation *capture)
{
    uint8_t answers[ROOM];
    uint8_t refused = 0xFF;
    for (size_t room = 0; room < capture->written; room++) {
        size_t done = room / LM89_ANSWER_BYTES;
        size_t fourth = capture->header + LM89_RECORD_BYTES * done + 3;
        lm89_fed fed = guarded_feed(lm89_fresh(), capture->bytes, capture->length, answers, room);
        CHECK(fed.code == LM89_CODE_NO_ROOM && fed.consumed == fourth && fed.written == LM89_ANSWER_BYTES * done);
        CHECK(memcmp(answers, capture->answers, fed.written) == 0);
        CHECK(fed.reader.carried == 3 && fed.reader.done == done && fed.reader.held == 0);
        CHECK(empty_part_stands(fed.reader, LM89_CODE_DONE, LM89_CODE_CUT_SHORT));
        lm89_reader waiting = fed.reader;
        for (size_t less = 0; less < LM89_ANSWER_BYTES; less++) {
            fed = guarded_feed(waiting, capture->bytes + fourth, 1, answers, less);
            CHECK(fed.code == LM89_CODE_NO_ROOM && fed.consumed == 0 && fed.written == 0 && same_reader(&fed.reader, &waiting));
        }
        fed = guarded_feed(waiting, capture->bytes + fourth, 1, answers, LM89_ANSWER_BYTES);
        CHECK(fed.code == LM89_CODE_DONE && fed.consumed == 1 && fed.written == LM89_ANSWER_BYTES);
        CHECK(memcmp(answers, capture->answers + LM89_ANSWER_BYTES * done, LM89_ANSWER_BYTES) == 0);
        CHECK(fed.reader.done == done + 1 && fed.reader.carried == 0);
        if (capture->bytes[capture->header + LM89_RECORD_BYTES * done] != LM89_KIND_WRITE) {
            fed = guarded_feed(waiting, &refused, 1, answers, room % LM89_ANSWER_BYTES);
            CHECK(fed.code == LM89_CODE_OPERAND && fed.consumed == 0 && fed.written == 0);
        }
    }
}

/* The capture with one byte changed is refused there, or at its record's fourth byte. */
static void refuses(const expectation *capture, size_t at, uint8_t byte, uint8_t code, size_t consumed)
{
    uint8_t changed[sizeof both_bytes];
    uint8_t answers[ROOM];
    memcpy(changed, capture->bytes, capture->length);
    changed[at] = byte;
    lm89_fed fed = guarded_feed(lm89_fresh(), changed, capture->length, answers, ROOM);
    CHECK(fed.code == code && fed.consumed == consumed);
    CHECK(memcmp(answers, capture->answers, fed.written) == 0);
    CHECK(holds(fed.reader, code));
}

static void test_held(void)
{
    refuses(&one, 0, 0, LM89_CODE_DEVICE_COUNT, 0);
    refuses(&one, 0, 3, LM89_CODE_DEVICE_COUNT, 0);
    refuses(&one, 1, 0, LM89_CODE_VARIANT, 1);
    refuses(&one, 1, 4, LM89_CODE_VARIANT, 1);
    refuses(&one, LM89_HEADER_BYTES, 8, LM89_CODE_KIND, 9);
    refuses(&one, LM89_HEADER_BYTES + 4, 0, LM89_CODE_KIND, 13);
    refuses(&one, LM89_HEADER_BYTES + 1, 0x80, LM89_CODE_OPERAND, 9);
    refuses(&one, LM89_HEADER_BYTES + 7, 1, LM89_CODE_OPERAND, 13);
    refuses(&one, 5, 0, LM89_CODE_PAST_END, 6);
    refuses(&one, 5, 1, LM89_CODE_PAST_END, 10);
}

/* Request c. Record i of the capture of two begins at byte 7 + 4 * i: its first is an 05, its second an 08, its tenth an 09. */
static void test_held_of_two(void)
{
    refuses(&both, 0, 0, LM89_CODE_DEVICE_COUNT, 0);
    refuses(&both, 0, 3, LM89_CODE_DEVICE_COUNT, 0);
    refuses(&both, 1, 4, LM89_CODE_VARIANT, 1);
    refuses(&both, 1, 1, LM89_CODE_ADDRESS, 2);
    refuses(&both, 2, 0, LM89_CODE_VARIANT, 2);
    refuses(&both, 2, 4, LM89_CODE_VARIANT, 2);
    refuses(&both, 2, 2, LM89_CODE_ADDRESS, 2);
    refuses(&both, 2, 3, LM89_CODE_ADDRESS, 2);
    refuses(&both, 6, 0, LM89_CODE_PAST_END, 7);
    refuses(&both, 6, 13, LM89_CODE_PAST_END, 59);
    refuses(&both, 7, 10, LM89_CODE_KIND, 10);
    refuses(&both, 11, 0, LM89_CODE_KIND, 14);
    refuses(&both, 14, 0x10, LM89_CODE_OPERAND, 14);
    refuses(&both, 45, 1, LM89_CODE_OPERAND, 46);
    refuses(&both, 46, 0x20, LM89_CODE_OPERAND, 46);
}

/* Request c: where the count is 1, kinds 08 and 09 are refused as kinds, with operands of the table (in the second record 05 00, in the last 00 00) too. */
static void test_second_kinds_of_one(void)
{
    for (uint8_t kind = LM89_KIND_CONVERSION_2; kind <= LM89_KIND_OPEN_2; kind++) {
        refuses(&one, LM89_HEADER_BYTES, kind, LM89_CODE_KIND, 9);
        refuses(&one, LM89_HEADER_BYTES + 4, kind, LM89_CODE_KIND, 13);
        refuses(&pair, pair.length - 4, kind, LM89_CODE_KIND, pair.length - 1);
    }
}

/* Each first header byte, each first variant behind a good one, and each second behind two: 1; 2; 2, then 9. */
static void test_header_bytes(void)
{
    uint8_t answers[ROOM];
    for (unsigned byte = 0; byte < 256; byte++) {
        bool part = 1 <= byte && byte <= 3;
        for (uint8_t variant = 1; variant <= 3; variant++) {
            const uint8_t header[] = {2, variant, (uint8_t)byte};
            bool alike = (byte == 1) == (variant == 1);
            uint8_t code = !part ? LM89_CODE_VARIANT : alike ? LM89_CODE_ADDRESS : LM89_CODE_DONE;
            lm89_fed fed = guarded_feed(lm89_fresh(), header, 3, answers, ROOM);
            CHECK(fed.code == code && fed.consumed == (code == LM89_CODE_DONE ? 3 : 2) && fed.written == 0);
            CHECK(code == LM89_CODE_DONE ? lm89_finish(fed.reader) == LM89_CODE_CUT_SHORT : holds(fed.reader, code));
            CHECK(fed.reader.bus.devices == 2 && fed.reader.bus.first.variant == variant);
            CHECK(fed.reader.bus.second.variant == (code == LM89_CODE_DONE ? byte : 0));
        }
        for (uint8_t devices = 1; devices <= 2; devices++) {
            const uint8_t header[] = {devices, (uint8_t)byte};
            uint8_t code = part ? LM89_CODE_DONE : LM89_CODE_VARIANT;
            lm89_fed fed = guarded_feed(lm89_fresh(), header, 2, answers, ROOM);
            CHECK(fed.code == code && fed.consumed == (part ? 2 : 1) && fed.reader.bus.devices == devices);
        }
        const uint8_t count = (uint8_t)byte;
        bool counted = byte == 1 || byte == 2;
        lm89_fed fed = guarded_feed(lm89_fresh(), &count, 1, answers, ROOM);
        CHECK(fed.code == (counted ? LM89_CODE_DONE : LM89_CODE_DEVICE_COUNT) && fed.consumed == (counted ? 1 : 0));
        CHECK(fed.reader.bus.devices == (counted ? byte : 0));
    }
}

static bool out_of_range(lm89_reader reader)
{
    return empty_part_stands(reader, LM89_CODE_RANGE, LM89_CODE_RANGE)
        && stands(reader, LM89_CODE_RANGE, LM89_CODE_RANGE, one.bytes, one.length, ROOM)
        && stands(reader, LM89_CODE_RANGE, LM89_CODE_RANGE, both.bytes, both.length, 0);
}

/* A reader after so many bytes of a capture, with one field changed. */
#define OUT_OF_RANGE(capture, length, field, value)  \
    do {                                             \
        lm89_reader reader = after(capture, length); \
        reader.field = (value);                      \
        CHECK(out_of_range(reader));                 \
    } while (0)

#define IN_RANGE(capture, length, field, value)                                            \
    do {                                                                                   \
        lm89_reader reader = after(capture, length);                                       \
        reader.field = (value);                                                            \
        CHECK(empty_part_stands(reader, LM89_CODE_DONE, LM89_CODE_CUT_SHORT));             \
    } while (0)

#define BEHIND_HEADER 6 /* one record is done, two bytes are carried: so many bytes behind the header */

static void test_reader_ranges(const expectation *capture)
{
    const size_t in_record = capture->header + BEHIND_HEADER;
    const uint32_t records = (uint32_t)(capture->written / LM89_ANSWER_BYTES);
    for (size_t head = 0; head < capture->header; head++) {
        size_t count_bytes = head + 4 > capture->header ? head + 4 - capture->header : 0;
        uint32_t above = (uint32_t)1 << 8 * count_bytes;
        OUT_OF_RANGE(capture, head, count, above);
        IN_RANGE(capture, head, count, above - 1);
        OUT_OF_RANGE(capture, head, done, 1);
        OUT_OF_RANGE(capture, head, carried, 1);
        OUT_OF_RANGE(capture, head, bytes[0], 1);
    }
    OUT_OF_RANGE(capture, capture->header, head, (uint8_t)(capture->header + 1));
    OUT_OF_RANGE(capture, capture->header, head, 255);
    OUT_OF_RANGE(capture, in_record, head, (uint8_t)(capture->header - 1));
    OUT_OF_RANGE(capture, in_record, done, records);
    OUT_OF_RANGE(capture, in_record, done, records + 1);
    OUT_OF_RANGE(capture, in_record, carried, 4);
    OUT_OF_RANGE(capture, in_record, carried, 1);
    OUT_OF_RANGE(capture, in_record, bytes[2], 1);
    OUT_OF_RANGE(capture, capture->length, carried, 1);
    OUT_OF_RANGE(capture, capture->length, done, records + 1);
    IN_RANGE(capture, in_record, count, UINT32_MAX);
    IN_RANGE(capture, in_record, carried, 3);
    IN_RANGE(capture, in_record, bytes[0], 0xFF);
}

/* A held code is 0 to 5 or 9, at every stage and with either device count. */
static void test_held_ranges(const expectation *capture)
{
    for (size_t length = 0; length <= capture->length; length++) {
        for (unsigned held = 1; held < 256; held++) {
            lm89_reader reader = after(capture, length);
            reader.held = (uint8_t)held;
            bool lasting = held <= LM89_CODE_PAST_END || held == LM89_CODE_ADDRESS;
            CHECK(lasting ? holds(reader, (uint8_t)held) : out_of_range(reader));
        }
    }
}

/* Before the header is complete nothing is carried and no record is done, also where the count so far allows both. */
static void test_count_so_far(const expectation *capture)
{
    for (size_t head = capture->header - 3; head < capture->header; head++) {
        lm89_reader reader = after(capture, head);
        reader.count = 2;
        CHECK(empty_part_stands(reader, LM89_CODE_DONE, LM89_CODE_CUT_SHORT));
        reader.carried = 1;
        CHECK(out_of_range(reader));
        reader.carried = 0;
        reader.done = 1;
        CHECK(out_of_range(reader));
    }
}

/* Request c: every number of header bytes with every device count, the second device powered on or all zeros. */
static void test_device_counts(void)
{
    for (unsigned head = 0; head < 256; head++) {
        for (unsigned devices = 0; devices < 256; devices++) {
            bool counted = head == 0 ? devices == 0 : devices == 1 || devices == 2;
            bool placed = counted && head <= 5 + devices;
            bool second = devices == 2 && head >= 3;
            lm89_reader reader = lm89_fresh();
            reader.head = (uint8_t)head;
            reader.bus.devices = (uint8_t)devices;
            reader.bus.first = lm89_power_on(LM89_VARIANT_LM89C);
            uint8_t code = placed && head == 5 + devices ? LM89_CODE_DONE : LM89_CODE_CUT_SHORT;
            CHECK(placed && !second ? empty_part_stands(reader, LM89_CODE_DONE, code) : out_of_range(reader));
            reader.bus.second = lm89_power_on(LM89_VARIANT_LM89_1D);
            CHECK(placed && second ? empty_part_stands(reader, LM89_CODE_DONE, code) : out_of_range(reader));
        }
    }
}

/* The ranges of a device at this place of the reader. */
#define DEVICE_RANGES(capture, length, place)                                          \
    do {                                                                               \
        OUT_OF_RANGE(capture, length, place.pointer, 0x30);                            \
        OUT_OF_RANGE(capture, length, place.pending, true);                            \
        OUT_OF_RANGE(capture, length, place.status, 0x80);                             \
        OUT_OF_RANGE(capture, length, place.settings[LM89_SETTING_CONFIGURATION], 2);  \
        OUT_OF_RANGE(capture, length, place.settings[LM89_SETTING_HYSTERESIS], 0x20);  \
        OUT_OF_RANGE(capture, length, place.settings[LM89_SETTING_FILTER], 0x08);      \
        OUT_OF_RANGE(capture, length, place.low, 0x20);                                \
        OUT_OF_RANGE(capture, length, place.sensed.live, 0x80);                        \
        OUT_OF_RANGE(capture, length, place.sensed.faults, 4);                         \
        OUT_OF_RANGE(capture, length, place.sensed.remote, 1024);                      \
        OUT_OF_RANGE(capture, length, place.sensed.remote, -1025);                     \
        IN_RANGE(capture, length, place.pointer, LM89_WRITE_ONE_SHOT);                 \
        IN_RANGE(capture, length, place.status, 0x7F);                                 \
        IN_RANGE(capture, length, place.settings[LM89_SETTING_CONFIGURATION], 0xD5);   \
        IN_RANGE(capture, length, place.settings[LM89_SETTING_RATE], 0xFF);            \
        IN_RANGE(capture, length, place.lowkept, true);                                \
        IN_RANGE(capture, length, place.sensed.local, 0xFF);                           \
        IN_RANGE(capture, length, place.sensed.live, 0x7F);                            \
        IN_RANGE(capture, length, place.sensed.faults, 3);                             \
        IN_RANGE(capture, length, place.sensed.llatch, true);                          \
        IN_RANGE(capture, length, place.sensed.rlatch, true);                          \
        IN_RANGE(capture, length, place.sensed.remote, 1023);                          \
        IN_RANGE(capture, length, place.sensed.remote, -1024);                         \
    } while (0)

static void test_device_ranges(void)
{
    for (size_t length = 0; length <= LM89_HEADER_BYTES + BEHIND_HEADER; length++) {
        DEVICE_RANGES(&one, length, bus.first);
    }
    for (size_t length = 0; length <= LM89_HEADER_2_BYTES + BEHIND_HEADER; length++) {
        DEVICE_RANGES(&both, length, bus.first);
    }
    for (size_t length = 3; length <= LM89_HEADER_2_BYTES + BEHIND_HEADER; length++) {
        DEVICE_RANGES(&both, length, bus.second);
    }
}

/* Variants are 1 to 3 once they are taken, and then, of two devices, have two addresses. Of the two here the first has 4Dh, the second 4Ch. */
static void test_variant_ranges(void)
{
    for (size_t length = 0; length <= LM89_HEADER_2_BYTES + BEHIND_HEADER; length++) {
        for (unsigned variant = 0; variant < 256; variant++) {
            bool part = 1 <= variant && variant <= 3;
            lm89_reader reader = after(&both, length);
            reader.bus.first.variant = (uint8_t)variant;
            bool fits = length < 2 || (length < 3 ? part : variant == 2 || variant == 3);
            CHECK(fits ? empty_part_stands(reader, LM89_CODE_DONE, LM89_CODE_CUT_SHORT) : out_of_range(reader));
            reader = after(&both, length);
            reader.bus.second.variant = (uint8_t)variant;
            fits = length < 3 ? variant == 0 : variant == 1;
            CHECK(fits ? empty_part_stands(reader, LM89_CODE_DONE, LM89_CODE_CUT_SHORT) : out_of_range(reader));
        }
    }
    for (size_t length = 0; length <= LM89_HEADER_BYTES; length++) {
        for (unsigned variant = 0; variant < 256; variant++) {
            lm89_reader reader = after(&one, length);
            reader.bus.first.variant = (uint8_t)variant;
            bool fits = length < 2 || (1 <= variant && variant <= 3);
            CHECK(fits ? empty_part_stands(reader, LM89_CODE_DONE, LM89_CODE_CUT_SHORT) : out_of_range(reader));
        }
    }
}

/* A second device that is absent is all zeros, in every field. */
static void check_absent(const expectation *capture, size_t length)
{
    OUT_OF_RANGE(capture, length, bus.second.variant, 1);
    OUT_OF_RANGE(capture, length, bus.second.pointer, LM89_READ_REMOTE);
    OUT_OF_RANGE(capture, length, bus.second.pending, true);
    OUT_OF_RANGE(capture, length, bus.second.status, 1);
    OUT_OF_RANGE(capture, length, bus.second.low, 0x20);
    OUT_OF_RANGE(capture, length, bus.second.lowkept, true);
    OUT_OF_RANGE(capture, length, bus.second.sensed.local, 1);
    OUT_OF_RANGE(capture, length, bus.second.sensed.remote, 1);
    OUT_OF_RANGE(capture, length, bus.second.sensed.remote, -1);
    OUT_OF_RANGE(capture, length, bus.second.sensed.live, 1);
    OUT_OF_RANGE(capture, length, bus.second.sensed.faults, 1);
    OUT_OF_RANGE(capture, length, bus.second.sensed.llatch, true);
    OUT_OF_RANGE(capture, length, bus.second.sensed.rlatch, true);
    for (size_t i = 0; i < LM89_SETTINGS; i++) {
        OUT_OF_RANGE(capture, length, bus.second.settings[i], 1);
    }
    OUT_OF_RANGE(capture, length, bus.second, lm89_power_on(LM89_VARIANT_LM89C));
    OUT_OF_RANGE(capture, length, bus.second, lm89_power_on(LM89_VARIANT_LM89_1C));
}

static void test_absent(void)
{
    for (size_t length = 0; length <= one.length; length++) {
        check_absent(&one, length);
    }
    for (size_t length = 0; length < 3; length++) {
        check_absent(&both, length);
    }
}

/* A reader after so many bytes of the two records, with these two fields of its device. */
static lm89_reader with_low(size_t length, uint8_t low, bool lowkept)
{
    lm89_reader reader = after(&one, length);
    reader.bus.first.low = low;
    reader.bus.first.lowkept = lowkept;
    return reader;
}

/* Request a: a kept byte is a multiple of 32, and 0 where none is kept; at every stage, the variant not yet taken too. */
static void test_low_ranges(void)
{
    static const uint8_t outside[] = {1, 16, 31, 33, 0xE1, 0xFF};
    static const uint8_t multiples[] = {0x00, 0x20, 0x40, 0x60, 0x80, 0xA0, 0xC0, 0xE0};
    for (size_t length = 0; length < one.length; length++) {
        for (size_t i = 0; i < sizeof outside; i++) {
            CHECK(out_of_range(with_low(length, outside[i], true)));
            CHECK(out_of_range(with_low(length, outside[i], false)));
        }
        for (size_t i = 0; i < sizeof multiples; i++) {
            lm89_reader none = with_low(length, multiples[i], false);
            CHECK(empty_part_stands(with_low(length, multiples[i], true), LM89_CODE_DONE, LM89_CODE_CUT_SHORT));
            CHECK(multiples[i] == 0 ? empty_part_stands(none, LM89_CODE_DONE, LM89_CODE_CUT_SHORT) : out_of_range(none));
        }
    }
}

#define BEHIND_HIGH 14 /* the read of 01 is complete */
#define BEHIND_LOW 22  /* the first read of 10 is complete */

/* The pair cut anywhere: between its two reads the reader's device keeps the byte, and only there. */
static void test_pair(void)
{
    uint8_t answers[ROOM];
    for (size_t cut = 0; cut <= pair.length; cut++) {
        lm89_fed fed = guarded_feed(lm89_fresh(), pair.bytes, cut, answers, ROOM);
        size_t written = fed.written;
        bool between = BEHIND_HIGH <= cut && cut < BEHIND_LOW;
        CHECK(fed.code == LM89_CODE_DONE && fed.consumed == cut);
        CHECK(fed.reader.bus.first.low == (between ? 0x20 : 0) && fed.reader.bus.first.lowkept == between);
        fed = guarded_feed(fed.reader, pair.bytes + cut, pair.length - cut, answers + written, ROOM - written);
        CHECK(fed.code == LM89_CODE_DONE && fed.consumed == pair.length - cut);
        CHECK(written + fed.written == pair.written && memcmp(answers, pair.answers, pair.written) == 0);
        CHECK(lm89_finish(fed.reader) == LM89_CODE_DONE);
    }
}

/* What the capture's second byte says counts, not the device that the reader had before. */
static void test_variant_before(const expectation *capture)
{
    uint8_t answers[ROOM];
    lm89_reader reader = after(capture, 1);
    reader.bus.first.variant = 200;
    reader.bus.first.pointer = LM89_READ_STATUS;
    reader.bus.first.sensed.local = 7;
    lm89_fed fed = guarded_feed(reader, capture->bytes + 1, capture->length - 1, answers, ROOM);
    lm89_reader plain = after(capture, capture->length);
    CHECK(fed.code == LM89_CODE_DONE && fed.consumed == capture->length - 1 && fed.written == capture->written);
    CHECK(memcmp(answers, capture->answers, capture->written) == 0 && same_reader(&fed.reader, &plain));
}

/* How a capture went: the joined answers, bytes consumed, the last code and the reader. */
typedef struct {
    uint8_t *answers;
    size_t written;
    size_t consumed;
    uint8_t code;
    lm89_reader reader;
} outcome;

static void *memory(size_t length)
{
    void *bytes = calloc(length + 1, 1);
    CHECK(bytes != NULL);
    return bytes;
}

/* The next part, given again from its first unread byte while there is too little room. */
static void take(outcome *went, const uint8_t *part, size_t length, size_t room)
{
    lm89_fed fed;
    do {
        fed = guarded_feed(went->reader, part, length, went->answers + went->written, room);
        CHECK(fed.code != LM89_CODE_NO_ROOM || (fed.written != 0 && room - fed.written < LM89_ANSWER_BYTES));
        CHECK(fed.code != LM89_CODE_DONE || fed.consumed == length);
        part += fed.consumed;
        length -= fed.consumed;
        went->written += fed.written;
        went->consumed += fed.consumed;
        went->code = fed.code;
        went->reader = fed.reader;
    } while (fed.code == LM89_CODE_NO_ROOM);
}

static void begin(outcome *went)
{
    went->written = 0;
    went->consumed = 0;
    went->code = LM89_CODE_DONE;
    went->reader = lm89_fresh();
}

static void in_parts(outcome *went, const uint8_t *capture, size_t length, size_t block, size_t room)
{
    begin(went);
    for (size_t at = 0; at < length && went->code == LM89_CODE_DONE; at += block) {
        take(went, capture + at, block < length - at ? block : length - at, room);
    }
}

/* In three parts, cut at every two places, with several rooms: the answers, and the reader that the whole leaves. */
static void test_cuts(const expectation *capture)
{
    static const size_t rooms[] = {2, 3, 4, 5, ROOM};
    uint8_t answers[ROOM];
    outcome went = {answers, 0, 0, 0, lm89_fresh()};
    lm89_reader whole = after(capture, capture->length);
    for (size_t first = 0; first <= capture->length; first++) {
        for (size_t second = first; second <= capture->length; second++) {
            for (size_t i = 0; i < sizeof rooms / sizeof rooms[0]; i++) {
                begin(&went);
                take(&went, capture->bytes, first, rooms[i]);
                take(&went, capture->bytes + first, second - first, rooms[i]);
                take(&went, capture->bytes + second, capture->length - second, rooms[i]);
                CHECK(went.code == LM89_CODE_DONE && went.consumed == capture->length && went.written == capture->written);
                CHECK(memcmp(answers, capture->answers, capture->written) == 0 && same_reader(&went.reader, &whole));
                CHECK(lm89_finish(went.reader) == LM89_CODE_DONE);
            }
        }
    }
}

static bool is_part(uint8_t variant)
{
    return LM89_VARIANT_LM89C <= variant && variant <= LM89_VARIANT_LM89_1D;
}

/* Bytes in front of the refused one, by the rules on where each code is judged; all of them if none is refused. */
static size_t consumed_at(const uint8_t *capture, size_t length, uint8_t code, size_t records)
{
    size_t header = length != 0 && capture[0] == 2 ? LM89_HEADER_2_BYTES : LM89_HEADER_BYTES;
    size_t done = header + LM89_RECORD_BYTES * records;
    switch (code) {
    case LM89_CODE_DEVICE_COUNT:
        return 0;
    case LM89_CODE_VARIANT:
        return is_part(capture[1]) ? 2 : 1;
    case LM89_CODE_ADDRESS:
        return 2;
    case LM89_CODE_KIND:
    case LM89_CODE_OPERAND:
        return done + LM89_RECORD_BYTES - 1;
    case LM89_CODE_PAST_END:
        return done;
    default:
        return length;
    }
}

/* In parts as in one run: answers, bytes consumed, code, and the reader that another way of cutting gave. */
static void agrees(const outcome *went, const outcome *whole)
{
    CHECK(went->written == whole->written && memcmp(went->answers, whole->answers, whole->written) == 0);
    CHECK(went->consumed == whole->consumed);
    CHECK(lm89_finish(went->reader) == whole->code);
    CHECK(same_reader(&went->reader, &whole->reader));
    if (whole->code == LM89_CODE_DONE || whole->code == LM89_CODE_CUT_SHORT) {
        CHECK(went->code == LM89_CODE_DONE && empty_part_stands(went->reader, LM89_CODE_DONE, whole->code));
    } else {
        CHECK(went->code == whole->code && holds(went->reader, whole->code));
    }
}

static void test_capture(const uint8_t *capture, size_t length)
{
    static const size_t blocks[] = {1, 3, 4, 7, LARGEST_BLOCK};
    outcome whole = {memory(ROOM_FOR(length)), 0, 0, 0, lm89_fresh()};
    outcome went = {memory(ROOM_FOR(length)), 0, 0, 0, lm89_fresh()};
    uint64_t result = lm89_run(capture, length, whole.answers, ROOM_FOR(length));
    lm89_fed fed = lm89_feed(whole.reader, capture, length, went.answers, ROOM_FOR(length));
    whole.written = result / LM89_RUN_UNIT;
    whole.code = result % LM89_RUN_UNIT;
    whole.consumed = consumed_at(capture, length, whole.code, whole.written / LM89_ANSWER_BYTES);
    whole.reader = fed.reader;
    CHECK(fed.written == whole.written && fed.consumed == whole.consumed);
    CHECK(memcmp(went.answers, whole.answers, whole.written) == 0);
    for (size_t i = 0; i < sizeof blocks / sizeof blocks[0]; i++) {
        const size_t rooms[] = {2, 3, 5, 64, ROOM_FOR(blocks[i])};
        for (size_t j = 0; j < sizeof rooms / sizeof rooms[0]; j++) {
            in_parts(&went, capture, length, blocks[i], rooms[j]);
            agrees(&went, &whole);
        }
    }
    free(whole.answers);
    free(went.answers);
}

static void test_file(const char *path)
{
    static uint8_t capture[1 << 20];
    FILE *file = fopen(path, "rb");
    CHECK(file != NULL);
    size_t length = fread(capture, 1, sizeof capture, file);
    CHECK(ferror(file) == 0 && length < sizeof capture);
    CHECK(fclose(file) == 0);
    test_capture(capture, length);
}

static void test_each(const expectation *capture)
{
    test_prefixes(capture);
    test_room(capture);
    test_reader_ranges(capture);
    test_held_ranges(capture);
    test_count_so_far(capture);
    test_variant_before(capture);
    test_cuts(capture);
    test_capture(capture->bytes, capture->length);
}

int main(int count, char **words)
{
    if (count == 2) {
        test_file(words[1]);
        return 0;
    }
    test_fresh();
    test_each(&one);
    test_each(&both);
    test_each(&pair);
    test_count_bytes();
    test_held();
    test_held_of_two();
    test_second_kinds_of_one();
    test_header_bytes();
    test_device_counts();
    test_device_ranges();
    test_variant_ranges();
    test_absent();
    test_low_ranges();
    test_pair();
    return 0;
}
