/*
 * Request c, by lm89_run and lm89_feed: who answers an alert response, for every way that two devices may stand; and long rows of records, after
 * each of which both devices are what lm89_step makes of each alone, over the records that it sees.
 */
#include <string.h>

#include "check.h"
#include "lm89.h"
#include "same_device.h"

#define HEADER LM89_HEADER_2_BYTES
#define ALERTING 0x7B /* the status bits that alert: all but OPEN */

/* Every header of two devices. */
static const uint8_t orders[][2] = {
    {LM89_VARIANT_LM89C, LM89_VARIANT_LM89_1C},
    {LM89_VARIANT_LM89_1C, LM89_VARIANT_LM89C},
    {LM89_VARIANT_LM89C, LM89_VARIANT_LM89_1D},
    {LM89_VARIANT_LM89_1D, LM89_VARIANT_LM89C},
};

#define ORDERS (sizeof orders / sizeof orders[0])

static uint8_t address_of(uint8_t variant)
{
    return variant == LM89_VARIANT_LM89C ? LM89_ADDRESS_LM89C : LM89_ADDRESS_LM89_1C;
}

/* A reader with its header taken, and room for records without end. */
static lm89_reader opened(const uint8_t *order)
{
    uint8_t header[HEADER];
    CHECK(lm89_write_header_2(order[0], order[1], UINT32_MAX, header, sizeof header) == LM89_CODE_DONE);
    lm89_fed fed = lm89_feed(lm89_fresh(), header, sizeof header, NULL, 0);
    CHECK(fed.code == LM89_CODE_DONE && fed.consumed == sizeof header);
    return fed.reader;
}

/* One record on the bus; its answer pair. */
static void take(lm89_reader *reader, const uint8_t *record, uint8_t *answer)
{
    lm89_fed fed = lm89_feed(*reader, record, LM89_RECORD_BYTES, answer, LM89_ANSWER_BYTES);
    CHECK(fed.code == LM89_CODE_DONE && fed.consumed == LM89_RECORD_BYTES && fed.written == LM89_ANSWER_BYTES);
    *reader = fed.reader;
}

static void put(lm89_reader *reader, uint8_t kind, uint8_t a, uint8_t b, uint8_t c)
{
    const uint8_t record[] = {kind, a, b, c};
    uint8_t answer[LM89_ANSWER_BYTES];
    take(reader, record, answer);
}

/* How a device may stand before an alert response. */
enum { QUIET, ALERTS, MASKED, COMPARES, STANDS };

/* Remote 72 degrees is above the high limit of 70; 0 degrees is not below the low one. */
static void set_up(lm89_reader *reader, bool second, uint8_t address, unsigned stand)
{
    uint8_t conversion = second ? LM89_KIND_CONVERSION_2 : LM89_KIND_CONVERSION;
    if (stand == COMPARES) {
        put(reader, LM89_KIND_WRITE, address, LM89_REGISTER_FILTER, LM89_FILTER_COMPARATOR);
    }
    put(reader, conversion, 0x19, stand == QUIET ? 0x00 : 0x48, 0x00);
    if (stand == MASKED) {
        put(reader, LM89_KIND_WRITE, address, LM89_WRITE_CONFIGURATION, LM89_CONFIGURATION_ALERT_MASK);
    }
}

static bool pulls(unsigned stand)
{
    return stand == ALERTS || stand == COMPARES;
}

/* Three alert responses: the one at 4Ch answers before the other, and only where it alerts; whoever answers is masked, and nothing else moves. */
static void respond(const uint8_t *order, const unsigned *stand)
{
    static const uint8_t response[] = {LM89_KIND_RECEIVE, LM89_ADDRESS_ALERT_RESPONSE, 0, 0};
    unsigned stands[2] = {stand[0], stand[1]};
    size_t lower = order[0] == LM89_VARIANT_LM89C ? 0 : 1;
    lm89_reader reader = opened(order);
    set_up(&reader, false, address_of(order[0]), stands[0]);
    set_up(&reader, true, address_of(order[1]), stands[1]);
    for (int i = 0; i < 3; i++) {
        lm89_device expected[] = {reader.bus.first, reader.bus.second};
        uint8_t answer[LM89_ANSWER_BYTES];
        bool answers = stands[0] == ALERTS || stands[1] == ALERTS;
        size_t named = stands[lower] == ALERTS ? lower : 1 - lower;
        if (answers) {
            expected[named].settings[LM89_SETTING_CONFIGURATION] |= LM89_CONFIGURATION_ALERT_MASK;
            stands[named] = MASKED;
        }
        take(&reader, response, answer);
        bool alert = pulls(stands[0]) || pulls(stands[1]);
        CHECK(answer[0] == ((answers ? LM89_ANSWER_ACKNOWLEDGED : 0) | (alert ? LM89_ANSWER_ALERT : 0)));
        CHECK(answer[1] == (answers ? 2 * address_of(order[named]) + 1 : 0));
        CHECK(same_device(&reader.bus.first, &expected[0]) && same_device(&reader.bus.second, &expected[1]));
    }
}

static void test_alert_response(void)
{
    for (size_t i = 0; i < ORDERS; i++) {
        for (unsigned stands = 0; stands < STANDS * STANDS; stands++) {
            const unsigned stand[] = {stands / STANDS, stands % STANDS};
            respond(orders[i], stand);
        }
    }
}

static bool pulls_alert(const lm89_device *device)
{
    bool comparator = (device->settings[LM89_SETTING_FILTER] & LM89_FILTER_COMPARATOR) != 0;
    bool masked = (device->settings[LM89_SETTING_CONFIGURATION] & LM89_CONFIGURATION_ALERT_MASK) != 0;
    return !masked && ((comparator ? device->sensed.live : device->status) & ALERTING) != 0;
}

static bool pulls_tcrit(const lm89_device *device)
{
    uint8_t configuration = device->settings[LM89_SETTING_CONFIGURATION];
    return (device->sensed.llatch && (configuration & LM89_CONFIGURATION_LOCAL_TCRIT_MASK) == 0)
        || (device->sensed.rlatch && (configuration & LM89_CONFIGURATION_REMOTE_TCRIT_MASK) == 0);
}

static bool responds(const lm89_device *device)
{
    return pulls_alert(device) && (device->settings[LM89_SETTING_FILTER] & LM89_FILTER_COMPARATOR) == 0;
}

enum { FIRST, SECOND, NEITHER, BOTH };

/* Whom a record names, by request c. */
static unsigned named_by(const lm89_device *devices, const uint8_t *record)
{
    size_t lower = devices[FIRST].variant == LM89_VARIANT_LM89C ? FIRST : SECOND;
    switch (record[0]) {
    case LM89_KIND_POWER_ON:
        return BOTH;
    case LM89_KIND_CONVERSION:
    case LM89_KIND_OPEN:
        return FIRST;
    case LM89_KIND_CONVERSION_2:
    case LM89_KIND_OPEN_2:
        return SECOND;
    case LM89_KIND_RECEIVE:
        if (record[1] == LM89_ADDRESS_ALERT_RESPONSE) {
            return responds(&devices[lower]) ? lower : responds(&devices[1 - lower]) ? 1 - lower : NEITHER;
        }
        break;
    }
    return record[1] == address_of(devices[FIRST].variant) ? FIRST : record[1] == address_of(devices[SECOND].variant) ? SECOND : NEITHER;
}

/* The record on a device alone; 08 and 09 are the second's own 05 and 06. */
static lm89_answer alone(lm89_device *device, const uint8_t *record)
{
    uint8_t kind = record[0];
    if (kind == LM89_KIND_CONVERSION_2) {
        kind = LM89_KIND_CONVERSION;
    }
    if (kind == LM89_KIND_OPEN_2) {
        kind = LM89_KIND_OPEN;
    }
    lm89_answer answer = lm89_step(device, kind, record[1], record[2], record[3]);
    CHECK(answer.code == LM89_CODE_DONE);
    CHECK(((answer.first & LM89_ANSWER_ALERT) != 0) == pulls_alert(device) && ((answer.first & LM89_ANSWER_TCRIT) != 0) == pulls_tcrit(device));
    return answer;
}

/* The answer pair of two devices, from each one alone. */
static void step_both(lm89_device *devices, const uint8_t *record, uint8_t *answer)
{
    lm89_answer own = {0, 0, 0};
    unsigned named = named_by(devices, record);
    if (named == FIRST || named == SECOND) {
        own = alone(&devices[named], record);
    }
    if (named == BOTH) {
        alone(&devices[FIRST], record);
        alone(&devices[SECOND], record);
    }
    uint8_t lines = (pulls_alert(&devices[FIRST]) || pulls_alert(&devices[SECOND]) ? LM89_ANSWER_ALERT : 0)
        | (pulls_tcrit(&devices[FIRST]) || pulls_tcrit(&devices[SECOND]) ? LM89_ANSWER_TCRIT : 0);
    answer[0] = (uint8_t)((own.first & ~(LM89_ANSWER_ALERT | LM89_ANSWER_TCRIT)) | lines);
    answer[1] = own.second;
}

/* A fixed row of numbers (xorshift). */
static uint32_t next(uint32_t *seed)
{
    *seed ^= *seed << 13;
    *seed ^= *seed >> 17;
    *seed ^= *seed << 5;
    return *seed;
}

/* At either device more often than elsewhere, and with temperatures near the limits more often than far from them. */
static void some_record(uint32_t *seed, uint8_t *record)
{
    static const uint8_t kinds[] = {1, 1, 1, 1, 2, 2, 2, 3, 4, 4, 4, 5, 5, 5, 6, 8, 8, 8, 9};
    static const uint8_t addresses[] = {0x4C, 0x4C, 0x4C, 0x4D, 0x4D, 0x4D, 0x0C, 0x00, 0x7F};
    static const uint8_t registers[] = {
        0x00, 0x01, 0x02, 0x02, 0x03, 0x05, 0x07, 0x09, 0x09, 0x0B, 0x0C, 0x0D, 0x0E, 0x0F,
        0x10, 0x10, 0x11, 0x12, 0x13, 0x19, 0x20, 0x21, 0xBF, 0xBF, 0xFE, 0xFF, 0x30,
    };
    static const uint8_t degrees[] = {0x19, 0x19, 0x19, 0x46, 0x47, 0x56, 0x6E, 0x6F, 0x00, 0xFF, 0x7F, 0x80};
    uint32_t n = next(seed);
    uint32_t m = next(seed);
    uint8_t kind = n % 512 == 0 ? LM89_KIND_POWER_ON : kinds[(n >> 9) % sizeof kinds];
    memset(record, 0, LM89_RECORD_BYTES);
    record[0] = kind;
    if (kind <= LM89_KIND_RECEIVE) {
        record[1] = kind == LM89_KIND_RECEIVE && n >> 30 == 0 ? LM89_ADDRESS_ALERT_RESPONSE : addresses[m % sizeof addresses];
        record[2] = kind == LM89_KIND_RECEIVE ? 0 : registers[(m >> 8) % sizeof registers];
        record[3] = kind == LM89_KIND_WRITE ? (uint8_t)(m >> 24 & (n >> 30 == 0 ? 0xFF : 0x01)) : 0;
    } else if (kind != LM89_KIND_POWER_ON) {
        bool open = kind == LM89_KIND_OPEN || kind == LM89_KIND_OPEN_2;
        record[1] = degrees[m % sizeof degrees];
        record[2] = open ? 0 : degrees[(m >> 8) % sizeof degrees];
        record[3] = open ? 0 : (uint8_t)(m >> 24 & 0xE0);
    }
}

#define RECORDS 100000u

/* What a row of records has shown, so that it is known to reach what it is there for. */
typedef struct {
    unsigned answered_by[2];
    unsigned still_pulled;
    unsigned held_by_second;
    unsigned other_pulls;
} reached;

static void note(reached *seen, const uint8_t *record, const uint8_t *answer, unsigned named)
{
    bool response = record[0] == LM89_KIND_RECEIVE && record[1] == LM89_ADDRESS_ALERT_RESPONSE && answer[0] & LM89_ANSWER_ACKNOWLEDGED;
    if (response) {
        seen->answered_by[named]++;
        seen->still_pulled += (answer[0] & LM89_ANSWER_ALERT) != 0;
    }
    seen->held_by_second += record[0] == LM89_KIND_CONVERSION_2 && (answer[0] & LM89_ANSWER_HELD) != 0;
    seen->other_pulls += named == NEITHER && (answer[0] & LM89_ANSWER_ALERT) != 0;
}

static void test_row(const uint8_t *order, uint32_t seed)
{
    uint8_t *capture = malloc(HEADER + LM89_RECORD_BYTES * RECORDS);
    uint8_t *expected = malloc(LM89_ANSWER_BYTES * RECORDS);
    uint8_t *answers = malloc(LM89_ANSWER_BYTES * RECORDS);
    CHECK(capture != NULL && expected != NULL && answers != NULL);
    CHECK(lm89_write_header_2(order[0], order[1], RECORDS, capture, HEADER) == LM89_CODE_DONE);
    lm89_device devices[] = {lm89_power_on(order[0]), lm89_power_on(order[1])};
    lm89_reader reader = opened(order);
    reached seen = {{0, 0}, 0, 0, 0};
    for (size_t i = 0; i < RECORDS; i++) {
        uint8_t *record = capture + HEADER + LM89_RECORD_BYTES * i;
        uint8_t *answer = expected + LM89_ANSWER_BYTES * i;
        some_record(&seed, record);
        unsigned named = named_by(devices, record);
        step_both(devices, record, answer);
        note(&seen, record, answer, named);
        take(&reader, record, answers);
        CHECK(memcmp(answers, answer, LM89_ANSWER_BYTES) == 0);
        CHECK(same_device(&reader.bus.first, &devices[FIRST]) && same_device(&reader.bus.second, &devices[SECOND]));
    }
    CHECK(seen.answered_by[FIRST] > 100 && seen.answered_by[SECOND] > 100 && seen.still_pulled > 100);
    CHECK(seen.held_by_second > 100 && seen.other_pulls > 100);
    size_t length = HEADER + LM89_RECORD_BYTES * RECORDS;
    CHECK(lm89_run(capture, length, answers, LM89_ANSWER_BYTES * RECORDS) == (uint64_t)LM89_RUN_UNIT * LM89_ANSWER_BYTES * RECORDS);
    CHECK(memcmp(answers, expected, LM89_ANSWER_BYTES * RECORDS) == 0);
    free(capture);
    free(expected);
    free(answers);
}

int main(void)
{
    test_alert_response();
    for (size_t i = 0; i < ORDERS; i++) {
        test_row(orders[i], 0x4C4D3839 + (uint32_t)i);
    }
    return 0;
}
