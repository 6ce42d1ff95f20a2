/*
 * Request b: every sample with every offset by lm89_step, the other events, and a capture of one device and one of two, in one piece and byte by
 * byte.
 */
#include <string.h>

#include "check.h"
#include "lm89.h"

#define HERE LM89_ADDRESS_LM89C
#define LOWEST (-1024)
#define HIGHEST 1023
#define LOCAL 25 /* degrees, within its limits */

/* Eighths of a degree as a high and a low byte. */
static uint8_t high_of(int eighths)
{
    return (uint8_t)((eighths - LOWEST) / 8 + 0x80);
}

static uint8_t low_of(int eighths)
{
    return (uint8_t)((eighths - LOWEST) % 8 * 0x20);
}

static lm89_answer step(lm89_device *device, uint8_t kind, uint8_t a, uint8_t b, uint8_t c)
{
    lm89_answer answer = lm89_step(device, kind, a, b, c);
    CHECK(answer.code == LM89_CODE_DONE);
    return answer;
}

/* With the pins masked, so that a first answer byte is what it tells of the conversion. */
static lm89_device with_offset(int offset)
{
    lm89_device device = lm89_power_on(LM89_VARIANT_LM89C);
    uint8_t masks = LM89_CONFIGURATION_ALERT_MASK | LM89_CONFIGURATION_REMOTE_TCRIT_MASK | LM89_CONFIGURATION_LOCAL_TCRIT_MASK;
    CHECK(step(&device, LM89_KIND_WRITE, HERE, LM89_WRITE_CONFIGURATION, masks).first == LM89_ANSWER_ACKNOWLEDGED);
    CHECK(step(&device, LM89_KIND_WRITE, HERE, LM89_REGISTER_OFFSET, high_of(offset)).first == LM89_ANSWER_ACKNOWLEDGED);
    CHECK(step(&device, LM89_KIND_WRITE, HERE, LM89_REGISTER_OFFSET_LOW_BYTE, low_of(offset)).first == LM89_ANSWER_ACKNOWLEDGED);
    return device;
}

static lm89_answer convert(lm89_device *device, int sample)
{
    return step(device, LM89_KIND_CONVERSION, LOCAL, high_of(sample), low_of(sample));
}

/* All 2,048 samples with all 2,048 offsets: D4 exactly where the sum is past an end, and the reading at that end. */
static void test_every_sum(void)
{
    for (int offset = LOWEST; offset <= HIGHEST; offset++) {
        lm89_device device = with_offset(offset);
        for (int sample = LOWEST; sample <= HIGHEST; sample++) {
            int sum = sample + offset;
            bool held = sum > HIGHEST || sum < LOWEST;
            lm89_answer answer = convert(&device, sample);
            CHECK(answer.first == (held ? LM89_ANSWER_TAKEN | LM89_ANSWER_HELD : LM89_ANSWER_TAKEN) && answer.second == 0);
            CHECK(device.sensed.remote == (sum > HIGHEST ? HIGHEST : sum < LOWEST ? LOWEST : sum));
        }
    }
}

/* An open diode is never held, whatever the offset, also behind a held reading. */
static void test_open(void)
{
    for (int offset = LOWEST; offset <= HIGHEST; offset++) {
        lm89_device device = with_offset(offset);
        convert(&device, offset < 0 ? LOWEST : HIGHEST);
        CHECK(step(&device, LM89_KIND_OPEN, LOCAL, 0, 0).first == LM89_ANSWER_TAKEN);
        CHECK(device.sensed.remote == 1016);
    }
}

/* In standby a conversion that is not taken tells nothing; a one-shot's does. */
static void test_standby(void)
{
    lm89_device device = with_offset(HIGHEST);
    uint8_t standby = LM89_CONFIGURATION_STANDBY | LM89_CONFIGURATION_REMOTE_TCRIT_MASK | LM89_CONFIGURATION_ALERT_MASK;
    step(&device, LM89_KIND_WRITE, HERE, LM89_WRITE_CONFIGURATION, standby);
    CHECK(convert(&device, HIGHEST).first == 0);
    step(&device, LM89_KIND_WRITE, HERE, LM89_WRITE_ONE_SHOT, 0);
    CHECK(convert(&device, HIGHEST).first == (LM89_ANSWER_TAKEN | LM89_ANSWER_HELD));
    CHECK(convert(&device, HIGHEST).first == 0);
}

/* The record's own answer tells it, and no later one: not on the bus, acknowledged or not, not at power-on, and not from a refused step. */
static void test_own_record(void)
{
    static const uint8_t later[][3] = {
        {LM89_KIND_READ, HERE, LM89_READ_REMOTE}, {LM89_KIND_READ, HERE, LM89_READ_REMOTE_LOW_BYTE}, {LM89_KIND_SEND, HERE, LM89_READ_REMOTE},
        {LM89_KIND_WRITE, HERE, LM89_REGISTER_OFFSET}, {LM89_KIND_READ, HERE, 0x30}, {LM89_KIND_READ, LM89_ADDRESS_LM89_1C, LM89_READ_REMOTE},
        {LM89_KIND_RECEIVE, HERE, 0}, {LM89_KIND_RECEIVE, LM89_ADDRESS_ALERT_RESPONSE, 0}, {LM89_KIND_POWER_ON, 0, 0},
    };
    for (size_t i = 0; i < sizeof later / sizeof later[0]; i++) {
        lm89_device device = with_offset(LOWEST);
        CHECK(convert(&device, LOWEST).first == (LM89_ANSWER_TAKEN | LM89_ANSWER_HELD));
        CHECK((step(&device, later[i][0], later[i][1], later[i][2], 0).first & LM89_ANSWER_HELD) == 0);
        lm89_answer refused = lm89_step(&device, LM89_KIND_CONVERSION, LOCAL, 0x80, 0x01);
        CHECK(refused.code == LM89_CODE_OPERAND && refused.first == 0 && refused.second == 0);
    }
}

/* Offset 1: 1015 + 8 is exactly the end, 1016 + 8 is past it; then -1: -1016 - 8 and -1017 - 8. ALERT and T_CRIT_A as by the limits at power-on. */
static const uint8_t capture[] = {
    0x01, LM89_VARIANT_LM89C, 0x00, 0x00, 0x00, 0x06,
    LM89_KIND_WRITE, HERE, LM89_REGISTER_OFFSET, 0x01,
    LM89_KIND_CONVERSION, LOCAL, 0x7E, 0xE0,
    LM89_KIND_CONVERSION, LOCAL, 0x7F, 0x00,
    LM89_KIND_WRITE, HERE, LM89_REGISTER_OFFSET, 0xFF,
    LM89_KIND_CONVERSION, LOCAL, 0x81, 0x00,
    LM89_KIND_CONVERSION, LOCAL, 0x80, 0xE0,
};

static const uint8_t expected[] = {0x04, 0x00, 0x0B, 0x00, 0x1B, 0x00, 0x07, 0x00, 0x09, 0x00, 0x19, 0x00};

/*
 * Request c: each sum is of one device's sample and its own offset. The second's is 1: 1016 is held with it, and 1015 is not; then the first's is -1:
 * -1017 is held with that, and not with the second's. T_CRIT_A ends with the latch of the last device that has one.
 */
static const uint8_t capture_of_two[] = {
    0x02, LM89_VARIANT_LM89C, LM89_VARIANT_LM89_1C, 0x00, 0x00, 0x00, 0x08,
    LM89_KIND_WRITE, LM89_ADDRESS_LM89_1C, LM89_REGISTER_OFFSET, 0x01,
    LM89_KIND_CONVERSION, LOCAL, 0x7F, 0x00,
    LM89_KIND_CONVERSION_2, LOCAL, 0x7F, 0x00,
    LM89_KIND_CONVERSION_2, LOCAL, 0x7E, 0xE0,
    LM89_KIND_OPEN_2, LOCAL, 0x00, 0x00,
    LM89_KIND_WRITE, LM89_ADDRESS_LM89C, LM89_REGISTER_OFFSET, 0xFF,
    LM89_KIND_CONVERSION_2, LOCAL, 0x80, 0xE0,
    LM89_KIND_CONVERSION, LOCAL, 0x80, 0xE0,
};

static const uint8_t expected_of_two[] = {
    0x04, 0x00, 0x0B, 0x00, 0x1B, 0x00, 0x0B, 0x00, 0x0B, 0x00, 0x07, 0x00, 0x0B, 0x00, 0x19, 0x00,
};

/* In one piece and byte by byte; gives the reader at the end. */
static lm89_reader answered(const uint8_t *bytes, size_t length, const uint8_t *wanted, size_t wanted_length)
{
    uint8_t answers[sizeof expected_of_two];
    CHECK(wanted_length <= sizeof answers);
    CHECK(lm89_run(bytes, length, answers, wanted_length) == LM89_RUN_UNIT * wanted_length + LM89_CODE_DONE);
    CHECK(memcmp(answers, wanted, wanted_length) == 0);
    lm89_reader reader = lm89_fresh();
    size_t written = 0;
    for (size_t i = 0; i < length; i++) {
        lm89_fed fed = lm89_feed(reader, bytes + i, 1, answers, LM89_ANSWER_BYTES);
        CHECK(fed.code == LM89_CODE_DONE && fed.consumed == 1 && written + fed.written <= wanted_length);
        CHECK(memcmp(answers, wanted + written, fed.written) == 0);
        written += fed.written;
        reader = fed.reader;
    }
    CHECK(written == wanted_length && lm89_finish(reader) == LM89_CODE_DONE);
    return reader;
}

static void test_capture(void)
{
    lm89_reader reader = answered(capture, sizeof capture, expected, sizeof expected);
    CHECK(reader.bus.first.sensed.remote == LOWEST);
    reader = answered(capture_of_two, sizeof capture_of_two, expected_of_two, sizeof expected_of_two);
    CHECK(reader.bus.first.sensed.remote == LOWEST && reader.bus.second.sensed.remote == -1009);
}

int main(void)
{
    test_every_sum();
    test_open();
    test_standby();
    test_own_record();
    test_capture();
    return 0;
}
