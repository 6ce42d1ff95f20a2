/* histories: writes one stream of run calls, in the format at the head of second/replay.c, to standard output: whole captures, of
 * one device and of two in both orders, with room for every answer, which aim at the lines of request e (document 02): readings
 * at T_CRIT, at limit less hysteresis and one step past them, by the settings in force, by those before, and by the other
 * device's; fault queue, masks, standby, one-shots, power-on, status reads, alert responses, offsets and open diodes between.
 *
 * The same bytes at each run. What it knows of the device serves to aim: it predicts no answer. */
#include "chance.h"

#include <stdbool.h>
#include <stdint.h>
#include <stdio.h>
#include <stdlib.h>
#include <string.h>

enum { WRITE = 1, READ, SEND, RECEIVE, CONVERSION, OPEN_DIODE, POWER_ON, CONVERSION_2 };
enum { OF_SECOND = CONVERSION_2 - CONVERSION }; /* from a kind to that of the second device */
enum { RECORD_BYTES = 4, HEADER_MOST = 7, RECORDS_MOST = 4000, ANSWER_BYTES = 2 };

enum {
    STATUS = 0x02, CONFIGURATION = 0x09, REMOTE_HIGH = 0x0D, REMOTE_LOW = 0x0E, ONE_SHOT = 0x0F, OFFSET = 0x11, OFFSET_FINE = 0x12,
    REMOTE_HIGH_FINE = 0x13, REMOTE_LOW_FINE = 0x14, REMOTE_CRIT = 0x19, LOCAL_CRIT = 0x20, HYSTERESIS = 0x21, ALERT_MODE = 0xBF
};
enum { ALERT_RESPONSE = 0x0C, NO_DEVICE = 0x2A };
enum { ALERT_MASK = 0x80, STANDBY = 0x40, REMOTE_MASK = 0x10, LOCAL_MASK = 0x04, FAULT_QUEUE = 0x01 };
enum { REMOTE_LEAST = -1024, REMOTE_MOST = 1023, LOCAL_LEAST = -128, LOCAL_MOST = 127, EIGHTHS = 8, HYSTERESIS_MOST = 31 };
enum { LOCAL, REMOTE, CHANNELS };

/* ---- What is aimed at -------------------------------------------------- */

/* Lines of a device, in degrees; earlier: as they were before the latest write of one of them. */
typedef struct {
    int crit[CHANNELS];
    int hysteresis;
} lines;

typedef struct {
    uint8_t address, conversion; /* kind of its conversions */
    lines now, earlier;
    uint8_t configuration;
    int offset; /* eighths */
} target;

static target device[2];
static unsigned devices;

/* ---- The capture ------------------------------------------------------- */

static uint8_t capture[HEADER_MOST + RECORDS_MOST * RECORD_BYTES];
static size_t length;
static uint32_t records;

static void store_count(uint8_t *bytes, uint32_t number)
{
    for (unsigned i = 0; i < 4; i++)
        bytes[i] = (uint8_t)(number >> 8 * (3 - i));
}

static void add(uint8_t kind, uint8_t a, uint8_t b, uint8_t c)
{
    const uint8_t record[RECORD_BYTES] = { kind, a, b, c };
    if (records == RECORDS_MOST)
        return;
    memcpy(capture + length, record, RECORD_BYTES);
    length += RECORD_BYTES;
    records++;
}

static void put(const void *bytes, size_t size)
{
    if (fwrite(bytes, 1, size, stdout) != size) {
        fprintf(stderr, "histories: cannot write standard output\n");
        exit(1);
    }
}

/* A run of the capture, with room for every answer. */
static void call_run(void)
{
    uint8_t numbers[8];
    store_count(capture + 1 + devices, records);
    store_count(numbers, (uint32_t)length);
    store_count(numbers + 4, ANSWER_BYTES * records);
    put("C", 1);
    put(numbers, sizeof numbers);
    put(capture, length);
}

static void forget(target *at, uint8_t variant)
{
    static const lines power_on = { { 85, 110 }, 10 };
    at->now = power_on;
    at->now.crit[LOCAL] = variant == 3 ? 105 : 85;
    at->earlier = at->now;
    at->configuration = 0;
    at->offset = 0;
}

/* A header; one device if second is 0. */
static void begin(uint8_t first, uint8_t second)
{
    const uint8_t variant[2] = { first, second };
    devices = second == 0 ? 1 : 2;
    records = 0;
    capture[0] = (uint8_t)devices;
    for (unsigned i = 0; i < devices; i++) {
        capture[1 + i] = variant[i];
        device[i].address = variant[i] == 1 ? 0x4C : 0x4D;
        device[i].conversion = i == 0 ? CONVERSION : CONVERSION_2;
        forget(&device[i], variant[i]);
    }
    length = 1 + devices + 4;
}

/* ---- Writes ------------------------------------------------------------ */

static void write_byte(const target *at, uint8_t address, int value)
{
    add(WRITE, at->address, address, (uint8_t)value);
}

static void write_pair(const target *at, uint8_t high, uint8_t low, int value)
{
    write_byte(at, high, value >> 3);
    write_byte(at, low, (value & 7) << 5 | (one_in(4) ? (int)below(32) : 0));
}

static void write_crit(target *at, unsigned channel, int degrees)
{
    at->earlier = at->now;
    at->now.crit[channel] = degrees;
    write_byte(at, channel == LOCAL ? LOCAL_CRIT : REMOTE_CRIT, degrees);
}

static void write_hysteresis(target *at, int degrees)
{
    at->earlier = at->now;
    at->now.hysteresis = degrees;
    write_byte(at, HYSTERESIS, degrees | (one_in(4) ? 0xE0 : 0));
}

static void write_configuration(target *at, unsigned bits)
{
    at->configuration = (uint8_t)bits;
    write_byte(at, CONFIGURATION, (int)bits | (one_in(4) ? 0x2A : 0));
}

static void write_offset(target *at, int offset)
{
    at->offset = offset;
    write_pair(at, OFFSET, OFFSET_FINE, offset);
}

/* Remote limits that no reading is outside of but for T_CRIT, or narrow ones. */
static void write_limits(const target *at, bool wide)
{
    write_pair(at, REMOTE_HIGH, REMOTE_HIGH_FINE, wide ? REMOTE_MOST : at->now.crit[REMOTE] * EIGHTHS - (int)below(40));
    write_pair(at, REMOTE_LOW, REMOTE_LOW_FINE, wide ? REMOTE_LEAST : at->now.crit[REMOTE] * EIGHTHS - 100 - (int)below(400));
}

static int some_crit(const target *at, unsigned channel)
{
    static const int ends[] = { -128, -127, -97, -1, 0, 1, 85, 127 };
    if (one_in(4))
        return ONE_OF(ends);
    int near = at->now.crit[channel] + (int)below(2 * 24) - 24;
    return near < LOCAL_LEAST || near > LOCAL_MOST || one_in(6) ? (int)below(200) - 100 : near;
}

static int some_hysteresis(void)
{
    return one_in(4) ? 0 : (int)below(HYSTERESIS_MOST + 1);
}

static int some_offset(void)
{
    static const int ends[] = { 0, 1, -1, 8, -8, 400, -400, REMOTE_MOST, REMOTE_LEAST };
    return one_in(2) ? ONE_OF(ends) : (int)below(400) - 200;
}

/* ---- Conversions ------------------------------------------------------- */

/* A reading at, or one step past, a line of the device, in steps of the channel (degrees, or eighths). */
static int aimed(const target *at, unsigned channel)
{
    int steps = channel == LOCAL ? 1 : EIGHTHS;
    const target *whose = devices == 2 && one_in(8) ? &device[at == &device[0]] : at;
    const lines *line = one_in(4) ? &whose->earlier : &whose->now;
    int limit = line->crit[channel] * steps;
    int edge = limit - line->hysteresis * steps;
    switch (below(10)) {
    case 0:
        return limit;
    case 1:
    case 2:
        return limit + 1;
    case 3:
        return limit + (int)below(30 * (unsigned)steps);
    case 4:
        return edge;
    case 5:
        return edge - 1;
    case 6:
        return edge - (int)below(30 * (unsigned)steps);
    case 7:
        return one_in(4) ? LOCAL_LEAST * steps : limit + 1;
    default:
        return edge + (int)below((unsigned)(limit - edge + 1)); /* neither live nor below */
    }
}

static int within(int value, int least, int most)
{
    if (value < least)
        return least;
    return value > most ? most : value;
}

static void convert(const target *at)
{
    int local = within(aimed(at, LOCAL), LOCAL_LEAST, LOCAL_MOST);
    int remote = within(aimed(at, REMOTE) - at->offset, REMOTE_LEAST, REMOTE_MOST);
    if (one_in(10))
        add(at->conversion + 1, (uint8_t)local, 0, 0);
    else
        add(at->conversion, (uint8_t)local, (uint8_t)(remote >> 3), (uint8_t)((remote & 7) << 5));
}

/* Far above every line on both channels, and far below; the first so often that a queue lets it through. */
static void extremes(target *at)
{
    for (unsigned i = 0; i < 3; i++)
        add(at->conversion, LOCAL_MOST, REMOTE_MOST >> 3, 0xE0);
    if (one_in(2))
        convert(at);
    if (one_in(2))
        add(at->conversion, (uint8_t)LOCAL_LEAST, 0x80, 0);
}

/* ---- Short histories, each from whatever stands ------------------------ */

typedef void history(target *at);

static void conversions(target *at)
{
    for (unsigned i = below(6); i > 0; i--)
        convert(at);
}

static void some_line(target *at)
{
    unsigned channel = below(CHANNELS);
    if (one_in(3))
        write_hysteresis(at, some_hysteresis());
    else
        write_crit(at, channel, some_crit(at, channel));
}

static const uint8_t line_registers[] = { LOCAL_CRIT, REMOTE_CRIT, HYSTERESIS, CONFIGURATION, OFFSET, ONE_SHOT, REMOTE_HIGH };

/* The same registers where no device is, or no write. */
static void line_elsewhere(target *at)
{
    uint8_t written = ONE_OF(line_registers);
    if (one_in(2))
        add(one_in(2) ? SEND : READ, at->address, written, 0);
    else
        add(WRITE, NO_DEVICE, written, (uint8_t)below(256));
    conversions(at);
}

static void masks(target *at)
{
    static const uint8_t bits[] = { 0, LOCAL_MASK, REMOTE_MASK, LOCAL_MASK | REMOTE_MASK };
    uint8_t both = ONE_OF(bits);
    write_configuration(at, (at->configuration & (STANDBY | FAULT_QUEUE)) | both | (one_in(3) ? ALERT_MASK : 0));
    if (one_in(2))
        extremes(at);
}

/* T_CRIT 85, samples 86 86 84 86 86 86, and the like: steps above and not above, the queue turned on before or within. */
static void fault_row(target *at)
{
    int crit = within(at->now.crit[REMOTE], -90, 120);
    write_limits(at, !one_in(3));
    if (one_in(2))
        write_configuration(at, at->configuration & ~STANDBY & ~FAULT_QUEUE);
    else
        write_configuration(at, (at->configuration & ~STANDBY) | FAULT_QUEUE);
    write_crit(at, REMOTE, crit);
    add(at->conversion, (uint8_t)(at->now.crit[LOCAL] - 32), (uint8_t)(crit - 32), 0);
    unsigned turned = below(8);
    for (unsigned i = 0; i < 7; i++) {
        int degrees = crit + 1 - (one_in(4) ? 2 : 0);
        int sample = within(degrees * EIGHTHS - at->offset, REMOTE_LEAST, REMOTE_MOST);
        if (i == turned)
            write_configuration(at, at->configuration ^ FAULT_QUEUE);
        add(at->conversion, (uint8_t)at->now.crit[LOCAL], (uint8_t)(sample >> 3), (uint8_t)((sample & 7) << 5));
    }
}

/* Two outside the low limit only, then one above T_CRIT, with the queue on, and power-on in between now and then. */
static void row_of_others(target *at)
{
    write_offset(at, 0);
    write_crit(at, REMOTE, 60);
    write_pair(at, REMOTE_LOW, REMOTE_LOW_FINE, 50 * EIGHTHS);
    write_configuration(at, one_in(3) ? 0 : FAULT_QUEUE);
    add(at->conversion, 20, 55, 0);
    for (unsigned i = 0; i < 2; i++)
        add(at->conversion, 20, 10, 0x20);
    if (one_in(3)) {
        add(POWER_ON, 0, 0, 0);
        forget(&device[0], capture[1]);
        forget(&device[1], capture[2]);
    }
    write_configuration(at, FAULT_QUEUE);
    for (unsigned i = 0; i < 3; i++)
        add(at->conversion, 20, 127, (uint8_t)(below(8) << 5));
}

/* Into standby, a one-shot asked for before, in and after, or not; conversions; perhaps out again. */
static void standby(target *at)
{
    if (one_in(3))
        write_byte(at, ONE_SHOT, 0);
    write_configuration(at, at->configuration | STANDBY);
    for (unsigned i = below(5); i > 0; i--) {
        if (one_in(2))
            write_byte(at, ONE_SHOT, (int)below(256));
        if (one_in(4))
            write_configuration(at, at->configuration ^ (one_in(2) ? LOCAL_MASK : REMOTE_MASK));
        if (one_in(4)) {
            write_configuration(at, at->configuration & ~STANDBY);
            write_configuration(at, at->configuration | STANDBY);
        }
        for (unsigned more = below(3); more > 0; more--)
            convert(at);
    }
    if (one_in(2))
        write_configuration(at, at->configuration & ~STANDBY);
}

static void restart(target *at)
{
    if (one_in(2)) {
        write_configuration(at, at->configuration | STANDBY);
        write_byte(at, ONE_SHOT, 0);
    }
    add(POWER_ON, 0, 0, 0);
    forget(&device[0], capture[1]);
    forget(&device[1], capture[2]);
    if (one_in(2))
        write_configuration(at, STANDBY);
    conversions(at);
}

static void reads(target *at)
{
    switch (below(4)) {
    case 0:
        add(READ, at->address, STATUS, 0);
        break;
    case 1:
        add(SEND, at->address, STATUS, 0);
        add(RECEIVE, at->address, 0, 0);
        break;
    case 2:
        add(RECEIVE, ALERT_RESPONSE, 0, 0);
        break;
    default:
        write_configuration(at, at->configuration & ~ALERT_MASK);
        add(RECEIVE, ALERT_RESPONSE, 0, 0);
        break;
    }
}

static void alert_mode(target *at)
{
    write_byte(at, ALERT_MODE, (int)below(8));
}

static void offset(target *at)
{
    write_offset(at, some_offset());
    conversions(at);
}

/* A sum past the low end of the scale, where limit less hysteresis is that end or above it. */
static void below_scale(target *at)
{
    int hysteresis = some_hysteresis();
    write_configuration(at, at->configuration & ~STANDBY);
    write_offset(at, 0);
    write_hysteresis(at, hysteresis);
    write_crit(at, REMOTE, LOCAL_LEAST + hysteresis + (one_in(4) ? 1 : 0));
    extremes(at);
    add(at->conversion, LOCAL_MOST, REMOTE_MOST >> 3, 0);
    write_offset(at, -1 - (int)below(200));
    for (unsigned i = 0; i < 2; i++)
        add(at->conversion, (uint8_t)at->now.crit[LOCAL], 0x80, (uint8_t)(below(8) << 5));
}

/* An open diode at T_CRIT 127 or near, with an offset either side of 0. */
static void open_diode(target *at)
{
    write_configuration(at, at->configuration & ~STANDBY);
    add(at->conversion, (uint8_t)at->now.crit[LOCAL], 0x80, 0);
    write_crit(at, REMOTE, LOCAL_MOST - (int)below(3));
    write_offset(at, one_in(2) ? 1 + (int)below(40) : -1 - (int)below(40));
    for (unsigned i = 0; i < 3; i++)
        add(at->conversion + 1, (uint8_t)within(aimed(at, LOCAL), LOCAL_LEAST, LOCAL_MOST), 0, 0);
}

/* A conversion of these readings, in degrees and in eighths. */
static void convert_to(const target *at, int local, int remote)
{
    int sample = within(remote - at->offset, REMOTE_LEAST, REMOTE_MOST);
    local = within(local, LOCAL_LEAST, LOCAL_MOST);
    add(at->conversion, (uint8_t)local, (uint8_t)(sample >> 3), (uint8_t)((sample & 7) << 5));
}

/* Set, then T_CRIT or hysteresis written, then a reading below limit less hysteresis as it was or as it is, but not both. */
static void moved_edge(target *at)
{
    unsigned channel = below(CHANNELS);
    int steps = channel == LOCAL ? 1 : EIGHTHS;
    write_configuration(at, at->configuration & ~STANDBY);
    write_crit(at, channel, (int)below(200) - 90);
    extremes(at);
    for (unsigned i = 0; i < 3; i++)
        add(at->conversion, LOCAL_MOST, REMOTE_MOST >> 3, 0xE0);
    if (one_in(2))
        write_hysteresis(at, some_hysteresis());
    else
        write_crit(at, channel, within(at->now.crit[channel] + (int)below(41) - 20, LOCAL_LEAST, LOCAL_MOST));
    int was = (at->earlier.crit[channel] - at->earlier.hysteresis) * steps;
    int is = (at->now.crit[channel] - at->now.hysteresis) * steps;
    int least = was < is ? was : is;
    int reading = least + (was == is ? 0 : (int)below((unsigned)(was + is - 2 * least)));
    convert_to(at, channel == LOCAL ? reading : at->now.crit[LOCAL], channel == REMOTE ? reading : at->now.crit[REMOTE] * EIGHTHS);
    convert(at);
}

/* Clear at T_CRIT, which is then written lower; then at it, or one step above. */
static void lowered(target *at)
{
    int crit = (int)below(200) - 90;
    write_configuration(at, at->configuration & ~STANDBY);
    write_hysteresis(at, some_hysteresis());
    for (unsigned channel = LOCAL; channel < CHANNELS; channel++)
        write_crit(at, channel, crit);
    convert_to(at, LOCAL_LEAST, REMOTE_LEAST);
    convert_to(at, crit, crit * EIGHTHS);
    crit -= (int)below(9);
    for (unsigned channel = LOCAL; channel < CHANNELS; channel++)
        write_crit(at, channel, crit);
    for (unsigned i = 0; i < 4; i++)
        convert_to(at, crit + (int)(i / 3), crit * EIGHTHS + (int)(i / 3));
    convert_to(at, crit - at->now.hysteresis, (crit - at->now.hysteresis) * EIGHTHS);
    convert_to(at, crit - at->now.hysteresis - 1, (crit - at->now.hysteresis) * EIGHTHS - 1);
}

/* Set one step above T_CRIT, which is then written higher; then at it. */
static void raised(target *at)
{
    int crit = (int)below(200) - 90;
    write_configuration(at, at->configuration & ~STANDBY);
    write_hysteresis(at, some_hysteresis());
    for (unsigned channel = LOCAL; channel < CHANNELS; channel++)
        write_crit(at, channel, crit);
    for (unsigned i = 0; i < 3; i++)
        convert_to(at, crit + 1, crit * EIGHTHS + 1);
    crit += 1 + (int)below(9);
    for (unsigned channel = LOCAL; channel < CHANNELS; channel++)
        write_crit(at, channel, crit);
    convert_to(at, crit, crit * EIGHTHS);
}

/* ---- Captures ---------------------------------------------------------- */

static history *const histories[] = {
    conversions, conversions, conversions, some_line, some_line, line_elsewhere, masks, fault_row, row_of_others, standby, standby,
    restart, reads, reads, alert_mode, offset, below_scale, open_diode, extremes, moved_edge,
    moved_edge, lowered, raised
};

/* Chance is never asked twice where C leaves the order open, so that every compiler writes the same bytes. */
static void history_of(target *at)
{
    history *one = ONE_OF(histories);
    one(at);
}

/* A capture of at least so many records. */
static void make_capture(uint8_t first, uint8_t second, uint32_t least)
{
    begin(first, second);
    for (unsigned i = 0; i < devices; i++)
        if (one_in(2))
            write_limits(&device[i], true);
    while (records < least)
        history_of(&device[below(devices)]);
    call_run();
}

/* Captures that are not accepted, each for one reason, a good one between. */
enum { GOOD, DEVICE_COUNT, VARIANT, ONE_ADDRESS, KIND, OTHERS_KIND, OPERAND, CUT, MISSING, EXTRA, OVER, DAMAGES };

static void make_damaged(uint8_t first, uint8_t second, unsigned damage)
{
    begin(first, second);
    for (unsigned i = 0; i < 5; i++)
        convert(&device[0]);
    uint8_t *last = capture + length - RECORD_BYTES;
    if (damage == KIND)
        last[0] = one_in(2) ? 0 : 10;
    if (damage == OTHERS_KIND && devices == 1)
        last[0] = CONVERSION_2;
    if (damage == OPERAND)
        last[3] = 1;
    if (damage == VARIANT)
        capture[devices] = one_in(2) ? 0 : 4;
    if (damage == ONE_ADDRESS && devices == 2)
        capture[2] = capture[1];
    if (damage == DEVICE_COUNT)
        capture[0] = one_in(2) ? 0 : 3;
    if (damage == CUT)
        length -= 1 + below(RECORD_BYTES - 1);
    if (damage == MISSING)
        length -= RECORD_BYTES;
    if (damage == EXTRA)
        capture[length++] = 0;
    if (damage == OVER) {
        convert(&device[0]);
        records--;
    }
    call_run();
}

int main(void)
{
    static const uint8_t headers[][2] = { { 1, 0 }, { 2, 0 }, { 3, 0 }, { 1, 2 }, { 1, 3 }, { 2, 1 }, { 3, 1 } };
    enum { ROUNDS = 500, SHORT = 60, LONG = RECORDS_MOST - 100, SEED = 8920 };
    chance_state = SEED;
    for (unsigned round = 0; round < ROUNDS; round++)
        for (size_t i = 0; i < COUNT_OF(headers); i++)
            make_capture(headers[i][0], headers[i][1], round == 0 ? below(2) : below(2 * SHORT));
    for (size_t i = 0; i < COUNT_OF(headers); i++)
        make_capture(headers[i][0], headers[i][1], LONG);
    for (unsigned damage = GOOD; damage < DAMAGES; damage++)
        for (size_t i = 0; i < COUNT_OF(headers); i++)
            make_damaged(headers[i][0], headers[i][1], damage);
    return fflush(stdout) == 0 ? 0 : 1;
}
