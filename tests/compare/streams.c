/* streams THEME: writes one stream of calls, in the format at the head of second/replay.c, to standard output.
 *
 *   device          steps from power-on and from random states within their ranges
 *   device-ranges   devices with one field at or past an end of its range; every register, every address
 *   pair            records on two devices, one a feed, from headers and from random states
 *   reader          captures of one device and of two, whole and damaged, cut at every place, in every room
 *   reader-ranges   readers with one field at or past an end of its range
 *   writer          the writers and the decoder
 *   runs            whole captures, most of them long
 *   listed          whole captures for the listing programs too
 *
 * The same bytes at each run. What it knows of the device serves to aim: it predicts no answer. */
#include "chance.h"
#include "dump.h"

#include <stdbool.h>
#include <stdint.h>
#include <stdio.h>
#include <stdlib.h>
#include <string.h>

enum { READER_BYTES = 14 + 1 + 2 * DEVICE_BYTES, RECORD_BYTES = 4 };
enum { HEADER_BYTES = 6, HEADER_2_BYTES = 7 }; /* of one device, of two */

enum { OF_SECOND = CONVERSION_2 - CONVERSION }; /* from a kind to that of the second device */

static const uint8_t readable[] = {
    0x00, 0x01, 0x02, 0x03, 0x04, 0x05, 0x06, 0x07, 0x08, 0x10, 0x11, 0x12, 0x13, 0x14, 0x19, 0x20, 0x21, 0xBF, 0xFE, 0xFF
};
static const uint8_t only_writable[] = { 0x09, 0x0A, 0x0B, 0x0C, 0x0D, 0x0E, 0x0F };
static const uint8_t outside[] = { 0x15, 0x18, 0x1A, 0x1F, 0x22, 0x30, 0x80, 0xB0, 0xBE, 0xC0, 0xFD };
static const uint8_t unknown_kinds[] = { 0, 8, 9, 0x80, 0x81, 0xFF };      /* of one device */
static const uint8_t unknown_kinds_2[] = { 0, 10, 11, 0x80, 0x88, 0xFF }; /* of two */

enum { HIGH_BYTE = 0x01, STATUS = 0x02, ONE_SHOT = 0x0F, LOW_BYTE = 0x10, ALERT_RESPONSE = 0x0C };
enum { ALERT_MASK = 0x80, STANDBY = 0x40, FAULT_QUEUE = 0x01, COMPARATOR = 0x01 };
enum { REMOTE_LEAST = -1024, REMOTE_MOST = 1023 };
enum { LOW_STEP = 32, LOW_BYTES = 8 }; /* the low bytes of readings: so many, so far apart */

/* Places in a reader dump. */
enum { AT_HEADER, AT_COUNT, AT_DONE = 5, AT_CARRIED = 9, AT_CARRY, AT_HELD = 13, AT_DEVICES, AT_FIRST, AT_SECOND = AT_FIRST + DEVICE_BYTES };

/* ---- Chance ------------------------------------------------------------ */

static uint8_t any_byte(void)
{
    return (uint8_t)below(256);
}

/* ---- Output ------------------------------------------------------------ */

static void put(const void *bytes, size_t length)
{
    if (length > 0 && fwrite(bytes, 1, length, stdout) != length) {
        fprintf(stderr, "streams: cannot write standard output\n");
        exit(1);
    }
}

static void put_number(uint32_t number, unsigned length)
{
    while (length-- > 0) {
        uint8_t byte = (uint8_t)(number >> 8 * length);
        put(&byte, 1);
    }
}

static void store(uint8_t *bytes, uint32_t number, unsigned length)
{
    while (length-- > 0)
        *bytes++ = (uint8_t)(number >> 8 * length);
}

typedef struct {
    uint8_t kind, a, b, c;
} record;

static void call_device(const uint8_t *dump)
{
    put("D", 1);
    put(dump, DEVICE_BYTES);
}

static void call_power_on(uint8_t variant)
{
    put("P", 1);
    put(&variant, 1);
}

static void call_step(record event)
{
    uint8_t bytes[] = { 'S', event.kind, event.a, event.b, event.c };
    put(bytes, sizeof bytes);
}

static void call_reader(const uint8_t *dump)
{
    put("R", 1);
    put(dump, READER_BYTES);
}

static void call_feed(const uint8_t *bytes, size_t length, uint32_t room)
{
    put("F", 1);
    put_number((uint32_t)length, 2);
    put_number(room, 2);
    put(bytes, length);
}

static void call_finish(void)
{
    put("E", 1);
}

static void call_fresh(void)
{
    put("N", 1);
}

static void call_write_event(record event, uint32_t room)
{
    uint8_t bytes[] = { 'W', event.kind, event.a, event.b, event.c };
    put(bytes, sizeof bytes);
    put_number(room, 2);
}

static void call_write_header(uint8_t variant, uint32_t count, uint32_t room)
{
    put("H", 1);
    put(&variant, 1);
    put_number(count, 4);
    put_number(room, 2);
}

static void call_write_header_2(uint8_t first, uint8_t second, uint32_t count, uint32_t room)
{
    uint8_t variants[] = { 'G', first, second };
    put(variants, sizeof variants);
    put_number(count, 4);
    put_number(room, 2);
}

static void call_decode(unsigned devices, record bytes)
{
    uint8_t call[] = { 'B', (uint8_t)devices, bytes.kind, bytes.a, bytes.b, bytes.c };
    put(call, sizeof call);
}

static void call_run(const uint8_t *capture, size_t length, uint32_t room)
{
    put("C", 1);
    put_number((uint32_t)length, 4);
    put_number(room, 4);
    put(capture, length);
}

/* ---- The bench: what was set, and records planned ahead ----------------- */

enum { PLAN_MOST = 32 };

typedef struct {
    uint8_t variant;
    bool second; /* the second device of two: its conversions are of kinds 08 and 09 */
    uint8_t set[SETTINGS];
    record plan[PLAN_MOST];
    unsigned planned;
    unsigned played;
} bench;

static uint8_t own_address(const bench *b)
{
    return b->variant == 1 ? 0x4C : 0x4D;
}

static void plan(bench *b, uint8_t kind, uint8_t first, uint8_t second, uint8_t third)
{
    if (b->second && (kind == CONVERSION || kind == OPEN_DIODE))
        kind += OF_SECOND;
    if (b->planned < PLAN_MOST)
        b->plan[b->planned++] = (record){ kind, first, second, third };
}

static void plan_set(bench *b, unsigned place, uint8_t value)
{
    plan(b, WRITE, own_address(b), write_address[place], value);
    b->set[place] = value & kept_bits[place];
}

/* An event on the bus that concerns this register; a receive does by the pointer, which is sent before it. */
static void plan_on_bus(bench *b, uint8_t kind, uint8_t address, uint8_t number)
{
    if (kind == RECEIVE) {
        plan(b, SEND, own_address(b), number, 0);
        plan(b, RECEIVE, address, 0, 0);
    } else {
        plan(b, kind, address, number, kind == WRITE ? any_byte() : 0);
    }
}

/* The two kinds that read a register. */
static const uint8_t ways[] = { READ, RECEIVE };

static void plan_read(bench *b, uint8_t way, uint8_t number)
{
    plan_on_bus(b, way, own_address(b), number);
}

static int degrees(uint8_t byte)
{
    return byte < 128 ? byte : byte - 256;
}

static int held(int value, int least, int most)
{
    return value < least ? least : value > most ? most : value;
}

static int eighths(const bench *b, unsigned high, unsigned fine)
{
    return degrees(b->set[high]) * 8 + b->set[fine] / 32;
}

/* A remote sample that with the offset gives this reading, where one does. */
static void plan_readings(bench *b, uint8_t local, int reading)
{
    int sample = held(reading - eighths(b, OFFSET, OFFSET_FINE), REMOTE_LEAST, REMOTE_MOST);
    unsigned bits = (unsigned)(sample + 2048);
    plan(b, CONVERSION, local, (uint8_t)(bits / 8), (uint8_t)(bits % 8 * 32));
}

/* A reading at which something may change. */
static int remote_line(const bench *b)
{
    int crit = degrees(b->set[REMOTE_CRIT]) * 8;
    switch (below(8)) {
    case 0: return REMOTE_LEAST;
    case 1: return REMOTE_MOST;
    case 2: return crit - 8 * b->set[HYSTERESIS];
    case 3: case 4: return crit;
    case 5: case 6: return eighths(b, REMOTE_HIGH, REMOTE_HIGH_FINE);
    default: return eighths(b, REMOTE_LOW, REMOTE_LOW_FINE);
    }
}

static uint8_t local_near(const bench *b)
{
    int crit = degrees(b->set[LOCAL_CRIT]);
    int lines[] = { degrees(b->set[LOCAL_HIGH]), degrees(b->set[LOCAL_LOW]), crit, crit - b->set[HYSTERESIS] };
    int line = ONE_OF(lines);
    return (uint8_t)held(line + (int)below(3) - 1, -128, 127);
}

static int remote_near(const bench *b)
{
    int line = remote_line(b);
    return line + (int)below(5) - 2;
}

static void plan_remote(bench *b, int reading)
{
    plan_readings(b, local_near(b), reading);
}

static uint8_t temperature_byte(void)
{
    static const uint8_t special[] = { 0x80, 0x81, 0xFF, 0x00, 0x01, 0x7E, 0x7F };
    return one_in(2) ? ONE_OF(special) : any_byte();
}

static record any_conversion(void)
{
    record r = { CONVERSION, 0, 0, 0 };
    r.a = temperature_byte();
    r.b = temperature_byte();
    r.c = (uint8_t)(32 * below(8));
    return r;
}

/* ---- Scenes ------------------------------------------------------------ */

static void scene_near(bench *b)
{
    unsigned times = 1 + below(3);
    while (times-- > 0)
        plan_remote(b, remote_near(b));
}

static void scene_any_limit(bench *b)
{
    static const uint8_t places[] = {
        LOCAL_HIGH, LOCAL_LOW, REMOTE_HIGH, REMOTE_LOW, REMOTE_HIGH_FINE, REMOTE_LOW_FINE, REMOTE_CRIT, LOCAL_CRIT,
        HYSTERESIS, RATE
    };
    uint8_t place = ONE_OF(places);
    plan_set(b, place, temperature_byte());
    scene_near(b);
}

/* Limits close together, low below high, so that a reading can be within them all. */
static void scene_close_limits(bench *b)
{
    int low = (int)below(230) - 120;
    int high = low + 1 + (int)below(4);
    plan_set(b, REMOTE_LOW, (uint8_t)low);
    plan_set(b, REMOTE_HIGH, (uint8_t)high);
    plan_set(b, REMOTE_CRIT, (uint8_t)(high + (int)below(3)));
    plan_set(b, REMOTE_HIGH_FINE, any_byte());
    plan_set(b, REMOTE_LOW_FINE, any_byte());
    plan_set(b, LOCAL_LOW, (uint8_t)low);
    plan_set(b, LOCAL_HIGH, (uint8_t)high);
    plan_set(b, LOCAL_CRIT, (uint8_t)(high + (int)below(3)));
    plan_set(b, HYSTERESIS, (uint8_t)below(5));
}

/* One to four readings out of the limits by at most two eighths, then one within them. */
static void scene_fault_run(bench *b)
{
    int high = eighths(b, REMOTE_HIGH, REMOTE_HIGH_FINE);
    int low = eighths(b, REMOTE_LOW, REMOTE_LOW_FINE);
    unsigned times = 1 + below(4);
    if (one_in(2))
        plan_set(b, CONFIGURATION, (uint8_t)(b->set[CONFIGURATION] ^ FAULT_QUEUE));
    while (times-- > 0) {
        int beyond = 1 + (int)below(2);
        plan_remote(b, one_in(3) ? low - beyond : high + beyond);
    }
    plan_remote(b, one_in(2) ? high - (int)below(2) : low + (int)below(2));
}

/* Over both T_CRIT limits, between limit and limit minus hysteresis, then near their difference. */
static void scene_critical(bench *b)
{
    int local = degrees(b->set[LOCAL_CRIT]);
    int hysteresis = b->set[HYSTERESIS];
    int remote = degrees(b->set[REMOTE_CRIT]) * 8;
    unsigned times = one_in(2) ? 1 : 3;
    while (times-- > 0)
        plan_readings(b, (uint8_t)held(local + 1, -128, 127), remote + 1 + (int)below(2));
    plan_readings(b, (uint8_t)local, remote - (int)below(2));
    if (one_in(3))
        plan(b, READ, own_address(b), STATUS, 0);
    for (times = 0; times < 2; times++) {
        int to = held(local - hysteresis - (int)below(2), -128, 127);
        plan_readings(b, (uint8_t)to, remote - 8 * hysteresis + (int)below(5) - 2);
    }
}

static void scene_status(bench *b)
{
    if (one_in(2))
        plan_set(b, CONFIGURATION, b->set[CONFIGURATION] & (uint8_t)~ALERT_MASK);
    scene_near(b);
    plan_read(b, ONE_OF(ways), STATUS);
    if (one_in(3))
        plan(b, RECEIVE, own_address(b), 0, 0);
    plan(b, READ, own_address(b), 0x03, 0);
}

static void scene_alert_response(bench *b)
{
    if (one_in(2))
        plan_set(b, ALERT_MODE, b->set[ALERT_MODE] & (uint8_t)~COMPARATOR);
    plan_set(b, CONFIGURATION, b->set[CONFIGURATION] & (uint8_t)~ALERT_MASK);
    scene_near(b);
    plan(b, RECEIVE, ALERT_RESPONSE, 0, 0);
    if (one_in(2))
        plan(b, RECEIVE, ALERT_RESPONSE, 0, 0);
    if (one_in(2))
        plan_set(b, CONFIGURATION, b->set[CONFIGURATION] & (uint8_t)~ALERT_MASK);
}

static void scene_alert_mode(bench *b)
{
    plan_set(b, ALERT_MODE, any_byte());
    scene_near(b);
    plan_set(b, ALERT_MODE, b->set[ALERT_MODE] ^ COMPARATOR);
}

static void scene_standby(bench *b)
{
    plan_set(b, CONFIGURATION, b->set[CONFIGURATION] | STANDBY);
    if (one_in(2))
        plan_remote(b, remote_near(b));
    unsigned asked = below(3);
    while (asked-- > 0)
        plan(b, WRITE, own_address(b), ONE_SHOT, any_byte());
    if (one_in(3))
        plan_set(b, CONFIGURATION, (uint8_t)(any_byte() | STANDBY));
    if (one_in(4))
        plan_set(b, CONFIGURATION, b->set[CONFIGURATION] & (uint8_t)~STANDBY);
    if (one_in(4))
        plan_set(b, CONFIGURATION, b->set[CONFIGURATION] | STANDBY);
    if (one_in(4))
        plan(b, OPEN_DIODE, local_near(b), 0, 0);
    scene_near(b);
    if (one_in(2))
        plan_set(b, CONFIGURATION, b->set[CONFIGURATION] & (uint8_t)~STANDBY);
}

static void scene_one_shot_awake(bench *b)
{
    plan_set(b, CONFIGURATION, b->set[CONFIGURATION] & (uint8_t)~STANDBY);
    plan(b, WRITE, own_address(b), ONE_SHOT, any_byte());
    plan_set(b, CONFIGURATION, b->set[CONFIGURATION] | STANDBY);
    scene_near(b);
    plan_set(b, CONFIGURATION, b->set[CONFIGURATION] & (uint8_t)~STANDBY);
}

static uint8_t any_register(void)
{
    switch (below(4)) {
    case 0: return ONE_OF(only_writable);
    case 1: return ONE_OF(outside);
    default: return ONE_OF(readable);
    }
}

static void scene_pointer(bench *b)
{
    unsigned times = 1 + below(3);
    plan(b, SEND, own_address(b), any_register(), 0);
    while (times-- > 0) {
        uint8_t value = any_byte();
        switch (below(4)) {
        case 0: plan(b, READ, own_address(b), any_register(), 0); break;
        case 1: plan(b, SEND, own_address(b), any_register(), 0); break;
        case 2: plan(b, WRITE, own_address(b), ONE_OF(outside), value); break;
        default: plan(b, WRITE, own_address(b), below(9), value); break;
        }
    }
    plan(b, RECEIVE, own_address(b), 0, 0);
}

static void scene_other_address(bench *b)
{
    uint8_t others[] = { ALERT_RESPONSE, own_address(b) ^ 1, 0x00, 0x7F, own_address(b) ^ 0x40 };
    uint8_t kind = (uint8_t)(WRITE + below(4));
    uint8_t first = kind == RECEIVE ? 0 : any_register();
    uint8_t value = kind == WRITE ? any_byte() : 0;
    plan(b, kind, ONE_OF(others), first, value);
    plan(b, RECEIVE, own_address(b), 0, 0);
}

/* An offset, and samples whose sum with it lies at or beyond an end of the eleven bits. */
static void scene_offset(bench *b)
{
    plan_set(b, OFFSET, temperature_byte());
    plan_set(b, OFFSET_FINE, any_byte());
    for (unsigned i = 0; i < 2; i++) {
        int end = one_in(2) ? REMOTE_MOST : REMOTE_LEAST;
        plan_remote(b, end + (int)below(5) - 2);
    }
    record sample = any_conversion();
    plan(b, sample.kind, sample.a, sample.b, sample.c);
    plan(b, READ, own_address(b), one_in(2) ? HIGH_BYTE : LOW_BYTE, 0);
    if (one_in(2))
        plan_set(b, OFFSET, 0);
}

static void scene_open(bench *b)
{
    static const uint8_t around[] = { 126, 127, 0x80 };
    if (one_in(3))
        plan_set(b, REMOTE_HIGH, ONE_OF(around));
    if (one_in(3))
        plan_set(b, REMOTE_CRIT, ONE_OF(around));
    plan(b, OPEN_DIODE, local_near(b), 0, 0);
    if (one_in(2))
        plan(b, OPEN_DIODE, local_near(b), 0, 0);
    plan(b, READ, own_address(b), one_in(2) ? HIGH_BYTE : STATUS, 0);
}

static void plan_wide_limits(bench *b)
{
    static const uint8_t high[] = { LOCAL_HIGH, LOCAL_CRIT, REMOTE_HIGH, REMOTE_CRIT };
    static const uint8_t low[] = { LOCAL_LOW, REMOTE_LOW };
    for (size_t i = 0; i < COUNT_OF(high); i++)
        plan_set(b, high[i], 127);
    for (size_t i = 0; i < COUNT_OF(low); i++)
        plan_set(b, low[i], 0x80);
}

/* Limits so wide that an open diode sets no bit but OPEN, if any; then status and alert response. */
static void scene_open_alone(bench *b)
{
    plan_wide_limits(b);
    plan_set(b, CONFIGURATION, one_in(2) ? FAULT_QUEUE : 0);
    plan(b, READ, own_address(b), STATUS, 0);
    plan(b, OPEN_DIODE, local_near(b), 0, 0);
    if (one_in(2))
        plan(b, RECEIVE, ALERT_RESPONSE, 0, 0);
    plan(b, READ, own_address(b), STATUS, 0);
    plan(b, READ, own_address(b), 0x03, 0);
}

static void scene_configuration(bench *b)
{
    uint8_t drop = one_in(4) ? 0 : STANDBY;
    plan_set(b, CONFIGURATION, any_byte() & (uint8_t)~drop);
    scene_near(b);
}

static void scene_read(bench *b)
{
    plan(b, READ, own_address(b), ONE_OF(readable), 0);
}

static void scene_write(bench *b)
{
    uint8_t value = one_in(3) ? 0xFF : any_byte();
    plan_set(b, below(SETTINGS), value);
}

static void scene_power_on(bench *b)
{
    plan(b, POWER_ON, 0, 0, 0);
    power_on_settings(b->set, b->variant);
}

/* ---- Request a: the low byte kept at a read of 01, and read at 10 --------- */

/* What may stand between a read of 01 and one of 10: nothing, which is sort 0; one of the plain events; or any kind of event on the
 * bus, at the device's address, at nobody's or at that of the alert response, with 01, with 10 or with any register. */
enum { PLAIN_SORTS = 8, BUS_KINDS = 4, ADDRESSES = 3, REGISTERS = 3 };
enum { SORTS = PLAIN_SORTS + BUS_KINDS * ADDRESSES * REGISTERS };

static void plan_plain(bench *b, unsigned sort)
{
    switch (sort) {
    case 1: plan_remote(b, remote_near(b)); break;
    case 2: plan(b, OPEN_DIODE, local_near(b), 0, 0); break;
    case 3: scene_power_on(b); break;
    case 4: scene_write(b); break;
    case 5: plan(b, WRITE, own_address(b), ONE_SHOT, any_byte()); break;
    case 6: plan_read(b, READ, STATUS); break;
    case 7: plan_read(b, RECEIVE, STATUS); break;
    default: break;
    }
}

static void plan_between(bench *b, unsigned sort)
{
    uint8_t own = own_address(b);
    uint8_t nobody[] = { own ^ 1, 0x00, 0x7F, own ^ 0x20 };
    uint8_t addresses[ADDRESSES] = { own, ONE_OF(nobody), ALERT_RESPONSE };
    uint8_t registers[REGISTERS] = { HIGH_BYTE, LOW_BYTE, any_register() };
    if (sort < PLAIN_SORTS) {
        plan_plain(b, sort);
    } else {
        unsigned on_bus = sort - PLAIN_SORTS;
        uint8_t kind = (uint8_t)(WRITE + on_bus / REGISTERS % BUS_KINDS);
        plan_on_bus(b, kind, addresses[on_bus / REGISTERS / BUS_KINDS], registers[on_bus % REGISTERS]);
    }
}

/* 01 read, conversions and in some cases another event, then 10 read once or twice. */
static void scene_pair(bench *b)
{
    plan_read(b, ONE_OF(ways), HIGH_BYTE);
    scene_near(b);
    if (one_in(2))
        plan_between(b, below(SORTS));
    plan_read(b, ONE_OF(ways), LOW_BYTE);
    if (one_in(2))
        plan_read(b, ONE_OF(ways), LOW_BYTE);
}

/* How the event between finds the device: ALERT pulled, ALERT masked, in standby with a one-shot asked for, and without. */
enum { PULLED, MASKED, ASKED, ASLEEP, SETUPS };

/* A row of events: 01 is read, or 10 to have nothing kept; then comes an event of some sort; then 10 is read. */
typedef struct {
    unsigned sort, setup;
    uint8_t first; /* the register that is read first */
    uint8_t first_way, second_way;
} row;

static void every_row(void (*take)(row))
{
    for (unsigned sort = 0; sort < SORTS; sort++)
        for (unsigned setup = 0; setup < SETUPS; setup++)
            for (size_t i = 0; i < COUNT_OF(ways); i++) {
                take((row){ sort, setup, HIGH_BYTE, READ, ways[i] });
                take((row){ sort, setup, HIGH_BYTE, RECEIVE, ways[i] });
                take((row){ sort, setup, LOW_BYTE, READ, ways[i] });
            }
}

static void plan_setup(bench *b, unsigned setup)
{
    uint8_t configuration = setup == PULLED ? 0 : setup == MASKED ? ALERT_MASK : STANDBY;
    plan_set(b, OFFSET, 0);
    plan_set(b, LOCAL_HIGH, 0x80);
    plan_set(b, ALERT_MODE, 0);
    plan_set(b, CONFIGURATION, configuration);
}

/* A conversion that is taken, warmer than the local high limit of the set-up, with this low byte. */
static void plan_low_byte(bench *b, uint8_t low)
{
    int degree = (int)below(200) - 100;
    uint8_t local = below(100);
    if ((b->set[CONFIGURATION] & STANDBY) != 0)
        plan(b, WRITE, own_address(b), ONE_SHOT, any_byte());
    plan_readings(b, local, 8 * degree + low / LOW_STEP);
}

static uint8_t any_low_byte(void)
{
    return (uint8_t)(LOW_STEP * below(LOW_BYTES));
}

/* The records of a row that stand between its two reads: from one, up to the one that reads 10. */
typedef struct {
    unsigned from, to;
} stretch;

static stretch plan_row(bench *b, row r)
{
    stretch between;
    plan_setup(b, r.setup);
    plan_low_byte(b, any_low_byte());
    plan_read(b, r.first_way, r.first);
    between.from = b->planned;
    if (!one_in(4))
        plan_low_byte(b, any_low_byte());
    if (r.setup == ASKED)
        plan(b, WRITE, own_address(b), ONE_SHOT, 0);
    plan_between(b, r.sort);
    if (r.setup == ASLEEP)
        plan_plain(b, 1 + below(2)); /* a conversion that is not taken */
    else if (!one_in(4))
        plan_low_byte(b, any_low_byte());
    plan_read(b, r.second_way, LOW_BYTE);
    between.to = b->planned - 1;
    plan_read(b, ONE_OF(ways), LOW_BYTE);
    return between;
}

/* ---- Request b: sums at and past the ends of the scale -------------------- */

/* The offset of a row: as large as can be, an eighth, any or none. */
enum { LARGEST, AN_EIGHTH, ANY_OR_NONE, OFFSETS };

/* What stands behind a row's conversion: a sort of request a's events, or any kind on the bus with a register that is none. */
enum { SORTS_BEHIND = SORTS + BUS_KINDS };

/* How far a row's sum lies past its end of the scale: one within it, at it, one past it, two, or further. */
enum { WITHIN = -1, FAR = 3 };

/* A row of events: a conversion whose sum lies so far past an end of the scale, and an event behind it. */
typedef struct {
    bool upper; /* which end */
    int past;
    unsigned offset;
    unsigned behind;
} sum_row;

/* Behind a sum past its end comes every sort of event, behind another one sort in four. */
static void every_sum(void (*take)(sum_row))
{
    for (unsigned offset = 0; offset < OFFSETS; offset++)
        for (int past = WITHIN; past <= FAR; past++)
            for (unsigned behind = 0; behind < SORTS_BEHIND; behind += past > 0 ? 1 : 4) {
                take((sum_row){ true, past, offset, behind });
                take((sum_row){ false, past, offset, behind });
            }
}

/* An offset that carries a sample over this end, as the two bytes of the settings. */
static void set_offset(uint8_t *set, sum_row r)
{
    int size = r.offset == LARGEST ? -REMOTE_LEAST : 1;
    if (r.offset == ANY_OR_NONE)
        size = one_in(4) ? 0 : (int)below(-REMOTE_LEAST);
    unsigned bits = (unsigned)(held(r.upper ? size : -size, REMOTE_LEAST, REMOTE_MOST) + 2048);
    set[OFFSET] = (uint8_t)(bits / 8);
    set[OFFSET_FINE] = (uint8_t)(bits % 8 * LOW_STEP);
}

/* The writes that a row needs at power-on: its offset, and in half of the rows any mode, in standby mostly with a one-shot. */
static void plan_mode(bench *b, sum_row r)
{
    uint8_t wanted[SETTINGS];
    set_offset(wanted, r);
    for (unsigned place = OFFSET; place <= OFFSET_FINE; place++)
        if (b->set[place] != wanted[place])
            plan_set(b, place, wanted[place]);
    if (one_in(2))
        return;
    plan_set(b, ALERT_MODE, any_byte());
    plan_set(b, CONFIGURATION, any_byte());
    if ((b->set[CONFIGURATION] & STANDBY) != 0 && !one_in(4))
        plan(b, WRITE, own_address(b), ONE_SHOT, 0);
}

/* Plans a row, its offset being set, and gives the place of its conversion. The send that a receive needs goes before that. */
static unsigned plan_sum(bench *b, sum_row r)
{
    int past = r.past == FAR ? FAR + (int)below(1000) : r.past;
    unsigned place = b->planned;
    plan_remote(b, r.upper ? REMOTE_MOST + past : REMOTE_LEAST - past);
    if (r.behind < SORTS)
        plan_between(b, r.behind);
    else
        plan_on_bus(b, (uint8_t)(WRITE + r.behind - SORTS), own_address(b), ONE_OF(outside));
    if (b->planned == place + 3) {
        record conversion = b->plan[place];
        b->plan[place] = b->plan[place + 1];
        b->plan[++place] = conversion;
    }
    if (one_in(2))
        plan_plain(b, 1 + below(2)); /* a further conversion */
    return place;
}

/* ---- What comes next ---------------------------------------------------- */

static void plan_scene(bench *b)
{
    static void (*const scenes[])(bench *) = {
        scene_near, scene_near, scene_any_limit, scene_close_limits, scene_fault_run, scene_fault_run, scene_critical,
        scene_critical, scene_status, scene_alert_response, scene_alert_mode, scene_standby, scene_one_shot_awake,
        scene_pointer, scene_other_address, scene_offset, scene_open, scene_open_alone, scene_configuration, scene_read,
        scene_write, scene_pair
    };
    b->planned = 0;
    b->played = 0;
    if (one_in(80))
        scene_power_on(b);
    else
        ONE_OF(scenes)(b);
}

static record next_record(bench *b)
{
    while (b->played == b->planned)
        plan_scene(b);
    return b->plan[b->played++];
}

static void start(bench *b, uint8_t variant)
{
    memset(b, 0, sizeof *b);
    b->variant = variant;
    power_on_settings(b->set, variant);
}

/* ---- Request c: two devices on one bus ------------------------------------ */

enum { PAIR_PLAN_MOST = 3 * PLAN_MOST, ORDERS = 4 };

/* The pairs of variants that may share a bus, first and second. */
static const uint8_t orders[ORDERS][2] = { { 1, 2 }, { 1, 3 }, { 2, 1 }, { 3, 1 } };

typedef struct {
    bench one[2]; /* the first and the second */
    record plan[PAIR_PLAN_MOST];
    unsigned planned;
    unsigned played;
} pair;

static void start_pair(pair *p, unsigned order)
{
    memset(p, 0, sizeof *p);
    start(&p->one[0], orders[order][0]);
    start(&p->one[1], orders[order][1]);
    p->one[1].second = true;
}

static void plan_on_pair(pair *p, record r)
{
    if (p->planned < PAIR_PLAN_MOST)
        p->plan[p->planned++] = r;
}

static void plan_alert_responses(pair *p, unsigned times)
{
    while (times-- > 0)
        plan_on_pair(p, (record){ RECEIVE, ALERT_RESPONSE, 0, 0 });
}

/* Moves what a bench has planned, up to this place of its plan, to the pair's plan. */
static void move_plan(pair *p, bench *from, unsigned to)
{
    while (from->played < to)
        plan_on_pair(p, from->plan[from->played++]);
}

static bool has_power_on(const bench *b)
{
    bool found = false;
    for (unsigned i = 0; i < b->planned; i++)
        found |= b->plan[i].kind == POWER_ON;
    return found;
}

/* Both benches' plans are used up; a power-on of one has restarted both. */
static void end_plans(pair *p)
{
    bool restarted = has_power_on(&p->one[0]) || has_power_on(&p->one[1]);
    for (unsigned i = 0; i < 2; i++) {
        bench *b = &p->one[i];
        b->planned = b->played = 0;
        if (restarted)
            power_on_settings(b->set, b->variant);
    }
}

/* What both benches have planned, each in its own order, the one's between the other's. */
static void merge_plans(pair *p)
{
    unsigned turn = below(2);
    while (p->one[0].played < p->one[0].planned || p->one[1].played < p->one[1].planned) {
        bench *b = &p->one[turn];
        if (b->played < b->planned)
            move_plan(p, b, b->played + 1);
        turn = below(2);
    }
    end_plans(p);
}

/* The plan of one device, and within it, at this place, that of the other. */
static void splice_plans(pair *p, unsigned of, unsigned place)
{
    move_plan(p, &p->one[of], place);
    move_plan(p, &p->one[!of], p->one[!of].planned);
    move_plan(p, &p->one[of], p->one[of].planned);
    end_plans(p);
}

/* How a device stands at an alert response: it answers; it pulls nothing; it is masked; it pulls as a comparator; it is a comparator that
 * pulls nothing, though its status would. */
enum { ANSWERING, QUIET, MASKED_OUT, COMPARING, COMPARING_QUIET, STANDINGS };

static bool comparing(unsigned standing)
{
    return standing == COMPARING || standing == COMPARING_QUIET;
}

/* A conversion that any limit but the widest and the narrowest leaves alone. */
static void plan_mild(bench *b)
{
    uint8_t local = (uint8_t)below(100);
    plan_readings(b, local, (int)below(100));
}

/* Records after which a device stands so. */
static void plan_standing(bench *b, unsigned standing)
{
    plan_wide_limits(b);
    plan_set(b, OFFSET, 0);
    plan(b, READ, own_address(b), STATUS, 0);
    plan_set(b, ALERT_MODE, comparing(standing) ? COMPARATOR : 0);
    plan_set(b, CONFIGURATION, standing == MASKED_OUT ? ALERT_MASK : 0);
    if (standing != QUIET) {
        plan_set(b, LOCAL_HIGH, 0x80);
        plan_mild(b);
    }
    if (standing == COMPARING_QUIET)
        plan_set(b, LOCAL_HIGH, 127);
    if (standing == QUIET || standing == COMPARING_QUIET)
        plan_mild(b);
}

/* Both devices at alert responses. */
typedef struct {
    unsigned order;
    unsigned standing[2]; /* of the first and the second */
} alert_row;

static void every_alert(void (*take)(alert_row))
{
    for (unsigned order = 0; order < ORDERS; order++)
        for (unsigned first = 0; first < STANDINGS; first++)
            for (unsigned second = 0; second < STANDINGS; second++)
                take((alert_row){ order, { first, second } });
}

/* Gives the place of the first alert response. */
static unsigned plan_alert(pair *p, alert_row r)
{
    plan_standing(&p->one[0], r.standing[0]);
    plan_standing(&p->one[1], r.standing[1]);
    merge_plans(p);
    unsigned place = p->planned;
    plan_alert_responses(p, 1 + below(3));
    return place;
}

/* A row of request a on one device, with an event of the other of some sort between its two reads. */
typedef struct {
    unsigned order;
    unsigned of; /* 0 the first, 1 the second */
    row own;
    unsigned other;
} pair_row;

static row row_of_sort(unsigned sort)
{
    row r = { sort, below(SETUPS), HIGH_BYTE, READ, READ };
    r.first_way = ONE_OF(ways);
    r.second_way = ONE_OF(ways);
    return r;
}

/* The device itself has nothing between its reads, or any sort of event. */
static void every_pair_row(void (*take)(pair_row))
{
    for (unsigned other = 0; other < SORTS; other++)
        for (unsigned of = 0; of < 2; of++)
            for (unsigned keeps = 0; keeps < 2; keeps++) {
                unsigned sort = keeps ? 0 : below(SORTS);
                row own = row_of_sort(sort);
                if (!keeps && one_in(4))
                    own.first = LOW_BYTE;
                take((pair_row){ below(ORDERS), of, own, other });
            }
}

static stretch plan_pair_row(pair *p, pair_row r)
{
    stretch between = plan_row(&p->one[r.of], r.own);
    plan_between(&p->one[!r.of], r.other);
    unsigned inserted = p->one[!r.of].planned;
    splice_plans(p, r.of, between.from + below(between.to - between.from + 1));
    between.to += inserted;
    return between;
}

/* A row of request b on one device, and a conversion of the other right behind. */
typedef struct {
    unsigned order;
    unsigned of;
    sum_row own;
} pair_sum;

static void every_pair_sum(void (*take)(pair_sum))
{
    for (unsigned offset = 0; offset < OFFSETS; offset++)
        for (int past = WITHIN; past <= FAR; past++)
            for (unsigned which = 0; which < 8; which++) {
                sum_row own = { which & 1, past, offset, below(SORTS_BEHIND) };
                take((pair_sum){ below(ORDERS), which >> 1 & 1, own });
            }
}

/* Gives the place of the conversion whose sum it is. */
static unsigned plan_pair_sum(pair *p, pair_sum r)
{
    unsigned place = plan_sum(&p->one[r.of], r.own);
    plan_plain(&p->one[!r.of], 1 + below(2));
    splice_plans(p, r.of, place + 1);
    return place;
}

static unsigned any_standing(void)
{
    return one_in(2) ? ANSWERING : below(STANDINGS);
}

/* One scene of each device, the one's records between the other's; or both at alert responses. */
static void plan_pair_scene(pair *p)
{
    p->planned = 0;
    p->played = 0;
    if (one_in(8)) {
        unsigned first = any_standing();
        plan_alert(p, (alert_row){ 0, { first, any_standing() } });
        return;
    }
    plan_scene(&p->one[0]);
    plan_scene(&p->one[1]);
    merge_plans(p);
}

static record next_of_pair(pair *p)
{
    while (p->played == p->planned)
        plan_pair_scene(p);
    return p->plan[p->played++];
}

/* ---- Records, right and broken ------------------------------------------ */

static bool has_operand(uint8_t kind, unsigned operand)
{
    static const uint8_t operands[] = { 0, 3, 2, 2, 1, 3, 1, 0, 3, 1 };
    return operand < operands[kind];
}

static record bus_record(uint8_t kind, uint8_t address, uint8_t number, uint8_t value)
{
    return (record){ kind, address, has_operand(kind, 1) ? number : 0, has_operand(kind, 2) ? value : 0 };
}

static record plain_record(uint8_t kind)
{
    record r = kind == CONVERSION || kind == CONVERSION_2 ? any_conversion() : (record){ kind, 0, 0, 0 };
    r.kind = kind;
    if (kind >= WRITE && kind <= RECEIVE)
        r.a = below(128);
    if (kind >= WRITE && kind <= SEND)
        r.b = any_byte();
    if (kind == WRITE)
        r.c = any_byte();
    if (kind == OPEN_DIODE || kind == OPEN_DIODE_2)
        r.a = any_byte();
    return r;
}

static void any_bytes(record *r)
{
    r->a = any_byte();
    r->b = any_byte();
    r->c = any_byte();
}

static uint8_t not_zero(void)
{
    static const uint8_t bits[] = { 1, 0x20, 0x80, 0xFF };
    return one_in(2) ? ONE_OF(bits) : (uint8_t)(1 + below(255));
}

/* Breaks operand 0, 1 or 2 of a record, where the table of kinds lets it be broken. */
static bool break_operand(record *r, unsigned operand)
{
    uint8_t *places[] = { &r->a, &r->b, &r->c };
    if (operand == 0 && r->kind <= RECEIVE)
        r->a |= 0x80;
    else if (operand == 2 && (r->kind == CONVERSION || r->kind == CONVERSION_2))
        r->c = (uint8_t)(r->c + 1 + below(31));
    else if (!has_operand(r->kind, operand))
        *places[operand] = not_zero();
    else
        return false;
    return true;
}

static void break_one_operand(record *r)
{
    unsigned operand = below(3);
    while (!break_operand(r, operand))
        operand = (operand + 1) % 3;
}

static void break_kind(record *r, unsigned devices)
{
    r->kind = devices == 2 ? ONE_OF(unknown_kinds_2) : ONE_OF(unknown_kinds);
    if (one_in(2))
        r->a = r->b = r->c = 0xFF;
}

/* Every value of each byte of a record, the others being right. */
static void every_operand(uint8_t kind, void (*take)(record))
{
    for (unsigned value = 0; value < 256; value++) {
        record r = plain_record(kind);
        r.a = (uint8_t)value;
        take(r);
        r = plain_record(kind);
        r.b = (uint8_t)value;
        take(r);
        r = plain_record(kind);
        r.c = (uint8_t)value;
        take(r);
    }
}

/* Each of the 256 kinds; of those from 0 to 10, nine being some, every value of each operand. */
static void every_kind(void (*take)(record))
{
    for (unsigned kind = 0; kind < 256; kind++) {
        record r = plain_record((uint8_t)kind);
        take(r);
        any_bytes(&r);
        take(r);
        take((record){ (uint8_t)kind, 0xFF, 0xFF, 0xFF });
    }
    for (unsigned kind = 0; kind <= OPEN_DIODE_2 + 1; kind++)
        every_operand((uint8_t)kind, take);
}

/* ---- Devices ----------------------------------------------------------- */

static void power_on_device(uint8_t *dump, uint8_t variant)
{
    memset(dump, 0, DEVICE_BYTES);
    dump[AT_VARIANT] = variant;
    power_on_settings(dump + AT_SETTINGS, variant);
}

/* Limits of one sort close to each other, at any place of the scale. */
static void random_settings(uint8_t *set)
{
    uint8_t middle = temperature_byte();
    for (unsigned i = 0; i < SETTINGS; i++)
        set[i] = any_byte() & kept_bits[i];
    for (unsigned i = LOCAL_HIGH; i <= REMOTE_LOW; i++)
        if (!one_in(8))
            set[i] = (uint8_t)(middle + below(4));
    if (!one_in(8)) {
        set[REMOTE_CRIT] = (uint8_t)(middle + below(4));
        set[LOCAL_CRIT] = (uint8_t)(middle + below(4));
    }
    if (one_in(2))
        set[OFFSET] = (uint8_t)(below(5) - 2);
    if (one_in(2))
        set[HYSTERESIS] = (uint8_t)below(3);
    if (!one_in(4))
        set[CONFIGURATION] &= (uint8_t)~STANDBY;
}

static void random_device(uint8_t *dump)
{
    int remote = (int)below(2048) + REMOTE_LEAST;
    memset(dump, 0, DEVICE_BYTES);
    dump[AT_VARIANT] = (uint8_t)(1 + below(3));
    dump[AT_POINTER] = one_in(4) ? ONE_OF(only_writable) : ONE_OF(readable);
    dump[AT_STATUS] = one_in(2) ? (uint8_t)(1u << below(7)) : any_byte() & 0x7F;
    dump[AT_LOCAL] = any_byte();
    store(dump + AT_REMOTE, (uint32_t)remote, 2);
    dump[AT_LIVE] = one_in(2) ? (uint8_t)(1u << below(7)) : any_byte() & 0x7F;
    if (one_in(4))
        dump[AT_LIVE] = 0;
    if (one_in(4))
        dump[AT_STATUS] = 0;
    dump[AT_FAULTS] = (uint8_t)below(4);
    dump[AT_LOCAL_LATCH] = (uint8_t)below(2);
    dump[AT_REMOTE_LATCH] = (uint8_t)below(2);
    dump[AT_LOW_KEPT] = (uint8_t)below(2);
    if (dump[AT_LOW_KEPT])
        dump[AT_LOW] = any_low_byte();
    random_settings(dump + AT_SETTINGS);
    if ((dump[AT_SETTINGS + CONFIGURATION] & STANDBY) != 0)
        dump[AT_PENDING] = (uint8_t)below(2);
}

static void aim_at(bench *b, const uint8_t *dump)
{
    memset(b, 0, sizeof *b);
    b->variant = dump[AT_VARIANT];
    memcpy(b->set, dump + AT_SETTINGS, SETTINGS);
}

/* A step, now and then behind one that is refused. */
static void step(record event)
{
    if (one_in(20)) {
        record broken = event;
        if (one_in(4))
            break_kind(&broken, 1);
        else
            break_one_operand(&broken);
        call_step(broken);
    }
    call_step(event);
}

static void step_plan(bench *b)
{
    while (b->played < b->planned)
        step(b->plan[b->played++]);
}

/* A row of request a, from a random state. */
static void step_row(row r)
{
    uint8_t dump[DEVICE_BYTES];
    bench b;
    random_device(dump);
    call_device(dump);
    aim_at(&b, dump);
    plan_row(&b, r);
    step_plan(&b);
}

/* A random device with a row's offset; in some cases it can answer the alert response, or waits in standby for a one-shot. */
static void device_for_sum(uint8_t *dump, sum_row r)
{
    uint8_t *set = dump + AT_SETTINGS;
    random_device(dump);
    set_offset(set, r);
    if (one_in(3)) {
        set[CONFIGURATION] &= (uint8_t)~ALERT_MASK;
        set[ALERT_MODE] &= (uint8_t)~COMPARATOR;
    }
    if (one_in(4)) {
        set[CONFIGURATION] |= STANDBY;
        dump[AT_PENDING] = 1;
    }
}

/* A row of request b, from a random state. */
static void step_sum(sum_row r)
{
    uint8_t dump[DEVICE_BYTES];
    bench b;
    device_for_sum(dump, r);
    call_device(dump);
    aim_at(&b, dump);
    plan_sum(&b, r);
    step_plan(&b);
}

static void theme_device(void)
{
    uint8_t dump[DEVICE_BYTES];
    bench b;
    for (unsigned sequence = 0; sequence < 120; sequence++) {
        start(&b, (uint8_t)(1 + sequence % 3));
        call_power_on(b.variant);
        for (unsigned i = 0; i < 500; i++)
            step(next_record(&b));
    }
    for (unsigned i = 0; i < 40000; i++) {
        random_device(dump);
        call_device(dump);
        aim_at(&b, dump);
        for (unsigned steps = 1 + below(4); steps > 0; steps--)
            step(next_record(&b));
    }
    every_row(step_row);
    for (unsigned round = 0; round < 4; round++)
        every_sum(step_sum);
}

/* ---- Ranges of a device ------------------------------------------------- */

/* Hands a device dump with something changed to whatever takes it. */
typedef void (*device_taker)(const uint8_t *dump);

static void with_byte(const uint8_t *dump, unsigned place, uint8_t value, device_taker take)
{
    uint8_t changed[DEVICE_BYTES];
    memcpy(changed, dump, DEVICE_BYTES);
    changed[place] = value;
    take(changed);
}

static void with_remote(const uint8_t *dump, int remote, device_taker take)
{
    uint8_t changed[DEVICE_BYTES];
    memcpy(changed, dump, DEVICE_BYTES);
    store(changed + AT_REMOTE, (uint32_t)remote, 2);
    take(changed);
}

static void with_pending(const uint8_t *dump, device_taker take)
{
    uint8_t changed[DEVICE_BYTES];
    memcpy(changed, dump, DEVICE_BYTES);
    changed[AT_PENDING] = 1;
    changed[AT_SETTINGS + CONFIGURATION] &= (uint8_t)~STANDBY;
    take(changed);
    changed[AT_SETTINGS + CONFIGURATION] |= STANDBY;
    take(changed);
}

/* A low byte, kept and with none kept; the pointer stands at 01, at 10 or elsewhere. */
static void with_low(const uint8_t *dump, unsigned low, device_taker take)
{
    static const uint8_t pointers[] = { HIGH_BYTE, LOW_BYTE, STATUS };
    uint8_t changed[DEVICE_BYTES];
    memcpy(changed, dump, DEVICE_BYTES);
    changed[AT_LOW] = (uint8_t)low;
    for (unsigned kept = 0; kept < 2; kept++) {
        changed[AT_LOW_KEPT] = (uint8_t)kept;
        changed[AT_POINTER] = ONE_OF(pointers);
        take(changed);
    }
}

/* The multiples of 32, one off them on either side, and 16. */
static void low_edges(const uint8_t *dump, device_taker take)
{
    for (unsigned low = 0; low < 256; low += LOW_STEP) {
        with_low(dump, low, take);
        with_low(dump, low + 1, take);
        with_low(dump, low + LOW_STEP - 1, take);
    }
    with_low(dump, LOW_STEP / 2, take);
}

static void every_low(const uint8_t *dump, device_taker take)
{
    for (unsigned low = 0; low < 256; low++)
        with_low(dump, low, take);
}

static void settings_edges(const uint8_t *dump, device_taker take)
{
    for (unsigned i = 0; i < SETTINGS; i++) {
        unsigned place = AT_SETTINGS + i;
        with_byte(dump, place, kept_bits[i], take);
        with_byte(dump, place, 0, take);
        for (unsigned bit = 0; bit < 8; bit++)
            with_byte(dump, place, (uint8_t)(dump[place] ^ 1u << bit), take);
    }
}

/* One field after the other at each end of its range, and past it. */
static void device_edges(const uint8_t *dump, device_taker take)
{
    static const int remotes[] = { -32768, -1025, -1024, -1023, 1022, 1023, 1024, 32767 };
    static const uint8_t variants[] = { 0, 1, 2, 3, 4, 255 };
    static const uint8_t faults[] = { 0, 1, 2, 3, 4, 255 };
    static const uint8_t statuses[] = { 0x00, 0x7F, 0x80, 0x81, 0xFF };
    for (size_t i = 0; i < COUNT_OF(remotes); i++)
        with_remote(dump, remotes[i], take);
    for (size_t i = 0; i < COUNT_OF(variants); i++)
        with_byte(dump, AT_VARIANT, variants[i], take);
    for (size_t i = 0; i < COUNT_OF(faults); i++)
        with_byte(dump, AT_FAULTS, faults[i], take);
    for (size_t i = 0; i < COUNT_OF(statuses); i++) {
        with_byte(dump, AT_STATUS, statuses[i], take);
        with_byte(dump, AT_LIVE, statuses[i], take);
    }
    for (unsigned pointer = 0; pointer < 256; pointer++)
        with_byte(dump, AT_POINTER, (uint8_t)pointer, take);
    with_pending(dump, take);
    low_edges(dump, take);
    settings_edges(dump, take);
}

/* Steps that would change and answer something, on a device that may be out of its ranges. */
static void step_on(const uint8_t *dump)
{
    bench b;
    call_device(dump);
    aim_at(&b, dump);
    call_step((record){ RECEIVE, own_address(&b), 0, 0 });
    call_step(any_conversion());
    if (one_in(8))
        call_step((record){ READ, 0x80, 0, 0 });
    if (one_in(8))
        call_step((record){ ONE_OF(unknown_kinds), 0, 0, 0 });
}

static void every_register(const uint8_t *dump)
{
    bench b;
    aim_at(&b, dump);
    for (unsigned kind = WRITE; kind <= SEND; kind++)
        for (unsigned address = 0; address < 256; address++) {
            call_device(dump);
            call_step(bus_record((uint8_t)kind, own_address(&b), (uint8_t)address, any_byte()));
            call_step((record){ RECEIVE, own_address(&b), 0, 0 });
        }
}

static void every_address(const uint8_t *dump)
{
    for (unsigned kind = WRITE; kind <= RECEIVE; kind++)
        for (unsigned address = 0; address < 256; address++) {
            call_device(dump);
            call_step(bus_record((uint8_t)kind, (uint8_t)address, 0x19, any_byte()));
        }
}

static void every_low_byte(const uint8_t *dump)
{
    for (unsigned low = 0; low < 256; low++) {
        call_device(dump);
        record r = any_conversion();
        r.c = (uint8_t)low;
        call_step(r);
    }
}

static void theme_device_ranges(void)
{
    uint8_t dump[DEVICE_BYTES];
    for (unsigned variant = 0; variant < 256; variant++) {
        call_power_on((uint8_t)variant);
        call_step((record){ READ, variant == 1 ? 0x4C : 0x4D, 0xFF, 0 });
    }
    for (unsigned variant = 1; variant <= 3; variant++) {
        power_on_device(dump, (uint8_t)variant);
        device_edges(dump, step_on);
        every_register(dump);
        every_address(dump);
    }
    every_low(dump, step_on);
    call_device(dump);
    every_kind(call_step);
    for (unsigned i = 0; i < 8; i++) {
        random_device(dump);
        device_edges(dump, step_on);
        every_register(dump);
        every_address(dump);
        every_low_byte(dump);
    }
}

/* ---- Captures ---------------------------------------------------------- */

enum { CAPTURE_MOST = 1000000 };

typedef struct {
    uint8_t bytes[CAPTURE_MOST];
    unsigned devices;
    size_t header; /* its bytes */
    size_t length;
    size_t records;
    size_t refused; /* where the first byte that is refused for good stands; the length if there is none */
} capture;

static capture work;

static void put_record(uint8_t *bytes, record r)
{
    bytes[0] = r.kind;
    bytes[1] = r.a;
    bytes[2] = r.b;
    bytes[3] = r.c;
}

static record record_at(const uint8_t *bytes)
{
    return (record){ bytes[0], bytes[1], bytes[2], bytes[3] };
}

/* A capture of so many devices and records, to be filled in. */
static void begin_capture(capture *c, unsigned devices, const uint8_t *variants, size_t records)
{
    c->devices = devices;
    c->bytes[0] = (uint8_t)devices;
    memcpy(c->bytes + 1, variants, devices);
    store(c->bytes + 1 + devices, (uint32_t)records, 4);
    c->header = 5 + devices;
    c->length = c->header + RECORD_BYTES * records;
    c->records = records;
    c->refused = c->length;
}

/* Where a record stands. */
static uint8_t *record_place(capture *c, size_t index)
{
    return c->bytes + c->header + RECORD_BYTES * index;
}

static void make_capture(capture *c, size_t records)
{
    bench b;
    start(&b, (uint8_t)(1 + below(3)));
    begin_capture(c, 1, &b.variant, records);
    for (size_t i = 0; i < records; i++)
        put_record(record_place(c, i), next_record(&b));
}

/* A capture of what is planned. */
static void put_plan(capture *c, const bench *b)
{
    begin_capture(c, 1, &b->variant, b->planned);
    for (size_t i = 0; i < b->planned; i++)
        put_record(record_place(c, i), b->plan[i]);
}

/* A row of request a as a capture, for the device of this bench. */
static stretch put_row(capture *c, bench *b, row r)
{
    stretch between = plan_row(b, r);
    put_plan(c, b);
    return between;
}

static stretch make_row(capture *c, row r)
{
    bench b;
    start(&b, (uint8_t)(1 + below(3)));
    return put_row(c, &b, r);
}

/* A row of request b as a capture, for the device of this bench, and the place of its conversion, with which one in four ends. */
static unsigned put_sum(capture *c, bench *b, sum_row r)
{
    unsigned place = plan_sum(b, r);
    if (one_in(4))
        b->planned = place + 1;
    put_plan(c, b);
    return place;
}

static unsigned make_sum(capture *c, sum_row r)
{
    bench b;
    start(&b, (uint8_t)(1 + below(3)));
    plan_mode(&b, r);
    return put_sum(c, &b, r);
}

/* A place of a capture between the two reads of its row; the last ones are within the record that reads 10. */
static size_t cut_between(const capture *c, stretch between)
{
    return c->header + RECORD_BYTES * between.from + below(RECORD_BYTES * (between.to - between.from + 1));
}

static void refuse_at(capture *c, size_t place)
{
    if (place < c->refused)
        c->refused = place;
}

static void damage_header(capture *c, unsigned place)
{
    static const uint8_t counts[] = { 0, 3, 4, 0x82, 255 };
    static const uint8_t variants[] = { 0, 4, 5, 0x81, 255 };
    c->bytes[place] = place == 0 ? ONE_OF(counts) : ONE_OF(variants);
    refuse_at(c, place);
}

static void damage_kind(capture *c, size_t index)
{
    uint8_t *bytes = record_place(c, index);
    record r = record_at(bytes);
    break_kind(&r, c->devices);
    put_record(bytes, r);
    refuse_at(c, c->header + RECORD_BYTES * index + 3);
}

static void damage_operand(capture *c, size_t index)
{
    uint8_t *bytes = record_place(c, index);
    static const record plain[] = {
        { READ, 0x4C, 0, 0 }, { SEND, 0x4D, 2, 0 }, { RECEIVE, 0x0C, 0, 0 }, { OPEN_DIODE, 1, 0, 0 }, { POWER_ON, 0, 0, 0 }
    };
    bool replaced = bytes[0] < WRITE || bytes[0] > (c->devices == 2 ? OPEN_DIODE_2 : POWER_ON) || one_in(2);
    record r = replaced ? ONE_OF(plain) : record_at(bytes);
    break_one_operand(&r);
    put_record(bytes, r);
    refuse_at(c, c->header + RECORD_BYTES * index + 3);
}

static void add_extra(capture *c)
{
    size_t extra = 1 + below(5);
    refuse_at(c, c->length);
    for (size_t i = 0; i < extra; i++)
        c->bytes[c->length++] = one_in(2) ? (uint8_t)(1 + below(7)) : any_byte();
}

static void cut_short(capture *c)
{
    c->length = below(c->length);
    refuse_at(c, c->length);
}

/* The second variant byte: none, or of the first's address. */
static void damage_second_variant(capture *c, bool one_address)
{
    if (!one_address)
        damage_header(c, 2);
    else
        c->bytes[2] = c->bytes[1] == 1 ? 1 : (uint8_t)(2 + below(2));
    refuse_at(c, 2);
}

/* One damage of every sort in turn, 0 being none; the last two are of two devices. */
enum { DAMAGES = 8, DAMAGES_2 = 10 };

static void damage(capture *c, unsigned sort)
{
    size_t index = c->records > 0 ? below(c->records) : 0;
    switch (sort) {
    case 1: damage_header(c, 0); break;
    case 2: damage_header(c, 1); break;
    case 3: if (c->records > 0) damage_kind(c, index); break;
    case 4: if (c->records > 0) damage_operand(c, index); break;
    case 5: add_extra(c); break;
    case 6: cut_short(c); break;
    case 7: store(c->bytes + c->header - 4, (uint32_t)c->records + 1 + (one_in(2) ? 0 : chance() / 2), 4); break;
    case 8: damage_second_variant(c, false); break;
    case 9: damage_second_variant(c, true); break;
    default: break;
    }
}

/* ---- Captures of two devices -------------------------------------------- */

static void begin_pair_capture(capture *c, const pair *p, size_t records)
{
    uint8_t variants[] = { p->one[0].variant, p->one[1].variant };
    begin_capture(c, 2, variants, records);
}

static void make_pair_capture(capture *c, size_t records)
{
    pair p;
    start_pair(&p, below(ORDERS));
    begin_pair_capture(c, &p, records);
    for (size_t i = 0; i < records; i++)
        put_record(record_place(c, i), next_of_pair(&p));
}

static void make_capture_of(capture *c, unsigned devices, size_t records)
{
    if (devices == 2)
        make_pair_capture(c, records);
    else
        make_capture(c, records);
}

/* A capture of what is planned for two devices. */
static void put_pair_plan(capture *c, const pair *p)
{
    begin_pair_capture(c, p, p->planned);
    for (size_t i = 0; i < p->planned; i++)
        put_record(record_place(c, i), p->plan[i]);
}

static unsigned make_alert(capture *c, alert_row r)
{
    pair p;
    start_pair(&p, r.order);
    unsigned place = plan_alert(&p, r);
    put_pair_plan(c, &p);
    return place;
}

static stretch make_pair_row(capture *c, pair_row r)
{
    pair p;
    start_pair(&p, r.order);
    stretch between = plan_pair_row(&p, r);
    put_pair_plan(c, &p);
    return between;
}

/* In half of the rows the other device has an offset too. */
static unsigned make_pair_sum(capture *c, pair_sum r)
{
    pair p;
    start_pair(&p, r.order);
    plan_mode(&p.one[r.of], r.own);
    if (one_in(2))
        plan_mode(&p.one[!r.of], (sum_row){ one_in(2), 0, LARGEST, 0 });
    merge_plans(&p);
    unsigned before = p.planned;
    unsigned place = before + plan_pair_sum(&p, r);
    put_pair_plan(c, &p);
    return place;
}

static uint8_t address_of(uint8_t variant)
{
    return variant == 1 ? 0x4C : 0x4D;
}

static bool is_variant(uint8_t byte)
{
    return byte >= 1 && byte <= 3;
}

/* Where the header of two devices is refused, if it is. */
static void judge_header(capture *c)
{
    uint8_t first = c->bytes[1];
    uint8_t second = c->bytes[2];
    if (!is_variant(second) || address_of(first) == address_of(second))
        refuse_at(c, 2);
    if (!is_variant(first))
        refuse_at(c, 1);
}

/* Two random devices of an order, in a reader. */
static void random_pair(uint8_t *dump, unsigned order)
{
    random_device(dump + AT_FIRST);
    random_device(dump + AT_SECOND);
    dump[AT_FIRST + AT_VARIANT] = orders[order][0];
    dump[AT_SECOND + AT_VARIANT] = orders[order][1];
}

/* ---- The reader -------------------------------------------------------- */

enum { AMPLE_ROOM = 1000 };

static uint32_t any_room(void)
{
    return one_in(4) ? 6 + below(100) : below(6);
}

/* How many of these bytes a feed takes. */
static size_t taken(const capture *c, size_t from, size_t length, uint32_t room)
{
    size_t at = from;
    while (at < from + length && at < c->refused) {
        if (at >= c->header && (at - c->header) % RECORD_BYTES == 3) {
            if (room < 2)
                break;
            room -= 2;
        }
        at++;
    }
    return at - from;
}

static void after_refusal(const capture *c, size_t at)
{
    call_finish();
    call_feed(NULL, 0, any_room());
    call_feed(c->bytes + at, c->length - at, any_room());
    if (one_in(2))
        call_finish();
}

static void after_no_room(const capture *c, size_t at)
{
    if (one_in(3))
        call_finish();
    if (one_in(3))
        call_feed(NULL, 0, any_room());
    if (one_in(3))
        call_feed(c->bytes + at, 1, below(2));
}

static void feed_in_parts(const capture *c, size_t part_most)
{
    size_t at = 0;
    call_fresh();
    while (at < c->length) {
        size_t part = 1 + below(part_most);
        uint32_t room = any_room();
        if (part > c->length - at)
            part = c->length - at;
        call_feed(c->bytes + at, part, room);
        size_t took = taken(c, at, part, room);
        at += took;
        if (took == part)
            continue;
        if (at == c->refused) {
            after_refusal(c, at);
            break;
        }
        after_no_room(c, at);
    }
    call_finish();
}

/* A capture in two parts, the first of this length and lent this room. */
static void feed_twice(const capture *c, size_t cut, uint32_t first_room, uint32_t second_room)
{
    call_fresh();
    call_feed(c->bytes, cut, first_room);
    if (one_in(4))
        call_finish();
    size_t took = taken(c, 0, cut, first_room);
    call_feed(c->bytes + took, c->length - took, second_room);
    call_finish();
}

static void feed_cut_everywhere(const capture *c)
{
    for (size_t cut = 0; cut <= c->length; cut++)
        feed_twice(c, cut, AMPLE_ROOM, one_in(2) ? any_room() : AMPLE_ROOM);
}

/* A row of request a, cut between its reads, then either in the record that reads 10 or without room for one of the two reads. */
static void feed_stretch(const capture *c, stretch between)
{
    size_t reads_low = c->header + RECORD_BYTES * between.to;
    feed_twice(c, cut_between(c, between), AMPLE_ROOM, AMPLE_ROOM);
    switch (below(3)) {
    case 0: feed_twice(c, reads_low + below(RECORD_BYTES), AMPLE_ROOM, AMPLE_ROOM); break;
    case 1: feed_twice(c, c->length, 2 * between.to, AMPLE_ROOM); break;
    default: feed_twice(c, c->length, 2 * (between.from - 1), AMPLE_ROOM); break;
    }
}

static void feed_row(row r)
{
    stretch between = make_row(&work, r);
    feed_stretch(&work, between);
}

/* A record without room, then another fourth byte in its place. */
static void feed_other_fourth(const capture *c)
{
    uint32_t room = below(6);
    size_t took = taken(c, 0, c->length, room);
    call_fresh();
    call_feed(c->bytes, c->length, room);
    if (took < c->refused) {
        uint8_t other = one_in(2) ? (uint8_t)(c->bytes[took] + 1) : any_byte();
        call_feed(&other, 1, any_room());
    }
    call_finish();
}

/* A reader under a device count with so many header bytes taken, this record count and these records done; its devices at power-on. */
static void plain_reader(uint8_t *dump, unsigned devices, unsigned header, uint32_t count, uint32_t done)
{
    memset(dump, 0, READER_BYTES);
    dump[AT_HEADER] = (uint8_t)header;
    store(dump + AT_COUNT, count, 4);
    store(dump + AT_DONE, done, 4);
    if (header >= 1)
        dump[AT_DEVICES] = (uint8_t)devices;
    if (header >= 2)
        power_on_device(dump + AT_FIRST, 1);
    if (header >= 3 && devices == 2)
        power_on_device(dump + AT_SECOND, 2);
}

/* A capture of fewer than 256 records, to a reader with this device that has so many of the header's bytes, at least two. */
static void feed_to(const uint8_t *device, const capture *c, unsigned header)
{
    uint8_t dump[READER_BYTES];
    plain_reader(dump, 1, header, header == HEADER_BYTES ? (uint32_t)c->records : 0, 0);
    memcpy(dump + AT_FIRST, device, DEVICE_BYTES);
    call_reader(dump);
    call_feed(c->bytes + header, c->length - header, AMPLE_ROOM);
}

/* A row of request a, fed to a reader with a random device. */
static void feed_row_to_any(row r)
{
    uint8_t device[DEVICE_BYTES];
    bench b;
    random_device(device);
    aim_at(&b, device);
    put_row(&work, &b, r);
    feed_to(device, &work, HEADER_BYTES);
}

/* A capture, cut at or in the record of this place, or without room for it. */
static void feed_around(const capture *c, unsigned place)
{
    uint32_t room = 2 * (uint32_t)c->records;
    if (one_in(2))
        feed_twice(c, c->header + RECORD_BYTES * place + below(RECORD_BYTES), room, room);
    else
        feed_twice(c, c->length, 2 * place, room);
}

/* A row of request b, cut at or in its conversion, or without room for it. */
static void feed_sum(sum_row r)
{
    unsigned place = make_sum(&work, r);
    feed_around(&work, place);
}

/* A row of request b, fed to a reader with a random device, in most cases with the end of the header. */
static void feed_sum_to_any(sum_row r)
{
    uint8_t device[DEVICE_BYTES];
    bench b;
    device_for_sum(device, r);
    aim_at(&b, device);
    put_sum(&work, &b, r);
    feed_to(device, &work, 2 + below(HEADER_BYTES - 1));
}

static void feed_sum_either_way(sum_row r)
{
    if (one_in(3))
        feed_sum_to_any(r);
    else
        feed_sum(r);
}

static const uint8_t lasting_codes[] = { 0, 1, 2, 3, 4, 5, 9 }; /* and none */

/* The part of a record count that so many of its bytes tell. */
static uint32_t partial_count(uint32_t count, unsigned count_bytes)
{
    return count_bytes < 4 ? count & (0xFFFFFFu >> 8 * (3 - count_bytes)) : count;
}

/* Random devices, as many as so many header bytes have brought; before the first one's its variant may be any byte. */
static void random_devices(uint8_t *dump, unsigned devices, unsigned header)
{
    dump[AT_DEVICES] = header > 0 ? (uint8_t)devices : 0;
    random_device(dump + AT_FIRST);
    if (header < 2 && one_in(2))
        dump[AT_FIRST + AT_VARIANT] = any_byte();
    if (devices == 2 && header >= 2)
        random_pair(dump, below(ORDERS));
    if (header < 3)
        memset(dump + AT_SECOND, 0, DEVICE_BYTES);
}

/* A reader within its ranges, somewhere in a capture whose bytes stand in `work`. */
static void random_reader(uint8_t *dump, unsigned devices)
{
    unsigned complete = 5 + devices;
    unsigned header = one_in(3) ? below(complete + 1) : complete;
    uint32_t count = one_in(8) ? chance() : below(6);
    make_capture_of(&work, devices, 6);
    damage(&work, one_in(3) ? 3 + below(4) : 0);
    memset(dump, 0, READER_BYTES);
    dump[AT_HEADER] = (uint8_t)header;
    random_devices(dump, devices, header);
    if (header > 1 + devices)
        store(dump + AT_COUNT, partial_count(count, header - 1 - devices), 4);
    if (header == complete) {
        uint32_t left = count > 0 ? below(count < 5 ? count + 1 : 5) : 0;
        unsigned carried = left > 0 ? below(4) : 0;
        store(dump + AT_DONE, count - left, 4);
        dump[AT_CARRIED] = (uint8_t)carried;
        memcpy(dump + AT_CARRY, work.bytes + complete, carried);
    }
    if (one_in(10))
        dump[AT_HELD] = ONE_OF(lasting_codes);
}

static void feed_random_reader(unsigned devices)
{
    uint8_t dump[READER_BYTES];
    random_reader(dump, devices);
    size_t from = (size_t)dump[AT_HEADER] + dump[AT_CARRIED];
    size_t length = from < work.length ? below(work.length - from + 1) : 0;
    call_reader(dump);
    call_feed(work.bytes + from, length, any_room());
    if (one_in(2))
        call_finish();
}

/* Both devices at alert responses, cut at or in the first of them, or without room for it; then cut anywhere. */
static void feed_alert(alert_row r)
{
    unsigned place = make_alert(&work, r);
    feed_around(&work, place);
    feed_in_parts(&work, 60);
}

static void feed_pair_row(pair_row r)
{
    stretch between = make_pair_row(&work, r);
    feed_stretch(&work, between);
}

static void feed_pair_sum(pair_sum r)
{
    unsigned place = make_pair_sum(&work, r);
    feed_around(&work, place);
}

/* Headers of two devices: the variants that are some, and others, in every pair, cut at every place. */
static void feed_every_header(void)
{
    static const uint8_t variants[] = { 0, 1, 2, 3, 4, 5, 255 };
    for (size_t i = 0; i < COUNT_OF(variants); i++)
        for (size_t j = 0; j < COUNT_OF(variants); j++) {
            uint8_t two[] = { variants[i], variants[j] };
            begin_capture(&work, 2, two, 1);
            put_record(record_place(&work, 0), (record){ CONVERSION_2, 0x20, 0x40, LOW_STEP });
            judge_header(&work);
            feed_cut_everywhere(&work);
        }
}

/* Kinds 00 to 0A under a device count, right, with each operand broken and with all, each as a capture. */
static void every_judgement(unsigned devices, void (*take)(void))
{
    static const uint8_t variants[] = { 1, 2 };
    for (unsigned kind = 0; kind <= OPEN_DIODE_2 + 1; kind++)
        for (unsigned broken = 0; broken < 5; broken++) {
            record r = plain_record((uint8_t)kind);
            if (broken == 4)
                r.a = r.b = r.c = 0xFF;
            else if (broken > 0 && kind >= WRITE && kind <= OPEN_DIODE_2 && !break_operand(&r, broken - 1))
                continue;
            begin_capture(&work, devices, variants, 1);
            put_record(record_place(&work, 0), r);
            take();
        }
}

static void feed_judged(void)
{
    for (uint32_t room = 0; room < 3; room++) {
        call_fresh();
        call_feed(work.bytes, work.length, room);
        call_finish();
    }
}

static void run_judged(void)
{
    for (uint32_t room = 0; room < 3; room++)
        call_run(work.bytes, work.length, room);
}

/* A capture of two devices in all of its rooms: each record without room for it, then fed again. */
static void feed_in_every_room(const capture *c)
{
    for (uint32_t room = 0; room <= 2 * c->records + 1; room++)
        feed_twice(c, c->length, room, AMPLE_ROOM);
}

static void feed_pairs(void)
{
    for (unsigned i = 0; i < 80; i++) {
        make_pair_capture(&work, i % 5);
        damage(&work, i / 5 % DAMAGES_2);
        feed_cut_everywhere(&work);
    }
    for (unsigned i = 0; i < 1000; i++) {
        make_pair_capture(&work, below(12));
        damage(&work, one_in(2) ? below(DAMAGES_2) : 0);
        if (one_in(6))
            damage(&work, 3 + below(2));
        feed_in_parts(&work, one_in(3) ? 1 : one_in(2) ? 5 : 60);
    }
    for (unsigned i = 0; i < 200; i++) {
        make_pair_capture(&work, 1 + below(4));
        feed_other_fourth(&work);
    }
    for (unsigned i = 0; i < 40; i++) {
        make_pair_capture(&work, 6);
        feed_in_every_room(&work);
    }
    for (unsigned i = 0; i < 4000; i++)
        feed_random_reader(2);
    feed_every_header();
    every_judgement(1, feed_judged);
    every_judgement(2, feed_judged);
    every_alert(feed_alert);
    every_pair_row(feed_pair_row);
    every_pair_sum(feed_pair_sum);
}

static void theme_reader(void)
{
    for (unsigned i = 0; i < 160; i++) {
        make_capture(&work, i % 7);
        damage(&work, i / 7 % DAMAGES);
        feed_cut_everywhere(&work);
    }
    for (unsigned i = 0; i < 2400; i++) {
        make_capture(&work, below(12));
        damage(&work, one_in(2) ? below(DAMAGES) : 0);
        if (one_in(6))
            damage(&work, 3 + below(2));
        feed_in_parts(&work, one_in(3) ? 1 : one_in(2) ? 5 : 60);
    }
    for (unsigned i = 0; i < 600; i++) {
        make_capture(&work, 1 + below(4));
        feed_other_fourth(&work);
    }
    for (unsigned i = 0; i < 12000; i++)
        feed_random_reader(1);
    every_row(feed_row);
    every_row(feed_row_to_any);
    every_sum(feed_sum_either_way);
    feed_pairs();
}

/* ---- Two devices, record by record ---------------------------------------- */

static void feed_record(record r)
{
    uint8_t bytes[RECORD_BYTES];
    put_record(bytes, r);
    call_feed(bytes, sizeof bytes, 2);
}

static void feed_plan(pair *p)
{
    while (p->played < p->planned)
        feed_record(p->plan[p->played++]);
}

/* A reader behind its header, with two random devices of an order. */
static void any_pair(uint8_t *dump, unsigned order)
{
    plain_reader(dump, 2, HEADER_2_BYTES, 0xFFFFFFFFu, below(1000));
    random_pair(dump, order);
}

static void set_pair(pair *p, const uint8_t *dump)
{
    memset(p, 0, sizeof *p);
    aim_at(&p->one[0], dump + AT_FIRST);
    aim_at(&p->one[1], dump + AT_SECOND);
    p->one[1].second = true;
    call_reader(dump);
}

/* Any record that is right, of any kind and at any address. */
static record any_right_record(void)
{
    static const uint8_t addresses[] = { 0x4C, 0x4D, 0x0C, 0x00, 0x4E, 0x4B, 0x7F };
    record r = plain_record((uint8_t)(WRITE + below(OPEN_DIODE_2)));
    if (r.kind <= RECEIVE)
        r.a = ONE_OF(addresses);
    if (r.kind <= SEND)
        r.b = any_register();
    return r;
}

static void feed_from_header(unsigned order)
{
    uint8_t header[HEADER_2_BYTES] = { 2, orders[order][0], orders[order][1], 0xFF, 0, 0, 0 };
    pair p;
    start_pair(&p, order);
    call_fresh();
    call_feed(header, sizeof header, 0);
    for (unsigned i = 0; i < 100; i++)
        feed_record(next_of_pair(&p));
}

static void feed_from_any_pair(void)
{
    uint8_t dump[READER_BYTES];
    pair p;
    any_pair(dump, below(ORDERS));
    set_pair(&p, dump);
    for (unsigned records = 1 + below(4); records > 0; records--)
        feed_record(one_in(4) ? any_right_record() : next_of_pair(&p));
}

/* Makes a device stand so. */
static void stand(uint8_t *device, unsigned standing)
{
    static const uint8_t alerting[] = { 0x40, 0x20, 0x10, 0x08, 0x02, 0x01, 0x7B, 0x7F };
    uint8_t *set = device + AT_SETTINGS;
    set[CONFIGURATION] &= (uint8_t)~ALERT_MASK;
    set[ALERT_MODE] &= (uint8_t)~COMPARATOR;
    if (standing == MASKED_OUT)
        set[CONFIGURATION] |= ALERT_MASK;
    if (comparing(standing))
        set[ALERT_MODE] |= COMPARATOR;
    device[AT_STATUS] = ONE_OF(alerting);
    if (standing == QUIET)
        device[AT_STATUS] = one_in(2) ? 0x04 : 0;
    if (standing == COMPARING)
        device[AT_LIVE] = ONE_OF(alerting);
    if (standing == COMPARING_QUIET)
        device[AT_LIVE] &= 0x04;
}

/* Alert responses, then any record or a mask that is cleared, and one more. */
static void feed_alerts(alert_row r)
{
    uint8_t dump[READER_BYTES];
    pair p;
    any_pair(dump, r.order);
    stand(dump + AT_FIRST, r.standing[0]);
    stand(dump + AT_SECOND, r.standing[1]);
    set_pair(&p, dump);
    plan_alert_responses(&p, 1 + below(3));
    bench *b = &p.one[below(2)];
    if (one_in(2))
        plan_set(b, CONFIGURATION, b->set[CONFIGURATION] & (uint8_t)~ALERT_MASK);
    merge_plans(&p);
    if (one_in(4))
        plan_on_pair(&p, any_right_record());
    plan_alert_responses(&p, 1);
    feed_plan(&p);
}

/* Makes a device pull these lines and no other; T_CRIT_A by either latch or both. */
static void pull(uint8_t *device, bool alert, bool crit)
{
    stand(device, alert ? (one_in(2) ? ANSWERING : COMPARING) : (unsigned)(QUIET + below(2)));
    unsigned latches = crit ? 1 + below(3) : 0;
    device[AT_LOCAL_LATCH] = latches & 1;
    device[AT_REMOTE_LATCH] = latches >> 1;
    device[AT_SETTINGS + CONFIGURATION] &= 0xEB;
}

/* Every set of lines pulled by each device, and records that name the first, the second, neither or both. */
static void feed_lines(unsigned lines)
{
    uint8_t dump[READER_BYTES];
    pair p;
    any_pair(dump, below(ORDERS));
    pull(dump + AT_FIRST, lines & 1, lines & 2);
    pull(dump + AT_SECOND, lines & 4, lines & 8);
    static const record records[] = {
        { READ, 0x4C, 0xFE, 0 }, { READ, 0x4D, 0xFE, 0 }, { READ, 0x4E, 0xFE, 0 }, { RECEIVE, 0x00, 0, 0 }, { WRITE, 0x0C, 0x19, 5 },
        { SEND, 0x4C, 0x30, 0 }, { SEND, 0x4D, 0x30, 0 }, { READ, 0x4C, STATUS, 0 }, { READ, 0x4D, STATUS, 0 }, { POWER_ON, 0, 0, 0 },
        { OPEN_DIODE, 20, 0, 0 }, { OPEN_DIODE_2, 20, 0, 0 }, { CONVERSION, 20, 20, 0 }, { CONVERSION_2, 20, 20, 0 }
    };
    for (size_t i = 0; i < COUNT_OF(records); i++) {
        set_pair(&p, dump);
        feed_record(records[i]);
    }
}

/* How a device finds a conversion: awake, in standby with a one-shot asked for, and without. */
enum { AWAKE, WAITING, SLEEPING, MODES };

static void set_mode(uint8_t *device, unsigned mode)
{
    device[AT_SETTINGS + CONFIGURATION] &= (uint8_t)~STANDBY;
    if (mode != AWAKE)
        device[AT_SETTINGS + CONFIGURATION] |= STANDBY;
    device[AT_PENDING] = mode == WAITING;
}

static void feed_modes(unsigned first, unsigned second)
{
    static const uint8_t kinds[] = { CONVERSION, OPEN_DIODE, CONVERSION_2, OPEN_DIODE_2 };
    uint8_t dump[READER_BYTES];
    pair p;
    any_pair(dump, below(ORDERS));
    set_mode(dump + AT_FIRST, first);
    set_mode(dump + AT_SECOND, second);
    for (size_t i = 0; i < COUNT_OF(kinds); i++) {
        set_pair(&p, dump);
        feed_record(plain_record(kinds[i]));
        feed_record(plain_record(ONE_OF(kinds)));
        feed_record(plain_record(kinds[i]));
    }
}

static void feed_row_of_pair(pair_row r)
{
    uint8_t dump[READER_BYTES];
    pair p;
    any_pair(dump, r.order);
    set_pair(&p, dump);
    plan_pair_row(&p, r);
    feed_plan(&p);
}

/* The offsets of both lie at opposite ends, at one end, or the other's anywhere. */
static void feed_sum_of_pair(pair_sum r)
{
    uint8_t dump[READER_BYTES];
    pair p;
    unsigned own = r.of ? AT_SECOND : AT_FIRST;
    unsigned other = r.of ? AT_FIRST : AT_SECOND;
    any_pair(dump, r.order);
    device_for_sum(dump + own, r.own);
    dump[own + AT_VARIANT] = orders[r.order][r.of];
    if (one_in(2))
        set_offset(dump + other + AT_SETTINGS, (sum_row){ one_in(2) ? r.own.upper : !r.own.upper, 0, LARGEST, 0 });
    set_pair(&p, dump);
    plan_pair_sum(&p, r);
    feed_plan(&p);
}

/* Every register at each device's address, by every kind on the bus. */
static void feed_registers(unsigned order)
{
    uint8_t dump[READER_BYTES];
    pair p;
    any_pair(dump, order);
    for (unsigned number = 0; number < 256; number++) {
        if (number % 16 == 0) {
            any_pair(dump, order);
            set_pair(&p, dump);
        }
        uint8_t kind = (uint8_t)(WRITE + below(3));
        uint8_t address = 0x4C + (uint8_t)below(2);
        feed_record(bus_record(kind, address, (uint8_t)number, any_byte()));
        feed_record((record){ RECEIVE, address ^ (uint8_t)below(2), 0, 0 });
    }
}

static void theme_pair(void)
{
    for (unsigned i = 0; i < 6 * ORDERS; i++)
        feed_from_header(i % ORDERS);
    for (unsigned i = 0; i < 6000; i++)
        feed_from_any_pair();
    for (unsigned round = 0; round < 6; round++)
        every_alert(feed_alerts);
    for (unsigned i = 0; i < 20 * ORDERS; i++)
        feed_alerts((alert_row){ i % ORDERS, { ANSWERING, ANSWERING } });
    for (unsigned i = 0; i < 4 * 16; i++)
        feed_lines(i % 16);
    for (unsigned i = 0; i < 8 * MODES * MODES; i++)
        feed_modes(i % MODES, i / MODES % MODES);
    every_pair_row(feed_row_of_pair);
    for (unsigned round = 0; round < 2; round++)
        every_pair_sum(feed_sum_of_pair);
    for (unsigned order = 0; order < ORDERS; order++)
        feed_registers(order);
}

/* ---- Ranges of a reader ------------------------------------------------- */

static void try_reader(const uint8_t *dump)
{
    static const uint8_t one[] = { 1, 1, 0, 0, 0, 2, READ, 0x4C, 0xFF, 0, RECEIVE, 0x4D, 0, 0 };
    static const uint8_t two[] = { 2, 1, 2, 0, 0, 0, 2, READ, 0x4D, 0xFF, 0, CONVERSION_2, 0x20, 0x40, 0 };
    bool both = dump[AT_DEVICES] == 2;
    const uint8_t *bytes = both ? two : one;
    size_t length = both ? sizeof two : sizeof one;
    size_t from = one_in(2) ? (both ? HEADER_2_BYTES : HEADER_BYTES) : 0;
    call_reader(dump);
    call_finish();
    call_feed(NULL, 0, 3);
    call_feed(bytes + from, length - from, 4);
    call_finish();
}

static uint8_t framed[READER_BYTES];
static unsigned framed_at; /* where in it the device stands that is tried */

static void try_framed(const uint8_t *device)
{
    uint8_t kept[DEVICE_BYTES];
    memcpy(kept, framed + framed_at, DEVICE_BYTES);
    memcpy(framed + framed_at, device, DEVICE_BYTES);
    try_reader(framed);
    memcpy(framed + framed_at, kept, DEVICE_BYTES);
}

static const uint8_t variant_edges[] = { 0, 1, 2, 3, 4, 255 };

/* The first variant; where there is a second, it is of another address if the first is one. */
static void first_variant_edges(unsigned devices, unsigned header)
{
    uint8_t dump[READER_BYTES];
    for (size_t i = 0; i < COUNT_OF(variant_edges); i++) {
        plain_reader(dump, devices, header, 0, 0);
        power_on_device(dump + AT_FIRST, 3);
        dump[AT_FIRST + AT_VARIANT] = variant_edges[i];
        if (devices == 2 && header >= 3)
            power_on_device(dump + AT_SECOND, variant_edges[i] == 1 ? 2 : 1);
        try_reader(dump);
    }
}

static void header_edges(unsigned devices, unsigned header)
{
    static const uint8_t helds[] = { 0, 1, 2, 3, 4, 5, 6, 7, 8, 9, 10, 0x10, 255 };
    uint8_t dump[READER_BYTES];
    plain_reader(dump, devices, header, 0, 0);
    for (size_t i = 0; i < COUNT_OF(helds); i++) {
        dump[AT_HELD] = helds[i];
        try_reader(dump);
    }
    first_variant_edges(devices, header);
}

/* Any device count with so many header bytes: of a reader that is in range with none, with 1 or with 2. */
static void devices_edges(unsigned header)
{
    static const uint8_t counts[] = { 0, 1, 2, 3, 4, 128, 255 };
    uint8_t dump[READER_BYTES];
    for (unsigned devices = 1; devices <= 2; devices++)
        for (size_t i = 0; i < COUNT_OF(counts); i++) {
            plain_reader(dump, devices, header, 0, 0);
            dump[AT_DEVICES] = counts[i];
            try_reader(dump);
        }
}

/* Every byte of a second device that is not there, not 0. */
static void absent_edges(unsigned devices, unsigned header)
{
    static const uint8_t values[] = { 1, 2, 0x80 };
    uint8_t dump[READER_BYTES];
    for (unsigned place = AT_SECOND; place < READER_BYTES; place++) {
        plain_reader(dump, devices, header, 0, 0);
        dump[place] = ONE_OF(values);
        try_reader(dump);
    }
    plain_reader(dump, devices, header, 0, 0);
    power_on_device(dump + AT_SECOND, 2);
    try_reader(dump);
}

/* Every pair of variants. */
static void second_variant_edges(unsigned header)
{
    uint8_t dump[READER_BYTES];
    for (unsigned first = 0; first <= 4; first++)
        for (size_t i = 0; i < COUNT_OF(variant_edges); i++) {
            plain_reader(dump, 2, header, 0, 0);
            dump[AT_FIRST + AT_VARIANT] = (uint8_t)first;
            dump[AT_SECOND + AT_VARIANT] = variant_edges[i];
            try_reader(dump);
        }
}

static void count_edges(unsigned devices, unsigned header)
{
    unsigned count_bytes = header > 1 + devices ? header - 1 - devices : 0;
    uint32_t past = (uint32_t)1 << 8 * count_bytes;
    uint32_t counts[] = { past - 1, past, past + 1, 0x80000000u, 0xFFFFFFFFu };
    uint8_t dump[READER_BYTES];
    for (size_t i = 0; i < COUNT_OF(counts); i++) {
        plain_reader(dump, devices, header, counts[i], 0);
        try_reader(dump);
    }
    plain_reader(dump, devices, header, count_bytes > 0 ? 9 : 0, 1);
    try_reader(dump);
    for (unsigned carried = 1; carried <= 4; carried++) {
        plain_reader(dump, devices, header, 0, 0);
        dump[AT_CARRIED] = (uint8_t)carried;
        try_reader(dump);
    }
}

static void done_edges(unsigned devices)
{
    static const uint32_t counts[] = { 0, 1, 2, 255, 256, 65536, 0x01000000, 0x80000000u, 0xFFFFFFFEu, 0xFFFFFFFFu };
    uint8_t dump[READER_BYTES];
    for (size_t i = 0; i < COUNT_OF(counts); i++) {
        uint32_t dones[] = { 0, counts[i] - 1, counts[i], counts[i] + 1, 0xFFFFFFFFu };
        for (size_t j = 0; j < COUNT_OF(dones); j++) {
            plain_reader(dump, devices, 5 + devices, counts[i], dones[j]);
            try_reader(dump);
        }
    }
}

/* Every number of carried bytes, with every set of places in use. */
static void carry_edges(unsigned devices, uint32_t count, uint32_t done)
{
    static const uint8_t carrieds[] = { 0, 1, 2, 3, 4, 255 };
    uint8_t dump[READER_BYTES];
    for (size_t i = 0; i < COUNT_OF(carrieds); i++)
        for (unsigned used = 0; used < 8; used++) {
            plain_reader(dump, devices, 5 + devices, count, done);
            dump[AT_CARRIED] = carrieds[i];
            dump[AT_CARRY] = used & 1 ? SEND : 0;
            dump[AT_CARRY + 1] = used & 2 ? 0x4C : 0;
            dump[AT_CARRY + 2] = used & 4 ? STATUS : 0;
            try_reader(dump);
        }
}

/* A reader for devices that are tried, its record count 5 once it is complete. */
static void frame(unsigned devices, unsigned header)
{
    plain_reader(framed, devices, header, 0, 0);
    if (header == 5 + devices)
        plain_reader(framed, devices, header, 5, 2);
}

/* One field after the other past its range, once: of a device whose fields are all at power-on. */
static void device_outside(uint8_t variant, device_taker take)
{
    static const struct {
        unsigned place;
        uint8_t value;
    } past[] = {
        { AT_POINTER, 0x15 }, { AT_PENDING, 1 }, { AT_STATUS, 0x80 }, { AT_REMOTE, 0x04 }, { AT_REMOTE, 0xFB }, { AT_LIVE, 0x80 },
        { AT_FAULTS, 4 }, { AT_LOW, LOW_STEP }, { AT_SETTINGS + CONFIGURATION, 0x20 }, { AT_SETTINGS + OFFSET_FINE, 0x10 },
        { AT_SETTINGS + REMOTE_HIGH_FINE, 0x10 }, { AT_SETTINGS + REMOTE_LOW_FINE, 1 }, { AT_SETTINGS + HYSTERESIS, 0x20 },
        { AT_SETTINGS + ALERT_MODE, 8 }
    };
    uint8_t device[DEVICE_BYTES];
    power_on_device(device, variant);
    for (size_t i = 0; i < COUNT_OF(past); i++)
        with_byte(device, past[i].place, past[i].value, take);
    device[AT_LOW_KEPT] = 1;
    with_byte(device, AT_LOW, 1, take);
}

/* Each field of each device past its range, with so many header bytes. */
static void outside_at(unsigned devices, unsigned header)
{
    frame(devices, header);
    framed_at = AT_FIRST;
    device_outside(1, try_framed);
    framed_at = AT_SECOND;
    if (devices == 2 && header >= 3)
        device_outside(2, try_framed);
}

/* Both devices of a reader of two, each beside a random one. */
static void pair_edges(unsigned header)
{
    uint8_t dump[READER_BYTES];
    random_pair(dump, below(ORDERS));
    frame(2, header);
    memcpy(framed + AT_FIRST, dump + AT_FIRST, READER_BYTES - AT_FIRST);
    for (framed_at = AT_FIRST; framed_at <= AT_SECOND; framed_at += DEVICE_BYTES) {
        device_edges(dump + framed_at, try_framed);
        if (header == HEADER_2_BYTES)
            every_low(dump + framed_at, try_framed);
    }
}

static void theme_reader_ranges(void)
{
    uint8_t device[DEVICE_BYTES];
    for (unsigned devices = 1; devices <= 2; devices++) {
        for (unsigned header = 0; header <= 8; header++)
            header_edges(devices, header);
        header_edges(devices, 255);
        for (unsigned header = 0; header < 5 + devices; header++)
            count_edges(devices, header);
        done_edges(devices);
        carry_edges(devices, 3, 1);
        carry_edges(devices, 3, 3);
        carry_edges(devices, 0xFFFFFFFFu, 0xFFFFFFFEu);
    }
    framed_at = AT_FIRST;
    for (unsigned header = 0; header <= HEADER_BYTES; header += 2) {
        frame(1, header);
        random_device(device);
        device_edges(device, try_framed);
    }
    every_low(device, try_framed);
    for (unsigned header = 0; header <= 8; header++)
        devices_edges(header);
    for (unsigned header = 0; header <= HEADER_BYTES; header++)
        absent_edges(1, header);
    absent_edges(2, 1);
    absent_edges(2, 2);
    for (unsigned header = 3; header <= HEADER_2_BYTES; header++)
        second_variant_edges(header);
    for (unsigned devices = 1; devices <= 2; devices++)
        for (unsigned header = 0; header <= 5 + devices; header++)
            outside_at(devices, header);
    pair_edges(3);
    pair_edges(HEADER_2_BYTES);
}

/* ---- The writers and the decoder ---------------------------------------- */

static void write_in_any_room(record r)
{
    call_write_event(r, any_room());
}

static void decode_under_1(record r)
{
    call_decode(1, r);
}

static void decode_under_2(record r)
{
    call_decode(2, r);
}

/* Every device count, with each kind from 00 to 0A. */
static void decode_under_every_count(void)
{
    for (unsigned devices = 0; devices < 256; devices++)
        for (unsigned kind = 0; kind <= OPEN_DIODE_2 + 1; kind++)
            if (kind >= POWER_ON || one_in(4))
                call_decode(devices, plain_record((uint8_t)kind));
}

/* Headers of two variants: all small ones, and others, in every room up to 9 and a large one. */
static void write_headers_of_two(const uint32_t *counts, size_t many)
{
    static const uint8_t variants[] = { 0, 1, 2, 3, 4, 5, 6, 128, 255 };
    for (size_t first = 0; first < COUNT_OF(variants); first++)
        for (size_t second = 0; second < COUNT_OF(variants); second++)
            for (uint32_t room = 0; room < 11; room++) {
                uint32_t count = one_in(2) ? counts[below(many)] : chance();
                call_write_header_2(variants[first], variants[second], count, room == 10 ? 300 : room);
            }
    for (unsigned byte = 0; byte < 256; byte++) {
        call_write_header_2((uint8_t)byte, 1, byte, 7);
        call_write_header_2(1, (uint8_t)byte, byte, 7);
        call_write_header_2(2, (uint8_t)byte, byte, 7);
        call_write_header_2(3, (uint8_t)byte, byte, 7);
    }
}

/* Records of every kind, right and with each operand broken alone, and kinds that are none. */
static void write_in_room(uint32_t room)
{
    for (unsigned kind = WRITE; kind <= OPEN_DIODE_2; kind++) {
        call_write_event(plain_record((uint8_t)kind), room);
        for (unsigned operand = 0; operand < 3; operand++) {
            record r = plain_record((uint8_t)kind);
            if (break_operand(&r, operand))
                call_write_event(r, room);
        }
    }
    for (size_t i = 0; i < COUNT_OF(unknown_kinds_2); i++) {
        call_write_event((record){ unknown_kinds_2[i], 0, 0, 0 }, room);
        call_write_event((record){ unknown_kinds_2[i], 0xFF, 0xFF, 0xFF }, room);
    }
}

static void theme_writer(void)
{
    static const uint32_t counts[] = { 0, 1, 255, 256, 65535, 65536, 0xFFFFFF, 0x1000000, 0x12345678, 0xFFFFFFFFu };
    every_kind(decode_under_1);
    every_kind(decode_under_2);
    every_kind(write_in_any_room);
    for (uint32_t room = 0; room < 9; room++)
        write_in_room(room == 8 ? 300 : room);
    for (unsigned i = 0; i < 4000; i++) {
        record r = { (uint8_t)(1 + below(OPEN_DIODE_2)), 0, 0, 0 };
        any_bytes(&r);
        call_decode(1 + below(2), r);
        call_write_event(r, any_room());
    }
    for (unsigned variant = 0; variant < 256; variant++)
        for (uint32_t room = 0; room < 9; room++)
            call_write_header((uint8_t)variant, one_in(2) ? ONE_OF(counts) : chance(), room == 8 ? 300 : room);
    decode_under_every_count();
    write_headers_of_two(counts, COUNT_OF(counts));
}

/* ---- Whole captures ------------------------------------------------------ */

/* A row of request a as a whole capture, some of them cut between the two reads. */
static void run_row(row r)
{
    stretch between = make_row(&work, r);
    if (one_in(4))
        work.length = cut_between(&work, between);
    call_run(work.bytes, work.length, 2 * (uint32_t)work.records);
}

/* A row of request b as a whole capture. */
static void run_sum(sum_row r)
{
    make_sum(&work, r);
    call_run(work.bytes, work.length, 2 * (uint32_t)work.records);
}

static void run_alert(alert_row r)
{
    make_alert(&work, r);
    call_run(work.bytes, work.length, 2 * (uint32_t)work.records);
}

static void run_pair_row(pair_row r)
{
    stretch between = make_pair_row(&work, r);
    if (one_in(8))
        work.length = cut_between(&work, between);
    call_run(work.bytes, work.length, 2 * (uint32_t)work.records);
}

static void run_pair_sum(pair_sum r)
{
    make_pair_sum(&work, r);
    call_run(work.bytes, work.length, 2 * (uint32_t)work.records);
}

/* Every byte in the place of the device count, of the one variant and of either of two. */
static void run_every_header(void)
{
    static const uint8_t one[] = { 1, 1, 0, 0, 0, 0 };
    static const uint8_t two[][HEADER_2_BYTES] = { { 2, 1, 2 }, { 2, 2, 1 }, { 2, 3, 1 } };
    uint8_t header[HEADER_2_BYTES];
    for (unsigned byte = 0; byte < 256; byte++) {
        for (unsigned place = 0; place < 2; place++) {
            memcpy(header, one, sizeof one);
            header[place] = (uint8_t)byte;
            call_run(header, sizeof one, 0);
        }
        for (size_t i = 0; i < COUNT_OF(two); i++)
            for (unsigned place = 1; place <= 2; place++) {
                memcpy(header, two[i], sizeof header);
                header[place] = (uint8_t)byte;
                call_run(header, sizeof header, 0);
            }
    }
}

static void run_pairs(void)
{
    for (unsigned i = 0; i < 2000; i++) {
        make_pair_capture(&work, below(9));
        damage(&work, one_in(3) ? below(DAMAGES_2) : i % DAMAGES_2);
        if (one_in(6))
            damage(&work, 3 + below(2));
        call_run(work.bytes, work.length, any_room());
    }
    for (unsigned i = 0; i < 200; i++) {
        make_pair_capture(&work, 2000 + below(2000));
        damage(&work, one_in(10) ? below(DAMAGES_2) : 0);
        uint32_t room = 2 * (uint32_t)work.records;
        call_run(work.bytes, work.length, one_in(8) ? room - 1 - below(9) : room + below(3));
    }
    for (unsigned i = 0; i < 200; i++) {
        make_pair_capture(&work, 60 + below(40));
        call_run(work.bytes, work.length, 2 * (uint32_t)work.records);
    }
    run_every_header();
    every_judgement(1, run_judged);
    every_judgement(2, run_judged);
    every_alert(run_alert);
    for (unsigned round = 0; round < 2; round++)
        every_pair_row(run_pair_row);
    every_pair_sum(run_pair_sum);
}

static void theme_runs(void)
{
    call_run(NULL, 0, 0);
    call_run(NULL, 0, 5);
    for (unsigned i = 0; i < 6000; i++) {
        make_capture(&work, below(9));
        damage(&work, one_in(3) ? below(DAMAGES) : i % DAMAGES);
        if (one_in(6))
            damage(&work, 3 + below(2));
        call_run(work.bytes, work.length, any_room());
    }
    for (unsigned i = 0; i < 700; i++) {
        make_capture(&work, 2000 + below(2000));
        damage(&work, one_in(10) ? below(DAMAGES) : 0);
        uint32_t room = 2 * (uint32_t)work.records;
        call_run(work.bytes, work.length, one_in(8) ? room - 1 - below(9) : room + below(3));
    }
    make_capture(&work, 100000);
    call_run(work.bytes, work.length, 200000);
    for (unsigned round = 0; round < 2; round++)
        every_row(run_row);
    every_sum(run_sum);
    run_pairs();
}

/* One row of request a for each sort of event between its reads. */
static void run_some_rows(void)
{
    for (unsigned sort = 0; sort < SORTS; sort++)
        run_row((row){ sort, sort % SETUPS, HIGH_BYTE, ONE_OF(ways), ways[sort / SETUPS % 2] });
}

/* One row of request b for each end and each distance from it. */
static void run_some_sums(void)
{
    for (int past = WITHIN; past <= FAR; past++) {
        run_sum((sum_row){ true, past, LARGEST, below(SORTS_BEHIND) });
        run_sum((sum_row){ false, past, LARGEST, below(SORTS_BEHIND) });
    }
}

/* Captures of two devices: damaged, long, and with alert responses. */
static void run_some_pairs(void)
{
    for (unsigned i = 0; i < 2 * DAMAGES_2; i++) {
        make_pair_capture(&work, below(40));
        damage(&work, i % DAMAGES_2);
        call_run(work.bytes, work.length, 2 * (uint32_t)work.records);
    }
    make_pair_capture(&work, 5000);
    call_run(work.bytes, work.length, 10000);
    for (unsigned order = 0; order < ORDERS; order++) {
        run_alert((alert_row){ order, { ANSWERING, ANSWERING } });
        run_alert((alert_row){ order, { ANSWERING, COMPARING } });
        run_alert((alert_row){ order, { QUIET, ANSWERING } });
    }
}

static void theme_listed(void)
{
    for (unsigned i = 0; i < 6 * DAMAGES; i++) {
        make_capture(&work, i < DAMAGES ? below(2) : below(40));
        damage(&work, i % DAMAGES);
        call_run(work.bytes, work.length, 2 * (uint32_t)work.records);
    }
    make_capture(&work, 20000);
    call_run(work.bytes, work.length, 40000);
    run_some_rows();
    run_some_sums();
    run_some_pairs();
}

int main(int argc, char **argv)
{
    static const struct {
        const char *name;
        void (*write)(void);
    } themes[] = {
        { "device", theme_device },           { "device-ranges", theme_device_ranges }, { "reader", theme_reader },
        { "reader-ranges", theme_reader_ranges }, { "writer", theme_writer },           { "runs", theme_runs },
        { "listed", theme_listed },           { "pair", theme_pair }
    };
    for (size_t i = 0; argc == 2 && i < COUNT_OF(themes); i++) {
        if (strcmp(argv[1], themes[i].name) != 0)
            continue;
        chance_state = 8900 + i;
        themes[i].write();
        return fflush(stdout) == 0 ? 0 : 1;
    }
    fprintf(stderr, "streams: give one theme:");
    for (size_t i = 0; i < COUNT_OF(themes); i++)
        fprintf(stderr, " %s", themes[i].name);
    fprintf(stderr, "\n");
    return 1;
}
