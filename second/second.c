/* The core of the second implementation; see second.h and NOTES.md.
 * P1 to P12 are the rulings of document 01; a, b and c are document 02's requests, a
 * in the place of P12's first sentence, b beside P2, c over the whole bus. */
#include "second.h"

#include <string.h>

/* ---- Registers --------------------------------------------------------- */

/* Places of the settable bytes in settings[], by rising write address. */
enum {
    SET_CONFIGURATION,    /* read 03, written 09 */
    SET_RATE,             /* 04, 0A */
    SET_LOCAL_HIGH,       /* 05, 0B */
    SET_LOCAL_LOW,        /* 06, 0C */
    SET_REMOTE_HIGH,      /* 07, 0D */
    SET_REMOTE_LOW,       /* 08, 0E */
    SET_OFFSET,           /* 11 */
    SET_OFFSET_FINE,      /* 12 */
    SET_REMOTE_HIGH_FINE, /* 13 */
    SET_REMOTE_LOW_FINE,  /* 14 */
    SET_REMOTE_CRIT,      /* 19 */
    SET_LOCAL_CRIT,       /* 20 */
    SET_HYSTERESIS,       /* 21 */
    SET_FILTER_ALERT      /* BF */
};

/* What a register address means to a read or to a write.  A settable byte at
 * place n of settings[] is ROLE_SETTING + n; 0 is no such register. */
enum {
    ROLE_NONE = 0,
    ROLE_SETTING = 1,
    ROLE_LOCAL = ROLE_SETTING + SECOND_SETTINGS,
    ROLE_REMOTE_HIGH,
    ROLE_REMOTE_LOW,
    ROLE_STATUS,
    ROLE_MAKER,
    ROLE_DIE,
    ROLE_ONE_SHOT
};

static const uint8_t read_role[256] = {
    [0x00] = ROLE_LOCAL,
    [0x01] = ROLE_REMOTE_HIGH,
    [0x02] = ROLE_STATUS,
    [0x03] = ROLE_SETTING + SET_CONFIGURATION,
    [0x04] = ROLE_SETTING + SET_RATE,
    [0x05] = ROLE_SETTING + SET_LOCAL_HIGH,
    [0x06] = ROLE_SETTING + SET_LOCAL_LOW,
    [0x07] = ROLE_SETTING + SET_REMOTE_HIGH,
    [0x08] = ROLE_SETTING + SET_REMOTE_LOW,
    [0x10] = ROLE_REMOTE_LOW,
    [0x11] = ROLE_SETTING + SET_OFFSET,
    [0x12] = ROLE_SETTING + SET_OFFSET_FINE,
    [0x13] = ROLE_SETTING + SET_REMOTE_HIGH_FINE,
    [0x14] = ROLE_SETTING + SET_REMOTE_LOW_FINE,
    [0x19] = ROLE_SETTING + SET_REMOTE_CRIT,
    [0x20] = ROLE_SETTING + SET_LOCAL_CRIT,
    [0x21] = ROLE_SETTING + SET_HYSTERESIS,
    [0xBF] = ROLE_SETTING + SET_FILTER_ALERT,
    [0xFE] = ROLE_MAKER,
    [0xFF] = ROLE_DIE
};

static const uint8_t write_role[256] = {
    [0x09] = ROLE_SETTING + SET_CONFIGURATION,
    [0x0A] = ROLE_SETTING + SET_RATE,
    [0x0B] = ROLE_SETTING + SET_LOCAL_HIGH,
    [0x0C] = ROLE_SETTING + SET_LOCAL_LOW,
    [0x0D] = ROLE_SETTING + SET_REMOTE_HIGH,
    [0x0E] = ROLE_SETTING + SET_REMOTE_LOW,
    [0x0F] = ROLE_ONE_SHOT,
    [0x11] = ROLE_SETTING + SET_OFFSET,
    [0x12] = ROLE_SETTING + SET_OFFSET_FINE,
    [0x13] = ROLE_SETTING + SET_REMOTE_HIGH_FINE,
    [0x14] = ROLE_SETTING + SET_REMOTE_LOW_FINE,
    [0x19] = ROLE_SETTING + SET_REMOTE_CRIT,
    [0x20] = ROLE_SETTING + SET_LOCAL_CRIT,
    [0x21] = ROLE_SETTING + SET_HYSTERESIS,
    [0xBF] = ROLE_SETTING + SET_FILTER_ALERT
};

/* Kept bits of the settable bytes. */
static const uint8_t kept[SECOND_SETTINGS] = {
    [SET_CONFIGURATION] = 0xD5,
    [SET_RATE] = 0xFF,
    [SET_LOCAL_HIGH] = 0xFF,
    [SET_LOCAL_LOW] = 0xFF,
    [SET_REMOTE_HIGH] = 0xFF,
    [SET_REMOTE_LOW] = 0xFF,
    [SET_OFFSET] = 0xFF,
    [SET_OFFSET_FINE] = 0xE0,
    [SET_REMOTE_HIGH_FINE] = 0xE0,
    [SET_REMOTE_LOW_FINE] = 0xE0,
    [SET_REMOTE_CRIT] = 0xFF,
    [SET_LOCAL_CRIT] = 0xFF,
    [SET_HYSTERESIS] = 0x1F,
    [SET_FILTER_ALERT] = 0x07
};

/* What differs between variants; the table is indexed by variant, 0 unused. */
static const struct {
    uint8_t address;
    uint8_t local_crit;
    uint8_t die;         /* register FF */
} part[4] = {
    { 0x00, 0, 0x00 },
    { 0x4C, 85, 0x31 },  /* LM89C */
    { 0x4D, 85, 0x34 },  /* LM89-1C */
    { 0x4D, 105, 0x35 }  /* LM89-1D */
};

enum {
    MAKER_ID = 0x01,     /* register FE */
    ALERT_RESPONSE = 0x0C,
    ADDRESS_MOST = 0x7F
};

/* Status and live byte. */
enum {
    LHIGH = 0x40,
    LLOW = 0x20,
    RHIGH = 0x10,
    RLOW = 0x08,
    OPEN = 0x04,
    RCRIT = 0x02,
    LCRIT = 0x01,
    BUSY = 0x80,
    ALERTING = 0x7B      /* the bits that can pull ALERT */
};

/* Configuration. */
enum {
    ALERT_MASK = 0x80,
    STANDBY = 0x40,
    REMOTE_CRIT_MASK = 0x10,
    LOCAL_CRIT_MASK = 0x04,
    FAULT_QUEUE = 0x01
};

enum { COMPARATOR = 0x01 };  /* BF */

/* First answer byte. */
enum {
    ANSWER_ALERT = 0x01,
    ANSWER_T_CRIT_A = 0x02,
    ANSWER_ACKNOWLEDGED = 0x04,
    ANSWER_TAKEN = 0x08,
    ANSWER_HELD = 0x10   /* b */
};

enum {
    REMOTE_LEAST = -1024,
    REMOTE_MOST = 1023,
    REMOTE_OPEN = 1016,
    FAULTS_MOST = 3,
    LOW_BYTE_UNUSED = 0x1F /* a remote low byte is a multiple of 32 */
};

static bool variant_known(uint8_t variant)
{
    return variant >= 1 && variant <= 3;
}

/* Two known variants with one address, which cannot share a bus (c). */
static bool one_address(uint8_t first, uint8_t second)
{
    return part[first & 3].address == part[second & 3].address;
}

static inline uint8_t own_address(const second_device *device)
{
    return part[device->variant & 3].address;
}

/* ---- Temperatures (P1) ------------------------------------------------- */

static inline int degrees(uint8_t byte)
{
    return (int)(byte ^ 0x80u) - 0x80;
}

static inline int eighths(uint8_t high, uint8_t low)
{
    return degrees(high) * 8 + (low >> 5);
}

static inline uint8_t high_byte(int remote)
{
    return (uint8_t)(((unsigned)remote >> 3) & 0xFFu);
}

static inline uint8_t low_byte(int remote)
{
    return (uint8_t)(((unsigned)remote & 7u) << 5);
}

/* ---- The device -------------------------------------------------------- */

void second_power_on(second_device *device, uint8_t variant)
{
    memset(device, 0, sizeof *device);
    if (!variant_known(variant))
        return;
    device->variant = variant;
    device->settings[SET_RATE] = 8;
    device->settings[SET_LOCAL_HIGH] = 70;
    device->settings[SET_REMOTE_HIGH] = 70;
    device->settings[SET_REMOTE_CRIT] = 110;
    device->settings[SET_LOCAL_CRIT] = part[variant].local_crit;
    device->settings[SET_HYSTERESIS] = 10;
}

/* The device's ranges but for its variant. */
static bool rest_in_range(const second_device *device)
{
    if (device->faults > FAULTS_MOST)
        return false;
    if (device->remote < REMOTE_LEAST || device->remote > REMOTE_MOST)
        return false;
    if (read_role[device->pointer] == ROLE_NONE &&
        write_role[device->pointer] == ROLE_NONE)
        return false;
    if (((device->status | device->live) & BUSY) != 0)
        return false;
    for (size_t i = 0; i < SECOND_SETTINGS; i++)
        if ((device->settings[i] & ~kept[i]) != 0)
            return false;
    if (device->pending &&
        (device->settings[SET_CONFIGURATION] & STANDBY) == 0)
        return false;
    if ((device->low & LOW_BYTE_UNUSED) != 0)
        return false;
    if (!device->lowkept && device->low != 0)
        return false;
    return true;
}

bool second_device_in_range(const second_device *device)
{
    return variant_known(device->variant) && rest_in_range(device);
}

/* c: a second device that is not there is all zeros.  Field by field, since padding
 * is no part of a state. */
static bool all_zeros(const second_device *device)
{
    unsigned any = device->variant | device->pointer | device->pending;
    any |= device->status | device->local | (uint16_t)device->remote | device->live;
    any |= device->faults | device->local_latch | device->remote_latch;
    for (size_t i = 0; i < SECOND_SETTINGS; i++)
        any |= device->settings[i];
    any |= device->low | device->lowkept;
    return any == 0;
}

/* P7 */
static inline bool alert_pulled(const second_device *device)
{
    const uint8_t *set = device->settings;
    uint8_t bits = (set[SET_FILTER_ALERT] & COMPARATOR) != 0 ? device->live
                                                             : device->status;
    return ((set[SET_CONFIGURATION] & ALERT_MASK) == 0) & ((bits & ALERTING) != 0);
}

/* P8, last but one sentence */
static inline bool t_crit_a_pulled(const second_device *device)
{
    uint8_t configuration = device->settings[SET_CONFIGURATION];
    return (device->local_latch & ((configuration & LOCAL_CRIT_MASK) == 0)) |
           (device->remote_latch & ((configuration & REMOTE_CRIT_MASK) == 0));
}

/* What both lines show in the first answer byte. */
static inline unsigned lines(const second_device *device)
{
    return (alert_pulled(device) ? ANSWER_ALERT : 0u) |
           (t_crit_a_pulled(device) ? ANSWER_T_CRIT_A : 0u);
}

/* P9: ALERT is pulled and the mode is the one with an alert response. */
static inline bool answers_alert(const second_device *device)
{
    return (device->settings[SET_FILTER_ALERT] & COMPARATOR) == 0 && alert_pulled(device);
}

/* P6 */
static uint8_t read_status(second_device *device)
{
    uint8_t *set = device->settings;
    uint8_t status = device->status;
    device->status = 0;
    if ((set[SET_FILTER_ALERT] & COMPARATOR) == 0 && (status & ALERTING) != 0)
        set[SET_CONFIGURATION] |= ALERT_MASK;
    return status;
}

/* a: a read of 01 keeps the low byte of the same reading. */
static uint8_t read_remote_high(second_device *device)
{
    device->low = low_byte(device->remote);
    device->lowkept = true;
    return high_byte(device->remote);
}

/* a: a read of 10 returns the byte kept and lets go; if none is, the latest. */
static uint8_t read_remote_low(second_device *device)
{
    uint8_t low = device->lowkept ? device->low : low_byte(device->remote);
    device->low = 0;
    device->lowkept = false;
    return low;
}

/* Read a register: false if it is not in R. */
static bool read_register(second_device *device, uint8_t address, uint8_t *value)
{
    uint8_t role = read_role[address];
    switch (role) {
    case ROLE_NONE:
        return false;
    case ROLE_LOCAL:
        *value = device->local;
        return true;
    case ROLE_REMOTE_HIGH:
        *value = read_remote_high(device);
        return true;
    case ROLE_REMOTE_LOW:
        *value = read_remote_low(device);
        return true;
    case ROLE_STATUS:
        *value = read_status(device);
        return true;
    case ROLE_MAKER:
        *value = MAKER_ID;
        return true;
    case ROLE_DIE:
        *value = part[device->variant & 3].die;
        return true;
    default:
        *value = device->settings[role - ROLE_SETTING];
        return true;
    }
}

/* Write a register: false if it is not in W. */
static bool write_register(second_device *device, uint8_t address, uint8_t value)
{
    uint8_t role = write_role[address];
    if (role == ROLE_NONE)
        return false;
    if (role == ROLE_ONE_SHOT) { /* P11 */
        if ((device->settings[SET_CONFIGURATION] & STANDBY) != 0)
            device->pending = true;
        return true;
    }
    uint8_t place = (uint8_t)(role - ROLE_SETTING);
    device->settings[place] = value & kept[place];
    if (place == SET_CONFIGURATION && (value & STANDBY) == 0)
        device->pending = false; /* P11, leaving standby */
    return true;
}

/* P8: what a latch becomes. */
static inline bool latch_after(bool latch, bool critical, bool below)
{
    return critical | (latch & !below);
}

/* P3 to P5, P8 and P11: a conversion that gives this local byte and this
 * remote reading, with OPEN or 0 as its open bit.  True if it is taken. */
static inline bool convert(second_device *device, uint8_t local_byte, int remote,
                           uint8_t open_bit)
{
    const uint8_t *set = device->settings;
    if ((set[SET_CONFIGURATION] & STANDBY) != 0) {
        if (!device->pending)
            return false;
        device->pending = false;
    }

    int local = degrees(local_byte);
    int local_crit = degrees(set[SET_LOCAL_CRIT]);
    int remote_crit = degrees(set[SET_REMOTE_CRIT]) * 8;
    int hysteresis = set[SET_HYSTERESIS];

    unsigned local_bits = 0;
    if (local > degrees(set[SET_LOCAL_HIGH]))
        local_bits |= LHIGH;
    if (local < degrees(set[SET_LOCAL_LOW]))
        local_bits |= LLOW;
    if (local > local_crit)
        local_bits |= LCRIT;

    unsigned remote_bits = 0;
    if (remote > eighths(set[SET_REMOTE_HIGH], set[SET_REMOTE_HIGH_FINE]))
        remote_bits |= RHIGH;
    if (remote < eighths(set[SET_REMOTE_LOW], set[SET_REMOTE_LOW_FINE]))
        remote_bits |= RLOW;
    if (remote > remote_crit)
        remote_bits |= RCRIT;

    /* P4 */
    if (remote_bits == 0)
        device->faults = 0;
    else if (device->faults < FAULTS_MOST)
        device->faults++;
    if ((set[SET_CONFIGURATION] & FAULT_QUEUE) != 0 && device->faults < FAULTS_MOST)
        remote_bits = 0;

    /* P5 */
    unsigned live = local_bits | remote_bits | open_bit;
    device->local = local_byte;
    device->remote = (int16_t)remote;
    device->live = (uint8_t)live;
    device->status |= (uint8_t)live;

    /* P8, in int: limit minus hysteresis may lie below -128 */
    device->local_latch = latch_after(device->local_latch, (live & LCRIT) != 0,
                                      local < local_crit - hysteresis);
    device->remote_latch = latch_after(device->remote_latch, (live & RCRIT) != 0,
                                       remote < remote_crit - hysteresis * 8);
    return true;
}

/* P2 and b: a conversion of kind 05, whose reading is the sum of sample and offset,
 * held to the eleven bits.  Gives what the first answer byte shows of it: taken and,
 * if the sum was held, held; 0 if it is not taken. */
static inline unsigned convert_sample(second_device *device, second_event event)
{
    const uint8_t *set = device->settings;
    int sum = eighths(event.b, event.c) + eighths(set[SET_OFFSET], set[SET_OFFSET_FINE]);
    int reading = sum;
    unsigned shown = ANSWER_TAKEN;
    if (sum < REMOTE_LEAST || sum > REMOTE_MOST) {
        reading = sum < 0 ? REMOTE_LEAST : REMOTE_MOST;
        shown |= ANSWER_HELD;
    }
    return convert(device, event.a, reading, 0) ? shown : 0;
}

/* P9 and P10: true if the receive is acknowledged. */
static bool receive(second_device *device, uint8_t address, uint8_t *value)
{
    uint8_t own = own_address(device);
    if (address == ALERT_RESPONSE) {
        if (!answers_alert(device))
            return false;
        *value = (uint8_t)(own * 2u + 1u);
        device->settings[SET_CONFIGURATION] |= ALERT_MASK;
        return true;
    }
    return address == own && read_register(device, device->pointer, value);
}

/* P10: an acknowledged write, read or send sets the pointer.  Gives what the first
 * answer byte shows of it. */
static inline unsigned point_at(second_device *device, uint8_t address)
{
    device->pointer = address;
    return ANSWER_ACKNOWLEDGED;
}

/* One event within the table, on a device within its ranges.  Kinds 08 and 09 do not
 * come here: to the device that takes them they are 05 and 06. */
static inline void apply(second_device *device, second_event event,
                         uint8_t *first, uint8_t *second)
{
    uint8_t own = own_address(device);
    uint8_t value = 0;
    unsigned shown = 0; /* in the first answer byte, besides the pins */

    switch (event.kind) {
    case SECOND_WRITE:
        if (event.a == own && write_register(device, event.b, event.c))
            shown = point_at(device, event.b);
        break;
    case SECOND_READ:
        if (event.a == own && read_register(device, event.b, &value))
            shown = point_at(device, event.b);
        break;
    case SECOND_SEND:
        if (event.a == own && (read_role[event.b] != ROLE_NONE ||
                               write_role[event.b] != ROLE_NONE))
            shown = point_at(device, event.b);
        break;
    case SECOND_RECEIVE:
        shown = receive(device, event.a, &value) ? ANSWER_ACKNOWLEDGED : 0;
        break;
    case SECOND_CONVERSION:
        shown = convert_sample(device, event);
        break;
    case SECOND_CONVERSION_OPEN: /* b: P2 has no sum here, so none is held */
        shown = convert(device, event.a, REMOTE_OPEN, OPEN) ? ANSWER_TAKEN : 0;
        break;
    default: /* power-on */
        second_power_on(device, device->variant);
        break;
    }

    *first = (uint8_t)(lines(device) | shown);
    *second = value;
}

/* ---- Two devices on one bus (c) ---------------------------------------- */

/* Who answers an alert response: the lower address of those that P9 lets answer.  If
 * it lets none, the higher address is given, and does not answer. */
static bool second_answers_alert(const second_bus *bus)
{
    bool second_lower = own_address(&bus->second) < own_address(&bus->first);
    const second_device *lower = second_lower ? &bus->second : &bus->first;
    return answers_alert(lower) == second_lower;
}

/* True if the event is the second device's to take.  Else it is the first's, which
 * also takes what is addressed to neither, and by P10 does nothing. */
static inline bool names_second(const second_bus *bus, second_event event)
{
    if (event.kind > SECOND_RECEIVE)
        return event.kind >= SECOND_CONVERSION_2;
    if (event.kind == SECOND_RECEIVE && event.a == ALERT_RESPONSE)
        return second_answers_alert(bus);
    return event.a == own_address(&bus->second);
}

/* One event within the table, on two devices within their ranges: the one it names
 * takes it, the other is as it was but for power-on, and the lines are joined. */
static inline void apply_pair(second_bus *bus, second_event event,
                              uint8_t *first, uint8_t *second)
{
    bool of_second = names_second(bus, event);
    second_device *named = of_second ? &bus->second : &bus->first;
    second_device *other = of_second ? &bus->first : &bus->second;

    if (event.kind >= SECOND_CONVERSION_2)
        event.kind -= SECOND_CONVERSION_2 - SECOND_CONVERSION;
    else if (event.kind == SECOND_POWER_ON)
        second_power_on(other, other->variant);
    apply(named, event, first, second);
    *first |= (uint8_t)lines(other);
}

/* ---- Events and records ------------------------------------------------ */

/* The operand table as bits of a, b and c that must be 0, by kind. */
static const uint8_t must_be_zero[SECOND_OPEN_2 + 1][3] = {
    [SECOND_WRITE] = { 0x80, 0x00, 0x00 },
    [SECOND_READ] = { 0x80, 0x00, 0xFF },
    [SECOND_SEND] = { 0x80, 0x00, 0xFF },
    [SECOND_RECEIVE] = { 0x80, 0xFF, 0xFF },
    [SECOND_CONVERSION] = { 0x00, 0x00, LOW_BYTE_UNUSED },
    [SECOND_CONVERSION_OPEN] = { 0x00, 0xFF, 0xFF },
    [SECOND_POWER_ON] = { 0xFF, 0xFF, 0xFF },
    [SECOND_CONVERSION_2] = { 0x00, 0x00, LOW_BYTE_UNUSED },
    [SECOND_OPEN_2] = { 0x00, 0xFF, 0xFF }
};

/* 3, 4 or 0 for the four bytes of a record; kinds 08 and 09 are known of a pair only. */
static inline uint8_t judge(bool pair, second_event record)
{
    if (record.kind < SECOND_WRITE || record.kind > (pair ? SECOND_OPEN_2 : SECOND_POWER_ON))
        return SECOND_KIND;
    const uint8_t *zero = must_be_zero[record.kind];
    if (((record.a & zero[0]) | (record.b & zero[1]) | (record.c & zero[2])) != 0)
        return SECOND_OPERAND;
    return SECOND_OK;
}

uint8_t second_decode(uint8_t devices, const uint8_t record[SECOND_RECORD_BYTES],
                      second_event *event)
{
    static const second_event none = { 0, 0, 0, 0 };
    second_event raw = { record[0], record[1], record[2], record[3] };
    uint8_t code = judge(devices == 2, raw);
    *event = code == SECOND_OK ? raw : none;
    return code;
}

uint8_t second_write_event(second_event event, uint8_t *out, size_t room)
{
    uint8_t code = judge(true, event);
    if (code != SECOND_OK)
        return code;
    if (room < SECOND_RECORD_BYTES)
        return SECOND_ROOM;
    out[0] = event.kind;
    out[1] = event.a;
    out[2] = event.b;
    out[3] = event.c;
    return SECOND_OK;
}

static void put_count(uint32_t count, uint8_t *out)
{
    out[0] = (uint8_t)(count >> 24);
    out[1] = (uint8_t)(count >> 16);
    out[2] = (uint8_t)(count >> 8);
    out[3] = (uint8_t)count;
}

uint8_t second_write_header(uint8_t variant, uint32_t count, uint8_t *out, size_t room)
{
    if (!variant_known(variant))
        return SECOND_VARIANT;
    if (room < SECOND_HEADER_BYTES)
        return SECOND_ROOM;
    out[0] = 1;
    out[1] = variant;
    put_count(count, out + 2);
    return SECOND_OK;
}

uint8_t second_write_header_2(uint8_t first, uint8_t second, uint32_t count,
                              uint8_t *out, size_t room)
{
    if (!variant_known(first) || !variant_known(second))
        return SECOND_VARIANT;
    if (one_address(first, second))
        return SECOND_ADDRESS;
    if (room < SECOND_HEADER_2_BYTES)
        return SECOND_ROOM;
    out[0] = 2;
    out[1] = first;
    out[2] = second;
    put_count(count, out + 3);
    return SECOND_OK;
}

second_step_result second_step(second_device *device, second_event event)
{
    second_step_result result = { SECOND_STATE, 0, 0 };
    if (!second_device_in_range(device))
        return result;
    result.code = judge(false, event);
    if (result.code == SECOND_OK)
        apply(device, event, &result.first, &result.second);
    return result;
}

/* ---- The reader -------------------------------------------------------- */

void second_fresh(second_reader *reader)
{
    memset(reader, 0, sizeof *reader);
}

/* c: the device count, then one or two variants, then four bytes of record count. */
static unsigned header_bytes(const second_bus *bus)
{
    return 5u + bus->devices;
}

static bool header_complete(const second_reader *reader)
{
    return reader->header == header_bytes(&reader->bus);
}

/* c: the ranges of the bus, with this many header bytes taken. */
static bool bus_in_range(const second_bus *bus, uint8_t header)
{
    if (header == 0 && bus->devices != 0)
        return false;
    if (header > 0 && bus->devices != 1 && bus->devices != 2)
        return false;
    if (header >= 2 && !variant_known(bus->first.variant))
        return false;
    if (!rest_in_range(&bus->first))
        return false;
    if (bus->devices != 2 || header < 3)
        return all_zeros(&bus->second);
    return second_device_in_range(&bus->second) &&
           !one_address(bus->first.variant, bus->second.variant);
}

bool second_reader_in_range(const second_reader *reader)
{
    if (!bus_in_range(&reader->bus, reader->header))
        return false;
    if (reader->header > header_bytes(&reader->bus))
        return false;
    bool complete = header_complete(reader);
    if (reader->carried > 3)
        return false;
    if (reader->carried > 0 && (!complete || reader->done == reader->count))
        return false;
    for (size_t i = reader->carried; i < 3; i++)
        if (reader->carry[i] != 0)
            return false;
    if (!complete) {
        unsigned before = 1u + reader->bus.devices; /* header bytes before the count's */
        unsigned count_bytes = reader->header > before ? reader->header - before : 0u;
        if (reader->count >> (8u * count_bytes) != 0) /* by at most 24 */
            return false;
        if (reader->done != 0)
            return false;
    }
    if (reader->done > reader->count)
        return false;
    return reader->held <= SECOND_EXTRA || reader->held == SECOND_ADDRESS;
}

/* Judge a variant byte and, on 0, power its device on.  9 is for the second alone:
 * the first has none to share an address with. */
static uint8_t take_variant(second_bus *bus, bool of_second, uint8_t byte)
{
    if (!variant_known(byte))
        return SECOND_VARIANT;
    if (of_second && one_address(bus->first.variant, byte))
        return SECOND_ADDRESS;
    second_power_on(of_second ? &bus->second : &bus->first, byte);
    return SECOND_OK;
}

/* Judge one header byte and, on 0, take it. */
static uint8_t take_header_byte(second_reader *reader, uint8_t byte)
{
    uint8_t code = SECOND_OK;
    if (reader->header == 0) {
        if (byte != 1 && byte != 2)
            return SECOND_DEVICE_COUNT;
        reader->bus.devices = byte;
    } else if (reader->header <= reader->bus.devices) {
        code = take_variant(&reader->bus, reader->header == 2, byte);
    } else {
        reader->count = reader->count << 8 | byte;
    }
    if (code == SECOND_OK)
        reader->header++;
    return code;
}

/* Judge four bytes as a record and, on 0, step the bus and write the answer pair
 * behind what is written.  Pair is whether the bus has two devices; the loop over whole
 * records knows it beforehand, so that one device pays nothing for a second. */
static inline uint8_t take_record(second_bus *bus, bool pair, const uint8_t *record,
                                  uint8_t *answers, size_t room, size_t written)
{
    second_event event = { record[0], record[1], record[2], record[3] };
    uint8_t code = judge(pair, event);
    if (code != SECOND_OK)
        return code;
    if (room - written < SECOND_ANSWER_BYTES)
        return SECOND_ROOM;
    uint8_t first;
    uint8_t second;
    if (pair)
        apply_pair(bus, event, &first, &second);
    else
        apply(&bus->first, event, &first, &second);
    answers[written] = first;
    answers[written + 1] = second;
    return SECOND_OK;
}

/* Records that lie whole in the input, none being carried: until the count is
 * reached, fewer than four bytes are left, or a record is not taken.  The
 * first three bytes of that record are consumed and carried. */
static inline uint8_t take_records(second_reader *reader, bool pair,
                                   const uint8_t *input, size_t length, size_t *at,
                                   uint8_t *answers, size_t room, size_t *written)
{
    size_t in = *at;
    size_t out = *written;
    uint32_t left = reader->count - reader->done;
    uint8_t code = SECOND_OK;

    while (left > 0 && length - in >= SECOND_RECORD_BYTES) {
        code = take_record(&reader->bus, pair, input + in, answers, room, out);
        if (code != SECOND_OK) {
            memcpy(reader->carry, input + in, 3);
            reader->carried = 3;
            in += 3;
            break;
        }
        in += SECOND_RECORD_BYTES;
        out += SECOND_ANSWER_BYTES;
        left--;
    }

    reader->done = reader->count - left;
    *at = in;
    *written = out;
    return code;
}

/* The same, as one loop for one device and one for two. */
static uint8_t take_whole_records(second_reader *reader,
                                  const uint8_t *input, size_t length, size_t *at,
                                  uint8_t *answers, size_t room, size_t *written)
{
    if (reader->bus.devices == 2)
        return take_records(reader, true, input, length, at, answers, room, written);
    return take_records(reader, false, input, length, at, answers, room, written);
}

/* Carry a byte of a record that does not lie whole in the input, or judge it as the
 * record's fourth and, on 0, take the record. */
static uint8_t take_record_byte(second_reader *reader, uint8_t byte,
                                uint8_t *answers, size_t room, size_t *written)
{
    if (reader->carried < 3) {
        reader->carry[reader->carried] = byte;
        reader->carried++;
        return SECOND_OK;
    }
    uint8_t record[SECOND_RECORD_BYTES];
    memcpy(record, reader->carry, 3);
    record[3] = byte;
    uint8_t code = take_record(&reader->bus, reader->bus.devices == 2, record,
                               answers, room, *written);
    if (code == SECOND_OK) {
        memset(reader->carry, 0, sizeof reader->carry);
        reader->carried = 0;
        reader->done++;
        *written += SECOND_ANSWER_BYTES;
    }
    return code;
}

static bool lasting(uint8_t code)
{
    return (code >= SECOND_DEVICE_COUNT && code <= SECOND_EXTRA) || code == SECOND_ADDRESS;
}

second_feed_result second_feed(second_reader *reader,
                               const uint8_t *input, size_t length,
                               uint8_t *answers, size_t room)
{
    second_feed_result result = { SECOND_OK, 0, 0 };
    if (!second_reader_in_range(reader)) {
        result.code = SECOND_STATE;
        return result;
    }
    if (reader->held != SECOND_OK) {
        result.code = reader->held;
        return result;
    }

    size_t at = 0;
    size_t written = 0;
    uint8_t code = SECOND_OK;

    while (at < length && code == SECOND_OK) {
        size_t taken = 1;
        if (!header_complete(reader)) {
            code = take_header_byte(reader, input[at]);
        } else if (reader->done == reader->count) {
            code = SECOND_EXTRA;
        } else if (reader->carried == 0 && length - at >= SECOND_RECORD_BYTES) {
            code = take_whole_records(reader, input, length, &at, answers, room, &written);
            taken = 0; /* counted there */
        } else {
            code = take_record_byte(reader, input[at], answers, room, &written);
        }
        if (code == SECOND_OK)
            at += taken;
    }

    if (lasting(code))
        reader->held = code;
    result.code = code;
    result.consumed = at;
    result.written = written;
    return result;
}

uint8_t second_finish(const second_reader *reader)
{
    if (!second_reader_in_range(reader))
        return SECOND_STATE;
    if (reader->held != SECOND_OK)
        return reader->held;
    if (!header_complete(reader) || reader->done != reader->count)
        return SECOND_UNFINISHED;
    return SECOND_OK;
}

uint64_t second_run(const uint8_t *capture, size_t length,
                    uint8_t *answers, size_t room)
{
    second_reader reader;
    second_fresh(&reader);
    second_feed_result fed = second_feed(&reader, capture, length, answers, room);
    uint8_t code = fed.code != SECOND_OK ? fed.code : second_finish(&reader);
    return (uint64_t)fed.written * 16u + code;
}

/* ---- The listing ------------------------------------------------------- */

static size_t put_decimal(char *out, uint32_t number)
{
    char digits[10];
    size_t n = 0;
    do {
        digits[n++] = (char)('0' + number % 10u);
        number /= 10u;
    } while (number != 0);
    for (size_t i = 0; i < n; i++)
        out[i] = digits[n - 1 - i];
    return n;
}

static size_t put_hex(char *out, uint8_t byte)
{
    static const char digit[] = "0123456789ABCDEF";
    out[0] = digit[byte >> 4];
    out[1] = digit[byte & 15];
    return 2;
}

static size_t put_line(char *out, size_t room, const char *line, size_t length)
{
    if (length > room)
        return 0;
    memcpy(out, line, length);
    return length;
}

size_t second_listing_record(char *out, size_t room, uint32_t number,
                             uint8_t first, uint8_t second)
{
    char line[SECOND_LINE_MOST];
    size_t n = put_decimal(line, number);
    line[n++] = ' ';
    n += put_hex(line + n, first);
    line[n++] = ' ';
    n += put_hex(line + n, second);
    line[n++] = '\n';
    return put_line(out, room, line, n);
}

size_t second_listing_end(char *out, size_t room, uint32_t done, uint8_t code)
{
    char line[SECOND_LINE_MOST];
    size_t n = 4;
    memcpy(line, "end ", 4);
    n += put_decimal(line + n, done);
    line[n++] = ' ';
    n += put_decimal(line + n, code);
    line[n++] = '\n';
    return put_line(out, room, line, n);
}
