/* The account of request e; see account.h and NOTES.md.  It keeps what document 02 lets
 * it: settings, fault count, standby (a setting), a pending one-shot, and the list of taken
 * conversions.  Status, pins, pointer, kept low byte and live byte have no part in it, and
 * no latch is carried from record to record: each verdict is searched for in the list.
 * P1 to P12 are the rulings of document 01; b, c and e are document 02's requests. */
#include "account.h"
#include "second.h"

#include <stdbool.h>
#include <stdlib.h>

/* Write addresses of the bytes that bear on a latch or on the pin: by P8 T_CRIT, hysteresis
 * and masks, by P2 the offset, by P4 the remote limits and the fault queue, by P11 standby
 * and one-shot.  The others, 0A, 0B, 0C and BF, bear on neither. */
enum {
    REGISTER_CONFIGURATION = 0x09,
    REGISTER_REMOTE_HIGH = 0x0D,
    REGISTER_REMOTE_LOW = 0x0E,
    REGISTER_ONE_SHOT = 0x0F,
    REGISTER_OFFSET = 0x11,
    REGISTER_OFFSET_FINE = 0x12,
    REGISTER_REMOTE_HIGH_FINE = 0x13,
    REGISTER_REMOTE_LOW_FINE = 0x14,
    REGISTER_REMOTE_CRIT = 0x19,
    REGISTER_LOCAL_CRIT = 0x20,
    REGISTER_HYSTERESIS = 0x21
};

/* Configuration. */
enum {
    STANDBY = 0x40,
    REMOTE_MASK = 0x10,
    LOCAL_MASK = 0x04,
    FAULT_QUEUE = 0x01
};

/* Kept bits ("Registers"); D7 of the configuration is left out, since P6 and P9 move it
 * through status and pin, and no latch depends on it. */
enum {
    KEPT_CONFIGURATION = STANDBY | REMOTE_MASK | LOCAL_MASK | FAULT_QUEUE,
    KEPT_FINE = 0xE0,
    KEPT_HYSTERESIS = 0x1F
};

/* Power-on bytes that are not 0 (004's register table). */
enum {
    POWER_ON_REMOTE_HIGH = 70,
    POWER_ON_REMOTE_CRIT = 110,
    POWER_ON_HYSTERESIS = 10,
    POWER_ON_LOCAL_CRIT = 85,
    POWER_ON_LOCAL_CRIT_1D = 105
};

/* Variants and their addresses ("The capture"). */
enum {
    VARIANT_C = 1,  /* LM89C */
    VARIANT_1C = 2, /* LM89-1C */
    VARIANT_1D = 3, /* LM89-1D */
    ADDRESS_C = 0x4C,
    ADDRESS_1 = 0x4D
};

enum {
    BYTE_VALUES = 256,
    SIGN_BIT = 0x80,
    EIGHTHS = 8,      /* in a degree */
    FINE_STEP = 32,   /* an eighth, in a low byte (P1) */
    READING_LEAST = -1024,
    READING_MOST = 1023,
    READING_OPEN = 1016, /* P2 */
    FAULTS_LIVE = 3      /* P4 */
};

/* The header ("The capture" and c). */
enum {
    DEVICES_MOST = 2,
    COUNT_BYTES = 4 /* of the record count, highest first */
};

typedef enum { LOCAL, REMOTE, CHANNELS } channel;

/* The bytes in force, as written. */
typedef struct settings {
    uint8_t configuration; /* without D7 */
    uint8_t remote_high;
    uint8_t remote_high_fine;
    uint8_t remote_low;
    uint8_t remote_low_fine;
    uint8_t offset;
    uint8_t offset_fine;
    uint8_t remote_crit;
    uint8_t local_crit;
    uint8_t hysteresis;
} settings;

/* A taken conversion. */
typedef struct conversion {
    uint32_t record;           /* its number, from 1 */
    int16_t reading[CHANNELS]; /* eighths of a degree, both */
    settings in_force;         /* at it */
    uint8_t faults;            /* the fault count that it led to */
} conversion;

/* One device's account. */
typedef struct account {
    uint8_t variant;
    settings set;
    uint8_t faults;
    bool pending;        /* a one-shot was asked for in standby */
    uint32_t power_on;   /* number of the last power-on's record; 0 for the variant byte */
    conversion *list;    /* its taken conversions, the oldest first */
    size_t taken;        /* how many those are */
} account;

/* ---- Temperatures (P1), all in eighths --------------------------------- */

static int eighths(uint8_t high, uint8_t low)
{
    int degrees = (high & SIGN_BIT) != 0 ? high - BYTE_VALUES : high;
    return degrees * EIGHTHS + low / FINE_STEP;
}

/* P2: sample plus offset, held to the scale. */
static int reading_of_sample(const settings *set, uint8_t high, uint8_t low)
{
    int sum = eighths(high, low) + eighths(set->offset, set->offset_fine);
    if (sum > READING_MOST)
        return READING_MOST;
    return sum < READING_LEAST ? READING_LEAST : sum;
}

static int t_crit(const settings *set, channel of)
{
    return eighths(of == LOCAL ? set->local_crit : set->remote_crit, 0);
}

/* ---- Settings ---------------------------------------------------------- */

static void power_on(account *device, uint32_t record)
{
    static const settings none = { 0 };
    device->set = none;
    device->set.remote_high = POWER_ON_REMOTE_HIGH;
    device->set.remote_crit = POWER_ON_REMOTE_CRIT;
    device->set.local_crit = device->variant == VARIANT_1D ? POWER_ON_LOCAL_CRIT_1D
                                                           : POWER_ON_LOCAL_CRIT;
    device->set.hysteresis = POWER_ON_HYSTERESIS;
    device->faults = 0;
    device->pending = false;
    device->power_on = record;
}

static bool in_standby(const account *device)
{
    return (device->set.configuration & STANDBY) != 0;
}

/* P11: leaving standby clears the one-shot. */
static void write_configuration(account *device, uint8_t value)
{
    device->set.configuration = value & KEPT_CONFIGURATION;
    if (!in_standby(device))
        device->pending = false;
}

/* A write at the device's address. */
static void write_register(account *device, uint8_t address, uint8_t value)
{
    settings *set = &device->set;
    if (address == REGISTER_CONFIGURATION)
        write_configuration(device, value);
    else if (address == REGISTER_ONE_SHOT)
        device->pending = in_standby(device); /* P11: out of standby it does nothing */
    else if (address == REGISTER_REMOTE_HIGH)
        set->remote_high = value;
    else if (address == REGISTER_REMOTE_LOW)
        set->remote_low = value;
    else if (address == REGISTER_OFFSET)
        set->offset = value;
    else if (address == REGISTER_OFFSET_FINE)
        set->offset_fine = value & KEPT_FINE;
    else if (address == REGISTER_REMOTE_HIGH_FINE)
        set->remote_high_fine = value & KEPT_FINE;
    else if (address == REGISTER_REMOTE_LOW_FINE)
        set->remote_low_fine = value & KEPT_FINE;
    else if (address == REGISTER_REMOTE_CRIT)
        set->remote_crit = value;
    else if (address == REGISTER_LOCAL_CRIT)
        set->local_crit = value;
    else if (address == REGISTER_HYSTERESIS)
        set->hysteresis = value & KEPT_HYSTERESIS;
}

/* ---- Conversions ------------------------------------------------------- */

/* P3 and P4: outside any of the three remote limits. */
static bool remote_outside(const settings *set, int reading)
{
    return reading > eighths(set->remote_high, set->remote_high_fine) ||
           reading < eighths(set->remote_low, set->remote_low_fine) ||
           reading > t_crit(set, REMOTE);
}

/* P4: the fault count that a taken conversion leads to, whether or not the queue is on. */
static uint8_t faults_after(const settings *set, uint8_t faults, int reading)
{
    if (!remote_outside(set, reading))
        return 0;
    return faults < FAULTS_LIVE ? (uint8_t)(faults + 1) : FAULTS_LIVE;
}

/* A conversion of the device: put to the list if P11 has it taken. */
static void convert(account *device, uint32_t record, second_event event, bool open)
{
    const settings *set = &device->set;
    if (in_standby(device) && !device->pending)
        return;
    device->pending = false;
    int remote = open ? READING_OPEN : reading_of_sample(set, event.b, event.c);
    device->faults = faults_after(set, device->faults, remote);

    conversion *taken = &device->list[device->taken];
    taken->record = record;
    taken->reading[LOCAL] = (int16_t)eighths(event.a, 0);
    taken->reading[REMOTE] = (int16_t)remote;
    taken->in_force = *set;
    taken->faults = device->faults;
    device->taken++;
}

/* ---- Verdicts (e) ------------------------------------------------------ */

/* e: the conversion "made that channel's T_CRIT bit live under the settings then in force":
 * strictly above T_CRIT (P3) and, of the remote bit with the queue on, on a count of 3 (P4). */
static bool made_live(const conversion *one, channel of)
{
    const settings *set = &one->in_force;
    if (of == REMOTE && (set->configuration & FAULT_QUEUE) != 0 && one->faults < FAULTS_LIVE)
        return false;
    return one->reading[of] > t_crit(set, of);
}

/* e: it "read strictly below the limit less hysteresis in force at that later one".  The
 * difference has no width and may lie below the scale. */
static bool read_below(const conversion *one, channel of)
{
    const settings *set = &one->in_force;
    return one->reading[of] < t_crit(set, of) - set->hysteresis * EIGHTHS;
}

/* e: "some taken conversion since the last power-on made that channel's T_CRIT bit live"
 * and "no taken conversion after it read strictly below".  From the newest back: the first
 * that made it live has none after it that read below; of those before one that read below
 * none will do. */
static bool latched(const account *device, channel of)
{
    for (size_t left = device->taken; left > 0; left--) {
        const conversion *one = &device->list[left - 1];
        if (one->record <= device->power_on)
            return false;
        if (made_live(one, of))
            return true;
        if (read_below(one, of))
            return false;
    }
    return false;
}

/* P8: "T_CRIT_A is the unmasked latches joined"; c: "The answer pins become the joined
 * lines". */
static uint8_t verdict(const account *device, size_t devices)
{
    static const uint8_t mask[CHANNELS] = { [LOCAL] = LOCAL_MASK, [REMOTE] = REMOTE_MASK };
    static const uint8_t bit[DEVICES_MOST][CHANNELS] = {
        { SECOND_VERDICT_LOCAL, SECOND_VERDICT_REMOTE },
        { SECOND_VERDICT_LOCAL_2, SECOND_VERDICT_REMOTE_2 }
    };
    unsigned bits = 0;
    for (size_t i = 0; i < devices; i++) {
        for (channel of = LOCAL; of < CHANNELS; of++) {
            if (!latched(&device[i], of))
                continue;
            bits |= bit[i][of];
            if ((device[i].set.configuration & mask[of]) == 0)
                bits |= SECOND_VERDICT_PULLED;
        }
    }
    return (uint8_t)bits;
}

/* ---- Records and the capture ------------------------------------------- */

static uint8_t address_of(uint8_t variant)
{
    return variant == VARIANT_C ? ADDRESS_C : ADDRESS_1;
}

/* A valid record.  Reads, sends and receives, the alert response among them, move neither
 * a setting that is kept here nor the list. */
static void take_record(account *device, size_t devices, uint32_t record, second_event event)
{
    switch (event.kind) {
    case SECOND_WRITE:
        for (size_t i = 0; i < devices; i++)
            if (event.a == address_of(device[i].variant))
                write_register(&device[i], event.b, event.c);
        break;
    case SECOND_CONVERSION:
    case SECOND_CONVERSION_OPEN:
        convert(&device[0], record, event, event.kind == SECOND_CONVERSION_OPEN);
        break;
    case SECOND_CONVERSION_2: /* c: under a count of 2 alone */
    case SECOND_OPEN_2:
        convert(&device[1], record, event, event.kind == SECOND_OPEN_2);
        break;
    case SECOND_POWER_ON: /* c: "07 restarts both" */
        for (size_t i = 0; i < devices; i++)
            power_on(&device[i], record);
        break;
    default:
        break;
    }
}

/* What an accepted capture holds. */
typedef struct contents {
    size_t devices;
    uint8_t variant[DEVICES_MOST];
    const uint8_t *records;
    size_t count;                     /* of records */
    size_t conversions[DEVICES_MOST]; /* records that convert, taken or not */
} contents;

/* The header, and that as many bytes as it counts follow: codes 1, 2, 9, 5 and 6. */
static bool good_header(const uint8_t *capture, size_t length, contents *held)
{
    if (length < 1 || capture[0] < 1 || capture[0] > DEVICES_MOST)
        return false;
    held->devices = capture[0];
    size_t header = 1 + held->devices + COUNT_BYTES;
    if (length < header)
        return false;
    for (size_t i = 0; i < held->devices; i++) {
        held->variant[i] = capture[1 + i];
        if (held->variant[i] < VARIANT_C || held->variant[i] > VARIANT_1D)
            return false;
    }
    if (held->devices > 1 && address_of(held->variant[0]) == address_of(held->variant[1]))
        return false;
    uint32_t count = 0;
    for (size_t i = header - COUNT_BYTES; i < header; i++)
        count = count * BYTE_VALUES + capture[i];
    held->records = capture + header;
    held->count = count;
    return (length - header) % SECOND_RECORD_BYTES == 0 &&
           (length - header) / SECOND_RECORD_BYTES == count;
}

/* Every record valid (codes 3 and 4), and how many convert. */
static bool good_records(contents *held)
{
    held->conversions[0] = 0;
    held->conversions[1] = 0;
    for (size_t i = 0; i < held->count; i++) {
        second_event event;
        if (second_decode((uint8_t)held->devices, held->records + i * SECOND_RECORD_BYTES,
                          &event) != SECOND_OK)
            return false;
        if (event.kind == SECOND_CONVERSION || event.kind == SECOND_CONVERSION_OPEN)
            held->conversions[0]++;
        if (event.kind == SECOND_CONVERSION_2 || event.kind == SECOND_OPEN_2)
            held->conversions[1]++;
    }
    return true;
}

size_t second_account(const uint8_t *capture, size_t length, uint8_t *verdicts, size_t room)
{
    contents held;
    if (!good_header(capture, length, &held) || held.count > room || !good_records(&held))
        return SECOND_ACCOUNT_NONE;
    size_t places = held.conversions[0] + held.conversions[1];
    conversion *list = calloc(places > 0 ? places : 1, sizeof *list);
    if (list == NULL)
        return SECOND_ACCOUNT_NONE;

    account device[DEVICES_MOST] = { { 0 }, { 0 } };
    device[0].list = list;
    device[1].list = list + held.conversions[0];
    for (size_t i = 0; i < held.devices; i++) {
        device[i].variant = held.variant[i];
        power_on(&device[i], 0);
    }
    for (size_t i = 0; i < held.count; i++) {
        second_event event;
        second_decode((uint8_t)held.devices, held.records + i * SECOND_RECORD_BYTES, &event);
        take_record(device, held.devices, (uint32_t)(i + 1), event);
        verdicts[i] = verdict(device, held.devices);
    }
    free(list);
    return held.count;
}
