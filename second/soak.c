/* The soak of request f; see soak.h and NOTES.md.  What a record does to latches and fault
 * count is asked of second_step alone.  P4 and P8 are rulings of document 01. */
#include "soak.h"

/* The configuration is the first of the settings (second.h). */
enum {
    CONFIGURATION = 0,
    STANDBY = 0x40,
    REMOTE_MASK = 0x10,
    LOCAL_MASK = 0x04
};

/* What conversions under one setup carry from one to the next, as far as a latch can tell:
 * both latches and the fault count (P4, P8).  As a number: the latches in its two low bits,
 * the count above them. */
enum {
    LOCAL_LATCH = 0x01,
    REMOTE_LATCH = 0x02,
    LATCHES = LOCAL_LATCH | REMOTE_LATCH,
    COUNT_UNIT = 4,
    COUNTS = 4,                      /* 0 to 3 */
    CARRIED = COUNT_UNIT * COUNTS    /* so many numbers there are */
};

/* For each that may have been carried to the first of the records read, the latches after
 * the last. */
typedef struct {
    uint8_t latches[CARRIED];
} outcome;

static unsigned carried_by(const second_device *device)
{
    return (device->local_latch ? LOCAL_LATCH : 0u) |
           (device->remote_latch ? REMOTE_LATCH : 0u) | device->faults * (unsigned)COUNT_UNIT;
}

static second_device carrying(second_device device, unsigned carried)
{
    device.local_latch = (carried & LOCAL_LATCH) != 0;
    device.remote_latch = (carried & REMOTE_LATCH) != 0;
    device.faults = (uint8_t)(carried / COUNT_UNIT);
    return device;
}

/* No record read: the latches at the end are those before. */
static outcome of_no_records(void)
{
    outcome none;
    for (unsigned carried = 0; carried < CARRIED; carried++)
        none.latches[carried] = (uint8_t)(carried & LATCHES);
    return none;
}

/* One record more, before those read: what it makes of each is what they then start from. */
static outcome with_record(const outcome *later, second_device device, second_event event)
{
    outcome all;
    for (unsigned carried = 0; carried < CARRIED; carried++) {
        second_device one = carrying(device, carried);
        second_step(&one, event);
        all.latches[carried] = later->latches[carried_by(&one)];
    }
    return all;
}

/* f: "the records read give the same latch for every earlier latch and fault count", of
 * both channels. */
static bool both_decided(const outcome *so_far)
{
    for (unsigned carried = 1; carried < CARRIED; carried++)
        if (so_far->latches[carried] != so_far->latches[0])
            return false;
    return true;
}

/* f: "3 for another kind, else 4".  Any kind but 05 and 06 is another, whatever its
 * operands, so the kind is looked at before the table is asked. */
static uint8_t judge(const uint8_t *record, second_event *event)
{
    if (record[0] != SECOND_CONVERSION && record[0] != SECOND_CONVERSION_OPEN)
        return SECOND_KIND;
    return second_decode(1, record, event);
}

/* What is refused before any record is read, in f's order. */
static uint8_t refusal(const second_device *device, size_t length)
{
    if (!second_device_in_range(device))
        return SECOND_STATE;
    if ((device->settings[CONFIGURATION] & STANDBY) != 0)
        return SECOND_STANDBY;
    if (length % SECOND_RECORD_BYTES != 0)
        return SECOND_OPERAND;
    return SECOND_OK;
}

/* P8: "T_CRIT_A is the unmasked latches joined". */
static bool pin(uint8_t configuration, uint8_t latches)
{
    bool local = (latches & LOCAL_LATCH) != 0 && (configuration & LOCAL_MASK) == 0;
    bool remote = (latches & REMOTE_LATCH) != 0 && (configuration & REMOTE_MASK) == 0;
    return local || remote;
}

second_soaked second_soak(second_device device, const uint8_t *records, size_t length)
{
    second_soaked soaked = { refusal(&device, length), false, 0 };
    if (soaked.code != SECOND_OK)
        return soaked;

    outcome so_far = of_no_records();
    size_t unread = length / SECOND_RECORD_BYTES;
    while (unread > 0 && !both_decided(&so_far)) {
        second_event event;
        unread--;
        soaked.read++;
        soaked.code = judge(records + unread * SECOND_RECORD_BYTES, &event);
        if (soaked.code != SECOND_OK)
            return soaked;
        so_far = with_record(&so_far, device, event);
    }
    /* Decided, every entry is this one; at the start, this is what the device carries. */
    soaked.pulled = pin(device.settings[CONFIGURATION], so_far.latches[carried_by(&device)]);
    return soaked;
}
