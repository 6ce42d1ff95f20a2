/* Holds engines to the account of request e (account.h).  Standard input, repeated until
 * its end: length (4 bytes, big-endian), that many bytes of a capture, length (4), that many
 * bytes of answers that some engine gave for it, two a record.
 *
 * Of each capture it checks that the account accepts it exactly if the second implementation
 * does; of each accepted one with all its answers, after each record, D1 of the first answer
 * byte against the account's T_CRIT_A, and the latches of both devices, the capture being fed
 * record by record to a fresh reader, against the account's.  At the first disagreement it
 * says where, with status 1.  Else it prints how often each row below occurred, and what was
 * checked, with status 1 if a row never did.
 *
 * What it reads of the second implementation's devices serves to count the rows. */
#include "account.h"
#include "second.h"

#include <stdio.h>
#include <stdlib.h>
#include <string.h>

/* ---- Rows -------------------------------------------------------------- */

/* Where a row can occur; NOTES.md has why some cannot. */
enum { OF_LOCAL = 1, OF_REMOTE = 2, OF_PAIR = 4, EACH = OF_LOCAL | OF_REMOTE };

/* One line a row: its name in here, where it can occur, its words. */
#define ROWS(ROW)                                                                          \
    ROW(SET, EACH, "set by the record")                                                    \
    ROW(KEPT, EACH, "kept set over the record")                                            \
    ROW(CLEARED, EACH, "cleared by a conversion")                                          \
    ROW(STAYS_CLEAR, EACH, "stays clear over the record")                                  \
    ROW(EDGE_HELD, EACH, "held at exactly limit less hysteresis")                          \
    ROW(EDGE_CLEARED, EACH, "cleared one step below limit less hysteresis")                \
    ROW(LIMIT_CLEAR, EACH, "at exactly T_CRIT not live")                                   \
    ROW(LIMIT_SET, EACH, "one step above T_CRIT live")                                     \
    ROW(ZERO_HELD, EACH, "hysteresis 0, held at exactly T_CRIT")                           \
    ROW(ZERO_CLEARED, EACH, "hysteresis 0, cleared one step below T_CRIT")                 \
    ROW(BELOW_ZERO_SET, EACH, "set by a reading below 0")                                  \
    ROW(FLOOR_HELD, EACH, "held at -128, limit less hysteresis lying below it")            \
    ROW(QUEUE_LOCAL_SET, OF_LOCAL, "set with the queue on and the count below 3")          \
    ROW(QUEUE_CLEAR, OF_REMOTE, "above T_CRIT, held back by the queue, stays clear")       \
    ROW(QUEUE_HELD, OF_REMOTE, "above T_CRIT, held back by the queue, kept set")           \
    ROW(QUEUE_BROKEN, OF_REMOTE, "held back by the queue, three above T_CRIT but no row")  \
    ROW(QUEUE_THIRD, OF_REMOTE, "let through by the queue at the third")                   \
    ROW(QUEUE_OTHERS, OF_REMOTE, "let through, the two before outside other limits only")  \
    ROW(QUEUE_RAN_OFF, OF_REMOTE, "let through on a count begun with the queue off")       \
    ROW(QUEUE_OFF, OF_REMOTE, "queue off, set on a count below 3")                         \
    ROW(MASKED, EACH, "set and masked, T_CRIT_A not pulled")                               \
    ROW(MASKED_PULLED, EACH, "set and masked, T_CRIT_A pulled by another")                 \
    ROW(UNMASKED, EACH, "set and not masked")                                              \
    ROW(MASK_SET, EACH, "set, its mask set by the record")                                 \
    ROW(MASK_LIFTED, EACH, "set, its mask lifted by the record")                           \
    ROW(SET_MASKED, EACH, "set by a conversion while masked")                              \
    ROW(CLEARED_MASKED, EACH, "cleared by a conversion while masked")                      \
    ROW(HYSTERESIS_CLEARED, EACH, "hysteresis written since: cleared, not so by the old")  \
    ROW(HYSTERESIS_HELD, EACH, "hysteresis written since: held, cleared by the old")       \
    ROW(CRIT_CLEARED, EACH, "T_CRIT written since: cleared, not so by the old")            \
    ROW(CRIT_HELD, EACH, "T_CRIT written since: held, cleared by the old")                 \
    ROW(CRIT_RAISED, EACH, "held, what made it live being live no more by T_CRIT now")     \
    ROW(CRIT_LOWERED, EACH, "stays clear, the reading before being above T_CRIT now")      \
    ROW(WRITE_ABOVE, EACH, "clear, T_CRIT written below the latest reading")               \
    ROW(WRITE_BELOW, EACH, "set, limit or hysteresis written: the latest reading below")   \
    ROW(UNTAKEN_SET, EACH, "not taken in standby, would have set")                         \
    ROW(UNTAKEN_CLEARED, EACH, "not taken in standby, would have cleared")                 \
    ROW(ONE_SHOT_SET, EACH, "set by a one-shot")                                           \
    ROW(ONE_SHOT_CLEARED, EACH, "cleared by a one-shot")                                   \
    ROW(ONE_SHOT_KEPT, EACH, "moved by a one-shot, 09 written in between in standby")      \
    ROW(ONE_SHOT_SPENT, EACH, "not taken, the one-shot being spent, would have moved")     \
    ROW(ONE_SHOT_LEFT, EACH, "not taken, standby left since 0F, would have moved")         \
    ROW(ONE_SHOT_OUTSIDE, EACH, "not taken, 0F written out of standby, would have moved")  \
    ROW(ONE_SHOT_LOST, EACH, "not taken, power-on since 0F, would have moved")             \
    ROW(POWER_ON, EACH, "power-on with it set")                                            \
    ROW(POWER_ON_HELD, EACH, "set before power-on, the first reading after holds nothing") \
    ROW(STATUS_READ, EACH, "set, status read")                                             \
    ROW(STATUS_RECEIVED, EACH, "set, status received by pointer")                          \
    ROW(ALERT_ANSWERED, EACH, "set, alert response answered by its device")                \
    ROW(ALERT_NOT, EACH, "set, alert response not answered by its device")                 \
    ROW(NO_ADDRESS, EACH, "limit or hysteresis written where no device is")                \
    ROW(OTHER_WRITTEN, EACH | OF_PAIR, "limit or hysteresis of the other device written")  \
    ROW(OTHER_SET, EACH | OF_PAIR, "conversion of the other, would have set")              \
    ROW(OTHER_CLEARED, EACH | OF_PAIR, "conversion of the other, would have cleared")      \
    ROW(OTHER_STANDBY, EACH | OF_PAIR, "moved by a conversion, the other in standby")      \
    ROW(OFFSET_SET, OF_REMOTE, "set by the offset: the sample is not above T_CRIT")        \
    ROW(OFFSET_CLEAR, OF_REMOTE, "kept clear by the offset: the sample is above T_CRIT")   \
    ROW(OFFSET_CLEARED, OF_REMOTE, "cleared by the offset: the sample is not below")       \
    ROW(OFFSET_HELD, OF_REMOTE, "held by the offset: the sample is below")                 \
    ROW(SUM_LEAST, OF_REMOTE, "held at the scale's low end: the sum is below")             \
    ROW(SUM_MOST, OF_REMOTE, "set at the scale's high end")                                \
    ROW(OPEN_SET, EACH, "set by a conversion with the diode open")                         \
    ROW(OPEN_CLEARED, OF_LOCAL, "cleared by a conversion with the diode open")             \
    ROW(OPEN_LIMIT, OF_REMOTE, "diode open at T_CRIT 127, not live for all the offset")    \
    ROW(OPEN_OFFSET, OF_REMOTE, "set by an open diode, for all the offset below 0")

enum {
#define ROW(name, where, words) ROW_##name,
    ROWS(ROW)
#undef ROW
    ROW_COUNT
};

static const struct {
    uint8_t where;
    const char *words;
} rows[ROW_COUNT] = {
#define ROW(name, where, words) { where, words },
    ROWS(ROW)
#undef ROW
};

/* A device by count and place, and the headers that there are. */
enum { ALONE, FIRST_OF_TWO, SECOND_OF_TWO, PLACES };
enum { LOCAL, REMOTE, CHANNELS };
enum { VARIANTS = 4 }; /* 0: no second device */

static const char *const place_words[PLACES] = {
    "1 device", "2 devices, first", "2 devices, second"
};
static const char *const channel_words[CHANNELS] = { "local", "remote" };

static uint64_t row_count[PLACES][CHANNELS][ROW_COUNT];
static uint64_t header_count[VARIANTS][VARIANTS]; /* captures checked, by variants */
enum { CODES = 16 }; /* a run's code is its result modulo 16 */
static uint64_t refused_count[CODES];             /* captures not accepted, by code */
static uint64_t captures, accepted, checked, records_checked;

/* ---- What the rows are told from --------------------------------------- */

enum {
    DEVICES = 2,
    VARIANT_C = 1, /* the one at 4Ch */
    ADDRESS_C = 0x4C,
    ADDRESS_1 = 0x4D,
    BYTE_VALUES = 256,
    SIGN_BIT = 0x80,
    EIGHTHS = 8,    /* in a degree */
    FINE_STEP = 32, /* an eighth, in a low byte */
    READING_LEAST = -1024,
    READING_MOST = 1023,
    READING_OPEN = 1016,
    QUEUE_LENGTH = 3,
    ALERT_RESPONSE = 0x0C,
    REGISTER_STATUS = 0x02,
    REGISTER_CONFIGURATION = 0x09,
    REGISTER_ONE_SHOT = 0x0F,
    REGISTER_REMOTE_CRIT = 0x19,
    REGISTER_LOCAL_CRIT = 0x20,
    REGISTER_HYSTERESIS = 0x21,
    ALERT_MASK = 0x80,
    STANDBY = 0x40,
    REMOTE_MASK = 0x10,
    LOCAL_MASK = 0x04,
    FAULT_QUEUE = 0x01,
    ANSWER_T_CRIT_A = 0x02
};

/* Places in settings[], see second.h. */
enum {
    SET_CONFIGURATION = 0,
    SET_REMOTE_HIGH = 4,
    SET_REMOTE_LOW = 5,
    SET_OFFSET = 6,
    SET_OFFSET_FINE = 7,
    SET_REMOTE_HIGH_FINE = 8,
    SET_REMOTE_LOW_FINE = 9,
    SET_REMOTE_CRIT = 10,
    SET_LOCAL_CRIT = 11,
    SET_HYSTERESIS = 12
};

/* What went before on a channel, since power-on but where said otherwise. */
typedef struct channel_past {
    bool any;               /* a conversion was taken */
    int reading;            /* of the latest */
    int live_reading;       /* of the latest that made the bit live, and then: */
    int live_limit;
    int live_hysteresis;
    bool set_at_power_on;   /* set before the last power-on, no conversion since */
} channel_past;

/* What went before on a device. */
typedef struct device_past {
    channel_past channel[CHANNELS];
    unsigned above;         /* remote readings above T_CRIT since one let it live */
    unsigned above_in_row;  /* of these, in the present row of faults */
    bool off_in_row;        /* one of that row came with the queue off */
    bool spent, left, outside, lost, rewritten; /* the one-shot, see one_shot_past */
} device_past;

/* One record, and a device before and after it. */
typedef struct step {
    second_event event;
    second_device before, after;
    const second_device *other; /* the other device, or NULL */
    bool own, others;           /* a conversion of this device, of the other one */
    bool taken;                 /* of this device, and taken */
    bool open;
    int sum;                    /* sample plus this device's offset, of a conversion */
    int sample;
    unsigned faults;            /* the count it leads to here, were it taken */
    bool pulled;                /* T_CRIT_A after it, by the account */
} step;

/* One channel over one record: verdicts of the account, and in eighths what the device
 * reads, or would read, of the record by its settings. */
typedef struct view {
    const step *of;
    const channel_past *past;
    unsigned channel;
    uint64_t *count;
    bool was, now;
    int reading, limit, edge, unit;
    bool live, below; /* of that reading, were it taken */
} view;

static int eighths(uint8_t high, uint8_t low)
{
    int degrees = (high & SIGN_BIT) != 0 ? high - BYTE_VALUES : high;
    return degrees * EIGHTHS + low / FINE_STEP;
}

static int limit_of(const second_device *device, unsigned channel)
{
    return eighths(device->settings[channel == LOCAL ? SET_LOCAL_CRIT : SET_REMOTE_CRIT], 0);
}

static int edge_of(const second_device *device, unsigned channel)
{
    return limit_of(device, channel) - device->settings[SET_HYSTERESIS] * EIGHTHS;
}

static uint8_t configuration(const second_device *device)
{
    return device->settings[SET_CONFIGURATION];
}

static bool in_standby(const second_device *device)
{
    return (configuration(device) & STANDBY) != 0;
}

static uint8_t address_of(const second_device *device)
{
    return device->variant == VARIANT_C ? ADDRESS_C : ADDRESS_1;
}

static int within_scale(int sum)
{
    if (sum > READING_MOST)
        return READING_MOST;
    return sum < READING_LEAST ? READING_LEAST : sum;
}

static int remote_reading(const step *at)
{
    return at->open ? READING_OPEN : within_scale(at->sum);
}

static bool remote_outside(const second_device *device, int reading)
{
    const uint8_t *set = device->settings;
    return reading > eighths(set[SET_REMOTE_HIGH], set[SET_REMOTE_HIGH_FINE]) ||
           reading < eighths(set[SET_REMOTE_LOW], set[SET_REMOTE_LOW_FINE]) ||
           reading > limit_of(device, REMOTE);
}

/* The rest of a step whose event, devices and pin are in it; second: of two the second. */
static void complete_step(step *at, bool second)
{
    const uint8_t *set = at->before.settings;
    uint8_t kind = at->event.kind;
    bool of_second = kind == SECOND_CONVERSION_2 || kind == SECOND_OPEN_2;
    bool of_first = kind == SECOND_CONVERSION || kind == SECOND_CONVERSION_OPEN;
    at->own = second ? of_second : of_first;
    at->others = second ? of_first : of_second;
    at->taken = at->own && (!in_standby(&at->before) || at->before.pending);
    at->open = kind == SECOND_CONVERSION_OPEN || kind == SECOND_OPEN_2;
    at->sample = eighths(at->event.b, at->event.c);
    at->sum = at->sample + eighths(set[SET_OFFSET], set[SET_OFFSET_FINE]);
    unsigned more = at->before.faults + 1u;
    at->faults = more < QUEUE_LENGTH ? more : QUEUE_LENGTH;
    if (!remote_outside(&at->before, remote_reading(at)))
        at->faults = 0;
}

static void complete_view(view *seen)
{
    const second_device *before = &seen->of->before;
    bool queued = seen->channel == REMOTE && (configuration(before) & FAULT_QUEUE) != 0 &&
                  seen->of->faults < QUEUE_LENGTH;
    seen->unit = seen->channel == LOCAL ? EIGHTHS : 1;
    seen->limit = limit_of(before, seen->channel);
    seen->edge = edge_of(before, seen->channel);
    seen->reading = seen->channel == LOCAL ? eighths(seen->of->event.a, 0)
                                           : remote_reading(seen->of);
    seen->live = seen->reading > seen->limit && !queued;
    seen->below = seen->reading < seen->edge;
}

/* ---- The rows, by sort ------------------------------------------------- */

static void mark(const view *seen, unsigned row, bool occurs)
{
    seen->count[row] += occurs;
}

static bool sets(const view *seen)
{
    return seen->of->taken && !seen->was && seen->now;
}

static bool clears(const view *seen)
{
    return seen->of->taken && seen->was && !seen->now;
}

/* Held by a taken conversion that does not set it itself. */
static bool holds(const view *seen)
{
    return seen->of->taken && seen->was && seen->now && !seen->live;
}

static bool stays_clear(const view *seen)
{
    return seen->of->taken && !seen->was && !seen->now;
}

/* A conversion would change the verdict if it counted here. */
static bool would_move(const view *seen)
{
    return seen->was ? seen->below : seen->live;
}

static void changes(const view *seen)
{
    mark(seen, ROW_SET, !seen->was && seen->now);
    mark(seen, ROW_KEPT, seen->was && seen->now);
    mark(seen, ROW_CLEARED, clears(seen));
    mark(seen, ROW_STAYS_CLEAR, !seen->was && !seen->now);
}

static void both_sides(const view *seen)
{
    bool zero = seen->edge == seen->limit;
    mark(seen, ROW_EDGE_HELD, holds(seen) && seen->reading == seen->edge);
    mark(seen, ROW_EDGE_CLEARED, clears(seen) && seen->reading == seen->edge - seen->unit);
    mark(seen, ROW_LIMIT_CLEAR, stays_clear(seen) && seen->reading == seen->limit);
    mark(seen, ROW_LIMIT_SET, sets(seen) && seen->reading == seen->limit + seen->unit);
    mark(seen, ROW_ZERO_HELD, zero && holds(seen) && seen->reading == seen->limit);
    mark(seen, ROW_ZERO_CLEARED, zero && clears(seen) && seen->reading == seen->limit - seen->unit);
    mark(seen, ROW_BELOW_ZERO_SET, sets(seen) && seen->reading < 0);
    mark(seen, ROW_FLOOR_HELD, holds(seen) && seen->reading == READING_LEAST &&
                               seen->edge < READING_LEAST);
}

static void queue(const view *seen, const device_past *past)
{
    const step *at = seen->of;
    bool on = (configuration(&at->before) & FAULT_QUEUE) != 0;
    bool back = at->taken && seen->reading > seen->limit && !seen->live;
    bool through = on && sets(seen) && at->before.faults + 1u == QUEUE_LENGTH;
    mark(seen, ROW_QUEUE_LOCAL_SET, on && sets(seen) && at->faults < QUEUE_LENGTH);
    mark(seen, ROW_QUEUE_CLEAR, back && !seen->was && !seen->now);
    mark(seen, ROW_QUEUE_HELD, back && seen->was && seen->now);
    mark(seen, ROW_QUEUE_BROKEN, back && !seen->now && past->above + 1u >= QUEUE_LENGTH);
    mark(seen, ROW_QUEUE_THIRD, through);
    mark(seen, ROW_QUEUE_OTHERS, through && past->above_in_row == 0);
    mark(seen, ROW_QUEUE_RAN_OFF, on && sets(seen) && past->off_in_row);
    mark(seen, ROW_QUEUE_OFF, !on && sets(seen) && at->faults < QUEUE_LENGTH);
}

static void masks(const view *seen)
{
    uint8_t bit = seen->channel == LOCAL ? LOCAL_MASK : REMOTE_MASK;
    bool before = (configuration(&seen->of->before) & bit) != 0;
    bool after = (configuration(&seen->of->after) & bit) != 0;
    mark(seen, ROW_MASKED, seen->now && after && !seen->of->pulled);
    mark(seen, ROW_MASKED_PULLED, seen->now && after && seen->of->pulled);
    mark(seen, ROW_UNMASKED, seen->now && !after);
    mark(seen, ROW_MASK_SET, seen->now && !before && after);
    mark(seen, ROW_MASK_LIFTED, seen->now && before && !after);
    mark(seen, ROW_SET_MASKED, sets(seen) && after);
    mark(seen, ROW_CLEARED_MASKED, clears(seen) && after);
}

/* Limit or hysteresis is another than at the conversion that made the bit live. */
static void written_since(const view *seen)
{
    const channel_past *past = seen->past;
    int hysteresis = seen->of->before.settings[SET_HYSTERESIS];
    bool limit_same = past->live_limit == seen->limit;
    bool hysteresis_same = past->live_hysteresis == hysteresis;
    bool old_below = seen->reading < past->live_limit - past->live_hysteresis * EIGHTHS;
    bool cleared = clears(seen) && !old_below;
    bool held = holds(seen) && old_below;
    mark(seen, ROW_HYSTERESIS_CLEARED, cleared && limit_same);
    mark(seen, ROW_HYSTERESIS_HELD, held && limit_same);
    mark(seen, ROW_CRIT_CLEARED, cleared && hysteresis_same);
    mark(seen, ROW_CRIT_HELD, held && hysteresis_same);
    mark(seen, ROW_CRIT_RAISED, holds(seen) && past->live_reading <= seen->limit);
    mark(seen, ROW_CRIT_LOWERED, stays_clear(seen) && !seen->below && past->any &&
                                 past->reading > seen->limit);
}

/* The event writes this channel's T_CRIT or the hysteresis, at whatever address. */
static bool writes_line(const view *seen)
{
    uint8_t crit = seen->channel == LOCAL ? REGISTER_LOCAL_CRIT : REGISTER_REMOTE_CRIT;
    uint8_t written = seen->of->event.b;
    return seen->of->event.kind == SECOND_WRITE &&
           (written == crit || written == REGISTER_HYSTERESIS);
}

static void writes(const view *seen)
{
    const step *at = seen->of;
    bool own = at->event.a == address_of(&at->before);
    bool others = at->other != NULL && at->event.a == address_of(at->other);
    bool line = writes_line(seen);
    bool known = line && own && seen->past->any;
    mark(seen, ROW_WRITE_ABOVE, known && !seen->now &&
                                seen->past->reading > limit_of(&at->after, seen->channel));
    mark(seen, ROW_WRITE_BELOW, known && seen->now &&
                                seen->past->reading < edge_of(&at->after, seen->channel));
    mark(seen, ROW_NO_ADDRESS, line && !own && !others);
    mark(seen, ROW_OTHER_WRITTEN, line && others);
}

static void standby(const view *seen, const device_past *past)
{
    const step *at = seen->of;
    bool untaken = at->own && !at->taken;
    bool lost = untaken && would_move(seen);
    bool shot = at->taken && in_standby(&at->before);
    mark(seen, ROW_UNTAKEN_SET, untaken && !seen->was && seen->live);
    mark(seen, ROW_UNTAKEN_CLEARED, untaken && seen->was && seen->below);
    mark(seen, ROW_ONE_SHOT_SET, shot && sets(seen));
    mark(seen, ROW_ONE_SHOT_CLEARED, shot && clears(seen));
    mark(seen, ROW_ONE_SHOT_KEPT, shot && past->rewritten && seen->was != seen->now);
    mark(seen, ROW_ONE_SHOT_SPENT, lost && past->spent);
    mark(seen, ROW_ONE_SHOT_LEFT, lost && past->left);
    mark(seen, ROW_ONE_SHOT_OUTSIDE, lost && past->outside);
    mark(seen, ROW_ONE_SHOT_LOST, lost && past->lost);
}

static void events(const view *seen)
{
    const step *at = seen->of;
    bool receive = at->event.kind == SECOND_RECEIVE;
    bool own = at->event.a == address_of(&at->before);
    bool alert = receive && at->event.a == ALERT_RESPONSE;
    bool answered = alert && configuration(&at->before) != configuration(&at->after);
    mark(seen, ROW_POWER_ON, at->event.kind == SECOND_POWER_ON && seen->was && !seen->now);
    mark(seen, ROW_POWER_ON_HELD, stays_clear(seen) && !seen->below &&
                                  seen->past->set_at_power_on);
    mark(seen, ROW_STATUS_READ, at->event.kind == SECOND_READ && own && seen->now &&
                                at->event.b == REGISTER_STATUS);
    mark(seen, ROW_STATUS_RECEIVED, receive && own && seen->now &&
                                    at->before.pointer == REGISTER_STATUS);
    mark(seen, ROW_ALERT_ANSWERED, answered && seen->now);
    mark(seen, ROW_ALERT_NOT, alert && !answered && seen->now);
}

static void other_device(const view *seen)
{
    const step *at = seen->of;
    mark(seen, ROW_OTHER_SET, at->others && !seen->was && seen->live);
    mark(seen, ROW_OTHER_CLEARED, at->others && seen->was && seen->below);
    mark(seen, ROW_OTHER_STANDBY, at->taken && seen->was != seen->now && at->other != NULL &&
                                  in_standby(at->other));
}

static void readings(const view *seen)
{
    const step *at = seen->of;
    bool open = at->open;
    bool past_least = !open && at->sum < READING_LEAST;
    int offset = at->sum - at->sample;
    mark(seen, ROW_OFFSET_SET, !open && sets(seen) && at->sample <= seen->limit);
    mark(seen, ROW_OFFSET_CLEAR, !open && stays_clear(seen) && at->sample > seen->limit &&
                                 seen->reading <= seen->limit);
    mark(seen, ROW_OFFSET_CLEARED, !open && clears(seen) && at->sample >= seen->edge);
    mark(seen, ROW_OFFSET_HELD, !open && holds(seen) && at->sample < seen->edge);
    mark(seen, ROW_SUM_LEAST, past_least && holds(seen) && at->sum < seen->edge);
    mark(seen, ROW_SUM_MOST, !open && sets(seen) && at->sum > READING_MOST);
    mark(seen, ROW_OPEN_SET, open && sets(seen));
    mark(seen, ROW_OPEN_CLEARED, open && clears(seen));
    mark(seen, ROW_OPEN_LIMIT, open && stays_clear(seen) && seen->reading == seen->limit &&
                               offset > 0);
    mark(seen, ROW_OPEN_OFFSET, open && sets(seen) && offset < 0 &&
                                READING_OPEN + offset <= seen->limit);
}

static void mark_all(const view *seen, const device_past *past)
{
    changes(seen);
    both_sides(seen);
    queue(seen, past);
    masks(seen);
    written_since(seen);
    writes(seen);
    standby(seen, past);
    events(seen);
    other_device(seen);
    readings(seen);
}

/* ---- What went before, after a record ---------------------------------- */

static void channel_after(channel_past *past, const view *seen)
{
    if (seen->of->event.kind == SECOND_POWER_ON) {
        bool set = seen->was || past->set_at_power_on;
        memset(past, 0, sizeof *past);
        past->set_at_power_on = set;
    }
    if (!seen->of->taken)
        return;
    past->any = true;
    past->reading = seen->reading;
    past->set_at_power_on = false;
    if (seen->live) {
        past->live_reading = seen->reading;
        past->live_limit = seen->limit;
        past->live_hysteresis = seen->of->before.settings[SET_HYSTERESIS];
    }
}

static void row_after(device_past *past, const view *remote)
{
    if (!remote->of->taken)
        return;
    if (remote->of->faults == 0) {
        past->above_in_row = 0;
        past->off_in_row = false;
    } else if ((configuration(&remote->of->before) & FAULT_QUEUE) == 0) {
        past->off_in_row = true;
    }
    if (remote->live)
        past->above = 0;
    else if (remote->reading > remote->limit)
        past->above++;
    past->above_in_row += remote->reading > remote->limit;
}

/* Why no one-shot is pending: spent, its standby left, asked for out of standby, or lost at
 * power-on; rewritten: one is, and 09 was written since.  A new one asked for ends all. */
static void one_shot_past(device_past *past, const step *at)
{
    bool own_write = at->event.kind == SECOND_WRITE && at->event.a == address_of(&at->before);
    bool was = at->before.pending;
    if (own_write && at->event.b == REGISTER_ONE_SHOT) {
        past->spent = past->left = past->lost = past->rewritten = false;
        past->outside = !in_standby(&at->before);
    }
    if (own_write && at->event.b == REGISTER_CONFIGURATION && was) {
        past->left = !at->after.pending;
        past->rewritten = at->after.pending;
    }
    if (at->taken && was) {
        past->spent = true;
        past->rewritten = false;
    }
}

static void device_after(device_past *past, const step *at)
{
    if (at->event.kind == SECOND_POWER_ON) {
        bool lost = at->before.pending || past->lost;
        past->above = past->above_in_row = 0;
        past->off_in_row = past->spent = past->left = past->outside = past->rewritten = false;
        past->lost = lost;
    }
    one_shot_past(past, at);
}

/* ---- A record ---------------------------------------------------------- */

/* The account's bit of a device's channel in a verdict. */
static uint8_t verdict_bit(unsigned device, unsigned channel)
{
    static const uint8_t bit[DEVICES][CHANNELS] = {
        { SECOND_VERDICT_LOCAL, SECOND_VERDICT_REMOTE },
        { SECOND_VERDICT_LOCAL_2, SECOND_VERDICT_REMOTE_2 }
    };
    return bit[device][channel];
}

/* Rows of one device over one record. */
static void count_rows(step *at, unsigned device, unsigned place, device_past *past,
                       uint8_t was, uint8_t now)
{
    view seen[CHANNELS];
    complete_step(at, device == 1);
    for (unsigned channel = LOCAL; channel < CHANNELS; channel++) {
        uint8_t bit = verdict_bit(device, channel);
        view *one = &seen[channel];
        one->of = at;
        one->past = &past->channel[channel];
        one->channel = channel;
        one->count = row_count[place][channel];
        one->was = (was & bit) != 0;
        one->now = (now & bit) != 0;
        complete_view(one);
        mark_all(one, past);
    }
    for (unsigned channel = LOCAL; channel < CHANNELS; channel++)
        channel_after(&past->channel[channel], &seen[channel]);
    row_after(past, &seen[REMOTE]);
    device_after(past, at);
}

static void disagree(size_t record, const char *whose, bool account, bool engine)
{
    printf("history: disagreement in capture %llu, record %zu, %s: %s by the account, %s by "
           "the engine\n", (unsigned long long)captures, record, whose,
           account ? "set" : "clear", engine ? "set" : "clear");
    fflush(stdout);
    exit(1);
}

/* The verdict after a record against the answer's pin and the reader's latches. */
static void compare(const second_bus *bus, size_t record, uint8_t verdict, uint8_t answer)
{
    static const char *const whose[DEVICES][CHANNELS] = {
        { "local latch of the first device", "remote latch of the first device" },
        { "local latch of the second device", "remote latch of the second device" }
    };
    const second_device *device[DEVICES] = { &bus->first, &bus->second };
    bool pulled = (verdict & SECOND_VERDICT_PULLED) != 0;
    bool answered = (answer & ANSWER_T_CRIT_A) != 0;
    for (unsigned i = 0; i < DEVICES; i++) {
        bool held[CHANNELS] = { device[i]->local_latch, device[i]->remote_latch };
        for (unsigned channel = LOCAL; channel < CHANNELS; channel++) {
            bool said = (verdict & verdict_bit(i, channel)) != 0;
            if (said != held[channel])
                disagree(record, whose[i][channel], said, held[channel]);
        }
    }
    if (pulled != answered)
        disagree(record, "T_CRIT_A", pulled, answered);
}

/* ---- A capture --------------------------------------------------------- */

/* Feed one record and count its rows; was and now are the verdicts around it. */
static void feed_record(second_reader *reader, const uint8_t *record, device_past *past,
                        uint8_t was, uint8_t now)
{
    uint8_t answer[SECOND_ANSWER_BYTES];
    second_bus before = reader->bus;
    second_feed(reader, record, SECOND_RECORD_BYTES, answer, sizeof answer);
    const second_bus *after = &reader->bus;
    step at;
    memset(&at, 0, sizeof at);
    second_decode(before.devices, record, &at.event);
    at.pulled = (now & SECOND_VERDICT_PULLED) != 0;
    at.before = before.first;
    at.after = after->first;
    at.other = before.devices == DEVICES ? &before.second : NULL;
    count_rows(&at, 0, before.devices == DEVICES ? FIRST_OF_TWO : ALONE, &past[0], was, now);
    if (before.devices != DEVICES)
        return;
    at.before = before.second;
    at.after = after->second;
    at.other = &before.first;
    count_rows(&at, 1, SECOND_OF_TWO, &past[1], was, now);
}

/* Every record of an accepted capture whose answers are complete. */
static void check_records(const uint8_t *capture, size_t length, size_t count,
                          const uint8_t *verdicts, const uint8_t *answers)
{
    device_past past[DEVICES];
    second_reader reader;
    size_t header = length - count * SECOND_RECORD_BYTES;
    memset(past, 0, sizeof past);
    second_fresh(&reader);
    second_feed(&reader, capture, header, NULL, 0);
    for (size_t i = 0; i < count; i++) {
        const uint8_t *record = capture + header + i * SECOND_RECORD_BYTES;
        feed_record(&reader, record, past, i > 0 ? verdicts[i - 1] : 0, verdicts[i]);
        compare(&reader.bus, i + 1, verdicts[i], answers[i * SECOND_ANSWER_BYTES]);
    }
    checked++;
    records_checked += count;
}

/* Room is enough for verdicts and, behind them, for the second's own answers. */
static void check_capture(const uint8_t *capture, size_t length, const uint8_t *answers,
                          size_t answered, uint8_t *room)
{
    size_t most = length / SECOND_RECORD_BYTES;
    captures++;
    size_t count = second_account(capture, length, room, most);
    uint64_t ran = second_run(capture, length, room + most, most * SECOND_ANSWER_BYTES);
    unsigned code = (unsigned)(ran % CODES);
    bool by_account = count != SECOND_ACCOUNT_NONE;
    if (by_account != (code == SECOND_OK)) {
        printf("history: disagreement in capture %llu: %s by the account, code %u by the "
               "engine\n", (unsigned long long)captures,
               by_account ? "accepted" : "not accepted", code);
        fflush(stdout);
        exit(1);
    }
    if (!by_account) {
        refused_count[code]++;
        return;
    }
    accepted++;
    if (answered != count * SECOND_ANSWER_BYTES)
        return;
    header_count[capture[1]][capture[0] == DEVICES ? capture[2] : 0]++;
    check_records(capture, length, count, room, answers);
}

/* ---- Standard input ---------------------------------------------------- */

enum { PIECE_MOST = 1000000 }; /* bytes of a capture or of answers, as in replay.c */

static void stop(const char *what)
{
    fprintf(stderr, "history: %s\n", what);
    exit(1);
}

/* A length; false at the end of the input, which may be there only. */
static bool get_length(size_t *length, bool may_end)
{
    uint8_t bytes[4];
    size_t got = fread(bytes, 1, sizeof bytes, stdin);
    if (got == 0 && may_end && !ferror(stdin))
        return false;
    if (got != sizeof bytes)
        stop("input cannot be read or is cut in a length");
    *length = (size_t)bytes[0] << 24 | (size_t)bytes[1] << 16 | (size_t)bytes[2] << 8 | bytes[3];
    if (*length > PIECE_MOST)
        stop("a piece of more than 1000000 bytes");
    return true;
}

static void get(uint8_t *bytes, size_t length)
{
    if (fread(bytes, 1, length, stdin) != length)
        stop("input cannot be read or is cut in a piece");
}

/* ---- The table --------------------------------------------------------- */

enum { WORDS_MOST = 128 };

static unsigned print_row(uint64_t count, const char *words)
{
    printf("%llu | %s\n", (unsigned long long)count, words);
    return count == 0;
}

static unsigned print_headers(void)
{
    unsigned missing = 0;
    char words[WORDS_MOST];
    for (unsigned first = 1; first < VARIANTS; first++) {
        for (unsigned second = 0; second < VARIANTS; second++) {
            if (second != 0 && (first == VARIANT_C) == (second == VARIANT_C))
                continue; /* one address */
            if (second == 0)
                snprintf(words, sizeof words, "captures checked of variant %u", first);
            else
                snprintf(words, sizeof words, "captures checked of variants %u and %u", first,
                         second);
            missing += print_row(header_count[first][second], words);
        }
    }
    return missing;
}

/* The codes that a run with room enough can have. */
static unsigned print_refused(void)
{
    static const uint8_t codes[] = { SECOND_DEVICE_COUNT, SECOND_VARIANT, SECOND_KIND,
                                     SECOND_OPERAND, SECOND_EXTRA, SECOND_UNFINISHED,
                                     SECOND_ADDRESS };
    unsigned missing = 0;
    char words[WORDS_MOST];
    for (size_t i = 0; i < sizeof codes; i++) {
        snprintf(words, sizeof words, "captures not accepted, code %u", codes[i]);
        missing += print_row(refused_count[codes[i]], words);
    }
    return missing;
}

static unsigned print_rows(void)
{
    unsigned missing = 0;
    char words[WORDS_MOST];
    for (unsigned row = 0; row < ROW_COUNT; row++) {
        for (unsigned place = 0; place < PLACES; place++) {
            for (unsigned channel = LOCAL; channel < CHANNELS; channel++) {
                uint8_t here = channel == LOCAL ? OF_LOCAL : OF_REMOTE;
                bool pair_only = (rows[row].where & OF_PAIR) != 0;
                if ((rows[row].where & here) == 0 || (pair_only && place == ALONE))
                    continue;
                snprintf(words, sizeof words, "%s, %s: %s", place_words[place],
                         channel_words[channel], rows[row].words);
                missing += print_row(row_count[place][channel][row], words);
            }
        }
    }
    return missing;
}

int main(void)
{
    static uint8_t capture[PIECE_MOST];
    static uint8_t answers[PIECE_MOST];
    static uint8_t room[PIECE_MOST]; /* a verdict and two answer bytes for each four */
    size_t length, answered;

    while (get_length(&length, true)) {
        get(capture, length);
        get_length(&answered, false);
        get(answers, answered);
        check_capture(capture, length, answers, answered, room);
    }
    unsigned missing = print_headers();
    missing += print_refused();
    missing += print_rows();
    printf("history: %llu captures, %llu accepted, %llu checked with %llu records; %u rows at 0\n",
           (unsigned long long)captures, (unsigned long long)accepted,
           (unsigned long long)checked, (unsigned long long)records_checked, missing);
    return fflush(stdout) != 0 || missing > 0;
}
