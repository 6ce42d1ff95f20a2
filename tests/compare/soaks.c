/* soaks: writes one stream of soak calls, in the format at the head of second/replay.c, to standard output, with the calls that set
 * the device between them. It aims at the lines of request f (document 02): rows of remote readings above T_CRIT, holding and below
 * limit less hysteresis, each a fault or none, with the fault queue on and off; local readings that decide before the remote ones,
 * after them and at one record; every latch and fault count of the device; records that are no valid 05 or 06 at the last place, where
 * the reading would stop, right before that and further in front; devices out of their ranges and in standby, and lengths that are no
 * multiple of four.
 *
 * The same bytes at each run. What it knows of the device serves to aim: it predicts no answer. */
#include "chance.h"
#include "dump.h"

#include <stdbool.h>
#include <stdint.h>
#include <stdio.h>
#include <stdlib.h>
#include <string.h>

enum { RECORD_BYTES = 4, STRETCH_MOST = 1000000 };
static const uint8_t pointers[] = { 0x00, 0x01, 0x02, 0x09, 0x0F, 0x10, 0x14, 0x21, 0xBF, 0xFE, 0xFF };
enum { ALERT_MASK = 0x80, STANDBY = 0x40, REMOTE_MASK = 0x10, LOCAL_MASK = 0x04, FAULT_QUEUE = 0x01 };
enum { REMOTE_LEAST = -1024, REMOTE_MOST = 1023, OPEN_READING = 1016, LOCAL_LEAST = -128, LOCAL_MOST = 127 };
enum { EIGHTHS = 8, LOW_STEP = 32, HYSTERESIS_MOST = 31, FAULTS_MOST = 3, LATCHES = 4, MASKS = 4, VARIANTS = 3, BYTES = 256 };

/* ---- Output ------------------------------------------------------------ */

static uint8_t device[DEVICE_BYTES];
static uint8_t *const set = device + AT_SETTINGS;
static uint8_t stretch[STRETCH_MOST];
static size_t length;

static void put(const void *bytes, size_t size)
{
    if (size > 0 && fwrite(bytes, 1, size, stdout) != size) {
        fprintf(stderr, "soaks: cannot write standard output\n");
        exit(1);
    }
}

static void call_device(void)
{
    put("D", 1);
    put(device, sizeof device);
}

/* A soak of all but so many of the stretch's last bytes. */
static void call_soak_without(size_t missing)
{
    size_t size = length - missing;
    const uint8_t head[] = { 'K', (uint8_t)(size >> 24), (uint8_t)(size >> 16), (uint8_t)(size >> 8), (uint8_t)size };
    put(head, sizeof head);
    put(stretch, size);
}

static void call_soak(void)
{
    call_soak_without(0);
}

static void call_step(const uint8_t *record)
{
    put("S", 1);
    put(record, RECORD_BYTES);
}

static void begin(void)
{
    length = 0;
}

static void add(unsigned kind, int a, int b, int c)
{
    const uint8_t record[RECORD_BYTES] = { (uint8_t)kind, (uint8_t)a, (uint8_t)b, (uint8_t)c };
    if (length + RECORD_BYTES > STRETCH_MOST)
        return;
    memcpy(stretch + length, record, RECORD_BYTES);
    length += RECORD_BYTES;
}

/* ---- Devices ----------------------------------------------------------- */

static uint8_t any_byte(void)
{
    return (uint8_t)below(BYTES);
}

static void store_remote(int remote)
{
    device[AT_REMOTE] = (uint8_t)((unsigned)remote >> 8);
    device[AT_REMOTE + 1] = (uint8_t)remote;
}

static void power_on_device(unsigned variant)
{
    memset(device, 0, sizeof device);
    device[AT_VARIANT] = (uint8_t)variant;
    power_on_settings(set, (uint8_t)variant);
}

/* Any device within its ranges, out of standby. */
static void random_device(void)
{
    memset(device, 0, sizeof device);
    device[AT_VARIANT] = (uint8_t)(1 + below(VARIANTS));
    device[AT_POINTER] = ONE_OF(pointers);
    device[AT_STATUS] = any_byte() & 0x7F;
    device[AT_LOCAL] = any_byte();
    store_remote((int)below(REMOTE_MOST - REMOTE_LEAST + 1) + REMOTE_LEAST);
    device[AT_LIVE] = any_byte() & 0x7F;
    device[AT_FAULTS] = (uint8_t)below(FAULTS_MOST + 1);
    device[AT_LOCAL_LATCH] = (uint8_t)below(2);
    device[AT_REMOTE_LATCH] = (uint8_t)below(2);
    device[AT_LOW_KEPT] = (uint8_t)below(2);
    if (device[AT_LOW_KEPT])
        device[AT_LOW] = (uint8_t)(LOW_STEP * below(BYTES / LOW_STEP));
    for (unsigned i = 0; i < SETTINGS; i++)
        set[i] = any_byte() & kept_bits[i];
    set[CONFIGURATION] &= (uint8_t)~STANDBY;
}

static int degrees(uint8_t byte)
{
    return byte < 128 ? byte : byte - 256;
}

static int eighths(unsigned high, unsigned low)
{
    return degrees(set[high]) * EIGHTHS + (set[low] >> 5);
}

static void set_pair(unsigned high, unsigned low, int eighths)
{
    set[high] = (uint8_t)((eighths & 0x7FF) >> 3);
    set[low] = (uint8_t)((eighths & 7) << 5);
}

static int within(int value, int least, int most)
{
    if (value < least)
        return least;
    return value > most ? most : value;
}

/* How the remote limits lie to T_CRIT and to limit less hysteresis. */
enum { HIGH_BETWEEN, LOW_BETWEEN, WIDE, HIGH_UNDER, LOW_OVER, ANYWHERE, LAYOUTS };

static void lay_limits(unsigned layout, int crit, int hysteresis)
{
    int edge = (crit - hysteresis) * EIGHTHS;
    int between = edge + (int)below((unsigned)(hysteresis * EIGHTHS + 1));
    int high = layout == HIGH_BETWEEN ? between : layout == HIGH_UNDER ? edge - 1 - (int)below(30) : REMOTE_MOST;
    int low = layout == LOW_BETWEEN ? between : layout == LOW_OVER ? crit * EIGHTHS + 1 + (int)below(30) : REMOTE_LEAST;
    if (layout == HIGH_BETWEEN || layout == HIGH_UNDER)
        low = edge - 40 - (int)below(60);
    if (layout == ANYWHERE) {
        high = crit * EIGHTHS + (int)below(200) - 150;
        low = crit * EIGHTHS + (int)below(400) - 350;
    }
    set_pair(REMOTE_HIGH, REMOTE_HIGH_FINE, within(high, REMOTE_LEAST, REMOTE_MOST));
    set_pair(REMOTE_LOW, REMOTE_LOW_FINE, within(low, REMOTE_LEAST, REMOTE_MOST));
}

static int some_hysteresis(void)
{
    static const int ends[] = { 0, 1, HYSTERESIS_MOST };
    return one_in(3) ? ONE_OF(ends) : (int)below(HYSTERESIS_MOST + 1);
}

static int some_crit(int least)
{
    static const int ends[] = { LOCAL_LEAST, LOCAL_LEAST + 20, -1, 0, 126, LOCAL_MOST };
    return one_in(5) ? within(ONE_OF(ends), least, LOCAL_MOST) : least + (int)below((unsigned)(LOCAL_MOST - least));
}

static void some_offset(void)
{
    static const int ends[] = { 0, 1, -1, 8, -8, 200, -200, REMOTE_MOST, REMOTE_LEAST };
    set_pair(OFFSET, OFFSET_FINE, one_in(2) ? 0 : one_in(4) ? ONE_OF(ends) : (int)below(40) - 20);
}

/* A device with lines that readings can lie on either side of, but for those at an end of the scale. */
static void aimed_device(unsigned layout)
{
    random_device();
    int hysteresis = some_hysteresis();
    int crit = some_crit(layout == ANYWHERE ? LOCAL_LEAST : -70);
    set[HYSTERESIS] = (uint8_t)hysteresis;
    set[REMOTE_CRIT] = (uint8_t)crit;
    set[LOCAL_CRIT] = (uint8_t)some_crit(LOCAL_LEAST);
    some_offset();
    lay_limits(layout, crit, hysteresis);
}

/* A device on which every sort of remote reading and of local reading exists. */
static void plain_device(bool queue)
{
    random_device();
    int hysteresis = 2 + (int)below(HYSTERESIS_MOST - 1);
    int crit = (int)below(150) - 40;
    set[HYSTERESIS] = (uint8_t)hysteresis;
    set[REMOTE_CRIT] = (uint8_t)crit;
    set[LOCAL_CRIT] = (uint8_t)((int)below(150) - 40);
    set_pair(OFFSET, OFFSET_FINE, one_in(2) ? 0 : (int)below(40) - 20);
    lay_limits(HIGH_BETWEEN, crit, hysteresis);
    set_pair(REMOTE_HIGH, REMOTE_HIGH_FINE, (crit - 1) * EIGHTHS + (int)below(EIGHTHS));
    set[CONFIGURATION] = (uint8_t)((set[CONFIGURATION] & ~FAULT_QUEUE) | (queue ? FAULT_QUEUE : 0));
}

/* One whose low limit lies above limit less hysteresis: a reading that holds is a fault by that one, and so is every one below. */
static void low_device(bool queue)
{
    plain_device(queue);
    int edge = (degrees(set[REMOTE_CRIT]) - set[HYSTERESIS]) * EIGHTHS;
    set_pair(REMOTE_HIGH, REMOTE_HIGH_FINE, REMOTE_MOST);
    set_pair(REMOTE_LOW, REMOTE_LOW_FINE, edge + 1 + (int)below(EIGHTHS));
}

/* ---- Readings ---------------------------------------------------------- */

/* What a remote reading is: above T_CRIT; holding, a fault or none; below limit less hysteresis, none or a fault. A local one is
 * above, calm or cool. */
enum { ABOVE, WARM, CALM, COOL, COLD, SORTS };

static unsigned remote_sort(int reading)
{
    int crit = degrees(set[REMOTE_CRIT]) * EIGHTHS;
    bool fault = reading > eighths(REMOTE_HIGH, REMOTE_HIGH_FINE) || reading < eighths(REMOTE_LOW, REMOTE_LOW_FINE);
    if (reading > crit)
        return ABOVE;
    if (reading < crit - set[HYSTERESIS] * EIGHTHS)
        return fault ? COLD : COOL;
    return fault ? WARM : CALM;
}

static unsigned local_sort(int reading)
{
    int crit = degrees(set[LOCAL_CRIT]);
    return reading > crit ? ABOVE : reading < crit - set[HYSTERESIS] ? COOL : CALM;
}

/* At a line or an end of the scale, or one step off; or anywhere. */
static int remote_near(void)
{
    int crit = degrees(set[REMOTE_CRIT]) * EIGHTHS, edge = crit - set[HYSTERESIS] * EIGHTHS;
    const int lines[] = { crit, crit, edge, edge, eighths(REMOTE_HIGH, REMOTE_HIGH_FINE), eighths(REMOTE_LOW, REMOTE_LOW_FINE),
                          REMOTE_LEAST, REMOTE_MOST, OPEN_READING };
    if (one_in(4))
        return (int)below(REMOTE_MOST - REMOTE_LEAST + 1) + REMOTE_LEAST;
    int line = ONE_OF(lines);
    return within(line + (int)below(3) - 1, REMOTE_LEAST, REMOTE_MOST);
}

static int local_near(void)
{
    int crit = degrees(set[LOCAL_CRIT]);
    const int lines[] = { crit, crit - set[HYSTERESIS], LOCAL_LEAST, LOCAL_MOST };
    if (one_in(4))
        return (int)below(BYTES) + LOCAL_LEAST;
    int line = ONE_OF(lines);
    return within(line + (int)below(3) - 1, LOCAL_LEAST, LOCAL_MOST);
}

/* A reading of this sort, or any where none is found. */
static int remote_of(unsigned sort)
{
    int reading = remote_near();
    for (unsigned tries = 0; tries < 100 && remote_sort(reading) != sort; tries++)
        reading = remote_near();
    return reading;
}

static int local_of(unsigned sort)
{
    int reading = local_near();
    for (unsigned tries = 0; tries < 100 && local_sort(reading) != sort; tries++)
        reading = local_near();
    return reading;
}

/* A conversion of these readings, as far as the offset lets a sample reach them; for an end of the scale any sum past it will do. */
static void convert(int local, int remote)
{
    int offset = eighths(OFFSET, OFFSET_FINE), sample = within(remote - offset, REMOTE_LEAST, REMOTE_MOST);
    if (remote == REMOTE_LEAST && offset < 0)
        sample -= (int)below((unsigned)(sample - REMOTE_LEAST + 1));
    if (remote == REMOTE_MOST && offset > 0)
        sample += (int)below((unsigned)(REMOTE_MOST - sample + 1));
    if (remote == OPEN_READING && one_in(2))
        add(OPEN_DIODE, local, 0, 0);
    else
        add(CONVERSION, local, sample >> 3, (sample & 7) << 5);
}

static void add_sorts(unsigned local, unsigned remote)
{
    int local_reading = local_of(local);
    convert(local_reading, remote_of(remote));
}

/* Holds both latches, where such readings exist. */
static void add_holding(void)
{
    add_sorts(CALM, one_in(3) ? WARM : CALM);
}

/* Valid records of any sort, so many. */
static void add_any(unsigned count)
{
    while (count-- > 0) {
        int local = local_near();
        convert(local, remote_near());
    }
}

/* ---- Records that are no valid conversion -------------------------------- */

enum { AS_OTHER_DEVICE, OTHER_KIND, RIGHT_OTHER, BROKEN_OTHER, BAD_OPERAND, BAD_OPERANDS, DAMAGES };

static uint8_t other_kind(void)
{
    static const uint8_t known[] = { WRITE, READ, SEND, RECEIVE, POWER_ON, CONVERSION_2, OPEN_DIODE_2, 0, 10, 255 };
    return ONE_OF(known);
}

/* Another kind; all of its operands right, or all of them wrong where they can be. */
static void become_other(uint8_t *record, bool right)
{
    record[0] = other_kind();
    memset(record + 1, right ? 0 : 0xFF, RECORD_BYTES - 1);
}

/* Damages a valid conversion; the readings stay where they can. */
static void damage(uint8_t *record, unsigned how)
{
    unsigned operand = record[0] == OPEN_DIODE && one_in(2) ? 2 : 3;
    switch (how) {
    case AS_OTHER_DEVICE:
        record[0] += CONVERSION_2 - CONVERSION;
        break;
    case OTHER_KIND:
        record[0] = other_kind();
        break;
    case RIGHT_OTHER:
    case BROKEN_OTHER:
        become_other(record, how == RIGHT_OTHER);
        break;
    case BAD_OPERAND:
        record[operand] += (uint8_t)(1 + below(LOW_STEP - 1));
        break;
    default:
        record[2] |= (uint8_t)(1 + below(BYTES - 1));
        record[3] |= (uint8_t)(1 + below(LOW_STEP - 1));
        break;
    }
}

static void add_bad(void)
{
    add_any(1);
    damage(stretch + length - RECORD_BYTES, below(DAMAGES));
}

/* What stands before records that are to be read to the last: nothing, good ones, bad ones, both. */
static void add_front(void)
{
    switch (below(4)) {
    case 0:
        break;
    case 1:
        add_any(1 + below(3));
        break;
    case 2:
        add_bad();
        break;
    default:
        add_bad();
        add_any(below(3));
        break;
    }
}

/* ---- Rows of readings ---------------------------------------------------- */

/* Every row of so many remote readings, the local channel decided at any one of them or at none. */
static void rows_of(unsigned count, unsigned rows, bool queue)
{
    for (unsigned row = 0; row < rows; row++) {
        unsigned deciding = below(count + 1), rest = row;
        plain_device(queue);
        call_device();
        begin();
        add_front();
        for (unsigned i = 0; i < count; i++, rest /= SORTS)
            add_sorts(i != deciding ? CALM : one_in(2) ? ABOVE : COOL, rest % SORTS);
        call_soak();
    }
}

static void every_row(void)
{
    for (unsigned queue = 0; queue < 2; queue++)
        for (unsigned count = 1, rows = SORTS; count <= 4 + queue; count++, rows *= SORTS)
            rows_of(count, rows, queue != 0);
}

static unsigned sort_named(char letter)
{
    static const char letters[] = "AWHBF"; /* above, warm, holding and no fault, below, below and a fault */
    return (unsigned)(strchr(letters, letter) - letters);
}

/* Readings by their letters, first to last. */
static void add_named(const char *local, const char *remote)
{
    for (; *remote != '\0'; local++, remote++) {
        unsigned local_letter = sort_named(*local);
        add_sorts(local_letter, sort_named(*remote));
    }
}

/* Each latch, fault count and mask of a device, in front of rows that do not decide the remote channel, or do not with the queue. */
static void every_start(void)
{
    static const char *const rows[] = { "", "A", "AA", "FA", "HA", "AHW", "WAW", "FAH", "WW" };
    static const char *const local[] = { "HHH", "HHH", "AHH", "BHH" };
    static const uint8_t masks[MASKS] = { 0, LOCAL_MASK, REMOTE_MASK, LOCAL_MASK | REMOTE_MASK };
    for (unsigned start = 0; start < LATCHES * (FAULTS_MOST + 1) * MASKS * 2; start++)
        for (size_t i = 0; i < COUNT_OF(rows); i++) {
            if (one_in(3))
                low_device(start % 2 != 0);
            else
                plain_device(start % 2 != 0);
            set[CONFIGURATION] = (uint8_t)((set[CONFIGURATION] & ~(LOCAL_MASK | REMOTE_MASK)) | masks[start / 2 % MASKS]);
            device[AT_LOCAL_LATCH] = start / 8 % 2;
            device[AT_REMOTE_LATCH] = start / 16 % 2;
            device[AT_FAULTS] = (uint8_t)(start / 32);
            call_device();
            begin();
            add_named(ONE_OF(local), rows[i]);
            call_soak();
        }
}

/* ---- Bad records at every place ------------------------------------------ */

/* Rows whose first record is the last one read: with the queue off, on, or both. */
typedef struct {
    const char *local, *remote;
    bool off, on;
} ending;

static const ending endings[] = {
    { "B", "B", true, true },        { "A", "F", true, true },       { "HHA", "BHH", true, true },   { "BHHH", "BHWH", true, true },
    { "AH", "HB", true, true },      { "BHHH", "WHHF", true, true }, { "A", "A", true, false },      { "HHB", "AHW", true, false },
    { "HB", "AH", true, false },     { "AHH", "AAA", false, true },  { "HHB", "AAA", false, true },  { "BHHH", "HAAA", false, true },
    { "HHA", "WFA", false, true },   { "HHB", "HFA", false, true },  { "HA", "BA", true, true },     { "HHA", "BAA", true, true },
    { "HHHB", "AAAH", false, true }, { "HAH", "BHA", false, true },  { "BHHHH", "WAAAW", false, true }, { "HBHHH", "WWAHW", false, true },
    { "HHHHA", "BAWHA", false, true },
};

/* Where a bad record stands: the last of all, any that would be read, the one where the reading would stop, the one before that,
 * further in front. */
enum { LAST, ANY_READ, STOP, BEFORE_STOP, FURTHER, PLACES };

static void bad_at(const ending *end, unsigned place, unsigned how)
{
    size_t records = strlen(end->remote);
    begin();
    add_any(below(3));
    if (one_in(4))
        add_bad();
    add_any(2);
    add_named(end->local, end->remote);
    uint8_t *past = stretch + length, *stop = past - records * RECORD_BYTES;
    uint8_t *const places[PLACES] = {
        past - RECORD_BYTES, past - RECORD_BYTES * (1 + below(records)), stop, stop - RECORD_BYTES, stop - 2 * RECORD_BYTES
    };
    damage(places[place], how);
    if (one_in(4)) { /* nothing before that record */
        length = (size_t)(past - places[place]);
        memmove(stretch, places[place], length);
    }
    call_soak();
}

static void every_place(void)
{
    for (size_t i = 0; i < COUNT_OF(endings); i++)
        for (unsigned queue = 0; queue < 2; queue++) {
            bool stops_there = queue != 0 ? endings[i].on : endings[i].off;
            for (unsigned place = LAST; stops_there && place < PLACES; place++)
                for (unsigned how = 0; how < 2 * DAMAGES; how++) {
                    plain_device(queue != 0);
                    call_device();
                    bad_at(&endings[i], place, how % DAMAGES);
                }
        }
}

enum { ANY_VALUE = -1 };

static int value_or_any(int value, unsigned step)
{
    return value == ANY_VALUE ? (int)(step * below(BYTES / step)) : value;
}

/* A record, with up to three behind it that hold and none or one before it. */
static void soak_of(unsigned kind, int a, int b, int c)
{
    begin();
    add_any(below(2));
    a = value_or_any(a, 1);
    b = value_or_any(b, 1);
    add(kind, a, b, value_or_any(c, LOW_STEP));
    for (unsigned behind = below(4); behind > 0; behind--)
        add_holding();
    call_soak();
}

/* Every kind, with operands that each kind may have and with none that it may; every operand of conversions. */
static void every_record(void)
{
    for (unsigned byte = 0; byte < BYTES; byte++) {
        plain_device(byte % 2 != 0);
        call_device();
        soak_of(byte, byte == POWER_ON ? 0 : 0x4C, 0, 0);
        soak_of(byte, 0xFF, 0xFF, 0xFF);
        soak_of(CONVERSION, ANY_VALUE, ANY_VALUE, (int)byte);
        soak_of(OPEN_DIODE, ANY_VALUE, (int)byte, 0);
        soak_of(OPEN_DIODE, ANY_VALUE, 0, (int)byte);
        soak_of(CONVERSION, (int)byte, ANY_VALUE, ANY_VALUE);
        soak_of(CONVERSION, local_of(CALM), (int)byte, ANY_VALUE);
    }
}

/* ---- What is refused before any record ------------------------------------ */

/* Stretches that are empty, valid, with a bad record at the end, and of a length that is no multiple of four. */
static void call_some_soak(void)
{
    begin();
    for (unsigned count = below(4); count > 0; count--)
        add_holding();
    if (one_in(3))
        add_bad();
    if (length > 0 && one_in(3))
        call_soak_without(1 + below(RECORD_BYTES - 1));
    else
        call_soak();
}

static void soak_with(unsigned place, uint8_t value)
{
    uint8_t was = device[place];
    device[place] = value;
    call_device();
    call_some_soak();
    device[place] = was;
}

/* Every byte as the low byte, none kept and kept. */
static void every_low(void)
{
    for (unsigned kept = 0; kept < 2; kept++) {
        device[AT_LOW_KEPT] = (uint8_t)kept;
        for (unsigned byte = 0; byte < BYTES; byte++)
            soak_with(AT_LOW, (uint8_t)byte);
    }
}

static void every_setting(void)
{
    for (unsigned i = 0; i < SETTINGS; i++) {
        soak_with(AT_SETTINGS + i, kept_bits[i]);
        for (unsigned bit = 0; bit < 8; bit++)
            soak_with(AT_SETTINGS + i, (uint8_t)(set[i] ^ 1u << bit));
    }
}

/* Each field of the device at either end of its range, and past it. */
static void every_field(void)
{
    static const int remotes[] = { -32768, REMOTE_LEAST - 1, REMOTE_LEAST, REMOTE_MOST, REMOTE_MOST + 1, 32767 };
    static const uint8_t variants[] = { 0, 1, 2, 3, 4, 255 }, faults[] = { 0, 1, 2, 3, 4, 255 }, bits[] = { 0, 0x7F, 0x80, 0xFF };
    const uint8_t high = device[AT_REMOTE], low = device[AT_REMOTE + 1];
    for (size_t i = 0; i < COUNT_OF(remotes); i++) {
        store_remote(remotes[i]);
        call_device();
        call_some_soak();
    }
    device[AT_REMOTE] = high;
    device[AT_REMOTE + 1] = low;
    for (size_t i = 0; i < COUNT_OF(variants); i++)
        soak_with(AT_VARIANT, variants[i]);
    for (size_t i = 0; i < COUNT_OF(faults); i++)
        soak_with(AT_FAULTS, faults[i]);
    for (size_t i = 0; i < COUNT_OF(bits); i++) {
        soak_with(AT_STATUS, bits[i]);
        soak_with(AT_LIVE, bits[i]);
    }
    soak_with(AT_PENDING, 1);
    every_setting();
}

static void every_range(void)
{
    for (unsigned variant = 1; variant <= VARIANTS; variant++) {
        power_on_device(variant);
        every_field();
        set[CONFIGURATION] = STANDBY;
        every_field();
    }
    for (unsigned i = 0; i < 10; i++) {
        aimed_device(ANYWHERE);
        every_field();
    }
    for (unsigned pointer = 0; pointer < BYTES; pointer++)
        soak_with(AT_POINTER, (uint8_t)pointer);
    every_low();
}

static void every_length(void)
{
    for (unsigned round = 0; round < 60; round++)
        for (unsigned missing = 0; missing < RECORD_BYTES; missing++) {
            plain_device(one_in(2));
            if (round % 3 == 1)
                set[CONFIGURATION] |= STANDBY;
            device[AT_PENDING] = round % 3 == 1 ? (uint8_t)below(2) : 0;
            if (round % 3 == 2)
                device[AT_FAULTS] = (uint8_t)(4 + below(252));
            call_device();
            begin();
            add_any(below(3));
            if (one_in(2))
                add_bad();
            add_holding();
            call_soak_without(missing);
        }
}

/* ---- At random ------------------------------------------------------------ */

/* Records that mostly hold, so that many are read; now and then one that is bad. */
static void random_stretch(unsigned count, unsigned decide_one_in, unsigned bad_one_in)
{
    begin();
    for (unsigned i = 0; i < count; i++) {
        if (one_in(bad_one_in))
            add_bad();
        else if (one_in(decide_one_in))
            add_any(1);
        else if (one_in(6)) /* a row of faults that goes some way */
            add_sorts(CALM, one_in(2) ? ABOVE : WARM);
        else
            add_holding();
    }
    call_soak();
}

static void at_random(void)
{
    for (unsigned i = 0; i < 4000; i++) {
        aimed_device(below(LAYOUTS));
        call_device();
        unsigned count = one_in(20) ? below(400) : below(12);
        unsigned bad_one_in = one_in(3) ? 4 + below(20) : 1000;
        random_stretch(count, 2 + below(20), bad_one_in);
    }
}

/* Readings at the lines and one step off, one or two records of them. */
static void at_lines(void)
{
    for (unsigned i = 0; i < 3000; i++) {
        aimed_device(i % LAYOUTS);
        call_device();
        begin();
        add_any(1 + below(2));
        call_soak();
    }
}

/* A reading at either limit of the remote channel or one step past it, before two with which it decides by the count alone. */
static void at_fault_lines(void)
{
    for (unsigned i = 0; i < 400; i++) {
        if (one_in(2))
            low_device(true);
        else
            plain_device(true);
        call_device();
        begin();
        int limit = one_in(2) ? eighths(REMOTE_HIGH, REMOTE_HIGH_FINE) : eighths(REMOTE_LOW, REMOTE_LOW_FINE);
        int local = local_of(one_in(2) ? CALM : COOL);
        convert(local, within(limit + (int)below(3) - 1, REMOTE_LEAST, REMOTE_MOST));
        add_named("HH", "FA");
        call_soak();
    }
}

/* T_CRIT at either end of the scale, offsets that carry past it, open diodes. */
static void at_ends(void)
{
    static const int ends[] = { LOCAL_LEAST, LOCAL_LEAST + 1, 126, LOCAL_MOST };
    static const int offsets[] = { REMOTE_LEAST, -9, -1, 0, 1, 9, REMOTE_MOST };
    for (unsigned i = 0; i < 600; i++) {
        aimed_device(ANYWHERE);
        int crit = ONE_OF(ends);
        set[REMOTE_CRIT] = (uint8_t)crit;
        set[LOCAL_CRIT] = (uint8_t)ONE_OF(ends);
        set_pair(OFFSET, OFFSET_FINE, ONE_OF(offsets));
        lay_limits(below(LAYOUTS), crit, set[HYSTERESIS]);
        call_device();
        begin();
        add_any(below(3));
        if (one_in(2))
            add(OPEN_DIODE, local_near(), 0, 0);
        call_soak();
    }
}

/* ---- The full run, by steps ------------------------------------------------ */

/* The device's settings by writes, behind a power-on. */
static void write_settings(void)
{
    uint8_t wanted[SETTINGS];
    const uint8_t variant = device[AT_VARIANT], address = variant == 1 ? 0x4C : 0x4D;
    memcpy(wanted, set, SETTINGS);
    put("P", 1);
    put(&variant, 1);
    for (unsigned i = 0; i < SETTINGS; i++) {
        const uint8_t record[RECORD_BYTES] = { WRITE, address, write_address[i], wanted[i] };
        call_step(record);
    }
}

/* A soak, then a step for each of its records, then the soak of none. */
static void by_steps(void)
{
    for (unsigned i = 0; i < 300; i++) {
        aimed_device(below(LAYOUTS));
        if (one_in(4))
            write_settings();
        else
            call_device();
        random_stretch(1 + below(12), 3, 1000);
        for (size_t at = 0; at < length; at += RECORD_BYTES)
            call_step(stretch + at);
        begin();
        call_soak();
    }
}

/* ---- Long stretches --------------------------------------------------------- */

/* Some thousands that hold both latches, behind a record that may decide. */
static void soak_long(unsigned count, const char *local, const char *remote)
{
    plain_device(count % 2 != 0);
    call_device();
    begin();
    add_named(local, remote);
    while (count-- > 0)
        add_holding();
    call_soak();
}

/* The longest there is; bad bytes but for its last two records. */
static void soak_longest(void)
{
    plain_device(true);
    call_device();
    memset(stretch, 0xFF, STRETCH_MOST);
    length = STRETCH_MOST - 2 * RECORD_BYTES;
    add_named("HA", "BH");
    call_soak();
}

int main(void)
{
    enum { SEED = 8906, LONG = 66000 };
    chance_state = SEED;
    every_row();
    every_start();
    every_place();
    every_record();
    every_range();
    every_length();
    at_random();
    at_lines();
    at_fault_lines();
    at_ends();
    by_steps();
    for (unsigned i = 0; i < 8; i++) {
        soak_long(1000 + i, "HH", "HA");
        soak_long(1000 + i, i % 4 < 2 ? "AH" : "BH", "BA");
    }
    soak_long(LONG, "", "");
    soak_longest();
    return fflush(stdout) == 0 ? 0 : 1;
}
