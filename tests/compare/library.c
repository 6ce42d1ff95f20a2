/* Answers a stream of calls, in the format at the head of second/replay.c, by the C library. Each room lent to it stands between
 * guard bytes, as do the records of a soak; stamps stand between guard stamps; and an empty room or input is NULL. */
#include <lm89.h>

#include <stdio.h>
#include <stdlib.h>
#include <string.h>

enum { DEVICE_BYTES = 27, READER_BYTES = 14 + 1 + 2 * DEVICE_BYTES, LENT_MOST = 1000000, GUARD = 64, FILL = 0xA5 };
enum { STAMPS_MOST = 1000000, GUARD_STAMPS = 32 };

static int command;                /* the call being answered */
static unsigned long long taken;   /* bytes of the stream taken so far */
static uint8_t given[LENT_MOST];
static uint8_t guarded[GUARD + LENT_MOST + GUARD];
static uint8_t *const lent = guarded + GUARD;
static uint16_t guarded_stamps[GUARD_STAMPS + STAMPS_MOST + GUARD_STAMPS];
static uint16_t given_stamps[GUARD_STAMPS + STAMPS_MOST + GUARD_STAMPS];

static void stop(const char *what)
{
    fprintf(stderr, "library: %s, in the call %c, %llu bytes into the stream\n", what, command, taken);
    exit(1);
}

/* ---- The stream -------------------------------------------------------- */

static void get(uint8_t *bytes, size_t length)
{
    size_t got = fread(bytes, 1, length, stdin);
    taken += got;
    if (got != length)
        stop(ferror(stdin) ? "the stream cannot be read" : "the stream is cut");
}

static uint32_t number_at(const uint8_t *bytes, size_t length)
{
    uint32_t number = 0;
    for (size_t i = 0; i < length; i++)
        number = number << 8 | bytes[i];
    return number;
}

static uint32_t get_number(size_t length)
{
    uint8_t bytes[4];
    get(bytes, length);
    return number_at(bytes, length);
}

static void put(const uint8_t *bytes, size_t length)
{
    if (fwrite(bytes, 1, length, stdout) != length)
        stop("cannot write standard output");
}

static void put_byte(uint8_t byte)
{
    put(&byte, 1);
}

static void put_number(uint64_t number, size_t length)
{
    for (size_t i = length; i-- > 0;)
        put_byte((uint8_t)(number >> 8 * i));
}

/* ---- Lent memory ------------------------------------------------------- */

static void check_length(uint32_t length)
{
    if (length > LENT_MOST)
        stop("an input or a room is above 1000000 bytes");
}

static const uint8_t *get_input(uint32_t length)
{
    check_length(length);
    get(given, length);
    return length > 0 ? given : NULL;
}

static uint8_t *lend(uint32_t room)
{
    check_length(room);
    memset(guarded, FILL, GUARD + room + GUARD);
    return room > 0 ? lent : NULL;
}

static void check_untouched(const uint8_t *bytes, size_t length)
{
    for (size_t i = 0; i < length; i++)
        if (bytes[i] != FILL)
            stop("bytes are written that may not be");
}

static void put_room(uint32_t room)
{
    check_untouched(guarded, GUARD);
    check_untouched(lent + room, GUARD);
    put(lent, room);
}

/* ---- Dumps ------------------------------------------------------------- */

static lm89_device device_of(const uint8_t *dump)
{
    lm89_device device = { 0 };
    int remote = dump[5] * 256 + dump[6];
    device.variant = dump[0];
    device.pointer = dump[1];
    device.pending = dump[2] != 0;
    device.status = dump[3];
    device.sensed.local = dump[4];
    device.sensed.remote = (int16_t)(remote < 32768 ? remote : remote - 65536);
    device.sensed.live = dump[7];
    device.sensed.faults = dump[8];
    device.sensed.llatch = dump[9] != 0;
    device.sensed.rlatch = dump[10] != 0;
    memcpy(device.settings, dump + 11, LM89_SETTINGS);
    device.low = dump[25];
    device.lowkept = dump[26] != 0;
    return device;
}

static void put_device(const lm89_device *device)
{
    uint16_t remote = (uint16_t)device->sensed.remote;
    uint8_t dump[DEVICE_BYTES] = {
        device->variant, device->pointer, device->pending, device->status, device->sensed.local,
        (uint8_t)(remote >> 8), (uint8_t)(remote & 0xFF), device->sensed.live, device->sensed.faults,
        device->sensed.llatch, device->sensed.rlatch
    };
    memcpy(dump + 11, device->settings, LM89_SETTINGS);
    dump[25] = device->low;
    dump[26] = device->lowkept;
    put(dump, sizeof dump);
}

static lm89_device get_device(void)
{
    uint8_t dump[DEVICE_BYTES];
    get(dump, sizeof dump);
    return device_of(dump);
}

static lm89_reader get_reader(void)
{
    uint8_t dump[READER_BYTES];
    lm89_reader reader = { 0 };
    get(dump, sizeof dump);
    reader.head = dump[0];
    reader.count = number_at(dump + 1, 4);
    reader.done = number_at(dump + 5, 4);
    reader.carried = dump[9];
    memcpy(reader.bytes, dump + 10, sizeof reader.bytes);
    reader.held = dump[13];
    reader.bus.devices = dump[14];
    reader.bus.first = device_of(dump + 15);
    reader.bus.second = device_of(dump + 15 + DEVICE_BYTES);
    return reader;
}

static void put_reader(const lm89_reader *reader)
{
    put_byte(reader->head);
    put_number(reader->count, 4);
    put_number(reader->done, 4);
    put_byte(reader->carried);
    put(reader->bytes, sizeof reader->bytes);
    put_byte(reader->held);
    put_byte(reader->bus.devices);
    put_device(&reader->bus.first);
    put_device(&reader->bus.second);
}

/* ---- Calls ------------------------------------------------------------- */

static void feed(lm89_reader *reader)
{
    uint32_t length = get_number(2);
    uint32_t room = get_number(2);
    const uint8_t *input = get_input(length);
    lm89_fed fed = lm89_feed(*reader, input, length, lend(room), room);
    if (fed.consumed > length || fed.written > room)
        stop("more bytes are counted than were lent");
    *reader = fed.reader;
    put_byte(fed.code);
    put_number(fed.consumed, 4);
    put_number(fed.written, 4);
    put_room(room);
    put_reader(reader);
}

static void power_on(lm89_device *device)
{
    *device = lm89_power_on((uint8_t)get_number(1));
    put_device(device);
}

static void step(lm89_device *device)
{
    uint8_t record[LM89_RECORD_BYTES];
    get(record, sizeof record);
    lm89_answer answer = lm89_step(device, record[0], record[1], record[2], record[3]);
    put_byte(answer.code);
    put_byte(answer.first);
    put_byte(answer.second);
    put_device(device);
}

static void write_event(void)
{
    uint8_t record[LM89_RECORD_BYTES];
    get(record, sizeof record);
    uint32_t room = get_number(2);
    put_byte(lm89_write_event(record[0], record[1], record[2], record[3], lend(room), room));
    put_room(room);
}

static void write_header(void)
{
    uint8_t variant = (uint8_t)get_number(1);
    uint32_t count = get_number(4);
    uint32_t room = get_number(2);
    put_byte(lm89_write_header(variant, count, lend(room), room));
    put_room(room);
}

static void write_header_2(void)
{
    uint8_t first = (uint8_t)get_number(1);
    uint8_t second = (uint8_t)get_number(1);
    uint32_t count = get_number(4);
    uint32_t room = get_number(2);
    put_byte(lm89_write_header_2(first, second, count, lend(room), room));
    put_room(room);
}

/* The library's judgement of a record: under a device count of 2 the event writer's, into four bytes; under any other that of a step,
 * which knows one device alone. */
static uint8_t judgement(uint8_t devices, const uint8_t *record, uint8_t *room)
{
    lm89_device device = lm89_power_on(LM89_VARIANT_LM89C);
    uint8_t code = devices == 2 ? LM89_CODE_DONE : lm89_step(&device, record[0], record[1], record[2], record[3]).code;
    if (code != LM89_CODE_DONE)
        return code;
    return lm89_write_event(record[0], record[1], record[2], record[3], room, LM89_RECORD_BYTES);
}

/* The event is what the event writer wrote, and all zeros where the record is refused. */
static void decode(void)
{
    static const uint8_t no_event[LM89_RECORD_BYTES];
    uint8_t devices = (uint8_t)get_number(1);
    uint8_t record[LM89_RECORD_BYTES];
    get(record, sizeof record);
    uint8_t code = judgement(devices, record, lend(sizeof record));
    put_byte(code);
    if (code == LM89_CODE_DONE) {
        put_room(sizeof record);
    } else {
        check_untouched(guarded, GUARD + sizeof record + GUARD);
        put(no_event, sizeof no_event);
    }
}

static void run(void)
{
    uint32_t length = get_number(4);
    uint32_t room = get_number(4);
    const uint8_t *capture = get_input(length);
    put_number(lm89_run(capture, length, lend(room), room), 8);
    put_room(room);
}

/* The records stand between guard bytes, which are no record: one read before the first or past the last would be refused with 3.
 * Whether they are as given is seen by a copy, since a const says so to the compiler alone. */
static void soak(lm89_device device)
{
    uint32_t length = get_number(4);
    uint8_t *records = lend(length);
    get(lent, length);
    memcpy(given, lent, length);
    lm89_soaked soaked = lm89_soak(device, records, length);
    check_untouched(guarded, GUARD);
    check_untouched(lent + length, GUARD);
    if (memcmp(given, lent, length) != 0)
        stop("records are written, which may only be read");
    put_byte(soaked.code);
    put_byte(soaked.pulled);
    put_number(soaked.read, 8);
}

static void fan_step(void)
{
    lm89_fan fan;
    for (size_t entry = 0; entry < LM89_FAN_ENTRIES; entry++)
        get(fan.table[entry], LM89_FAN_ENTRY_BYTES);
    fan.hysteresis = (uint8_t)get_number(1);
    fan.frequency = (uint8_t)get_number(1);
    uint8_t earlier = (uint8_t)get_number(1);
    int reading = (int)get_number(1);
    lm89_driven driven = lm89_fan_step(fan, earlier, (int8_t)(reading < 128 ? reading : reading - 256));
    put_byte(driven.code);
    put_byte(driven.step);
    put_byte(driven.value);
    put_number(driven.duty, 2);
}

static void put_fan_number(lm89_number number)
{
    put_byte(number.code);
    put_number(number.value, 2);
}

static void fan_duty(void)
{
    uint8_t frequency = (uint8_t)get_number(1);
    put_fan_number(lm89_fan_duty(frequency, (uint8_t)get_number(1)));
}

static void fan_preset(void)
{
    put_fan_number(lm89_fan_preset((uint8_t)get_number(1)));
}

/* Stamps between guards, which repeat the first and the last: one read before the first or past the last would be refused with 13. */
static const uint16_t *get_stamps(uint32_t count)
{
    uint16_t *stamps = guarded_stamps + GUARD_STAMPS;
    if (count > STAMPS_MOST)
        stop("there are more than 1000000 stamps");
    for (uint32_t i = 0; i < count; i++)
        stamps[i] = (uint16_t)get_number(2);
    for (uint32_t i = 0; count > 0 && i < GUARD_STAMPS; i++) {
        guarded_stamps[i] = stamps[0];
        stamps[count + i] = stamps[count - 1];
    }
    return count > 0 ? stamps : NULL;
}

/* Whether stamps and guards are as given is seen by a copy, as in a soak. */
static void tach(void)
{
    uint32_t floor = get_number(4);
    uint32_t count = get_number(4);
    size_t held = (GUARD_STAMPS + count + GUARD_STAMPS) * sizeof *given_stamps;
    const uint16_t *stamps = get_stamps(count);
    memcpy(given_stamps, guarded_stamps, held);
    lm89_speeds speeds = lm89_tach(stamps, count, floor);
    if (memcmp(given_stamps, guarded_stamps, held) != 0)
        stop("stamps are written, which may only be read");
    put_byte(speeds.code);
    put_number(speeds.slowest, 4);
    put_number(speeds.fastest, 4);
    put_number(speeds.under, 8);
}

static void answer(lm89_reader *reader, lm89_device *device)
{
    taken++;
    put_byte((uint8_t)command);
    switch (command) {
    case 'N': *reader = lm89_fresh(); break;
    case 'R': *reader = get_reader(); break;
    case 'F': feed(reader); break;
    case 'E': put_byte(lm89_finish(*reader)); break;
    case 'D': *device = get_device(); break;
    case 'P': power_on(device); break;
    case 'S': step(device); break;
    case 'W': write_event(); break;
    case 'H': write_header(); break;
    case 'G': write_header_2(); break;
    case 'B': decode(); break;
    case 'C': run(); break;
    case 'K': soak(*device); break;
    case 'T': fan_step(); break;
    case 'U': fan_duty(); break;
    case 'V': fan_preset(); break;
    case 'A': tach(); break;
    default: stop("there is no such call");
    }
}

int main(void)
{
    lm89_reader reader = { 0 };
    lm89_device device = { 0 };
    for (command = getchar(); command != EOF; command = getchar())
        answer(&reader, &device);
    if (ferror(stdin) || fflush(stdout) != 0) {
        fprintf(stderr, "library: cannot read standard input or write standard output\n");
        return 1;
    }
    return 0;
}
