/* Replays a stream of calls from standard input and writes their results to
 * standard output.  It holds one reader and one device, all zeros at first.
 * Numbers are big-endian; each output begins with its command byte.
 *
 *   N                                   fresh reader
 *   R  reader dump                      set the reader
 *   F  length 2, room 2, bytes          feed: code, consumed 4, written 4,
 *                                       the room, reader dump
 *   E                                   finish: code
 *   D  device dump                      set the device
 *   P  variant                          set the device by power-on: device dump
 *   S  four bytes                       step: code, two answer bytes, device dump
 *   W  four bytes, room 2               write event: code, the room
 *   H  variant, count 4, room 2         write header: code, the room
 *   G  first, second, count 4, room 2   write header of two variants: code, the room
 *   B  device count, four bytes         decode: code, kind, three operands
 *   C  length 4, room 4, bytes          run: result 8, the room
 *   K  length 4, bytes                  soak of the device: code, pulled (0 or 1), read 8
 *   T  table 16, hysteresis, frequency, earlier, reading
 *                                       fan step: code, step, value, duty 2
 *   U  frequency, value                 fan duty: code, value 2
 *   V  frequency                        fan preset: code, value 2
 *   A  floor 4, count 4, stamps 2 each  tachometer: code, slowest 4, fastest 4, under 8
 *
 * A dump has the fields in the order of second.h: a device's is 27 bytes, and a
 * reader's 69, of which the last 55 are its bus: the device count and the dumps of
 * both devices, the second's there with one device too.  A bool is 0 or 1, and loaded
 * as true if not 0.  The four bytes of S, W and B are a record's, and may be any bytes,
 * as may the device count of B.  The bytes of K are records, any bytes too; it does not
 * change the device.  The table of T is temperature and PWM value, eight times, its reading
 * is in two's complement, and all bytes of T, U and V may be any; they touch neither reader
 * nor device, and nor does A.  The count of A is of stamps, not of bytes, and may be 0; floor
 * and stamps may be any.  Status 1 with a message on an unknown command, a capture or room
 * above 1,000,000 in C, a stretch above 1,000,000 in K, a count above 20,000,000 in A, or a
 * stream cut inside a call. */
#include "fan.h"
#include "second.h"
#include "soak.h"
#include "tach.h"

#include <stdio.h>
#include <stdlib.h>
#include <string.h>

enum {
    DEVICE_DUMP = 27,
    READER_DUMP = 14 + 1 + 2 * DEVICE_DUMP,
    CAPTURE_MOST = 1000000,
    STRETCH_MOST = 1000000,
    STAMPS_MOST = 20000000,
    FILL = 0xA5
};

static uint64_t offset;      /* bytes of the stream taken so far */
static int command;          /* the call being read */
static uint64_t command_at;  /* where it began */

/* ---- The stream -------------------------------------------------------- */

static void leave(int status)
{
    if (fflush(stdout) != 0) {
        fprintf(stderr, "replay: cannot write standard output\n");
        status = 1;
    }
    exit(status);
}

static void refuse(const char *what, unsigned long value, uint64_t at)
{
    fprintf(stderr, "replay: %s 0x%02lX at byte offset %llu\n",
            what, value, (unsigned long long)at);
    leave(1);
}

static void get(uint8_t *bytes, size_t length)
{
    size_t got = length > 0 ? fread(bytes, 1, length, stdin) : 0;
    offset += got;
    if (got == length)
        return;
    fprintf(stderr, "replay: stream %s at byte offset %llu, inside the call %c begun at %llu\n",
            ferror(stdin) ? "cannot be read" : "cut",
            (unsigned long long)offset, command, (unsigned long long)command_at);
    leave(1);
}

static uint32_t get_number(size_t length)
{
    uint8_t bytes[4];
    uint32_t number = 0;
    get(bytes, length);
    for (size_t i = 0; i < length; i++)
        number = number << 8 | bytes[i];
    return number;
}

static void put(const uint8_t *bytes, size_t length)
{
    if (length > 0 && fwrite(bytes, 1, length, stdout) != length) {
        fprintf(stderr, "replay: cannot write standard output\n");
        exit(1);
    }
}

static void put_byte(uint8_t byte)
{
    if (putc(byte, stdout) == EOF) {
        fprintf(stderr, "replay: cannot write standard output\n");
        exit(1);
    }
}

static void put_number(uint64_t number, size_t length)
{
    for (size_t i = length; i-- > 0;)
        put_byte((uint8_t)(number >> (8 * i)));
}

/* ---- Dumps ------------------------------------------------------------- */

static void load_device(second_device *device, const uint8_t *dump)
{
    int remote = dump[5] << 8 | dump[6];
    memset(device, 0, sizeof *device);
    device->variant = dump[0];
    device->pointer = dump[1];
    device->pending = dump[2] != 0;
    device->status = dump[3];
    device->local = dump[4];
    device->remote = (int16_t)(remote < 0x8000 ? remote : remote - 0x10000);
    device->live = dump[7];
    device->faults = dump[8];
    device->local_latch = dump[9] != 0;
    device->remote_latch = dump[10] != 0;
    memcpy(device->settings, dump + 11, SECOND_SETTINGS);
    device->low = dump[25];
    device->lowkept = dump[26] != 0;
}

static void put_device(const second_device *device)
{
    uint8_t dump[DEVICE_DUMP];
    uint16_t remote = (uint16_t)device->remote;
    dump[0] = device->variant;
    dump[1] = device->pointer;
    dump[2] = device->pending;
    dump[3] = device->status;
    dump[4] = device->local;
    dump[5] = (uint8_t)(remote >> 8);
    dump[6] = (uint8_t)(remote & 0xFFu);
    dump[7] = device->live;
    dump[8] = device->faults;
    dump[9] = device->local_latch;
    dump[10] = device->remote_latch;
    memcpy(dump + 11, device->settings, SECOND_SETTINGS);
    dump[25] = device->low;
    dump[26] = device->lowkept;
    put(dump, sizeof dump);
}

static uint32_t number_at(const uint8_t *bytes)
{
    return (uint32_t)bytes[0] << 24 | (uint32_t)bytes[1] << 16 |
           (uint32_t)bytes[2] << 8 | bytes[3];
}

static void load_reader(second_reader *reader, const uint8_t *dump)
{
    memset(reader, 0, sizeof *reader);
    reader->header = dump[0];
    reader->count = number_at(dump + 1);
    reader->done = number_at(dump + 5);
    reader->carried = dump[9];
    memcpy(reader->carry, dump + 10, 3);
    reader->held = dump[13];
    reader->bus.devices = dump[14];
    load_device(&reader->bus.first, dump + 15);
    load_device(&reader->bus.second, dump + 15 + DEVICE_DUMP);
}

static void put_reader(const second_reader *reader)
{
    put_byte(reader->header);
    put_number(reader->count, 4);
    put_number(reader->done, 4);
    put_byte(reader->carried);
    put(reader->carry, 3);
    put_byte(reader->held);
    put_byte(reader->bus.devices);
    put_device(&reader->bus.first);
    put_device(&reader->bus.second);
}

static second_event get_event(void)
{
    uint8_t bytes[SECOND_RECORD_BYTES];
    get(bytes, sizeof bytes);
    second_event event = { bytes[0], bytes[1], bytes[2], bytes[3] };
    return event;
}

/* Memory of exactly this size, filled, so that a sanitizer sees any touch
 * beyond it; none at all for size 0. */
static void *lend(uint32_t size)
{
    if (size == 0)
        return NULL;
    uint8_t *bytes = malloc(size);
    if (bytes == NULL) {
        fprintf(stderr, "replay: no memory at byte offset %llu\n", (unsigned long long)offset);
        leave(1);
    }
    memset(bytes, FILL, size);
    return bytes;
}

/* ---- Calls ------------------------------------------------------------- */

static void call_fresh(second_reader *reader)
{
    second_fresh(reader);
    put_byte('N');
}

static void call_set_reader(second_reader *reader)
{
    uint8_t dump[READER_DUMP];
    get(dump, sizeof dump);
    load_reader(reader, dump);
    put_byte('R');
}

static void call_feed(second_reader *reader)
{
    uint32_t length = get_number(2);
    uint32_t room = get_number(2);
    uint8_t *input = lend(length);
    get(input, length);
    uint8_t *answers = lend(room);
    second_feed_result fed = second_feed(reader, input, length, answers, room);
    put_byte('F');
    put_byte(fed.code);
    put_number(fed.consumed, 4);
    put_number(fed.written, 4);
    put(answers, room);
    put_reader(reader);
    free(answers);
    free(input);
}

static void call_finish(const second_reader *reader)
{
    put_byte('E');
    put_byte(second_finish(reader));
}

static void call_set_device(second_device *device)
{
    uint8_t dump[DEVICE_DUMP];
    get(dump, sizeof dump);
    load_device(device, dump);
    put_byte('D');
}

static void call_power_on(second_device *device)
{
    second_power_on(device, (uint8_t)get_number(1));
    put_byte('P');
    put_device(device);
}

static void call_step(second_device *device)
{
    second_event event = get_event();
    second_step_result result = second_step(device, event);
    put_byte('S');
    put_byte(result.code);
    put_byte(result.first);
    put_byte(result.second);
    put_device(device);
}

static void call_write_event(void)
{
    second_event event = get_event();
    uint32_t room = get_number(2);
    uint8_t *buffer = lend(room);
    uint8_t code = second_write_event(event, buffer, room);
    put_byte('W');
    put_byte(code);
    put(buffer, room);
    free(buffer);
}

static void call_write_header(void)
{
    uint8_t variant = (uint8_t)get_number(1);
    uint32_t count = get_number(4);
    uint32_t room = get_number(2);
    uint8_t *buffer = lend(room);
    uint8_t code = second_write_header(variant, count, buffer, room);
    put_byte('H');
    put_byte(code);
    put(buffer, room);
    free(buffer);
}

static void call_write_header_2(void)
{
    uint8_t first = (uint8_t)get_number(1);
    uint8_t second = (uint8_t)get_number(1);
    uint32_t count = get_number(4);
    uint32_t room = get_number(2);
    uint8_t *buffer = lend(room);
    uint8_t code = second_write_header_2(first, second, count, buffer, room);
    put_byte('G');
    put_byte(code);
    put(buffer, room);
    free(buffer);
}

static void call_decode(void)
{
    uint8_t devices = (uint8_t)get_number(1);
    uint8_t record[SECOND_RECORD_BYTES];
    second_event event;
    get(record, sizeof record);
    uint8_t code = second_decode(devices, record, &event);
    put_byte('B');
    put_byte(code);
    put_byte(event.kind);
    put_byte(event.a);
    put_byte(event.b);
    put_byte(event.c);
}

static void call_run(void)
{
    uint64_t at = offset;
    uint32_t length = get_number(4);
    uint32_t room = get_number(4);
    if (length > CAPTURE_MOST)
        refuse("capture length above 1000000,", length, at);
    if (room > CAPTURE_MOST)
        refuse("room above 1000000,", room, at + 4);
    uint8_t *input = lend(length);
    get(input, length);
    uint8_t *answers = lend(room);
    uint64_t result = second_run(input, length, answers, room);
    put_byte('C');
    put_number(result, 8);
    put(answers, room);
    free(answers);
    free(input);
}

static void call_soak(const second_device *device)
{
    uint64_t at = offset;
    uint32_t length = get_number(4);
    if (length > STRETCH_MOST)
        refuse("stretch length above 1000000,", length, at);
    uint8_t *records = lend(length);
    get(records, length);
    second_soaked soaked = second_soak(*device, records, length);
    put_byte('K');
    put_byte(soaked.code);
    put_byte(soaked.pulled);
    put_number(soaked.read, 8);
    free(records);
}

static void put_fan_number(second_number number)
{
    put_byte(number.code);
    put_number(number.value, 2);
}

static void call_fan_step(void)
{
    second_fan fan;
    for (int entry = 0; entry < SECOND_FAN_ENTRIES; entry++)
        get(fan.table[entry], sizeof fan.table[entry]);
    fan.hysteresis = (uint8_t)get_number(1);
    fan.frequency = (uint8_t)get_number(1);
    uint8_t earlier = (uint8_t)get_number(1);
    int reading = (int)get_number(1);
    if (reading >= 0x80)
        reading -= 0x100;
    second_driven driven = second_fan_step(fan, earlier, (int8_t)reading);
    put_byte('T');
    put_byte(driven.code);
    put_byte(driven.step);
    put_byte(driven.value);
    put_number(driven.duty, 2);
}

static void call_fan_duty(void)
{
    uint8_t frequency = (uint8_t)get_number(1);
    uint8_t value = (uint8_t)get_number(1);
    put_byte('U');
    put_fan_number(second_fan_duty(frequency, value));
}

static void call_fan_preset(void)
{
    uint8_t frequency = (uint8_t)get_number(1);
    put_byte('V');
    put_fan_number(second_fan_preset(frequency));
}

static void call_tach(void)
{
    uint32_t floor = get_number(4);
    uint64_t at = offset;
    uint32_t count = get_number(4);
    if (count > STAMPS_MOST)
        refuse("stamp count above 20000000,", count, at);
    uint16_t *stamps = lend(count * (uint32_t)sizeof *stamps);
    for (uint32_t i = 0; i < count; i++)
        stamps[i] = (uint16_t)get_number(2);
    second_speeds speeds = second_tach(stamps, count, floor);
    put_byte('A');
    put_byte(speeds.code);
    put_number(speeds.slowest, 4);
    put_number(speeds.fastest, 4);
    put_number(speeds.under, 8);
    free(stamps);
}

/* A call on the held reader or device; false if the command is none. */
static bool answer_held(second_reader *reader, second_device *device)
{
    switch (command) {
    case 'N':
        call_fresh(reader);
        return true;
    case 'R':
        call_set_reader(reader);
        return true;
    case 'F':
        call_feed(reader);
        return true;
    case 'E':
        call_finish(reader);
        return true;
    case 'D':
        call_set_device(device);
        return true;
    case 'P':
        call_power_on(device);
        return true;
    case 'S':
        call_step(device);
        return true;
    case 'K':
        call_soak(device);
        return true;
    default:
        return false;
    }
}

/* A call on the fan; false if the command is none. */
static bool answer_fan(void)
{
    switch (command) {
    case 'T':
        call_fan_step();
        return true;
    case 'U':
        call_fan_duty();
        return true;
    case 'V':
        call_fan_preset();
        return true;
    default:
        return false;
    }
}

static void answer(second_reader *reader, second_device *device)
{
    if (answer_held(reader, device) || answer_fan())
        return;
    switch (command) {
    case 'W':
        call_write_event();
        break;
    case 'H':
        call_write_header();
        break;
    case 'G':
        call_write_header_2();
        break;
    case 'B':
        call_decode();
        break;
    case 'C':
        call_run();
        break;
    case 'A':
        call_tach();
        break;
    default:
        refuse("unknown command,", (unsigned long)command, command_at);
    }
}

int main(void)
{
    static char in_buffer[1 << 20];
    static char out_buffer[1 << 20];
    second_reader reader;
    second_device device;

    setvbuf(stdin, in_buffer, _IOFBF, sizeof in_buffer);
    setvbuf(stdout, out_buffer, _IOFBF, sizeof out_buffer);
    memset(&reader, 0, sizeof reader);
    memset(&device, 0, sizeof device);
    while ((command = getc(stdin)) != EOF) {
        command_at = offset;
        offset++;
        answer(&reader, &device);
    }
    if (ferror(stdin)) {
        fprintf(stderr, "replay: stream cannot be read at byte offset %llu\n",
                (unsigned long long)offset);
        leave(1);
    }
    leave(0);
    return 0;
}
