/* Second implementation of document 01 (01-scope.md) and of requests a, b and c of
 * document 02 (02-change-requests.md), written from the sources that NOTES.md
 * names alone; request e is in account.h, f in soak.h, g in fan.h, h in tach.h.  The core: no
 * allocation, no changing globals, every function total. */
#ifndef SECOND_H
#define SECOND_H

#include <stdbool.h>
#include <stddef.h>
#include <stdint.h>

/* Codes, "Codes of the reader" and requests c and f; soak.h has what 3, 4 and 8 are there. */
enum {
    SECOND_OK = 0,
    SECOND_DEVICE_COUNT = 1, /* device count is not 1 or 2 */
    SECOND_VARIANT = 2,      /* a variant is not 1, 2 or 3 */
    SECOND_KIND = 3,         /* kind is not 01 to 07, nor 08 or 09 where they may stand */
    SECOND_OPERAND = 4,      /* an operand breaks the table */
    SECOND_EXTRA = 5,        /* a byte after the last counted record */
    SECOND_UNFINISHED = 6,   /* asked to finish before the counted end */
    SECOND_ROOM = 7,         /* too little room */
    SECOND_STATE = 8,        /* the state handed in is out of its ranges */
    SECOND_ADDRESS = 9,      /* request c: both devices have one address */
    SECOND_STANDBY = 10      /* request f, of the soak alone: the device is in standby */
};

/* Kinds of event, "The capture" and request c. */
enum {
    SECOND_WRITE = 1,
    SECOND_READ = 2,
    SECOND_SEND = 3,
    SECOND_RECEIVE = 4,
    SECOND_CONVERSION = 5,
    SECOND_CONVERSION_OPEN = 6,
    SECOND_POWER_ON = 7,
    SECOND_CONVERSION_2 = 8, /* 05 for the second device */
    SECOND_OPEN_2 = 9        /* 06 for the second device */
};

enum {
    SECOND_HEADER_BYTES = 6,   /* with one device */
    SECOND_HEADER_2_BYTES = 7, /* with two */
    SECOND_RECORD_BYTES = 4,
    SECOND_ANSWER_BYTES = 2,
    SECOND_SETTINGS = 14
};

typedef struct second_device {
    uint8_t variant;
    uint8_t pointer;
    bool pending;        /* a one-shot was asked for in standby */
    uint8_t status;      /* register 02 */
    uint8_t local;       /* register 00, raw byte */
    int16_t remote;      /* eighths of a degree */
    uint8_t live;        /* bits true at the last taken conversion */
    uint8_t faults;      /* fault count, 0 to 3 */
    bool local_latch;
    bool remote_latch;
    uint8_t settings[SECOND_SETTINGS]; /* by rising write address:
        09 0A 0B 0C 0D 0E 11 12 13 14 19 20 21 BF */
    uint8_t low;         /* request a: kept at a read of 01; 0 if none is kept */
    bool lowkept;        /* request a: a low byte is kept */
} second_device;

/* Request c: the sensors on one bus, in the order of their variant bytes. */
typedef struct second_bus {
    uint8_t devices;      /* device count: 1 or 2, 0 before it is taken */
    second_device first;
    second_device second; /* all zeros until its variant byte, or with one device */
} second_bus;

typedef struct second_reader {
    uint8_t header;      /* header bytes taken; complete at 5 + devices */
    uint32_t count;      /* record count, partial until the header is complete */
    uint32_t done;       /* records done */
    uint8_t carried;     /* record bytes carried */
    uint8_t carry[3];    /* those bytes, unused places 0 */
    uint8_t held;        /* lasting code held, or 0 */
    second_bus bus;
} second_reader;

/* An event as the four bytes of its record, which may be any bytes: the calls
 * that take one refuse what is not in this table.
 *   kind               a        b            c
 *   1 write            address  register     value
 *   2 read             address  register     0
 *   3 send             address  register     0
 *   4 receive          address  0            0
 *   5 conversion       local    remote high  remote low, a multiple of 32
 *   6 open conversion  local    0            0
 *   7 power-on         0        0            0
 *   8 conversion       as 5, of the second device
 *   9 open conversion  as 6, of the second device          */
typedef struct second_event {
    uint8_t kind;
    uint8_t a;
    uint8_t b;
    uint8_t c;
} second_event;

typedef struct second_step_result {
    uint8_t code;        /* 8, 3, 4 or 0 */
    uint8_t first;       /* pins, acknowledged, taken; request b: sum held */
    uint8_t second;      /* the byte read, or 0 */
} second_step_result;

typedef struct second_feed_result {
    uint8_t code;
    size_t consumed;
    size_t written;
} second_feed_result;

/* True if the device is within its ranges and its variant is 1 to 3. */
bool second_device_in_range(const second_device *device);

/* True if the reader state is within the ranges of "Codes of the reader" and of
 * requests a and c. */
bool second_reader_in_range(const second_reader *reader);

/* The device as after power-on; all zeros if the variant is not 1 to 3. */
void second_power_on(second_device *device, uint8_t variant);

/* Step the device where it stands: 8, then 3 (for 8 and 9 too: one device has no
 * second), then 4 (nothing changed, answers 0), or 0. */
second_step_result second_step(second_device *device, second_event event);

/* Four bytes to an event under a device count: 3 (for kinds 8 and 9 unless the count
 * is 2), then 4 (the event all 0), or 0. */
uint8_t second_decode(uint8_t devices, const uint8_t record[SECOND_RECORD_BYTES],
                      second_event *event);

/* An event's record to the front of a buffer, as under a device count of 2: 3,
 * then 4, then 7 (nothing written), or 0. */
uint8_t second_write_event(second_event event, uint8_t *out, size_t room);

/* A header of one device to the front of a buffer: 2, then 7 (nothing written), or
 * 0. */
uint8_t second_write_header(uint8_t variant, uint32_t count, uint8_t *out, size_t room);

/* A header of two devices to the front of a buffer: 2 for either variant, then 9, then
 * 7 (nothing written), or 0. */
uint8_t second_write_header_2(uint8_t first, uint8_t second, uint32_t count,
                              uint8_t *out, size_t room);

/* The fresh reader state, all zeros. */
void second_fresh(second_reader *reader);

/* Feed a part of a capture; the reader becomes the state after it.
 * Input, answers and reader are three separate pieces of memory. */
second_feed_result second_feed(second_reader *reader,
                               const uint8_t *input, size_t length,
                               uint8_t *answers, size_t room);

/* Ask to finish: 8, the held code, 6 or 0. */
uint8_t second_finish(const second_reader *reader);

/* A whole capture: sixteen times the answer bytes written, plus the code. */
uint64_t second_run(const uint8_t *capture, size_t length,
                    uint8_t *answers, size_t room);

/* Listing lines, each with its line feed and no closing zero.  They give the
 * length written, or 0 with nothing written if the line does not fit. */
enum { SECOND_LINE_MOST = 24 }; /* enough room for any line */
size_t second_listing_record(char *out, size_t room, uint32_t number,
                             uint8_t first, uint8_t second);
size_t second_listing_end(char *out, size_t room, uint32_t done, uint8_t code);

#endif
