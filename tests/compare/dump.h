/* Records and devices as the streams have them, for the programs that write those. */
#ifndef DUMP_H
#define DUMP_H

#include <stdint.h>
#include <string.h>

enum { WRITE = 1, READ, SEND, RECEIVE, CONVERSION, OPEN_DIODE, POWER_ON, CONVERSION_2, OPEN_DIODE_2 };
enum { SETTINGS = 14, DEVICE_BYTES = 27 };

/* Places of the settable bytes, by rising write address. */
enum {
    CONFIGURATION, RATE, LOCAL_HIGH, LOCAL_LOW, REMOTE_HIGH, REMOTE_LOW, OFFSET, OFFSET_FINE,
    REMOTE_HIGH_FINE, REMOTE_LOW_FINE, REMOTE_CRIT, LOCAL_CRIT, HYSTERESIS, ALERT_MODE
};
/* Places in a device. */
enum { AT_VARIANT, AT_POINTER, AT_PENDING, AT_STATUS, AT_LOCAL, AT_REMOTE, AT_LIVE = 7, AT_FAULTS, AT_LOCAL_LATCH,
       AT_REMOTE_LATCH, AT_SETTINGS, AT_LOW = AT_SETTINGS + SETTINGS, AT_LOW_KEPT };

static const uint8_t write_address[SETTINGS] = {
    0x09, 0x0A, 0x0B, 0x0C, 0x0D, 0x0E, 0x11, 0x12, 0x13, 0x14, 0x19, 0x20, 0x21, 0xBF
};
static const uint8_t kept_bits[SETTINGS] = {
    0xD5, 0xFF, 0xFF, 0xFF, 0xFF, 0xFF, 0xFF, 0xE0, 0xE0, 0xE0, 0xFF, 0xFF, 0x1F, 0x07
};

static void power_on_settings(uint8_t *set, uint8_t variant)
{
    memset(set, 0, SETTINGS);
    set[RATE] = 8;
    set[LOCAL_HIGH] = 70;
    set[REMOTE_HIGH] = 70;
    set[REMOTE_CRIT] = 110;
    set[LOCAL_CRIT] = variant == 3 ? 105 : 85;
    set[HYSTERESIS] = 10;
}

#endif
