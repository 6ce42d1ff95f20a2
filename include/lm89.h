/*
 * LM89 temperature sensors, one or two on a bus, modelled register for register.
 *
 * lm89_run takes a whole capture; lm89_fresh, lm89_feed and lm89_finish take one in parts, and a record a call if need be; lm89_power_on and
 * lm89_step keep one device in the caller's memory; lm89_write_header, lm89_write_header_2 and lm89_write_event write a capture; lm89_soak tells
 * T_CRIT_A at the end of a long stretch of conversions from the last of them. Two devices on one bus stand in a reader, and step by lm89_feed.
 * lm89_fan_step, lm89_fan_duty and lm89_fan_preset are the fan side of another part, the LM63, and lm89_tach reads a fan's speeds from the stamps of
 * its tachometer; they stand beside the sensor and share no state with it. Link liblm89.a.
 * None of them allocates, keeps anything between calls or touches memory other than what it is lent.
 *
 * What a caller owes, beyond what C asks of every program: slices that are lent to one call do not overlap; a slice whose length is not 0
 * has that many bytes behind its pointer, or, of lm89_tach, that many stamps, aligned, and NULL with length 0 is allowed for every slice; the device pointer of
 * lm89_step is not NULL and is aligned. C itself asks that a bool is 0 or 1, and every assignment to one makes it so: a device or
 * a reader comes from a call, from {0} or from assignment of its fields, not from a copy of raw bytes. Padding is no part of a value:
 * compare structs field by field. A struct of any other content gets an answer; nothing needs checking beforehand.
 */
#ifndef LM89_H
#define LM89_H

#include <stdbool.h>
#include <stddef.h>
#include <stdint.h>

#ifdef __cplusplus
extern "C" {
#endif

/*
 * The version of this header. Under another major number a struct or an answer is another: before any other call test
 * lm89_version() / LM89_VERSION_UNIT == LM89_VERSION_MAJOR.
 */
#define LM89_VERSION_MAJOR 4
#define LM89_VERSION_MINOR 4
#define LM89_VERSION_UNIT 65536u

/* The parts. */
enum {
    LM89_VARIANT_LM89C = 1,
    LM89_VARIANT_LM89_1C = 2,
    LM89_VARIANT_LM89_1D = 3,
};

/* Seven-bit bus addresses: the parts', and the alert response address that they share. */
enum {
    LM89_ADDRESS_LM89C = 0x4C,
    LM89_ADDRESS_LM89_1C = 0x4D,
    LM89_ADDRESS_LM89_1D = 0x4D,
    LM89_ADDRESS_ALERT_RESPONSE = 0x0C,
};

/*
 * A record's first byte, and what its bytes a, b and c are. Addresses are at most 7Fh.
 *
 * A capture is of one device, or of two on one bus: the first and the second, in the order of their variants in its header. Two have two
 * addresses: one is an LM89C, the other an LM89-1C or an LM89-1D. A write, read, send or receive names the device at its address, if there
 * is one; LM89_KIND_CONVERSION and LM89_KIND_OPEN name the first device, LM89_KIND_CONVERSION_2 and LM89_KIND_OPEN_2 the second. The device
 * that is not named stays as it was. LM89_KIND_POWER_ON restarts both.
 *
 * A receive at LM89_ADDRESS_ALERT_RESPONSE names, of the devices that pull ALERT and have LM89_FILTER_COMPARATOR clear, the one with the
 * lowest address: the LM89C before the other, whichever is first in the header. That one answers twice its address plus 1 and sets its
 * LM89_CONFIGURATION_ALERT_MASK, which lets its ALERT go; nothing else of it changes. The other does nothing: if it pulls ALERT it keeps pulling,
 * and if it has LM89_FILTER_COMPARATOR clear the next such receive names it. Where there is no such device, the receive is not acknowledged and
 * changes nothing.
 */
enum {
    LM89_KIND_WRITE = 1,        /* address, register, value */
    LM89_KIND_READ = 2,         /* address, register, 0 */
    LM89_KIND_SEND = 3,         /* address, register, 0: sets the pointer */
    LM89_KIND_RECEIVE = 4,      /* address, 0, 0: reads at the pointer, or asks for the alert response */
    LM89_KIND_CONVERSION = 5,   /* local, remote high byte, remote low byte: a multiple of 32; of the first device */
    LM89_KIND_OPEN = 6,         /* local, 0, 0: a conversion of the first device with its diode open */
    LM89_KIND_POWER_ON = 7,     /* 0, 0, 0 */
    LM89_KIND_CONVERSION_2 = 8, /* as LM89_KIND_CONVERSION, of the second device: only in captures of two */
    LM89_KIND_OPEN_2 = 9,       /* as LM89_KIND_OPEN, of the second device: only in captures of two */
};

/* Bytes of a capture's header, of one device and of two, of a record, and of a record's answer; what lm89_run counts an answer byte as. */
enum {
    LM89_HEADER_BYTES = 6,
    LM89_HEADER_2_BYTES = 7,
    LM89_RECORD_BYTES = 4,
    LM89_ANSWER_BYTES = 2,
    LM89_RUN_UNIT = 16,
};

/*
 * Registers: LM89_READ_... are numbers to read at, LM89_WRITE_... numbers to write at; LM89_REGISTER_... are read and written at one number.
 * No other number is acknowledged.
 *
 * The remote reading has two bytes: read LM89_READ_REMOTE first, then LM89_READ_REMOTE_LOW_BYTE. An acknowledged read of the first keeps the
 * low byte of the reading as it stands, in place of one kept before; the next read of the second gives the kept byte and lets it go. So the
 * two bytes are of one reading, though conversions fall between. With none kept the second gives the low byte of the latest reading. A
 * receive at the device's own address with the pointer there is such a read; nothing else but power-on, which lets go, moves a kept byte.
 * Low byte first is the wrong order, after a one-shot too, where the data sheet allows it: each low byte but the first is that of the pair
 * before. A low byte read alone is that of the last read of LM89_READ_REMOTE, however old, if it was not read since.
 */
enum {
    LM89_READ_LOCAL = 0x00,             /* local reading, degrees */
    LM89_READ_REMOTE = 0x01,            /* remote reading, high byte: degrees; a read keeps the low byte for LM89_READ_REMOTE_LOW_BYTE */
    LM89_READ_STATUS = 0x02,            /* LM89_STATUS_...; reading clears it, and may set LM89_CONFIGURATION_ALERT_MASK */
    LM89_READ_CONFIGURATION = 0x03,     /* LM89_CONFIGURATION_... */
    LM89_READ_RATE = 0x04,              /* conversion rate, kept without effect */
    LM89_READ_LOCAL_HIGH_LIMIT = 0x05,
    LM89_READ_LOCAL_LOW_LIMIT = 0x06,
    LM89_READ_REMOTE_HIGH_LIMIT = 0x07, /* high byte */
    LM89_READ_REMOTE_LOW_LIMIT = 0x08,  /* high byte */
    LM89_READ_REMOTE_LOW_BYTE = 0x10,   /* remote reading, low byte, eighths in its top three bits: the kept one, else the latest; a read lets go */
    LM89_READ_MANUFACTURER = 0xFE,      /* 01h */
    LM89_READ_REVISION = 0xFF,          /* 31h, 34h, 35h in order of LM89_VARIANT_... */

    LM89_WRITE_CONFIGURATION = 0x09,
    LM89_WRITE_RATE = 0x0A,
    LM89_WRITE_LOCAL_HIGH_LIMIT = 0x0B,
    LM89_WRITE_LOCAL_LOW_LIMIT = 0x0C,
    LM89_WRITE_REMOTE_HIGH_LIMIT = 0x0D,
    LM89_WRITE_REMOTE_LOW_LIMIT = 0x0E,
    LM89_WRITE_ONE_SHOT = 0x0F,         /* any value: in standby one conversion is taken */

    LM89_REGISTER_OFFSET = 0x11,        /* remote offset, high byte; LM89_ANSWER_HELD tells of a sum past the end of the scale */
    LM89_REGISTER_OFFSET_LOW_BYTE = 0x12,
    LM89_REGISTER_REMOTE_HIGH_LIMIT_LOW_BYTE = 0x13,
    LM89_REGISTER_REMOTE_LOW_LIMIT_LOW_BYTE = 0x14,
    LM89_REGISTER_REMOTE_TCRIT = 0x19,
    LM89_REGISTER_LOCAL_TCRIT = 0x20,
    LM89_REGISTER_HYSTERESIS = 0x21,    /* of both T_CRITs, degrees */
    LM89_REGISTER_FILTER = 0xBF,        /* filter and alert: LM89_FILTER_... */
};

/* Bits of status and of the live byte. D7, busy, is 0. */
enum {
    LM89_STATUS_LHIGH = 0x40, /* local reading above its high limit */
    LM89_STATUS_LLOW = 0x20,  /* local reading below its low limit */
    LM89_STATUS_RHIGH = 0x10, /* remote reading above its high limit */
    LM89_STATUS_RLOW = 0x08,  /* remote reading below its low limit */
    LM89_STATUS_OPEN = 0x04,  /* the remote diode is open; pulls no pin */
    LM89_STATUS_RCRIT = 0x02, /* remote reading above remote T_CRIT */
    LM89_STATUS_LCRIT = 0x01, /* local reading above local T_CRIT */
};

/* Bits of the configuration. The others are not kept. */
enum {
    LM89_CONFIGURATION_ALERT_MASK = 0x80, /* ALERT is not pulled */
    LM89_CONFIGURATION_STANDBY = 0x40,    /* conversions are taken only after a one-shot */
    LM89_CONFIGURATION_REMOTE_TCRIT_MASK = 0x10,
    LM89_CONFIGURATION_LOCAL_TCRIT_MASK = 0x04,
    LM89_CONFIGURATION_FAULT_QUEUE = 0x01, /* remote bits are live after three faults in a row */
};

/* Bits of the filter and alert register. The others are not kept. */
enum {
    LM89_FILTER_BITS = 0x06,       /* kept without effect */
    LM89_FILTER_COMPARATOR = 0x01, /* ALERT follows the last conversion, not status; no alert response */
};

/* Where each setting stands in a device's settings: rising order of the numbers at which they are written. */
enum {
    LM89_SETTING_CONFIGURATION = 0,
    LM89_SETTING_RATE = 1,
    LM89_SETTING_LOCAL_HIGH_LIMIT = 2,
    LM89_SETTING_LOCAL_LOW_LIMIT = 3,
    LM89_SETTING_REMOTE_HIGH_LIMIT = 4,
    LM89_SETTING_REMOTE_LOW_LIMIT = 5,
    LM89_SETTING_OFFSET = 6,
    LM89_SETTING_OFFSET_LOW_BYTE = 7,
    LM89_SETTING_REMOTE_HIGH_LIMIT_LOW_BYTE = 8,
    LM89_SETTING_REMOTE_LOW_LIMIT_LOW_BYTE = 9,
    LM89_SETTING_REMOTE_TCRIT = 10,
    LM89_SETTING_LOCAL_TCRIT = 11,
    LM89_SETTING_HYSTERESIS = 12,
    LM89_SETTING_FILTER = 13,
    LM89_SETTINGS = 14,
};

/* Codes. */
enum {
    LM89_CODE_DONE = 0,          /* none of the others applies */
    LM89_CODE_DEVICE_COUNT = 1,  /* the device count is not 1 or 2 */
    LM89_CODE_VARIANT = 2,       /* a variant is not 1, 2 or 3 */
    LM89_CODE_KIND = 3,          /* the kind is not 1 to 9, or is 8 or 9 where the device count is 1 or in lm89_step; in lm89_soak, is not 5 or 6 */
    LM89_CODE_OPERAND = 4,       /* an operand is outside the table of kinds; in lm89_soak also a length that is no multiple of LM89_RECORD_BYTES;
                                    in lm89_fan_step, lm89_fan_duty and lm89_fan_preset a number out of its range */
    LM89_CODE_PAST_END = 5,      /* a byte comes after the last counted record */
    LM89_CODE_CUT_SHORT = 6,     /* the capture ends before its counted end */
    LM89_CODE_NO_ROOM = 7,       /* too little room: for a valid record's answer; in a writer, for what it writes */
    LM89_CODE_RANGE = 8,         /* the device or reader handed in is out of its ranges */
    LM89_CODE_ADDRESS = 9,       /* the two devices have one address */
    LM89_CODE_STANDBY = 10,      /* the device handed to lm89_soak is in standby */
    LM89_CODE_FALLING = 11,      /* the temperatures of the table handed to lm89_fan_step fall along it */
    LM89_CODE_FEW_STAMPS = 12,   /* fewer than two stamps are handed to lm89_tach */
    LM89_CODE_EQUAL_STAMPS = 13, /* two neighbours of the stamps handed to lm89_tach are equal */
};

/*
 * Bits of the first answer byte; the other three are 0. The pins are as they stand after the record; those of two devices are joined, so that
 * each is pulled where either device pulls it, whichever the record names. The other bits speak of the device that the record names, and are
 * 0 where it names none or both.
 *
 * LM89_ANSWER_HELD is set exactly if the record is a taken LM89_KIND_CONVERSION or LM89_KIND_CONVERSION_2 whose remote sample plus the offset in
 * force, LM89_REGISTER_OFFSET with its low byte, is above 1023 eighths of a degree or below -1024; sample and offset are of one device. The remote
 * reading is then that end of the scale, 127.875 or -128 degrees, and no temperature; at such a record without the bit it is the sum. A sum of
 * exactly 1023 or -1024 is not held, and an open diode never sets the bit. No later record tells it, and no field of a device or reader; `held` of
 * lm89_reader is a code.
 */
enum {
    LM89_ANSWER_ALERT = 0x01,        /* ALERT is pulled, by either device */
    LM89_ANSWER_TCRIT = 0x02,        /* T_CRIT_A is pulled, by either device */
    LM89_ANSWER_ACKNOWLEDGED = 0x04, /* the bus event was acknowledged */
    LM89_ANSWER_TAKEN = 0x08,        /* the conversion was taken */
    LM89_ANSWER_HELD = 0x10,         /* the conversion was taken, and its reading was held to the end of the scale */
};

/* What only taken conversions and power-on move. */
typedef struct {
    int16_t remote; /* remote reading in eighths of a degree, -1024 to 1023 */
    uint8_t local;  /* local reading in degrees, two's complement */
    uint8_t live;   /* status bits true at the last taken conversion; D7 is 0 */
    uint8_t faults; /* fault count, 0 to 3 */
    bool llatch;    /* local T_CRIT latch */
    bool rlatch;    /* remote T_CRIT latch */
} lm89_sensed;

/*
 * One device. Settings stand at LM89_SETTING_..., each with the bits that it keeps: configuration D5h; the low bytes of offset and of the
 * remote limits E0h; hysteresis 1Fh; filter and alert 07h; every other all eight.
 * A device is in its ranges when variant is 1 to 3, every other field is as said beside it, and no setting
 * has a bit that it does not keep. Every device reached from lm89_power_on of a variant 1 to 3 by lm89_step is.
 */
typedef struct {
    lm89_sensed sensed;
    uint8_t variant;      /* LM89_VARIANT_... */
    uint8_t pointer;      /* a readable or writable register */
    bool pending;         /* a one-shot is pending: only while LM89_CONFIGURATION_STANDBY is set */
    uint8_t status;       /* status bits gathered since status was last read; D7 is 0 */
    uint8_t settings[LM89_SETTINGS];
    uint8_t low;          /* the remote reading's low byte kept at the last read of LM89_READ_REMOTE: a multiple of 32; 0 where lowkept is false */
    bool lowkept;         /* such a byte is kept: from that read to the next of LM89_READ_REMOTE_LOW_BYTE, or to power-on */
} lm89_device;

/*
 * The devices on a bus, as a reader has them. It is in its ranges when every field is as said beside it; header bytes taken are `head` of that
 * reader.
 */
typedef struct {
    uint8_t devices;    /* device count: 0 with no header byte taken, else 1 or 2 */
    lm89_device first;  /* in its ranges; before two header bytes are taken its variant may be any number */
    lm89_device second; /* once three are taken and devices is 2, in its ranges and at another address than first; until or without that, all zeros */
} lm89_bus;

/*
 * A reader of a capture that comes in parts. It is in its ranges when every field is as said beside it. The header is complete at
 * 5 + bus.devices bytes, LM89_HEADER_BYTES or LM89_HEADER_2_BYTES; the last four of them are those of the record count. Every reader reached
 * from lm89_fresh by lm89_feed is in its ranges.
 */
typedef struct {
    uint8_t head;     /* header bytes taken: 0 to 6; 0 to 7 where bus.devices is 2 */
    uint32_t count;   /* record count as far as its bytes are taken: below 256 to the power of these, 0 with none */
    uint32_t done;    /* records done: at most count, and 0 before the header is complete */
    uint8_t carried;  /* bytes carried of a record: 0 to 3, and 0 before the header is complete or once all records are done */
    uint8_t bytes[3]; /* these bytes; unused places are 0 */
    uint8_t held;     /* a lasting code that refused a byte, 1 to 5 or 9, or 0 */
    lm89_bus bus;     /* in its ranges, with so many header bytes taken */
} lm89_reader;

/*
 * What feeding a part gives. Where the code is LM89_CODE_NO_ROOM, or one of 1 to 5 and 9 that the reader did not hold before, the byte behind
 * the consumed ones is the one judged.
 */
typedef struct {
    uint64_t consumed;  /* bytes of the part that were taken */
    uint64_t written;   /* answer bytes written */
    uint8_t code;       /* LM89_CODE_... */
    lm89_reader reader; /* the reader after it */
} lm89_fed;

/* What a step answers: its code, and the record's two answer bytes. */
typedef struct {
    uint8_t code;
    uint8_t first;  /* LM89_ANSWER_... */
    uint8_t second; /* the byte read, or 0 */
} lm89_answer;

/* What reading a soak gives. */
typedef struct {
    uint8_t code;  /* LM89_CODE_... */
    bool pulled;   /* T_CRIT_A is pulled at the end of the stretch; false on a code other than 0 */
    uint64_t read; /* records read, a refused one among them; 0 on LM89_CODE_RANGE, LM89_CODE_STANDBY and a length that is no multiple of LM89_RECORD_BYTES */
} lm89_soaked;

/* Of the fan table: how many entries it has, the places of an entry's two bytes, and their number. LM89_FAN_ALL is a duty of 100 percent. */
enum {
    LM89_FAN_ENTRIES = 8,
    LM89_FAN_TEMPERATURE = 0,
    LM89_FAN_VALUE = 1,
    LM89_FAN_ENTRY_BYTES = 2,
    LM89_FAN_ALL = 10000,
};

/*
 * The fan settings of an LM63. The table's bytes stand as in its registers 50h to 5Fh: temperature and PWM value of entry 1, then of entry 2, and so
 * on; hysteresis is register 4Fh, frequency register 4Dh.
 */
typedef struct {
    uint8_t table[LM89_FAN_ENTRIES][LM89_FAN_ENTRY_BYTES]; /* temperature, degrees, 0 to 127, none below the one before it; PWM value, 0 to 63 */
    uint8_t hysteresis;                                    /* degrees, 0 to 31 */
    uint8_t frequency;                                     /* n, 0 to 31; 0 counts as 1 */
} lm89_fan;

/* What a fan does after a reading. On a code other than 0 the other numbers are 0. */
typedef struct {
    uint8_t code;  /* LM89_CODE_... */
    uint8_t step;  /* the entry that is in force, 1 to LM89_FAN_ENTRIES; 0 for none */
    uint8_t value; /* its PWM value; 0 for none */
    uint16_t duty; /* the duty of that value, in hundredths of a percent: 0 to LM89_FAN_ALL */
} lm89_driven;

/* A code and a number, which is 0 on a code other than 0. */
typedef struct {
    uint8_t code; /* LM89_CODE_... */
    uint16_t value;
} lm89_number;

/* What the stamps of a tachometer tell. Speeds are revolutions a minute, rounded down. On a code other than 0 the other numbers are 0. */
typedef struct {
    uint8_t code;     /* LM89_CODE_... */
    uint32_t slowest; /* the lowest of the speeds, 82 or more */
    uint32_t fastest; /* the highest of them, 5,400,000 or less */
    uint64_t under;   /* how many of them fell under the floor: 0 to the number of stamps less 1 */
} lm89_speeds;

/* The library's version: LM89_VERSION_UNIT times its major number plus its minor one. */
uint32_t lm89_version(void);

/*
 * Runs a whole capture on devices fresh from power-on. A capture is the device count, 1 or 2; the variant of each device, LM89_VARIANT_..., the
 * first device's before the second's; the record count in four bytes, highest first; and that many records of four bytes: kind, a, b, c, as
 * LM89_KIND_... says.
 *
 * Each valid record's answer, LM89_ANSWER_BYTES, goes to the front of answers, behind those before it; every other byte there is untouched.
 * Room for capture_length / 2 bytes is always enough. Returns LM89_RUN_UNIT times the answer bytes written, plus a code: that of the first
 * byte that is not taken, LM89_CODE_DEVICE_COUNT to LM89_CODE_PAST_END (1 to 5), LM89_CODE_NO_ROOM (7) or LM89_CODE_ADDRESS (9), as lm89_feed
 * tells them; if all are taken LM89_CODE_DONE (0) at the counted end, LM89_CODE_CUT_SHORT (6) before it.
 */
uint64_t lm89_run(const uint8_t *capture, size_t capture_length, uint8_t *answers, size_t answers_length);

/* A reader before its first byte: all zeros. */
lm89_reader lm89_fresh(void);

/*
 * Takes the next part of a capture, of any length and cut anywhere, and as much of it as can be. Each valid record's answer, LM89_ANSWER_BYTES,
 * goes to the front of answers, behind those of this call before it; every other byte there is untouched. The code is
 *   LM89_CODE_RANGE (8) if the reader is out of its ranges; nothing is consumed or written, and the reader comes back as it was given;
 *   then the code that the reader holds, 1 to 5 or 9, if it holds one, for the empty part too; nothing is consumed or written;
 *   else, byte by byte, that of the first byte that is not taken, and LM89_CODE_DONE (0) if all are:
 *     LM89_CODE_DEVICE_COUNT (1) at the device count,
 *     LM89_CODE_VARIANT (2) at a variant, and then, at the second of two, LM89_CODE_ADDRESS (9) where its address is the first's,
 *     LM89_CODE_PAST_END (5) for a byte behind the last counted record,
 *     LM89_CODE_KIND (3), then LM89_CODE_OPERAND (4), then LM89_CODE_NO_ROOM (7) at a record's fourth byte.
 * LM89_KIND_CONVERSION_2 and LM89_KIND_OPEN_2 get LM89_CODE_KIND where the device count is 1.
 * A byte that is judged 1 to 5, 7 or 9 is not consumed, and what came before it stays consumed. Codes 1 to 5 and 9 last: the reader holds them.
 * LM89_CODE_NO_ROOM does not: give the unread rest again, with room for LM89_ANSWER_BYTES or more.
 *
 * If every LM89_CODE_NO_ROOM is answered so, then however a capture is cut and whatever room each call has, the answers joined, the bytes
 * consumed, the last code, the finishing code and the reader at the end are the same; lm89_run with room for every answer gives those
 * answers, and the last code if it is not 0, else the finishing one.
 */
lm89_fed lm89_feed(lm89_reader reader, const uint8_t *input, size_t length, uint8_t *answers, size_t room);

/*
 * Asked at the end of the capture: LM89_CODE_RANGE (8) if the reader is out of its ranges, then the code that it holds, then
 * LM89_CODE_CUT_SHORT (6) if the capture is not at its counted end, else LM89_CODE_DONE (0).
 */
uint8_t lm89_finish(lm89_reader reader);

/*
 * One event, given as its record's four bytes, on the device where it stands, which is alone on its bus. The answer's code is
 *   LM89_CODE_RANGE (8) if the device is out of its ranges or its variant is not 1 to 3 (a device of all zeros too),
 *   then LM89_CODE_KIND (3) if the kind is not 1 to 7: for LM89_KIND_CONVERSION_2 and LM89_KIND_OPEN_2 too, since there is no second device,
 *   then LM89_CODE_OPERAND (4) if an operand is outside the table of kinds,
 *   else LM89_CODE_DONE (0).
 * On a code other than 0 both answer bytes are 0 and the device is not changed.
 */
lm89_answer lm89_step(lm89_device *device, uint8_t kind, uint8_t a, uint8_t b, uint8_t c);

/* A device as after power-on; all zeros if the variant is not 1 to 3. */
lm89_device lm89_power_on(uint8_t variant);

/*
 * Is T_CRIT_A pulled at the end of a soak, thousands of conversions of one device under one setup? The device is as it stands before them, in run
 * mode, which is with LM89_CONFIGURATION_STANDBY clear; records are the conversions, LM89_RECORD_BYTES each, in order, with no header, those of a
 * second device given as LM89_KIND_CONVERSION and LM89_KIND_OPEN too. They are read from the end backwards, only until both channels are decided or
 * the start is reached. A channel is decided as soon as the records read leave its latch the same for every earlier latch and fault count; a masked
 * channel is to be decided too, and a pin that is already sure does not end the reading. The code is
 *   LM89_CODE_RANGE (8) if the device is out of its ranges or its variant is not 1 to 3 (a device of all zeros too),
 *   then LM89_CODE_STANDBY (10) if it is in standby,
 *   then LM89_CODE_OPERAND (4) if length is no multiple of LM89_RECORD_BYTES; up to here no record is read,
 *   then, at the first record met from the end that is no valid LM89_KIND_CONVERSION or LM89_KIND_OPEN, LM89_CODE_KIND (3) if it is of another kind,
 *     whatever its operands, LM89_KIND_CONVERSION_2 and LM89_KIND_OPEN_2 too, else LM89_CODE_OPERAND (4); it stands at
 *     records + length - LM89_RECORD_BYTES * read,
 *   else LM89_CODE_DONE (0).
 * Only records that are read are judged: with code 0 those before them may be any bytes. If with code 0 all are valid, `pulled` is true exactly if the
 * last answer has LM89_ANSWER_TCRIT when lm89_step is called for each record in order; with code 0 and length 0 it is so exactly if the device pulls
 * T_CRIT_A as it stands. The device is not changed, and nothing is written.
 */
lm89_soaked lm89_soak(lm89_device device, const uint8_t *records, size_t length);

/*
 * The step of an LM63's fan after a reading in whole degrees, -128 to 127. How eighths become whole degrees is the caller's matter; the high byte of a
 * remote reading rounds down. `earlier` is the step before it, 0 for none. The step is the highest entry whose temperature the reading reaches, or, for
 * entries up to the earlier step, whose temperature less hysteresis it reaches. To reach is to be at least as high, where the data sheet says "exceeds"; a
 * temperature less hysteresis may lie below 0. Of entries with the same temperature the last is the highest; but an entry above the earlier step has to be
 * reached at its full temperature. No such entry means step 0 and PWM value 0. The duty is what lm89_fan_duty gives for that value at the fan's frequency.
 * The code is
 *   LM89_CODE_FALLING (11) if a temperature is below that of the entry before it, as the bytes stand, whatever is out of its range,
 *   then LM89_CODE_OPERAND (4) if a temperature is above 127, a PWM value above 63, hysteresis or frequency above 31 or earlier above LM89_FAN_ENTRIES,
 *     whether or not the step hangs on it,
 *   else LM89_CODE_DONE (0).
 * On a code other than 0 `step` is 0 and is no step: keep the earlier one. With the same fan and the same reading the step of an answer with code 0, handed
 * back as `earlier`, does not change, nor does the rest of that answer. With the same fan and the same `earlier` a hotter reading never gives a lower step;
 * a PWM value, and with it the duty, may be lower, where the table has it so.
 */
lm89_driven lm89_fan_step(lm89_fan fan, uint8_t earlier, int8_t reading);

/*
 * The duty of a PWM value in hundredths of a percent: value over twice the frequency, LM89_FAN_ALL where value is twice the frequency or more,
 * to the nearest hundredth, ties upward; a frequency of 0 counts as 1. LM89_CODE_OPERAND (4) if frequency is above 31 or value above 63, else
 * LM89_CODE_DONE (0).
 */
lm89_number lm89_fan_duty(uint8_t frequency, uint8_t value);

/*
 * The PWM value for a duty of about 75 percent: one and a half times the frequency, a half going up, but 1 at a frequency of 1, where the duty is 50
 * percent; a frequency of 0 counts as 1. LM89_CODE_OPERAND (4) if frequency is above 31, else LM89_CODE_DONE (0).
 */
lm89_number lm89_fan_preset(uint8_t frequency);

/*
 * A fan's speeds, in revolutions a minute, from `count` stamps in the order of time. A stamp is what a free-running 16-bit counter at 90 kHz, which passes
 * from 65,535 to 0, showed at an edge of the fan's tachometer; one edge a revolution is stamped (of a fan with two pulses a revolution, the same edge of every
 * second pulse). Each two neighbours have a period, the later stamp less the earlier, going round: 1 from 65,535 to 0; and a speed, 5,400,000 divided by the
 * period, rounded down. So n stamps have n - 1 speeds. Told are the slowest, the fastest, and how many fell under the floor, which is in revolutions a minute,
 * too: a speed that is the floor itself did not. The floor may be any number. The code is
 *   LM89_CODE_FEW_STAMPS (12) if count is 0 or 1,
 *   then LM89_CODE_EQUAL_STAMPS (13) if two neighbours are equal, wherever they stand,
 *   else LM89_CODE_DONE (0).
 * Where every two neighbouring edges were truly 1 to 65,535 ticks apart, at most 0.728 s, the periods are those true distances, and the three numbers are
 * those of the true distances. No stamp can show a whole round that was missed: 65,537 ticks are a period of 1, and 65,536 are refused as equal stamps.
 * Nothing is written.
 */
lm89_speeds lm89_tach(const uint16_t *stamps, size_t count, uint32_t floor);

/*
 * Writes the header of a capture of one device, LM89_HEADER_BYTES of them, to the front of room: LM89_CODE_VARIANT (2) if the variant is not
 * 1 to 3, then LM89_CODE_NO_ROOM (7) if length is less, else LM89_CODE_DONE (0). On a code other than 0 nothing is written; the bytes behind
 * the header are untouched.
 */
uint8_t lm89_write_header(uint8_t variant, uint32_t count, uint8_t *room, size_t length);

/*
 * Writes the header of a capture of two devices, LM89_HEADER_2_BYTES of them, to the front of room; first and second are their variants.
 * LM89_CODE_VARIANT (2) if either is not 1 to 3, then LM89_CODE_ADDRESS (9) if both have one address, then LM89_CODE_NO_ROOM (7) if length is
 * less, else LM89_CODE_DONE (0). On a code other than 0 nothing is written; the bytes behind the header are untouched.
 */
uint8_t lm89_write_header_2(uint8_t first, uint8_t second, uint32_t count, uint8_t *room, size_t length);

/*
 * Writes an event's record, LM89_RECORD_BYTES of them, kind, a, b, c, to the front of room: LM89_CODE_KIND (3) if the kind is not 1 to 9,
 * then LM89_CODE_OPERAND (4) if an operand is outside the table of kinds, then LM89_CODE_NO_ROOM (7) if length is less, else
 * LM89_CODE_DONE (0). On a code other than 0 nothing is written; the bytes behind the record are untouched. What is written is read back
 * as that event in a capture of two devices, and no other bytes are; so it is in a capture of one, but that LM89_KIND_CONVERSION_2 and
 * LM89_KIND_OPEN_2, which are written here all the same, get LM89_CODE_KIND there.
 */
uint8_t lm89_write_event(uint8_t kind, uint8_t a, uint8_t b, uint8_t c, uint8_t *room, size_t length);

#ifdef __cplusplus
}
#endif

#endif
