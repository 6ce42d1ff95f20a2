"""What steps, feeds and runs show of request b: D4 stands on a taken conversion whose sum was held to an end of the scale.

Which records show it is worked out here, from the device before and the event; an answer that says otherwise is wrong.
"""
from itertools import compress

import calls
import lowbyte
from lowbyte import own_address
from ranges import FIRST, STANDBY, remote_reading
from steps import ALERT_MASK, ALERTING, COMPARATOR, QUEUE, eighths

WRITE, CONVERSION, OPEN_DIODE, POWER_ON, CONVERSION_2 = 1, 5, 6, 7, 8
ALERT, T_CRIT_A, ACKNOWLEDGED, TAKEN, HELD = 0x01, 0x02, 0x04, 0x08, 0x10
FROM_HELD = 0xF0  # D4, and D5 to D7, which are always 0
WITHOUT_HELD = bytes(range(HELD))  # first answer bytes that any record may have
WITH_HELD = bytes(HELD | TAKEN | pins for pins in range(4))  # those of a conversion whose sum was held
NO_CONVERSION = bytes(kind not in (CONVERSION, CONVERSION_2) for kind in range(256))
PENDING, CONFIGURATION, OFFSET, OFFSET_FINE = 2, 11, 17, 18  # places in a device
LEAST, MOST = -1024, 1023
ENDS = {"upper": MOST, "lower": LEAST}
SUMS = ("1022 not shown", "1023 not shown", "1024 shown", "1025 shown", "-1023 not shown", "-1024 not shown", "-1025 shown", "-1026 shown")
LARGEST = {MOST: "7F E0", LEAST: "80 00"}
OFFSETS = LARGEST | {1: "00 20", -1: "FF E0"}
BESIDE = ("ALERT pulled", "ALERT masked", "T_CRIT_A pulled", "T_CRIT_A masked", "comparator mode", "remote bits held back by the queue",
          "one-shot", "variant 1", "variant 2", "variant 3")
BEHIND = [*lowbyte.IDLE, *lowbyte.READS_HIGH, *lowbyte.READS_LOW, "power-on", "record refused with 3", "record refused with 4"]


def need(table):
    table.need(*(f"b sum {shown}" for shown in SUMS))
    table.need(*(f"b held with the offset {offset}" for offset in OFFSETS.values()))
    table.need("b held, would not be without the offset's low byte", "b not held, would be without the offset's low byte")
    for end, reading in ENDS.items():
        table.need(f"b held at the {end} end, reads {reading}", f"b offset 0, sample at the {end} end: not shown")
        table.need(*(f"b held at the {end} end, {what}" for what in BESIDE))
        table.need(f"b not taken in standby, sum past the {end} end: not shown", f"b held at the {end} end again, right behind")
    table.need(*(f"b open diode with the offset {offset}: not shown" for offset in LARGEST.values()))
    table.need(*(f"b {sort} right behind a held sum: not shown" for sort in BEHIND))
    for name in ("run", "feed"):
        table.need(*(f"b {name}: held at the {end} end" for end in ENDS), *(f"b {name}: sum {end} not shown" for end in LARGEST))
        table.need(f"b {name}: held in the last record")
    # A header leaves the offset at 0, so a run's first record is never held; a feed's may be, in a reader that was set.
    table.need("b run: held in the second record", *(f"b run: sample at the {end} end in the first record: not shown" for end in ENDS))
    table.need("b feed: held in the first record after a header", "b feed: held at once in a reader that was set")
    table.need(*(f"b feed: cut after {carried} bytes of a held record" for carried in range(calls.RECORD_BYTES)))
    table.need("b feed: 7 at a held record, answered when fed again")


def end_past(total):
    """The end of the scale that a sum lies past, or None."""
    return "upper" if total > MOST else "lower" if total < LEAST else None


def wrong(call, record, told, first, due):
    """A record whose first answer byte has another D4 than is due, or one of D5 to D7, in words."""
    return f"{call}: {calls.event_words(record)}, {told}: first answer byte {first:02X}, D4 to D7 must be {due:02X}"


def see_answers(table, kinds, firsts):
    """All records that a run answered: D4 stands on a taken conversion alone, D5 to D7 nowhere."""
    others = bytes(compress(firsts, kinds.translate(NO_CONVERSION)))
    odd = firsts.translate(None, WITHOUT_HELD + WITH_HELD) + others.translate(None, WITHOUT_HELD)
    if odd:
        table.wrong.append(f"run: first answer bytes {calls.hexed(odd)}, where D4 to D7 must be 0")


class Steps:
    """Watches the steps on one device."""

    def __init__(self, table):
        self.table = table
        self.set_device()

    def set_device(self):
        self.behind = None  # the end that the sum of the step before was held to

    def when(self, holds, name):
        if holds:
            self.table.count(name)

    def see(self, event, before, result):
        """A step, answered or refused."""
        end = None
        if result[1] == 0 and event[0] == CONVERSION:
            end = self.see_conversion(event, before, result)
        elif result[1] == 0 and event[0] == OPEN_DIODE and result[2] & TAKEN:
            self.see_open(before)
        due = HELD if end else 0
        if result[2] & FROM_HELD != due:
            self.table.wrong.append(wrong("step", event, f"device {calls.hexed(before)}", result[2], due))
        if self.behind:
            self.see_behind(end, event, before, result)
        self.behind = end

    def see_conversion(self, event, before, result):
        """The end that the sum of a conversion is held to, or None."""
        sample, offset = eighths(event[2], event[3]), eighths(before[OFFSET], before[OFFSET_FINE])
        total = sample + offset
        if LEAST + 8 <= total <= MOST - 8:
            return None
        end = end_past(total)
        if before[CONFIGURATION] & STANDBY and not before[PENDING]:
            self.when(end, f"b not taken in standby, sum past the {end} end: not shown")
            return None
        named = f"b sum {total} {'shown' if result[2] & HELD else 'not shown'}"
        self.when(named in self.table.counts, named)
        coarse = end_past(total - before[OFFSET_FINE] // 32)
        self.when(end and not coarse, "b held, would not be without the offset's low byte")
        self.when(coarse and not end, "b not held, would be without the offset's low byte")
        if end:
            self.see_held(end, offset, before, result)
        elif offset == 0 and sample in LARGEST:
            self.table.count(f"b offset 0, sample at the {'upper' if sample > 0 else 'lower'} end: not shown")
        return end

    def see_held(self, end, offset, before, result):
        first, after = result[2], result[4:]
        self.when(offset in OFFSETS, f"b held with the offset {OFFSETS.get(offset)}")
        self.when(remote_reading(after) == ENDS[end], f"b held at the {end} end, reads {ENDS[end]}")
        comparator = after[24] & COMPARATOR
        masked = after[CONFIGURATION] & ALERT_MASK and after[7 if comparator else 3] & ALERTING
        latch_masked = not first & T_CRIT_A and (after[9] or after[10])
        held_back = after[CONFIGURATION] & QUEUE and after[8] in (1, 2)
        beside = (first & ALERT, masked, first & T_CRIT_A, latch_masked, comparator, held_back, before[CONFIGURATION] & STANDBY,
                  after[0] == 1, after[0] == 2, after[0] == 3)
        for holds, what in zip(beside, BESIDE):
            self.when(holds, f"b held at the {end} end, {what}")

    def see_open(self, before):
        offset = eighths(before[OFFSET], before[OFFSET_FINE])
        self.when(offset in LARGEST, f"b open diode with the offset {OFFSETS.get(offset)}: not shown")

    def see_behind(self, end, event, before, result):
        """A step right behind one whose sum was held."""
        if end:
            self.when(end == self.behind, f"b held at the {end} end again, right behind")
        elif result[1]:
            self.table.count(f"b record refused with {result[1]} right behind a held sum: not shown")
        else:
            sort = lowbyte.sort_of(event, own_address(before[0]), before[1], result[2])
            self.table.count(f"b {sort} right behind a held sum: not shown")


class Records:
    """Follows what decides D4 of one device through the records that a run or a feed answered."""

    def __init__(self, table, name):
        self.table = table
        self.name = name

    def count(self, what):
        self.table.count(f"b {self.name}: {what}")

    def begin(self, device):
        """The device before the first record."""
        self.offset = [device[OFFSET], device[OFFSET_FINE]]
        self.standby, self.pending = device[CONFIGURATION] & STANDBY, device[PENDING]

    def see(self, record, first):
        """An answered record: whether its sum was held."""
        kind, due = record[0], 0
        if kind == CONVERSION:
            due = self.see_conversion(record)
        if first & FROM_HELD != due:
            self.table.wrong.append(wrong(self.name, record, f"offset {calls.hexed(bytes(self.offset))}", first, due))
        if kind == WRITE and first & ACKNOWLEDGED:
            self.see_write(record[2], record[3])
        elif kind == POWER_ON:
            self.begin(bytes(calls.DEVICE_BYTES))
        elif kind >= CONVERSION:
            self.pending = 0
        return due

    def see_conversion(self, record):
        total = eighths(record[2], record[3]) + eighths(*self.offset)
        if self.standby and not self.pending:
            return 0
        end = end_past(total)
        if end:
            self.count(f"held at the {end} end")
        elif total in LARGEST:
            self.count(f"sum {total} not shown")
        return HELD if end else 0

    def see_write(self, register, value):
        if register == 0x09:
            self.standby = value & STANDBY
            self.pending = self.pending and self.standby
        elif register == 0x0F:
            self.pending = self.standby
        elif register == 0x11:
            self.offset[0] = value
        elif register == 0x12:
            self.offset[1] = value & 0xE0


def see_run(table, capture, answered):
    """A run of one device, from its capture and the records that it answered, each with its first answer byte."""
    records = Records(table, "run")
    records.begin(bytes(calls.DEVICE_BYTES))
    held = [records.see(record, first) for record, first in answered]
    if held[-1] and calls.record_count(capture) == len(held):
        records.count("held in the last record")
    if held[1:] and held[1]:
        records.count("held in the second record")
    first_record = answered[0][0]
    for end, sample in (("upper", b"\x7f\xe0"), ("lower", b"\x80\x00")):
        if first_record[0] == CONVERSION and first_record[2:] == sample:
            records.count(f"sample at the {end} end in the first record: not shown")


class Feeds(Records):
    """Follows the feeds of one reader of one device."""

    def __init__(self, table):
        super().__init__(table, "feed")
        self.set_reader()

    def set_reader(self):
        """A reader that was set, or a fresh one."""
        self.ended = None  # the code of the last feed with bytes

    def see_feed(self, before, part, code, answered, after):
        """A feed whose reader was within its ranges and held no code."""
        self.begin(before[FIRST:] if before[0] >= 2 else bytes(calls.DEVICE_BYTES))
        held = [self.see(record, first) for record, first in answered]
        if held and held[0]:
            self.see_first(before)
        if held and held[-1] and after[1:5] == after[5:9]:
            self.count("held in the last record")
        if part:
            self.ended = code

    def see_first(self, before):
        """A feed whose first record was held."""
        if before[0] < calls.header_bytes(1):
            self.count("held in the first record after a header")
        elif self.ended == 0:
            self.count(f"cut after {before[9]} bytes of a held record")
        elif self.ended == 7:
            self.count("7 at a held record, answered when fed again")
        elif self.ended is None:
            self.count("held at once in a reader that was set")
