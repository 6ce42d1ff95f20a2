"""What soaks show of request f: T_CRIT_A at the end of a stretch of conversions, read from the end until both latches are decided.

Code, records read and pin are worked out here, from the device and the bytes, by P2 to P4 and P8: a channel is decided by so many
records if a run through them, forwards, leaves one latch from every latch and fault count. A result that says otherwise is wrong, and
so is a pin that is not that of the full run, or of the steps that follow a soak in the stream.
"""
import functools
from itertools import product

import calls
import ranges
from ranges import STANDBY
from steps import QUEUE, degrees, eighths

CONVERSION, OPEN_DIODE, CONVERSION_2, OPEN_DIODE_2 = 5, 6, 8, 9
LEAST, MOST, OPEN_READING = -1024, 1023, 1016
COUNT_MOST = 3
LOCAL_MASK, REMOTE_MASK = 0x04, 0x10
MASKS = {0: "none masked", LOCAL_MASK: "local masked", REMOTE_MASK: "remote masked", LOCAL_MASK | REMOTE_MASK: "both masked"}
# Places in a device.
VARIANT, PENDING, FAULT_COUNT, LOCAL_LATCH, REMOTE_LATCH, CONFIGURATION = 0, 2, 8, 9, 10, 11
# What a reading is to its channel: above T_CRIT; holding, a fault or none; below limit less hysteresis, none or a fault. Of the local
# channel, which knows no faults, the first, the third and the fourth.
ABOVE, WARM, CALM, COOL, COLD = "AWHBF"
FAULTS, BELOW = (ABOVE, WARM, COLD), (COOL, COLD)
CHANNELS = ("local", "remote")
QUEUES = ("queue off", "queue on")
UNDECIDED = ("local not decided", "remote not decided", "neither decided")
ANY = frozenset(product((False, True), range(COUNT_MOST + 1)))  # every latch and fault count
ROW_MOST, ROW_MOST_OFF = 4, 3  # rows of remote readings up to here must all occur, with the queue on and off
OTHER_KINDS = set(range(256)) - {CONVERSION, OPEN_DIODE}
KNOWN_OTHERS = (1, 2, 3, 4, 7, 8, 9)
REASONS = ("T_CRIT alone", "the high limit alone", "the low limit alone")
FAULT_LINES = {
    ("high", CALM): "at the high limit, no fault", ("high", WARM): "one step above the high limit, a fault",
    ("low", CALM): "at the low limit, no fault", ("low", WARM): "one step below the low limit, a fault",
}
FOLLOWED_MOST = 1000  # longer stretches are not followed by steps
READ_ENDS = (256, 65536)  # where a count of a byte, or of two, would go round


# ---- Latches by P4 and P8 ---------------------------------------------------


@functools.cache
def moved(states, look, queue):
    """Latch and fault count after a reading, for each before it."""
    after = set()
    for latch, count in states:
        count = min(count + 1, COUNT_MOST) if look in FAULTS else 0
        if look == ABOVE and (count == COUNT_MOST or not queue):
            latch = True
        elif look in BELOW:
            latch = False
        after.add((latch, count))
    return frozenset(after)


def latches(states, row, queue):
    """The latches that a row of readings can leave."""
    for look in row:
        states = moved(states, look, queue)
    return {latch for latch, _ in states}


def decides(row, queue):
    """Whether a row gives the same latch for every earlier latch and fault count."""
    return len(latches(ANY, row, queue)) == 1


def needed(row, queue):
    """How many readings at the end of a row decide; None if all of them do not."""
    few, many = 0, 1  # so few do not decide; so many may
    while many < len(row) and not decides(row[-many:], queue):
        few, many = many, 2 * many
    many = min(many, len(row))
    if not row or not decides(row[-many:], queue):
        return None
    while many - few > 1:
        middle = (few + many) // 2
        few, many = (few, middle) if decides(row[-middle:], queue) else (middle, many)
    return many


ROWS = ["".join(row) for length in range(1, ROW_MOST + 1) for row in product((ABOVE, WARM, CALM, COOL, COLD), repeat=length)]
DECIDING = [row for row in ROWS if needed(row, True) == len(row)]
NOT_DECIDING = [row for row in ROWS if needed(row, True) is None]
OFF_ROWS = [row for row in ROWS if len(row) <= ROW_MOST_OFF]
# Some of these rows by name: the last readings, whether they decide with the queue on, and the latch then.
NAMED_ROWS = {
    "B": "below, no fault: clear, by one record", "F": "below and a fault: clear, by one record",
    "BA": "below, then one above: clear, by two", "BAA": "below, then two above: clear, by three",
    "FA": "below and a fault, then one above: not decided", "HFA": "no fault, below and a fault, one above: clear, by three",
    "WFA": "a fault, below and a fault, one above: set, by three", "AA": "two above: not decided", "AAA": "three above: set, by three",
    "WWA": "two other faults, then one above: set, by three", "WAW": "three faults, the second above: not decided",
    "AWW": "three faults, the first above: not decided", "WWW": "three faults, none above: not decided",
    "AAHA": "two above, row broken, one above: not decided", "AAAH": "three above, then one holds: set, by four",
    "AWAW": "four faults, the third above: set, by four",
}


class Setup:
    """The lines of a device's settings, local in degrees, remote in eighths."""

    def __init__(self, device):
        self.hysteresis = device[23]
        self.local_crit, self.remote_crit = degrees(device[22]), degrees(device[21]) * 8
        self.local_edge, self.remote_edge = self.local_crit - self.hysteresis, self.remote_crit - self.hysteresis * 8
        self.high, self.low = eighths(device[15], device[19]), eighths(device[16], device[20])
        self.offset = eighths(device[17], device[18])

    def total(self, record):
        """Sample plus offset, before it is held to the scale."""
        return eighths(record[2], record[3]) + self.offset

    def remote(self, record):
        return OPEN_READING if record[0] == OPEN_DIODE else max(LEAST, min(MOST, self.total(record)))

    def local_look(self, record):
        local = degrees(record[1])
        return ABOVE if local > self.local_crit else COOL if local < self.local_edge else CALM

    def remote_look(self, record):
        remote = self.remote(record)
        if remote > self.remote_crit:
            return ABOVE
        fault = not self.low <= remote <= self.high
        if remote < self.remote_edge:
            return COLD if fault else COOL
        return WARM if fault else CALM

    def reason(self, record):
        """The limits that a remote reading is outside of."""
        remote = self.remote(record)
        outside = [name for name, is_so in zip(REASONS, (remote > self.remote_crit, remote > self.high, remote < self.low)) if is_so]
        return outside[0] if len(outside) == 1 else "several"


def judged(record):
    """The code of a record of a stretch."""
    if record[0] not in (CONVERSION, OPEN_DIODE):
        return 3
    return 4 if calls.broken_operands(record) else 0


class Soak:
    """A soak, worked out: what it must give, and why."""

    def __init__(self, device, stretch):
        self.device, self.stretch = device, stretch
        self.count, self.remainder = divmod(len(stretch), calls.RECORD_BYTES)
        self.setup, self.queue = Setup(device), bool(device[CONFIGURATION] & QUEUE)
        self.masks = device[CONFIGURATION] & (LOCAL_MASK | REMOTE_MASK)
        self.early = self.early_code()
        self.result = (self.early, 0, 0) if self.early else self.read()

    def record(self, place):
        """A record by its place from the end, the last being 1."""
        at = (self.count - place) * calls.RECORD_BYTES
        return self.stretch[at : at + calls.RECORD_BYTES]

    def early_code(self):
        """The code given before any record is read."""
        if self.device[VARIANT] not in (1, 2, 3) or ranges.device_faults(self.device):
            return 8
        if self.device[CONFIGURATION] & STANDBY:
            return 10
        return 4 if self.remainder else 0

    def read(self):
        """(code, pulled, records read)."""
        self.valid = 0  # records from the end to the first that is no valid conversion
        while self.valid < self.count and not judged(self.record(self.valid + 1)):
            self.valid += 1
        records = [self.record(place) for place in range(self.valid, 0, -1)]
        self.rows = ("".join(map(self.setup.local_look, records)), "".join(map(self.setup.remote_look, records)))
        self.needed = (needed(self.rows[0], False), needed(self.rows[1], self.queue))
        self.stop = None if None in self.needed else max(self.needed)
        if self.stop is None and self.valid < self.count:
            return judged(self.record(self.valid + 1)), 0, self.valid + 1
        self.latches = self.forwards()
        return 0, int(self.pin(self.latches)), self.count if self.stop is None else self.stop

    def start(self):
        """(latch, fault count) of each channel as the device has them."""
        return (bool(self.device[LOCAL_LATCH]), 0), (bool(self.device[REMOTE_LATCH]), self.device[FAULT_COUNT])

    def forwards(self):
        """The latches after all records, from the device; where not all are valid, after the valid ones behind the last bad one."""
        local, remote = self.start()
        (local_end,) = latches(frozenset({local}), self.rows[0], False)
        (remote_end,) = latches(frozenset({remote}), self.rows[1], self.queue)
        return local_end, remote_end

    def pin(self, ends):
        local, remote = ends
        return local and not self.masks & LOCAL_MASK or remote and not self.masks & REMOTE_MASK


# ---- What must occur --------------------------------------------------------


def need(table):
    need_refusals(table)
    need_reading(table)
    need_starts(table)
    need_rows(table)
    need_lines(table)
    table.need("f full run by steps: pulled", "f full run by steps: not pulled", "f empty stretch behind a full run by steps")


def need_refusals(table):
    for name in ("8", "10", "4 for the length"):
        table.need(f"f {name} before 3 at a record", f"f {name} before 4 at a record", f"f {name}, the records are valid")
    table.need("f 8 before 10", "f 8 before 4 for the length", "f 10 before 4 for the length", "f 8, empty stretch", "f 10, empty stretch")
    table.need("f 10 with a one-shot pending", "f 10 with none pending")
    table.need(*(f"f 4 for a length of 4n + {rest}, {n}" for rest in (1, 2, 3) for n in ("n 0", "n above 0")))
    table.need_all("f 3 for another kind, each", OTHER_KINDS)
    table.need(*(f"f 3 for kind {kind}, operands {which}" for kind in KNOWN_OTHERS for which in ("right", "broken")))
    table.need_all("f 4 for kind 5, each c that is no multiple of 32", set(range(256)) - set(range(0, 256, 32)))
    table.need_all("f 4 for kind 6, each b but 0", range(1, 256))
    table.need_all("f 4 for kind 6, each c but 0", range(1, 256))
    for code in (3, 4):
        table.need(*(f"f {code} at record {place} from the end" for place in (1, 2, 3, "4 or more")))
        table.need(f"f {code} at the first record, others behind it", f"f {code} with valid records before it")
        table.need(f"f {code} met before a {7 - code}", f"f {code} at a record that would decide, were it valid")
        table.need(*(f"f {code}, {name} decided, the other not" for name in CHANNELS), f"f {code}, neither decided")
        table.need(*(f"f {code} though T_CRIT_A is sure by the {name} latch" for name in CHANNELS))
        table.need(f"f {code} not read, right before the last read", f"f {code} not read, further in front alone")


def need_reading(table):
    sizes = (1, 2, 3, 4, "5 or more")
    table.need(*(f"f read {size}, {which}" for size in sizes for which in ("all", "not all")))
    table.need(*(f"f read {most} or more" for most in READ_ENDS))
    for queue in QUEUES:
        table.need(*(f"f {queue}, {name} decided last" for name in CHANNELS), f"f {queue}, both decided at one record")
        table.need(*(f"f {queue}, stop: both decided, {where}, {pin}" for where in ("records not read", "at the first record")
                     for pin in ("pulled", "not pulled")))
        table.need(*(f"f {queue}, stop: start, {which}, {pin}" for which in UNDECIDED for pin in ("pulled", "not pulled")))
        table.need(*(f"f {queue}, remote decided {far} further in front than local" for far in ("1 record", "2 records", "3 records or more")))
        table.need(*(f"f {queue}, variant {variant}" for variant in (1, 2, 3)))
    for masks in MASKS.values():
        for local, remote in product((0, 1), repeat=2):
            ends = f"local latch {local}, remote latch {remote}, {masks}"
            table.need(f"f empty stretch: {ends}", f"f decided: {ends}", f"f start reached: {ends}")
        table.need(*(f"f {name} decided last, {masks}" for name in CHANNELS))
    table.need(*(f"f pin sure by the {name} latch, the other channel read for" for name in CHANNELS))


def need_starts(table):
    for latch in (0, 1):
        for name in CHANNELS:
            table.need(f"f decided {name} {latch}, the device has {1 - latch}")
            table.need(f"f start reached, {name} {latch} as the device has it", f"f start reached, {name} not decided, becomes {latch}")
        for count in range(COUNT_MOST + 1):
            table.need(f"f decided, device with remote latch {latch} and fault count {count}")
            table.need(f"f start reached, fault count {count} with remote latch {latch}: another count would change it")
            table.need(f"f start reached, fault count {count} with remote latch {latch}: no count would change it")
            table.need(f"f start reached, queue off, fault count {count} with remote latch {latch}")
    table.need("f start reached, fault count of a single reading above: 2 or 3 sets", "f start reached, fault count of a single reading above: 0 or 1 does not")


def need_rows(table):
    table.need_all("f queue on: rows of remote readings that decide and no end of them does, each", DECIDING)
    table.need_all("f queue on: rows of remote readings that do not decide, each", NOT_DECIDING)
    table.need_all("f queue off: rows of remote readings, each", OFF_ROWS)
    table.need(*(f"f queue on: {words}" for words in NAMED_ROWS.values()))
    table.need(*(f"f queue on: the first of three faults by {reason}" for reason in REASONS))
    table.need(*(f"f queue on: count decided by a reading {where}" for where in FAULT_LINES.values()))


def need_lines(table):
    for name in CHANNELS:
        table.need(f"f {name} set one step above T_CRIT", f"f {name} holds at T_CRIT")
        table.need(f"f {name} cleared one step below limit less hysteresis", f"f {name} holds at limit less hysteresis")
        table.need(f"f {name} limit less hysteresis below the scale: holds at its lower end", f"f {name} T_CRIT 127: holds at 127")
        table.need(*(f"f {name} {what} with hysteresis {h}" for what in ("set", "cleared") for h in (0, 31)))
    table.need("f open diode sets", "f open diode holds, no fault", "f open diode holds, a fault", "f open diode with an offset")
    table.need("f sum held to the upper end sets", "f sum held to the lower end clears", "f decided otherwise without the offset")


# ---- What did ---------------------------------------------------------------


class Soaks:
    """Watches the soaks of one device, and the steps behind them."""

    def __init__(self, table):
        self.table = table
        self.set_device()

    def set_device(self):
        self.ahead = None  # records that steps have still to take, after a soak of them, and the pin that it gave
        self.followed = False  # whether they took all

    def when(self, holds, name):
        if holds:
            self.table.count(name)

    def see(self, device, stretch, result):
        code, pulled, read = result[1], result[2], calls.number(result[3:])
        soak = Soak(device, stretch)
        if (code, pulled, read) != soak.result:
            self.table.wrong.append(
                f"soak: device {calls.hexed(device)}, {calls.stretch_words(stretch)}: "
                f"code {code}, pulled {pulled}, read {read}, must be code {soak.result[0]}, pulled {soak.result[1]}, read {soak.result[2]}")
            return
        self.table.count(f"soak: code {code}")
        ranges.see_alone(self.table, "soak", device, code)
        if soak.early:
            self.see_early(soak)
        elif code:
            self.see_refused(soak, code, read)
        elif not stretch:
            self.see_empty(soak)
        else:
            self.see_read(soak, pulled, read)
        whole = not code and 0 < soak.valid == soak.count <= FOLLOWED_MOST
        self.ahead = (stretch, pulled) if whole else None
        self.followed = False

    def see_step(self, record, result):
        """A step: whether it goes on with the full run of the soak before it."""
        self.followed = False
        if not self.ahead:
            return
        stretch, pulled = self.ahead
        self.ahead = None
        if record != stretch[: calls.RECORD_BYTES] or result[1]:
            return
        if len(stretch) > calls.RECORD_BYTES:
            self.ahead = (stretch[calls.RECORD_BYTES :], pulled)
            return
        self.followed = True
        self.table.count(f"f full run by steps: {'pulled' if pulled else 'not pulled'}")
        if result[2] >> 1 & 1 != pulled:
            self.table.wrong.append(f"soak: pulled {pulled}, but a step for each record ends in the first answer byte {result[2]:02X}")

    # ---- Refusals ----

    def see_early(self, soak):
        name = "4 for the length" if soak.early == 4 else str(soak.early)
        last = judged(soak.record(1)) if soak.count else None
        self.when(last, f"f {name} before {last} at a record")
        self.when(last == 0, f"f {name}, the records are valid")
        self.when(soak.early == 8 and soak.device[CONFIGURATION] & STANDBY, "f 8 before 10")
        self.when(soak.early != 4 and soak.remainder, f"f {name} before 4 for the length")
        self.when(not soak.stretch, f"f {name}, empty stretch")
        if soak.early == 4:
            self.table.count(f"f 4 for a length of 4n + {soak.remainder}, {'n above 0' if soak.count else 'n 0'}")
        if soak.early == 10:
            self.table.count(f"f 10 with {'a one-shot' if soak.device[PENDING] else 'none'} pending")

    def see_refused(self, soak, code, read):
        record, before = soak.record(read), [judged(soak.record(place)) for place in range(read + 1, soak.count + 1)]
        self.see_bad_record(code, record)
        self.table.count(f"f {code} at record {read if read < 4 else '4 or more'} from the end")
        self.when(1 < read == soak.count, f"f {code} at the first record, others behind it")
        self.when(before and not any(before), f"f {code} with valid records before it")
        self.when(7 - code in before, f"f {code} met before a {7 - code}")
        self.when(self.would_decide(soak, record), f"f {code} at a record that would decide, were it valid")
        decided = [channel for channel in (0, 1) if soak.needed[channel]]
        self.table.count(f"f {code}, {CHANNELS[decided[0]]} decided, the other not" if decided else f"f {code}, neither decided")
        for channel in decided:
            self.when(self.sure_by(soak, channel), f"f {code} though T_CRIT_A is sure by the {CHANNELS[channel]} latch")

    def see_bad_record(self, code, record):
        kind, broken = record[0], calls.broken_operands(record)
        if code == 3:
            self.table.count_value("f 3 for another kind, each", kind)
            self.when(kind in KNOWN_OTHERS, f"f 3 for kind {kind}, operands {'broken' if broken else 'right'}")
        elif kind == CONVERSION:
            self.table.count_value("f 4 for kind 5, each c that is no multiple of 32", record[3])
        elif len(broken) == 1:
            self.table.count_value(f"f 4 for kind 6, each {broken} but 0", record[2] or record[3])

    def would_decide(self, soak, record):
        """Whether a refused record, with its operands mended and as 05 or 06, would be the last read."""
        if record[0] in (CONVERSION, CONVERSION_2):
            mended = bytes((CONVERSION, *record[1:3], record[3] & 0xE0))
        elif record[0] in (OPEN_DIODE, OPEN_DIODE_2):
            mended = bytes((OPEN_DIODE, record[1], 0, 0))
        else:
            return False
        rows = (soak.setup.local_look(mended) + soak.rows[0], soak.setup.remote_look(mended) + soak.rows[1])
        return decides(rows[0], False) and decides(rows[1], soak.queue)

    def sure_by(self, soak, channel):
        """Whether a decided channel pulls the pin."""
        ends = [False, False]
        (ends[channel],) = latches(ANY, soak.rows[channel], soak.queue and channel == 1)
        return soak.pin(ends)

    # ---- What is read ----

    def see_empty(self, soak):
        (local, _), (remote, _) = soak.start()
        self.table.count(f"f empty stretch: local latch {local:d}, remote latch {remote:d}, {MASKS[soak.masks]}")
        self.when(self.followed, "f empty stretch behind a full run by steps")

    def see_read(self, soak, pulled, read):
        queue, pin = QUEUES[soak.queue], "pulled" if pulled else "not pulled"
        self.table.count(f"f read {read if read < 5 else '5 or more'}, {'all' if read == soak.count else 'not all'}")
        for most in READ_ENDS:
            self.when(read >= most, f"f read {most} or more")
        self.table.count(f"f {queue}, variant {soak.device[VARIANT]}")
        local, remote = soak.latches
        ends = f"local latch {local:d}, remote latch {remote:d}, {MASKS[soak.masks]}"
        if soak.stop:
            where = "at the first record" if read == soak.count else "records not read"
            self.table.count(f"f {queue}, stop: both decided, {where}, {pin}")
            self.table.count(f"f decided: {ends}")
            self.see_decided(soak, queue)
            self.see_unread(soak, read)
        else:
            which = UNDECIDED[2] if soak.needed == (None, None) else UNDECIDED[soak.needed.index(None)]
            self.table.count(f"f {queue}, stop: start, {which}, {pin}")
            self.table.count(f"f start reached: {ends}")
            self.see_start(soak)
        self.see_row(soak)
        self.see_lines(soak, read)

    def see_unread(self, soak, read):
        """A stretch whose records before those read are judged by nobody."""
        if soak.valid == soak.count:
            return
        near = soak.valid == read
        code = judged(soak.record(soak.valid + 1))
        self.table.count(f"f {code} not read, {'right before the last read' if near else 'further in front alone'}")

    def see_decided(self, soak, queue):
        local, remote = soak.needed
        if local == remote:
            self.table.count(f"f {queue}, both decided at one record")
        else:
            last = int(remote > local)
            self.table.count(f"f {queue}, {CHANNELS[last]} decided last")
            self.table.count(f"f {CHANNELS[last]} decided last, {MASKS[soak.masks]}")
            self.when(self.sure_by(soak, 1 - last), f"f pin sure by the {CHANNELS[1 - last]} latch, the other channel read for")
        far = remote - local
        if far > 0:
            shown = {1: "1 record", 2: "2 records"}.get(far, "3 records or more")
            self.table.count(f"f {queue}, remote decided {shown} further in front than local")
        for name, latch, (was, _) in zip(CHANNELS, soak.latches, soak.start()):
            self.when(latch != was, f"f decided {name} {latch:d}, the device has {was:d}")
        was, count = soak.start()[1]
        self.table.count(f"f decided, device with remote latch {was:d} and fault count {count}")

    def see_start(self, soak):
        """The start reached, and what of the device decides."""
        for channel, name in enumerate(CHANNELS):
            if soak.needed[channel] is None:
                was, latch = soak.start()[channel][0], soak.latches[channel]
                self.when(was == latch, f"f start reached, {name} {latch:d} as the device has it")
                self.table.count(f"f start reached, {name} not decided, becomes {latch:d}")
        if soak.needed[1] is not None:
            return
        was, count = soak.start()[1]
        told = f"fault count {count} with remote latch {was:d}"
        if not soak.queue:
            self.table.count(f"f start reached, queue off, {told}")
            return
        counts = frozenset((was, other) for other in range(COUNT_MOST + 1))
        matters = len(latches(counts, soak.rows[1], True)) == 2
        self.table.count(f"f start reached, {told}: {'another' if matters else 'no'} count would change it")
        if soak.rows[1] == ABOVE and not was:
            self.table.count(f"f start reached, fault count of a single reading above: {'2 or 3 sets' if count >= 2 else '0 or 1 does not'}")

    # ---- Rows and lines of readings ----

    def see_row(self, soak):
        row, far = soak.rows[1], soak.needed[1]
        if not soak.queue:
            for length in range(1, min(len(row), ROW_MOST_OFF) + 1):
                self.table.count_value("f queue off: rows of remote readings, each", row[-length:])
            return
        if far and far <= ROW_MOST:
            self.table.count_value("f queue on: rows of remote readings that decide and no end of them does, each", row[-far:])
        for length in range(1, min(len(row) if far is None else far - 1, ROW_MOST) + 1):
            self.table.count_value("f queue on: rows of remote readings that do not decide, each", row[-length:])
            self.when(row[-length:] in NAMED_ROWS, f"f queue on: {NAMED_ROWS.get(row[-length:])}")
        if far:
            self.when(row[-far:] in NAMED_ROWS, f"f queue on: {NAMED_ROWS.get(row[-far:])}")
        if far == COUNT_MOST and soak.latches[1]:
            reason = soak.setup.reason(soak.record(far))
            self.when(reason in REASONS, f"f queue on: the first of three faults by {reason}")
        if far == COUNT_MOST and row[-2:] == COLD + ABOVE:
            self.see_fault_line(soak.setup, soak.record(far), row[-far])

    def see_fault_line(self, setup, record, look):
        """A reading whose being a fault or none decides."""
        remote = setup.remote(record)
        for name, limit, out in (("high", setup.high, 1), ("low", setup.low, -1)):
            exact = limit if look == CALM else limit + out
            if remote == exact and (name, look) in FAULT_LINES:
                self.table.count(f"f queue on: count decided by a reading {FAULT_LINES[name, look]}")

    def see_lines(self, soak, read):
        setup = soak.setup
        for channel, name in enumerate(CHANNELS):
            far, row = soak.needed[channel], soak.rows[channel]
            place = far or read  # of the record that decides, else of the first
            record, look = soak.record(place), row[-place]
            if name == "local":
                values = degrees(record[1]), setup.local_crit, setup.local_edge, -128, 127
            else:
                values = setup.remote(record), setup.remote_crit, setup.remote_edge, LEAST, 127 * 8
            self.see_line(name, look, bool(far), setup.hysteresis, *values)
        far = soak.needed[1]
        self.see_reading(soak, soak.record(far or read), soak.rows[1][-(far or read)])

    def see_line(self, name, look, decided, hysteresis, reading, crit, edge, least, greatest):
        if look == ABOVE and decided:
            self.when(reading == crit + 1, f"f {name} set one step above T_CRIT")
            self.when(hysteresis in (0, 31), f"f {name} set with hysteresis {hysteresis}")
        elif look in BELOW and decided:
            self.when(reading == edge - 1, f"f {name} cleared one step below limit less hysteresis")
            self.when(hysteresis in (0, 31), f"f {name} cleared with hysteresis {hysteresis}")
        elif look in (WARM, CALM) and not decided:
            self.when(reading == crit, f"f {name} holds at T_CRIT")
            self.when(reading == edge, f"f {name} holds at limit less hysteresis")
            self.when(reading == least and edge < least, f"f {name} limit less hysteresis below the scale: holds at its lower end")
            self.when(reading == crit == greatest, f"f {name} T_CRIT 127: holds at 127")

    def see_reading(self, soak, record, look):
        """The sample of the record that decides the remote channel, else of the first."""
        setup = soak.setup
        if record[0] == OPEN_DIODE:
            self.when(look == ABOVE, "f open diode sets")
            self.when(look in (WARM, CALM), f"f open diode holds, {'a fault' if look == WARM else 'no fault'}")
            self.when(setup.offset, "f open diode with an offset")
            return
        total = setup.total(record)
        self.when(total > MOST and look == ABOVE, "f sum held to the upper end sets")
        self.when(total < LEAST and look in BELOW, "f sum held to the lower end clears")
        setup_without = Setup(soak.device)
        setup_without.offset = 0
        self.when(soak.needed[1] and setup_without.remote_look(record) != look, "f decided otherwise without the offset")
