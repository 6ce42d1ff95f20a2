"""What feeds and runs show of request c: two devices on one bus.

A feed that answers one record shows both devices before and after it. Of each such record it is worked out here whom it names, what the
joined lines are and who answers an alert response; an answer, or a device not named, that says otherwise is wrong.
"""
import calls
import held
import lowbyte
from calls import FIRST, SECOND
from held import CONFIGURATION, HELD, OFFSET, OFFSET_FINE, PENDING, TAKEN
from lowbyte import ALERT_RESPONSE, own_address
from ranges import LOW, LOW_KEPT, PAIRS, READABLE, STANDBY, WRITABLE
from steps import ALERT_MASK, ALERTING, COMPARATOR, eighths

RECEIVE, POWER_ON = 4, 7
OF_SECOND = {8: 5, 9: 6}  # kinds of the second device, and what they are to it
WHICH = ("first", "second")
ORDERS = ("4Ch first", "4Dh first")
BUS_KINDS = lowbyte.BUS_KINDS
STANDINGS = ("answers", "pulls as a comparator", "masked", "comparator, status alone", "quiet")
ANSWERS, COMPARES, QUIET = STANDINGS[0], STANDINGS[1], STANDINGS[4]
LINES = {1: "ALERT", 2: "T_CRIT_A"}
PULLED_BY = ("neither", "the first alone", "the second alone", "both")
MODES = ("awake", "with a one-shot", "asleep")
CONVERSIONS = (5, 6, 8, 9)
NOWHERE = ("0Ch", "00", "another address")
# Events of the other device between a read of 01 and one of 10.
OTHERS = ["conversion taken", "open diode taken", "conversion not taken", "send of 01", "send of 10", "read of status",
          f"write of {lowbyte.ANY_OTHER}", *lowbyte.READS_HIGH, *lowbyte.READS_LOW]


def need(table):
    need_alerts(table)
    need_lines(table)
    need_addresses(table)
    need_conversions(table)
    need_sums(table)
    for which in WHICH:
        need_apart(table, which)
        for name in ("run", "feed"):
            need_records(table, f"{name}, {which} of two")
    table.need(*(f"c power-on restarts both, variants {a} and {b}" for a, b in PAIRS))
    for kind in calls.KINDS:
        table.need(*(f"c kind {kind} behind {carried} carried bytes" for carried in range(calls.RECORD_BYTES)))
        table.need(f"c kind {kind} fed again after 7")
    table.need("c alert response answered behind carried bytes", "c alert response answered when fed again after 7")
    for name in ("run", "feed"):
        need_alone(table, name)


def need_alone(table, name):
    """With one device nobody answers at the other part's address, nor at 00."""
    for kind in BUS_KINDS:
        table.need(*(f"c {name} of one device: {kind} at {where}: not acknowledged" for where in ("the other part's", "00")))
    table.need(*(f"c {name} of one device: variant {variant} answers an alert response" for variant in (1, 2, 3)))


def need_alerts(table):
    for order in ORDERS:
        for lower in STANDINGS:
            table.need(*(f"c alert response, {order}: 4Ch {lower}, 4Dh {higher}" for higher in STANDINGS))
        table.need(f"c alert response, {order}: 4Dh answers right behind 4Ch", f"c alert response, {order}: a third is not acknowledged")
        table.need(f"c alert response, {order}: 4Ch answers, 4Dh keeps pulling", f"c alert response, {order}: masks 4Ch alone")
        table.need(f"c alert response, {order}: 4Dh answers, 4Ch keeps pulling", f"c alert response, {order}: masks 4Dh alone")
    for a, b in PAIRS:
        table.need(*(f"c alert response, variants {a} and {b}: the {which} answers" for which in WHICH))
        table.need(f"c alert response, variants {a} and {b}: none answers")


def need_lines(table):
    for line in LINES.values():
        for by in PULLED_BY:
            table.need(*(f"c {line} pulled by {by}, the record names {named}" for named in ("the first", "the second", "neither")))
        table.need(*(f"c {line} pulled by {by}, released by power-on" for by in PULLED_BY[1:]))
        table.need(*(f"c {line} pulled by the {which} alone, released by its own record" for which in WHICH))
    table.need("c ALERT pulled by the first alone, T_CRIT_A by the second alone")
    table.need("c ALERT pulled by the second alone, T_CRIT_A by the first alone")


def need_addresses(table):
    for kind in BUS_KINDS:
        for address in ("4Ch", "4Dh"):
            for which in WHICH:
                table.need(f"c {kind} at {address}, the {which}: acknowledged", f"c {kind} at {address}, the {which}: not acknowledged")
        table.need(*(f"c {kind} at {nowhere}: not acknowledged" for nowhere in NOWHERE[kind == "receive" :]))
    for which in WHICH:
        table.need_all(f"c FF read at the {which}, each variant", (1, 2, 3))
        table.need_all(f"c registers read at the {which}, each of R", READABLE)
        table.need_all(f"c registers written at the {which}, each of W", WRITABLE)


def need_conversions(table):
    for kind in CONVERSIONS:
        for own in MODES:
            table.need(*(f"c kind {kind}: {own}, the other {other}" for other in MODES))
        table.need(f"c kind {kind}: fault count moves, the other's is another", f"c kind {kind}: remote latch set, the other's clear")
        table.need(f"c kind {kind}: sets status, the other's is 0", f"c kind {kind}: keeps the other's low byte")
    for kind in (5, 8):
        table.need(f"c kind {kind}: remote latch cleared, the other's set", f"c kind {kind}: local latch cleared, the other's set")


def need_sums(table):
    for kind in (5, 8):
        table.need(*(f"c kind {kind}: held at the {end} end" for end in held.ENDS))
        table.need(f"c kind {kind}: held, not by the other's offset", f"c kind {kind}: not held, would be by the other's offset")
        table.need(f"c kind {kind}: not taken, sum past an end: not shown")
    table.need(*(f"c kind {kind}: open diode with a largest offset: not shown" for kind in (6, 9)))
    for which in WHICH:
        table.need(*(f"c kind {kind} right behind a held sum of the {which}: not shown" for kind in calls.KINDS))


def need_apart(table, which):
    """Where the device named and the other stand apart, and only the one named may move."""
    table.need(f"c receive at the {which}: by its pointer, the other's is another")
    table.need(f"c read of 01 at the {which}: keeps, the other keeps another", f"c read of 01 at the {which}: keeps, the other keeps nothing")
    table.need(f"c read of 10 at the {which}: gives the kept byte, the other keeps another")
    table.need(f"c read of 10 at the {which}: gives the latest, the other keeps another")
    table.need(f"c status read at the {which}: the other's status stays", f"c status read at the {which}: masks it alone")
    table.need(f"c one-shot asked of the {which}: the other asleep", f"c standby left by the {which}: the other's one-shot stays")
    table.need(f"c standby entered by the {which}: the other awake")


def need_records(table, name):
    table.need(*(f"b {name}: held at the {end} end" for end in held.ENDS), *(f"b {name}: sum {end} not shown" for end in held.LARGEST))
    table.need(*(f"a {name}: 01 by a {first}, then 10 by a {way}" for first in lowbyte.WAYS for way in lowbyte.WAYS))
    table.need(*(f"a {name}: {sort} of the other between 01 and 10" for sort in OTHERS))


def pins(device):
    """The lines that a device pulls, by P7 and P8."""
    configuration = device[CONFIGURATION]
    bits = device[7] if device[24] & COMPARATOR else device[3]
    alert = bits & ALERTING and not configuration & ALERT_MASK
    crit = device[9] and not configuration & 0x04 or device[10] and not configuration & 0x10
    return (1 if alert else 0) | (2 if crit else 0)


def standing(device):
    """How a device stands at an alert response."""
    if device[24] & COMPARATOR:
        if device[CONFIGURATION] & ALERT_MASK:
            return "masked" if device[7] & ALERTING else QUIET
        if device[7] & ALERTING:
            return COMPARES
        return "comparator, status alone" if device[3] & ALERTING else QUIET
    if not device[3] & ALERTING:
        return QUIET
    return "masked" if device[CONFIGURATION] & ALERT_MASK else ANSWERS


def mode(device):
    if not device[CONFIGURATION] & STANDBY:
        return "awake"
    return "with a one-shot" if device[PENDING] else "asleep"


def offset_of(device):
    return eighths(device[OFFSET], device[OFFSET_FINE])


class Records:
    """Watches feeds that answer one record of two devices: both before and after, and the answer."""

    def __init__(self, table):
        self.table = table
        self.set_reader()

    def set_reader(self):
        """A reader that was set, or a fresh one."""
        self.behind = None  # the device whose sum was held in the record before, and that record
        self.answered = []  # who answered the alert responses right before, 0 for 4Ch

    def when(self, holds, name):
        if holds:
            self.table.count(name)

    def see(self, record, before, after, first, second):
        """A record and both devices before and after it, and its two answer bytes."""
        self.record = record
        named = self.named(record, before)
        self.check(record, named, before, after, first, second)
        self.see_lines(named, before, after)
        kind = record[0]
        if kind == POWER_ON:
            self.see_power_on(before, after)
        elif kind > RECEIVE:
            self.see_conversion(kind, named, before, after, first)
        elif kind == RECEIVE and record[1] == ALERT_RESPONSE:
            self.see_alert(named, before, after)
        else:
            self.see_bus(record, named, before, after, first, second)
        if kind != RECEIVE or record[1] != ALERT_RESPONSE:
            self.answered = []
        self.see_behind(kind, named, first)

    def named(self, record, before):
        """The device that a record names, 0 or 1, or None: for a power-on, and where there is none."""
        kind, address = record[0], record[1]
        if kind > POWER_ON:
            return 1
        if kind > RECEIVE:
            return None if kind == POWER_ON else 0
        addresses = [own_address(device[0]) for device in before]
        if kind == RECEIVE and address == ALERT_RESPONSE:
            willing = [(addresses[n], n) for n in (0, 1) if standing(before[n]) == ANSWERS]
            return min(willing)[1] if willing else None
        return addresses.index(address) if address in addresses else None

    def check(self, record, named, before, after, first, second):
        """The joined lines, the device not named, who answers an alert response, and that a power-on restarts both."""
        due = pins(after[0]) | pins(after[1])
        if first & 3 != due:
            self.wrong(record, f"D0 and D1 are {first & 3:02b}, the joined lines {due:02b}")
        if record[0] == POWER_ON:
            self.check_restarted(record, after)
            return
        for n in (0, 1):
            if n != named and before[n] != after[n]:
                self.wrong(record, f"the {WHICH[n]} is not named and changes")
        if named is None and (first & 4 or second):
            self.wrong(record, f"nobody answers, but {first & 4:02X} {second:02X} is given")
        elif record[0] == RECEIVE and record[1] == ALERT_RESPONSE and named is not None:
            byte = own_address(before[named][0]) * 2 + 1
            if not first & 4 or second != byte:
                self.wrong(record, f"answers {first & 4:02X} {second:02X}, must be 04 {byte:02X}")

    def check_restarted(self, record, after):
        """Pointer, one-shot, status, readings, live byte, fault count, latches and kept low byte are 0."""
        for which, device in zip(WHICH, after):
            if any(device[1:CONFIGURATION]) or any(device[LOW:]):
                self.wrong(record, f"the {which} does not restart")

    def wrong(self, record, words):
        self.table.wrong.append(f"two devices: {calls.event_words(record)}: {words}")

    # ---- The joined lines ----

    def see_lines(self, named, before, after):
        one, two = pins(after[0]), pins(after[1])
        was = [pins(before[0]), pins(before[1])]
        restarts = self.record[0] == POWER_ON
        for bit, line in LINES.items():
            by = (1 if one & bit else 0) | (2 if two & bit else 0)
            before_by = (1 if was[0] & bit else 0) | (2 if was[1] & bit else 0)
            if restarts:
                self.when(before_by, f"c {line} pulled by {PULLED_BY[before_by]}, released by power-on")
                continue
            words = "neither" if named is None else f"the {WHICH[named]}"
            self.table.count(f"c {line} pulled by {PULLED_BY[by]}, the record names {words}")
            released = named is not None and not by and before_by == 1 << named
            self.when(released, f"c {line} pulled by the {WHICH[named or 0]} alone, released by its own record")
        self.when((one, two) == (1, 2), "c ALERT pulled by the first alone, T_CRIT_A by the second alone")
        self.when((one, two) == (2, 1), "c ALERT pulled by the second alone, T_CRIT_A by the first alone")

    def see_power_on(self, before, after):
        self.when(before[0] != after[0] and before[1] != after[1], f"c power-on restarts both, variants {before[0][0]} and {before[1][0]}")

    # ---- The alert response ----

    def see_alert(self, named, before, after):
        lower = 0 if before[0][0] == 1 else 1  # the device at 4Ch
        order = f"c alert response, {ORDERS[lower]}"
        self.table.count(f"{order}: 4Ch {standing(before[lower])}, 4Dh {standing(before[1 - lower])}")
        who = "none answers" if named is None else f"the {WHICH[named]} answers"
        self.table.count(f"c alert response, variants {before[0][0]} and {before[1][0]}: {who}")
        if named is None:
            self.when(self.answered == [0, 1], f"{order}: a third is not acknowledged")
            self.answered = []
            return
        place = 0 if named == lower else 1
        other = after[1 - named]
        own, others = (("4Ch", "4Dh"), ("4Dh", "4Ch"))[place]
        self.when(pins(other) & 1, f"{order}: {own} answers, {others} keeps pulling")
        masked = after[named][CONFIGURATION] & ALERT_MASK and not other[CONFIGURATION] & ALERT_MASK
        self.when(masked, f"{order}: masks {own} alone")
        self.when(self.answered == [0] and place == 1, f"{order}: 4Dh answers right behind 4Ch")
        self.answered = self.answered + [place]

    # ---- Addresses, and what each device has of its own ----

    def see_bus(self, record, named, before, after, first, second):
        kind, address = BUS_KINDS[record[0] - 1], record[1]
        if named is None:
            nowhere = {ALERT_RESPONSE: "0Ch", 0: "00"}.get(address, "another address")
            self.when(not first & 4, f"c {kind} at {nowhere}: not acknowledged")
            return
        acknowledged = "acknowledged" if first & 4 else "not acknowledged"
        self.table.count(f"c {kind} at {address:02X}h, the {WHICH[named]}: {acknowledged}")
        if not first & 4:
            return
        own, other = before[named], before[1 - named]
        if kind == "write":
            self.table.count_value(f"c registers written at the {WHICH[named]}, each of W", record[2])
            self.see_write(record, named, own, other, after[named])
        elif kind != "send":
            register = record[2] if kind == "read" else own[1]
            self.see_read(register, named, own, other, after, second)
        self.when(kind == "receive" and own[1] != other[1], f"c receive at the {WHICH[named]}: by its pointer, the other's is another")

    def see_write(self, record, named, own, other, after):
        which, asleep = WHICH[named], other[CONFIGURATION] & STANDBY and not other[PENDING]
        if record[2] == 0x0F:
            self.when(after[PENDING] and asleep, f"c one-shot asked of the {which}: the other asleep")
        elif record[2] == 0x09:
            was, becomes = own[CONFIGURATION] & STANDBY, after[CONFIGURATION] & STANDBY
            self.when(was and not becomes and other[PENDING], f"c standby left by the {which}: the other's one-shot stays")
            awake = not other[CONFIGURATION] & STANDBY
            self.when(becomes and not was and awake, f"c standby entered by the {which}: the other awake")

    def see_read(self, register, named, own, other, after, value):
        which = WHICH[named]
        self.table.count_value(f"c registers read at the {which}, each of R", register)
        if register == 0x01:
            kept = f"c read of 01 at the {which}: keeps, the other keeps"
            self.when(other[LOW_KEPT] and other[LOW] != after[named][LOW], f"{kept} another")
            self.when(not other[LOW_KEPT], f"{kept} nothing")
        elif register == 0x10:
            apart = other[LOW_KEPT] and other[LOW] != value
            gives = "kept byte" if own[LOW_KEPT] else "latest"
            self.when(apart, f"c read of 10 at the {which}: gives the {gives}, the other keeps another")
        elif register == 0x02:
            self.when(other[3], f"c status read at the {which}: the other's status stays")
            masks = after[named][CONFIGURATION] & ~own[CONFIGURATION] & ALERT_MASK and not other[CONFIGURATION] & ALERT_MASK
            self.when(masks, f"c status read at the {which}: masks it alone")
        elif register == 0xFF:
            self.table.count_value(f"c FF read at the {which}, each variant", own[0])

    # ---- Conversions ----

    def see_conversion(self, kind, named, before, after, first):
        own, other = before[named], before[1 - named]
        row = f"c kind {kind}"
        self.table.count(f"{row}: {mode(own)}, the other {mode(other)}")
        self.see_sum(kind, own, other, first)
        if not first & TAKEN:
            return
        becomes = after[named]
        self.when(own[8] != becomes[8] != other[8], f"{row}: fault count moves, the other's is another")
        self.when(becomes[10] and not own[10] and not other[10], f"{row}: remote latch set, the other's clear")
        self.when(becomes[3] and not other[3], f"{row}: sets status, the other's is 0")
        self.when(other[LOW_KEPT] and other[LOW] != lowbyte.low_byte(becomes), f"{row}: keeps the other's low byte")
        if kind in (5, 8):
            self.when(own[10] and not becomes[10] and other[10], f"{row}: remote latch cleared, the other's set")
            self.when(own[9] and not becomes[9] and other[9], f"{row}: local latch cleared, the other's set")

    def see_sum(self, kind, own, other, first):
        row = f"c kind {kind}"
        if kind in (6, 9):
            self.when(first & TAKEN and offset_of(own) in held.LARGEST, f"{row}: open diode with a largest offset: not shown")
            return
        sample = eighths(self.record[2], self.record[3])
        end, by_other = held.end_past(sample + offset_of(own)), held.end_past(sample + offset_of(other))
        if not first & TAKEN:
            self.when(end, f"{row}: not taken, sum past an end: not shown")
            return
        self.when(end and first & HELD, f"{row}: held at the {end} end")
        self.when(end and not by_other, f"{row}: held, not by the other's offset")
        self.when(by_other and not end, f"{row}: not held, would be by the other's offset")

    def see_behind(self, kind, named, first):
        """A record right behind one whose sum was held."""
        if self.behind is not None and not first & HELD:
            self.table.count(f"c kind {kind} right behind a held sum of the {WHICH[self.behind]}: not shown")
        self.behind = named if first & HELD else None


class LowBytes(lowbyte.Records):
    """Request a's reads of one device of two; sorts of its own events are counted where there is one device."""

    def count(self, what):
        row = f"a {self.name}: {what}"
        if row in self.table.counts:
            self.table.count(row)


class Followed:
    """Follows what decides D4 and a kept low byte, of both devices, through the records that a run or feeds answered."""

    def __init__(self, table, name):
        self.table = table
        self.name = name
        self.low = [LowBytes(table, f"{name}, {which} of two") for which in WHICH]
        self.sums = [held.Records(table, f"{name}, {which} of two") for which in WHICH]

    def begin(self, devices):
        """Both devices before the first record."""
        self.own = [own_address(device[0]) for device in devices]
        for low, sums, device in zip(self.low, self.sums, devices):
            low.begin(device[0], device[1])
            sums.begin(device)

    def see(self, record, first):
        """An answered record."""
        kind, address = record[0], record[1]
        if kind == POWER_ON:
            self.see_power_on(record, first)
            return
        record = bytes((OF_SECOND.get(kind, kind),)) + record[1:]
        if kind > RECEIVE:
            named = 1 if kind > POWER_ON else 0
        elif address in self.own:
            named = self.own.index(address)
        else:
            self.see_nobody(record, first)
            return
        low = self.low[named]
        sort = lowbyte.sort_of(record, low.own, low.pointer, first)
        self.low[1 - named].between.add(f"{sort} of the other")
        low.see(record, first)
        self.sums[named].see(record, first)

    def see_power_on(self, record, first):
        for low, sums in zip(self.low, self.sums):
            low.see(record, first)
            sums.see(record, first)

    def see_nobody(self, record, first):
        """At an address of neither, or an alert response: D4 never stands."""
        if first & held.FROM_HELD:
            self.table.wrong.append(held.wrong(self.name, record, "at neither device", first, 0))


def see_run(table, capture, answered):
    """A run of two devices, from its capture and the records that it answered, each with its first answer byte."""
    followed = Followed(table, "run")
    followed.begin([capture[1:2] + bytes(calls.DEVICE_BYTES - 1), capture[2:3] + bytes(calls.DEVICE_BYTES - 1)])
    for record, first in answered:
        followed.see(record, first)


def see_alone(table, name, variant, answered):
    """Records that a run or a feed of one device answered."""
    own = own_address(variant)
    elsewhere = {0x4C ^ 0x4D ^ own: "the other part's", 0: "00"}
    for record, first in answered:
        if record[0] > RECEIVE or record[1] == own:
            continue
        if record[0] == RECEIVE and record[1] == ALERT_RESPONSE:
            if first & 4:
                table.count(f"c {name} of one device: variant {variant} answers an alert response")
        elif first & 4:
            table.wrong.append(f"{name} of one device: {calls.event_words(record)}: acknowledged, nobody is there")
        elif record[1] in elsewhere:
            table.count(f"c {name} of one device: {BUS_KINDS[record[0] - 1]} at {elsewhere[record[1]]}: not acknowledged")


def devices_of(reader):
    return [reader[FIRST:SECOND], reader[SECOND:]]


class Feeds(Followed):
    """Follows the feeds of one reader of two devices."""

    def __init__(self, table):
        super().__init__(table, "feed")
        self.records = Records(table)
        self.ended = None  # the code of the last feed with bytes

    def set_reader(self, reader):
        self.ended = None
        for low, device in zip(self.low, devices_of(reader)):
            low.first = "set" if device[LOW_KEPT] else None
            low.between, low.given, low.lost = set(), False, False
        self.records.set_reader()

    def see_feed(self, before, part, code, answered, after, second_bytes):
        """A feed whose reader was within its ranges and held no code."""
        if answered:
            self.see_answered(before, answered, after, second_bytes)
        if part:
            self.ended = code

    def see_answered(self, before, answered, after, second_bytes):
        complete = before[0] == calls.header_bytes(2)
        devices = devices_of(before)
        if before[0] < 3:
            devices[1] = after[SECOND : SECOND + 1] + bytes(calls.DEVICE_BYTES - 1)
            self.low[1].first = None
        if before[0] < 2:
            devices[0] = after[FIRST : FIRST + 1] + bytes(calls.DEVICE_BYTES - 1)
            self.low[0].first = None
        self.begin(devices)
        for record, first in answered:
            self.see(record, first)
        if complete:
            self.see_first(before[9], *answered[0])
        if complete and len(answered) == 1:
            record, first = answered[0]
            self.records.see(record, devices, devices_of(after), first, second_bytes[0])
        else:
            self.records.set_reader()

    def see_first(self, carried, record, first):
        """The first record that a feed behind the header answered, so many of its bytes being carried."""
        alert = record[0] == RECEIVE and record[1] == ALERT_RESPONSE and first & 4
        if self.ended == 7:
            self.table.count(f"c kind {record[0]} fed again after 7")
        else:
            self.table.count(f"c kind {record[0]} behind {carried} carried bytes")
        if alert and self.ended == 7:
            self.table.count("c alert response answered when fed again after 7")
        elif alert and carried:
            self.table.count("c alert response answered behind carried bytes")
