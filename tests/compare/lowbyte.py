"""What steps, feeds and runs show of request a: a read of 01 keeps the low byte, the next read of 10 gives it and lets go."""
import calls
import ranges
from ranges import FIRST, LOW, LOW_BYTES, LOW_KEPT

HIGH_BYTE, STATUS, LOW_BYTE = 0x01, 0x02, 0x10
ALERT_RESPONSE = 0x0C
READER_LOW_KEPT, READER_POINTER = FIRST + LOW_KEPT, FIRST + 1  # where a reader has these fields of its first device
BUS_KINDS = ("write", "read", "send", "receive")
WAYS = ("read", "receive")
ANY_OTHER = "another register"
PLACES = ("01", "10", ANY_OTHER)
READS_HIGH = {f"{way} of 01": way for way in WAYS}
READS_LOW = {f"{way} of 10": way for way in WAYS}


def idle_sorts():
    """The sorts of answered event that neither keep a low byte nor let one go, as `sort_of` names them."""
    sorts = [f"{name} {taken}" for name in ("conversion", "open diode") for taken in ("taken", "not taken")]
    sorts += [f"{name} of {place} at another address" for name in BUS_KINDS for place in PLACES]
    sorts += [f"alert response {answer}, pointer at {place}" for answer in ("acknowledged", "not acknowledged") for place in PLACES]
    sorts += [f"send of {place}" for place in PLACES]
    sorts += [f"{way} of {place}" for way in WAYS for place in ("status", ANY_OTHER)]
    sorts += [f"{name} of {ANY_OTHER} refused" for name in BUS_KINDS]
    return sorts + [f"write of {ANY_OTHER}", "write of 01 refused", "write of 10 refused"]


IDLE = idle_sorts()


def need(table):
    for way in WAYS:
        table.need(f"a read of 01 keeps, by a {way}", f"a read of 01 keeps 0, by a {way}", f"a read of 01 again keeps anew, by a {way}")
        table.need(f"a kept byte read at 10, another than the latest, by a {way}")
        table.need(f"a kept byte read at 10, the same as the latest, by a {way}")
        table.need(f"a kept 0 read at 10, the latest not 0, by a {way}", f"a kept byte not 0 read at 10, the latest 0, by a {way}")
        table.need(f"a read of 10 with nothing kept gives the latest, by a {way}")
        table.need(f"a second read of 10 gives the latest, another than the kept byte, by a {way}")
        table.need(f"a read of 10 after a power-on gives the latest, another than the kept byte, by a {way}")
        table.need(*(f"a pair by a {first} and a {way}: of the first reading, not of the latest" for first in WAYS))
    table.need_all("a low byte kept at a read of 01, each of eight", LOW_BYTES)
    table.need_all("a kept byte read at 10, another than the latest, each of eight", LOW_BYTES)
    table.need("a power-on lets a byte go", "a power-on lets a kept 0 go", "a power-on with nothing kept")
    for sort in IDLE + ["record refused with 3", "record refused with 4"]:
        table.need(f"a {sort} leaves a kept byte", f"a {sort} keeps nothing")
    for name in ("run", "feed"):
        need_records(table, name)
    need_feeds(table)


def need_records(table, name):
    table.need(*(f"a {name}: 01 by a {first}, then 10 by a {way}" for first in WAYS for way in WAYS))
    table.need(*(f"a {name}: {sort} between 01 and 10" for sort in IDLE))
    table.need(f"a {name}: 01 read again before 10", f"a {name}: power-on between 01 and 10")
    table.need(f"a {name}: second read of 10", f"a {name}: 10 read with nothing kept")


def need_feeds(table):
    table.need("a feed: cut between 01 and 10", "a feed: 7 between 01 and 10")
    table.need(*(f"a feed: cut after {carried} bytes of the record that reads 10" for carried in range(calls.RECORD_BYTES)))
    table.need("a feed: 7 at a read of 01 keeps nothing", "a feed: 7 at a read of 10 leaves a kept byte")
    table.need("a feed: byte kept in a reader that was set, read at 10", "a feed: a variant byte lets go")


def low_byte(device):
    """The low byte of a device's remote reading."""
    return ranges.remote_reading(device) % 8 * 32


def high_byte(device):
    return ranges.remote_reading(device) // 8 % 256


def own_address(variant):
    return 0x4C if variant == 1 else 0x4D


def sort_of(event, own, pointer, first):
    """The sort of an answered event, from the device's address, the pointer before it and the first answer byte."""
    kind, address, acknowledged, taken = event[0], event[1], first & 4, first & 8
    if kind == 7:
        return "power-on"
    if kind >= 5:
        return f"{'conversion' if kind == 5 else 'open diode'} {'taken' if taken else 'not taken'}"
    register = pointer if kind == 4 else event[2]
    place = {HIGH_BYTE: "01", LOW_BYTE: "10"}.get(register, ANY_OTHER)
    if kind == 4 and address == ALERT_RESPONSE:
        return f"alert response {'acknowledged' if acknowledged else 'not acknowledged'}, pointer at {place}"
    name = BUS_KINDS[kind - 1]
    if address != own:
        return f"{name} of {place} at another address"
    if not acknowledged:
        return f"{name} of {place} refused"
    return f"{name} of {'status' if register == STATUS and name in WAYS else place}"


class Steps:
    """Watches the steps on one device."""

    def __init__(self, table):
        self.table = table
        self.set_device()

    def set_device(self):
        self.pair = None  # how 01 was read, the device then and the byte given, where a read of 01 was seen
        self.given = None  # the kept byte that the last read of 10 gave
        self.lost = None  # the kept byte that a power-on let go

    def when(self, holds, name):
        if holds:
            self.table.count(name)

    def see_refused(self, code, before, after):
        self.see_idle(f"record refused with {code}", before, after)

    def see(self, event, before, after, result):
        sort = sort_of(event, own_address(before[0]), before[1], result[2])
        if sort in READS_HIGH:
            self.see_keep(READS_HIGH[sort], before, after, result[3])
        elif sort in READS_LOW:
            self.see_low_read(READS_LOW[sort], before, after, result[3])
        elif sort == "power-on":
            self.see_power_on(before, after)
        else:
            self.see_idle(sort, before, after)

    def see_idle(self, sort, before, after):
        """A kept byte counts where it is another than the latest: only there would keeping anew show."""
        if after[LOW:] != before[LOW:]:
            return
        if before[LOW_KEPT]:
            self.when(before[LOW] != low_byte(after), f"a {sort} leaves a kept byte")
        else:
            self.table.count(f"a {sort} keeps nothing")

    def see_keep(self, way, before, after, value):
        self.pair = (way, before, value)
        self.given = self.lost = None
        latest = low_byte(before)
        if not after[LOW_KEPT] or after[LOW] != latest:
            return
        self.table.count_value("a low byte kept at a read of 01, each of eight", latest)
        self.when(not before[LOW_KEPT], f"a read of 01 keeps, by a {way}")
        self.when(before[LOW_KEPT] and before[LOW] != latest, f"a read of 01 again keeps anew, by a {way}")
        self.when(latest == 0, f"a read of 01 keeps 0, by a {way}")

    def see_low_read(self, way, before, after, value):
        if after[LOW_KEPT] or after[LOW]:
            return
        if before[LOW_KEPT]:
            self.see_kept_read(way, before, value)
        else:
            self.see_latest_read(way, before, value)
        self.given = before[LOW] if before[LOW_KEPT] else None
        self.pair = self.lost = None

    def see_kept_read(self, way, before, value):
        kept, latest = before[LOW], low_byte(before)
        if value != kept:
            return
        if kept == latest:
            self.table.count(f"a kept byte read at 10, the same as the latest, by a {way}")
            return
        self.table.count(f"a kept byte read at 10, another than the latest, by a {way}")
        self.table.count_value("a kept byte read at 10, another than the latest, each of eight", kept)
        self.when(kept == 0, f"a kept 0 read at 10, the latest not 0, by a {way}")
        self.when(latest == 0, f"a kept byte not 0 read at 10, the latest 0, by a {way}")
        if self.pair:
            first, then, high = self.pair
            of_one = (high, value) == (high_byte(then), low_byte(then))
            self.when(of_one, f"a pair by a {first} and a {way}: of the first reading, not of the latest")

    def see_latest_read(self, way, before, value):
        latest = low_byte(before)
        if value != latest:
            return
        self.when(latest, f"a read of 10 with nothing kept gives the latest, by a {way}")
        for kept, which in ((self.given, "a second read of 10"), (self.lost, "a read of 10 after a power-on")):
            self.when(kept not in (None, latest), f"{which} gives the latest, another than the kept byte, by a {way}")

    def see_power_on(self, before, after):
        if after[LOW_KEPT] or after[LOW]:
            return
        self.when(before[LOW_KEPT] and before[LOW], "a power-on lets a byte go")
        self.when(before[LOW_KEPT] and not before[LOW], "a power-on lets a kept 0 go")
        self.when(not before[LOW_KEPT], "a power-on with nothing kept")
        self.lost = before[LOW] if before[LOW_KEPT] else None
        self.pair = self.given = None


class Records:
    """Follows the records that a run, or the feeds of one reader, answered: from a read of 01 to the next read of 10."""

    def __init__(self, table, name):
        self.table = table
        self.name = name
        self.first = None  # how 01 was read, or "set" for a reader that was set with a byte kept; None where nothing is kept
        self.between = set()  # the sorts of event since
        self.given = False  # whether the last read of 10 gave a kept byte, and 01 was not read since
        self.lost = False  # whether a power-on came after a read of 01, and neither 01 nor 10 was read since

    def count(self, what):
        self.table.count(f"a {self.name}: {what}")

    def begin(self, variant, pointer):
        self.own = own_address(variant)
        self.pointer = pointer

    def see(self, record, first_answer):
        """An answered record; whether it reads 10."""
        sort = sort_of(record, self.own, self.pointer, first_answer)
        self.move_pointer(record, first_answer)
        if sort in READS_HIGH:
            self.see_keep(READS_HIGH[sort])
        elif sort in READS_LOW:
            self.see_low_read(READS_LOW[sort])
        elif sort == "power-on":
            self.see_power_on()
        else:
            self.between.add(sort)
        return sort in READS_LOW

    def move_pointer(self, record, first_answer):
        if record[0] == 7:
            self.pointer = 0
        elif record[0] <= 3 and first_answer & 4:
            self.pointer = record[2]

    def see_keep(self, way):
        if self.first in WAYS:
            self.count("01 read again before 10")
        self.first, self.between, self.given, self.lost = way, set(), False, False

    def see_low_read(self, way):
        if self.first in WAYS:
            self.count(f"01 by a {self.first}, then 10 by a {way}")
            for sort in self.between:
                self.count(f"{sort} between 01 and 10")
        elif self.first:
            self.count("byte kept in a reader that was set, read at 10")
        else:
            self.count("second read of 10" if self.given else "10 read with nothing kept")
        if self.lost:
            self.count("power-on between 01 and 10")
        self.given = self.first is not None
        self.first, self.lost = None, False

    def see_power_on(self):
        self.lost |= self.first in WAYS
        self.first, self.given = None, False


def see_run(table, variant, answered):
    """A run of one device, from the records that it answered, each with its first answer byte."""
    records = Records(table, "run")
    records.begin(variant, 0)
    for record, first_answer in answered:
        records.see(record, first_answer)


class Feeds(Records):
    """Follows the feeds of one reader of one device."""

    def __init__(self, table):
        super().__init__(table, "feed")
        self.cut = False  # whether the last feed with bytes ended with code 0

    def set_reader(self, reader):
        """A reader that was set, or a fresh one."""
        self.first = "set" if reader[READER_LOW_KEPT] else None
        self.between, self.given, self.lost, self.cut = set(), False, False, False

    def see_feed(self, before, part, code, consumed, answered, after):
        """A feed whose reader was within its ranges and held no code."""
        if before[0] < 2 <= after[0]:
            self.see_variant(before, after)
        self.between.add("cut")
        self.begin(after[FIRST], before[READER_POINTER] if before[0] >= 2 else 0)
        within = self.cut and before[0] == calls.header_bytes(1)
        for number, (record, first_answer) in enumerate(answered):
            reads = self.see(record, first_answer)
            if reads and number == 0 and within and before[READER_LOW_KEPT]:
                self.count(f"cut after {before[9]} bytes of the record that reads 10")
        if code == 7:
            self.see_no_room(after[10:13] + part[consumed : consumed + 1], after[FIRST:])
        if part:
            self.cut = code == 0

    def see_variant(self, before, after):
        if before[READER_LOW_KEPT] and after[0] < calls.header_bytes(1) and not after[READER_LOW_KEPT]:
            self.count("a variant byte lets go")
        self.first = None

    def see_no_room(self, record, device):
        self.between.add("7")
        if record[0] not in (2, 4) or record[1] != self.own:
            return
        register = self.pointer if record[0] == 4 else record[2]
        if register == HIGH_BYTE and not device[LOW_KEPT]:
            self.count("7 at a read of 01 keeps nothing")
        if register == LOW_BYTE and device[LOW_KEPT] and device[LOW] != low_byte(device):
            self.count("7 at a read of 10 leaves a kept byte")
