"""What single steps show of the rulings P1 to P12: the device before and after, and the answer."""
import calls
import lowbyte
import ranges
from lowbyte import own_address
from ranges import KEPT, READABLE, SETTINGS, STANDBY, WRITABLE

BITS = {0x40: "LHIGH", 0x20: "LLOW", 0x10: "RHIGH", 0x08: "RLOW", 0x04: "OPEN", 0x02: "RCRIT", 0x01: "LCRIT"}
REMOTE_BITS = {0x10: "the high limit", 0x08: "the low limit", 0x02: "T_CRIT"}
ALERTING = 0x7B
ALERT_MASK, QUEUE, COMPARATOR = 0x80, 0x01, 0x01
LIMITS = ("local high", "local low", "local T_CRIT", "remote high", "remote low", "remote T_CRIT")  # in the order of `see_limits`
PLACES = {0: "at the limit", 1: "one step out", 2: "two steps out", -1: "one step within", -2: "two steps within"}
NAMED_SUMS = {1023: "1023", 1024: "1024 held to 1023", -1024: "-1024", -1025: "-1025 held to -1024"}
OTHER_ADDRESSES = ("0Ch", "the other part's", "any other")

RULINGS = """
P1 sample 80h 00h
P1 sample FFh E0h
P1 sample 7Fh E0h
P1 negative offset
P1 offset with a low byte
P2 sum in the middle
P2 sum 1023
P2 sum 1024 held to 1023
P2 sum far above held to 1023
P2 sum -1024
P2 sum -1025 held to -1024
P2 sum far below held to -1024
P2 open diode with an offset reads 1016
P2 open diode sets OPEN
P4 count 0 to 0
P4 count 0 to 1
P4 count 1 to 2
P4 count 2 to 3
P4 count 3 to 3
P4 count 1 to 0
P4 count 2 to 0
P4 count 3 to 0
P4 count moved with D0 clear
P4 fault run of 1
P4 fault run of 2
P4 fault run of 3
P4 fault run of 4 or more
P4 D0 set, first in a row held back
P4 D0 set, second in a row held back
P4 D0 set, third in a row goes live
P4 D0 clear, first in a row goes live
P4 D0 set, goes live by the high limit alone
P4 D0 set, goes live by the low limit alone
P4 D0 set, goes live by T_CRIT alone
P4 D0 set, OPEN live below a count of 3
P4 D0 set, local bits live below a count of 3
P5 live bit gone, status keeps it
P5 status bit back at the next conversion after a status read
P6 by a read, mask set
P6 by a receive, mask set
P6 mask was set already
P6 status 0
P6 OPEN alone, mask left
P6 comparator mode, mask left
P6 status read leaves a latch set
P7 pulled by status
P7 pulled by status, live byte clear
P7 pulled by the live byte in comparator mode
P7 comparator mode, status set, live byte clear: not pulled
P7 masked: not pulled
P7 OPEN alone: not pulled
P7 pulled at once when the mask is cleared
P8 local latch set
P8 local latch cleared by a conversion
P8 local latch cleared by power-on
P8 local latch holds at limit minus hysteresis
P8 local latch clears one below limit minus hysteresis
P8 local latch holds between the two
P8 local limit minus hysteresis below -128, latch holds
P8 local latch holds after LCRIT has gone
P8 remote latch set
P8 remote latch cleared by a conversion
P8 remote latch cleared by power-on
P8 remote latch holds at limit minus hysteresis
P8 remote latch clears one below limit minus hysteresis
P8 remote latch holds between the two
P8 remote limit minus hysteresis below -128, latch holds
P8 remote latch holds after RCRIT has gone
P8 RCRIT held back by the queue, latch stays clear
P8 RCRIT held back by the queue, latch stays set
P8 T_CRIT_A by the local latch alone
P8 T_CRIT_A by the remote latch alone
P8 T_CRIT_A by both latches
P8 local latch masked, not pulled
P8 remote latch masked, not pulled
P8 both latches masked, not pulled
P9 answered by variant 1
P9 answered by variant 2
P9 answered by variant 3
P9 mask set by the alert response
P9 not answered: masked
P9 not answered: no alerting bit
P9 not answered: comparator mode
P9 another kind at 0Ch not acknowledged
P10 pointer set by a read
P10 pointer set by a write
P10 pointer set by a send to R
P10 pointer set by a send to W alone
P10 pointer kept by a refused read
P10 pointer kept by a refused write
P10 pointer kept by a refused send
P10 pointer kept by a receive
P10 receive refused, pointer in W alone
P10 pointer 00 after power-on
P11 conversion not taken in standby
P11 one-shot asked for in standby
P11 one-shot asked for twice
P11 one-shot written out of standby
P11 one-shot taken in standby
P11 one-shot taken, diode open
P11 second conversion after a one-shot not taken
P11 leaving standby clears the one-shot
P11 write to 09 within standby keeps the one-shot
P11 power-on clears the one-shot
P12 rate byte written
P12 filter bits written
""".strip().split("\n")


def need(table):
    for bit in BITS.values():
        for byte in ("status", "live byte"):
            table.need(f"{byte}: {bit} set", f"{byte}: {bit} cleared")
    table.need(*RULINGS)
    for limit in LIMITS:
        table.need(*(f"P3 {limit}: {place}" for place in PLACES.values()))
    for kind in ("write", "read", "send", "receive"):
        table.need(*(f"P10 {kind} at another address: {which}" for which in OTHER_ADDRESSES))
    table.need_all("registers: read, each of R", READABLE)
    table.need_all("registers: received at the pointer, each of R", READABLE)
    table.need_all("registers: written, each of W", WRITABLE)
    table.need_all("registers: sent, each of R and W", READABLE + WRITABLE)
    table.need_all("registers: read refused, each outside R", set(range(256)) - set(READABLE))
    table.need_all("registers: write refused, each outside W", set(range(256)) - set(WRITABLE))
    table.need_all("registers: send refused, each outside R and W", ranges.OUTSIDE)
    table.need_all("registers: FFh written, each settable byte", SETTINGS)
    table.need_all("registers: FF read, each variant", (1, 2, 3))
    table.need_all("registers: byte read at 10, each of eight", range(0, 256, 32))
    table.need_all("power-on, each variant", (1, 2, 3))


def degrees(byte):
    return byte - 256 if byte > 127 else byte


def eighths(high, low):
    return degrees(high) * 8 + (low >> 5)


class Steps:
    """Watches the steps on one device."""

    def __init__(self, table):
        self.table = table
        self.low_byte = lowbyte.Steps(table)
        self.set_device(bytes(calls.DEVICE_BYTES))

    def set_device(self, device):
        self.device = device
        self.just_set = True
        self.run = None  # faults in a row, where their beginning was seen
        self.one_shot_taken = False
        self.status_read = 0  # bits that a status read has cleared, until the next conversion
        self.low_byte.set_device()

    def see(self, event, result):
        before, code, after = self.device, result[1], result[4:]
        if self.just_set and code in (0, 8):
            ranges.see_alone(self.table, "step", before, code)
        self.just_set = False
        self.device = after
        if code in (3, 4):
            self.low_byte.see_refused(code, before, after)
        if code != 0:
            return
        self.low_byte.see(event, before, after, result)
        self.see_bits(before, after)
        self.see_alert(before, after, result[2])
        self.see_crit(before, after, result[2])
        if event[0] == 7:
            self.see_power_on(before)
        elif event[0] >= 5:
            self.see_conversion(event, before, after, result[2])
        else:
            self.see_bus(event, before, after, result)

    def when(self, holds, name):
        if holds:
            self.table.count(name)

    # ---- Status, live byte and pins ----

    def see_bits(self, before, after):
        for byte, place in (("status", 3), ("live byte", 7)):
            moved = before[place] ^ after[place]
            if not moved:
                continue
            for bit, name in BITS.items():
                if moved & bit:
                    self.table.count(f"{byte}: {name} {'set' if after[place] & bit else 'cleared'}")

    def see_alert(self, before, after, first):
        status, live, masked, comparator = after[3], after[7], after[11] & ALERT_MASK, after[24] & COMPARATOR
        bits = live if comparator else status
        if first & 1:
            self.when(not comparator, "P7 pulled by status")
            self.when(not comparator and not live & ALERTING, "P7 pulled by status, live byte clear")
            self.when(comparator, "P7 pulled by the live byte in comparator mode")
            self.when(before[11] & ALERT_MASK and before[3] & ALERTING, "P7 pulled at once when the mask is cleared")
        else:
            self.when(bits & ALERTING and masked, "P7 masked: not pulled")
            self.when(bits == 0x04 and not masked, "P7 OPEN alone: not pulled")
            unseen = comparator and status & ALERTING and not live & ALERTING
            self.when(unseen and not masked, "P7 comparator mode, status set, live byte clear: not pulled")

    def see_crit(self, before, after, first):
        local, remote, mask = after[9], after[10], after[11]
        if not local and not remote:
            return
        for name, place, masking in (("local", 9, 0x04), ("remote", 10, 0x10)):
            self.when(after[place] and not before[place], f"P8 {name} latch set")
            self.when(after[place] and mask & masking and not first & 2, f"P8 {name} latch masked, not pulled")
        if first & 2:
            self.when(local and not remote, "P8 T_CRIT_A by the local latch alone")
            self.when(remote and not local, "P8 T_CRIT_A by the remote latch alone")
            self.when(local and remote, "P8 T_CRIT_A by both latches")
        else:
            self.when(local and remote, "P8 both latches masked, not pulled")

    # ---- Conversions ----

    def see_power_on(self, before):
        self.table.count_value("power-on, each variant", before[0])
        self.when(before[9], "P8 local latch cleared by power-on")
        self.when(before[10], "P8 remote latch cleared by power-on")
        self.when(before[2], "P11 power-on clears the one-shot")
        self.when(before[1] and not self.device[1], "P10 pointer 00 after power-on")
        self.run = 0

    def see_conversion(self, event, before, after, first):
        standby = before[11] & STANDBY
        if not first & 8:
            self.table.count("P11 conversion not taken in standby")
            self.when(self.one_shot_taken, "P11 second conversion after a one-shot not taken")
            return
        self.when(standby, "P11 one-shot taken in standby")
        self.when(standby and event[0] == 6, "P11 one-shot taken, diode open")
        self.one_shot_taken = bool(standby)
        self.see_reading(event, before, after)
        self.see_limits(after)
        self.see_faults(before, after)
        self.see_latch("local", 9, degrees(after[4]), degrees(after[22]), after[23], before, after)
        self.see_latch("remote", 10, ranges.remote_reading(after), degrees(after[21]) * 8, after[23] * 8, before, after)
        self.when(before[3] & before[7] & ~after[7] & after[3], "P5 live bit gone, status keeps it")
        self.when(self.status_read & after[3], "P5 status bit back at the next conversion after a status read")
        self.status_read = 0

    def see_reading(self, event, before, after):
        offset = eighths(before[17], before[18])
        if event[0] == 6:
            self.when(offset and ranges.remote_reading(after) == 1016, "P2 open diode with an offset reads 1016")
            self.when(after[7] & 0x04, "P2 open diode sets OPEN")
            return
        for shown, sample in (("80h 00h", b"\x80\x00"), ("FFh E0h", b"\xff\xe0"), ("7Fh E0h", b"\x7f\xe0")):
            self.when(event[2:4] == sample, f"P1 sample {shown}")
        self.when(offset < 0, "P1 negative offset")
        self.when(before[18], "P1 offset with a low byte")
        total = eighths(event[2], event[3]) + offset
        far = "far above held to 1023" if total > 1024 else "far below held to -1024" if total < -1025 else "in the middle"
        self.table.count(f"P2 sum {NAMED_SUMS.get(total, far)}")

    def see_limits(self, after):
        local, remote = degrees(after[4]), ranges.remote_reading(after)
        beyond = (
            local - degrees(after[13]), degrees(after[14]) - local, local - degrees(after[22]),
            remote - eighths(after[15], after[19]), eighths(after[16], after[20]) - remote, remote - degrees(after[21]) * 8,
        )
        for limit, steps in zip(LIMITS, beyond):
            if steps in PLACES:
                self.table.count(f"P3 {limit}: {PLACES[steps]}")

    def see_faults(self, before, after):
        queue, count, remote_bits = before[11] & QUEUE, after[8], after[7] & 0x1A
        self.table.count(f"P4 count {before[8]} to {count}")
        self.when(not queue and count != before[8], "P4 count moved with D0 clear")
        self.when(not queue and count == 1 and remote_bits, "P4 D0 clear, first in a row goes live")
        if queue:
            self.when(count == 1 and not remote_bits, "P4 D0 set, first in a row held back")
            self.when(count == 2 and not remote_bits, "P4 D0 set, second in a row held back")
            self.when(before[8] == 2 and count == 3 and remote_bits, "P4 D0 set, third in a row goes live")
            self.when(count < 3 and after[7] & 0x04, "P4 D0 set, OPEN live below a count of 3")
            self.when(0 < count < 3 and after[7] & 0x61, "P4 D0 set, local bits live below a count of 3")
            if remote_bits in REMOTE_BITS:
                self.table.count(f"P4 D0 set, goes live by {REMOTE_BITS[remote_bits]} alone")
        self.see_run(count)

    def see_run(self, count):
        """The length of a row of faults, told when it ends."""
        if count:
            self.run = None if self.run is None else self.run + 1
            return
        if self.run:
            self.table.count(f"P4 fault run of {self.run if self.run < 4 else '4 or more'}")
        self.run = 0

    def see_latch(self, name, place, reading, limit, hysteresis, before, after):
        was, becomes = before[place], after[place]
        if not was:
            held_back = name == "remote" and reading > limit and not after[7] & 0x02
            self.when(held_back and not becomes, "P8 RCRIT held back by the queue, latch stays clear")
            return
        clearing = limit - hysteresis
        self.when(not becomes, f"P8 {name} latch cleared by a conversion")
        self.when(not becomes and reading == clearing - 1, f"P8 {name} latch clears one below limit minus hysteresis")
        if not becomes:
            return
        self.when(reading == clearing, f"P8 {name} latch holds at limit minus hysteresis")
        self.when(clearing < reading <= limit, f"P8 {name} latch holds between the two")
        self.when(clearing < (-128 if name == "local" else -1024), f"P8 {name} limit minus hysteresis below -128, latch holds")
        bit, bit_name = (0x01, "LCRIT") if name == "local" else (0x02, "RCRIT")
        self.when(before[7] & bit and not after[7] & bit, f"P8 {name} latch holds after {bit_name} has gone")
        over = name == "remote" and reading > limit and not after[7] & 0x02
        self.when(over, "P8 RCRIT held back by the queue, latch stays set")

    # ---- The bus ----

    def see_bus(self, event, before, after, result):
        kind, address, acknowledged = event[0], event[1], result[2] & 4
        if address != own_address(before[0]):
            self.see_other_address(kind, address, before, after, acknowledged)
        elif kind == 1:
            self.see_write(event, before, after, acknowledged)
        elif kind == 2:
            self.see_read(event[2], before, after, result[3], acknowledged)
        elif kind == 3:
            self.see_send(event[2], before, after, acknowledged)
        else:
            self.see_receive(before, after, result[3], acknowledged)

    def see_other_address(self, kind, address, before, after, acknowledged):
        if kind == 4 and address == 0x0C:
            self.see_alert_response(before, after, acknowledged)
        other = 0x4C ^ 0x4D ^ own_address(before[0])
        which = "0Ch" if address == 0x0C else "the other part's" if address == other else "any other"
        self.table.count(f"P10 {('write', 'read', 'send', 'receive')[kind - 1]} at another address: {which}")
        self.when(kind < 4 and address == 0x0C and not acknowledged, "P9 another kind at 0Ch not acknowledged")

    def see_alert_response(self, before, after, acknowledged):
        if acknowledged:
            self.table.count(f"P9 answered by variant {before[0]}")
            self.when(after[11] & ALERT_MASK and not before[11] & ALERT_MASK, "P9 mask set by the alert response")
            return
        masked, comparator, alerting = before[11] & ALERT_MASK, before[24] & COMPARATOR, before[3] & ALERTING
        self.when(masked and not comparator and alerting, "P9 not answered: masked")
        self.when(not masked and not comparator and not alerting, "P9 not answered: no alerting bit")
        self.when(not masked and comparator and before[7] & ALERTING, "P9 not answered: comparator mode")

    def see_write(self, event, before, after, acknowledged):
        register, value = event[2], event[3]
        if not acknowledged:
            self.table.count_value("registers: write refused, each outside W", register)
            self.when(before[1] == after[1] != register, "P10 pointer kept by a refused write")
            return
        self.table.count_value("registers: written, each of W", register)
        self.when(before[1] != after[1], "P10 pointer set by a write")
        if register in SETTINGS and value == 0xFF and after[11 + SETTINGS.index(register)] == KEPT[SETTINGS.index(register)]:
            self.table.count_value("registers: FFh written, each settable byte", register)
        self.when(register == 0x0A, "P12 rate byte written")
        self.when(register == 0xBF and value & 6, "P12 filter bits written")
        self.see_one_shot(register, before, after)

    def see_one_shot(self, register, before, after):
        if register == 0x0F:
            self.one_shot_taken = False
            self.when(not before[11] & STANDBY, "P11 one-shot written out of standby")
            self.when(before[11] & STANDBY and not before[2], "P11 one-shot asked for in standby")
            self.when(before[2], "P11 one-shot asked for twice")
        if register == 0x09 and before[2]:
            self.when(not after[2], "P11 leaving standby clears the one-shot")
            self.when(after[2], "P11 write to 09 within standby keeps the one-shot")

    def see_read(self, register, before, after, value, acknowledged):
        if not acknowledged:
            self.table.count_value("registers: read refused, each outside R", register)
            self.when(before[1] == after[1] != register, "P10 pointer kept by a refused read")
            return
        self.table.count_value("registers: read, each of R", register)
        self.when(before[1] != after[1], "P10 pointer set by a read")
        self.see_value("read", register, before, after, value)

    def see_value(self, how, register, before, after, value):
        """A register read, by its address or at the pointer."""
        if register == 0x02:
            self.see_status_read(how, before, after)
        if register == 0x10:
            self.table.count_value("registers: byte read at 10, each of eight", value)
        if register == 0xFF:
            self.table.count_value("registers: FF read, each variant", before[0])

    def see_status_read(self, how, before, after):
        status, was_masked, masked = before[3], before[11] & ALERT_MASK, after[11] & ALERT_MASK
        self.status_read |= status
        self.when(masked and not was_masked, f"P6 by a {how}, mask set")
        self.when(status & ALERTING and was_masked, "P6 mask was set already")
        self.when(status == 0, "P6 status 0")
        self.when(status == 0x04 and not masked, "P6 OPEN alone, mask left")
        self.when(status & ALERTING and before[24] & COMPARATOR and not masked, "P6 comparator mode, mask left")
        self.when(before[9] and after[9] or before[10] and after[10], "P6 status read leaves a latch set")

    def see_send(self, register, before, after, acknowledged):
        if not acknowledged:
            self.table.count_value("registers: send refused, each outside R and W", register)
            self.when(before[1] == after[1] != register, "P10 pointer kept by a refused send")
            return
        self.table.count_value("registers: sent, each of R and W", register)
        self.when(before[1] != after[1], f"P10 pointer set by a send to {'R' if register in READABLE else 'W alone'}")

    def see_receive(self, before, after, value, acknowledged):
        if not acknowledged:
            self.table.count("P10 receive refused, pointer in W alone")
            return
        self.table.count_value("registers: received at the pointer, each of R", before[1])
        self.when(before[1] == after[1], "P10 pointer kept by a receive")
        self.see_value("receive", before[1], before, after, value)
