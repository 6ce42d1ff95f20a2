"""Which one field of a state is out of its range, and which states stand at an end of a range."""
import calls

READABLE = bytes.fromhex("0001020304050607081011121314192021BFFEFF")
WRITABLE = bytes.fromhex("090A0B0C0D0E0F11121314192021BF")
SETTINGS = bytes.fromhex("090A0B0C0D0E11121314192021BF")
KEPT = bytes.fromhex("D5FFFFFFFFFFFFE0E0E0FFFF1F07")
STANDBY = 0x40
LOW, LOW_KEPT = 25, 26  # the last two bytes of a device
DEVICES, FIRST, SECOND = calls.DEVICES, calls.FIRST, calls.SECOND
DROPPED = bytes(0xFF - kept for kept in KEPT)
OUTSIDE = sorted(set(range(256)) - set(READABLE) - set(WRITABLE))


def remote_reading(device):
    return int.from_bytes(device[5:7], "big", signed=True)


# (field, value): whether it is in range, for fields of a device whose range has ends.
DEVICE_ENDS = {
    ("fault count", 0): True, ("fault count", 3): True, ("fault count", 4): False, ("fault count", 255): False,
    ("remote reading", -1024): True, ("remote reading", 1023): True, ("remote reading", -1025): False,
    ("remote reading", 1024): False, ("status", 0x7F): True, ("status", 0x80): False, ("live byte", 0x7F): True,
    ("live byte", 0x80): False, ("one-shot pending, D6 of 09", 1): True, ("one-shot pending, D6 of 09", 0): False,
    ("low byte with none kept", 0): True,
}
LOW_BYTES = range(0, 256, 32)
VARIANT_ENDS = [(0, False), (1, True), (3, True), (4, False), (255, False)]
# Under a device count, so many header bytes; none is taken under 0.
STAGES = [(0, 0), *((1, header) for header in range(1, 7)), *((2, header) for header in range(1, 8))]
HELD, NOT_HELD = (0, 1, 2, 3, 4, 5, 9), (6, 7, 8, 10, 255)
PAIRS, ONE_ADDRESS = ((1, 2), (1, 3), (2, 1), (3, 1)), ((1, 1), (2, 2), (2, 3), (3, 2), (3, 3))
# What `device_faults` may name.
DEVICE_FIELDS = ("fault count", "remote reading", "pointer", "status", "live byte", "one-shot pending, D6 of 09", "kept low byte",
                 "low byte with none kept", *(f"setting {address:02X}" for address, dropped in zip(SETTINGS, DROPPED) if dropped))
# Whose device a reader has at fault.
ONLY, FIRST_OF_TWO, SECOND_OF_TWO = "only device", "first of two", "second of two"


def device_values(device):
    """The value of each field that has ends, by name."""
    values = {"fault count": device[8], "remote reading": remote_reading(device), "status": device[3], "live byte": device[7]}
    if device[2]:
        values["one-shot pending, D6 of 09"] = device[11] >> 6 & 1
    if not device[LOW_KEPT]:
        values["low byte with none kept"] = device[LOW]
    return values


def device_faults(device):
    """The fields of a device that are out of their ranges, the variant aside."""
    faults = []
    if device[8] > 3:
        faults.append("fault count")
    if not -1024 <= remote_reading(device) <= 1023:
        faults.append("remote reading")
    if device[1] in OUTSIDE:
        faults.append("pointer")
    if device[3] & 0x80:
        faults.append("status")
    if device[7] & 0x80:
        faults.append("live byte")
    if device[2] and not device[11] & STANDBY:
        faults.append("one-shot pending, D6 of 09")
    if device[LOW_KEPT] and device[LOW] not in LOW_BYTES:
        faults.append("kept low byte")
    if not device[LOW_KEPT] and device[LOW]:
        faults.append("low byte with none kept")
    return faults + [f"setting {address:02X}" for address, byte, dropped in zip(SETTINGS, device[11:], DROPPED) if byte & dropped]


def told(value, fits):
    shown = value if value < 0 or value > 255 else f"{value:02X}"
    return f"{shown} {'in' if fits else 'out of'} range"


def need(table):
    for name in ("step", "soak"):
        need_device(table, name)
        table.need(*(f"{name}: variant {told(value, fits)}" for value, fits in VARIANT_ENDS))
    for name in ("feed", "finish"):
        for which in (ONLY, FIRST_OF_TWO, SECOND_OF_TWO):
            need_device(table, f"{name}, {which}")
        for devices, header in STAGES:
            need_stage(table, name, devices, header)
        for devices in (1, 2):
            need_records(table, name, devices)
        for header in range(8):
            table.need_all(f"{name}: {header} header bytes, device count out of range, each", {0, 1, 2, 3, 4, 128, 255} - counts_at(header))
        table.need(*(f"{name}: {header} header bytes under {devices}, too many" for devices in (1, 2) for header in (6 + devices, 255)))


def need_device(table, name):
    for (field, value), fits in DEVICE_ENDS.items():
        table.need(f"{name}: {field} {told(value, fits)}")
    table.need_all(f"{name}: pointer in range, each of R and W", READABLE + WRITABLE)
    table.need_all(f"{name}: pointer out of range, each other byte", OUTSIDE)
    table.need_all(f"{name}: kept low byte in range, each multiple of 32", LOW_BYTES)
    table.need_all(f"{name}: kept low byte out of range, each other byte", set(range(256)) - set(LOW_BYTES))
    table.need_all(f"{name}: low byte with none kept out of range, each but 0", range(1, 256))
    for address, dropped in zip(SETTINGS, DROPPED):
        if dropped:
            bits = [1 << bit for bit in range(8) if dropped & 1 << bit]
            table.need_all(f"{name}: setting {address:02X} with one dropped bit, each", bits)
        table.need(f"{name}: setting {address:02X} with every kept bit, in range")


def counts_at(header):
    """The device counts that are in range with so many header bytes taken."""
    return {1, 2} if header else {0}


def has_second(devices, header):
    """Whether the second variant byte is taken."""
    return devices == 2 and header >= 3


def stage_of(devices, header):
    return f"{header} header bytes under {devices}"


def count_bytes(devices, header):
    """How many bytes of the record count are taken."""
    return max(0, header - 1 - devices)


def need_stage(table, name, devices, header):
    stage = f"{name}: {stage_of(devices, header)}"
    table.need(f"{stage}, in range")
    table.need(*(f"{stage}, first variant {told(value, fits or header < 2)}" for value, fits in VARIANT_ENDS))
    table.need_all(f"{stage}, held code in range, each", HELD)
    table.need_all(f"{stage}, held code out of range, each", NOT_HELD)
    table.need_all(f"{stage}, first device out of range, each field", DEVICE_FIELDS)
    if has_second(devices, header):
        table.need(*(f"{stage}, second variant {told(value, False)}" for value, fits in VARIANT_ENDS if not fits))
        table.need_all(f"{stage}, variants of two addresses in range, each pair", PAIRS)
        table.need_all(f"{stage}, variants of one address out of range, each pair", ONE_ADDRESS)
        table.need_all(f"{stage}, second device out of range, each field", DEVICE_FIELDS)
    else:
        table.need_all(f"{stage}, second device not all zeros, each byte", range(calls.DEVICE_BYTES))
    if header < calls.header_bytes(devices):
        table.need(f"{stage}, greatest count in range", f"{stage}, count one too great", f"{stage}, bytes carried, out of range")
        if count_bytes(devices, header):
            table.need(f"{stage}, a record done, out of range")


def need_records(table, name, devices):
    """Behind a complete header."""
    under = f"{name} under {devices}"
    for carried in range(4):
        table.need(f"{under}: {carried} bytes carried in range")
        for place in range(carried, 3):
            table.need(f"{under}: {carried} bytes carried, place {place + 1} not 0, out of range")
    table.need(f"{under}: 4 bytes carried out of range", f"{under}: bytes carried with all records done, out of range")
    table.need(f"{under}: records done equal to the count, in range", f"{under}: one record more done than counted, out of range")


def see_device(table, name, device, faults, code):
    """Counts a device with no field out of range, or one."""
    for field, value in device_values(device).items():
        fits = DEVICE_ENDS.get((field, value))
        if fits and code != 8 or fits is False and faults == [field] and code == 8:
            table.count(f"{name}: {field} {told(value, fits)}")
    if code != 8:
        table.count_value(f"{name}: pointer in range, each of R and W", device[1])
        if device[LOW_KEPT]:
            table.count_value(f"{name}: kept low byte in range, each multiple of 32", device[LOW])
        for address, byte, kept in zip(SETTINGS, device[11:], KEPT):
            if byte == kept:
                table.count(f"{name}: setting {address:02X} with every kept bit, in range")
    elif faults == ["pointer"]:
        table.count_value(f"{name}: pointer out of range, each other byte", device[1])
    elif faults == ["kept low byte"]:
        table.count_value(f"{name}: kept low byte out of range, each other byte", device[LOW])
    elif faults == ["low byte with none kept"]:
        table.count_value(f"{name}: low byte with none kept out of range, each but 0", device[LOW])
    elif len(faults) == 1 and faults[0].startswith("setting"):
        place = 11 + SETTINGS.index(int(faults[0][-2:], 16))
        table.count_value(f"{name}: {faults[0]} with one dropped bit, each", device[place] & ~KEPT[place - 11])


def see_variant(table, name, variant, faults, code):
    for value, fits in VARIANT_ENDS:
        if variant == value and (code != 8 if fits else not faults and code == 8):
            table.count(f"{name} {told(value, fits)}")


def see_alone(table, name, device, code):
    """A device that a step or a soak was asked of."""
    faults = device_faults(device) if code == 8 else []
    see_variant(table, f"{name}: variant", device[0], faults, code)
    if 1 <= device[0] <= 3:
        see_device(table, name, device, faults, code)


def reader_faults(reader):
    """What of a reader is out of its ranges, but for the fields of its devices: each a row of the table, and a value of it or None."""
    header, devices = reader[0], reader[DEVICES]
    if header < 8 and devices not in counts_at(header):
        return [(f": {header} header bytes, device count out of range, each", devices)]
    if header > calls.header_bytes(devices):
        return [(f": {header} header bytes under {devices}, too many", None)]
    return variant_faults(reader) + count_faults(reader) + carry_faults(reader) + held_faults(reader)


def variant_faults(reader):
    header, devices, first, second = reader[0], reader[DEVICES], reader[FIRST], reader[SECOND]
    stage = f": {stage_of(devices, header)}"
    faults = []
    if header >= 2 and not 1 <= first <= 3:
        faults.append((f"{stage}, first variant {told(first, False)}", None))
    if not has_second(devices, header):
        return faults + [(f"{stage}, second device not all zeros, each byte", n) for n, byte in enumerate(reader[SECOND:]) if byte]
    if not 1 <= second <= 3:
        faults.append((f"{stage}, second variant {told(second, False)}", None))
    elif (first, second) in ONE_ADDRESS:
        faults.append((f"{stage}, variants of one address out of range, each pair", (first, second)))
    return faults


def count_faults(reader):
    header, devices = reader[0], reader[DEVICES]
    count, done = calls.number(reader[1:5]), calls.number(reader[5:9])
    past = 256 ** count_bytes(devices, header)
    stage = f": {stage_of(devices, header)}"
    faults = []
    if count >= past:
        faults.append((f"{stage}, count one too great" if count == past else "count", None))
    if header < calls.header_bytes(devices) and done:
        faults.append((f"{stage}, a record done, out of range", None))
    if done > count:
        row = f" under {devices}: one record more done than counted, out of range"
        faults.append((row if done == count + 1 else "done", None))
    return faults


def carry_faults(reader):
    header, devices, carried = reader[0], reader[DEVICES], reader[9]
    under = f" under {devices}"
    faults = []
    if carried > 3:
        faults.append((f"{under}: {carried} bytes carried out of range", None))
    elif carried and header < calls.header_bytes(devices):
        faults.append((f": {stage_of(devices, header)}, bytes carried, out of range", None))
    elif carried and reader[1:5] == reader[5:9]:
        faults.append((f"{under}: bytes carried with all records done, out of range", None))
    for place in range(carried, 3):
        if reader[10 + place]:
            faults.append((f"{under}: {carried} bytes carried, place {place + 1} not 0, out of range", None))
    return faults


def held_faults(reader):
    if reader[13] in HELD:
        return []
    return [(f": {stage_of(reader[DEVICES], reader[0])}, held code out of range, each", reader[13])]


def see_reader(table, name, reader, code):
    """A reader that was set, and a feed or a finish asked of it."""
    both = has_second(reader[DEVICES], reader[0])
    only = f"{name}, {FIRST_OF_TWO if both else ONLY}"
    first, second = reader[FIRST:SECOND], reader[SECOND:]
    if code != 8:
        see_device(table, only, first, [], code)
        if both:
            see_device(table, f"{name}, {SECOND_OF_TWO}", second, [], code)
        see_reader_in_range(table, name, reader)
        return
    faults = reader_faults(reader)
    in_first, in_second = device_faults(first), device_faults(second) if both else []
    if not faults and not in_second:
        see_device(table, only, first, in_first, code)
    if not faults and not in_first and both:
        see_device(table, f"{name}, {SECOND_OF_TWO}", second, in_second, code)
    stage = f": {stage_of(reader[DEVICES], reader[0])}"
    faults += [(f"{stage}, first device out of range, each field", field) for field in in_first]
    faults += [(f"{stage}, second device out of range, each field", field) for field in in_second]
    if len(faults) == 1:
        see_fault(table, f"{name}{faults[0][0]}", faults[0][1])


def see_fault(table, row, value):
    """The one thing that is out of its range."""
    if row in table.sets:
        table.count_value(row, value)
    elif row in table.counts:
        table.count(row)


def see_reader_in_range(table, name, reader):
    header, devices, carried = reader[0], reader[DEVICES], reader[9]
    stage = f"{name}: {stage_of(devices, header)}"
    table.count(f"{stage}, in range")
    table.count_value(f"{stage}, held code in range, each", reader[13])
    for value, fits in VARIANT_ENDS:
        if reader[FIRST] == value:
            table.count(f"{stage}, first variant {told(value, fits or header < 2)}")
    if has_second(devices, header):
        table.count_value(f"{stage}, variants of two addresses in range, each pair", (reader[FIRST], reader[SECOND]))
    if header < calls.header_bytes(devices):
        if calls.number(reader[1:5]) == 256 ** count_bytes(devices, header) - 1:
            table.count(f"{stage}, greatest count in range")
        return
    table.count(f"{name} under {devices}: {carried} bytes carried in range")
    if reader[1:5] == reader[5:9]:
        table.count(f"{name} under {devices}: records done equal to the count, in range")
