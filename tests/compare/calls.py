"""Streams of calls and their results, taken apart and put in words. The format stands at the head of second/replay.c."""
import struct

DEVICE_BYTES = 27
READER_BYTES = 69
RECORD_BYTES = 4
TABLE_BYTES = 16  # a fan's table: temperature and PWM value of eight entries
FAN_BYTES = TABLE_BYTES + 2  # and hysteresis and frequency
STAMP_BYTES = 2
DEVICES, FIRST, SECOND = 14, 15, 42  # where the device count and the two devices stand in a reader

NAMES = {
    "N": "fresh reader", "R": "set the reader", "F": "feed", "E": "finish", "D": "set the device", "P": "power on",
    "S": "step", "W": "write event", "H": "write header", "G": "write header of two", "B": "decode", "C": "run", "K": "soak",
    "T": "fan step", "U": "fan duty", "V": "fan preset", "A": "tachometer",
}
KINDS = {
    1: "write", 2: "read", 3: "send", 4: "receive", 5: "conversion", 6: "conversion, diode open", 7: "power-on",
    8: "conversion of the second", 9: "conversion of the second, diode open",
}
ONE_DEVICE_KINDS = range(1, 8)
# The operands of each kind that the table of kinds restricts.
RESTRICTED = {1: "a", 2: "ac", 3: "ac", 4: "abc", 5: "c", 6: "bc", 7: "abc", 8: "c", 9: "bc"}
DEVICE_FIELDS = [
    ("variant", 1), ("pointer", 1), ("one-shot pending", 1), ("status", 1), ("local reading", 1), ("remote reading", 2),
    ("live byte", 1), ("fault count", 1), ("local latch", 1), ("remote latch", 1), ("configuration 09", 1), ("rate 0A", 1),
    ("local high 0B", 1), ("local low 0C", 1), ("remote high 0D", 1), ("remote low 0E", 1), ("offset 11", 1), ("offset 12", 1),
    ("remote high 13", 1), ("remote low 14", 1), ("remote T_CRIT 19", 1), ("local T_CRIT 20", 1), ("hysteresis 21", 1),
    ("filter and alert BF", 1), ("kept low byte", 1), ("low byte is kept", 1),
]
READER_FIELDS = [
    ("header bytes taken", 1), ("record count", 4), ("records done", 4), ("record bytes carried", 1), ("carried bytes", 3),
    ("held code", 1), ("device count", 1),
] + [(f"{which}: {name}", length) for which in ("first", "second") for name, length in DEVICE_FIELDS]
FIXED_CALLS = {78: 1, 82: 1 + READER_BYTES, 69: 1, 68: 1 + DEVICE_BYTES, 80: 2, 83: 5, 87: 7, 72: 8, 71: 9, 66: 6,
               84: 3 + FAN_BYTES, 85: 3, 86: 2}
ROOM_PLACES = {70: (3, 5), 87: (5, 7), 72: (6, 8), 71: (7, 9), 67: (5, 9)}  # where a call has the room that it lends
FIXED_RESULTS = {78: 1, 82: 1, 69: 2, 68: 1, 80: 1 + DEVICE_BYTES, 83: 4 + DEVICE_BYTES, 66: 6, 75: 11, 84: 6, 85: 4, 86: 4,
                 65: 18}


def kinds_under(devices):
    """The kinds of record that a device count knows."""
    return tuple(KINDS) if devices == 2 else ONE_DEVICE_KINDS


def broken_operands(record):
    """The operands of a record that break the table of kinds."""
    kind = record[0]
    broken = ""
    for operand in RESTRICTED.get(kind, ""):
        value = record["abc".index(operand) + 1]
        address = operand == "a" and kind <= 4
        bad = value & 0x80 if address else value % 32 if kind in (5, 8) else value
        broken += operand if bad else ""
    return broken


def number(some_bytes):
    return int.from_bytes(some_bytes, "big")


def call_length(stream, at):
    """The bytes of the call that begins there."""
    command = stream[at]
    if command == 70:  # F
        return 5 + number(stream[at + 1 : at + 3])
    if command == 67:  # C
        return 9 + number(stream[at + 1 : at + 5])
    if command == 75:  # K
        return 5 + number(stream[at + 1 : at + 5])
    if command == 65:  # A
        return 9 + STAMP_BYTES * number(stream[at + 5 : at + 9])
    return FIXED_CALLS[command]


def room(call):
    """The room that a call lends; 0 where it lends none."""
    if call[0] not in ROOM_PLACES:
        return 0
    first, last = ROOM_PLACES[call[0]]
    return number(call[first:last])


def result_length(call):
    """The bytes of a call's result."""
    command = call[0]
    if command == 70:
        return 10 + room(call) + READER_BYTES
    if command == 67:
        return 9 + room(call)
    if command in (87, 72, 71):
        return 2 + room(call)
    return FIXED_RESULTS[command]


def split(stream):
    """The calls of a stream."""
    calls = []
    at = 0
    while at < len(stream):
        end = at + call_length(stream, at)
        calls.append(stream[at:end])
        at = end
    return calls


def split_results(calls, results):
    """A result for each call; where a program stopped early the last ones are short or empty."""
    parts = []
    at = 0
    for call in calls:
        end = at + result_length(call)
        parts.append(results[at:end])
        at = end
    return parts


def join(calls):
    return b"".join(calls)


def feed_call(part, lent):
    return b"F" + len(part).to_bytes(2, "big") + lent.to_bytes(2, "big") + part


def run_call(capture, lent):
    return b"C" + len(capture).to_bytes(4, "big") + lent.to_bytes(4, "big") + capture


def soak_call(stretch):
    return b"K" + len(stretch).to_bytes(4, "big") + stretch


def tach_call(floor, stamps):
    return b"A" + floor.to_bytes(4, "big") + len(stamps).to_bytes(4, "big") + struct.pack(f">{len(stamps)}H", *stamps)


def feed_part(call):
    return call[5:]


def run_capture(call):
    return call[9:]


def soak_stretch(call):
    return call[5:]


def tach_floor(call):
    return number(call[1:5])


def tach_stamps(call):
    return struct.unpack(f">{(len(call) - 9) // STAMP_BYTES}H", call[9:])


def free_places(call):
    """The places of a call's bytes that may be any: all behind the command, but for the number of a tachometer's stamps."""
    return [*range(1, 5), *range(9, len(call))] if call[:1] == b"A" else range(1, len(call))


def header_bytes(devices):
    """The bytes of a header, complete: the device count, that many variants, and the record count."""
    return 5 + devices


def header_length(capture):
    """The bytes of a capture's header, were it complete; of one that begins with no device count, as of one device."""
    return header_bytes(2 if capture[:1] == b"\2" else 1)


def record_count(capture):
    """The record count of a capture whose header is complete."""
    end = header_length(capture)
    return number(capture[end - 4 : end])


def answered(records, answers):
    """(record, first answer byte) of each record that was answered."""
    return [(records[RECORD_BYTES * n : RECORD_BYTES * (n + 1)], first) for n, first in enumerate(answers[::2])]


def hexed(some_bytes, most=64):
    """Hex text, cut after so many bytes."""
    text = some_bytes[:most].hex(" ").upper()
    return text + (f" .. ({len(some_bytes)} bytes)" if len(some_bytes) > most else "")


def stretch_words(stretch, most=64):
    """A stretch of records: its end, which is what a soak reads first."""
    return f"{len(stretch)} bytes{', the last' if len(stretch) > most else ''}: {hexed(stretch[-most:])}"


def stamp_words(stamps, most=64):
    """Stamps in decimal, cut after so many."""
    text = " ".join(map(str, stamps[:most]))
    return f"{len(stamps)} stamps{': ' if stamps else ''}{text}{' ..' if len(stamps) > most else ''}"


def fields(layout, dump):
    """(name, bytes) of each field of a dump."""
    parts = []
    at = 0
    for name, length in layout:
        parts.append((name, dump[at : at + length]))
        at += length
    return parts


def event_words(record):
    kind = record[0]
    return f"kind {kind} ({KINDS.get(kind, 'unknown')}), a {record[1]:02X}, b {record[2]:02X}, c {record[3]:02X}"


def fan_parts(fan):
    """Temperatures, PWM values, hysteresis and frequency of a fan."""
    table = fan[:TABLE_BYTES]
    return table[0::2], table[1::2], *fan[TABLE_BYTES:]


def fan_words(fan):
    temperatures, values, hysteresis, frequency = fan_parts(fan)
    entries = ", ".join(f"{temperature} {value}" for temperature, value in zip(temperatures, values))
    return f"table {entries}, hysteresis {hysteresis}, frequency {frequency}"


def fan_reading(call):
    """The reading of a fan step, in whole degrees."""
    return int.from_bytes(call[-1:], "big", signed=True)


def call_words(call):
    """A call in one line."""
    command = chr(call[0])
    told = {
        "R": lambda: ", ".join(f"{n} {v.hex().upper()}" for n, v in fields(READER_FIELDS, call[1:])),
        "D": lambda: ", ".join(f"{n} {v.hex().upper()}" for n, v in fields(DEVICE_FIELDS, call[1:])),
        "F": lambda: f"room {room(call)}, {len(feed_part(call))} bytes: {hexed(feed_part(call))}",
        "P": lambda: f"variant {call[1]}",
        "S": lambda: event_words(call[1:5]),
        "W": lambda: f"{event_words(call[1:5])}, room {room(call)}",
        "H": lambda: f"variant {call[1]}, count {number(call[2:6])}, room {room(call)}",
        "G": lambda: f"variants {call[1]} and {call[2]}, count {number(call[3:7])}, room {room(call)}",
        "B": lambda: f"device count {call[1]}, {hexed(call[2:])}",
        "C": lambda: f"room {room(call)}, {len(run_capture(call))} bytes: {hexed(run_capture(call))}",
        "K": lambda: stretch_words(soak_stretch(call)),
        "T": lambda: f"{fan_words(call[1:-2])}, earlier step {call[-2]}, reading {fan_reading(call)}",
        "U": lambda: f"frequency {call[1]}, PWM value {call[2]}",
        "V": lambda: f"frequency {call[1]}",
        "A": lambda: f"floor {tach_floor(call)}, {stamp_words(tach_stamps(call))}",
    }
    return f"{NAMES[command]}: {told[command]()}" if command in told else NAMES[command]


def result_fields(call, result):
    """(name, bytes) of each part of a result."""
    command = chr(call[0])
    lent = room(call)
    if command == "F":
        head = [("command", 1), ("code", 1), ("consumed", 4), ("written", 4), ("room", lent)]
        return fields(head + READER_FIELDS, result)
    if command == "P":
        return fields([("command", 1)] + DEVICE_FIELDS, result)
    if command == "S":
        return fields([("command", 1), ("code", 1), ("first answer", 1), ("second answer", 1)] + DEVICE_FIELDS, result)
    layouts = {
        "E": [("command", 1), ("code", 1)],
        "W": [("command", 1), ("code", 1), ("room", lent)],
        "H": [("command", 1), ("code", 1), ("room", lent)],
        "G": [("command", 1), ("code", 1), ("room", lent)],
        "B": [("command", 1), ("code", 1), ("kind", 1), ("a", 1), ("b", 1), ("c", 1)],
        "C": [("command", 1), ("result", 8), ("room", lent)],
        "K": [("command", 1), ("code", 1), ("pulled", 1), ("records read", 8)],
        "T": [("command", 1), ("code", 1), ("step", 1), ("PWM value", 1), ("duty", 2)],
        "U": [("command", 1), ("code", 1), ("duty", 2)],
        "V": [("command", 1), ("code", 1), ("PWM value", 2)],
        "A": [("command", 1), ("code", 1), ("slowest", 4), ("fastest", 4), ("under the floor", 8)],
    }
    return fields(layouts.get(command, [("command", 1)]), result)
