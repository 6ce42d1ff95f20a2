#!/usr/bin/env python3
"""covered.py STREAM...: counts what streams of calls and their results (STREAM.results) covered, and prints a table.

Fails, naming it, if anything of the table never occurred, or below 200,000 calls or 1,000,000 records, or if D4 to D7 of an answer
are not as request b has them (held.py), or an answer or a device of two not as request c has it (pairs.py), or a soak not as request f
has it (soaks.py), or a call of the fan not as request g has it (fans.py), or one of the tachometer not as request h has it (tachs.py).
A record is one that was answered, by a step, a feed or a run, or read by a soak. What happened is decided from the stream and from the
results, which both sides share.
"""
import collections
import concurrent.futures
import pathlib
import sys

import calls
import fans
import held
import lowbyte
import pairs
import ranges
import soaks
import steps
import tachs
from table import Table

AT_ONCE = 2
CALLS_LEAST = 200_000
RECORDS_LEAST = 1_000_000
RUN_RECORDS_MOST = 100  # longer runs are not followed record by record
WRONG_SHOWN_MOST = 10

CODES = {
    "feed": (8,), "feed under 0": (0, 1), "feed under 1": (0, 2, 3, 4, 5, 7), "feed under 2": (0, 2, 3, 4, 5, 7, 9),
    "finish": (8,), "finish under 0": (1, 6), "finish under 1": (0, 2, 3, 4, 5, 6), "finish under 2": (0, 2, 3, 4, 5, 6, 9),
    "run under 0": (1, 6), "run under 1": (0, 2, 3, 4, 5, 6, 7), "run under 2": (0, 2, 3, 4, 5, 6, 7, 9),
    "step": (0, 3, 4, 8), "write event": (0, 3, 4, 7), "write header": (0, 2, 7), "write header of two": (0, 2, 7, 9),
    "decode under 1": (0, 3, 4), "decode under 2": (0, 3, 4), "soak": (0, 3, 4, 8, 10),
    "fan step": (0, 4, 11), "fan duty": (0, 4), "fan preset": (0, 4), "tachometer": (0, 12, 13),
}
# What judges records, and the device count under which it does.
JUDGES = {
    "feed under 1": 1, "feed under 2": 2, "run under 1": 1, "run under 2": 2, "decode under 1": 1, "decode under 2": 2, "step": 1,
    "write event": 2,
}
UNKNOWN_KINDS = {1: (0, 8, 9, 10, 255), 2: (0, 10, 255)}
# The row of each kind that a call takes.
KIND_ROWS = {call: {kind: f"{call}: kind {kind} {calls.KINDS[kind]}" for kind in calls.kinds_under(devices)} for call, devices in JUDGES.items()}
FEEDS = ("feed under 0", "feed under 1", "feed under 2")
ANSWER_BITS = ("ALERT pulled", "T_CRIT_A pulled", "acknowledged", "conversion taken", "sum held")
BYTES = set(range(256))
VARIANTS = {1, 2, 3}


def devices_of(reader):
    """The device count that a reader has taken."""
    return reader[calls.DEVICES]


def complete(reader):
    """Whether a reader's header is complete."""
    return reader[0] == calls.header_bytes(devices_of(reader))


def need_everything(table):
    for name in calls.NAMES.values():
        table.need(f"call: {name}")
    for call, codes in CODES.items():
        for code in codes:
            table.need(f"{call}: code {code}")
    for rows in KIND_ROWS.values():
        table.need(*rows.values())
    table.need_all("power on: each byte as the variant", range(256))
    need_refusals(table)
    need_headers(table)
    need_rooms(table)
    for devices in (1, 2):
        need_places(table, devices)
    steps.need(table)
    lowbyte.need(table)
    held.need(table)
    pairs.need(table)
    ranges.need(table)
    soaks.need(table)
    fans.need(table)
    tachs.need(table)


def need_refusals(table):
    for call, devices in JUDGES.items():
        for kind in calls.kinds_under(devices):
            for operand in calls.RESTRICTED[kind]:
                table.need(f"{call}: kind {kind}, operand {operand} broken alone")
        table.need(*(f"{call}: kind {kind}" for kind in UNKNOWN_KINDS[devices]), f"{call}: 3 before 4")
        if devices == 1:
            table.need(*(f"{call}: kind {kind}, 3 {why}" for kind in (8, 9) for why in ("though its operands are right", "before 4")))
    for call in ("feed under 1", "feed under 2", "run under 1", "run under 2", "write event"):
        table.need(f"{call}: 3 before 7", f"{call}: 4 before 7")
    table.need("step: 8 before 3", "step: 8 before 3, kind 8", "step: 8 before 3, kind 9", "step: 8 before 4")
    table.need_all("decode: kind 8 refused, each count but 2", BYTES - {2})
    table.need_all("decode: kind 9 refused, each count but 2", BYTES - {2})
    table.need_all("decode: kind 7 taken, each count", BYTES)
    for devices in (1, 2):
        for bit, name in enumerate(ANSWER_BITS):
            table.need(f"run under {devices}: answer D{bit} {name}", f"run under {devices}: answer D{bit} clear")


def need_headers(table):
    """Header bytes that are taken and that are refused."""
    table.need_all("run: device count refused, each but 1 and 2", BYTES - {1, 2})
    table.need_all("run under 1: variant refused, each", BYTES - VARIANTS)
    table.need_all("run under 2: first variant refused, each", BYTES - VARIANTS)
    for first in VARIANTS:
        table.need_all(f"run under 2: second variant refused behind variant {first}, each", BYTES - VARIANTS)
    for call in ("feed under 2", "run under 2", "write header of two"):
        table.need_all(f"{call}: two addresses, each pair", ranges.PAIRS)
        table.need_all(f"{call}: 9 for one address, each pair", ranges.ONE_ADDRESS)
    table.need("feed under 2: 2 at the first variant", "feed under 2: 2 at the second variant", "feed under 2: 9 at the second variant")
    table.need("write header: 2 before 7", "write header of two: 2 before 7", "write header of two: 9 before 7")
    table.need("write header of two: 2 for the first", "write header of two: 2 for the second", "write header of two: 2 for both")
    table.need("write header of two: 2 before 9", *(f"write header: room {lent}" for lent in (*range(7), "above 6")))
    table.need(*(f"write header of two: room {lent}" for lent in (*range(8), "above 7")))


def need_rooms(table):
    for lent in (*range(6), "above 5"):
        table.need(f"write event: room {lent}", f"write event: room {lent}, 3", f"write event: room {lent}, 4")


def need_places(table, devices):
    """Cuts and rooms of captures under a device count."""
    feed, run = f"feed under {devices}", f"run under {devices}"
    table.need("feed under 0: cut after 0 header bytes", "feed under 0: goes on after 0 header bytes")
    for taken in range(1, calls.header_bytes(devices)):
        table.need(f"{feed}: cut after {taken} header bytes", f"{feed}: goes on after {taken} header bytes")
    for carried in range(4):
        table.need(f"{feed}: cut after {carried} bytes of a record", f"{feed}: goes on with {carried} bytes of a record")
    table.need(f"{feed}: ends at the counted end", f"{feed}: empty part within the capture")
    table.need(f"{feed}: 5 with a count of 0", f"{run}: 5 with a count of 0")
    for lent in range(6):
        table.need(*(f"{call}: room {lent}, 7 with {lent // 2 * 2} bytes written" for call in (feed, run)))
    for lent in range(2, 6):
        table.need(f"{feed}: room {lent}, 0 with a record answered")
    table.need(f"{feed}: room above 5, 7", f"{feed}: room above 5, 0", f"{run}: room above 5, 7")
    for what in ("answered", "7 again", "empty part", "finish gives 6", "another fourth byte refused"):
        table.need(f"{feed}, after 7: {what}")
    for kind in calls.kinds_under(devices):
        table.need(f"{feed}: 7 at kind {kind}")
    for asked in ("empty part", "bytes", "finish"):
        table.need(f"after lasting code 1 under 0: {asked}")
        table.need(*(f"after lasting code {code} under {devices}: {asked}" for code in (2, 3, 4, 5, 9)[: 3 + devices]))


class Watcher:
    """Goes through the calls and results of one stream, and counts."""

    def __init__(self):
        self.table = Table()
        need_everything(self.table)
        self.records = 0
        self.by_command = {ord(c): getattr(self, "see_" + n.replace(" ", "_")) for c, n in calls.NAMES.items()}

    def watch(self, stream, results):
        """A stream begins with a reader and a device of all zeros."""
        self.reader = bytes(calls.READER_BYTES)
        self.reader_set = set()
        self.no_room = False
        self.steps = steps.Steps(self.table)
        self.held_steps = held.Steps(self.table)
        self.feeds = lowbyte.Feeds(self.table)
        self.held_feeds = held.Feeds(self.table)
        self.pair_feeds = pairs.Feeds(self.table)
        self.soaks = soaks.Soaks(self.table)
        self.fans = fans.Fans(self.table)
        self.tachs = tachs.Tachs(self.table)
        parts = calls.split(stream)
        self.calls = len(parts)
        for command, times in collections.Counter(call[0] for call in parts).items():
            self.table.count(f"call: {calls.NAMES[chr(command)]}", times)
        for call, result in zip(parts, calls.split_results(parts, results)):
            self.by_command[call[0]](call, result)
        self.fans.end()

    # ---- The reader ----

    def see_fresh_reader(self, _call, _result):
        self.set_reader(bytes(calls.READER_BYTES))
        self.reader_set = set()

    def see_set_the_reader(self, call, _result):
        self.set_reader(call[1:])
        self.reader_set = {"feed", "finish"}

    def set_reader(self, reader):
        self.reader = reader
        self.no_room = False
        self.feeds.set_reader(reader)
        self.held_feeds.set_reader()
        self.pair_feeds.set_reader(reader)

    def see_ranges(self, name, code):
        """The ranges of a reader that was set, once for each sort of call."""
        if name in self.reader_set:
            ranges.see_reader(self.table, name, self.reader, code)
            self.reader_set.discard(name)

    def see_finish(self, _call, result):
        code, devices, held_code = result[1], devices_of(self.reader), self.reader[13]
        self.see_code("finish", code, devices)
        self.see_ranges("finish", code)
        if code != 8 and held_code:
            self.see_lasting(held_code, devices, "finish")
        if self.no_room and code == 6:
            self.table.count(f"feed under {devices}, after 7: finish gives 6")

    def see_code(self, call, code, devices):
        """A code by the device count that the reader has; 8 has none."""
        row = f"{call}: code 8" if code == 8 else f"{call} under {devices}: code {code}"
        if row in self.table.counts:  # not a code that a reader was set to hold under a count that does not give it
            self.table.count(row)

    def see_lasting(self, code, devices, asked):
        row = f"after lasting code {code} under {devices}: {asked}"
        if row in self.table.counts:
            self.table.count(row)

    def see_feed(self, call, result):
        before, code, part = self.reader, result[1], calls.feed_part(call)
        consumed, written = calls.number(result[2:6]), calls.number(result[6:10])
        self.see_ranges("feed", code)
        self.reader = result[-calls.READER_BYTES :]
        devices = devices_of(self.reader)
        self.see_code("feed", code, devices)
        self.records += written // 2
        if code == 8:
            return
        self.reader_set = set()
        if before[13]:
            self.see_lasting(before[13], devices, "bytes" if part else "empty part")
            return
        self.see_places(before, part, code)
        if devices == 2:
            self.see_header(before, code, part[consumed : consumed + 1])
        if devices:
            self.see_fed(FEEDS[devices], before, call, result, part, consumed, written)

    def see_fed(self, name, before, call, result, part, consumed, written):
        """A feed that has taken the device count."""
        code, devices, lent = result[1], devices_of(self.reader), calls.room(call)
        records = before[10 : 10 + before[9]] + part[max(0, calls.header_bytes(devices) - before[0]) :]
        answers = result[10 : 10 + written]
        answered = calls.answered(records, answers)
        if devices == 2:
            self.pair_feeds.see_feed(before, part, code, answered, self.reader, answers[1::2])
        else:
            pairs.see_alone(self.table, "feed", self.reader[calls.FIRST], answered)
            self.feeds.see_feed(before, part, code, consumed, answered, self.reader)
            self.held_feeds.see_feed(before, part, code, answered, self.reader)
            self.see_absent()
        for record, _first in answered:
            self.table.count(KIND_ROWS[name][record[0]])
        self.see_room(name, lent, code, written)
        self.see_retry(name, part, code, consumed, written)
        if code in (3, 4):
            self.see_refused(name, code, self.reader[10:13] + part[consumed : consumed + 1], lent - written < 2)
        if code == 5 and calls.number(self.reader[1:5]) == 0:
            self.table.count(f"{name}: 5 with a count of 0")
        if code == 7:
            self.table.count(f"{name}: 7 at kind {self.reader[10]}")

    def see_absent(self):
        """With one device the second is all zeros."""
        if any(self.reader[calls.SECOND :]):
            self.table.wrong.append(f"feed under 1: the second device is {calls.hexed(self.reader[calls.SECOND:])}, must be all zeros")

    def see_header(self, before, code, refused):
        """What a feed judged of a header of two variants, the byte refused being the next."""
        after = self.reader
        if code in (2, 9):
            self.table.count(f"feed under 2: {code} at the {'first' if after[0] == 1 else 'second'} variant")
        if code == 9:
            self.table.count_value("feed under 2: 9 for one address, each pair", (after[calls.FIRST], refused[0]))
        elif before[0] < 3 <= after[0]:
            self.table.count_value("feed under 2: two addresses, each pair", (after[calls.FIRST], after[calls.SECOND]))

    def see_places(self, before, part, code):
        """Where a feed begins and where it ends."""
        after = self.reader
        name, begun = FEEDS[devices_of(after)], FEEDS[devices_of(before)]
        if part and not complete(before):
            self.table.count(f"{begun}: goes on after {before[0]} header bytes")
        elif part and before[1:5] != before[5:9]:
            self.table.count(f"{begun}: goes on with {before[9]} bytes of a record")
        if code != 0:
            return
        if not part and after[0]:
            self.table.count(f"{name}: empty part within the capture")
        elif not complete(after):
            self.table.count(f"{name}: cut after {after[0]} header bytes")
        elif after[1:5] != after[5:9]:
            self.table.count(f"{name}: cut after {after[9]} bytes of a record")
        else:
            self.table.count(f"{name}: ends at the counted end")

    def see_room(self, name, lent, code, written):
        fed = name.startswith("feed")
        if lent > 5 and (code == 7 or (code == 0 and fed)):
            self.table.count(f"{name}: room above 5, {code}")
        elif lent <= 5 and code == 7:
            self.table.count(f"{name}: room {lent}, 7 with {written} bytes written")
        elif lent <= 5 and code == 0 and written and fed:
            self.table.count(f"{name}: room {lent}, 0 with a record answered")

    def see_retry(self, name, part, code, consumed, written):
        if self.no_room and not part:
            self.table.count(f"{name}, after 7: empty part")
            return
        if self.no_room and written:
            self.table.count(f"{name}, after 7: answered")
        if self.no_room and code == 7 and consumed == 0:
            self.table.count(f"{name}, after 7: 7 again")
        if self.no_room and code == 4 and consumed == 0:
            self.table.count(f"{name}, after 7: another fourth byte refused")
        self.no_room = code == 7

    def see_refused(self, name, code, record, no_room=False):
        """A record that got 3 or 4; with no room it would get 7 if it were right."""
        broken = calls.broken_operands(record)
        if code == 3:
            if record[0] in UNKNOWN_KINDS[JUDGES[name]]:
                self.table.count(f"{name}: kind {record[0]}")
            if record[1:4] == b"\xff\xff\xff":
                self.table.count(f"{name}: 3 before 4")
            if record[0] in (8, 9):
                self.table.count(f"{name}: kind {record[0]}, 3 {'before 4' if broken else 'though its operands are right'}")
        if code == 4 and len(broken) == 1:
            self.table.count(f"{name}: kind {record[0]}, operand {broken} broken alone")
        if no_room:
            self.table.count(f"{name}: {code} before 7")

    def see_run(self, call, result):
        written, code = divmod(calls.number(result[1:9]), 16)
        capture, answers = calls.run_capture(call), result[9 : 9 + written]
        devices = capture[0] if capture[:1] in (b"\1", b"\2") else 0
        name = f"run under {devices}"
        self.table.count(f"{name}: code {code}")
        self.records += written // 2
        self.see_run_header(devices, capture, code)
        if not devices:
            return
        self.see_room(name, calls.room(call), code, written)
        header = calls.header_bytes(devices)
        kinds = capture[header : header + 2 * written : 4]
        for kind, row in KIND_ROWS[name].items():
            self.table.count(row, kinds.count(kind))
        self.see_answers(name, kinds, answers[::2])
        if 0 < written // 2 <= RUN_RECORDS_MOST:
            self.follow_run(devices, capture, calls.answered(capture[header:], answers))
        at = header + 2 * written
        if code in (3, 4):
            self.see_refused(name, code, capture[at : at + 4], calls.room(call) - written < 2)
        if code == 5 and calls.record_count(capture) == 0:
            self.table.count(f"{name}: 5 with a count of 0")

    def follow_run(self, devices, capture, answered):
        if devices == 2:
            pairs.see_run(self.table, capture, answered)
        else:
            pairs.see_alone(self.table, "run", capture[1], answered)
            lowbyte.see_run(self.table, capture[1], answered)
            held.see_run(self.table, capture, answered)

    def see_run_header(self, devices, capture, code):
        """The header byte that a run refused, or the variants that it took."""
        if code == 1:
            self.table.count_value("run: device count refused, each but 1 and 2", capture[0])
        elif devices == 1 and code == 2:
            self.table.count_value("run under 1: variant refused, each", capture[1])
        elif devices == 2 and code == 2 and capture[1] not in VARIANTS:
            self.table.count_value("run under 2: first variant refused, each", capture[1])
        elif devices == 2 and code == 2:
            self.table.count_value(f"run under 2: second variant refused behind variant {capture[1]}, each", capture[2])
        elif devices == 2 and len(capture) > 2:
            which = "9 for one address" if code == 9 else "two addresses"
            self.table.count_value(f"run under 2: {which}, each pair", (capture[1], capture[2]))

    def see_answers(self, name, kinds, firsts):
        held.see_answers(self.table, kinds, firsts)
        often = [(value, firsts.count(value)) for value in set(firsts)]
        for bit, words in enumerate(ANSWER_BITS):
            pulled = sum(n for value, n in often if value & 1 << bit)
            self.table.count(f"{name}: answer D{bit} {words}", pulled)
            self.table.count(f"{name}: answer D{bit} clear", len(firsts) - pulled)

    # ---- The device ----

    def see_set_the_device(self, call, _result):
        self.set_device(call[1:])

    def see_power_on(self, call, result):
        self.table.count_value("power on: each byte as the variant", call[1])
        self.set_device(result[1:])

    def set_device(self, device):
        self.steps.set_device(device)
        self.held_steps.set_device()
        self.soaks.set_device()

    def see_step(self, call, result):
        code, record = result[1], call[1:5]
        self.table.count(f"step: code {code}")
        if code == 0:
            self.records += 1
            self.table.count(KIND_ROWS["step"][record[0]])
        elif code != 8:
            self.see_refused("step", code, record)
        elif record[0] not in calls.ONE_DEVICE_KINDS:
            self.table.count("step: 8 before 3")
            if record[0] in calls.KINDS:
                self.table.count(f"step: 8 before 3, kind {record[0]}")
        elif calls.broken_operands(record):
            self.table.count("step: 8 before 4")
        self.held_steps.see(record, self.steps.device, result)
        self.steps.see(record, result)
        self.soaks.see_step(record, result)

    def see_soak(self, call, result):
        self.records += calls.number(result[3:])
        self.soaks.see(self.steps.device, calls.soak_stretch(call), result)

    # ---- The fan ----

    def see_fan_step(self, call, result):
        self.fans.see_step(call, result)

    def see_fan_duty(self, call, result):
        self.fans.see_duty(call, result)

    def see_fan_preset(self, call, result):
        self.fans.see_preset(call, result)

    # ---- The tachometer ----

    def see_tachometer(self, call, result):
        self.tachs.see(call, result)

    # ---- The writers and the decoder ----

    def see_write_event(self, call, result):
        code, record, lent = result[1], call[1:5], calls.room(call)
        room = f"write event: room {lent if lent < 6 else 'above 5'}"
        self.table.count(f"write event: code {code}")
        self.table.count(room)
        if code == 0:
            self.table.count(KIND_ROWS["write event"][record[0]])
        if code in (3, 4):
            self.table.count(f"{room}, {code}")
            self.see_refused("write event", code, record, lent < calls.RECORD_BYTES)

    def see_write_header(self, call, result):
        code, lent = result[1], calls.room(call)
        self.table.count(f"write header: code {code}")
        self.table.count(f"write header: room {lent if lent < 7 else 'above 6'}")
        if code == 2 and lent < 6:
            self.table.count("write header: 2 before 7")

    def see_write_header_of_two(self, call, result):
        code, lent, variants = result[1], calls.room(call), (call[1], call[2])
        name = "write header of two"
        self.table.count(f"{name}: code {code}")
        self.table.count(f"{name}: room {lent if lent < 8 else 'above 7'}")
        if code in (2, 9) and lent < 7:
            self.table.count(f"{name}: {code} before 7")
        if code == 2:
            known = [variant in VARIANTS for variant in variants]
            self.table.count(f"{name}: 2 for {'both' if not any(known) else 'the second' if known[0] else 'the first'}")
            if variants[0] == variants[1]:
                self.table.count(f"{name}: 2 before 9")
        if code in (0, 9):
            self.table.count_value(f"{name}: {'9 for one address' if code else 'two addresses'}, each pair", variants)

    def see_decode(self, call, result):
        code, devices, record = result[1], call[1], call[2:6]
        if code == 3 and record[0] in (8, 9):
            self.table.count_value(f"decode: kind {record[0]} refused, each count but 2", devices)
        if code == 0 and record[0] == 7:
            self.table.count_value("decode: kind 7 taken, each count", devices)
        name = f"decode under {devices}"
        if name not in JUDGES:
            return
        self.table.count(f"{name}: code {code}")
        if code == 0:
            self.table.count(KIND_ROWS[name][record[0]])
        else:
            self.see_refused(name, code, record)


def watched(name):
    """(calls, records, table) of a stream."""
    watcher = Watcher()
    watcher.watch(pathlib.Path(name).read_bytes(), pathlib.Path(f"{name}.results").read_bytes())
    return watcher.calls, watcher.records, watcher.table


def main():
    names = sys.argv[1:]
    table = Table()
    need_everything(table)
    with concurrent.futures.ProcessPoolExecutor(AT_ONCE) as pool:
        found = list(pool.map(watched, names))
    for name, (_, _, counted) in zip(names, found):
        table.add(counted)
        table.wrong += [f"{pathlib.Path(name).stem}: {words}" for words in counted.wrong]
    table.show()
    for name, (some_calls, some_records, _) in zip(names, found):
        print(f"covered: {pathlib.Path(name).stem}: {some_calls} calls, {some_records} records")
    all_calls, all_records = sum(n for n, _, _ in found), sum(n for _, n, _ in found)
    print(f"covered: {all_calls} calls, {all_records} records, {len(table.counts)} rows")
    missed = table.missed()
    if all_calls < CALLS_LEAST:
        missed.append(f"{CALLS_LEAST} calls")
    if all_records < RECORDS_LEAST:
        missed.append(f"{RECORDS_LEAST} records")
    for name in missed:
        print(f"covered: not reached: {name}")
    for words in table.wrong[:WRONG_SHOWN_MOST]:
        print(f"covered: wrong: {words}")
    if table.wrong:
        print(f"covered: {len(table.wrong)} answers are not as requests b, c, f, g and h have them")
    return 1 if missed or table.wrong else 0


if __name__ == "__main__":
    sys.exit(main())
