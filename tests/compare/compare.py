#!/usr/bin/env python3
"""compare.py ONE OTHER STREAM...: runs two programs on each stream of calls and compares what they write, byte for byte.

ONE and OTHER are commands in one argument each, as 'build/compare/second' or 'qemu-x86_64 build/compare/library'; they run at the
same time. ONE's results are left beside each stream as STREAM.results. Where they disagree it prints the first call that differs,
what each gave, field by field, and the shortest stream it finds that still shows a difference; the exit status is 1. To see one
such stream again:

    python3 tests/hex.py <shortest.hex >shortest && python3 tests/compare/compare.py ONE OTHER shortest
"""
import concurrent.futures
import pathlib
import shlex
import subprocess
import sys

import calls

TRIES_MOST = 1000
STAMP_GROUPS = 16  # a list of stamps is left as it is where none of so many parts of it can be left out
PLAINER_MOST = 100  # bytes of a call; in a longer one, which is a list of stamps, none is set to 0


def outcome(program, stream):
    """(exit status, standard output, standard error) of a program on a stream."""
    ran = subprocess.run(shlex.split(program), input=stream, capture_output=True)
    return ran.returncode, ran.stdout, ran.stderr.decode(errors="replace")


class Pair:
    """The two programs, and how often they may still be tried in search of a shorter stream."""

    def __init__(self, one, other):
        self.programs = (one, other)
        self.pool = concurrent.futures.ThreadPoolExecutor(len(self.programs))
        self.tries = TRIES_MOST

    def outcomes(self, stream):
        return list(self.pool.map(lambda program: outcome(program, stream), self.programs))

    def disagree(self, parts):
        if self.tries == 0:
            return False
        self.tries -= 1
        one, other = self.outcomes(calls.join(parts))
        return one[:2] != other[:2]


# ---- The first difference ---------------------------------------------------


def first_difference(parts, one, other):
    """The place of the first call with unequal results."""
    ones = calls.split_results(parts, one)
    others = calls.split_results(parts, other)
    for at, (left, right) in enumerate(zip(ones, others)):
        if left != right:
            return at, left, right
    return len(parts) - 1, ones[-1], others[-1]


def show(name, at, call, left, right):
    print(f"compare: {name}, call {at + 1}: {calls.call_words(call)}")
    rows = zip(calls.result_fields(call, left), calls.result_fields(call, right))
    for (field, one), (_, other) in rows:
        mark = "" if one == other else "   <-- differs" + place_in(one, other)
        print(f"  {field:24} {calls.hexed(one, 16):50} {calls.hexed(other, 16)}{mark}")


def place_in(one, other):
    """Where two long fields part."""
    if len(one) < 5 or len(one) != len(other):
        return ""
    first = next(i for i in range(len(one)) if one[i] != other[i])
    return f" at byte {first}: {one[first]:02X} and {other[first]:02X}"


# ---- The shortest stream ----------------------------------------------------


def without_some(items, still, least=1):
    """Items left after all that can be dropped, in ever smaller groups down to this size, are dropped."""
    size = max(least, len(items) // 2)
    while size >= least:
        before = len(items)
        items = without_groups(items, size, still)
        if size > least or len(items) == before:
            size //= 2
    return items


def without_groups(items, size, still):
    at = 0
    while at < len(items):
        fewer = items[:at] + items[at + size :]
        if still(fewer):
            items = fewer
        else:
            at += size
    return items


def state_call(parts, results, at):
    """A call that sets the reader or device as it stands before a call, or None where the call needs none."""
    of_device, of_reader = ("D", "PS", calls.DEVICE_BYTES), ("R", "F", calls.READER_BYTES)
    setters = {"S": of_device, "K": of_device, "F": of_reader, "E": of_reader}
    command = chr(parts[at][0])
    if command not in setters:
        return None
    setter, movers, length = setters[command]
    for before in range(at - 1, -1, -1):
        earlier = chr(parts[before][0])
        if earlier == setter:
            return parts[before]
        if earlier in movers:
            return setter.encode() + results[before][-length:]
        if earlier == "N" and setter == "R":
            return b"N"
    return None


def fewer_calls(pair, parts, results, at):
    """The call that differs, behind as little as it needs."""
    setter = state_call(parts, results, at)
    short = ([setter] if setter else []) + [parts[at]]
    if pair.disagree(short):
        return without_some(short, pair.disagree)
    return without_some(parts[: at + 1], pair.disagree)


def shorter_run(pair, call):
    """A run with fewer records in its capture, the count told anew."""
    capture = calls.run_capture(call)
    header = calls.header_length(capture)
    if len(capture) < header:
        return call
    body = capture[header:]
    records = [body[i : i + calls.RECORD_BYTES] for i in range(0, len(body), calls.RECORD_BYTES)]
    surplus = calls.record_count(capture) - len(records)

    def rebuilt(kept):
        count = (len(kept) + surplus) % 2**32
        lent = min(calls.room(call), 2 * len(kept) + 6)
        return calls.run_call(capture[: header - 4] + count.to_bytes(4, "big") + b"".join(kept), lent)

    def still(kept):
        return pair.disagree([rebuilt(kept)])

    return rebuilt(without_some(records, still)) if still(records) else call


def shorter_feed(pair, parts, at):
    """The feed at this place with fewer bytes and less room."""
    part = calls.feed_part(parts[at])

    def rebuilt(kept, lent):
        return parts[:at] + [calls.feed_call(bytes(kept), lent)] + parts[at + 1 :]

    lent = next((few for few in range(6) if pair.disagree(rebuilt(part, few))), calls.room(parts[at]))
    kept = without_some(list(part), lambda fewer: pair.disagree(rebuilt(fewer, lent)))
    return rebuilt(kept, lent)


def shorter_soak(pair, parts, at):
    """The soak at this place with fewer records in its stretch; what is no whole record stands at the end."""
    stretch = calls.soak_stretch(parts[at])
    records = [stretch[i : i + calls.RECORD_BYTES] for i in range(0, len(stretch), calls.RECORD_BYTES)]

    def rebuilt(kept):
        return parts[:at] + [calls.soak_call(b"".join(kept))] + parts[at + 1 :]

    return rebuilt(without_some(records, lambda kept: pair.disagree(rebuilt(kept))))


def shorter_tach(pair, parts, at):
    """The tachometer's call at this place with fewer stamps, as long as a part of them can be left out."""
    floor = calls.tach_floor(parts[at])

    def rebuilt(kept):
        return parts[:at] + [calls.tach_call(floor, kept)] + parts[at + 1 :]

    before, kept = None, calls.tach_stamps(parts[at])
    while kept != before:
        before, kept = kept, without_some(kept, lambda fewer: pair.disagree(rebuilt(fewer)), max(1, len(kept) // STAMP_GROUPS))
    return rebuilt(kept)


def plainer(pair, parts, at):
    """The call at this place, which sets a state or is one of fan or tachometer, with as many bytes 0 as can be."""
    for place in calls.free_places(parts[at]):
        call = parts[at][:place] + b"\0" + parts[at][place + 1 :]
        tried = parts[:at] + [call] + parts[at + 1 :]
        if call != parts[at] and pair.disagree(tried):
            parts = tried
    return parts


def shortest(pair, parts, results, at):
    parts = fewer_calls(pair, parts, results, at)
    for place, call in enumerate(parts):
        if call[:1] == b"A":
            parts = shorter_tach(pair, parts, place)
        if call[:1] in (b"D", b"R", b"T", b"U", b"V", b"A") and len(parts[place]) <= PLAINER_MOST:
            parts = plainer(pair, parts, place)
        if call[:1] == b"C":
            parts = parts[:place] + [shorter_run(pair, call)] + parts[place + 1 :]
        if call[:1] == b"F":
            parts = shorter_feed(pair, parts, place)
        if call[:1] == b"K":
            parts = shorter_soak(pair, parts, place)
    return parts


def show_shortest(parts):
    print("compare: the shortest stream found, in hex:")
    for call in parts:
        print(f"  {calls.hexed(call, 4096)}  # {calls.call_words(call)}")


# ---- Streams ---------------------------------------------------------------


def explain(pair, name, stream, one, other):
    for program, (status, _, said) in zip(pair.programs, (one, other)):
        if status != 0:
            print(f"compare: '{program}' ended with status {status} on {name}: {said.strip()}")
    parts = calls.split(stream)
    at, left, right = first_difference(parts, one[1], other[1])
    show(name, at, parts[at], left, right)
    show_shortest(shortest(pair, parts, calls.split_results(parts, one[1]), at))


def agree(pair, path):
    stream = path.read_bytes()
    one, other = pair.outcomes(stream)
    pathlib.Path(f"{path}.results").write_bytes(one[1])
    if one[0] == 0 and one[:2] == other[:2]:
        print(f"compare: {path.name} agrees, {len(one[1])} bytes of results")
        return True
    explain(pair, path.name, stream, one, other)
    return False


def main():
    if len(sys.argv) < 4:
        print("compare: give two programs and at least one stream", file=sys.stderr)
        return 1
    pair = Pair(sys.argv[1], sys.argv[2])
    return 0 if all(agree(pair, pathlib.Path(name)) for name in sys.argv[3:]) else 1


if __name__ == "__main__":
    sys.exit(main())
