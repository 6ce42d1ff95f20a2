#!/usr/bin/env python3
"""listings.py SECOND LM89 STREAM: gives the capture of each run of a stream to two listing commands and compares what they print.

SECOND ends with status 0 on every capture. LM89 ends with 0 where the end line has code 0, and with 1 where it has another.
"""
import concurrent.futures
import pathlib
import sys

import calls
from compare import outcome

AT_ONCE = 2


def accepted(listing):
    """Whether a listing ends with an end line whose code is 0."""
    last = listing[listing.rfind(b"\n", 0, -1) + 1 :].split()
    return len(last) == 3 and last[0] == b"end" and last[2] == b"0"


def held_lines(listing):
    """The lines of a listing whose first answer byte has D4."""
    records = [line.split() for line in listing.split(b"\n")[:-1] if not line.startswith(b"end")]
    return sum(int(first, 16) >> 4 & 1 for _, first, _ in records)


def statuses_due(pair):
    return [0, 0 if accepted(pair[1][1]) else 1]


def agree(pair):
    second, lm89 = pair
    return second[1] == lm89[1] and [second[0], lm89[0]] == statuses_due(pair)


def show(command, due, status, printed, said):
    print(f"'{command}', status {status}, due {due}, ends:\n{printed.decode(errors='replace')[-400:]}{said}")


def main():
    commands, stream = sys.argv[1:3], pathlib.Path(sys.argv[3]).read_bytes()
    captures = [calls.run_capture(call) for call in calls.split(stream) if call[:1] == b"C"]
    with concurrent.futures.ThreadPoolExecutor(AT_ONCE) as pool:
        pairs = list(pool.map(lambda capture: [outcome(command, capture) for command in commands], captures))
    for capture, pair in zip(captures, pairs):
        if not agree(pair):
            print(f"listings: disagree, in output or status, on the capture, in hex: {calls.hexed(capture, 4096)}")
            for command, due, found in zip(commands, statuses_due(pair), pair):
                show(command, due, *found)
            return 1
    statuses = [lm89[0] for _, lm89 in pairs]
    lines = sum(second[1].count(b"\n") for second, _ in pairs)
    held = sum(held_lines(second[1]) for second, _ in pairs)
    of_two = [status for capture, status in zip(captures, statuses) if capture[:1] == b"\2"]
    print(f"listings: {len(pairs)} captures agree, {statuses.count(0)} accepted and {statuses.count(1)} not, {lines} lines, {held} with D4")
    print(f"listings: {len(of_two)} of them are of two devices, {of_two.count(0)} accepted")
    if set(statuses) != {0, 1} or set(of_two) != {0, 1} or not held:
        wanted = "captures of one and of two devices, accepted and others, and lines with D4"
        print(f"listings: {sys.argv[3]} must have {wanted}: add them to tests/compare/streams.c")
        return 1
    return 0


sys.exit(main())
