#!/usr/bin/env python3
"""profile.py COMMAND...: holds the worked examples of docs/PROFILE.md to a listing program, COMMAND, that reads a capture from standard input.

An example is a block of indented rows 'kind a b c -> first second', in hex, on an LM89C fresh from power-on, or behind a row of a header's six or seven
bytes, and then as many as it counts; in the listing's own example the record's number stands before the two answer bytes. The examples of requests g and h,
of which no record speaks, are what examples/fan.c and examples/tach.c print, row by row (tests/bench.sh leaves that in build/). Exits 1 and names each row that
gives another answer, each header that counts other records, and each section of a ruling from P2 on, or of a request, that has no example.
"""
import pathlib
import re
import subprocess
import sys

PROFILE = pathlib.Path("docs/PROFILE.md")
ROW = re.compile(r"    ((?:[0-9A-F]{2} ){4})-> (?:\d+ )?([0-9A-F]{2} [0-9A-F]{2})\b")
HEADER = re.compile(r"    ((?:[0-9A-F]{2} ){6,7}) *[^\s-]")
# Of a request: what an example prints, and the form of its rows.
PRINTED = {
    "g": (pathlib.Path("build/printed-fan"), re.compile(r" {4,}(-?\d+) +(\d) +(\d+) +(\d+\.\d\d)\b")),  # degrees, step, PWM value, duty
    "h": (pathlib.Path("build/printed-tach"), re.compile(r" {2,}(\d+) +(\d+) +(\d+) +(\d+)(?![\d.])")),  # earlier and later stamp, period, speed
}
LM89C = bytes([1, 1])
COUNT_BYTES = 4
WITHOUT_EXAMPLE = {"P1"}


def examples(lines):
    """Each block of rows: its section's title, its header or b"", and (line number, record, answer) of each row."""
    title, header, rows = "", b"", []
    for number, line in enumerate(lines + ["# end"], 1):
        row, head = ROW.match(line), HEADER.match(line)
        if row:
            rows.append((number, bytes.fromhex(row[1]), row[2]))
        elif head and not rows:
            header = bytes.fromhex(head[1])
        elif not line.startswith("    "):
            if rows:
                yield title, header, rows
            header, rows = b"", []
        if line.startswith("#"):
            title = line.lstrip("# ")


def answers(command, header, rows):
    """What the program lists for a capture of these records: the answer bytes of each, and the end line."""
    whole_header = header or LM89C + len(rows).to_bytes(COUNT_BYTES, "big")
    capture = whole_header + b"".join(record for _, record, _ in rows)
    listed = subprocess.run(command, input=capture, capture_output=True, check=False).stdout.decode().splitlines()
    return [line.split(" ", 1)[1] for line in listed[:-1]], listed[-1] if listed else ""


def faults_of(command, header, rows):
    given, end = answers(command, header, rows)
    if end != f"end {len(rows)} 0":
        return [f"{PROFILE}:{rows[0][0]}: the example ends with '{end}'"]
    pairs = zip(rows, given)
    return [f"{PROFILE}:{number}: has {answer}, and the program {got}" for (number, _, answer), got in pairs if answer != got]


def printed_rows(text, form):
    return [form.match(line).groups() for line in text.splitlines() if form.match(line)]


def rows_of(request):
    """The rows of a section that are of the form of what its example prints."""
    section = re.search(rf"(?ms)^### {request}\. .*?(?=^#)", PROFILE.read_text())
    return printed_rows(section[0] if section else "", PRINTED[request][1])


def printed_faults(request):
    """Where the rows of a request are not those that its example prints."""
    path, form = PRINTED[request]
    rows, printed = rows_of(request), printed_rows(path.read_text() if path.exists() else "", form)
    if not rows:
        return [f"{PROFILE}: {request} has no example"]
    return [] if rows == printed else [f"{PROFILE}: the rows of {request} are not those of {path}: run tests/bench.sh, and mend what is wrong"]


def main():
    if len(sys.argv) < 2:
        sys.exit("profile: give a listing program, as 'build/bin/lm89 list'")
    lines = PROFILE.read_text().splitlines()
    blocks = list(examples(lines))
    rulings = {title.split(".")[0] for title in re.findall(r"(?m)^### (P\d+\.|[a-m]\.)", PROFILE.read_text())} - WITHOUT_EXAMPLE
    faults = [fault for _, header, rows in blocks for fault in faults_of(sys.argv[1:], header, rows)]
    shown = {title.split(".")[0] for title, _, _ in blocks} | set(PRINTED)
    faults += [f"{PROFILE}: {ruling} has no example" for ruling in sorted(rulings - shown)]
    faults += [fault for request in PRINTED for fault in printed_faults(request)]
    if not rulings:
        faults.append(f"{PROFILE} has no section of a ruling: this test reads it wrongly")
    for fault in faults:
        print(f"profile: {fault}")
    records = sum(len(rows) for _, _, rows in blocks)
    others = sum(len(rows_of(request)) for request in PRINTED)
    print(f"profile: {records} records of {len(blocks)} examples, {others} rows of {' and '.join(PRINTED)}, {len(faults)} fault(s)")
    return 1 if faults else 0


if __name__ == "__main__":
    sys.exit(main())
