#!/usr/bin/env python3
"""hex.py [FILE]: hex text, of FILE or standard input, to bytes on standard output.

Blanks and `|` stand between bytes, `#` begins a comment. For text that is not so nothing is written, and the status is 2.
"""
import re
import sys

BYTES = re.compile(rb"(?:[0-9A-Fa-f]{2})+")
SHOWN = 20
STANDARD_INPUT, STANDARD_OUTPUT = 0, 1


def stop(message):
    print(f"hex: {message}", file=sys.stderr)
    sys.exit(2)


def bytes_of(line, where):
    words = line.split(b"#")[0].replace(b"|", b" ").split()
    for word in words:
        if not BYTES.fullmatch(word):
            shown = ascii(word[:SHOWN].decode("latin-1"))
            stop(f"{where}: {shown} is not hex: write two digits for each byte, and '#' before a comment")
    return bytes.fromhex(b"".join(words).decode("ascii"))


def main(name, file):
    try:
        with open(file, "rb") as text:
            lines = text.readlines()
    except OSError as error:
        stop(f"{name}: cannot be read: {error.strerror}: give a file of hex text")
    capture = b"".join(bytes_of(line, f"{name}: line {number}") for number, line in enumerate(lines, 1))
    try:
        with open(STANDARD_OUTPUT, "wb", closefd=False) as output:
            output.write(capture)
    except OSError as error:
        stop(f"standard output cannot be written: {error.strerror}")


if len(sys.argv) > 1:
    main(sys.argv[1], sys.argv[1])
else:
    main("standard input", STANDARD_INPUT)
