#!/usr/bin/env python3
"""histories.py PROGRAM STREAM...: hands the run calls of the streams, with the results that an engine gave (STREAM.results beside
each STREAM, as tests/compare.sh leaves them), to PROGRAM, which is second/history.c: it holds latches and T_CRIT_A to the account
of request e, and prints what was covered. Its status is this one's.
"""
import pathlib
import subprocess
import sys

import calls


def piece(some_bytes):
    return len(some_bytes).to_bytes(4, "big") + some_bytes


def answers(result):
    """The answer bytes that a run wrote."""
    return result[9 : 9 + calls.number(result[1:9]) // 16]


def pieces(stream, results):
    """Each capture of a stream, and its answers, as second/history.c reads them."""
    parts = calls.split(stream)
    runs = ((call, result) for call, result in zip(parts, calls.split_results(parts, results)) if call[:1] == b"C")
    return b"".join(piece(calls.run_capture(call)) + piece(answers(result)) for call, result in runs)


def read(name):
    return pieces(pathlib.Path(name).read_bytes(), pathlib.Path(f"{name}.results").read_bytes())


def main():
    program, *streams = sys.argv[1:]
    return subprocess.run([program], input=b"".join(map(read, streams))).returncode


if __name__ == "__main__":
    sys.exit(main())
