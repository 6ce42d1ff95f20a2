#!/usr/bin/env python3
"""faults.py [JOBS [FILE]]: puts each fault of tests/compare/faults.txt into a copy of second/second.c, soak.c, fan.c or tach.c, alone, and
sees whether the comparison notices: whether its results on the streams, or its listings, differ from those of second/ as it is.

Run tests/compare.sh first: it leaves the streams and the results in build/compare. JOBS is 1 (so too if not given) or 2; FILE, as
fan.c, has the faults of that file tried and no others. Prints for each fault the first stream and call that notices it, and the other
streams that do. Fails if one is not noticed, does not apply at exactly one place, or does not compile, or if there is none.
"""
import concurrent.futures
import pathlib
import re
import subprocess
import sys

import calls

ROOT = pathlib.Path(__file__).resolve().parent.parent.parent
BUILD = ROOT / "build" / "compare"
THEMES = ("writer", "device-ranges", "reader-ranges", "pair", "device", "reader", "runs", "listed", "soaks")
# The files that faults are of, and the streams that call them: soaks stand in one alone, the fan in another, the tachometer in a third.
FILES = {"second.c": THEMES, "soak.c": ("soaks",), "fan.c": ("fans",), "tach.c": ("tachs",)}
SECONDS_MOST = 60


def read_faults(text):
    """(name, text to be replaced, text in its place) of each fault."""
    faults = []
    for block in re.split(r"^= ", text, flags=re.M)[1:]:
        name, *lines = block.split("\n")
        old = "\n".join(line[1:] for line in lines if line.startswith("-"))
        new = "\n".join(line[1:] for line in lines if line.startswith("+"))
        faults.append((name, old, new))
    return faults


def sections(text):
    """(file, text of its faults) of each part of the text: a line '@ FILE' begins one, those before the first are of second.c."""
    first, *others = re.split(r"^@ ", text, flags=re.M)
    return [("second.c", first), *(other.split("\n", 1) for other in others)]


def compiled(file, copy, front_end, program):
    """Whether the faulty copy of a file compiles with the other files and this front end."""
    others = [f"second/{other}" for other in FILES if other != file]
    command = ["cc", "-std=c11", "-O1", "-I", "second", "-o", str(program), str(copy), *others, f"second/{front_end}"]
    return subprocess.run(command, cwd=ROOT, capture_output=True).returncode == 0


def answer(program, given):
    """What a program writes; None if it does not end."""
    try:
        return subprocess.run([str(program)], input=given, capture_output=True, timeout=SECONDS_MOST).stdout
    except subprocess.TimeoutExpired:
        return None


def first_call(stream, expected, given):
    parts = calls.split(stream)
    pairs = zip(calls.split_results(parts, expected), calls.split_results(parts, given))
    at = next((i for i, (left, right) in enumerate(pairs) if left != right), len(parts) - 1)
    return f"call {at + 1}, {calls.NAMES[chr(parts[at][0])]}"


def noticed_in_streams(program, themes):
    """(theme, call) for each stream whose results differ."""
    found = []
    for theme in themes:
        stream = (BUILD / f"{theme}.stream").read_bytes()
        expected = (BUILD / f"{theme}.stream.results").read_bytes()
        given = answer(program, stream)
        if given != expected:
            found.append((theme, "does not end" if given is None else first_call(stream, expected, given)))
    return found


def noticed_in_listings(program):
    for number, call in enumerate(calls.split((BUILD / "listed.stream").read_bytes()), 1):
        capture = calls.run_capture(call)
        if answer(program, capture) != answer(BUILD / "second-listing", capture):
            return [("listings", f"capture {number}")]
    return []


def tried(number, file, fault):
    """(whether it was noticed, what to say)."""
    name, old, new = fault
    source = (ROOT / "second" / file).read_text()
    if source.count(old) != 1 or old == "":
        return False, f"{name}: stands {source.count(old)} times in second/{file}, must stand once"
    copy, program = BUILD / f"fault-{number}.c", BUILD / f"fault-{number}"
    copy.write_text(source.replace(old, new))
    if not compiled(file, copy, "replay.c", program):
        return False, f"{name}: does not compile, see {copy}"
    found = noticed_in_streams(program, FILES[file])
    if not found and compiled(file, copy, "listing.c", program):
        found = noticed_in_listings(program)
    if not found:
        return False, f"{name}: NOT NOTICED, see {copy}"
    copy.unlink()
    program.unlink()
    others = "".join(f", {theme}" for theme, _ in found[1:])
    return True, f"{name} | {found[0][0]}, {found[0][1]} | {others[2:]}"


def main():
    jobs = 2 if sys.argv[1:2] == ["2"] else 1
    files = sys.argv[2:] or FILES
    text = (ROOT / "tests" / "compare" / "faults.txt").read_text()
    faults = [(file, fault) for file, part in sections(text) if file in files for fault in read_faults(part)]
    missed = 0
    print("| fault | noticed first in | also in |\n|---|---|---|")
    with concurrent.futures.ThreadPoolExecutor(max_workers=jobs) as pool:
        for noticed, said in pool.map(lambda numbered: tried(numbered[0], *numbered[1]), enumerate(faults, 1)):
            missed += not noticed
            print(f"| {said} |" if noticed else f"faults: {said}", flush=True)
    print(f"faults: {len(faults) - missed} of {len(faults)} noticed")
    return 1 if missed or not faults else 0


if __name__ == "__main__":
    sys.exit(main())
