#!/usr/bin/env python3
"""account_faults.py [BUILD]: puts each fault of tests/compare/account-faults.txt into a copy of second/account.c, alone, and sees
whether second/history.c notices on the stream 'histories': whether the account then disagrees with the second implementation or
with the answers it gave. Prints for each fault the first disagreement. Fails if one is not noticed, does not apply at exactly one
place, or does not compile, or if the account as it is disagrees or leaves a row at 0.

Needs BUILD/histories.stream and BUILD/histories.stream.results, as tests/compare.sh leaves them; BUILD is build/compare if not
given. Its own files are there too.
"""
import pathlib
import subprocess
import sys

import faults
import histories

ROOT = pathlib.Path(__file__).resolve().parent.parent.parent
FLAGS = ["-std=c11", "-O1", "-fsanitize=address,undefined", "-fno-sanitize-recover=all", "-I", "second"]
SECONDS_MOST = 60


def compiled(parts, program):
    return subprocess.run(["cc", *FLAGS, "-o", str(program), *map(str, parts)], cwd=ROOT, capture_output=True).returncode == 0


def told(program, given):
    """(status, last line) of the history program."""
    try:
        ran = subprocess.run([str(program)], input=given, capture_output=True, timeout=SECONDS_MOST)
    except subprocess.TimeoutExpired:
        return None, "does not end"
    lines = (ran.stdout or ran.stderr).decode().splitlines() or [""]
    return ran.returncode, lines[-1]


def tried(fault, source, objects, copy, program, given):
    """(whether it was noticed, what to say)."""
    name, old, new = fault
    if old == "" or source.count(old) != 1:
        return False, f"{name}: stands {source.count(old)} times in second/account.c, must stand once"
    copy.write_text(source.replace(old, new))
    if not compiled([copy, *objects], program):
        return False, f"{name}: does not compile"
    _, said = told(program, given)
    if "disagreement" not in said:
        return False, f"{name}: NOT NOTICED, {said}"
    return True, f"| {name} | {said.removeprefix('history: disagreement in ')} |"


def main():
    build = pathlib.Path(sys.argv[1] if len(sys.argv) > 1 else ROOT / "build" / "compare").resolve()
    given = histories.read(build / "histories.stream")
    copy, program = build / "account-fault.c", build / "account-fault"
    objects = [build / "history-watched.o", build / "second-watched.o"]
    for name, part in zip(("history.c", "second.c"), objects):
        if not compiled(["-c", f"second/{name}"], part):
            print(f"account_faults: second/{name} does not compile")
            return 1
    source = (ROOT / "second" / "account.c").read_text()
    if not compiled(["second/account.c", *objects], program) or told(program, given)[0] != 0:
        print("account_faults: second/account.c as it is does not compile, disagrees, or leaves a row at 0")
        return 1
    tries = faults.read_faults((ROOT / "tests" / "compare" / "account-faults.txt").read_text())
    missed = 0
    print("| fault | noticed first |\n|---|---|")
    for fault in tries:
        noticed, said = tried(fault, source, objects, copy, program, given)
        missed += not noticed
        print(said if noticed else f"account_faults: {said}", flush=True)
    print(f"account_faults: {len(tries) - missed} of {len(tries)} noticed")
    return 1 if missed or not tries else 0


if __name__ == "__main__":
    sys.exit(main())
