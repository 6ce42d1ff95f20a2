#!/usr/bin/env python3
"""Applies whole misreadings of document 01 and of requests to the definitions, and says of each whether a theorem notices.

Each misreadings/NAME.edit has a first line, '# WORDS; noticed by: CRATE/FILE: THEOREM, ..; CRATE/FILE: ..', which names the theorems
whose statements are false under the misreading, and then lines 'file:' (from the repository's root), 'old:' and 'new:' as a must-fail
edit has them; an old text stands exactly once in its file. Pairs in proofs/ may mend a law that is still true.

No function stands in the copy that is changed, so theorems and worked examples alone can notice. If all theorems that an edit names stand in
specs/, where they are computed, no law stands in its copy either: then no proof that merely breaks can hide them. Each sort of copy is
proved unchanged first. Then each edit is applied to a copy of its own, and the crates of the theorems that it names are checked. An edit is
noticed if every theorem that it names is among the errors, and ill-formed if an error stands at the text that it changes.

    tests/misreadings.py [--only NAME] [--jobs 1|2] [--work FOLDER] [--read] [--table]

--work keeps the proved copy in a folder for the next run; --read only reads the edits, sees that docs/MISREADINGS.md has a row for each, and
makes the copy, and proves nothing; --table prints those rows.
Prints a line for each edit and last 'N noticed, M not'; exits 1 unless all are noticed. Writes nothing to the repository.
"""
import argparse
import os
import re
import shutil
import signal
import subprocess
import sys
import tempfile
import threading
from concurrent.futures import ThreadPoolExecutor
from pathlib import Path

ROOT = Path(__file__).resolve().parent.parent
EDITS = ROOT / "misreadings"
LIST = ROOT / "docs/MISREADINGS.md"
HEAD = re.compile(r"# (.+); noticed by: (.+)")
PLACE = re.compile(r"(\w+/(?:specs|proofs)/[\w/]+\.antt): (.+)")
# a function, or the functions of an `impl`; of the view that a type's own `impl Model` gives the definitions speak
FUNCTION = re.compile(r"(?:pub(?:\([^)]*\))? )?(?:extern \"C\" )?fn \w+|impl\b(?!.* Model for )")
DECLARED = re.compile(r"^ *(?!let |module |use |--|→)(?:(?:abbrev|unfoldable) )?(?:pub )?(?:(?:record|data) )?([^\s:(){}]+)(?: [^:\n]*)? :", re.M)
ERROR = re.compile(r"^(\S+?):(\d+):\d+: error(?:\[[^]]*\])?: (?:`([^`]*)`: )?(.*)$", re.M)
# the files of a function's proof, each in a folder of its own below proofs/
FUNCTION_PROOFS = ("Proof", "Answers", "Invariants")
USE = re.compile(r"(?:pub |ghost )?use ")
# what only says that something else was refused, and what says that a name or a field is gone: neither is evidence
FOLLOWS = "so this cannot be checked"
SHAPE = re.compile(r"that can be named from here|not in scope|is not defined|has no field|is not a field")


class Bad(Exception):
    """An edit that is not in the form, or a copy that is not proved."""


# ---- an edit


class Edit:
    def __init__(self, path, root=ROOT):
        self.name = path.stem
        lines = path.read_text().splitlines()
        head = HEAD.fullmatch(lines[0]) if lines else None
        if not head:
            raise Bad(f"{self.name}: its first line is not '# WORDS; noticed by: CRATE/FILE: THEOREM'")
        self.words = head[1]
        self.pairs = list(pairs(self.name, lines[1:]))
        self.theorems = [theorem for place in head[2].split("; ") for theorem in named(self.name, place, root)]
        for file, old, _ in self.pairs:
            text = (root / file).read_text() if (root / file).is_file() else ""
            if text.count(old) != 1:
                raise Bad(f"{self.name}: its old text stands {text.count(old)} times in {file}: {old}")
        self.crates = sorted({Path(file).parts[1] for file, _, _ in self.pairs})
        self.asked = sorted({Path(file).parts[1] for file, _ in self.theorems})
        self.laws = any(Path(file).parts[2] == "proofs" for file, _ in self.theorems)

    def row(self):
        """Its line of the table."""
        return f"| {self.words} | {', '.join(f'`{place(*theorem)}`' for theorem in self.theorems)} |"

    def apply(self, where):
        """Applies the pairs; gives the (file, declaration) that each changes."""
        changed = set()
        for file, old, new in self.pairs:
            path = where / file
            text = path.read_text()
            at = text.index(old)
            before = [match for match in DECLARED.finditer(text) if match.start() <= at]
            changed.add((file, before[-1][1] if before else ""))
            path.write_text(text.replace(old, new))
        return changed


def pairs(name, lines):
    file = old = None
    for line in lines:
        word, _, rest = line.partition(":")
        rest = rest.removeprefix(" ")
        if word == "file":
            file = rest.strip()
            if not re.fullmatch(r"crates/\w+/(?:specs|proofs|src)/[\w/]+\.(?:antt|rt)", file):
                raise Bad(f"{name}: no file of a crate's specs, proofs or src, from the repository's root: {file}")
        elif word == "old":
            old = rest
        elif word == "new":
            if not file or not old:
                raise Bad(f"{name}: a 'new:' with no file or no old text before it")
            yield file, old, rest
            old = None
    if old is not None or file is None:
        raise Bad(f"{name}: no pair, or an 'old:' with no 'new:' behind it")


def named(name, place, root):
    match = PLACE.fullmatch(place)
    if not match:
        raise Bad(f"{name}: noticed by no place of the form CRATE/FILE: THEOREM: {place}")
    file = f"crates/{match[1]}"
    text = (root / file).read_text() if (root / file).is_file() else ""
    for theorem in match[2].split(", "):
        if not any(found[1] == theorem for found in DECLARED.finditer(text)):
            raise Bad(f"{name}: {file} has no {theorem}")
        yield file, theorem


# ---- a copy in which no function stands


def without_functions(text):
    """A source with its types, constants and modules alone."""
    kept, inside = [], False
    for line in text.split("\n"):
        if inside:
            inside = line != "}"
        elif FUNCTION.match(line):
            while kept and kept[-1].startswith(("#[", "//")):
                kept.pop()
            inside = not line.endswith("}")
        else:
            kept.append(line)
    body = "\n".join(line for line in kept if not USE.match(line))
    lines = (imported(line, body) if USE.match(line) else line for line in kept)
    return "\n".join(line for line in lines if line is not None)


def imported(line, body):
    """A line of imports with what is still wanted of it, or None: types that are passed on, words of ghost fields, what is named."""
    if line.startswith("pub use "):
        return chosen(line, lambda name: name[0].isupper())
    if line.startswith("ghost use "):
        ghosts = "\n".join(text for text in body.split("\n") if text.lstrip().startswith("ghost "))
        return chosen(line, lambda name: name.strip("◌") in ghosts)
    return needed(line, body)


def chosen(line, wanted):
    """A `use` line with those of its names that are wanted, or None."""
    path, brace, names = line.rstrip("; ").partition("{")
    if not brace:
        return line if wanted(path.split("::")[-1].strip()) else None
    still = [name for name in names.rstrip("}").split(", ") if wanted(name)]
    return f"{path}{{{', '.join(still)}}};" if still else None


def needed(line, body):
    """A `use` line with what is still named of what it brings in, or None; without a function no other function is named."""
    path, brace, names = line.rstrip("; ").partition("{")
    if not brace:
        return line if named_in(re.split(r"::| as ", path)[-1].strip(), body) else None
    if not names.endswith("}") or "{" in names:
        raise Bad(f"a `use` that this test cannot read: {line}")
    still = [name for name in names.rstrip("}").split(", ") if named_in(name.split(" as ")[-1].strip(), body)]
    return f"{path}{still[0] if len(still) == 1 else '{' + ', '.join(still) + '}'};" if still else None


def named_in(name, body):
    """Whether a type or a constant is named, or a module before a name of its own."""
    return re.search(rf"\b{name}\b" if name[0].isupper() else rf"\b{name}::", body)


def strip(crate, laws):
    """Takes the functions, and the laws unless they are wanted, out of a crate's folder; gives whether anything to prove is left."""
    for proof in [file for name in FUNCTION_PROOFS for file in crate.glob(f"proofs/*/**/{name}.antt")]:
        shutil.rmtree(proof.parent, ignore_errors=True)
    for part in ("must-fail", "data") if laws else ("must-fail", "data", "proofs"):
        shutil.rmtree(crate / part, ignore_errors=True)
    for part in ("stdin", "stdout", "args"):
        (crate / part).unlink(missing_ok=True)
    for source in crate.glob("src/**/*.rt"):
        text = without_functions(source.read_text())
        if re.search(r"\bfn\b|\bensures\b", re.sub(r"//.*", "", text)):
            raise Bad(f"a function is left in {source}: this test reads the source wrongly")
        source.write_text(text)
    # a program becomes a library of its laws
    if (crate / "src/main.rt").is_file():
        (crate / "src/main.rt").rename(crate / "src/lib.rt")
    laws = [law for part in ("specs", "proofs") for law in crate.glob(f"{part}/**/*.antt") if law.name != "Lib.antt"]
    return bool(laws)


def read_crates(where):
    lines = [line.split("#")[0] for line in (where / "crates.txt").read_text().splitlines()]
    return {line.split(":")[0].split()[0]: line.split(":")[1].split() for line in lines if ":" in line}


def copy(source, where, *left_out):
    """crates.txt and crates/, freshly, without folders of the names that are left out."""
    shutil.rmtree(where / "crates", ignore_errors=True)
    shutil.copytree(source / "crates", where / "crates", ignore=shutil.ignore_patterns(*left_out))
    shutil.copy(source / "crates.txt", where / "crates.txt")


def theorems_alone(where, laws):
    """The repository's crates, without functions, and without proofs/ unless laws are wanted; gives what each stands on."""
    copy(ROOT, where, "out")
    crates = read_crates(where)
    gone = [crate for crate in crates if not strip(where / "crates" / crate, laws)]
    for crate in gone:
        shutil.rmtree(where / "crates" / crate)
    kept = {crate: [below for below in needs if below not in gone] for crate, needs in crates.items() if crate not in gone}
    (where / "crates.txt").write_text("".join(f"{crate}: {' '.join(needs)}\n" for crate, needs in kept.items()))
    return kept


# ---- checking

running = set()


def check(where, crates):
    """What rt said of the crates, lowest first, with paths from the folder, and 0 if it proved all; one prover at a time."""
    said, status = "", 0
    for crate in read_crates(where):
        if crate in crates:
            told, code = check_crate(where / "crates" / crate)
            said, status = said + from_root(told, f"crates/{crate}"), status or code
    return said, status


def check_crate(folder):
    rt = subprocess.Popen(["rt", "check", "--jobs", "1"], cwd=folder, stdout=subprocess.PIPE, stderr=subprocess.STDOUT, text=True,
                          start_new_session=True)
    running.add(rt)
    try:
        return rt.communicate()[0], rt.returncode
    finally:
        running.discard(rt)


def from_root(said, folder):
    """What rt said in a crate's folder, with the paths of errors from the root."""
    return ERROR.sub(lambda line: os.path.normpath(os.path.join(folder, line[1])) + line[0].removeprefix(line[1]), said)


def errors(said):
    """(file, theorem, text) of each error that stands on its own."""
    for file, _, theorem, text in ERROR.findall(said):
        if FOLLOWS not in text:
            yield file, theorem, text


def try_edit(edit, base, crates):
    """(noticed, what to say) of an edit."""
    unknown = [crate for crate in edit.crates if crate not in crates]
    if unknown:
        return False, f"ILL-FORMED: no definition stands in {unknown[0]}"
    with tempfile.TemporaryDirectory(prefix="misreading-") as folder:
        where = Path(folder).resolve()
        # with what rt keeps in each crate's out/, so that it checks what changed and what stands on that
        copy(base, where)
        changed = edit.apply(where)
        said, status = check(where, edit.asked)
        return judge(edit, changed, status, list(errors(said)), said)


def judge(edit, changed, status, found, said):
    if status == 0:
        return False, "NOT NOTICED: all is still proved"
    for file, theorem, text in found:
        if (file, theorem) in changed or not theorem or SHAPE.search(text):
            return False, f"ILL-FORMED: {place(file, theorem)}: {text[:200]}"
    places = [(file, theorem) for file, theorem, _ in found]
    missed = [theorem for theorem in edit.theorems if theorem not in places]
    seen = ", ".join(dict.fromkeys(place(*found) for found in places)) or said.strip().split("\n")[-1]
    if missed:
        return False, f"NOT NOTICED by {', '.join(place(*theorem) for theorem in missed)}; refused at {seen}"
    return True, f"noticed by {', '.join(place(*theorem) + kind(*theorem) for theorem in edit.theorems)}; first at {place(*places[0])}"


def place(file, theorem):
    return f"{file.removeprefix('crates/')}: {theorem or '?'}"


def kind(file, theorem):
    """A computed theorem is false if it is refused; of a law one has to read that its statement is."""
    computed = re.search(rf"^ *{re.escape(theorem)} = refl$", (ROOT / file).read_text(), re.M)
    return " (computed)" if computed else " (law)"


# ---- the command


def prove(where, laws):
    where.mkdir(parents=True, exist_ok=True)
    crates = theorems_alone(where, laws)
    said, status = check(where, crates)
    if status:
        print(said[-4000:])
        raise Bad("the definitions and theorems alone, unchanged, are not proved, see above")
    print(f"unchanged, {'laws and examples' if laws else 'examples alone'}: proved, {len(crates)} crates", flush=True)
    return where, crates


def try_all(edits, bases, jobs):
    lock = threading.Lock()

    def one(edit):
        noticed, told = try_edit(edit, *bases[edit.laws])
        with lock:
            print(f"{edit.name}: {told}", flush=True)
        return noticed

    with ThreadPoolExecutor(jobs) as pool:
        return list(pool.map(one, edits))


def main():
    options = argparse.ArgumentParser(usage="tests/misreadings.py [--only NAME] [--jobs 1|2] [--work FOLDER] [--read] [--table]")
    options.add_argument("--only")
    options.add_argument("--jobs", type=int, choices=(1, 2), default=1)
    options.add_argument("--work", type=Path)
    options.add_argument("--read", action="store_true")
    options.add_argument("--table", action="store_true")
    asked = options.parse_args()
    edits = [Edit(path) for path in sorted(EDITS.glob("*.edit")) if asked.only in (None, path.stem)]
    if not edits:
        raise Bad(f"no misreading {asked.only or ''} in {EDITS}")
    if asked.table:
        print("\n".join(edit.row() for edit in edits))
        return 0
    with tempfile.TemporaryDirectory(prefix="misreadings-") as folder:
        base = (asked.work or Path(folder)).resolve()
        if base.is_relative_to(ROOT):
            raise Bad("--work names a folder of the repository")
        base.mkdir(parents=True, exist_ok=True)
        if asked.read:
            listed = LIST.read_text().split("\n")
            unlisted = [edit.name for edit in edits if edit.row() not in listed]
            if unlisted:
                raise Bad(f"{LIST.name} has no such row for {', '.join(unlisted)}: paste what --table prints")
            print(f"misreadings: {len(edits)} edits, {len(theorems_alone(base, True))} crates, nothing proved")
            return 0
        bases = {laws: prove(base / ("laws" if laws else "examples"), laws) for laws in {edit.laws for edit in edits}}
        told = try_all(edits, bases, asked.jobs)
    print(f"{sum(told)} noticed, {len(told) - sum(told)} not")
    return 0 if all(told) else 1


if __name__ == "__main__":
    try:
        sys.exit(main())
    except Bad as bad:
        print(f"misreadings: {bad}", file=sys.stderr)
        sys.exit(1)
    except KeyboardInterrupt:
        for rt in list(running):
            os.killpg(rt.pid, signal.SIGTERM)
        sys.exit(1)
