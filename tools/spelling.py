"""Brings the names that this repository's specs/ and proofs/ declare to today's spelling: words in snake case, with '_' where '-'
and camel case stood; types keep their capitals. Run once, at the root, behind the kit's port.py. A name that a proof file answers
to is the toolchain's, and stays; so do functions of src/, exported names and strings.
"""
import os
import re
import sys
from collections import defaultdict

WORD = r"[A-Za-z][A-Za-z0-9_'′₀-₉-]*"
TOKEN = re.compile(rf"(?<![A-Za-z0-9_'′₀-₉◌-]){WORD}")
DECLARED = re.compile(rf"^\s*(?:abbrev |unfoldable |axiom )*(?:pub )?(?:abbrev |unfoldable )*({WORD}) :(?: |$)")
TYPE = re.compile(rf"^\s*(?:abbrev )?(?:pub )?(?:record|data)\s+({WORD})")
IMPORT = re.compile(r"use ([\w.]+)\.\{(.*?)\}", re.S)
# the papers' own letters and part numbers, and names whose new spelling would be a word of the language's
SPECIAL = {
    "R": "r_set", "W": "w_set", "OPEN": "diode_open_bit", "LHIGH": "lhigh_bit", "LLOW": "llow_bit", "RHIGH": "rhigh_bit", "RLOW": "rlow_bit",
    "RCRIT": "rcrit_bit", "LCRIT": "lcrit_bit", "LM89C": "lm89c", "LM89-1C": "lm89_1c", "LM89-1D": "lm89_1d", "D1At": "d1_at", "D3At": "d3_at",
    "D0": "d0", "D1": "d1", "D2": "d2", "D3": "d3", "D4": "d4", "D7": "d7", "Event-of": "EventOf",
    "at-90-kHz": "at_90_khz", "notRead": "not_read_failure", "notWritten": "not_written_failure",
}
# laws that would fall together with the function they speak of
for law in ("as-alone", "bit-of", "bus-after", "first-lower", "in-force", "in-header", "latest-first", "on-bus", "onto-met", "reading-in",
            "second-taken", "with-limits", "with-masks", "with-queue", "without-queue"):
    SPECIAL[law] = law.replace("-", "_") + "_lem"
# the same where the kit's script had respelled the law
IN_FILE = {
    "device_laws/proofs/Registers.antt": {"put_byte": "put_byte_lem", "read_number": "read_number_lem"},
    "soak/specs/Examples.antt": {"to_the_start": "to_the_start_lem"},
}

# names of variables
VARIABLES = ("oldCount", "offsetHigh", "offsetLow", "to-first", "to-second", "low-kept", "o-half", "o-odd", "a-odd", "b-half", "b-odd", "four-long", "wide-end",
             "table-in")


def snake(name):
    if name in SPECIAL:
        return SPECIAL[name]
    if re.fullmatch(r"[A-Z][A-Za-z0-9]*", name):
        return name
    parts = re.sub(r"(?<=[a-z0-9])(?=[A-Z])", "_", name.replace("-", "_"))
    return re.sub(r"(?<=[A-Z])(?=[A-Z][a-z])", "_", parts).lower()


def walk(top, endings):
    for folder, folders, files in os.walk(top):
        folders[:] = sorted(d for d in folders if d not in ("out", "build", "target", ".git"))
        yield from (os.path.join(folder, f) for f in sorted(files) if f.endswith(endings))


def read(path):
    with open(path, encoding="utf-8") as file:
        return file.read()


def of_function(path):
    """Whether a file of proofs/ stands in a function's folder, where names are the toolchain's."""
    return "/proofs/" in path and "/" in path.split("/proofs/", 1)[1]


def declared():
    """Each name that is declared, with the files that declare it, and each name that is imported from elsewhere, with the files."""
    own, other = defaultdict(set), defaultdict(set)
    for path in walk("crates", (".antt", ".rt")):
        text = read(path)
        for module, names in IMPORT.findall(text):
            crate = module.split(".")[1] if module.startswith("Rattle.") else ""
            if not (crate and os.path.isdir(f"crates/{crate}")):
                for name in names.split(","):
                    other[name.split(" as ")[0].strip()].add(path)
        if not path.endswith(".antt"):
            continue
        data = False
        for line in text.splitlines():
            if line.lstrip().startswith("--"):
                continue
            found = DECLARED.match(line) or TYPE.match(line)
            if found and not (of_function(path) and (": tie." in line or found[1].endswith(("-spec", "_spec")))):
                own[found[1]].add(path)
    for name in VARIABLES:
        own[name].add("")
    return own, other


def renamed(path, text, own, other, any_form):
    """The text with each name in its new spelling; `any_form` takes a word whose new spelling is declared, too."""
    spelt = {snake(name) for name in own} if any_form else set()
    source = path.endswith(".rt") or (path.endswith(".edit") and re.search(r"(?m)^file: src/", text))
    here = next((laws for end, laws in IN_FILE.items() if path.endswith(end)), {})

    def turn(found):
        word = found[0]
        tail = ""
        while word and word[-1] == "-":
            word, tail = word[:-1], "-" + tail
        if path in other.get(word, ()) or re.fullmatch(r"[A-Z]+_[A-Z0-9_]+" if not source else r"[A-Z][A-Z0-9_]*", word):
            return found[0]
        if word in here:
            return here[word] + tail
        if word in own or (any_form and snake(word) in spelt):
            return snake(word) + tail
        return found[0]

    return TOKEN.sub(turn, text)


def of_code(path, text, own, other):
    """A file of antt or of the program: its names, but no hyphened word of a comment, which is English."""
    mark = "--" if path.endswith(".antt") else "//"
    whole = {name: own[name] for name in own if "-" not in name and name not in SPECIAL}
    lines = []
    for line in text.split("\n"):
        at = line.find(mark + " ")
        code, comment = (line[:at], line[at:]) if at >= 0 else (line, "")
        lines.append(renamed(path, code, own, other, False) + renamed(path, comment, whole, {}, False))
    return "\n".join(lines)


def of_page(path, text, own, other):
    """A page: the names in backticks."""
    return re.sub(r"`[^`\n]+`", lambda span: renamed(path, span[0], own, {}, True), text)


def main():
    own, other = declared()
    together = defaultdict(set)
    for name in own:
        together[snake(name)].add(name)
    for new, names in sorted(together.items()):
        if len(names) > 1:
            where = {n: sorted(p.replace("crates/", "") for p in own[n]) for n in names}
            print(f"together: {new}: {where}")
    changed = {n for n in own if snake(n) != n}
    for path in walk("crates", (".antt", ".rt")):
        text = read(path)
        before = set(TOKEN.findall(text))
        new = defaultdict(set)
        for name in before:
            new[snake(name) if name in changed and path not in other.get(name, ()) else name].add(name)
        for name, olds in sorted(new.items()):
            if len(olds) > 1:
                print(f"meets: {path}: {sorted(olds)}")
    if "--look" in sys.argv:
        return
    jobs = [(path, of_code) for path in walk("crates", (".antt", ".rt"))]
    jobs += [(path, lambda p, t, a, b: renamed(p, t, a, {}, True)) for top in ("crates", "misreadings") for path in walk(top, (".edit",))]
    jobs += [(path, of_page) for path in [*walk("docs", (".md",)), "README.md", "CONTRIBUTING.md"]]
    for path, turned in jobs:
        text = read(path)
        new = turned(path, text, own, other)
        if new != text:
            with open(path, "w", encoding="utf-8") as file:
                file.write(new)


if __name__ == "__main__":
    main()
