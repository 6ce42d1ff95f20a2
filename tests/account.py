#!/usr/bin/env python3
"""Request e: the account takes records and settings only. Exits 1, and names the way, if a file of the account (crates/history/specs: Account.antt,
Verdict.antt) imports or names a definition or a type that reaches the model's state or its effects: what FORBIDDEN lists, by whatever definitions and files.

What a name reaches is followed definition by definition, through imports, constructors, and the fields of the program's own types. In every file that is
read these are faults too, since a name could come in by them unseen: an import of another form than `use MODULE.{NAMES}`, one of a crate's proofs, one of a
name that is not there or that is imported already, a name by its whole path or in quotes, fields that are opened, a module or a block within which others
stand, a comment in braces, an operator's definition, and a type with ghost members. And so is a forbidden name that no longer exists.
A latch of the account's own making, kept by its own rule, would pass: that there is none is to be seen by reading the two files.
"""
import pathlib
import re
import sys

ROOT = pathlib.Path(__file__).resolve().parent.parent
ACCOUNT = ("history/specs/Account.antt", "history/specs/Verdict.antt")
# types of the program by CRATE::NAME, definitions by FILE: NAME
FORBIDDEN = (
    "conversion::Sensed", "device::Device", "device::Outcome", "device::Accepted", "device::Pins", "pair::Bus", "capture::Reader",
    "conversion/specs/Conversion.antt: live_of", "conversion/specs/Conversion.antt: latch_of", "conversion/specs/Conversion.antt: sensed_of",
    "device/specs/Pins.antt: alert_of", "device/specs/Pins.antt: tcrit_of", "device/specs/Bus.antt: status_read_of", "device/specs/Step.antt: effect_of",
    "device/specs/Step.antt: Stepped",
    "pair/specs/Bus.antt: bus_effect_of", "capture/specs/Whole.antt: whole_of", "capture/specs/Reader.antt: turn_of",
)
# the language's libraries: no crate of this repository is one of these, nor has the name std
LIBRARIES = re.compile(r"(?:Rattle\.std\.specs|Prim|lib|mathlib|native)\.")
USE = re.compile(r"use (\S+?)\.\{([^{}]*)\}$")
MARKS = re.compile(r"(?:abbrev |unfoldable |pub )*")
CRATE = re.compile(r"Rattle\.(?!std\.)(\w+)\.specs\.(.+)$")
KEYWORDS = re.compile(r"(?:abbrev |unfoldable |pub |data |record )*")
WORD = re.compile(r"[^\s(){}\[\],;.]+")
LAYOUT = {"infix", "infixl", "infixr", "unfolding", "where"}
REFUSED = {"mutual", "mod", "axiom", "ruleset"}


class Fault(Exception):
    pass


class Specs:
    """One file of definitions: what it imports, the text of each of its definitions, and which of them has each name."""

    def __init__(self, crates, name):
        self.name, self.imports, self.texts, self.owner = name, {}, {}, {}
        self.header, self.open_header, self.item = "", False, None
        path = crates / name
        if not path.is_file():
            raise Fault(f"no file {path}")
        for line in path.read_text().split("\n"):
            if "{-" in line or "-}" in line:
                self.refuse("a comment that this test does not read", line)
            line = re.sub(r"(^|\s)--(\s.*)?$", "", line).rstrip()
            if line:
                self.read(line)

    def refuse(self, what, line):
        raise Fault(f"{self.name}: {what}: {line.strip()}")

    def read(self, line):
        head, indent = line.strip(), len(line) - len(line.lstrip())
        first = MARKS.sub("", head, count=1).split()[0]
        if re.search(r"[«»\"@]", line):
            self.refuse("a name or a text in quotes", line)
        elif first == "use":
            self.read_use(line)
        elif re.search(r"\b(?:Rattle|package)\b", line):
            self.refuse("a name by its whole path", line)
        elif first in REFUSED or re.search(r"\bopen\b", line) or (first == "module" and (indent > 0 or not head.startswith("module _"))):
            self.refuse("a form that this test does not read", line)
        elif first == "module" or self.open_header:
            self.header = head if first == "module" else f"{self.header}\n{head}"
            self.item, self.open_header = None, not head.endswith("where")
        else:
            if indent == 0:
                self.header = ""
            self.read_definition(head, indent)

    def read_definition(self, head, indent):
        """A line at the margin, or at that of a module's body, begins or goes on with a definition; any other belongs to the one before it."""
        begins = indent == (2 if self.header else 0) and head.split()[0] not in LAYOUT
        if begins:
            self.item = KEYWORDS.sub("", head, count=1).split()[0]
        elif self.item is None:
            self.refuse("a line of no definition", head)
        if "◌" in self.item:
            self.refuse("an operator's definition", head)
        text = self.texts.get(self.item, self.header)
        constructor = re.match(r"(\S+) : ", head)
        if constructor and not begins and re.match(r"(?:pub )?data ", text.strip()):
            self.owner[constructor.group(1)] = self.item
        self.owner[self.item] = self.item
        self.texts[self.item] = f"{text}\n{head}"

    def read_use(self, line):
        use = USE.match(line)
        if not use or " as " in line:
            self.refuse("an import that this test does not read", line)
        if not CRATE.match(use.group(1)) and not LIBRARIES.match(use.group(1)):
            self.refuse("an import that is not of a crate's definitions or of a library", line)
        for word in map(str.strip, use.group(2).split(",")):
            if word in self.imports:
                self.refuse("a name that is imported twice", line)
            self.imports[word] = use.group(1)


class Reach:
    """What the definitions of a tree of crates reach."""

    def __init__(self, crates):
        self.crates, self.files = crates, {}

    def specs(self, name):
        if name not in self.files:
            self.files[name] = Specs(self.crates, name)
            for word, module in self.files[name].imports.items():
                self.imported(module, word)
        return self.files[name]

    def declared(self, crate, kind):
        """The text of a type of the program."""
        for path in sorted((self.crates / crate / "src").glob("*.rt")):
            found = re.search(rf"(?ms)^(?:#\[.*?\]\n)*(?:pub(?:\(crate\))? )?(?:struct|enum) {kind}\b(.*?)(?:^\}}|;$)", path.read_text())
            if found and re.search(r"\bghost\b", found.group(1)):
                raise Fault(f"{crate}::{kind}: a type that this test does not read")
            if found:
                return found.group(1)
        raise Fault(f"no type {kind} in crate {crate}")

    def imported(self, module, word):
        """The node of an imported name, or None where it comes from the language's libraries."""
        crate = CRATE.match(module)
        if not crate:
            return None
        name, path = crate.group(1), crate.group(2).split(".")
        if path[0] == "declared":
            return f"{name}::{next((part for part in path if part[0].isupper()), word)}"
        file = f"{name}/specs/{path[0]}.antt"
        owner = self.specs(file).owner.get(word)
        if owner is None:
            raise Fault(f"{file} has no {word}, which is imported from it")
        return f"{file}: {owner}"

    def next(self, node):
        """The nodes that a node names."""
        if "::" in node:
            crate, kind = node.split("::")
            for word in set(re.findall(r"\b[A-Z]\w*", self.declared(crate, kind))) - {kind}:
                yield from self.types(word)
            return
        file, item = node.split(": ")
        specs = self.specs(file)
        if item not in specs.texts:
            raise Fault(f"{file} has no {item}")
        for word in sorted(set(WORD.findall(specs.texts[item]))):
            if word in specs.owner:
                yield f"{file}: {specs.owner[word]}"
            elif word in specs.imports:
                found = self.imported(specs.imports[word], word)
                if found:
                    yield found

    def types(self, word):
        """Every type of the program with this name; a variant of an enum is none."""
        for path in sorted(self.crates.glob("*/src/*.rt")):
            if re.search(rf"(?m)^(?:pub(?:\(crate\))? )?(?:struct|enum) {word}\b", path.read_text()):
                yield f"{path.parts[-3]}::{word}"

    def ways(self, starts):
        """For each node reached from some ways, the way to it."""
        found = {way[-1]: way for way in starts}
        left = list(found)
        while left:
            node = left.pop()
            for other in self.next(node):
                if other not in found:
                    found[other] = found[node] + [other]
                    left.append(other)
        return found


def faults(crates):
    """What is wrong with the account of a tree of crates."""
    reach = Reach(crates)
    try:
        for node in FORBIDDEN:
            list(reach.next(node))
        own = [[f"{file}: {item}"] for file in ACCOUNT for item in reach.specs(file).texts]
        imports = [[file, reach.imported(module, word)] for file in ACCOUNT for word, module in reach.specs(file).imports.items()]
        ways = reach.ways([way for way in imports if way[-1]] + own)
    except Fault as fault:
        return [str(fault)], 0
    told = [f"{node} is reached: {' > '.join(ways[node])}" for node in FORBIDDEN if node in ways]
    return told, len(ways)


def main():
    told, reached = faults(ROOT / "crates")
    for fault in told:
        print(f"account: {fault}")
    print(f"account: {reached} definitions and types reached, {len(FORBIDDEN)} forbidden, {len(told)} fault(s)")
    return 1 if told or not reached else 0


if __name__ == "__main__":
    sys.exit(main())
