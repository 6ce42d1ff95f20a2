#!/usr/bin/env python3
"""House rules that the prover does not check; exits 1 and names each place that breaks one. Layout is the toolchain's: `rt ci` refuses
what `rt fmt` would change.

- a `use` line brings in nothing that its file does not name;
- a public function has an `ensures` that says something, and no `requires` (`pub(crate)` is private); one of a trait has such an `ensures`, or the `impl`
  a ghost member that says something;
- a function has at most 40 lines;
- a line of a crate or of a document has at most 200 characters, though 160 are asked for.

Before it reads the crates it is held to sources that break these rules (BREAK) and to some that do not (KEEP).
"""
import pathlib
import re
import sys

import contracts

ROOT = pathlib.Path(__file__).resolve().parent.parent
LINE_MOST = 200
LINES_MOST = 40
# the folder of what the prover leaves beside a crate
MADE = "out"
USE = re.compile(r"(?:ghost )?use ")
# traits of std that are named by their methods alone
TRAITS = {"Read": ("read",), "Write": ("write", "write_all")}
WORD = re.compile(r"[^\s(){}\[\],;.]+")
NAME = re.compile(r"[\w«»·'′-]+")
# sources, and a word of what must be told of each
BREAK = (
    ("pub fn f(a: u8) -> u8\n{\n    a\n}\n", "promises nothing"),
    ("pub fn f(a: u8) -> u8 {\n    a\n}\n", "promises nothing"),
    ("pub extern \"C\" fn f(a: u8) -> u8\n    ensures {  }\n{\n    a\n}\n", "promises nothing"),
    ("pub fn f(a: u8) -> u8\n    // ensures { result ≡ a }\n{\n    a\n}\n", "promises nothing"),
    ("pub fn f(a: u8) -> u8\n    requires { a < 3 }\n    ensures { result ≡ a }\n{\n    a\n}\n", "has a requires"),
    ("pub fn f(a: u8) -> u8\n    requires small { a < 3 }\n    ensures same { result ≡ a }\n    ensures low { result < 3 }\n{\n    a\n}\n", "has a requires"),
    ("impl S {\n    pub fn f(self) -> u8\n    {\n        1\n    }\n}\n", "promises nothing"),
    ("impl From<S> for u8 {\n    fn from(s: S) -> u8 {\n        1\n    }\n}\n", "promises nothing"),
    ("impl From<S> for u8 {\n    ghost from_gives = {  };\n\n    fn from(s: S) -> u8 {\n        1\n    }\n}\n", "promises nothing"),
    ("impl From<S> for u8 {\n    // ghost from_gives = { λ s n. n ≡ f s };\n    fn from(s: S) -> u8 {\n        1\n    }\n}\n", "promises nothing"),
    ("impl From<S> for u8 {\n    ghost from_gives = { λ s n. n ≡ f s };\n}\n\nimpl From<T> for u8 {\n    fn from(t: T) -> u8 {\n        1\n    }\n}\n", "promises nothing"),
    ("mod m {\n    impl From<S> for u8 {\n        fn from(s: S) -> u8 {\n            1\n        }\n    }\n}\n", "promises nothing"),
    ("unsafe impl From<S> for u8 {\n    fn from(s: S) -> u8 {\n        1\n    }\n}\n", "promises nothing"),
    ("impl<T> From<T> for u8\nwhere\n    T: Copy,\n{\n    fn from(t: T) -> u8 {\n        1\n    }\n}\n", "promises nothing"),
    ("#[x] impl From<S> for u8 {\n    fn from(s: S) -> u8 {\n        1\n    }\n}\n", "cannot be read"),
    ("fn f() {\n" + "    g();\n" * 39 + "}\n", "has 41 lines"),
    ("fn f(a: u8) -> u8;\n", "cannot be read"),
    ("fn f(a: u8) -> u8\n    ensures result ≡ a\n{\n    a\n}\n", "cannot be read"),
    ("ghost use Rattle.std.specs.Prelude.{◌+◌, ◌≡◌};\nfn f(a: u8) -> u8\n    ensures { result ≡ a }\n{\n    a\n}\n", "unused import ◌+◌"),
    ("use Rattle.std.specs.Prelude.{if◌then◌else◌}\nf a = if a then b\n", "unused import if◌then◌else◌"),
    ("use Rattle.a.specs.B.{word_of}\nf a = word_off a (word_ of) -- word_of\n", "unused import word_of"),
    ("use Rattle.a.specs.B.{words}\n-- words\n", "unused import words"),
    ("use Rattle.a.proofs.f.Goals as goal\nf = goals.End\n", "unused import goal"),
    ("use std::io::{Read, Write};\nfn f(rt: HostRuntime) {\n    rt.stdout().write_all(b\"a\");\n}\n", "unused import Read"),
    ("use std::io::Write;\nfn f(rt: HostRuntime) {\n    write_all(rt);\n}\n", "unused import Write"),
    ("use Rattle.a.specs.B.{\n  word_of}\nf = word_of\n", "cannot be read"),
)
KEEP = (
    "pub fn f(a: u8) -> u8\n    ensures { result ≡ a }\n{\n    a\n}\n",
    "#[unsafe(no_mangle)]\npub extern \"C\" fn f(a: [u8; 14]) -> [[u8; 2]; 8]\n    ensures same { result ≡ f_of {n = 3} a }\n    ensures low { result < 3 }\n{\n    a\n}\n",
    "pub(crate) fn f(a: u8) -> u8\n    requires { a < 3 }\n    ensures { result ≡ a }\n{\n    a\n}\n",
    "impl From<S> for u8 {\n    ghost from_gives = { λ s n. n ≡ f s };\n\n    fn from(s: S) -> u8 {\n        1\n    }\n}\n",
    "impl From<Result<S, T>> for c::U {\n    ghost use Rattle.a.specs.B.{f};\n\n    ghost from_gives = { λ s n. n ≡ f s };\n\n    fn from(s: Result<S, T>) -> c::U {\n        1\n    }\n}\n",
    "impl S {\n    fn f(self) -> u8 {\n        1\n    }\n}\n",
    "fn f() {\n" + "    g();\n" * 38 + "}\n",
    "ghost use Rattle.std.specs.Prelude.{◌≡◌, ◌&&◌, []};\nfn f(a: u8) -> u8\n    ensures { result ≡ (a && g []) }\n{\n    a\n}\n",
    "use std::io::Write;\nfn f(rt: HostRuntime) {\n    rt.stdout().write_all(b\"a\");\n}\n",
    "use Rattle.a.proofs.f.Goals as goal\nuse Rattle.a.specs.B.{word_of, ◌∷◌}\nf = goal.End (word_of.x ∷ xs)\n",
)


def imported(line):
    """The names that a `use` line brings into the file, as the file writes them."""
    group = re.search(r"\{(.*)\}", line)
    if group:
        names = [n.strip() for n in group.group(1).split(",")]
        return [n.split(" as ")[-1].strip() for n in names if n]
    alias = re.search(r" as (\S+?);?$", line)
    if alias:
        return [alias.group(1)]
    return [re.split(r"::", line.rstrip(";"))[-1].strip()] if "::" in line else []


def unused(text):
    """The names imported that the rest of the text does not have; an operator's are the parts beside its places."""
    lines = text.split("\n")
    body = "\n".join(re.sub(r"(^|\s)(--\s|//).*", "", line) for line in lines if not USE.match(line))
    words = set(WORD.findall(body)) | set(NAME.findall(body))
    for use in filter(USE.match, lines):
        if use.count("{") != use.count("}"):
            yield f"an import that cannot be read: {use}"
            continue
        for name in imported(use):
            parts = [part for part in name.split("◌") if part] if "◌" in name else [name]
            called = "std::" in use and any(f".{method}(" in body for method in TRAITS.get(name, ()))
            if not called and not all(part in words or (not WORD.search(part) and part in body) for part in parts):
                yield f"unused import {name}"


def promises(text):
    """What is wrong with the functions of a source, each with its line."""
    try:
        functions = contracts.functions(text)
    except contracts.Unread as fault:
        yield f"cannot be read: {fault}"
        return
    for function in functions:
        where = f"{function.line}: {function.name}"
        if function.lines > LINES_MOST:
            yield f"{where} has {function.lines} lines"
        if function.public:
            said = function.kind("ensures") + function.given
            if not said or "" in said:
                yield f"{where} is public and promises nothing"
            if function.kind("requires"):
                yield f"{where} is public and has a requires"


def long_lines(text):
    for number, line in enumerate(text.split("\n"), 1):
        if len(line) > LINE_MOST:
            yield f"{number}: {len(line)} characters"


def would_be_noticed():
    """Where these rules read a source wrongly."""
    for source, told in BREAK:
        found = [*promises(source), *unused(source)]
        if not any(told in fault for fault in found):
            yield f"tests/house.py does not tell '{told}' of: {source}"
    for source in KEEP:
        for fault in [*promises(source), *unused(source)]:
            yield f"tests/house.py tells '{fault}' of: {source}"


def main():
    faults = list(would_be_noticed())
    sources, theories = ([path for path in sorted((ROOT / "crates").rglob(kind)) if MADE not in path.parts] for kind in ("*.rt", "*.antt"))
    for path in sorted([*ROOT.glob("*.md"), *ROOT.glob("docs/**/*.md"), *theories, *sources]):
        faults += [f"{path.relative_to(ROOT)}:{fault}" for fault in long_lines(path.read_text())]
    for path in [*theories, *sources]:
        faults += [f"{path.relative_to(ROOT)}: {fault}" for fault in unused(path.read_text())]
    for path in sources:
        # programs' functions are for no crate, and have no promise of their own
        found = promises(path.read_text())
        faults += [f"{path.relative_to(ROOT)}:{fault}" for fault in found if path.name != "main.rt" or "is public" not in fault]
    if not sources or not theories:
        faults.append("no source was found: this test looks for them in the wrong place")
    for fault in faults:
        print(f"house: {fault}")
    print(f"house: {len(faults)} fault(s)")
    return 1 if faults else 0


sys.exit(main())
