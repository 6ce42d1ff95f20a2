"""Holds docs/STATEMENTS.md, the map, and the places that docs/PROFILE.md names, to the repository. Run from the repository's root.

Fails if one of them names a file, a definition, a theorem or an edit that does not exist, if an edit is not named in the map, if
a public function promises anything but an equation and its theorem of one answer is not named, or if the right side of a
function's equation names its result, as `result ≡ result` does, which any result meets. (That every public function has a promise and
asks nothing beforehand is tests/house.py's.)
"""
import re
import sys
from pathlib import Path

import contracts

MAP = Path("docs/STATEMENTS.md")
PROFILE = Path("docs/PROFILE.md")
CRATES = Path("crates")
PROOF_PLACE = re.compile(r"(\w+/(?:specs|proofs)/[\w/]+\.antt)(?:: (.+))?")
EDIT = re.compile(r"\w+/must-fail/\w+")
OTHER = re.compile(r"(?:crates|c|tests|samples|docs|scripts|second|include|examples|misreadings)/[\w./-]+")
EQUATION = re.compile(r"result ≡ ")
# what the ghost member of a conversion is a function of: what is converted, and the result
GIVEN = re.compile(r"λ [\w']+ ([\w']+)\. ")
# What an equation's left side may name that comes of the call: the result, or what a lent place holds then, or a field of these.
MADE = re.compile(r"(?<![\w'.-])(result|\w+\.new)((?:\.\w+)*) ≡ ")
SOURCES = sorted(CRATES.glob("*/src/**/*.rt"))
# promises that any result meets, and some that are like them and are not of that sort
CIRCULAR = (
    "result ≡ result", "result ≡ kept_of a result.code", "(d.new ≡ a) × (result ≡ f (cond t result a))", "result ≡ f {n = result} a",
    "let b = a in result ≡ f b result", "result ≡ (a && g.result result)", "result.code ≡ result.code", "result.code ≡ f result", "d.new ≡ f d.old d.new.x",
)
PLAIN = (
    "result ≡ f a", "result ≡ result' a", "result ≡ result_of a", "result ≡ f-result a", "(result ≡ f a) × (d.new ≡ g result)", "Full a result",
    "result ≡ a.result",
    "result.code ≡ f result.read", "d.new ≡ f d.old result", "f result.a ≡ g a", "f.result ≡ result a",
)
# what a conversion gives, and whether it names its result
GIVES = (("λ s n. n ≡ f n", True), ("λ s n. n ≡ f s", False), ("λ s n'. n' ≡ f n' s", True), ("λ s n. n ≡ n' s", False))
# contracts, and whether an equation for the result tells all of each
WHOLE = (
    ("    ensures { result ≡ f a }", "a: u8", True),
    ("    ensures same { result ≡ f a }", "a: u8", True),
    ("    ensures { result ≡ f a.now }", "a: &[u8]", True),
    ("    ensures { result ≡ f a.old }", "a: &mut [u8]", False),
    ("    ensures { result ≡ f a × g a ≡ b }", "a: u8", False),
    ("    ensures { (result ≡ f a) × (g a ≡ b) }", "a: u8", False),
    ("    ensures same { result ≡ f a }\n    ensures low { result < 3 }", "a: u8", False),
    ("    ensures { Full a result }", "a: u8", False),
    ("    ensures { f a ≡ g result }", "a: u8", False),
    ("    ensures { result ≡ f a → g a ≡ b }", "a: u8", False),
)


def declares(text, name):
    """A definition, a theorem, a record's field or a constructor of this name."""
    return re.search(rf"(?m)^ *(?:abbrev |unfoldable )?(?:pub )?(?:record |data )?{re.escape(name)}(?: |$)", text)


def missing(word):
    """What a word in backticks names and the repository does not have."""
    place = PROOF_PLACE.fullmatch(word)
    if place:
        path = CRATES / place[1]
        if not path.is_file():
            return [f"no file {path}"]
        names = re.split(r", ", place[2]) if place[2] else []
        return [f"{path} has no {name}" for name in names if not declares(path.read_text(), name)]
    if EDIT.fullmatch(word):
        path = CRATES / f"{word}.edit"
        return [] if path.is_file() else [f"no edit {path}"]
    if OTHER.fullmatch(word):
        return [] if Path(word).exists() else [f"no file {word}"]
    return []


def unnamed_edits(words):
    edits = {f"{path.parts[1]}/must-fail/{path.stem}" for path in CRATES.glob("*/must-fail/*.edit")}
    return [f"the edit {edit} is not named" for edit in sorted(edits - set(words))]


def split(said):
    """The text at the clause's own depth, with a blank in the place of what stands in brackets."""
    depth, plain = 0, ""
    for sign in said:
        depth -= sign in ")}]"
        plain += sign if depth == 0 else " "
        depth += sign in "({["
    return plain


def as_promise(given):
    """What the ghost member of a conversion says of its result."""
    match = GIVEN.match(given)
    return re.sub(rf"(?<![\w'.-]){re.escape(match[1])}(?![\w'-])", "result", given[match.end() :]) if match else given


def promises(function):
    return function.kind("ensures") + [as_promise(given) for given in function.given]


def equation(function):
    """Does one equation for the result tell all that the function promises and leaves?"""
    said = promises(function)
    return len(said) == 1 and EQUATION.match(said[0]) and not re.search("[×→⊎]", split(said[0])) and "&mut" not in function.parameters


def more_than_an_equation(path):
    """The public functions of a library's source that promise, or are lent, more than an equation tells."""
    try:
        return [function.path for function in contracts.functions(path.read_text()) if function.public and not equation(function)]
    except contracts.Unread:
        return []  # which `says_nothing` tells


def right_sides(promise):
    """Each side that stands right of `result ≡`, or of the like, to the end of its parenthesis, and what it may not name."""
    for match in MADE.finditer(promise):
        depth, end = 0, match.end()
        while end < len(promise) and depth >= 0:
            depth += {"(": 1, ")": -1}.get(promise[end], 0)
            end += 1
        own = rf"(?:{re.escape(match[2])}|(?![\w.]))" if match[2] else ""
        yield promise[match.end() : end], rf"(?<![\w'.-]){re.escape(match[1])}{own}(?![\w'-])"


def circular(text):
    """The functions of a source, private ones too, of which an equation's right side names what stands left."""
    for function in contracts.functions(text):
        if any(re.search(own, side) for said in promises(function) for side, own in right_sides(said)):
            yield function.path


def says_nothing(path):
    """A promise of a form that tests/contracts.py cannot read is a fault there."""
    try:
        return [f"{path}: {name} promises an equation whose right side names its result" for name in circular(path.read_text())]
    except contracts.Unread as fault:
        return [f"{path}: {fault}"]


def would_be_noticed():
    def found(promise):
        return list(circular(f"fn before() {{}}\nfn f(a: u8) -> u8\n    ensures {{ {promise} }}\n{{\n    a\n}}\n"))

    def whole(clauses, parameters):
        return bool(equation(contracts.functions(f"pub fn f({parameters}) -> u8\n{clauses}\n{{\n    a\n}}\n")[0]))

    def conversion(given):
        return list(circular(f"impl From<S> for u8 {{\n    ghost from_gives = {{ {given} }};\n\n    fn from(s: S) -> u8 {{\n        1\n    }}\n}}\n"))

    faults = [f"'{given}' is read wrongly" for given, told in GIVES if bool(conversion(given)) != told]
    faults += [f"'{promise}' names its result, which this test does not notice" for promise in CIRCULAR if found(promise) != ["f"]]
    faults += [f"'{promise}' is read as an equation that names its result" for promise in PLAIN if found(promise)]
    return faults + [f"'{clauses.strip()}' of '{parameters}' is read wrongly" for clauses, parameters, told in WHOLE if whole(clauses, parameters) != told]


def unanswered(words):
    libraries = {path.parts[1] for path in CRATES.glob("*/src/lib.rt")}
    functions = [f"{path.parts[1]}::{name}" for path in SOURCES if path.parts[1] in libraries for name in more_than_an_equation(path)]
    if not functions:
        return ["no public function with a lent buffer was found: this test reads the source wrongly"]
    return [f"{function} promises more than an equation and has no theorem of one answer here" for function in functions if function not in words]


def words_of(path):
    """What stands in backticks, also where a line ends within it."""
    return [" ".join(word.split()) for word in re.findall(r"`([^`]+)`", path.read_text())]


words = words_of(MAP)
faults = [f"{path}: {fault}" for path in (MAP, PROFILE) for word in words_of(path) for fault in missing(word)]
faults += [f"{MAP}: {fault}" for fault in unnamed_edits(words) + unanswered(words)]
faults += would_be_noticed() + [fault for path in SOURCES for fault in says_nothing(path)]
for fault in faults:
    print(f"map: {fault}")
print(f"map: {sum(map(bool, map(PROOF_PLACE.fullmatch, words)))} places, {len(faults)} fault(s)")
sys.exit(bool(faults))
