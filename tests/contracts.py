"""The functions of a Rattle source and the clauses of their contracts, as they stand in its text: read by tests/house.py and tests/map.py.

A clause is `requires { .. }` or `ensures { .. }`, with a name before its brace or without one. A function of an `impl` of a trait is as public as the trait,
and promises what the ghost members of that `impl` say. What does not read as a function with clauses and a body, or as such an `impl`, is a fault, and so is
a function or a clause of the text that no function read accounts for: nothing is passed over.
"""
import re

# an `impl` of a trait, and a ghost member of it
TRAIT = re.compile(r"^[ \t]*(?:unsafe )?impl\b(?:<(?:[^<>{]|<[^<>{]*>)*>)?\s*([^{]+?)\s+for\s+([^{]+?)(?:\s+where\b[^{]*?)?\s*(?=\{)", re.M)
IMPL = re.compile(r"\bimpl\b[^{]*?\bfor\b(?! *<)")
GHOST = re.compile(r"\bghost (?:\w+) = (?=\{)")
NAMED = re.compile(r"\bfn (\w+)")
CLAUSE = re.compile(r"\b(ensures|requires)\b(\*?)(?: \w+)? $")
# comments, texts and characters in quotes, in that order of trial
QUIET = re.compile(r"//[^\n]*|b?\"(?:\\.|[^\"\\])*\"|b?'(?:\\.|[^'\\\n])'", re.S)
# an array's type, of an array's at most, in what a function gives
ARRAY = re.compile(r"\[(?:[^\[\]]|\[[^\[\]]*\])*\]")
CLOSES = {"(": ")", "{": "}", "[": "]"}


class Unread(Exception):
    pass


class Function:
    """`line` is that of its `fn`, `mark` what stands there before the word, `lines` how many there are to its last brace."""

    def __init__(self, text, match):
        start = text.rfind("\n", 0, match.start()) + 1
        self.name, self.line, self.mark = match[1], text.count("\n", 0, start) + 1, text[start : match.start()].strip()
        opens = text.find("(", match.end())
        if opens < 0:
            raise Unread(f"{self.line}: {self.name} has no parameters")
        at = closed(text, opens)
        self.parameters, self.clauses, self.trait, self.given = text[opens + 1 : at - 1], [], None, []
        while True:
            opens = text.find("{", at)
            if opens < 0 or ";" in ARRAY.sub("", text[at:opens]):
                raise Unread(f"{self.line}: {self.name} has no body")
            clause = CLAUSE.search(text[at:opens])
            if not clause:
                break
            at = closed(text, opens)
            self.clauses.append((clause[1], text[opens + 1 : at - 1].strip()))
        self.end = closed(text, opens)
        self.lines = text.count("\n", start, self.end) + 1

    @property
    def public(self):
        """Seen by every crate above; `pub(crate)` is private."""
        return self.trait is not None or re.match(r"pub(?!\()\b", self.mark) is not None

    @property
    def path(self):
        """Its name in its crate: that of a trait's has the type and the trait."""
        return f"<{self.trait[1]} as {self.trait[0]}>::{self.name}" if self.trait else self.name

    def kind(self, kind):
        """What its clauses of this kind say."""
        return [said for word, said in self.clauses if word == kind]


def quiet(text):
    """The text with blanks in the place of comments and of what stands in quotes."""
    return QUIET.sub(lambda match: re.sub(r"[^\n]", " ", match[0]), text)


def closed(text, at):
    """The place behind the bracket that closes the one at this place."""
    wanted = []
    for place in range(at, len(text)):
        if text[place] in CLOSES:
            wanted.append(CLOSES[text[place]])
        elif wanted and text[place] == wanted[-1]:
            wanted.pop()
            if not wanted:
                return place + 1
    raise Unread(f"{text.count(chr(10), 0, at) + 1}: a bracket is not closed")


def of_traits(text, found):
    """Tells the functions of a trait's `impl` its trait and type, and what its ghost members say."""
    for match in TRAIT.finditer(text):
        first, end = text.count("\n", 0, match.start()) + 1, closed(text, match.end())
        last = text.count("\n", 0, end) + 1
        given = [text[ghost.end() + 1 : closed(text, ghost.end()) - 1].strip() for ghost in GHOST.finditer(text, match.end(), end)]
        for function in found:
            if first <= function.line <= last:
                function.trait, function.given = (match[1], match[2]), given


def functions(text):
    """The functions of a source, in order. Raises Unread where one does not read, or where the text has a function or a clause more."""
    text = quiet(text)
    found = [Function(text, match) for match in NAMED.finditer(text)]
    of_traits(text, found)
    if len(IMPL.findall(text)) != len(TRAIT.findall(text)):
        raise Unread("an impl of a trait of a form that this test does not read")
    written = len(re.findall(r"\b(?:ensures|requires)\b", text))
    read = sum(len(function.clauses) for function in found)
    if len(re.findall(r"\bfn\b", text)) != len(found):
        raise Unread("a function of a form that this test does not read")
    if written != read:
        raise Unread(f"{written - read} clause(s) of a form that this test does not read")
    return found
