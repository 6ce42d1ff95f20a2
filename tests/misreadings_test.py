"""Holds tests/misreadings.py to what it reads: edits that are not in the form, a source without its functions, and what rt says."""
import sys
import tempfile
from pathlib import Path

sys.dont_write_bytecode = True
import misreadings

SOURCE = """#![tactic(auto)]
// A file.
ghost use Rattle.std.specs.Prelude.{◌≡◌};
use super::Device;
use super::variant;
use super::outputs;
use registers::{Position, STATUS, bits, page};
use record::{Record, decode};
use fan::{drive, table};

pub mod bus;

// A pair.
#[repr(C)]
#[derive(Clone, Copy)]
pub struct Pair {
    pub device: Device,
    pub at: Position,
    pub variant: u8,
}

const SIZE: usize = 14;

const KEPT: u8 = bits::ALL_KEPT;

// A step.
#[unsafe(no_mangle)]
pub extern "C" fn step(d: Device) -> Pair
    ensures { result ≡ step_of d }
{
    if d.pending {
        variant(d)
    }
}

pub(crate) fn none() {}

// Its number.
impl From<Pair> for u8 {
    ghost from_gives = { λ pair number. number ≡ pair.variant };

    fn from(pair: Pair) -> u8 {
        pair.variant
    }
}

impl<T> Kept<T> {
    pub fn get(&self) -> u8
        ensures { result ≡ 0 }
    {
        0
    }
}

fn last(d: Device) -> u8
{
    STATUS
}

pub struct Kept {
    pub record: Record,
}
"""
STRIPPED = """#![tactic(auto)]
// A file.
use super::Device;
use registers::{Position, bits};
use record::Record;

pub mod bus;

// A pair.
#[repr(C)]
#[derive(Clone, Copy)]
pub struct Pair {
    pub device: Device,
    pub at: Position,
    pub variant: u8,
}

const SIZE: usize = 14;

const KEPT: u8 = bits::ALL_KEPT;






pub struct Kept {
    pub record: Record,
}
"""
LAWS = """-- a limit
abbrev pub above_of : ℤ → ℤ → Bool
above_of t limit = lt_z limit t

pub record Row (n : ℕ) : Type 0 where
  pub high : ℕ

module _ (n : ℕ) where
  pub strict : above_of 1 1 ≡ false
  strict =
      let same : n ≡ n = refl in
      refl
"""
GOOD = """# Not strictly; noticed by: a/specs/A.antt: strict, Row
file: crates/a/specs/A.antt
old: = lt_z limit t
new: = le_z limit t
"""
BAD = {
    "no words": GOOD.replace("# Not strictly; ", "# "),
    "no such theorem": GOOD.replace("strict, Row", "strict, let"),
    "no such file": GOOD.replace("file: crates/a/specs/A", "file: crates/a/specs/B"),
    "no path from the root": GOOD.replace("file: crates/a/", "file: "),
    "no old text": GOOD.replace("= lt_z limit t", "= lt_z t limit"),
    "an old text twice": GOOD.replace("= lt_z limit t", "limit"),
    "no new text": GOOD.replace("new:", "then:"),
    "no pair": GOOD.split("\n")[0],
}
CHANGED = {("crates/a/specs/A.antt", "above_of")}
# what rt says of an edit, and how the verdict begins
SAID = [
    (
        "crates/a/specs/A.antt:10:3: error: `strict`: they differ\ncrates/a/specs/A.antt:5:1: error[x]: `Row`: they differ",
        "noticed by a/specs/A.antt: strict (law)",
    ),
    ("crates/a/specs/A.antt:10:3: error: `strict`: they differ", "NOT NOTICED by a/specs/A.antt: Row; refused at a/specs/A.antt: strict"),
    ("crates/a/specs/A.antt:10:3: error: `strict`: `x` was not admitted, so this cannot be checked", "NOT NOTICED by"),
    ("crates/a/specs/A.antt:3:9: error: `above_of`: they differ", "ILL-FORMED: a/specs/A.antt: above_of"),
    ("crates/a/specs/A.antt:3:9: error: a name was expected", "ILL-FORMED: a/specs/A.antt: ?"),
    ("crates/a/specs/A.antt:10:3: error: `strict`: record `R` has no field `x`", "ILL-FORMED"),
]


def read(root, text):
    path = root / "bad.edit"
    path.write_text(text)
    return misreadings.Edit(path, root)


def refused(root, text):
    try:
        read(root, text)
    except misreadings.Bad:
        return True
    return False


def faults(root):
    (root / "crates/a/specs").mkdir(parents=True)
    (root / "crates/a/specs/A.antt").write_text(LAWS)
    misreadings.ROOT = root
    edit = read(root, GOOD)
    if edit.apply(root) != CHANGED or "le_z limit t" not in (root / "crates/a/specs/A.antt").read_text():
        yield "an edit is not applied as written"
    (root / "crates/a/specs/A.antt").write_text(LAWS)
    yield from (f"an edit with {why} is read" for why, text in BAD.items() if not refused(root, text))
    if misreadings.without_functions(SOURCE).rstrip() != STRIPPED.rstrip():
        yield "a source without its functions is not what it should be"
    for said, verdict in SAID:
        told = misreadings.judge(edit, CHANGED, 1, list(misreadings.errors(said)), said)
        if not told[1].startswith(verdict) or told[0] != verdict.startswith("noticed"):
            yield f"'{said}' is told as '{told[1]}'"
    said = misreadings.from_root("./specs/A.antt:10:3: error: `strict`: they differ\n../b/specs/B.antt:1:2: error: a name", "crates/a")
    if [file for file, _, _ in misreadings.errors(said)] != ["crates/a/specs/A.antt", "crates/b/specs/B.antt"]:
        yield "the files of errors are not told from the root"
    if misreadings.judge(edit, CHANGED, 0, [], "")[0]:
        yield "an edit that is still proved is told as noticed"


with tempfile.TemporaryDirectory() as folder:
    found = list(faults(Path(folder)))
for fault in found:
    print(f"misreadings_test: {fault}")
print(f"misreadings_test: {len(found)} fault(s)")
sys.exit(bool(found))
