#!/usr/bin/env python3
"""Tests of tests/account.py: the account as it stands has no fault, and each of these changes to a copy of it has the one that it should."""
import pathlib
import shutil
import sys
import tempfile

import account

CONVERSION = "use Rattle.conversion.specs.Conversion.{reading_of, local_of, faults_of}\n"
QUEUE = "use Rattle.conversion.specs.Conversion.{queued_of}\n"
STANDBY = "use Rattle.device.specs.Bus.{standby_of}\n"
FIRST, LATER = account.ACCOUNT
# what it is, the file, its text, what stands in its place, and what is told
CASES = (
    ("the device imported", FIRST, STANDBY, STANDBY + "use Rattle.device.specs.declared.Device.{Device}\n",
     "device::Device is reached: history/specs/Account.antt > device::Device"),
    ("what was sensed imported", LATER, QUEUE, QUEUE + "use Rattle.conversion.specs.declared.Sensed.{Sensed}\n", "conversion::Sensed is reached"),
    ("the effect imported", FIRST, STANDBY, STANDBY + "use Rattle.device.specs.Step.{effect_of}\n", "device/specs/Step.antt: effect_of is reached"),
    ("a test of the device imported", FIRST, STANDBY, "use Rattle.device.specs.Bus.{standby_of, takes_of}\n", "takes_of > device::Device"),
    ("the latch imported", LATER, QUEUE, "use Rattle.conversion.specs.Conversion.{queued_of, latch_of}\n", "Conversion.antt: latch_of is reached"),
    ("the live byte imported", FIRST, CONVERSION, "use Rattle.conversion.specs.Conversion.{reading_of, local_of, faults_of, live_of}\n", "live_of is reached"),
    ("a bus imported by a record's way", FIRST, STANDBY, STANDBY + "use Rattle.capture.specs.Whole.{on_record}\n", "capture::Reader is reached"),
    ("the latches of this crate", LATER, QUEUE, QUEUE + "use Rattle.history.specs.Latches.{latch_in}\n", "latch_in > "),
    ("a definition below that comes to name the device", "registers/specs/Page.antt", "one_shot = 0x0F\n",
     "one_shot = alert_of\n\nuse Rattle.device.specs.Pins.{alert_of}\n", "one_shot > device/specs/Pins.antt: alert_of"),
    ("a name that is not there", FIRST, STANDBY, "use Rattle.device.specs.Bus.{standby_of, stands_by}\n", "device/specs/Bus.antt has no stands_by"),
    ("an import of a whole file", FIRST, STANDBY, STANDBY + "use Rattle.device.specs.Step as step\n", "an import that this test does not read"),
    ("a name by its whole path", FIRST, "is_taken f = not", "is_taken f = Rattle.device.specs.Step.effect_of f || not", "a name by its whole path"),
    ("an import that is passed on", FIRST, STANDBY, STANDBY + "pub use Rattle.device.specs.Step.{effect_of}\n", "an import that this test does not read"),
    ("an operator", "device/specs/Bus.antt", "-- P10: the pointer set\n", "abbrev pub ◌⊛◌ : List ℕ → ℕ → Bool\ns ⊛ v = true\n\n", "an operator's definition"),
    ("a module within a module", "registers/specs/Page.antt", "module _ {A : Type 0} where\n",
     "module _ {A : Type 0} where\n  module _ (n : ℕ) where\n    hidden : ℕ\n    hidden = n\n\n", "a form that this test does not read"),
    ("a mutual block", "registers/specs/Page.antt", "-- ---- R and W\n", "mutual\n  hidden : ℕ\n", "a form that this test does not read"),
    ("an import of proofs", FIRST, STANDBY, STANDBY + "use Rattle.capture_laws.proofs.Run.{run_of}\n",
     "an import that is not of a crate's definitions or of a library"),
    ("a name behind a point without a blank", "capture_laws/specs/Events.antt", "events_of xs = events_behind (count_header xs)",
     "events_of xs = (λ ys.whole_of ys) (events_behind (count_header xs))", "events_of > capture/specs/Whole.antt: whole_of"),
    ("a name in the parameters of a module", "registers/specs/Page.antt", "module _ {A : Type 0} where\n",
     "use Rattle.device.specs.declared.Device.{Device}\nmodule _ {A : Type 0}\n    (d : Device) where\n", "on_position > device::Device"),
    ("an import from the package", FIRST, STANDBY, STANDBY + "use package.Rattle.device.specs.Step.{effect_of}\n",
     "not of a crate's definitions or of a library"),
    ("a module in quotes", FIRST, STANDBY, STANDBY + "use «Rattle.device».specs.Step.{effect_of}\n", "a name or a text in quotes"),
    ("fields opened where a clause stands", FIRST, "is_taken f = not", "is_taken f = pending where open f use {pending}\nis_took f = not",
     "a form that this test does not read"),
    ("an import of the crates' library", FIRST, STANDBY, STANDBY + "use Rattle.device\n", "an import that this test does not read"),
    ("the model under the library's name", FIRST, STANDBY, STANDBY + "use Rattle.std.proofs.Common.{effect_of}\n",
     "not of a crate's definitions or of a library"),
    ("a member behind a name", FIRST, STANDBY, STANDBY + "use Rattle.device.specs.Bus.{Bus.takes_of}\n", "device/specs/Bus.antt has no Bus.takes_of"),
    ("a type with ghost members", "device/src/lib.rt", "pub struct Device {\n", "pub struct Device {\n    ghost step: { effect_of },\n",
     "device::Device: a type that this test does not read"),
    ("a name in quotes", FIRST, "is_taken f = not", "is_taken f = «effect_of» f || not", "a name or a text in quotes"),
    ("an import behind a comment", FIRST, STANDBY, STANDBY + "{- -- -} use Rattle.device.specs.Step.{effect_of}\n", "a comment that this test does not read"),
    ("an import in a comment", FIRST, STANDBY, STANDBY + "{-\nuse lib.Step.{effect_of}\n-}\n", "a comment that this test does not read"),
    ("a name imported twice", FIRST, STANDBY, STANDBY + "use lib.Standby.{standby_of}\n", "a name that is imported twice"),
    ("a module below", FIRST, STANDBY, STANDBY + "mod Kid\n", "a form that this test does not read"),
    ("a marked block", "registers/specs/Page.antt", "-- ---- R and W\n", "abbrev mutual\n  hidden : ℕ\n", "a form that this test does not read"),
    ("a name that is not there, below", "capture_laws/specs/Events.antt", "use Rattle.device.specs.Ranges.{variant_of}\n",
     "use Rattle.device.specs.Ranges.{variant_of, varies_of}\n", "device/specs/Ranges.antt has no varies_of"),
    ("the state renamed", "device/src/lib.rt", "struct Device", "struct Sensor", "no type Device in crate device"),
)


def copied(folder):
    """A copy of every crate's definitions and program."""
    for part in ("specs", "src"):
        for path in (account.ROOT / "crates").glob(f"*/{part}"):
            shutil.copytree(path, folder / path.parts[-2] / part)


def altered(folder, file, old, new):
    path = folder / file
    text = path.read_text()
    if text.count(old) != 1:
        return False
    path.write_text(text.replace(old, new))
    return True


def wrong(case):
    """What is wrong with a case, or None."""
    what, file, old, new, told = case
    with tempfile.TemporaryDirectory() as name:
        folder = pathlib.Path(name)
        copied(folder)
        if not altered(folder, file, old, new):
            return f"{what}: its text does not stand once in {file}"
        found, _ = account.faults(folder)
        if not any(told in fault for fault in found):
            return f"{what}: not told, but {found}"
    return None


def main():
    found, _ = account.faults(account.ROOT / "crates")
    said = [f"the account as it stands: {fault}" for fault in found]
    said += [fault for fault in map(wrong, CASES) if fault]
    for fault in said:
        print(f"account_test: {fault}")
    print(f"account_test: {len(CASES)} changes, {len(said)} fault(s)")
    return 1 if said else 0


if __name__ == "__main__":
    sys.exit(main())
