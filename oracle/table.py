#!/usr/bin/env python3
"""Computes the reading definition on frames, and compares it with the oracle's answers.

Usage: oracle/table.py FRAMES ANSWERS      lines as `gen.py` prints them, and the oracle's answers to them

Writes a copy of the crate `meaning` with the frames and answers as tables of at most 250 rows or 100,000 numbers, each with a test
that antt computes, and checks it with `rt check`. A row of more numbers is more than antt's stack holds. Prints how many frames hold; the exit status is 1 if a table does not.
A frame on which the Rust panics is expected to be refused with 3. The copy stands in a temporary folder, since `rt ci` refuses a proof file that is in the
repository and in no crate; target/table/log keeps what the check says.
"""
import os
import re
import shutil
import subprocess
import sys
import tempfile

ROWS = 250
NUMBERS = 100_000
TOP = os.path.dirname(os.path.dirname(os.path.abspath(__file__)))
LOG = os.path.join(TOP, "target", "table", "log")
MODULES = ["Numbers", "Padding", "Offsets", "Texts", "Depths", "Types", "TypeText", "Events", "Outcome", "Reading", "Calls"]

HEAD = """-- Frames with the oracle's answers. Assumes nothing.
use mathlib.Core.Path.{◌≡◌, refl}
use mathlib.Core.List.{List, [], ◌∷◌, map}
use mathlib.Core.Bool.{Bool, true, false}
use Prim.Native.Nat.{ℕ}
use lib.Dec.{eqb}
use lib.ListN.{length}
%s
use Rattle.meaning.specs.Choice.{pick}
use Rattle.meaning.specs.Outcome.{Outcome}
use Rattle.meaning.specs.Events.{triples}
use Rattle.meaning.specs.Calls.{frame_reading}

data Row : Type 0 where
  row : List ℕ → Bool → ℕ → List ℕ → List ℕ → Row

abbrev flat : Outcome → List ℕ
flat o = pick (eqb o.refusal 0) (0 ∷ o.used ∷ length o.events ∷ triples o.events) (o.refusal ∷ 0 ∷ 0 ∷ [])

abbrev got : Row → List ℕ
got (row t big p l a) = flat (frame_reading t big p l)

abbrev want : Row → List ℕ
want (row t big p l a) = a

abbrev rows : List Row
rows =
""" % "\n".join("use Rattle.meaning.specs.%s" % m for m in MODULES)


def unfolded():
    """The names that the computed test unfolds: every definition of the modules that is marked so."""
    names = []
    for module in MODULES:
        lines = open(os.path.join(TOP, "crates", "meaning", "specs", module + ".antt"), encoding="utf-8").read().split("\n")
        for i, line in enumerate(lines):
            single = re.match(r"\s*unfoldable pub (\S+) :", line)
            if single:
                names.append(module + "." + single.group(1))
            elif re.match(r"\s*unfoldable mutual", line):
                names.append(module + "." + re.match(r"\s*pub (\S+) :", lines[i + 1]).group(1))
    return " ".join(names)


def numbers(values):
    return "(" + "".join("%d ∷ " % v for v in values) + "[])"


def row(frame, answer):
    """One row, from a line of frames and the line of its answer."""
    text, order, position, hexadecimal = frame.split(b" ")
    frame_bytes = b"" if hexadecimal == b"-" else bytes.fromhex(hexadecimal.decode())
    if answer == b"PANIC":
        wanted = [3, 0, 0]
    else:
        wanted = [int(n) for n in re.split(rb"[ :]", answer)]
    return "    row %s %s %d %s %s ∷\n" % (
        numbers(text), "true" if order == b"b" else "false", int(position), numbers(frame_bytes), numbers(wanted))


def groups(rows):
    """The rows in groups that are short enough for one table."""
    group, size = [], 0
    for line in rows:
        count = line.count("∷")
        if group and (len(group) == ROWS or size + count > NUMBERS):
            yield group
            group, size = [], 0
        group.append(line)
        size += count
    yield group


def write_tables(room, frames, answers):
    """The copy of the crate, in a folder of its own, with a module for each so many rows."""
    crate = os.path.join(room, "crates", "meaning")
    for part in ("specs", "src"):
        shutil.copytree(os.path.join(TOP, "crates", "meaning", part), os.path.join(crate, part))
    with open(os.path.join(room, "crates.txt"), "w", encoding="utf-8") as out:
        out.write("meaning:\n")
    os.makedirs(os.path.join(crate, "proofs"))
    tail = "    []\n\nrows_hold : map got rows ≡ map want rows\nunfolding %s\nrows_hold = refl\n" % unfolded()
    modules = []
    for group in groups(row(f, a) for f, a in zip(frames, answers)):
        modules.append("Frames%d" % len(modules))
        with open(os.path.join(crate, "proofs", modules[-1] + ".antt"), "w", encoding="utf-8") as out:
            out.write(HEAD + "".join(group) + tail)
    with open(os.path.join(crate, "proofs", "Lib.antt"), "w", encoding="utf-8") as out:
        out.write("".join("pub mod %s\n" % m for m in modules))
    return crate


def main():
    if len(sys.argv) != 3:
        sys.exit(__doc__)
    frames, answers = (open(name, "rb").read().split(b"\n")[:-1] for name in sys.argv[1:])
    if len(frames) != len(answers):
        sys.exit("table.py: %d frames, but %d answers" % (len(frames), len(answers)))
    with tempfile.TemporaryDirectory() as room:
        crate = write_tables(room, frames, answers)
        checked = subprocess.run(["rt", "check"], cwd=crate, stdout=subprocess.PIPE, stderr=subprocess.STDOUT, text=True)
    os.makedirs(os.path.dirname(LOG), exist_ok=True)
    with open(LOG, "w", encoding="utf-8") as out:
        out.write(checked.stdout)
    failed = sorted(set(re.findall(r"(Frames\d+)\.antt:\d+:\d+: error", checked.stdout)))
    if checked.returncode != 0 or failed:
        print("a table does not hold: %s; see target/table/log" % (", ".join(failed) or "the check failed"))
        sys.exit(1)
    panics = sum(a == b"PANIC" for a in answers)
    print("%d frames hold, %d of them refused with 3 where the Rust panics" % (len(frames), panics))


if __name__ == "__main__":
    main()
