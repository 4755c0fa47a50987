#!/usr/bin/env python3
"""Picks the questions that the program `replay` is checked on, and their answers: the oracle's to frames, the model's to questions of writing and
of editing.

Usage: oracle/sample.py [QUESTIONS ANSWERS]     crates/replay/stdin and crates/replay/stdout of the project, if none are named

Of each mode of gen.py, frames of one seed are generated and answered by target/oracle/oracle. A mode's lines are classed by refusal, and
the classes take turns: each gives its first line that is short enough and whose type and byte order it has not given yet, until the mode's
share of bytes is used up. A class whose lines are all too long gives its shortest. Of the mode `wide`, whose lines have 131,000 characters,
one is taken: a frame of 65,536 bytes that is read. A frame where the oracle says PANIC is left out.
Questions of writing are picked in the same way from the modes of values.py, and answered by model.py; then questions of editing, of one edit each,
from those of edits.py. Where the model says that a frame is no written form, the oracle says what it is refused with; if it reads, that is 15.
No answer is our own.

A table of the lines taken, by mode and refusal, is printed. The same oracle gives the same sample.
"""
import collections
import pathlib
import subprocess
import sys

sys.dont_write_bytecode = True
import edits  # noqa: E402
import model  # noqa: E402
import values  # noqa: E402

HERE = pathlib.Path(__file__).resolve().parent
TOP = HERE.parent
SEED = 1
# For each mode: how many frames are generated, the longest question and answer in all, and the mode's share, both in bytes.
MODES = {"valid": (20_000, 160, 12_000), "fixed": (40_000, 120, 16_000), "boundary": (20_000, 700, 21_000), "damaged": (40_000, 140, 16_000),
         "lead": (40_000, 120, 16_000), "order": (40_000, 100, 14_000), "depth": (40_000, 300, 24_000), "sig": (40_000, 300, 20_000),
         "tiny": (40_000, 100, 14_000), "positions": (40_000, 120, 10_000)}
WIDE = 60
WIDE_BYTES = 65_536
# The same for the modes of values.py.
WRITING = {"valid": (4_000, 400, 24_000), "boundary": (2_000, 2_500, 40_000), "depth": (4_000, 2_500, 40_000), "long": (150, 25_000, 200_000),
           "many": (150, 8_000, 16_000), "sig": (4_000, 1_200, 30_000), "wrong": (8_000, 400, 40_000), "noise": (4_000, 200, 16_000)}
# The same for the modes of edits.py.
EDITING = {"random": (4_000, 300, 20_000), "boundary": (3_000, 1_300, 24_000), "depth": (3_000, 600, 20_000), "room": (1_050, 200, 12_000),
           "refusals": (8_000, 300, 24_000), "damaged": (4_000, 200, 16_000), "wide": (60, 270_000, 280_000)}


def answered_writing(mode, count):
    """Pairs of a question of writing and the model's answer."""
    return [(question, model.answer(question)) for question in values.lines(SEED, count, mode)]


def by_oracle(frames):
    """The oracle's answers, to frames with their line ends."""
    said = subprocess.run([TOP / "target" / "oracle" / "oracle"], input=frames, stdout=subprocess.PIPE, check=True).stdout
    return said.split(b"\n")[:-1]


def answered(mode, count):
    """Pairs of a question and the oracle's answer, without line ends."""
    made = subprocess.run([HERE / "gen.py", str(SEED), str(count), mode], stdout=subprocess.PIPE, check=True).stdout
    pairs = list(zip(made.split(b"\n")[:-1], by_oracle(made), strict=True))
    return [(question, answer) for question, answer in pairs if answer != b"PANIC"]


def frame_line(question):
    """The used part of an edit's buffer, as the line of a frame."""
    text, order, buffer, used, _ = model.edit_question(question)
    return b"%s %s 0 %s\n" % (text, order[:1].encode(), model.hexadecimal(buffer[:used]))


def answered_editing(mode, count):
    """Pairs of a question of one edit and the model's answer, in which the oracle's refusal stands for `other`."""
    questions = [question for question in edits.lines(SEED, count, mode) if question.count(b" ") == 6]
    pairs = [(question, model.answer(question)) for question in questions]
    unread = [question for question, answer in pairs if answer.startswith(b"other ")]
    refusals = {question: answer.split(b" ")[0] for question, answer in zip(unread, by_oracle(b"".join(map(frame_line, unread))), strict=True)}
    for question, answer in pairs:
        refusal = refusals.get(question, b"")
        if refusal != b"PANIC":
            yield question, answer.replace(b"other", b"15" if refusal == b"0" else refusal)


def size(pair):
    return len(pair[0]) + len(pair[1])


def turns(lines, longest):
    """The lines of one class in the order in which it gives them."""
    given = set()
    for question, answer in [line for line in lines if size(line) <= longest] or [min(lines, key=size)]:
        shape = tuple(question.split(b" ")[:3 if question.startswith((b"write: ", b"edit: ")) else 2])
        if shape not in given:
            given.add(shape)
            yield question, answer


def picked(pairs, longest, share):
    classes = collections.defaultdict(list)
    for question, answer in pairs:
        classes[int(answer.split(b" ")[0])].append((question, answer))
    waiting = {refusal: turns(classes[refusal], longest) for refusal in sorted(classes)}
    while waiting:
        for refusal in list(waiting):
            line = next(waiting[refusal], None)
            if line is None or share < size(line):
                del waiting[refusal]
                continue
            share -= size(line)
            yield line


def picked_wide():
    for question, answer in answered("wide", WIDE):
        data = question.split(b" ")[3]
        if answer.startswith(b"0 ") and len(data) == 2 * WIDE_BYTES and len(answer) < 200:
            return [(question, answer)]
    sys.exit("no wide frame is read")


def print_table(sample):
    refusals = sorted({refusal for counts in sample.values() for refusal in counts})
    print(f"{'mode':15}" + "".join(f"{refusal:6}" for refusal in refusals) + "   all")
    for mode, counts in sample.items():
        print(f"{mode:15}" + "".join(f"{counts[refusal]:6}" for refusal in refusals) + f"{sum(counts.values()):6}")
    whole = sum(sample.values(), collections.Counter())
    print(f"{'all':15}" + "".join(f"{whole[refusal]:6}" for refusal in refusals) + f"{sum(whole.values()):6}")


def main(words):
    if len(words) not in (0, 2):
        sys.exit(__doc__)
    folder = TOP / "crates" / "replay"
    questions, answers = map(pathlib.Path, words) if words else (folder / "stdin", folder / "stdout")
    sample = {}
    for mode, (count, longest, share) in MODES.items():
        sample[mode] = list(picked(answered(mode, count), longest, share))
    sample["wide"] = picked_wide()
    for mode, (count, longest, share) in WRITING.items():
        sample["write " + mode] = list(picked(answered_writing(mode, count), longest, share))
    for mode, (count, longest, share) in EDITING.items():
        sample["edit " + mode] = list(picked(answered_editing(mode, count), longest, share))
    lines = [line for chosen in sample.values() for line in chosen]
    questions.write_bytes(b"".join(question + b"\n" for question, _ in lines))
    answers.write_bytes(b"".join(answer + b"\n" for _, answer in lines))
    print_table({mode: collections.Counter(int(answer.split(b" ")[0]) for _, answer in chosen) for mode, chosen in sample.items()})


if __name__ == "__main__":
    main(sys.argv[1:])
