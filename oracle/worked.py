#!/usr/bin/env python3
"""Runs document 01's worked frames and the frames of the open points through the oracle.

Usage: oracle/worked.py [PROGRAM]   (default: target/oracle/oracle of the project)

Each line of FRAMES is a question and the answer that the documents give. An answer of one word is the refusal alone;
`0 USED NEVENTS` leaves the events out; otherwise the whole answer is compared. Prints the differing lines; exit 1 if any.
"""
import os
import subprocess
import sys


def structure_of_texts(count, zeros):
    """The one known panic: texts in a structure, over zero bytes."""
    return "(%s) l 0 %s" % ("s" * count, "00" * zeros)


def rising(first, last):
    return "".join("%02x" % byte for byte in range(first, last + 1))


FRAMES = [
    # Document 01, worked frames.
    ("s l 0 -", "0 0 1 115:0:0"),
    ("s l 0 610062", "5"),
    ("amn l 0 d7000000020204", "0 7 7 97:0:0 109:0:0 110:0:215 78:2:0 109:2:0 110:2:0 41:7:0"),
    ("amn l 0 0000000002", "0 5 6"),
    ("amn l 0 000000", "0 3 5 97:0:0 78:0:0 78:0:0 78:0:0 41:3:0"),
    ("(ymn) l 0 0700", "0 2 4 40:0:0 121:0:7 78:2:0 41:2:0"),
    ("(ymn) l 0 07", "3"),
    ("(ymn) l 0 0701", "4"),
    ("(ymn) l 0 07000500", "0 4 5 40:0:0 121:0:7 109:2:0 110:2:5 41:4:0"),
    ("as l 0 01", "0 0 2 97:0:0 41:0:0"),
    ("as l 0 02", "3"),
    ("a{sy} l 0 6b00090204", "0 5 4 123:0:0 115:0:1 121:2:9 41:5:0"),
    ("v l 0 070000000075", "0 6 4 118:0:0 103:5:1 117:0:7 41:6:0"),
    ("v l 0 75", "8"),
    ("ms l 0 610000", "0 3 2 109:0:0 115:0:1"),
    ("ms l 0 610001", "7"),
    ("a" * 32 + "y l 0 " + rising(0, 0x1E), "0"),
    ("a" * 33 + "y l 0 " + rising(0, 0x1F), "11"),
    ("m" * 64 + "y l 0 05" + "00" * 63, "0 64 65"),
    ("m" * 65 + "y l 0 05" + "00" * 64, "12"),
    ("as l 0 " + "61" * 253 + "00" + "fe", "0 255 3 97:0:0 115:0:253 41:255:0"),
    ("as l 0 " + "61" * 254 + "00" + "ff00", "0 257 3 97:0:0 115:0:254 41:257:0"),
    ("amn l 0 00", "0 1 3"),
    ("amn l 0 02", "3"),
    ("amn l 0 -", "0 0 2"),
    (structure_of_texts(130, 257), "PANIC"),
    # The open points, R-1 to R-14.
    ("(q(b(yb))) l 0 050000e7", "3"),
    ("(xyq) l 0 0000000000000000010505", "3"),
    ("a{sy} l 0 000202", "5"),
    ("a{sy} l 0 000302", "3"),
    ("(vs) l 6 0000", "8"),
    ("(vs) l 0 -", "3"),
    ("amy l 0 020000020103", "0 5 7 97:0:0 109:0:0 121:0:2 78:1:0 109:1:0 121:1:0 41:5:0"),
    ("a{qg} l 0 000000030003", "4"),
    ("mas l 0 0100", "7"),
    ("my l 0 0506", "0 1 2 109:0:0 121:0:5"),
    ("a" * 33 + "y l 0 -", "0 0 2"),
    ("a" + "(" * 32 + "y" + ")" * 32 + " l 0 05", "0 1 67"),
    ("() l 0 -", "1"),
    ("h l 0 -", "1"),
    ("{sv} l 0 -", "1"),
    ("yy l 0 -", "1"),
    (" l 0 -", "1"),
    ("y" * 256 + " l 0 -", "1"),
    ("a{vs} l 0 -", "1"),
    ("y l 65537 00", "2"),
    ("y b 65536 07", "0 1 1 121:0:7"),
    ("n b 0 0102", "0 2 1 110:0:258"),
    ("as l 0 " + "61" * 65531 + "00" + "fcff0000", "0 65536 3 97:0:0 115:0:65531 41:65536:0"),
]


def agrees(answer, expected):
    wanted, given = expected.split(), answer.split()
    if len(wanted) <= 3:
        return given[:len(wanted)] == wanted
    return given == wanted


def main():
    here = os.path.dirname(os.path.abspath(__file__))
    program = sys.argv[1] if len(sys.argv) > 1 else os.path.join(here, "..", "target", "oracle", "oracle")
    questions = "".join(question + "\n" for question, _ in FRAMES)
    answers = subprocess.run([program], input=questions, capture_output=True, text=True, check=True).stdout.splitlines()
    wrong = 0
    for (question, expected), answer in zip(FRAMES, answers, strict=True):
        if not agrees(answer, expected):
            wrong += 1
            print("%s\n  expected %s\n  answered %s" % (question[:200], expected, answer[:200]))
    print("%d frames, %d differ" % (len(FRAMES), wrong))
    return 1 if wrong else 0


if __name__ == "__main__":
    sys.exit(main())
