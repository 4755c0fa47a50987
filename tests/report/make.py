#!/usr/bin/env python3
"""Writes the report's cases to a folder: make.py FOLDER. Of each case NAME.in is the input, NAME.span the two seconds, and NAME.out the text.

The cases with names are written out by hand; of the months, which are random and the same on every run, the text is that of report.py. Lines that are
refused, outside, short, long and damaged are among them, and the last line end is there or missing."""
import random
import sys
from pathlib import Path

from report import MOST_SECOND, report

HEADING = "sensor present missing absent sum least second greatest second\n"


def number(value, width):
    return (value % 256**width).to_bytes(width, "little")


def frame(second, readings):
    """A frame as a station writes it."""
    body, ends = b"", []
    for reading in readings:
        if reading is not None:
            body += number(reading, 2)
        ends.append(len(body))
    width = 1 if len(body) + len(ends) <= 255 else 2
    return number(second, 8) + body + b"".join(number(end, width) for end in ends)


def loose(r, second):
    """A frame with bytes that no reading uses, and ends that need not rise: it reads, or just does not."""
    body = r.choice([0, 2, 3, 9, 40, 250, 300, 600])
    many = r.choice([0, 1, 3, 40, 64, 65])
    ends = sorted(r.randint(0, body) for _ in range(many))
    if many and r.randrange(3) == 0:
        ends[r.randrange(many)] = r.randint(0, body + 1)
    if many and r.randrange(8):
        ends[-1] = body
    width = 1 if body + many <= 255 else 2
    return number(second, 8) + bytes(r.randrange(256) for _ in range(body)) + b"".join(number(end, width) for end in ends)


def damaged(r, data):
    data = bytearray(data)
    kind = r.randrange(4)
    if kind == 0 and data:
        data[r.randrange(len(data))] ^= 1 << r.randrange(8)
    elif kind == 1:
        del data[r.randrange(len(data) + 1) :]
    elif kind == 2:
        data += bytes(r.randrange(256) for _ in range(r.randrange(1, 4)))
    elif data:
        del data[r.randrange(len(data))]
    return bytes(data)


def line(r, first, last, sensors):
    kind = r.randrange(20)
    second = r.randint(max(0, first - 3), min(MOST_SECOND, max(first, last) + 3))
    many = sensors if kind < 11 else r.choice([0, 1, sensors // 2, 63, 64, 65, 66, 90, 128, 300])
    data = frame(second, [None if r.random() < 0.2 else r.choice([0, 1, -1, 32767, -32768, r.randint(-400, 400)]) for _ in range(many)])
    if kind == 13:
        data = loose(r, second)
    if kind in (14, 15):
        data = damaged(r, data)
    if kind == 16:
        data = bytes(r.randrange(256) for _ in range(r.randrange(40)))
    text = data.hex()
    if kind == 17:
        text = text.upper()
    if kind == 18:
        text = text[: r.randrange(len(text) + 1)]
    if kind == 19:
        at = r.randrange(len(text) + 1)
        text = text[:at] + r.choice(["g", "G", " ", "\t", "\r", "/", ":", "@", "`", "\0", "\xff"]) + text[at:]
    return text.encode("latin-1")


def months():
    r = random.Random(20261115)
    spans = [(0, MOST_SECOND), (100, 130), (50, 50), (9, 5), (MOST_SECOND - 8, MOST_SECOND), (0, 3), (1700000000, 1700000400)]
    for month in range(24):
        first, last = spans[month % len(spans)]
        sensors = r.choice([1, 3, 40, 64])
        data = b"\n".join(line(r, first, last, sensors) for _ in range(r.choice([2, 30, 200, 400, 600])))
        yield "month_%02d" % month, first, last, data + b"\n" * (month % 2), None


def named():
    """Cases whose texts are written out here."""

    def case(name, span, lines, text):
        return name, *span, b"".join(x if x.endswith(b"\n") else x.hex().encode() + b"\n" for x in lines), text

    # the example of docs/REPORT.md
    page = b"0700000000000000d700000002020404\n0900000000000000f3ff04000204\n0a000000000000\nzz\n6500000000000000010002\n"
    yield "page", 5, 100, page, "counted 2 outside 1 refused 2\n" + HEADING + "0 2 0 0 202 -13 9 215 7\n1 1 1 0 4 4 9 4 9\n2 1 0 1 0 0 7 0 7\n3 0 1 1 0 - - - -\n"
    none = "counted 0 outside 0 refused 0\n" + HEADING
    whole = (0, MOST_SECOND)
    yield "no_input", *whole, b"", none
    yield "one_line_end", *whole, b"\n", "counted 0 outside 0 refused 1\n" + HEADING
    yield "two_line_ends", *whole, b"\n\n", "counted 0 outside 0 refused 2\n" + HEADING
    yield case("nothing_is_not_zero", whole, [frame(1, [None]), frame(2, [5])], "counted 2 outside 0 refused 0\n" + HEADING + "0 1 1 0 5 5 2 5 2\n")
    yield case("never_present", whole, [frame(1, [None, 0])], "counted 1 outside 0 refused 0\n" + HEADING + "0 0 1 0 0 - - - -\n1 1 0 0 0 0 1 0 1\n")
    yield case("signs", whole, [frame(1, [-1]), frame(2, [-32768]), frame(3, [32767])], "counted 3 outside 0 refused 0\n" + HEADING + "0 3 0 0 -2 -32768 2 32767 3\n")
    yield case("first_in_the_order_of_lines", whole, [frame(9, [7]), frame(3, [7]), frame(5, [7])], "counted 3 outside 0 refused 0\n" + HEADING + "0 3 0 0 21 7 9 7 9\n")
    yield case("both_seconds_included", (10, 20), [frame(s, [s]) for s in (9, 10, 20, 21)], "counted 2 outside 2 refused 0\n" + HEADING + "0 2 0 0 30 10 10 20 20\n")
    yield case("first_above_last", (20, 10), [frame(s, [s]) for s in (10, 15, 20)], "counted 0 outside 3 refused 0\n" + HEADING)
    yield case("one_second", (MOST_SECOND, MOST_SECOND), [frame(MOST_SECOND, [1])], f"counted 1 outside 0 refused 0\n{HEADING}0 1 0 0 1 1 {MOST_SECOND} 1 {MOST_SECOND}\n")
    yield case("no_entries", whole, [frame(1, [])], "counted 1 outside 0 refused 0\n" + HEADING)
    yield case("longest_is_outside", (5, 5), [frame(5, [1]), frame(6, [1, 2, 3])], "counted 1 outside 1 refused 0\n" + HEADING + "0 1 0 0 1 1 5 1 5\n")
    yield case("short_lists", whole, [frame(1, [1, 2]), frame(2, [3]), frame(3, [])], "counted 3 outside 0 refused 0\n" + HEADING + "0 2 0 1 4 1 1 3 2\n1 1 0 2 2 2 1 2 1\n")
    rows = "".join(f"{i} 1 0 0 4 4 1 4 1\n" for i in range(64))
    yield case("entries", (1, 1), [frame(1, [4] * 64), frame(1, [4] * 65), frame(2, [4] * 65)], "counted 1 outside 0 refused 2\n" + HEADING + rows)
    # of 16,384 bytes: a list that begins its table at its own end is empty, whatever stands in front
    fits = number(1, 8) + b"\x5a" * 16374 + number(16376, 2)
    above = number(1, 8) + b"\x5a" * 16375 + number(16377, 2)
    yield case("bytes", whole, [fits, above], "counted 1 outside 0 refused 1\n" + HEADING)
    yield case("long_lines", whole, [b"0" * 99999 + b"\n", b"0" * 100000 + b"\n", b"0" * 99999 + b"z\n", frame(1, [2])], "counted 1 outside 0 refused 3\n" + HEADING + "0 1 0 0 2 2 1 2 1\n")
    one = frame(1, [0xAB]).hex()
    both = one.upper() + "\n" + one + "\n" + one + "\r\n" + one + " \n0x" + one + "\n"
    yield "digits", *whole, both.encode(), "counted 2 outside 0 refused 3\n" + HEADING + "0 2 0 0 342 171 1 171 1\n"
    yield "last_line_without_end", *whole, (one + "\n" + one).encode(), "counted 2 outside 0 refused 0\n" + HEADING + "0 2 0 0 342 171 1 171 1\n"
    yield "last_line_bad_without_end", *whole, (one + "\nz").encode(), "counted 1 outside 0 refused 1\n" + HEADING + "0 1 0 0 171 171 1 171 1\n"
    yield "last_line_odd_without_end", *whole, (one + "\n0").encode(), "counted 1 outside 0 refused 1\n" + HEADING + "0 1 0 0 171 171 1 171 1\n"
    # 255 bytes of a list have ends of one byte, 256 of two
    wide = number(1, 8) + number(7, 2) + b"\x5a" * 252 + number(254, 2)
    narrow = number(1, 8) + number(7, 2) + b"\x5a" * 252 + number(254, 1)
    yield case("widths", whole, [narrow, wide], "counted 2 outside 0 refused 0\n" + HEADING + "0 2 0 0 14 7 1 7 1\n")


def main():
    folder = Path(sys.argv[1])
    for name, first, last, data, text in [*named(), *months()]:
        ours = report(first, last, data)
        if text not in (None, ours):
            sys.exit(f"make.py: {name}: report.py gives\n{ours}and not\n{text}")
        (folder / f"{name}.in").write_bytes(data)
        (folder / f"{name}.span").write_text(f"{first} {last}\n")
        (folder / f"{name}.out").write_text(ours)


main()
