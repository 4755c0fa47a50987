#!/usr/bin/env python3
"""Writes the frames and the edits of the benchmark, by the oracle's writer, which is none of our code.

Usage: bench/edits.py FOLDER

Each frame goes to FOLDER/FRAME, little-endian, and FOLDER/list has a line for each edit:
`NAME TYPE FRAME READING NEW LENGTH NEW_LENGTH SUM BEHIND MOVED`, parted by single tabs. NEW is `nothing` or bits. SUM is FNV-1a's, of 64 bits,
over the new frame. BEHIND is how many bytes the frame has from the edited reading on. MOVED is how many there are from the edited reading to
the last byte of the buffer that is another afterwards: where readings behind it come to stand elsewhere, that is all of BEHIND.
"""
import os
import sys

sys.dont_write_bytecode = True
import frames  # noqa: E402
from frames import gen, tree_of  # noqa: E402

READINGS = (40, 4000)
ENTRIES, EACH = 300, 40
REPLACED = 1234


def fnv(data):
    found = 0xCBF29CE484222325
    for byte in data:
        found = (found ^ byte) * 0x100000001B3 % 2**64
    return found


def moved(old, new, place):
    """The bytes from the place to the last of the buffer that the edit changes; where the new frame is shorter, zeros follow it."""
    after = new.ljust(len(old), b"\0")
    before = old.ljust(len(after), b"\0")
    return max((at + 1 - place for at in range(place, len(after)) if before[at] != after[at]), default=0)


def edit(name, text, frame, value, changed, number, new, place):
    """A line of the list, and the frame's bytes."""
    old, then = (gen.written(tree_of(text), held, "little") for held in (value, changed))
    assert old[:place] == then[:place], name
    behind = max(len(old), len(then)) - place
    found = behind if len(old) != len(then) else moved(old, then, place)
    return [name, text, frame, number, "nothing" if new is None else new, len(old), len(then), fnv(then), behind, found], old


def put(readings, number, new):
    return readings[:number] + [None if new is None else (new,)] + readings[number + 1:]


def of_array(count):
    """The first, the middle and the last reading, withdrawn and replaced."""
    readings, frame = frames.readings(count), "amn, %s readings" % format(count, ",")
    for what, new in (("withdrawn", None), ("replaced", REPLACED)):
        for where, number in (("first", 0), ("middle", count // 2), ("last", count - 1)):
            yield edit("%s: the %s %s" % (frame, where, what), "amn", frame, readings, put(readings, number, new), number, new, 2 * number)


def of_entries():
    """A reading in the middle of entries."""
    entries, frame = [(1783771200 + 2 * i, frames.readings(EACH)) for i in range(ENTRIES)], "a(tamn), %d of %d readings" % (ENTRIES, EACH)
    entry, reading = ENTRIES // 2, EACH // 2
    whole = len(gen.written(tree_of("(tamn)"), entries[0], "little"))
    assert whole % 8 == 0
    for what, new in (("withdrawn", None), ("replaced", REPLACED)):
        changed = entries[:entry] + [(entries[entry][0], put(entries[entry][1], reading, new))] + entries[entry + 1:]
        yield edit("%s: one %s" % (frame, what), "a(tamn)", frame, entries, changed, EACH * entry + reading, new, whole * entry + 8 + 2 * reading)


def main():
    if len(sys.argv) != 2:
        print("usage: bench/edits.py FOLDER", file=sys.stderr)
        return 2
    folder = sys.argv[1]
    os.makedirs(folder, exist_ok=True)
    with open(os.path.join(folder, "list"), "w", encoding="utf-8") as listed:
        for line, data in [made for count in READINGS for made in of_array(count)] + list(of_entries()):
            with open(os.path.join(folder, line[2]), "wb") as file:
                file.write(data)
            listed.write("\t".join(map(str, line)) + "\n")
    return 0


if __name__ == "__main__":
    sys.exit(main())
