#!/usr/bin/env python3
"""Writes the frames of the benchmark, by the oracle's writer, which is none of our code.

Usage: bench/frames.py FOLDER

Each frame goes to FOLDER/NAME, at position 0 and little-endian, and FOLDER/list has a line for each:
`NAME TYPE LENGTH REFUSAL EVENTS LEAVES SUM`, parted by single tabs. REFUSAL is the number that is to be given; EVENTS is the
number of document 01's events; LEAVES counts numbers, texts and nothings; SUM adds the bits of all numbers and the lengths of
all texts, the types of variants among them, modulo 2^64. They are computed from the value, not from the frame, and every
program that is measured must find the same. For a frame that is meant to be refused the last three are 0.
"""
import os
import sys

sys.path.insert(0, os.path.join(os.path.dirname(os.path.abspath(__file__)), "..", "oracle"))
sys.dont_write_bytecode = True
import gen  # noqa: E402

LIMIT = 65536


def tree_of(text):
    """The tree of a type text, as the oracle's writer takes it."""
    tree, rest = parse(text)
    assert rest == "", text
    return tree


def parse(text):
    if text[0] == "a" and text[1] == "{":
        value, rest = parse(text[3:])
        assert rest[0] == "}"
        return ("{", text[2], value), rest[1:]
    if text[0] in "am":
        child, rest = parse(text[1:])
        return (text[0], child), rest
    if text[0] == "(":
        fields, rest = [], text[1:]
        while rest[0] != ")":
            field, rest = parse(rest)
            fields.append(field)
        return ("(", fields), rest[1:]
    return text[0], text[1:]


def counted(tree, value):
    """Events, leaves and the sum of a value."""
    if tree == "v":
        inner, held = value
        events, leaves, total = counted(inner, held)
        return events + 3, leaves, total + len(gen.type_text(inner))
    if isinstance(tree, str):
        return (1, 1, len(value)) if tree in gen.TEXTS else (1, 1, value)
    if tree[0] == "m":
        if value is None:
            return 1, 1, 0
        events, leaves, total = counted(tree[1], value[0])
        return events + 1, leaves, total
    if tree[0] == "(":
        parts = list(zip(tree[1], value))
    elif tree[0] == "a":
        parts = [(tree[1], element) for element in value]
    else:
        parts = [(part, element) for entry in value for part, element in zip(tree[1:], entry)]
    answers = [counted(*part) for part in parts]
    return (sum(answer[0] for answer in answers) + 2, sum(answer[1] for answer in answers),
            sum(answer[2] for answer in answers))


def good(name, text, value):
    """A frame that is read."""
    tree = tree_of(text)
    return made(name, text, gen.written(tree, value, "little"), *counted(tree, value))


def made(name, text, data, events, leaves, total):
    assert len(data) <= LIMIT, (name, len(data))
    return name, text, data, 0, events, leaves, total % 2**64


def bad(name, text, data, refusal):
    """A frame that is refused."""
    assert len(data) <= LIMIT, (name, len(data))
    return name, text, data, refusal, 0, 0, 0


# The benchmark's frames.

def readings(count):
    """All present: tenths of degrees, of both signs."""
    return [((215 + 37 * i) % 900 - 300 & 0xFFFF,) for i in range(count)]


def gappy(count):
    """Every fourth is missing."""
    return [None if i % 4 == 3 else reading for i, reading in enumerate(readings(count))]


def texts(count):
    return [b"reading %05d" % i for i in range(count)]


def variant(text, value):
    return (tree_of(text), value)


def station():
    """A dictionary of settings that holds dictionaries of settings."""
    def sensor(number):
        return [(b"unit", variant("s", b"tenths of a degree")), (b"offset", variant("n", 65536 - number)),
                (b"span", variant("(nn)", (65536 - 400, 600))), (b"last", variant("amn", gappy(4)))]

    return [(b"name", variant("s", b"Bogtassel, north mast")), (b"place", variant("(dd)", (0x404A000000000000, 0x4018000000000000))),
            (b"sensors", variant("a{sv}", [(b"sensor %d" % i, variant("a{sv}", sensor(i))) for i in range(1, 5)])),
            (b"tags", variant("as", [b"weather", b"wall", b"two seconds"])), (b"serial", variant("t", 20260711)),
            (b"raw", variant("ay", list(range(32))))]


def inside(kinds, text, value):
    """Type text and value of containers of one element each around a value, from the outside in."""
    for kind in reversed(kinds):
        if kind == "v":
            text, value = "v", variant(text, value)
        elif kind == "(":
            text, value = "(s" + text + ")", (b"k", value)
        else:
            text, value = "a" + text, [value]
    return text, value


# What is measured at three lengths: the name of a kind of frame, its type if there is no blank in it; the name of what it holds many of;
# how many; and type and value with so many.
GROWTH = {
    "amn": ("readings", (40, 400, 4000), lambda count: ("amn", readings(count))),
    "as": ("texts", (41, 410, 4095), lambda count: ("as", texts(count))),
    "a{sv}": ("settings", (10, 100, 1000), lambda count: ("a{sv}", [(b"setting %04d" % i, variant("n", i)) for i in range(count)])),
    "a(tamn)": ("frames of 40 readings", (3, 30, 300),
                lambda count: ("a(tamn)", [(1783771200 + 2 * i, readings(40)) for i in range(count)])),
    "av": ("numbers", (10, 100, 1000), lambda count: ("av", [variant("n", i) for i in range(count)])),
    "31 arrays around as": ("texts", (41, 410, 4000), lambda count: inside("a" * 31, "as", texts(count))),
    "32 structures around amn": ("readings", (40, 400, 4000), lambda count: inside("(" * 32, "amn", readings(count))),
    "arrays around s": ("in one another", (8, 16, 32), lambda count: inside("a" * count, "s", b"text")),
    "structures with a text": ("in one another", (8, 16, 32), lambda count: inside("(" * count, "s", b"text")),
    "variants around s": ("in one another", (8, 16, 32), lambda count: inside("v" * count, "s", b"text")),
}


def grown(kind, count):
    """The name of a frame of GROWTH."""
    return "%s, %s %s" % (kind, format(count, ","), GROWTH[kind][0])


def masts():
    """Dictionaries of structures in a dictionary of structures."""
    def sensors(mast):
        return [(b"sensor %d" % i, (i, (mast + i,), 0x4018000000000000)) for i in range(10)]

    return [(b"mast %02d" % mast, (1783771200 + mast, sensors(mast))) for mast in range(40)]


def slowest():
    """An array of 32,640 elements that take no byte: 31 structures around a nothing, of a type that is long to walk."""
    text = "a" + "(" * 31 + "m" * 190 + "y" + ")" * 31
    return made("v, 31 structures around 190 maybes, 32,640 times", "v", bytes(2 * 32640) + b"\0" + text.encode(),
                32640 * 63 + 5, 32640, len(text))


def deepest():
    """The most events: 65 for each byte."""
    text = "a" + "(" * 32 + "y" + ")" * 32
    return made("a, 32 structures around a byte, 65,536 times", text, b"\7" * LIMIT, 65 * LIMIT + 2, LIMIT, 7 * LIMIT)


def refused_last():
    """Structures with a byte of padding at the end of each; the last byte is not 0."""
    data = gen.written(tree_of("a(ny)"), [(i, i % 256) for i in range(LIMIT // 4)], "little")
    return bad("a(ny), 16,384 structures, refused at the last byte", "a(ny)", data[:-1] + b"\1", 4)


def speed():
    return [
        good(grown("amn", 40), "amn", readings(40)),
        good("amn, 40 readings, 10 of them nothing", "amn", gappy(40)),
        good("(tamn), 40 readings", "(tamn)", (1783771200, readings(40))),
        good("a{sv}, nested", "a{sv}", station()),
        good("ay, 65,536 bytes", "ay", [i * 7 % 256 for i in range(LIMIT)]),
        good("a{s(ta{s(nmnd)})}, 40 of 10", "a{s(ta{s(nmnd)})}", masts()),
        good("a{sas}, 100 of 20 texts", "a{sas}", [(b"list %03d" % i, texts(20)) for i in range(100)]),
        good("av, 2,520 types of 20 characters", "av", [variant("m" * 19 + "y", None)] * 2520),
        good("s, 60,000 ASCII characters", "s", b"weather " * 7500),
        good("s, 20,000 characters of 3 bytes", "s", "\u20ac".encode() * 20000),
        refused_last(),
        slowest(),
        deepest(),
    ] + [good(grown(kind, count), *held(count)) for kind, (_, counts, held) in GROWTH.items()
         for count in counts if (kind, count) != ("amn", 40)]


def main():
    if len(sys.argv) != 2:
        print("usage: bench/frames.py FOLDER", file=sys.stderr)
        return 2
    folder = sys.argv[1]
    os.makedirs(folder, exist_ok=True)
    with open(os.path.join(folder, "list"), "w", encoding="utf-8") as listed:
        for name, text, data, *numbers in speed():
            with open(os.path.join(folder, name), "wb") as file:
                file.write(data)
            listed.write("\t".join([name, text] + [str(number) for number in [len(data)] + numbers]) + "\n")
    return 0


if __name__ == "__main__":
    sys.exit(main())
