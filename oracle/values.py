#!/usr/bin/env python3
"""Prints questions of writing, by random types and values; and frames for the strict test.

Usage: oracle/values.py SEED COUNT [MODE]             lines `write: TYPE l|b TEXTS|- ROOM NUMBER ..`
       oracle/values.py --frames SEED COUNT [MODE]    lines `TYPE l|b 0 HEX`

The same seed prints the same lines. Types, values and frames are gen.py's; README.md describes the modes.
The places of events that are no texts are any numbers, since writing passes over them. Texts stand in their slice in any order, some
with gaps between them, some of them parts of others.
"""
import random
import sys

sys.dont_write_bytecode = True
import gen  # noqa: E402

MOST_ROOM = 66000
MOST_EVENTS = 20000
KINDS = b"bynqiuxtdsogvam{(N)"
gen.random_position = lambda rng: 0     # frames of the strict test stand at 0


# Events.

class Lent:
    """The slice that the texts are views of."""

    def __init__(self, rng):
        self.rng, self.bytes = rng, bytearray()

    def view(self, text):
        found = self.bytes.find(text)
        if found >= 0 and self.rng.random() < 0.7:
            return found, len(text)
        if self.rng.random() < 0.1:
            self.bytes += self.rng.randbytes(self.rng.randrange(3))
        self.bytes += text
        return len(self.bytes) - len(text), len(text)

    def place(self):
        """The place of an event that is no text."""
        return self.rng.choice([0, 0, self.rng.randrange(300), self.rng.getrandbits(64)])


def events(tree, value, lent, numbers):
    """Appends the numbers of the events of a value."""
    def one(kind, payload=0):
        numbers.extend((ord(kind), lent.place(), payload))

    def text(kind, held):
        numbers.extend((ord(kind), *lent.view(held)))

    if tree == "v":
        inner, held = value
        one("v")
        text("g", gen.type_text(inner).encode())
        events(inner, held, lent, numbers)
        one(")")
    elif isinstance(tree, str):
        text(tree, value) if tree in gen.TEXTS else one(tree, value)
    elif tree[0] == "m":
        one("N" if value is None else "m")
        if value is not None:
            events(tree[1], value[0], lent, numbers)
    else:
        one(tree[0])
        elements = [value] if tree[0] == "(" else value if tree[0] == "{" else [(element,) for element in value]
        parts = tree[1] if tree[0] == "(" else tree[1:]
        for element in elements:
            for part, held in zip(parts, element):
                events(part, held, lent, numbers)
        one(")")


def spelt(rng, tree, value):
    lent, numbers = Lent(rng), []
    events(tree, value, lent, numbers)
    return numbers, lent.bytes


# Questions: (type text, order, texts, room, numbers).

def room_for(rng, length):
    chance = rng.random()
    if chance < 0.6:
        return min(length, MOST_ROOM)
    if chance < 0.85:
        return min(length + rng.randrange(1, 20), MOST_ROOM)
    if chance < 0.93:
        return min(max(length - 1, 0), MOST_ROOM)
    return rng.randrange(min(length, MOST_ROOM) + 1)


def question(rng, tree, value, order):
    numbers, texts = spelt(rng, tree, value)
    length = len(gen.written(tree, value, order))
    return gen.type_text(tree).encode(), order, bytes(texts), room_for(rng, length), numbers


def random_order(rng):
    return rng.choice(["little", "big"])


def mode_valid(rng):
    tree = gen.random_type(rng, rng.randrange(5))
    yield question(rng, tree, gen.random_value(rng, tree), random_order(rng))


def mode_boundary(rng):
    """Containers whose length is near the one where the width of an offset changes."""
    tree, order = rng.choice(gen.BOUNDARY_TYPES), random_order(rng)
    if rng.random() < 0.15:
        count = rng.randrange(60, 136)
        tree = ("(", ["s"] * count)
    value = gen.random_value(rng, tree, rng.choice([1, 3, 3, 20]))
    length = len(gen.written(tree, value, order))
    yield question(rng, tree, gen.lengthened(rng, tree, value, max(0, 255 - length + rng.randrange(-9, 8))), order)


def mode_depth(rng):
    """Containers in one another, at and around the limits of depth."""
    tree, value = rng.choice([("y", 5), ("s", b"k"), ("n", 9), (("m", "y"), None), (("a", "y"), [])])
    for step in reversed(gen.random_chain(rng)):
        if step == "v":
            tree, value = "v", (tree, value)
        elif step == "m":
            tree, value = ("m", tree), (value,)
        elif step == "(":
            tree, value = ("(", [tree]), (value,)
        elif step == "{":
            tree, value = ("{", "y", tree), [(7, value)]
        else:
            tree, value = ("a", tree), [value]
    yield question(rng, tree, value, random_order(rng))


LONG_TYPES = [("a", "s"), ("(", ["s", "s", "s"]), ("{", "s", "s"), ("{", "y", "s"), ("a", ("a", "s")), ("a", ("m", "s")), ("a", "v"), ("a", ("(", ["s", "q"]))]


def long_part(rng, tree, text):
    """A value of one of LONG_TYPES' parts, with this text in it."""
    if tree in ("s", "v"):
        return text if tree == "s" else ("s", text)
    if tree in ("y", "q"):
        return rng.randrange(256)
    if tree[0] == "(":
        return tuple(long_part(rng, part, text) for part in tree[1])
    return (long_part(rng, tree[1], text),) if tree[0] == "m" else [long_part(rng, tree[1], text)]


def mode_long(rng):
    """Frames near and over the limit of 65,536 bytes, of one long text or of many views of the same."""
    tree, order = rng.choice(LONG_TYPES), random_order(rng)
    total = rng.choice([65000, 65536, 65536, 65536, 66500, 80000])
    count = len(tree[1]) if tree[0] == "(" else rng.choice([1, 1, 2, 10, 300])
    text = b"a" * max(0, (total + rng.randrange(-12, 12)) // count - rng.randrange(6))
    if tree[0] == "(":
        value = tuple(text for _ in tree[1])
    elif tree[0] == "a":
        value = [long_part(rng, tree[1], text)] * count
    else:
        value = [(long_part(rng, tree[1], text[:9]), text)] * count
    numbers, texts = spelt(rng, tree, value)
    length = len(gen.written(tree, value, order))
    if len(texts) <= MOST_ROOM:
        yield gen.type_text(tree).encode(), order, bytes(texts), rng.choice([length, length, length - 1, length + 5, 0]) % (MOST_ROOM + 1), numbers


def mode_many(rng):
    """Many events: long arrays and dictionaries of small things."""
    tree = rng.choice([("a", ("m", "n")), ("a", "y"), ("a", "s"), ("{", "s", "v"), ("a", ("(", ["y", "n"])), ("a", ("m", "s")), ("a", "v"), ("a", ("a", "q"))])
    count = rng.choice([50, 300, 1000])
    element = tree[1] if tree[0] == "a" else ("(", list(tree[1:]))
    value = [gen.random_value(rng, element, 2) for _ in range(count)]
    made = question(rng, tree, value, random_order(rng))
    if len(made[4]) <= 3 * MOST_EVENTS:
        yield made


def mode_sig(rng):
    """Variants whose type is an odd text, at the limit of depth too; refused types at the top."""
    order = random_order(rng)
    tree = gen.random_type(rng, 2)
    numbers, texts = spelt(rng, "v", (tree, gen.random_value(rng, tree)))
    text = gen.random_signature(rng)
    if rng.random() < 0.15:
        yield text if not set(text) & set(b" \n") else b"", order, bytes(texts), 300, numbers
        return
    maybes = rng.choice([1, 62, 63, 64, 65])
    outer, around = rng.choice([(b"v", []), (b"v", []), (b"m" * maybes + b"v", [109, 0, 0] * maybes), (b"(v)", [40, 0, 0]), (b"av", [97, 0, 0])])
    numbers[4:6] = [len(texts), len(text)]
    closed = [41, 0, 0] if outer in (b"(v)", b"av") else []
    yield outer, order, bytes(texts) + text, 300, around + numbers + closed


ODD_BYTES = [b"\0", b"\xff", b"\xc3", b"\x80", b"\xed\xa0\x80", b"\xc0\x80", b"\xf4\x90\x80\x80", b"\xf0\x90\x80\x80", b"\xe2\x82"]


def fault(rng, numbers, texts):
    """One change of the numbers or of the texts."""
    place = 3 * rng.randrange(max(len(numbers) // 3, 1))
    change = rng.randrange(11) if len(numbers) >= 3 else rng.randrange(4)
    if change == 0:
        del numbers[len(numbers) - min(len(numbers), rng.randrange(1, 5)):]
    elif change == 1:
        numbers.extend([rng.choice(KINDS), 0, 0][:rng.randrange(1, 4)])
    elif change == 2:
        del numbers[place:place + 3]
    elif change == 3:
        numbers[place:place] = [rng.choice(KINDS), rng.randrange(4), rng.choice([0, 0, 1])]
    elif change in (4, 5, 6, 7):
        part = rng.choice([0, 1, 2, 2, 2])
        edges = [0, 1, 2, 255, 256, 65535, 65536, 2**32 - 1, 2**32, 2**63, 2**64 - 1, len(texts), len(texts) + 1]
        numbers[place + part] = rng.choice(KINDS + b"\0\xff") if part == 0 else rng.choice(edges + [numbers[place + part] + 1]) % 2**64
    elif texts:
        at, odd = rng.randrange(len(texts)), rng.choice(ODD_BYTES)
        texts[at:at + len(odd)] = odd


def mode_wrong(rng):
    """Events of a value with one or more faults."""
    tree = gen.random_type(rng, rng.randrange(5))
    text, order, texts, room, numbers = question(rng, tree, gen.random_value(rng, tree), random_order(rng))
    texts = bytearray(texts)
    for _ in range(rng.choice([1, 1, 1, 2, 4])):
        fault(rng, numbers, texts)
    yield text, order, bytes(texts), room, numbers


def mode_noise(rng):
    """For small types any events, mostly of kinds that the type has."""
    text = gen.type_text(rng.choice(gen.TINY_TYPES)).encode()
    kinds = text.replace(b"a{", b"{").replace(b"}", b")").replace(b"v", b"vgy)").replace(b"a", b"a)").replace(b"m", b"mN")
    numbers, order = [], rng.random() < 0.8
    for kind in kinds if order else rng.choices(kinds, k=rng.randrange(8)):
        if rng.random() < 0.95:
            numbers += [kind if rng.random() < 0.95 else rng.choice(KINDS), rng.choice([0, 0, 1, 2]), rng.choice([0, 0, 0, 0, 1, 2])]
        if kind == ord("m") and rng.random() < 0.5:
            numbers[-3:] = []
    yield text, random_order(rng), rng.choice([b"yy", b"y", b"sk", b"a\0b", b"s\xc3\xa9", b""]), rng.randrange(20), numbers


MODES = {"valid": mode_valid, "boundary": mode_boundary, "depth": mode_depth, "long": mode_long, "many": mode_many, "sig": mode_sig,
         "wrong": mode_wrong, "noise": mode_noise}
# How often a throw of `mix` takes each mode, out of a thousand.
MIX = {"valid": 450, "boundary": 100, "depth": 80, "long": 1, "many": 4, "sig": 65, "wrong": 250, "noise": 50}
# The same for frames: gen.py's modes, at position 0.
FRAMES_MIX = {"valid": 300, "fixed": 100, "boundary": 90, "damaged": 230, "order": 40, "depth": 60, "sig": 60, "wide": 1, "tiny": 119}


def made(rng, modes, mix, mode):
    while True:
        chosen = mode if mode != "mix" else rng.choices(list(mix), list(mix.values()))[0]
        yield from modes[chosen](rng)


def write_line(text, order, texts, room, numbers):
    return b" ".join([b"write:", text, order[:1].encode(), texts.hex().encode() or b"-", b"%d" % room] + [b"%d" % number for number in numbers])


def lines(seed, count, mode="mix", frames=False):
    """The lines, without their ends."""
    rng = random.Random(seed)
    if frames:
        found = (gen.frame_line(text, order, 0, data) for text, order, _, data in made(rng, gen.MODES, FRAMES_MIX, mode))
    else:
        found = (write_line(*one) for one in made(rng, MODES, MIX, mode))
    for _ in range(count):
        yield next(found)


def main(words):
    frames = "--frames" in words
    words = [word for word in words if word != "--frames"]
    mode = words[2] if len(words) == 3 else "mix"
    if len(words) not in (2, 3) or mode not in [*(gen.MODES if frames else MODES), "mix"]:
        sys.exit(__doc__)
    for line in lines(int(words[0]), int(words[1]), mode, frames):
        sys.stdout.buffer.write(line + b"\n")


if __name__ == "__main__":
    main(sys.argv[1:])
