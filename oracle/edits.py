#!/usr/bin/env python3
"""Prints questions of editing, by random types and values with readings in them.

Usage: oracle/edits.py SEED COUNT [MODE]     lines `edit: TYPE l|b BUFFER|- USED READING nothing|BITS ..`

The same seed prints the same lines. Types, values and frames are gen.py's, types with more readings than there; README.md describes the
modes. A line with more than one reading is a chain: its edits are made one after another in one buffer.
"""
import random
import sys

sys.dont_write_bytecode = True
import gen  # noqa: E402
import values  # noqa: E402

CHAIN = 50
MOST_SPARE = 20


def random_type(rng, depth, basics=gen.NUMBERS + gen.TEXTS):
    """As gen.py's, but half of its leaves are readings, and there are more variants."""
    if depth == 0 or rng.random() < 0.25:
        chance = rng.random()
        return ("m", rng.choice(gen.NUMBERS)) if chance < 0.5 else "v" if chance < 0.6 else rng.choice(basics)
    kind = rng.choice("aaam(((({")
    if kind == "(":
        return ("(", [random_type(rng, depth - 1, basics) for _ in range(rng.choice([1, 2, 2, 3, 3, 4]))])
    if kind == "{":
        return ("{", rng.choice("s" + basics), random_type(rng, depth - 1, basics))
    return (kind, random_type(rng, depth - 1, basics))


def random_value(rng, tree, room=4):
    return gen.random_value(rng, tree, room, random_type)


def readings(tree, value):
    """The readings of a value in their order: the letter of each, and what it is."""
    if tree == "v":
        return readings(*value)
    if isinstance(tree, str):
        return []
    if tree[0] == "m":
        if isinstance(tree[1], str) and tree[1] in gen.WIDTHS:
            return [(tree[1], value)]
        return [] if value is None else readings(tree[1], value[0])
    if tree[0] == "(":
        pairs = zip(tree[1], value)
    elif tree[0] == "a":
        pairs = ((tree[1], element) for element in value)
    else:
        pairs = (pair for entry in value for pair in zip(tree[1:], entry))
    return [one for pair in pairs for one in readings(*pair)]


# Edits: a reading's number, and None or its bits.

def wide_number(rng, letter):
    """A number that spells no value, or is the last that does."""
    bits = 1 if letter == "b" else 8 * gen.WIDTHS[letter]
    return rng.choice([2**bits - 1, 2**bits, 2**bits + rng.randrange(300), 2**64 - 1, 2**64 - rng.randrange(1, 300), rng.getrandbits(64)]) % 2**64


def random_new(rng, letter, wide=0.08):
    chance = rng.random()
    return None if chance < 0.4 else wide_number(rng, letter) if chance < 0.4 + wide else gen.random_number(rng, letter)


def random_edit(rng, found, other=0.05, wide=0.08):
    """An edit of one of the readings found; at times of one that is not there."""
    if not found or rng.random() < other:
        number = rng.choice([len(found), len(found), len(found) + rng.randrange(3), 2**64 - 1, rng.getrandbits(64)])
        return number, random_new(rng, rng.choice(gen.NUMBERS), wide)
    number = rng.choice([0, len(found) - 1, rng.randrange(len(found)), rng.randrange(len(found))])
    return number, random_new(rng, found[number][0], wide)


def other_way_round(rng, found, number):
    """A present reading withdrawn, or a nothing put in."""
    letter, old = found[number]
    return number, gen.random_number(rng, letter) if old is None else None


# Questions: (type text, order, buffer, used, edits).

def asked(rng, tree, data, order, edits, spare=None):
    """The frame in a buffer with so many bytes behind it, none of them 0."""
    count = rng.randrange(MOST_SPARE + 1) if spare is None else spare
    return gen.type_text(tree).encode(), order, data + bytes(rng.randrange(1, 256) for _ in range(count)), len(data), edits


def random_order(rng):
    return rng.choice(["little", "big"])


def readable(rng, deepest=5):
    """A type and a value of it, mostly with readings."""
    for _ in range(3):
        tree = random_type(rng, rng.randrange(deepest))
        value = random_value(rng, tree)
        if readings(tree, value):
            break
    return tree, value


def mode_random(rng):
    tree, value = readable(rng)
    order = random_order(rng)
    yield asked(rng, tree, gen.written(tree, value, order), order, [random_edit(rng, readings(tree, value))])


def mode_chain(rng):
    """Fifty edits on one buffer, in which there is room for all of them, for some, or for none."""
    tree, value = readable(rng)
    order, found = random_order(rng), readings(tree, value)
    spare = rng.choice([0, 3, rng.randrange(40), 200])
    yield asked(rng, tree, gen.written(tree, value, order), order, [random_edit(rng, found, 0.03, 0.04) for _ in range(CHAIN)], spare)


MAYBE = ("m", "n")
BOUNDARY_TYPES = [
    ("a", MAYBE), ("a", ("m", "y")), ("a", ("m", "t")), ("(", ["s", MAYBE]), ("(", [MAYBE, "s"]), ("(", ["s", MAYBE, "s"]), ("(", [MAYBE, MAYBE, "s"]),
    ("(", ["s", ("a", MAYBE), "q"]), ("{", "s", MAYBE), ("{", "s", ("(", [MAYBE, "s"])), ("{", "y", ("m", "q")), ("m", ("(", ["s", MAYBE])),
    ("a", ("(", ["s", MAYBE])), ("a", ("a", MAYBE)), ("(", ["t", ("a", MAYBE)]), ("a", ("(", ["t", ("a", MAYBE)])), ("(", [("a", MAYBE), "s"]), "v", ("a", "v")]


def near(rng, length):
    """A value that is near this length when written, by a longer text or by more readings; its type and its readings."""
    tree = rng.choice(BOUNDARY_TYPES)
    if tree in ("v", ("a", "v")):
        inner = rng.choice(BOUNDARY_TYPES[:-2])
        value = (inner, near_value(rng, inner, length - 9))
        value = value if tree == "v" else [value]
    else:
        value = near_value(rng, tree, length)
    return tree, value


def near_value(rng, tree, length):
    value = random_value(rng, tree)
    lacks = length - len(gen.written(tree, value, "little")) + rng.choice([rng.randrange(-10, 9), rng.randrange(-3, 3)])
    if lacks > 0 and "s" not in gen.type_text(tree):
        value = more_readings(rng, tree, value, lacks)
    return gen.lengthened(rng, tree, value, max(0, lacks))


def more_readings(rng, tree, value, lacks):
    """The value with readings put behind those of its last array of readings, most of them present."""
    if tree[0] == "a" and tree[1][0] == "m":
        each = gen.WIDTHS[tree[1][1]] + (1 if lacks < 300 else 2)
        return value + [None if rng.random() < 0.1 else (gen.random_number(rng, tree[1][1]),) for _ in range(lacks // each)]
    if tree[0] == "a":
        last = value[-1] if value else random_value(rng, tree[1], 1)
        return value[:-1] + [more_readings(rng, tree[1], last, lacks)]
    if tree[0] == "(":
        return value[:-1] + (more_readings(rng, tree[1][-1], value[-1], lacks),)
    return value


def around(rng, length):
    """A frame near this length, edited to and fro, so that it crosses it."""
    tree, value = near(rng, length)
    order, found, edits = random_order(rng), readings(tree, value), []
    if not found:
        return None
    data, number = gen.written(tree, value, order), rng.randrange(len(found))
    for _ in range(rng.choice([1, 1, 4, 12])):
        number = rng.choice([number, rng.randrange(len(found))])
        edits.append(other_way_round(rng, found, number))
        found[number] = (found[number][0], edits[-1][1])
    return tree, data, order, edits


def mode_boundary(rng):
    """Containers whose length is near the one where offsets become wider, 255 and 257."""
    made = around(rng, 255)
    if made is not None:
        yield asked(rng, *made)


def mode_wide(rng):
    """Frames near 65,535 and 65,536 bytes, where new frames become too long; in buffers that would hold them, or not."""
    made = around(rng, rng.choice([65535, 65535, 65533, 65000]))
    if made is not None and (len(made[1]) <= gen.LIMIT or rng.random() < 0.1):
        yield asked(rng, *made, spare=rng.choice([0, 0, 0, 1, 2, 3, 8, 20]))


def mode_room(rng):
    """One edit with spare room of every size."""
    tree, value = readable(rng, 4)
    order, found = random_order(rng), readings(tree, value)
    data = gen.written(tree, value, order)
    longer = [number for number, (_, old) in enumerate(found) if old is None]
    edit = other_way_round(rng, found, rng.choice(longer)) if longer else random_edit(rng, found)
    for spare in range(MOST_SPARE + 1):
        yield asked(rng, tree, data, order, [edit], spare)


def mode_full(rng):
    """Every reading of a frame withdrawn by itself in a buffer that is exactly full, and then all of them one after another."""
    tree, value = near(rng, rng.choice([255, 257])) if rng.random() < 0.4 else readable(rng)
    order, count = random_order(rng), len(readings(tree, value))
    data = gen.written(tree, value, order)
    if count and len(data) <= gen.LIMIT:
        for number in range(count):
            yield asked(rng, tree, data, order, [(number, None)], spare=0)
        yield asked(rng, tree, data, order, [(number, None) for number in rng.sample(range(count), count)], spare=0)


def wrapped(steps, tree, value):
    """Containers of one element each around a value."""
    for step in reversed(steps):
        if step == "v":
            tree, value = "v", (tree, value)
        elif step == "m":
            tree, value = ("m", tree), (value,)
        elif step == "(":
            tree, value = ("(", [tree]), (value,)
        elif step == "{":
            tree, value = ("{", "y", tree), [(7, value)]
        else:
            tree, value = ("a", tree), [value]
    return tree, value


def mode_depth(rng):
    """A reading inside containers in one another, at and around the limits of depth; one edit, or two, so that it may come and go."""
    letter = rng.choice("bynqt")
    held = rng.choice([None, None, (gen.random_number(rng, letter),)])
    steps = gen.random_chain(rng)[:rng.choice([62, 63, 64, 64, 64, 65])] if rng.random() < 0.8 else ["m"] * rng.randrange(62, 66)
    tree, value = wrapped(steps, ("m", letter), held)
    if len(gen.type_text(tree)) <= 255:
        order = random_order(rng)
        edits = [random_edit(rng, [(letter, held)], 0.1, 0.2) for _ in range(rng.choice([1, 2]))]
        yield asked(rng, tree, gen.written(tree, value, order), order, edits)


def faulty(rng, question):
    """The same with faults that are judged later, or earlier, than what it has; so that their order is seen."""
    text, order, buffer, used, edits = question
    if rng.random() < 0.12:
        odd = gen.random_signature(rng)
        text = text if set(odd) & set(b" \n") else odd
    if rng.random() < 0.15:
        used = rng.choice([len(buffer) + 1, len(buffer) + rng.randrange(1, 30), 65537, 2**32, 2**64 - 1, rng.randrange(len(buffer) + 1)])
    if rng.random() < 0.2:
        edits = [(rng.choice([2**64 - 1, 1000, rng.randrange(4)]), new) for _, new in edits]
    if rng.random() < 0.25:
        edits = [(number, rng.choice([2, 256, 65536, 2**32, 2**64 - 1])) for number, _ in edits]
    if rng.random() < 0.3:
        buffer = buffer[:max(used, 0)] if used <= len(buffer) else buffer
    return text, order, buffer, used, edits


def mode_refusals(rng):
    """Questions of the other modes with one or more faults put in: type, used length, frame, number, bits, room."""
    mode = rng.choices([mode_random, mode_room, mode_depth, mode_damaged, mode_boundary], [40, 1, 20, 25, 14])[0]
    for question in mode(rng):
        yield faulty(rng, question)


DAMAGED = {"ours": 500, "damaged": 50, "fixed": 50, "boundary": 60, "order": 80, "depth": 80, "sig": 80, "tiny": 100}


def damaged(rng):
    """A written form with one change or two."""
    tree, value = readable(rng)
    order = random_order(rng)
    yield gen.type_text(tree).encode(), order, 0, gen.damage_often(rng, gen.damage(rng, gen.written(tree, value, order)), 0.2)


def mode_damaged(rng):
    """Frames that do not read, or that read and are no written form: those of gen.py, and frames with readings that were changed."""
    mode = rng.choices(list(DAMAGED), list(DAMAGED.values()))[0]
    for text, order, _, data in (damaged if mode == "ours" else gen.MODES[mode])(rng):
        spare = rng.randrange(MOST_SPARE + 1)
        number = rng.choice([0, 0, 0, 1, 2, 5])
        yield text, order, data + rng.randbytes(spare), len(data), [(number, random_new(rng, rng.choice(gen.NUMBERS), 0.02))]


def mode_over(rng):
    """Used lengths at and past the limit, in buffers of as many bytes and more; frames of the limit's length."""
    used = rng.choice([65535, 65536, 65537, 65550])
    buffer = bytes(used + rng.choice([0, 0, 5]))
    yield rng.choice([b"ay", b"amn", b"amy", b"(aymn)", b"v"]), random_order(rng), buffer, used, [(0, rng.choice([None, 5, 256]))]


MODES = {"random": mode_random, "chain": mode_chain, "boundary": mode_boundary, "wide": mode_wide, "room": mode_room, "full": mode_full,
         "depth": mode_depth, "refusals": mode_refusals, "damaged": mode_damaged, "over": mode_over}
# How often a throw of `mix` takes each mode, out of ten thousand; one of `room` is twenty-one lines, one of `chain` fifty edits.
MIX = {"random": 5300, "chain": 30, "boundary": 1200, "wide": 2, "room": 60, "depth": 700, "refusals": 1700, "damaged": 1000, "over": 1}


def edit_line(text, order, buffer, used, edits):
    words = [b"edit:", text, order[:1].encode(), buffer.hex().encode() or b"-", b"%d" % used]
    return b" ".join(words + [b"%d %s" % (number, b"nothing" if new is None else b"%d" % new) for number, new in edits])


def lines(seed, count, mode="mix"):
    """The lines, without their ends."""
    rng = random.Random(seed)
    found = (edit_line(*one) for one in values.made(rng, MODES, MIX, mode))
    for _ in range(count):
        yield next(found)


def main(words):
    mode = words[2] if len(words) == 3 else "mix"
    if len(words) not in (2, 3) or mode not in [*MODES, "mix"]:
        sys.exit(__doc__)
    for line in lines(int(words[0]), int(words[1]), mode):
        sys.stdout.buffer.write(line + b"\n")


if __name__ == "__main__":
    main(sys.argv[1:])
