#!/usr/bin/env python3
"""Prints frames for the oracle, or leaf calls.

Usage: oracle/gen.py [--max BYTES] SEED COUNT [MODE]     lines `TYPE l|b POSITION HEX`
       oracle/gen.py --leaf SEED COUNT                   lines for `oracle --leaf`

The modes are described in README.md. The same seed prints the same lines.

A type is kept as a tree: a basic letter or `v` as text, ("a", child), ("m", child), ("(", fields) and ("{", key, value).
A value is a number, bytes for a text, a list for an array, a tuple for a structure, a list of pairs for a dictionary,
None or (child,) for a maybe, and (type, value) for a variant.
"""
import random
import sys

WIDTHS = {"b": 1, "y": 1, "n": 2, "q": 2, "i": 4, "u": 4, "x": 8, "t": 8, "d": 8}
NUMBERS = "bynqiuxtd"
TEXTS = "sog"
LIMIT = 65536
SMALL_BYTES = bytes([0, 0, 0, 0, 1, 1, 2, 2, 3, 3, 4, 5, 6, 7, 8, 0x61, 0x73, 0x79, 0x6E, 0x76, 0x28, 0x29, 0xC3, 0xA9, 0xFF])


# Types.

def type_text(tree):
    if isinstance(tree, str):
        return tree
    if tree[0] == "(":
        return "(" + "".join(map(type_text, tree[1])) + ")"
    if tree[0] == "{":
        return "a{" + type_text(tree[1]) + type_text(tree[2]) + "}"
    return tree[0] + type_text(tree[1])


def children(tree):
    """The trees inside a container: the fields, the key and value, or the one child."""
    if isinstance(tree, str):
        return []
    return tree[1] if tree[0] == "(" else list(tree[1:])


def alignment(tree):
    if isinstance(tree, str):
        return 8 if tree == "v" else WIDTHS.get(tree, 1)
    return max(map(alignment, children(tree)))


def fixed(tree):
    if isinstance(tree, str):
        return tree in WIDTHS
    return tree[0] == "(" and all(map(fixed, tree[1]))


def random_type(rng, depth, basics=NUMBERS + TEXTS):
    if depth == 0 or rng.random() < 0.3:
        return "v" if rng.random() < 0.1 and basics != NUMBERS else rng.choice(basics)
    kind = rng.choice("aam((({")
    if kind == "(":
        return ("(", [random_type(rng, depth - 1, basics) for _ in range(rng.choice([1, 2, 2, 3, 3, 4]))])
    if kind == "{":
        key = rng.choice(basics)
        return ("{", "s" if key in TEXTS and rng.random() < 0.7 else key, random_type(rng, depth - 1, basics))
    return (kind, random_type(rng, depth - 1, basics))


def random_fixed_type(rng, depth, letters=NUMBERS):
    """A fixed type, most often a structure, and more structures towards its end."""
    if depth == 0 or rng.random() < 0.2:
        return rng.choice(letters)
    count = rng.choice([1, 2, 2, 3, 3, 4, 5])
    first = [rng.choice(letters) if rng.random() < 0.7 else random_fixed_type(rng, depth - 1, letters) for _ in range(count - 1)]
    return ("(", first + [random_fixed_type(rng, depth - 1, rng.choice([letters, letters, "by", "byq"]))])


# Values.

def random_number(rng, letter):
    if letter == "b":
        return rng.randrange(2)
    bits = 8 * WIDTHS[letter]
    return rng.choice([0, 1, 5, rng.randrange(256), rng.getrandbits(bits), (1 << bits) - 1])


def random_text(rng, longest=12):
    pieces = ["a", "b", "/", "s", "y", "\u00e9", "\u20ac", "\U0001f600", "z"]
    return "".join(rng.choice(pieces) for _ in range(rng.randrange(longest + 1))).encode()


def random_value(rng, tree, room=4, types=random_type):
    """Room is the longest list; it falls with the nesting. The types of variants are made by `types`."""
    if isinstance(tree, str):
        if tree == "v":
            inner = types(rng, min(room, 2))
            return (inner, random_value(rng, inner, max(room - 1, 0), types))
        return random_text(rng) if tree in TEXTS else random_number(rng, tree)
    less = max(room - 1, 1)
    if tree[0] == "(":
        return tuple(random_value(rng, field, room, types) for field in tree[1])
    if tree[0] == "m":
        return None if rng.random() < 0.3 else (random_value(rng, tree[1], room, types),)
    count = rng.randrange(room + 1)
    if tree[0] == "a":
        return [random_value(rng, tree[1], less, types) for _ in range(count)]
    return [tuple(random_value(rng, part, less, types) for part in tree[1:]) for _ in range(count)]


# The written form, for a value that begins at a multiple of 8.

def padded(data, align):
    return data + bytes(-len(data) % align)


def width_for(length, count):
    """The smallest width that holds the length of body and offsets."""
    return next(width for width in (1, 2, 4, 8) if length + count * width < 1 << (8 * width))


def with_offsets(body, offsets):
    width = width_for(len(body), len(offsets))
    return body + b"".join(offset.to_bytes(width, "little") for offset in offsets)


def written(tree, value, order):
    if isinstance(tree, str):
        if tree == "v":
            inner, held = value
            return written(inner, held, order) + b"\0" + type_text(inner).encode()
        if tree in TEXTS:
            return value + b"\0"
        return value.to_bytes(WIDTHS[tree], order)
    if tree[0] == "(":
        return written_structure(tree, value, order)
    if tree[0] == "m":
        if value is None:
            return b""
        return written(tree[1], value[0], order) + (b"" if fixed(tree[1]) else b"\0")
    element = tree[1] if tree[0] == "a" else ("(", list(tree[1:]))
    return written_array(element, value, order)


def written_structure(tree, value, order):
    body, offsets = b"", []
    last = len(tree[1]) - 1
    for index, (field, part) in enumerate(zip(tree[1], value)):
        body = padded(body, alignment(field)) + written(field, part, order)
        if index != last and not fixed(field):
            offsets.insert(0, len(body))
    if fixed(tree):
        return padded(body, alignment(tree))
    return with_offsets(body, offsets)


def written_array(element, values, order):
    parts, length, offsets = [], 0, []
    align = alignment(element)
    for value in values:
        part = bytes(-length % align) + written(element, value, order)
        parts.append(part)
        length += len(part)
        offsets.append(length)
    body = b"".join(parts)
    return body if fixed(element) else with_offsets(body, offsets)


# What the modes share. A frame is (type text as bytes, "little" or "big", position, bytes).

def random_order(rng):
    return "little" if rng.random() < 0.7 else "big"


def random_position(rng):
    chance = rng.random()
    if chance < 0.75:
        return 0
    if chance < 0.95:
        return rng.randrange(1, 17)
    if chance < 0.998:
        return rng.choice([LIMIT, LIMIT, LIMIT - 1, LIMIT - rng.randrange(9), rng.randrange(LIMIT)])
    return LIMIT + 1


def frame(tree, order, position, data):
    return (type_text(tree).encode(), order, position, data)


def placed(tree, order, position, data):
    """A written form at a position, with the zeros that lead to its alignment."""
    return frame(tree, order, position, bytes(-position % alignment(tree)) + data)


def small_bytes(rng, count):
    return bytes(rng.choice(SMALL_BYTES) for _ in range(count))


def damage(rng, data):
    """One change: a byte set, moved by one, taken out or put in, the end or the front cut, an offset changed."""
    data = bytearray(data)
    if not data:
        return small_bytes(rng, rng.randrange(1, 4))
    place = rng.randrange(len(data))
    if rng.random() < 0.4:
        place = max(0, len(data) - 1 - rng.randrange(4))
    change = rng.randrange(10)
    if change < 3:
        data[place] = rng.choice([0, 1, 0xFF, 0xC3, 0x80, rng.randrange(256)])
    elif change < 6:
        data[place] = (data[place] + rng.choice([-2, -1, 1, 2])) % 256
    elif change == 6:
        del data[place]
    elif change == 7:
        data.insert(place, rng.choice(SMALL_BYTES))
    elif change == 8:
        del data[len(data) - rng.randrange(1, min(len(data), 9) + 1):]
    else:
        del data[:rng.randrange(1, min(len(data), 9) + 1)]
    return bytes(data)


def damage_often(rng, data, chance):
    while rng.random() < chance:
        data = damage(rng, data)
    return data


# The modes. Each yields the frames of one throw.

def mode_valid(rng):
    tree, order = random_type(rng, rng.randrange(5)), random_order(rng)
    yield placed(tree, order, random_position(rng), written(tree, random_value(rng, tree), order))


def overtaken(rng):
    """A fixed structure or entry whose last field fails and whose end padding is then judged: a wide field, an odd number of
    bytes, a narrower field that pads, cut near there."""
    wide, narrow = rng.choice("xtdiu"), rng.choice("nqiu")
    odd = [rng.choice("by")] * rng.choice([1, 1, 2, 3, 5])
    tail = ("(", odd + [narrow])
    structure = ("(", [wide] + rng.choice([odd + [narrow], [tail], [("(", [tail])], odd + [tail], [("(", [tail, "y"])], odd + [("(", [tail, "b"])]]))
    tree = rng.choice([structure, structure, ("{", wide, tail), ("{", wide, tail), ("a", structure), ("m", structure), ("(", [structure, "y"])])
    length = WIDTHS[wide] * rng.choice([1, 1, 1, 3]) + rng.randrange(12)
    data = bytearray(length)
    for place in range(WIDTHS[wide], length):
        data[place] = rng.choice(b"\0\0\1")
    return tree, bytes(data)


def mode_fixed(rng):
    """Fixed structures and entries; the last field or the end padding fails."""
    if rng.random() < 0.35:
        tree, data = overtaken(rng)
        yield placed(tree, random_order(rng), random_position(rng), data)
        return
    letters = rng.choice([NUMBERS, "byqi", "byn"])
    inner = random_fixed_type(rng, rng.choice([1, 2, 2, 3]), letters)
    key = rng.choice(letters)
    tree = rng.choice([inner, inner, ("a", inner), ("{", key, inner), ("{", key, rng.choice(letters)), ("m", inner),
                       ("(", [inner, rng.choice(letters)]), ("(", [rng.choice(letters), ("a", inner)])])
    order = random_order(rng)
    data = bytearray(written(tree, random_value(rng, tree, 2), order))
    if rng.random() < 0.5:
        data = bytearray(rng.choice(rng.choice([b"\0\0\0\1", bytes(9) + b"\1"])) for _ in data)
    if rng.random() < 0.5:
        del data[rng.randrange(len(data) // alignment(tree) + 1) * alignment(tree):]
    elif rng.random() < 0.5:
        del data[len(data) - rng.randrange(min(len(data), 9) + 1):]
    for _ in range(rng.randrange(3)):
        if data:
            data[-1 - rng.randrange(min(len(data), 9))] = rng.choice([0, 0, 1, 5])
    yield placed(tree, order, random_position(rng), bytes(data))


BOUNDARY_TYPES = [
    ("a", "s"), ("a", ("a", "s")), ("a", ("m", "y")), ("(", ["s", "s"]), ("(", ["s", "y", "s"]), ("(", ["s", ("a", "y"), "q"]),
    ("{", "s", "s"), ("{", "s", "y"), ("{", "s", "v"), ("{", "y", "s"), ("{", "s", ("a", "s")), ("m", ("a", "s")),
    ("a", ("(", ["s", "s"])), ("(", [("a", "s"), "s", "t"]), ("a", "v"), "v", ("{", "o", ("(", ["s", "q"]))]


def lengthened(rng, tree, value, fill):
    """The value with one of its texts made longer; the same value if it has none."""
    if isinstance(tree, str):
        if tree == "v":
            return (value[0], lengthened(rng, value[0], value[1], fill))
        return value + b"a" * fill if tree in TEXTS else value
    if value is None or len(value) == 0:
        return value
    at = rng.randrange(len(value))
    if tree[0] == "(":
        parts, fields = list(value), tree[1]
        texts = [i for i, field in enumerate(fields) if not fixed(field)]
        at = rng.choice(texts) if texts else at
        parts[at] = lengthened(rng, fields[at], parts[at], fill)
        return tuple(parts)
    if tree[0] == "m":
        return (lengthened(rng, tree[1], value[0], fill),)
    element = tree[1] if tree[0] == "a" else ("(", list(tree[1:]))
    parts = list(value)
    parts[at] = lengthened(rng, element, parts[at], fill)
    return parts


def mode_boundary(rng):
    """Containers whose length is near the one where the offset's width changes."""
    tree, order = rng.choice(BOUNDARY_TYPES), random_order(rng)
    value = random_value(rng, tree, 3)
    target = 65535 if rng.random() < 0.004 else 255
    length = len(written(tree, value, order))
    data = written(tree, lengthened(rng, tree, value, max(0, target - length + rng.randrange(-9, 8))), order)
    if rng.random() < 0.1:
        count = rng.randrange(120, 136)
        tree, data = ("(", ["s"] * count), small_or_zero(rng, count)
    yield placed(tree, order, random_position(rng), damage_often(rng, data, 0.35))


def small_or_zero(rng, count):
    """Bytes for a structure of so many texts: their written form when empty, or zeros of a near length."""
    if rng.random() < 0.5:
        return bytes(rng.randrange(250, 262))
    return written(("(", ["s"] * count), (b"",) * count, "little")


def mode_damaged(rng):
    tree, order = random_type(rng, rng.randrange(1, 4)), random_order(rng)
    data = written(tree, random_value(rng, tree), order)
    for _ in range(rng.choice([1, 1, 1, 2, 3])):
        data = damage(rng, data)
    yield placed(tree, order, random_position(rng), data)


LEAD_TYPES = [
    "n", "u", "x", "v", ("m", "x"), ("m", "n"), ("m", "v"), ("a", "q"), ("a", ("m", "n")), ("a", "v"), ("(", ["v", "s"]),
    ("(", ["y", ("m", "n")]), ("(", ["y", "n", "q", "i", "x"]), ("(", ["s", "u", "s"]), ("{", "q", "g"), ("{", "s", "v"), ("{", "y", "x"),
    ("(", ["y", ("(", ["s", "t"])]), ("a", ("(", ["y", "s", "q"])), ("{", "s", ("a", "t")), ("m", ("m", "u")), ("(", ["s", ("a", "u"), "y"])]


def mode_lead(rng):
    """Positions other than 0, and what leads to the first byte: zeros, too few of them, or others."""
    tree = rng.choice(LEAD_TYPES) if rng.random() < 0.8 else random_type(rng, 3)
    order = random_order(rng)
    position = rng.choice([rng.randrange(1, 17), rng.randrange(1, 9), LIMIT - rng.randrange(9)])
    lead = bytearray(-position % alignment(tree))
    if lead and rng.random() < 0.15:
        lead[rng.randrange(len(lead))] = rng.choice([1, 0xFF])
    if rng.random() < 0.25:
        lead = bytearray(rng.randrange(9))
    data = written(tree, random_value(rng, tree, 2), order)
    if rng.random() < 0.2:
        data = b""
    yield frame(tree, order, position, bytes(lead) + damage_often(rng, data, 0.3))


ORDER_TYPES = [
    ("a", "s"), ("a", ("m", "y")), ("a", ("m", "n")), ("a", ("a", "y")), ("a", ("a", "s")), ("(", ["s", "s", "s"]), ("(", ["s", "u", "s"]),
    ("{", "s", "y"), ("{", "s", "s"), ("{", "y", "s"), ("{", "s", "n"), ("a", ("(", ["s", "y"])), ("(", [("a", "y"), ("m", "n"), "s", "q"]),
    ("a", ("m", ("m", "y"))), ("{", "s", ("m", "q"))]


def random_table(rng, length, count):
    """Offsets up to a length: mostly rising, or with equal, falling or too large ones."""
    offsets = [rng.randrange(length + 1) for _ in range(count)]
    shape = rng.random()
    if shape < 0.5:
        offsets.sort()
    elif shape < 0.7:
        offsets = [rng.choice(offsets) for _ in offsets]
    elif shape < 0.8:
        offsets[rng.randrange(count)] = length + rng.randrange(1, 4)
    return offsets


def mode_order(rng):
    """A body with a made-up table, once in each byte order."""
    tree = rng.choice(ORDER_TYPES) if rng.random() < 0.8 else random_type(rng, 3)
    body = small_bytes(rng, rng.randrange(13)) if rng.random() < 0.5 else bytes(rng.randrange(13))
    offsets = random_table(rng, len(body), rng.randrange(1, 5))
    if isinstance(tree, tuple) and tree[0] in "a{":
        offsets[-1] = len(body)
    data = body + bytes(offset % 256 for offset in offsets)
    position = random_position(rng)
    for order in ("little", "big"):
        yield placed(tree, order, position, data)


def chain(steps, last, order):
    """Containers in one another, one element each, built from the inside: type text, alignment, written form."""
    text, align, is_fixed = last, alignment(last), fixed(last)
    data = written(last, b"k" if last == "s" else 5, order)
    for step in reversed(steps):
        if step == "(":
            text = "(" + text + ")"
            continue
        if step == "v":
            text, align, is_fixed, data = "v", 8, False, data + b"\0" + text.encode()
            continue
        if step == "m":
            data += b"" if is_fixed else b"\0"
        if step == "{":
            data = padded(b"\7", align) + data
            data = padded(data, align) if is_fixed else data
        if step in "a{" and not is_fixed:
            data = with_offsets(data, [len(data)])
        text, is_fixed = "a{y" + text + "}" if step == "{" else step + text, False
    return text, align, data


def random_chain(rng):
    """Containers in one another, at and around the limits of depth."""
    structures, arrays, total = rng.randrange(30, 36), rng.randrange(30, 36), rng.randrange(61, 69)
    kind = rng.randrange(6)
    if kind == 0:
        return ["("] * structures
    if kind == 1:
        return [rng.choice("aaaa{") for _ in range(arrays)]
    if kind == 2:
        return [rng.choice("mv") if rng.random() < 0.3 else "m" for _ in range(total)]
    if kind == 3:
        return ["v"] * total
    steps = ["("] * rng.randrange(20, 33) + [rng.choice("aaa{") for _ in range(rng.randrange(20, 33))]
    if kind == 4:
        steps += [rng.choice("mv") for _ in range(max(0, total - len(steps)))]
    else:
        steps += rng.choice("(a") * rng.randrange(1, 12)
    rng.shuffle(steps)
    return steps


def deep_fixed(rng):
    """Structures in one another behind a wide field: their depth, the end padding of the outermost, or neither fails."""
    text = "(" * rng.randrange(29, 34) + "y"
    text = "m" * rng.choice([0, 0, 0, 31, 32, 33]) + "(x" + rng.choice(["", "y", "yy"]) + text + ")" * text.count("(") + ")"
    data = bytes(8) + bytes(rng.choice(b"\0\0\0\0\1") for _ in range(rng.randrange(12)))
    return text.encode(), random_order(rng), 8 * rng.randrange(2), data


def mode_depth(rng):
    if rng.random() < 0.1:
        yield deep_fixed(rng)
        return
    order, position = random_order(rng), random_position(rng)
    text, align, data = chain(random_chain(rng), rng.choice("ysyn"), order)
    shape = rng.random()
    if shape < 0.1:
        data = b""
    elif shape < 0.2:
        data = bytes(rng.randrange(80))
    elif shape < 0.35:
        data = damage(rng, data)
    yield (text.encode(), order, position, bytes(-position % align) + data)


ODD_TYPES = [
    b"", b"()", b"h", b"{sv}", b"{yy}", b"yy", b"a", b"m", b"(", b")", b"(y", b"y)", b"a{", b"a{s", b"a{sv", b"a{sv}}", b"a{vs}", b"a{(y)s}",
    b"a{sss}", b"a{s}", b"a{asy}", b"e", b"r", b"*", b"?", b"Y", b"z", b"(y))", b"((y)", b"(a)", b"am", b"mh", b"a()", b"(h)", b"(y{sy})", b"maa",
    b"\xff", b"\xc3\xa9", b"s\x80", b"y\x01", b"-", b"a{ys}y", b"m()", b"vv", b"a{hy}", b"a{mys}"]


def long_type(rng):
    """A type of 253 to 258 characters."""
    length = rng.randrange(253, 259)
    return rng.choice([b"(" + b"y" * (length - 2) + b")", b"m" * (length - 1) + b"y", b"a" * (length - 1) + b"s",
                       b"(" + b"s" * (length - 3) + b"v)", b"(" * (length // 2) + b"y" + b")" * (length // 2)])


def random_signature(rng):
    chance = rng.random()
    if chance < 0.35:
        return rng.choice(ODD_TYPES)
    if chance < 0.5:
        return long_type(rng)
    text = bytearray(type_text(random_type(rng, 3)).encode())
    if chance < 0.7:
        text[rng.randrange(len(text))] = rng.choice(b"ybsva(){}mh\xff\x80\xc3\x00")
    return bytes(text)


def mode_sig(rng):
    """Variants with odd signatures, separators at odd places; refused types at the top."""
    order, position = random_order(rng), random_position(rng)
    if rng.random() < 0.12:
        odd = rng.choice([rng.choice(ODD_TYPES), long_type(rng), random_signature(rng)])
        if not set(odd) & set(b" \n"):
            yield (odd, order, position, small_bytes(rng, rng.randrange(6)))
        return
    held = bytes(rng.randrange(20)) if rng.random() < 0.5 else small_bytes(rng, rng.randrange(12))
    separator = rng.choice([b"\0", b"\0", b"\0", b"\0", b"", b"\0\0", b"\1"])
    after = rng.choice([b"", b"", b"", b"", b"\0", b"s", b"\0y", b"\xff"])
    data = held + separator + random_signature(rng) + after
    if rng.random() < 0.1:
        data = bytes(rng.choice(b"ysva\x01\xff") for _ in range(rng.randrange(9)))
    tree = rng.choice(["v", "v", "v", ("m", "v"), ("a", "v"), ("(", ["v", "s"]), ("{", "s", "v"), ("(", ["y", "v"])])
    yield placed(tree, order, position, around_variant(tree, data))


def around_variant(tree, data):
    """The bytes of a variant inside one of the types that hold one."""
    if tree == "v":
        return data
    if tree[0] == "m":
        return data + b"\0"
    if tree[0] == "a":
        return with_offsets(data, [len(data)])
    if tree[0] == "(":
        return with_offsets(data + b"k\0", [len(data)]) if tree[1][0] == "v" else bytes(8) + data
    entry = with_offsets(padded(b"k\0", 8) + data, [2])
    return with_offsets(entry, [len(entry)])


def mode_wide(rng):
    """Frames of 65,535, 65,536 and 65,537 bytes."""
    length, order = rng.choice([65535, 65536, 65536, 65536, 65537]), random_order(rng)
    position = rng.choice([0, 0, 0, 0, 8, 1, LIMIT, LIMIT + 1])
    kind = rng.randrange(6)
    if kind == 0:
        tree = rng.choice(["s", ("a", "y"), ("a", "n"), ("m", "s"), ("m", ("a", "y")), ("(", ["y", ("a", "q")]), ("{", "y", "y")])
        data = b"a" * (length - 1) + b"\0"
        yield frame(tree, order, position, data)
        return
    tree = [("a", "s"), ("(", ["s", "s"]), ("{", "s", "s"), ("{", "y", "s"), "v"][kind - 1]
    width = 4 if length == 65536 else rng.choice([2, 4, 8]) if length > 65535 else 2
    yield frame(tree, order, position, damage_often(rng, wide_data(rng, tree, length, width), 0.2))


def wide_data(rng, tree, length, width):
    """So many bytes with a table of one offset of this width, which need not be the one that the length asks for."""
    body = length - width
    text = b"a" * (body - 1) + b"\0"
    if tree == ("(", ["s", "s"]):
        cut = rng.randrange(1, body)
        return text[:cut - 1] + b"\0" + text[cut:] + cut.to_bytes(width, "little")
    if tree == ("{", "s", "s"):
        inner = width_for(body, 0)
        cut = rng.randrange(1, body - inner)
        text = text[:cut - 1] + b"\0" + b"a" * (body - inner - cut - 1) + b"\0" + cut.to_bytes(inner, "little")
    if tree == "v":
        return b"a" * (length - 3) + b"\0" + b"\0s"
    return text + body.to_bytes(width, "little")


TINY_TYPES = [
    "b", "y", "n", "u", "x", "d", "s", "o", "g", "v", ("a", "y"), ("a", "n"), ("a", "s"), ("a", "v"), ("m", "y"), ("m", "n"), ("m", "s"),
    ("m", "v"), ("a", ("m", "n")), ("a", ("m", "y")), ("a", ("a", "y")), ("m", ("m", "y")), ("m", ("m", "s")), ("m", ("a", "s")), ("(", ["y", ("m", "n")]),
    ("(", ["s", "s"]), ("(", ["s", "y"]), ("(", ["y", "s"]), ("(", ["s", "s", "s"]), ("(", ["v", "s"]), ("(", ["y", "n"]), ("(", ["n", "y"]),
    ("{", "s", "y"), ("{", "s", "s"), ("{", "y", "s"), ("{", "n", "y"), ("{", "y", "n"), ("{", "q", "g"), ("{", "s", "v"), ("{", "s", "n"),
    ("a", ("(", ["n", "y"])), ("a", ("(", ["s", "s"])), ("m", ("(", ["n", "y"])), ("m", ("(", ["s", "n"])), ("m", ("{", "s", "y"))]


def mode_tiny(rng):
    """Short frames of random bytes from a small alphabet."""
    tree = rng.choice(TINY_TYPES) if rng.random() < 0.7 else random_type(rng, rng.randrange(1, 4))
    length = rng.randrange(13)
    data = small_bytes(rng, length) if rng.random() < 0.6 else bytes(rng.choice(b"\0\0\0\1\2\3\4\5") for _ in range(length))
    yield frame(tree, random_order(rng), random_position(rng), data)


def mode_positions(rng):
    """One value at each position from 0 to 16, at 65,536 and at one past it, in both byte orders."""
    tree = rng.choice(LEAD_TYPES + ORDER_TYPES) if rng.random() < 0.5 else random_type(rng, rng.randrange(1, 4))
    value, harm = random_value(rng, tree, 2), rng.choice([0, 0, 0.3])
    past = rng.choice([LIMIT + 1, LIMIT + 1, LIMIT + rng.randrange(1, 17), 2**32 - 1, 2**32, 2**63, 2**64 - 1, rng.randrange(LIMIT + 1, 2**64)])
    for order in ("little", "big"):
        data = damage_often(rng, written(tree, value, order), harm)
        for position in [*range(17), LIMIT, past]:
            yield placed(tree, order, position, data)


MODES = {"valid": mode_valid, "fixed": mode_fixed, "boundary": mode_boundary, "damaged": mode_damaged, "lead": mode_lead, "order": mode_order,
         "depth": mode_depth, "sig": mode_sig, "wide": mode_wide, "tiny": mode_tiny, "positions": mode_positions}
# How often a throw of `mix` takes each mode, out of a thousand. It does not take `positions`, so that its seeds keep their lines.
MIX = {"valid": 80, "fixed": 130, "boundary": 50, "damaged": 160, "lead": 120, "order": 60, "depth": 120, "sig": 100, "wide": 1, "tiny": 179}


def frames(rng, mode):
    while True:
        chosen = mode if mode != "mix" else rng.choices(list(MIX), list(MIX.values()))[0]
        yield from MODES[chosen](rng)


def frame_line(text, order, position, data):
    return b"%s %s %d %s" % (text, order[:1].encode(), position, data.hex().encode() or b"-")


def print_frames(seed, count, mode, most):
    if mode == "wide" and most is not None and most < LIMIT - 1:
        sys.exit("the mode wide has no frame of so few bytes")
    made, printed = frames(random.Random(seed), mode), 0
    while printed < count:
        one = next(made)
        if most is None or len(one[3]) <= most:
            sys.stdout.buffer.write(frame_line(*one) + b"\n")
            printed += 1


# Leaf calls.

def edge_number(rng):
    """Numbers at and one off the boundaries, to 2^64 - 1."""
    edge = rng.choice([0, 8, 16, 255, 256, 65535, 65536, 2**31, 2**32 - 1, 2**32, 2**63, 2**64 - 1, rng.getrandbits(64), rng.randrange(300)])
    return min(max(edge + rng.randrange(-9, 10), 0), 2**64 - 1)


def edge_counters(rng):
    """The four counters of a depth record: small, near a limit, or anything."""
    if rng.random() < 0.3:
        return [rng.choice([0, 1, 31, 32, 33, 63, 64, 127, 128, 254, 255, rng.randrange(256)]) for _ in range(4)]
    if rng.random() < 0.5:
        return [rng.randrange(18) for _ in range(4)]
    return [rng.choice([0, 0, 0, 1, 16, 31, 32]) for _ in range(2)] + [rng.choice([0, 0, 1, 16, 30, 31, 32, 63, 64]) for _ in range(2)]


def hexadecimal(data):
    return data.hex() or "-"


def leaf_text(rng):
    data = random_text(rng, 8) + rng.choice([b"\0", b"\0", b"", b"\0\0"])
    odd = [b"\xc0\x80", b"\xed\xa0\x80", b"\xf4\x90\x80\x80", b"\xe2\x82", b"\x80", b"\xf8", b"\0", b"\xef\xbf\xbf", b"\xf0\x8f\xbf\xbf", b"\xe0\x9f\xbf"]
    if rng.random() < 0.6:
        at = rng.randrange(len(data) + 1)
        data = data[:at] + rng.choice(odd + [bytes([rng.randrange(256)])]) + data[at:]
    return data


def leaf_array(rng):
    """A container for `from_encoded_array`: a body and a table, near a width's limit at times, or anything."""
    length = rng.choice([rng.randrange(12), rng.randrange(12), rng.randrange(245, 262)])
    if rng.random() < 0.01:
        length = 65536 - rng.randrange(12)
    body = bytes(length)
    offsets = random_table(rng, length, rng.randrange(1, 5))
    offsets[-1] = max(0, length + rng.choice([0, 0, 0, 0, -1, 1]))
    data = with_offsets(body, offsets) if rng.random() < 0.9 else small_bytes(rng, rng.randrange(12))
    return damage_often(rng, data, 0.15)


def near_place(rng, data):
    return edge_number(rng) if rng.random() < 0.2 else max(0, len(data) + rng.randrange(-9, 4))


def leaf_line(rng):
    width = rng.choice([1, 2, 4, 8])
    align = rng.choice([1, 2, 4, 8, 2, 4, 8, rng.choice([0, 3, 5, 6, 7, 9, 16, 32, 2**63, 2**64 - 1])])
    data = bytes(rng.choice([0, 0, 0, 0, 1]) for _ in range(rng.randrange(18)))
    name = rng.choice(["padding_for_n_bytes", "for_bare_container", "for_encoded_container", "max", "bump_up", "write_offset",
                       "read_last_offset_from_buffer", "depth", "depth", "from_encoded_array", "parse_padding", "next_slice", "number", "bool", "text"])
    if name == "padding_for_n_bytes":
        return f"{name} {edge_number(rng)} {align}"
    if name == "for_bare_container":
        return f"{name} {edge_number(rng)} {rng.choice([edge_number(rng), rng.randrange(9), 2**61 - rng.randrange(3)])}"
    if name == "for_encoded_container":
        return f"{name} {edge_number(rng)}"
    if name in ("max", "bump_up"):
        return f"{name} {width}"
    if name == "write_offset":
        return f"{name} {width} {edge_number(rng)} {hexadecimal(rng.randbytes(rng.randrange(12)))}"
    if name == "read_last_offset_from_buffer":
        return f"{name} {width} {hexadecimal(rng.randbytes(rng.randrange(12)))}"
    if name == "depth":
        step = rng.choice(["inc_structure", "inc_array", "inc_variant", "inc_maybe", "dec_structure", "dec_array", "dec_maybe"])
        return " ".join([step] + [str(counter) for counter in edge_counters(rng)])
    if name == "from_encoded_array":
        return f"{name} {hexadecimal(leaf_array(rng))}"
    if name == "parse_padding":
        return f"{name} {rng.choice([0, rng.randrange(17), edge_number(rng)])} {near_place(rng, data)} {align} {hexadecimal(data)}"
    if name == "next_slice":
        return f"{name} {near_place(rng, data)} {rng.choice([edge_number(rng), rng.randrange(5), rng.randrange(5)])} {hexadecimal(data)}"
    if name == "number":
        letter = rng.choice("ynqiuxtd")
        count = rng.choice([WIDTHS[letter]] * 4 + [rng.randrange(9)])
        return f"{name} {letter} {rng.choice('lb')} {hexadecimal(rng.randbytes(count))}"
    if name == "bool":
        return f"{name} {hexadecimal(rng.choice([b'', bytes([rng.choice([0, 1, 2, 255])])]))}"
    return f"{name} {hexadecimal(leaf_text(rng))}"


def print_leaves(seed, count):
    rng = random.Random(seed)
    for _ in range(count):
        print(leaf_line(rng))


def main(words):
    most, leaf = None, "--leaf" in words
    words = [word for word in words if word != "--leaf"]
    if "--max" in words:
        at = words.index("--max")
        most = int(words[at + 1])
        del words[at:at + 2]
    mode = words[2] if len(words) == 3 else "mix"
    if len(words) not in (2, 3) or mode not in list(MODES) + ["mix"]:
        sys.exit(__doc__)
    if leaf:
        print_leaves(int(words[0]), int(words[1]))
    else:
        print_frames(int(words[0]), int(words[1]), mode, most)


if __name__ == "__main__":
    main(sys.argv[1:])
