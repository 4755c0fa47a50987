#!/usr/bin/env python3
"""Measures the stack that the calls use at the limits, hunts for deeper cases, and prints tables. Called by bench/stack.

Usage: bench/stack.py WORD..      (they run the program of bench/stack.c)

A case is a frame, for size, read, is_written and edit, which puts its first reading as 1, and the events of the same value, for write. They are
made by the oracle's writer and by its maker of events. The hunt is random, and the same in each run. For each call it tries

- every sequence of one, two or three kinds of containers, again and again until the limits are reached;
- in the deepest of those a variant, within the limits or one beyond them, whose type has 255 characters: each shape;
- the deepest of those with containers changed, for some rounds.

Ends with 0 exactly if every case, of the table and of the hunts, runs in a thread whose stack has 128 KiB, and edit in one of 192 KiB.
"""
import itertools
import random
import re
import struct
import subprocess
import sys
from collections import namedtuple

sys.dont_write_bytecode = True
from frames import counted, gen, tree_of  # noqa: E402
import model  # noqa: E402
import values  # noqa: E402

Case = namedtuple("Case", "name type data refusal events numbers texts")
Seen = namedtuple("Seen", "case events refusals bytes")

CALLS = ("size", "read", "is_written", "write", "edit")
HUNTED = ("read", "is_written", "write", "edit")        # size takes what read does
SPARE = 16              # bytes behind the frame that edit is lent
KINDS = {"a": "array", "m": "maybe", "(": "structure", "v": "variant", "{": "dictionary by texts", "[": "dictionary by numbers"}
LONGEST = 255           # characters of a type
LONG_KEY = b"k" * 8200  # makes a frame one of those for which edit keeps 65,536 bytes
KEPT, TRIED, ROUNDS, SHOWN = 12, 60, 12, 8


# The stack of cases.

def run(words, mode, cases):
    """The answers of the program, and whether it came to its end."""
    asked = b"".join(struct.pack("<IIII", len(case.type), len(case.data), len(case.numbers), len(case.texts)) + case.type + case.data
                     + struct.pack("<%dQ" % len(case.numbers), *case.numbers) + case.texts for case in cases)
    done = subprocess.run(words + [mode], input=asked, capture_output=True)
    return [[int(word) for word in line.split()] for line in done.stdout.decode().splitlines()], done.returncode == 0


def painted(words, cases):
    answers, ended = run(words, "paint", cases)
    if not ended or len(answers) != len(cases):
        sys.exit("bench/stack.py: %s does not run" % cases[len(answers)].name)
    return [Seen(case, answer[0], answer[1::2], dict(zip(CALLS, answer[2::2]))) for case, answer in zip(cases, answers, strict=True)]


def too_deep(words, cases):
    """The places of the cases that do not run in the small thread; one that does not ends the program."""
    places, first = [], 0
    while first < len(cases):
        answers, ended = run(words, "thread", cases[first:])
        if ended:
            break
        first += len(answers) + 1
        places.append(first - 1)
    return places


# Frames: containers in one another.

def nest(kinds, innermost, key=b"k"):
    """A tree and a value with so many containers in one another, from the outside in.
    The key of the one entry of a dictionary is the text k, of the outermost the given one, or the number 1."""
    tree, value = innermost
    for place, kind in reversed(list(enumerate(kinds))):
        if kind == "v":
            tree, value = "v", (tree, value)
        elif kind == "{":
            tree, value = ("{", "s", tree), [(b"k" if "{" in kinds[:place] else key, value)]
        elif kind == "[":
            tree, value = ("{", "q", tree), [(1, value)]
        elif kind == "(":
            tree, value = ("(", [tree]), (value,)
        elif kind == "a":
            tree, value = ("a", tree), [value]
        else:
            tree, value = ("m", tree), (value,)
    return tree, value


def case(name, tree, value, refusal=0):
    """A value's frame and events, and what every call answers."""
    numbers, texts = values.spelt(random.Random(1), tree, value)
    return Case(name, gen.type_text(tree).encode(), gen.written(tree, value, "little"), refusal,
                0 if refusal else counted(tree, value)[0], numbers, bytes(texts))


def nested(name, kinds, innermost=("y", 5), refusal=0, key=b"k"):
    return case(name, *nest(kinds, innermost, key), refusal)


def many(count, what, text, value):
    """An array or dictionary of so many elements."""
    assert len(value) in (1, count), what
    return case("%s %s" % (format(count, ","), what), tree_of(text), value * (count // len(value)))


# An array that holds none, of a type that is deep to walk: what stands in for any type of 255 characters.
DEEP_ARRAY = (tree_of("a" * 254 + "y"), [])


# What edit changes.
READING, MISSING = (("m", "n"), (5,)), (("m", "n"), None)


def least(tree):
    """A value of a type with as little in it as can be."""
    if isinstance(tree, str):
        return ("y", 0) if tree == "v" else b"" if tree in gen.TEXTS else 0
    return tuple(map(least, tree[1])) if tree[0] == "(" else None if tree[0] == "m" else []


def typed(name, kinds, text, refusal=None, key=b"k"):
    """Containers in one another, the last a variant with this type, of 255 characters; in the frame it has no bytes. The events are those
    of a value of the type, if it is one, so that nothing but depth is wrong with them."""
    made, old = nested(name, kinds + "v", DEEP_ARRAY, key=key), gen.type_text(DEEP_ARRAY[0]).encode()
    try:
        numbers, texts = values.spelt(random.Random(1), *nest(kinds + "v", (tree_of(text), least(tree_of(text))), key))
    except (AssertionError, IndexError):
        numbers, texts = made.numbers, made.texts.replace(old, text.encode())
    return made._replace(data=made.data.replace(old, text.encode()), refusal=refusal, events=0, numbers=numbers, texts=bytes(texts))


def table():
    """Cases of each kind, by hand: what they are refused with and how many events they have is known."""
    deep_brackets, deep_maybe = (tree_of("a" + "(" * 126 + "y" + ")" * 126), []), (tree_of("m" * 254 + "y"), None)
    texts, deep = (tree_of("as"), [b""] * 20000), nest("v{" * 31 + "v", ("y", 5))[1]
    return [
        many(65536, "bytes in an array", "ay", [i % 256 for i in range(65536)]),
        many(32768, "numbers in an array", "an", list(range(32768))),
        many(32767, "nothings in an array", "amy", [None]),
        many(21844, "present maybes in an array", "amy", [(5,)]),
        many(21844, "empty texts in an array", "as", [b""]),
        many(6552, "variants in an array", "av", [("y", 5)]),
        many(10922, "entries of a dictionary", "a{sy}", [(b"k", 1)]),
        many(32768, "structures in an array", "a(yy)", [(1, 2)]),
        case("a text of 65,536 bytes", "s", b"a" * 65535),
        case("a text of 65,536 bytes, 3 a character", "s", "\u20ac".encode() * 21845),
        case("250 fields of y", tree_of("(" + "y" * 250 + ")"), (7,) * 250),
        case("250 fields of s", tree_of("(" + "s" * 250 + ")"), (b"text",) * 250),
        many(16000, "readings in an array", "amn", [(5,)]),
        nested("64 maybes", "m" * 64),
        nested("64 variants", "v" * 64),
        nested("32 structures, each in an array", "a(" * 32),
        nested("32 arrays, each in a structure", "(a" * 32),
        nested("32 dictionaries, each in a variant", "v{" * 32),
        nested("31 dictionaries, each in a variant, and in them 20,000 empty texts", "v{" * 31, texts),
        case("5,000 variants in an array, the last around 31 dictionaries, each in a variant", tree_of("av"), [("y", 5)] * 5000 + [deep]),
        nested("32 dictionaries, each in a structure", "({" * 32),
        nested("32 dictionaries of numbers, each in a structure", "([" * 32),
        nested("variant, maybe, array, structure, 16 times", "vma(" * 16),
        nested("63 variants, then 254 arrays of none", "v" * 63, DEEP_ARRAY),
        nested("31 structures, each around a dictionary; a variant; 126 brackets in an array of none", "({" * 31 + "v", deep_brackets),
        nested("31 structures and 32 dictionaries; a variant; 254 maybes of nothing", "({" * 31 + "{v", deep_maybe),
        typed("31 structures and 32 dictionaries; a variant's type of 255 brackets that open", "({" * 31 + "{", "(" * LONGEST, 9),
        nested("63 variants around a reading", "v" * 63, READING),
        nested("64 variants around a missing reading", "v" * 64, MISSING),
        nested("32 dictionaries, each in a structure, and in them a missing reading", "({" * 32, MISSING),
        nested("31 dictionaries, each in a variant, and a reading", "v{" * 31, READING),
        nested("65 maybes", "m" * 65, refusal=12),
        nested("65 variants", "v" * 65, refusal=12),
        nested("127 brackets, a byte", "(" * 127, refusal=10),
        case("254 arrays, no bytes", *DEEP_ARRAY),
        case("254 maybes, no bytes", *deep_maybe),
        Case("255 brackets that open", b"(" * 255, b"\5", 1, 0, [40, 0, 0], b""),
        typed("a variant's type of 255 brackets that open", "", "(" * LONGEST, 9),
    ]


# The hunt.

def within(kinds):
    """Whether the limits allow so many structures, arrays and containers."""
    return kinds.count("(") <= 32 and sum(kinds.count(kind) for kind in "a{[") <= 32 and len(kinds) <= 64


def again(word, count):
    """The word's kinds again and again, as far as the limits allow, then maybes."""
    kinds = ""
    for kind in itertools.islice(itertools.cycle(word), 4 * count):
        if len(kinds) < count and within(kinds + kind):
            kinds += kind
    return kinds + "m" * (count - len(kinds))


def words_of(kinds, longest):
    return ["".join(word) for length in range(1, longest + 1) for word in itertools.product(kinds, repeat=length)]


def shapes():
    """Types of 255 characters that need no bytes, of one or two kinds in one another or of many fields; and unfinished ones."""
    opened, closed = {"a": "a", "m": "m", "(": "(", "{": "a{y"}, {"a": "", "m": "", "(": ")", "{": "}"}
    found = ["(" + "y" * 253 + ")", "a(" + "s" * 252 + ")"]
    for word in words_of("am({", 2):
        found.append(("".join(opened[kind] for kind in word) * LONGEST)[:LONGEST])
        text = "y"
        for kind in itertools.cycle(word):
            if len(text) + len(opened[kind] + closed[kind]) >= LONGEST:
                break
            text = opened[kind] + text + closed[kind]
        found += [outer * (LONGEST - len(text)) + text for outer in "am"]
    return found


def short(text):
    """With what is repeated counted."""
    return re.sub(r"(.{1,3}?)\1{3,}", lambda found: " %d*%s " % (len(found.group(0)) // len(found.group(1)), found.group(1)), text).strip()


def hunted(kinds, inside, key=b"k"):
    """The case of these containers around one of the leaves, or around a variant with this type."""
    if inside in LEAVES:
        return nested("`%s`, then %s" % (short(kinds), inside), kinds, LEAVES[inside], key=key)
    return typed("`%s`, then a variant of the type `%s`" % (short(kinds), short(inside)), kinds, inside, key=key)


LEAVES = {"a byte": ("y", 5), "a number": ("t", 5), "a text": ("s", b"text"), "a nothing": (tree_of("ms"), None), "a reading": READING,
          "a missing reading": MISSING}


def changed(rng, kinds, inside, insides):
    """Some kinds set anew or moved, or another type inside."""
    if rng.random() < 0.2:
        return kinds, rng.choice(insides)
    kinds = list(kinds)
    for _ in range(rng.choice((1, 1, 2, 4, 8))):
        place, other = rng.randrange(len(kinds)), rng.randrange(len(kinds))
        if rng.random() < 0.5:
            kinds[place] = rng.choice(list(KINDS))
        else:
            kinds[place], kinds[other] = kinds[other], kinds[place]
    return "".join(kinds), inside


def hunt(words, call):
    """All cases that were tried to find where this call is deep, the deepest first."""
    rng, tried = random.Random(1), {}
    insides, key = shapes(), LONG_KEY if call == "edit" else b"k"

    def try_all(pairs):
        new = [pair for pair in dict.fromkeys(pairs) if pair not in tried and within(pair[0])]
        tried.update(zip(new, painted(words, [hunted(*pair, key) for pair in new]), strict=True))
        return sorted(tried, key=lambda pair: -tried[pair].bytes[call])[:KEPT]

    leaves = ("a reading", "a missing reading") if call == "edit" else ("a byte", "a text")
    best = try_all((again(word, 64), leaf) for word in words_of(KINDS, 3) for leaf in leaves)
    best = try_all((kinds[:count], inside) for kinds, _ in best for count in (62, 63, 64) for inside in [*LEAVES, *insides])
    for _ in range(ROUNDS):
        best = try_all([changed(rng, *rng.choice(best), insides) for _ in range(TRIED)])
    found = list(tried.values()) + bare(words)
    return sorted(found, key=lambda one: -one.bytes[call])


def bare(words):
    """Types of 255 characters without a container around them, and the events of an array of none."""
    return painted(words, [Case("the type `%s`" % short(text), text.encode(), data, None, None, [ord("a"), 0, 0, ord(")"), 0, 0], b"")
                           for text in shapes() for data in (b"", b"\5")])


def one_more(words, kind):
    """What the twentieth container of a kind in one another adds to each call: around a text, for edit around a reading."""
    added = []
    for leaf in ("a text", "a reading"):
        fewer, more = painted(words, [hunted(kind * count, leaf) for count in (19, 20)])
        added.append([more.bytes[call] - fewer.bytes[call] for call in CALLS])
    return [added[call == "edit"][place] for place, call in enumerate(CALLS)]


# What is printed.

def figures(numbers):
    return " | ".join(format(number, ",") for number in numbers)


def print_one_more(words):
    print("## One more container\n")
    print("| Kind | " + " | ".join(CALLS) + " |")
    print("|---|" + "---:|" * len(CALLS))
    for kind, name in KINDS.items():
        print("| %s, `%s` | %s |" % (name, kind, figures(one_more(words, kind))))
    print()


def print_table(title, seen, deep):
    print("## %s\n" % title)
    print("| Case | bytes | events | refusal | " + " | ".join(CALLS) + " | in its thread |")
    print("|---|---:|---:|---:|" + "---:|" * len(CALLS) + "---|")
    for place, one in enumerate(seen):
        refusals = "/".join(map(str, dict.fromkeys(one.refusals)))
        print("| %s | %s | %s | %s | %s |" % (one.case.name, figures((len(one.case.data), len(one.case.numbers) // 3)), refusals,
                                            figures(one.bytes[call] for call in CALLS), "**no**" if place in deep else "yes"))
    print()


def one_of_each_depth(found, call):
    first = {}
    for one in found:
        first.setdefault(one.bytes[call], one)
    return list(first.values())


def edit_refusal(case):
    """What edit answers, by the model; it knows no refusal of a frame that does not read, and there it is the case's."""
    refusal = model.edit(case.type, "little", case.data + bytes(SPARE), len(case.data), 0, (1,))[0]
    return case.refusal if refusal == "other" else refusal


def check_known(known):
    for one in known:
        if set(one.refusals[:-1]) != {one.case.refusal} or one.refusals[-1] != edit_refusal(one.case) or one.events != one.case.events:
            sys.exit("bench/stack.py: %s: refusals %s, %d events" % (one.case.name, one.refusals, one.events))


def main():
    words, every = sys.argv[1:], True
    cases = table()
    seen = painted(words, cases)
    check_known(seen)
    deep = too_deep(words, cases)
    print_table("Cases of each kind", seen, deep)
    print_one_more(words)
    for call in HUNTED:
        found = hunt(words, call)
        worst = one_of_each_depth(found, call)[:SHOWN]
        worst_deep = too_deep(words, [one.case for one in worst])
        print_table("Where %s is deepest: of %s cases of the hunt, one of each depth" % (call, format(len(found), ",")), worst, worst_deep)
        every = every and not worst_deep and run(words, "thread", [one.case for one in found])[1]
        seen += found
    every = every and not deep
    print("The most: " + ", ".join("%s %s" % (call, format(max(one.bytes[call] for one in seen), ",")) for call in CALLS) + " bytes.")
    print("Every case, those of the hunts that are not shown too, runs in 128 KiB, and edit in 192 KiB." if every else
          "Not every case runs in 128 KiB, and edit in 192 KiB.")
    return 0 if every else 1


if __name__ == "__main__":
    sys.exit(main())
