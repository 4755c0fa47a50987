#!/usr/bin/env python3
"""Hunts for the frames that cost the most instructions for each byte and event, and prints the worst. Called by bench/search.

Usage: bench/search.py reading|writing RUST|- SEED ROUNDS BYTES WORD..

The words run the program of bench/search.c and count it; RUST is the oracle's program, built for the benchmark. Frames are sought for what size
and read cost, or for what the strict test and writing do; of a refused frame there is nothing to write. All is random and follows from the
seed. There are two hunts:

- Frames of the oracle's generator, of all its modes. They are short, so their type's characters are added to bytes and events,
  since a call judges the type too; and those with fewer than LEAST of all three are left out, since a call as such costs something.
- Types and ways to fill a frame, which breed for so many rounds: the costliest are kept, and changed. They are counted on frames of
  TRIED bytes; the worst of them again on frames of BYTES, unless such a frame is refused where the short one is read.

Frames that are read and frames that are refused are kept and shown apart: a refusal answers no events, though some were met before it, up to 65
for a byte. With the Rust they are counted by its recorder, and each frame that is shown has what recording it costs; what is above a bar is bold.
"""
import itertools
import os
import random
import struct
import subprocess
import sys
import tempfile
from collections import namedtuple

sys.path.insert(0, os.path.join(os.path.dirname(os.path.abspath(__file__)), "..", "oracle"))
sys.dont_write_bytecode = True
import gen  # noqa: E402
import measure  # noqa: E402

Programs = namedtuple("Programs", "sought rust counter ours")     # what is sought; no Rust, or its program; the words that count; ours
Cost = namedtuple("Cost", "type frame refusal events calls")
CALLS = {"reading": ("size", "read"), "writing": ("is_written", "write")}
Way = namedtuple("Way", "tree fill seed inside")    # how a frame of any length is made; inside nothing, a variant or many

TRIED = 2048            # bytes of the frames that are bred
KEPT, BRED = 12, 48     # ways kept, and ways tried, in a round
SHOWN = 5
GENERATED = 4000        # frames of the oracle's generator
LEAST = 32
FILLS = ("zeros", "bytes", "written", "damaged", "table")
INSIDE = ("", "", "v", "av")


def costs_of(programs, questions):
    """What the two calls cost on each type and frame."""
    asked = b"".join(struct.pack("<II", len(text), len(frame)) + text + frame for text, frame in questions)
    first = 4 * list(CALLS).index(programs.sought)
    done = subprocess.run(programs.counter + [programs.ours], input=asked, capture_output=True, check=True)
    answers = [line.split() for line in done.stdout.decode().splitlines()]
    marks = [int(line.split()[1]) for line in done.stderr.decode().splitlines() if line.startswith("mark ")]
    assert len(answers) == len(questions) and len(marks) == 8 * len(questions)
    costs = [Cost(text, frame, int(refusal), int(events), calls) for (text, frame), (refusal, events), calls
             in zip(questions, answers, zip(marks[first + 1::8], marks[first + 3::8], strict=True), strict=True)]
    return with_met(programs, costs) if programs.rust else costs


def with_met(programs, costs):
    """The costs with the events that the Rust's recorder met before each frame was refused; where the type itself is, or a limit, there are none."""
    refused = [cost for cost in costs if cost.refusal > 2]
    asked = b"".join(b"%s l 0 %s\n" % (cost.type, cost.frame.hex().encode() or b"-") for cost in refused)
    done = subprocess.run(programs.counter[:1] + [programs.rust, "--met"], input=asked, capture_output=True, check=True)
    met = (int(line.split()[1]) for line in done.stdout.splitlines())
    counted = [cost._replace(events=next(met)) if cost.refusal > 2 else cost for cost in costs]
    assert next(met, None) is None
    return counted


def recording(programs, cost):
    """The instructions of the Rust's recorder for the frame, the type parsed before."""
    with tempfile.NamedTemporaryFile() as file:
        file.write(cost.frame)
        file.flush()
        once, twice = (measure.counted(programs.counter, [programs.rust, "--bench", "record", cost.type.decode(), file.name, calls]) for calls in "12")
    return twice - once


def each(cost, characters=True):
    """Instructions for each byte and event, and, where told, each character of the type."""
    return max(cost.calls) / max(1, len(cost.frame) + cost.events + (len(cost.type) if characters else 0))


def generated(rng):
    """Frames of the oracle's generator, all read little-endian and at position 0."""
    return [(text, frame) for text, _, _, frame in itertools.islice(gen.frames(rng, "mix"), GENERATED) if len(frame) <= gen.LIMIT]


# Trees of types.

def chain(rng):
    """Containers in one another, in runs, around a random type."""
    tree = gen.random_type(rng, 1)
    for _ in range(rng.randrange(1, 5)):
        kind = rng.choice("am({")
        for _ in range(rng.choice((1, 1, 2, 5, 20, 60, 120))):
            tree = wrapped(rng, kind, tree)
    return tree


def wrapped(rng, kind, tree):
    if kind == "(":
        return ("(", [tree] + [gen.random_type(rng, 0) for _ in range(rng.choice((0, 0, 0, 1, 3)))])
    return ("{", rng.choice("ysn"), tree) if kind == "{" else (kind, tree)


def changed_tree(rng, tree):
    """The tree with one place changed: wrapped, set anew, or its last child put in its place."""
    if isinstance(tree, str) or rng.random() < 0.15:
        change = rng.randrange(4)
        if change == 0:
            return wrapped(rng, rng.choice("am({"), tree)
        if change == 1:
            return (gen.children(tree) or [tree])[-1]
        return gen.random_type(rng, 2) if change == 2 else chain(rng)
    if tree[0] == "(":
        place = rng.randrange(len(tree[1]))
        return ("(", tree[1][:place] + [changed_tree(rng, tree[1][place])] + tree[1][place + 1:])
    return tree[:-1] + (changed_tree(rng, tree[-1]),)


# Frames.

def elements(rng, tree, length):
    """A written array or dictionary with as many of a few random elements as fit; of any other type one value."""
    if isinstance(tree, str) or tree[0] not in "a{":
        return gen.written(tree, gen.random_value(rng, tree, 3), "little")[:length]
    element = tree[1] if tree[0] == "a" else ("(", list(tree[1:]))
    parts = [gen.written(element, gen.random_value(rng, element, 2), "little") for _ in range(4)]
    return repeated(parts, gen.alignment(element), gen.fixed(element), length)


def repeated(parts, align, fixed, length):
    """As many elements as fit."""
    body, ends = bytearray(), []
    for part in itertools.cycle(parts):
        if len(body) + align + len(part) + 2 * len(ends) + 2 > length:
            break
        body += bytes(-len(body) % align) + part
        ends.append(len(body))
    return bytes(body) if fixed else gen.with_offsets(bytes(body), ends)


def filled(way, length):
    """The value's bytes."""
    rng = random.Random(way.seed)
    if way.fill == "zeros":
        return bytes(length)
    if way.fill == "bytes":
        return bytes([rng.randrange(256)]) * length
    if way.fill == "table":     # a body of zeros, and a table of rising ends, all widths of the type's making
        count = length // rng.choice((3, 4, 6, 11))
        body = length - 2 * count
        return bytes(body) + b"".join(struct.pack("<H", body * (i + 1) // count) for i in range(count))
    data = elements(rng, way.tree, length)
    return data if way.fill == "written" else gen.damage(rng, data)


def frame_of(way, length):
    """The type and the frame; in a variant, or in each of many, the type stands in the frame."""
    text = gen.type_text(way.tree).encode()
    if way.inside == "v":
        return b"v", filled(way, max(0, length - len(text) - 1)) + b"\0" + text
    if way.inside == "av":
        return b"av", repeated([filled(way, way.seed % 24) + b"\0" + text], 8, False, length)
    return text, filled(way, length)


def fits(way):
    return len(gen.type_text(way.tree)) <= 255


def new_way(rng):
    tree = ("a", chain(rng)) if rng.random() < 0.7 else chain(rng)
    return Way(tree, rng.choice(FILLS), rng.randrange(1 << 30), rng.choice(INSIDE))


def changed_way(rng, way):
    what = rng.randrange(6)
    if what == 0:
        return way._replace(fill=rng.choice(FILLS))
    if what == 1:
        return way._replace(seed=rng.randrange(1 << 30))
    if what == 2:
        return way._replace(inside=rng.choice(INSIDE))
    return way._replace(tree=changed_tree(rng, way.tree))


def costliest(pairs):
    """Of costs and ways the best, one of each type and fill: of frames that are read and of refused ones. Frames that turned out
    short are left to the generator."""
    best = {}
    for cost, way in sorted(pairs, key=lambda pair: -each(pair[0])):
        if len(cost.frame) >= TRIED // 2:
            best.setdefault((gen.type_text(way.tree), way.fill, cost.refusal != 0), (cost, way))
    return [[pair for pair in best.values() if (pair[0].refusal != 0) == refused][:KEPT] for refused in (False, True)]


def breed(rng, programs, rounds):
    """Costs and ways that were kept last, the costliest first: those whose frames are read, and those whose are refused."""
    read, refused = [], []
    for turn in range(rounds):
        ways, kept = [], read + refused
        while len(ways) < BRED:
            way = changed_way(rng, rng.choice(kept)[1]) if kept and rng.random() < 0.7 else new_way(rng)
            if fits(way):
                ways.append(way)
        costs = costs_of(programs, [frame_of(way, TRIED) for way in ways])
        read, refused = costliest(kept + list(zip(costs, ways, strict=True)))
        print("bench/search.py: round %d, %s" % (turn + 1, [round(each(some[0][0])) for some in (read, refused) if some]), file=sys.stderr)
    return read[:SHOWN], refused[:SHOWN]


# What is printed.

def short(text):
    """A type with its runs counted, to be read: a 31 ( 190 m y 31 )."""
    runs, shown = [], text.decode("ascii", "replace")
    for letter in shown:
        if runs and runs[-1][0] == letter:
            runs[-1][1] += 1
        else:
            runs.append([letter, 1])
    return " ".join(letter if count == 1 else "%d%s" % (count, letter) for letter, count in runs) or "-"


def marked(value, bar, form):
    """A figure, bold where it is above its bar."""
    shown = form % value
    return shown if float(shown) <= bar else "**%s**" % shown


def print_worst(programs, title, rows, characters):
    """The bar is that of reading, and the type's characters count in none."""
    bar = measure.EACH_BAR if programs.sought == "reading" and not characters else float("inf")
    heads = ["Type", "frame", "bytes", "events", "refusal", *CALLS[programs.sought], "each"] + ["Rust recording", "read / Rust"] * bool(programs.rust)
    table = []
    for cost, what in rows:
        row = ["`%s`" % short(cost.type)[:100], what] + [format(number, ",") for number in (len(cost.frame), cost.events, cost.refusal, *cost.calls)]
        row.append(marked(each(cost, characters), bar, "%.0f"))
        if programs.rust:
            theirs = recording(programs, cost)
            row += [format(theirs, ","), marked(cost.calls[1] / theirs, measure.READ_BAR, "%.2f")]
        table.append(row)
    measure.print_table(title, heads, table, words=2)


def described(way):
    return way.fill if not way.inside else "%s, and a variant's type `%s`" % (way.fill, short(gen.type_text(way.tree).encode())[:100])


def print_generated(programs, rng):
    costs = [cost for cost in costs_of(programs, generated(rng)) if len(cost.frame) + cost.events + len(cost.type) >= LEAST]
    for refused, kind in ((False, "read"), (True, "refused")):
        worst = sorted((cost for cost in costs if (cost.refusal != 0) == refused), key=each, reverse=True)[:SHOWN]
        print_worst(programs, "The worst of %s generated frames that are %s, for each byte, event and character" % (format(GENERATED, ","), kind),
                    [(cost, "`%s`" % (cost.frame[:16].hex(" ") or "-")) for cost in worst], True)


def lengthened(programs, kept, length):
    """The costs of the ways on long frames, or on those that they were tried on."""
    long = costs_of(programs, [frame_of(way, length) for _, way in kept])
    chosen = [new if (new.refusal != 0) == (old.refusal != 0) else old for new, (old, _) in zip(long, kept, strict=True)]
    return sorted(zip(chosen, (described(way) for _, way in kept), strict=True), key=lambda row: -each(row[0], False))


def main():
    sought, rust, *numbers = sys.argv[1:6]
    seed, rounds, length = (int(word) for word in numbers)
    programs, rng = Programs(sought, None if rust == "-" else rust, sys.argv[6:-1], sys.argv[-1]), random.Random(seed)
    print_generated(programs, rng)
    for kept, kind in zip(breed(rng, programs, rounds), ("read", "refused"), strict=True):
        print_worst(programs, "The worst of %s bred frames that are %s, for each byte and event" % (format(rounds * BRED, ","), kind),
                    lengthened(programs, kept, length), False)
    return 0


if __name__ == "__main__":
    sys.exit(main())
