#!/usr/bin/env python3
"""An independent judge of type texts, by document 01's grammar.

    judge.py PROGRAM          every text of up to 5 characters over ALPHABET and ODD, judged by PROGRAM and compared
    judge.py --glib           the same texts over ALPHABET, judged by GLib where it is installed; the differences are counted
    judge.py --sample IN OUT  writes a small sample of texts, one a line, and the answers to them

PROGRAM reads texts, one a line, on standard input and writes 1 (a type) or 0 for each. Two judges that share no code
agree before anything is compared: one makes every type of up to 5 characters from the grammar, the other folds a text
from the inside out until one type is left or nothing can be folded.
"""
import ctypes
import itertools
import re
import subprocess
import sys

BASIC = b"bynqiuxtdsog"
ALPHABET = b"bynqiuxtdsogvahm(){}"
ODD = b"\x00z\x80"
LONGEST = 5
LIMIT = 255


def made(longest):
    """Every type of up to `longest` characters, and every row of one or more types, by length."""
    types = [set() for _ in range(longest + 1)]
    rows = [set() for _ in range(longest + 1)]
    for n in range(1, longest + 1):
        if n == 1:
            types[n] |= {bytes([c]) for c in BASIC + b"v"}
        for t in types[n - 1]:
            types[n] |= {b"a" + t, b"m" + t}
        if n > 4:
            types[n] |= {b"a{" + bytes([k]) + t + b"}" for k in BASIC for t in types[n - 4]}
        if n > 2:
            types[n] |= {b"(" + r + b")" for r in rows[n - 2]}
        rows[n] |= types[n]
        for k in range(1, n):
            rows[n] |= {t + r for t in types[k] for r in rows[n - k]}
    return set().union(*types)


FOLDS = [(re.compile(p), "T") for p in (r"[am][BT]", r"a\{B[BT]\}", r"\([BT]+\)")]


def folded(text):
    """Is a text one complete type of 1 to 255 characters?"""
    if not 1 <= len(text) <= LIMIT:
        return False
    kept = {c: "B" for c in BASIC}
    kept[ord("v")] = "T"
    kept.update({c: chr(c) for c in b"am(){}"})
    line = "".join(kept.get(c, "!") for c in text)
    while True:
        before = line
        for pattern, by in FOLDS:
            line = pattern.sub(by, line)
        if line == before:
            return line in ("B", "T")


def short(longest, letters):
    for n in range(longest + 1):
        for text in itertools.product(letters, repeat=n):
            yield bytes(text)


def compare(program):
    types = made(LONGEST)
    for text in short(4, ALPHABET):
        if folded(text) != (text in types):
            sys.exit(f"the two judges differ on {text!r}")
    texts = list(short(LONGEST, ALPHABET + ODD))
    run = subprocess.run([program], input=b"\n".join(texts) + b"\n", stdout=subprocess.PIPE, check=True)
    answers = run.stdout.split()
    if len(answers) != len(texts):
        sys.exit(f"{len(texts)} texts, {len(answers)} answers")
    wrong = [t for t, a in zip(texts, answers) if (a == b"1") != (t in types)]
    for text in wrong[:20]:
        print("differs:", text)
    print(f"{len(texts)} texts, {answers.count(b'1')} of them types, {len(wrong)} differences")
    return 1 if wrong else 0


def by_glib():
    """GLib takes more: `h`, `()`, and an entry anywhere that a type may stand. Nothing of ours is refused by it."""
    glib = ctypes.CDLL("libglib-2.0.so.0")
    types = made(LONGEST)
    reasons = {"h": 0, "()": 0, "a bare entry": 0, "other": 0}
    refused = 0
    for text in short(LONGEST, ALPHABET):
        theirs = bool(glib.g_variant_type_string_is_valid(text))
        if theirs == (text in types):
            continue
        if not theirs:
            refused += 1
        elif b"h" in text:
            reasons["h"] += 1
        elif b"()" in text:
            reasons["()"] += 1
        elif re.search(rb"(?<!a)\{", text):
            reasons["a bare entry"] += 1
        else:
            reasons["other"] += 1
    print("GLib takes, we refuse:", ", ".join(f"{n} for {why}" for why, n in reasons.items()))
    print("we take, GLib refuses:", refused)
    return 1 if refused or reasons["other"] else 0


def sample(to_read, to_write):
    texts = list(short(2, ALPHABET))
    texts += [b"a{sv}", b"a{sy}", b"a{s}", b"a{vs}", b"a{ss", b"a{sss}", b"a{s(y)}", b"a{s{sy}}", b"{sy}", b"m{sy}", b"(a{sv})"]
    texts += [b"(ymn)", b"(y", b"y)", b"(y))", b"((y)", b"()", b"(())", b"(yy)(y)", b"amn", b"aa{sam(yx)}", b"a{saa{sv}}", b"mmmv", b"(h)", b"ah"]
    texts += [b"\x00", b"y\x00", b"\x80", b"a\xff", b"z", b" y", b"y ", b"Y"]
    for n in (254, 255):
        texts += [b"a" * n + b"y", b"m" * n + b"v", b"(" + b"y" * (n - 1) + b")"]
    texts += [b"(" * 127 + b"y" + b")" * 127, b"(" * 128 + b"y" + b")" * 128, b"y" * 300, b"a" * 600]
    with open(to_read, "wb") as f:
        f.write(b"\n".join(texts) + b"\n")
    with open(to_write, "wb") as f:
        f.write(b"".join(b"1\n" if folded(t) else b"0\n" for t in texts))
    print(f"{len(texts)} lines, {sum(map(folded, texts))} of them types")
    return 0


if __name__ == "__main__":
    if sys.argv[1:] == ["--glib"]:
        sys.exit(by_glib())
    if len(sys.argv) == 2:
        sys.exit(compare(sys.argv[1]))
    if len(sys.argv) == 4 and sys.argv[1] == "--sample":
        sys.exit(sample(sys.argv[2], sys.argv[3]))
    sys.exit(__doc__)
