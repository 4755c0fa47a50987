#!/usr/bin/env python3
"""A model of writing, of the strict test and of editing, by document 01 alone: it shares no code with what it judges, nor with gen.py.

Usage: oracle/model.py < LINES

`write: TYPE l|b TEXTS|- ROOM NUMBER ..` is answered by `REFUSAL LENGTH OUT|-`: the output has ROOM bytes, every one A5 before.
`TYPE l|b POSITION HEX`, a frame, is answered by `written` or `other`; the position is passed over.
`edit: TYPE l|b BUFFER|- USED READING nothing|BITS ..` is answered by `REFUSAL LENGTH .. BUFFER|-`: the edits are made one after another, and the
buffer is shown once, after all of them. The model has no reader: where a frame is no written form, the refusal is `other`.

Writing: the events spell a value, which is then put into its written form. The strict test turns this round: it takes the bytes for
the written form of a value, whatever they are, finds that value, and asks whether its written form is these bytes. An edit finds the value in
the same way, changes one reading of it, and puts it into its written form.

GLib's normal form is this test with other rules in some places. The names of RULES turn them on one by one, so that a difference
between GLib and document 01 can be laid to the rules that it takes.
"""
import re
import sys
from collections import namedtuple

LARGEST_FRAME = 65536
LONGEST_TYPE = 255
WIDTHS = dict(b=1, y=1, n=2, q=2, i=4, u=4, h=4, x=8, t=8, d=8)
SPARE = b"\xa5"

# What GLib does in another way than document 01.
RULES = {
    "empty structures": "a structure, or an entry, of no bytes, whose fields all have none",
    "types": "`()`, `h` and bare entries in the type of a variant, which may have more than 255 characters",
    "depth": "fewer than 128 containers round every value, whatever they are; see `too_deep`",
    "paths": "the text of an `o` is an object path, that of a `g` a signature",
    "length": "frames of more than 65,536 bytes",
}

# A type: the kind is its letter, `{` for an entry. The size is that of every value, or None. An array's part is its element.
Type = namedtuple("Type", "kind alignment size parts")


class Refused(Exception):
    """A refusal, by its number."""


class NotWritten(Exception):
    """Bytes are no written form."""


# Types.

def up(place, alignment):
    return place + -place % alignment


def row(kind, parts):
    """A structure or an entry."""
    alignment, place = max((part.alignment for part in parts), default=1), 0
    for part in parts:
        if part.size is None:
            return Type(kind, alignment, None, parts)
        place = up(place, part.alignment) + part.size
    return Type(kind, alignment, up(place, alignment) if parts else 1, parts)


def one_type(text, at, more):
    """The type that begins there, and where it ends; more: GLib's types too. Raises IndexError or KeyError where there is none."""
    letter = chr(text[at])
    if letter in WIDTHS and (letter != "h" or more):
        return Type(letter, WIDTHS[letter], WIDTHS[letter], ()), at + 1
    if letter in "sog":
        return Type(letter, 1, None, ()), at + 1
    if letter == "v":
        return Type(letter, 8, None, ()), at + 1
    if letter in "am":
        if letter == "a" and text[at + 1] == ord("{"):
            part, end = entry(text, at + 1, more)
        else:
            part, end = one_type(text, at + 1, more)
        return Type(letter, part.alignment, None, (part,)), end
    if letter == "{" and more:
        return entry(text, at, more)
    if letter == "(":
        parts, at = [], at + 1
        while text[at] != ord(")"):
            part, at = one_type(text, at, more)
            parts.append(part)
        if parts or more:
            return row("(", tuple(parts)), at + 1
    raise KeyError(letter)


def entry(text, at, more):
    key, middle = one_type(text, at + 1, more)
    if key.kind not in WIDTHS and key.kind not in "sog":
        raise KeyError(key.kind)
    value, end = one_type(text, middle, more)
    if text[end] != ord("}"):
        raise KeyError("}")
    return row("{", (key, value)), end + 1


def parsed(text, more):
    """The one type that a text is. GLib takes none that is deeper than 128, so that one too deep for Python is none either."""
    try:
        found, end = one_type(text, 0, more)
    except (IndexError, KeyError, RecursionError):
        return None
    return found if end == len(text) else None


KNOWN = {}


def type_of(text, more=False):
    """The one complete type that a text is, or None."""
    if (text, more) not in KNOWN:
        if len(KNOWN) > 100000:
            KNOWN.clear()
        KNOWN[text, more] = None
        if more or len(text) <= LONGEST_TYPE:
            KNOWN[text, more] = parsed(text, more)
    return KNOWN[text, more]


def type_depth(kind):
    return 1 + max((type_depth(part) for part in kind.parts), default=0)


def too_deep(open_now, held):
    """GLib's rule for the type of a variant: 128 less its depth, a basic type's being 1, is above what is open. It takes the difference
    of two numbers without sign, so that a type of depth 129, the most that it knows, passes anywhere."""
    depth = type_depth(held)
    return depth > 129 or open_now >= (128 - depth) % 2**32


# Depth: open structures, arrays, and variants and maybes.

def deeper(open_now, which):
    """One more open container: the refusal, 0 if there is none, and what is open then."""
    structures, arrays, others = open_now
    structures, arrays, others = structures + (which == "("), arrays + (which == "a"), others + (which in "mv")
    refusal = 10 if structures > 32 else 11 if arrays > 32 else 12 if structures + arrays + others > 64 else 0
    return refusal, (structures, arrays, others)


# The written form of a value: a number, bytes for a text, None or (child,) for a maybe, a list for an array, a tuple for a structure or
# an entry, (type text, type, value) for a variant. EMPTY is GLib's structure of no bytes.

EMPTY = "a structure of no bytes"


def width_of(length):
    return 1 if length < 2**8 else 2 if length < 2**16 else 4 if length < 2**32 else 8


def behind(body, ends):
    """A body and its table of ends, in the smallest width that the whole length fits."""
    for width in (1, 2, 4, 8):
        if width_of(len(body) + width * len(ends)) <= width:
            return body + b"".join(end.to_bytes(width, "little") for end in ends)
    raise OverflowError


def form(kind, value, order):
    if value is EMPTY:
        return b""
    if kind.kind in WIDTHS:
        return value.to_bytes(WIDTHS[kind.kind], order)
    if kind.kind in "sog":
        return value + b"\0"
    if kind.kind == "v":
        text, held, inner = value
        return form(held, inner, order) + b"\0" + text
    if kind.kind == "m":
        if value is None:
            return b""
        child = form(kind.parts[0], value[0], order)
        return child + b"\0" if kind.parts[0].size is None else child
    body, ends = bytearray(), []
    if kind.kind == "a":
        for element in value:
            body += bytes(-len(body) % kind.alignment) + form(kind.parts[0], element, order)
            ends.append(len(body))
        return behind(bytes(body), ends if kind.parts[0].size is None else [])
    for part, field in zip(kind.parts, value):
        body += bytes(-len(body) % part.alignment) + form(part, field, order)
        if part.size is None:
            ends.append(len(body))
    if kind.size is not None:
        return bytes(body).ljust(kind.size, b"\0")
    if kind.parts[-1].size is None:
        ends.pop()
    return behind(bytes(body), ends[::-1])


# Writing.

def text_fault(text):
    if 0 in text:
        return 5
    try:
        text.decode("utf-8")
    except UnicodeDecodeError:
        return 6
    return 0


class Spelling:
    """Numbers, three an event, that are taken off the front; and the slice that texts are views of."""

    def __init__(self, numbers, texts):
        self.numbers, self.texts, self.at = numbers, texts, 0

    def next_kind(self):
        if self.at + 3 > len(self.numbers):
            raise Refused(17)
        return self.numbers[self.at]

    def take(self, kinds, most=0):
        """The event, which must be of one of these kinds and carry no more."""
        kind = self.next_kind()
        _, place, payload = self.numbers[self.at:self.at + 3]
        if kind > 127 or chr(kind) not in kinds or payload > most:
            raise Refused(17)
        self.at += 3
        return chr(kind), place, payload

    def text(self, letter):
        _, place, length = self.take(letter, 2**64)
        if place + length > len(self.texts):
            raise Refused(17)
        text = self.texts[place:place + length]
        if text_fault(text):
            raise Refused(text_fault(text))
        return text

    def opened(self, open_now, which):
        refusal, then = deeper(open_now, which)
        if refusal:
            raise Refused(refusal)
        return then

    def value(self, kind, open_now):
        letter = kind.kind
        if letter in WIDTHS:
            return self.take(letter, 1 if letter == "b" else 256**WIDTHS[letter] - 1)[2]
        if letter in "sog":
            return self.text(letter)
        if letter == "v":
            return self.variant(open_now)
        if letter == "m":
            if self.take("mN")[0] == "N":
                return None
            return (self.value(kind.parts[0], self.opened(open_now, "m")),)
        if letter == "(":
            self.take("(")
            inside = self.opened(open_now, "(")
            value = tuple(self.value(part, inside) for part in kind.parts)
        else:
            value = self.elements(kind.parts[0], open_now)
        self.take(")")
        return value

    def elements(self, element, open_now):
        self.take("{" if element.kind == "{" else "a")
        inside, value = self.opened(open_now, "a"), []
        while self.next_kind() != ord(")"):
            if element.kind == "{":
                value.append(tuple(self.value(part, inside) for part in element.parts))
            else:
                value.append(self.value(element, inside))
        return value

    def variant(self, open_now):
        self.take("v")
        text = self.text("g")
        held = type_of(text)
        if held is None:
            raise Refused(9)
        value = self.value(held, self.opened(open_now, "v"))
        self.take(")")
        return text, held, value


def write(text, order, texts, room, numbers):
    """The refusal, and the frame."""
    kind = type_of(text)
    if kind is None:
        return 1, b""
    spelling = Spelling(numbers, texts)
    try:
        value = spelling.value(kind, (0, 0, 0))
    except Refused as refused:
        return refused.args[0], b""
    if spelling.at != len(numbers):
        return 17, b""
    frame = form(kind, value, order)
    if len(frame) > LARGEST_FRAME:
        return 2, b""
    return (13, b"") if len(frame) > room else (0, frame)


# The strict test.

class Bytes:
    """Finds the value whose written form bytes might be, by the rules that are turned on."""

    def __init__(self, order, rules):
        self.order, self.rules = order, rules

    def inside(self, open_now, which):
        """What is open then, by GLib's rule just how much."""
        if "depth" in self.rules:
            return open_now + 1
        refusal, then = deeper(open_now, which)
        if refusal:
            raise NotWritten
        return then

    def value(self, kind, data, open_now):
        letter = kind.kind
        if kind.size is not None and len(data) != kind.size or "depth" in self.rules and open_now >= 128:
            raise NotWritten
        if letter in WIDTHS:
            value = int.from_bytes(data, self.order)
            if letter == "b" and value > 1:
                raise NotWritten
            return value
        if letter in "sog":
            return self.text(letter, data)
        if letter == "v":
            return self.variant(data, open_now)
        if letter == "m":
            if not data:
                return None
            child, inside = kind.parts[0], self.inside(open_now, "m")
            return (self.value(child, data if child.size is not None else data[:-1], inside),)
        if letter == "a":
            return self.elements(kind.parts[0], data, self.inside(open_now, "a"))
        return self.fields(kind, data, self.inside(open_now, "(") if letter == "(" or "depth" in self.rules else open_now)

    def text(self, letter, data):
        text = data[:-1]
        if not data or text_fault(text):
            raise NotWritten
        if "paths" in self.rules and (letter == "o" and not is_path(text) or letter == "g" and not is_signature(text)):
            raise NotWritten
        return text

    def variant(self, data, open_now):
        before, nul, text = data.rpartition(b"\0")
        held = type_of(text, "types" in self.rules)
        if not nul or held is None:
            raise NotWritten
        if "depth" in self.rules and too_deep(open_now, held):
            raise NotWritten
        return text, held, self.value(held, before, self.inside(open_now, "v"))

    def elements(self, element, data, open_now):
        value, place = [], 0
        if element.size is not None:
            if len(data) % element.size:
                raise NotWritten
            return [self.value(element, data[at:at + element.size], open_now) for at in range(0, len(data), element.size)]
        if not data:
            return value
        width = width_of(len(data))
        table = int.from_bytes(data[-width:], "little")
        for at in range(table, len(data) - width + 1, width):
            place, end = up(place, element.alignment), int.from_bytes(data[at:at + width], "little")
            if not place <= end <= table:
                raise NotWritten
            value.append(self.value(element, data[place:end], open_now))
            place = end
        return value

    def fields(self, kind, data, open_now):
        if not data and kind.size is None and "empty structures" in self.rules:
            for part in kind.parts:
                self.value(part, data, open_now)
            return EMPTY
        width, value, place = width_of(len(data)), [], 0
        offsets = sum(part.size is None for part in kind.parts[:-1])
        table, taken = len(data) - width * offsets, len(data)
        for part in kind.parts:
            place, end = up(place, part.alignment), table
            if part.size is not None:
                end = place + part.size
            elif taken > table:
                taken -= width
                end = int.from_bytes(data[taken:taken + width], "little")
            if not place <= end <= table:
                raise NotWritten
            value.append(self.value(part, data[place:end], open_now))
            place = end
        return tuple(value)


def is_path(text):
    return re.fullmatch(rb"/|(/[A-Za-z0-9_]+)+", text) is not None


def is_signature(text):
    """Types in a row, as GLib has them, without maybes."""
    at = 0
    try:
        while at < len(text):
            at = one_type(text, at, True)[1]
    except (IndexError, KeyError, RecursionError):
        return False
    return b"m" not in text


def written_value(kind, order, frame, rules=()):
    """The value whose written form a frame is. Raises NotWritten where it is none's."""
    value = Bytes(order, rules).value(kind, frame, 0 if "depth" in rules else (0, 0, 0))
    if form(kind, value, order) != frame:
        raise NotWritten
    return value


def is_written(text, order, frame, rules=()):
    kind = type_of(text)
    if kind is None or len(frame) > LARGEST_FRAME and "length" not in rules:
        return False
    try:
        written_value(kind, order, frame, rules)
    except NotWritten:
        return False
    return True


# Editing.

MOST_OPEN = 64


class Change:
    """Puts one reading of a value anew: None, or (bits,). What it was, its letter and how many containers are open round it are kept."""

    def __init__(self, number, new):
        self.left, self.new, self.letter, self.old, self.around = number, new, None, None, None

    def value(self, kind, value, around):
        """The value with that reading changed; `left` counts the readings that are passed."""
        if kind.kind == "m":
            return self.maybe(kind.parts[0], value, around)
        if kind.kind == "v":
            text, held, inner = value
            return text, held, self.value(held, inner, around + 1)
        if kind.kind == "a":
            return [self.value(kind.parts[0], element, around + 1) for element in value]
        if kind.kind in "({":
            inside = around + (kind.kind == "(")
            return tuple(self.value(part, field, inside) for part, field in zip(kind.parts, value))
        return value

    def maybe(self, child, value, around):
        if child.kind not in WIDTHS:
            return None if value is None else (self.value(child, value[0], around + 1),)
        self.left -= 1
        if self.left != -1:
            return value
        self.letter, self.old, self.around = child.kind, value, around
        return self.new


def new_frame(kind, order, frame, number, new, room):
    """The frame with one reading changed, which must fit."""
    change = Change(number, new)
    value = change.value(kind, written_value(kind, order, frame), 0)
    if change.letter is None:
        raise Refused(16)
    if new is not None and new[0] > (1 if change.letter == "b" else 256**WIDTHS[change.letter] - 1):
        raise Refused(17)
    if new is not None and change.old is None and change.around == MOST_OPEN:
        raise Refused(12)
    changed = form(kind, value, order)
    if len(changed) > LARGEST_FRAME or len(changed) > room:
        raise Refused(2 if len(changed) > LARGEST_FRAME else 13)
    return changed


def edit(text, order, buffer, used, number, new):
    """The refusal, `other` where the frame is no written form; the new length; and the buffer afterwards."""
    kind = type_of(text)
    if kind is None or used > LARGEST_FRAME or used > len(buffer):
        return (1 if kind is None else 2), 0, buffer
    try:
        frame = new_frame(kind, order, buffer[:used], number, new, len(buffer))
    except Refused as refused:
        return refused.args[0], 0, buffer
    except NotWritten:
        return "other", 0, buffer
    return 0, len(frame), frame.ljust(used, b"\0") + buffer[max(used, len(frame)):]


# Lines.

ORDERS = {b"l": "little", b"b": "big"}


def bytes_of(word):
    return b"" if word == b"-" else bytes.fromhex(word.decode())


def hexadecimal(data):
    return data.hex().encode() or b"-"


def write_question(line):
    """The arguments of a line of writing. The type is taken as it stands; it may be empty."""
    _, text, order, texts, room, *numbers = line.split(b" ")
    return text, ORDERS[order], bytes_of(texts), int(room), [int(number) for number in numbers]


def frame_question(line):
    text, order, _, data = line.rsplit(b" ", 3)
    return text, ORDERS[order], bytes_of(data)


def edit_question(line):
    """The type, the order, the buffer and its used length of a line of editing, and its edits: a reading's number, and None or (bits,)."""
    _, text, order, buffer, used, *words = line.split(b" ")
    edits = [(int(number), None if new == b"nothing" else (int(new),)) for number, new in zip(words[::2], words[1::2], strict=True)]
    return text, ORDERS[order], bytes_of(buffer), int(used), edits


def edited(text, order, buffer, used, edits):
    """The answers to edits made one after another, and the buffer after all of them. A refused edit leaves the used length as it was."""
    given = []
    for number, new in edits:
        refusal, length, buffer = edit(text, order, buffer, used, number, new)
        used = length if refusal == 0 else used
        given.append((refusal, length))
    return given, buffer


def answer(line):
    if line.startswith(b"edit: "):
        given, buffer = edited(*edit_question(line))
        return b"%s %s" % (" ".join("%s %d" % one for one in given).encode(), hexadecimal(buffer))
    if line.startswith(b"write: "):
        question = write_question(line)
        refusal, frame = write(*question)
        return b"%d %d %s" % (refusal, len(frame), hexadecimal(frame + SPARE * (question[3] - len(frame))))
    return b"written" if is_written(*frame_question(line)) else b"other"


def main():
    if len(sys.argv) != 1:
        sys.exit(__doc__)
    for line in sys.stdin.buffer:
        sys.stdout.buffer.write(answer(line.rstrip(b"\n")) + b"\n")


sys.setrecursionlimit(5000)
if __name__ == "__main__":
    main()
