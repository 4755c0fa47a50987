#!/usr/bin/env python3
"""Measures the programs of the benchmark on its frames and prints the tables. Called by bench/run, which builds them.

Usage: bench/measure.py --frames FOLDER --ours PROGRAM --glib PROGRAM --build PROGRAM --costs FILE --emulator PROGRAM --plugin FILE
                        [--rust PROGRAM] [--before FILE]

First every program must answer every frame alike: the refusal, the bytes used, and events, leaves and sum as bench/frames.py has
computed them from the value, as far as the program can know them. Otherwise nothing is measured.

Instructions are those of one call: a run of 2n calls less a run of n calls, by n, so that start and end of the program cancel.
They are counted by a plugin of the emulator, on every machine.
Time is the best of seven runs without the emulator; there is none where the machine can't run the programs itself.

Without --rust only writing and the strict test are measured.

The instructions go to the file --costs. A file of an earlier run, --before, is set beside them.
"""
import argparse
import json
import os
import platform
import re
import subprocess
import sys
from collections import namedtuple

sys.dont_write_bytecode = True
import frames as made  # noqa: E402

Frame = namedtuple("Frame", "name type file length refusal events leaves sum")
Side = namedtuple("Side", "title words")

LARGE = 8000            # from so many bytes on, fewer calls are counted
HUGE = 500000           # from so many events on, one
RUN_NANOSECONDS = 4e7   # how long a timed run takes, about
ROUNDS = 7              # timed runs of each program on each frame
TITLES = ["size", "Rust ignoring", "GLib normal form", "read", "Rust recording", "GLib walk", "is_written", "write", "GLib building"]
SIZE, IGNORING, NORMAL, READ, RECORDING, WALK, STRICT, WRITE, BUILD = range(9)
READING, WRITING = (SIZE, IGNORING, NORMAL, READ, RECORDING, WALK), (NORMAL, STRICT, WRITE, BUILD)
BY_GLIB = (NORMAL, WALK, BUILD)

# What GLib does not read: a type with more than 128 containers in one another, and what is not in normal form.
UNREAD_BY_GLIB = ("v, 31 structures around 190 maybes, 32,640 times", "a(ny), 16,384 structures, refused at the last byte")

# What size may cost beside the Rust ignoring, and read beside the Rust recording; by instructions.
BARS = {"amn, 40 readings": (0.22, 0.28), "(tamn), 40 readings": (0.25, 0.30), "a{sv}, nested": (0.40, 0.55),
        "as, 4,095 texts": (0.60, 0.70), "ay, 65,536 bytes": (0.01, 0.03)}
READ_BAR = 1.00         # of all other frames
EACH_BAR = 200          # instructions of size or read for each byte and event together

# What the strict test may cost beside GLib's normal form, and write beside GLib building, of the frames that have a bar.
STRICT_BAR = 0.5
WRITE_BAR = 0.1
WRITE_BARRED = ("amn, 40 readings", "(tamn), 40 readings", "a{sv}, nested", "as, 4,095 texts", "ay, 65,536 bytes")


def fail(message):
    sys.exit("bench/measure.py: " + message)


def say(message):
    print("bench/measure.py: " + message, file=sys.stderr)


def frames_of(folder):
    with open(os.path.join(folder, "list"), encoding="utf-8") as listed:
        for line in listed:
            name, text, *numbers = line.rstrip("\n").split("\t")
            yield Frame(name, text, os.path.join(folder, name), *(int(number) for number in numbers))


def sides_of(arguments):
    """By their places among TITLES: what judges only, what hands the values over, what writes."""
    programs = [[arguments.ours, "size"], [arguments.rust, "--bench", "ignore"], [arguments.glib, "normal"],
                [arguments.ours, "read"], [arguments.rust, "--bench", "record"], [arguments.glib, "walk"],
                [arguments.ours, "strict"], [arguments.ours, "write"], [arguments.build]]
    wanted = range(len(TITLES)) if arguments.rust else WRITING
    return {place: Side(TITLES[place], programs[place]) for place in wanted}


def sees(place, frame):
    """GLib does not read everything, and what is refused is not written."""
    if place in BY_GLIB and frame.name in UNREAD_BY_GLIB:
        return False
    return place not in (WRITE, BUILD) or frame.refusal == 0


def command(side, frame, calls):
    return side.words + [frame.type, frame.file, str(calls)]


def answer(words):
    """The six words that a program prints."""
    done = subprocess.run(words, capture_output=True, text=True)
    if done.returncode != 0:
        fail("%s ended with %d: %s" % (" ".join(words), done.returncode, done.stderr[-500:]))
    return done.stdout.split()


def check(runner, side, frame):
    """Holds a program to what the frame's maker computed; - is what the program can't know. Of a refused frame only the
    refusal and no bytes are looked at, since the Rust's list keeps what came before."""
    expected = [frame.refusal, 0] if frame.refusal else [0, frame.length, frame.events, frame.leaves, frame.sum]
    expected = [str(number) for number in expected]
    given = answer(runner + command(side, frame, 1))[:len(expected)]
    if any(word not in ("-", wanted) for word, wanted in zip(given, expected, strict=True)):
        fail("%s does not see %s as it is: %s, not %s" % (side.title, frame.name, given, expected))


def calls_to_time(side, frame):
    """So many calls that a run takes long enough to be timed."""
    calls = 1
    while True:
        time = max(1, int(answer(command(side, frame, calls))[5]))
        if time > RUN_NANOSECONDS / 5 or calls > 10**7:
            return max(1, round(calls * RUN_NANOSECONDS / time))
        calls *= 4


def nanoseconds(sides, frame):
    """The time of one call, for each side; the sides take turns, so that what else the machine does falls on all."""
    timed = {place: calls_to_time(side, frame) for place, side in sides.items() if sees(place, frame)}
    rounds = [{place: int(answer(command(sides[place], frame, calls))[5]) / calls for place, calls in timed.items()} for _ in range(ROUNDS)]
    return [min(times[place] for times in rounds) if place in timed else None for place in range(len(TITLES))]


def native():
    """Whether the machine runs the programs itself."""
    return platform.machine() == "x86_64"


def runner_of(arguments):
    """The words that run a program without counting."""
    return [] if native() else [arguments.emulator]


def counter_of(arguments):
    """The words that run and count a program."""
    return [arguments.emulator, "-plugin", arguments.plugin]


def counted(counter, words):
    done = subprocess.run(counter + words, capture_output=True, text=True)
    found = re.search(r"^instructions (\d+)$", done.stderr, re.MULTILINE)
    if done.returncode != 0 or not found:
        fail("no count of %s: %s" % (" ".join(words), done.stderr[-500:]))
    return int(found.group(1))


def instructions(counter, side, frame):
    """The instructions of one call."""
    calls = 1 if frame.events >= HUGE else 2 if frame.length >= LARGE else 20
    once, twice = (counted(counter, command(side, frame, times)) for times in (calls, 2 * calls))
    return (twice - once) / calls


def number(value):
    return "-" if value is None else format(round(value), ",")


def ratio(above, below):
    return "-" if above is None or below is None else "%.2f" % (above / below)


def title(name):
    """A frame's name, with its type as a type."""
    text, rest = name.split(", ", 1)
    return name if " " in text else "`%s`, %s" % (text, rest)


def print_table(name, heads, rows, words=1):
    """A table whose first columns are words, and all others numbers."""
    print("## %s\n" % name)
    print("| " + " | ".join(heads) + " |")
    print("|" + "---|" * words + "---:|" * (len(heads) - words))
    for row in rows:
        print("| " + " | ".join(row) + " |")
    print()


def print_costs(name, frames, costs):
    heads = ["Frame", "bytes", "events"] + TITLES[:3] + ["size / Rust", "size / GLib"] + TITLES[3:6] + ["read / Rust", "read / GLib"]
    rows = []
    for frame in frames:
        found = costs[frame.name]
        ratios = [ratio(found[ours], found[theirs]) for ours, theirs in ((SIZE, IGNORING), (SIZE, NORMAL), (READ, RECORDING), (READ, WALK))]
        numbers = [number(found[place]) for place in READING]
        rows.append([title(frame.name), number(frame.length), number(frame.events)] + numbers[:3] + ratios[:2] + numbers[3:] + ratios[2:])
    print_table(name, heads, rows)


def print_bars(frames, costs):
    """What a frame may cost, and what it does; a figure above its bar is bold."""
    def beside(value, bar, form="%.2f"):
        shown = form % value
        return [shown if float(shown) <= bar else "**%s**" % shown, form % bar]

    rows = []
    for frame in frames:
        found, work = costs[frame.name], frame.length + frame.events
        size_bar, read_bar = BARS.get(frame.name, (None, READ_BAR))
        sized = found[SIZE] / found[IGNORING]
        rows.append([title(frame.name)] + (beside(sized, size_bar) if size_bar else ["%.2f" % sized, "-"])
                    + beside(found[READ] / found[RECORDING], read_bar)
                    + beside(found[SIZE] / work, EACH_BAR, "%.0f")[:1] + beside(found[READ] / work, EACH_BAR, "%.0f"))
    print_table("The bars", ["Frame", "size / Rust ignoring", "at most", "read / Rust recording", "at most",
                             "size, each byte and event", "read, each byte and event", "at most"], rows)


def print_writing(name, frames, costs, barred):
    """The strict test and writing beside GLib. Where there are bars, a ratio above its own is bold."""
    def beside(ours, theirs, bar):
        if ours is None or theirs is None:
            return ["-", "-"][:1 + barred]
        shown = "%.3f" % (ours / theirs)
        if not barred or bar is None:
            return [shown, "-"][:1 + barred]
        return [shown if float(shown) <= bar else "**%s**" % shown, "%.1f" % bar]

    rows = []
    for frame in frames:
        found = costs[frame.name]
        rows.append([title(frame.name), number(frame.length), number(frame.events), number(found[STRICT]), number(found[NORMAL])]
                    + beside(found[STRICT], found[NORMAL], STRICT_BAR) + [number(found[WRITE]), number(found[BUILD])]
                    + beside(found[WRITE], found[BUILD], WRITE_BAR if frame.name in WRITE_BARRED else None))
    most = ["at most"] if barred else []
    print_table(name, ["Frame", "bytes", "events", TITLES[STRICT], TITLES[NORMAL], "is_written / GLib"] + most
                + [TITLES[WRITE], TITLES[BUILD], "write / GLib"] + most, rows)


def print_before(frames, costs, before, places):
    """Our calls beside those of an earlier run, as far as it had them."""
    def cost(found, place):
        return found[place] if place < len(found) else None

    rows = []
    for frame in frames:
        if frame.name in before:
            old, new = before[frame.name], costs[frame.name]
            rows.append([title(frame.name)] + [word for place in places
                                               for word in (number(cost(old, place)), number(new[place]), ratio(new[place], cost(old, place)))])
    print_table("Before and after", ["Frame"] + [head for place in places
                                                 for head in (TITLES[place] + " before", TITLES[place], "after / before")], rows)


def print_growth(costs, places):
    """The cost of one of the things that a frame holds, where there are more and more of them."""
    rows = []
    for kind, (_, counts, _) in made.GROWTH.items():
        for count in counts:
            name = made.grown(kind, count)
            rows.append([title(name)] + ["-" if costs[name][place] is None else "%.1f" % (costs[name][place] / count) for place in places])
    print_table("Instructions for one more", ["Frame"] + [TITLES[place] for place in places], rows)


def first_line(words):
    try:
        return subprocess.run(words, capture_output=True, text=True, check=True).stdout.splitlines()[0]
    except (OSError, subprocess.CalledProcessError, IndexError):
        return "-"


def processor():
    said = subprocess.run(["lscpu"], capture_output=True, text=True).stdout
    found = re.search(r"^Model name: *(.*)$", said, re.MULTILINE)
    return found.group(1) if found else "processor unknown"


def print_machine(arguments):
    print("%s, %s; GLib %s; %s; %s." % (platform.machine(), processor(), first_line(["pkg-config", "--modversion", "glib-2.0"]),
                                      first_line(["rustc", "--version"]), first_line(["cc", "--version"])))
    print("All programs are x86-64's; their instructions were counted by the plugin of `bench/count.c` in %s." % first_line([arguments.emulator, "--version"]))
    if not native():
        print("There is no time: it would be the emulator's.")
    print()


def arguments_of():
    parser = argparse.ArgumentParser(usage=__doc__.split("\n\n")[1].replace("Usage: ", ""))
    for option in ("--frames", "--ours", "--glib", "--build", "--costs", "--emulator", "--plugin"):
        parser.add_argument(option, required=True)
    for option in ("--rust", "--before"):
        parser.add_argument(option)
    return parser.parse_args()


def print_tables(arguments, frames, costs, times):
    if arguments.rust:
        print_costs("Instructions for a frame", frames, costs)
        print_bars(frames, costs)
    print_writing("Instructions of the strict test and of writing", frames, costs, barred=True)
    if arguments.before:
        with open(arguments.before, encoding="utf-8") as file:
            print_before(frames, costs, json.load(file), (SIZE, READ, STRICT, WRITE) if arguments.rust else (STRICT, WRITE))
    print_growth(costs, range(len(TITLES)) if arguments.rust else WRITING)
    if native():
        if arguments.rust:
            print_costs("Nanoseconds for a frame", frames, times)
        print_writing("Nanoseconds of the strict test and of writing", frames, times, barred=False)


def main():
    arguments = arguments_of()
    frames, sides, counter = list(frames_of(arguments.frames)), sides_of(arguments), counter_of(arguments)
    for frame in frames:
        for place, side in sides.items():
            if sees(place, frame):
                check(runner_of(arguments), side, frame)
    costs, times = {}, {}
    for frame in frames:
        say("measuring " + frame.name)
        costs[frame.name] = [instructions(counter, sides[place], frame) if place in sides and sees(place, frame) else None
                             for place in range(len(TITLES))]
        times[frame.name] = nanoseconds(sides, frame) if native() else None
    with open(arguments.costs, "w", encoding="utf-8") as file:
        json.dump(costs, file, indent=1)
    print_machine(arguments)
    print_tables(arguments, frames, costs, times)
    return 0


if __name__ == "__main__":
    sys.exit(main())
