#!/usr/bin/env python3
"""Measures edits, ours and GLib's, and prints their table. Called by bench/run, which builds the programs.

Usage: bench/measure_edits.py --edits FOLDER --ours PROGRAM --glib PROGRAM --costs FILE --emulator PROGRAM --plugin FILE

First every program must make of every frame the new frame that bench/edits.py has computed from the value. Otherwise nothing is measured.
Instructions are counted as bench/measure.py counts them; those of an edit are less what the copying of the frame costs, which is done before
each. They go to the file --costs.
"""
import argparse
import json
import os
import sys
from collections import namedtuple

sys.dont_write_bytecode = True
import measure  # noqa: E402

Edit = namedtuple("Edit", "name type file number new length new_length sum behind moved")

SIDES = ("size", "copy", "edit", "anew", "sharing")
LARGE = 8000            # from so many bytes on, fewer calls are counted
SIZE_BAR = 3            # what an edit may cost: so many times the sizing of its frame,
MOVED_BAR = 10          # and so many instructions for each byte moved;
GLIB_BAR = 0.1          # and beside GLib's building anew


def edits_of(folder):
    with open(os.path.join(folder, "list"), encoding="utf-8") as listed:
        for line in listed:
            name, text, frame, number, new, *numbers = line.rstrip("\n").split("\t")
            yield Edit(name, text, os.path.join(folder, frame), number, new, *(int(word) for word in numbers))


def words_of(arguments, side, edit, calls):
    program = arguments.glib if side in ("anew", "sharing") else arguments.ours
    return [program, side, edit.type, edit.file, str(calls), edit.number, edit.new]


def check(arguments, edit):
    for side in ("edit", "anew", "sharing"):
        given = measure.answer(measure.runner_of(arguments) + words_of(arguments, side, edit, 2))[:3]
        if given != ["0", str(edit.new_length), str(edit.sum)]:
            measure.fail("%s, %s: %s" % (edit.name, side, given))


def costs_of(arguments, counter, edit):
    calls = 2 if edit.length >= LARGE else 20
    counts = {side: [measure.counted(counter, words_of(arguments, side, edit, times)) for times in (calls, 2 * calls)] for side in SIDES}
    costs = {side: (twice - once) / calls for side, (once, twice) in counts.items()}
    return {**costs, "edit": costs["edit"] - costs["copy"]}


def beside(value, bar, form):
    """A figure, bold where it is above its bar."""
    return measure.number(value) if form is None and value <= bar else "**%s**" % measure.number(value) if form is None else (
        form % value if float(form % value) <= bar else "**%s**" % (form % value))


def print_edits(edits, costs):
    heads = ["Edit", "bytes", "behind", "moved", "size", "edit", "at most", "edit / size", "GLib anew", "edit / GLib anew", "at most", "GLib sharing",
             "edit / GLib sharing"]
    rows = []
    for edit in edits:
        found = costs[edit.name]
        bar = SIZE_BAR * found["size"] + MOVED_BAR * edit.moved
        rows.append([measure.title(edit.name)] + [measure.number(value) for value in (edit.length, edit.behind, edit.moved, found["size"])]
                    + [beside(found["edit"], bar, None), measure.number(bar), "%.2f" % (found["edit"] / found["size"]), measure.number(found["anew"]),
                       beside(found["edit"] / found["anew"], GLIB_BAR, "%.3f"), "%.1f" % GLIB_BAR, measure.number(found["sharing"]),
                       "%.3f" % (found["edit"] / found["sharing"])])
    measure.print_table("Instructions of an edit", heads, rows)


def arguments_of():
    parser = argparse.ArgumentParser(usage=__doc__.split("\n\n")[1].replace("Usage: ", ""))
    for option in ("--edits", "--ours", "--glib", "--costs", "--emulator", "--plugin"):
        parser.add_argument(option, required=True)
    return parser.parse_args()


def main():
    arguments = arguments_of()
    edits, counter, costs = list(edits_of(arguments.edits)), measure.counter_of(arguments), {}
    for edit in edits:
        check(arguments, edit)
    for edit in edits:
        measure.say("measuring " + edit.name)
        costs[edit.name] = costs_of(arguments, counter, edit)
    with open(arguments.costs, "w", encoding="utf-8") as file:
        json.dump(costs, file, indent=1)
    measure.print_machine(arguments)
    print_edits(edits, costs)
    return 0


if __name__ == "__main__":
    sys.exit(main())
