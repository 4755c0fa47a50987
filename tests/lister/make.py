#!/usr/bin/env python3
"""Writes the lister's large cases to a folder: NAME.in, and NAME.out as the rules give it."""
import sys
from pathlib import Path

folder = Path(sys.argv[1])


def case(name, lines, answers):
    (folder / f"{name}.in").write_text("".join(lines))
    (folder / f"{name}.out").write_text("".join(f"{n} {answer}\n" for n, answer in enumerate(answers, 1)))


# an array of bytes uses all of its frame; its events are one for each byte, and those that open and close it
case("limit", ["ay\n", "5a" * 16384 + "\n", "5a" * 16385 + "\n"], ["0 16384 16386", "2 0 0"])
case(
    "long_lines",
    [
        "ay\n",
        "5a" * 16384 + "5\n",
        "5a" * 16385 + "5\n",
        "5" * 100001 + "\n",
        "5" * 100000 + "\n",
        "5" * 99999 + "z\n",
        "z" + "5" * 99999 + "\n",
        "5" * 40000 + "\r\n",
        "5a\n",
    ],
    ["18 0 0", "18 0 0", "18 0 0", "2 0 0", "18 0 0", "18 0 0", "18 0 0", "0 1 3"],
)
case("long_lines_of_no_type", ["h\n", "5a" * 16385 + "\n", "5" * 100001 + "\n"], ["1 0 0", "1 0 0"])
case("long_last_line", ["ay\n", "5a" * 16385], ["2 0 0"])
case("long_type", ["y" * 1000000 + "\n", "5a\n"], ["1 0 0"])
case("many_lines", ["y\n"] + ["07\n"] * 30000, ["0 1 1"] * 30000)
case("many_empty_lines", ["y\n"] + ["\n"] * 200000, ["3 0 0"] * 200000)
