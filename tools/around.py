#!/usr/bin/env python3
"""Runs every schedule of examples/staged/ and examples/names/ with the built program, and compares what it prints.

  tools/around.py [--program FILE]

Beside each `NAME.schedule` stands `NAME.printed`, to the byte what `staged` or `names` has to print: the schedule of the inner world,
its journal, and what was counted or found. `replay` of that schedule has to print that journal, and `check` has to say yes to it. The
program is built before, in `crates/nqnfs` by `rt run`. The status is 1 where something differs.
"""

import argparse
import pathlib
import subprocess
import sys

ROOT = pathlib.Path(__file__).resolve().parent.parent

# The commands, each with a folder of its name.
COMMANDS = ("staged", "names")


def printed(program, word, text):
    """What the program prints for a word and this input; nothing where its status is not 0."""
    ended = subprocess.run([program, word], input=text, stdout=subprocess.PIPE, check=False)
    return ended.stdout if ended.returncode == 0 else b""


def parts(text):
    """The schedule and the journal of what was printed."""
    schedule, behind = text.split(b"end\n", 1)
    journal, _ = behind.split(b"end\n", 1)
    return schedule + b"end\n", journal + b"end\n"


def fault_of(program, command, schedule):
    """What is wrong with the run of a schedule by a command, or None."""
    text = printed(program, command, schedule.read_bytes())
    if text != schedule.with_suffix(".printed").read_bytes():
        return "prints something else"
    inner, journal = parts(text)
    if printed(program, "replay", inner) != journal:
        return "has another journal where its inner schedule is replayed"
    if printed(program, "check", journal) != b"yes\n":
        return "has a journal that is not sound"
    return None


def main():
    words = argparse.ArgumentParser(description=__doc__.splitlines()[0])
    words.add_argument("--program", default=str(ROOT / "crates/nqnfs/out/nqnfs"))
    program = words.parse_args().program
    ran, wrong = 0, 0
    for command in COMMANDS:
        for schedule in sorted((ROOT / "examples" / command).glob("*.schedule")):
            ran += 1
            fault = fault_of(program, command, schedule)
            if fault:
                wrong += 1
                print(f"{schedule}: {fault}")
    print(f"{ran} schedules, {wrong} wrong")
    return 1 if wrong or not ran else 0


if __name__ == "__main__":
    sys.exit(main())
