#!/usr/bin/env python3
"""Runs storms with the built program, and compares what they print.

  tools/storms.py [--program FILE]

`examples/storms.txt` has lines `storm KIND START N SUM` with the SHA-256 of all that another program prints for this storm. Each storm is
run, `replay` is given the schedule that it printed and has to print its journal, and `check` has to say that the journal is sound. Storms of
1000 events are run twice. No status but 0 may come. The program is built before, in `crates/nqnfs` by `rt run`. The status is 1 where
something differs.
"""

import argparse
import hashlib
import pathlib
import subprocess
import sys

ROOT = pathlib.Path(__file__).resolve().parent.parent
END = b"\nend\n"


def run(program, words, text=b""):
    """The status of a run, and what it printed."""
    ended = subprocess.run([program, *words], input=text, stdout=subprocess.PIPE, check=False)
    return ended.returncode, ended.stdout


def faults(program, words, wanted):
    """What is wrong with a storm, each in a few words."""
    status, printed = run(program, words)
    if status != 0:
        yield f"status {status}"
        return
    if hashlib.sha256(printed).hexdigest() != wanted:
        yield "another sum"
    if words[-1] == "1000" and run(program, words) != (0, printed):
        yield "something else at the second time"
    schedule, journal, counts = printed.split(END)
    if not counts.startswith(f"storm events {words[-1]} packets ".encode()):
        yield "other counts"
    if run(program, ["replay"], schedule + END) != (0, journal + END):
        yield "its schedule is not replayed to its journal"
    if run(program, ["check"], journal + END) != (0, b"yes\n"):
        yield "its journal is not sound"


def main():
    asked = argparse.ArgumentParser(description=__doc__.splitlines()[0])
    asked.add_argument("--program", default=str(ROOT / "crates/nqnfs/out/nqnfs"))
    program = asked.parse_args().program
    storms = [line.split() for line in (ROOT / "examples/storms.txt").read_text().splitlines()]
    wrong = 0
    for *words, wanted in storms:
        for fault in faults(program, words, wanted):
            wrong += 1
            print(f"{' '.join(words)}: {fault}")
    print(f"{len(storms)} storms, {wrong} faults")
    return 1 if wrong or not storms else 0


if __name__ == "__main__":
    sys.exit(main())
