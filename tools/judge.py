#!/usr/bin/env python3
"""Judges every journal of examples/ with the built program, and compares what it says.

  tools/judge.py [--program FILE]

A journal with a file NAME.verdict beside it has to be judged as that file says, and with the status of that verdict; each other one is the
journal of a run, and has to be sound. The program is built before, in `crates/nqnfs` by `rt run`. The status is 1 where it says something
else of any of them.
"""

import argparse
import glob
import os
import subprocess
import sys

TOP = os.path.normpath(os.path.join(os.path.dirname(os.path.abspath(__file__)), ".."))
SOUND = "yes\n"
# The status with which the program ends, by the first word that it prints.
STATUS = {"yes": 0, "script": 2, "limit": 9, "no": 12}


def wanted_of(journal):
    """What has to be said of a journal."""
    verdict = journal.removesuffix(".journal") + ".verdict"
    if not os.path.exists(verdict):
        return SOUND
    with open(verdict, encoding="utf-8") as text:
        return text.read()


def fault_of(program, journal):
    """What is wrong with what the program says of a journal, or None."""
    wanted = wanted_of(journal)
    status = STATUS[wanted.split()[0]]
    with open(journal, "rb") as text:
        done = subprocess.run([program, "check"], stdin=text, capture_output=True, text=True)
    if (done.stdout, done.returncode) != (wanted, status):
        return f"says {done.stdout!r} with status {done.returncode}, and not {wanted!r} with status {status}"
    return None


def main():
    asked = argparse.ArgumentParser(description=__doc__.splitlines()[0])
    asked.add_argument("--program", default=os.path.join(TOP, "crates/nqnfs/out/nqnfs"))
    program = os.path.abspath(asked.parse_args().program)
    journals = sorted(glob.glob(os.path.join(TOP, "examples", "**", "*.journal"), recursive=True))
    faults = 0
    for journal in journals:
        fault = fault_of(program, journal)
        if fault is not None:
            faults += 1
            print(f"{os.path.relpath(journal, TOP)}: {fault}")
    print(f"{len(journals)} journals, {faults} judged wrongly")
    return 1 if faults or not journals else 0


if __name__ == "__main__":
    sys.exit(main())
