#!/usr/bin/env python3
"""Makes the figures of docs/times.md again, section by section.

    bench/all.py [--program FILE] [--daemon FILE] [--lines N] [SECTION ..]

The sections are `program`, `judge`, `hosts` and `gate`; without one, all but `gate` are made, in some ten minutes. `program` and `judge` need the
built `nqnfs`, `hosts` the built `nqnfsd` and `cc`. `gate` proves all from nothing, in most of an hour, with nothing beside it. Each figure is made
by another script of bench/, whose command is printed above what it prints; its `--help` says what it measures. It ends with 1 where one
of them failed: where a journal has another sum, a journal is not judged sound, or a cost is above its bound.
"""
import argparse
import os
import subprocess
import sys
import time

TOP = os.path.normpath(os.path.join(os.path.dirname(os.path.abspath(__file__)), ".."))
SECTIONS = ("program", "judge", "hosts")


def commands(given):
    """The commands of each section."""
    program = ["--program", given.program]
    return {
        "program": [
            ["bench/mix.py", "--times", *program],
            ["bench/bench.py", "--storms", *program],
            ["bench/staged.py", *program],
            ["bench/names.py", *program],
        ],
        "judge": [
            ["bench/bench.py", "--journals", str(given.lines), *program],
            ["bench/judge.py", *program, "16000", "64000"],
        ],
        "hosts": [["bench/loopback.py", "--daemon", given.daemon, "--requests", "20000", "--rounds", "3"]],
        "gate": [["rt", "ci", "--anew"]],
    }


def ran(words):
    """Runs a command at the top of the repository, with what it prints, and tells how long it took; whether it ended well."""
    print(f"\n$ {' '.join(words)}", flush=True)
    began, before = time.perf_counter(), os.times()
    ended = subprocess.run(words, cwd=TOP).returncode
    after = os.times()
    spent = after.children_user + after.children_system - before.children_user - before.children_system
    print(f"({time.perf_counter() - began:,.0f} seconds, {spent / 60:,.1f} processor minutes, status {ended})", flush=True)
    return ended == 0


def main():
    words = argparse.ArgumentParser(description=__doc__, formatter_class=argparse.RawDescriptionHelpFormatter)
    words.add_argument("--program", default=os.path.join(TOP, "crates/nqnfs/out/nqnfs"))
    words.add_argument("--daemon", default=os.path.join(TOP, "crates/nqnfsd/out/nqnfsd"))
    words.add_argument("--lines", type=int, default=600_000, help="lines of the sound journals; a tenth of them is tried, too")
    words.add_argument("sections", nargs="*", metavar="SECTION", default=[])
    given = words.parse_args()
    every = commands(given)
    wrong = [name for name in given.sections if name not in every]
    if wrong:
        words.error(f"no section is named {wrong[0]}")
    failed = False
    for name in given.sections or SECTIONS:
        print(f"\n## {name}", flush=True)
        for command in every[name]:
            failed = not ran(command) or failed
    return 1 if failed else 0


if __name__ == "__main__":
    sys.exit(main())
