#!/usr/bin/env python3
"""How fast `nqnfs names` runs a schedule with lists and finds, beside `nqnfs replay` of the schedule of the inner world that it prints.

    bench/names.py [--program FILE]

One host creates a file and removes it, lists the directory, and finds a name in it, 9,000 times. The fastest of five runs counts.
"""
import argparse
import os
import subprocess
import sys
import tempfile
import time

TOP = os.path.normpath(os.path.join(os.path.dirname(os.path.abspath(__file__)), ".."))
HEAD = "nqnfs-schedule 2\nhosts 1\nterm 60\nlongest 600\nfile a 1\nbegin\n"
TURNS = 9_000
# A list, and two deliveries: events that the inner schedule does not have.
OUTSIDE = 3
RUNS = 5


def schedule():
    """Files that come and go in a directory that is listed behind each change."""
    lines = [HEAD]
    for turn in range(TURNS):
        lines.append("call 0 create b 1\nflow\n")
        lines.append(f"call 0 remove {turn + 2}\nflow\n")
        lines.append("list 0 /\nflow\nfind 0 a\n")
    lines.append("end\n")
    return "".join(lines)


def run(program, command, text):
    """Seconds of the fastest run, and what is printed."""
    fastest = None
    with tempfile.TemporaryFile("w+") as source:
        source.write(text)
        for _ in range(RUNS):
            source.seek(0)
            began = time.perf_counter()
            done = subprocess.run([program, command], stdin=source, capture_output=True, text=True, check=True)
            took = time.perf_counter() - began
            fastest = took if fastest is None else min(took, fastest)
    return fastest, done.stdout


def inner(printed):
    """The schedule of the inner world, and how many events it has."""
    text = printed[: printed.index("end\n") + len("end\n")]
    return text, text[text.index("begin\n") :].count("\n") - 2


def main():
    words = argparse.ArgumentParser(description=__doc__.splitlines()[0])
    words.add_argument("--program", default=os.path.join(TOP, "crates/nqnfs/out/nqnfs"))
    program = words.parse_args().program
    took, printed = run(program, "names", schedule())
    text, ran = inner(printed)
    found = sum(line.endswith(" 1") for line in printed.splitlines() if line.startswith("find "))
    replayed, _ = run(program, "replay", text)
    events = ran + OUTSIDE * TURNS
    print(f"names: {events:,} events in {took:.3f} s, {events / took:,.0f} a second; {found:,} finds of a file")
    print(f"replay: {ran:,} events in {replayed:.3f} s, {ran / replayed:,.0f} a second")
    return 0


if __name__ == "__main__":
    sys.exit(main())
