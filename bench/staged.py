#!/usr/bin/env python3
"""Pushes with and without staging: bytes on the wire, round trips, and how fast `nqnfs staged` runs them beside `nqnfs replay` of the
schedule of the inner world that it prints.

    bench/staged.py [--program FILE]

One host writes a block, stages it or not, and stores it, 1,000 times for the bytes and 9,000 times for the speed. The fastest of five
runs counts. A round trip is a call and its reply. The bytes are those of the messages, without the heads of UDP and IP (docs/protocol.md
sections 5 and 10).
"""
import argparse
import os
import subprocess
import sys
import tempfile
import time

TOP = os.path.normpath(os.path.join(os.path.dirname(os.path.abspath(__file__)), ".."))
HEAD = "nqnfs-schedule 2\nhosts 1\nterm 60\nlongest 600\nfile a 64\nbegin\n"
BLOCKS = 64
FOR_BYTES = 1_000
FOR_SPEED = 9_000
RUNS = 5

# Bytes of a WRITE that is a push, of a STAGE, of a COMMIT, and of the replies to a WRITE or COMMIT, to a STAGE, and UNSTAGED.
PUSH, STAGE, COMMIT, STORED, STAGED, UNSTAGED = 4196, 4164, 96, 40, 36, 32


def pushes(count, staging):
    """A schedule in which blocks are written and stored one after another, each staged before if that is wanted."""
    lines = [HEAD, "call 0 write 1 0 0\nflow\n"]
    for turn in range(count):
        lines.append(f"call 0 write 1 {turn % BLOCKS} {turn + 1}\n")
        if staging:
            lines.append("stage 0\nflow\n")
        lines.append("call 0 sync 1\nflow\n")
    lines.append("end\n")
    return "".join(lines)


def run(program, command, text):
    """Seconds of the fastest run, and what is printed."""
    fastest = None
    with tempfile.TemporaryFile("w+") as source:
        source.write(text)
        for _ in range(RUNS):
            source.seek(0)
            began = time.perf_counter()
            done = subprocess.run([program, command], stdin=source, capture_output=True, text=True, check=True)
            took = time.perf_counter() - began
            fastest = took if fastest is None else min(took, fastest)
    return fastest, done.stdout


def inner(printed):
    """The schedule of the inner world, and how many STAGEs came, COMMITs were rebuilt and UNSTAGED were made."""
    schedule = printed[: printed.index("end\n") + len("end\n")]
    counts = printed.splitlines()[-1].split()
    return schedule, int(counts[1]), int(counts[3]), int(counts[5])


def tell_bytes(program, staging):
    """What the pushes of a run put on the wire, all in all and behind the calls that wait for it."""
    _, printed = run(program, "staged", pushes(FOR_BYTES, staging))
    _, staged, commits, unstaged = inner(printed)
    stored = sum(line.startswith("S ") for line in printed.splitlines())
    whole = stored - commits
    ahead = staged * (STAGE + STAGED)
    behind = commits * (COMMIT + STORED) + unstaged * (COMMIT + UNSTAGED) + whole * (PUSH + STORED)
    trips = commits + unstaged + whole
    print(
        f"{'with' if staging else 'without':7} staging: {stored} pushes, {staged} staged, {commits} COMMITs, {unstaged} UNSTAGED; "
        f"{ahead + behind:,} bytes in {staged + trips:,} round trips, of which {behind:,} bytes in {trips:,} behind the calls that wait"
    )


def tell_speed(program):
    """Events of the staged schedule a second, beside those of its inner schedule by `replay`."""
    took, printed = run(program, "staged", pushes(FOR_SPEED, True))
    schedule, staged, _, _ = inner(printed)
    ran = schedule.count("\n") - HEAD.count("\n") - 1
    again, _ = run(program, "replay", schedule)
    events = ran + 3 * staged
    print(
        f"staged: {events:,} events in {took:.3f} s, {events / took:,.0f} a second; "
        f"replay of its inner schedule: {ran:,} events in {again:.3f} s, {ran / again:,.0f} a second"
    )


def main():
    asked = argparse.ArgumentParser(description=__doc__, formatter_class=argparse.RawDescriptionHelpFormatter)
    asked.add_argument("--program", default=os.path.join(TOP, "crates", "nqnfs", "out", "nqnfs"))
    program = asked.parse_args().program
    tell_bytes(program, False)
    tell_bytes(program, True)
    tell_speed(program)
    return 0


if __name__ == "__main__":
    sys.exit(main())
