#!/usr/bin/env python3
"""Times what a server keeps: commits and reads of a block over lists, over a disk in memory and over a file, four bare writes and
syncs on such a file, and the opening of the empty and of the largest image. It prints microseconds a turn, and peak memory.

    bench/disk.py [--program FILE] [--folder FOLDER] [--rounds N]

The program is the built `story_parts` (`rt run -- store-commit memory 100` in the crate's folder builds it). Each case is run with one
turn and with many, in rounds of all cases, and the fastest runs count: what a run costs besides its turns falls out. On a file it is
the time that passes, else the time of the processor. The files lie in the folder, which is best on a real disk.
"""
import argparse
import os
import subprocess
import tempfile
import time

TOP = os.path.normpath(os.path.join(os.path.dirname(os.path.abspath(__file__)), ".."))

# What is done, where, and how often.
CASES = (
    ("commit", "list", 200000),
    ("commit", "memory", 40000),
    ("bare", "memory", 40000),
    ("commit", "file", 200),
    ("bare", "file", 200),
    ("read", "list", 1000000),
    ("read", "memory", 400000),
    ("read", "file", 100000),
    ("open", "memory", 4000),
    ("open", "file", 200),
    ("open-full", "memory", 40),
    ("open-full", "file", 40),
)


def run(program, what, place, times):
    """Seconds of the processor, seconds that passed, and peak kilobytes of one run."""
    words = ["/usr/bin/time", "-f", "%M", program, f"store-{what}", place, str(times)]
    start = time.perf_counter()
    child = subprocess.Popen(words, stdout=subprocess.DEVNULL, stderr=subprocess.PIPE, text=True)
    said = child.stderr.read()
    _, status, used = os.wait4(child.pid, 0)
    passed = time.perf_counter() - start
    child.returncode = os.waitstatus_to_exitcode(status)
    if child.returncode != 0:
        raise SystemExit(f"{what} {place} {times} failed")
    return used.ru_utime + used.ru_stime, passed, int(said)


def main():
    parser = argparse.ArgumentParser(description=__doc__.splitlines()[0])
    parser.add_argument("--program", default=os.path.join(TOP, "crates", "story_parts", "out", "story_parts"))
    parser.add_argument("--folder")
    parser.add_argument("--rounds", type=int, default=5)
    asked = parser.parse_args()
    best = {}
    with tempfile.TemporaryDirectory(dir=asked.folder) as folder:
        for _ in range(asked.rounds):
            for what, place, times in CASES:
                path = os.path.join(folder, what) if place == "file" else place
                for turns in (1, 1 + times):
                    runs = best.setdefault((what, place, turns), [])
                    runs.append(run(asked.program, what, path, turns))
    print(f"{'what':<9} {'where':<7} {'turns':>9} {'microseconds':>13} {'peak MB':>8}")
    for what, place, times in CASES:
        column = 1 if place == "file" else 0
        one = min(seen[column] for seen in best[what, place, 1])
        many = min(seen[column] for seen in best[what, place, 1 + times])
        peak = max(seen[2] for seen in best[what, place, 1 + times])
        print(f"{what:<9} {place:<7} {times:>9} {(many - one) / times * 1e6:>13.2f} {peak / 1024:>8.1f}")


if __name__ == "__main__":
    main()
