#!/usr/bin/env python3
"""Replays every schedule below some folders with the built program, and compares what it prints.

  tools/replay.py [--program FILE] [FOLDER..]

Beside each `NAME.schedule` stands `NAME.journal`, to the byte what `replay` has to print. Without a folder, `examples/` is taken.
A file `sums.txt` with lines `NAME SUM` gives the SHA-256 of the journal of `NAME.schedule` or `NAME.schedule.gz` in its folder. The program is
built before, in `crates/nqnfs` by `rt run`. The status is 1 where a journal differs.
"""

import argparse
import gzip
import hashlib
import pathlib
import subprocess
import sys
import time

ROOT = pathlib.Path(__file__).resolve().parent.parent


def replayed(program, schedule):
    """The status of a replay, and what it printed."""
    ended = subprocess.run([program, "replay"], input=schedule, stdout=subprocess.PIPE, check=False)
    return ended.returncode, ended.stdout


def examples(folder):
    """Each schedule below a folder, with a test of what is printed."""
    for schedule in sorted(folder.rglob("*.schedule")):
        journal = schedule.with_suffix(".journal")
        if journal.exists():
            wanted = journal.read_bytes()
            yield schedule, schedule.read_bytes(), lambda text, wanted=wanted: text == wanted
    for sums in sorted(folder.rglob("sums.txt")):
        for line in sums.read_text().splitlines():
            words = line.split()
            if len(words) != 2:
                continue
            name, wanted = words
            plain = sums.parent / (name + ".schedule")
            packed = sums.parent / (name + ".schedule.gz")
            if plain.exists():
                text = plain.read_bytes()
            elif packed.exists():
                text = gzip.decompress(packed.read_bytes())
            else:
                continue
            yield (
                sums.parent / name,
                text,
                lambda text, wanted=wanted: hashlib.sha256(text).hexdigest() == wanted,
            )


def main():
    words = argparse.ArgumentParser(description=__doc__.splitlines()[0])
    words.add_argument("--program", default=str(ROOT / "crates/nqnfs/out/nqnfs"))
    words.add_argument("folders", nargs="*", type=pathlib.Path)
    said = words.parse_args()
    count = 0
    wrong = 0
    for folder in said.folders or [ROOT / "examples"]:
        for schedule, text, is_right in examples(folder):
            began = time.monotonic()
            status, printed = replayed(said.program, text)
            took = time.monotonic() - began
            count += 1
            if status != 0 or not is_right(printed):
                wrong += 1
                print(f"{schedule}: status {status}, and another journal")
            elif took > 1:
                print(f"{schedule}: {took:.1f} s")
    print(f"{count} schedules, {wrong} with another journal")
    return 1 if wrong or not count else 0


if __name__ == "__main__":
    sys.exit(main())
