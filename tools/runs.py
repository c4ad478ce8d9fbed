#!/usr/bin/env python3
"""Makes web/stored.js: the schedules that web/index.html offers, and a few of their runs, which it shows without the program.

  tools/runs.py [--look FILE] [--nqnfs FILE] [--write]

The schedules are those of `examples/`, in the order in which examples/README.md says to read them, and those of `web/exercises/`, with one that
solves each. Of a few, a run is stored: the journal that `nqnfs replay` prints, what `nqnfs check` says of that journal, and the run as `nqnfs_look
tell` tells it. Both programs are built before, in their crates by `rt run`. With `--write` the file is written; without it
nothing is, and the status is 1 where the file is old or wanting.
"""

import argparse
import json
import pathlib
import re
import subprocess
import sys

ROOT = pathlib.Path(__file__).resolve().parent.parent
STORED = ROOT / "web/stored.js"
FIRST = "a-delayed-write-is-lost"
WITH_RUNS = (FIRST, "put-then-fetch", "delayed-writes", "write-sharing", "cut-off-beyond-write-slack")
ORDER = re.compile(r"^\d\. \*([^*:]+):\*(.*(?:\n   .*)*)", re.MULTILINE)


def said(program, *words, given):
    """What a program prints; it may end with any status."""
    ended = subprocess.run([program, *words], input=given, stdout=subprocess.PIPE, text=True)
    return ended.stdout


def run_of(schedule, asked):
    """A run, as the page has it."""
    journal = said(asked.nqnfs, "replay", given=schedule)
    return {
        "printed": journal,
        "verdict": said(asked.nqnfs, "check", given=journal),
        "told": said(asked.look, "tell", given=schedule),
    }


def start_of(folder, group, name, asked):
    """A schedule with its name, and its run if it is stored."""
    schedule = (ROOT / folder / f"{name}.schedule").read_text()
    start = {"group": group, "name": name, "schedule": schedule}
    if name in WITH_RUNS:
        start["run"] = run_of(schedule, asked)
    return start


def examples(asked):
    """The examples in their order."""
    page = (ROOT / "examples/README.md").read_text()
    for group, words in ORDER.findall(page):
        for name in re.findall(r"`([a-z0-9-]+)`", words):
            yield start_of("examples", group, name, asked)


def starts(asked):
    """The first view, and the exercises in the order of web/exercises.js."""
    yield start_of("web/exercises", "Begin here", FIRST, asked)
    for name in re.findall(r'name: "([a-z-]+)"', (ROOT / "web/exercises.js").read_text()):
        solved = (ROOT / "web/exercises" / f"{name}.solved.schedule").read_text()
        yield {**start_of("web/exercises", "Exercises", name, asked), "solved": solved}


def listed(name, items):
    lines = ",\n".join(json.dumps(item, ensure_ascii=False) for item in items)
    return f"const {name} = [\n{lines}\n];\n"


def main():
    words = argparse.ArgumentParser(description=__doc__.splitlines()[0])
    words.add_argument("--look", default=str(ROOT / "crates/nqnfs_look/out/nqnfs_look"))
    words.add_argument("--nqnfs", default=str(ROOT / "crates/nqnfs/out/nqnfs"))
    words.add_argument("--write", action="store_true")
    asked = words.parse_args()
    text = "// Made by tools/runs.py.\n" + listed("STARTS", starts(asked)) + listed("EXAMPLES", examples(asked))
    if asked.write:
        STORED.write_text(text)
        print(f"{STORED.name}: {len(text)} bytes")
        return 0
    if STORED.exists() and STORED.read_text() == text:
        print(f"{STORED.name}: as the programs print it")
        return 0
    print(f"{STORED.name}: old" if STORED.exists() else f"{STORED.name}: wanting")
    return 1


if __name__ == "__main__":
    sys.exit(main())
