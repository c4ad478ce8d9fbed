#!/usr/bin/env python3
"""Makes the pictures of docs/tour.md with the built program, and says which committed one is old.

  tools/pictures.py [--program FILE] [--write]

Each picture `docs/pictures/NAME.svg` shows the run of `examples/NAME.schedule`. The program is built before, in
`crates/nqnfs_look` by `rt run`. With `--write` the pictures are written anew; without it nothing is written. The status is 1 where
a picture is old or wanting and was not written, or where docs/tour.md shows another schedule or journal than `examples/` has.
"""

import argparse
import pathlib
import re
import subprocess
import sys

ROOT = pathlib.Path(__file__).resolve().parent.parent
PICTURES = ROOT / "docs/pictures"
TOUR = ROOT / "docs/tour.md"
QUOTED = re.compile(r"```\n(nqnfs-(?:schedule|journal) .*?)```", re.DOTALL)
SHOWN = re.compile(r"\(pictures/([a-z0-9-]+)\.svg\)")


def drawn(program, schedule):
    """The picture of a schedule."""
    ended = subprocess.run([program, "picture"], input=schedule, stdout=subprocess.PIPE, check=True)
    return ended.stdout


def misquoted(names, tour):
    """Which schedules and journals of the tour are not, to the letter, those of the examples that it shows."""
    texts = [(ROOT / "examples" / f"{name}.{suffix}").read_text() for name in names for suffix in ("schedule", "journal")]
    for number, text in enumerate(QUOTED.findall(tour), 1):
        if text not in texts:
            yield f"{TOUR.name}: text {number} is of none of its examples"


def main():
    words = argparse.ArgumentParser(description=__doc__.splitlines()[0])
    words.add_argument("--program", default=str(ROOT / "crates/nqnfs_look/out/nqnfs_look"))
    words.add_argument("--write", action="store_true")
    said = words.parse_args()
    tour = TOUR.read_text()
    names = SHOWN.findall(tour)
    faults = list(misquoted(names, tour))
    for name in names:
        picture = drawn(said.program, (ROOT / "examples" / f"{name}.schedule").read_bytes())
        file = PICTURES / f"{name}.svg"
        if file.exists() and file.read_bytes() == picture:
            continue
        if said.write:
            PICTURES.mkdir(exist_ok=True)
            file.write_bytes(picture)
            print(f"{file.name}: written")
        else:
            faults.append(f"{file.name}: old" if file.exists() else f"{file.name}: wanting")
    print("\n".join(faults) if faults else f"{len(names)} pictures are as the program draws them")
    return 1 if faults or not names else 0


if __name__ == "__main__":
    sys.exit(main())
