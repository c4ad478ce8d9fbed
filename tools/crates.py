#!/usr/bin/env python3
"""Keeps crates.txt: each crate lists the crates that its files name, and no others.

    crates.py          writes the lists anew; layers, comments and crates of the kit stay as they stand
    crates.py --check  ends with status 1 where a list differs, and says where
"""

import argparse
import os
import re
import sys

TOP = os.path.join(os.path.dirname(os.path.abspath(__file__)), "..")
LIST = os.path.join(TOP, "crates.txt")

# How a file names a crate: in a path of the proofs, and in one of the code.
IN_PROOFS = re.compile(r"\bRattle\.(\w+)\.")
IN_CODE = re.compile(r"\b(\w+)::")


def named_by(crate):
    """The words that stand where a crate's name may stand, in all files of this crate."""
    words = set()
    for folder, folders, files in os.walk(os.path.join(TOP, "crates", crate)):
        folders[:] = [inner for inner in folders if inner != "out"]
        for file in files:
            if not file.endswith((".rt", ".antt")):
                continue
            with open(os.path.join(folder, file)) as text:
                content = text.read()
            words.update(IN_PROOFS.findall(content))
            if file.endswith(".rt"):
                words.update(IN_CODE.findall(content))
    return words


def main():
    asked = argparse.ArgumentParser(description=__doc__.splitlines()[0])
    asked.add_argument("--check", action="store_true", help="write nothing, and say where a list differs")
    said = asked.parse_args()
    with open(LIST) as text:
        lines = text.read().splitlines()
    crates = [line.split(":")[0] for line in lines if line and not line.startswith("#")]
    wanted = []
    for line in lines:
        if not line or line.startswith("#"):
            wanted.append(line)
            continue
        crate, _, listed = line.partition(":")
        named = named_by(crate)
        own = [other for other in crates if other in named and other != crate]
        kit = [other for other in listed.split() if other not in crates]
        wanted.append(f"{crate}: {' '.join(own + kit)}".rstrip())
    differing = [(old, new) for old, new in zip(lines, wanted) if old != new]
    if said.check:
        for old, new in differing:
            print(f"listed: {old}\nnamed:  {new}")
        return 1 if differing else 0
    with open(LIST, "w") as text:
        text.write("\n".join(wanted) + "\n")
    return 0


if __name__ == "__main__":
    sys.exit(main())
