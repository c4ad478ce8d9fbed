#!/usr/bin/env python3
"""Counts the words of the pages, and says which has more than it may have.

    pages.py            the status is 1 where a page, or all together, has too many words, the README too many or too long lines, or a crate no
                        README that says what it has to and names only what there is

Whoever adds words to a page cuts as many. The README of a crate counts for itself.
"""

import glob
import os
import re
import sys

TOP = os.path.normpath(os.path.join(os.path.dirname(os.path.abspath(__file__)), ".."))

# How many words a page of docs/ may have, and all of them together.
MOST = {
    "DECISIONS": 3000, "check": 1000, "commands": 1000, "contributing": 1200, "definitions": 3000, "hosts": 1600, "image": 2000, "map": 800,
    "proof": 1500, "progress": 900, "protocol": 5400, "storms": 500, "times": 900, "tour": 2500, "wire": 1200,
}
MOST_IN_ALL = 25_000

# How many lines the README may have, and how many characters each.
README_LINES, README_WIDTH = 80, 120

# How many words the README of a crate has at least and at most, and what it has to say.
LEAST_OF_CRATE, MOST_OF_CRATE = 60, 150
PARTS_OF_CRATE = ("**Proved.**", "**Tested.**", "**Trusted.**", "**Open first.**")


def words_in(path):
    with open(path, encoding="utf-8") as page:
        return len(page.read().split())


def is_file(path, crate):
    """Whether a page of this crate may name this path: from the top, or from the crate's folder."""
    return any(os.path.exists(os.path.join(TOP, *above, path)) for above in ((), ("crates", crate)))


def names_in(folder):
    """All words of the code and the definitions in a folder, and the names of its files."""
    names = set()
    for path in glob.glob(os.path.join(folder, "**"), recursive=True):
        names.add(os.path.splitext(os.path.basename(path))[0])
        if path.endswith((".rt", ".antt")):
            with open(path, encoding="utf-8") as file:
                names.update(re.findall(r"[\w-]+", file.read()))
    return names


def of_crates():
    """What is wrong with the READMEs of crates."""
    with open(os.path.join(TOP, "crates.txt"), encoding="utf-8") as listed:
        crates = [line.split(":")[0].split()[0] for line in listed if line.strip() and not line.startswith("#")]
    faults, names = [], names_in(os.path.join(TOP, "crates"))
    for crate in crates:
        page = f"crates/{crate}/README.md"
        if not os.path.exists(os.path.join(TOP, page)):
            faults.append(f"{page} is not there")
            continue
        with open(os.path.join(TOP, page), encoding="utf-8") as file:
            text = file.read()
        count = len(text.split())
        if not LEAST_OF_CRATE <= count <= MOST_OF_CRATE:
            faults.append(f"{page} has {count} words, {LEAST_OF_CRATE} to {MOST_OF_CRATE} are allowed")
        faults += [f"{page} lacks {part}" for part in PARTS_OF_CRATE if part not in text]
        for said in re.findall(r"`([^`]+)`", text):
            known = is_file(said, crate) if "/" in said else all(word in names for word in re.findall(r"[A-Za-z_][\w-]*", said.removesuffix(".antt")))
            if not known:
                faults.append(f"{page} names `{said}`, which is not there")
    return faults


def main():
    faults, total = of_crates(), 0
    for path in sorted(glob.glob(os.path.join(TOP, "docs/*.md"))):
        name = os.path.splitext(os.path.basename(path))[0]
        count, most = words_in(path), MOST.get(name, 0)
        total += count
        print(f"{name:14}{count:7}{most:7}")
        if count > most:
            faults.append(f"docs/{name}.md has {count} words, {most} are allowed")
    print(f"{'in all':14}{total:7}{MOST_IN_ALL:7}")
    if total > MOST_IN_ALL:
        faults.append(f"the pages have {total} words, {MOST_IN_ALL} are allowed")
    with open(os.path.join(TOP, "README.md"), encoding="utf-8") as readme:
        lines = readme.read().splitlines()
    if len(lines) > README_LINES:
        faults.append(f"README.md has {len(lines)} lines, {README_LINES} are allowed")
    long = [number for number, line in enumerate(lines, 1) if len(line) > README_WIDTH]
    if long:
        faults.append(f"README.md has lines of more than {README_WIDTH} characters: {' '.join(map(str, long))}")
    print("\n".join(faults))
    return 1 if faults else 0


if __name__ == "__main__":
    sys.exit(main())
