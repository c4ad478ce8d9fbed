#!/usr/bin/env python3
"""Prints what a skeptic has to read to know what is promised: a definition, and all definitions on which it stands.

    trusted.py                  of the headline, `AtEveryMoment` of nq_model
    trusted.py NAME             of another definition, by its name or as CRATE.MODULE.NAME
    trusted.py --clauses CRATE::FUNCTION
                                of all clauses of a public function, as nq_run::run
    trusted.py --count ..       only how many definitions and lines they are, by crate

It walks through the imports of the files in crates/*/specs, and prints each definition before those that it names, the files in the order in
which they are first needed. Types that the code declares and words of std are named at the end. A line is one that is no comment and not empty.
"""

import argparse
import collections
import glob
import os
import re
import sys

TOP = os.path.normpath(os.path.join(os.path.dirname(os.path.abspath(__file__)), ".."))
USE = re.compile(r"^(?:ghost )?use\s+Rattle\.([\w.-]+)\.\{([^}]*)\}", re.MULTILINE)
START = re.compile(r"^(?:(?:pub|abbrev|unfoldable|opaque|record|data)\s+)+([^\s:(){},]+)")
WORD = re.compile(r"[^\s(){}\[\],;.:=→λ×]+")
FUNCTION = r"pub fn {}\b[^{{;]*?((?:\n\s+(?:requires|ensures)[^\n]*(?:\n\s{{8,}}[^\n]*)*)+)"

Definition = collections.namedtuple("Definition", "crate module name text told imports")


def text_of(path):
    with open(path, encoding="utf-8") as file:
        return file.read()


def imports_of(text):
    """What each imported name is: its module's path and its name there."""
    found = {}
    for path, names in USE.findall(text):
        for part in re.split(r",\s*", names.strip()):
            name, _, other = part.partition(" as ")
            if name:
                found[(other or name).strip()] = (path, name.strip())
    return found


def definitions_of(path):
    """The definitions of a file, in its order. A definition ends before the next one, or before the comment above it."""
    crate, inside = os.path.relpath(path, os.path.join(TOP, "crates")).split(f"{os.sep}specs{os.sep}")
    module = os.path.splitext(inside)[0].replace(os.sep, ".")
    text = text_of(path)
    imports, found, told, body, name = imports_of(text), [], [], [], None

    def close():
        if name:
            found.append(Definition(crate, module, name, "\n".join(body).rstrip(), above, imports))

    above = []
    for line in text.splitlines():
        start = START.match(line)
        if line.startswith("-- ----"):
            told = []
        elif line.startswith("--"):
            told.append(line)
        elif start or (line and not line[0].isspace() and line[0] != "}" and not line.startswith("use ")):
            first = start.group(1) if start else None
            if first and first != name:
                close()
                name, body, above = first, [line], told
            elif name:
                body.append(line)
            told = []
        elif line.startswith("use "):
            told = []
        elif name:
            body.append(line)
            told = told if not line else []
    close()
    return found


def all_definitions():
    """All definitions of the repository, by crate, module and name."""
    found = {}
    for path in sorted(glob.glob(os.path.join(TOP, "crates/*/specs/**/*.antt"), recursive=True)):
        is_list = path.endswith("Lib.antt") or os.path.isdir(os.path.splitext(path)[0])
        if not is_list:
            for definition in definitions_of(path):
                found[(definition.crate, definition.module, definition.name)] = definition
    return found


def place_of(name, imports, own, known):
    """Where a name that stands in a definition is defined, and whether that is a definition of the repository."""
    if own and (*own, name) in known:
        return (*own, name), True
    if name not in imports:
        return None, False
    path, there = imports[name]
    crate, _, module = path.partition(".specs.")
    if (crate, module, there) in known:
        return (crate, module, there), True
    return (path, there), False


def walked(begins, known):
    """All definitions on which these places stand, in the order in which they are first named, and what else they name."""
    queue, seen, others = collections.deque(begins), {}, set()
    while queue:
        place = queue.popleft()
        if place in seen:
            continue
        definition = known[place]
        seen[place] = definition
        for word in WORD.findall(definition.text):
            for part in {word, *word.split(".")}:
                found, is_ours = place_of(part, definition.imports, place[:2], known)
                if is_ours and found not in seen:
                    queue.append(found)
                elif found and not is_ours:
                    others.add(".".join(found))
    return seen, others


def begins_in_clauses(said, known):
    """The places that the clauses of a public function name."""
    crate, _, function = said.rpartition("::")
    for path in sorted(glob.glob(os.path.join(TOP, "crates", crate, "src/**/*.rt"), recursive=True)):
        text = text_of(path)
        clauses = re.search(FUNCTION.format(re.escape(function)), text)
        if clauses:
            imports = imports_of(text)
            places = [place_of(word, imports, None, known) for word in WORD.findall(clauses.group(1))]
            return [place for place, is_ours in places if is_ours]
    sys.exit(f"trusted.py: no public function {said} has clauses; say CRATE::FUNCTION")


def begins_at(name, known):
    """The place of a definition that is named."""
    found = [place for place in known if place[2] == name or ".".join(place) == name]
    if len(found) != 1:
        sys.exit(f"trusted.py: {len(found)} definitions are called {name}: {' '.join('.'.join(it) for it in found)}")
    return found


def lines_of(definition):
    return sum(1 for line in definition.text.splitlines() if line.strip() and not line.strip().startswith("--"))


def main():
    asked = argparse.ArgumentParser(description=__doc__.splitlines()[0])
    asked.add_argument("name", nargs="?", default="AtEveryMoment")
    asked.add_argument("--clauses", metavar="CRATE::FUNCTION", help="begin at the clauses of this public function")
    asked.add_argument("--count", action="store_true", help="print no definition")
    said = asked.parse_args()
    known = all_definitions()
    begins = begins_in_clauses(said.clauses, known) if said.clauses else begins_at(said.name, known)
    seen, others = walked(begins, known)
    files = collections.OrderedDict()
    for definition in seen.values():
        files.setdefault((definition.crate, definition.module), []).append(definition)
    if not said.count:
        for (crate, module), definitions in files.items():
            print(f"-- ==== crates/{crate}/specs/{module.replace('.', '/')}.antt\n")
            for definition in definitions:
                print("\n".join([*definition.told, definition.text]) + "\n")
        print("-- ==== words of std, and types that the code declares\n")
        print("\n".join(f"-- {other}" for other in sorted(others)))
    crates = collections.Counter()
    for definition in seen.values():
        crates[definition.crate] += 1
    total = sum(map(lines_of, seen.values()))
    told = ", ".join(f"{crate} {count}" for crate, count in crates.most_common())
    print(f"{len(seen)} definitions with {total} lines, in {len(files)} files: {told}")
    return 0


if __name__ == "__main__":
    try:
        sys.exit(main())
    except BrokenPipeError:
        # whoever reads wants no more
        sys.exit(0)
