#!/usr/bin/env python3
"""Compares the contracts of all public functions with those of another revision.

    tools/contracts.py REVISION [CRATE ...]      lists each public function that came, went, or whose signature or clauses changed

A clause that stayed is not printed. A line that begins with '-' was there at REVISION, one that begins with '+' is there now. A function is
named by its crate, its `impl` and its own name, so one that moved within its crate is the same.
"""
import os
import re
import subprocess
import sys

TOP = os.path.normpath(os.path.join(os.path.dirname(os.path.abspath(__file__)), ".."))


def of_text(crate, text, into):
    """The public functions of a file: name to lines of signature and clauses."""
    place = ""
    lines = text.split("\n")
    at = 0
    while at < len(lines):
        line = lines[at]
        if re.match(r"(impl|trait|pub trait)\b", line):
            place = line.rstrip(" {")
        elif line and not line[0].isspace():
            place = "" if line.startswith("}") else place
        found = re.match(r"\s*pub (?:const )?fn (\w+)", line)
        in_trait = re.match(r"\s+fn (\w+)", line) if place.startswith("pub trait") else None
        if found or in_trait:
            name = (found or in_trait).group(1)
            said = []
            is_clause, braces, brackets = False, 0, 0
            while at < len(lines):
                line = lines[at].strip()
                if line in ("{", "{}") and braces == 0 and brackets == 0:
                    break
                said.append(" ".join(line.split()))
                is_clause = is_clause or re.match(r"(requires|ensures|ghost)\b", line) is not None
                braces += line.count("{") - line.count("}")
                brackets += line.count("(") - line.count(")")
                # A declaration ends in `;`, and a function with no clause in the brace of its body. A record within a clause has both.
                if brackets == 0 and (braces == 0 and line.endswith((";", "{}")) or not is_clause and braces == 1 and line.endswith("{")):
                    break
                at += 1
            into[crate, place, name] = [one for one in said if one]
        at += 1


def of_tree(listed, read):
    """All public functions of the crates."""
    into = {}
    for path in listed:
        found = re.match(r"crates/(\w+)/src/.*\.rt$", path)
        if found:
            of_text(found.group(1), read(path), into)
    return into


def git(*words):
    return subprocess.run(["git", "-C", TOP, *words], check=True, capture_output=True, text=True).stdout


def now():
    files = git("ls-files", "crates").split("\n")
    return of_tree(files, lambda path: open(os.path.join(TOP, path), encoding="utf-8").read() if os.path.exists(os.path.join(TOP, path)) else "")


def then(revision):
    files = git("ls-tree", "-r", "--name-only", revision, "crates").split("\n")
    return of_tree(files, lambda path: git("show", f"{revision}:{path}"))


def main():
    words = sys.argv[1:]
    if not words or "--help" in words or "-h" in words:
        print(__doc__.strip())
        return 0
    before, after = then(words[0]), now()
    changed = 0
    for key in sorted(set(before) | set(after)):
        if words[1:] and key[0] not in words[1:]:
            continue
        old, new = before.get(key), after.get(key)
        if old == new:
            continue
        changed += 1
        state = "new" if old is None else "gone" if new is None else "changed"
        print(f"{key[0]} {key[1]} {key[2]}: {state}")
        if state == "changed":
            for line in old:
                if line not in new:
                    print(f"  - {line}")
            for line in new:
                if line not in old:
                    print(f"  + {line}")
    print(f"{changed} of {len(set(before) | set(after))} public functions differ")
    return 0


if __name__ == "__main__":
    sys.exit(main())
