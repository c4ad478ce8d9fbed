#!/usr/bin/env python3
"""Turns the texts of schedules and journals into terms of the definitions in nq_model.

    terms.py journal FILE          the journal as a term of type List Entry, the newest entry first
    terms.py schedule FILE         the schedule's head (type Head) and its lines (type List Line)
    terms.py journals NAME FILE..  a module of nq_laws::examples that defines each journal by the name of its file, and NAME,
                                   the list of them all
    terms.py examples NAME FILE..  the same of schedules, each with the journal beside it in a file of the same name
    terms.py --check               compares the modules of nq_laws::examples with what is made of the texts of examples/

A text is one of versions 1 and 2. What is not of its grammar ends the script with a message. `--check` ends with status 1 where a
module differs, and says which.
"""

import argparse
import glob
import os
import re
import sys

TOP = os.path.normpath(os.path.join(os.path.dirname(os.path.abspath(__file__)), ".."))

# The modules of nq_laws::examples: the file of each, the list of all that it defines, and the texts of which it is made.
MODULES = [
    ("Worked", "worked", "*.schedule", range(0)),
    ("MixedOne", "mixed_one", "mixed/run-*.schedule", range(1, 21)),
    ("MixedTwo", "mixed_two", "mixed/run-*.schedule", range(21, 41)),
    ("MixedThree", "mixed_three", "mixed/run-*.schedule", range(41, 65)),
    ("NotLegal", "not_legal", "spoiled/legal/*.journal", range(0)),
    ("NotOrdered", "not_ordered", "spoiled/ordered/*.journal", range(0)),
    ("NotOfTheirCall", "not_of_their_call", "spoiled/of-their-call/*.journal", range(0)),
    ("NotAccounted", "not_accounted", "spoiled/accounted/*.journal", range(0)),
    ("NotExcused", "not_excused", "spoiled/excused/*.journal", range(0)),
    ("NotReported", "not_reported", "spoiled/reported/*.journal", range(0)),
    ("NotSynchronized", "not_synchronized", "spoiled/synchronized/*.journal", range(0)),
]

# The longest term that a version 1 text means.
VERSION_1_LONGEST = 60

# How wide a line of a module is, behind its indentation.
WIDTH = 116
INDENT = "    "


def ends_of(text, kind):
    """The version of a text and the lines between its first line and its `end`."""
    if not text.endswith("end\n"):
        raise ValueError("the text does not end with the line `end`")
    lines = text.split("\n")[:-2]
    for version in (1, 2):
        if lines and lines[0] == f"nqnfs-{kind} {version}":
            return version, lines[1:]
    raise ValueError(f"line 1 is not that of a {kind}")


def listed(terms):
    """The list of these terms, on one line."""
    return "".join(term + " ∷ " for term in terms) + "[]"


def wrapped(terms, indent=INDENT):
    """The same over several lines, with each but the first indented."""
    lines, line = [], ""
    for term in [term + " ∷" for term in terms] + ["[]"]:
        if line and len(line) + 1 + len(term) > WIDTH:
            lines.append(line)
            line = ""
        line = f"{line} {term}".strip()
    return ("\n" + indent).join(lines + [line])


def name(word):
    """A name: the list of its bytes."""
    return "(" + listed(str(byte) for byte in word.encode()) + ")"


def who(host, inc):
    return f"(record {{ host = {host}; inc = {inc} }})"


def told(words):
    """What a C tells of its call."""
    kind, rest = words[0], words[1:]
    if kind in ("create", "lookup"):
        rest = [name(rest[0])] + rest[1:]
    constructor = {
        "create": "Create",
        "lookup": "Lookup",
        "attr": "Attr",
        "read": "Read",
        "fetch": "Fetch",
        "write": "Write",
        "put": "Put",
        "sync": "Sync",
        "resize": "Resize",
        "remove": "Remove",
    }[kind]
    return "(" + " ".join(["Told." + constructor] + rest) + ")"


def span(word):
    """A loss as an A names it: `B:FIRST-LAST`."""
    block, numbers = word.split(":")
    first, last = numbers.split("-")
    return f"record {{ block = {block}; first = {first}; last = {last} }}"


def said(words):
    """What an A says."""
    kind, rest = words[0], words[1:]
    if kind == "ok" and not rest:
        return "Said.Ok"
    if kind == "ok" and len(rest) == 1:
        return f"(Said.OkValue {rest[0]})"
    if kind == "ok":
        value, by, packet = rest
        if by != "by":
            raise ValueError("an answer is not of the grammar")
        return f"(Said.OkBy {value} {packet})"
    if kind == "lost":
        return f"(Said.Lost (record {{ items = {listed(map(span, rest))}; spare = 0 }}))"
    if rest:
        raise ValueError("an answer is not of the grammar")
    return {
        "busy": "Said.Busy",
        "stale": "Said.Stale",
        "noentry": "Said.NoEntry",
        "exists": "Said.Exists",
        "nospace": "Said.NoSpace",
        "range": "Said.Range",
        "dirtyfull": "Said.DirtyFull",
    }[kind]


def entry(line, version):
    """The entry that a line of a journal tells."""
    kind, *words = line.split(" ")
    constructor = "Entry." + kind
    if kind in ("O", "X"):
        if kind == "X" and version == 1:
            words = words + [str(VERSION_1_LONGEST)]
        return " ".join([constructor] + words)
    incarnation, rest = who(words[0], words[1]), words[2:]
    if kind == "C":
        rest = [rest[0], told(rest[1:])]
    elif kind == "W":
        rest = rest[:4] + [{"through": "true", "delayed": "false"}[rest[4]]]
    elif kind == "R":
        rest = rest[:4] + ["None" if rest[4] == "cached" else f"(Some {rest[5]})"]
    elif kind == "G":
        mode = {"noncaching": "NonCaching", "reading": "Reading", "writing": "Writing"}[rest[1]]
        tag = f"(record {{ boot = {rest[2]}; number = {rest[3]} }})"
        rest = [rest[0], "Mode." + mode, tag] + rest[4:]
    elif kind == "A":
        rest = [rest[0], said(rest[1:])]
    elif kind not in ("S", "L", "F", "B", "Z"):
        raise ValueError("an entry is not of the grammar")
    return " ".join([constructor, incarnation] + rest)


def journal(text, indent=INDENT):
    """A journal as a list of entries, the newest first."""
    version, lines = ends_of(text, "journal")
    return wrapped(reversed([entry(line, version) for line in lines]), indent)


def call(words):
    """A call of a user; a value stands for the block that is filled with it."""
    kind, rest = words[0], words[1:]
    if kind in ("write", "put"):
        constructor = "Write" if kind == "write" else "Put"
        return f"(Call.{constructor} {rest[0]} {rest[1]} (filled {rest[2]}))"
    return told(words).replace("Told.", "Call.")


def clock_tick(party):
    return "Event.ServerTick" if party == "s" else f"(Event.ClientTick {party})"


def line_of(line, version):
    """A line of a schedule between `begin` and `end`."""
    kind, *words = line.split(" ")
    if kind == "call":
        return f"one (Event.Call {words[0]} {call(words[1:])})"
    if kind == "deliver":
        return f"one (Event.Deliver {words[0]})"
    if kind == "tick":
        return f"times {words[1]} {clock_tick(words[0])}"
    if kind == "round":
        return f"round {words[0]}"
    if kind == "flow":
        return "flow"
    if kind == "restart":
        return f"one (Event.Restart {words[0]})"
    if kind == "crash":
        longest = VERSION_1_LONGEST if version == 1 else words[0]
        return f"one (Event.Crash {longest})"
    raise ValueError("a line is not of the grammar")


def schedule(text, indent=INDENT):
    """A schedule's head and its lines, in their order."""
    version, lines = ends_of(text, "schedule")
    begin = lines.index("begin")
    facts = [line.split(" ") for line in lines[:begin]]
    longest = VERSION_1_LONGEST
    files = []
    for words in facts:
        if words[0] == "longest":
            longest = words[1]
        elif words[0] == "file":
            files.append(f"({name(words[1])}, {words[2]})")
    numbers = {words[0]: words[1] for words in facts if words[0] in ("hosts", "term")}
    head = (
        f"record {{ hosts = {numbers['hosts']}; term = {numbers['term']}; "
        f"longest = {longest}; files = {listed(files)} }}"
    )
    return head, wrapped([line_of(line, version) for line in lines[begin + 1 :]], indent)


PRELUDE = {
    "ℕ": "ℕ",
    "List": "List",
    "[]": "[]",
    "◌∷◌": "∷",
    "Some": "Some",
    "None": "None",
    "true": "true",
    "false": "false",
}
TYPES = ("Call", "Entry", "Event", "Mode", "Said", "Told")


def words_of(body):
    """The words of a module, without its comments."""
    lines = [line for line in body.split("\n") if not line.startswith("--")]
    return set(re.split(r"[\s();,]+", "\n".join(lines)))


def imports(body):
    """The `use` lines that a module of this body needs."""
    words = words_of(body)
    names = [name for name, word in PRELUDE.items() if word in words]
    lines = [f"use Rattle.std.specs.Prelude.{{{', '.join(names)}}}"]
    if "filled" in words:
        lines.append("use Rattle.nq_base.specs.Block.{filled}")
    for kind in TYPES:
        if any(word == kind or word.startswith(kind + ".") for word in words):
            lines.append(f"use Rattle.nq_base.specs.declared.{kind}.{{{kind}}}")
    if "Example" in words:
        lines.append("use Rattle.nq_laws.specs.Example.{Example}")
        constructors = [word for word in ("one", "times", "round", "flow") if word in words]
        if constructors:
            lines.append(f"use Rattle.nq_model.specs.protocol.Lines.{{{', '.join(constructors)}}}")
    return "\n".join(lines) + "\n"


def words_in(path):
    """What a file's name says, in words."""
    return os.path.splitext(os.path.basename(path))[0].replace("-", " ")


def identifier(path):
    return words_in(path).replace(" ", "_")


def read(path):
    with open(path, encoding="ascii") as source:
        return source.read()


def definition(path, kind, term):
    name_of_it = identifier(path)
    return f"\n-- {words_in(path)}\nabbrev pub {name_of_it} : {kind}\n{name_of_it} ={term}\n"


def list_of_all(name_of_it, kind, paths):
    names = wrapped([identifier(path) for path in paths])
    return f"\n-- all of these\nabbrev pub {name_of_it} : List {kind}\n{name_of_it} =\n{INDENT}{names}\n"


def journals(list_name, paths):
    """A module of journals."""
    parts = [definition(path, "List Entry", f"\n{INDENT}{journal(read(path))}") for path in paths]
    return "".join(parts) + list_of_all(list_name, "(List Entry)", paths)


def example(path):
    """A schedule with its journal."""
    indent = INDENT + "  "
    head, lines = schedule(read(path), indent)
    entries = journal(read(os.path.splitext(path)[0] + ".journal"), indent)
    fields = [f"head = {head}", f"lines =\n{indent}{lines}", f"journal =\n{indent}{entries}"]
    return " record {\n" + "".join(f"  {field};\n" for field in fields) + "}"


def examples(list_name, paths):
    """A module of schedules with their journals."""
    parts = [definition(path, "Example", example(path)) for path in paths]
    return "".join(parts) + list_of_all(list_name, "Example", paths)


def module(kind, list_name, paths):
    """A whole module, of journals or of schedules with their journals."""
    body = (journals if kind == "journals" else examples)(list_name, paths)
    return imports(body) + body


def texts_of(pattern, numbers):
    """The files of examples/ of this pattern, in order, or those of them that have one of these numbers."""
    paths = sorted(glob.glob(os.path.join(TOP, "examples", pattern)))
    return [path for path in paths if not numbers or int(re.sub(r"\D", "", os.path.basename(path))) in numbers]


def check():
    """Says which modules of nq_laws::examples are not what is made of the texts now, and how many."""
    differing = 0
    for file, list_name, pattern, numbers in MODULES:
        kind = "journals" if pattern.endswith(".journal") else "examples"
        with open(os.path.join(TOP, "crates/nq_laws/specs", file + ".antt"), encoding="utf-8") as there:
            if there.read() != module(kind, list_name, texts_of(pattern, numbers)):
                differing += 1
                print(f"{file}.antt is not made of examples/{pattern}")
    return 1 if differing else 0


def main():
    asked = argparse.ArgumentParser(description=__doc__, formatter_class=argparse.RawDescriptionHelpFormatter, usage="terms.py ..")
    asked.add_argument("--check", action="store_true", help="compare the modules of nq_laws::examples with the texts of examples/")
    asked.add_argument("words", nargs="*", help="what is made, and of which files")
    said = asked.parse_args()
    words = said.words
    if said.check and not words:
        return check()
    if len(words) == 2 and words[0] == "journal":
        print(journal(read(words[1])))
    elif len(words) == 2 and words[0] == "schedule":
        print("\n".join(schedule(read(words[1]))))
    elif len(words) > 2 and words[0] in ("journals", "examples"):
        print(module(words[0], words[1], words[2:]), end="")
    else:
        asked.error("nothing is made of these words")
    return 0


if __name__ == "__main__":
    sys.exit(main())
