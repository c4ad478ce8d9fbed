#!/usr/bin/env python3
"""Tries wrong bodies: each edit of wrong.edits is made in a copy of its crate, and the prover has to refuse it.

    wrong.py                tries all of them, one crate after another
    wrong.py CRATE ..       those of these crates
    wrong.py --only WORD    those of which the first line has this word
    wrong.py --look         proves nothing, and says which edits no longer fit the files
    wrong.py --over FOLDER  takes the libraries below from another checkout of the same text

It takes the libraries that `rt ci` left in crates/*/out, so run that before. Edits of a crate that touch different functions are tried together,
in a check of these functions; one that is still proved there is tried alone, and then in a check of the whole crate. For each edit it says
at which function and clauses the prover stopped, and `elsewhere` where these are other ones than wrong.edits says.
It ends with status 1 where an edit is still proved, could not be tried, was refused elsewhere, or only since a proof names what it took away.
"""

import argparse
import os
import re
import shutil
import subprocess
import sys
import tempfile

TOP = os.path.abspath(os.path.join(os.path.dirname(os.path.abspath(__file__)), ".."))
EDITS = os.path.join(TOP, "tools", "wrong.edits")
FUNCTION = re.compile(r"^\s*(?:pub(?:\(crate\))?\s+)?fn\s+(\w+)", re.M)
IMPL = re.compile(r"^impl(?:<.*?>)?\s+(?:(\w+)(?:<.*?>)?\s+for\s+)?(\w+)(?:<.*>)?\s*\{|^\}", re.M)


def read_edits():
    """The edits: for each a dictionary with what it does, its crate, what refuses it, its file and its pairs of texts."""
    edits = []
    with open(EDITS) as text:
        for line in text.read().splitlines():
            word, _, rest = line.partition(": ")
            if line.startswith("#") or not line:
                continue
            if word == "does":
                edits.append({"does": rest, "pairs": []})
            elif word == "old":
                edits[-1]["pairs"].append([rest, None])
            elif word == "new":
                edits[-1]["pairs"][-1][1] = rest
            else:
                edits[-1][word] = rest
    return edits


def crates_of(top):
    """The crates of a checkout in their order, each with the libraries that it names."""
    crates = {}
    with open(os.path.join(top, "crates.txt")) as text:
        for line in text:
            line = line.partition("#")[0].strip()
            if line:
                name, _, below = line.partition(":")
                crates[name.split()[0]] = below.split()
    return crates


def content_of(edit):
    """The text of an edit's file, or None where it is not there."""
    path = os.path.join(TOP, "crates", edit["crate"], edit["file"])
    if not os.path.exists(path):
        return None
    with open(path) as text:
        return text.read()


def made(edit, content):
    """A text with an edit made in it, and why that cannot be, if it cannot."""
    if content is None:
        return None, "its file is not there"
    for old, new in edit["pairs"]:
        if content.count(old) != 1:
            return None, f"a text stands {content.count(old)} times: {old.strip()}"
        content = content.replace(old, new)
    return content, None


def misfit(edit):
    """Why an edit does not fit its file, if it does not."""
    return made(edit, content_of(edit))[1]


def named_function(edit):
    """The function that an edit says to refuse it."""
    return edit["refused by"].partition(",")[0].strip("`")


def function_of(edit):
    """The function that an edit touches; the one that refuses it, where it touches a constant."""
    content, old = content_of(edit), edit["pairs"][0][0]
    if old.startswith("const "):
        return named_function(edit)
    place = content.index(old)
    names = [found.group(1) for found in FUNCTION.finditer(content) if found.start(1) <= place]
    return names[-1] if names else ""


def module_of(edit):
    """The module that an edit touches; empty for the root."""
    path = edit["file"][len("src/"):-len(".rt")]
    return "" if path in ("lib", "main") else path.replace("/", "::")


def path_of(edit):
    """The end of the name that the prover gives to the function that an edit touches. A method's has its type, and not the module of its impl."""
    content, around = content_of(edit), ""
    for found in IMPL.finditer(content, 0, content.index(edit["pairs"][0][0])):
        around = f"{found.group(2)}{found.group(1) or ''}" if found.group(2) else ""
    before = around or module_of(edit)
    return f"{before}::{function_of(edit)}" if before else function_of(edit)


def groups_of(edits):
    """The edits of a crate in groups, with the texts that each group makes: no two of a group touch one function."""
    while edits:
        texts, group, later, touched = {}, [], [], set()
        for edit in edits:
            place = (edit["file"], function_of(edit))
            text, why = made(edit, texts.get(edit["file"]) or content_of(edit))
            if place in touched or why:
                later.append(edit)
                continue
            touched.add(place)
            group.append(edit)
            texts[edit["file"]] = text
        yield group, texts
        edits = later


def below(crates, name):
    """All libraries of the checkout on which a crate stands."""
    found = []
    for one in crates[name]:
        if one in crates and one not in found:
            found += [one] + [it for it in below(crates, one) if it not in found and it != one]
    return list(dict.fromkeys(found))


def words_of(over, crate):
    """The words with which the prover checks a crate over the libraries of a checkout."""
    kit = os.path.dirname(subprocess.run(["rt", "doc"], capture_output=True, text=True, check=True).stdout.strip())
    crates = crates_of(TOP)
    rlib = lambda name: os.path.join(over, "crates", name, "out", "rlib", f"{name}.rlib")
    lacking = [name for name in below(crates, crate) if not os.path.isdir(rlib(name))]
    if lacking:
        sys.exit(f"wrong.py: {rlib(lacking[0])} is not there: run `rt ci` before")
    root = "src/main.rt" if os.path.exists(os.path.join(TOP, "crates", crate, "src", "main.rt")) else "src/lib.rt"
    words = [f"{kit}/bin/rattle", "check", "--crate-name", crate, root, "--jobs", "1", "-L", f"dependency={kit}/rlibs"]
    for name in [*crates[crate], "std"]:
        words += ["--extern", f"{name}={rlib(name) if name in crates else f'{kit}/rlibs/{name}.rlib'}"]
    for name in below(crates, crate):
        words += ["-L", f"dependency={os.path.dirname(rlib(name))}"]
    return words + ["--antt-project", f"{kit}/rattle/logic/antt-project.json", "--logic-built", f"{kit}/logic_built"]


def checked(over, crate, texts, paths):
    """What the prover says of a crate with these texts in place of its own: of these functions and modules, or of all of it where none are named."""
    with tempfile.TemporaryDirectory(prefix="wrong-") as room:
        for part in ("src", "specs", "proofs"):
            folder = os.path.join(TOP, "crates", crate, part)
            if os.path.isdir(folder):
                shutil.copytree(folder, os.path.join(room, part))
        for path, text in texts.items():
            with open(os.path.join(room, path), "w") as out:
                out.write(text)
        only = [word for path in paths for word in ("--only", path)]
        ran = subprocess.run(words_of(over, crate) + only, cwd=room, stdin=subprocess.DEVNULL, capture_output=True, text=True, errors="replace")
    return ran.stdout + ran.stderr


def is_verdict(said):
    """Whether the prover came to an end."""
    return re.search(r"^(only=\d+ proved=\d+|logic=(not-)?proved)", said, re.M) is not None


def stopped_at(edit, said):
    """The goals of the edited function at which the prover stopped, and other functions that are not proved; None where it did not stop there."""
    goals, others = None, []
    for name, why in re.findall(r"^fn (\S+): (?:not proved|no proof|could not tell)(.*)$", said, re.M):
        if "it calls" in why:
            continue
        if f"::{name}".endswith(f"::{path_of(edit)}"):
            goals = re.findall(r"`([^`]+)`", why.partition("did not prove")[2])
        else:
            others.append(f"{name.split('::')[-1]}{why}")
    if goals is None:
        return None, others
    content = content_of(edit)
    starts = [(content.count("\n", 0, found.start(1)) + 1, found.group(1)) for found in FUNCTION.finditer(content)]
    for file, line, goal in re.findall(r"^note: (src/\S+?):(\d+):\d+: it is not proved .*?\(`([^`]+)`\)", said, re.M):
        names = [name for start, name in starts if start <= int(line)]
        if file == edit["file"] and names and names[-1] == function_of(edit):
            goals.append(goal)
    return list(dict.fromkeys(goals + unfit(edit, said))), others


def unfit(edit, said):
    """The goals of the edited function that its written proof no longer fits, but for those of which it names what the edit took away."""
    file = f"/{path_of(edit).replace('::', '/')}/"
    found = re.findall(r"^\./(proofs/\S+?)[^/]*\.antt:\d+:\d+: error: `([^`]+)`: (.*)$", said, re.M)
    gone = "has no field|is not in scope|has no `|was not admitted"
    return [goal for place, goal, why in found if f"/{place}".endswith(file) and not re.search(gone, why)]


def place_told(edit, goals):
    """How the place at which the prover stopped stands to the one that the edit tells."""
    clause = edit["refused by"].partition(", ")[2]
    if named_function(edit) != function_of(edit):
        return "elsewhere"
    clauses = re.findall(r"-clause-([a-z_]+)", " ".join(goals))
    return "" if clause == "its contract" or not clauses or clause in clauses else "elsewhere"


def verdict_of(edit, said):
    """What comes of an edit: a verdict in words, and whether it is as it has to be."""
    goals, _ = stopped_at(edit, said)
    if goals is None:
        return "STILL PROVED", False
    if not goals:
        return f"refused at {function_of(edit)} only since its proof names what is gone", False
    place = place_told(edit, goals)
    return f"refused{', ' + place if place else ''} at {function_of(edit)}: {', '.join(goals)}", not place


def try_in_crate(over, edit):
    """Tries an edit in a check of the whole crate: whether the prover refuses another function for it."""
    said = checked(over, edit["crate"], {edit["file"]: made(edit, content_of(edit))[0]}, [])
    if not is_verdict(said):
        return "not tried: " + " ".join(said.split())[:300], False
    goals, others = stopped_at(edit, said)
    if goals is None and others:
        return f"refused, elsewhere at {'; '.join(others)[:200]}", False
    return verdict_of(edit, said)


def try_group(over, crate, group, texts):
    """Tries the edits of a group together, and gives each with its verdict. One that may wait for another of them is tried without them."""
    said = checked(over, crate, texts, sorted({path_of(edit) for edit in group}))
    for edit in group:
        if is_verdict(said) and stopped_at(edit, said)[0] is not None:
            yield edit, *verdict_of(edit, said)
        elif len(group) > 1:
            yield from try_group(over, crate, [edit], {edit["file"]: made(edit, content_of(edit))[0]})
        elif is_verdict(said):
            yield edit, *try_in_crate(over, edit)
        else:
            yield edit, "not tried: " + " ".join(said.split())[:300], False


def main():
    asked = argparse.ArgumentParser(description=__doc__, formatter_class=argparse.RawDescriptionHelpFormatter)
    asked.add_argument("crates", metavar="CRATE", nargs="*", help="a crate whose edits are tried")
    asked.add_argument("--only", metavar="WORD", default="", help="only the edits of which the first line has this word")
    asked.add_argument("--look", action="store_true", help="only say which edits no longer fit the files")
    asked.add_argument("--over", metavar="FOLDER", default=TOP, help="a checkout in which `rt ci` ran over the same text")
    said = asked.parse_args()
    edits = [edit for edit in read_edits() if not said.crates or edit["crate"] in said.crates]
    edits = [edit for edit in edits if said.only in edit["does"]]
    missed = 0
    for edit in edits:
        edit["why"] = misfit(edit)
        if edit["why"]:
            missed += 1
            print(f"{edit['crate']}: does not fit: {edit['does']}: {edit['why']}")
    if said.look:
        return 1 if missed else 0
    for crate in crates_of(TOP):
        mine = [edit for edit in edits if edit["crate"] == crate and not edit["why"]]
        for group, texts in groups_of(mine):
            for edit, verdict, is_well in try_group(said.over, crate, group, texts):
                missed += not is_well
                print(f"{crate}: {verdict}: {edit['does']} ({edit['refused by']})", flush=True)
    print(f"{len(edits)} edits, {missed} not refused as they should be")
    return 1 if missed else 0


if __name__ == "__main__":
    sys.exit(main())
