#!/usr/bin/env python3
"""Tries what the pages say: runs their commands in a fresh clone, compares what these print, and follows the links.

    readme.py            runs the commands of README.md, docs/ and examples/README.md, but for the slow ones
    readme.py --slow     runs `rt ci` there, and then the slow ones too, which want what it builds; one that serves is stopped after a while
    readme.py --links    follows the links, and runs no command

It always asks `crates.py --check` and `terms.py --check`, whether crates.txt and the modules of the examples are as they have to be.

A command stands in a block that begins with ```sh, a slow one in a block that begins with ```sh slow. A block that begins
with ```text and follows it shows what it prints. Each command begins at the top of the clone. The clone has what is
committed, so commit a page before you try it. The status is 1 where a command fails, prints something else, or a link leads
nowhere.
"""

import argparse
import glob
import os
import re
import signal
import subprocess
import sys
import tempfile

# After so many seconds a slow command that goes on is stopped.
SERVES = 60

TOP = os.path.normpath(os.path.join(os.path.dirname(os.path.abspath(__file__)), ".."))
BLOCK = re.compile(r"^```([^\n]*)\n(.*?)^```$", re.MULTILINE | re.DOTALL)
LINK = re.compile(r"\[[^\]]*\]\(([^)#\s]+)[^)]*\)")


def pages():
    """The pages, by their paths from the top."""
    paths = ["README.md", "examples/README.md"] + glob.glob("docs/*.md", root_dir=TOP)
    return sorted(path for path in paths if os.path.exists(os.path.join(TOP, path)))


def text_of(page):
    with open(os.path.join(TOP, page), encoding="utf-8") as page_file:
        return page_file.read()


def commands_of(page):
    """The commands of a page: each with whether it is slow, and with what the page says that it prints, if it does."""
    found = []
    for words, body in BLOCK.findall(text_of(page)):
        if words.split()[:1] == ["sh"]:
            found.append([body, "slow" in words.split(), None])
        elif words == "text" and found and found[-1][2] is None:
            found[-1][2] = body
    return found


def wrong_links(page):
    """The links of a page that lead to no file."""
    here = os.path.join(TOP, os.path.dirname(page))
    links = [link for link in LINK.findall(text_of(page)) if "://" not in link]
    return [link for link in links if not os.path.exists(os.path.join(here, link))]


def fault_of(command, shown, clone, slow):
    """What is wrong with a command, or None. A slow one that goes on serves: it has to have printed something."""
    how = {"cwd": clone, "stdout": subprocess.PIPE, "stderr": subprocess.PIPE, "text": True, "start_new_session": True}
    with subprocess.Popen(["bash", "-c", command], **how) as run:
        try:
            printed, complaint = run.communicate(timeout=SERVES if slow else None)
        except subprocess.TimeoutExpired:
            os.killpg(run.pid, signal.SIGKILL)
            return None if run.communicate()[0] else "prints nothing"
    if run.returncode != 0:
        return f"ends with status {run.returncode}:\n{complaint[-2000:]}"
    if shown is not None and printed != shown:
        return f"prints\n{printed}and the page shows\n{shown}"
    return None


def wrong_lists():
    """What is not as it has to be of what scripts write."""
    for script in ("crates.py", "terms.py"):
        done = subprocess.run([sys.executable, os.path.join(TOP, "tools", script), "--check"], capture_output=True, text=True)
        if done.returncode != 0:
            yield f"tools/{script} --check says\n{done.stdout}{done.stderr[-2000:]}"


def main():
    asked = argparse.ArgumentParser(description=__doc__.splitlines()[0])
    asked.add_argument("--slow", action="store_true", help="run the slow commands too")
    asked.add_argument("--links", action="store_true", help="run no command")
    said = asked.parse_args()
    faults = [f"{page}: no file at {link}" for page in pages() for link in wrong_links(page)]
    faults += wrong_lists()
    if not said.links:
        with tempfile.TemporaryDirectory() as folder:
            clone = os.path.join(folder, "clone")
            subprocess.run(["git", "clone", "--quiet", TOP, clone], check=True)
            if said.slow:
                subprocess.run([".ci/run"], cwd=clone, check=True, stdout=subprocess.DEVNULL)
            for page in pages():
                for command, slow, shown in commands_of(page):
                    if slow and not said.slow:
                        print(f"{page}: left out, slow: {command.strip()}")
                        continue
                    print(f"{page}: {command.strip()}", flush=True)
                    fault = fault_of(command, shown, clone, slow)
                    if fault is not None:
                        faults.append(f"{page}: {command.strip()}\n{fault}")
    print("\n".join(faults) if faults else "all is as the pages say")
    return 1 if faults else 0


if __name__ == "__main__":
    sys.exit(main())
