#!/usr/bin/env python3
"""Refuses memory to the built program, once in a run, and looks how the run ends.

  tools/memory.py [--program FILE] [SCHEDULE]

It builds a few lines of C over `malloc`, which refuse the request for memory that has a given number, and replays a schedule once for each number
that a run without a refusal has (`examples/write-sharing.schedule`, if none is said). A run has to print the journal and end with status 0, or print a
front of it and end with status 7. It needs `cc`. The program is built before, in `crates/nqnfs` by `rt run`. The status is 1 where a run ends
otherwise. The gate does not run this.
"""

import argparse
import collections
import os
import pathlib
import subprocess
import sys
import tempfile

ROOT = pathlib.Path(__file__).resolve().parent.parent

# Refuses the request whose number is in the environment, and writes how many there were at the end.
REFUSING = r"""
#include <errno.h>
#include <stdio.h>
#include <stdlib.h>
void *__libc_malloc(size_t), *__libc_calloc(size_t, size_t), *__libc_realloc(void *, size_t), *__libc_memalign(size_t, size_t);
static long made = 0, refused = -1;
__attribute__((constructor)) static void begin(void) { refused = atol(getenv("REFUSED")); made = 0; }
__attribute__((destructor)) static void end(void) { fprintf(stderr, "%ld\n", made); }
static int refuse(void) { return made++ == refused; }
void *malloc(size_t size) { return refuse() ? NULL : __libc_malloc(size); }
void *calloc(size_t count, size_t size) { return refuse() ? NULL : __libc_calloc(count, size); }
void *realloc(void *old, size_t size) { return refuse() ? NULL : __libc_realloc(old, size); }
void *aligned_alloc(size_t align, size_t size) { return refuse() ? NULL : __libc_memalign(align, size); }
int posix_memalign(void **to, size_t align, size_t size) { *to = aligned_alloc(align, size); return *to ? 0 : ENOMEM; }
"""


def build(folder):
    """Builds what refuses memory."""
    source, made = folder / "refusing.c", folder / "refusing.so"
    source.write_text(REFUSING)
    subprocess.run(["cc", "-shared", "-fPIC", "-o", str(made), str(source)], check=True)
    return made


def replayed(program, schedule, refusing, number):
    """The status of a replay to which the request of a number is refused, what it printed, and how many requests it had."""
    around = {**os.environ, "LD_PRELOAD": str(refusing), "REFUSED": str(number)}
    ended = subprocess.run([program, "replay"], input=schedule, env=around, capture_output=True, check=False)
    return ended.returncode, ended.stdout, int(ended.stderr.split()[-1])


def main():
    words = argparse.ArgumentParser(description=__doc__.splitlines()[0])
    words.add_argument("--program", default=str(ROOT / "crates/nqnfs/out/nqnfs"))
    words.add_argument("schedule", nargs="?", type=pathlib.Path, default=ROOT / "examples/write-sharing.schedule")
    said = words.parse_args()
    schedule = said.schedule.read_bytes()
    ends, wrong = collections.Counter(), 0
    with tempfile.TemporaryDirectory() as folder:
        refusing = build(pathlib.Path(folder))
        status, journal, requests = replayed(said.program, schedule, refusing, -1)
        if status != 0 or not requests:
            print(f"without a refusal: status {status}, {requests} requests for memory")
            return 1
        for number in range(requests):
            status, printed, _ = replayed(said.program, schedule, refusing, number)
            ends[status, len(printed)] += 1
            if (status, printed) != (0, journal) and not (status == 7 and journal.startswith(printed)):
                wrong += 1
                print(f"request {number} refused: status {status}, and {len(printed)} bytes printed")
    for (status, length), times in sorted(ends.items()):
        print(f"status {status}, {length} of {len(journal)} bytes printed: {times} runs")
    print(f"{requests} requests for memory, each refused in a run; {wrong} runs that ended otherwise")
    return 1 if wrong else 0


if __name__ == "__main__":
    sys.exit(main())
