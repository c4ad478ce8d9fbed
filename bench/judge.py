#!/usr/bin/env python3
"""Times `nqnfs check` on sound journals that no run gives, or that may cost more than their length.

    bench/judge.py [--program FILE] LINES..

For each kind of journal and each number of lines it prints the processor time in seconds, and what was said. With 64,000 lines a kind takes
up to some minutes.
"""
import argparse
import os
import random
import resource
import subprocess
import sys

TOP = os.path.normpath(os.path.join(os.path.dirname(os.path.abspath(__file__)), ".."))


def delayed(number, turn):
    """A delayed write of block 0 of file 1 by host 0, under this number of write and of call."""
    yield f"C 0 1 {turn} write 1 0 {turn}"
    if turn == 1:
        yield "G 0 1 1 writing 1 1 600 0"
    yield f"W 0 1 1 0 {number} {turn} delayed"
    yield f"A 0 1 {turn} ok"


def stores_in_any_order(lines):
    """Delayed writes of one block, stored one by one behind all of them, in any order."""
    count = lines // 4
    for turn in range(1, count + 1):
        yield from delayed(turn, turn)
    order = list(range(1, count + 1))
    random.Random(7).shuffle(order)
    for number in order:
        yield f"S 0 1 1 0 {number} {number} 0"


def stores_past_the_block(lines):
    """Delayed writes of one block, each stored by an S whose last number is no write of the block."""
    count = lines // 4
    for turn in range(1, count + 1):
        yield from delayed(2 * turn, turn)
    for turn in range(1, count + 1):
        yield f"S 0 1 1 0 {2 * turn} {2 * turn + 1} 0"


def late_puts(lines):
    """Puts of as many incarnations, stored one after another, and answered behind all of them."""
    for inc in range(1, lines // 4 + 1):
        yield f"C 0 {inc} 1 put 1 0 {inc}"
        yield f"W 0 {inc} 1 0 1 {inc} delayed"
        yield f"S 0 {inc} 1 0 1 1 0"
    for inc in range(1, lines // 4 + 1):
        yield f"A 0 {inc} 1 ok"


def syncs_of_falling_numbers(lines):
    """Eight delayed writes, whose numbers fall, one S for all of them, and a sync, again and again."""
    call, number = 0, lines
    while call * 3 < lines - 40:
        high = number
        for _ in range(8):
            call += 1
            yield from delayed(number, call)
            number -= 1
        call += 1
        yield f"C 0 1 {call} sync 1"
        yield f"S 0 1 1 0 {number + 1} {high} 0"
        yield f"A 0 1 {call} ok"


def losses_behind_an_early_end(lines):
    """Losses in turn. Behind the end of the first lease stands another, which came too early."""
    calls = {}
    for turn in range(lines // 8):
        host, block, now = turn % 62, turn % 64, 13 * turn
        calls[host] = calls.get(host, 0) + 2
        number = calls[host] // 2
        yield f"C {host} 1 {calls[host] - 1} write 1 {block} {turn + 1}"
        yield f"G {host} 1 1 writing 1 {turn + 1} 5 {now}"
        yield f"W {host} 1 1 {block} {number} {turn + 1} delayed"
        yield f"A {host} 1 {calls[host] - 1} ok"
        yield f"F {host} 1 1 {now + 8} {now} {now + 13}"
        if turn == 0:
            yield f"F {host} 1 1 {now + 8} {now} {now}"
        yield f"L {host} 1 1 {block} {number} {number}"
        yield f"C {host} 1 {calls[host]} sync 1"
        yield f"A {host} 1 {calls[host]} lost {block}:{number}-{number}"


def reads_over_delayed_writes(lines):
    """Delayed writes of one block that nothing stores, and as many reads by another host."""
    for turn in range(1, lines // 6 + 1):
        yield from delayed(turn, turn)
    for turn in range(1, lines // 6 + 1):
        yield f"C 1 1 {turn} fetch 1 0"
        yield f"R 1 1 {turn} 1 0 0 served {turn}"
        yield f"A 1 1 {turn} ok 0 by {turn}"


def one_call_read_often(lines):
    """One fetch that is executed again and again, and answered by the last packet."""
    yield "C 1 1 1 fetch 1 0"
    for packet in range(1, lines - 3):
        yield f"R 1 1 1 1 0 0 served {packet}"
    yield f"A 1 1 1 ok 0 by {lines - 4}"


KINDS = [
    stores_in_any_order,
    stores_past_the_block,
    late_puts,
    syncs_of_falling_numbers,
    losses_behind_an_early_end,
    reads_over_delayed_writes,
    one_call_read_often,
]


def judged(program, kind, lines):
    """The processor time of the judge, and what it says."""
    journal = "\n".join(["nqnfs-journal 1", *kind(lines), "end", ""])
    before = resource.getrusage(resource.RUSAGE_CHILDREN).ru_utime
    said = subprocess.run([program, "check"], input=journal, capture_output=True, text=True)
    return resource.getrusage(resource.RUSAGE_CHILDREN).ru_utime - before, said.stdout.strip()


def main():
    words = argparse.ArgumentParser(description=__doc__.splitlines()[0])
    words.add_argument("--program", default=os.path.join(TOP, "crates/nqnfs/out/nqnfs"))
    words.add_argument("lines", nargs="+", type=int)
    given = words.parse_args()
    failed = False
    for kind in KINDS:
        for lines in given.lines:
            took, said = judged(given.program, kind, lines)
            failed = failed or said != "yes"
            print(f"{kind.__name__.replace('_', ' '):32} {lines:9,} {took:8.2f} {said}", flush=True)
    return 1 if failed else 0


if __name__ == "__main__":
    sys.exit(main())
