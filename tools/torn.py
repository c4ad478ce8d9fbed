#!/usr/bin/env python3
"""Tears what a server wrote and did not sync yet, and looks whether each torn image opens as what was kept before a change or after it.

  tools/torn.py [--program FILE] [--images N] [--seed S]

In a folder of its own it makes an empty image by `nqnfs format` and runs `nqnfs serve` on it under `strace`, which notes each write and each
sync of the image, while a client makes files and writes blocks. A stop at a moment may leave what stood on the
disk at the last sync before it, and of each write since then nothing, all of it, or a front with other bytes behind. The script makes N such
images (400) of moments by chance, and `nqnfs serve 1` opens each. Its status has to be 0, and the files and the rows of hosts are then those
before the change that was under way or those after it. The status is 1 where they are others. It needs `strace`. The program is built before,
in `crates/nqnfs` by `rt run`. The gate does not run this.
"""

import argparse
import bisect
import pathlib
import random
import re
import subprocess
import sys
import tempfile

ROOT = pathlib.Path(__file__).resolve().parent.parent
IMAGE = "nqnfs.img"

# Turns of the server, its longest term in seconds, and turns of the client for each call.
SERVER_TURNS, LONGEST, CLIENT_TURNS = "1000000", "5", "20000"
BLOCK, GATE, ROWS_OF_FILES, RECORD_END = 4096, 28672, 2112, 40960

# What the client calls for.
CALLS = ["create a 2", "create b 3", "write 1 1 7", "sync 1", "write 2 0 9", "write 2 2 8", "sync 2", "write 1 0 5", "write 1 1 6", "sync 1",
         "create c 5", "write 3 4 6", "write 3 0 4", "sync 3", "create d 2", "write 4 1 3", "sync 4"]


def number(image, place, size=4):
    return int.from_bytes(image[place : place + size], "big")


def block(image, physical):
    return bytes(image[RECORD_END + BLOCK * physical : RECORD_END + BLOCK * (physical + 1)])


def kept(image):
    """The id of the next file, the rows of hosts, and the files by id, of an image of version 2 whose record is closed."""
    tables = number(image, 24)
    ids = block(image, tables + 256)
    files = {}
    for row in range(256):
        at = ROWS_OF_FILES + 96 * row
        if number(image, at):
            count = number(image, at + 68)
            table = block(image, tables + row)
            bodies = [block(image, number(table, 4 * k) - 1) for k in range(count)]
            files[number(ids, 4 * row)] = (bytes(image[at : at + 68]), bytes(image[at + 76 : at + 84]), bodies)
    return number(image, 20), bytes(image[64:ROWS_OF_FILES]), files


class Tape:
    """What was done to the image: writes as (place, bytes), and syncs as None."""

    def __init__(self, log, first):
        self.first, self.events = first, []
        opened = None
        for line in log.read_text().splitlines():
            if found := re.search(r'openat\([^"]*"([^"]*)".* = (\d+)$', line):
                if bytes.fromhex(found[1].replace("\\x", "")).decode().endswith(IMAGE):
                    opened = found[2]
            elif found := re.search(r'pwrite64\((\d+), "([^"]*)", (\d+), (\d+)\) += (\d+)$', line):
                if found[1] == opened:
                    content = bytes.fromhex(found[2].replace("\\x", ""))[: int(found[5])]
                    self.events.append((int(found[4]), content))
            elif found := re.search(r"(?:fsync|fdatasync)\((\d+)\) += 0$", line):
                if found[1] == opened:
                    self.events.append(None)

    def images(self):
        """The bytes after each event, and before the first one."""
        image = bytearray(self.first)
        yield bytes(image)
        for event in self.events:
            if event:
                put(image, *event)
            yield bytes(image)

    def torn(self, moment, chance):
        """An image that a stop after so many events may leave."""
        synced = max((k + 1 for k, event in enumerate(self.events[:moment]) if event is None), default=0)
        image = bytearray(self.first)
        for event in self.events[:synced]:
            if event:
                put(image, *event)
        for place, content in self.events[synced:moment]:
            came = chance.choice((0, len(content), chance.randrange(len(content) + 1)))
            put(image, place, content[:came])
            wild = chance.choice((0, 0, min(len(content) - came, chance.randrange(1, 9))))
            put(image, place + came, bytes(chance.randrange(256) for _ in range(wild)))
        return bytes(image)


def put(image, place, content):
    """Writes over a part of an image, with zeros before it where that is past the end."""
    if content:
        image.extend(bytes(max(0, place - len(image))))
        image[place : place + len(content)] = content


def run(program, folder):
    """Runs a server under strace while the client makes its calls. It gives what was done to the image."""
    subprocess.run([program, "format"], cwd=folder, check=True)
    image, log = folder / IMAGE, folder / "strace.log"
    first = image.read_bytes()
    words = ["strace", "-I", "2", "-xx", "-s", "1000000", "-e", "trace=openat,pwrite64,fsync,fdatasync", "-o", str(log), program, "serve", SERVER_TURNS, LONGEST]
    server = subprocess.Popen(words, cwd=folder, stdout=subprocess.DEVNULL)
    try:
        words = [program, "client", "0", "1", CLIENT_TURNS]
        answers = subprocess.run(words, cwd=folder, input="".join(f"{call}\n" for call in CALLS), capture_output=True, text=True, timeout=120)
    finally:
        server.terminate()
        server.wait()
    print(answers.stdout, end="")
    tape = Tape(log, first)
    *_, last = tape.images()
    if last != image.read_bytes():
        sys.exit("strace did not note all that was written")
    return tape


def opened(program, folder, image):
    """What is kept in an image once a server opened it, or what is wrong with it."""
    (folder / IMAGE).write_bytes(image)
    served = subprocess.run([program, "serve", "1", LONGEST], cwd=folder, capture_output=True, text=True, timeout=60)
    if served.returncode != 0:
        return f"status {served.returncode}, {served.stdout.strip()}"
    return kept((folder / IMAGE).read_bytes())


def main():
    parser = argparse.ArgumentParser(description=__doc__.splitlines()[0])
    parser.add_argument("--program", default=str(ROOT / "crates/nqnfs/out/nqnfs"))
    parser.add_argument("--images", type=int, default=400)
    parser.add_argument("--seed", type=int, default=1)
    given = parser.parse_args()
    program = str(pathlib.Path(given.program).resolve())
    chance = random.Random(given.seed)
    with tempfile.TemporaryDirectory() as name:
        folder = pathlib.Path(name)
        tape = run(program, folder)
        # The moments at which no change is under way: the gate was closed and that was synced.
        closed, states = [0], []
        for k in range(len(tape.events) - 1):
            if tape.events[k] == (GATE, b"\0") and tape.events[k + 1] is None:
                closed.append(k + 2)
        for moment, image in enumerate(tape.images()):
            if moment in set(closed):
                states.append(kept(image))
        before = after = 0
        for _ in range(given.images):
            moment = chance.randrange(len(tape.events) + 1)
            at = bisect.bisect_right(closed, moment) - 1
            found = opened(program, folder, tape.torn(moment, chance))
            if found == states[at]:
                before += 1
            elif at + 1 < len(states) and found == states[at + 1]:
                after += 1
            else:
                sys.exit(f"after {moment} of {len(tape.events)} writes and syncs a torn image does not open as it has to: {str(found)[:200]}")
    print(f"all right: {len(closed) - 1} changes of {len(tape.events)} writes and syncs; of {given.images} torn images {before} open as before the change that was under way, {after} as after it")


if __name__ == "__main__":
    main()
