#!/usr/bin/env python3
"""Merges the diaries of a server and of hosts on one machine into one journal, which `nqnfs check` can judge.

  tools/merge.py SERVER_DIARY HOST_DIARY .. [--image NANOS FILE]

`nqnfsd --journal FILE` and `nqnfs_host --journal FILE` note what each turn did, behind the nanoseconds of the machine's clock. The moment of a note
lies behind what the turn took in, and before anything that came of it is sent. So in the order of these moments no effect stands before its
cause. The journal is printed. In it the ticks of each boot go on from those of the boots before, and the packets in which reads were served are
numbered through: an answer that names a packet gets the number of the last read of its call and value that was served before it.

A server that is killed may have kept a step that it had not noted yet, and whose answer nobody got. `--image` tells what it had kept when it was
dead: the moment, and a copy of the image. Where a block there has another value than the notes tell, the one write or store that a client had
under way with this value is added, as the last that this boot did. Each such entry is told on the standard error.
"""

import argparse
import pathlib
import struct
import sys

BLOCK, FIRST_BLOCK = 4096, 40960
# Where among the words of an entry its ticks stand.
TICKS = {"G": (8,), "F": (4, 5, 6), "O": (2, 3, 4), "S": (7,), "X": (2,)}


class Fault(Exception):
    """A diary or an image that cannot be one."""


def notes_in(path):
    """The notes of a diary: each moment, and the words of its entries. A note that was cut off at the end is left out."""
    moment, entries, notes = None, [], []
    text = pathlib.Path(path).read_text()
    for line in text.splitlines(keepends=True):
        if not line.endswith("\n"):
            break
        words = line.split()
        if words[0] == "at":
            moment, entries = int(words[1]), []
        elif words[0] == "end":
            notes.append((moment, entries))
        elif words[0] != "nqnfs-journal":
            entries.append(words)
    return notes


def span(words):
    """Who, file and block of an entry of a block, and its first and last number."""
    return (words[1], words[2], words[3], words[4]), int(words[5]), int(words[6])


class Kept:
    """What a server keeps by the notes: the value of each block, and what its clients wrote."""

    def __init__(self):
        self.values, self.writes, self.covered, self.calls, self.numbers = {}, {}, {}, {}, {}

    def takes(self, words):
        """Takes in an entry."""
        kind = words[0]
        if kind == "C":
            self.calls[words[1], words[2]] = words[3:]
        elif kind == "A":
            self.calls.pop((words[1], words[2]), None)
        elif kind == "W":
            who, number = (words[1], words[2]), int(words[5])
            self.numbers[who] = max(self.numbers.get(who, 0), number)
            if words[7] == "through":
                self.values[words[3], words[4]] = words[6]
            else:
                self.writes.setdefault((*who, words[3], words[4]), []).append((number, words[6]))
        elif kind in "SL":
            place, _, last = span(words)
            self.covered[place] = max(self.covered.get(place, 0), last)
            if kind == "S":
                self.values[place[2:]] = next((value for number, value in self.writes.get(place, []) if number == last), None)
        elif kind == "Z":
            self.values = {place: value for place, value in self.values.items() if place[0] != words[4] or int(place[1]) < int(words[6])}

    def step_with(self, file, block, value, tick):
        """The entry that a client had under way which leaves this value in a block, if there is one."""
        for (host, inc), (_, name, *rest) in self.calls.items():
            if name in ("put", "write") and rest == [file, block, value]:
                return ["W", host, inc, file, block, str(self.numbers.get((host, inc), 0) + 1), value, "through"]
        for place, writes in self.writes.items():
            if place[2:] != (file, block):
                continue
            left = [(number, written) for number, written in writes if number > self.covered.get(place, 0)]
            for number, written in left:
                if written == value:
                    return ["S", *place, str(left[0][0]), str(number), str(tick)]
        return None


def values_in(path):
    """The value of each block of each file in an image, by the file's id and the block's number, as docs/image.md tells."""
    disk = bytearray(pathlib.Path(path).read_bytes())
    if disk[:8] != b"NQNFSIM2":
        raise Fault(f"{path} is no image of version 2")
    number = lambda place: struct.unpack_from(">I", disk, place)[0]
    if disk[28672] == 1:
        place = 28672 + 16
        for _ in range(number(28680)):
            (begin,), size = struct.unpack_from(">Q", disk, place), number(place + 8)
            disk[begin : begin + size] = disk[place + 12 : place + 12 + size]
            place += 12 + size
    tables = number(24)
    at = lambda block: FIRST_BLOCK + BLOCK * block
    values = {}
    for row in range(256):
        head = 2112 + 96 * row
        if number(head):
            file = number(at(tables + 256) + 4 * row)
            for block in range(number(head + 68)):
                values[str(file), str(block)] = str(number(at(number(at(tables + row) + 4 * block) - 1)))
    return values


def steps_in_doubt(kept, image, tick, told):
    """The entries of what an image has and the notes have not."""
    steps = []
    for place, value in values_in(image).items():
        if value != (kept.values.get(place) or "0"):
            step = kept.step_with(*place, value, tick)
            if step is None:
                raise Fault(f"{image}: block {place[1]} of file {place[0]} has {value}, and the notes tell {kept.values.get(place)}")
            steps.append(step)
            told(f"{image}: kept and not noted: {' '.join(step)}")
    if len(steps) > 1:
        raise Fault(f"{image}: {len(steps)} steps were kept and not noted, and a server takes one at a time")
    return steps


class Merging:
    """One journal that grows."""

    def __init__(self, told):
        self.lines, self.kept, self.told = [], Kept(), told
        self.base = self.tick = self.packet = 0
        self.served = {}

    def adds(self, words):
        """Adds an entry, with its ticks and packets as they are in the journal."""
        words = list(words)
        if words[0] == "X":
            self.base = self.tick
        for place in TICKS.get(words[0], ()):
            words[place] = str(self.base + int(words[place]))
            self.tick = max(self.tick, int(words[place]))
        if words[0] == "R" and words[7] == "served":
            self.packet += 1
            words[8] = str(self.packet)
            self.served[words[1], words[2], words[3], words[6]] = words[8]
        if words[0] == "A" and "by" in words:
            words[7] = self.served.get((words[1], words[2], words[3], words[5]), words[7])
        self.kept.takes(words)
        self.lines.append(" ".join(words))

    def looks(self, image):
        """Takes in what a server kept that is dead now."""
        for step in steps_in_doubt(self.kept, image, self.tick, self.told):
            self.kept.takes(step)
            self.lines.append(" ".join(step))


def merged(server, hosts, images, told):
    """The journal of these diaries; images are pairs of a moment and a path."""
    happened = [(moment, 0, entries) for moment, entries in notes_in(server)]
    for place, host in enumerate(hosts, 1):
        happened += [(moment, place, entries) for moment, entries in notes_in(host)]
    happened += [(moment, -1, path) for moment, path in images]
    happened.sort(key=lambda event: event[:2])
    merging = Merging(told)
    for _, place, what in happened:
        if place < 0:
            merging.looks(what)
        else:
            for words in what:
                merging.adds(words)
    return "".join(f"{line}\n" for line in ["nqnfs-journal 2", *merging.lines, "end"])


def main():
    parser = argparse.ArgumentParser(description=__doc__.splitlines()[0])
    parser.add_argument("server")
    parser.add_argument("hosts", nargs="*")
    parser.add_argument("--image", nargs=2, action="append", default=[], metavar=("NANOS", "FILE"))
    given = parser.parse_args()
    images = [(int(moment), path) for moment, path in given.image]
    try:
        print(merged(given.server, given.hosts, images, lambda line: print(line, file=sys.stderr)), end="")
    except Fault as fault:
        sys.exit(str(fault))


if __name__ == "__main__":
    main()
