#!/usr/bin/env python3
"""Writes a schedule that keeps clients caching through losses, repeats, skew at its edge, restarts and crashes.

  tools/caching.py [--program FILE] [--start N] [--events N] [--hosts N] [--term N]

The schedule follows from the number that it starts with, and is printed. The program's `replay` is asked after each event which
packets were sent and which hosts wait for an answer, and whether the server's clock may tick, so every event is taken in. What the
journal has of leases and caches is told on the standard error. The status is 1 where no read was answered from a cache after the last
crash.
"""

import argparse
import pathlib
import random
import subprocess
import sys

ROOT = pathlib.Path(__file__).resolve().parent.parent

# How often each kind of event comes, and while a server recovers.
CALM = {"deliver": 44, "call": 44, "tick": 6, "lose": 2, "repeat": 5, "restart": 0.6, "crash": 0.3}
RECOVERING = {"deliver": 40, "call": 6, "round": 50, "lose": 2, "repeat": 2}
CALLS = {"read": 60, "write": 28, "put": 4, "sync": 8}


class Refused(Exception):
    """The program did not take an event in."""


class Storm:
    """A schedule that grows, and what the program tells of it."""

    def __init__(self, program, start, hosts, term):
        self.program, self.random = program, random.Random(start)
        self.hosts, self.term = hosts, term
        self.files = [(f"file{n}", 2 + n % 3) for n in range(hosts)] + [("common", 4)]
        self.head = ["nqnfs-schedule 1", f"hosts {hosts}", f"term {term}"]
        self.head += [f"file {name} {blocks}" for name, blocks in self.files] + ["begin"]
        self.events, self.journal = [], []
        self.sent, self.fresh, self.recovering = 0, 0, 0

    def asked(self, more):
        """The journal of the schedule with further events."""
        text = "\n".join(self.head + self.events + more + ["end", ""])
        ended = subprocess.run(
            [self.program, "replay"], input=text, stdout=subprocess.PIPE, text=True, check=False
        )
        if ended.returncode != 0:
            raise Refused(ended.stdout.strip())
        return ended.stdout.splitlines()[1:-1]

    def is_sent(self, packet):
        """Whether a packet of this number was sent."""
        try:
            self.asked([f"deliver {packet}"])
        except Refused:
            return False
        return True

    def take(self, event):
        """Adds an event, and asks how many packets there are from then on."""
        self.journal = self.asked([event])
        self.events.append(event)
        while self.is_sent(self.sent):
            self.sent += 1

    def idle(self):
        """The hosts that wait for no answer."""
        waiting = set()
        for line in self.journal:
            words = line.split()
            if words[0] == "C":
                waiting.add(int(words[1]))
            elif words[0] in "AB":
                waiting.discard(int(words[1]))
        return [host for host in range(self.hosts) if host not in waiting]

    def call(self):
        """A call of a host that waits for no answer, mostly on its own file or on the common one."""
        idle = self.idle()
        host = self.random.choice(idle)
        own, common = host + 1, len(self.files)
        near = self.random.random() < 0.9
        file = self.random.choice([own, own, own, common] if near else range(1, common + 1))
        block = min(self.random.randrange(self.files[file - 1][1]) for _ in range(2))
        kind = self.random.choices(list(CALLS), CALLS.values())[0]
        words = {"sync": f"sync {file}", "read": f"read {file} {block}"}
        return f"call {host} " + words.get(kind, f"{kind} {file} {block} {len(self.events) + 1}")

    def tick(self):
        """A tick: the server's clock runs ahead as far as the rule on skew lets it."""
        if self.random.random() < 0.4:
            try:
                self.take("tick s 1")
                return
            except Refused:
                pass
        self.take(f"tick {self.random.randrange(self.hosts)} 1")

    def go_on(self):
        """One event."""
        weights = RECOVERING if self.recovering > 0 else CALM
        if self.sent > self.fresh + 16:
            self.fresh = self.sent - 4
        kind = self.random.choices(list(weights), weights.values())[0]
        if kind == "call" and not self.idle():
            kind = "deliver"
        if kind in ("deliver", "lose") and self.fresh == self.sent:
            kind = "call" if self.idle() else "tick"
        if kind == "deliver":
            self.take(f"deliver {self.fresh}")
            self.fresh += 1
        elif kind == "lose":
            self.fresh += 1
        elif kind == "repeat" and self.sent > 0:
            self.take(f"deliver {self.random.randrange(max(0, self.sent - 12), self.sent)}")
        elif kind == "tick":
            self.tick()
        elif kind == "round":
            # What was sent before is lost, so that the answers to it do not hold up the hosts afterwards.
            self.fresh = self.sent
            self.take("round 5")
            self.recovering -= 5
        elif kind == "restart":
            self.take(f"restart {self.random.randrange(self.hosts)}")
        elif kind == "crash":
            self.take("crash")
            self.recovering = 75
        else:
            self.take(self.call())


def counts(journal):
    """How often a journal tells of caches and of what disturbs them."""
    told = {"cached reads": 0, "delayed writes": 0, "grants": 0, "lost": 0, "restarts": 0, "boots": 0, "cached since": 0}
    for line in journal:
        words = line.split()
        told["cached reads"] += words[0] == "R" and words[-1] == "cached"
        told["cached since"] += words[0] == "R" and words[-1] == "cached"
        told["delayed writes"] += words[0] == "W" and words[-1] == "delayed"
        told["grants"] += words[0] == "G"
        told["lost"] += words[0] == "L"
        told["restarts"] += words[0] == "B"
        if words[0] == "X":
            told["boots"] += 1
            told["cached since"] = 0
    return told


def main():
    words = argparse.ArgumentParser(description=__doc__.splitlines()[0])
    words.add_argument("--program", default=str(ROOT / "crates/nqnfs/out/nqnfs"))
    words.add_argument("--start", type=int, default=1)
    words.add_argument("--events", type=int, default=1000)
    words.add_argument("--hosts", type=int, default=3)
    words.add_argument("--term", type=int, default=20)
    said = words.parse_args()
    storm = Storm(said.program, said.start, said.hosts, said.term)
    while len(storm.events) < said.events:
        storm.go_on()
    print("\n".join(storm.head + storm.events + ["end"]))
    told = counts(storm.journal)
    print(", ".join(f"{name} {count}" for name, count in told.items()), file=sys.stderr)
    sys.exit(0 if told["cached since"] else 1)


if __name__ == "__main__":
    main()
