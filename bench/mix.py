#!/usr/bin/env python3
"""A mix of calls, deliveries, ticks, restarts and crashes, drawn with a seed; and how fast `nqnfs replay` runs it.

    bench/mix.py HOSTS LINES [--seed N]                    prints a schedule with so many hosts and so many lines of events
    bench/mix.py --times [--program FILE] [--seed N] [SCHEDULE ...]   times the program on mixes, on a flow, and on schedules

The mix has leases that run and end, delayed writes that are stored or lost, hosts that start again and crashes of the server. Where no
schedule is given, those of `bench/large/` are taken. A schedule may be packed by gzip. Where a file `sums.txt` lies beside it, the
SHA-256 of its journal is compared too.
"""
import argparse
import glob
import gzip
import hashlib
import itertools
import os
import random
import subprocess
import sys
import tempfile

TOP = os.path.normpath(os.path.join(os.path.dirname(os.path.abspath(__file__)), ".."))
TERM = 20
FILES = 8
BLOCKS = 16
MOST_EVENTS = 100_000


def head(hosts, files=FILES):
    named = "".join(f"file f{number} {BLOCKS}\n" for number in range(files))
    return f"nqnfs-schedule 2\nhosts {hosts}\nterm {TERM}\nlongest {TERM}\n{named}begin\n"


def a_call(draw, host):
    """A call on one of the files: mostly reads and writes under a lease."""
    file, block = draw.randint(1, FILES), draw.randrange(BLOCKS)
    kind = draw.choices(("read", "write", "fetch", "put", "sync"), (50, 35, 5, 5, 5))[0]
    if kind == "sync":
        return f"call {host} sync {file}"
    value = f" {draw.randrange(1 << 32)}" if kind in ("write", "put") else ""
    return f"call {host} {kind} {file} {block}{value}"


def mix(hosts, seed):
    """Lines of events without end. Clocks tick in rounds, which never break the rule on skew."""
    draw = random.Random(seed)
    while True:
        for host in draw.sample(range(hosts), min(hosts, 4)):
            yield a_call(draw, host)
        yield "flow"
        if draw.random() < 8 / hosts:
            yield "round 1"
        if draw.random() < 0.02:
            yield f"restart {draw.randrange(hosts)}"
        if draw.random() < 0.005:
            yield f"crash {draw.randint(5, TERM)}"


def one_flow(packets):
    """A request that is sent again at every second tick, so that so many packets wait, and one flow through them all."""
    yield "call 0 put 1 0 7"
    for _ in range(packets // 500):
        yield "tick 0 1000"
    yield "flow"


def text_of(hosts, lines):
    """The parts of a schedule, one after another: this script keeps no schedule, since its own memory counts in the program's peak."""
    yield head(hosts).encode()
    for line in lines:
        yield line.encode() + b"\n"
    yield b"end\n"


class Run:
    """What the fastest of some runs took, in seconds of processor time, and the most memory of them in MB."""

    def __init__(self, program, parts, times=7):
        self.seconds, self.memory = None, 0.0
        with tempfile.TemporaryFile() as source:
            source.writelines(parts)
            for _ in range(times):
                self.once(program, source)

    def once(self, program, source):
        source.seek(0)
        with tempfile.TemporaryFile() as out:
            child = subprocess.Popen([program, "replay"], stdin=source, stdout=out, stderr=out)
            _, status, used = os.wait4(child.pid, 0)
            child.returncode = self.status = os.waitstatus_to_exitcode(status)
            took = used.ru_utime + used.ru_stime
            self.seconds = took if self.seconds is None else min(took, self.seconds)
            self.memory = max(self.memory, used.ru_maxrss / 1024)
            out.seek(0)
            self.said = out.readline().decode()
            out.seek(0)
            self.sum = hashlib.file_digest(out, "sha256").hexdigest()


def limit_at(program, hosts, lines):
    """The number, among these lines, of the one at which there are too many events."""
    said = Run(program, text_of(hosts, lines), 1).said.split()
    assert said[:2] == ["limit", "line"] and said[3] == "events", said
    return int(said[2]) - head(hosts).count("\n") - 1


def events_of(program, hosts, lines, count):
    """How many events so many lines are: one packet is delivered again until there are too many."""
    padded = itertools.chain(lines, itertools.repeat("deliver 0", MOST_EVENTS + 1))
    return MOST_EVENTS - (limit_at(program, hosts, padded) - count)


def mixes(program, seed):
    """Inputs of a tenth of the events and of all that a schedule may have, with few hosts and with many, and one flow."""
    for hosts in (4, 64):
        whole = limit_at(program, hosts, itertools.islice(mix(hosts, seed), MOST_EVENTS))
        for name, count in (("a tenth", whole // 10), ("whole", whole)):
            yield f"mix, {hosts} hosts, {name}", hosts, lambda: itertools.islice(mix(hosts, seed), count), count
    for packets in (2_000, 20_000):
        yield f"flow through {packets:,} packets", 1, lambda: one_flow(packets), packets // 500 + 2


def sum_of(path):
    """The sum that the journal of a schedule is to have, if one is told beside it."""
    name = os.path.basename(path).split(".")[0]
    beside = os.path.join(os.path.dirname(path), "sums.txt")
    if not os.path.exists(beside):
        return None
    with open(beside) as sums:
        return dict(line.split() for line in sums).get(name)


def shown(name, events, run, note):
    rate = f"{events / run.seconds:10,.0f}" if events else f"{'':10}"
    print(f"{name:34} {events or '':>9} {run.seconds:8.3f} {rate} {run.memory:6.0f} {run.status:6}  {note}")


def times(program, seed, paths):
    """Prints how fast the inputs are run. It fails where a journal has another sum, or a cost per event is too high."""
    print(f"{'schedule':34} {'events':>9} {'seconds':>8} {'events/s':>10} {'MB':>6} status")
    failed, cost = False, {}
    for name, hosts, lines, count in mixes(program, seed):
        events = events_of(program, hosts, lines(), count)
        run = Run(program, text_of(hosts, lines()))
        cost[name] = run.seconds / events
        shown(name, events, run, "")
        failed = failed or run.status != 0
    for more, less, most in (
        ("mix, 4 hosts, whole", "mix, 4 hosts, a tenth", 1.2),
        ("mix, 64 hosts, whole", "mix, 64 hosts, a tenth", 1.2),
        ("mix, 64 hosts, whole", "mix, 4 hosts, whole", 1.5),
        ("flow through 20,000 packets", "flow through 2,000 packets", 1.2),
    ):
        ratio = cost[more] / cost[less]
        print(f"an event of '{more}' costs {ratio:.2f} times one of '{less}', {most} at most")
        failed = failed or ratio > most
    for path in paths:
        opened = gzip.open if path.endswith(".gz") else open
        with opened(path, "rb") as schedule:
            run = Run(program, schedule)
        wanted = sum_of(path)
        note = "" if wanted is None else "as summed" if wanted == run.sum else "ANOTHER JOURNAL"
        shown(os.path.basename(path), None, run, note)
        failed = failed or run.status != 0 or note == "ANOTHER JOURNAL"
    return 1 if failed else 0


def main():
    parser = argparse.ArgumentParser(description="Prints a mixed schedule, or times nqnfs replay on some.")
    parser.add_argument("--times", action="store_true")
    parser.add_argument("--program", default=os.path.join(TOP, "crates/nqnfs/out/nqnfs"))
    parser.add_argument("--seed", type=int, default=1)
    parser.add_argument("words", nargs="*", metavar="HOSTS_LINES_OR_SCHEDULE")
    asked = parser.parse_args()
    if asked.times:
        return times(asked.program, asked.seed, asked.words or sorted(glob.glob(os.path.join(TOP, "bench/large/*.schedule.gz"))))
    hosts, count = map(int, asked.words)
    sys.stdout.buffer.writelines(text_of(hosts, itertools.islice(mix(hosts, asked.seed), count)))
    return 0


if __name__ == "__main__":
    sys.exit(main())
