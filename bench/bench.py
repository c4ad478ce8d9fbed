#!/usr/bin/env python3
"""Times `nqnfs replay` on inputs that it makes, and prints events per second and peak memory; or times `story_parts`, and
prints datagrams and megabytes, or requests of a server, per second; or times cached reads, delayed writes and finds by `nqnfs replay` and
`nqnfs names`, or `nqnfs check` on journals, or `nqnfs storm`.

    bench/bench.py [--program FILE] [--words WORD ...]
    bench/bench.py [--program FILE] --codecs
    bench/bench.py [--program FILE] --parts
    bench/bench.py [--program FILE] --calls
    bench/bench.py [--program FILE] --journals LINES
    bench/bench.py [--program FILE] --storms

The program is the built `nqnfs` or, with --codecs or --parts, the built `story_parts` (the gate leaves both in their crates' `out/`). Each
input is run three times, and each storm five times; the fastest run counts. The words are `replay` where none are given. With --calls each schedule is run five times, with and without
the calls that are timed, and the least processor times count. With --journals it times `nqnfs check` on sound journals of five kinds, of a tenth of so many
lines and of so many.
"""
import argparse
import collections
import itertools
import os
import resource
import subprocess
import sys
import tempfile
import time

TOP = os.path.normpath(os.path.join(os.path.dirname(os.path.abspath(__file__)), ".."))
HEAD = "nqnfs-schedule 1\nhosts 2\nterm 30\nfile a 64\nbegin\n"
MOST_INPUT = 16 * 1024 * 1024


def lines():
    """Puts by host 0 and fetches by host 1 in turns, each carried there and back: six events a round."""
    packet = 0
    turn = 0
    while True:
        block = turn % 64
        for call in (f"call 0 put 1 {block} {turn % 4294967296}", f"call 1 fetch 1 {block}"):
            yield call
            yield f"deliver {packet}"
            yield f"deliver {packet + 1}"
            packet += 2
        turn += 1


def of_events(count):
    return itertools.islice(lines(), count)


def of_bytes(size, events):
    """The most whole lines for which the text stays within the size."""
    left = size - len(HEAD) - len("end\n")
    for line in events:
        left -= len(line) + 1
        if left < 0:
            return
        yield line


def of_repeats(count):
    """One request, delivered again and again."""
    yield "call 0 put 1 0 7"
    yield from itertools.repeat("deliver 0", count - 1)


def write(events):
    """A file with a schedule of these events, and how many they are. Nothing is kept here, so that what is measured of the
    program is not what this script has in memory."""
    count = 0
    with tempfile.NamedTemporaryFile("w", suffix=".schedule", delete=False) as made:
        made.write(HEAD)
        for line in events:
            made.write(line + "\n")
            count += 1
        made.write("end\n")
    return made.name, count


def run(program, words, path):
    """Seconds, peak memory in MB, status and bytes written of one run."""
    with open(path, "rb") as source, tempfile.TemporaryFile() as out:
        began = time.perf_counter()
        child = subprocess.Popen([program, *words], stdin=source, stdout=out, stderr=subprocess.DEVNULL)
        _, status, used = os.wait4(child.pid, 0)
        took = time.perf_counter() - began
        child.returncode = os.waitstatus_to_exitcode(status)
        return took, used.ru_maxrss / 1024, child.returncode, out.seek(0, os.SEEK_END)


# What story_parts does, how often, and the bytes of one datagram.
DATAGRAMS = [
    ("LOOKUP", "lookup", 3_000_000, 56),
    ("reply to LOOKUP", "lookup-reply", 3_000_000, 40),
    ("reply to READ", "read-reply", 1_000_000, 4144),
]


def processor():
    """Seconds of processor time of the programs that were run and have ended."""
    used = resource.getrusage(resource.RUSAGE_CHILDREN)
    return used.ru_utime + used.ru_stime


def spent(program, words, path):
    """Seconds of processor time of one run, and what `run` tells of it."""
    began = processor()
    ran = run(program, words, path)
    return processor() - began, ran


def often(program, words, times):
    """Seconds of processor time of the fastest of three runs of story_parts, and what it prints."""
    fastest = None
    for _ in range(3):
        began = processor()
        done = subprocess.run([program, *words, str(times)], stdin=subprocess.DEVNULL, capture_output=True, check=True)
        took = processor() - began
        fastest = took if fastest is None else min(took, fastest)
    return fastest, int(done.stdout)


def codecs(program):
    """Prints how fast datagrams are written and read. What a run does once is timed apart and taken off."""
    print(f"{'datagram':18} {'way':8} {'each':>10} {'per second':>12} {'MB/s':>7}")
    for name, what, times, size in DATAGRAMS:
        for way in ("encode", "decode"):
            took = often(program, [what, way], times)[0] - often(program, [what, way], 0)[0]
            print(f"{name:18} {way:8} {took / times * 1e9:7.0f} ns {times / took:12,.0f} {times * size / took / 1e6:7,.0f}")
    return 0


# How often a host calls, and on how many files and blocks in turn.
CALLS = 50_000
EXTENTS = ((1, 1), (1, 32), (1, 512), (256, 256), (256, 512))

# Names that a host finds, one after the other, in a list of so many.
FINDS = 50_000
NAMES = (1, 256)

# What a server is asked that keeps 1 or 256 files, with 1 or 2,048 rows.
SERVER_REQUESTS = 50_000
SERVERS = [
    ("LOOKUP", "server-lookup"),
    ("READ", "server-read"),
    ("READ that renews a lease", "server-read-wanted"),
    ("WRITE that goes through", "server-write"),
    ("a push", "server-push"),
]
KEPT = ("1-1", "256-1", "256-2048")


def parts(program):
    """Prints how fast a server answers requests."""
    for name, what in SERVERS:
        for way in KEPT:
            each = (often(program, [what, way], SERVER_REQUESTS)[0] - often(program, [what, way], 0)[0]) / SERVER_REQUESTS
            print(f"{name + ', ' + way:36} {each * 1e9:8,.1f} ns {1 / each:14,.0f} per second")
    return 0


def of_held_blocks(verb, files, blocks, times):
    """A schedule in which a host reads or writes so many blocks of so many files once, and then so many times under its leases."""
    head = ["nqnfs-schedule 1", "hosts 1", "term 30", *(f"file f{number} {blocks // files}" for number in range(files)), "begin"]
    calls = []
    for place in range(blocks):
        value = "" if verb == "read" else " 7"
        calls.append(f"call 0 {verb} {place % files + 1} {place // files}{value}")
    first = [line for call in calls for line in (call, "flow")]
    return "\n".join([*head, *first, *itertools.islice(itertools.cycle(calls), times), "end", ""])


def of_finds(names, times):
    """A schedule in which a host lists a directory of so many names, and then finds one after the other so many times."""
    head = ["nqnfs-schedule 2", "hosts 1", "term 60", "longest 600", *(f"file f{number:03} 1" for number in range(names)), "begin"]
    asked = [f"find 0 f{number:03}" for number in range(names)]
    return "\n".join([*head, "list 0 /", "flow", *itertools.islice(itertools.cycle(asked), times), "end", ""])


def seconds(program, command, schedule):
    """Seconds of processor time of the fastest of five runs of a schedule."""
    with tempfile.NamedTemporaryFile("w", suffix=".schedule") as made:
        made.write(schedule)
        made.flush()
        runs = [spent(program, [command], made.name) for _ in range(5)]
        if any(ran[2] != 0 for _, ran in runs):
            sys.exit("the program does not run a schedule")
        return min(took for took, _ in runs)


def calls(program):
    """Prints what a cached read, a delayed write and a find take, with the reading of its line and the printing of what it tells."""
    for name, verb in (("a cached read", "read"), ("a delayed write", "write")):
        for files, blocks in EXTENTS:
            many, none = (seconds(program, "replay", of_held_blocks(verb, files, blocks, times)) for times in (CALLS, 0))
            each = (many - none) / CALLS
            print(f"{f'{name}, {files} files, {blocks} blocks':40} {each * 1e6:6.2f} us {1 / each:12,.0f} per second")
    for names in NAMES:
        many, none = (seconds(program, "names", of_finds(names, times)) for times in (FINDS, 0))
        each = (many - none) / FINDS
        print(f"{f'a find among {names}':40} {each * 1e6:6.2f} us {1 / each:12,.0f} per second")
    return 0


# ---- journals for the judge

HOSTS = 64


class Clients:
    """The numbers of the calls and writes of each host's one incarnation, and of packets and grants."""

    def __init__(self):
        self.calls = collections.Counter()
        self.writes = collections.Counter()
        self.packet = 0

    def call(self, host):
        self.calls[host] += 1
        return self.calls[host]

    def write(self, host):
        self.writes[host] += 1
        return self.writes[host]

    def send(self):
        self.packet += 1
        return self.packet


def many_calls():
    """Puts and fetches by all hosts in turn."""
    clients = Clients()
    for turn in itertools.count():
        writer, reader, block = turn % HOSTS, (turn + 1) % HOSTS, turn % 64
        q = clients.call(writer)
        yield f"C {writer} 1 {q} put 1 {block} {turn}"
        yield f"W {writer} 1 1 {block} {clients.write(writer)} {turn} through"
        yield f"A {writer} 1 {q} ok"
        q, packet = clients.call(reader), clients.send()
        yield f"C {reader} 1 {q} fetch 1 {block}"
        yield f"R {reader} 1 {q} 1 {block} {turn} served {packet}"
        yield f"A {reader} 1 {q} ok {turn} by {packet}"


def many_writes():
    """Delayed writes of one block by one host, which reads it and stores it now and then."""
    clients = Clients()
    stored = 0
    for turn in itertools.count():
        q = clients.call(0)
        yield f"C 0 1 {q} write 1 0 {turn}"
        if turn == 0:
            yield "G 0 1 1 writing 1 1 600 0"
        number = clients.write(0)
        yield f"W 0 1 1 0 {number} {turn} delayed"
        yield f"A 0 1 {q} ok"
        if turn % 16 == 15:
            q = clients.call(0)
            yield f"C 0 1 {q} read 1 0"
            yield f"R 0 1 {q} 1 0 {turn} cached"
            yield f"A 0 1 {q} ok {turn}"
            q = clients.call(0)
            yield f"C 0 1 {q} sync 1"
            yield f"S 0 1 1 0 {stored + 1} {number} 0"
            yield f"A 0 1 {q} ok"
            stored = number


def many_losses():
    """Hosts in turn write and are cut off, and name what they lost."""
    clients = Clients()
    for turn in itertools.count():
        host, block, time_now = turn % HOSTS, turn % 64, 13 * turn
        q = clients.call(host)
        yield f"C {host} 1 {q} write 1 {block} {turn}"
        yield f"G {host} 1 1 writing 1 {turn + 1} 5 {time_now}"
        number = clients.write(host)
        yield f"W {host} 1 1 {block} {number} {turn} delayed"
        yield f"A {host} 1 {q} ok"
        yield f"F {host} 1 1 {time_now + 8} {time_now} {time_now + 13}"
        yield f"L {host} 1 1 {block} {number} {number}"
        q = clients.call(host)
        yield f"C {host} 1 {q} sync 1"
        yield f"A {host} 1 {q} lost {block}:{number}-{number}"


def many_grants():
    """Hosts in turn read a block under a new lease, and once more from their cache."""
    clients = Clients()
    for turn in itertools.count():
        host, packet = turn % HOSTS, clients.send()
        q = clients.call(host)
        yield f"C {host} 1 {q} read 1 0"
        yield f"G {host} 1 1 reading 1 {turn + 1} 30 {turn}"
        yield f"R {host} 1 {q} 1 0 0 served {packet}"
        yield f"A {host} 1 {q} ok 0 by {packet}"
        q = clients.call(host)
        yield f"C {host} 1 {q} read 1 0"
        yield f"R {host} 1 {q} 1 0 0 cached"
        yield f"A {host} 1 {q} ok 0"


def stores_backwards(lines):
    """Delayed writes of one block by one host, which are stored one by one at the end, from the last to the first."""
    clients = Clients()
    writes = (lines - 5) // 4
    for turn in range(writes):
        q = clients.call(0)
        yield f"C 0 1 {q} write 1 0 {turn}"
        if turn == 0:
            yield "G 0 1 1 writing 1 1 600 0"
        yield f"W 0 1 1 0 {clients.write(0)} {turn} delayed"
        yield f"A 0 1 {q} ok"
    q = clients.call(0)
    yield f"C 0 1 {q} sync 1"
    for number in range(writes, 0, -1):
        yield f"S 0 1 1 0 {number} {number} 0"
    yield f"A 0 1 {q} ok"


# What makes the entries of a journal of so many lines.
KINDS = [
    ("many calls", lambda lines: many_calls()),
    ("many writes on one block", lambda lines: many_writes()),
    ("many losses", lambda lines: many_losses()),
    ("many grants", lambda lines: many_grants()),
    ("stores from last to first", stores_backwards),
]


def write_journal(entries, lines):
    """A file with a journal of so many lines at most, which ends with an answer."""
    waiting = []
    with tempfile.NamedTemporaryFile("w", suffix=".journal", delete=False) as made:
        made.write("nqnfs-journal 1\n")
        for entry in itertools.islice(entries, lines - 2):
            waiting.append(entry + "\n")
            if entry.startswith("A"):
                made.writelines(waiting)
                waiting = []
        made.write("end\n")
    return made.name


def judged(program, made, lines):
    """Seconds of processor time, peak memory in MB and status of the fastest of three runs of the judge."""
    path = write_journal(made(lines), lines)
    try:
        runs = [spent(program, ["check"], path) for _ in range(3)]
    finally:
        os.unlink(path)
    took, (_, _, status, _) = min(runs)
    return took, max(ran[1] for _, ran in runs), status


def journals(program, lines):
    """Prints how fast journals of five kinds are judged, and how much longer ten times the entries take."""
    print(f"{'journal':26} {'lines':>9} {'seconds':>8} {'MB':>6} {'times as long':>14} status")
    failed = False
    for name, made in KINDS:
        short = judged(program, made, lines // 10)
        long = judged(program, made, lines)
        for count, (took, memory, status), ratio in ((lines // 10, short, ""), (lines, long, f"{long[0] / short[0]:.1f}")):
            print(f"{name:26} {count:9,} {took:8.3f} {memory:6.0f} {ratio:>14} {status:6}")
            failed = failed or status != 0
    return 1 if failed else 0


# Storms that start with 1: of what kind, of how many events, and the seconds that they may take at most.
STORMS = [
    ("steady", 10_000, None),
    ("steady", 100_000, 0.3),
    ("lossy", 10_000, None),
    ("lossy", 100_000, 0.6),
    ("cut", 100_000, None),
    ("hostile", 100_000, None),
]


def storms(program):
    """Prints how much processor time the fastest of five runs of each storm takes. It fails where that is too much."""
    print(f"{'storm':12} {'events':>9} {'seconds':>8} {'MB':>6} status  printed")
    failed = False
    for kind, events, most in STORMS:
        fastest = None
        for _ in range(5):
            took, (_, memory, status, printed) = spent(program, ["storm", kind, "1", str(events)], os.devnull)
            fastest = took if fastest is None else min(took, fastest)
        print(f"{kind:12} {events:9,} {fastest:8.3f} {memory:6.0f} {status:6}  {printed:,}")
        failed = failed or status != 0 or (most is not None and fastest > most)
    return 1 if failed else 0


def main():
    parser = argparse.ArgumentParser(description="Times nqnfs replay, names, check or storm, or story_parts.")
    parser.add_argument("--program")
    parser.add_argument("--words", nargs="*", default=["replay"])
    parser.add_argument("--codecs", action="store_true")
    parser.add_argument("--parts", action="store_true")
    parser.add_argument("--calls", action="store_true")
    parser.add_argument("--journals", type=int, metavar="LINES")
    parser.add_argument("--storms", action="store_true")
    asked = parser.parse_args()
    if asked.program is None:
        crate = "story_parts" if asked.codecs or asked.parts else "nqnfs"
        asked.program = os.path.join(TOP, "crates", crate, "out", crate)
    if asked.storms:
        return storms(asked.program)
    if asked.journals:
        return journals(asked.program, asked.journals)
    if asked.codecs:
        return codecs(asked.program)
    if asked.parts:
        return parts(asked.program)
    if asked.calls:
        return calls(asked.program)
    inputs = [
        ("10,000 events", of_events(10_000)),
        ("100,000 events", of_events(100_000)),
        ("100,000 deliveries of one request", of_repeats(100_000)),
        ("16 MiB", of_bytes(MOST_INPUT, lines())),
        ("16 MiB of deliveries of one request", of_bytes(MOST_INPUT, of_repeats(2_000_000))),
    ]
    print(f"{'input':36} {'bytes':>10} {'events':>9} {'seconds':>8} {'events/s':>10} {'MB':>6} status  printed")
    failed = False
    for name, made in inputs:
        path, events = write(made)
        size = os.path.getsize(path)
        try:
            runs = [run(asked.program, asked.words, path) for _ in range(3)]
        finally:
            os.unlink(path)
        took, _, status, printed = min(runs)
        memory = max(one[1] for one in runs)
        print(f"{name:36} {size:10,} {events:9,} {took:8.3f} {events / took:10,.0f} {memory:6.0f} {status:6}  {printed:,}")
        failed = failed or status not in (0, 9)
    return 1 if failed else 0


if __name__ == "__main__":
    sys.exit(main())
