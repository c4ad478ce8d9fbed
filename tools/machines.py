#!/usr/bin/env python3
"""Runs a server and hosts on machines of their own, over a network that loses, repeats, delays and reorders, and judges what they did.

  tools/machines.py [--hosts N] [--seconds N] [--loss P] [--kills S] [--cuts S] [--seed S] [--longest N] [--calls N] [--reads P]
                    [--files N] [--own P] [--server FILE] [--host FILE]
                    [--slow FILE] [--user FILE] [--judge FILE] [--keep FOLDER] [--capture]
                    [--spoil]

Each machine is a network namespace with an address of its own: the server, and 3 to 8 hosts, of which every second one has IPv6. A cable joins
each to a relay, which hands datagrams on. Of a hundred it loses P (0 to 20), repeats P / 2 and holds back as many for up to 0.2 seconds, by a
seed. With `--cuts S` a host is cut off for 1 to 12 seconds some S seconds behind the last time. With `--kills S` a host, a prompt or the
server is killed and begun again some S seconds behind the last kill. Two prompts at each host (`nqnfs_user`) read (`--reads`, 0.6 of the calls) and
write the same few files (`--files`) with values that are unique, for N seconds or until there were so many calls; `--own P` of the calls are of a
file that belongs to the host. This needs the right to make namespaces, and the four programs.

The programs are static, so no shim bends their clocks. `--slow FILE` is a host that was built with a clock that runs slower (`seconds_between` of
`nq_clock`), and every second host is that one.

First the server is given books that it has to refuse. At the end three things are looked at. `tools/merge.py` merges what server and hosts noted
of their turns (`--journal`), and `nqnfs check` has to say yes. Each answer that a prompt was told has to be an A of its host's diary, behind a C
of the same words, between the asking and the telling. And by the machine's clock alone, of what prompts were told: a read gives no value that
nobody wrote or that a write replaced which stands, and none that was begun behind it. A write stands that was put, or that a later `sync` at its host stored, unless it was named as lost. Where
nothing is lost on the way and nobody is cut off, no write may be lost.

With `--spoil` the record of the run is then spoiled in several ways, each of which has to be refused. With `--capture` the server's cable is
captured, and `tshark` reads it by `tools/nqnfs.lua`. The status is 1 where something is at fault.
"""

import argparse
import bisect
import collections
import ctypes
import heapq
import multiprocessing
import os
import pathlib
import random
import re
import select
import shutil
import signal
import socket
import subprocess
import sys
import tempfile
import threading
import time

import merge

ROOT = pathlib.Path(__file__).resolve().parent.parent
SERVER_PORT, HOST_PORT = 20560, 20561
BLOCKS, PROMPTS = 3, 2
# How long an answer, and the end, are waited for, in seconds.
PATIENCE = 150
NEW_NETWORK = 0x40000000


def nanos():
    return time.monotonic_ns()


def run(*words):
    subprocess.run(words, check=True, stdout=subprocess.DEVNULL, stderr=subprocess.PIPE)


# ---- machines


class Machines:
    """Namespaces, each with a cable to that of the relay."""

    def __init__(self, count):
        self.name = f"nq{os.getpid() % 10000}"
        self.made, self.count = [], count

    def space(self, place):
        return f"{self.name}-{place}"

    def addresses(self, number):
        """The addresses at both ends of a cable: the relay's and the machine's. Cable 0 is the server's."""
        if number % 2 and number:
            return f"fd77:{number}::1", f"fd77:{number}::2", "64"
        return f"10.77.{number}.1", f"10.77.{number}.2", "24"

    def __enter__(self):
        for place in ["relay", *range(self.count + 1)]:
            run("ip", "netns", "add", self.space(place))
            self.made.append(self.space(place))
            run("ip", "-n", self.space(place), "link", "set", "lo", "up")
        for number in range(self.count + 1):
            here, there, mask = self.addresses(number)
            run("ip", "-n", self.space("relay"), "link", "add", f"c{number}", "type", "veth", "peer", "name", "eth0", "netns", self.space(number))
            for space, device, address in (self.space("relay"), f"c{number}", here), (self.space(number), "eth0", there):
                flags = ["nodad"] if ":" in address else []
                run("ip", "-n", space, "address", "add", f"{address}/{mask}", "dev", device, *flags)
                run("ip", "-n", space, "link", "set", device, "up")
        return self

    def __exit__(self, *_):
        for space in self.made:
            subprocess.run(["ip", "netns", "delete", space])

    def books(self, folder):
        """Writes the books: each party knows the others at the relay's end of its own cable."""
        written = lambda address, port: f"[{address}]:{port}" if ":" in address else f"{address}:{port}"
        relay, home, _ = self.addresses(0)
        lines = [f"server {written(home, SERVER_PORT)}"]
        lines += [f"{host} {written(relay, HOST_PORT + host)}" for host in range(self.count)]
        (folder / "server.book").write_text("# the server's\n" + "\n".join(lines) + "\n")
        for host in range(self.count):
            relay, home, _ = self.addresses(host + 1)
            (folder / f"{host}.book").write_text(f"server {written(relay, SERVER_PORT)}\n{host} {written(home, HOST_PORT + host)}\n")

    def starts(self, place, words, **more):
        return subprocess.Popen(["ip", "netns", "exec", self.space(place), *words], **more)


class Relay:
    """Hands datagrams on between the server and the hosts, in a process of its own."""

    def __init__(self, machines, loss, seed):
        self.machines, self.loss, self.chance = machines, loss / 100, random.Random(f"relay {seed}")
        self.cut = multiprocessing.Array("d", machines.count)
        self.counts = multiprocessing.Array("q", 4)
        self.stops = multiprocessing.Event()
        self.waiting, self.number = [], 0

    def starts(self):
        self.process = multiprocessing.Process(target=self.works, daemon=True)
        self.process.start()

    def sockets(self):
        """For each host a socket that faces it and one that faces the server, with the address that it sends to."""
        libc = ctypes.CDLL(None, use_errno=True)
        with open(f"/run/netns/{self.machines.space('relay')}") as space:
            if libc.setns(space.fileno(), NEW_NETWORK):
                raise OSError(ctypes.get_errno(), "the relay's namespace")
        server_relay, server_home, _ = self.machines.addresses(0)
        ends = {}
        for host in range(self.machines.count):
            relay, home, _ = self.machines.addresses(host + 1)
            to_host = socket.socket(socket.AF_INET6 if ":" in relay else socket.AF_INET, socket.SOCK_DGRAM)
            to_host.bind((relay, SERVER_PORT))
            to_server = socket.socket(socket.AF_INET, socket.SOCK_DGRAM)
            to_server.bind((server_relay, HOST_PORT + host))
            ends[to_host] = (host, to_server, (server_home, SERVER_PORT))
            ends[to_server] = (host, to_host, (home, HOST_PORT + host))
        return ends

    def works(self):
        signal.signal(signal.SIGINT, signal.SIG_IGN)
        ends = self.sockets()
        poll = select.epoll()
        by_number = {end.fileno(): end for end in ends}
        for end in ends:
            end.setblocking(False)
            poll.register(end.fileno(), select.EPOLLIN)
        while not self.stops.is_set():
            wait = min(0.05, max(0.0, self.waiting[0][0] - time.monotonic())) if self.waiting else 0.05
            for number, _ in poll.poll(wait):
                self.hands_on(by_number[number], *ends[by_number[number]])
            while self.waiting and self.waiting[0][0] <= time.monotonic():
                _, _, end, datagram, to = heapq.heappop(self.waiting)
                self.sends(end, datagram, to)

    def hands_on(self, end, host, other, to):
        """Hands on what waits at one end."""
        for _ in range(64):
            try:
                datagram = end.recv(65536)
            except (BlockingIOError, ConnectionRefusedError):
                return
            self.counts[0] += 1
            if time.monotonic() < self.cut[host] or self.chance.random() < self.loss:
                self.counts[1] += 1
                continue
            copies = 1
            if self.chance.random() < self.loss / 2:
                copies = 2
                self.counts[2] += 1
            for _ in range(copies):
                if self.chance.random() < self.loss / 2:
                    self.counts[3] += 1
                    self.number += 1
                    heapq.heappush(self.waiting, (time.monotonic() + self.chance.uniform(0, 0.2), self.number, other, datagram, to))
                else:
                    self.sends(other, datagram, to)

    def sends(self, end, datagram, to):
        try:
            end.sendto(datagram, to)
        except OSError:
            pass

    def cuts_off(self, host, seconds):
        self.cut[host] = time.monotonic() + seconds


# ---- the parties


class Server:
    """The server, which is killed and begun again; at each death its image is copied."""

    def __init__(self, machines, folder, given):
        self.machines, self.folder, self.given = machines, folder, given
        self.images, self.process = [], None

    def starts(self):
        words = [self.given.server, "nqnfs.img", "--longest", str(self.given.longest), "--hosts", "server.book", "--journal", "server.diary"]
        self.process = self.machines.starts(0, words, cwd=self.folder, stdout=subprocess.DEVNULL)

    def dies(self):
        self.process.kill()
        self.process.wait()
        copy = self.folder / f"image-{len(self.images)}"
        if (self.folder / "nqnfs.img").exists():
            shutil.copyfile(self.folder / "nqnfs.img", copy)
            self.images.append((nanos(), copy))


class Host:
    """A host, which is killed and begun again, with its prompts."""

    def __init__(self, machines, folder, number, given):
        self.machines, self.number, self.given = machines, number, given
        self.folder, self.book = folder, folder / f"{number}.book"
        self.diary, self.run, self.process = folder / f"host-{number}.diary", 0, None

    def starts(self):
        program = self.given.slow if self.given.slow and self.number % 2 else self.given.host
        words = [program, str(self.number), "--hosts", str(self.book), "--journal", str(self.diary)]
        self.process = self.machines.starts(self.number + 1, words, cwd=self.folder, stdout=subprocess.PIPE, stderr=subprocess.DEVNULL)
        self.process.stdout.readline()
        self.run += 1

    def dies(self):
        self.process.kill()
        self.process.wait()


Told = collections.namedtuple("Told", "host run words begun ended answer")


class Prompt:
    """Somebody at a host who asks one thing after another."""

    def __init__(self, trial, host, place):
        self.trial, self.host, self.place = trial, host, place
        self.chance = random.Random(f"{trial.given.seed} {host.number} {place}")
        self.process, self.told, self.lost, self.killed = None, [], [], 0

    def connects(self):
        """Begins a prompt at a host that is there."""
        while not self.trial.over.is_set():
            run = self.host.run
            self.process = subprocess.Popen([self.trial.given.user, str(self.host.number)], cwd=self.host.folder, stdin=subprocess.PIPE,
                                            stdout=subprocess.PIPE, stderr=subprocess.DEVNULL, bufsize=0)
            time.sleep(0.02)
            if self.process.poll() is None and run == self.host.run:
                return run
            self.process.kill()
            self.process.wait()
            time.sleep(0.1)
        return None

    def line(self):
        """The next line, or nothing where the prompt is gone."""
        ready, _, _ = select.select([self.process.stdout], [], [], PATIENCE)
        return self.process.stdout.readline().decode().strip() if ready else ""

    def asks(self, run, words):
        """Asks, and keeps what was told. Whether the prompt is still there."""
        begun = nanos()
        try:
            self.process.stdin.write(words.encode() + b"\n")
            answer = self.line()
        except (BrokenPipeError, ValueError):
            answer = ""
        while answer.startswith(("lost: delayed writes came too late:", "waiting")):
            if answer.startswith("lost"):
                named = re.findall(r"file (\d+), block (\d+)", answer)
                self.lost.append((self.host.number, run, nanos(), named))
            answer = self.line()
        self.told.append(Told(self.host.number, run, words, begun, nanos() if answer else None, answer or None))
        return bool(answer)

    def next_words(self):
        files = self.trial.given.files
        is_own = self.chance.random() < self.trial.given.own
        file = self.host.number % files + 1 if is_own else self.chance.randint(1, files)
        block = self.chance.randrange(BLOCKS)
        if self.chance.random() < self.trial.given.reads:
            return f"read {file} {block}"
        part = self.chance.random()
        if part < 0.7:
            return f"write {file} {block} {self.trial.value()}"
        if part < 0.8:
            return f"sync {file}"
        if part < 0.9:
            return f"fetch {file} {block}"
        return f"put {file} {block} {self.trial.value()}"

    def works(self):
        while not self.trial.over.is_set():
            run = self.connects()
            while run is not None and not self.trial.over.is_set():
                if not self.asks(run, self.next_words()):
                    break
            if self.process:
                self.process.kill()
                self.process.wait()


class Trial:
    """A run."""

    def __init__(self, machines, folder, given):
        self.given, self.folder = given, folder
        self.over, self.lock, self.last = threading.Event(), threading.Lock(), 0
        self.chance = random.Random(f"kills {given.seed}")
        self.relay = Relay(machines, given.loss, given.seed)
        self.server = Server(machines, folder, given)
        self.hosts = [Host(machines, folder, number, given) for number in range(given.hosts)]
        self.prompts = [Prompt(self, host, place) for host in self.hosts for place in range(PROMPTS)]
        self.kills = {"server": 0, "hosts": 0, "prompts": 0, "cuts": 0}

    def value(self):
        """A value that nobody else has."""
        with self.lock:
            self.last += 1
            return self.last

    def asks_once(self, words):
        """Has the first host asked, until it is answered."""
        prompt = self.prompts[0]
        while not prompt.asks(prompt.connects(), words):
            pass
        prompt.process.kill()
        prompt.process.wait()
        return prompt.told[-1].answer

    def kills_one(self):
        part = self.chance.random()
        if part < 0.1:
            self.kills["server"] += 1
            self.server.dies()
            time.sleep(self.chance.uniform(0, 1))
            self.server.starts()
        elif part < 0.6:
            self.kills["hosts"] += 1
            host = self.chance.choice(self.hosts)
            host.dies()
            time.sleep(self.chance.uniform(0, 1))
            host.starts()
        else:
            self.kills["prompts"] += 1
            process = self.chance.choice(self.prompts).process
            if process:
                process.kill()

    def disturbs(self):
        """Kills and cuts off until the time is over."""
        until = time.monotonic() + self.given.seconds
        soon = lambda mean: time.monotonic() + (self.chance.expovariate(1 / mean) if mean else 1e9)
        kill, cut = soon(self.given.kills), soon(self.given.cuts)
        while time.monotonic() < until and sum(len(prompt.told) for prompt in self.prompts) < self.given.calls:
            if time.monotonic() > kill:
                self.kills_one()
                kill = soon(self.given.kills)
            if time.monotonic() > cut:
                self.kills["cuts"] += 1
                self.relay.cuts_off(self.chance.randrange(len(self.hosts)), self.chance.uniform(1, 12))
                cut = soon(self.given.cuts)
            time.sleep(0.02)

    def runs(self):
        self.relay.starts()
        self.server.starts()
        for host in self.hosts:
            host.starts()
        for file in range(1, self.given.files + 1):
            if self.asks_once(f"create file{file} {BLOCKS}") != f"ok, file {file}":
                sys.exit(f"file {file} could not be made: {self.prompts[0].told[-1]}")
        threads = [threading.Thread(target=prompt.works) for prompt in self.prompts]
        begun = time.monotonic()
        for thread in threads:
            thread.start()
        self.disturbs()
        self.over.set()
        for thread in threads:
            thread.join()
        took = time.monotonic() - begun
        self.over.clear()
        for prompt in self.prompts[::PROMPTS]:
            run = prompt.connects()
            for file in range(1, self.given.files + 1):
                for words in [f"sync {file}", *(f"fetch {file} {block}" for block in range(BLOCKS))]:
                    prompt.asks(run, words)
            prompt.process.kill()
            prompt.process.wait()
        return took

    def ends(self):
        self.relay.stops.set()
        for party in [*self.hosts, self.server]:
            if party.process:
                party.process.kill()
                party.process.wait()


# ---- what is looked at

# Books of which the server refuses a line, each with its number and how what it says begins.
BAD_BOOKS = [
    ("server 10.77.0.2:20560\nserver 10.77.0.3:20560\n", 2, "this party has"),
    ("# a note\n\n0 10.77.0.2:20560\nserver 10.77.0.2:20560\n", 4, "another party has"),
    ("server\n", 1, "a party and its address"),
    ("64 10.77.0.2:20560\n", 1, "the first word is neither"),
    ("Server 10.77.0.2:20560\n", 1, "the first word is neither"),
    ("server 10.77.0.2:65536\n", 1, "behind the blank"),
    ("server 10.77.0.2\n", 1, "behind the blank"),
    ("server  10.77.0.2:20560\n", 1, "behind the blank"),
    ("server [fd77::2]:20560\n63 [fd77::g]:1", 2, "behind the blank"),
]


def book_faults(given, folder):
    """What the server says wrongly of books that it has to refuse."""
    faults = []
    for text, number, why in BAD_BOOKS:
        (folder / "bad.book").write_text(text)
        ended = subprocess.run([given.server, "bad.img", "--hosts", "bad.book"], cwd=folder, stdout=subprocess.PIPE, stderr=subprocess.PIPE, text=True, timeout=10)
        if ended.returncode != 1 or not ended.stderr.startswith(f"nqnfsd: bad.book: line {number}: {why}"):
            faults.append(f"the book {text!r}: status {ended.returncode}, {ended.stderr.strip()}")
    return faults


def said(answer):
    """The words of an A that a prompt was told so."""
    if answer.startswith("ok, "):
        return "ok " + answer.rsplit(" ", 1)[1]
    if answer.startswith("lost: delayed writes came too late, of block"):
        return "lost"
    return answer.split(":")[0]


def told_faults(told, diaries):
    """What prompts were told that no diary tells."""
    answered = collections.defaultdict(list)
    for host, path in diaries.items():
        calls = {}
        for moment, entries in merge.notes_in(path):
            for words in entries:
                if words[0] == "C":
                    calls[words[2], words[3]] = (moment, " ".join(words[4:]))
                elif words[0] == "A" and (words[2], words[3]) in calls:
                    begun, call = calls.pop((words[2], words[3]))
                    text = "lost" if words[4] == "lost" else " ".join(words[4:6])
                    answered[host, call, text].append((begun, moment))
    faults, used = [], collections.defaultdict(set)
    for one in sorted((one for one in told if one.answer), key=lambda one: one.ended):
        key = (one.host, one.words, said(one.answer))
        places = answered[key]
        place = bisect.bisect_left(places, (one.begun, 0))
        while place in used[key]:
            place += 1
        if place < len(places) and places[place][1] <= one.ended:
            used[key].add(place)
        else:
            faults.append(f"host {one.host}: `{one.words}` was answered `{one.answer}`, and its diary has no such A in that time")
    return faults


Write = collections.namedtuple("Write", "value begun ended stands")


def writes_of(told, lost):
    """For each block its writes, each with whether it stands for sure behind its answer."""
    syncs, named = collections.defaultdict(list), collections.defaultdict(list)
    for one in told:
        if one.words.startswith("sync") and one.answer == "ok":
            syncs[one.host, one.run, one.words.split()[1]].append(one)
    for host, run, moment, blocks in lost:
        for file, block in blocks:
            named[host, run, file, block].append(moment)
    writes = collections.defaultdict(list)
    for one in told:
        name, *numbers = one.words.split()
        if name not in ("write", "put"):
            continue
        file, block, value = numbers
        done = one.answer == "ok"
        later = [sync.ended for sync in syncs[one.host, one.run, file] if done and sync.begun > one.ended]
        is_named = any(moment > one.begun for moment in named[one.host, one.run, file, block])
        stands = done and (name == "put" or (bool(later) and not is_named))
        refused = one.answer and not done and not one.answer.startswith("lost")
        if not refused:
            writes[file, block].append(Write(int(value), one.begun, one.ended if done else float("inf"), stands))
    return writes


def read_faults(told, lost):
    """Reads of what nobody wrote, of what had been replaced, or of what was written later."""
    writes, faults = writes_of(told, lost), []
    known, latest = {}, {}
    for place, all_of in writes.items():
        known[place] = {write.value: write for write in all_of}
        ends, best = [], []
        for write in sorted((write for write in all_of if write.stands), key=lambda write: write.ended):
            ends.append(write.ended)
            best.append(max([write, *best[-1:]], key=lambda one: one.begun))
        latest[place] = (ends, best)
    for one in told:
        name, *place = one.words.split()
        if name not in ("read", "fetch") or not (one.answer or "").startswith("ok, value"):
            continue
        place, value = tuple(place), int(one.answer.rsplit(" ", 1)[1])
        write = known.get(place, {}).get(value)
        told_so = f"host {one.host}: `{one.words}` was answered `{one.answer}`"
        if value and write is None:
            faults.append(f"{told_so}, and nobody wrote that")
            continue
        if write and write.begun > one.ended:
            faults.append(f"{told_so}, which was written later")
        ends, best = latest.get(place, ([], []))
        count = bisect.bisect_left(ends, one.begun)
        if count and (not value or best[count - 1].begun > write.ended):
            faults.append(f"{told_so}, and {best[count - 1].value} stood there already")
    return faults


def judged(judge, journal):
    """What the judge says of a journal."""
    ended = subprocess.run([judge, "check"], input=journal, stdout=subprocess.PIPE, text=True)
    return ended.stdout.strip() or f"status {ended.returncode}"


def spoiled(journal, told, lost, chance):
    """Records that are wrong, each with what was done to it: a journal for the judge, or what prompts were told."""
    lines = journal.splitlines()
    at = lambda test: [place for place, line in enumerate(lines) if test(line.split())]

    def changed(place, line):
        return "\n".join([*lines[:place], *([line] if line else []), *lines[place + 1 :]]) + "\n"

    reads = at(lambda words: words[0] == "R" and words[7] == "cached")
    if reads:
        place = chance.choice(reads)
        words = lines[place].split()
        yield "another value is read", changed(place, " ".join([*words[:6], str(int(words[6]) + 1), *words[7:]])), None
    puts = {tuple(line.split()[1:4]): tuple(line.split()[1:3] + line.split()[5:]) for line in lines if " put " in line}
    done = {puts.get(tuple(line.split()[1:4])) for line in lines if line.startswith("A ") and line.endswith(" ok")}
    through = at(lambda words: words[0] == "W" and words[7] == "through" and (*words[1:5], words[6]) in done)
    if through:
        yield "a write through is missing", changed(chance.choice(through), None), None
    stores = at(lambda words: words[0] == "S")
    if stores:
        yield "a store is told twice", changed(chance.choice(stores), None).replace(lines[stores[0]], f"{lines[stores[0]]}\n{lines[stores[0]]}", 1), None
    answers = at(lambda words: words[0] == "A" and tuple(words[1:4]) in puts)
    if answers:
        place = chance.choice(answers)
        yield "an answer stands twice", changed(place, f"{lines[place]}\n{lines[place]}"), None
    values = [place for place, one in enumerate(told) if one.words.startswith("read") and (one.answer or "").startswith("ok, value") and not one.answer.endswith(" 0")]
    if values:
        place = values[-1]
        yield "a prompt was told zeros", None, [*told[:place], told[place]._replace(answer="ok, value 0"), *told[place + 1 :]]
        yield "a prompt was told what nobody wrote", None, [*told[:place], told[place]._replace(answer="ok, value 999999999"), *told[place + 1 :]]


def figures(told, took, trial):
    """What the run did, in numbers."""
    times = sorted((one.ended - one.begun) / 1e6 for one in told if one.answer)
    at = lambda part: times[min(len(times) - 1, int(len(times) * part))] if times else 0
    handed, lost, repeated, held = trial.relay.counts
    sent = sorted((one.ended - one.begun) / 1e6 for one in told if one.answer and one.words.split()[0] in ("fetch", "put"))
    sent_at = lambda part: sent[min(len(sent) - 1, int(len(sent) * part))] if sent else 0
    print(f"loss {trial.given.loss}: {len(times)} calls in {took:.0f} seconds, {len(times) / took:.0f} a second; median {at(0.5):.3f} ms, 99th {at(0.99):.1f} ms;"
          f" of {len(sent)} that go to the server {sent_at(0.5):.2f} and {sent_at(0.99):.1f} ms")
    print(f"datagrams {handed}, lost {lost}, repeated {repeated}, held back {held}; killed: {trial.kills}")


def looks(trial, folder, given):
    """Looks at all that was recorded. Whether it is well."""
    told = [one for prompt in trial.prompts for one in prompt.told]
    lost = [one for prompt in trial.prompts for one in prompt.lost]
    diaries = {host.number: host.diary for host in trial.hosts}
    notes = []
    try:
        journal = merge.merged(folder / "server.diary", list(diaries.values()), trial.server.images, notes.append)
    except merge.Fault as fault:
        print(f"the diaries: {fault}")
        return False
    (folder / "merged.journal").write_text(journal)
    verdict = judged(given.judge, journal)
    faults = told_faults(told, diaries) + read_faults(told, lost)
    if not given.loss and not given.cuts:
        faults += [f"host {host}: writes of (file, block) {blocks} are lost, and nobody was cut off" for host, _, _, blocks in lost]
    print(f"journal of {len(journal.splitlines())} lines, {len(notes)} steps that were kept and not noted: {verdict}")
    for fault in faults[:10]:
        print(fault)
    print(f"{len(told)} answers, {len(lost)} told of losses: {len(faults)} faults")
    went = verdict == "yes" and not faults
    if given.spoil and went:
        for what, text, record in spoiled(journal, told, lost, random.Random(given.seed)):
            refused = judged(given.judge, text) != "yes" if text else bool(read_faults(record, lost) and told_faults(record, diaries))
            print(f"spoiled: {what}: {'refused' if refused else 'NOT REFUSED'}")
            went = went and refused
    return went


def main():
    words = argparse.ArgumentParser(description=__doc__.splitlines()[0])
    built = lambda name: str(ROOT / f"crates/{name}/out/{name}")
    for name, kind, value in (("hosts", int, 4), ("seconds", float, 60), ("loss", float, 5), ("kills", float, 0), ("cuts", float, 0), ("seed", int, 1),
                              ("longest", int, 10), ("reads", float, 0.6), ("files", int, 2), ("own", float, 0), ("calls", int, 120_000)):
        words.add_argument(f"--{name}", type=kind, default=value)
    for name, program in (("server", "nqnfsd"), ("host", "nqnfs_host"), ("user", "nqnfs_user"), ("judge", "nqnfs")):
        words.add_argument(f"--{name}", default=built(program))
    words.add_argument("--slow")
    words.add_argument("--keep")
    words.add_argument("--capture", action="store_true")
    words.add_argument("--spoil", action="store_true")
    given = words.parse_args()
    for name in "server", "host", "user", "judge":
        setattr(given, name, str(pathlib.Path(getattr(given, name)).resolve()))
    given.slow = given.slow and str(pathlib.Path(given.slow).resolve())
    folder = pathlib.Path(given.keep or tempfile.mkdtemp()).resolve()
    folder.mkdir(exist_ok=True)
    for fault in book_faults(given, folder):
        sys.exit(fault)
    with Machines(given.hosts) as machines:
        machines.books(folder)
        trial = Trial(machines, folder, given)
        capture = machines.starts(0, ["tshark", "-q", "-i", "eth0", "-w", "server.pcap"], cwd=folder, stderr=subprocess.DEVNULL) if given.capture else None
        if capture:
            time.sleep(3)
        try:
            took = trial.runs()
        finally:
            trial.ends()
            if capture:
                capture.terminate()
                capture.wait()
    figures([one for prompt in trial.prompts for one in prompt.told], took, trial)
    went = looks(trial, folder, given)
    if capture:
        went = shown(folder) and went
    if not given.keep:
        shutil.rmtree(folder)
    print("all well" if went else "at fault")
    return 0 if went else 1


def shown(folder):
    """Whether the dissector reads each captured datagram of a party without a fault. Where no server runs, ICMP quotes a front of some."""
    words = ["tshark", "-X", f"lua_script:{ROOT}/tools/nqnfs.lua", "-r", "server.pcap", "-Y", "udp and not icmp", "-T", "fields", "-e", "frame.protocols", "-e", "_ws.malformed"]
    ended = subprocess.run(words, cwd=folder, stdout=subprocess.PIPE, stderr=subprocess.PIPE, text=True)
    lines = [line for line in ended.stdout.splitlines() if line]
    read = [line for line in lines if "nqnfs" in line and "alformed" not in line]
    print(f"captured {len(lines)} datagrams, read {len(read)}")
    return len(lines) > 0 and len(read) == len(lines)


if __name__ == "__main__":
    sys.exit(main())
