#!/usr/bin/env python3
"""Leaves a server and four hosts running while six askers work at them, and kills prompts, hosts and the server at random.

  tools/soak.py [--host FILE] [--user FILE] [--server FILE] [--seconds N]

Askers store and get whole files, write and read blocks, and list names, at hosts 0 and 1, which are killed, and at host 2, which is not. Nobody
asks host 3. What has to hold: each file that is got is one that was stored and that no later one had replaced; a block that is read has a value that
was written, none older than the last one that was stored, where no asker of it was killed; each name that is there is listed once; a loss is named; in
the end all that was stored is there, and of cut-off stores nothing is left. Host 2 does not grow, host 3 takes less than 1 percent of a processor. It
also counts cached reads a second through a host, and round trips of a bare UDP echo beside them. The status is 1 where something does not hold. Runs
for 3600 seconds where nothing is said; takes the ports of real hosts. Build the three programs before.
"""

import argparse
import pathlib
import random
import re
import socket
import subprocess
import tempfile
import threading
import time

import prompts

# Each of these hosts is killed now and then; the next one is asked and never killed; the last one is never asked.
KILLED, STEADY, IDLE = (0, 1), 2, 3
# How many blocks the file of blocks has: one for each asker.
ASKERS = 6
PATIENCE = 120
# For how many seconds nobody asks in the end.
QUIET = 90
NAMED = re.compile(r"lost: delayed writes came too late")


class Block:
    """What is known of a block that one asker writes: all values that were tried, the last one that was stored, those whose asker got no answer."""

    def __init__(self):
        self.tried, self.open, self.stored = [0], set(), 0

    def wrong(self, value, stored):
        """What is wrong with a value that was read behind a time at which this one was stored, if anything is."""
        if value not in self.tried:
            return f"value {value} was never written"
        if value < stored and value not in self.open:
            return f"value {value} was read, though {stored} was stored"
        return None


class Soak(prompts.Tries):
    """What the askers do, and what they know."""

    def __init__(self, programs, folder, seconds):
        super().__init__(programs, folder, seconds)
        self.did |= {"wrote": 0, "read": 0, "listed": 0, "lost": 0}
        self.blocks = [Block() for _ in range(ASKERS)]
        self.lives = {host: 0 for host in (*KILLED, STEADY)}
        self.rss, self.begun = [], time.monotonic()

    def writes_one(self, chance, host, place):
        """Writes the asker's block: through at once, or delayed and then stored by `sync`."""
        block, life = self.blocks[place], self.lives[host]
        value = len(block.tried)
        with self.lock:
            block.tried.append(value)
            block.open.add(value)
        if chance.random() < 0.5:
            status, said = self.runs(chance, host, ["put", "1", str(place), str(value)])
        else:
            status, said = self.runs(chance, host, ["write", "1", str(place), str(value)])
            if status == 0:
                status, said = self.runs(chance, host, ["sync", "1"])
        is_lost = NAMED.search(said) is not None
        if status == 0 and life == self.lives[host] and not is_lost:
            with self.lock:
                block.open.discard(value)
                block.stored = value
        if is_lost:
            self.notes("lost")
        self.notes("wrote" if status == 0 else "refused")

    def reads_one(self, chance, host):
        place = chance.randrange(ASKERS)
        block = self.blocks[place]
        with self.lock:
            stored = block.stored
        status, said = self.runs(chance, host, [chance.choice(["read", "fetch"]), "1", str(place)])
        value = re.search(r"ok, value (\d+)", said)
        if status != 0 or value is None:
            return self.notes("refused")
        with self.lock:
            wrong = block.wrong(int(value[1]), stored)
        return self.notes("read", wrong and f"block {place} at host {host}: {wrong}")

    def lists_one(self, chance, host):
        with self.lock:
            there = {name for name, stores in self.stores.items() if any(store.done for store in stores)} | {"blocks"}
        prefix = chance.choice(["", "l", "le", "left", "right", "b"])
        status, said = self.runs(chance, host, ["ls", *([prefix] if prefix else [])])
        if status != 0:
            return self.notes("refused")
        names = [line.split(" ")[0] for line in said.splitlines() if not line.startswith(("ok", "lost:"))]
        wanted = {name for name in there if name.startswith(prefix)}
        wrong = None
        if not wanted <= set(names) or len(names) != len(set(names)) or not all(name.startswith(prefix) for name in names):
            wrong = f"ls {prefix}: {names}, wanted {sorted(wanted)}"
        return self.notes("listed", wrong)

    def works(self, place):
        """Works until the time is over."""
        chance = random.Random(place)
        while time.monotonic() < self.until:
            host = chance.choice([*KILLED, STEADY])
            what = chance.random()
            path = self.folder / f"file{place}"
            path.unlink(missing_ok=True)
            if what < 0.2:
                self.stores_one(chance, host, chance.choice(list(self.stores)), path)
            elif what < 0.4:
                self.gets_one(chance, host, chance.choice(list(self.stores)), path)
            elif what < 0.6:
                self.writes_one(chance, host, place)
            elif what < 0.9:
                self.reads_one(chance, host)
            else:
                self.lists_one(chance, host)

    def kills(self, hosts):
        """Kills hosts and the server at random, and starts them again; looks how large the steady host is."""
        chance = random.Random(99)
        while time.monotonic() < self.until:
            time.sleep(chance.uniform(5, 15))
            self.rss.append((time.monotonic() - self.begun, kilobytes(hosts[STEADY].process.pid)))
            if chance.random() < 0.7:
                which = chance.choice(KILLED)
                self.lives[which] += 1
                hosts[which].ends()
                hosts[which] = prompts.Host(self.programs, which, self.folder)
                self.lives[which] += 1
            else:
                self.programs.started.kill()
                self.programs.started.wait()
                self.programs.started = prompts.begun(self.programs.server, self.folder, 5)
            self.notes("killed")


def kilobytes(pid):
    """How much memory of the machine a process has."""
    return int(re.search(r"VmRSS:\s+(\d+)", pathlib.Path(f"/proc/{pid}/status").read_text())[1])


def processor(pid):
    """The processor seconds of a process."""
    fields = pathlib.Path(f"/proc/{pid}/stat").read_text().rsplit(")", 1)[1].split()
    return (int(fields[11]) + int(fields[12])) / 100


def echoes(seconds):
    """Round trips a second of a bare UDP echo, between two processes."""
    code = "import socket\ns = socket.socket(socket.AF_INET, socket.SOCK_DGRAM)\ns.bind(('127.0.0.1', 0))\nprint(s.getsockname()[1], flush=True)\n" \
        "while True:\n    data, who = s.recvfrom(2048)\n    s.sendto(data, who)\n"
    other = subprocess.Popen(["python3", "-c", code], stdout=subprocess.PIPE, text=True)
    place = ("127.0.0.1", int(other.stdout.readline()))
    with socket.socket(socket.AF_INET, socket.SOCK_DGRAM) as one:
        count, until = 0, time.monotonic() + seconds
        while time.monotonic() < until:
            one.sendto(b"read 1 0", place)
            one.recv(2048)
            count += 1
    other.kill()
    other.wait()
    return count / seconds


def cached_reads(folder, host, seconds):
    """Reads a second of one block through a host, asked one after the other over its socket."""
    with socket.socket(socket.AF_UNIX, socket.SOCK_STREAM) as one:
        one.connect(str(folder / f"nqnfs-{host}" / "asks"))
        count, until = 0, time.monotonic() + seconds
        while time.monotonic() < until:
            count += 1
            one.sendall(b"%d read 1 0\n" % count)
            answer = one.recv(2048)
            if not answer.startswith(b"%d ok ok, value" % count):
                return 0
    return count / seconds


def ended(tries, folder, hosts):
    """Looks at all files when nobody kills any more, and at what is left of cut-off stores."""
    calm = random.Random()
    calm.random = lambda: 1.0
    # Nobody asks for a while, so each host looks after the bytes that it stored: also after those that another host replaced as it was killed.
    time.sleep(QUIET)
    for host in (*KILLED, STEADY):
        for name in tries.stores:
            if any(store.done for store in tries.stores[name]) and not tries.gets_one(calm, host, name, folder / f"last{host}{name}"):
                tries.faults.append(f"{name}: not there in the end, at host {host}")
        for place in range(ASKERS):
            _, said = tries.runs(calm, host, ["fetch", "1", str(place)])
            value = re.search(r"ok, value (\d+)", said)
            wrong = tries.blocks[place].wrong(int(value[1]), tries.blocks[place].stored) if value else f"no value: {said.strip()}"
            if wrong:
                tries.faults.append(f"block {place} in the end, at host {host}: {wrong}")
    _, said = tries.runs(calm, STEADY, ["ls", "~"])
    left, names = len(said.splitlines()), sum(any(store.done for store in stores) for stores in tries.stores.values())
    print(f"soak: {left} files with bytes of {names} names in the end", flush=True)
    if left > names:
        tries.faults.append(f"of cut-off stores is left: {said.strip()}")


def soaked(programs, folder, seconds):
    """Whether all holds."""
    hosts = {number: prompts.Host(programs, number, folder) for number in (*KILLED, STEADY, IDLE)}
    first = hosts[STEADY].asks(f"create blocks {ASKERS}", "ok, file 1")
    tries = Soak(programs, folder, seconds)
    workers = [threading.Thread(target=tries.works, args=[place]) for place in range(ASKERS)]
    idle, begun = processor(hosts[IDLE].process.pid), time.monotonic()
    for worker in workers:
        worker.start()
    tries.kills(hosts)
    for worker in workers:
        worker.join()
    idle = (processor(hosts[IDLE].process.pid) - idle) / (time.monotonic() - begun)
    ended(tries, folder, hosts)
    quarter = max(1, len(tries.rss) // 4)
    early, late = max(size for _, size in tries.rss[:quarter]), max(size for _, size in tries.rss[-quarter:])
    echo, reads = echoes(5), cached_reads(folder, STEADY, 5)
    print(f"soak: {tries.did}", f"soak: host {STEADY} had {early} kilobytes at most in the first quarter, {late} in the last", sep="\n")
    print(f"soak: host {IDLE}, which nobody asked, took {idle:.2%} of a processor")
    print(f"soak: {reads:.0f} cached reads a second through a host; {echo:.0f} round trips of a bare UDP echo", flush=True)
    for host in hosts.values():
        host.ends()
    if late > early * 1.25 + 512:
        tries.faults.append("the steady host grew")
    if idle > 0.01:
        tries.faults.append("the idle host is not idle")
    print(*tries.faults, sep="\n", flush=True)
    return first and not tries.faults and all(tries.did[what] > 0 for what in ("stored", "got", "wrote", "read", "listed"))


def main():
    parser = argparse.ArgumentParser(description=__doc__, formatter_class=argparse.RawDescriptionHelpFormatter)
    for name in "host", "user", "server":
        program = "nqnfsd" if name == "server" else f"nqnfs_{name}"
        parser.add_argument(f"--{name}", default=prompts.ROOT / f"crates/{program}/out/{program}")
    parser.add_argument("--seconds", type=int, default=3600)
    programs = parser.parse_args()
    for name in "host", "user", "server":
        setattr(programs, name, str(pathlib.Path(getattr(programs, name)).resolve()))
    with tempfile.TemporaryDirectory(prefix="nqnfs-soak-") as place:
        place = pathlib.Path(place)
        programs.started = prompts.begun(programs.server, place, 5)
        try:
            went = soaked(programs, place, programs.seconds)
        finally:
            programs.started.kill()
            programs.started.wait()
    raise SystemExit(0 if went else 1)


if __name__ == "__main__":
    main()
