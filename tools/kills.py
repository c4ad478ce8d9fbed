#!/usr/bin/env python3
"""Kills the built server at random moments, starts it again each time, and looks whether what was synchronized is still there.

  tools/kills.py [--program FILE] [--times N] [--seed S]

In a folder of its own it makes an empty image by `nqnfs format`, and then starts `nqnfs serve` on it. Two hosts use it, in one client after
the other. Each has a file of four blocks. A client first reads them, then writes them with numbers that rise, synchronizes after each
three writes, and now and then reads a block of the other's file, so that leases are recalled. The server is killed by SIGKILL, while it
boots, recovers or serves, and started again, N times (50). At each of these moments each client is killed with it, or goes on, by chance.
What a client reads of a block has to be the last write that was answered `ok` and then stood before a `sync` that was answered `ok`, or one
that the host began after that write. At the end both read once more. It prints what it did, and the status is 1 where a block reads
otherwise. A recovery takes 13 seconds, so 50 times take about ten minutes. The program is built before, in `crates/nqnfs` by `rt run`.
The gate does not run this.
"""

import argparse
import pathlib
import random
import signal
import subprocess
import sys
import tempfile
import threading
import time

ROOT = pathlib.Path(__file__).resolve().parent.parent

# Turns of the server, its longest term in seconds, and turns of a client for each call; one where nothing comes takes 5 milliseconds.
SERVER_TURNS, LONGEST, CLIENT_TURNS = "1000000", "5", "20000"
# How long a recovery takes, in seconds: the longest term and 8 more.
RECOVERY = int(LONGEST) + 8
# How long a server is let serve behind its recovery at most, in seconds.
SERVED = 4.0
BLOCKS = 4
# How many syncs a client is told to make, and how many writes stand before each.
SYNCS, BATCH = 40, 3
# How long the last look is waited for, in seconds.
PATIENCE = 200


class Block:
    """What is known of a block: the values that may stand there, oldest first."""

    def __init__(self):
        self.values, self.synced = [0], 0

    def has(self, value):
        """From now on this stands there, or a value that was begun after it."""
        self.values = self.values[self.values.index(value) :]


class Host:
    """A host with its file, of which one client after another runs."""

    def __init__(self, program, folder, number, seed):
        self.program, self.folder, self.number = program, folder, number
        self.file, self.incarnation, self.value = number + 1, 0, 0
        self.blocks = [Block() for _ in range(BLOCKS)]
        self.chance = random.Random(f"{seed} {number}")
        self.process, self.fault, self.stops = None, None, False
        self.synced = self.read = self.killed = 0

    def client(self, calls, patience=None):
        """Lets the next incarnation make these calls. It gives what it was answered, which is nothing where it was killed."""
        self.incarnation += 1
        words = [self.program, "client", str(self.number), str(self.incarnation), CLIENT_TURNS]
        self.process = subprocess.Popen(words, cwd=self.folder, stdin=subprocess.PIPE, stdout=subprocess.PIPE, text=True)
        answers, _ = self.process.communicate("".join(f"{call}\n" for call in calls), timeout=patience)
        self.killed += self.process.returncode == -signal.SIGKILL
        return answers.splitlines()

    def work(self):
        """Runs clients until it is told to stop, or one of them reads something else than it has to."""
        while not self.stops and not self.fault:
            calls = self.looks()
            for _ in range(SYNCS):
                for _ in range(BATCH):
                    self.value += 1
                    calls.append(f"write {self.file} {self.chance.randrange(BLOCKS)} {self.value}")
                calls.append(f"sync {self.file}")
                if self.chance.random() < 0.1:
                    calls.append(f"read {3 - self.file} {self.chance.randrange(BLOCKS)}")
            self.take_in(calls, self.client(calls))

    def looks(self):
        """The calls that read the blocks."""
        return [f"read {self.file} {block}" for block in range(BLOCKS)]

    def take_in(self, calls, answers):
        """Takes in what a client was answered. A call without an answer may have been made."""
        pending = {}
        for call, answer in zip(calls, answers + [""] * len(calls)):
            why = self.answered(call.split(), answer.split(), pending)
            if why:
                self.fault = f"host {self.number}, incarnation {self.incarnation}: `{call}` was answered `{answer}`, and {why}"
                return

    def answered(self, call, answer, pending):
        """Takes in the answer of one call. It gives what is wrong with it, or None."""
        name, *numbers = call
        if name == "write":
            _, number, value = map(int, numbers)
            self.blocks[number].values.append(value)
            if answer == ["ok"]:
                pending[number] = value
        elif name == "sync":
            for number, value in pending.items():
                if answer == ["ok"]:
                    self.blocks[number].has(value)
                    self.blocks[number].synced = value
                    self.synced += 1
            pending.clear()
        elif numbers[0] == str(self.file) and answer[:1] == ["ok"]:
            block, value = self.blocks[int(numbers[1])], int(answer[1])
            if value not in block.values:
                return f"{block.synced} was synchronized, so one of {block.values[:8]} has to be there"
            block.has(value)
            self.read += 1
        return None


def serve(program, folder):
    """Starts the server."""
    return subprocess.Popen([program, "serve", SERVER_TURNS, LONGEST], cwd=folder, stdout=subprocess.DEVNULL)


def kill(server):
    """Kills the server. It gives what is wrong where it had ended by itself, or None."""
    ended = server.poll()
    server.kill()
    server.wait()
    return None if ended is None else f"the server ended by itself with status {ended}"


def make_files(program, folder, hosts):
    """Lets each host make its file, one after the other. It gives what is wrong, or None."""
    server = serve(program, folder)
    try:
        for host in hosts:
            answers = host.client([f"create file{host.number} {BLOCKS}"], PATIENCE)
            if answers != [f"ok {host.file}"]:
                return f"host {host.number} could not make its file: {answers}"
        return None
    finally:
        kill(server)


def moment(chance):
    """How many seconds a server is let run: seldom a part of its boot or of its recovery."""
    part = chance.random()
    if part < 0.15:
        return chance.uniform(0, 0.2)
    if part < 0.3:
        return chance.uniform(0, RECOVERY)
    return RECOVERY + chance.uniform(0, SERVED)


def kill_often(program, folder, hosts, times, chance):
    """Kills the server so many times, while the hosts work. It gives what is wrong, or None."""
    for count in range(1, times + 1):
        server = serve(program, folder)
        try:
            time.sleep(moment(chance))
        finally:
            fault = kill(server)
        for host in hosts:
            if chance.random() < 0.3:
                host.process.kill()
        fault = fault or next((host.fault for host in hosts if host.fault), None)
        if fault:
            return fault
        print(f"killed {count} times: {sum(host.synced for host in hosts)} writes synchronized", flush=True)
    return None


def look(program, folder, hosts):
    """Lets each host read its blocks a last time. It gives what is wrong, or None."""
    server = serve(program, folder)
    try:
        for host in hosts:
            before = host.read
            host.take_in(host.looks(), host.client(host.looks(), PATIENCE))
            if host.fault or host.read - before != BLOCKS:
                return host.fault or f"host {host.number} could not read its blocks"
        return None
    finally:
        kill(server)


def session(program, folder, hosts, times, seed):
    """The whole session. It gives what is wrong, or None."""
    fault = make_files(program, folder, hosts)
    if fault:
        return fault
    threads = [threading.Thread(target=host.work) for host in hosts]
    for thread in threads:
        thread.start()
    try:
        time.sleep(0.5)
        fault = kill_often(program, folder, hosts, times, random.Random(seed))
    finally:
        for host, thread in zip(hosts, threads):
            host.stops = True
            host.process.kill()
            thread.join()
    return fault or look(program, folder, hosts)


def main():
    parser = argparse.ArgumentParser(description=__doc__.splitlines()[0])
    parser.add_argument("--program", default=str(ROOT / "crates/nqnfs/out/nqnfs"))
    parser.add_argument("--times", type=int, default=50)
    parser.add_argument("--seed", type=int, default=1)
    given = parser.parse_args()
    program = str(pathlib.Path(given.program).resolve())
    with tempfile.TemporaryDirectory() as name:
        folder = pathlib.Path(name)
        subprocess.run([program, "format"], cwd=folder, check=True)
        hosts = [Host(program, folder, number, given.seed) for number in range(2)]
        fault = session(program, folder, hosts, given.times, given.seed)
    if fault:
        sys.exit(fault)
    synced, read, clients, killed = (sum(getattr(host, what) for host in hosts) for what in ("synced", "read", "incarnation", "killed"))
    print(f"all right: the server was killed {given.times} times, and {killed} of {clients} clients; {synced} writes were synchronized, and each of {read} reads was right")


if __name__ == "__main__":
    main()
