#!/usr/bin/env python3
"""Runs the built program as a server and as clients, each in a process of its own, over UDP on this machine.

  tools/processes.py [--program FILE]

Host 2 delays a write of the file `kept` and ends, so that its lease stands until the server ends it. Host 0 delays two writes of the
file `paper`, makes the file `mark`, and reads `kept`, which has to wait for host 2's lease. When `mark` is there, host 1 reads
`paper` and so recalls host 0's lease, and then it writes the block itself. What each of them prints is compared with what the
protocol gives. The program is built before, in `crates/nqnfs` by `rt run`. The status is 1 where something differs. It takes half a
minute, and the gate does not run this.
"""

import argparse
import pathlib
import re
import subprocess
import sys
import tempfile
import time

ROOT = pathlib.Path(__file__).resolve().parent.parent

# Turns of the server, and of a client for each call; one where nothing comes takes 5 milliseconds.
SERVER_TURNS, CLIENT_TURNS = "1000000", "20000"
# How many seconds a lease lasts at most. A holder sends what it delayed 3 seconds before the end, though nobody asks.
LONGEST = 15
SOON = LONGEST - 5
# How long a process is waited for, in seconds.
PATIENCE = 120

# What each host calls, and what is answered: `by` stands where the answer came from the server, behind it a number of a datagram.
ENDING = [("create kept 1", "ok 1"), ("write 1 0 5", "ok")]
HOLDING = [
    ("create paper 1", "ok 2"),
    ("write 2 0 7", "ok"),
    ("write 2 0 8", "ok"),
    ("read 2 0", "ok 8"),
    ("create mark 1", "ok 3"),
    # What host 2 delayed is lost.
    ("read 1 0", "ok 0 by"),
    # The block that host 0 kept is older than that of host 1.
    ("read 2 0", "ok 9 by"),
]
ASKING = [("lookup paper", "ok 2"), ("read 2 0", "ok 8 by"), ("put 2 0 9", "ok"), ("read 2 0", "ok 9 by")]
FINDING = [("lookup mark", "ok 3")]


class Client:
    """A client in a process of its own, which has read its calls."""

    def __init__(self, program, host, incarnation, calls):
        self.name, self.calls = f"host {host}", calls
        words = [program, "client", str(host), str(incarnation), CLIENT_TURNS]
        self.process = subprocess.Popen(words, stdin=subprocess.PIPE, stdout=subprocess.PIPE, text=True)
        self.process.stdin.write("".join(call + "\n" for call, _ in calls))
        self.process.stdin.close()

    def answers(self):
        """What it printed when it has ended, without the numbers of datagrams."""
        self.process.wait(timeout=PATIENCE)
        return [re.sub(r" by \d+$", " by", line) for line in self.process.stdout.read().splitlines()]

    def fault(self):
        """What differs from what should be answered, or None."""
        wanted = [answer for _, answer in self.calls]
        answers = self.answers()
        if (answers, self.process.returncode) == (wanted, 0):
            return None
        return f"{self.name} ended with status {self.process.returncode} and printed {answers}, and should print {wanted}"


def finds_mark(program):
    """The incarnations that host 1 has taken when it finds `mark`."""
    until = time.monotonic() + PATIENCE
    incarnation = 0
    while time.monotonic() < until:
        incarnation += 1
        if Client(program, 1, incarnation, FINDING).fault() is None:
            return incarnation
    sys.exit("host 0 did not come to make `mark`")


def session(program, clients):
    """Lets the hosts call, and gives what differs, or None. Each client that it starts is put on the list."""

    def start(host, incarnation, calls):
        clients.append(Client(program, host, incarnation, calls))
        return clients[-1]

    fault = start(2, 1, ENDING).fault()
    if fault:
        return fault
    begun = time.monotonic()
    holder = start(0, 1, HOLDING)
    fault = start(1, finds_mark(program) + 1, ASKING).fault()
    if fault:
        return fault
    if time.monotonic() - begun > SOON:
        return "host 1 had its block so late that host 0 may have sent it without being asked"
    if holder.process.poll() is not None:
        return "host 0 did not wait for the lease of host 2"
    return holder.fault()


def main():
    parser = argparse.ArgumentParser(description=__doc__.splitlines()[0])
    parser.add_argument("--program", default=str(ROOT / "crates/nqnfs/out/nqnfs"))
    program = str(pathlib.Path(parser.parse_args().program).resolve())
    clients = []
    with tempfile.TemporaryDirectory() as folder:
        subprocess.run([program, "format"], cwd=folder, check=True)
        server = subprocess.Popen([program, "serve", SERVER_TURNS, str(LONGEST)], cwd=folder, stdout=subprocess.DEVNULL)
        try:
            time.sleep(0.5)
            fault = session(program, clients)
        finally:
            for process in [server, *(client.process for client in clients)]:
                process.kill()
                process.wait()
    if fault:
        sys.exit(fault)
    print("all right: host 1 had the block that host 0 gave up, and host 0 read that of host 1")


if __name__ == "__main__":
    main()
