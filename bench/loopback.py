#!/usr/bin/env python3
"""Times clients against a server over the loopback interface, beside a bare echo.

  bench/loopback.py [--program FILE | --daemon FILE] [--requests N] [--rounds N] [--pin]

The server is `nqnfs serve`, or with --daemon `nqnfsd`. The clients and the echo are bench/loopback.c, which `cc` compiles. Each client asks
one request after another, each when the reply to the last one is there. For LOOKUP, READ without a wish and WRITE that goes through it prints
requests per second, and the median and the 99th percentile of the round trip: of each the median of all rounds. READ is tried with 1, 8 and 64
clients, in each round behind an echo that answers each datagram by the 4136 bytes that a reply to READ has. Beside WRITE stand four bare
writes of 4096 bytes to a file in the same folder, each with its sync. With --pin the server, or the echo, runs on one processor and the clients on
another, both before all else there (`chrt`, for root), so that a busy machine gives steady figures. In the end the server is left alone for two seconds, and the share of a processor that it took is printed.
"""

import argparse
import os
import pathlib
import statistics
import subprocess
import tempfile
import time

ROOT = pathlib.Path(__file__).resolve().parent.parent
PORT = 20560
ECHO_PORT = 21560
# Turns of a server, which waits a little in each where nothing comes.
MOST_TURNS = 1_000_000
# On which processors a server and the clients run where they are pinned.
SERVER_PLACE, CLIENT_PLACE = 2, 3


class Bench:
    """What is measured, and where."""

    def __init__(self, given, folder):
        self.folder = folder
        self.tool = f"{folder}/loopback"
        self.program = pathlib.Path(given.daemon or given.program).resolve()
        self.is_daemon = given.daemon is not None
        self.requests = given.requests
        self.rounds = given.rounds
        self.is_pinned = given.pin
        subprocess.run(["cc", "-O2", "-o", self.tool, ROOT / "bench/loopback.c"], check=True)

    def placed(self, words, place):
        """The words that start a program, on one processor and before all else where they are pinned."""
        pinned = ["chrt", "-f", "50", "taskset", "-c", str(place)]
        return [*(pinned if self.is_pinned else []), *map(str, words)]

    def asked(self, port, clients, requests, kind):
        """Requests per second, and the median and 99th percentile of the round trip in microseconds."""
        words = self.placed([self.tool, "ask", port, clients, requests, kind], CLIENT_PLACE)
        said = subprocess.run(words, check=True, capture_output=True, text=True).stdout
        seconds, median, late = map(float, said.split())
        return requests / seconds, median, late

    def echoed(self, clients):
        """What a bare echo takes."""
        echo = subprocess.Popen(self.placed([self.tool, "echo", ECHO_PORT, self.requests], SERVER_PLACE))
        try:
            time.sleep(0.3)
            return self.asked(ECHO_PORT, clients, self.requests, "echo")
        finally:
            echo.kill()
            echo.wait()

    def started(self):
        """A server over an empty image."""
        image = pathlib.Path(self.folder, "nqnfs.img")
        image.unlink(missing_ok=True)
        words = [self.program, image]
        if not self.is_daemon:
            subprocess.run([self.program, "format"], cwd=self.folder, check=True)
            words = [self.program, "serve", MOST_TURNS]
        words = self.placed(words, SERVER_PLACE)
        server = subprocess.Popen(words, cwd=self.folder, stdout=subprocess.DEVNULL)
        time.sleep(0.5)
        return server

    def served(self, clients, requests, kind):
        """What a server of its own takes."""
        server = self.started()
        try:
            return self.asked(PORT, clients, requests, kind)
        finally:
            server.kill()
            server.wait()

    def idles(self):
        """The share of a processor that a server takes with nothing to do."""
        server = self.started()
        try:
            before, begun = processor_seconds(server.pid), time.perf_counter()
            time.sleep(2)
            return (processor_seconds(server.pid) - before) / (time.perf_counter() - begun)
        finally:
            server.kill()
            server.wait()

    def written(self, times):
        """What four bare writes to a file take, each with its sync."""
        words = self.placed([self.tool, "bare", f"{self.folder}/bare", times], SERVER_PLACE)
        said = subprocess.run(words, check=True, capture_output=True, text=True).stdout
        seconds, median, late = map(float, said.split())
        return times / seconds, median, late

    def medians(self, *kinds):
        """The medians of all rounds, in which one kind is measured behind the other."""
        seen = [[kind() for kind in kinds] for _ in range(self.rounds)]
        return [tuple(map(statistics.median, zip(*column))) for column in zip(*seen)]


def tell(what, figures, other=None):
    """Prints a line of the table."""
    rate, median, late = figures
    beside = f"{rate / other[0]:.2f}" if other else ""
    print(f"| {what} | {rate:,.0f} | {median:.1f} us | {late:.1f} us | {beside} |", flush=True)


def processor_seconds(process):
    """The processor time that a process took so far."""
    words = pathlib.Path(f"/proc/{process}/stat").read_text().rpartition(")")[2].split()
    return (int(words[11]) + int(words[12])) / os.sysconf("SC_CLK_TCK")


def main():
    parser = argparse.ArgumentParser(description=__doc__.splitlines()[0])
    parser.add_argument("--program", default=str(ROOT / "crates/nqnfs/out/nqnfs"))
    parser.add_argument("--daemon")
    parser.add_argument("--requests", type=int, default=100_000)
    parser.add_argument("--writes", type=int, default=1_000)
    parser.add_argument("--rounds", type=int, default=5)
    parser.add_argument("--pin", action="store_true")
    given = parser.parse_args()
    with tempfile.TemporaryDirectory() as folder:
        bench = Bench(given, folder)
        print("| request | a second | median | 99th percentile | beside |")
        print("|---|---|---|---|---|")
        tell("LOOKUP", *bench.medians(lambda: bench.served(1, given.requests, "lookup")))
        bare, write = bench.medians(
            lambda: bench.written(given.writes), lambda: bench.served(1, given.writes, "write")
        )
        tell("four bare writes, each with its sync", bare)
        tell("WRITE", write, bare)
        for clients in 1, 8, 64:
            echo, read = bench.medians(
                lambda: bench.echoed(clients), lambda: bench.served(clients, given.requests, "read")
            )
            tell(f"echo, {clients} clients", echo)
            tell(f"READ, {clients} clients", read, echo)
        print(f"a server that has nothing to do takes {bench.idles():.1%} of a processor")


if __name__ == "__main__":
    main()
