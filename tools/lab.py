#!/usr/bin/env python3
"""Tries nqnfs_lab: in each example each packet is lost, comes twice and comes later, over HTTP.

  tools/lab.py [--lab FILE] [--nqnfs FILE] [--look FILE] [--port N]

Each answer has to be a run, of which the parts are what `nqnfs replay`, `nqnfs check` and `nqnfs_look tell` print for the same text. The events
that are kept and those that are left out are together the old ones, in their order, and a packet that is lost is never delivered. It also tries
requests that are to be refused, and peers that send nothing. The program is started on the port and ended by this script.
"""

import argparse
import http.client
import json
import pathlib
import re
import socket
import subprocess
import sys
import time

ROOT = pathlib.Path(__file__).resolve().parent.parent
SENT = re.compile(r"\bsends (\d+) to ")
DELIVERY = re.compile(r"deliver (\d+)$")


class Lab:
    """A laboratory that was started, and how it is asked."""

    def __init__(self, port):
        self.port = port

    def ask(self, method, path, body=None, headers=None):
        """The status of an answer, and its body."""
        link = http.client.HTTPConnection("127.0.0.1", self.port, timeout=30)
        link.request(method, path, body=body, headers=headers or {})
        answer = link.getresponse()
        read = answer.read()
        link.close()
        return answer.status, read

    def object(self, path, body):
        """The object that is answered."""
        status, read = self.ask("POST", path, body)
        assert status == 200, f"{path}: {status} {read[:200]}"
        return json.loads(read)

    def run(self, schedule):
        return self.object("/run", schedule.encode())

    def bend(self, schedule, bends, then="go on"):
        return self.object("/bend", json.dumps({"schedule": schedule, "bends": bends, "then": then}))


class Programs:
    """What the other programs print."""

    def __init__(self, nqnfs, look):
        self.nqnfs = nqnfs
        self.look = look

    def told(self, schedule):
        """What is told of a schedule's run; None of what is printed by a program that is not there."""
        printed = said(self.nqnfs, "replay", given=schedule)
        verdict = said(self.nqnfs, "check", given=printed) if printed is not None else None
        told = said(self.look, "tell", given=schedule)
        return {"printed": printed, "verdict": verdict, "told": told}


def said(program, *words, given):
    """What a program prints; it may end with any status."""
    if not pathlib.Path(program).exists():
        return None
    return subprocess.run([program, *words], input=given, stdout=subprocess.PIPE, text=True).stdout


def events_of(told):
    """How many events and packets a run has, as it is told."""
    lines = told.splitlines()
    packets = [int(number) for line in lines for number in SENT.findall(line)]
    return len(lines), max(packets, default=-1) + 1


def lines_of(schedule):
    """The lines of the events of a bent schedule, which has a line for each."""
    lines = schedule.splitlines()
    return lines[lines.index("begin") + 1:-1]


def check_bent(bent, events, plain, lost=None):
    """Whether an answer says what became of the old events. `plain` has the lines of the unbent run."""
    lines = lines_of(bent["schedule"])
    assert len(lines) == len(bent["origin"]), "an origin for each event"
    kept = [place for place in bent["origin"] if place >= 0]
    left = [out["event"] for out in bent["left_out"]]
    assert kept == sorted(kept), "the old events stand in their order"
    assert sorted(kept + left) == list(range(events)), "each old event is kept or left out"
    for line, place in zip(lines, bent["origin"]):
        if place >= 0 and not DELIVERY.match(line):
            assert line == plain[place], f"{line} is {plain[place]}"
        if lost is not None:
            assert line != f"deliver {lost}", f"packet {lost} is lost"
    for out in bent["left_out"]:
        assert out["line"] == plain[out["event"]], "a delivery is left out"


def compare(programs, answer, schedule, where):
    """Whether an answer has what the other programs print for the schedule."""
    for name, wanted in programs.told(schedule).items():
        assert wanted is None or answer[name] == wanted, f"{where}: {name}"


def try_packets(lab, programs, file):
    """Loses, doubles and delays each packet of an example; how many answers were looked at."""
    schedule = file.read_text()
    run = lab.run(schedule)
    assert run["status"] == 0, file.name
    compare(programs, run, schedule, file.name)
    events, packets = events_of(run["told"])
    plain = lines_of(lab.bend(schedule, [], "stop")["schedule"])
    assert len(plain) == events, f"{len(plain)} lines, {events} events"
    for packet in range(packets):
        later = {"kind": "later", "packet": packet, "event": events}
        for bend in ({"kind": "lose", "packet": packet}, {"kind": "twice", "packet": packet}, later):
            bent = lab.bend(schedule, [bend])
            assert bent["status"] == 0, f"{file.name} {bend}: {bent['printed']}"
            assert bent["verdict"] == "yes\n", f"{file.name} {bend}: {bent['verdict']}"
            check_bent(bent, events, plain, packet if bend["kind"] == "lose" else None)
            compare(programs, bent, bent["schedule"], f"{file.name} {bend}")
    return 3 * packets


def try_refusals(lab):
    """Tries what is to be refused."""
    refused = [
        (403, lab.ask("GET", "/", headers={"Host": "example.org"})),
        (403, lab.ask("POST", "/run", b"", headers={"Origin": "http://example.org"})),
        (404, lab.ask("GET", "/../crates.txt")),
        (404, lab.ask("GET", "/examples/%2e%2e/README.md")),
        (404, lab.ask("POST", "/nothing", b"{}")),
        (405, lab.ask("PUT", "/run", b"")),
        (400, lab.ask("POST", "/bend", b"no object")),
        (413, lab.ask("POST", "/run", b"x" * 1_048_577)),
    ]
    for wanted, (status, _) in refused:
        assert status == wanted, f"{status}, and not {wanted}"
    status, body = lab.ask("GET", "/", headers={"Host": f"localhost:{lab.port}"})
    assert status == 200 and body.startswith(b"<!doctype html>")
    assert lab.run("nqnfs-schedule 1\n")["printed"] == "script line 2\n"


def try_idle(lab, schedule):
    """Tries that peers which send nothing, or half of a request, hold nobody up."""
    peers = [socket.create_connection(("127.0.0.1", lab.port)) for _ in range(40)]
    for peer in peers[::2]:
        peer.sendall(b"POST /run HTTP/1.1\r\nHost: 127.0.0.1\r\n")
    began = time.monotonic()
    assert lab.run(schedule)["status"] == 0
    assert time.monotonic() - began < 0.5, "an idle peer holds others up"
    for peer in peers:
        peer.close()


def main():
    words = argparse.ArgumentParser(description=__doc__.splitlines()[0])
    words.add_argument("--lab", default=str(ROOT / "crates/nqnfs_lab/out/nqnfs_lab"))
    words.add_argument("--nqnfs", default=str(ROOT / "crates/nqnfs/out/nqnfs"))
    words.add_argument("--look", default=str(ROOT / "crates/nqnfs_look/out/nqnfs_look"))
    words.add_argument("--port", type=int, default=8059)
    words.add_argument("names", nargs="*", help="examples; all of them where none is named")
    asked = words.parse_args()
    started = subprocess.Popen([asked.lab, "--port", str(asked.port), "--web", str(ROOT / "web")], stdout=subprocess.PIPE, text=True)
    try:
        assert started.stdout.readline() == f"http://127.0.0.1:{asked.port}/\n"
        lab = Lab(asked.port)
        programs = Programs(asked.nqnfs, asked.look)
        files = sorted((ROOT / "examples").glob("*.schedule"))
        for file in files:
            if not asked.names or file.stem in asked.names:
                began = time.monotonic()
                count = try_packets(lab, programs, file)
                print(f"{file.stem}: {count} answers, {time.monotonic() - began:.1f} s", flush=True)
        try_refusals(lab)
        try_idle(lab, files[0].read_text())
        print("refusals and idle peers: as wanted")
    finally:
        started.terminate()
        started.wait()
    return 0


if __name__ == "__main__":
    sys.exit(main())
