#!/usr/bin/env python3
"""Leaves `nqnfsd` running under load, kills it by SIGKILL and starts it again, and says what it took.

  tools/left_running.py [--program FILE] [--times N] [--requests N] [--clients N] [--strange N]

In a folder of its own the server makes an image. Then, N times (5): when it has recovered, the clients of bench/loopback.c (64) have N READs
(2,000,000) answered, each client one after another. Behind them come datagrams of strangers, and of hosts that send nonsense (20,000). The
server is left alone for two seconds, then asked again, and killed a second later. In the end it is started once more. For each time a line
has the READs a second, the median and the 99th percentile of the round trip, the memory before and after, the most memory so far, and the
share of a processor that an idle server took. The line that the server prints as it starts stands before. The status is 1 where a READ got no
answer or a wrong one, or the image did not open. The program is built before, in `crates/nqnfsd` by `rt run -- --help`.
"""

import argparse
import pathlib
import random
import re
import signal
import socket
import subprocess
import tempfile
import time

ROOT = pathlib.Path(__file__).resolve().parent.parent
PORT = 20560
# The longest lease in seconds; a recovery takes 8 more.
LONGEST = "5"
# More requests than are answered before the server is killed.
ENDLESS = "100000000"
# A port of nobody, and that of the last host.
STRANGERS_PORT, LAST_HOSTS_PORT = 31000, PORT + 64


def started(program, image):
    """A server that has recovered; prints what it says as it starts."""
    words = [program, image, "--longest", LONGEST, "--every", "3600"]
    server = subprocess.Popen(words, stdout=subprocess.PIPE, text=True)
    line = server.stdout.readline().strip()
    print(line, flush=True)
    found = re.search(r"recovers for (\d+) seconds", line)
    if not found:
        raise SystemExit("the image did not open")
    time.sleep(int(found[1]) + 2 if int(found[1]) else 0.5)
    return server


def killed(server):
    """Ends a server at once."""
    server.send_signal(signal.SIGKILL)
    server.wait()
    server.stdout.close()


def memory(server, name):
    """The kilobytes that the machine tells under a name."""
    text = pathlib.Path(f"/proc/{server.pid}/status").read_text()
    return int(re.search(rf"{name}:\s+(\d+)", text)[1])


def idles(server):
    """The percent of a processor that a server takes with nothing to do."""
    def ticks():
        words = pathlib.Path(f"/proc/{server.pid}/stat").read_text().rpartition(")")[2].split()
        return int(words[11]) + int(words[12])

    before = ticks()
    time.sleep(2)
    return (ticks() - before) / 2


def disturbed(count, chance):
    """Sends datagrams of a stranger and nonsense of a host, half of each."""
    for port in STRANGERS_PORT, LAST_HOSTS_PORT:
        with socket.socket(socket.AF_INET, socket.SOCK_DGRAM) as out:
            out.bind(("127.0.0.1", port))
            for _ in range(count // 2):
                out.sendto(chance.randbytes(chance.randrange(200)), ("127.0.0.1", PORT))


def main():
    parser = argparse.ArgumentParser(description=__doc__.splitlines()[0])
    parser.add_argument("--program", default=str(ROOT / "crates/nqnfsd/out/nqnfsd"))
    parser.add_argument("--times", type=int, default=5)
    parser.add_argument("--requests", type=int, default=2_000_000)
    parser.add_argument("--clients", type=int, default=64)
    parser.add_argument("--strange", type=int, default=20_000)
    given = parser.parse_args()
    chance = random.Random(1)
    with tempfile.TemporaryDirectory() as folder:
        tool, image = f"{folder}/loopback", f"{folder}/nqnfs.img"
        subprocess.run(["cc", "-O2", "-o", tool, ROOT / "bench/loopback.c"], check=True)
        ask = [tool, "ask", str(PORT), str(given.clients)]
        for _ in range(given.times):
            server = started(given.program, image)
            first = memory(server, "VmRSS")
            said = subprocess.run([*ask, str(given.requests), "read"], check=True, capture_output=True, text=True).stdout
            seconds, median, late = map(float, said.split())
            disturbed(given.strange, chance)
            idle = idles(server)
            last, most = memory(server, "VmRSS"), memory(server, "VmHWM")
            print(f"{given.requests / seconds:,.0f} READs a second, {median:.0f} us, {late:.0f} us; memory {first} kB, {last} kB, "
                  f"at most {most} kB; idle {idle:.1f}%", flush=True)
            load = subprocess.Popen([*ask, ENDLESS, "read"], stdout=subprocess.DEVNULL, stderr=subprocess.DEVNULL)
            time.sleep(1)
            killed(server)
            load.wait()
        killed(started(given.program, image))
        print(f"{given.times * given.requests:,} READs were answered, and the image opened behind each of {given.times} kills")


if __name__ == "__main__":
    main()
