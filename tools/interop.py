#!/usr/bin/env python3
"""Lets a C client ask the built server, and lets the dissector read what went over the wire.

  tools/interop.py [--program FILE] [--no-capture]

It makes stubs of docs/nqnfs.x by rpcgen, builds tools/client.c over them, and runs it against `nqnfs serve` on the loopback
interface. tcpdump captures the session, which needs root, and tshark shows it by tools/nqnfs.lua; each call, reply and notice has to
come out as it stands below. On Debian: apt-get install gcc rpcsvc-proto libtirpc-dev tcpdump tshark. The program is built before, in
`crates/nqnfs` by `rt run`. The status is 1 where something differs. The gate does not run this.
"""

import argparse
import pathlib
import shutil
import subprocess
import sys
import tempfile
import time

ROOT = pathlib.Path(__file__).resolve().parent.parent
TURNS = "4000"
WHO = "host 5 incarnation 1"

# What the dissector tells of the session, in order. A call that the client sends again, since an answer was late, is told once.
SESSION = [
    "NULL",
    "reply to NULL",
    f"LOOKUP, {WHO} paper",
    "reply to LOOKUP: NOTATTACHED",
    f"ATTACH, {WHO} ",
    "reply to ATTACH: OK ",
    f"LOOKUP, {WHO} paper",
    "reply to LOOKUP: NOENT",
    f"CREATE, {WHO} paper of 2 blocks",
    "reply to CREATE: OK file 1",
    f"CREATE, {WHO} paper of 2 blocks",
    "reply to CREATE: OK file 1",
    f"LOOKUP, {WHO} paper",
    "reply to LOOKUP: OK file 1 of 2 blocks",
    f"GETATTR, {WHO} file 1",
    "reply to GETATTR: OK 2 blocks, revision 0",
    f"WRITE, {WHO} file 1 block 1 value 1802201963",
    "reply to WRITE: OK revision 1",
    f"READ, {WHO} file 1 block 1, wants a lease",
    "reply to READ: OK value 1802201963, revision 1, with a lease",
    f"READ, {WHO} file 1 block 2",
    "reply to READ: INVAL",
    f"GETLEASE, {WHO} file 1",
    "reply to GETLEASE: OK with a lease",
    f"VACATED, {WHO} file 1",
    f"RESIZE, {WHO} file 1 to 1 blocks",
    "reply to RESIZE: OK revision 2",
    f"RESIZE, {WHO} file 1 to 1 blocks",
    "reply to RESIZE: OLD",
    f"REMOVE, {WHO} file 1",
    "reply to REMOVE: OK ",
    f"READ, {WHO} file 1 block 0",
    "reply to READ: STALE",
    "NULL",
    "reply to NULL: PROG_MISMATCH",
    "procedure 12",
    "reply to 12: PROC_UNAVAIL",
    # a LOOKUP without arguments
    "malformed message (The message ends too early, or too late)",
    "reply to LOOKUP: GARBAGE_ARGS",
]


def lacking(names):
    """The commands of these that are not here."""
    return [name for name in names if shutil.which(name) is None]


def build(folder):
    """Makes the stubs and the C client in a folder."""
    shutil.copy(ROOT / "docs/nqnfs.x", folder)
    shutil.copy(ROOT / "tools/client.c", folder)
    for flag, made in (("-h", "nqnfs.h"), ("-c", "nqnfs_xdr.c"), ("-l", "nqnfs_clnt.c")):
        subprocess.run(["rpcgen", "-C", flag, "-o", made, "nqnfs.x"], cwd=folder, check=True)
    flags = subprocess.run(["pkg-config", "--cflags", "--libs", "libtirpc"], stdout=subprocess.PIPE, text=True, check=True).stdout.split()
    subprocess.run(["cc", "-o", "client", "client.c", "nqnfs_xdr.c", "nqnfs_clnt.c", *flags], cwd=folder, check=True)


def session(program, folder, captures):
    """Runs the server and the client, and captures what they send. It gives the status of the client."""
    capture = None
    if captures:
        words = ["tcpdump", "-i", "lo", "-U", "-s", "0", "-w", "session.pcap", "udp", "port", "20560"]
        capture = subprocess.Popen(words, cwd=folder, stderr=subprocess.DEVNULL)
        time.sleep(2)
    subprocess.run([program, "format"], cwd=folder, check=True)
    server = subprocess.Popen([program, "serve", TURNS], cwd=folder, stdout=subprocess.DEVNULL)
    time.sleep(0.5)
    try:
        return subprocess.run(["./client"], cwd=folder, timeout=120, check=False).returncode
    finally:
        server.kill()
        server.wait()
        if capture:
            time.sleep(1)
            capture.terminate()
            capture.wait()


def told(folder):
    """What the dissector tells of each datagram, without the repeats of a call and of its reply."""
    words = ["tshark", "-X", f"lua_script:{ROOT / 'tools/nqnfs.lua'}", "-r", "session.pcap", "-T", "fields"]
    words += ["-e", "nqnfs.xid", "-e", "nqnfs.direction", "-e", "_ws.expert.message", "-e", "_ws.col.Info"]
    lines = subprocess.run(words, cwd=folder, stdout=subprocess.PIPE, stderr=subprocess.DEVNULL, text=True, check=True).stdout.splitlines()
    seen, found = set(), []
    for line in lines:
        xid, direction, fault, info = line.split("\t")
        if (xid, direction, info) not in seen:
            seen.add((xid, direction, info))
            found.append(info + (f" ({fault})" if fault else ""))
    return found


def main():
    parser = argparse.ArgumentParser(description=__doc__.splitlines()[0])
    parser.add_argument("--program", default=str(ROOT / "crates/nqnfs/out/nqnfs"))
    parser.add_argument("--no-capture", action="store_true", help="only run the client")
    given = parser.parse_args()
    captures = not given.no_capture
    absent = lacking(["cc", "rpcgen", "pkg-config"] + (["tcpdump", "tshark"] if captures else []))
    if absent:
        sys.exit(f"not here: {' '.join(absent)}; apt-get install gcc pkg-config rpcsvc-proto libtirpc-dev tcpdump tshark")
    program = str(pathlib.Path(given.program).resolve())
    with tempfile.TemporaryDirectory() as folder:
        build(folder)
        if session(program, folder, captures):
            sys.exit("the client saw a wrong answer")
        found = told(folder) if captures else SESSION
    for number, (one, other) in enumerate(zip(found, SESSION), 1):
        if one.strip() != other.strip():
            sys.exit(f"datagram {number}: the dissector tells {one!r}, and should tell {other!r}")
    if len(found) != len(SESSION):
        sys.exit(f"the dissector tells of {len(found)} datagrams, and should tell of {len(SESSION)}")
    print(f"all right: {len(SESSION)} datagrams" if captures else "all right")


if __name__ == "__main__":
    main()
