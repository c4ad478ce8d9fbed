#!/usr/bin/env python3
"""Tries hosts that are left alone, begun in another folder, told to end, stopped, and asked by many at once.

  tools/prompts.py [--host FILE] [--user FILE] [--server FILE] [--seconds N] [SCENE ..]

`idle`: somebody writes and reads two files at host 0 and leaves it alone for 45 seconds, longer than its leases. Host 1 writes one of them then.
What host 0 reads next has to be what host 1 wrote, and what it writes next has to be stored. `folder`: host 0 makes a file and is killed, and
begins again in another folder. The file that it makes there has to be another one. `shared`: two hosts write and read one file in turn, without
waiting for leases to run out. `words`: each line that cannot be done is answered with what is wrong. `end`: host 0 is told to end behind a
write, which has to be stored. `lost`: host 0 is stopped behind a write until host 1 could write. Whoever asks host 0 next has to be told of
the loss. `names`: names are listed, and of one that is removed nothing stays. `left`: bytes that are told under no name any more go, though nobody
asks their host. `waits`: whoever waits is told why. `many`: for N seconds (60)
four askers store and get whole files of two names at two hosts, while askers, hosts and the server are killed. Each file that is got has to be
one that was stored and that no later one had replaced. Each scene (all, where none is named) has a server of its own and says what
came. The status is 1 where something else came than has to. Build the three programs before.
"""

import argparse
import pathlib
import random
import select
import signal
import subprocess
import tempfile
import threading
import time

ROOT = pathlib.Path(__file__).resolve().parent.parent
# Longer than a lease of 30 seconds, the skew and the write slack.
IDLE = 45
# For how many seconds nobody asks a host, so that it has looked after what it stored.
LOOKS = 25
# For how many seconds an answer is waited for.
PATIENCE = 60


class Host:
    """A host in a folder, and somebody at a prompt who asks it."""

    def __init__(self, programs, number, folder):
        folder.mkdir(exist_ok=True)
        self.number, self.folder = number, folder
        self.process = subprocess.Popen([programs.host, str(number)], cwd=folder, stdout=subprocess.PIPE)
        self.process.stdout.readline()
        self.prompt = subprocess.Popen([programs.user, str(number)], cwd=folder, stdin=subprocess.PIPE, stdout=subprocess.PIPE,
                                       stderr=subprocess.DEVNULL, bufsize=0)

    def asks(self, line, wanted):
        """Whether a line is answered so."""
        self.prompt.stdin.write(line.encode(errors="surrogateescape") + b"\n")
        return self.hears(wanted, line)

    def hears(self, wanted, line="next"):
        """Whether the next line of the prompt is this one."""
        ready, _, _ = select.select([self.prompt.stdout], [], [], PATIENCE)
        answer = self.prompt.stdout.readline().decode().strip() if ready else "nothing"
        if answer != wanted:
            print(f"host {self.number}: {line}: {answer}; wanted: {wanted}", flush=True)
        return answer == wanted

    def ends(self):
        """Kills it, and the prompt."""
        for process in self.prompt, self.process:
            process.kill()
            process.wait()


def idle(programs, folder, _seconds):
    """Whether a host that was left alone reads what is there, and writes what is stored."""
    one, other = Host(programs, 0, folder / "one"), Host(programs, 1, folder / "other")
    try:
        went = [one.asks("create paper 1", "ok, file 1"), one.asks("create notes 1", "ok, file 2"), one.asks("write 1 0 5", "ok"),
                one.asks("write 2 0 5", "ok"), one.asks("read 1 0", "ok, value 5")]
        time.sleep(IDLE)
        went += [other.asks("write 1 0 6", "ok"), one.asks("read 1 0", "ok, value 6"), one.asks("fetch 1 0", "ok, value 6"),
                 one.asks("write 2 0 7", "ok"), one.asks("fetch 2 0", "ok, value 7")]
        return all(went)
    finally:
        one.ends()
        other.ends()


def folder(programs, folder, _seconds):
    """Whether a host that begins again in another folder makes a file of its own."""
    first = Host(programs, 0, folder / "one")
    went = [first.asks("create paper 1", "ok, file 1"), first.asks("put 1 0 5", "ok")]
    first.ends()
    second = Host(programs, 0, folder / "other")
    went += [second.asks("create notes 1", "ok, file 2"), second.asks("put 2 0 6", "ok"), second.asks("fetch 1 0", "ok, value 5")]
    second.ends()
    return all(went)


def shared(programs, folder, _seconds):
    """Whether two who write one file in turn do not wait for each other's leases to run out."""
    one, other = Host(programs, 0, folder / "one"), Host(programs, 1, folder / "other")
    try:
        went = [one.asks("create paper 1", "ok, file 1")]
        begun = time.monotonic()
        for value in range(1, 11):
            writer, reader = (one, other) if value % 2 else (other, one)
            went += [writer.asks(f"write 1 0 {value}", "ok"), reader.asks("read 1 0", f"ok, value {value}")]
        took = time.monotonic() - begun
        print(f"shared: 20 calls in {took:.1f} seconds", flush=True)
        return all(went) and took < 10
    finally:
        one.ends()
        other.ends()


def words(programs, folder, _seconds):
    """Whether each line that cannot be done gets one that says why, and the prompt goes on."""
    one = Host(programs, 0, folder / "one")
    try:
        went = [one.asks("exit", "no line begins so; help tells what there is, and quit ends"),
                one.asks("\udcff", "no line begins so; help tells what there is, and quit ends"),
                one.asks("create a/b 1", "that is no name: it has 1 to 64 printable bytes of ASCII, without blanks and without /"),
                one.asks("read 4294967296 0", "that is no number: it is 0 to 4294967295, without a sign and without zeros in front"),
                one.asks("read 1", "a word is missing; help tells what stands where, with one blank between two words"),
                one.asks("sync 1 1", "there is a word too many; help tells what stands where, with one blank between two words"),
                one.asks("store none paper", "none is not there, or its folder is not"), one.asks("get none copy", "noentry: no file has this name"),
                one.asks("sync 9", "ok"), one.asks("create paper 1", "ok, file 1")]
        return all(went)
    finally:
        one.ends()


def end(programs, folder, _seconds):
    """Whether a host that is told to end stores what it delays."""
    one, other = Host(programs, 0, folder / "one"), Host(programs, 1, folder / "other")
    try:
        went = [one.asks("create paper 1", "ok, file 1"), one.asks("write 1 0 5", "ok"), one.asks("end", "ok")]
        went += [one.process.wait(PATIENCE) == 0, other.asks("fetch 1 0", "ok, value 5")]
        return all(went)
    finally:
        one.ends()
        other.ends()


def lost(programs, folder, _seconds):
    """Whether a write that came too late is told, with its file and its block, to whoever asks next."""
    one, other = Host(programs, 0, folder / "one"), Host(programs, 1, folder / "other")
    try:
        went = [one.asks("create paper 2", "ok, file 1"), one.asks("write 1 1 5", "ok")]
        one.process.send_signal(signal.SIGSTOP)
        went += [other.asks("write 1 1 6", "ok"), other.asks("sync 1", "ok")]
        one.process.send_signal(signal.SIGCONT)
        time.sleep(3)
        went += [one.asks("lookup paper", "lost: delayed writes came too late: (file 1, block 1)"), one.hears("ok, file 1"),
                 one.asks("lookup paper", "ok, file 1"), one.asks("fetch 1 1", "ok, value 6")]
        return all(went)
    finally:
        one.process.send_signal(signal.SIGCONT)
        one.ends()
        other.ends()


def names(programs, folder, _seconds):
    """Whether names are listed by their prefix, and of a name that is removed no bytes stay behind."""
    one = Host(programs, 0, folder / "one")
    (folder / "one" / "copy").write_bytes(b"x" * 5000)
    try:
        went = [one.asks("ls", "ok, no file"), one.asks("create paper 1", "ok, file 1"), one.asks("store copy pages", "ok, 5000 bytes stored"),
                one.asks("ls pap", "paper 1"), one.asks("ls pag", "pages 3"), one.asks("ls q", "ok, no file"), one.asks("remove 3", "ok")]
        time.sleep(2)
        went += [one.asks("ls ~", "ok, no file"), one.asks("ls", "paper 1"),
                 one.asks("ls " + "p" * 65, "no name begins so: it has at most 64 bytes")]
        return all(went)
    finally:
        one.ends()


def left(programs, folder, _seconds):
    """Whether a host that nobody asks finds bytes that it stored and that are told under no name any more, and removes them."""
    one, other = Host(programs, 0, folder / "one"), Host(programs, 1, folder / "other")
    (folder / "one" / "copy").write_bytes(b"x" * 5000)
    try:
        went = [one.asks("store copy paper", "ok, 5000 bytes stored"), other.asks("lookup paper", "ok, file 2"), other.asks("put 2 0 5", "ok"),
                other.asks("fetch 1 0", "ok, value 2021161080")]
        time.sleep(LOOKS)
        return all([*went, other.asks("ls ~", "ok, no file"), other.asks("ls", "paper 2"), other.asks("fetch 2 0", "ok, value 5")])
    finally:
        one.ends()
        other.ends()


def waits(programs, folder, _seconds):
    """Whether somebody who waits is told why: no server answers, it recovers, another host may have a lease."""
    one, other = Host(programs, 0, folder), Host(programs, 1, folder)

    def told(host, words, why):
        """Whether these words are answered with status 0, and before it is told why that takes long."""
        asked = subprocess.run([programs.user, str(host), *words], cwd=folder, capture_output=True, text=True, timeout=PATIENCE)
        if asked.returncode or why not in asked.stderr:
            print(f"host {host}: {words}: {asked.returncode} {asked.stdout} {asked.stderr}; wanted: {why}", flush=True)
        return asked.returncode == 0 and why in asked.stderr

    try:
        went = [one.asks("create paper 1", "ok, file 1"), one.asks("write 1 0 5", "ok")]
        one.process.send_signal(signal.SIGSTOP)
        went += [told(1, ["read", "1", "0"], "waiting: another host may have a lease on the file")]
        one.process.send_signal(signal.SIGCONT)
        programs.started.kill()
        programs.started.wait()
        later = threading.Timer(6, lambda: setattr(programs, "started", begun(programs.server, folder, 5)))
        later.start()
        went += [told(1, ["fetch", "1", "0"], "waiting: no server answers")]
        later.join()
        programs.started.kill()
        programs.started.wait()
        programs.started = begun(programs.server, folder, 5)
        return all([*went, told(1, ["ls"], "waiting: the server recovers")])
    finally:
        one.process.send_signal(signal.SIGCONT)
        one.ends()
        other.ends()


class Store:
    """A file that somebody stored under a name, or tried to. Its content is its number, over and over."""

    def __init__(self, number):
        self.number, self.begun = number, time.monotonic()
        self.ended, self.done = float("inf"), False


class Tries:
    """What four askers do at once, and what they know of the files."""

    def __init__(self, programs, folder, seconds):
        self.programs, self.folder, self.until = programs, folder, time.monotonic() + seconds
        self.lock = threading.Lock()
        self.stores = {"left": [], "right": []}
        self.count = 0
        self.faults, self.did = [], {"stored": 0, "got": 0, "refused": 0, "killed": 0}

    def notes(self, what, fault=None):
        with self.lock:
            self.did[what] += 1
            if fault:
                self.faults.append(fault)

    def runs(self, chance, host, words):
        """The status of a command and what it said. Now and then it is killed, and then there is no status."""
        asker = subprocess.Popen([self.programs.user, str(host), *words], cwd=self.folder, stdout=subprocess.PIPE, stderr=subprocess.DEVNULL)
        is_killed = chance.random() < 0.05
        if is_killed:
            time.sleep(chance.random() / 4)
            asker.kill()
        try:
            said, _ = asker.communicate(timeout=PATIENCE * 2)
            return None if is_killed else asker.returncode, said.decode()
        except subprocess.TimeoutExpired:
            asker.kill()
            asker.communicate()
            return None, ""

    def stores_one(self, chance, host, name, path):
        with self.lock:
            self.count += 1
            store = Store(self.count)
            self.stores[name].append(store)
        path.write_bytes(b"%08d" % store.number * chance.randrange(1, 5000))
        status, _ = self.runs(chance, host, ["store", path.name, name])
        with self.lock:
            store.done = status == 0
            # A host goes on with what a killed asker asked, and what a killed host sent may come later.
            store.ended = time.monotonic() if status in (0, 13) else float("inf")
        self.notes("stored" if status == 0 else "refused")

    def gets_one(self, chance, host, name, path):
        begun = time.monotonic()
        status, said = self.runs(chance, host, ["get", name, path.name])
        with self.lock:
            done = [store for store in self.stores[name] if store.done and store.ended <= begun]
        if status != 0:
            is_gone = status == 13 and said.startswith("noentry") and done
            self.notes("refused", f"{name}: {said.strip()}, though a file was stored" if is_gone else None)
            return False
        self.notes("got", self.wrong(name, path.read_bytes(), done))
        return True

    def wrong(self, name, body, done):
        """What is wrong with a file that was got, if anything is."""
        number = int(body[:8]) if body[:8].isdigit() else 0
        store = next((one for one in self.stores[name] if one.number == number), None)
        if store is None or body != b"%08d" % number * (len(body) // 8):
            return f"{name}: a file of {len(body)} bytes that nobody stored"
        later = [one.number for one in done if one.begun >= store.ended]
        return f"{name}: file {number}, which file {later[0]} had replaced" if later else None

    def works(self, place):
        """Stores and gets until the time is over."""
        chance = random.Random(place)
        while time.monotonic() < self.until:
            name, host = chance.choice(["left", "right"]), chance.randrange(2)
            path = self.folder / f"file{place}"
            path.unlink(missing_ok=True)
            (self.stores_one if chance.random() < 0.5 else self.gets_one)(chance, host, name, path)

    def kills(self, hosts):
        """Kills hosts and the server at random, and starts them again."""
        chance = random.Random(99)
        while time.monotonic() < self.until:
            time.sleep(chance.uniform(4, 9))
            if chance.random() < 0.75:
                which = chance.randrange(2)
                hosts[which].ends()
                hosts[which] = Host(self.programs, which, self.folder)
            else:
                self.programs.started.kill()
                self.programs.started.wait()
                self.programs.started = begun(self.programs.server, self.folder, 5)
            self.notes("killed")


def many(programs, folder, seconds):
    """Whether whole files stay whole though many store them at once and are killed, and are there in the end."""
    hosts = [Host(programs, number, folder) for number in range(2)]
    tries = Tries(programs, folder, seconds)
    workers = [threading.Thread(target=tries.works, args=[place]) for place in range(4)]
    for worker in workers:
        worker.start()
    tries.kills(hosts)
    for worker in workers:
        worker.join()
    calm = random.Random()
    calm.random = lambda: 1.0
    for host in range(2):
        for name in tries.stores:
            path = folder / f"last{host}{name}"
            if any(store.done for store in tries.stores[name]) and not tries.gets_one(calm, host, name, path):
                tries.faults.append(f"{name}: not there in the end, at host {host}")
    for host in hosts:
        host.ends()
    print(f"many: {tries.did}", *tries.faults, sep="\n", flush=True)
    return not tries.faults and tries.did["stored"] > 0 and tries.did["got"] > 0


SCENES = {"idle": idle, "folder": folder, "shared": shared, "words": words, "end": end, "lost": lost, "names": names, "left": left, "waits": waits, "many": many}


def begun(server, folder, longest):
    """A server over an image in this folder, with leases of so many seconds at most."""
    serving = subprocess.Popen([server, "nqnfs.img", "--longest", str(longest)], cwd=folder, stdout=subprocess.DEVNULL)
    time.sleep(1)
    return serving


def tried(scene, programs, seconds):
    """Whether a scene goes well over a server of its own."""
    with tempfile.TemporaryDirectory(prefix="nqnfs-prompts-") as place:
        place = pathlib.Path(place)
        programs.started = begun(programs.server, place, 30 if scene == "idle" else 5)
        try:
            return SCENES[scene](programs, place, seconds)
        finally:
            programs.started.kill()
            programs.started.wait()


def main():
    parser = argparse.ArgumentParser(description=__doc__, formatter_class=argparse.RawDescriptionHelpFormatter)
    parser.add_argument("--host", default=ROOT / "crates/nqnfs_host/out/nqnfs_host")
    parser.add_argument("--user", default=ROOT / "crates/nqnfs_user/out/nqnfs_user")
    parser.add_argument("--server", default=ROOT / "crates/nqnfsd/out/nqnfsd")
    parser.add_argument("--seconds", type=int, default=60)
    parser.add_argument("scenes", nargs="*", metavar="SCENE")
    programs = parser.parse_args()
    for name in "host", "user", "server":
        setattr(programs, name, str(pathlib.Path(getattr(programs, name)).resolve()))
    went = True
    for scene in programs.scenes or SCENES:
        well = tried(scene, programs, programs.seconds)
        print(f"{scene}: {'well' if well else 'not well'}", flush=True)
        went = went and well
    raise SystemExit(0 if went else 1)


if __name__ == "__main__":
    main()
