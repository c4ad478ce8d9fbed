#!/usr/bin/env python3
"""Tries the page of web/ in Chromium, and takes pictures of it.

  tools/page.py [--lab FILE | --address URL] [--nqnfs FILE] [--browser FILE] [--only NAME..] [--window NAME..]
                [--pictures FOLDER]

It starts `nqnfs_lab`, or takes one that listens at an address. At 1280 pixels and at a phone's width, light and dark, or only in the windows that
are named, it opens each example, goes to each of its events, and lets each of its packets be lost, come twice and come late. It asks that what is
shown is what `nqnfs replay` and `nqnfs check` print for the schedule that is shown, that no text of a chart stands on another one, and that the page
is no wider than the window. It drags a packet, undoes that, opens its own address, types, solves the exercises, takes the time of a change in a run of
500 events, and opens the page without the program. The status is 1 where something is otherwise.
"""

import argparse
import functools
import json
import pathlib
import shutil
import statistics
import subprocess
import sys
import tempfile

from browser import Browser

ROOT = pathlib.Path(__file__).resolve().parent.parent
WINDOWS = {f"{wide}-{look}": (wide, high, look) for wide, high in ((1280, 900), (390, 844)) for look in ("light", "dark")}
PICTURES = ("a-delayed-write-is-lost", "two-crashes", "an-ordinary-session", "a-put-that-waits")
# A change has to show within so many milliseconds, in the middle of so many tries.
MOST = 200
TRIES = 9

# What the page shows of a run, and what is not as it has to be.
SHOWN = """function () {
  const faults = [];
  const { run } = current();
  drawBetween(shown.chart, 0, shown.chart.layout.high);
  const texts = [...document.querySelectorAll("#chart text")].map((text) => text.getBoundingClientRect());
  texts.sort((one, other) => one.top - other.top);
  texts.forEach((one, place) => {
    for (let next = place + 1; next < texts.length && texts[next].top < one.bottom - 4; next += 1) {
      const other = texts[next];
      if (other.left < one.right - 1 && one.left < other.right - 1) faults.push(`texts at ${one.left}, ${one.top} and ${other.left}`);
    }
  });
  if (document.documentElement.scrollWidth > innerWidth) faults.push("wider than the window");
  const folds = shown.chart.rows.some(({ kind }) => kind === "resends");
  for (const { number } of run.packets) if (!partsOf(shown.chart).has(number) && !folds) faults.push(`packet ${number} is not shown`);
  const journal = [...document.querySelectorAll("#journal li")].map((line) => line.lastChild.textContent + "\\n").join("");
  return { schedule: editor.field.value, journal, verdict: run.verdict, faults, says: document.getElementById("verdict").textContent };
}"""

# Goes to each event: exactly one line of the schedule and one row of the chart is marked then.
EVENTS = """current().run.events.flatMap(({ number }) => {
  go(number, true);
  const marks = ["#behind .now", ".band.now"].map((of) => document.querySelectorAll(of).length);
  return marks.every((count) => count === 1) ? [] : [`event ${number}: marks ${marks}`];
})"""

# Lets each packet be lost, come twice and come late; what is shown then.
BENDS = """(async () => {
  const seen = [];
  const { run } = current();
  for (const packet of run.packets) {
    const at = Math.min(run.events.length, (packet.arrivals[0] ?? packet.sent) + 3);
    const kinds = packet.arrivals.length > 0 ? ["lose", "twice", "later"] : ["later"];
    for (const kind of kinds) {
      await bendPacket(kind === "later" ? { kind, packet: packet.number, event: at } : { kind, packet: packet.number });
      const isBent = current().run !== run;
      seen.push({ kind, packet: packet.number, isBent, ...(%s)() });
      if (isBent) { goBack(-1); show(); }
    }
  }
  return seen;
})()"""

ADDRESS = """(async () => {
  await bendPacket({ kind: "lose", packet: 0 });
  await writeAddress(current());
  return [location.href, current().run.schedule];
})()"""

TYPED = """(async () => {
  await begins("put-then-fetch");
  const faults = [];
  const type = async (text) => { editor.field.value = text; await typed(text); };
  await type(editor.field.value.replace("put 1 0 7", "put 1 0 9"));
  if (!current().run.journal.includes("put 1 0 9")) faults.push("a typed schedule is not run");
  await type(editor.field.value.replace("deliver 1", "deliver 99"));
  if (!document.getElementById("verdict").textContent.includes("line 8")) faults.push("a typed fault is not told");
  if (!current().run.journal.includes("put 1 0 9")) faults.push("the run before a typed fault is gone");
  return faults;
})()"""

SOLVED = """(async () => {
  const faults = [];
  for (const { name } of EXERCISES) {
    await begins(name);
    if (document.getElementById("task").className === "solved") faults.push(`${name}: solved from its start`);
    await showWay();
    if (document.getElementById("task").className !== "solved") faults.push(`${name}: its way solves it not`);
  }
  return faults;
})()"""

# How many milliseconds a change takes, from a reader's press until the frame that shows it is made, in a few tries.
TIMED = """(async (schedule, tries) => {
  const frame = () => new Promise((done) => {
    const made = new MessageChannel();
    made.port1.onmessage = done;
    requestAnimationFrame(() => made.port2.postMessage(null));
  });
  const took = [];
  for (let go = 0; go < tries; go += 1) {
    await beginWith(schedule, null);
    const { run } = current();
    const { number } = run.packets.filter(({ arrivals }) => arrivals.length > 0)[20 + go];
    await new Promise((done) => setTimeout(done, 300));
    const begun = performance.now();
    await bendPacket({ kind: "lose", packet: number });
    await frame();
    took.push(current().run === run ? Infinity : Math.round(performance.now() - begun));
  }
  return [current().before.events.length, took];
})(%s, %d)"""

TIP = """(async () => {
  document.querySelector(".chart").scrollIntoView();
  await new Promise((goes) => requestAnimationFrame(() => requestAnimationFrame(goes)));
  const place = (part) => { const box = part.getBoundingClientRect(); return [box.left + box.width / 2, box.top + box.height / 2]; };
  const tip = document.querySelector(".tip[data-packet='0']");
  return [place(tip), [place(tip)[0], bandOf(shown.chart, 3).getBoundingClientRect().bottom - 4]];
})()"""


class Programs:
    """What the programs print for a schedule."""

    def __init__(self, nqnfs):
        self.nqnfs = nqnfs
        self.replayed = functools.cache(self.replayed)

    def said(self, word, text):
        return subprocess.run([self.nqnfs, word], input=text, stdout=subprocess.PIPE, text=True).stdout

    def replayed(self, schedule):
        """The journal of a schedule, and what is said of it."""
        journal = self.said("replay", schedule)
        return journal, self.said("check", journal).strip()


def differs(programs, seen):
    """What is shown otherwise than it has to be."""
    yield from seen["faults"]
    if (seen["journal"], seen["verdict"]) != programs.replayed(seen["schedule"]):
        yield "another journal or verdict than the programs print"
    if not seen.get("isBent", True):
        yield f"is not bent: {seen['says']}"


def example_faults(browser, programs, name):
    """What is not as it has to be in an example, and in it with each packet lost, twice and late."""
    browser.value(f"begins('{name}')")
    yield from differs(programs, browser.value(f"({SHOWN})()"))
    yield from browser.value(EVENTS)
    for seen in browser.value(BENDS % SHOWN):
        yield from (f"packet {seen['packet']} {seen['kind']}: {fault}" for fault in differs(programs, seen))


def deed_faults(browser, address):
    """What is not as it has to be where a reader drags, goes back, opens an address, or solves."""
    browser.value("begins('put-then-fetch')")
    browser.drag(*browser.value(TIP))
    if not browser.until("current().before && current().run.packets[0].arrivals[0] > 1"):
        yield "a packet is not dragged"
    browser.value("document.getElementById('undo').click()")
    if browser.value("current().before !== null"):
        yield "a change is not undone"
    there, schedule = browser.value(ADDRESS)
    browser.open(there)
    if browser.value("current().run.schedule") != schedule:
        yield "an address opens another schedule"
    browser.open(address)
    yield from browser.value(TYPED)
    yield from browser.value(SOLVED)


def time_faults(browser, programs):
    """Whether a change of a run of 500 events is shown in time."""
    storm = subprocess.run([programs.nqnfs, "storm", "lossy", "1", "500"], stdout=subprocess.PIPE, text=True).stdout
    schedule = storm[: storm.index("\nend\n") + 5]
    events, took = browser.value(TIMED % (json.dumps(schedule), TRIES))
    print(f"changes in a run of {events} events show after {', '.join(map(str, took))} ms", flush=True)
    if statistics.median(took) > MOST:
        yield f"a change shows after {statistics.median(took)} ms"


def stored_faults(browser):
    """What is not as it has to be in a page without the program."""
    browser.open((ROOT / "web/index.html").as_uri())
    names = browser.value("[...document.querySelectorAll('#start option')].map(({ value }) => value).filter(Boolean)")
    for name in names:
        browser.value(f"begins('{name}')")
        yield from (f"{name}, stored: {fault}" for fault in browser.value(f"({SHOWN})()")["faults"])
    if not names or browser.value("document.getElementById('wanting').hidden"):
        yield "a page without the program does not say so"


def pictures(browser, folder, window):
    """Takes pictures of a few runs."""
    folder.mkdir(exist_ok=True)
    for name in PICTURES:
        browser.value(f"begins('{name}')")
        browser.value("bendPacket({ kind: 'lose', packet: 1 })")
        browser.picture(folder / f"{name}-{window[0]}-{window[2]}.png")


def tried(asked, address):
    """What is not as it has to be, in each window."""
    programs = Programs(asked.nqnfs)
    names = asked.only or sorted(file.stem for file in (ROOT / "examples").glob("*.schedule"))
    with tempfile.TemporaryDirectory(ignore_cleanup_errors=True) as folder:
        browser = Browser(asked.browser, folder)
        for window in (WINDOWS[name] for name in asked.window):
            browser.window(*window)
            browser.open(address)
            says = f"{window[0]}, {window[2]}: "
            for name in names:
                yield from (f"{says}{name}: {fault}" for fault in example_faults(browser, programs, name))
            yield from (says + fault for fault in deed_faults(browser, address))
            yield from (says + fault for fault in time_faults(browser, programs))
            if asked.pictures:
                pictures(browser, asked.pictures, window)
            yield from (says + fault for fault in stored_faults(browser))
        yield from browser.faults
        browser.close()


def main():
    words = argparse.ArgumentParser(description=__doc__.splitlines()[0])
    words.add_argument("--browser", default=shutil.which("chromium-headless-shell") or shutil.which("chromium"))
    words.add_argument("--nqnfs", default=str(ROOT / "crates/nqnfs/out/nqnfs"))
    words.add_argument("--lab", default=str(ROOT / "crates/nqnfs_lab/out/nqnfs_lab"))
    words.add_argument("--address")
    words.add_argument("--only", nargs="*")
    words.add_argument("--window", nargs="*", choices=WINDOWS, default=list(WINDOWS))
    words.add_argument("--pictures", type=pathlib.Path)
    asked = words.parse_args()
    lab, address = None, asked.address
    if not address:
        lab = subprocess.Popen([asked.lab, "--port", "8059", "--web", str(ROOT / "web")], stdout=subprocess.PIPE, text=True)
        address = lab.stdout.readline().strip()
    count = 0
    for fault in tried(asked, address):
        print(fault, flush=True)
        count += 1
    if lab:
        lab.kill()
        lab.wait()
    print(f"{count} faults" if count else "the page shows each run as it has to")
    return 1 if count else 0


if __name__ == "__main__":
    sys.exit(main())
