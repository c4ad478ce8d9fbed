"use strict";
// Changing a run: what a reader does becomes bends of its schedule, and the program answers with the bent one.

// Bends what is shown; `words` say the change.
async function change(bends, words, at) {
  const { run } = current();
  await bendFrom({ from: run, bends, words, at });
}

// Bends a run. The change is kept with what it was made from, so that a host that was cut off can be joined. Where the reader went on
// before the program answered, nothing changes.
async function bendFrom({ from, bends, words, at }) {
  const then = document.querySelector("input[name=then]:checked").value;
  const shownNow = current();
  const run = await bent(from.schedule, bends, then);
  if (current() !== shownNow) return;
  if (run.status !== 0) return refuse(run);
  keep({ run, before: from, words, made: { from, bends, at }, event: eventAfter(run, at) });
  show();
}

// The event of a changed run that stands where the change was made.
function eventAfter(run, at) {
  const next = run.origin.findIndex((old) => old >= at);
  const place = next < 0 ? run.events.length - 1 : next;
  const fresh = run.origin.lastIndexOf(-1, place);
  return Math.max(0, fresh >= 0 && fresh >= place - 3 ? fresh : place - (next < 0 ? 0 : 1));
}

// What a reader does with a packet.
function bendPacket(bend) {
  const { run } = current();
  const packet = run.packets[bend.packet];
  const words = { lose: "is lost", twice: "arrives twice", later: `arrives before event ${bend.event} of the run before` };
  const at = bend.kind === "later" ? bend.event : packet.arrivals[0];
  return change([bend], `Packet ${bend.packet}, ${packet.words}, ${words[bend.kind]}`, at);
}

// What a reader lets happen to a party, after the event that is shown.
function act(deed) {
  const { run, made, event } = current();
  const at = Math.min(event + 1, run.events.length);
  if (deed.line) {
    const lines = deed.line === "round 1" ? roundOf(run.hosts) : [deed.line];
    return change(lines.map((line) => ({ kind: "event", at, line })), `Behind event ${event} comes ${deed.line}`, at);
  }
  if (deed.cut !== undefined) return change([{ kind: "cut", host: deed.cut, at }], `Behind event ${event} host ${deed.cut} is cut off`, at);
  const old = run.origin.slice(at).find((number) => number >= 0) ?? made.from.events.length;
  const bends = [...made.bends, { kind: "join", host: deed.join, at: old }];
  return bendFrom({ from: made.from, bends, words: `${current().words}, and host ${deed.join} is joined before event ${old}`, at: made.at });
}

// The hosts that are cut off in what is shown.
function cutHosts() {
  const cut = new Set();
  for (const { kind, host } of current().made ? current().made.bends : []) {
    if (kind === "cut") cut.add(`host ${host}`);
    if (kind === "join") cut.delete(`host ${host}`);
  }
  return cut;
}

// Runs what a reader typed. Until it is a schedule, the run before stays.
async function typed(schedule) {
  const { run, before, words } = current();
  const now = await runOf(schedule);
  if (editor.field.value !== schedule) return;
  if (!now || now.status !== 0) return refuse(now ?? { printed: "not stored" });
  const goesOn = words === "typed" && past.now === past.entries.length - 1;
  if (goesOn) past.entries.pop();
  if (goesOn) past.now -= 1;
  keep({ run: now, before: goesOn ? before : run, words: "typed", event: Math.min(current()?.event ?? 0, now.events.length - 1) });
  show();
}

// Says why there is no run, and marks the line at fault.
function refuse({ status, printed }) {
  const line = /line (\d+)/.exec(printed);
  const why = status === null ? "The program does not answer. Is nqnfs_lab running?" : `This is no run: ${printed.trim()}.`;
  document.getElementById("verdict").className = "bad";
  document.getElementById("verdict").textContent = `${why} The run before is shown.`;
  if (!line) return;
  markLine(null, Number(line[1]) - 1);
  bringLine(Number(line[1]) - 1);
}

// Shows what was changed, and what had to be left out.
function showChange(place, { words, run, before }) {
  place.hidden = !before;
  if (!before) return;
  const parts = [made("h2", "", "The change"), made("p", "", words === "typed" ? "The schedule was typed." : `${words}.`)];
  const left = (run.left ?? []).filter(({ why }) => why === "no match" || why === "cut off");
  const count = left.length === 1 ? "is one event" : `are ${left.length} events`;
  if (left.length > 0) {
    const folded = made("details", "");
    folded.open = left.length <= 5;
    folded.append(made("summary", "bad", `Left out ${count} of the run before`), leftList(left, before));
    parts.push(folded);
  }
  place.replaceChildren(...parts);
}

// The events that were left out, with why.
function leftList(left, before) {
  const list = made("ul", "");
  list.append(...left.map(({ event, line, why }) => {
    const words = before.events[event]?.what.replace(/^deliver \d+: /, "") ?? "";
    return made("li", "", `${event}, ${line} (${words}): ${why === "cut off" ? "its host is cut off" : "nobody sends this packet now"}`);
  }));
  return list;
}
