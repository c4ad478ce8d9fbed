"use strict";
// A run as `nqnfs_look tell` tells it, and what holds after each of its events.

const LINE = /^ *(\d+) (server|host \d+) +(\d+)  (.*?) +rows +(\d+) leases +(\d+) delayed +(\d+)(.*)$/;

// The events of a run, each with what it sends, changes and enters into the journal.
function eventsOf(told) {
  const events = [];
  let entries = 0;
  for (const line of told.split("\n")) {
    const found = LINE.exec(line);
    if (!found) continue;
    const event = {
      number: Number(found[1]), who: found[2], clock: Number(found[3]), what: found[4],
      arrival: null, sends: [], changes: [], entries: [], firstEntry: entries,
    };
    const arrival = /^deliver (\d+)/.exec(event.what);
    if (arrival) event.arrival = Number(arrival[1]);
    for (const part of found[8].split(" | ").slice(1)) addPart(event, part);
    entries += event.entries.length;
    events.push(event);
  }
  return events;
}

// Adds what stands behind a bar of a line.
function addPart(event, part) {
  const sent = /^sends (\d+) to (server|host \d+): (.*)$/.exec(part);
  if (sent) event.sends.push({ number: Number(sent[1]), to: sent[2], words: sent[3] });
  else if (/^([+-]) |^delayed \d+$/.test(part)) event.changes.push(part);
  else event.entries.push(part);
}

// The packets of a run: who sends each, in which event, and the events in which it arrives.
function packetsOf(events) {
  const packets = [];
  for (const event of events) {
    if (event.arrival !== null && packets[event.arrival]) packets[event.arrival].arrivals.push(event.number);
    for (const { number, to, words } of event.sends) {
      packets[number] = { number, from: event.who, to, words, sent: event.number, arrivals: [] };
    }
  }
  return packets;
}

// What nobody has touched yet.
function fresh(hosts) {
  const parties = [{ name: "server", clock: 0, boot: 1, recovers: false, rows: [] }];
  for (let host = 0; host < hosts; host += 1) {
    parties.push({ name: `host ${host}`, clock: 0, inc: 1, leases: [], delayed: 0, call: null });
  }
  return parties;
}

// What holds after each event.
function statesOf(events, hosts) {
  let parties = fresh(hosts);
  return events.map((event) => {
    parties = parties.map((party) => (party.name === event.who ? after(party, event) : party));
    return parties;
  });
}

// A party after an event in which it acts.
function after(party, event) {
  const now = { ...party, clock: event.clock };
  if (now.rows) now.rows = [...now.rows];
  if (now.leases) now.leases = [...now.leases];
  for (const change of event.changes) applyChange(now, change);
  for (const entry of event.entries) applyEntry(now, entry);
  return now;
}

function applyChange(party, change) {
  const begins = change[0] === "+";
  const words = change.slice(2);
  if (change.startsWith("delayed ")) party.delayed = Number(change.slice(8));
  else if (words === "recovery") party.recovers = begins;
  else {
    const row = words.startsWith("row ");
    const list = row ? party.rows : party.leases;
    const item = words.slice(row ? 4 : 6);
    if (begins) list.push(item);
    else if (list.includes(item)) list.splice(list.indexOf(item), 1);
  }
}

function applyEntry(party, entry) {
  const start = /^starts again, incarnation (\d+)$/.exec(entry);
  const boot = /^boots again, boot (\d+)$/.exec(entry);
  if (start) Object.assign(party, { inc: Number(start[1]), call: null });
  else if (boot) party.boot = Number(boot[1]);
  else if (entry.startsWith("call ") && party.call === null) party.call = entry.slice(5);
  else if (entry === "answer busy") return;
  else if (entry.startsWith("answer ")) party.call = null;
}

// The packets of one exchange: the request, and what came back for it.
function exchangeOf(events, packets, number) {
  const packet = packets[number];
  const server = packet.to === "server" ? null : events[packet.sent];
  const asked = server && server.arrival !== null ? packets[server.arrival] : packet;
  const request = asked.from === packet.to || asked === packet ? asked : packet;
  const lit = new Set([number, request.number]);
  for (const arrival of request.arrivals) {
    for (const answer of events[arrival].sends) if (answer.to === request.from) lit.add(answer.number);
  }
  return lit;
}

// An event in one sentence.
function sentence(event) {
  const sent = event.sends.map(({ number, to, words }) => `sends ${number} to ${to}: ${words}`);
  return [`${event.who}, ${event.what}`, ...event.entries, ...sent].join("; ");
}

// For each line of a schedule the number of its first event, and how many it has.
function linesOf(schedule, events) {
  const hosts = hostsOf(schedule);
  const under = new Set();
  const spans = [];
  let next = 0;
  let begun = false;
  for (const line of schedule.replace(/\n$/, "").split("\n")) {
    const first = next;
    const most = begun ? countOf(line, hosts) : 0;
    const flows = begun && line === "flow";
    while (next < events.length && (flows ? under.size > 0 : next - first < most)) {
      move(under, events[next]);
      next += 1;
    }
    spans.push({ line, first, count: next - first });
    if (line === "begin") begun = true;
  }
  return spans;
}

function hostsOf(schedule) {
  const found = /^hosts (\d+)$/m.exec(schedule);
  return found ? Number(found[1]) : 1;
}

// How many events a line of a schedule is, but for `flow`.
function countOf(line, hosts) {
  const words = line.split(" ");
  if (words[0] === "tick") return Number(words[2]);
  if (words[0] === "round") return Number(words[1]) * (hosts + 1);
  return words[0] === "end" || words[0] === "flow" ? 0 : 1;
}

// The lines that tell the ticks of one round: the clock of each host ticks, then the server's.
function roundOf(hosts) {
  return [...Array.from({ length: hosts }, (_, host) => `tick ${host} 1`), "tick s 1"];
}

// A schedule with one line for ticks that follow one another.
function shortened(schedule) {
  const round = `${roundOf(hostsOf(schedule)).join("\n")}\n`;
  const rounds = new RegExp(`^(?:${round}){1,1000}`, "gm");
  return schedule
    .replace(rounds, (ticks) => `round ${ticks.length / round.length}\n`)
    .replace(/^(tick \S+) 1\n(?:\1 1\n){1,999}/gm, (ticks, tick) => `${tick} ${ticks.split("\n").length - 1}\n`);
}

// Keeps which packets never arrived yet, over an event.
function move(under, event) {
  if (event.arrival !== null) under.delete(event.arrival);
  for (const { number } of event.sends) under.add(number);
}
