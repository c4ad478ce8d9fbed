"use strict";
// Where everything of a chart stands: the texts of each row, the bars of leases, and the line of each party.

const STEP = 15;
const LANE = 9;
const pen = document.createElement("canvas").getContext("2d");
const widths = new Map();

// How wide a text is in a chart, in pixels: those of calls and starts are bold.
function widthOf(text, look) {
  const isBold = look === "call" || look === "start";
  const key = `${isBold} ${text}`;
  if (!widths.has(key)) {
    pen.font = `${isBold ? 600 : 400} 11px system-ui, 'DejaVu Sans', sans-serif`;
    widths.set(key, Math.ceil(pen.measureText(text).width));
  }
  return widths.get(key);
}

// The parties from left to right: the server stands behind host 0.
function partiesOf(hosts) {
  const names = Array.from({ length: hosts }, (_, host) => `host ${host}`);
  return [names[0], "server", ...names.slice(1)];
}

// Everything that a chart shows, with its place.
function layoutOf(rows, packets, hosts) {
  const parties = partiesOf(hosts);
  const rowOfEvent = new Map();
  rows.forEach((row, place) => row.events.forEach((event) => rowOfEvent.set(event.number, place)));
  const spans = spansOf(rows.flatMap(({ events }) => events), parties);
  rows.forEach((row, place) => {
    row.sides = parties.map(() => ({ left: [], right: [] }));
    (row.kind === "event" ? eventTexts : row.kind === "ticks" ? tickTexts : resendTexts)(row, place, { parties, packets, rowOfEvent });
  });
  placeRows(rows);
  const lanes = parties.map((name) => Math.max(0, ...spans.filter(({ party }) => party === name).map(({ lane }) => lane + 1)));
  return { parties, rowOfEvent, spans, lanes, ...placeColumns(rows, lanes) };
}

// Puts a text beside a party.
function say(row, party, side, text, look, packet) {
  row.sides[party][side].push({ text, look, packet, wide: widthOf(text, look) + (packet === undefined ? 0 : widthOf(String(packet)) + 12) });
}

const outer = (party) => (party === 0 ? "left" : "right");
const toward = (from, to) => (to < from ? "left" : "right");

// The texts of a row with one event.
function eventTexts(row, place, { parties, packets, rowOfEvent }) {
  const [event] = row.events;
  const party = parties.indexOf(event.who);
  let side = outer(party);
  if (event.arrival !== null) {
    const packet = packets[event.arrival];
    const inner = toward(party, parties.indexOf(packet.from));
    const again = packet.arrivals[0] < event.number ? "again: " : "";
    say(row, party, inner, `${event.arrival}: ${again}${packet.words}`, "packet", undefined);
    row.sides[party][inner].at(-1).of = event.arrival;
    if (event.who === "server") side = inner === "left" ? "right" : "left";
  } else if (event.what === "tick") say(row, party, side, `tick, clock ${event.clock}`, "dim");
  for (const entry of event.entries) say(row, party, side, entry, lookOf(entry));
  for (const { number, to, words } of event.sends) {
    const packet = packets[number];
    const soon = packet.arrivals.length > 0 && rowOfEvent.get(packet.arrivals[0]) - place <= 2;
    const text = packet.arrivals.length === 0 ? `${words}, lost` : soon ? "" : words;
    say(row, party, toward(party, parties.indexOf(to)), text, packet.arrivals.length === 0 ? "loss" : "dim", number);
  }
}

// Which look an entry has.
function lookOf(entry) {
  if (/^(call|answer) /.test(entry)) return "call";
  if (/^(delays|writes|stores) /.test(entry)) return "write";
  if (/^(lost|fences) /.test(entry)) return "loss";
  if (/again|recovery/.test(entry)) return "start";
  return "dim";
}

// The texts of a row in which clocks tick.
function tickTexts(row, place, { parties }) {
  parties.forEach((name, party) => {
    const own = row.events.filter(({ who }) => who === name);
    const count = own.length === 1 ? "tick" : `${own.length} ticks`;
    if (own.length > 0) say(row, party, outer(party), `${count}, clock ${own.at(-1).clock}`, "dim");
  });
}

// The texts of a row in which hosts send again what gets lost.
function resendTexts(row, place, known) {
  tickTexts(row, place, known);
  for (const { who, words, count, first, last } of resendWords(row)) {
    const party = known.parties.indexOf(who);
    const inner = party > 1 ? "left" : "right";
    say(row, party, inner, `${first} to ${last}: again ${count} times ${words}, lost`, "loss");
  }
}

// Gives each row its top and its height.
function placeRows(rows) {
  let top = 4;
  for (const row of rows) {
    const lines = Math.max(1, ...row.sides.flatMap(({ left, right }) => [left.length, right.length]));
    const least = row.kind === "resends" || row.folds !== undefined ? 2 : 1;
    Object.assign(row, { top, high: 9 + STEP * Math.max(least, lines) });
    top += row.high;
  }
}

// The numbers of the events of a row.
const labelOf = ({ first, last }) => (first === last ? String(first) : `${first}-${last}`);

// Where the line of each party stands, and how wide and high the chart is.
function placeColumns(rows, lanes) {
  const room = (row, party, side) => Math.max(0, ...row.sides[party][side].map(({ wide }) => wide));
  const bars = (party, side) => (side === outer(party) ? lanes[party] * LANE : 0);
  const need = (party, side) => (row) => room(row, party, side) + bars(party, side);
  const lines = [];
  let x = 16 + Math.max(28, ...rows.map((row) => widthOf(labelOf(row), "dim"))) + Math.max(30, ...rows.map(need(0, "left")));
  lanes.forEach((_, party) => {
    if (party > 0) x += 20 + Math.max(100, ...rows.map((row) => need(party - 1, "right")(row) + need(party, "left")(row)));
    lines.push(x);
  });
  const wide = x + 10 + Math.max(30, ...rows.map(need(lanes.length - 1, "right")));
  const last = rows.at(-1);
  return { lines, wide, high: last ? last.top + last.high + 8 : 40 };
}

// The leases, rows and recoveries of a run: of whom, what, and from which event to which.
function spansOf(events, parties) {
  const open = new Map();
  const spans = [];
  for (const event of events) {
    for (const change of event.changes.filter((words) => /^[+-] /.test(words))) {
      const key = `${event.who} ${change.slice(2)}`;
      if (change[0] === "-" && open.has(key)) {
        open.get(key).to = event.number;
        open.delete(key);
      } else if (change[0] === "+") {
        const used = [...open.values()].filter(({ party }) => party === event.who).map(({ lane }) => lane);
        let lane = 0;
        while (used.includes(lane)) lane += 1;
        const span = { party: event.who, words: change.slice(2), from: event.number, to: null, lane };
        open.set(key, span);
        spans.push(span);
      }
    }
  }
  return spans.filter(({ party }) => parties.includes(party));
}
