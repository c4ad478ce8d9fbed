"use strict";
// The rows of a chart: one for each event, but quiet ticks share one, and so do the ticks in which a host sends again what gets lost.

// The rows of a run. The rows whose first events are in `open` are not folded.
function rowsOf(events, packets, open) {
  const again = resendsOf(packets);
  const rows = [];
  let quiet = [];
  const close = () => {
    if (quiet.length > 0) rows.push(...folded(quiet, again, open));
    quiet = [];
  };
  for (const event of events) {
    if (isQuiet(event, again)) quiet.push(event);
    else {
      close();
      rows.push(rowOf([event], "event"));
    }
  }
  close();
  return rows;
}

function rowOf(events, kind) {
  return { kind, events, first: events[0].number, last: events.at(-1).number };
}

function addTo(row, event) {
  row.events.push(event);
  row.last = event.number;
}

// The packets that never arrive and were sent before, to the letter.
function resendsOf(packets) {
  const known = new Set();
  const again = new Set();
  for (const packet of packets) {
    const says = `${packet.from} ${packet.to} ${packet.words}`;
    if (known.has(says) && packet.arrivals.length === 0) again.add(packet.number);
    known.add(says);
  }
  return again;
}

function isQuiet(event, again) {
  return event.what === "tick" && event.changes.length === 0 && event.entries.length === 0 && event.sends.every(({ number }) => again.has(number));
}

// The rows of a stretch of quiet ticks.
function folded(events, again, open) {
  const resends = events.filter(({ sends }) => sends.length > 0);
  if (resends.length > 1 && !open.has(events[0].number)) return [rowOf(events, "resends")];
  const rows = [];
  for (const event of events) {
    const last = rows.at(-1);
    if (event.sends.length > 0) rows.push(rowOf([event], "event"));
    else if (last && last.kind === "ticks") addTo(last, event);
    else rows.push(rowOf([event], "ticks"));
  }
  if (resends.length > 1) rows[0].folds = events[0].number;
  return rows;
}

// What a row of resends says of each party that sends: what, how often, and which packets.
function resendWords(row) {
  const counts = new Map();
  for (const event of row.events) {
    for (const { number, words } of event.sends) {
      const key = `${event.who}|${words}`;
      const sent = counts.get(key) || { who: event.who, words, count: 0, first: number, last: number };
      counts.set(key, { ...sent, count: sent.count + 1, last: number });
    }
  }
  return [...counts.values()];
}
