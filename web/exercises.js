"use strict";
// Six exercises: what is to be reached, and whether a run reaches it. Their schedules stand in exercises/.

const EXERCISES = [
  {
    name: "stored-and-not-told",
    task: "Let the server store the 7 of host 0, and let its user never hear of it. Nobody starts again.",
    solved: (run) => noneStartsAgain(run) && openCalls(run).some(({ words }) => words[4] === "put" && isStored(run, words)),
  },
  {
    name: "one-read-two-values",
    task: "Let the server execute one and the same read twice, with two values. The user gets one answer: which?",
    solved: (run) => run.entries.some((first) => servedBefore(run, first) && run.entries.some(isAnswerOf(first))),
  },
  {
    name: "thought-lost-and-stored",
    task: "Let the server lose nothing, and let the client think so: it starts again and forgets its delayed write, which is stored all the same.",
    solved: (run) => writesOf(run.entries).some(({ fate }) => fate.startsWith("stored, after its host")),
  },
  {
    name: "stored-behind-two-crashes",
    task: "Let the server crash twice between a delayed write and its storing. The sync is answered ok, and nothing is lost.",
    solved: (run) => run.entries.some((stored) => stored.kind === "S" && crashesBefore(run, stored) >= 2) && okSync(run),
  },
  {
    name: "lost-and-told",
    task: "Let a delayed write be lost though nobody starts again or crashes, and let its user be told. Cut the host off: for how many ticks?",
    solved: (run) => noneStartsAgain(run) && run.entries.some(({ kind, words }) => kind === "A" && words[4] === "lost"),
  },
  {
    name: "a-put-that-waits",
    task: "Let a put wait for ever: for 30 ticks of the server, though each packet arrives within a tick, and nobody starts again. The other host may call.",
    solved: (run) => noneStartsAgain(run) && openCalls(run).some(({ words, line }) => words[4] === "put" && waitsInCalm(run, line)),
  },
];

const FIRST_VIEW = "Host 0 is told ok, and its write waits in its cache. Then the host starts again, and the write is lost: host 1 reads 0. " +
  "What if a packet is lost, comes twice or comes later? Choose one, or let something happen to a party.";

const noneStartsAgain = (run) => !run.entries.some(({ kind }) => kind === "B" || kind === "X");
const okSync = (run) => callsOf(run.entries).some(({ key, said }) => key.includes(": sync ") && said === "ok");
const isAnswerOf = (read) => ({ kind, words }) => kind === "A" && [1, 2, 3].every((place) => words[place] === read.words[place]);
const crashesBefore = (run, entry) => {
  const write = run.entries.find((earlier) => earlier.kind === "W" && covers(entry, earlier));
  return run.entries.filter(({ kind, line }) => kind === "X" && line < entry.line && write && line > write.line).length;
};

// The calls that have no answer.
function openCalls(run) {
  const open = new Set(callsOf(run.entries).filter((call) => call.open).map(({ line }) => line));
  return run.entries.filter(({ line }) => open.has(line));
}

// Whether the put of a call was stored.
function isStored(run, call) {
  const [, host, inc, , , file, block, value] = call;
  return run.entries.some(({ kind, text }) => kind === "W" && text.startsWith(`W ${host} ${inc} ${file} ${block} `) && text.endsWith(` ${value} through`));
}

// Whether a read was served before with another value.
function servedBefore(run, read) {
  const isSame = ({ kind, words }) => kind === "R" && words[7] === "served" && [1, 2, 3].every((place) => words[place] === read.words[place]);
  return isSame(read) && run.entries.some((other) => isSame(other) && other.line < read.line && other.words[6] !== read.words[6]);
}

// Whether since a line of the journal the server ticked 30 times, and each packet arrived before it ticked twice.
function waitsInCalm(run, line) {
  const called = run.events.find(({ firstEntry, entries }) => line - 2 < firstEntry + entries.length);
  const ticked = [];
  let clock = 0;
  for (const event of run.events) {
    if (event.who === "server") clock = event.clock;
    ticked.push(clock);
  }
  const calm = run.packets.every(({ sent, arrivals }) => sent < called.number || ticked[arrivals[0] ?? run.events.length - 1] - ticked[sent] <= 1);
  return calm && clock - ticked[called.number] >= 30;
}
