"use strict";
// What a journal says: the fate of each write, the answer of each call, and of which promise each line is an instance.

const PROMISES = [
  "",
  "The journal keeps the order of each client's calls, and each successful read gives the latest write that stands for it, or zeros.",
  "A delayed write is missing only if its client restarted, or was cut off for longer than the write slack.",
  "A client that goes on names each write that it lost, once, in its answer to the next call that changes or syncs the file.",
  "Once its own put, or a later sync, resize or remove of its file, was answered ok, a write is not missing.",
  "With no other call under way, a client answers a read from its cache at once while its lease runs.",
  "Each answer is of its call: it comes once, behind it. An ok has its deed in the journal before it, and a refusal its cause.",
];

// The entries of a journal, each with its line, counted from 1.
function entriesOf(journal) {
  const lines = journal.replace(/\n$/, "").split("\n");
  return lines.slice(1, -1).map((text, place) => {
    const words = text.split(" ");
    return { text, words, kind: words[0], line: place + 2 };
  });
}

// What each call asks, by its host, incarnation and number.
function askedOf(entries) {
  return new Map(entries.filter(({ kind }) => kind === "C").map(({ words }) => [words.slice(1, 4).join(" "), words.slice(4).join(" ")]));
}

// The numbers of the promises of which an entry is an instance, the first one foremost.
function promisesOf(entry, asked) {
  const { kind, words } = entry;
  const call = asked.get(words.slice(1, 4).join(" ")) || "";
  if (kind === "C") return [1, 6];
  if (kind === "W") return words[7] === "delayed" ? [2] : [4, 6];
  if (kind === "S") return [2, 4];
  if (kind === "L") return [2, 3];
  if (kind === "R") return words[7] === "cached" ? [5, 1] : [1];
  if (kind === "G") return words[4] === "writing" ? [5, 2] : [5];
  if (kind === "Z") return [6, 1];
  if (kind === "A") return answerPromises(words, call);
  return [2];
}

function answerPromises(words, call) {
  if (words[4] === "lost") return [3, 6];
  if (words[4] === "ok" && /^(put|sync|resize|remove) /.test(call)) return [4, 6];
  if (words[4] === "ok" && /^(read|fetch) /.test(call)) return [1, 6];
  return [6];
}

// Each write with its fate, in words; `missing` where it is lost or forgotten. Equal writes of a host are counted.
function writesOf(entries) {
  const counts = new Map();
  const fates = entries.filter(({ kind }) => "SLB".includes(kind));
  return entries.filter(({ kind }) => kind === "W").map((write) => {
    const [, host, inc, file, block, , value] = write.words;
    const says = `host ${host}${inc === "1" ? "" : `, start ${inc}`}: ${file}:${block} = ${value}`;
    counts.set(says, (counts.get(says) ?? 0) + 1);
    const key = counts.get(says) === 1 ? says : `${says}, time ${counts.get(says)}`;
    return { key, ...fateOf(entries, fates, write) };
  });
}

function fateOf(entries, fates, write) {
  if (write.words[7] === "through") return { fate: "stored at once", missing: false, line: write.line };
  const later = fates.filter(({ line }) => line > write.line);
  const stored = later.find((entry) => entry.kind === "S" && covers(entry, write));
  const again = later.find((entry) => entry.kind === "B" && startsAfter(entry, write));
  const lost = later.find((entry) => entry.kind === "L" && covers(entry, write));
  if (stored && again && again.line < stored.line) return { fate: "stored, after its host started again", missing: false, line: stored.line };
  if (stored) return { fate: "stored", missing: false, line: stored.line };
  if (lost) return { fate: `lost: ${causeOf(entries, write, lost)}`, missing: true, line: lost.line };
  if (again) return { fate: "forgotten: its host started again", missing: true, line: again.line };
  return { fate: "still delayed at its host", missing: false, line: write.line };
}

function startsAfter(entry, write) {
  return entry.words[1] === write.words[1] && Number(entry.words[2]) > Number(write.words[2]);
}

// Whether an S or L speaks of a delayed write.
function covers(entry, write) {
  const [first, last] = [Number(entry.words[5]), Number(entry.words[6])];
  const number = Number(write.words[5]);
  return [1, 2, 3, 4].every((place) => entry.words[place] === write.words[place]) && first <= number && number <= last;
}

// Why a delayed write was lost.
function causeOf(entries, write, lost) {
  const between = entries.slice(write.line - 1, lost.line - 2);
  const of = (entry) => [1, 2, 3].every((place) => entry.words[place] === write.words[place]);
  if (between.some((entry) => entry.kind === "F" && of(entry))) return "its host was cut off, and the server ended the lease in silence";
  if (between.some(({ kind }) => kind === "X")) return "the server started again, and the write came after its recovery";
  return "its lease was over";
}

// Each call with its answer, in words; `open` where it has none.
function callsOf(entries) {
  const named = (letter) => new Map(entries.filter(({ kind }) => kind === letter).map((entry) => [entry.words.slice(1, 4).join(" "), entry]));
  const [reads, answers] = [named("R"), named("A")];
  const starts = entries.filter(({ kind }) => kind === "B");
  return entries.filter(({ kind }) => kind === "C").map((call) => {
    const [, host, inc, number, ...asks] = call.words;
    const who = `${host} ${inc} ${number}`;
    const key = `host ${host}${inc === "1" ? "" : `, start ${inc}`}, call ${number}: ${asks.join(" ")}`;
    const answer = answers.get(who);
    if (answer) return { key, said: answerWords(answer, reads.get(who)), open: false, line: answer.line };
    const again = starts.find((entry) => startsAfter(entry, call));
    return { key, said: again ? "never: its host started again" : "not answered yet", open: !again, line: call.line };
  });
}

function answerWords(answer, read) {
  const said = answer.words.slice(4);
  const by = said.indexOf("by");
  if (by < 0) return read && read.words[7] === "cached" ? `${said.join(" ")}, from the cache` : said.join(" ");
  return `${said.slice(0, by).join(" ")}, by packet ${said[by + 1]}`;
}
