"use strict";
// Undo and redo, and the schedule in the address.

const past = { entries: [], now: -1 };

const current = () => past.entries[past.now] ?? null;

// Keeps what is shown now. What was undone is forgotten.
function keep(entry) {
  past.entries.splice(past.now + 1, past.entries.length, entry);
  past.now = past.entries.length - 1;
}

// Goes back, or forth; whether there was something.
function goBack(steps) {
  const place = past.now + steps;
  if (!past.entries[place]) return false;
  past.now = place;
  return true;
}

// The letters of an address that stand for a text.
async function packed(text) {
  const stream = new Blob([text]).stream().pipeThrough(new CompressionStream("deflate-raw"));
  const bytes = new Uint8Array(await new Response(stream).arrayBuffer());
  const letters = Array.from(bytes, (byte) => String.fromCharCode(byte)).join("");
  return btoa(letters).replaceAll("+", "-").replaceAll("/", "_").replaceAll("=", "");
}

// The text for which letters of an address stand, or null.
async function unpacked(letters) {
  try {
    const bytes = Uint8Array.from(atob(letters.replaceAll("-", "+").replaceAll("_", "/")), (sign) => sign.charCodeAt(0));
    return await new Response(new Blob([bytes]).stream().pipeThrough(new DecompressionStream("deflate-raw"))).text();
  } catch {
    return null;
  }
}

const startNamed = (name) => [...STARTS, ...EXAMPLES].find((start) => start.name === name);

// The name of the schedule of an entry: the one with which the reader began, or that of a stored schedule which is the same.
function nameOf({ name, run }) {
  return name ?? [...EXAMPLES, ...STARTS].find(({ schedule }) => schedule === run.schedule)?.name;
}

// The address of an entry: by its name where it has one.
async function addressOf(entry) {
  return `#${nameOf(entry) ?? `~${await packed(entry.run.schedule)}`}/${entry.event}`;
}

// The schedule and the event that an address names, with the name if it is one; or null.
async function named(hash) {
  const [name, event] = hash.slice(1).split("/");
  const schedule = name.startsWith("~") ? await unpacked(name.slice(1)) : startNamed(name)?.schedule;
  return schedule ? { schedule, event: Number(event) || 0, name: startNamed(name)?.name } : null;
}

// Gives a schedule as a file.
function download(schedule) {
  const link = document.createElement("a");
  link.href = URL.createObjectURL(new Blob([schedule], { type: "text/plain" }));
  link.download = "run.schedule";
  link.click();
  URL.revokeObjectURL(link.href);
}
