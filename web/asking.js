"use strict";
// What the program answers: `nqnfs_lab` runs a schedule, bends it, and says why a line of its journal came.

// What is said where nothing is said: only a request that is too long for a server of HTTP is answered so.
const TOO_LONG = "a schedule here has at most 1,048,576 bytes";

// Asks the program; what it answers, with a status of null where nobody does.
async function ask(path, body) {
  try {
    const answer = await fetch(path, { method: "POST", body: typeof body === "string" ? body : JSON.stringify(body) });
    return answer.ok ? await answer.json() : { status: answer.status, printed: (await answer.text()) || TOO_LONG };
  } catch {
    return { status: null, printed: "" };
  }
}

// Whether the program is there. It has no time (503) where the machine is busy.
async function isThere() {
  return location.protocol !== "file:" && [0, 503].includes((await ask("/run", STARTS[0].schedule)).status);
}

// The run of a schedule: as the program runs it, or as it is stored.
async function runOf(schedule) {
  if (!document.body.classList.contains("stored")) return seen(schedule, await ask("/run", schedule));
  const start = [...STARTS, ...EXAMPLES].find((kept) => kept.schedule === schedule && kept.run);
  return start ? seen(schedule, { status: 0, ...start.run }) : null;
}

// A bent schedule and its run.
async function bent(schedule, bends, then) {
  const answer = await ask("/bend", { schedule, bends, then });
  if (answer.status !== 0) return answer;
  return { ...seen(shortened(answer.schedule), answer), left: answer.left_out, origin: answer.origin };
}

// Why a line of the journal came: the numbers of the events, newest first.
async function whyOf(schedule, line) {
  const answer = await ask("/why", { schedule, line });
  return answer.status === 0 ? eventsOf(answer.why) : [];
}

// A run as the page has it.
function seen(schedule, answer) {
  if (answer.status !== 0) return { schedule, status: answer.status, printed: answer.printed };
  const events = eventsOf(answer.told);
  const hosts = hostsOf(schedule);
  return {
    schedule, status: 0, journal: answer.printed, verdict: answer.verdict.trim(), hosts, events, packets: packetsOf(events),
    states: statesOf(events, hosts), lines: linesOf(schedule, events), entries: entriesOf(answer.printed),
  };
}
