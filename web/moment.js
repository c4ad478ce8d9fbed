"use strict";
// The parties at a moment, with what may happen to each then, and the packet that is chosen.

// Shows what each party has after an event. `act` is told what is to happen: a line of a schedule, or a host to cut off or to join.
function showParties(place, parties, who, cut, act) {
  place.replaceChildren(...parties.map((party) => cardOf(party, party.name === who, cut.has(party.name), act)));
}

function cardOf(party, acts, isCut, act) {
  const box = made("div", acts ? "card now" : "card");
  const head = made("h3", "", party.name);
  head.append(made("span", "", `clock ${party.clock}`));
  box.append(head, ...(party.rows ? serverLines(party) : hostLines(party)).map((line) => made("p", "", line)));
  box.append(party.rows ? serverDeeds(act) : hostDeeds(party, isCut, act));
  return box;
}

function serverLines(server) {
  const phase = server.recovers ? "recovers" : "serves";
  return [`boot ${server.boot}, ${phase}`, server.rows.length === 0 ? "no rows" : `rows: ${server.rows.join(", ")}`];
}

function hostLines(host) {
  const lines = [`incarnation ${host.inc}; ${host.leases.length === 0 ? "no lease" : `lease: ${host.leases.join(", ")}`}`];
  const more = [];
  if (host.delayed > 0) more.push(`delays ${host.delayed} ${host.delayed === 1 ? "block" : "blocks"}`);
  if (host.call !== null) more.push(`waits for ${host.call}`);
  lines.push(more.join("; ") || " ");
  return lines;
}

function serverDeeds(act) {
  const deeds = made("div", "deeds");
  deeds.append(deed("tick", () => act({ line: "tick s 1" })), deed("crash", () => act({ line: "crash" })), deed("all tick", () => act({ line: "round 1" })));
  return deeds;
}

function hostDeeds(host, isCut, act) {
  const number = Number(host.name.slice(5));
  const deeds = made("div", "deeds");
  deeds.append(
    deed("call", () => askCall(deeds, number, act)),
    deed("tick", () => act({ line: `tick ${number} 1` })),
    deed("start again", () => act({ line: `restart ${number}` })),
    isCut ? deed("join", () => act({ join: number })) : deed("cut off", () => act({ cut: number })),
  );
  return deeds;
}

function deed(word, press) {
  const button = made("button", "needs", word);
  button.type = "button";
  button.addEventListener("click", press);
  return button;
}

// Asks which call it is to be.
function askCall(deeds, host, act) {
  const form = made("form", "asks");
  const field = made("input", "");
  Object.assign(field, { value: "read 1 0", ariaLabel: `the call of host ${host}` });
  field.setAttribute("list", "calls");
  form.append(field, Object.assign(made("button", "", "do it"), { type: "submit" }));
  form.addEventListener("submit", (event) => {
    event.preventDefault();
    act({ line: `call ${host} ${field.value.trim()}` });
  });
  deeds.replaceChildren(form);
  field.select();
}

// Shows the chosen packet, and what may happen to it.
function showPacket(place, packet, events, bend) {
  place.hidden = !packet;
  if (!packet) return;
  const { number, from, to, words, sent, arrivals } = packet;
  const arrives = arrivals.length === 0 ? "It never arrives." : `It arrives in event ${arrivals.join(" and ")}.`;
  const text = made("p", "", `Packet ${number}, ${from} to ${to}: ${words}. It is sent in event ${sent}. ${arrives}`);
  const deeds = made("div", "deeds");
  if (arrivals.length > 0) {
    deeds.append(deed("lose it", () => bend({ kind: "lose", packet: number })), deed("twice", () => bend({ kind: "twice", packet: number })));
  }
  const soon = Math.min(events, (arrivals[0] ?? sent) + 2);
  const field = Object.assign(made("input", ""), { type: "number", min: sent + 1, max: events, value: soon, ariaLabel: "event" });
  const word = arrivals.length > 0 ? "later: before event" : "let it arrive before event";
  deeds.append(deed(word, () => bend({ kind: "later", packet: number, event: Number(field.value) })), field);
  place.replaceChildren(text, deeds);
}
