"use strict";
// The journal on the page, and why a line of it came.

// How many lines of the journal are laid out together, where they are seen.
const TOGETHER = 50;

// The lines of the journal, each with the numbers of the promises of which it is an instance.
function showJournal(run) {
  const asked = askedOf(run.entries);
  const items = run.journal.replace(/\n$/, "").split("\n").map((text, number) => {
    const entry = run.entries[number - 1];
    const promises = entry ? promisesOf(entry, asked) : [];
    const line = String(number + 1).padStart(4);
    const data = entry ? ` class="of" data-line="${number + 1}"` : "";
    return `<li${data}>${line} <span class="promise">${promises.join(" ").padEnd(4)}</span><span>${escaped(text)}</span></li>`;
  });
  const lists = [];
  for (let first = 0; first < items.length; first += TOGETHER) lists.push(`<ol>${items.slice(first, first + TOGETHER).join("")}</ol>`);
  place("journal").innerHTML = lists.join("");
}

// Tells the promises of the line at which a reader points.
function tellPromises(item) {
  const { run } = current();
  const of = promisesOf(run.entries[Number(item.dataset.line) - 2], askedOf(run.entries));
  item.title = of.map((number) => `Promise ${number}: ${PROMISES[number]}`).join("\n");
}

// Goes to the event that made a line of the journal, and shows why the line came.
async function askWhy(line) {
  const { run } = current();
  const maker = run.events.find(({ firstEntry, entries }) => line - 2 < firstEntry + entries.length);
  if (maker) go(maker.number, true);
  const entry = run.entries[line - 2];
  const parts = [made("h2", "", `Why line ${line}: ${entry.text}`)];
  parts.push(...promisesOf(entry, askedOf(run.entries)).map((of) => made("p", "", `Promise ${of}: ${PROMISES[of]}`)));
  const led = document.body.classList.contains("stored") ? [] : await whyOf(run.schedule, line);
  if (led.length > 0) parts.push(made("p", "", "These events led to it, newest first:"), ledList(led));
  place("why").replaceChildren(...parts);
  markLed(shown.chart, led.map(({ number }) => number));
  place("why").scrollIntoView({ block: "nearest" });
}

function ledList(led) {
  const list = made("ul", "");
  list.append(...led.map((event) => {
    const item = made("li", "");
    const button = made("button", "word", `${event.number}: ${sentence(event)}`);
    button.type = "button";
    button.addEventListener("click", () => go(event.number, true));
    item.append(button);
    return item;
  }));
  return list;
}

// Marks the lines of the journal that are of an event; the first of them.
function markEntries(event) {
  const last = event.firstEntry + event.entries.length;
  const items = [...place("journal").querySelectorAll("li")];
  items.forEach((item, line) => item.classList.toggle("now", event.firstEntry < line && line <= last));
  return event.entries.length > 0 ? items[event.firstEntry + 1] : null;
}

// Scrolls the journal so that a line is seen.
function bringItem(item) {
  const list = place("journal");
  const above = item.getBoundingClientRect().top - list.getBoundingClientRect().top + list.scrollTop;
  if (above < list.scrollTop || above + 40 > list.scrollTop + list.clientHeight) list.scrollTop = above - list.clientHeight / 2;
}
